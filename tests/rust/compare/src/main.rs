//! Holds the proved library against the original Rust: each area of rules is called with the same
//! arguments on both sides, and every answer must be the same. What the Rust does not have, as a decoder, is held
//! against a reference that was written for this from the rules' text.
//!
//! Usage: compare [--quick] [--seed NUMBER]

mod areas;
mod operand;
mod original;
mod proved;
mod random;
mod reference;
mod script;
mod tally;

use std::{
    env,
    process::ExitCode,
    sync::{
        Mutex,
        atomic::{AtomicUsize, Ordering},
    },
    thread,
    time::Instant,
};

use random::Random;
use tally::Tally;

const SEED: u64 = 0x746f_6b65_6e66_696e;

/// How much a run tries.
pub struct Plan {
    /// Takes samples where the whole run takes every value.
    pub quick: bool,
    pub random: Random,
}

impl Plan {
    /// `whole`, or `sample` in a quick run.
    pub fn amount(&self, whole: usize, sample: usize) -> usize {
        if self.quick { sample } else { whole }
    }
}

fn main() -> ExitCode {
    let (quick, seed) = match read_arguments() {
        Ok(read) => read,
        Err(why) => {
            eprintln!("compare: {why}\nusage: compare [--quick] [--seed NUMBER]");
            return ExitCode::from(2);
        }
    };
    original::hush_caught_panics();
    original::check_build();
    println!("compare: seed {seed}{}", if quick { ", quick" } else { "" });
    if run_areas(quick, seed) {
        ExitCode::SUCCESS
    } else {
        ExitCode::FAILURE
    }
}

fn read_arguments() -> Result<(bool, u64), String> {
    let (mut quick, mut seed) = (false, SEED);
    let mut words = env::args().skip(1);
    while let Some(word) = words.next() {
        match word.as_str() {
            "--quick" => quick = true,
            "--seed" => {
                let number = words.next().ok_or("--seed wants a number")?;
                seed = number.parse().map_err(|_| format!("no seed: {number}"))?;
            }
            _ => return Err(format!("unknown argument: {word}")),
        }
    }
    Ok((quick, seed))
}

/// Runs every area, as many at a time as there are processors, and says what each compared; true where there was something in
/// each, and no difference. The longest begin first. An area has random numbers of its own, so that it is the same run beside
/// any others.
fn run_areas(quick: bool, seed: u64) -> bool {
    let begun = AtomicUsize::new(areas::ALL.len());
    let totals = Mutex::new(Totals::default());
    let workers = thread::available_parallelism().map_or(1, usize::from);
    thread::scope(|scope| {
        for _ in 0..workers {
            scope.spawn(|| {
                while let Ok(left) = begun.fetch_update(Ordering::Relaxed, Ordering::Relaxed, |n| n.checked_sub(1)) {
                    let (name, run) = areas::ALL[left - 1];
                    let random = Random::new(seed ^ (left as u64) << 32);
                    let told = run_area(name, run, Plan { quick, random });
                    totals.lock().expect("no area panics").add(&told);
                }
            });
        }
    });
    let totals = totals.into_inner().expect("no area panics");
    println!(
        "compare: {} comparisons, {} differences",
        totals.comparisons, totals.differences
    );
    totals.differences == 0 && totals.empty == 0
}

/// Runs one area and prints its line.
fn run_area(name: &'static str, run: areas::Area, mut plan: Plan) -> Tally {
    let begun = Instant::now();
    let mut tally = Tally::new(name);
    run(&mut tally, &mut plan);
    println!("{tally}, {:.1} s", begun.elapsed().as_secs_f64());
    if tally.is_empty() {
        println!("compare: {name} compared nothing");
    }
    tally
}

/// What all areas come to.
#[derive(Default)]
struct Totals {
    comparisons: u64,
    differences: u64,
    empty: u64,
}

impl Totals {
    fn add(&mut self, tally: &Tally) {
        self.comparisons += tally.comparisons();
        self.differences += tally.differences();
        self.empty += u64::from(tally.is_empty());
    }
}
