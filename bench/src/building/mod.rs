//! The builder called from Rust, beside the original CodeBuilder: by the crate, whose tables grow, and over tables that
//! are lent once. A rule is counted from a new builder up to what `build` gives.

#[macro_use]
mod calls;
mod bare;

use std::time::Instant;

use tokenfinch::{Table, lookups};

use crate::row;

rules_by! { original:
    pub use monty::bytecode::builder::CodeBuilder;
    use monty::{
        bytecode::{code::HandlerKind, compiler::CompileError as Refusal, op::Opcode},
        intern::StringId,
        parse::CodeRange,
        value::Value,
    };

    fn constant(number: u64) -> Value {
        Value(number)
    }
}

rules_by! { by_crate:
    pub use tokenfinch::CodeBuilder;
    use tokenfinch::{CodeRange, HandlerKind, Opcode, Refusal, StringId};

    fn constant(number: u64) -> u64 {
        number
    }
}

rules_by! { by_lent:
    pub use super::bare::CodeBuilder;
    use tokenfinch::{CodeRange, HandlerKind, Opcode, Refusal, StringId};

    fn constant(number: u64) -> u64 {
        number
    }
}

/// What a rule is made of; calls.rs has them.
#[derive(Clone, Copy, PartialEq, Eq, Debug)]
pub enum Shape {
    Emission,
    Loops,
    Keywords,
    ManyNames,
    Tables,
    Dead,
}

/// Some equal rules, one behind the other.
#[derive(Clone, Copy)]
pub struct Work {
    pub shape: Shape,
    pub turns: u32,
    pub rounds: u32,
}

/// What can be asked of a rule on every side: its bytes, and at some places location, handler, constant and name.
#[derive(PartialEq, Eq, Debug)]
pub struct Made {
    pub bytes: Vec<u8>,
    told: Vec<[Option<u32>; 2]>,
    held: Vec<(u64, Option<u32>)>,
}

impl Made {
    fn of(
        bytes: &[u8],
        work: Work,
        told: impl Fn(usize) -> [Option<u32>; 2],
        held: impl Fn(u16) -> (u64, Option<u32>),
    ) -> Self {
        let rows = if work.shape == Shape::Tables {
            work.turns
        } else {
            0
        };
        Self {
            bytes: bytes.to_vec(),
            told: (0..100).map(|i| told(i * bytes.len() / 100)).collect(),
            held: (0..rows as u16).map(held).collect(),
        }
    }
}

/// One way to build.
pub trait Side {
    /// Builds a rule and answers its size.
    fn size(&mut self, work: Work) -> usize;
    /// Builds a rule to be compared.
    fn made(&mut self, work: Work) -> Made;
}

pub struct Original;
pub struct ByCrate;
pub struct ByLent(bare::CodeBuilder);

impl Original {
    fn rule(work: Work) -> monty::bytecode::code::Code {
        let mut b = original::CodeBuilder::new();
        original::make(&mut b, work.shape, work.turns).expect("nothing is refused");
        b.build()
    }
}

impl Side for Original {
    fn size(&mut self, work: Work) -> usize {
        std::hint::black_box(Self::rule(work)).bytecode().len()
    }

    fn made(&mut self, work: Work) -> Made {
        let code = Self::rule(work);
        let told = |at| {
            let location = code.location_for_offset(at);
            let handler = code.find_exception_handler(at as u32);
            [
                location.map(|entry| entry.range().start),
                handler.map(|entry| entry.handler()),
            ]
        };
        let held = |i| (code.constant(i).0, code.local_name(i).map(|name| name.0));
        Made::of(code.bytecode(), work, told, held)
    }
}

impl ByCrate {
    fn rule(work: Work) -> tokenfinch::Code {
        let mut b = by_crate::CodeBuilder::new();
        by_crate::make(&mut b, work.shape, work.turns).expect("nothing is refused");
        b.build()
    }
}

impl Side for ByCrate {
    fn size(&mut self, work: Work) -> usize {
        std::hint::black_box(Self::rule(work)).bytecode().len()
    }

    fn made(&mut self, work: Work) -> Made {
        let code = Self::rule(work);
        let told = |at| {
            let location = code.location_for_offset(at);
            let handler = code.find_exception_handler(at as u32);
            [
                location.map(|entry| entry.range().start),
                handler.map(|entry| entry.handler()),
            ]
        };
        let held = |i| {
            (
                code.constant(i).expect("it was added"),
                code.local_name(i).map(|name| name.0),
            )
        };
        Made::of(code.bytecode(), work, told, held)
    }
}

impl Default for ByLent {
    fn default() -> Self {
        Self(bare::CodeBuilder::with_room())
    }
}

impl Side for ByLent {
    fn size(&mut self, work: Work) -> usize {
        self.0.begin();
        by_lent::make(&mut self.0, work.shape, work.turns).expect("nothing is refused");
        self.0.held.build(0).expect("each label is patched");
        std::hint::black_box(&self.0.held).count(Table::Code) as usize
    }

    fn made(&mut self, work: Work) -> Made {
        let size = self.size(work);
        let held = &self.0.held;
        let used = |table| 6 * held.count(table) as usize;
        let locations = &held.locations[..used(Table::Locations)];
        let exceptions = &held.exceptions[..used(Table::Exceptions)];
        let told = |at| {
            let location = lookups::location_for_offset(locations, at);
            let handler = lookups::find_exception_handler(exceptions, at as u32);
            [
                location.map(|row| row.cells[1]),
                handler.map(|row| row.cells[2]),
            ]
        };
        let held = |i: u16| {
            (
                held.constants[usize::from(i)],
                lookups::local_name(&held.names, i.into()),
            )
        };
        Made::of(&self.0.held.code[..size], work, told, held)
    }
}

/// Does the work and answers the seconds that it took.
fn seconds(side: &mut dyn Side, work: Work) -> f64 {
    let begun = Instant::now();
    for _ in 0..work.rounds {
        std::hint::black_box(side.size(work));
    }
    begun.elapsed().as_secs_f64()
}

/// Rules of the program `emission`'s kind, a million instructions in all.
const fn million(turns: u32) -> Work {
    Work {
        shape: Shape::Emission,
        turns,
        rounds: 1_000_000 / (7 * turns + 4),
    }
}

/// What is measured. A rule of 500,000 such instructions is nearly as long as the builder takes one.
pub const WORKS: [(&str, Work); 10] = [
    (
        "10 million in rules of 17,500",
        Work {
            rounds: 572,
            ..million(2_500)
        },
    ),
    ("1 million in rules of 74", million(10)),
    ("1 million in rules of 10 thousand", million(1_428)),
    ("1 million in rules of 100 thousand", million(14_285)),
    ("1 million in rules of 500 thousand", million(71_428)),
    (
        "300,000, a jump back in each four",
        Work {
            shape: Shape::Loops,
            turns: 75_000,
            rounds: 1,
        },
    ),
    (
        "360,000, a keyword call in each three",
        Work {
            shape: Shape::Keywords,
            turns: 60_000,
            rounds: 1,
        },
    ),
    (
        "2,000 calls of 255 names",
        Work {
            shape: Shape::ManyNames,
            turns: 2_000,
            rounds: 1,
        },
    ),
    (
        "60,000 constants, names and handlers",
        Work {
            shape: Shape::Tables,
            turns: 60_000,
            rounds: 1,
        },
    ),
    (
        "1 million calls in dead code",
        Work {
            shape: Shape::Dead,
            turns: 1_000_000,
            rounds: 1,
        },
    ),
];

/// Two lines of the table for each work: the crate, and the lent tables, in one run beside the original.
pub fn measure(repetitions: usize) {
    let mut lent = ByLent::default();
    for (what, work) in WORKS {
        let rule = Original.made(work);
        assert!(
            rule == ByCrate.made(work),
            "{what}: the crate's rule differs"
        );
        assert!(
            rule == lent.made(work),
            "{what}: the rule in lent tables differs"
        );
        let mut times = [Vec::new(), Vec::new(), Vec::new()];
        for _ in 0..repetitions {
            let sides: [&mut dyn Side; 3] = [&mut ByCrate, &mut lent, &mut Original];
            for (side, times) in sides.into_iter().zip(&mut times) {
                times.push(seconds(side, work));
            }
        }
        let [mut by_crate, mut by_lent, mut original] = times;
        row(&format!("crate: {what}"), &mut by_crate, &mut original);
        row(&format!("lent: {what}"), &mut by_lent, &mut original);
    }
}
