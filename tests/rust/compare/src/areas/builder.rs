//! The builder through the program `replay`: programs that a generator makes and scripts that walk the limits, beside the
//! original Rust and the rules' text; tampered states, pokes and lines that are none beside the text; the stored script.

use crate::{
    Plan,
    script::{self, Refusals, Script},
    tally::Tally,
};

pub fn run(tally: &mut Tally, plan: &mut Plan) {
    let program = script::replay();
    let mut refusals = Refusals::default();
    let calls = plan.amount(1_500_000, 60_000);
    for made in script::programs(&mut plan.random, calls) {
        made.run(tally, &mut refusals, &program, "a program");
    }
    for (what, made) in script::limits() {
        made.run(tally, &mut refusals, &program, what);
    }
    let lines = plan.amount(400_000, 20_000);
    script::tampered(&mut plan.random, lines).run(tally, &mut refusals, &program, "tampered");
    script::noise(&mut plan.random, lines / 4).run(tally, &mut refusals, &program, "noise");
    script::records(&mut plan.random, lines / 4).run(tally, &mut refusals, &program, "two records");
    let (stdin, stdout) = script::stored();
    let stdout = String::from_utf8(stdout).expect("stored answers are ASCII");
    Script::of(&stdin).compare(tally, &mut refusals, &stdout, "the stored script");
    println!("{refusals}");
}
