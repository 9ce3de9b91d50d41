//! The checker's strict mode: every opcode with one value less than it needs, with as many and with one more, alone and in
//! the middle of code, beside the reference; and what the two modes answer, beside each other.

use super::{
    checks::long,
    explained::{self, Case},
};
use crate::{
    Plan, original,
    proved::{self, Answer, Lent},
    reference::{
        Decoder,
        depths::{Mode, need},
    },
    tally::{Expected, Tally},
};

pub fn run(tally: &mut Tally, plan: &mut Plan) {
    let decoder = Decoder::new();
    for byte in 0..=u8::MAX {
        let Some(op) = original::opcode(byte) else { continue };
        let need = need(op) as u32;
        for depth in need.saturating_sub(1)..=need + 1 {
            // Room for any operand; the numbers are 0, and what is left of them are Pops.
            let alone = vec![byte, 0, 0, 0, 0, 0];
            let behind = [&[105, 5, 0][..], &alone, &[101, 23]].concat();
            for code in [alone, behind] {
                let starts = vec![0, depth];
                let case = Case { code, starts };
                explained::one(tally, &decoder, &mut plan.random, &case);
                beside(tally, &case);
            }
        }
    }
    for _ in 0..plan.amount(60_000, 3_000) {
        beside(tally, &long(&mut plan.random));
    }
}

/// What strict mode accepts the old mode accepts, with the same cells and greatest depth; what it refuses with another number
/// than 26 the old mode refuses with the same; and 26 comes where the old mode accepts.
fn beside(tally: &mut Tally, case: &Case) {
    let [old, strict] = Mode::BOTH.map(|mode| checked(mode, case));
    if strict.0.refusal() == 26 {
        tally.compare(old.0.refusal(), Expected::by_text(0), || {
            format!("the old mode where strict mode says 26 of {case}")
        });
    } else {
        tally.compare(&strict, Expected::by_text(&old), || format!("both modes of {case}"));
    }
}

fn checked(mode: Mode, case: &Case) -> (Answer, Lent) {
    let mut lent = Lent::just(&case.code);
    (proved::check(mode as u8, &case.code, &case.starts, &mut lent), lent)
}
