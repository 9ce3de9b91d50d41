//! The depth that a taken jump arrives with: jumps at every depth, other opcodes at the ends of the range.

use super::named;
use crate::{
    Plan, original,
    proved::{self, Answer},
    tally::{Expected, Tally},
};

const DEPTH_EDGES: [u16; 8] = [0, 1, 2, 3, 32768, 65533, 65534, 65535];

pub fn run(tally: &mut Tally, plan: &mut Plan) {
    for byte in 0..=u8::MAX {
        for depth in DEPTH_EDGES {
            one(tally, depth, byte, original::depth_taken(depth, byte));
            if let Some(op) = original::opcode(byte) {
                one(tally, depth, byte, original::depth_by_mismatch(depth, op));
            }
        }
        if original::taken_effect(byte) != Answer::refused(3) && original::opcode(byte).is_some() {
            for depth in (0..=u16::MAX).step_by(plan.amount(1, 97)) {
                one(tally, depth, byte, original::depth_taken(depth, byte));
            }
        }
    }
}

fn one(tally: &mut Tally, depth: u16, byte: u8, expected: Answer) {
    tally.compare(proved::depth_taken(depth, byte), Expected::by_rust(expected), || {
        format!("depth {depth}, {}", named(byte))
    });
}
