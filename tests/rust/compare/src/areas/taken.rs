//! The effect of a taken jump, for every opcode byte.

use super::named;
use crate::{
    Plan, original, proved,
    tally::{Expected, Tally},
};

pub fn run(tally: &mut Tally, _: &mut Plan) {
    for byte in 0..=u8::MAX {
        let expected = Expected::by_rust(original::taken_effect(byte));
        tally.compare(proved::jump_taken_stack_effect(byte), expected, || named(byte));
    }
}
