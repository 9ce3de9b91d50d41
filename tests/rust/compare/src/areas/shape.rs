//! The shape of every opcode byte.

use super::named;
use crate::{
    Plan, original,
    proved::{self, Answer},
    tally::{Expected, Tally},
};

pub fn run(tally: &mut Tally, _: &mut Plan) {
    for byte in 0..=u8::MAX {
        let shape = original::opcode(byte).map(original::shape);
        let expected = shape.map_or(Answer::refused(1), |number| Answer::accepted(number.into()));
        tally.compare(proved::operand_shape(byte), Expected::by_rust(expected), || named(byte));
    }
}
