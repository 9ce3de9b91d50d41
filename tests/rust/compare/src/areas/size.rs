//! The size of an instruction for every opcode byte and every count of keyword names: the Rust's builder has
//! grown by so many bytes.

use super::named;
use crate::{
    Plan,
    operand::{Fields, operand},
    original,
    proved::{self, Answer},
    tally::{Expected, Tally},
};

pub fn run(tally: &mut Tally, _: &mut Plan) {
    for byte in 0..=u8::MAX {
        let op = original::opcode(byte).map(|op| (op, original::shape(op)));
        for names in 0..=u8::MAX {
            let fields = Fields {
                names,
                ..Fields::default()
            };
            let expected = op.map_or(Answer::refused(1), |(op, shape)| {
                let operand = operand(shape, fields).expect("zero fits every field");
                Answer::accepted(original::size(op, operand).cast_signed())
            });
            tally.compare(
                proved::instruction_size(byte, names),
                Expected::by_rust(expected),
                || format!("{}, {names} names", named(byte)),
            );
        }
    }
}
