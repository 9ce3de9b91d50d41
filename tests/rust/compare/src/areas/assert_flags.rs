//! The flags byte of an assert, both ways: every number of a comparison and every byte.

use monty::{
    bytecode::op::{assert_flags, decode_assert_flags},
    expressions::CmpOperator,
};

use crate::{
    Plan, proved,
    tally::{Expected, Tally},
};

/// The header's numbers beside the comparisons' own.
const NO_COMPARISON: u8 = 10;
const INVALID: u8 = 11;
const NO_FLAGS: u8 = 0xff;

pub fn run(tally: &mut Tally, _: &mut Plan) {
    for number in 0..=u8::MAX {
        tally.compare(proved::assert_flags(number), flags(number), || {
            format!("flags of comparison {number}")
        });
        tally.compare(proved::decode_assert_flags(number), comparison(number), || {
            format!("flags {number}")
        });
    }
}

fn flags(number: u8) -> Expected<u8> {
    match CmpOperator::from_repr(number) {
        Some(op) => Expected::by_rust(assert_flags(Some(op))),
        None if number == NO_COMPARISON => Expected::by_rust(assert_flags(None)),
        None => Expected::by_header(NO_FLAGS),
    }
}

fn comparison(flags: u8) -> Expected<u8> {
    Expected::by_rust(match decode_assert_flags(flags) {
        Some(Some(op)) => op.as_operand(),
        Some(None) => NO_COMPARISON,
        None => INVALID,
    })
}
