//! Whether every opcode byte makes the code dead: the Rust's builder says so after the instruction, whatever
//! the operand's bytes.

use super::named;
use crate::{
    Plan,
    operand::{Fields, operand},
    original,
    proved::{self, Answer},
    tally::{Expected, Tally},
};

/// Small, so that the depth suffices; 0x10 and 4 are flags of some opcodes.
const VALUES: [u16; 5] = [0, 1, 4, 0x10, 0xff];

pub fn run(tally: &mut Tally, _: &mut Plan) {
    for byte in 0..=u8::MAX {
        let answer = proved::makes_dead(byte);
        for value in VALUES {
            let expected = Expected::by_rust(expected(byte, value));
            tally.compare(answer, expected, || format!("{}, operand values {value}", named(byte)));
        }
    }
}

fn expected(byte: u8, value: u16) -> Answer {
    let Some(op) = original::opcode(byte) else {
        return Answer::refused(1);
    };
    let fields = Fields {
        a: value,
        b: value,
        c: value as u8,
        names: value as u8,
    };
    let operand = operand(original::shape(op), fields).expect("the values fit every field");
    Answer::accepted(original::makes_dead(op, operand).into())
}
