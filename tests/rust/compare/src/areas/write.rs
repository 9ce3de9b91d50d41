//! The writer beside the Rust's builder: the same bytes at the front of what is lent, and no other byte changed;
//! every kind of refusal changes nothing.

use super::{
    instructions::{Instruction, each_instruction},
    named,
};
use crate::{
    Plan,
    operand::{Fields, SHAPES, has_names, operand_naming, random_fields},
    original,
    proved::{self, Answer},
    tally::{Expected, Tally},
};

const COUNTS: [usize; 7] = [0, 1, 2, 255, 256, 257, 300];

pub fn run(tally: &mut Tally, plan: &mut Plan) {
    each_instruction(plan, |plan, instruction| {
        written(tally, plan, instruction);
        without_room(tally, plan, instruction);
    });
    refused(tally, plan);
}

fn written(tally: &mut Tally, plan: &mut Plan, instruction: &Instruction) {
    let bytes = instruction.bytes();
    let filling = plan.random.u8();
    let mut out = vec![filling; bytes.len() + 4];
    let room = bytes.len() + plan.random.below(4);
    let answer = write(&mut out[..room], instruction);
    let mut expected = vec![filling; bytes.len() + 4];
    expected[..bytes.len()].copy_from_slice(bytes);
    let expected = Expected::by_rust((Answer::accepted(bytes.len() as i32), expected));
    tally.compare((answer, out), expected, || {
        format!("{}, {instruction:?}", named(instruction.byte))
    });
}

fn without_room(tally: &mut Tally, plan: &mut Plan, instruction: &Instruction) {
    let room = plan.random.below(instruction.size);
    let filling = plan.random.u8();
    let mut out = vec![filling; instruction.size];
    let answer = write(&mut out[..room], instruction);
    let expected = Expected::by_header((Answer::naming(18, 1), vec![filling; instruction.size]));
    tally.compare((answer, out), expected, || {
        format!("{}, room {room}, {instruction:?}", named(instruction.byte))
    });
}

fn write(out: &mut [u8], instruction: &Instruction) -> Answer {
    let &Instruction {
        byte,
        shape,
        fields,
        ref names,
        ..
    } = instruction;
    proved::write(out, byte, shape, fields, names)
}

/// Every opcode byte with every shape byte, with names and without, with values too wide for their field.
fn refused(tally: &mut Tally, plan: &mut Plan) {
    let names: Vec<u16> = (0..1_000).map(|_| plan.random.u16()).collect();
    for byte in 0..=u8::MAX {
        for shape in 0..=u8::MAX {
            let counts = if shape < SHAPES || !plan.quick { COUNTS.len() } else { 1 };
            for &count in &COUNTS[..counts] {
                let fields = random_fields(shape, &mut plan.random);
                let at = plan.random.below(names.len() - count);
                let names = &names[at..at + count];
                wrong(tally, plan, byte, shape, fields, names);
                let wide = Fields {
                    a: 256 + plan.random.u16() / 2,
                    b: 256 + plan.random.u16() / 2,
                    ..fields
                };
                wrong(tally, plan, byte, shape, wide, names);
            }
        }
    }
}

/// Compares where something is wrong with the arguments; room is there or not.
fn wrong(tally: &mut Tally, plan: &mut Plan, byte: u8, shape: u8, fields: Fields, names: &[u16]) {
    let Some(expected) = refusal(byte, shape, fields, names) else {
        return;
    };
    let filling = plan.random.u8();
    let mut out = vec![filling; 640];
    let room = if plan.random.below(2) == 0 {
        640
    } else {
        plan.random.below(8)
    };
    let answer = proved::write(&mut out[..room], byte, shape, fields, names);
    let expected = Expected {
        answer: (expected.answer, vec![filling; 640]),
        by: expected.by,
    };
    tally.compare((answer, out), expected, || {
        format!(
            "{}, shape {shape}, {fields:?}, {} names, room {room}",
            named(byte),
            names.len()
        )
    });
}

/// 1, 7, then 2; none where nothing is wrong.
fn refusal(byte: u8, shape: u8, fields: Fields, names: &[u16]) -> Option<Expected<Answer>> {
    let Some(op) = original::opcode(byte) else {
        return Some(Expected::by_rust(Answer::refused(1)));
    };
    let right = original::effect(byte, shape, fields);
    let accepted = right.answer != Answer::refused(2);
    if names.len() > 255 {
        // The Rust has a call for keyword calls alone.
        return Some(match operand_naming(shape, fields, names) {
            Some(operand) if accepted && has_names(shape) => {
                Expected::by_rust(Answer::refused(original::names_refused(op, operand)))
            }
            _ => Expected::by_header(Answer::refused(7)),
        });
    }
    if !accepted {
        return Some(right);
    }
    let astray = !has_names(shape) && !names.is_empty();
    astray.then(|| Expected::by_header(Answer::refused(2)))
}
