//! op.rs: opcodes, shapes and effects.

use monty::{
    OP_TEXT,
    bytecode::op::{Opcode, Operand},
    expressions::CmpOperator,
};
use strum::IntoEnumIterator;

use super::{caught, message_of};
use crate::{
    operand::{Fields, SHAPES, operand},
    proved::Answer,
    tally::Expected,
};

pub fn opcode(byte: u8) -> Option<Opcode> {
    Opcode::from_repr(byte)
}

/// The number of the opcode's shape. op.rs keeps it private, but `stack_effect` refuses each operand of
/// another shape, and names the right one as it does.
pub fn shape(op: Opcode) -> u8 {
    let tried = (0..SHAPES).map(|number| (number, shape_that_refused(op, number)));
    let (refused, accepted): (Vec<_>, Vec<_>) = tried.partition(|(_, named)| named.is_some());
    let [(number, _)] = accepted[..] else {
        panic!("{op:?} takes operands of {} shapes", accepted.len());
    };
    let name = shape_name(number);
    let agree = refused.iter().all(|(_, named)| named.as_deref() == Some(name));
    assert!(agree, "{op:?} takes {name}, but its panics name another shape");
    number
}

/// The name of the opcode's shape, as the panic over an operand of shape `number` tells it; none if there is no panic.
fn shape_that_refused(op: Opcode, number: u8) -> Option<String> {
    let given = operand(number, Fields::default()).expect("zero fits every field");
    let message = message_of(|| op.stack_effect(given)).err()?;
    let (_, rest) = message.split_once("left: ").expect("the panic shows both shapes");
    rest.split_whitespace().next().map(str::to_owned)
}

/// The shape's name beside its number in op.rs's enum `OperandShape`.
fn shape_name(number: u8) -> &'static str {
    let (_, body) = OP_TEXT.split_once("enum OperandShape {").expect("op.rs has the enum");
    let (body, _) = body.split_once('}').expect("the enum ends");
    let ending = format!(" = {number},");
    let line = body.lines().find(|line| line.ends_with(&ending));
    line.expect("each shape has a line").trim().trim_end_matches(&ending)
}

/// What falling through does to the depth; refused by the header alone where the Rust has no such operand.
pub fn effect(byte: u8, shape: u8, fields: Fields) -> Expected<Answer> {
    let Some(op) = opcode(byte) else {
        return Expected::by_rust(Answer::refused(1));
    };
    match operand(shape, fields) {
        None => Expected::by_header(Answer::refused(2)),
        Some(operand) => Expected::by_rust(effect_of(op, operand)),
    }
}

pub(super) fn effect_of(op: Opcode, operand: Operand<'_>) -> Answer {
    caught(|| op.stack_effect(operand)).map_or_else(Answer::refused, Answer::accepted)
}

pub fn taken_effect(byte: u8) -> Answer {
    let Some(op) = opcode(byte) else {
        return Answer::refused(1);
    };
    caught(|| op.jump_taken_stack_effect()).map_or_else(Answer::refused, |effect| Answer::accepted(effect.into()))
}

/// The derives' stand-ins give what strum's would.
pub(super) fn check_stand_ins() {
    let bytes: Vec<u8> = Opcode::iter().map(|op| op as u8).collect();
    assert!(bytes.iter().copied().eq(0..=130), "EnumIter walks {bytes:?}");
    let read = (0..=u8::MAX).filter_map(opcode).map(|op| op as u8);
    assert!(read.eq(bytes), "FromRepr does not find each opcode by its byte");
    let texts: Vec<String> = CmpOperator::iter().map(|op| format!("{op} {}", op.as_str())).collect();
    assert_eq!(
        texts,
        [
            "== ==",
            "!= !=",
            "< <",
            "<= <=",
            "> >",
            ">= >=",
            "is is",
            "is not is not",
            "in in",
            "not in not in"
        ]
    );
}

/// The numbers that `operand` goes by are op.rs's.
pub(super) fn check_shape_numbers() {
    for number in 0..SHAPES {
        let given = format!(
            "{:?}",
            operand(number, Fields::default()).expect("zero fits every field")
        );
        let name = given.split(['(', ' ']).next().expect("a name stands first");
        assert_eq!(name, shape_name(number), "shape {number}");
    }
}
