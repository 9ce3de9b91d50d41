//! builder.rs: what an instruction does to a live builder. Each question is put to a builder of its own.

use monty::{
    bytecode::{
        builder::CodeBuilder,
        compiler::CompileError,
        op::{Opcode, Operand},
    },
    intern::StringId,
};

use super::{caught, message_of, opcode, refusal_of_error, refusal_of_panic, rules::effect_of};
use crate::{
    operand::{Fields, operand},
    proved::Answer,
    tally::Expected,
};

/// Deep enough for every instruction whose counts are small.
pub(super) const DEEP: u16 = 2000;

/// A builder whose first region opens at `depth`.
pub(super) fn live_at(depth: u16) -> CodeBuilder {
    let mut builder = CodeBuilder::new();
    builder.new_code_region(depth);
    builder
}

pub(super) fn code_size(builder: &CodeBuilder) -> u32 {
    builder.current_offset().as_u32().expect("the code is short")
}

/// Emits by the public call for the operand's shape; none where that call has an opcode of its own, or, for a
/// displacement, takes jumps only.
pub(super) fn emit(builder: &mut CodeBuilder, op: Opcode, operand: Operand<'_>) -> Option<Result<(), CompileError>> {
    Some(match operand {
        Operand::None => builder.emit(op),
        Operand::U8(a) => builder.emit_u8(op, a),
        Operand::I8(a) => builder.emit_i8(op, a),
        Operand::U16(a) => builder.emit_u16(op, a),
        Operand::U8U8(a, b) => builder.emit_u8_u8(op, a, b),
        Operand::U16U8(a, b) => builder.emit_u16_u8(op, a, b),
        Operand::U16U16(a, b) => builder.emit_u16_u16(op, a, b),
        Operand::U16U8U8(a, b, c) => builder.emit_u16_u8_u8(op, a, b, c),
        Operand::U16U16U8(a, b, c) => builder.emit_name_op(op, a, StringId(b.into()), c),
        Operand::CallKw { pos_count, kwname_ids } if op == Opcode::CallFunctionKw => {
            builder.emit_call_function_kw(pos_count, kwname_ids)
        }
        Operand::CallAttrKw {
            attr_name_id,
            pos_count,
            kwname_ids,
        } if op == Opcode::CallAttrKw => builder.emit_call_attr_kw(attr_name_id, pos_count, kwname_ids),
        Operand::Offset(_) if is_jump(op) => builder.emit_jump(op).map(|_| ()),
        _ => return None,
    })
}

fn is_jump(op: Opcode) -> bool {
    message_of(|| op.jump_taken_stack_effect()).is_ok()
}

/// Whether the builder is dead after the instruction.
pub fn makes_dead(op: Opcode, operand: Operand<'_>) -> bool {
    let mut builder = live_at(DEEP);
    emit(&mut builder, op, operand)
        .expect("the operand is of the opcode's shape")
        .expect("the depth is in range");
    builder.is_dead()
}

/// How many bytes the instruction has.
pub fn size(op: Opcode, operand: Operand<'_>) -> u32 {
    let mut builder = live_at(DEEP);
    emit(&mut builder, op, operand)
        .expect("the operand is of the opcode's shape")
        .expect("the depth is in range");
    code_size(&builder)
}

/// The depth behind the instruction; refused by the header alone where the Rust has no such operand.
pub fn depth_after(depth: u16, byte: u8, shape: u8, fields: Fields) -> Expected<Answer> {
    let Some(op) = opcode(byte) else {
        return Expected::by_rust(Answer::refused(1));
    };
    match operand(shape, fields) {
        None => Expected::by_header(Answer::refused(2)),
        Some(operand) => Expected::by_rust(depth_behind(depth, op, operand)),
    }
}

fn depth_behind(depth: u16, op: Opcode, operand: Operand<'_>) -> Answer {
    let mut builder = live_at(depth);
    match caught(|| emit(&mut builder, op, operand)) {
        Err(refusal) => Answer::refused(refusal),
        Ok(Some(Ok(()))) => depth_held(&builder, depth, op, operand),
        Ok(Some(Err(error))) => {
            if code_size(&builder) == 0 {
                return depth_behind_its_double(depth, op, operand);
            }
            Answer::refused(refusal_of_error(&error, true))
        }
        // No public call pairs the two, so only stack_effect can refuse them.
        Ok(None) => effect_of(op, operand),
    }
}

/// The builder's depth. Behind the opcodes that make it dead it has none, but it went by the effect before that.
fn depth_held(builder: &CodeBuilder, depth: u16, op: Opcode, operand: Operand<'_>) -> Answer {
    let held = builder.stack_depth().map(i32::from);
    Answer::accepted(held.unwrap_or_else(|| i32::from(depth) + op.stack_effect(operand)))
}

/// `emit_jump` looks at the depth of the taken jump first, and where that is out of range it writes nothing and
/// the fall-through is never reached. An opcode of the same effect and no operand takes the jump's place.
fn depth_behind_its_double(depth: u16, op: Opcode, operand: Operand<'_>) -> Answer {
    let double = match op.stack_effect(operand) {
        -1 => Opcode::Pop,
        1 => Opcode::Dup,
        other => panic!("no opcode is set to stand for {op:?} with the effect {other}"),
    };
    depth_behind(depth, double, Operand::None)
}

/// The depth that a taken jump arrives with.
pub fn depth_taken(depth: u16, byte: u8) -> Answer {
    let Some(op) = opcode(byte) else {
        return Answer::refused(1);
    };
    let by_label = depth_of_label(depth, op);
    by_label.unwrap_or_else(|| depth_by_mismatch(depth, op))
}

/// By the label that `emit_jump` hands out, which shows its depth as it is printed. None where it hands out
/// none because the fall-through failed: then the instruction was written, or the depth fell below 0 behind it.
fn depth_of_label(depth: u16, op: Opcode) -> Option<Answer> {
    let mut builder = live_at(depth);
    match message_of(|| builder.emit_jump(op)) {
        Ok(Ok(label)) => Some(Answer::accepted(number_after(&format!("{label:?}"), "stack_depth: "))),
        Ok(Err(error)) if code_size(&builder) == 0 => Some(Answer::refused(refusal_of_error(&error, false))),
        Ok(Err(_)) => None,
        Err(message) => match refusal_of_panic(&message) {
            4 => None,
            refusal => Some(Answer::refused(refusal)),
        },
    }
}

/// By `emit_jump_to`, which panics over a target of another depth and says with which depth the jump arrives,
/// before it looks at the fall-through.
pub fn depth_by_mismatch(depth: u16, op: Opcode) -> Answer {
    // Two less, round the end: no taken effect is -2, and none leads round the end.
    let target = live_at(depth.wrapping_sub(2)).current_jump_target();
    let mut builder = live_at(depth);
    match message_of(|| builder.emit_jump_to(op, target)) {
        Ok(Ok(())) => panic!("{op:?} at depth {depth} jumps to another depth"),
        Ok(Err(error)) => Answer::refused(refusal_of_error(&error, code_size(&builder) > 0)),
        Err(message) if message.contains("arriving with depth ") => {
            Answer::accepted(number_after(&message, "arriving with depth "))
        }
        Err(message) => Answer::refused(refusal_of_panic(&message)),
    }
}

fn number_after(text: &str, mark: &str) -> i32 {
    let (_, rest) = text.split_once(mark).unwrap_or_else(|| panic!("no {mark:?} in {text}"));
    let digits = rest
        .split(|c: char| !c.is_ascii_digit())
        .next()
        .expect("split gives a part");
    digits
        .parse()
        .unwrap_or_else(|_| panic!("no number after {mark:?} in {text}"))
}
