//! builder.rs: the bytes of instructions, as its public calls write them.

use monty::bytecode::{
    builder::CodeBuilder,
    op::{Opcode, Operand},
};

use super::{
    builder::{DEEP, code_size, emit, live_at},
    caught, refusal_of_error,
};

/// The bytes of one instruction that is no jump.
pub fn emitted(op: Opcode, operand: Operand<'_>) -> Vec<u8> {
    let depth = (-op.stack_effect(operand)).clamp(0, u16::MAX.into()) as u16;
    let mut builder = live_at(depth);
    // No depth suffices for the most pairs of BuildDict, but the bytes are written before the panic over that.
    match caught(|| emit(&mut builder, op, operand)) {
        Ok(Some(Ok(()))) | Err(4) => builder.build().bytecode().to_vec(),
        other => panic!("{op:?} {operand:?} is not emitted: {other:?}"),
    }
}

/// The refusal of a keyword call with too many names.
pub fn names_refused(op: Opcode, operand: Operand<'_>) -> u32 {
    let emission = emit(&mut live_at(DEEP), op, operand).expect("a public call writes keyword calls");
    refusal_of_error(&emission.expect_err("the names are too many"), true)
}

/// Code that holds a jump with this displacement, and where it stands. None where the Rust makes no such jump: to
/// its own operand, or where the depths at both ends can't be brought together over so short a way.
pub fn jump(op: Opcode, displacement: i16) -> Option<(Vec<u8>, usize)> {
    if displacement < 0 {
        jump_back(op, displacement)
    } else {
        jump_ahead(op, displacement)
    }
}

/// By `emit_jump` and `patch_jump`.
fn jump_ahead(op: Opcode, displacement: i16) -> Option<(Vec<u8>, usize)> {
    let mut way = usize::from(displacement.cast_unsigned());
    let mut builder = live_at(DEEP);
    let label = builder.emit_jump(op).expect("the depth is in range");
    let arrives = DEEP.checked_add_signed(op.jump_taken_stack_effect())?;
    if builder.is_dead() {
        builder.new_code_region(arrives);
    }
    while builder.stack_depth() != Some(arrives) {
        let nearer = if builder.stack_depth() < Some(arrives) {
            Opcode::LoadNone
        } else {
            Opcode::Pop
        };
        way = way.checked_sub(1)?;
        builder.emit(nearer).expect("the depth is in range");
    }
    emit_nops(&mut builder, way);
    builder.patch_jump(label).expect("the displacement is in range");
    Some((builder.build().bytecode().to_vec(), 0))
}

/// By `current_jump_target` and `emit_jump_to`.
fn jump_back(op: Opcode, displacement: i16) -> Option<(Vec<u8>, usize)> {
    let mut way = usize::from(displacement.unsigned_abs()).checked_sub(3)?;
    let mut builder = live_at(DEEP);
    let target = builder.current_jump_target();
    if op.jump_taken_stack_effect() != 0 {
        way = way.checked_sub(1)?;
        builder.emit(Opcode::LoadNone).expect("the depth is in range");
    }
    emit_nops(&mut builder, way);
    let at = code_size(&builder) as usize;
    builder.emit_jump_to(op, target).expect("the displacement is in range");
    Some((builder.build().bytecode().to_vec(), at))
}

fn emit_nops(builder: &mut CodeBuilder, count: usize) {
    for _ in 0..count {
        builder.emit(Opcode::Nop).expect("Nop moves no depth");
    }
}
