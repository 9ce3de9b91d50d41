//! The opcode rules on plain numbers, as C has them: for opcodes that may be none and operands that may not fit. Code
//! that knows what it holds uses [`Opcode`](crate::Opcode) and [`Operand`](crate::Operand).

use crate::{Refusal, sys};

/// The number of the opcode's shape.
///
/// # Errors
/// 1.
pub fn operand_shape(opcode: u8) -> Result<u8, Refusal> {
    sys::operand_shape(opcode).value().map(|shape| shape as u8)
}

/// What the instruction does to the depth where it falls through. A signed number is given by its bits, and what the
/// shape does not use is not looked at.
///
/// # Errors
/// 1; 2 where the shape is not the opcode's, is none, or a number is too large for its field.
pub fn stack_effect(opcode: u8, shape: u8, a: u16, b: u16, c: u8, names: u8) -> Result<i32, Refusal> {
    sys::stack_effect(opcode, shape, a, b, c, names).signed()
}

/// What a jump does to the depth where it is taken.
///
/// # Errors
/// 1, 3.
pub fn jump_taken_stack_effect(opcode: u8) -> Result<i32, Refusal> {
    sys::jump_taken_stack_effect(opcode).signed()
}

/// Whether nothing runs on behind the instruction.
///
/// # Errors
/// 1.
pub fn makes_dead(opcode: u8) -> Result<bool, Refusal> {
    sys::makes_dead(opcode).value().map(|dead| dead != 0)
}

/// The depth behind the instruction, where it stood at `depth` and falls through.
///
/// # Errors
/// 1, 2 as [`stack_effect`]; then 4 below 0 and 5 above 65,535.
pub fn depth_after(depth: u16, opcode: u8, shape: u8, a: u16, b: u16, c: u8, names: u8) -> Result<u16, Refusal> {
    sys::depth_after(depth, opcode, shape, a, b, c, names)
        .value()
        .map(|depth| depth as u16)
}

/// The depth that a taken jump arrives with, where it stood at `depth`.
///
/// # Errors
/// 1, 3; then 4 below 0.
pub fn depth_taken(depth: u16, opcode: u8) -> Result<u16, Refusal> {
    sys::depth_taken(depth, opcode).value().map(|depth| depth as u16)
}

/// The instruction's size in bytes with so many keyword names, which count only where its shape has names.
///
/// # Errors
/// 1.
pub fn instruction_size(opcode: u8, names: u8) -> Result<usize, Refusal> {
    sys::instruction_size(opcode, names).value().map(|size| size as usize)
}

/// Writes the opcode's name to the front of `out` and answers its length, 3 to 20.
///
/// # Errors
/// 1, 18.
pub fn opcode_name(opcode: u8, out: &mut [u8]) -> Result<usize, Refusal> {
    sys::opcode_name(opcode, out).value().map(|length| length as usize)
}

/// The flags byte of an assert by a comparison's number: 0 for 10, which is none; 0x10 to 0x19 for 0 to 9; else 0xFF.
#[must_use]
pub fn assert_flags(comparison: u8) -> u8 {
    sys::tf_assert_flags(comparison)
}

/// The comparison's number of a flags byte: 0 to 9, 10 for none, 11 for a byte that is no assert's.
#[must_use]
pub fn decode_assert_flags(flags: u8) -> u8 {
    sys::tf_decode_assert_flags(flags)
}
