//! 64-bit FNV-1a as a Rust programmer writes it.

use crate::original;

const OFFSET_BASIS: u64 = 0xcbf2_9ce4_8422_2325;
const PRIME: u64 = 0x0100_0000_01b3;

pub fn fnv1a(bytes: impl IntoIterator<Item = u8>) -> u64 {
    let mix = |hash: u64, byte| (hash ^ u64::from(byte)).wrapping_mul(PRIME);
    bytes.into_iter().fold(OFFSET_BASIS, mix)
}

/// Of the opcode table: of each opcode its byte, its name, a zero byte and its shape's number, by the original's own names and
/// shapes.
pub fn fingerprint() -> u64 {
    let known = (0..=u8::MAX).filter_map(original::opcode);
    fnv1a(known.flat_map(|op| [&[op as u8], format!("{op:?}").as_bytes(), &[0, original::shape(op)]].concat()))
}
