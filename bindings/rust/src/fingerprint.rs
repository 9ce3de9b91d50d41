//! One number for the whole opcode table, and the hash that it is made with.

use crate::sys;

/// The fingerprint of the opcode table: [`fnv1a`] of the bytes that there are for each opcode from 0 on, its byte, its
/// name, a zero byte and the number of its shape. Where those of two installations differ, some opcode has another name
/// or shape in one of them; where they are the same, the tables are too, as far as a hash of 64 bits can say.
///
/// ```
/// use tokenfinch::{Opcode, fnv1a, opcode_fingerprint};
///
/// let table = Opcode::ALL.iter().flat_map(|opcode| {
///     let mut bytes = vec![*opcode as u8];
///     bytes.extend(format!("{opcode:?}").bytes());
///     bytes.extend([0, opcode.operand_shape() as u8]);
///     bytes
/// });
/// assert_eq!(opcode_fingerprint(), fnv1a(&table.collect::<Vec<u8>>()));
/// assert_eq!(format!("{:016x}", opcode_fingerprint()), "47f48e5e55da518f");
/// ```
#[must_use]
pub fn opcode_fingerprint() -> u64 {
    sys::tf_fingerprint()
}

/// The 64-bit FNV-1a hash of any bytes. Where one byte is replaced by another and nothing else is changed, it is another;
/// after any other change it can be the same by chance, or because somebody means it to be.
///
/// ```
/// assert_eq!(tokenfinch::fnv1a(b"foobar"), 0x8594_4171_f739_67e8);
/// ```
#[must_use]
pub fn fnv1a(bytes: &[u8]) -> u64 {
    sys::fnv1a(bytes)
}
