//! Operands as the header has them (a shape's number and four fields), and the Rust's beside them.

use monty::bytecode::{builder::RelativeOffset, op::Operand};

use crate::random::Random;

/// Shapes are numbered 0 to 11.
pub const SHAPES: u8 = 12;

/// Of the numbers of 16 bits, those next to which a mistake is likely.
pub const WORD_EDGES: [u16; 12] = [0, 1, 2, 127, 128, 255, 256, 257, 32767, 32768, 65534, 65535];

/// The same for 8 bits, with the flag bits of the opcodes that have them.
pub const BYTE_EDGES: [u16; 17] = [0, 1, 2, 3, 4, 5, 7, 8, 15, 16, 17, 31, 32, 127, 128, 254, 255];

/// What the header passes for an operand.
#[derive(Clone, Copy, Debug, Default)]
pub struct Fields {
    pub a: u16,
    pub b: u16,
    pub c: u8,
    pub names: u8,
}

/// What a shape takes a field for.
#[derive(Clone, Copy, PartialEq, Eq)]
pub enum Width {
    Unused,
    Byte,
    Word,
}

/// The widths of a, b, c and names, by the shape's number; of a number that is no shape, nothing is used.
pub fn widths(shape: u8) -> [Width; 4] {
    use Width::{Byte, Unused, Word};
    match shape {
        1 | 2 => [Byte, Unused, Unused, Unused],
        3 | 4 => [Word, Unused, Unused, Unused],
        5 => [Byte, Byte, Unused, Unused],
        6 => [Word, Byte, Unused, Unused],
        7 => [Word, Word, Unused, Unused],
        8 => [Word, Byte, Byte, Unused],
        9 => [Byte, Unused, Unused, Byte],
        10 => [Word, Byte, Unused, Byte],
        11 => [Word, Word, Byte, Unused],
        _ => [Unused; 4],
    }
}

/// The Rust's operand; none where the number is no shape's or a field is too wide. Its keyword names are all 0.
pub fn operand(shape: u8, fields: Fields) -> Option<Operand<'static>> {
    static NAMES: [u16; 255] = [0; 255];
    operand_naming(shape, fields, &NAMES[..usize::from(fields.names)])
}

/// The same with these keyword names.
pub fn operand_naming(shape: u8, fields: Fields, kwname_ids: &[u16]) -> Option<Operand<'_>> {
    let Fields { a, b, c, .. } = fields;
    let byte = |field: u16| u8::try_from(field).ok();
    Some(match shape {
        0 => Operand::None,
        1 => Operand::U8(byte(a)?),
        2 => Operand::I8(byte(a)?.cast_signed()),
        3 => Operand::U16(a),
        4 => Operand::Offset(relative_offset(a.cast_signed())),
        5 => Operand::U8U8(byte(a)?, byte(b)?),
        6 => Operand::U16U8(a, byte(b)?),
        7 => Operand::U16U16(a, b),
        8 => Operand::U16U8U8(a, byte(b)?, c),
        9 => Operand::CallKw {
            pos_count: byte(a)?,
            kwname_ids,
        },
        10 => Operand::CallAttrKw {
            attr_name_id: a,
            pos_count: byte(b)?,
            kwname_ids,
        },
        11 => Operand::U16U16U8(a, b, c),
        _ => return None,
    })
}

/// A displacement. The Rust makes these only inside its builder, around one i16; its own reader says whether
/// this one is right.
fn relative_offset(displacement: i16) -> RelativeOffset {
    // SAFETY: a struct whose one field is an i16, and of its size (else this would not compile).
    let offset = unsafe { std::mem::transmute::<i16, RelativeOffset>(displacement) };
    assert_eq!(offset.as_i16(), displacement, "RelativeOffset is no longer one i16");
    offset
}

/// Whether a shape has keyword names.
pub fn has_names(shape: u8) -> bool {
    widths(shape)[3] != Width::Unused
}

/// The operand's values as tf_step gives them: 0 where the shape has none.
pub fn used_values(shape: u8, fields: Fields) -> [u64; 3] {
    let [a, b, c, _] = widths(shape);
    let used = |width, value| if width == Width::Unused { 0 } else { value };
    [
        used(a, fields.a.into()),
        used(b, fields.b.into()),
        used(c, fields.c.into()),
    ]
}

/// Random values, within each field's width; a field that the shape does not use may hold anything.
pub fn random_fields(shape: u8, random: &mut Random) -> Fields {
    let [a, b, ..] = widths(shape);
    let mut value = |width| {
        if width == Width::Byte {
            u16::from(random.u8())
        } else {
            random.u16()
        }
    };
    let (a, b) = (value(a), value(b));
    Fields {
        a,
        b,
        c: random.u8(),
        names: random.u8(),
    }
}

/// Calls `visit` with every choice of the fields from what `values` gives for each field's width.
pub fn each_fields(shape: u8, mut values: impl FnMut(Width) -> Vec<u16>, mut visit: impl FnMut(Fields)) {
    let [a, b, c, names] = widths(shape).map(&mut values);
    for &a in &a {
        for &b in &b {
            for &c in &c {
                for &names in &names {
                    let (c, names) = (c as u8, names as u8);
                    visit(Fields { a, b, c, names });
                }
            }
        }
    }
}
