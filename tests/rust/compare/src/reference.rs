//! A decoder and lookups written for this comparison from the rules' text ("Bytes and depths", "Lookups"), without a
//! look at the proved ones; `depths` has the depth checker, `paths` the depths along paths, `reasons` what the checker
//! tells beside 23, `listed` the reader of listings, `hash` FNV-1a, of which `published` has what others say. Which opcode
//! has which shape the text leaves to op.rs's `operand_shape`, and so does this.

pub mod depths;
pub mod hash;
pub mod listed;
pub mod paths;
pub mod published;
pub mod reasons;

use crate::original;

/// An instruction, in tf_step's cells.
pub type Cells = [u64; 8];

/// What stands at an offset.
#[derive(Debug, PartialEq)]
pub enum Step {
    Instruction(Cells),
    End,
    /// 1 or 22.
    Refused(u32),
}

/// The shapes of all opcode bytes; none above the last opcode.
pub struct Decoder {
    shapes: Vec<Option<u8>>,
}

impl Default for Decoder {
    fn default() -> Self {
        Self::new()
    }
}

impl Decoder {
    pub fn new() -> Self {
        let shapes = (0..=u8::MAX).map(|byte| original::opcode(byte).map(original::shape));
        Self {
            shapes: shapes.collect(),
        }
    }

    /// The opcode's shape; none above the last opcode.
    pub fn shape(&self, opcode: u8) -> Option<u8> {
        self.shapes[usize::from(opcode)]
    }

    /// The size by the text: None 1; U8, I8 2; U16, Offset, U8U8 3; U16U8 4; U16U16, U16U8U8 5; U16U16U8 6;
    /// CallKw 3 + 2n; CallAttrKw 5 + 2n.
    fn size(shape: u8, names: usize) -> usize {
        match shape {
            0 => 1,
            1 | 2 => 2,
            3..=5 => 3,
            6 => 4,
            7 | 8 => 5,
            9 => 3 + 2 * names,
            10 => 5 + 2 * names,
            11 => 6,
            _ => panic!("no shape {shape}"),
        }
    }

    pub fn step(&self, code: &[u8], at: usize) -> Step {
        let Some(rest) = code.get(at..).filter(|rest| !rest.is_empty()) else {
            return Step::End;
        };
        let Some(shape) = self.shapes[usize::from(rest[0])] else {
            return Step::Refused(1);
        };
        // The count stands last before the names. Where it is cut off, so is the instruction.
        let count_at = match shape {
            9 => Some(2),
            10 => Some(4),
            _ => None,
        };
        let names = count_at.map_or(Some(0), |place| rest.get(place).copied().map(usize::from));
        let whole = names.map(|names| (names, Self::size(shape, names)));
        let Some((names, size)) = whole.filter(|(_, size)| *size <= rest.len()) else {
            return Step::Refused(22);
        };
        let [a, b, c] = values(shape, rest);
        let numbers = [
            usize::from(rest[0]),
            size,
            shape.into(),
            a,
            b,
            c,
            names,
            at + size - 2 * names,
        ];
        Step::Instruction(numbers.map(|number| number as u64))
    }
}

/// The operand's values in shape order, little-endian, without the count of names.
fn values(shape: u8, bytes: &[u8]) -> [usize; 3] {
    let byte = |i: usize| usize::from(bytes[i]);
    let word = |i: usize| usize::from(u16::from_le_bytes([bytes[i], bytes[i + 1]]));
    match shape {
        0 => [0, 0, 0],
        1 | 2 | 9 => [byte(1), 0, 0],
        3 | 4 => [word(1), 0, 0],
        5 => [byte(1), byte(2), 0],
        6 | 10 => [word(1), byte(3), 0],
        7 => [word(1), word(3), 0],
        8 => [word(1), byte(3), byte(4)],
        11 => [word(1), word(3), byte(5)],
        _ => panic!("no shape {shape}"),
    }
}

/// An instruction's operands in byte order, as a listing has them: I8 and displacements signed, the count of names in its
/// place, the names last.
pub fn operands(code: &[u8], cells: &Cells) -> Vec<i64> {
    let [_, _, shape, a, b, c, n, place] = *cells;
    let mut operands: Vec<i64> = match shape {
        0 => vec![],
        1 | 3 => vec![a as i64],
        2 => vec![i64::from(a as u8 as i8)],
        4 => vec![i64::from(a as u16 as i16)],
        5..=7 => vec![a as i64, b as i64],
        9 => vec![a as i64, n as i64],
        10 => vec![a as i64, b as i64, n as i64],
        _ => vec![a as i64, b as i64, c as i64],
    };
    let names = &code[place as usize..][..2 * n as usize];
    operands.extend(
        names
            .chunks(2)
            .map(|name| i64::from(u16::from_le_bytes([name[0], name[1]]))),
    );
    operands
}

/// The location row of an offset: the row before the first whose offset is greater, or the last if none is.
pub fn location(rows: &[u32], offset: usize) -> Option<usize> {
    let offset = u32::try_from(offset).ok()?;
    let mut found = None;
    for (number, row) in rows.chunks_exact(6).enumerate() {
        if row[0] > offset {
            return found;
        }
        found = Some(number);
    }
    found
}

/// The first row with start <= offset < end.
pub fn handler(rows: &[u32], offset: u32) -> Option<usize> {
    rows.chunks_exact(6).position(|row| row[0] <= offset && offset < row[1])
}

/// The name in a slot's cell: number + 1, 0 absent; over 4,294,967,296 absent too.
pub fn local_name(names: &[u64], slot: usize) -> Option<u64> {
    match *names.get(slot)? {
        0 => None,
        cell if cell > 1 << 32 => None,
        cell => Some(cell - 1),
    }
}
