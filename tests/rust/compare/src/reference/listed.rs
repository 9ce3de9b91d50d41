//! Reading a listing, written for this comparison from the request's text: a line is formed or not (24), its offset and target
//! are those that result or not (25), its bytes have room or not (18). Names and shapes are the Rust's own.

use std::collections::HashMap;

use super::Decoder;
use crate::original;

const HEADER: &[u8] = b"offset\tname\toperands\ttarget";

/// The most bytes of code.
const MOST: usize = 65_536;

/// A refusal's number and its line.
pub type Refused = (u32, u32);

pub struct Reader {
    /// Each name with its opcode and that one's shape.
    names: HashMap<String, (u8, u8)>,
}

/// A line that is formed as `listing` forms one.
struct Formed<'a> {
    offset: &'a str,
    bytes: Vec<u8>,
    /// A jump's displacement and its target.
    jump: Option<(i64, &'a str)>,
}

impl Reader {
    pub fn new(decoder: &Decoder) -> Self {
        let row = |byte| Some((format!("{:?}", original::opcode(byte)?), (byte, decoder.shape(byte)?)));
        Self {
            names: (0..=u8::MAX).filter_map(row).collect(),
        }
    }

    /// The code of a text, for a slice with so much room.
    pub fn read(&self, text: &[u8], room: usize) -> Result<Vec<u8>, Refused> {
        let mut code = Vec::new();
        let mut lines = text.split_inclusive(|&byte| byte == b'\n').zip(1..);
        let header = lines.next().and_then(|(line, _)| line.strip_suffix(b"\n"));
        if header != Some(HEADER) {
            return Err((24, 1));
        }
        for (line, number) in lines {
            let formed = self.formed(line).ok_or((24, number))?;
            if !formed.agrees(code.len()) {
                return Err((25, number));
            }
            if code.len() + formed.bytes.len() > room.min(MOST) {
                return Err((18, number));
            }
            code.extend(formed.bytes);
        }
        Ok(code)
    }

    fn formed<'a>(&self, line: &'a [u8]) -> Option<Formed<'a>> {
        let line = std::str::from_utf8(line).ok()?.strip_suffix('\n')?;
        let fields: Vec<&str> = line.split('\t').collect();
        let [offset, name, operands, target] = fields[..] else {
            return None;
        };
        let &(opcode, shape) = self.names.get(name)?;
        let operands: Option<Vec<i64>> = match operands {
            "-" => Some(vec![]),
            list => list.split(',').map(number).collect(),
        };
        let operands = operands?;
        let jump = match (shape, target) {
            (4, target) => Some((operands.first().copied()?, target)).filter(|_| is_whole(target)),
            (_, "-") => None,
            _ => return None,
        };
        (is_natural(offset) && (shape != 4 || jump.is_some())).then_some(())?;
        Some(Formed {
            offset,
            bytes: bytes(opcode, shape, &operands)?,
            jump,
        })
    }
}

impl Formed<'_> {
    /// A number is printed in one way alone, so that its text tells whether it is another.
    fn agrees(&self, at: usize) -> bool {
        let leads = |displacement: i64| (at as i64 + 3 + displacement).to_string();
        self.offset == at.to_string()
            && self
                .jump
                .is_none_or(|(displacement, target)| target == leads(displacement))
    }
}

/// Digits, with no zero in front of others.
fn is_natural(word: &str) -> bool {
    word == "0" || (word.bytes().all(|byte| byte.is_ascii_digit()) && !word.is_empty() && !word.starts_with('0'))
}

/// A natural number, or one with a minus that is not 0.
fn is_whole(word: &str) -> bool {
    word.strip_prefix('-')
        .map_or(is_natural(word), |digits| is_natural(digits) && digits != "0")
}

/// A whole number; one that 64 bits do not hold is in no field's range.
fn number(word: &str) -> Option<i64> {
    word.parse().ok().filter(|_| is_whole(word))
}

/// The instruction's bytes; none where the numbers are not those of the shape.
fn bytes(opcode: u8, shape: u8, operands: &[i64]) -> Option<Vec<u8>> {
    let byte = |number: &i64| u8::try_from(*number).ok().map(|byte| vec![byte]);
    let word = |number: &i64| u16::try_from(*number).ok().map(|word| word.to_le_bytes().to_vec());
    let names = |names: &[i64]| {
        names
            .iter()
            .map(word)
            .collect::<Option<Vec<_>>>()
            .map(|all| all.concat())
    };
    let parts = match (shape, operands) {
        (0, []) => vec![],
        (1, [a]) => vec![byte(a)?],
        (2, [a]) => vec![i8::try_from(*a).ok()?.to_le_bytes().to_vec()],
        (3, [a]) => vec![word(a)?],
        (4, [a]) => vec![i16::try_from(*a).ok()?.to_le_bytes().to_vec()],
        (5, [a, b]) => vec![byte(a)?, byte(b)?],
        (6, [a, b]) => vec![word(a)?, byte(b)?],
        (7, [a, b]) => vec![word(a)?, word(b)?],
        (8, [a, b, c]) => vec![word(a)?, byte(b)?, byte(c)?],
        (9, [a, n, rest @ ..]) if *n == rest.len() as i64 => vec![byte(a)?, byte(n)?, names(rest)?],
        (10, [a, b, n, rest @ ..]) if *n == rest.len() as i64 => vec![word(a)?, byte(b)?, byte(n)?, names(rest)?],
        (11, [a, b, c]) => vec![word(a)?, word(b)?, byte(c)?],
        _ => return None,
    };
    Some([vec![opcode], parts.concat()].concat())
}
