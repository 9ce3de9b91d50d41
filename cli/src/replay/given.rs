//! The lines that need no builder: the opcode rules with the table's fingerprint, and the decoder, the checker, a lookup, the
//! reading of a listing and the hash on what the line gives.

use tokenfinch::{
    Assignment, Mode, Refusal, check_into, fnv1a, lookups, opcode_fingerprint, read_listing_into, rules, step,
};

use super::{
    out::Out,
    session::row_values,
    tables::{fill, sum},
    words::Words,
};

/// The most cells of a slice of the checker's, or of code that a listing is read into.
const CELLS_MOST: usize = 2_000_000;

/// The most bytes of `check_zeros`, and which byte they are.
const ZEROS_MOST: usize = 1_048_600;
const NOP: u8 = 105;

/// How the rules number that there is no comparison, and that a byte is no assert's.
const NO_COMPARISON: u8 = 10;
const NO_FLAGS: u8 = 11;

/// What these lines use again.
#[derive(Default)]
pub struct Given {
    depths: Vec<u32>,
    work: Vec<u32>,
    code: Vec<u8>,
}

impl Given {
    /// Whether a name is that of one of these lines.
    pub fn has(name: &[u8]) -> bool {
        matches!(
            name,
            b"shape"
                | b"effect"
                | b"taken"
                | b"dead_maker"
                | b"assert_flags"
                | b"decode_assert_flags"
                | b"fingerprint"
                | b"fnv1a"
                | b"find_in_two"
                | b"step"
                | b"check"
                | b"check_slice"
                | b"check_zeros"
                | b"read_listing"
        )
    }

    pub fn answer(&mut self, name: &[u8], words: Words<'_>, out: &mut Out) -> Option<()> {
        match name {
            b"effect" => effect(words, out),
            b"assert_flags" => assert_flags(words, out),
            b"fingerprint" => fingerprint(words, out),
            b"fnv1a" => hash(words, out),
            b"find_in_two" => find_in_two(words, out),
            b"step" => one_step(words, out),
            b"check" => self.check(words, out),
            b"check_slice" => self.check_slice(words, out),
            b"check_zeros" => self.check_zeros(words, out),
            b"read_listing" => self.read_listing(words, out),
            _ => of_byte(name, words, out),
        }
    }

    /// `check OPTIONS HEX O D ..`
    fn check(&mut self, mut words: Words<'_>, out: &mut Out) -> Option<()> {
        let mode = words.mode();
        let code = words.bytes()?;
        let starts: Vec<u32> = words.numbers()?;
        match self.checked(mode, [code.len() + 1; 2], &code, &starts) {
            Ok(assignment) => out.assigned(assignment).values(&self.depths),
            Err(refusal) => out.refused(refusal),
        };
        Some(())
    }

    /// `check_slice OPTIONS CELLS WORK HEX O D ..`
    fn check_slice(&mut self, mut words: Words<'_>, out: &mut Out) -> Option<()> {
        let mode = words.mode();
        let cells = [words.size(CELLS_MOST)?, words.size(CELLS_MOST)?];
        let code = words.bytes()?;
        let starts: Vec<u32> = words.numbers()?;
        self.check_sum(mode, cells, &code, &starts, out);
        Some(())
    }

    /// `check_zeros OPTIONS N CELLS WORK`
    fn check_zeros(&mut self, mut words: Words<'_>, out: &mut Out) -> Option<()> {
        let mode = words.mode();
        let length = words.size(ZEROS_MOST)?;
        let cells = [words.size(CELLS_MOST)?, words.size(CELLS_MOST)?];
        words.end()?;
        self.check_sum(mode, cells, &vec![NOP; length], &[], out);
        Some(())
    }

    /// `read_listing ROOM HEX`
    fn read_listing(&mut self, mut words: Words<'_>, out: &mut Out) -> Option<()> {
        let room = words.size(CELLS_MOST)?;
        let text = words.bytes()?;
        words.end()?;
        fill(&mut self.code, room);
        match read_listing_into(&text, &mut self.code) {
            Ok(length) => out.ok().bytes(&self.code[..length]),
            Err(error) => out.not_read(error),
        };
        out.value(sum(&self.code));
        Some(())
    }

    /// A check with the sums of the whole slices that it was lent.
    fn check_sum(&mut self, mode: Mode, cells: [usize; 2], code: &[u8], starts: &[u32], out: &mut Out) {
        match self.checked(mode, cells, code, starts) {
            Ok(assignment) => out.assigned(assignment),
            Err(refusal) => out.refused(refusal),
        };
        out.value(sum(&self.depths)).value(sum(&self.work));
    }

    /// A check that is lent so many cells of depths and of work.
    fn checked(
        &mut self,
        mode: Mode,
        [depths, work]: [usize; 2],
        code: &[u8],
        starts: &[u32],
    ) -> Result<Assignment, Refusal> {
        fill(&mut self.depths, depths);
        fill(&mut self.work, work);
        check_into(mode, code, starts, &mut self.depths, &mut self.work)
    }
}

/// `fingerprint`
fn fingerprint(words: Words<'_>, out: &mut Out) -> Option<()> {
    words.end()?;
    out.ok().value(opcode_fingerprint());
    Some(())
}

/// `fnv1a HEX`
fn hash(mut words: Words<'_>, out: &mut Out) -> Option<()> {
    let bytes = words.bytes()?;
    words.end()?;
    out.ok().value(fnv1a(&bytes));
    Some(())
}

/// The lines whose argument is one byte.
fn of_byte(name: &[u8], mut words: Words<'_>, out: &mut Out) -> Option<()> {
    let byte = words.u8()?;
    words.end()?;
    match name {
        b"shape" => out.told(rules::operand_shape(byte)),
        b"taken" => out.told(rules::jump_taken_stack_effect(byte)),
        b"dead_maker" => out.told(rules::makes_dead(byte).map(u8::from)),
        _ => match rules::decode_assert_flags(byte) {
            NO_COMPARISON => _ = out.ok().value("none"),
            NO_FLAGS => _ = out.ok().value("invalid"),
            comparison => _ = out.ok().value(comparison),
        },
    }
    Some(())
}

fn assert_flags(mut words: Words<'_>, out: &mut Out) -> Option<()> {
    let comparison = words.or_word(b"none", 9)?;
    words.end()?;
    let number = comparison.map_or(NO_COMPARISON, |number| number as u8);
    out.ok().value(rules::assert_flags(number));
    Some(())
}

/// `effect OP S A B C N`: the numbers have to fit the shape's fields, and be 0 where it has none.
fn effect(mut words: Words<'_>, out: &mut Out) -> Option<()> {
    let (opcode, shape) = (words.u8()?, words.number(11)?);
    let a = match shape {
        2 => words.i8()?.cast_unsigned().into(),
        4 => words.i16()?.cast_unsigned(),
        0 => words.number(0)? as u16,
        1 | 5 | 9 => words.u8()?.into(),
        _ => words.u16()?,
    };
    let b = match shape {
        7 | 11 => words.u16()?,
        5 | 6 | 8 | 10 => words.u8()?.into(),
        _ => words.number(0)? as u16,
    };
    let c = match shape {
        8 | 11 => words.u8()?,
        _ => words.number(0)? as u8,
    };
    let names = match shape {
        9 | 10 => words.u8()?,
        _ => words.number(0)? as u8,
    };
    words.end()?;
    out.told(rules::stack_effect(opcode, shape as u8, a, b, c, names));
    Some(())
}

/// `find_in_two O S E H D C K S E H D C K`
fn find_in_two(mut words: Words<'_>, out: &mut Out) -> Option<()> {
    let offset = words.u32()?;
    let mut records = [0; 12];
    for record in records.chunks_exact_mut(6) {
        for cell in &mut record[..3] {
            *cell = words.u32()?;
        }
        record[3] = words.u16()?.into();
        record[4] = words.u16()?.into();
        record[5] = words.bit()?.into();
    }
    words.end()?;
    match lookups::find_in_two(offset, &records) {
        Ok(row) => out.found(row.map(row_values)),
        Err(refusal) => _ = out.refused(refusal),
    }
    Some(())
}

/// `step HEX AT`
fn one_step(mut words: Words<'_>, out: &mut Out) -> Option<()> {
    let code = words.bytes()?;
    let at = words.size(usize::MAX)?;
    words.end()?;
    match step(&code, at) {
        Ok(None) => out.ok().value("end"),
        Ok(Some(read)) => {
            let values = read.values();
            out.ok().value(read.opcode() as u8).value(read.size()).values(values)
        }
        Err(refusal) => out.refused(refusal),
    };
    Some(())
}
