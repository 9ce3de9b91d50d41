//! Answers as text.

use std::{
    fmt::Display,
    io::{self, Write},
};

use tokenfinch::{Assignment, ReadError, Refusal};

const DIGITS: &[u8; 16] = b"0123456789abcdef";

/// What is answered and not yet written out.
#[derive(Default)]
pub struct Out(Vec<u8>);

impl Out {
    pub fn len(&self) -> usize {
        self.0.len()
    }

    /// Writes all of it out.
    pub fn write_to(&mut self, output: &mut impl Write) -> io::Result<()> {
        if !self.0.is_empty() {
            output.write_all(&self.0)?;
            output.flush()?;
            self.0.clear();
        }
        Ok(())
    }

    /// `ok`, before its values.
    pub fn ok(&mut self) -> &mut Self {
        self.0.extend_from_slice(b"ok");
        self
    }

    /// A value, behind a space.
    pub fn value(&mut self, value: impl Display) -> &mut Self {
        // Writing to memory does not fail.
        let _ = write!(self.0, " {value}");
        self
    }

    pub fn values<T: Display>(&mut self, values: impl IntoIterator<Item = T>) -> &mut Self {
        for value in values {
            self.value(value);
        }
        self
    }

    /// `ok` of a check: how many instructions have a depth, and the greatest.
    pub fn assigned(&mut self, Assignment { count, greatest }: Assignment) -> &mut Self {
        self.ok().value(count).value(greatest)
    }

    /// Bytes in hexadecimal, or `-` for none.
    pub fn bytes(&mut self, bytes: &[u8]) -> &mut Self {
        if bytes.is_empty() {
            return self.value("-");
        }
        self.0.push(b' ');
        let digits = |byte: &u8| [DIGITS[usize::from(byte >> 4)], DIGITS[usize::from(byte & 15)]];
        self.0.extend(bytes.iter().flat_map(digits));
        self
    }

    /// `refused` of a text: its number, the line and, for 18, the table.
    pub fn not_read(&mut self, error: ReadError) -> &mut Self {
        self.0.extend_from_slice(b"refused");
        self.value(error.refusal().number()).value(error.line());
        if let Some(table) = error.refusal().full_table() {
            self.value(table);
        }
        self
    }

    /// `refused`, its number and what it names.
    pub fn refused(&mut self, refusal: Refusal) -> &mut Self {
        self.0.extend_from_slice(b"refused");
        self.value(refusal.number());
        if let Some(table) = refusal.full_table() {
            self.value(table);
        }
        if let Some(offset) = refusal.offset() {
            self.value(offset);
        }
        self
    }

    /// `ok` where a call was accepted, or its refusal.
    pub fn done(&mut self, answer: Result<(), Refusal>) {
        match answer {
            Ok(()) => self.ok(),
            Err(refusal) => self.refused(refusal),
        };
    }

    /// `ok` with a value, or the refusal.
    pub fn told(&mut self, answer: Result<impl Display, Refusal>) {
        match answer {
            Ok(value) => self.ok().value(value),
            Err(refusal) => self.refused(refusal),
        };
    }

    /// `ok` with what was found, or `ok absent`.
    pub fn found<T: Display>(&mut self, found: Option<impl IntoIterator<Item = T>>) {
        match found {
            Some(values) => self.ok().values(values),
            None => self.ok().value("absent"),
        };
    }

    /// Ends the line.
    pub fn end(&mut self) {
        self.0.push(b'\n');
    }

    /// `? LINE` in place of what was begun.
    pub fn bad(&mut self, begun: usize, line: u64) {
        self.0.truncate(begun);
        self.0.push(b'?');
        self.value(line).end();
    }
}
