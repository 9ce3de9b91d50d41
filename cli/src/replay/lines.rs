//! The lines of a script, read as they come, without ever holding more than one of them.

use std::io::{self, ErrorKind, Read};

/// The most bytes of a line, without its end.
pub const LINE_MOST: usize = 1_048_576;

/// So much is read at a time.
const BUFFER: usize = 65_536;

/// A line without its end.
#[derive(Debug, PartialEq, Eq)]
pub enum Line<'a> {
    Whole(&'a [u8]),
    /// It has more than [`LINE_MOST`] bytes, which are not kept.
    TooLong,
}

pub struct Lines<R> {
    input: R,
    buffer: Box<[u8]>,
    /// What is read and not yet taken is `buffer[from..to]`.
    from: usize,
    to: usize,
    line: Vec<u8>,
}

impl<R: Read> Lines<R> {
    pub fn new(input: R) -> Self {
        Self {
            input,
            buffer: vec![0; BUFFER].into_boxed_slice(),
            from: 0,
            to: 0,
            line: Vec::new(),
        }
    }

    /// The next line, or none at the input's end. `before_waiting` is called before each reading, which may have to
    /// wait.
    pub fn next(&mut self, mut before_waiting: impl FnMut() -> io::Result<()>) -> io::Result<Option<Line<'_>>> {
        self.line.clear();
        let mut length: usize = 0;
        loop {
            if self.from == self.to {
                before_waiting()?;
                if !self.fill()? {
                    return Ok((length > 0).then(|| self.taken(length)));
                }
            }
            let rest = &self.buffer[self.from..self.to];
            let end = rest.iter().position(|&byte| byte == b'\n');
            let part = &rest[..end.unwrap_or(rest.len())];
            length = length.saturating_add(part.len());
            if length <= LINE_MOST {
                self.line.extend_from_slice(part);
            }
            self.from += part.len() + usize::from(end.is_some());
            if end.is_some() {
                return Ok(Some(self.taken(length)));
            }
        }
    }

    fn taken(&self, length: usize) -> Line<'_> {
        if length > LINE_MOST {
            Line::TooLong
        } else {
            Line::Whole(&self.line)
        }
    }

    /// Reads more; false at the input's end.
    fn fill(&mut self) -> io::Result<bool> {
        self.from = 0;
        self.to = 0;
        self.to = loop {
            match self.input.read(&mut self.buffer) {
                Err(error) if error.kind() == ErrorKind::Interrupted => {}
                read => break read?,
            }
        };
        Ok(self.to > 0)
    }
}
