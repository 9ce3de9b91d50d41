//! Why the checker refuses what was read from a listing, in the listing's lines.

use std::fmt::Display;

use tokenfinch::{CheckError, instructions};

use super::reasons::Refused;

/// The reason, with the listing's name, the line, where there is one, and the refusal's number.
pub fn why(listing: impl Display, code: &[u8], starts: &[u32], error: CheckError) -> String {
    let lines = Lines::of(code);
    let refused = Refused {
        code,
        starts,
        name: |offset| format!("line {}", lines.line(offset)),
        end: "behind this line, at the end,",
    };
    let place = match error.reason() {
        Some(reason) => format!(":{}", lines.line(reason.offset())),
        None => String::new(),
    };
    format!(
        "{listing}{place}: {} ({})",
        refused.words(error),
        error.refusal().number()
    )
}

/// The instructions of a listing, by their lines: the first is line 2.
struct Lines(Vec<usize>);

impl Lines {
    fn of(code: &[u8]) -> Self {
        Self(instructions(code).flatten().map(|read| read.offset()).collect())
    }

    /// An offset's line; the last one for the code's end.
    fn line(&self, offset: usize) -> usize {
        match self.0.binary_search(&offset) {
            Ok(place) => place + 2,
            Err(_) => self.0.len() + 1,
        }
    }
}

#[cfg(test)]
mod tests {
    use super::*;

    #[test]
    fn offsets_are_told_as_lines() {
        let told = |code: &[u8], starts: &[u32]| {
            let error = tokenfinch::explain(code, starts).expect_err("it is refused");
            why("a", code, starts, error)
        };
        assert_eq!(
            told(&[5, 88, 0xFC, 0xFF], &[0, 0]),
            "a:2: two ways meet here with different depths: 0 by the start 0:0, and 1 from line 3 (Jump) (23)"
        );
        assert_eq!(
            told(&[6, 90, 1, 0, 5], &[0, 0]),
            "a:4: two ways meet behind this line, at the end, with different depths: \
             0 from line 3 (JumpIfFalse), and 1 from line 4 (LoadNone) (23)"
        );
        assert_eq!(
            told(&[5, 88, 9, 0], &[0, 0]),
            "a:3: Jump leads to 13, where no instruction starts (23)"
        );
        assert_eq!(
            told(&[5, 0, 0], &[0, 0]),
            "a:4: Pop needs at least 1 value on the stack; it has none here (23)"
        );
        assert_eq!(
            told(&[], &[0, 1, 0, 2]),
            "a:1: two ways meet behind this line, at the end, with different depths: \
             1 by the start 0:1, and 2 by the start 0:2 (23)"
        );
        assert_eq!(
            told(&[8, 5, 101], &[0, 0, 1, 2]),
            "a: the start 1:2 is at no instruction and not at the end, 3 (20)"
        );
    }
}
