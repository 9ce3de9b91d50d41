//! Counts the comparisons of an area and prints its differences.

use std::fmt::{self, Debug};

/// After this many differences of an area the rest is only counted.
const PRINTED: u64 = 20;

/// Where an expected answer comes from.
#[derive(Clone, Copy, PartialEq, Eq)]
pub enum By {
    /// The Rust was run and said so.
    Rust,
    /// The Rust can't be given this, as a value too wide for its type: the header says so.
    Header,
    /// The Rust has no such function: `reference`, written for the comparison from the rules' text, says so.
    Text,
}

#[derive(Clone, Copy)]
pub struct Expected<T> {
    pub answer: T,
    pub by: By,
}

impl<T> Expected<T> {
    pub fn by_rust(answer: T) -> Self {
        Self { answer, by: By::Rust }
    }

    pub fn by_header(answer: T) -> Self {
        Self { answer, by: By::Header }
    }

    pub fn by_text(answer: T) -> Self {
        Self { answer, by: By::Text }
    }
}

pub struct Tally {
    area: &'static str,
    with_rust: u64,
    with_header: u64,
    with_text: u64,
    differences: u64,
}

impl Tally {
    pub fn new(area: &'static str) -> Self {
        Self {
            area,
            with_rust: 0,
            with_header: 0,
            with_text: 0,
            differences: 0,
        }
    }

    /// Compares one answer of the proved library; `case` is asked for only where it differs.
    pub fn compare<T: PartialEq + Debug>(&mut self, proved: T, expected: Expected<T>, case: impl FnOnce() -> String) {
        match expected.by {
            By::Rust => self.with_rust += 1,
            By::Header => self.with_header += 1,
            By::Text => self.with_text += 1,
        }
        if proved != expected.answer {
            self.differ(&proved, &expected, &case());
        }
    }

    #[cold]
    fn differ<T: Debug>(&mut self, proved: &T, expected: &Expected<T>, case: &str) {
        self.differences += 1;
        if self.differences <= PRINTED {
            let by = match expected.by {
                By::Rust => "the Rust",
                By::Header => "the header",
                By::Text => "the reference",
            };
            let [case, wanted, answer] =
                [case.to_owned(), format!("{:?}", expected.answer), format!("{proved:?}")].map(cut);
            println!(
                "compare: DIFFERENCE in {}: {case}: {by} says {wanted}, the library {answer}",
                self.area
            );
        } else if self.differences == PRINTED + 1 {
            println!("compare: more differences in {} are counted, not printed", self.area);
        }
    }

    pub fn comparisons(&self) -> u64 {
        self.with_rust + self.with_header + self.with_text
    }

    pub fn differences(&self) -> u64 {
        self.differences
    }

    /// Whether neither the Rust nor the reference was asked anything.
    pub fn is_empty(&self) -> bool {
        self.with_rust + self.with_text == 0
    }
}

/// A text of which a screen can be filled, whole or its beginning.
fn cut(mut text: String) -> String {
    const SHOWN: usize = 2_000;
    if let Some((end, _)) = text.char_indices().nth(SHOWN) {
        text.truncate(end);
        text.push_str(" ..");
    }
    text
}

impl fmt::Display for Tally {
    fn fmt(&self, f: &mut fmt::Formatter<'_>) -> fmt::Result {
        write!(
            f,
            "compare: {:<12} {:>9} with the Rust, {:>8} with the reference, {:>8} with the header alone, {} differences",
            self.area, self.with_rust, self.with_text, self.with_header, self.differences
        )
    }
}
