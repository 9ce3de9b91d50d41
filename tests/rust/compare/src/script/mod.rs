//! Scripts for the program `replay`: made line by line, each answered at once by the rules' text and, over its domain, by
//! the original Rust; then run by the program, whose answers have to be the same.

mod chaos;
mod limits;
pub mod model;
pub mod parse;
mod program;
mod run;

pub use chaos::{noise, records, tampered};
pub use limits::limits;
pub use program::{builds, programs};
pub use run::{Refusals, command, listing, replay, stored};

use crate::original::Sequence;
use model::Model;
use parse::{Line, parse};

/// What the program has to answer to one line.
pub struct Due {
    pub line: usize,
    pub by_text: String,
    pub by_rust: Option<String>,
}

#[derive(Default)]
pub struct Script {
    text: Vec<u8>,
    lines: usize,
    pub model: Model,
    original: Sequence,
    dues: Vec<Due>,
}

impl Script {
    /// Adds a line, and gives its answer by the rules' text.
    pub fn say(&mut self, line: impl AsRef<[u8]>) -> String {
        let line = line.as_ref();
        self.text.extend(line);
        self.text.push(b'\n');
        self.lines += 1;
        let call = match parse(line) {
            Line::Silent => return String::new(),
            Line::Bad => return self.due(None, None),
            Line::Call(call) => call,
        };
        let by_text = self.model.answer(&call);
        let by_rust = by_text
            .as_deref()
            .filter(|answer| compared(answer))
            .and_then(|_| self.original.answer(&call));
        if by_text.as_deref().is_some_and(|answer| !compared(answer)) {
            self.original.end();
        }
        self.due(by_text, by_rust)
    }

    fn due(&mut self, by_text: Option<String>, by_rust: Option<String>) -> String {
        let by_text = by_text.unwrap_or_else(|| format!("? {}", self.lines));
        self.dues.push(Due {
            line: self.lines,
            by_text: by_text.clone(),
            by_rust,
        });
        by_text
    }

    /// The row that a line answers with; none if it is dead or refused.
    pub fn row(&mut self, line: &str) -> Option<u64> {
        self.say(line).strip_prefix("ok ")?.parse().ok()
    }

    pub fn bytes(&self) -> usize {
        self.text.len()
    }
}

/// 1, 13, 14, 17, 18 and 19 stand outside of what is compared with the Rust.
fn compared(answer: &str) -> bool {
    let outside = ["1", "13", "14", "17", "18", "19"];
    let refused = answer.strip_prefix("refused ");
    !refused.is_some_and(|rest| outside.contains(&rest.split(' ').next().expect("split gives a part")))
}
