//! Stand-in for the compiler's error.

use crate::parse::CodeRange;

#[derive(Debug, Clone)]
pub struct CompileError {
    message: String,
    position: CodeRange,
}

impl CompileError {
    pub fn new(message: impl Into<String>, position: CodeRange) -> Self {
        Self {
            message: message.into(),
            position,
        }
    }

    pub fn message(&self) -> &str {
        &self.message
    }

    pub fn position(&self) -> CodeRange {
        self.position
    }
}
