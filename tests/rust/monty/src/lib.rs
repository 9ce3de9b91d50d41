//! op.rs, builder.rs and code.rs of pydantic/monty, unchanged, with `CmpOperator` cut unchanged out of
//! expressions.rs (SHA256SUMS has their sums). All else here stands in for the rest of monty, only so
//! far as these files use it.

/// The text of op.rs, for the numbers that it keeps private.
pub const OP_TEXT: &str = include_str!("bytecode/op.rs");

/// Whether this build makes the debug assertions that a comparison expects.
pub const DEBUG_ASSERTIONS: bool = cfg!(debug_assertions);

pub mod bytecode {
    // What only the rest of monty uses looks unused here.
    #[allow(dead_code)]
    pub mod builder;
    #[allow(dead_code, unused_imports)]
    pub mod code;
    pub mod compiler;
    #[allow(dead_code, unfulfilled_lint_expectations)]
    pub mod op;
}
pub mod expressions;
pub mod intern;
pub mod parse;
pub mod value;

#[cfg(test)]
mod tests {
    use crate::bytecode::op::opcode_fingerprint;

    /// The original has this function for its tests alone, so that it is asked in one.
    #[test]
    fn the_fingerprint_is_the_proved_librarys() {
        assert_eq!(tokenfinch::opcode_fingerprint(), opcode_fingerprint());
    }
}
