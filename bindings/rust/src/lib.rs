//! Tokenfinch for Rust: the builder, the decoder, the depth checker and the lookups of monty's bytecode, proved in
//! Rattle and linked as a static library. [`CodeBuilder`] has the calls of monty's builder, so that a compiler written
//! against that one moves by changing a `use`.
//!
//! ```
//! use tokenfinch::{CodeBuilder, Opcode, Refusal};
//!
//! let mut builder = CodeBuilder::new();
//! builder.new_code_region(0);
//! builder.emit(Opcode::LoadNone)?;
//! let refusal = builder.emit(Opcode::StoreSubscr).unwrap_err();
//! assert_eq!(refusal.number(), 4);
//! assert_eq!(refusal.to_string(), "refused 4: the instruction takes more from the stack than is there");
//! # Ok::<(), Refusal>(())
//! ```
//!
//! The library keeps nothing between calls and trusts nothing that it is lent: [`lent`] has it bare, and every answer
//! for every state, table and argument is fixed by a promise that is proved. What is not proved is this crate, which
//! hands slices over, enlarges tables and puts names to numbers.
#![deny(missing_docs)]
#![deny(unsafe_code)]

mod asserts;
mod builder;
mod checker;
mod code;
mod decoder;
mod fingerprint;
pub mod lent;
mod listing;
pub mod lookups;
mod opcode;
mod operand;
mod reason;
mod refusal;
pub mod rules;
#[allow(unsafe_code)]
mod sys;

pub use asserts::{CmpOperator, assert_flags, decode_assert_flags};
pub use builder::{CodeBuilder, JumpLabel, JumpTarget, Offset};
pub use checker::{Assignment, Checked, Checker, Mode, NO_DEPTH, check, check_in, check_into, explain, explain_in};
pub use code::{Code, CodeRange, ExceptionEntry, HandlerKind, LocationEntry, StringId};
pub use decoder::{Instruction, Instructions, instructions, step};
pub use fingerprint::{fnv1a, opcode_fingerprint};
pub use listing::{listing, read_listing, read_listing_into};
pub use opcode::Opcode;
pub use operand::{Operand, Shape};
pub use reason::{CheckError, Reason};
pub use refusal::{ReadError, Refusal, Table};
