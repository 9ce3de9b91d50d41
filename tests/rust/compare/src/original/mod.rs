//! What the original Rust answers, in the header's terms. Where the Rust panics or hands back an error, its
//! own message says which refusal stands for it; a panic or an error of any other kind ends the run.

mod builder;
mod emission;
mod rules;
mod sequence;
mod shown;

use std::{
    cell::Cell,
    panic::{self, AssertUnwindSafe},
};

use monty::bytecode::compiler::CompileError;

pub use builder::{depth_after, depth_by_mismatch, depth_taken, makes_dead, size};
pub use emission::{emitted, jump, names_refused};
pub use rules::{effect, opcode, shape, taken_effect};
pub use sequence::{Left, Sequence};
pub use shown::Shown;

thread_local! {
    static CATCHING: Cell<bool> = const { Cell::new(false) };
}

/// Panics that `caught` catches are answers, and print nothing.
pub fn hush_caught_panics() {
    let print = panic::take_hook();
    panic::set_hook(Box::new(move |info| {
        if !CATCHING.get() {
            print(info);
        }
    }));
}

/// What the call returns, or the refusal that stands for its panic.
fn caught<T>(call: impl FnOnce() -> T) -> Result<T, u32> {
    message_of(call).map_err(|message| refusal_of_panic(&message))
}

/// What the call returns, or the message of its panic.
fn message_of<T>(call: impl FnOnce() -> T) -> Result<T, String> {
    let before = CATCHING.replace(true); // true already where one question is put inside another
    let result = panic::catch_unwind(AssertUnwindSafe(call));
    CATCHING.set(before);
    result.map_err(|payload| match payload.downcast::<String>() {
        Ok(message) => *message,
        Err(payload) => (*payload.downcast::<&str>().expect("a panic has a message")).to_owned(),
    })
}

fn refusal_of_panic(message: &str) -> u32 {
    const REFUSALS: [(&str, u32); 7] = [
        ("wrong operand shape for ", 2),
        (" is not a jump opcode", 3),
        ("Stack depth went negative: ", 4),
        ("jump merge: arriving with depth ", 11),
        ("emit_jump_to: cannot jump from live code to dead code", 12),
        ("enter_region: cannot start new code region ", 15),
        ("register_local_names must run first", 16),
    ];
    let found = REFUSALS.iter().find(|(part, _)| message.contains(part));
    found
        .unwrap_or_else(|| panic!("the Rust panicked in a way that no refusal stands for: {message}"))
        .1
}

/// The refusal that an error stands for. The Rust has one error for a depth above 65,535 and for a taken depth below 0: the
/// instruction has been written where it gives the first, and not where it gives the second.
fn refusal_of_error(error: &CompileError, wrote: bool) -> u32 {
    match error.message() {
        "function too large: required stack exceeds u16::MAX" if wrote => 5,
        "function too large: required stack exceeds u16::MAX" => 4,
        "function too large: jump offset exceeds i16 range" => 6,
        "call has too many keyword arguments; maximum is 255 per call" => 7,
        "module has too many distinct names; the bytecode format supports up to 65536 interned strings" => 8,
        "function has too many constants; maximum is 65536 per function" => 9,
        other => panic!("the Rust gave an error that no refusal stands for: {other}"),
    }
}

/// Ends the run where the Rust was built so that its panics or the stand-ins can't be relied on.
pub fn check_build() {
    const { assert!(monty::DEBUG_ASSERTIONS, "the Rust is built without debug assertions") };
    let sum = message_of(|| std::hint::black_box(u8::MAX) + std::hint::black_box(1));
    assert!(sum.is_err(), "the Rust is built without overflow checks");
    rules::check_stand_ins();
    rules::check_shape_numbers();
}
