//! Reads a script of calls on standard input and answers each line (docs/REPLAY.md).

use std::{io, process::ExitCode};

use tokenfinch_cli::replay;

fn main() -> ExitCode {
    // Nothing is said on standard error: where the input can't be read or nobody reads the answers, the status tells.
    match replay::run(io::stdin().lock(), io::stdout().lock()) {
        Ok(()) => ExitCode::SUCCESS,
        Err(_) => ExitCode::from(2),
    }
}
