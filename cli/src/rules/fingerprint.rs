//! `rules fingerprint`: that of the opcode table, or the hash of a file's bytes, in 16 hexadecimal digits.

use std::{
    ffi::OsString,
    io::{self, Write},
};

use tokenfinch::{fnv1a, opcode_fingerprint};

use super::{Outcome, read, said};

pub fn run(words: &[OsString]) -> Outcome {
    let number = match words {
        [] => opcode_fingerprint(),
        [file] => fnv1a(&read(file, u64::MAX)?),
        _ => return Err(said("fingerprint takes one file, - for standard input, or nothing")),
    };
    writeln!(io::stdout(), "{number:016x}")?;
    Ok(true)
}
