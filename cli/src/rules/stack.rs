//! `rules stack`: the greatest depth of a rule's stack, for the interpreter that reserves it. Standard output has that
//! number alone, or nothing.

use std::{
    ffi::OsString,
    io::{self, Write},
};

use tokenfinch::explain;

use super::{Outcome, check};

pub fn run(words: &[OsString]) -> Outcome {
    let words: Vec<&OsString> = words.iter().collect();
    let (file, starts) = check::asked("stack", &words)?;
    let code = check::rule(file)?;
    match explain(&code, &starts) {
        Ok(checked) => {
            writeln!(io::stdout(), "{}", checked.greatest())?;
            Ok(true)
        }
        Err(error) => {
            eprintln!("{}", check::refused(&code, &starts, error));
            Ok(false)
        }
    }
}
