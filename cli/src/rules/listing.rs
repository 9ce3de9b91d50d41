//! `rules listing`: hands the rule to the program `listing`, which is proved by itself and prints all of it.

use std::{
    env,
    ffi::OsStr,
    io::{self, Write},
    path::PathBuf,
    process::{Command, Stdio},
};

use super::{Outcome, open, said};

pub fn run(file: &OsStr) -> Outcome {
    let input = open(file)?.map_or_else(Stdio::inherit, Stdio::from);
    let program = program();
    if !program.is_file() {
        return Err(said(format!(
            "no listing at {}: ./rules proves and builds it",
            program.display()
        )));
    }
    let mut command = match env::var_os("TOKENFINCH_RUNNER") {
        // The emulator that runs this program (tools/x86).
        Some(emulator) => {
            let mut command = Command::new(emulator);
            command.arg(&program);
            command
        }
        None => Command::new(&program),
    };
    let printed = command
        .stdin(input)
        .stderr(Stdio::inherit())
        .output()
        .map_err(|error| said(format!("{} does not start: {error}", program.display())))?;
    if !printed.status.success() {
        return Err(said(format!("{} ended with {}", program.display(), printed.status)));
    }
    io::stdout().write_all(&printed.stdout)?;
    Ok(!ends_in_fault(&printed.stdout))
}

/// Where `tools/program listing` puts it.
fn program() -> PathBuf {
    let root = match env::var_os("TOKENFINCH_ROOT") {
        Some(root) => PathBuf::from(root),
        None => PathBuf::from(env!("CARGO_MANIFEST_DIR")).join(".."),
    };
    root.join("target/bin/listing")
}

/// Whether the last line is a fault's.
fn ends_in_fault(listing: &[u8]) -> bool {
    let lines = listing.strip_suffix(b"\n").unwrap_or(listing);
    lines
        .rsplit(|&byte| byte == b'\n')
        .next()
        .is_some_and(|last| last.starts_with(b"!"))
}

#[cfg(test)]
mod tests {
    use super::*;

    #[test]
    fn the_last_line_tells_a_fault() {
        assert!(ends_in_fault(b"offset\tname\n!\t0\t1\n"));
        assert!(ends_in_fault(b"!\t0\t10\n"));
        assert!(!ends_in_fault(b"offset\tname\n0\tNop\n"));
        assert!(!ends_in_fault(b""));
    }
}
