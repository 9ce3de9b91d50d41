//! The program `rules`: its words, files and messages. Exit status 1 says that a rule was refused, 2 that the words or
//! a file are no good, with one line on standard error.

mod check;
mod compile;
mod fingerprint;
mod listing;
mod meeting;
mod misread;
mod opcodes;
mod origins;
mod reasons;
mod stack;
mod watch;

use std::{
    ffi::{OsStr, OsString},
    fs::File,
    io::{self, ErrorKind, Read},
    process::ExitCode,
};

use crate::replay;

/// A file of its own, which `./rules help` shows where nothing is built yet.
const HELP: &str = include_str!("help.txt");

/// Why a command did not do what it was asked for.
enum Trouble {
    /// What to say about the words or the file.
    Said(String),
    /// Writing failed.
    Output(io::Error),
    /// Nothing is to be said: the status tells.
    Unsaid,
}

impl From<io::Error> for Trouble {
    fn from(error: io::Error) -> Self {
        Self::Output(error)
    }
}

/// Whether the rule was accepted.
type Outcome = Result<bool, Trouble>;

fn said(why: impl Into<String>) -> Trouble {
    Trouble::Said(why.into())
}

/// Does what the words ask for.
#[must_use]
pub fn run(words: Vec<OsString>) -> ExitCode {
    match command(&words) {
        Ok(true) => ExitCode::SUCCESS,
        Ok(false) => ExitCode::from(1),
        Err(trouble) => {
            match trouble {
                Trouble::Said(why) => eprintln!("rules: {why}"),
                // Who reads no further needs no message.
                Trouble::Output(error) if error.kind() == ErrorKind::BrokenPipe => {}
                Trouble::Unsaid => {}
                Trouble::Output(error) => eprintln!("rules: can't write: {error}"),
            }
            ExitCode::from(2)
        }
    }
}

fn command(words: &[OsString]) -> Outcome {
    let (name, rest) = match words.split_first() {
        Some((name, rest)) => (name.to_string_lossy(), rest),
        None => ("help".into(), &[][..]),
    };
    match (name.as_ref(), rest) {
        ("listing", [file]) => listing::run(file),
        ("listing", _) => Err(said("listing takes one file, or - for standard input")),
        ("check", words) => check::run(words),
        ("stack", words) => stack::run(words),
        ("compile", words) => compile::run(words),
        ("fingerprint", words) => fingerprint::run(words),
        ("opcodes", []) => opcodes::run(&mut io::stdout().lock()),
        ("replay", []) => match replay::run(io::stdin().lock(), io::stdout().lock()) {
            Ok(()) => Ok(true),
            Err(_) => Err(Trouble::Unsaid),
        },
        ("opcodes" | "replay", _) => Err(said(format!("{name} takes no argument"))),
        ("help" | "-h" | "--help", _) => {
            io::Write::write_all(&mut io::stdout(), HELP.as_bytes())?;
            Ok(true)
        }
        _ => Err(said(format!("no command '{name}': ./rules help lists them"))),
    }
}

/// A rule's file, opened; none for `-`, which is standard input.
fn open(name: &OsStr) -> Result<Option<File>, Trouble> {
    if name == "-" {
        return Ok(None);
    }
    let shown = name.display();
    let file = File::open(name).map_err(|error| match error.kind() {
        ErrorKind::NotFound => said(format!("no file {shown}")),
        _ => said(format!("{shown} can't be read: {error}")),
    })?;
    match file.metadata() {
        Ok(about) if about.is_dir() => Err(said(format!("{shown} is a folder"))),
        _ => Ok(Some(file)),
    }
}

/// The bytes of a rule's file, at most `most` of them.
fn read(name: &OsStr, most: u64) -> Result<Vec<u8>, Trouble> {
    let mut bytes = Vec::new();
    let done = match open(name)? {
        Some(file) => file.take(most).read_to_end(&mut bytes),
        None => io::stdin().lock().take(most).read_to_end(&mut bytes),
    };
    match done {
        Ok(_) => Ok(bytes),
        Err(error) => Err(said(format!("{} can't be read: {error}", name.display()))),
    }
}
