//! `rules check --watch`: the verdict on a file in one line, each time that the file changes.

use std::{
    ffi::OsStr,
    fs,
    io::{self, Write},
    thread,
    time::{Duration, Instant, SystemTime},
};

use tokenfinch::{Checker, Mode};

use super::{Outcome, Trouble, check, said};

/// So often the file is looked at.
const PAUSE: Duration = Duration::from_millis(100);

/// What tells that a file has changed: its length, and when it was written.
type Stamp = (u64, SystemTime);

/// Goes on until it is ended from outside, or nobody reads its lines.
pub fn run(mode: Mode, file: &OsStr, starts: &[u32]) -> Outcome {
    if file == "-" {
        return Err(said("--watch takes a file, and not standard input"));
    }
    let mut checker = Checker::in_mode(mode);
    // What is wrong with the file at first is said; later an editor may be putting a new one in its place.
    let mut seen = stamp(file);
    let mut code = Some(check::rule(file)?);
    loop {
        if let Some(code) = &code {
            writeln!(io::stdout(), "{}", verdict(&mut checker, code, starts))?;
        }
        seen = changed(file, seen);
        code = read_again(file)?;
    }
}

/// The verdict, and the time that the check took.
fn verdict(checker: &mut Checker, code: &[u8], starts: &[u32]) -> String {
    let begun = Instant::now();
    let checked = checker.explain(code, starts);
    let took = begun.elapsed().as_secs_f64() * 1e3;
    let words = match checked {
        Ok(checked) => format!(
            "accepted, {} instructions with a depth, stack {}",
            checked.count(),
            checked.greatest()
        ),
        Err(error) => check::refused(code, starts, error),
    };
    format!("{words} ({took:.1} ms)")
}

/// A file's stamp; none where there is no file.
fn stamp(file: &OsStr) -> Option<Stamp> {
    let about = fs::metadata(file).ok()?;
    Some((about.len(), about.modified().ok()?))
}

/// Waits until the file is there with another stamp.
fn changed(file: &OsStr, seen: Option<Stamp>) -> Option<Stamp> {
    loop {
        thread::sleep(PAUSE);
        let now = stamp(file);
        if now.is_some() && now != seen {
            return now;
        }
    }
}

/// The file's bytes; none where it can't be read just now.
fn read_again(file: &OsStr) -> Result<Option<Vec<u8>>, Trouble> {
    match check::rule(file) {
        Err(Trouble::Said(_)) => Ok(None),
        read => read.map(Some),
    }
}
