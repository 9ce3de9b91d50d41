//! `rules compile`: the bytes of a listing, as the proved reading gives them, once the proved checker has accepted them.

use std::{
    ffi::{OsStr, OsString},
    fs::{self, File, OpenOptions},
    io::{self, Write},
    path::{Path, PathBuf},
    process,
};

use tokenfinch::{Mode, explain_in, read_listing};

use super::{Outcome, Trouble, check as checking, meeting, misread, read, said};

/// Longer than any listing of 65,536 bytes of code, and than a line in it that a person types.
const TEXT_MOST: u64 = 64 << 20;

/// What the words ask for.
#[derive(Debug, PartialEq, Eq)]
struct Asked<'a> {
    listing: &'a OsStr,
    /// None where the code is not to be checked.
    starts: Option<Vec<u32>>,
    mode: Mode,
    /// None for standard output.
    output: Option<&'a Path>,
}

pub fn run(words: &[OsString]) -> Outcome {
    let asked = asked(words)?;
    let text = text_of(&asked)?;
    let shown = asked.listing.display();
    let code = match read_listing(&text) {
        Ok(code) => code,
        Err(error) => {
            eprintln!("{shown}:{}: {}", error.line(), misread::why(&text, error));
            return Ok(false);
        }
    };
    if let Some(starts) = &asked.starts {
        if let Err(error) = explain_in(asked.mode, &code, starts) {
            eprintln!("{}", meeting::why(&shown, &code, starts, error));
            return Ok(false);
        }
    }
    match asked.output {
        Some(file) => {
            replace(file, &code).map_err(|error| said(format!("{} can't be written: {error}", file.display())))?
        }
        None => io::stdout().lock().write_all(&code)?,
    }
    Ok(true)
}

/// Options may stand anywhere; the first other word is the listing, those behind it are starts.
fn asked(words: &[OsString]) -> Result<Asked<'_>, Trouble> {
    let (mut others, mut output, mut unchecked) = (Vec::new(), None, false);
    let mut words = words.iter();
    while let Some(word) = words.next() {
        match word.to_str() {
            Some("--unchecked") => unchecked = true,
            Some("-o") => {
                let file = words.next().ok_or_else(|| said("-o wants a file"))?;
                if output.replace(file).is_some() {
                    return Err(said("compile takes one -o"));
                }
            }
            _ => others.push(word),
        }
    }
    let (mode, others) = checking::mode(&others);
    let Some((listing, starts)) = others.split_first() else {
        return Err(said(
            "compile takes a listing, or - for standard input, starts OFFSET:DEPTH and -o FILE",
        ));
    };
    if unchecked && (mode == Mode::Strict || !starts.is_empty()) {
        return Err(said(
            "starts and --strict are for the check, which --unchecked leaves out",
        ));
    }
    let starts = if unchecked {
        None
    } else {
        Some(checking::starts(starts)?)
    };
    Ok(Asked {
        listing,
        starts,
        mode,
        output: output.filter(|file| *file != "-").map(Path::new),
    })
}

fn text_of(asked: &Asked<'_>) -> Result<Vec<u8>, Trouble> {
    let shown = asked.listing.display();
    let text = read(asked.listing, TEXT_MOST + 1)?;
    if text.len() as u64 > TEXT_MOST {
        return Err(said(format!("{shown} is over 64 MiB, and no listing is")));
    }
    let same = |file: &Path| asked.listing != "-" && is_same(file, Path::new(asked.listing));
    if asked.output.is_some_and(same) {
        return Err(said(format!("-o {shown} would overwrite the listing")));
    }
    Ok(text)
}

/// Whether two paths lead to one file that is there.
fn is_same(one: &Path, other: &Path) -> bool {
    match (one.canonicalize(), other.canonicalize()) {
        (Ok(one), Ok(other)) => one == other,
        _ => false,
    }
}

/// Puts bytes in a file's place: written beside it and renamed, so that where writing fails the old file is still there. What is
/// there and no plain file, as a pipe, is written to.
fn replace(file: &Path, bytes: &[u8]) -> io::Result<()> {
    let old = fs::metadata(file);
    if old.as_ref().is_ok_and(|about| !about.is_file()) {
        return OpenOptions::new().write(true).open(file)?.write_all(bytes);
    }
    // Behind a link it is the file that is replaced, not the link.
    let file = file.canonicalize().unwrap_or_else(|_| file.to_owned());
    let beside = beside(&file)?;
    let written = written(&beside, bytes, old.ok().map(|about| about.permissions()));
    let done = written.and_then(|()| fs::rename(&beside, &file));
    if done.is_err() {
        let _ = fs::remove_file(&beside);
    }
    done
}

/// A name in the same folder that no one else uses.
fn beside(file: &Path) -> io::Result<PathBuf> {
    let name = file.file_name().ok_or(io::ErrorKind::InvalidFilename)?;
    let mut hidden = OsString::from(".");
    hidden.push(name);
    hidden.push(format!(".{}", process::id()));
    Ok(file.with_file_name(hidden))
}

fn written(file: &Path, bytes: &[u8], permissions: Option<fs::Permissions>) -> io::Result<()> {
    let mut out = File::create_new(file)?;
    out.write_all(bytes)?;
    out.sync_all()?;
    match permissions {
        Some(permissions) => fs::set_permissions(file, permissions),
        None => Ok(()),
    }
}

#[cfg(test)]
mod tests {
    use super::*;

    fn told(words: &[&str]) -> Result<String, String> {
        let words: Vec<OsString> = words.iter().map(OsString::from).collect();
        match asked(&words) {
            Ok(Asked {
                listing,
                starts,
                mode,
                output,
            }) => Ok(format!("{listing:?} {starts:?} {mode:?} {output:?}")),
            Err(Trouble::Said(why)) => Err(why),
            Err(_) => Err("unsaid".to_owned()),
        }
    }

    #[test]
    fn options_stand_anywhere() {
        let whole = Ok(r#""a" Some([4, 1]) Net Some("b")"#.to_owned());
        assert_eq!(told(&["a", "4:1", "-o", "b"]), whole);
        assert_eq!(told(&["-o", "b", "a", "4:1"]), whole);
        assert_eq!(told(&["-"]), Ok(r#""-" Some([0, 0]) Net None"#.to_owned()));
        assert_eq!(
            told(&["a", "--strict", "-o", "b"]),
            Ok(r#""a" Some([0, 0]) Strict Some("b")"#.to_owned())
        );
        assert_eq!(
            told(&["a", "--unchecked", "-o", "-"]),
            Ok(r#""a" None Net None"#.to_owned())
        );
        for words in [
            &[][..],
            &["-o", "b"],
            &["a", "-o"],
            &["a", "-o", "b", "-o", "c"],
            &["a", "b"],
        ] {
            assert!(told(words).is_err(), "{words:?}");
        }
        assert!(told(&["a", "0:0", "--unchecked"]).is_err());
        assert!(told(&["a", "--strict", "--unchecked"]).is_err());
    }
}
