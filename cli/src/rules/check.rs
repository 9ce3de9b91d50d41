//! `rules check`: the listing of a rule with the depth of the stack in front of each line, and behind it the greatest
//! depth; or why there are no depths. With `--watch` the verdict alone, again and again.

use std::{
    ffi::{OsStr, OsString},
    io::{self, BufWriter, Write},
};

use tokenfinch::{CheckError, Mode, Reason, explain_in};

use super::{Outcome, Trouble, read, reasons::Refused, said, watch};

/// The most bytes of a rule.
const CODE_MOST: u64 = 1_048_576;

/// `--watch` and `--strict` may stand anywhere; the first other word is the rule, those behind it are starts.
pub fn run(words: &[OsString]) -> Outcome {
    let (watched, others): (Vec<_>, Vec<_>) = words.iter().partition(|word| *word == "--watch");
    let (mode, others) = mode(&others);
    let (file, starts) = asked("check", &others)?;
    if watched.is_empty() {
        once(mode, file, &starts)
    } else {
        watch::run(mode, file, &starts)
    }
}

/// Whether `--strict` is among the words, and the others.
pub fn mode<'a>(words: &[&'a OsString]) -> (Mode, Vec<&'a OsString>) {
    let (strict, others): (Vec<_>, Vec<_>) = words.iter().partition(|word| **word == "--strict");
    let mode = if strict.is_empty() { Mode::Net } else { Mode::Strict };
    (mode, others)
}

fn once(mode: Mode, file: &OsStr, starts: &[u32]) -> Outcome {
    let code = rule(file)?;
    let mut out = BufWriter::new(io::stdout().lock());
    let checked = explain_in(mode, &code, starts);
    match &checked {
        Ok(checked) => {
            // The library made these bytes, and is proved to; they are handed on unread.
            out.write_all(&checked.listing(&code).map_err(|refusal| said(refusal.to_string()))?)?;
            writeln!(out, "stack {}", checked.greatest())?;
        }
        Err(error) => writeln!(out, "{}", refused(&code, starts, *error))?,
    }
    out.flush()?;
    Ok(checked.is_ok())
}

/// The rule and the starts that the words of a command give.
pub fn asked<'a>(command: &str, words: &[&'a OsString]) -> Result<(&'a OsStr, Vec<u32>), Trouble> {
    let Some((file, starts)) = words.split_first() else {
        return Err(said(format!(
            "{command} takes a file, or - for standard input, and starts OFFSET:DEPTH"
        )));
    };
    Ok((file, self::starts(starts)?))
}

/// A rule's bytes. One byte more than a rule may have tells that it has too many, without reading on.
pub fn rule(file: &OsStr) -> Result<Vec<u8>, Trouble> {
    read(file, CODE_MOST + 1)
}

/// A refusal in one line: its number, the offset that it is about, where there is one, and why.
pub fn refused(code: &[u8], starts: &[u32], error: CheckError) -> String {
    let refused = Refused {
        code,
        starts,
        name: |offset| format!("offset {offset}"),
        end: "at the end",
    };
    let named = match error.reason() {
        Some(Reason::TooFewValues { at, .. }) => return format!("offset {at}: {} (26)", refused.words(error)),
        Some(reason) => Some(reason.offset()),
        None => error.refusal().offset(),
    };
    let place = named.map_or(String::new(), |offset| format!(" at offset {offset}"));
    format!("refused {}{place}: {}", error.refusal().number(), refused.words(error))
}

/// The starts that words give; 0:0 where there are none.
pub fn starts(words: &[&OsString]) -> Result<Vec<u32>, Trouble> {
    if words.is_empty() {
        return Ok(vec![0, 0]);
    }
    let read = |word: &&OsString| start(word).ok_or_else(|| said(format!("no start OFFSET:DEPTH: {}", word.display())));
    let pairs: Result<Vec<[u32; 2]>, Trouble> = words.iter().map(read).collect();
    Ok(pairs?.concat())
}

/// A start: two numbers of digits alone.
fn start(word: &OsStr) -> Option<[u32; 2]> {
    let number = |text: &str| {
        text.bytes()
            .all(|byte| byte.is_ascii_digit())
            .then(|| text.parse().ok())?
    };
    let (offset, depth) = word.to_str()?.split_once(':')?;
    Some([number(offset)?, number(depth)?])
}

#[cfg(test)]
mod tests {
    use super::*;

    #[test]
    fn starts_are_two_numbers() {
        assert_eq!(start("0:0".as_ref()), Some([0, 0]));
        assert_eq!(start("4294967295:65536".as_ref()), Some([u32::MAX, 65_536]));
        for word in [
            "",
            ":",
            "0",
            "0:",
            ":0",
            "0:0:0",
            "-1:0",
            "+1:0",
            "0:4294967296",
            "0 :0",
            "a:b",
        ] {
            assert_eq!(start(word.as_ref()), None, "{word}");
        }
    }

    #[test]
    fn a_refusal_is_one_line() {
        let told = |code: &[u8], starts: &[u32]| {
            refused(
                code,
                starts,
                explain_in(Mode::Strict, code, starts).expect_err("it is refused"),
            )
        };
        assert_eq!(
            told(&[5, 0, 0], &[0, 0]),
            "refused 23 at offset 2: Pop needs at least 1 value on the stack; it has none here"
        );
        assert_eq!(
            told(&[5, 23], &[0, 0]),
            "offset 1: BinaryAdd needs 2 values, 1 is there (26)"
        );
        assert_eq!(
            told(&[5, 8], &[0, 0]),
            "refused 22 at offset 1: an instruction is cut short by the code's end"
        );
        assert_eq!(
            told(&[5], &[7, 0]),
            "refused 20: the start 7:0 is at no instruction and not at the end, 1"
        );
        assert_eq!(
            told(&vec![105; 1_048_577], &[]),
            "refused 10: the code is over 1,048,576 bytes"
        );
    }
}
