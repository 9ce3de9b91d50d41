//! What is wrong with a line of a listing that was not read, in words that a rule writer can act on. Verdict and line are the
//! library's; here the reason is looked for behind it, and where none is found the refusal's own words stand alone.

use tokenfinch::{Opcode, ReadError, Refusal, Shape, read_listing};

const HEADER: &[u8] = b"offset\tname\toperands\ttarget";
const FIELDS: [&str; 4] = ["offset", "name", "operands", "target"];

/// The ranges of operands.
type Range = (i128, i128);
const BYTE: Range = (0, 255);
const SIGNED: Range = (-128, 127);
const WORD: Range = (0, 65_535);
const JUMP: Range = (-32_768, 32_767);

/// The most letters of a line that are shown.
const SHOWN: usize = 40;

/// The reason, with the refusal's number behind it.
pub fn why(text: &[u8], error: ReadError) -> String {
    let (line, refusal) = (error.line(), error.refusal());
    let words = match refusal {
        Refusal::NotALine => match unformed(text, line) {
            Some(reason) => format!("{}: {reason}", refusal.in_words()),
            None => refusal.in_words().to_owned(),
        },
        Refusal::Disagrees => disagreeing(text, line).unwrap_or_else(|| refusal.in_words().to_owned()),
        Refusal::Full(_) => "with this line the code is over 65,536 bytes".to_owned(),
        other => other.in_words().to_owned(),
    };
    format!("{words} ({})", refusal.number())
}

/// A line with its LF, where it has one.
fn line_of(text: &[u8], number: usize) -> &[u8] {
    let mut lines = text.split_inclusive(|&byte| byte == b'\n');
    lines.nth(number.saturating_sub(1)).unwrap_or_default()
}

/// Bytes in quotes, as far as they are shown.
fn quoted(bytes: &[u8]) -> String {
    let shown = bytes[..bytes.len().min(SHOWN)].escape_ascii();
    let rest = if bytes.len() > SHOWN { ".." } else { "" };
    format!("`{shown}{rest}`")
}

/// Why a line is not formed as a line of a listing.
fn unformed(text: &[u8], number: usize) -> Option<String> {
    if text.is_empty() {
        return Some("the text is empty, and a listing begins with its header".to_owned());
    }
    let line = line_of(text, number);
    if let Some(reason) = foreign(line) {
        return Some(reason.to_owned());
    }
    let line = line.strip_suffix(b"\n").unwrap_or(line);
    if number == 1 {
        Some(no_header(line))
    } else {
        no_instruction(line)
    }
}

/// What another system or editor does to a line.
fn foreign(line: &[u8]) -> Option<&'static str> {
    if line.contains(&0) {
        return Some("it has a byte 0, as a text in UTF-16 has");
    }
    if line.starts_with(b"\xEF\xBB\xBF") {
        return Some("a byte order mark stands in front of it");
    }
    if line.ends_with(b"\r\n") {
        return Some("it ends in CR LF, and a line ends in LF alone");
    }
    if line.contains(&b'\r') {
        return Some("it has a CR in it, and a line ends in LF alone");
    }
    if !line.ends_with(b"\n") {
        return Some("it is the last and has no LF at its end");
    }
    None
}

/// Whether a line is what it should be but for spaces in place of tabs.
fn is_spaced(line: &[u8]) -> bool {
    let words = line
        .split(|byte| matches!(byte, b' ' | b'\t'))
        .filter(|word| !word.is_empty());
    line.contains(&b' ') && words.count() == FIELDS.len()
}

fn no_header(line: &[u8]) -> String {
    if line.starts_with(b"depth\toffset\t") {
        return "this is a listing with depths, as check prints it: take the first column away".to_owned();
    }
    if is_spaced(line) {
        return "spaces stand where tabs should".to_owned();
    }
    "it is the header, `offset`, `name`, `operands`, `target`, parted by tabs, that a listing begins with".to_owned()
}

/// Why a line behind the header is none.
fn no_instruction(line: &[u8]) -> Option<String> {
    match line {
        [] => return Some("it is blank".to_owned()),
        [b'!', ..] => return Some("it is the line of a fault, and no instruction".to_owned()),
        HEADER => return Some("it is a second header".to_owned()),
        _ => {}
    }
    let fields: Vec<&[u8]> = line.split(|&byte| byte == b'\t').collect();
    let [offset, name, operands, target] = fields[..] else {
        return Some(if is_spaced(line) {
            "spaces stand where tabs should".to_owned()
        } else {
            format!("it has {} fields parted by tabs, not 4", fields.len())
        });
    };
    if let Some(place) = fields.iter().position(|field| field.contains(&b' ')) {
        return Some(format!("there is a space in its {}", FIELDS[place]));
    }
    if !is_whole(offset) || offset.starts_with(b"-") {
        return Some(format!("the offset {} {}", quoted(offset), NO_NUMBER));
    }
    let Some(opcode) = named(name) else {
        return Some(unknown(name));
    };
    bad_operands(opcode, operands).or_else(|| bad_target(opcode, target))
}

const NO_NUMBER: &str = "is no number as listing prints it";

/// A number as it is printed: no zero in front, no `-0`, no `+`.
fn is_whole(word: &[u8]) -> bool {
    match word {
        b"0" => true,
        [b'-', digits @ ..] | digits => {
            digits.first().is_some_and(|digit| *digit != b'0') && digits.iter().all(u8::is_ascii_digit)
        }
    }
}

/// A whole number's value; one too large for any field is cut at the greatest.
fn value(word: &[u8]) -> Option<i128> {
    let text = std::str::from_utf8(word).ok().filter(|_| is_whole(word))?;
    let most = if text.starts_with('-') { i128::MIN } else { i128::MAX };
    Some(text.parse().unwrap_or(most))
}

fn named(name: &[u8]) -> Option<Opcode> {
    Opcode::ALL
        .into_iter()
        .find(|opcode| format!("{opcode:?}").as_bytes() == name)
}

/// A name that is none, and one that may be meant.
fn unknown(name: &[u8]) -> String {
    let shown = quoted(name);
    let given = String::from_utf8_lossy(&name[..name.len().min(SHOWN)]).to_ascii_lowercase();
    let near = |opcode: &Opcode| distance(&given, &format!("{opcode:?}").to_ascii_lowercase());
    match Opcode::ALL.into_iter().min_by_key(near) {
        Some(opcode) if near(&opcode) <= 2 => format!("no opcode is named {shown}; {opcode:?} is near"),
        _ => format!("no opcode is named {shown}"),
    }
}

/// How many letters have to be put in, taken out or changed to get from one word to the other.
fn distance(one: &str, other: &str) -> usize {
    let mut row: Vec<usize> = (0..=other.len()).collect();
    for (i, letter) in one.bytes().enumerate() {
        let mut corner = row[0];
        row[0] = i + 1;
        for (j, against) in other.bytes().enumerate() {
            let changed = corner + usize::from(letter != against);
            corner = row[j + 1];
            row[j + 1] = changed.min(corner + 1).min(row[j] + 1);
        }
    }
    row[other.len()]
}

/// The ranges of a shape's numbers, without the names of a keyword call.
fn ranges(shape: Shape) -> &'static [Range] {
    match shape {
        Shape::None => &[],
        Shape::U8 => &[BYTE],
        Shape::I8 => &[SIGNED],
        Shape::U16 => &[WORD],
        Shape::Offset => &[JUMP],
        Shape::U8U8 | Shape::CallKw => &[BYTE, BYTE],
        Shape::U16U8 => &[WORD, BYTE],
        Shape::U16U16 => &[WORD, WORD],
        Shape::U16U8U8 | Shape::CallAttrKw => &[WORD, BYTE, BYTE],
        Shape::U16U16U8 => &[WORD, WORD, BYTE],
    }
}

fn bad_operands(opcode: Opcode, operands: &[u8]) -> Option<String> {
    let shape = opcode.operand_shape();
    let ranges = ranges(shape);
    let has_names = matches!(shape, Shape::CallKw | Shape::CallAttrKw);
    let words: Vec<&[u8]> = match operands {
        b"-" => Vec::new(),
        list => list.split(|&byte| byte == b',').collect(),
    };
    if let Some(reason) = bad_count(opcode, ranges.len(), words.len(), has_names) {
        return Some(reason);
    }
    for (place, word) in words.iter().enumerate() {
        let range = ranges.get(place).copied().unwrap_or(WORD);
        if let Some(reason) = bad_number(word, range) {
            return Some(format!("operand {} of {opcode:?} {reason}", place + 1));
        }
    }
    let behind = words.len() - ranges.len();
    let count = words.get(ranges.len().wrapping_sub(1)).and_then(|word| value(word));
    if has_names && count != Some(behind as i128) {
        let count = count.unwrap_or_default();
        return Some(format!(
            "{opcode:?} counts {count} names, and {behind} stand behind the count"
        ));
    }
    None
}

fn bad_count(opcode: Opcode, wanted: usize, given: usize, has_names: bool) -> Option<String> {
    if given == wanted || (has_names && given > wanted) {
        return None;
    }
    let least = if has_names { "at least " } else { "" };
    Some(match wanted {
        0 => format!("{opcode:?} has no operand: `-` stands there"),
        1 => format!("{opcode:?} has one operand, not {given}"),
        _ => format!("{opcode:?} has {least}{wanted} operands, joined by commas, not {given}"),
    })
}

fn bad_number(word: &[u8], (least, most): Range) -> Option<String> {
    match value(word) {
        None => Some(format!("is {}, which {NO_NUMBER}", quoted(word))),
        Some(value) if value < least => Some(format!("is {}, below {least}", quoted(word))),
        Some(value) if value > most => Some(format!("is {}, over {most}", quoted(word))),
        Some(_) => None,
    }
}

fn bad_target(opcode: Opcode, target: &[u8]) -> Option<String> {
    let shown = quoted(target);
    match opcode.operand_shape() {
        Shape::Offset if !is_whole(target) => Some(format!("the target {shown} {NO_NUMBER}, and {opcode:?} is a jump")),
        Shape::Offset => None,
        _ if target != b"-" => Some(format!("{opcode:?} is no jump and has the target `-`, not {shown}")),
        _ => None,
    }
}

/// Which of offset and target is not what results, and what that is: the lines before this one are read for it.
fn disagreeing(text: &[u8], number: usize) -> Option<String> {
    let line = line_of(text, number);
    let lines = text.split_inclusive(|&byte| byte == b'\n');
    let before: usize = lines.take(number.saturating_sub(1)).map(<[u8]>::len).sum();
    let here = read_listing(&text[..before]).ok()?.len() as i128;
    let fields: Vec<&[u8]> = line.strip_suffix(b"\n")?.split(|&byte| byte == b'\t').collect();
    let [offset, _, operands, target] = fields[..] else {
        return None;
    };
    if value(offset)? != here {
        return Some(format!("the offset is {here} here, not {}", shown_number(offset)));
    }
    let leads = here + 3 + value(operands)?;
    let meant = value(target)?.saturating_sub(here + 3);
    let (least, most) = JUMP;
    let instead = if (least..=most).contains(&meant) {
        format!(" (to {} it is {meant})", shown_number(target))
    } else {
        String::new()
    };
    Some(format!(
        "the displacement {} leads to {leads}, not {}{instead}",
        shown_number(operands),
        shown_number(target)
    ))
}

/// A number's digits, as far as they are shown.
fn shown_number(word: &[u8]) -> String {
    quoted(word).replace('`', "")
}

#[cfg(test)]
mod tests {
    use super::*;

    /// What is said of a listing with these lines.
    fn told(lines: &str) -> String {
        told_of(format!("offset\tname\toperands\ttarget\n{lines}").as_bytes())
    }

    fn told_of(text: &[u8]) -> String {
        match read_listing(text) {
            Ok(code) => format!("{} bytes", code.len()),
            Err(error) => format!("{}: {}", error.line(), why(text, error)),
        }
    }

    /// The reason of a 24 alone.
    fn reason(lines: &str) -> String {
        let told = told(lines);
        let told = told.strip_prefix("2: not a line that listing prints: ");
        told.and_then(|told| told.strip_suffix(" (24)"))
            .unwrap_or("none")
            .to_owned()
    }

    #[test]
    fn what_another_system_does_is_told() {
        for (text, wanted) in [
            (&b""[..], "1: the text is empty, and a listing begins with its header"),
            (
                b"offset\tname\toperands\ttarget",
                "1: it is the last and has no LF at its end",
            ),
            (
                b"offset\tname\toperands\ttarget\r\n",
                "1: it ends in CR LF, and a line ends in LF alone",
            ),
            (
                b"offset\tname\toperands\ttarget\r",
                "1: it has a CR in it, and a line ends in LF alone",
            ),
            (
                b"\xEF\xBB\xBFoffset\tname\toperands\ttarget\n",
                "1: a byte order mark stands in front of it",
            ),
            (b"o\0f\0\n\0", "1: it has a byte 0, as a text in UTF-16 has"),
            (b"offset  name operands target\n", "1: spaces stand where tabs should"),
            (
                b"depth\toffset\tname\toperands\ttarget\n",
                "1: this is a listing with depths, as check prints it: take the first column away",
            ),
            (
                b"0\tPop\t-\t-\n",
                "1: it is the header, `offset`, `name`, `operands`, `target`, parted by tabs, that a listing begins with",
            ),
        ] {
            let (line, reason) = wanted.split_once(' ').expect("a line and a reason");
            assert_eq!(
                told_of(text),
                format!("{line} not a line that listing prints: {reason} (24)")
            );
        }
        assert_eq!(reason("0 Pop - -\n"), "spaces stand where tabs should");
        assert_eq!(
            reason("0\tPop\t-\t-\r\n"),
            "it ends in CR LF, and a line ends in LF alone"
        );
        assert_eq!(reason("0\tPop\t-\t-"), "it is the last and has no LF at its end");
        assert_eq!(reason("0\tPop\t-\t- \n"), "there is a space in its target");
    }

    #[test]
    fn the_field_is_told() {
        for (line, wanted) in [
            ("", "it is blank"),
            ("!\t0\t22", "it is the line of a fault, and no instruction"),
            ("offset\tname\toperands\ttarget", "it is a second header"),
            ("0\tPop\t-", "it has 3 fields parted by tabs, not 4"),
            ("01\tPop\t-\t-", "the offset `01` is no number as listing prints it"),
            ("-1\tPop\t-\t-", "the offset `-1` is no number as listing prints it"),
            ("0\tpop\t-\t-", "no opcode is named `pop`; Pop is near"),
            ("0\tLoadNnone\t-\t-", "no opcode is named `LoadNnone`; LoadNone is near"),
            ("0\tNothing\t-\t-", "no opcode is named `Nothing`"),
            ("0\tPop\t1\t-", "Pop has no operand: `-` stands there"),
            ("0\tLoadConst\t-\t-", "LoadConst has one operand, not 0"),
            ("0\tLoadConst\t1,2\t-", "LoadConst has one operand, not 2"),
            (
                "0\tLoadConst\t65536\t-",
                "operand 1 of LoadConst is `65536`, over 65535",
            ),
            (
                "0\tLoadSmallInt\t-129\t-",
                "operand 1 of LoadSmallInt is `-129`, below -128",
            ),
            (
                "0\tLoadConst\t+1\t-",
                "operand 1 of LoadConst is `+1`, which is no number as listing prints it",
            ),
            (
                "0\tCallFunctionKw\t1\t-",
                "CallFunctionKw has at least 2 operands, joined by commas, not 1",
            ),
            (
                "0\tCallFunctionKw\t1,2,7\t-",
                "CallFunctionKw counts 2 names, and 1 stand behind the count",
            ),
            ("0\tPop\t-\t3", "Pop is no jump and has the target `-`, not `3`"),
            (
                "0\tJump\t0\t-",
                "the target `-` is no number as listing prints it, and Jump is a jump",
            ),
        ] {
            assert_eq!(reason(&format!("{line}\n")), wanted);
        }
        let long = "9".repeat(50);
        assert!(reason(&format!("0\tLoadConst\t{long}\t-\n")).contains("9.."));
    }

    #[test]
    fn what_results_is_told() {
        assert_eq!(
            told("0\tPop\t-\t-\n2\tPop\t-\t-\n"),
            "3: the offset is 1 here, not 2 (25)"
        );
        assert_eq!(
            told(&format!("{}\tPop\t-\t-\n", "1".repeat(30))),
            format!("2: the offset is 0 here, not {} (25)", "1".repeat(30))
        );
        assert_eq!(
            told("0\tPop\t-\t-\n1\tJump\t3\t8\n"),
            "3: the displacement 3 leads to 7, not 8 (to 8 it is 4) (25)"
        );
        assert_eq!(
            told("0\tJump\t-3\t40000\n"),
            "2: the displacement -3 leads to 0, not 40000 (25)"
        );
    }

    #[test]
    fn any_line_has_words() {
        for line in [
            "\t\t\t",
            "0\t\t\t",
            "\u{e9}\tPop\t-\t-",
            "-",
            "0\tPop\t-\t-\tx",
            "0\tCallAttrKw\t1,2,-1\t-",
        ] {
            assert_ne!(reason(&format!("{line}\n")), "none", "{line}");
        }
    }
}
