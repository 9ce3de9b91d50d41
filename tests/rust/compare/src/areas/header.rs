//! The opcodes' names in include/tokenfinch.h and in crates/op/src/opcodes.rt beside the Rust's: the name in upper case, its
//! words parted by `_`, with its number. No proof sees a name.

use super::named;
use crate::{
    Plan, original,
    tally::{Expected, Tally},
};

const HEADER: &str = include_str!("../../../../../include/tokenfinch.h");
const OPCODES: &str = include_str!("../../../../../crates/op/src/opcodes.rt");

pub fn run(tally: &mut Tally, _: &mut Plan) {
    names(tally, &constants(HEADER));
    let last = original::opcode(130).map(|op| upper_snake(&format!("{op:?}")));
    let mut written = consts(OPCODES);
    let named_last = OPCODES
        .split("pub const LAST: u8 = ")
        .nth(1)
        .and_then(|rest| rest.split(';').next());
    tally.compare(named_last, Expected::by_rust(last.as_deref()), || "LAST".to_owned());
    written.push(("LAST", 130));
    names(tally, &written);
}

/// Each `pub const NAME: u8 = number;` of the crate.
fn consts(text: &str) -> Vec<(&str, u64)> {
    let items = text.split("pub const ").skip(1);
    items
        .filter_map(|item| {
            let (name, number) = item.split(';').next()?.split_once(": u8 = ")?;
            Some((name, number.parse().ok()?))
        })
        .collect()
}

fn names(tally: &mut Tally, written: &[(&str, u64)]) {
    for byte in 0..=u8::MAX {
        let in_header: Vec<&str> = names_of(written, byte.into()).collect();
        let by_rust = original::opcode(byte).map(|op| upper_snake(&format!("{op:?}")));
        let by_rust: Vec<&str> = by_rust.iter().map(String::as_str).collect();
        tally.compare(in_header, Expected::by_rust(by_rust), || named(byte));
    }
    let known = (0..=u8::MAX).filter_map(original::opcode).count();
    tally.compare(written.len(), Expected::by_rust(known + 1), || {
        "names in the header".to_owned()
    });
    let last: Vec<u64> = written
        .iter()
        .filter(|(name, _)| *name == "LAST")
        .map(|(_, number)| *number)
        .collect();
    tally.compare(last, Expected::by_rust(vec![known as u64 - 1]), || {
        "TF_OP_LAST".to_owned()
    });
}

fn names_of<'a>(written: &'a [(&'a str, u64)], number: u64) -> impl Iterator<Item = &'a str> {
    let of_number = written.iter().filter(move |(name, n)| *n == number && *name != "LAST");
    of_number.map(|(name, _)| *name)
}

/// Each `TF_OP_name = number` of the header.
fn constants(text: &str) -> Vec<(&str, u64)> {
    let items = text.split(',').flat_map(|item| item.split(['{', '}', '\n']));
    items
        .filter_map(|item| {
            let (name, number) = item.split_once('=')?;
            let name = name.trim().strip_prefix("TF_OP_")?;
            let number = number.split_whitespace().next()?.parse().ok()?;
            Some((name, number))
        })
        .collect()
}

/// A word begins at a capital letter behind a small one or a digit.
fn upper_snake(name: &str) -> String {
    let mut out = String::new();
    let mut before = 'A';
    for c in name.chars() {
        if c.is_ascii_uppercase() && (before.is_ascii_lowercase() || before.is_ascii_digit()) {
            out.push('_');
        }
        out.push(c.to_ascii_uppercase());
        before = c;
    }
    out
}
