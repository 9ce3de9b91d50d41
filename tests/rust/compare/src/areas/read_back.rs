//! Listings read back: those of random code, which have to give the code again, and listings that are damaged in the ways of
//! one who types, beside a reader that was written for this. Compared are the answer, the line and every byte of the slice.

use std::collections::BTreeMap;

use super::listing::{edged, listing, whole};
use crate::{
    Plan, original,
    proved::{self, Answer},
    random::Random,
    reference::{Decoder, listed::Reader},
    tally::{Expected, Tally},
};

/// Numbers at and beside the ends of every field.
const EDGES: [&str; 18] = [
    "0",
    "-0",
    "-1",
    "127",
    "128",
    "-128",
    "-129",
    "255",
    "256",
    "32767",
    "32768",
    "-32768",
    "-32769",
    "65535",
    "65536",
    "+1",
    "123456789012345678901234567890",
    "-123456789012345678901234567890",
];

/// What a finger may hit.
const KEYS: &[u8] = b"0123456789-+,. \t\n\r!aeLPx\0\x7f\x80\xff";

pub fn run(tally: &mut Tally, plan: &mut Plan) {
    let decoder = Decoder::new();
    let mut run = Run {
        reader: Reader::new(&decoder),
        told: BTreeMap::new(),
    };
    for edge in [0x00, 0x01, 0x7f, 0x80, 0xff] {
        let every: Vec<u8> = (0..=130).flat_map(|opcode| edged(&decoder, opcode, edge)).collect();
        run.back(tally, &decoder, &every);
    }
    run.back(tally, &decoder, &whole(&decoder, &mut plan.random, 65_536));
    run.longest(tally, &decoder);
    for _ in 0..plan.amount(1_500, 100) {
        let length = 1 + plan.random.below(40);
        let code = whole(&decoder, &mut plan.random, length);
        run.back(tally, &decoder, &code);
        let text = listing(&decoder, &code).into_bytes();
        for _ in 0..plan.amount(12, 8) {
            let damaged = damaged(&mut plan.random, &text);
            let room = plan.random.below(2 * code.len() + 3);
            run.one(tally, &damaged, code.len() + 300);
            run.one(tally, &damaged, room);
        }
    }
    println!("compare: read back, refusals (0 for accepted): {:?}", run.told);
    assert!(
        [0, 18, 24, 25].iter().all(|number| run.told.contains_key(number)),
        "not every answer came"
    );
}

struct Run {
    reader: Reader,
    /// How often each refusal was due; 0 for accepted.
    told: BTreeMap<u32, u64>,
}

impl Run {
    /// A code's own listing, which gives the code where there is room for it.
    fn back(&mut self, tally: &mut Tally, decoder: &Decoder, code: &[u8]) {
        let text = listing(decoder, code).into_bytes();
        tally.compare(
            self.reader.read(&text, code.len()).as_deref(),
            Expected::by_text(Ok(code)),
            || format!("the reference reads {}", shown(&text)),
        );
        for room in [code.len(), code.len() + 7, code.len().saturating_sub(1)] {
            self.one(tally, &text, room);
        }
    }

    /// Code of 65,537 bytes and a little less, which no listing shows: its lines are made here.
    fn longest(&mut self, tally: &mut Tally, decoder: &Decoder) {
        let mut text = listing(decoder, &vec![105; 65_535]).into_bytes();
        for line in ["65535\tPop\t-\t-\n", "65536\tPop\t-\t-\n", "65537\tPop\t-\t-\n"] {
            text.extend(line.bytes());
            self.one(tally, &text, 70_000);
        }
        let wide = [
            listing(decoder, &vec![105; 65_535]),
            "65535\tLoadSmallInt\t1\t-\n".to_owned(),
        ]
        .concat();
        self.one(tally, wide.as_bytes(), 70_000);
    }

    fn one(&mut self, tally: &mut Tally, text: &[u8], room: usize) {
        let mut cells: Vec<u8> = (0..room).map(|i| (i * 7 + 3) as u8).collect();
        let mut due_cells = cells.clone();
        let answer = proved::read_listing(text, &mut cells);
        let due = match self.reader.read(text, room) {
            Ok(code) => {
                due_cells[..code.len()].copy_from_slice(&code);
                Answer::accepted(code.len() as i32)
            }
            Err((number, line)) => Answer::naming(number, line),
        };
        *self.told.entry(due.refusal()).or_default() += 1;
        tally.compare((answer, cells), Expected::by_text((due, due_cells)), || {
            format!("room {room}, {}", shown(text))
        });
    }
}

fn shown(text: &[u8]) -> String {
    text[..text.len().min(400)].escape_ascii().to_string()
}

/// A text as lines of fields, without its ends.
type Lines = Vec<Vec<Vec<u8>>>;

fn parted(text: &[u8]) -> Lines {
    let fields = |line: &[u8]| line.split(|&byte| byte == b'\t').map(<[u8]>::to_vec).collect();
    let text = text.strip_suffix(b"\n").unwrap_or(text);
    text.split(|&byte| byte == b'\n').map(fields).collect()
}

fn joined(lines: &Lines) -> Vec<u8> {
    lines
        .iter()
        .flat_map(|line| [line.join(&b'\t'), vec![b'\n']].concat())
        .collect()
}

/// One to three kinds of damage, mostly one.
fn damaged(random: &mut Random, text: &[u8]) -> Vec<u8> {
    let times = 1 + random.below(8) / 6 + random.below(8) / 7;
    (0..times).fold(text.to_vec(), |text, _| match random.below(6) {
        0 | 1 => keyed(random, text),
        2 => in_ends(random, text),
        _ => {
            let mut lines = parted(&text);
            match random.below(3) {
                0 => in_lines(random, &mut lines),
                _ => in_field(random, &mut lines),
            }
            joined(&lines)
        }
    })
}

/// A byte changed, put in, taken out or doubled, anywhere.
fn keyed(random: &mut Random, mut text: Vec<u8>) -> Vec<u8> {
    if text.is_empty() {
        return text;
    }
    let place = random.below(text.len());
    match random.below(6) {
        0 => text[place] = random.u8(),
        1 => text[place] = KEYS[random.below(KEYS.len())],
        2 => text.insert(place, KEYS[random.below(KEYS.len())]),
        3 => _ = text.remove(place),
        4 => text.insert(place, text[place]),
        _ => text[place] ^= 0x20, // another case
    }
    text
}

/// What happens to the ends of lines, or to all of the text.
fn in_ends(random: &mut Random, text: Vec<u8>) -> Vec<u8> {
    let replaced = |from: u8, to: &[u8]| {
        let put = |&byte: &u8| if byte == from { to.to_vec() } else { vec![byte] };
        text.iter().flat_map(put).collect()
    };
    match random.below(9) {
        0 => replaced(b'\n', b"\r\n"),
        1 => replaced(b'\n', b"\n\n"),
        2 => replaced(b'\t', b" "),
        3 => replaced(b'\t', b"    "),
        4 => text.strip_suffix(b"\n").unwrap_or(&text).to_vec(),
        5 => text[..random.below(text.len() + 1)].to_vec(),
        6 => [&b"\xEF\xBB\xBF"[..], &text].concat(),
        7 => [&text[..], b"\n"].concat(),
        _ => [&text[..], b"!\t0\t22\n"].concat(),
    }
}

/// Lines swapped, doubled, taken out, put in; fields lost, doubled, swapped.
fn in_lines(random: &mut Random, lines: &mut Lines) {
    let (one, other) = (random.below(lines.len()), random.below(lines.len()));
    match random.below(9) {
        0 => lines.swap(one, other),
        1 => lines.insert(one, lines[other].clone()),
        2 => _ = lines.remove(one),
        3 => lines.insert(one, vec![vec![]]),
        4 => lines.insert(one, parted(b"offset\tname\toperands\ttarget").remove(0)),
        5 => _ = lines[one].pop(),
        6 => lines[one].push(b"-".to_vec()),
        7 => lines[one].reverse(),
        _ => lines[one] = vec![lines[one].join(&b' ')],
    }
}

/// Damage to one field.
fn in_field(random: &mut Random, lines: &mut Lines) {
    if lines.is_empty() {
        return;
    }
    let line = random.below(lines.len());
    let place = random.below(lines[line].len().max(1));
    let Some(field) = lines[line].get_mut(place) else {
        return;
    };
    *field = match random.below(8) {
        0 => EDGES[random.below(EDGES.len())].into(),
        1 => [&[KEYS[random.below(KEYS.len())]][..], field].concat(),
        2 => [&field[..], &[KEYS[random.below(KEYS.len())]]].concat(),
        3 => [b"0", &field[..]].concat(),
        4 => another_name(random),
        5 => another_operand(random, field),
        6 => another_digit(random, field.clone()),
        _ => field.to_ascii_lowercase(),
    };
}

fn another_name(random: &mut Random) -> Vec<u8> {
    let opcode = original::opcode(random.below(131) as u8).expect("it is an opcode");
    format!("{opcode:?}").into_bytes()
}

/// An operand more, less, or another one, at any place of the list.
fn another_operand(random: &mut Random, field: &[u8]) -> Vec<u8> {
    let mut words: Vec<Vec<u8>> = field.split(|&byte| byte == b',').map(<[u8]>::to_vec).collect();
    let place = random.below(words.len());
    let edge: Vec<u8> = EDGES[random.below(EDGES.len())].into();
    match random.below(4) {
        0 => words.insert(place, edge),
        1 => words.push(edge),
        2 => _ = words.remove(place),
        _ => words[place] = edge,
    }
    words.join(&b',')
}

fn another_digit(random: &mut Random, mut field: Vec<u8>) -> Vec<u8> {
    let digits: Vec<usize> = (0..field.len()).filter(|&i| field[i].is_ascii_digit()).collect();
    if !digits.is_empty() {
        field[digits[random.below(digits.len())]] = b'0' + random.below(10) as u8;
    }
    field
}
