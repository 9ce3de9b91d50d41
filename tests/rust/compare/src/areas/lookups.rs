//! The lookups beside code.rs's over random tables, locations in rising order and handlers in any; and beside the
//! reference over tables in any order, of any numbers, with a part of a row behind them.

use std::fmt::Debug;

use monty::{
    bytecode::code::{Code, ExceptionEntry, HandlerKind, LocationEntry},
    intern::StringId,
    parse::CodeRange,
    value::Value,
};

use crate::{
    Plan,
    proved::{self, Answer},
    random::Random,
    reference,
    tally::{By, Expected, Tally},
};

const FILLING: u64 = 0x3c3c_3c3c_3c3c;

/// An answer, and all cells behind the call.
type Told = (Answer, [u64; 10]);

pub fn run(tally: &mut Tally, plan: &mut Plan) {
    for _ in 0..plan.amount(20_000, 200) {
        rising_locations(tally, &mut plan.random);
        rust_handlers(tally, &mut plan.random);
        any_rows(tally, &mut plan.random);
        constants(tally, &mut plan.random);
        local_names(tally, &mut plan.random);
    }
}

/// Asks with a random room and compares with the numbers that are expected, if any.
fn one(
    tally: &mut Tally,
    random: &mut Random,
    ask: impl FnOnce(&mut [u64]) -> Answer,
    found: Option<Vec<u64>>,
    by: By,
    case: impl FnOnce() -> String,
) {
    let room = random.below(11);
    let mut cells = [FILLING; 10];
    let answer = ask(&mut cells[..room]);
    let told: Told = (answer, cells);
    let expected = expected(found, room, by);
    tally.compare(told, expected, || format!("{}, room {room}", case()));
}

fn expected(found: Option<Vec<u64>>, room: usize, by: By) -> Expected<Told> {
    let mut cells = [FILLING; 10];
    let (answer, by) = match found {
        None => (Answer::accepted(0), by),
        Some(numbers) if room < numbers.len() => (Answer::no_room(), By::Header),
        Some(numbers) => {
            cells[..numbers.len()].copy_from_slice(&numbers);
            (Answer::accepted(1), by)
        }
    };
    Expected {
        answer: (answer, cells),
        by,
    }
}

/// A row's number and its six numbers.
fn row_told(rows: &[u32], number: Option<usize>) -> Option<Vec<u64>> {
    let number = number?;
    let row = &rows[6 * number..6 * number + 6];
    Some(
        std::iter::once(number as u64)
            .chain(row.iter().map(|&cell| cell.into()))
            .collect(),
    )
}

fn u32(random: &mut Random) -> u32 {
    (random.next() >> 32) as u32
}

/// Small, so that rows meet and are met, or any.
fn offset(random: &mut Random) -> u32 {
    match random.below(8) {
        0 => u32(random),
        1 => u32::MAX - random.below(3) as u32,
        _ => random.below(40) as u32,
    }
}

/// Offsets to ask for: at, before and behind every row's first numbers, and at the ends.
fn asked(rows: &[u32], random: &mut Random) -> Vec<u32> {
    let mut asked = vec![0, u32::MAX, offset(random)];
    for row in rows.chunks_exact(6) {
        asked.extend([
            row[0].wrapping_sub(1),
            row[0],
            row[0].wrapping_add(1),
            row[1].wrapping_sub(1),
            row[1],
        ]);
    }
    asked
}

fn case(what: &str, rows: &impl Debug, at: impl Debug) -> String {
    format!("{what} {at:?} in {rows:?}")
}

fn code_of(locations: Vec<LocationEntry>, handlers: Vec<ExceptionEntry>) -> Code {
    Code::new(Vec::new(), Vec::new(), locations, handlers, Vec::new())
}

/// Rows in rising order; each entry's range begins with the row's number, so that the Rust says which it found.
fn rising_locations(tally: &mut Tally, random: &mut Random) {
    let mut offsets: Vec<u32> = (0..random.below(9)).map(|_| offset(random)).collect();
    offsets.sort_unstable();
    let (mut rows, mut entries) = (Vec::new(), Vec::new());
    for (number, &at) in offsets.iter().enumerate() {
        let range = CodeRange {
            start: number as u32,
            end: u32(random),
        };
        let focus = (random.below(2) == 0).then(|| CodeRange {
            start: u32(random),
            end: u32(random),
        });
        let [present, start, end] = focus.map_or([0, 0, 0], |focus| [1, focus.start, focus.end]);
        rows.extend([at, range.start, range.end, present, start, end]);
        entries.push(LocationEntry::new(at, range, focus));
    }
    let code = code_of(entries, Vec::new());
    let above = [1 << 32, (1 << 32) + 5, usize::MAX];
    let asked: Vec<usize> = asked(&rows, random)
        .into_iter()
        .map(|at| at as usize)
        .chain(above)
        .collect();
    for at in asked {
        let found = code.location_for_offset(at).map(|entry| entry.range().start as usize);
        one(
            tally,
            random,
            |out| proved::location_for_offset(&rows, at, out),
            row_told(&rows, found),
            By::Rust,
            || case("location", &rows, at),
        );
    }
}

/// Entries in any order; each handler is the row's number.
fn rust_handlers(tally: &mut Tally, random: &mut Random) {
    let (mut rows, mut entries) = (Vec::new(), Vec::new());
    for number in 0..random.below(7) as u32 {
        let (start, end) = (offset(random), offset(random));
        let (depth, count) = (random.u16(), random.u16());
        let cleanup = random.below(2) == 0;
        let kind = if cleanup {
            HandlerKind::Cleanup
        } else {
            HandlerKind::Consuming
        };
        rows.extend([start, end, number, depth.into(), count.into(), cleanup.into()]);
        entries.push(ExceptionEntry::new(start, end, number, depth, count, kind));
    }
    let code = code_of(Vec::new(), entries);
    for at in asked(&rows, random) {
        let found = code.find_exception_handler(at).map(|entry| {
            let number = entry.handler() as usize;
            let row = &rows[6 * number..6 * number + 6];
            let held = [
                entry.stack_depth().into(),
                entry.exception_stack_count().into(),
                (!entry.pushes_exception()).into(),
            ];
            assert_eq!(row[3..], held, "the entry is the row's");
            number
        });
        one(
            tally,
            random,
            |out| proved::find_exception_handler(&rows, at, out),
            row_told(&rows, found),
            By::Rust,
            || case("handler", &rows, at),
        );
    }
}

/// Any numbers, and up to five more behind the last whole row.
fn any_rows(tally: &mut Tally, random: &mut Random) {
    let rows: Vec<u32> = (0..random.below(40)).map(|_| offset(random)).collect();
    for at in asked(&rows, random) {
        one(
            tally,
            random,
            |out| proved::location_for_offset(&rows, at as usize, out),
            row_told(&rows, reference::location(&rows, at as usize)),
            By::Text,
            || case("location", &rows, at),
        );
        one(
            tally,
            random,
            |out| proved::find_exception_handler(&rows, at, out),
            row_told(&rows, reference::handler(&rows, at)),
            By::Text,
            || case("handler", &rows, at),
        );
    }
}

/// The Rust panics at and past the end; there the text says that nothing is found.
fn constants(tally: &mut Tally, random: &mut Random) {
    let constants: Vec<u64> = (0..random.below(6)).map(|_| random.next()).collect();
    let held = constants.iter().map(|&value| Value(value)).collect();
    let code = Code::new(Vec::new(), held, Vec::new(), Vec::new(), Vec::new());
    for index in (0..constants.len() + 2).chain([65535, usize::MAX]) {
        let inside = index < constants.len();
        let found = inside.then(|| vec![code.constant(index as u16).0]);
        one(
            tally,
            random,
            |out| proved::constant(&constants, index, out),
            found,
            if inside { By::Rust } else { By::Text },
            || case("constant", &constants, index),
        );
    }
}

/// Names by the Rust; cells that hold none, which its table can't have, by the reference.
fn local_names(tally: &mut Tally, random: &mut Random) {
    let ids: Vec<u32> = (0..random.below(6)).map(|_| offset(random)).collect();
    let names: Vec<u64> = ids.iter().map(|&id| u64::from(id) + 1).collect();
    let held = ids.iter().map(|&id| StringId(id)).collect();
    let code = Code::new(Vec::new(), Vec::new(), Vec::new(), Vec::new(), held);
    for slot in (0..names.len() + 2).chain([65535]) {
        let found = code.local_name(slot as u16).map(|name| vec![name.0.into()]);
        one(
            tally,
            random,
            |out| proved::local_name(&names, slot, out),
            found,
            By::Rust,
            || case("local name", &names, slot),
        );
    }
    const CELLS: [u64; 7] = [0, 1, 2, (1 << 32) - 1, 1 << 32, (1 << 32) + 1, u64::MAX];
    let cells: Vec<u64> = (0..random.below(6)).map(|_| CELLS[random.below(CELLS.len())]).collect();
    for slot in (0..cells.len() + 2).chain([usize::MAX]) {
        let found = reference::local_name(&cells, slot).map(|number| vec![number]);
        one(
            tally,
            random,
            |out| proved::local_name(&cells, slot, out),
            found,
            By::Text,
            || case("local name", &cells, slot),
        );
    }
}
