//! No call trusts what it is lent: states and tables of any cells and lengths, null, arguments that a call does not
//! have. Each call has to answer, a refused one has to leave every cell as it was, and what is no state has to be
//! refused as such.

mod common;

use std::ptr::{null, null_mut};

use common::Random;
use tokenfinch::{
    Assignment, Checked, Mode, NO_DEPTH, Refusal, Table, check_into, explain_in, instructions,
    lent::{Emission, Lent, STATE_CELLS},
    lookups, step,
};

const SEED: u64 = 0x6261_645f_696e_7075;
const ROUNDS: usize = 6_000;

/// Tables of a few cells, and a state that is often none.
fn lent(random: &mut Random) -> Lent {
    fn cells<T>(random: &mut Random, most: u64, cell: impl Fn(u64) -> T) -> Vec<T> {
        let count = if random.chance(5) { 0 } else { random.below(most) };
        (0..count).map(|_| cell(random.number(64))).collect()
    }
    let narrow = |number: u64| number as u32;
    Lent {
        state: state(random),
        code: cells(random, 24, |number| number as u8),
        locations: cells(random, 20, narrow),
        exceptions: cells(random, 20, narrow),
        constants: cells(random, 5, |number| number),
        names: cells(random, 9, |number| number % 4),
        marks: marks(random),
        starts: cells(random, 7, narrow),
    }
}

/// Any cells, or those of a state with small counts, some of them changed.
fn state(random: &mut Random) -> Vec<u64> {
    let count = match random.below(8) {
        0 => random.below(STATE_CELLS as u64),
        1 => STATE_CELLS as u64 + random.below(4),
        _ => STATE_CELLS as u64,
    };
    let mut cells: Vec<u64> = (0..count).map(|_| random.below(4)).collect();
    for cell in &mut cells {
        if random.chance(20) {
            *cell = random.number(64);
        }
    }
    if random.chance(2) {
        // The flags, so that a good part are states.
        [9, 12].into_iter().for_each(|flag| {
            if let Some(cell) = cells.get_mut(flag) {
                *cell %= 2;
            }
        });
    }
    cells
}

/// Rows that are often marks.
fn marks(random: &mut Random) -> Vec<u32> {
    let rows = random.below(4);
    let mut cells = Vec::new();
    for _ in 0..rows {
        cells.extend([
            random.below(5) as u32,
            random.number(32).min(9) as u32,
            random.below(4) as u32,
            0,
        ]);
    }
    cells.truncate(cells.len() - random.below(3).min(cells.len() as u64) as usize);
    cells
}

/// Whether cells are a state, as the header has it.
fn is_state(cells: &[u64]) -> bool {
    let narrow = |cell: usize| cells[cell] <= u64::from(u32::MAX);
    cells.len() >= STATE_CELLS
        && cells[4] <= 65_536
        && cells[9] <= 1
        && (cells[9] == 0 || (narrow(10) && narrow(11) && cells[12] <= 1))
        && (cells[9] == 0 || cells[12] == 0 || (narrow(13) && narrow(14)))
}

/// One call with any arguments; whether they are of the call's own kind, and its answer.
fn any_call(random: &mut Random, lent: &mut Lent) -> (bool, Result<(), Refusal>) {
    let opcode = random.below(135) as u8;
    let row = random.number(64);
    match random.below(16) {
        0..=2 => any_emission(random, opcode, lent),
        3 | 4 => (true, lent.emit_jump(opcode).map(|_| ())),
        5 | 6 => (true, lent.patch_jump(row)),
        7 | 8 => (true, lent.emit_jump_to(opcode, row)),
        9 => (true, lent.current_jump_target().map(|_| ())),
        10 => {
            let names: Vec<u32> = (0..random.below(5)).map(|_| random.number(32) as u32).collect();
            (true, lent.register_local_names(&names))
        }
        11 => (
            true,
            lent.register_local_name(random.below(9) as u16, random.number(32) as u32),
        ),
        12 => (true, lent.add_const(row).map(|_| ())),
        13 => {
            let kind = random.below(4) as u8;
            let bounds = [0, 1, 2].map(|_| random.number(64) as usize);
            (kind <= 1, lent.add_exception_entry(bounds, 1, 2, kind))
        }
        14 => {
            let has_focus = random.below(3) as u8;
            (has_focus <= 1, lent.set_location([1, 2], has_focus, [3, 4]))
        }
        _ if random.chance(2) => (true, lent.new_code_region(random.number(16) as u16)),
        _ => (true, lent.build(random.number(32) as u32)),
    }
}

/// An emitting call, now and then with numbers that it does not have, or with names where it takes none.
fn any_emission(random: &mut Random, opcode: u8, lent: &mut Lent) -> (bool, Result<(), Refusal>) {
    let names: Vec<u16> = (0..random.below(4)).map(|_| random.number(16) as u16).collect();
    let (call, wide) = (random.below(18) as u8, random.chance(4));
    let emission = Emission {
        call,
        opcode,
        a: if wide {
            random.number(16) as u16
        } else {
            random.below(4) as u16
        },
        b: if wide {
            random.number(32) as u32
        } else {
            random.below(4) as u32
        },
        c: random.number(8) as u8,
        names: if call == 10 || call == 11 || wide { &names } else { &[] },
    };
    (fits(&emission), lent.emit(emission))
}

/// Whether there is such a call, and its numbers are of the widths that it has for them.
fn fits(emission: &Emission<'_>) -> bool {
    let Emission { call, a, b, .. } = *emission;
    let byte_a = matches!(call, 1..=3 | 8..=10);
    let byte_b = matches!(call, 3 | 6..=9 | 11);
    call <= 16 && !(byte_a && a > 255) && !(byte_b && b > 255) && !(call == 5 && b > 65_535)
}

#[test]
fn tampered_states_and_tables() {
    let mut random = Random::seeded("tampered states and tables", SEED);
    let (mut accepted, mut refused, mut no_states) = (0, 0, 0);
    for _ in 0..ROUNDS {
        let mut lent = lent(&mut random);
        for _ in 0..8 {
            let before = lent.clone();
            let (fits, answer) = any_call(&mut random, &mut lent);
            if let Err(refusal) = answer {
                assert_eq!(lent, before, "{refusal} left a trace");
                refused += 1;
            } else {
                accepted += 1;
                assert_eq!(before.state[15..], lent.state[15..], "cells past those that are in use");
            }
            if !is_state(&before.state) {
                assert_eq!(answer, Err(Refusal::Unsound), "{:?} is no state", before.state);
                no_states += 1;
            } else if !fits {
                assert_eq!(answer, Err(Refusal::WrongShape));
            }
        }
        let looked = lent.look();
        assert_eq!(looked.is_ok(), is_state(&lent.state));
    }
    println!("{accepted} calls accepted, {refused} refused, {no_states} of them as no state");
    assert!(
        accepted > 1_000 && no_states > 1_000,
        "the generator gives too few of a kind"
    );
}

#[test]
fn a_new_builder_of_any_cells() {
    let mut random = Random::seeded("new builders", SEED ^ 1);
    for _ in 0..ROUNDS {
        let mut lent = lent(&mut random);
        let before = lent.clone();
        let depth = random.number(32) as u32;
        let wanted = if before.state.len() < STATE_CELLS {
            Err(Refusal::Unsound)
        } else if depth > 65_536 {
            Err(Refusal::WrongShape)
        } else if depth < 65_536 && before.starts.len() < 2 {
            Err(Refusal::Full(Table::Starts))
        } else {
            Ok(())
        };
        assert_eq!(lent.begin(depth), wanted);
        if wanted.is_err() {
            assert_eq!(lent, before);
        } else {
            assert!(is_state(&lent.state));
        }
    }
}

#[test]
fn any_bytes_and_slices() {
    let mut random = Random::seeded("bytes and slices", SEED ^ 2);
    for _ in 0..ROUNDS {
        let code: Vec<u8> = (0..random.below(40)).map(|_| random.below(140) as u8).collect();
        let read: usize = instructions(&code)
            .flatten()
            .map(|instruction| instruction.size())
            .sum();
        let fault = instructions(&code).find_map(Result::err);
        assert_eq!(fault.is_none(), read == code.len());
        assert_eq!(fault.and_then(Refusal::offset), fault.is_some().then_some(read));
        let at = random.number(64) as usize;
        assert!(at < code.len() || step(&code, at) == Ok(None));
        let starts: Vec<u32> = (0..random.below(5)).map(|_| random.number(32) as u32).collect();
        let mode = [Mode::Net, Mode::Strict][random.below(2) as usize];
        check_any(mode, &code, &starts, [50, 50].map(|most| random.below(most) as u32));
    }
}

/// The checker with slices of so many cells: what it may write, and what it may not.
fn check_any(mode: Mode, code: &[u8], starts: &[u32], cells: [u32; 2]) {
    let [depths_before, work_before] = cells.map(|cells| (7..7 + cells).collect::<Vec<u32>>());
    let (mut depths, mut work) = (depths_before.clone(), work_before.clone());
    let answer = check_into(mode, code, starts, &mut depths, &mut work);
    let used = code.len() + 1;
    let short = depths.len().min(work.len()) < used;
    assert_eq!(answer == Err(Refusal::ShortDepths), short);
    if short {
        assert_eq!((depths, work), (depths_before, work_before));
        return;
    }
    match answer {
        Ok(Assignment { greatest, .. }) => {
            let given = depths[..used].iter().filter(|&&depth| depth != NO_DEPTH);
            assert_eq!(u32::from(greatest), given.max().copied().unwrap_or(0));
        }
        Err(Refusal::NoDepths | Refusal::TooFewValues(_)) => {
            assert!(depths[..used].iter().all(|&depth| depth == NO_DEPTH));
        }
        Err(_) => assert_eq!(depths[..used], depths_before[..used]),
    }
    assert_eq!(depths[used..], depths_before[used..]);
    assert!(work[..used].iter().all(|&cell| cell == 0));
    assert_eq!(work[used..], work_before[used..]);
    let explained = explain_in(mode, code, starts);
    let told = |checked: &Checked| (checked.count(), checked.greatest(), checked.depths().to_vec());
    assert_eq!(
        explained.as_ref().map(told).map_err(|error| error.refusal()),
        answer.map(|Assignment { count, greatest }| (count, greatest, depths[..used].to_vec()))
    );
    if let Err(error) = explained {
        let reasoned = matches!(error.refusal(), Refusal::NoDepths | Refusal::TooFewValues(_));
        assert_eq!(error.reason().is_some(), reasoned);
        assert!(mode == Mode::Strict || !matches!(error.refusal(), Refusal::TooFewValues(_)));
    }
}

#[test]
fn any_rows() {
    let mut random = Random::seeded("rows", SEED ^ 3);
    for _ in 0..ROUNDS {
        let rows: Vec<u32> = (0..random.below(30)).map(|_| random.number(32) as u32).collect();
        let found = lookups::find_exception_handler(&rows, random.number(32) as u32);
        let placed = lookups::location_for_offset(&rows, random.number(64) as usize);
        for row in [found, placed].into_iter().flatten() {
            assert!(row.number < rows.len() / 6);
            assert_eq!(row.cells, rows[6 * row.number..][..6]);
        }
        let cells: Vec<u64> = rows.iter().map(|&cell| cell.into()).collect();
        let place = random.number(64) as usize;
        let cell = cells.get(place).copied();
        assert_eq!(lookups::constant(&cells, place), cell);
        let named = cell.filter(|&cell| cell > 0).map(|cell| cell - 1);
        assert_eq!(lookups::local_name(&cells, place).map(u64::from), named);
    }
}

unsafe extern "C" {
    fn tfb_new(depth: u32, state: *mut u64, cells: usize, starts: *mut u32, room: usize) -> u64;
    fn tfb_emit(
        call: u8,
        opcode: u8,
        a: u16,
        b: u32,
        c: u8,
        names: *const u16,
        count: usize,
        state: *mut u64,
        cells: usize,
        code: *mut u8,
        code_room: usize,
        locations: *mut u32,
        locations_room: usize,
    ) -> u64;
    fn tfb_look(state: *const u64, cells: usize, out: *mut u64, room: usize) -> u64;
    fn tfb_add_const(value: u64, state: *mut u64, cells: usize, constants: *mut u64, room: usize) -> u64;
    fn tf_step(code: *const u8, length: usize, at: usize, out: *mut u64, room: usize) -> u64;
    fn tf_check(
        mode: u8,
        code: *const u8,
        length: usize,
        starts: *const u32,
        start_cells: usize,
        depths: *mut u32,
        cells: usize,
        work: *mut u32,
        work_cells: usize,
        greatest: *mut u32,
    ) -> u64;
    fn tf_explain(
        mode: u8,
        code: *const u8,
        length: usize,
        starts: *const u32,
        start_cells: usize,
        depths: *mut u32,
        cells: usize,
        work: *mut u32,
        work_cells: usize,
        greatest: *mut u32,
        told: *mut u64,
        told_cells: usize,
    ) -> u64;
}

/// An answer's refusal and what it names.
fn halves(answer: u64) -> [u64; 2] {
    [answer >> 32, answer & 0xFFFF_FFFF]
}

/// Safe Rust has no null for a slice, C has: as good as any pointer where the length is 0.
#[test]
fn null_and_no_cells() {
    let mut state = [0; STATE_CELLS];
    let cells = state.as_mut_ptr();
    let mut greatest = [9; 4];
    // SAFETY: each pointer is null beside a length of 0, or has as many cells behind it as is said; that to the
    // greatest depth has one.
    let [new, emit, look, read, checked] = unsafe {
        let new = [
            tfb_new(0, null_mut(), 0, null_mut(), 0),
            tfb_new(0, cells, STATE_CELLS - 1, null_mut(), 0),
            tfb_new(0, cells, STATE_CELLS, null_mut(), 0),
            tfb_new(65_536, cells, STATE_CELLS, null_mut(), 0),
        ];
        let emit = |cells, count, opcode| {
            tfb_emit(
                0,
                opcode,
                0,
                0,
                0,
                null(),
                0,
                cells,
                count,
                null_mut(),
                0,
                null_mut(),
                0,
            )
        };
        let dead = [emit(null_mut(), 0, 5), emit(cells, STATE_CELLS, 5)];
        *cells.add(4) = 0; // live from here on
        let live = [emit(cells, STATE_CELLS, 5), emit(cells, STATE_CELLS, 131)];
        let look = [
            tfb_look(cells, STATE_CELLS, null_mut(), 0),
            tfb_look(null(), 0, null_mut(), 0),
            tfb_add_const(1, cells, STATE_CELLS, null_mut(), 0),
            tfb_add_const(1, null_mut(), 0, null_mut(), 0),
        ];
        let read = [
            tf_step(null(), 0, 0, null_mut(), 0),
            tf_step([5].as_ptr(), 1, 0, null_mut(), 0),
            tf_step([5].as_ptr(), 1, 1, null_mut(), 0),
            tf_step(null(), 0, usize::MAX, null_mut(), 0),
        ];
        let (one, other) = (&mut [0], &mut [0]);
        let [a, b, c, d] = &mut greatest;
        let checked = [
            tf_check(0, null(), 0, null(), 0, null_mut(), 0, null_mut(), 0, a),
            tf_check(0, null(), 0, null(), 0, one.as_mut_ptr(), 1, null_mut(), 0, b),
            tf_check(0, null(), 0, null(), 0, one.as_mut_ptr(), 1, other.as_mut_ptr(), 1, c),
            tf_explain(0, null(), 0, null(), 0, null_mut(), 0, null_mut(), 0, d, null_mut(), 0),
        ];
        [new, [dead[0], dead[1], live[0], live[1]], look, read, checked]
    };
    let full = |table: Table| [18, table as u64];
    assert_eq!(new.map(halves), [[19, 0], [19, 0], full(Table::Starts), [0, 0]]);
    assert_eq!(emit.map(halves), [[19, 0], [0, 0], full(Table::Code), [1, 0]]);
    assert_eq!(
        look.map(halves),
        [full(Table::Text), [19, 0], full(Table::Constants), [19, 0]]
    );
    assert_eq!(read.map(|answer| halves(answer)[0]), [0, 18, 0, 0]);
    assert_eq!(checked.map(|answer| halves(answer)[0]), [21, 21, 0, 18]);
    assert_eq!(greatest, [9, 9, 0, 9]);
}
