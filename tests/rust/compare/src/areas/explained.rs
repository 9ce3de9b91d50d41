//! The depth checker called by itself, with slices of any length and content, beside the reference: the answer, every
//! cell of both slices and the greatest depth; and the reason that `tf_explain` tells, held against a search.

use std::fmt;

use crate::{
    Plan,
    proved::{self, Answer, Lent},
    random::Random,
    reference::{
        Decoder,
        depths::{Depths, Mode, Program},
        reasons,
    },
    tally::{Expected, Tally},
};

/// In each told cell before the call.
const FILLING: u64 = 0xa5a5_a5a5_a5a5;
const CODE_MOST: usize = 1_048_576;
/// The most bytes and starts of a case that are printed.
const SHOWN: usize = 120;
/// So many starts are many.
const STARTS: usize = 100_000;

/// Code and its starts.
pub struct Case {
    pub code: Vec<u8>,
    pub starts: Vec<u32>,
}

/// For a printed case: what is short of it.
impl fmt::Display for Case {
    fn fmt(&self, f: &mut fmt::Formatter<'_>) -> fmt::Result {
        let Self { code, starts } = self;
        if code.len() + starts.len() > SHOWN {
            return write!(f, "{} bytes with {} starts", code.len(), starts.len() / 2);
        }
        for byte in code {
            write!(f, "{byte:02x}")?;
        }
        write!(f, " with the starts {starts:?}")
    }
}

/// The answer of a check, and what it was lent as it leaves it.
type Left = (Answer, Lent);

/// One case in both modes with slices of about the length that is asked for.
pub fn one(tally: &mut Tally, decoder: &Decoder, random: &mut Random, case: &Case) {
    for mode in Mode::BOTH {
        let lengths = [(); 2].map(|()| (case.code.len() + 6).saturating_sub(random.below(8)));
        lent(tally, decoder, random, case, mode, lengths);
    }
}

/// A case with slices of these lengths, by both functions.
fn lent(tally: &mut Tally, decoder: &Decoder, random: &mut Random, case: &Case, mode: Mode, lengths: [usize; 2]) {
    let Case { code, starts } = case;
    let [depths, work] = lengths.map(|length| pattern(random, length));
    let greatest = pattern(random, 1)[0];
    let lent = Lent { depths, work, greatest };
    let due = due(decoder, case, mode, lent.clone());
    let shown = |what: &str| format!("{what} of {case}, {mode:?}, lent {lengths:?}");
    let checked = call(&lent, |lent| proved::check(mode as u8, code, starts, lent));
    tally.compare(&checked, Expected::by_text(&due), || shown("tf_check"));

    let mut told = vec![FILLING; [0, 3, 4, 4, 4, 7][random.below(6)]];
    let explained = call(&lent, |lent| proved::explain(mode as u8, code, starts, lent, &mut told));
    let due = if told.len() < 4 { (Answer::no_room(), lent) } else { due };
    tally.compare(&explained, Expected::by_text(&due), || shown("tf_explain"));
    reasoned(tally, decoder, case, explained.0.refusal(), &told);
}

/// What is told: on 23 and 26 a reason that holds, and nothing else.
fn reasoned(tally: &mut Tally, decoder: &Decoder, case: &Case, refusal: u32, told: &[u64]) {
    let (reason, kept) = match told.split_first_chunk::<4>() {
        Some((reason, kept)) if matches!(refusal, 23 | 26) => (Some(*reason), kept),
        _ => (None, told),
    };
    tally.compare(
        kept.iter().all(|&cell| cell == FILLING),
        Expected::by_text(true),
        || format!("what is told of {case}: {told:?}"),
    );
    if let Some(reason) = reason {
        let strict = reason[0] == reasons::TOO_FEW;
        tally.compare(
            (strict, holds(decoder, case, reason)),
            Expected::by_text((refusal == 26, true)),
            || format!("the reason of {case}: {reason:?}"),
        );
    }
}

/// Cells that hold anything, large numbers and small.
fn pattern(random: &mut Random, length: usize) -> Vec<u32> {
    let step = random.next() | 1;
    let shift = random.below(24);
    (1..=length as u64)
        .map(|cell| (cell.wrapping_mul(step) >> 32 >> shift) as u32)
        .collect()
}

fn call(lent: &Lent, check: impl FnOnce(&mut Lent) -> Answer) -> Left {
    let mut lent = lent.clone();
    (check(&mut lent), lent)
}

/// What a check has to leave.
fn due(decoder: &Decoder, case: &Case, mode: Mode, mut lent: Lent) -> Left {
    let used = case.code.len() + 1;
    let cells = lent.depths.len().min(lent.work.len());
    let checked = Depths::new(decoder, &case.code, &case.starts, cells, mode);
    if !matches!(checked, Err((10 | 21, _))) {
        lent.work[..used].fill(0);
    }
    let counted = checked.and_then(|checked| {
        for (cell, held) in lent.depths.iter_mut().zip(checked.held()) {
            *cell = held as u32;
        }
        let count = checked.count()?;
        lent.greatest = checked.greatest() as u32;
        Ok(count)
    });
    let answer = match counted {
        Ok(count) => Answer::accepted(count as i32),
        Err((number, offset)) => Answer::naming(number, offset.unwrap_or(0) as u32),
    };
    (answer, lent)
}

fn holds(decoder: &Decoder, case: &Case, reason: reasons::Told) -> bool {
    let program = Program::read(decoder, &case.code).expect("23 and 26 come behind 1 and 22");
    let starts = program.starts(&case.starts).expect("23 and 26 come behind 20");
    reasons::holds(&program, &starts, reason)
}

/// Long code, and many starts: as much as a check takes, of some shapes less in a quick run.
pub fn large(tally: &mut Tally, decoder: &Decoder, plan: &mut Plan) {
    let [most, with_starts] = [1 << 16, 2 * STARTS].map(|sample| plan.amount(CODE_MOST, sample));
    for case in [
        chain(CODE_MOST, &[5, 0]),
        chain(most, &[0, 5]),
        many_starts(CODE_MOST, 0, true),
        many_starts(with_starts, 1, true),
        many_starts(with_starts, 1, false),
        straight(&[5, 0], most, &[]),
        straight(&[5, 0], most - 1, &[0]),
        straight(&[105], most - 1, &[131]),
        straight(&[105], most - 1, &[88]),
        straight(&[5], 65_535, &[]),
        straight(&[5], 65_535, &[5]),
        straight(&[105], CODE_MOST, &[105]),
        // Each jumps to the next one, or over it.
        straight(&[6, 89, 0, 0, 6, 90, 4, 0], most - 8, &[105; 8]),
        straight(&[6, 89, 0, 0, 6, 90, 4, 0], most - 8, &[5; 8]),
        // The last instruction has too little for strict mode.
        straight(&[5, 0], most - 2, &[5, 2]),
    ] {
        let cells = case.code.len() + 1;
        for (mode, lengths) in [
            (Mode::Net, [cells; 2]),
            (Mode::Strict, [cells; 2]),
            (Mode::Net, [cells - 1, cells + 3]),
            (Mode::Strict, [cells + 3, cells - 1]),
        ] {
            lent(tally, decoder, &mut plan.random, &case, mode, lengths);
        }
    }
}

/// Regions of which each is found from the one behind it alone; the lowest begins with these two bytes.
fn chain(length: usize, first: &[u8; 2]) -> Case {
    const REGION: usize = 8;
    let mut code = [&first[..], &[5, 101, 105, 105, 105, 105]].concat();
    while code.len() + REGION <= length {
        // LoadNone, Pop, Nops, and the jump over the two regions.
        code.extend([5, 0, 105, 105, 105, 88, 0xF0, 0xFF]);
    }
    let starts = vec![(code.len() - REGION) as u32, 0];
    Case { code, starts }
}

/// Nops with many starts, falling or rising, all of depth 0 but the lowest.
fn many_starts(length: usize, lowest: u32, falling: bool) -> Case {
    let offset = |start: usize| (start * (length / STARTS)) as u32;
    let mut starts: Vec<[u32; 2]> = (0..STARTS).map(|start| [offset(start), 0]).collect();
    starts[0][1] = lowest;
    if falling {
        starts.reverse();
    }
    Case {
        code: vec![105; length],
        starts: starts.concat(),
    }
}

/// Some instructions over and over, as far as they fit, and the last ones.
fn straight(pattern: &[u8], length: usize, last: &[u8]) -> Case {
    let mut code = pattern.repeat(length / pattern.len());
    code.extend(last);
    Case {
        code,
        starts: vec![0, 0],
    }
}
