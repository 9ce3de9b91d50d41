//! Whether a reason that is told beside 23 or 26 holds, by the rules' text: each depth that it names is carried there from a
//! start, along fall-throughs and taken jumps, and what it says of the instruction is so. Found by a search over all pairs
//! of a place and a depth, nearest to the starts first.

use std::collections::{HashSet, VecDeque};

use super::{
    depths::{Instruction, Program, in_range},
    paths::steps,
};

/// A place and a depth there.
type Pair = (usize, i64);

/// A reason as it is told: its kind, an offset, a depth and another.
pub type Told = [u64; 4];

/// The kind of 26.
pub const TOO_FEW: u64 = 5;

/// Whether the reason holds in a program with these starts.
pub fn holds(program: &Program, starts: &[Pair], told: Told) -> bool {
    let [kind, offset, depth, other] = told;
    let (offset, depth, other) = (offset as usize, depth as i64, other as i64);
    let one = (offset, depth);
    if kind == 1 {
        return depth != other && program.is_place(offset as i64) && carried(program, starts, &[one, (offset, other)]);
    }
    let Some(instruction) = program.instruction(offset) else {
        return false;
    };
    // The last number is what is needed, where that is the reason.
    let asked = if kind == TOO_FEW { instruction.need } else { 0 };
    other == asked && fails(program, &instruction, kind, depth) && carried(program, starts, &[one])
}

/// Whether an instruction at a depth has the fault of a kind.
fn fails(program: &Program, instruction: &Instruction, kind: u64, depth: i64) -> bool {
    match (kind, instruction.jump) {
        (2, _) => !in_range(depth + instruction.net),
        (3, Some((_, effect))) => !in_range(depth + effect),
        (4, Some((goal, _))) => !program.is_place(goal),
        (TOO_FEW, _) => depth < instruction.need,
        _ => false,
    }
}

/// Whether the starts lead to all of these pairs.
fn carried(program: &Program, starts: &[Pair], wanted: &[Pair]) -> bool {
    let mut missing: HashSet<Pair> = wanted.iter().copied().collect();
    let mut seen = HashSet::new();
    let mut waiting: VecDeque<Pair> = starts.iter().copied().collect();
    while let Some(pair) = waiting.pop_front() {
        if !seen.insert(pair) {
            continue;
        }
        missing.remove(&pair);
        if missing.is_empty() {
            return true;
        }
        waiting.extend(ways(program, pair));
    }
    missing.is_empty()
}

/// The ways on from a pair, each by itself: the steps to a place with a depth in its range.
fn ways(program: &Program, (offset, depth): Pair) -> impl Iterator<Item = Pair> {
    steps(program, (offset as i64, depth))
        .filter(|&(goal, depth)| program.is_place(goal) && in_range(depth))
        .map(|(goal, depth)| (goal as usize, depth))
}
