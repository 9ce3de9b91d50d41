//! What the Rust's builder emits, read by the step: the same opcode, operand values, size and names, whatever stands
//! before and behind it.

use super::{
    instructions::{Instruction, each_instruction},
    named,
};
use crate::{
    Plan,
    operand::used_values,
    proved::{self, Answer},
    tally::{Expected, Tally},
};

/// In each cell before the call.
const FILLING: u64 = 0xa5a5_a5a5_a5a5;

pub fn run(tally: &mut Tally, plan: &mut Plan) {
    each_instruction(plan, |plan, instruction| one(tally, plan, instruction));
}

/// An answer, all cells behind the call, and the names that stand where the cells say.
type Read = (Answer, [u64; 12], Vec<u16>);

fn one(tally: &mut Tally, plan: &mut Plan, instruction: &Instruction) {
    let before: Vec<u8> = (0..plan.random.below(4)).map(|_| plan.random.u8()).collect();
    let behind: Vec<u8> = (0..plan.random.below(4)).map(|_| plan.random.u8()).collect();
    let code = [&before[..], &instruction.code, &behind].concat();
    let at = before.len() + instruction.at;
    let mut cells = [FILLING; 12];
    let room = 8 + plan.random.below(5);
    let answer = proved::step(&code, at, &mut cells[..room]);
    let read = (answer, cells, names_in(&code, &cells));
    tally.compare(read, Expected::by_rust(expected(instruction, at)), || {
        format!("{}, {instruction:?} at {at}", named(instruction.byte))
    });
}

fn names_in(code: &[u8], cells: &[u64; 12]) -> Vec<u16> {
    let (count, at) = (cells[6] as usize, cells[7] as usize);
    let bytes = at.checked_add(2 * count.min(256)).and_then(|end| code.get(at..end));
    let pairs = bytes.unwrap_or_default().chunks_exact(2);
    pairs.map(|pair| u16::from_le_bytes([pair[0], pair[1]])).collect()
}

fn expected(instruction: &Instruction, at: usize) -> Read {
    let &Instruction {
        byte,
        shape,
        fields,
        ref names,
        size,
        ..
    } = instruction;
    let [a, b, c] = used_values(shape, fields);
    let names_at = at + size - 2 * names.len();
    let mut cells = [FILLING; 12];
    cells[..8].copy_from_slice(&[
        byte.into(),
        size as u64,
        shape.into(),
        a,
        b,
        c,
        names.len() as u64,
        names_at as u64,
    ]);
    (Answer::accepted(1), cells, names.clone())
}
