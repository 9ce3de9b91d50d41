//! Random and damaged bytes, read by the step and by the reference at every offset, at the end, past it and at the
//! largest offsets: the same instruction, end or fault; cells change only where there is an instruction and room.

use crate::{
    Plan,
    proved::{self, Answer},
    random::Random,
    reference::{Decoder, Step},
    tally::{Expected, Tally},
};

const FILLING: u64 = 0x5a5a_5a5a_5a5a;

const HUGE: [usize; 5] = [1 << 32, 1 << 63, usize::MAX - 8, usize::MAX - 1, usize::MAX];

/// One of these counts of keyword names makes damage at each of an instruction's bytes likely.
const COUNTS: [u8; 5] = [0, 1, 2, 3, 255];

pub fn run(tally: &mut Tally, plan: &mut Plan) {
    let decoder = Decoder::new();
    everywhere(tally, &decoder, &mut plan.random, &[]);
    every_short_code(tally, plan, &decoder);
    every_truncation(tally, plan, &decoder);
    for _ in 0..plan.amount(40_000, 500) {
        let code = random_code(&mut plan.random);
        everywhere(tally, &decoder, &mut plan.random, &code);
    }
    for _ in 0..plan.amount(20_000, 250) {
        let code = damaged_code(&decoder, &mut plan.random);
        everywhere(tally, &decoder, &mut plan.random, &code);
    }
}

fn one(tally: &mut Tally, decoder: &Decoder, code: &[u8], at: usize, room: usize) {
    let mut cells = [FILLING; 12];
    let answer = proved::step(code, at, &mut cells[..room]);
    let expected = expected(decoder.step(code, at), at, room);
    tally.compare((answer, cells), Expected::by_text(expected), || {
        format!("at {at} of {code:?}, room {room}")
    });
}

fn expected(step: Step, at: usize, room: usize) -> (Answer, [u64; 12]) {
    let mut cells = [FILLING; 12];
    let answer = match step {
        Step::Instruction(numbers) if room >= numbers.len() => {
            cells[..numbers.len()].copy_from_slice(&numbers);
            Answer::accepted(1)
        }
        Step::Instruction(_) => Answer::no_room(),
        Step::End => Answer::accepted(0),
        Step::Refused(number) => Answer::naming(number, at as u32),
    };
    (answer, cells)
}

/// At each offset, the end, past it and at the largest offsets, mostly with enough room.
fn everywhere(tally: &mut Tally, decoder: &Decoder, random: &mut Random, code: &[u8]) {
    for at in (0..=code.len() + 2).chain(HUGE) {
        let room = if random.below(4) == 0 {
            random.below(9)
        } else {
            8 + random.below(5)
        };
        one(tally, decoder, code, at, room);
    }
}

/// All codes of one byte and of two.
fn every_short_code(tally: &mut Tally, plan: &mut Plan, decoder: &Decoder) {
    for first in 0..=u8::MAX {
        everywhere(tally, decoder, &mut plan.random, &[first]);
        for second in (0..=u8::MAX).step_by(plan.amount(1, 17)) {
            everywhere(tally, decoder, &mut plan.random, &[first, second]);
        }
    }
}

/// Every opcode byte, cut after each of its bytes, and with one byte more.
fn every_truncation(tally: &mut Tally, plan: &mut Plan, decoder: &Decoder) {
    for opcode in 0..=u8::MAX {
        for count in COUNTS {
            for count_at in [2, 4] {
                let mut code: Vec<u8> = (0..520).map(|_| plan.random.u8()).collect();
                code[0] = opcode;
                code[count_at] = count;
                let size = match decoder.step(&code, 0) {
                    Step::Instruction(cells) => cells[1] as usize,
                    _ => 1,
                };
                for length in 1..=size + 1 {
                    one(tally, decoder, &code[..length], 0, 8);
                }
            }
        }
    }
}

/// Any bytes, known opcodes more often than not.
fn random_code(random: &mut Random) -> Vec<u8> {
    let length = random.below(48);
    let any = |random: &mut Random| {
        let byte = random.u8();
        if random.below(2) == 0 { byte } else { byte % 131 }
    };
    (0..length).map(|_| any(random)).collect()
}

/// Whole instructions one behind the other, of which a few bytes are then changed.
fn damaged_code(decoder: &Decoder, random: &mut Random) -> Vec<u8> {
    let mut code = Vec::new();
    for _ in 0..random.below(12) {
        let mut bytes: Vec<u8> = (0..12).map(|_| random.u8() % 131).collect();
        let count = random.below(4) as u8;
        bytes[2] = count; // of a CallKw, and of others a byte like any other
        bytes[4] = count;
        if let Step::Instruction(cells) = decoder.step(&bytes, 0) {
            code.extend(&bytes[..cells[1] as usize]);
        }
    }
    for _ in 0..random.below(4) {
        if !code.is_empty() {
            let place = random.below(code.len());
            code[place] = random.u8();
        }
    }
    code
}
