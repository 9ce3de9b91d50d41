//! The instructions that the decoder and the writer are tried on: each opcode with every value of narrow fields, the
//! edges and a sample of wide ones, keyword calls with few and with the most names, jumps both ways. The bytes are
//! the Rust's.

use super::opcodes_with_shapes;
use crate::{
    Plan,
    operand::{Fields, WORD_EDGES, Width, each_fields, has_names, operand_naming, random_fields},
    original,
};

/// The shape of jumps.
const OFFSET: u8 = 4;

const DISPLACEMENT_EDGES: [i16; 21] = [
    0, 1, 2, 3, 4, 127, 128, 255, 256, 257, 32766, 32767, -3, -4, -5, -128, -129, -256, -257, -32767, -32768,
];

/// An instruction, and code of the Rust's that holds it.
#[derive(Debug)]
pub struct Instruction {
    pub byte: u8,
    pub shape: u8,
    pub fields: Fields,
    pub names: Vec<u16>,
    pub code: Vec<u8>,
    pub at: usize,
    pub size: usize,
}

impl Instruction {
    pub fn bytes(&self) -> &[u8] {
        &self.code[self.at..self.at + self.size]
    }
}

/// Calls `visit` with each instruction.
pub fn each_instruction(plan: &mut Plan, mut visit: impl FnMut(&mut Plan, &Instruction)) {
    for (byte, shape) in opcodes_with_shapes() {
        if shape == OFFSET {
            each_jump(plan, byte, &mut visit);
        } else {
            each_other(plan, byte, shape, &mut visit);
        }
    }
}

fn each_other(plan: &mut Plan, byte: u8, shape: u8, visit: &mut impl FnMut(&mut Plan, &Instruction)) {
    for fields in chosen_fields(plan, shape) {
        let count = if has_names(shape) { usize::from(fields.names) } else { 0 };
        let names: Vec<u16> = (0..count).map(|_| plan.random.u16()).collect();
        let op = original::opcode(byte).expect("the opcode is known");
        let operand = operand_naming(shape, fields, &names).expect("the fields fit");
        let code = original::emitted(op, operand);
        let size = code.len();
        let instruction = Instruction {
            byte,
            shape,
            fields,
            names,
            code,
            at: 0,
            size,
        };
        visit(plan, &instruction);
    }
}

/// What the fields hold. The last one stands for the number of keyword names.
fn chosen_fields(plan: &mut Plan, shape: u8) -> Vec<Fields> {
    let mut chosen = Vec::new();
    let named = has_names(shape);
    let sample = plan.amount(12, 1);
    let quick = plan.quick;
    let random = &mut plan.random;
    let mut place = 0;
    let values = |width| {
        place += 1;
        match width {
            _ if named && place == 4 => vec![0, 1, 2, 255],
            Width::Unused => vec![random.u16()],
            Width::Byte if quick => vec![0, 1, 127, 128, 255],
            Width::Byte => (0..=255).collect(),
            Width::Word => WORD_EDGES
                .into_iter()
                .chain((0..sample).map(|_| random.u16()))
                .collect(),
        }
    };
    each_fields(shape, values, |fields| chosen.push(fields));
    let drawn = plan.amount(2000, 20);
    chosen.extend((0..drawn).map(|_| random_fields(shape, &mut plan.random)));
    chosen
}

fn each_jump(plan: &mut Plan, byte: u8, visit: &mut impl FnMut(&mut Plan, &Instruction)) {
    let drawn = plan.amount(60, 4);
    let drawn: Vec<i16> = (0..drawn).map(|_| plan.random.u16().cast_signed()).collect();
    for displacement in DISPLACEMENT_EDGES.into_iter().chain(drawn) {
        let op = original::opcode(byte).expect("the opcode is known");
        let Some((code, at)) = original::jump(op, displacement) else {
            continue;
        };
        let a = displacement.cast_unsigned();
        let instruction = Instruction {
            byte,
            shape: OFFSET,
            fields: Fields {
                a,
                ..random_fields(OFFSET, &mut plan.random)
            },
            names: Vec::new(),
            code,
            at,
            size: 3,
        };
        visit(plan, &instruction);
    }
}
