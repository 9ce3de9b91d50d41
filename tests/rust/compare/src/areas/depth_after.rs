//! The depth behind an instruction, at both ends of the range and where an operand's effect just fits and
//! just does not.

use std::ops::RangeInclusive;

use super::{named, opcodes_with_shapes};
use crate::{
    Plan,
    operand::{BYTE_EDGES, Fields, SHAPES, WORD_EDGES, Width, each_fields, operand, random_fields, widths},
    original, proved,
    tally::Tally,
};

const DEPTHS: RangeInclusive<i32> = 0..=65535;

const DEPTH_EDGES: [u16; 9] = [0, 1, 2, 3, 255, 256, 65533, 65534, 65535];

pub fn run(tally: &mut Tally, plan: &mut Plan) {
    refused_before_depth(tally, plan);
    for (byte, shape) in opcodes_with_shapes() {
        edges(tally, plan, byte, shape);
        random_depths(tally, plan, byte, shape);
    }
}

fn one(tally: &mut Tally, depth: u16, byte: u8, shape: u8, fields: Fields) {
    let expected = original::depth_after(depth, byte, shape, fields);
    tally.compare(proved::depth_after(depth, byte, shape, fields), expected, || {
        format!("depth {depth}, {}, shape {shape}, {fields:?}", named(byte))
    });
}

/// Every opcode byte with every shape byte: 1 and 2 come before the depth is looked at.
fn refused_before_depth(tally: &mut Tally, plan: &mut Plan) {
    for byte in 0..=u8::MAX {
        for shape in 0..=u8::MAX {
            let depths = if shape < SHAPES { plan.amount(3, 1) } else { 1 };
            for depth in [0, 65535, plan.random.u16()].into_iter().take(depths) {
                one(tally, depth, byte, shape, random_fields(shape, &mut plan.random));
            }
            // too wide for each field of one byte
            one(
                tally,
                1,
                byte,
                shape,
                Fields {
                    a: 256,
                    b: 256,
                    c: 0,
                    names: 0,
                },
            );
        }
    }
}

/// Operands at the edges of their fields, at the edges of the depth and around where their effect just fits.
fn edges(tally: &mut Tally, plan: &mut Plan, byte: u8, shape: u8) {
    let alone = widths(shape).iter().filter(|width| **width != Width::Unused).count() == 1;
    let whole = alone && !plan.quick;
    let random = &mut plan.random;
    let values = |width| match width {
        Width::Unused => vec![random.u16()],
        Width::Byte if whole => (0..=255).collect(),
        Width::Byte => BYTE_EDGES.to_vec(),
        Width::Word => WORD_EDGES.to_vec(),
    };
    each_fields(shape, values, |fields| {
        for depth in DEPTH_EDGES {
            one(tally, depth, byte, shape, fields);
        }
        for depth in depths_where_it_just_fits(byte, shape, fields) {
            one(tally, depth, byte, shape, fields);
        }
    });
}

fn depths_where_it_just_fits(byte: u8, shape: u8, fields: Fields) -> impl Iterator<Item = u16> {
    let op = original::opcode(byte).expect("the opcode is known");
    let effect = op.stack_effect(operand(shape, fields).expect("the fields fit"));
    let (lowest, highest) = (-effect, 65535 - effect);
    let around = [lowest - 1, lowest, lowest + 1, highest - 1, highest, highest + 1];
    let possible = around.into_iter().filter(|depth| DEPTHS.contains(depth));
    possible.map(|depth| depth as u16)
}

fn random_depths(tally: &mut Tally, plan: &mut Plan, byte: u8, shape: u8) {
    for _ in 0..plan.amount(20_000, 50) {
        let depth = plan.random.u16();
        one(tally, depth, byte, shape, random_fields(shape, &mut plan.random));
    }
}
