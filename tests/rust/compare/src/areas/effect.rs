//! The effect of every opcode byte with every shape byte: all values of narrow fields, all or many of wide
//! ones, and values too wide for their field.

use super::{named, opcodes_with_shapes};
use crate::{
    Plan,
    operand::{Fields, WORD_EDGES, Width, each_fields, random_fields, widths},
    original, proved,
    random::Random,
    tally::Tally,
};

pub fn run(tally: &mut Tally, plan: &mut Plan) {
    every_pair(tally, plan);
    for (byte, shape) in opcodes_with_shapes() {
        all_values(tally, plan, byte, shape);
        random_values(tally, plan, byte, shape);
        too_wide(tally, plan, byte, shape);
    }
}

fn one(tally: &mut Tally, byte: u8, shape: u8, fields: Fields) {
    let expected = original::effect(byte, shape, fields);
    tally.compare(proved::stack_effect(byte, shape, fields), expected, || {
        format!("{}, shape {shape}, {fields:?}", named(byte))
    });
}

/// Every opcode byte with every shape byte. Few values each, since the Rust panics over most pairs.
fn every_pair(tally: &mut Tally, plan: &mut Plan) {
    for byte in 0..=u8::MAX {
        for shape in 0..=u8::MAX {
            one(tally, byte, shape, Fields::default());
            for _ in 0..plan.amount(4, 1) {
                one(tally, byte, shape, random_fields(shape, &mut plan.random));
            }
        }
    }
}

/// Every value of each narrow field; of a wide field all where it stands alone, else the edges and a sample.
fn all_values(tally: &mut Tally, plan: &mut Plan, byte: u8, shape: u8) {
    let alone = widths(shape).iter().filter(|width| **width != Width::Unused).count() == 1;
    let sample = plan.amount(128, 4);
    let whole = alone && !plan.quick;
    let random = &mut plan.random;
    let values = |width| match width {
        Width::Unused => vec![random.u16()],
        Width::Byte => (0..=255).collect(),
        Width::Word if whole => (0..=u16::MAX).collect(),
        Width::Word => edges_and_sample(random, sample),
    };
    each_fields(shape, values, |fields| one(tally, byte, shape, fields));
}

fn edges_and_sample(random: &mut Random, sample: usize) -> Vec<u16> {
    let drawn = (0..sample).map(|_| random.u16());
    WORD_EDGES.into_iter().chain(drawn).collect()
}

fn random_values(tally: &mut Tally, plan: &mut Plan, byte: u8, shape: u8) {
    for _ in 0..plan.amount(100_000, 200) {
        one(tally, byte, shape, random_fields(shape, &mut plan.random));
    }
}

/// A value above 255 in a or b, where the field has one byte.
fn too_wide(tally: &mut Tally, plan: &mut Plan, byte: u8, shape: u8) {
    let [a, b, ..] = widths(shape);
    for wide in (256..=u16::MAX).step_by(plan.amount(1, 251)) {
        let fields = random_fields(shape, &mut plan.random);
        if a == Width::Byte {
            one(tally, byte, shape, Fields { a: wide, ..fields });
        }
        if b == Width::Byte {
            one(tally, byte, shape, Fields { b: wide, ..fields });
        }
    }
}
