//! The areas of the comparison, one module for each. An area asks the Rust by `original`, the library by
//! `proved`, and hands both answers to its tally.

mod assert_flags;
mod builder;
mod checks;
mod damaged;
mod dead;
mod decode;
mod depth_after;
mod depth_taken;
mod effect;
mod explained;
mod fingerprint;
mod header;
mod instructions;
mod left;
mod listing;
mod lookups;
mod moved;
mod name;
mod read_back;
mod shape;
mod size;
mod stack;
mod strict;
mod taken;
mod write;

use crate::{Plan, original, tally::Tally};

pub type Area = fn(&mut Tally, &mut Plan);

pub const ALL: [(&str, Area); 24] = [
    ("shape", shape::run),
    ("effect", effect::run),
    ("taken", taken::run),
    ("dead", dead::run),
    ("depth after", depth_after::run),
    ("depth taken", depth_taken::run),
    ("size", size::run),
    ("name", name::run),
    ("assert flags", assert_flags::run),
    ("fingerprint", fingerprint::run),
    ("decode", decode::run),
    ("write", write::run),
    ("damaged", damaged::run),
    ("lookups", lookups::run),
    ("header", header::run),
    ("listing", listing::run),
    ("builder", builder::run),
    ("checker", checks::run),
    ("stack paths", stack::searched),
    ("stack built", stack::built),
    ("strict", strict::run),
    ("left behind", left::run),
    ("moved", moved::run),
    ("read back", read_back::run),
];

/// An opcode for a printed case: its number, and its name where it has one.
fn named(byte: u8) -> String {
    original::opcode(byte).map_or_else(|| format!("opcode {byte}"), |op| format!("opcode {byte} {op:?}"))
}

/// Each opcode byte that the Rust knows, with the number of its shape.
fn opcodes_with_shapes() -> Vec<(u8, u8)> {
    let known = (0..=u8::MAX).filter_map(original::opcode);
    known.map(|op| (op as u8, original::shape(op))).collect()
}
