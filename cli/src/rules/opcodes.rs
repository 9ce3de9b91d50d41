//! `rules opcodes`: the opcode table by the proved rules. An effect that goes by the operand is printed as `operand`.

use std::io::{self, BufWriter, Write};

use tokenfinch::{Opcode, rules};

use super::Outcome;

/// The operands that tell a fixed effect from one that goes by the operand.
const TRIES: [u8; 5] = [0, 1, 4, 16, 255];

pub fn run(output: &mut impl Write) -> Outcome {
    let mut out = BufWriter::new(output);
    writeln!(out, "number\tname\tshape\tsize\tfalls\ttaken\tbehind")?;
    for opcode in Opcode::ALL {
        row(&mut out, opcode)?;
    }
    out.flush()?;
    Ok(true)
}

fn row(out: &mut impl Write, opcode: Opcode) -> io::Result<()> {
    let number = opcode as u8;
    // Nothing is refused of an opcode and its own shape.
    let size = rules::instruction_size(number, 0).unwrap_or_default();
    let taken = opcode
        .jump_taken_stack_effect()
        .map_or("-".to_owned(), |effect| effect.to_string());
    let behind = if opcode.makes_dead() { "dead" } else { "live" };
    let (shape, falls) = (opcode.operand_shape(), falls(opcode));
    writeln!(
        out,
        "{number}\t{opcode:?}\t{shape:?}\t{size}\t{falls}\t{taken}\t{behind}"
    )
}

fn falls(opcode: Opcode) -> String {
    let shape = opcode.operand_shape() as u8;
    let effect = |n: u8| rules::stack_effect(opcode as u8, shape, n.into(), n.into(), n, n);
    let fixed = TRIES.iter().all(|&n| effect(n) == effect(TRIES[0]));
    match effect(TRIES[0]) {
        Ok(effect) if fixed => effect.to_string(),
        _ => "operand".to_owned(),
    }
}
