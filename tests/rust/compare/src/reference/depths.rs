//! The depth checker by the rules' text ("The depth checker"), twice: depths carried along from the starts, and, for code
//! of a few places, every assignment tried.

use monty::bytecode::op::Opcode;

use super::{Cells, Decoder, Step};
use crate::{
    operand::{Fields, operand},
    original,
};

/// A cell without a depth.
const NONE: u64 = 65_536;
const CODE_MOST: usize = 1_048_576;

/// The instructions of some code, and where they lead.
pub struct Program {
    end: usize,
    /// By offset; none inside an instruction, and at the end.
    at: Vec<Option<Instruction>>,
}

#[derive(Clone, Copy)]
pub struct Instruction {
    pub size: usize,
    pub net: i64,
    pub falls: bool,
    /// The displacement's goal and the taken effect.
    pub jump: Option<(i64, i64)>,
    /// How many values strict mode asks for.
    pub need: i64,
}

/// What a check asks of an instruction's depth.
#[derive(Clone, Copy, Debug, PartialEq)]
pub enum Mode {
    Net,
    Strict,
}

impl Mode {
    pub const BOTH: [Self; 2] = [Self::Net, Self::Strict];

    /// The word in a line, with the space in front of it.
    pub fn word(self) -> &'static str {
        match self {
            Self::Net => "",
            Self::Strict => " strict",
        }
    }
}

/// A refusal's number, and the offset that it names.
pub type Fault = (u32, Option<usize>);

impl Program {
    /// 1 or 22 at the lowest offset.
    pub fn read(decoder: &Decoder, code: &[u8]) -> Result<Self, Fault> {
        let mut at = vec![None; code.len()];
        let mut offset = 0;
        loop {
            match decoder.step(code, offset) {
                Step::End => return Ok(Self { end: code.len(), at }),
                Step::Refused(number) => return Err((number, Some(offset))),
                Step::Instruction(cells) => {
                    at[offset] = Some(instruction(&cells, offset));
                    offset += cells[1] as usize;
                }
            }
        }
    }

    /// None inside an instruction, and at the end.
    pub fn instruction(&self, offset: usize) -> Option<Instruction> {
        self.at.get(offset).copied().flatten()
    }

    pub fn is_place(&self, offset: i64) -> bool {
        usize::try_from(offset)
            .is_ok_and(|offset| offset == self.end || self.at.get(offset).is_some_and(Option::is_some))
    }

    /// 20.
    pub fn starts(&self, starts: &[u32]) -> Result<Vec<(usize, i64)>, Fault> {
        let pairs = starts.chunks(2).map(|start| match *start {
            [offset, depth] if depth <= 65_535 && self.is_place(offset.into()) => Ok((offset as usize, depth.into())),
            _ => Err((20, None)),
        });
        pairs.collect()
    }

    /// Where an instruction with this depth leads, and with which depths; none where a depth leaves its range or a jump its
    /// places.
    fn leads(&self, offset: usize, depth: i64) -> Option<Vec<(usize, i64)>> {
        let Some(instruction) = self.instruction(offset) else {
            return Some(Vec::new());
        };
        let net = depth + instruction.net;
        let mut leads = Vec::new();
        if !in_range(net) {
            return None;
        }
        if instruction.falls {
            leads.push((offset + instruction.size, net));
        }
        if let Some((goal, effect)) = instruction.jump {
            if !self.is_place(goal) || !in_range(depth + effect) {
                return None;
            }
            leads.push((goal as usize, depth + effect));
        }
        Some(leads)
    }
}

pub fn in_range(depth: i64) -> bool {
    (0..=65_535).contains(&depth)
}

fn instruction(cells: &Cells, offset: usize) -> Instruction {
    let [op, size, shape, a, b, c, names, _] = *cells;
    let op = original::opcode(op as u8).expect("the step knows the opcode");
    let fields = Fields {
        a: a as u16,
        b: b as u16,
        c: c as u8,
        names: names as u8,
    };
    let given = operand(shape as u8, fields).expect("the step's values fit");
    let jump = (shape == 4).then(|| {
        let goal = offset as i64 + 3 + i64::from(a as u16 as i16);
        (goal, op.jump_taken_stack_effect().into())
    });
    let falls = !makes_dead(op);
    Instruction {
        size: size as usize,
        net: op.stack_effect(given).into(),
        falls,
        jump,
        need: need(op),
    }
}

/// "Binary, Compare and Inplace opcodes, BinarySubscr and Rot2 need depth 2, Rot3 needs 3, the Unary opcodes and Dup need
/// 1, Dup2 needs 2", by the names of op.rs.
pub fn need(op: Opcode) -> i64 {
    let name = format!("{op:?}");
    let kind = |words: &[&str]| words.iter().any(|word| name.starts_with(word));
    match name.as_str() {
        "Rot3" => 3,
        "Rot2" | "Dup2" => 2,
        "Dup" => 1,
        _ if kind(&["Binary", "Compare", "Inplace"]) => 2,
        _ if kind(&["Unary"]) => 1,
        _ => 0,
    }
}

/// "Exactly six opcodes make the code dead".
pub fn makes_dead(op: Opcode) -> bool {
    use Opcode::{AssertFailed, Jump, Raise, RaiseUnboundLocal, Reraise, ReturnValue};
    matches!(
        op,
        ReturnValue | Raise | Reraise | RaiseUnboundLocal | AssertFailed | Jump
    )
}

/// The smallest assignment, or that there is none.
pub struct Depths {
    places: Vec<Option<i64>>,
    instructions: usize,
    /// 23, or 26 with its offset.
    refused: Option<Fault>,
}

impl Depths {
    /// 10, 21, 1 or 22, 20.
    pub fn new(decoder: &Decoder, code: &[u8], starts: &[u32], cells: usize, mode: Mode) -> Result<Self, Fault> {
        if code.len() > CODE_MOST {
            return Err((10, None));
        }
        if cells < code.len() + 1 {
            return Err((21, None));
        }
        let program = Program::read(decoder, code)?;
        let starts = program.starts(starts)?;
        let carried = Self::carried(&program, starts);
        Ok(match mode {
            Mode::Net => carried,
            Mode::Strict => carried.strictly(&program),
        })
    }

    /// "26, in strict mode only, when the old mode accepts and some instruction with a depth has too little, naming the lowest
    /// such offset; after it the depth cells read as after 23."
    fn strictly(mut self, program: &Program) -> Self {
        let short = |&offset: &usize| match (program.instruction(offset), self.places[offset]) {
            (Some(instruction), Some(depth)) => depth < instruction.need,
            _ => false,
        };
        if let Some(offset) = (0..program.end).find(short) {
            self.places.fill(None);
            self.refused = Some((26, Some(offset)));
        }
        self
    }

    /// Each depth carried to where its instruction leads.
    fn carried(program: &Program, mut waiting: Vec<(usize, i64)>) -> Self {
        let mut places = vec![None; program.end + 1];
        let mut accepted = true;
        while let Some((offset, depth)) = waiting.pop() {
            match places[offset] {
                Some(held) if held == depth => continue,
                Some(_) => accepted = false,
                None => {
                    places[offset] = Some(depth);
                    match program.leads(offset, depth) {
                        Some(leads) => waiting.extend(leads),
                        None => accepted = false,
                    }
                }
            }
            if !accepted {
                places.fill(None);
                break;
            }
        }
        Self::of(places, accepted)
    }

    fn of(places: Vec<Option<i64>>, accepted: bool) -> Self {
        let (_end, instructions) = places.split_last().expect("the end is a place");
        Self {
            instructions: instructions.iter().flatten().count(),
            refused: (!accepted).then_some((23, None)),
            places,
        }
    }

    /// The cells that the slice is to hold.
    pub fn held(&self) -> Vec<u64> {
        self.places
            .iter()
            .map(|depth| depth.map_or(NONE, |depth| depth as u64))
            .collect()
    }

    /// The greatest depth of all cells, the end's among them; 0 where there is none.
    pub fn greatest(&self) -> u64 {
        self.places.iter().flatten().max().map_or(0, |&depth| depth as u64)
    }

    /// The instructions that have a depth; or 23 or 26.
    pub fn count(&self) -> Result<usize, Fault> {
        self.refused.map_or(Ok(self.instructions), Err)
    }

    /// The same by trying every assignment of depths up to `most` and taking what is part of all that fit.
    pub fn searched(decoder: &Decoder, code: &[u8], starts: &[u32], most: i64) -> Result<Self, Fault> {
        let program = Program::read(decoder, code)?;
        let starts = program.starts(starts)?;
        let places: Vec<usize> = (0..=program.end)
            .filter(|&offset| program.is_place(offset as i64))
            .collect();
        let mut fitting: Option<Vec<Option<i64>>> = None;
        let mut tried = vec![None; program.end + 1];
        loop {
            if fits(&program, &starts, &tried) {
                fitting = Some(match fitting {
                    None => tried.clone(),
                    Some(held) => held.iter().zip(&tried).map(|(a, b)| a.filter(|_| a == b)).collect(),
                });
            }
            if !next(&mut tried, &places, most) {
                break;
            }
        }
        // What is part of all of them has to fit itself, or there is no smallest.
        assert!(
            fitting
                .as_ref()
                .is_none_or(|smallest| fits(&program, &starts, smallest))
        );
        let accepted = fitting.is_some();
        let places = fitting.unwrap_or_else(|| vec![None; program.end + 1]);
        Ok(Self::of(places, accepted))
    }
}

/// Whether depths are an assignment.
fn fits(program: &Program, starts: &[(usize, i64)], depths: &[Option<i64>]) -> bool {
    let begins = starts.iter().all(|&(offset, depth)| depths[offset] == Some(depth));
    let leads = depths.iter().enumerate().all(|(offset, depth)| {
        depth.is_none_or(|depth| {
            let leads = program.leads(offset, depth);
            leads.is_some_and(|leads| leads.iter().all(|&(goal, depth)| depths[goal] == Some(depth)))
        })
    });
    begins && leads
}

/// The next choice of none or 0 to `most` for each place; false behind the last.
fn next(depths: &mut [Option<i64>], places: &[usize], most: i64) -> bool {
    for &place in places {
        match depths[place] {
            None => depths[place] = Some(0),
            Some(depth) if depth < most => depths[place] = Some(depth + 1),
            Some(_) => {
                depths[place] = None;
                continue;
            }
        }
        return true;
    }
    false
}
