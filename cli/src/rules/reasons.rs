//! Why the library refuses starts or finds no depths, in words that a rule writer can act on. Verdict and reason are the
//! library's; here they are told with the names of the instructions.

use tokenfinch::{CheckError, Instruction, Reason, Refusal, instructions, step};

use super::origins::{Origin, Origins};

/// A rule that is refused, and how places in it are named.
pub struct Refused<'a, N> {
    pub code: &'a [u8],
    pub starts: &'a [u32],
    /// An offset, as `offset 7` or `line 4`.
    pub name: N,
    /// Where the code's end is.
    pub end: &'static str,
}

impl<N: Fn(usize) -> String> Refused<'_, N> {
    /// The words; `here` in them is the offset that the refusal or its reason names.
    pub fn words(&self, error: CheckError) -> String {
        let told = match (error.refusal(), error.reason()) {
            (_, Some(reason)) => Some(self.reason(reason).unwrap_or_else(|| reason.to_string())),
            (Refusal::BadStarts, _) => self.bad_start(),
            (Refusal::TooLarge, _) => Some("the code is over 1,048,576 bytes".to_owned()),
            _ => None,
        };
        told.unwrap_or_else(|| error.refusal().in_words().to_owned())
    }

    fn reason(&self, reason: Reason) -> Option<String> {
        match reason {
            Reason::TwoDepths { place, depths } => Some(self.meeting(place, depths)),
            Reason::DepthOutOfRange { at, depth } => behind(&self.instruction(at)?, depth),
            Reason::TakenOutOfRange { at, .. } => Some(taken(&self.instruction(at)?)),
            Reason::NoPlace { at, .. } => astray(&self.instruction(at)?),
            Reason::TooFewValues { at, depth, need } => Some(too_few(&self.instruction(at)?, depth, need)),
            _ => None,
        }
    }

    fn instruction(&self, at: usize) -> Option<Instruction<'_>> {
        step(self.code, at).ok().flatten()
    }

    /// Two depths, the smaller first.
    fn meeting(&self, place: usize, mut depths: [u16; 2]) -> String {
        depths.sort_unstable();
        let origins = Origins::of(self.code, self.starts, place);
        let [one, other] = depths.map(|depth| self.way(place, depth, origins.origin(depth)));
        let here = if place == self.code.len() { self.end } else { "here" };
        format!("two ways meet {here} with different depths: {one}, and {other}")
    }

    /// A depth, and the way that brings it.
    fn way(&self, place: usize, depth: u16, origin: Option<Origin>) -> String {
        match origin {
            Some(Origin::Start) => format!("{depth} by the start {place}:{depth}"),
            Some(Origin::Instruction(offset)) => {
                let opcode = self.instruction(offset).map(|read| format!(" ({:?})", read.opcode()));
                format!("{depth} from {}{}", (self.name)(offset), opcode.unwrap_or_default())
            }
            None => depth.to_string(),
        }
    }

    /// The first start that is none.
    fn bad_start(&self) -> Option<String> {
        let end = self.code.len();
        let mut places: Vec<usize> = instructions(self.code).flatten().map(|read| read.offset()).collect();
        places.push(end);
        let good = |start: &[u32]| start[1] <= 65_535 && places.binary_search(&(start[0] as usize)).is_ok();
        let bad = self.starts.chunks_exact(2).find(|start| !good(start))?;
        let (offset, depth) = (bad[0], bad[1]);
        Some(if depth > 65_535 {
            format!("the start {offset}:{depth} has a depth over 65,535")
        } else {
            format!("the start {offset}:{depth} is at no instruction and not at the end, {end}")
        })
    }
}

/// An instruction that takes the depth out of its range.
fn behind(read: &Instruction<'_>, depth: u16) -> Option<String> {
    let effect = read.opcode().stack_effect(read.operand()).ok()?;
    if effect < 0 && read.opcode().jump_taken_stack_effect().is_ok() {
        return Some(taken(read));
    }
    Some(format!("{:?} {}", read.opcode(), beyond(effect, depth)))
}

/// A jump that finds no value: it takes at most one, by whichever way it goes.
fn taken(read: &Instruction<'_>) -> String {
    format!("{:?} needs a value on the stack; it has none here", read.opcode())
}

/// Which end of the range, by the effect's direction. What is taken off in the end has to be there at least.
fn beyond(effect: i32, depth: u16) -> String {
    let by = values(effect.unsigned_abs());
    if effect > 0 {
        return format!("adds {by} to the stack; it has {depth} here, and 65,535 is the most");
    }
    let has = if depth == 0 {
        "none".to_owned()
    } else {
        depth.to_string()
    };
    format!("needs at least {by} on the stack; it has {has} here")
}

/// An instruction that strict mode does not let pass.
fn too_few(read: &Instruction<'_>, depth: u16, need: u16) -> String {
    let there = match depth {
        0 => "none is".to_owned(),
        1 => "1 is".to_owned(),
        more => format!("{more} are"),
    };
    format!("{:?} needs {}, {there} there", read.opcode(), values(need.into()))
}

fn values(number: u32) -> String {
    match number {
        1 => "1 value".to_owned(),
        number => format!("{number} values"),
    }
}

fn astray(read: &Instruction<'_>) -> Option<String> {
    let target = read.target()?;
    Some(format!(
        "{:?} leads to {target}, where no instruction starts",
        read.opcode()
    ))
}

#[cfg(test)]
mod tests {
    use tokenfinch::Mode;

    use super::*;

    fn told(code: &[u8], starts: &[u32]) -> String {
        let name = |offset| format!("offset {offset}");
        let end = "at the end";
        let refused = Refused {
            code,
            starts,
            name,
            end,
        };
        refused.words(tokenfinch::explain(code, starts).expect_err("it is refused"))
    }

    #[test]
    fn ways_that_meet_are_named() {
        assert_eq!(
            told(&[5, 88, 0xFC, 0xFF], &[0, 0]),
            "two ways meet here with different depths: 0 by the start 0:0, and 1 from offset 1 (Jump)"
        );
        assert_eq!(
            told(&[6, 90, 1, 0, 5], &[0, 0]),
            "two ways meet at the end with different depths: 0 from offset 1 (JumpIfFalse), and 1 from offset 4 (LoadNone)"
        );
        assert_eq!(
            told(&[5], &[0, 2, 0, 1]),
            "two ways meet here with different depths: 1 by the start 0:1, and 2 by the start 0:2"
        );
    }

    #[test]
    fn the_direction_is_told() {
        for (code, starts, words) in [
            (
                &[0][..],
                [0, 0],
                "Pop needs at least 1 value on the stack; it has none here",
            ),
            (
                &[76],
                [0, 2],
                "StoreSubscr needs at least 3 values on the stack; it has 2 here",
            ),
            (
                &[80, 200],
                [0, 0],
                "CallFunction needs at least 200 values on the stack; it has none here",
            ),
            (
                &[5],
                [0, 65_535],
                "LoadNone adds 1 value to the stack; it has 65535 here, and 65,535 is the most",
            ),
            (
                &[103, 250],
                [0, 65_500],
                "UnpackSequence adds 249 values to the stack; it has 65500 here, and 65,535 is the most",
            ),
            (
                &[94, 0, 0],
                [0, 0],
                "ForIter needs a value on the stack; it has none here",
            ),
            (
                &[89, 0, 0],
                [0, 0],
                "JumpIfTrue needs a value on the stack; it has none here",
            ),
            (
                &[92, 0, 0],
                [0, 0],
                "JumpIfFalseOrPop needs a value on the stack; it has none here",
            ),
            (
                &[94, 0, 0],
                [0, 65_535],
                "ForIter adds 1 value to the stack; it has 65535 here, and 65,535 is the most",
            ),
        ] {
            assert_eq!(told(code, &starts), words);
        }
    }

    #[test]
    fn what_strict_mode_misses_is_told() {
        let told = |code: &[u8], depth| {
            let refused = Refused {
                code,
                starts: &[0, depth],
                name: |offset| format!("offset {offset}"),
                end: "at the end",
            };
            let error = tokenfinch::explain_in(Mode::Strict, code, &[0, depth]).expect_err("it is refused");
            refused.words(error)
        };
        assert_eq!(told(&[23], 1), "BinaryAdd needs 2 values, 1 is there");
        assert_eq!(told(&[3], 2), "Rot3 needs 3 values, 2 are there");
        assert_eq!(told(&[47], 0), "UnaryNeg needs 1 value, none is there");
    }

    #[test]
    fn a_jump_to_nowhere_and_a_start_that_is_none_are_named() {
        assert_eq!(
            told(&[88, 9, 0], &[0, 0]),
            "Jump leads to 12, where no instruction starts"
        );
        assert_eq!(
            told(&[90, 0, 0x80], &[0, 1]),
            "JumpIfFalse leads to -32765, where no instruction starts"
        );
        assert_eq!(
            told(&[8, 5, 101], &[0, 0, 1, 2]),
            "the start 1:2 is at no instruction and not at the end, 3"
        );
        assert_eq!(told(&[5], &[0, 65_536]), "the start 0:65536 has a depth over 65,535");
        assert_eq!(told(&[131], &[0, 0]), Refusal::UnknownOpcodeAt(0).in_words());
    }
}
