//! A builder whose tables grow answers every call as one whose tables were large from the start, and ends with the same
//! code.

mod common;

use common::Random;
use tokenfinch::{
    CodeBuilder, CodeRange, HandlerKind, JumpLabel, JumpTarget, Opcode, Refusal, StringId,
    lent::{Call, DEAD, Emission, Lent, STATE_CELLS},
};

const SEED: u64 = 0x6772_6f77_7468_0001;

/// Whether both accepted a call, or how they refused it.
type Answers = [Result<(), Refusal>; 2];

/// The two builders, with the labels and targets that both gave.
struct Both {
    builder: CodeBuilder,
    lent: Lent,
    labels: Vec<(JumpLabel, u64)>,
    targets: Vec<(JumpTarget, u64)>,
}

fn any<T: Copy>(random: &mut Random, list: &[T]) -> T {
    list[random.below(list.len() as u64) as usize]
}

fn plain(call: Call, opcode: u8, a: u16, b: u32, c: u8) -> Emission<'static> {
    Emission {
        call: call as u8,
        opcode,
        a,
        b,
        c,
        names: &[],
    }
}

impl Both {
    fn new() -> Self {
        let mut lent = Lent {
            state: vec![0; STATE_CELLS],
            code: vec![0; 200_000],
            locations: vec![0; 400_000],
            exceptions: vec![0; 60_000],
            constants: vec![0; 70_000],
            names: vec![0; 70_000],
            marks: vec![0; 400_000],
            starts: vec![0; 40_000],
        };
        lent.begin(DEAD).expect("there is room");
        Self {
            builder: CodeBuilder::new(),
            lent,
            labels: Vec::new(),
            targets: Vec::new(),
        }
    }

    fn call(&mut self, random: &mut Random) -> Answers {
        match random.below(17) {
            0..=7 => self.emission(random),
            8..=12 => self.flow(random),
            _ => self.holding(random),
        }
    }

    fn emission(&mut self, random: &mut Random) -> Answers {
        let Self { builder, lent, .. } = self;
        let op = any(random, &Opcode::ALL);
        let (a, b) = (random.number(16) as u16, random.number(8) as u8);
        let name = random.number(32) as u32;
        let number = op as u8;
        match random.below(8) {
            0 => [
                builder.emit_u16(op, a),
                lent.emit(plain(Call::EmitU16, number, a, 0, 0)),
            ],
            1 => [
                builder.emit_u8(op, b),
                lent.emit(plain(Call::EmitU8, number, b.into(), 0, 0)),
            ],
            2 => [
                builder.emit_load_local(a),
                lent.emit(plain(Call::EmitLoadLocal, 0, a, 0, 0)),
            ],
            3 => [
                builder.emit_name_op(op, a, StringId(name), b),
                lent.emit(plain(Call::EmitNameOp, number, a, name, b)),
            ],
            4 => {
                let names = vec![7; random.below(300) as usize];
                let emission = plain(Call::EmitCallFunctionKw, 0, 0, 0, 0);
                let emission = Emission {
                    names: &names,
                    ..emission
                };
                [builder.emit_call_function_kw(0, &names), lent.emit(emission)]
            }
            _ => {
                let op = any(random, &[Opcode::LoadNone, Opcode::Nop, Opcode::Pop, op]);
                [builder.emit(op), lent.emit(plain(Call::Emit, op as u8, 0, 0, 0))]
            }
        }
    }

    fn flow(&mut self, random: &mut Random) -> Answers {
        let Self { builder, lent, .. } = self;
        let op = any(random, &Opcode::ALL);
        match random.below(4) {
            0 if !self.labels.is_empty() => {
                let (label, row) = any(random, &self.labels);
                [builder.patch_jump(label), lent.patch_jump(row)]
            }
            1 if !self.targets.is_empty() => {
                let (target, row) = any(random, &self.targets);
                [builder.emit_jump_to(op, target), lent.emit_jump_to(op as u8, row)]
            }
            2 => {
                let row = lent.current_jump_target().expect("there is room");
                self.targets.push((builder.current_jump_target(), row));
                [Ok(()); 2]
            }
            _ => {
                let op = any(random, &[Opcode::Jump, Opcode::JumpIfTrue, Opcode::ForIter, op]);
                let answers = (builder.emit_jump(op), lent.emit_jump(op as u8));
                if let (Ok(label), Ok(row)) = answers {
                    self.labels.push((label, row));
                }
                [answers.0.map(|_| ()), answers.1.map(|_| ())]
            }
        }
    }

    /// Names, constants, regions, locations and exceptions.
    fn holding(&mut self, random: &mut Random) -> Answers {
        let Self { builder, lent, .. } = self;
        let (name, depth) = (random.number(32) as u32, random.below(9) as u16);
        match random.below(4) {
            0 => [builder.try_new_code_region(depth), lent.new_code_region(depth)],
            1 => {
                let slot = random.below(700) as u16;
                builder.register_local_name(slot, StringId(name));
                [Ok(()), lent.register_local_name(slot, name)]
            }
            2 => {
                let value = random.next();
                let indices = (builder.add_const(value).map(u64::from), lent.add_const(value));
                assert_eq!(indices.0, indices.1);
                [Ok(()); 2]
            }
            _ => {
                builder.set_location(CodeRange { start: name, end: 9 }, None);
                let located = lent.set_location([name, 9], 0, [0, 0]);
                let here = builder.current_offset();
                let at = here.as_u32().expect("the code is short") as usize;
                let entered = builder.add_exception_entry(here, here, here, depth, 1, HandlerKind::Cleanup);
                [
                    entered,
                    located.and_then(|()| lent.add_exception_entry([at; 3], depth, 1, 1)),
                ]
            }
        }
    }

    /// Both end with the same, or refuse alike.
    fn build(mut self) {
        let built = self.lent.build(5);
        match self.builder.try_build(StringId(5)) {
            Err(refusal) => assert_eq!(built, Err(refusal)),
            Ok(code) => {
                assert_eq!(built, Ok(()));
                assert_eq!(code.bytecode(), &self.lent.code[..code.bytecode().len()]);
            }
        }
    }
}

#[test]
fn growing_tables_answer_as_large_ones() {
    let mut random = Random::seeded("growing tables", SEED);
    for _ in 0..12 {
        let mut both = Both::new();
        for turn in 0..2_500 {
            let [grown, large] = both.call(&mut random);
            assert_eq!(grown, large, "turn {turn}");
            let look = both.lent.look().expect("it is a state");
            assert_eq!(both.builder.stack_depth(), look.stack_depth);
        }
        both.build();
    }
}
