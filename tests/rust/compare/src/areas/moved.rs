//! The crate in bindings/rust beside the original: one text of a small compiler, compiled twice with nothing but its
//! `use` changed, has to give the same bytes and the same lookups.

use crate::{
    Plan,
    tally::{Expected, Tally},
};

/// What is found out about finished code: its bytes, and for each offset the location's range, the handler, and the
/// name of the slot of that number.
type Seen = (Vec<u8>, Vec<([u32; 2], [u32; 3], u32)>);

/// What the compiler takes its decisions from.
type Choices<'a> = std::slice::Iter<'a, u8>;

/// The compiler.
macro_rules! compiler {
    ($name:ident: $($import:item)*) => {
        mod $name {
            use super::{Choices, Seen};
            $($import)*

            type Done = Result<(), CompileError>;

            pub fn compile(choices: &[u8]) -> Result<Seen, CompileError> {
                let mut builder = CodeBuilder::new();
                builder.register_local_names(&[StringId(3), StringId(4)]);
                builder.new_code_region(0);
                body(&mut builder, &mut choices.iter(), 0)?;
                builder.emit(Opcode::LoadNone)?;
                builder.emit(Opcode::ReturnValue)?;
                Ok(seen(&builder.build()))
            }

            fn body(builder: &mut CodeBuilder, choices: &mut Choices, level: u32) -> Done {
                for _ in 0..choices.next().copied().unwrap_or(0) % 6 {
                    let Some(&choice) = choices.next() else { break };
                    let place = CodeRange { start: u32::from(choice), end: level };
                    builder.set_location(place, (choice > 99).then_some(place));
                    match choice % 12 {
                        0 if level < 4 => branch(builder, choices, level)?,
                        1 if level < 4 => repeat(builder, choices, level)?,
                        2 if level < 4 => walk(builder, choices, level)?,
                        3 if level < 4 => guarded(builder, choices, level)?,
                        kind => statement(builder, kind, choice)?,
                    }
                }
                Ok(())
            }

            fn statement(builder: &mut CodeBuilder, kind: u8, choice: u8) -> Done {
                let (wide, name) = (u16::from(choice) * 3, StringId(u32::from(choice) * 7));
                match kind {
                    4 => {
                        let index = builder.add_const(constant(u64::from(choice)))?;
                        builder.emit_u16(Opcode::LoadConst, index)?;
                    }
                    5 => builder.emit_i8(Opcode::LoadSmallInt, choice as i8)?,
                    6 => builder.emit_load_local(wide)?,
                    7 => builder.emit_load_global_callable(wide, name)?,
                    8 => builder.emit_name_op(Opcode::LoadName, wide, name, choice)?,
                    9 => {
                        builder.emit(Opcode::LoadNone)?;
                        builder.emit(Opcode::LoadTrue)?;
                        builder.emit_call_function_kw(0, &[wide])?;
                    }
                    10 => {
                        builder.emit(Opcode::LoadNone)?;
                        builder.emit_u16_u8(Opcode::CallAttr, wide, 0)?;
                    }
                    _ => builder.emit_call_builtin_function(choice, 0)?,
                }
                builder.register_local_name(wide % 40, name);
                builder.emit_store_local(wide)
            }

            fn branch(builder: &mut CodeBuilder, choices: &mut Choices, level: u32) -> Done {
                builder.emit(Opcode::LoadTrue)?;
                let other = builder.emit_jump(Opcode::JumpIfFalse)?;
                body(builder, choices, level + 1)?;
                let over = builder.emit_jump(Opcode::Jump)?;
                builder.patch_jump(other)?;
                body(builder, choices, level + 1)?;
                builder.patch_jump(over)
            }

            fn repeat(builder: &mut CodeBuilder, choices: &mut Choices, level: u32) -> Done {
                let top = builder.current_jump_target();
                builder.emit(Opcode::LoadTrue)?;
                let out = builder.emit_jump(Opcode::JumpIfFalse)?;
                body(builder, choices, level + 1)?;
                builder.emit_jump_to(Opcode::Jump, top)?;
                builder.patch_jump(out)
            }

            fn walk(builder: &mut CodeBuilder, choices: &mut Choices, level: u32) -> Done {
                builder.emit(Opcode::LoadNone)?;
                builder.emit(Opcode::GetIter)?;
                let top = builder.current_jump_target();
                let out = builder.emit_jump(Opcode::ForIter)?;
                builder.emit(Opcode::Pop)?;
                body(builder, choices, level + 1)?;
                builder.emit_jump_to(Opcode::Jump, top)?;
                builder.patch_jump(out)
            }

            fn guarded(builder: &mut CodeBuilder, choices: &mut Choices, level: u32) -> Done {
                let depth = builder.stack_depth().unwrap_or(0);
                let start = builder.current_offset();
                body(builder, choices, level + 1)?;
                let end = builder.current_offset();
                let over = builder.emit_jump(Opcode::Jump)?;
                let handler = builder.current_offset();
                builder.new_code_region(depth + 1);
                builder.emit(Opcode::Pop)?;
                body(builder, choices, level + 1)?;
                builder.emit(Opcode::ClearException)?;
                builder.patch_jump(over)?;
                builder.add_exception_entry(start, end, handler, depth, 0, HandlerKind::Consuming)
            }

            fn seen(code: &Code) -> Seen {
                let bytes = code.bytecode().to_vec();
                let at = |offset: u32| {
                    let entry = code.location_for_offset(offset as usize);
                    let place = entry.map(|entry| entry.range()).unwrap_or_default();
                    let handler = code.find_exception_handler(offset).map_or([9; 3], |entry| {
                        [entry.handler(), entry.stack_depth().into(), entry.pushes_exception().into()]
                    });
                    let name = code.local_name(offset as u16).map_or(u32::MAX, |name| name.0);
                    ([place.start, place.end], handler, name)
                };
                let lookups = (0..=bytes.len() as u32).map(at).collect();
                (bytes, lookups)
            }
        }
    };
}

compiler! { original:
    use monty::{
        bytecode::{builder::CodeBuilder, code::{Code, HandlerKind}, compiler::CompileError, op::Opcode},
        intern::StringId, parse::CodeRange, value::Value as constant,
    };
}

compiler! { moved:
    use tokenfinch::{Code, CodeBuilder, CodeRange, HandlerKind, Opcode, Refusal as CompileError, StringId};
    use std::convert::identity as constant;
}

pub fn run(tally: &mut Tally, plan: &mut Plan) {
    for _ in 0..plan.amount(4_000, 300) {
        let choices: Vec<u8> = (0..plan.random.below(400)).map(|_| plan.random.u8()).collect();
        let by_rust = original::compile(&choices).map_err(|error| error.message().to_owned());
        let answer = moved::compile(&choices).map_err(|refusal| refusal.to_string());
        tally.compare(answer, Expected::by_rust(by_rust), || format!("choices {choices:?}"));
    }
}
