//! builder.rs: sequences of calls, as the lines of a script have them. A sequence ends at its first error or panic.

use std::sync::OnceLock;

use monty::{
    bytecode::{
        builder::{CodeBuilder, JumpLabel, JumpTarget, Offset},
        code::{Code, ExceptionEntry, HandlerKind},
        compiler::CompileError,
        op::Opcode,
    },
    intern::StringId,
    parse::CodeRange,
    value::Value,
};

use super::{Shown, message_of, opcode, refusal_of_error, refusal_of_panic};
use crate::script::{
    model::{first_cell, sum},
    parse::{ABSENT, CODE, Call, LOCATIONS, NAMES, TABLES},
};

/// A row of the marks, which the Rust's caller holds.
enum Mark {
    Label(JumpLabel),
    Target(JumpTarget),
}

/// The tables of a finished build, in cells.
type Built = [Vec<u64>; 5];

#[derive(Default)]
pub struct Sequence {
    builder: Option<CodeBuilder>,
    marks: Vec<Mark>,
    /// The lengths of the lent tables.
    lent: [usize; 7],
    shown: Shown,
    built: Option<Built>,
}

/// What a refused call left behind.
#[derive(Debug, PartialEq)]
pub struct Left {
    pub refusal: u32,
    pub code: Vec<u64>,
    pub location_rows: usize,
    pub depth: Option<u16>,
}

type Outcome = Result<String, CompileError>;

impl Sequence {
    pub fn end(&mut self) {
        self.builder = None;
        self.built = None;
    }

    /// The line's answer; none where the Rust has no such call, or its sequence has ended.
    pub fn answer(&mut self, call: &Call) -> Option<String> {
        let n = &call.numbers;
        match call.name {
            "new dead" | "new live" => return Some(self.renew(call)),
            "build" => return self.build(n[0]),
            "sum" | "cells" => return self.look(call),
            "check_here" => return self.built.as_ref().map(|_| self.shown.line()),
            "find_in_two" => return Some(find_in_two(n)),
            "tamper" | "tamper depth" | "poke" => {
                self.end();
                return None;
            }
            "counts"
            | "location_for_offset"
            | "find_exception_handler"
            | "constant"
            | "local_name"
            | "shape"
            | "effect"
            | "taken"
            | "dead_maker"
            | "assert_flags"
            | "decode_assert_flags"
            | "step"
            | "check"
            | "check strict"
            | "check_slice"
            | "check_slice strict"
            | "check_zeros"
            | "check_zeros strict"
            | "check_here strict" => return None,
            _ => {}
        }
        let Some(mut builder) = self.builder.take() else {
            // What was built does not show what the script goes on to build.
            self.end();
            return None;
        };
        let marks = &mut self.marks;
        let depth = builder.stack_depth();
        let before = builder.current_offset();
        match message_of(|| answer(&mut builder, marks, call)) {
            Ok(None) => None,
            Ok(Some(Ok(values))) => {
                if call.name == "new_code_region" {
                    self.shown.open(&builder);
                }
                self.shown.follow(depth, &builder);
                self.builder = Some(builder);
                Some(format!("ok{values}"))
            }
            Ok(Some(Err(error))) => {
                let wrote = builder.current_offset() != before;
                Some(format!("refused {}", refusal_of_error(&error, wrote)))
            }
            Err(message) => Some(format!("refused {}", refusal_of_panic(&message))),
        }
    }

    /// What the Rust holds after a call that it hands an error back from.
    pub fn left(&mut self, call: &Call) -> Left {
        let mut builder = self.builder.take().expect("the sequence goes on");
        let before = builder.current_offset();
        let outcome = answer(&mut builder, &mut self.marks, call).expect("the Rust has the call");
        let wrote = builder.current_offset() != before;
        let refusal = refusal_of_error(&outcome.expect_err("the call is refused"), wrote);
        let depth = builder.stack_depth();
        let [code, locations, ..] = cells(&builder.build());
        Left {
            refusal,
            code,
            location_rows: locations.len() / 6,
            depth,
        }
    }

    fn renew(&mut self, call: &Call) -> String {
        let live = call.name == "new live";
        let sizes = &call.numbers[usize::from(live)..];
        let mut builder = CodeBuilder::new();
        self.shown = Shown::default();
        if live {
            builder.new_code_region(call.numbers[0] as u16);
            self.shown.open(&builder);
        }
        self.lent = std::array::from_fn(|table| sizes[table] as usize);
        self.builder = Some(builder);
        self.marks.clear();
        self.built = None;
        "ok".into()
    }

    /// The Rust fills absent slots with its default name, which is 0 here.
    fn build(&mut self, fill: i128) -> Option<String> {
        let builder = self.builder.take()?;
        if fill != 0 {
            return None;
        }
        self.shown.end(&builder);
        self.built = Some(cells(&builder.build()));
        Some("ok".into())
    }

    /// The bytes of a finished build, and the depths that the builder showed.
    pub fn built(&self) -> Option<(Vec<u8>, &Shown)> {
        let code = &self.built.as_ref()?[CODE];
        Some((code.iter().map(|&byte| byte as u8).collect(), &self.shown))
    }

    /// What `sum` and `cells` say of a table that the Rust has built, in a lent table of the script's length.
    fn look(&self, call: &Call) -> Option<String> {
        let table = call.numbers[0] as usize;
        let built = self.built.as_ref()?.get(table)?;
        let cell = |i: usize| built.get(i).copied().unwrap_or_else(|| first_cell(i));
        if call.name == "sum" {
            return Some(format!("ok {}", sum((0..self.lent[table]).map(cell))));
        }
        let (from, to) = (call.numbers[1] as usize, call.numbers[2] as usize);
        (to <= self.lent[table])
            .then(|| format!("ok{}", (from..to).map(|i| format!(" {}", cell(i))).collect::<String>()))
    }
}

fn answer(b: &mut CodeBuilder, marks: &mut Vec<Mark>, call: &Call) -> Option<Outcome> {
    let n = &call.numbers;
    let byte = |i: usize| n[i] as u8;
    let word = |i: usize| n[i] as u16;
    let name = |i: usize| StringId(n[i] as u32);
    let op = || opcode(n[0] as u8);
    let names = |from: usize| n[from..].iter().map(|&name| name as u16).collect::<Vec<u16>>();
    let done = match call.name {
        "set_location" => {
            let focus = (n.len() == 4).then(|| range(n[2], n[3]));
            b.set_location(range(n[0], n[1]), focus);
            Ok(())
        }
        "emit" => b.emit(op()?),
        "emit_u8" => b.emit_u8(op()?, byte(1)),
        "emit_i8" => b.emit_i8(op()?, n[1] as i8),
        "emit_u8_u8" => b.emit_u8_u8(op()?, byte(1), byte(2)),
        "emit_u16" => b.emit_u16(op()?, word(1)),
        "emit_u16_u16" => b.emit_u16_u16(op()?, word(1), word(2)),
        "emit_u16_u8" => b.emit_u16_u8(op()?, word(1), byte(2)),
        "emit_u16_u8_u8" => b.emit_u16_u8_u8(op()?, word(1), byte(2), byte(3)),
        "emit_call_builtin_function" => b.emit_call_builtin_function(byte(0), byte(1)),
        "emit_call_builtin_type" => b.emit_call_builtin_type(byte(0), byte(1)),
        "emit_call_function_kw" => b.emit_call_function_kw(byte(0), &names(1)),
        "emit_call_attr_kw" => b.emit_call_attr_kw(word(0), byte(1), &names(2)),
        "emit_raise_unbound_local" => b.emit_raise_unbound_local(name(0)),
        "emit_load_local" => b.emit_load_local(word(0)),
        "emit_store_local" => b.emit_store_local(word(0)),
        "emit_load_global_callable" => b.emit_load_global_callable(word(0), name(1)),
        "emit_name_op" => b.emit_name_op(op()?, word(1), name(2), byte(3)),
        "register_local_names" => {
            let names: Vec<StringId> = (0..n.len()).map(name).collect();
            b.register_local_names(&names);
            Ok(())
        }
        "register_local_name" => {
            b.register_local_name(word(0), name(1));
            Ok(())
        }
        "new_code_region" => {
            b.new_code_region(word(0));
            Ok(())
        }
        "add_exception_entry" => {
            let kind = if n[5] == 0 {
                HandlerKind::Consuming
            } else {
                HandlerKind::Cleanup
            };
            b.add_exception_entry(offset(n[0])?, offset(n[1])?, offset(n[2])?, word(3), word(4), kind)
        }
        "emit_jump_to" | "patch_jump" => to_mark(b, marks, call)?,
        _ => return told(b, marks, call),
    };
    Some(done.map(|()| String::new()))
}

/// code.rs's lookup over two entries. It hands out the entry alone; which of the two it is, its own `contains` tells.
fn find_in_two(n: &[i128]) -> String {
    let entries = [1, 7].map(|at| {
        let kind = if n[at + 5] == 0 {
            HandlerKind::Consuming
        } else {
            HandlerKind::Cleanup
        };
        let [start, end, handler] = [0, 1, 2].map(|i| n[at + i] as u32);
        ExceptionEntry::new(start, end, handler, n[at + 3] as u16, n[at + 4] as u16, kind)
    });
    let offset = n[0] as u32;
    let row = entries.iter().position(|entry| entry.contains(offset));
    let code = Code::new(Vec::new(), Vec::new(), Vec::new(), entries.to_vec(), Vec::new());
    let found = code.find_exception_handler(offset);
    let printed = |entry: &ExceptionEntry| format!("{entry:?}");
    assert_eq!(
        found.map(printed),
        row.map(|row| printed(&entries[row])),
        "the first entry that contains the offset"
    );
    let Some(row) = row else { return "ok absent".to_owned() };
    let numbers = &n[1 + 6 * row..7 + 6 * row];
    format!(
        "ok {row}{}",
        numbers.iter().map(|number| format!(" {number}")).collect::<String>()
    )
}

/// The calls that answer a value.
fn told(b: &mut CodeBuilder, marks: &mut Vec<Mark>, call: &Call) -> Option<Outcome> {
    let dead = b.is_dead();
    let row = |marks: &[Mark]| {
        if dead {
            " dead".to_owned()
        } else {
            format!(" {}", marks.len() - 1)
        }
    };
    Some(Ok(match call.name {
        "emit_jump" => match b.emit_jump(opcode(call.numbers[0] as u8)?) {
            Err(error) => return Some(Err(error)),
            Ok(label) => {
                if !dead {
                    marks.push(Mark::Label(label));
                }
                row(marks)
            }
        },
        "current_jump_target" => {
            let target = b.current_jump_target();
            if !dead {
                marks.push(Mark::Target(target));
            }
            row(marks)
        }
        "current_offset" => format!(" {}", b.current_offset().as_u32()?),
        "current_position" => format!(" {} {}", b.current_position().start, b.current_position().end),
        "stack_depth" => b.stack_depth().map_or(" dead".to_owned(), |depth| format!(" {depth}")),
        "is_dead" => format!(" {}", u8::from(b.is_dead())),
        "add_const" => match b.add_const(Value(call.numbers[0] as u64)) {
            Err(error) => return Some(Err(error)),
            Ok(index) => format!(" {index}"),
        },
        _ => return None,
    }))
}

/// A call that names a mark, or Dead, which only a dead builder hands out.
fn to_mark(b: &mut CodeBuilder, marks: &[Mark], call: &Call) -> Option<Result<(), CompileError>> {
    let row = *call.numbers.last().expect("it names a mark");
    let held = if row == ABSENT {
        None
    } else {
        Some(marks.get(row as usize)?)
    };
    if call.name == "patch_jump" {
        let label = match held {
            None => CodeBuilder::new().emit_jump(Opcode::Jump).expect("dead code takes all"),
            Some(Mark::Label(label)) => *label,
            Some(Mark::Target(_)) => return None,
        };
        return Some(b.patch_jump(label));
    }
    let target = match held {
        None => CodeBuilder::new().current_jump_target(),
        Some(Mark::Target(target)) => *target,
        Some(Mark::Label(_)) => return None,
    };
    Some(b.emit_jump_to(opcode(call.numbers[0] as u8)?, target))
}

fn range(start: i128, end: i128) -> CodeRange {
    CodeRange {
        start: start as u32,
        end: end as u32,
    }
}

/// The Rust makes offsets only inside its builder, one for each length of its code.
fn offset(number: i128) -> Option<Offset> {
    static OFFSETS: OnceLock<Vec<Offset>> = OnceLock::new();
    let offsets = OFFSETS.get_or_init(|| {
        let mut builder = CodeBuilder::new();
        builder.new_code_region(0);
        let emitted = (0..70_000).map(|_| {
            let offset = builder.current_offset();
            builder.emit(Opcode::Nop).expect("Nop moves no depth");
            offset
        });
        emitted.collect()
    });
    offsets.get(usize::try_from(number).ok()?).copied()
}

/// The tables' cells, from the printed form of what was built: it alone shows every field.
fn cells(code: &Code) -> Built {
    let text = format!("{code:?}");
    let names = [
        "bytecode: ",
        "constants: ",
        "location_table: ",
        "exception_table: ",
        "local_names: ",
        "future_annotations: ",
    ];
    let places = names.map(|name| text.find(name).expect("Code has the field"));
    let [code, constants, locations, exceptions, names] = std::array::from_fn(|i| &text[places[i]..places[i + 1]]);
    let locations = locations.split("LocationEntry").skip(1).flat_map(|row| {
        let row = numbers(row);
        let [at, start, end] = row[..3] else {
            panic!("a location has a range")
        };
        match row[3..] {
            [from, to] => [at, start, end, 1, from, to],
            _ => [at, start, end, 0, 0, 0],
        }
    });
    let exceptions = exceptions.split("ExceptionEntry").skip(1).flat_map(|row| {
        let mut cells = numbers(row);
        cells.push(row.contains("Cleanup").into());
        cells
    });
    let names = numbers(names).into_iter().map(|name| name + 1);
    assert_eq!(
        (TABLES[CODE], TABLES[LOCATIONS], TABLES[NAMES]),
        ("code", "locations", "names")
    );
    [
        numbers(code),
        locations.collect(),
        exceptions.collect(),
        numbers(constants),
        names.collect(),
    ]
}

/// The numbers in a text.
fn numbers(text: &str) -> Vec<u64> {
    let parts = text
        .split(|c: char| !c.is_ascii_digit())
        .filter(|part| !part.is_empty());
    parts.map(|part| part.parse().expect("the numbers fit")).collect()
}
