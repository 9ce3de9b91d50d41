//! The builder and its tables by the rules' text, written for the comparison and not taken from the proved one, but by the
//! same hands: a misreading of the text could stand in both, and only where the Rust answers too is that shut out. Refusals stand
//! in the text's order, and nothing is changed before the last of them. Shapes and effects are op.rs's own.

use monty::bytecode::op::Opcode;

use super::parse::{ABSENT, CODE, CONSTANTS, Call, EXCEPTIONS, LOCATIONS, MARKS, NAMES, STARTS, TABLES};
use crate::{
    operand::{Fields, Width, operand, widths},
    original,
    reference::{
        self, Decoder, Step,
        depths::{Depths, Mode, makes_dead},
        hash,
        listed::Reader,
    },
};

/// The cells of a row of each table.
const ROWS: [u64; 7] = [1, 6, 6, 1, 1, 4, 2];

/// The greatest number in a cell of each table.
const WIDTHS: [u64; 7] = [
    255,
    u32::MAX as u64,
    u32::MAX as u64,
    u64::MAX,
    u64::MAX,
    u32::MAX as u64,
    u32::MAX as u64,
];

const CODE_MOST: u64 = 1_048_576;
const OPEN: u64 = 1;
const PATCHED: u64 = 2;
const TARGET: u64 = 3;

const JUMP: u8 = Opcode::Jump as u8;

/// What a call answers: the values behind `ok`, or a refusal's numbers and words.
pub type Answer = Result<String, Refusal>;

#[derive(Clone, Copy, Debug, PartialEq)]
pub struct Refusal {
    pub number: u32,
    pub table: Option<usize>,
    pub offset: Option<usize>,
}

fn refuse<T>(number: u32) -> Result<T, Refusal> {
    Err(Refusal {
        number,
        table: None,
        offset: None,
    })
}

fn full<T>(table: usize) -> Result<T, Refusal> {
    Err(Refusal {
        number: 18,
        table: Some(table),
        offset: None,
    })
}

impl Refusal {
    pub fn text(self) -> String {
        let mut text = format!("refused {}", self.number);
        if let Some(table) = self.table {
            text.push(' ');
            text.push_str(TABLES[table]);
        }
        if let Some(offset) = self.offset {
            text.push_str(&format!(" {offset}"));
        }
        text
    }
}

/// An instruction to emit.
struct Emission<'a> {
    op: u8,
    shape: u8,
    fields: Fields,
    /// The keyword names, or none.
    names: &'a [u16],
    /// A name that has to fit 16 bits: refusal 8.
    name: u64,
}

#[derive(Default)]
pub struct Model {
    cells: [Vec<u64>; 7],
    counts: [u64; 7],
    depth: Option<u16>,
    location: Option<[u32; 2]>,
    focus: Option<[u32; 2]>,
    built: bool,
    decoder: Decoder,
}

/// What cell i of a lent table holds at first.
pub fn first_cell(i: usize) -> u64 {
    ((i * 7 + 3) % 251) as u64
}

pub fn sum(cells: impl IntoIterator<Item = u64>) -> u64 {
    cells.into_iter().fold(0, |h, x| (h * 257 + x % 65_521) % 1_000_000_007)
}

fn joined(numbers: impl IntoIterator<Item = u64>) -> String {
    numbers.into_iter().map(|number| format!(" {number}")).collect()
}

fn one(number: u64) -> Answer {
    Ok(format!(" {number}"))
}

const NOTHING: Answer = Ok(String::new());

impl Model {
    pub fn depth(&self) -> Option<u16> {
        self.depth
    }

    pub fn count(&self, table: usize) -> u64 {
        self.counts[table]
    }

    pub fn row_count(&self, table: usize) -> u64 {
        self.cells[table].len() as u64 / ROWS[table]
    }

    /// The depth that a mark holds.
    pub fn mark_depth(&self, row: u64) -> Option<u16> {
        self.cells[MARKS].get(4 * row as usize + 2).map(|&depth| depth as u16)
    }

    /// The line's answer; none for `? LINE`.
    pub fn answer(&mut self, call: &Call) -> Option<String> {
        let answer = match call.name {
            "new dead" | "new live" => self.renew(call),
            "find_in_two"
            | "shape"
            | "effect"
            | "taken"
            | "dead_maker"
            | "assert_flags"
            | "decode_assert_flags"
            | "fingerprint"
            | "fnv1a"
            | "step" => self.alone(call),
            "check" | "check_slice" | "check_zeros" => return Some(self.check_given(call.name, Mode::Net, call)),
            "check strict" | "check_slice strict" | "check_zeros strict" => {
                let name = call.name.trim_end_matches(" strict");
                return Some(self.check_given(name, Mode::Strict, call));
            }
            "read_listing" => return Some(self.read_listing(&call.bytes, filled(call.numbers[0] as usize))),
            _ if !self.built => return None,
            "check_here" => return self.check_here(Mode::Net),
            "check_here strict" => return self.check_here(Mode::Strict),
            "tamper" | "tamper depth" | "poke" | "counts" | "cells" | "sum" => self.look(call)?,
            "location_for_offset" | "find_exception_handler" | "constant" | "local_name" => self.look_up(call)?,
            _ => self.build_call(call),
        };
        Some(match answer {
            Ok(values) => format!("ok{values}"),
            Err(refusal) => refusal.text(),
        })
    }

    fn renew(&mut self, call: &Call) -> Answer {
        let live = call.name == "new live";
        let sizes = &call.numbers[usize::from(live)..];
        for (cells, &size) in self.cells.iter_mut().zip(sizes) {
            cells.clear();
            cells.extend((0..size as usize).map(first_cell));
        }
        self.counts = [0; 7];
        (self.depth, self.location, self.focus) = (None, None, None);
        self.built = false;
        if live {
            let depth = call.numbers[0] as u16;
            self.room(STARTS, 1)?;
            self.store(STARTS, &[0, depth.into()]);
            self.depth = Some(depth);
        }
        self.built = true;
        NOTHING
    }

    // The builder's calls.

    fn build_call(&mut self, call: &Call) -> Answer {
        let n = &call.numbers;
        let byte = |i: usize| n[i] as u8;
        let names: Vec<u16> = n.iter().map(|&name| name as u16).collect();
        match call.name {
            "set_location" => {
                self.location = Some([n[0] as u32, n[1] as u32]);
                self.focus = (n.len() == 4).then(|| [n[2] as u32, n[3] as u32]);
                NOTHING
            }
            "emit" => self.emit(byte(0), 0, &[]),
            "emit_u8" => self.emit(byte(0), 1, &n[1..]),
            "emit_i8" => self.emit(byte(0), 2, &[n[1] & 255]),
            "emit_u16" => self.emit(byte(0), 3, &n[1..]),
            "emit_u8_u8" => self.emit(byte(0), 5, &n[1..]),
            "emit_u16_u8" => self.emit(byte(0), 6, &n[1..]),
            "emit_u16_u16" => self.emit(byte(0), 7, &n[1..]),
            "emit_u16_u8_u8" => self.emit(byte(0), 8, &n[1..]),
            "emit_call_builtin_function" => self.emit(Opcode::CallBuiltinFunction as u8, 5, n),
            "emit_call_builtin_type" => self.emit(Opcode::CallBuiltinType as u8, 5, n),
            "emit_call_function_kw" => self.emit_names(Opcode::CallFunctionKw, 9, &n[..1], &names[1..]),
            "emit_call_attr_kw" => self.emit_names(Opcode::CallAttrKw, 10, &n[..2], &names[2..]),
            "emit_raise_unbound_local" => self.emit_name(Opcode::RaiseUnboundLocal as u8, 3, n, n[0]),
            "emit_load_global_callable" => self.emit_name(Opcode::LoadGlobalCallable as u8, 7, n, n[1]),
            "emit_name_op" => self.emit_name(byte(0), 11, &n[1..], n[2]),
            "emit_load_local" => self.load_local(n[0]),
            "emit_store_local" if n[0] < 256 => self.emit(Opcode::StoreLocal as u8, 1, n),
            "emit_store_local" => self.emit(Opcode::StoreLocalW as u8, 3, n),
            "emit_jump" => self.emit_jump(byte(0)),
            "patch_jump" => self.patch_jump(n[0]),
            "emit_jump_to" => self.emit_jump_to(byte(0), n[1]),
            "current_offset" => one(self.counts[CODE]),
            "current_position" => Ok(joined(self.location.unwrap_or_default().map(u64::from))),
            "stack_depth" => self.depth.map_or(Ok(" dead".into()), |depth| one(depth.into())),
            "is_dead" => one(self.depth.is_none().into()),
            _ => self.table_call(call),
        }
    }

    fn table_call(&mut self, call: &Call) -> Answer {
        let n = &call.numbers;
        match call.name {
            "current_jump_target" => {
                self.sound(&[MARKS])?;
                let Some(depth) = self.depth else {
                    return Ok(" dead".into());
                };
                self.room(MARKS, 1)?;
                self.store(MARKS, &[TARGET, self.counts[CODE], depth.into(), 0]);
                one(self.counts[MARKS] - 1)
            }
            "register_local_names" => {
                self.sound(&[NAMES])?;
                if self.counts[NAMES] > 0 {
                    return refuse(16);
                }
                self.room(NAMES, n.len() as u64)?;
                n.iter().for_each(|&name| self.store(NAMES, &[name as u64 + 1]));
                NOTHING
            }
            "register_local_name" => self.register(n[0] as u64, n[1] as u64),
            "add_const" => {
                self.sound(&[CONSTANTS])?;
                if self.counts[CONSTANTS] >= 65_536 {
                    return refuse(9);
                }
                self.room(CONSTANTS, 1)?;
                self.store(CONSTANTS, &[n[0] as u64]);
                one(self.counts[CONSTANTS] - 1)
            }
            "add_exception_entry" => {
                self.sound(&[EXCEPTIONS])?;
                if n[..3].iter().any(|&offset| offset > u32::MAX.into()) {
                    return refuse(10);
                }
                self.room(EXCEPTIONS, 1)?;
                let row: Vec<u64> = n.iter().map(|&number| number as u64).collect();
                self.store(EXCEPTIONS, &row);
                NOTHING
            }
            "new_code_region" => {
                self.sound(&[STARTS])?;
                if self.depth.is_some() {
                    return refuse(15);
                }
                self.room(STARTS, 1)?;
                self.store(STARTS, &[self.counts[CODE], n[0] as u64]);
                self.depth = Some(n[0] as u16);
                NOTHING
            }
            "build" => self.build(n[0] as u64),
            other => unreachable!("no call {other}"),
        }
    }

    /// 19, for the counts of the tables that a call is lent.
    fn sound(&self, lent: &[usize]) -> Result<(), Refusal> {
        let over = |&table: &usize| self.counts[table] > self.row_count(table);
        if self.counts[CODE] > CODE_MOST || lent.iter().any(over) {
            refuse(19)
        } else {
            Ok(())
        }
    }

    /// 18, where so many rows more are not left.
    fn room(&self, table: usize, rows: u64) -> Result<(), Refusal> {
        let all = if table == CODE {
            self.row_count(CODE).min(CODE_MOST)
        } else {
            self.row_count(table)
        };
        if all - self.counts[table] < rows {
            full(table)
        } else {
            Ok(())
        }
    }

    fn store(&mut self, table: usize, row: &[u64]) {
        let at = (self.counts[table] * ROWS[table]) as usize;
        self.cells[table][at..at + row.len()].copy_from_slice(row);
        self.counts[table] += row.len() as u64 / ROWS[table];
    }

    fn register(&mut self, slot: u64, name: u64) -> Answer {
        self.sound(&[NAMES])?;
        if slot >= self.counts[NAMES] {
            self.room(NAMES, slot + 1 - self.counts[NAMES])?;
            while slot >= self.counts[NAMES] {
                self.store(NAMES, &[0]);
            }
        }
        let cell = &mut self.cells[NAMES][slot as usize];
        if *cell == 0 {
            *cell = name + 1;
        }
        NOTHING
    }

    fn build(&mut self, fill: u64) -> Answer {
        self.sound(&[NAMES, MARKS])?;
        let marks = &self.cells[MARKS][..4 * self.counts[MARKS] as usize];
        if marks.chunks(4).any(|mark| mark[0] == OPEN) {
            return refuse(17);
        }
        for cell in &mut self.cells[NAMES][..self.counts[NAMES] as usize] {
            if *cell == 0 {
                *cell = fill + 1;
            }
        }
        NOTHING
    }

    fn load_local(&mut self, slot: i128) -> Answer {
        match slot {
            0..=3 => self.emit(Opcode::LoadLocal0 as u8 + slot as u8, 0, &[]),
            4..=255 => self.emit(Opcode::LoadLocal as u8, 1, &[slot]),
            _ => self.emit(Opcode::LoadLocalW as u8, 3, &[slot]),
        }
    }

    fn emit(&mut self, op: u8, shape: u8, values: &[i128]) -> Answer {
        self.emit_any(Emission {
            op,
            shape,
            fields: fields(values),
            names: &[],
            name: 0,
        })
    }

    fn emit_name(&mut self, op: u8, shape: u8, values: &[i128], name: i128) -> Answer {
        self.emit_any(Emission {
            op,
            shape,
            fields: fields(values),
            names: &[],
            name: name as u64,
        })
    }

    fn emit_names(&mut self, op: Opcode, shape: u8, values: &[i128], names: &[u16]) -> Answer {
        self.emit_any(Emission {
            op: op as u8,
            shape,
            fields: fields(values),
            names,
            name: 0,
        })
    }

    fn emit_any(&mut self, mut given: Emission) -> Answer {
        self.sound(&[CODE, LOCATIONS])?;
        let Some(own) = self.decoder.shape(given.op) else {
            return refuse(1);
        };
        if given.name > 65_535 {
            return refuse(8);
        }
        let Some(depth) = self.depth else { return NOTHING };
        if given.names.len() > 255 {
            return refuse(7);
        }
        given.fields.names = given.names.len() as u8;
        if own != given.shape {
            return refuse(2);
        }
        let behind = self.fall(depth, &given)?;
        let bytes = bytes(&given);
        self.room(CODE, bytes.len() as u64)?;
        self.location_room()?;
        self.write(&bytes);
        self.depth = (!dead_maker(given.op)).then_some(behind);
        NOTHING
    }

    /// The depth behind an instruction: 4, 5.
    fn fall(&self, depth: u16, given: &Emission) -> Result<u16, Refusal> {
        let behind = i64::from(depth) + effect(given);
        match behind {
            ..0 => refuse(4),
            0..65_536 => Ok(behind as u16),
            _ => refuse(5),
        }
    }

    fn location_room(&self) -> Result<(), Refusal> {
        if self.location.is_some() {
            self.room(LOCATIONS, 1)
        } else {
            Ok(())
        }
    }

    fn write(&mut self, bytes: &[u8]) {
        if let Some([start, end]) = self.location {
            let [present, from, to] = self.focus.map_or([0, 0, 0], |[from, to]| [1, from.into(), to.into()]);
            self.store(
                LOCATIONS,
                &[self.counts[CODE], start.into(), end.into(), present, from, to],
            );
        }
        bytes.iter().for_each(|&byte| self.store(CODE, &[byte.into()]));
    }

    /// The taken depth: 3, 4.
    fn taken(depth: u16, op: u8) -> Result<u64, Refusal> {
        let Some(effect) = taken(op) else { return refuse(3) };
        u64::try_from(i64::from(depth) + effect).or_else(|_| refuse(4))
    }

    /// A jump's instruction with its displacement.
    fn jump(op: u8, displacement: i64) -> Emission<'static> {
        let fields = fields(&[i128::from(displacement) & 0xffff]);
        Emission {
            op,
            shape: 4,
            fields,
            names: &[],
            name: 0,
        }
    }

    fn emit_jump(&mut self, op: u8) -> Answer {
        self.sound(&[CODE, LOCATIONS, MARKS])?;
        if self.decoder.shape(op).is_none() {
            return refuse(1);
        }
        let Some(depth) = self.depth else {
            return Ok(" dead".into());
        };
        let arrives = Self::taken(depth, op)?;
        let given = Self::jump(op, 0);
        let behind = self.fall(depth, &given)?;
        self.room(CODE, 3)?;
        self.location_room()?;
        self.room(MARKS, 1)?;
        self.store(MARKS, &[OPEN, self.counts[CODE], arrives, 0]);
        self.write(&bytes(&given));
        self.depth = (op != JUMP).then_some(behind);
        one(self.counts[MARKS] - 1)
    }

    /// The used mark of a row, of kinds 1 to 3; 19 where it can't be.
    fn mark(&self, row: i128) -> Result<Option<[u64; 3]>, Refusal> {
        if row == ABSENT || row as u64 >= self.counts[MARKS] {
            return Ok(None);
        }
        let at = 4 * row as usize;
        let [kind, offset, depth] = [0, 1, 2].map(|i| self.cells[MARKS][at + i]);
        let end = match kind {
            OPEN | PATCHED => offset + 3,
            TARGET => offset,
            _ => return Ok(None),
        };
        if depth > 65_535 || end > self.counts[CODE] {
            return refuse(19);
        }
        Ok(Some([kind, offset, depth]))
    }

    fn displacement(from: u64, to: u64) -> Result<i64, Refusal> {
        let displacement = to as i64 - from as i64 - 3;
        if (-32_768..=32_767).contains(&displacement) {
            Ok(displacement)
        } else {
            refuse(6)
        }
    }

    fn emit_jump_to(&mut self, op: u8, row: i128) -> Answer {
        self.sound(&[CODE, LOCATIONS, MARKS])?;
        let mark = self.mark(row)?;
        if self.decoder.shape(op).is_none() {
            return refuse(1);
        }
        let Some(depth) = self.depth else { return NOTHING };
        let arrives = Self::taken(depth, op)?;
        if row == ABSENT {
            return refuse(12);
        }
        let Some([TARGET, to, held]) = mark else {
            return refuse(13);
        };
        if held != arrives {
            return refuse(11);
        }
        let given = Self::jump(op, Self::displacement(self.counts[CODE], to)?);
        let behind = self.fall(depth, &given)?;
        self.room(CODE, 3)?;
        self.location_room()?;
        self.write(&bytes(&given));
        self.depth = (op != JUMP).then_some(behind);
        NOTHING
    }

    fn patch_jump(&mut self, row: i128) -> Answer {
        self.sound(&[CODE, MARKS])?;
        let mark = self.mark(row)?;
        if row == ABSENT {
            return NOTHING;
        }
        let Some([kind, from, held]) = mark else {
            return refuse(13);
        };
        match kind {
            OPEN => {}
            PATCHED => return refuse(14),
            _ => return refuse(13),
        }
        if self.depth.is_some_and(|depth| u64::from(depth) != held) {
            return refuse(11);
        }
        let displacement = Self::displacement(from, self.counts[CODE])? as u64;
        let at = from as usize;
        self.cells[CODE][at + 1] = displacement & 255;
        self.cells[CODE][at + 2] = displacement >> 8 & 255;
        self.cells[MARKS][4 * row as usize] = PATCHED;
        self.depth = Some(held as u16);
        NOTHING
    }

    // Tampering and looking.

    fn look(&mut self, call: &Call) -> Option<Answer> {
        let n = &call.numbers;
        let table = || n[0] as usize;
        Some(match call.name {
            "tamper" => {
                self.counts[table()] = n[1] as u64;
                NOTHING
            }
            "tamper depth" => {
                self.depth = (n[0] != ABSENT).then_some(n[0] as u16);
                NOTHING
            }
            "poke" => {
                let (index, value) = (usize::try_from(n[1]).ok()?, n[2] as u64);
                if value > WIDTHS[table()] {
                    return None;
                }
                *self.cells[table()].get_mut(index)? = value;
                NOTHING
            }
            "counts" => Ok(joined(self.counts)),
            "cells" => {
                let (from, to) = (usize::try_from(n[1]).ok()?, usize::try_from(n[2]).ok()?);
                let cells = self.cells[table()].get(from..to).filter(|cells| cells.len() <= 512)?;
                Ok(joined(cells.iter().copied()))
            }
            _ => one(sum(self.cells[table()].iter().copied())),
        })
    }

    /// The used rows; none where there are not so many.
    fn used(&self, table: usize) -> Option<&[u64]> {
        let used = self.counts[table].checked_mul(ROWS[table])?;
        self.cells[table].get(..usize::try_from(used).ok()?)
    }

    fn look_up(&self, call: &Call) -> Option<Answer> {
        let asked = call.numbers[0] as u64;
        let narrow = |rows: &[u64]| rows.iter().map(|&cell| cell as u32).collect::<Vec<u32>>();
        let found = match call.name {
            "location_for_offset" => {
                let rows = narrow(self.used(LOCATIONS)?);
                told(&rows, reference::location(&rows, asked as usize))
            }
            "find_exception_handler" => {
                let rows = narrow(self.used(EXCEPTIONS)?);
                told(&rows, reference::handler(&rows, asked as u32))
            }
            "constant" => self.used(CONSTANTS)?.get(asked as usize).map(|&value| vec![value]),
            _ => reference::local_name(self.used(NAMES)?, asked as usize).map(|name| vec![name]),
        };
        Some(Ok(found.map_or(" absent".into(), joined)))
    }

    // Lines that need no builder.

    fn alone(&self, call: &Call) -> Answer {
        let n = &call.numbers;
        let op = || n[0] as u8;
        match call.name {
            "find_in_two" => {
                let rows: Vec<u32> = n[1..].iter().map(|&number| number as u32).collect();
                Ok(told(&rows, reference::handler(&rows, n[0] as u32)).map_or(" absent".into(), joined))
            }
            "shape" => self.decoder.shape(op()).map_or(refuse(1), |shape| one(shape.into())),
            "effect" => {
                let Some(own) = self.decoder.shape(op()) else {
                    return refuse(1);
                };
                if i128::from(own) != n[1] {
                    return refuse(2);
                }
                let given: Vec<i128> = n[2..5].iter().map(|value| value & 0xffff).collect();
                let mut fields = fields(&given);
                fields.names = n[5] as u8;
                if own == 2 {
                    fields.a &= 255;
                }
                Ok(format!(
                    " {}",
                    effect(&Emission {
                        op: op(),
                        shape: own,
                        fields,
                        names: &[],
                        name: 0
                    })
                ))
            }
            "taken" => match self.decoder.shape(op()) {
                None => refuse(1),
                Some(_) => taken(op()).map_or(refuse(3), |effect| Ok(format!(" {effect}"))),
            },
            "dead_maker" => self
                .decoder
                .shape(op())
                .map_or(refuse(1), |_| one(dead_maker(op()).into())),
            "assert_flags" if n[0] == ABSENT => one(0),
            "assert_flags" => one(0x10 + n[0] as u64),
            "decode_assert_flags" => Ok(match n[0] {
                0 => " none".into(),
                0x10..=0x19 => format!(" {}", n[0] - 0x10),
                _ => " invalid".into(),
            }),
            "fingerprint" => one(hash::fingerprint()),
            "fnv1a" => one(hash::fnv1a(call.bytes.iter().copied())),
            _ => self.step(&call.bytes, n[0] as usize),
        }
    }

    fn step(&self, code: &[u8], at: usize) -> Answer {
        match self.decoder.step(code, at) {
            Step::End => Ok(" end".into()),
            Step::Refused(number) => Err(Refusal {
                number,
                table: None,
                offset: Some(at),
            }),
            Step::Instruction(cells) => {
                let operands = reference::operands(code, &cells);
                let texts: String = operands.iter().map(|value| format!(" {value}")).collect();
                Ok(format!(" {} {}{texts}", cells[0], cells[1]))
            }
        }
    }

    fn read_listing(&self, text: &[u8], mut slice: Vec<u64>) -> String {
        let answer = match Reader::new(&self.decoder).read(text, slice.len()) {
            Ok(code) => {
                slice.splice(..code.len(), code.iter().map(|&byte| byte.into()));
                let digits: String = code.iter().map(|byte| format!("{byte:02x}")).collect();
                format!("ok {}", if digits.is_empty() { "-" } else { &digits })
            }
            Err((18, line)) => format!("refused 18 {line} code"),
            Err((number, line)) => format!("refused {number} {line}"),
        };
        format!("{answer} {}", sum(slice))
    }

    // The depth checker.

    fn check_given(&self, name: &str, mode: Mode, call: &Call) -> String {
        let starts = |from: usize| {
            call.numbers[from..]
                .iter()
                .map(|&number| number as u32)
                .collect::<Vec<u32>>()
        };
        match name {
            "check" => {
                let mut lent = Lent::just(&call.bytes);
                match self.check(mode, &call.bytes, &starts(0), &mut lent) {
                    Ok(values) => format!("ok{values}{}", joined(lent.depths.iter().copied())),
                    Err(refusal) => refusal.text(),
                }
            }
            "check_slice" => self.check_sum(mode, &call.bytes, &starts(2), Lent::of(&call.numbers[..2])),
            _ => {
                let zeros = vec![105; call.numbers[0] as usize];
                self.check_sum(mode, &zeros, &[], Lent::of(&call.numbers[1..]))
            }
        }
    }

    fn check_sum(&self, mode: Mode, code: &[u8], starts: &[u32], mut lent: Lent) -> String {
        let answer = match self.check(mode, code, starts, &mut lent) {
            Ok(values) => format!("ok{values}"),
            Err(refusal) => refusal.text(),
        };
        format!("{answer} {} {}", sum(lent.depths), sum(lent.work))
    }

    fn check_here(&self, mode: Mode) -> Option<String> {
        let code: Vec<u8> = self.used(CODE)?.iter().map(|&byte| byte as u8).collect();
        let starts: Vec<u32> = self.used(STARTS)?.iter().map(|&cell| cell as u32).collect();
        let mut lent = Lent::just(&code);
        Some(match self.check(mode, &code, &starts, &mut lent) {
            Ok(values) => format!("ok{values} {}", sum(lent.depths)),
            Err(refusal) => refusal.text(),
        })
    }

    /// The count and the greatest depth.
    fn check(&self, mode: Mode, code: &[u8], starts: &[u32], lent: &mut Lent) -> Answer {
        let refused = |(number, offset)| Refusal {
            number,
            table: None,
            offset,
        };
        let cells = lent.depths.len().min(lent.work.len());
        let depths = Depths::new(&self.decoder, code, starts, cells, mode);
        if !matches!(depths, Err((10 | 21, _))) {
            lent.work[..=code.len()].fill(0);
        }
        let checked = depths.map_err(refused)?;
        lent.depths[..=code.len()].copy_from_slice(&checked.held());
        let count = checked.count().map_err(refused)?;
        Ok(joined([count as u64, checked.greatest()]))
    }
}

/// The slices that a check is lent.
struct Lent {
    depths: Vec<u64>,
    work: Vec<u64>,
}

impl Lent {
    /// Of given lengths.
    fn of(cells: &[i128]) -> Self {
        Self {
            depths: filled(cells[0] as usize),
            work: filled(cells[1] as usize),
        }
    }

    /// As long as they have to be.
    fn just(code: &[u8]) -> Self {
        Self::of(&[code.len() as i128 + 1; 2])
    }
}

fn filled(cells: usize) -> Vec<u64> {
    (0..cells).map(first_cell).collect()
}

fn told(rows: &[u32], number: Option<usize>) -> Option<Vec<u64>> {
    let number = number?;
    let row = rows[6 * number..6 * number + 6].iter().map(|&cell| cell.into());
    Some(std::iter::once(number as u64).chain(row).collect())
}

/// An operand's values, in its shape's order.
fn fields(values: &[i128]) -> Fields {
    let value = |i: usize| values.get(i).map_or(0, |&value| value as u16);
    Fields {
        a: value(0),
        b: value(1),
        c: value(2) as u8,
        names: 0,
    }
}

/// The instruction's bytes: the opcode, and each value by its width, a word's low byte first.
fn bytes(given: &Emission) -> Vec<u8> {
    let mut bytes = vec![given.op];
    let Fields { a, b, c, .. } = given.fields;
    let [a_width, b_width, c_width, n_width] = widths(given.shape);
    for (value, width) in [(a, a_width), (b, b_width), (c.into(), c_width)] {
        match width {
            Width::Unused => {}
            Width::Byte => bytes.push(value as u8),
            Width::Word => bytes.extend([(value % 256) as u8, (value / 256) as u8]),
        }
    }
    if n_width == Width::Byte {
        bytes.push(given.names.len() as u8);
        given
            .names
            .iter()
            .for_each(|name| bytes.extend([(name % 256) as u8, (name / 256) as u8]));
    }
    bytes
}

/// Effects are `stack_effect`'s.
fn effect(given: &Emission) -> i64 {
    let operand = operand(given.shape, given.fields).expect("the values fit");
    original::opcode(given.op)
        .expect("the opcode is known")
        .stack_effect(operand)
        .into()
}

/// Falling through / taken: "Jump 0 / 0; JumpIfTrue, JumpIfFalse -1 / -1; the two OrPop forms -1 / 0; ForIter +1 / -1".
fn taken(op: u8) -> Option<i64> {
    use Opcode::{ForIter, Jump, JumpIfFalse, JumpIfFalseOrPop, JumpIfTrue, JumpIfTrueOrPop};
    match original::opcode(op)? {
        Jump | JumpIfTrueOrPop | JumpIfFalseOrPop => Some(0),
        JumpIfTrue | JumpIfFalse | ForIter => Some(-1),
        _ => None,
    }
}

fn dead_maker(op: u8) -> bool {
    original::opcode(op).is_some_and(makes_dead)
}
