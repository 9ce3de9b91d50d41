//! The lines on a builder and its tables, and the way of every line to the call that it names.

use tokenfinch::{
    Refusal, Table, check_in,
    lent::{Call, DEAD, DEAD_ROW, Emission, Lent, STATE_CELLS},
    lookups::{self, Row},
};

use super::{
    given::Given,
    out::Out,
    tables::{fill, sum, used},
    words::Words,
};

/// The most cells of the code, and of any other table.
const CODE_MOST: usize = 1_048_640;
const CELLS_MOST: usize = 65_600;

/// The most cells that are shown at once.
const SHOWN_MOST: usize = 512;

/// The tables in the order of `counts`.
const TABLES: [Table; 7] = [
    Table::Code,
    Table::Locations,
    Table::Exceptions,
    Table::Constants,
    Table::Names,
    Table::Marks,
    Table::Starts,
];

/// What is kept from line to line.
#[derive(Default)]
pub struct Session {
    /// Whether there is a builder.
    here: bool,
    lent: Lent,
    given: Given,
}

impl Session {
    /// Answers a line; none where it is not one of those that there are, and then nothing has changed.
    pub fn answer(&mut self, line: &[u8], out: &mut Out) -> Option<()> {
        let mut words = Words::new(line);
        let name = words.word()?;
        if name == b"new" {
            return self.anew(words, out);
        }
        if Given::has(name) {
            return self.given.answer(name, words, out);
        }
        if !self.here {
            return None;
        }
        if let Some(call) = call_of(name) {
            return self.emit(call, words, out);
        }
        match name {
            b"tamper" | b"poke" | b"counts" | b"cells" | b"sum" => self.open(name, words, out),
            b"location_for_offset" | b"find_exception_handler" | b"constant" | b"local_name" => {
                self.look_up(name, words, out)
            }
            b"current_offset" | b"current_position" | b"stack_depth" | b"is_dead" => self.look(name, words, out),
            b"check_here" => self.check_here(words, out),
            b"register_local_names" | b"register_local_name" | b"add_const" | b"add_exception_entry" | b"build" => {
                self.hold(name, words, out)
            }
            _ => self.flow(name, words, out),
        }
    }

    /// `new`: fresh tables, and a builder over them.
    fn anew(&mut self, mut words: Words<'_>, out: &mut Out) -> Option<()> {
        let depth = match words.word()? {
            b"dead" => DEAD,
            b"live" => words.u16()?.into(),
            _ => return None,
        };
        let code = words.size(CODE_MOST)?;
        let mut sizes = [0; 6];
        for size in &mut sizes {
            *size = words.size(CELLS_MOST)?;
        }
        words.end()?;
        let [locations, exceptions, constants, names, marks, starts] = sizes;
        let lent = &mut self.lent;
        lent.state.clear();
        lent.state.resize(STATE_CELLS, 0);
        fill(&mut lent.code, code);
        fill(&mut lent.locations, locations);
        fill(&mut lent.exceptions, exceptions);
        fill(&mut lent.constants, constants);
        fill(&mut lent.names, names);
        fill(&mut lent.marks, marks);
        fill(&mut lent.starts, starts);
        let begun = lent.begin(depth);
        self.here = begun.is_ok();
        out.done(begun);
        Some(())
    }

    /// The emitting calls but the jumps.
    fn emit(&mut self, call: Call, mut words: Words<'_>, out: &mut Out) -> Option<()> {
        let numbers = numbers(call, &mut words)?;
        let names = match call {
            Call::EmitCallFunctionKw | Call::EmitCallAttrKw => words.names()?,
            _ => Vec::new(),
        };
        words.end()?;
        out.done(self.lent.emit(Emission {
            call: call as u8,
            names: &names,
            ..numbers
        }));
        Some(())
    }

    /// Jumps, regions and the location.
    fn flow(&mut self, name: &[u8], mut words: Words<'_>, out: &mut Out) -> Option<()> {
        match name {
            b"emit_jump" => {
                let opcode = words.u8()?;
                words.end()?;
                told_row(self.lent.emit_jump(opcode), out);
            }
            b"patch_jump" => {
                let label = row(&mut words)?;
                words.end()?;
                out.done(self.lent.patch_jump(label));
            }
            b"emit_jump_to" => {
                let (opcode, target) = (words.u8()?, row(&mut words)?);
                words.end()?;
                out.done(self.lent.emit_jump_to(opcode, target));
            }
            b"current_jump_target" => {
                words.end()?;
                told_row(self.lent.current_jump_target(), out);
            }
            b"set_location" => return self.set_location(words, out),
            b"new_code_region" => {
                let depth = words.u16()?;
                words.end()?;
                out.done(self.lent.new_code_region(depth));
            }
            _ => return None,
        }
        Some(())
    }

    /// `set_location`, with a focus or without.
    fn set_location(&mut self, mut words: Words<'_>, out: &mut Out) -> Option<()> {
        let range = [words.u32()?, words.u32()?];
        let has_focus = !words.is_end();
        let focus = if has_focus {
            [words.u32()?, words.u32()?]
        } else {
            [0, 0]
        };
        words.end()?;
        out.done(self.lent.set_location(range, has_focus.into(), focus));
        Some(())
    }

    /// The calls on names, constants and exceptions.
    fn hold(&mut self, name: &[u8], mut words: Words<'_>, out: &mut Out) -> Option<()> {
        match name {
            b"register_local_names" => {
                let names: Vec<u32> = words.names()?;
                out.done(self.lent.register_local_names(&names));
            }
            b"register_local_name" => {
                let (slot, name) = (words.u16()?, words.u32()?);
                words.end()?;
                out.done(self.lent.register_local_name(slot, name));
            }
            b"add_const" => {
                let value = words.u64()?;
                words.end()?;
                out.told(self.lent.add_const(value));
            }
            b"add_exception_entry" => {
                let any = usize::MAX;
                let bounds = [words.size(any)?, words.size(any)?, words.size(any)?];
                let (depth, count, kind) = (words.u16()?, words.u16()?, words.bit()?);
                words.end()?;
                out.done(self.lent.add_exception_entry(bounds, depth, count, kind));
            }
            _ => {
                let fill = words.u32()?;
                words.end()?;
                out.done(self.lent.build(fill));
            }
        }
        Some(())
    }

    /// What the state says of the code.
    fn look(&self, name: &[u8], words: Words<'_>, out: &mut Out) -> Option<()> {
        words.end()?;
        match (self.lent.look(), name) {
            (Err(refusal), _) => out.refused(refusal),
            (Ok(look), b"current_offset") => out.ok().value(look.current_offset),
            (Ok(look), b"current_position") => out.ok().values(look.current_position),
            (Ok(look), b"is_dead") => out.ok().value(u8::from(look.is_dead)),
            (Ok(look), _) => match look.stack_depth {
                Some(depth) => out.ok().value(depth),
                None => out.ok().value("dead"),
            },
        };
        Some(())
    }

    /// Tampering, and looking at cells.
    fn open(&mut self, name: &[u8], mut words: Words<'_>, out: &mut Out) -> Option<()> {
        match name {
            b"tamper" => {
                self.tamper(words)?;
                out.ok();
            }
            b"poke" => {
                let (table, index, value) = (words.table()?, words.size(usize::MAX)?, words.u64()?);
                words.end()?;
                self.poke(table, index, value)?;
                out.ok();
            }
            b"counts" => {
                words.end()?;
                out.ok().values(TABLES.map(|table| self.lent.count(table)));
            }
            b"cells" => {
                let (table, from, to) = (words.table()?, words.size(usize::MAX)?, words.size(usize::MAX)?);
                words.end()?;
                let cells = self.cells(table, from, to)?;
                out.ok().values(cells);
            }
            _ => {
                let table = words.table()?;
                words.end()?;
                out.ok().value(self.sum(table));
            }
        }
        Some(())
    }

    fn tamper(&mut self, mut words: Words<'_>) -> Option<()> {
        let what = words.word()?;
        if what == b"depth" {
            let depth = words.or_word(b"dead", 65_535)?;
            words.end()?;
            self.lent.set_depth(depth.unwrap_or(DEAD.into()));
        } else {
            let table = Words::new(what).table()?;
            let rows = words.u64()?;
            words.end()?;
            self.lent.set_count(table, rows);
        }
        Some(())
    }

    fn poke(&mut self, table: Table, index: usize, value: u64) -> Option<()> {
        fn put<T: TryFrom<u64>>(cells: &mut [T], index: usize, value: u64) -> Option<()> {
            let value = T::try_from(value).ok()?;
            *cells.get_mut(index)? = value;
            Some(())
        }
        let lent = &mut self.lent;
        match table {
            Table::Code => put(&mut lent.code, index, value),
            Table::Locations => put(&mut lent.locations, index, value),
            Table::Exceptions => put(&mut lent.exceptions, index, value),
            Table::Constants => put(&mut lent.constants, index, value),
            Table::Names => put(&mut lent.names, index, value),
            Table::Marks => put(&mut lent.marks, index, value),
            Table::Starts => put(&mut lent.starts, index, value),
            Table::Text => None,
        }
    }

    fn cells(&self, table: Table, from: usize, to: usize) -> Option<Vec<u64>> {
        fn part<T: Copy + Into<u64>>(cells: &[T], from: usize, to: usize) -> Option<Vec<u64>> {
            let part = cells.get(from..to).filter(|part| part.len() <= SHOWN_MOST)?;
            Some(part.iter().map(|&cell| cell.into()).collect())
        }
        let lent = &self.lent;
        match table {
            Table::Code => part(&lent.code, from, to),
            Table::Locations => part(&lent.locations, from, to),
            Table::Exceptions => part(&lent.exceptions, from, to),
            Table::Constants => part(&lent.constants, from, to),
            Table::Names => part(&lent.names, from, to),
            Table::Marks => part(&lent.marks, from, to),
            Table::Starts => part(&lent.starts, from, to),
            Table::Text => None,
        }
    }

    fn sum(&self, table: Table) -> u64 {
        let lent = &self.lent;
        match table {
            Table::Code => sum(&lent.code),
            Table::Locations => sum(&lent.locations),
            Table::Exceptions => sum(&lent.exceptions),
            Table::Constants => sum(&lent.constants),
            Table::Names => sum(&lent.names),
            Table::Marks => sum(&lent.marks),
            Table::Starts => sum(&lent.starts),
            Table::Text => 0,
        }
    }

    /// The lookups, over the used rows.
    fn look_up(&self, name: &[u8], mut words: Words<'_>, out: &mut Out) -> Option<()> {
        let lent = &self.lent;
        let asked = words.u64()?;
        words.end()?;
        match name {
            b"location_for_offset" => {
                let rows = used(&lent.locations, lent.count(Table::Locations), 6)?;
                let row = lookups::location_for_offset(rows, usize::try_from(asked).ok()?);
                out.found(row.map(row_values));
            }
            b"find_exception_handler" => {
                let offset = u32::try_from(asked).ok()?;
                let rows = used(&lent.exceptions, lent.count(Table::Exceptions), 6)?;
                out.found(lookups::find_exception_handler(rows, offset).map(row_values));
            }
            b"constant" => {
                let rows = used(&lent.constants, lent.count(Table::Constants), 1)?;
                out.found(lookups::constant(rows, usize::try_from(asked).ok()?).map(|value| [value]));
            }
            _ => {
                let rows = used(&lent.names, lent.count(Table::Names), 1)?;
                out.found(lookups::local_name(rows, usize::try_from(asked).ok()?).map(|name| [name]));
            }
        }
        Some(())
    }

    /// `check_here OPTIONS`: the checker over the used code and starts.
    fn check_here(&self, mut words: Words<'_>, out: &mut Out) -> Option<()> {
        let mode = words.mode();
        words.end()?;
        let code = used(&self.lent.code, self.lent.count(Table::Code), 1)?;
        let starts = used(&self.lent.starts, self.lent.count(Table::Starts), 2)?;
        match check_in(mode, code, starts) {
            Ok(checked) => out
                .ok()
                .value(checked.count())
                .value(checked.greatest())
                .value(sum(checked.depths())),
            Err(refusal) => out.refused(refusal),
        };
        Some(())
    }
}

/// A row's number and its six numbers.
pub fn row_values(row: Row) -> impl Iterator<Item = u64> {
    [row.number as u64].into_iter().chain(row.cells.map(u64::from))
}

/// `dead`, or a row. The greatest number says dead to the library, so as a row it is given as the one before it: no
/// table has room for either, and the answer to both is the same.
fn row(words: &mut Words<'_>) -> Option<u64> {
    let given = words.or_word(b"dead", u64::MAX)?;
    Some(given.map_or(DEAD_ROW, |row| row.min(DEAD_ROW - 1)))
}

/// A label or target that a call answers.
fn told_row(answer: Result<u64, Refusal>, out: &mut Out) {
    match answer {
        Ok(DEAD_ROW) => _ = out.ok().value("dead"),
        other => out.told(other),
    }
}

/// The emitting call of a name.
fn call_of(name: &[u8]) -> Option<Call> {
    Some(match name {
        b"emit" => Call::Emit,
        b"emit_u8" => Call::EmitU8,
        b"emit_i8" => Call::EmitI8,
        b"emit_u8_u8" => Call::EmitU8U8,
        b"emit_u16" => Call::EmitU16,
        b"emit_u16_u16" => Call::EmitU16U16,
        b"emit_u16_u8" => Call::EmitU16U8,
        b"emit_u16_u8_u8" => Call::EmitU16U8U8,
        b"emit_call_builtin_function" => Call::EmitCallBuiltinFunction,
        b"emit_call_builtin_type" => Call::EmitCallBuiltinType,
        b"emit_call_function_kw" => Call::EmitCallFunctionKw,
        b"emit_call_attr_kw" => Call::EmitCallAttrKw,
        b"emit_raise_unbound_local" => Call::EmitRaiseUnboundLocal,
        b"emit_load_global_callable" => Call::EmitLoadGlobalCallable,
        b"emit_name_op" => Call::EmitNameOp,
        b"emit_load_local" => Call::EmitLoadLocal,
        b"emit_store_local" => Call::EmitStoreLocal,
        _ => return None,
    })
}

/// The numbers of an emitting call, each of the width that the call has for it, in the order of the words.
fn numbers(call: Call, words: &mut Words<'_>) -> Option<Emission<'static>> {
    let mut e = Emission::default();
    if matches!(call as u8, 0..=7) || call == Call::EmitNameOp {
        e.opcode = words.u8()?;
    }
    match call {
        Call::Emit => {}
        Call::EmitU8 => e.a = words.u8()?.into(),
        Call::EmitI8 => e.a = words.i8()?.cast_unsigned().into(),
        Call::EmitU16 | Call::EmitLoadLocal | Call::EmitStoreLocal => e.a = words.u16()?,
        Call::EmitU8U8 | Call::EmitCallBuiltinFunction | Call::EmitCallBuiltinType => {
            (e.a, e.b) = (words.u8()?.into(), words.u8()?.into());
        }
        Call::EmitU16U16 => (e.a, e.b) = (words.u16()?, words.u16()?.into()),
        Call::EmitU16U8 | Call::EmitCallAttrKw => (e.a, e.b) = (words.u16()?, words.u8()?.into()),
        Call::EmitU16U8U8 => (e.a, e.b, e.c) = (words.u16()?, words.u8()?.into(), words.u8()?),
        Call::EmitCallFunctionKw => e.a = words.u8()?.into(),
        Call::EmitRaiseUnboundLocal => e.b = words.u32()?,
        Call::EmitLoadGlobalCallable => (e.a, e.b) = (words.u16()?, words.u32()?),
        Call::EmitNameOp => (e.a, e.b, e.c) = (words.u16()?, words.u32()?, words.u8()?),
    }
    Some(e)
}
