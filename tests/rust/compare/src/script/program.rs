//! Programs as a compiler makes them, from a generator that knows the depth: statements in statements, with jumps both
//! ways, loops, regions, handlers, constants, names and locations; and at the end a build, or a call that is refused.

use monty::bytecode::op::Opcode::{self, *};

use super::{Script, model::Model, parse::MARKS};
use crate::{
    operand::{Fields, Width, operand_naming, widths},
    original::{self, Shown},
    random::Random,
    reference::{Decoder, depths::makes_dead},
};

/// Scripts of programs with about so many calls in all, each script within the program's 16 MiB.
pub fn programs(random: &mut Random, calls: usize) -> Vec<Script> {
    let mut scripts = Vec::new();
    let mut made = 0;
    while made < calls {
        let mut maker = Maker::new(random);
        while maker.script.bytes() < 4_000_000 && made + maker.script.lines < calls {
            maker.program();
        }
        made += maker.script.lines;
        scripts.push(maker.script);
    }
    scripts
}

/// So many programs, and of each that the Rust has built the bytes and the depths that its builder showed.
pub fn builds(random: &mut Random, programs: usize, mut take: impl FnMut(Vec<u8>, &Shown)) {
    let mut maker = Maker::new(random);
    for _ in 0..programs {
        maker.program();
        if let Some((code, shown)) = maker.script.original.built() {
            take(code, shown);
        }
    }
}

struct Maker<'a> {
    script: Script,
    random: &'a mut Random,
    decoder: Decoder,
}

impl<'a> Maker<'a> {
    fn new(random: &'a mut Random) -> Self {
        Self {
            script: Script::default(),
            random,
            decoder: Decoder::new(),
        }
    }

    fn say(&mut self, line: String) -> String {
        self.script.say(line)
    }

    fn model(&self) -> &Model {
        &self.script.model
    }

    fn chance(&mut self, of: usize) -> bool {
        self.random.below(of) == 0
    }

    fn program(&mut self) {
        let told = match self.random.below(12) {
            0 => "dead".to_owned(),
            1 => format!("live {}", self.random.u16()),
            2 => format!("live {}", 65_535 - self.random.below(6)),
            _ => format!("live {}", self.random.below(4)),
        };
        self.say(format!("new {told} 16384 9000 240 64 300 1200 80"));
        if self.chance(3) {
            let names: String = (0..self.random.below(8)).map(|i| format!(" {}", i * 7)).collect();
            self.say(format!("register_local_names{names}"));
        }
        let statements = 4 + self.random.below(30);
        self.block(statements, 0);
        if self.chance(3) {
            self.refused();
        }
        self.finish();
    }

    /// Looks at all there is, as it is left.
    fn finish(&mut self) {
        for line in [
            "counts",
            "current_offset",
            "current_position",
            "stack_depth",
            "is_dead",
            "build 0",
            "check_here",
            "check_here strict",
        ] {
            self.script.say(line);
        }
        for table in super::parse::TABLES {
            self.say(format!("sum {table}"));
        }
        let offset = self.random.below(200);
        for line in [
            "location_for_offset",
            "find_exception_handler",
            "constant",
            "local_name",
        ] {
            self.say(format!("{line} {offset}"));
        }
    }

    fn block(&mut self, statements: usize, level: usize) {
        for _ in 0..statements {
            self.statement(level);
        }
    }

    fn inner(&mut self, level: usize) {
        let statements = self.random.below(4);
        self.block(statements, level + 1);
    }

    fn statement(&mut self, level: usize) {
        let deep = level >= 4 || self.model().count(MARKS) + 8 > self.model().row_count(MARKS);
        match self.random.below(if deep { 10 } else { 20 }) {
            0..=5 => self.instruction(),
            6 => self.place(),
            7 => self.constant(),
            8 => self.names(),
            9 => self.query(),
            10 | 11 => self.branch(level),
            12 | 13 => self.repeat(level),
            14 | 15 => self.walk(level),
            16 | 17 => self.choice(level),
            18 => self.guarded(level),
            _ => self.leave(level),
        }
    }

    /// A number that is often small and sometimes at an edge.
    fn word(&mut self) -> u16 {
        match self.random.below(10) {
            0 => self.random.u16(),
            1 => [255, 256, 32_767, 32_768, 65_535][self.random.below(5)],
            _ => self.random.below(6) as u16,
        }
    }

    fn byte(&mut self) -> u8 {
        match self.random.below(10) {
            0 => self.random.u8(),
            1 => [16, 127, 128, 255][self.random.below(4)],
            _ => self.random.below(6) as u8,
        }
    }

    fn instruction(&mut self) {
        let op = original::opcode(self.random.below(131) as u8).expect("all are opcodes");
        let shape = self.decoder.shape(op as u8).expect("all have a shape");
        if shape == 4 || (makes_dead(op) && !self.chance(20)) {
            return;
        }
        let [a, b, c, n] = widths(shape).map(|width| match width {
            Width::Unused => 0,
            Width::Byte => self.byte().into(),
            Width::Word => self.word(),
        });
        let names: Vec<u16> = (0..n).map(|_| self.word()).collect();
        let fields = Fields {
            a,
            b,
            c: c as u8,
            names: n as u8,
        };
        let given = operand_naming(shape, fields, &names).expect("the values fit");
        let effect = i64::from(op.stack_effect(given));
        if !self.suits(effect) {
            return;
        }
        let line = line(op, shape, fields, &names, self.chance(2));
        self.say(line);
    }

    /// Loads what the effect takes away; false where that would be too much, or the depth's end is near.
    fn suits(&mut self, effect: i64) -> bool {
        let Some(depth) = self.model().depth() else { return true };
        let missing = -(i64::from(depth) + effect);
        if i64::from(depth) + effect > 65_535 || missing > 40 {
            return false;
        }
        (0..missing).for_each(|_| self.load());
        true
    }

    fn load(&mut self) {
        let line = match self.random.below(5) {
            0 => format!("emit_load_local {}", self.word()),
            1 => format!("emit_i8 {} {}", LoadSmallInt as u8, self.random.u8() as i8),
            2 => format!("emit_load_global_callable {} {}", self.word(), self.word()),
            _ => format!("emit {}", LoadNone as u8),
        };
        if self.model().depth() != Some(65_535) {
            self.say(line);
        }
    }

    /// Brings live code to a depth, or leaves it where that is far.
    fn level_out(&mut self, depth: u16) {
        if self.model().depth().is_some_and(|here| here.abs_diff(depth) > 40) {
            self.say("emit_raise_unbound_local 1".to_owned());
        }
        while let Some(here) = self.model().depth().filter(|&here| here != depth) {
            let op = if here < depth { LoadNone } else { Pop };
            self.say(format!("emit {}", op as u8));
        }
    }

    fn place(&mut self) {
        let (start, end) = (self.word(), self.word());
        let focus = if self.chance(2) {
            format!(" {} {}", self.word(), self.word())
        } else {
            String::new()
        };
        self.say(format!("set_location {start} {end}{focus}"));
    }

    fn constant(&mut self) {
        let value = self.random.next() >> self.random.below(64);
        if let Some(index) = self.script.row(&format!("add_const {value}"))
            && self.suits(1)
        {
            self.say(format!("emit_u16 {} {index}", LoadConst as u8));
        }
    }

    fn names(&mut self) {
        let (slot, name) = (self.random.below(300), self.random.next() >> 32);
        self.say(format!("register_local_name {slot} {name}"));
    }

    fn query(&mut self) {
        const LINES: [&str; 5] = ["current_offset", "current_position", "stack_depth", "is_dead", "counts"];
        self.script.say(LINES[self.random.below(LINES.len())]);
    }

    /// A jump whose label is to be patched; none in dead code, or where a depth would leave its range.
    fn jump(&mut self, op: Opcode) -> Option<u64> {
        let depth = i32::from(self.model().depth()?);
        if depth < 1 && op != Jump {
            self.load();
        }
        if op == ForIter && depth >= 65_535 {
            return None;
        }
        self.script.row(&format!("emit_jump {}", op as u8))
    }

    fn patch(&mut self, label: Option<u64>) {
        let label = label.map_or("dead".to_owned(), |row| row.to_string());
        self.say(format!("patch_jump {label}"));
    }

    /// if .. else
    fn branch(&mut self, level: usize) {
        let op = if self.chance(2) { JumpIfFalse } else { JumpIfTrue };
        let Some(other) = self.jump(op) else { return };
        let before = self.model().depth();
        self.inner(level);
        let over = if self.chance(2) { self.jump(Jump) } else { None };
        if over.is_none() {
            before.into_iter().for_each(|depth| self.level_out(depth));
        }
        let arrives = self.model().depth();
        let joined = self.depth_of(over).or(arrives);
        self.patch(Some(other));
        if over.is_some() {
            self.inner(level);
            joined.into_iter().for_each(|depth| self.level_out(depth));
            self.patch(over);
        }
    }

    /// The depth that an open label's jump arrives with.
    fn depth_of(&self, label: Option<u64>) -> Option<u16> {
        self.model().mark_depth(label?)
    }

    /// while
    fn repeat(&mut self, level: usize) {
        let Some(depth) = self.model().depth() else { return };
        let Some(top) = self.script.row("current_jump_target") else {
            return;
        };
        if depth == 65_535 {
            return;
        }
        self.load();
        let Some(out) = self.jump(JumpIfFalse) else { return };
        self.inner(level);
        self.level_out(depth);
        if self.chance(3) && self.model().depth().is_some() {
            self.load();
            self.say(format!("emit_jump_to {} {top}", JumpIfTrue as u8));
        }
        self.say(format!("emit_jump_to {} {top}", Jump as u8));
        self.patch(Some(out));
    }

    /// for
    fn walk(&mut self, level: usize) {
        if self.model().depth().is_none_or(|depth| depth > 65_500) {
            return;
        }
        self.load();
        let Some(depth) = self.model().depth() else { return };
        let Some(top) = self.script.row("current_jump_target") else {
            return;
        };
        let Some(out) = self.jump(ForIter) else { return };
        self.inner(level);
        self.level_out(depth);
        self.say(format!("emit_jump_to {} {top}", Jump as u8));
        self.patch(Some(out));
    }

    /// and, or
    fn choice(&mut self, level: usize) {
        if self.model().depth().is_none_or(|depth| depth > 65_500) {
            return;
        }
        self.load();
        let Some(depth) = self.model().depth() else { return };
        let op = if self.chance(2) {
            JumpIfTrueOrPop
        } else {
            JumpIfFalseOrPop
        };
        let Some(out) = self.jump(op) else { return };
        self.inner(level);
        self.level_out(depth);
        self.patch(Some(out));
    }

    /// try: what is guarded, a jump over the handler, the handler in a region of its own, and its entry.
    fn guarded(&mut self, level: usize) {
        let Some(depth) = self.model().depth().filter(|&depth| depth < 65_500) else {
            return;
        };
        let start = self.model().count(0);
        self.inner(level);
        self.level_out(depth);
        let end = self.model().count(0);
        let over = self.jump(Jump);
        let handler = self.model().count(0);
        self.say(format!("new_code_region {}", depth + 1));
        self.inner(level);
        self.level_out(depth);
        if over.is_some() {
            self.patch(over);
        }
        let kind = self.random.below(2);
        let count = self.random.below(3);
        self.say(format!(
            "add_exception_entry {start} {end} {handler} {depth} {count} {kind}"
        ));
    }

    /// Leaves live code, says some more in dead code, and opens a region.
    fn leave(&mut self, level: usize) {
        const WAYS: [Opcode; 3] = [ReturnValue, Raise, Reraise];
        let op = WAYS[self.random.below(WAYS.len())];
        if self.suits(op.stack_effect(monty::bytecode::op::Operand::None).into()) {
            let name = self.random.below(70_000);
            let named = format!("emit_raise_unbound_local {name}");
            let line = if self.chance(4) {
                named
            } else {
                format!("emit {}", op as u8)
            };
            self.say(line);
        }
        if self.model().depth().is_some() {
            return;
        }
        for _ in 0..self.random.below(4) {
            self.dead_line();
        }
        self.inner(level + 3);
        if self.model().depth().is_none() {
            let depth = self.random.below(5);
            self.say(format!("new_code_region {depth}"));
        }
    }

    /// What dead code takes though live code would not.
    fn dead_line(&mut self) {
        let (op, other) = (self.random.below(131), self.random.below(400));
        let line = match self.random.below(6) {
            0 => format!("emit_jump {op}"),
            1 => format!("emit_jump_to {op} dead"),
            2 => "current_jump_target".to_owned(),
            3 => format!("emit_u16 {op} {other}"),
            4 => format!("emit_call_function_kw 1{}", " 7".repeat(other % 301)),
            _ => "patch_jump dead".to_owned(),
        };
        self.say(line);
    }

    /// A call that is refused, in the Rust by a panic or an error.
    fn refused(&mut self) {
        let other = self.random.below(131);
        let line = match self.random.below(13) {
            11 => "patch_jump 0".to_owned(),
            0 => format!("emit {}", LoadConst as u8),
            1 => format!("emit_u8_u8 {other} 1 2"),
            2 => format!("emit_jump {other}"),
            3 => format!("emit_u8 {} 255", BuildDict as u8),
            4 => format!("emit_u16 {} 65535", BuildList as u8),
            5 => format!("emit_jump_to {} dead", Jump as u8),
            6 => "new_code_region 3".to_owned(),
            7 => "register_local_names 1 2".to_owned(),
            8 => format!("emit_raise_unbound_local {}", 65_536 + other),
            9 => format!("emit_name_op {} 1 65536 0", LoadName as u8),
            10 => format!("emit_call_function_kw 0{}", " 1".repeat(256 + self.random.below(45))),
            _ => return self.met_elsewhere(),
        };
        self.say(line);
    }

    /// Two ways that meet with different depths.
    fn met_elsewhere(&mut self) {
        if self.model().depth().is_none_or(|depth| depth > 65_000) {
            return;
        }
        self.load();
        if self.chance(2) {
            if let Some(label) = self.jump(JumpIfTrueOrPop) {
                self.patch(Some(label));
            }
        } else if let Some(target) = self.script.row("current_jump_target") {
            self.load();
            self.say(format!("emit_jump_to {} {target}", Jump as u8));
        }
    }
}

/// The line that emits an instruction; by a call of its own where one suits and `own` asks for it.
fn line(op: Opcode, shape: u8, fields: Fields, names: &[u16], own: bool) -> String {
    let Fields { a, b, c, .. } = fields;
    let number = op as u8;
    let names: String = names.iter().map(|name| format!(" {name}")).collect();
    match (op, shape) {
        (CallBuiltinFunction, _) if own => format!("emit_call_builtin_function {a} {b}"),
        (CallBuiltinType, _) if own => format!("emit_call_builtin_type {a} {b}"),
        (LoadGlobalCallable, _) if own => format!("emit_load_global_callable {a} {b}"),
        (RaiseUnboundLocal, _) if own => format!("emit_raise_unbound_local {a}"),
        (StoreLocal | StoreLocalW, _) if own => format!("emit_store_local {a}"),
        (LoadLocal | LoadLocalW, _) if own => format!("emit_load_local {a}"),
        (_, 0) => format!("emit {number}"),
        (_, 1) => format!("emit_u8 {number} {a}"),
        (_, 2) => format!("emit_i8 {number} {}", a as u8 as i8),
        (_, 3) => format!("emit_u16 {number} {a}"),
        (_, 5) => format!("emit_u8_u8 {number} {a} {b}"),
        (_, 6) => format!("emit_u16_u8 {number} {a} {b}"),
        (_, 7) => format!("emit_u16_u16 {number} {a} {b}"),
        (_, 8) => format!("emit_u16_u8_u8 {number} {a} {b} {c}"),
        (_, 9) => format!("emit_call_function_kw {a}{names}"),
        (_, 10) => format!("emit_call_attr_kw {a} {b}{names}"),
        (_, 11) => format!("emit_name_op {number} {a} {b} {c}"),
        _ => panic!("{op:?} is a jump"),
    }
}
