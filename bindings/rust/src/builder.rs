//! `CodeBuilder`: monty's calls over the proved library, with tables that grow by themselves.

use crate::{
    Code, CodeRange, HandlerKind, Opcode, Refusal, StringId, Table,
    checker::{self, Checked},
    lent::{Call, DEAD, DEAD_ROW, Emission, Lent, Look, STATE_CELLS},
};

/// Builds code by the calls of monty's `CodeBuilder`, under the same names and with the arguments in the same order.
///
/// Where the original panics or goes wrong, a call that answers a `Result` answers a [`Refusal`] here. The three calls
/// whose types have no room for one panic, and have a twin that answers it: [`new_code_region`](Self::new_code_region),
/// [`register_local_names`](Self::register_local_names) and [`build`](Self::build). A refused call has changed nothing,
/// so that a compiler can go on or report where it stands.
///
/// Other than in the original a constant is a number of 64 bits that is carried and not read (a compiler keeps its
/// values by such numbers), a name is a [`StringId`] of its own, and a label or target holds the number of a mark: one
/// of another builder is some other mark here, or none.
///
/// ```
/// use tokenfinch::{CodeBuilder, Opcode, Refusal};
///
/// // return 1 if x else 2
/// let mut builder = CodeBuilder::new();
/// builder.new_code_region(0);
/// builder.emit_load_local(0)?;
/// let other = builder.emit_jump(Opcode::JumpIfFalse)?;
/// builder.emit_i8(Opcode::LoadSmallInt, 1)?;
/// let over = builder.emit_jump(Opcode::Jump)?;
/// builder.patch_jump(other)?;
/// builder.emit_i8(Opcode::LoadSmallInt, 2)?;
/// builder.patch_jump(over)?;
/// builder.emit(Opcode::ReturnValue)?;
///
/// let code = builder.build();
/// assert_eq!(code.bytecode(), [9, 90, 5, 0, 8, 1, 88, 2, 0, 8, 2, 101]);
/// assert_eq!(code.check()?.depth_at(11), Some(1));
/// # Ok::<(), Refusal>(())
/// ```
#[derive(Debug, Clone)]
pub struct CodeBuilder {
    held: Lent,
}

/// A forward jump that is to be told where it leads.
#[must_use = "a jump without a target makes `build` refuse"]
#[derive(Debug, Clone, Copy, PartialEq, Eq)]
pub struct JumpLabel(u64);

/// A place to jump back to.
#[derive(Debug, Clone, Copy, PartialEq, Eq)]
pub struct JumpTarget(u64);

/// A place in the code, which only a builder gives.
#[derive(Debug, Clone, Copy, PartialEq, Eq)]
pub struct Offset(usize);

impl Offset {
    /// It as a `u32`, where it is one.
    #[must_use]
    pub fn as_u32(self) -> Option<u32> {
        u32::try_from(self.0).ok()
    }
}

impl Default for CodeBuilder {
    fn default() -> Self {
        Self::new()
    }
}

impl CodeBuilder {
    /// A builder with nothing in it, in dead code: [`new_code_region`](Self::new_code_region) comes next.
    #[must_use]
    pub fn new() -> Self {
        let mut held = Lent {
            state: vec![0; STATE_CELLS],
            ..Lent::default()
        };
        // A dead builder needs no table, so there is nothing to refuse.
        let begun = held.begin(DEAD);
        debug_assert_eq!(begun, Ok(()));
        Self { held }
    }

    /// Makes a call, and makes it again with a larger table where one is full. That is safe because a refused call
    /// leaves no trace: the library is proved to leave the state and every cell of every table as they were, so the
    /// second call starts from where the first did. It comes to an end, as a table grows at each turn.
    fn grown<T>(&mut self, call: impl Fn(&mut Lent) -> Result<T, Refusal>) -> Result<T, Refusal> {
        loop {
            match call(&mut self.held) {
                Err(Refusal::Full(table)) if grow(&mut self.held, table) => {}
                answer => return answer,
            }
        }
    }

    fn emit_by(&mut self, call: Call, opcode: u8, a: u16, b: u32, c: u8) -> Result<(), Refusal> {
        self.emit_named(call, opcode, a, b, c, &[])
    }

    fn emit_named(&mut self, call: Call, opcode: u8, a: u16, b: u32, c: u8, names: &[u16]) -> Result<(), Refusal> {
        let call = call as u8;
        self.grown(|held| {
            held.emit(Emission {
                call,
                opcode,
                a,
                b,
                c,
                names,
            })
        })
    }

    /// What the state says. It refuses only a state that was changed from outside, and nobody can reach this one.
    fn look(&self) -> Look {
        self.held.look().expect("the builder's state is its own")
    }

    /// Sets the source location of the instructions to come.
    pub fn set_location(&mut self, range: CodeRange, focus: Option<CodeRange>) {
        let part = focus.unwrap_or_default();
        let set = self
            .held
            .set_location([range.start, range.end], focus.is_some().into(), [part.start, part.end]);
        set.expect("the builder's state is its own");
    }

    /// Emits an instruction without an operand. In dead code, here and below, nothing is emitted.
    ///
    /// # Errors
    /// Live: 2, 4, 5, and 18 where the code would be over 1,048,576 bytes.
    pub fn emit(&mut self, op: Opcode) -> Result<(), Refusal> {
        self.emit_by(Call::Emit, op as u8, 0, 0, 0)
    }

    /// Emits an instruction with a byte.
    ///
    /// # Errors
    /// Live: 2, 4, 5, 18.
    pub fn emit_u8(&mut self, op: Opcode, operand: u8) -> Result<(), Refusal> {
        self.emit_by(Call::EmitU8, op as u8, operand.into(), 0, 0)
    }

    /// Emits an instruction with a signed byte.
    ///
    /// # Errors
    /// Live: 2, 4, 5, 18.
    pub fn emit_i8(&mut self, op: Opcode, operand: i8) -> Result<(), Refusal> {
        self.emit_by(Call::EmitI8, op as u8, operand.cast_unsigned().into(), 0, 0)
    }

    /// Emits an instruction with two bytes: `UnpackEx`, with the counts before and after.
    ///
    /// # Errors
    /// Live: 2, 4, 5, 18.
    pub fn emit_u8_u8(&mut self, op: Opcode, operand1: u8, operand2: u8) -> Result<(), Refusal> {
        self.emit_by(Call::EmitU8U8, op as u8, operand1.into(), operand2.into(), 0)
    }

    /// Emits an instruction with a number of 16 bits.
    ///
    /// # Errors
    /// Live: 2, 4, 5, 18.
    pub fn emit_u16(&mut self, op: Opcode, operand: u16) -> Result<(), Refusal> {
        self.emit_by(Call::EmitU16, op as u8, operand, 0, 0)
    }

    /// Emits an instruction with two numbers of 16 bits, as `LoadSubmodule`.
    ///
    /// # Errors
    /// Live: 2, 4, 5, 18.
    pub fn emit_u16_u16(&mut self, op: Opcode, operand1: u16, operand2: u16) -> Result<(), Refusal> {
        self.emit_by(Call::EmitU16U16, op as u8, operand1, operand2.into(), 0)
    }

    /// Emits an instruction with a number of 16 bits and a byte, as `MakeFunction`, `CallAttr` and `CallAttrExtended`.
    ///
    /// # Errors
    /// Live: 2, 4, 5, 18.
    pub fn emit_u16_u8(&mut self, op: Opcode, operand1: u16, operand2: u8) -> Result<(), Refusal> {
        self.emit_by(Call::EmitU16U8, op as u8, operand1, operand2.into(), 0)
    }

    /// Emits an instruction with a number of 16 bits and two bytes: `MakeClosure`, with function, defaults and cells.
    ///
    /// # Errors
    /// Live: 2, 4, 5, 18.
    pub fn emit_u16_u8_u8(&mut self, op: Opcode, operand1: u16, operand2: u8, operand3: u8) -> Result<(), Refusal> {
        self.emit_by(Call::EmitU16U8U8, op as u8, operand1, operand2.into(), operand3)
    }

    /// Emits `CallBuiltinFunction`.
    ///
    /// # Errors
    /// Live: 4, 5, 18.
    pub fn emit_call_builtin_function(&mut self, builtin_id: u8, arg_count: u8) -> Result<(), Refusal> {
        self.emit_by(Call::EmitCallBuiltinFunction, 0, builtin_id.into(), arg_count.into(), 0)
    }

    /// Emits `CallBuiltinType`.
    ///
    /// # Errors
    /// Live: 4, 5, 18.
    pub fn emit_call_builtin_type(&mut self, type_id: u8, arg_count: u8) -> Result<(), Refusal> {
        self.emit_by(Call::EmitCallBuiltinType, 0, type_id.into(), arg_count.into(), 0)
    }

    /// Emits `CallFunctionKw` with its keyword names.
    ///
    /// # Errors
    /// Live: 7, 4, 18.
    pub fn emit_call_function_kw(&mut self, pos_count: u8, kwname_ids: &[u16]) -> Result<(), Refusal> {
        self.emit_named(Call::EmitCallFunctionKw, 0, pos_count.into(), 0, 0, kwname_ids)
    }

    /// Emits `CallAttrKw` with its keyword names.
    ///
    /// # Errors
    /// Live: 7, 4, 18.
    pub fn emit_call_attr_kw(&mut self, attr_name_id: u16, pos_count: u8, kwname_ids: &[u16]) -> Result<(), Refusal> {
        self.emit_named(Call::EmitCallAttrKw, 0, attr_name_id, pos_count.into(), 0, kwname_ids)
    }

    /// Emits a forward jump, whose label is to be patched where it leads.
    ///
    /// # Errors
    /// Live: 3, 4 of the depth where it is taken, 4, 5, 18.
    pub fn emit_jump(&mut self, op: Opcode) -> Result<JumpLabel, Refusal> {
        self.grown(|held| held.emit_jump(op as u8)).map(JumpLabel)
    }

    /// Lets a label's jump lead to here. In dead code the code is live again, at the depth that the jump arrives with.
    ///
    /// # Errors
    /// 13, 14 where it was patched before, 11 where the depths differ, 6 where it is too far.
    ///
    /// ```
    /// use tokenfinch::{CodeBuilder, Opcode, Refusal};
    ///
    /// // One way leaves a value on the stack, the other does not: they can't meet.
    /// let mut builder = CodeBuilder::new();
    /// builder.new_code_region(0);
    /// builder.emit(Opcode::LoadTrue)?;
    /// let over = builder.emit_jump(Opcode::JumpIfFalse)?;
    /// builder.emit(Opcode::LoadNone)?;
    /// assert_eq!(builder.patch_jump(over), Err(Refusal::DepthsDiffer));
    /// # Ok::<(), Refusal>(())
    /// ```
    pub fn patch_jump(&mut self, label: JumpLabel) -> Result<(), Refusal> {
        self.held.patch_jump(label.0)
    }

    /// Emits a jump back to a target.
    ///
    /// # Errors
    /// Live: 3, 4 of the depth where it is taken, 12 for a target of dead code, 13, 11, 6, 4, 5, 18.
    pub fn emit_jump_to(&mut self, op: Opcode, target: JumpTarget) -> Result<(), Refusal> {
        self.grown(|held| held.emit_jump_to(op as u8, target.0))
    }

    /// The place where the next instruction will stand.
    #[must_use]
    pub fn current_offset(&self) -> Offset {
        // At most 1,048,576.
        Offset(self.look().current_offset as usize)
    }

    /// The source location that was set last.
    #[must_use]
    pub fn current_position(&self) -> CodeRange {
        let [start, end] = self.look().current_position;
        CodeRange { start, end }
    }

    /// A target at this place and with its depth. (The original takes `&self`: here the target takes a mark.)
    pub fn current_jump_target(&mut self) -> JumpTarget {
        let row = self.grown(Lent::current_jump_target);
        JumpTarget(row.expect("the builder's state is its own, and its marks have grown"))
    }

    /// Names the slots from 0 on, before any other is named.
    ///
    /// # Panics
    /// Where a slot is named already, as the original does in debug builds;
    /// [`try_register_local_names`](Self::try_register_local_names) refuses by 16 instead.
    pub fn register_local_names(&mut self, names: &[StringId]) {
        if let Err(refusal) = self.try_register_local_names(names) {
            panic!("register_local_names: {refusal}");
        }
    }

    /// The same, with a refusal.
    ///
    /// # Errors
    /// 16.
    pub fn try_register_local_names(&mut self, names: &[StringId]) -> Result<(), Refusal> {
        let numbers: Vec<u32> = names.iter().map(|name| name.0).collect();
        self.grown(|held| held.register_local_names(&numbers))
    }

    /// Names a slot. The first name stays.
    pub fn register_local_name(&mut self, slot: u16, name: StringId) {
        let named = self.grown(|held| held.register_local_name(slot, name.0));
        named.expect("the builder's state is its own, and its names have grown");
    }

    /// Emits `RaiseUnboundLocal`.
    ///
    /// # Errors
    /// 8 for a name over 65,535, in dead code too. Live: 18.
    pub fn emit_raise_unbound_local(&mut self, name_id: StringId) -> Result<(), Refusal> {
        self.emit_by(Call::EmitRaiseUnboundLocal, 0, 0, name_id.0, 0)
    }

    /// Emits a load of a local slot, in the shortest form that it has.
    ///
    /// # Errors
    /// Live: 5, 18.
    pub fn emit_load_local(&mut self, slot: u16) -> Result<(), Refusal> {
        self.emit_by(Call::EmitLoadLocal, 0, slot, 0, 0)
    }

    /// Emits `LoadGlobalCallable`.
    ///
    /// # Errors
    /// 8 for a name over 65,535, in dead code too. Live: 5, 18.
    pub fn emit_load_global_callable(&mut self, slot: u16, name_id: StringId) -> Result<(), Refusal> {
        self.emit_by(Call::EmitLoadGlobalCallable, 0, slot, name_id.0, 0)
    }

    /// Emits `LoadName`, `StoreName` or `DeleteName`.
    ///
    /// # Errors
    /// 8 for a name over 65,535, in dead code too. Live: 2, 4, 5, 18.
    pub fn emit_name_op(&mut self, op: Opcode, slot: u16, name_id: StringId, flags: u8) -> Result<(), Refusal> {
        self.emit_by(Call::EmitNameOp, op as u8, slot, name_id.0, flags)
    }

    /// Emits a store to a local slot, in the shorter form up to slot 255.
    ///
    /// # Errors
    /// Live: 4, 18.
    pub fn emit_store_local(&mut self, slot: u16) -> Result<(), Refusal> {
        self.emit_by(Call::EmitStoreLocal, 0, slot, 0, 0)
    }

    /// Adds a constant and answers its index.
    ///
    /// # Errors
    /// 9 where 65,536 are held.
    pub fn add_const(&mut self, value: u64) -> Result<u16, Refusal> {
        // An index is below 65,536, or the call is refused.
        self.grown(|held| held.add_const(value)).map(|index| index as u16)
    }

    /// Adds an entry to the exceptions; those of inner parts come first.
    ///
    /// # Errors
    /// 10 for an offset over 4,294,967,295.
    pub fn add_exception_entry(
        &mut self,
        start: Offset,
        end: Offset,
        handler: Offset,
        stack_depth: u16,
        exception_stack_count: u16,
        kind: HandlerKind,
    ) -> Result<(), Refusal> {
        let bounds = [start.0, end.0, handler.0];
        self.grown(|held| held.add_exception_entry(bounds, stack_depth, exception_stack_count, kind as u8))
    }

    /// The depth of the stack; none in dead code.
    #[must_use]
    pub fn stack_depth(&self) -> Option<u16> {
        self.look().stack_depth
    }

    /// Whether the code is dead.
    #[must_use]
    pub fn is_dead(&self) -> bool {
        self.look().is_dead
    }

    /// Finishes the body. A slot without a name gets the default one.
    ///
    /// # Panics
    /// Where a label was not patched; [`try_build`](Self::try_build) refuses by 17 instead. (The original builds code
    /// whose jump leads to right behind itself.)
    #[must_use]
    pub fn build(self) -> Code {
        match self.try_build(StringId::default()) {
            Ok(code) => code,
            Err(refusal) => panic!("build: {refusal}"),
        }
    }

    /// The same, with the name for slots without one, and a refusal.
    ///
    /// # Errors
    /// 17.
    pub fn try_build(mut self, fill: StringId) -> Result<Code, Refusal> {
        self.held.build(fill.0)?;
        let used = |table, cells| self.held.count(table) as usize * cells;
        let [code, locations, exceptions] =
            [(Table::Code, 1), (Table::Locations, 6), (Table::Exceptions, 6)].map(|(table, cells)| used(table, cells));
        let [constants, names, starts] =
            [(Table::Constants, 1), (Table::Names, 1), (Table::Starts, 2)].map(|(table, cells)| used(table, cells));
        let mut held = self.held;
        held.code.truncate(code);
        held.locations.truncate(locations);
        held.exceptions.truncate(exceptions);
        held.constants.truncate(constants);
        held.names.truncate(names);
        held.starts.truncate(starts);
        Ok(Code {
            bytecode: held.code,
            constants: held.constants,
            locations: held.locations,
            exceptions: held.exceptions,
            names: held.names,
            starts: held.starts,
        })
    }

    /// Opens a region at a depth: the body's own, first of all, and each that is reached by the exceptions.
    ///
    /// # Panics
    /// In live code, as the original does; [`try_new_code_region`](Self::try_new_code_region) refuses by 15 instead.
    pub fn new_code_region(&mut self, depth: u16) {
        if let Err(refusal) = self.try_new_code_region(depth) {
            panic!("new_code_region: {refusal}");
        }
    }

    /// The same, with a refusal.
    ///
    /// # Errors
    /// 15.
    pub fn try_new_code_region(&mut self, depth: u16) -> Result<(), Refusal> {
        self.grown(|held| held.new_code_region(depth))
    }

    /// Checks the depths of the code so far from its starts.
    ///
    /// # Errors
    /// 23.
    pub fn check(&self) -> Result<Checked, Refusal> {
        let code = self.held.count(Table::Code) as usize;
        let starts = 2 * self.held.count(Table::Starts) as usize;
        checker::check(&self.held.code[..code], &self.held.starts[..starts])
    }
}

impl JumpLabel {
    /// Whether the jump was emitted in dead code, so that there is none.
    #[must_use]
    pub fn is_dead(self) -> bool {
        self.0 == DEAD_ROW
    }
}

impl JumpTarget {
    /// Whether it was taken in dead code, where no live code can jump to.
    #[must_use]
    pub fn is_dead(self) -> bool {
        self.0 == DEAD_ROW
    }
}

/// Twice the cells of a table, or some where it has none; false where it can't grow. New cells are 0, and are not read
/// before a call has written them.
fn grow(held: &mut Lent, table: Table) -> bool {
    /// The most bytes of code that are ever used.
    const CODE_MOST: usize = 1_048_576;
    fn double<T: Clone + Default>(cells: &mut Vec<T>, most: usize) -> bool {
        let wanted = (2 * cells.len()).clamp(48, most);
        let grows = wanted > cells.len();
        cells.resize(wanted.max(cells.len()), T::default());
        grows
    }
    match table {
        Table::Code => double(&mut held.code, CODE_MOST),
        Table::Locations => double(&mut held.locations, usize::MAX),
        Table::Exceptions => double(&mut held.exceptions, usize::MAX),
        Table::Constants => double(&mut held.constants, usize::MAX),
        Table::Names => double(&mut held.names, usize::MAX),
        Table::Marks => double(&mut held.marks, usize::MAX),
        Table::Starts => double(&mut held.starts, usize::MAX),
        Table::Text => false,
    }
}

#[cfg(test)]
mod tests {
    use super::*;

    /// A live builder.
    fn live() -> CodeBuilder {
        let mut builder = CodeBuilder::new();
        builder.new_code_region(0);
        builder
    }

    #[test]
    fn tables_grow_up_to_the_codes_limit() -> Result<(), Refusal> {
        let mut builder = live();
        builder.set_location(CodeRange { start: 1, end: 2 }, None);
        for _ in 0..CODE_NOPS {
            builder.emit(Opcode::Nop)?;
        }
        builder.held.set_count(Table::Code, 1_048_570);
        assert_eq!(builder.emit(Opcode::Nop), Err(Refusal::Unsound));
        builder.held.set_count(Table::Code, CODE_NOPS as u64);
        assert_eq!(builder.current_offset(), Offset(CODE_NOPS));
        builder.held.code.resize(1_048_576, 105);
        builder.held.set_count(Table::Code, 1_048_576);
        assert_eq!(builder.emit(Opcode::Nop), Err(Refusal::Full(Table::Code)));
        Ok(())
    }

    const CODE_NOPS: usize = 1_000;

    #[test]
    fn what_is_built_is_what_was_said() -> Result<(), Refusal> {
        let mut builder = live();
        for value in 0..200 {
            assert_eq!(builder.add_const(value * 7)?, value as u16);
        }
        builder.register_local_name(70, StringId(9));
        builder.register_local_name(70, StringId(10));
        let start = builder.current_offset();
        let range = CodeRange { start: 5, end: 9 };
        builder.set_location(range, Some(CodeRange { start: 6, end: 7 }));
        builder.emit_u16(Opcode::LoadConst, 3)?;
        let end = builder.current_offset();
        builder.emit(Opcode::ReturnValue)?;
        assert!(builder.is_dead() && builder.stack_depth().is_none());
        builder.add_exception_entry(start, end, builder.current_offset(), 0, 1, HandlerKind::Cleanup)?;
        assert_eq!(builder.current_position(), range);
        let code = builder.try_build(StringId(77))?;
        assert_eq!(code.bytecode(), [4, 3, 0, 101]);
        assert_eq!((code.constant(199), code.constant(200)), (Some(1_393), None));
        assert_eq!(code.local_name(70), Some(StringId(9)));
        assert_eq!((code.local_name(3), code.local_name(71)), (Some(StringId(77)), None));
        let location = code.location_for_offset(3).expect("a location was set");
        assert_eq!((location.bytecode_offset(), location.range()), (3, range));
        assert_eq!(location.focus(), Some(CodeRange { start: 6, end: 7 }));
        let entry = code.find_exception_handler(2).expect("the load is guarded");
        assert_eq!(
            (entry.handler(), entry.stack_depth(), entry.exception_stack_count()),
            (4, 0, 1)
        );
        assert!(!entry.pushes_exception() && entry.contains(0) && code.find_exception_handler(3).is_none());
        Ok(())
    }

    #[test]
    fn all_names_at_once_take_a_table_that_grows_in_steps() {
        let mut builder = live();
        let names: Vec<StringId> = (0..70_000).map(StringId).collect();
        builder.register_local_names(&names);
        assert_eq!(builder.try_register_local_names(&names), Err(Refusal::NamesHeld));
        assert_eq!(builder.build().local_name(65_535), Some(StringId(65_535)));
    }

    #[test]
    fn loops_and_dead_code() -> Result<(), Refusal> {
        let mut builder = CodeBuilder::new();
        let dead = builder.current_jump_target();
        assert!(dead.is_dead() && builder.emit_jump(Opcode::Jump)?.is_dead());
        builder.new_code_region(1);
        assert_eq!(builder.try_new_code_region(0), Err(Refusal::RegionWhileLive));
        assert_eq!(builder.emit_jump_to(Opcode::Jump, dead), Err(Refusal::DeadTarget));
        let top = builder.current_jump_target();
        let out = builder.emit_jump(Opcode::ForIter)?;
        builder.emit(Opcode::Pop)?;
        builder.emit_jump_to(Opcode::Jump, top)?;
        assert_eq!(builder.clone().try_build(StringId(0)), Err(Refusal::OpenLabel));
        builder.patch_jump(out)?;
        assert_eq!(builder.patch_jump(out), Err(Refusal::AlreadyPatched));
        builder.emit(Opcode::LoadNone)?;
        builder.emit(Opcode::ReturnValue)?;
        assert_eq!(builder.check()?.count(), 5);
        assert_eq!(builder.build().starts(), [0, 1]);
        Ok(())
    }

    #[test]
    fn a_call_that_is_refused_changes_nothing() -> Result<(), Refusal> {
        let mut builder = live();
        builder.emit(Opcode::LoadNone)?;
        let before = builder.held.clone();
        assert_eq!(builder.emit(Opcode::LoadConst), Err(Refusal::WrongShape));
        assert_eq!(builder.emit_u16(Opcode::BuildList, 3), Err(Refusal::DepthBelowZero));
        assert_eq!(
            builder.emit_call_function_kw(0, &[1; 256]),
            Err(Refusal::TooManyKeywords)
        );
        assert_eq!(
            builder.emit_name_op(Opcode::LoadName, 1, StringId(65_536), 0),
            Err(Refusal::NameTooLarge)
        );
        assert_eq!(builder.emit_jump(Opcode::Nop), Err(Refusal::NotAJump));
        assert_eq!(builder.held, before);
        Ok(())
    }

    #[test]
    fn a_jump_that_finds_no_value_says_so() {
        let mut builder = live();
        let top = builder.current_jump_target();
        for op in [Opcode::JumpIfTrue, Opcode::JumpIfFalse, Opcode::ForIter] {
            assert_eq!(builder.emit_jump(op), Err(Refusal::DepthBelowZero));
            assert_eq!(builder.emit_jump_to(op, top), Err(Refusal::DepthBelowZero));
        }
        assert_eq!(
            Refusal::DepthBelowZero.to_string(),
            "refused 4: the instruction takes more from the stack than is there"
        );
    }
}
