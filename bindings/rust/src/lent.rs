//! A builder over tables of exactly the lengths that they were given, with its state open to anyone: what crosses to
//! the proved library at each call, and nothing more. [`CodeBuilder`](crate::CodeBuilder) is for compilers; this is for
//! those who lend their own tables, and for tests that change them from outside, as no call trusts what it is lent.

use crate::{
    Refusal, Table,
    sys::{self, Numbers},
};

/// The cells of a state.
pub const STATE_CELLS: usize = 17;

/// A depth that says dead.
pub const DEAD: u32 = 65_536;

/// A label or a target that says dead.
pub const DEAD_ROW: u64 = u64::MAX;

/// The emitting calls but the jumps, by the numbers that the library has for them. Behind each: what `a`, `b` and `c`
/// of [`Lent::emit`] are.
#[repr(u8)]
#[derive(Debug, Clone, Copy, PartialEq, Eq, Hash)]
pub enum Call {
    /// No operand.
    Emit = 0,
    /// a: the byte.
    EmitU8 = 1,
    /// a: the bits of the signed byte.
    EmitI8 = 2,
    /// a, b: the bytes.
    EmitU8U8 = 3,
    /// a: the number.
    EmitU16 = 4,
    /// a, b: the numbers.
    EmitU16U16 = 5,
    /// a: the number; b: the byte.
    EmitU16U8 = 6,
    /// a: the number; b, c: the bytes.
    EmitU16U8U8 = 7,
    /// a: the function; b: how many arguments. It has an opcode of its own, as all below but `EmitNameOp`.
    EmitCallBuiltinFunction = 8,
    /// a: the type; b: how many arguments.
    EmitCallBuiltinType = 9,
    /// a: how many positional arguments; and the names.
    EmitCallFunctionKw = 10,
    /// a: the attribute; b: how many positional arguments; and the names.
    EmitCallAttrKw = 11,
    /// b: the name.
    EmitRaiseUnboundLocal = 12,
    /// a: the slot; b: the name.
    EmitLoadGlobalCallable = 13,
    /// a: the slot; b: the name; c: the flags.
    EmitNameOp = 14,
    /// a: the slot.
    EmitLoadLocal = 15,
    /// a: the slot.
    EmitStoreLocal = 16,
}

/// What an emitting call is given. What a call does not use is not looked at.
#[derive(Debug, Clone, Copy, Default, PartialEq, Eq)]
pub struct Emission<'a> {
    /// The call's number, one of [`Call`]'s.
    pub call: u8,
    /// The opcode.
    pub opcode: u8,
    /// The first number.
    pub a: u16,
    /// The second number, or a name.
    pub b: u32,
    /// The third number.
    pub c: u8,
    /// The names of a keyword call.
    pub names: &'a [u16],
}

/// What a look at the state shows.
#[derive(Debug, Clone, Copy, PartialEq, Eq)]
pub struct Look {
    /// How many bytes of code there are.
    pub current_offset: u64,
    /// The depth of the stack, or dead.
    pub stack_depth: Option<u16>,
    /// Whether the code is dead.
    pub is_dead: bool,
    /// The start and the end of the location that is set, or 0 and 0.
    pub current_position: [u32; 2],
}

/// A state and its tables. A count of the state is in rows, a table in cells; the library's header has the order of
/// both.
#[derive(Debug, Clone, Default, PartialEq, Eq)]
pub struct Lent {
    /// The state's cells.
    pub state: Vec<u64>,
    /// The code.
    pub code: Vec<u8>,
    /// Six cells a row.
    pub locations: Vec<u32>,
    /// Six cells a row.
    pub exceptions: Vec<u32>,
    /// A cell a row.
    pub constants: Vec<u64>,
    /// A cell a row: 0 for no name, else its number and 1.
    pub names: Vec<u64>,
    /// Four cells a row.
    pub marks: Vec<u32>,
    /// Two cells a row.
    pub starts: Vec<u32>,
}

impl Lent {
    /// Makes the state of a builder with nothing in it, told live at a depth, or dead by [`DEAD`].
    ///
    /// # Errors
    /// 19 where the state has too few cells; 2 for a depth above [`DEAD`]; 18.
    pub fn begin(&mut self, depth: u32) -> Result<(), Refusal> {
        sys::new(depth, &mut self.state, &mut self.starts).accepted()
    }

    /// Sets the source location of the instructions to come. The focus counts where `has_focus` is 1.
    ///
    /// # Errors
    /// 19; 2 for `has_focus` above 1.
    pub fn set_location(&mut self, range: [u32; 2], has_focus: u8, focus: [u32; 2]) -> Result<(), Refusal> {
        sys::set_location(range, has_focus, focus, &mut self.state).accepted()
    }

    /// Emits an instruction.
    ///
    /// # Errors
    /// 19; 2 for numbers that the call does not have; 1, 8; then, live, 7, 2, 4, 5, 18.
    pub fn emit(&mut self, emission: Emission<'_>) -> Result<(), Refusal> {
        let Emission {
            call,
            opcode,
            a,
            b,
            c,
            names,
        } = emission;
        let numbers = Numbers {
            call,
            opcode,
            a,
            b,
            c,
            names,
        };
        sys::emit(&numbers, &mut self.state, &mut self.code, &mut self.locations).accepted()
    }

    /// Emits a forward jump and answers its label: the row of a mark, or [`DEAD_ROW`].
    ///
    /// # Errors
    /// 19, 1; then, live, 3, 5, 4, 18.
    pub fn emit_jump(&mut self, opcode: u8) -> Result<u64, Refusal> {
        sys::emit_jump(
            opcode,
            &mut self.state,
            &mut self.code,
            &mut self.locations,
            &mut self.marks,
        )
        .accepted()?;
        Ok(self.value())
    }

    /// Patches a label's jump to the end of the code.
    ///
    /// # Errors
    /// 19, 13, 14, 11, 6.
    pub fn patch_jump(&mut self, label: u64) -> Result<(), Refusal> {
        sys::patch_jump(label, &mut self.state, &mut self.code, &mut self.marks).accepted()
    }

    /// Emits a jump to a target.
    ///
    /// # Errors
    /// 19, 1; then, live, 3, 5, 12 or 13, 11, 6, 4, 18.
    pub fn emit_jump_to(&mut self, opcode: u8, target: u64) -> Result<(), Refusal> {
        sys::emit_jump_to(
            opcode,
            target,
            &mut self.state,
            &mut self.code,
            &mut self.locations,
            &self.marks,
        )
        .accepted()
    }

    /// Takes the end of the code as a target: the row of a mark, or [`DEAD_ROW`].
    ///
    /// # Errors
    /// 19, 18.
    pub fn current_jump_target(&mut self) -> Result<u64, Refusal> {
        sys::current_jump_target(&mut self.state, &mut self.marks).accepted()?;
        Ok(self.value())
    }

    /// Names the slots from 0 on.
    ///
    /// # Errors
    /// 19, 16, 18.
    pub fn register_local_names(&mut self, names: &[u32]) -> Result<(), Refusal> {
        sys::register_local_names(names, &mut self.state, &mut self.names).accepted()
    }

    /// Names a slot that has no name.
    ///
    /// # Errors
    /// 19, 18.
    pub fn register_local_name(&mut self, slot: u16, name: u32) -> Result<(), Refusal> {
        sys::register_local_name(slot, name, &mut self.state, &mut self.names).accepted()
    }

    /// Adds a constant and answers its index.
    ///
    /// # Errors
    /// 19, 9, 18.
    pub fn add_const(&mut self, value: u64) -> Result<u64, Refusal> {
        sys::add_const(value, &mut self.state, &mut self.constants).accepted()?;
        Ok(self.value())
    }

    /// Adds a row to the exceptions: `bounds` are the guarded code's start and end, and the handler's offset.
    ///
    /// # Errors
    /// 19; 2 for a kind above 1; 10, 18.
    pub fn add_exception_entry(
        &mut self,
        bounds: [usize; 3],
        stack_depth: u16,
        exception_stack_count: u16,
        kind: u8,
    ) -> Result<(), Refusal> {
        sys::add_exception_entry(
            bounds,
            stack_depth,
            exception_stack_count,
            kind,
            &mut self.state,
            &mut self.exceptions,
        )
        .accepted()
    }

    /// Opens a region at a depth.
    ///
    /// # Errors
    /// 19, 15, 18.
    pub fn new_code_region(&mut self, depth: u16) -> Result<(), Refusal> {
        sys::new_code_region(depth, &mut self.state, &mut self.starts).accepted()
    }

    /// Gives a name to each slot that has none. The builder goes on as it was.
    ///
    /// # Errors
    /// 19, 17.
    pub fn build(&mut self, fill: u32) -> Result<(), Refusal> {
        sys::build(fill, &mut self.state, &mut self.names, &self.marks).accepted()
    }

    /// What the state says of the code.
    ///
    /// # Errors
    /// 19.
    pub fn look(&self) -> Result<Look, Refusal> {
        let mut out = [0; 5];
        sys::look(&self.state, &mut out).accepted()?;
        let [current_offset, depth, is_dead, start, end] = out;
        Ok(Look {
            current_offset,
            stack_depth: u16::try_from(depth).ok(),
            is_dead: is_dead != 0,
            current_position: [start as u32, end as u32],
        })
    }

    /// The used rows of a table, as the state has it; 0 of a state without that cell.
    #[must_use]
    pub fn count(&self, table: Table) -> u64 {
        let cell = count_cell(table).and_then(|cell| self.state.get(cell));
        cell.copied().unwrap_or_default()
    }

    /// Sets the used rows of a table, whatever they are.
    pub fn set_count(&mut self, table: Table, rows: u64) {
        if let Some(cell) = count_cell(table).and_then(|cell| self.state.get_mut(cell)) {
            *cell = rows;
        }
    }

    /// Sets the depth's cell, whatever it is.
    pub fn set_depth(&mut self, depth: u64) {
        if let Some(cell) = self.state.get_mut(4) {
            *cell = depth;
        }
    }

    /// What the last accepted call answered.
    fn value(&self) -> u64 {
        self.state.first().copied().unwrap_or_default()
    }
}

/// The cell of the state that counts a table's rows.
fn count_cell(table: Table) -> Option<usize> {
    match table {
        Table::Code => Some(1),
        Table::Locations => Some(2),
        Table::Marks => Some(3),
        Table::Exceptions => Some(5),
        Table::Constants => Some(6),
        Table::Names => Some(7),
        Table::Starts => Some(8),
        Table::Text => None,
    }
}
