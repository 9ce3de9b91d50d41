//! Finished code and its tables, with code.rs's names.

use crate::{
    Refusal,
    checker::{self, Checked},
    decoder::{self, Instructions},
    lookups,
};

/// A name by its number. What the number stands for is the compiler's own.
#[derive(Debug, Clone, Copy, Default, PartialEq, Eq, Hash, PartialOrd, Ord)]
pub struct StringId(pub u32);

impl StringId {
    /// Its number.
    #[must_use]
    pub fn index(self) -> usize {
        self.0 as usize
    }
}

/// A range of the source: two numbers that are carried and not read.
#[derive(Debug, Clone, Copy, Default, PartialEq, Eq, Hash)]
pub struct CodeRange {
    /// Where it starts.
    pub start: u32,
    /// Where it ends.
    pub end: u32,
}

/// A finished body: its bytes, constants, names, locations and exceptions.
#[derive(Debug, Clone, PartialEq, Eq)]
pub struct Code {
    pub(crate) bytecode: Vec<u8>,
    pub(crate) constants: Vec<u64>,
    pub(crate) locations: Vec<u32>,
    pub(crate) exceptions: Vec<u32>,
    pub(crate) names: Vec<u64>,
    pub(crate) starts: Vec<u32>,
}

impl Code {
    /// The bytes.
    #[must_use]
    pub fn bytecode(&self) -> &[u8] {
        &self.bytecode
    }

    /// The constant of an index; none where there is none. (The original panics.)
    #[must_use]
    pub fn constant(&self, index: u16) -> Option<u64> {
        lookups::constant(&self.constants, index.into())
    }

    /// The name of a local slot.
    #[must_use]
    pub fn local_name(&self, slot: u16) -> Option<StringId> {
        lookups::local_name(&self.names, slot.into()).map(StringId)
    }

    /// The location that holds for an offset: the last that was set at it or before it.
    #[must_use]
    pub fn location_for_offset(&self, offset: usize) -> Option<LocationEntry> {
        let [bytecode_offset, start, end, has_focus, focus_start, focus_end] =
            lookups::location_for_offset(&self.locations, offset)?.cells;
        let focus = CodeRange {
            start: focus_start,
            end: focus_end,
        };
        Some(LocationEntry {
            bytecode_offset,
            range: CodeRange { start, end },
            focus: (has_focus == 1).then_some(focus),
        })
    }

    /// The handler of an offset: that of the first entry which guards it. Entries are added from the innermost on.
    #[must_use]
    pub fn find_exception_handler(&self, offset: u32) -> Option<ExceptionEntry> {
        let [start, end, handler, depth, count, kind] =
            lookups::find_exception_handler(&self.exceptions, offset)?.cells;
        let kind = if kind == 0 {
            HandlerKind::Consuming
        } else {
            HandlerKind::Cleanup
        };
        // The builder takes a depth and a count of 16 bits.
        Some(ExceptionEntry::new(
            start,
            end,
            handler,
            depth as u16,
            count as u16,
            kind,
        ))
    }

    /// Where its regions start and with which depths: offset, depth, and so on.
    #[must_use]
    pub fn starts(&self) -> &[u32] {
        &self.starts
    }

    /// Its instructions.
    #[must_use]
    pub fn instructions(&self) -> Instructions<'_> {
        decoder::instructions(&self.bytecode)
    }

    /// Checks its depths from its starts.
    ///
    /// # Errors
    /// 23 where handlers were given starts at depths that do not agree with the paths to them. What the builder accepts
    /// without such starts, the checker accepts.
    pub fn check(&self) -> Result<Checked, Refusal> {
        checker::check(&self.bytecode, &self.starts)
    }
}

/// The source location of an instruction.
#[derive(Debug, Clone, Copy, PartialEq, Eq)]
pub struct LocationEntry {
    bytecode_offset: u32,
    range: CodeRange,
    focus: Option<CodeRange>,
}

impl LocationEntry {
    /// The offset from which on it holds.
    #[must_use]
    pub fn bytecode_offset(&self) -> u32 {
        self.bytecode_offset
    }

    /// The whole range.
    #[must_use]
    pub fn range(&self) -> CodeRange {
        self.range
    }

    /// The part of it that matters most, if one was given.
    #[must_use]
    pub fn focus(&self) -> Option<CodeRange> {
        self.focus
    }
}

/// Whether a handler takes the exception's value from the stack.
#[derive(Debug, Clone, Copy, PartialEq, Eq, Hash)]
pub enum HandlerKind {
    /// It does: `except` and `with`.
    Consuming = 0,
    /// It only raises again.
    Cleanup = 1,
}

/// A part of the code and the handler that guards it.
#[derive(Debug, Clone, Copy, PartialEq, Eq)]
pub struct ExceptionEntry {
    start: u32,
    end: u32,
    handler: u32,
    stack_depth: u16,
    exception_stack_count: u16,
    kind: HandlerKind,
}

impl ExceptionEntry {
    /// An entry of these numbers.
    #[must_use]
    pub fn new(
        start: u32,
        end: u32,
        handler: u32,
        stack_depth: u16,
        exception_stack_count: u16,
        kind: HandlerKind,
    ) -> Self {
        Self {
            start,
            end,
            handler,
            stack_depth,
            exception_stack_count,
            kind,
        }
    }

    /// Whether the exception's value is pushed before the handler runs.
    #[must_use]
    pub fn pushes_exception(&self) -> bool {
        self.kind == HandlerKind::Consuming
    }

    /// The handler's offset.
    #[must_use]
    pub fn handler(&self) -> u32 {
        self.handler
    }

    /// The depth to unwind the stack to.
    #[must_use]
    pub fn stack_depth(&self) -> u16 {
        self.stack_depth
    }

    /// How many exceptions were held where the guarded part is entered.
    #[must_use]
    pub fn exception_stack_count(&self) -> u16 {
        self.exception_stack_count
    }

    /// Whether an offset is in the guarded part.
    #[must_use]
    pub fn contains(&self, offset: u32) -> bool {
        (self.start..self.end).contains(&offset)
    }
}
