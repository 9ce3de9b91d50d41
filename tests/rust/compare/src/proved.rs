//! The proved library, as include/tokenfinch.h declares it.

use std::fmt;

use crate::operand::Fields;

mod c {
    unsafe extern "C" {
        pub safe fn tf_operand_shape(opcode: u8) -> u64;
        pub safe fn tf_stack_effect(opcode: u8, shape: u8, a: u16, b: u16, c: u8, names: u8) -> u64;
        pub safe fn tf_jump_taken_stack_effect(opcode: u8) -> u64;
        pub safe fn tf_makes_dead(opcode: u8) -> u64;
        pub safe fn tf_depth_after(depth: u16, opcode: u8, shape: u8, a: u16, b: u16, c: u8, names: u8) -> u64;
        pub safe fn tf_depth_taken(depth: u16, opcode: u8) -> u64;
        pub safe fn tf_instruction_size(opcode: u8, names: u8) -> u64;
        pub safe fn tf_assert_flags(comparison: u8) -> u8;
        pub safe fn tf_decode_assert_flags(flags: u8) -> u8;
        pub safe fn tf_fingerprint() -> u64;
        /// `out` has `room` bytes that can be written; it may be null where `room` is 0.
        pub unsafe fn tf_opcode_name(opcode: u8, out: *mut u8, room: usize) -> u64;
        /// `bytes` may be null where `length` is 0.
        pub unsafe fn tf_fnv1a(bytes: *const u8, length: usize) -> u64;
        // Below, each pointer has as many elements behind it as the number after it says; `greatest` has one.
        pub unsafe fn tf_step(code: *const u8, length: usize, at: usize, out: *mut u64, room: usize) -> u64;
        pub unsafe fn tf_write(
            out: *mut u8,
            room: usize,
            opcode: u8,
            shape: u8,
            a: u16,
            b: u16,
            c: u8,
            names: *const u16,
            count: usize,
        ) -> u64;
        pub unsafe fn tf_check(
            mode: u8,
            code: *const u8,
            length: usize,
            starts: *const u32,
            start_cells: usize,
            depths: *mut u32,
            cells: usize,
            work: *mut u32,
            work_cells: usize,
            greatest: *mut u32,
        ) -> u64;
        pub unsafe fn tf_explain(
            mode: u8,
            code: *const u8,
            length: usize,
            starts: *const u32,
            start_cells: usize,
            depths: *mut u32,
            cells: usize,
            work: *mut u32,
            work_cells: usize,
            greatest: *mut u32,
            told: *mut u64,
            told_cells: usize,
        ) -> u64;
        pub unsafe fn tf_read_listing(text: *const u8, text_len: usize, code: *mut u8, code_len: usize) -> u64;
        pub unsafe fn tf_location_for_offset(
            rows: *const u32,
            length: usize,
            offset: usize,
            out: *mut u64,
            room: usize,
        ) -> u64;
        pub unsafe fn tf_find_exception_handler(
            rows: *const u32,
            length: usize,
            offset: u32,
            out: *mut u64,
            room: usize,
        ) -> u64;
        pub unsafe fn tf_constant(
            constants: *const u64,
            length: usize,
            index: usize,
            out: *mut u64,
            room: usize,
        ) -> u64;
        pub unsafe fn tf_local_name(names: *const u64, length: usize, slot: usize, out: *mut u64, room: usize) -> u64;
    }
}

/// An answer as it crosses: the refusal's number in the upper half, the value or what the refusal names in the lower.
#[derive(Clone, Copy, PartialEq, Eq)]
pub struct Answer(u64);

impl Answer {
    pub fn accepted(value: i32) -> Self {
        Self(u64::from(value.cast_unsigned()))
    }

    pub fn refused(number: u32) -> Self {
        Self::naming(number, 0)
    }

    /// A refusal and what it names: an offset, or the number of a table.
    pub fn naming(number: u32, named: u32) -> Self {
        Self(u64::from(number) << 32 | u64::from(named))
    }

    /// The refusal's number; 0 where it is none.
    pub fn refusal(self) -> u32 {
        (self.0 >> 32) as u32
    }

    /// 18 for a lent text or lent cells.
    pub fn no_room() -> Self {
        Self::naming(18, 8)
    }
}

impl fmt::Debug for Answer {
    fn fmt(&self, f: &mut fmt::Formatter<'_>) -> fmt::Result {
        match (self.0 >> 32, (self.0 as u32).cast_signed()) {
            (0, value) => write!(f, "accepted {value}"),
            (number, 0) => write!(f, "refused {number}"),
            (number, named) => write!(f, "refused {number} about {named}"),
        }
    }
}

pub fn operand_shape(opcode: u8) -> Answer {
    Answer(c::tf_operand_shape(opcode))
}

pub fn stack_effect(opcode: u8, shape: u8, fields: Fields) -> Answer {
    let Fields { a, b, c, names } = fields;
    Answer(c::tf_stack_effect(opcode, shape, a, b, c, names))
}

pub fn jump_taken_stack_effect(opcode: u8) -> Answer {
    Answer(c::tf_jump_taken_stack_effect(opcode))
}

pub fn makes_dead(opcode: u8) -> Answer {
    Answer(c::tf_makes_dead(opcode))
}

pub fn depth_after(depth: u16, opcode: u8, shape: u8, fields: Fields) -> Answer {
    let Fields { a, b, c, names } = fields;
    Answer(c::tf_depth_after(depth, opcode, shape, a, b, c, names))
}

pub fn depth_taken(depth: u16, opcode: u8) -> Answer {
    Answer(c::tf_depth_taken(depth, opcode))
}

pub fn instruction_size(opcode: u8, names: u8) -> Answer {
    Answer(c::tf_instruction_size(opcode, names))
}

pub fn opcode_name(opcode: u8, out: &mut [u8]) -> Answer {
    // SAFETY: the slice is as long as is said.
    Answer(unsafe { c::tf_opcode_name(opcode, out.as_mut_ptr(), out.len()) })
}

/// The name into no room at all, by a null pointer.
pub fn opcode_name_nowhere(opcode: u8) -> Answer {
    // SAFETY: the header takes null for no room.
    Answer(unsafe { c::tf_opcode_name(opcode, std::ptr::null_mut(), 0) })
}

pub fn assert_flags(comparison: u8) -> u8 {
    c::tf_assert_flags(comparison)
}

pub fn decode_assert_flags(flags: u8) -> u8 {
    c::tf_decode_assert_flags(flags)
}

pub fn fingerprint() -> u64 {
    c::tf_fingerprint()
}

pub fn fnv1a(bytes: &[u8]) -> u64 {
    // SAFETY: the slice is as long as is said.
    unsafe { c::tf_fnv1a(bytes.as_ptr(), bytes.len()) }
}

/// The hash of no bytes, by a null pointer.
pub fn fnv1a_of_nothing() -> u64 {
    // SAFETY: the header takes null for no bytes.
    unsafe { c::tf_fnv1a(std::ptr::null(), 0) }
}

pub fn step(code: &[u8], at: usize, out: &mut [u64]) -> Answer {
    // SAFETY: both slices are as long as is said.
    Answer(unsafe { c::tf_step(code.as_ptr(), code.len(), at, out.as_mut_ptr(), out.len()) })
}

/// The fields' own count of names is not looked at: the names are given.
pub fn write(out: &mut [u8], opcode: u8, shape: u8, fields: Fields, names: &[u16]) -> Answer {
    let Fields { a, b, c, .. } = fields;
    // SAFETY: both slices are as long as is said.
    Answer(unsafe {
        c::tf_write(
            out.as_mut_ptr(),
            out.len(),
            opcode,
            shape,
            a,
            b,
            c,
            names.as_ptr(),
            names.len(),
        )
    })
}

/// What a check is lent beside the code and its starts.
#[derive(Clone, Debug, PartialEq)]
pub struct Lent {
    pub depths: Vec<u32>,
    pub work: Vec<u32>,
    pub greatest: u32,
}

impl Lent {
    /// Just as many cells as are asked for.
    pub fn just(code: &[u8]) -> Self {
        let cells = vec![0; code.len() + 1];
        Self {
            depths: cells.clone(),
            work: cells,
            greatest: u32::MAX,
        }
    }
}

pub fn check(mode: u8, code: &[u8], starts: &[u32], lent: &mut Lent) -> Answer {
    let Lent { depths, work, greatest } = lent;
    // SAFETY: the four slices are as long as is said.
    Answer(unsafe {
        c::tf_check(
            mode,
            code.as_ptr(),
            code.len(),
            starts.as_ptr(),
            starts.len(),
            depths.as_mut_ptr(),
            depths.len(),
            work.as_mut_ptr(),
            work.len(),
            greatest,
        )
    })
}

pub fn explain(mode: u8, code: &[u8], starts: &[u32], lent: &mut Lent, told: &mut [u64]) -> Answer {
    let Lent { depths, work, greatest } = lent;
    // SAFETY: the five slices are as long as is said.
    Answer(unsafe {
        c::tf_explain(
            mode,
            code.as_ptr(),
            code.len(),
            starts.as_ptr(),
            starts.len(),
            depths.as_mut_ptr(),
            depths.len(),
            work.as_mut_ptr(),
            work.len(),
            greatest,
            told.as_mut_ptr(),
            told.len(),
        )
    })
}

pub fn read_listing(text: &[u8], code: &mut [u8]) -> Answer {
    // SAFETY: both slices are as long as is said.
    Answer(unsafe { c::tf_read_listing(text.as_ptr(), text.len(), code.as_mut_ptr(), code.len()) })
}

pub fn location_for_offset(rows: &[u32], offset: usize, out: &mut [u64]) -> Answer {
    // SAFETY: both slices are as long as is said.
    Answer(unsafe { c::tf_location_for_offset(rows.as_ptr(), rows.len(), offset, out.as_mut_ptr(), out.len()) })
}

pub fn find_exception_handler(rows: &[u32], offset: u32, out: &mut [u64]) -> Answer {
    // SAFETY: both slices are as long as is said.
    Answer(unsafe { c::tf_find_exception_handler(rows.as_ptr(), rows.len(), offset, out.as_mut_ptr(), out.len()) })
}

pub fn constant(constants: &[u64], index: usize, out: &mut [u64]) -> Answer {
    // SAFETY: both slices are as long as is said.
    Answer(unsafe { c::tf_constant(constants.as_ptr(), constants.len(), index, out.as_mut_ptr(), out.len()) })
}

pub fn local_name(names: &[u64], slot: usize, out: &mut [u64]) -> Answer {
    // SAFETY: both slices are as long as is said.
    Answer(unsafe { c::tf_local_name(names.as_ptr(), names.len(), slot, out.as_mut_ptr(), out.len()) })
}
