//! The library's exports as include/tokenfinch.h declares them, each behind a function that takes slices. Only this
//! file has unsafe code: it says to the library how long each slice is, and that is all the library has to be told
//! truly.

use crate::{ReadError, Refusal, Table};

mod c {
    unsafe extern "C" {
        pub safe fn tf_operand_shape(opcode: u8) -> u64;
        pub safe fn tf_stack_effect(opcode: u8, shape: u8, a: u16, b: u16, c: u8, names: u8) -> u64;
        pub safe fn tf_jump_taken_stack_effect(opcode: u8) -> u64;
        pub safe fn tf_makes_dead(opcode: u8) -> u64;
        pub safe fn tf_depth_after(depth: u16, opcode: u8, shape: u8, a: u16, b: u16, c: u8, names: u8) -> u64;
        pub safe fn tf_depth_taken(depth: u16, opcode: u8) -> u64;
        pub safe fn tf_instruction_size(opcode: u8, names: u8) -> u64;
        pub safe fn tf_assert_flags(comparison: u8) -> u8;
        pub safe fn tf_decode_assert_flags(flags: u8) -> u8;
        pub safe fn tf_fingerprint() -> u64;
        // Below, each pointer has as many elements behind it as the number after it says; `greatest` has one.
        pub fn tf_opcode_name(opcode: u8, out: *mut u8, room: usize) -> u64;
        pub fn tf_fnv1a(bytes: *const u8, length: usize) -> u64;
        pub fn tf_step(code: *const u8, length: usize, at: usize, out: *mut u64, room: usize) -> u64;
        pub fn tf_check(
            mode: u8,
            code: *const u8,
            length: usize,
            starts: *const u32,
            start_cells: usize,
            depths: *mut u32,
            room: usize,
            work: *mut u32,
            work_room: usize,
            greatest: *mut u32,
        ) -> u64;
        pub fn tf_explain(
            mode: u8,
            code: *const u8,
            length: usize,
            starts: *const u32,
            start_cells: usize,
            depths: *mut u32,
            room: usize,
            work: *mut u32,
            work_room: usize,
            greatest: *mut u32,
            told: *mut u64,
            told_room: usize,
        ) -> u64;
        pub fn tf_location_for_offset(
            rows: *const u32,
            length: usize,
            offset: usize,
            out: *mut u64,
            room: usize,
        ) -> u64;
        pub fn tf_find_exception_handler(
            rows: *const u32,
            length: usize,
            offset: u32,
            out: *mut u64,
            room: usize,
        ) -> u64;
        pub fn tf_list(
            code: *const u8,
            length: usize,
            from: usize,
            text: *mut u8,
            room: usize,
            told: *mut u64,
            told_room: usize,
        ) -> u64;
        pub fn tf_check_listing(
            code: *const u8,
            length: usize,
            depths: *const u32,
            cells: usize,
            from: usize,
            text: *mut u8,
            room: usize,
            told: *mut u64,
            told_room: usize,
        ) -> u64;
        pub fn tf_read_listing(text: *const u8, text_len: usize, code: *mut u8, code_len: usize) -> u64;
        pub fn tf_find_in_two(records: *const u32, length: usize, offset: u32, out: *mut u64, room: usize) -> u64;
        pub fn tf_constant(constants: *const u64, length: usize, index: usize, out: *mut u64, room: usize) -> u64;
        pub fn tf_local_name(names: *const u64, length: usize, slot: usize, out: *mut u64, room: usize) -> u64;

        pub fn tfb_new(depth: u32, state: *mut u64, cells: usize, starts: *mut u32, starts_room: usize) -> u64;
        pub fn tfb_set_location(
            start: u32,
            end: u32,
            has_focus: u8,
            focus_start: u32,
            focus_end: u32,
            state: *mut u64,
            cells: usize,
        ) -> u64;
        pub fn tfb_emit(
            call: u8,
            opcode: u8,
            a: u16,
            b: u32,
            c: u8,
            names: *const u16,
            count: usize,
            state: *mut u64,
            cells: usize,
            code: *mut u8,
            code_room: usize,
            locations: *mut u32,
            locations_room: usize,
        ) -> u64;
        pub fn tfb_emit_jump(
            opcode: u8,
            state: *mut u64,
            cells: usize,
            code: *mut u8,
            code_room: usize,
            locations: *mut u32,
            locations_room: usize,
            marks: *mut u32,
            marks_room: usize,
        ) -> u64;
        pub fn tfb_patch_jump(
            label: u64,
            state: *mut u64,
            cells: usize,
            code: *mut u8,
            code_room: usize,
            marks: *mut u32,
            marks_room: usize,
        ) -> u64;
        pub fn tfb_emit_jump_to(
            opcode: u8,
            target: u64,
            state: *mut u64,
            cells: usize,
            code: *mut u8,
            code_room: usize,
            locations: *mut u32,
            locations_room: usize,
            marks: *const u32,
            marks_room: usize,
        ) -> u64;
        pub fn tfb_current_jump_target(state: *mut u64, cells: usize, marks: *mut u32, marks_room: usize) -> u64;
        pub fn tfb_register_local_names(
            names: *const u32,
            count: usize,
            state: *mut u64,
            cells: usize,
            table: *mut u64,
            table_room: usize,
        ) -> u64;
        pub fn tfb_register_local_name(
            slot: u16,
            name: u32,
            state: *mut u64,
            cells: usize,
            table: *mut u64,
            table_room: usize,
        ) -> u64;
        pub fn tfb_add_const(
            value: u64,
            state: *mut u64,
            cells: usize,
            constants: *mut u64,
            constants_room: usize,
        ) -> u64;
        pub fn tfb_add_exception_entry(
            start: usize,
            end: usize,
            handler: usize,
            stack_depth: u16,
            exception_stack_count: u16,
            kind: u8,
            state: *mut u64,
            cells: usize,
            exceptions: *mut u32,
            exceptions_room: usize,
        ) -> u64;
        pub fn tfb_new_code_region(
            depth: u16,
            state: *mut u64,
            cells: usize,
            starts: *mut u32,
            starts_room: usize,
        ) -> u64;
        pub fn tfb_build(
            fill: u32,
            state: *mut u64,
            cells: usize,
            names: *mut u64,
            names_room: usize,
            marks: *const u32,
            marks_room: usize,
        ) -> u64;
        pub fn tfb_look(state: *const u64, cells: usize, out: *mut u64, room: usize) -> u64;
    }
}

pub use c::{tf_assert_flags, tf_decode_assert_flags, tf_fingerprint};

/// An answer as it crosses: the refusal's number in the upper half, 0 where the call was accepted; in the lower half
/// the value, or what the refusal names.
#[derive(Clone, Copy)]
pub struct Answer(u64);

impl Answer {
    /// The value's 32 bits.
    pub fn value(self) -> Result<u32, Refusal> {
        let [low, number] = [self.0 as u32, (self.0 >> 32) as u32];
        if number == 0 {
            Ok(low)
        } else {
            Err(Refusal::of(number, low))
        }
    }

    /// The value of a call that reads code, whose 1 and 22 name an offset: exact, as checked code is below 4 GiB.
    pub fn read(self) -> Result<u32, Refusal> {
        self.value().map_err(|refusal| refusal.read_at(self.0 as u32 as usize))
    }

    /// The value of a call that reads a text into code: each of its refusals names a line, 18 too.
    pub fn read_lines(self) -> Result<u32, ReadError> {
        let line = self.0 as u32 as usize;
        self.value().map_err(|refusal| match refusal {
            Refusal::Full(_) => ReadError::new(Refusal::Full(Table::Code), line),
            other => ReadError::new(other, line),
        })
    }

    /// The value in two's complement.
    pub fn signed(self) -> Result<i32, Refusal> {
        self.value().map(u32::cast_signed)
    }

    /// Nothing but whether the call was accepted.
    pub fn accepted(self) -> Result<(), Refusal> {
        self.value().map(|_| ())
    }
}

pub fn operand_shape(opcode: u8) -> Answer {
    Answer(c::tf_operand_shape(opcode))
}

pub fn stack_effect(opcode: u8, shape: u8, a: u16, b: u16, c: u8, names: u8) -> Answer {
    Answer(c::tf_stack_effect(opcode, shape, a, b, c, names))
}

pub fn jump_taken_stack_effect(opcode: u8) -> Answer {
    Answer(c::tf_jump_taken_stack_effect(opcode))
}

pub fn makes_dead(opcode: u8) -> Answer {
    Answer(c::tf_makes_dead(opcode))
}

pub fn depth_after(depth: u16, opcode: u8, shape: u8, a: u16, b: u16, c: u8, names: u8) -> Answer {
    Answer(c::tf_depth_after(depth, opcode, shape, a, b, c, names))
}

pub fn depth_taken(depth: u16, opcode: u8) -> Answer {
    Answer(c::tf_depth_taken(depth, opcode))
}

pub fn instruction_size(opcode: u8, names: u8) -> Answer {
    Answer(c::tf_instruction_size(opcode, names))
}

// SAFETY, for each block below: every pointer comes from a slice, together with that slice's own length, or is a
// reference; and no two of those that one call is lent overlap where one of them is `&mut`.

pub fn opcode_name(opcode: u8, out: &mut [u8]) -> Answer {
    Answer(unsafe { c::tf_opcode_name(opcode, out.as_mut_ptr(), out.len()) })
}

pub fn fnv1a(bytes: &[u8]) -> u64 {
    unsafe { c::tf_fnv1a(bytes.as_ptr(), bytes.len()) }
}

pub fn step(code: &[u8], at: usize, out: &mut [u64]) -> Answer {
    Answer(unsafe { c::tf_step(code.as_ptr(), code.len(), at, out.as_mut_ptr(), out.len()) })
}

pub fn check(
    mode: u8,
    code: &[u8],
    starts: &[u32],
    depths: &mut [u32],
    work: &mut [u32],
    greatest: &mut u32,
) -> Answer {
    Answer(unsafe {
        c::tf_check(
            mode,
            code.as_ptr(),
            code.len(),
            starts.as_ptr(),
            starts.len(),
            depths.as_mut_ptr(),
            depths.len(),
            work.as_mut_ptr(),
            work.len(),
            greatest,
        )
    })
}

pub fn explain(
    mode: u8,
    code: &[u8],
    starts: &[u32],
    depths: &mut [u32],
    work: &mut [u32],
    greatest: &mut u32,
    told: &mut [u64],
) -> Answer {
    Answer(unsafe {
        c::tf_explain(
            mode,
            code.as_ptr(),
            code.len(),
            starts.as_ptr(),
            starts.len(),
            depths.as_mut_ptr(),
            depths.len(),
            work.as_mut_ptr(),
            work.len(),
            greatest,
            told.as_mut_ptr(),
            told.len(),
        )
    })
}

pub fn location_for_offset(rows: &[u32], offset: usize, out: &mut [u64]) -> Answer {
    Answer(unsafe { c::tf_location_for_offset(rows.as_ptr(), rows.len(), offset, out.as_mut_ptr(), out.len()) })
}

pub fn find_exception_handler(rows: &[u32], offset: u32, out: &mut [u64]) -> Answer {
    Answer(unsafe { c::tf_find_exception_handler(rows.as_ptr(), rows.len(), offset, out.as_mut_ptr(), out.len()) })
}

pub fn list(code: &[u8], from: usize, text: &mut [u8], told: &mut [u64]) -> Answer {
    Answer(unsafe {
        c::tf_list(
            code.as_ptr(),
            code.len(),
            from,
            text.as_mut_ptr(),
            text.len(),
            told.as_mut_ptr(),
            told.len(),
        )
    })
}

pub fn read_listing(text: &[u8], code: &mut [u8]) -> Answer {
    Answer(unsafe { c::tf_read_listing(text.as_ptr(), text.len(), code.as_mut_ptr(), code.len()) })
}

pub fn check_listing(code: &[u8], depths: &[u32], from: usize, text: &mut [u8], told: &mut [u64]) -> Answer {
    Answer(unsafe {
        c::tf_check_listing(
            code.as_ptr(),
            code.len(),
            depths.as_ptr(),
            depths.len(),
            from,
            text.as_mut_ptr(),
            text.len(),
            told.as_mut_ptr(),
            told.len(),
        )
    })
}

pub fn find_in_two(offset: u32, records: &[u32], out: &mut [u64]) -> Answer {
    Answer(unsafe { c::tf_find_in_two(records.as_ptr(), records.len(), offset, out.as_mut_ptr(), out.len()) })
}

pub fn constant(constants: &[u64], index: usize, out: &mut [u64]) -> Answer {
    Answer(unsafe { c::tf_constant(constants.as_ptr(), constants.len(), index, out.as_mut_ptr(), out.len()) })
}

pub fn local_name(names: &[u64], slot: usize, out: &mut [u64]) -> Answer {
    Answer(unsafe { c::tf_local_name(names.as_ptr(), names.len(), slot, out.as_mut_ptr(), out.len()) })
}

pub fn new(depth: u32, state: &mut [u64], starts: &mut [u32]) -> Answer {
    Answer(unsafe {
        c::tfb_new(
            depth,
            state.as_mut_ptr(),
            state.len(),
            starts.as_mut_ptr(),
            starts.len(),
        )
    })
}

pub fn set_location(range: [u32; 2], has_focus: u8, focus: [u32; 2], state: &mut [u64]) -> Answer {
    Answer(unsafe {
        c::tfb_set_location(
            range[0],
            range[1],
            has_focus,
            focus[0],
            focus[1],
            state.as_mut_ptr(),
            state.len(),
        )
    })
}

/// The numbers of an emission, as `tfb_emit` takes them.
pub struct Numbers<'a> {
    pub call: u8,
    pub opcode: u8,
    pub a: u16,
    pub b: u32,
    pub c: u8,
    pub names: &'a [u16],
}

pub fn emit(numbers: &Numbers<'_>, state: &mut [u64], code: &mut [u8], locations: &mut [u32]) -> Answer {
    let &Numbers {
        call,
        opcode,
        a,
        b,
        c,
        names,
    } = numbers;
    Answer(unsafe {
        c::tfb_emit(
            call,
            opcode,
            a,
            b,
            c,
            names.as_ptr(),
            names.len(),
            state.as_mut_ptr(),
            state.len(),
            code.as_mut_ptr(),
            code.len(),
            locations.as_mut_ptr(),
            locations.len(),
        )
    })
}

pub fn emit_jump(opcode: u8, state: &mut [u64], code: &mut [u8], locations: &mut [u32], marks: &mut [u32]) -> Answer {
    Answer(unsafe {
        c::tfb_emit_jump(
            opcode,
            state.as_mut_ptr(),
            state.len(),
            code.as_mut_ptr(),
            code.len(),
            locations.as_mut_ptr(),
            locations.len(),
            marks.as_mut_ptr(),
            marks.len(),
        )
    })
}

pub fn patch_jump(label: u64, state: &mut [u64], code: &mut [u8], marks: &mut [u32]) -> Answer {
    Answer(unsafe {
        c::tfb_patch_jump(
            label,
            state.as_mut_ptr(),
            state.len(),
            code.as_mut_ptr(),
            code.len(),
            marks.as_mut_ptr(),
            marks.len(),
        )
    })
}

pub fn emit_jump_to(
    opcode: u8,
    target: u64,
    state: &mut [u64],
    code: &mut [u8],
    locations: &mut [u32],
    marks: &[u32],
) -> Answer {
    Answer(unsafe {
        c::tfb_emit_jump_to(
            opcode,
            target,
            state.as_mut_ptr(),
            state.len(),
            code.as_mut_ptr(),
            code.len(),
            locations.as_mut_ptr(),
            locations.len(),
            marks.as_ptr(),
            marks.len(),
        )
    })
}

pub fn current_jump_target(state: &mut [u64], marks: &mut [u32]) -> Answer {
    Answer(unsafe { c::tfb_current_jump_target(state.as_mut_ptr(), state.len(), marks.as_mut_ptr(), marks.len()) })
}

pub fn register_local_names(names: &[u32], state: &mut [u64], table: &mut [u64]) -> Answer {
    Answer(unsafe {
        c::tfb_register_local_names(
            names.as_ptr(),
            names.len(),
            state.as_mut_ptr(),
            state.len(),
            table.as_mut_ptr(),
            table.len(),
        )
    })
}

pub fn register_local_name(slot: u16, name: u32, state: &mut [u64], table: &mut [u64]) -> Answer {
    Answer(unsafe {
        c::tfb_register_local_name(
            slot,
            name,
            state.as_mut_ptr(),
            state.len(),
            table.as_mut_ptr(),
            table.len(),
        )
    })
}

pub fn add_const(value: u64, state: &mut [u64], constants: &mut [u64]) -> Answer {
    Answer(unsafe {
        c::tfb_add_const(
            value,
            state.as_mut_ptr(),
            state.len(),
            constants.as_mut_ptr(),
            constants.len(),
        )
    })
}

pub fn add_exception_entry(
    [start, end, handler]: [usize; 3],
    stack_depth: u16,
    exception_stack_count: u16,
    kind: u8,
    state: &mut [u64],
    exceptions: &mut [u32],
) -> Answer {
    Answer(unsafe {
        c::tfb_add_exception_entry(
            start,
            end,
            handler,
            stack_depth,
            exception_stack_count,
            kind,
            state.as_mut_ptr(),
            state.len(),
            exceptions.as_mut_ptr(),
            exceptions.len(),
        )
    })
}

pub fn new_code_region(depth: u16, state: &mut [u64], starts: &mut [u32]) -> Answer {
    Answer(unsafe {
        c::tfb_new_code_region(
            depth,
            state.as_mut_ptr(),
            state.len(),
            starts.as_mut_ptr(),
            starts.len(),
        )
    })
}

pub fn build(fill: u32, state: &mut [u64], names: &mut [u64], marks: &[u32]) -> Answer {
    Answer(unsafe {
        c::tfb_build(
            fill,
            state.as_mut_ptr(),
            state.len(),
            names.as_mut_ptr(),
            names.len(),
            marks.as_ptr(),
            marks.len(),
        )
    })
}

pub fn look(state: &[u64], out: &mut [u64]) -> Answer {
    Answer(unsafe { c::tfb_look(state.as_ptr(), state.len(), out.as_mut_ptr(), out.len()) })
}
