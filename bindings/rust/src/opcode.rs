//! The opcodes, in op.rs's names and numbers and with the first lines of its comments (NOTICE has its licence), and
//! what the proved rules say of each.

use crate::{
    Refusal,
    operand::{Operand, Shape},
    rules,
};

/// What an instruction does. Its number is its byte in the code.
#[repr(u8)]
#[derive(Debug, Clone, Copy, PartialEq, Eq, Hash)]
pub enum Opcode {
    /// Discard top of stack.
    Pop = 0,
    /// Duplicate top of stack.
    Dup = 1,
    /// Swap top two: [a, b] -> [b, a].
    Rot2 = 2,
    /// Rotate top three: [a, b, c] -> [c, a, b].
    Rot3 = 3,
    /// Push constant from pool. Operand: u16 const_id.
    LoadConst = 4,
    /// Push None.
    LoadNone = 5,
    /// Push True.
    LoadTrue = 6,
    /// Push False.
    LoadFalse = 7,
    /// Push small integer (-128 to 127). Operand: i8.
    LoadSmallInt = 8,
    /// Push local slot 0 (often 'self').
    LoadLocal0 = 9,
    /// Push local slot 1.
    LoadLocal1 = 10,
    /// Push local slot 2.
    LoadLocal2 = 11,
    /// Push local slot 3.
    LoadLocal3 = 12,
    /// Push local variable. Operand: u8 slot.
    LoadLocal = 13,
    /// Push local (wide, slot > 255). Operand: u16 slot.
    LoadLocalW = 14,
    /// Pop and store to local. Operand: u8 slot.
    StoreLocal = 15,
    /// Store local (wide). Operand: u16 slot.
    StoreLocalW = 16,
    /// Push from global namespace. Operand: u16 slot.
    LoadGlobal = 17,
    /// Store to global. Operand: u16 slot.
    StoreGlobal = 18,
    /// Load from closure cell. Operand: u16 slot.
    LoadCell = 19,
    /// Store to closure cell. Operand: u16 slot.
    StoreCell = 20,
    /// Delete local variable. Operand: u8 slot.
    DeleteLocal = 21,
    /// Load global in call context: pushes an external function for undefined names instead of yielding
    /// `NameLookup`. Operands: u16 slot, u16 name_id.
    LoadGlobalCallable = 22,
    /// Add: a + b.
    BinaryAdd = 23,
    /// Subtract: a - b.
    BinarySub = 24,
    /// Multiply: a * b.
    BinaryMul = 25,
    /// Divide: a / b.
    BinaryDiv = 26,
    /// Floor divide: a // b.
    BinaryFloorDiv = 27,
    /// Modulo: a % b.
    BinaryMod = 28,
    /// Power: a ** b.
    BinaryPow = 29,
    /// Bitwise AND: a & b.
    BinaryAnd = 30,
    /// Bitwise OR: a | b.
    BinaryOr = 31,
    /// Bitwise XOR: a ^ b.
    BinaryXor = 32,
    /// Left shift: a << b.
    BinaryLShift = 33,
    /// Right shift: a >> b.
    BinaryRShift = 34,
    /// Matrix multiply: a @ b.
    BinaryMatMul = 35,
    /// Equal: a == b.
    CompareEq = 36,
    /// Not equal: a != b.
    CompareNe = 37,
    /// Less than: a < b.
    CompareLt = 38,
    /// Less than or equal: a <= b.
    CompareLe = 39,
    /// Greater than: a > b.
    CompareGt = 40,
    /// Greater than or equal: a >= b.
    CompareGe = 41,
    /// Identity: a is b.
    CompareIs = 42,
    /// Not identity: a is not b.
    CompareIsNot = 43,
    /// Membership: a in b.
    CompareIn = 44,
    /// Not membership: a not in b.
    CompareNotIn = 45,
    /// Logical not: not a.
    UnaryNot = 46,
    /// Negation: -a.
    UnaryNeg = 47,
    /// Positive: +a.
    UnaryPos = 48,
    /// Bitwise invert: ~a.
    UnaryInvert = 49,
    /// In-place add: a += b.
    InplaceAdd = 50,
    /// In-place subtract: a -= b.
    InplaceSub = 51,
    /// In-place multiply: a *= b.
    InplaceMul = 52,
    /// In-place divide: a /= b.
    InplaceDiv = 53,
    /// In-place floor divide: a //= b.
    InplaceFloorDiv = 54,
    /// In-place modulo: a %= b.
    InplaceMod = 55,
    /// In-place power: a **= b.
    InplacePow = 56,
    /// In-place bitwise AND: a &= b.
    InplaceAnd = 57,
    /// In-place bitwise OR: a |= b.
    InplaceOr = 58,
    /// In-place bitwise XOR: a ^= b.
    InplaceXor = 59,
    /// In-place left shift: a <<= b.
    InplaceLShift = 60,
    /// In-place right shift: a >>= b.
    InplaceRShift = 61,
    /// Pop n items, build list. Operand: u16 count.
    BuildList = 62,
    /// Pop n items, build tuple. Operand: u16 count.
    BuildTuple = 63,
    /// Pop 2n items (k/v pairs), build dict. Operand: u16 count.
    BuildDict = 64,
    /// Pop n items, build set. Operand: u16 count.
    BuildSet = 65,
    /// Format a value for f-string interpolation. Operand: u8 flags.
    FormatValue = 66,
    /// Pop n parts, concatenate for f-string. Operand: u16 count.
    BuildFString = 67,
    /// Build a slice object from stack values. No operand.
    BuildSlice = 68,
    /// Pop iterable, pop list, extend list with iterable items.
    ListExtend = 69,
    /// Pop TOS (list), push tuple containing the same elements.
    ListToTuple = 70,
    /// Pop mapping, pop dict, update dict with mapping. Operand: u16 func_name_id.
    DictMerge = 71,
    /// Append TOS to list for comprehension. Operand: u8 depth (number of iterators).
    ListAppend = 72,
    /// Add TOS to set for comprehension. Operand: u8 depth (number of iterators).
    SetAdd = 73,
    /// Set `dict[key] = value` for comprehension. Operand: u8 depth (number of iterators).
    DictSetItem = 74,
    /// `a[b]`: pop index, pop obj, push result.
    BinarySubscr = 75,
    /// `a[b] = c`: pop value, pop index, pop obj.
    StoreSubscr = 76,
    /// Pop obj, push obj.attr. Operand: u16 name_id.
    LoadAttr = 77,
    /// Pop module, push module.attr for `from ... import`. Operand: u16 name_id.
    LoadAttrImport = 78,
    /// Pop value, pop obj, set obj.attr. Operand: u16 name_id.
    StoreAttr = 79,
    /// Call TOS with n positional args. Operand: u8 arg_count.
    CallFunction = 80,
    /// Call a builtin function directly. Operands: u8 builtin_id, u8 arg_count.
    CallBuiltinFunction = 81,
    /// Call a builtin type constructor directly. Operands: u8 type_id, u8 arg_count.
    CallBuiltinType = 82,
    /// Call with positional and keyword args.
    CallFunctionKw = 83,
    /// Call attribute on object. Operands: u16 name_id, u8 arg_count.
    CallAttr = 84,
    /// Call attribute with keyword args. Operands: u16 name_id, u8 pos_count, u8 kw_count, then kw_count u16 name
    /// indices.
    CallAttrKw = 85,
    /// Call a defined function with *args tuple and **kwargs dict. Operand: u8 flags.
    CallFunctionExtended = 86,
    /// Call attribute with *args tuple and **kwargs dict. Operands: u16 name_id, u8 flags.
    CallAttrExtended = 87,
    /// Unconditional relative jump. Operand: i16 offset.
    Jump = 88,
    /// Jump if TOS truthy, always pop. Operand: i16 offset.
    JumpIfTrue = 89,
    /// Jump if TOS falsy, always pop. Operand: i16 offset.
    JumpIfFalse = 90,
    /// Jump if TOS truthy (keep), else pop. Operand: i16 offset.
    JumpIfTrueOrPop = 91,
    /// Jump if TOS falsy (keep), else pop. Operand: i16 offset.
    JumpIfFalseOrPop = 92,
    /// Convert TOS to iterator.
    GetIter = 93,
    /// Advance iterator or jump to end. Operand: i16 offset.
    ForIter = 94,
    /// Create function object. Operand: u16 func_id.
    MakeFunction = 95,
    /// Create closure. Operands: u16 func_id, u8 cell_count.
    MakeClosure = 96,
    /// Raise TOS as exception.
    Raise = 97,
    /// Re-raise current exception (bare `raise`).
    Reraise = 98,
    /// Clear current_exception when exiting except block.
    ClearException = 99,
    /// Check if exception matches type for except clause.
    CheckExcMatch = 100,
    /// Return TOS from function.
    ReturnValue = 101,
    /// Await the TOS value.
    Await = 102,
    /// Unpack TOS into n values. Operand: u8 count.
    UnpackSequence = 103,
    /// Unpack with *rest. Operands: u8 before, u8 after.
    UnpackEx = 104,
    /// No operation (for patching/alignment).
    Nop = 105,
    /// Load a top-level module. Operand: u16 module-name StringId. Pushes a built-in module or suspends with an
    /// import OS call for the host's value.
    LoadModule = 106,
    /// Pop a module, push its submodule. Operands: u16 attribute ID, u16 dotted-path ID. Missing submodules raise
    /// `ModuleNotFoundError`; built-ins add "is not a package". Saves the path as the frame's `import_from_module`
    /// for subsequent `LoadAttrImport`s.
    LoadSubmodule = 107,
    /// Duplicate the top two stack values, preserving order: `[a, b] -> [a, b, a, b]`.
    Dup2 = 108,
    /// Delete global variable (set to Undefined). Operand: u16 slot.
    DeleteGlobal = 109,
    /// Pop a mapping, silently merge into the dict at `depth`. Operand: u8 depth.
    DictUpdate = 110,
    /// Pop an iterable, add all items to set at `depth`. Operand: u8 depth.
    SetExtend = 111,
    /// Enter a context manager: call `__enter__` on TOS, push the result, keep the context manager underneath for
    /// the eventual `__exit__` call.
    BeforeWith = 112,
    /// Normal exit from a `with` block: call `__exit__(None, None, None)` on TOS, pop the context manager, and push
    /// the result of the call.
    WithExit = 113,
    /// Exception path of a `with` block: call `__exit__(type(exc), exc, None)` and push the truthiness of the
    /// result so the compiler can branch on whether to suppress the exception.
    WithExceptStart = 114,
    /// Move the value at `TOS - n` to TOS, shifting items above it down by one. Operand: u8 n.
    LiftToTop = 115,
    /// Raise `UnboundLocalError: cannot access local variable 'NAME' where it is not associated with a value`.
    /// Operand: u16 name_id.
    RaiseUnboundLocal = 116,
    /// Method-call variant of `DictMerge`: same stack effect, same duplicate-key semantics, but the error wording
    /// is qualified with the receiver's Python type — e.g. `list.sort()` instead of bare `sort()`.
    MethodDictMerge = 117,
    /// Fused bare `assert`: stack [..., test] -> [...], or with `ASSERT_CMP_FLAG` [..., lhs, rhs] -> [...]. Falls
    /// through on success; failures raise `AssertionError` with the operand repr(s), except literal `False` which
    /// has no detail. Comparison errors match `Compare*`.
    Assert = 118,
    /// Raise for failed `assert test, msg`: stack [..., test, msg] -> raises, or with `ASSERT_CMP_FLAG` [..., lhs,
    /// rhs, msg] -> raises. The message comes first, with introspected detail appended when available.
    AssertFailed = 119,
    /// Allocate a closure cell initialized to `Undefined` and push its reference.
    BuildCell = 120,
    /// Unbind a closure cell's contents (CPython's `DELETE_DEREF`): later loads raise the free-variable
    /// `NameError`. Emitted by the implicit cleanup of a captured `except ... as` target. Operand: u16 slot.
    DeleteCell = 121,
    /// Push a name resolved at runtime through the frame's namespace: locals dict → globals (slot array or dict) →
    /// builtins → module dunders and host lookup (slot globals only) → `NameError`. Operands: u16 slot, u16
    /// name_id, u8 flags (`NAME_*`). The slot is the session global slot for `name_id`, so with slot globals the
    /// tail is exactly `LoadGlobal` / `LoadGlobalCallable`; unused with dict globals.
    LoadName = 122,
    /// Pop and bind a name through the frame's namespace. Operands as `LoadName`.
    StoreName = 123,
    /// Unbind a name through the frame's namespace; `NameError` if absent. Operands as `LoadName`.
    DeleteName = 124,
    /// Shape test for sequence and mapping patterns: `[subject] -> [subject, bool]`. Operands: u16 length, u8 flags
    /// (`MATCH_SHAPE_MAPPING`, `MATCH_SHAPE_MIN_LEN`).
    MatchShape = 125,
    /// Mapping-pattern key lookup. Operand: u8 mode. `MATCH_KEYS_VALUES`: `[subject, keys] -> [subject, keys,
    /// values_or_None, bool]`; `MATCH_KEYS_REST`: `[subject, keys] -> [rest_dict]`.
    MatchKeys = 126,
    /// Class-pattern check: `[subject, cls, kwd_names] -> [subject, cls, names_or_None, bool]`, where `names` are
    /// the attributes the sub-patterns read (`None` entries stand for the subject itself). Operand: u8 count of
    /// positional sub-patterns, resolved via `__match_args__`.
    MatchClass = 127,
    /// Reads one class-pattern attribute: `[subject, cls, names] -> [subject, cls, names, value, bool]`. Operand:
    /// u8 index into `names`. May suspend for a host lookup.
    MatchAttr = 128,
    /// Move TOS beneath the `n` items below it: `[a, b, c, v]` with `n = 3` becomes `[v, a, b, c]`. Operand: u8 n.
    /// The inverse of `LiftToTop`; the pattern compiler uses it to park a capture under the pattern's temporaries.
    SinkTop = 129,
    /// `raise exc from cause`: stack `[exc, cause] -> []`. The cause becomes the raised exception's `__cause__` and
    /// suppresses its `__context__`.
    RaiseFrom = 130,
}

impl Opcode {
    /// All of them; an opcode stands at its own number.
    #[rustfmt::skip]
    pub const ALL: [Self; 131] = {
        use Opcode::*;
        [
            Pop, Dup, Rot2, Rot3, LoadConst, LoadNone, LoadTrue, LoadFalse, LoadSmallInt, LoadLocal0, LoadLocal1,
            LoadLocal2, LoadLocal3, LoadLocal, LoadLocalW, StoreLocal, StoreLocalW, LoadGlobal, StoreGlobal, LoadCell,
            StoreCell, DeleteLocal, LoadGlobalCallable, BinaryAdd, BinarySub, BinaryMul, BinaryDiv, BinaryFloorDiv,
            BinaryMod, BinaryPow, BinaryAnd, BinaryOr, BinaryXor, BinaryLShift, BinaryRShift, BinaryMatMul, CompareEq,
            CompareNe, CompareLt, CompareLe, CompareGt, CompareGe, CompareIs, CompareIsNot, CompareIn, CompareNotIn,
            UnaryNot, UnaryNeg, UnaryPos, UnaryInvert, InplaceAdd, InplaceSub, InplaceMul, InplaceDiv,
            InplaceFloorDiv, InplaceMod, InplacePow, InplaceAnd, InplaceOr, InplaceXor, InplaceLShift, InplaceRShift,
            BuildList, BuildTuple, BuildDict, BuildSet, FormatValue, BuildFString, BuildSlice, ListExtend,
            ListToTuple, DictMerge, ListAppend, SetAdd, DictSetItem, BinarySubscr, StoreSubscr, LoadAttr,
            LoadAttrImport, StoreAttr, CallFunction, CallBuiltinFunction, CallBuiltinType, CallFunctionKw, CallAttr,
            CallAttrKw, CallFunctionExtended, CallAttrExtended, Jump, JumpIfTrue, JumpIfFalse, JumpIfTrueOrPop,
            JumpIfFalseOrPop, GetIter, ForIter, MakeFunction, MakeClosure, Raise, Reraise, ClearException,
            CheckExcMatch, ReturnValue, Await, UnpackSequence, UnpackEx, Nop, LoadModule, LoadSubmodule, Dup2,
            DeleteGlobal, DictUpdate, SetExtend, BeforeWith, WithExit, WithExceptStart, LiftToTop, RaiseUnboundLocal,
            MethodDictMerge, Assert, AssertFailed, BuildCell, DeleteCell, LoadName, StoreName, DeleteName, MatchShape,
            MatchKeys, MatchClass, MatchAttr, SinkTop, RaiseFrom,
        ]
    };

    /// The shape of its operand.
    #[must_use]
    pub fn operand_shape(self) -> Shape {
        // An opcode is never refused, and what is answered is a shape's number.
        let number = rules::operand_shape(self as u8).unwrap_or_default();
        Shape::ALL[usize::from(number).min(Shape::ALL.len() - 1)]
    }

    /// What it does to the depth of the stack where it falls through.
    ///
    /// # Errors
    /// 2 where the operand is not of this opcode's shape. (The original panics.)
    ///
    /// ```
    /// use tokenfinch::{Opcode, Operand};
    ///
    /// assert_eq!(Opcode::BuildList.stack_effect(Operand::U16(3)), Ok(-2));
    /// assert_eq!(Opcode::BuildList.stack_effect(Operand::None).map_err(|refusal| refusal.number()), Err(2));
    /// ```
    pub fn stack_effect(self, operand: Operand) -> Result<i32, Refusal> {
        let (a, b, c, names) = operand.fields();
        rules::stack_effect(self as u8, operand.shape() as u8, a, b, c, names)
    }

    /// What it does to the depth of the stack where its jump is taken.
    ///
    /// # Errors
    /// 3 where it is no jump. (The original panics.)
    pub fn jump_taken_stack_effect(self) -> Result<i32, Refusal> {
        rules::jump_taken_stack_effect(self as u8)
    }

    /// Whether nothing runs on behind it: `ReturnValue`, `Raise`, `Reraise`, `RaiseUnboundLocal`, `AssertFailed`,
    /// `Jump`.
    #[must_use]
    pub fn makes_dead(self) -> bool {
        rules::makes_dead(self as u8) == Ok(true)
    }
}

impl TryFrom<u8> for Opcode {
    type Error = Refusal;

    /// ```
    /// use tokenfinch::Opcode;
    ///
    /// assert_eq!(Opcode::try_from(94), Ok(Opcode::ForIter));
    /// assert!(Opcode::try_from(131).is_err());
    /// ```
    fn try_from(number: u8) -> Result<Self, Refusal> {
        Self::ALL
            .get(usize::from(number))
            .copied()
            .ok_or(Refusal::UnknownOpcode)
    }
}

#[cfg(test)]
mod tests {
    use super::*;

    #[test]
    fn an_opcode_stands_at_its_number_and_has_the_librarys_name() {
        for (number, opcode) in Opcode::ALL.into_iter().enumerate() {
            assert_eq!(opcode as usize, number);
            let mut name = [0; 32];
            let length = rules::opcode_name(opcode as u8, &mut name).expect("it is an opcode");
            assert_eq!(&name[..length], format!("{opcode:?}").as_bytes());
        }
    }
}
