//! The flags of `Assert` and `AssertFailed`.

use crate::rules;

/// A comparison that an assert can hold, in op.rs's numbers.
#[repr(u8)]
#[derive(Debug, Clone, Copy, PartialEq, Eq, Hash)]
pub enum CmpOperator {
    /// `==`
    Eq = 0,
    /// `!=`
    NotEq = 1,
    /// `<`
    Lt = 2,
    /// `<=`
    LtE = 3,
    /// `>`
    Gt = 4,
    /// `>=`
    GtE = 5,
    /// `is`
    Is = 6,
    /// `is not`
    IsNot = 7,
    /// `in`
    In = 8,
    /// `not in`
    NotIn = 9,
}

/// How the rules number that there is no comparison.
const NONE: u8 = 10;

impl CmpOperator {
    const ALL: [Self; 10] = {
        use CmpOperator::*;
        [Eq, NotEq, Lt, LtE, Gt, GtE, Is, IsNot, In, NotIn]
    };

    /// Its number in the low four bits of an assert's flags.
    #[must_use]
    pub const fn as_operand(self) -> u8 {
        self as u8
    }
}

/// The flags byte of an assert with this comparison, or with none.
///
/// ```
/// use tokenfinch::{CmpOperator, assert_flags, decode_assert_flags};
///
/// assert_eq!(assert_flags(Some(CmpOperator::GtE)), 0x15);
/// assert_eq!(decode_assert_flags(0x15), Some(Some(CmpOperator::GtE)));
/// assert_eq!(decode_assert_flags(0), Some(None));
/// assert_eq!(decode_assert_flags(0x1A), None);
/// ```
#[must_use]
pub fn assert_flags(cmp_op: Option<CmpOperator>) -> u8 {
    rules::assert_flags(cmp_op.map_or(NONE, CmpOperator::as_operand))
}

/// The comparison of a flags byte; none for bytes that [`assert_flags`] never gives.
#[must_use]
#[allow(clippy::option_option)] // outer: the byte is an assert's; inner: it compares
pub fn decode_assert_flags(flags: u8) -> Option<Option<CmpOperator>> {
    match rules::decode_assert_flags(flags) {
        NONE => Some(None),
        number => CmpOperator::ALL.get(usize::from(number)).copied().map(Some),
    }
}
