//! Operands and their shapes.

/// The byte layout of an operand, in op.rs's numbers.
#[repr(u8)]
#[derive(Debug, Clone, Copy, PartialEq, Eq, Hash)]
pub enum Shape {
    /// No bytes.
    None = 0,
    /// One byte.
    U8 = 1,
    /// One signed byte.
    I8 = 2,
    /// Two bytes, the low one first, as in all that follow.
    U16 = 3,
    /// A jump's displacement: two bytes, signed.
    Offset = 4,
    /// Two numbers of a byte.
    U8U8 = 5,
    /// Two bytes, then one.
    U16U8 = 6,
    /// Two numbers of two bytes.
    U16U16 = 7,
    /// Two bytes, then two numbers of one.
    U16U8U8 = 8,
    /// Positional count and name count, a byte each, then the names.
    CallKw = 9,
    /// Attribute, positional count and name count, then the names.
    CallAttrKw = 10,
    /// Two numbers of two bytes, then one of one.
    U16U16U8 = 11,
}

impl Shape {
    /// All of them; a shape stands at its own number.
    pub const ALL: [Self; 12] = {
        use Shape::*;
        [
            None, U8, I8, U16, Offset, U8U8, U16U8, U16U16, U16U8U8, CallKw, CallAttrKw, U16U16U8,
        ]
    };
}

/// An operand. The names of a keyword call stand beside it: here is only how many there are.
#[derive(Debug, Clone, Copy, PartialEq, Eq, Hash)]
pub enum Operand {
    /// None.
    None,
    /// One byte.
    U8(u8),
    /// One signed byte.
    I8(i8),
    /// Two bytes.
    U16(u16),
    /// A jump's displacement, from behind the jump.
    Offset(i16),
    /// Two numbers of a byte.
    U8U8(u8, u8),
    /// Two bytes, then one.
    U16U8(u16, u8),
    /// Two numbers of two bytes.
    U16U16(u16, u16),
    /// Two bytes, then two numbers of one.
    U16U8U8(u16, u8, u8),
    /// A call with keyword names.
    CallKw {
        /// How many arguments stand before the named ones.
        positional: u8,
        /// How many names there are.
        names: u8,
    },
    /// A call of an attribute with keyword names.
    CallAttrKw {
        /// The attribute's name.
        attribute: u16,
        /// How many arguments stand before the named ones.
        positional: u8,
        /// How many names there are.
        names: u8,
    },
    /// Two numbers of two bytes, then one of one.
    U16U16U8(u16, u16, u8),
}

impl Operand {
    /// Its shape.
    #[must_use]
    pub fn shape(self) -> Shape {
        match self {
            Self::None => Shape::None,
            Self::U8(_) => Shape::U8,
            Self::I8(_) => Shape::I8,
            Self::U16(_) => Shape::U16,
            Self::Offset(_) => Shape::Offset,
            Self::U8U8(..) => Shape::U8U8,
            Self::U16U8(..) => Shape::U16U8,
            Self::U16U16(..) => Shape::U16U16,
            Self::U16U8U8(..) => Shape::U16U8U8,
            Self::CallKw { .. } => Shape::CallKw,
            Self::CallAttrKw { .. } => Shape::CallAttrKw,
            Self::U16U16U8(..) => Shape::U16U16U8,
        }
    }

    /// The numbers a, b, c and the count of names, as the rules take them: signed numbers by their bits.
    pub(crate) fn fields(self) -> (u16, u16, u8, u8) {
        match self {
            Self::None => (0, 0, 0, 0),
            Self::U8(a) => (a.into(), 0, 0, 0),
            Self::I8(a) => (a.cast_unsigned().into(), 0, 0, 0),
            Self::U16(a) => (a, 0, 0, 0),
            Self::Offset(a) => (a.cast_unsigned(), 0, 0, 0),
            Self::U8U8(a, b) => (a.into(), b.into(), 0, 0),
            Self::U16U8(a, b) => (a, b.into(), 0, 0),
            Self::U16U16(a, b) => (a, b, 0, 0),
            Self::U16U8U8(a, b, c) => (a, b.into(), c, 0),
            Self::CallKw { positional, names } => (positional.into(), 0, 0, names),
            Self::CallAttrKw {
                attribute,
                positional,
                names,
            } => (attribute, positional.into(), 0, names),
            Self::U16U16U8(a, b, c) => (a, b, c, 0),
        }
    }

    /// The operand of a shape with these numbers: the inverse of `fields`, which takes what fits of each.
    pub(crate) fn of(shape: Shape, a: u16, b: u16, c: u8, names: u8) -> Self {
        let low = |wide: u16| wide.to_le_bytes()[0];
        match shape {
            Shape::None => Self::None,
            Shape::U8 => Self::U8(low(a)),
            Shape::I8 => Self::I8(low(a).cast_signed()),
            Shape::U16 => Self::U16(a),
            Shape::Offset => Self::Offset(a.cast_signed()),
            Shape::U8U8 => Self::U8U8(low(a), low(b)),
            Shape::U16U8 => Self::U16U8(a, low(b)),
            Shape::U16U16 => Self::U16U16(a, b),
            Shape::U16U8U8 => Self::U16U8U8(a, low(b), c),
            Shape::CallKw => Self::CallKw {
                positional: low(a),
                names,
            },
            Shape::CallAttrKw => Self::CallAttrKw {
                attribute: a,
                positional: low(b),
                names,
            },
            Shape::U16U16U8 => Self::U16U16U8(a, b, c),
        }
    }

    /// Its numbers in the order of their bytes, the count of names among them, the names not.
    pub fn values(self) -> impl Iterator<Item = i64> {
        let (values, count): ([i64; 3], usize) = match self {
            Self::None => ([0; 3], 0),
            Self::U8(a) => ([a.into(), 0, 0], 1),
            Self::I8(a) => ([a.into(), 0, 0], 1),
            Self::U16(a) => ([a.into(), 0, 0], 1),
            Self::Offset(a) => ([a.into(), 0, 0], 1),
            Self::U8U8(a, b) => ([a.into(), b.into(), 0], 2),
            Self::U16U8(a, b) => ([a.into(), b.into(), 0], 2),
            Self::U16U16(a, b) => ([a.into(), b.into(), 0], 2),
            Self::U16U8U8(a, b, c) => ([a.into(), b.into(), c.into()], 3),
            Self::CallKw { positional, names } => ([positional.into(), names.into(), 0], 2),
            Self::CallAttrKw {
                attribute,
                positional,
                names,
            } => ([attribute.into(), positional.into(), names.into()], 3),
            Self::U16U16U8(a, b, c) => ([a.into(), b.into(), c.into()], 3),
        };
        values.into_iter().take(count)
    }
}
