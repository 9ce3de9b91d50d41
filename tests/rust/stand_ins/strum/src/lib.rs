//! Stand-in for strum: the four derives that the compared files name, and the trait behind
//! `EnumIter`.

pub use derives::{Display, EnumIter, FromRepr, IntoStaticStr};

/// An enum whose variants can be walked in the order of their declaration.
pub trait IntoEnumIterator: Sized {
    type Iterator: Iterator<Item = Self>;

    fn iter() -> Self::Iterator;
}
