//! Stand-in for the interned names: a name is its number.

#[derive(Debug, Clone, Copy, Default, PartialEq, Eq)]
pub struct StringId(pub u32);

impl StringId {
    pub fn index(self) -> usize {
        self.0 as usize
    }
}
