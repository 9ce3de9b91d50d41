//! Stand-in for a constant: a number that is carried unread.

#[derive(Debug, PartialEq, Eq)]
pub struct Value(pub u64);

impl Value {
    pub fn copy_immediate(&self) -> Self {
        Self(self.0)
    }
}
