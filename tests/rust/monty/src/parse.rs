//! Stand-in for a source range: two numbers that are carried unread.

#[derive(Debug, Clone, Copy, Default, PartialEq, Eq)]
pub struct CodeRange {
    pub start: u32,
    pub end: u32,
}
