//! What the programs `rules` and `replay` do. They are thin over the crate `tokenfinch`, so that they run what a user
//! links.

pub mod replay;
pub mod rules;
