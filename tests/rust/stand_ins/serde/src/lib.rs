//! Stand-in for serde: derives that accept their attributes and write nothing, since no comparison
//! serialises.

pub use derives::{Deserialize, Serialize};
