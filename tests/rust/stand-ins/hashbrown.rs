//! Stand-in for `hashbrown`: the standard library's map is the same table.
pub use std::collections::HashMap;
