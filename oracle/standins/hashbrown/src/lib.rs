//! Stand-in for the crate `hashbrown`: the standard library's map, which is built on it.

pub use std::collections::HashMap;

pub mod hash_map {
    pub use std::collections::hash_map::Entry;
}
