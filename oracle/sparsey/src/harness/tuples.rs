//! The library's own tuples, for the lists of kinds that the build script names, at either width.

use super::kinds::{Comp, Value};
use crate::entity::Entity;
use crate::World;
use core::iter;

/// Where a slice of rows stands in its column.
fn place<const K: u8, const D: usize>(world: &World, rows: &[Comp<K, D>]) -> (usize, usize) {
    let view = world.borrow::<Comp<K, D>>();
    let start = (rows.as_ptr() as usize - view.as_slice().as_ptr() as usize) / size_of::<Comp<K, D>>();
    (start, start + rows.len())
}

include!(concat!(env!("OUT_DIR"), "/tree/tuples.rs"));
