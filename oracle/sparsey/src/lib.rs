//! The given sources of sparsey, copied unchanged at build time, with a harness inside, so that it may use what the
//! library keeps to itself. This file stands in for the library's own lib.rs, which is not among the given sources.

#![allow(dead_code)]

extern crate alloc;

// component, entity, query and world, at the root of the crate, since they name each other from there.
include!(concat!(env!("OUT_DIR"), "/tree/modules.rs"));

pub mod harness;

pub use self::world::World;
