//! Stand-in for world/builder.rs, which is not among the given sources. The harness does not use it.

use crate::component::{GroupDescriptor, GroupLayout};
use crate::world::World;

/// Builds a [`World`] with a group layout.
#[derive(Clone, Default, Debug)]
pub struct WorldBuilder {
    layout: GroupLayout,
}

impl WorldBuilder {
    /// Adds a group to the layout of the world.
    #[must_use]
    pub fn add_group<G>(mut self) -> Self
    where
        G: GroupDescriptor,
    {
        self.layout.add_group::<G>();
        self
    }

    /// Returns the world.
    #[must_use]
    pub fn build(self) -> World {
        World::new(&self.layout)
    }
}
