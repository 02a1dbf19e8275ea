//! Stand-in for query/query_one.rs, which is not among the given sources. The harness does not use it.

use crate::entity::Entity;
use crate::query::Query;
use crate::World;

/// Queries one entity.
#[must_use]
pub struct QueryOne<'a, G, I, E>
where
    G: Query,
    I: Query,
    E: Query,
{
    get: G::View<'a>,
    include: I::View<'a>,
    exclude: E::View<'a>,
}

impl<'a, G> QueryOne<'a, G, (), ()>
where
    G: Query,
{
    pub(crate) fn new(world: &'a World) -> Self {
        Self {
            get: G::borrow(world),
            include: (),
            exclude: (),
        }
    }
}

impl<G, I, E> QueryOne<'_, G, I, E>
where
    G: Query,
    I: Query,
    E: Query,
{
    /// Returns whether `entity` matches the query.
    #[must_use]
    pub fn contains(&self, entity: Entity) -> bool {
        E::contains_none(&self.exclude, entity)
            && I::contains_all(&self.include, entity)
            && G::contains_all(&self.get, entity)
    }
}
