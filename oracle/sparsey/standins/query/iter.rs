//! Stand-in for query/iter.rs, which is not among the given sources. The harness does not iterate.

use crate::entity::Entity;
use crate::query::Query;
use core::ops::Range;

/// Iterates over the items of a query.
#[must_use]
pub enum Iter<'a, G, I, E>
where
    G: Query,
    I: Query,
    E: Query,
{
    /// Looks each entity up.
    Sparse(SparseIter<'a, G, I, E>),
    /// Goes over the rows of a group.
    Dense(DenseIter<'a, G>),
}

impl<'a, G, I, E> Iterator for Iter<'a, G, I, E>
where
    G: Query,
    I: Query,
    E: Query,
{
    type Item = G::Item<'a>;

    fn next(&mut self) -> Option<Self::Item> {
        match self {
            Self::Sparse(sparse) => sparse.next(),
            Self::Dense(dense) => dense.next(),
        }
    }
}

/// Looks each entity of a list up.
#[must_use]
pub struct SparseIter<'a, G, I, E>
where
    G: Query,
    I: Query,
    E: Query,
{
    entities: core::slice::Iter<'a, Entity>,
    exclude: E::Sparse<'a>,
    include: I::Sparse<'a>,
    get: G::Sparse<'a>,
    data: G::Data<'a>,
}

impl<'a, G, I, E> SparseIter<'a, G, I, E>
where
    G: Query,
    I: Query,
    E: Query,
{
    pub(crate) fn new(
        entities: &'a [Entity],
        exclude: E::Sparse<'a>,
        include: I::Sparse<'a>,
        get: G::Sparse<'a>,
        data: G::Data<'a>,
    ) -> Self {
        Self {
            entities: entities.iter(),
            exclude,
            include,
            get,
            data,
        }
    }
}

impl<'a, G, I, E> Iterator for SparseIter<'a, G, I, E>
where
    G: Query,
    I: Query,
    E: Query,
{
    type Item = G::Item<'a>;

    fn next(&mut self) -> Option<Self::Item> {
        loop {
            let entity = *self.entities.next()?;

            if !E::contains_none_raw(self.exclude, entity.sparse())
                || !I::contains_all_raw(self.include, entity.sparse())
            {
                continue;
            }

            if let Some(item) = unsafe { G::get_sparse_raw(self.get, self.data, entity) } {
                return Some(item);
            }
        }
    }
}

/// Goes over the rows of a group.
#[must_use]
pub struct DenseIter<'a, G>
where
    G: Query,
{
    range: Range<usize>,
    entities: &'a [Entity],
    data: G::Data<'a>,
}

impl<'a, G> DenseIter<'a, G>
where
    G: Query,
{
    pub(crate) unsafe fn new(range: Range<usize>, entities: &'a [Entity], data: G::Data<'a>) -> Self {
        Self {
            range,
            entities,
            data,
        }
    }
}

impl<'a, G> Iterator for DenseIter<'a, G>
where
    G: Query,
{
    type Item = G::Item<'a>;

    fn next(&mut self) -> Option<Self::Item> {
        let index = self.range.next()?;
        Some(unsafe { G::get_dense_raw(self.data, index, self.entities[index]) })
    }
}
