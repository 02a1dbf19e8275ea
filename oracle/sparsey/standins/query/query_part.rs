//! Stand-in for query/query_part.rs, which is not among the given sources: the trait as query/mod.rs calls it, and
//! shared references to components, which is all that the harness asks for.

use crate::component::{Component, View, ViewGroupInfo};
use crate::entity::{Entity, SparseVec};
use crate::World;
use core::ops::Range;
use core::ptr::NonNull;
use core::slice;

/// One part of a query.
///
/// # Safety
///
/// For use by this crate alone.
pub unsafe trait QueryPart {
    /// View borrowed from a [`World`].
    type View<'a>;

    /// Item of the part.
    type Item<'a>: Send;

    /// Rows of the part.
    type Slice<'a>;

    /// Lookups of the part.
    type Sparse<'a>: Copy;

    /// Values of the part.
    type Data<'a>: Copy;

    /// Borrows a view.
    fn borrow(world: &World) -> Self::View<'_>;

    /// Borrows a view with its grouping information.
    fn borrow_with_group_info(world: &World) -> (Self::View<'_>, Option<ViewGroupInfo>);

    /// Returns whether `entity` is present in the view.
    fn contains(view: &Self::View<'_>, entity: Entity) -> bool;

    /// Returns the dense index of `entity`.
    fn get_sparse_key(view: &Self::View<'_>, entity: Entity) -> Option<usize>;

    /// Returns the item at a dense index.
    unsafe fn get_sparse<'a>(view: &'a mut Self::View<'_>, key: usize) -> Self::Item<'a>;

    /// Splits the view into its entities and lookups.
    fn split_filter_parts<'a>(view: &'a Self::View<'_>) -> (Option<&'a [Entity]>, Self::Sparse<'a>);

    /// Splits the view into its entities, lookups and values.
    fn split_sparse_parts<'a>(
        view: &'a Self::View<'_>,
    ) -> (Option<&'a [Entity]>, Self::Sparse<'a>, Self::Data<'a>);

    /// Splits the view into its entities and values.
    fn split_dense_parts<'a>(view: &'a Self::View<'_>) -> (Option<&'a [Entity]>, Self::Data<'a>);

    /// Returns whether the lookups have the sparse index.
    fn contains_raw(sparse: Self::Sparse<'_>, sparse_index: usize) -> bool;

    /// Returns the dense index of `entity`.
    fn get_sparse_key_raw(sparse: Self::Sparse<'_>, entity: Entity) -> Option<usize>;

    /// Returns the item at a dense index.
    unsafe fn get_sparse_raw(data: Self::Data<'_>, key: usize) -> Self::Item<'_>;

    /// Returns the item at a dense index.
    unsafe fn get_dense_raw(data: Self::Data<'_>, index: usize, entity: Entity) -> Self::Item<'_>;

    /// Returns the rows of a range.
    unsafe fn slice_raw<'a>(
        data: Self::Data<'a>,
        entities: &'a [Entity],
        range: Range<usize>,
    ) -> Self::Slice<'a>;
}

unsafe impl<T> QueryPart for &T
where
    T: Component,
{
    type View<'a> = View<'a, T>;
    type Item<'a> = &'a T;
    type Slice<'a> = &'a [T];
    type Sparse<'a> = &'a SparseVec;
    type Data<'a> = NonNull<T>;

    fn borrow(world: &World) -> Self::View<'_> {
        world.borrow::<T>()
    }

    fn borrow_with_group_info(world: &World) -> (Self::View<'_>, Option<ViewGroupInfo>) {
        let (view, info) = world.borrow_with_group_info::<T>();
        let len = view.len();
        (view, Some(ViewGroupInfo { info, len }))
    }

    fn contains(view: &Self::View<'_>, entity: Entity) -> bool {
        view.contains(entity)
    }

    fn get_sparse_key(view: &Self::View<'_>, entity: Entity) -> Option<usize> {
        view.sparse().get(entity).map(|dense| dense as usize)
    }

    unsafe fn get_sparse<'a>(view: &'a mut Self::View<'_>, key: usize) -> Self::Item<'a> {
        view.as_slice().get_unchecked(key)
    }

    fn split_filter_parts<'a>(view: &'a Self::View<'_>) -> (Option<&'a [Entity]>, Self::Sparse<'a>) {
        (Some(view.entities()), view.sparse())
    }

    fn split_sparse_parts<'a>(
        view: &'a Self::View<'_>,
    ) -> (Option<&'a [Entity]>, Self::Sparse<'a>, Self::Data<'a>) {
        (Some(view.entities()), view.sparse(), view.as_non_null_ptr())
    }

    fn split_dense_parts<'a>(view: &'a Self::View<'_>) -> (Option<&'a [Entity]>, Self::Data<'a>) {
        (Some(view.entities()), view.as_non_null_ptr())
    }

    fn contains_raw(sparse: Self::Sparse<'_>, sparse_index: usize) -> bool {
        sparse.contains_sparse(sparse_index)
    }

    fn get_sparse_key_raw(sparse: Self::Sparse<'_>, entity: Entity) -> Option<usize> {
        sparse.get(entity).map(|dense| dense as usize)
    }

    unsafe fn get_sparse_raw<'a>(data: Self::Data<'a>, key: usize) -> Self::Item<'a> {
        data.add(key).as_ref()
    }

    unsafe fn get_dense_raw(data: Self::Data<'_>, index: usize, _entity: Entity) -> Self::Item<'_> {
        data.add(index).as_ref()
    }

    unsafe fn slice_raw<'a>(
        data: Self::Data<'a>,
        _entities: &'a [Entity],
        range: Range<usize>,
    ) -> Self::Slice<'a> {
        slice::from_raw_parts(data.add(range.start).as_ptr(), range.len())
    }
}
