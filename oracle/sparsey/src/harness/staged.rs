//! A component set whose kinds are known only at run time, for the lists of kinds that no tuple covers. Each
//! function is the body of `impl_component_set!`, step for step, with a loop where the macro repeats.

use super::kinds::{kind, Value};
use crate::component::{group, ungroup, ComponentMetadata, ComponentSet, ComponentSparseSet, GroupMask};
use crate::entity::Entity;
use crate::World;
use core::cell::RefCell;

/// Components by kind, at most one of each.
#[derive(Clone)]
pub(super) struct Staged<const D: usize>(pub Vec<(u8, Value<D>)>);

thread_local! {
    /// The kinds of `extend`, `remove` and `delete`, which for a tuple are part of its type.
    static KINDS: RefCell<Vec<u8>> = const { RefCell::new(Vec::new()) };
}

/// Calls `f` with `kinds` as those of `Staged::extend`, `Staged::remove` and `Staged::delete`.
pub(super) fn with_kinds<R>(kinds: &[u8], f: impl FnOnce() -> R) -> R {
    KINDS.with_borrow_mut(|all| {
        all.clear();
        all.extend_from_slice(kinds);
    });
    f()
}

fn metadata<const D: usize>(world: &World, number: u8) -> ComponentMetadata {
    *world
        .components
        .metadata
        .get(&kind::<D>(number).type_id())
        .unwrap_or_else(|| panic!("kind {number} was not registered"))
}

/// A kind with its sparse set.
type Set = (u8, *mut ComponentSparseSet);

/// The sparse sets of the kinds, and the groups by one mask of each.
unsafe fn sparse_sets<const D: usize>(
    world: &World,
    mask: fn(&ComponentMetadata) -> GroupMask,
) -> (Vec<Set>, GroupMask) {
    let mut group_mask = GroupMask::EMPTY;

    let sparse_sets = KINDS.with_borrow(|kinds| {
        kinds
            .iter()
            .map(|&number| {
                let metadata = metadata::<D>(world, number);
                group_mask |= mask(&metadata);
                let set = world
                    .components
                    .components
                    .get_unchecked(metadata.storage_index)
                    .as_ptr();
                (number, set)
            })
            .collect()
    });

    (sparse_sets, group_mask)
}

unsafe impl<const D: usize> ComponentSet for Staged<D> {
    type Remove = Vec<Option<Value<D>>>;

    unsafe fn insert(world: &mut World, entity: Entity, components: Self) {
        let mut group_mask = GroupMask::EMPTY;

        for (number, value) in components.0 {
            let metadata = metadata::<D>(world, number);

            group_mask |= metadata.insert_mask;

            (kind::<D>(number).insert)(
                world
                    .components
                    .components
                    .get_unchecked_mut(metadata.storage_index)
                    .get_mut(),
                entity,
                value,
            );
        }

        if group_mask != GroupMask::EMPTY {
            group(
                &mut world.components.components,
                &mut world.components.groups,
                group_mask,
                entity,
            );
        }
    }

    fn extend<TComponents>(world: &mut World, components: TComponents) -> &[Entity]
    where
        TComponents: IntoIterator<Item = Self>,
    {
        let (sparse_sets, group_mask) = unsafe { sparse_sets::<D>(world, |metadata| metadata.insert_mask) };

        let start_entity = world.entities.len();

        components.into_iter().for_each(|components| {
            let entity = world.entities.create();

            for (&(number, set), (held, value)) in sparse_sets.iter().zip(components.0) {
                assert_eq!(number, held, "a set of other kinds");
                unsafe { (kind::<D>(number).insert)(&mut *set, entity, value) };
            }
        });

        let new_entities = unsafe { world.entities.as_slice().get_unchecked(start_entity..) };

        if group_mask != GroupMask::EMPTY {
            for &entity in new_entities {
                unsafe {
                    group(
                        &mut world.components.components,
                        &mut world.components.groups,
                        group_mask,
                        entity,
                    );
                }
            }
        }

        new_entities
    }

    unsafe fn remove(world: &mut World, entity: Entity) -> Self::Remove {
        let (sparse_sets, group_mask) = sparse_sets::<D>(world, |metadata| metadata.delete_mask);

        if group_mask != GroupMask::EMPTY {
            ungroup(
                &mut world.components.components,
                &mut world.components.groups,
                group_mask,
                entity,
            );
        }

        sparse_sets
            .into_iter()
            .map(|(number, set)| (kind::<D>(number).remove)(&mut *set, entity))
            .collect()
    }

    unsafe fn delete(world: &mut World, entity: Entity) {
        let (sparse_sets, group_mask) = sparse_sets::<D>(world, |metadata| metadata.delete_mask);

        if group_mask != GroupMask::EMPTY {
            ungroup(
                &mut world.components.components,
                &mut world.components.groups,
                group_mask,
                entity,
            );
        }

        for (number, set) in sparse_sets {
            (kind::<D>(number).delete)(&mut *set, entity);
        }
    }
}
