//! Entity stores in states that an empty one reaches only by very many commands, as with versions that run out.

use super::{Id, CALLERS};
use crate::entity::{Entity, EntityAllocator, EntitySparseSet, EntityStorage, Version};
use core::num::NonZeroU32;

/// The numbers of a store without components: what is live, in the order of the live list, what waits, the longest
/// waiting first, and how many numbers were issued. Those that are neither live nor waiting are retired. And the caller,
/// with the refusal count of each.
#[derive(Clone, PartialEq, Eq, Default, Debug)]
pub struct Preset {
    pub issued: usize,
    pub live: Vec<Id>,
    pub recycled: Vec<Id>,
    pub caller: u8,
    pub refusals: [u32; CALLERS],
}

/// A preset names each issued number once at most, and a number that waits has had a version before. Its caller is one.
pub(super) fn check(preset: &Preset, n: usize) {
    let mut seen = vec![false; preset.issued];
    for &(index, version) in preset.live.iter().chain(&preset.recycled) {
        assert!(version > 0 && !core::mem::replace(&mut seen[index as usize], true));
    }
    assert!(preset.issued <= n && preset.recycled.iter().all(|&(_, version)| version > 1));
    assert!(usize::from(preset.caller) < CALLERS);
}

fn entity((index, version): Id) -> Entity {
    Entity::new(index, Version(NonZeroU32::new(version).unwrap()))
}

/// The library's entity storage in the state of the preset. Its two parts are built by their own functions: the
/// allocator issues and recycles, the sparse set inserts.
pub(super) fn entities(preset: &Preset) -> EntityStorage {
    let mut storage = assemble(preset);
    probe(preset, &mut storage);
    assemble(preset)
}

fn assemble(preset: &Preset) -> EntityStorage {
    /// The fields of `EntityStorage`, which are private to its module.
    struct Fields {
        _allocator: EntityAllocator,
        _entities: EntitySparseSet,
    }

    let mut allocator = EntityAllocator::default();
    for index in 0..preset.issued {
        assert_eq!(allocator.allocate().unwrap().sparse(), index);
    }
    for &(index, version) in &preset.recycled {
        allocator.recycle(entity((index, version - 1)));
    }

    let mut entities = EntitySparseSet::default();
    for &id in &preset.live {
        entities.insert(entity(id));
    }

    // Two structs with the same two fields are laid out alike by this compiler; `probe` sees that they are.
    const _: () = assert!(size_of::<Fields>() == size_of::<EntityStorage>());
    const _: () = assert!(align_of::<Fields>() == align_of::<EntityStorage>());
    let fields = Fields {
        _allocator: allocator,
        _entities: entities,
    };
    unsafe { core::mem::transmute::<Fields, EntityStorage>(fields) }
}

/// Looks at everything that can be seen of the storage from outside, using it up.
fn probe(preset: &Preset, storage: &mut EntityStorage) {
    let live: Vec<Id> = storage.as_slice().iter().map(super::id).collect();
    assert_eq!(live, preset.live);
    assert!(preset.live.iter().all(|&id| storage.contains(entity(id))));
    for &id in &preset.recycled {
        assert_eq!(super::id(&storage.create()), id);
    }
    assert_eq!(super::id(&storage.create()), (preset.issued as u32, 1));
}
