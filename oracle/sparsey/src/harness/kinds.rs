//! One component type for each of the 128 kinds at each of the two widths, and a table from a kind's number to its type's
//! functions.

use crate::component::{ComponentData, ComponentSparseSet};
use crate::entity::Entity;
use core::any::TypeId;
use std::collections::HashMap;
use std::sync::OnceLock;

/// The words of a component's value at the two widths, eight bytes and sixteen.
pub const NARROW: usize = 2;
pub const WIDE: usize = 4;

/// A component's value, lowest word first.
pub type Value<const D: usize> = [u32; D];

/// The component type of kind `K` with values of `D` words.
#[derive(Clone, Copy, PartialEq, Eq, Debug)]
pub struct Comp<const K: u8, const D: usize>(pub Value<D>);

/// What the library does with a component type, by kind.
pub(super) struct Kind<const D: usize> {
    pub data: ComponentData,
    pub insert: unsafe fn(&mut ComponentSparseSet, Entity, Value<D>),
    pub remove: unsafe fn(&mut ComponentSparseSet, Entity) -> Option<Value<D>>,
    pub delete: unsafe fn(&mut ComponentSparseSet, Entity),
    pub get: unsafe fn(&ComponentSparseSet, Entity) -> Option<Value<D>>,
    pub values: unsafe fn(&ComponentSparseSet) -> Vec<Value<D>>,
}

macro_rules! kinds {
    ($($k:literal)*) => { [$(Kind::of::<$k>()),*] };
}

impl<const D: usize> Kind<D> {
    /// All kinds of the width.
    #[rustfmt::skip]
    const ALL: &'static [Kind<D>; 128] = &kinds!(
          0   1   2   3   4   5   6   7   8   9  10  11  12  13  14  15
         16  17  18  19  20  21  22  23  24  25  26  27  28  29  30  31
         32  33  34  35  36  37  38  39  40  41  42  43  44  45  46  47
         48  49  50  51  52  53  54  55  56  57  58  59  60  61  62  63
         64  65  66  67  68  69  70  71  72  73  74  75  76  77  78  79
         80  81  82  83  84  85  86  87  88  89  90  91  92  93  94  95
         96  97  98  99 100 101 102 103 104 105 106 107 108 109 110 111
        112 113 114 115 116 117 118 119 120 121 122 123 124 125 126 127
    );

    const fn of<const K: u8>() -> Self {
        unsafe fn insert<const K: u8, const D: usize>(set: &mut ComponentSparseSet, entity: Entity, value: Value<D>) {
            set.insert(entity, Comp::<K, D>(value));
        }

        unsafe fn remove<const K: u8, const D: usize>(
            set: &mut ComponentSparseSet,
            entity: Entity,
        ) -> Option<Value<D>> {
            set.remove::<Comp<K, D>>(entity).map(|comp| comp.0)
        }

        unsafe fn get<const K: u8, const D: usize>(set: &ComponentSparseSet, entity: Entity) -> Option<Value<D>> {
            set.get::<Comp<K, D>>(entity).map(|comp| comp.0)
        }

        unsafe fn values<const K: u8, const D: usize>(set: &ComponentSparseSet) -> Vec<Value<D>> {
            set.as_slice::<Comp<K, D>>().iter().map(|comp| comp.0).collect()
        }

        Self {
            data: ComponentData::new::<Comp<K, D>>(),
            insert: insert::<K, D>,
            remove: remove::<K, D>,
            delete: ComponentSparseSet::delete::<Comp<K, D>>,
            get: get::<K, D>,
            values: values::<K, D>,
        }
    }

    pub fn type_id(&self) -> TypeId {
        self.data.type_id()
    }
}

/// The kind's row in the table of its width. Panics above 127: the harness refuses those first.
pub(super) fn kind<const D: usize>(number: u8) -> &'static Kind<D> {
    &Kind::<D>::ALL[usize::from(number)]
}

/// The kind whose component type it is, at either width.
pub(super) fn number(type_id: TypeId) -> u8 {
    static NUMBERS: OnceLock<HashMap<TypeId, u8>> = OnceLock::new();
    NUMBERS.get_or_init(|| types::<NARROW>().chain(types::<WIDE>()).collect())[&type_id]
}

/// The component types of a width, each with its kind.
fn types<const D: usize>() -> impl Iterator<Item = (TypeId, u8)> {
    (0..128).map(|number| (kind::<D>(number).type_id(), number))
}
