//! Iterators over the rows of a column, on the words in place.

use crate::settings::{Eight, Width};
use core::slice::ChunksExact;

/// An entity: its index and its version.
#[derive(Clone, Copy, PartialEq, Eq, PartialOrd, Ord, Hash, Debug)]
pub struct Entity {
    pub index: u32,
    pub version: u32,
}

/// A row of a column: its value is a `u64`, or a `u128` in a store of values of sixteen bytes.
#[derive(Clone, Copy, PartialEq, Eq, Debug)]
pub struct Row<V = u64> {
    pub entity: Entity,
    pub value: V,
}

/// The entities of a column's rows, in row order.
#[derive(Clone, Debug)]
pub struct Entities<'a>(ChunksExact<'a, u32>);

/// The values of a column's rows, in row order, at the store's width.
#[derive(Clone, Debug)]
pub struct Values<'a, W = Eight>(ChunksExact<'a, u32>, W);

/// The rows of a column, in order.
#[derive(Clone, Debug)]
pub struct Rows<'a, W = Eight> {
    entities: Entities<'a>,
    values: Values<'a, W>,
}

impl<'a> Entities<'a> {
    pub(crate) fn new(words: &'a [u32]) -> Self {
        Self(words.chunks_exact(2))
    }
}

impl<'a, W: Width> Values<'a, W> {
    pub(crate) fn new(words: &'a [u32], width: W) -> Self {
        Self(words.chunks_exact(width.words()), width)
    }
}

impl<'a, W: Width> Rows<'a, W> {
    pub(crate) fn new(entities: Entities<'a>, values: Values<'a, W>) -> Self {
        Self { entities, values }
    }
}

fn entity(words: &[u32]) -> Entity {
    Entity {
        index: words[0],
        version: words[1],
    }
}

/// An iterator that knows how many are left and goes from both ends, after the one inside.
macro_rules! iterates {
    ([$($width:tt)*] $name:ty, $item:ty, $from:expr) => {
        impl<$($width)*> Iterator for $name {
            type Item = $item;

            fn next(&mut self) -> Option<$item> {
                self.0.next().map($from)
            }

            fn size_hint(&self) -> (usize, Option<usize>) {
                self.0.size_hint()
            }
        }

        impl<$($width)*> DoubleEndedIterator for $name {
            fn next_back(&mut self) -> Option<$item> {
                self.0.next_back().map($from)
            }
        }

        impl<$($width)*> ExactSizeIterator for $name {}
    };
}

iterates!([] Entities<'_>, Entity, entity);
iterates!([W: Width] Values<'_, W>, W::Value, W::value);

impl<W: Width> Iterator for Rows<'_, W> {
    type Item = Row<W::Value>;

    fn next(&mut self) -> Option<Self::Item> {
        Some(Row {
            entity: self.entities.next()?,
            value: self.values.next()?,
        })
    }

    fn size_hint(&self) -> (usize, Option<usize>) {
        self.entities.size_hint()
    }
}

impl<W: Width> DoubleEndedIterator for Rows<'_, W> {
    fn next_back(&mut self) -> Option<Self::Item> {
        Some(Row {
            entity: self.entities.next_back()?,
            value: self.values.next_back()?,
        })
    }
}

impl<W: Width> ExactSizeIterator for Rows<'_, W> {}
