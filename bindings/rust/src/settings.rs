//! What a start is told besides how many entities and kinds: a type for each, so that a call names what it asks for.

use core::fmt::Debug;
use core::hash::Hash;

/// How many bytes a value has: [`Eight`] or [`Sixteen`]. A store has one width for life, as a part of its type, so that
/// its values are read at no other: [`Store::start_with`] is told which, and [`Store::start`] gives [`Eight`].
///
/// The width says how many bytes a value has in HOLD, in TAKE's answer and in a roll, and how many words in a column.
///
/// ```
/// use yirbarn::{Eight, Sixteen, Width};
///
/// assert_eq!((Eight.bytes(), Eight.words()), (8, 2));
/// assert_eq!((Sixteen.bytes(), Sixteen.words()), (16, 4));
/// ```
///
/// [`Store::start`]: crate::Store::start
/// [`Store::start_with`]: crate::Store::start_with
pub trait Width: Copy + Debug + sealed::Sealed {
    /// A value as a number.
    type Value: Copy + Ord + Hash + Debug;

    /// The bytes of a value.
    const BYTES: usize;

    /// The bytes of a value.
    fn bytes(self) -> usize {
        Self::BYTES
    }

    /// The words of a value in a column.
    fn words(self) -> usize {
        Self::BYTES / 4
    }

    /// The value in so many words, lowest first.
    #[doc(hidden)]
    fn value(words: &[u32]) -> Self::Value;
}

/// Values of eight bytes: those of [`Store::start`](crate::Store::start).
#[derive(Clone, Copy, PartialEq, Eq, Debug, Default)]
pub struct Eight;

/// Values of sixteen bytes.
#[derive(Clone, Copy, PartialEq, Eq, Debug, Default)]
pub struct Sixteen;

impl Width for Eight {
    type Value = u64;

    const BYTES: usize = 8;

    fn value(words: &[u32]) -> u64 {
        u64::from(words[0]) | u64::from(words[1]) << 32
    }
}

impl Width for Sixteen {
    type Value = u128;

    const BYTES: usize = 16;

    fn value(words: &[u32]) -> u128 {
        let (low, high) = words.split_at(2);
        u128::from(Eight::value(low)) | u128::from(Eight::value(high)) << 64
    }
}

/// No other type is a width.
mod sealed {
    pub trait Sealed {}

    impl Sealed for super::Eight {}

    impl Sealed for super::Sixteen {}
}

/// How RANGE reads a bar (excluded kinds). A store has one rule for life: [`Store::start_with`] is told which, and
/// [`Store::start`] gives the older. Without a bar, RANGE is the same under both.
///
/// [`Store::start`]: crate::Store::start
/// [`Store::start_with`]: crate::Store::start_with
#[derive(Clone, Copy, PartialEq, Eq, Debug, Default)]
pub enum Rule {
    /// "Without 3 and 4" is to lack one or more of them. Words kept from before there were two rules have this one.
    #[default]
    Older,
    /// "Without 3 and 4" is to have neither. For a bar of one kind that is the same, and so is the answer. A bar of two
    /// kinds or more finds nothing: the entities with none of them need not stand together.
    Newer,
}
