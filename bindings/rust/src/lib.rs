//! Card stores with nested groups, over 32-bit words that the caller lends.
//!
//! A store keeps entities and their components, a value for each of up to 128 kinds, in a `&mut [u32]`. The values are of
//! eight bytes, or in a store that is started so of sixteen ([`Width`]). It is changed by a tape of commands, which
//! [`Store::run`] answers, and read by column and as a whole. The work is done by the static library of the crate `store_c`,
//! which is proved; this crate lends it slices and gives names to its numbers.
//! The commands, their bytes and their answers are in the repository's docs/COMMANDS.md; examples/cards.rs is a program to
//! begin with.
//!
//! ```
//! use yirbarn::{Entity, Row, Store};
//!
//! let mut words = vec![0; Store::words_needed(64, 8).unwrap()];
//! let mut store = Store::start(&mut words, 64, 8)?;
//!
//! // REG 1, HOLD 1 = 5, NEW.
//! let tape = [0x01, 1, 0x02, 1, 5, 0, 0, 0, 0, 0, 0, 0, 0x03];
//! let mut answers = [0; 64];
//! let ran = store.run(&tape, &mut answers);
//! assert_eq!((ran.stop, ran.commands, ran.read), (None, 3, 13));
//! // New; staged; index 0, version 1.
//! assert_eq!(answers[..ran.written], [0, 1, 0, 0, 0, 0, 0, 0, 1, 0, 0, 0]);
//!
//! let entity = Entity { index: 0, version: 1 };
//! assert!(store.rows(1, 0, 1)?.eq([Row { entity, value: 5 }]));
//! # Ok::<(), yirbarn::Refusal>(())
//! ```

#![no_std]

pub mod sys;

mod refusal;
mod rows;
mod settings;

pub use refusal::Refusal;
pub use rows::{Entities, Entity, Row, Rows, Values};
pub use settings::{Eight, Rule, Sixteen, Width};

/// This crate's version, which is that of `yirbarn.h` too.
pub const VERSION: &str = env!("CARGO_PKG_VERSION");

/// What a run answers.
#[derive(Clone, Copy, PartialEq, Eq, Debug)]
pub struct Ran {
    /// Why the run stopped before the tape's end, if it did.
    pub stop: Option<Refusal>,
    /// Commands done, the refused ones among them.
    pub commands: usize,
    /// Bytes of the tape that these took.
    pub read: usize,
    /// Bytes of answers. The bytes past them are as they were.
    pub written: usize,
}

/// Which words of a column.
#[derive(Clone, Copy, PartialEq, Eq, Debug)]
pub enum Part {
    /// Index word, version word.
    Entities,
    /// The words of the value, lowest first: two, or four in a store of values of sixteen bytes.
    Values,
}

/// A store in borrowed words. They held a sound store when it was made, by a start or by the test in [`Store::open`]. It
/// holds the only reference to them and lends none to write, so that nothing but its own runs changes them, and these
/// leave a sound store: so no other function tests them again.
///
/// `Store<'a>` has values of eight bytes, `Store<'a, Sixteen>` of sixteen, and its words say the same.
#[derive(Debug)]
pub struct Store<'a, W = Eight> {
    // A sound store of this width, always: the functions for words that are held rest on it, and so do the values read.
    words: &'a mut [u32],
    width: W,
}

/// A store of either width, as [`Store::open_any`] finds it.
#[derive(Debug)]
pub enum AnyStore<'a> {
    Eight(Store<'a>),
    Sixteen(Store<'a, Sixteen>),
}

/// Where a sound store has the bytes of a value (docs/WORDS.md).
const VALUE_BYTES: usize = 11;

/// The refusal with this number, if it is one.
fn refused(number: u8) -> Result<(), Refusal> {
    match Refusal::of(number) {
        Some(refusal) => Err(refusal),
        None => Ok(()),
    }
}

/// Whether the words hold a sound store: a run of no command changes nothing, and is refused where they do not.
fn tested(words: &mut [u32]) -> Result<(), Refusal> {
    let ran = unsafe { sys::yirbarn_run(words.as_mut_ptr(), words.len(), [].as_ptr(), 0, [].as_mut_ptr(), 0) };
    refused(ran.stop)
}

/// A store of values of eight bytes; and one of the width that the words have.
impl<'a> Store<'a> {
    /// How many words a store of so many entities and kinds takes, its values of eight bytes; `None` where there is no
    /// such store.
    ///
    /// ```
    /// assert_eq!(yirbarn::Store::words_needed(64, 8), Some(5184));
    /// assert_eq!(yirbarn::Store::words_needed(4097, 8), None);
    /// ```
    pub fn words_needed(entities: usize, kinds: usize) -> Option<usize> {
        match unsafe { sys::yirbarn_words_needed(entities, kinds) } {
            0 => None,
            needed => Some(needed),
        }
    }

    /// An empty store of values of eight bytes under [`Rule::Older`], whatever the words held. Refused: [`Refusal::Size`],
    /// [`Refusal::Short`]; the words are then as they were. Words past the needed ones never change.
    ///
    /// ```
    /// use yirbarn::{Refusal, Store};
    ///
    /// let mut words = vec![7; 5183];
    /// assert_eq!(Store::start(&mut words, 64, 8).unwrap_err(), Refusal::Short);
    /// assert_eq!(Store::start(&mut words, 0, 8).unwrap_err(), Refusal::Size);
    /// assert!(words.iter().all(|&word| word == 7));
    /// ```
    pub fn start(words: &'a mut [u32], entities: usize, kinds: usize) -> Result<Self, Refusal> {
        refused(unsafe { sys::yirbarn_start(words.as_mut_ptr(), words.len(), entities, kinds) })?;
        Ok(Self { words, width: Eight })
    }

    /// The store of values of eight bytes that the words hold already; as [`Store::open_with`], told [`Eight`].
    ///
    /// ```
    /// use yirbarn::{Refusal, Store};
    ///
    /// let mut words = vec![0; 5184];
    /// assert_eq!(Store::open(&mut words).unwrap_err(), Refusal::Unsound);
    /// Store::start(&mut words, 64, 8)?;
    /// let store = Store::open(&mut words)?;
    /// # Ok::<(), Refusal>(())
    /// ```
    pub fn open(words: &'a mut [u32]) -> Result<Self, Refusal> {
        Store::open_with(words, Eight)
    }

    /// The store that the words hold already, of the width that it has. Refused: [`Refusal::Unsound`].
    ///
    /// ```
    /// use yirbarn::{AnyStore, Refusal, Rule, Sixteen, Store};
    ///
    /// let mut words = vec![0; Store::words_needed_with(64, 8, Sixteen).unwrap()];
    /// Store::start_with(&mut words, 64, 8, Sixteen, Rule::Older)?;
    /// assert!(matches!(Store::open_any(&mut words)?, AnyStore::Sixteen(_)));
    /// Store::start(&mut words, 64, 8)?;
    /// assert!(matches!(Store::open_any(&mut words)?, AnyStore::Eight(_)));
    /// # Ok::<(), Refusal>(())
    /// ```
    pub fn open_any(words: &'a mut [u32]) -> Result<AnyStore<'a>, Refusal> {
        tested(words)?;
        if words[VALUE_BYTES] as usize == Eight::BYTES {
            return Ok(AnyStore::Eight(Store { words, width: Eight }));
        }
        // Sound, so it is the other.
        Ok(AnyStore::Sixteen(Store { words, width: Sixteen }))
    }
}

/// A store of either width.
impl<'a, W: Width> Store<'a, W> {
    /// How many words a store of so many entities and kinds takes, its values of this width; `None` where there is no
    /// such store.
    ///
    /// ```
    /// use yirbarn::{Eight, Sixteen, Store};
    ///
    /// assert_eq!(Store::words_needed_with(64, 8, Eight), Store::words_needed(64, 8));
    /// assert_eq!(Store::words_needed_with(64, 8, Sixteen), Some(6208));
    /// assert_eq!(Store::words_needed_with(4097, 8, Sixteen), None);
    /// ```
    pub fn words_needed_with(entities: usize, kinds: usize, width: W) -> Option<usize> {
        match unsafe { sys::yirbarn_words_needed_with(entities, kinds, width.bytes()) } {
            0 => None,
            needed => Some(needed),
        }
    }

    /// An empty store of the width and under the rule that are told, otherwise as [`Store::start`] makes it; refusals as
    /// there, and none for width and rule. The words keep both, and only another start over them gives others.
    ///
    /// Values of sixteen bytes:
    ///
    /// ```
    /// use yirbarn::{Entity, Part, Refusal, Row, Rule, Sixteen, Store};
    ///
    /// let mut words = vec![0; Store::words_needed_with(64, 8, Sixteen).unwrap()];
    /// let mut store = Store::start_with(&mut words, 64, 8, Sixteen, Rule::Older)?;
    ///
    /// // REG 1, HOLD 1 = 5 × 2^64 + 7, NEW: HOLD has sixteen bytes of value.
    /// let value: u128 = 5 << 64 | 7;
    /// let tape = [&[0x01, 1, 0x02, 1][..], &value.to_le_bytes(), &[0x03]].concat();
    /// let ran = store.run(&tape, &mut [0; 64]);
    /// assert_eq!((ran.stop, ran.commands), (None, 3));
    ///
    /// let entity = Entity { index: 0, version: 1 };
    /// assert!(store.rows(1, 0, 1)?.eq([Row { entity, value }]));
    /// assert_eq!(store.column(1, Part::Values, 0, 1)?, [7, 0, 5, 0]);
    /// # Ok::<(), Refusal>(())
    /// ```
    ///
    /// Both rules:
    ///
    /// ```
    /// use yirbarn::{Eight, Refusal, Rule, Store};
    ///
    /// // HOLD of each kind, with value 0.
    /// let hold = |kinds: &[u8]| -> Vec<u8> {
    ///     kinds.iter().flat_map(|&kind| [0x02, kind, 0, 0, 0, 0, 0, 0, 0, 0]).collect()
    /// };
    /// // REG 1 to 4; GROUP {1,2}, GROUP {1,2,3,4}, APPLY; NEW with 1, 2 and 3; RANGE of {1,2} without 3 and 4.
    /// let tape = [
    ///     vec![0x01, 1, 0x01, 2, 0x01, 3, 0x01, 4],
    ///     hold(&[1, 2]),
    ///     vec![0x09],
    ///     hold(&[1, 2, 3, 4]),
    ///     vec![0x09, 0x0a],
    ///     hold(&[1, 2, 3]),
    ///     vec![0x03],
    ///     hold(&[1, 2]),
    ///     vec![0x0b, 3, 0x0b, 4, 0x0c],
    /// ]
    /// .concat();
    ///
    /// // The entity has 3 and lacks 4. Older: found, from 0 to 1. Newer: none.
    /// let (found, none) = ([0, 1, 0, 0, 0, 0, 1, 0, 0, 0], [0; 10]);
    /// for (rule, range) in [(Rule::Older, found), (Rule::Newer, none)] {
    ///     let mut words = vec![0; Store::words_needed(8, 4).unwrap()];
    ///     let mut store = Store::start_with(&mut words, 8, 4, Eight, rule)?;
    ///     let mut answers = [0; 64];
    ///     let ran = store.run(&tape, &mut answers);
    ///     assert_eq!((ran.stop, ran.commands), (None, 22));
    ///     assert_eq!(answers[ran.written - 10..ran.written], range);
    /// }
    /// # Ok::<(), Refusal>(())
    /// ```
    pub fn start_with(
        words: &'a mut [u32],
        entities: usize,
        kinds: usize,
        width: W,
        rule: Rule,
    ) -> Result<Self, Refusal> {
        let (len, newer) = (words.len(), rule == Rule::Newer);
        refused(unsafe { sys::yirbarn_start_with(words.as_mut_ptr(), len, entities, kinds, width.bytes(), newer) })?;
        Ok(Self { words, width })
    }

    /// The store of this width that the words hold already. Refused: [`Refusal::Unsound`], where they hold none, and then
    /// [`Refusal::Size`], where it has the other width. That is tested here and only here, in time in proportion to the
    /// words.
    ///
    /// ```
    /// use yirbarn::{Refusal, Rule, Sixteen, Store};
    ///
    /// let mut words = vec![0; Store::words_needed_with(64, 8, Sixteen).unwrap()];
    /// assert_eq!(Store::open_with(&mut words, Sixteen).unwrap_err(), Refusal::Unsound);
    /// Store::start_with(&mut words, 64, 8, Sixteen, Rule::Older)?;
    /// assert_eq!(Store::open(&mut words).unwrap_err(), Refusal::Size);
    /// let store = Store::open_with(&mut words, Sixteen)?;
    /// # Ok::<(), Refusal>(())
    /// ```
    pub fn open_with(words: &'a mut [u32], width: W) -> Result<Self, Refusal> {
        tested(words)?;
        if words[VALUE_BYTES] as usize != width.bytes() {
            return Err(Refusal::Size);
        }
        Ok(Self { words, width })
    }

    /// The width of its values.
    pub fn width(&self) -> W {
        self.width
    }

    /// Does the tape's commands, one after the other, and writes their answers to the front of `answers`.
    ///
    /// It stops before a command that is [`Refusal::Unknown`], [`Refusal::Cut`] or whose accepted answer has
    /// [`Refusal::NoRoom`]; what came before is done, and a run of the tape from `read` on goes on. A refused command
    /// answers its number alone, and changes nothing but the refusals counted for the store's caller.
    ///
    /// So a long tape can be fed in pieces, cut anywhere: after each run, take its answers, and go on with the bytes from
    /// `read` on, the next piece behind them ([`Refusal::Cut`]: the last command of the piece goes on in the next).
    ///
    /// The store's caller says whose commands these are: a number 0 to 15, which SETCALLER sets for what follows, in
    /// later runs too; 0 after a start. Each has a count of its own, and TALLY tells that of the one that is set.
    ///
    /// ```
    /// use yirbarn::{Refusal, Store};
    ///
    /// let mut words = vec![0; Store::words_needed(4, 1).unwrap()];
    /// let mut store = Store::start(&mut words, 4, 1)?;
    /// // REG 9, REG 8 (one kind at most), TALLY, and then no command.
    /// let mut answers = [0xff; 16];
    /// let ran = store.run(&[0x01, 9, 0x01, 8, 0x0e, 0x77], &mut answers);
    /// assert_eq!(ran.stop, Some(Refusal::Unknown));
    /// assert_eq!((ran.commands, ran.read, ran.written), (3, 5, 8));
    /// assert_eq!(answers[..8], [0, 1, Refusal::Kinds as u8, 0, 1, 0, 0, 0]);
    ///
    /// // SETCALLER 3, TALLY: of caller 3 nothing was refused. SETCALLER 16 is, and caller 3 stays.
    /// let ran = store.run(&[0x10, 3, 0x0e, 0x10, 16, 0x0e], &mut answers);
    /// assert_eq!((ran.stop, ran.commands, ran.written), (None, 4, 12));
    /// assert_eq!(answers[..12], [0, 0, 0, 0, 0, 0, Refusal::Caller as u8, 0, 1, 0, 0, 0]);
    /// # Ok::<(), Refusal>(())
    /// ```
    pub fn run(&mut self, tape: &[u8], answers: &mut [u8]) -> Ran {
        let ran = unsafe {
            sys::yirbarn_held_run(
                self.words.as_mut_ptr(),
                self.words.len(),
                tape.as_ptr(),
                tape.len(),
                answers.as_mut_ptr(),
                answers.len(),
            )
        };
        Ran {
            stop: Refusal::of(ran.stop),
            commands: ran.commands,
            read: ran.read,
            written: ran.written,
        }
    }

    /// The words of a kind's rows from `start` to before `end`, in place: two a row, or as many as a value has. Refused:
    /// [`Refusal::Kind`] where the kind is not registered, [`Refusal::Beyond`] where the rows are not there. How many rows
    /// there are, RANGE tells.
    ///
    /// ```
    /// use yirbarn::{Part, Refusal, Store};
    ///
    /// let mut words = vec![0; Store::words_needed(4, 1).unwrap()];
    /// let mut store = Store::start(&mut words, 4, 1)?;
    /// // REG 9, HOLD 9 = 2^32 + 6, NEW.
    /// store.run(&[0x01, 9, 0x02, 9, 6, 0, 0, 0, 1, 0, 0, 0, 0x03], &mut [0; 16]);
    /// assert_eq!(store.column(9, Part::Entities, 0, 1)?, [0, 1]);
    /// assert_eq!(store.column(9, Part::Values, 0, 1)?, [6, 1]);
    /// assert_eq!(store.column(9, Part::Values, 0, 2), Err(Refusal::Beyond));
    /// assert_eq!(store.column(8, Part::Values, 0, 0), Err(Refusal::Kind));
    /// # Ok::<(), Refusal>(())
    /// ```
    pub fn column(&self, kind: u8, part: Part, start: usize, end: usize) -> Result<&[u32], Refusal> {
        let values = part == Part::Values;
        let (words, len) = (self.words.as_ptr(), self.words.len());
        match unsafe { sys::yirbarn_held_column_at(words, len, kind, values, start, end) } {
            // No column starts there, so it is refused; the number says why.
            0 => {
                refused(unsafe { sys::yirbarn_held_column_number(words, len, kind, values, start, end) })?;
                Ok(&[])
            }
            at => Ok(&self.words[at..at + self.row_words(part) * (end - start)]),
        }
    }

    fn row_words(&self, part: Part) -> usize {
        match part {
            Part::Entities => 2,
            Part::Values => self.width.words(),
        }
    }

    /// Copies the same words to the front of `out`, and gives how many they are. Refused: as of [`Store::column`], and
    /// then [`Refusal::NoRoom`]; nothing is copied then. Words past those copied are as they were.
    ///
    /// ```
    /// # use yirbarn::{Part, Refusal, Store};
    /// # let mut words = vec![0; Store::words_needed(4, 1).unwrap()];
    /// # let mut store = Store::start(&mut words, 4, 1)?;
    /// // REG 9, HOLD 9 = 6, NEW.
    /// store.run(&[0x01, 9, 0x02, 9, 6, 0, 0, 0, 0, 0, 0, 0, 0x03], &mut [0; 16]);
    /// let mut out = [7; 3];
    /// assert_eq!(store.copy_column(9, Part::Values, 0, 1, &mut out[..1]), Err(Refusal::NoRoom));
    /// assert_eq!(store.copy_column(9, Part::Values, 1, 1, &mut out), Ok(0));
    /// assert_eq!(out, [7; 3]);
    /// assert_eq!(store.copy_column(9, Part::Values, 0, 1, &mut out), Ok(2));
    /// assert_eq!(out, [6, 0, 7]);
    /// # Ok::<(), Refusal>(())
    /// ```
    pub fn copy_column(
        &self,
        kind: u8,
        part: Part,
        start: usize,
        end: usize,
        out: &mut [u32],
    ) -> Result<usize, Refusal> {
        let copied = unsafe {
            sys::yirbarn_held_column(
                self.words.as_ptr(),
                self.words.len(),
                kind,
                part == Part::Values,
                start,
                end,
                out.as_mut_ptr(),
                out.len(),
            )
        };
        refused(copied.number)?;
        Ok(copied.written)
    }

    /// The entities of a kind's rows, in row order; refusals as of [`Store::column`].
    ///
    /// ```
    /// # use yirbarn::{Entity, Store};
    /// # let mut words = vec![0; Store::words_needed(4, 1).unwrap()];
    /// # let mut store = Store::start(&mut words, 4, 1)?;
    /// // REG 9, NEW, HOLD 9 = 0, NEW.
    /// store.run(&[0x01, 9, 0x03, 0x02, 9, 0, 0, 0, 0, 0, 0, 0, 0, 0x03], &mut [0; 32]);
    /// assert!(store.entities(9, 0, 1)?.eq([Entity { index: 1, version: 1 }]));
    /// # Ok::<(), yirbarn::Refusal>(())
    /// ```
    pub fn entities(&self, kind: u8, start: usize, end: usize) -> Result<Entities<'_>, Refusal> {
        Ok(Entities::new(self.column(kind, Part::Entities, start, end)?))
    }

    /// The values of a kind's rows, in row order, each a `u64`, or of sixteen bytes a `u128`; refusals as of
    /// [`Store::column`].
    ///
    /// ```
    /// # use yirbarn::Store;
    /// # let mut words = vec![0; Store::words_needed(4, 1).unwrap()];
    /// # let mut store = Store::start(&mut words, 4, 1)?;
    /// // REG 9, HOLD 9 = 2^56, NEW.
    /// store.run(&[0x01, 9, 0x02, 9, 0, 0, 0, 0, 0, 0, 0, 1, 0x03], &mut [0; 32]);
    /// assert!(store.values(9, 0, 1)?.eq([1 << 56]));
    /// # Ok::<(), yirbarn::Refusal>(())
    /// ```
    ///
    /// ```
    /// # use yirbarn::{Rule, Sixteen, Store};
    /// # let mut words = vec![0; Store::words_needed_with(4, 1, Sixteen).unwrap()];
    /// # let mut store = Store::start_with(&mut words, 4, 1, Sixteen, Rule::Older)?;
    /// // REG 9, HOLD 9 = 2^120, NEW.
    /// store.run(&[0x01, 9, 0x02, 9, 0, 0, 0, 0, 0, 0, 0, 0, 0, 0, 0, 0, 0, 0, 0, 1, 0x03], &mut [0; 32]);
    /// assert!(store.values(9, 0, 1)?.eq([1 << 120]));
    /// # Ok::<(), yirbarn::Refusal>(())
    /// ```
    ///
    /// The values of one width are not to be had as those of the other:
    ///
    /// ```compile_fail,E0308
    /// # use yirbarn::{Rule, Sixteen, Store};
    /// # let mut words = vec![0; Store::words_needed_with(4, 1, Sixteen).unwrap()];
    /// let store = Store::start_with(&mut words, 4, 1, Sixteen, Rule::Older)?;
    /// let first: Option<u64> = store.values(9, 0, 1)?.next();
    /// # Ok::<(), yirbarn::Refusal>(())
    /// ```
    pub fn values(&self, kind: u8, start: usize, end: usize) -> Result<Values<'_, W>, Refusal> {
        Ok(Values::new(self.column(kind, Part::Values, start, end)?, self.width))
    }

    /// Entities and values of a kind's rows together; refusals as of [`Store::column`].
    ///
    /// ```
    /// # use yirbarn::Store;
    /// # let mut words = vec![0; Store::words_needed(4, 1).unwrap()];
    /// # let mut store = Store::start(&mut words, 4, 1)?;
    /// // REG 9, and two entities with 9 = 3 and 9 = 4.
    /// let tape = [[0x02, 9, 3, 0, 0, 0, 0, 0, 0, 0, 0x03], [0x02, 9, 4, 0, 0, 0, 0, 0, 0, 0, 0x03]].concat();
    /// store.run(&[0x01, 9], &mut [0; 2]);
    /// store.run(&tape, &mut [0; 32]);
    /// let sum: u64 = store.rows(9, 0, 2)?.map(|row| row.value).sum();
    /// assert_eq!(sum, 7);
    /// # Ok::<(), yirbarn::Refusal>(())
    /// ```
    pub fn rows(&self, kind: u8, start: usize, end: usize) -> Result<Rows<'_, W>, Refusal> {
        Ok(Rows::new(
            self.entities(kind, start, end)?,
            self.values(kind, start, end)?,
        ))
    }

    /// Writes the roll to the front of `out`, and gives its length. Refused: [`Refusal::NoRoom`]; nothing is written then.
    ///
    /// Its bytes: live count 4; then each live entity by rising index: index 4, version 4, number of components 1; then
    /// each component by rising kind: kind 1, value 8, or of sixteen bytes 16.
    ///
    /// ```
    /// # use yirbarn::{Refusal, Store};
    /// # let mut words = vec![0; Store::words_needed(4, 1).unwrap()];
    /// # let mut store = Store::start(&mut words, 4, 1)?;
    /// // NEW.
    /// store.run(&[0x03], &mut [0; 9]);
    /// let mut out = [0; 13];
    /// assert_eq!(store.roll(&mut out), Ok(13));
    /// assert_eq!(out, [1, 0, 0, 0, 0, 0, 0, 0, 1, 0, 0, 0, 0]);
    /// assert_eq!(store.roll(&mut out[..12]), Err(Refusal::NoRoom));
    /// # Ok::<(), Refusal>(())
    /// ```
    pub fn roll(&self, out: &mut [u8]) -> Result<usize, Refusal> {
        let (words, len) = (self.words.as_ptr(), self.words.len());
        let rolled = unsafe { sys::yirbarn_held_roll(words, len, out.as_mut_ptr(), out.len()) };
        refused(rolled.number)?;
        Ok(rolled.written)
    }

    /// The words, to be read and kept: [`Store::open`] takes them again.
    pub fn words(&self) -> &[u32] {
        self.words
    }
}
