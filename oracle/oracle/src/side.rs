//! The entries of documents 01 and 02, as either side of the comparison offers them.

use crate::tape::NARROW;
use sparsey::harness::{
    words_needed, Counts, Families, Id, Oracle, Preset, Ran, COMMANDS, JUDGEMENTS, NUMBERS, WIDTHS,
};

/// How RANGE reads excluded kinds (02, No. 8): told at the start, and kept.
#[derive(Clone, Copy, PartialEq, Eq, Default, Debug)]
pub enum Rule {
    /// 01's: entities that lack one or more of them.
    #[default]
    Older,
    /// Entities that have none of them.
    Newer,
}

/// What a start is told besides N and K; it is fixed for the store's life.
#[derive(Clone, Copy, PartialEq, Eq, Debug)]
pub struct Told {
    /// The bytes of a component's value (02, No. 13).
    pub value_bytes: usize,
    pub rule: Rule,
}

/// What plain *start* does, which is told neither.
impl Default for Told {
    fn default() -> Self {
        Self {
            value_bytes: NARROW,
            rule: Rule::Older,
        }
    }
}

impl Told {
    /// What a start is told for stores of this width under a rule, if it is named: nothing where plain *start* does.
    pub fn by(value_bytes: usize, rule: Option<Rule>) -> Option<Self> {
        match (value_bytes, rule) {
            (NARROW, None) => None,
            (value_bytes, rule) => Some(Self {
                value_bytes,
                rule: rule.unwrap_or_default(),
            }),
        }
    }
}

/// One side of the comparison: a store, lent or of its own, and the entries on it.
pub trait Side {
    fn name(&self) -> &'static str;

    /// *start* on `words` words: the number. Its store has values of eight bytes, and the older rule.
    fn start(&mut self, words: usize, n: usize, k: usize) -> u32;

    /// The start that is told width and rule.
    fn start_with(&mut self, words: usize, n: usize, k: usize, told: Told) -> u32;

    /// One or the other.
    fn start_told(&mut self, told: Option<Told>, words: usize, n: usize, k: usize) -> u32 {
        match told {
            None => self.start(words, n, k),
            Some(told) => self.start_with(words, n, k, told),
        }
    }

    /// How many words a store with values of so many bytes takes; 0 where there is no such store.
    fn words_needed(&mut self, n: usize, k: usize, value_bytes: usize) -> usize;

    /// Puts the started store into a state that an empty one reaches only by very many commands.
    fn preset(&mut self, preset: &Preset);

    fn run(&mut self, tape: &[u8], out: &mut [u8]) -> Ran;

    /// *column*: the part's words, entities, two each, or values, one for every four bytes.
    fn column(&mut self, kind: u8, values: bool, start: usize, end: usize) -> Vec<u32>;

    /// The number of *column* with the same operands.
    fn column_number(&mut self, kind: u8, values: bool, start: usize, end: usize) -> u32;

    /// *roll*: the number and how many bytes were written.
    fn roll(&mut self, out: &mut [u8]) -> (u32, usize);

    /// The live list, in its order.
    fn live(&mut self) -> Vec<Id>;

    /// The families of the draft and of the layout in force, in any order.
    fn families(&mut self) -> [Families; 2];

    /// The caller and the refusal counts; of no store, those of an empty one.
    fn counts(&mut self) -> Counts;

    /// The rule, if it is one; of no store, the older.
    fn rule(&mut self) -> Option<Rule>;

    /// The bytes of a value, if they are one of the two widths; of no store, eight.
    fn value_bytes(&mut self) -> Option<usize>;

    /// Looks at what can be seen of this side alone, at the cost of many runs. The store is as before then.
    fn probe(&mut self) {}

    /// What the side found wrong with itself since the last call.
    fn complaint(&mut self) -> Option<String> {
        None
    }
}

/// How often each command byte was answered by each number.
pub type Seen = [[u64; NUMBERS]; COMMANDS];

/// What a RANGE has excluded, for the figures. A ring is the next larger group's, and a group is staged then.
pub const EXCLUDED: [&str; 5] = [
    "nothing",
    "a ring of one kind",
    "a ring of two",
    "a ring of three or more",
    "other kinds",
];

/// How often RANGE found something with each of these excluded, and how often nothing.
pub type Ranged = [[u64; 2]; EXCLUDED.len()];

/// A side that others are held to.
pub trait Known: Side {
    /// The registered kinds, rising.
    fn registered(&self) -> Vec<u8>;

    /// The length of a registered kind's column.
    fn length(&self, kind: u8) -> Option<usize>;

    /// How many entities can still be created.
    fn free(&self) -> usize;

    fn seen(&self) -> Seen;

    /// How often GROUP judged each of `JUDGEMENTS`, where the side counts it.
    fn judged(&self) -> [u64; JUDGEMENTS.len()] {
        [0; JUDGEMENTS.len()]
    }

    /// What RANGE found, where the side counts it.
    fn ranged(&self) -> Ranged {
        Ranged::default()
    }
}

impl Known for Oracle {
    fn registered(&self) -> Vec<u8> {
        Oracle::registered(self)
    }

    fn length(&self, kind: u8) -> Option<usize> {
        Oracle::length(self, kind)
    }

    fn free(&self) -> usize {
        Oracle::free(self)
    }

    fn seen(&self) -> Seen {
        self.seen
    }

    fn judged(&self) -> [u64; JUDGEMENTS.len()] {
        Oracle::judged(self)
    }
}

impl Side for Oracle {
    fn name(&self) -> &'static str {
        "Rust"
    }

    fn start(&mut self, words: usize, n: usize, k: usize) -> u32 {
        Oracle::start(self, words, n, k, NARROW)
    }

    fn start_with(&mut self, words: usize, n: usize, k: usize, told: Told) -> u32 {
        assert_eq!(told.rule, Rule::Older, "the Rust has the older rule alone");
        Oracle::start(self, words, n, k, told.value_bytes)
    }

    fn words_needed(&mut self, n: usize, k: usize, value_bytes: usize) -> usize {
        match (1..=4096).contains(&n) && (1..=128).contains(&k) && WIDTHS.contains(&value_bytes) {
            true => words_needed(n, k, value_bytes),
            false => 0,
        }
    }

    fn preset(&mut self, preset: &Preset) {
        Oracle::preset(self, preset);
    }

    fn run(&mut self, tape: &[u8], out: &mut [u8]) -> Ran {
        Oracle::run(self, tape, out)
    }

    fn column(&mut self, kind: u8, values: bool, start: usize, end: usize) -> Vec<u32> {
        if Oracle::column_number(self, kind, start, end) != 0 {
            return vec![];
        }
        let (ids, numbers) = Oracle::column(self, kind).unwrap();
        let words = Oracle::value_bytes(self).unwrap() / 4;
        match values {
            false => ids[start..end]
                .iter()
                .flat_map(|&(index, version)| [index, version])
                .collect(),
            true => numbers[start..end]
                .iter()
                .flat_map(|&value| (0..words).map(move |word| (value >> (32 * word)) as u32))
                .collect(),
        }
    }

    fn column_number(&mut self, kind: u8, _values: bool, start: usize, end: usize) -> u32 {
        Oracle::column_number(self, kind, start, end)
    }

    fn roll(&mut self, out: &mut [u8]) -> (u32, usize) {
        Oracle::roll(self, out)
    }

    fn live(&mut self) -> Vec<Id> {
        Oracle::live(self)
    }

    fn families(&mut self) -> [Families; 2] {
        Oracle::families(self)
    }

    fn counts(&mut self) -> Counts {
        Oracle::counts(self)
    }

    fn rule(&mut self) -> Option<Rule> {
        Some(Rule::Older)
    }

    fn value_bytes(&mut self) -> Option<usize> {
        Some(Oracle::value_bytes(self).unwrap_or(NARROW))
    }
}
