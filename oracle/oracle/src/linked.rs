//! The other side by the static library of the crate `store_c`, through the declarations of `bindings/rust`, and what can
//! be seen of its words.

use crate::rng::Rng;
use crate::side::{Rule, Side, Told};
use crate::tape::{self, NARROW};
use crate::words;
use sparsey::harness::{words_needed, Counts, Families, Id, Preset, Ran, CALLERS, WIDTHS};
use yirbarn::sys;

// The arrangement of the words, for what no entry shows and for presets (docs/WORDS.md).
const N: usize = 0;
const K: usize = 1;
const REGISTERED: usize = 2;
const DRAFT_FAMILIES: usize = 5;
const LAYOUT_FAMILIES: usize = 7;
const DRAFT: usize = 256;
const LAYOUT: usize = 576;
const ENTITIES: usize = 1024;
const LIVE: usize = ENTITIES;
const ISSUED: usize = ENTITIES + 1;
const RING_HEAD: usize = ENTITIES + 2;
const RECYCLED: usize = ENTITIES + 3;
const LISTS: usize = ENTITIES + 8;

// Inside a layout block, behind the kinds.
const ARITIES: usize = 128;
const KIND_ENDS: usize = 192;
const ENDS: usize = 256;

/// Callers that no sound store has.
const NO_CALLERS: [u32; 8] = [16, 17, 31, 255, 256, 1 << 16, 1 << 31, u32::MAX];

/// What no sound store has in the word of the rule.
const NO_RULES: [u32; 7] = [2, 3, 255, 256, 1 << 16, 1 << 31, u32::MAX];

/// What no sound store has in the word of the width.
const NO_WIDTHS: [u32; 14] = [
    0,
    1,
    2,
    4,
    7,
    9,
    15,
    17,
    24,
    32,
    256 + 8,
    (1 << 16) + 16,
    (1 << 31) + 8,
    u32::MAX,
];

/// The number of words that hold no sound store.
const UNSOUND: u32 = 3;

/// Words past those that a store is lent, which must stay as they are.
const BEYOND: usize = 3;

/// What stands in a buffer before a copy.
const FILL: u32 = 0x5a5a_5a5a;

/// Stores of up to this many words are compared as a whole before and after each entry.
const WATCHED: usize = 1 << 14;

/// The start that is told width and rule, or *start*, on so many of the words.
fn enter_start(words: &mut [u32], told: Option<Told>, lent: usize, n: usize, k: usize) -> u8 {
    assert!(lent <= words.len());
    let at = words.as_mut_ptr();
    match told {
        None => unsafe { sys::yirbarn_start(at, lent, n, k) },
        Some(Told { value_bytes, rule }) => unsafe {
            sys::yirbarn_start_with(at, lent, n, k, value_bytes, rule == Rule::Newer)
        },
    }
}

pub struct Linked {
    words: Vec<u32>,
    /// How many of the words are lent, and how many the store needs.
    lent: usize,
    needed: usize,
    complaint: Option<String>,
    rng: Rng,
    /// Copies of columns so far.
    copies: usize,
}

impl Linked {
    /// No store: the words hold anything but one.
    pub fn new() -> Self {
        let mut linked = Self {
            words: vec![],
            lent: 2000,
            needed: 0,
            complaint: None,
            rng: Rng::new(7),
            copies: 0,
        };
        linked.reach(2000 + BEYOND);
        linked
    }

    fn reach(&mut self, len: usize) {
        while self.words.len() < len {
            let word = self.rng.next() as u32;
            self.words.push(word);
        }
    }

    fn complain(&mut self, what: String) {
        self.complaint.get_or_insert(what);
    }

    /// Holds the words from `from` on to what they must be.
    fn hold_words(&mut self, expected: &[u32], from: usize, what: &str) {
        if let Some(at) = (from..expected.len()).find(|&at| expected[at] != self.words[at]) {
            let (expected, word) = (expected[at], self.words[at]);
            self.complain(format!("{what}: word {at} of {} is {word}, not {expected}", self.lent));
        }
    }

    /// Holds the words to those before a run, as far as its answers tell what it does to them.
    fn hold_run(&mut self, before: Vec<u32>, tape: &[u8], answers: &[u8], commands: usize) {
        self.hold_words(&before, self.needed, "a run, past the words needed");
        match (commands, answers) {
            (0, _) => self.hold_words(&before, 0, "a run of no command"),
            (1, [0]) if tape[0] == tape::SETCALLER => {
                self.hold_words(&words::after_set_caller(before, tape[1]), 0, "SETCALLER");
            }
            (1, [number]) if *number != 0 => {
                self.hold_words(&words::after_refusal(before), 0, "a refused command");
            }
            _ => {}
        }
    }

    /// The start that is told width and rule, or *start*. The other of the two, at eight bytes and under the older rule and
    /// on a copy, must do the same, word for word, but for width and rule.
    fn start_by(&mut self, told: Option<Told>, words: usize, n: usize, k: usize) -> u32 {
        self.reach(words + BEYOND);
        let before = self.words.clone();
        let mut twin = before.clone();
        let other = told.is_none().then(Told::default);
        let number = enter_start(&mut self.words, told, words, n, k);
        let again = enter_start(&mut twin, other, words, n, k);
        let value_bytes = told.unwrap_or_default().value_bytes;
        // Of another width it is refused where the other is not, and never the other way round.
        if number != again && (value_bytes == NARROW || number == 0) {
            self.complain(format!("start told {told:?}: {number}, told {other:?}: {again}"));
        }
        if number != 0 {
            self.hold_words(&before, 0, "a refused start");
            if again != 0 {
                self.hold_words(&twin, 0, "a refused start beside the other");
            }
            return u32::from(number);
        }
        self.hold_twin(twin, told.unwrap_or_default(), n, k);
        self.hold_words(&before, words_needed(n, k, value_bytes), "start");
        self.lent = words;
        self.needed = words_needed(n, k, value_bytes);
        0
    }

    /// Holds the words of a start to those of the other, at eight bytes and under the older rule: its own width and rule, and
    /// zeros in the words that it needs more.
    fn hold_twin(&mut self, mut twin: Vec<u32>, told: Told, n: usize, k: usize) {
        let were = (words::value_bytes(&twin), words::rule(&twin));
        if were != (Some(NARROW), Some(Rule::Older)) {
            self.complain(format!("a start at eight bytes and under the older rule has {were:?}"));
        }
        twin[words::RULE] = words::rule_word(told.rule);
        twin[words::VALUE_BYTES] = told.value_bytes as u32;
        twin[words_needed(n, k, NARROW)..words_needed(n, k, told.value_bytes)].fill(0);
        self.hold_words(&twin, 0, "a start beside the other");
    }

    /// The entry *run* itself.
    fn enter(&mut self, tape: &[u8], out: &mut [u8]) -> sys::Ran {
        unsafe {
            sys::yirbarn_run(
                self.words.as_mut_ptr(),
                self.lent,
                tape.as_ptr(),
                tape.len(),
                out.as_mut_ptr(),
                out.len(),
            )
        }
    }

    /// *run* for words that are held, on those before a run that did not stop by 3: it must do the same.
    fn hold_held_run(&mut self, mut held: Vec<u32>, tape: &[u8], mut again: Vec<u8>, out: &[u8], ran: sys::Ran) {
        let held_ran = unsafe {
            sys::yirbarn_held_run(
                held.as_mut_ptr(),
                self.lent,
                tape.as_ptr(),
                tape.len(),
                again.as_mut_ptr(),
                again.len(),
            )
        };
        if held_ran != ran || again != out {
            self.complain(format!(
                "a run of held words: {held_ran:?}, not {ran:?}, or other answers"
            ));
        }
        self.hold_words(&held, 0, "a run beside the same of held words");
    }

    /// With another word at a place for the time: the numbers of TALLY's run, of *column*, of a copy, and of *roll* into no
    /// room; and what TALLY tells. None of them changes a word.
    fn entries(&mut self, at: usize, word: u32) -> ([u32; 4], [u8; 8]) {
        let kept = std::mem::replace(&mut self.words[at], word);
        let before = self.words.clone();
        let mut told = [FILL as u8; 8];
        let numbers = [
            self.enter(&tape::tally(), &mut told).stop.into(),
            self.column_number(0, false, 0, 0),
            self.copy(0, false, 0, 0, &mut []).0.into(),
            self.roll(&mut []).0,
        ];
        self.hold_words(&before, 0, "entries with another word");
        self.words[at] = kept;
        (numbers, told)
    }

    /// With this word at the place, which a sound store can have, every entry takes the store, and TALLY tells the count.
    fn probe_sound(&mut self, at: usize, word: u32, count: u32) {
        let (numbers, told) = self.entries(at, word);
        let count = count.to_le_bytes();
        if numbers.contains(&UNSOUND) || told[0] != 0 || told[1..5] != count {
            self.complain(format!(
                "word {at} set to {word}: numbers {numbers:?}, TALLY {told:?}, not {count:?}"
            ));
        }
    }

    /// With this word at the place no store is sound, and every entry says so.
    fn probe_unsound(&mut self, at: usize, word: u32) {
        let (numbers, told) = self.entries(at, word);
        if numbers != [UNSOUND; 4] || told != [FILL as u8; 8] {
            self.complain(format!("word {at} set to {word}: numbers {numbers:?}, TALLY {told:?}"));
        }
    }

    /// The same store under this rule for the time: what an empty run answers, and the roll, which changes no word either.
    fn under(&mut self, rule: Rule) -> (sys::Ran, u32, Vec<u8>) {
        let kept = std::mem::replace(&mut self.words[words::RULE], words::rule_word(rule));
        let before = self.words.clone();
        let ran = self.enter(&[], &mut []);
        let mut out = vec![FILL as u8; self.roll_length()];
        let (number, _) = self.roll(&mut out);
        self.hold_words(&before, 0, "an empty run and the roll under another rule");
        self.words[words::RULE] = kept;
        (ran, number, out)
    }

    /// Both rules are taken, with the same roll, and nothing else is.
    fn probe_rules(&mut self, count: u32) {
        let [older, newer] = [Rule::Older, Rule::Newer].map(|rule| {
            self.probe_sound(words::RULE, words::rule_word(rule), count);
            self.under(rule)
        });
        if older != newer || older.0.stop != 0 || older.1 != 0 {
            self.complain(format!("under the older rule {older:?}, under the newer {newer:?}"));
        }
        for word in NO_RULES {
            self.probe_unsound(words::RULE, word);
        }
    }

    /// The two widths are taken as they are, and nothing else is. Of the other width the store may be sound or not, but not
    /// where the words are too few for it; none of the entries changes a word then.
    fn probe_widths(&mut self, count: u32) {
        let own = self.words[words::VALUE_BYTES];
        self.probe_sound(words::VALUE_BYTES, own, count);
        for other in WIDTHS.into_iter().filter(|&other| other != own as usize) {
            match self.lent < words_needed(self.word(N), self.word(K), other) {
                true => self.probe_unsound(words::VALUE_BYTES, other as u32),
                false => {
                    self.entries(words::VALUE_BYTES, other as u32);
                }
            }
        }
        for word in NO_WIDTHS {
            self.probe_unsound(words::VALUE_BYTES, word);
        }
    }

    /// The bytes of a value by the word; eight where there is no store, or no width.
    fn width(&self) -> usize {
        match self.needed {
            0 => NARROW,
            _ => words::value_bytes(&self.words).unwrap_or(NARROW),
        }
    }

    /// How many words *column* gives for a row.
    fn row_words(&self, values: bool) -> usize {
        match values {
            false => 2,
            true => self.width() / 4,
        }
    }

    /// How many bytes the roll takes: a column's rows are counted in its first word.
    fn roll_length(&self) -> usize {
        let column = |slot: usize| words_needed(self.word(N), slot, self.width());
        let rows: usize = (0..self.word(REGISTERED)).map(|slot| self.word(column(slot))).sum();
        4 + 9 * self.word(LIVE) + (1 + self.width()) * rows
    }

    fn word(&self, at: usize) -> usize {
        self.words[at] as usize
    }

    /// The families of a layout block.
    fn block(&self, block: usize, families: usize) -> Families {
        let part = |table: usize, family: usize| {
            let start = family
                .checked_sub(1)
                .map_or(0, |before| self.word(block + table + before));
            start..self.word(block + table + family)
        };
        let family = |family: usize| {
            let first = block + part(KIND_ENDS, family).start;
            part(ENDS, family)
                .map(|group| &self.words[first..first + self.word(block + ARITIES + group)])
                .map(|kinds| kinds.iter().fold(0, |set, kind| set | 1 << kind))
                .collect()
        };
        (0..families).map(family).collect()
    }

    fn copy(&self, kind: u8, values: bool, start: usize, end: usize, out: &mut [u32]) -> (u8, usize) {
        let copied = unsafe {
            sys::yirbarn_column(
                self.words.as_ptr(),
                self.lent,
                kind,
                values,
                start,
                end,
                out.as_mut_ptr(),
                out.len(),
            )
        };
        (copied.number, copied.written)
    }

    /// *column* for words that are held, three ways: number, place and copy must be those of the entries.
    fn hold_held_column(
        &mut self,
        kind: u8,
        values: bool,
        start: usize,
        end: usize,
        (number, at): (u8, usize),
        copied: &[u32],
    ) {
        let (words, len) = (self.words.as_ptr(), self.lent);
        let mut out = vec![FILL; copied.len()];
        let (held_number, held_at, held_copy) = unsafe {
            (
                sys::yirbarn_held_column_number(words, len, kind, values, start, end),
                sys::yirbarn_held_column_at(words, len, kind, values, start, end),
                sys::yirbarn_held_column(words, len, kind, values, start, end, out.as_mut_ptr(), out.len()),
            )
        };
        if [held_number, held_copy.number] != [number; 2] || held_at != at || out != copied {
            self.complain(format!(
                "column of kind {kind}, {start}..{end} of held words: {held_number}, {held_copy:?}, those in place at {held_at}, not {number} at {at}, or other words"
            ));
        }
    }

    /// The number of a copy, which is column's, and of one into a buffer that is a word short.
    fn copy_numbers(&mut self, kind: u8, values: bool, start: usize, end: usize, number: u8) {
        let expected = self.column_number(kind, values, start, end);
        if u32::from(number) != expected {
            self.complain(format!(
                "copy of column {kind}, {start}..{end}: {number}, not {expected}"
            ));
        }
        if number != 0 || start == end {
            return;
        }
        let mut out = vec![FILL; self.row_words(values) * (end - start) - 1];
        let short = self.copy(kind, values, start, end, &mut out);
        if short != (6, 0) || out.iter().any(|&word| word != FILL) {
            self.complain(format!("short copy of column {kind}, {start}..{end}: {short:?}"));
        }
    }
}

impl Side for Linked {
    fn name(&self) -> &'static str {
        "linked store"
    }

    fn start(&mut self, words: usize, n: usize, k: usize) -> u32 {
        self.start_by(None, words, n, k)
    }

    fn start_with(&mut self, words: usize, n: usize, k: usize, told: Told) -> u32 {
        self.start_by(Some(told), words, n, k)
    }

    /// Those of a width, which at eight bytes are those that plain *start* needs.
    fn words_needed(&mut self, n: usize, k: usize, value_bytes: usize) -> usize {
        let needed = unsafe { sys::yirbarn_words_needed_with(n, k, value_bytes) };
        let plain = unsafe { sys::yirbarn_words_needed(n, k) };
        if value_bytes == NARROW && needed != plain {
            self.complain(format!(
                "words needed for N {n}, K {k}: {needed}, by plain start {plain}"
            ));
        }
        needed
    }

    fn preset(&mut self, preset: &Preset) {
        let n = self.word(N);
        words::set_counts(&mut self.words, (preset.caller, preset.refusals));
        self.words[LIVE] = preset.live.len() as u32;
        self.words[ISSUED] = preset.issued as u32;
        self.words[RING_HEAD] = 0;
        self.words[RECYCLED] = preset.recycled.len() as u32;
        for (place, &(index, version)) in preset.live.iter().enumerate() {
            let (row, lookup) = (LISTS + 2 * place, LISTS + 2 * n + 2 * index as usize);
            self.words[row..row + 2].copy_from_slice(&[index, version]);
            self.words[lookup..lookup + 2].copy_from_slice(&[place as u32, version]);
        }
        for (place, &(index, version)) in preset.recycled.iter().enumerate() {
            let row = LISTS + 4 * n + 2 * place;
            self.words[row..row + 2].copy_from_slice(&[index, version]);
            self.words[LISTS + 6 * n + index as usize] = place as u32 + 1;
        }
    }

    fn run(&mut self, tape: &[u8], out: &mut [u8]) -> Ran {
        let (before, again) = (self.words.clone(), out.to_vec());
        let ran = self.enter(tape, out);
        if before[self.lent..] != self.words[self.lent..] {
            self.complain("a run changed words that were not lent".to_string());
        }
        if u32::from(ran.stop) != UNSOUND {
            self.hold_held_run(before.clone(), tape, again, out, ran);
        }
        if self.words.len() <= WATCHED {
            self.hold_run(before, tape, &out[..ran.written], ran.commands);
        }
        Ran {
            stop: u32::from(ran.stop),
            commands: ran.commands,
            read: ran.read,
            written: ran.written,
        }
    }

    fn column(&mut self, kind: u8, values: bool, start: usize, end: usize) -> Vec<u32> {
        // A word more than the rows take, which must stay.
        let mut out = vec![FILL; self.row_words(values) * end.saturating_sub(start) + 1];
        let (number, len) = self.copy(kind, values, start, end, &mut out);
        let at = unsafe { sys::yirbarn_column_at(self.words.as_ptr(), self.lent, kind, values, start, end) };
        let stays = out.get(len..).is_some_and(|rest| rest.iter().all(|&word| word == FILL));
        if !stays || at > self.lent || self.words[at..].get(..len) != Some(&out[..len]) {
            self.complain(format!(
                "column of kind {kind}, {start}..{end}: {number}, {len} words, those in place at {at}"
            ));
            return out;
        }
        if u32::from(number) != UNSOUND {
            self.hold_held_column(kind, values, start, end, (number, at), &out);
        }
        // Each call tests the words anew, so not at every column.
        self.copies += 1;
        if self.copies % 8 == 0 {
            self.copy_numbers(kind, values, start, end, number);
        }
        out.truncate(len);
        out
    }

    fn column_number(&mut self, kind: u8, values: bool, start: usize, end: usize) -> u32 {
        u32::from(unsafe { sys::yirbarn_column_number(self.words.as_ptr(), self.lent, kind, values, start, end) })
    }

    fn roll(&mut self, out: &mut [u8]) -> (u32, usize) {
        let mut again = out.to_vec();
        let rolled = unsafe { sys::yirbarn_roll(self.words.as_ptr(), self.lent, out.as_mut_ptr(), out.len()) };
        if u32::from(rolled.number) != UNSOUND {
            let held =
                unsafe { sys::yirbarn_held_roll(self.words.as_ptr(), self.lent, again.as_mut_ptr(), again.len()) };
            if held != rolled || again != out {
                self.complain(format!(
                    "the roll of held words: {held:?}, not {rolled:?}, or other bytes"
                ));
            }
        }
        (u32::from(rolled.number), rolled.written)
    }

    fn live(&mut self) -> Vec<Id> {
        let rows = &self.words[LISTS..LISTS + 2 * self.word(LIVE)];
        rows.chunks(2).map(|row| (row[0], row[1])).collect()
    }

    fn families(&mut self) -> [Families; 2] {
        [
            self.block(DRAFT, self.word(DRAFT_FAMILIES)),
            self.block(LAYOUT, self.word(LAYOUT_FAMILIES)),
        ]
    }

    fn counts(&mut self) -> Counts {
        match self.needed {
            0 => Counts::default(),
            _ => words::counts(&self.words),
        }
    }

    /// The rule by its word.
    fn rule(&mut self) -> Option<Rule> {
        match self.needed {
            0 => Some(Rule::Older),
            _ => words::rule(&self.words),
        }
    }

    /// The width by its word.
    fn value_bytes(&mut self) -> Option<usize> {
        match self.needed {
            0 => Some(NARROW),
            _ => words::value_bytes(&self.words),
        }
    }

    /// The callers 0 to 15 are taken, each with its count, and others are refused at every entry; and so with the rules and
    /// the widths.
    fn probe(&mut self) {
        let (caller, refusals) = self.counts();
        for caller in 0..CALLERS {
            self.probe_sound(words::CALLER, caller as u32, refusals[caller]);
        }
        for caller in NO_CALLERS {
            self.probe_unsound(words::CALLER, caller);
        }
        self.probe_rules(refusals[usize::from(caller)]);
        self.probe_widths(refusals[usize::from(caller)]);
    }

    fn complaint(&mut self) -> Option<String> {
        self.complaint.take()
    }
}
