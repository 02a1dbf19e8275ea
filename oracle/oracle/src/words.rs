//! The words of a store that caller, rule, width and refusal counts stand in (docs/WORDS.md), and what a command makes of
//! them.

use crate::side::Rule;
use sparsey::harness::{Counts, CALLERS, WIDTHS};

pub const CALLER: usize = 9;
pub const RULE: usize = 10;
pub const VALUE_BYTES: usize = 11;
/// The count of caller 0; the others' follow.
const REFUSALS: usize = 16;

/// Caller and counts by the words. A caller above 255, which no sound store has, is told as 255.
pub fn counts(words: &[u32]) -> Counts {
    let refusals = std::array::from_fn(|caller| words[REFUSALS + caller]);
    (words[CALLER].min(255) as u8, refusals)
}

/// The rule by its word; none where the word is neither.
pub fn rule(words: &[u32]) -> Option<Rule> {
    [Rule::Older, Rule::Newer]
        .into_iter()
        .find(|&rule| words[RULE] == rule_word(rule))
}

/// The width by its word, in bytes of a value; none where the word is neither.
pub fn value_bytes(words: &[u32]) -> Option<usize> {
    WIDTHS
        .into_iter()
        .find(|&value_bytes| words[VALUE_BYTES] as usize == value_bytes)
}

/// What stands in the word under a rule.
pub fn rule_word(rule: Rule) -> u32 {
    match rule {
        Rule::Older => 0,
        Rule::Newer => 1,
    }
}

pub fn set_counts(words: &mut [u32], (caller, refusals): Counts) {
    words[CALLER] = caller.into();
    words[REFUSALS..REFUSALS + CALLERS].copy_from_slice(&refusals);
}

/// The words after a refused command: the caller's count is one more, or stays at the last number.
pub fn after_refusal(mut words: Vec<u32>) -> Vec<u32> {
    let caller = usize::from(counts(&words).0);
    words[REFUSALS + caller] = words[REFUSALS + caller].saturating_add(1);
    words
}

/// The words after an accepted SETCALLER.
pub fn after_set_caller(mut words: Vec<u32>, caller: u8) -> Vec<u32> {
    words[CALLER] = caller.into();
    words
}
