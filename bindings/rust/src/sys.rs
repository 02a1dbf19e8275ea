//! The exported functions as they are. Nothing checks these declarations against the Rattle source but the tests, which
//! call every one; `../c/yirbarn.h` has the same for C, with each function's promise.
//!
//! What a caller owes: no pointer is null, also where its length is 0; each points to as many items as its length says,
//! and those of `*mut` overlap nothing else that the call is given; meanwhile no other thread writes any of it, or reads
//! what the call may write. Who calls a function for words that are held (`yirbarn_held_..`) vouches besides that they
//! hold a sound store, in as many words: a start over them gave 0, or a run did not stop by 3, and since then nothing has
//! changed them but runs. Those functions do not test it.

/// What *run* answers.
#[repr(C)]
#[derive(Clone, Copy, PartialEq, Eq, Debug)]
pub struct Ran {
    pub stop: u8,
    pub commands: usize,
    pub read: usize,
    pub written: usize,
}

/// What *roll* answers.
#[repr(C)]
#[derive(Clone, Copy, PartialEq, Eq, Debug)]
pub struct Rolled {
    pub number: u8,
    pub written: usize,
}

/// What other functions that write answer: items of `out`, none where the number is not 0.
#[repr(C)]
#[derive(Clone, Copy, PartialEq, Eq, Debug)]
pub struct Written {
    pub number: u8,
    pub written: usize,
}

extern "C" {
    pub fn yirbarn_words_needed(n: usize, k: usize) -> usize;

    pub fn yirbarn_words_needed_with(n: usize, k: usize, value_bytes: usize) -> usize;

    pub fn yirbarn_start(words: *mut u32, words_len: usize, n: usize, k: usize) -> u8;

    pub fn yirbarn_start_with(
        words: *mut u32,
        words_len: usize,
        n: usize,
        k: usize,
        value_bytes: usize,
        newer: bool,
    ) -> u8;

    pub fn yirbarn_run(
        words: *mut u32,
        words_len: usize,
        tape: *const u8,
        tape_len: usize,
        out: *mut u8,
        out_len: usize,
    ) -> Ran;

    pub fn yirbarn_column_number(
        words: *const u32,
        words_len: usize,
        kind: u8,
        values: bool,
        start: usize,
        end: usize,
    ) -> u8;

    pub fn yirbarn_column_at(
        words: *const u32,
        words_len: usize,
        kind: u8,
        values: bool,
        start: usize,
        end: usize,
    ) -> usize;

    pub fn yirbarn_column(
        words: *const u32,
        words_len: usize,
        kind: u8,
        values: bool,
        start: usize,
        end: usize,
        out: *mut u32,
        out_len: usize,
    ) -> Written;

    pub fn yirbarn_roll(words: *const u32, words_len: usize, out: *mut u8, out_len: usize) -> Rolled;

    // Words that are held.

    pub fn yirbarn_held_run(
        words: *mut u32,
        words_len: usize,
        tape: *const u8,
        tape_len: usize,
        out: *mut u8,
        out_len: usize,
    ) -> Ran;

    pub fn yirbarn_held_column_number(
        words: *const u32,
        words_len: usize,
        kind: u8,
        values: bool,
        start: usize,
        end: usize,
    ) -> u8;

    pub fn yirbarn_held_column_at(
        words: *const u32,
        words_len: usize,
        kind: u8,
        values: bool,
        start: usize,
        end: usize,
    ) -> usize;

    pub fn yirbarn_held_column(
        words: *const u32,
        words_len: usize,
        kind: u8,
        values: bool,
        start: usize,
        end: usize,
        out: *mut u32,
        out_len: usize,
    ) -> Written;

    pub fn yirbarn_held_roll(words: *const u32, words_len: usize, out: *mut u8, out_len: usize) -> Rolled;
}
