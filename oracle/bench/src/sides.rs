//! A work done by the store and by the Rust, turn about, on the clock.

use crate::clock::Clock;
use crate::tapes::Work;
use sparsey::harness::{Oracle, Sets};
use yirbarn::{sys, Store};

/// Rounds of each work.
const ROUNDS: usize = 41;

/// Processor times for one work, round by round: ours, the Rust's, and ours by other commands, where there are such.
#[derive(Default)]
pub struct Times {
    pub ours: Vec<f64>,
    pub rust: Vec<f64>,
    pub otherwise: Vec<f64>,
}

/// *run* as the library exports it.
pub type Run = unsafe extern "C" fn(*mut u32, usize, *const u8, usize, *mut u8, usize) -> sys::Ran;

/// The entry, which is lent the words, and so tests them.
pub const LENT: Run = sys::yirbarn_run;

/// The function for words that are held since their start: it tests nothing.
pub const HELD: Run = sys::yirbarn_held_run;

/// Words for a store of ours with values of so many bytes, which hold none yet.
pub fn words(n: usize, k: usize, value_bytes: usize) -> Vec<u32> {
    vec![0; unsafe { sys::yirbarn_words_needed_with(n, k, value_bytes) }]
}

/// An empty store of ours, under the older rule.
pub fn start_ours(words: &mut [u32], n: usize, k: usize, value_bytes: usize) {
    let number = unsafe { sys::yirbarn_start_with(words.as_mut_ptr(), words.len(), n, k, value_bytes, false) };
    assert_eq!(number, 0);
}

pub fn run_ours(run: Run, words: &mut [u32], tape: &[u8], out: &mut [u8]) -> usize {
    let ran = unsafe {
        run(
            words.as_mut_ptr(),
            words.len(),
            tape.as_ptr(),
            tape.len(),
            out.as_mut_ptr(),
            out.len(),
        )
    };
    assert!(ran.stop == 0 && ran.read == tape.len());
    ran.written
}

/// A roll through its entry, which tests the words too.
fn roll_ours(words: &[u32], out: &mut [u8]) -> usize {
    let rolled = unsafe { sys::yirbarn_roll(words.as_ptr(), words.len(), out.as_mut_ptr(), out.len()) };
    assert_eq!(rolled.number, 0);
    rolled.written
}

fn run_rust(rust: &mut Oracle, tape: &[u8], out: &mut [u8]) -> usize {
    let ran = rust.run(tape, out);
    assert!(ran.stop == 0 && ran.read == tape.len());
    ran.written
}

/// A side through the setup, and then timed through the runs, their answers one after the other; or, if there are none,
/// through rolls. The answers' length.
fn time_ours(work: &Work, runs: &[Vec<u8>], words: &mut [u32], out: &mut [u8], times: &mut Vec<f64>) -> usize {
    start_ours(words, work.n, work.k, work.value_bytes);
    run_ours(LENT, words, &work.setup, out);
    let timed = if work.held { HELD } else { LENT };
    let (mut written, mut between) = (0, work.between.iter());
    let mut clock = Clock::start();
    for run in runs {
        written += run_ours(timed, words, run, &mut out[written..]);
        if let Some(between) = between.next() {
            clock.stop();
            run_ours(LENT, words, between, &mut out[written..]);
            clock.go_on();
        }
    }
    for _ in 0..work.rolls() {
        written = roll_ours(words, out);
    }
    times.push(clock.seconds());
    written
}

fn time_rust(work: &Work, out: &mut [u8], times: &mut Vec<f64>) -> usize {
    let mut rust = Oracle::new(Sets::Tuples);
    assert_eq!(rust.start(usize::MAX, work.n, work.k, work.value_bytes), 0);
    run_rust(&mut rust, &work.setup, out);
    let (mut written, mut between) = (0, work.between.iter());
    let mut clock = Clock::start();
    for run in &work.runs {
        written += run_rust(&mut rust, run, &mut out[written..]);
        if let Some(between) = between.next() {
            clock.stop();
            run_rust(&mut rust, between, &mut out[written..]);
            clock.go_on();
        }
    }
    for _ in 0..work.rolls() {
        written = rust.roll(out).1;
    }
    times.push(clock.seconds());
    written
}

/// A room that the answers to a tape fit in: none is longer than 9 bytes and, for each HOLD before it, 9 more, or 17 with
/// values of sixteen bytes.
fn room(tape: &[u8]) -> usize {
    9 * tape.len() + 16
}

/// The room that the answers of a work take.
fn work_room(work: &Work) -> usize {
    let otherwise = work.otherwise.iter().flat_map(|otherwise| &otherwise.runs);
    let tapes = work.runs.iter().chain(&work.between).chain(otherwise);
    let tapes = tapes.map(|run| room(run)).sum();
    let roll = (1 + work.value_bytes) * work.n * (work.k + 1) + 4;
    room(&work.setup).max(tapes).max(roll)
}

/// All sides, turn about.
pub fn measure(work: &Work) -> Times {
    let mut times = Times::default();
    let mut words = words(work.n, work.k, work.value_bytes);
    let mut others = words.clone();
    let length = work_room(work);
    let (mut ours, mut theirs, mut again) = (vec![0; length], vec![0; length], vec![0; length]);
    let sides = if work.otherwise.is_some() { 3 } else { 2 };
    for round in 0..ROUNDS {
        let (mut written, mut same) = (0, 0);
        for turn in 0..sides {
            match ((round + turn) % sides, &work.otherwise) {
                (0, _) => written = time_ours(work, &work.runs, &mut words, &mut ours, &mut times.ours),
                (1, _) => same = time_rust(work, &mut theirs, &mut times.rust),
                (_, Some(otherwise)) => {
                    time_ours(work, &otherwise.runs, &mut others, &mut again, &mut times.otherwise);
                }
                _ => unreachable!("two sides"),
            }
        }
        assert!(ours[..written] == theirs[..same], "{}: other answers", work.name);
        assert!(
            sides == 2 || are_same(&mut words, &mut others, work),
            "{}: another store",
            work.name
        );
    }
    times
}

/// Whether two stores of values of eight bytes have the same roll, and the same columns in row order, those that have a row for each entity.
fn are_same(one: &mut [u32], other: &mut [u32], work: &Work) -> bool {
    let (one, other) = (Store::open(one).unwrap(), Store::open(other).unwrap());
    let roll = |store: &Store| {
        let mut out = vec![0; work_room(work)];
        let length = store.roll(&mut out).unwrap();
        out.truncate(length);
        out
    };
    let column = |store: &Store, kind: usize| store.rows(kind as u8, 0, work.n).map(Iterator::collect::<Vec<_>>);
    roll(&one) == roll(&other) && (0..work.k).all(|kind| column(&one, kind) == column(&other, kind))
}
