//! The soundness test alone, through the number of *column*, which does little else.

use crate::clock::Clock;
use crate::commands::{layout, registered, wide, with, Rng, KILL, NARROW, NEW, PUT, WIDE};
use crate::sides::{run_ours, start_ours, words, HELD, LENT};
use std::ops::Range;
use yirbarn::sys;

/// How large a store is: entities, kinds, and bytes of a value.
type Size = (usize, u8, usize);

/// Words of a store of such a size, its kinds in families of nested groups of 2 to 15, seven groups for each sixteen kinds.
/// The entities get those of their kinds that are picked, one entity after the other in the order given.
fn stored((n, k, value_bytes): Size, order: &[u32], mut pick: impl FnMut(Range<u8>) -> Vec<u8>) -> Vec<u32> {
    let mut words = words(n, k.into(), value_bytes);
    start_ours(&mut words, n, k.into(), value_bytes);
    let mut tape = vec![];
    registered(&mut tape, 0..k);
    let family = |first: u8| [2, 4, 6, 8, 10, 12, 15].map(|arity| (first..first + arity).collect());
    let groups: Vec<Vec<u8>> = (0..k / 16).flat_map(|block| family(16 * block)).collect();
    layout(&mut tape, &groups);
    tape.extend(vec![NEW; n]);
    for &index in order {
        // No more than 16 can be staged.
        for first in (0..k).step_by(16) {
            let kinds = pick(first..k.min(first + 16));
            with(&mut tape, &kinds, PUT, Some((index, 1)), 1000);
        }
    }
    if value_bytes == WIDE {
        tape = wide(&tape);
    }
    let mut out = vec![0; 9 * tape.len()];
    run_ours(HELD, &mut words, &tape, &mut out);
    words
}

/// Every entity with every kind, by rising index.
fn full(size: Size) -> Vec<u32> {
    let order: Vec<u32> = (0..size.0 as u32).collect();
    stored(size, &order, Iterator::collect)
}

/// Each kind with a half of the entities, by chance, in an order by chance.
fn half_full(size: Size) -> Vec<u32> {
    let mut rng = Rng::new();
    let order = rng.shuffled(size.0);
    stored(size, &order, |kinds| rng.half(kinds))
}

/// The words of a full store, with every entity destroyed again.
fn emptied(size: Size) -> Vec<u32> {
    let mut words = full(size);
    let mut tape = vec![];
    for index in 0..size.0 as u32 {
        with(&mut tape, &[], KILL, Some((index, 1)), 0);
    }
    let written = run_ours(LENT, &mut words, &tape, &mut vec![0; size.0]);
    assert_eq!(written, size.0);
    words
}

/// Seconds of one test.
fn time(words: &[u32]) -> f64 {
    let mut least = f64::INFINITY;
    for _ in 0..20 {
        let clock = Clock::start();
        let number = unsafe { sys::yirbarn_column_number(words.as_ptr(), words.len(), 0, false, 0, 0) };
        least = least.min(clock.seconds());
        assert_eq!(number, 0);
    }
    least
}

/// Seconds of reading every word once.
fn pass(words: &[u32]) -> f64 {
    let mut least = f64::INFINITY;
    for _ in 0..20 {
        let clock = Clock::start();
        let sum = words.iter().fold(0u32, |sum, &word| sum.wrapping_add(word));
        std::hint::black_box(sum);
        least = least.min(clock.seconds());
    }
    least
}

/// The test as it is in the time of i: no entity live, all numbers waiting.
pub fn show_emptied() {
    let (n, k) = (4096, 16);
    println!();
    println!(
        "i: the soundness test before each run, N {n}, K {k}, none live, all numbers waiting: {:.3} ms",
        time(&emptied((n, k, NARROW))) * 1e3
    );
}

/// Stores of several sizes with values of so many bytes, each tested.
fn show_table(sizes: &[(usize, u8)], value_bytes: usize, stored: fn(Size) -> Vec<u32>) {
    println!();
    println!("| N | K | words | test | a word | a plain pass over the words |");
    println!("|---|---|---|---|---|---|");
    for &(n, k) in sizes {
        let words = stored((n, k, value_bytes));
        let seconds = time(&words);
        println!(
            "| {n} | {k} | {} | {:.3} ms | {:.2} ns | {:.3} ms |",
            words.len(),
            seconds * 1e3,
            seconds * 1e9 / words.len() as f64,
            pass(&words) * 1e3,
        );
    }
}

pub fn show(value_bytes: usize) {
    println!();
    println!("f: the soundness test of a full store, every entity with every kind, nested groups");
    let sizes = [
        (64, 16),
        (512, 16),
        (4096, 16),
        (4096, 1),
        (4096, 32),
        (4096, 64),
        (512, 128),
        (1024, 128),
        (2048, 128),
        (4096, 128),
    ];
    show_table(&sizes, value_bytes, full);
    println!();
    println!("f: the same, each kind with a half of the entities, by chance, in an order by chance");
    show_table(&sizes, value_bytes, half_full);
}
