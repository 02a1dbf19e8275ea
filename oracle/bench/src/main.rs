//! Times of the store beside those of the Rust, in one run on one machine: the tables of docs/BENCHMARKS.md.
//!
//! Both do the same tapes, turn about, and their answers are compared. A time is processor time, the least of many
//! rounds; a ratio is the middle one of the rounds' ratios, so that other work on the machine, which slows both of a
//! round, disturbs little.
//!
//! Told letters of works, it times these, else all. Told `--launches 5` before them, it starts itself five times, one
//! after the other, and prints the middle one of each figure, with the least and greatest of each ratio; and told
//! `--before PROGRAM` too, it does the same with another build of itself, turn about.
//!
//! The works have values of eight bytes. Told `--width 16`, it times a to h with values of sixteen, beside the Rust with
//! components of sixteen; a build from before there were two widths does not know it.

mod clock;
mod commands;
mod launches;
mod sides;
mod soundness;
mod tapes;
mod writer;

use commands::{NARROW, WIDE};
use sides::Times;
use tapes::Work;

fn least(times: &[f64]) -> f64 {
    times.iter().copied().fold(f64::INFINITY, f64::min)
}

/// The middle one of the rounds' ratios.
fn ratio(ours: &[f64], others: &[f64]) -> f64 {
    let mut ratios: Vec<f64> = ours.iter().zip(others).map(|(ours, other)| ours / other).collect();
    ratios.sort_by(f64::total_cmp);
    ratios[ratios.len() / 2]
}

/// A work's line in the table, and one more where it is done by other commands too.
fn show(work: &Work, times: &Times) {
    let (unit, scale) = match work.commands {
        0..=1000 => ("µs", 1e6),
        _ => ("ns", 1e9),
    };
    let each = |times: &[f64]| least(times) * scale / work.commands as f64;
    let line = |name: &str, others: &[f64], bound: &str| {
        println!(
            "| {} | {name} | {} | {} | {:.1} {unit} | {:.1} {unit} | {:.2} | {bound} |",
            work.letter,
            work.n,
            work.commands,
            each(&times.ours),
            each(others),
            ratio(&times.ours, others),
        );
    };
    line(work.name, &times.rust, work.bound);
    if let Some(otherwise) = &work.otherwise {
        line(otherwise.name, &times.otherwise, otherwise.bound);
    }
}

/// One launch at a width: the works with these letters; all of them where none is given.
fn launch(value_bytes: usize, letters: &[String]) {
    let wanted = |letter: &str| letters.is_empty() || letters.iter().any(|wanted| wanted == letter);
    println!("| | work | N | commands | ours | the Rust | ratio | to reach |");
    println!("|---|---|---|---|---|---|---|---|");
    let works = match value_bytes {
        NARROW => tapes::works(),
        _ => tapes::wide_works(),
    };
    for work in works.iter().filter(|work| wanted(work.letter)) {
        show(work, &sides::measure(work));
    }
    if wanted("f") {
        soundness::show(value_bytes);
    }
    if wanted("i") && value_bytes == NARROW {
        soundness::show_emptied();
    }
}

/// What each launch is told: at eight bytes the letters alone, which every build knows.
fn launch_words(value_bytes: usize, letters: Vec<String>) -> Vec<String> {
    match value_bytes {
        NARROW => letters,
        _ => [vec!["--width".to_string(), value_bytes.to_string()], letters].concat(),
    }
}

fn main() {
    let (mut launches, mut before, mut value_bytes, mut letters) = (None, None, NARROW, vec![]);
    let mut told = std::env::args().skip(1);
    while let Some(word) = told.next() {
        match word.as_str() {
            "--launches" => launches = Some(told.next().expect("a number").parse().expect("a number")),
            "--before" => before = Some(told.next().expect("a program").into()),
            "--width" => value_bytes = told.next().expect("8 or 16").parse().expect("8 or 16"),
            _ => letters.push(word),
        }
    }
    assert!([NARROW, WIDE].contains(&value_bytes), "--width is 8 or 16");
    match launches {
        Some(count) => launches::show(count, before, &launch_words(value_bytes, letters)),
        None => {
            assert!(before.is_none(), "--before goes with --launches");
            launch(value_bytes, &letters);
        }
    }
}
