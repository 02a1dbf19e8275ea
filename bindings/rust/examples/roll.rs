//! Runs a tape file on a fresh store and prints the roll: roll TAPE [ENTITIES KINDS [WIDTH]]
//!
//! WIDTH is the bytes of a value, 8 or 16. A tape does not tell it: it is to be the one that the tape was made for.

use std::process::ExitCode;
use yirbarn::{Eight, Refusal, Rule, Sixteen, Store, Width};

fn number(bytes: &[u8]) -> u128 {
    bytes
        .iter()
        .rev()
        .fold(0, |number, &byte| number << 8 | u128::from(byte))
}

fn print_roll(mut roll: &[u8], width: usize) {
    let mut next = |count: usize| {
        let (front, rest) = roll.split_at(count);
        roll = rest;
        front
    };
    let live = number(next(4));
    println!("{live} live");
    for _ in 0..live {
        print!("entity {} version {}:", number(next(4)), number(next(4)));
        for _ in 0..next(1)[0] {
            print!(" {}={}", next(1)[0], number(next(width)));
        }
        println!();
    }
}

fn run(tape: &[u8], entities: usize, kinds: usize, width: impl Width) -> Result<(), Refusal> {
    let needed = Store::words_needed_with(entities, kinds, width).ok_or(Refusal::Size)?;
    let mut words = vec![0; needed];
    let mut store = Store::start_with(&mut words, entities, kinds, width, Rule::Older)?;

    // No byte of a tape has more than 31 bytes of answer; no entity of a roll more than 9 bytes and 1 + width a kind.
    let mut answers = vec![0; 31 * tape.len()];
    let ran = store.run(tape, &mut answers);
    println!(
        "stop {}, {} commands, {} bytes read, {} written",
        ran.stop.map_or(0, |refusal| refusal as u8),
        ran.commands,
        ran.read,
        ran.written
    );
    let mut roll = vec![0; 4 + entities * (9 + (1 + width.bytes()) * kinds)];
    let length = store.roll(&mut roll)?;
    print_roll(&roll[..length], width.bytes());
    Ok(())
}

/// The width is a type of the store, so a number that is told picks one of two calls.
fn run_at(tape: &[u8], entities: usize, kinds: usize, width: usize) -> Result<(), Refusal> {
    match width {
        Eight::BYTES => run(tape, entities, kinds, Eight),
        Sixteen::BYTES => run(tape, entities, kinds, Sixteen),
        _ => Err(Refusal::Size),
    }
}

fn main() -> ExitCode {
    let args: Vec<String> = std::env::args().skip(1).collect();
    let (name, entities, kinds, width) = match &args[..] {
        [name] => (name, Ok(64), Ok(8), Ok(8)),
        [name, entities, kinds] => (name, entities.parse(), kinds.parse(), Ok(8)),
        [name, entities, kinds, width] => (name, entities.parse(), kinds.parse(), width.parse()),
        _ => {
            eprintln!("roll TAPE [ENTITIES KINDS [WIDTH]]");
            return ExitCode::from(2);
        }
    };
    let (Ok(tape), Ok(entities), Ok(kinds), Ok(width)) = (std::fs::read(name), entities, kinds, width) else {
        eprintln!("{name}: no such file, or numbers that are none");
        return ExitCode::from(2);
    };
    match run_at(&tape, entities, kinds, width) {
        Ok(()) => ExitCode::SUCCESS,
        Err(refusal) => {
            eprintln!("{refusal}");
            ExitCode::FAILURE
        }
    }
}
