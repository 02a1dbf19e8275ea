//! Writes a tape whose commands are accepted: the entities in it are those that the Rust answers.

use crate::commands::{with, Rng, KILL, NARROW, NEW};
use sparsey::harness::{Id, Oracle, Sets};

/// As many kinds as a store may have: the answers do not depend on it.
const MOST_KINDS: usize = 128;

pub struct Writer {
    tape: Vec<u8>,
    /// Where each command ends, with what is staged for it.
    ends: Vec<usize>,
    rust: Oracle,
    pub rng: Rng,
    live: Vec<Id>,
}

impl Writer {
    pub fn new(n: usize, setup: &[u8]) -> Self {
        let mut rust = Oracle::new(Sets::Tuples);
        rust.start(usize::MAX, n, MOST_KINDS, NARROW);
        rust.run(setup, &mut vec![0; 9 * setup.len() + 16]);
        let live = rust.live();
        Self {
            tape: vec![],
            ends: vec![],
            rust,
            rng: Rng::new(),
            live,
        }
    }

    pub fn command(&mut self, kinds: &[u8], command: u8, at: Option<usize>) {
        let id = at.map(|at| self.live[at]);
        let from = self.tape.len();
        let value = self.rng.next();
        with(&mut self.tape, kinds, command, id, value >> 8);
        let mut out = [0; 256];
        let ran = self.rust.run(&self.tape[from..], &mut out);
        assert_eq!(out[kinds.len()], 0, "a command of the works is refused");
        self.ends.push(self.tape.len());
        match command {
            NEW => {
                let word = |at: usize| u32::from_le_bytes(out[at..at + 4].try_into().unwrap());
                self.live.push((word(ran.written - 8), word(ran.written - 4)));
            }
            KILL => {
                self.live.swap_remove(at.unwrap());
            }
            _ => {}
        }
    }

    /// How many entities are live.
    pub fn live(&self) -> usize {
        self.live.len()
    }

    /// The place of a live entity.
    pub fn some(&mut self) -> Option<usize> {
        Some(self.rng.below(self.live.len()))
    }

    /// The tape in runs of so many commands.
    pub fn runs(self, commands: usize) -> Vec<Vec<u8>> {
        let mut from = 0;
        let mut run = |ends: &[usize]| {
            let tape = self.tape[from..ends[ends.len() - 1]].to_vec();
            from += tape.len();
            tape
        };
        self.ends.chunks(commands).map(&mut run).collect()
    }
}
