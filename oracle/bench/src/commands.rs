//! The commands that the works are written in, and numbers by chance.

use sparsey::harness::Id;

pub const REG: u8 = 1;
pub const HOLD: u8 = 2;
pub const NEW: u8 = 3;
pub const PUT: u8 = 4;
pub const TAKE: u8 = 5;
pub const DROP: u8 = 6;
pub const KILL: u8 = 7;
pub const GROUP: u8 = 9;
pub const APPLY: u8 = 10;
pub const TRAY: u8 = 15;

/// The bytes of a value in a store of either width.
pub const NARROW: usize = 8;
pub const WIDE: usize = 16;

/// Operand bytes by command byte, with values of eight bytes.
const OPERANDS: [usize; 17] = [0, 1, 9, 0, 8, 8, 8, 8, 0, 0, 0, 1, 0, 0, 0, 2, 1];

/// Numbers that look random and are the same each time (xorshift).
pub struct Rng(u64);

impl Rng {
    pub fn new() -> Self {
        Self(0x9e37_79b9_7f4a_7c15)
    }

    pub fn next(&mut self) -> u64 {
        self.0 ^= self.0 << 13;
        self.0 ^= self.0 >> 7;
        self.0 ^= self.0 << 17;
        self.0
    }

    pub fn below(&mut self, most: usize) -> usize {
        (self.next() >> 33) as usize % most
    }

    /// Each of the kinds or not.
    pub fn half(&mut self, kinds: std::ops::Range<u8>) -> Vec<u8> {
        kinds.filter(|_| self.below(2) == 0).collect()
    }

    /// The indexes below a number, in an order by chance.
    pub fn shuffled(&mut self, n: usize) -> Vec<u32> {
        let mut indexes: Vec<u32> = (0..n as u32).collect();
        for i in (1..n).rev() {
            indexes.swap(i, self.below(i + 1));
        }
        indexes
    }
}

pub fn registered(tape: &mut Vec<u8>, kinds: std::ops::Range<u8>) {
    tape.extend(kinds.flat_map(|kind| [REG, kind]));
}

fn hold(tape: &mut Vec<u8>, kinds: &[u8], value: u64) {
    for &kind in kinds {
        tape.extend([HOLD, kind]);
        tape.extend((value + u64::from(kind)).to_le_bytes());
    }
}

/// The same tape for values of sixteen bytes: every HOLD has eight more. The commands are answered alike, but for how long
/// the values are.
pub fn wide(tape: &[u8]) -> Vec<u8> {
    let (mut wide, mut rest) = (vec![], tape);
    while let Some(&byte) = rest.first() {
        let (command, behind) = rest.split_at(1 + OPERANDS[usize::from(byte)]);
        wide.extend(command);
        if byte == HOLD {
            wide.extend(command[2..].iter().map(|byte| !byte));
        }
        rest = behind;
    }
    wide
}

/// A command behind HOLDs of these kinds, with the entity's number where it has one.
pub fn with(tape: &mut Vec<u8>, kinds: &[u8], command: u8, id: Option<Id>, value: u64) {
    hold(tape, kinds, value);
    tape.push(command);
    if let Some((index, version)) = id {
        tape.extend(index.to_le_bytes());
        tape.extend(version.to_le_bytes());
    }
}

pub fn layout(tape: &mut Vec<u8>, groups: &[Vec<u8>]) {
    for group in groups {
        with(tape, group, GROUP, None, 0);
    }
    tape.push(APPLY);
}
