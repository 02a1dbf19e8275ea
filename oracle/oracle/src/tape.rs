//! Tapes as lists of commands, to be built, read by people and cut down.

use crate::rng::Rng;
use sparsey::harness::{Id, Preset, CALLERS, COMMANDS};
use std::fmt::Write;

pub const NAMES: [&str; COMMANDS] = [
    "",
    "REG",
    "HOLD",
    "NEW",
    "PUT",
    "TAKE",
    "DROP",
    "KILL",
    "WIPE",
    "GROUP",
    "APPLY",
    "BAR",
    "RANGE",
    "EMPTY",
    "TALLY",
    "TRAY",
    "SETCALLER",
];

/// The bytes of a value in a store of either width.
pub const NARROW: usize = 8;
pub const WIDE: usize = 16;

/// The operand bytes of a command in a store of this width; none where the byte is no command.
pub fn operands(byte: u8, value_bytes: usize) -> Option<usize> {
    match byte {
        1 | 11 | SETCALLER => Some(1),
        HOLD => Some(1 + value_bytes),
        4..=7 => Some(8),
        15 => Some(2),
        3 | 8..=10 | 12..=14 => Some(0),
        _ => None,
    }
}

/// The commands' bytes.
pub const HOLD: u8 = 2;
pub const SETCALLER: u8 = 16;

/// A command with its operands, or damaged bytes.
pub type Chunk = Vec<u8>;

pub fn reg(kind: u8) -> Chunk {
    vec![1, kind]
}

/// HOLD with a value of eight bytes.
pub fn hold(kind: u8, value: u64) -> Chunk {
    [vec![HOLD, kind], value.to_le_bytes().to_vec()].concat()
}

/// HOLD with a value of sixteen.
pub fn hold_wide(kind: u8, value: u128) -> Chunk {
    [vec![HOLD, kind], value.to_le_bytes().to_vec()].concat()
}

/// HOLD in a store of this width.
pub fn hold_at(value_bytes: usize, kind: u8, value: u128) -> Chunk {
    [vec![HOLD, kind], value.to_le_bytes()[..value_bytes].to_vec()].concat()
}

/// A HOLD of eight bytes with eight more behind them, told by its kind and value; any other chunk as it is.
pub fn widened(chunk: &Chunk, upper: impl FnOnce(u8, u64) -> u64) -> Chunk {
    match chunk[..] {
        [HOLD, kind, ref value @ ..] if value.len() == NARROW => {
            let value = u64::from_le_bytes(value.try_into().unwrap());
            hold_wide(kind, wide_value(value, upper(kind, value)))
        }
        _ => chunk.clone(),
    }
}

/// A value of sixteen bytes, by its lower and its upper eight.
pub fn wide_value(lower: u64, upper: u64) -> u128 {
    u128::from(lower) | u128::from(upper) << 64
}

/// The upper eight bytes that stand behind the lower in a store of sixteen, where nothing else is said.
pub fn upper(kind: u8, lower: u64) -> u64 {
    drawn_upper(&mut Rng::new(lower.rotate_left(8) ^ u64::from(kind)))
}

/// Eight bytes: mostly any, else none, all ones, one of the two words alone, one byte alone, or the highest bit.
pub fn drawn_upper(rng: &mut Rng) -> u64 {
    let any = rng.next();
    match rng.below(10) {
        0 => 0,
        1 => u64::MAX,
        2 => any << 32,
        3 => any >> 32,
        4 => 0xff << (8 * rng.below(8)),
        5 => 1 << 63,
        _ => any,
    }
}

pub fn new() -> Chunk {
    vec![3]
}

pub fn with_id(byte: u8, (index, version): Id) -> Chunk {
    [vec![byte], index.to_le_bytes().to_vec(), version.to_le_bytes().to_vec()].concat()
}

pub fn put(id: Id) -> Chunk {
    with_id(4, id)
}

pub fn take(id: Id) -> Chunk {
    with_id(5, id)
}

pub fn drop(id: Id) -> Chunk {
    with_id(6, id)
}

pub fn kill(id: Id) -> Chunk {
    with_id(7, id)
}

pub fn wipe() -> Chunk {
    vec![8]
}

pub fn group() -> Chunk {
    vec![9]
}

pub fn apply() -> Chunk {
    vec![10]
}

pub fn bar(kind: u8) -> Chunk {
    vec![11, kind]
}

pub fn range() -> Chunk {
    vec![12]
}

pub fn empty() -> Chunk {
    vec![13]
}

pub fn tally() -> Chunk {
    vec![14]
}

pub fn tray(count: u16) -> Chunk {
    [vec![15], count.to_le_bytes().to_vec()].concat()
}

pub fn set_caller(caller: u8) -> Chunk {
    vec![SETCALLER, caller]
}

/// TALLY for every caller, the last of whom is the caller then.
pub fn tallies() -> Vec<Chunk> {
    let callers = 0..CALLERS as u8;
    callers.flat_map(|caller| [set_caller(caller), tally()]).collect()
}

/// HOLD for each kind, value 0.
pub fn hold_all(kinds: &[u8]) -> Vec<Chunk> {
    kinds.iter().map(|&kind| hold(kind, 0)).collect()
}

/// HOLD for each kind, then the command.
pub fn with(kinds: &[u8], command: Chunk) -> Vec<Chunk> {
    let mut chunks = hold_all(kinds);
    chunks.push(command);
    chunks
}

/// One call of *run*.
#[derive(Clone, PartialEq, Eq, Debug)]
pub struct Run {
    pub chunks: Vec<Chunk>,
    /// The length of the answer buffer.
    pub room: usize,
}

/// A buffer that no tape here fills.
pub const ROOMY: usize = 1 << 20;

impl Run {
    pub fn new(chunks: Vec<Chunk>) -> Self {
        Self { chunks, room: ROOMY }
    }

    pub fn tape(&self) -> Vec<u8> {
        self.chunks.concat()
    }

    /// A run made for eight bytes, in a store of this width: at sixteen every HOLD has eight more.
    pub fn at(mut self, value_bytes: usize) -> Self {
        if value_bytes == WIDE {
            self.chunks.iter_mut().for_each(|chunk| *chunk = widened(chunk, upper));
        }
        self
    }
}

/// A store and the runs on it.
#[derive(Clone, PartialEq, Eq, Debug)]
pub struct Case {
    pub n: usize,
    pub k: usize,
    /// The bytes of a value; the runs' tapes are made for it.
    pub value_bytes: usize,
    pub preset: Option<Preset>,
    pub runs: Vec<Run>,
}

impl Case {
    pub fn new(n: usize, k: usize, chunks: Vec<Chunk>) -> Self {
        Self {
            n,
            k,
            value_bytes: NARROW,
            preset: None,
            runs: vec![Run::new(chunks)],
        }
    }

    /// The same in a store of sixteen bytes.
    pub fn wide(&self) -> Self {
        Self {
            value_bytes: WIDE,
            runs: self.runs.iter().cloned().map(|run| run.at(WIDE)).collect(),
            ..self.clone()
        }
    }

    /// The same in a store of eight bytes: every HOLD loses its upper eight.
    pub fn narrow(&self) -> Self {
        let mut case = self.clone();
        case.value_bytes = NARROW;
        let chunks = case.runs.iter_mut().flat_map(|run| &mut run.chunks);
        for hold in chunks.filter(|chunk| chunk.len() == 2 + WIDE && chunk[0] == HOLD) {
            hold.truncate(2 + NARROW);
        }
        case
    }

    /// The case as text, one command a line.
    pub fn text(&self) -> String {
        let mut text = format!("start N {}, K {}, {} bytes a value\n", self.n, self.k, self.value_bytes);
        if let Some(preset) = &self.preset {
            let Preset {
                issued,
                live,
                recycled,
                caller,
                refusals,
            } = preset;
            writeln!(
                text,
                "preset issued {issued}, live {live:?}, recycled {recycled:?}, caller {caller}, refusals {refusals:?}"
            )
            .unwrap();
        }
        for run in &self.runs {
            match run.room {
                ROOMY => writeln!(text, "run").unwrap(),
                room => writeln!(text, "run, {room} answer bytes").unwrap(),
            }
            for line in disassemble(&run.tape(), self.value_bytes) {
                writeln!(text, "    {line}").unwrap();
            }
        }
        text
    }
}

/// Whether the tape, read to its end, has a command that sets the caller, whole or cut short.
pub fn sets_caller(tape: &[u8], value_bytes: usize) -> bool {
    let mut at = 0;
    while let Some(&byte) = tape.get(at) {
        match operands(byte, value_bytes) {
            Some(operands) if byte != SETCALLER => at += 1 + operands,
            _ => return byte == SETCALLER,
        }
    }
    false
}

/// The bytes as a number, the lowest first.
pub fn number(bytes: &[u8]) -> u128 {
    let bytes = bytes.iter().rev();
    bytes.fold(0, |number, &byte| number << 8 | u128::from(byte))
}

/// The tape's commands in words. From a byte that is no command, or operands cut short, on: the bytes.
pub fn disassemble(tape: &[u8], value_bytes: usize) -> Vec<String> {
    let mut lines = vec![];
    let mut at = 0;
    while at < tape.len() {
        let byte = usize::from(tape[at]);
        let operands = operands(tape[at], value_bytes).and_then(|width| tape.get(at + 1..at + 1 + width));
        let Some(operands) = operands else {
            lines.push(format!("bytes {:02X?}", &tape[at..]));
            break;
        };
        let word = |i: usize| u32::from_le_bytes(operands[i..i + 4].try_into().unwrap());
        lines.push(match byte {
            1 | 11 | 16 => format!("{} {}", NAMES[byte], operands[0]),
            2 => format!("HOLD {} = {}", operands[0], number(&operands[1..])),
            4..=7 => format!("{} {} version {}", NAMES[byte], word(0), word(4)),
            15 => format!("TRAY {}", u16::from_le_bytes([operands[0], operands[1]])),
            _ => NAMES[byte].to_string(),
        });
        at += 1 + operands.len();
    }
    lines
}
