//! A sample of tapes with what the Rust answered, in one file, for a program that replays it. README.md has the
//! format.

use crate::compare::Beside;
use crate::fixed;
use crate::generate;
use crate::reference::Reference;
use crate::side::{Side, Told};
use crate::tape::{self, Case, Run, NARROW, WIDE};
use crate::widths;
use sparsey::harness::{is_within_reach, words_needed, Oracle, Sets, WIDTHS};

const MAGIC: &[u8; 8] = b"TAPES 2\n";

/// The most that a recorded case needs, so that a program can replay it in fixed buffers.
pub const MOST_WORDS: usize = 8192;
pub const MOST_TAPE: usize = 4096;
pub const MOST_ROOM: usize = 4096;
pub const MOST_ROLL: usize = 4096;

/// The case with what the Rust answered, or nothing if it is too large to be recorded, or if its draft goes past the Rust's
/// reach, where the harness answers alone.
fn recorded(case: &Case) -> Option<Vec<u8>> {
    let value_bytes = case.value_bytes;
    let needed = words_needed(case.n, case.k, value_bytes);
    if case.preset.is_some() || needed > MOST_WORDS || case.runs.len() > 255 {
        return None;
    }
    let mut rust = Oracle::new(Sets::Staged);
    rust.start(MOST_WORDS, case.n, case.k, value_bytes);

    let mut bytes = vec![];
    bytes.extend((case.n as u16).to_le_bytes());
    bytes.extend([case.k as u8, value_bytes as u8, case.runs.len() as u8]);
    for run in &case.runs {
        let (tape, room) = (run.tape(), run.room.min(MOST_ROOM));
        if tape.len() > MOST_TAPE {
            return None;
        }
        let mut out = vec![0; room];
        let ran = rust.run(&tape, &mut out);
        if !is_within_reach(&rust.families()[0]) {
            return None;
        }
        for number in [tape.len(), room] {
            bytes.extend((number as u16).to_le_bytes());
        }
        bytes.extend(tape);
        bytes.push(ran.stop as u8);
        for number in [ran.commands, ran.read, ran.written] {
            bytes.extend((number as u16).to_le_bytes());
        }
        bytes.extend(&out[..ran.written]);
    }

    let mut roll = vec![0; MOST_ROLL];
    let (number, length) = rust.roll(&mut roll);
    if number != 0 {
        return None;
    }
    bytes.extend((length as u16).to_le_bytes());
    bytes.extend(&roll[..length]);

    let registered = rust.registered();
    bytes.push(registered.len() as u8);
    for kind in registered {
        let length = rust.length(kind).unwrap();
        bytes.push(kind);
        bytes.extend((length as u16).to_le_bytes());
        for values in [false, true] {
            for word in Side::column(&mut rust, kind, values, 0, length) {
                bytes.extend(word.to_le_bytes());
            }
        }
    }
    Some(bytes)
}

/// A draft of the groups, and then one more.
fn group_on(draft: &[&[u8]], staged: &[u8]) -> Vec<tape::Chunk> {
    let groups = draft.iter().flat_map(|group| tape::with(group, tape::group()));
    let begin = [tape::empty(), tape::apply()].into_iter().chain(groups);
    begin.chain(tape::with(staged, tape::group())).collect()
}

/// The examples of document 01, each as a case, with the groups that 02 adds.
pub fn examples() -> Vec<Case> {
    let kinds: Vec<tape::Chunk> = (1..=6).map(tape::reg).collect();
    let layout = fixed::layout(&[&[1, 2], &[1, 2, 3, 4]]);
    let entities: Vec<tape::Chunk> = [&[1u8, 2, 3][..], &[1, 2, 3, 4], &[1, 2], &[1]]
        .iter()
        .flat_map(|staged| tape::with(staged, tape::new()))
        .collect();
    let begin = [kinds.clone(), layout, entities].concat();

    let mut runs = vec![Run::new(begin)];
    for (staged, excluded) in [
        (&[1u8, 2][..], &[][..]),
        (&[1, 2, 3, 4], &[]),
        (&[1], &[]),
        (&[1, 3], &[]),
        (&[1, 2], &[3u8, 4]),
        (&[1, 2], &[3]),
        (&[], &[]),
    ] {
        let barred: Vec<tape::Chunk> = excluded.iter().map(|&kind| tape::bar(kind)).collect();
        runs.push(Run::new([barred, tape::with(staged, tape::range())].concat()));
    }
    // Each on a draft of these groups, begun anew by APPLY.
    let nested: [&[u8]; 2] = [&[1, 2], &[1, 2, 3, 4]];
    for staged in [
        &[1u8, 2][..],
        &[1, 2, 3],
        &[1, 2, 5],
        &[3, 4],
        &[5, 6],
        &[1, 2, 3, 4, 5],
    ] {
        runs.push(Run::new(group_on(&nested, staged)));
    }
    runs.push(Run::new(group_on(&[&[1, 2], &[3, 4]], &[1, 2, 3, 4])));
    let marked = Case {
        n: 8,
        k: 6,
        value_bytes: NARROW,
        preset: None,
        runs,
    };

    let mut killed = marked.clone();
    killed.runs.truncate(1);
    killed.runs.push(Run::new(vec![tape::kill((1, 1))]));
    killed.runs.push(Run::new(tape::with(&[1, 2], tape::range())));
    killed.runs.push(Run::new(tape::with(&[1, 2, 3, 4], tape::range())));
    killed.runs.push(Run::new(vec![tape::new()]));

    let written = [
        vec![tape::reg(1), tape::reg(2)],
        tape::with(&[1, 2], tape::group()),
        vec![
            tape::apply(),
            tape::hold(1, 5),
            tape::new(),
            tape::hold(1, 6),
            tape::hold(2, 7),
            tape::new(),
        ],
        tape::with(&[1, 2], tape::range()),
    ]
    .concat();
    vec![marked, killed, Case::new(64, 8, written)]
}

/// Random cases of either width have fewer bytes than these.
fn most_bytes(value_bytes: usize) -> usize {
    match value_bytes {
        NARROW => 1500,
        _ => 2100,
    }
}

/// A random case, at one width or the other in turn, if it is small.
fn random(seed: u64, number: u64) -> Option<Vec<u8>> {
    let make = &|| Box::new(Reference::new()) as Box<dyn Side>;
    let seed = seed.wrapping_mul(0x1_0000_0000).wrapping_add(number);
    let value_bytes = WIDTHS[(number % 2) as usize];
    let (case, _) = generate::random_case(seed, value_bytes, Beside::Rust(Sets::Staged), make)
        .unwrap_or_else(|difference| panic!("{}", difference.text()));
    recorded(&case).filter(|bytes| bytes.len() < most_bytes(value_bytes))
}

/// Every other case at sixteen bytes, if that can be recorded.
fn in_turn((place, case): (usize, Case)) -> Option<Vec<u8>> {
    let wide = (place % 2 == 1).then(|| recorded(&case.wide())).flatten();
    wide.or_else(|| recorded(&case))
}

/// A few of the cases that go by the width.
fn at_both_widths() -> impl Iterator<Item = Vec<u8>> {
    let every = |name: &str| match name {
        "the same roll at both widths" => 1,
        "values of every shape, both widths" => 37,
        "HOLD cut short, both widths" => 29,
        _ => 179,
    };
    let parts = widths::parts().into_iter();
    let cases = parts.flat_map(move |part| part.cases.step_by(every(part.name)));
    cases.filter_map(|case| recorded(&case))
}

/// The file: the examples at both widths, cases at the limits, and random cases until it has `budget` bytes.
pub fn write(seed: u64, budget: usize) -> Vec<u8> {
    let mut cases: Vec<Vec<u8>> = vec![];
    cases.extend(examples().iter().filter_map(recorded));
    cases.extend(examples().iter().filter_map(|case| recorded(&case.wide())));
    cases.extend(at_both_widths());
    for part in fixed::limits(16) {
        // Of the many that differ little, a few.
        let (first, every) = match part.name {
            "N full and churned" => (0, 3),
            "K full" => (0, 2),
            "16 staged" => (1, 5),
            "63 groups" => (2, 5),
            "rooms" => (0, 17),
            "trays" => (24, 72),
            // Refused callers, unknown bytes, and little room.
            "callers" => (42, 40),
            "groups below and between" => (1, 4),
            // {0,1} and {0,1,2,3,4}, in one order and in the other.
            "drafts of up to 2 groups over 5 kinds with every further group" => (37, 225),
            // Long, and a random case or two has the like, but for the walks above position 32.
            _ => (0, usize::MAX),
        };
        let picked = part.cases.skip(first).step_by(every).enumerate();
        cases.extend(picked.filter_map(in_turn));
    }
    let mut numbers = 0..;
    while cases.iter().map(Vec::len).sum::<usize>() < budget {
        cases.extend(numbers.next().and_then(|number| random(seed, number)));
    }

    let mut file = MAGIC.to_vec();
    file.extend((cases.len() as u32).to_le_bytes());
    file.extend(cases.concat());
    file
}

/// Reads a file's bytes from the front.
struct Bytes<'a>(&'a [u8]);

impl<'a> Bytes<'a> {
    fn take(&mut self, length: usize) -> &'a [u8] {
        let (front, rest) = self.0.split_at(length);
        self.0 = rest;
        front
    }

    fn number(&mut self, width: usize) -> usize {
        self.take(width)
            .iter()
            .rev()
            .fold(0, |number, &byte| number << 8 | usize::from(byte))
    }
}

/// What a replay found.
#[derive(Clone, Copy, PartialEq, Eq, Default, Debug)]
pub struct Replayed {
    pub cases: usize,
    /// Those with sixteen bytes a value.
    pub wide: usize,
    pub runs: usize,
    pub commands: usize,
    pub rows: usize,
    pub agree: usize,
}

/// Replays a file on a side.
pub fn replay(file: &[u8], make: &dyn Fn() -> Box<dyn Side>) -> Replayed {
    let mut bytes = Bytes(file);
    assert_eq!(bytes.take(8), MAGIC, "no file of recorded answers");
    let mut replayed = Replayed {
        cases: bytes.number(4),
        ..Replayed::default()
    };
    for _ in 0..replayed.cases {
        let mut side = make();
        replayed.agree += usize::from(replay_case(&mut bytes, &mut *side, &mut replayed));
    }
    assert!(bytes.0.is_empty(), "bytes are left over");
    replayed
}

fn replay_case(bytes: &mut Bytes, side: &mut dyn Side, replayed: &mut Replayed) -> bool {
    let (n, k, value_bytes) = (bytes.number(2), bytes.number(1), bytes.number(1));
    replayed.wide += usize::from(value_bytes == WIDE);
    let mut agree = side.start_told(Told::by(value_bytes, None), MOST_WORDS, n, k) == 0;
    for _ in 0..bytes.number(1) {
        let (length, room) = (bytes.number(2), bytes.number(2));
        let tape = bytes.take(length);
        let expected = [bytes.number(1), bytes.number(2), bytes.number(2), bytes.number(2)];
        let answers = bytes.take(expected[3]);
        let mut out = vec![0; room];
        let ran = side.run(tape, &mut out);
        agree &= [ran.stop as usize, ran.commands, ran.read, ran.written] == expected;
        agree &= &out[..ran.written] == answers;
        replayed.runs += 1;
        replayed.commands += ran.commands;
    }
    let length = bytes.number(2);
    let roll = bytes.take(length);
    let mut out = vec![0; MOST_ROLL];
    agree &= side.roll(&mut out) == (0, length) && &out[..length] == roll;
    for _ in 0..bytes.number(1) {
        let (kind, length) = (bytes.number(1) as u8, bytes.number(2));
        for values in [false, true] {
            let row = if values { value_bytes } else { 8 };
            let expected: Vec<u32> = bytes
                .take(row * length)
                .chunks(4)
                .map(|word| Bytes(word).number(4) as u32)
                .collect();
            agree &= side.column_number(kind, values, 0, length) == 0;
            agree &= side.column_number(kind, values, 0, length + 1) == 16;
            agree &= side.column(kind, values, 0, length) == expected;
        }
        replayed.rows += length;
    }
    agree
}
