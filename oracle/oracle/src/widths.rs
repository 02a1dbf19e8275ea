//! What goes by the width of a store's values (02, No. 13), at both widths: HOLD cut short, TAKE in buffers of every length,
//! values of every shape, starts told any width, and two stores of different widths with the same roll.

use crate::compare::Pair;
use crate::fixed::{layout, part, run_of, Part};
use crate::side::{Rule, Told};
use crate::tape::{self, hold_at, Case, Chunk, Run, HOLD, NARROW, WIDE};
use sparsey::harness::{words_needed, Id, WIDTHS};
use std::collections::BTreeSet;

pub fn parts() -> Vec<Part> {
    vec![
        part("HOLD cut short, both widths", cut_holds()),
        part("TAKE in every room, both widths", takes()),
        part("values of every shape, both widths", values()),
        part("the same roll at both widths", same_rolls().into_iter()),
    ]
}

fn case(n: usize, k: usize, value_bytes: usize, runs: Vec<Run>) -> Case {
    Case {
        n,
        k,
        value_bytes,
        preset: None,
        runs,
    }
}

/// The most operand bytes that HOLD is given here: three more than it takes at sixteen.
const MOST_OPERANDS: usize = 20;

/// HOLD with every number of operand bytes, which all are NEW's byte, so that those past a value show as entities.
fn cut_holds() -> impl Iterator<Item = Case> {
    let kinds = [0, 1, 9];
    let all = WIDTHS
        .into_iter()
        .flat_map(move |value_bytes| kinds.map(|kind| (value_bytes, kind)));
    all.flat_map(|(value_bytes, kind)| {
        let cut = (0..=MOST_OPERANDS).flat_map(move |count| [0, 1, 64].map(|room| (count, room)));
        cut.map(move |(count, room)| cut_hold(value_bytes, kind, count, room))
    })
}

fn cut_hold(value_bytes: usize, kind: u8, count: usize, room: usize) -> Case {
    let mut chunk = vec![HOLD, kind];
    chunk.resize(2 + count, NEW);
    chunk.truncate(1 + count);
    let hold = |kind: u8| hold_at(value_bytes, kind, u128::MAX / 5);
    let runs = vec![
        run_of(vec![tape::reg(0), tape::reg(1), hold(0)]),
        Run {
            chunks: vec![chunk],
            room,
        },
        run_of(vec![tape::tally(), hold(1), tape::new()]),
    ];
    case(16, 2, value_bytes, runs)
}

/// The command's byte.
const NEW: u8 = 3;

/// TAKE with hands of several lengths, of a live entity and of a dead one, in buffers of every length up to two bytes more
/// than it takes.
fn takes() -> impl Iterator<Item = Case> {
    let hands = WIDTHS
        .into_iter()
        .flat_map(|value_bytes| [0, 1, 2, 3, 16].map(|hand| (value_bytes, hand)));
    hands.flat_map(|(value_bytes, hand)| {
        let needed = 1 + (1 + value_bytes) * usize::from(hand);
        let rooms = (0..needed + 3).flat_map(|room| [(0, 1), (0, 2)].map(|id| (room, id)));
        rooms.map(move |(room, id)| take_case(value_bytes, hand, room, id))
    })
}

/// The entity has every other kind.
fn take_case(value_bytes: usize, hand: u8, room: usize, id: Id) -> Case {
    let hold = |kind: u8| hold_at(value_bytes, kind, shape(kind.into()));
    let had = (0..16).step_by(2).map(hold).chain([tape::new()]);
    let runs = vec![
        run_of((0..16).map(tape::reg).collect()),
        run_of(layout(&[&[0, 2], &[0, 2, 4]])).at(value_bytes),
        run_of(had.collect()),
        run_of((0..hand).map(hold).collect()),
        Run {
            chunks: vec![tape::take(id)],
            room,
        },
        run_of(vec![tape::tally(), tape::new()]),
    ];
    case(2, 16, value_bytes, runs)
}

/// How many shapes of a value there are.
const SHAPES: usize = 27;

/// Values of sixteen bytes: none, one byte alone, one word alone, one half alone, all ones, the ends, and each byte another.
fn shape(number: usize) -> u128 {
    match number % SHAPES {
        0 => 0,
        at @ 1..=16 => 0xff << (8 * (at - 1)),
        at @ 17..=20 => 0x89ab_cdef << (32 * (at - 17)),
        21 => u64::MAX.into(),
        22 => u128::MAX << 64,
        23 => u128::MAX,
        24 => 1 << 127,
        25 => 1,
        _ => 0x0f0e_0d0c_0b0a_0908_0706_0504_0302_0100,
    }
}

/// Each shape beside another, in rows that are appended, replaced, swapped by walks, moved into a gap, taken and made by a
/// tray; at eight bytes the lower half of each.
fn values() -> impl Iterator<Item = Case> {
    let shapes = (0..SHAPES).flat_map(|one| [1, 6, 13, 22].map(|step| (shape(one), shape(one + step))));
    let shapes: Vec<(u128, u128)> = shapes.collect();
    WIDTHS.into_iter().flat_map(move |value_bytes| {
        let shapes = shapes.clone().into_iter();
        shapes.map(move |(one, other)| value_case(value_bytes, one, other))
    })
}

fn value_case(value_bytes: usize, one: u128, other: u128) -> Case {
    let hold = |kind: u8, value: u128| hold_at(value_bytes, kind, value);
    let with = |held: &[(u8, u128)], command: Chunk| -> Run {
        let holds = held.iter().map(|&(kind, value)| hold(kind, value));
        run_of(holds.chain([command]).collect())
    };
    let runs = vec![
        run_of((0..3).map(tape::reg).collect()),
        run_of(layout(&[&[0, 1], &[0, 1, 2]])).at(value_bytes),
        with(&[(0, one), (2, other)], tape::new()),
        with(&[(1, other), (0, other), (2, one)], tape::new()),
        with(&[(2, one), (1, one)], tape::tray(2)),
        // Into both groups, by a swap.
        with(&[(1, one)], tape::put((0, 1))),
        // Replaced in place.
        with(&[(0, other), (2, one)], tape::put((0, 1))),
        // Out of both, into a gap.
        with(&[(0, one), (1, one)], tape::take((1, 1))),
        with(&[(0, one)], tape::put((2, 1))),
        with(&[(1, other)], tape::take((1, 1))),
        run_of(vec![tape::kill((0, 1))]),
        with(&[(0, other), (1, one), (2, other)], tape::new()),
        with(&[(2, 0), (0, 0)], tape::take((0, 2))),
        run_of(vec![tape::apply()]),
        with(&[(2, other)], tape::put((3, 1))),
    ];
    case(4, 3, value_bytes, runs)
}

/// Widths that a store cannot have.
pub const NO_WIDTHS: [usize; 18] = [
    0,
    1,
    2,
    4,
    7,
    9,
    12,
    15,
    17,
    24,
    32,
    64,
    128,
    256 + 8,
    (1 << 16) + 16,
    (1 << 32) + 8,
    (1 << 32) + 16,
    usize::MAX,
];

/// Starts told a width that is none, over a store in use: 1, whatever N, K and the words, and the store stays.
pub fn start_widths(pair: &mut Pair, rule: Rule) -> Result<(), String> {
    let (n, k) = (4, 3);
    for value_bytes in WIDTHS {
        let told = Told { value_bytes, rule };
        pair.start_number(Some(told), words_needed(n, k, value_bytes), n, k)?;
        let chunks = [vec![tape::reg(2), tape::reg(7)], tape::with(&[7, 2], tape::new())].concat();
        pair.step(&run_of(chunks).at(value_bytes), true)?;
        for told in NO_WIDTHS.map(|value_bytes| Told { value_bytes, rule }) {
            for (n, k) in [(n, k), (1, 1), (64, 8), (0, 1), (4097, 1), (1, 0), (1, 129)] {
                for words in lengths(n, k) {
                    assert_eq!(pair.start_number(Some(told), words, n, k)?, 1);
                }
            }
            pair.step(&run_of(tape::with(&[2], tape::range())).at(value_bytes), true)?;
        }
        pair.ranges()?;
    }
    largest(pair, rule)
}

/// Too few words and enough, for either width.
fn lengths(n: usize, k: usize) -> [usize; 6] {
    let [narrow, wide] = WIDTHS.map(|value_bytes| match (n, k) {
        (1..=4096, 1..=128) => words_needed(n, k, value_bytes),
        _ => 4096,
    });
    [0, 1023, narrow - 1, narrow, wide - 1, wide]
}

/// The largest store of sixteen bytes, exact and a word short, and told other widths with as many words.
fn largest(pair: &mut Pair, rule: Rule) -> Result<(), String> {
    let (n, k, words) = (4096, 128, LARGEST);
    let mut number = |value_bytes, words| pair.start_number(Some(Told { value_bytes, rule }), words, n, k);
    assert_eq!(number(WIDE, words)?, 0);
    assert_eq!(number(WIDE, words - 1)?, 2);
    for none in NO_WIDTHS {
        assert_eq!(number(none, words)?, 1);
    }
    assert_eq!(number(NARROW, words)?, 0);
    Ok(())
}

/// The words of the largest store, with sixteen bytes a value.
pub const LARGEST: usize = 4_261_888;

/// The bytes that are a roll at both widths: at eight of two entities with 1 and 16 components, at sixteen of two with 1
/// and 8.
pub fn shared_roll() -> Vec<u8> {
    let mut roll: Vec<u8> = (100..=255).chain(0..19).collect();
    let mut write = |at: usize, bytes: &[u8]| roll[at..at + bytes.len()].copy_from_slice(bytes);
    write(0, &[2, 0, 0, 0]);
    // Index 0, version 1, one component, of kind 5.
    write(4, &[0, 0, 0, 0, 1, 0, 0, 0, 1, 5]);
    // At eight: index 1, version 1, 16 components. At sixteen the first eight of these are the value's upper half.
    write(22, &[1, 0, 0, 0, 1, 0, 0, 0, 16]);
    (0..16).for_each(|i| write(31 + 9 * i, &[i as u8]));
    // At sixteen: index 16, of which the 16 above is the first byte, version 1, 8 components.
    write(32, &[0, 0, 1, 0, 0, 0, 8]);
    (0..8).for_each(|i| write(39 + 17 * i, &[10 + 7 * i as u8]));
    roll
}

/// An entity of a roll, with its components.
type Rolled = (Id, Vec<(u8, u128)>);

/// What a roll says, read at this width.
pub fn read_roll(roll: &[u8], value_bytes: usize) -> Vec<Rolled> {
    let mut rest = roll;
    let mut number = |bytes: usize| {
        let (front, behind) = rest.split_at(bytes);
        rest = behind;
        tape::number(front)
    };
    let mut entities = vec![];
    for _ in 0..number(4) {
        let id = (number(4) as u32, number(4) as u32);
        let components = (0..number(1)).map(|_| (number(1) as u8, number(value_bytes))).collect();
        entities.push((id, components));
    }
    assert!(rest.is_empty(), "bytes are left over");
    entities
}

/// A store with this roll, whose versions are all 1, at this width.
fn rolled(roll: &[u8], value_bytes: usize) -> Case {
    let entities = read_roll(roll, value_bytes);
    let count = 1 + entities[entities.len() - 1].0 .0;
    let is_live = |index: u32| entities.iter().any(|&(id, _)| id == (index, 1));
    let kills = (0..count).filter(|&index| !is_live(index));
    let components = entities.iter().flat_map(|(_, components)| components);
    let kinds: BTreeSet<u8> = components.map(|&(kind, _)| kind).collect();
    let mut runs = vec![
        run_of(kinds.iter().map(|&kind| tape::reg(kind)).collect()),
        run_of(vec![tape::tray(count as u16)]),
        run_of(kills.map(|index| tape::kill((index, 1))).collect()),
    ];
    for (id, components) in &entities {
        let holds = components.iter();
        let holds = holds.map(|&(kind, value)| hold_at(value_bytes, kind, value));
        runs.push(run_of(holds.chain([tape::put(*id)]).collect()));
    }
    case(count as usize, kinds.len(), value_bytes, runs)
}

/// Two stores, of eight bytes and of sixteen, that differ and write the same roll.
pub fn same_rolls() -> [Case; 2] {
    WIDTHS.map(|value_bytes| rolled(&shared_roll(), value_bytes))
}
