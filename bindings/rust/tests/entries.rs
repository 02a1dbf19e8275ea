//! Calls every exported function with good, damaged and short buffers: nothing else holds the declarations to the
//! library.

use yirbarn::sys;
use yirbarn::{Eight, Entity, Part, Ran, Refusal, Row, Rule, Store};

const N: usize = 64;
const K: usize = 8;
const NEEDED: usize = 5184;

/// The tape of document 01, for N 64 and K 8.
fn tape() -> Vec<u8> {
    let hold = |kind: u8, value: u64| [vec![0x02, kind], value.to_le_bytes().to_vec()].concat();
    [
        vec![0x01, 1, 0x01, 2],
        hold(1, 0),
        hold(2, 0),
        vec![0x09, 0x0a],
        hold(1, 5),
        vec![0x03],
        hold(1, 6),
        hold(2, 7),
        vec![0x03],
        hold(1, 0),
        hold(2, 0),
        vec![0x0c],
    ]
    .concat()
}

const ANSWERS: [u8; 42] = [
    0, 1, 0, 1, 0, 0, 0, 1, 0, 0, 0, 0, 0, 0, 0, 1, 0, 0, 0, 0, 0, 0, 1, 0, 0, 0, 1, 0, 0, 0, 0, 0, 0, 1, 0, 0, 0, 0,
    1, 0, 0, 0,
];

fn roll() -> Vec<u8> {
    [
        vec![2, 0, 0, 0],
        vec![0, 0, 0, 0, 1, 0, 0, 0, 1],
        vec![1, 5, 0, 0, 0, 0, 0, 0, 0],
        vec![1, 0, 0, 0, 1, 0, 0, 0, 2],
        vec![1, 6, 0, 0, 0, 0, 0, 0, 0],
        vec![2, 7, 0, 0, 0, 0, 0, 0, 0],
    ]
    .concat()
}

const FIRST: Row = Row {
    entity: Entity { index: 1, version: 1 },
    value: 6,
};
const SECOND: Row = Row {
    entity: Entity { index: 0, version: 1 },
    value: 5,
};

/// Words of a store that the tape has run on.
fn used() -> Vec<u32> {
    let mut words = vec![7; NEEDED];
    let mut store = Store::start(&mut words, N, K).unwrap();
    assert_eq!(store.run(&tape(), &mut [0; 64]).stop, None);
    words
}

#[test]
fn words_needed() {
    assert_eq!(Store::words_needed(N, K), Some(NEEDED));
    assert_eq!(Store::words_needed(1, 1), Some(1054));
    assert_eq!(Store::words_needed(4096, 128), Some(3_213_312));
    for (entities, kinds) in [(0, 1), (4097, 1), (1, 0), (1, 129), (usize::MAX, usize::MAX)] {
        assert_eq!(Store::words_needed(entities, kinds), None);
        assert_eq!(unsafe { sys::yirbarn_words_needed(entities, kinds) }, 0);
    }
}

#[test]
fn start() {
    let mut words = vec![7; NEEDED + 3];
    for (entities, kinds) in [(0, K), (4097, K), (N, 0), (N, 129), (usize::MAX, usize::MAX)] {
        assert_eq!(Store::start(&mut words, entities, kinds).unwrap_err(), Refusal::Size);
    }
    for length in [0, 1, 1024, NEEDED - 1] {
        assert_eq!(Store::start(&mut words[..length], N, K).unwrap_err(), Refusal::Short);
    }
    assert!(words.iter().all(|&word| word == 7));
    Store::start(&mut words, N, K).unwrap();
    assert_eq!(words[NEEDED..], [7; 3]);
    assert!(Store::open(&mut words[..NEEDED]).is_ok());
    assert_eq!(Store::open(&mut words[..NEEDED - 1]).unwrap_err(), Refusal::Unsound);
}

#[test]
fn run() {
    let mut words = vec![0; NEEDED];
    let mut store = Store::start(&mut words, N, K).unwrap();
    let mut answers = [0x5a; 64];
    let ran = store.run(&tape(), &mut answers);
    let whole = Ran {
        stop: None,
        commands: 14,
        read: 79,
        written: 42,
    };
    assert_eq!(ran, whole);
    assert_eq!(answers[..42], ANSWERS);
    assert_eq!(answers[42..], [0x5a; 22]);

    // A dead entity, the count of refusals, a byte that is no command.
    let ran = store.run(&[0x07, 9, 0, 0, 0, 1, 0, 0, 0, 0x0e, 0x11], &mut answers);
    assert_eq!(ran.stop, Some(Refusal::Unknown));
    assert_eq!((ran.commands, ran.read, ran.written), (2, 10, 6));
    assert_eq!(answers[..6], [Refusal::Dead as u8, 0, 1, 0, 0, 0]);
}

#[test]
fn short_tapes_and_rooms() {
    let tape = tape();
    for length in 0..=tape.len() {
        let mut words = vec![0; NEEDED];
        let mut store = Store::start(&mut words, N, K).unwrap();
        let mut answers = [0x5a; 64];
        let ran = store.run(&tape[..length], &mut answers);
        assert_eq!(ran.stop, (ran.read < length).then_some(Refusal::Cut));
        assert_eq!(answers[..ran.written], ANSWERS[..ran.written]);
        assert!(answers[ran.written..].iter().all(|&byte| byte == 0x5a));
    }
    for room in 0..ANSWERS.len() {
        let mut words = vec![0; NEEDED];
        let mut store = Store::start(&mut words, N, K).unwrap();
        let mut answers = [0x5a; 64];
        let ran = store.run(&tape, &mut answers[..room]);
        assert_eq!(ran.stop, Some(Refusal::NoRoom));
        assert_eq!(answers[..ran.written], ANSWERS[..ran.written]);
        assert!(answers[ran.written..].iter().all(|&byte| byte == 0x5a));
        let rest = store.run(&tape[ran.read..], &mut answers);
        assert_eq!((rest.stop, ran.commands + rest.commands), (None, 14));
        assert_eq!(answers[..rest.written], ANSWERS[ran.written..]);
    }
}

#[test]
fn columns() {
    let mut words = used();
    let store = Store::open(&mut words).unwrap();
    assert_eq!(store.column(1, Part::Entities, 0, 2), Ok(&[1, 1, 0, 1][..]));
    assert_eq!(store.column(1, Part::Values, 0, 2), Ok(&[6, 0, 5, 0][..]));
    assert_eq!(store.column(1, Part::Values, 1, 2), Ok(&[5, 0][..]));
    assert_eq!(store.column(1, Part::Values, 2, 2), Ok(&[][..]));
    for (start, end) in [(0, 3), (2, 1), (3, 3), (0, usize::MAX), (usize::MAX, usize::MAX)] {
        assert_eq!(store.column(1, Part::Entities, start, end), Err(Refusal::Beyond));
    }
    for kind in [0, 3, 127, 128, 255] {
        assert_eq!(store.column(kind, Part::Entities, 0, 0), Err(Refusal::Kind));
        assert_eq!(store.rows(kind, 9, 0).err(), Some(Refusal::Kind));
    }
    assert!(store.rows(1, 0, 2).unwrap().eq([FIRST, SECOND]));
    assert!(store.rows(1, 0, 2).unwrap().rev().eq([SECOND, FIRST]));
    assert_eq!(store.rows(1, 0, 2).unwrap().len(), 2);
    assert!(store.entities(2, 0, 1).unwrap().eq([FIRST.entity]));
    assert!(store.values(2, 0, 1).unwrap().eq([7]));
}

#[test]
fn copied_columns() {
    let words = used();
    let copy = |length: usize, kind: u8, start: usize, end: usize, out: &mut [u32]| unsafe {
        sys::yirbarn_column(
            words.as_ptr(),
            length,
            kind,
            true,
            start,
            end,
            out.as_mut_ptr(),
            out.len(),
        )
    };
    let written = |number: u8, written: usize| sys::Written { number, written };
    let mut out = [9; 6];
    // Too short, refused, no rows: told apart, and nothing is written.
    for (length, kind, start, end, room, number) in [
        (NEEDED, 1, 0, 2, 0, 6),
        (NEEDED, 1, 0, 2, 3, 6),
        (NEEDED, 1, 1, 2, 1, 6),
        (NEEDED, 1, 0, 3, 6, 16),
        (NEEDED, 1, 0, usize::MAX, 0, 16),
        (NEEDED, 1, 2, 1, 6, 16),
        (NEEDED, 3, 0, 0, 6, 7),
        (NEEDED, 255, 9, 0, 0, 7),
        (NEEDED - 1, 1, 0, 2, 6, 3),
        (NEEDED - 1, 1, 0, 2, 0, 3),
        (NEEDED, 1, 1, 1, 0, 0),
        (NEEDED, 1, 2, 2, 6, 0),
    ] {
        assert_eq!(copy(length, kind, start, end, &mut out[..room]), written(number, 0));
        assert_eq!(out, [9; 6]);
    }
    // An exact fit, a word more, a part.
    assert_eq!(copy(NEEDED, 1, 0, 2, &mut out[..4]), written(0, 4));
    assert_eq!(out, [6, 0, 5, 0, 9, 9]);
    assert_eq!(copy(NEEDED, 1, 1, 2, &mut out[..3]), written(0, 2));
    assert_eq!(out, [5, 0, 5, 0, 9, 9]);
}

#[test]
fn copies_of_a_store() {
    let mut words = used();
    let store = Store::open(&mut words).unwrap();
    for room in 0..6 {
        let mut out = [9; 6];
        let copied = store.copy_column(1, Part::Entities, 0, 2, &mut out[..room]);
        assert_eq!(copied, if room < 4 { Err(Refusal::NoRoom) } else { Ok(4) });
        assert_eq!(out, if room < 4 { [9; 6] } else { [1, 1, 0, 1, 9, 9] });
    }
    assert_eq!(store.copy_column(1, Part::Values, 2, 2, &mut []), Ok(0));
    assert_eq!(
        store.copy_column(1, Part::Values, 0, 3, &mut [9; 6]),
        Err(Refusal::Beyond)
    );
    assert_eq!(
        store.copy_column(3, Part::Values, 0, 0, &mut [9; 6]),
        Err(Refusal::Kind)
    );
}

/// HOLD of each kind, with value 0, and then the command.
fn holding(kinds: &[u8], command: &[u8]) -> Vec<u8> {
    let held = kinds.iter().flat_map(|&kind| [0x02, kind, 0, 0, 0, 0, 0, 0, 0, 0]);
    held.chain(command.iter().copied()).collect()
}

/// The answer to the last command of a tape that is run to its end.
fn last_answer(store: &mut Store, tape: &[u8], length: usize) -> Vec<u8> {
    let mut answers = [0x5a; 512];
    let ran = store.run(tape, &mut answers);
    assert_eq!((ran.stop, ran.read), (None, tape.len()));
    answers[ran.written - length..ran.written].to_vec()
}

/// A group of 16 kinds, the 64th group and what is refused past it; then the layout applied, entered and asked for.
#[test]
fn most_kinds_and_groups() {
    let mut words = vec![0; Store::words_needed(2, 128).unwrap()];
    let mut store = Store::start(&mut words, 2, 128).unwrap();
    let all: Vec<u8> = (0..128).flat_map(|kind| [0x01, kind]).collect();
    last_answer(&mut store, &all, 2);
    let chain = (1..16).map(|last| (0..=last).collect::<Vec<u8>>());
    let pairs = (8..57).map(|pair| vec![2 * pair, 2 * pair + 1]);
    for group in chain.chain(pairs) {
        assert_eq!(last_answer(&mut store, &holding(&group, &[0x09]), 2), [0, 1]);
    }
    let sixteen: Vec<u8> = (0..16).rev().collect();
    assert_eq!(last_answer(&mut store, &holding(&sixteen, &[0x09]), 2), [0, 0]);
    let more = holding(&[126, 127], &[0x09]);
    assert_eq!(last_answer(&mut store, &more, 1), [Refusal::Many as u8]);
    assert_eq!(last_answer(&mut store, &holding(&[], &[0x0d, 0x0a]), 1), [0]);

    // The first entity has the family of 16 kinds, the second the last pair.
    last_answer(&mut store, &holding(&sixteen, &[0x03]), 9);
    last_answer(&mut store, &holding(&[112, 113], &[0x03]), 9);
    let one = [0, 1, 0, 0, 0, 0, 1, 0, 0, 0];
    assert_eq!(last_answer(&mut store, &holding(&sixteen, &[0x0c]), 10), one);
    assert_eq!(last_answer(&mut store, &holding(&[112, 113], &[0x0c]), 10), one);
    assert!(Store::open(&mut words).is_ok());
}

/// All answers to a tape that is run to its end.
fn answers(store: &mut Store, tape: &[u8]) -> Vec<u8> {
    let mut answers = [0x5a; 512];
    let ran = store.run(tape, &mut answers);
    assert_eq!((ran.stop, ran.read), (None, tape.len()));
    answers[..ran.written].to_vec()
}

/// TRAY of none, of some, of too many with the list kept, of all that are left, and of none in a full store.
#[test]
fn trays() {
    let mut words = used();
    let mut store = Store::open(&mut words).unwrap();
    let full = Refusal::Full as u8;
    let none = [holding(&[2, 1], &[0x0f, 0, 0]), holding(&[2, 1], &[])].concat();
    assert_eq!(answers(&mut store, &none), [0; 7]);
    // The index that waits, and a new one.
    let two = [0x07, 0, 0, 0, 0, 1, 0, 0, 0, 0x0f, 2, 0];
    assert_eq!(answers(&mut store, &two), [0, 0, 2, 0]);
    let entities = [(1, 1), (0, 2), (2, 1)].map(|(index, version)| Entity { index, version });
    for kind in [1, 2] {
        assert!(store.entities(kind, 0, 3).unwrap().eq(entities));
        assert_eq!(store.column(kind, Part::Entities, 0, 4), Err(Refusal::Beyond));
    }
    // 61 are left.
    let many = holding(
        &[1],
        &[0x0f, 62, 0, 0x0f, 0xff, 0xff, 0x0f, 61, 0, 0x0f, 0, 0, 0x0f, 1, 0],
    );
    assert_eq!(answers(&mut store, &many), [0, full, full, 0, 61, 0, 0, 0, 0, full]);
    assert!(store
        .entities(1, 0, 64)
        .unwrap()
        .skip(3)
        .map(|entity| entity.index)
        .eq(3..64));
    assert_eq!(store.column(2, Part::Entities, 0, 4), Err(Refusal::Beyond));
    assert_eq!(answers(&mut store, &[0x0e]), [0, 3, 0, 0, 0]);
    assert!(Store::open(&mut words).is_ok());
}

/// A tray leaves the roll and the columns that as many NEWs leave, each with the same list.
#[test]
fn a_tray_is_as_many_news() {
    let seen = |tape: &[u8]| {
        let mut words = used();
        let mut store = Store::open(&mut words).unwrap();
        answers(&mut store, &[0x07, 0, 0, 0, 0, 1, 0, 0, 0]);
        answers(&mut store, tape);
        let mut roll = vec![0; 1024];
        let length = store.roll(&mut roll).unwrap();
        roll.truncate(length);
        let columns = [1, 2].map(|kind| store.rows(kind, 0, 6).unwrap().collect::<Vec<Row>>());
        (roll, columns)
    };
    let tray = seen(&holding(&[2, 1], &[0x0f, 5, 0]));
    assert_eq!(tray, seen(&holding(&[2, 1], &[0x03]).repeat(5)));
    assert_eq!(tray.0[..4], [6, 0, 0, 0]);
}

/// The run stops before a tray whose count is cut short, or whose answer has no room, also where it would be refused.
#[test]
fn trays_that_are_not_done() {
    let sound = used();
    let mut words = sound.clone();
    let mut store = Store::open(&mut words).unwrap();
    for tape in [&[0x0f][..], &[0x0f, 1]] {
        assert_eq!(store.run(tape, &mut []).stop, Some(Refusal::Cut));
    }
    for (count, room) in [1, 65]
        .into_iter()
        .flat_map(|count| (0..3).map(move |room| (count, room)))
    {
        let ran = store.run(&[0x0f, count, 0], &mut [0; 3][..room]);
        assert_eq!((ran.stop, ran.read), (Some(Refusal::NoRoom), 0));
    }
    assert_eq!(store.words(), sound);
    let mut out = [0x5a; 3];
    assert_eq!(store.run(&[0x0f, 65, 0], &mut out).written, 1);
    assert_eq!(out, [Refusal::Full as u8, 0x5a, 0x5a]);
}

/// Where the words have the caller, and the refusals of each (docs/WORDS.md).
const CALLER: usize = 9;
const REFUSALS: usize = 16;

const SETCALLER: u8 = 0x10;
const TALLY: u8 = 0x0e;

/// KILL of an entity that is not live.
const KILL_NONE: [u8; 9] = [0x07, 9, 0, 0, 0, 1, 0, 0, 0];

/// Sets the caller, in a run of its own.
fn set_caller(store: &mut Store, caller: u8) {
    assert_eq!(answers(store, &[SETCALLER, caller]), [0]);
}

/// A refused command, in a run of its own, for the caller that is set.
fn refuse(store: &mut Store) {
    assert_eq!(answers(store, &KILL_NONE), [Refusal::Dead as u8]);
}

/// What TALLY tells, in a run of its own.
fn tally(store: &mut Store) -> u32 {
    let told = answers(store, &[TALLY]);
    assert_eq!((told.len(), told[0]), (5, 0));
    u32::from_le_bytes(told[1..].try_into().unwrap())
}

/// Each caller has as many commands refused as its number, in runs of their own: these words change, and no others.
#[test]
fn callers() {
    let mut words = used();
    let mut kept = words.clone();
    let mut store = Store::open(&mut words).unwrap();
    for caller in 0..16 {
        set_caller(&mut store, caller);
        kept[CALLER] = u32::from(caller);
        assert_eq!(store.words(), kept);
        for refused in 0..caller {
            assert_eq!(tally(&mut store), u32::from(refused));
            refuse(&mut store);
        }
        kept[REFUSALS + usize::from(caller)] = u32::from(caller);
        assert_eq!(store.words(), kept);
    }
    for caller in (0..16).rev() {
        set_caller(&mut store, caller);
        assert_eq!(tally(&mut store), u32::from(caller));
    }
    kept[CALLER] = 0;
    assert_eq!(store.words(), kept);
}

/// In one run: every refusal counts for the caller that is set, whatever refuses, and TALLY sees those of its run.
#[test]
fn callers_in_a_run() {
    let mut words = used();
    let mut store = Store::open(&mut words).unwrap();
    assert_eq!(answers(&mut store, &[0x0b, 1]), [0]);
    let mut kept = store.words().to_vec();
    // For caller 0 a dead entity; for caller 6 HOLD 9, BAR 1, TRAY 65, a dead entity, caller 16; for 15 a dead entity.
    let tape = [
        KILL_NONE.to_vec(),
        vec![SETCALLER, 6],
        holding(&[9], &[0x0b, 1, 0x0f, 65, 0]),
        KILL_NONE.to_vec(),
        vec![SETCALLER, 16, TALLY, SETCALLER, 15],
        KILL_NONE.to_vec(),
        vec![TALLY, SETCALLER, 0, TALLY],
    ]
    .concat();
    let told = [
        vec![11, 0, 7, 9, 12, 11, 19],
        vec![0, 5, 0, 0, 0, 0],
        vec![11, 0, 1, 0, 0, 0],
        vec![0, 0, 1, 0, 0, 0],
    ]
    .concat();
    assert_eq!(answers(&mut store, &tape), told);
    kept[REFUSALS] = 1;
    kept[REFUSALS + 6] = 5;
    kept[REFUSALS + 15] = 1;
    assert_eq!(store.words(), kept);
}

/// From 16 on: refused, counted for the caller of before, which stays; no other word changes.
#[test]
fn no_caller() {
    let mut words = used();
    let mut kept = words.clone();
    let mut store = Store::open(&mut words).unwrap();
    set_caller(&mut store, 15);
    kept[CALLER] = 15;
    for operand in 16..=255 {
        assert_eq!(answers(&mut store, &[SETCALLER, operand]), [Refusal::Caller as u8]);
        kept[REFUSALS + 15] += 1;
        assert_eq!(store.words(), kept);
    }
    assert_eq!(tally(&mut store), 240);
}

/// Runs every command but SETCALLER: all are accepted where kinds 1 and 2 are registered, entity 0 is at version 1 and
/// three more fit.
fn run_every(store: &mut Store) {
    let on_first = |byte: u8| [byte, 0, 0, 0, 0, 1, 0, 0, 0];
    // REG, GROUP, APPLY, NEW, PUT, TAKE, BAR, EMPTY, DROP, KILL, TRAY, RANGE, WIPE, TALLY.
    let tape = [
        vec![0x01, 3],
        holding(&[2, 1], &[0x09, 0x0a]),
        holding(&[2, 1], &[0x03]),
        holding(&[2, 1], &on_first(0x04)),
        holding(&[2, 1], &on_first(0x05)),
        vec![0x0b, 1, 0x0d],
        on_first(0x06).to_vec(),
        on_first(0x07).to_vec(),
        vec![0x0f, 2, 0, 0x0c, 0x08, TALLY],
    ]
    .concat();
    // Of the answers' length when all are accepted.
    assert_eq!(answers(store, &tape).len(), 65);
}

/// Every other command, accepted, leaves the caller and all refusals.
#[test]
fn callers_stay() {
    let mut words = used();
    let mut store = Store::open(&mut words).unwrap();
    set_caller(&mut store, 7);
    refuse(&mut store);
    set_caller(&mut store, 8);
    run_every(&mut store);
    let mut refusals = [0; 16];
    refusals[7] = 1;
    assert_eq!(
        (store.words()[CALLER], &store.words()[REFUSALS..][..16]),
        (8, &refusals[..])
    );
    assert_eq!(tally(&mut store), 0);
}

/// A count that is at the last number stays, and the others go on. The words may have any numbers: word 16 alone is a
/// store of before there were callers, caller 0's.
#[test]
fn last_refusals() {
    let mut words = used();
    words[REFUSALS] = 5;
    words[REFUSALS + 3] = u32::MAX;
    words[REFUSALS + 4] = u32::MAX - 1;
    let mut kept = words.clone();
    let mut store = Store::open(&mut words).unwrap();
    assert_eq!(tally(&mut store), 5);
    for (caller, tallies) in [
        (3, [u32::MAX; 3]),
        (4, [u32::MAX - 1, u32::MAX, u32::MAX]),
        (5, [0, 1, 2]),
        (0, [5, 6, 7]),
    ] {
        set_caller(&mut store, caller);
        assert_eq!(tally(&mut store), tallies[0]);
        refuse(&mut store);
        assert_eq!(tally(&mut store), tallies[1]);
        refuse(&mut store);
        assert_eq!(tally(&mut store), tallies[2]);
        kept[REFUSALS + usize::from(caller)] = tallies[2];
    }
    assert_eq!(store.words(), kept);
}

/// What stops a run comes first, whatever the operand, and is counted for nobody: 4, then 5, then 6.
#[test]
fn callers_that_are_not_set() {
    let mut words = used();
    let mut store = Store::open(&mut words).unwrap();
    set_caller(&mut store, 2);
    let kept = store.words().to_vec();
    for (tape, room, stop) in [
        (vec![0x11], 0, Refusal::Unknown),
        (vec![0x11, 1], 1, Refusal::Unknown),
        (vec![SETCALLER], 0, Refusal::Cut),
        (vec![SETCALLER], 1, Refusal::Cut),
        (vec![SETCALLER, 1], 0, Refusal::NoRoom),
        (vec![SETCALLER, 16], 0, Refusal::NoRoom),
    ] {
        let mut out = [0x5a];
        let ran = store.run(&tape, &mut out[..room]);
        assert_eq!((ran.stop, ran.commands, ran.read, ran.written), (Some(stop), 0, 0, 0));
        assert_eq!((store.words(), out), (&kept[..], [0x5a]));
    }
    let mut out = [0x5a; 2];
    assert_eq!(store.run(&[SETCALLER, 16], &mut out[..1]).written, 1);
    assert_eq!(out, [Refusal::Caller as u8, 0x5a]);
    assert_eq!(tally(&mut store), 1);
    assert_eq!(store.run(&[SETCALLER, 1], &mut out[..1]).written, 1);
    assert_eq!((out, tally(&mut store)), ([0, 0x5a], 0));
}

/// A start sets caller 0 and no refusals, whatever the words held.
#[test]
fn start_clears_callers() {
    let mut words = vec![7; NEEDED];
    for _ in 0..2 {
        let mut store = Store::start(&mut words, N, K).unwrap();
        assert_eq!(store.words()[CALLER], 0);
        assert_eq!(store.words()[REFUSALS..][..16], [0; 16]);
        assert_eq!(tally(&mut store), 0);
        // In use, for the second start.
        set_caller(&mut store, 9);
        refuse(&mut store);
        assert_eq!((store.words()[CALLER], store.words()[REFUSALS + 9]), (9, 1));
    }
}

/// Roll and columns show neither caller nor refusals.
#[test]
fn callers_do_not_show() {
    let mut words = used();
    let mut store = Store::open(&mut words).unwrap();
    for caller in [12, 3] {
        set_caller(&mut store, caller);
        refuse(&mut store);
    }
    let mut out = [0x5a; 64];
    let length = store.roll(&mut out).unwrap();
    assert_eq!(out[..length], roll());
    assert!(store.rows(1, 0, 2).unwrap().eq([FIRST, SECOND]));
}

/// Words with a caller of 0 to 15 are sound, whatever was refused; with any other they are not.
#[test]
fn sound_callers() {
    let mut words = used();
    words[REFUSALS..][..16].fill(0xa5a5_a5a5);
    for caller in 0..16 {
        words[CALLER] = caller;
        let mut store = Store::open(&mut words).unwrap();
        assert_eq!(store.roll(&mut [0; 64]), Ok(roll().len()));
        assert_eq!(store.column(1, Part::Values, 0, 2), Ok(&[6, 0, 5, 0][..]));
        refuse(&mut store);
        assert_eq!(tally(&mut store), 0xa5a5_a5a6);
    }
    for caller in [16, 17, 255, 256, 1 << 16, 1 << 31, u32::MAX] {
        words[CALLER] = caller;
        unsound(&mut words);
        assert_eq!(Store::open(&mut words).unwrap_err(), Refusal::Unsound);
    }
}

/// Where the words have the rule, and how many are staged and excluded (docs/WORDS.md).
const RULE: usize = 10;
const LISTED: std::ops::Range<usize> = 3..5;

/// The rules with their words.
const RULES: [(Rule, u32); 2] = [(Rule::Older, 0), (Rule::Newer, 1)];

/// A start that is refused, told either rule, changes no word.
#[test]
fn start_with() {
    assert_eq!(Rule::default(), Rule::Older);
    for (rule, word) in RULES {
        let mut words = vec![7; NEEDED + 3];
        for (entities, kinds) in [(0, K), (4097, K), (N, 0), (N, 129), (usize::MAX, usize::MAX)] {
            for length in [0, NEEDED] {
                let refused = Store::start_with(&mut words[..length], entities, kinds, Eight, rule).unwrap_err();
                assert_eq!(refused, Refusal::Size);
            }
        }
        for length in [0, 1, 1024, NEEDED - 1] {
            let refused = Store::start_with(&mut words[..length], N, K, Eight, rule).unwrap_err();
            assert_eq!(refused, Refusal::Short);
        }
        assert!(words.iter().all(|&word| word == 7));
        Store::start_with(&mut words, N, K, Eight, rule).unwrap();
        assert_eq!((words[RULE], &words[NEEDED..]), (word, &[7; 3][..]));
        assert!(Store::open(&mut words[..NEEDED]).is_ok());
        assert_eq!(Store::open(&mut words[..NEEDED - 1]).unwrap_err(), Refusal::Unsound);
    }
}

/// At the limits of both sizes: as many words as are needed, and one fewer. Under the older rule these are the very
/// words that a plain start leaves, under the newer the same but for the rule.
#[test]
fn start_with_at_the_limits() {
    for (entities, kinds) in [(1, 1), (1, 128), (4096, 1), (4096, 128), (N, K)] {
        let needed = Store::words_needed(entities, kinds).unwrap();
        let mut plain = vec![7; needed];
        Store::start(&mut plain, entities, kinds).unwrap();
        assert_eq!(plain[RULE], 0);
        for (rule, word) in RULES {
            let mut words = vec![7; needed];
            let refused = Store::start_with(&mut words[..needed - 1], entities, kinds, Eight, rule).unwrap_err();
            assert_eq!(refused, Refusal::Short);
            assert!(words.iter().all(|&word| word == 7));
            Store::start_with(&mut words, entities, kinds, Eight, rule).unwrap();
            plain[RULE] = word;
            assert!(words == plain && Store::open(&mut words).is_ok());
        }
    }
}

/// The rows that RANGE tells, from a place to before another, if there are such.
type Rows = Option<(usize, usize)>;

/// Asks for hand and bar. Ten bytes of answer, nine of them zeros where there is none, and both lists are empty then.
fn range(store: &mut Store, hand: &[u8], bar: &[u8]) -> Rows {
    let barred: Vec<u8> = bar.iter().flat_map(|&kind| [0x0b, kind]).collect();
    let told = answers(store, &[holding(hand, &barred), vec![0x0c]].concat());
    assert_eq!(store.words()[LISTED], [0, 0]);
    let (listed, told) = told.split_at(hand.len() + bar.len());
    assert!(listed.iter().all(|&byte| byte == 0));
    assert_eq!((told.len(), told[0]), (10, 0));
    if told[1] == 0 {
        assert_eq!(told, [0; 10]);
        return None;
    }
    assert_eq!(told[1], 1);
    let place = |at: usize| u32::from_le_bytes(told[at..at + 4].try_into().unwrap()) as usize;
    Some((place(2), place(6)))
}

fn has_all(entity: &[u8], kinds: &[u8]) -> bool {
    kinds.iter().all(|kind| entity.contains(kind))
}

/// A layout of one family, its groups smallest first, and the kinds of each entity, by its index. Kinds are 1 to 4, and
/// every list of them rises.
struct Example {
    groups: Vec<Vec<u8>>,
    entities: Vec<Vec<u8>>,
}

impl Example {
    /// The entities of document 01's example.
    fn with(groups: &[&[u8]]) -> Self {
        let entities: [&[u8]; 4] = [&[1, 2, 3], &[1, 2, 3, 4], &[1, 2], &[1]];
        Self {
            groups: groups.iter().map(|group| group.to_vec()).collect(),
            entities: entities.map(|kinds| kinds.to_vec()).into(),
        }
    }

    /// Registers the kinds, applies the layout and makes the entities, in an empty store.
    fn fill(&self, store: &mut Store) {
        let mut tape = vec![0x01, 1, 0x01, 2, 0x01, 3, 0x01, 4];
        tape.extend(self.groups.iter().flat_map(|group| holding(group, &[0x09])));
        tape.push(0x0a);
        tape.extend(self.entities.iter().flat_map(|kinds| holding(kinds, &[0x03])));
        answers(store, &tape);
        assert_eq!(tally(store), 0);
    }

    /// Words of such a store under the rule.
    fn words(&self, rule: Rule) -> Vec<u32> {
        let mut words = vec![7; NEEDED];
        self.fill(&mut Store::start_with(&mut words, N, K, Eight, rule).unwrap());
        words
    }

    /// What RANGE is to tell (docs/COMMANDS.md), by the layout and the entities' own kinds.
    fn expected(&self, rule: Rule, hand: &[u8], bar: &[u8]) -> Rows {
        let holders = |kinds: &[u8]| self.entities.iter().filter(|entity| has_all(entity, kinds)).count();
        let group = self.groups.iter().position(|group| group == hand);
        if bar.is_empty() {
            return (hand.len() == 1 || group.is_some()).then(|| (0, holders(hand)));
        }
        let larger = self.groups.get(group? + 1)?;
        let ring: Vec<u8> = larger.iter().copied().filter(|kind| !hand.contains(kind)).collect();
        let ruled = rule == Rule::Older || ring.len() == 1;
        (ring == bar && ruled).then(|| (holders(larger), holders(hand)))
    }

    /// The indexes of the entities with all of the hand and, of the barred, none under the newer rule, under the older
    /// not all.
    fn described(&self, rule: Rule, hand: &[u8], bar: &[u8]) -> Vec<u32> {
        let without = |kinds: &[u8]| match rule {
            Rule::Older => bar.is_empty() || !has_all(kinds, bar),
            Rule::Newer => bar.iter().all(|kind| !kinds.contains(kind)),
        };
        let indexes = (0..).zip(&self.entities);
        let found = indexes.filter(|(_, kinds)| has_all(kinds, hand) && without(kinds));
        found.map(|(index, _)| index).collect()
    }

    /// RANGE tells what it is to tell. The rows found are the entities described, once each, in every column of the
    /// hand, the same at the same place.
    fn check(&self, store: &mut Store, rule: Rule, hand: &[u8], bar: &[u8]) {
        let rows = range(store, hand, bar);
        assert_eq!(rows, self.expected(rule, hand, bar), "{rule:?} {hand:?} {bar:?}");
        let Some((start, end)) = rows else { return };
        let entities: Vec<Entity> = store.entities(hand[0], start, end).unwrap().collect();
        for &kind in hand {
            assert!(store.entities(kind, start, end).unwrap().eq(entities.iter().copied()));
        }
        assert!(entities.iter().all(|entity| entity.version == 1));
        let mut indexes: Vec<u32> = entities.iter().map(|entity| entity.index).collect();
        indexes.sort();
        assert_eq!(indexes, self.described(rule, hand, bar));
    }
}

/// Document 01's layout, whose larger group has two kinds more.
fn ring_of_two() -> Example {
    Example::with(&[&[1, 2], &[1, 2, 3, 4]])
}

/// The same entities where it has one kind more.
fn ring_of_one() -> Example {
    Example::with(&[&[1, 2], &[1, 2, 3]])
}

/// Of each question, what RANGE tells under the older and under the newer rule.
fn ask_all(example: &Example, asked: &[(&[u8], &[u8], [Rows; 2])]) {
    for (i, (rule, _)) in RULES.into_iter().enumerate() {
        let mut words = example.words(rule);
        let mut store = Store::open(&mut words).unwrap();
        for (hand, bar, rows) in asked {
            assert_eq!(range(&mut store, hand, bar), rows[i]);
            example.check(&mut store, rule, hand, bar);
        }
    }
}

/// 01's own questions, then those for the ring of one kind.
#[test]
fn range_examples() {
    ask_all(
        &ring_of_two(),
        &[
            (&[1, 2], &[], [Some((0, 3)); 2]),
            (&[1, 2, 3, 4], &[], [Some((0, 1)); 2]),
            (&[1], &[], [Some((0, 4)); 2]),
            (&[1, 3], &[], [None; 2]),
            (&[1, 2], &[3, 4], [Some((1, 3)), None]),
            (&[1, 2], &[3], [None; 2]),
            (&[], &[], [None; 2]),
        ],
    );
    ask_all(
        &ring_of_one(),
        &[
            (&[1, 2], &[], [Some((0, 3)); 2]),
            (&[1, 2, 3], &[], [Some((0, 2)); 2]),
            (&[1, 2], &[3], [Some((2, 3)); 2]),
            (&[1, 2], &[4], [None; 2]),
            (&[1, 2], &[3, 4], [None; 2]),
        ],
    );
}

/// Every set of the kinds 1 to 4.
fn sets() -> Vec<Vec<u8>> {
    let set = |bits: u8| (1..=4).filter(|&kind: &u8| bits >> kind & 1 == 1).collect();
    (0..32).step_by(2).map(set).collect()
}

/// Every hand and every bar of the four kinds, under both rules, for rings of one kind and of more; an entity with each
/// set of them.
#[test]
fn every_range() {
    let layouts: [&[&[u8]]; 6] = [
        &[&[1, 2], &[1, 2, 3, 4]],
        &[&[1, 2], &[1, 2, 3]],
        &[&[1, 2], &[1, 2, 3], &[1, 2, 3, 4]],
        &[&[3, 4], &[1, 3, 4]],
        &[&[1, 2, 3, 4]],
        &[],
    ];
    for (groups, (rule, word)) in layouts.into_iter().flat_map(|groups| RULES.map(|rule| (groups, rule))) {
        let example = Example {
            entities: sets(),
            ..Example::with(groups)
        };
        let mut words = example.words(rule);
        let mut store = Store::open(&mut words).unwrap();
        for hand in sets() {
            for bar in sets() {
                example.check(&mut store, rule, &hand, &bar);
            }
        }
        assert_eq!(words[RULE], word);
    }
}

/// Without a bar RANGE tells the same under both rules.
#[test]
fn ranges_without_bar() {
    for example in [ring_of_two(), ring_of_one()] {
        let [older, newer] = RULES.map(|(rule, _)| {
            let mut words = example.words(rule);
            let mut store = Store::open(&mut words).unwrap();
            let told = sets().into_iter().map(|hand| range(&mut store, &hand, &[]));
            told.collect::<Vec<Rows>>()
        });
        assert_eq!(older, newer);
        // Four single kinds and two groups.
        assert_eq!(older.iter().flatten().count(), 6);
    }
}

/// All commands, accepted and refused, leave the rule; and the words are the same under both, but for it.
#[test]
fn rule_stays() {
    let [mut older, newer] = RULES.map(|(rule, word)| {
        let mut words = ring_of_two().words(rule);
        let mut store = Store::open(&mut words).unwrap();
        assert_eq!(range(&mut store, &[1, 2], &[3, 4]).is_some(), rule == Rule::Older);
        set_caller(&mut store, 3);
        refuse(&mut store);
        run_every(&mut store);
        assert_eq!(words[RULE], word);
        words
    });
    older[RULE] = 1;
    assert_eq!(older, newer);
}

/// Only another start over the words changes the rule, and a refused one does not.
#[test]
fn another_start() {
    let example = ring_of_two();
    let mut words = example.words(Rule::Newer);
    let kept = words.clone();
    assert!(Store::start(&mut words, N, 129).is_err());
    assert!(Store::start(&mut words[..NEEDED - 1], N, K).is_err());
    assert!(Store::start_with(&mut words, 0, K, Eight, Rule::Older).is_err());
    assert!(Store::start_with(&mut words[..NEEDED - 1], N, K, Eight, Rule::Older).is_err());
    assert_eq!(words, kept);

    let mut store = Store::start(&mut words, N, K).unwrap();
    example.fill(&mut store);
    assert_eq!(range(&mut store, &[1, 2], &[3, 4]), Some((1, 3)));
    assert_eq!(words[RULE], 0);
    for (rule, word) in RULES.into_iter().rev() {
        let mut store = Store::start_with(&mut words, N, K, Eight, rule).unwrap();
        example.fill(&mut store);
        assert_eq!(range(&mut store, &[1, 2], &[3, 4]).is_some(), rule == Rule::Older);
        assert_eq!(words[RULE], word);
    }
}

/// Roll and columns do not show the rule.
#[test]
fn rule_does_not_show() {
    let [older, newer] = RULES.map(|(rule, _)| {
        let mut words = ring_of_two().words(rule);
        let store = Store::open(&mut words).unwrap();
        let mut roll = vec![0x5a; 256];
        let length = store.roll(&mut roll).unwrap();
        let columns = [(1, 4), (2, 3), (3, 2), (4, 1)];
        let rows = columns.map(|(kind, rows)| store.rows(kind, 0, rows).unwrap().collect::<Vec<Row>>());
        (length, roll, rows)
    });
    assert_eq!(older, newer);
    // Four entities and ten components.
    assert_eq!(older.0, 4 + 9 * (4 + 10));
}

/// Words with 0 or 1 for the rule are sound, and read by it, whichever start made them; with any other they are not.
#[test]
fn sound_rules() {
    for (rule, _) in RULES {
        let mut words = ring_of_two().words(rule);
        for none in [2, 3, 255, 256, 257, 65_536, 65_537, 1 << 31, u32::MAX] {
            words[RULE] = none;
            unsound(&mut words);
            assert_eq!(Store::open(&mut words).unwrap_err(), Refusal::Unsound);
        }
        for (rule, word) in RULES {
            words[RULE] = word;
            let mut store = Store::open(&mut words).unwrap();
            assert_eq!(store.column(4, Part::Entities, 0, 1), Ok(&[1, 1][..]));
            assert_eq!(store.roll(&mut [0; 256]), Ok(4 + 9 * (4 + 10)));
            assert_eq!(range(&mut store, &[1, 2], &[3, 4]).is_some(), rule == Rule::Older);
            assert_eq!(words[RULE], word);
        }
    }
}

/// The header and the crate have one version.
#[test]
fn version() {
    let line = format!("#define YIRBARN_VERSION \"{}\"", yirbarn::VERSION);
    assert!(include_str!("../../c/yirbarn.h").lines().any(|found| found == line));
}

#[test]
fn rolls() {
    let mut words = used();
    let store = Store::open(&mut words).unwrap();
    let roll = roll();
    for room in 0..roll.len() {
        let mut out = [0x5a; 64];
        assert_eq!(store.roll(&mut out[..room]), Err(Refusal::NoRoom));
        assert_eq!(out, [0x5a; 64]);
    }
    let mut out = [0x5a; 64];
    assert_eq!(store.roll(&mut out), Ok(roll.len()));
    assert_eq!(out[..roll.len()], roll);
    assert!(out[roll.len()..].iter().all(|&byte| byte == 0x5a));
}

/// A run by the function that tests the words, and by the one for words that are held: the same answer, bytes and words.
fn held_run(words: &mut [u32], tape: &[u8], room: usize) {
    let mut others = words.to_vec();
    let (mut out, mut answers) = ([0x5a; 64], [0x5a; 64]);
    let (ran, held) = unsafe {
        let (bytes, length) = (tape.as_ptr(), tape.len());
        (
            sys::yirbarn_run(words.as_mut_ptr(), words.len(), bytes, length, out.as_mut_ptr(), room),
            sys::yirbarn_held_run(
                others.as_mut_ptr(),
                others.len(),
                bytes,
                length,
                answers.as_mut_ptr(),
                room,
            ),
        )
    };
    assert_eq!((ran, out, &*words), (held, answers, &others[..]));
}

#[test]
fn held_runs() {
    let tape = tape();
    for length in 0..=tape.len() {
        let mut words = vec![7; NEEDED];
        Store::start(&mut words, N, K).unwrap();
        held_run(&mut words, &tape[..length], 64);
        // The same again, over what it left: most is refused now.
        held_run(&mut words, &tape[..length], 64);
    }
    for room in 0..=ANSWERS.len() {
        let mut words = vec![7; NEEDED];
        Store::start(&mut words, N, K).unwrap();
        held_run(&mut words, &tape, room);
    }
    for byte in 0..=255 {
        held_run(&mut used(), &[byte, 1, 0, 0, 0, 1, 0, 0, 0, 0], 64);
    }
}

#[test]
fn held_columns() {
    let words = used();
    let (pointer, length) = (words.as_ptr(), words.len());
    for kind in [0, 1, 2, 3, 127, 128, 255] {
        for (start, end) in (0..4).flat_map(|start| [0, 1, 2, 3, usize::MAX].map(|end| (start, end))) {
            for values in [false, true] {
                let (number, at) = unsafe {
                    (
                        sys::yirbarn_column_number(pointer, length, kind, values, start, end),
                        sys::yirbarn_column_at(pointer, length, kind, values, start, end),
                    )
                };
                let held = unsafe {
                    (
                        sys::yirbarn_held_column_number(pointer, length, kind, values, start, end),
                        sys::yirbarn_held_column_at(pointer, length, kind, values, start, end),
                    )
                };
                assert_eq!((number, at), held);
                for room in 0..6 {
                    let (mut out, mut others) = ([9; 6], [9; 6]);
                    let (one, other) = (out.as_mut_ptr(), others.as_mut_ptr());
                    let copied = unsafe { sys::yirbarn_column(pointer, length, kind, values, start, end, one, room) };
                    let held =
                        unsafe { sys::yirbarn_held_column(pointer, length, kind, values, start, end, other, room) };
                    assert_eq!((copied, out), (held, others));
                }
            }
        }
    }
}

#[test]
fn held_rolls() {
    let words = used();
    for room in 0..=64 {
        let (mut out, mut others) = ([0x5a; 64], [0x5a; 64]);
        let (rolled, held) = unsafe {
            (
                sys::yirbarn_roll(words.as_ptr(), words.len(), out.as_mut_ptr(), room),
                sys::yirbarn_held_roll(words.as_ptr(), words.len(), others.as_mut_ptr(), room),
            )
        };
        assert_eq!((rolled, out), (held, others));
    }
}

/// On words that hold no sound store every function says so, and nothing changes.
fn unsound(words: &mut [u32]) {
    let before = words.to_vec();
    let (mut out, mut copy) = ([0x5a; 64], [9; 4]);
    let tape = tape();
    let (pointer, length) = (words.as_mut_ptr(), words.len());
    unsafe {
        let ran = sys::yirbarn_run(pointer, length, tape.as_ptr(), tape.len(), out.as_mut_ptr(), 64);
        assert_eq!((ran.stop, ran.commands, ran.read, ran.written), (3, 0, 0, 0));
        let rolled = sys::yirbarn_roll(pointer, length, out.as_mut_ptr(), 64);
        assert_eq!((rolled.number, rolled.written), (3, 0));
        assert_eq!(sys::yirbarn_column_number(pointer, length, 1, false, 0, 1), 3);
        assert_eq!(sys::yirbarn_column_at(pointer, length, 1, false, 0, 1), 0);
        let copied = sys::yirbarn_column(pointer, length, 1, false, 0, 1, copy.as_mut_ptr(), 4);
        assert_eq!((copied.number, copied.written), (3, 0));
    }
    assert_eq!((out, copy), ([0x5a; 64], [9; 4]));
    assert_eq!(words, before);
}

#[test]
fn damaged_words() {
    let sound = used();
    let (mut refused, mut still) = (0, 0);
    for at in 0..NEEDED {
        for damage in [
            sound[at].wrapping_add(1),
            sound[at].wrapping_sub(1),
            sound[at] ^ 1 << 31,
            u32::MAX,
        ] {
            let mut words = sound.clone();
            words[at] = damage;
            if Store::open(&mut words).is_err() {
                refused += 1;
                unsound(&mut words);
                continue;
            }
            // Sound, so a run answers and leaves it sound.
            still += 1;
            let mut store = Store::open(&mut words).unwrap();
            let ran = store.run(&tape(), &mut [0; 64]);
            assert_eq!((ran.stop, ran.commands), (None, 14));
            assert!(Store::open(&mut words).is_ok());
        }
    }
    assert!(refused > 100 && still > 100);
    println!("damaged words: {refused} refused, {still} still sound");
}

#[test]
fn no_store() {
    for length in [0, 1, 1023, 1024, NEEDED] {
        for word in [0, 1, u32::MAX] {
            unsound(&mut vec![word; length]);
        }
    }
}

#[test]
fn refusals() {
    let numbers: Vec<u8> = (1..=16).chain([19]).collect();
    assert_eq!(Refusal::ALL.map(|refusal| refusal as u8)[..], numbers);
    for (number, refusal) in numbers.iter().zip(Refusal::ALL) {
        assert!(refusal.to_string().ends_with(&format!("({number})")));
    }
    // 0, 17, 18 and all above 19 are none.
    for number in 0..=255 {
        let found = Refusal::of(number).map(|refusal| refusal as u8);
        assert_eq!(found, numbers.contains(&number).then_some(number));
    }
}
