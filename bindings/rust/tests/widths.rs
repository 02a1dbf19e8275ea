//! Values of eight bytes and of sixteen: sizes, starts, HOLD and TAKE, columns, rolls, and the word that has the width.

use yirbarn::sys;
use yirbarn::{AnyStore, Eight, Entity, Part, Refusal, Row, Rule, Sixteen, Store, Width};

const N: usize = 64;
const K: usize = 8;

/// Where the words have the bytes of a value, and the rule (docs/WORDS.md).
const VALUE_BYTES: usize = 11;
const RULE: usize = 10;

/// The bytes of a value that no store has.
const OTHERS: [usize; 13] = [
    0,
    1,
    4,
    7,
    9,
    12,
    15,
    17,
    24,
    32,
    (1 << 32) + 8,
    (1 << 32) + 16,
    usize::MAX,
];

/// The answers to `tape`, at either width: document 01's.
const ANSWERS: [u8; 42] = [
    0, 1, 0, 1, 0, 0, 0, 1, 0, 0, 0, 0, 0, 0, 0, 1, 0, 0, 0, 0, 0, 0, 1, 0, 0, 0, 1, 0, 0, 0, 0, 0, 0, 1, 0, 0, 0, 0,
    1, 0, 0, 0,
];
const COMMANDS: usize = 14;

/// The words of a store for N and K.
fn needed(width: impl Width) -> usize {
    1024 + 16 * N + K * (8 + 4 * N + width.words() * N)
}

/// The value with this number, 0 to 15: no two bytes of all sixteen values are the same.
fn value(width: impl Width, number: u8) -> Vec<u8> {
    (0..width.bytes() as u8).map(|i| 16 * number + i).collect()
}

/// Values one after the other, as words.
fn words_of(width: impl Width, numbers: &[u8]) -> Vec<u32> {
    let bytes: Vec<u8> = numbers.iter().flat_map(|&number| value(width, number)).collect();
    let word = |bytes: &[u8]| u32::from_le_bytes(bytes.try_into().unwrap());
    bytes.chunks_exact(4).map(word).collect()
}

/// HOLD of each kind with the value of the number, and then the command.
fn holding(width: impl Width, held: &[(u8, u8)], command: &[u8]) -> Vec<u8> {
    let hold = |&(kind, number): &(u8, u8)| [vec![0x02, kind], value(width, number)].concat();
    let held = held.iter().flat_map(hold);
    held.chain(command.iter().copied()).collect()
}

/// Document 01's tape, with values of the width in place of 5, 6 and 7.
fn tape(width: impl Width) -> Vec<u8> {
    [
        vec![0x01, 1, 0x01, 2],
        holding(width, &[(1, 0), (2, 0)], &[0x09, 0x0a]),
        holding(width, &[(1, 5)], &[0x03]),
        holding(width, &[(1, 6), (2, 7)], &[0x03]),
        holding(width, &[(1, 0), (2, 0)], &[0x0c]),
    ]
    .concat()
}

/// The roll after it.
fn roll(width: impl Width) -> Vec<u8> {
    [
        vec![2, 0, 0, 0],
        vec![0, 0, 0, 0, 1, 0, 0, 0, 1, 1],
        value(width, 5),
        vec![1, 0, 0, 0, 1, 0, 0, 0, 2, 1],
        value(width, 6),
        vec![2],
        value(width, 7),
    ]
    .concat()
}

/// Words of an empty store, and three past it.
fn fresh(width: impl Width) -> Vec<u32> {
    let mut words = vec![7; needed(width) + 3];
    Store::start_with(&mut words, N, K, width, Rule::Older).unwrap();
    words
}

/// Words of a store that the tape has run on.
fn used(width: impl Width) -> Vec<u32> {
    let mut words = fresh(width);
    let mut store = Store::open_with(&mut words, width).unwrap();
    assert_eq!(answers(&mut store, &tape(width)), ANSWERS);
    words
}

/// All answers to a tape that is run to its end.
fn answers<W: Width>(store: &mut Store<W>, tape: &[u8]) -> Vec<u8> {
    let mut answers = [0x5a; 512];
    let ran = store.run(tape, &mut answers);
    assert_eq!((ran.stop, ran.read), (None, tape.len()));
    answers[..ran.written].to_vec()
}

/// The roll of a store.
fn rolled<W: Width>(store: &Store<W>) -> Vec<u8> {
    let mut out = vec![0; 1024];
    let length = store.roll(&mut out).unwrap();
    out.truncate(length);
    out
}

/// The exported start, told any width.
fn start(words: &mut [u32], entities: usize, kinds: usize, bytes: usize, newer: bool) -> u8 {
    unsafe { sys::yirbarn_start_with(words.as_mut_ptr(), words.len(), entities, kinds, bytes, newer) }
}

#[test]
fn words_needed() {
    for (entities, kinds, eight, sixteen) in [
        (1, 1, 1054, 1056),
        (N, K, 5184, 6208),
        (4096, 1, 91_144, 99_336),
        (1, 128, 2832, 3088),
        (4096, 128, 3_213_312, 4_261_888),
    ] {
        assert_eq!(Store::words_needed(entities, kinds), Some(eight));
        assert_eq!(Store::words_needed_with(entities, kinds, Eight), Some(eight));
        assert_eq!(Store::words_needed_with(entities, kinds, Sixteen), Some(sixteen));
        for bytes in OTHERS {
            assert_eq!(unsafe { sys::yirbarn_words_needed_with(entities, kinds, bytes) }, 0);
        }
    }
    for (entities, kinds) in [(0, 1), (4097, 1), (1, 0), (1, 129), (usize::MAX, usize::MAX)] {
        assert_eq!(Store::words_needed_with(entities, kinds, Eight), None);
        assert_eq!(Store::words_needed_with(entities, kinds, Sixteen), None);
    }
    assert_eq!((needed(Eight), needed(Sixteen)), (5184, 6208));
}

/// Any other width is refused by 1, with enough words and with none, and no word changes.
#[test]
fn other_widths() {
    let mut words = vec![7; needed(Sixteen)];
    for (bytes, newer) in OTHERS.into_iter().flat_map(|bytes| [(bytes, false), (bytes, true)]) {
        assert_eq!(start(&mut words, N, K, bytes, newer), 1);
        assert_eq!(start(&mut words, 0, K, bytes, newer), 1);
        assert_eq!(start(&mut words[..0], N, K, bytes, newer), 1);
    }
    assert!(words.iter().all(|&word| word == 7));
}

/// A start that is refused changes no word; one that is not has the width and the rule in their words.
fn starts(width: impl Width, rule: Rule) {
    let (needed, newer) = (needed(width), rule == Rule::Newer);
    let mut words = vec![7; needed + 3];
    for (entities, kinds) in [(0, K), (4097, K), (N, 0), (N, 129), (usize::MAX, usize::MAX)] {
        let refused = Store::start_with(&mut words, entities, kinds, width, rule).unwrap_err();
        assert_eq!(refused, Refusal::Size);
    }
    for length in [0, 1, 1024, needed - 1] {
        let refused = Store::start_with(&mut words[..length], N, K, width, rule).unwrap_err();
        assert_eq!(refused, Refusal::Short);
    }
    assert!(words.iter().all(|&word| word == 7));
    let store = Store::start_with(&mut words, N, K, width, rule).unwrap();
    assert_eq!(store.width().bytes(), width.bytes());
    assert_eq!((words[VALUE_BYTES], words[RULE]), (width.bytes() as u32, newer.into()));
    assert_eq!(words[needed..], [7; 3]);
    assert!(Store::open_with(&mut words[..needed], width).is_ok());
    let short = Store::open_with(&mut words[..needed - 1], width);
    assert_eq!(short.unwrap_err(), Refusal::Unsound);
}

#[test]
fn starts_at_both_widths() {
    for rule in [Rule::Older, Rule::Newer] {
        starts(Eight, rule);
        starts(Sixteen, rule);
    }
}

/// As many words as are needed, and one fewer, at the limits of both sizes.
fn starts_at_the_limits(width: impl Width) {
    for (entities, kinds) in [(1, 1), (1, 128), (4096, 1), (4096, 128)] {
        let needed = Store::words_needed_with(entities, kinds, width).unwrap();
        let mut words = vec![7; needed];
        let short = Store::start_with(&mut words[..needed - 1], entities, kinds, width, Rule::Older);
        assert_eq!(short.unwrap_err(), Refusal::Short);
        assert!(words.iter().all(|&word| word == 7));
        Store::start_with(&mut words, entities, kinds, width, Rule::Older).unwrap();
        assert!(Store::open_with(&mut words, width).is_ok());
    }
}

#[test]
fn limits_at_both_widths() {
    starts_at_the_limits(Eight);
    starts_at_the_limits(Sixteen);
}

/// Told eight bytes and the older rule, a start leaves the very words that a plain start leaves.
#[test]
fn plain_start() {
    for (entities, kinds) in [(1, 1), (N, K), (4096, 128)] {
        let needed = Store::words_needed(entities, kinds).unwrap();
        let (mut plain, mut told) = (vec![7; needed], vec![9; needed]);
        Store::start(&mut plain, entities, kinds).unwrap();
        Store::start_with(&mut told, entities, kinds, Eight, Rule::Older).unwrap();
        assert!(plain == told);
        assert_eq!(plain[VALUE_BYTES], 8);
    }
}

/// Each length of the tape, and each room: what is done is done as in the whole run.
fn cut_and_no_room(width: impl Width) {
    let tape = tape(width);
    for length in 0..=tape.len() {
        let mut words = fresh(width);
        let mut out = [0x5a; 64];
        let ran = Store::open_with(&mut words, width)
            .unwrap()
            .run(&tape[..length], &mut out);
        assert_eq!(ran.stop, (ran.read < length).then_some(Refusal::Cut));
        assert_eq!(out[..ran.written], ANSWERS[..ran.written]);
        assert!(out[ran.written..].iter().all(|&byte| byte == 0x5a));
    }
    for room in 0..ANSWERS.len() {
        let mut words = fresh(width);
        let mut store = Store::open_with(&mut words, width).unwrap();
        let ran = store.run(&tape, &mut [0; 64][..room]);
        assert_eq!(ran.stop, Some(Refusal::NoRoom));
        assert_eq!(answers(&mut store, &tape[ran.read..]), ANSWERS[ran.written..]);
        assert_eq!(rolled(&store), roll(width));
    }
}

#[test]
fn cut_and_no_room_at_both_widths() {
    cut_and_no_room(Eight);
    cut_and_no_room(Sixteen);
}

/// HOLD has as many bytes as the width says: with one fewer it is cut, with one more the next byte is a command.
fn holds(width: impl Width) {
    let mut words = fresh(width);
    let mut store = Store::open_with(&mut words, width).unwrap();
    answers(&mut store, &[0x01, 1]);
    let kept = store.words().to_vec();
    let hold = holding(width, &[(1, 15)], &[0x0e]);
    let bytes = 2 + width.bytes();
    for length in 1..bytes {
        let ran = store.run(&hold[..length], &mut [0; 8]);
        assert_eq!((ran.stop, ran.commands, ran.read), (Some(Refusal::Cut), 0, 0));
        assert_eq!(store.words(), kept);
    }
    // TALLY behind it.
    let ran = store.run(&hold, &mut [0; 8]);
    assert_eq!((ran.stop, ran.commands, ran.read, ran.written), (None, 2, bytes + 1, 6));
}

#[test]
fn holds_at_both_widths() {
    holds(Eight);
    holds(Sixteen);
}

/// Each of sixteen kinds with the value of its number, the last kind first.
fn all_kinds() -> Vec<(u8, u8)> {
    (0..16).rev().map(|kind| (kind, kind)).collect()
}

/// TAKE of entity 0, version 1, or of one that is not live.
const TAKE: [u8; 9] = [0x05, 0, 0, 0, 0, 1, 0, 0, 0];
const TAKE_NONE: [u8; 9] = [0x05, 0, 0, 0, 0, 2, 0, 0, 0];

/// TAKE of sixteen kinds, held and then not; one byte short it has no room, of a dead entity too.
fn takes(width: impl Width, length: usize) {
    let mut words = vec![7; Store::words_needed_with(2, 16, width).unwrap()];
    let mut store = Store::start_with(&mut words, 2, 16, width, Rule::Older).unwrap();
    let registers: Vec<u8> = (0..16).flat_map(|kind| [0x01, kind]).collect();
    answers(&mut store, &registers);
    answers(&mut store, &holding(width, &all_kinds(), &[0x03]));
    answers(&mut store, &holding(width, &all_kinds(), &[]));

    for (tape, written) in [(TAKE_NONE, 1), (TAKE, length)] {
        let mut out = [0x5a; 512];
        let ran = store.run(&tape, &mut out[..length - 1]);
        assert_eq!((ran.stop, ran.written), (Some(Refusal::NoRoom), 0));
        assert_eq!(out, [0x5a; 512]);
        assert_eq!(store.run(&tape, &mut out[..length]).written, written);
        assert_eq!(out[0], if written == 1 { Refusal::Dead as u8 } else { 0 });
        if written == length {
            let held = (0..16).rev().flat_map(|kind| [vec![1], value(width, kind)].concat());
            assert!(out[1..length].iter().copied().eq(held));
        }
    }
    let again = answers(&mut store, &holding(width, &all_kinds(), &TAKE));
    assert_eq!(again, vec![0; 16 + length]);
}

#[test]
fn takes_at_both_widths() {
    takes(Eight, 145);
    takes(Sixteen, 273);
}

const FIRST: Entity = Entity { index: 1, version: 1 };
const SECOND: Entity = Entity { index: 0, version: 1 };

/// A column in place and copied: two words an entity, as many a value as the width says.
fn columns(width: impl Width) {
    let mut words = used(width);
    let store = Store::open_with(&mut words, width).unwrap();
    let (d, values) = (width.words(), words_of(width, &[6, 5]));
    assert_eq!(store.column(1, Part::Entities, 0, 2), Ok(&[1, 1, 0, 1][..]));
    assert_eq!(store.column(1, Part::Values, 0, 2), Ok(&values[..]));
    assert_eq!(store.column(1, Part::Values, 1, 2), Ok(&values[d..]));
    assert_eq!(store.column(1, Part::Values, 2, 2), Ok(&[][..]));
    assert_eq!(store.column(2, Part::Values, 0, 1), Ok(&words_of(width, &[7])[..]));
    assert_eq!(store.column(1, Part::Values, 0, 3), Err(Refusal::Beyond));
    assert_eq!(store.column(3, Part::Values, 0, 0), Err(Refusal::Kind));
    for room in 0..=2 * d + 1 {
        let mut out = [9; 9];
        let copied = store.copy_column(1, Part::Values, 0, 2, &mut out[..room]);
        let length = copied.unwrap_or(0);
        assert_eq!(copied, if room < 2 * d { Err(Refusal::NoRoom) } else { Ok(2 * d) });
        assert_eq!(out[..length], values[..length]);
        assert!(out[length..].iter().all(|&word| word == 9));
    }
    assert_eq!(store.copy_column(1, Part::Entities, 0, 2, &mut [9; 4]), Ok(4));
}

#[test]
fn columns_at_both_widths() {
    columns(Eight);
    columns(Sixteen);
}

/// The iterators give numbers of the width.
fn iterators<W: Width>(width: W, number: fn(&[u8]) -> W::Value) {
    let mut words = used(width);
    let store = Store::open_with(&mut words, width).unwrap();
    let [five, six, seven] = [5, 6, 7].map(|i| number(&value(width, i)));
    let first = Row {
        entity: FIRST,
        value: six,
    };
    let second = Row {
        entity: SECOND,
        value: five,
    };
    assert!(store.rows(1, 0, 2).unwrap().eq([first, second]));
    assert!(store.rows(1, 0, 2).unwrap().rev().eq([second, first]));
    assert!(store.values(1, 0, 2).unwrap().eq([six, five]));
    assert!(store.values(1, 0, 2).unwrap().rev().eq([five, six]));
    assert!(store.values(2, 0, 1).unwrap().eq([seven]));
    assert!(store.entities(1, 0, 2).unwrap().eq([FIRST, SECOND]));
    let lengths = (store.rows(1, 0, 2).unwrap().len(), store.values(1, 1, 2).unwrap().len());
    assert_eq!(lengths, (2, 1));
    assert_eq!(store.values(1, 0, 3).err(), Some(Refusal::Beyond));
}

#[test]
fn iterators_at_both_widths() {
    iterators(Eight, |bytes| u64::from_le_bytes(bytes.try_into().unwrap()));
    iterators(Sixteen, |bytes| u128::from_le_bytes(bytes.try_into().unwrap()));
}

/// A value moves, is replaced and goes as a whole.
fn moves(width: impl Width) {
    let mut words = fresh(width);
    let mut store = Store::open_with(&mut words, width).unwrap();
    let news = [1, 2, 3].map(|number| holding(width, &[(1, number)], &[0x03])).concat();
    answers(&mut store, &[vec![0x01, 1], news].concat());
    let column = |store: &Store<_>, rows: usize| store.column(1, Part::Values, 0, rows).unwrap().to_vec();
    assert_eq!(column(&store, 3), words_of(width, &[1, 2, 3]));
    // KILL of the first: the last stands in its place.
    assert_eq!(answers(&mut store, &[0x07, 0, 0, 0, 0, 1, 0, 0, 0]), [0]);
    assert_eq!(column(&store, 2), words_of(width, &[3, 2]));
    // PUT of another value on the second.
    let put = holding(width, &[(1, 14)], &[0x04, 1, 0, 0, 0, 1, 0, 0, 0]);
    assert_eq!(answers(&mut store, &put), [0, 0]);
    assert_eq!(column(&store, 2), words_of(width, &[3, 14]));
    // A tray has the value in each.
    assert_eq!(
        answers(&mut store, &holding(width, &[(1, 9)], &[0x0f, 2, 0])),
        [0, 0, 2, 0]
    );
    assert_eq!(column(&store, 4), words_of(width, &[3, 14, 9, 9]));
    assert_eq!(rolled(&store).len(), 4 + 9 * 4 + (1 + width.bytes()) * 4);
}

#[test]
fn moves_at_both_widths() {
    moves(Eight);
    moves(Sixteen);
}

/// The roll into every room up to one byte more than it takes.
fn rolls(width: impl Width) {
    let mut words = used(width);
    let store = Store::open_with(&mut words, width).unwrap();
    let roll = roll(width);
    for room in 0..=roll.len() + 1 {
        let mut out = [0x5a; 128];
        let told = store.roll(&mut out[..room]);
        let length = told.unwrap_or(0);
        assert_eq!(told.is_ok(), room >= roll.len());
        assert_eq!(out[..length], roll[..length]);
        assert!(out[length..].iter().all(|&byte| byte == 0x5a));
    }
}

#[test]
fn rolls_at_both_widths() {
    rolls(Eight);
    rolls(Sixteen);
}

/// The words are opened at their own width, and at no other.
#[test]
fn opened() {
    let (mut eight, mut sixteen) = (used(Eight), used(Sixteen));
    assert_eq!(Store::open_with(&mut eight, Sixteen).unwrap_err(), Refusal::Size);
    assert_eq!(Store::open(&mut sixteen).unwrap_err(), Refusal::Size);
    let AnyStore::Eight(store) = Store::open_any(&mut eight).unwrap() else {
        panic!("values of eight bytes");
    };
    assert_eq!(rolled(&store), roll(Eight));
    let AnyStore::Sixteen(store) = Store::open_any(&mut sixteen).unwrap() else {
        panic!("values of sixteen bytes");
    };
    assert_eq!(rolled(&store), roll(Sixteen));
}

/// No command changes the width, only another start does.
#[test]
fn width_stays() {
    let mut words = used(Sixteen);
    let mut store = Store::open_with(&mut words, Sixteen).unwrap();
    // WIPE, TALLY, SETCALLER 3, EMPTY, APPLY, and a kind above 127.
    assert_eq!(
        answers(&mut store, &[0x08, 0x0e, 0x10, 3, 0x0d, 0x0a, 0x01, 128]).len(),
        10
    );
    assert_eq!(words[VALUE_BYTES], 16);
    assert!(Store::start(&mut words, N, 129).is_err());
    assert!(Store::start_with(&mut words, 0, K, Eight, Rule::Older).is_err());
    assert_eq!(words[VALUE_BYTES], 16);
    Store::start(&mut words, N, K).unwrap();
    assert_eq!(words[VALUE_BYTES], 8);
    Store::start_with(&mut words, N, K, Sixteen, Rule::Newer).unwrap();
    assert_eq!(words[VALUE_BYTES], 16);
}

/// On words that hold no sound store every function says so, and nothing changes.
fn unsound(words: &mut [u32]) {
    let before = words.to_vec();
    let (mut out, mut copy) = ([0x5a; 64], [9; 4]);
    let (pointer, length) = (words.as_mut_ptr(), words.len());
    unsafe {
        let ran = sys::yirbarn_run(pointer, length, [0x0e].as_ptr(), 1, out.as_mut_ptr(), 64);
        assert_eq!((ran.stop, ran.commands, ran.read, ran.written), (3, 0, 0, 0));
        let rolled = sys::yirbarn_roll(pointer, length, out.as_mut_ptr(), 64);
        assert_eq!((rolled.number, rolled.written), (3, 0));
        for values in [false, true] {
            assert_eq!(sys::yirbarn_column_number(pointer, length, 1, values, 0, 1), 3);
            assert_eq!(sys::yirbarn_column_at(pointer, length, 1, values, 0, 1), 0);
            let copied = sys::yirbarn_column(pointer, length, 1, values, 0, 1, copy.as_mut_ptr(), 4);
            assert_eq!((copied.number, copied.written), (3, 0));
        }
    }
    assert_eq!((out, copy), ([0x5a; 64], [9; 4]));
    assert_eq!(words, before);
    assert_eq!(Store::open(words).unwrap_err(), Refusal::Unsound);
    assert_eq!(Store::open_with(words, Sixteen).unwrap_err(), Refusal::Unsound);
    assert_eq!(Store::open_any(words).unwrap_err(), Refusal::Unsound);
}

/// No sound store has another number in the width's word.
#[test]
fn damaged_width() {
    for mut words in [fresh(Eight), used(Eight), fresh(Sixteen), used(Sixteen)] {
        for none in [0, 1, 4, 7, 9, 12, 15, 17, 32, 256 + 8, 1 << 31 | 16, u32::MAX] {
            words[VALUE_BYTES] = none;
            unsound(&mut words);
        }
    }
}

/// Words of a store for one kind, with two entities that have the values of 1 and 2; as many words as the wider takes.
fn one_kind(width: impl Width) -> Vec<u32> {
    let mut words = vec![7; Store::words_needed_with(N, 1, Sixteen).unwrap()];
    let mut store = Store::start_with(&mut words, N, 1, width, Rule::Older).unwrap();
    let news = [1, 2].map(|number| holding(width, &[(1, number)], &[0x03])).concat();
    answers(&mut store, &[vec![0x01, 1], news].concat());
    words
}

/// With the other width in the word they are judged by that: enough words, and the values read at that many words.
#[test]
fn width_changed() {
    let mut words = one_kind(Eight);
    words[VALUE_BYTES] = 16;
    let enough = words.len();
    unsound(&mut words[..enough - 1]);
    let store = Store::open_with(&mut words, Sixteen).unwrap();
    assert_eq!(store.column(1, Part::Entities, 0, 2), Ok(&[0, 1, 1, 1][..]));
    let both = [words_of(Eight, &[1, 2]), vec![0; 4]].concat();
    assert_eq!(store.column(1, Part::Values, 0, 2), Ok(&both[..]));
    assert_eq!(rolled(&store).len(), 4 + 9 * 2 + 17 * 2);

    let mut words = one_kind(Sixteen);
    words[VALUE_BYTES] = 8;
    let store = Store::open(&mut words).unwrap();
    assert_eq!(store.column(1, Part::Values, 0, 2), Ok(&words_of(Sixteen, &[1])[..]));
    assert_eq!(rolled(&store).len(), 4 + 9 * 2 + 9 * 2);

    // With two kinds the second column is elsewhere at the other width, and no kind is found there.
    for (mut words, other) in [(used(Eight), 16), (used(Sixteen), 8)] {
        words.resize(needed(Sixteen), 0);
        words[VALUE_BYTES] = other;
        unsound(&mut words);
    }
}

/// A run by the function that tests the words, and by the one for words that are held: the same answer, bytes and words.
fn held_run(words: &mut [u32], tape: &[u8], room: usize) {
    let mut others = words.to_vec();
    let (mut out, mut again) = ([0x5a; 64], [0x5a; 64]);
    let (bytes, length) = (tape.as_ptr(), tape.len());
    let ran = unsafe { sys::yirbarn_run(words.as_mut_ptr(), words.len(), bytes, length, out.as_mut_ptr(), room) };
    let (pointer, len) = (others.as_mut_ptr(), others.len());
    let held = unsafe { sys::yirbarn_held_run(pointer, len, bytes, length, again.as_mut_ptr(), room) };
    assert_eq!((ran, out, &*words), (held, again, &others[..]));
}

#[test]
fn held_runs() {
    let tape = tape(Sixteen);
    for length in 0..=tape.len() {
        let mut words = fresh(Sixteen);
        held_run(&mut words, &tape[..length], 64);
        // The same again, over what it left: most is refused now.
        held_run(&mut words, &tape[..length], 64);
    }
    for room in 0..=ANSWERS.len() {
        held_run(&mut fresh(Sixteen), &tape, room);
    }
}

/// The functions that test the words tell of a column what those for held words tell, through which a store goes.
#[test]
fn held_columns() {
    let mut words = used(Sixteen);
    let (pointer, length) = (words.as_ptr(), words.len());
    let values = words_of(Sixteen, &[6, 5]);
    let mut out = [9; 9];
    let copied = unsafe { sys::yirbarn_column(pointer, length, 1, true, 0, 2, out.as_mut_ptr(), 8) };
    assert_eq!((copied.number, copied.written), (0, 8));
    assert_eq!((&out[..8], out[8]), (&values[..], 9));
    let at = unsafe { sys::yirbarn_column_at(pointer, length, 1, true, 0, 2) };
    assert_eq!(words[at..at + 8], values);
    let mut out = [0x5a; 128];
    let told = unsafe { sys::yirbarn_roll(pointer, length, out.as_mut_ptr(), 128) };
    let store = Store::open_with(&mut words, Sixteen).unwrap();
    assert_eq!((told.number, &out[..told.written]), (0, &rolled(&store)[..]));
    assert_eq!(store.column(1, Part::Values, 0, 2), Ok(&values[..]));
}

/// Each word of a store of sixteen bytes damaged: refused at every entry, or else a run leaves a sound store.
#[test]
fn damaged_words() {
    let sound = used(Sixteen);
    let (mut refused, mut still) = (0, 0);
    for at in 0..needed(Sixteen) {
        for damage in [sound[at].wrapping_add(1), sound[at].wrapping_sub(1), u32::MAX] {
            let mut words = sound.clone();
            words[at] = damage;
            let Ok(mut store) = Store::open_with(&mut words, Sixteen) else {
                refused += 1;
                unsound(&mut words);
                continue;
            };
            still += 1;
            let ran = store.run(&tape(Sixteen), &mut [0; 64]);
            assert_eq!((ran.stop, ran.commands), (None, COMMANDS));
            assert!(Store::open_with(&mut words, Sixteen).is_ok());
        }
    }
    assert!(refused > 100 && still > 100);
    println!("damaged words of sixteen bytes: {refused} refused, {still} still sound");
}
