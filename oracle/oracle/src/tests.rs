//! The harness held to document 01's own examples and to the library's own ways, and the tools to themselves.

use crate::compare::{begin, compare, shrink, Beside, Figures, Look, Make, Pair};
use crate::demand::{self, Asked};
use crate::drafts::{self, Ours, Sorted, Theirs};
use crate::fixed;
use crate::generate;
use crate::listing;
use crate::past;
use crate::record;
use crate::reference::{Fault, Reference};
use crate::rng::Rng;
use crate::rules::{self, Filled};
use crate::side::{Rule, Side, Told};
use crate::tape::{self, Case, Chunk, Run, NARROW, WIDE};
use crate::widths;
use crate::words;
use sparsey::component::GroupLayout;
use sparsey::harness::{
    add_group, families_of, is_within_reach, set_of, words_needed, Counts, Families, Id, Oracle, Preset, Ran, Sets,
    CALLERS, WIDTHS,
};
use std::panic::{catch_unwind, AssertUnwindSafe};

const TUPLES: Beside = Beside::Rust(Sets::Tuples);
const STAGED: Beside = Beside::Rust(Sets::Staged);

fn plain() -> Box<dyn Side> {
    Box::new(Reference::new())
}

fn sides() -> Vec<Box<dyn Side>> {
    vec![
        Box::new(Oracle::new(Sets::Tuples)),
        Box::new(Oracle::new(Sets::Staged)),
        Box::new(Reference::new()),
    ]
}

/// The widths in turn.
fn width_of(seed: u64) -> usize {
    WIDTHS[(seed % 2) as usize]
}

/// A random case beside the Rust, at one width or the other.
fn random(seed: u64) -> Case {
    let case = generate::random_case(seed, width_of(seed), STAGED, &plain);
    case.unwrap_or_else(|difference| panic!("seed {seed}: {}", difference.text()))
        .0
}

/// The answers of the case's runs.
fn answers(side: &mut dyn Side, case: &Case) -> Vec<Vec<u8>> {
    answers_under(side, case, None)
}

/// The answers on a store whose start is told a rule or none.
fn answers_under(side: &mut dyn Side, case: &Case, told: Option<Rule>) -> Vec<Vec<u8>> {
    assert_eq!(begin(side, case, told), 0);
    let answer = |run: &Run| {
        let mut out = vec![0; 4096];
        let ran = side.run(&run.tape(), &mut out);
        assert_eq!((ran.stop, ran.read), (0, run.tape().len()));
        out[..ran.written].to_vec()
    };
    case.runs.iter().map(answer).collect()
}

fn range(found: bool, start: u8, end: u8) -> Vec<u8> {
    vec![0, u8::from(found), start, 0, 0, 0, end, 0, 0, 0]
}

#[test]
fn marked_examples() {
    let [marked, killed, _] = &record::examples()[..] else {
        panic!()
    };
    for mut side in sides() {
        let answers = answers(&mut *side, marked);
        let last = |i: usize, width: usize| answers[i][answers[i].len() - width..].to_vec();
        let ranges: Vec<Vec<u8>> = (1..8).map(|i| last(i, 10)).collect();
        assert_eq!(
            ranges,
            [
                range(true, 0, 3),
                range(true, 0, 1),
                range(true, 0, 4),
                range(false, 0, 0),
                range(true, 1, 3),
                range(false, 0, 0),
                range(false, 0, 0),
            ]
        );
        assert_eq!(last(8, 2), [0, 0]);
        assert_eq!(last(9, 2), [0, 1]);
        assert_eq!(last(10, 1), [14]);
        assert_eq!(last(11, 1), [14]);
        assert_eq!(last(12, 2), [0, 1]);
        assert_eq!(last(13, 2), [0, 1]);
        assert_eq!(last(14, 1), [14]);
    }
    for mut side in sides() {
        let answers = answers(&mut *side, killed);
        assert_eq!(answers[2][2..], range(true, 0, 2));
        assert_eq!(answers[3][4..], range(true, 0, 0));
        assert_eq!(answers[4], [0, 1, 0, 0, 0, 2, 0, 0, 0]);
    }
}

#[test]
fn the_tape_of_document_01() {
    let case = &record::examples()[2];
    let expected =
        "00 01 00 01 00 00 00 01 00 00 00 00 00 00 00 01 00 00 00 00 00 00 01 00 00 00 01 00 00 00 00 00 00 01 \
                    00 00 00 00 01 00 00 00";
    let expected: Vec<u8> = expected
        .split_whitespace()
        .map(|byte| u8::from_str_radix(byte, 16).unwrap())
        .collect();
    for mut side in sides() {
        side.start(words_needed(64, 8, NARROW), 64, 8);
        let mut out = vec![0; 16384];
        let ran = side.run(&case.runs[0].tape(), &mut out);
        assert_eq!((ran.stop, ran.commands, ran.read, ran.written), (0, 14, 0x4f, 0x2a));
        assert_eq!(out[..ran.written], expected);
    }
}

/// What GROUP answers to each of the lists, behind those of a draft.
fn group_answers(side: &mut dyn Side, draft: &[Vec<u8>], lists: &[Vec<u8>]) -> Vec<Vec<u8>> {
    let runs = fixed::drafted(draft);
    let drafted = runs.len();
    let case = Case {
        n: 1,
        k: 128,
        value_bytes: NARROW,
        preset: None,
        runs: runs
            .into_iter()
            .chain(lists.iter().map(|list| fixed::grouped(list)))
            .collect(),
    };
    let answers = answers(side, &case).split_off(drafted);
    let group = |(answer, list): (&Vec<u8>, &Vec<u8>)| answer[list.len()..answer.len() - 1].to_vec();
    answers.iter().zip(lists).map(group).collect()
}

/// A group of 16 kinds is added; a 64th is added and a 65th is not, wherever it would go; WIDE never comes.
#[test]
fn sixteen_kinds_and_64_groups() {
    let groups = past::gapped();
    let wide = |first: u8| -> Vec<u8> { (first..first + 16).collect() };
    let (added, nothing, clash, many) = (vec![0, 1], vec![0, 0], vec![14], vec![15]);
    for mut side in sides() {
        let side = &mut *side;
        let empty = group_answers(side, &[], &[wide(0), wide(0), wide(8), wide(16)]);
        assert_eq!(empty, [&added, &nothing, &clash, &added].map(Clone::clone));

        let refused = [vec![], vec![77], groups[5].clone(), wide(0), vec![0, 64], wide(8)];
        let expected = [&nothing, &nothing, &nothing, &nothing, &clash, &clash].map(Clone::clone);
        for count in [62, 63, 64] {
            assert_eq!(group_answers(side, &groups[..count], &refused), expected);
        }
        // A family of its own, below, between and above.
        for list in [vec![48, 49], wide(48), vec![0, 1], vec![0, 1, 2, 3], wide(16), wide(32)] {
            assert_eq!(group_answers(side, &groups, &[list.clone()]), [many.clone()]);
            let again = [list, vec![51, 50]];
            let answers = group_answers(side, &groups[..63], &again);
            assert_eq!(answers[0], added);
            assert!([&many, &clash].contains(&&answers[1]));
        }
    }
}

/// The library takes families of 15 kinds and layouts of 63 groups, and panics at one more of either.
#[test]
fn the_reach_of_the_rust() {
    let pairs = |count: u8| -> Vec<Vec<u8>> { (0..count).map(|i| vec![2 * i, 2 * i + 1]).collect() };
    for (groups, takes) in [
        (vec![(0..15).collect()], true),
        (vec![(0..16).collect()], false),
        (pairs(63), true),
        (pairs(64), false),
    ] {
        let mut layout = GroupLayout::default();
        groups.iter().for_each(|group| add_group(&mut layout, group));
        assert_eq!(is_within_reach(&families_of(&layout)), takes);
        assert_eq!(
            catch_unwind(AssertUnwindSafe(|| sparsey::World::new(&layout))).is_ok(),
            takes
        );
    }
}

/// Past the Rust the definition finds faults in walks and ranges also where both sides have them.
#[test]
fn the_definition_judges_alone() {
    for fault in [
        Fault::SixteenthNotAsked,
        Fault::SixteenthNotSwapped,
        Fault::SixteenthPutAlone,
        Fault::SixteenthRemovedAlone,
        Fault::UpwardOneShort,
        Fault::RemovalOneShort,
        Fault::KillOneShort,
        Fault::WipeOneShort,
        Fault::RangeFifteen,
        Fault::RingFifteen,
        Fault::TrayUngrouped,
        Fault::TrayFirstGrouped,
        Fault::TrayFirstPassedOver,
        Fault::TrayLastKind,
    ] {
        let mut cases = past::few().into_iter().flat_map(|part| part.cases);
        assert!(cases.any(|case| by_definition(&case, fault).is_err()), "{fault:?}");
    }
}

/// The case on two sides with the same fault.
fn by_definition(case: &Case, fault: Fault) -> Result<(), String> {
    let faulty: Make = &|| Box::new(Reference::with(Some(fault))) as Box<dyn Side>;
    let mut pair = Pair::start(case, Beside::PAST, faulty)?;
    pair.known = Box::new(Reference::with(Some(fault)));
    begin(&mut *pair.known, case, None);
    for run in &case.runs {
        pair.step(run, true)?;
        pair.ranges()?;
    }
    Ok(())
}

/// Each set of groups that forms a layout is added in every order, with the same families; and GROUP adds exactly what
/// forms one.
#[test]
fn groups_in_any_order() {
    for mut side in sides() {
        let orders = drafts::orders(5, 4, &mut *side);
        assert_eq!(orders.wrong, 0, "{}", orders.text(side.name()));
        // And the layout of no groups.
        assert_eq!(orders.layouts() + 1, 387);
    }
}

/// Given the smallest first, the Rust has our families, and panics where GROUP clashes; in the order given it panics at a
/// group below or between.
#[test]
fn the_rust_takes_the_smallest_first() {
    let drafts = drafts::enumerate(5, 2);
    assert_eq!((drafts.disputed, drafts.differ()), (0, 0), "{}", drafts.text());
    let smallest = |class| drafts.classes.get(&class).map(|(_, draft, new)| (&draft[..], *new));
    assert_eq!(
        smallest((Ours::Below, Theirs::Panic, Sorted::Same)),
        Some((&[0b111][..], 0b011))
    );
    assert_eq!(
        smallest((Ours::Between, Theirs::Panic, Sorted::Same)),
        Some((&[0b0011, 0b1111][..], 0b0111))
    );
    assert_eq!(
        smallest((Ours::Clash, Theirs::Wrong, Sorted::Panic)),
        Some((&[0b00011, 0b01111][..], 0b10011))
    );
    // It takes no group below or between, and every one above or apart.
    for &(ours, theirs, _) in drafts.classes.keys() {
        let expected = match ours {
            Ours::Apart | Ours::Above => Theirs::Added,
            Ours::Between | Ours::Below => Theirs::Panic,
            Ours::Nothing => Theirs::Nothing,
            Ours::Clash => continue,
        };
        assert!(theirs == expected || theirs == Theirs::Earlier, "{ours:?}: {theirs:?}");
    }
}

/// The set type of the harness does what the library's tuples do.
#[test]
fn tuples_and_staged_agree() {
    let staged: Make = &|| Box::new(Oracle::new(Sets::Staged)) as Box<dyn Side>;
    for seed in 0..1500 {
        if let Err(difference) = generate::random_case(seed, width_of(seed), TUPLES, staged) {
            panic!("seed {seed}: {}", difference.text());
        }
    }
}

/// The whole case on one side.
fn run_all(side: &mut dyn Side, case: &Case) {
    begin(side, case, None);
    for run in &case.runs {
        side.run(&run.tape(), &mut vec![0; run.room]);
    }
}

/// TRAY's answers: an exact fill, one too many with the list kept, none in a full store, and numbers that wait.
#[test]
fn answers_of_trays() {
    let id = |index: u8, version: u8| [vec![0, index, 0, 0, 0, version], vec![0; 3]].concat();
    let expected = [
        (
            vec![tape::reg(1), tape::tray(0), tape::tray(65535)],
            vec![0, 1, 0, 0, 0, 12],
        ),
        (tape::with(&[1], tape::tray(3)), vec![0, 0, 3, 0]),
        (tape::with(&[1], tape::tray(2)), vec![0, 12]),
        (
            vec![tape::hold(1, 0), tape::tray(1), tape::tray(1)],
            vec![9, 0, 1, 0, 12],
        ),
        (
            vec![tape::hold(1, 0), tape::tray(0), tape::hold(1, 0)],
            vec![0, 0, 0, 0, 0],
        ),
        (
            vec![tape::kill((2, 1)), tape::kill((0, 1)), tape::tray(3)],
            vec![0, 0, 12],
        ),
        (vec![tape::tray(1), tape::new()], [vec![0, 1, 0], id(0, 2)].concat()),
        (vec![tape::tally(), tape::kill((2, 2))], vec![0, 5, 0, 0, 0, 0]),
        (tape::with(&[1], tape::range()), vec![0, 0, 1, 0, 0, 0, 0, 2, 0, 0, 0]),
    ];
    hold_answers(4, 1, expected.to_vec());
}

/// Holds every side to runs and their answers.
fn hold_answers(n: usize, k: usize, expected: Vec<(Vec<Chunk>, Vec<u8>)>) {
    let (chunks, bytes): (Vec<_>, Vec<_>) = expected.into_iter().unzip();
    let case = Case {
        n,
        k,
        value_bytes: NARROW,
        preset: None,
        runs: chunks.into_iter().map(Run::new).collect(),
    };
    for mut side in sides() {
        assert_eq!(answers(&mut *side, &case), bytes, "{}", side.name());
    }
}

/// SETCALLER's answers, and TALLY's by caller: 19 counts against the caller before, and nothing else changes the caller.
#[test]
fn answers_of_callers() {
    let ends = |answers: &[u8], tally: u8| [answers, &[0, tally, 0, 0, 0]].concat();
    let called = |caller: u8| vec![tape::set_caller(caller), tape::tally()];
    let expected = vec![
        (called(0), ends(&[0], 0)),
        (vec![tape::bar(9), tape::tally()], ends(&[7], 1)),
        (called(15), ends(&[0], 0)),
        (called(16), ends(&[19], 1)),
        (called(255), ends(&[19], 2)),
        (
            vec![
                tape::kill((0, 1)),
                tape::wipe(),
                tape::apply(),
                tape::empty(),
                tape::tally(),
            ],
            ends(&[11, 0, 0, 0], 3),
        ),
        (called(15), ends(&[0], 3)),
        (called(0), ends(&[0], 1)),
        (called(31), ends(&[19], 2)),
        (called(7), ends(&[0], 0)),
        (vec![tape::reg(1), tape::hold(1, 4), tape::bar(1)], vec![0, 1, 0, 0]),
        (vec![tape::set_caller(8), tape::bar(1), tape::hold(1, 0)], vec![0, 9, 9]),
        (called(8), ends(&[0], 2)),
        (
            vec![tape::new(), tape::take((0, 1))],
            vec![0, 0, 0, 0, 0, 1, 0, 0, 0, 0],
        ),
        (called(15), ends(&[0], 3)),
    ];
    hold_answers(1, 1, expected);
}

/// Without its operand, or a byte for its answer, SETCALLER stops the run, also where 19 would come; 4 begins above it.
#[test]
fn stops_of_callers() {
    for mut side in sides() {
        side.start(words_needed(1, 1, NARROW), 1, 1);
        for (tape, room, stop) in [
            (&[16][..], 8, 5),
            (&[16], 0, 5),
            (&[16, 3], 0, 6),
            (&[16, 16], 0, 6),
            (&[17], 8, 4),
            (&[17, 3], 8, 4),
            (&[0, 3], 8, 4),
        ] {
            let ran = side.run(tape, &mut vec![0; room]);
            let expected = Ran { stop, ..Ran::default() };
            assert_eq!(ran, expected, "{}: {tape:?} in {room} bytes", side.name());
            assert_eq!(side.counts(), Counts::default());
        }
        let mut out = [5; 3];
        assert_eq!(side.run(&[16, 3, 16, 16, 16], &mut out).stop, 5);
        assert_eq!(out, [0, 19, 5]);
        assert_eq!(side.counts().0, 3);
    }
}

/// A start makes caller and counts 0 again, a refused one leaves them.
#[test]
fn a_start_forgets_callers() {
    let needed = words_needed(1, 1, NARROW);
    let chunks = [3, 20, 5, 16, 16].map(tape::set_caller);
    let mut counts = (5, [0; CALLERS]);
    counts.1[3] = 1;
    counts.1[5] = 2;
    for mut side in sides() {
        side.start(needed, 1, 1);
        side.run(&chunks.concat(), &mut [0; 8]);
        assert_eq!(side.counts(), counts);
        assert_eq!(side.start(needed - 1, 1, 1), 2);
        assert_eq!(side.counts(), counts);
        assert_eq!(side.start(needed, 1, 1), 0);
        assert_eq!(side.counts(), Counts::default());
    }
}

/// One random case in three has callers, mostly several with refusals. All counts together tell how many commands were
/// refused; where no caller is set, that of caller 0 alone.
#[test]
fn random_cases_with_callers() {
    let (mut called, mut several) = (0, 0);
    for seed in 0..900 {
        let case = random(seed);
        let mut rust = Oracle::new(Sets::Staged);
        run_all(&mut rust, &case);
        let sets_caller = case
            .runs
            .iter()
            .any(|run| tape::sets_caller(&run.tape(), case.value_bytes));
        assert_eq!(sets_caller, rust.seen[16][0] > 0, "seed {seed}");
        called += usize::from(sets_caller);
        if case.preset.is_some() {
            continue;
        }
        let (caller, refusals) = rust.counts();
        let refused: u64 = rust.seen.iter().flat_map(|numbers| &numbers[1..]).sum();
        assert_eq!(refusals.map(u64::from).iter().sum::<u64>(), refused);
        if !sets_caller {
            assert_eq!((caller, &refusals[1..]), (0, &[0; CALLERS - 1][..]));
        }
        several += usize::from(refusals.iter().filter(|&&count| count > 0).count() > 1);
    }
    assert!((270..330).contains(&called), "{called} of 900 cases have callers");
    assert!(several > 180, "{several} have refusals of several callers");
}

/// A tape that sets a caller is told from one that has the byte elsewhere, or does not get there.
#[test]
fn tapes_that_set_a_caller() {
    let sets = |chunks: &[Chunk]| tape::sets_caller(&chunks.concat(), NARROW);
    assert!(sets(&[tape::set_caller(0)]) && sets(&[vec![16]]));
    assert!(sets(&[tape::tray(0x1010), tape::kill((16, 16)), tape::set_caller(255)]));
    assert!(!sets(&[
        tape::reg(16),
        tape::hold(16, u64::MAX / 255 * 16),
        tape::tray(0x1010)
    ]));
    assert!(!sets(&[vec![0], tape::set_caller(1)]) && !sets(&[vec![17], tape::set_caller(1)]));
    assert!(!sets(&[]) && !sets(&[vec![2, 16, 16]]));
    // Behind eight bytes of a value there are eight more, or a command.
    let tape = [tape::hold(16, 0), tape::set_caller(5)].concat();
    assert!(tape::sets_caller(&tape, NARROW) && !tape::sets_caller(&tape, WIDE));
    let tape = [tape::hold_wide(16, u128::MAX / 255 * 16), tape::set_caller(5)].concat();
    assert!(tape::sets_caller(&tape, WIDE));
}

/// The words that the linked store is held to: a refusal changes the caller's count alone, up to the last number, and
/// SETCALLER the caller alone.
#[test]
fn words_of_callers() {
    let mut counts: Counts = (3, std::array::from_fn(|caller| caller as u32));
    counts.1[3] = u32::MAX - 1;
    let mut store: Vec<u32> = (5000..6024).collect();
    words::set_counts(&mut store, counts);
    assert_eq!(words::counts(&store), counts);
    let changed = |before: &[u32], after: &[u32]| -> Vec<(usize, u32)> {
        let words = after.iter().copied().enumerate();
        words.filter(|&(at, word)| before[at] != word).collect()
    };
    let once = words::after_refusal(store.clone());
    assert_eq!(changed(&store, &once), [(19, u32::MAX)]);
    assert_eq!(words::after_refusal(once.clone()), once);
    let called = words::after_set_caller(once.clone(), 15);
    assert_eq!(changed(&once, &called), [(9, 15)]);
    assert_eq!(words::after_set_caller(called.clone(), 15), called);
    assert_eq!(changed(&called, &words::after_refusal(called.clone())), [(31, 16)]);
}

/// The reference's answers to the runs, by the older rule and by the newer.
fn by_both_rules(case: &Case) -> [Vec<Vec<u8>>; 2] {
    [None, Some(Rule::Newer)].map(|told| answers_under(&mut Reference::new(), case, told))
}

/// Of 01's examples {1,2} without {3,4} is none under the newer rule, and all others are as they were.
#[test]
fn examples_under_the_newer_rule() {
    let [marked, killed, written] = &record::examples()[..] else {
        panic!()
    };
    let [older, mut newer] = by_both_rules(marked);
    let bars = [0, 0, 0, 0];
    assert_eq!(older[5], [&bars[..], &range(true, 1, 3)].concat());
    assert_eq!(newer[5], [&bars[..], &range(false, 0, 0)].concat());
    newer[5] = older[5].clone();
    assert_eq!(older, newer);
    for case in [killed, written] {
        let [older, newer] = by_both_rules(case);
        assert_eq!(older, newer);
    }
}

/// Under {1,2} and {1,2,3} both rules find {1,2} without {3}; a plain start and one told the older rule do the same.
#[test]
fn a_ring_of_one_kind_is_found_by_both_rules() {
    let lists = [&[1u8, 2, 3][..], &[1, 2], &[1, 2], &[1]];
    let news = lists.iter().flat_map(|list| tape::with(list, tape::new()));
    let begin = [
        (1..4).map(tape::reg).collect(),
        fixed::layout(&[&[1, 2], &[1, 2, 3]]),
        news.collect(),
    ];
    let asked = [vec![tape::bar(3)], tape::with(&[1, 2], tape::range())].concat();
    let case = Case::new(4, 3, [begin.concat(), asked].concat());
    for told in [None, Some(Rule::Older), Some(Rule::Newer)] {
        let answers = answers_under(&mut Reference::new(), &case, told);
        assert!(answers[0].ends_with(&range(true, 1, 3)), "{told:?}: {answers:?}");
    }
}

/// A family of groups with these numbers of the first kinds, and an entity for each number of kinds: what RANGE answers to
/// each group without the next larger one's ring, by a rule.
fn ring_answers(sizes: &[u8], told: Option<Rule>) -> Vec<Vec<u8>> {
    let first = |count: u8| -> Vec<u8> { (0..count).collect() };
    let groups: Vec<Vec<u8>> = sizes.iter().map(|&size| first(size)).collect();
    let groups: Vec<&[u8]> = groups.iter().map(|group| &group[..]).collect();
    let begin = [
        first(16).into_iter().map(tape::reg).collect(),
        fixed::layout(&groups),
        (1..=16)
            .flat_map(|count| tape::with(&first(count), tape::new()))
            .collect(),
    ];
    let asked = sizes.windows(2).map(|next| {
        let bars = (next[0]..next[1]).map(tape::bar);
        bars.chain(tape::with(&first(next[0]), tape::range())).collect()
    });
    let case = Case {
        n: 16,
        k: 16,
        value_bytes: NARROW,
        preset: None,
        runs: begin.into_iter().chain(asked).map(Run::new).collect(),
    };
    let answers = answers_under(&mut Reference::new(), &case, told).split_off(3);
    let last = |answer: &Vec<u8>| answer[answer.len() - 10..].to_vec();
    answers.iter().map(last).collect()
}

/// Every ring of one kind is found by the newer rule, up to 16 kinds, and none of more; the older finds all.
#[test]
fn rings_of_every_size() {
    let every: Vec<u8> = (2..=16).collect();
    let even: Vec<u8> = (2..=16).step_by(2).collect();
    for sizes in [&every[..], &even, &[2, 5, 8, 16], &[2, 3, 5, 6, 9, 10, 15, 16]] {
        let rows = |rule: Rule| -> Vec<Vec<u8>> {
            let rows = |next: &[u8]| match rule == Rule::Older || next[1] - next[0] == 1 {
                true => range(true, 17 - next[1], 17 - next[0]),
                false => range(false, 0, 0),
            };
            sizes.windows(2).map(rows).collect()
        };
        assert_eq!(ring_answers(sizes, None), rows(Rule::Older));
        assert_eq!(ring_answers(sizes, Some(Rule::Newer)), rows(Rule::Newer));
    }
    let found = |sizes: &[u8]| {
        let answers = ring_answers(sizes, Some(Rule::Newer));
        answers.iter().filter(|answer| answer[1] == 1).count()
    };
    assert_eq!((found(&every), found(&even)), (14, 0));
    assert_eq!(found(&[2, 3, 5, 6, 9, 10, 15, 16]), 4);
}

/// Two of the six layouts have rings of one kind, one has a ring of two, the others none; and there are 387 layouts of five
/// kinds, with rings of one, two and three.
#[test]
fn rings_of_the_layouts() {
    let rings = |lists: &Vec<Vec<u8>>| -> Vec<u32> {
        let groups: Vec<u128> = lists.iter().map(|list| set_of(list)).collect();
        let families = drafts::formed(&groups).expect("a layout");
        let sizes = |family: &Vec<u128>| {
            family
                .windows(2)
                .map(|next| (next[1] & !next[0]).count_ones())
                .collect()
        };
        families
            .iter()
            .flat_map(|family| -> Vec<u32> { sizes(family) })
            .collect()
    };
    let six: Vec<Vec<u32>> = rules::six_layouts().iter().map(rings).collect();
    assert_eq!(six, [vec![], vec![], vec![1], vec![2], vec![1, 1], vec![]]);
    let all: Vec<Vec<u32>> = rules::all_layouts(5).iter().map(rings).collect();
    assert_eq!(all.len(), 387);
    let with = |size: u32| all.iter().filter(|rings| rings.contains(&size)).count();
    assert!((1..=3).all(|size| with(size) > 0) && with(4) == 0);
}

/// What is asked of every group is what the definition says of any two lists, under all layouts of five kinds.
#[test]
fn rings_by_the_definition() {
    let registered: Vec<u8> = (0..6).collect();
    for groups in drafts::layouts(5) {
        let families = drafts::formed(&groups).expect("a layout");
        for rule in [Rule::Older, Rule::Newer] {
            let none = demand::none(&families, &registered);
            for asked in [demand::rings(&families, rule), none].concat() {
                let same = Asked::by_definition(&groups, rule, asked.kinds, asked.excluded);
                assert_eq!(asked.finds, same.finds, "{rule:?}, {groups:?}: {asked:?}");
            }
        }
    }
}

/// RANGE with every two lists of four kinds: the rules answer one pair differently, {0,1} without {2,3}.
#[test]
fn every_two_lists_by_both_rules() {
    for value_bytes in WIDTHS {
        let found = rules::enumerate(4, &rules::six_layouts(), value_bytes, &plain);
        let found = found.unwrap_or_else(|(_, difference)| panic!("{}", difference.text()));
        assert_eq!((found.layouts, found.pairs), (6, 6 * 256));
        assert_eq!((found.found, found.differ), ([38, 37], 1));
    }
}

/// Every two lists of so many kinds, under the newer rule, on two sides of a width with the same fault.
fn by_what_was_put(width: u8, layouts: &[Vec<Vec<u8>>], value_bytes: usize, fault: Fault) -> Result<(), String> {
    let faulty: Make = &|| Box::new(Reference::with(Some(fault))) as Box<dyn Side>;
    for groups in layouts {
        let filled = Filled::new(width, groups, value_bytes, 1);
        let mut pair = Pair::start(&filled.case, Beside::NEWER, faulty)?;
        pair.known = Box::new(Reference::with(Some(fault)));
        begin(&mut *pair.known, &filled.case, Some(Rule::Newer));
        for run in &filled.case.runs {
            pair.run(run)?;
        }
        (0..filled.lists()).try_for_each(|shift| filled.ask(&mut pair, shift).map(|_| ()))?;
    }
    Ok(())
}

/// Faults in RANGE, and in what it shows, are found by what was put also where both sides have them.
#[test]
fn what_was_put_judges_alone() {
    let (six, five) = (rules::six_layouts(), rules::all_layouts(5));
    for fault in [
        Fault::TwoExcludedFound,
        Fault::OneExcludedNone,
        Fault::RangeByOlder,
        Fault::NewerGroupAlone,
        Fault::NewerKindAlone,
        Fault::NewerByStaged,
        Fault::NewerBySmaller,
        Fault::NewerCountsBare,
        Fault::NewerNoneKeepsStaged,
        Fault::NewerNoneKeepsExcluded,
        Fault::NewerNoneFound,
        Fault::NewerNoneRows,
        Fault::InventedCounts,
        Fault::SwapNewKindsOnly,
        Fault::ReplaceKeepsValue,
        Fault::ExcludeAnyLarger,
    ] {
        for value_bytes in WIDTHS {
            let put = by_what_was_put(4, &six, value_bytes, fault);
            assert!(put.is_err(), "{fault:?}, {value_bytes} bytes a value");
        }
    }
    // A family with rings of one kind and of several.
    assert!(by_what_was_put(5, &five, NARROW, Fault::NewerByLargest).is_err());
    // A fault that does not touch any of it.
    assert_eq!(by_what_was_put(4, &six, WIDE, Fault::RollByLiveList), Ok(()));
    // Those of the upper words show at sixteen bytes alone.
    for fault in [
        Fault::UpperWordsLost,
        Fault::ThirdWordTwice,
        Fault::SwapsLowerWords,
        Fault::GapLowerWords,
        Fault::ReplaceLowerWords,
        Fault::ColumnUpperFirst,
    ] {
        assert!(by_what_was_put(4, &six, WIDE, fault).is_err(), "{fault:?}");
        assert_eq!(by_what_was_put(4, &six, NARROW, fault), Ok(()), "{fault:?}");
    }
}

/// Where two lists tell a fault, the case has the RANGE that shows it, and is cut down, beside the Rust and the reference.
#[test]
fn lists_that_differ_are_cut_down() {
    for (fault, is_rust) in [(Fault::ExcludePart, true), (Fault::TwoExcludedFound, false)] {
        let faulty: Make = &|| Box::new(Reference::with(Some(fault))) as Box<dyn Side>;
        for value_bytes in WIDTHS {
            let Err((beside, difference)) = rules::enumerate(4, &rules::six_layouts(), value_bytes, faulty) else {
                panic!("{fault:?}")
            };
            assert_eq!((beside.is_rust(), difference.case.value_bytes), (is_rust, value_bytes));
            let least = shrink(&difference.case, beside, faulty).expect("it comes again");
            assert!(least.case.runs.len() == 1 && least.case.n == 1);
            // It comes at eight bytes too.
            assert_eq!(least.case.value_bytes, NARROW);
        }
    }
}

/// Random cases of the newer rule exclude rings of one, two and three kinds often, and leave the same store as those of the
/// older, but for what RANGE answers.
#[test]
fn random_cases_of_the_newer_rule() {
    let mut figures = Figures::default();
    for seed in 0..400 {
        let Ok((case, more)) = generate::random_case(seed, width_of(seed), Beside::NEWER, &plain) else {
            panic!()
        };
        figures.add(&more);
        assert_eq!(rules::same_but_for_ranges(&case, &plain), Ok(()), "seed {seed}");
    }
    let [nothing, one, two, more, other] = figures.ranged;
    assert!(one[0] > 1000 && two[1] > 500 && more[1] > 200, "{:?}", figures.ranged);
    assert!(nothing[0] > 1000 && other[1] > 1000, "{:?}", figures.ranged);
    assert_eq!((one[1], two[0], more[0], other[0]), (0, 0, 0, 0));
}

/// Where the rule leaves something else than RANGE's answers, the two stores tell it.
#[test]
fn stores_of_both_rules_are_told_apart() {
    for fault in [
        Fault::RuleInRoll,
        Fault::NewerNoneKeepsStaged,
        Fault::NewerNoneKeepsExcluded,
        Fault::NewerNoneOneByte,
        Fault::NewerNoneFiveBytes,
        Fault::NewerNoneRefused,
    ] {
        let faulty: Make = &|| Box::new(Reference::with(Some(fault))) as Box<dyn Side>;
        let case = |seed: u64| generate::random_case(seed, width_of(seed), Beside::NEWER, &plain);
        let mut cases = (0..100).filter_map(|seed| case(seed).ok());
        let is_told = cases.any(|(case, _)| rules::same_but_for_ranges(&case, faulty).is_err());
        assert!(is_told, "{fault:?}");
    }
}

/// The rule is the one that the last accepted start was told; a refused start and commands leave it.
#[test]
fn the_rule_is_fixed_at_the_start() {
    let needed = words_needed(2, 2, NARROW);
    let mut side = Reference::new();
    assert_eq!(side.rule(), Some(Rule::Older));
    let under = |rule: Rule| Told {
        value_bytes: NARROW,
        rule,
    };
    for told in [Rule::Newer, Rule::Older, Rule::Newer].map(under) {
        let other = under([Rule::Newer, Rule::Older][usize::from(told.rule == Rule::Newer)]);
        assert_eq!(side.start_with(needed, 2, 2, told), 0);
        assert_eq!(side.start_with(needed - 1, 2, 2, other), 2);
        assert_eq!(side.start_with(needed, 2, 129, other), 1);
        assert_eq!(side.start(needed, 0, 2), 1);
        let chunks = [tape::set_caller(3), tape::kill((0, 1)), tape::wipe(), tape::apply()];
        assert_eq!(side.run(&chunks.concat(), &mut [0; 8]).stop, 0);
        assert_eq!(side.rule(), Some(told.rule));
    }
    assert_eq!(side.start(needed, 2, 2), 0);
    assert_eq!(side.rule(), Some(Rule::Older));
}

/// The rule by its word: 0 or 1, and nothing else.
#[test]
fn words_of_rules() {
    let mut store = vec![7; 1024];
    for (word, rule) in [
        (0, Some(Rule::Older)),
        (1, Some(Rule::Newer)),
        (2, None),
        (255, None),
        (256, None),
        (u32::MAX, None),
    ] {
        store[words::RULE] = word;
        assert_eq!(words::rule(&store), rule);
        assert!(rule.is_none_or(|rule| words::rule_word(rule) == word));
    }
}

/// Every command is read back from its text.
#[test]
fn commands_as_text() {
    let id = (3, u32::MAX);
    let mut chunks = vec![tape::reg(1), tape::hold(2, u64::MAX), tape::new(), tape::bar(128)];
    chunks.extend([tape::put(id), tape::take(id), tape::drop(id), tape::kill(id)]);
    chunks.extend([tape::wipe(), tape::group(), tape::apply(), tape::range(), tape::empty()]);
    chunks.extend([
        tape::tally(),
        tape::tray(65535),
        tape::set_caller(15),
        tape::set_caller(255),
    ]);
    for value_bytes in WIDTHS {
        let chunks = Run::new(chunks.clone()).at(value_bytes).chunks;
        let text = tape::disassemble(&chunks.concat(), value_bytes).join("\n");
        assert_eq!(listing::assemble(&text, value_bytes), Ok(chunks));
    }
    // A value has no more bytes than the store's.
    let wide = format!("HOLD 2 = {}", u128::from(u64::MAX) + 1);
    assert!(listing::assemble(&wide, NARROW).is_err());
    assert_eq!(listing::assemble(&wide, WIDE), Ok(vec![tape::hold_wide(2, 1 << 64)]));
}

/// A column's entities and values.
type Column = Option<(Vec<Id>, Vec<u128>)>;

/// Everything that can be seen of a store: how many are free, live list, columns in row order, and the ranges of all groups.
fn seen(rust: &mut Oracle) -> (usize, Vec<Id>, Vec<Column>, Vec<u8>) {
    let [_, layout] = Oracle::families(rust);
    let mut out = vec![0; 1 << 16];
    let asked = demand::run(&demand::rings(&layout, Rule::Older));
    let ran = Oracle::run(rust, &asked.at(Oracle::value_bytes(rust).unwrap()).tape(), &mut out);
    assert_eq!(ran.stop, 0);
    out.truncate(ran.written);
    let columns = rust.registered().into_iter().map(|kind| Oracle::column(rust, kind));
    (rust.free(), Oracle::live(rust), columns.collect(), out)
}

/// What is seen when all that are free are made: the numbers that waited are then in the live list, in their order.
fn filled(rust: &mut Oracle) -> (usize, Vec<Id>, Vec<Column>, Vec<u8>) {
    let fill = [tape::empty(), tape::tray(rust.free() as u16)].concat();
    assert_eq!(rust.run(&fill, &mut [0; 4]).stop, 0);
    assert_eq!(rust.free(), 0);
    seen(rust)
}

/// 02's sentence of the Rust alone: its `extend` leaves what as many calls of `create` leave, with the same components.
#[test]
fn extend_is_as_many_creates() {
    let (mut made, mut waited) = (0, 0);
    for seed in 0..800 {
        let case = random(seed);
        let rng = &mut Rng::new(seed);
        let mut stores = [Sets::Tuples, Sets::Staged, Sets::Tuples].map(Oracle::new);
        stores.iter_mut().for_each(|rust| run_all(rust, &case));
        // Every other one goes, so that there is room, and numbers wait.
        let live = Oracle::live(&stores[0]);
        let kills: Vec<u8> = live.into_iter().step_by(2).flat_map(tape::kill).collect();
        for rust in &mut stores {
            assert_eq!(rust.run(&kills, &mut [0; 256]).stop, 0);
        }
        let count = rng.below(9).min(stores[0].free());
        let mut list = stores[0].registered();
        rng.shuffle(&mut list);
        list.truncate(rng.below(17));
        let valued = |command: Chunk| Run::new(fixed::valued(&list, 7, command)).at(case.value_bytes).tape();
        let tray = [tape::empty(), valued(tape::tray(count as u16))].concat();
        let new = valued(tape::new());
        let news = [tape::empty(), new.repeat(count)].concat();
        let [first, second, third] = &mut stores;
        for (rust, tape) in [(&mut *first, &tray), (&mut *second, &tray), (&mut *third, &news)] {
            assert_eq!(rust.run(tape, &mut [0; 1024]).stop, 0);
        }
        let [one, other, plain] = stores.each_mut().map(seen);
        assert!(one == plain && other == plain, "seed {seed}, {count} with {list:?}");
        let live = plain.1.len();
        let [one, other, plain] = stores.each_mut().map(filled);
        assert!(one == plain && other == plain, "seed {seed}, filled after {count}");
        waited += plain.1[live..].iter().filter(|id| id.1 > 1).count();
        made += count;
    }
    assert!(made > 800, "few entities were made");
    assert!(waited > 800, "few numbers waited");
}

/// RANGE by the harness finds what the library's own query finds, for every list staged and excluded of four kinds.
#[test]
fn ranges_are_those_of_the_query() {
    let subset = |mask: u32| -> Vec<u8> { (0..4).filter(|kind| mask >> kind & 1 == 1).collect() };
    let mut found = 0;
    for seed in 0..3000 {
        let case = random(seed);
        let mut rust = Oracle::new(Sets::Tuples);
        run_all(&mut rust, &case);
        let registered = rust.registered();
        if !(0..4).all(|kind| registered.contains(&kind)) {
            continue;
        }
        // Every other time a layout of these four kinds.
        let layouts: [&[&[u8]]; 4] = [
            &[&[0, 1], &[0, 1, 2]],
            &[&[0, 1], &[0, 1, 2, 3]],
            &[&[2, 3], &[2, 3, 1], &[2, 3, 1, 0]],
            &[&[0, 3], &[1, 2]],
        ];
        if let Some(groups) = layouts.get(seed as usize / 2 % 8) {
            let chunks = [vec![tape::empty(), tape::apply()], fixed::layout(groups)].concat();
            rust.run(&Run::new(chunks).at(case.value_bytes).tape(), &mut [0; 256]);
        }
        for (include, exclude) in (1..16).flat_map(|a| (0..16).map(move |b| (a, b))) {
            let (include, exclude) = (subset(include), subset(exclude));
            let bars: Vec<tape::Chunk> = exclude.iter().map(|&kind| tape::bar(kind)).collect();
            let chunks = [vec![tape::empty()], bars, tape::with(&include, tape::range())].concat();
            let mut out = [0; 64];
            let ran = rust.run(&Run::new(chunks).at(case.value_bytes).tape(), &mut out);
            let answer = &out[ran.written - 9..ran.written];
            let number = |at: usize| u32::from_le_bytes(answer[at..at + 4].try_into().unwrap()) as usize;
            let ours = (answer[0] == 1).then(|| (number(1), number(5)));
            let theirs = rust.slice(&include, &exclude).expect("a query for these kinds");
            assert_eq!(ours, theirs, "seed {seed}, {include:?} without {exclude:?}");
            found += usize::from(ours.is_some() && !exclude.is_empty());
        }
    }
    assert!(found > 100, "few of the ranges had a bar");
}

/// A preset store is what the commands would have made of it.
#[test]
fn a_preset_is_a_state() {
    let mut worn = Oracle::new(Sets::Tuples);
    worn.start(words_needed(3, 1, NARROW), 3, 1, NARROW);
    worn.wear(6);
    let case = Case {
        n: 3,
        k: 1,
        value_bytes: NARROW,
        preset: Some(Preset {
            issued: 1,
            recycled: vec![(0, 7)],
            ..Preset::default()
        }),
        runs: vec![],
    };
    let mut pair = Pair::start(&case, TUPLES, &plain).unwrap();
    pair.known = Box::new(worn);
    for chunk in [
        tape::new(),
        tape::new(),
        tape::kill((0, 7)),
        tape::new(),
        tape::new(),
        tape::new(),
    ] {
        pair.step(&Run::new(vec![chunk]), true).unwrap();
    }
}

#[test]
fn a_difference_is_cut_down() {
    let faulty: Make = &|| Box::new(Reference::with(Some(Fault::LastInFirstOut))) as Box<dyn Side>;
    let difference = (0..100)
        .find_map(|seed| {
            generate::random_case(seed, width_of(seed), STAGED, faulty)
                .err()
                .filter(|d| d.case.preset.is_none())
        })
        .expect("the fault is found");
    let least = shrink(&difference.case, STAGED, faulty).expect("it comes again");
    // Two created, by one tray, both destroyed, one created.
    let expected = [tape::tray(2), tape::kill((0, 1)), tape::kill((1, 1)), tape::new()];
    assert_eq!(least.case.runs, [Run::new(expected.to_vec())]);
    assert!(compare(&least.case, STAGED, &plain, Look::EachRun).is_ok());
}

#[test]
fn recorded_answers_replay() {
    let file = record::write(3, 60_000);
    let whole = record::replay(&file, &plain);
    assert!(whole.cases > 30 && whole.agree == whole.cases);
    assert!(whole.wide > whole.cases / 3 && whole.wide < whole.cases * 2 / 3);
    for fault in [
        Fault::TakeOtherLength,
        Fault::HoldCutAtNine,
        Fault::HoldCutAtSeventeen,
        Fault::UpperWordsLost,
        Fault::SwapsLowerWords,
        Fault::GapLowerWords,
        Fault::RollUpperFirst,
        Fault::ColumnUpperFirst,
        Fault::WidthNotKept,
        Fault::SwapNewKindsOnly,
        Fault::TrayLastFirst,
        Fault::TrayExactRefused,
        Fault::CountsOfFirst,
        Fault::CallerOfRun,
        Fault::CallerCountsAsked,
        Fault::TallyOfAll,
    ] {
        let faulty = record::replay(&file, &|| Box::new(Reference::with(Some(fault))));
        assert!(faulty.agree < whole.cases, "{fault:?}");
    }
    // Of the bytes of answers, none may be other.
    let mut damaged = file.clone();
    let at = damaged.len() - 1;
    damaged[at] ^= 1;
    assert_eq!(record::replay(&damaged, &plain).agree, whole.cases - 1);
}

/// The two widths under the older rule.
fn told(value_bytes: usize) -> Told {
    Told {
        value_bytes,
        rule: Rule::Older,
    }
}

/// A store of each width takes its words and no fewer; any other width is refused by 1 before all else, and needs none.
#[test]
fn starts_of_both_widths() {
    assert_eq!(words_needed(64, 8, NARROW), 5184);
    assert_eq!(words_needed(64, 8, WIDE), 6208);
    assert_eq!(words_needed(4096, 128, WIDE), widths::LARGEST);
    for mut side in sides() {
        for value_bytes in WIDTHS {
            for (n, k) in [(1, 1), (64, 8), (4096, 128)] {
                let needed = words_needed(n, k, value_bytes);
                assert_eq!(side.words_needed(n, k, value_bytes), needed);
                assert_eq!(side.start_with(needed - 1, n, k, told(value_bytes)), 2);
                assert_eq!(side.start_with(needed, n, k, told(value_bytes)), 0);
                assert_eq!(side.value_bytes(), Some(value_bytes));
            }
            for (n, k) in [(0, 1), (4097, 1), (1, 0), (1, 129)] {
                assert_eq!(side.start_with(usize::MAX, n, k, told(value_bytes)), 1);
                assert_eq!(side.words_needed(n, k, value_bytes), 0);
            }
        }
        for none in [0, 7, 9, 15, 17, (1 << 32) + 8, (1 << 32) + 16] {
            assert!(widths::NO_WIDTHS.contains(&none));
            for words in [0, 1023, widths::LARGEST, usize::MAX] {
                assert_eq!(side.start_with(words, 4, 3, told(none)), 1, "{}: {none}", side.name());
            }
            assert_eq!(side.words_needed(4, 3, none), 0);
            assert_eq!(side.value_bytes(), Some(WIDE));
        }
        assert_eq!(side.start(words_needed(4, 3, NARROW), 4, 3), 0);
        assert_eq!(side.value_bytes(), Some(NARROW));
    }
}

/// HOLD's sixteen bytes come back by TAKE, in the roll and by *column*, the lowest first; sixteen zeros for a kind not held.
#[test]
fn values_of_sixteen_bytes() {
    let value = 0x0f0e_0d0c_0b0a_0908_0706_0504_0302_0100;
    let bytes: Vec<u8> = (0..16).collect();
    let held = |kinds: &[u8], command: Chunk| {
        let holds = kinds.iter().map(|&kind| tape::hold_wide(kind, value));
        holds.chain([command]).collect::<Vec<Chunk>>().concat()
    };
    for mut side in sides() {
        assert_eq!(side.start_with(words_needed(2, 2, WIDE), 2, 2, told(WIDE)), 0);
        let mut out = [7; 128];
        let tape = [tape::reg(3), tape::reg(5), held(&[3], tape::new())].concat();
        assert_eq!(side.run(&tape, &mut out).stop, 0);
        assert_eq!(side.column(3, false, 0, 1), [0, 1]);
        assert_eq!(
            side.column(3, true, 0, 1),
            [0x0302_0100, 0x0706_0504, 0x0b0a_0908, 0x0f0e_0d0c]
        );
        let roll = [&[1, 0, 0, 0, 0, 0, 0, 0, 1, 0, 0, 0, 1, 3][..], &bytes].concat();
        assert_eq!(side.roll(&mut out), (0, 30));
        assert_eq!(out[..30], roll);
        assert_eq!(side.roll(&mut [0; 29]), (6, 0));

        // HOLDs answer by two bytes, TAKE by one and 17 for each of the hand.
        let take = held(&[5, 3], tape::take((0, 1)));
        let ran = side.run(&take, &mut [0; 2 + 34]);
        assert_eq!((ran.stop, ran.commands, ran.read), (6, 2, 36));
        let ran = side.run(&tape::take((0, 1)), &mut out[..35]);
        assert_eq!((ran.stop, ran.written), (0, 35));
        assert_eq!(out[..35], [&[0; 18][..], &[1], &bytes].concat());
        // None is left, and the hand is empty.
        assert_eq!(side.column_number(3, true, 0, 1), 16);
        assert_eq!(side.run(&held(&[3], tape::take((0, 1))), &mut out[..19]).stop, 0);
        assert_eq!(out[1..19], [0; 18]);
        // 11 where the accepted answer would have had room.
        assert_eq!(side.run(&held(&[3], tape::take((1, 1))), &mut out[..18]).stop, 6);
        let ran = side.run(&tape::take((1, 1)), &mut out[..18]);
        assert_eq!((ran.stop, ran.written, out[0]), (0, 1, 11));
    }
}

/// HOLD is cut short below one byte and the value's, and its next command stands behind these.
#[test]
fn hold_is_cut_by_the_width() {
    for mut side in sides() {
        WIDTHS
            .into_iter()
            .for_each(|value_bytes| hold_is_cut(&mut *side, value_bytes));
    }
}

fn hold_is_cut(side: &mut dyn Side, value_bytes: usize) {
    side.start_with(words_needed(1, 1, value_bytes), 1, 1, told(value_bytes));
    side.run(&tape::reg(0), &mut [0; 2]);
    let tape = [tape::hold_at(value_bytes, 0, 0x0303), tape::new()].concat();
    for end in 1..2 + value_bytes {
        let ran = side.run(&tape[..end], &mut [0; 64]);
        let expected = Ran {
            stop: 5,
            ..Ran::default()
        };
        assert_eq!(ran, expected, "{}: {end} bytes of HOLD at {value_bytes}", side.name());
    }
    let mut out = [0; 64];
    let ran = side.run(&tape, &mut out);
    assert_eq!((ran.stop, ran.commands, ran.written), (0, 2, 10));
    assert_eq!(out[..10], [0, 0, 0, 0, 0, 0, 1, 0, 0, 0]);
    assert_eq!(side.column(0, true, 0, 1)[0], 0x0303);
}

/// A store has its width for life: commands, runs that stop and refused starts leave it.
#[test]
fn the_width_is_fixed_at_the_start() {
    for mut side in sides() {
        assert_eq!(side.value_bytes(), Some(NARROW));
        for value_bytes in [WIDE, NARROW, WIDE, WIDE] {
            let (needed, other) = (words_needed(2, 2, value_bytes), NARROW + WIDE - value_bytes);
            assert_eq!(side.start_with(needed, 2, 2, told(value_bytes)), 0);
            assert_eq!(side.start_with(1024, 2, 2, told(other)), 2);
            assert_eq!(side.start_with(needed, 0, 2, told(other)), 1);
            assert_eq!(side.start_with(needed, 2, 2, told(9)), 1);
            assert_eq!(side.start(1024, 2, 2), 2);
            let chunks = [
                tape::set_caller(3),
                tape::kill((0, 1)),
                tape::wipe(),
                tape::apply(),
                vec![17],
            ];
            assert_eq!(side.run(&chunks.concat(), &mut [0; 8]).stop, 4);
            assert_eq!(side.value_bytes(), Some(value_bytes));
        }
    }
}

/// The roll of a side after the case.
fn roll_of(side: &mut dyn Side, case: &Case) -> Vec<u8> {
    run_all(side, case);
    let mut out = vec![0; 1 << 16];
    let (number, length) = side.roll(&mut out);
    assert_eq!(number, 0);
    out.truncate(length);
    out
}

/// Two stores of different widths, with other entities, kinds and values, write the same 175 bytes.
#[test]
fn the_same_roll_at_both_widths() {
    let shared = widths::shared_roll();
    assert_eq!(shared.len(), 175);
    let [narrow, wide] = WIDTHS.map(|value_bytes| widths::read_roll(&shared, value_bytes));
    let sizes = |entities: &[(Id, Vec<(u8, u128)>)]| -> Vec<(Id, usize)> {
        entities
            .iter()
            .map(|(id, components)| (*id, components.len()))
            .collect()
    };
    assert_eq!(sizes(&narrow), [((0, 1), 1), ((1, 1), 16)]);
    assert_eq!(sizes(&wide), [((0, 1), 1), ((16, 1), 8)]);
    let cases = widths::same_rolls();
    assert_eq!([cases[0].value_bytes, cases[1].value_bytes], WIDTHS);
    for (one, other) in sides().iter_mut().zip(sides().iter_mut()) {
        assert_eq!(roll_of(&mut **one, &cases[0]), shared, "{}", one.name());
        assert_eq!(roll_of(&mut **other, &cases[1]), shared, "{}", other.name());
        let live = [one.live(), other.live()].map(|mut live| {
            live.sort();
            live
        });
        assert_eq!(live, [vec![(0, 1), (1, 1)], vec![(0, 1), (16, 1)]]);
    }
    for case in &cases {
        assert!(compare(case, TUPLES, &plain, Look::EachRun).is_ok());
    }
}

/// A case at sixteen bytes is the case at eight, with eight bytes more in each HOLD, which are of many shapes.
#[test]
fn cases_are_widened() {
    let case = &record::examples()[0];
    let wide = case.wide();
    assert_eq!((wide.value_bytes, wide.narrow()), (WIDE, case.clone()));
    let chunks = |case: &Case| {
        case.runs
            .iter()
            .flat_map(|run| run.chunks.clone())
            .collect::<Vec<Chunk>>()
    };
    for (narrow, wide) in chunks(case).iter().zip(&chunks(&wide)) {
        let more = if narrow[0] == tape::HOLD { 8 } else { 0 };
        assert_eq!(wide.len(), narrow.len() + more);
        assert!(wide.starts_with(narrow));
    }
    // Cut short, it stays as it is.
    let cut = vec![vec![2, 1, 0], vec![2; 11], vec![]];
    assert_eq!(Run::new(cut.clone()).at(WIDE).chunks, cut);
    let rng = &mut Rng::new(1);
    let uppers: Vec<u64> = (0..1000).map(|_| tape::drawn_upper(rng)).collect();
    let with = |is: fn(u64) -> bool| uppers.iter().filter(|&&upper| is(upper)).count();
    assert!(with(|upper| upper == 0) > 50 && with(|upper| upper == u64::MAX) > 50);
    assert!(with(|upper| upper != 0 && upper as u32 == 0) > 50 && with(|upper| upper != 0 && upper >> 32 == 0) > 50);
    assert!(with(|upper| upper as u32 != 0 && upper >> 32 != 0) > 300);
}

/// A random case has the same commands at both widths, but where its bytes are damaged; and its upper bytes are used.
#[test]
fn random_cases_at_both_widths() {
    let (mut same, mut upper) = (0, 0);
    for seed in 0..200 {
        let [narrow, wide] = WIDTHS.map(
            |value_bytes| match generate::random_case(seed, value_bytes, STAGED, &plain) {
                Ok((case, _)) => case,
                Err(difference) => panic!("seed {seed}: {}", difference.text()),
            },
        );
        same += usize::from(wide.narrow() == narrow);
        let chunks = wide.runs.iter().flat_map(|run| &run.chunks);
        let is_used = |chunk: &&Chunk| chunk[0] == tape::HOLD && chunk.len() == 18 && chunk[10..] != [0; 8];
        upper += chunks.filter(|chunk| !chunk.is_empty()).filter(is_used).count();
    }
    assert!(same > 100, "{same} of 200 cases are the same");
    assert!(upper > 5000, "{upper} values have upper bytes");
}

/// The width by its word: 8 or 16, and nothing else.
#[test]
fn words_of_widths() {
    let mut store = vec![7; 1024];
    for (word, width) in [
        (8, Some(NARROW)),
        (16, Some(WIDE)),
        (0, None),
        (7, None),
        (9, None),
        (15, None),
        (17, None),
        (264, None),
        (u32::MAX, None),
    ] {
        store[11] = word;
        assert_eq!(words::value_bytes(&store), width);
    }
}

/// Each of the parts that go by the width has cases of both.
#[test]
fn parts_of_both_widths() {
    for part in widths::parts()
        .into_iter()
        .chain(fixed::at_both(fixed::exhaustive(), 8))
    {
        let widths: Vec<usize> = part.cases.take(2000).map(|case| case.value_bytes).collect();
        let wide = widths.iter().filter(|&&value_bytes| value_bytes == WIDE).count();
        assert!(wide > 0 && wide < widths.len(), "{}", part.name);
    }
    let both = fixed::at_both(
        vec![fixed::part("one", (0..64).map(|n| Case::new(n + 1, 1, vec![])))],
        8,
    );
    let cases: Vec<Case> = both.into_iter().flat_map(|part| part.cases).collect();
    let wide: Vec<usize> = cases
        .iter()
        .filter(|case| case.value_bytes == WIDE)
        .map(|case| case.n - 1)
        .collect();
    assert_eq!((cases.len(), wide), (72, (0..8).map(|i| 9 * i).collect()));
}

/// A faulty reference that tells the width that it was told, whatever it has.
struct Blind {
    side: Reference,
    told: usize,
}

impl Side for Blind {
    fn name(&self) -> &'static str {
        "blind"
    }

    fn start(&mut self, words: usize, n: usize, k: usize) -> u32 {
        let number = self.side.start(words, n, k);
        self.told = if number == 0 { NARROW } else { self.told };
        number
    }

    fn start_with(&mut self, words: usize, n: usize, k: usize, told: Told) -> u32 {
        let number = self.side.start_with(words, n, k, told);
        self.told = if number == 0 { told.value_bytes } else { self.told };
        number
    }

    fn words_needed(&mut self, n: usize, k: usize, value_bytes: usize) -> usize {
        self.side.words_needed(n, k, value_bytes)
    }

    fn preset(&mut self, preset: &Preset) {
        self.side.preset(preset);
    }

    fn run(&mut self, tape: &[u8], out: &mut [u8]) -> Ran {
        self.side.run(tape, out)
    }

    fn column(&mut self, kind: u8, values: bool, start: usize, end: usize) -> Vec<u32> {
        self.side.column(kind, values, start, end)
    }

    fn column_number(&mut self, kind: u8, values: bool, start: usize, end: usize) -> u32 {
        self.side.column_number(kind, values, start, end)
    }

    fn roll(&mut self, out: &mut [u8]) -> (u32, usize) {
        self.side.roll(out)
    }

    fn live(&mut self) -> Vec<Id> {
        self.side.live()
    }

    fn families(&mut self) -> [Families; 2] {
        self.side.families()
    }

    fn counts(&mut self) -> Counts {
        self.side.counts()
    }

    fn rule(&mut self) -> Option<Rule> {
        self.side.rule()
    }

    fn value_bytes(&mut self) -> Option<usize> {
        Some(self.told)
    }
}

/// Whether the sides part, in a start or in one of few random cases, where nobody looks at the width itself.
fn is_found_blindly(fault: Option<Fault>) -> bool {
    let make: Make = &|| {
        let side = Reference::with(fault);
        Box::new(Blind { side, told: NARROW }) as Box<dyn Side>
    };
    let differs = |seed: u64| generate::random_case(seed, width_of(seed), STAGED, make).is_err();
    fixed::starts(STAGED, make).is_err() || (0..100).any(differs)
}

/// A store that does not keep its width shows it by what it answers.
#[test]
fn the_width_shows_in_answers() {
    for fault in [
        Fault::WidthNotKept,
        Fault::WidthOfRun,
        Fault::RefusalForgetsWidth,
        Fault::WipeForgetsWidth,
        Fault::ApplyForgetsWidth,
        Fault::StartKeepsSixteen,
        Fault::StartKeepsEight,
        Fault::PlainStartSixteen,
        Fault::RefusedStartSetsWidth,
    ] {
        assert!(is_found_blindly(Some(fault)), "{fault:?}");
    }
    assert!(!is_found_blindly(None));
}
