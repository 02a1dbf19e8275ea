//! Cases that no chance is left to: every limit, and all tapes of a few steps over small alphabets.

use crate::callers;
use crate::compare::{compare, Beside, Difference, Figures, Look, Make, Pair};
use crate::drafts;
use crate::past::{self, is_within_reach};
use crate::rng::Rng;
use crate::side::{Rule, Told};
use crate::tape::{self, Case, Chunk, Run, WIDE};
use crate::trays;
use crate::widths;
use sparsey::harness::{words_needed, Preset};

/// A name and the cases under it.
pub struct Part {
    pub name: &'static str,
    pub cases: Box<dyn Iterator<Item = Case>>,
}

pub fn part(name: &'static str, cases: impl Iterator<Item = Case> + 'static) -> Part {
    Part {
        name,
        cases: Box::new(cases),
    }
}

/// The parts, with one case in so many again at sixteen bytes a value. Which one goes round.
pub fn at_both(parts: Vec<Part>, every: usize) -> Vec<Part> {
    let both = move |(place, case): (usize, Case)| {
        let is_picked = place % every == place / every % every;
        let wide = is_picked.then(|| case.wide());
        [case].into_iter().chain(wide)
    };
    let widened = |whole: Part| part(whole.name, whole.cases.enumerate().flat_map(both));
    parts.into_iter().map(widened).collect()
}

/// Compares the cases of a part.
pub fn compare_all(cases: impl Iterator<Item = Case>, beside: Beside, make: Make) -> Result<Figures, Difference> {
    let mut figures = Figures::default();
    for case in cases {
        match compare(&case, beside, make, Look::at(&case, beside)) {
            Ok(more) => figures.add(&more),
            Err(what) => return Err(Difference { case, what }),
        }
    }
    Ok(figures)
}

/// *start* at every limit, and every entry on words that hold no store.
pub fn starts(beside: Beside, make: Make) -> Result<Figures, String> {
    let mut pair = Pair::new(beside, make);
    let none = pair.run(&Run::new(vec![tape::tally()]))?;
    assert_eq!(none.stop, 3);
    let name = pair.other.name();
    let (rust, other) = (pair.known.roll(&mut [0; 64]), pair.other.roll(&mut [0; 64]));
    if rust != other {
        return Err(format!("roll of no store: Rust {rust:?}, {name} {other:?}"));
    }
    let (rust, other) = (
        pair.known.column_number(0, false, 0, 0),
        pair.other.column_number(0, false, 0, 0),
    );
    if rust != other {
        return Err(format!("column of no store: Rust {rust}, {name} {other}"));
    }

    start_sizes(&mut pair, &[None, Some(SIXTEEN)])?;
    let mut figures = pair.finish();
    for part in [start_again, |pair: &mut Pair| widths::start_widths(pair, Rule::Older)] {
        let mut pair = Pair::new(beside, make);
        part(&mut pair)?;
        figures.add(&pair.finish());
    }
    Ok(figures)
}

/// Sixteen bytes, under the older rule.
const SIXTEEN: Told = Told {
    value_bytes: WIDE,
    rule: Rule::Older,
};

/// *start* with every N, K and number of words at a limit, told each of these in turn.
pub fn start_sizes(pair: &mut Pair, told: &[Option<Told>]) -> Result<(), String> {
    let sizes = [0, 1, 2, 64, 4095, 4096, 4097, usize::MAX].into_iter();
    let sizes = sizes.flat_map(|n| [0, 1, 2, 127, 128, 129, 256, usize::MAX].map(|k| (n, k)));
    for ((n, k), &told) in sizes.flat_map(|size| told.iter().map(move |told| (size, told))) {
        let fits = (1..=4096).contains(&n) && (1..=128).contains(&k);
        let value_bytes = told.unwrap_or_default().value_bytes;
        let needed = if fits { words_needed(n, k, value_bytes) } else { 1024 };
        for words in [0, 1, 1023, needed - 1, needed, needed + 5] {
            let number = match fits {
                false => 1,
                true if words < needed => 2,
                true => 0,
            };
            assert_eq!(pair.start_number(told, words, n, k)?, number);
        }
    }
    Ok(())
}

/// A refused start leaves the store, an accepted one makes it empty again, of its own width.
fn start_again(pair: &mut Pair) -> Result<(), String> {
    let wide = Some(SIXTEEN);
    let told = [None, None, wide, wide, None, wide, None, None];
    for (round, told) in (0..).zip(told) {
        let value_bytes = told.unwrap_or_default().value_bytes;
        let small = words_needed(4, 3, value_bytes);
        pair.start_number(told, small, 4, 3)?;
        pair.run(&Run::new(vec![tape::tally()]))?;
        pair.state()?;
        // Whose refusal it was, and then another caller, whom the next start forgets.
        let called = [
            vec![tape::hold(9, 9)],
            tape::tallies(),
            vec![tape::set_caller(2 * round)],
        ];
        pair.run(&Run::new(called.concat()).at(value_bytes))?;
        let chunks = [
            vec![tape::reg(2), tape::reg(7), tape::bar(2)],
            tape::with(&[2, 7], tape::group()),
        ]
        .concat();
        let more = [chunks, tape::with(&[7], tape::new()), vec![tape::hold(9, 9)]];
        pair.run(&Run::new(more.concat()).at(value_bytes))?;
        pair.state()?;
        if round % 2 == 0 {
            pair.start_number(told, small - 1, 4, 3)?;
            pair.start_number(told, small, 4, 0)?;
            pair.start_number(wide, small - 1, 4, 3)?;
            pair.state()?;
            pair.run(&Run::new(vec![tape::apply(), tape::tally()]))?;
        }
        pair.ranges()?;
    }
    Ok(())
}

/// Every limit of document 01, with stores for up to `most` entities.
pub fn limits(most: usize) -> Vec<Part> {
    vec![
        part(
            "N full and churned",
            full_and_churned().filter(move |case| case.n <= most),
        ),
        part("K full", kinds_full(63)),
        part("16 staged", sixteen_staged().filter(is_within_reach)),
        part("63 groups", many_groups(15).filter(is_within_reach)),
        part("drafts of 62 to 64 groups, not applied", past::drafts().map(unapplied)),
        part("walks above position 32", high_walks()),
        part("groups below and between", below_and_between().filter(is_within_reach)),
        part(
            "drafts of up to 2 groups over 5 kinds with every further group",
            drafts::cases(5, 2),
        ),
        part(
            "every list staged and excluded of 4 kinds, 6 layouts",
            staged_and_excluded(),
        ),
        part("trays", trays::cases().filter(move |case| case.n <= most)),
        part("trays at the last version", trays::at_the_last_version()),
        part("callers", callers::cases()),
        part("rooms", rooms()),
        part("versions run out", versions_run_out()),
    ]
}

/// Those of the cases at the limits that go past the Rust's reach.
pub fn past_limits() -> Vec<Part> {
    let is_past = |case: &Case| !is_within_reach(case);
    vec![
        part("K full, 64 groups", kinds_full(64).filter(is_past)),
        part("16 staged, then a group", sixteen_staged().filter(is_past)),
        part("64 groups", many_groups(16).filter(is_past)),
        part(
            "groups below and between, to 16 kinds and 64 groups",
            below_and_between().filter(is_past),
        ),
    ]
}

pub fn run_of(chunks: Vec<Chunk>) -> Run {
    Run::new(chunks)
}

fn full_and_churned() -> impl Iterator<Item = Case> {
    [1, 2, 3, 5, 16, 64, 500, 4096].into_iter().flat_map(|n| {
        (0..4).map(move |order| {
            let rng = &mut Rng::new(n as u64 * 4 + order);
            let all: Vec<u32> = (0..n as u32).collect();
            let mut runs = vec![run_of((0..6).map(tape::reg).collect())];
            runs.push(run_of(layout(&[&[0, 1], &[0, 1, 2], &[4, 5]])));
            // Full, and two more.
            let lists: [&[u8]; 6] = [&[0, 1], &[1], &[0, 1, 2, 3], &[], &[4, 5, 0], &[2, 1, 0, 4]];
            runs.push(run_of(
                (0..n + 2).flat_map(|i| tape::with(lists[i % 6], tape::new())).collect(),
            ));
            for round in 1..=3 {
                let mut killed = all.clone();
                match order {
                    0 => {}
                    1 => killed.reverse(),
                    _ => rng.shuffle(&mut killed),
                }
                if order == 3 {
                    killed.truncate(n.div_ceil(2));
                }
                // The version of an index is known only where all are killed each round.
                let kills = killed.iter().flat_map(|&index| {
                    let versions = if order == 3 { 1..=round } else { round..=round };
                    versions.map(move |version| tape::kill((index, version)))
                });
                runs.push(run_of(kills.collect()));
                runs.push(run_of(
                    (0..n + 1)
                        .flat_map(|i| tape::with(lists[(i + round as usize) % 6], tape::new()))
                        .collect(),
                ));
            }
            Case {
                n,
                k: 6,
                value_bytes: tape::NARROW,
                preset: None,
                runs,
            }
        })
    })
}

/// HOLD and GROUP for each group, then APPLY.
pub fn layout(groups: &[&[u8]]) -> Vec<Chunk> {
    let mut chunks: Vec<Chunk> = groups
        .iter()
        .flat_map(|group| tape::with(group, tape::group()))
        .collect();
    chunks.push(tape::apply());
    chunks
}

/// Stores with all their kinds, and pairs of them, so many at most.
fn kinds_full(most: usize) -> impl Iterator<Item = Case> {
    [1usize, 2, 5, 16, 127, 128].into_iter().map(move |k| {
        let mut first: Vec<Chunk> = (0..128).rev().map(tape::reg).collect();
        first.extend((0..=255).map(tape::reg));
        first.push(tape::tally());
        let kept: Vec<u8> = (0..128).rev().take(k).collect();
        let mut runs = vec![run_of(first)];
        runs.push(run_of(
            (0..=255)
                .flat_map(|kind| [tape::hold(kind, 1), tape::bar(kind), tape::empty()])
                .collect(),
        ));
        for kinds in kept.chunks(16) {
            runs.push(run_of(tape::with(kinds, tape::new())));
            runs.push(run_of(tape::with(kinds, tape::put((0, 1)))));
        }
        runs.push(run_of(
            kept.chunks(2)
                .take(most)
                .flat_map(|pair| tape::with(pair, tape::group()))
                .chain([tape::apply()])
                .collect(),
        ));
        runs.push(run_of(tape::with(&kept[..k.min(16)], tape::take((0, 1)))));
        runs.push(run_of(vec![tape::kill((0, 1))]));
        Case {
            n: 9,
            k,
            value_bytes: tape::NARROW,
            preset: None,
            runs,
        }
    })
}

fn sixteen_staged() -> impl Iterator<Item = Case> {
    (14..=18).flat_map(|width| (0..8).map(move |which| staged_case(width, which)))
}

/// So many kinds staged and excluded, some more that are refused, and then a command.
fn staged_case(width: u8, which: usize) -> Case {
    let list = |end: u8| -> Vec<u8> { (0..end).collect() };
    let mut runs = vec![
        run_of((0..20).map(tape::reg).collect()),
        run_of(layout(&[&[0, 1], &list(7), &list(15), &[15, 16]])),
        run_of((0..3).flat_map(|_| tape::with(&list(16), tape::new())).collect()),
    ];
    // The last command is a group then, and clashes with this one.
    if which == 7 {
        runs.push(run_of(tape::with(&[0, 18], tape::group())));
    }
    let mut chunks = tape::hold_all(&list(width));
    chunks.extend((0..width).map(tape::bar));
    // Again at sixteen, and one unknown.
    chunks.extend([tape::hold(0, 1), tape::hold(19, 1), tape::hold(77, 1)]);
    chunks.extend([tape::bar(0), tape::bar(19), tape::bar(77)]);
    chunks.push(match which {
        0 => tape::new(),
        1 => tape::put((1, 1)),
        2 => tape::take((1, 1)),
        3 => tape::drop((1, 1)),
        4 | 7 => tape::group(),
        5 => tape::range(),
        _ => tape::take((1, 2)),
    });
    chunks.extend([tape::tally(), tape::hold(0, 3), tape::new()]);
    runs.push(run_of(chunks));
    runs.push(run_of(vec![tape::apply(), tape::kill((1, 1))]));
    Case {
        n: 6,
        k: 20,
        value_bytes: tape::NARROW,
        preset: None,
        runs,
    }
}

/// Drafts that reach up to 64 groups by pairs, by chains and by both, and what comes then, a list of `widest` kinds too.
/// The longest are also left unapplied.
fn many_groups(widest: u8) -> impl Iterator<Item = Case> {
    let pairs: Vec<Vec<u8>> = (0..64u8).map(|i| vec![2 * i, 2 * i + 1]).collect();
    let chains: Vec<Vec<u8>> = (0..8u8)
        .flat_map(|family| (2..=15u8).map(move |arity| (family * 16..family * 16 + arity).collect()))
        .collect();
    let mixed = [&chains[..28], &[vec![14, 15]], &pairs[16..]].concat();
    [pairs, chains, mixed].into_iter().flat_map(move |groups| {
        [61usize, 62, 63, 64, 65].into_iter().flat_map(move |count| {
            let case = many_groups_case(&groups[..count.min(groups.len())], widest);
            let unapplied = (count > 62).then(|| unapplied(case.clone()));
            [case].into_iter().chain(unapplied)
        })
    })
}

/// The case without the runs that apply a layout.
pub fn unapplied(mut case: Case) -> Case {
    case.runs.retain(|run| !run.chunks.contains(&tape::apply()));
    case
}

fn many_groups_case(groups: &[Vec<u8>], widest: u8) -> Case {
    let mut runs = drafted(groups);
    // Small, equal, clashing and new lists at the limit.
    let more: [&[u8]; 8] = [
        &[],
        &[3],
        &groups[0],
        &groups[groups.len() / 2],
        &[0, 127],
        &(100..100 + widest).collect::<Vec<u8>>(),
        &[110, 111],
        &[0, 1, 125],
    ];
    runs.extend(more.into_iter().map(grouped));
    // Entities before and after the layout is applied.
    let news = |from: usize| -> Run {
        let list = |i: usize| &groups[(from + 7 * i) % groups.len()];
        run_of((0..10).flat_map(|i| tape::with(list(i), tape::new())).collect())
    };
    runs.push(news(0));
    runs.push(run_of(vec![tape::apply()]));
    runs.push(news(3));
    runs.push(run_of((0..12).map(|index| tape::kill((index, 1))).collect()));
    runs.push(news(5));
    runs.push(run_of(vec![tape::apply(), tape::wipe()]));
    Case {
        n: 24,
        k: 128,
        value_bytes: tape::NARROW,
        preset: None,
        runs,
    }
}

/// All kinds, and the groups by GROUP, eight a run.
pub fn drafted(groups: &[Vec<u8>]) -> Vec<Run> {
    let all = run_of((0..128).map(tape::reg).collect());
    let added = |groups: &[Vec<u8>]| {
        let chunks = groups.iter().flat_map(|group| tape::with(group, tape::group()));
        run_of(chunks.collect())
    };
    [all].into_iter().chain(groups.chunks(8).map(added)).collect()
}

/// GROUP of the kinds, and nothing staged after it.
pub fn grouped(kinds: &[u8]) -> Run {
    run_of([tape::with(kinds, tape::group()), vec![tape::empty()]].concat())
}

/// Layouts of 63 groups whose walks go through the positions above 32, one family after the other.
fn high_walks() -> impl Iterator<Item = Case> {
    // The kinds of each family, which has a group for each number of them from 2 on.
    let layouts = [
        [vec![2; 34], vec![15, 15, 2]].concat(),
        vec![15, 15, 15, 15, 8],
        vec![2; 63],
    ];
    layouts.into_iter().flat_map(|sizes: Vec<usize>| {
        let families = families_of(&sizes);
        // The families whose largest group stands above position 32.
        let groups = |family: usize| families[..=family].iter().map(|kinds| kinds.len() - 1).sum::<usize>();
        let high: Vec<usize> = (0..sizes.len()).filter(|&family| groups(family) > 33).collect();
        high.into_iter()
            .map(move |family| family_walks(&families, family, &chains_of(&families)))
    })
}

/// The groups of families that have one for each number of kinds from 2 on.
pub fn chains_of(families: &[Vec<u8>]) -> Vec<Vec<u8>> {
    families
        .iter()
        .flat_map(|family| (2..=family.len()).map(move |size| family[..size].to_vec()))
        .collect()
}

/// From the entities 0 and 2 in turn two kinds of a family go, and the smaller group's comes back last; then one goes
/// together with a kind of the first family, and both come back. Entity 0 is older than the layout.
pub fn family_walks(families: &[Vec<u8>], walked: usize, groups: &[Vec<u8>]) -> Case {
    let groups: Vec<&[u8]> = groups.iter().map(|group| &group[..]).collect();
    let kinds = families.concat();
    let mut runs = vec![run_of(kinds.iter().map(|&kind| tape::reg(kind)).collect())];
    runs.push(high_entity(families, 0));
    runs.push(run_of(layout(&groups)));
    runs.extend([high_entity(families, 1), high_entity(families, 2)]);

    let low = families[0][0];
    let (&last, others) = families[walked].split_last().unwrap();
    for (i, &kind) in others.iter().enumerate() {
        let index = i as u32 % 2 * 2;
        let id = (index, 1);
        for chunks in [
            tape::with(&[kind, last], tape::take(id)),
            valued(&[last], index, tape::put(id)),
            valued(&[kind], index, tape::put(id)),
            tape::with(&[low, kind], tape::drop(id)),
            valued(&[kind, low], index, tape::put(id)),
        ] {
            runs.push(run_of(chunks));
        }
    }
    runs.push(run_of(vec![tape::kill((0, 1))]));
    Case {
        n: 3,
        k: kinds.len(),
        value_bytes: tape::NARROW,
        preset: None,
        runs,
    }
}

/// An entity with all kinds; the one of index 1 lacks the last of each family, so that a family's counts differ.
pub fn high_entity(families: &[Vec<u8>], index: u32) -> Run {
    let held: Vec<u8> = families
        .iter()
        .flat_map(|family| &family[..family.len() - usize::from(index == 1)])
        .copied()
        .collect();
    let puts = held
        .chunks(16)
        .flat_map(|kinds| valued(kinds, index, tape::put((index, 1))));
    run_of([tape::new()].into_iter().chain(puts).collect())
}

/// HOLD for each kind, with a value that tells kind and entity, then the command.
pub fn valued(kinds: &[u8], index: u32, command: Chunk) -> Vec<Chunk> {
    let holds = kinds.iter().map(|&kind| tape::hold(kind, value(kind, index)));
    holds.chain([command]).collect()
}

pub fn value(kind: u8, index: u32) -> u64 {
    u64::from(index + 1) << 32 | u64::from(kind)
}

/// Groups below and between at the limits of their kinds and of their number, and walks over the families made so.
fn below_and_between() -> impl Iterator<Item = Case> {
    let chains = [15, 16].into_iter().flat_map(chains_in_orders);
    let high = [63, 64].into_iter().flat_map(high_chains);
    let last = [62, 63, 64].into_iter().flat_map(one_more);
    last.chain(chains).chain(high).chain(at_the_limit())
}

/// Orders in which the groups of chains come: the largest first, from both ends, every other one and then those
/// between, and by chance. Every other group has its kinds falling.
pub fn in_orders(groups: &[Vec<u8>]) -> Vec<Vec<Vec<u8>>> {
    let count = groups.len();
    let ends = (0..count).map(|i| if i % 2 == 0 { i / 2 } else { count - 1 - i / 2 });
    let mut orders: Vec<Vec<usize>> = vec![
        (0..count).rev().collect(),
        ends.collect(),
        (0..count).step_by(2).chain((1..count).step_by(2)).collect(),
    ];
    for seed in 0..3 {
        let mut order: Vec<usize> = (0..count).collect();
        Rng::new(seed).shuffle(&mut order);
        orders.push(order);
    }
    let group = |&i: &usize| -> Vec<u8> {
        let kinds = groups[i].iter().copied();
        if i % 2 == 0 {
            kinds.collect()
        } else {
            kinds.rev().collect()
        }
    };
    orders.iter().map(|order| order.iter().map(group).collect()).collect()
}

/// One family with a group for each number of kinds from 2 to `widest`, in several orders, and a pair among them. Once it
/// is full, each of its groups comes again, and lists that are small or clash, one of 16 kinds among them. Then every ring is
/// walked and asked for.
fn chains_in_orders(widest: u8) -> impl Iterator<Item = Case> {
    let pair = vec![widest, widest + 1];
    let families: Vec<Vec<u8>> = vec![(0..widest).collect(), pair.clone()];
    let orders = in_orders(&chains_of(&families[..1]));
    orders.into_iter().map(move |order| {
        let (before, behind) = order.split_at(7);
        let mut walks = family_walks(&families, 0, &[before, std::slice::from_ref(&pair), behind].concat());
        let mut runs = vec![run_of((0..20).map(tape::reg).collect())];
        let again = |group: &Vec<u8>| run_of(tape::with(group, tape::group()));
        runs.extend(order.iter().chain(&order).map(again));
        let shifted: Vec<u8> = (1..17).collect();
        let more: [&[u8]; 7] = [&[], &[3], &[0, 2], &[0, 1, 18], &[2, 3], &[1, widest], &shifted];
        runs.extend(more.into_iter().map(grouped));
        // What was drafted so far goes into force, and out of it again by the walks' own layout.
        runs.push(run_of(vec![tape::apply()]));
        runs.append(&mut walks.runs);
        runs.extend((2..widest).map(ring_asked));
        // The same groups in the opposite order, while entities exist.
        let back: Vec<&[u8]> = order.iter().rev().map(|group| &group[..]).collect();
        runs.push(run_of(layout(&back)));
        runs.push(run_of(tape::with(&(0..widest - 1).collect::<Vec<u8>>(), tape::new())));
        runs.push(run_of(tape::with(&[7, 3], tape::drop((2, 1)))));
        runs.push(run_of(vec![tape::kill((1, 1))]));
        Case {
            n: 4,
            k: 20,
            value_bytes: tape::NARROW,
            preset: None,
            runs,
        }
    })
}

/// RANGE of the first `size` kinds without the next one.
fn ring_asked(size: u8) -> Run {
    let ask = tape::with(&(0..size).collect::<Vec<u8>>(), tape::range());
    run_of([vec![tape::bar(size)], ask].concat())
}

/// The first layout of the high walks, or with 64 groups, with each family's groups the largest first; and with one group of
/// each family, then the others by chance. The last chain is walked.
fn high_chains(count: usize) -> impl Iterator<Item = Case> {
    let sizes = [vec![2; 34], vec![15, count - 48, 2]].concat();
    let families = families_of(&sizes);
    let rng = &mut Rng::new(5);
    let (mut falling, mut first, mut rest) = (vec![], vec![], vec![]);
    for family in &families {
        let mut groups = chains_of(&[family.clone()]);
        falling.extend(groups.iter().rev().cloned());
        first.push(groups.swap_remove(rng.below(groups.len())));
        rest.extend(groups);
    }
    rng.shuffle(&mut rest);
    [falling, [first, rest].concat()]
        .into_iter()
        .map(move |groups: Vec<Vec<u8>>| family_walks(&families, 35, &groups))
}

/// Families of so many kinds each, all different.
pub fn families_of(sizes: &[usize]) -> Vec<Vec<u8>> {
    let mut kinds = 0..128u8;
    sizes.iter().map(|&size| kinds.by_ref().take(size).collect()).collect()
}

/// Eight families with gaps below and between, up to 64 groups of them in several orders; then lists that would go
/// below and between, equal ones, small and clashing ones, one of 16 kinds, and what the layout does.
fn at_the_limit() -> impl Iterator<Item = Case> {
    let groups: Vec<Vec<u8>> = (0..8u8)
        .flat_map(|family| [3, 4, 6, 8, 10, 12, 14, 15].map(|arity| (family * 16..family * 16 + arity).collect()))
        .collect();
    // How many groups, and in how many orders. Six more join.
    [(56usize, 4), (57, 4), (63, 2), (64, 2)]
        .into_iter()
        .flat_map(move |(count, orders)| {
            let orders = in_orders(&groups[..count]).into_iter().take(orders);
            orders.map(|groups| limit_case(&groups))
        })
}

/// So many groups, nearly all of them pairs; a small list, two equal ones, and one more below the last family's or between
/// its two.
fn one_more(count: usize) -> impl Iterator<Item = Case> {
    let pairs: Vec<Vec<u8>> = (0..64).map(|i| vec![2 * i, 2 * i + 1]).collect();
    let rising = [125, 126, 127].map(|end| (122..end).collect::<Vec<u8>>());
    let below = ([&pairs[..count - 3], &rising].concat(), vec![122, 124]);
    let apart = [vec![125, 126], vec![124, 125, 126, 127]];
    let between = ([&pairs[..count - 2], &apart].concat(), vec![124, 125, 126]);
    [below, between].into_iter().map(|(groups, more)| {
        let mut kinds = groups.concat();
        kinds.sort();
        kinds.dedup();
        let mut runs = vec![run_of(kinds.into_iter().map(tape::reg).collect())];
        let all = groups.iter().flat_map(|group| tape::with(group, tape::group()));
        runs.push(run_of(all.collect()));
        let lists = [&[5][..], &groups[0], &groups[groups.len() - 1], &more];
        runs.extend(lists.into_iter().map(|list| run_of(tape::with(list, tape::group()))));
        runs.push(run_of(vec![tape::new(), tape::apply()]));
        Case {
            n: 1,
            k: 128,
            value_bytes: tape::NARROW,
            preset: None,
            runs,
        }
    })
}

fn limit_case(groups: &[Vec<u8>]) -> Case {
    let mut runs = drafted(groups);
    let rising = |end: u8| -> Vec<u8> { (0..end).collect() };
    let more: [&[u8]; 14] = [
        &[3],
        &[0, 1, 2],
        &rising(8),
        &[0, 16],
        &[0, 3],
        &(8..24).collect::<Vec<u8>>(),
        // Below, between, and each again.
        &[1, 0],
        &[0, 1],
        &rising(5),
        &rising(5),
        &rising(13),
        &[17, 18],
        &[34, 32, 33, 36, 35],
        &[64, 65],
    ];
    runs.extend(more.into_iter().map(grouped));
    // Entities before and after the layout is applied.
    let news = |from: usize| -> Run {
        let list = |i: usize| &groups[(from + 7 * i) % groups.len()];
        run_of((0..8).flat_map(|i| tape::with(list(i), tape::new())).collect())
    };
    runs.push(news(0));
    runs.push(run_of(vec![tape::apply()]));
    runs.push(news(3));
    for index in 0..12u32 {
        let kind = 16 * (index as u8 % 8) + index as u8;
        runs.push(run_of(tape::with(&[kind, 1], tape::take((index, 1)))));
        runs.push(run_of(valued(&[1, kind], index, tape::put((index, 1)))));
    }
    runs.push(run_of((0..10).map(|index| tape::kill((index, 1))).collect()));
    runs.push(run_of(vec![tape::apply(), tape::wipe()]));
    Case {
        n: 20,
        k: 128,
        value_bytes: tape::NARROW,
        preset: None,
        runs,
    }
}

/// Each command at every length of buffer up to two bytes more than it takes, accepted and refused.
fn rooms() -> impl Iterator<Item = Case> {
    let commands: Vec<(usize, Vec<Chunk>)> = vec![
        (2, vec![tape::reg(3)]),
        (2, vec![tape::reg(1)]),
        (2, vec![tape::reg(9)]),
        (2, vec![tape::reg(200)]),
        (1, vec![tape::hold(2, 7)]),
        (1, vec![tape::hold(1, 7), tape::hold(1, 7)]),
        (9, vec![tape::new()]),
        (1, vec![tape::put((0, 1))]),
        (1, vec![tape::put((0, 2))]),
        (28, vec![tape::take((0, 1))]),
        (28, vec![tape::take((5, 1))]),
        (1, vec![tape::drop((0, 1))]),
        (1, vec![tape::kill((0, 1))]),
        (1, vec![tape::kill((0, 3))]),
        (1, vec![tape::wipe()]),
        (2, vec![tape::group()]),
        (1, vec![tape::apply()]),
        (1, vec![tape::bar(1)]),
        (10, vec![tape::range()]),
        (1, vec![tape::empty()]),
        (5, vec![tape::tally()]),
        (3, vec![tape::tray(0)]),
        (3, vec![tape::tray(1)]),
        (3, vec![tape::tray(2)]),
        (3, vec![tape::tray(u16::MAX)]),
        (5, vec![tape::tray(1), tape::tray(1)]),
        (6, vec![tape::tray(1), tape::tray(0)]),
        (0, vec![vec![0]]),
        (0, vec![vec![17]]),
        (0, vec![vec![2, 1, 0]]),
        (0, vec![vec![15]]),
        (0, vec![vec![15, 1]]),
        (0, vec![]),
        (1, vec![tape::set_caller(5)]),
        (1, vec![tape::set_caller(16)]),
        (0, vec![vec![16]]),
    ];
    commands.into_iter().flat_map(|(needed, chunks)| {
        // The list has none, two or three kinds at the time.
        [vec![], vec![1, 2], vec![1, 2, 0]]
            .into_iter()
            .flat_map(move |list: Vec<u8>| {
                let chunks = chunks.clone();
                (0..needed + 3).map(move |room| {
                    let mut runs = vec![run_of((0..3).map(tape::reg).collect())];
                    runs.push(run_of(layout(&[&[0, 1], &[0, 1, 2]])));
                    runs.push(run_of(tape::with(&[0, 1], tape::new())));
                    runs.push(run_of(tape::hold_all(&list)));
                    runs.push(Run {
                        chunks: chunks.clone(),
                        room,
                    });
                    runs.push(run_of(vec![tape::tally(), tape::new()]));
                    Case {
                        n: 2,
                        k: 4,
                        value_bytes: tape::NARROW,
                        preset: None,
                        runs,
                    }
                })
            })
    })
}

/// Numbers at their last versions, live and recycled, and refusal counts that are full.
fn versions_run_out() -> impl Iterator<Item = Case> {
    const LAST: u32 = u32::MAX;
    let presets = vec![
        Preset {
            issued: 1,
            live: vec![(0, LAST)],
            ..Preset::default()
        },
        Preset {
            issued: 1,
            live: vec![(0, LAST - 1)],
            ..Preset::default()
        },
        Preset {
            issued: 1,
            recycled: vec![(0, LAST)],
            ..Preset::default()
        },
        Preset {
            issued: 1,
            ..Preset::default()
        },
        Preset {
            issued: 3,
            live: vec![(2, LAST), (0, 1), (1, LAST)],
            ..Preset::default()
        },
        Preset {
            issued: 3,
            live: vec![(1, LAST)],
            recycled: vec![(2, LAST), (0, LAST - 1)],
            refusals: callers::counts_of_first(LAST - 1),
            ..Preset::default()
        },
        Preset {
            issued: 3,
            live: vec![(1, 4)],
            recycled: vec![(0, LAST)],
            refusals: callers::counts_of_first(LAST),
            ..Preset::default()
        },
        Preset {
            issued: 3,
            refusals: callers::counts_of_first(LAST - 3),
            ..Preset::default()
        },
    ];
    presets.into_iter().flat_map(|preset| {
        [0usize, 1, 2].into_iter().map(move |spare| {
            let n = preset.issued + spare;
            let mut runs = vec![
                run_of((0..3).map(tape::reg).collect()),
                run_of(layout(&[&[0, 1], &[0, 1, 2]])),
            ];
            for &id in &preset.live {
                runs.push(run_of(tape::with(&[1, 0], tape::put(id))));
            }
            for _ in 0..4 {
                runs.push(run_of(
                    (0..n + 1).flat_map(|_| tape::with(&[0, 1], tape::new())).collect(),
                ));
                for version in [1, 2, 4, LAST - 1, LAST] {
                    runs.push(run_of(
                        (0..n as u32).map(|index| tape::kill((index, version))).collect(),
                    ));
                }
                runs.push(run_of(vec![tape::tally()]));
            }
            Case {
                n,
                k: 3,
                value_bytes: tape::NARROW,
                preset: Some(preset.clone()),
                runs,
            }
        })
    })
}

/// All tapes of a few steps over small alphabets and several layouts.
pub fn exhaustive() -> Vec<Part> {
    vec![
        part(
            "drafts of up to 3 groups over 6 kinds with every further group",
            drafts::cases(6, 3),
        ),
        part("all tapes of 0 to 2 bytes", short_tapes()),
        part(
            "all tapes of 4 commands over 17",
            words_over(commands(), 4, vec![vec![tape::reg(0), tape::reg(1)]], 2, 2),
        ),
        part(
            "all tapes of 5 commands over 9, with callers",
            words_over(callers::commands(), 5, vec![vec![tape::reg(0)]], 1, 1),
        ),
        part(
            "all tapes of 5 commands over 11",
            words_over(
                group_commands(),
                5,
                vec![vec![tape::reg(0), tape::reg(1), tape::reg(2)]],
                2,
                3,
            ),
        ),
        part(
            "all lists of 4 steps over 18, two entities, 6 layouts",
            words_over(steps(), 4, two_entities(), 4, 4),
        ),
        part(
            "all lists of 5 steps over 10, no entity, 6 layouts",
            words_over(few_steps(), 5, layouts(), 3, 4),
        ),
        part(
            "all lists of 3 relayouts and steps over 29, three entities",
            words_over(relayouts(), 3, three_entities(), 6, 4),
        ),
    ]
}

/// Every tape of up to two bytes, and every command byte with each number of operand bytes up to nine.
fn short_tapes() -> impl Iterator<Item = Case> {
    let bytes = (0..=255u8).map(|byte| vec![byte]);
    let pairs = (0..=65535u32).map(|pair| vec![pair as u8, (pair >> 8) as u8]);
    let cut = (0..=20u8).flat_map(|byte| (0..=10usize).map(move |width| [vec![byte], vec![1; width]].concat()));
    [vec![]]
        .into_iter()
        .chain(bytes)
        .chain(pairs)
        .chain(cut)
        .map(|tape| Case::new(2, 3, vec![tape]))
}

fn commands() -> Vec<Vec<Chunk>> {
    [
        tape::reg(1),
        tape::reg(2),
        tape::hold(0, 5),
        tape::hold(1, 6),
        tape::new(),
        tape::put((0, 1)),
        tape::take((0, 1)),
        tape::drop((0, 1)),
        tape::kill((0, 1)),
        tape::wipe(),
        tape::group(),
        tape::apply(),
        tape::bar(1),
        tape::range(),
        tape::empty(),
        tape::tray(2),
        tape::set_caller(1),
    ]
    .into_iter()
    .map(|chunk| vec![chunk])
    .collect()
}

fn group_commands() -> Vec<Vec<Chunk>> {
    vec![
        tape::hold_all(&[0, 1]),
        vec![tape::hold(2, 9)],
        vec![tape::hold(0, 8)],
        vec![tape::group()],
        vec![tape::apply()],
        vec![tape::new()],
        vec![tape::bar(2)],
        vec![tape::range()],
        vec![tape::take((0, 1))],
        vec![tape::kill((0, 1))],
        vec![tape::put((1, 1))],
    ]
}

/// Six layouts of four kinds, each as the list of its groups.
pub const LAYOUTS: [&[&[u8]]; 6] = [
    &[],
    &[&[0, 1]],
    &[&[0, 1], &[0, 1, 2]],
    &[&[0, 1, 2, 3], &[0, 1]],
    &[&[0, 1], &[0, 1, 2, 3], &[0, 1, 2]],
    &[&[1, 2], &[0, 3]],
];

fn layouts() -> Vec<Vec<Chunk>> {
    let kinds: Vec<Chunk> = (0..4).map(tape::reg).collect();
    let layouts = LAYOUTS.iter().map(|groups| [kinds.clone(), layout(groups)].concat());
    layouts.collect()
}

/// The layouts, and then two entities.
fn two_entities() -> Vec<Vec<Chunk>> {
    let entities = [tape::with(&[0, 1], tape::new()), tape::with(&[0, 1, 2, 3], tape::new())].concat();
    layouts()
        .into_iter()
        .map(|layout| [layout, entities.clone()].concat())
        .collect()
}

/// Three entities, without a layout; the last one created stands first in the live list, and one index is recycled.
fn three_entities() -> Vec<Vec<Chunk>> {
    let kinds: Vec<Chunk> = (0..4).map(tape::reg).collect();
    let entities = [
        tape::with(&[2, 3], tape::new()),
        tape::with(&[3, 1], tape::new()),
        tape::with(&[0, 1, 2], tape::new()),
        tape::with(&[2, 0, 1, 3], tape::new()),
        vec![tape::kill((0, 1))],
    ];
    vec![[kinds, entities.concat()].concat()]
}

/// RANGE with every list and every bar of four kinds, under each layout.
fn staged_and_excluded() -> impl Iterator<Item = Case> {
    let subset = |mask: usize| -> Vec<u8> { (0..4).filter(|kind| mask >> kind & 1 == 1).collect() };
    layouts().into_iter().map(move |layout| {
        let mut runs = vec![run_of(layout)];
        runs.push(run_of(
            (0..16)
                .flat_map(|list| tape::with(&subset(list * 7 % 16), tape::new()))
                .collect(),
        ));
        for (list, bar) in (0..16).flat_map(|list| (0..16).map(move |bar| (list, bar))) {
            let mut chunks: Vec<Chunk> = subset(bar).into_iter().map(tape::bar).collect();
            chunks.extend(tape::with(&subset(list), tape::range()));
            runs.push(run_of(chunks));
        }
        Case {
            n: 16,
            k: 4,
            value_bytes: tape::NARROW,
            preset: None,
            runs,
        }
    })
}

fn steps() -> Vec<Vec<Chunk>> {
    vec![
        tape::with(&[0, 1], tape::new()),
        tape::with(&[2, 1, 0], tape::new()),
        tape::with(&[0, 1, 2, 3], tape::new()),
        tape::with(&[0, 3], tape::new()),
        tape::with(&[2, 3], tape::new()),
        tape::with(&[0, 1], tape::put((0, 1))),
        tape::with(&[2], tape::put((0, 1))),
        tape::with(&[3], tape::put((1, 1))),
        tape::with(&[0, 1, 2], tape::put((1, 1))),
        tape::with(&[1], tape::take((0, 1))),
        tape::with(&[3, 2], tape::take((0, 1))),
        tape::with(&[0], tape::drop((1, 1))),
        tape::with(&[2], tape::drop((0, 1))),
        vec![tape::kill((0, 1))],
        vec![tape::kill((1, 1))],
        vec![tape::wipe()],
        tape::with(&[2, 0, 1], tape::tray(2)),
        [
            tape::with(&[0, 1], tape::group()),
            tape::with(&[0, 1, 2], tape::group()),
            vec![tape::apply()],
        ]
        .concat(),
    ]
}

fn few_steps() -> Vec<Vec<Chunk>> {
    vec![
        tape::with(&[0, 1, 2, 3], tape::new()),
        tape::with(&[0, 1], tape::new()),
        tape::with(&[0], tape::new()),
        tape::with(&[1, 2], tape::put((0, 1))),
        tape::with(&[0, 1, 2, 3], tape::put((1, 1))),
        tape::with(&[2], tape::drop((0, 1))),
        tape::with(&[1], tape::take((1, 1))),
        tape::with(&[3, 0], tape::drop((1, 1))),
        vec![tape::kill((0, 1))],
        vec![tape::kill((0, 2))],
    ]
}

fn relayouts() -> Vec<Vec<Chunk>> {
    let mut steps: Vec<Vec<Chunk>> = layouts().into_iter().map(|chunks| chunks[4..].to_vec()).collect();
    steps.extend([
        layout(&[&[2, 3]]),
        layout(&[&[0, 1], &[2, 3]]),
        layout(&[&[2, 3, 1], &[2, 3]]),
        layout(&[&[1, 3, 0, 2], &[1, 3], &[1, 3, 0]]),
        layout(&[&[0, 1, 2, 3]]),
        tape::with(&[0, 1, 2, 3], tape::new()),
        tape::with(&[3, 2], tape::new()),
        tape::with(&[1, 2, 3], tape::new()),
        tape::with(&[0, 1], tape::put((1, 1))),
        tape::with(&[0, 1, 2, 3], tape::put((1, 1))),
        tape::with(&[2, 3], tape::put((2, 1))),
        tape::with(&[1], tape::drop((1, 1))),
        tape::with(&[2], tape::take((2, 1))),
        tape::with(&[1, 0], tape::drop((2, 1))),
        tape::with(&[3], tape::drop((3, 1))),
        tape::with(&[0, 2], tape::take((3, 1))),
        vec![tape::kill((1, 1))],
        vec![tape::kill((2, 1))],
        vec![tape::kill((3, 1))],
        vec![tape::kill((0, 2))],
        vec![tape::wipe()],
        tape::with(&[3, 0, 2, 1], tape::tray(2)),
        [tape::with(&[3, 1], tape::new()), tape::with(&[0, 1, 2], tape::new())].concat(),
    ]);
    steps
}

/// Every word of `length` letters behind each of the beginnings. Shorter words are beginnings of these; the state is
/// looked at after each letter.
fn words_over(
    alphabet: Vec<Vec<Chunk>>,
    length: u32,
    beginnings: Vec<Vec<Chunk>>,
    n: usize,
    k: usize,
) -> impl Iterator<Item = Case> {
    beginnings.into_iter().flat_map(move |beginning| {
        let alphabet = alphabet.clone();
        (0..alphabet.len().pow(length)).map(move |mut word| {
            let mut runs = vec![run_of(beginning.clone())];
            for _ in 0..length {
                let letter = &alphabet[word % alphabet.len()];
                word /= alphabet.len();
                // A value of its own for each part, so that rows can be told apart.
                let mark = runs.len() as u8;
                runs.push(run_of(letter.iter().map(|chunk| marked(chunk, mark)).collect()));
            }
            Case {
                n,
                k,
                value_bytes: tape::NARROW,
                preset: None,
                runs,
            }
        })
    })
}

fn marked(chunk: &Chunk, mark: u8) -> Chunk {
    let mut chunk = chunk.clone();
    if chunk[0] == 2 {
        chunk[2] = 16 * mark + chunk[1];
    }
    chunk
}
