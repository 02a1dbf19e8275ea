//! Past the Rust's reach: families of 16 kinds and layouts of 64 groups. The plain reference stands beside the other side,
//! and both are held to the definition.

use crate::compare::{begin, Beside};
use crate::fixed::{
    self, chains_of, drafted, families_of, family_walks, grouped, high_entity, in_orders, part, run_of, valued, Part,
};
use crate::reference::Reference;
use crate::rng::Rng;
use crate::side::Side;
use crate::tape::{self, Case, Chunk, Run};
use crate::trays::TRAYED;
use sparsey::harness::is_within_reach as can_take;

const MOST_KINDS: u8 = 16;
const MOST_GROUPS: usize = 64;
const ALL_KINDS: u8 = 128;
const APPLY: u8 = 10;

/// Whether the Rust can follow the case: no layout past its reach is applied.
pub fn is_within_reach(case: &Case) -> bool {
    let mut side = started(case);
    case.runs
        .iter()
        .all(|run| applies_within(&mut side, run, case.value_bytes))
}

fn started(case: &Case) -> Reference {
    let mut side = Reference::new();
    begin(&mut side, case, None);
    side
}

/// The longest answer: that of TAKE with 16 kinds and sixteen bytes a value.
const LONGEST: usize = 1 + 16 * 17;

/// The run, command by command, until one applies a layout past the Rust's reach.
fn applies_within(side: &mut Reference, run: &Run, value_bytes: usize) -> bool {
    let bytes = run.tape();
    let (mut read, mut room) = (0, run.room);
    while read < bytes.len() {
        if bytes[read] == APPLY && !can_take(&side.families()[0]) {
            return false;
        }
        let operands = tape::operands(bytes[read], value_bytes).unwrap_or(0);
        let end = bytes.len().min(read + 1 + operands);
        let mut out = [0; LONGEST];
        let ran = side.run(&bytes[read..end], &mut out[..room.min(LONGEST)]);
        if ran.stop != 0 {
            break;
        }
        read = end;
        room -= ran.written;
    }
    true
}

/// Goes ahead of a case that grows beside the Rust, and says which runs stay within its reach.
pub struct Scout {
    /// None where the case may go past it.
    side: Option<Reference>,
    value_bytes: usize,
}

impl Scout {
    pub fn start(case: &Case, beside: Beside) -> Self {
        Self {
            side: beside.is_rust().then(|| started(case)),
            value_bytes: case.value_bytes,
        }
    }

    /// Whether the run leaves the draft within the Rust's reach, and applies no layout past it; if so, it is done.
    pub fn follows(&mut self, run: &Run) -> bool {
        let Some(side) = &self.side else { return true };
        let mut ahead = side.clone();
        let follows = applies_within(&mut ahead, run, self.value_bytes) && can_take(&ahead.families()[0]);
        if follows {
            self.side = Some(ahead);
        }
        follows
    }
}

/// The name of the largest part.
const ALL_CHAINS: &str = "all chains through 16 kinds";

/// All parts at both widths; of all chains one in so many at sixteen bytes.
pub fn at_both(every: usize) -> Vec<Part> {
    let (chains, others) = parts().into_iter().partition(|part| part.name == ALL_CHAINS);
    let (chains, others) = (fixed::at_both(chains, every), fixed::at_both(others, 1));
    chains.into_iter().chain(others).collect()
}

/// All parts.
pub fn parts() -> Vec<Part> {
    let mut parts = vec![
        part(ALL_CHAINS, all_chains()),
        part("chains of few groups through 16 kinds", few_chains()),
        part("walks through position 63", walks()),
        part("drafts of 62 to 64 groups", drafts()),
        part("relayouts of 64 groups", relayouts()),
        part("trays through 16 kinds", chain_trays()),
        part("trays under 64 groups", group_trays()),
    ];
    parts.extend(fixed::past_limits());
    parts
}

/// All parts with few of their cases, the first among them.
pub fn few() -> Vec<Part> {
    thinned(1001, 101, 7)
}

/// All parts, the first case of each and then one in so many: of all chains, of those of few groups, and of the others.
pub fn thinned(chains: usize, few_groups: usize, others: usize) -> Vec<Part> {
    let thin = |whole: Part| {
        let every = match whole.name {
            ALL_CHAINS => chains,
            "chains of few groups through 16 kinds" | "trays through 16 kinds" => few_groups,
            "16 staged, then a group" => 1,
            _ => others,
        };
        part(whole.name, whole.cases.step_by(every))
    };
    parts().into_iter().map(thin).collect()
}

/// The sizes of a chain through 16 kinds: of 2 to 15 those in the set.
fn sizes(set: u32) -> Vec<u8> {
    let within = (2..MOST_KINDS).filter(|size| set >> (size - 2) & 1 == 1);
    within.chain([MOST_KINDS]).collect()
}

/// GROUP for each size of the first kinds, the smallest first, or the largest first with the kinds falling; then APPLY.
fn chain(sizes: &[u8], is_falling: bool) -> Vec<Chunk> {
    let mut groups: Vec<Vec<u8>> = sizes.iter().map(|&size| (0..size).collect()).collect();
    if is_falling {
        groups.reverse();
        groups.iter_mut().for_each(|group| group.reverse());
    }
    let groups: Vec<&[u8]> = groups.iter().map(|group| &group[..]).collect();
    fixed::layout(&groups)
}

/// NEW with all sixteen kinds but one; with all of them where that is the seventeenth.
fn lacking(kind: u8, index: u32) -> Vec<Chunk> {
    valued(&all_but(kind), index, tape::new())
}

/// All sixteen kinds but one; all of them where that is the seventeenth.
fn all_but(kind: u8) -> Vec<u8> {
    (0..MOST_KINDS).filter(|&held| held != kind).collect()
}

fn registered(count: u8) -> Vec<Chunk> {
    (0..count).map(tape::reg).collect()
}

fn every_chain() -> impl Iterator<Item = (u32, bool)> {
    (0..1u32 << (MOST_KINDS - 2)).flat_map(|set| [(set, false), (set, true)])
}

/// Every chain of sizes through 16, the smallest first and the largest first, with a few entities before it and behind it.
fn all_chains() -> impl Iterator<Item = Case> {
    every_chain().map(|(set, is_falling)| {
        // Three places in turn.
        let places = [set % 15, set / 15 % 15, set / 225 % 15].map(|place| place as u8);
        let before = [MOST_KINDS, 15, places[0]];
        let behind = [places[1], MOST_KINDS, places[2]];
        let news = |from: u32, lists: [u8; 3]| -> Vec<Chunk> {
            (from..)
                .zip(lists)
                .flat_map(|(index, kind)| lacking(kind, index))
                .collect()
        };
        let first = [registered(MOST_KINDS), news(0, before), chain(&sizes(set), is_falling)];
        let walks = [
            valued(&[15], 1, tape::put((1, 1))),
            tape::with(&[15], tape::drop((1, 1))),
            tape::with(&[15, places[1]], tape::take((4, 1))),
            valued(&[places[0]], 2, tape::put((2, 1))),
            vec![tape::kill((0, 1))],
            valued(&[15], 4, tape::put((4, 1))),
        ];
        Case {
            n: 6,
            k: MOST_KINDS.into(),
            value_bytes: tape::NARROW,
            preset: None,
            runs: vec![
                run_of(first.concat()),
                run_of([news(3, behind), walks.concat()].concat()),
            ],
        }
    })
}

/// The chains of up to four groups, and the one with all sizes.
fn short_chains() -> impl Iterator<Item = (u32, bool)> {
    every_chain().filter(|&(set, _)| set.count_ones() < 4 || sizes(set).len() == 15)
}

/// Entities that lack each kind in turn, before these chains and behind.
fn few_chains() -> impl Iterator<Item = Case> {
    short_chains().map(|(set, is_falling)| {
        let count = u32::from(MOST_KINDS) + 1;
        // The kind that the entity of an index lacks.
        let lacks = move |index: u32| ((index * 7 + set) % count) as u8;
        let news = (0..count).flat_map(|index| lacking(lacks(index), index));
        let mut runs = vec![
            run_of([registered(MOST_KINDS + 1), news.collect()].concat()),
            run_of(chain(&sizes(set), is_falling)),
        ];
        // Half of them go and come again behind the layout, then the other half.
        for first in 0..2 {
            let half = || (first..count).step_by(2);
            runs.push(run_of(half().map(|index| tape::kill((index, 1))).collect()));
            let again = half().flat_map(|index| lacking(lacks(index), index));
            runs.push(run_of(again.collect()));
        }
        runs.push(run_of(
            (0..count).flat_map(|index| exchanged(lacks(index), index)).collect(),
        ));
        Case {
            n: count as usize,
            k: usize::from(MOST_KINDS) + 1,
            value_bytes: tape::NARROW,
            preset: None,
            runs,
        }
    })
}

/// What an entity lacks goes in, and then another kind out, the sixteenth with it or alone.
fn exchanged(kind: u8, index: u32) -> Vec<Chunk> {
    let id = (index, 2);
    let lacked = if kind == MOST_KINDS { vec![] } else { vec![kind] };
    let out = match index % 3 {
        0 => tape::with(&[15, kind / 2], tape::take(id)),
        1 => tape::with(&[kind / 3], tape::drop(id)),
        _ => tape::with(&[15], tape::drop(id)),
    };
    [valued(&lacked, index, tape::put(id)), out].concat()
}

/// A layout of 64 groups: the kinds of its families, and its groups in order.
struct Layout {
    families: Vec<Vec<u8>>,
    groups: Vec<Vec<u8>>,
}

impl Layout {
    /// Families of so many kinds, with a group for each number of them from 2 on.
    fn full(sizes: &[usize]) -> Self {
        let families = families_of(sizes);
        let groups = chains_of(&families);
        Self { families, groups }
    }

    /// Eight families of 16 kinds, with groups of these sizes.
    fn eight(sizes: [usize; 8]) -> Self {
        let families = families_of(&[16; 8]);
        let of = |family: &Vec<u8>| sizes.map(|size| family[..size].to_vec());
        let groups = families.iter().flat_map(of).collect();
        Self { families, groups }
    }

    fn chunks(&self) -> Vec<Chunk> {
        let groups: Vec<&[u8]> = self.groups.iter().map(|group| &group[..]).collect();
        fixed::layout(&groups)
    }

    fn in_order(&self, groups: Vec<Vec<u8>>) -> Self {
        Self {
            families: self.families.clone(),
            groups,
        }
    }
}

/// Layouts of 64 groups.
fn layouts() -> Vec<Layout> {
    let pairs = |count: usize| vec![2; count];
    let layouts = vec![
        Layout::full(&pairs(64)),
        Layout::full(&[vec![16; 4], pairs(4)].concat()),
        Layout::full(&[pairs(4), vec![16; 4]].concat()),
        Layout::eight([2, 4, 6, 8, 10, 12, 14, 16]),
        Layout::eight([3, 5, 7, 9, 11, 13, 15, 16]),
        Layout::full(&[pairs(34), vec![16, 15, 2]].concat()),
        Layout::full(&[pairs(35), vec![15, 16]].concat()),
        Layout::full(&[pairs(49), vec![16]].concat()),
    ];
    for layout in &layouts {
        assert_eq!(layout.groups.len(), MOST_GROUPS);
    }
    layouts
}

/// The families of each layout that are walked: the one with position 63, and one or two before it; then some of them with
/// the groups in other orders.
fn walks() -> impl Iterator<Item = Case> {
    layouts().into_iter().flat_map(|layout| {
        let last = layout.families.len() - 1;
        let wide = layout.families.iter().rposition(|family| family.len() == 16);
        let orders = in_orders(&layout.groups);
        // The largest first, so that the first family has position 63; and by chance.
        let mut walked = vec![(0, &orders[0]), (wide.unwrap_or(last), &orders[4])];
        let mut families = vec![last, wide.unwrap_or(last / 2), 0];
        families.dedup();
        walked.extend(families.into_iter().map(|family| (family, &layout.groups)));
        let walk = |(family, groups): (usize, &Vec<Vec<u8>>)| whole_walk(&layout.families, family, groups);
        walked.into_iter().map(walk).collect::<Vec<Case>>()
    })
}

/// A family's walks; before the last the largest group's kind goes alone, and comes back.
fn whole_walk(families: &[Vec<u8>], walked: usize, groups: &[Vec<u8>]) -> Case {
    let mut case = family_walks(families, walked, groups);
    let last = [families[walked][families[walked].len() - 1]];
    let kill = case.runs.pop();
    for index in [0, 2] {
        let id = (index, 1);
        case.runs.push(run_of(tape::with(&last, tape::drop(id))));
        case.runs.push(run_of(valued(&last, index, tape::put(id))));
    }
    case.runs.extend(kill);
    case
}

/// 64 groups over 112 kinds: families of 16 kinds with gaps, of 15 kinds, and of 14 with room below; and pairs.
pub fn gapped() -> Vec<Vec<u8>> {
    let chain = |first: u8, sizes: &[u8]| -> Vec<Vec<u8>> {
        sizes.iter().map(|&size| (first..first + size).collect()).collect()
    };
    let wide = chain(0, &[3, 6, 8, 10, 12, 14, 16]);
    let narrow = chain(16, &Vec::from_iter(2..16));
    let high = chain(32, &Vec::from_iter(4..15));
    let pairs = (32..64).map(|i| vec![2 * i, 2 * i + 1]).collect();
    let groups = [wide, narrow, high, pairs].concat();
    assert_eq!(groups.len(), MOST_GROUPS);
    groups
}

/// Drafts of 62 to 64 of these groups, the smallest first, the largest first and by chance. Then lists that are small, equal
/// or clash, two of them of 16 kinds; then lists that join, one after the other, beginning with each, the others again behind
/// each. Then the draft is applied.
pub fn drafts() -> impl Iterator<Item = Case> {
    let groups = gapped();
    let orders = in_orders(&groups);
    let orders = [groups, orders[0].clone(), orders[3].clone()];
    orders.into_iter().flat_map(|groups| {
        (62..=MOST_GROUPS).flat_map(move |count| {
            let groups = groups[..count].to_vec();
            (0..joining().len()).map(move |first| draft_case(&groups, first))
        })
    })
}

/// Lists that join the gapped groups: in families of their own, below, between and above, three of them of 16 kinds.
fn joining() -> Vec<Vec<u8>> {
    vec![
        vec![48, 49],
        (48..64).collect(),
        vec![0, 1],
        vec![0, 1, 2, 3],
        (16..32).collect(),
        (32..48).rev().collect(),
    ]
}

fn draft_case(groups: &[Vec<u8>], first: usize) -> Case {
    let refused: [&[u8]; 6] = [
        &[],
        &[77],
        &groups[groups.len() / 2],
        &Vec::from_iter(0..16),
        &[0, 64],
        &Vec::from_iter(8..24),
    ];
    let mut runs = drafted(groups);
    let mut joining = joining();
    joining.rotate_left(first);
    runs.extend(refused.map(grouped));
    runs.push(grouped(&joining[0]));
    let together = refused
        .map(grouped)
        .into_iter()
        .chain(joining.iter().map(|list| grouped(list)));
    runs.push(run_of(together.flat_map(|run| run.chunks).collect()));
    runs.push(run_of([lacking(MOST_KINDS, 0), vec![tape::apply()]].concat()));
    runs.push(run_of([lacking(7, 1), vec![tape::kill((0, 1))]].concat()));
    Case {
        n: 2,
        k: ALL_KINDS.into(),
        value_bytes: tape::NARROW,
        preset: None,
        runs,
    }
}

/// From each layout to each other, and back, while entities exist: of 64 groups, of 63, and of none.
fn relayouts() -> impl Iterator<Item = Case> {
    let mut all = layouts();
    let pairs = all[0].groups.clone();
    let fewer = all[0].in_order(pairs[..MOST_GROUPS - 1].to_vec());
    let none = all[0].in_order(vec![]);
    all.truncate(4);
    all.extend([fewer, none]);
    let chunks: Vec<Vec<Chunk>> = all.iter().map(Layout::chunks).collect();
    let count = chunks.len();
    (0..count * count)
        .filter(move |pair| pair / count != pair % count)
        .map(move |pair| {
            let (one, other) = (&chunks[pair / count], &chunks[pair % count]);
            relayout_case(one, other, pair as u64)
        })
}

fn relayout_case(one: &[Chunk], other: &[Chunk], seed: u64) -> Case {
    let rng = &mut Rng::new(seed);
    let mut runs = vec![run_of(registered(ALL_KINDS))];
    runs.extend((0..4).map(|index| scattered(rng, index)));
    for layout in [one, other, one] {
        runs.push(run_of(layout.to_vec()));
        let id = (rng.below(4) as u32, 1);
        let kinds = some_kinds(rng);
        runs.push(run_of(tape::with(&kinds, tape::take(id))));
        runs.push(run_of(valued(&kinds, id.0, tape::put(id))));
    }
    runs.push(run_of(vec![tape::wipe()]));
    runs.push(scattered(rng, 4));
    runs.push(run_of(vec![tape::kill((4, 1)), tape::kill((1, 1))]));
    Case {
        n: 5,
        k: ALL_KINDS.into(),
        value_bytes: tape::NARROW,
        preset: None,
        runs,
    }
}

/// Sixteen kinds, one behind the other or by chance.
fn some_kinds(rng: &mut Rng) -> Vec<u8> {
    let mut kinds: Vec<u8> = (0..ALL_KINDS).collect();
    match rng.once_in(2) {
        true => kinds.rotate_left(rng.below(8) * usize::from(MOST_KINDS)),
        false => rng.shuffle(&mut kinds),
    }
    kinds.truncate(MOST_KINDS.into());
    kinds
}

/// An entity with most kinds.
fn scattered(rng: &mut Rng, index: u32) -> Run {
    let mut kinds: Vec<u8> = (0..ALL_KINDS).collect();
    rng.shuffle(&mut kinds);
    kinds.truncate(rng.between(100, 128));
    let puts = kinds.chunks(MOST_KINDS.into());
    let puts = puts.flat_map(|kinds| valued(kinds, index, tape::put((index, 1))));
    run_of([tape::new()].into_iter().chain(puts).collect())
}

/// Trays of all sixteen kinds and of all but one, behind entities that lack one, under these chains; then with numbers that
/// wait; the sixteenth kind goes and comes; then a tray too many, and one that fills the store.
fn chain_trays() -> impl Iterator<Item = Case> {
    short_chains().map(|(set, is_falling)| {
        let place = (set % u32::from(MOST_KINDS)) as u8;
        let tray = |kind: u8, count: u16| valued(&all_but(kind), TRAYED, tape::tray(count));
        let kills = [6, 0, 3].map(|index| tape::kill((index, 1)));
        let runs = [
            [registered(MOST_KINDS), lacking(15, 0), lacking(MOST_KINDS, 1)].concat(),
            chain(&sizes(set), is_falling),
            tray(MOST_KINDS, 3),
            tray(place, 2),
            kills.to_vec(),
            tray(MOST_KINDS, 4),
            tape::with(&[15], tape::drop((4, 1))),
            valued(&[15, place], 4, tape::put((4, 1))),
            tray(15, 5),
            tape::with(&[15, place], tape::take((1, 1))),
            vec![tape::tray(4)],
        ];
        Case {
            n: 12,
            k: MOST_KINDS.into(),
            value_bytes: tape::NARROW,
            preset: None,
            runs: runs.into_iter().map(run_of).collect(),
        }
    })
}

/// Trays under each layout of 64 groups, in three orders: of the kinds of a family, the last, the first and a wide one, and
/// of kinds of many families; then again with numbers that wait.
fn group_trays() -> impl Iterator<Item = Case> {
    layouts().into_iter().flat_map(|layout| {
        let orders = in_orders(&layout.groups);
        let orders = [layout.groups.clone(), orders[0].clone(), orders[4].clone()];
        orders.map(|groups| group_tray_case(&layout.in_order(groups)))
    })
}

fn group_tray_case(layout: &Layout) -> Case {
    let families = &layout.families;
    let wide = families.iter().max_by_key(|family| family.len()).unwrap();
    // Pairs, or as many kinds, of families from the first to the last.
    let spread = families.iter().step_by(families.len().div_ceil(8));
    let mut spread: Vec<u8> = spread.flat_map(|family| family[..2].to_vec()).collect();
    spread.reverse();
    let lists = [&families[families.len() - 1], &spread, wide, &families[0]];
    let trays = |count: u16| {
        let tray = move |list: &&Vec<u8>| run_of(valued(list, TRAYED, tape::tray(count)));
        lists.iter().map(tray).collect::<Vec<Run>>()
    };
    let mut runs = vec![
        run_of(registered(ALL_KINDS)),
        high_entity(families, 0),
        run_of(layout.chunks()),
        high_entity(families, 1),
    ];
    runs.extend(trays(2));
    runs.push(run_of([9, 0, 4, 2].map(|index| tape::kill((index, 1))).to_vec()));
    runs.push(run_of(tape::with(&wide[wide.len() - 1..], tape::drop((6, 1)))));
    runs.extend(trays(3));
    runs.extend(trays(1));
    Case {
        n: 20,
        k: ALL_KINDS.into(),
        value_bytes: tape::NARROW,
        preset: None,
        runs,
    }
}
