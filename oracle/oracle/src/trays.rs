//! TRAY at its limits: every count that matters, lists of 0, 1, 2, 5 and 16 kinds, several layouts, and stores that are
//! empty, in use, full, or at their last versions. Lists of other lengths come by chance, and in tests.rs.

use crate::fixed::{layout, run_of, valued};
use crate::rng::Rng;
use crate::tape::{self, Case, Chunk, Run};
use sparsey::harness::{Id, Preset};

const KINDS: u8 = 16;
const LAST: u32 = u32::MAX;

/// Stands in the values of a tray's components in an entity's place.
pub const TRAYED: u32 = 9_000;

/// How a store stands before the tray.
#[derive(Clone, Copy, Debug)]
enum Before {
    Empty,
    /// Half of the numbers are issued, and all of these live.
    Used,
    /// All are issued, and half of them wait.
    Waiting,
    /// Some are not yet issued, and some wait.
    Mixed,
    Full,
}

const BEFORE: [Before; 5] = [
    Before::Empty,
    Before::Used,
    Before::Waiting,
    Before::Mixed,
    Before::Full,
];

impl Before {
    /// How many entities are created, and the indexes of those that are destroyed then, in this order.
    fn numbers(self, n: usize) -> (usize, Vec<u32>) {
        let created = match self {
            Before::Empty => 0,
            Before::Used => n.div_ceil(2),
            Before::Mixed => (3 * n).div_ceil(4),
            Before::Waiting | Before::Full => n,
        };
        let mut destroyed: Vec<u32> = (0..created as u32).collect();
        Rng::new(n as u64).shuffle(&mut destroyed);
        destroyed.truncate(match self {
            Before::Waiting | Before::Mixed => created.div_ceil(2),
            _ => 0,
        });
        (created, destroyed)
    }

    /// The runs, and how many entities can still be created after them.
    fn runs(self, n: usize) -> (Vec<Run>, usize) {
        let lists: [&[u8]; 6] = [&[0, 1], &[1], &[0, 1, 2, 3], &[], &[5, 6, 2, 3, 4], &[3, 2, 1, 0, 7]];
        let (created, destroyed) = self.numbers(n);
        let news = (0..created).flat_map(|i| valued(lists[i % lists.len()], i as u32, tape::new()));
        let free = n - created + destroyed.len();
        let kills = destroyed.into_iter().map(|index| tape::kill((index, 1)));
        (vec![run_of(news.collect()), run_of(kills.collect())], free)
    }
}

/// Layouts of no group, one, nested ones, ones given in any order, several families, and a group for each number of kinds.
fn layouts() -> Vec<Vec<Chunk>> {
    let first = |count: u8| -> Vec<u8> { (0..count).collect() };
    let chain: Vec<Vec<u8>> = (2..KINDS).map(first).collect();
    let lists: Vec<Vec<Vec<u8>>> = vec![
        vec![],
        vec![vec![1, 0]],
        vec![first(2), first(3), first(4)],
        vec![first(15), first(2), first(7)],
        vec![vec![0, 1], vec![2, 3], vec![2, 3, 4], vec![5, 6, 7], vec![6, 5]],
        chain,
    ];
    let chunks = |groups: &Vec<Vec<u8>>| {
        let groups: Vec<&[u8]> = groups.iter().map(|group| &group[..]).collect();
        layout(&groups)
    };
    lists.iter().map(chunks).collect()
}

/// What is staged for the tray.
fn lists() -> Vec<Vec<u8>> {
    vec![
        vec![],
        vec![2],
        vec![1, 0],
        vec![4, 2, 0, 3, 1],
        (0..KINDS).collect(),
        (0..KINDS).rev().collect(),
    ]
}

/// The counts where there is room for so many: none, one, about all, those with the bytes exchanged, or with a byte that
/// does not count, and the greatest.
fn counts(free: usize) -> [u16; 8] {
    let free = free as u16;
    [
        0,
        1,
        free.saturating_sub(1),
        free,
        free + 1,
        free.swap_bytes(),
        free.saturating_add(256),
        u16::MAX,
    ]
}

/// Stores for so many entities, each with every so many of the cases.
const SIZES: [(usize, usize); 8] = [(1, 5), (2, 5), (3, 5), (5, 1), (16, 1), (64, 7), (500, 17), (4096, 29)];

/// Each layout with each list and each count; the state before goes round. Then a few of the largest stores.
pub fn cases() -> impl Iterator<Item = Case> {
    let all = SIZES.into_iter().flat_map(|(n, every)| {
        let count = layouts().len() * lists().len() * counts(0).len();
        (0..count)
            .step_by(every)
            .map(move |place| tray_case(n, &picked(n, place)))
    });
    all.chain(large())
}

/// Places in `layouts` and `lists`, the state before, and the place in `counts`.
struct Picked {
    layout: usize,
    list: usize,
    before: Before,
    count: usize,
}

/// What is picked at a place among the cases of one size.
fn picked(n: usize, place: usize) -> Picked {
    let (lists, counts) = (lists().len(), counts(0).len());
    let rest = place / counts;
    Picked {
        layout: rest / lists,
        list: rest % lists,
        before: BEFORE[(place + rest + n) % BEFORE.len()],
        count: place % counts,
    }
}

/// The largest store with trays of two and of 16 kinds that nearly fill it, fill it, and are one too many.
fn large() -> impl Iterator<Item = Case> {
    let picks = [(3, 4, Before::Empty), (4, 2, Before::Waiting), (2, 5, Before::Mixed)];
    picks.into_iter().flat_map(|(layout, list, before)| {
        (2..5).map(move |count| {
            let picked = Picked {
                layout,
                list,
                before,
                count,
            };
            tray_case(4096, &picked)
        })
    })
}

fn tray_case(n: usize, picked: &Picked) -> Case {
    let (layout, list) = (layouts().swap_remove(picked.layout), &lists()[picked.list]);
    let (made, free) = picked.before.runs(n);
    let mut runs = vec![run_of((0..KINDS).map(tape::reg).collect()), run_of(layout)];
    runs.extend(made);
    let tray = valued(list, TRAYED, tape::tray(counts(free)[picked.count]));
    runs.push(run_of([vec![tape::bar(3)], tray].concat()));
    runs.extend(after(n, list));
    Case {
        n,
        k: KINDS.into(),
        value_bytes: tape::NARROW,
        preset: None,
        runs,
    }
}

/// What is staged and excluded shows; some go, by their first or second version; another tray, and parts that go.
fn after(n: usize, list: &[u8]) -> Vec<Run> {
    let back: Vec<u8> = list.iter().rev().copied().collect();
    let some = || (0..n as u32).step_by(n.div_ceil(5));
    let both = |index: u32| [(index, 1), (index, 2)];
    let kills = some().flat_map(both).map(tape::kill);
    let rest = (0..n as u32).skip(1).step_by(n.div_ceil(3)).flat_map(both);
    let removed = |id: Id| [tape::with(&[0, 4], tape::take(id)), vec![tape::empty()]].concat();
    vec![
        run_of(vec![tape::tally(), tape::new()]),
        run_of(tape::with(&[0, 1, 2], tape::range())),
        run_of(kills.collect()),
        run_of(valued(&back, TRAYED + 1, tape::tray(2))),
        run_of([vec![tape::empty()], rest.flat_map(removed).collect()].concat()),
        run_of(valued(&[1, 0], TRAYED + 2, tape::tray(1))),
    ]
}

/// Numbers at their last versions, live and waiting, and numbers that are retired; every count that could matter.
pub fn at_the_last_version() -> impl Iterator<Item = Case> {
    presets().into_iter().flat_map(|preset| {
        (0..=2usize).flat_map(move |spare| {
            let preset = preset.clone();
            let n = preset.issued + spare;
            (0..=n + 1).map(move |count| worn_case(&preset, n, count as u16))
        })
    })
}

fn presets() -> Vec<Preset> {
    let preset = |issued: usize, live: &[Id], recycled: &[Id]| Preset {
        issued,
        live: live.to_vec(),
        recycled: recycled.to_vec(),
        ..Preset::default()
    };
    vec![
        preset(1, &[], &[]),
        preset(1, &[(0, LAST)], &[]),
        preset(1, &[], &[(0, LAST)]),
        preset(3, &[], &[]),
        preset(3, &[(2, LAST), (0, 1), (1, LAST)], &[]),
        preset(3, &[(1, LAST)], &[(2, LAST), (0, LAST - 1)]),
        preset(4, &[(3, 4)], &[(0, LAST), (2, 9)]),
        preset(4, &[], &[(3, LAST), (1, LAST), (0, 2)]),
    ]
}

/// A tray, all that are live destroyed, which retires some, and trays again.
fn worn_case(preset: &Preset, n: usize, count: u16) -> Case {
    let mut runs = vec![
        run_of((0..3).map(tape::reg).collect()),
        run_of(layout(&[&[0, 1], &[0, 1, 2]])),
    ];
    let puts = preset.live.iter().flat_map(|&id| tape::with(&[1, 0], tape::put(id)));
    runs.push(run_of(puts.collect()));
    for round in 0..2 {
        runs.push(run_of(valued(&[1, 2, 0][round..], TRAYED, tape::tray(count))));
        runs.push(run_of(vec![tape::tally(), tape::tray(0), tape::new()]));
        for version in [1, 2, 4, 9, LAST - 1, LAST] {
            let kills = (0..n as u32).map(|index| tape::kill((index, version)));
            runs.push(run_of(kills.collect()));
        }
    }
    runs.push(run_of(vec![tape::tray(n as u16), tape::tray(count), tape::tray(1)]));
    Case {
        n,
        k: 3,
        value_bytes: tape::NARROW,
        preset: Some(preset.clone()),
        runs,
    }
}
