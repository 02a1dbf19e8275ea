//! The newer rule (02, No. 8), which the Rust does not have: the plain reference stands beside the other side, and both are
//! held to the definition. For every two lists of few kinds that goes by what was put, apart from both sides.

use crate::callers;
use crate::compare::{begin, usable, Beside, Difference, Figures, Make, Pair};
use crate::demand::{self, Asked, Rows};
use crate::drafts;
use crate::fixed::{self, in_orders, layout, part, run_of, value, valued, Part};
use crate::past;
use crate::reference::Reference;
use crate::rng::Rng;
use crate::side::{Known, Rule, Side, Told};
use crate::tape::{self, Case, Chunk, Run, NARROW, WIDE};
use crate::widths;
use sparsey::harness::{kinds_of, set_of, words_needed, Counts, Families, Id, Ran, Sets, WIDTHS};
use std::collections::{BTreeMap, BTreeSet};

/// The limits are tried with stores for up to so many entities.
const MOST_ENTITIES: usize = 16;

/// Chains with rings of many sizes, and every command; then some of the cases past the Rust, and those at the limits.
pub fn parts() -> Vec<Part> {
    let own = own_parts(1).into_iter();
    let limits = fixed::limits(MOST_ENTITIES);
    own.chain(past::thinned(31, 11, 3)).chain(limits).collect()
}

/// Few of these parts, with few of their cases.
pub fn few() -> Vec<Part> {
    let names = ["walks through position 63", "callers", "rooms"];
    let others = past::few().into_iter().chain(fixed::limits(MOST_ENTITIES));
    let others = others.filter(|part| names.contains(&part.name));
    own_parts(5).into_iter().chain(others).collect()
}

/// The parts that there are for the newer rule alone, with one in so many of the chains.
fn own_parts(every: usize) -> Vec<Part> {
    vec![
        part("chains with rings of every size", chains().step_by(every)),
        part("every command, then rings of one kind and of two", kept()),
    ]
}

/// The sizes of chains of up to 16 kinds: rings of one kind, of two, of three, of more, and mixed.
const SIZES: [&[u8]; 9] = [
    &[2, 3, 4, 5, 6, 7, 8, 9, 10, 11, 12, 13, 14, 15, 16],
    &[2, 4, 6, 8, 10, 12, 14, 16],
    &[3, 5, 7, 9, 11, 13, 15],
    &[2, 5, 8, 11, 14],
    &[3, 7, 11, 16],
    &[2, 16],
    &[2, 3, 5, 6, 9, 10, 14, 15],
    &[3, 5, 6, 8, 9, 12, 13, 16],
    &[2, 4, 5, 7, 10, 11, 15, 16],
];

const KINDS: u8 = 16;

/// Each chain, the smallest first and in other orders.
fn chains() -> impl Iterator<Item = Case> {
    SIZES.into_iter().flat_map(|sizes| {
        let groups: Vec<Vec<u8>> = sizes.iter().map(|&size| (0..size).collect()).collect();
        let orders = [vec![groups.clone()], in_orders(&groups)].concat();
        orders.into_iter().enumerate().map(chain_case)
    })
}

/// Entities with the first kinds, of every number, and such that lack one, before the layout and behind it; then kinds go
/// and come, and entities too. The ranges of all groups are asked for after each run.
fn chain_case((seed, groups): (usize, Vec<Vec<u8>>)) -> Case {
    let rng = &mut Rng::new(seed as u64);
    let first = (1..=KINDS).map(|count| (0..count).collect::<Vec<u8>>());
    let lacking = (0..KINDS).map(|lacked| (0..KINDS).filter(|&kind| kind != lacked).collect());
    let mut lists: Vec<Vec<u8>> = first.chain(lacking).collect();
    rng.shuffle(&mut lists);
    let news = |lists: &[Vec<u8>], from: u32| {
        let news = lists.iter().zip(from..);
        run_of(
            news.flat_map(|(list, index)| valued(list, index, tape::new()))
                .collect(),
        )
    };
    let (before, behind) = lists.split_at(lists.len() / 2);
    let groups: Vec<&[u8]> = groups.iter().map(|group| &group[..]).collect();
    let mut runs = vec![
        run_of((0..KINDS).map(tape::reg).collect()),
        news(before, 0),
        run_of(layout(&groups)),
        news(behind, before.len() as u32),
    ];
    for kind in 0..KINDS {
        let (index, other) = (rng.below(lists.len()) as u32, rng.below(KINDS.into()) as u8);
        runs.push(run_of(tape::with(&[kind], tape::drop((index, 1)))));
        runs.push(run_of(valued(&[other], index, tape::put((index, 1)))));
    }
    runs.push(run_of((0..8).map(|index| tape::kill((3 * index, 1))).collect()));
    runs.push(news(&lists[..8], 0));
    Case {
        n: lists.len(),
        k: KINDS.into(),
        value_bytes: tape::NARROW,
        preset: None,
        runs,
    }
}

/// A layout with rings of one kind and of two, and entities.
fn in_use() -> [Vec<Chunk>; 3] {
    let lists: [&[u8]; 4] = [&[0, 1], &[0, 1, 2], &[0, 1, 2, 3, 4], &[0, 1, 3]];
    let news = lists.into_iter().zip(0..);
    [
        (0..5).map(tape::reg).collect(),
        layout(&[&[0, 1], &[0, 1, 2], &[0, 1, 2, 3, 4]]),
        news.flat_map(|(list, index)| valued(list, index, tape::new()))
            .collect(),
    ]
}

/// Every command, accepted and refused, runs of none and such that stop: they keep the rule, which the rings tell behind
/// each, and again with the layout anew, since APPLY is among them.
fn kept() -> impl Iterator<Item = Case> {
    callers::keeping().into_iter().map(|kept| {
        let [_, layout, _] = in_use();
        let again = run_of([vec![tape::empty()], layout].concat());
        Case {
            n: 6,
            k: 5,
            value_bytes: tape::NARROW,
            preset: None,
            runs: in_use().map(run_of).into_iter().chain([kept, again]).collect(),
        }
    })
}

/// What a start may be told: nothing, or either width with either rule.
fn all_told() -> [Option<Told>; 5] {
    let [a, b] = [Rule::Newer, Rule::Older].map(|rule| WIDTHS.map(|value_bytes| Some(Told { value_bytes, rule })));
    [None, a[0], a[1], b[0], b[1]]
}

/// The start that is told width and rule, at every limit, over stores of other ones; every start over every other; and
/// widths that are none.
pub fn starts(make: Make) -> Result<Figures, String> {
    let mut pair = Pair::new(Beside::NEWER, make);
    fixed::start_sizes(&mut pair, &all_told()[1..])?;
    let mut figures = pair.finish();
    let told = all_told();
    for (first, second) in told.into_iter().flat_map(|first| told.map(|second| (first, second))) {
        let mut pair = Pair::new(Beside::NEWER, make);
        start_over(&mut pair, first, second).map_err(|what| format!("told {first:?}, then {second:?}: {what}"))?;
        figures.add(&pair.finish());
    }
    let mut pair = Pair::new(Beside::NEWER, make);
    widths::start_widths(&mut pair, Rule::Newer)?;
    figures.add(&pair.finish());
    Ok(figures)
}

/// A store in use, on which a refused start leaves everything, and an accepted one makes an empty store of its own width and
/// rule.
fn start_over(pair: &mut Pair, first: Option<Told>, second: Option<Told>) -> Result<(), String> {
    let (n, k) = (4, 5);
    let needed = |told: Option<Told>| words_needed(n, k, told.unwrap_or_default().value_bytes);
    pair.start_number(first, needed(first), n, k)?;
    used(pair)?;
    let words = needed(second);
    for (words, n, k) in [(words - 1, n, k), (1023, n, k), (words, 0, k), (words, n, 129)] {
        pair.start_number(second, words, n, k)?;
        pair.state()?;
        pair.ranges()?;
    }
    pair.start_number(second, words, n, k)?;
    pair.state()?;
    used(pair)?;
    pair.ranges()
}

/// Uses both stores: rings are asked for, and there are a draft, another caller, and something staged and excluded.
fn used(pair: &mut Pair) -> Result<(), String> {
    let ask = |bars: &[u8], staged: &[u8]| {
        let bars = bars.iter().map(|&kind| tape::bar(kind));
        bars.chain(tape::with(staged, tape::range())).collect::<Vec<Chunk>>()
    };
    let more = [
        ask(&[2], &[1, 0]),
        ask(&[4, 3], &[0, 1, 2]),
        [tape::with(&[3, 4], tape::group()), vec![tape::set_caller(5)]].concat(),
        vec![tape::hold(3, 9), tape::bar(4), tape::bar(200)],
    ];
    let mut runs = in_use().into_iter().chain(more).map(run_of);
    runs.try_for_each(|run| pair.step(&run.at(pair.value_bytes()), true).map(|_| ()))
}

/// What was put: the components of every live entity, by the list that the commands are made from, with eight bytes each.
#[derive(Default)]
pub struct Put(BTreeMap<Id, BTreeMap<u8, u64>>);

impl Put {
    /// HOLD of these kinds, with values of their own, and the command that gives them to the entity.
    fn give(&mut self, id: Id, kinds: &[u8], mark: u32, command: Chunk) -> Vec<Chunk> {
        let held = self.0.entry(id).or_default();
        held.extend(kinds.iter().map(|&kind| (kind, value(kind, mark))));
        valued(kinds, mark, command)
    }

    fn drop(&mut self, id: Id, kinds: &[u8]) -> Vec<Chunk> {
        let held = self.0.entry(id).or_default();
        held.retain(|kind, _| !kinds.contains(kind));
        tape::with(kinds, tape::drop(id))
    }

    /// The entity goes, and its index comes again with other kinds. No other number waits.
    fn replace(&mut self, id: Id, kinds: &[u8], mark: u32) -> Vec<Chunk> {
        self.0.remove(&id);
        let next = (id.0, id.1 + 1);
        [vec![tape::kill(id)], self.give(next, kinds, mark, tape::new())].concat()
    }

    /// The entities that a range shows: all of the kinds, and of the excluded ones not all, or under the newer rule none.
    fn shown(&self, rule: Rule, asked: &Asked) -> BTreeSet<Id> {
        let shown = |held: &BTreeMap<u8, u64>| {
            let held = set_of(&held.keys().copied().collect::<Vec<u8>>());
            let lacks = match (asked.excluded, rule) {
                (0, _) => true,
                (excluded, Rule::Older) => held & excluded != excluded,
                (excluded, Rule::Newer) => held & excluded == 0,
            };
            lacks && held & asked.kinds == asked.kinds
        };
        let ids = self.0.iter().filter(|(_, held)| shown(held));
        ids.map(|(&id, _)| id).collect()
    }

    /// Whether there are rows where there must be, and in every column of the kinds they have exactly the entities that are
    /// shown, once each, at the same places, with the values that they were given.
    fn agrees(&self, side: &mut (impl Side + ?Sized), told: Told, asked: &Asked, rows: Rows) -> bool {
        let Some((start, end)) = rows.filter(|_| asked.finds) else {
            return rows.is_none() && !asked.finds;
        };
        let kinds = kinds_of(asked.kinds);
        let first = ids(&side.column(kinds[0], false, start, end));
        let shown = self.shown(told.rule, asked);
        let is_once = first.len() == shown.len();
        let mut has_rows = |&kind: &u8| {
            ids(&side.column(kind, false, start, end)) == first
                && side.column(kind, true, start, end) == self.values(kind, &first, told.value_bytes)
        };
        is_once && first.iter().copied().collect::<BTreeSet<Id>>() == shown && kinds.iter().all(&mut has_rows)
    }

    /// The words of the values that the entities were given of a kind, at this width.
    fn values(&self, kind: u8, ids: &[Id], value_bytes: usize) -> Vec<u32> {
        let given = ids.iter().filter_map(|id| self.0.get(id)?.get(&kind));
        let words = |&lower: &u64| {
            let value = tape::wide_value(lower, tape::upper(kind, lower));
            (0..value_bytes / 4).map(move |word| (value >> (32 * word)) as u32)
        };
        given.flat_map(words).collect()
    }
}

/// The entities in the words of a column.
fn ids(words: &[u32]) -> Vec<Id> {
    words.chunks_exact(2).map(|words| (words[0], words[1])).collect()
}

/// A layout and entities with every set of the first kinds under it.
pub struct Filled {
    width: u8,
    groups: Vec<u128>,
    pub case: Case,
    put: Put,
}

/// Marks the values of a later command.
const LATER: u32 = 1_000;

impl Filled {
    /// Every set of kinds once before the layout, shuffled; these change behind it, and each set comes once more. The store
    /// has this width of values.
    pub fn new(width: u8, groups: &[Vec<u8>], value_bytes: usize, seed: u64) -> Self {
        let rng = &mut Rng::new(seed);
        let sets = 1 << width;
        let mut put = Put::default();
        let before = every_set(&mut put, rng, width, 0);
        let changes = (0..sets)
            .flat_map(|index| change(&mut put, rng, width, index))
            .collect();
        let behind = every_set(&mut put, rng, width, sets);
        let lists: Vec<&[u8]> = groups.iter().map(|group| &group[..]).collect();
        let kinds = (0..width).map(tape::reg).collect();
        let runs = [kinds, before, layout(&lists), changes, behind];
        Self {
            width,
            groups: groups.iter().map(|group| set_of(group)).collect(),
            case: Case {
                n: 2 * sets as usize,
                k: width.into(),
                value_bytes,
                preset: None,
                runs: runs.map(|chunks| run_of(chunks).at(value_bytes)).to_vec(),
            },
            put,
        }
    }

    /// How many lists there are, each to be staged and excluded.
    pub fn lists(&self) -> u128 {
        1 << self.width
    }

    /// RANGE with every list staged, and each with another excluded. Behind a ring comes one of its kinds alone, which is
    /// found if nothing is left staged or excluded.
    fn asked(&self, rule: Rule, shift: u128) -> Vec<Asked> {
        let asked =
            |rule: Rule, staged: u128, excluded: u128| Asked::by_definition(&self.groups, rule, staged, excluded);
        let pair = |staged: u128| {
            let excluded = (staged + shift) % self.lists();
            let is_ring = excluded != 0 && asked(Rule::Older, staged, excluded).finds;
            let alone = is_ring.then(|| asked(rule, excluded & excluded.wrapping_neg(), 0));
            [asked(rule, staged, excluded)].into_iter().chain(alone)
        };
        (0..self.lists()).flat_map(pair).collect()
    }

    /// Both sides filled, and what they answer then to every two lists.
    fn compare(&self, beside: Beside, make: Make, figures: &mut Figures) -> Result<Answers, Difference> {
        let part = |what: String| self.difference(vec![], what);
        let mut pair = Pair::start(&self.case, beside, make).map_err(part)?;
        for run in &self.case.runs {
            pair.step(run, true).map_err(part)?;
        }
        let mut all = Answers::new();
        for shift in 0..self.lists() {
            let answers = self.ask(&mut pair, shift);
            all.extend(answers.map_err(|what| self.difference(self.asked(beside.rule(), shift), what))?);
        }
        pair.state().map_err(part)?;
        figures.add(&pair.finish());
        Ok(all)
    }

    /// Where the sides part, behind what was asked last.
    fn difference(&self, asked: Vec<Asked>, what: String) -> Difference {
        let mut case = self.case.clone();
        let run = (!asked.is_empty()).then(|| demand::run(&asked).at(case.value_bytes));
        case.runs.extend(run);
        Difference { case, what }
    }

    /// What both sides of a filled pair answer, held to the definition and to what was put.
    pub fn ask(&self, pair: &mut Pair, shift: u128) -> Result<Answers, String> {
        let asked = self.asked(pair.rule(), shift);
        let (_, answers) = pair.answered(&demand::run(&asked).at(pair.value_bytes()))?;
        let found = demand::found(&asked, &answers);
        self.hold(pair, &asked, &found)?;
        pair.figures.ranges += asked.len() as u64;
        let lists = asked.iter().map(|asked| (asked.kinds, asked.excluded));
        Ok(lists.zip(found).collect())
    }

    fn hold(&self, pair: &mut Pair, asked: &[Asked], found: &[Rows]) -> Result<(), String> {
        let told = Told {
            value_bytes: pair.value_bytes(),
            rule: pair.rule(),
        };
        for (asked, &rows) in asked.iter().zip(found) {
            let known = self.put.agrees(&mut *pair.known, told, asked, rows);
            if !known || !self.put.agrees(&mut *pair.other, told, asked, rows) {
                return Err(format!("{told:?}, {asked:?} finds {rows:?}: not what was put"));
            }
        }
        Ok(())
    }
}

/// The rows for each list staged and each excluded.
type Answers = BTreeMap<(u128, u128), Rows>;

/// NEW with every set of kinds, in any order, from this index on.
fn every_set(put: &mut Put, rng: &mut Rng, width: u8, from: u32) -> Vec<Chunk> {
    let mut sets: Vec<u128> = (0..1 << width).collect();
    rng.shuffle(&mut sets);
    let news = sets.into_iter().zip(from..);
    news.flat_map(|(set, index)| put.give((index, 1), &kinds_of(set), index, tape::new()))
        .collect()
}

/// One entity in two is changed: kinds come, kinds go, or the entity goes and another comes.
fn change(put: &mut Put, rng: &mut Rng, width: u8, index: u32) -> Vec<Chunk> {
    let (id, mark) = ((index, 1), index + LATER);
    let mut kinds: Vec<u8> = (0..width).collect();
    rng.shuffle(&mut kinds);
    kinds.truncate(rng.between(1, width.into()));
    match rng.below(6) {
        0 => put.give(id, &kinds, mark, tape::put(id)),
        1 => put.drop(id, &kinds),
        2 => put.replace(id, &kinds, mark),
        _ => vec![],
    }
}

/// What RANGE answered to every two lists, on stores of both rules.
#[derive(Default)]
pub struct Enumerated {
    pub layouts: u64,
    pub pairs: u64,
    /// Pairs of lists with which something is found, by the older rule and by the newer.
    pub found: [u64; 2],
    /// Pairs of lists that the rules answer differently.
    pub differ: u64,
    /// What was compared on stores of the older rule, and of the newer.
    pub older: Figures,
    pub newer: Figures,
}

impl Enumerated {
    pub fn text(&self) -> String {
        let [older, newer] = self.found;
        format!(
            "RANGE with every two lists under {} layouts, {} pairs of lists: {older} found by the older rule, {newer} by \
             the newer; {} answered differently, each with two or more kinds excluded; {} commands on stores of the older \
             rule, beside the Rust, {} on those of the newer",
            self.layouts, self.pairs, self.differ, self.older.commands, self.newer.commands
        )
    }

    /// Counts the answers by the older rule and by the newer. They differ only with several kinds excluded.
    fn count(&mut self, older: &Answers, newer: &Answers) -> Result<(), String> {
        assert!(older.keys().eq(newer.keys()));
        for ((&(staged, excluded), older), newer) in older.iter().zip(newer.values()) {
            self.pairs += 1;
            self.found[0] += u64::from(older.is_some());
            self.found[1] += u64::from(newer.is_some());
            self.differ += u64::from(older != newer);
            if older != newer && excluded.count_ones() < 2 {
                return Err(format!(
                    "{staged:b} without {excluded:b}: older {older:?}, newer {newer:?}"
                ));
            }
        }
        Ok(())
    }

    /// Every two lists under one layout: the older rule beside the Rust, the newer beside the reference.
    fn fill(&mut self, filled: &Filled, make: Make) -> Result<(), (Beside, Difference)> {
        let rust = Beside::Rust(Sets::Tuples);
        let older = filled.compare(rust, make, &mut self.older);
        let older = older.map_err(|difference| (rust, difference))?;
        let newer = filled.compare(Beside::NEWER, make, &mut self.newer);
        let newer = newer.map_err(|difference| (Beside::NEWER, difference))?;
        self.layouts += 1;
        self.count(&older, &newer)
            .map_err(|what| (Beside::NEWER, filled.difference(vec![], what)))
    }
}

/// RANGE with every two lists of so many kinds, under each of the layouts, in stores of this width of values. Where sides
/// part, also what they stand beside.
pub fn enumerate(
    width: u8,
    layouts: &[Vec<Vec<u8>>],
    value_bytes: usize,
    make: Make,
) -> Result<Enumerated, (Beside, Difference)> {
    let mut found = Enumerated::default();
    for (seed, groups) in layouts.iter().enumerate() {
        let filled = Filled::new(width, groups, value_bytes, seed as u64);
        found.fill(&filled, make)?;
    }
    Ok(found)
}

/// What is enumerated: so many kinds, the layouts, and the width of values. Of the layouts of five kinds one in eight comes
/// again at sixteen bytes; where little is wanted, none of them comes.
pub fn enumerated(is_quick: bool) -> Vec<(u8, Vec<Vec<Vec<u8>>>, usize)> {
    let mut all: Vec<(u8, Vec<Vec<Vec<u8>>>, usize)> = WIDTHS.map(|value_bytes| (4, six_layouts(), value_bytes)).into();
    if !is_quick {
        let five = all_layouts(5);
        let some = five.iter().step_by(8).cloned().collect();
        all.extend([(5, five, NARROW), (5, some, WIDE)]);
    }
    all
}

/// The six layouts of four kinds that the older rule is tried with.
pub fn six_layouts() -> Vec<Vec<Vec<u8>>> {
    let layout = |groups: &&[&[u8]]| groups.iter().map(|group| group.to_vec()).collect();
    fixed::LAYOUTS.iter().map(layout).collect()
}

/// Every layout of so many kinds, its groups in any order.
pub fn all_layouts(width: u32) -> Vec<Vec<Vec<u8>>> {
    let rng = &mut Rng::new(u64::from(width));
    let mut lists = |groups: Vec<u128>| {
        let mut lists: Vec<Vec<u8>> = groups.into_iter().map(kinds_of).collect();
        rng.shuffle(&mut lists);
        lists
    };
    drafts::layouts(width).into_iter().map(&mut lists).collect()
}

/// The case on two stores of the same side, one of each rule: every run stops alike and answers as many bytes, with the
/// same roll then; at the end live list, families, caller, counts and columns are the same too.
pub fn same_but_for_ranges(case: &Case, make: Make) -> Result<(), String> {
    let mut known = Reference::new();
    let (mut older, mut newer) = (make(), make());
    begin(&mut known, case, Some(Rule::Newer));
    begin(&mut *older, case, None);
    begin(&mut *newer, case, Some(Rule::Newer));
    for (i, run) in case.runs.iter().enumerate() {
        known.run(&run.tape(), &mut vec![0; room(run, case)]);
        let [one, other] = [&mut older, &mut newer].map(|side| ran(&mut **side, &known, run, case));
        if one != other {
            return Err(format!("run {}: older {one:?}, newer {other:?}", i + 1));
        }
    }
    let [one, other] = [&mut older, &mut newer].map(|side| state(&mut **side, &known));
    match one == other {
        true => Ok(()),
        false => Err(format!("at the end: older {one:?}, newer {other:?}")),
    }
}

/// As much room for a run of the case as can be used.
fn room(run: &Run, case: &Case) -> usize {
    run.room.min(usable(&run.tape(), case.value_bytes))
}

/// What a run does, and the roll then.
fn ran(side: &mut dyn Side, known: &Reference, run: &Run, case: &Case) -> (Ran, u32, Vec<u8>) {
    let ran = side.run(&run.tape(), &mut vec![0; room(run, case)]);
    let rows: usize = known.registered().iter().filter_map(|&kind| known.length(kind)).sum();
    let mut out = vec![0; 4 + 9 * side.live().len() + (1 + case.value_bytes) * rows];
    let (number, _) = side.roll(&mut out);
    (ran, number, out)
}

/// Live list, families, caller and counts, and the words of all columns.
type State = (Vec<Id>, [Families; 2], Counts, Vec<Vec<u32>>);

/// The state of a side, by the kinds and lengths of another.
fn state(side: &mut dyn Side, known: &Reference) -> State {
    let mut columns = vec![];
    for kind in known.registered() {
        let length = known.length(kind).unwrap_or(0);
        columns.extend([false, true].map(|values| side.column(kind, values, 0, length)));
    }
    (side.live(), side.families(), side.counts(), columns)
}
