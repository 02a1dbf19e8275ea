//! GROUP beside `add_group_dyn`: every draft of up to three groups over six kinds, in every order, with every further
//! group. And by the definition alone: every list of four groups over five kinds.

use crate::reference::Reference;
use crate::side::Side;
use crate::tape::{self, Case, Run, NARROW};
use sparsey::component::GroupLayout;
use sparsey::harness::{add_group, arranged, families, families_of, set_of, words_needed, Families, Oracle, Sets};
use std::collections::{BTreeMap, BTreeSet};
use std::fmt::Write;
use std::panic::{catch_unwind, AssertUnwindSafe};

/// A group as a set of the kinds 0 to 5.
type Group = u8;

fn kinds(group: Group) -> Vec<u8> {
    (0..8).filter(|kind| group >> kind & 1 == 1).collect()
}

/// The families that groups form: groups that share kinds, themselves or through others, are of one family, and each
/// family is a chain. `None` where one is not.
pub fn formed(groups: &[u128]) -> Option<Families> {
    let mut families: Families = vec![];
    for &group in groups {
        let shares = |family: &Vec<u128>| family.iter().any(|&old| old & group != 0);
        let (sharing, mut others): (Families, Families) = families.into_iter().partition(shares);
        let mut family = sharing.concat();
        family.retain(|&old| old != group);
        family.push(group);
        others.push(family);
        families = others;
    }
    let nested = |a: u128, b: u128| a & b == a || a & b == b;
    let is_chain = |family: &Vec<u128>| family.iter().all(|&a| family.iter().all(|&b| nested(a, b)));
    families.iter().all(is_chain).then(|| arranged(families))
}

/// Every layout of the first `width` kinds, each as the set of its groups. What is left of a layout's groups forms one too.
pub fn layouts(width: u32) -> Vec<Vec<u128>> {
    let groups: Vec<u128> = (0..1u128 << width).filter(|group| group.count_ones() > 1).collect();
    let mut layouts: Vec<Vec<u128>> = vec![vec![]];
    let mut at = 0;
    while at < layouts.len() {
        let layout = layouts[at].clone();
        at += 1;
        let further = groups
            .iter()
            .filter(|&group| layout.last().is_none_or(|last| group > last));
        let larger = further.map(|&group| [&layout[..], &[group]].concat());
        layouts.extend(larger.filter(|groups| formed(groups).is_some()));
    }
    layouts
}

/// What GROUP does.
#[derive(Clone, Copy, PartialEq, Eq, PartialOrd, Ord, Debug)]
pub enum Ours {
    /// Added, as a family of its own, or above, between or below the others of one.
    Apart,
    Above,
    Between,
    Below,
    Nothing,
    Clash,
}

/// What the Rust does with the further group, given the groups in the same order.
#[derive(Clone, Copy, PartialEq, Eq, PartialOrd, Ord, Debug)]
pub enum Theirs {
    /// The families are ours, with one group more.
    Added,
    /// The layout is as before.
    Nothing,
    /// It returns, and the families are others.
    Wrong,
    /// It panics, the layout is as before.
    Panic,
    /// It panics at a family that the group does not fit, and one before it is altered.
    PanicAltered,
    /// It panics because two families took the group, both altered.
    PanicTwice,
    /// It panicked at a group of the draft already.
    Earlier,
}

/// What the Rust does given all of them, the smallest first.
#[derive(Clone, Copy, PartialEq, Eq, PartialOrd, Ord, Debug)]
pub enum Sorted {
    /// The families are those of our draft.
    Same,
    /// It returns, and they are others.
    Other,
    Panic,
}

/// What becomes of a group: ours, the Rust's in the order given, the Rust's with the smallest first.
type Class = (Ours, Theirs, Sorted);

/// All that was found.
#[derive(Default)]
pub struct Drafts {
    pub drafts: usize,
    pub groups: usize,
    /// For each class: how often, and the smallest draft and group.
    pub classes: BTreeMap<Class, (usize, Vec<Group>, Group)>,
    /// Groups on which the reference and the rule in the harness differ.
    pub disputed: usize,
}

/// The reference's answer, GROUP after GROUP, and its draft then.
fn ours(draft: &[Group], new: Group) -> (Ours, Families) {
    answer(&mut Reference::new(), draft, new)
}

fn answer(side: &mut dyn Side, draft: &[Group], new: Group) -> (Ours, Families) {
    side.start(words_needed(1, 8, NARROW), 1, 8);
    let mut out = [0; 128];
    let mut chunks: Vec<tape::Chunk> = (0..6).map(tape::reg).collect();
    for &group in draft {
        chunks.extend(tape::with(&kinds(group), tape::group()));
    }
    side.run(&chunks.concat(), &mut out);
    chunks = tape::with(&kinds(new), tape::group());
    let ran = side.run(&chunks.concat(), &mut out);
    let at = kinds(new).len();
    let draft = arranged(side.families()[0].clone());
    let answer = match out[at..ran.written] {
        [0, 1] => place(&draft, set_of(&kinds(new))),
        [0, 0] => Ours::Nothing,
        [14] => Ours::Clash,
        ref other => panic!("GROUP answers {other:?}"),
    };
    (answer, draft)
}

/// Where in its family a group went.
fn place(families: &Families, new: u128) -> Ours {
    let family = families.iter().find(|family| family.contains(&new));
    let family = family.expect("GROUP answers 1 and adds nothing");
    let at = family.iter().position(|&group| group == new).unwrap();
    match (at, family.len() - 1) {
        (0, 0) => Ours::Apart,
        (0, _) => Ours::Below,
        (at, last) if at == last => Ours::Above,
        _ => Ours::Between,
    }
}

/// The families of a layout as sets, in the Rust's order.
fn shape(layout: &GroupLayout) -> Vec<Vec<BTreeSet<u8>>> {
    families(layout)
        .iter()
        .map(|family| family.iter().map(|group| group.iter().copied().collect()).collect())
        .collect()
}

/// The Rust's layout of these groups, added in this order. `None` where it panics.
fn layout_of(groups: &[Group]) -> Option<GroupLayout> {
    let mut layout = GroupLayout::default();
    let add_all = || groups.iter().for_each(|&group| add_group(&mut layout, &kinds(group)));
    catch_unwind(AssertUnwindSafe(add_all)).is_ok().then_some(layout)
}

/// The further group on the Rust's layout of the draft.
fn in_order(layout: &Option<GroupLayout>, new: Group, ours: &Families) -> Theirs {
    let Some(layout) = layout else {
        return Theirs::Earlier;
    };
    let mut after = layout.clone();
    let outcome = catch_unwind(AssertUnwindSafe(|| add_group(&mut after, &kinds(new))));
    let twice = outcome.as_ref().is_err_and(|panic| {
        panic
            .downcast_ref::<String>()
            .is_some_and(|text| text.contains("may not have any component types in common"))
    });
    let same = shape(layout) == shape(&after);
    match (outcome.is_ok(), same) {
        (false, true) => Theirs::Panic,
        (false, false) if twice => Theirs::PanicTwice,
        (false, false) => Theirs::PanicAltered,
        (true, true) => Theirs::Nothing,
        (true, false) if arranged(families_of(&after)) == *ours => Theirs::Added,
        (true, false) => Theirs::Wrong,
    }
}

/// The draft and the further group, the smallest first.
fn sorted(draft: &[Group], new: Group, ours: &Families) -> Sorted {
    let mut groups = [draft, &[new]].concat();
    groups.sort_by_key(|group| group.count_ones());
    match layout_of(&groups) {
        None => Sorted::Panic,
        Some(layout) if arranged(families_of(&layout)) == *ours => Sorted::Same,
        Some(_) => Sorted::Other,
    }
}

/// Groups in the draft, then kinds in all.
fn size(draft: &[Group], new: Group) -> (usize, u32) {
    (
        draft.len(),
        draft.iter().map(|group| group.count_ones()).sum::<u32>() + new.count_ones(),
    )
}

/// Every draft of up to `most` groups over `width` kinds, in every order.
pub fn accepted(width: u32, most: usize) -> Vec<Vec<Group>> {
    let mut drafts: Vec<Vec<Group>> = vec![vec![]];
    let mut at = 0;
    while at < drafts.len() {
        let draft = drafts[at].clone();
        at += 1;
        if draft.len() < most {
            let further = (0..1u8 << width).filter(|&new| ours(&draft, new).0 < Ours::Nothing);
            drafts.extend(further.map(|new| [draft.clone(), vec![new]].concat()));
        }
    }
    drafts
}

/// Each of these drafts with every further group, as cases. Each ends with APPLY, which begins the draft anew.
pub fn cases(width: u32, most: usize) -> impl Iterator<Item = Case> {
    accepted(width, most).into_iter().map(move |draft| {
        let mut runs = vec![Run::new((0..width as u8).map(tape::reg).collect())];
        for new in 0..1u8 << width {
            let mut chunks = vec![];
            for &group in &draft {
                chunks.extend(tape::with(&kinds(group), tape::group()));
            }
            chunks.extend(tape::with(&kinds(new), tape::group()));
            runs.push(Run::new(chunks));
            runs.push(Run::new(vec![tape::empty(), tape::apply()]));
        }
        Case {
            n: 1,
            k: width as usize,
            value_bytes: NARROW,
            preset: None,
            runs,
        }
    })
}

/// Goes through all drafts of up to `most` groups over `width` kinds, with every further group.
pub fn enumerate(width: u32, most: usize) -> Drafts {
    let mut found = Drafts::default();
    for draft in accepted(width, most) {
        let layout = layout_of(&draft);
        for new in 0..1 << width {
            let (answered, families) = ours(&draft, new);
            let class = (
                answered,
                in_order(&layout, new, &families),
                sorted(&draft, new, &families),
            );
            let harness = answer(&mut Oracle::new(Sets::Staged), &draft, new);
            found.disputed += usize::from(harness != (answered, families));
            let entry = found.classes.entry(class).or_insert((0, draft.clone(), new));
            entry.0 += 1;
            if size(&draft, new) < size(&entry.1, entry.2) {
                (entry.1, entry.2) = (draft.clone(), new);
            }
            found.groups += 1;
        }
        found.drafts += 1;
    }
    found
}

impl Drafts {
    /// Groups with which the Rust, given the smallest first, does not do as we do: add, or refuse by panic.
    pub fn differ(&self) -> usize {
        let differs = |&(ours, _, sorted): &Class| match ours {
            Ours::Clash => sorted != Sorted::Panic,
            _ => sorted != Sorted::Same,
        };
        let classes = self.classes.iter().filter(|(class, _)| differs(class));
        classes.map(|(_, (count, _, _))| count).sum()
    }

    pub fn text(&self) -> String {
        let mut text = format!("{} drafts, {} further groups\n", self.drafts, self.groups);
        for ((ours, theirs, sorted), (count, draft, new)) in &self.classes {
            let draft: Vec<String> = draft.iter().map(|&group| format!("{:?}", kinds(group))).collect();
            let agree = match (ours, theirs) {
                (Ours::Clash, Theirs::Panic | Theirs::PanicAltered | Theirs::PanicTwice) => "agree, the Rust by panic",
                (_, Theirs::Earlier) => "the Rust has no such draft",
                (Ours::Nothing, Theirs::Nothing) => "agree",
                (ours, Theirs::Added) if *ours != Ours::Nothing => "agree",
                _ => "DIFFER",
            };
            writeln!(
                text,
                "  here {ours:?}, Rust in this order {theirs:?}, smallest first {sorted:?}: {count:>7} ({agree}), \
                 smallest: draft {}, group {:?}",
                draft.join(" "),
                kinds(*new)
            )
            .unwrap();
        }
        writeln!(text, "  smallest first, {} of {} differ", self.differ(), self.groups).unwrap();
        text
    }
}

/// What was found of all lists of so many groups.
#[derive(Default)]
pub struct Orders {
    pub lists: usize,
    /// GROUPs that added a group, and that were refused.
    pub added: usize,
    pub refused: usize,
    /// For each set of groups that forms a layout, the families of its first list.
    layouts: BTreeMap<BTreeSet<u128>, Families>,
    /// The lists of these sets.
    pub orders: usize,
    /// Lists that went otherwise than the definition says.
    pub wrong: usize,
}

impl Orders {
    /// How many sets of groups form a layout.
    pub fn layouts(&self) -> usize {
        self.layouts.len()
    }

    pub fn text(&self, name: &str) -> String {
        format!(
            "{name}: {} lists of groups, {} added, {} refused; {} sets form a layout, each the same families in all its \
             orders ({} lists); {} lists go otherwise than the definition says\n",
            self.lists,
            self.added,
            self.refused,
            self.layouts(),
            self.orders,
            self.wrong
        )
    }

    /// One list of groups: each is added exactly if those added before form a layout with it, or it is one of them;
    /// where all of the list form one, none is refused; and the families are those that the groups form.
    fn list(&mut self, list: &[Vec<u8>], side: &mut dyn Side) {
        let answers = answers(list, side);
        let mut groups: Vec<u128> = vec![];
        let mut right = answers.len() == list.len();
        for (kinds, answer) in list.iter().zip(&answers) {
            let new = set_of(kinds);
            let with = [&groups[..], &[new]].concat();
            let expected: &[u8] = match (groups.contains(&new), formed(&with)) {
                (true, _) => &[0, 0],
                (false, Some(_)) => &[0, 1],
                (false, None) => &[14],
            };
            right &= answer == expected;
            if expected == [0, 1] {
                groups = with;
            }
        }
        self.lists += 1;
        self.added += answers.iter().filter(|answer| answer[..] == [0, 1]).count();
        self.refused += answers.iter().filter(|answer| answer.len() == 1).count();

        let [draft, _] = side.families().map(arranged);
        side.run(&tape::apply(), &mut [0]);
        let [_, layout] = side.families().map(arranged);
        right &= Some(&draft) == formed(&groups).as_ref() && draft == layout;

        let all: Vec<u128> = list.iter().map(|kinds| set_of(kinds)).collect();
        if formed(&all).is_some() {
            right &= all.iter().all(|group| groups.contains(group));
            let first = self.layouts.entry(all.into_iter().collect()).or_insert(draft);
            right &= *first == layout;
            self.orders += 1;
        }
        self.wrong += usize::from(!right);
    }
}

/// What GROUP answers to each of the list, on an empty store.
fn answers(list: &[Vec<u8>], side: &mut dyn Side) -> Vec<Vec<u8>> {
    side.start(words_needed(1, 8, NARROW), 1, 8);
    side.run(&(0..8).flat_map(tape::reg).collect::<Vec<u8>>(), &mut [0; 16]);
    let mut answers = vec![];
    for kinds in list {
        let mut out = [0; 16];
        side.run(&tape::hold_all(kinds).concat(), &mut out);
        let ran = side.run(&tape::group(), &mut out);
        answers.push(out[..ran.written].to_vec());
        side.run(&tape::empty(), &mut out);
    }
    answers
}

/// Every list of `length` groups over `width` kinds. A group may come again, so that these are all drafts of up to so many
/// groups, in all orders.
pub fn orders(width: u32, length: u32, side: &mut dyn Side) -> Orders {
    let groups: Vec<Vec<u8>> = (0..1u8 << width).map(kinds).filter(|kinds| kinds.len() > 1).collect();
    let mut found = Orders::default();
    for mut number in 0..groups.len().pow(length) {
        let list: Vec<Vec<u8>> = (0..length)
            .map(|_| {
                let group = groups[number % groups.len()].clone();
                number /= groups.len();
                group
            })
            .collect();
        found.list(&list, side);
    }
    found
}

/// What the Rust does at the limits: 16 kinds, 64 groups, groups out of order, and relayouts.
pub fn limits() -> String {
    let arities = (15..=17u8).map(|arity| (format!("a group of {arity} kinds"), vec![(0..arity).collect()]));
    let counts = (62..=64u8).map(|count| {
        let pairs = (0..count).map(|i| vec![2 * i, 2 * i + 1]);
        (format!("{count} groups"), pairs.collect())
    });
    let mut text = String::new();
    for (name, groups) in arities.chain(counts) {
        let mut layout = GroupLayout::default();
        let groups: Vec<Vec<u8>> = groups;
        let add_all = || groups.iter().for_each(|group| add_group(&mut layout, group));
        let added = does(catch_unwind(AssertUnwindSafe(add_all)).is_ok());
        let applied = does(catch_unwind(AssertUnwindSafe(|| sparsey::World::new(&layout))).is_ok());
        writeln!(text, "  {name}: add_group_dyn {added}, set_layout {applied}").unwrap();
    }
    text + &out_of_order() + &stores_left()
}

/// One more group on a draft: below, between, with a foreign kind, the ring alone; with a foreign kind below.
fn out_of_order() -> String {
    let mut text = String::new();
    let nested: &[&[u8]] = &[&[0, 1], &[0, 1, 2, 3]];
    let wider: &[&[u8]] = &[&[0, 1, 2], &[0, 1, 2, 3]];
    for (draft, new) in [
        (wider, &[0u8, 1][..]),
        (nested, &[0, 1, 2]),
        (nested, &[0, 1, 4]),
        (nested, &[2, 3]),
        (wider, &[3, 4]),
    ] {
        let mut layout = GroupLayout::default();
        draft.iter().for_each(|group| add_group(&mut layout, group));
        let added = does(catch_unwind(AssertUnwindSafe(|| add_group(&mut layout, new))).is_ok());
        let families = shape(&layout);
        writeln!(
            text,
            "  draft {draft:?} with {new:?}: add_group_dyn {added}, then {families:?}"
        )
        .unwrap();
    }
    text
}

fn stores_left() -> String {
    let mut rust = Oracle::new(Sets::Staged);
    rust.start(words_needed(1, 8, NARROW), 1, 8, NARROW);
    let mut out = [0; 64];
    rust.run(&(0..5).flat_map(tape::reg).collect::<Vec<u8>>(), &mut out);
    let mut stores = vec![rust.component_stores()];
    for _ in 0..4 {
        rust.run(&tape::apply(), &mut out);
        stores.push(rust.component_stores());
    }
    format!("  5 kinds, component stores after 0 to 4 relayouts: {stores:?}\n")
}

fn does(returned: bool) -> &'static str {
    match returned {
        true => "returns",
        false => "panics",
    }
}
