//! Demand 3 by the definition alone: a group's range has the live entities with all its kinds, in the same rows of each of
//! its columns; what the next larger group holds stands in front. Under the newer rule the others have none of the kinds
//! that the larger has more, and where these are several there is no such range.

use crate::side::{Rule, Side};
use crate::tape::{self, Chunk, Run};
use sparsey::harness::{kinds_of, Families, Id};
use std::collections::{BTreeMap, BTreeSet};

/// RANGE of some kinds with others excluded, and whether it finds anything.
#[derive(Clone, Copy, Debug)]
pub struct Asked {
    pub kinds: u128,
    pub excluded: u128,
    pub finds: bool,
}

/// The rows that a RANGE answers, if it finds any.
pub type Rows = Option<(usize, usize)>;

/// Whether a rule finds a group's rows without those of the next larger group, whose ring is given.
fn is_found(rule: Rule, ring: u128) -> bool {
    rule == Rule::Older || ring.count_ones() == 1
}

impl Asked {
    /// What 01 and 02 say of any two lists: a kind alone or a group is found where nothing is excluded; a group where the
    /// ring of the next larger is, and the rule finds it.
    pub fn by_definition(groups: &[u128], rule: Rule, kinds: u128, excluded: u128) -> Self {
        let larger = groups.iter().filter(|&&group| group != kinds && group & kinds == kinds);
        let ring = larger.min_by_key(|group| group.count_ones()).map(|next| next & !kinds);
        let is_group = groups.contains(&kinds);
        let finds = match excluded {
            0 => is_group || kinds.count_ones() == 1,
            excluded => is_group && ring == Some(excluded) && is_found(rule, excluded),
        };
        Self { kinds, excluded, finds }
    }
}

/// Every group, and every one with the next larger group's new kinds excluded.
pub fn rings(layout: &Families, rule: Rule) -> Vec<Asked> {
    let mut asked = vec![];
    for family in layout {
        for (at, &kinds) in family.iter().enumerate() {
            let whole = Asked {
                kinds,
                excluded: 0,
                finds: true,
            };
            let ring = family.get(at + 1).map(|next| next & !kinds);
            let without = ring.map(|excluded| Asked {
                kinds,
                excluded,
                finds: is_found(rule, excluded),
            });
            asked.extend([whole].into_iter().chain(without));
        }
    }
    asked
}

/// Every kind alone.
pub fn kinds(registered: &[u8]) -> Vec<Asked> {
    let one = |&kind: &u8| Asked {
        kinds: 1 << kind,
        excluded: 0,
        finds: true,
    };
    registered.iter().map(one).collect()
}

/// Every group with a part of the next larger one's new kinds excluded, with one kind more than these, and the largest of
/// each family with any.
pub fn none(layout: &Families, registered: &[u8]) -> Vec<Asked> {
    let all = registered.iter().fold(0, |all, kind| all | 1u128 << kind);
    let lowest = |kinds: u128| kinds & kinds.wrapping_neg();
    let mut asked = vec![];
    for family in layout {
        for (at, &kinds) in family.iter().enumerate() {
            let ring = family.get(at + 1).map_or(0, |next| next & !kinds);
            let part = ring & !lowest(ring);
            let more = ring | lowest(all & !kinds & !ring);
            let excluded = [part, more]
                .into_iter()
                .filter(|&excluded| ![0, ring].contains(&excluded));
            asked.extend(excluded.map(|excluded| Asked {
                kinds,
                excluded,
                finds: false,
            }));
        }
    }
    asked
}

/// A run that asks for them, with nothing staged or excluded before, made for eight bytes a value.
pub fn run(asked: &[Asked]) -> Run {
    let mut chunks: Vec<Chunk> = vec![tape::tally(), tape::empty()];
    for asked in asked {
        chunks.extend(kinds_of(asked.excluded).into_iter().map(tape::bar));
        chunks.extend(tape::with(&kinds_of(asked.kinds), tape::range()));
    }
    Run::new(chunks)
}

/// The rows by the answers of that run. Only nine zeros behind the number are none.
pub fn found(asked: &[Asked], answers: &[u8]) -> Vec<Rows> {
    let number = |at: usize| u32::from_le_bytes(answers[at..at + 4].try_into().unwrap()) as usize;
    // TALLY answers by five bytes, EMPTY, BAR and HOLD by one, RANGE by ten.
    let mut at = 6;
    let rows = |asked: &Asked| {
        at += (asked.excluded.count_ones() + asked.kinds.count_ones()) as usize + 10;
        (answers[at - 9..at] != [0; 9]).then(|| (number(at - 8), number(at - 4)))
    };
    asked.iter().map(rows).collect()
}

/// Holds what was found under a rule to the columns of a side, whose kinds and lengths are given.
pub fn hold(
    side: &mut (impl Side + ?Sized),
    rule: Rule,
    lengths: &[(u8, usize)],
    asked: &[Asked],
    found: &[Rows],
) -> Result<(), String> {
    let columns = Columns::of(side, lengths)?;
    for (asked, rows) in asked.iter().zip(found) {
        if !columns.agree(rule, asked, *rows) {
            let Asked { kinds, excluded, .. } = *asked;
            let (kinds, excluded) = (kinds_of(kinds), kinds_of(excluded));
            return Err(format!(
                "RANGE of {kinds:?} without {excluded:?} finds {rows:?}, the columns of the {} say otherwise",
                side.name()
            ));
        }
    }
    Ok(())
}

/// The entities of every column, in row order, and the kinds of every entity.
struct Columns {
    rows: BTreeMap<u8, Vec<Id>>,
    held: BTreeMap<Id, u128>,
}

impl Columns {
    fn of(side: &mut (impl Side + ?Sized), lengths: &[(u8, usize)]) -> Result<Self, String> {
        let live: BTreeSet<Id> = side.live().into_iter().collect();
        let mut columns = Self {
            rows: BTreeMap::new(),
            held: BTreeMap::new(),
        };
        for &(kind, length) in lengths {
            let words = side.column(kind, false, 0, length);
            let ids: Vec<Id> = words.chunks_exact(2).map(|words| (words[0], words[1])).collect();
            for &id in &ids {
                let held = columns.held.entry(id).or_default();
                if !live.contains(&id) || *held >> kind & 1 == 1 {
                    return Err(format!("the column of kind {kind} has {id:?} twice, or it is not live"));
                }
                *held |= 1 << kind;
            }
            columns.rows.insert(kind, ids);
        }
        Ok(columns)
    }

    /// How many entities have all the kinds.
    fn count(&self, kinds: u128) -> usize {
        self.held.values().filter(|&held| held & kinds == kinds).count()
    }

    fn agree(&self, rule: Rule, asked: &Asked, rows: Rows) -> bool {
        let Some((start, end)) = rows.filter(|_| asked.finds) else {
            return rows.is_none() && !asked.finds;
        };
        let larger = asked.kinds | asked.excluded;
        let before = if asked.excluded == 0 { 0 } else { self.count(larger) };
        (start, end) == (before, self.count(asked.kinds))
            && self.begin(asked.kinds, asked.kinds, end)
            && self.begin(asked.kinds, larger, start)
            && (rule == Rule::Older || self.lack(asked, start, end))
    }

    /// Whether the entities of these rows have none of the excluded kinds.
    fn lack(&self, asked: &Asked, start: usize, end: usize) -> bool {
        let kinds = kinds_of(asked.kinds);
        let rows = &self.rows[&kinds[0]][start..end];
        rows.iter().all(|id| self.held[id] & asked.excluded == 0)
    }

    /// Whether the columns of the kinds begin with the same so many entities, each with all of the larger kinds.
    fn begin(&self, kinds: u128, larger: u128, count: usize) -> bool {
        let kinds = kinds_of(kinds);
        let Some(first) = self.rows[&kinds[0]].get(..count) else {
            return false;
        };
        kinds.iter().all(|kind| self.rows[kind].starts_with(first))
            && first.iter().all(|id| self.held[id] & larger == larger)
    }
}
