//! Random cases: they lean to commands that are accepted, and change layouts while entities exist, remove, destroy
//! and reuse. Some are damaged, some get too little room, some start where versions or refusal counts run out. One in three
//! has several callers; the others never meet the command that sets one. At sixteen bytes a value the cases are the same,
//! with upper bytes drawn apart.

use crate::callers::counts_of_first;
use crate::compare::{begin, Beside, Difference, Figures, Make, Pair};
use crate::drafts;
use crate::past::{self, Scout};
use crate::rng::Rng;
use crate::side::{Known, Rule};
use crate::tape::{self, Case, Chunk, Run, ROOMY};
use sparsey::harness::{kinds_of, set_of, Id, Preset, CALLERS};

/// What a case is like.
struct Profile {
    /// Kinds that the case registers, or tries to.
    kinds: Vec<u8>,
    /// How often each of `STEPS` comes.
    weights: [usize; 13],
    /// One command in so many is out of place; 0 for none.
    noise: usize,
    /// One run in so many is damaged; 0 for none.
    damage: usize,
    /// One run in so many gets little room; 0 for none.
    tight: usize,
    runs: usize,
    steps: usize,
    /// Values of this many bits.
    bits: u32,
    /// The most kinds of a family.
    widest: usize,
    /// One family in so many is a layout's last.
    families: usize,
    /// Whether RANGE mostly excludes a ring.
    rings: bool,
    /// The callers that the case sets; none where it never sets one.
    callers: Vec<u8>,
}

/// The place of RANGE among the weights.
const RANGE: usize = 7;

// The steps, in the order of the weights: create, put, take, drop, kill, wipe, relayout, range, register, empty,
// tally, group without apply, tray.
const EVEN: [usize; 13] = [6, 8, 4, 4, 4, 1, 2, 4, 1, 1, 1, 1, 3];
const CHURN: [usize; 13] = [10, 4, 1, 1, 10, 0, 1, 1, 0, 0, 0, 0, 3];
const RELAYOUT: [usize; 13] = [6, 6, 2, 2, 2, 0, 8, 4, 1, 0, 0, 2, 2];
const REMOVE: [usize; 13] = [6, 10, 8, 8, 2, 1, 1, 2, 0, 0, 0, 0, 2];
const DRAFT: [usize; 13] = [2, 2, 0, 0, 1, 0, 3, 6, 3, 1, 1, 10, 1];
/// Trays of all sizes, and room made for them again.
const TRAYS: [usize; 13] = [3, 3, 1, 2, 14, 0, 2, 1, 0, 0, 1, 0, 10];

/// Profile, N and K. The callers are drawn apart, so that without them a case is the same.
fn profile(rng: &mut Rng, calls: &mut Rng, beside: Beside) -> (Profile, usize, usize) {
    let (mut profile, n, k) = match beside {
        Beside::Rust(_) => within_reach(rng),
        Beside::Reference(Rule::Older) => past_reach(rng),
        Beside::Reference(Rule::Newer) => with_rings(rng),
    };
    profile.callers = callers(calls);
    (profile, n, k)
}

/// A few callers, in one case of three.
fn callers(rng: &mut Rng) -> Vec<u8> {
    if !rng.once_in(3) {
        return vec![];
    }
    let mut callers: Vec<u8> = (0..CALLERS as u8).collect();
    rng.shuffle(&mut callers);
    callers.truncate(rng.between(2, 5));
    callers
}

/// Mostly like the cases beside the Rust, else like those past it, with more RANGEs, which mostly exclude a ring.
fn with_rings(rng: &mut Rng) -> (Profile, usize, usize) {
    let (mut profile, n, k) = match rng.once_in(8) {
        true => past_reach(rng),
        false => within_reach(rng),
    };
    profile.rings = true;
    profile.weights[RANGE] += 12;
    (profile, n, k)
}

/// Families of 16 kinds, and many groups.
fn past_reach(rng: &mut Rng) -> (Profile, usize, usize) {
    let is_wide = rng.once_in(2);
    let k = if is_wide {
        rng.between(16, 34)
    } else {
        rng.between(100, 128)
    };
    let mut kinds: Vec<u8> = (0..128).collect();
    rng.shuffle(&mut kinds);
    kinds.truncate(k);
    let profile = Profile {
        kinds,
        weights: *rng.pick(&[EVEN, CHURN, RELAYOUT, REMOVE, DRAFT, TRAYS]),
        noise: *rng.pick(&[0, 0, 40]),
        damage: *rng.pick(&[0, 0, 0, 12]),
        tight: *rng.pick(&[0, 0, 0, 6]),
        runs: rng.between(3, 8),
        steps: rng.between(4, 16),
        bits: *rng.pick(&[4, 64]),
        widest: 16,
        families: if is_wide { 6 } else { 200 },
        rings: false,
        callers: vec![],
    };
    (profile, rng.between(3, 12), k)
}

fn within_reach(rng: &mut Rng) -> (Profile, usize, usize) {
    let (n, k, runs, steps) = match rng.below(20) {
        0..=8 => (
            rng.between(1, 6),
            rng.between(2, 6),
            rng.between(2, 12),
            rng.between(1, 8),
        ),
        9..=16 => (
            rng.between(3, 24),
            rng.between(3, 10),
            rng.between(4, 20),
            rng.between(2, 16),
        ),
        17..=18 => (
            rng.between(8, 64),
            rng.between(8, 40),
            rng.between(4, 12),
            rng.between(8, 40),
        ),
        _ if rng.once_in(2) => (
            rng.between(2, 12),
            rng.between(32, 128),
            rng.between(3, 8),
            rng.between(8, 40),
        ),
        _ => (
            rng.between(64, 400),
            rng.between(2, 12),
            rng.between(3, 6),
            rng.between(60, 200),
        ),
    };
    // Low kinds reach the tuples; scattered ones the rest.
    let mut kinds: Vec<u8> = match rng.below(3) {
        0 => (0..128).collect(),
        _ => (0..(k as u8 + 2).min(128)).collect(),
    };
    if kinds.len() == 128 || rng.once_in(3) {
        rng.shuffle(&mut kinds);
    }
    kinds.truncate(k + rng.below(3));

    let profile = Profile {
        kinds,
        weights: *rng.pick(&[EVEN, EVEN, CHURN, RELAYOUT, REMOVE, DRAFT, TRAYS]),
        noise: *rng.pick(&[0, 0, 40, 12, 5]),
        damage: *rng.pick(&[0, 0, 12, 4]),
        tight: *rng.pick(&[0, 0, 0, 6, 2]),
        runs,
        steps,
        bits: *rng.pick(&[0, 4, 40, 64]),
        widest: 15,
        families: 4,
        rings: false,
        callers: vec![],
    };
    (profile, n, k)
}

/// A refusal count that is small, near the last number, or there.
fn preset_count(rng: &mut Rng) -> u32 {
    *rng.pick(&[0, 7, u32::MAX - 2, u32::MAX - 1, u32::MAX])
}

/// Sets the count of one more caller in a preset; every other time that is the caller, if the case has callers.
fn preset_caller(preset: &mut Preset, calls: &mut Rng, callers: &[u8]) {
    let other = match callers {
        [] => calls.between(1, CALLERS - 1) as u8,
        callers => *calls.pick(callers),
    };
    preset.refusals[usize::from(other)] = preset_count(calls);
    if !callers.is_empty() && calls.once_in(2) {
        preset.caller = other;
    }
}

/// A store whose numbers are close to their last versions, or whose first caller's refusal count is full.
fn preset(rng: &mut Rng, n: usize) -> Preset {
    let issued = rng.between(0, n);
    let mut preset = Preset {
        issued,
        refusals: counts_of_first(preset_count(rng)),
        ..Preset::default()
    };
    for index in 0..issued as u32 {
        let version = match rng.below(4) {
            0 => rng.between(2, 9) as u32,
            _ => u32::MAX - rng.below(3) as u32,
        };
        match rng.below(5) {
            0 => {}
            1 | 2 => preset.recycled.push((index, version)),
            _ => preset.live.push((index, version)),
        }
    }
    rng.shuffle(&mut preset.live);
    rng.shuffle(&mut preset.recycled);
    preset
}

/// Makes steps for a store that is in the state of the known side's.
struct Steps<'a> {
    rng: &'a mut Rng,
    profile: &'a Profile,
    live: Vec<Id>,
    /// How many entities can likely still be created.
    free: usize,
    registered: Vec<u8>,
    groups: Vec<Vec<u8>>,
    /// The groups that the draft is likely to have.
    drafted: Vec<Vec<u8>>,
    chunks: Vec<Chunk>,
}

/// Whether the one has all kinds of the other.
fn holds(outer: &[u8], inner: &[u8]) -> bool {
    inner.iter().all(|kind| outer.contains(kind))
}

/// For each of the groups the largest one inside it, if there is one, and what it has more.
fn rings(groups: &[Vec<u8>]) -> Vec<(Vec<u8>, Vec<u8>)> {
    let ring = |group: &Vec<u8>| {
        let inside = |other: &&Vec<u8>| other.len() < group.len() && holds(group, other);
        let smaller = groups.iter().filter(inside).max_by_key(|other| other.len());
        let smaller = smaller.cloned().unwrap_or_default();
        let ring = group.iter().copied().filter(|kind| !smaller.contains(kind)).collect();
        (smaller, ring)
    };
    groups.iter().map(ring).collect()
}

impl<'a> Steps<'a> {
    fn new(rng: &'a mut Rng, profile: &'a Profile, known: &mut dyn Known) -> Self {
        let groups = known.families().map(|families| families.concat());
        let [drafted, groups] = groups.map(|groups| groups.into_iter().map(kinds_of).collect());
        Self {
            rng,
            profile,
            live: known.live(),
            free: known.free(),
            registered: known.registered(),
            groups,
            drafted,
            chunks: vec![],
        }
    }

    fn value(&mut self) -> u64 {
        match self.profile.bits {
            0 => 0,
            bits => self.rng.next() >> (64 - bits),
        }
    }

    fn kind(&mut self) -> u8 {
        match self.registered.is_empty() {
            true => *self.rng.pick(&self.profile.kinds),
            false => *self.rng.pick(&self.registered),
        }
    }

    fn id(&mut self) -> Id {
        if self.live.is_empty() || self.rng.once_in(24) {
            let index = self.rng.below(9) as u32;
            return (index, *self.rng.pick(&[0, 1, 1, 1, 2, 3, u32::MAX]));
        }
        let (index, version) = *self.rng.pick(&self.live);
        match self.rng.below(30) {
            0 => (index, version.wrapping_add(1)),
            1 => (index, version.wrapping_sub(1)),
            2 => (index ^ 1 << self.rng.below(32), version),
            _ => (index, version),
        }
    }

    /// Distinct kinds: a group, a group and a kind more or less, or any.
    fn kinds(&mut self) -> Vec<u8> {
        let mut kinds = match self.rng.below(10) {
            0..=5 if !self.groups.is_empty() => self.rng.pick(&self.groups).clone(),
            6 => vec![self.kind()],
            7 => vec![],
            _ => {
                let mut all = self.registered.clone();
                self.rng.shuffle(&mut all);
                let most = all.len().min(if self.rng.once_in(6) { 17 } else { 6 });
                all.truncate(self.rng.between(0, most));
                all
            }
        };
        self.vary(&mut kinds);
        if self.rng.once_in(2) {
            self.rng.shuffle(&mut kinds);
        }
        kinds
    }

    fn hold(&mut self, kinds: &[u8]) {
        // A refused command leaves behind what was staged.
        let last = self.chunks.last().map_or(0, |chunk| chunk[0]);
        let refused = matches!(last, 4..=6 | 15) && self.rng.once_in(3);
        if refused || self.rng.once_in(6) {
            self.chunks.push(tape::empty());
        }
        for &kind in kinds {
            let value = self.value();
            self.chunks.push(tape::hold(kind, value));
            self.noise();
        }
    }

    /// The command, with some kinds staged.
    fn holding(&mut self, command: Chunk) {
        let kinds = self.kinds();
        self.hold(&kinds);
        self.chunks.push(command);
    }

    /// Now and then another caller, or one that is none, and then mostly its count.
    fn call(&mut self) {
        if self.profile.callers.is_empty() || !self.rng.once_in(8) {
            return;
        }
        let caller = match self.rng.below(5) {
            0 => *self.rng.pick(&[16, 17, 18, 31, 32, 128, 240, 255]),
            _ => *self.rng.pick(&self.profile.callers),
        };
        self.chunks.push(tape::set_caller(caller));
        if !self.rng.once_in(3) {
            self.chunks.push(tape::tally());
        }
    }

    /// Now and then another caller, and a command that is likely to be refused, or out of place.
    fn noise(&mut self) {
        self.call();
        if self.profile.noise == 0 || !self.rng.once_in(self.profile.noise) {
            return;
        }
        let any = *self.rng.pick(&[0, 1, 2, 5, 127, 128, 200, 255]);
        let (kind, id) = (self.kind(), self.id());
        let chunk = match self.rng.below(15) {
            0 => tape::reg(any),
            1 => tape::hold(any, 1),
            2 => tape::hold(kind, 2),
            3 => tape::bar(any),
            4 | 5 => tape::bar(kind),
            6 => tape::put(id),
            7 => tape::take(id),
            8 => tape::kill(id),
            9 => tape::group(),
            10 => tape::range(),
            11 => tape::tally(),
            12 => tape::new(),
            13 => tape::tray(any.into()),
            _ => tape::apply(),
        };
        self.chunks.push(chunk);
    }

    /// How many entities a tray is to make: few, as many as there is room for or about that many, or far too many.
    fn count(&mut self) -> u16 {
        let free = self.free as u16;
        match self.rng.below(16) {
            0 => 0,
            1 | 2 => 1,
            3 => free.saturating_sub(1),
            4 => free,
            5 => free + 1,
            6 => *self.rng.pick(&[256, 257, 256 + free, free << 8, 4096, 4097, u16::MAX]),
            _ => self.rng.between(1, 4).min(self.free) as u16,
        }
    }

    fn tray(&mut self) {
        let count = self.count();
        self.free = self.free.checked_sub(count.into()).unwrap_or(self.free);
        self.holding(tape::tray(count));
    }

    fn create(&mut self) {
        self.free = self.free.saturating_sub(1);
        self.holding(tape::new());
    }

    fn kill(&mut self, id: Id) {
        let before = self.live.len();
        self.live.retain(|&live| live != id);
        if id.1 < u32::MAX {
            self.free += before - self.live.len();
        }
        self.chunks.push(tape::kill(id));
    }

    /// The groups of a layout, each after those inside it.
    fn layout(&mut self) -> Vec<Vec<u8>> {
        let mut kinds = self.registered.clone();
        self.rng.shuffle(&mut kinds);
        let mut groups = vec![];
        let mut rest = &kinds[..];
        while rest.len() >= 2 && !self.rng.once_in(self.profile.families) {
            let arity = self.rng.between(2, rest.len().min(self.profile.widest));
            let (family, others) = rest.split_at(arity);
            rest = others;
            let mut at = self.rng.between(2, arity.min(4));
            // Many groups that have few kinds more, or few that have many.
            let most = if self.rng.once_in(2) { 2 } else { arity };
            loop {
                groups.push(family[..at].to_vec());
                if at == arity {
                    break;
                }
                at = self.rng.between(at + 1, arity.min(at + most));
            }
        }
        groups
    }

    /// One kind more or less, now and then.
    fn vary(&mut self, kinds: &mut Vec<u8>) {
        match self.rng.below(7) {
            0 if !kinds.is_empty() => {
                kinds.swap_remove(self.rng.below(kinds.len()));
            }
            1 => {
                let kind = self.kind();
                if !kinds.contains(&kind) {
                    kinds.push(kind);
                }
            }
            _ => {}
        }
    }

    /// Whether the groups of the draft form a layout with these kinds.
    fn joins(&self, kinds: &[u8]) -> bool {
        let drafted = self.drafted.iter().map(|group| set_of(group));
        let sets: Vec<u128> = drafted.chain([set_of(kinds)]).collect();
        drafts::formed(&sets).is_some()
    }

    /// GROUP of these kinds. What it would leave staged is mostly emptied.
    fn group_of(&mut self, mut kinds: Vec<u8>) {
        if self.rng.once_in(2) {
            self.rng.shuffle(&mut kinds);
        }
        kinds.truncate(16);
        if self.joins(&kinds) {
            kinds.truncate(self.profile.widest);
        }
        self.hold(&kinds);
        self.chunks.push(tape::group());
        let is_new = !self.drafted.iter().any(|group| set_of(group) == set_of(&kinds));
        if !self.joins(&kinds) {
            if !self.rng.once_in(4) {
                self.chunks.push(tape::empty());
            }
        } else if kinds.len() > 1 && is_new {
            self.drafted.push(kinds);
        }
    }

    /// GROUP for each group of a layout, in one order or another, and now and then for kinds near one.
    fn draft(&mut self) {
        let mut groups = self.layout();
        match self.rng.below(4) {
            0 => {}
            1 => groups.reverse(),
            _ => self.rng.shuffle(&mut groups),
        }
        for group in groups {
            self.group_of(group);
            if self.rng.once_in(4) && !self.drafted.is_empty() {
                let kinds = self.near();
                self.group_of(kinds);
            }
        }
    }

    /// Some of the kinds: not all, where there are two.
    fn some(&mut self, mut kinds: Vec<u8>) -> Vec<u8> {
        self.rng.shuffle(&mut kinds);
        if kinds.len() > 1 {
            kinds.truncate(self.rng.between(1, kinds.len() - 1));
        }
        kinds
    }

    /// A group for which there is room between this one and the next smaller, or below this one.
    fn gap(&mut self) -> Vec<u8> {
        let gaps = rings(&self.drafted).into_iter().filter(|(_, ring)| ring.len() > 1);
        let gaps: Vec<_> = gaps.collect();
        let between: Vec<_> = gaps.iter().filter(|gap| !gap.0.is_empty()).cloned().collect();
        let (smaller, ring) = match (between.is_empty(), gaps.is_empty()) {
            (_, true) => return self.kinds(),
            (false, false) if !self.rng.once_in(4) => self.rng.pick(&between).clone(),
            _ => self.rng.pick(&gaps).clone(),
        };
        [smaller, self.some(ring)].concat()
    }

    /// Kinds of the registered ones that no group of the draft has, three at most.
    fn foreign(&mut self) -> Vec<u8> {
        let mut foreign = self.registered.clone();
        foreign.retain(|kind| !self.drafted.iter().any(|group| group.contains(kind)));
        self.rng.shuffle(&mut foreign);
        foreign.truncate(self.rng.between(1, 3));
        foreign
    }

    /// Kinds near a group of the draft: below, between or above; with foreign kinds; some of it; joined with another
    /// group; or as it is.
    fn near(&mut self) -> Vec<u8> {
        let group = self.rng.pick(&self.drafted).clone();
        let around = self.drafted.iter().filter(|other| holds(other, &group));
        let largest = around.max_by_key(|other| other.len()).cloned().unwrap_or_default();
        match self.rng.below(12) {
            0..=4 => self.gap(),
            5 | 6 => [largest, self.foreign()].concat(),
            7 => [group, self.foreign()].concat(),
            8 => [self.gap(), self.foreign()].concat(),
            9 => self.some(group),
            10 => {
                let other = self.rng.pick(&self.drafted).clone();
                let more = other.into_iter().filter(|kind| !group.contains(kind));
                group.iter().copied().chain(more).collect()
            }
            _ => group,
        }
    }

    /// GROUP for the groups of a layout, for kinds near a group of the draft, or for any.
    fn group(&mut self) {
        if self.drafted.is_empty() || self.rng.once_in(6) {
            return self.draft();
        }
        let mut kinds = match self.rng.once_in(6) {
            true => self.kinds(),
            false => self.near(),
        };
        if self.rng.once_in(3) {
            self.vary(&mut kinds);
        }
        self.group_of(kinds);
    }

    /// A group and the next larger one's ring, of one, two or three kinds about as often; more where there is no such.
    fn ring(&mut self) -> Option<(Vec<u8>, Vec<u8>)> {
        let mut rings = rings(&self.groups);
        rings.retain(|(smaller, _)| !smaller.is_empty());
        let size = self.rng.between(1, 3);
        if rings.iter().any(|(_, ring)| ring.len() == size) {
            rings.retain(|(_, ring)| ring.len() == size);
        }
        (!rings.is_empty()).then(|| self.rng.pick(&rings).clone())
    }

    /// RANGE of a group without the next larger one's ring, or now and then a kind more or less; mostly with nothing staged
    /// and excluded before.
    fn ring_range(&mut self, kinds: Vec<u8>, mut bar: Vec<u8>) {
        if !self.rng.once_in(8) {
            self.chunks.push(tape::empty());
        }
        self.vary(&mut bar);
        self.rng.shuffle(&mut bar);
        self.range_of(&kinds, bar);
    }

    fn range_of(&mut self, kinds: &[u8], bar: Vec<u8>) {
        self.hold(kinds);
        self.chunks.extend(bar.into_iter().map(tape::bar));
        self.chunks.push(tape::range());
    }

    /// RANGE, with a bar of what a larger group has more, of some kinds, or none.
    fn range(&mut self) {
        let wants_ring = self.profile.rings && !self.rng.once_in(4);
        if let Some((kinds, ring)) = wants_ring.then(|| self.ring()).flatten() {
            return self.ring_range(kinds, ring);
        }
        let mut kinds = self.kinds();
        let mut bar = vec![];
        match self.rng.below(4) {
            0 | 1 if !self.groups.is_empty() => {
                kinds = self.rng.pick(&self.groups).clone();
                let larger: Vec<Vec<u8>> = self
                    .groups
                    .iter()
                    .filter(|group| kinds.iter().all(|kind| group.contains(kind)))
                    .cloned()
                    .collect();
                bar = self.rng.pick(&larger).clone();
                bar.retain(|kind| !kinds.contains(kind));
                self.vary(&mut bar);
                self.vary(&mut kinds);
                self.rng.shuffle(&mut bar);
            }
            2 if self.rng.once_in(3) => bar = self.kinds(),
            _ => {}
        }
        self.range_of(&kinds, bar);
    }

    fn step(&mut self) {
        let mut step = self.rng.weighted(&self.profile.weights);
        if self.live.is_empty() && matches!(step, 1..=4) && !self.rng.once_in(8) {
            step = 0;
        }
        let id = self.id();
        match step {
            0 => self.create(),
            1 => self.holding(tape::put(id)),
            2 => self.holding(tape::take(id)),
            3 => self.holding(tape::drop(id)),
            4 => self.kill(id),
            5 => self.chunks.push(tape::wipe()),
            6 => {
                self.draft();
                self.chunks.push(tape::apply());
                self.groups = std::mem::take(&mut self.drafted);
            }
            7 => self.range(),
            8 => {
                let kind = *self.rng.pick(&self.profile.kinds);
                self.chunks.push(tape::reg(kind));
            }
            9 => self.chunks.push(tape::empty()),
            10 => self.chunks.push(tape::tally()),
            11 => self.group(),
            _ => self.tray(),
        }
        self.noise();
    }

    /// At sixteen bytes every value gets its upper eight.
    fn widen(&mut self, value_bytes: usize, uppers: &mut Rng) {
        if value_bytes == tape::WIDE {
            let chunks = self.chunks.iter_mut();
            chunks.for_each(|chunk| *chunk = tape::widened(chunk, |_, _| tape::drawn_upper(uppers)));
        }
    }

    /// Spoils the run: a byte changed, put in or taken out, or the end cut off.
    fn damage(&mut self) {
        if self.profile.damage == 0 || !self.rng.once_in(self.profile.damage) || self.chunks.is_empty() {
            return;
        }
        let at = self.rng.below(self.chunks.len());
        let chunk = &mut self.chunks[at];
        let place = self.rng.below(chunk.len());
        let byte = self.rng.next() as u8;
        match self.rng.below(5) {
            0 => chunk[place] = byte,
            1 => chunk[place] ^= 1 << self.rng.below(8),
            2 => chunk.insert(place, byte),
            3 => {
                chunk.remove(place);
            }
            _ => {
                chunk.truncate(place);
                self.chunks.truncate(at + 1);
            }
        }
    }

    fn finish(mut self) -> Run {
        self.damage();
        let tight = self.profile.tight != 0 && self.rng.once_in(self.profile.tight);
        let room = match tight {
            true => self.rng.below(3 + 3 * self.chunks.len()),
            false => ROOMY,
        };
        Run {
            chunks: self.chunks,
            room,
        }
    }
}

/// A run for the state that the pair is in, at its width.
fn random_run(rng: &mut Rng, uppers: &mut Rng, profile: &Profile, pair: &mut Pair) -> Run {
    let value_bytes = pair.value_bytes();
    if rng.once_in(8) {
        return pair.range_run().at(value_bytes);
    }
    let mut steps = Steps::new(rng, profile, &mut *pair.known);
    for _ in 0..profile.steps {
        steps.step();
    }
    steps.widen(value_bytes, uppers);
    steps.finish()
}

/// The first such run that the scout can follow. Damaged bytes set no caller in a case that has none.
fn next_run(rng: &mut Rng, uppers: &mut Rng, profile: &Profile, pair: &mut Pair, scout: &mut Scout) -> Run {
    loop {
        let run = random_run(rng, uppers, profile, pair);
        let is_called = profile.callers.is_empty() && tape::sets_caller(&run.tape(), pair.value_bytes());
        if !is_called && scout.follows(&run) {
            return run;
        }
    }
}

/// One random case at this width, compared as it grows. `Err` has the case and where the sides part. Beside the Rust no run
/// takes the draft past its reach. A case with callers ends by asking for all their counts.
pub fn random_case(seed: u64, value_bytes: usize, beside: Beside, make: Make) -> Result<(Case, Figures), Difference> {
    let (rng, calls) = (&mut Rng::new(seed), &mut Rng::new(!seed));
    let uppers = &mut Rng::new(seed.rotate_left(32));
    let (profile, n, k) = profile(rng, calls, beside);
    let mut preset = rng.once_in(6).then(|| preset(rng, n));
    if let Some(preset) = &mut preset {
        preset_caller(preset, calls, &profile.callers);
    }
    let mut case = Case {
        n,
        k,
        value_bytes,
        preset,
        runs: vec![],
    };

    let part = |case: &Case, what: String| Difference {
        case: case.clone(),
        what,
    };
    let mut pair = Pair::start(&case, beside, make).map_err(|what| part(&case, what))?;
    let mut scout = Scout::start(&case, beside);
    let registering = Run::new(profile.kinds.iter().map(|&kind| tape::reg(kind)).collect());
    assert!(scout.follows(&registering));
    case.runs.push(registering);
    for i in 0..=profile.runs {
        pair.step(&case.runs[i], true).map_err(|what| part(&case, what))?;
        if i < profile.runs {
            case.runs.push(next_run(rng, uppers, &profile, &mut pair, &mut scout));
        }
    }
    if !profile.callers.is_empty() {
        case.runs.push(Run::new(tape::tallies()));
        pair.step(&case.runs[profile.runs + 1], true)
            .map_err(|what| part(&case, what))?;
    }
    pair.ranges().map_err(|what| part(&case, what))?;
    Ok((case, pair.finish()))
}

/// The bytes that the run of this number answers with, on the known side alone.
fn written(case: &Case, at: usize, beside: Beside) -> usize {
    let mut known = beside.known();
    begin(&mut *known, case, beside.told());
    let mut written = 0;
    for run in &case.runs[..=at] {
        let mut out = vec![0; run.room.min(1 << 20)];
        written = known.run(&run.tape(), &mut out).written;
    }
    written
}

/// The case again with one run in a buffer that its answers fill exactly, and in one a byte short, and then the rest
/// of that run's tape in another run.
pub fn tight_case(seed: u64, case: &Case, beside: Beside, make: Make) -> Result<Figures, Difference> {
    let rng = &mut Rng::new(seed);
    let mut figures = Figures::default();
    let at = rng.below(case.runs.len());
    let written = written(case, at, beside);

    for room in [written, written.saturating_sub(1), rng.below(written + 1)] {
        let mut tight = case.clone();
        tight.runs.truncate(at + 1);
        tight.runs[at].room = room;
        let part = |what: String, case: &Case| Difference {
            case: case.clone(),
            what,
        };
        let mut pair = Pair::start(&tight, beside, make).map_err(|what| part(what, &tight))?;
        let mut read = 0;
        for run in &tight.runs {
            read = pair.step(run, true).map_err(|what| part(what, &tight))?.read;
        }
        let rest = tight.runs[at].tape()[read..].to_vec();
        tight.runs.push(Run::new(vec![rest]));
        // The case itself may have had no room for the rest.
        if !beside.is_rust() || past::is_within_reach(&tight) {
            pair.step(&tight.runs[at + 1], true)
                .map_err(|what| part(what, &tight))?;
        }
        pair.ranges().map_err(|what| part(what, &tight))?;
        figures.add(&pair.finish());
    }
    Ok(figures)
}
