//! Drives the library by document 01's tape. The refusals are the harness's; what an accepted command does is done
//! by the library's own functions.

mod kinds;
mod preset;
mod staged;
mod tuples;

pub use self::kinds::Comp;
pub use self::preset::Preset;

use self::kinds::{kind, number, Value, NARROW, WIDE};
use self::staged::{with_kinds, Staged};
use crate::component::{ComponentMetadata, ComponentSet, GroupLayout, QueryGroupInfo, ViewGroupInfo};
use crate::entity::{Entity, Version};
use crate::World;
use core::iter;
use core::num::NonZeroU32;

/// What *run* answers.
#[derive(Clone, Copy, PartialEq, Eq, Default, Debug)]
pub struct Ran {
    pub stop: u32,
    pub commands: usize,
    pub read: usize,
    pub written: usize,
}

/// An entity as (index, version).
pub type Id = (u32, u32);

/// Which of the library's component sets a command goes through.
#[derive(Clone, Copy, PartialEq, Eq, Debug)]
pub enum Sets {
    /// Tuples where there is one for the kinds in their order, `Staged` elsewhere.
    Tuples,
    /// `Staged` alone.
    Staged,
}

/// The command bytes, with the 0 that is none.
pub const COMMANDS: usize = 17;
/// The numbers that a command may answer with are below this.
pub const NUMBERS: usize = 20;
/// The callers are 0 to one less than this.
pub const CALLERS: usize = 16;
const MOST_STAGED: usize = 16;
const MOST_GROUPS: usize = 64;

/// The most kinds of a family and the most groups of a layout that `set_layout` takes.
const REACH_KINDS: u32 = 15;
const REACH_GROUPS: usize = 63;

/// The widths that a store may have: bytes of a component's value.
pub const WIDTHS: [usize; 2] = [4 * NARROW, 4 * WIDE];

/// How many words a store for `n` entities and `k` kinds with values of so many bytes takes.
pub fn words_needed(n: usize, k: usize, value_bytes: usize) -> usize {
    1024 + 16 * n + k * (8 + 4 * n + value_bytes / 4 * n)
}

/// A store of either width.
enum AnyStore {
    Narrow(Store<NARROW>),
    Wide(Store<WIDE>),
}

/// The same of a store, whatever its width.
macro_rules! of {
    ($store:ident => $what:expr) => {
        match $store {
            AnyStore::Narrow($store) => $what,
            AnyStore::Wide($store) => $what,
        }
    };
}

/// A world with what the tape keeps beside it; a value has `D` words.
struct Store<const D: usize> {
    n: usize,
    k: usize,
    world: World,
    registered: u128,
    /// The staged kinds, and the value of each.
    staged: Vec<u8>,
    values: Vec<Value<D>>,
    excluded: Vec<u8>,
    draft: Draft,
    /// The layout in force, as the library was given it.
    layout: GroupLayout,
    issued: usize,
    retired: usize,
    caller: u8,
    /// How many commands of each caller were refused.
    refusals: [u32; CALLERS],
    /// How often GROUP judged each of `JUDGEMENTS`.
    judged: [u64; JUDGEMENTS.len()],
    /// The answer to the command under way: one buffer for all, so that times are not those of an allocator.
    answer: Vec<u8>,
}

/// The draft layout: its groups as sets of kinds, one list a family, rising. The library is given it at APPLY.
#[derive(Default)]
struct Draft {
    families: Families,
    /// What was staged at each GROUP that was accepted, those that added nothing too: how many kinds, and these in front.
    kept: Vec<(usize, [u8; MOST_STAGED])>,
}

/// The caller, and the refusal count of each.
pub type Counts = (u8, [u32; CALLERS]);

/// Groups as sets of kinds, one list a family, by size.
pub type Families = Vec<Vec<u128>>;

/// Whether the library can take a layout of these families.
pub fn is_within_reach(families: &Families) -> bool {
    let mut groups = families.iter().flatten();
    groups.clone().count() <= REACH_GROUPS && groups.all(|group| group.count_ones() <= REACH_KINDS)
}

/// Document 01 over the library.
pub struct Oracle {
    store: Option<AnyStore>,
    sets: Sets,
    /// How often each command byte was answered by each number, for the figures.
    pub seen: [[u64; NUMBERS]; COMMANDS],
}

impl Oracle {
    /// No store yet: every entry but start answers 3.
    pub fn new(sets: Sets) -> Self {
        Self {
            store: None,
            sets,
            seen: [[0; NUMBERS]; COMMANDS],
        }
    }

    /// *start* with values of so many bytes: the number. A refused one leaves what was there.
    pub fn start(&mut self, words: usize, n: usize, k: usize, value_bytes: usize) -> u32 {
        if !(1..=4096).contains(&n) || !(1..=128).contains(&k) || !WIDTHS.contains(&value_bytes) {
            return 1;
        }
        if words < words_needed(n, k, value_bytes) {
            return 2;
        }
        self.store = Some(match value_bytes == 4 * WIDE {
            true => AnyStore::Wide(Store::new(n, k)),
            false => AnyStore::Narrow(Store::new(n, k)),
        });
        0
    }

    /// How many bytes a value of the store has.
    pub fn value_bytes(&self) -> Option<usize> {
        self.store.as_ref().map(|store| match store {
            AnyStore::Narrow(_) => 4 * NARROW,
            AnyStore::Wide(_) => 4 * WIDE,
        })
    }

    /// Puts a started store into a state that an empty one reaches only by very many commands.
    pub fn preset(&mut self, preset: &Preset) {
        let store = self.store.as_mut().expect("started");
        of!(store => store.preset(preset));
    }

    /// Creates and destroys an entity without components so many times, on an empty store.
    pub fn wear(&mut self, times: u64) {
        let store = self.store.as_mut().expect("started");
        of!(store => store.wear(times));
    }

    /// *run*.
    pub fn run(&mut self, tape: &[u8], out: &mut [u8]) -> Ran {
        let sets = self.sets;
        let Some(store) = &mut self.store else {
            return Ran {
                stop: 3,
                ..Ran::default()
            };
        };

        of!(store => store.run(tape, out, sets, &mut self.seen))
    }

    /// The number that *column* gives.
    pub fn column_number(&self, number: u8, start: usize, end: usize) -> u32 {
        let Some(store) = &self.store else { return 3 };
        match of!(store => store.length(number)) {
            None => 7,
            Some(length) if start > end || end > length => 16,
            Some(_) => 0,
        }
    }

    /// The length of a registered kind's column.
    pub fn length(&self, number: u8) -> Option<usize> {
        let store = self.store.as_ref()?;
        of!(store => store.length(number))
    }

    /// *roll*: the number and how many bytes were written.
    pub fn roll(&self, out: &mut [u8]) -> (u32, usize) {
        let Some(store) = &self.store else { return (3, 0) };
        match of!(store => store.roll(out)) {
            None => (6, 0),
            Some(length) => (0, length),
        }
    }

    /// How many entities can still be created.
    pub fn free(&self) -> usize {
        self.store.as_ref().map_or(0, |store| of!(store => store.free()))
    }

    /// The live entities in the order of the library's list.
    pub fn live(&self) -> Vec<Id> {
        let Some(store) = &self.store else { return vec![] };
        of!(store => store.world.entities().iter().map(id).collect())
    }

    /// The registered kinds, rising.
    pub fn registered(&self) -> Vec<u8> {
        let Some(store) = &self.store else { return vec![] };
        kinds_of(of!(store => store.registered))
    }

    /// A registered kind's entities and values in row order.
    pub fn column(&self, number: u8) -> Option<(Vec<Id>, Vec<u128>)> {
        let store = self.store.as_ref()?;
        of!(store => store.column(number))
    }

    /// The families of the draft, and those of the library's layout in force.
    pub fn families(&self) -> [Families; 2] {
        let Some(store) = &self.store else {
            return [vec![], vec![]];
        };
        of!(store => [store.draft.families.clone(), families_of(&store.layout)])
    }

    /// The caller and the refusal counts; of no store, those of an empty one.
    pub fn counts(&self) -> Counts {
        let Some(store) = &self.store else {
            return Counts::default();
        };
        of!(store => (store.caller, store.refusals))
    }

    /// How often GROUP judged each of `JUDGEMENTS`, since the start.
    pub fn judged(&self) -> [u64; JUDGEMENTS.len()] {
        let Some(store) = &self.store else {
            return [0; JUDGEMENTS.len()];
        };
        of!(store => store.judged)
    }

    /// How many component stores the library keeps, those left behind by relayouts included.
    pub fn component_stores(&self) -> usize {
        let Some(store) = &self.store else { return 0 };
        of!(store => store.world.components.components.len())
    }

    /// RANGE by the library's own query, for the few kinds for which one is compiled. `None` where none is.
    pub fn slice(&self, include: &[u8], exclude: &[u8]) -> Option<Option<(usize, usize)>> {
        match self.store.as_ref()? {
            AnyStore::Narrow(store) => tuples::slice::<NARROW>(&store.world, include, exclude),
            AnyStore::Wide(store) => tuples::slice::<WIDE>(&store.world, include, exclude),
        }
    }
}

impl<const D: usize> Store<D> {
    /// The bytes of a value.
    const VALUE: usize = 4 * D;

    /// Operand bytes by command byte.
    const OPERANDS: [usize; COMMANDS] = [0, 1, 1 + Self::VALUE, 0, 8, 8, 8, 8, 0, 0, 0, 1, 0, 0, 0, 2, 1];

    fn new(n: usize, k: usize) -> Self {
        Self {
            n,
            k,
            world: World::default(),
            registered: 0,
            staged: vec![],
            values: vec![],
            excluded: vec![],
            draft: Draft::default(),
            layout: GroupLayout::default(),
            issued: 0,
            retired: 0,
            caller: 0,
            refusals: [0; CALLERS],
            judged: [0; JUDGEMENTS.len()],
            answer: vec![],
        }
    }

    fn preset(&mut self, preset: &Preset) {
        preset::check(preset, self.n);
        self.world.entities = preset::entities(preset);
        self.issued = preset.issued;
        self.retired = preset.issued - preset.live.len() - preset.recycled.len();
        self.caller = preset.caller;
        self.refusals = preset.refusals;
    }

    fn wear(&mut self, times: u64) {
        assert!(self.issued == 0 && times < u64::from(u32::MAX));
        for _ in 0..times {
            let entity = self.world.create(());
            assert!(self.world.destroy(entity));
        }
        self.issued = 1;
    }

    fn run(&mut self, tape: &[u8], out: &mut [u8], sets: Sets, seen: &mut [[u64; NUMBERS]; COMMANDS]) -> Ran {
        let mut ran = Ran::default();
        while let Some(&byte) = tape.get(ran.read) {
            if !(1..COMMANDS).contains(&usize::from(byte)) {
                ran.stop = 4;
                break;
            }
            let start = ran.read + 1;
            let Some(operands) = tape.get(start..start + Self::OPERANDS[usize::from(byte)]) else {
                ran.stop = 5;
                break;
            };
            if out.len() - ran.written < self.room(byte) {
                ran.stop = 6;
                break;
            }

            let answer = self.command(byte, operands, sets);
            seen[usize::from(byte)][usize::from(answer[0])] += 1;
            out[ran.written..ran.written + answer.len()].copy_from_slice(answer);
            ran.written += answer.len();
            ran.read = start + operands.len();
            ran.commands += 1;
        }
        ran
    }

    /// How many bytes the accepted answer takes.
    fn room(&self, byte: u8) -> usize {
        match byte {
            1 | 9 => 2,
            3 => 9,
            5 => 1 + (1 + Self::VALUE) * self.staged.len(),
            12 => 10,
            14 => 5,
            15 => 3,
            _ => 1,
        }
    }

    /// Does one command and gives its answer, the refusal's number included.
    fn command(&mut self, byte: u8, operands: &[u8], sets: Sets) -> &[u8] {
        self.answer.clear();
        self.answer.push(0);
        if let Err(number) = self.accepted(byte, operands, sets) {
            let refusals = &mut self.refusals[usize::from(self.caller)];
            *refusals = refusals.saturating_add(1);
            self.answer[0] = number;
        }
        &self.answer
    }

    /// Does it, and tells what is told after a 0; or refuses it, and tells nothing.
    fn accepted(&mut self, byte: u8, operands: &[u8], sets: Sets) -> Result<(), u8> {
        match byte {
            1 => self.register(operands[0])?,
            2 => self.hold(operands[0], words(&operands[1..]))?,
            3 => self.create(sets)?,
            4 => self.put(operands, sets)?,
            5 => self.take(operands, sets)?,
            6 => self.drop(operands, sets)?,
            7 => self.kill(operands)?,
            8 => self.world.components.clear(),
            9 => self.group()?,
            10 => self.apply(),
            11 => self.bar(operands[0])?,
            12 => self.range(),
            13 => {
                self.clear_staged();
                self.excluded.clear();
            }
            14 => self.tell(self.refusals[usize::from(self.caller)]),
            15 => self.extend(u16::from_le_bytes([operands[0], operands[1]]), sets)?,
            16 => self.set_caller(operands[0])?,
            _ => unreachable!("refused before"),
        }
        Ok(())
    }

    fn set_caller(&mut self, caller: u8) -> Result<(), u8> {
        if usize::from(caller) >= CALLERS {
            return Err(19);
        }
        self.caller = caller;
        Ok(())
    }

    fn tell(&mut self, number: u32) {
        self.answer.extend(number.to_le_bytes());
    }

    fn clear_staged(&mut self) {
        self.staged.clear();
        self.values.clear();
    }

    fn is_registered(&self, number: u8) -> bool {
        number < 128 && self.registered >> number & 1 == 1
    }

    fn register(&mut self, number: u8) -> Result<(), u8> {
        if number > 127 {
            return Err(7);
        }
        if !self.is_registered(number) && self.registered.count_ones() as usize == self.k {
            return Err(8);
        }
        let new = self.world.components.register_dyn(kind::<D>(number).data);
        assert_eq!(new, !self.is_registered(number), "register_dyn knows other kinds");
        self.registered |= 1 << number;
        self.answer.push(u8::from(new));
        Ok(())
    }

    fn hold(&mut self, number: u8, value: Value<D>) -> Result<(), u8> {
        if !self.is_registered(number) {
            return Err(7);
        }
        if self.staged.contains(&number) {
            return Err(9);
        }
        if self.staged.len() == MOST_STAGED {
            return Err(10);
        }
        self.staged.push(number);
        self.values.push(value);
        Ok(())
    }

    fn bar(&mut self, number: u8) -> Result<(), u8> {
        if !self.is_registered(number) {
            return Err(7);
        }
        if self.excluded.contains(&number) {
            return Err(9);
        }
        if self.excluded.len() == MOST_STAGED {
            return Err(10);
        }
        self.excluded.push(number);
        Ok(())
    }

    /// The operands' entity, if it is live.
    fn entity(&self, operands: &[u8]) -> Result<Entity, u8> {
        let [index, version] = words::<2>(operands);
        NonZeroU32::new(version)
            .map(|version| Entity::new(index, Version(version)))
            .filter(|&entity| self.world.contains_entity(entity))
            .ok_or(11)
    }

    /// What is staged, for the lists of kinds that no tuple covers.
    fn as_staged(&self) -> Staged<D> {
        Staged(self.staged.iter().copied().zip(self.values.iter().copied()).collect())
    }

    /// How many numbers wait.
    fn recycled(&self) -> usize {
        self.issued - self.retired - self.world.entities().len()
    }

    /// How many entities can still be created: the numbers that wait, and those not yet issued.
    fn free(&self) -> usize {
        self.recycled() + self.n - self.issued
    }

    fn create(&mut self, sets: Sets) -> Result<(), u8> {
        let recycled = self.recycled();
        if recycled == 0 && self.issued == self.n {
            return Err(12);
        }
        let by_tuple = match sets {
            Sets::Tuples if self.staged.is_empty() => Some(self.world.create(())),
            Sets::Tuples => tuples::create(&mut self.world, &self.staged, &self.values),
            Sets::Staged => None,
        };
        let entity = match by_tuple {
            Some(entity) => entity,
            None => {
                let staged = self.as_staged();
                self.world.create(staged)
            }
        };
        self.clear_staged();
        if recycled == 0 {
            assert_eq!(entity.sparse(), self.issued, "the next index was not taken");
            self.issued += 1;
        }
        assert!(entity.sparse() < self.issued, "an index that was never issued");
        self.tell(entity.index);
        self.tell(entity.version.0.get());
        Ok(())
    }

    /// TRAY: the library's `extend` with what is staged, so many times.
    fn extend(&mut self, count: u16, sets: Sets) -> Result<(), u8> {
        let told = count.to_le_bytes();
        let count = usize::from(count);
        if self.free() < count {
            return Err(12);
        }
        let (live, recycled) = (self.world.entities().len(), self.recycled().min(count));
        let by_tuple = match sets {
            Sets::Tuples if self.staged.is_empty() => Some(self.world.extend(iter::repeat(()).take(count)).len()),
            Sets::Tuples => tuples::extend(&mut self.world, &self.staged, &self.values, count),
            Sets::Staged => None,
        };
        let made = by_tuple.unwrap_or_else(|| {
            let staged = self.as_staged();
            with_kinds(&self.staged, || {
                self.world.extend(iter::repeat(staged).take(count)).len()
            })
        });
        assert_eq!(made, count, "extend gives other entities");
        debug_assert!(self.follow(live, recycled), "extend takes other numbers");
        self.issued += count - recycled;
        self.clear_staged();
        self.answer.extend(told);
        Ok(())
    }

    /// Whether the entities from a place of the live list on have numbers that waited, so many, and then the next indexes.
    fn follow(&self, live: usize, recycled: usize) -> bool {
        let (waited, new) = self.world.entities()[live..].split_at(recycled);
        waited.iter().all(|entity| entity.sparse() < self.issued)
            && new
                .iter()
                .zip(self.issued..)
                .all(|(entity, next)| entity.sparse() == next)
    }

    fn put(&mut self, operands: &[u8], sets: Sets) -> Result<(), u8> {
        let entity = self.entity(operands)?;
        let by_tuple = match sets {
            Sets::Tuples if self.staged.is_empty() => Some(self.world.insert(entity, ())),
            Sets::Tuples => tuples::insert(&mut self.world, entity, &self.staged, &self.values),
            Sets::Staged => None,
        };
        if by_tuple.is_none() {
            let staged = self.as_staged();
            unsafe { Staged::insert(&mut self.world, entity, staged) };
        }
        self.clear_staged();
        Ok(())
    }

    fn take(&mut self, operands: &[u8], sets: Sets) -> Result<(), u8> {
        let entity = self.entity(operands)?;
        let answer = &mut self.answer;
        let mut told = |value: Option<Value<D>>| {
            answer.push(u8::from(value.is_some()));
            for word in value.unwrap_or([0; D]) {
                answer.extend(word.to_le_bytes());
            }
        };
        let by_tuple = match sets {
            Sets::Tuples if self.staged.is_empty() => Some(self.world.remove::<()>(entity)),
            Sets::Tuples => tuples::remove(&mut self.world, entity, &self.staged, &mut told),
            Sets::Staged => None,
        };
        if by_tuple.is_none() {
            let removed = with_kinds(&self.staged, || unsafe { Staged::<D>::remove(&mut self.world, entity) });
            removed.into_iter().for_each(told);
        }
        self.clear_staged();
        Ok(())
    }

    fn drop(&mut self, operands: &[u8], sets: Sets) -> Result<(), u8> {
        let entity = self.entity(operands)?;
        let by_tuple = match sets {
            Sets::Tuples if self.staged.is_empty() => Some(self.world.delete::<()>(entity)),
            Sets::Tuples => tuples::delete::<D>(&mut self.world, entity, &self.staged),
            Sets::Staged => None,
        };
        if by_tuple.is_none() {
            with_kinds(&self.staged, || self.world.delete::<Staged<D>>(entity));
        }
        self.clear_staged();
        Ok(())
    }

    fn kill(&mut self, operands: &[u8]) -> Result<(), u8> {
        let entity = self.entity(operands)?;
        assert!(self.world.destroy(entity), "a live entity was not destroyed");
        if entity.version == Version::LAST {
            self.retired += 1;
        }
        Ok(())
    }

    fn group(&mut self) -> Result<(), u8> {
        let judged = self.draft.judge(set_of(&self.staged));
        self.judged[self.draft.judgement(judged)] += 1;
        let added = self.draft.add(judged, &self.staged)?;
        self.clear_staged();
        self.answer.push(u8::from(added));
        Ok(())
    }

    fn apply(&mut self) {
        assert!(
            is_within_reach(&self.draft.families),
            "a layout past the Rust's reach is applied: no case beside the Rust may do so"
        );
        self.layout = core::mem::take(&mut self.draft).layout::<D>();
        unsafe {
            self.world
                .components
                .set_layout(&self.layout, self.world.entities.as_slice());
        }
    }

    fn range(&mut self) {
        let range = self.group_range(&self.staged, &self.excluded);
        let (start, end) = range.unwrap_or((0, 0));
        self.clear_staged();
        self.excluded.clear();
        self.answer.push(u8::from(range.is_some()));
        self.tell(start as u32);
        self.tell(end as u32);
    }

    /// As `QueryAll::get_group_range`, with what is staged and excluded built up by `add_view`.
    fn group_range(&self, staged: &[u8], excluded: &[u8]) -> Option<(usize, usize)> {
        let include = self.query_group_info(staged)?;
        let exclude = self.query_group_info(excluded)?;
        let range = unsafe { self.world.components.group_range(&include, &exclude) }?;
        Some((range.start, range.end))
    }

    fn query_group_info(&self, numbers: &[u8]) -> Option<QueryGroupInfo> {
        let mut group_info = QueryGroupInfo::Empty;
        for &number in numbers {
            let metadata = self.metadata(number);
            let info = ViewGroupInfo {
                info: metadata.group_info,
                len: self.length(number).unwrap(),
            };
            group_info = group_info.add_view(&info)?;
        }
        Some(group_info)
    }

    fn metadata(&self, number: u8) -> ComponentMetadata {
        self.world.components.metadata[&kind::<D>(number).type_id()]
    }

    fn length(&self, number: u8) -> Option<usize> {
        self.is_registered(number).then(|| {
            self.world.components.components[self.metadata(number).storage_index]
                .borrow()
                .len()
        })
    }

    fn column(&self, number: u8) -> Option<(Vec<Id>, Vec<u128>)> {
        if !self.is_registered(number) {
            return None;
        }
        let set = self.world.components.components[self.metadata(number).storage_index].borrow();
        let values = unsafe { (kind::<D>(number).values)(&set) };
        Some((
            set.entities().iter().map(id).collect(),
            values.into_iter().map(long).collect(),
        ))
    }

    /// The roll at the front of `out`, if it fits; its length.
    fn roll(&self, out: &mut [u8]) -> Option<usize> {
        let mut entities = self.world.entities().to_vec();
        entities.sort_unstable_by_key(|entity| entity.index);
        let sets: Vec<_> = kinds_of(self.registered)
            .into_iter()
            .map(|number| {
                let set = &self.world.components.components[self.metadata(number).storage_index];
                (number, kind::<D>(number).get, set.borrow())
            })
            .collect();
        let part = 1 + Self::VALUE;
        let length = 4 + 9 * entities.len() + part * sets.iter().map(|(_, _, set)| set.len()).sum::<usize>();
        if out.len() < length {
            return None;
        }

        let mut written = 0;
        let mut put = |at: usize, bytes: &[u8]| {
            out[at..at + bytes.len()].copy_from_slice(bytes);
            at + bytes.len()
        };
        written = put(written, &(entities.len() as u32).to_le_bytes());
        for entity in entities {
            written = put(written, &entity.index.to_le_bytes());
            written = put(written, &entity.version.0.get().to_le_bytes());
            let count = written;
            written += 1;
            for (number, get, set) in &sets {
                if let Some(value) = unsafe { get(set, entity) } {
                    written = put(written, &[*number]);
                    written = put(written, &long(value).to_le_bytes()[..Self::VALUE]);
                }
            }
            put(count, &[((written - count) / part) as u8]);
        }
        assert_eq!(written, length, "columns with entities that are not live");
        Some(length)
    }
}

/// What GROUP makes of the staged kinds.
#[derive(Clone, Copy, PartialEq, Eq, Debug)]
enum Judged {
    /// Fewer than two kinds, or a group of the draft.
    Nothing,
    NewFamily,
    /// Into a family, behind so many of its groups.
    Into(usize, usize),
    /// It shares kinds with two families.
    TwoFamilies,
    /// It shares kinds with one, whose groups are no chain with it.
    NoChain,
    Many,
}

/// The same, with the place in a family in words, for the figures.
pub const JUDGEMENTS: [&str; 8] = [
    "nothing added",
    "a family of its own",
    "below",
    "between",
    "above",
    "clash, two families",
    "clash, no chain",
    "many",
];

fn is_within(inner: u128, outer: u128) -> bool {
    inner & !outer == 0
}

impl Draft {
    /// The rule for GROUP.
    fn judge(&self, group: u128) -> Judged {
        if group.count_ones() < 2 {
            return Judged::Nothing;
        }
        if self.families.iter().flatten().any(|&old| old == group) {
            return Judged::Nothing;
        }
        let shares = |family: &Vec<u128>| family[family.len() - 1] & group != 0;
        let mut sharing = (0..self.families.len()).filter(|&i| shares(&self.families[i]));
        let judged = match (sharing.next(), sharing.next()) {
            (None, _) => Judged::NewFamily,
            (Some(i), None) => self.judge_chain(i, group),
            _ => Judged::TwoFamilies,
        };
        let full = self.families.iter().flatten().count() == MOST_GROUPS;
        match judged {
            Judged::NewFamily | Judged::Into(..) if full => Judged::Many,
            _ => judged,
        }
    }

    /// Below, between or above, if each group of the family holds the new one or is held by it.
    fn judge_chain(&self, i: usize, group: u128) -> Judged {
        let family = &self.families[i];
        if !family.iter().all(|&old| is_within(old, group) || is_within(group, old)) {
            return Judged::NoChain;
        }
        Judged::Into(i, family.iter().filter(|&&old| is_within(old, group)).count())
    }

    /// The place in `JUDGEMENTS`.
    fn judgement(&self, judged: Judged) -> usize {
        match judged {
            Judged::Nothing => 0,
            Judged::NewFamily => 1,
            Judged::Into(_, 0) => 2,
            Judged::Into(i, at) if at < self.families[i].len() => 3,
            Judged::Into(..) => 4,
            Judged::TwoFamilies => 5,
            Judged::NoChain => 6,
            Judged::Many => 7,
        }
    }

    /// Keeps an accepted list; whether it is one group more.
    fn add(&mut self, judged: Judged, kinds: &[u8]) -> Result<bool, u8> {
        match judged {
            Judged::Nothing => {}
            Judged::NewFamily => self.families.push(vec![set_of(kinds)]),
            Judged::Into(i, at) => self.families[i].insert(at, set_of(kinds)),
            Judged::TwoFamilies | Judged::NoChain => return Err(14),
            Judged::Many => return Err(15),
        }
        let mut list = [0; MOST_STAGED];
        list[..kinds.len()].copy_from_slice(kinds);
        self.kept.push((kinds.len(), list));
        Ok(judged != Judged::Nothing)
    }

    /// The library's layout: it is given the lists the smallest first, and its families are held to ours.
    fn layout<const D: usize>(mut self) -> GroupLayout {
        self.kept.sort_by_key(|&(kinds, _)| kinds);
        let mut layout = GroupLayout::default();
        for (kinds, list) in &self.kept {
            add_group_of::<D>(&mut layout, &list[..*kinds]);
        }
        debug_assert_eq!(
            arranged(families_of(&layout)),
            arranged(self.families),
            "add_group_dyn made other families"
        );
        layout
    }
}

/// The library's `add_group_dyn` on the component types of `kinds`, those of eight bytes.
pub fn add_group(layout: &mut GroupLayout, kinds: &[u8]) {
    add_group_of::<NARROW>(layout, kinds);
}

fn add_group_of<const D: usize>(layout: &mut GroupLayout, kinds: &[u8]) {
    let components: Vec<_> = kinds.iter().map(|&number| kind::<D>(number).data).collect();
    layout.add_group_dyn(&components);
}

/// The groups of a layout of the library, one list a family, in its order, with their kinds in its order.
pub fn families(layout: &GroupLayout) -> Vec<Vec<Vec<u8>>> {
    layout
        .families()
        .iter()
        .map(|family| {
            let kinds: Vec<u8> = family.components().iter().map(|data| number(data.type_id())).collect();
            family.arities().iter().map(|&arity| kinds[..arity].to_vec()).collect()
        })
        .collect()
}

/// The same as sets of kinds.
pub fn families_of(layout: &GroupLayout) -> Families {
    let sets = |family: &Vec<Vec<u8>>| family.iter().map(|kinds| set_of(kinds)).collect();
    families(layout).iter().map(sets).collect()
}

/// Families in an order that goes by the sets alone, so that equal ones are equal lists.
pub fn arranged(mut families: Families) -> Families {
    for family in &mut families {
        family.sort_by_key(|group| (group.count_ones(), *group));
    }
    families.sort();
    families
}

/// The kinds as a set.
pub fn set_of(kinds: &[u8]) -> u128 {
    kinds.iter().fold(0, |set, number| set | 1 << number)
}

/// The kinds of a set, rising.
pub fn kinds_of(set: u128) -> Vec<u8> {
    (0..128).filter(|number| set >> number & 1 == 1).collect()
}

fn id(entity: &Entity) -> Id {
    (entity.index, entity.version.0.get())
}

fn words<const D: usize>(bytes: &[u8]) -> [u32; D] {
    core::array::from_fn(|i| u32::from_le_bytes(bytes[4 * i..4 * i + 4].try_into().unwrap()))
}

fn long<const D: usize>(value: Value<D>) -> u128 {
    let words = value.iter().rev();
    words.fold(0, |number, &word| number << 32 | u128::from(word))
}
