//! Documents 01 and 02 again, in plain lists: no sparse sets, no masks, every lookup a search. It is written after the
//! papers' definitions and shares no code with the harness. A fault can be switched on, to see whether the comparison finds it.

use crate::side::{Known, Ranged, Rule, Seen, Side, Told};
use sparsey::harness::{Counts, Families, Id, Preset, Ran};
use std::collections::{BTreeMap, BTreeSet, VecDeque};

/// The faults, each once: its name and what is wrong, in a line.
macro_rules! faults {
    ($($name:ident: $text:literal,)*) => {
        /// Departures from document 01.
        #[derive(Clone, Copy, PartialEq, Eq, Debug)]
        pub enum Fault {
            $($name,)*
        }

        impl Fault {
            pub const ALL: &'static [Fault] = &[$(Fault::$name,)*];

            /// What is wrong.
            pub fn text(self) -> &'static str {
                match self {
                    $(Fault::$name => $text,)*
                }
            }
        }
    };
}

faults! {
    // The five that document 01 names.
    RemoveBeforeLeaving: "removing before leaving the groups",
    SmallestFirst: "leaving the smallest group first",
    SwapNewKindsOnly: "swapping in the group's new kinds only (the ring)",
    GoOnUpward: "going on upward after a missing part",
    IgnoreVersions: "ignoring versions",
    // The hollow stores that it names.
    AcknowledgeAfterFirst: "running the first command and only acknowledging the others",
    StopAtOnce: "stopping a run before its first command",
    AlterNothing: "altering nothing",
    FixedRange: "a fixed range",
    InventedCounts: "invented group counts",
    RefuseAll: "refusing throughout",
    // Others.
    LastInFirstOut: "the number recycled last is taken first",
    NoVersionStep: "a destroyed number is recycled at its old version",
    VersionWraps: "after the last version comes version 1",
    RetiredForgotten: "a retired number may be issued again",
    LiveListShifts: "a destroyed entity's place in the live list is closed by moving all behind it",
    RowsShift: "a removed row's gap is closed by moving all behind it",
    ReplaceAppends: "inserting a held kind moves its row to the end",
    ReplaceKeepsValue: "inserting a held kind keeps the old value",
    LeaveOwnGroupOnly: "removal leaves the kind's own group only",
    LeaveFromSmallest: "removal leaves every group of the family",
    KillLeavesNoGroup: "a destroyed entity leaves no group",
    UpwardFolded: "the walk upward has five bits for a group's position",
    RemovalFolded: "a removal's walk has five bits for a group's position",
    ApplyByIndex: "APPLY walks entities by index",
    ApplyBackwards: "APPLY walks the live list from its end",
    ApplyKeepsDraft: "APPLY keeps the draft",
    ApplyEmptiesStaged: "APPLY empties the staged components",
    WipeKeepsCounts: "WIPE keeps group counts",
    WipeKillsAll: "WIPE destroys the entities too",
    ExcludeAnyLarger: "RANGE takes excluded kinds equal to what any larger group has more",
    ExcludePart: "RANGE takes excluded kinds that are some of the next larger group's new ones",
    RangeOfDraft: "RANGE also sees groups of the draft, with count 0",
    RangeKeepsExcluded: "RANGE keeps the excluded kinds",
    OneKindWithExcluded: "RANGE of one kind ignores excluded kinds",
    TakeByRisingKind: "TAKE answers by rising kind",
    TakeGarbage: "TAKE answers the staged value for a kind that is not held",
    RefusalEmptiesStaged: "a refused command empties the staged components",
    NothingAddedKeepsStaged: "GROUP answering 0 keeps the staged components",
    AgainAcrossLists: "BAR refuses a kind that is staged",
    EmptyKeepsExcluded: "EMPTY keeps the excluded kinds",
    FifteenStaged: "fifteen kinds can be staged",
    RoomByAnswerGiven: "NOROOM goes by the answer given, not the accepted one",
    CutBeforeUnknown: "an unknown byte at the tape's end is CUT",
    SixteenWide: "a group of 16 kinds is WIDE",
    ClashBeforeEqual: "a group equal to one present clashes",
    EqualAsLists: "a group equal to one present is added if its kinds come in another order",
    EqualToLargestOnly: "a group equal to one present is added if that is not its family's largest",
    TwoFamiliesJoined: "a group that holds two families is added to the first",
    FirstSharingOnly: "a group that meets two families is added if it fits the first",
    FirstFamilyOnly: "a group is held to the draft's first family only",
    FamilyByFirstKind: "a group's family is found by its first kind alone",
    BelowRefused: "a group below a family's smallest clashes",
    BetweenRefused: "a group between two of a family clashes",
    LargestTested: "a group is held to a family's largest only",
    SmallestTested: "a group is held to a family's smallest only",
    SharedKindSuffices: "a group that shares a kind with each of a family's is added",
    ForeignBetween: "a smaller group with a foreign kind is added, as the Rust does",
    GroupAtEnd: "a new group goes to its family's end, whatever its place",
    GroupAtStart: "a new group that is not its family's largest goes to the family's start",
    NextRingKept: "the next larger group's ring keeps the new group's kinds",
    SixtyThreeGroups: "63 groups are the most",
    ManyAboveOnly: "a 65th group is added if it goes below or between",
    ManyBeforeEqual: "MANY comes before nothing added",
    SixteenthNotAsked: "the walk upward does not ask for a family's sixteenth kind",
    SixteenthNotSwapped: "walks swap rows in a family's first fifteen columns only",
    SixteenthPutAlone: "inserting a family's sixteenth kind walks no group",
    SixteenthRemovedAlone: "removing a family's sixteenth kind leaves no group",
    UpwardOneShort: "the walk upward loses the 64th group",
    RemovalOneShort: "a removal's walk loses the 64th group",
    KillOneShort: "a destroyed entity does not leave the 64th group",
    WipeOneShort: "WIPE keeps the 64th group's count",
    RangeFifteen: "RANGE finds no group of 16 kinds",
    RingFifteen: "RANGE finds nothing where the excluded ring ends at the sixteenth kind",
    KindsBeforeKnown: "KINDS is answered for a known kind too",
    FullByLive: "FULL goes by the entities live",
    TrayUngrouped: "TRAY groups none of its entities",
    TrayFirstGrouped: "TRAY groups its first entity only",
    TrayFirstPassedOver: "TRAY groups all its entities but the first",
    TrayLastFirst: "TRAY groups its last entity first",
    TrayLastKind: "TRAY walks the groups of the last staged kind only",
    TrayNewFirst: "TRAY takes new indexes before those that wait",
    TrayValuesOnce: "TRAY gives the staged values to its first entity only",
    TrayRetiredFree: "TRAY takes retired numbers for free ones",
    TrayWaitingNotFree: "TRAY does not count the numbers that wait as free",
    TrayExactRefused: "TRAY is refused where it would fill the store exactly",
    TrayPartly: "a refused TRAY makes as many entities as there is room for",
    TrayTooManyAccepted: "TRAY makes as many entities as there is room for, and is never refused",
    TrayRefusedEmpties: "a refused TRAY empties the staged components",
    TrayKeepsStaged: "TRAY keeps the staged components",
    TrayNoneKeepsStaged: "TRAY of none keeps the staged components",
    TrayNoneRefused: "TRAY of none is refused in a full store",
    TrayEmptiesExcluded: "TRAY empties the excluded kinds",
    TrayHighestFirst: "TRAY reads its count highest byte first",
    TrayOneByte: "TRAY goes by the lower byte of its count",
    TrayTellsLive: "TRAY answers with the number of entities live",
    TrayTellsNothing: "TRAY answers by one byte",
    RefusalCountWraps: "the refusal count starts over after 4,294,967,295",
    RefusalCountHasStops: "the refusal count has stops too",
    CountsOfFirst: "every refusal counts against caller 0",
    SixteenAccepted: "16 is accepted as a caller",
    FifteenRefused: "15 is refused as a caller",
    CallerFolded: "a caller is taken by its lower four bits, and none is refused",
    SameCallerRefused: "setting the caller that is set is refused",
    CallerNotCounted: "19 is not counted",
    CallerCountsFirst: "19 counts against caller 0",
    CallerCountsAsked: "19 counts against the caller asked for, by its lower four bits",
    RefusedCallerSet: "a refused SETCALLER sets the caller, by its lower four bits",
    CallerStops: "19 stops the run",
    UnknownAboveTray: "4 begins above 0F",
    CallerOfRun: "the caller is forgotten at the end of a run",
    CallerFromNextRun: "SETCALLER sets the caller from the next run on",
    StopForgetsCaller: "a run that stops forgets the caller",
    RefusalForgetsCaller: "a refused command forgets the caller",
    WipeForgetsCaller: "WIPE forgets the caller",
    ApplyForgetsCaller: "APPLY forgets the caller",
    KillForgetsCaller: "KILL forgets the caller",
    EmptyForgetsCaller: "EMPTY forgets the caller",
    SetCallerWithoutRoom: "SETCALLER sets the caller also where there is no room for its answer",
    SetCallerEmptiesStaged: "SETCALLER empties the staged components",
    SetCallerEmptiesExcluded: "SETCALLER empties the excluded kinds",
    SetCallerEmptiesDraft: "SETCALLER empties the draft",
    SetCallerClearsCount: "SETCALLER clears the count of the caller that it sets",
    SetCallerTellsBefore: "SETCALLER answers with the caller before, a byte more",
    TallyOfFirst: "TALLY always answers caller 0's count",
    TallyOfAll: "TALLY answers the sum of all counts",
    EightCounts: "callers with the same lower three bits share a count",
    FullCountStopsAll: "a count at 4,294,967,295 stops those of all callers",
    TwoExcludedFound: "under the newer rule a ring of two kinds can be excluded",
    OneExcludedNone: "under the newer rule nothing is found with any kind excluded",
    RangeByOlder: "RANGE goes by the older rule in every store",
    RangeByNewer: "RANGE goes by the newer rule in every store",
    NewerGroupAlone: "under the newer rule, with nothing excluded, a group is found only if its ring is one kind",
    NewerKindAlone: "under the newer rule a kind alone is not found",
    NewerByStaged: "the newer rule goes by how many kinds are staged: two at most",
    NewerBySmaller: "the newer rule goes by the smaller group's ring",
    NewerByLargest: "the newer rule goes by the ring of the family's largest group",
    NewerCountsBare: "under the newer rule a ring of several kinds gives as many rows as entities have none of them",
    NewerNoneKeepsStaged: "where the newer rule finds nothing, RANGE keeps the staged components",
    NewerNoneKeepsExcluded: "where the newer rule finds nothing, RANGE keeps the excluded kinds",
    NewerNoneOneByte: "where the newer rule finds nothing, RANGE answers by one byte",
    NewerNoneFiveBytes: "where the newer rule finds nothing, RANGE answers by five bytes",
    NewerNoneFound: "where the newer rule finds nothing, RANGE answers found, and zeros",
    NewerNoneRows: "where the newer rule finds nothing, RANGE answers none, and the older rule's rows",
    NewerNoneRefused: "where the newer rule finds nothing, RANGE is refused",
    RuleOfRun: "the rule is forgotten at the end of a run",
    RefusalForgetsRule: "a refused command forgets the rule",
    WipeForgetsRule: "WIPE forgets the rule",
    ApplyForgetsRule: "APPLY forgets the rule",
    KillForgetsRule: "KILL forgets the rule",
    SetCallerForgetsRule: "SETCALLER forgets the rule",
    SetCallerSetsRule: "SETCALLER sets the rule too, by the caller's lowest bit",
    RuleInRoll: "the roll of a newer store has a byte more",
    RollByLiveList: "the roll follows the live list",
    RollByRegistration: "the roll's parts follow the order of registration",
    StartKeepsRefusalCount: "a second start keeps the refusal count",
    StartKeepsOthers: "a second start keeps the counts of the callers above 0",
    StartKeepsCaller: "a second start keeps the caller",
    StartKeepsNewer: "a second start keeps the newer rule",
    StartKeepsOlder: "a second start keeps the older rule",
    StartTurned: "a start takes the rule that it is not told",
    StartAlwaysOlder: "a start takes the older rule, whatever it is told",
    PlainStartNewer: "a start that is told no rule takes the newer",
    RefusedStartSetsRule: "a refused start sets the rule that it is told",
    TakeOtherLength: "TAKE answers at the other width's length",
    TakeNoneEight: "TAKE answers eight zeros for a kind that is not held, at either width",
    TakeRoomNine: "NOROOM of TAKE goes by nine bytes a kind, at either width",
    TakeRoomSeventeen: "NOROOM of TAKE goes by 17 bytes a kind, at either width",
    TakeUpperFirst: "TAKE answers a value's upper eight bytes first",
    HoldCutAtNine: "HOLD takes nine operand bytes, at either width",
    HoldCutAtSeventeen: "HOLD takes 17 operand bytes, at either width",
    UpperWordsLost: "HOLD loses a value's third and fourth word",
    ThirdWordTwice: "HOLD puts a value's third word in the fourth's place too",
    SwapsLowerWords: "walks swap the first two words of a value only",
    GapLowerWords: "a removed row's gap is closed with the first two words of a value only",
    ReplaceLowerWords: "inserting a held kind keeps the old value's third and fourth word",
    TrayLowerWords: "TRAY gives a value's third and fourth word to its first entity only",
    ColumnTwoWords: "*column* has two words a value, at either width",
    ColumnUpperFirst: "*column* has a value's upper words first",
    RollEight: "the roll has eight bytes a value, at either width",
    RollUpperFirst: "the roll has a value's upper eight bytes first",
    WidthInRoll: "the roll of a store of sixteen bytes has a byte more",
    WidthNotKept: "a store of sixteen bytes acts as one of eight",
    WidthOfRun: "the width is forgotten at the end of a run",
    RefusalForgetsWidth: "a refused command forgets the width",
    WipeForgetsWidth: "WIPE forgets the width",
    ApplyForgetsWidth: "APPLY forgets the width",
    StartKeepsSixteen: "a second start keeps a width of sixteen",
    StartKeepsEight: "a second start keeps a width of eight",
    PlainStartSixteen: "a start that is told no width takes sixteen",
    RefusedStartSetsWidth: "a refused start sets the width that it is told",
    WidthUnchecked: "a start accepts every width from 8 on",
    WidthsBetween: "a start accepts the widths between 8 and 16",
    NoWidthIsEight: "a start takes width 0 for 8",
    WidthFolded: "a start takes a width by its lower 32 bits",
    ShortBeforeWidth: "a start says that words are too few before it looks at the width",
    NeededBySix: "words needed go by six words a row, at either width",
    NeededByEight: "words needed go by eight words a row, at either width",
    NeededUnchecked: "words needed are told for every width",
}

const MOST_KINDS: usize = 16;
const MOST_GROUPS: usize = 64;
const CALLERS: usize = 16;

/// The two widths, in bytes of a value.
const EIGHT: usize = 8;
const SIXTEEN: usize = 16;

/// The refusal of a caller that is none.
const NO_CALLER: u8 = 0x13;

/// A refusal that never comes, for a fault.
const WIDE: u8 = 0x0d;

/// Places in `EXCLUDED`.
const NOTHING: usize = 0;
const RING_OF_THREE: usize = 3;
const OTHERS: usize = 4;

#[derive(Clone, Debug)]
struct Row {
    entity: Id,
    value: u128,
}

/// The first two words of one value, and the third and fourth of another.
fn mixed(lower: u128, upper: u128) -> u128 {
    lower % (1 << 64) + (upper >> 64 << 64)
}

/// A chain of groups: group g has the kinds of the rings up to its own.
#[derive(Clone, Debug)]
struct Family {
    new_kinds: Vec<Vec<u8>>,
    counts: Vec<usize>,
}

impl Family {
    fn kinds(&self, group: usize) -> Vec<u8> {
        self.new_kinds[..=group].concat()
    }

    fn arity(&self, group: usize) -> usize {
        self.new_kinds[..=group].iter().map(Vec::len).sum()
    }

    /// The kinds of each group, the smallest first.
    fn groups(&self) -> Vec<Vec<u8>> {
        (0..self.new_kinds.len()).map(|group| self.kinds(group)).collect()
    }

    fn all(&self) -> BTreeSet<u8> {
        self.new_kinds.iter().flatten().copied().collect()
    }

    fn own_group(&self, kind: u8) -> Option<usize> {
        self.new_kinds.iter().position(|kinds| kinds.contains(&kind))
    }
}

fn set(kinds: &[u8]) -> BTreeSet<u8> {
    kinds.iter().copied().collect()
}

/// The families as sets of kinds.
fn sets(families: &[Family]) -> Families {
    let bits = |group: &Vec<u8>| set(group).into_iter().map(|kind| 1u128 << kind).sum();
    let family = |family: &Family| family.groups().iter().map(bits).collect();
    families.iter().map(family).collect()
}

/// What 01 finds for a RANGE.
#[derive(Clone, Copy, Debug)]
struct Found {
    start: usize,
    end: usize,
    /// How many kinds the larger group's ring has; 0 where nothing is excluded.
    ring: usize,
    /// Whether the store's rule finds it too.
    is_found: bool,
}

#[derive(Clone, Debug)]
struct Store {
    fault: Option<Fault>,
    rule: Rule,
    n: usize,
    k: usize,
    /// The bytes of a value.
    value_bytes: usize,
    live: Vec<Id>,
    recycled: VecDeque<Id>,
    issued: usize,
    registered: Vec<u8>,
    columns: BTreeMap<u8, Vec<Row>>,
    layout: Vec<Family>,
    draft: Vec<Family>,
    staged: Vec<(u8, u128)>,
    excluded: Vec<u8>,
    caller: u8,
    /// The caller set last, which a fault makes the caller at the end of the run only.
    set_last: u8,
    refusals: [u32; CALLERS],
    commands: u64,
    seen: Seen,
    ranged: Ranged,
}

/// The plain side.
#[derive(Clone, Debug)]
pub struct Reference {
    fault: Option<Fault>,
    store: Option<Store>,
}

impl Reference {
    pub fn new() -> Self {
        Self::with(None)
    }

    pub fn with(fault: Option<Fault>) -> Self {
        Self { fault, store: None }
    }

    /// Caller and counts after a start: all 0, but for faults.
    fn started_counts(&self) -> Counts {
        let (mut caller, mut refusals) = (0, [0; CALLERS]);
        if let Some(old) = &self.store {
            match self.fault {
                Some(Fault::StartKeepsRefusalCount) => refusals[0] = old.refusals[0],
                Some(Fault::StartKeepsOthers) => refusals[1..].copy_from_slice(&old.refusals[1..]),
                Some(Fault::StartKeepsCaller) => caller = old.caller,
                _ => {}
            }
        }
        (caller, refusals)
    }

    /// The rule after a start: the one told, but for faults.
    fn started_rule(&self, told: Rule) -> Rule {
        let before = self.store.as_ref().map(|store| store.rule);
        match (self.fault, told) {
            (Some(Fault::StartKeepsNewer), _) if before == Some(Rule::Newer) => Rule::Newer,
            (Some(Fault::StartKeepsOlder), _) if before == Some(Rule::Older) => Rule::Older,
            (Some(Fault::StartAlwaysOlder), _) | (Some(Fault::StartTurned), Rule::Newer) => Rule::Older,
            (Some(Fault::StartTurned), Rule::Older) => Rule::Newer,
            _ => told,
        }
    }

    /// The width after a start: the one told, but for faults.
    fn started_width(&self, told: usize) -> usize {
        let before = self.store.as_ref().map(|store| store.value_bytes);
        match self.fault {
            Some(Fault::StartKeepsSixteen) if before == Some(SIXTEEN) => SIXTEEN,
            Some(Fault::StartKeepsEight) if before == Some(EIGHT) => EIGHT,
            Some(Fault::WidthNotKept) => EIGHT,
            Some(Fault::NoWidthIsEight) if told == 0 => EIGHT,
            Some(Fault::WidthFolded) => told % (1 << 32),
            _ if told == EIGHT => EIGHT,
            _ => SIXTEEN,
        }
    }

    /// A refused start leaves all as it is.
    fn refused_start(&mut self, number: u32, told: Told) -> u32 {
        match (self.fault, &mut self.store) {
            (Some(Fault::RefusedStartSetsRule), Some(store)) => store.rule = told.rule,
            (Some(Fault::RefusedStartSetsWidth), Some(store)) => {
                store.value_bytes = if told.value_bytes == EIGHT { EIGHT } else { SIXTEEN };
            }
            _ => {}
        }
        number
    }

    /// Whether there is such a store, but for its width.
    fn has_size(n: usize, k: usize) -> bool {
        n >= 1 && n <= 4096 && k >= 1 && k <= 128
    }

    /// Whether a store may have the width: 8 or 16.
    fn is_width(&self, value_bytes: usize) -> bool {
        match self.fault {
            Some(Fault::WidthUnchecked) => value_bytes >= EIGHT,
            Some(Fault::WidthsBetween) => value_bytes >= EIGHT && value_bytes <= SIXTEEN,
            Some(Fault::NoWidthIsEight) if value_bytes == 0 => true,
            Some(Fault::WidthFolded) => [EIGHT, SIXTEEN].contains(&(value_bytes % (1 << 32))),
            _ => value_bytes == EIGHT || value_bytes == SIXTEEN,
        }
    }

    /// How many words such a store needs.
    fn needed(&self, n: usize, k: usize, value_bytes: usize) -> usize {
        let a_row = match self.fault {
            Some(Fault::NeededBySix) => 6,
            Some(Fault::NeededByEight) => 8,
            _ if value_bytes == SIXTEEN => 8,
            _ => 6,
        };
        1024 + 16 * n + k * (8 + a_row * n)
    }
}

impl Side for Reference {
    fn name(&self) -> &'static str {
        "reference"
    }

    fn start(&mut self, words: usize, n: usize, k: usize) -> u32 {
        let (value_bytes, rule) = match self.fault {
            Some(Fault::PlainStartNewer) => (EIGHT, Rule::Newer),
            Some(Fault::PlainStartSixteen) => (SIXTEEN, Rule::Older),
            _ => (EIGHT, Rule::Older),
        };
        self.start_with(words, n, k, Told { value_bytes, rule })
    }

    fn start_with(&mut self, words: usize, n: usize, k: usize, told: Told) -> u32 {
        let is_short = Self::has_size(n, k) && words < self.needed(n, k, told.value_bytes);
        if is_short && self.fault == Some(Fault::ShortBeforeWidth) {
            return self.refused_start(2, told);
        }
        if !Self::has_size(n, k) || !self.is_width(told.value_bytes) {
            return self.refused_start(1, told);
        }
        if is_short {
            return self.refused_start(2, told);
        }
        let (caller, refusals) = self.started_counts();
        self.store = Some(Store {
            fault: self.fault,
            rule: self.started_rule(told.rule),
            n,
            k,
            value_bytes: self.started_width(told.value_bytes),
            live: vec![],
            recycled: VecDeque::new(),
            issued: 0,
            registered: vec![],
            columns: BTreeMap::new(),
            layout: vec![],
            draft: vec![],
            staged: vec![],
            excluded: vec![],
            caller,
            set_last: caller,
            refusals,
            commands: 0,
            seen: Seen::default(),
            ranged: Ranged::default(),
        });
        0
    }

    fn words_needed(&mut self, n: usize, k: usize, value_bytes: usize) -> usize {
        let is_width = self.is_width(value_bytes) || self.fault == Some(Fault::NeededUnchecked);
        match Self::has_size(n, k) && is_width {
            true => self.needed(n, k, value_bytes),
            false => 0,
        }
    }

    fn preset(&mut self, preset: &Preset) {
        let store = self.store.as_mut().unwrap();
        store.live = preset.live.clone();
        store.recycled = preset.recycled.iter().copied().collect();
        store.issued = preset.issued;
        store.caller = preset.caller;
        store.set_last = preset.caller;
        store.refusals = preset.refusals;
    }

    fn run(&mut self, tape: &[u8], out: &mut [u8]) -> Ran {
        let Some(store) = &mut self.store else {
            return Ran {
                stop: 3,
                ..Ran::default()
            };
        };
        store.run(tape, out)
    }

    fn column(&mut self, kind: u8, values: bool, start: usize, end: usize) -> Vec<u32> {
        if self.column_number(kind, values, start, end) != 0 {
            return vec![];
        }
        let store = self.store.as_ref().unwrap();
        let mut words = vec![];
        for row in &store.columns[&kind][start..end] {
            match values {
                false => words.extend([row.entity.0, row.entity.1]),
                true => words.extend(store.value_words(row.value)),
            }
        }
        words
    }

    fn column_number(&mut self, kind: u8, _values: bool, start: usize, end: usize) -> u32 {
        let Some(store) = &self.store else { return 3 };
        match store.columns.get(&kind) {
            None => 7,
            Some(rows) if start > end || end > rows.len() => 16,
            Some(_) => 0,
        }
    }

    fn roll(&mut self, out: &mut [u8]) -> (u32, usize) {
        let Some(store) = &self.store else { return (3, 0) };
        let roll = store.roll();
        if out.len() < roll.len() {
            return (6, 0);
        }
        out[..roll.len()].copy_from_slice(&roll);
        (0, roll.len())
    }

    fn live(&mut self) -> Vec<Id> {
        self.store.as_ref().map_or(vec![], |store| store.live.clone())
    }

    fn families(&mut self) -> [Families; 2] {
        self.store
            .as_ref()
            .map_or([vec![], vec![]], |store| [sets(&store.draft), sets(&store.layout)])
    }

    fn counts(&mut self) -> Counts {
        self.store
            .as_ref()
            .map_or((0, [0; CALLERS]), |store| (store.caller, store.refusals))
    }

    fn rule(&mut self) -> Option<Rule> {
        Some(self.store.as_ref().map_or(Rule::Older, |store| store.rule))
    }

    fn value_bytes(&mut self) -> Option<usize> {
        Some(self.store.as_ref().map_or(EIGHT, |store| store.value_bytes))
    }
}

impl Known for Reference {
    fn registered(&self) -> Vec<u8> {
        let columns = self.store.as_ref().map(|store| store.columns.keys());
        columns.map_or(vec![], |kinds| kinds.copied().collect())
    }

    fn length(&self, kind: u8) -> Option<usize> {
        Some(self.store.as_ref()?.columns.get(&kind)?.len())
    }

    fn free(&self) -> usize {
        self.store.as_ref().map_or(0, Store::free)
    }

    fn seen(&self) -> Seen {
        self.store.as_ref().map_or(Seen::default(), |store| store.seen)
    }

    fn ranged(&self) -> Ranged {
        self.store.as_ref().map_or(Ranged::default(), |store| store.ranged)
    }
}

fn number(bytes: &[u8]) -> u128 {
    bytes
        .iter()
        .rev()
        .fold(0, |number, &byte| number * 256 + u128::from(byte))
}

type Answer = Result<Vec<u8>, u8>;

impl Store {
    fn has(&self, fault: Fault) -> bool {
        self.fault == Some(fault)
    }

    /// Operand bytes by command byte.
    fn operands(&self, byte: u8) -> usize {
        match byte {
            0x01 | 0x0b | 0x10 => 1,
            0x02 if self.has(Fault::HoldCutAtNine) => 9,
            0x02 if self.has(Fault::HoldCutAtSeventeen) => 17,
            0x02 => 1 + self.value_bytes,
            0x04 | 0x05 | 0x06 | 0x07 => 8,
            0x0f => 2,
            _ => 0,
        }
    }

    /// A value as it is told; with the fault the upper eight bytes of sixteen come first.
    fn told(&self, value: u128, upper_first: Fault) -> u128 {
        match self.has(upper_first) && self.value_bytes == SIXTEEN {
            true => value.rotate_left(64),
            false => value,
        }
    }

    /// How many bytes of a value are told; with the fault eight.
    fn told_bytes(&self, eight: Fault) -> usize {
        match self.has(eight) {
            true => EIGHT,
            false => self.value_bytes,
        }
    }

    /// The words of a value, the lowest first.
    fn value_words(&self, value: u128) -> impl Iterator<Item = u32> {
        let value = self.told(value, Fault::ColumnUpperFirst);
        let words = self.told_bytes(Fault::ColumnTwoWords) / 4;
        (0..words).map(move |word| (value >> (32 * word)) as u32)
    }

    fn run(&mut self, tape: &[u8], out: &mut [u8]) -> Ran {
        let ran = self.run_commands(tape, out);
        match self.fault {
            Some(Fault::CallerOfRun) => self.caller = 0,
            Some(Fault::CallerFromNextRun) => self.caller = self.set_last,
            Some(Fault::StopForgetsCaller) if ran.stop != 0 => self.caller = 0,
            _ => {}
        }
        self.forget_rule(Fault::RuleOfRun);
        self.forget_width(Fault::WidthOfRun);
        ran
    }

    fn run_commands(&mut self, tape: &[u8], out: &mut [u8]) -> Ran {
        let mut ran = Ran::default();
        loop {
            let rest = &tape[ran.read..];
            if rest.is_empty() {
                return ran;
            }
            let stop = self.stop(rest, out.len() - ran.written);
            if stop != 0 || self.has(Fault::StopAtOnce) {
                if self.has(Fault::RefusalCountHasStops) {
                    self.count_refusal(self.caller);
                }
                if stop == 6 && rest[0] == 0x10 && self.has(Fault::SetCallerWithoutRoom) {
                    self.caller = rest[1] % CALLERS as u8;
                }
                ran.stop = stop.max(u32::from(self.has(Fault::StopAtOnce)) * 4);
                return ran;
            }
            let (byte, width) = (rest[0], self.operands(rest[0]));
            let answer = self.answer(byte, &rest[1..1 + width]);
            self.seen[usize::from(byte)][usize::from(answer[0])] += 1;
            out[ran.written..ran.written + answer.len()].copy_from_slice(&answer);
            ran.written += answer.len();
            ran.read += 1 + width;
            ran.commands += 1;
        }
    }

    /// 4, 5 or 6 where the run stops before the next command, else 0.
    fn stop(&self, rest: &[u8], free: usize) -> u32 {
        let last = if self.has(Fault::UnknownAboveTray) { 0x0f } else { 0x10 };
        if rest[0] < 0x01 || rest[0] > last {
            return match self.has(Fault::CutBeforeUnknown) && rest.len() == 1 {
                true => 5,
                false => 4,
            };
        }
        let width = self.operands(rest[0]);
        if rest.len() < 1 + width {
            return 5;
        }
        let needed = match (self.fault, rest[0]) {
            (Some(Fault::RoomByAnswerGiven), byte) => self.clone().answer(byte, &rest[1..1 + width]).len(),
            (Some(Fault::TakeRoomNine), 0x05) => 1 + 9 * self.staged.len(),
            (Some(Fault::TakeRoomSeventeen), 0x05) => 1 + 17 * self.staged.len(),
            (_, byte) => self.accepted_length(byte),
        };
        match free < needed {
            true => 6,
            false if self.has(Fault::CallerStops) && rest[0] == 0x10 && self.is_no_caller(rest[1]) => NO_CALLER.into(),
            false => 0,
        }
    }

    fn accepted_length(&self, byte: u8) -> usize {
        1 + match byte {
            0x01 => 1,
            0x03 => 8,
            0x05 => (1 + self.taken_bytes()) * self.staged.len(),
            0x09 => 1,
            0x0c => 9,
            0x0e => 4,
            0x0f => 2,
            0x10 if self.has(Fault::SetCallerTellsBefore) => 1,
            _ => 0,
        }
    }

    /// The bytes of a value that TAKE answers.
    fn taken_bytes(&self) -> usize {
        match self.has(Fault::TakeOtherLength) {
            true => EIGHT + SIXTEEN - self.value_bytes,
            false => self.value_bytes,
        }
    }

    fn answer(&mut self, byte: u8, operands: &[u8]) -> Vec<u8> {
        self.commands += 1;
        if self.has(Fault::RefuseAll) {
            self.count_refusal(self.caller);
            return vec![7];
        }
        if self.has(Fault::AcknowledgeAfterFirst) && self.commands > 1 {
            return vec![0; self.accepted_length(byte)];
        }
        let before = self.has(Fault::AlterNothing).then(|| self.clone());
        let answer = match self.command(byte, operands) {
            Ok(mut bytes) => {
                bytes.insert(0, 0);
                bytes
            }
            Err(refusal) => {
                self.refused(refusal, operands);
                vec![refusal]
            }
        };
        if let Some(before) = before {
            *self = before;
        }
        answer
    }

    /// A refusal counts against the caller that is set, and does nothing else.
    fn refused(&mut self, refusal: u8, operands: &[u8]) {
        match self.fault {
            Some(Fault::CountsOfFirst) => self.count_refusal(0),
            Some(Fault::CallerCountsFirst) if refusal == NO_CALLER => self.count_refusal(0),
            Some(Fault::CallerCountsAsked) if refusal == NO_CALLER => self.count_refusal(operands[0]),
            Some(Fault::CallerNotCounted) if refusal == NO_CALLER => {}
            _ => self.count_refusal(self.caller),
        }
        match self.fault {
            Some(Fault::RefusalEmptiesStaged) => self.staged.clear(),
            Some(Fault::RefusalForgetsCaller) => self.caller = 0,
            _ => {}
        }
        self.forget_rule(Fault::RefusalForgetsRule);
        self.forget_width(Fault::RefusalForgetsWidth);
    }

    /// One more, unless it is the last number.
    fn count_refusal(&mut self, caller: u8) {
        let at = self.count_place(caller);
        let is_stopped = self.has(Fault::FullCountStopsAll) && self.refusals.contains(&u32::MAX);
        self.refusals[at] = match self.refusals[at].checked_add(1) {
            Some(count) if !is_stopped => count,
            None if self.has(Fault::RefusalCountWraps) => 0,
            _ => self.refusals[at],
        };
    }

    /// Where a caller's count stands. A caller above 15 comes by faults alone.
    fn count_place(&self, caller: u8) -> usize {
        let counts = if self.has(Fault::EightCounts) { 8 } else { CALLERS };
        usize::from(caller) % counts
    }

    fn tally(&self) -> u32 {
        match self.fault {
            Some(Fault::TallyOfFirst) => self.refusals[0],
            Some(Fault::TallyOfAll) => self.refusals.iter().fold(0, |sum, &count| sum.saturating_add(count)),
            _ => self.refusals[self.count_place(self.caller)],
        }
    }

    fn is_no_caller(&self, caller: u8) -> bool {
        match self.fault {
            Some(Fault::SixteenAccepted) => caller > 16,
            Some(Fault::FifteenRefused) => caller > 14,
            Some(Fault::CallerFolded) => false,
            Some(Fault::SameCallerRefused) => caller > 15 || caller == self.caller,
            _ => caller > 15,
        }
    }

    fn set_caller(&mut self, caller: u8) -> Answer {
        if self.is_no_caller(caller) {
            if self.has(Fault::RefusedCallerSet) {
                self.caller = caller % CALLERS as u8;
            }
            return Err(NO_CALLER);
        }
        let before = self.caller;
        self.set_last = caller;
        match self.fault {
            Some(Fault::CallerFromNextRun) => {}
            Some(Fault::CallerFolded) => self.caller = caller % CALLERS as u8,
            _ => self.caller = caller,
        }
        match self.fault {
            Some(Fault::SetCallerEmptiesStaged) => self.staged.clear(),
            Some(Fault::SetCallerEmptiesExcluded) => self.excluded.clear(),
            Some(Fault::SetCallerEmptiesDraft) => self.draft.clear(),
            Some(Fault::SetCallerClearsCount) => self.refusals[usize::from(caller)] = 0,
            Some(Fault::SetCallerTellsBefore) => return Ok(vec![before]),
            Some(Fault::SetCallerSetsRule) => self.rule = [Rule::Older, Rule::Newer][usize::from(caller % 2)],
            _ => {}
        }
        self.forget_rule(Fault::SetCallerForgetsRule);
        Ok(vec![])
    }

    /// The caller is 0 again, where there is the fault.
    fn forget_caller(&mut self, fault: Fault) {
        if self.has(fault) {
            self.caller = 0;
        }
    }

    /// The rule is the older, where there is the fault.
    fn forget_rule(&mut self, fault: Fault) {
        if self.has(fault) {
            self.rule = Rule::Older;
        }
    }

    /// The width is eight bytes, where there is the fault.
    fn forget_width(&mut self, fault: Fault) {
        if self.has(fault) {
            self.value_bytes = EIGHT;
        }
    }

    fn command(&mut self, byte: u8, operands: &[u8]) -> Answer {
        let entity = || (number(&operands[..4]) as u32, number(&operands[4..]) as u32);
        match byte {
            0x01 => self.register(operands[0]),
            0x02 => self.stage(operands[0], number(&operands[1..])),
            0x03 => self.create(),
            0x04 => self.put(entity()),
            0x05 => self.take(entity()),
            0x06 => self.drop(entity()),
            0x07 => self.kill(entity()),
            0x08 => self.wipe(),
            0x09 => self.group(),
            0x0a => self.apply(),
            0x0b => self.exclude(operands[0]),
            0x0c => self.range(),
            0x0d => self.empty(),
            0x0e => Ok(self.tally().to_le_bytes().to_vec()),
            0x0f => self.tray(operands),
            _ => self.set_caller(operands[0]),
        }
    }

    fn register(&mut self, kind: u8) -> Answer {
        if kind > 127 {
            return Err(7);
        }
        let known = self.registered.contains(&kind);
        if self.registered.len() == self.k && (!known || self.has(Fault::KindsBeforeKnown)) {
            return Err(8);
        }
        if !known {
            self.registered.push(kind);
            self.columns.insert(kind, vec![]);
        }
        Ok(vec![u8::from(!known)])
    }

    fn stage(&mut self, kind: u8, value: u128) -> Answer {
        if kind > 127 || !self.registered.contains(&kind) {
            return Err(7);
        }
        if self.staged.iter().any(|held| held.0 == kind) {
            return Err(9);
        }
        if self.staged.len() == if self.has(Fault::FifteenStaged) { 15 } else { MOST_KINDS } {
            return Err(10);
        }
        self.staged.push((kind, self.held(value)));
        Ok(vec![])
    }

    /// A value as it is kept, but for faults.
    fn held(&self, value: u128) -> u128 {
        match self.fault {
            Some(Fault::UpperWordsLost) => mixed(value, 0),
            Some(Fault::ThirdWordTwice) => value % (1 << 96) + (value >> 64 << 96),
            _ => value,
        }
    }

    fn exclude(&mut self, kind: u8) -> Answer {
        if kind > 127 || !self.registered.contains(&kind) {
            return Err(7);
        }
        let is_staged = self.staged.iter().any(|held| held.0 == kind);
        if self.excluded.contains(&kind) || self.has(Fault::AgainAcrossLists) && is_staged {
            return Err(9);
        }
        if self.excluded.len() == MOST_KINDS {
            return Err(10);
        }
        self.excluded.push(kind);
        Ok(vec![])
    }

    fn empty(&mut self) -> Answer {
        self.forget_caller(Fault::EmptyForgetsCaller);
        self.staged.clear();
        if !self.has(Fault::EmptyKeepsExcluded) {
            self.excluded.clear();
        }
        Ok(vec![])
    }

    fn same(&self, a: Id, b: Id) -> bool {
        a.0 == b.0 && (a.1 == b.1 || self.has(Fault::IgnoreVersions))
    }

    fn is_live(&self, entity: Id) -> bool {
        self.live.iter().any(|&live| self.same(live, entity))
    }

    fn place(&self, kind: u8, entity: Id) -> Option<usize> {
        self.columns[&kind].iter().position(|row| self.same(row.entity, entity))
    }

    fn swap(&mut self, kind: u8, a: usize, b: usize) {
        let is_half = self.has(Fault::SwapsLowerWords);
        let rows = self.columns.get_mut(&kind).unwrap();
        if a < rows.len() && b < rows.len() {
            let (one, other) = (rows[a].value, rows[b].value);
            rows.swap(a, b);
            if is_half {
                rows[a].value = mixed(other, one);
                rows[b].value = mixed(one, other);
            }
        }
    }

    fn create(&mut self) -> Answer {
        let full = match self.fault {
            Some(Fault::FullByLive) => self.live.len() == self.n,
            _ => self.issued == self.n,
        };
        if self.recycled.is_empty() && full {
            return Err(12);
        }
        let entity = self.issue();
        self.insert(entity);
        Ok([entity.0.to_le_bytes(), entity.1.to_le_bytes()].concat())
    }

    /// The longest waiting number, else the next index at version 1, at the end of the live list.
    fn issue(&mut self) -> Id {
        let longest = match self.has(Fault::LastInFirstOut) {
            true => self.recycled.pop_back(),
            false => self.recycled.pop_front(),
        };
        let entity = longest.unwrap_or_else(|| self.next_index());
        self.live.push(entity);
        entity
    }

    fn next_index(&mut self) -> Id {
        self.issued += 1;
        (self.issued as u32 - 1, 1)
    }

    /// The numbers waiting and those not yet issued.
    fn free(&self) -> usize {
        self.recycled.len() + self.n.saturating_sub(self.issued)
    }

    /// As many NEWs, each with the same list staged; none of them where there are too few numbers.
    fn tray(&mut self, operands: &[u8]) -> Answer {
        let count = self.tray_count(operands);
        let free = self.tray_free();
        if free < count && !self.has(Fault::TrayTooManyAccepted) || self.is_wrongly_full(count, free) {
            return self.refused_tray(free);
        }
        let keeps = self.has(Fault::TrayKeepsStaged) || count == 0 && self.has(Fault::TrayNoneKeepsStaged);
        let staged = self.staged.clone();
        // Fewer only where a fault lets too many pass.
        let made = count.min(free);
        match self.groups_tray_wrongly() {
            false => self.news(made, &staged),
            true => self.extend(made, &staged),
        }
        self.staged = if keeps { staged } else { vec![] };
        if self.has(Fault::TrayEmptiesExcluded) {
            self.excluded.clear();
        }
        Ok(self.tray_answer(count))
    }

    fn tray_count(&self, operands: &[u8]) -> usize {
        let count = match self.fault {
            Some(Fault::TrayHighestFirst) => number(&[operands[1], operands[0]]),
            Some(Fault::TrayOneByte) => number(&operands[..1]),
            _ => number(operands),
        };
        count as usize
    }

    fn tray_free(&self) -> usize {
        match self.fault {
            Some(Fault::TrayRetiredFree) => self.n.saturating_sub(self.live.len()),
            Some(Fault::TrayWaitingNotFree) => self.free() - self.recycled.len(),
            _ => self.free(),
        }
    }

    fn is_wrongly_full(&self, count: usize, free: usize) -> bool {
        match self.fault {
            Some(Fault::TrayExactRefused) => count > 0 && count == free,
            Some(Fault::TrayNoneRefused) => count == 0 && free == 0,
            _ => false,
        }
    }

    fn refused_tray(&mut self, free: usize) -> Answer {
        if self.has(Fault::TrayPartly) {
            let staged = self.staged.clone();
            self.news(free, &staged);
            self.staged = staged;
        }
        if self.has(Fault::TrayRefusedEmpties) {
            self.staged.clear();
        }
        Err(12)
    }

    fn tray_answer(&self, count: usize) -> Vec<u8> {
        match self.fault {
            Some(Fault::TrayTellsLive) => (self.live.len() as u16).to_le_bytes().to_vec(),
            Some(Fault::TrayTellsNothing) => vec![],
            _ => (count as u16).to_le_bytes().to_vec(),
        }
    }

    /// NEW so many times, each time with these components.
    fn news(&mut self, count: usize, staged: &[(u8, u128)]) {
        for i in 0..count {
            self.staged = staged.to_vec();
            match self.fault {
                Some(Fault::TrayValuesOnce) if i > 0 => self.staged.iter_mut().for_each(|held| held.1 = 0),
                Some(Fault::TrayLowerWords) if i > 0 => {
                    self.staged.iter_mut().for_each(|held| held.1 = mixed(held.1, 0));
                }
                _ => {}
            }
            let entity = match self.has(Fault::TrayNewFirst) && self.issued < self.n {
                true => self.new_index(),
                false => self.issue(),
            };
            self.insert(entity);
        }
    }

    fn new_index(&mut self) -> Id {
        let entity = self.next_index();
        self.live.push(entity);
        entity
    }

    fn groups_tray_wrongly(&self) -> bool {
        matches!(
            self.fault,
            Some(
                Fault::TrayUngrouped
                    | Fault::TrayFirstGrouped
                    | Fault::TrayFirstPassedOver
                    | Fault::TrayLastFirst
                    | Fault::TrayLastKind
            )
        )
    }

    /// All insertions first, and then grouping that has a fault.
    fn extend(&mut self, count: usize, staged: &[(u8, u128)]) {
        let mut made: Vec<Id> = (0..count).map(|_| self.issue()).collect();
        made.iter().for_each(|&entity| self.insert_rows(entity, staged));
        let mut touching = staged;
        match self.fault {
            Some(Fault::TrayUngrouped) => made.clear(),
            Some(Fault::TrayFirstGrouped) => made.truncate(1),
            Some(Fault::TrayFirstPassedOver) if count > 0 => made = made.split_off(1),
            Some(Fault::TrayLastFirst) => made.reverse(),
            Some(Fault::TrayLastKind) => touching = &staged[staged.len().saturating_sub(1)..],
            _ => {}
        }
        for entity in made {
            self.enter_touched(entity, touching);
        }
    }

    fn put(&mut self, entity: Id) -> Answer {
        if !self.is_live(entity) {
            return Err(11);
        }
        self.insert(entity);
        Ok(vec![])
    }

    /// All parts go in, then the touched families' groups are walked upward.
    fn insert(&mut self, entity: Id) {
        let staged = std::mem::take(&mut self.staged);
        self.insert_rows(entity, &staged);
        self.enter_touched(entity, &staged);
    }

    fn insert_rows(&mut self, entity: Id, staged: &[(u8, u128)]) {
        for &(kind, value) in staged {
            let held = self.place(kind, entity);
            let (appends, keeps) = (self.has(Fault::ReplaceAppends), self.has(Fault::ReplaceKeepsValue));
            let is_half = self.has(Fault::ReplaceLowerWords);
            let rows = self.columns.get_mut(&kind).unwrap();
            match held {
                Some(place) if appends => {
                    rows.remove(place);
                    rows.push(Row { entity, value });
                }
                Some(place) if is_half => rows[place].value = mixed(value, rows[place].value),
                Some(place) if !keeps => rows[place].value = value,
                Some(_) => {}
                None => rows.push(Row { entity, value }),
            }
        }
    }

    fn enter_touched(&mut self, entity: Id, staged: &[(u8, u128)]) {
        for family in 0..self.layout.len() {
            let touches = |&(kind, _): &(u8, u128)| {
                self.layout[family].own_group(kind).is_some()
                    && !self.is_sixteenth(Fault::SixteenthPutAlone, family, kind)
            };
            if staged.iter().any(touches) {
                self.enter(family, entity);
            }
        }
    }

    fn enter(&mut self, family: usize, entity: Id) {
        for group in 0..self.layout[family].new_kinds.len() {
            if self.is_64th(Fault::UpwardOneShort, family, group) {
                return;
            }
            let (family, group) = self.folded(Fault::UpwardFolded, family, group);
            let new = self.layout[family].new_kinds[group].clone();
            let asked = |kind: u8| !self.is_sixteenth(Fault::SixteenthNotAsked, family, kind);
            if new
                .iter()
                .any(|&kind| asked(kind) && self.place(kind, entity).is_none())
            {
                match self.has(Fault::GoOnUpward) {
                    true => continue,
                    false => return,
                }
            }
            let count = self.layout[family].counts[group];
            if self.place(new[0], entity).is_some_and(|place| place < count) {
                continue;
            }
            for kind in self.swapped(family, group) {
                if let Some(place) = self.place(kind, entity) {
                    self.swap(kind, place, count);
                }
            }
            self.layout[family].counts[group] += 1;
        }
    }

    /// The kinds in whose columns a walk swaps at a group.
    fn swapped(&self, family: usize, group: usize) -> Vec<u8> {
        let mut kinds = match self.has(Fault::SwapNewKindsOnly) {
            true => self.layout[family].new_kinds[group].clone(),
            false => self.layout[family].kinds(group),
        };
        kinds.retain(|&kind| !self.is_sixteenth(Fault::SixteenthNotSwapped, family, kind));
        kinds
    }

    /// Leaves a group, if the entity is inside.
    fn leave(&mut self, family: usize, group: usize, entity: Id) {
        let new = self.layout[family].new_kinds[group].clone();
        let count = self.layout[family].counts[group];
        let inside = new
            .iter()
            .all(|&kind| self.place(kind, entity).is_some_and(|place| place < count));
        if !inside {
            return;
        }
        for kind in self.swapped(family, group) {
            if let Some(place) = self.place(kind, entity) {
                self.swap(kind, place, count - 1);
            }
        }
        self.layout[family].counts[group] -= 1;
    }

    /// The groups from `lowest` to the family's largest, which are left the largest first.
    fn groups_from(&self, family: usize, lowest: usize) -> Vec<usize> {
        let mut groups: Vec<usize> = (lowest..self.layout[family].new_kinds.len()).rev().collect();
        match self.fault {
            Some(Fault::SmallestFirst) => groups.reverse(),
            Some(Fault::LeaveOwnGroupOnly) => groups = vec![lowest],
            _ => {}
        }
        groups
    }

    /// How many groups stand before this one in the layout.
    fn position(&self, family: usize, group: usize) -> usize {
        let before = &self.layout[..family];
        before.iter().map(|family| family.new_kinds.len()).sum::<usize>() + group
    }

    /// Whether there is the fault, and the group is the last that a layout has room for.
    fn is_64th(&self, fault: Fault, family: usize, group: usize) -> bool {
        self.has(fault) && self.position(family, group) == MOST_GROUPS - 1
    }

    /// Whether there is the fault, and the kind is the last that its family has room for.
    fn is_sixteenth(&self, fault: Fault, family: usize, kind: u8) -> bool {
        self.has(fault) && self.layout[family].new_kinds.concat().get(MOST_KINDS - 1) == Some(&kind)
    }

    /// The family and group themselves; with the fault those at the position's remainder by 32.
    fn folded(&self, fault: Fault, family: usize, group: usize) -> (usize, usize) {
        if !self.has(fault) {
            return (family, group);
        }
        let length = |family: usize| self.layout[family].new_kinds.len();
        let mut position = self.position(family, group) % 32;
        let mut family = 0;
        while position >= length(family) {
            position -= length(family);
            family += 1;
        }
        (family, position)
    }

    fn remove_rows(&mut self, entity: Id, kinds: &[u8]) -> Vec<Option<u128>> {
        kinds.iter().map(|&kind| self.remove_row(entity, kind)).collect()
    }

    /// The row goes, and the last one takes its place.
    fn remove_row(&mut self, entity: Id, kind: u8) -> Option<u128> {
        let place = self.place(kind, entity)?;
        let (shifts, is_half) = (self.has(Fault::RowsShift), self.has(Fault::GapLowerWords));
        let rows = self.columns.get_mut(&kind)?;
        let value = match shifts {
            true => rows.remove(place).value,
            false => rows.swap_remove(place).value,
        };
        if let Some(moved) = rows.get_mut(place).filter(|_| is_half) {
            moved.value = mixed(moved.value, value);
        }
        Some(value)
    }

    /// Before any part goes, the groups from each removed kind's own are left.
    fn remove(&mut self, entity: Id, kinds: &[u8]) -> Vec<Option<u128>> {
        let early = self
            .has(Fault::RemoveBeforeLeaving)
            .then(|| self.remove_rows(entity, kinds));
        for family in 0..self.layout.len() {
            let walks = |kind: &&u8| !self.is_sixteenth(Fault::SixteenthRemovedAlone, family, **kind);
            let own = kinds.iter().filter(walks);
            let own = own.filter_map(|&kind| self.layout[family].own_group(kind));
            if let Some(lowest) = own.min() {
                let lowest = if self.has(Fault::LeaveFromSmallest) { 0 } else { lowest };
                for group in self.groups_from(family, lowest) {
                    if self.is_64th(Fault::RemovalOneShort, family, group) {
                        continue;
                    }
                    let (family, group) = self.folded(Fault::RemovalFolded, family, group);
                    self.leave(family, group, entity);
                }
            }
        }
        early.unwrap_or_else(|| self.remove_rows(entity, kinds))
    }

    fn take(&mut self, entity: Id) -> Answer {
        if !self.is_live(entity) {
            return Err(11);
        }
        let mut staged = std::mem::take(&mut self.staged);
        if self.has(Fault::TakeByRisingKind) {
            staged.sort();
        }
        let kinds: Vec<u8> = staged.iter().map(|held| held.0).collect();
        let mut answer = vec![];
        for (value, held) in self.remove(entity, &kinds).into_iter().zip(staged) {
            let missing = if self.has(Fault::TakeGarbage) { held.1 } else { 0 };
            answer.push(u8::from(value.is_some()));
            answer.extend(self.taken(value, missing));
        }
        Ok(answer)
    }

    /// The bytes of a value that was taken, or of what stands for none.
    fn taken(&self, value: Option<u128>, missing: u128) -> Vec<u8> {
        let length = match value {
            None if self.has(Fault::TakeNoneEight) => EIGHT,
            _ => self.taken_bytes(),
        };
        let value = self.told(value.unwrap_or(missing), Fault::TakeUpperFirst);
        value.to_le_bytes()[..length].to_vec()
    }

    fn drop(&mut self, entity: Id) -> Answer {
        if !self.is_live(entity) {
            return Err(11);
        }
        let kinds: Vec<u8> = std::mem::take(&mut self.staged).iter().map(|held| held.0).collect();
        self.remove(entity, &kinds);
        Ok(vec![])
    }

    fn kill(&mut self, entity: Id) -> Answer {
        let Some(place) = self.live.iter().position(|&live| self.same(live, entity)) else {
            return Err(11);
        };
        if !self.has(Fault::KillLeavesNoGroup) {
            for family in 0..self.layout.len() {
                for group in self.groups_from(family, 0) {
                    if !self.is_64th(Fault::KillOneShort, family, group) {
                        self.leave(family, group, entity);
                    }
                }
            }
        }
        let kinds = self.registered.clone();
        self.remove_rows(entity, &kinds);
        match self.has(Fault::LiveListShifts) {
            true => self.live.remove(place),
            false => self.live.swap_remove(place),
        };
        let next = match self.fault {
            Some(Fault::NoVersionStep) => Some(entity.1),
            Some(Fault::VersionWraps) => Some(entity.1.checked_add(1).unwrap_or(1)),
            _ => entity.1.checked_add(1),
        };
        match next {
            Some(version) => self.recycled.push_back((entity.0, version)),
            None if self.has(Fault::RetiredForgotten) => self.issued -= 1,
            None => {}
        }
        self.forget_caller(Fault::KillForgetsCaller);
        self.forget_rule(Fault::KillForgetsRule);
        Ok(vec![])
    }

    fn wipe(&mut self) -> Answer {
        for rows in self.columns.values_mut() {
            rows.clear();
        }
        for family in 0..self.layout.len() {
            for group in 0..self.layout[family].counts.len() {
                if !self.has(Fault::WipeKeepsCounts) && !self.is_64th(Fault::WipeOneShort, family, group) {
                    self.layout[family].counts[group] = 0;
                }
            }
        }
        if self.has(Fault::WipeKillsAll) {
            self.live.clear();
        }
        self.forget_caller(Fault::WipeForgetsCaller);
        self.forget_rule(Fault::WipeForgetsRule);
        self.forget_width(Fault::WipeForgetsWidth);
        Ok(vec![])
    }

    fn group(&mut self) -> Answer {
        let kinds: Vec<u8> = self.staged.iter().map(|held| held.0).collect();
        let added = self.add_group(&kinds)?;
        if added || !self.has(Fault::NothingAddedKeepsStaged) {
            self.staged.clear();
        }
        Ok(vec![u8::from(added)])
    }

    fn add_group(&mut self, kinds: &[u8]) -> Result<bool, u8> {
        let new = set(kinds);
        if new.len() < 2 {
            return Ok(false);
        }
        if new.len() == MOST_KINDS && self.has(Fault::SixteenWide) {
            return Err(13);
        }
        let most = if self.has(Fault::SixtyThreeGroups) {
            63
        } else {
            MOST_GROUPS
        };
        let many = self.draft.iter().map(|family| family.new_kinds.len()).sum::<usize>() == most;
        if many && self.has(Fault::ManyBeforeEqual) {
            return Err(15);
        }
        if self.is_present(kinds) {
            return match self.has(Fault::ClashBeforeEqual) {
                true => Err(14),
                false => Ok(false),
            };
        }
        let place = match self.sharing(kinds)[..] {
            [] => None,
            [family] if self.is_chain(family, &new) => Some(family),
            [family] if self.has(Fault::ForeignBetween) && self.is_foreign(family, &new) => return Ok(true),
            [family, other] if self.has(Fault::TwoFamiliesJoined) && self.holds(family, other, &new) => Some(family),
            [family, _, ..] if self.has(Fault::FirstSharingOnly) && self.is_chain(family, &new) => Some(family),
            _ => return Err(14),
        };
        let inside = place.is_some_and(|family| !self.draft[family].all().is_subset(&new));
        if many && !(inside && self.has(Fault::ManyAboveOnly)) {
            return Err(15);
        }
        let groups = place.map_or(vec![], |family| self.draft[family].groups());
        let family = self.family_of(groups, kinds);
        match place {
            None => self.draft.push(family),
            Some(place) => self.draft[place] = family,
        }
        Ok(true)
    }

    /// Whether the draft has a group of these kinds.
    fn is_present(&self, kinds: &[u8]) -> bool {
        self.draft.iter().any(|family| {
            let last = family.new_kinds.len() - 1;
            let first = if self.has(Fault::EqualToLargestOnly) { last } else { 0 };
            (first..=last).any(|group| match self.has(Fault::EqualAsLists) {
                true => family.kinds(group) == kinds,
                false => family.arity(group) == kinds.len() && set(&family.kinds(group)) == set(kinds),
            })
        })
    }

    /// The families of the draft that share kinds with a new group.
    fn sharing(&self, kinds: &[u8]) -> Vec<usize> {
        let (looked, kinds) = match self.fault {
            Some(Fault::FirstFamilyOnly) => (self.draft.len().min(1), kinds),
            Some(Fault::FamilyByFirstKind) => (self.draft.len(), &kinds[..1]),
            _ => (self.draft.len(), kinds),
        };
        let shares = |&family: &usize| {
            self.draft[family]
                .new_kinds
                .iter()
                .flatten()
                .any(|kind| kinds.contains(kind))
        };
        (0..looked).filter(shares).collect()
    }

    /// Whether the groups of the family, with the new one, are a chain.
    fn is_chain(&self, family: usize, new: &BTreeSet<u8>) -> bool {
        let groups: Vec<BTreeSet<u8>> = self.draft[family].groups().iter().map(|group| set(group)).collect();
        let (smallest, largest) = (&groups[0], &groups[groups.len() - 1]);
        let below = new.is_subset(smallest);
        let between = smallest.is_subset(new) && new.is_subset(largest);
        let nested = |group: &BTreeSet<u8>| group.is_subset(new) || new.is_subset(group);
        match self.fault {
            Some(Fault::BelowRefused) if below => false,
            Some(Fault::BetweenRefused) if between => false,
            Some(Fault::LargestTested) => nested(largest),
            Some(Fault::SmallestTested) => nested(smallest),
            Some(Fault::SharedKindSuffices) => groups.iter().all(|group| !group.is_disjoint(new)),
            _ => groups.iter().all(nested),
        }
    }

    /// The family of these groups and the new one: by size, each ring what the group before it lacks.
    fn family_of(&self, mut groups: Vec<Vec<u8>>, new: &[u8]) -> Family {
        let at = groups.iter().filter(|group| group.len() < new.len()).count();
        let at = match self.fault {
            Some(Fault::GroupAtEnd) => groups.len(),
            Some(Fault::GroupAtStart) if at < groups.len() => 0,
            _ => at,
        };
        groups.insert(at, new.to_vec());
        let ring = |group: usize| {
            let kept = self.has(Fault::NextRingKept) && group == at + 1;
            let before = if kept { group - 1 } else { group };
            let lacking = |kind: &u8| before == 0 || !groups[before - 1].contains(kind);
            groups[group].iter().copied().filter(lacking).collect()
        };
        Family {
            new_kinds: (0..groups.len()).map(ring).collect(),
            counts: vec![0; groups.len()],
        }
    }

    fn holds(&self, family: usize, other: usize, new: &BTreeSet<u8>) -> bool {
        self.draft[family].all().is_subset(new) && self.draft[other].all().is_subset(new)
    }

    /// Whether the new group is a group of the family with foreign kinds, and smaller than the next.
    fn is_foreign(&self, family: usize, new: &BTreeSet<u8>) -> bool {
        let family = &self.draft[family];
        let shared: BTreeSet<u8> = family.all().intersection(new).copied().collect();
        (1..family.new_kinds.len())
            .any(|group| set(&family.kinds(group - 1)) == shared && new.len() < family.kinds(group).len())
    }

    fn apply(&mut self) -> Answer {
        self.forget_caller(Fault::ApplyForgetsCaller);
        self.forget_rule(Fault::ApplyForgetsRule);
        self.forget_width(Fault::ApplyForgetsWidth);
        self.layout = self.draft.clone();
        if !self.has(Fault::ApplyKeepsDraft) {
            self.draft.clear();
        }
        if self.has(Fault::ApplyEmptiesStaged) {
            self.staged.clear();
        }
        let mut live = self.live.clone();
        match self.fault {
            Some(Fault::ApplyByIndex) => live.sort(),
            Some(Fault::ApplyBackwards) => live.reverse(),
            _ => {}
        }
        for entity in live {
            for family in 0..self.layout.len() {
                self.enter(family, entity);
            }
        }
        Ok(vec![])
    }

    fn range(&mut self) -> Answer {
        let found = self.find_range();
        self.count_range(found);
        // 01 finds something, and the newer rule does not.
        let is_hidden = found.is_some_and(|found| !found.is_found);
        if is_hidden && self.has(Fault::NewerNoneRefused) {
            return Err(WIDE);
        }
        let keeps = |fault: Fault| is_hidden && self.has(fault);
        let keeps_staged = keeps(Fault::NewerNoneKeepsStaged);
        let keeps_excluded = keeps(Fault::NewerNoneKeepsExcluded) || self.has(Fault::RangeKeepsExcluded);
        if !keeps_staged {
            self.staged.clear();
        }
        if !keeps_excluded {
            self.excluded.clear();
        }
        Ok(self.range_answer(found))
    }

    fn range_answer(&self, found: Option<Found>) -> Vec<u8> {
        let is_hidden = found.is_some_and(|found| !found.is_found);
        let is_told = found.is_some_and(|found| found.is_found || self.has(Fault::NewerNoneFound));
        let told = found.filter(|found| found.is_found || self.has(Fault::NewerNoneRows));
        let (start, end) = told.map_or((0, 0), |found| (found.start, found.end));
        let mut answer = vec![u8::from(is_told)];
        answer.extend((start as u32).to_le_bytes());
        answer.extend((end as u32).to_le_bytes());
        match self.fault {
            Some(Fault::NewerNoneOneByte) if is_hidden => answer.clear(),
            Some(Fault::NewerNoneFiveBytes) if is_hidden => answer.truncate(4),
            _ => {}
        }
        answer
    }

    fn count_range(&mut self, found: Option<Found>) {
        let excluded = match found {
            Some(found) => found.ring.min(RING_OF_THREE),
            None if self.excluded.is_empty() => NOTHING,
            None => OTHERS,
        };
        let is_found = found.is_some_and(|found| found.is_found);
        self.ranged[excluded][usize::from(!is_found)] += 1;
    }

    /// What 01 finds.
    fn find_range(&self) -> Option<Found> {
        if self.has(Fault::FixedRange) {
            return Some(self.whole(1, true));
        }
        let staged: BTreeSet<u8> = self.staged.iter().map(|held| held.0).collect();
        let excluded = set(&self.excluded);
        if staged.len() == 1 && (excluded.is_empty() || self.has(Fault::OneKindWithExcluded)) {
            let length = self.columns[&self.staged[0].0].len();
            return Some(self.whole(length, !self.has(Fault::NewerKindAlone)));
        }
        let drafted = self.draft.iter().filter(|_| self.has(Fault::RangeOfDraft));
        self.layout.iter().chain(drafted).find_map(|family| {
            let mut groups = (0..family.new_kinds.len()).filter(|&group| self.is_staged(family, group, &staged));
            groups.find_map(|group| self.group_range(family, group, &excluded))
        })
    }

    /// All rows from the first, with nothing excluded. Under the newer rule too, but for faults.
    fn whole(&self, end: usize, is_found: bool) -> Found {
        Found {
            start: 0,
            end,
            ring: 0,
            is_found: is_found || self.rule == Rule::Older,
        }
    }

    /// Whether the staged kinds are the group.
    fn is_staged(&self, family: &Family, group: usize, staged: &BTreeSet<u8>) -> bool {
        let is_missed = family.arity(group) == MOST_KINDS && self.has(Fault::RangeFifteen);
        family.arity(group) == staged.len() && set(&family.kinds(group)) == *staged && !is_missed
    }

    /// A group's rows; where kinds are excluded, without those of the next larger group, if they are its ring.
    fn group_range(&self, family: &Family, group: usize, excluded: &BTreeSet<u8>) -> Option<Found> {
        let count = match self.has(Fault::InventedCounts) {
            true => group,
            false => family.counts[group],
        };
        if excluded.is_empty() {
            let is_missed = family.new_kinds[group].len() > 1 && self.has(Fault::NewerGroupAlone);
            return Some(self.whole(count, !is_missed));
        }
        let mut larger = group + 1..family.new_kinds.len();
        let larger = larger.find(|&larger| self.is_excluded(family, group, larger, excluded))?;
        let start = family.counts[larger];
        let is_found = self.is_found(family, group, larger);
        let is_bare = !is_found && self.has(Fault::NewerCountsBare);
        Some(Found {
            start,
            end: if is_bare { start + self.bare() } else { count },
            ring: family.new_kinds[larger].len(),
            is_found: is_found || is_bare,
        })
    }

    /// Whether the excluded kinds are what the larger group has more, and it is the next.
    fn is_excluded(&self, family: &Family, group: usize, larger: usize, excluded: &BTreeSet<u8>) -> bool {
        if family.arity(larger) == MOST_KINDS && self.has(Fault::RingFifteen) {
            return false;
        }
        let more = set(&family.new_kinds[group + 1..=larger].concat());
        let is_next = larger == group + 1;
        let is_part = is_next && self.has(Fault::ExcludePart) && excluded.is_subset(&more);
        *excluded == more && (is_next || self.has(Fault::ExcludeAnyLarger)) || is_part
    }

    /// Whether the store's rule finds what 01 finds: the newer does if the larger group's ring is one kind.
    fn is_found(&self, family: &Family, group: usize, larger: usize) -> bool {
        let ring = |group: usize| family.new_kinds[group].len();
        let newer = match self.fault {
            Some(Fault::TwoExcludedFound) => ring(larger) <= 2,
            Some(Fault::OneExcludedNone) => false,
            Some(Fault::NewerByStaged) => self.staged.len() <= 2,
            Some(Fault::NewerBySmaller) => ring(group) == 1,
            Some(Fault::NewerByLargest) => ring(family.new_kinds.len() - 1) == 1,
            _ => ring(larger) == 1,
        };
        match self.fault {
            Some(Fault::RangeByOlder) => true,
            Some(Fault::RangeByNewer) => newer,
            _ => newer || self.rule == Rule::Older,
        }
    }

    /// How many entities have all of the staged kinds and none of the excluded ones.
    fn bare(&self) -> usize {
        let has = |entity: Id, kind: u8| self.place(kind, entity).is_some();
        let is_bare = |entity: &&Id| {
            let has_all = self.staged.iter().all(|held| has(**entity, held.0));
            has_all && !self.excluded.iter().any(|&kind| has(**entity, kind))
        };
        self.live.iter().filter(is_bare).count()
    }

    fn roll(&self) -> Vec<u8> {
        let mut live = self.live.clone();
        if !self.has(Fault::RollByLiveList) {
            live.sort();
        }
        let mut kinds = self.registered.clone();
        if !self.has(Fault::RollByRegistration) {
            kinds.sort();
        }
        let mut roll = (live.len() as u32).to_le_bytes().to_vec();
        for entity in live {
            let parts: Vec<(u8, u128)> = kinds
                .iter()
                .filter_map(|&kind| Some((kind, self.columns[&kind][self.place(kind, entity)?].value)))
                .collect();
            roll.extend(entity.0.to_le_bytes());
            roll.extend(entity.1.to_le_bytes());
            roll.push(parts.len() as u8);
            for (kind, value) in parts {
                roll.push(kind);
                let value = self.told(value, Fault::RollUpperFirst);
                roll.extend(&value.to_le_bytes()[..self.told_bytes(Fault::RollEight)]);
            }
        }
        let is_newer = self.has(Fault::RuleInRoll) && self.rule == Rule::Newer;
        if is_newer || self.has(Fault::WidthInRoll) && self.value_bytes == SIXTEEN {
            roll.push(1);
        }
        roll
    }
}
