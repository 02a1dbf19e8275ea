//! The works that are timed. Kinds 0 to 5 stand for what the list of works calls 1 to 6, since those have tuples of the
//! Rust's own in the harness.

use crate::commands::{layout, registered, wide, with, Rng, DROP, KILL, NARROW, NEW, PUT, TAKE, TRAY, WIDE};
use crate::writer::Writer;

/// A tape, what comes before it, and what it is to reach.
pub struct Work {
    pub letter: &'static str,
    pub name: &'static str,
    pub n: usize,
    pub k: usize,
    /// The bytes of a value, for which the tapes are made.
    pub value_bytes: usize,
    pub setup: Vec<u8>,
    /// One for each run; none where rolls are timed.
    pub runs: Vec<Vec<u8>>,
    /// Done off the clock behind each run but the last; none for most works.
    pub between: Vec<Vec<u8>>,
    /// What the runs do, in other commands: timed on our side too.
    pub otherwise: Option<Otherwise>,
    /// Whether our side's runs go through the function for held words.
    pub held: bool,
    /// By which the time is divided.
    pub commands: usize,
    pub bound: &'static str,
}

/// The same runs in other commands.
pub struct Otherwise {
    pub name: &'static str,
    pub runs: Vec<Vec<u8>>,
    /// What the runs' time is to reach, of these runs'.
    pub bound: &'static str,
}

/// What comes before, and the runs.
type Tapes = (Vec<u8>, Vec<Vec<u8>>);

impl Work {
    /// With 16 kinds.
    fn new(letter: &'static str, name: &'static str, n: usize, tapes: Tapes, commands: usize) -> Self {
        let (setup, runs) = tapes;
        Self {
            letter,
            name,
            n,
            k: usize::from(KINDS),
            value_bytes: NARROW,
            setup,
            runs,
            between: vec![],
            otherwise: None,
            held: false,
            commands,
            bound: "",
        }
    }

    /// The same in a store for so many kinds.
    fn kinds(self, k: u8) -> Self {
        Self {
            k: usize::from(k),
            ..self
        }
    }

    /// The same on words that are held.
    fn held(self) -> Self {
        Self { held: true, ..self }
    }

    /// The same with this to reach.
    fn to_reach(self, bound: &'static str) -> Self {
        Self { bound, ..self }
    }

    /// The same with values of sixteen bytes, and nothing to reach.
    fn wide(self) -> Self {
        assert!(self.otherwise.is_none());
        let all = |tapes: Vec<Vec<u8>>| tapes.iter().map(|tape| wide(tape)).collect();
        Self {
            value_bytes: WIDE,
            setup: wide(&self.setup),
            runs: all(self.runs),
            between: all(self.between),
            bound: "",
            ..self
        }
    }

    /// How many rolls are timed.
    pub fn rolls(&self) -> usize {
        match self.runs.is_empty() {
            true => self.commands,
            false => 0,
        }
    }
}

/// Kinds registered where nothing else is said.
const KINDS: u8 = 16;

/// The groups of the line mix.
fn line() -> Vec<Vec<u8>> {
    vec![vec![0, 1], vec![0, 1, 2, 3], vec![4, 5]]
}

/// So many nested groups, the smallest of two kinds, each other of one more.
fn nested(groups: u8) -> Vec<Vec<u8>> {
    (2..groups + 2).map(|arity| (0..arity).collect()).collect()
}

/// How many kinds the pairs have.
const PAIRED: u8 = 28;

/// 14 groups of two kinds each: those from this kind on, two by two, and behind the last of them the first.
fn pairs(first: u8) -> Vec<Vec<u8>> {
    let pair = |kind: u8| vec![(first + kind) % PAIRED, (first + kind + 1) % PAIRED];
    (0..PAIRED).step_by(2).map(pair).collect()
}

/// What an entity of the line mix is made with, or gets, or loses.
const LISTS: [&[u8]; 8] = [
    &[0, 1],
    &[0, 1, 2, 3],
    &[4, 5],
    &[2, 3],
    &[0],
    &[0, 1, 4],
    &[2],
    &[0, 1, 2],
];

/// Which of the kinds 0 to 5 an entity is made with, or gets, or loses.
#[derive(Clone, Copy, PartialEq, Eq)]
enum Kinds {
    /// Those of one of the lists.
    Listed,
    /// Each or not, by chance.
    Half,
}

impl Kinds {
    fn draw(self, rng: &mut Rng) -> Vec<u8> {
        match self {
            Kinds::Listed => LISTS[rng.below(LISTS.len())].to_vec(),
            Kinds::Half => rng.half(0..6),
        }
    }
}

/// So many entities, with the lists in turn, or each with half of the kinds.
fn filled(tape: &mut Vec<u8>, count: usize, kinds: Kinds) {
    let mut rng = Rng::new();
    for i in 0..count {
        let list = match kinds {
            Kinds::Listed => LISTS[i % LISTS.len()].to_vec(),
            Kinds::Half => kinds.draw(&mut rng),
        };
        with(tape, &list, NEW, None, i as u64);
    }
}

/// The groups of the line mix over so many kinds.
fn lined(kinds: u8) -> Vec<u8> {
    let mut setup = vec![];
    registered(&mut setup, 0..kinds);
    layout(&mut setup, &line());
    setup
}

/// NEW, PUT, TAKE, DROP and KILL behind a setup, on a store that is three quarters full all along.
fn mix(mut setup: Vec<u8>, n: usize, kinds: Kinds, commands: usize, in_run: usize) -> Tapes {
    filled(&mut setup, 3 * n / 4, kinds);
    let mut writer = Writer::new(n, &setup);
    for _ in 0..commands {
        let list = kinds.draw(&mut writer.rng);
        let few = writer.live() < 5 * n / 8 + 1;
        let many = writer.live() > 7 * n / 8;
        let at = writer.some();
        match writer.rng.below(10) {
            0 | 1 if !many => writer.command(&list, NEW, None),
            2 | 3 if !few => writer.command(&[], KILL, at),
            4 | 5 => writer.command(&list, TAKE, at),
            6 => writer.command(&list, DROP, at),
            _ => writer.command(&list, PUT, at),
        }
    }
    (setup, writer.runs(in_run))
}

/// An entity goes and one comes, behind a setup, on a full store.
fn churn(mut setup: Vec<u8>, n: usize, commands: usize) -> Tapes {
    filled(&mut setup, n, Kinds::Listed);
    let mut writer = Writer::new(n, &setup);
    for i in 0..commands / 2 {
        let at = writer.some();
        writer.command(&[], KILL, at);
        writer.command(LISTS[i % LISTS.len()], NEW, None);
    }
    (setup, writer.runs(commands))
}

/// A component of the smallest group comes and goes, of entities with all others of the chain: all groups each time.
fn crossing(groups: u8, n: usize, commands: usize) -> Tapes {
    let mut setup = vec![];
    registered(&mut setup, 0..KINDS);
    layout(&mut setup, &nested(groups));
    let others: Vec<u8> = (1..=groups).collect();
    for i in 0..n {
        with(&mut setup, &others, NEW, None, i as u64);
    }
    let mut writer = Writer::new(n, &setup);
    for i in 0..commands / 2 {
        let at = writer.some();
        // Every other one stays for a while, so that the groups are not empty.
        writer.command(&[0], PUT, at);
        let at = if i % 2 == 0 { at } else { writer.some() };
        writer.command(&[0], TAKE, at);
    }
    (setup, writer.runs(commands))
}

/// Entities with the lists in turn, and no layout.
fn listed(n: usize) -> Vec<u8> {
    let mut setup = vec![];
    registered(&mut setup, 0..KINDS);
    filled(&mut setup, n, Kinds::Listed);
    setup
}

/// Entities with the kinds that the pairs have, by the lists or by halves, and no layout.
fn paired(n: usize, kinds: Kinds) -> Vec<u8> {
    let mut setup = vec![];
    registered(&mut setup, 0..PAIRED);
    let mut rng = Rng::new();
    for i in 0..n {
        match kinds {
            Kinds::Listed => with(&mut setup, &shifted(i), NEW, None, i as u64),
            Kinds::Half => {
                // No more than 16 can be staged.
                with(&mut setup, &rng.half(0..PAIRED / 2), NEW, None, i as u64);
                let rest = rng.half(PAIRED / 2..PAIRED);
                with(&mut setup, &rest, PUT, Some((i as u32, 1)), i as u64);
            }
        }
    }
    setup
}

/// The lists in turn, first as they are, then four kinds further, and so on round the kinds that the pairs have.
fn shifted(i: usize) -> Vec<u8> {
    let by = 4 * (i / LISTS.len() % 7) as u8;
    LISTS[i % LISTS.len()].iter().map(|kind| (kind + by) % PAIRED).collect()
}

/// Two layouts in turn, so many times.
fn relayouts(one: &[Vec<u8>], other: &[Vec<u8>], times: usize) -> Vec<Vec<u8>> {
    let mut tape = vec![];
    for i in 0..times {
        layout(&mut tape, if i % 2 == 0 { one } else { other });
    }
    vec![tape]
}

/// How many entities a tray makes, and how often the store is filled in a round.
const IN_TRAY: usize = 64;
const FILLINGS: usize = 25;

/// An empty store filled with entities of three kinds, by trays.
fn by_trays(n: usize, filling: usize) -> Vec<u8> {
    let mut tape = vec![];
    for tray in 0..n / IN_TRAY {
        with(&mut tape, &[0, 1, 2], TRAY, None, (filling * n + tray) as u64);
        tape.extend((IN_TRAY as u16).to_le_bytes());
    }
    tape
}

/// The same by NEW, each with its own three kinds staged.
fn by_news(n: usize, filling: usize) -> Vec<u8> {
    let mut tape = vec![];
    for entity in 0..n {
        let value = (filling * n + entity / IN_TRAY) as u64;
        with(&mut tape, &[0, 1, 2], NEW, None, value);
    }
    tape
}

/// KILL of every index, each at this version.
fn all_destroyed(rng: &mut Rng, n: usize, version: u32) -> Vec<u8> {
    let mut tape = vec![];
    for index in rng.shuffled(n) {
        with(&mut tape, &[], KILL, Some((index, version)), 0);
    }
    tape
}

/// The store is filled and emptied in turn; only the filling is timed. Two of the three kinds are a group. The first run
/// takes new indexes, the others those that wait, in an order by chance.
fn trays(n: usize) -> Work {
    let mut setup = vec![];
    registered(&mut setup, 0..KINDS);
    layout(&mut setup, &[vec![0, 1]]);
    let mut rng = Rng::new();
    let emptied = |filling: usize| all_destroyed(&mut rng, n, filling as u32);
    let runs = (0..FILLINGS).map(|filling| by_trays(n, filling)).collect();
    Work {
        between: (1..FILLINGS).map(emptied).collect(),
        otherwise: Some(Otherwise {
            name: "the same by NEW",
            runs: (0..FILLINGS).map(|filling| by_news(n, filling)).collect(),
            bound: "0.80",
        }),
        ..Work::new("i", "trays of 64, three kinds", n, (setup, runs), n * FILLINGS).to_reach("1.00")
    }
}

/// The same trays on words that are held, and so without the test before each run.
fn held_trays(n: usize) -> Work {
    Work {
        name: "trays of 64, three kinds, held",
        otherwise: None,
        ..trays(n).held()
    }
}

/// Entities of each work, where nothing else is said.
const N: usize = 4096;

/// The line mix, so many commands in a run.
fn line_mix(letter: &'static str, name: &'static str, in_run: usize) -> Work {
    let tapes = mix(lined(KINDS), N, Kinds::Listed, 300_000, in_run);
    Work::new(letter, name, N, tapes, 300_000)
}

/// Each command, the walks and the roll.
fn main_works() -> Vec<Work> {
    let churned = churn(lined(KINDS), N, 100_000);
    let crossed = crossing(6, N, 100_000);
    let relaid = (listed(N), relayouts(&line(), &nested(3), 200));
    vec![
        line_mix("a", "line mix", 300_000).to_reach("0.70"),
        Work::new("b", "NEW and KILL", N, churned, 100_000).to_reach("0.70"),
        Work::new("c", "PUT and TAKE, six groups", N, crossed, 100_000).to_reach("0.95"),
        Work::new("d", "APPLY, all live", N, relaid, 200).to_reach("0.90"),
        Work::new("e", "roll, all live", N, (listed(N), vec![]), 20).to_reach("0.95"),
    ]
}

/// The line mix at three sizes, and in short runs.
fn sizes_and_runs() -> Vec<Work> {
    let sized = |n| {
        let tapes = mix(lined(KINDS), n, Kinds::Listed, 100_000, 100_000);
        Work::new("g", "line mix", n, tapes, 100_000).to_reach("flat")
    };
    let mut works: Vec<Work> = [64, 512, N].map(sized).into();
    works.push(line_mix("h", "line mix, 10,000 in a run", 10_000));
    works.push(line_mix("h", "line mix, 1,000 in a run", 1_000).to_reach("1.00"));
    works.push(
        line_mix("h", "line mix, 1,000 in a run, held", 1_000)
            .held()
            .to_reach("0.80"),
    );
    works
}

/// 14 pairs and 14 others in turn, so many times.
fn relaid_pairs(letter: &'static str, name: &'static str, kinds: Kinds, times: usize) -> Work {
    let relaid = relayouts(&pairs(0), &pairs(1), times);
    Work::new(letter, name, N, (paired(N, kinds), relaid), times).kinds(32)
}

/// As c with 14 groups, and as d with 14 pairs.
fn many_groups() -> Vec<Work> {
    let crossed = crossing(14, N, 100_000);
    vec![
        Work::new("j", "PUT and TAKE, 14 nested groups", N, crossed, 100_000).to_reach("1.15"),
        relaid_pairs("k", "APPLY, 14 pairs", Kinds::Listed, 200).to_reach("0.80"),
    ]
}

/// As a and b, with 128 kinds registered of which six are held: all before the layout, which leaves the Rust an empty
/// store for each, or most behind it.
fn many_kinds() -> Vec<Work> {
    let mut late = lined(KINDS);
    registered(&mut late, KINDS..128);
    let mixed = mix(lined(128), N, Kinds::Listed, 300_000, 300_000);
    let (churned, late) = (churn(lined(128), N, 100_000), churn(late, N, 100_000));
    vec![
        Work::new("l", "line mix, 128 kinds", N, mixed, 300_000).kinds(128),
        Work::new("l", "NEW and KILL, 128 kinds", N, churned, 100_000).kinds(128),
        Work::new("l", "NEW and KILL, 112 of them behind the layout", N, late, 100_000).kinds(128),
    ]
}

/// As a and h, with each of the kinds 0 to 5 held by a half of the entities, by chance; and as k, with its kinds so.
fn half_full() -> Vec<Work> {
    let mixed = |in_run| mix(lined(KINDS), N, Kinds::Half, 300_000, in_run);
    vec![
        Work::new("m", "line mix, half-full", N, mixed(300_000), 300_000),
        Work::new("m", "line mix, half-full, 1,000 in a run", N, mixed(1_000), 300_000),
        relaid_pairs("m", "APPLY, 14 pairs, half-full", Kinds::Half, 40),
    ]
}

/// The works a to h, but f, with values of sixteen bytes.
pub fn wide_works() -> Vec<Work> {
    let works = main_works().into_iter().chain(sizes_and_runs());
    works.map(Work::wide).collect()
}

pub fn works() -> Vec<Work> {
    let mut works = main_works();
    works.extend(sizes_and_runs());
    works.push(trays(N));
    works.push(held_trays(N));
    works.extend(many_groups());
    works.extend(many_kinds());
    works.extend(half_full());
    works
}
