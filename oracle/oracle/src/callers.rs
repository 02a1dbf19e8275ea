//! SETCALLER at its limits: every caller with every refusal, what keeps the caller and what it keeps, every operand, short
//! buffers, and refusal counts that are full.

use crate::fixed::{chains_of, drafted, families_of, layout, run_of};
use crate::tape::{self, Case, Chunk, Run};
use sparsey::harness::{Preset, CALLERS};

const LAST: u32 = u32::MAX;

fn callers() -> impl Iterator<Item = u8> {
    0..CALLERS as u8
}

/// Counts of which all but caller 0's are 0.
pub fn counts_of_first(count: u32) -> [u32; CALLERS] {
    let mut refusals = [0; CALLERS];
    refusals[0] = count;
    refusals
}

/// Refused in every store, by 7.
fn refused() -> Chunk {
    tape::bar(255)
}

/// A count for each caller that no other has, and caller 15 then.
fn counted() -> Vec<Run> {
    let run = |caller: u8| {
        let refusals = vec![refused(); usize::from(caller) + 1];
        run_of([vec![tape::set_caller(caller)], refusals].concat())
    };
    callers().map(run).collect()
}

/// One refusal more, and the counts of all.
fn shown() -> [Run; 2] {
    [run_of(vec![refused(), tape::tally()]), run_of(tape::tallies())]
}

pub fn cases() -> impl Iterator<Item = Case> {
    let refusals = callers().map(refusal_case);
    refusals.chain(kept()).chain(operands()).chain(rooms()).chain(full())
}

/// Every refusal of a command, behind what it needs, in a store that has as many entities, kinds and groups as it takes.
/// WIDE never comes.
fn refusals() -> Vec<(Vec<Chunk>, Chunk)> {
    let sixteen: Vec<u8> = (0..16).collect();
    let barred = sixteen.iter().map(|&kind| tape::bar(kind)).collect();
    vec![
        // 7.
        (vec![], tape::reg(128)),
        (vec![], tape::hold(100, 1)),
        (vec![], tape::bar(255)),
        // 8.
        (vec![], tape::reg(100)),
        // 9.
        (vec![tape::hold(1, 1)], tape::hold(1, 2)),
        (vec![tape::bar(1)], tape::bar(1)),
        // 10.
        (tape::hold_all(&sixteen), tape::hold(16, 0)),
        (barred, tape::bar(16)),
        // 11.
        (vec![], tape::put((0, 2))),
        (vec![], tape::take((5, 1))),
        (vec![], tape::drop((0, 0))),
        (vec![], tape::kill((0, LAST))),
        // 12.
        (vec![], tape::new()),
        (vec![], tape::tray(1)),
        // 14, of two families, and 15.
        (tape::hold_all(&[0, 16]), tape::group()),
        (tape::hold_all(&[72, 73]), tape::group()),
        // 19.
        (vec![], tape::set_caller(16)),
        (vec![], tape::set_caller(255)),
    ]
}

/// Each of these in a run of its own, for one caller; the others' counts stay.
fn refusal_case(caller: u8) -> Case {
    let groups = chains_of(&families_of(&[16, 16, 16, 16, 2, 2, 2, 2]));
    let mut runs = drafted(&groups);
    runs.push(run_of(vec![tape::new()]));
    runs.extend(counted());
    runs.push(run_of(vec![tape::set_caller(caller)]));
    for (before, refused) in refusals() {
        runs.push(run_of([vec![tape::empty()], before].concat()));
        runs.push(run_of(vec![refused]));
        runs.push(run_of(vec![tape::tally()]));
    }
    runs.extend(shown());
    Case {
        n: 1,
        k: 74,
        value_bytes: tape::NARROW,
        preset: None,
        runs,
    }
}

/// Runs of one command, accepted or refused, of none, and such that stop. All keep the caller, but those that set one.
pub fn keeping() -> Vec<Run> {
    let (none, stops) = ([vec![]], [vec![0], vec![17], vec![255], vec![16], vec![2, 1, 0]]);
    let chunks = none.into_iter().chain(each_command()).chain(stops);
    let mut runs: Vec<Run> = chunks.map(|chunk| run_of(vec![chunk])).collect();
    // Without room.
    let chunks = vec![refused(), tape::tally()];
    runs.extend((0..6).map(|room| Run {
        chunks: chunks.clone(),
        room,
    }));
    runs
}

/// Each command, and most of them refused as well.
fn each_command() -> Vec<Chunk> {
    vec![
        tape::reg(3),
        tape::reg(9),
        tape::hold(1, 5),
        tape::hold(0, 5),
        tape::new(),
        tape::put((0, 1)),
        tape::put((0, 2)),
        tape::take((0, 1)),
        tape::take((9, 1)),
        tape::drop((1, 1)),
        tape::drop((1, 0)),
        tape::kill((0, 1)),
        tape::kill((0, 2)),
        tape::wipe(),
        tape::group(),
        tape::apply(),
        tape::bar(1),
        tape::bar(2),
        tape::range(),
        tape::empty(),
        tape::tally(),
        tape::tray(1),
        tape::tray(3),
        tape::set_caller(2),
        tape::set_caller(9),
        tape::set_caller(16),
        tape::set_caller(24),
    ]
}

/// A layout, entities, a draft, and something staged and excluded; a caller is set, something is done, and it all shows.
fn kept() -> impl Iterator<Item = Case> {
    let begin = [
        (0..4).map(tape::reg).collect(),
        layout(&[&[0, 1], &[0, 1, 2]]),
        tape::with(&[0, 1, 2], tape::new()),
        tape::with(&[1, 0], tape::new()),
        tape::with(&[3, 2], tape::group()),
    ];
    [0, 1, 9, 15].into_iter().flat_map(move |caller| {
        let begin = begin.clone();
        keeping().into_iter().map(move |kept| {
            let mut runs: Vec<Run> = begin.iter().cloned().map(run_of).collect();
            runs.extend(counted());
            runs.push(run_of(vec![tape::hold(0, 7), tape::hold(3, 9), tape::bar(2)]));
            runs.push(run_of(vec![tape::set_caller(caller)]));
            runs.push(kept);
            runs.push(run_of(vec![refused(), tape::tally(), tape::set_caller(caller)]));
            runs.push(run_of(vec![tape::bar(2), tape::take((1, 1))]));
            runs.push(run_of(tape::with(&[0, 1], tape::range())));
            runs.push(run_of(vec![tape::apply()]));
            runs.extend(shown());
            Case {
                n: 4,
                k: 4,
                value_bytes: tape::NARROW,
                preset: None,
                runs,
            }
        })
    })
}

/// Every operand behind the callers 0 and 9, and the same again.
fn operands() -> impl Iterator<Item = Case> {
    [0, 9].into_iter().map(|before| {
        let mut runs = counted();
        for caller in 0..=255 {
            runs.push(run_of(vec![tape::set_caller(before)]));
            runs.push(run_of(vec![tape::set_caller(caller)]));
            runs.push(run_of(vec![tape::set_caller(caller), tape::tally()]));
            runs.push(run_of(vec![refused(), tape::tally()]));
        }
        runs.extend(shown());
        Case {
            n: 1,
            k: 1,
            value_bytes: tape::NARROW,
            preset: None,
            runs,
        }
    })
}

/// SETCALLER, accepted, refused, cut short, and with more behind it, in buffers of every length from none.
fn rooms() -> impl Iterator<Item = Case> {
    let tapes = [
        vec![tape::set_caller(3)],
        vec![tape::set_caller(7)],
        vec![tape::set_caller(16)],
        vec![tape::set_caller(255)],
        vec![vec![16]],
        vec![tape::set_caller(3), vec![16]],
        vec![tape::set_caller(3), tape::set_caller(4)],
        vec![tape::set_caller(16), tape::set_caller(4)],
        vec![tape::set_caller(3), tape::set_caller(19)],
        vec![tape::set_caller(3), tape::tally()],
        vec![refused(), tape::set_caller(3), refused()],
    ];
    tapes.into_iter().flat_map(|chunks| {
        (0..8).map(move |room| {
            let mut runs = counted();
            runs.push(run_of(vec![tape::set_caller(7)]));
            runs.push(Run {
                chunks: chunks.clone(),
                room,
            });
            runs.extend(shown());
            Case {
                n: 1,
                k: 1,
                value_bytes: tape::NARROW,
                preset: None,
                runs,
            }
        })
    })
}

/// Each caller's count at the last number or close to it, and another's also; then these two and a third are refused more.
fn full() -> impl Iterator<Item = Case> {
    callers().flat_map(|caller| [LAST - 2, LAST - 1, LAST].map(|count| full_case(caller, count)))
}

fn full_case(caller: u8, count: u32) -> Case {
    let (other, third) = ((caller + 8) % CALLERS as u8, (caller + 1) % CALLERS as u8);
    let mut refusals: [u32; CALLERS] = std::array::from_fn(|caller| caller as u32);
    refusals[usize::from(caller)] = count;
    refusals[usize::from(other)] = LAST - 1;
    let mut runs = vec![];
    for set in [None, Some(other), Some(third), Some(caller)] {
        runs.extend(set.map(|caller| run_of(vec![tape::set_caller(caller)])));
        runs.extend([run_of(vec![refused()]), run_of(vec![tape::tally()])]);
        runs.push(run_of(vec![refused(), tape::set_caller(16), tape::tally()]));
    }
    runs.extend(shown());
    Case {
        n: 1,
        k: 1,
        value_bytes: tape::NARROW,
        preset: Some(Preset {
            caller,
            refusals,
            ..Preset::default()
        }),
        runs,
    }
}

/// The commands that caller and counts go by, and some that they do not.
pub fn commands() -> Vec<Vec<Chunk>> {
    [
        tape::set_caller(0),
        tape::set_caller(1),
        tape::set_caller(15),
        tape::set_caller(16),
        tape::tally(),
        refused(),
        tape::hold(0, 5),
        tape::wipe(),
        tape::empty(),
    ]
    .into_iter()
    .map(|chunk| vec![chunk])
    .collect()
}
