//! Runs one case on the Rust, or past its reach and under the newer rule on the plain reference, and on another side, and
//! says where they part.

use crate::demand;
use crate::past;
use crate::reference::Reference;
use crate::side::{Known, Ranged, Rule, Seen, Side, Told, EXCLUDED};
use crate::tape::{self, Case, Chunk, Run, HOLD, ROOMY};
use sparsey::harness::{arranged, kinds_of, words_needed, Families, Oracle, Ran, Sets, COMMANDS, JUDGEMENTS, NUMBERS};
use std::fmt::Write;

/// What was compared.
#[derive(Clone, Default, Debug)]
pub struct Figures {
    pub cases: u64,
    pub runs: u64,
    pub commands: u64,
    pub answer_bytes: u64,
    pub states: u64,
    pub rows: u64,
    pub ranges: u64,
    /// Runs by stop number.
    pub stops: [u64; 7],
    /// Answers by command byte and number.
    pub seen: Seen,
    /// What GROUP made of what was staged.
    pub judged: [u64; JUDGEMENTS.len()],
    /// What RANGE found, by what was excluded.
    pub ranged: Ranged,
}

impl Figures {
    pub fn add(&mut self, other: &Figures) {
        self.cases += other.cases;
        self.runs += other.runs;
        self.commands += other.commands;
        self.answer_bytes += other.answer_bytes;
        self.states += other.states;
        self.rows += other.rows;
        self.ranges += other.ranges;
        for (mine, theirs) in self.stops.iter_mut().zip(other.stops) {
            *mine += theirs;
        }
        for (mine, theirs) in self.seen.iter_mut().flatten().zip(other.seen.iter().flatten()) {
            *mine += theirs;
        }
        for (mine, theirs) in self.judged.iter_mut().zip(other.judged) {
            *mine += theirs;
        }
        for (mine, theirs) in self.ranged.iter_mut().flatten().zip(other.ranged.iter().flatten()) {
            *mine += theirs;
        }
    }

    /// The figures in words, with a table of answers by command.
    pub fn text(&self) -> String {
        let mut text = format!(
            "{} cases, {} runs, {} commands, {} answer bytes; {} states with {} rows, {} group ranges\n",
            self.cases, self.runs, self.commands, self.answer_bytes, self.states, self.rows, self.ranges
        );
        let stops: Vec<String> = (0..7)
            .filter(|&i| self.stops[i] > 0)
            .map(|i| format!("{i}: {}", self.stops[i]))
            .collect();
        writeln!(text, "runs by stop number: {}", stops.join(", ")).unwrap();
        for byte in 1..COMMANDS {
            let answers: Vec<String> = (0..NUMBERS)
                .filter(|&number| self.seen[byte][number] > 0)
                .map(|number| format!("{number}: {}", self.seen[byte][number]))
                .collect();
            writeln!(text, "  {:<9} {}", tape::NAMES[byte], answers.join(", ")).unwrap();
        }
        text + &self.judged_text() + &self.ranged_text()
    }

    /// What GROUP made of what was staged, if that was counted.
    fn judged_text(&self) -> String {
        let all = self.judged.iter().sum();
        let judged = JUDGEMENTS.iter().zip(self.judged);
        let judged: Vec<String> = judged
            .map(|(name, count)| format!("{name}: {}", share(count, all)))
            .collect();
        match all {
            0 => String::new(),
            _ => format!("GROUP by place: {}\n", judged.join(", ")),
        }
    }

    /// What RANGE found, if that was counted.
    fn ranged_text(&self) -> String {
        let all = self.ranged.iter().flatten().sum();
        let ranged = EXCLUDED.iter().zip(self.ranged);
        let ranged: Vec<String> = ranged
            .map(|(name, [found, none])| format!("{name}: {} and {}", share(found, all), share(none, all)))
            .collect();
        match all {
            0 => String::new(),
            _ => format!("RANGE by what is excluded, found and none: {}\n", ranged.join(", ")),
        }
    }
}

/// A count, and its share of all.
fn share(count: u64, all: u64) -> String {
    format!("{count} ({:.1} %)", 100.0 * count as f64 / all as f64)
}

/// What the other side stands beside, and under which rule. The Rust has the older alone.
#[derive(Clone, Copy, PartialEq, Eq, Debug)]
pub enum Beside {
    Rust(Sets),
    Reference(Rule),
}

impl Beside {
    /// Past the Rust's reach.
    pub const PAST: Beside = Beside::Reference(Rule::Older);
    /// Under the newer rule.
    pub const NEWER: Beside = Beside::Reference(Rule::Newer);

    /// That side, with no store yet.
    pub fn known(self) -> Box<dyn Known> {
        match self {
            Beside::Rust(sets) => Box::new(Oracle::new(sets)),
            Beside::Reference(_) => Box::new(Reference::new()),
        }
    }

    pub fn is_rust(self) -> bool {
        matches!(self, Beside::Rust(_))
    }

    /// The rule of the stores.
    pub fn rule(self) -> Rule {
        match self {
            Beside::Rust(_) => Rule::Older,
            Beside::Reference(rule) => rule,
        }
    }

    /// The rule that its starts are told: none where plain *start* does.
    pub fn told(self) -> Option<Rule> {
        match self.rule() {
            Rule::Older => None,
            Rule::Newer => Some(Rule::Newer),
        }
    }

    /// In words, for reports.
    pub fn text(self) -> &'static str {
        match self {
            Beside::Rust(_) => "beside the Rust",
            Beside::PAST => "beside the reference",
            Beside::NEWER => "beside the reference, under the newer rule",
        }
    }

    /// Of eight states of a case, the one that is looked at more closely. Past the Rust are many cases of few states.
    fn close_state(self) -> u64 {
        match self {
            Beside::Rust(_) => 0,
            Beside::Reference(_) => 7,
        }
    }
}

/// Starts a side by the case, told its width and a rule, or by plain *start*: the number.
pub fn begin(side: &mut (impl Side + ?Sized), case: &Case, rule: Option<Rule>) -> u32 {
    let told = Told::by(case.value_bytes, rule);
    let number = side.start_told(told, needed(case), case.n, case.k);
    if let Some(preset) = &case.preset {
        side.preset(preset);
    }
    number
}

/// The words that the case's store needs.
fn needed(case: &Case) -> usize {
    words_needed(case.n, case.k, case.value_bytes)
}

/// Makes the other side of a comparison, with no store yet.
pub type Make<'a> = &'a dyn Fn() -> Box<dyn Side>;

/// Both sides of one case under way.
pub struct Pair {
    pub known: Box<dyn Known>,
    pub other: Box<dyn Side>,
    pub figures: Figures,
    beside: Beside,
    /// What the last start was told.
    told: Told,
    k: usize,
    /// What an answer buffer holds before a run.
    fill: u8,
}

macro_rules! same {
    ($what:expr, $known:expr, $other:expr, $names:expr) => {{
        let (known, other, names) = (&$known, &$other, $names);
        if known != other {
            return Err(format!("{}: {} {:?}, {} {:?}", $what, names[0], known, names[1], other));
        }
    }};
}

impl Pair {
    /// Both sides, neither started.
    pub fn new(beside: Beside, make: Make) -> Self {
        Self {
            known: beside.known(),
            other: make(),
            figures: Figures::default(),
            beside,
            told: Told::default(),
            k: 0,
            fill: 0xa5,
        }
    }

    /// Both sides started by the case.
    pub fn start(case: &Case, beside: Beside, make: Make) -> Result<Self, String> {
        let mut pair = Self::new(beside, make);
        pair.k = case.k;
        pair.figures.cases = 1;
        let told = Told::by(case.value_bytes, beside.told());
        let number = pair.start_number(told, needed(case), case.n, case.k)?;
        assert_eq!(number, 0, "a case starts a store");
        if let Some(preset) = &case.preset {
            pair.known.preset(preset);
            pair.other.preset(preset);
        }
        Ok(pair)
    }

    /// *start* on both sides, told width and rule or neither; and the words needed, which are 0 exactly where it gives 1.
    pub fn start_number(&mut self, told: Option<Told>, words: usize, n: usize, k: usize) -> Result<u32, String> {
        let names = self.names();
        let known = self.known.start_told(told, words, n, k);
        let other = self.other.start_told(told, words, n, k);
        let what = format!("start N {n}, K {k}, {words} words, told {told:?}");
        same!(what, known, other, names);
        let told = told.unwrap_or_default();
        if known == 0 {
            self.told = told;
        }
        let needed = self.known.words_needed(n, k, told.value_bytes);
        let what = format!("words needed, N {n}, K {k}, {} bytes a value", told.value_bytes);
        same!(what, needed, self.other.words_needed(n, k, told.value_bytes), names);
        same!(what, known == 1, needed == 0, ["start gives 1", "they are 0"]);
        self.complaint()?;
        self.counts()?;
        self.same_settings()?;
        Ok(known)
    }

    /// The rule that the last start was told.
    pub fn rule(&self) -> Rule {
        self.told.rule
    }

    /// The bytes of a value, by the last start.
    pub fn value_bytes(&self) -> usize {
        self.told.value_bytes
    }

    /// Both sides have the width and the rule that the start was told.
    fn same_settings(&mut self) -> Result<(), String> {
        let [known, other] = self.names();
        let Told { value_bytes, rule } = self.told;
        same!("rule", Some(rule), self.known.rule(), ["told", known]);
        same!("rule", Some(rule), self.other.rule(), ["told", other]);
        same!("width", Some(value_bytes), self.known.value_bytes(), ["told", known]);
        same!("width", Some(value_bytes), self.other.value_bytes(), ["told", other]);
        Ok(())
    }

    /// The caller and all refusal counts.
    fn counts(&mut self) -> Result<(), String> {
        let names = self.names();
        same!(
            "caller and refusal counts",
            self.known.counts(),
            self.other.counts(),
            names
        );
        Ok(())
    }

    fn names(&self) -> [&'static str; 2] {
        [self.known.name(), self.other.name()]
    }

    fn complaint(&mut self) -> Result<(), String> {
        self.other.complaint().map_or(Ok(()), Err)
    }

    /// One run on both sides: stop, lengths, answer bytes, the bytes past them, and then caller, refusal counts, width and
    /// rule.
    pub fn run(&mut self, run: &Run) -> Result<Ran, String> {
        Ok(self.answered(run)?.0)
    }

    /// The same, with the answers.
    pub fn answered(&mut self, run: &Run) -> Result<(Ran, Vec<u8>), String> {
        let tape = run.tape();
        let names = self.names();
        self.fill = self.fill.wrapping_add(0x3b);
        let mut out = vec![self.fill; run.room.min(usable(&tape, self.value_bytes()))];
        let mut theirs = out.clone();

        let ran = self.known.run(&tape, &mut out);
        let other = self.other.run(&tape, &mut theirs);
        same!("run", ran, other, names);
        same!("answer bytes", out[..ran.written], theirs[..ran.written], names);
        same!(
            "bytes past the answers",
            out[ran.written..],
            theirs[ran.written..],
            names
        );
        self.complaint()?;
        self.counts()?;
        self.same_settings()?;

        self.figures.runs += 1;
        self.figures.commands += ran.commands as u64;
        self.figures.answer_bytes += ran.written as u64;
        self.figures.stops[ran.stop as usize] += 1;
        out.truncate(ran.written);
        Ok((ran, out))
    }

    /// Live list, families, every column through *column*, and the roll. One state in eight is looked at more closely.
    pub fn state(&mut self) -> Result<(), String> {
        let names = self.names();
        let closely = self.figures.states % 8 == self.beside.close_state();
        same!("live list", self.known.live(), self.other.live(), names);
        self.families()?;

        let registered = self.known.registered();
        for &kind in &registered {
            let length = self.known.length(kind).unwrap();
            for values in [false, true] {
                let whole = self.known.column(kind, values, 0, length);
                let what = column_name(kind, values);
                same!(what, whole, self.other.column(kind, values, 0, length), names);
                if closely {
                    self.column_parts(kind, values, &whole)?;
                }
            }
            let past = self.other.column_number(kind, false, 0, length + 1);
            same!(
                format!("number of {} past its end", column_name(kind, false)),
                16,
                past,
                names
            );
            self.figures.rows += length as u64;
        }
        if closely {
            self.no_columns(&registered)?;
        }
        self.roll(closely)?;
        // It takes long, and cases of few states are many.
        if closely && self.figures.states >= 7 {
            self.other.probe();
        }
        self.complaint()?;
        self.figures.states += 1;
        Ok(())
    }

    /// The families of the draft and of the layout in force as sets of sets. Those in force the Rust made itself.
    fn families(&mut self) -> Result<(), String> {
        let known = self.known.families().map(arranged);
        let other = self.other.families().map(arranged);
        if known == other {
            return Ok(());
        }
        let names = self.names();
        for (what, i) in [("draft", 0), ("layout", 1)] {
            same!(
                format!("families of the {what}"),
                shown(&known[i]),
                shown(&other[i]),
                names
            );
        }
        unreachable!("families that differ look alike");
    }

    /// The numbers of *column*, and a part from the middle.
    fn column_parts(&mut self, kind: u8, values: bool, whole: &[u32]) -> Result<(), String> {
        let names = self.names();
        let what = column_name(kind, values);
        let row = self.row_words(values);
        let length = whole.len() / row;
        for (start, end, number) in [
            (0, length, 0),
            (0, length + 1, 16),
            (length, length, 0),
            (length / 2 + 1, length / 2, 16),
            (1, usize::MAX, 16),
        ] {
            let known = self.known.column_number(kind, values, start, end);
            let other = self.other.column_number(kind, values, start, end);
            let what = format!("number of {what} {start}..{end}");
            same!(what, number, known, ["expected", names[0]]);
            same!(what, known, other, names);
        }
        let (start, end) = (length / 3, length / 2);
        let part = whole[row * start..row * end].to_vec();
        same!(
            format!("{what} {start}..{end}"),
            part,
            self.other.column(kind, values, start, end),
            names
        );
        Ok(())
    }

    /// How many words *column* gives for a row.
    fn row_words(&self, values: bool) -> usize {
        match values {
            false => 2,
            true => self.value_bytes() / 4,
        }
    }

    /// Kinds without a column.
    fn no_columns(&mut self, registered: &[u8]) -> Result<(), String> {
        let names = self.names();
        for kind in [0, 1, 2, 63, 127, 128, 255] {
            if !registered.contains(&kind) {
                same!(
                    format!("number of column {kind}"),
                    7,
                    self.other.column_number(kind, false, 0, 0),
                    names
                );
                let none: Vec<u32> = vec![];
                same!(
                    format!("refused column {kind}"),
                    none,
                    self.other.column(kind, true, 0, 0),
                    names
                );
            }
        }
        Ok(())
    }

    /// The roll, in a buffer that it fills exactly, in a longer one, and in one that is a byte short.
    fn roll(&mut self, closely: bool) -> Result<(), String> {
        let names = self.names();
        let rows: usize = self.lengths().iter().map(|&(_, length)| length).sum();
        let length = 4 + 9 * self.known.live().len() + (1 + self.value_bytes()) * rows;
        let rooms = [length, length + 3, length - 1];
        for room in rooms.into_iter().take(if closely { 3 } else { 1 }) {
            let mut out = vec![self.fill; room];
            let mut theirs = out.clone();
            let known = self.known.roll(&mut out);
            let other = self.other.roll(&mut theirs);
            let expected = if room < length { (6, 0) } else { (0, length) };
            let what = format!("roll into {room} bytes");
            same!(what, expected, known, ["expected", names[0]]);
            same!(what, known, other, names);
            same!("roll", out, theirs, names);
        }
        Ok(())
    }

    /// The registered kinds, each with the length of its column.
    fn lengths(&self) -> Vec<(u8, usize)> {
        let kinds = self.known.registered().into_iter();
        kinds.map(|kind| (kind, self.known.length(kind).unwrap())).collect()
    }

    /// A run that asks for the counts of all groups through RANGE: every group, every one with the next larger
    /// group's new kinds excluded, and every kind alone. It empties what is staged and excluded. It is made for eight bytes.
    pub fn range_run(&mut self) -> Run {
        let [_, layout] = self.known.families();
        let rings = demand::rings(&layout, self.rule());
        demand::run(&[rings, demand::kinds(&self.known.registered())].concat())
    }

    /// The ranges of all groups, and of every kind alone; beside the reference also those that there are none of.
    pub fn ranges(&mut self) -> Result<(), String> {
        let [_, layout] = self.known.families();
        let registered = self.known.registered();
        let mut asked = [demand::rings(&layout, self.rule()), demand::kinds(&registered)].concat();
        if !self.beside.is_rust() {
            asked.extend(demand::none(&layout, &registered));
        }
        self.ask(&asked)
    }

    /// The ranges of all groups.
    fn group_ranges(&mut self) -> Result<(), String> {
        let [_, layout] = self.known.families();
        self.ask(&demand::rings(&layout, self.rule()))
    }

    /// Asks both sides for ranges, and holds what they answer to the definition, by the columns of the side that the
    /// other is held to; where that is the reference, by those of both.
    fn ask(&mut self, asked: &[demand::Asked]) -> Result<(), String> {
        let (ran, answers) = self.answered(&demand::run(asked).at(self.value_bytes()))?;
        assert_eq!(ran.stop, 0);
        self.figures.ranges += asked.len() as u64;
        let (lengths, found) = (self.lengths(), demand::found(asked, &answers));
        let rule = self.rule();
        demand::hold(&mut *self.known, rule, &lengths, asked, &found)?;
        match self.beside {
            Beside::Rust(_) => Ok(()),
            Beside::Reference(_) => demand::hold(&mut *self.other, rule, &lengths, asked, &found),
        }
    }

    /// Everything after a run.
    pub fn step(&mut self, run: &Run, look: bool) -> Result<Ran, String> {
        let ran = self.run(run)?;
        if look {
            self.state()?;
        }
        Ok(ran)
    }

    /// The figures, with the answers counted in.
    pub fn finish(mut self) -> Figures {
        self.figures.seen = self.known.seen();
        self.figures.judged = self.known.judged();
        self.figures.ranged = self.known.ranged();
        self.figures
    }
}

fn shown(families: &Families) -> Vec<Vec<Vec<u8>>> {
    families
        .iter()
        .map(|family| family.iter().map(|&group| kinds_of(group)).collect())
        .collect()
}

fn column_name(kind: u8, values: bool) -> String {
    format!("column of kind {kind}, {}", if values { "values" } else { "entities" })
}

/// The length of buffer past which more room makes no difference: the longest answer is that of TAKE with 16 kinds.
pub fn usable(tape: &[u8], value_bytes: usize) -> usize {
    8 + (1 + 16 * (1 + value_bytes)) * tape.len()
}

/// How closely a case is looked at.
#[derive(Clone, Copy, PartialEq, Eq, Debug)]
pub enum Look {
    /// The state after every run, the ranges at the end.
    EachRun,
    /// The state and the ranges at the end.
    AtEnd,
    /// The state and the ranges of all groups after every run, the other ranges at the end.
    EachRange,
}

impl Look {
    /// How closely a case is looked at as a rule.
    pub fn at(case: &Case, beside: Beside) -> Self {
        match beside {
            Beside::Reference(_) => Look::EachRange,
            Beside::Rust(_) if case.n > 400 => Look::AtEnd,
            Beside::Rust(_) => Look::EachRun,
        }
    }
}

/// A whole case. The answer tells where the sides part, if they do.
pub fn compare(case: &Case, beside: Beside, make: Make, look: Look) -> Result<Figures, String> {
    let mut pair = Pair::start(case, beside, make)?;
    for (i, run) in case.runs.iter().enumerate() {
        let is_last = i + 1 == case.runs.len();
        pair.step(run, look != Look::AtEnd || is_last)
            .map_err(|what| format!("run {}: {what}", i + 1))?;
        if look == Look::EachRange && !is_last {
            pair.group_ranges()
                .map_err(|what| format!("ranges after run {}: {what}", i + 1))?;
        }
    }
    pair.ranges().map_err(|what| format!("ranges at the end: {what}"))?;
    Ok(pair.finish())
}

/// A case on which the sides part, and where.
#[derive(Clone, Debug)]
pub struct Difference {
    pub case: Case,
    pub what: String,
}

impl Difference {
    pub fn text(&self) -> String {
        format!("{}{}\n", self.case.text(), self.what)
    }
}

/// Cuts a case down while the sides still part. Beside the Rust no case goes past its reach.
pub fn shrink(case: &Case, beside: Beside, make: Make) -> Option<Difference> {
    let look = match beside {
        Beside::Rust(_) => Look::EachRun,
        Beside::Reference(_) => Look::EachRange,
    };
    let parts = |case: &Case| -> Option<String> {
        let is_past = beside.is_rust() && !past::is_within_reach(case);
        (!is_past).then(|| compare(case, beside, make, look).err())?
    };
    let mut best = Difference {
        what: parts(case)?,
        case: case.clone(),
    };
    let mut attempt = |best: &mut Difference, case: Case| -> bool {
        match parts(&case) {
            Some(what) => {
                *best = Difference { case, what };
                true
            }
            None => false,
        }
    };

    loop {
        let before = size(&best.case);
        merge_runs(&mut best, &mut attempt);
        drop_runs(&mut best, &mut attempt);
        drop_kinds(&mut best, &mut attempt);
        drop_chunks(&mut best, &mut attempt);
        simplify(&mut best, &mut attempt);
        if size(&best.case) == before {
            return Some(best);
        }
    }
}

/// Runs of more commands keep their operands.
const LONG: usize = 150;

type Attempt<'a> = dyn FnMut(&mut Difference, Case) -> bool + 'a;

fn size(case: &Case) -> (usize, usize, usize, usize) {
    let chunks = case.runs.iter().map(|run| run.chunks.len()).sum();
    let bytes = case.runs.iter().flat_map(Run::tape).map(usize::from).sum();
    (case.runs.len(), chunks, bytes, case.n + case.k + case.value_bytes)
}

fn merge_runs(best: &mut Difference, attempt: &mut Attempt) {
    let mut case = best.case.clone();
    let chunks = case.runs.iter().flat_map(|run| run.chunks.clone()).collect();
    case.runs = vec![Run::new(chunks)];
    if best.case.runs.len() > 1 {
        attempt(best, case);
    }
}

fn drop_runs(best: &mut Difference, attempt: &mut Attempt) {
    let mut at = best.case.runs.len();
    while at > 0 {
        at -= 1;
        let mut case = best.case.clone();
        case.runs.remove(at);
        if !case.runs.is_empty() {
            attempt(best, case);
        }
    }
}

fn drop_chunks(best: &mut Difference, attempt: &mut Attempt) {
    for i in 0..best.case.runs.len() {
        let mut width = best.case.runs[i].chunks.len();
        while width > 0 {
            let mut at = best.case.runs[i].chunks.len();
            while at > 0 {
                at = at.saturating_sub(width);
                let mut case = best.case.clone();
                let chunks = &mut case.runs[i].chunks;
                chunks.drain(at..(at + width).min(chunks.len()));
                attempt(best, case);
                at = at.min(best.case.runs[i].chunks.len());
            }
            width /= 2;
        }
    }
}

/// Takes a kind out of the case altogether.
fn drop_kinds(best: &mut Difference, attempt: &mut Attempt) {
    for kind in 0..=255 {
        let mut case = best.case.clone();
        let names = |chunk: &Chunk| matches!(chunk[..], [1 | 2 | 11, named, ..] if named == kind);
        for run in &mut case.runs {
            run.chunks.retain(|chunk| !names(chunk));
        }
        if case != best.case {
            attempt(best, case);
        }
    }
}

/// The same with the value 0 throughout.
fn without_values(case: &Case) -> Case {
    let mut case = case.clone();
    let chunks = case.runs.iter_mut().flat_map(|run| &mut run.chunks);
    for hold in chunks.filter(|chunk| chunk[..].starts_with(&[HOLD])) {
        hold.iter_mut().skip(2).for_each(|byte| *byte = 0);
    }
    case
}

/// Smaller operands in one run.
fn lessen(best: &mut Difference, i: usize, attempt: &mut Attempt) {
    for j in 0..best.case.runs[i].chunks.len() {
        for at in 1..best.case.runs[i].chunks[j].len() {
            for byte in [0, 1, 2] {
                let mut case = best.case.clone();
                if case.runs[i].chunks[j][at] > byte {
                    case.runs[i].chunks[j][at] = byte;
                    attempt(best, case);
                }
            }
        }
    }
}

/// The smaller width, smaller operands, more room, smaller stores, no preset.
fn simplify(best: &mut Difference, attempt: &mut Attempt) {
    for simpler in [Case::narrow, without_values] {
        let case = simpler(&best.case);
        if case != best.case {
            attempt(best, case);
        }
    }
    for i in 0..best.case.runs.len() {
        let mut case = best.case.clone();
        case.runs[i].room = ROOMY;
        if case != best.case {
            attempt(best, case);
        }
        if best.case.runs[i].chunks.len() <= LONG {
            lessen(best, i, attempt);
        }
    }
    for (n, k) in [
        (1, 1),
        (best.case.n / 2, best.case.k / 2),
        (best.case.n - 1, best.case.k),
        (best.case.n, best.case.k - 1),
    ] {
        let fits = best.case.preset.as_ref().is_none_or(|preset| preset.issued <= n);
        if n >= 1 && k >= 1 && n <= best.case.n && k <= best.case.k && (n, k) != (best.case.n, best.case.k) && fits {
            let mut case = best.case.clone();
            (case.n, case.k) = (n, k);
            attempt(best, case);
        }
    }
    if best.case.preset.is_some() {
        let mut case = best.case.clone();
        case.preset = None;
        attempt(best, case);
    }
}
