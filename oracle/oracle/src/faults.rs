//! Is the comparison sharp? Each fault is switched on in the reference, and the same cases are run as ever.

use crate::compare::{shrink, Beside, Difference, Make};
use crate::fixed::{self, Part};
use crate::generate;
use crate::past;
use crate::reference::{Fault, Reference};
use crate::rules;
use crate::side::Side;
use crate::tape::Run;
use crate::widths;
use sparsey::harness::{Sets, WIDTHS};
use std::panic::{catch_unwind, AssertUnwindSafe};

/// How a fault was found.
pub struct Found {
    /// None for the reference as it is.
    pub fault: Option<Fault>,
    /// Random cases that differ, of those tried.
    pub random: usize,
    pub tried: usize,
    /// Names of the fixed parts with a case that differs.
    pub fixed: Vec<&'static str>,
    /// How many fixed parts there are.
    pub parts: usize,
    /// Names of the parts past the Rust's reach with a case that differs; the random cases there are one.
    pub past: Vec<&'static str>,
    pub past_parts: usize,
    /// The same under the newer rule; every two lists of kinds are one more there.
    pub newer: Vec<&'static str>,
    pub newer_parts: usize,
    /// Whether the comparison of the starts differs.
    pub at_start: bool,
    /// The smallest tape found, and what it stands beside.
    pub least: Option<(Beside, Difference)>,
}

impl Found {
    pub fn is_found(&self) -> bool {
        let parts = self.fixed.len() + self.past.len() + self.newer.len();
        self.random > 0 || parts > 0 || self.at_start
    }

    /// Commands of the smallest tape.
    pub fn commands(&self) -> usize {
        self.least.as_ref().map_or(0, |(_, least)| {
            least.case.runs.iter().map(|run: &Run| run.chunks.len()).sum()
        })
    }

    pub fn line(&self) -> String {
        let least = match &self.least {
            None => String::from("-"),
            Some(_) => self.commands().to_string(),
        };
        let start = if self.at_start { 1 } else { 0 };
        format!(
            "| {} | {} of {} | {} of {} | {} of {} | {} of {} | {start} | {least} |",
            self.fault.map_or("none", Fault::text),
            self.random,
            self.tried,
            self.fixed.len(),
            self.parts,
            self.past.len(),
            self.past_parts,
            self.newer.len(),
            self.newer_parts,
        )
    }
}

/// One random case past the Rust, and one under the newer rule, for so many beside the Rust.
const SHARE: u64 = 20;

/// One fixed case in so many is run at sixteen bytes too.
const WIDE_IN: usize = 3;

/// A search for one fault under way.
struct Search<'a> {
    make: Make<'a>,
    found: Found,
    smallest: Option<(Beside, Difference)>,
}

impl Search<'_> {
    /// Whether the sides part; the smallest case is kept.
    fn differs<T>(&mut self, beside: Beside, outcome: impl FnOnce(Make) -> Result<T, Difference>) -> bool {
        self.parts_somewhere(|make| outcome(make).map_err(|difference| (beside, difference)))
    }

    /// The same where the outcome tells what the sides stand beside.
    fn parts_somewhere<T>(&mut self, outcome: impl FnOnce(Make) -> Result<T, (Beside, Difference)>) -> bool {
        let make = self.make;
        match catch_unwind(AssertUnwindSafe(|| outcome(make))) {
            Ok(Ok(_)) => false,
            Ok(Err((beside, difference))) => {
                self.keep(beside, difference);
                true
            }
            // A fault may also make the reference panic, which counts as found.
            Err(_) => true,
        }
    }

    /// Keeps a case that is smaller than the one before.
    fn keep(&mut self, beside: Beside, difference: Difference) {
        let bytes = |difference: &Difference| difference.case.runs.iter().map(|run| run.tape().len()).sum::<usize>();
        let least = self.smallest.as_ref().map(|(_, least)| bytes(least));
        if least.is_none_or(|least| bytes(&difference) < least) {
            self.smallest = Some((beside, difference));
        }
    }

    fn parts(&mut self, parts: Vec<Part>, beside: Beside) -> Vec<&'static str> {
        let mut differ = vec![];
        for part in parts {
            if self.differs(beside, |make| fixed::compare_all(part.cases, beside, make)) {
                differ.push(part.name);
            }
        }
        differ
    }

    /// How many of so many random cases differ. Each of them is run at one width, in turn.
    fn random(&mut self, seed: u64, cases: u64, beside: Beside) -> usize {
        let differs = |case: &u64| {
            let value_bytes = WIDTHS[(case % 2) as usize];
            let seed = seed.wrapping_mul(0x1_0000_0000).wrapping_add(*case);
            self.differs(beside, |make| generate::random_case(seed, value_bytes, beside, make))
        };
        (0..cases).filter(differs).count()
    }

    /// The names of those of the parts that differ, and of the random cases, of which one is taken for so many.
    fn beside_reference(&mut self, parts: Vec<Part>, seed: u64, beside: Beside) -> Vec<&'static str> {
        let cases = (self.found.tried as u64).div_ceil(SHARE);
        let mut differ = self.parts(parts, beside);
        if self.random(seed, cases, beside) > 0 {
            differ.push("random");
        }
        differ
    }

    /// Whether every two lists of four kinds tell the fault, at either width.
    fn lists(&mut self) -> bool {
        let all = rules::enumerated(true).into_iter();
        let mut told = all.map(|(width, layouts, value_bytes)| {
            self.parts_somewhere(|make| rules::enumerate(width, &layouts, value_bytes, make))
        });
        told.any(|is_told| is_told)
    }

    /// What was found, with the smallest case cut down.
    fn finish(self) -> Found {
        let (make, mut found) = (self.make, self.found);
        found.least = self.smallest.and_then(|(beside, least)| {
            let least = catch_unwind(AssertUnwindSafe(|| shrink(&least.case, beside, make)));
            least.ok().flatten().map(|least| (beside, least))
        });
        found
    }
}

/// Whether the comparison of the starts differs, plain or told width and rule.
fn differs_at_start(make: Make) -> bool {
    let starts = || -> Result<(), String> {
        fixed::starts(Beside::Rust(Sets::Staged), make)?;
        rules::starts(make)?;
        Ok(())
    };
    !matches!(catch_unwind(AssertUnwindSafe(starts)), Ok(Ok(())))
}

/// Searches for a fault; with none there is nothing to be found.
pub fn find(fault: Option<Fault>, seed: u64, tried: usize) -> Found {
    let make = &move || Box::new(Reference::with(fault)) as Box<dyn Side>;
    let rust = Beside::Rust(Sets::Staged);
    let limits = fixed::at_both(fixed::limits(16), WIDE_IN)
        .into_iter()
        .chain(widths::parts());
    let limits: Vec<Part> = limits.collect();
    let [past, newer] = [past::few(), rules::few()].map(|parts| fixed::at_both(parts, WIDE_IN));
    let mut search = Search {
        make,
        found: Found {
            fault,
            random: 0,
            tried,
            fixed: vec![],
            parts: limits.len(),
            past: vec![],
            past_parts: past.len() + 1,
            newer: vec![],
            newer_parts: newer.len() + 2,
            at_start: differs_at_start(make),
            least: None,
        },
        smallest: None,
    };
    search.found.fixed = search.parts(limits, rust);
    search.found.random = search.random(seed, tried as u64, rust);
    search.found.past = search.beside_reference(past, seed, Beside::PAST);
    search.found.newer = search.beside_reference(newer, seed, Beside::NEWER);
    if search.lists() {
        search.found.newer.push("every two lists");
    }
    search.finish()
}
