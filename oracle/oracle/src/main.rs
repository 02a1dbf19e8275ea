//! Runs document 01's tapes on the Rust and on another side, and compares.

mod callers;
mod compare;
mod demand;
mod drafts;
mod examples;
mod faults;
mod fixed;
mod generate;
#[cfg(feature = "linked")]
mod linked;
mod listing;
mod past;
mod record;
mod reference;
mod rng;
mod rules;
mod side;
mod tape;
#[cfg(test)]
mod tests;
mod trays;
mod widths;
#[cfg(any(feature = "linked", test))]
mod words;

use compare::{shrink, Beside, Difference, Figures, Make, Pair};
use fixed::Part;
use reference::Reference;
use rules::Enumerated;
use side::{Rule, Side};
use sparsey::harness::{words_needed, Oracle, Preset, Sets, WIDTHS};
use std::path::Path;
use std::process::ExitCode;
use std::time::Instant;
use tape::{Case, Run, NARROW};

struct Options {
    seed: u64,
    count: u64,
    /// Commands of random cases past the Rust's reach.
    past: u64,
    /// Commands of random cases under the newer rule.
    newer: u64,
    /// Random cases for each fault.
    cases: usize,
    quick: bool,
    /// Print the smallest tapes.
    show: bool,
    /// The file of recorded answers, and its size.
    file: String,
    kilobytes: usize,
    /// Compare with the reference even where the library is linked.
    reference: bool,
    /// Write the files of the examples anew.
    write: bool,
}

impl Default for Options {
    fn default() -> Self {
        Self {
            seed: 1,
            count: 2_000_000,
            past: 1_000_000,
            newer: 1_000_000,
            cases: 300,
            quick: false,
            show: false,
            file: "../crates/replay/data/answers.bin".to_string(),
            kilobytes: 220,
            reference: false,
            write: false,
        }
    }
}

fn options() -> (String, Options) {
    let mut args = std::env::args().skip(1);
    let command = args.next().unwrap_or_else(|| "help".to_string());
    let mut options = Options::default();
    while let Some(arg) = args.next() {
        if arg == "--file" {
            options.file = args.next().expect("--file wants a name");
            continue;
        }
        let mut number = || {
            args.next()
                .and_then(|text| text.parse().ok())
                .unwrap_or_else(|| panic!("{arg} wants a number"))
        };
        match arg.as_str() {
            "--seed" => options.seed = number(),
            "--count" => options.count = number(),
            "--past" => options.past = number(),
            "--newer" => options.newer = number(),
            "--cases" => options.cases = number() as usize,
            "--kilobytes" => options.kilobytes = number() as usize,
            "--quick" => options.quick = true,
            "--show" => options.show = true,
            "--reference" => options.reference = true,
            "--write" => options.write = true,
            _ => panic!("unknown option {arg}"),
        }
    }
    (command, options)
}

fn main() -> ExitCode {
    let (command, options) = options();
    let make: Make = &|| other(options.reference);
    match command.as_str() {
        "all" => all(&options, make),
        "compare" => compare_everything(&options, make),
        "drafts" => show_drafts(make),
        "examples" => check_examples(&options, make),
        "faults" => show_faults(&options),
        "past" => code(compare_past_the_rust(&options, make)),
        "record" => record_answers(&options),
        "replay" => replay_answers(&options, make),
        "rules" => code(compare_the_rules(&options, make)),
        "wear" => wear(make),
        _ => {
            eprintln!(
                "oracle all | compare | drafts | examples | faults | past | record | replay | rules | wear: see README.md"
            );
            ExitCode::from(2)
        }
    }
}

/// The other side: the linked library where there is one, unless the reference is asked for.
fn other(_reference: bool) -> Box<dyn Side> {
    #[cfg(feature = "linked")]
    if !_reference {
        return Box::new(linked::Linked::new());
    }
    Box::new(Reference::new())
}

fn progress(name: &str, figures: &Figures, since: Instant) {
    eprintln!(
        "{:>7.1} s  {:>10} commands  {name}",
        since.elapsed().as_secs_f64(),
        figures.commands
    );
}

fn report(difference: &Difference, beside: Beside, make: Make) {
    println!("DIFFERENCE {}\n{}", beside.text(), difference.text());
    match shrink(&difference.case, beside, make) {
        Some(least) => println!("cut down to\n{}", least.text()),
        None => println!("it did not come again when the case was run anew"),
    }
}

/// The figures of all the parts; `None` where a difference was found and reported.
fn compare_parts(parts: Vec<Part>, beside: Beside, make: Make, since: Instant) -> Option<Figures> {
    let mut figures = Figures::default();
    for part in parts {
        let mut shown = Instant::now();
        let watched = part.cases.inspect(|_| {
            if shown.elapsed().as_secs() >= 10 {
                shown = Instant::now();
                eprintln!("{:>7.1} s  {} ..", since.elapsed().as_secs_f64(), part.name);
            }
        });
        match fixed::compare_all(watched, beside, make) {
            Ok(more) => figures.add(&more),
            Err(difference) => {
                report(&difference, beside, make);
                return None;
            }
        }
        progress(part.name, &figures, since);
    }
    Some(figures)
}

/// One random case at both widths, and one in five again with little room. One of the newer rule runs also on stores of both
/// rules.
fn compare_random(seed: u64, case: u64, beside: Beside, make: Make) -> Result<Figures, Difference> {
    let seed = seed.wrapping_mul(0x1_0000_0000).wrapping_add(case);
    let mut figures = Figures::default();
    for value_bytes in WIDTHS {
        let (compared, more) = generate::random_case(seed, value_bytes, beside, make)?;
        figures.add(&more);
        if case % 5 == 4 {
            figures.add(&generate::tight_case(seed, &compared, beside, make)?);
        }
        if beside.rule() == Rule::Newer {
            rules::same_but_for_ranges(&compared, make).map_err(|what| Difference { case: compared, what })?;
        }
    }
    Ok(figures)
}

/// Random cases until `count` commands are compared, each beside what `beside` gives for its number.
fn compare_randoms(seed: u64, count: u64, beside: fn(u64) -> Beside, make: Make, since: Instant) -> Option<Figures> {
    let mut figures = Figures::default();
    let mut shown = Instant::now();
    for case in 0.. {
        if figures.commands >= count {
            break;
        }
        match compare_random(seed, case, beside(case), make) {
            Ok(more) => figures.add(&more),
            Err(difference) => {
                println!("seed {seed}, case {case}");
                report(&difference, beside(case), make);
                return None;
            }
        }
        if shown.elapsed().as_secs() >= 5 {
            shown = Instant::now();
            progress("random", &figures, since);
        }
    }
    Some(figures)
}

/// One enumerated case in so many is run at sixteen bytes too, so that the time does not double.
const WIDE_IN: usize = 8;

/// Everything that is fixed, then random cases until `count` commands of them are compared; then both past the Rust, and
/// under the newer rule.
fn compare_everything(options: &Options, make: Make) -> ExitCode {
    let compared = compare_beside_the_rust(options, make)
        .and_then(|()| compare_past_the_rust(options, make))
        .and_then(|()| compare_the_rules(options, make));
    code(compared)
}

/// Success where nothing differs.
fn code(compared: Option<()>) -> ExitCode {
    match compared {
        Some(()) => ExitCode::SUCCESS,
        None => ExitCode::FAILURE,
    }
}

fn compare_beside_the_rust(options: &Options, make: Make) -> Option<()> {
    let since = Instant::now();
    let rust = Beside::Rust(Sets::Tuples);
    let mut fixed = fixed::starts(rust, make)
        .inspect_err(|what| println!("DIFFERENCE at start: {what}"))
        .ok()?;
    let exhaustive = if options.quick { vec![] } else { fixed::exhaustive() };
    let mut parts = fixed::at_both(fixed::limits(4096), 1);
    parts.extend(widths::parts());
    parts.extend(fixed::at_both(exhaustive, WIDE_IN));
    fixed.add(&compare_parts(parts, rust, make, since)?);
    let sets = |case| match case % 3 {
        0 => Beside::Rust(Sets::Staged),
        _ => Beside::Rust(Sets::Tuples),
    };
    let random = compare_randoms(options.seed, options.count, sets, make, since)?;
    println!("fixed: {}", fixed.text());
    println!("random, seed {}: {}", options.seed, random.text());
    println!(
        "no difference between the Rust and the {} in {} commands, {:.0} s",
        make().name(),
        fixed.commands + random.commands,
        since.elapsed().as_secs_f64()
    );
    Some(())
}

/// Families of 16 kinds and layouts of 64 groups: the reference beside the linked store, both held to the definition.
/// Without the library that is the reference beside itself, and only the definition judges.
fn compare_past_the_rust(options: &Options, make: Make) -> Option<()> {
    let since = Instant::now();
    let fixed = compare_parts(past::at_both(WIDE_IN), Beside::PAST, make, since)?;
    let random = compare_randoms(options.seed, options.past, |_| Beside::PAST, make, since)?;
    println!("past the Rust, fixed: {}", fixed.text());
    println!("past the Rust, random, seed {}: {}", options.seed, random.text());
    println!(
        "no difference between the reference, the {} and the definition in {} commands, {:.0} s",
        make().name(),
        fixed.commands + random.commands,
        since.elapsed().as_secs_f64()
    );
    Some(())
}

/// Stores of the newer rule: the reference beside the linked store, both held to the definition; without the library the
/// reference beside itself. The same lists are also asked for on stores of the older rule, beside the Rust.
fn compare_the_rules(options: &Options, make: Make) -> Option<()> {
    let since = Instant::now();
    let mut fixed = rules::starts(make)
        .inspect_err(|what| println!("DIFFERENCE at start: {what}"))
        .ok()?;
    for (width, layouts, value_bytes) in rules::enumerated(options.quick) {
        fixed.add(&enumerate_lists(width, &layouts, value_bytes, make, since)?.newer);
    }
    let mut parts = fixed::at_both(rules::parts(), 1);
    parts.extend(widths::parts());
    fixed.add(&compare_parts(parts, Beside::NEWER, make, since)?);
    let random = compare_randoms(options.seed, options.newer, |_| Beside::NEWER, make, since)?;
    println!("newer rule, fixed: {}", fixed.text());
    println!("newer rule, random, seed {}: {}", options.seed, random.text());
    println!(
        "no difference between the reference, the {} and the definition under the newer rule in {} commands, {:.0} s",
        make().name(),
        fixed.commands + random.commands,
        since.elapsed().as_secs_f64()
    );
    Some(())
}

/// RANGE with every two lists on stores of both rules, which must differ somewhere.
fn enumerate_lists(
    width: u8,
    layouts: &[Vec<Vec<u8>>],
    value_bytes: usize,
    make: Make,
    since: Instant,
) -> Option<Enumerated> {
    let found = rules::enumerate(width, layouts, value_bytes, make)
        .inspect_err(|(beside, difference)| report(difference, *beside, make))
        .ok()?;
    println!("{width} kinds, {value_bytes} bytes a value: {}", found.text());
    assert!(found.differ > 0, "the rules do not differ");
    progress("every two lists, both rules", &found.newer, since);
    Some(found)
}

/// Runs `f` with panics kept quiet, for panics that are looked for.
fn quietly<T>(f: impl FnOnce() -> T) -> T {
    let hook = std::panic::take_hook();
    std::panic::set_hook(Box::new(|_| {}));
    let result = f();
    std::panic::set_hook(hook);
    result
}

fn show_faults(options: &Options) -> ExitCode {
    let plain = faults::find(None, options.seed, options.cases);
    assert!(!plain.is_found(), "the reference as it is differs: {}", plain.line());
    let (mut missed, since) = (0, Instant::now());
    println!("| fault | random cases | limits | past the Rust | newer rule | start | commands in the smallest tape |");
    println!("|---|---|---|---|---|---|---|");
    for &fault in reference::Fault::ALL {
        let found = quietly(|| faults::find(Some(fault), options.seed, options.cases));
        println!("{}", found.line());
        eprintln!("{:>7.1} s  {}", since.elapsed().as_secs_f64(), fault.text());
        missed += usize::from(!found.is_found());
        if let Some((beside, least)) = found.least.filter(|_| options.show) {
            println!("{}\n{}", beside.text(), least.text());
        }
    }
    println!("{} faults, {missed} not found", reference::Fault::ALL.len());
    match missed {
        0 => ExitCode::SUCCESS,
        _ => ExitCode::FAILURE,
    }
}

fn record_answers(options: &Options) -> ExitCode {
    let file = record::write(options.seed, 1000 * options.kilobytes);
    let replayed = record::replay(&file, &|| Box::new(Oracle::new(Sets::Tuples)));
    assert_eq!(
        replayed.agree, replayed.cases,
        "the Rust does not answer the same again"
    );
    std::fs::write(&options.file, &file).unwrap_or_else(|e| panic!("{}: {e}", options.file));
    println!(
        "{}: {} bytes, seed {}, {replayed:?}",
        options.file,
        file.len(),
        options.seed
    );
    ExitCode::SUCCESS
}

fn replay_answers(options: &Options, make: Make) -> ExitCode {
    let file = std::fs::read(&options.file).unwrap_or_else(|e| panic!("{}: {e}", options.file));
    let replayed = record::replay(&file, make);
    println!("{}: {replayed:?}", make().name());
    match replayed.agree == replayed.cases {
        true => ExitCode::SUCCESS,
        false => ExitCode::FAILURE,
    }
}

fn check_examples(options: &Options, make: Make) -> ExitCode {
    match examples::examples(Path::new("../examples"), options.write, make) {
        Ok(names) => {
            println!(
                "{} examples, the Rust and the {} agree on each",
                names.len(),
                make().name()
            );
            ExitCode::SUCCESS
        }
        Err(what) => {
            println!("{what}");
            ExitCode::FAILURE
        }
    }
}

/// The comparison, the drafts, the faults, the recorded answers and the examples, one after the other.
fn all(options: &Options, make: Make) -> ExitCode {
    let codes = [
        compare_everything(options, make),
        show_drafts(make),
        show_faults(options),
        replay_answers(options, make),
        check_examples(options, make),
    ];
    match codes.iter().all(|&code| code == ExitCode::SUCCESS) {
        true => ExitCode::SUCCESS,
        false => ExitCode::FAILURE,
    }
}

/// Takes index 0 of the Rust through all its versions, one by one, and holds the last few to a store that was preset.
fn wear(make: Make) -> ExitCode {
    let since = Instant::now();
    let version = u32::MAX - 2;
    let case = Case {
        n: 2,
        k: 1,
        value_bytes: NARROW,
        preset: Some(Preset {
            issued: 1,
            recycled: vec![(0, version)],
            ..Preset::default()
        }),
        runs: vec![],
    };
    let mut pair = Pair::start(&case, Beside::Rust(Sets::Tuples), make).unwrap();
    let mut worn = Oracle::new(Sets::Tuples);
    worn.start(words_needed(2, 1, NARROW), 2, 1, NARROW);
    worn.wear(u64::from(version) - 1);
    pair.known = Box::new(worn);
    let mut chunks = vec![tape::reg(5)];
    for version in version..=u32::MAX {
        chunks.extend([tape::hold(5, 9), tape::new(), tape::kill((0, version))]);
    }
    chunks.extend([
        tape::new(),
        tape::new(),
        tape::kill((1, 1)),
        tape::kill((0, 1)),
        tape::new(),
        tape::new(),
        // One number is retired, one waits.
        tape::kill((1, 2)),
        tape::tray(2),
        tape::tray(1),
        tape::tray(0),
        tape::tray(1),
    ]);
    for chunk in chunks {
        if let Err(what) = pair.step(&Run::new(vec![chunk]), true) {
            println!("DIFFERENCE after all versions: {what}");
            return ExitCode::FAILURE;
        }
    }
    let figures = pair.finish();
    println!(
        "{version} versions of one index, then {} commands, no difference, {:.0} s",
        figures.commands,
        since.elapsed().as_secs_f64()
    );
    ExitCode::SUCCESS
}

fn show_drafts(make: Make) -> ExitCode {
    let (drafts, limits) = quietly(|| (drafts::enumerate(6, 3), drafts::limits()));
    print!("{}limits:\n{limits}", drafts.text());
    println!("every list of 4 groups over 5 kinds:");
    let mut wrong = drafts.differ() + drafts.disputed;
    for mut side in [make(), Box::new(Oracle::new(Sets::Staged))] {
        let orders = drafts::orders(5, 4, &mut *side);
        print!("  {}", orders.text(side.name()));
        wrong += orders.wrong;
    }
    if drafts.disputed > 0 {
        println!("harness and reference dispute {} hands", drafts.disputed);
    }
    match wrong {
        0 => ExitCode::SUCCESS,
        _ => ExitCode::FAILURE,
    }
}
