//! The tapes of `examples/`: text in, and beside it the tape's bytes, the answers as the program `tape` writes them, a
//! listing, and what the example programs of `bindings/` print.

use crate::compare::{compare, Beside, Look, Make};
use crate::listing::{assemble, listing};
use crate::tape::{Case, Chunk, NARROW};
use sparsey::harness::{words_needed, Oracle, Ran, Sets};
use std::collections::BTreeSet;
use std::fmt::Write;
use std::fs;
use std::path::{Path, PathBuf};

/// The store of the program `tape`, whose values have eight bytes.
const N: usize = 64;
const K: usize = 8;

/// What stands beside a text, by its ending.
type Files = [(&'static str, Vec<u8>); 4];

/// The texts of the folder. A file that stands beside a text names its text too, so that a text that is gone is missed.
fn texts(folder: &Path) -> std::io::Result<BTreeSet<PathBuf>> {
    let mut texts = BTreeSet::new();
    for entry in fs::read_dir(folder)? {
        let path = entry?.path();
        let ending = path.extension().and_then(|ending| ending.to_str());
        if matches!(ending, Some("txt" | "tape" | "answers" | "listing" | "roll")) {
            texts.insert(path.with_extension("txt"));
        }
    }
    Ok(texts)
}

/// Makes the files of every text of the folder, after both sides agreed on it; writes them, or holds them to those
/// that are there. The names of the texts.
pub fn examples(folder: &Path, write: bool, make: Make) -> Result<Vec<String>, String> {
    let mut names = vec![];
    let texts = texts(folder).map_err(|e| format!("{}: {e}", folder.display()))?;
    for path in texts {
        let name = path.display().to_string();
        let text = fs::read_to_string(&path).map_err(|e| format!("{name}: {e}"))?;
        let chunks = assemble(&text, NARROW).map_err(|what| format!("{name}, {what}"))?;
        let beside = Beside::Rust(Sets::Tuples);
        compare(&Case::new(N, K, chunks.clone()), beside, make, Look::EachRun)
            .map_err(|what| format!("{name}: {what}"))?;
        for (ending, bytes) in files(&chunks) {
            let file = path.with_extension(ending);
            let shown = file.display();
            if write {
                fs::write(&file, bytes).map_err(|e| format!("{shown}: {e}"))?;
            } else if fs::read(&file).map_err(|e| format!("{shown}: {e}"))? != bytes {
                return Err(format!("{shown} is not what the Rust answers"));
            }
        }
        names.push(name);
    }
    match names.is_empty() {
        true => Err(format!("{}: no example", folder.display())),
        false => Ok(names),
    }
}

fn files(chunks: &[Chunk]) -> Files {
    let tape = chunks.concat();
    let mut rust = Oracle::new(Sets::Tuples);
    rust.start(words_needed(N, K, NARROW), N, K, NARROW);
    // Command by command, for the listing.
    let mut answered = vec![];
    let mut ran = Ran::default();
    for chunk in chunks {
        let mut out = vec![0; 256];
        let step = rust.run(chunk, &mut out);
        ran.stop = step.stop;
        ran.commands += step.commands;
        ran.read += step.read;
        ran.written += step.written;
        if step.stop != 0 {
            break;
        }
        answered.push((chunk.clone(), out[..step.written].to_vec()));
    }
    let mut answers: Vec<u8> = answered.iter().flat_map(|(_, answer)| answer.clone()).collect();
    answers.push(ran.stop as u8);
    for number in [ran.commands, ran.read, ran.written] {
        answers.extend((number as u32).to_le_bytes());
    }
    let stop = format!(
        "stop {}, {} commands, {} bytes read, {} written\n",
        ran.stop, ran.commands, ran.read, ran.written
    );
    let listed = [listing(&answered, NARROW), stop.clone(), columns(&rust)].concat();
    let rolled = [stop, roll(&rust)].concat();
    [
        ("tape", tape),
        ("answers", answers),
        ("listing", listed.into_bytes()),
        ("roll", rolled.into_bytes()),
    ]
}

/// Every column in row order.
fn columns(rust: &Oracle) -> String {
    let mut text = String::new();
    for kind in rust.registered() {
        let (entities, values) = rust.column(kind).unwrap();
        write!(text, "column {kind}:").unwrap();
        for ((index, version), value) in entities.into_iter().zip(values) {
            write!(text, "  {index} version {version} = {value}").unwrap();
        }
        text.push('\n');
    }
    text
}

/// The roll as the example programs print it.
fn roll(rust: &Oracle) -> String {
    let mut live = rust.live();
    live.sort();
    let mut text = format!("{} live\n", live.len());
    for (index, version) in live {
        write!(text, "entity {index} version {version}:").unwrap();
        for kind in rust.registered() {
            let (entities, values) = rust.column(kind).unwrap();
            if let Some(place) = entities.iter().position(|&entity| entity == (index, version)) {
                write!(text, " {kind}={}", values[place]).unwrap();
            }
        }
        text.push('\n');
    }
    text
}
