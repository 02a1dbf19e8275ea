//! Tapes as text, one command a line: read, and written with their bytes and answers.

use crate::tape::{self, number, Chunk};
use std::fmt::Write;

/// The commands of a text. A line is a command as `tape::disassemble` writes it, or `BYTES` and hexadecimal bytes; what
/// begins with # is for the reader. The commands are for a store with values of so many bytes.
pub fn assemble(text: &str, value_bytes: usize) -> Result<Vec<Chunk>, String> {
    let mut chunks = vec![];
    for (at, line) in text.lines().enumerate() {
        let words: Vec<&str> = line.split_whitespace().collect();
        if words.is_empty() || words[0].starts_with('#') {
            continue;
        }
        chunks.push(command(&words, value_bytes).ok_or_else(|| format!("line {}: {line}", at + 1))?);
    }
    Ok(chunks)
}

fn command(words: &[&str], value_bytes: usize) -> Option<Chunk> {
    if let ["BYTES", bytes @ ..] = words {
        return bytes.iter().map(|byte| u8::from_str_radix(byte, 16).ok()).collect();
    }
    let byte = tape::NAMES[1..].iter().position(|&name| name == words[0])? as u8 + 1;
    let bytes = match (byte, &words[1..]) {
        (1 | 11 | 16, [number]) => vec![byte, number.parse().ok()?],
        (2, [kind, "=", value]) => hold(kind.parse().ok()?, value.parse().ok()?, value_bytes)?,
        (4..=7, [index, "version", version]) => tape::with_id(byte, (index.parse().ok()?, version.parse().ok()?)),
        (15, [count]) => tape::tray(count.parse().ok()?),
        (3 | 8..=10 | 12..=14, []) => vec![byte],
        _ => return None,
    };
    Some(bytes)
}

/// HOLD, if the value has no more bytes than a store's.
fn hold(kind: u8, value: u128, value_bytes: usize) -> Option<Chunk> {
    let is_short = value.to_le_bytes()[value_bytes..].iter().all(|&byte| byte == 0);
    is_short.then(|| tape::hold_at(value_bytes, kind, value))
}

/// Bytes in hexadecimal.
fn hex(bytes: &[u8]) -> String {
    let bytes: Vec<String> = bytes.iter().map(|byte| format!("{byte:02X}")).collect();
    bytes.join(" ")
}

/// An answer in words.
fn meaning(byte: u8, answer: &[u8], value_bytes: usize) -> String {
    let told = &answer[1..];
    match (byte, answer[0]) {
        (1, 0) => ["known", "new"][usize::from(told[0])].to_string(),
        (3, 0) => format!("entity {} version {}", number(&told[..4]), number(&told[4..])),
        (5, 0) => {
            let values = told.chunks(1 + value_bytes).map(|told| match told[0] {
                0 => "not held".to_string(),
                _ => number(&told[1..]).to_string(),
            });
            values.collect::<Vec<String>>().join(", ")
        }
        (9, 0) => ["nothing added", "added"][usize::from(told[0])].to_string(),
        (12, 0) if told[0] == 0 => "none".to_string(),
        (12, 0) => format!("rows {} to {}", number(&told[1..5]), number(&told[5..])),
        (14, 0) => format!("{} refused", number(told)),
        (15, 0) => format!("entities: {}", number(told)),
        (_, 0) => String::new(),
        (_, refusal) => format!("refused: {refusal}"),
    }
}

/// Each command with its bytes, and its answer with what it means, on a store with values of so many bytes.
pub fn listing(answered: &[(Chunk, Vec<u8>)], value_bytes: usize) -> String {
    let mut text = String::new();
    for (chunk, answer) in answered {
        let command = tape::disassemble(chunk, value_bytes).join("");
        let meaning = meaning(chunk[0], answer, value_bytes);
        writeln!(
            text,
            "{command:<18} {:<30} -> {:<30} {meaning}",
            hex(chunk),
            hex(answer)
        )
        .unwrap();
    }
    text.lines().map(|line| format!("{}\n", line.trim_end())).collect()
}
