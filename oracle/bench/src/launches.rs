//! Several launches of this program, and the middle one of each figure.

use std::path::{Path, PathBuf};
use std::process::{Command, Stdio};

/// What a launch of a program prints, told these words.
fn launched(program: &Path, told: &[String]) -> String {
    let mut command = Command::new(program);
    let output = command.args(told).stderr(Stdio::inherit()).output();
    let output = output.unwrap_or_else(|e| panic!("{}: {e}", program.display()));
    assert!(output.status.success(), "{}: a launch failed", program.display());
    String::from_utf8(output.stdout).unwrap()
}

/// The least, the middle and the greatest of figures, as they were printed.
fn spread<'a>(figures: &[&'a str]) -> [&'a str; 3] {
    let value = |figure: &str| -> f64 { figure.parse().expect("a figure") };
    let mut sorted = figures.to_vec();
    sorted.sort_by(|one, other| value(one).total_cmp(&value(other)));
    [sorted[0], sorted[sorted.len() / 2], sorted[sorted.len() - 1]]
}

/// The same cell of each launch: word by word what all have, or the middle one.
fn middle(cells: &[&str]) -> String {
    let split: Vec<Vec<&str>> = cells.iter().map(|cell| cell.split(' ').collect()).collect();
    let word = |at: usize| {
        let words: Vec<&str> = split.iter().map(|words| words[at]).collect();
        match words.iter().all(|word| *word == words[0]) {
            true => words[0],
            false => spread(&words)[1],
        }
    };
    let words: Vec<&str> = (0..split[0].len()).map(word).collect();
    words.join(" ")
}

/// The same line of each launch. In a table with ratios in this cell, the least and greatest of them come behind it.
fn merged(lines: &[&str], ratio: Option<usize>) -> String {
    let split: Vec<Vec<&str>> = lines.iter().map(|line| line.split('|').collect()).collect();
    let mut cells = vec![];
    for at in 0..split[0].len() {
        let same: Vec<&str> = split.iter().map(|cells| cells[at]).collect();
        cells.push(middle(&same));
        if ratio == Some(at) {
            cells.push(match same[0].trim() {
                "ratio" => " least to greatest ".to_string(),
                "---" => "---".to_string(),
                _ => {
                    let ratios: Vec<&str> = same.iter().map(|cell| cell.trim()).collect();
                    let [least, _, greatest] = spread(&ratios);
                    format!(" {least} to {greatest} ")
                }
            });
        }
    }
    cells.join("|")
}

/// What the launches print, made one.
fn show_merged(outputs: &[String]) {
    let launches: Vec<Vec<&str>> = outputs.iter().map(|output| output.lines().collect()).collect();
    let mut ratio = None;
    for line in 0..launches[0].len() {
        let lines: Vec<&str> = launches.iter().map(|lines| lines[line]).collect();
        if let Some(at) = lines[0].split('|').position(|cell| cell.trim() == "ratio") {
            ratio = Some(at);
        }
        if !lines[0].starts_with('|') {
            ratio = None;
        }
        println!("{}", merged(&lines, ratio));
    }
}

/// So many launches told these words, in turn with those of another build of this program, where one is named.
pub fn show(count: usize, before: Option<PathBuf>, told: &[String]) {
    let now = std::env::current_exe().unwrap();
    let (mut earlier, mut later) = (vec![], vec![]);
    for _ in 0..count {
        earlier.extend(before.iter().map(|program| launched(program, told)));
        later.push(launched(&now, told));
    }
    if !earlier.is_empty() {
        println!("Before, the middle one of {count} launches:\n");
        show_merged(&earlier);
        println!();
    }
    println!("The middle one of {count} launches:\n");
    show_merged(&later);
}
