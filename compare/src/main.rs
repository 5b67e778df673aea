//! Compares the project's converter with the reference, bit for bit. README.md beside says how to run it.

mod angles;
#[path = "../../bench/bench.rs"]
mod bench;
#[path = "../../bench/blocks.rs"]
mod blocks;
mod cases;
mod compare;
mod edges;
mod expected;
mod faces;
mod fixed;
mod follow;
mod format;
mod judge;
mod maker;
mod missing;
mod ours;
mod outline;
mod outlines;
mod pages;
// The next four are those of the program `parts`, which uses more of them.
#[allow(dead_code)]
mod part;
mod partcall;
mod partfollow;
#[allow(dead_code)]
mod partjudge;
#[path = "../../bench/parts.rs"]
mod parts;
mod record;
mod rng;
mod seam;
mod seams;
#[path = "../../bench/search.rs"]
mod search;
mod shape;
mod solids;
mod text;

use std::process::ExitCode;

const USAGE: &str = "compare COUNT SEED [FIRST] | record COUNT SEED FILE | again FILE | bench [PART] | search SECONDS SEED";

fn number(word: Option<&String>, otherwise: u64) -> u64 {
    word.and_then(|w| w.parse().ok()).unwrap_or(otherwise)
}

fn main() -> ExitCode {
    let words: Vec<String> = std::env::args().skip(1).collect();
    let (folder, words) = words.split_first().expect("the folder for what differs");
    let mode = words.first().map_or("compare", String::as_str);
    if !["record", "again"].contains(&mode) && !ours::present() {
        println!("compare: SITEMESH_LIB names no archive, so nothing is compared");
        return ExitCode::from(3);
    }
    let agreed = match (mode, words.get(3)) {
        ("compare", first) => {
            compare::compare(number(words.get(1), 10_000), number(words.get(2), 1), number(first, 0), folder)
        }
        ("record", Some(file)) => record::record(number(words.get(1), 600), number(words.get(2), 1), file),
        ("again", _) if words.len() == 2 => record::again(&words[1]),
        ("bench", _) => {
            let part = words.get(1).map_or("", String::as_str);
            let agreed = [bench::bench(part), parts::bench(part)];
            agreed == [true; 2]
        }
        ("search", _) => search::search(number(words.get(1), 900), number(words.get(2), 1)),
        _ => {
            println!("{USAGE}");
            false
        }
    };
    if agreed { ExitCode::SUCCESS } else { ExitCode::FAILURE }
}
