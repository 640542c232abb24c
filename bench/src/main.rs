//! Compares the proved archive with a plain Rust implementation of the same rules, and times both.

mod archive;
mod body;
mod compare;
mod counts;
mod generate;
mod mixes;
mod model;
mod random;
mod script;
mod timing;

use std::env;
use std::process::ExitCode;

const USAGE: &str = "bench compare [SCRIPTS [SEED]]
bench time [RUNS [PART OF THE NAME OF A MIX]]";

fn main() -> ExitCode {
    let words: Vec<String> = env::args().skip(1).collect();
    match words.iter().map(String::as_str).collect::<Vec<_>>()[..] {
        ["compare"] => compare::compare(100_000, 1),
        ["compare", scripts] => with(scripts, |scripts| compare::compare(scripts, 1)),
        ["compare", scripts, seed] => with(scripts, |scripts| with(seed, |seed| compare::compare(scripts, seed))),
        ["time"] => timing::time(101, ""),
        ["time", runs] => with(runs, |runs| timing::time(runs as usize, "")),
        ["time", runs, mix] => with(runs, |runs| timing::time(runs as usize, mix)),
        _ => usage(),
    }
}

fn with(word: &str, action: impl FnOnce(u64) -> ExitCode) -> ExitCode {
    word.parse().map_or_else(|_| usage(), action)
}

fn usage() -> ExitCode {
    eprintln!("{USAGE}");
    ExitCode::from(2)
}
