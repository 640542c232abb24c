//! How long the archive and the model take for the same scripts.

use std::hint::black_box;
use std::process::ExitCode;
use std::time::Instant;

use crate::mixes::{self, Mix};
use crate::model::LONGEST;
use crate::{archive, model};

type Run = fn(&[u8], &mut [u8]) -> u64;

/// Medians in microseconds, and the median of the ratios of runs made one after the other, which a busy machine
/// disturbs less.
struct Times {
    ours: f64,
    plain: f64,
    ratio: f64,
}

/// Times the mixes whose names contain `wanted`.
pub fn time(runs: usize, wanted: &str) -> ExitCode {
    println!("medians of {runs} runs each, in turn; the listing is cleared before each run, outside the time");
    println!("{:<58} {:>6} {:>10} {:>10} {:>10}", "mix", "lines", "ours us", "plain us", "ours/plain");
    for mix in mixes::all().iter().filter(|mix| mix.name.contains(wanted)) {
        let mut listing = vec![0; LONGEST];
        let mut same = vec![0; LONGEST];
        if archive::run(&mix.script, &mut listing) != model::run(&mix.script, &mut same) || listing != same {
            println!("{}: the two differ", mix.name);
            return ExitCode::FAILURE;
        }
        let lines = listing.iter().filter(|&&byte| byte == b'\n').count();
        let Times { ours, plain, ratio } = times(mix, runs, &mut listing);
        println!("{:<58} {lines:>6} {ours:>10.1} {plain:>10.1} {ratio:>10.2}", mix.name);
    }
    ExitCode::SUCCESS
}

fn times(mix: &Mix, runs: usize, listing: &mut [u8]) -> Times {
    let pairs: Vec<(f64, f64)> = (0..runs.max(1))
        .map(|_| (once(archive::run, &mix.script, listing), once(model::run, &mix.script, listing)))
        .collect();
    Times {
        ours: median(pairs.iter().map(|&(ours, _)| ours)),
        plain: median(pairs.iter().map(|&(_, plain)| plain)),
        ratio: median(pairs.iter().map(|&(ours, plain)| ours / plain)),
    }
}

fn once(run: Run, script: &[u8], listing: &mut [u8]) -> f64 {
    listing.fill(0);
    let start = Instant::now();
    black_box(run(black_box(script), listing));
    start.elapsed().as_secs_f64() * 1e6
}

fn median(values: impl Iterator<Item = f64>) -> f64 {
    let mut values: Vec<f64> = values.collect();
    values.sort_by(f64::total_cmp);
    values[values.len() / 2]
}
