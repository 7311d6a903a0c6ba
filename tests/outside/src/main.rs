//! Compares the library with the plain gate and prints how often each kind of
//! case was met. Ends with 1 at the first difference, and where a kind that can
//! occur was not met.
//!
//! `outside [--seeds N] [--from M]`

use outside::cases::{compare_always, compare_seed};
use outside::compare::{Compared, Comparison, Difference};
use std::process::ExitCode;

const DEFAULT_SEEDS: u64 = 1000;

struct Options {
    seeds: u64,
    from: u64,
}

fn main() -> ExitCode {
    let Some(options) = read_options(std::env::args().skip(1)) else {
        eprintln!("outside [--seeds N] [--from M]");
        return ExitCode::from(2);
    };
    let mut comparison = Comparison::new(options.from);
    if !agrees("no seed", compare_always(&mut comparison)) {
        return ExitCode::FAILURE;
    }
    for seed in options.from..options.from + options.seeds {
        if !agrees(&format!("seed {seed}"), compare_seed(&mut comparison, seed)) {
            return ExitCode::FAILURE;
        }
    }
    report(&comparison, &options)
}

fn read_options(mut words: impl Iterator<Item = String>) -> Option<Options> {
    let mut options = Options { seeds: DEFAULT_SEEDS, from: 1 };
    while let Some(word) = words.next() {
        let value = words.next()?.parse().ok()?;
        match word.as_str() {
            "--seeds" => options.seeds = value,
            "--from" => options.from = value,
            _ => return None,
        }
    }
    Some(options)
}

fn agrees(origin: &str, compared: Compared) -> bool {
    let Err(difference) = compared else { return true };
    let Difference { call, texts, expected, found } = *difference;
    println!("DIFFERENCE in {call} ({origin})");
    for text in texts {
        println!("--- text handed in, {} bytes\n{}", text.len(), String::from_utf8_lossy(&text));
    }
    println!("--- the plain gate\n{expected}\n--- the library\n{found}");
    false
}

fn report(comparison: &Comparison, options: &Options) -> ExitCode {
    for line in comparison.counts.lines() {
        println!("{line}");
    }
    println!("{:>12}  bytes of lent spaces compared", comparison.counts.bytes);
    let missing = comparison.counts.missing();
    for kind in &missing {
        println!("NOT MET: {kind}");
    }
    if missing.is_empty() {
        let last = options.from + options.seeds - 1;
        println!("no difference, seeds {} to {last}", options.from);
        ExitCode::SUCCESS
    } else {
        ExitCode::FAILURE
    }
}
