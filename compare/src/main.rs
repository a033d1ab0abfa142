//! The proved library against tabled's `table_pool.rs`: every call, on the oracle's inputs.
//!
//!     compare [SEED [ROUNDS]]      by default seed 1 and 20 rounds of the random inputs

use std::process::ExitCode;

use compare::side::Library;
use oracle::compare::{parts, Comparison, Counts, NUMBERS};
use oracle::gen::Rng;
use oracle::sides::Original;

/// Whether the calls gave all of their numbers: what was compared is not too little.
fn is_enough(counts: &Counts) -> bool {
    NUMBERS.iter().all(|&(call, numbers)| {
        let reached = counts.reached(call);
        if reached != numbers {
            println!("{call}: gave {reached:?} and not {numbers:?}");
        }
        reached == numbers
    })
}

/// Runs every part, one whether or not another finds a difference; answers how many agreed and how many did not. Last comes whether they were enough.
fn compare_all(seed: u64, rounds: usize) -> (usize, usize) {
    let (mut agreed, mut differed) = (0, 0);
    let mut counts = Counts::default();
    let mut original = Original::default();
    for (part, run) in parts() {
        let mut library = Library;
        let mut comparison = Comparison::new(&mut original, &mut library);
        match run(&mut comparison, &mut Rng::new(seed), rounds) {
            Ok(()) => {
                agreed += 1;
                println!("{part}: {} calls agree", comparison.counts.total());
            }
            Err(difference) => {
                differed += 1;
                println!(
                    "{part}: DIFFERENCE after {} calls",
                    comparison.counts.total()
                );
                println!("{difference}");
            }
        }
        for (key, count) in comparison.counts.0 {
            *counts.0.entry(key).or_default() += count;
        }
    }
    println!("{counts}\n{} calls agree", counts.total());
    if is_enough(&counts) {
        agreed += 1;
    } else {
        differed += 1;
    }
    (agreed, differed)
}

fn main() -> ExitCode {
    let numbers: Result<Vec<u64>, _> = std::env::args().skip(1).map(|word| word.parse()).collect();
    let (seed, rounds) = match numbers.as_deref() {
        Ok([]) => (1, 20),
        Ok([seed]) => (*seed, 20),
        Ok([seed, rounds]) => (*seed, *rounds as usize),
        _ => {
            eprintln!("compare [SEED [ROUNDS]]");
            return ExitCode::FAILURE;
        }
    };
    let (agreed, differed) = compare_all(seed, rounds);
    println!("{agreed} passed, {differed} failed");
    if differed == 0 {
        ExitCode::SUCCESS
    } else {
        ExitCode::FAILURE
    }
}
