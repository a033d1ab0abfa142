//! The proved library's sheet printer against tabled's, and against two printers written for speed without proofs (crate `light`: A with split lists, B without), on
//! the same tables in one run. First A and B are checked against the original on random inputs; a table is timed after all four have printed the same sheet. Times are the
//! least of many, alternately, per sheet.
//!
//! The library, A and B read settings and tree bytes and write into a lent output that is not cleared between runs; tabled gets the tree as a value, builds its
//! own from it, and answers a new text. All are built for release, without overflow checks.

mod bars;
mod hold;
mod tables;

use std::hint::black_box;
use std::process::ExitCode;
use std::time::{Duration, Instant};

use bars::{Bar, Measured};
use leg_sheet::calls::{self, print_sheet};
use oracle::form::{encode_settings, encode_tree, Settings, Tree};
use oracle::original;
use tables::{families, Table};

/// How long a table is timed.
const TIME: Duration = Duration::from_millis(500);

/// A printer to be timed: one sheet a call.
type Run<'a> = Box<dyn FnMut() + 'a>;

/// Nanoseconds of one call, of this many.
fn time(run: &mut Run, calls: u32) -> f64 {
    let begun = Instant::now();
    for _ in 0..calls {
        run();
    }
    begun.elapsed().as_secs_f64() * 1e9 / f64::from(calls)
}

/// The least nanoseconds of a call of each printer, alternately; so many calls are timed together that the clock does not count.
fn least<const N: usize>(mut runs: [Run; N]) -> [f64; N] {
    let mut best = [f64::MAX; N];
    let start = Instant::now();
    while start.elapsed() < TIME {
        for (run, best) in runs.iter_mut().zip(&mut best) {
            let calls = (4000.0 / best.max(20.0)).clamp(1.0, 200.0) as u32;
            for _ in 0..10 {
                *best = best.min(time(run, calls));
            }
        }
    }
    best
}

/// Settings, tree, output: the bytes written, where nothing is refused.
type Printer = fn(&[u8], &[u8], &mut [u8]) -> Option<usize>;

fn shown(answer: light::Answer) -> Option<usize> {
    (answer.number == 0).then_some(answer.count)
}

const PRINTERS: [Printer; 3] = [
    |settings, tree, output| print_sheet(settings, tree, output).ok(),
    |settings, tree, output| shown(light::lists::print_sheet(settings, tree, output)),
    |settings, tree, output| shown(light::stamps::print_sheet(settings, tree, output)),
];

/// Each printer prints what the original does; then they are timed.
fn measure(name: String, settings: &Settings, tree: &Tree) -> Measured {
    let (s, t) = (&encode_settings(settings), &encode_tree(tree));
    let sheet = original::sheet(settings, tree);
    let runs = PRINTERS.map(|print| -> Run {
        let mut output = vec![0; calls::SHEET];
        let count = print(s, t, &mut output);
        assert!(
            count == Some(sheet.len()) && output.starts_with(&sheet),
            "{name}"
        );
        Box::new(move || {
            black_box(print(black_box(s), black_box(t), black_box(&mut output)));
        })
    });
    let [library, a, b] = runs;
    let theirs = Box::new(|| {
        black_box(original::sheet(black_box(settings), black_box(tree)));
    });
    let [library, a, b, original] = least([library, a, b, theirs]);
    Measured {
        nodes: tree.nodes(),
        bytes: sheet.len(),
        name,
        library,
        a,
        b,
        original,
    }
}

fn main() -> ExitCode {
    println!(
        "A and B print as the original on {} inputs.\n",
        hold::hold()
    );
    println!("{}", Measured::HEAD);
    let mut all = Vec::new();
    for (family, tables) in families() {
        for Table {
            name,
            settings,
            tree,
        } in tables
        {
            let measured = measure(format!("{family}, {name}"), &settings, &tree);
            println!("{measured}");
            all.push(measured);
        }
    }
    println!();
    let bars = bars::bars(&all);
    for bar in &bars {
        println!("{bar}");
    }
    if bars.iter().all(Bar::is_met) {
        return ExitCode::SUCCESS;
    }
    ExitCode::FAILURE
}
