//! The oracle on the command line. Settings and tree come as bytes on standard input, as the sheet program takes them.

use std::io::{Read, Write};
use std::path::Path;
use std::process::ExitCode;

use oracle::calls::Calls;
use oracle::compare::Comparison;
use oracle::sides::{Answers, Crate, Original, Paper};
use oracle::{judge, replay};

const USAGE: &str = "oracle sheet             the sheet, as the sheet program prints it
oracle leaves            every node's sizes, every leaf's record and block
oracle agree [SEED [N]]  the crate against documents 01 and 02, on the exhaustive inputs and N rounds of the random ones
oracle replay SEED DIR   writes the files of crates/replay/data to DIR: answers of the crate as lines";

fn main() -> ExitCode {
    let arguments: Vec<String> = std::env::args().skip(1).collect();
    let arguments: Vec<&str> = arguments.iter().map(String::as_str).collect();
    match arguments[..] {
        ["sheet"] => sheet(),
        ["leaves"] => leaves(),
        ["replay", seed, folder] => replayed(seed, folder),
        ["agree", ref rest @ ..] if rest.len() <= 2 => {
            let mut numbers = rest.iter().map(|word| word.parse::<u64>());
            let seed = numbers.next().unwrap_or(Ok(1));
            let rounds = numbers.next().unwrap_or(Ok(1));
            match (seed, rounds) {
                (Ok(seed), Ok(rounds)) => agree(seed, rounds),
                _ => usage(),
            }
        }
        _ => usage(),
    }
}

fn replayed(seed: &str, folder: &str) -> ExitCode {
    let Ok(seed) = seed.parse() else {
        return usage();
    };
    for (name, lines) in replay::files(seed) {
        let path = Path::new(folder).join(name);
        std::fs::write(path, lines).expect("the folder can be written");
    }
    ExitCode::SUCCESS
}

fn usage() -> ExitCode {
    eprintln!("{USAGE}");
    ExitCode::FAILURE
}

/// The settings and the tree on standard input.
fn input() -> (Vec<u8>, Vec<u8>) {
    let mut input = Vec::new();
    std::io::stdin()
        .read_to_end(&mut input)
        .expect("standard input can be read");
    let (settings, tree) = judge::split(&input);
    (settings.to_vec(), tree.to_vec())
}

fn print(bytes: &[u8]) {
    std::io::stdout()
        .write_all(bytes)
        .expect("standard output can be written");
}

fn sheet() -> ExitCode {
    let (settings, tree) = input();
    let mut output = vec![0; (judge::SHEET_WIDTH + 1) * judge::SHEET_HEIGHT];
    let answer = Original::default().sheet(&settings, &tree, &mut output);
    if answer.number == 0 {
        print(&output[..answer.count]);
        println!();
    } else {
        println!("refused {}", answer.number);
    }
    ExitCode::SUCCESS
}

fn leaves() -> ExitCode {
    let (settings, tree) = input();
    let read = match judge::read(&settings, &tree) {
        Ok(read) => read,
        Err(number) => {
            println!("refused {number}");
            return ExitCode::SUCCESS;
        }
    };
    let answer = Crate.answer(&read.settings, &read.tree);
    for (node, size) in answer.sizes.iter().enumerate() {
        println!(
            "node {node}: natural {} by {}, allotted {} by {}, {} below",
            size.natural_width,
            size.natural_height,
            size.allotted_width,
            size.allotted_height,
            size.below
        );
    }
    for leaf in answer.leaves {
        println!(
            "leaf {}: {} by {}, horizontal {:?}, vertical {:?}, {:?}, {:?}",
            leaf.node,
            leaf.width,
            leaf.height,
            leaf.horizontal,
            leaf.vertical,
            leaf.flags,
            leaf.pair
        );
        print(&leaf.block);
        println!();
    }
    ExitCode::SUCCESS
}

fn agree(seed: u64, rounds: u64) -> ExitCode {
    let (mut one, mut other) = (Original::default(), Paper::default());
    let mut comparison = Comparison::new(&mut one, &mut other);
    match comparison.all(seed, rounds as usize) {
        Ok(()) => {
            println!("{}", comparison.counts);
            println!("{} calls agree", comparison.counts.total());
            ExitCode::SUCCESS
        }
        Err(difference) => {
            println!("{difference}");
            ExitCode::FAILURE
        }
    }
}
