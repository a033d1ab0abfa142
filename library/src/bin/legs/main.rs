//! Leg sheets at a terminal: `legs --help` says what there is.
//!
//! The answer goes to standard output, messages to standard error. The exit status is 0, or 1 where the input is refused, 2 where the words are not
//! understood, 3 where input or output failed.

mod commands;
mod fault;
mod file;
mod given;
mod help;
mod limits;
mod manual;
mod marked;
mod mistakes;
mod options;
mod over;
mod places;
mod replace;
mod rulers;
mod shown;
mod source;
mod store;
mod table;
mod texts;
mod view;
mod warnings;

use std::ffi::OsString;
use std::io::{self, Write};
use std::process::ExitCode;

use commands::{find, Answer};
use fault::Fault;
use given::Given;
use help::{help, version};
use options::VERSION;
use shown::tell;

/// Finds the command among the words and runs it on the others.
fn run(words: &[OsString]) -> Result<Answer, Fault> {
    if let Some(page) = manual::page(words) {
        return Ok(Answer::accepted(page));
    }
    let given = Given::split(words)?;
    if given.has(VERSION.name) {
        return Ok(Answer::accepted(version()));
    }
    if let Some(words) = given.asks_for_help() {
        return help(words).map(Answer::accepted);
    }
    let (command, operands) = find(&given.operands)?;
    let given = given.behind(operands, command.options);
    command.check(&given)?;
    (command.run)(&given)
}

fn write(bytes: &[u8]) -> Result<(), Fault> {
    let mut output = io::stdout().lock();
    output
        .write_all(bytes)
        .and_then(|()| output.flush())
        .map_err(|error| Fault::Failed("standard output".into(), error))
}

fn main() -> ExitCode {
    let words: Vec<OsString> = std::env::args_os().skip(1).collect();
    let status = run(&words).and_then(|answer| write(&answer.bytes).map(|()| answer.status));
    ExitCode::from(status.unwrap_or_else(|fault| {
        if !fault.is_silent() {
            tell(&fault.to_string());
        }
        fault.status()
    }))
}
