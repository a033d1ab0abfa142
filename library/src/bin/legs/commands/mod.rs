//! The commands. One more is a file here with its `COMMAND`, and its name in the table.

mod blank;
mod bytes;
mod check;
mod draft;
mod fold;
mod leaf;
mod mark;
mod nodes;
mod place;
mod plan;
mod print;
mod settings;
mod sizes;
mod typing;
mod view;
mod widen;

use std::ffi::OsString;
use std::fmt::Display;
use std::io::{self, IsTerminal};

use crate::fault::{Fault, REFUSED};
use crate::given::Given;
use crate::options::{setting, Opt, FORCE, JSON, NO_LINES, SETTINGS, TSV};
use crate::table::{Format, Table};

/// In the order of `--help`.
pub const COMMANDS: &[Command] = &[
    print::COMMAND,
    nodes::COMMAND,
    view::COMMAND,
    sizes::COMMAND,
    leaf::COMMAND,
    place::COMMAND,
    mark::COMMAND,
    fold::COMMAND,
    plan::COMMAND,
    widen::COMMAND,
    blank::COMMAND,
    check::COMMAND,
    typing::COMMAND,
    bytes::COMMAND,
    settings::COMMAND,
    draft::NEW,
    draft::SAVE,
    draft::FORGET,
    draft::RETURN,
    draft::LIST,
];

pub struct Command {
    /// One word, or more.
    name: &'static str,
    /// The last may be in brackets: it can be left out. With two dots it can be there many times.
    operands: &'static [&'static str],
    /// The options that are its own.
    pub options: &'static [Opt],
    /// Whether those for settings are allowed behind it.
    pub takes_settings: bool,
    /// What it does, for `--help`.
    pub about: &'static str,
    /// Gets as many words as it takes.
    pub run: fn(&Given) -> Result<Answer, Fault>,
}

impl Command {
    /// The words behind its name, where they begin with that.
    fn operands<'a>(&self, words: &'a [OsString]) -> Option<&'a [OsString]> {
        let mut rest = words;
        for part in self.name.split(' ') {
            let (word, after) = rest.split_first()?;
            if word != part {
                return None;
            }
            rest = after;
        }
        Some(rest)
    }

    /// Whether this many words can be its operands.
    fn takes(&self, count: usize) -> bool {
        let optional = self.operands.iter().filter(|name| name.starts_with('['));
        let most = self.operands.len();
        let is_many = self.operands.iter().any(|name| name.ends_with("..]"));
        most - optional.count() <= count && (is_many || count <= most)
    }

    /// Whether an option is allowed behind it.
    fn has(&self, name: &str) -> bool {
        let is_setting = [SETTINGS, NO_LINES]
            .iter()
            .any(|option| option.name == name);
        let is_own = self.options.iter().any(|option| option.name == name);
        is_own || self.takes_settings && (is_setting || setting(name).is_some())
    }

    /// What is wrong with the operands and options that it is given. The settings' own options are looked at where they are used.
    pub fn check(&self, given: &Given) -> Result<(), Fault> {
        if !self.takes(given.operands.len()) {
            return Err(Fault::Usage(self.usage()));
        }
        let mut names: Vec<&str> = Vec::new();
        for (name, _) in given.options() {
            if !self.has(name) {
                return Err(Fault::Usage(format!("legs {} takes no {name}", self.name)));
            }
            if names.contains(&name) {
                return Err(Fault::Usage(format!("{name}: given twice")));
            }
            names.push(name);
        }
        if given.has(TSV.name) && given.has(JSON.name) {
            return Err(Fault::Usage("only one of --tsv and --json".into()));
        }
        Ok(())
    }

    pub fn usage(&self) -> String {
        format!("legs {} {}", self.name, self.operands.join(" "))
    }
}

/// The command that the words begin with, and the words behind it.
pub fn find(words: &[OsString]) -> Result<(&'static Command, Vec<OsString>), Fault> {
    let behind = |command: &'static Command| Some((command, command.operands(words)?.to_vec()));
    let mut found = COMMANDS.iter().filter_map(behind);
    found.next().ok_or_else(|| unknown(words))
}

/// The commands whose names begin with these words.
pub fn named(words: &[OsString]) -> Result<Vec<&'static Command>, Fault> {
    let begins = |command: &&Command| {
        let parts: Vec<&str> = command.name.split(' ').collect();
        words.len() <= parts.len() && words.iter().zip(parts).all(|(word, part)| word == part)
    };
    let commands: Vec<_> = COMMANDS.iter().filter(begins).collect();
    if commands.is_empty() {
        return Err(unknown(words));
    }
    Ok(commands)
}

/// What is wrong with words that begin with no command: the first is none, or has another behind it that is missing or unknown.
fn unknown(words: &[OsString]) -> Fault {
    let Some(first) = words.first() else {
        return Fault::Usage("no command".into());
    };
    let of_first = COMMANDS.iter().filter_map(|command| {
        let (name, second) = command.name.split_once(' ')?;
        (first == name).then_some(second)
    });
    let seconds: Vec<&str> = of_first.collect();
    if seconds.is_empty() {
        return Fault::Usage(format!("no command {first:?}"));
    }
    Fault::Usage(format!(
        "legs {} {}",
        first.to_string_lossy(),
        seconds.join(" | ")
    ))
}

/// What goes to standard output, and the exit status.
pub struct Answer {
    pub bytes: Vec<u8>,
    pub status: u8,
}

impl Answer {
    pub fn accepted(text: String) -> Answer {
        Answer::text(text.into())
    }

    /// The bytes of a text.
    fn text(bytes: Vec<u8>) -> Answer {
        Answer { bytes, status: 0 }
    }

    /// Bytes that a command takes. They are not written to a terminal, unless that is requested.
    fn bytes(given: &Given, bytes: Vec<u8>) -> Result<Answer, Fault> {
        if io::stdout().is_terminal() && !given.has(FORCE.name) {
            let words = "these are bytes, and standard output is a terminal: add > FILE or --force";
            return Err(Fault::Usage(words.into()));
        }
        Ok(Answer::text(bytes))
    }

    /// Records in the form that is requested, which for people is this text.
    fn many<const N: usize>(
        given: &Given,
        table: &Table<N>,
        text: impl FnOnce() -> String,
    ) -> Answer {
        Answer::accepted(match Format::of(given) {
            Format::People => text(),
            Format::Tsv => table.tsv(),
            Format::Json => table.json(),
        })
    }

    /// The same of one record, which is no list.
    fn one<const N: usize>(
        given: &Given,
        table: &Table<N>,
        text: impl FnOnce() -> String,
    ) -> Answer {
        match Format::of(given) {
            Format::Json => Answer::accepted(table.json_one()),
            _ => Answer::many(given, table, text),
        }
    }

    /// Nothing to say.
    fn done() -> Answer {
        Answer::accepted(String::new())
    }

    fn refused(text: String) -> Answer {
        Answer {
            bytes: text.into(),
            status: REFUSED,
        }
    }
}

/// Items in a line.
fn listed<T: Display>(items: &[T]) -> String {
    if items.is_empty() {
        return "none".into();
    }
    let words: Vec<String> = items.iter().map(T::to_string).collect();
    words.join(" ")
}
