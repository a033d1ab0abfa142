//! What `legs help` prints: of all commands, or of some.

use std::ffi::OsString;

use leg_sheet::Word;

use crate::commands::{find, named, Command, COMMANDS};
use crate::fault::Fault;
use crate::options::{Opt, NO_LINES, SETTINGS};

/// The help for the command that these words begin with, or for those that begin with these words; where there are none, for all.
pub fn help(words: &[OsString]) -> Result<String, Fault> {
    if words.is_empty() {
        return Ok(all());
    }
    let commands = match find(words) {
        Ok((command, _)) => vec![command],
        Err(_) => named(words)?,
    };
    let of_each: Vec<String> = commands.into_iter().map(of_command).collect();
    Ok(of_each.join("\n"))
}

pub fn version() -> String {
    format!("legs {}\n", env!("CARGO_PKG_VERSION"))
}

/// The help for all commands.
pub fn all() -> String {
    let line = |command: &Command| format!("  {:<38}{}\n", command.usage(), command.about);
    let commands: String = COMMANDS.iter().map(line).collect();
    let about = "Prints leg sheets: bordered tables of nested rows and columns.";
    let more = "legs help COMMAND, legs COMMAND -h: its options. legs --version: the version.";
    format!("{about}\n\n{commands}\n{more}\n\n{LISTS}\n{REST}")
}

/// The help for one command: its words, what it does, its options.
pub fn of_command(command: &Command) -> String {
    let mut text = format!("{}\n  {}\n", command.usage(), command.about);
    text.extend(command.options.iter().map(option));
    if command.takes_settings {
        text += "  settings:\n";
        text += &option(&SETTINGS);
        let own = |word: &&Word| {
            let name = format!("--{}", word.name());
            !command.options.iter().any(|option| option.name == name)
        };
        text.extend(Word::all().iter().filter(own).map(setting));
        text += &option(&NO_LINES);
    }
    text
}

fn option(option: &Opt) -> String {
    let value = option
        .value
        .map_or(String::new(), |value| format!(" {value}"));
    line(&format!("{}{value}", option.name), option.about)
}

fn setting(word: &Word) -> String {
    line(&format!("--{} ..", word.name()), &word.values())
}

fn line(option: &str, about: &str) -> String {
    format!("    {option:<20}{about}\n")
}

const LISTS: &str = r"FILE is a typed list, or bytes, which begin with hex 10: settings and a tree, as the commands bytes and blank write them. - is standard input.
A typed list is plain text: a row, a column or a text to a line, two spaces deeper than the row or column that it is in.

    # a leg
    row
      1
      column
        Home pad
        47.2101 N 19.0402 E
      take off\nhold 10 s

In a text \n is a line feed and \\ a backslash. A quote mark in front makes a text of any line: 'row, '# 1, '  indented, and ' alone the empty text.
# begins a comment. What is wrong is shown with its line and column, counted from 1.

Settings are the default ones; FILE's own replace them, then those of --settings FILE, then those that options name: --margin 8,0,1,0 --align center --no-lines.
A file of settings has bytes, or words: legs settings shows them all, and legs settings --margin 8,0,1,0 > binder.words writes a file.
";

const REST: &str = "For the command plan a line like ? 2-6 x 1-3 is a placeholder for a text not known yet: 2 to 6 wide, 1 to 3 lines. For every other command it is a text.
Nodes are numbered from 0, a parent before its children, these from left to right: legs nodes lists them with their lines in the typed list and their texts.
Lines and columns of the sheet are counted from 0: legs print --rulers shows them. Those of a typed list are counted from 1, as editors do.
WIDTH is of the sheet inside its edges and margin. BUDGET limits the heights that are tried.
bytes and blank write a FILE: legs bytes key.list > key.legs, legs blank key.list --lines 9,13 > paper.legs. type writes a typed list: legs type paper.legs > paper.list.
--tsv and --json are for other programs; a text has \\n for a line feed in both.
STORE is a file of drafts, up to eight, each under a NAME, A to H. A draft is a tree: no settings are saved, and a FILE that is written keeps its own.
Files are replaced atomically.

Exit status: 0, or 1 refused, 2 usage, 3 input or output failed, 141 where no one reads the answer any more.
";
