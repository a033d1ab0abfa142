//! The options that there are.

use leg_sheet::Word;

use crate::commands::COMMANDS;

/// An option of a command.
pub struct Opt {
    /// With the two dashes.
    pub name: &'static str,
    /// What its value is called, where it takes one.
    pub value: Option<&'static str>,
    /// What it does, for help.
    pub about: &'static str,
}

impl Opt {
    const fn flag(name: &'static str, about: &'static str) -> Opt {
        Opt {
            name,
            value: None,
            about,
        }
    }

    const fn with(name: &'static str, value: &'static str, about: &'static str) -> Opt {
        Opt {
            name,
            value: Some(value),
            about,
        }
    }
}

/// The settings of a file replace those that the sheet has.
pub const SETTINGS: Opt = Opt::with(
    "--settings",
    "FILE",
    "settings of a file, which has bytes or words",
);
/// The settings without lines, which need no value.
pub const NO_LINES: Opt = Opt::flag("--no-lines", "the same as --lines no");

/// Answers as records.
pub const TSV: Opt = Opt::flag(
    "--tsv",
    "a line for each record, its fields separated by tabs",
);
pub const JSON: Opt = Opt::flag("--json", "the records as JSON");

pub const RULERS: Opt = Opt::flag(
    "--rulers",
    "with the numbers of lines and columns, from 0 on",
);
pub const LIST: Opt = Opt::flag("--list", "the folded list, typed, for other commands");
pub const LINES: Opt = Opt::with(
    "--lines",
    "LINE,LINE..",
    "the texts in these lines of the typed list, from 1 on",
);
pub const PAPER: Opt = Opt::with(
    "--paper",
    "FILE",
    "its question paper: the page switches between the two at the same places",
);
pub const ALL: Opt = Opt::flag("--all", "the texts of all Cells");
pub const TYPED: Opt = Opt::flag("--typed", "as a typed list");
pub const BYTES: Opt = Opt::flag("--bytes", "the settings as bytes, 31, or 42 with a margin");
pub const FORCE: Opt = Opt::flag("--force", "writes bytes to a terminal, too");

/// These request help, behind any command.
pub const HELP: [Opt; 2] = [
    Opt::flag("--help", "what a command does"),
    Opt::flag("-h", "the same"),
];
pub const VERSION: Opt = Opt::flag("--version", "the version");

/// The setting that an option names, where it names one.
pub fn setting(name: &str) -> Option<&'static Word> {
    let name = name.strip_prefix("--")?;
    Word::all().iter().find(|word| word.name() == name)
}

/// The names of all options, those of settings among them.
pub fn names() -> Vec<String> {
    let common = [SETTINGS, NO_LINES, VERSION].into_iter().chain(HELP);
    let of_commands = COMMANDS.iter().flat_map(|command| command.options);
    let settings = Word::all().iter().map(|word| format!("--{}", word.name()));
    let mut names: Vec<String> = common.map(|option| option.name.into()).collect();
    names.extend(of_commands.map(|option| option.name.into()).chain(settings));
    names
}

/// Whether an option takes a value; none where there is no such option.
pub fn takes_value(name: &str) -> Option<bool> {
    if setting(name).is_some() {
        return Some(true);
    }
    let of_commands = COMMANDS.iter().flat_map(|command| command.options);
    let mut all = [SETTINGS, NO_LINES, VERSION].into_iter().chain(HELP);
    let common = all.find(|option| option.name == name);
    let own = of_commands.into_iter().find(|option| option.name == name);
    common.as_ref().or(own).map(|option| option.value.is_some())
}
