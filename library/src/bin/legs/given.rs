//! The words behind `legs`: operands, and options among them.

use std::ffi::{OsStr, OsString};

use crate::fault::Fault;
use crate::file::File;
use crate::options::{takes_value, Opt, HELP};
use crate::over::Over;
use crate::source::Source;

/// What was given. Once the command is known the operands are those behind its name.
pub struct Given {
    pub operands: Vec<OsString>,
    options: Vec<(String, Option<OsString>)>,
    /// The command's own options, of which one may have the name of a setting.
    own: &'static [Opt],
}

impl Given {
    /// The operands and the options. What follows `--` is no option, nor is `-`, nor a number.
    pub fn split(words: &[OsString]) -> Result<Given, Fault> {
        let (mut operands, mut options) = (Vec::new(), Vec::new());
        let mut words = words.iter().cloned();
        while let Some(word) = words.next() {
            let Some(option) = option(&word) else {
                operands.push(word);
                continue;
            };
            if option == "--" {
                operands.extend(words.by_ref());
                continue;
            }
            options.push(with_value(option, &mut words)?);
        }
        let own = &[];
        Ok(Given {
            operands,
            options,
            own,
        })
    }

    /// The same behind the name of a command that has options of its own.
    pub fn behind(self, operands: Vec<OsString>, own: &'static [Opt]) -> Given {
        Given {
            operands,
            own,
            ..self
        }
    }

    pub fn has(&self, name: &str) -> bool {
        self.options.iter().any(|(given, _)| given == name)
    }

    /// The words for which help is requested, where it is: `help` and some words, or an option and the command before it.
    pub fn asks_for_help(&self) -> Option<&[OsString]> {
        match &self.operands[..] {
            [first, words @ ..] if first == "help" => Some(words),
            words if HELP.iter().any(|option| self.has(option.name)) => Some(words),
            _ => None,
        }
    }

    /// The value of an option, where it was given.
    pub fn value(&self, name: &str) -> Option<&OsStr> {
        let mut options = self.options.iter();
        let (_, value) = options.find(|(given, _)| given == name)?;
        value.as_deref()
    }

    /// The options in their order.
    pub fn options(&self) -> impl Iterator<Item = (&str, Option<&OsStr>)> {
        let options = self.options.iter();
        options.map(|(name, value)| (name.as_str(), value.as_deref()))
    }

    /// Those that are not the command's own.
    pub fn common(&self) -> impl Iterator<Item = (&str, Option<&OsStr>)> {
        let is_own = |name: &str| self.own.iter().any(|option| option.name == name);
        self.options().filter(move |(name, _)| !is_own(name))
    }

    /// The file that is the first operand, under the settings of the options.
    pub fn file(&self) -> Result<File, Fault> {
        File::of(self.source()?, &Over::of(self)?)
    }

    /// What the file has that is the first operand.
    pub fn source(&self) -> Result<Source, Fault> {
        let path = &self.operands[0];
        if path == "-" && Over::of(self)?.is_from("-") {
            return Err(Fault::Usage(
                "standard input is read once: give - once".into(),
            ));
        }
        Source::read(path)
    }

    /// An operand that is a number.
    pub fn number(&self, at: usize) -> Result<usize, Fault> {
        number(&self.operands[at])
    }
}

/// The word of an option: it begins with a dash, and is neither a dash alone nor a number.
fn option(word: &OsStr) -> Option<&str> {
    let word = word.to_str()?;
    let behind = word.strip_prefix('-')?;
    let is_number = behind.starts_with(|it: char| it.is_ascii_digit());
    (!behind.is_empty() && !is_number).then_some(word)
}

/// An option and its value, which follows a `=`, or is the next word.
fn with_value(
    word: &str,
    next: &mut impl Iterator<Item = OsString>,
) -> Result<(String, Option<OsString>), Fault> {
    let (name, value) = match word.split_once('=') {
        Some((name, value)) => (name, Some(OsString::from(value))),
        None => (word, None),
    };
    let usage = |words: String| Err(Fault::Usage(words));
    match takes_value(name) {
        None => usage(format!("no option {name}")),
        Some(false) if value.is_some() => usage(format!("{name} takes no value")),
        Some(false) => Ok((name.into(), None)),
        Some(true) => match value.or_else(|| next.next()) {
            None => usage(format!("{name} wants a value")),
            value => Ok((name.into(), value)),
        },
    }
}

/// The name of a draft: a letter's byte, of which the library says whether it is one.
pub fn draft_name(word: &OsStr) -> Result<u8, Fault> {
    match word.as_encoded_bytes() {
        [name] => Ok(*name),
        _ => Err(Fault::Usage(format!("{word:?} is no letter"))),
    }
}

/// A number from 0 on.
pub fn number(word: &OsStr) -> Result<usize, Fault> {
    let digits = word.to_str().and_then(|word| word.parse().ok());
    digits.ok_or_else(|| Fault::Usage(format!("{word:?} is no number from 0 on")))
}
