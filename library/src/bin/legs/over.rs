//! Settings over settings: the default ones, those that a file has, those of `--settings`, and those that options name, in this order.

use std::ffi::OsStr;

use leg_sheet::{Input, Settings, WordFault};

use crate::fault::Fault;
use crate::given::Given;
use crate::options::{setting, NO_LINES, SETTINGS};
use crate::shown::shown;
use crate::source::Source;

/// What the options say of the settings.
#[derive(Default)]
pub struct Over<'a> {
    file: Option<&'a OsStr>,
    named: Vec<(&'static str, &'a str)>,
}

impl<'a> Over<'a> {
    pub fn of(given: &'a Given) -> Result<Over<'a>, Fault> {
        let mut named = Vec::new();
        for (name, value) in given.common() {
            if name == NO_LINES.name {
                named.push(("lines", "no"));
            } else if let Some(word) = setting(name) {
                let value = value.and_then(OsStr::to_str);
                let wrong = || Fault::Usage(format!("{name}: {}", word.values()));
                named.push((word.name(), value.ok_or_else(wrong)?));
            }
        }
        let file = given.value(SETTINGS.name);
        Ok(Over { file, named })
    }

    /// Whether this file has settings that are requested.
    pub fn is_from(&self, path: &str) -> bool {
        self.file.is_some_and(|file| file == path)
    }

    /// The bytes of these settings over those of a file, which are looked at only where some of them are to stay.
    pub fn over(&self, name: &str, own: Vec<u8>) -> Result<Vec<u8>, Fault> {
        let mut settings = own;
        if let Some(path) = self.file {
            settings = read_over(path, name, settings)?;
        }
        if !self.named.is_empty() {
            let named = checked(name, &settings)?.with_named(self.named.iter().copied());
            let fault = |fault| Fault::Usage(format!("--{fault}"));
            settings = named.map_err(fault)?.to_bytes();
        }
        Ok(settings)
    }
}

/// The settings of a file over others: all of them where it has bytes, those that it names where it has words.
pub fn read_over(path: &OsStr, name: &str, own: Vec<u8>) -> Result<Vec<u8>, Fault> {
    let source = Source::read(path)?;
    if !source.is_text() {
        return front(&source);
    }
    let bytes = &source.bytes;
    let fault = |fault: WordFault| Fault::Mistake(shown(&source.name, bytes, &fault.into()));
    let settings = checked(name, &own)?;
    Ok(settings.with_words(bytes).map_err(fault)?.to_bytes())
}

/// The settings at the front of a file's bytes, as they are there.
pub fn front(source: &Source) -> Result<Vec<u8>, Fault> {
    let settings = Input::split(&source.bytes).settings;
    checked(&source.name, settings)?;
    Ok(settings.to_vec())
}

/// The settings of bytes.
fn checked(name: &str, bytes: &[u8]) -> Result<Settings, Fault> {
    Settings::from_bytes(bytes).map_err(|refusal| Fault::refused(name, refusal))
}
