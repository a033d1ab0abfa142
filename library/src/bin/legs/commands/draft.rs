use std::ffi::OsStr;
use std::fmt::Display;
use std::io::ErrorKind;
use std::path::Path;

use leg_sheet::{Draft, DraftStore, Refusal, Settings, Tree};

use super::{typing, Answer, Command};
use crate::fault::Fault;
use crate::file::File;
use crate::given::{draft_name, Given};
use crate::options::{FORCE, TYPED};
use crate::over::{front, Over};
use crate::replace::replace;
use crate::source::Source;
use crate::store::StoreFile;

pub const NEW: Command = Command {
    name: "draft new",
    operands: &["STORE", "BYTES"],
    options: &[],
    takes_settings: false,
    about: "a new store of so many bytes, all of them free",
    run: new,
};

pub const SAVE: Command = Command {
    name: "draft save",
    operands: &["STORE", "NAME", "FILE"],
    options: &[],
    takes_settings: false,
    about: "saves the tree of FILE as a draft; an older one of that name is dropped",
    run: save,
};

pub const FORGET: Command = Command {
    name: "draft forget",
    operands: &["STORE", "NAME"],
    options: &[],
    takes_settings: false,
    about: "forgets a draft",
    run: forget,
};

pub const RETURN: Command = Command {
    name: "draft return",
    operands: &["STORE", "NAME", "[FILE]"],
    options: &[TYPED, FORCE],
    takes_settings: false,
    about: "replaces FILE's tree by a draft; without FILE it is written as bytes, after the default settings",
    run: return_to,
};

pub const LIST: Command = Command {
    name: "draft list",
    operands: &["STORE"],
    options: &[],
    takes_settings: false,
    about: "the drafts' names and bytes, and how many are free",
    run: list,
};

fn new(given: &Given) -> Result<Answer, Fault> {
    StoreFile::create(&given.operands[0], given.number(1)?)?;
    Ok(Answer::done())
}

/// The settings are read, too: without them it is not known where the tree begins.
fn save(given: &Given) -> Result<Answer, Fault> {
    let name = draft_name(&given.operands[1])?;
    let file = File::read(&given.operands[2], &Over::default())?;
    file.call(|input| Settings::from_bytes(input.settings))?;
    let mut store = StoreFile::read(&given.operands[0])?;
    let saved = store.call(|store| store.save_bytes(name, file.input().tree));
    saved.map_err(|fault| match fault {
        Fault::Refused(_, refusal, _) if (2..=5).contains(&refusal.number()) => {
            Fault::refused(&file.name, refusal)
        }
        fault => fault,
    })?;
    store.keep()?;
    Ok(Answer::done())
}

fn forget(given: &Given) -> Result<Answer, Fault> {
    let name = draft_name(&given.operands[1])?;
    let mut store = StoreFile::read(&given.operands[0])?;
    store.call(|store| store.forget(name))?;
    store.keep()?;
    Ok(Answer::done())
}

fn return_to(given: &Given) -> Result<Answer, Fault> {
    let name = draft_name(&given.operands[1])?;
    let mut store = StoreFile::read(&given.operands[0])?;
    let tree = store.call(|store| store.return_bytes(name))?;
    let is_typed = given.has(TYPED.name);
    let path = given.operands.get(2).filter(|&word| word != "-");
    let old = path.map_or(Ok(None), |path| old(path))?;
    let bytes = if is_typed {
        let tree = store.call(|_| Tree::from_bytes(&tree))?;
        over_list(old, typing::typed(store.name(), &tree)?)?
    } else {
        [settings_of(old)?, tree].concat()
    };
    let Some(path) = path else {
        return if is_typed {
            Ok(Answer::text(bytes))
        } else {
            Answer::bytes(given, bytes)
        };
    };
    let failed = |error| Fault::Failed(path.to_string_lossy().into(), error);
    replace(Path::new(path), &bytes).map_err(failed)?;
    Ok(Answer::done())
}

/// The file that is to be replaced, where there is one.
fn old(path: &OsStr) -> Result<Option<Source>, Fault> {
    match Source::read(path) {
        Err(Fault::Failed(_, error)) if error.kind() == ErrorKind::NotFound => Ok(None),
        source => source.map(Some),
    }
}

/// The settings that a file of bytes has, as they are there; of one that does not exist the default ones. A text is not overwritten by bytes.
fn settings_of(old: Option<Source>) -> Result<Vec<u8>, Fault> {
    match old {
        None => Ok(Settings::default().to_bytes()),
        Some(source) if source.is_text() => {
            Err(kept(&source, "text; with --typed a list is written"))
        }
        Some(source) => front(&source),
    }
}

/// The bytes of a typed list, which replaces a text and nothing else.
fn over_list(old: Option<Source>, text: String) -> Result<Vec<u8>, Fault> {
    match old {
        Some(source) if !source.is_text() => {
            Err(kept(&source, "bytes; without --typed bytes are written"))
        }
        _ => Ok(text.into()),
    }
}

/// Why a file is not overwritten.
fn kept(source: &Source, has: &str) -> Fault {
    let name = &source.name;
    Fault::Mistake(format!("legs: {name}: not overwritten: it has {has}"))
}

fn list(given: &Given) -> Result<Answer, Fault> {
    let mut store = StoreFile::read(&given.operands[0])?;
    Ok(Answer::accepted(store.call(|store| lines(store))?))
}

fn lines(store: &DraftStore) -> Result<String, Refusal> {
    let mut text = line("name", "bytes");
    for Draft { name, length } in store.list()? {
        text += &line(char::from(name), length);
    }
    let (free, all) = (store.free()?, store.bytes().len());
    Ok(text + &format!("free: {free} of {all}\n"))
}

fn line(name: impl Display, bytes: impl Display) -> String {
    format!("{name:<4}{bytes:>8}\n")
}
