//! The input of a command, settings and a tree: as bytes, or as a typed list.

use std::ffi::OsStr;

use leg_sheet::{calls, Input, Refusal, Settings, Tree};

use crate::fault::Fault;
use crate::limits::too_large;
use crate::mistakes;
use crate::over::Over;
use crate::shown::{shown, tell};
use crate::source::Source;
use crate::warnings::warnings;

/// A file's settings and tree, with its name for messages, and the list that was typed.
pub struct File {
    pub name: String,
    settings: Vec<u8>,
    tree: Vec<u8>,
    list: Option<Vec<u8>>,
}

impl File {
    /// Reads a file. A typed list has the default settings; others replace those of either.
    pub fn read(path: &OsStr, over: &Over) -> Result<File, Fault> {
        File::of(Source::read(path)?, over)
    }

    /// The file of what was read. Warnings about a typed list are printed.
    pub fn of(source: Source, over: &Over) -> Result<File, Fault> {
        let (own, tree) = if source.is_text() {
            (Settings::default().to_bytes(), typed(&source)?)
        } else {
            let input = Input::split(&source.bytes);
            (input.settings.to_vec(), input.tree.to_vec())
        };
        let settings = over.over(&source.name, own)?;
        let list = source.is_text().then_some(source.bytes);
        Ok(File {
            name: source.name,
            settings,
            tree,
            list,
        })
    }

    /// The same settings with another tree.
    pub fn with_tree(self, tree: Vec<u8>) -> File {
        File { tree, ..self }
    }

    /// The list, where it was typed.
    pub fn list(&self) -> Option<&[u8]> {
        self.list.as_deref()
    }

    /// Its tree, as a value.
    pub fn tree(&self) -> Result<Tree, Fault> {
        self.call(|input| Tree::from_bytes(input.tree))
    }

    /// Its settings and tree.
    pub fn input(&self) -> Input<'_> {
        Input {
            settings: &self.settings,
            tree: &self.tree,
        }
    }

    /// What a call answers on its settings and tree.
    pub fn call<T>(&self, call: impl Fn(Input) -> Result<T, Refusal>) -> Result<T, Fault> {
        self.refuse(call(self.input()))
    }

    /// An answer about it.
    pub fn refuse<T>(&self, answer: Result<T, Refusal>) -> Result<T, Fault> {
        answer.map_err(|refusal| {
            Fault::Refused(self.name.clone(), refusal, words(self.input(), refusal))
        })
    }
}

/// Why something is refused of settings and a tree.
pub fn words(input: Input, refusal: Refusal) -> String {
    match refusal {
        Refusal::TooLarge => too_large(input),
        _ => refusal.sentence().into(),
    }
}

/// The tree of a typed list.
fn typed(source: &Source) -> Result<Vec<u8>, Fault> {
    let mut tree = vec![0; calls::TREE];
    let (name, list) = (&source.name, &source.bytes);
    match calls::read_typed(list, &mut tree) {
        Ok(count) => tree.truncate(count),
        Err(fault) => {
            let mistake = mistakes::first(list, fault);
            return Err(Fault::Mistake(shown(name, list, &mistake)));
        }
    }
    warnings(name, list).iter().for_each(|line| tell(line));
    Ok(tree)
}
