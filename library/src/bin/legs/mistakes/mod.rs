//! What is wrong with a typed list, and how to mend it. The proved reader finds each mistake; the words are made here.

mod all;
mod characters;
mod encoding;
mod levels;

use leg_sheet::{Refusal, TypedFault};

pub use all::all;

use crate::shown::Mistake;

/// The first mistake of a list, where the proved reader found this fault.
pub fn first(list: &[u8], fault: TypedFault) -> Mistake {
    if let Some(mistake) = encoding::mistake(list, fault) {
        return mistake;
    }
    let mistake = Mistake::from(fault);
    match fault.refusal {
        Refusal::BadCharacter => characters::mistake(list, mistake),
        Refusal::BadEscape => Mistake {
            words: format!("{}: type \\\\ for a backslash", mistake.words),
            ..mistake
        },
        Refusal::SecondRoot => levels::second_root(list, mistake),
        Refusal::NoParent => levels::no_parent(list, mistake),
        _ => mistake,
    }
}

/// The bytes of a list from a place on, up to the end of its line; lines and columns count from 1.
fn from_place(list: &[u8], line: usize, column: usize) -> &[u8] {
    let mut lines = list.split(|&byte| byte == b'\n');
    let text = lines.nth(line - 1).unwrap_or_default();
    text.get(column - 1..).unwrap_or_default()
}
