//! Sheets without lines (document 02, 13) gone wrong: faults `FIRST` to `LAST`, each named where it is made.

use oracle::calls::{Counted, LeafPlace};
use oracle::{judge, original, paper, Answer, Leaf, Margin, Settings};

pub const FIRST: u8 = 132;
pub const LAST: u8 = 156;

/// Whether the marks of settings are fifteen zeros.
pub fn is_bare(settings: &[u8]) -> bool {
    settings.get(3..18) == Some(&[0; 15])
}

/// The settings as a call sees them that counts separators and edges: fifteen spaces instead of fifteen zeros. `call` is the fault about this call.
pub fn seen(fault: u8, call: u8, settings: &[u8]) -> Vec<u8> {
    let mut settings = settings.to_vec();
    if fault == call && is_bare(&settings) {
        settings[3..18].fill(b' ');
    }
    settings
}

/// The number of the settings reader.
pub fn number(fault: u8, settings: &[u8], number: u8) -> u8 {
    let Some(marks) = settings.get(3..18).filter(|_| number < 2) else {
        return number;
    };
    let zeros = |marks: &[u8]| marks.iter().all(|&mark| mark == 0);
    let printed = [&marks[..4], &marks[6..]].concat();
    match fault {
        // No sheet without lines; a mixture taken; one with zeros for the two marks that are never printed, and one with these two alone.
        141 if is_bare(settings) => 1,
        142 if marks.contains(&0) => 0,
        143 if zeros(&marks[4..6]) && !printed.contains(&0) => 0,
        144 if zeros(&printed) => 0,
        _ => number,
    }
}

/// The marks that the settings reader answers: fifteen spaces for the zeros.
pub fn marks(fault: u8, marks: [u8; 15]) -> [u8; 15] {
    if fault == 145 && marks == [0; 15] {
        return [b' '; 15];
    }
    marks
}

/// The settings and the answer of a sheet without lines, if it is one that can be printed.
fn printed(settings: &[u8], tree: &[u8]) -> Option<(judge::Read, Answer)> {
    let read = judge::shown(settings, tree).ok()?;
    let answer = paper::answer(&read.settings, &read.tree);
    is_bare(settings).then_some((read, answer))
}

/// A leaf of an answer.
fn leaf(answer: Answer, node: usize) -> Option<Leaf> {
    answer.leaves.into_iter().find(|leaf| leaf.node == node)
}

/// A leaf's block, where a fault is about it.
pub fn block(fault: u8, settings: &[u8], tree: &[u8], node: usize) -> Option<Vec<u8>> {
    if !(147..=150).contains(&fault) {
        return None;
    }
    let (read, answer) = printed(settings, tree)?;
    let found = leaf(answer, node)?;
    let lines = found.block.split(|&byte| byte == 0x0A);
    Some(match fault {
        // A top line; a column for the left marks; no line feeds in a leaf of no columns; the crate's extra blank.
        147 => [&vec![b' '; found.width][..], &found.block].join(&0x0A),
        148 => {
            let marked: Vec<Vec<u8>> = lines.map(|line| [b" ", line].concat()).collect();
            marked.join(&0x0A)
        }
        149 if found.width == 0 => Vec::new(),
        150 => leaf(original::answer(&read.settings, &read.tree), node)?.block,
        _ => found.block,
    })
}

/// The sheet, where a fault is about it.
pub fn sheet(fault: u8, settings: &[u8], tree: &[u8]) -> Option<Vec<u8>> {
    if !(151..=152).contains(&fault) {
        return None;
    }
    let (read, answer) = printed(settings, tree)?;
    let without = Settings {
        margin: Margin::NONE,
        ..read.settings
    };
    Some(match fault {
        // No line feeds in a sheet of no columns; no margin around one.
        151 if !answer.sheet.iter().any(|&byte| byte != 0x0A) => Vec::new(),
        152 if read.sizes[0].natural_width == 0 => paper::answer(&without, &read.tree).sheet,
        _ => answer.sheet,
    })
}

/// The bytes written to a lent output, or 8.
pub fn put(bytes: &[u8], output: &mut [u8]) -> Counted {
    let Some(written) = output.get_mut(..bytes.len()) else {
        return Counted {
            number: 8,
            count: 0,
        };
    };
    written.copy_from_slice(bytes);
    Counted {
        number: 0,
        count: bytes.len(),
    }
}

/// Whether a sheet would be too large with lines alone.
pub fn is_large_with_lines(fault: u8, settings: &[u8], tree: &[u8]) -> bool {
    let lined = seen(fault, 153, settings);
    fault == 153 && judge::shown(settings, tree).is_ok() && judge::shown(&lined, tree).is_err()
}

/// The leaf of a place.
pub fn place(fault: u8, settings: &[u8], tree: &[u8], mut found: LeafPlace) -> LeafPlace {
    if !(154..=156).contains(&fault) || found.number != 0 {
        return found;
    }
    let Some((_, answer)) = printed(settings, tree) else {
        return found;
    };
    let mut leaves = answer.leaves.iter();
    let before = leaves.by_ref().take_while(|leaf| leaf.node != found.node);
    let before = before.last();
    match fault {
        // A leaf's start one past it, to the right or below; the leaf before, which covers no place, by its start.
        154 if before.is_some() && found.column > 0 => found.column -= 1,
        155 if before.is_some() && found.line > 0 => found.line -= 1,
        156 => {
            if let Some(blank) = before.filter(|leaf| leaf.width == 0) {
                found.node = blank.node;
            }
        }
        _ => {}
    }
    found
}
