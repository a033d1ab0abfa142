//! Typed lists: short ones, trees with texts that look like something else, the ways to type them, damage. Those around the limits are in `long`.

use super::{text, Growth, Rng};
use crate::form::Tree;
use crate::judge;
use crate::typing::lines_of;

/// Everything of up to this many parts out of a few.
fn all<T: Copy>(few: &[T], most: u32) -> impl Iterator<Item = Vec<T>> + '_ {
    (0..=most).flat_map(move |length| {
        let digit = move |number: usize, at: u32| number / few.len().pow(at) % few.len();
        (0..few.len().pow(length))
            .map(move |number| (0..length).map(|at| few[digit(number, at)]).collect())
    })
}

/// All lists of up to this many bytes, over those that mean something.
pub fn short_lists(most: u32) -> impl Iterator<Item = Vec<u8>> {
    all(b" a'#\\n\n\r\t", most)
}

/// All lists of up to this many lines out of a few, some of them with a fault, the last with a line feed and without.
pub fn few_lines(most: u32) -> impl Iterator<Item = Vec<u8>> {
    const LINES: [&str; 14] = [
        "",
        "a",
        "row",
        "  a",
        "  row",
        "    a",
        "    column",
        "      '",
        " a",
        "   #",
        "\ta",
        "  a\\",
        "'row",
        "a\r",
    ];
    all(&LINES, most).flat_map(|lines| {
        let list = lines.join("\n").into_bytes();
        [[&list[..], b"\n"].concat(), list]
    })
}

/// Every byte where it may mean something: alone, first, last, behind a mark, a backslash, spaces, and in a comment.
pub fn every_byte() -> impl Iterator<Item = Vec<u8>> {
    const AROUND: [[&str; 2]; 14] = [
        ["", ""],
        ["", "a"],
        ["a", ""],
        ["a", "\n"],
        ["'", ""],
        ["\\", ""],
        ["\\\\", "n"],
        [" ", ""],
        ["#", "\na"],
        ["row\n", ""],
        ["row\n  ", ""],
        ["row\n  '", "\n  b"],
        ["row\n  a\\", "b"],
        ["row\n  a", "\nrow"],
    ];
    (0..=255u8).flat_map(|byte| {
        AROUND.map(|[before, after]| [before.as_bytes(), &[byte], after.as_bytes()].concat())
    })
}

/// Texts that could be taken for something else, and their neighbours.
const TEXTS: [&str; 24] = [
    "",
    "row",
    "column",
    "rows",
    "Row",
    "row ",
    " row",
    "'row",
    "columns",
    "COLUMN",
    "'",
    "''",
    "#",
    "# no",
    "a # b",
    " ",
    "  a",
    "a  ",
    "\\",
    "\\n",
    "\n",
    "\nrow",
    "n\n",
    "\\\n\\\\n",
];

/// A text: one of these, some of the bytes that mean something, or mostly letters.
fn any_text(rng: &mut Rng) -> Vec<u8> {
    let count = rng.below(9);
    match rng.below(4) {
        0 => rng.pick(&TEXTS).as_bytes().to_vec(),
        1 => (0..count).map(|_| rng.pick(b" '#\\n\nrow~")).collect(),
        _ => text(rng, 12, 2),
    }
}

/// The tree with such texts.
fn with_texts(rng: &mut Rng, tree: &Tree) -> Tree {
    let mut list = |children: &[Tree]| {
        let children = children.iter().map(|child| with_texts(rng, child));
        children.collect()
    };
    match tree {
        Tree::Cell(_) => Tree::Cell(any_text(rng)),
        Tree::Row(children) => Tree::Row(list(children)),
        Tree::Column(children) => Tree::Column(list(children)),
    }
}

/// A tree of a few nodes, some of them deep.
pub fn tree(rng: &mut Rng) -> Tree {
    let nodes = rng.pick(&[1, 1, 2, 3, 5, 9, 16]);
    let growth = Growth { width: 0, lines: 1 };
    let tree = super::tree(rng, nodes, judge::DEPTH, growth);
    with_texts(rng, &tree)
}

/// Now and then: once in this many, or never where that is 0.
fn at_times(rng: &mut Rng, once_in: usize) -> bool {
    once_in > 0 && rng.one_in(once_in)
}

/// A byte, mostly one that has a meaning or is next to those allowed in a text.
fn any_byte(rng: &mut Rng) -> u8 {
    if rng.one_in(16) {
        return rng.byte();
    }
    rng.pick(b"     ''''###\\\\\\nnn\n\n\n\n\r\r\raa~~\t\x1F\x7F\xC3")
}

/// A line that is skipped: spaces, or a comment of any bytes.
fn skipped(rng: &mut Rng) -> Vec<u8> {
    let mut line = vec![b' '; rng.pick(&[0, 0, 1, 2, 3, 8])];
    if rng.one_in(2) {
        line.push(b'#');
        let count = rng.below(9);
        let bytes = (0..count).map(|_| any_byte(rng));
        line.extend(bytes.filter(|&byte| byte != 0x0A));
    }
    line
}

/// A tree typed in any way: with marks where they are needed, everywhere, or here and there; with carriage returns or without; with lines between its own that are skipped; with a last
/// line feed or without.
pub fn typed(rng: &mut Rng, tree: &Tree) -> Vec<u8> {
    let (marks, returns) = (rng.pick(&[0, 1, 2]), rng.pick(&[0, 0, 1, 2]));
    let others = rng.pick(&[0, 0, 2, 6]);
    let lines = lines_of(tree, &mut || at_times(rng, marks));
    let mut list = Vec::new();
    let mut own = lines.into_iter();
    loop {
        let line = if at_times(rng, others) {
            skipped(rng)
        } else if let Some(line) = own.next() {
            line
        } else {
            break;
        };
        list.extend(line);
        if at_times(rng, returns) {
            list.push(b'\r');
        }
        list.push(b'\n');
    }
    if rng.one_in(2) {
        list.pop();
    }
    list
}

/// Two lines swapped, one doubled, one taken out, or one with another indentation.
fn move_lines(rng: &mut Rng, list: &[u8]) -> Vec<u8> {
    let mut lines: Vec<&[u8]> = list.split(|&byte| byte == 0x0A).collect();
    let (one, other) = (rng.below(lines.len()), rng.below(lines.len()));
    let deeper = [&b"    "[..rng.between(1, 4)], lines[one]].concat();
    let most = lines[one].iter().take_while(|&&byte| byte == b' ').count();
    match rng.below(6) {
        0 => lines.swap(one, other),
        1 => lines.insert(other, lines[one]),
        2 => {
            lines.remove(one);
        }
        3 => lines[one] = &lines[one][rng.between(0, most)..],
        4 => lines[one] = &lines[one][most.min(2)..],
        _ => lines[one] = &deeper,
    }
    lines.join(&0x0A)
}

/// A byte changed, taken out or put in, an end too early, some bytes instead of others, or lines moved.
fn damage(rng: &mut Rng, list: &mut Vec<u8>) {
    let (at, byte) = (rng.between(0, list.len()), any_byte(rng));
    let end = rng.between(at, list.len().min(at + 9));
    match rng.below(10) {
        0 | 1 if at < list.len() => list[at] = byte,
        2 if at < list.len() => {
            list.remove(at);
        }
        3 => list.truncate(at),
        4 => {
            let count = rng.below(5);
            let bytes: Vec<u8> = (0..count).map(|_| any_byte(rng)).collect();
            list.splice(at..end, bytes);
        }
        5 | 6 => list.insert(at, byte),
        _ => *list = move_lines(rng, list),
    }
}

/// A list with some damage.
pub fn damaged(rng: &mut Rng, list: &[u8]) -> Vec<u8> {
    let mut list = list.to_vec();
    for _ in 0..rng.pick(&[1, 1, 1, 2, 4]) {
        damage(rng, &mut list);
    }
    list
}

/// Pieces of lines, one behind the other.
fn pieces(rng: &mut Rng) -> Vec<u8> {
    const PIECES: [&str; 21] = [
        "row", "row\n", "column\n", "\n", "\n  ", "\n    ", "\r\n", " ", "  ", "a", "'", "#",
        "\\n", "\\\\", "\\", "\t", "\r", "column", "\n  row", "\n  a", "\u{FEFF}",
    ];
    let count = rng.below(20);
    let pieces: Vec<&str> = (0..count).map(|_| rng.pick(&PIECES)).collect();
    pieces.concat().into_bytes()
}

/// A list of any kind: well formed, with damage, pieces of lines, any bytes.
pub fn any_list(rng: &mut Rng) -> Vec<u8> {
    let count = rng.pick(&[3, 10, 40]);
    match rng.below(12) {
        0 => (0..count).map(|_| any_byte(rng)).collect(),
        1 => (0..count).map(|_| rng.byte()).collect(),
        2 | 3 => pieces(rng),
        4 | 5 => {
            let tree = tree(rng);
            typed(rng, &tree)
        }
        _ => {
            let tree = tree(rng);
            let list = typed(rng, &tree);
            damaged(rng, &list)
        }
    }
}
