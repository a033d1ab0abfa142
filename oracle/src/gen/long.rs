//! Typed lists around the limits: of levels, nodes and bytes of the tree, and of the list's own bytes.

use std::ops::RangeInclusive;

use super::typed::{tree, typed};
use super::{near, Limit, Margins, Rng};
use crate::form::Tree;
use crate::judge;
use crate::typing::LIST_BYTES;

/// A tree this far from a limit, typed in any way.
pub fn near_list(rng: &mut Rng, limit: Limit, offset: isize) -> Vec<u8> {
    let (_, tree) = near(rng, Margins::None, limit, offset);
    typed(rng, &tree)
}

/// A list whose bytes are this far from the most that it may have, by a comment before it or behind it.
pub fn long_list(rng: &mut Rng, offset: isize) -> Vec<u8> {
    let tree = tree(rng);
    let list = typed(rng, &tree);
    let most = LIST_BYTES.checked_add_signed(offset);
    let letters = most.expect("a small offset") - list.len() - 2;
    let comment = vec![b'c'; letters];
    if rng.one_in(2) {
        return [b"#", &comment[..], b"\n", &list].concat();
    }
    [&list, &b"\n#"[..], &comment].concat()
}

/// This many lines of `row`, each a level deeper, without a last line feed.
fn chain(rows: usize) -> Vec<u8> {
    let rows: Vec<Vec<u8>> = (0..rows).map(|level| indented(level, "row")).collect();
    rows.join(&0x0A)
}

fn indented(level: usize, words: &str) -> Vec<u8> {
    [&b"  ".repeat(level), words.as_bytes()].concat()
}

/// Lines of every kind, at these levels and between them, behind a list.
fn behind(list: &[u8], levels: RangeInclusive<usize>) -> Vec<Vec<u8>> {
    let mut lists = Vec::new();
    for level in levels {
        for words in ["row", "'", "b", "\t", "\\", " c", "# d", ""] {
            lists.push([list, b"\n", &indented(level, words)].concat());
        }
    }
    lists
}

/// Lines around 16 levels, below a Row and below a Cell.
fn levels() -> Vec<Vec<u8>> {
    let around = [14, 15, 16].into_iter().flat_map(|rows| {
        let cell = [&chain(rows), &b"\n"[..], &indented(rows, "cell")].concat();
        let below = behind(&chain(rows), rows - 1..=rows + 1);
        below.into_iter().chain(behind(&cell, rows - 1..=rows + 1))
    });
    around.collect()
}

/// Lines around 512 nodes, at the second level and at the last, with few bytes and with as many as there may be.
fn nodes() -> Vec<Vec<u8>> {
    let mut lists = Vec::new();
    for rows in [1, 15] {
        for cells in [judge::NODES - rows - 1, judge::NODES - rows] {
            let cell = [b"\n", &indented(rows, "a")[..]].concat();
            let list = [chain(rows), cell.repeat(cells)].concat();
            let letters = judge::TREE_BYTES - 3 * rows - 4 * cells;
            let full = [&list[..], &vec![b'z'; letters]].concat();
            let group = [&list[..list.len() - 1], b"row"].concat();
            for list in [list, full, group] {
                lists.extend(behind(&list, 0..=1));
                lists.extend(behind(&list, rows..=rows + 1));
            }
        }
    }
    lists
}

/// Lists around 32,768 tree bytes: a Cell alone, of letters and of what needs a backslash; then lines behind a Row and a Cell.
fn bytes() -> Vec<Vec<u8>> {
    let mut lists = Vec::new();
    for typed in ["x", "\\n", "\\\\", "'"] {
        for text in judge::TREE_BYTES - 5..=judge::TREE_BYTES - 1 {
            lists.push(typed.as_bytes().repeat(text));
        }
    }
    for text in judge::TREE_BYTES - 11..=judge::TREE_BYTES - 6 {
        let list = [b"row\n  ", &vec![b'x'; text][..]].concat();
        lists.extend(behind(&list, 0..=2));
    }
    lists
}

/// Lists around 131,072 bytes: what fills them, before it and behind it lines of every kind.
fn lengths() -> Vec<Vec<u8>> {
    let mut lists = Vec::new();
    for before in ["", "row\n  a\n", "row\n#", "\t"] {
        for filler in [b"\n", b" ", b"x", b"'"] {
            for after in ["", "b", " b", "\t", "\\", "\n  b", "\nb", "\n\\"] {
                for length in LIST_BYTES - 1..=LIST_BYTES + 1 {
                    let count = length - before.len() - after.len();
                    let filler = filler.repeat(count);
                    lists.push([before.as_bytes(), &filler, after.as_bytes()].concat());
                }
            }
        }
    }
    lists.push(vec![b'\n'; 200_000]);
    lists
}

/// Lists on both sides of each limit.
pub fn limits() -> impl Iterator<Item = Vec<u8>> {
    let trees = [levels(), nodes(), bytes()].into_iter().flatten();
    trees.chain(lengths())
}

/// The greatest trees: of as many nodes as there may be, a Row of empty Cells and as deep as can be; of as many bytes, with a backslash before each typed byte, alone and as deep.
pub fn great_trees() -> Vec<Tree> {
    let deep = |inner: Vec<Tree>| {
        let rows = 1..judge::DEPTH - 1;
        rows.fold(Tree::Row(inner), |inner, _| Tree::Row(vec![inner]))
    };
    let cells = judge::NODES - judge::DEPTH + 1;
    let mut long = vec![Tree::cell("\\\\"); cells];
    let left = judge::TREE_BYTES - deep(long.clone()).bytes();
    long[cells - 1] = Tree::Cell(vec![b'\\'; left + 2]);
    vec![
        Tree::Row(vec![Tree::cell(""); judge::NODES - 1]),
        deep(vec![Tree::Column(Vec::new()); cells]),
        Tree::Cell(vec![0x0A; judge::TREE_BYTES - 3]),
        deep(long),
    ]
}
