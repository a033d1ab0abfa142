//! Trees with their texts blanked as lines (document 02, 14). Trees are given as in the replays:
//!   : the tree's bytes      + N, bytes: these go on the tree N times
//! The texts of these nodes blanked, of all Cells where there is none, with room for ROOM bytes; the number and the count; the bytes written, none beside a refusal:
//!   b ROOM NODE NODE .., NUMBER COUNT, BYTES

use crate::form::{encode_tree, Tree};
use crate::gen::alike::cells;
use crate::gen::{self, Growth, Rng};
use crate::lines::Lines;

/// The longest random tree, so that a line stays short.
const TREE: usize = 60;

/// A tree, which the next lines are about. Answers its bytes.
fn given(lines: &mut Lines, tree: &Tree) -> usize {
    let tree = encode_tree(tree);
    lines.given(&[], &tree);
    tree.len()
}

/// The keys and papers of document 02's readings: a question and two answers; several lines; part of a text cannot be blanked, the whole of it can.
fn papers(lines: &mut Lines) {
    lines.title("Keys and question papers");
    let answers = Tree::Row(["54 kt", "6 s"].map(Tree::cell).to_vec());
    let length = given(lines, &Tree::Column(vec![Tree::cell("Q1: Vy?"), answers]));
    for nodes in [&[3, 4][..], &[4, 3], &[3], &[4, 4, 3, 4], &[1, 3, 4], &[]] {
        lines.blank(length, nodes);
    }
    let length = given(lines, &Tree::Row(["a\nbcd", "e"].map(Tree::cell).to_vec()));
    lines.blank(length, &[]);
    lines.blank(length + 10, &[1]);
    let texts = ["ab cd\n\nxy", "answer: 17"];
    let length = given(lines, &Tree::Column(texts.map(Tree::cell).to_vec()));
    lines.blank(length, &[1]);
    lines.blank(length + 1, &[2]);
}

/// Line feeds alone, no text, dots already, groups without children; every kind of number that names no Cell.
fn small(lines: &mut Lines) {
    lines.title("Small trees");
    for text in ["", "\n", "\n\na\n", ".", " ~"] {
        let length = given(lines, &Tree::cell(text));
        lines.blank(length, &[]);
        lines.blank(length + 1, &[0, 0]);
        lines.blank(length - 1, &[0]);
        lines.blank(length, &[1]);
    }
    for group in [Tree::Row(vec![]), Tree::Column(vec![])] {
        let length = given(lines, &group);
        lines.blank(length, &[]);
        lines.blank(length, &[0]);
        lines.blank(length - 1, &[]);
    }
    let cell = || Tree::cell("ab");
    let groups = vec![Tree::Row(vec![]), cell(), Tree::Row(vec![cell()])];
    let length = given(lines, &Tree::Column(groups));
    for node in [0, 1, 2, 3, 4, 5, 258, 512, 65_535] {
        lines.blank(length, &[2, node]);
        lines.blank(length - 1, &[node, 2]);
    }
}

/// Trees that are refused with 2 to 5: a number that names no Cell, and an output that is too short, come after.
fn refused(lines: &mut Lines) {
    lines.title("Refused trees");
    let chain = (1..17).fold(Tree::cell("a"), |inner, _| Tree::Row(vec![inner]));
    let given: [&[u8]; 7] = [
        b"",
        b"\x01\x00",
        b"\x01\x00\x02a",
        b"\x03\x00\x07\x01\x00\x01a\x04\x00\x00",
        b"\x02\x00\x08\x01\x00\x01a\x01\x00\x01\x07",
        b"\x01\x00\x01\x7f",
        &encode_tree(&chain),
    ];
    for tree in given {
        lines.given(&[], tree);
        lines.blank(tree.len(), &[]);
        lines.blank(0, &[65_535]);
    }
    lines.repeated(&[], &[2, 0x06, 0x00], 512, b"\x01\x00\x00");
    lines.blank(9, &[]);
    lines.repeated(&[], &[2, 0x05, 0xFD], 511, b"\x01\x00\x00");
    for nodes in [&[511][..], &[512], &[0], &[]] {
        lines.blank(9, nodes);
    }
}

/// This many random trees of a few bytes: with as many bytes lent as it has, one less, one more and ten more.
fn random(lines: &mut Lines, rng: &mut Rng, trees: usize) {
    lines.title("Random trees");
    let mut left = trees;
    while left > 0 {
        let (nodes, depth) = (rng.between(1, 12), rng.between(2, 4));
        let growth = rng.pick(&[Growth { width: 4, lines: 3 }, Growth { width: 1, lines: 2 }]);
        let tree = gen::tree(rng, nodes, depth, growth);
        let bytes = encode_tree(&tree);
        if !(9..=TREE).contains(&bytes.len()) {
            continue;
        }
        lines.given(&[], &bytes);
        for more in [0, 1, 10] {
            lines.blank(bytes.len() + more, &short_list(rng, &bytes));
        }
        lines.blank(bytes.len() - 1, &short_list(rng, &bytes));
        left -= 1;
    }
}

/// Some numbers, mostly of Cells.
fn short_list(rng: &mut Rng, tree: &[u8]) -> Vec<u16> {
    let mut nodes = cells(rng, tree);
    nodes.truncate(6);
    nodes
}

/// The lines, about 150 trees.
pub fn lines(seed: u64) -> String {
    let mut rng = Rng::new(seed);
    let mut lines = Lines::default();
    papers(&mut lines);
    small(&mut lines);
    refused(&mut lines);
    random(&mut lines, &mut rng, 20);
    lines.text
}
