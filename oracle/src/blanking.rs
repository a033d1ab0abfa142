//! Document 02, 14: question paper and key from one layout. Which trees are alike, and the tree that is left of a key when its answers are blanked with dots. It follows
//! the document's sentences and shares no code with the port. The document has no call that blanks: its arguments and its numbers are defined in include/leg_sheet.h.
//! Which bytes of a sheet are 'the texts' own' is in `paper`.

use crate::form::{encode_tree, Tree};
use crate::judge;
use crate::widening;

/// 'The question paper blanks the answers with dots.'
pub const DOT: u8 = b'.';

/// The lengths of a text's lines.
fn lengths(text: &[u8]) -> Vec<usize> {
    let lines = text.split(|&byte| byte == 0x0A);
    lines.map(<[u8]>::len).collect()
}

/// 'Two trees that differ only inside Cells' texts, each text having in both the same number of lines, line for line of the same length.'
pub fn are_alike(one: &Tree, other: &Tree) -> bool {
    match (one, other) {
        (Tree::Cell(text), Tree::Cell(other)) => lengths(text) == lengths(other),
        (Tree::Row(some), Tree::Row(others)) | (Tree::Column(some), Tree::Column(others)) => {
            let mut children = some.iter().zip(others);
            some.len() == others.len() && children.all(|(one, other)| are_alike(one, other))
        }
        _ => false,
    }
}

/// A text of as many lines, each of as many dots.
pub fn dotted(text: &[u8]) -> Vec<u8> {
    let line = |length: usize| vec![DOT; length];
    let lines: Vec<Vec<u8>> = lengths(text).into_iter().map(line).collect();
    lines.join(&0x0A)
}

/// The tree whose next node has this number, with the texts of these nodes blanked; everything else is as it was.
fn blank(tree: &Tree, next: &mut usize, nodes: &[usize]) -> Tree {
    let node = *next;
    *next += 1;
    let mut list = |children: &[Tree]| {
        let blanked = children.iter().map(|child| blank(child, next, nodes));
        blanked.collect()
    };
    match tree {
        Tree::Cell(text) if nodes.contains(&node) => Tree::Cell(dotted(text)),
        Tree::Cell(text) => Tree::Cell(text.clone()),
        Tree::Row(children) => Tree::Row(list(children)),
        Tree::Column(children) => Tree::Column(list(children)),
    }
}

/// The Cells that a list of numbers names, every one where the list is empty; or 9 where a number names no Cell: it is past the last node, or of a Row or a Column, also of
/// an empty one.
fn named(tree: &Tree, nodes: &[u16]) -> Result<Vec<usize>, u8> {
    let cells = widening::cells(tree);
    if nodes.is_empty() {
        return Ok(cells);
    }
    let nodes: Vec<usize> = nodes.iter().map(|&node| node.into()).collect();
    if nodes.iter().all(|node| cells.contains(node)) {
        Ok(nodes)
    } else {
        Err(9)
    }
}

/// The bytes of the tree with the texts of these Cells blanked, for a buffer of this many bytes; or the tree's own 2 to 5, 9, 8.
pub fn blanked(tree: &[u8], nodes: &[u16], buffer: usize) -> Result<Vec<u8>, u8> {
    let read = judge::read_tree(tree)?;
    let nodes = named(&read, nodes)?;
    if buffer < tree.len() {
        return Err(8);
    }
    Ok(encode_tree(&blank(&read, &mut 0, &nodes)))
}

/// The bytes with every text blanked, where they are a tree's; else as they are. Of alike trees the same is left.
pub fn without_texts(tree: &[u8]) -> Vec<u8> {
    blanked(tree, &[], tree.len()).unwrap_or_else(|_| tree.to_vec())
}
