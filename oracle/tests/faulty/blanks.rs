//! Texts blanked (document 02, 14) by steps, with one of them gone wrong: faults `FIRST` to `LAST`, each named where it is made.

use oracle::calls::Counted;
use oracle::{encode_tree, judge, widening, Tree};

use super::lines;

pub const FIRST: u8 = lines::LAST + 1;
pub const LAST: u8 = 174;

/// A text blanked.
fn dotted(fault: u8, text: &[u8]) -> Vec<u8> {
    let first = text.iter().position(|&byte| byte == 0x0A);
    let byte = |(at, &byte): (usize, &u8)| match byte {
        // Line feeds, too; blanks left; all behind the first line feed left; some letters left.
        0x0A if fault != 157 => byte,
        b' ' if fault == 158 => byte,
        _ if fault == 159 && first.is_some_and(|feed| feed < at) => byte,
        b'a'..=b'c' if fault == 160 => byte,
        _ => b'.',
    };
    text.iter().enumerate().map(byte).collect()
}

/// The tree whose next node has this number, with these texts blanked.
fn put(fault: u8, tree: &Tree, next: &mut usize, nodes: &[usize]) -> Tree {
    let node = *next;
    *next += 1;
    // All Cells below a group that is named.
    let below: Vec<usize> = (node..node + tree.nodes()).collect();
    let is_named = nodes.contains(&node);
    let nodes = if fault == 161 && is_named {
        &below[..]
    } else {
        nodes
    };
    let mut list = |children: &[Tree]| {
        let list = children.iter().map(|child| put(fault, child, next, nodes));
        list.collect()
    };
    match tree {
        Tree::Cell(text) if is_named => Tree::Cell(dotted(fault, text)),
        Tree::Cell(text) => Tree::Cell(text.clone()),
        Tree::Row(children) => Tree::Row(list(children)),
        Tree::Column(children) => Tree::Column(list(children)),
    }
}

/// The Cells that are named, or 9.
fn named(fault: u8, tree: &Tree, nodes: &[u16]) -> Result<Vec<usize>, u8> {
    let (cells, leaves) = (widening::cells(tree), judge::leaves(tree));
    let mut nodes: Vec<usize> = nodes.iter().map(|&node| node.into()).collect();
    match fault {
        // An empty list names none; the lower 8 bits alone; the first number alone; a repeat refused; over 512 numbers refused.
        162 if nodes.is_empty() => return Ok(nodes),
        163 => nodes.iter_mut().for_each(|node| *node %= 256),
        164 => nodes.truncate(1),
        165 if (1..nodes.len()).any(|at| nodes[..at].contains(&nodes[at])) => return Err(9),
        166 if nodes.len() > judge::NODES => return Err(9),
        _ => {}
    }
    if nodes.is_empty() {
        return Ok(cells);
    }
    let is_good = |node: &usize| match fault {
        // Groups taken; empty ones taken; numbers past the last node taken.
        161 => *node < tree.nodes(),
        167 => leaves.contains(node),
        168 => cells.contains(node) || *node >= tree.nodes(),
        _ => cells.contains(node),
    };
    nodes.iter().all(is_good).then_some(nodes).ok_or(9)
}

/// The count answered, beside the output after the call; or the number.
fn blanked(fault: u8, tree: &[u8], nodes: &[u16], output: &mut [u8]) -> Result<usize, u8> {
    // 8 before all others; 9 before the tree's own.
    if fault == 169 && output.len() < tree.len() {
        return Err(8);
    }
    if fault == 170 && nodes.contains(&u16::MAX) {
        return Err(9);
    }
    let read = judge::read_tree(tree)?;
    let cells = named(fault, &read, nodes)?;
    let paper = encode_tree(&put(fault, &read, &mut 0, &cells));
    // A byte more wanted; a beginning written beside 8; the bytes past the tree cleared; the texts' bytes counted.
    let needed = tree.len() + usize::from(fault == 171);
    if output.len() < needed {
        if fault == 172 {
            output.copy_from_slice(&paper[..output.len()]);
        }
        return Err(8);
    }
    output[..paper.len()].copy_from_slice(&paper);
    if fault == 173 {
        output[paper.len()..].fill(0);
    }
    let heads = if fault == 174 { 3 * read.nodes() } else { 0 };
    Ok(paper.len() - heads)
}

pub fn blank(fault: u8, tree: &[u8], nodes: &[u16], output: &mut [u8]) -> Counted {
    match blanked(fault, tree, nodes, output) {
        Ok(count) => Counted { number: 0, count },
        Err(number) => Counted { number, count: 0 },
    }
}
