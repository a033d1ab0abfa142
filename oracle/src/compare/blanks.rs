//! Document 02, 14: two sides on the same trees, with texts blanked.

use super::{bytes, junk, small_trees, Comparison, Difference, Part};
use crate::form::{encode_element, encode_tree, Tree};
use crate::gen::{self, alike, Rng};
use crate::widening;

pub const PARTS: [Part; 3] = [
    ("blanked trees of up to 5 nodes", |c, _, _| {
        c.small_blanks(5)
    }),
    ("blanked trees", |c, rng, rounds| {
        c.blanks(rng, 300 * rounds)
    }),
    ("blanked damaged bytes", |c, rng, rounds| {
        c.any_blanks(rng, 1000 * rounds)
    }),
];

impl Comparison<'_> {
    /// The tree with these texts blanked, with this many bytes lent.
    fn blank(&mut self, tree: &[u8], nodes: &[u16], length: usize) -> Result<(), Difference> {
        self.call(
            "blank",
            || format!("{} nodes {nodes:?} lent {length}", bytes(tree)),
            |side| {
                let mut output = junk(length);
                let answer = side.blank(tree, nodes, &mut output);
                (answer.number, (answer, output))
            },
        )
    }

    /// With three bytes more than the tree has, as many, one less, and none.
    fn every_length(&mut self, tree: &[u8], nodes: &[u16]) -> Result<(), Difference> {
        for length in [tree.len() + 3, tree.len(), tree.len() - 1, 0] {
            self.blank(tree, nodes, length)?;
        }
        Ok(())
    }

    /// No number, every node's alone and the one past the last, all Cells from the last to the first, and these twice; then with one among them that names no Cell.
    fn every_blank(&mut self, tree: &Tree) -> Result<(), Difference> {
        let (nodes, cells) = (tree.nodes() as u16, widening::cells(tree));
        let back: Vec<u16> = cells.iter().rev().map(|&cell| cell as u16).collect();
        let tree = encode_tree(tree);
        self.every_length(&tree, &[])?;
        for node in (0..=nodes).chain([u16::MAX]) {
            self.every_length(&tree, &[node])?;
        }
        self.every_length(&tree, &back)?;
        self.every_length(&tree, &[&back[..], &back].concat())?;
        self.every_length(&tree, &[&back[..], &[nodes], &back].concat())
    }

    /// Every tree of up to this many nodes with a few texts.
    pub fn small_blanks(&mut self, nodes: usize) -> Result<(), Difference> {
        for tree in small_trees(nodes) {
            self.every_blank(&tree)?;
        }
        Ok(())
    }

    /// The greatest trees, then this many random ones, each with a few lists of numbers.
    pub fn blanks(&mut self, rng: &mut Rng, rounds: usize) -> Result<(), Difference> {
        let great = alike::great_trees().into_iter();
        let random = (0..rounds).map(|_| gen::table(rng, gen::Margins::None).1);
        let trees: Vec<Tree> = great.chain(random).collect();
        for tree in trees {
            let tree = encode_tree(&tree);
            self.every_length(&tree, &[])?;
            for _ in 0..4 {
                self.any_blank(rng, &tree)?;
            }
        }
        Ok(())
    }

    /// Every byte as a text; elements with several faults, where a number names no Cell and no byte is lent; then this many trees of any kind, damaged bytes among them.
    pub fn any_blanks(&mut self, rng: &mut Rng, rounds: usize) -> Result<(), Difference> {
        for byte in 0..=255 {
            self.every_length(&encode_element(1, &[byte; 2]), &[])?;
        }
        for tree in gen::faults().into_iter().chain(gen::long_trees()) {
            self.blank(&tree, &[u16::MAX], 0)?;
            self.blank(&tree, &[], tree.len())?;
        }
        for _ in 0..rounds {
            let tree = alike::any_tree(rng);
            self.any_blank(rng, &tree)?;
        }
        Ok(())
    }

    /// A tree of any kind, with random numbers and a random length.
    pub(super) fn any_blank(&mut self, rng: &mut Rng, tree: &[u8]) -> Result<(), Difference> {
        let nodes = alike::cells(rng, tree);
        self.blank(tree, &nodes, gen::around(rng, tree.len()))
    }
}
