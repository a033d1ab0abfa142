//! Typed lists: two sides on the same ones.

use super::{bytes, junk, small_trees, Comparison, Difference, Part};
use crate::form::{encode_tree, Tree};
use crate::gen::{self, long, typed, Limit, Rng};
use crate::judge;
use crate::typing::{self, type_of, Marks};

pub const PARTS: [Part; 4] = [
    ("short typed lists", |c, _, _| c.short_typed(6, 4)),
    ("typed trees", |c, rng, rounds| {
        c.typed_trees(rng, 5000 * rounds)
    }),
    ("damaged typed lists", |c, rng, rounds| {
        c.any_typed(rng, 50_000 * rounds)
    }),
    ("typed lists around the limits", |c, rng, rounds| {
        c.typed_limits(rng, rounds)
    }),
];

/// The bytes of a list's tree; where there is none, as many as one could have of that list.
fn needed(list: &[u8]) -> usize {
    let most = judge::TREE_BYTES.min(2 * list.len() + 9);
    typing::read(list).map_or(most, |tree| tree.bytes())
}

impl Comparison<'_> {
    /// A list read, with this many bytes lent. Answers the bytes of its tree.
    fn typed(&mut self, list: &[u8], length: usize) -> Result<Vec<u8>, Difference> {
        let (_, (answer, mut output)) = self.agreed(
            "typed",
            || format!("{} lent {length}", bytes(list)),
            |side| {
                let mut output = junk(length);
                let answer = side.read_typed(list, &mut output);
                (answer.number, (answer, output))
            },
        )?;
        output.truncate(answer.count);
        Ok(output)
    }

    /// With three bytes more than the tree has, as many, one less, and none.
    fn every_room(&mut self, list: &[u8]) -> Result<(), Difference> {
        let needed = needed(list);
        for length in [needed + 3, needed, needed - 1, 0] {
            self.typed(list, length)?;
        }
        Ok(())
    }

    /// A long list: with as many bytes as the tree has, and one less.
    fn two_rooms(&mut self, list: &[u8]) -> Result<(), Difference> {
        let needed = needed(list);
        self.typed(list, needed)?;
        self.typed(list, needed - 1).map(|_| ())
    }

    /// All lists of up to this many bytes and of up to this many lines, over a few; every byte in places of every kind.
    pub fn short_typed(&mut self, most: u32, lines: u32) -> Result<(), Difference> {
        let short = typed::short_lists(most).chain(typed::few_lines(lines));
        for list in short.chain(typed::every_byte()) {
            self.every_room(&list)?;
        }
        Ok(())
    }

    /// A list that was made of a tree, which is what both sides read in it.
    fn typed_as(&mut self, list: &[u8], tree: &[u8], length: usize) -> Result<(), Difference> {
        let read = self.typed(list, length)?;
        if read == tree {
            return Ok(());
        }
        Err(Difference {
            call: "typed",
            input: bytes(list),
            one: bytes(tree),
            other: bytes(&read),
        })
    }

    /// A tree typed with the marks that it needs, with all of them, and in two other ways.
    fn every_way(&mut self, rng: &mut Rng, tree: &Tree) -> Result<(), Difference> {
        let lists = [
            type_of(tree, Marks::Short),
            type_of(tree, Marks::Full),
            typed::typed(rng, tree),
            typed::typed(rng, tree),
        ];
        let tree = encode_tree(tree);
        for (list, more) in lists.into_iter().zip([0, 0, 9, 0]) {
            self.typed_as(&list, &tree, tree.len() + more)?;
        }
        Ok(())
    }

    /// Every tree of up to 4 nodes with a few texts, the greatest ones, and this many random ones: typed in four ways each.
    pub fn typed_trees(&mut self, rng: &mut Rng, rounds: usize) -> Result<(), Difference> {
        for tree in small_trees(4).chain(long::great_trees()) {
            self.every_way(rng, &tree)?;
        }
        for _ in 0..rounds {
            let tree = typed::tree(rng);
            self.every_way(rng, &tree)?;
        }
        Ok(())
    }

    /// This many lists of any kind, most of them damaged, each with two lengths around that of its tree.
    pub fn any_typed(&mut self, rng: &mut Rng, rounds: usize) -> Result<(), Difference> {
        for _ in 0..rounds {
            let list = typed::any_list(rng);
            self.any_room(rng, &list)?;
        }
        Ok(())
    }

    /// A list of any kind, with two random lengths.
    pub(super) fn any_room(&mut self, rng: &mut Rng, list: &[u8]) -> Result<(), Difference> {
        let needed = needed(list);
        for _ in 0..2 {
            self.typed(list, gen::around(rng, needed))?;
        }
        Ok(())
    }

    /// Lists on both sides of each limit; then this many random ones, −2 to 2 from it, half of them damaged.
    pub fn typed_limits(&mut self, rng: &mut Rng, rounds: usize) -> Result<(), Difference> {
        for list in long::limits() {
            self.two_rooms(&list)?;
        }
        for offset in -2..=2 {
            for _ in 0..rounds {
                let trees = [Limit::Nodes, Limit::Depth, Limit::Bytes];
                let lists = trees.map(|limit| long::near_list(rng, limit, offset));
                for list in lists.into_iter().chain([long::long_list(rng, offset)]) {
                    self.two_rooms(&list)?;
                    self.two_rooms(&typed::damaged(rng, &list))?;
                }
            }
        }
        Ok(())
    }
}
