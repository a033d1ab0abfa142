//! Document 02, 12: two sides on the same stores of drafts.

use std::fmt::Debug;

use super::{bytes, junk, Comparison, Difference};
use crate::drafting::{self, Series, NAMES};
use crate::gen::stores::{self, Call};
use crate::gen::{self, Rng};

/// The calls of one series.
const CALLS: usize = 40;

/// What the plain series says, beside what both sides answer.
fn held<T: PartialEq + Debug>(
    input: impl Fn() -> String,
    told: T,
    answer: T,
) -> Result<(), Difference> {
    if told == answer {
        return Ok(());
    }
    Err(Difference {
        call: "series",
        input: input(),
        one: format!("{told:?}"),
        other: format!("{answer:?}"),
    })
}

impl Comparison<'_> {
    /// Saves a tree. Answers the number and the store after it.
    fn save(&mut self, store: &[u8], name: u8, tree: &[u8]) -> Result<(u8, Vec<u8>), Difference> {
        self.agreed(
            "save",
            || format!("{} name {name:02x} tree {}", bytes(store), bytes(tree)),
            |side| {
                let mut after = store.to_vec();
                (side.save_draft(&mut after, name, tree), after)
            },
        )
    }

    /// Forgets a draft. Answers the number and the store after it.
    fn forget(&mut self, store: &[u8], name: u8) -> Result<(u8, Vec<u8>), Difference> {
        self.agreed(
            "forget",
            || format!("{} name {name:02x}", bytes(store)),
            |side| {
                let mut after = store.to_vec();
                (side.forget_draft(&mut after, name), after)
            },
        )
    }

    /// Returns to a draft, with this many bytes lent. Answers the number and the bytes copied.
    fn return_to(
        &mut self,
        store: &[u8],
        name: u8,
        length: usize,
    ) -> Result<(u8, Vec<u8>), Difference> {
        let (number, (count, mut output)) = self.agreed(
            "return",
            || format!("{} name {name:02x} lent {length}", bytes(store)),
            |side| {
                let mut output = junk(length);
                let answer = side.return_draft(store, name, &mut output);
                (answer.number, (answer.count, output))
            },
        )?;
        output.truncate(count);
        Ok((number, output))
    }

    /// Returns with three bytes more than the draft has, as many, one less, and none. A name without a draft is treated as if it had a draft of one byte.
    fn every_return(&mut self, store: &[u8], name: u8) -> Result<(), Difference> {
        let needed = drafting::returned(store, name, usize::MAX).map_or(1, |tree| tree.len());
        for length in [needed + 3, needed, needed.saturating_sub(1), 0] {
            self.return_to(store, name, length)?;
        }
        Ok(())
    }

    /// Each name forgotten, and returned to; then each tree saved under it. All of it on the same store.
    fn every_name(
        &mut self,
        store: &[u8],
        names: &[u8],
        trees: &[&[u8]],
    ) -> Result<(), Difference> {
        for &name in names {
            self.forget(store, name)?;
            self.every_return(store, name)?;
            for tree in trees {
                self.save(store, name, tree)?;
            }
        }
        Ok(())
    }

    /// Every store of up to this many bytes over a few that look like fields, and every row of up to this many fields; some names, and trees that fit, that do not fit and
    /// that are refused. Then every byte as a name.
    pub fn small_stores(&mut self, most: usize, fields: usize) -> Result<(), Difference> {
        let trees: [&[u8]; 3] = [b"", b"\x02\x00\x00", b"\x01\x00\x03abc"];
        for store in stores::short_stores(most).chain(stores::rows(fields)) {
            self.every_name(&store, b"ABH@", &trees)?;
        }
        for name in 0..=255 {
            for store in [&[0; 6][..], b"\x20\x00\x00\x27\x00\x01a\x00"] {
                self.every_name(store, &[name], &trees)?;
            }
        }
        Ok(())
    }

    /// The greatest stores, then this many series of calls, each from a store of zero bytes.
    pub fn series(&mut self, rng: &mut Rng, rounds: usize) -> Result<(), Difference> {
        for (store, name, tree) in stores::great_stores() {
            let (_, store) = self.save(&store, name, &tree)?;
            self.every_name(&store, b"ADH", &[])?;
        }
        for _ in 0..rounds {
            self.one_series(rng)?;
        }
        Ok(())
    }

    /// After each call the whole store is compared, and all eight returns; these, and the number, are also what the plain series says.
    fn one_series(&mut self, rng: &mut Rng) -> Result<(), Difference> {
        let mut store = vec![0; stores::length(rng)];
        let mut series = Series::new(store.len());
        for _ in 0..CALLS {
            let call = stores::call(rng);
            let (told, (number, after)) = match &call {
                Call::Save(name, tree) => {
                    let told = series.save(*name, tree);
                    (told, self.save(&store, *name, tree)?)
                }
                Call::Forget(name) => (series.forget(*name), self.forget(&store, *name)?),
            };
            let input = || format!("{} {call:02x?}", bytes(&store));
            held(input, told.err().unwrap_or(0), number)?;
            store = after;
            self.eight_returns(&store, &series)?;
        }
        Ok(())
    }

    /// All eight returns, with as many bytes lent as the store has.
    fn eight_returns(&mut self, store: &[u8], series: &Series) -> Result<(), Difference> {
        for name in NAMES {
            let answer = self.return_to(store, name, store.len())?;
            let told = match series.tree(name) {
                Ok(tree) => (0, tree.to_vec()),
                Err(number) => (number, Vec::new()),
            };
            let input = || format!("{} name {name:02x}", bytes(store));
            held(input, told, answer)?;
        }
        Ok(())
    }

    /// This many stores, of the right form and damaged: random names, trees and lengths. In a store of the right form also trees with a fault in every turn, where there is room and
    /// where there is none.
    pub fn any_stores(&mut self, rng: &mut Rng, rounds: usize) -> Result<(), Difference> {
        for tree in gen::faults().into_iter().chain(gen::long_trees()) {
            self.save(&[0; 99], b'A', &tree)?;
            self.save(b"\x20\x00\x00", rng.pick(b"AB"), &tree)?;
        }
        for _ in 0..rounds {
            let store = stores::any_store(rng);
            self.any_store(rng, &store)?;
        }
        Ok(())
    }

    /// A store of any kind, with a random name, tree and length.
    pub(super) fn any_store(&mut self, rng: &mut Rng, store: &[u8]) -> Result<(), Difference> {
        let name = stores::name(rng);
        let tree = stores::tree_bytes(rng);
        self.save(store, name, &tree)?;
        self.forget(store, name)?;
        let needed = drafting::returned(store, name, usize::MAX).map_or(1, |tree| tree.len());
        self.return_to(store, name, gen::around(rng, needed))?;
        Ok(())
    }
}
