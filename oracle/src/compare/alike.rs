//! Document 02, 14: two sides on alike trees. On each tree both sides agree; and 'under equal settings, buffer lengths and whatever else is handed in' the two trees 'get equal
//! refusals from every call, unless a text holds a forbidden byte; equal sizes, flags, split lists and places; and sheets that agree at every byte outside the texts' own bytes'.
//! A call on both is counted twice.

use std::fmt::Debug;

use super::{bytes, folds_of, junk, junk_columns, junk_letters, junk_owners, junk_sizes, needed};
use super::{small_trees, Comparison, Difference, Part};
use crate::blanking::{are_alike, without_texts};
use crate::calls::{Calls, Counted};
use crate::drafting::{encode_store, read_store, returned};
use crate::form::Settings;
use crate::gen::alike::{self, Alike, Call};
use crate::gen::{self, stores, Rng};
use crate::judge;
use crate::paper::{self, Own};
use crate::widening;

pub const PARTS: [Part; 8] = [
    ("alike trees of up to 4 nodes", |c, rng, _| {
        c.small_alike(rng, 4, &gen::few_settings())
    }),
    ("alike trees", |c, rng, rounds| c.alike(rng, 100 * rounds)),
    ("alike trees around the limits", |c, rng, rounds| {
        c.near_alike(rng, rounds.div_ceil(2))
    }),
    ("series of alike drafts", |c, rng, rounds| {
        c.alike_series(rng, 100 * rounds)
    }),
    ("alike drafts in damaged stores", |c, rng, rounds| {
        c.alike_stores(rng, 1000 * rounds)
    }),
    (
        "without lines: alike trees of up to 4 nodes",
        |c, rng, _| c.small_alike(rng, 4, &gen::bare_settings()),
    ),
    ("without lines: alike trees", |c, rng, rounds| {
        c.alike(&mut rng.bare(), 100 * rounds)
    }),
    (
        "without lines: alike trees around the limits",
        |c, rng, rounds| c.near_alike(&mut rng.bare(), rounds.div_ceil(2)),
    ),
];

/// The calls of one series.
const CALLS: usize = 30;

/// What was printed, with 0 instead of each of the texts' own bytes; none where these are others than the texts'.
fn without_own(printed: &[u8], own: &[Own]) -> Option<Vec<u8>> {
    let lines = printed.split(|&byte| byte == 0x0A);
    let mut lines: Vec<Vec<u8>> = lines.map(<[u8]>::to_vec).collect();
    for &Own {
        line,
        column,
        bytes,
    } in own
    {
        let stands = lines.get_mut(line)?.get_mut(column..column + bytes.len())?;
        if stands != bytes {
            return None;
        }
        stands.fill(0);
    }
    Some(lines.join(&0x0A))
}

/// A lent output without the texts' own bytes, of a sheet or, where a node is given, of its block.
fn outside(
    settings: &[u8],
    tree: &[u8],
    node: Option<usize>,
    output: &[u8],
    answer: Counted,
) -> Option<Vec<u8>> {
    if answer.number != 0 {
        return Some(output.to_vec());
    }
    let read = judge::read(settings, tree).ok()?;
    let own = match node {
        Some(node) => paper::own_of_block(&read.settings, &read.tree, node),
        None => paper::own_of_sheet(&read.settings, &read.tree),
    };
    let (printed, rest) = output.split_at_checked(answer.count)?;
    Some([without_own(printed, &own)?, rest.to_vec()].concat())
}

/// A store without its trees' texts; of a store that is none nothing is left.
fn store_without_texts(store: &[u8]) -> Vec<u8> {
    let Ok(mut drafts) = read_store(store) else {
        return Vec::new();
    };
    for draft in &mut drafts {
        draft.tree = without_texts(&draft.tree);
    }
    encode_store(&drafts, store.len())
}

impl Comparison<'_> {
    /// A call on both of two. On each of them both sides agree; and what `rest` leaves of the two answers is the same. It leaves none of an answer that is wrong by itself.
    fn on_both<T: PartialEq + Debug, R: PartialEq>(
        &mut self,
        call: &'static str,
        input: impl Fn(usize) -> String,
        run: impl Fn(&mut dyn Calls, usize) -> (u8, T),
        rest: impl Fn(&T, usize) -> Option<R>,
    ) -> Result<[T; 2], Difference> {
        let key = self.agreed(call, || input(0), |side| run(side, 0))?;
        let other = self.agreed(call, || input(1), |side| run(side, 1))?;
        let (one, two) = (rest(&key.1, 0), rest(&other.1, 1));
        if key.0 == other.0 && one.is_some() && one == two {
            return Ok([key.1, other.1]);
        }
        Err(Difference {
            call,
            input: format!("{}, and of {}", input(0), input(1)),
            one: format!("{key:?}"),
            other: format!("{other:?}"),
        })
    }

    /// A call on both trees, whose answers are to be the same.
    fn same<T: PartialEq + Debug + Clone>(
        &mut self,
        call: &'static str,
        alike: &Alike,
        with: impl Fn() -> String,
        run: impl Fn(&mut dyn Calls, &[u8], &[u8]) -> (u8, T),
    ) -> Result<(), Difference> {
        let Alike { settings, trees } = alike;
        let input = |at: usize| format!("{} {} {}", bytes(settings), bytes(&trees[at]), with());
        self.on_both(
            call,
            input,
            |side, at| run(side, settings, &trees[at]),
            |answer, _| Some(answer.clone()),
        )?;
        Ok(())
    }

    /// A call that prints both trees, which are to agree outside the texts' own bytes: the sheets, or where a node is given its blocks.
    fn printed(
        &mut self,
        call: &'static str,
        alike: &Alike,
        node: Option<usize>,
        length: usize,
    ) -> Result<(), Difference> {
        let Alike { settings, trees } = alike;
        self.on_both(
            call,
            |at| {
                let (settings, tree) = (bytes(settings), bytes(&trees[at]));
                format!("{settings} {tree} node {node:?} lent {length}")
            },
            |side, at| {
                let mut output = junk(length);
                let answer = match node {
                    Some(node) => side.leaf(settings, &trees[at], node, &mut output),
                    None => side.sheet(settings, &trees[at], &mut output),
                };
                (answer.number, (answer, output))
            },
            |(answer, output), at| {
                let rest = outside(settings, &trees[at], node, output, *answer)?;
                Some((*answer, rest))
            },
        )?;
        Ok(())
    }

    /// The sizes and sheets of alike trees, and the records and blocks of their first three nodes and of a random one; with lists and outputs of random lengths.
    fn alike_table(&mut self, rng: &mut Rng, alike: &Alike) -> Result<(), Difference> {
        let case = gen::case(rng, alike.settings.clone(), alike.trees[0].clone());
        self.same("alike: tree", alike, String::new, |side, _, tree| {
            let answer = side.read_tree(tree);
            (answer.number, answer)
        })?;
        let lent = || format!("lent {}", case.list);
        self.same("alike: sizes", alike, lent, |side, settings, tree| {
            let mut list = junk_sizes(case.list);
            let answer = side.sizes(settings, tree, &mut list);
            (answer.number, (answer, list))
        })?;
        let read = judge::read_tree(&alike.trees[0]);
        let few = read.map_or(0, |tree| tree.nodes()).min(3);
        for node in (0..few).chain([case.node]) {
            let named = || format!("node {node}");
            self.same(
                "alike: leaf record",
                alike,
                named,
                |side, settings, tree| {
                    let answer = side.leaf_record(settings, tree, node);
                    (answer.number, answer)
                },
            )?;
            self.printed("alike: leaf", alike, Some(node), case.block)?;
        }
        self.printed("alike: sheet", alike, None, case.sheet)
    }

    /// A place of alike trees, and a list of them.
    fn alike_places(&mut self, rng: &mut Rng, alike: &Alike) -> Result<(), Difference> {
        let ((line, column), places) = match judge::read(&alike.settings, &alike.trees[0]) {
            Ok(read) => (gen::place(rng, &read), gen::places(rng, &read)),
            Err(_) => ((0, 9), vec![(9, 0); rng.pick(&[0, 1, 257])]),
        };
        let at = || format!("line {line} column {column}");
        self.same("alike: place", alike, at, |side, settings, tree| {
            let answer = side.place(settings, tree, line, column);
            (answer.number, answer)
        })?;
        let length = gen::around(rng, places.len());
        let lent = || format!("places {places:?} lent {length}");
        self.same("alike: places", alike, lent, |side, settings, tree| {
            let mut answers = junk_owners(length);
            let answer = side.places(settings, tree, &places, &mut answers);
            (answer.number, (answer, answers))
        })
    }

    /// The fold of alike trees for a width and a budget.
    fn alike_fold(&mut self, rng: &mut Rng, alike: &Alike) -> Result<(), Difference> {
        let ((width, budget), needed) = match folds_of(&alike.settings, &alike.trees[0]) {
            Some(folds) => {
                let (width, budget) = gen::question(rng, &folds);
                ((width, budget), needed(&folds, width, budget))
            }
            None => (rng.pick(&[(0, 0), (9, 0), (usize::MAX, usize::MAX)]), 1),
        };
        let length = gen::around(rng, needed);
        let lent = || format!("width {width} budget {budget} lent {length}");
        self.same("alike: fold", alike, lent, |side, settings, tree| {
            let mut columns = junk_columns(length);
            let answer = side.fold(settings, tree, width, budget, &mut columns);
            (answer.number, (answer, columns))
        })
    }

    /// The ends of alike trees, and the letters that widen their sheets.
    fn alike_widths(&mut self, rng: &mut Rng, alike: &Alike) -> Result<(), Difference> {
        self.same("alike: plan", alike, String::new, |side, settings, tree| {
            let answer = side.plan(settings, tree);
            (answer.number, answer)
        })?;
        let read = judge::read_tree(&alike.trees[0]);
        let cells = read.map_or(1, |tree| widening::cells(&tree).len());
        let (one, other) = (gen::around(rng, cells), gen::around(rng, cells));
        let lent = || format!("lent {one} {other}");
        self.same("alike: widen", alike, lent, |side, settings, tree| {
            let (mut nodes, mut letters) = (junk_columns(one), junk_letters(other));
            let answer = side.widen(settings, tree, &mut nodes, &mut letters);
            (answer.number, (answer, nodes, letters))
        })
    }

    /// Both trees with the same texts blanked: what is left of each is alike to it, and the two agree outside the texts.
    fn alike_blank(&mut self, rng: &mut Rng, alike: &Alike) -> Result<(), Difference> {
        let trees = &alike.trees;
        let nodes = alike::cells(rng, &trees[0]);
        let length = gen::around(rng, trees[0].len());
        self.on_both(
            "alike: blank",
            |at| format!("{} nodes {nodes:?} lent {length}", bytes(&trees[at])),
            |side, at| {
                let mut output = junk(length);
                let answer = side.blank(&trees[at], &nodes, &mut output);
                (answer.number, (answer, output))
            },
            |(answer, output), at| {
                let (tree, rest) = output.split_at_checked(answer.count)?;
                if answer.number == 0 {
                    let read = judge::read_tree(&trees[at]).ok()?;
                    are_alike(&read, &judge::read_tree(tree).ok()?).then_some(())?;
                }
                Some((*answer, without_texts(tree), rest.to_vec()))
            },
        )?;
        Ok(())
    }

    /// Every call that takes a tree, once or more.
    fn alike_case(&mut self, rng: &mut Rng, alike: &Alike) -> Result<(), Difference> {
        self.alike_table(rng, alike)?;
        self.alike_places(rng, alike)?;
        self.alike_fold(rng, alike)?;
        self.alike_widths(rng, alike)?;
        self.alike_blank(rng, alike)
    }

    /// Every tree of up to this many nodes with a few texts, under each of the settings, and one that is alike.
    pub fn small_alike(
        &mut self,
        rng: &mut Rng,
        nodes: usize,
        settings: &[Settings],
    ) -> Result<(), Difference> {
        for tree in small_trees(nodes) {
            for settings in settings {
                let alike = alike::alike_trees(rng, settings, &tree);
                self.alike_case(rng, &alike)?;
            }
        }
        Ok(())
    }

    /// This many random ones, of every kind.
    pub fn alike(&mut self, rng: &mut Rng, rounds: usize) -> Result<(), Difference> {
        for _ in 0..rounds {
            let alike = alike::any_alike(rng);
            self.alike_case(rng, &alike)?;
        }
        Ok(())
    }

    /// This many on each side of each limit, −2 to 2 from it.
    pub fn near_alike(&mut self, rng: &mut Rng, rounds: usize) -> Result<(), Difference> {
        for limit in gen::LIMITS {
            for offset in -2..=2 {
                for _ in 0..rounds {
                    let alike = alike::near_alike(rng, limit, offset);
                    self.alike_case(rng, &alike)?;
                }
            }
        }
        Ok(())
    }

    /// A call that writes two stores whose drafts are alike. Answers the stores after it, which are so, too.
    fn written(
        &mut self,
        call: &'static str,
        stores: &[Vec<u8>; 2],
        with: impl Fn() -> String,
        run: impl Fn(&mut dyn Calls, &mut [u8], usize) -> u8,
    ) -> Result<[Vec<u8>; 2], Difference> {
        self.on_both(
            call,
            |at| format!("{} {}", bytes(&stores[at]), with()),
            |side, at| {
                let mut after = stores[at].clone();
                (run(side, &mut after, at), after)
            },
            |after, _| Some(store_without_texts(after)),
        )
    }

    /// A return to a draft of both, with this many bytes lent.
    fn returned(
        &mut self,
        stores: &[Vec<u8>; 2],
        name: u8,
        length: usize,
    ) -> Result<(), Difference> {
        self.on_both(
            "alike: return",
            |at| format!("{} name {name:02x} lent {length}", bytes(&stores[at])),
            |side, at| {
                let mut output = junk(length);
                let answer = side.return_draft(&stores[at], name, &mut output);
                (answer.number, (answer, output))
            },
            |(answer, output), _| {
                let (tree, rest) = output.split_at_checked(answer.count)?;
                Some((*answer, without_texts(tree), rest.to_vec()))
            },
        )?;
        Ok(())
    }

    /// A call on two stores whose drafts are alike. Answers the stores after it.
    fn alike_call(
        &mut self,
        stores: &[Vec<u8>; 2],
        call: &Call,
    ) -> Result<[Vec<u8>; 2], Difference> {
        let with = || format!("{call:02x?}");
        match call {
            Call::Save(name, trees) => {
                self.written("alike: save", stores, with, |side, store, at| {
                    side.save_draft(store, *name, &trees[at])
                })
            }
            Call::Forget(name) => self.written("alike: forget", stores, with, |side, store, _| {
                side.forget_draft(store, *name)
            }),
            Call::Return(name, length) => {
                self.returned(stores, *name, *length)?;
                Ok(stores.clone())
            }
        }
    }

    /// This many series of calls on two stores, each from zero bytes, the trees alike step by step.
    pub fn alike_series(&mut self, rng: &mut Rng, rounds: usize) -> Result<(), Difference> {
        for _ in 0..rounds {
            let length = stores::length(rng);
            let mut stores = [vec![0; length], vec![0; length]];
            for _ in 0..CALLS {
                stores = self.alike_call(&stores, &alike::call(rng))?;
            }
        }
        Ok(())
    }

    /// This many stores whose drafts are alike, of the right form and with the same fault: a save, a forgetting and a return.
    pub fn alike_stores(&mut self, rng: &mut Rng, rounds: usize) -> Result<(), Difference> {
        for _ in 0..rounds {
            let stores = alike::stores(rng);
            let name = stores::name(rng);
            let needed = returned(&stores[0], name, usize::MAX).map_or(1, |tree| tree.len());
            let length = gen::around(rng, needed);
            for call in [
                Call::Save(name, alike::drafted(rng)),
                Call::Forget(name),
                Call::Return(name, length),
            ] {
                self.alike_call(&stores, &call)?;
            }
        }
        Ok(())
    }
}
