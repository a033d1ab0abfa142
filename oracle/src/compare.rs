//! Two sides on the same inputs: every number, every field, and every lent entry, written or not.

mod alike;
mod asked;
mod bare;
mod blanks;
mod drafts;
mod typed;

use std::collections::BTreeMap;
use std::fmt;

use crate::calls::{Calls, SizeRecord, SplitList};
use crate::folding;
use crate::form::{
    encode_margin, encode_plan, encode_settings, encode_tree, Fold, Margin, Owner, Settings, Tree,
};
use crate::gen::{self, Case, Margins, Rng};
use crate::judge;
use crate::widening;

/// Where two sides differ.
#[derive(Debug, Clone, PartialEq, Eq)]
pub struct Difference {
    pub call: &'static str,
    /// The input.
    pub input: String,
    pub one: String,
    pub other: String,
}

impl fmt::Display for Difference {
    fn fmt(&self, f: &mut fmt::Formatter<'_>) -> fmt::Result {
        writeln!(f, "{} of {}", self.call, self.input)?;
        writeln!(f, "  one:   {}", self.one)?;
        write!(f, "  other: {}", self.other)
    }
}

/// How often each call gave each number.
#[derive(Debug, Clone, Default, PartialEq, Eq)]
pub struct Counts(pub BTreeMap<(&'static str, u8), usize>);

impl Counts {
    pub fn of(&self, call: &'static str, number: u8) -> usize {
        self.0.get(&(call, number)).copied().unwrap_or(0)
    }

    /// The numbers that a call gave.
    pub fn reached(&self, call: &'static str) -> Vec<u8> {
        (0..=255)
            .filter(|&number| self.of(call, number) > 0)
            .collect()
    }

    pub fn total(&self) -> usize {
        self.0.values().sum()
    }
}

/// The numbers that each call can give, by the documents' tables; and those that it can give to alike trees, whose texts have no forbidden byte.
pub const NUMBERS: [(&str, &[u8]); 35] = [
    ("settings", &[0, 1]),
    ("margin", &[0, 1]),
    ("tree", &[0, 2, 3, 4, 5]),
    ("sizes", &[0, 1, 2, 3, 4, 5, 8]),
    ("leaf record", &[0, 1, 2, 3, 4, 5, 6, 9]),
    ("leaf", &[0, 1, 2, 3, 4, 5, 6, 8, 9]),
    ("sheet", &[0, 1, 2, 3, 4, 5, 6, 8]),
    ("place", &[0, 1, 2, 3, 4, 5, 6, 12, 13]),
    ("places", &[0, 1, 2, 3, 4, 5, 6, 8, 12, 13, 14]),
    ("fold", &[0, 1, 2, 3, 4, 5, 8, 15, 16]),
    ("plan", &[0, 1, 2, 3, 4, 5, 17]),
    ("widen", &[0, 1, 2, 3, 4, 5, 8]),
    ("save", &[0, 2, 3, 4, 5, 18, 19, 20]),
    ("forget", &[0, 18, 19]),
    ("return", &[0, 8, 18, 19]),
    ("blank", &[0, 2, 3, 4, 5, 8, 9]),
    ("typed", &[0, 8, 30, 31, 32, 33, 34, 35, 36, 37, 38, 39]),
    ("short_splits3", &[0, 10]),
    ("short_splits3, lent", &[0, 10]),
    ("short_splits", &[0, 10]),
    ("share", &[0, 11]),
    ("alike: tree", &[0, 2, 4, 5]),
    ("alike: sizes", &[0, 1, 2, 4, 5, 8]),
    ("alike: leaf record", &[0, 1, 2, 4, 5, 6, 9]),
    ("alike: leaf", &[0, 1, 2, 4, 5, 6, 8, 9]),
    ("alike: sheet", &[0, 1, 2, 4, 5, 6, 8]),
    ("alike: place", &[0, 1, 2, 4, 5, 6, 12, 13]),
    ("alike: places", &[0, 1, 2, 4, 5, 6, 8, 12, 13, 14]),
    ("alike: fold", &[0, 1, 2, 4, 5, 8, 15, 16]),
    ("alike: plan", &[0, 1, 2, 4, 5, 17]),
    ("alike: widen", &[0, 1, 2, 4, 5, 8]),
    ("alike: save", &[0, 2, 4, 5, 18, 19, 20]),
    ("alike: forget", &[0, 18, 19]),
    ("alike: return", &[0, 8, 18, 19]),
    ("alike: blank", &[0, 2, 4, 5, 8, 9]),
];

impl fmt::Display for Counts {
    fn fmt(&self, f: &mut fmt::Formatter<'_>) -> fmt::Result {
        let mut last = "";
        for ((call, number), count) in &self.0 {
            if *call != last {
                write!(f, "{}{call}:", if last.is_empty() { "" } else { "\n" })?;
                last = call;
            }
            write!(f, "  {number} × {count}")?;
        }
        Ok(())
    }
}

/// A comparison that is under way.
pub struct Comparison<'a> {
    pub one: &'a mut dyn Calls,
    pub other: &'a mut dyn Calls,
    pub counts: Counts,
}

/// A part of the comparison: its name and its inputs, with this many rounds of the random ones.
pub type Part = (
    &'static str,
    fn(&mut Comparison, &mut Rng, usize) -> Result<(), Difference>,
);

/// The parts with lines; those without are in `bare`, those of document 02, 14, in `blanks` and `alike`, those of typed lists in `typed`.
const PARTS: [Part; 26] = [
    ("settings records", |c, _, _| c.settings_records()),
    ("short and faulty trees", |c, _, _| c.faulty_trees()),
    ("all trees of up to 5 nodes", |c, _, _| {
        c.small_tables(5, &gen::few_settings())
    }),
    ("all trees of up to 4 nodes, all choices", |c, _, _| {
        c.small_tables(4, &gen::choices())
    }),
    ("two groups", |c, _, _| c.two_groups(&gen::few_settings())),
    ("lists", |c, rng, rounds| c.lists(rng, 1000 * rounds)),
    ("shares", |c, rng, _| c.shares(rng, 12)),
    ("limits", |c, rng, rounds| c.limits(rng, 10 * rounds)),
    ("tables", |c, rng, rounds| c.tables(rng, 300 * rounds)),
    ("damaged bytes", |c, rng, rounds| {
        c.cases(rng, 3000 * rounds)
    }),
    ("places of all trees of up to 5 nodes", |c, _, _| {
        c.small_places(5, &gen::few_settings())
    }),
    ("places of two groups", |c, _, _| {
        c.two_groups_places(&gen::few_settings())
    }),
    ("places of tables", |c, rng, rounds| {
        c.tables_places(rng, 30 * rounds)
    }),
    ("folds of all lists of up to 4 cells", |c, _, _| {
        c.small_folds(4, &gen::few_settings())
    }),
    ("folds of lists", |c, rng, rounds| c.folds(rng, 30 * rounds)),
    ("folds of damaged bytes", |c, rng, rounds| {
        c.any_folds(rng, 300 * rounds)
    }),
    ("short and faulty planning trees", |c, _, _| {
        c.faulty_plans(7)
    }),
    ("plans of all trees of up to 4 nodes", |c, _, _| {
        c.small_plans(4, &gen::few_settings())
    }),
    ("plans", |c, rng, rounds| c.plans(rng, 100 * rounds)),
    ("plans of damaged bytes", |c, rng, rounds| {
        c.any_plans(rng, 300 * rounds)
    }),
    ("letters of all trees of up to 5 nodes", |c, _, _| {
        c.small_needs(5, &gen::few_settings())
    }),
    ("letters of tables", |c, rng, rounds| {
        c.needs(rng, 30 * rounds)
    }),
    ("letters of damaged bytes", |c, rng, rounds| {
        c.any_needs(rng, 300 * rounds)
    }),
    ("drafts in all small stores", |c, _, _| c.small_stores(4, 3)),
    ("series of drafts", |c, rng, rounds| {
        c.series(rng, 30 * rounds)
    }),
    ("drafts in damaged stores", |c, rng, rounds| {
        c.any_stores(rng, 1000 * rounds)
    }),
];

/// Every part.
pub fn parts() -> impl Iterator<Item = Part> {
    let first = PARTS.into_iter().chain(bare::PARTS);
    let later = blanks::PARTS.into_iter().chain(alike::PARTS);
    first.chain(later).chain(typed::PARTS)
}

fn bytes(bytes: &[u8]) -> String {
    bytes.iter().map(|byte| format!("{byte:02x}")).collect()
}

/// What a lent output holds before a call.
fn junk(length: usize) -> Vec<u8> {
    (0..length).map(|at| (at as u8) ^ 0xA5).collect()
}

/// What a lent size list holds before a call.
fn junk_sizes(length: usize) -> Vec<SizeRecord> {
    let number = |at: usize| (at as u16) ^ 0xA5A5;
    (0..length)
        .map(|at| SizeRecord {
            natural_width: number(5 * at),
            natural_height: number(5 * at + 1),
            allotted_width: number(5 * at + 2),
            allotted_height: number(5 * at + 3),
            below: number(5 * at + 4),
        })
        .collect()
}

/// What a lent list of answers holds before a call.
fn junk_owners(length: usize) -> Vec<Owner> {
    (0..length)
        .map(|at| Owner {
            node: at ^ 0xA5A5_A5A5,
            line: at ^ 0xA5A5,
            column: at ^ 0x5A5A,
        })
        .collect()
}

/// What a lent list of Columns, or of nodes, holds before a call.
fn junk_columns(length: usize) -> Vec<u16> {
    (0..length).map(|at| (at as u16) ^ 0xA5A5).collect()
}

/// What a lent list of letters holds before a call.
fn junk_letters(length: usize) -> Vec<u32> {
    (0..length).map(|at| (at as u32) ^ 0xA5A5_A5A5).collect()
}

/// The folds of a list that has them.
fn folds_of(settings: &[u8], tree: &[u8]) -> Option<Vec<Fold>> {
    let read = judge::read(settings, tree).ok()?;
    let cells = read.cells().ok()?;
    Some(folding::folds(&read.settings, cells))
}

/// The Columns of the answer, where there is one.
fn needed(folds: &[Fold], width: usize, budget: usize) -> usize {
    if width < folds[0].width {
        return 1;
    }
    folding::chosen(folds, width, budget).fold.columns.len()
}

/// Every tree of up to `nodes` nodes with a few texts.
fn small_trees(nodes: usize) -> impl Iterator<Item = Tree> {
    (1..=nodes).flat_map(|nodes| gen::small_trees(nodes, &["", "a", "bcd", "e\nfg"]))
}

/// Every pair of small groups.
fn two_groups() -> impl Iterator<Item = Tree> {
    gen::two_groups(&["", "a", "bc\nd"]).into_iter()
}

impl<'a> Comparison<'a> {
    pub fn new(one: &'a mut dyn Calls, other: &'a mut dyn Calls) -> Self {
        Comparison {
            one,
            other,
            counts: Counts::default(),
        }
    }

    /// Run a call on both sides and compare the two answers, number first.
    fn call<T: PartialEq + fmt::Debug>(
        &mut self,
        call: &'static str,
        input: impl Fn() -> String,
        run: impl Fn(&mut dyn Calls) -> (u8, T),
    ) -> Result<(), Difference> {
        self.agreed(call, input, run).map(|_| ())
    }

    /// The same, with the answer of both.
    fn agreed<T: PartialEq + fmt::Debug>(
        &mut self,
        call: &'static str,
        input: impl Fn() -> String,
        run: impl Fn(&mut dyn Calls) -> (u8, T),
    ) -> Result<(u8, T), Difference> {
        let one = run(self.one);
        let other = run(self.other);
        if one != other {
            return Err(Difference {
                call,
                input: input(),
                one: format!("{one:?}"),
                other: format!("{other:?}"),
            });
        }
        *self.counts.0.entry((call, one.0)).or_default() += 1;
        Ok(one)
    }

    fn read_settings(&mut self, settings: &[u8]) -> Result<(), Difference> {
        self.call(
            "settings",
            || bytes(settings),
            |side| {
                let answer = side.read_settings(settings);
                (answer.number, answer)
            },
        )
    }

    fn read_margin(&mut self, settings: &[u8]) -> Result<(), Difference> {
        self.call(
            "margin",
            || bytes(settings),
            |side| {
                let answer = side.read_margin(settings);
                (answer.number, answer)
            },
        )
    }

    fn read_tree(&mut self, tree: &[u8]) -> Result<(), Difference> {
        self.call(
            "tree",
            || bytes(tree),
            |side| {
                let answer = side.read_tree(tree);
                (answer.number, answer)
            },
        )
    }

    fn sizes(&mut self, settings: &[u8], tree: &[u8], length: usize) -> Result<(), Difference> {
        self.call(
            "sizes",
            || format!("{} {} lent {length}", bytes(settings), bytes(tree)),
            |side| {
                let mut list = junk_sizes(length);
                let answer = side.sizes(settings, tree, &mut list);
                (answer.number, (answer, list))
            },
        )
    }

    fn leaf_record(&mut self, settings: &[u8], tree: &[u8], node: usize) -> Result<(), Difference> {
        self.call(
            "leaf record",
            || format!("{} {} node {node}", bytes(settings), bytes(tree)),
            |side| {
                let answer = side.leaf_record(settings, tree, node);
                (answer.number, answer)
            },
        )
    }

    fn leaf(
        &mut self,
        settings: &[u8],
        tree: &[u8],
        node: usize,
        length: usize,
    ) -> Result<(), Difference> {
        self.call(
            "leaf",
            || {
                let (settings, tree) = (bytes(settings), bytes(tree));
                format!("{settings} {tree} node {node} lent {length}")
            },
            |side| {
                let mut output = junk(length);
                let answer = side.leaf(settings, tree, node, &mut output);
                (answer.number, (answer, output))
            },
        )
    }

    fn sheet(&mut self, settings: &[u8], tree: &[u8], length: usize) -> Result<(), Difference> {
        self.call(
            "sheet",
            || format!("{} {} lent {length}", bytes(settings), bytes(tree)),
            |side| {
                let mut output = junk(length);
                let answer = side.sheet(settings, tree, &mut output);
                (answer.number, (answer, output))
            },
        )
    }

    fn place(
        &mut self,
        settings: &[u8],
        tree: &[u8],
        (line, column): (usize, usize),
    ) -> Result<(), Difference> {
        self.call(
            "place",
            || {
                let (settings, tree) = (bytes(settings), bytes(tree));
                format!("{settings} {tree} line {line} column {column}")
            },
            |side| {
                let answer = side.place(settings, tree, line, column);
                (answer.number, answer)
            },
        )
    }

    /// Many places, with this many answers lent.
    fn mark(
        &mut self,
        settings: &[u8],
        tree: &[u8],
        places: &[(usize, usize)],
        length: usize,
    ) -> Result<(), Difference> {
        self.call(
            "places",
            || {
                let (settings, tree) = (bytes(settings), bytes(tree));
                format!("{settings} {tree} places {places:?} lent {length}")
            },
            |side| {
                let mut answers = junk_owners(length);
                let answer = side.places(settings, tree, places, &mut answers);
                (answer.number, (answer, answers))
            },
        )
    }

    /// Every place of the printed sheet, and those one past it, to the right and below; then far ones; then those inside the margin together, last to first, as
    /// many as a list may have. Of a sheet that is refused the far ones, and the first.
    pub fn places(&mut self, settings: &Settings, tree: &Tree) -> Result<(), Difference> {
        let [left, _, top, _] = settings.margin.sizes.map(usize::from);
        let (settings, tree) = (encode_settings(settings), encode_tree(tree));
        let sheet = judge::shown(&settings, &tree);
        let (w, h) = sheet.as_ref().map_or((0, 0), judge::Read::rectangle);
        let mut inside = Vec::new();
        for line in (0..=h).rev() {
            for column in (0..=w).rev() {
                self.place(&settings, &tree, (line, column))?;
                if (sheet.as_ref()).is_ok_and(|sheet| sheet.place(line, column).is_ok()) {
                    inside.push((line, column));
                }
            }
        }
        for place in gen::far_from((top, left)) {
            self.place(&settings, &tree, place)?;
        }
        for places in inside.chunks(judge::PLACES) {
            self.mark(&settings, &tree, places, places.len() + 3)?;
        }
        Ok(())
    }

    /// Lists of no place, of one, and of as many as a list may have, one less and one more, of a sheet that can be printed; with three answers more than are
    /// needed, as many, and one less. Last too many that are outside.
    fn marks(&mut self, rng: &mut Rng, settings: &[u8], tree: &[u8]) -> Result<(), Difference> {
        let Ok(read) = judge::shown(settings, tree) else {
            return Ok(());
        };
        for count in [0, 1, judge::PLACES - 1, judge::PLACES, judge::PLACES + 1] {
            let places = gen::insides(rng, &read, count);
            for length in [count + 3, count, count.saturating_sub(1)] {
                self.mark(settings, tree, &places, length)?;
            }
        }
        let outside = [(usize::MAX, 0); judge::PLACES + 1];
        self.mark(settings, tree, &outside, 0)
    }

    /// The fold of a list for a width and a budget, with this many entries lent.
    fn fold(
        &mut self,
        settings: &[u8],
        tree: &[u8],
        (width, budget): (usize, usize),
        length: usize,
    ) -> Result<(), Difference> {
        self.call(
            "fold",
            || {
                let (settings, tree) = (bytes(settings), bytes(tree));
                format!("{settings} {tree} width {width} budget {budget} lent {length}")
            },
            |side| {
                let mut columns = junk_columns(length);
                let answer = side.fold(settings, tree, width, budget, &mut columns);
                (answer.number, (answer, columns))
            },
        )
    }

    /// Every width up to one past the widest fold, with every budget up to one past all tries, and the greatest of both, with three entries more than are needed;
    /// for every width also with as many as are needed, one less, and none.
    fn every_fold(&mut self, settings: &Settings, tree: &Tree) -> Result<(), Difference> {
        let (settings, tree) = (encode_settings(settings), encode_tree(tree));
        let folds = folds_of(&settings, &tree).expect("a list");
        let widest = folds.iter().map(|fold| fold.width).max().unwrap_or(0);
        for width in (0..=widest + 1).chain([usize::MAX]) {
            for budget in (0..=folds.len()).chain([usize::MAX]) {
                let needed = needed(&folds, width, budget);
                self.fold(&settings, &tree, (width, budget), needed + 3)?;
            }
            let needed = needed(&folds, width, usize::MAX);
            for length in [needed, needed - 1, 0] {
                self.fold(&settings, &tree, (width, usize::MAX), length)?;
            }
        }
        Ok(())
    }

    /// The widths of some folds and one less, with every t tried; then random widths and budgets. The entries lent are around those needed.
    fn some_folds(
        &mut self,
        rng: &mut Rng,
        settings: &Settings,
        tree: &Tree,
    ) -> Result<(), Difference> {
        let (settings, tree) = (encode_settings(settings), encode_tree(tree));
        let folds = folds_of(&settings, &tree).expect("a list");
        let widths: Vec<usize> = folds.iter().map(|fold| fold.width).collect();
        let mut asked = Vec::new();
        for &width in widths.iter().step_by(1 + widths.len() / 16) {
            asked.push((width, usize::MAX));
            asked.push((width.saturating_sub(1), usize::MAX));
        }
        asked.extend((0..16).map(|_| gen::question(rng, &folds)));
        for (width, budget) in asked {
            let length = gen::around(rng, needed(&folds, width, budget));
            self.fold(&settings, &tree, (width, budget), length)?;
        }
        Ok(())
    }

    /// The ends of a planning tree.
    fn plan(&mut self, settings: &[u8], tree: &[u8]) -> Result<(), Difference> {
        self.call(
            "plan",
            || format!("{} {}", bytes(settings), bytes(tree)),
            |side| {
                let answer = side.plan(settings, tree);
                (answer.number, answer)
            },
        )
    }

    /// The letters that widen a sheet, with this many nodes and this many numbers lent.
    fn widen(
        &mut self,
        settings: &[u8],
        tree: &[u8],
        lent: (usize, usize),
    ) -> Result<(), Difference> {
        self.call(
            "widen",
            || format!("{} {} lent {lent:?}", bytes(settings), bytes(tree)),
            |side| {
                let (mut nodes, mut letters) = (junk_columns(lent.0), junk_letters(lent.1));
                let answer = side.widen(settings, tree, &mut nodes, &mut letters);
                (answer.number, (answer, nodes, letters))
            },
        )
    }

    /// Both lists three entries longer than there are Cells, as long, and either one longer; either one shorter, and empty; both empty.
    fn every_need(&mut self, settings: &Settings, tree: &Tree) -> Result<(), Difference> {
        let cells = widening::cells(tree).len();
        let (settings, tree) = (encode_settings(settings), encode_tree(tree));
        for (nodes, letters) in [
            (cells + 3, cells + 3),
            (cells, cells),
            (cells + 1, cells),
            (cells, cells + 1),
            (cells.saturating_sub(1), cells),
            (cells, cells.saturating_sub(1)),
            (0, cells),
            (cells, 0),
            (0, 0),
        ] {
            self.widen(&settings, &tree, (nodes, letters))?;
        }
        Ok(())
    }

    /// Every call, once.
    pub fn case(&mut self, case: &Case) -> Result<(), Difference> {
        let (settings, tree) = (&case.settings, &case.tree);
        self.read_settings(settings)?;
        self.read_margin(settings)?;
        self.read_tree(tree)?;
        self.sizes(settings, tree, case.list)?;
        self.leaf_record(settings, tree, case.node)?;
        self.leaf(settings, tree, case.node, case.block)?;
        self.sheet(settings, tree, case.sheet)
    }

    /// A whole table: every node's sizes, record and block, the number past the last, and the sheet; lists and outputs lent with three
    /// entries more than are needed, and with one less.
    pub fn table(&mut self, settings: &Settings, tree: &Tree) -> Result<(), Difference> {
        let nodes = tree.nodes();
        let settings = encode_settings(settings);
        let tree = encode_tree(tree);
        self.read_settings(&settings)?;
        self.read_margin(&settings)?;
        self.read_tree(&tree)?;
        self.sizes(&settings, &tree, nodes + 3)?;
        self.sizes(&settings, &tree, nodes - 1)?;
        for node in 0..=nodes {
            self.leaf_record(&settings, &tree, node)?;
            let needed = judge::leaf_bytes(&settings, &tree, node).unwrap_or(0);
            self.leaf(&settings, &tree, node, needed + 3)?;
            if needed > 0 {
                self.leaf(&settings, &tree, node, needed - 1)?;
            }
        }
        if let Ok(read) = judge::read(&settings, &tree) {
            let needed = read.sheet_bytes().min(70_000);
            self.sheet(&settings, &tree, needed + 3)?;
            if needed > 0 {
                self.sheet(&settings, &tree, needed - 1)?;
            }
        }
        Ok(())
    }

    /// The cuts of one list.
    pub fn list(&mut self, list: &SplitList, width: u16) -> Result<(), Difference> {
        let input = || format!("{list:?} at {width}");
        self.call("short_splits3", input, |side| {
            let answer = side.short_splits3(list, width);
            (answer.number, answer)
        })?;
        self.call("short_splits", input, |side| {
            let answer = side.short_splits(list, width);
            (answer.number, answer)
        })?;
        self.call("short_splits3, lent", input, |side| {
            let mut lent = list.clone();
            let answer = side.short_splits3_lent(&mut lent, width);
            (answer.number, (answer, lent))
        })
    }

    /// The sharing helper.
    pub fn share(
        &mut self,
        spare: usize,
        n: usize,
        priority: u8,
        index: usize,
    ) -> Result<(), Difference> {
        self.call(
            "share",
            || format!("{spare} among {n}, priority {priority}, child {index}"),
            |side| {
                let answer = side.share(spare, n, priority, index);
                (answer.number, answer)
            },
        )
    }

    /// Settings of any form: both readers, and the sheet of a small table.
    fn settings(&mut self, settings: &[u8]) -> Result<(), Difference> {
        self.read_settings(settings)?;
        self.read_margin(settings)?;
        self.sheet(settings, b"\x01\x00\x02ab", 4096)
    }

    /// Settings with every byte at every place.
    fn every_byte(&mut self, settings: &[u8]) -> Result<(), Difference> {
        for at in 0..settings.len() {
            for byte in 0..=255 {
                let mut bytes = settings.to_vec();
                bytes[at] = byte;
                self.settings(&bytes)?;
            }
        }
        Ok(())
    }

    /// Settings of one field and of both: of every length up to 44, behind every tag; with every byte at every place; the fields alone, in the wrong
    /// order and twice; margins of every size on every side.
    pub fn settings_records(&mut self) -> Result<(), Difference> {
        let edged = Margin {
            sizes: [1, 2, 1, 1],
            fills: *b"lrtb",
        };
        let first = encode_settings(&Settings::M);
        let second = encode_margin(&edged);
        let both = [&first[..], &second].concat();
        for tag in [0x10, 0x11, 0x12] {
            for field in [0, first.len()] {
                let mut long = [&both[..], &second[..2]].concat();
                long[field] = tag;
                for length in 0..=long.len() {
                    self.settings(&long[..length])?;
                }
            }
        }
        self.every_byte(&first)?;
        self.every_byte(&both)?;
        let none = encode_margin(&Margin::NONE);
        let fields: [&[&[u8]]; 7] = [
            &[&second],
            &[&second, &first],
            &[&first, &first],
            &[&first, &second, &second],
            &[&first, &second, &first],
            &[&first, &none],
            &[&none, &none, &none, &none],
        ];
        for fields in fields {
            self.settings(&fields.concat())?;
        }
        for side in 0..4 {
            for size in 0..=17 {
                let mut margin = Margin {
                    sizes: [0; 4],
                    ..edged
                };
                margin.sizes[side] = size;
                self.settings(&[&first[..], &encode_margin(&margin)].concat())?;
                margin.sizes = [size; 4];
                margin.sizes[side] = 0;
                self.settings(&[&first[..], &encode_margin(&margin)].concat())?;
            }
        }
        Ok(())
    }

    /// All bytes of up to 7 that look like a tree, every byte as a tag and as a text, elements with several faults, trees too long.
    pub fn faulty_trees(&mut self) -> Result<(), Difference> {
        for bytes in gen::short_bytes(7) {
            self.read_tree(&bytes)?;
        }
        for byte in 0..=255 {
            self.read_tree(&[byte, 0, 0])?;
            self.read_tree(&[1, 0, 1, byte])?;
        }
        for bytes in gen::faults().into_iter().chain(gen::long_trees()) {
            self.read_tree(&bytes)?;
        }
        Ok(())
    }

    /// Every tree of up to `nodes` nodes with a few texts, under each of the settings.
    pub fn small_tables(&mut self, nodes: usize, settings: &[Settings]) -> Result<(), Difference> {
        self.each(small_trees(nodes), settings, Comparison::table)
    }

    /// Every pair of small groups, under each of the settings.
    pub fn two_groups(&mut self, settings: &[Settings]) -> Result<(), Difference> {
        self.each(two_groups(), settings, Comparison::table)
    }

    /// The places of the same trees.
    pub fn small_places(&mut self, nodes: usize, settings: &[Settings]) -> Result<(), Difference> {
        self.each(small_trees(nodes), settings, Comparison::places)
    }

    /// The places of the same groups.
    pub fn two_groups_places(&mut self, settings: &[Settings]) -> Result<(), Difference> {
        self.each(two_groups(), settings, Comparison::places)
    }

    /// Every list of up to this many Cells with a few texts, under each of the settings.
    pub fn small_folds(&mut self, cells: usize, settings: &[Settings]) -> Result<(), Difference> {
        let lists = gen::small_lists(cells, &["", "a", "bcd", "e\nfg"]);
        self.each(lists.into_iter(), settings, Comparison::every_fold)
    }

    /// Lists of great heights and widths, then this many random ones.
    pub fn folds(&mut self, rng: &mut Rng, rounds: usize) -> Result<(), Difference> {
        for (settings, tree) in gen::great_lists() {
            self.some_folds(rng, &rng.lined(settings), &tree)?;
        }
        for _ in 0..rounds {
            let (settings, tree) = gen::fold_list(rng);
            self.some_folds(rng, &settings, &tree)?;
        }
        Ok(())
    }

    /// This many lists of any kind, damaged bytes among them, each with a random width and budget.
    pub fn any_folds(&mut self, rng: &mut Rng, rounds: usize) -> Result<(), Difference> {
        for _ in 0..rounds {
            let (settings, tree) = gen::any_list(rng);
            self.any_fold(rng, &settings, &tree)?;
        }
        Ok(())
    }

    /// The fold of a list of any kind, for a random width and budget.
    fn any_fold(&mut self, rng: &mut Rng, settings: &[u8], tree: &[u8]) -> Result<(), Difference> {
        let (asked, needed) = match folds_of(settings, tree) {
            Some(folds) => {
                let (width, budget) = gen::question(rng, &folds);
                ((width, budget), needed(&folds, width, budget))
            }
            None => (rng.pick(&[(0, 0), (9, 0), (usize::MAX, usize::MAX)]), 1),
        };
        self.fold(settings, tree, asked, gen::around(rng, needed))
    }

    /// All bytes of up to `most` that look like a planning tree; elements with several faults, ranges of every byte; trees too long.
    pub fn faulty_plans(&mut self, most: usize) -> Result<(), Difference> {
        let settings = encode_settings(&Settings::M);
        let long = gen::plan_faults().into_iter().chain(gen::long_trees());
        for bytes in gen::short_bytes(most).chain(gen::faults()).chain(long) {
            self.plan(&settings, &bytes)?;
        }
        Ok(())
    }

    /// Every planning tree of up to `nodes` nodes with a few texts and ranges, under each of the settings.
    pub fn small_plans(&mut self, nodes: usize, settings: &[Settings]) -> Result<(), Difference> {
        for plan in (1..=nodes).flat_map(gen::small_plans) {
            for settings in settings {
                self.plan(&encode_settings(settings), &encode_plan(&plan))?;
            }
        }
        Ok(())
    }

    /// The greatest planning trees, then this many random ones.
    pub fn plans(&mut self, rng: &mut Rng, rounds: usize) -> Result<(), Difference> {
        for (settings, plan) in gen::great_plans() {
            self.plan(&encode_settings(&rng.lined(settings)), &encode_plan(&plan))?;
        }
        for _ in 0..rounds {
            let (settings, plan) = gen::plan(rng);
            self.plan(&encode_settings(&settings), &encode_plan(&plan))?;
        }
        Ok(())
    }

    /// This many planning trees of any kind, damaged bytes among them; every other call, which takes no range, gets each of them, too.
    pub fn any_plans(&mut self, rng: &mut Rng, rounds: usize) -> Result<(), Difference> {
        for _ in 0..rounds {
            let (settings, tree) = gen::any_plan(rng);
            self.plan(&settings, &tree)?;
            self.fold(&settings, &tree, (usize::MAX, 9), 1)?;
            self.widen(&settings, &tree, (0, 9))?;
            let case = gen::case(rng, settings, tree);
            self.case(&case)?;
            self.any_places(rng, &case)?;
        }
        Ok(())
    }

    /// The letters of every tree of up to `nodes` nodes with a few texts, under each of the settings.
    pub fn small_needs(&mut self, nodes: usize, settings: &[Settings]) -> Result<(), Difference> {
        self.each(small_trees(nodes), settings, Comparison::every_need)
    }

    /// The letters of the greatest trees, then of this many random ones.
    pub fn needs(&mut self, rng: &mut Rng, rounds: usize) -> Result<(), Difference> {
        for (settings, tree) in gen::wide_tables() {
            self.every_need(&rng.lined(settings), &tree)?;
        }
        for _ in 0..rounds {
            let (settings, tree) = gen::wide_table(rng);
            self.every_need(&settings, &tree)?;
        }
        Ok(())
    }

    /// The letters of elements with several faults, with no entry lent; then of this many trees of any kind, damaged bytes among them, with lists of random lengths.
    pub fn any_needs(&mut self, rng: &mut Rng, rounds: usize) -> Result<(), Difference> {
        let settings = encode_settings(&Settings::M);
        for tree in gen::faults().into_iter().chain(gen::long_trees()) {
            self.widen(&settings, &tree, (0, 0))?;
        }
        for _ in 0..rounds {
            let (settings, tree) = gen::any_wide(rng);
            self.any_need(rng, &settings, &tree)?;
        }
        Ok(())
    }

    /// The letters of a tree of any kind, with lists of random lengths.
    fn any_need(&mut self, rng: &mut Rng, settings: &[u8], tree: &[u8]) -> Result<(), Difference> {
        let cells = judge::read_tree(tree).map_or(1, |tree| widening::cells(&tree).len());
        let lent = (gen::around(rng, cells), gen::around(rng, cells));
        self.widen(settings, tree, lent)
    }

    /// Each tree under each of the settings.
    fn each(
        &mut self,
        trees: impl Iterator<Item = Tree>,
        settings: &[Settings],
        run: fn(&mut Self, &Settings, &Tree) -> Result<(), Difference>,
    ) -> Result<(), Difference> {
        for tree in trees {
            for settings in settings {
                run(self, settings, &tree)?;
            }
        }
        Ok(())
    }

    /// Sheets around 400 columns by 160 lines with margins and without, then this many tables on each side of each limit, −2 to 2 from it.
    pub fn limits(&mut self, rng: &mut Rng, rounds: usize) -> Result<(), Difference> {
        for sizes in [[0; 4], [1, 0, 0, 1], [0, 3, 2, 0], [16; 4]] {
            for (width, height) in [(0, 0), (-1, 0), (0, -1), (1, 0), (0, 1), (1, 1)] {
                let d = rng.lined(Settings::D);
                let (settings, tree) = gen::corner(d, sizes, width, height);
                self.table(&settings, &tree)?;
            }
        }
        for limit in gen::LIMITS {
            for offset in -2..=2 {
                for _ in 0..rounds {
                    let (settings, tree) = gen::near(rng, Margins::Half, limit, offset);
                    let (settings, tree) = (encode_settings(&settings), encode_tree(&tree));
                    for _ in 0..4 {
                        let case = gen::case(rng, settings.clone(), tree.clone());
                        self.case(&case)?;
                        self.any_places(rng, &case)?;
                    }
                }
            }
        }
        Ok(())
    }

    /// This many whole tables of ordinary size.
    pub fn tables(&mut self, rng: &mut Rng, rounds: usize) -> Result<(), Difference> {
        for _ in 0..rounds {
            let (settings, tree) = gen::table(rng, Margins::Half);
            self.table(&settings, &tree)?;
        }
        Ok(())
    }

    /// The places of this many.
    pub fn tables_places(&mut self, rng: &mut Rng, rounds: usize) -> Result<(), Difference> {
        for _ in 0..rounds {
            let (settings, tree) = gen::table(rng, Margins::Half);
            self.places(&settings, &tree)?;
            self.marks(rng, &encode_settings(&settings), &encode_tree(&tree))?;
        }
        Ok(())
    }

    /// This many cases of any kind, damaged bytes among them.
    pub fn cases(&mut self, rng: &mut Rng, rounds: usize) -> Result<(), Difference> {
        for _ in 0..rounds {
            let case = gen::any_case(rng, Margins::Half);
            self.case(&case)?;
            self.any_places(rng, &case)?;
        }
        Ok(())
    }

    /// A random place of a case, and a random list of them, with a length around theirs.
    fn any_places(&mut self, rng: &mut Rng, case: &Case) -> Result<(), Difference> {
        let (settings, tree) = (&case.settings, &case.tree);
        let (place, places) = match judge::read(settings, tree) {
            Ok(read) => (gen::place(rng, &read), gen::places(rng, &read)),
            Err(_) => ((0, 9), vec![(9, 0); rng.pick(&[0, 1, 257])]),
        };
        self.place(settings, tree, place)?;
        self.mark(settings, tree, &places, gen::around(rng, places.len()))
    }

    /// Every list of up to three pieces of 0 to 4 at widths 0 to 9, lists of 511 and 512 equal pieces, then this many random ones, each also
    /// with a count past the limit, of which C can be lent as many pieces.
    pub fn lists(&mut self, rng: &mut Rng, rounds: usize) -> Result<(), Difference> {
        for count in 0..=3 {
            for pieces in 0..5usize.pow(count) {
                let list: Vec<usize> = (0..count).map(|at| pieces / 5usize.pow(at) % 5).collect();
                for width in 0..=9 {
                    self.list(&SplitList::new(&list), width)?;
                }
            }
        }
        for count in [511, 512] {
            for piece in [0, 1, 65_535] {
                for width in [0, 1, 2, 511, 512, 1023, 1024, 65_535] {
                    self.list(&SplitList::new(&vec![piece; count]), width)?;
                }
            }
        }
        for _ in 0..rounds {
            self.any_list(rng)?;
        }
        Ok(())
    }

    /// A random list, then with a count past the limit.
    fn any_list(&mut self, rng: &mut Rng) -> Result<(), Difference> {
        let (list, width) = gen::list(rng);
        let mut list = SplitList::new(&list);
        // What is past the count is the caller's.
        if rng.one_in(2) {
            for place in &mut list.pieces[list.count..] {
                *place = rng.below(65_536) as u16;
            }
        }
        self.list(&list, width)?;
        list.count = rng.pick(&[513, 514, 1024, 65_536]);
        self.list(&list, width)
    }

    /// Every share of up to `most` among up to `most` children, the refusals included, then large ones; under each priority, and numbers over those that settings have.
    pub fn shares(&mut self, rng: &mut Rng, most: usize) -> Result<(), Difference> {
        for n in 0..=most {
            for spare in 0..=most {
                for priority in [0, 1, 2, 3, 255] {
                    for index in 0..=n {
                        self.share(spare, n, priority, index)?;
                    }
                }
            }
        }
        for _ in 0..most {
            self.any_share(rng)?;
        }
        self.share(usize::MAX, usize::MAX, 2, usize::MAX - 1)?;
        self.share(usize::MAX, usize::MAX, 2, usize::MAX)?;
        self.share(usize::MAX, 1, 2, 0)?;
        self.share(usize::MAX, 2, 2, 0)
    }

    /// A random share, at times of a child past the last.
    fn any_share(&mut self, rng: &mut Rng) -> Result<(), Difference> {
        let n = rng.between(1, judge::NODES);
        let spare = rng.between(0, 65_535);
        let priority = rng.below(5) as u8;
        let index = rng.below(n + 1);
        self.share(spare, n, priority, index)
    }

    /// Every part, each started from the seed.
    pub fn all(&mut self, seed: u64, rounds: usize) -> Result<(), Difference> {
        for (_, run) in parts() {
            run(self, &mut Rng::new(seed), rounds)?;
        }
        Ok(())
    }
}
