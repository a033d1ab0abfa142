//! What the calls answer, as values; `from_numbers` makes them of the numbers that a call on lent lists has written.

use std::fmt;
use std::ops::{Deref, RangeInclusive};

use crate::calls::{CUT, ENDS, FOUND, LENT_CUT, LIST, PIECES, PLACE, RECORD, SIZES};

/// A node's size, and how many nodes are below it.
#[derive(Debug, Clone, Copy, Default, PartialEq, Eq, Hash)]
pub struct SizeRecord {
    /// What its own contents need, padding included.
    pub natural_width: u16,
    /// The lines they need.
    pub natural_height: u16,
    /// What it gets: its natural width and its part of the spare.
    pub allotted_width: u16,
    /// The lines it gets.
    pub allotted_height: u16,
    /// The number of nodes below it, its children and all below them; 0 for a leaf.
    ///
    /// By document 02's rule, 'a node's own number plus 1 plus that count is its next sibling exactly where this is no more than its parent's number plus its parent's
    /// count; elsewhere, as for the root, it has none': [`next_sibling`].
    pub below: u16,
}

impl SizeRecord {
    /// A record of [`calls::sizes`](crate::calls::sizes).
    #[must_use]
    pub const fn from_numbers(numbers: [u16; SIZES]) -> SizeRecord {
        let [natural_width, natural_height, allotted_width, allotted_height, below] = numbers;
        SizeRecord {
            natural_width,
            natural_height,
            allotted_width,
            allotted_height,
            below,
        }
    }

    /// The record as [`calls::sizes`](crate::calls::sizes) writes it.
    #[must_use]
    pub const fn to_numbers(self) -> [u16; SIZES] {
        [
            self.natural_width,
            self.natural_height,
            self.allotted_width,
            self.allotted_height,
            self.below,
        ]
    }
}

/// The next sibling of `node`, a child of `parent`, by the sizes of their tree: no node between is looked at.
///
/// ```
/// use leg_sheet::{next_sibling, sizes, Settings, Tree};
///
/// let tree = Tree::column(["a".into(), Tree::row(["b", "c"]), "d".into()]);
/// let sizes = sizes(&Settings::default(), &tree)?;
/// assert_eq!(next_sibling(&sizes, 0, 2), Some(5));
/// assert_eq!(next_sibling(&sizes, 2, 4), None);
/// # Ok::<(), leg_sheet::Refusal>(())
/// ```
#[must_use]
pub fn next_sibling(sizes: &[SizeRecord], parent: usize, node: usize) -> Option<usize> {
    let last = |node: usize| Some(node + usize::from(sizes.get(node)?.below));
    let next = last(node)? + 1;
    (next <= last(parent)?).then_some(next)
}

/// Up to 512 numbers; it is a slice of them.
#[derive(Clone, Copy, PartialEq, Eq, Hash)]
pub struct List<T> {
    entries: [T; PIECES],
    count: usize,
}

/// The lengths of pieces.
pub type SplitList = List<u16>;

/// The positions that `short_splits` lists.
pub type Positions = List<u32>;

impl<T: Copy + Into<u64>> List<T> {
    /// A list that a call has written: its count, then 512 entries.
    #[must_use]
    pub fn from_numbers(numbers: &[T; LIST]) -> List<T> {
        List {
            entries: std::array::from_fn(|at| numbers[1 + at]),
            count: numbers[0].into() as usize,
        }
    }

    /// All 512 entries, those past the count included, which are 0.
    #[must_use]
    pub const fn entries(&self) -> &[T; PIECES] {
        &self.entries
    }
}

impl<T> Deref for List<T> {
    type Target = [T];

    fn deref(&self) -> &[T] {
        &self.entries[..self.count]
    }
}

impl<T: fmt::Debug> fmt::Debug for List<T> {
    fn fmt(&self, f: &mut fmt::Formatter<'_>) -> fmt::Result {
        self.deref().fmt(f)
    }
}

/// What a leaf knows of its place; its corner marks and edges follow from these.
#[derive(Debug, Clone, Copy, Default, PartialEq, Eq, Hash)]
#[allow(missing_docs)]
pub struct Flags {
    pub first_row: bool,
    pub last_row: bool,
    pub first_col: bool,
    pub last_col: bool,
    pub no_right: bool,
    pub lean_top: bool,
    pub top_left: bool,
    pub top_intersection: bool,
}

impl Flags {
    /// Each flag with its name, in the record's order.
    #[must_use]
    pub const fn named(self) -> [(&'static str, bool); 8] {
        [
            ("first_row", self.first_row),
            ("last_row", self.last_row),
            ("first_col", self.first_col),
            ("last_col", self.last_col),
            ("no_right", self.no_right),
            ("lean_top", self.lean_top),
            ("top_left", self.top_left),
            ("top_intersection", self.top_intersection),
        ]
    }
}

/// What a cut by `short_splits3` took and left.
#[derive(Debug, Clone, Copy, Default, PartialEq, Eq, Hash)]
pub struct CutPair {
    /// How many pieces it took.
    pub taken: usize,
    /// The length left of the first piece not taken; 0 if there is none or it was removed.
    ///
    /// In a leaf's record 0 tells nothing: borders may meet there, nothing may be there, or the piece was lost on the way into a nested group. The cell above the crossing at the leaf's
    /// top right, or in a Column beside the one at its bottom left, is that of the [place](crate::place) one line above the crossing, or one column to its left.
    pub rest: u16,
}

/// A leaf: its size, its flags, the pair of its cut, the split lists that it is given.
#[derive(Debug, Clone, Copy, PartialEq, Eq, Hash)]
pub struct LeafRecord {
    /// Its number.
    pub node: usize,
    /// The columns it is allotted.
    pub width: u16,
    /// The lines it is allotted.
    pub height: u16,
    /// Its flags.
    pub flags: Flags,
    /// What was taken and left of the list that its parent cut for it, a Row the horizontal one, a Column the vertical one; zeros for the root.
    pub pair: CutPair,
    /// The pieces above it.
    pub horizontal: SplitList,
    /// The pieces left of it.
    pub vertical: SplitList,
}

impl LeafRecord {
    /// What [`calls::leaf_record`](crate::calls::leaf_record) has written.
    #[must_use]
    pub fn from_numbers(numbers: &[u16; RECORD]) -> LeafRecord {
        LeafRecord {
            node: numbers[0].into(),
            width: numbers[1],
            height: numbers[2],
            flags: Flags {
                first_row: yes(numbers[3]),
                last_row: yes(numbers[4]),
                first_col: yes(numbers[5]),
                last_col: yes(numbers[6]),
                no_right: yes(numbers[7]),
                lean_top: yes(numbers[8]),
                top_left: yes(numbers[9]),
                top_intersection: yes(numbers[10]),
            },
            pair: pair_at(numbers, 11),
            horizontal: list_at(numbers, 13),
            vertical: list_at(numbers, 13 + LIST),
        }
    }
}

/// A place of the printed sheet, its margin included: a line and a column, counted from 0.
#[derive(Debug, Clone, Copy, Default, PartialEq, Eq, Hash)]
#[allow(missing_docs)]
pub struct Place {
    pub line: usize,
    pub column: usize,
}

impl Place {
    /// The place as [`calls::places`](crate::calls::places) takes it: the line above 32 bits, the column below. One that does not fit is put as the greatest that
    /// does, which is outside every sheet, too.
    #[must_use]
    pub fn to_number(self) -> u64 {
        let [line, column] = [self.line, self.column].map(|n| u32::try_from(n).unwrap_or(u32::MAX));
        u64::from(line) << 32 | u64::from(column)
    }
}

/// The leaf of a place: each place of a sheet inside its margin is in the block of one leaf.
///
/// The first line and column of a block are 0 and 0: its top-left mark.
#[derive(Debug, Clone, Copy, Default, PartialEq, Eq, Hash)]
pub struct LeafPlace {
    /// The leaf's number.
    pub node: usize,
    /// The line inside its block.
    pub line: usize,
    /// The column inside its block.
    pub column: usize,
}

impl LeafPlace {
    /// What [`calls::place`](crate::calls::place) has written.
    #[must_use]
    pub fn from_numbers(numbers: [u16; PLACE]) -> LeafPlace {
        let [node, line, column] = numbers.map(usize::from);
        LeafPlace { node, line, column }
    }

    /// An answer of [`calls::places`](crate::calls::places): the node above 32 bits, then the line, and the column in the lowest 16.
    #[must_use]
    pub const fn from_number(answer: u64) -> LeafPlace {
        LeafPlace {
            node: (answer >> 32) as usize,
            line: (answer >> 16) as u16 as usize,
            column: answer as u16 as usize,
        }
    }
}

/// The leaves of many places.
#[derive(Debug, Clone, PartialEq, Eq, Hash)]
pub struct Marked {
    /// The leaf of each place, in the order of the places.
    pub answers: Vec<LeafPlace>,
    /// The elements that the one walk over the tree read: as many as it has nodes.
    pub read: usize,
}

/// A list folded into Columns of one Row.
///
/// A height t is tried by putting cells in a Column while its height, with the lines between them, stays within t. One Column is the beginning; then t is one lower
/// each time, down to the tallest cell or to the end of the budget.
#[derive(Debug, Clone, PartialEq, Eq, Hash)]
pub struct Folded {
    /// How many cells each Column has, in order.
    pub columns: Vec<usize>,
    /// The least height t that fitted.
    pub height: usize,
    /// The tries made.
    pub tries: usize,
    /// The most by which the height can exceed the least that fits at all; 0 where every height was tried.
    pub miss: usize,
}

impl Folded {
    /// What [`calls::fold`](crate::calls::fold) has written: the Columns that it counts, and what was found.
    #[must_use]
    pub fn from_numbers(columns: &[u16], found: [u64; FOUND]) -> Folded {
        let [height, tries, miss] = found.map(|number| number as usize);
        Folded {
            columns: columns.iter().map(|&cells| cells.into()).collect(),
            height,
            tries,
            miss,
        }
    }
}

/// How large a planned sheet will be, its margin included: whatever texts within the ranges are put in, it is between these ends, and each of them is reached by
/// some texts.
#[derive(Debug, Clone, PartialEq, Eq, Hash)]
pub struct Planned {
    /// The columns of the sheet.
    pub width: RangeInclusive<usize>,
    /// The lines of the sheet.
    pub height: RangeInclusive<usize>,
}

impl Planned {
    /// What [`calls::plan`](crate::calls::plan) has written.
    #[must_use]
    pub fn from_numbers(ends: [u32; ENDS]) -> Planned {
        let [least_width, greatest_width, least_height, greatest_height] =
            ends.map(|number| number as usize);
        Planned {
            width: least_width..=greatest_width,
            height: least_height..=greatest_height,
        }
    }
}

/// A Cell, and the fewest letters that, added to its longest line alone, make the sheet wider.
#[derive(Debug, Clone, Copy, PartialEq, Eq, Hash)]
pub struct Need {
    /// The Cell's number.
    pub node: usize,
    /// The letters it needs, 1 or more.
    pub letters: usize,
}

impl Need {
    /// An entry of the two lists that [`calls::widen`](crate::calls::widen) has written.
    #[must_use]
    pub const fn from_numbers(node: u16, letters: u32) -> Need {
        Need {
            node: node as usize,
            letters: letters as usize,
        }
    }
}

/// What `short_splits3` answers.
#[derive(Debug, Clone, Copy, PartialEq, Eq, Hash)]
pub struct CutParts {
    /// Whether the cut falls between two pieces, so that a piece was removed.
    pub split: bool,
    /// How much it took and left.
    pub pair: CutPair,
    /// The pieces taken.
    pub taken: SplitList,
    /// The list left.
    pub left: SplitList,
}

impl CutParts {
    /// What [`calls::short_splits3`](crate::calls::short_splits3) has written.
    #[must_use]
    pub fn from_numbers(numbers: &[u16; CUT]) -> CutParts {
        CutParts {
            split: yes(numbers[0]),
            pair: pair_at(numbers, 1),
            taken: list_at(numbers, 3),
            left: list_at(numbers, 3 + LIST),
        }
    }
}

/// What `short_splits3` answers in place: the list left stays with the caller.
#[derive(Debug, Clone, Copy, PartialEq, Eq, Hash)]
pub struct CutAnswer {
    /// Whether the cut falls between two pieces, so that a piece was removed.
    pub split: bool,
    /// How much it took and left.
    pub pair: CutPair,
    /// How many pieces are left.
    pub left: usize,
    /// The pieces taken.
    pub taken: SplitList,
}

impl CutAnswer {
    /// What [`calls::short_splits3_lent`](crate::calls::short_splits3_lent) has written beside the list left.
    #[must_use]
    pub fn from_numbers(numbers: &[u16; LENT_CUT]) -> CutAnswer {
        CutAnswer {
            split: yes(numbers[0]),
            pair: pair_at(numbers, 1),
            left: numbers[3].into(),
            taken: list_at(numbers, 4),
        }
    }
}

/// What `short_splits` answers.
#[derive(Debug, Clone, Copy, PartialEq, Eq, Hash)]
pub struct ShortParts {
    /// The position after each piece taken.
    pub positions: Positions,
    /// The list left.
    pub left: SplitList,
}

/// Yes is 1, no is 0.
fn yes(number: u16) -> bool {
    debug_assert!(number < 2, "{number} is neither yes nor no");
    number == 1
}

/// The pair among a record's numbers.
fn pair_at(numbers: &[u16], start: usize) -> CutPair {
    CutPair {
        taken: numbers[start].into(),
        rest: numbers[start + 1],
    }
}

/// The list among a record's numbers.
fn list_at(numbers: &[u16], start: usize) -> SplitList {
    List::from_numbers(&std::array::from_fn(|at| numbers[start + at]))
}
