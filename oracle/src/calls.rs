//! The public calls, as one trait that each side of a comparison implements: `sides::Original` (the crate's answers under the documents'
//! refusals), `sides::Paper` (the documents' words) and, in a driver, the proved library.
//!
//! On a refusal every field beside the number is 0 or no, and no lent list or output is written; the line and column of a typed list's fault are the refusal's own answer.

use crate::form::{CutPair, Ends, Flags, Margin, Owner, Settings};
use crate::judge;

/// A number and the settings.
#[derive(Debug, Clone, Copy, PartialEq, Eq)]
pub struct ReadSettings {
    pub number: u8,
    pub settings: Settings,
}

/// A number and the margin.
#[derive(Debug, Clone, Copy, PartialEq, Eq)]
pub struct ReadMargin {
    pub number: u8,
    pub margin: Margin,
}

/// A number and a count of nodes, entries or bytes.
#[derive(Debug, Clone, Copy, Default, PartialEq, Eq)]
pub struct Counted {
    pub number: u8,
    pub count: usize,
}

#[derive(Debug, Clone, Copy, Default, PartialEq, Eq)]
pub struct SizeRecord {
    pub natural_width: u16,
    pub natural_height: u16,
    pub allotted_width: u16,
    pub allotted_height: u16,
    pub below: u16,
}

/// Pieces, and 0 past their count.
#[derive(Clone, PartialEq, Eq)]
pub struct SplitList {
    pub pieces: [u16; judge::PIECES],
    pub count: usize,
}

impl SplitList {
    pub const EMPTY: SplitList = SplitList {
        pieces: [0; judge::PIECES],
        count: 0,
    };

    pub fn new(pieces: &[usize]) -> SplitList {
        let mut list = SplitList {
            count: pieces.len(),
            ..SplitList::EMPTY
        };
        for (place, &piece) in list.pieces.iter_mut().zip(pieces) {
            *place = u16::try_from(piece).expect("a piece has 16 bits");
        }
        list
    }

    /// The pieces within the count.
    pub fn list(&self) -> Vec<usize> {
        self.pieces[..self.count]
            .iter()
            .map(|&piece| piece.into())
            .collect()
    }
}

impl std::fmt::Debug for SplitList {
    /// The count, then the entries up to the last that is not 0.
    fn fmt(&self, f: &mut std::fmt::Formatter<'_>) -> std::fmt::Result {
        let end = self.pieces.iter().rposition(|&piece| piece != 0);
        let shown = &self.pieces[..end.map_or(0, |at| at + 1)];
        write!(f, "{} of {shown:?}", self.count)
    }
}

#[derive(Debug, Clone, PartialEq, Eq)]
pub struct LeafRecord {
    pub number: u8,
    pub node: usize,
    pub width: u16,
    pub height: u16,
    pub horizontal: SplitList,
    pub vertical: SplitList,
    pub flags: Flags,
    pub pair: CutPair,
}

/// A number, and the leaf of a place with the line and column inside its block.
#[derive(Debug, Clone, Copy, Default, PartialEq, Eq)]
pub struct LeafPlace {
    pub number: u8,
    pub node: usize,
    pub line: usize,
    pub column: usize,
}

/// A number, the count of answers written and the elements read.
#[derive(Debug, Clone, Copy, Default, PartialEq, Eq)]
pub struct Marked {
    pub number: u8,
    pub count: usize,
    pub read: usize,
}

/// A number, the count of Columns written, and what was found with them: the height, the tries made, the greatest miss.
#[derive(Debug, Clone, Copy, Default, PartialEq, Eq)]
pub struct Folded {
    pub number: u8,
    pub count: usize,
    pub height: usize,
    pub tries: usize,
    pub miss: usize,
}

/// A number, and the least and the greatest W and H.
#[derive(Debug, Clone, Copy, Default, PartialEq, Eq)]
pub struct Planned {
    pub number: u8,
    pub ends: Ends,
}

/// A number, the count of a tree's bytes, and the line and column of a fault: 0 and 0 where it has no place, or there is none.
#[derive(Debug, Clone, Copy, Default, PartialEq, Eq)]
pub struct Typed {
    pub number: u8,
    pub count: usize,
    pub line: usize,
    pub column: usize,
}

/// What `short_splits3` answers.
#[derive(Debug, Clone, PartialEq, Eq)]
pub struct CutParts {
    pub number: u8,
    pub split: bool,
    pub pair: CutPair,
    pub taken: SplitList,
    pub left: SplitList,
}

/// What `short_splits` answers. Positions have 32 bits.
#[derive(Clone, PartialEq, Eq)]
pub struct CutPositions {
    pub number: u8,
    pub positions: [u32; judge::PIECES],
    pub count: usize,
    pub left: SplitList,
}

impl std::fmt::Debug for CutPositions {
    fn fmt(&self, f: &mut std::fmt::Formatter<'_>) -> std::fmt::Result {
        let end = self.positions.iter().rposition(|&at| at != 0);
        f.debug_struct("CutPositions")
            .field("number", &self.number)
            .field("positions", &&self.positions[..end.map_or(0, |at| at + 1)])
            .field("count", &self.count)
            .field("left", &self.left)
            .finish()
    }
}

/// A number and a child's part of the spare space.
#[derive(Debug, Clone, Copy, Default, PartialEq, Eq)]
pub struct Shared {
    pub number: u8,
    pub part: usize,
}

pub trait Calls {
    fn read_settings(&mut self, settings: &[u8]) -> ReadSettings;

    /// The margin alone, of the same bytes.
    fn read_margin(&mut self, settings: &[u8]) -> ReadMargin;

    /// Answers the node count.
    fn read_tree(&mut self, tree: &[u8]) -> Counted;

    /// The size collector. Answers the node count.
    fn sizes(&mut self, settings: &[u8], tree: &[u8], list: &mut [SizeRecord]) -> Counted;

    fn leaf_record(&mut self, settings: &[u8], tree: &[u8], node: usize) -> LeafRecord;

    /// The leaf printer. Answers the bytes written.
    fn leaf(&mut self, settings: &[u8], tree: &[u8], node: usize, output: &mut [u8]) -> Counted;

    /// The sheet printer. Answers the bytes written.
    fn sheet(&mut self, settings: &[u8], tree: &[u8], output: &mut [u8]) -> Counted;

    /// The leaf of a place of the sheet as printed.
    fn place(&mut self, settings: &[u8], tree: &[u8], line: usize, column: usize) -> LeafPlace;

    /// The leaves of many places, in their order.
    fn places(
        &mut self,
        settings: &[u8],
        tree: &[u8],
        places: &[(usize, usize)],
        answers: &mut [Owner],
    ) -> Marked;

    /// A list folded into Columns of one Row; writes the number of cells in each.
    fn fold(
        &mut self,
        settings: &[u8],
        tree: &[u8],
        width: usize,
        budget: usize,
        columns: &mut [u16],
    ) -> Folded;

    /// The ends of W and H, of the bytes of a planning tree.
    fn plan(&mut self, settings: &[u8], tree: &[u8]) -> Planned;

    /// The Cells with the letters that each needs to widen the sheet; writes a node and a number for each. Answers the count of both.
    fn widen(
        &mut self,
        settings: &[u8],
        tree: &[u8],
        nodes: &mut [u16],
        letters: &mut [u32],
    ) -> Counted;

    /// Saves a tree in a store of drafts. Answers the number alone.
    fn save_draft(&mut self, store: &mut [u8], name: u8, tree: &[u8]) -> u8;

    /// Forgets a draft. Answers the number alone.
    fn forget_draft(&mut self, store: &mut [u8], name: u8) -> u8;

    /// Copies a draft's tree out. Answers its bytes.
    fn return_draft(&mut self, store: &[u8], name: u8, output: &mut [u8]) -> Counted;

    /// Writes the tree with the texts of these Cells blanked, of all where none is named. Answers its bytes.
    fn blank(&mut self, tree: &[u8], nodes: &[u16], output: &mut [u8]) -> Counted;

    /// Reads a typed list and writes its tree. Answers the tree's bytes, or the fault's place.
    fn read_typed(&mut self, list: &[u8], output: &mut [u8]) -> Typed;

    fn short_splits3(&mut self, list: &SplitList, width: u16) -> CutParts;

    fn short_splits(&mut self, list: &SplitList, width: u16) -> CutPositions;

    /// The cut that shortens the list where the caller keeps it. What it answers has the list left, too.
    fn short_splits3_lent(&mut self, list: &mut SplitList, width: u16) -> CutParts {
        let cut = self.short_splits3(list, width);
        if cut.number == 0 {
            *list = cut.left.clone();
        }
        cut
    }

    fn share(&mut self, spare: usize, n: usize, priority: u8, index: usize) -> Shared;
}
