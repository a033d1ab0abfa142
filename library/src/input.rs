//! Settings and tree together, as bytes.

use crate::calls;
use crate::records::{Folded, LeafPlace, LeafRecord, Marked, Need, Place, Planned, SizeRecord};
use crate::refusal::{PlacesRefusal, Refusal};
use crate::tree;

/// The settings' first field, and the margin's: a tag, a two-byte length and as many bytes.
const SETTINGS_BYTES: usize = 3 + calls::SETTINGS;
const MARGIN_BYTES: usize = 3 + calls::MARGIN;
/// The tag of the margin's.
const MARGIN_TAG: u8 = 0x11;

/// The bytes of settings and of a tree, good or bad. The calls answer values.
///
/// ```
/// use leg_sheet::{Input, Refusal, Settings};
///
/// let settings = Settings::default().to_bytes();
/// let input = Input { settings: &settings, tree: b"\x02\x00\x08\x01\x00\x01a\x01\x00\x01b" };
/// assert_eq!(input.print_leaf(1)?, "+---\n| a \n+---");
/// assert_eq!(input.print_leaf(0), Err(Refusal::NoLeaf));
/// # Ok::<(), leg_sheet::Refusal>(())
/// ```
#[derive(Debug, Clone, Copy, PartialEq, Eq)]
pub struct Input<'a> {
    /// The settings record, with the margin's field or without.
    pub settings: &'a [u8],
    /// The tree; for [`plan`](Input::plan) the planning tree.
    pub tree: &'a [u8],
}

impl<'a> Input<'a> {
    /// The sheet program's input: the settings record, then the tree. The record is the first 31 bytes, or all if there are fewer; and where a
    /// hex 11 follows them, that byte and the ten after it, or all there are.
    #[must_use]
    pub fn split(bytes: &'a [u8]) -> Input<'a> {
        let record = match bytes.get(SETTINGS_BYTES) {
            Some(&MARGIN_TAG) => SETTINGS_BYTES + MARGIN_BYTES,
            _ => SETTINGS_BYTES,
        };
        let (settings, tree) = bytes.split_at(bytes.len().min(record));
        Input { settings, tree }
    }

    /// The sheet, with its margin.
    ///
    /// # Errors
    /// [`BadSettings`](Refusal::BadSettings), [`BadTree`](Refusal::BadTree), [`BadText`](Refusal::BadText), [`TooManyNodes`](Refusal::TooManyNodes),
    /// [`TooDeep`](Refusal::TooDeep), [`TooLarge`](Refusal::TooLarge).
    pub fn print_sheet(self) -> Result<String, Refusal> {
        printed(|out| calls::print_sheet(self.settings, self.tree, out))
    }

    /// A leaf's block, without the margin.
    ///
    /// # Errors
    /// [`BadSettings`](Refusal::BadSettings), [`BadTree`](Refusal::BadTree), [`BadText`](Refusal::BadText), [`TooManyNodes`](Refusal::TooManyNodes),
    /// [`TooDeep`](Refusal::TooDeep), [`TooLarge`](Refusal::TooLarge), [`NoLeaf`](Refusal::NoLeaf).
    pub fn print_leaf(self, node: usize) -> Result<String, Refusal> {
        printed(|out| calls::print_leaf(self.settings, self.tree, node, out))
    }

    /// The size of each node, by its number, and how many nodes are below it.
    ///
    /// # Errors
    /// [`BadSettings`](Refusal::BadSettings), [`BadTree`](Refusal::BadTree), [`BadText`](Refusal::BadText), [`TooManyNodes`](Refusal::TooManyNodes),
    /// [`TooDeep`](Refusal::TooDeep).
    pub fn sizes(self) -> Result<Vec<SizeRecord>, Refusal> {
        let mut list = [[0; calls::SIZES]; calls::NODES];
        let count = calls::sizes(self.settings, self.tree, list.as_flattened_mut())?;
        let records = list.into_iter().take(count);
        Ok(records.map(SizeRecord::from_numbers).collect())
    }

    /// A leaf's record.
    ///
    /// # Errors
    /// [`BadSettings`](Refusal::BadSettings), [`BadTree`](Refusal::BadTree), [`BadText`](Refusal::BadText), [`TooManyNodes`](Refusal::TooManyNodes),
    /// [`TooDeep`](Refusal::TooDeep), [`TooLarge`](Refusal::TooLarge), [`NoLeaf`](Refusal::NoLeaf).
    pub fn leaf_record(self, node: usize) -> Result<LeafRecord, Refusal> {
        let mut out = [0; calls::RECORD];
        calls::leaf_record(self.settings, self.tree, node, &mut out)?;
        Ok(LeafRecord::from_numbers(&out))
    }

    /// The leaf of a place of the printed sheet, its margin included.
    ///
    /// # Errors
    /// [`BadSettings`](Refusal::BadSettings), [`BadTree`](Refusal::BadTree), [`BadText`](Refusal::BadText), [`TooManyNodes`](Refusal::TooManyNodes),
    /// [`TooDeep`](Refusal::TooDeep), [`TooLarge`](Refusal::TooLarge), [`OutsideSheet`](Refusal::OutsideSheet), [`InMargin`](Refusal::InMargin).
    pub fn place(self, line: usize, column: usize) -> Result<LeafPlace, Refusal> {
        let mut out = [0; calls::PLACE];
        calls::place(self.settings, self.tree, line, column, &mut out)?;
        Ok(LeafPlace::from_numbers(out))
    }

    /// The leaves of up to 256 places, in their order, each as [`place`](Input::place) answers it alone.
    ///
    /// # Errors
    /// [`BadSettings`](Refusal::BadSettings), [`BadTree`](Refusal::BadTree), [`BadText`](Refusal::BadText), [`TooManyNodes`](Refusal::TooManyNodes),
    /// [`TooDeep`](Refusal::TooDeep), [`TooLarge`](Refusal::TooLarge), [`TooManyPlaces`](Refusal::TooManyPlaces), then the [`OutsideSheet`](Refusal::OutsideSheet) or
    /// [`InMargin`](Refusal::InMargin) of the first place that has one, with its index.
    pub fn places(self, places: &[Place]) -> Result<Marked, PlacesRefusal> {
        // One too many is refused as all of them are.
        let list = places.iter().take(calls::PLACES + 1);
        let numbers: Vec<u64> = list.map(|place| place.to_number()).collect();
        let (mut answers, mut read) = ([0; calls::PLACES], 0);
        let count = calls::places(self.settings, self.tree, &numbers, &mut answers, &mut read)
            .map_err(|refusal| self.refused_at(places, refusal))?;
        let written = answers.into_iter().take(count);
        Ok(Marked {
            answers: written.map(LeafPlace::from_number).collect(),
            read: read as usize,
        })
    }

    /// Which place of a list it is that was refused: the first that is refused alone.
    fn refused_at(self, places: &[Place], refusal: Refusal) -> PlacesRefusal {
        let is_of_place = [Refusal::OutsideSheet, Refusal::InMargin].contains(&refusal);
        let is_refused = |place: &Place| self.place(place.line, place.column).is_err();
        let place = places.iter().position(is_refused).filter(|_| is_of_place);
        PlacesRefusal { refusal, place }
    }

    /// The list folded into Columns of one Row that is no wider inside than `width`, with `budget` tries at the most.
    ///
    /// # Errors
    /// [`BadSettings`](Refusal::BadSettings), [`BadTree`](Refusal::BadTree), [`BadText`](Refusal::BadText), [`TooManyNodes`](Refusal::TooManyNodes),
    /// [`TooDeep`](Refusal::TooDeep), [`NotAList`](Refusal::NotAList), [`TooWide`](Refusal::TooWide).
    pub fn fold(self, width: usize, budget: usize) -> Result<Folded, Refusal> {
        let (mut columns, mut found) = ([0; calls::CELLS], [0; calls::FOUND]);
        let (settings, tree) = (self.settings, self.tree);
        let count = calls::fold(settings, tree, width, budget, &mut columns, &mut found)?;
        Ok(Folded::from_numbers(&columns[..count], found))
    }

    /// How large the sheet of the planning tree will be.
    ///
    /// # Errors
    /// [`BadSettings`](Refusal::BadSettings), [`BadTree`](Refusal::BadTree), [`BadText`](Refusal::BadText), [`TooManyNodes`](Refusal::TooManyNodes),
    /// [`TooDeep`](Refusal::TooDeep), [`BadRange`](Refusal::BadRange).
    pub fn plan(self) -> Result<Planned, Refusal> {
        let mut ends = [0; calls::ENDS];
        calls::plan(self.settings, self.tree, &mut ends)?;
        Ok(Planned::from_numbers(ends))
    }

    /// For each Cell the fewest letters that, added to its longest line alone, make the sheet wider; the fewest first, equal ones by node.
    ///
    /// # Errors
    /// [`BadSettings`](Refusal::BadSettings), [`BadTree`](Refusal::BadTree), [`BadText`](Refusal::BadText), [`TooManyNodes`](Refusal::TooManyNodes),
    /// [`TooDeep`](Refusal::TooDeep).
    pub fn widen(self) -> Result<Vec<Need>, Refusal> {
        let (mut nodes, mut letters) = ([0; calls::NODES], [0; calls::NODES]);
        let count = calls::widen(self.settings, self.tree, &mut nodes, &mut letters)?;
        let entries = nodes.into_iter().zip(letters).take(count);
        Ok(entries
            .map(|(node, letters)| Need::from_numbers(node, letters))
            .collect())
    }

    /// The tree's bytes with the texts of these Cells blanked, of every Cell where none is named. The settings are not read.
    ///
    /// # Errors
    /// [`BadTree`](Refusal::BadTree), [`BadText`](Refusal::BadText), [`TooManyNodes`](Refusal::TooManyNodes), [`TooDeep`](Refusal::TooDeep), [`NoLeaf`](Refusal::NoLeaf).
    pub fn blank(self, nodes: &[usize]) -> Result<Vec<u8>, Refusal> {
        tree::blanked(self.tree, nodes)
    }
}

/// What a printer writes, lent enough for the largest sheet.
fn printed(print: impl Fn(&mut [u8]) -> Result<usize, Refusal>) -> Result<String, Refusal> {
    let mut out = vec![0; calls::SHEET];
    let count = print(&mut out)?;
    out.truncate(count);
    out.shrink_to_fit();
    Ok(String::from_utf8(out).expect("a printer writes ASCII alone"))
}
