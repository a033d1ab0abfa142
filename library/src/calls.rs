//! The calls on bytes and lent buffers, as `include/leg_sheet.h` has them.
//!
//! Each answers how many nodes, numbers or bytes were counted or written. A refused call has written nothing; any other leaves what is past the
//! result as it was. Nothing is required of the caller, nothing is allocated and nothing is kept.
//!
//! ```
//! let settings = leg_sheet::Settings::default().to_bytes();
//! let mut out = [0; 100];
//! let count = leg_sheet::calls::print_sheet(&settings, b"\x01\x00\x02ab", &mut out)?;
//! assert_eq!(&out[..count], b"+----+\n| ab |\n+----+");
//! # Ok::<(), leg_sheet::Refusal>(())
//! ```
//!
//! Every `unsafe` block below is sound for one reason. The C functions require that a pointer be to as many items as the length beside it says, not null
//! and aligned even where that is none, and that what is written overlap no other argument. Each pair is of one slice, borrowed for the call, the
//! written ones by `&mut`.

use crate::raw;
use crate::refusal::Refusal;
use crate::typed::TypedFault;

/// The numbers of the settings' first field, past its tag and length.
pub const SETTINGS: usize = 28;
/// The numbers of the margin: left, right, top, bottom, and their fills.
pub const MARGIN: usize = 8;
/// The numbers of a size record.
pub const SIZES: usize = 5;
/// A list's entries at the most.
pub const PIECES: usize = 512;
/// A list that is written: its count, then its entries with 0 past the count.
pub const LIST: usize = 1 + PIECES;
/// A leaf record: node, width, height, eight flags, the pair of its cut, two lists.
pub const RECORD: usize = 13 + 2 * LIST;
/// `short_splits3`: yes or no, the pair, the list taken, the list left.
pub const CUT: usize = 3 + 2 * LIST;
/// `short_splits3_lent`: yes or no, the pair, the count left, the list taken.
pub const LENT_CUT: usize = 4 + LIST;
/// The leaf of a place: its node, the line and the column inside its block.
pub const PLACE: usize = 3;
/// The places of one call at the most.
pub const PLACES: usize = 256;
/// The Cells of a list to fold at the most, and so its Columns.
pub const CELLS: usize = 200;
/// What is found with a fold: the height, the tries made, the greatest excess height.
pub const FOUND: usize = 3;
/// The ends of a planned sheet: the least and the greatest number of columns, then of lines.
pub const ENDS: usize = 4;
/// The columns of a sheet at the most, its margin included.
pub const WIDTH: usize = 400;
/// The lines of a sheet at the most, its margin included.
pub const HEIGHT: usize = 160;
/// The largest sheet or block: as many lines of as many columns, with a line feed between them.
pub const SHEET: usize = (WIDTH + 1) * HEIGHT - 1;
/// The nodes of a tree at the most.
pub const NODES: usize = 512;
/// The bytes of a tree at the most.
pub const TREE: usize = 32_768;
/// The bytes of a typed list at the most.
pub const TYPED: usize = 131_072;

/// A word has the count, or above 32 bits the number of a refusal.
fn answer_or<E>(word: u64, refused: impl FnOnce(u64) -> E) -> Result<usize, E> {
    let count = u32::try_from(word);
    count.map(|count| count as usize).map_err(|_| refused(word))
}

fn answer(word: u64) -> Result<usize, Refusal> {
    answer_or(word, Refusal::of_word)
}

/// Reads settings, with a margin or without, and writes the [`SETTINGS`] numbers of the first field.
///
/// # Errors
/// [`BadSettings`](Refusal::BadSettings), [`TooShort`](Refusal::TooShort).
pub fn read_settings(bytes: &[u8], out: &mut [u16]) -> Result<usize, Refusal> {
    // SAFETY: pointers and lengths of slices that are borrowed here.
    answer(unsafe {
        raw::leg_read_settings(bytes.as_ptr(), bytes.len(), out.as_mut_ptr(), out.len())
    })
}

/// Reads the same settings and writes the [`MARGIN`] numbers of the margin: without one four 0 and four spaces.
///
/// # Errors
/// [`BadSettings`](Refusal::BadSettings), [`TooShort`](Refusal::TooShort).
pub fn read_margin(bytes: &[u8], out: &mut [u16]) -> Result<usize, Refusal> {
    // SAFETY: pointers and lengths of slices that are borrowed here.
    answer(unsafe {
        raw::leg_read_margin(bytes.as_ptr(), bytes.len(), out.as_mut_ptr(), out.len())
    })
}

/// Reads a tree and counts its nodes.
///
/// # Errors
/// [`BadTree`](Refusal::BadTree), [`BadText`](Refusal::BadText), [`TooManyNodes`](Refusal::TooManyNodes), [`TooDeep`](Refusal::TooDeep).
pub fn read_tree(tree: &[u8]) -> Result<usize, Refusal> {
    // SAFETY: pointer and length of a slice that is borrowed here.
    answer(unsafe { raw::leg_read_tree(tree.as_ptr(), tree.len()) })
}

/// Writes [`SIZES`] numbers for each node: natural width and height, allotted width and height, and the number of nodes below it. Counts the nodes.
///
/// # Errors
/// [`BadSettings`](Refusal::BadSettings), [`BadTree`](Refusal::BadTree), [`BadText`](Refusal::BadText), [`TooManyNodes`](Refusal::TooManyNodes), [`TooDeep`](Refusal::TooDeep),
/// [`TooShort`](Refusal::TooShort).
pub fn sizes(settings: &[u8], tree: &[u8], list: &mut [u16]) -> Result<usize, Refusal> {
    // SAFETY: pointers and lengths of slices that are borrowed here.
    answer(unsafe {
        raw::leg_sizes(
            settings.as_ptr(),
            settings.len(),
            tree.as_ptr(),
            tree.len(),
            list.as_mut_ptr(),
            list.len(),
        )
    })
}

/// Writes the [`RECORD`] numbers of a leaf.
///
/// # Errors
/// [`BadSettings`](Refusal::BadSettings), [`BadTree`](Refusal::BadTree), [`BadText`](Refusal::BadText), [`TooManyNodes`](Refusal::TooManyNodes), [`TooDeep`](Refusal::TooDeep),
/// [`TooLarge`](Refusal::TooLarge), [`NoLeaf`](Refusal::NoLeaf), [`TooShort`](Refusal::TooShort).
pub fn leaf_record(
    settings: &[u8],
    tree: &[u8],
    node: usize,
    out: &mut [u16],
) -> Result<usize, Refusal> {
    // SAFETY: pointers and lengths of slices that are borrowed here.
    answer(unsafe {
        raw::leg_leaf_record(
            settings.as_ptr(),
            settings.len(),
            tree.as_ptr(),
            tree.len(),
            node,
            out.as_mut_ptr(),
            out.len(),
        )
    })
}

/// Prints a leaf's block, without the margin, [`SHEET`] bytes at the most.
///
/// # Errors
/// [`BadSettings`](Refusal::BadSettings), [`BadTree`](Refusal::BadTree), [`BadText`](Refusal::BadText), [`TooManyNodes`](Refusal::TooManyNodes), [`TooDeep`](Refusal::TooDeep),
/// [`TooLarge`](Refusal::TooLarge), [`NoLeaf`](Refusal::NoLeaf), [`TooShort`](Refusal::TooShort).
pub fn print_leaf(
    settings: &[u8],
    tree: &[u8],
    node: usize,
    out: &mut [u8],
) -> Result<usize, Refusal> {
    // SAFETY: pointers and lengths of slices that are borrowed here.
    answer(unsafe {
        raw::leg_print_leaf(
            settings.as_ptr(),
            settings.len(),
            tree.as_ptr(),
            tree.len(),
            node,
            out.as_mut_ptr(),
            out.len(),
        )
    })
}

/// Prints the sheet with its margin, [`SHEET`] bytes at the most.
///
/// # Errors
/// [`BadSettings`](Refusal::BadSettings), [`BadTree`](Refusal::BadTree), [`BadText`](Refusal::BadText), [`TooManyNodes`](Refusal::TooManyNodes), [`TooDeep`](Refusal::TooDeep),
/// [`TooLarge`](Refusal::TooLarge), [`TooShort`](Refusal::TooShort).
pub fn print_sheet(settings: &[u8], tree: &[u8], out: &mut [u8]) -> Result<usize, Refusal> {
    // SAFETY: pointers and lengths of slices that are borrowed here.
    answer(unsafe {
        raw::leg_print_sheet(
            settings.as_ptr(),
            settings.len(),
            tree.as_ptr(),
            tree.len(),
            out.as_mut_ptr(),
            out.len(),
        )
    })
}

/// Writes the [`PLACE`] numbers of the leaf that has this line and column of the printed sheet, its margin included.
///
/// # Errors
/// [`BadSettings`](Refusal::BadSettings), [`BadTree`](Refusal::BadTree), [`BadText`](Refusal::BadText), [`TooManyNodes`](Refusal::TooManyNodes), [`TooDeep`](Refusal::TooDeep),
/// [`TooLarge`](Refusal::TooLarge), [`OutsideSheet`](Refusal::OutsideSheet), [`InMargin`](Refusal::InMargin), [`TooShort`](Refusal::TooShort).
pub fn place(
    settings: &[u8],
    tree: &[u8],
    line: usize,
    column: usize,
    out: &mut [u16],
) -> Result<usize, Refusal> {
    // SAFETY: pointers and lengths of slices that are borrowed here.
    answer(unsafe {
        raw::leg_place(
            settings.as_ptr(),
            settings.len(),
            tree.as_ptr(),
            tree.len(),
            line,
            column,
            out.as_mut_ptr(),
            out.len(),
        )
    })
}

/// Writes an answer for each of up to [`PLACES`] places, in their order, each as [`place`] answers it alone, and to `read` how many elements the one walk over the
/// tree read. Counts the answers. [`Place::to_number`](crate::Place::to_number) puts a place into a number, and [`LeafPlace::from_number`](crate::LeafPlace::from_number)
/// reads an answer.
///
/// # Errors
/// [`BadSettings`](Refusal::BadSettings), [`BadTree`](Refusal::BadTree), [`BadText`](Refusal::BadText), [`TooManyNodes`](Refusal::TooManyNodes), [`TooDeep`](Refusal::TooDeep),
/// [`TooLarge`](Refusal::TooLarge), [`TooManyPlaces`](Refusal::TooManyPlaces), the [`OutsideSheet`](Refusal::OutsideSheet) or [`InMargin`](Refusal::InMargin) of the first
/// place that has one, [`TooShort`](Refusal::TooShort).
pub fn places(
    settings: &[u8],
    tree: &[u8],
    places: &[u64],
    answers: &mut [u64],
    read: &mut u64,
) -> Result<usize, Refusal> {
    // SAFETY: pointers and lengths of slices, and a pointer to a number, that are borrowed here.
    answer(unsafe {
        raw::leg_places(
            settings.as_ptr(),
            settings.len(),
            tree.as_ptr(),
            tree.len(),
            places.as_ptr(),
            places.len(),
            answers.as_mut_ptr(),
            answers.len(),
            read,
        )
    })
}

/// Folds a list, a Column of 1 to [`CELLS`] Cells, into Columns of one Row that is no wider inside than `width`, with `budget` tries at the most: writes how many
/// cells each Column has, and to `found` the [`FOUND`] numbers. Counts the Columns. [`Folded`](crate::Folded) says what is found.
///
/// # Errors
/// [`BadSettings`](Refusal::BadSettings), [`BadTree`](Refusal::BadTree), [`BadText`](Refusal::BadText), [`TooManyNodes`](Refusal::TooManyNodes), [`TooDeep`](Refusal::TooDeep),
/// [`NotAList`](Refusal::NotAList), [`TooWide`](Refusal::TooWide); [`TooShort`](Refusal::TooShort) where `columns` has fewer numbers than there are Columns.
pub fn fold(
    settings: &[u8],
    tree: &[u8],
    width: usize,
    budget: usize,
    columns: &mut [u16],
    found: &mut [u64; FOUND],
) -> Result<usize, Refusal> {
    // SAFETY: pointers and lengths of slices, and a pointer to three numbers, that are borrowed here.
    answer(unsafe {
        raw::leg_fold(
            settings.as_ptr(),
            settings.len(),
            tree.as_ptr(),
            tree.len(),
            width,
            budget,
            columns.as_mut_ptr(),
            columns.len(),
            found.as_mut_ptr(),
        )
    })
}

/// Writes the [`ENDS`] of a planning tree, and counts them: its sheet, the margin included, has no fewer and no more columns and lines, whatever texts within the
/// ranges are put in, and each end is reached by some texts. Nothing is too large here.
///
/// # Errors
/// [`BadSettings`](Refusal::BadSettings), [`BadTree`](Refusal::BadTree), [`BadText`](Refusal::BadText), [`TooManyNodes`](Refusal::TooManyNodes), [`TooDeep`](Refusal::TooDeep),
/// [`BadRange`](Refusal::BadRange). Every other call refuses a range with [`BadTree`](Refusal::BadTree).
pub fn plan(settings: &[u8], tree: &[u8], ends: &mut [u32; ENDS]) -> Result<usize, Refusal> {
    // SAFETY: pointers and lengths of slices, and a pointer to four numbers, that are borrowed here.
    answer(unsafe {
        raw::leg_plan(
            settings.as_ptr(),
            settings.len(),
            tree.as_ptr(),
            tree.len(),
            ends.as_mut_ptr(),
        )
    })
}

/// Writes for each Cell the fewest letters that, added to its longest line alone, make the sheet wider: its node to `nodes` and the number to `letters`, at the same
/// index, the fewest letters first, equal ones by node. Counts the Cells, [`NODES`] at the most. Nothing is too large here.
///
/// # Errors
/// [`BadSettings`](Refusal::BadSettings), [`BadTree`](Refusal::BadTree), [`BadText`](Refusal::BadText), [`TooManyNodes`](Refusal::TooManyNodes), [`TooDeep`](Refusal::TooDeep);
/// [`TooShort`](Refusal::TooShort) where either list has fewer numbers than there are Cells.
pub fn widen(
    settings: &[u8],
    tree: &[u8],
    nodes: &mut [u16],
    letters: &mut [u32],
) -> Result<usize, Refusal> {
    // SAFETY: pointers and lengths of slices that are borrowed here.
    answer(unsafe {
        raw::leg_widen(
            settings.as_ptr(),
            settings.len(),
            tree.as_ptr(),
            tree.len(),
            nodes.as_mut_ptr(),
            nodes.len(),
            letters.as_mut_ptr(),
            letters.len(),
        )
    })
}

/// Saves a tree in a store of drafts under a name, a letter's byte from A to H, and counts nothing: an older draft of that name is dropped, and the new one is last.
/// [`DraftStore`](crate::DraftStore) says more of a store.
///
/// # Errors
/// [`BadStore`](Refusal::BadStore), [`NoDraft`](Refusal::NoDraft), the tree's [`BadTree`](Refusal::BadTree), [`BadText`](Refusal::BadText),
/// [`TooManyNodes`](Refusal::TooManyNodes), [`TooDeep`](Refusal::TooDeep), [`NoRoom`](Refusal::NoRoom).
pub fn save_draft(store: &mut [u8], name: u8, tree: &[u8]) -> Result<usize, Refusal> {
    // SAFETY: pointers and lengths of slices that are borrowed here.
    answer(unsafe {
        raw::leg_save_draft(
            store.as_mut_ptr(),
            store.len(),
            name,
            tree.as_ptr(),
            tree.len(),
        )
    })
}

/// Forgets a draft, and counts nothing: those behind it move down, and the bytes that are freed are zero.
///
/// # Errors
/// [`BadStore`](Refusal::BadStore), [`NoDraft`](Refusal::NoDraft).
pub fn forget_draft(store: &mut [u8], name: u8) -> Result<usize, Refusal> {
    // SAFETY: pointer and length of a slice that is borrowed here.
    answer(unsafe { raw::leg_forget_draft(store.as_mut_ptr(), store.len(), name) })
}

/// Copies a draft's tree out, and counts its bytes.
///
/// # Errors
/// [`BadStore`](Refusal::BadStore), [`NoDraft`](Refusal::NoDraft), [`TooShort`](Refusal::TooShort).
pub fn return_draft(store: &[u8], name: u8, out: &mut [u8]) -> Result<usize, Refusal> {
    // SAFETY: pointers and lengths of slices that are borrowed here.
    answer(unsafe {
        raw::leg_return_draft(
            store.as_ptr(),
            store.len(),
            name,
            out.as_mut_ptr(),
            out.len(),
        )
    })
}

/// Writes a tree with the texts of some Cells blanked, and counts its bytes: each byte of such a text other than a line feed is a dot, everything else is as it was. `nodes`
/// has the Cells' node numbers, in any order, repeats allowed; where it has none, every Cell is blanked. What is written is a tree alike to this one: of the same length, and
/// with the same sheet outside the texts' own bytes.
///
/// # Errors
/// [`BadTree`](Refusal::BadTree), [`BadText`](Refusal::BadText), [`TooManyNodes`](Refusal::TooManyNodes), [`TooDeep`](Refusal::TooDeep); [`NoLeaf`](Refusal::NoLeaf) where a
/// number names no Cell; [`TooShort`](Refusal::TooShort) where `out` has fewer bytes than the tree.
pub fn blank(tree: &[u8], nodes: &[u16], out: &mut [u8]) -> Result<usize, Refusal> {
    // SAFETY: pointers and lengths of slices that are borrowed here.
    answer(unsafe {
        raw::leg_blank(
            tree.as_ptr(),
            tree.len(),
            nodes.as_ptr(),
            nodes.len(),
            out.as_mut_ptr(),
            out.len(),
        )
    })
}

/// Reads a typed list and writes the bytes of its tree, [`TREE`] at the most, which every other call takes. Counts them. The settings are not part of a typed list.
///
/// # Errors
/// [`ListTooLong`](Refusal::ListTooLong); the first fault in reading order, [`BadCharacter`](Refusal::BadCharacter), [`BadEscape`](Refusal::BadEscape),
/// [`OddIndent`](Refusal::OddIndent), [`SecondRoot`](Refusal::SecondRoot), [`NoParent`](Refusal::NoParent), [`ListTooDeep`](Refusal::ListTooDeep),
/// [`ListTooMany`](Refusal::ListTooMany), [`ListTooLarge`](Refusal::ListTooLarge), [`ListEmpty`](Refusal::ListEmpty), with its line and column; [`TooShort`](Refusal::TooShort)
/// where `out` has fewer bytes than the tree.
pub fn read_typed(text: &[u8], out: &mut [u8]) -> Result<usize, TypedFault> {
    // SAFETY: pointers and lengths of slices that are borrowed here.
    let word =
        unsafe { raw::leg_read_typed(text.as_ptr(), text.len(), out.as_mut_ptr(), out.len()) };
    answer_or(word, TypedFault::of_word)
}

/// Cuts the list of the first `count` pieces at `width` and writes [`CUT`] numbers.
///
/// # Errors
/// [`TooShort`](Refusal::TooShort) where a list is too short, `pieces` among them; [`TooManyPieces`](Refusal::TooManyPieces).
pub fn short_splits3(
    pieces: &[u16],
    count: usize,
    width: u16,
    out: &mut [u16],
) -> Result<usize, Refusal> {
    // SAFETY: pointers and lengths of slices that are borrowed here.
    answer(unsafe {
        raw::leg_short_splits3(
            pieces.as_ptr(),
            pieces.len(),
            count,
            width,
            out.as_mut_ptr(),
            out.len(),
        )
    })
}

/// The same cut, with the list left written over the lent one, in its first 512 numbers, 0 past the count; writes [`LENT_CUT`] numbers to `out`.
///
/// # Errors
/// [`TooShort`](Refusal::TooShort) where a list is too short, `pieces` among them; [`TooManyPieces`](Refusal::TooManyPieces).
pub fn short_splits3_lent(
    pieces: &mut [u16],
    count: usize,
    width: u16,
    out: &mut [u16],
) -> Result<usize, Refusal> {
    // SAFETY: pointers and lengths of slices that are borrowed here.
    answer(unsafe {
        raw::leg_short_splits3_lent(
            pieces.as_mut_ptr(),
            pieces.len(),
            count,
            width,
            out.as_mut_ptr(),
            out.len(),
        )
    })
}

/// Cuts the list and writes the positions and the list left, [`LIST`] numbers each.
///
/// # Errors
/// [`TooShort`](Refusal::TooShort) where a list is too short, `pieces` among them; [`TooManyPieces`](Refusal::TooManyPieces).
pub fn short_splits(
    pieces: &[u16],
    count: usize,
    width: u16,
    positions: &mut [u32],
    left: &mut [u16],
) -> Result<usize, Refusal> {
    // SAFETY: pointers and lengths of slices that are borrowed here.
    answer(unsafe {
        raw::leg_short_splits(
            pieces.as_ptr(),
            pieces.len(),
            count,
            width,
            positions.as_mut_ptr(),
            positions.len(),
            left.as_mut_ptr(),
            left.len(),
        )
    })
}

/// Writes the part of `spare` that child `index` of `n` gets, and counts nothing. Priority 0 is First, 1 Last, every number over 1 List.
///
/// # Errors
/// [`NoChild`](Refusal::NoChild).
pub fn share(
    spare: usize,
    n: usize,
    priority: u8,
    index: usize,
    part: &mut u64,
) -> Result<usize, Refusal> {
    // SAFETY: a pointer to a number that is borrowed here.
    answer(unsafe { raw::leg_share(spare, n, priority, index, part) })
}
