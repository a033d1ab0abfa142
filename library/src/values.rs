//! The calls on values.

use crate::calls::{self, CUT, LENT_CUT, LIST};
use crate::input::Input;
use crate::plan::Plan;
use crate::records::{
    CutAnswer, CutParts, Folded, LeafPlace, LeafRecord, List, Marked, Need, Place, Planned,
    ShortParts, SizeRecord,
};
use crate::refusal::{PlacesRefusal, Refusal};
use crate::settings::{Priority, Settings};
use crate::tree::{self, Tree};

/// The call on the bytes of both.
fn on_bytes<T>(
    settings: &Settings,
    tree: &Tree,
    call: impl Fn(Input) -> Result<T, Refusal>,
) -> Result<T, Refusal> {
    call(Input {
        settings: &settings.to_bytes(),
        tree: &tree.to_bytes()?,
    })
}

/// The sheet with its margin: its lines with a line feed between them, none at the end.
///
/// ```
/// use leg_sheet::{print_sheet, Settings, Tree};
///
/// let tree = Tree::row(["1", "Home pad"]);
/// assert_eq!(
///     print_sheet(&Settings::default(), &tree)?,
///     "+---+----------+\n\
///      | 1 | Home pad |\n\
///      +---+----------+"
/// );
/// # Ok::<(), leg_sheet::Refusal>(())
/// ```
///
/// # Errors
/// [`BadTree`](Refusal::BadTree), [`BadText`](Refusal::BadText), [`TooManyNodes`](Refusal::TooManyNodes), [`TooDeep`](Refusal::TooDeep), [`TooLarge`](Refusal::TooLarge).
pub fn print_sheet(settings: &Settings, tree: &Tree) -> Result<String, Refusal> {
    on_bytes(settings, tree, |input| input.print_sheet())
}

/// The block of a leaf, by the number of its node: a parent is numbered before its children, these from left to right, from 0 on.
///
/// # Errors
/// [`BadTree`](Refusal::BadTree), [`BadText`](Refusal::BadText), [`TooManyNodes`](Refusal::TooManyNodes), [`TooDeep`](Refusal::TooDeep), [`TooLarge`](Refusal::TooLarge),
/// [`NoLeaf`](Refusal::NoLeaf).
pub fn print_leaf(settings: &Settings, tree: &Tree, node: usize) -> Result<String, Refusal> {
    on_bytes(settings, tree, |input| input.print_leaf(node))
}

/// The size of each node, by its number, and how many nodes are below it.
///
/// ```
/// use leg_sheet::{sizes, Settings, Tree};
///
/// let sizes = sizes(&Settings::default(), &Tree::row(["1", "Home pad"]))?;
/// let widths: Vec<u16> = sizes.iter().map(|size| size.allotted_width).collect();
/// assert_eq!(widths, [14, 3, 10]);
/// assert_eq!(sizes[0].below, 2);
/// # Ok::<(), leg_sheet::Refusal>(())
/// ```
///
/// # Errors
/// [`BadTree`](Refusal::BadTree), [`BadText`](Refusal::BadText), [`TooManyNodes`](Refusal::TooManyNodes), [`TooDeep`](Refusal::TooDeep).
pub fn sizes(settings: &Settings, tree: &Tree) -> Result<Vec<SizeRecord>, Refusal> {
    on_bytes(settings, tree, |input| input.sizes())
}

/// The record of a leaf, by the number of its node.
///
/// ```
/// use leg_sheet::{leaf_record, Settings, Tree};
///
/// let tree = Tree::column([Tree::row(["a", "b"]), "abcdef".into()]);
/// let leaf = leaf_record(&Settings::default(), &tree, 4)?;
/// assert_eq!((leaf.width, leaf.height), (8, 1));
/// assert_eq!(leaf.horizontal.len(), 2);
/// assert!(leaf.flags.last_row && !leaf.flags.first_row);
///
/// let tree = Tree::column([Tree::row(["aaaa", "b"]), Tree::row(["c", "dd"])]);
/// let leaf = leaf_record(&Settings::default(), &tree, 5)?;
/// assert_eq!((leaf.pair.taken, leaf.pair.rest), (0, 2));
/// # Ok::<(), leg_sheet::Refusal>(())
/// ```
///
/// # Errors
/// [`BadTree`](Refusal::BadTree), [`BadText`](Refusal::BadText), [`TooManyNodes`](Refusal::TooManyNodes), [`TooDeep`](Refusal::TooDeep), [`TooLarge`](Refusal::TooLarge),
/// [`NoLeaf`](Refusal::NoLeaf).
pub fn leaf_record(settings: &Settings, tree: &Tree, node: usize) -> Result<LeafRecord, Refusal> {
    on_bytes(settings, tree, |input| input.leaf_record(node))
}

/// The leaf of a place: of a line and a column of the sheet as [`print_sheet`] prints it, both counted from 0, the margin included. The byte there is that of the
/// leaf's block at the line and column answered.
///
/// ```
/// use leg_sheet::{place, print_leaf, print_sheet, Settings, Tree};
///
/// let settings = Settings::default();
/// let tree = Tree::row(["1", "Home pad"]);
/// let found = place(&settings, &tree, 1, 6)?;
/// assert_eq!((found.node, found.line, found.column), (2, 1, 2));
///
/// let byte = |text: &str, line: usize, column: usize| text.lines().nth(line).map(|line| line.as_bytes()[column]);
/// assert_eq!(byte(&print_sheet(&settings, &tree)?, 1, 6), Some(b'H'));
/// assert_eq!(byte(&print_leaf(&settings, &tree, 2)?, 1, 2), Some(b'H'));
/// # Ok::<(), leg_sheet::Refusal>(())
/// ```
///
/// # Errors
/// [`BadTree`](Refusal::BadTree), [`BadText`](Refusal::BadText), [`TooManyNodes`](Refusal::TooManyNodes), [`TooDeep`](Refusal::TooDeep), [`TooLarge`](Refusal::TooLarge),
/// [`OutsideSheet`](Refusal::OutsideSheet), [`InMargin`](Refusal::InMargin).
pub fn place(
    settings: &Settings,
    tree: &Tree,
    line: usize,
    column: usize,
) -> Result<LeafPlace, Refusal> {
    on_bytes(settings, tree, |input| input.place(line, column))
}

/// The leaves of up to 256 places, answered in one walk over the tree: in the order given, repeats allowed, each as [`place`] answers it alone.
///
/// ```
/// use leg_sheet::{place, places, Place, Refusal, Settings, Tree};
///
/// let (settings, tree) = (Settings::default(), Tree::row(["1", "Home pad"]));
/// let [pad, one] = [Place { line: 1, column: 6 }, Place { line: 1, column: 2 }];
/// let marked = places(&settings, &tree, &[pad, one, pad])?;
/// let nodes: Vec<usize> = marked.answers.iter().map(|leaf| leaf.node).collect();
/// assert_eq!((nodes, marked.read), (vec![2, 1, 2], 3));
/// assert_eq!(marked.answers[0], place(&settings, &tree, 1, 6)?);
///
/// let far = Place { line: usize::MAX, column: 0 };
/// let refused = places(&settings, &tree, &[pad, far]).unwrap_err();
/// assert_eq!((refused.refusal, refused.place), (Refusal::OutsideSheet, Some(1)));
/// # Ok::<(), Refusal>(())
/// ```
///
/// # Errors
/// [`BadTree`](Refusal::BadTree), [`BadText`](Refusal::BadText), [`TooManyNodes`](Refusal::TooManyNodes), [`TooDeep`](Refusal::TooDeep), [`TooLarge`](Refusal::TooLarge),
/// [`TooManyPlaces`](Refusal::TooManyPlaces), then the [`OutsideSheet`](Refusal::OutsideSheet) or [`InMargin`](Refusal::InMargin) of the first place that has one, with its index.
pub fn places(settings: &Settings, tree: &Tree, places: &[Place]) -> Result<Marked, PlacesRefusal> {
    on_bytes(settings, tree, |input| Ok(input.places(places)))?
}

/// A long list, a Column of 1 to 200 Cells, folded into Columns of one Row that is no wider inside than `width`: how many cells each has at the least height that was
/// tried and fits, with `budget` tries at the most. The sheet's edges and its margin are not counted. [`Tree::folded`] makes the Row.
///
/// ```
/// use leg_sheet::{fold, print_sheet, Settings, Tree};
///
/// let settings = Settings::default();
/// let list = Tree::column(["a", "b", "c", "d"]);
/// let folded = fold(&settings, &list, 7, usize::MAX)?;
/// assert_eq!((&folded.columns[..], folded.height), (&[2, 2][..], 3));
/// assert_eq!((folded.tries, folded.miss), (6, 0));
///
/// let row = list.folded(&folded.columns).expect("the list's own counts");
/// assert_eq!(
///     print_sheet(&settings, &row)?,
///     "+---+---+\n\
///      | a | c |\n\
///      +---+---+\n\
///      | b | d |\n\
///      +---+---+"
/// );
/// # Ok::<(), leg_sheet::Refusal>(())
/// ```
///
/// # Errors
/// [`BadTree`](Refusal::BadTree), [`BadText`](Refusal::BadText), [`TooManyNodes`](Refusal::TooManyNodes), [`TooDeep`](Refusal::TooDeep), [`NotAList`](Refusal::NotAList),
/// [`TooWide`](Refusal::TooWide).
pub fn fold(
    settings: &Settings,
    tree: &Tree,
    width: usize,
    budget: usize,
) -> Result<Folded, Refusal> {
    on_bytes(settings, tree, |input| input.fold(width, budget))
}

/// How large a sheet will be whose texts are not all known yet: whatever texts within the ranges are put in, its columns and lines, the margin included, are between
/// the ends, and each end is reached by some texts. A sheet too large to be printed is planned, too.
///
/// ```
/// use leg_sheet::{plan, Plan, Settings};
///
/// let name = Plan::range(2..=6, 1..=1);
/// let planned = plan(&Settings::default(), &Plan::column(["abcd".into(), name]))?;
/// assert_eq!((planned.width, planned.height), (8..=10, 5..=5));
/// # Ok::<(), leg_sheet::Refusal>(())
/// ```
///
/// # Errors
/// [`BadTree`](Refusal::BadTree), [`BadText`](Refusal::BadText), [`TooManyNodes`](Refusal::TooManyNodes), [`TooDeep`](Refusal::TooDeep), [`BadRange`](Refusal::BadRange).
pub fn plan(settings: &Settings, plan: &Plan) -> Result<Planned, Refusal> {
    let input = Input {
        settings: &settings.to_bytes(),
        tree: &plan.to_bytes()?,
    };
    input.plan()
}

/// Which Cell is nearest to widening the sheet: for each the fewest letters that, added to its longest line alone, make the sheet wider; the fewest first, equal ones by
/// node. Fewer letters in that Cell alone leave the width as it is. Empty Rows and Columns are not listed. A sheet too large to be printed has its list, too.
///
/// ```
/// use leg_sheet::{widen, Settings, Tree};
///
/// let tree = Tree::column(["abc".into(), Tree::row(["a", "b"])]);
/// let needs = widen(&Settings::default(), &tree)?;
/// let nearest: Vec<(usize, usize)> = needs.iter().map(|need| (need.node, need.letters)).collect();
/// assert_eq!(nearest, [(3, 1), (4, 1), (1, 3)]);
/// # Ok::<(), leg_sheet::Refusal>(())
/// ```
///
/// # Errors
/// [`BadTree`](Refusal::BadTree), [`BadText`](Refusal::BadText), [`TooManyNodes`](Refusal::TooManyNodes), [`TooDeep`](Refusal::TooDeep).
pub fn widen(settings: &Settings, tree: &Tree) -> Result<Vec<Need>, Refusal> {
    on_bytes(settings, tree, |input| input.widen())
}

/// The question paper of a key: the tree with the texts of these Cells, by their node numbers, blanked with dots; of every Cell where none is named. Line feeds stay, so that
/// the two trees are alike: under equal settings they are refused alike, and their sheets agree at every byte outside the texts.
///
/// ```
/// use leg_sheet::{blank, print_sheet, Refusal, Settings, Tree};
///
/// let key = Tree::column(["Q1: Vy?".into(), Tree::row(["54 kt", "6 s"])]);
/// let paper = blank(&key, &[3, 4])?;
/// assert_eq!(paper, Tree::column(["Q1: Vy?".into(), Tree::row([".....", "..."])]));
///
/// let sheet = |tree: &Tree| print_sheet(&Settings::default(), tree);
/// assert_eq!(sheet(&paper)?, sheet(&key)?.replace("54 kt", ".....").replace("6 s", "..."));
/// assert_eq!(blank(&key, &[2]), Err(Refusal::NoLeaf));
/// # Ok::<(), Refusal>(())
/// ```
///
/// # Errors
/// [`BadTree`](Refusal::BadTree), [`BadText`](Refusal::BadText), [`TooManyNodes`](Refusal::TooManyNodes), [`TooDeep`](Refusal::TooDeep), [`NoLeaf`](Refusal::NoLeaf).
pub fn blank(tree: &Tree, nodes: &[usize]) -> Result<Tree, Refusal> {
    Tree::from_bytes(&tree::blanked(&tree.unread(), nodes)?)
}

/// Cuts a list of pieces at a width, a line between neighbours.
///
/// ```
/// let cut = leg_sheet::short_splits3(&[4, 2], 5)?;
/// assert_eq!((cut.split, &cut.taken[..], &cut.left[..]), (false, &[4][..], &[1][..]));
/// assert_eq!((cut.pair.taken, cut.pair.rest), (1, 1));
/// # Ok::<(), leg_sheet::Refusal>(())
/// ```
///
/// # Errors
/// [`TooManyPieces`](Refusal::TooManyPieces).
pub fn short_splits3(pieces: &[u16], width: u16) -> Result<CutParts, Refusal> {
    let mut out = [0; CUT];
    calls::short_splits3(pieces, pieces.len(), width, &mut out)?;
    Ok(CutParts::from_numbers(&out))
}

/// The same cut, with the list shortened to what is left of it.
///
/// ```
/// let mut pieces = vec![4, 2];
/// let cut = leg_sheet::short_splits3_in_place(&mut pieces, 5)?;
/// assert_eq!((&cut.taken[..], pieces), (&[4][..], vec![1]));
/// # Ok::<(), leg_sheet::Refusal>(())
/// ```
///
/// # Errors
/// [`TooManyPieces`](Refusal::TooManyPieces), and the list stays.
pub fn short_splits3_in_place(pieces: &mut Vec<u16>, width: u16) -> Result<CutAnswer, Refusal> {
    let mut out = [0; LENT_CUT];
    let count = pieces.len();
    calls::short_splits3_lent(pieces, count, width, &mut out)?;
    let answer = CutAnswer::from_numbers(&out);
    pieces.truncate(answer.left);
    Ok(answer)
}

/// Cuts a list of pieces at a width, and lists the position after each.
///
/// ```
/// let cut = leg_sheet::short_splits(&[3, 3, 5], 8)?;
/// assert_eq!((&cut.positions[..], &cut.left[..]), (&[3, 6][..], &[3][..]));
/// # Ok::<(), leg_sheet::Refusal>(())
/// ```
///
/// # Errors
/// [`TooManyPieces`](Refusal::TooManyPieces).
pub fn short_splits(pieces: &[u16], width: u16) -> Result<ShortParts, Refusal> {
    let (mut positions, mut left) = ([0; LIST], [0; LIST]);
    calls::short_splits(pieces, pieces.len(), width, &mut positions, &mut left)?;
    Ok(ShortParts {
        positions: List::from_numbers(&positions),
        left: List::from_numbers(&left),
    })
}

/// The part of the spare space that child `index` of `n` gets.
///
/// ```
/// use leg_sheet::{share, Priority};
///
/// assert_eq!(share(7, 3, Priority::List, 0)?, 3);
/// # Ok::<(), leg_sheet::Refusal>(())
/// ```
///
/// # Errors
/// [`NoChild`](Refusal::NoChild).
pub fn share(spare: usize, n: usize, priority: Priority, index: usize) -> Result<usize, Refusal> {
    let mut part = 0;
    calls::share(spare, n, priority as u8, index, &mut part)?;
    Ok(part as usize)
}
