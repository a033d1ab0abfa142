//! The refusals of documents 01 and 02: from arbitrary bytes to the number that their table gives each call. It follows the documents' sentences
//! and shares no code with the crate or the port.

use crate::folding;
use crate::form::{Margin, Settings, Size, Tree};
use crate::paper;
use crate::planning;
use crate::widening;

pub const TREE_BYTES: usize = 32_768;
pub const NODES: usize = 512;
pub const DEPTH: usize = 16;
pub const SHEET_WIDTH: usize = 400;
pub const SHEET_HEIGHT: usize = 160;
pub const PIECES: usize = 512;
pub const PLACES: usize = 256;
pub const CELLS: usize = 200;

/// 'Each is hex 20 to 7E.'
fn is_mark(byte: u8) -> bool {
    (0x20..=0x7E).contains(&byte)
}

/// 'Fifteen zero bytes as marks now mean none at all; a mixture is still 1' (document 02, 13).
fn are_marks(marks: [u8; 15]) -> bool {
    marks == [0; 15] || marks.into_iter().all(is_mark)
}

/// The bytes of the first settings field and of the second.
const FIELDS: [usize; 2] = [31, 11];

/// The sheet program's input. 'Settings (the first 31 bytes, or all if there are fewer) then tree'; 'a hex 11 after the first field starts
/// [the second], and that byte and the ten after it, or all there are if fewer, are the field'.
pub fn split(input: &[u8]) -> (&[u8], &[u8]) {
    let [first, second] = FIELDS;
    let settings = match input.get(first) {
        Some(0x11) => first + second,
        _ => first,
    };
    input.split_at(settings.min(input.len()))
}

/// The margin of document 02's field: 'hex tag 11, length 8, four sizes and four fills, in the padding's order and ranges'. Without the field
/// there is none; else 1.
fn read_margin(field: &[u8]) -> Result<Margin, u8> {
    let margin = match *field {
        [] => Margin::NONE,
        [0x11, 0, 8, left, right, top, bottom, a, b, c, d] => Margin {
            sizes: [left, right, top, bottom],
            fills: [a, b, c, d],
        },
        _ => return Err(1),
    };
    let is_good = margin.sizes.iter().all(|&size| size <= 16)
        && margin.fills.iter().all(|&fill| is_mark(fill));
    if is_good {
        Ok(margin)
    } else {
        Err(1)
    }
}

/// The settings, or 1.
pub fn read_settings(bytes: &[u8]) -> Result<Settings, u8> {
    let (first, second) = bytes.split_at_checked(FIELDS[0]).ok_or(1)?;
    let [0x10, 0, 28, record @ ..] = first else {
        return Err(1);
    };

    let settings = Settings {
        marks: record[..15].try_into().expect("15 marks"),
        padding: record[15..19].try_into().expect("4 sizes"),
        fills: record[19..23].try_into().expect("4 fills"),
        horizontal: record[23],
        vertical: record[24],
        line_mode: record[25],
        width_priority: record[26],
        height_priority: record[27],
        margin: read_margin(second)?,
    };
    let is_good = are_marks(settings.marks)
        && settings.padding.iter().all(|&size| size <= 16)
        && settings.fills.iter().all(|&fill| is_mark(fill))
        && settings.horizontal <= 2
        && settings.vertical <= 2
        && settings.line_mode <= 1
        && settings.width_priority <= 2
        && settings.height_priority <= 2;
    if is_good {
        Ok(settings)
    } else {
        Err(1)
    }
}

struct Reader<'a> {
    bytes: &'a [u8],
    /// The node that comes next.
    node: usize,
}

impl Reader<'_> {
    /// The element that starts at `at` in a container that ends at `end`, and where it ends.
    fn element(&mut self, at: usize, end: usize, depth: usize) -> Result<(Tree, usize), u8> {
        let node = self.node;
        self.node += 1;

        // 2
        if node == 0 && self.bytes.len() > TREE_BYTES {
            return Err(2);
        }
        if end - at < 3 {
            return Err(2);
        }
        let tag = self.bytes[at];
        let length = usize::from(self.bytes[at + 1]) * 256 + usize::from(self.bytes[at + 2]);
        let (start, stop) = (at + 3, at + 3 + length);
        if !(1..=3).contains(&tag) || stop > end {
            return Err(2);
        }
        if node == 0 && stop != self.bytes.len() {
            return Err(2);
        }

        // 5, then 4
        if depth > DEPTH {
            return Err(5);
        }
        if node >= NODES {
            return Err(4);
        }

        // 3
        if tag == 1 {
            let text = &self.bytes[start..stop];
            if text.iter().any(|&byte| !is_mark(byte) && byte != 0x0A) {
                return Err(3);
            }
            return Ok((Tree::Cell(text.to_vec()), stop));
        }

        let children = self.sequence(start, stop, depth + 1)?;
        if tag == 2 {
            Ok((Tree::Row(children), stop))
        } else {
            Ok((Tree::Column(children), stop))
        }
    }

    fn sequence(&mut self, start: usize, end: usize, depth: usize) -> Result<Vec<Tree>, u8> {
        let mut children = Vec::new();
        let mut at = start;
        while at < end {
            let (child, stop) = self.element(at, end, depth)?;
            children.push(child);
            at = stop;
        }
        Ok(children)
    }
}

/// The tree, or 2 to 5.
pub fn read_tree(bytes: &[u8]) -> Result<Tree, u8> {
    let mut reader = Reader { bytes, node: 0 };
    let (tree, _) = reader.element(0, bytes.len(), 1)?;
    Ok(tree)
}

/// What every call on sizes, leaves or sheets reads first.
#[derive(Debug)]
pub struct Read {
    pub settings: Settings,
    pub tree: Tree,
    pub sizes: Vec<Size>,
}

/// The settings and the tree, or 1 to 5.
pub fn read(settings: &[u8], tree: &[u8]) -> Result<Read, u8> {
    let settings = read_settings(settings)?;
    let tree = read_tree(tree)?;
    let sizes = paper::sizes(&settings, &tree);
    Ok(Read {
        settings,
        tree,
        sizes,
    })
}

/// A leaf of an accepted tree, as far as the refusals need it.
struct LeafNode {
    node: usize,
    last_row: bool,
    last_col: bool,
}

/// The leaves' node numbers, in order.
pub fn leaves(tree: &Tree) -> Vec<usize> {
    leaf_nodes(tree).iter().map(|leaf| leaf.node).collect()
}

/// The leaves in node order, each with the two flags that its block's bytes depend on.
fn leaf_nodes(tree: &Tree) -> Vec<LeafNode> {
    fn put(
        tree: &Tree,
        node: &mut usize,
        last_row: bool,
        last_col: bool,
        list: &mut Vec<LeafNode>,
    ) {
        let number = *node;
        *node += 1;
        let children = tree.children();
        if children.is_empty() {
            list.push(LeafNode {
                node: number,
                last_row,
                last_col,
            });
        }
        for (i, child) in children.iter().enumerate() {
            let last = i == children.len() - 1;
            let (row, col) = match tree {
                Tree::Row(_) => (last_row, last_col && last),
                _ => (last_row && last, last_col),
            };
            put(child, node, row, col, list);
        }
    }

    let mut list = Vec::new();
    put(tree, &mut 0, true, true, &mut list);
    list
}

impl Read {
    /// W and H.
    pub fn rectangle(&self) -> (usize, usize) {
        paper::rectangle(&self.settings, &self.sizes)
    }

    /// 6.
    fn fits(&self) -> Result<(), u8> {
        let (w, h) = self.rectangle();
        if w > SHEET_WIDTH || h > SHEET_HEIGHT {
            return Err(6);
        }
        Ok(())
    }

    /// '12 for a line or column outside the printed sheet, 13 for a place in the margin.' Lines and columns 'count from 0 in the sheet as printed, margin included'.
    pub fn place(&self, line: usize, column: usize) -> Result<(), u8> {
        let (w, h) = self.rectangle();
        if line >= h || column >= w {
            return Err(12);
        }
        let [left, right, top, bottom] = self.settings.margin.sizes.map(usize::from);
        let is_inside = (top..h - bottom).contains(&line) && (left..w - right).contains(&column);
        if is_inside {
            Ok(())
        } else {
            Err(13)
        }
    }

    /// '14 for a list over 256, .. before any place is looked at'; 'the first place that would be refused alone refuses the list'; 'a short answer list is 8, after
    /// the places'.
    pub fn places(&self, places: &[(usize, usize)], list: usize) -> Result<(), u8> {
        if places.len() > PLACES {
            return Err(14);
        }
        for &(line, column) in places {
            self.place(line, column)?;
        }
        if list < places.len() {
            return Err(8);
        }
        Ok(())
    }

    /// The cells of a flat list: '15 for a root or child of another kind, no cells or over 200'.
    pub fn cells(&self) -> Result<&[Tree], u8> {
        match &self.tree {
            Tree::Column(cells)
                if (1..=CELLS).contains(&cells.len())
                    && cells.iter().all(|cell| matches!(cell, Tree::Cell(_))) =>
            {
                Ok(cells)
            }
            _ => Err(15),
        }
    }

    /// '16 for a cell wider than the given width', its padding included: the Row has its width from these.
    pub fn within(&self, width: usize) -> Result<(), u8> {
        let mut cells = self.sizes[1..].iter();
        if cells.any(|cell| cell.natural_width > width) {
            return Err(16);
        }
        Ok(())
    }

    /// The leaf that a number names, or 9.
    fn leaf(&self, node: usize) -> Result<LeafNode, u8> {
        let mut leaves = leaf_nodes(&self.tree).into_iter();
        leaves.find(|leaf| leaf.node == node).ok_or(9)
    }

    /// The bytes of the sheet: '(W + 1) × H − 1'.
    pub fn sheet_bytes(&self) -> usize {
        let (w, h) = self.rectangle();
        (w + 1) * h - 1
    }

    /// The bytes of a leaf's block: lines of 1 + allotted width columns, one more under last_col; 1 + allotted height of them,
    /// one more under last_row; joined by 0A. Without lines it has neither 'the 1' nor 'the one more' (document 02, 13).
    fn block_bytes(&self, leaf: &LeafNode) -> usize {
        let size = self.sizes[leaf.node];
        let edges = |is_last: bool| paper::separator(&self.settings) * (1 + usize::from(is_last));
        let columns = size.allotted_width + edges(leaf.last_col);
        let lines = size.allotted_height + edges(leaf.last_row);
        (columns + 1) * lines - 1
    }
}

fn number<T>(result: Result<T, u8>) -> u8 {
    result.map_or_else(|number| number, |_| 0)
}

pub fn settings(settings: &[u8]) -> u8 {
    number(read_settings(settings))
}

pub fn tree(tree: &[u8]) -> u8 {
    number(read_tree(tree))
}

/// The size collector, lent a list of this many entries.
pub fn sizes(settings: &[u8], tree: &[u8], list: usize) -> u8 {
    number(read(settings, tree).and_then(|read| {
        if list < read.sizes.len() {
            return Err(8);
        }
        Ok(())
    }))
}

/// The leaf record.
pub fn leaf_record(settings: &[u8], tree: &[u8], node: usize) -> u8 {
    number(read(settings, tree).and_then(|read| {
        read.fits()?;
        read.leaf(node)
    }))
}

/// The leaf printer, lent this many bytes.
pub fn leaf(settings: &[u8], tree: &[u8], node: usize, output: usize) -> u8 {
    number(read(settings, tree).and_then(|read| {
        read.fits()?;
        let leaf = read.leaf(node)?;
        if output < read.block_bytes(&leaf) {
            return Err(8);
        }
        Ok(())
    }))
}

/// The bytes that the leaf printer needs, where it gets so far.
pub fn leaf_bytes(settings: &[u8], tree: &[u8], node: usize) -> Option<usize> {
    let read = read(settings, tree).ok()?;
    read.fits().ok()?;
    let leaf = read.leaf(node).ok()?;
    Some(read.block_bytes(&leaf))
}

/// The sheet printer, lent this many bytes.
pub fn sheet(settings: &[u8], tree: &[u8], output: usize) -> u8 {
    number(shown(settings, tree).and_then(|read| {
        if output < read.sheet_bytes() {
            return Err(8);
        }
        Ok(())
    }))
}

/// What the sheet printer and the calls on places read first: a sheet that can be printed, or 1 to 6. 'Refusal 7 never occurs' (document 02, 8).
pub fn shown(settings: &[u8], tree: &[u8]) -> Result<Read, u8> {
    let read = read(settings, tree)?;
    read.fits()?;
    Ok(read)
}

/// The leaf of a place: '12 .. 13 .. both after 6 and 7'.
pub fn place(settings: &[u8], tree: &[u8], line: usize, column: usize) -> u8 {
    number(shown(settings, tree).and_then(|read| read.place(line, column)))
}

/// The leaves of many places, lent a list of this many answers: '14 .. after 7'.
pub fn places(settings: &[u8], tree: &[u8], places: &[(usize, usize)], list: usize) -> u8 {
    number(shown(settings, tree).and_then(|read| read.places(places, list)))
}

/// The fold of a list, lent this many entries: '15 .., then 16 ..; these come after 2 to 5, and a short answer list is 8, after them'.
pub fn fold(settings: &[u8], tree: &[u8], width: usize, budget: usize, list: usize) -> u8 {
    number(read(settings, tree).and_then(|read| {
        let cells = read.cells()?;
        read.within(width)?;
        let folds = folding::folds(&read.settings, cells);
        if list < folding::chosen(&folds, width, budget).fold.columns.len() {
            return Err(8);
        }
        Ok(())
    }))
}

/// The plan of a sheet.
pub fn plan(settings: &[u8], tree: &[u8]) -> u8 {
    number(planning::read(settings, tree))
}

/// The letters that widen a sheet, lent this many entries for the nodes and for the numbers: 'a short list is 8'. There is no 6: 'the limits on W and the tree's bytes put
/// aside'.
pub fn widen(settings: &[u8], tree: &[u8], nodes: usize, letters: usize) -> u8 {
    number(read(settings, tree).and_then(|read| {
        if nodes.min(letters) < widening::cells(&read.tree).len() {
            return Err(8);
        }
        Ok(())
    }))
}

/// Either cut of a list with this many pieces.
pub fn cut(count: usize) -> u8 {
    if count > PIECES {
        10
    } else {
        0
    }
}

/// Either cut of the first `count` of this many lent pieces, as in C; `lists` says of each list that it writes how long it is and how long it must be. 'Calls check in table
/// order', which has 8 above 10.
pub fn lent_cut(count: usize, pieces: usize, lists: &[(usize, usize)]) -> u8 {
    if pieces < count || lists.iter().any(|&(length, needed)| length < needed) {
        8
    } else {
        cut(count)
    }
}

/// The sharing helper.
pub fn share(n: usize, index: usize) -> u8 {
    if n == 0 || index >= n {
        11
    } else {
        0
    }
}
