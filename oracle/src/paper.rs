//! The words of documents 01 and 02 as plain Rust: sizes, sharing, cuts, flags, blocks, the sheet and its margin. It follows the documents'
//! sentences and shares no code with the crate or the port, so that the crate and the documents can be compared by running. The headings
//! are document 01's.

use crate::form::{Answer, Cut, Cut3, CutPair, Flags, Leaf, Owner, Owners, Settings, Size, Tree};

/// A tree laid out by node number.
struct Nodes<'a> {
    trees: Vec<&'a Tree>,
    /// The children's numbers.
    children: Vec<Vec<usize>>,
}

impl<'a> Nodes<'a> {
    /// 'Nodes are numbered from 0, parent before children, left to right.'
    fn of(tree: &'a Tree) -> Self {
        fn put<'a>(nodes: &mut Nodes<'a>, tree: &'a Tree) -> usize {
            let number = nodes.trees.len();
            nodes.trees.push(tree);
            nodes.children.push(Vec::new());
            for child in tree.children() {
                let child = put(nodes, child);
                nodes.children[number].push(child);
            }
            number
        }

        let mut nodes = Nodes {
            trees: Vec::new(),
            children: Vec::new(),
        };
        put(&mut nodes, tree);
        nodes
    }

    /// 'A Row or Column without children is a leaf', as is a Cell.
    fn is_leaf(&self, node: usize) -> bool {
        self.children[node].is_empty()
    }

    fn is_row(&self, node: usize) -> bool {
        matches!(self.trees[node], Tree::Row(_))
    }

    /// The text of a leaf: 'Empty Row or Column: as a Cell with empty text.'
    fn text(&self, node: usize) -> &'a [u8] {
        match self.trees[node] {
            Tree::Cell(text) => text,
            Tree::Row(_) | Tree::Column(_) => &[],
        }
    }
}

/// The separator's width: 1, and 0 without lines (document 02, 13), where 'no separators are counted and no marks printed'. It 'stands for the one column and one line of
/// demand 3, the 1 in each start, and the 1 and the one more of a block's lines and columns'.
pub fn separator(settings: &Settings) -> usize {
    usize::from(settings.marks != [0; 15])
}

// Size records

/// 'Lines are split at each 0A, so a last 0A gives an empty last line.'
fn lines(text: &[u8]) -> Vec<&[u8]> {
    text.split(|&byte| byte == 0x0A).collect()
}

/// 'Width is the longest line.'
fn width(text: &[u8]) -> usize {
    lines(text).iter().map(|line| line.len()).max().unwrap_or(0)
}

/// 'Line count is 0A bytes plus 1.'
fn count(text: &[u8]) -> usize {
    text.iter().filter(|&&byte| byte == 0x0A).count() + 1
}

fn padding(settings: &Settings) -> [usize; 4] {
    settings.padding.map(usize::from)
}

/// 'First and Last give it all to that child. List gives spare ÷ n to each, and one more to the first (spare mod n).' A number over 1 is List: the document's table refuses none.
pub fn share(spare: usize, n: usize, priority: u8, index: usize) -> usize {
    match priority {
        0 if index == 0 => spare,
        1 if index == n - 1 => spare,
        0 | 1 => 0,
        _ => spare / n + usize::from(index < spare % n),
    }
}

/// The five numbers of each node.
pub fn sizes(settings: &Settings, tree: &Tree) -> Vec<Size> {
    sizes_of(settings, &Nodes::of(tree))
}

fn sizes_of(settings: &Settings, nodes: &Nodes) -> Vec<Size> {
    let [left, right, top, bottom] = padding(settings);
    let mut sizes = vec![Size::default(); nodes.trees.len()];

    // Children have greater numbers than their parent: natural sizes from the last node back.
    for node in (0..sizes.len()).rev() {
        let children: Vec<Size> = nodes.children[node].iter().map(|&c| sizes[c]).collect();
        let widths = children.iter().map(|size| size.natural_width);
        let heights = children.iter().map(|size| size.natural_height);
        let separators = children.len().saturating_sub(1) * separator(settings);
        let (width, height) = if nodes.is_leaf(node) {
            let text = nodes.text(node);
            (width(text) + left + right, count(text) + top + bottom)
        } else if nodes.is_row(node) {
            (
                widths.sum::<usize>() + separators,
                heights.max().unwrap_or(0),
            )
        } else {
            (
                widths.max().unwrap_or(0),
                heights.sum::<usize>() + separators,
            )
        };
        sizes[node].natural_width = width;
        sizes[node].natural_height = height;
    }

    // Each node is one below its parent, its parent's parent, and so on up to the root.
    let mut parents = vec![None; sizes.len()];
    for node in 0..sizes.len() {
        for &child in &nodes.children[node] {
            parents[child] = Some(node);
        }
        let mut above = parents[node];
        while let Some(parent) = above {
            sizes[parent].below += 1;
            above = parents[parent];
        }
    }

    // 'The root is allotted its natural size.'
    sizes[0].allotted_width = sizes[0].natural_width;
    sizes[0].allotted_height = sizes[0].natural_height;
    for node in 0..sizes.len() {
        let size = sizes[node];
        let n = nodes.children[node].len();
        for (i, &child) in nodes.children[node].iter().enumerate() {
            if nodes.is_row(node) {
                let spare = size.allotted_width - size.natural_width;
                let part = share(spare, n, settings.width_priority, i);
                sizes[child].allotted_width = sizes[child].natural_width + part;
                sizes[child].allotted_height = size.allotted_height;
            } else {
                let spare = size.allotted_height - size.natural_height;
                let part = share(spare, n, settings.height_priority, i);
                sizes[child].allotted_height = sizes[child].natural_height + part;
                sizes[child].allotted_width = size.allotted_width;
            }
        }
    }

    sizes
}

// Split lists

/// The walk of both cuts: how many pieces are taken, and the position then. `step` is what a piece adds beside itself.
fn walk(list: &[usize], width: usize, step: usize) -> (usize, usize) {
    let mut position = 0;
    let mut taken = 0;
    while taken < list.len() && position + list[taken] < width {
        position += list[taken] + step;
        taken += 1;
    }
    (taken, position)
}

/// `short_splits3`.
pub fn cut3(list: &[usize], width: usize) -> Cut3 {
    let (count, position) = walk(list, width, 1);
    let mut left = list[count..].to_vec();
    let mut yes = false;
    let mut rest = 0;
    if let Some(first) = left.first_mut() {
        *first -= width - position;
        if *first == 0 {
            left.remove(0);
            yes = true;
        } else {
            *first -= 1;
            rest = *first;
        }
    }

    Cut3 {
        yes,
        taken: list[..count].to_vec(),
        left,
        pair: CutPair { taken: count, rest },
    }
}

/// `short_splits`, and `squash_splits`, which 'then adds each entry's index'.
pub fn cut(list: &[usize], width: usize) -> Cut {
    let (count, position) = walk(list, width, 0);
    let mut left = list[count..].to_vec();
    if let Some(first) = left.first_mut() {
        *first -= width - position;
    }

    let positions: Vec<usize> = (1..=count).map(|n| list[..n].iter().sum()).collect();
    let squashed = positions.iter().enumerate().map(|(i, at)| at + i).collect();
    Cut {
        positions,
        squashed,
        left,
    }
}

// Leaf record

/// 'Root: first and last row and column yes, others no.'
const ROOT: Flags = Flags {
    first_row: true,
    last_row: true,
    first_col: true,
    last_col: true,
    no_right: false,
    lean_top: false,
    top_left: false,
    top_intersection: false,
};

/// The flags of child i of n.
fn child_flags(is_row: bool, parent: Flags, i: usize, n: usize, previous: bool) -> Flags {
    let (first, last) = (i == 0, i == n - 1);
    let mut flags = parent;
    if is_row {
        flags.first_col = parent.first_col && first;
        flags.last_col = parent.last_col && last;
        flags.no_right = !flags.last_col;
        flags.lean_top = !flags.first_col;
        flags.top_left = parent.top_left && first;
    } else {
        flags.first_row = parent.first_row && first;
        flags.lean_top = parent.lean_top && first;
        flags.last_row = parent.last_row && last;
        flags.top_left = parent.top_left || !first;
    }
    if !first {
        flags.top_intersection = previous;
    }
    flags
}

struct Walk<'a> {
    settings: &'a Settings,
    nodes: Nodes<'a>,
    sizes: Vec<Size>,
    leaves: Vec<Leaf>,
}

impl Walk<'_> {
    /// The node, with the pair of the cut that its parent made for it. Answers the horizontal and the vertical list that it gives back.
    fn node(
        &mut self,
        node: usize,
        flags: Flags,
        pair: CutPair,
        horizontal: Vec<usize>,
        vertical: Vec<usize>,
    ) -> (Vec<usize>, Vec<usize>) {
        let size = self.sizes[node];
        if self.nodes.is_leaf(node) {
            let mut leaf = Leaf {
                node,
                width: size.allotted_width,
                height: size.allotted_height,
                horizontal,
                vertical,
                flags,
                pair,
                block: Vec::new(),
            };
            leaf.block = block(self.settings, &leaf, self.nodes.text(node));
            self.leaves.push(leaf);
            return (vec![size.allotted_width], vec![size.allotted_height]);
        }

        // The list that is cut and joined, and the one that goes from child to child.
        let is_row = self.nodes.is_row(node);
        let (mut along, mut across) = if is_row {
            (horizontal, vertical)
        } else {
            (vertical, horizontal)
        };
        let mut joined = Vec::new();
        let mut previous = false;
        let children = self.nodes.children[node].clone();
        for (i, &child) in children.iter().enumerate() {
            let flags = child_flags(is_row, flags, i, children.len(), previous);
            let size = self.sizes[child];
            let back;
            if is_row {
                let cut = cut3(&along, size.allotted_width);
                (previous, along) = (cut.yes, cut.left);
                (back, across) = self.node(child, flags, cut.pair, cut.taken, across);
            } else {
                let cut = cut3(&along, size.allotted_height);
                (previous, along) = (cut.yes, cut.left);
                (across, back) = self.node(child, flags, cut.pair, across, cut.taken);
            }
            joined.extend(back);
        }

        if is_row {
            (joined, across)
        } else {
            (across, joined)
        }
    }
}

// Block and sheet

/// Before the text: 0 none of the slack, 1 'the floor of half the slack', 2 all.
fn indent(alignment: u8, slack: usize) -> usize {
    match alignment {
        0 => 0,
        1 => slack / 2,
        _ => slack,
    }
}

/// The lines of the indent above the padding and the text, and of the one below, in a leaf of this height.
fn indents(settings: &Settings, height: usize, text: &[u8]) -> (usize, usize) {
    let [_, _, top, bottom] = padding(settings);
    let slack = height - top - bottom - count(text);
    let before = indent(settings.vertical, slack);
    (before, slack - before)
}

/// Where a line of a text begins between the marks of a leaf of this width: behind the left fill and the indent. 'Line mode 0 indents all lines as the widest; 1 each by its
/// own width.'
fn line_start(settings: &Settings, leaf: usize, text: &[u8], line: &[u8]) -> usize {
    let [left, right, _, _] = padding(settings);
    let widest = if settings.line_mode == 0 {
        width(text)
    } else {
        line.len()
    };
    left + indent(settings.horizontal, leaf - left - right - widest)
}

/// What is between the marks, line by line: 'top indent (spaces), top padding (its fill), text, bottom padding, bottom indent'.
fn body(settings: &Settings, leaf: &Leaf, text: &[u8]) -> Vec<Vec<u8>> {
    let [pad_left, pad_right, pad_top, pad_bottom] = padding(settings);
    let [fill_left, fill_right, fill_top, fill_bottom] = settings.fills;
    let (above, below) = indents(settings, leaf.height, text);
    let plain = |byte: u8, count: usize| vec![vec![byte; leaf.width]; count];
    let line = |line: &[u8]| {
        let mut columns = vec![b' '; leaf.width];
        let start = line_start(settings, leaf.width, text, line);
        columns[..pad_left].fill(fill_left);
        columns[start..start + line.len()].copy_from_slice(line);
        columns[leaf.width - pad_right..].fill(fill_right);
        columns
    };

    let mut body = plain(b' ', above);
    body.extend(plain(fill_top, pad_top));
    body.extend(lines(text).into_iter().map(line));
    body.extend(plain(fill_bottom, pad_bottom));
    body.extend(plain(b' ', below));
    body
}

/// The marks at the top left, the top right and the bottom left of a block.
fn corners(settings: &Settings, flags: Flags) -> [u8; 3] {
    let [.., top_left, top_right, top_intersection, bottom_left, _, bottom_intersection, left_intersection, right_intersection, intersection] =
        settings.marks;
    let top_left_mark = if flags.top_intersection {
        intersection
    } else if flags.top_left {
        left_intersection
    } else if flags.lean_top {
        top_intersection
    } else if flags.first_col && !flags.first_row {
        left_intersection
    } else {
        top_left
    };
    let top_right_mark = if flags.first_row {
        top_right
    } else {
        right_intersection
    };
    let bottom_left_mark = if flags.first_col {
        bottom_left
    } else {
        bottom_intersection
    };
    [top_left_mark, top_right_mark, bottom_left_mark]
}

/// The block of a leaf. Without lines it is what is between the marks: 'no marks printed' (document 02, 13).
fn block(settings: &Settings, leaf: &Leaf, text: &[u8]) -> Vec<u8> {
    let body = body(settings, leaf, text);
    if separator(settings) == 0 {
        return body.join(&0x0A);
    }
    let [top, bottom, left, right, _, _, _, _, _, _, bottom_right, bottom_intersection, _, right_intersection, _] =
        settings.marks;
    let [top_left, top_right, bottom_left] = corners(settings, leaf.flags);
    let named_columns = cut(&leaf.horizontal, leaf.width).squashed;
    let named_lines = cut(&leaf.vertical, leaf.height).squashed;

    let mut lines = Vec::new();
    let mut line = |left: u8, middle: &[u8], right: u8| {
        let right = leaf.flags.last_col.then_some(right);
        let marked = [left].into_iter().chain(middle.iter().copied());
        lines.push(marked.chain(right).collect::<Vec<u8>>());
    };
    let named = |names: &[usize], at: usize, yes: u8, no: u8| match names.contains(&at) {
        true => yes,
        false => no,
    };
    let top_line: Vec<u8> = (0..leaf.width)
        .map(|column| named(&named_columns, column, bottom_intersection, top))
        .collect();
    line(top_left, &top_line, top_right);
    for (i, middle) in body.iter().enumerate() {
        let mark = named(&named_lines, i, right_intersection, left);
        line(mark, middle, right);
    }
    if leaf.flags.last_row {
        line(bottom_left, &vec![bottom; leaf.width], bottom_right);
    }
    lines.join(&0x0A)
}

/// Each node's line and column.
fn starts(settings: &Settings, nodes: &Nodes, sizes: &[Size]) -> Vec<(usize, usize)> {
    let separator = separator(settings);
    let mut starts = vec![(0, 0); sizes.len()];
    for node in 0..sizes.len() {
        let (mut line, mut column) = starts[node];
        for &child in &nodes.children[node] {
            starts[child] = (line, column);
            if nodes.is_row(node) {
                column += sizes[child].allotted_width + separator;
            } else {
                line += sizes[child].allotted_height + separator;
            }
        }
    }
    starts
}

/// The columns and lines of the rectangle inside the margin. Without lines they 'lose their 2' (document 02, 13).
fn inside(settings: &Settings, sizes: &[Size]) -> (usize, usize) {
    let edges = 2 * separator(settings);
    (
        sizes[0].natural_width + edges,
        sizes[0].natural_height + edges,
    )
}

/// W and H, which 'include the margin'.
pub fn rectangle(settings: &Settings, sizes: &[Size]) -> (usize, usize) {
    let [left, right, top, bottom] = settings.margin.sizes.map(usize::from);
    let (w, h) = inside(settings, sizes);
    (left + w + right, top + h + bottom)
}

/// The lines of the rectangle inside the margin by placing. Panics unless each place is covered once.
fn placed(settings: &Settings, nodes: &Nodes, sizes: &[Size], leaves: &[Leaf]) -> Vec<Vec<u8>> {
    let (w, h) = inside(settings, sizes);
    let starts = starts(settings, nodes, sizes);
    let mut places = vec![vec![None; w]; h];
    for leaf in leaves {
        let (line, column) = starts[leaf.node];
        for (i, bytes) in lines(&leaf.block).iter().enumerate() {
            for (j, &byte) in bytes.iter().enumerate() {
                let place = &mut places[line + i][column + j];
                assert_eq!(place.replace(byte), None, "a place is covered twice");
            }
        }
    }

    places
        .into_iter()
        .map(|line| {
            line.into_iter()
                .map(|place| place.expect("a place is not covered"))
                .collect()
        })
        .collect()
}

/// The sheet place by place. 'Top and bottom lines have the left and right fills at their ends', so a place of the margin is looked for at the left
/// and the right first.
fn sheet(settings: &Settings, nodes: &Nodes, sizes: &[Size], leaves: &[Leaf]) -> Vec<u8> {
    let [left, _, top, _] = settings.margin.sizes.map(usize::from);
    let [fill_left, fill_right, fill_top, fill_bottom] = settings.margin.fills;
    let (inside_w, inside_h) = inside(settings, sizes);
    let placed = placed(settings, nodes, sizes, leaves);
    let byte = |line: usize, column: usize| {
        if column < left {
            fill_left
        } else if column >= left + inside_w {
            fill_right
        } else if line < top {
            fill_top
        } else if line >= top + inside_h {
            fill_bottom
        } else {
            placed[line - top][column - left]
        }
    };
    let (w, h) = rectangle(settings, sizes);
    let lines: Vec<Vec<u8>> = (0..h)
        .map(|line| (0..w).map(|column| byte(line, column)).collect())
        .collect();
    lines.join(&0x0A)
}

/// The leaf of each place of the printed sheet. 'Every byte of every block, its line feeds apart, leads back to that leaf and place': so each of them is gone through,
/// from its leaf's start on, which counts from the rectangle inside the margin. Panics where two lead to one place.
pub fn owners(settings: &Settings, tree: &Tree, answer: &Answer) -> Owners {
    let nodes = Nodes::of(tree);
    let starts = starts(settings, &nodes, &answer.sizes);
    let [left, _, top, _] = settings.margin.sizes.map(usize::from);
    let (w, h) = rectangle(settings, &answer.sizes);
    let mut owners = vec![vec![None; w]; h];
    for leaf in &answer.leaves {
        let node = leaf.node;
        let (first_line, first_column) = starts[node];
        for (line, bytes) in lines(&leaf.block).iter().enumerate() {
            for column in 0..bytes.len() {
                let place = &mut owners[top + first_line + line][left + first_column + column];
                let before = place.replace(Owner { node, line, column });
                assert_eq!(before, None, "a place has two owners");
            }
        }
    }
    owners
}

/// A line of a text where it is in a block, or in the sheet as printed: 'the texts' own bytes' (document 02, 14). Padding, indent and the spaces after a line are none.
#[derive(Debug, Clone, Copy, PartialEq, Eq)]
pub struct Own<'a> {
    pub line: usize,
    /// Of its first byte.
    pub column: usize,
    pub bytes: &'a [u8],
}

/// The lines of a leaf's text where they are in its block; those without a byte are nowhere.
fn own_of_leaf<'a>(settings: &Settings, size: Size, text: &'a [u8]) -> Vec<Own<'a>> {
    let edge = separator(settings);
    let (above, _) = indents(settings, size.allotted_height, text);
    let first = edge + above + padding(settings)[2];
    let own = |(at, bytes): (usize, &'a [u8])| Own {
        line: first + at,
        column: edge + line_start(settings, size.allotted_width, text, bytes),
        bytes,
    };
    let numbered = lines(text).into_iter().enumerate();
    let some = numbered.filter(|(_, line)| !line.is_empty());
    some.map(own).collect()
}

/// The texts' own bytes of a leaf's block.
pub fn own_of_block<'a>(settings: &Settings, tree: &'a Tree, node: usize) -> Vec<Own<'a>> {
    let nodes = Nodes::of(tree);
    let size = sizes_of(settings, &nodes)[node];
    own_of_leaf(settings, size, nodes.text(node))
}

/// The texts' own bytes of the sheet as printed, margin included: leaf by leaf, line by line.
pub fn own_of_sheet<'a>(settings: &Settings, tree: &'a Tree) -> Vec<Own<'a>> {
    let nodes = Nodes::of(tree);
    let sizes = sizes_of(settings, &nodes);
    let starts = starts(settings, &nodes, &sizes);
    let [left, _, top, _] = settings.margin.sizes.map(usize::from);
    let leaves = (0..sizes.len()).filter(|&node| nodes.is_leaf(node));
    let placed = leaves.flat_map(|node| {
        let (line, column) = starts[node];
        let own = own_of_leaf(settings, sizes[node], nodes.text(node));
        own.into_iter().map(move |own| Own {
            line: top + line + own.line,
            column: left + column + own.column,
            ..own
        })
    });
    placed.collect()
}

/// Before which lines of a block 'the crate puts one extra blank' without lines, 'for a leaf with vertical splits .. before some indent and padding lines' (document 02, 13):
/// those that the squashed vertical list names, up to the first text line that it names.
fn blanks(settings: &Settings, leaf: &Leaf, text: &[u8]) -> Vec<usize> {
    if separator(settings) == 1 {
        return Vec::new();
    }
    let first = indents(settings, leaf.height, text).0 + padding(settings)[2];
    let texts = first..first + count(text);
    let named = cut(&leaf.vertical, leaf.height).squashed.into_iter();
    let printed = named.filter(|&line| line < leaf.height);
    printed.take_while(|line| !texts.contains(line)).collect()
}

/// The block without the blank before each of these lines. Panics where there is none.
fn without(block: &[u8], blanks: &[usize]) -> Vec<u8> {
    let mut lines = lines(block);
    for &line in blanks {
        let rest = lines[line].strip_prefix(b" ");
        lines[line] = rest.expect("the crate's extra blank");
    }
    lines.join(&0x0A)
}

/// The crate's answer with the document's bytes where the two differ:
/// - a zero-wide leaf has 'its marks around no columns' (document 02, 8), where the crate has an empty text, by the crate's own record of the leaf;
/// - without lines a leaf has no extra blank (13); all else of its block is the crate's.
///
/// A sheet with such leaves is made by placing all blocks, and a margin is printed around no columns, too. Panics where the crate's text is not empty, or has no blank.
pub fn mended(settings: &Settings, tree: &Tree, mut answer: Answer) -> Answer {
    let nodes = Nodes::of(tree);
    let mut is_crates = true;
    for leaf in &mut answer.leaves {
        let text = nodes.text(leaf.node);
        if leaf.width == 0 {
            assert_eq!(leaf.block, b"", "the crate prints a zero-wide leaf");
            leaf.block = block(settings, leaf, text);
            is_crates = false;
            continue;
        }
        let blanks = blanks(settings, leaf, text);
        leaf.block = without(&leaf.block, &blanks);
        is_crates &= blanks.is_empty();
    }
    if !is_crates {
        answer.sheet = sheet(settings, &nodes, &answer.sizes, &answer.leaves);
    }
    answer
}

/// All that documents 01 and 02 say about a table, the limits put aside.
pub fn answer(settings: &Settings, tree: &Tree) -> Answer {
    let nodes = Nodes::of(tree);
    let sizes = sizes_of(settings, &nodes);
    let mut walk = Walk {
        settings,
        nodes,
        sizes,
        leaves: Vec::new(),
    };
    walk.node(0, ROOT, CutPair::default(), Vec::new(), Vec::new());
    let Walk {
        nodes,
        sizes,
        leaves,
        ..
    } = walk;
    let sheet = sheet(settings, &nodes, &sizes, &leaves);
    Answer {
        sizes,
        leaves,
        sheet,
    }
}
