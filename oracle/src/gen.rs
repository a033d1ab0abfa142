//! Inputs: exhaustive small ones, random ones, those on each side of each limit, damaged ones.

pub mod alike;
pub mod long;
pub mod stores;
pub mod typed;

use crate::form::{
    encode_element, encode_plan, encode_settings, encode_tree, Fold, Margin, Plan, Range, Settings,
    Tree,
};
use crate::judge;
use crate::paper;

/// A small seeded generator (splitmix64), or bytes that choose.
#[derive(Debug, Clone)]
pub struct Rng {
    state: u64,
    /// Bytes that choose, the next one last; when they are used up the generator does.
    bytes: Vec<u8>,
    /// Whether the settings made with it have lines.
    has_lines: bool,
}

impl Rng {
    pub fn new(seed: u64) -> Rng {
        Rng {
            state: seed,
            bytes: Vec::new(),
            has_lines: true,
        }
    }

    /// Choices by these bytes, as a fuzzer makes them, and then by seed 0.
    pub fn of(bytes: &[u8]) -> Rng {
        Rng {
            bytes: bytes.iter().rev().copied().collect(),
            ..Rng::new(0)
        }
    }

    /// The same numbers, for settings without lines.
    pub fn bare(&self) -> Rng {
        Rng {
            has_lines: false,
            ..self.clone()
        }
    }

    /// Settings with the lines that this generator's have.
    pub fn lined(&self, settings: Settings) -> Settings {
        if self.has_lines {
            settings
        } else {
            settings.bare()
        }
    }

    fn number(&mut self) -> u64 {
        self.state = self.state.wrapping_add(0x9E37_79B9_7F4A_7C15);
        let mut z = self.state;
        z = (z ^ (z >> 30)).wrapping_mul(0xBF58_476D_1CE4_E5B9);
        z = (z ^ (z >> 27)).wrapping_mul(0x94D0_49BB_1331_11EB);
        z ^ (z >> 31)
    }

    /// As many of the bytes as n choices need, as one number.
    fn chosen(&mut self, n: usize) -> u64 {
        let (mut number, mut choices) = (0, 1);
        while choices < n as u64 {
            let Some(byte) = self.bytes.pop() else { break };
            number = number << 8 | u64::from(byte);
            choices = choices.saturating_mul(256);
        }
        number
    }

    /// 0 to n − 1.
    pub fn below(&mut self, n: usize) -> usize {
        let number = if self.bytes.is_empty() {
            self.number()
        } else {
            self.chosen(n)
        };
        (number % n as u64) as usize
    }

    /// Both ends included.
    pub fn between(&mut self, low: usize, high: usize) -> usize {
        low + self.below(high - low + 1)
    }

    pub fn one_in(&mut self, n: usize) -> bool {
        self.below(n) == 0
    }

    pub fn pick<T: Clone>(&mut self, list: &[T]) -> T {
        list[self.below(list.len())].clone()
    }

    fn byte(&mut self) -> u8 {
        self.below(256) as u8
    }
}

// Exhaustive

/// Every tree of exactly this many nodes whose Cells have these texts.
pub fn small_trees(nodes: usize, texts: &[&str]) -> Vec<Tree> {
    let mut trees: Vec<Vec<Tree>> = vec![Vec::new()];
    let mut forests: Vec<Vec<Vec<Tree>>> = vec![vec![Vec::new()]];
    for n in 1..=nodes {
        let mut of_n: Vec<Tree> = Vec::new();
        if n == 1 {
            of_n.extend(texts.iter().map(Tree::cell));
        }
        for forest in &forests[n - 1] {
            of_n.push(Tree::Row(forest.clone()));
            of_n.push(Tree::Column(forest.clone()));
        }
        trees.push(of_n);

        let mut forest = Vec::new();
        for first in 1..=n {
            for tree in &trees[first] {
                for rest in &forests[n - first] {
                    forest.push([std::slice::from_ref(tree), rest].concat());
                }
            }
        }
        forests.push(forest);
    }
    trees.swap_remove(nodes)
}

/// Every tree of at most this many bytes whose texts hold `a` and 0A.
pub fn short_trees(bytes: usize) -> Vec<Tree> {
    fn forests(bytes: usize) -> Vec<Vec<Tree>> {
        let mut list = vec![Vec::new()];
        for first in short_trees(bytes) {
            for rest in forests(bytes - first.bytes()) {
                list.push([std::slice::from_ref(&first), &rest].concat());
            }
        }
        list
    }

    if bytes < 3 {
        return Vec::new();
    }
    let mut texts = vec![Vec::new()];
    for at in 0.. {
        let Some(text) = texts.get(at).cloned() else {
            break;
        };
        if text.len() < bytes - 3 {
            texts.extend([b'a', 0x0A].map(|byte| [&text[..], &[byte]].concat()));
        }
    }
    let mut list: Vec<Tree> = texts.into_iter().map(Tree::Cell).collect();
    for forest in forests(bytes - 3) {
        list.push(Tree::Row(forest.clone()));
        list.push(Tree::Column(forest));
    }
    list
}

/// Every Column of two Rows, and every Row of two Columns, of one to three Cells with these texts: the second group's cuts meet the
/// first one's pieces in every way. (A cut says yes from 7 nodes on, as in F4.)
pub fn two_groups(texts: &[&str]) -> Vec<Tree> {
    let mut groups: Vec<Vec<Tree>> = Vec::new();
    let mut last = vec![Vec::new()];
    for _ in 1..=3 {
        let longer = last.iter().flat_map(|group: &Vec<Tree>| {
            texts
                .iter()
                .map(|text| [&group[..], &[Tree::cell(text)]].concat())
        });
        last = longer.collect();
        groups.extend(last.clone());
    }

    let mut list = Vec::new();
    for first in &groups {
        for second in &groups {
            let pair = [first.clone(), second.clone()];
            list.push(Tree::Column(pair.clone().map(Tree::Row).to_vec()));
            list.push(Tree::Row(pair.map(Tree::Column).to_vec()));
        }
    }
    list
}

/// Every list of one to this many Cells with these texts.
pub fn small_lists(cells: usize, texts: &[&str]) -> Vec<Tree> {
    let mut lists: Vec<Vec<Tree>> = vec![Vec::new()];
    let mut first = 0;
    for _ in 0..cells {
        let end = lists.len();
        for at in first..end {
            for text in texts {
                lists.push([&lists[at][..], &[Tree::cell(text)]].concat());
            }
        }
        first = end;
    }
    lists.into_iter().skip(1).map(Tree::Column).collect()
}

/// Every choice of alignments, line mode and priorities, with a padding on two sides and four fills; every second one with a margin, each side of
/// which is 0 to 16 in turn.
pub fn choices() -> Vec<Settings> {
    let mut list = Vec::new();
    for n in 0..162u8 {
        let turn = |step: u8| ((u16::from(n / 2) * u16::from(step) + u16::from(step)) % 17) as u8;
        let edged = Margin {
            sizes: [1, 3, 5, 7].map(turn),
            fills: *b"LRTB",
        };
        list.push(Settings {
            margin: if n % 2 == 0 { Margin::NONE } else { edged },
            horizontal: n % 3,
            vertical: n / 3 % 3,
            line_mode: n / 9 % 2,
            width_priority: n / 18 % 3,
            height_priority: n / 54,
            padding: [1, 0, 0, 1],
            fills: *b"<>^~",
            ..Settings::M
        });
    }
    list
}

/// A few settings that differ in all they can, each mark and fill a character of its own.
pub fn few_settings() -> Vec<Settings> {
    let wide = Settings {
        padding: [2, 1, 1, 2],
        fills: *b"<>^~",
        horizontal: 1,
        vertical: 1,
        line_mode: 1,
        width_priority: 0,
        height_priority: 1,
        ..Settings::M
    };
    let late = Settings {
        padding: [0, 1, 0, 1],
        fills: *b"<>^~",
        horizontal: 2,
        vertical: 2,
        line_mode: 0,
        width_priority: 1,
        height_priority: 0,
        ..Settings::M
    };
    let edged = Settings {
        margin: Margin {
            sizes: [1, 2, 1, 1],
            fills: *b"LRTB",
        },
        ..Settings::M0
    };
    let punched = Settings {
        margin: Margin {
            sizes: [16, 0, 0, 3],
            fills: *b"LRTB",
        },
        ..wide
    };
    vec![
        Settings::D,
        Settings::M,
        Settings::M0,
        wide,
        late,
        edged,
        punched,
    ]
}

/// The same without lines; D is then M.
pub fn bare_settings() -> Vec<Settings> {
    let few = few_settings().into_iter().skip(1);
    few.map(Settings::bare).collect()
}

/// All byte strings of up to this many bytes, over a few that look like elements.
pub fn short_bytes(most: usize) -> impl Iterator<Item = Vec<u8>> {
    const FEW: [u8; 7] = [0, 1, 2, 3, 4, b'a', 0x0A];
    (0..=most).flat_map(|length| {
        let digit = |number: usize, at: usize| number / FEW.len().pow(at as u32) % FEW.len();
        (0..FEW.len().pow(length as u32))
            .map(move |number| (0..length).map(|at| FEW[digit(number, at)]).collect())
    })
}

/// Elements with a fault or none.
const LASTS: [&[u8]; 8] = [
    b"\x01\x00\x00",
    b"\x02\x00\x00",
    b"\x01\x00\x01a",
    b"\x01\x00\x01\x07",
    b"\x07\x00\x00",
    b"\x01\x00\x02a",
    b"\x01\x00",
    b"\x01",
];

/// Elements of tag 4 with a fault or none: the good ones first, then a least above its greatest, no line, a wrong length, too few bytes.
const RANGES: [&[u8]; 9] = [
    b"\x04\x00\x04\x00\x00\x01\x01",
    b"\x04\x00\x04\x02\x05\x01\x03",
    b"\x04\x00\x04\x03\x02\x01\x01",
    b"\x04\x00\x04\x00\x00\x02\x01",
    b"\x04\x00\x04\x00\x00\x00\x01",
    b"\x04\x00\x03\x00\x00\x01",
    b"\x04\x00\x05\x00\x00\x01\x01\x01",
    b"\x04\x01\x04\x00\x00\x01\x01",
    b"\x04\x00\x04\x00\x00\x01",
];

/// Elements with a fault or none, each as node 512 or 513, at depth 16 or 17, both or neither: behind this many Cells of a Row, inside this
/// many Rows more.
pub fn faults() -> Vec<Vec<u8>> {
    faults_of(&LASTS)
}

/// The same of ranges; then Rows of two elements, a range among them, each with a fault or none; then ranges of every byte, and of the least and greatest ones.
pub fn plan_faults() -> Vec<Vec<u8>> {
    let mut list = faults_of(&RANGES);
    for range in RANGES {
        for other in [&LASTS[..], &RANGES].concat() {
            list.push(encode_element(2, &[range, other].concat()));
            list.push(encode_element(2, &[other, range].concat()));
        }
    }
    for at in 0..4 {
        for byte in 0..=255 {
            let mut contents = [7; 4];
            contents[at] = byte;
            list.push(encode_element(4, &contents));
        }
    }
    const FEW: [u8; 5] = [0, 1, 2, 254, 255];
    for number in 0..FEW.len().pow(4) {
        let digit = |at: u32| FEW[number / FEW.len().pow(at) % FEW.len()];
        list.push(encode_element(4, &[0, 1, 2, 3].map(digit)));
    }
    list
}

fn faults_of(lasts: &[&[u8]]) -> Vec<Vec<u8>> {
    let mut list = Vec::new();
    for cells in [0, 495, 496, 497, 498, 509, 510, 511, 512] {
        for rows in [0, 1, 13, 14, 15] {
            for last in lasts {
                let inner = (0..rows).fold(last.to_vec(), |inner, _| encode_element(2, &inner));
                list.push(encode_element(
                    2,
                    &[[1, 0, 0].repeat(cells), inner].concat(),
                ));
            }
        }
    }
    list
}

/// Cells around the greatest length of a tree and of an element, with a good and with a forbidden text, the root's end at the tree's end
/// or before it.
pub fn long_trees() -> Vec<Vec<u8>> {
    let mut list = Vec::new();
    for text in [32_764, 32_765, 32_766, 65_535] {
        for byte in [b'a', 0x07] {
            let tree = encode_element(1, &vec![byte; text]);
            list.push([&tree[..], &[0]].concat());
            list.push(tree);
        }
    }
    list
}

// Random

/// Whether random settings have a margin.
#[derive(Debug, Clone, Copy, PartialEq, Eq)]
pub enum Margins {
    /// None has. Nothing is drawn for it.
    None,
    /// Half of them have.
    Half,
}

/// A margin, each side 0 to 16, with a lean to small ones.
fn margin(rng: &mut Rng) -> Margin {
    let most = rng.pick(&[0, 1, 1, 3, 16]);
    let mut margin = Margin::NONE;
    for size in &mut margin.sizes {
        *size = if rng.one_in(8) {
            16
        } else {
            rng.between(0, most) as u8
        };
    }
    if !rng.one_in(4) {
        margin.fills = [0; 4].map(|_: u8| rng.between(0x20, 0x7E) as u8);
    }
    margin
}

/// Settings of the right form, mostly with fifteen different marks.
pub fn settings(rng: &mut Rng, margins: Margins) -> Settings {
    let mut bytes: Vec<u8> = (0x20..=0x7E).collect();
    for at in 0..19 {
        let other = rng.between(at, bytes.len() - 1);
        bytes.swap(at, other);
    }
    if rng.one_in(8) {
        let byte = rng.pick(b" ~a");
        bytes[..19].fill(byte);
    }

    let most = rng.pick(&[0, 1, 1, 2, 3, 16]);
    let mut padding = [0; 4];
    for size in &mut padding {
        *size = if rng.one_in(16) {
            16
        } else {
            rng.between(0, most) as u8
        };
    }
    let settings = Settings {
        marks: bytes[..15].try_into().expect("15 marks"),
        padding,
        fills: bytes[15..19].try_into().expect("4 fills"),
        horizontal: rng.below(3) as u8,
        vertical: rng.below(3) as u8,
        line_mode: rng.below(2) as u8,
        width_priority: rng.below(3) as u8,
        height_priority: rng.below(3) as u8,
        margin: if margins == Margins::Half && rng.one_in(2) {
            margin(rng)
        } else {
            Margin::NONE
        },
    };
    rng.lined(settings)
}

/// Up to this many lines of up to this many columns.
pub fn text(rng: &mut Rng, width: usize, lines: usize) -> Vec<u8> {
    let mut text = Vec::new();
    for line in 0..rng.between(1, lines) {
        if line > 0 {
            text.push(0x0A);
        }
        for _ in 0..rng.between(0, width) {
            text.push(if rng.one_in(8) {
                rng.between(0x20, 0x7E) as u8
            } else {
                rng.between(b'a'.into(), b'z'.into()) as u8
            });
        }
    }
    text
}

/// How random trees are made.
#[derive(Debug, Clone, Copy)]
pub struct Growth {
    /// The most columns and lines of a text.
    pub width: usize,
    pub lines: usize,
}

fn leaf(rng: &mut Rng, growth: Growth) -> Tree {
    if rng.one_in(12) {
        return rng.pick(&[Tree::Row(Vec::new()), Tree::Column(Vec::new())]);
    }
    Tree::Cell(text(rng, growth.width, growth.lines))
}

fn group(rng: &mut Rng, children: Vec<Tree>) -> Tree {
    if rng.one_in(2) {
        Tree::Row(children)
    } else {
        Tree::Column(children)
    }
}

/// Trees of this many nodes together, each of at most this depth.
fn forest(rng: &mut Rng, nodes: usize, depth: usize, growth: Growth) -> Vec<Tree> {
    let mut list = Vec::new();
    let most = if rng.one_in(3) {
        1
    } else {
        rng.between(1, nodes.max(1))
    };
    let mut left = nodes;
    while left > 0 {
        let part = if depth == 1 {
            1
        } else {
            rng.between(1, most.min(left))
        };
        list.push(tree(rng, part, depth, growth));
        left -= part;
    }
    list
}

/// A tree of exactly this many nodes and at most this depth, which is 2 or more where there are two nodes.
pub fn tree(rng: &mut Rng, nodes: usize, depth: usize, growth: Growth) -> Tree {
    if nodes == 1 {
        return leaf(rng, growth);
    }
    let children = forest(rng, nodes - 1, depth - 1, growth);
    group(rng, children)
}

/// A tree of exactly this many nodes and exactly this depth; nodes at least depth.
pub fn tree_of_depth(rng: &mut Rng, nodes: usize, depth: usize, growth: Growth) -> Tree {
    if depth == 1 {
        return leaf(rng, growth);
    }
    let deep = rng.between(depth - 1, nodes - 1);
    let deep = if depth == 2 { 1 } else { deep };
    let mut children = forest(rng, nodes - 1 - deep, depth - 1, growth);
    let at = rng.between(0, children.len());
    children.insert(at, tree_of_depth(rng, deep, depth - 1, growth));
    group(rng, children)
}

// Limits

#[derive(Debug, Clone, Copy, PartialEq, Eq)]
pub enum Limit {
    Nodes,
    Depth,
    Width,
    Height,
    Bytes,
}

pub const LIMITS: [Limit; 5] = [
    Limit::Nodes,
    Limit::Depth,
    Limit::Width,
    Limit::Height,
    Limit::Bytes,
];

/// Row of Columns (or the reverse) of this many nodes, which fits a sheet.
fn grid(rng: &mut Rng, nodes: usize) -> Tree {
    let growth = Growth { width: 3, lines: 1 };
    let is_row = rng.one_in(2);
    let groups = if is_row {
        rng.between(7, 20)
    } else {
        rng.between(13, 70)
    };
    let mut lists = vec![Vec::new(); groups];
    for at in 0..nodes - 1 - groups {
        lists[at % groups].push(leaf(rng, growth));
    }
    if is_row {
        Tree::Row(lists.into_iter().map(Tree::Column).collect())
    } else {
        Tree::Column(lists.into_iter().map(Tree::Row).collect())
    }
}

/// This many text bytes in lines of this width.
fn long_text(rng: &mut Rng, bytes: usize, width: usize) -> Vec<u8> {
    (1..=bytes)
        .map(|at| {
            if at % (width + 1) == 0 {
                0x0A
            } else {
                rng.between(b'a'.into(), b'z'.into()) as u8
            }
        })
        .collect()
}

/// A tree of exactly this many bytes; its texts are long.
fn tree_of_bytes(rng: &mut Rng, bytes: usize) -> Tree {
    let cells = rng.between(4, 6);
    let texts = bytes - 3 - 3 * cells;
    let width = texts / cells / rng.between(120, 155);
    let children = (0..cells)
        .map(|at| {
            let length = texts / cells + usize::from(at < texts % cells);
            Tree::Cell(long_text(rng, length, width))
        })
        .collect();
    if rng.one_in(8) {
        Tree::Column(children)
    } else {
        Tree::Row(children)
    }
}

/// A tree whose W (or H, for lines) is exactly `target`: a random tree and a Cell beside it or under it that fills up.
fn tree_of_extent(rng: &mut Rng, settings: &Settings, target: usize, is_width: bool) -> Tree {
    let growth = Growth { width: 6, lines: 4 };
    let padding = settings.padding.map(usize::from);
    let margin = settings.margin.sizes.map(usize::from);
    let filled = |length: usize| {
        if is_width {
            Tree::Cell(vec![b'w'; length])
        } else {
            Tree::Cell(vec![0x0A; length])
        }
    };
    // What a Cell has beside `length`: its padding, and the line that no 0A ends.
    let own = if is_width {
        padding[0] + padding[1]
    } else {
        padding[2] + padding[3] + 1
    };
    let separator = paper::separator(settings);
    // What a sheet has beside its root.
    let edge = if is_width {
        margin[0] + margin[1] + 2 * separator
    } else {
        margin[2] + margin[3] + 2 * separator
    };

    let mut nodes = rng.between(1, 40);
    loop {
        let depth = rng.between(2, 8);
        let part = tree(rng, nodes, depth, growth);
        let (w, h) = paper::rectangle(settings, &paper::sizes(settings, &part));
        let extent = if is_width { w } else { h };
        // Side by side the extents and a separator add up; one under the other the greater counts.
        let adds = rng.one_in(2);
        let needed = if adds {
            extent + separator + own
        } else {
            edge + own
        };
        if extent <= target && needed <= target {
            let mut children = vec![part];
            let at = rng.below(2);
            children.insert(at, filled(target - needed));
            return if adds == is_width {
                Tree::Row(children)
            } else {
                Tree::Column(children)
            };
        }
        nodes = nodes / 2 + 1;
    }
}

/// Settings and a tree that are exactly this far from a limit.
pub fn near(rng: &mut Rng, margins: Margins, limit: Limit, offset: isize) -> (Settings, Tree) {
    let at = |limit: usize| limit.checked_add_signed(offset).expect("a small offset");
    let growth = Growth { width: 3, lines: 2 };
    let mut settings = settings(rng, margins);
    let tree = match limit {
        Limit::Nodes => {
            let nodes = at(judge::NODES);
            if rng.one_in(2) {
                settings.padding = [rng.below(2) as u8, 0, 0, 0];
                grid(rng, nodes)
            } else {
                let depth = rng.between(2, judge::DEPTH);
                tree(rng, nodes, depth, growth)
            }
        }
        Limit::Depth => {
            let depth = at(judge::DEPTH);
            let nodes = rng.between(depth, 3 * depth);
            tree_of_depth(rng, nodes, depth, growth)
        }
        Limit::Width => tree_of_extent(rng, &settings, at(judge::SHEET_WIDTH), true),
        Limit::Height => tree_of_extent(rng, &settings, at(judge::SHEET_HEIGHT), false),
        Limit::Bytes => {
            settings.padding[2..].fill(0);
            tree_of_bytes(rng, at(judge::TREE_BYTES))
        }
    };
    (settings, tree)
}

/// The set D, or D without lines, with a margin of these sizes, and a Cell over another: W is this far from its limit, and H from its.
pub fn corner(d: Settings, sizes: [u8; 4], width: isize, height: isize) -> (Settings, Tree) {
    let at =
        |limit: usize, offset: isize| limit.checked_add_signed(offset).expect("a small offset");
    let [left, right, top, bottom] = sizes.map(usize::from);
    let separator = paper::separator(&d);
    // The padding; the sheet's edge.
    let letters = at(judge::SHEET_WIDTH, width) - 2 - 2 * separator - left - right;
    // The line of the Cell above, and the one that no line feed ends; the sheet's edge, and the line between.
    let feeds = at(judge::SHEET_HEIGHT, height) - 2 - 3 * separator - top - bottom;
    let settings = Settings {
        margin: Margin {
            sizes,
            ..Margin::NONE
        },
        ..d
    };
    let tree = Tree::Column(vec![
        Tree::Cell(vec![b'w'; letters]),
        Tree::Cell(vec![0x0A; feeds]),
    ]);
    (settings, tree)
}

/// Groups of many small leaves beside groups of a few: long split lists, cut in many places.
fn stack(rng: &mut Rng) -> Tree {
    let is_row = rng.one_in(2);
    let most = rng.pick(&[3, 12, 60, 120]);
    let mut groups = Vec::new();
    for _ in 0..rng.between(2, 4) {
        let cells = rng.between(1, most);
        let growth = if rng.one_in(2) {
            Growth { width: 2, lines: 1 }
        } else {
            Growth { width: 4, lines: 3 }
        };
        let leaves = (0..cells).map(|_| leaf(rng, growth)).collect();
        groups.push(if rng.one_in(6) {
            leaf(rng, growth)
        } else if is_row {
            Tree::Column(leaves)
        } else {
            Tree::Row(leaves)
        });
    }
    if is_row {
        Tree::Row(groups)
    } else {
        Tree::Column(groups)
    }
}

/// Settings and a tree of ordinary size, with a lean to small ones.
pub fn table(rng: &mut Rng, margins: Margins) -> (Settings, Tree) {
    let mut settings = settings(rng, margins);
    if rng.one_in(6) {
        settings.padding = settings.padding.map(|size| size % 2);
        return (settings, stack(rng));
    }
    let most = rng.pick(&[4, 8, 16, 40, 120]);
    let nodes = rng.between(1, most);
    let depth = rng.between(2, judge::DEPTH);
    let growth = rng.pick(&[
        Growth { width: 0, lines: 1 },
        Growth { width: 1, lines: 2 },
        Growth { width: 5, lines: 1 },
        Growth { width: 8, lines: 4 },
    ]);
    (settings, tree(rng, nodes, depth, growth))
}

// Lists to fold

/// A list of this many Cells.
fn list_of(rng: &mut Rng, cells: usize, growth: Growth) -> Tree {
    let cell = |_| Tree::Cell(text(rng, growth.width, growth.lines));
    Tree::Column((0..cells).map(cell).collect())
}

/// Settings and a list that can be folded: mostly of a few Cells, else of some dozens, or of about as many as it may have.
pub fn fold_list(rng: &mut Rng) -> (Settings, Tree) {
    let mut settings = settings(rng, Margins::Half);
    let cells = match rng.below(32) {
        0 => rng.between(judge::CELLS - 4, judge::CELLS),
        1 => rng.between(30, 90),
        _ => rng.between(1, 20),
    };
    if cells > 20 {
        settings.padding = settings.padding.map(|size| size % 2);
    }
    let growth = rng.pick(&[
        Growth { width: 0, lines: 1 },
        Growth { width: 2, lines: 1 },
        Growth { width: 9, lines: 1 },
        Growth { width: 4, lines: 3 },
        Growth {
            width: 20,
            lines: 5,
        },
    ]);
    (settings, list_of(rng, cells, growth))
}

/// Lists of great heights and widths, close to the most bytes of a tree; and one of as many Cells without a column as there may be.
pub fn great_lists() -> Vec<(Settings, Tree)> {
    let padded = |padding: u8| Settings {
        padding: [padding; 4],
        ..Settings::M
    };
    let list = |cells: usize, bytes: usize, byte: u8| {
        Tree::Column(vec![Tree::Cell(vec![byte; bytes]); cells])
    };
    vec![
        (padded(16), list(judge::CELLS, 160, 0x0A)),
        (padded(1), list(3, 10_900, 0x0A)),
        (padded(16), list(2, 16_379, b'w')),
        (padded(0), list(judge::CELLS, 0, b'w')),
    ]
}

/// A width and a budget for a list with these folds: around the width of one of them, and around the tries that there are, mostly.
pub fn question(rng: &mut Rng, folds: &[Fold]) -> (usize, usize) {
    let all = folds.len() - 1;
    let width = folds[rng.between(0, all)].width;
    let width = match rng.below(8) {
        0 => rng.pick(&[0, folds[0].width, folds[0].width.saturating_sub(1)]),
        1 => rng.pick(&FAR),
        2 => width + 1,
        3 | 4 => width.saturating_sub(1),
        _ => width,
    };
    let budget = match rng.below(8) {
        0 => rng.pick(&[0, 1]),
        1 => rng.pick(&FAR),
        2 => all,
        3 => rng.pick(&[all.saturating_sub(1), all + 1]),
        _ => rng.between(0, all),
    };
    (width, budget)
}

/// A tree that is no list to fold, though close to one: another kind of root or child, no Cell or too many. At times it is no tree either: too many nodes, too deep.
fn other_list(rng: &mut Rng, list: &Tree) -> Tree {
    let mut cells = list.children().to_vec();
    let at = rng.below(cells.len());
    match rng.below(5) {
        0 => return Tree::Row(cells),
        1 => return cells.swap_remove(at),
        2 => cells[at] = group(rng, Vec::new()),
        3 => {
            for _ in 0..rng.pick(&[1, 1, judge::DEPTH - 2, judge::DEPTH - 1]) {
                cells[at] = group(rng, vec![cells[at].clone()]);
            }
        }
        _ => {
            let count = rng.pick(&[0, judge::CELLS + 1, judge::NODES - 1, judge::NODES]);
            return list_of(rng, count, Growth { width: 1, lines: 1 });
        }
    }
    Tree::Column(cells)
}

/// The bytes of settings and of a list, mostly with a fault: another tree, damaged bytes; else those of any case.
pub fn any_list(rng: &mut Rng) -> (Vec<u8>, Vec<u8>) {
    let (settings, list) = fold_list(rng);
    let (mut settings, mut tree) = (encode_settings(&settings), encode_tree(&list));
    match rng.below(10) {
        0 => settings = damaged(rng, &settings),
        1 | 2 => tree = damaged(rng, &tree),
        3 => {
            settings = damaged(rng, &settings);
            tree = damaged(rng, &tree);
        }
        4 | 5 => tree = encode_tree(&other_list(rng, &list)),
        6 => {
            let case = any_case(rng, Margins::Half);
            (settings, tree) = (case.settings, case.tree);
        }
        _ => {}
    }
    (settings, tree)
}

// Planning trees

/// Every planning tree of exactly this many nodes whose leaves are empty groups, two texts and three ranges.
pub fn small_plans(nodes: usize) -> Vec<Plan> {
    const RANGES: [Range; 3] = [
        Range {
            width: [0, 2],
            lines: [1, 2],
        },
        Range {
            width: [1, 1],
            lines: [2, 3],
        },
        Range {
            width: [3, 5],
            lines: [1, 1],
        },
    ];
    let mut leaf = |text: &[u8]| match text {
        [digit @ b'0'..=b'2'] => Plan::Range(RANGES[usize::from(digit - b'0')]),
        _ => Plan::Cell(text.to_vec()),
    };
    let trees = small_trees(nodes, &["", "e\nfg", "0", "1", "2"]);
    trees.iter().map(|tree| Plan::of(tree, &mut leaf)).collect()
}

/// A range whose leasts are no more than `most`, and its greatests no more than `spread` above them.
fn range(rng: &mut Rng, most: usize, spread: usize) -> Range {
    let mut ends = |least: usize| {
        let least = rng.between(least, most.max(least));
        let greatest = rng.between(least, (least + spread).min(255));
        [least as u8, greatest as u8]
    };
    Range {
        width: ends(0),
        lines: ends(1),
    }
}

/// Ranges and a Cell that fills up: a planning tree of exactly this many bytes.
fn plan_of_bytes(rng: &mut Rng, bytes: usize) -> Plan {
    let ranges = rng.between(1, 40);
    let range = |_| Plan::Range(range(rng, 255, 255));
    let mut children: Vec<Plan> = (0..ranges).map(range).collect();
    let width = rng.pick(&[0, 60, 255, bytes]);
    let text = long_text(rng, bytes - 3 - 7 * ranges - 3, width);
    children.insert(rng.between(0, ranges), Plan::Cell(text));
    rng.pick(&[Plan::Row(children.clone()), Plan::Column(children)])
}

/// Settings and a planning tree: mostly of a few nodes and small ranges, so that every choice of texts can be tried; else of more, or −2 to 2 from a limit on nodes,
/// depth or bytes.
pub fn plan(rng: &mut Rng) -> (Settings, Plan) {
    let (most, spread) = rng.pick(&[(2, 1), (4, 1), (9, 2), (60, 9), (255, 255)]);
    let growth = Growth { width: 9, lines: 3 };
    let (settings, tree) = match rng.below(16) {
        0 => {
            let offset = rng.between(0, 4) as isize - 2;
            let limit = rng.pick(&[Limit::Nodes, Limit::Depth]);
            near(rng, Margins::Half, limit, offset)
        }
        1 => {
            let bytes = judge::TREE_BYTES - 2 + rng.between(0, 4);
            return (settings(rng, Margins::Half), plan_of_bytes(rng, bytes));
        }
        2..=4 => table(rng, Margins::Half),
        _ => {
            let (nodes, depth) = (rng.between(1, 8), rng.between(2, 5));
            (
                settings(rng, Margins::Half),
                tree(rng, nodes, depth, growth),
            )
        }
    };
    let one_in = rng.pick(&[1, 2, 2, 4]);
    let mut leaf = |text: &[u8]| {
        if rng.one_in(one_in) {
            Plan::Range(range(rng, most, spread))
        } else {
            Plan::Cell(text.to_vec())
        }
    };
    (settings, Plan::of(&tree, &mut leaf))
}

/// As many ranges as there may be, of the greatest texts, with the greatest padding and margin; in the last two one of them is a Cell of all bytes that are left.
pub fn great_plans() -> Vec<(Settings, Plan)> {
    let settings = Settings {
        padding: [16; 4],
        margin: Margin {
            sizes: [16; 4],
            fills: *b"LRTB",
        },
        ..Settings::M
    };
    let greatest = Plan::Range(Range {
        width: [0, 255],
        lines: [1, 255],
    });
    let ranges = vec![greatest; judge::NODES - 1];
    let left = judge::TREE_BYTES - 3 - 7 * (judge::NODES - 2) - 3;
    let beside = |byte: u8| [&ranges[1..], &[Plan::Cell(vec![byte; left])]].concat();
    let plans = [
        Plan::Row(ranges.clone()),
        Plan::Column(ranges.clone()),
        Plan::Row(beside(b'w')),
        Plan::Column(beside(0x0A)),
    ];
    plans.map(|plan| (settings, plan)).to_vec()
}

/// A forbidden text, or a range of any bytes, mostly a faulty one.
fn bad_cell(rng: &mut Rng) -> Plan {
    if rng.one_in(3) {
        return Plan::Cell(vec![rng.pick(b"\x07\x1f\x7f")]);
    }
    let mut ends = || [0; 2].map(|_: u8| rng.pick(&[0, 1, 2, 3, 254, 255]));
    Plan::Range(Range {
        width: ends(),
        lines: ends(),
    })
}

/// The planning tree with such a one instead of one or two of its Cells and ranges.
fn spoilt(rng: &mut Rng, mut plan: Plan) -> Plan {
    let mut cells = plan.cells_mut();
    if !cells.is_empty() {
        for _ in 0..rng.between(1, 2) {
            let at = rng.below(cells.len());
            *cells[at] = bad_cell(rng);
        }
    }
    plan
}

/// The bytes of settings and of a planning tree, mostly with a fault.
pub fn any_plan(rng: &mut Rng) -> (Vec<u8>, Vec<u8>) {
    let (settings, plan) = plan(rng);
    let (mut settings, mut tree) = (encode_settings(&settings), encode_plan(&plan));
    match rng.below(10) {
        0 => settings = damaged(rng, &settings),
        1 | 2 => tree = damaged(rng, &tree),
        3 => {
            settings = damaged(rng, &settings);
            tree = damaged(rng, &tree);
        }
        4 | 5 => tree = encode_plan(&spoilt(rng, plan)),
        6 => {
            tree = encode_plan(&spoilt(rng, plan));
            tree = damaged(rng, &tree);
        }
        7 => tree = element_like(rng),
        _ => {}
    }
    (settings, tree)
}

// Trees to widen

/// Stairs: a Column of this many Cells of 0, 1, 2 .. letters.
fn stairs(cells: usize) -> Tree {
    Tree::Column((0..cells).map(|n| Tree::Cell(vec![b'w'; n])).collect())
}

/// Settings and a tree: mostly of ordinary size, at times with long texts, or −2 to 2 from a limit on nodes, depth or width.
pub fn wide_table(rng: &mut Rng) -> (Settings, Tree) {
    match rng.below(32) {
        0 => {
            let offset = rng.between(0, 4) as isize - 2;
            let limit = rng.pick(&[Limit::Nodes, Limit::Depth, Limit::Width]);
            near(rng, Margins::Half, limit, offset)
        }
        1..=8 => {
            let (nodes, depth) = (rng.between(1, 30), rng.between(2, judge::DEPTH));
            let (width, lines) = rng.pick(&[(20, 3), (300, 4), (3, 12)]);
            let growth = Growth { width, lines };
            (
                settings(rng, Margins::Half),
                tree(rng, nodes, depth, growth),
            )
        }
        _ => table(rng, Margins::Half),
    }
}

/// As many Cells as there may be, side by side, one under another, and over a Cell of all bytes that are left; a Cell under a Row that is as wide as there is; stairs,
/// and stairs beside stairs, level by level.
pub fn wide_tables() -> Vec<(Settings, Tree)> {
    let padded = |padding: u8| Settings {
        padding: [padding; 4],
        ..Settings::M
    };
    let empty = |cells: usize| vec![Tree::cell(""); cells];
    let left = |nodes: usize| Tree::Cell(vec![b'w'; judge::TREE_BYTES - 3 * nodes]);
    let over = [empty(judge::NODES - 2), vec![left(judge::NODES)]].concat();
    let row = [empty(judge::NODES - 4), vec![left(judge::NODES)]].concat();
    let levels = (1..8).fold(stairs(20), |inner, level| {
        let row = Tree::Row(vec![stairs(level), inner]);
        Tree::Column(vec![row, stairs(48)])
    });
    vec![
        (padded(16), Tree::Row(empty(judge::NODES - 1))),
        (padded(0), Tree::Column(empty(judge::NODES - 1))),
        (padded(1), Tree::Column(over)),
        (
            padded(16),
            Tree::Column(vec![Tree::cell(""), Tree::Row(row)]),
        ),
        (padded(1), stairs(240)),
        (padded(1), levels),
    ]
}

/// The bytes of settings and of such a tree, mostly with a fault.
pub fn any_wide(rng: &mut Rng) -> (Vec<u8>, Vec<u8>) {
    let (settings, tree) = wide_table(rng);
    let (mut settings, mut tree) = (encode_settings(&settings), encode_tree(&tree));
    match rng.below(8) {
        0 => settings = damaged(rng, &settings),
        1..=3 => tree = damaged(rng, &tree),
        4 => {
            settings = damaged(rng, &settings);
            tree = damaged(rng, &tree);
        }
        5 => tree = element_like(rng),
        _ => {}
    }
    (settings, tree)
}

// Damage

/// The bytes with one fault more, as a rule.
pub fn damaged(rng: &mut Rng, bytes: &[u8]) -> Vec<u8> {
    let mut bytes = bytes.to_vec();
    let at = rng.below(bytes.len().max(1));
    match rng.below(8) {
        0 if !bytes.is_empty() => bytes[at] ^= 1 << rng.below(8),
        1 if !bytes.is_empty() => bytes[at] = rng.byte(),
        2 if !bytes.is_empty() => bytes[at] = bytes[at].wrapping_add(1),
        3 if !bytes.is_empty() => bytes[at] = bytes[at].wrapping_sub(1),
        4 if !bytes.is_empty() => {
            bytes.remove(at);
        }
        5 => bytes.truncate(at),
        6 => {
            let byte = rng.byte();
            bytes.push(byte);
        }
        _ => {
            let byte = rng.pick(&[0, 1, 2, 3, 4, 0x0A, 0x1F, 0x20, 0x7E, 0x7F, 0xFF]);
            bytes.insert(at, byte);
        }
    }
    bytes
}

/// Short bytes that look like elements, well formed or not.
pub fn element_like(rng: &mut Rng) -> Vec<u8> {
    let length = rng.between(0, 24);
    let bytes = (0..length).map(|_| rng.pick(&[0, 0, 0, 1, 1, 2, 2, 3, 3, 4, 6, 9, b'a', 0x0A]));
    let mut bytes: Vec<u8> = bytes.collect();
    if length >= 3 && !rng.one_in(4) {
        bytes[0] = rng.between(1, 3) as u8;
        bytes[1] = 0;
        bytes[2] = (length - 3) as u8;
    }
    bytes
}

// Cases

/// One input for every call, with the lengths of the lent lists.
#[derive(Debug, Clone, PartialEq, Eq)]
pub struct Case {
    pub settings: Vec<u8>,
    pub tree: Vec<u8>,
    pub node: usize,
    /// Entries of the lent size list.
    pub list: usize,
    /// Bytes lent to the leaf printer, and to the sheet printer.
    pub block: usize,
    pub sheet: usize,
}

/// A length around what is needed: exact, one short, none, more, or any.
pub fn around(rng: &mut Rng, needed: usize) -> usize {
    match rng.below(6) {
        0 => needed.saturating_sub(1),
        1 => 0,
        2 => needed + rng.between(1, 9),
        3 => rng.between(0, needed),
        _ => needed,
    }
}

/// A case for these bytes: the node is mostly a leaf, the lengths are close to what is needed.
pub fn case(rng: &mut Rng, settings: Vec<u8>, tree: Vec<u8>) -> Case {
    let read = judge::read(&settings, &tree).ok();
    let nodes = read.as_ref().map_or(1, |read| read.sizes.len());
    let mut node = match rng.below(12) {
        0 => nodes,
        1 => rng.pick(&[511, 512, 65_535, 65_536, usize::MAX]),
        _ => rng.below(nodes),
    };
    if let (Some(read), false) = (&read, rng.one_in(6)) {
        // On to the next leaf.
        let leaves = judge::leaves(&read.tree);
        node = *leaves.iter().find(|&&leaf| leaf >= node).unwrap_or(&node);
    }
    let block = judge::leaf_bytes(&settings, &tree, node).unwrap_or(40);
    let sheet = read.as_ref().map_or(40, judge::Read::sheet_bytes);
    Case {
        node,
        list: around(rng, nodes),
        block: around(rng, block),
        sheet: around(rng, sheet.min(70_000)),
        settings,
        tree,
    }
}

/// A case of any kind: good bytes, bytes near a limit, damaged bytes, noise.
pub fn any_case(rng: &mut Rng, margins: Margins) -> Case {
    let (settings, tree) = match rng.below(8) {
        0 => {
            let limit = rng.pick(&LIMITS);
            let offset = rng.between(0, 4) as isize - 2;
            near(rng, margins, limit, offset)
        }
        _ => table(rng, margins),
    };
    let mut settings = encode_settings(&settings);
    let mut tree = encode_tree(&tree);
    match rng.below(10) {
        0 => settings = damaged(rng, &settings),
        1..=3 => tree = damaged(rng, &tree),
        4 => tree = element_like(rng),
        5 => {
            settings = damaged(rng, &settings);
            tree = damaged(rng, &tree);
        }
        _ => {}
    }
    case(rng, settings, tree)
}

/// Steps far out of a sheet: 0 in their lower 8, 16 or 32 bits, or 1 in all of 32 or 64.
const FAR: [usize; 5] = [1 << 8, 1 << 16, u32::MAX as usize, 1 << 32, usize::MAX];

/// Places this far from a place: below it, to the right of it, and both.
pub fn far_from((line, column): (usize, usize)) -> impl Iterator<Item = (usize, usize)> {
    FAR.into_iter().flat_map(move |far| {
        let (below, right) = (line.saturating_add(far), column.saturating_add(far));
        [(below, column), (line, right), (below, right)]
    })
}

/// A line or a column of a sheet that has this many before its inside, inside and in all: mostly any of them, else at an edge, or far outside. Of none at all it is the first
/// that there would be.
fn coordinate(rng: &mut Rng, before: usize, inside: usize, all: usize) -> usize {
    let after = before + inside;
    let last = all.saturating_sub(1);
    match rng.below(8) {
        0 => rng.pick(&FAR),
        1 => all + rng.below(2),
        2 => rng.pick(&[before, after.saturating_sub(1)]),
        3 => rng.pick(&[before.saturating_sub(1), after.min(last)]),
        _ => rng.between(0, last),
    }
}

/// A place of a sheet, or outside it.
pub fn place(rng: &mut Rng, read: &judge::Read) -> (usize, usize) {
    let [left, right, top, bottom] = read.settings.margin.sizes.map(usize::from);
    let (w, h) = read.rectangle();
    (
        coordinate(rng, top, h - top - bottom, h),
        coordinate(rng, left, w - left - right, w),
    )
}

/// A place of a sheet inside its margin; of one that has no column there, a place behind its left margin.
fn inside(rng: &mut Rng, read: &judge::Read) -> (usize, usize) {
    let [left, right, top, bottom] = read.settings.margin.sizes.map(usize::from);
    let (w, h) = read.rectangle();
    (
        rng.between(top, h - bottom - 1),
        rng.between(left, left.max((w - right).saturating_sub(1))),
    )
}

/// This many places of a sheet inside its margin, where it has one, each third one a repeat.
pub fn insides(rng: &mut Rng, read: &judge::Read, count: usize) -> Vec<(usize, usize)> {
    let mut list = Vec::new();
    while list.len() < count {
        let place = if list.is_empty() || !rng.one_in(3) {
            inside(rng, read)
        } else {
            rng.pick(&list)
        };
        list.push(place);
    }
    list
}

/// Places of a sheet, a few or about 256, mostly inside its margin; in half of the lists one to three are any.
pub fn places(rng: &mut Rng, read: &judge::Read) -> Vec<(usize, usize)> {
    let few = rng.between(0, 20);
    let count = rng.pick(&[0, 1, few, few, few, 255, 256, 257]);
    let mut list = insides(rng, read, count);
    if count > 0 && rng.one_in(2) {
        for _ in 0..rng.between(1, 3) {
            let at = rng.below(count);
            list[at] = place(rng, read);
        }
    }
    list
}

/// Pieces and a width for the cuts: short lists, full ones, widths around the sums.
pub fn list(rng: &mut Rng) -> (Vec<usize>, u16) {
    let count = match rng.below(8) {
        0 => rng.between(500, judge::PIECES),
        1 => rng.between(20, 100),
        _ => rng.between(0, 6),
    };
    let most = rng.pick(&[0, 1, 2, 5, 20, 65_535]);
    let list: Vec<usize> = (0..count).map(|_| rng.between(0, most)).collect();
    let taken = rng.between(0, count);
    let sum: usize = list[..taken].iter().sum::<usize>() + rng.pick(&[0, taken, taken + 1]);
    let width = match rng.below(4) {
        0 => rng.between(0, 65_535),
        1 => sum.saturating_sub(1),
        2 => sum + 1,
        _ => sum,
    };
    (list, width.min(65_535) as u16)
}
