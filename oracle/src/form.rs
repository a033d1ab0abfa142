//! Settings and trees as plain values, and the byte forms of documents 01 and 02 of them.

/// The white edge around a sheet: document 02's second settings field, its numbers as they are in the bytes.
#[derive(Debug, Clone, Copy, PartialEq, Eq)]
pub struct Margin {
    /// Left, right, top, bottom.
    pub sizes: [u8; 4],
    /// In the same order.
    pub fills: [u8; 4],
}

impl Margin {
    /// Where there is no field.
    pub const NONE: Margin = Margin {
        sizes: [0; 4],
        fills: [b' '; 4],
    };

    /// The value beside a refusal.
    pub const BLANK: Margin = Margin {
        sizes: [0; 4],
        fills: [0; 4],
    };
}

/// The settings, their numbers as they are in the bytes: document 01's record and document 02's margin.
#[derive(Debug, Clone, Copy, PartialEq, Eq)]
pub struct Settings {
    /// Top, bottom, left, right, horizontal, vertical, top_left, top_right, top_intersection, bottom_left, bottom_right,
    /// bottom_intersection, left_intersection, right_intersection, intersection. Fifteen zeros 'mean none at all' (document 02, 13).
    pub marks: [u8; 15],
    /// Left, right, top, bottom.
    pub padding: [u8; 4],
    /// In the same order.
    pub fills: [u8; 4],
    /// 0 left, 1 center, 2 right.
    pub horizontal: u8,
    /// 0 top, 1 center, 2 bottom.
    pub vertical: u8,
    /// 0 or 1.
    pub line_mode: u8,
    /// 0 First, 1 Last, 2 List.
    pub width_priority: u8,
    /// 0 First, 1 Last, 2 List.
    pub height_priority: u8,
    pub margin: Margin,
}

impl Settings {
    /// The defaults: spare width goes to the last child (document 02, 2).
    pub const DEFAULT: Settings = Settings {
        width_priority: 1,
        ..Settings::D
    };

    /// The set D of the figures: the defaults, with List stated for the width.
    pub const D: Settings = Settings {
        marks: *b"--||-|+++++++++",
        padding: [1, 1, 0, 0],
        fills: [b' '; 4],
        horizontal: 0,
        vertical: 0,
        line_mode: 0,
        width_priority: 2,
        height_priority: 2,
        margin: Margin::NONE,
    };

    /// The value beside a refusal.
    pub const BLANK: Settings = Settings {
        marks: [0; 15],
        padding: [0; 4],
        fills: [0; 4],
        horizontal: 0,
        vertical: 0,
        line_mode: 0,
        width_priority: 0,
        height_priority: 0,
        margin: Margin::BLANK,
    };

    /// The set M of the figures.
    pub const M: Settings = Settings {
        marks: *b"-_()hv123456789",
        ..Settings::D
    };

    /// M without padding.
    pub const M0: Settings = Settings {
        padding: [0; 4],
        ..Settings::M
    };

    /// M without lines.
    pub const N: Settings = Settings::M.bare();

    /// M without padding and without lines.
    pub const N0: Settings = Settings::M0.bare();

    /// The same settings without lines.
    pub const fn bare(self) -> Settings {
        Settings {
            marks: [0; 15],
            ..self
        }
    }
}

#[derive(Debug, Clone, PartialEq, Eq)]
pub enum Tree {
    Cell(Vec<u8>),
    Row(Vec<Tree>),
    Column(Vec<Tree>),
}

impl Tree {
    pub fn cell(text: impl AsRef<[u8]>) -> Tree {
        Tree::Cell(text.as_ref().to_vec())
    }

    /// The children; none of a Cell.
    pub fn children(&self) -> &[Tree] {
        match self {
            Tree::Cell(_) => &[],
            Tree::Row(children) | Tree::Column(children) => children,
        }
    }

    pub fn nodes(&self) -> usize {
        1 + self.children().iter().map(Tree::nodes).sum::<usize>()
    }

    /// The root alone has depth 1.
    pub fn depth(&self) -> usize {
        1 + self.children().iter().map(Tree::depth).max().unwrap_or(0)
    }

    /// The bytes of its form.
    pub fn bytes(&self) -> usize {
        3 + match self {
            Tree::Cell(text) => text.len(),
            Tree::Row(children) | Tree::Column(children) => children.iter().map(Tree::bytes).sum(),
        }
    }
}

/// Texts that are to come (document 02, 10): 'least and greatest text width, then least and greatest line count, a byte each'.
#[derive(Debug, Clone, Copy, PartialEq, Eq)]
pub struct Range {
    pub width: [u8; 2],
    pub lines: [u8; 2],
}

/// A planning tree: a tree that has ranges, too.
#[derive(Debug, Clone, PartialEq, Eq)]
pub enum Plan {
    Cell(Vec<u8>),
    Range(Range),
    Row(Vec<Plan>),
    Column(Vec<Plan>),
}

impl Plan {
    /// A tree, with what `leaf` makes of each text in its Cell's place.
    pub fn of(tree: &Tree, leaf: &mut impl FnMut(&[u8]) -> Plan) -> Plan {
        let mut list = |children: &[Tree]| children.iter().map(|c| Plan::of(c, leaf)).collect();
        match tree {
            Tree::Cell(text) => leaf(text),
            Tree::Row(children) => Plan::Row(list(children)),
            Tree::Column(children) => Plan::Column(list(children)),
        }
    }

    /// The tree with the next of these texts in each range's place.
    pub fn with(&self, texts: &mut impl Iterator<Item = Vec<u8>>) -> Tree {
        let mut list = |children: &[Plan]| children.iter().map(|c| c.with(texts)).collect();
        match self {
            Plan::Cell(text) => Tree::Cell(text.clone()),
            Plan::Range(_) => Tree::Cell(texts.next().expect("a text for each range")),
            Plan::Row(children) => Tree::Row(list(children)),
            Plan::Column(children) => Tree::Column(list(children)),
        }
    }

    /// Its Cells and ranges in node order.
    pub fn cells_mut(&mut self) -> Vec<&mut Plan> {
        match self {
            Plan::Cell(_) | Plan::Range(_) => vec![self],
            Plan::Row(children) | Plan::Column(children) => {
                children.iter_mut().flat_map(Plan::cells_mut).collect()
            }
        }
    }

    /// Its ranges in node order.
    pub fn ranges(&self) -> Vec<Range> {
        match self {
            Plan::Cell(_) => Vec::new(),
            Plan::Range(range) => vec![*range],
            Plan::Row(children) | Plan::Column(children) => {
                children.iter().flat_map(Plan::ranges).collect()
            }
        }
    }
}

/// The first field's 31 bytes, and the second's 11 where there is a margin.
pub fn encode_settings(settings: &Settings) -> Vec<u8> {
    let mut bytes = encode_record(settings);
    if settings.margin != Margin::NONE {
        bytes.extend(encode_margin(&settings.margin));
    }
    bytes
}

/// The second field.
pub fn encode_margin(margin: &Margin) -> Vec<u8> {
    [&[0x11, 0, 8], &margin.sizes[..], &margin.fills[..]].concat()
}

/// The first field.
pub fn encode_record(settings: &Settings) -> Vec<u8> {
    let mut bytes = vec![0x10, 0, 28];
    bytes.extend(settings.marks);
    bytes.extend(settings.padding);
    bytes.extend(settings.fills);
    bytes.extend([
        settings.horizontal,
        settings.vertical,
        settings.line_mode,
        settings.width_priority,
        settings.height_priority,
    ]);
    bytes
}

/// Panics where a length does not fit its two bytes.
pub fn encode_tree(tree: &Tree) -> Vec<u8> {
    fn put(tree: &Tree, bytes: &mut Vec<u8>) {
        let tag = match tree {
            Tree::Cell(_) => 1,
            Tree::Row(_) => 2,
            Tree::Column(_) => 3,
        };
        let length = u16::try_from(tree.bytes() - 3).expect("a length has two bytes");
        bytes.push(tag);
        bytes.extend(length.to_be_bytes());
        match tree {
            Tree::Cell(text) => bytes.extend(text),
            Tree::Row(children) | Tree::Column(children) => {
                children.iter().for_each(|child| put(child, bytes))
            }
        }
    }

    let mut bytes = Vec::with_capacity(tree.bytes());
    put(tree, &mut bytes);
    bytes
}

/// A tag, a two-byte length and the contents. Panics where these are too long for it.
pub fn encode_element(tag: u8, contents: &[u8]) -> Vec<u8> {
    let length = u16::try_from(contents.len()).expect("a length has two bytes");
    [&[tag][..], &length.to_be_bytes(), contents].concat()
}

/// 'In a planning tree an element of tag 4, length 4' is a range. Panics as `encode_tree` does.
pub fn encode_plan(plan: &Plan) -> Vec<u8> {
    let list = |children: &[Plan]| children.iter().flat_map(encode_plan).collect();
    let (tag, contents) = match plan {
        Plan::Cell(text) => (1, text.clone()),
        Plan::Row(children) => (2, list(children)),
        Plan::Column(children) => (3, list(children)),
        Plan::Range(Range { width, lines }) => (4, [*width, *lines].concat()),
    };
    encode_element(tag, &contents)
}

/// The five numbers of a node.
#[derive(Debug, Clone, Copy, Default, PartialEq, Eq)]
pub struct Size {
    pub natural_width: usize,
    pub natural_height: usize,
    pub allotted_width: usize,
    pub allotted_height: usize,
    /// 'The number of nodes below its node' (document 02, 7).
    pub below: usize,
}

/// The eight flags of document 01.
#[derive(Debug, Clone, Copy, Default, PartialEq, Eq)]
pub struct Flags {
    pub first_row: bool,
    pub last_row: bool,
    pub first_col: bool,
    pub last_col: bool,
    pub no_right: bool,
    pub lean_top: bool,
    pub top_left: bool,
    pub top_intersection: bool,
}

/// What a cut by `short_splits3` also says (document 02, 4).
#[derive(Debug, Clone, Copy, Default, PartialEq, Eq)]
pub struct CutPair {
    /// 'How many pieces it took.'
    pub taken: usize,
    /// 'The length left of the first piece not taken, 0 if there is none or it was removed.'
    pub rest: usize,
}

/// A leaf's record and its block.
#[derive(Debug, Clone, PartialEq, Eq)]
pub struct Leaf {
    pub node: usize,
    /// Allotted.
    pub width: usize,
    pub height: usize,
    /// The horizontal split list, as the leaf is given it.
    pub horizontal: Vec<usize>,
    pub vertical: Vec<usize>,
    pub flags: Flags,
    /// 'The pair from its own cut': the one that its parent made for it. 'Zeros for the root.'
    pub pair: CutPair,
    pub block: Vec<u8>,
}

/// The leaf of a place (document 02, 5): 'the leaf's number and the line and column inside its block'.
#[derive(Debug, Clone, Copy, Default, PartialEq, Eq)]
pub struct Owner {
    pub node: usize,
    pub line: usize,
    pub column: usize,
}

/// The leaf of each place of a printed sheet, line by line; none in the margin.
pub type Owners = Vec<Vec<Option<Owner>>>;

/// A list folded for a height (document 02, 9).
#[derive(Debug, Clone, PartialEq, Eq)]
pub struct Fold {
    /// The height t that its Columns stay within.
    pub height: usize,
    /// 'The number of cells in each Column.'
    pub columns: Vec<usize>,
    /// The Row's width inside: the Columns' and the separators between them.
    pub width: usize,
}

/// The least and the greatest W and H of a planning tree.
#[derive(Debug, Clone, Copy, Default, PartialEq, Eq)]
pub struct Ends {
    pub width: [usize; 2],
    pub height: [usize; 2],
}

/// A Cell, and the letters that it needs to widen the sheet.
#[derive(Debug, Clone, Copy, PartialEq, Eq)]
pub struct Need {
    pub node: usize,
    pub letters: usize,
}

/// What there is to know of one table.
#[derive(Debug, Clone, PartialEq, Eq)]
pub struct Answer {
    /// By node number.
    pub sizes: Vec<Size>,
    /// In node order.
    pub leaves: Vec<Leaf>,
    pub sheet: Vec<u8>,
}

/// What `short_splits3` answers for a list.
#[derive(Debug, Clone, PartialEq, Eq)]
pub struct Cut3 {
    pub yes: bool,
    pub taken: Vec<usize>,
    pub left: Vec<usize>,
    pub pair: CutPair,
}

/// What `short_splits` answers for a list, and `squash_splits` for its positions.
#[derive(Debug, Clone, PartialEq, Eq)]
pub struct Cut {
    pub positions: Vec<usize>,
    pub squashed: Vec<usize>,
    pub left: Vec<usize>,
}
