//! The original's answers: the tables of crate `original` (as published) and of crate `traced` (with trace lines).

use crate::folding;
use crate::form::{
    Answer, Cut, Cut3, CutPair, Ends, Flags, Fold, Leaf, Need, Owner, Owners, Plan, Settings, Size,
    Tree,
};
use crate::planning;
use crate::widening;

/// The same few lines over the types of each of the two builds.
macro_rules! build {
    ($name:ident, $krate:ident) => {
        mod $name {
            use $krate::grid::config::{
                AlignmentHorizontal, AlignmentVertical, Borders, CompactMultilineConfig,
                Formatting, Indent, Sides,
            };
            use $krate::grid::dimension::{DimensionPriority, PoolTableDimension};
            use $krate::tables::{PoolTable, TableValue};

            use crate::form::{Settings, Tree};

            pub fn value(tree: &Tree) -> TableValue {
                let list = |children: &[Tree]| children.iter().map(value).collect();
                match tree {
                    Tree::Cell(text) => {
                        TableValue::Cell(String::from_utf8(text.clone()).expect("an ASCII text"))
                    }
                    Tree::Row(children) => TableValue::Row(list(children)),
                    Tree::Column(children) => TableValue::Column(list(children)),
                }
            }

            fn sides(sizes: [u8; 4], fills: [u8; 4]) -> Sides<Indent> {
                let indent = |at: usize| Indent::new(sizes[at].into(), fills[at].into());
                Sides::new(indent(0), indent(1), indent(2), indent(3))
            }

            /// A mark of 0 is none (document 02, 13).
            pub fn config(settings: &Settings) -> CompactMultilineConfig {
                let mark = |at: usize| Some(char::from(settings.marks[at])).filter(|&c| c != '\0');

                let mut config = CompactMultilineConfig::new();
                config.set_borders(Borders {
                    top: mark(0),
                    bottom: mark(1),
                    left: mark(2),
                    right: mark(3),
                    horizontal: mark(4),
                    vertical: mark(5),
                    top_left: mark(6),
                    top_right: mark(7),
                    top_intersection: mark(8),
                    bottom_left: mark(9),
                    bottom_right: mark(10),
                    bottom_intersection: mark(11),
                    left_intersection: mark(12),
                    right_intersection: mark(13),
                    intersection: mark(14),
                });
                config.set_padding(sides(settings.padding, settings.fills));
                config.set_margin(sides(settings.margin.sizes, settings.margin.fills));
                config.set_alignment_horizontal(match settings.horizontal {
                    0 => AlignmentHorizontal::Left,
                    1 => AlignmentHorizontal::Center,
                    2 => AlignmentHorizontal::Right,
                    other => panic!("no horizontal alignment {other}"),
                });
                config.set_alignment_vertical(match settings.vertical {
                    0 => AlignmentVertical::Top,
                    1 => AlignmentVertical::Center,
                    2 => AlignmentVertical::Bottom,
                    other => panic!("no vertical alignment {other}"),
                });
                config.set_formatting(match settings.line_mode {
                    0 => Formatting::new(false, false, false),
                    1 => Formatting::new(false, false, true),
                    other => panic!("no line mode {other}"),
                });
                config
            }

            fn priority(number: u8) -> DimensionPriority {
                match number {
                    0 => DimensionPriority::First,
                    1 => DimensionPriority::Last,
                    2 => DimensionPriority::List,
                    other => panic!("no priority {other}"),
                }
            }

            pub fn table(settings: &Settings, tree: &Tree) -> PoolTable {
                let dimension = PoolTableDimension::new(
                    priority(settings.width_priority),
                    priority(settings.height_priority),
                );
                let mut table = PoolTable::from(value(tree));
                let _ = table.with(config(settings)).with(dimension);
                table
            }
        }
    };
}

build!(published, tabled);
build!(instrumented, traced);

/// The sheet of the original as published.
pub fn sheet(settings: &Settings, tree: &Tree) -> Vec<u8> {
    published::table(settings, tree).to_string().into_bytes()
}

/// The sheet of the original as published, with its own defaults and no setting of ours.
pub fn default_sheet(tree: &Tree) -> Vec<u8> {
    tabled::tables::PoolTable::from(published::value(tree))
        .to_string()
        .into_bytes()
}

/// An answer of the original and what was seen on the way.
#[derive(Debug, Clone, PartialEq, Eq)]
pub struct Seen {
    pub answer: Answer,
    /// Joins of blocks of unequal height or width, which the stand-in `Table` had to fill up by an assumption of its own.
    pub uneven: usize,
}

/// The nodes below each node, which the original does not say: those of its branch in the tree, but for itself.
fn below(tree: &Tree) -> Vec<usize> {
    let children = tree.children().iter().flat_map(below);
    std::iter::once(tree.nodes() - 1).chain(children).collect()
}

/// All that the original says about a table. Panics where the two builds print different sheets, where the trace contradicts document 01 on
/// which nodes there are and which flags are always false, and where a child is not given what was taken for it.
pub fn seen(settings: &Settings, tree: &Tree) -> Seen {
    let _ = (traced::trace::take(), traced::table::uneven());
    let traced_sheet = instrumented::table(settings, tree).to_string().into_bytes();
    let (trace, uneven) = (traced::trace::take(), traced::table::uneven());
    let sheet = sheet(settings, tree);
    assert!(sheet == traced_sheet, "the trace lines change the sheet");

    let count = tree.nodes();
    let mut naturals = vec![None; count];
    for (pos, width, height) in trace.naturals {
        assert_eq!(naturals[pos], None, "node {pos} is measured twice");
        naturals[pos] = Some((width, height));
    }

    let mut cuts = vec![None; count];
    for cut in trace.cuts {
        let pos = cut.pos;
        assert!(cuts[pos].is_none(), "a list is cut for node {pos} twice");
        cuts[pos] = Some((cut.is_row, cut3(&cut.splits, cut.width)));
    }

    let below = below(tree);
    let mut sizes = vec![None; count];
    for node in &trace.nodes {
        let (natural_width, natural_height) = naturals[node.pos].expect("a node is measured");
        assert_eq!(sizes[node.pos], None, "node {} is visited twice", node.pos);
        assert!(
            !(node.kv || node.kv_is_first || node.no_bottom),
            "kv, kv_is_first and no_bottom are always false"
        );
        match &cuts[node.pos] {
            None => assert_eq!(node.pos, 0, "a list is cut for every child"),
            Some((true, cut)) => assert_eq!(cut.taken, node.intersections_horizontal),
            Some((false, cut)) => assert_eq!(cut.taken, node.intersections_vertical),
        }
        sizes[node.pos] = Some(Size {
            natural_width,
            natural_height,
            allotted_width: node.width,
            allotted_height: node.height,
            below: below[node.pos],
        });
    }

    let mut nodes = trace.nodes.into_iter();
    let leaves = trace.blocks.into_iter().map(|(pos, block)| {
        let node = nodes
            .find(|node| node.pos == pos)
            .expect("leaves come in node order");
        Leaf {
            node: pos,
            width: node.width,
            height: node.height,
            horizontal: node.intersections_horizontal,
            vertical: node.intersections_vertical,
            flags: Flags {
                first_row: node.is_first_row,
                last_row: node.is_last_row,
                first_col: node.is_first_col,
                last_col: node.is_last_col,
                no_right: node.no_right,
                lean_top: node.lean_top,
                top_left: node.top_left,
                top_intersection: node.top_intersection,
            },
            pair: cuts[pos]
                .as_ref()
                .map_or(CutPair::default(), |(_, cut)| cut.pair),
            block: block.into_bytes(),
        }
    });

    let answer = Answer {
        leaves: leaves.collect(),
        sizes: sizes
            .into_iter()
            .map(|size| size.expect("every node is visited"))
            .collect(),
        sheet,
    };
    Seen { answer, uneven }
}

/// Whether a leaf has columns, as many in each line of its block. Without lines some have one more in some lines (document 02, 13).
pub fn is_even(leaf: &Leaf) -> bool {
    let mut lines = leaf.block.split(|&byte| byte == b'\n').map(<[u8]>::len);
    let first = lines.next();
    leaf.width > 0 && lines.all(|columns| Some(columns) == first)
}

/// All that the original answers for a table. Panics where the stand-in `Table` filled up though each block is even: no compared sheet
/// rests on how it fills.
pub fn answer(settings: &Settings, tree: &Tree) -> Answer {
    let Seen { answer, uneven } = seen(settings, tree);
    let is_even = answer.leaves.iter().all(is_even);
    assert!(uneven == 0 || !is_even, "blocks of unequal size are joined");
    answer
}

/// The leaf of each place of the sheet. The original does not say it, but shows it: it joins its blocks' lines side by side in a Row, one under the other in a Column,
/// and puts the margin around them. So are their places joined here. Panics where the sheet's byte at a place is not that of its owner's block.
pub fn owners(settings: &Settings, tree: &Tree, answer: &Answer) -> Owners {
    /// A place with the byte of the block there.
    type Place = (Owner, u8);

    fn leaf(leaf: &Leaf) -> Vec<Vec<Place>> {
        let node = leaf.node;
        let places = |(line, bytes): (usize, &[u8])| {
            let bytes = bytes.iter().enumerate();
            let place = |(column, &byte): (usize, &u8)| (Owner { node, line, column }, byte);
            bytes.map(place).collect()
        };
        let lines = leaf.block.split(|&byte| byte == b'\n').enumerate();
        lines.map(places).collect()
    }

    fn joined(tree: &Tree, leaves: &mut std::slice::Iter<Leaf>) -> Vec<Vec<Place>> {
        let mut children = tree.children().iter();
        let Some(first) = children.next() else {
            return leaf(leaves.next().expect("each leaf has a block"));
        };
        let mut lines = joined(first, leaves);
        for child in children {
            let more = joined(child, leaves);
            match tree {
                Tree::Row(_) => {
                    let pairs = lines.iter_mut().zip(more);
                    pairs.for_each(|(line, more)| line.extend(more));
                }
                _ => lines.extend(more),
            }
        }
        lines
    }

    let lines = joined(tree, &mut answer.leaves.iter());
    let [left, _, top, _] = settings.margin.sizes.map(usize::from);
    let printed: Vec<&[u8]> = answer.sheet.split(|&byte| byte == b'\n').collect();
    let mut owners: Owners = printed.iter().map(|line| vec![None; line.len()]).collect();
    for (i, line) in lines.into_iter().enumerate() {
        for (j, (owner, byte)) in line.into_iter().enumerate() {
            let (line, column) = (top + i, left + j);
            assert_eq!(printed[line][column], byte, "another byte than the block's");
            owners[line][column] = Some(owner);
        }
    }
    owners
}

/// The natural width and height of each node, as the original collects them before it prints.
fn naturals(settings: &Settings, tree: &Tree) -> Vec<(usize, usize)> {
    let (value, config) = (instrumented::value(tree), instrumented::config(settings));
    let mut sizes = vec![(0, 0); tree.nodes()];
    for (pos, width, height) in traced::tables::dimensions(&value, &config) {
        sizes[pos] = (width, height);
    }
    sizes
}

/// Every fold of a list, from the one-Column height down to the tallest cell (document 02, 9). The original folds nothing, but measures what was folded: the
/// heights are those of its cells, the width is that of its Row. Panics where by its sizes a Column is above t, or would not be with the next cell.
pub fn folds(settings: &Settings, cells: &[Tree]) -> Vec<Fold> {
    let natural = |tree: Tree| naturals(settings, &tree)[0];
    let list = naturals(settings, &Tree::Column(cells.to_vec()));
    let heights: Vec<usize> = list[1..].iter().map(|&(_, height)| height).collect();
    let tallest = heights.iter().copied().max().expect("a list has cells");
    // As the original counts it in a Column.
    let separator = usize::from(instrumented::config(settings).get_borders().has_top());

    // The folds of neighbouring heights are often the same, and are measured once: the width, the height, and the least height of a Column with one more cell.
    let mut folds: Vec<Fold> = Vec::new();
    let (mut width, mut high, mut higher) = (0, 0, 0);
    for height in (tallest..=list[0].1).rev() {
        let columns = folding::columns(&heights, separator, height);
        if folds.last().map(|fold| &fold.columns) != Some(&columns) {
            (width, high) = natural(folding::row(cells, &columns));
            let more = folding::longer(cells, &columns).map(|column| natural(column).1);
            higher = more.min().unwrap_or(usize::MAX);
        }
        assert!(
            (high..higher).contains(&height),
            "another fold for {height}"
        );
        folds.push(Fold {
            height,
            columns,
            width,
        });
    }
    folds
}

/// The columns that a sheet has beside its root and its margin, and the lines: an edge is printed where the original's borders have one.
fn edges(settings: &Settings) -> (usize, usize) {
    let config = instrumented::config(settings);
    let borders = config.get_borders();
    let both = |one: bool, other: bool| usize::from(one) + usize::from(other);
    (
        both(borders.has_left(), borders.has_right()),
        both(borders.has_top(), borders.has_bottom()),
    )
}

/// The least and the greatest W and H of a planning tree (document 02, 10), by trying: the original measures the tree of each choice of texts, where there are not too
/// many, else those of the end choices.
pub fn ends(settings: &Settings, plan: &Plan) -> Ends {
    let [left, right, top, bottom] = settings.margin.sizes.map(usize::from);
    let (across, down) = edges(settings);
    let mut found: Option<Ends> = None;
    for choice in planning::choices(&plan.ranges()) {
        let (w, h) = naturals(settings, &planning::chosen(plan, &choice))[0];
        let (w, h) = (left + w + across + right, top + h + down + bottom);
        let Ends { width, height } = found.unwrap_or(Ends {
            width: [w, w],
            height: [h, h],
        });
        found = Some(Ends {
            width: [width[0].min(w), width[1].max(w)],
            height: [height[0].min(h), height[1].max(h)],
        });
    }
    found.expect("there is a choice")
}

/// The Cells with the letters that each needs to widen the sheet (document 02, 11). The number is guessed: of very many letters those that only filled up are missing in
/// the width. Panics where by the original's sizes one letter less changes the width, or this many do not make it larger.
pub fn needs(settings: &Settings, tree: &Tree) -> Vec<Need> {
    let width = |tree: &Tree| naturals(settings, tree)[0].0;
    let natural = width(tree);
    widening::listed(tree, |node| {
        let with = |letters: usize| width(&widening::widened(tree, node, letters));
        // The Cell alone is then wider than the sheet.
        let many = natural + 1;
        let letters = many + 1 - (with(many) - natural);
        assert_eq!(with(letters - 1), natural, "{letters} letters of {node}");
        assert!(with(letters) > natural, "{letters} letters of {node}");
        letters
    })
}

/// `short_splits3`. It does not say the pair, but shows it: the pieces taken are counted, and where nothing was removed the list left begins with the
/// first piece not taken.
pub fn cut3(list: &[usize], width: usize) -> Cut3 {
    let mut left = list.to_vec();
    let (yes, taken) = traced::tables::short_splits3(&mut left, width);
    let first = if yes { None } else { left.first() };
    let pair = CutPair {
        taken: taken.len(),
        rest: first.copied().unwrap_or(0),
    };
    Cut3 {
        yes,
        taken,
        left,
        pair,
    }
}

/// `short_splits`, then `squash_splits` on a copy.
pub fn cut(list: &[usize], width: usize) -> Cut {
    let mut left = list.to_vec();
    let positions = traced::tables::short_splits(&mut left, width);
    let mut squashed = positions.clone();
    traced::tables::squash_splits(&mut squashed);
    Cut {
        positions,
        squashed,
        left,
    }
}

/// The parts of `n` children, out of a table with this much spare: a Row of empty Cells under a Cell that is wider by it.
pub fn shares_of_width(spare: usize, n: usize, priority: u8) -> Vec<usize> {
    let settings = Settings {
        padding: [0; 4],
        width_priority: priority,
        ..Settings::D
    };
    let tree = Tree::Column(vec![
        Tree::Cell(vec![b'x'; n - 1 + spare]),
        Tree::Row(vec![Tree::cell(""); n]),
    ]);
    let sizes = answer(&settings, &tree).sizes;
    sizes[3..]
        .iter()
        .map(|size| size.allotted_width - size.natural_width)
        .collect()
}

/// The same by lines: a Column of empty Cells beside a Cell that is higher by the spare.
pub fn shares_of_height(spare: usize, n: usize, priority: u8) -> Vec<usize> {
    let settings = Settings {
        padding: [0; 4],
        height_priority: priority,
        ..Settings::D
    };
    let tree = Tree::Row(vec![
        Tree::Cell(vec![b'\n'; 2 * n - 2 + spare]),
        Tree::Column(vec![Tree::cell(""); n]),
    ]);
    let sizes = answer(&settings, &tree).sizes;
    sizes[3..]
        .iter()
        .map(|size| size.allotted_height - size.natural_height)
        .collect()
}
