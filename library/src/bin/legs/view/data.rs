//! What a page shows. Every number comes from the proved calls: the sheet from `print_sheet`, the leaf of each place from `places`, sizes and nodes below from `sizes`, flags and pair from `leaf_record`.

use leg_sheet::{CutPair, Flags, Input, LeafRecord, Refusal, SizeRecord, Tree};

use super::owners::{Area, Crossing, Owners};

/// What blanked texts leave as it is: a key and its question paper have one layout (document 02, 14).
#[derive(PartialEq)]
pub struct Layout {
    pub lines: usize,
    pub columns: usize,
    pub owners: Owners,
    /// By their numbers.
    pub nodes: Vec<Node>,
}

#[derive(PartialEq)]
pub struct Node {
    pub kind: &'static str,
    pub parent: Option<usize>,
    pub size: SizeRecord,
    /// Where its leaves are; without lines a leaf of width 0 has no place.
    pub area: Option<Area>,
    pub leaf: Option<Leaf>,
}

/// What a leaf has beside other nodes.
#[derive(PartialEq)]
pub struct Leaf {
    pub flags: Flags,
    pub pair: CutPair,
    /// At the upper end of its right side, where that is under the middle of a leaf.
    pub above: Option<Crossing>,
    /// At the left end of its lower side, where that is right of the middle of a leaf.
    pub beside: Option<Crossing>,
}

impl Layout {
    pub fn of(input: Input) -> Result<Layout, Refusal> {
        let sheet = input.print_sheet()?;
        let (lines, columns) = dimensions(&sheet);
        let sizes = input.sizes()?;
        let owners = Owners::of(input, lines, columns, sizes.len())?;
        let tree = Tree::from_bytes(input.tree)?;
        let mut nodes = Vec::new();
        for (number, (parent, tree)) in numbered(&tree).into_iter().enumerate() {
            let size = sizes[number];
            let below = &owners.areas[number..=number + usize::from(size.below)];
            nodes.push(Node {
                kind: kind(tree),
                parent,
                size,
                area: below.iter().copied().flatten().reduce(Area::with),
                leaf: match size.below {
                    0 => Some(leaf(&input.leaf_record(number)?, &owners)),
                    _ => None,
                },
            });
        }
        Ok(Layout {
            lines,
            columns,
            owners,
            nodes,
        })
    }

    /// Why a sheet of other texts, under the same settings or others, is not laid out as this one, where it is not.
    pub fn difference(&self, other: &Layout, has_same_settings: bool) -> Option<String> {
        if self == other {
            return None;
        }
        let first = |differ: fn((&Node, &Node)) -> bool| {
            let mut pairs = self.nodes.iter().zip(&other.nodes);
            pairs.position(differ)
        };
        let kind = first(|(one, two)| (one.kind, one.parent) != (two.kind, two.parent));
        let text = first(|(one, two)| one.leaf.is_some() && natural(one) != natural(two));
        let (count, others) = (self.nodes.len(), other.nodes.len());
        Some(match (kind, text) {
            (Some(node), _) => format!("node {node} is of another kind, or has another parent"),
            _ if count != others => format!("it has {others} nodes, and not {count}"),
            (_, Some(node)) if has_same_settings => format!("node {node} is of another size"),
            _ => "its settings are different".into(),
        })
    }
}

/// What a node's own contents need.
fn natural(node: &Node) -> (u16, u16) {
    (node.size.natural_width, node.size.natural_height)
}

/// A sheet's lines and columns. One of no columns is line feeds alone, and has a line more.
fn dimensions(sheet: &str) -> (usize, usize) {
    let first = sheet.split('\n').next().unwrap_or_default();
    (sheet.split('\n').count(), first.len())
}

fn leaf(record: &LeafRecord, owners: &Owners) -> Leaf {
    let area = owners.areas[record.node];
    Leaf {
        flags: record.flags,
        pair: record.pair,
        above: area.and_then(|area| owners.above(area)),
        beside: area.and_then(|area| owners.beside(area)),
    }
}

/// The texts of a sheet's leaves, which its layout leaves out.
pub struct Texts {
    pub name: String,
    pub sheet: String,
    /// By the nodes' numbers; of a Row or Column an empty one.
    pub texts: Vec<String>,
}

impl Texts {
    pub fn of(name: String, input: Input) -> Result<Texts, Refusal> {
        let tree = Tree::from_bytes(input.tree)?;
        let text = |(_, node): (_, &Tree)| match node {
            Tree::Cell(text) => text.clone(),
            _ => String::new(),
        };
        Ok(Texts {
            name,
            sheet: input.print_sheet()?,
            texts: numbered(&tree).into_iter().map(text).collect(),
        })
    }
}

fn kind(tree: &Tree) -> &'static str {
    match tree {
        Tree::Cell(_) => "cell",
        Tree::Row(_) => "row",
        Tree::Column(_) => "column",
    }
}

/// The nodes in the order of their numbers, each with its parent's.
fn numbered(tree: &Tree) -> Vec<(Option<usize>, &Tree)> {
    let mut nodes = Vec::new();
    number(tree, None, &mut nodes);
    nodes
}

fn number<'a>(tree: &'a Tree, parent: Option<usize>, nodes: &mut Vec<(Option<usize>, &'a Tree)>) {
    let own = nodes.len();
    nodes.push((parent, tree));
    if let Tree::Row(children) | Tree::Column(children) = tree {
        let each = children.iter();
        each.for_each(|child| number(child, Some(own), nodes));
    }
}
