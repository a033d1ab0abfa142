//! Places of a sheet and their leaves, as they are answered.

use leg_sheet::{LeafPlace, Place, Tree};

use crate::places::Found;
use crate::table::{Field, Table};
use crate::texts::beginning;

/// A place and what was found there.
pub type Marked = (Place, Found);

/// A record for each place.
pub fn table(tree: &Tree, marked: &[Marked]) -> Table<7> {
    let texts = texts(tree);
    let names = [
        "line",
        "column",
        "node",
        "block_line",
        "block_column",
        "text",
        "refused",
    ];
    let row = |&(place, found): &Marked| {
        let of_leaf = |of: fn(LeafPlace) -> usize| Field::from(found.ok().map(of));
        let text = found.ok().map(|leaf| texts[leaf.node]);
        let refused = found.err().map(|refusal| usize::from(refusal.number()));
        [
            place.line.into(),
            place.column.into(),
            of_leaf(|leaf| leaf.node),
            of_leaf(|leaf| leaf.line),
            of_leaf(|leaf| leaf.column),
            text.into(),
            refused.into(),
        ]
    };
    let rows = marked.iter().map(row).collect();
    Table { names, rows }
}

/// A line for each place: the place, then the leaf with the beginning of its text, or why there is none.
pub fn lines(tree: &Tree, marked: &[Marked]) -> String {
    let texts = texts(tree);
    let line = |&(place, found): &Marked| {
        let Place { line, column } = place;
        match found {
            Ok(leaf) => format!(
                "{line} {column}: node {}, line {}, column {} of its block: {}",
                leaf.node,
                leaf.line,
                leaf.column,
                beginning(texts[leaf.node])
            ),
            Err(refusal) => format!("{line} {column}: {refusal}"),
        }
    };
    let lines = marked
        .iter()
        .map(|it| line(it).trim_end().to_string() + "\n");
    lines.collect()
}

/// The texts of the nodes; a Row or Column has the empty one.
fn texts(tree: &Tree) -> Vec<&str> {
    let nodes = tree.nodes();
    nodes.map(|node| node.text().unwrap_or_default()).collect()
}
