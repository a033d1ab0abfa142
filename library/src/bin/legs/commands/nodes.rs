use leg_sheet::{typed_lines, Node, Place, Refusal, SizeRecord, Tree, TypedLine};

use super::{Answer, Command};
use crate::fault::Fault;
use crate::file::File;
use crate::given::Given;
use crate::options::{JSON, TSV};
use crate::shown::tell;
use crate::table::{Field, Table};

pub const COMMAND: Command = Command {
    name: "nodes",
    operands: &["FILE"],
    options: &[TSV, JSON],
    takes_settings: true,
    about: "each node: the line of the typed list, its kind, the nodes below, where it starts in the sheet, its size, its text",
    run,
};

const NAMES: [&str; 9] = [
    "node",
    "list_line",
    "kind",
    "nodes_below",
    "start_line",
    "start_column",
    "width",
    "height",
    "text",
];

fn run(given: &Given) -> Result<Answer, Fault> {
    let file = given.file()?;
    let (tree, sizes) = (file.tree()?, file.call(|input| input.sizes())?);
    let starts = starts(&file, sizes.len())?;
    let lines = lines(&file);
    let row = |node: Node| {
        let at = node.number;
        let line = lines.as_ref().map(|lines| lines[at]);
        row(node, line, starts[at], sizes[at])
    };
    let rows = tree.nodes().map(row).collect();
    let names = NAMES;
    let table = Table { names, rows };
    Ok(Answer::many(given, &table, || table.columns()))
}

fn row(node: Node, line: Option<usize>, start: Option<Place>, size: SizeRecord) -> [Field; 9] {
    let kind = match node.tree {
        Tree::Cell(_) => "text",
        Tree::Row(_) => "row",
        Tree::Column(_) => "column",
    };
    [
        node.number.into(),
        line.into(),
        kind.into(),
        size.below.into(),
        start.map(|start| start.line).into(),
        start.map(|start| start.column).into(),
        size.allotted_width.into(),
        size.allotted_height.into(),
        node.text().into(),
    ]
}

/// Where the nodes start. In a sheet that is too large they start nowhere, which is reported.
fn starts(file: &File, count: usize) -> Result<Vec<Option<Place>>, Fault> {
    match file.call(|input| input.starts()) {
        Err(fault @ Fault::Refused(_, Refusal::TooLarge, _)) => {
            tell(&fault.to_string());
            Ok(vec![None; count])
        }
        starts => starts,
    }
}

/// The lines of the nodes, where they were typed.
fn lines(file: &File) -> Option<Vec<usize>> {
    let nodes = typed_lines(file.list()?).filter(TypedLine::is_node);
    Some(nodes.map(|line| line.number).collect())
}
