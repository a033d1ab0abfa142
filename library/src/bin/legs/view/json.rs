//! A page's data as JSON, for its script. Places are [line, column].

use leg_sheet::{Place, Refusal};

use super::data::{Layout, Leaf, Node, Texts};
use super::escape::json;
use super::owners::{Area, Crossing};

/// The layout; the texts of each sheet that has it; the words of the refusals that a place may get.
pub fn data(layout: &Layout, sheets: &[Texts]) -> String {
    let owners = layout.owners.lines.iter().map(|line| runs(line));
    let nodes = layout.nodes.iter().map(node);
    let refusals = [Refusal::OutsideSheet, Refusal::InMargin];
    let words = refusals.map(|refusal| {
        let (number, sentence) = (refusal.number(), json(refusal.sentence()));
        format!("\"{number}\":{sentence}")
    });
    format!(
        "{{\"lines\":{},\"columns\":{},\n\"refusals\":{{{}}},\n\"owners\":{},\n\"nodes\":{},\n\"sheets\":{}}}",
        layout.lines,
        layout.columns,
        words.join(","),
        list(owners),
        list(nodes),
        list(sheets.iter().map(sheet)),
    )
}

fn list(items: impl Iterator<Item = String>) -> String {
    format!("[{}]", items.collect::<Vec<_>>().join(","))
}

fn numbers<const N: usize>(numbers: [usize; N]) -> String {
    list(numbers.iter().map(usize::to_string))
}

/// A line's owners: how many places in a row belong to which leaf, -1 for the margin.
fn runs(owners: &[Option<usize>]) -> String {
    list(owners.chunk_by(|one, two| one == two).map(|run| {
        let owner = run[0].map_or("-1".into(), |node| node.to_string());
        format!("[{owner},{}]", run.len())
    }))
}

fn node(node: &Node) -> String {
    let [natural_width, natural_height, width, height, below] =
        node.size.to_numbers().map(usize::from);
    format!(
        "{{\"kind\":\"{}\",\"parent\":{},\"below\":{below},\"natural\":{},\"allotted\":{},\"area\":{}{}}}",
        node.kind,
        or_null(node.parent, |parent| parent.to_string()),
        numbers([natural_width, natural_height]),
        numbers([width, height]),
        or_null(node.area, area),
        node.leaf.as_ref().map_or(String::new(), leaf),
    )
}

/// The members that leaves have alone.
fn leaf(leaf: &Leaf) -> String {
    let set = leaf.flags.named().into_iter().filter(|(_, is_set)| *is_set);
    format!(
        ",\"flags\":{},\"pair\":{},\"above\":{},\"beside\":{}",
        list(set.map(|(name, _)| json(name))),
        numbers([leaf.pair.taken, leaf.pair.rest.into()]),
        or_null(leaf.above.as_ref(), crossing),
        or_null(leaf.beside.as_ref(), crossing),
    )
}

/// Its place, and the node that it meets.
fn crossing(crossing: &Crossing) -> String {
    let Place { line, column } = crossing.place;
    numbers([line, column, crossing.node])
}

/// Its first place, its lines and its columns.
fn area(Area { first, last }: Area) -> String {
    let (lines, columns) = (last.line - first.line + 1, last.column - first.column + 1);
    numbers([first.line, first.column, lines, columns])
}

fn sheet(sheet: &Texts) -> String {
    format!(
        "{{\"name\":{},\"sheet\":{},\"texts\":{}}}",
        json(&sheet.name),
        json(&sheet.sheet),
        list(sheet.texts.iter().map(|text| json(text))),
    )
}

fn or_null<T>(value: Option<T>, shown: impl Fn(T) -> String) -> String {
    value.map_or("null".into(), shown)
}
