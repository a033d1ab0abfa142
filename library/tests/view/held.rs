//! A page's data, checked against the calls.

use leg_sheet::{Input, LeafPlace, Refusal, Tree};

use crate::json::Json;

/// What is between two marks, each of them there once.
pub fn between<'a>(page: &'a str, before: &str, after: &str) -> &'a str {
    assert_eq!(page.matches(before).count(), 1, "{before}");
    let (_, rest) = page.split_once(before).expect("the first mark");
    rest.split_once(after).expect("the second mark").0
}

pub fn data(page: &str) -> Json {
    let before = r#"<script type="application/json" id="data">"#;
    Json::read(between(page, before, "</script>"))
}

/// The text that a browser makes of HTML without elements.
pub fn unescaped(html: &str) -> String {
    let marks = [
        ("&lt;", "<"),
        ("&gt;", ">"),
        ("&quot;", "\""),
        ("&#39;", "'"),
        ("&amp;", "&"),
    ];
    marks.iter().fold(html.into(), |text: String, (from, to)| {
        text.replace(from, to)
    })
}

/// The sheet as it is in the page, readable without script.
pub fn plain(page: &str) -> String {
    unescaped(between(page, "<pre id=\"sheet\">\n", "</pre>"))
}

/// The nodes in their order, each with its parent.
fn numbered<'a>(tree: &'a Tree, parent: i64, nodes: &mut Vec<(i64, &'a Tree)>) {
    let own = nodes.len() as i64;
    nodes.push((parent, tree));
    if let Tree::Row(children) | Tree::Column(children) = tree {
        children
            .iter()
            .for_each(|child| numbered(child, own, nodes));
    }
}

/// What the page's script finds at a place: by the owners and the areas of the nodes.
fn found(
    owners: &[Vec<i64>],
    nodes: &[Json],
    line: usize,
    column: usize,
) -> Result<LeafPlace, Refusal> {
    let owner = owners.get(line).and_then(|line| line.get(column));
    let node = match owner {
        None => return Err(Refusal::OutsideSheet),
        Some(-1) => return Err(Refusal::InMargin),
        Some(&node) => node as usize,
    };
    let start = nodes[node]["area"].numbers();
    let inside = |at: usize, start: i64| at - start as usize;
    let (line, column) = (inside(line, start[0]), inside(column, start[1]));
    Ok(LeafPlace { node, line, column })
}

/// The owners of each line, one for each column.
fn owners(data: &Json) -> Vec<Vec<i64>> {
    let line = |runs: &Json| {
        let runs = runs.list().iter().map(Json::numbers);
        runs.flat_map(|run| vec![run[0]; run[1] as usize]).collect()
    };
    data["owners"].list().iter().map(line).collect()
}

/// The sheet's bytes in an area.
fn cut(sheet: &str, area: &[i64]) -> String {
    let [line, column, lines, columns] = [0, 1, 2, 3].map(|at| area[at] as usize);
    let lines = sheet.split('\n').skip(line).take(lines);
    let cut: Vec<&str> = lines.map(|line| &line[column..column + columns]).collect();
    cut.join("\n")
}

/// Checks all that a page has against the calls. The page looked up many places at once; here each is looked up alone.
pub fn holds(page: &str, input: Input, title: &str) {
    let data = data(page);
    let sheet = input.print_sheet().expect("a sheet");
    assert_eq!(plain(page), sheet, "{title}");
    assert_eq!(data["sheets"].list()[0]["sheet"].text(), sheet, "{title}");
    let first = sheet.split('\n').next().unwrap_or_default();
    let (lines, columns) = (sheet.split('\n').count(), first.len());
    assert_eq!(data["lines"].number(), lines as i64, "{title}");
    assert_eq!(data["columns"].number(), columns as i64, "{title}");

    let (owners, nodes) = (owners(&data), data["nodes"].list());
    for (line, column) in
        (0..lines + 2).flat_map(|line| (0..columns + 2).map(move |column| (line, column)))
    {
        let asked = input.place(line, column);
        assert_eq!(
            found(&owners, nodes, line, column),
            asked,
            "{title}: {line} {column}"
        );
    }
    let tree = Tree::from_bytes(input.tree).expect("a tree");
    let mut list = Vec::new();
    numbered(&tree, -1, &mut list);
    assert_eq!(nodes.len(), list.len(), "{title}");
    let texts = data["sheets"].list()[0]["texts"].texts();
    for (number, (parent, tree)) in list.into_iter().enumerate() {
        holds_node(&data, number, parent, input);
        let (kind, text) = match tree {
            Tree::Cell(text) => ("cell", text.as_str()),
            Tree::Row(_) => ("row", ""),
            Tree::Column(_) => ("column", ""),
        };
        assert_eq!(
            (nodes[number]["kind"].text(), texts[number]),
            (kind, text),
            "{title}"
        );
    }
}

/// A node's parent, sizes, and the area of its branch, which has no other leaf's place.
fn holds_node(data: &Json, number: usize, parent: i64, input: Input) {
    let node = &data["nodes"].list()[number];
    let parent = if parent < 0 {
        Json::Null
    } else {
        Json::Number(parent)
    };
    assert_eq!(node["parent"], parent);
    let size = input.sizes().expect("sizes")[number];
    let numbers = |wide: u16, high: u16| vec![i64::from(wide), i64::from(high)];
    assert_eq!(node["below"].number(), i64::from(size.below));
    assert_eq!(
        node["natural"].numbers(),
        numbers(size.natural_width, size.natural_height)
    );
    assert_eq!(
        node["allotted"].numbers(),
        numbers(size.allotted_width, size.allotted_height)
    );
    let branch = number as i64..=number as i64 + i64::from(size.below);
    let owned = owners(data).into_iter().flatten();
    let places = owned.filter(|owner| branch.contains(owner)).count() as i64;
    if node["area"] == Json::Null {
        assert_eq!(places, 0);
    } else {
        let area = node["area"].numbers();
        assert_eq!(area[2] * area[3], places, "node {number}");
    }
    if size.below == 0 {
        holds_leaf(data, number, input);
    } else {
        assert_eq!(node["flags"], Json::Null);
    }
}

/// A leaf's record; the bytes of its block, which are the sheet's in its area; its crossings.
fn holds_leaf(data: &Json, number: usize, input: Input) {
    let leaf = &data["nodes"].list()[number];
    let record = input.leaf_record(number).expect("a record");
    let set = record
        .flags
        .named()
        .into_iter()
        .filter(|(_, is_set)| *is_set);
    let flags: Vec<&str> = set.map(|(name, _)| name).collect();
    assert_eq!(leaf["flags"].texts(), flags);
    let pair = vec![record.pair.taken as i64, record.pair.rest.into()];
    assert_eq!(leaf["pair"].numbers(), pair);
    assert_eq!(
        leaf["allotted"].numbers(),
        [i64::from(record.width), record.height.into()]
    );
    if leaf["area"] == Json::Null {
        assert_eq!(
            (&leaf["above"], &leaf["beside"]),
            (&Json::Null, &Json::Null)
        );
        return;
    }
    let area = leaf["area"].numbers();
    let sheet = data["sheets"].list()[0]["sheet"].text();
    assert_eq!(
        cut(sheet, &area),
        input.print_leaf(number).expect("a block")
    );
    let behind = (area[0], area[1] + area[3]);
    let under = (area[0] + area[2], area[1]);
    assert_eq!(
        leaf["above"],
        crossing(input, behind, (1, 0)),
        "node {number}"
    );
    assert_eq!(
        leaf["beside"],
        crossing(input, under, (0, 1)),
        "node {number}"
    );
}

/// A crossing at a place of the sheet: where the leaf one step before begins before that place, too.
fn crossing(input: Input, (line, column): (i64, i64), (up, left): (i64, i64)) -> Json {
    let leaf = |line: i64, column: i64| {
        input
            .place(line.try_into().ok()?, column.try_into().ok()?)
            .ok()
    };
    let Some((_, before)) = leaf(line, column).zip(leaf(line - up, column - left)) else {
        return Json::Null;
    };
    let begins_before = match up {
        1 => before.column > 0,
        _ => before.line > 0,
    };
    if !begins_before {
        return Json::Null;
    }
    Json::List([line, column, before.node as i64].map(Json::Number).into())
}
