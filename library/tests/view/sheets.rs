//! The data of many pages, checked against the calls.

use std::fs;
use std::path::Path;

use leg_sheet::{Input, Marks, Settings, Sides, Tree};

use crate::held::{data, holds, plain};
use crate::json::Json;
use crate::random::Random;
use crate::{bytes, view, FOLDER};

/// The names of the examples with this ending.
fn named(ending: &str) -> Vec<String> {
    let entries = fs::read_dir(FOLDER).expect("a folder");
    let names = entries.map(|entry| entry.expect("an entry").file_name());
    let names = names.filter_map(|name| Some(name.to_str()?.to_string()));
    names.filter(|name| name.ends_with(ending)).collect()
}

#[test]
fn every_example() {
    let bytes = named(".legs")
        .into_iter()
        .filter(|name| name != "refused.legs");
    for name in bytes {
        let file = fs::read(Path::new(FOLDER).join(&name)).expect("an example");
        holds(&view(&[&name], b""), Input::split(&file), &name);
    }
    let lists = named(".list");
    for name in lists
        .iter()
        .filter(|name| !["mistake.list", "refused.list"].contains(&name.as_str()))
    {
        let list = fs::read(Path::new(FOLDER).join(name)).expect("an example");
        let tree = Tree::from_typed(list).map(|tree| tree.to_bytes().expect("bytes"));
        let (settings, tree) = (Settings::default().to_bytes(), tree.expect("a tree"));
        let input = Input {
            settings: &settings,
            tree: &tree,
        };
        holds(&view(&[name], b""), input, name);
    }
}

/// Of some hundreds all that a page has, and that they have what is looked for: crossings, and leaves without a place.
#[test]
fn random_sheets() {
    let mut random = Random(1);
    let mut seen = [0; 3];
    for round in 0..300 {
        let (settings, tree) = (random.settings(), random.tree(5));
        let file = bytes(&settings, &tree);
        let input = Input::split(&file);
        if input.print_sheet().is_err() {
            continue;
        }
        let page = view(&["-"], &file);
        holds(&page, input, &format!("round {round}"));
        for leaf in data(&page)["nodes"].list() {
            let is_leaf = leaf["flags"] != Json::Null;
            seen[0] += usize::from(leaf["above"] != Json::Null);
            seen[1] += usize::from(leaf["beside"] != Json::Null);
            seen[2] += usize::from(is_leaf && leaf["area"] == Json::Null);
        }
    }
    assert!(seen.iter().all(|&count| count > 10), "{seen:?}");
}

/// Where the cut that a leaf's parent made for it left a rest, that is what the leaf at the crossing has behind it. (Where the rest is 0 there may be a crossing, too.)
#[test]
fn crossings_are_those_of_the_cuts() {
    let mut random = Random(2);
    let mut rests = 0;
    for _ in 0..300 {
        let settings = random
            .settings()
            .with_marks(*b"--||-|+++++++++")
            .expect("marks");
        let file = bytes(&settings, &random.tree(5));
        if Input::split(&file).print_sheet().is_err() {
            continue;
        }
        let data = data(&view(&["-"], &file));
        rests += data["nodes"]
            .list()
            .iter()
            .map(|leaf| rest(&data, leaf))
            .sum::<usize>();
    }
    assert!(rests > 100, "{rests}");
}

/// Holds a leaf's crossing to its pair; 1 where the pair has a rest.
fn rest(data: &Json, leaf: &Json) -> usize {
    let nodes = data["nodes"].list();
    if leaf["flags"] == Json::Null || leaf["parent"] == Json::Null || leaf["pair"].numbers()[1] == 0
    {
        return 0;
    }
    let parent = &nodes[leaf["parent"].number() as usize];
    let (name, direction, size) = match parent["kind"].text() {
        "row" => ("above", 1, 0),
        _ => ("beside", 0, 1),
    };
    let crossing = leaf[name].numbers();
    let other = &nodes[crossing[2] as usize];
    let end = other["area"].numbers()[direction] + other["allotted"].numbers()[size];
    assert_eq!(end - crossing[direction], leaf["pair"].numbers()[1]);
    1
}

/// Without lines and padding an empty Cell has no place, and its sheet may have no column, or nothing but line feeds.
#[test]
fn sheets_without_places() {
    let bare = Settings::default()
        .with_marks(Marks::None)
        .and_then(|bare| bare.with_padding(Sides::all(0)));
    let bare = bare.expect("settings");
    for (tree, lines) in [
        (Tree::from(""), 1),
        (Tree::from("\n\n"), 3),
        (Tree::row([""; 2]), 1),
    ] {
        let file = bytes(&bare, &tree);
        let page = view(&["-"], &file);
        holds(&page, Input::split(&file), "no places");
        assert_eq!(plain(&page), "\n".repeat(lines - 1));
        assert!(page.contains("--lines: ") && !page.contains("--columns: 0"));
    }
}
