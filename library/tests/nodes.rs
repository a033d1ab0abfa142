//! The nodes of trees: their numbers, parents and texts, and where they start in the sheet; and planning lists that are typed.

use leg_sheet::{
    next_sibling, Input, LeafPlace, Marks, Place, Plan, Refusal, Settings, Sides, Tree, TypedFault,
};

/// A number that looks random.
fn next(seed: &mut u64) -> usize {
    *seed = seed.wrapping_mul(6_364_136_223_846_793_005).wrapping_add(1);
    (*seed >> 33) as usize
}

/// A tree no deeper than this many levels.
fn some_tree(seed: &mut u64, levels: usize) -> Tree {
    let number = next(seed);
    if levels == 1 || number % 4 == 0 {
        return Tree::from(["", "a", "bcd", "x\ny", "two\nlines\n"][number / 4 % 5]);
    }
    let children = (0..number / 8 % 5).map(|_| some_tree(seed, levels - 1));
    if number % 2 == 0 {
        Tree::Row(children.collect())
    } else {
        Tree::Column(children.collect())
    }
}

/// By the sizes, which count the nodes below, a parent leads to each of its children and no further.
#[test]
fn nodes_are_those_of_the_calls() {
    let mut seed = 7;
    for round in 0..300 {
        let tree = some_tree(&mut seed, 1 + round % 6);
        let sizes = leg_sheet::sizes(&Settings::default(), &tree).expect("a tree");
        let nodes: Vec<_> = tree.nodes().collect();
        assert_eq!(nodes.len(), sizes.len());
        let mut parents = vec![None; nodes.len()];
        for (number, node) in nodes.iter().enumerate() {
            assert_eq!(node.number, number);
            assert_eq!(node.below(), usize::from(sizes[number].below));
            assert_eq!(tree.node(number), Some(node.tree));
            assert_eq!(node.is_leaf(), sizes[number].below == 0);
            let mut child = (!node.is_leaf()).then_some(number + 1);
            let mut count = 0;
            while let Some(at) = child {
                parents[at] = Some(number);
                assert_eq!(&node.tree.children()[count], nodes[at].tree);
                assert_eq!(nodes[at].level, node.level + 1);
                count += 1;
                child = next_sibling(&sizes, number, at);
            }
            assert_eq!(node.tree.children().len(), count);
        }
        assert!(nodes.iter().map(|node| node.parent).eq(parents));
        assert_eq!(tree.node(nodes.len()), None);
        assert_eq!(nodes[0].level, 0);
    }
}

#[test]
fn texts_of_nodes() {
    let tree = Tree::row([Tree::column(["a", "b"]), "c".into(), Tree::Row(vec![])]);
    let texts: Vec<_> = tree.nodes().map(|node| node.text()).collect();
    assert_eq!(texts, [None, None, Some("a"), Some("b"), Some("c"), None]);
    // Far deeper than any sheet.
    let deep = (0..100_000).fold(Tree::from("a"), |tree, _| Tree::row([tree]));
    assert_eq!(deep.nodes().last().map(|node| node.level), Some(100_000));
    // To drop it would take a frame of the stack for each level.
    std::mem::forget(deep);
}

/// With lines and without, with a margin and without.
fn some_settings(round: usize) -> Settings {
    let margin = Sides {
        left: 3,
        right: 1,
        top: 2,
        bottom: 4,
    };
    let settings = [
        Settings::default(),
        Settings::default().with_margin(margin).expect("a margin"),
    ][round % 2];
    if round / 2 % 2 == 0 {
        return settings;
    }
    let bare = settings.with_marks(Marks::None);
    bare.and_then(|bare| bare.with_padding(Sides::all(0)))
        .expect("no lines")
}

/// A leaf starts at the place that is the first of its block, and is none where no place is its; a group where the first of its leaves does.
#[test]
fn starts_are_the_first_places() {
    let mut seed = 11;
    let (mut found, mut none) = (0, 0);
    for round in 0..200 {
        let tree = some_tree(&mut seed, 1 + round % 5);
        let (settings, bytes) = (some_settings(round).to_bytes(), tree.to_bytes());
        let tree_bytes = bytes.expect("a tree");
        let input = Input {
            settings: &settings,
            tree: &tree_bytes,
        };
        let Ok(starts) = input.starts() else {
            assert_eq!(input.print_sheet(), Err(Refusal::TooLarge));
            continue;
        };
        for node in tree.nodes() {
            let inside = node.number..=node.number + node.below();
            let leaves = inside.filter_map(|number| {
                let leaf = input.leaf_record(number).ok()?;
                Some((leaf, starts[number]))
            });
            let places: Vec<Place> = leaves.filter_map(|(_, start)| start).collect();
            let line = places.iter().map(|place| place.line).min();
            let column = places.iter().map(|place| place.column).min();
            let first = line
                .zip(column)
                .map(|(line, column)| Place { line, column });
            assert_eq!(starts[node.number], first);
            match (node.is_leaf(), first) {
                (true, Some(Place { line, column })) => {
                    let leaf = LeafPlace {
                        node: node.number,
                        line: 0,
                        column: 0,
                    };
                    assert_eq!(input.place(line, column), Ok(leaf));
                    found += 1;
                }
                (true, None) => {
                    let width = input.leaf_record(node.number).map(|leaf| leaf.width);
                    assert_eq!(width, Ok(0));
                    none += 1;
                }
                _ => {}
            }
        }
    }
    assert!(found > 500 && none > 20, "{found} {none}");
}

#[test]
fn starts_are_refused_as_sheets_are() {
    let settings = Settings::default().to_bytes();
    let starts = |tree: &[u8]| {
        Input {
            settings: &settings,
            tree,
        }
        .starts()
    };
    assert_eq!(starts(b"\x09\x00\x00"), Err(Refusal::BadTree));
    let wide = Tree::from("x".repeat(397)).to_bytes().expect("a tree");
    assert_eq!(starts(&wide), Err(Refusal::TooLarge));
    let bad = Input {
        settings: b"",
        tree: b"\x01\x00\x00",
    };
    assert_eq!(bad.starts(), Err(Refusal::BadSettings));
}

/// The length left of a cut, where it is not 0, is that of the cell above the crossing at a leaf's top right, or beside the one at its bottom left, from the crossing on; which cell that is
/// the place next to the crossing says, also where the length is 0.
#[test]
fn the_cell_at_a_crossing() {
    let mut seed = 5;
    let (mut cut, mut under) = (0, 0);
    for round in 0..400 {
        let tree = some_tree(&mut seed, 3 + round % 4);
        let (settings, bytes) = (some_settings(round % 2).to_bytes(), tree.to_bytes());
        let tree_bytes = bytes.expect("a tree");
        let input = Input {
            settings: &settings,
            tree: &tree_bytes,
        };
        let Ok(starts) = input.starts() else {
            continue;
        };
        for node in tree.nodes().filter(|node| node.is_leaf()) {
            let leaf = input.leaf_record(node.number).expect("a leaf");
            let parent = node.parent.and_then(|parent| tree.node(parent));
            let (start, is_row) = (starts[node.number], matches!(parent, Some(Tree::Row(_))));
            let Place { line, column } = start.expect("a start");
            // The place next to the crossing, and how far it is from the start of its own leaf's inside to the crossing.
            let next = if is_row {
                (line.wrapping_sub(1), column + 1 + usize::from(leaf.width))
            } else {
                (line + 1 + usize::from(leaf.height), column.wrapping_sub(1))
            };
            let Ok(at) = input.place(next.0, next.1) else {
                assert_eq!(leaf.pair.rest, 0);
                continue;
            };
            let other = input.leaf_record(at.node).expect("a leaf");
            let (passed, size) = if is_row {
                (at.column, usize::from(other.width))
            } else {
                (at.line, usize::from(other.height))
            };
            let is_inside = 0 < passed && passed <= size;
            if leaf.pair.rest > 0 {
                assert_eq!(usize::from(leaf.pair.rest), size - passed);
                cut += 1;
            }
            under += usize::from(is_inside);
        }
    }
    assert!(cut > 200 && under > cut, "{cut} {under}");
}

/// A range is a line that begins with `? `; what is none is reported with its place.
#[test]
fn plans_are_typed() {
    let name = || Plan::range(4..=20, 1..=1);
    let list = "# to come\ncolumn\n  row\n    ? 4-20\n    '? 4-20\n  ?\n  ? 4 - 20 x 1\n  row\n";
    let plan = Plan::column([
        Plan::row([name(), "? 4-20".into()]),
        "?".into(),
        name(),
        Plan::Row(vec![]),
    ]);
    assert_eq!(Plan::from_typed(list), Ok(plan));
    assert_eq!(
        Plan::from_typed("? 0-255 x 1-255\r\n"),
        Ok(Plan::range(0..=255, 1..=255))
    );
    for range in [
        "? 1-0",
        "? 0 x 0",
        "? 0 x 2-1",
        "? 256",
        "? ",
        "? -1",
        "? 1x",
        "? 1 x 1 x 1",
    ] {
        let fault = TypedFault {
            refusal: Refusal::BadRange,
            line: 3,
            column: 5,
        };
        let list = format!("row\n  row\n    {range}\n    ? x\n");
        assert_eq!(Plan::from_typed(list), Err(fault), "{range}");
    }
    let fault = Plan::from_typed("row\n   ? 1").expect_err("a fault");
    assert_eq!(
        (fault.refusal, fault.line, fault.column),
        (Refusal::OddIndent, 2, 4)
    );
    // Without ranges it is the plan of the tree.
    let tree = Tree::column(["a", "b\\", "c\nd"]);
    assert_eq!(Plan::from_typed(tree.typed()), Ok(Plan::from(tree)));
}
