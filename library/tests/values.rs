//! Settings and trees as values, and what the calls on them answer.

use std::ops::RangeInclusive;

use leg_sheet::{
    fold, leaf_record, next_sibling, place, places, plan, print_leaf, print_sheet, share,
    short_splits, short_splits3, short_splits3_in_place, sizes, widen, Alignment, CutPair, Folded,
    Input, LeafPlace, Marked, Marks, Need, Place, Plan, Planned, Priority, Refusal, Settings,
    Sides, SizeRecord, Tree,
};

/// The record of the defaults.
const DEFAULTS: &[u8; 31] = b"\x10\x00\x1C--||-|+++++++++\x01\x01\x00\x00    \x00\x00\x00\x01\x02";

const MARGIN: Sides = Sides {
    left: 16,
    right: 0,
    top: 1,
    bottom: 2,
};

fn figure_2() -> Tree {
    Tree::column(["abcdef".into(), Tree::row(["a", "b"])])
}

/// Figures F2 and F3's marks, and a choice other than the default everywhere.
fn other_settings() -> Settings {
    Settings::default()
        .with_marks(*b"-_()hv123456789")
        .and_then(|settings| settings.with_padding(Sides::all(16)))
        .and_then(|settings| settings.with_fills(Sides::all(b'~')))
        .and_then(|settings| settings.with_margin(MARGIN))
        .and_then(|settings| settings.with_margin_fills(Sides::all(b'#')))
        .expect("within the ranges")
        .with_horizontal(Alignment::Center)
        .with_vertical(Alignment::End)
        .with_line_mode(true)
        .with_width_priority(Priority::First)
        .with_height_priority(Priority::Last)
}

/// Document 02, 2: spare width goes to the last child.
#[test]
fn the_defaults_spare_goes_right() {
    let tree = Tree::column(["abcdefghijk".into(), Tree::row(["a", "b", "c"])]);
    let sheet =
        "+-------------+\n| abcdefghijk |\n+---+---+-----+\n| a | b | c   |\n+---+---+-----+";
    assert_eq!(
        print_sheet(&Settings::default(), &tree),
        Ok(sheet.to_string())
    );
}

#[test]
fn settings_and_their_record_are_one() {
    assert_eq!(Settings::default().to_bytes(), DEFAULTS);
    assert_eq!(
        other_settings().to_bytes(),
        b"\x10\x00\x1C-_()hv123456789\x10\x10\x10\x10~~~~\x01\x02\x01\x00\x01\x11\x00\x08\x10\x00\x01\x02####"
    );
    for settings in [Settings::default(), other_settings()] {
        assert_eq!(Settings::from_bytes(&settings.to_bytes()), Ok(settings));
    }
}

/// The record has the margin's field where a size or a fill is other than without it.
#[test]
fn the_margin_has_its_field() {
    let none = Settings::default();
    let sized = none.with_margin(Sides {
        bottom: 1,
        ..none.margin()
    });
    let filled = none.with_margin_fills(Sides::all(b'.'));
    for (settings, field) in [
        (Ok(none), &b""[..]),
        (sized, b"\x11\x00\x08\x00\x00\x00\x01    "),
        (filled, b"\x11\x00\x08\x00\x00\x00\x00...."),
    ] {
        let settings = settings.expect("within the ranges");
        assert_eq!(settings.to_bytes(), [&DEFAULTS[..], field].concat());
        assert_eq!(Settings::from_bytes(&settings.to_bytes()), Ok(settings));
    }
    let empty = [&DEFAULTS[..], b"\x11\x00\x08\x00\x00\x00\x00    "].concat();
    assert_eq!(Settings::from_bytes(&empty), Ok(none));
}

#[test]
fn getters_answer_what_was_set() {
    let settings = other_settings();
    assert_eq!(settings.marks(), Marks::All(*b"-_()hv123456789"));
    assert_eq!(settings.padding(), Sides::all(16));
    assert_eq!(settings.fills(), Sides::all(b'~'));
    assert_eq!(settings.horizontal(), Alignment::Center);
    assert_eq!(settings.vertical(), Alignment::End);
    assert!(settings.line_mode());
    assert_eq!(settings.width_priority(), Priority::First);
    assert_eq!(settings.height_priority(), Priority::Last);
    assert_eq!(settings.margin(), MARGIN);
    assert_eq!(settings.margin_fills(), Sides::all(b'#'));
}

#[test]
fn setters_stay_in_the_ranges() {
    let settings = Settings::default();
    for mark in [0x1F, 0x7F, 0] {
        let mut marks: [u8; 15] = settings.marks().into();
        marks[14] = mark;
        assert_eq!(settings.with_marks(marks), Err(Refusal::BadSettings));
        let fills = Sides {
            bottom: mark,
            ..settings.fills()
        };
        assert_eq!(settings.with_fills(fills), Err(Refusal::BadSettings));
        assert_eq!(settings.with_margin_fills(fills), Err(Refusal::BadSettings));
    }
    let padding = Sides {
        top: 17,
        ..settings.padding()
    };
    assert_eq!(settings.with_padding(padding), Err(Refusal::BadSettings));
    assert_eq!(settings.with_margin(padding), Err(Refusal::BadSettings));
}

/// Document 02, 13: fifteen zeros are no marks, and a mixture is refused.
#[test]
fn no_marks_are_fifteen_zeros() {
    let lined = Settings::default();
    let bare = lined.with_marks(Marks::None).expect("no lines");
    assert_eq!(bare.marks(), Marks::None);
    assert_eq!(bare.to_bytes()[3..18], [0; 15]);
    assert_eq!(bare.to_bytes()[18..], lined.to_bytes()[18..]);
    assert_eq!(Settings::from_bytes(&bare.to_bytes()), Ok(bare));
    assert_eq!(lined.with_marks([0; 15]), Ok(bare));
    assert_eq!(lined.with_marks(Marks::All([0; 15])), Ok(bare));
    assert_eq!(bare.with_marks(lined.marks()), Ok(lined));
    for at in 0..15 {
        let mut marks = [0; 15];
        marks[at] = b'-';
        assert_eq!(lined.with_marks(marks), Err(Refusal::BadSettings));
        marks = [b'-'; 15];
        marks[at] = 0;
        assert_eq!(bare.with_marks(marks), Err(Refusal::BadSettings));
    }
    assert!(bare.with_padding(Sides::all(17)).is_err());
}

#[test]
fn records_of_another_form_are_refused() {
    let long = [&other_settings().to_bytes()[..], b"\x11\x00"].concat();
    for length in 0..=44 {
        let read = Settings::from_bytes(&long[..length]);
        let is_good = length == 31 || length == 42;
        assert_eq!(read.is_ok(), is_good, "{length}");
        assert!(is_good || read == Err(Refusal::BadSettings));
    }
}

#[test]
fn trees_and_their_bytes_are_one() {
    let trees = [
        Tree::from(""),
        Tree::from("two\nlines".to_string()),
        Tree::Row(vec![]),
        Tree::column([Tree::Column(vec![]), figure_2(), "x".into()]),
        figure_2(),
    ];
    for tree in trees {
        let bytes = tree.to_bytes().expect("a tree");
        assert_eq!(Tree::from_bytes(&bytes), Ok(tree));
    }
}

fn nested(depth: usize) -> Tree {
    (1..depth).fold(Tree::from("a"), |inner, _| Tree::row([inner]))
}

#[test]
fn trees_are_refused_as_the_reader_says() {
    let refused = |tree: Tree| tree.to_bytes().map(|_| ()).map_err(Refusal::number);
    let cell = |length: usize| Tree::from("x".repeat(length));
    assert_eq!(refused(cell(32_765)), Ok(()));
    assert_eq!(refused(cell(32_766)), Err(2));
    assert_eq!(refused(cell(70_000)), Err(2));
    assert_eq!(refused(Tree::row(vec![cell(30_000); 3])), Err(2));
    assert_eq!(refused("\u{e9}".into()), Err(3));
    assert_eq!(refused(Tree::row(vec!["a"; 511])), Ok(()));
    assert_eq!(refused(Tree::row(vec!["a"; 512])), Err(4));
    assert_eq!(refused(nested(16)), Ok(()));
    assert_eq!(refused(nested(17)), Err(5));
    assert_eq!(refused(nested(2_000)), Err(5));
}

#[test]
fn bytes_that_are_no_tree_are_refused() {
    assert_eq!(Tree::from_bytes(b""), Err(Refusal::BadTree));
    assert_eq!(Tree::from_bytes(b"\x04\x00\x00"), Err(Refusal::BadTree));
    assert_eq!(Tree::from_bytes(b"\x01\x00\x01\xFF"), Err(Refusal::BadText));
}

#[test]
fn figure_2_by_every_call() {
    let settings = Settings::default().with_width_priority(Priority::List);
    let tree = figure_2();
    let sheet = "+--------+\n| abcdef |\n+----+---+\n| a  | b |\n+----+---+";
    assert_eq!(print_sheet(&settings, &tree), Ok(sheet.into()));
    assert_eq!(
        print_leaf(&settings, &tree, 4),
        Ok("+---+\n| b |\n+---+".into())
    );
    let sizes = sizes(&settings, &tree).expect("sizes");
    assert_eq!(sizes.len(), 5);
    assert_eq!(sizes[3], SizeRecord::from_numbers([3, 1, 4, 1, 0]));
    assert_eq!(sizes[2], SizeRecord::from_numbers([7, 1, 8, 1, 2]));
    let leaf = leaf_record(&settings, &tree, 3).expect("a leaf");
    assert_eq!((leaf.node, leaf.width, leaf.height), (3, 4, 1));
    let set = leaf.flags.named().into_iter().filter(|flag| flag.1);
    let set: Vec<&str> = set.map(|flag| flag.0).collect();
    assert_eq!(set, ["last_row", "first_col", "no_right", "top_left"]);
}

/// Figure F3: the last leaf gets the list 3 3.
#[test]
fn a_leaf_has_its_lists() {
    let tree = Tree::column([Tree::row(["a", "b"]), "c".into()]);
    let leaf = leaf_record(&Settings::default(), &tree, 4).expect("a leaf");
    assert_eq!(leaf.horizontal[..], [3, 3]);
    assert_eq!(leaf.horizontal.entries()[2..], [0; 510]);
}

/// Document 02, 4: the pair of the cut that the parent made, of the horizontal list in a Row, of the vertical one in a Column; zeros for the root.
#[test]
fn a_leaf_has_the_pair_of_its_cut() {
    let settings = Settings::default().with_width_priority(Priority::List);
    let pair = |tree: &Tree, node: usize| {
        let CutPair { taken, rest } = leaf_record(&settings, tree, node).expect("a leaf").pair;
        (taken, rest)
    };
    assert_eq!(pair(&"ab".into(), 0), (0, 0));
    let rows = Tree::column([Tree::row(["a", "b", "c"]), Tree::row(["", "efghijk"])]);
    assert_eq!(
        [2, 6, 7].map(|node| pair(&rows, node)),
        [(0, 0), (0, 1), (2, 0)]
    );
    let columns = Tree::row([
        Tree::column(["a\na", "b\nb"]),
        Tree::column(["c", "d", "e"]),
    ]);
    assert_eq!(
        [5, 6, 7].map(|node| pair(&columns, node)),
        [(0, 0), (1, 1), (0, 0)]
    );
}

/// The next sibling of each node, by the tree.
fn siblings(tree: &Tree, parent: Option<usize>, list: &mut Vec<(Option<usize>, Option<usize>)>) {
    let node = list.len();
    list.push((parent, None));
    let (Tree::Row(children) | Tree::Column(children)) = tree else {
        return;
    };
    let mut before = None;
    for child in children {
        let number = list.len();
        if let Some(before) = before.replace(number) {
            list[before].1 = Some(number);
        }
        siblings(child, Some(node), list);
    }
}

/// Document 02, 7: the rule finds the next sibling where there is one, and none elsewhere.
#[test]
fn counts_lead_to_the_next_sibling() {
    let inner = Tree::row(["b".into(), Tree::column(["c", "d"])]);
    let trees = [
        "ab".into(),
        Tree::Row(vec![]),
        Tree::column(["a".into(), inner, "e".into()]),
        Tree::row([Tree::row([Tree::Row(vec![])])]),
        Tree::column([Tree::Row(vec![]), Tree::row(["x"]), Tree::Column(vec![])]),
        Tree::row([figure_2(), "c".into(), figure_2(), figure_2()]),
        nested(16),
        Tree::row(vec![""; 511]),
    ];
    for tree in trees {
        let sizes = sizes(&Settings::default(), &tree).expect("sizes");
        let mut list = Vec::new();
        siblings(&tree, None, &mut list);
        assert_eq!(usize::from(sizes[0].below), list.len() - 1);
        for (node, (parent, next)) in list.into_iter().enumerate() {
            let found = parent.and_then(|parent| next_sibling(&sizes, parent, node));
            assert_eq!(found, next, "{tree:?} {node}");
        }
    }
}

/// Document 02, 7: the counts of the second tree there, of a chain and of one group.
#[test]
fn nodes_below() {
    let below = |tree: Tree| {
        let sizes = sizes(&Settings::default(), &tree).expect("sizes");
        sizes.iter().map(|size| size.below).collect::<Vec<u16>>()
    };
    let inner = Tree::row(["b".into(), Tree::column(["c", "d"])]);
    let tree = Tree::column(["a".into(), inner, "e".into()]);
    assert_eq!(below(tree), [7, 0, 4, 0, 2, 0, 0, 0]);
    assert_eq!(below(nested(16)), (0..16).rev().collect::<Vec<u16>>());
    let flat = below(Tree::row(vec![""; 511]));
    assert_eq!((flat[0], flat[1..].to_vec()), (511, vec![0; 511]));
    assert_eq!(next_sibling(&[], 0, 0), None);
}

/// The set M of the figures, with this margin.
fn figures_m(margin: Sides) -> Settings {
    Settings::default()
        .with_marks(*b"-_()hv123456789")
        .and_then(|settings| settings.with_margin(margin))
        .expect("within the ranges")
        .with_width_priority(Priority::List)
}

/// Document 02, 5: places of figure F2 without a margin and with one, on both sides of each edge, and far from it.
#[test]
fn places_have_their_leaves() {
    let found = |margin: Sides, line: usize, column: usize| {
        let found = place(&figures_m(margin), &figure_2(), line, column);
        found
            .map(|LeafPlace { node, line, column }| (node, line, column))
            .map_err(Refusal::number)
    };
    let none = Sides::all(0);
    assert_eq!(found(none, 0, 0), Ok((1, 0, 0)));
    assert_eq!(found(none, 1, 9), Ok((1, 1, 9)));
    assert_eq!(found(none, 2, 4), Ok((3, 0, 4)));
    assert_eq!(found(none, 2, 5), Ok((4, 0, 0)));
    assert_eq!(found(none, 4, 9), Ok((4, 2, 4)));
    for (line, column) in [(5, 0), (0, 10), (5, 10), (u32::MAX as usize, 0)] {
        assert_eq!(found(none, line, column), Err(12));
    }
    let edged = Sides {
        left: 2,
        ..Sides::all(1)
    };
    assert_eq!(found(edged, 1, 2), Ok((1, 0, 0)));
    assert_eq!(found(edged, 5, 7), Ok((4, 2, 0)));
    assert_eq!(found(edged, 5, 11), Ok((4, 2, 4)));
    for (line, column) in [(0, 0), (0, 12), (1, 1), (1, 12), (6, 5)] {
        assert_eq!(found(edged, line, column), Err(13));
    }
    for (line, column) in [(7, 0), (6, 13), (7, 13), (usize::MAX, usize::MAX)] {
        assert_eq!(found(edged, line, column), Err(12));
    }
}

/// Document 02, 5: the sheet's byte at each place is the one of its leaf's block at the place inside; as many places are in a leaf as its block has bytes.
#[test]
fn every_byte_leads_back() {
    let settings = figures_m(MARGIN);
    let tree = Tree::row([
        Tree::column(["a", "b\nc"]),
        figure_2(),
        Tree::Column(vec![]),
    ]);
    let sheet = print_sheet(&settings, &tree).expect("a sheet");
    let mut blocks = std::collections::HashMap::new();
    for (i, line) in sheet.lines().enumerate() {
        for (j, byte) in line.bytes().enumerate() {
            match place(&settings, &tree, i, j) {
                Ok(LeafPlace { node, line, column }) => {
                    let block = print_leaf(&settings, &tree, node).expect("a leaf");
                    let there = block.lines().nth(line).map(|line| line.as_bytes()[column]);
                    assert_eq!(there, Some(byte), "{i} {j}");
                    let left = blocks
                        .entry(node)
                        .or_insert_with(|| block.lines().map(str::len).sum::<usize>());
                    *left -= 1;
                }
                refused => assert_eq!(refused, Err(Refusal::InMargin), "{i} {j}"),
            }
        }
    }
    assert_eq!(blocks.len(), 6);
    assert!(blocks.values().all(|&left| left == 0));
}

/// Document 02, 6: places of figure F2 with a margin, answered together.
#[test]
fn places_are_marked_together() {
    let edged = figures_m(Sides {
        left: 2,
        ..Sides::all(1)
    });
    let marked = |list: &[(usize, usize)]| {
        let list: Vec<Place> = list
            .iter()
            .map(|&(line, column)| Place { line, column })
            .collect();
        places(&edged, &figure_2(), &list)
            .map_err(|refused| (refused.refusal.number(), refused.place))
    };
    let leaf = |node: usize, line: usize, column: usize| LeafPlace { node, line, column };
    let all = |answers: Vec<LeafPlace>| Ok(Marked { answers, read: 5 });
    assert_eq!(marked(&[]), all(vec![]));
    let (b, first) = (leaf(4, 2, 0), leaf(1, 0, 0));
    assert_eq!(marked(&[(5, 7), (1, 2), (5, 7)]), all(vec![b, first, b]));
    assert_eq!(marked(&[(5, 7), (0, 0), (9, 9)]), Err((13, Some(1))));
    assert_eq!(
        marked(&[(5, 7), (5, 7), (9, 9), (0, 0)]),
        Err((12, Some(2)))
    );
    assert_eq!(marked(&[(1, 2); 256]), all(vec![first; 256]));
    assert_eq!(marked(&[(1, 2); 257]), Err((14, None)));
    assert_eq!(marked(&[(9, 9); 1000]), Err((14, None)));

    // As many lines or columns further as 32 bits count are outside all the same.
    for (line, column) in [(1 << 32, 0), (0, 1 << 32), (1 << 32, 1 << 32)] {
        assert_eq!(
            marked(&[(1, 2), (1 + line, 2 + column)]),
            Err((12, Some(1)))
        );
    }
}

/// Document 02, 6: 'each exactly as if it had been put alone'.
#[test]
fn places_are_answered_as_alone() {
    let (settings, tree) = (figures_m(Sides::all(0)), figure_2());
    let list: Vec<Place> = (0..50)
        .map(|at| Place {
            line: at * 3 % 5,
            column: at * 7 % 10,
        })
        .collect();
    let marked = places(&settings, &tree, &list).expect("places of the sheet");
    let alone = |&Place { line, column }: &Place| place(&settings, &tree, line, column);
    let alone: Result<Vec<LeafPlace>, Refusal> = list.iter().map(alone).collect();
    assert_eq!(Ok(marked.answers), alone);
}

/// The cells of each Column, then height, tries and miss; or the number.
fn folded(list: &Tree, width: usize, budget: usize) -> Result<(Vec<usize>, [usize; 3]), u8> {
    let folded = fold(&Settings::default(), list, width, budget);
    folded
        .map(
            |Folded {
                 columns,
                 height,
                 tries,
                 miss,
             }| (columns, [height, tries, miss]),
        )
        .map_err(Refusal::number)
}

/// Document 02, 9: the least height that fitted among those tried; the tries and the miss.
#[test]
fn lists_are_folded() {
    let five = Tree::column(["a", "b", "c", "d", "e"]);
    for (width, budget, columns, found) in [
        (3, 0, vec![5], [9, 0, 8]),
        (3, 99, vec![5], [9, 8, 0]),
        (7, 99, vec![3, 2], [5, 8, 0]),
        (18, 99, vec![2, 2, 1], [3, 8, 0]),
        (19, 3, vec![3, 2], [6, 3, 5]),
        (19, 7, vec![1; 5], [2, 7, 1]),
        (19, 8, vec![1; 5], [1, 8, 0]),
        (usize::MAX, usize::MAX, vec![1; 5], [1, 8, 0]),
    ] {
        assert_eq!(folded(&five, width, budget), Ok((columns, found)));
    }

    // A lower height fits where a higher one does not.
    let wide = "x".repeat(9);
    let uneven = Tree::column(["x", "x", &wide, &wide, "x", "x"]);
    assert_eq!(folded(&uneven, 21, 6), Ok((vec![4, 2], [7, 6, 6])));
    assert_eq!(folded(&uneven, 21, 7), Ok((vec![2; 3], [4, 7, 3])));
    assert_eq!(folded(&uneven, 21, 9), Ok((vec![2; 3], [3, 9, 2])));
    assert_eq!(folded(&uneven, 21, 10), Ok((vec![2; 3], [3, 10, 0])));

    let lines = Tree::column(["a\nb\nc", "d", "e", "f\ng"]);
    assert_eq!(folded(&lines, 7, 1), Ok((vec![3, 1], [9, 1, 6])));
    assert_eq!(folded(&lines, 7, 99), Ok((vec![2, 2], [5, 7, 0])));
    assert_eq!(folded(&lines, 11, 99), Ok((vec![1, 2, 1], [3, 7, 0])));

    let one = Tree::column(["a"]);
    assert_eq!(folded(&one, 3, 5), Ok((vec![1], [1, 0, 0])));
    let long = Tree::column(["a".repeat(500)]);
    assert_eq!(folded(&long, 502, 0), Ok((vec![1], [1, 0, 0])));
}

/// Document 02, 9: 15 for another kind of root or child, no cells or over 200; then 16.
#[test]
fn other_trees_are_not_folded() {
    let row = Tree::row(["a"]);
    let nested = Tree::column(["a".into(), Tree::Row(vec![])]);
    for tree in ["a".into(), row, nested, Tree::Column(vec![]), figure_2()] {
        assert_eq!(folded(&tree, 0, 0), Err(15));
    }
    assert_eq!(folded(&Tree::column([""; 201]), 0, 0), Err(15));
    assert_eq!(folded(&Tree::column([""; 200]), 1, 0), Err(16));
    assert_eq!(
        folded(&Tree::column([""; 200]), 2, 0).map(|f| f.0),
        Ok(vec![200])
    );
    assert_eq!(folded(&Tree::column(["\t"]), 0, 0), Err(3));
}

/// The Row of a fold is as wide inside as the fold's width, no Column is higher than it says, and all cells are in it in order.
#[test]
fn the_row_of_a_fold() {
    let settings = Settings::default();
    let texts: Vec<String> = (0..40)
        .map(|n| "x".repeat(n * 7 % 11) + &"\n".repeat(n % 3))
        .collect();
    let list = Tree::column(texts);
    for width in 12..100 {
        let folded = fold(&settings, &list, width, usize::MAX).expect("a list");
        let row = list.folded(&folded.columns).expect("its own counts");
        let sizes = sizes(&settings, &row).expect("sizes");
        assert!(usize::from(sizes[0].natural_width) <= width);
        assert!(usize::from(sizes[0].natural_height) <= folded.height);
        let Tree::Row(columns) = row else {
            panic!("no Row");
        };
        let cells = columns.into_iter().flat_map(|column| match column {
            Tree::Column(cells) => cells,
            _ => panic!("no Column"),
        });
        assert_eq!(Tree::Column(cells.collect()), list);
    }

    assert_eq!(list.folded(&[20, 19]), None);
    assert_eq!(list.folded(&[20, 21]), None);
    assert_eq!(list.folded(&[usize::MAX, 1]), None);
    assert_eq!(Tree::row(["a"]).folded(&[1]), None);
    assert_eq!(Tree::from("a").folded(&[]), None);
}

/// The least and the greatest columns, then lines; or the number.
fn planned(settings: &Settings, tree: &Plan) -> Result<[RangeInclusive<usize>; 2], u8> {
    plan(settings, tree)
        .map(|Planned { width, height }| [width, height])
        .map_err(Refusal::number)
}

/// Document 02, 10: the ends of ranges alone and in groups.
#[test]
fn sheets_are_planned() {
    let (d, name) = (Settings::default(), Plan::range(2..=5, 1..=3));
    let pair = Plan::row([Plan::range(1..=2, 1..=4), Plan::range(0..=9, 2..=3)]);
    let beside = |width: RangeInclusive<u8>| {
        let range = Plan::range(width, 1..=1);
        Plan::column(["abcd".into(), range])
    };
    for (tree, width, height) in [
        (name.clone(), 6..=9, 3..=5),
        (Plan::range(0..=0, 1..=1), 4..=4, 3..=3),
        (Plan::range(3..=3, 2..=2), 7..=7, 4..=4),
        (beside(2..=6), 8..=10, 5..=5),
        (beside(0..=3), 8..=8, 5..=5),
        (pair, 8..=18, 4..=6),
        ("ab".into(), 6..=6, 3..=3),
        (Plan::Row(vec![]), 4..=4, 3..=3),
        (figure_2().into(), 10..=10, 5..=5),
    ] {
        assert_eq!(planned(&d, &tree), Ok([width, height]), "{tree:?}");
    }

    let edged = Sides {
        left: 1,
        right: 2,
        top: 3,
        bottom: 4,
    };
    let edged = d.with_margin(edged).expect("within the ranges");
    assert_eq!(planned(&edged, &name), Ok([9..=12, 10..=12]));

    // Nothing is too large, and the numbers are past 16 bits.
    let greatest = Plan::range(255..=255, 255..=255);
    let row = Plan::row(vec![greatest; 511]);
    assert_eq!(planned(&d, &row), Ok([131_839..=131_839, 257..=257]));
}

/// Document 02, 10: 17 'in the element's turn after depth and count'.
#[test]
fn other_ranges_are_not_planned() {
    let d = Settings::default();
    let number = |tree: &Plan| planned(&d, tree).expect_err("a refusal");
    let (one, down) = (1..=1, RangeInclusive::new(2, 1));
    let bad = Plan::range(down.clone(), one.clone());
    assert_eq!(number(&bad), 17);
    assert_eq!(number(&Plan::range(one.clone(), down)), 17);
    assert_eq!(number(&Plan::range(one, 0..=1)), 17);
    assert_eq!(bad.to_bytes(), Err(Refusal::BadRange));

    assert_eq!(number(&Plan::row([bad.clone(), "\t".into()])), 17);
    assert_eq!(number(&Plan::row(["\t".into(), bad.clone()])), 3);
    let deep = (1..17).fold(bad.clone(), |inner, _| Plan::row([inner]));
    assert_eq!(number(&deep), 5);
    let many = vec![""; 511].into_iter().map(Plan::from);
    assert_eq!(number(&Plan::row(many.chain([bad]))), 4);
    assert_eq!(number(&"x".repeat(32_766).into()), 2);
}

/// A tree's bytes are those of its planning tree.
#[test]
fn a_tree_is_a_plan() {
    for tree in [figure_2(), Tree::from("two\nlines"), Tree::Column(vec![])] {
        assert_eq!(Plan::from(tree.clone()).to_bytes(), tree.to_bytes());
    }
}

/// The sheet of each choice of two texts is between the ends, and they are reached.
#[test]
fn the_sheets_of_a_plan() {
    let settings = Settings::default();
    let late = Plan::row([Plan::range(0..=3, 1..=2), Plan::range(4..=6, 1..=3)]);
    let tree = Plan::column(["abcdefgh".into(), late]);
    let Planned { width, height } = plan(&settings, &tree).expect("a plan");
    let text = |width: usize, lines: usize| "x".repeat(width) + &"\n".repeat(lines - 1);
    let mut seen = Vec::new();
    for (a, b) in (0..=3).flat_map(|a| (4..=6).map(move |b| (a, b))) {
        for (m, n) in (1..=2).flat_map(|m| (1..=3).map(move |n| (m, n))) {
            let row = Tree::row([text(a, m), text(b, n)]);
            let sheet = print_sheet(&settings, &Tree::column(["abcdefgh".into(), row]));
            let sheet = sheet.expect("a sheet");
            let columns = sheet.lines().next().map_or(0, str::len);
            seen.push((columns, sheet.lines().count()));
        }
    }
    let (columns, lines): (Vec<usize>, Vec<usize>) = seen.into_iter().unzip();
    let ends = |list: Vec<usize>| Some(*list.iter().min()?..=*list.iter().max()?);
    assert_eq!((ends(columns), ends(lines)), (Some(width), Some(height)));
}

/// The node and the letters of each Cell, in the order of the list; or the number.
fn nearest(settings: &Settings, tree: &Tree) -> Result<Vec<(usize, usize)>, u8> {
    let pairs = |needs: Vec<Need>| needs.into_iter().map(|need| (need.node, need.letters));
    widen(settings, tree)
        .map(|needs| pairs(needs).collect())
        .map_err(Refusal::number)
}

/// Document 02, 11: the fewest letters first, equal ones by node; no empty Rows and Columns.
#[test]
fn cells_are_listed_by_their_letters() {
    let d = Settings::default();
    let pair = || Tree::row(["a", "b"]);
    let bbc = Tree::column(["bb", "c"]);
    let beside = Tree::row(["a".into(), bbc]);
    for (tree, list) in [
        ("ab".into(), vec![(0, 1)]),
        (Tree::column(["abc", ""]), vec![(1, 1), (2, 4)]),
        (
            Tree::column(["abc".into(), "".into(), pair()]),
            vec![(4, 1), (5, 1), (1, 3), (2, 6)],
        ),
        (Tree::column(["a\nbcdef", "xyz\n\nu"]), vec![(1, 1), (2, 3)]),
        (
            Tree::column([beside, "dddddddd".into()]),
            vec![(6, 1), (2, 3), (4, 3), (5, 4)],
        ),
        (Tree::Row(vec![]), vec![]),
        (Tree::column([Tree::Row(vec![]), "ab".into()]), vec![(2, 1)]),
        (Tree::column(["".into(), Tree::Row(vec![])]), vec![(1, 1)]),
        ("a".repeat(500).into(), vec![(0, 1)]),
        (figure_2(), vec![(1, 1), (3, 2), (4, 2)]),
    ] {
        assert_eq!(nearest(&d, &tree), Ok(list), "{tree:?}");
    }
    let edged = d.with_margin(Sides::all(9)).expect("within the ranges");
    let tree = Tree::column(["abc".into(), pair()]);
    assert_eq!(nearest(&edged, &tree), nearest(&d, &tree));

    assert_eq!(nearest(&d, &Tree::row(vec![""; 512])), Err(4));
    assert_eq!(nearest(&d, &nested(17)), Err(5));
}

/// One letter less than a Cell's number leaves the printed sheet as wide as it was, and the number makes it wider.
#[test]
fn letters_widen_the_printed_sheet() {
    let settings = Settings::default();
    let with = |letters: [usize; 5]| {
        let texts = ["aa", "", "a\nbbb", "a b", "abcdefg"];
        let [a, b, c, d, e] =
            [0, 1, 2, 3, 4].map(|n| Tree::from(format!("{}{}", texts[n], "x".repeat(letters[n]))));
        let left = Tree::column([a, Tree::row([b, c])]);
        Tree::row([left, Tree::column([d, e])])
    };
    let width = |letters: [usize; 5]| {
        let sheet = print_sheet(&settings, &with(letters)).expect("a sheet");
        sheet.lines().next().map_or(0, str::len)
    };
    let (tree, natural) = (with([0; 5]), width([0; 5]));
    let cells = [2, 4, 5, 7, 8];
    let needs = widen(&settings, &tree).expect("a list");
    assert_eq!(needs.len(), cells.len());
    for Need { node, letters } in needs {
        let at = cells.iter().position(|&cell| cell == node);
        let mut added = [0; 5];
        let own = &mut added[at.expect("a Cell")];
        *own = letters - 1;
        assert_eq!(width(added), natural);
        added[at.expect("a Cell")] = letters;
        assert_eq!(width(added), natural + 1);
    }
}

/// Document 02, 8: a zero-wide leaf prints its marks around no columns.
#[test]
fn a_remark_left_blank() {
    let bare = figures_m(Sides::all(0)).with_padding(Sides::all(0));
    let bare = bare.expect("within the ranges");
    let (a_b, both) = (Tree::column(["a", "b"]), Tree::row(["", ""]));
    for (tree, sheet) in [
        (Tree::from(""), "12\n()\n45"),
        (Tree::Row(vec![]), "12\n()\n45"),
        (Tree::from("\n\n"), "12\n()\n()\n()\n45"),
        (Tree::row(["", "a"]), "13-2\n((a)\n46_5"),
        (Tree::row(["a", ""]), "1-32\n(a()\n4_65"),
        (Tree::column(["", ""]), "12\n()\n78\n()\n45"),
        (
            Tree::column([both, "ab".into()]),
            "1-32\n( ()\n7-68\n(ab)\n4__5",
        ),
        (Tree::row([a_b, "".into()]), "1-32\n(a()\n7-8)\n(b()\n4_65"),
    ] {
        assert_eq!(print_sheet(&bare, &tree), Ok(sheet.into()));
    }

    let tree = Tree::row(["", "a"]);
    assert_eq!(print_leaf(&bare, &tree, 1), Ok("1\n(\n4".into()));
    assert_eq!(print_leaf(&bare, &tree, 2), Ok("3-2\n(a)\n6_5".into()));
    let owner =
        |line: usize, column: usize| place(&bare, &tree, line, column).map(|leaf| leaf.node);
    assert_eq!((owner(0, 0), owner(0, 1)), (Ok(1), Ok(2)));
}

/// The set M of the figures without lines, with this padding to the left and right.
fn bare(padding: u8) -> Settings {
    let sides = Sides {
        left: padding,
        right: padding,
        ..Sides::all(0)
    };
    figures_m(Sides::all(0))
        .with_marks(Marks::None)
        .and_then(|settings| settings.with_padding(sides))
        .expect("within the ranges")
}

/// Document 02, 13: no separators are counted and no marks printed.
#[test]
fn sheets_without_lines() {
    let (a_b, both) = (Tree::column(["a", "b"]), Tree::row(["a", "b"]));
    for (padding, tree, sheet) in [
        (1, figure_2(), " abcdef \n a   b  "),
        (1, Tree::row([a_b, "c".into()]), " a  c \n b    "),
        (1, Tree::column([both, "c".into()]), " a  b \n c    "),
        (0, "".into(), ""),
        (0, "\n\n".into(), "\n\n"),
        (0, Tree::row(["", ""]), ""),
        (0, Tree::row(["", "a"]), "a"),
    ] {
        assert_eq!(print_sheet(&bare(padding), &tree), Ok(sheet.into()));
    }
    let edged = bare(0).with_margin(Sides::all(1)).expect("a margin");
    let edged = edged.with_margin_fills(Sides::all(b'.')).expect("fills");
    assert_eq!(print_sheet(&edged, &"".into()), Ok("..\n..\n..".into()));

    // W and H lose their 2.
    let wide = |letters: usize| Tree::from("x".repeat(letters));
    assert!(print_sheet(&bare(1), &wide(398)).is_ok());
    assert_eq!(print_sheet(&bare(1), &wide(399)), Err(Refusal::TooLarge));
    let high = |feeds: usize| Tree::from("\n".repeat(feeds));
    assert_eq!(print_sheet(&bare(0), &high(159)), Ok("\n".repeat(159)));
    assert_eq!(print_sheet(&bare(0), &high(160)), Err(Refusal::TooLarge));
}

/// The lists and flags of a leaf are as with lines; the sizes and the block have none.
#[test]
fn leaves_without_lines() {
    let tree = Tree::column([Tree::row(["a", "b"]), "c".into()]);
    let lined = leaf_record(&figures_m(Sides::all(0)), &tree, 4).expect("a leaf");
    let leaf = leaf_record(&bare(1), &tree, 4).expect("a leaf");
    assert_eq!((leaf.width, leaf.height), (6, 1));
    assert_eq!(
        (leaf.horizontal, leaf.vertical),
        (lined.horizontal, lined.vertical)
    );
    assert_eq!((leaf.flags, leaf.pair), (lined.flags, lined.pair));
    assert_eq!(print_leaf(&bare(1), &tree, 4), Ok(" c    ".into()));
    let root = sizes(&bare(1), &tree).expect("sizes")[0];
    assert_eq!((root.natural_width, root.natural_height), (6, 2));
    let blank = Tree::row(["", "a\nb"]);
    assert_eq!(print_leaf(&bare(0), &blank, 1), Ok("\n".into()));
}

/// A leaf of no columns has no place, though it starts where its neighbour does.
#[test]
fn places_without_lines() {
    let tree = Tree::row(["", "a", "", "bc"]);
    let found = |line: usize, column: usize| place(&bare(0), &tree, line, column);
    let leaf = |node: usize, column: usize| LeafPlace {
        node,
        line: 0,
        column,
    };
    let all = [leaf(2, 0), leaf(4, 0), leaf(4, 1)];
    assert_eq!([0, 1, 2].map(|column| found(0, column)), all.map(Ok));
    assert_eq!(found(0, 3), Err(Refusal::OutsideSheet));
    assert_eq!(
        place(&bare(0), &"".into(), 0, 0),
        Err(Refusal::OutsideSheet)
    );
    let list = [2, 0, 1].map(|column| Place { line: 0, column });
    let marked = places(&bare(0), &tree, &list).expect("places of the sheet");
    assert_eq!(marked.answers, [all[2], all[0], all[1]]);
    assert_eq!(marked.read, 5);
}

/// Folds, plans and letters count no separators.
#[test]
fn other_calls_without_lines() {
    let list = Tree::column(["a", "b", "c", "d"]);
    let folded = fold(&bare(1), &list, 6, usize::MAX).expect("a fold");
    assert_eq!((&folded.columns[..], folded.height), (&[2, 2][..], 2));
    assert_eq!((folded.tries, folded.miss), (3, 0));
    let ranges = Plan::row([Plan::range(1..=2, 1..=4), Plan::range(0..=9, 2..=3)]);
    let planned = plan(&bare(1), &ranges).expect("a plan");
    assert_eq!((planned.width, planned.height), (5..=15, 2..=4));
    let tree = Tree::column(["abc".into(), Tree::row(["a", "b"])]);
    let needs = widen(&bare(1), &tree).expect("a list");
    let needs: Vec<(usize, usize)> = needs.iter().map(|n| (n.node, n.letters)).collect();
    assert_eq!(needs, [(3, 1), (4, 1), (1, 2)]);
}

/// The margin is around the sheet, and counts for its limits alone.
#[test]
fn margins() {
    let margin = |left: u8, right: u8, top: u8, bottom: u8| {
        let sides = Sides {
            left,
            right,
            top,
            bottom,
        };
        let fills = Sides {
            left: b'l',
            right: b'r',
            top: b't',
            bottom: b'b',
        };
        let settings = other_settings().with_padding(Sides::all(0));
        settings
            .and_then(|settings| settings.with_margin(sides))
            .and_then(|settings| settings.with_margin_fills(fills))
            .expect("within the ranges")
    };
    let tree = Tree::from("ab");
    assert_eq!(
        print_sheet(&margin(1, 2, 1, 1), &tree),
        Ok("lttttrr\nl1--2rr\nl(ab)rr\nl4__5rr\nlbbbbrr".into())
    );
    let block = Ok("1--2\n(ab)\n4__5".into());
    assert_eq!(print_sheet(&margin(0, 0, 0, 0), &tree), block);
    assert_eq!(print_leaf(&margin(1, 2, 1, 1), &tree, 0), block);
    let sizes_of = |settings: Settings| sizes(&settings, &tree);
    assert_eq!(sizes_of(margin(1, 2, 1, 1)), sizes_of(margin(0, 0, 0, 0)));

    for (settings, most) in [(margin(16, 16, 0, 0), 366), (margin(0, 1, 0, 0), 397)] {
        let cell = |length: usize| Tree::from("x".repeat(length));
        assert!(print_sheet(&settings, &cell(most)).is_ok());
        let wide = cell(most + 1);
        assert_eq!(print_sheet(&settings, &wide), Err(Refusal::TooLarge));
        assert_eq!(print_leaf(&settings, &wide, 0), Err(Refusal::TooLarge));
        assert_eq!(leaf_record(&settings, &wide, 0), Err(Refusal::TooLarge));
        assert!(sizes(&settings, &wide).is_ok());
    }
}

#[test]
fn every_call_is_refused() {
    let settings = Settings::default();
    let (bad, group) = (Tree::from("\t"), Tree::row(["a"]));
    assert_eq!(print_sheet(&settings, &bad), Err(Refusal::BadText));
    assert_eq!(sizes(&settings, &bad), Err(Refusal::BadText));
    assert_eq!(print_leaf(&settings, &group, 0), Err(Refusal::NoLeaf));
    assert_eq!(leaf_record(&settings, &group, 2), Err(Refusal::NoLeaf));
    assert_eq!(place(&settings, &bad, 9, 9), Err(Refusal::BadText));
    let wide = Tree::from("x".repeat(397));
    assert_eq!(place(&settings, &wide, 9, 9), Err(Refusal::TooLarge));
    let many = [Place::default(); 257];
    assert_eq!(places(&settings, &bad, &many), Err(Refusal::BadText.into()));
    assert_eq!(
        places(&settings, &wide, &many),
        Err(Refusal::TooLarge.into())
    );
    assert_eq!(fold(&settings, &bad, 9, 9), Err(Refusal::BadText));
    assert_eq!(fold(&settings, &group, 9, 9), Err(Refusal::NotAList));
    assert_eq!(widen(&settings, &bad), Err(Refusal::BadText));
    assert_eq!(plan(&settings, &bad.into()), Err(Refusal::BadText));
    assert_eq!(share(7, 0, Priority::List, 0), Err(Refusal::NoChild));
    assert_eq!(short_splits3(&[1; 513], 0), Err(Refusal::TooManyPieces));
    assert_eq!(short_splits(&[1; 513], 0), Err(Refusal::TooManyPieces));
    let mut pieces = vec![1; 513];
    let cut = short_splits3_in_place(&mut pieces, 0);
    assert_eq!((cut, pieces.len()), (Err(Refusal::TooManyPieces), 513));
}

/// Figures F6 to F9 and more, with the pair of document 02, 4.
#[test]
fn cuts() {
    let cut = |pieces: &[u16], width: u16| {
        let cut = short_splits3(pieces, width).expect("a cut");
        let mut left = pieces.to_vec();
        let answer = short_splits3_in_place(&mut left, width).expect("a cut");
        assert_eq!((answer.split, answer.taken), (cut.split, cut.taken));
        assert_eq!((answer.pair, answer.left), (cut.pair, cut.left.len()));
        assert_eq!(left, cut.left[..]);
        let CutPair { taken, rest } = cut.pair;
        (cut.split, cut.taken.to_vec(), left, (taken, rest))
    };
    assert_eq!(cut(&[4, 2], 5), (false, vec![4], vec![1], (1, 1)));
    assert_eq!(cut(&[3, 3], 3), (true, vec![], vec![3], (0, 0)));
    assert_eq!(cut(&[5], 0), (false, vec![], vec![4], (0, 4)));
    assert_eq!(cut(&[0, 5], 0), (true, vec![], vec![5], (0, 0)));
    assert_eq!(cut(&[], 3), (false, vec![], vec![], (0, 0)));
    assert_eq!(cut(&[5], 4), (false, vec![], vec![0], (0, 0)));
    assert_eq!(cut(&[2, 3], 6), (true, vec![2], vec![], (1, 0)));
    assert_eq!(cut(&[1, 1, 1, 9], 6), (false, vec![1; 3], vec![8], (3, 8)));
    assert_eq!(cut(&[0; 512], 512), (false, vec![0; 512], vec![], (512, 0)));
}

#[test]
fn an_input_is_split_after_31_bytes() {
    let bytes = [&DEFAULTS[..], b"\x01\x00\x02ab"].concat();
    let input = Input::split(&bytes);
    assert_eq!(input.settings, DEFAULTS);
    assert_eq!(input.print_sheet(), Ok("+----+\n| ab |\n+----+".into()));
    let short = Input::split(&bytes[..30]);
    assert_eq!((short.settings.len(), short.tree.len()), (30, 0));
    assert_eq!(short.print_sheet(), Err(Refusal::BadSettings));
}

/// A hex 11 behind the first field starts the margin's, which has that byte and the ten after it, or all there are.
#[test]
fn an_input_is_split_after_the_margin() {
    let field = b"\x11\x00\x08\x01\x00\x00\x00lrtb";
    let tree = b"\x01\x00\x02ab";
    let answer = |rest: &[&[u8]], settings: usize| {
        let bytes = [&DEFAULTS[..], &rest.concat()].concat();
        let input = Input::split(&bytes);
        assert_eq!(input.settings, &bytes[..settings]);
        assert_eq!(input.tree, &bytes[settings..]);
        input.print_sheet()
    };
    let (bad_settings, bad_tree) = (Err(Refusal::BadSettings), Err(Refusal::BadTree));
    let printed = Ok("l+----+\nl| ab |\nl+----+".into());
    assert_eq!(answer(&[field, tree], 42), printed);
    assert_eq!(answer(&[&field[..1]], 32), bad_settings);
    assert_eq!(answer(&[&field[..10]], 41), bad_settings);
    assert_eq!(answer(&[&field[..9], tree], 42), bad_settings);
    assert_eq!(answer(&[field], 42), bad_tree);
    assert_eq!(answer(&[b"\x11\x00\x00"], 34), bad_settings);
    assert_eq!(answer(&[b"\x12", &field[1..], tree], 31), bad_tree);
    assert_eq!(answer(&[field, field, tree], 42), bad_tree);
}
