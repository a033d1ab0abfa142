//! Document 01's figures, whole, and sheets with document 02's margin: the crate's answers, as published and traced, and the documents'.

use oracle::form::Cut;
use oracle::{encode_settings, encode_tree, judge, original, paper, Margin, Settings, Tree};

fn cell(text: &str) -> Tree {
    Tree::cell(text)
}

/// The sheet on every side, in lines.
fn sheet(settings: &Settings, tree: &Tree) -> Vec<String> {
    let sheet = original::sheet(settings, tree);
    assert_eq!(original::answer(settings, tree).sheet, sheet);
    assert_eq!(paper::answer(settings, tree).sheet, sheet);
    let (settings, tree) = (encode_settings(settings), encode_tree(tree));
    assert_eq!(judge::sheet(&settings, &tree, sheet.len()), 0);
    assert_eq!(judge::sheet(&settings, &tree, sheet.len() - 1), 8);
    let text = String::from_utf8(sheet).unwrap();
    text.split('\n').map(String::from).collect()
}

#[test]
fn f1() {
    let tree = cell("ab");
    assert_eq!(encode_tree(&tree), [1, 0, 2, 0x61, 0x62]);
    assert_eq!(original::sheet(&Settings::D, &tree).len(), 20);
    let lines = ["+----+", "| ab |", "+----+"];
    assert_eq!(sheet(&Settings::D, &tree), lines);
    assert_eq!(original::default_sheet(&tree), lines.join("\n").as_bytes());
}

/// Document 02, 2: spare width goes right, spare height is shared as before.
#[test]
fn the_default_record() {
    let record = *b"\x10\x00\x1c--||-|+++++++++\x01\x01\x00\x00    \x00\x00\x00\x01\x02";
    assert_eq!(encode_settings(&Settings::DEFAULT), record);
    let row = Tree::Row(vec![cell("a"), cell("b"), cell("c")]);
    let tree = Tree::Column(vec![cell("abcdefghijk"), row]);
    let lines = [
        "+-------------+",
        "| abcdefghijk |",
        "+---+---+-----+",
        "| a | b | c   |",
        "+---+---+-----+",
    ];
    assert_eq!(sheet(&Settings::DEFAULT, &tree), lines);
    let column = Tree::Column(vec![cell("a"), cell("b")]);
    let tree = Tree::Row(vec![cell("x\nx\nx\nx"), column]);
    let lines = [
        "+---+---+",
        "| x | a |",
        "| x |   |",
        "| x +---+",
        "| x | b |",
        "+---+---+",
    ];
    assert_eq!(sheet(&Settings::DEFAULT, &tree), lines);
}

/// The same tree as F2, with Last stated.
#[test]
fn f2_goes_right() {
    let settings = Settings {
        width_priority: 1,
        ..Settings::M
    };
    let lines = [
        "1--------2",
        "( abcdef )",
        "7---3----8",
        "( a ( b  )",
        "4___6____5",
    ];
    assert_eq!(sheet(&settings, &figure_2()), lines);
}

fn figure_2() -> Tree {
    let row = Tree::Row(vec![cell("a"), cell("b")]);
    Tree::Column(vec![cell("abcdef"), row])
}

#[test]
fn f2() {
    let tree = figure_2();
    assert_eq!(
        sheet(&Settings::M, &tree),
        [
            "1--------2",
            "( abcdef )",
            "7----3---8",
            "( a  ( b )",
            "4____6___5"
        ]
    );

    // 'Spare 1 goes to `a`.'
    let sizes = original::answer(&Settings::M, &tree).sizes;
    let widths: Vec<_> = sizes
        .iter()
        .map(|size| (size.natural_width, size.allotted_width))
        .collect();
    assert_eq!(widths, [(8, 8), (8, 8), (7, 8), (3, 4), (3, 3)]);
}

#[test]
fn f3() {
    let row = Tree::Row(vec![cell("a"), cell("b")]);
    let tree = Tree::Column(vec![row, cell("c")]);
    assert_eq!(
        sheet(&Settings::M, &tree),
        [
            "1---3---2",
            "( a ( b )",
            "7---6---8",
            "( c     )",
            "4_______5"
        ]
    );

    // 'List 3 3, squashed 3 7.'
    let answer = original::answer(&Settings::M, &tree);
    let leaf = answer.leaves.last().unwrap();
    assert_eq!((leaf.node, &leaf.horizontal[..]), (4, &[3, 3][..]));
    assert_eq!(original::cut(&leaf.horizontal, leaf.width).squashed, [3, 7]);
}

#[test]
fn f4() {
    let row = Tree::Row(vec![cell("a"), cell("b")]);
    let tree = Tree::Column(vec![row.clone(), row]);
    assert_eq!(
        sheet(&Settings::M, &tree),
        [
            "1---3---2",
            "( a ( b )",
            "7---9---8",
            "( a ( b )",
            "4___6___5"
        ]
    );
}

#[test]
fn f5() {
    let column = Tree::Column(vec![cell("a"), cell("b")]);
    let tree = Tree::Row(vec![column, cell("c")]);
    assert_eq!(
        sheet(&Settings::M, &tree),
        [
            "1---3---2",
            "( a ( c )",
            "7---8   )",
            "( b (   )",
            "4___6___5"
        ]
    );
}

/// M with a margin, left, right, top, bottom.
fn edged(sizes: [u8; 4]) -> Settings {
    let margin = Margin {
        sizes,
        fills: *b"lrtb",
    };
    Settings {
        margin,
        ..Settings::M
    }
}

#[test]
fn a_margin_on_every_side() {
    let settings = edged([1, 2, 1, 1]);
    let field = &encode_settings(&settings)[31..];
    assert_eq!(field, b"\x11\x00\x08\x01\x02\x01\x01lrtb");
    let lines = sheet(&settings, &cell("ab"));
    assert_eq!(
        lines,
        [
            "lttttttrr",
            "l1----2rr",
            "l( ab )rr",
            "l4____5rr",
            "lbbbbbbrr"
        ]
    );
    assert_eq!(lines.join("\n").len(), 49);
}

#[test]
fn a_margin_above_and_below() {
    let lines = sheet(&edged([0, 0, 1, 2]), &cell("ab"));
    assert_eq!(
        lines,
        ["tttttt", "1----2", "( ab )", "4____5", "bbbbbb", "bbbbbb"]
    );
    assert_eq!(lines.join("\n").len(), 41);
}

#[test]
fn a_margin_of_no_size() {
    let (with, without) = (edged([0; 4]), Settings::M);
    assert_eq!(encode_settings(&with).len(), 42);
    for tree in [cell("ab"), figure_2()] {
        assert_eq!(
            original::answer(&with, &tree),
            original::answer(&without, &tree)
        );
        assert_eq!(paper::answer(&with, &tree), paper::answer(&without, &tree));
    }
}

/// Sizes, records and blocks are those without the margin, and each block is in the rectangle inside it.
#[test]
fn inside_the_margin() {
    let (settings, tree) = (edged([3, 0, 2, 0]), figure_2());
    assert_eq!(
        sheet(&settings, &tree),
        [
            "llltttttttttt",
            "llltttttttttt",
            "lll1--------2",
            "lll( abcdef )",
            "lll7----3---8",
            "lll( a  ( b )",
            "lll4____6___5"
        ]
    );
    let (with, without) = (
        original::answer(&settings, &tree),
        original::answer(&Settings::M, &tree),
    );
    assert_eq!(
        (with.sizes.clone(), with.leaves),
        (without.sizes, without.leaves)
    );
    assert_eq!(paper::rectangle(&settings, &with.sizes), (13, 7));
    let (settings, tree) = (encode_settings(&settings), encode_tree(&tree));
    assert_eq!(judge::sheet(&settings, &tree, 97), 0);
    assert_eq!(judge::sheet(&settings, &tree, 96), 8);
}

/// Yes or no, the pieces taken, the list left.
fn cut3(list: &[usize], width: usize) -> (bool, Vec<usize>, Vec<usize>) {
    let cut = original::cut3(list, width);
    assert_eq!(paper::cut3(list, width), cut);
    (cut.yes, cut.taken, cut.left)
}

#[test]
fn f6_to_f9() {
    assert_eq!(cut3(&[4, 2], 5), (false, vec![4], vec![1]));
    assert_eq!(cut3(&[3, 3], 3), (true, vec![], vec![3]));
    assert_eq!(cut3(&[5], 0), (false, vec![], vec![4]));
    assert_eq!(cut3(&[0, 5], 0), (true, vec![], vec![5]));
}

#[test]
fn the_other_cut() {
    let cut = original::cut(&[3, 3], 7);
    let expected = Cut {
        positions: vec![3, 6],
        squashed: vec![3, 7],
        left: vec![],
    };
    assert_eq!(cut, expected);
    let cut = original::cut(&[4, 2], 5);
    let expected = Cut {
        positions: vec![4],
        squashed: vec![4],
        left: vec![1],
    };
    assert_eq!(cut, expected);
}
