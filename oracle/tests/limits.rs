//! The limits of documents 01 and 02, and that the generator's inputs near them are as far from them as it says.

use oracle::gen::{self, Limit, Margins, Rng};
use oracle::judge;
use oracle::sides::{Answers, Crate};
use oracle::{encode_settings, encode_tree, original, paper, Margin, Settings, Tree};

/// What the sheet printer says, lent enough.
fn sheet(settings: &Settings, tree: &Tree) -> u8 {
    judge::sheet(&encode_settings(settings), &encode_tree(tree), usize::MAX)
}

/// What the size collector says, lent enough.
fn sizes(settings: &Settings, tree: &Tree) -> u8 {
    judge::sizes(&encode_settings(settings), &encode_tree(tree), usize::MAX)
}

fn nested(depth: usize) -> Tree {
    (1..depth).fold(Tree::cell("a"), |tree, _| Tree::Row(vec![tree]))
}

#[test]
fn width() {
    let cell = |letters: usize| Tree::Cell(vec![b'a'; letters]);
    assert_eq!(sheet(&Settings::D, &cell(396)), 0);
    assert_eq!(sheet(&Settings::D, &cell(397)), 6);
    let sheet = original::sheet(&Settings::D, &cell(396));
    assert_eq!(sheet.len(), 401 * 3 - 1);
    // The crate goes on.
    let sheet = original::sheet(&Settings::D, &cell(397));
    assert_eq!(sheet.len(), 402 * 3 - 1);
}

#[test]
fn height() {
    let cell = |feeds: usize| Tree::Cell(vec![0x0A; feeds]);
    assert_eq!(sheet(&Settings::D, &cell(157)), 0);
    assert_eq!(sheet(&Settings::D, &cell(158)), 6);
    let sheet = original::sheet(&Settings::D, &cell(157));
    assert_eq!(sheet.len(), 5 * 160 - 1);
    let sheet = original::sheet(&Settings::D, &cell(158));
    assert_eq!(sheet.len(), 5 * 161 - 1);
}

/// W and H have the margin in them, for the sheet printer, the leaf printer and the leaf record; not for the size collector.
#[test]
fn margins() {
    let wide = |letters: usize| Tree::Cell(vec![b'a'; letters]);
    let high = |feeds: usize| Tree::Cell(vec![0x0A; feeds]);
    for (margin, tree, rectangle, number) in [
        ([1, 0, 0, 0], wide(395), (400, 3), 0),
        ([1, 0, 0, 0], wide(396), (401, 3), 6),
        ([16, 16, 0, 0], wide(364), (400, 3), 0),
        ([16, 16, 0, 0], wide(365), (401, 3), 6),
        ([0, 0, 0, 1], high(156), (4, 160), 0),
        ([0, 0, 0, 1], high(157), (4, 161), 6),
        ([0, 0, 16, 16], high(125), (4, 160), 0),
        ([0, 0, 16, 16], high(126), (4, 161), 6),
    ] {
        let settings = Settings {
            margin: Margin {
                sizes: margin,
                ..Margin::NONE
            },
            ..Settings::D
        };
        let natural = paper::sizes(&settings, &tree);
        assert_eq!(paper::rectangle(&settings, &natural), rectangle);
        assert_eq!(sheet(&settings, &tree), number);
        assert_eq!(sizes(&settings, &tree), 0);
        let (bytes, tree_bytes) = (encode_settings(&settings), encode_tree(&tree));
        assert_eq!(judge::leaf_record(&bytes, &tree_bytes, 0), number);
        assert_eq!(judge::leaf(&bytes, &tree_bytes, 0, usize::MAX), number);
        // The crate goes on.
        let (w, h) = rectangle;
        let sheet = original::sheet(&settings, &tree);
        assert_eq!(sheet.len(), (w + 1) * h - 1);
    }
}

#[test]
fn depth() {
    assert_eq!(sheet(&Settings::D, &nested(16)), 0);
    assert_eq!(sheet(&Settings::D, &nested(17)), 5);
    let sheet = original::sheet(&Settings::D, &nested(17));
    assert_eq!(sheet, b"+---+\n| a |\n+---+");
}

#[test]
fn nodes() {
    // Too wide for a sheet, so the collector is called; then a grid that fits a sheet.
    let row = |nodes: usize| Tree::Row(vec![Tree::cell(""); nodes - 1]);
    assert_eq!(sizes(&Settings::D, &row(512)), 0);
    assert_eq!(sizes(&Settings::D, &row(513)), 4);
    assert_eq!(sheet(&Settings::D, &row(512)), 6);
    // The crate goes on.
    let sheet_of_513 = original::sheet(&Settings::D, &row(513));
    assert_eq!(sheet_of_513.len(), (3 * 512 + 2) * 3 - 1);

    let column = |cells: usize| Tree::Column(vec![Tree::cell("x"); cells]);
    let grid = |more: usize| {
        let mut columns = vec![column(72); 6];
        columns.push(column(72 + more));
        Tree::Row(columns)
    };
    assert_eq!((grid(0).nodes(), grid(1).nodes()), (512, 513));
    assert_eq!(sheet(&Settings::D, &grid(0)), 0);
    assert_eq!(sheet(&Settings::D, &grid(1)), 4);
    let answer = original::answer(&Settings::D, &grid(0));
    assert_eq!(answer, paper::answer(&Settings::D, &grid(0)));
}

/// The longest split lists that a leaf record can hold: as many zero-wide Cells as W has room for, and Cells of one line within H.
#[test]
fn lists() {
    let settings = Settings::M0;
    let record = |tree: &Tree, node: usize| {
        judge::leaf_record(&encode_settings(&settings), &encode_tree(tree), node)
    };

    let row = |cells: usize| Tree::Row(vec![Tree::cell(""); cells]);
    let tree = |cells: usize| Tree::Column(vec![row(cells), Tree::cell("")]);
    assert_eq!((record(&tree(399), 401), record(&tree(400), 402)), (0, 6));
    let answer = Crate.answer(&settings, &tree(399));
    assert_eq!(answer.leaves[399].horizontal, [0; 399]);
    assert_eq!(paper::answer(&settings, &tree(399)), answer);

    let column = |cells: usize| Tree::Column(vec![Tree::cell("a"); cells]);
    let tree = |cells: usize| Tree::Row(vec![column(cells), Tree::cell("b")]);
    assert_eq!((record(&tree(79), 81), record(&tree(80), 82)), (0, 6));
    let answer = original::answer(&settings, &tree(79));
    assert_eq!(answer.leaves[79].vertical, [1; 79]);
    assert_eq!(paper::answer(&settings, &tree(79)), answer);
}

#[test]
fn bytes() {
    let cell = |bytes: usize| Tree::Cell(vec![0x0A; bytes - 3]);
    assert_eq!(sizes(&Settings::D, &cell(32_768)), 0);
    assert_eq!(sizes(&Settings::D, &cell(32_769)), 2);
    let answer = original::answer(&Settings::D, &cell(32_768));
    assert_eq!(answer.sizes[0].natural_height, 32_766);
    let sheet = original::sheet(&Settings::D, &cell(32_769));
    assert_eq!(sheet.len(), 5 * 32_769 - 1);
}

/// The last limit case as document 02, 8 changes it: 8 bytes from the sheet and from the leaf.
#[test]
fn zero_wide() {
    let tight = Settings {
        padding: [0; 4],
        ..Settings::D
    };
    let (settings, tree) = (encode_settings(&tight), encode_tree(&Tree::cell("")));
    for (length, number) in [(7, 8), (8, 0)] {
        assert_eq!(judge::sheet(&settings, &tree, length), number);
        assert_eq!(judge::leaf(&settings, &tree, 0, length), number);
    }
    let answer = paper::answer(&tight, &Tree::cell(""));
    assert_eq!(answer.sheet, b"++\n||\n++");
    assert_eq!(answer.leaves[0].block, answer.sheet);
}

#[test]
fn corners() {
    for (d, sizes) in [
        (Settings::D, [0; 4]),
        (Settings::D, [1, 2, 3, 4]),
        (Settings::D, [16; 4]),
        (Settings::D.bare(), [0; 4]),
        (Settings::D.bare(), [4, 3, 2, 1]),
    ] {
        for (width, height) in [(-1, 1), (0, 0), (2, -2)] {
            let (settings, tree) = gen::corner(d, sizes, width, height);
            let (w, h) = paper::rectangle(&settings, &paper::sizes(&settings, &tree));
            let at = |extent: usize, of: usize| extent as isize - of as isize;
            let offsets = (at(w, judge::SHEET_WIDTH), at(h, judge::SHEET_HEIGHT));
            assert_eq!(offsets, (width, height));
        }
    }
}

#[test]
fn inputs_near_the_limits() {
    stand_near(Rng::new(3));
    stand_near(Rng::new(3).bare());
}

/// Each input is as far from its limit as it should be, and is answered accordingly.
fn stand_near(mut rng: Rng) {
    for limit in gen::LIMITS {
        for offset in -2..=2 {
            for _ in 0..8 {
                let (settings, tree) = gen::near(&mut rng, Margins::Half, limit, offset);
                let (w, h) = paper::rectangle(&settings, &paper::sizes(&settings, &tree));
                let (at, of) = match limit {
                    Limit::Nodes => (tree.nodes(), judge::NODES),
                    Limit::Depth => (tree.depth(), judge::DEPTH),
                    Limit::Width => (w, judge::SHEET_WIDTH),
                    Limit::Height => (h, judge::SHEET_HEIGHT),
                    Limit::Bytes => (tree.bytes(), judge::TREE_BYTES),
                };
                assert_eq!(Some(at), of.checked_add_signed(offset), "{limit:?}");
                assert_eq!(encode_tree(&tree).len(), tree.bytes());

                let number = sheet(&settings, &tree);
                match limit {
                    Limit::Nodes if offset > 0 => assert_eq!(number, 4),
                    Limit::Depth if offset > 0 => assert_eq!(number, 5),
                    Limit::Bytes if offset > 0 => assert_eq!(number, 2),
                    Limit::Width | Limit::Height if offset > 0 => assert_eq!(number, 6),
                    _ => assert!([0, 6].contains(&number)),
                }
            }
        }
    }
}
