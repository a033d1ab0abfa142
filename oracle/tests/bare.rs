//! Document 02, 13: sheets without lines. The crate's answers, mended as `paper` says, and the documents'.

use oracle::calls::Calls;
use oracle::sides::{Answers, Crate, Original, Paper};
use oracle::{encode_settings, encode_tree, judge, original, paper, Margin, Settings, Tree};

fn cell(text: &str) -> Tree {
    Tree::cell(text)
}

fn row<const N: usize>(children: [Tree; N]) -> Tree {
    Tree::Row(children.to_vec())
}

fn column<const N: usize>(children: [Tree; N]) -> Tree {
    Tree::Column(children.to_vec())
}

/// F2's tree.
fn figure_2() -> Tree {
    column([cell("abcdef"), row([cell("a"), cell("b")])])
}

/// The settings with a margin of these sizes.
fn edged(settings: Settings, sizes: [u8; 4]) -> Settings {
    Settings {
        margin: Margin {
            sizes,
            fills: *b"lrtb",
        },
        ..settings
    }
}

/// The sheet on both sides. The judge requires as many bytes, and no fewer.
fn sheet(settings: &Settings, tree: &Tree) -> String {
    let sheet = paper::answer(settings, tree).sheet;
    assert_eq!(Crate.answer(settings, tree).sheet, sheet);
    let (settings, tree) = (encode_settings(settings), encode_tree(tree));
    assert_eq!(judge::sheet(&settings, &tree, sheet.len()), 0);
    if !sheet.is_empty() {
        assert_eq!(judge::sheet(&settings, &tree, sheet.len() - 1), 8);
    }
    String::from_utf8(sheet).unwrap()
}

/// A leaf's block, in the same way.
fn block(settings: &Settings, tree: &Tree, node: usize) -> String {
    let leaves = paper::answer(settings, tree).leaves;
    assert_eq!(Crate.answer(settings, tree).leaves, leaves);
    let leaf = leaves.into_iter().find(|leaf| leaf.node == node);
    let block = leaf.expect("a leaf").block;
    let (settings, tree) = (encode_settings(settings), encode_tree(tree));
    assert_eq!(judge::leaf_bytes(&settings, &tree, node), Some(block.len()));
    String::from_utf8(block).unwrap()
}

#[test]
fn the_forms() {
    let n = b"\x10\x00\x1c\0\0\0\0\0\0\0\0\0\0\0\0\0\0\0\x01\x01\x00\x00    \x00\x00\x00\x02\x02";
    assert_eq!(encode_settings(&Settings::N), n);
    assert_eq!(judge::read_settings(n), Ok(Settings::N));
}

/// The crate prints these without lines as the port does, nothing mended.
#[test]
fn sheets() {
    let beside = row([column([cell("a"), cell("b")]), cell("c")]);
    let with_margin = edged(Settings::N, [1; 4]);
    for (settings, tree, lines) in [
        (Settings::N, cell("ab"), &[" ab "][..]),
        (Settings::N, figure_2(), &[" abcdef ", " a   b  "]),
        (
            with_margin,
            figure_2(),
            &["lttttttttr", "l abcdef r", "l a   b  r", "lbbbbbbbbr"],
        ),
    ] {
        let lines = lines.join("\n");
        assert_eq!(original::sheet(&settings, &tree), lines.as_bytes());
        assert_eq!(sheet(&settings, &tree), lines);
    }
    assert_eq!(sheet(&Settings::N, &beside), " a  c \n b    ");
}

/// A block without lines is the text with its padding and indent.
#[test]
fn blocks() {
    let tree = figure_2();
    assert_eq!(block(&Settings::N, &tree, 1), " abcdef ");
    assert_eq!(block(&Settings::N, &tree, 3), " a  ");
    assert_eq!(block(&Settings::N, &tree, 4), " b  ");
    let padded = Settings {
        padding: [1, 0, 1, 1],
        fills: *b"lrtb",
        vertical: 1,
        ..Settings::N
    };
    let tree = row([cell("a\n\n\n"), cell("bc")]);
    assert_eq!(block(&padded, &tree, 2), "   \nttt\nlbc\nbbb\n   \n   ");
}

/// 'W and H lose their 2': the sizes have no separators, the lists and flags are as with lines.
#[test]
fn records() {
    let tree = column([row([cell("a"), cell("b")]), cell("c")]);
    let sizes = paper::sizes(&Settings::N, &tree);
    assert_eq!(paper::rectangle(&Settings::N, &sizes), (6, 2));
    let record = |settings: &Settings| {
        let (settings, tree) = (encode_settings(settings), encode_tree(&tree));
        let record = Original::default().leaf_record(&settings, &tree, 4);
        assert_eq!(Paper::default().leaf_record(&settings, &tree, 4), record);
        record
    };
    let (bare, lined) = (record(&Settings::N), record(&Settings::M));
    assert_eq!((bare.width, bare.height), (6, 1));
    assert_eq!(bare.horizontal.list(), [3, 3]);
    assert_eq!((bare.flags, bare.pair), (lined.flags, lined.pair));
    // A reading: 'The list, cut and squashed, still names columns 3, and nothing prints them.'
    assert_eq!(original::cut(&[3, 3], 6).squashed, [3]);
    assert_eq!(block(&Settings::N, &tree, 4), " c    ");
}

#[test]
fn limits() {
    let d = Settings::D.bare();
    for (tree, rectangle, number, bytes) in [
        (Tree::Cell(vec![b'a'; 398]), (400, 1), 0, 400),
        (Tree::Cell(vec![b'a'; 399]), (401, 1), 6, 0),
        (Tree::Cell(vec![0x0A; 159]), (2, 160), 0, 479),
        (Tree::Cell(vec![0x0A; 160]), (2, 161), 6, 0),
    ] {
        assert_eq!(paper::rectangle(&d, &paper::sizes(&d, &tree)), rectangle);
        if number == 0 {
            assert_eq!(sheet(&d, &tree).len(), bytes);
            assert_eq!(original::sheet(&d, &tree).len(), bytes);
        }
        let (settings, tree) = (encode_settings(&d), encode_tree(&tree));
        assert_eq!(judge::sheet(&settings, &tree, usize::MAX), number);
        assert_eq!(judge::leaf_record(&settings, &tree, 0), number);
        assert_eq!(judge::leaf(&settings, &tree, 0, usize::MAX), number);
        assert_eq!(judge::place(&settings, &tree, 0, 0), number);
    }
}

/// Sheets of no columns: H − 1 line feeds, and a margin around them where there is one.
#[test]
fn no_columns() {
    for (settings, tree, printed) in [
        (Settings::N0, cell(""), ""),
        (Settings::N0, Tree::Row(vec![]), ""),
        (Settings::N0, cell("\n"), "\n"),
        (Settings::N0, cell("\n\n"), "\n\n"),
        (Settings::N0, row([cell(""), cell("")]), ""),
        (Settings::N0, column([cell(""), cell("\n")]), "\n\n"),
        (edged(Settings::N0, [1, 1, 0, 0]), cell("\n"), "lr\nlr"),
        (edged(Settings::N0, [1; 4]), cell(""), "lr\nlr\nlr"),
        (edged(Settings::N0, [0, 0, 1, 1]), cell(""), "\n\n"),
    ] {
        assert_eq!(sheet(&settings, &tree), printed, "{tree:?}");
    }
    let both = row([cell(""), cell("a\nb")]);
    assert_eq!(sheet(&Settings::N0, &both), "a\nb");
    assert_eq!(block(&Settings::N0, &both, 1), "\n");
    assert_eq!(block(&Settings::N0, &both, 2), "a\nb");
    assert_eq!(block(&Settings::N0, &cell(""), 0), "");
}

/// The sheet program's input, as the judge splits it.
#[test]
fn the_program() {
    for (tree, printed) in [(&b"\x01\x00\x00"[..], ""), (b"\x01\x00\x01\n", "\n")] {
        let input = [&encode_settings(&Settings::N0), tree].concat();
        let (settings, tree) = judge::split(&input);
        let read = judge::shown(settings, tree).expect("a sheet");
        assert_eq!(sheet(&read.settings, &read.tree), printed);
    }
}

/// No place is in a leaf of no columns, which may start where its neighbour does.
#[test]
fn places() {
    let place = |tree: &Tree, line: usize, column: usize| {
        let (settings, tree) = (encode_settings(&Settings::N0), encode_tree(tree));
        let place = Original::default().place(&settings, &tree, line, column);
        assert_eq!(
            Paper::default().place(&settings, &tree, line, column),
            place
        );
        (place.number, place.node, place.line, place.column)
    };
    assert_eq!(place(&cell(""), 0, 0), (12, 0, 0, 0));
    let (before, behind) = (row([cell(""), cell("a")]), row([cell("a"), cell("")]));
    assert_eq!(place(&before, 0, 0), (0, 2, 0, 0));
    assert_eq!(place(&before, 0, 1), (12, 0, 0, 0));
    assert_eq!(place(&behind, 0, 0), (0, 1, 0, 0));
    assert_eq!(place(&behind, 0, 1), (12, 0, 0, 0));
    // The empty Cell gets the Row's spare column.
    let rows = column([before, row([cell("b"), cell("c\nd")])]);
    assert_eq!(place(&rows, 0, 0), (0, 2, 0, 0));
    assert_eq!(place(&rows, 0, 1), (0, 3, 0, 0));
    assert_eq!(place(&rows, 1, 0), (0, 5, 0, 0));
    assert_eq!(place(&rows, 2, 1), (0, 6, 1, 0));
    assert_eq!(place(&rows, 3, 0), (12, 0, 0, 0));
}

/// 'A mixture is still 1.' With fifteen zeros all other ranges are tested as before.
#[test]
fn mixtures() {
    let number = |settings: Settings| judge::settings(&encode_settings(&settings));
    let with = |mut settings: Settings, at: usize, mark: u8| {
        settings.marks[at] = mark;
        number(settings)
    };
    assert_eq!(number(Settings::N), 0);
    assert_eq!(with(Settings::N, 4, b'-'), 1);
    assert_eq!(with(Settings::D, 0, 0), 1);
    for at in 0..15 {
        assert_eq!(with(Settings::N, at, b'+'), 1);
        assert_eq!(with(Settings::M, at, 0), 1);
    }
    let n = encode_settings(&edged(Settings::N, [1; 4]));
    for at in 18..42 {
        let mut bytes = n.clone();
        bytes[at] = 0x7F;
        assert_eq!(judge::settings(&bytes), 1);
        assert_eq!(judge::settings(&bytes[..31]), u8::from(at < 31));
    }
}

/// The second pair of trees of the readings of document 02, 14: without lines, with a margin, each line right by itself.
#[test]
fn question_and_key() {
    let settings = Settings {
        horizontal: 2,
        line_mode: 1,
        ..edged(Settings::N, [1, 1, 0, 0])
    };
    let key = row([cell("a\nbcd"), cell("e")]);
    let question = row([cell(".\n..."), cell(".")]);
    assert_eq!(sheet(&settings, &key), "l   a  e r\nl bcd    r");
    assert_eq!(sheet(&settings, &question), "l   .  . r\nl ...    r");
}
