//! Where the crate differs from the port: docs/DIFFERENCES.md, each with the smallest input.

use oracle::gen::{self, Margins, Rng};
use oracle::{encode_settings, encode_tree, judge, original, paper, Margin, Settings, Tree};

fn sheet(tree: &Tree) -> String {
    String::from_utf8(original::sheet(&Settings::M0, tree)).unwrap()
}

fn number(tree: &Tree) -> u8 {
    judge::sheet(
        &encode_settings(&Settings::M0),
        &encode_tree(tree),
        usize::MAX,
    )
}

/// Document 02, 2: the port's default width priority is Last, the crate's is List.
#[test]
fn defaults() {
    let row = Tree::Row(vec![Tree::cell("a"), Tree::cell("b")]);
    let tree = Tree::Column(vec![Tree::cell("abcdef"), row]);
    let crates = "+--------+\n| abcdef |\n+----+---+\n| a  | b |\n+----+---+";
    let ports = "+--------+\n| abcdef |\n+---+----+\n| a | b  |\n+---+----+";
    assert_eq!(original::default_sheet(&tree), crates.as_bytes());
    assert_eq!(
        paper::answer(&Settings::DEFAULT, &tree).sheet,
        ports.as_bytes()
    );
}

/// Document 02, 8: the crate prints an empty text for a zero-wide leaf, the port its marks.
#[test]
fn zero_wide_leaves() {
    let (empty, a) = (|| Tree::cell(""), || Tree::cell("a"));
    let both = || Tree::Row(vec![empty(), empty()]);
    let a_b = Tree::Column(vec![a(), Tree::cell("b")]);
    let blank = "12\n()\n45";
    for (tree, crates, ports) in [
        (empty(), "", blank),
        (Tree::Row(vec![]), "", blank),
        (Tree::Column(vec![]), "", blank),
        (Tree::cell("\n\n"), "", "12\n()\n()\n()\n45"),
        // No left edge; no right one.
        (
            Tree::Row(vec![empty(), a()]),
            "3-2\n(a)\n6_5",
            "13-2\n((a)\n46_5",
        ),
        (
            Tree::Row(vec![a(), empty()]),
            "1-\n(a\n4_",
            "1-32\n(a()\n4_65",
        ),
        (
            Tree::Row(vec![a_b, empty()]),
            "1-\n(a\n7-\n(b\n4_",
            "1-32\n(a()\n7-8)\n(b()\n4_65",
        ),
        // By the stand-in `Table`: an empty text has one line, and a narrow one is filled up with spaces.
        (
            Tree::Column(vec![empty(), empty()]),
            "\n",
            "12\n()\n78\n()\n45",
        ),
        (
            Tree::Column(vec![both(), a()]),
            "   \n768\n(a)\n4_5",
            "132\n(()\n768\n(a)\n4_5",
        ),
        (
            Tree::Column(vec![both(), Tree::cell("ab")]),
            "1-  \n(   \n7-68\n(ab)\n4__5",
            "1-32\n( ()\n7-68\n(ab)\n4__5",
        ),
    ] {
        assert_eq!(sheet(&tree), crates, "{tree:?}");
        assert_eq!(paper::answer(&Settings::M0, &tree).sheet, ports.as_bytes());
        assert_eq!(number(&tree), 0);
    }
}

/// A zero-wide leaf takes part in the lists and the flags; there, and in its neighbours' blocks, the two agree.
#[test]
fn zero_wide_records() {
    let tree = Tree::Column(vec![
        Tree::Row(vec![Tree::cell(""), Tree::cell("a")]),
        Tree::Row(vec![Tree::cell("b"), Tree::cell("")]),
    ]);
    let crates = original::answer(&Settings::M0, &tree).leaves;
    let mut ports = paper::answer(&Settings::M0, &tree).leaves;
    let widths: Vec<_> = crates.iter().map(|leaf| leaf.width).collect();
    assert_eq!(widths, [0, 1, 1, 0]);
    for at in [0, 3] {
        assert_ne!(ports[at].block, b"");
        ports[at].block.clear();
    }
    assert_eq!(crates, ports);
}

/// Document 02, 13: without lines the crate puts an extra blank before some indent and padding lines, and the joining widens the others; the port does not.
#[test]
fn extra_blanks() {
    let cells = |texts: &[&str]| texts.iter().map(Tree::cell).collect();
    let beside =
        |texts: &[&str], text: &str| Tree::Row(vec![Tree::Column(cells(texts)), Tree::cell(text)]);
    let left = Settings {
        padding: [1, 0, 0, 0],
        fills: *b"lrtb",
        ..Settings::N
    };
    let bottom = Settings {
        padding: [1, 0, 0, 1],
        vertical: 2,
        ..left
    };
    for (settings, tree, crates, ports) in [
        (
            Settings::N,
            beside(&["", ""], ""),
            "     \n     ",
            "    \n    ",
        ),
        (left, beside(&["a", "b"], "c"), "lalc \nlb   ", "lalc\nlb  "),
        (
            bottom,
            beside(&["a", "b", "c"], "d"),
            "la   \nbb   \nlb   \nbb   \nlcld \nbb bb",
            "la  \nbb  \nlb  \nbb  \nlcld\nbbbb",
        ),
    ] {
        assert_eq!(original::sheet(&settings, &tree), crates.as_bytes());
        assert_eq!(paper::answer(&settings, &tree).sheet, ports.as_bytes());
    }
}

/// No tree of under 15 bytes has an extra blank; the first above has 15.
#[test]
fn the_smallest_tree_with_a_blank() {
    for tree in gen::short_trees(14) {
        for settings in gen::bare_settings() {
            let (crates, ports) = (
                original::answer(&settings, &tree).leaves,
                paper::answer(&settings, &tree).leaves,
            );
            for (crates, ports) in crates.iter().zip(&ports) {
                assert!(crates.width == 0 || crates == ports, "{tree:?}");
            }
        }
    }
}

/// Document 02, 8 and 13: without lines a leaf of no columns shows in a sheet of no columns alone, by its line feeds; in any other the crate's sheet, by the stand-in `Table`, is the
/// port's.
#[test]
fn zero_wide_leaves_without_lines() {
    let sheets = |settings: &Settings, tree: &Tree| {
        let crates = original::sheet(settings, tree);
        (crates, paper::answer(settings, tree).sheet)
    };
    let feed = (b"".to_vec(), b"\n".to_vec());
    assert_eq!(sheets(&Settings::N0, &Tree::cell("\n")), feed);
    let mut rng = Rng::new(42).bare();
    let mut seen = 0;
    while seen < 200 {
        let (settings, tree) = gen::table(&mut rng, Margins::Half);
        let answer = original::answer(&settings, &tree);
        let (blank, wide): (Vec<_>, Vec<_>) = answer.leaves.iter().partition(|l| l.width == 0);
        let has_columns = answer.sizes[0].natural_width > 0;
        if !blank.is_empty() && has_columns && wide.into_iter().all(original::is_even) {
            let (crates, ports) = sheets(&settings, &tree);
            assert_eq!(crates, ports);
            seen += 1;
        }
    }
}

/// Texts that the crate accepts and document 01 refuses. The widths are the stand-in's.
#[test]
fn other_texts() {
    for text in ["\t", "\r", "\u{7f}", "é"] {
        let tree = Tree::cell(text);
        assert_eq!(number(&tree), 3);
        assert_eq!(sheet(&tree), format!("1-2\n({text})\n4_5"));
    }
}

/// Settings that the crate takes and document 01 refuses.
#[test]
fn other_settings() {
    let refused = |settings: &Settings| judge::settings(&encode_settings(settings));
    let printed = |settings: &Settings| {
        String::from_utf8(original::sheet(settings, &Tree::cell("a"))).unwrap()
    };

    let wide = Settings {
        padding: [17, 0, 0, 0],
        ..Settings::M0
    };
    assert_eq!(refused(&wide), 1);
    let line = |edge: char| edge.to_string().repeat(18);
    assert_eq!(
        printed(&wide),
        format!("1{}2\n({}a)\n4{}5", line('-'), " ".repeat(17), line('_'))
    );

    let mut marks = Settings::M0.marks;
    marks[0] = 0x7F;
    let top = Settings {
        marks,
        ..Settings::M0
    };
    assert_eq!(refused(&top), 1);
    assert_eq!(printed(&top), "1\u{7f}2\n(a)\n4_5");

    let fill = Settings {
        padding: [1, 0, 0, 0],
        fills: [0x1F, 32, 32, 32],
        ..Settings::M0
    };
    assert_eq!(refused(&fill), 1);
    assert_eq!(printed(&fill), "1--2\n(\u{1f}a)\n4__5");

    let margin = |sizes: [u8; 4], fills: [u8; 4]| Settings {
        margin: Margin { sizes, fills },
        ..Settings::M0
    };
    let edged = margin([17, 0, 0, 0], *b"lrtb");
    assert_eq!(refused(&edged), 1);
    let edge = "l".repeat(17);
    assert_eq!(printed(&edged), format!("{edge}1-2\n{edge}(a)\n{edge}4_5"));
    let edged = margin([1, 0, 0, 0], *b"\x1frtb");
    assert_eq!(refused(&edged), 1);
    assert_eq!(printed(&edged), "\u{1f}1-2\n\u{1f}(a)\n\u{1f}4_5");
}

/// The crate prints no margin around an empty text, which is its sheet of a zero-wide leaf alone. Without lines the port prints it around no columns.
#[test]
fn no_margin_around_nothing() {
    let tree = Tree::cell("");
    for (settings, sizes, ports) in [
        (Settings::M0, [1; 4], "lttr\nl12r\nl()r\nl45r\nlbbr"),
        (Settings::N0, [1, 0, 0, 0], "l"),
        (Settings::N0, [1; 4], "lr\nlr\nlr"),
    ] {
        let fills = *b"lrtb";
        let settings = Settings {
            margin: Margin { sizes, fills },
            ..settings
        };
        assert_eq!(original::sheet(&settings, &tree), b"");
        assert_eq!(paper::answer(&settings, &tree).sheet, ports.as_bytes());
    }
}

/// A list of 513 pieces, which the port's form does not hold.
#[test]
fn long_lists() {
    let cut = original::cut3(&[0; 513], 0);
    assert_eq!(
        (judge::cut(513), cut.yes, cut.taken, cut.left),
        (10, true, vec![], vec![0; 512])
    );

    // `short_splits` says neither yes nor no, and takes no piece away at width 0.
    let cut = original::cut(&[0; 513], 0);
    assert_eq!((cut.positions, cut.left), (vec![], vec![0; 513]));

    // At width 1 it takes all.
    let cut = original::cut(&[0; 513], 1);
    assert_eq!((cut.positions, cut.left), (vec![0; 513], vec![]));
}
