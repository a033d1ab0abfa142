//! The files of the program `replay`: answers as lines. Those of this file are the crate's on shapes, tables, damaged bytes and limits; crate `test_calls` says what each line means.

use crate::calls::Calls;
use crate::form::{encode_margin, encode_settings, encode_tree, CutPair, Margin, Settings, Tree};
use crate::gen::{self, Margins, Rng};
use crate::judge;
use crate::lines::Lines;
use crate::{bare, blanks, drafts, folds, places, plans, widths};

/// The same tree with these texts in its Cells, alternately.
fn with_texts(tree: &Tree, texts: &mut impl Iterator<Item = &'static str>) -> Tree {
    let mut group = |children: &[Tree]| {
        children
            .iter()
            .map(|child| with_texts(child, texts))
            .collect()
    };
    match tree {
        Tree::Row(children) => Tree::Row(group(children)),
        Tree::Column(children) => Tree::Column(group(children)),
        Tree::Cell(_) => Tree::cell(texts.next().expect("texts without end")),
    }
}

/// Every shape of up to four nodes, under one of two settings: sheets. Rows and Columns alternate, so the settings change with every
/// second shape.
fn shapes(lines: &mut Lines) {
    lines.title("Every shape of up to 4 nodes");
    let mut texts = ["a", "bcd", "e\nfg", ""].into_iter().cycle();
    let shapes: Vec<Tree> = (1..=4)
        .flat_map(|nodes| gen::small_trees(nodes, &["a"]))
        .collect();
    let late = Settings {
        padding: [0, 1, 0, 1],
        horizontal: 2,
        vertical: 2,
        height_priority: 0,
        ..Settings::M
    };
    let settings = [Settings::M, late];
    for (turn, settings) in settings.iter().enumerate() {
        for (at, shape) in shapes.iter().enumerate() {
            if at / 2 % 2 == turn {
                let tree = encode_tree(&with_texts(shape, &mut texts));
                lines.given(&encode_settings(settings), &tree);
                lines.sheet();
            }
        }
    }
}

/// Random tables whose sheet is small: the sizes of three nodes, one leaf's record and block, and the sheet.
pub fn tables(lines: &mut Lines, rng: &mut Rng, margins: Margins, most: usize, count: usize) {
    lines.title(&format!("Random tables of up to {most} bytes"));
    let mut left = count;
    while left > 0 {
        let (settings, tree) = gen::table(rng, margins);
        let (settings, bytes) = (encode_settings(&settings), encode_tree(&tree));
        let fits = judge::read(&settings, &bytes).is_ok_and(|read| read.sheet_bytes() <= most);
        if tree.nodes() < 4 || !fits {
            continue;
        }
        lines.given(&settings, &bytes);
        for _ in 0..3 {
            lines.sizes(rng.below(tree.nodes()));
        }
        lines.both(rng.pick(&judge::leaves(&tree)));
        left -= 1;
    }
}

/// Random bytes, damaged ones among them: the readers' numbers and the refusals, by the judge.
pub fn damaged(lines: &mut Lines, rng: &mut Rng, count: usize) {
    lines.title("Damaged bytes");
    let mut left = count;
    while left > 0 {
        let case = gen::any_case(rng, Margins::None);
        let refused = judge::sheet(&case.settings, &case.tree, usize::MAX) != 0;
        if case.tree.len() > 60 || !refused {
            continue;
        }
        lines.given(&case.settings, &case.tree);
        lines.readers();
        lines.both(case.node % 8);
        left -= 1;
    }
}

/// Both sides of each limit.
fn limits(lines: &mut Lines) {
    lines.title("Limits");
    let settings = encode_settings(&Settings::D);
    let items: [(&[u8], usize, &[u8]); 10] = [
        (&[1, 0x01, 0x8C], 396, b"a"),
        (&[1, 0x01, 0x8D], 397, b"a"),
        (&[1, 0x00, 0x9D], 157, b"\n"),
        (&[1, 0x00, 0x9E], 158, b"\n"),
        (&[3, 0x00, 0xED], 79, &[1, 0, 0]),
        (&[3, 0x00, 0xF0], 80, &[1, 0, 0]),
        (&[2, 0x05, 0xFD], 511, &[1, 0, 0]),
        (&[2, 0x06, 0x00], 512, &[1, 0, 0]),
        (&[1, 0x7F, 0xFD], 32_765, b"a"),
        (&[1, 0x7F, 0xFE], 32_766, b"a"),
    ];
    for (head, n, item) in items {
        lines.repeated(&settings, head, n, item);
        lines.readers();
        lines.both(1);
    }
    for depth in [16, 17] {
        let tree = (1..depth).fold(Tree::cell("a"), |inner, _| Tree::Column(vec![inner]));
        lines.given(&settings, &encode_tree(&tree));
        lines.readers();
        lines.both(depth - 1);
    }
    for size in [16, 17] {
        let padded = Settings {
            padding: [size; 4],
            ..Settings::M
        };
        lines.given(&encode_settings(&padded), &encode_tree(&Tree::cell("a")));
        lines.readers();
        lines.both(0);
    }
    lines.given(
        &encode_settings(&Settings::M0),
        &encode_tree(&Tree::cell("")),
    );
    lines.both(0);
}

/// M without padding, and a margin.
fn edged(sizes: [u8; 4]) -> Settings {
    Settings {
        margin: Margin {
            sizes,
            fills: *b"lrtb",
        },
        ..Settings::M0
    }
}

/// Margins on one side, small and large, on two and on all; then random tables with a margin whose sheet is small and accepted.
fn margins(lines: &mut Lines, rng: &mut Rng, most: usize, count: usize) {
    lines.title("Margins");
    let cell = encode_tree(&Tree::cell("ab"));
    for side in 0..4 {
        for size in [1, 2, 15, 16] {
            let mut sizes = [0; 4];
            sizes[side] = size;
            lines.given(&encode_settings(&edged(sizes)), &cell);
            lines.sheet();
        }
    }
    for sizes in [[0; 4], [1, 2, 1, 1], [0, 0, 1, 2], [3, 1, 0, 0]] {
        lines.given(&encode_settings(&edged(sizes)), &cell);
        lines.both(0);
    }
    let mut left = count;
    while left > 0 {
        let (settings, tree) = gen::table(rng, Margins::Half);
        let has_margin = settings.margin.sizes != [0; 4];
        let (settings, bytes) = (encode_settings(&settings), encode_tree(&tree));
        let fits = judge::sheet(&settings, &bytes, most) == 0;
        if tree.nodes() < 4 || !fits || !has_margin {
            continue;
        }
        lines.given(&settings, &bytes);
        lines.sizes(rng.below(tree.nodes()));
        lines.both(rng.pick(&judge::leaves(&tree)));
        left -= 1;
    }
}

/// Margins that are not of the right form, random damage to settings with a margin, and both sides of the limits that a margin moves.
fn bad_margins(lines: &mut Lines, rng: &mut Rng, count: usize) {
    lines.title("Margins out of form");
    let cell = encode_tree(&Tree::cell("ab"));
    let good = encode_settings(&edged([1, 2, 1, 1]));
    let (first, second) = good.split_at(31);
    let long = [&good[..], second].concat();
    let mut list: Vec<Vec<u8>> = [32, 34, 41, 43, 53].map(|n| long[..n].to_vec()).into();
    list.extend([[second, first].concat(), second.to_vec()]);
    for (at, bytes) in [
        (31, &[0x10, 0x12][..]),
        (32, &[1]),
        (33, &[7, 9]),
        (34, &[17]),
        (35, &[17]),
        (36, &[17]),
        (37, &[17, 255]),
        (38, &[0x0A, 0x1F, 0x7F]),
        (39, &[0x1F]),
        (40, &[0x7F]),
        (41, &[0x1F, 0x80]),
    ] {
        list.extend(bytes.iter().map(|&byte| {
            let mut settings = good.clone();
            settings[at] = byte;
            settings
        }));
    }
    list.push([first, &encode_margin(&Margin::NONE)].concat());
    for settings in list {
        lines.given(&settings, &cell);
        lines.readers();
        lines.both(0);
    }

    let mut left = count;
    while left > 0 {
        let case = gen::any_case(rng, Margins::Half);
        let refused = judge::settings(&case.settings) != 0;
        if case.settings.len() <= 32 || case.tree.len() > 60 || !refused {
            continue;
        }
        lines.given(&case.settings, &case.tree);
        lines.readers();
        lines.both(case.node % 8);
        left -= 1;
    }

    lines.title("Limits with margins");
    let margin = |sizes: [u8; 4]| {
        let fills = *b"lrtb";
        encode_settings(&Settings {
            margin: Margin { sizes, fills },
            ..Settings::D
        })
    };
    for (sizes, length, byte) in [
        ([1, 0, 0, 0], 396, b'a'),
        ([16, 16, 0, 0], 364, b'a'),
        ([16, 16, 0, 0], 365, b'a'),
        ([0, 0, 0, 1], 157, b'\n'),
        ([0, 0, 16, 16], 125, b'\n'),
        ([0, 0, 16, 16], 126, b'\n'),
    ] {
        let [high, low] = u16::to_be_bytes(length);
        lines.repeated(&margin(sizes), &[1, high, low], length.into(), &[byte]);
        lines.both(0);
    }
}

/// Random tables of up to `most` bytes with a leaf whose pair is not zeros, and was not there before: its record and its block.
fn pairs(lines: &mut Lines, rng: &mut Rng, most: usize, count: usize) {
    lines.title("Pairs of the leaves' own cuts");
    let mut known = vec![CutPair::default()];
    while known.len() <= count {
        let (settings, tree) = gen::table(rng, Margins::None);
        let (settings, bytes) = (encode_settings(&settings), encode_tree(&tree));
        if judge::sheet(&settings, &bytes, most) != 0 {
            continue;
        }
        let node = rng.pick(&judge::leaves(&tree));
        let pair = lines.original.leaf_record(&settings, &bytes, node).pair;
        if !known.contains(&pair) {
            lines.given(&settings, &bytes);
            lines.leaf(node);
            known.push(pair);
        }
    }
}

/// Shapes and tables; damaged bytes and limits.
fn lines(seed: u64) -> [String; 2] {
    let mut rng = Rng::new(seed);
    let mut good = Lines::default();
    shapes(&mut good);
    tables(&mut good, &mut rng, Margins::None, 200, 60);
    tables(&mut good, &mut rng, Margins::None, 900, 4);
    let mut faulty = Lines::default();
    damaged(&mut faulty, &mut rng, 60);
    limits(&mut faulty);
    margins(&mut good, &mut rng, 300, 8);
    bad_margins(&mut faulty, &mut rng, 12);
    pairs(&mut good, &mut rng, 200, 20);
    [good.text, faulty.text]
}

/// The files of the program's data/, in the order of its arguments. The first line names the library of the others.
pub fn files(seed: u64) -> [(&'static str, String); 11] {
    let [tables, faults] = lines(seed);
    let [bare, bare_places] = bare::lines(seed);
    [
        ("tables", "calls", tables),
        ("faults", "calls", faults),
        ("bare", "calls", bare),
        ("places", "places", places::lines(seed)),
        ("bare_places", "places", bare_places),
        ("folds", "requests", folds::lines(seed)),
        ("plans", "requests", plans::lines(seed)),
        ("widths", "requests", widths::lines(seed)),
        ("bare_requests", "requests", bare::requests(seed)),
        ("drafts", "drafts", drafts::lines(seed)),
        ("blanks", "drafts", blanks::lines(seed)),
    ]
    .map(|(name, library, lines)| (name, format!("of {library}\n{lines}")))
}
