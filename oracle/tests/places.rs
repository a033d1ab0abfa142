//! Document 02, 5 and 6: from a place of the printed sheet to its leaf, as the crate's joined blocks show it and as the document's words give it; and many places
//! together.

use std::collections::HashMap;

use oracle::calls::{Calls, LeafPlace, Marked};
use oracle::gen::{self, Margins, Rng};
use oracle::sides::{Answers, Crate, Original, Paper};
use oracle::{encode_settings, encode_tree, judge, paper, Margin, Owner, Settings, Tree};

fn cell(text: &str) -> Tree {
    Tree::cell(text)
}

fn row<const N: usize>(children: [Tree; N]) -> Tree {
    Tree::Row(children.to_vec())
}

fn column<const N: usize>(children: [Tree; N]) -> Tree {
    Tree::Column(children.to_vec())
}

/// F2's tree.
fn figure_2() -> Tree {
    column([cell("abcdef"), row([cell("a"), cell("b")])])
}

/// M and the margin of the second example.
fn edged() -> Settings {
    Settings {
        margin: Margin {
            sizes: [2, 1, 1, 1],
            fills: *b"lrtb",
        },
        ..Settings::M
    }
}

/// A leaf, and the line and column inside its block.
type Leaf = (usize, usize, usize);

/// The leaf of a place, on both sides; or the number, which is the judge's, with zeros beside it.
fn found(settings: &[u8], tree: &[u8], (line, column): (usize, usize)) -> Result<Leaf, u8> {
    let answer = Original::default().place(settings, tree, line, column);
    assert_eq!(Paper::default().place(settings, tree, line, column), answer);
    assert_eq!(judge::place(settings, tree, line, column), answer.number);
    if answer.number == 0 {
        return Ok((answer.node, answer.line, answer.column));
    }
    let number = answer.number;
    assert_eq!(
        answer,
        LeafPlace {
            number,
            ..LeafPlace::default()
        }
    );
    Err(number)
}

type Cases<'a> = &'a [((usize, usize), Result<Leaf, u8>)];

fn holds(settings: &Settings, tree: &Tree, cases: Cases) {
    let (settings, tree) = (encode_settings(settings), encode_tree(tree));
    for &(place, answer) in cases {
        assert_eq!(found(&settings, &tree, place), answer, "{place:?}");
    }
}

const FAR: usize = u32::MAX as usize;

#[test]
fn without_a_margin() {
    holds(
        &Settings::M,
        &figure_2(),
        &[
            ((0, 0), Ok((1, 0, 0))),
            ((1, 9), Ok((1, 1, 9))),
            ((2, 0), Ok((3, 0, 0))),
            ((2, 4), Ok((3, 0, 4))),
            ((2, 5), Ok((4, 0, 0))),
            ((3, 5), Ok((4, 1, 0))),
            ((4, 4), Ok((3, 2, 4))),
            ((4, 9), Ok((4, 2, 4))),
            ((5, 0), Err(12)),
            ((0, 10), Err(12)),
            ((5, 10), Err(12)),
            ((FAR, 0), Err(12)),
            ((0, FAR), Err(12)),
            ((1 << 32, 1 << 32), Err(12)),
            ((usize::MAX, usize::MAX), Err(12)),
        ],
    );
}

/// 'Lines and columns count from 0 in the sheet as printed, margin included.' A corner of the margin is 13; past the last line, a column of it is 12.
#[test]
fn with_a_margin() {
    holds(
        &edged(),
        &figure_2(),
        &[
            ((0, 0), Err(13)),
            ((0, 12), Err(13)),
            ((1, 1), Err(13)),
            ((1, 2), Ok((1, 0, 0))),
            ((1, 11), Ok((1, 0, 9))),
            ((1, 12), Err(13)),
            ((5, 7), Ok((4, 2, 0))),
            ((5, 11), Ok((4, 2, 4))),
            ((6, 5), Err(13)),
            ((6, 0), Err(13)),
            ((6, 12), Err(13)),
            ((7, 0), Err(12)),
            ((6, 13), Err(12)),
            ((7, 13), Err(12)),
            ((FAR, 0), Err(12)),
            ((0, usize::MAX), Err(12)),
        ],
    );
}

/// Where lines cross: `c` has the line left of it from top to bottom.
#[test]
fn at_the_crossing() {
    holds(
        &Settings::M,
        &row([column([cell("a"), cell("b")]), cell("c")]),
        &[
            ((2, 4), Ok((4, 2, 0))),
            ((2, 3), Ok((3, 0, 3))),
            ((2, 5), Ok((4, 2, 1))),
            ((4, 4), Ok((4, 4, 0))),
            ((4, 8), Ok((4, 4, 4))),
            ((0, 0), Ok((2, 0, 0))),
            ((1, 3), Ok((2, 1, 3))),
        ],
    );
}

/// A zero-wide leaf has its marks (document 02, 8): without a margin, and with one.
#[test]
fn in_a_blank_leaf() {
    let tree = row([cell(""), cell("a")]);
    let tight = |settings: Settings| Settings {
        padding: [0; 4],
        ..settings
    };
    holds(
        &tight(Settings::M),
        &tree,
        &[
            ((0, 0), Ok((1, 0, 0))),
            ((0, 1), Ok((2, 0, 0))),
            ((2, 0), Ok((1, 2, 0))),
            ((2, 3), Ok((2, 2, 2))),
            ((0, 4), Err(12)),
            ((3, 0), Err(12)),
        ],
    );
    holds(
        &tight(edged()),
        &tree,
        &[
            ((1, 1), Err(13)),
            ((1, 2), Ok((1, 0, 0))),
            ((1, 3), Ok((2, 0, 0))),
            ((3, 2), Ok((1, 2, 0))),
            ((4, 2), Err(13)),
        ],
    );
}

/// A sheet that the sheet printer refuses with 1 to 6 has that number for every place, before 12 and 13.
#[test]
fn refused_sheets() {
    let (m, edged) = (encode_settings(&Settings::M), encode_settings(&edged()));
    let wide = encode_tree(&Tree::Cell(vec![b'a'; 397]));
    let deep = encode_tree(&(1..17).fold(cell("a"), |inner, _| row([inner])));
    let many = encode_tree(&Tree::Row(vec![cell(""); 512]));
    let mut bad = edged.clone();
    bad[41] = 0x1F;
    for place in [(0, 0), (1, 2), (9, 9), (FAR, FAR), (usize::MAX, 0)] {
        assert_eq!(found(&bad, b"", place), Err(1));
        assert_eq!(found(&m, b"\x01\x00\x01", place), Err(2));
        assert_eq!(found(&m, b"\x01\x00\x01\x07", place), Err(3));
        assert_eq!(found(&m, &many, place), Err(4));
        assert_eq!(found(&m, &deep, place), Err(5));
        assert_eq!(found(&m, &wide, place), Err(6));
        assert_eq!(found(&edged, &wide, place), Err(6));
    }
}

/// The margin's sheet is 400 by 160: its last places, one past them, and one less inside.
#[test]
fn the_largest_sheet() {
    let (settings, tree) = gen::corner(Settings::D, [16; 4], 0, 0);
    holds(
        &settings,
        &tree,
        &[
            ((159, 399), Err(13)),
            ((160, 399), Err(12)),
            ((159, 400), Err(12)),
            ((143, 383), Ok((2, 125, 367))),
            ((143, 384), Err(13)),
            ((144, 383), Err(13)),
            ((16, 16), Ok((1, 0, 0))),
            ((15, 16), Err(13)),
            ((16, 15), Err(13)),
        ],
    );
}

/// 'Every byte of every block, its line feeds apart, leads back to that leaf and place, and going forward from the answer returns the marker's place.' Of each leaf
/// every place of its block is found, once, all from one start; each byte of the sheet there is the block's; nothing in the margin is anyone's. A block of line feeds alone, as
/// there are without lines, has no place.
#[test]
fn back_and_forward() {
    lead_back(Rng::new(21));
    lead_back(Rng::new(21).bare());
}

fn lead_back(mut rng: Rng) {
    let mut sheets = 0;
    while sheets < 150 {
        let (settings, tree) = gen::table(&mut rng, Margins::Half);
        let (bytes, tree_bytes) = (encode_settings(&settings), encode_tree(&tree));
        let Ok(read) = judge::shown(&bytes, &tree_bytes) else {
            continue;
        };
        sheets += 1;

        let answer = Crate.answer(&settings, &tree);
        let owners = Crate.owners(&settings, &tree, &answer);
        let other = paper::answer(&settings, &tree);
        assert_eq!(paper::owners(&settings, &tree, &other), owners);

        let mut starts = HashMap::new();
        let mut left: HashMap<usize, usize> = HashMap::new();
        let sheet: Vec<&[u8]> = answer.sheet.split(|&byte| byte == 0x0A).collect();
        let block = |node: usize| {
            let mut leaves = answer.leaves.iter();
            let leaf = leaves.find(|leaf| leaf.node == node).expect("a leaf");
            leaf.block.split(|&byte| byte == 0x0A).collect::<Vec<_>>()
        };
        for (i, line) in owners.iter().enumerate() {
            for (j, owner) in line.iter().enumerate() {
                assert_eq!(owner.is_some(), read.place(i, j).is_ok());
                if let &Some(Owner { node, line, column }) = owner {
                    let start = (i - line, j - column);
                    assert_eq!(*starts.entry(node).or_insert(start), start);
                    let block = block(node);
                    assert_eq!(block[line][column], sheet[i][j]);
                    let all = block.concat().len();
                    *left.entry(node).or_insert(all) -= 1;
                }
            }
        }
        let feeds = |block: &[u8]| block.iter().all(|&byte| byte == 0x0A);
        let mut others = answer
            .leaves
            .iter()
            .filter(|leaf| !left.contains_key(&leaf.node));
        assert!(others.all(|leaf| feeds(&leaf.block)));
        assert!(left.values().all(|&left| left == 0));
    }
}

/// What a lent list holds before a call.
const LENT: Owner = Owner {
    node: 77,
    line: 88,
    column: 99,
};

/// The leaves of places, lent a list of this many answers, on both sides: the entries written and the elements read. Those past them stay; a refusal, which is the
/// judge's, writes none, counts none and has read none.
fn marked(
    settings: &[u8],
    tree: &[u8],
    places: &[(usize, usize)],
    length: usize,
) -> Result<(Vec<Leaf>, usize), u8> {
    let mark = |side: &mut dyn Calls| {
        let mut answers = vec![LENT; length];
        let marked = side.places(settings, tree, places, &mut answers);
        (marked, answers)
    };
    let (answer, answers) = mark(&mut Original::default());
    assert_eq!(mark(&mut Paper::default()), (answer, answers.clone()));
    let Marked {
        number,
        count,
        read,
    } = answer;
    assert_eq!(judge::places(settings, tree, places, length), number);
    let (written, rest) = answers.split_at(count);
    assert!(rest.iter().all(|&answer| answer == LENT));
    if number != 0 {
        assert_eq!((count, read), (0, 0));
        return Err(number);
    }
    let entries = written.iter().map(|a| (a.node, a.line, a.column));
    Ok((entries.collect(), read))
}

#[test]
fn together() {
    let (edged, tree) = (encode_settings(&edged()), encode_tree(&figure_2()));
    let marked = |places: &[(usize, usize)], length: usize| marked(&edged, &tree, places, length);
    let (b, first) = ((4, 2, 0), (1, 0, 0));
    assert_eq!(marked(&[], 0), Ok((vec![], 5)));
    assert_eq!(marked(&[], 3), Ok((vec![], 5)));
    let three = [(5, 7), (1, 2), (5, 7)];
    assert_eq!(marked(&three, 3), Ok((vec![b, first, b], 5)));
    assert_eq!(marked(&three, 9), Ok((vec![b, first, b], 5)));
    assert_eq!(marked(&[(5, 7), (1, 2)], 1), Err(8));
    assert_eq!(marked(&[(5, 7), (0, 0), (9, 9)], 0), Err(13));
    assert_eq!(marked(&[(5, 7), (9, 9), (0, 0)], 3), Err(12));
    assert_eq!(marked(&[(1, 2); 256], 256), Ok((vec![first; 256], 5)));
    assert_eq!(marked(&[(1, 2); 257], 257), Err(14));
    assert_eq!(marked(&[(9, 9); 257], 0), Err(14));
    assert_eq!(marked(&[(1, 2); 256], 255), Err(8));
    assert_eq!(marked(&[(FAR, FAR)], 0), Err(12));
}

/// 1 to 6 come before 14.
#[test]
fn together_on_refused_sheets() {
    let d = encode_settings(&Settings::D);
    let wide = encode_tree(&Tree::Cell(vec![b'a'; 397]));
    let mut bad = d.clone();
    bad[3] = 0;
    for places in [&[][..], &[(0, 0)], &[(9, 9); 257]] {
        assert_eq!(marked(&bad, &wide, places, 0), Err(1));
        assert_eq!(marked(&d, b"\x04\x00\x00", places, 0), Err(2));
        assert_eq!(marked(&d, &wide, places, 0), Err(6));
    }
}

/// 'In the order given, repeats allowed, each exactly as if it had been put alone.' Random lists: the first place that is refused alone refuses the list.
#[test]
fn each_as_alone() {
    let mut rng = Rng::new(23);
    let (mut answered, mut refused) = (0, 0);
    while answered < 100 || refused < 100 {
        let (settings, tree) = gen::table(&mut rng, Margins::Half);
        let (settings, bytes) = (encode_settings(&settings), encode_tree(&tree));
        let Ok(read) = judge::shown(&settings, &bytes) else {
            continue;
        };
        let mut places = gen::places(&mut rng, &read);
        places.truncate(20);
        let alone = |&place: &(usize, usize)| found(&settings, &bytes, place);
        let alone: Result<Vec<_>, u8> = places.iter().map(alone).collect();
        let together = marked(&settings, &bytes, &places, places.len());
        assert_eq!(together, alone.map(|list| (list, tree.nodes())));
        match together {
            Ok(_) => answered += 1,
            Err(_) => refused += 1,
        }
    }
}
