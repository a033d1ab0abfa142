//! Document 02, 9: long lists folded into Columns, by the crate's sizes and by the document's words.

use oracle::calls::{Calls, Folded};
use oracle::gen::{self, Margins, Rng};
use oracle::sides::{Original, Paper};
use oracle::{encode_settings, encode_tree, folding, judge, paper, Settings, Tree};

/// A list of Cells with these texts.
fn list(texts: &[&str]) -> Tree {
    Tree::Column(texts.iter().map(Tree::cell).collect())
}

/// The cells in each Column, the height, the tries and the miss.
type Found = (Vec<u16>, usize, usize, usize);

/// A width, a budget and the length of the lent list.
type Asked = (usize, usize, usize);

/// The fold of a list, on both sides. Entries past the count stay; a refusal, which is the judge's, writes none and finds nothing.
fn folded(settings: &[u8], tree: &[u8], (width, budget, length): Asked) -> Result<Found, u8> {
    let fold = |side: &mut dyn Calls| {
        let mut columns = vec![777; length];
        let folded = side.fold(settings, tree, width, budget, &mut columns);
        (folded, columns)
    };
    let (answer, columns) = fold(&mut Original::default());
    assert_eq!(fold(&mut Paper::default()), (answer, columns.clone()));
    let Folded {
        number,
        count,
        height,
        tries,
        miss,
    } = answer;
    assert_eq!(judge::fold(settings, tree, width, budget, length), number);
    let (written, rest) = columns.split_at(count);
    assert!(rest.iter().all(|&entry| entry == 777));
    if number != 0 {
        assert_eq!([count, height, tries, miss], [0; 4]);
        return Err(number);
    }
    Ok((written.to_vec(), height, tries, miss))
}

/// What is answered, and to what: the cells in each Column, then height, tries and miss; or a number.
type Cases<'a> = &'a [(Asked, Result<(&'a [u16], [usize; 3]), u8>)];

fn holds(settings: &Settings, tree: &Tree, cases: Cases) {
    let (settings, tree) = (encode_settings(settings), encode_tree(tree));
    for &(asked, answer) in cases {
        let answer = answer.map(|(columns, [t, tries, miss])| (columns.to_vec(), t, tries, miss));
        assert_eq!(folded(&settings, &tree, asked), answer, "{asked:?}");
    }
}

#[test]
fn five_equal_cells() {
    holds(
        &Settings::D,
        &list(&["a", "b", "c", "d", "e"]),
        &[
            ((3, 0, 5), Ok((&[5], [9, 0, 8]))),
            ((3, 99, 5), Ok((&[5], [9, 8, 0]))),
            ((7, 99, 5), Ok((&[3, 2], [5, 8, 0]))),
            ((11, 99, 5), Ok((&[2, 2, 1], [3, 8, 0]))),
            ((19, 99, 5), Ok((&[1, 1, 1, 1, 1], [1, 8, 0]))),
            ((18, 99, 5), Ok((&[2, 2, 1], [3, 8, 0]))),
            ((19, 3, 5), Ok((&[3, 2], [6, 3, 5]))),
            ((19, 8, 5), Ok((&[1, 1, 1, 1, 1], [1, 8, 0]))),
            ((19, 7, 5), Ok((&[1, 1, 1, 1, 1], [2, 7, 1]))),
            ((19, 99, 4), Err(8)),
            ((2, 99, 0), Err(16)),
        ],
    );
}

/// A lower t fits where a higher one does not, so the tries go on.
#[test]
fn fits_again() {
    let x = "xxxxxxxxx";
    let tree = list(&["x", "x", x, x, "x", "x"]);
    let widths: Vec<usize> = folding::folds(&Settings::D, tree.children())
        .iter()
        .map(|fold| fold.width)
        .collect();
    assert_eq!(widths, [11, 15, 15, 15, 15, 23, 23, 19, 19, 39, 39]);
    holds(
        &Settings::D,
        &tree,
        &[
            ((21, 0, 9), Ok((&[6], [11, 0, 10]))),
            ((21, 6, 9), Ok((&[4, 2], [7, 6, 6]))),
            ((21, 7, 9), Ok((&[2, 2, 2], [4, 7, 3]))),
            ((21, 8, 9), Ok((&[2, 2, 2], [3, 8, 2]))),
            ((21, 9, 9), Ok((&[2, 2, 2], [3, 9, 2]))),
            ((21, 10, 9), Ok((&[2, 2, 2], [3, 10, 0]))),
            ((21, 99, 9), Ok((&[2, 2, 2], [3, 10, 0]))),
        ],
    );
}

#[test]
fn cells_of_several_lines() {
    holds(
        &Settings::D,
        &list(&["a\nb\nc", "d", "e", "f\ng"]),
        &[
            ((3, 99, 4), Ok((&[4], [10, 7, 0]))),
            ((7, 0, 4), Ok((&[4], [10, 0, 7]))),
            ((7, 1, 4), Ok((&[3, 1], [9, 1, 6]))),
            ((7, 99, 4), Ok((&[2, 2], [5, 7, 0]))),
            ((11, 99, 4), Ok((&[1, 2, 1], [3, 7, 0]))),
            ((15, 99, 4), Ok((&[1, 2, 1], [3, 7, 0]))),
        ],
    );
}

/// Without lines separators are 0.
#[test]
fn without_lines() {
    holds(
        &Settings::N,
        &list(&["a", "b", "c", "d"]),
        &[
            ((6, 99, 4), Ok((&[2, 2], [2, 3, 0]))),
            ((12, 99, 4), Ok((&[1, 1, 1, 1], [1, 3, 0]))),
            ((3, 0, 4), Ok((&[4], [4, 0, 3]))),
        ],
    );
    holds(
        &Settings::N0,
        &list(&["", "", ""]),
        &[((0, 99, 3), Ok((&[1, 1, 1], [1, 2, 0])))],
    );
}

/// One cell: there is nothing to try, and every t was tried.
#[test]
fn one_cell() {
    holds(
        &Settings::D,
        &list(&["a"]),
        &[
            ((3, 0, 1), Ok((&[1], [1, 0, 0]))),
            ((3, 5, 1), Ok((&[1], [1, 0, 0]))),
            ((2, 5, 1), Err(16)),
            ((3, 5, 0), Err(8)),
        ],
    );
}

/// '15 for a root or child of another kind, no cells or over 200, then 16 for a cell wider than the given width; these come after 2 to 5, and a short answer list is
/// 8, after them.'
#[test]
fn refusals() {
    let d = encode_settings(&Settings::D);
    let mut bad = d.clone();
    bad[26] = 3;
    let number = |tree: &[u8], asked: Asked| folded(&d, tree, asked).err().unwrap_or(0);
    let cells = |count: usize| encode_tree(&Tree::Column(vec![Tree::cell(""); count]));

    assert_eq!(number(b"\x01\x00\x01a", (9, 0, 9)), 15);
    assert_eq!(number(b"\x02\x00\x04\x01\x00\x01a", (9, 0, 9)), 15);
    assert_eq!(number(b"\x03\x00\x00", (9, 0, 9)), 15);
    let group = b"\x03\x00\x07\x01\x00\x01a\x02\x00\x00";
    assert_eq!(number(group, (0, 0, 0)), 15);
    assert_eq!(number(&cells(200), (2, 0, 1)), 0);
    assert_eq!(number(&cells(201), (2, 0, 1)), 15);
    let text = b"\x03\x00\x08\x01\x00\x01a\x01\x00\x01\x01";
    assert_eq!(number(text, (0, 0, 0)), 3);
    let plan = b"\x03\x00\x0B\x01\x00\x01a\x04\x00\x04\x01\x01\x01\x01";
    assert_eq!(number(plan, (9, 0, 9)), 2);
    assert_eq!(folded(&bad, b"\x01\x00\x01a", (9, 0, 9)), Err(1));
    let abc = b"\x03\x00\x06\x01\x00\x03abc";
    assert_eq!(number(abc, (4, 0, 0)), 16);
    assert_eq!(number(abc, (5, 0, 0)), 8);
    let long = encode_tree(&Tree::Column(vec![Tree::Cell(vec![b'a'; 500])]));
    assert_eq!(number(&long, (502, 0, 1)), 0);

    // 4 and 5 come before 15, and nothing is too large for a sheet.
    assert_eq!(number(&cells(512), (0, 0, 0)), 4);
    assert_eq!(number(&cells(511), (0, 0, 0)), 15);
    let chain = (1..17).fold(Tree::cell("a"), |inner, _| Tree::Column(vec![inner]));
    assert_eq!(number(&encode_tree(&chain), (0, 0, 0)), 5);
    assert_eq!(number(&cells(200), (usize::MAX, usize::MAX, 200)), 0);
}

/// The search as the document describes it: one Column, then one try after the other. And the promise about the miss: no t from the tallest cell on, whether tried or
/// not, fits and is lower by more.
#[test]
fn the_search_as_it_is_told() {
    let mut rng = Rng::new(31);
    for at in 0..300 {
        let (settings, tree) = gen::fold_list(&mut rng);
        // Every third list without lines.
        let settings = if at % 3 == 0 {
            settings.bare()
        } else {
            settings
        };
        let cells = tree.children();
        let natural = |tree: &Tree| paper::sizes(&settings, tree)[0];
        let heights: Vec<usize> = cells.iter().map(|c| natural(c).natural_height).collect();
        let fold = |t: usize| folding::columns(&heights, paper::separator(&settings), t);
        let folds = folding::folds(&settings, cells);
        let (one, tallest) = (natural(&tree).natural_height, folds[folds.len() - 1].height);
        assert_eq!(Some(&tallest), heights.iter().max());

        for _ in 0..4 {
            let (width, budget) = gen::question(&mut rng, &folds);
            let width = width.max(natural(&tree).natural_width);
            let fits = |t: usize| {
                let row = folding::row(cells, &fold(t));
                natural(&row).natural_width <= width
            };
            let (mut t, mut tries, mut best) = (one, 0, one);
            while t > tallest && tries < budget {
                t -= 1;
                tries += 1;
                if fits(t) {
                    best = t;
                }
            }
            let chosen = folding::chosen(&folds, width, budget);
            assert_eq!((chosen.fold.height, chosen.tries), (best, tries));
            assert_eq!(chosen.fold.columns, fold(best));
            let least = (tallest..=one).find(|&t| fits(t)).expect("one Column fits");
            assert!(best - least <= chosen.miss);
            assert!(chosen.miss == 0 || chosen.miss == best - tallest);
            assert_eq!(chosen.miss == 0, tries == one - tallest || best == tallest);
        }
    }
}

/// In each fold every Column has cells, all of them together and in order; none is higher than t, and none would be within t with the next cell. The sheet of the
/// Row is as wide and no higher.
#[test]
fn each_fold_is_by_the_rule() {
    let mut rng = Rng::new(32);
    for _ in 0..60 {
        let (settings, tree) = gen::fold_list(&mut rng);
        let cells = tree.children();
        for fold in folding::folds(&settings, cells) {
            let row = folding::row(cells, &fold.columns);
            let back: Vec<Tree> = row
                .children()
                .iter()
                .flat_map(|c| c.children().to_vec())
                .collect();
            assert_eq!(back, cells);
            assert!(fold.columns.iter().all(|&count| count > 0));
            let size = paper::sizes(&settings, &row)[0];
            assert_eq!(size.natural_width, fold.width);
            assert!(size.natural_height <= fold.height);
            for longer in folding::longer(cells, &fold.columns) {
                assert!(paper::sizes(&settings, &longer)[0].natural_height > fold.height);
            }
        }
    }
}

/// The greatest lists on both sides.
#[test]
fn great_lists() {
    for (settings, tree) in gen::great_lists() {
        let (settings, tree) = (encode_settings(&settings), encode_tree(&tree));
        assert!(tree.len() <= judge::TREE_BYTES);
        for asked in [(0, 0, 200), (33, 9, 200), (usize::MAX, usize::MAX, 200)] {
            let _ = folded(&settings, &tree, asked);
        }
    }
}

/// Padding counts, the margin does not.
#[test]
fn padding_and_margin() {
    let mut rng = Rng::new(33);
    let tree = list(&["a", "bb\nb", ""]);
    for _ in 0..20 {
        let edged = gen::settings(&mut rng, Margins::Half);
        let plain = Settings {
            margin: oracle::Margin::NONE,
            ..edged
        };
        let [left, right, top, bottom] = edged.padding.map(usize::from);
        let folds = folding::folds(&edged, tree.children());
        assert_eq!(folds, folding::folds(&plain, tree.children()));
        assert_eq!(folds[0].width, 2 + left + right);
        assert_eq!(folds[0].height, 4 + 3 * (top + bottom) + 2);
        assert_eq!(folds[folds.len() - 1].height, 2 + top + bottom);
    }
}
