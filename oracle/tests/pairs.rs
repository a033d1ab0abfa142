//! Document 02, 4: the pair of a cut and of each leaf, as the crate's cuts show it and as the document's words give it.

use oracle::calls::{Calls, SplitList};
use oracle::gen::{self, Margins, Rng};
use oracle::sides::{Original, Paper};
use oracle::{encode_settings, encode_tree, judge, original, paper, CutPair, Settings, Tree};

fn cell(text: &str) -> Tree {
    Tree::cell(text)
}

fn row<const N: usize>(children: [Tree; N]) -> Tree {
    Tree::Row(children.to_vec())
}

fn column<const N: usize>(children: [Tree; N]) -> Tree {
    Tree::Column(children.to_vec())
}

/// Yes or no, the pieces taken, the list left, and the pair: of both cuts and on both sides.
fn cut(list: &[usize], width: u16) -> (bool, Vec<usize>, Vec<usize>, (usize, usize)) {
    let cut = original::cut3(list, width.into());
    assert_eq!(paper::cut3(list, width.into()), cut);
    for side in [
        &mut Original::default() as &mut dyn Calls,
        &mut Paper::default(),
    ] {
        let mut lent = SplitList::new(list);
        assert_eq!(side.short_splits3(&lent, width).pair, cut.pair);
        assert_eq!(side.short_splits3_lent(&mut lent, width).pair, cut.pair);
        assert_eq!(lent, SplitList::new(&cut.left));
    }
    let CutPair { taken, rest } = cut.pair;
    (cut.yes, cut.taken, cut.left, (taken, rest))
}

#[test]
fn cuts() {
    // F6 to F9; in F7 and F9 the first piece not taken is removed.
    assert_eq!(cut(&[4, 2], 5), (false, vec![4], vec![1], (1, 1)));
    assert_eq!(cut(&[3, 3], 3), (true, vec![], vec![3], (0, 0)));
    assert_eq!(cut(&[5], 0), (false, vec![], vec![4], (0, 4)));
    assert_eq!(cut(&[0, 5], 0), (true, vec![], vec![5], (0, 0)));

    // No piece at all, none that is not taken, and one that is removed behind a piece taken.
    assert_eq!(cut(&[], 7), (false, vec![], vec![], (0, 0)));
    assert_eq!(cut(&[2, 3], 9), (false, vec![2, 3], vec![], (2, 0)));
    assert_eq!(cut(&[1, 1, 1], 6), (false, vec![1; 3], vec![], (3, 0)));
    assert_eq!(
        cut(&[0; 512], 65_535),
        (false, vec![0; 512], vec![], (512, 0))
    );
    assert_eq!(cut(&[2, 3], 6), (true, vec![2], vec![], (1, 0)));

    // Left with 0, and not removed.
    assert_eq!(cut(&[5], 4), (false, vec![], vec![0], (0, 0)));
    assert_eq!(cut(&[5], 3), (false, vec![], vec![1], (0, 1)));
    assert_eq!(cut(&[4, 3], 6), (false, vec![4], vec![1], (1, 1)));
    assert_eq!(cut(&[1, 1, 1, 9], 6), (false, vec![1; 3], vec![8], (3, 8)));
}

/// A refusal has zeros, by value and on the lent list.
#[test]
fn a_list_of_513_pieces() {
    let mut list = SplitList {
        pieces: [1; judge::PIECES],
        count: 513,
    };
    let mut paper = Paper::default();
    let cut = paper.short_splits3(&list, 6);
    assert_eq!((cut.number, cut.pair), (10, CutPair::default()));
    assert_eq!(paper.short_splits3_lent(&mut list, 6), cut);
}

/// Each leaf's node and pair under M, by the record; every other number is refused with 9 and has zeros.
fn pairs(tree: &Tree) -> Vec<(usize, (usize, usize))> {
    let (settings, bytes) = (encode_settings(&Settings::M), encode_tree(tree));
    let (mut one, mut other) = (Original::default(), Paper::default());
    let mut pairs = Vec::new();
    for node in 0..=tree.nodes() {
        let record = one.leaf_record(&settings, &bytes, node);
        assert_eq!(other.leaf_record(&settings, &bytes, node), record);
        let CutPair { taken, rest } = record.pair;
        match record.number {
            0 => pairs.push((node, (taken, rest))),
            number => assert_eq!((number, taken, rest), (9, 0, 0)),
        }
    }
    pairs
}

#[test]
fn a_root_leaf() {
    for tree in [cell("ab"), row([]), column([])] {
        assert_eq!(pairs(&tree), [(0, (0, 0))]);
    }
}

/// F3: `c` gets the list 3 3, but its own cut is the Column's, of a vertical list without pieces.
#[test]
fn a_column_cuts_no_horizontal_list() {
    let tree = column([row([cell("a"), cell("b")]), cell("c")]);
    assert_eq!(pairs(&tree), [(2, (0, 0)), (3, (0, 0)), (4, (0, 0))]);
}

/// The lower Row cuts 4 3 3 at 2, then 1 3 3 at 9.
#[test]
fn a_row_under_a_row() {
    let upper = row([cell("a"), cell("b"), cell("c")]);
    let tree = column([upper, row([cell(""), cell("efghijk")])]);
    assert_eq!(
        pairs(&tree),
        [
            (2, (0, 0)),
            (3, (0, 0)),
            (4, (0, 0)),
            (6, (0, 1)),
            (7, (2, 0))
        ]
    );
}

/// The lower Row cuts 6 3 at 4, then 1 3 at 5, whose second piece it removes.
#[test]
fn a_removed_piece() {
    let tree = column([row([cell("aaaa"), cell("b")]), row([cell("c"), cell("dd")])]);
    assert_eq!(
        pairs(&tree),
        [(2, (0, 0)), (3, (0, 0)), (5, (0, 1)), (6, (1, 0))]
    );
}

/// The right Column cuts the vertical list 2 2.
#[test]
fn a_column_beside_a_column() {
    let left = column([cell("a\na"), cell("b\nb")]);
    let tree = row([left, column([cell("c"), cell("d"), cell("e")])]);
    assert_eq!(
        pairs(&tree),
        [
            (2, (0, 0)),
            (3, (0, 0)),
            (5, (0, 0)),
            (6, (1, 1)),
            (7, (0, 0))
        ]
    );
}

/// The lower Row cuts 2 3 3 at 6 for its Column, and says 1 and 0. The Column's leaves have the pair of their own cuts, of a vertical list without
/// pieces.
#[test]
fn a_group_keeps_its_pair() {
    let upper = row([cell(""), cell("b"), cell("c")]);
    let lower = row([column([cell("xxxx"), cell("y")]), cell("z")]);
    let leaves = [2, 3, 4, 7, 8, 9];
    assert_eq!(
        pairs(&column([upper, lower])),
        leaves.map(|node| (node, (0, 0)))
    );
    assert_eq!(
        paper::cut3(&[2, 3, 3], 6).pair,
        CutPair { taken: 1, rest: 0 }
    );
}

/// Random tables have leaves with every kind of pair, in Rows and in Columns: what agrees on them is not zeros alone.
#[test]
fn every_kind_is_reached() {
    /// Whether each node is in a Row.
    fn put(tree: &Tree, in_row: bool, list: &mut Vec<bool>) {
        list.push(in_row);
        for child in tree.children() {
            put(child, matches!(tree, Tree::Row(_)), list);
        }
    }

    let mut reached = [[0; 4]; 2];
    let mut rng = Rng::new(20);
    for _ in 0..1000 {
        let (settings, tree) = gen::table(&mut rng, Margins::None);
        let mut in_row = Vec::new();
        put(&tree, false, &mut in_row);
        for leaf in original::answer(&settings, &tree).leaves {
            let CutPair { taken, rest } = leaf.pair;
            let kind = usize::from(taken > 0) + 2 * usize::from(rest > 0);
            reached[usize::from(in_row[leaf.node])][kind] += 1;
        }
    }
    let least = reached.concat().into_iter().min();
    assert!(least > Some(50), "{reached:?}");
}
