//! Document 02, 11: the letters that widen a sheet, by the crate's sizes and by the document's words.

use oracle::calls::{Calls, Counted};
use oracle::gen::{self, Margins, Rng};
use oracle::sides::{Original, Paper};
use oracle::{
    encode_settings, encode_tree, judge, original, paper, widening, Margin, Need, Settings, Tree,
};

/// The node and the letters of each Cell, in the order of the list.
type List = Vec<(u16, u32)>;

/// The list on both sides, with this many entries lent for the nodes and for the numbers. Entries past the count stay; a refusal, which is the judge's, writes none.
fn widen(settings: &[u8], tree: &[u8], lent: (usize, usize)) -> Result<List, u8> {
    let widen = |side: &mut dyn Calls| {
        let (mut nodes, mut letters) = (vec![777; lent.0], vec![777; lent.1]);
        let answer = side.widen(settings, tree, &mut nodes, &mut letters);
        (answer, nodes, letters)
    };
    let (answer, nodes, letters) = widen(&mut Original::default());
    let other = widen(&mut Paper::default());
    assert_eq!(other, (answer, nodes.clone(), letters.clone()));
    let Counted { number, count } = answer;
    assert_eq!(judge::widen(settings, tree, lent.0, lent.1), number);
    assert!(nodes[count..].iter().all(|&entry| entry == 777));
    assert!(letters[count..].iter().all(|&entry| entry == 777));
    if number != 0 {
        assert_eq!(count, 0);
        return Err(number);
    }
    Ok(nodes.into_iter().zip(letters).take(count).collect())
}

/// The same with lists of one length.
fn listed(settings: &[u8], tree: &[u8], length: usize) -> Result<List, u8> {
    widen(settings, tree, (length, length))
}

fn d() -> Vec<u8> {
    encode_settings(&Settings::D)
}

#[test]
fn one_cell() {
    let ab = b"\x01\x00\x02ab";
    assert_eq!(listed(&d(), ab, 1), Ok(vec![(0, 1)]));
    assert_eq!(listed(&d(), ab, 0), Err(8));
    let long = [b"\x01\x01\xF4", &[b'a'; 500][..]].concat();
    assert_eq!(listed(&d(), &long, 1), Ok(vec![(0, 1)]));
}

/// The empty Cell is 2 wide, the other one 5: three letters make 5 and change nothing, the fourth makes 6.
#[test]
fn a_column() {
    let column = b"\x03\x00\x09\x01\x00\x03abc\x01\x00\x00";
    assert_eq!(listed(&d(), column, 2), Ok(vec![(1, 1), (2, 4)]));
}

#[test]
fn groups() {
    let row = b"\x03\x00\x14\x01\x00\x03abc\x01\x00\x00\x02\x00\x08\x01\x00\x01a\x01\x00\x01b";
    let list = vec![(4, 1), (5, 1), (1, 3), (2, 6)];
    assert_eq!(listed(&d(), row, 9), Ok(list));
    let nested = b"\x03\x00\x1E\x02\x00\x10\x01\x00\x01a\x03\x00\x09\x01\x00\x02bb\x01\x00\x01c\x01\x00\x08dddddddd";
    let list = vec![(6, 1), (2, 3), (4, 3), (5, 4)];
    assert_eq!(listed(&d(), nested, 9), Ok(list));
}

#[test]
fn several_lines() {
    let lines = b"\x03\x00\x13\x01\x00\x07a\nbcdef\x01\x00\x06xyz\n\nu";
    assert_eq!(listed(&d(), lines, 9), Ok(vec![(1, 1), (2, 3)]));
}

#[test]
fn empty_groups_are_not_listed() {
    assert_eq!(listed(&d(), b"\x02\x00\x00", 0), Ok(vec![]));
    let above = b"\x03\x00\x08\x02\x00\x00\x01\x00\x02ab";
    assert_eq!(listed(&d(), above, 1), Ok(vec![(2, 1)]));
    let below = b"\x03\x00\x06\x01\x00\x00\x02\x00\x00";
    assert_eq!(listed(&d(), below, 1), Ok(vec![(1, 1)]));
}

/// Without lines a Row is narrower than with them.
#[test]
fn without_lines() {
    let tree = b"\x03\x00\x11\x01\x00\x03abc\x02\x00\x08\x01\x00\x01a\x01\x00\x01b";
    for (settings, letters) in [(Settings::N, 2), (Settings::D, 3)] {
        let edged = Settings {
            margin: Margin {
                sizes: [3, 3, 0, 0],
                fills: *b"lrtb",
            },
            ..settings
        };
        let list = vec![(3, 1), (4, 1), (1, letters)];
        assert_eq!(listed(&encode_settings(&edged), tree, 9), Ok(list));
    }
}

/// 'A short list is 8', be it the nodes' or the numbers'; it comes after 1 to 5. Nothing is too large.
#[test]
fn refusals() {
    let row = b"\x02\x00\x08\x01\x00\x01a\x01\x00\x01b";
    assert_eq!(widen(&d(), row, (2, 3)), Ok(vec![(1, 1), (2, 1)]));
    for lent in [(1, 2), (2, 1), (0, 2), (2, 0), (0, 0)] {
        assert_eq!(widen(&d(), row, lent), Err(8));
    }
    let cells = |count: usize| encode_tree(&Tree::Row(vec![Tree::cell("abcdefgh"); count]));
    let chain = (1..17).fold(Tree::cell("a"), |inner, _| Tree::Row(vec![inner]));
    for length in [0, 600] {
        let number = |tree: &[u8]| listed(&d(), tree, length).err();
        assert_eq!(listed(&d()[..30], b"", length), Err(1));
        assert_eq!(number(b"\x04\x00\x04\x01\x01\x01\x01"), Some(2));
        assert_eq!(number(b"\x01\x00\x01\x09"), Some(3));
        assert_eq!(number(&cells(512)), Some(4));
        assert_eq!(number(&encode_tree(&chain)), Some(5));
    }
    assert_eq!(judge::sheet(&d(), &cells(511), 0), 6);
    let all = (1..=511).map(|node| (node, 1)).collect();
    assert_eq!(listed(&d(), &cells(511), 511), Ok(all));
}

/// The search as the document describes it, one letter after the other, by the W of the crate: the first number that makes it larger. From there on each letter more
/// makes it larger by one.
#[test]
fn the_search_as_it_is_told() {
    let mut rng = Rng::new(34);
    let mut slack = 0;
    for _ in 0..150 {
        let (settings, tree) = gen::table(&mut rng, Margins::Half);
        let width = |tree: &Tree| {
            let sizes = original::seen(&settings, tree).answer.sizes;
            paper::rectangle(&settings, &sizes).0
        };
        let natural = width(&tree);
        if tree.nodes() > 30 || natural > 120 {
            continue;
        }
        let needs = widening::needs(&settings, &tree);
        let nodes: Vec<usize> = widening::cells(&tree);
        assert_eq!(needs.len(), nodes.len());
        for node in nodes {
            let with = |letters: usize| width(&widening::widened(&tree, node, letters));
            let letters = (1..).find(|&letters| with(letters) != natural);
            let letters = letters.expect("some number does");
            assert!(needs.contains(&Need { node, letters }));
            for more in 0..3 {
                assert_eq!(with(letters + more), natural + 1 + more);
            }
            slack += letters - 1;
        }
    }
    assert!(slack > 1000, "{slack}");
}

/// Only the Cell's own text is another, and in it only its longest line.
#[test]
fn letters_go_to_the_longest_line() {
    let tree = Tree::Row(vec![
        Tree::cell("ab\n\nabc\nd"),
        Tree::Column(vec![Tree::cell(""), Tree::Row(vec![])]),
    ]);
    let first = Tree::cell("ab\n\nabcxx\nd");
    let other = Tree::Column(vec![Tree::cell("xx"), Tree::Row(vec![])]);
    let [one, group] = [&tree.children()[0], &tree.children()[1]];
    assert_eq!(widening::cells(&tree), [1, 3]);
    let widened = |node: usize| widening::widened(&tree, node, 2);
    assert_eq!(widened(1), Tree::Row(vec![first, group.clone()]));
    assert_eq!(widened(3), Tree::Row(vec![one.clone(), other]));
}

/// The greatest trees have numbers of all sizes.
#[test]
fn great_trees() {
    let mut most = 0;
    for (settings, tree) in gen::wide_tables() {
        assert!(tree.bytes() <= judge::TREE_BYTES && tree.nodes() <= judge::NODES);
        let needs = original::needs(&settings, &tree);
        assert_eq!(needs[0].letters, 1);
        most = most.max(needs[needs.len() - 1].letters);
    }
    assert!(most > 45_000, "{most}");
}

/// The margin changes nothing, and the padding nothing in a list of Cells.
#[test]
fn padding_and_margin() {
    let mut rng = Rng::new(35);
    let list = Tree::Column(["a", "bb\nb", "", "cdef"].map(Tree::cell).to_vec());
    let (_, table) = gen::table(&mut rng, Margins::None);
    for _ in 0..20 {
        let edged = gen::settings(&mut rng, Margins::Half);
        let plain = Settings {
            margin: Margin::NONE,
            ..edged
        };
        let of = |settings: &Settings, tree: &Tree| widening::needs(settings, tree);
        assert_eq!(of(&edged, &table), of(&plain, &table));
        assert_eq!(of(&edged, &list), of(&Settings::D, &list));
    }
}
