//! Document 02, 7: the nodes below each node, and the next sibling by the rule.

use oracle::calls::{Calls, SizeRecord};
use oracle::gen::{self, Margins, Rng};
use oracle::sides::{Original, Paper};
use oracle::{encode_settings, encode_tree, Settings, Tree};

fn cell(text: &str) -> Tree {
    Tree::cell(text)
}

fn row<const N: usize>(children: [Tree; N]) -> Tree {
    Tree::Row(children.to_vec())
}

fn column<const N: usize>(children: [Tree; N]) -> Tree {
    Tree::Column(children.to_vec())
}

/// The size records, on both sides.
fn sizes(settings: &Settings, tree: &Tree) -> Vec<SizeRecord> {
    let sizes = |side: &mut dyn Calls| {
        let mut list = vec![SizeRecord::default(); tree.nodes()];
        let answer = side.sizes(&encode_settings(settings), &encode_tree(tree), &mut list);
        assert_eq!((answer.number, answer.count), (0, tree.nodes()));
        list
    };
    let list = sizes(&mut Original::default());
    assert_eq!(sizes(&mut Paper::default()), list);
    list
}

/// 'A node's own number plus 1 plus that count is its next sibling exactly where this is no more than its parent's number plus its parent's count; elsewhere, as
/// for the root, it has none.'
fn by_rule(sizes: &[SizeRecord], parent: Option<usize>, node: usize) -> Option<usize> {
    let parent = parent?;
    let next = node + 1 + usize::from(sizes[node].below);
    (next <= parent + usize::from(sizes[parent].below)).then_some(next)
}

/// Each node's parent and next sibling, by the tree.
fn family(tree: &Tree) -> Vec<(Option<usize>, Option<usize>)> {
    fn put(tree: &Tree, parent: Option<usize>, list: &mut Vec<(Option<usize>, Option<usize>)>) {
        let node = list.len();
        list.push((parent, None));
        let mut before = None;
        for child in tree.children() {
            let number = list.len();
            if let Some(before) = before.replace(number) {
                list[before].1 = Some(number);
            }
            put(child, Some(node), list);
        }
    }

    let mut list = Vec::new();
    put(tree, None, &mut list);
    list
}

/// Of each node under D: natural and allotted size, the nodes below it, and its next sibling, which the tree has too.
fn records(tree: &Tree) -> Vec<([u16; 4], u16, Option<usize>)> {
    let sizes = sizes(&Settings::D, tree);
    let family = family(tree).into_iter().enumerate();
    family
        .map(|(node, (parent, next))| {
            let size = sizes[node];
            assert_eq!(by_rule(&sizes, parent, node), next, "node {node}");
            let four = [
                size.natural_width,
                size.natural_height,
                size.allotted_width,
                size.allotted_height,
            ];
            (four, size.below, next)
        })
        .collect()
}

#[test]
fn examples() {
    assert_eq!(records(&cell("ab")), [([4, 1, 4, 1], 0, None)]);
    let inner = row([cell("b"), column([cell("c"), cell("d")])]);
    assert_eq!(
        records(&column([cell("a"), inner, cell("e")])),
        [
            ([7, 7, 7, 7], 7, None),
            ([3, 1, 7, 1], 0, Some(2)),
            ([7, 3, 7, 3], 4, Some(7)),
            ([3, 1, 3, 3], 0, Some(4)),
            ([3, 3, 3, 3], 2, None),
            ([3, 1, 3, 1], 0, Some(6)),
            ([3, 1, 3, 1], 0, None),
            ([3, 1, 7, 1], 0, None),
        ]
    );
    assert_eq!(
        records(&row([row([row([])])])),
        [
            ([2, 1, 2, 1], 2, None),
            ([2, 1, 2, 1], 1, None),
            ([2, 1, 2, 1], 0, None),
        ]
    );
    assert_eq!(
        records(&column([row([]), row([cell("x")]), column([])])),
        [
            ([3, 5, 3, 5], 4, None),
            ([2, 1, 3, 1], 0, Some(2)),
            ([3, 1, 3, 1], 1, Some(4)),
            ([3, 1, 3, 1], 0, None),
            ([2, 1, 3, 1], 0, None),
        ]
    );
}

#[test]
fn at_the_limits() {
    let below = |tree: &Tree| {
        let records = records(tree).into_iter();
        records.map(|(_, below, _)| below).collect::<Vec<u16>>()
    };
    let chain = (1..16).fold(cell("a"), |inner, _| row([inner]));
    assert_eq!(below(&chain), (0..16).rev().collect::<Vec<u16>>());
    let flat = below(&Tree::Row(vec![cell(""); 511]));
    assert_eq!((flat[0], &flat[1..]), (511, &[0; 511][..]));
}

/// The rule finds every next sibling, and none elsewhere, in every small tree and in random ones.
#[test]
fn every_sibling() {
    for nodes in 1..=5 {
        for tree in gen::small_trees(nodes, &["a"]) {
            records(&tree);
        }
    }
    let mut rng = Rng::new(24);
    for _ in 0..300 {
        let (_, tree) = gen::table(&mut rng, Margins::None);
        records(&tree);
    }
}
