//! Sheets without lines (document 02, 13) as lines, by the crate's answers where it has one: sizes, records, blocks, sheets and places as in `replay` and `places`; folded
//! lists, planning trees and letters as in `folds`, `plans` and `widths`.

use crate::form::{encode_plan, encode_settings, encode_tree, Margin, Plan, Range, Settings, Tree};
use crate::gen::{self, Growth, Margins, Rng};
use crate::lines::Lines;
use crate::{folds, judge, places, plans, replay, widths};

fn cells(texts: &[&str]) -> Vec<Tree> {
    texts.iter().map(Tree::cell).collect()
}

fn row(texts: &[&str]) -> Tree {
    Tree::Row(cells(texts))
}

/// F2's tree.
fn figure_2() -> Tree {
    Tree::Column(vec![Tree::cell("abcdef"), row(&["a", "b"])])
}

/// A Column of these Cells beside a Cell.
fn beside(texts: &[&str], text: &str) -> Tree {
    Tree::Row(vec![Tree::Column(cells(texts)), Tree::cell(text)])
}

/// The settings with a margin of these sizes.
fn edged(settings: Settings, sizes: [u8; 4]) -> Settings {
    Settings {
        margin: Margin {
            sizes,
            fills: *b"lrtb",
        },
        ..settings
    }
}

fn given(lines: &mut Lines, settings: Settings, tree: &Tree) {
    lines.given(&encode_settings(&settings), &encode_tree(tree));
}

/// Fifteen zeros; then each mark as the only zero, and as the only one that is none.
fn marks(lines: &mut Lines) {
    lines.title("Fifteen zeros, and mixtures");
    let tree = Tree::cell("ab");
    for settings in [Settings::N, Settings::N0, edged(Settings::N, [1, 2, 3, 4])] {
        given(lines, settings, &tree);
        lines.settings();
        lines.sheet();
    }
    for mut settings in [Settings::D, Settings::N] {
        for at in 0..15 {
            let mark = settings.marks[at];
            settings.marks[at] = if mark == 0 { b'-' } else { 0 };
            given(lines, settings, &tree);
            lines.settings();
            settings.marks[at] = mark;
        }
    }
    lines.sheet();
}

/// The sheets of document 02's readings, without an extra blank where the crate has one; the sizes and a leaf of each.
fn sheets(lines: &mut Lines) {
    lines.title("Sheets by hand");
    let left = Settings {
        padding: [1, 0, 0, 0],
        fills: *b"lrtb",
        ..Settings::N
    };
    let bottom = Settings {
        padding: [1, 0, 0, 1],
        vertical: 2,
        ..left
    };
    let above = Tree::Column(vec![row(&["a", "b"]), Tree::cell("c")]);
    for (settings, tree, node) in [
        (Settings::N, figure_2(), 3),
        (Settings::N, above, 4),
        (Settings::N, beside(&["a", "b"], "c"), 4),
        (Settings::N, beside(&["", ""], ""), 4),
        (edged(Settings::N, [1; 4]), figure_2(), 4),
        (left, beside(&["a", "b"], "c"), 4),
        (bottom, beside(&["a", "b", "c"], "d"), 5),
    ] {
        given(lines, settings, &tree);
        lines.sizes(0);
        lines.both(node);
    }
}

/// Leaves of no columns, alone and beside others; sheets of no columns, with a margin and without.
fn blanks(lines: &mut Lines) {
    lines.title("Leaves of no columns");
    let blank = |feeds: usize| Tree::Cell(vec![b'\n'; feeds]);
    let both = Tree::Column(vec![row(&["", ""]), row(&["", "ab", "\n"])]);
    for (settings, tree, node) in [
        (Settings::N0, blank(0), 0),
        (Settings::N0, Tree::Row(vec![]), 0),
        (Settings::N0, blank(2), 0),
        (Settings::N0, row(&["", "a\nb"]), 1),
        (Settings::N0, row(&["", ""]), 2),
        (Settings::N0, Tree::Column(vec![blank(1), blank(0)]), 1),
        (Settings::N0, both.clone(), 7),
        (edged(Settings::N0, [1, 1, 0, 0]), blank(1), 0),
        (edged(Settings::N0, [0, 0, 1, 2]), blank(0), 0),
        (edged(Settings::N0, [2, 1, 1, 1]), both, 2),
    ] {
        given(lines, settings, &tree);
        lines.sizes(0);
        lines.both(node);
    }
}

/// Both sides of each limit on W and H, without a margin and with one.
fn limits(lines: &mut Lines) {
    lines.title("Limits");
    let d = Settings::D.bare();
    for (settings, length, byte) in [
        (d, 398, b'a'),
        (d, 399, b'a'),
        (d, 159, b'\n'),
        (d, 160, b'\n'),
        (edged(d, [16, 16, 0, 0]), 367, b'a'),
        (edged(d, [0, 0, 0, 1]), 159, b'\n'),
    ] {
        let [high, low] = u16::to_be_bytes(length);
        let settings = encode_settings(&settings);
        lines.repeated(&settings, &[1, high, low], length.into(), &[byte]);
        lines.sheet();
    }
}

/// This many small random tables, four deep: the sizes of a node, a leaf, and the sheet.
fn nested(lines: &mut Lines, rng: &mut Rng, count: usize) {
    lines.title("Nested Rows and Columns");
    let growth = Growth { width: 3, lines: 2 };
    let mut left = count;
    while left > 0 {
        let mut settings = gen::settings(rng, Margins::Half);
        settings.padding = settings.padding.map(|size| size % 2);
        let nodes = rng.between(6, 14);
        let tree = gen::tree_of_depth(rng, nodes, 4, growth);
        if judge::sheet(&encode_settings(&settings), &encode_tree(&tree), 160) == 0 {
            given(lines, settings, &tree);
            lines.sizes(rng.below(nodes));
            lines.both(rng.pick(&judge::leaves(&tree)));
            left -= 1;
        }
    }
}

/// Places by hand: beside a leaf of no columns that starts where its neighbour does, in a sheet of no columns, around a margin; and together.
fn owners(lines: &mut Lines) {
    lines.title("Places");
    given(lines, Settings::N0, &row(&["", "a", "", "bc\nd"]));
    lines.places(&[(0, 0), (0, 1), (0, 2), (1, 0), (1, 2), (0, 3), (2, 0)]);
    lines.marks(4, 4, &[(0, 0), (1, 1), (0, 2), (0, 0)]);
    given(lines, Settings::N0, &Tree::cell("\n"));
    lines.places(&[(0, 0), (1, 0), (2, 0), (0, usize::MAX)]);
    lines.marks(0, 0, &[]);
    lines.marks(1, 1, &[(0, 0)]);
    given(lines, edged(Settings::N0, [1; 4]), &Tree::cell("\n"));
    lines.places(&[(0, 0), (1, 0), (1, 1), (1, 2), (3, 1), (4, 0)]);
    lines.marks(0, 257, &[(9, 9)]);
    given(lines, edged(Settings::N, [2, 1, 1, 1]), &figure_2());
    lines.places(&[(0, 2), (1, 1), (1, 2), (1, 9), (1, 10), (2, 5), (2, 6)]);
    lines.places(&[(2, 9), (3, 2), (4, 2), (2, 11)]);
    lines.marks(9, 6, &[(2, 6), (1, 2), (2, 5), (2, 6)]);
}

/// The lines, as crate `test_calls` takes them; those on places, as crate `test_places` does.
pub fn lines(seed: u64) -> [String; 2] {
    let mut rng = Rng::new(seed).bare();
    let mut lines = Lines::default();
    marks(&mut lines);
    sheets(&mut lines);
    blanks(&mut lines);
    limits(&mut lines);
    nested(&mut lines, &mut rng, 12);
    replay::tables(&mut lines, &mut rng, Margins::Half, 160, 4);
    replay::damaged(&mut lines, &mut rng, 8);
    let mut on_places = Lines::default();
    owners(&mut on_places);
    places::random_tables(&mut on_places, &mut rng, 3, |lines, rng, read| {
        (0..4).for_each(|_| lines.place(gen::place(rng, read)));
    });
    places::random_tables(&mut on_places, &mut rng, 3, places::random_lists);
    [lines.text, on_places.text]
}

/// The lines, as crate `test_requests` takes them: the examples of document 02's readings, 9 to 11, then random ones.
pub fn requests(seed: u64) -> String {
    let mut rng = Rng::new(seed).bare();
    let mut lines = Lines::default();
    lines.title("Without lines");
    let list = Tree::Column(cells(&["a", "b", "c", "d"]));
    given(&mut lines, Settings::N, &list);
    for (width, budget) in [(6, 99), (12, 99), (11, 99), (3, 0), (2, 0)] {
        lines.fold(4, width, budget);
    }
    let range = |width: [u8; 2], lines: [u8; 2]| Plan::Range(Range { width, lines });
    let plan = Plan::Row(vec![range([1, 2], [1, 4]), range([0, 9], [2, 3])]);
    lines.given(&encode_settings(&Settings::N), &encode_plan(&plan));
    lines.plan();
    let tree = Tree::Column(vec![Tree::cell("abc"), row(&["a", "b"])]);
    given(&mut lines, edged(Settings::N, [3, 3, 0, 0]), &tree);
    lines.widen((9, 9));
    lines.plan();
    folds::random_lists(&mut lines, &mut rng, 2);
    plans::random_plans(&mut lines, &mut rng, 1);
    widths::random_trees(&mut lines, &mut rng, 1);
    lines.text
}
