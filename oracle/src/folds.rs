//! Folded lists as lines (document 02, 9), by the crate's sizes. Settings and trees are given as in the replays:
//!   = the settings' bytes      : the tree's bytes      + N, bytes: these go on the tree N times
//! A list folded within WIDTH, with BUDGET tries and room for ROOM Columns; the number, the count of Columns, the height, the tries made and the greatest miss; the
//! cells in each Column, or `none`; beside a refusal zeros, and none:
//!   c ROOM WIDTH BUDGET, NUMBER COLUMNS HEIGHT TRIES MISS, CELLS CELLS ..

use crate::folding;
use crate::form::{encode_settings, encode_tree, Settings, Tree};
use crate::gen::{self, Rng};
use crate::lines::Lines;

/// The greatest width or budget.
const MOST: usize = usize::MAX;

/// 200 equal Cells, and one more; the room is what the answer needs, or one less.
fn as_many_as_there_may_be(lines: &mut Lines) {
    lines.title("200 Cells, and 201");
    let d = encode_settings(&Settings::D);
    lines.repeated(&d, &[3, 0x03, 0xE8], 200, b"\x01\x00\x02ab");
    lines.fold(200, 999, MOST);
    lines.fold(199, 999, MOST);
    lines.fold(200, 999, 398);
    lines.fold(200, 999, 397);
    lines.fold(200, 998, MOST);
    lines.fold(100, 499, MOST);
    lines.fold(99, 499, MOST);
    lines.fold(100, 498, MOST);
    lines.fold(8, 39, MOST);
    lines.fold(8, 38, 400);
    lines.fold(2, 9, 1);
    lines.fold(2, 9, 200);
    lines.fold(1, 8, 1 << 32);
    lines.fold(1, 4, 0);
    lines.fold(0, 4, 0);
    lines.fold(0, 3, 0);
    lines.repeated(&d, &[3, 0x03, 0xED], 201, b"\x01\x00\x02ab");
    lines.fold(201, 999, MOST);
    lines.fold(0, 0, 0);

    let tight = Settings {
        padding: [0; 4],
        ..Settings::D
    };
    lines.repeated(
        &encode_settings(&tight),
        &[3, 0x02, 0x58],
        200,
        b"\x01\x00\x00",
    );
    lines.fold(200, 199, MOST);
    lines.fold(200, 198, MOST);
    lines.fold(1, 0, MOST);
    lines.fold(200, MOST, 199);
}

/// Cells of many lines, so that there are many tries: each budget is around one that matters.
fn many_tries(lines: &mut Lines) {
    lines.title("Many tries");
    let padded = Settings {
        padding: [16; 4],
        ..Settings::M
    };
    let cell = [&[1, 0x01, 0x2C][..], &[b'\n'; 300]].concat();
    lines.repeated(&encode_settings(&padded), &[3, 0x03, 0x8D], 3, &cell);
    for budget in [0, 332, 333, 334, 667, 668, 1 << 16, MOST] {
        lines.fold(3, 98, budget);
    }
    lines.fold(3, 97, MOST);
    lines.fold(2, 65, 668);
    lines.fold(2, 64, 668);
    lines.fold(1, 32, 1);
    lines.fold(3, 31, 1);
}

/// Settings and trees that are refused with 1 to 5 or 15, the last as other kinds of roots and children.
fn refused_lists(lines: &mut Lines) {
    lines.title("Refused lists");
    let m = encode_settings(&Settings::M);
    let chain = (1..17).fold(Tree::cell("a"), |inner, _| Tree::Column(vec![inner]));
    let given: [(&[u8], &[u8]); 9] = [
        (&m[..30], b"\x03\x00\x03\x04\x00\x00"),
        (&m, b"\x03\x00\x07\x01\x00\x01a\x04\x00\x00"),
        (&m, b"\x03\x00\x07\x02\x00\x00\x01\x00\x01\x07"),
        (&m, &encode_tree(&chain)),
        (&m, b"\x01\x00\x01a"),
        (&m, b"\x02\x00\x04\x01\x00\x01a"),
        (&m, b"\x03\x00\x00"),
        (&m, b"\x03\x00\x07\x01\x00\x01a\x02\x00\x00"),
        (&m, b"\x03\x00\x0b\x03\x00\x04\x01\x00\x01a\x01\x00\x01b"),
    ];
    for (settings, tree) in given {
        lines.given(settings, tree);
        lines.fold(0, 0, 0);
        lines.fold(9, MOST, MOST);
    }
    for (head, n) in [([3, 0x06, 0x00], 512), ([3, 0x05, 0xFD], 511)] {
        lines.repeated(&m, &head, n, b"\x01\x00\x00");
        lines.fold(0, 0, 0);
    }
}

/// This many random lists of a few bytes, each with some widths and budgets.
pub fn random_lists(lines: &mut Lines, rng: &mut Rng, lists: usize) {
    lines.title("Random lists");
    let mut left = lists;
    while left > 0 {
        let (settings, tree) = gen::fold_list(rng);
        let folds = folding::folds(&settings, tree.children());
        let (cells, bytes) = (tree.children().len(), encode_tree(&tree));
        if folds.len() < 8 || bytes.len() > 150 {
            continue;
        }
        lines.given(&encode_settings(&settings), &bytes);
        for _ in 0..8 {
            let (width, budget) = gen::question(rng, &folds);
            let room = rng.pick(&[cells, cells, cells, 2, 1]);
            lines.fold(room, width, budget);
        }
        left -= 1;
    }
}

/// The lines, about 150 folds.
pub fn lines(seed: u64) -> String {
    let mut rng = Rng::new(seed);
    let mut lines = Lines::default();
    as_many_as_there_may_be(&mut lines);
    many_tries(&mut lines);
    refused_lists(&mut lines);
    random_lists(&mut lines, &mut rng, 12);
    lines.text
}
