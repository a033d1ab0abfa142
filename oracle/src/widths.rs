//! The letters that widen a sheet as lines (document 02, 11), by the crate's sizes of trees with letters added. Settings and trees are given as in the replays:
//!   = the settings' bytes      : the tree's bytes      + N, bytes: these go on the tree N times
//! Room for this many nodes and this many numbers of letters, then the number and the count, then the node and the letters of each Cell, or none:
//!   n NODES LETTERS, NUMBER COUNT, NODE LETTERS NODE LETTERS ..

use crate::form::{encode_settings, encode_tree, Settings, Tree};
use crate::gen::{self, Margins, Rng};
use crate::judge;
use crate::lines::Lines;
use crate::widening;

/// As many Cells as there may be, and none at all in as many nodes; then a Cell of all bytes that are left, and of one more.
fn as_many_as_there_may_be(lines: &mut Lines) {
    lines.title("As many cells, and letters, as there may be, and one more");
    let m = encode_settings(&Settings::M);
    lines.repeated(&m, &[3, 0x05, 0xFD], 511, b"\x01\x00\x00");
    for rooms in [(511, 520), (510, 511), (511, 510), (0, 0)] {
        lines.widen(rooms);
    }
    lines.repeated(&m, &[3, 0x06, 0x00], 512, b"\x01\x00\x00");
    lines.widen((520, 520));
    lines.repeated(&m, &[2, 0x05, 0xFD], 511, b"\x03\x00\x00");
    lines.widen((0, 0));

    let padded = Settings {
        padding: [16; 4],
        ..Settings::M
    };
    let padded = encode_settings(&padded);
    for (head, bytes) in [([3, 0x7F, 0xFD], 32_759), ([3, 0x7F, 0xFE], 32_760)] {
        let cell = [1, (bytes / 256) as u8, (bytes % 256) as u8];
        let head = [&head[..], b"\x01\x00\x00", &cell].concat();
        lines.repeated(&padded, &head, bytes, b"w");
        lines.widen((2, 2));
    }
}

/// Settings and trees that are refused with 1 to 5, each with enough room, and with none.
fn refused_trees(lines: &mut Lines) {
    lines.title("Refused trees");
    let m = encode_settings(&Settings::M);
    let chain = (1..17).fold(Tree::cell("a"), |inner, _| Tree::Row(vec![inner]));
    let given: [(&[u8], &[u8]); 7] = [
        (&m[..30], b"\x03\x00\x03\x05\x00\x00"),
        (&m, b""),
        (&m, b"\x03\x00\x07\x01\x00\x01a\x04\x00\x00"),
        (&m, b"\x04\x00\x04\x01\x01\x01\x01"),
        (&m, b"\x02\x00\x07\x01\x00\x01\x07\x05\x00\x00"),
        (&m, b"\x02\x00\x07\x01\x00\x00\x01\x00\x01\x7f"),
        (&m, &encode_tree(&chain)),
    ];
    for (settings, tree) in given {
        lines.given(settings, tree);
        lines.widen((9, 9));
        lines.widen((0, 0));
    }
}

/// This many random settings, each with four trees of a few bytes: with as much room as is needed or more, then with too little in one list or in both; and with one
/// tree that is refused.
pub fn random_trees(lines: &mut Lines, rng: &mut Rng, settings: usize) {
    lines.title("Random trees");
    for number in [2, 3].into_iter().cycle().take(settings) {
        let settings = gen::settings(rng, Margins::Half);
        let bytes = encode_settings(&settings);
        let mut left = 4;
        while left > 0 {
            let (_, tree) = gen::wide_table(rng);
            let mut needs = widening::needs(&settings, &tree);
            let cells = needs.len();
            needs.dedup_by_key(|need| need.letters);
            if needs.len() > 2 && tree.bytes() < 110 {
                lines.given(&bytes, &encode_tree(&tree));
                let more = cells + rng.between(0, 3);
                lines.widen(rng.pick(&[(cells, cells), (more, cells), (cells, more)]));
                lines.widen(rng.pick(&[(cells - 1, cells), (cells, cells - 1), (0, 9), (9, 0)]));
                left -= 1;
            }
        }
        let tree = loop {
            let (_, tree) = gen::any_wide(rng);
            if (20..60).contains(&tree.len()) && judge::tree(&tree) == number {
                break tree;
            }
        };
        lines.given(&bytes, &tree);
        lines.widen((rng.below(9), rng.below(9)));
    }
}

/// The lines, about 100 lists.
pub fn lines(seed: u64) -> String {
    let mut rng = Rng::new(seed);
    let mut lines = Lines::default();
    as_many_as_there_may_be(&mut lines);
    refused_trees(&mut lines);
    random_trees(&mut lines, &mut rng, 7);
    lines.text
}
