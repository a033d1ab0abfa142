//! Places and their leaves as lines (document 02, 5 and 6), by the crate's blocks. Settings and trees are given as in the replays:
//!   = the settings' bytes      : the tree's bytes      + N, bytes: these go on the tree N times
//! A place of the printed sheet, and the number that it is answered with, the leaf, and the line and column inside its block, zeros beside a refusal:
//!   p LINE COLUMN, NUMBER NODE LINE COLUMN
//! COUNT places together, with room for ROOM answers; the number, and the elements read; the places, over and over until there are COUNT; the answers of these, as
//! many as there are places listed, or `none`, also beside a refusal:
//!   m ROOM COUNT, NUMBER READ, LINE COLUMN LINE COLUMN .., NODE LINE COLUMN NODE LINE COLUMN ..

use crate::form::{encode_settings, encode_tree, Margin, Settings, Tree};
use crate::gen::{self, Margins, Rng};
use crate::judge;
use crate::lines::Lines;

/// M with a white edge on every side.
const EDGED: Settings = Settings {
    margin: Margin {
        sizes: [2, 1, 1, 1],
        fills: *b"lrtb",
    },
    ..Settings::M
};

fn a_b() -> Vec<Tree> {
    ["a", "b"].map(Tree::cell).to_vec()
}

fn figure_2() -> Tree {
    Tree::Column(vec![Tree::cell("abcdef"), Tree::Row(a_b())])
}

/// Places outside every sheet: the greatest numbers of 32 and of 64 bits, and those whose lower 16 or 32 bits are of a place inside.
const FAR: [(usize, usize); 5] = [
    (u32::MAX as usize, 2),
    (1, usize::MAX),
    (1 << 32, 1 << 32),
    (1 + (1 << 32), 2),
    (1, 2 + (1 << 16)),
];

/// Sheets by hand, with places at their edges and where leaves meet: the readings' examples, one Cell, the widest and the highest sheet, one of 512 nodes.
fn edges(lines: &mut Lines) {
    let beside = Tree::Row(vec![Tree::Column(a_b()), Tree::cell("c")]);
    let (m, figure_2) = (encode_settings(&Settings::M), encode_tree(&figure_2()));
    lines.title("Edges of sheets, and where leaves meet");
    lines.given(&m, &figure_2);
    lines.places(&[(0, 0), (1, 9), (2, 0), (2, 4), (2, 5), (3, 5), (4, 4)]);
    lines.places(&[(4, 9), (5, 0), (0, 10), (5, 10)]);
    lines.places(&FAR);
    lines.given(&encode_settings(&EDGED), &figure_2);
    lines.places(&[(0, 0), (0, 12), (1, 1), (1, 2), (1, 11), (1, 12), (5, 7)]);
    lines.places(&[(5, 11), (6, 5), (6, 0), (6, 12), (7, 0), (6, 13), (7, 13)]);
    lines.places(&FAR);
    lines.given(&m, &encode_tree(&beside));
    lines.places(&[(2, 4), (2, 3), (2, 5), (4, 4), (4, 8), (0, 0), (1, 3)]);
    lines.given(&m, &encode_tree(&Tree::cell("")));
    lines.places(&[(0, 0), (1, 1), (2, 3), (2, 4), (3, 3)]);

    let large = encode_settings(&Settings {
        margin: Margin {
            sizes: [16, 0, 0, 15],
            ..EDGED.margin
        },
        ..Settings::D
    });
    lines.repeated(&large, &[1, 0x01, 0x7C], 380, b"a");
    lines.places(&[(0, 16), (2, 399), (0, 15), (3, 399), (2, 400), (18, 399)]);
    lines.repeated(&large, &[1, 0x00, 0x8E], 142, b"\n");
    lines.places(&[(0, 16), (144, 19), (145, 19), (159, 0), (160, 0), (144, 20)]);
    nodes_512(lines);
    lines.places(&[(0, 0), (14, 216), (13, 215), (7, 108), (6, 107), (15, 0)]);
}

/// Row[``, `a`] without padding: the first leaf is its marks around no columns (document 02, 8).
fn blank(lines: &mut Lines, settings: Settings) {
    let tight = Settings {
        padding: [0; 4],
        ..settings
    };
    let tree = Tree::Row(vec![Tree::cell(""), Tree::cell("a")]);
    lines.given(&encode_settings(&tight), &encode_tree(&tree));
}

/// Places of that sheet, without a margin and with one.
fn blanks(lines: &mut Lines) {
    lines.title("A remark left blank");
    blank(lines, Settings::M);
    lines.places(&[(0, 0), (0, 1), (1, 0), (2, 0), (2, 3), (0, 4), (3, 0)]);
    blank(lines, EDGED);
    lines.places(&[(1, 1), (1, 2), (1, 3), (3, 2), (4, 2), (3, 6)]);
}

/// A Column of 7 Rows of 72 empty Cells, 15 lines of 217 columns.
fn nodes_512(lines: &mut Lines) {
    let row = [&[2, 0x00, 0xD8][..], &[1, 0, 0].repeat(72)].concat();
    lines.repeated(&encode_settings(&Settings::M), &[3, 0x05, 0xFD], 7, &row);
}

/// Sheets that are refused with 1 to 6, and the places looked up in each.
fn refused_sheets(lines: &mut Lines, ask: fn(&mut Lines)) {
    lines.title("Refused sheets");
    let m = encode_settings(&Settings::M);
    let chain = (1..17).fold(Tree::cell("a"), |inner, _| Tree::Row(vec![inner]));
    let given: [(&[u8], &[u8]); 4] = [
        (&m[..30], b"\x04\x00\x00"),
        (&m, b"\x04\x00\x00"),
        (&m, b"\x01\x00\x01\x07"),
        (&m, &encode_tree(&chain)),
    ];
    for (settings, tree) in given {
        lines.given(settings, tree);
        ask(lines);
    }
    let repeated: [(&[u8], usize, &[u8]); 2] = [
        (&[2, 0x06, 0x00], 512, &[1, 0, 0]),
        (&[1, 0x01, 0x8D], 397, b"a"),
    ];
    for (head, n, item) in repeated {
        lines.repeated(&m, head, n, item);
        ask(lines);
    }
}

/// This many random tables of a few bytes, and the places looked up in each.
pub fn random_tables(
    lines: &mut Lines,
    rng: &mut Rng,
    tables: usize,
    ask: fn(&mut Lines, &mut Rng, &judge::Read),
) {
    lines.title("Random tables");
    let mut left = tables;
    while left > 0 {
        let (settings, tree) = gen::table(rng, Margins::Half);
        let (settings, bytes) = (encode_settings(&settings), encode_tree(&tree));
        let sheet = judge::shown(&settings, &bytes);
        if let (Ok(read), true) = (sheet, tree.nodes() >= 5 && bytes.len() <= 200) {
            lines.given(&settings, &bytes);
            ask(lines, rng, &read);
            left -= 1;
        }
    }
}

/// Lists by hand: the readings' examples, about as many places as a list may have, some of 512 nodes, and all of a sheet with a blank leaf, over and over.
fn lists(lines: &mut Lines) {
    lines.title("Places together");
    lines.given(&encode_settings(&EDGED), &encode_tree(&figure_2()));
    lines.marks(0, 0, &[]);
    lines.marks(3, 3, &[(5, 7), (1, 2), (5, 7)]);
    lines.marks(9, 3, &[(5, 7), (1, 2), (5, 7)]);
    lines.marks(1, 2, &[(5, 7), (1, 2)]);
    lines.marks(0, 3, &[(5, 7), (0, 0), (9, 9)]);
    lines.marks(3, 3, &[(5, 7), (9, 9), (0, 0)]);
    lines.marks(1, 1, &[(FAR[0].0, FAR[0].0)]);
    for count in [255, 256, 257] {
        lines.marks(count, count, &[(1, 2)]);
        lines.marks(count - 1, count, &[(5, 11), (1, 2)]);
        lines.marks(0, count, &[(1, 2), (9, 9)]);
    }
    nodes_512(lines);
    let spread: Vec<(usize, usize)> = (0..40).map(|i| (4 * i % 15, 37 * i % 217)).collect();
    lines.marks(260, 256, &spread);
    blank(lines, Settings::M);
    let all: Vec<(usize, usize)> = (0..12).map(|i| (i / 4, i % 4)).collect();
    lines.marks(256, 256, &all);
}

/// A list of places inside the margin, and one in which a place is any, its numbers of 32 bits.
pub fn random_lists(lines: &mut Lines, rng: &mut Rng, read: &judge::Read) {
    for is_any in [false, true] {
        let count = rng.between(1, 12);
        let mut places = gen::insides(rng, read, count);
        if is_any {
            let (line, column) = gen::place(rng, read);
            places[rng.below(count)] = (line.min(FAR[0].0), column.min(FAR[0].0));
        }
        lines.marks(gen::around(rng, count), count, &places);
    }
}

/// The lines, about 150 places and 40 lists.
pub fn lines(seed: u64) -> String {
    let mut rng = Rng::new(seed);
    let mut lines = Lines::default();
    edges(&mut lines);
    blanks(&mut lines);
    refused_sheets(&mut lines, |lines| {
        lines.places(&[(0, 0), (9, 9), FAR[1]]);
    });
    random_tables(&mut lines, &mut rng, 10, |lines, rng, read| {
        (0..6).for_each(|_| lines.place(gen::place(rng, read)));
    });
    lists(&mut lines);
    refused_sheets(&mut lines, |lines| lines.marks(0, 257, &[(9, 9)]));
    random_tables(&mut lines, &mut rng, 10, random_lists);
    lines.text
}
