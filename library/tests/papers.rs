//! Question papers and keys (document 02, 14): the call on bytes and on values, what it leaves of a lent output, its refusals, and the sheets of alike trees.

use leg_sheet::calls::{self, print_sheet, save_draft};
use leg_sheet::{blank, Input, Refusal, Settings, Tree};

/// Column[`Q1: Vy?`, Row[`54 kt`, `6 s`]], and the same with its two answers blanked.
const KEY: &[u8; 30] =
    b"\x03\x00\x1B\x01\x00\x07Q1: Vy?\x02\x00\x0E\x01\x00\x0554 kt\x01\x00\x036 s";
const PAPER: &[u8; 30] =
    b"\x03\x00\x1B\x01\x00\x07Q1: Vy?\x02\x00\x0E\x01\x00\x05.....\x01\x00\x03...";

/// The figures' set M.
const M: &[u8; 31] = b"\x10\x00\x1C-_()hv123456789\x01\x01\x00\x00    \x00\x00\x00\x02\x02";

/// The bytes written, with this many lent; those past them stay, and a refusal leaves all.
fn blanked(tree: &[u8], nodes: &[u16], length: usize) -> Result<Vec<u8>, u8> {
    let mut out = vec![0xA5; length];
    let answer = calls::blank(tree, nodes, &mut out);
    let rest = out.split_off(answer.unwrap_or(0));
    assert!(rest.iter().all(|&byte| byte == 0xA5));
    answer.map(|_| out).map_err(Refusal::number)
}

#[test]
fn a_key_and_its_paper() {
    for nodes in [&[3, 4][..], &[4, 3], &[4, 4, 3, 4]] {
        for length in [30, 31, 99] {
            assert_eq!(blanked(KEY, nodes, length), Ok(PAPER.to_vec()));
        }
        assert_eq!(blanked(KEY, nodes, 29), Err(8));
        assert_eq!(blanked(KEY, nodes, 0), Err(8));
    }
    let one = b"\x03\x00\x1B\x01\x00\x07Q1: Vy?\x02\x00\x0E\x01\x00\x0554 kt\x01\x00\x03...";
    assert_eq!(blanked(KEY, &[4], 30), Ok(one.to_vec()));
    let all = b"\x03\x00\x1B\x01\x00\x07.......\x02\x00\x0E\x01\x00\x05.....\x01\x00\x03...";
    assert_eq!(blanked(KEY, &[], 30), Ok(all.to_vec()));
    assert_eq!(blanked(KEY, &[1, 3, 4], 30), Ok(all.to_vec()));
    assert_eq!(blanked(PAPER, &[3], 30), Ok(PAPER.to_vec()));
}

/// Feeds stay, every other byte of a text is a dot; what has no text stays whole.
#[test]
fn feeds_stay() {
    let row = b"\x02\x00\x0F\x01\x00\x05a\nbcd\x01\x00\x04\n~ \n";
    let dots = b"\x02\x00\x0F\x01\x00\x05.\n...\x01\x00\x04\n..\n";
    assert_eq!(blanked(row, &[], 18), Ok(dots.to_vec()));
    for tree in [b"\x01\x00\x00", b"\x02\x00\x00", b"\x03\x00\x00"] {
        assert_eq!(blanked(tree, &[], 3), Ok(tree.to_vec()));
    }
    assert_eq!(blanked(b"\x01\x00\x00", &[0], 3), Ok(vec![1, 0, 0]));
    let every: Vec<u8> = (0x20..=0x7E).collect();
    let cell = [b"\x01\x00\x5F", &every[..]].concat();
    let dotted = [b"\x01\x00\x5F", &[b'.'; 0x5F][..]].concat();
    assert_eq!(blanked(&cell, &[0; 600], cell.len()), Ok(dotted));
}

/// 9 for a group, also an empty one, and for a number past the last node; before 8, and after what is wrong with the tree.
#[test]
fn refusals() {
    let tree = b"\x03\x00\x0A\x02\x00\x00\x01\x00\x01a\x03\x00\x00";
    assert!(blanked(tree, &[2, 2], 13).is_ok());
    for node in [0, 1, 3, 4, 258, 514, 32_770, 65_535] {
        for nodes in [&[node][..], &[2, node], &[node, 2]] {
            for length in [0, 13, 20] {
                assert_eq!(blanked(tree, nodes, length), Err(9));
            }
        }
    }
    let many = [&b"\x02\x06\x00"[..], &b"\x01\x00\x00".repeat(512)].concat();
    let rows: Vec<[u8; 3]> = (1..=16).rev().map(|n| [2, 0, 3 * n]).collect();
    let deep = [rows.as_flattened(), b"\x01\x00\x00"].concat();
    let refused: [(&[u8], u8); 6] = [
        (b"", 2),
        (b"\x04\x00\x04\x01\x01\x01\x01", 2),
        (b"\x02\x00\x07\x01\x00\x00\x05\x00\x01a", 2),
        (b"\x02\x00\x07\x01\x00\x01\x7f\x05\x00\x00", 3),
        (&many, 4),
        (&deep, 5),
    ];
    for (tree, number) in refused {
        for nodes in [&[][..], &[0], &[65_535]] {
            assert_eq!(blanked(tree, nodes, 0), Err(number));
            assert_eq!(blanked(tree, nodes, 9999), Err(number));
        }
    }
}

/// The longest tree, and one of 512 nodes with every Cell named twice.
#[test]
fn the_greatest_trees() {
    let long = Tree::from("x".repeat(32_765));
    assert_eq!(blank(&long, &[]), Ok(Tree::from(".".repeat(32_765))));
    let longer = Tree::from("x".repeat(32_766));
    assert_eq!(blank(&longer, &[]), Err(Refusal::BadTree));
    let row = |text: &str| Tree::row(vec![text; 511]);
    let nodes: Vec<usize> = (1..512).chain((1..512).rev()).collect();
    assert_eq!(blank(&row("a\nb"), &nodes), Ok(row(".\n.")));
    assert_eq!(blank(&row("a"), &[512]), Err(Refusal::NoLeaf));
}

#[test]
fn values() {
    let test = |answer: &str| Tree::column(["2 + 2?", answer]);
    assert_eq!(blank(&test("4,\nfour"), &[2]), Ok(test("..\n....")));
    assert_eq!(blank(&test("4"), &[]), Ok(Tree::column(["......", "."])));
    for node in [0, 3, 65_538, usize::MAX] {
        assert_eq!(blank(&test("4"), &[2, node]), Err(Refusal::NoLeaf));
    }
    assert_eq!(blank(&test("\t"), &[9]), Err(Refusal::BadText));
    let input = Input {
        settings: b"no settings",
        tree: KEY,
    };
    assert_eq!(input.blank(&[3, 4]), Ok(PAPER.to_vec()));
}

/// The sheet of a tree, or its number, with this many bytes lent.
fn sheet(settings: &[u8], tree: &[u8], length: usize) -> Result<String, u8> {
    let mut out = vec![0; length];
    let count = print_sheet(settings, tree, &mut out).map_err(Refusal::number)?;
    out.truncate(count);
    Ok(String::from_utf8(out).expect("text"))
}

/// The sheets agree outside the texts' own bytes, here given by line, first column and count.
fn agree(settings: &[u8], trees: [&[u8]; 2], own: &[(usize, usize, usize)]) {
    let covered = trees.map(|tree| {
        let sheet = sheet(settings, tree, 999).expect("a sheet");
        let lines = sheet.split('\n').map(|line| line.as_bytes().to_vec());
        let mut lines: Vec<Vec<u8>> = lines.collect();
        for &(line, column, count) in own {
            lines[line][column..column + count].fill(0);
        }
        lines
    });
    assert_eq!(covered[0], covered[1]);
}

/// The examples of document 02's readings: with lines; without lines and with a margin; several lines and padding.
#[test]
fn sheets_agree_outside_the_texts() {
    agree(M, [KEY, PAPER], &[(1, 2, 7), (3, 2, 5), (3, 10, 3)]);
    let bare = [
        &b"\x10\x00\x1C"[..],
        &[0; 15],
        b"\x01\x01\x00\x00    \x02\x00\x01\x02\x02\x11\x00\x08\x01\x01\x00\x00lrtb",
    ]
    .concat();
    let row = b"\x02\x00\x0C\x01\x00\x05a\nbcd\x01\x00\x01e";
    let paper = blanked(row, &[], 15).expect("a paper");
    agree(&bare, [row, &paper], &[(0, 4, 1), (1, 2, 3), (0, 7, 1)]);
    let printed = Ok("l   .  . r\nl ...    r".to_string());
    assert_eq!(sheet(&bare, &paper, 21), printed);
    let padded = b"\x10\x00\x1C-_()hv123456789\x02\x01\x01\x00lrtb\x01\x00\x00\x02\x02";
    let key = b"\x03\x00\x19\x01\x00\x09ab cd\n\nxy\x01\x00\x0Aanswer: 17";
    let paper = b"\x03\x00\x19\x01\x00\x09.....\n\n..\x01\x00\x0Aanswer: ..";
    agree(padded, [key, paper], &[(2, 5, 5), (4, 5, 2), (7, 3, 10)]);
}

/// The sheet has 79 bytes, and a draft of 30 bytes takes 33.
#[test]
fn both_are_refused_alike() {
    for tree in [KEY, PAPER] {
        assert_eq!(sheet(M, tree, 78), Err(8));
        assert!(sheet(M, tree, 79).is_ok());
        let saved = save_draft(&mut [0; 32], b'A', tree);
        assert_eq!(saved, Err(Refusal::NoRoom));
        assert_eq!(save_draft(&mut [0; 33], b'A', tree), Ok(0));
    }
    let settings = Settings::default();
    let trees = [KEY, PAPER].map(|tree| Tree::from_bytes(tree).expect("a tree"));
    let sizes = trees.map(|tree| leg_sheet::sizes(&settings, &tree));
    assert_eq!(sizes[0], sizes[1]);
}
