//! The calls on lent buffers by themselves: figure F1 of document 01, with lines and without, refusals, what they leave of a lent output, where the pair of a cut is, the leaves of
//! places, a list folded, a sheet planned, the letters that widen it, and priorities that no settings have.

use leg_sheet::calls::{
    fold, leaf_record, place, places, plan, print_leaf, print_sheet, read_margin, read_settings,
    read_tree, share, short_splits, short_splits3, short_splits3_lent, sizes, widen, CELLS, CUT,
    ENDS, FOUND, LENT_CUT, LIST, MARGIN, NODES, PLACE, RECORD, SETTINGS, SIZES,
};
use leg_sheet::{Place, Refusal};

/// The figures' set D: the default marks, List stated.
const D: &[u8; 31] = b"\x10\x00\x1C--||-|+++++++++\x01\x01\x00\x00    \x00\x00\x00\x02\x02";
/// The tree of F1: Cell `ab`.
const AB: &[u8] = b"\x01\x00\x02ab";
const F1: &[u8] = b"+----+\n| ab |\n+----+";
/// What a lent output holds before a call.
const LENT: [u8; 24] = *b"abcdefghijklmnopqrstuvwx";

#[test]
fn prints_and_keeps_the_rest() {
    let mut output = LENT;
    assert_eq!(print_sheet(D, AB, &mut output), Ok(20));
    assert_eq!(output[..20], *F1);
    assert_eq!(output[20..], LENT[20..]);
}

#[test]
fn refuses_and_writes_nothing() {
    let refused = |settings: &[u8], tree: &[u8], length: usize| {
        let mut output = LENT;
        let answer = print_sheet(settings, tree, &mut output[..length]);
        assert_eq!(output, LENT);
        answer.expect_err("a refusal").number()
    };
    assert_eq!(refused(b"", AB, 24), 1);
    assert_eq!(refused(D, b"", 24), 2);
    assert_eq!(refused(D, b"\x01\x00\x01\x09", 24), 3);
    assert_eq!(refused(D, AB, 19), 8);
}

/// D without lines: fifteen zeros as marks.
fn bare() -> [u8; 31] {
    let mut bare = *D;
    bare[3..18].fill(0);
    bare
}

#[test]
fn reads_settings() {
    for settings in [*D, bare()] {
        let mut numbers = [0xA5A5; SETTINGS + 1];
        assert_eq!(read_settings(&settings, &mut numbers), Ok(SETTINGS));
        let bytes = settings[3..].iter().map(|&byte| byte.into());
        assert_eq!(
            numbers.to_vec(),
            bytes.chain([0xA5A5]).collect::<Vec<u16>>()
        );
    }
}

/// Without lines a sheet may have no bytes, and no byte is then needed.
#[test]
fn prints_without_lines() {
    let mut output = LENT;
    assert_eq!(print_sheet(&bare(), AB, &mut output), Ok(4));
    assert_eq!(output[..4], *b" ab ");
    assert_eq!(output[4..], LENT[4..]);
    let short = &mut output[..3];
    assert_eq!(print_sheet(&bare(), AB, short), Err(Refusal::TooShort));
    let mut tight = bare();
    tight[18..20].fill(0);
    let empty = b"\x01\x00\x00";
    assert_eq!(print_sheet(&tight, empty, &mut []), Ok(0));
    assert_eq!(print_leaf(&tight, empty, 0, &mut []), Ok(0));
}

/// The eight numbers of the field, or those of none; the numbers past them stay, and a refusal leaves all.
#[test]
fn reads_the_margin() {
    let field = b"\x11\x00\x08\x01\x02\x03\x10lr~ ";
    let with = [&D[..], field].concat();
    let read = |settings: &[u8], length: usize| {
        let mut numbers = [0xA5A5; MARGIN + 1];
        let answer = read_margin(settings, &mut numbers[..length]);
        (answer.map_err(Refusal::number), numbers.to_vec())
    };
    let written = |eight: &[u8]| {
        let numbers = eight.iter().map(|&byte| byte.into());
        (Ok(MARGIN), numbers.chain([0xA5A5]).collect::<Vec<u16>>())
    };
    let refused = |number: u8| (Err(number), vec![0xA5A5; MARGIN + 1]);
    assert_eq!(read(&with, 9), written(&field[3..]));
    assert_eq!(read(&with, 8), written(&field[3..]));
    assert_eq!(read(D, 9), written(b"\x00\x00\x00\x00    "));
    assert_eq!(read(&with, 7), refused(8));
    assert_eq!(read(&with[..41], 9), refused(1));
    assert_eq!(read(b"", 7), refused(1));

    // The first field's numbers are the same with the margin.
    let (mut one, mut other) = ([0; SETTINGS], [0; SETTINGS]);
    assert_eq!(read_settings(&with, &mut one), Ok(SETTINGS));
    assert_eq!(read_settings(D, &mut other), Ok(SETTINGS));
    assert_eq!(one, other);
}

/// Five numbers a node, the last of them the nodes below it; a number less than that is refused and leaves all.
#[test]
fn sizes_have_the_nodes_below() {
    let row = b"\x02\x00\x08\x01\x00\x01a\x01\x00\x01b";
    let read = |length: usize| {
        let mut list = [0xA5A5; 3 * SIZES + 1];
        let answer = sizes(D, row, &mut list[..length]);
        (answer.map_err(Refusal::number), list)
    };
    let written = [7, 1, 7, 1, 2, 3, 1, 3, 1, 0, 3, 1, 3, 1, 0, 0xA5A5];
    assert_eq!(read(16), (Ok(3), written));
    assert_eq!(read(15), (Ok(3), written));
    assert_eq!(read(14), (Err(8), [0xA5A5; 16]));
    assert_eq!(read(12), (Err(8), [0xA5A5; 16]));
}

/// The pair, 3 taken and 8 left, behind yes or no; then the lists, or the count left and the list taken.
#[test]
fn cuts_say_their_pair() {
    let pieces = [1, 1, 1, 9];
    let mut out = [0xA5A5; CUT + 1];
    assert_eq!(short_splits3(&pieces, 4, 6, &mut out), Ok(1029));
    assert_eq!(out[..8], [0, 3, 8, 3, 1, 1, 1, 0]);
    assert_eq!(out[3 + LIST..][..3], [1, 8, 0]);
    assert_eq!(out[CUT - 1..], [0, 0xA5A5]);

    let mut lent = pieces;
    let mut out = [0xA5A5; LENT_CUT + 1];
    assert_eq!(short_splits3_lent(&mut lent, 4, 6, &mut out), Ok(517));
    assert_eq!(out[..9], [0, 3, 8, 1, 3, 1, 1, 1, 0]);
    assert_eq!(out[LENT_CUT - 1..], [0, 0xA5A5]);
    assert_eq!(lent, [8, 0, 0, 0]);
}

/// A list that is too short is 8, whatever the count; then a count over 512 is 10. Both leave all.
#[test]
fn cuts_are_refused_in_order() {
    const LENT: u32 = 0xA5A5_A5A5;
    // Of each cut, lent this many pieces and one number less than it writes or as many: the number.
    let refused = |count: usize, held: usize, less: usize| {
        let (mut pieces, mut out) = (vec![0xA5A5; held], [0xA5A5; CUT]);
        let three = short_splits3(&pieces, count, 6, &mut out[..CUT - less]);
        let lent = short_splits3_lent(&mut pieces, count, 6, &mut out[..LENT_CUT - less]);
        let mut positions = [LENT; LIST];
        let left = &mut out[..LIST];
        let one = short_splits(&pieces, count, 6, &mut positions[..LIST - less], left);
        let left = &mut out[..LIST - less];
        let other = short_splits(&pieces, count, 6, &mut positions, left);
        assert!(pieces.iter().chain(&out).all(|&number| number == 0xA5A5));
        assert_eq!(positions, [LENT; LIST]);
        [three, lent, one, other].map(|answer| answer.expect_err("a refusal").number())
    };
    for (count, held) in [(4, 3), (512, 511), (513, 512), (usize::MAX, 600)] {
        assert_eq!(refused(count, held, 0), [8; 4]);
        assert_eq!(refused(count, held, 1), [8; 4]);
    }
    for (count, held) in [(4, 4), (512, 600), (513, 513), (600, 600)] {
        assert_eq!(refused(count, held, 1), [8; 4]);
    }
    for (count, held) in [(513, 513), (513, 600), (65_536, 65_536)] {
        assert_eq!(refused(count, held, 0), [10; 4]);
    }
}

/// Column[Row[`a`, `b`, `c`], Row[``, `efghijk`]], node 7, whose Row cuts 1 3 3 at 9 for it: the pair, 2 taken and none left, is behind the
/// flags, before the lists 1 3 and 1.
#[test]
fn a_record_has_its_pair() {
    let tree = b"\x03\x00\x1F\x02\x00\x0C\x01\x00\x01a\x01\x00\x01b\x01\x00\x01c\x02\x00\x0D\x01\x00\x00\x01\x00\x07efghijk";
    let mut out = [0xA5A5; RECORD + 1];
    assert_eq!(leaf_record(D, tree, 7, &mut out), Ok(1039));
    assert_eq!(out[..3], [7, 9, 1]);
    assert_eq!(out[11..17], [2, 0, 2, 1, 3, 0]);
    assert_eq!(out[13 + LIST..][..3], [1, 1, 0]);
    assert_eq!(out[RECORD - 1..], [0, 0xA5A5]);
}

/// The three numbers of a place, and one that stays; 8 comes after 12 and 13, and a refusal leaves all.
#[test]
fn a_place_has_its_leaf() {
    let edged = [&D[..], b"\x11\x00\x08\x02\x01\x01\x01lrtb"].concat();
    let row = b"\x02\x00\x08\x01\x00\x01a\x01\x00\x01b";
    let read = |settings: &[u8], line: usize, column: usize, length: usize| {
        let mut out = [0xA5A5; PLACE + 1];
        let answer = place(settings, row, line, column, &mut out[..length]);
        (answer.map_err(Refusal::number), out)
    };
    let refused = |number: u8| (Err(number), [0xA5A5; PLACE + 1]);
    for length in [PLACE, PLACE + 1] {
        assert_eq!(read(D, 1, 6, length), (Ok(3), [2, 1, 2, 0xA5A5]));
        assert_eq!(read(&edged, 2, 8, length), (Ok(3), [2, 1, 2, 0xA5A5]));
    }
    assert_eq!(read(D, 1, 6, 2), refused(8));
    assert_eq!(read(&edged, 0, 8, 2), refused(13));
    for far in [9, 65_536, u32::MAX as usize, 1 << 32, usize::MAX] {
        assert_eq!(read(D, 1, far, 2), refused(12));
        assert_eq!(read(&edged, far, 0, 4), refused(12));
        assert_eq!(read(&edged[..41], far, far, 4), refused(1));
    }
}

/// The forms of the header: a place is its line × 2^32 + its column, an answer node × 2^32 + line × 2^16 + column. What is past the answers stays; a refusal leaves
/// the answers and the elements read. 8 comes last.
#[test]
fn places_have_their_leaves() {
    const LENT: u64 = 0xA5A5_A5A5_A5A5_A5A5;
    let row = b"\x02\x00\x08\x01\x00\x01a\x01\x00\x01b";
    let read = |list: &[u64], length: usize| {
        let (mut answers, mut read) = ([LENT; 4], LENT);
        let answer = places(D, row, list, &mut answers[..length], &mut read);
        (answer.map_err(Refusal::number), answers, read)
    };
    let refused = |number: u8| (Err(number), [LENT; 4], LENT);
    let (b, a) = ((1 << 32) + 6, 2 << 32);
    let (in_b, in_a) = ((2 << 32) + (1 << 16) + 2, (1 << 32) + (2 << 16));
    assert_eq!(read(&[b, a, b], 4), (Ok(3), [in_b, in_a, in_b, LENT], 3));
    assert_eq!(read(&[b, a, b], 3), (Ok(3), [in_b, in_a, in_b, LENT], 3));
    assert_eq!(read(&[], 0), (Ok(0), [LENT; 4], 3));
    assert_eq!(read(&[b, a], 1), refused(8));
    assert_eq!(read(&[b, 3 << 32], 0), refused(12));
    assert_eq!(read(&[u64::MAX], 4), refused(12));
    assert_eq!(read(&[u64::MAX; 257], 0), refused(14));
}

/// A line or column past 32 bits is put as the greatest number of them, and not as what is left of it there.
#[test]
fn a_place_is_one_number() {
    let number = |line: usize, column: usize| Place { line, column }.to_number();
    const MOST: u64 = u32::MAX as u64;
    assert_eq!(number(0, 0), 0);
    assert_eq!(number(5, 7), 5 * (1 << 32) + 7);
    assert_eq!(number(u32::MAX as usize, 1), (MOST << 32) + 1);
    assert_eq!(number(1 << 32, 1), (MOST << 32) + 1);
    assert_eq!(number(1, (1 << 32) + 1), (1 << 32) + MOST);
    assert_eq!(number(usize::MAX, usize::MAX), u64::MAX);
}

/// Column[`a`, `b`, `c`, `d`, `e`]: the cells of each Column, then height, tries and miss; what is past the Columns stays, and a refusal leaves all. 8 comes last.
#[test]
fn a_list_is_folded() {
    let list = b"\x03\x00\x14\x01\x00\x01a\x01\x00\x01b\x01\x00\x01c\x01\x00\x01d\x01\x00\x01e";
    let read = |settings: &[u8], tree: &[u8], width: usize, budget: usize, length: usize| {
        let (mut columns, mut found) = ([0xA5A5; 4], [0xA5A5; FOUND]);
        let lent = &mut columns[..length];
        let answer = fold(settings, tree, width, budget, lent, &mut found);
        (answer.map_err(Refusal::number), columns, found)
    };
    let refused = |number: u8| (Err(number), [0xA5A5; 4], [0xA5A5; FOUND]);
    let three = (Ok(3), [2, 2, 1, 0xA5A5], [3, 8, 0]);
    assert_eq!(read(D, list, 11, 99, 4), three);
    assert_eq!(read(D, list, 11, usize::MAX, 3), three);
    let early = (Ok(2), [3, 2, 0xA5A5, 0xA5A5], [6, 3, 5]);
    assert_eq!(read(D, list, 11, 3, 4), early);
    let one = (Ok(1), [5, 0xA5A5, 0xA5A5, 0xA5A5], [9, 0, 8]);
    assert_eq!(read(D, list, usize::MAX, 0, 1), one);

    assert_eq!(read(D, list, 11, 99, 2), refused(8));
    assert_eq!(read(D, list, 3, 0, 0), refused(8));
    assert_eq!(read(D, list, 2, 0, 0), refused(16));
    assert_eq!(read(D, AB, 0, 0, 0), refused(15));
    assert_eq!(read(D, &list[..22], 0, 0, 0), refused(2));
    assert_eq!(read(&D[..30], b"", 0, 0, 0), refused(1));
}

/// As many Cells as a list may have, each in a Column of its own, and one more.
#[test]
fn a_list_has_200_cells() {
    let list = |head: &[u8], cells: usize| [head, &b"\x01\x00\x00".repeat(cells)].concat();
    let (mut columns, mut found) = ([0; CELLS], [0; FOUND]);
    let most = list(b"\x03\x02\x58", 200);
    let more = list(b"\x03\x02\x5B", 201);
    assert_eq!(fold(D, &most, 599, 398, &mut columns, &mut found), Ok(200));
    assert_eq!((columns, found), ([1; CELLS], [1, 398, 0]));
    let refused = fold(D, &more, 599, 398, &mut columns, &mut found);
    assert_eq!(refused, Err(Refusal::NotAList));
}

/// A text of 2 to 5 columns and 1 to 3 lines.
const RANGE: &[u8] = b"\x04\x00\x04\x02\x05\x01\x03";

/// The ends of a range alone, with a margin, and of 511 greatest ones; a refusal leaves all.
#[test]
fn a_sheet_is_planned() {
    let edged = [&D[..], b"\x11\x00\x08\x01\x02\x03\x04lrtb"].concat();
    let read = |settings: &[u8], tree: &[u8]| {
        let mut ends = [0xA5A5; ENDS];
        let answer = plan(settings, tree, &mut ends);
        (answer.map_err(Refusal::number), ends)
    };
    let refused = |number: u8| (Err(number), [0xA5A5; ENDS]);
    assert_eq!(read(D, RANGE), (Ok(4), [6, 9, 3, 5]));
    assert_eq!(read(&edged, RANGE), (Ok(4), [9, 12, 10, 12]));
    assert_eq!(read(D, AB), (Ok(4), [6, 6, 3, 3]));
    let greatest = b"\x04\x00\x04\xFF\xFF\xFF\xFF".repeat(511);
    let row = [b"\x02\x0D\xF9", &greatest[..]].concat();
    assert_eq!(read(D, &row), (Ok(4), [131_839, 131_839, 257, 257]));

    assert_eq!(read(&D[..30], RANGE), refused(1));
    assert_eq!(read(D, &RANGE[..6]), refused(2));
    assert_eq!(read(D, b"\x04\x00\x03\x00\x00\x01"), refused(2));
    assert_eq!(read(D, b"\x01\x00\x01\x09"), refused(3));
    assert_eq!(read(D, b"\x04\x00\x04\x03\x02\x01\x01"), refused(17));
    assert_eq!(read(D, b"\x04\x00\x04\x00\x00\x02\x01"), refused(17));
    assert_eq!(read(D, b"\x04\x00\x04\x00\x00\x00\x01"), refused(17));
    // The first fault in node order.
    let (bad, tab) = (
        &b"\x04\x00\x04\x03\x02\x01\x01"[..],
        &b"\x01\x00\x01\x09"[..],
    );
    let row = |elements: [&[u8]; 2]| [b"\x02\x00\x0B", &elements.concat()[..]].concat();
    assert_eq!(read(D, &row([bad, tab])), refused(17));
    assert_eq!(read(D, &row([tab, bad])), refused(3));
}

/// Every other call refuses a range with 2.
#[test]
fn a_range_is_no_tree() {
    let (mut bytes, mut numbers, mut read) = ([0; 99], [0; RECORD], 0);
    let (mut found, mut letters) = ([0; FOUND], [0; 9]);
    for answer in [
        read_tree(RANGE),
        sizes(D, RANGE, &mut numbers),
        leaf_record(D, RANGE, 0, &mut numbers),
        print_leaf(D, RANGE, 0, &mut bytes),
        print_sheet(D, RANGE, &mut bytes),
        place(D, RANGE, 0, 0, &mut numbers),
        places(D, RANGE, &[], &mut [], &mut read),
        fold(D, RANGE, 9, 9, &mut numbers, &mut found),
        widen(D, RANGE, &mut numbers, &mut letters),
    ] {
        assert_eq!(answer, Err(Refusal::BadTree));
    }
}

/// Column[`abc`, ``, Row[`a`, `b`]]: the nodes and the letters, the fewest first; what is past the Cells stays in both lists, and a refusal leaves all. 8 comes last.
#[test]
fn cells_widen_the_sheet() {
    let tree = b"\x03\x00\x14\x01\x00\x03abc\x01\x00\x00\x02\x00\x08\x01\x00\x01a\x01\x00\x01b";
    const LENT: u32 = 0xA5A5_A5A5;
    let read = |settings: &[u8], tree: &[u8], lent: (usize, usize)| {
        let (mut nodes, mut letters) = ([0xA5A5; 6], [LENT; 6]);
        let (list, numbers) = (&mut nodes[..lent.0], &mut letters[..lent.1]);
        let answer = widen(settings, tree, list, numbers);
        (answer.map_err(Refusal::number), nodes, letters)
    };
    let refused = |number: u8| (Err(number), [0xA5A5; 6], [LENT; 6]);
    let (nodes, letters) = ([4, 5, 1, 2, 0xA5A5, 0xA5A5], [1, 1, 3, 6, LENT, LENT]);
    for lent in [(4, 4), (6, 4), (4, 5), (6, 6)] {
        assert_eq!(read(D, tree, lent), (Ok(4), nodes, letters));
    }
    let none = (Ok(0), [0xA5A5; 6], [LENT; 6]);
    assert_eq!(read(D, b"\x02\x00\x00", (0, 0)), none);

    for lent in [(3, 4), (4, 3), (0, 6), (6, 0)] {
        assert_eq!(read(D, tree, lent), refused(8));
    }
    assert_eq!(read(D, b"\x01\x00\x01\x09", (0, 0)), refused(3));
    assert_eq!(read(D, &tree[..22], (0, 0)), refused(2));
    assert_eq!(read(&D[..30], b"", (0, 0)), refused(1));
}

/// As many Cells as there may be, each as near as the others, in a sheet too wide to be printed.
#[test]
fn a_tree_has_511_cells() {
    let row = [b"\x02\x05\xFD", &b"\x01\x00\x00".repeat(511)[..]].concat();
    let (mut nodes, mut letters) = ([0; NODES], [0; NODES]);
    assert_eq!(widen(D, &row, &mut nodes, &mut letters), Ok(511));
    assert!(nodes[..511].iter().copied().eq(1..=511));
    assert_eq!((letters[0], letters[510], letters[511]), (1, 1, 0));
    let refused = widen(D, &row, &mut nodes, &mut letters[..510]);
    assert_eq!(refused, Err(Refusal::TooShort));
}

/// The header: 'Priority 0 is First, 1 Last, every number over 1 List.'
#[test]
fn every_priority_shares() {
    for priority in 0..=255 {
        let part = |index: usize| {
            let mut part = 0xA5A5;
            assert_eq!(share(7, 3, priority, index, &mut part), Ok(0));
            part
        };
        let parts = match priority {
            0 => [7, 0, 0],
            1 => [0, 0, 7],
            _ => [3, 2, 2],
        };
        assert_eq!([0, 1, 2].map(part), parts, "priority {priority}");
    }
}

#[test]
fn no_child_leaves_the_part() {
    for (n, index) in [(0, 0), (3, 3)] {
        let mut part = 0xA5A5;
        assert_eq!(share(7, n, 2, index, &mut part), Err(Refusal::NoChild));
        assert_eq!(part, 0xA5A5);
    }
}
