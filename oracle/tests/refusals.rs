//! The judge against document 01's table and its order and document 02's margin, by hand; and what it accepts against what can be encoded.

use std::collections::HashSet;

use oracle::{encode_margin, encode_settings, encode_tree, gen, judge, Margin, Settings, Tree};

fn d() -> Vec<u8> {
    encode_settings(&Settings::D)
}

fn tight() -> Vec<u8> {
    encode_settings(&Settings {
        padding: [0; 4],
        ..Settings::D
    })
}

/// Elements one inside the other, the last with these contents.
fn nested(depth: usize, tag: u8, contents: &[u8]) -> Vec<u8> {
    (1..=depth).rev().fold(contents.to_vec(), |inside, level| {
        let tag = if level == depth { tag } else { 2 };
        let length = inside.len() as u16;
        [&[tag][..], &length.to_be_bytes(), &inside].concat()
    })
}

/// A Row of this many empty Cells and then these bytes.
fn row(cells: usize, rest: &[u8]) -> Vec<u8> {
    let inside = [&[1, 0, 0].repeat(cells)[..], rest].concat();
    nested(1, 2, &inside)
}

#[test]
fn the_forms() {
    let bytes = *b"\x10\x00\x1c--||-|+++++++++\x01\x01\x00\x00    \x00\x00\x00\x02\x02";
    assert_eq!(d(), bytes);
    assert_eq!(judge::read_settings(&bytes), Ok(Settings::D));
    let tree = Tree::Column(vec![
        Tree::Row(vec![Tree::cell("a"), Tree::Row(vec![])]),
        Tree::cell("b\n"),
    ]);
    let bytes = b"\x03\x00\x0f\x02\x00\x07\x01\x00\x01a\x02\x00\x00\x01\x00\x02b\n";
    assert_eq!(encode_tree(&tree), bytes);
    assert_eq!(judge::read_tree(bytes), Ok(tree));
}

#[test]
fn settings_out_of_form() {
    for length in 0..31 {
        assert_eq!(judge::settings(&d()[..length]), 1);
    }
    assert_eq!(judge::settings(&d()), 0);
    assert_eq!(judge::settings(&[&d()[..], &[0]].concat()), 1);

    // Every byte at every place.
    for at in 0..31 {
        for byte in 0..=255u8 {
            let mut bytes = d();
            bytes[at] = byte;
            let is_good = match at {
                0 => byte == 0x10,
                1 => byte == 0,
                2 => byte == 28,
                3..=17 | 22..=25 => (0x20..=0x7E).contains(&byte),
                18..=21 => byte <= 16,
                28 => byte <= 1,
                _ => byte <= 2,
            };
            assert_eq!(judge::settings(&bytes), u8::from(!is_good), "{at} {byte}");
        }
    }
}

/// D and a margin.
fn edged() -> Vec<u8> {
    encode_settings(&Settings {
        margin: Margin {
            sizes: [1, 0, 2, 16],
            fills: *b"lrtb",
        },
        ..Settings::D
    })
}

#[test]
fn margins_out_of_form() {
    let long = [&edged()[..], &edged()[31..]].concat();
    for length in 0..=long.len() {
        let is_good = length == 31 || length == 42;
        assert_eq!(judge::settings(&long[..length]), u8::from(!is_good));
    }

    // Every byte at every place of the second field, and of the first before it.
    assert_eq!(judge::settings(&edged()), 0);
    for at in 0..42 {
        for byte in 0..=255u8 {
            let mut bytes = edged();
            bytes[at] = byte;
            let is_good = match at {
                31 => byte == 0x11,
                32 => byte == 0,
                33 => byte == 8,
                34..=37 => byte <= 16,
                38..=41 => (0x20..=0x7E).contains(&byte),
                _ => judge::settings(&bytes[..31]) == 0,
            };
            assert_eq!(judge::settings(&bytes), u8::from(!is_good), "{at} {byte}");
        }
    }

    // Without the field, and with one that says the same.
    let none = [&d()[..], &encode_margin(&Margin::NONE)].concat();
    assert_eq!(judge::read_settings(&none), Ok(Settings::D));
    assert_eq!(judge::settings(&[&edged()[31..], &d()[..]].concat()), 1);
}

/// Document 02's field in the sheet program's input, behind M: what is settings and what tree, and the number.
#[test]
fn the_program_splits_its_input() {
    let m = encode_settings(&Settings::M);
    let tree = b"\x01\x00\x02ab";
    let left = b"\x11\x00\x08\x01\x00\x00\x00lrtb";
    let number = |rest: &[&[u8]], settings: usize| {
        let input = [&m[..], &rest.concat()].concat();
        let (front, back) = judge::split(&input);
        assert_eq!(
            (front.len(), [front, back].concat()),
            (settings, input.clone())
        );
        judge::sheet(front, back, usize::MAX)
    };
    assert_eq!(number(&[tree], 31), 0);
    assert_eq!(number(&[left, tree], 42), 0);
    // Cut after its tag, and before its last byte.
    assert_eq!(number(&[&left[..1]], 32), 1);
    assert_eq!(number(&[&left[..10]], 41), 1);
    // Filled up with bytes of the tree.
    assert_eq!(number(&[&left[..9], tree], 42), 1);
    // A whole field and no tree.
    assert_eq!(number(&[left], 42), 2);
    // An element of tag 11 in the tree's place, and one of tag 12.
    assert_eq!(number(&[b"\x11\x00\x00"], 34), 1);
    assert_eq!(number(&[b"\x12", &left[1..], tree], 31), 2);
    // The second of two fields is tree bytes.
    assert_eq!(number(&[left, left, tree], 42), 2);
    // Lengths, sizes and fills out of range, the last one before a bad tree.
    for field in [
        b"\x11\x00\x07\x01\x00\x00\x00lrtb",
        b"\x11\x01\x08\x01\x00\x00\x00lrtb",
        b"\x11\x00\x08\x11\x00\x00\x00lrtb",
        b"\x11\x00\x08\x00\x00\x00\x00   \x1f",
        b"\x11\x00\x08\x01\x00\x00\x00\x7f   ",
    ] {
        assert_eq!(number(&[field, tree], 42), 1, "{field:?}");
    }
    let right = b"\x11\x00\x08\x00\x11\x00\x00lrtb";
    assert_eq!(number(&[right, tree, b"x"], 42), 1);

    // Fewer bytes than the first field has, whatever they are.
    let short = [0x11; 31];
    for length in 0..=31 {
        assert_eq!(judge::split(&short[..length]), (&short[..length], &[][..]));
    }
}

#[test]
fn trees_out_of_form() {
    for (tree, number) in [
        (&b""[..], 2),
        (b"\x01", 2),
        (b"\x01\x00", 2),
        (b"\x01\x00\x00", 0),
        (b"\x00\x00\x00", 2),
        (b"\x04\x00\x00", 2),
        (b"\x01\x00\x01", 2),
        (b"\x01\x00\x00a", 2),
        (b"\x01\x00\x01a", 0),
        (b"\x01\x01\x00a", 2),
        (b"\x01\x00\x01\x7e", 0),
        (b"\x01\x00\x01\x7f", 3),
        (b"\x01\x00\x01\x1f", 3),
        (b"\x01\x00\x01\x20", 0),
        (b"\x01\x00\x01\x0a", 0),
        (b"\x01\x00\x01\x0d", 3),
        (b"\x01\x00\x01\x80", 3),
        (b"\x02\x00\x01\x01", 2),
        (b"\x02\x00\x02\x01\x00", 2),
        (b"\x02\x00\x03\x01\x00\x00", 0),
        // A child past its container's end, though within the input.
        (b"\x02\x00\x07\x02\x00\x03\x01\x00\x01a", 2),
        (b"\x02\x00\x07\x02\x00\x04\x01\x00\x01a", 0),
    ] {
        assert_eq!(judge::tree(tree), number, "{tree:?}");
    }
}

#[test]
fn the_first_fault_in_node_order() {
    // A forbidden text before a tag, and behind it.
    let (text, tag) = (&b"\x01\x00\x01\x07"[..], &b"\x07\x00\x00"[..]);
    let cell = b"\x01\x00\x00";
    assert_eq!(judge::tree(&row(0, &[text, tag].concat())), 3);
    assert_eq!(judge::tree(&row(0, &[tag, text].concat())), 2);
    assert_eq!(judge::tree(&row(0, &[text, &[1]].concat())), 3);
    // The root's end and the tree's length come at node 0.
    assert_eq!(judge::tree(&[&row(0, text)[..], &[0]].concat()), 2);
    assert_eq!(judge::tree(&nested(1, 1, &[7; 32_765])), 3);
    assert_eq!(judge::tree(&nested(1, 1, &[7; 32_766])), 2);

    // At one element 2, 5, 4, then 3.
    assert_eq!(judge::tree(&nested(16, 1, b"")), 0);
    assert_eq!(judge::tree(&nested(16, 1, b"\x07")), 3);
    assert_eq!(judge::tree(&nested(17, 1, b"\x07")), 5);
    assert_eq!(judge::tree(&nested(17, 7, b"")), 2);
    assert_eq!(judge::tree(&nested(16, 2, b"\x01")), 2);
    assert_eq!(judge::tree(&nested(16, 3, b"")), 0);
    assert_eq!(judge::tree(&row(511, b"")), 0);
    assert_eq!(judge::tree(&row(511, cell)), 4);
    assert_eq!(judge::tree(&row(511, text)), 4);
    assert_eq!(judge::tree(&row(511, tag)), 2);
    assert_eq!(judge::tree(&row(511, b"\x01\x00")), 2);
    assert_eq!(judge::tree(&row(510, text)), 3);
    assert_eq!(judge::tree(&row(510, &[text, cell].concat())), 3);

    // Depth 17 and node 513 in one element: 496 Cells, then a chain whose last element is both.
    let chain = nested(16, 1, b"");
    let both = row(496, &chain);
    assert_eq!(judge::tree(&row(495, &nested(15, 1, b""))), 0);
    assert_eq!(judge::tree(&both), 5);
    assert_eq!(judge::tree(&row(497, &nested(15, 1, b""))), 4);
}

#[test]
fn calls_check_in_table_order() {
    let cell = |letters: usize| encode_tree(&Tree::Cell(vec![b'a'; letters]));
    let bad = b"\x01\x00\x01\x07";
    let (d, tight) = (d(), tight());

    assert_eq!(judge::sizes(b"", bad, 0), 1);
    assert_eq!(judge::sizes(&d, bad, 0), 3);
    assert_eq!(judge::sizes(&d, &cell(397), 0), 8);
    assert_eq!(judge::sizes(&d, &cell(397), 1), 0);

    assert_eq!(judge::leaf_record(b"", bad, 9), 1);
    assert_eq!(judge::leaf_record(&d, bad, 9), 3);
    assert_eq!(judge::leaf_record(&d, &cell(397), 9), 6);
    assert_eq!(judge::leaf_record(&d, &cell(396), 9), 9);
    assert_eq!(judge::leaf_record(&d, &cell(396), 0), 0);

    assert_eq!(judge::leaf(&d, &cell(397), 9, 0), 6);
    assert_eq!(judge::leaf(&d, &cell(396), 9, 0), 9);
    assert_eq!(judge::leaf(&d, &cell(2), 0, 19), 8);
    assert_eq!(judge::leaf(&d, &cell(2), 0, 20), 0);
    assert_eq!(judge::leaf(&tight, &cell(0), 0, 7), 8);
    assert_eq!(judge::leaf(&tight, &cell(0), 0, 8), 0);

    // A zero-wide leaf in a sheet that is too wide, and in one that fits.
    let with_empty = |letters: usize| {
        let letters = Tree::Cell(vec![b'a'; letters]);
        encode_tree(&Tree::Row(vec![Tree::cell(""), letters]))
    };
    assert_eq!(judge::sheet(&tight, &with_empty(398), 0), 6);
    assert_eq!(judge::sheet(&tight, &with_empty(397), 1201), 8);
    assert_eq!(judge::sheet(&tight, &with_empty(397), 1202), 0);
    // Its marks are 5 bytes, and the block beside it has 11.
    for (node, bytes) in [(1, 5), (2, 11)] {
        assert_eq!(judge::leaf(&tight, &with_empty(1), node, bytes - 1), 8);
        assert_eq!(judge::leaf(&tight, &with_empty(1), node, bytes), 0);
    }
    assert_eq!(judge::sheet(&d, &cell(2), 19), 8);
    assert_eq!(judge::sheet(&d, &cell(2), 20), 0);
    // 'Number names no leaf': the Row itself.
    assert_eq!(judge::leaf_record(&tight, &with_empty(1), 0), 9);
    assert_eq!(judge::leaf_record(&tight, &with_empty(1), 1), 0);
    assert_eq!(judge::leaf_record(&tight, &with_empty(1), 3), 9);

    assert_eq!((judge::cut(512), judge::cut(513)), (0, 10));
    assert_eq!(judge::lent_cut(512, 512, &[(3, 3), (5, 5)]), 0);
    assert_eq!(judge::lent_cut(513, 513, &[(4, 3), (6, 5)]), 10);
    // 8 comes before 10.
    for count in [4, 513, usize::MAX] {
        assert_eq!(judge::lent_cut(count, count - 1, &[(3, 3)]), 8);
        assert_eq!(judge::lent_cut(count, count, &[(3, 3), (4, 5)]), 8);
    }
    assert_eq!(judge::share(0, 0), 11);
    assert_eq!(judge::share(3, 3), 11);
    assert_eq!(judge::share(3, 2), 0);
}

/// Of all short byte strings over a few bytes, those accepted are the trees' forms, and reading is the reverse of encoding.
#[test]
fn what_is_accepted() {
    const LENGTH: usize = 7;
    let trees = gen::short_trees(LENGTH);
    let forms: HashSet<Vec<u8>> = trees.iter().map(encode_tree).collect();
    assert_eq!(forms.len(), trees.len());
    for tree in &trees {
        assert_eq!(judge::read_tree(&encode_tree(tree)), Ok(tree.clone()));
    }

    let mut accepted = 0;
    for bytes in gen::short_bytes(LENGTH) {
        let is_good = judge::tree(&bytes) == 0;
        assert_eq!(is_good, forms.contains(&bytes), "{bytes:?}");
        accepted += usize::from(is_good);
    }
    assert_eq!(accepted, forms.len());
}
