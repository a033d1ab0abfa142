//! Document 02, 14: alike trees, the texts' own bytes of their sheets, and trees with their texts blanked.

use oracle::blanking::{are_alike, blanked, without_texts};
use oracle::calls::{Calls, Counted};
use oracle::gen::{self, alike, Margins, Rng};
use oracle::paper::{self, Own};
use oracle::sides::{Original, Paper};
use oracle::{encode_settings, encode_tree, judge, original, Settings, Tree};

/// Bytes written in hex.
fn hex(text: &str) -> Vec<u8> {
    let byte = |word: &str| u8::from_str_radix(word, 16).expect("two hex digits");
    text.split_whitespace().map(byte).collect()
}

/// The sheet of both sides, with this many bytes lent.
fn sheet(settings: &[u8], tree: &[u8], length: usize) -> Result<String, u8> {
    let run = |side: &mut dyn Calls| {
        let mut output = vec![0; length];
        let answer = side.sheet(settings, tree, &mut output);
        (answer.number, output[..answer.count].to_vec())
    };
    let (number, bytes) = run(&mut Original::default());
    assert_eq!(run(&mut Paper::default()), (number, bytes.clone()));
    let text = String::from_utf8(bytes).expect("text");
    if number == 0 {
        Ok(text)
    } else {
        Err(number)
    }
}

/// A place of each text line, and its count.
fn places(own: &[Own]) -> Vec<(usize, usize, usize)> {
    own.iter()
        .map(|own| (own.line, own.column, own.bytes.len()))
        .collect()
}

/// What is printed, with `#` instead of each of the texts' own bytes, which must be those of the lines.
fn covered(sheet: &str, own: &[Own]) -> Vec<u8> {
    let lines = sheet.as_bytes().split(|&byte| byte == 0x0A);
    let mut lines: Vec<Vec<u8>> = lines.map(<[u8]>::to_vec).collect();
    for own in own {
        let stands = &mut lines[own.line][own.column..][..own.bytes.len()];
        assert_eq!(stands, own.bytes);
        stands.fill(b'#');
    }
    lines.join(&0x0A)
}

/// A key and its question paper: the sheets, `·` for each space, and the texts' own bytes, by which alone the sheets differ.
fn is_pair(settings: &str, trees: [&str; 2], sheets: [&str; 2], own: &[(usize, usize, usize)]) {
    let settings = hex(settings);
    let read = judge::read_settings(&settings).expect("settings");
    let trees = trees.map(hex);
    let values = [0, 1].map(|at| judge::read_tree(&trees[at]).expect("a tree"));
    assert!(are_alike(&values[0], &values[1]));
    let left = [0, 1].map(|at| {
        let printed = sheet(&settings, &trees[at], 9999).expect("a sheet");
        assert_eq!(printed, sheets[at].replace('·', " "));
        let found = paper::own_of_sheet(&read, &values[at]);
        assert_eq!(places(&found), own);
        covered(&printed, &found)
    });
    assert_eq!(left[0], left[1]);
}

const M: &str =
    "10 00 1C 2D 5F 28 29 68 76 31 32 33 34 35 36 37 38 39 01 01 00 00 20 20 20 20 00 00 00 02 02";
const KEY: &str =
    "03 00 1B 01 00 07 51 31 3A 20 56 79 3F 02 00 0E 01 00 05 35 34 20 6B 74 01 00 03 36 20 73";
const DOTTED: &str =
    "03 00 1B 01 00 07 51 31 3A 20 56 79 3F 02 00 0E 01 00 05 2E 2E 2E 2E 2E 01 00 03 2E 2E 2E";

#[test]
fn a_question_and_two_answers() {
    is_pair(
        M,
        [KEY, DOTTED],
        [
            "1-------------2\n(·Q1:·Vy?·····)\n7-------3-----8\n(·54·kt·(·6·s·)\n4_______6_____5",
            "1-------------2\n(·Q1:·Vy?·····)\n7-------3-----8\n(·.....·(·...·)\n4_______6_____5",
        ],
        &[(1, 2, 7), (3, 2, 5), (3, 10, 3)],
    );
}

#[test]
fn without_lines_and_with_a_margin() {
    is_pair(
        "10 00 1C 00 00 00 00 00 00 00 00 00 00 00 00 00 00 00 01 01 00 00 20 20 20 20 02 00 01 02 02 11 00 08 01 01 00 00 6C 72 74 62",
        [
            "02 00 0C 01 00 05 61 0A 62 63 64 01 00 01 65",
            "02 00 0C 01 00 05 2E 0A 2E 2E 2E 01 00 01 2E",
        ],
        ["l···a··e·r\nl·bcd····r", "l···.··.·r\nl·...····r"],
        &[(0, 4, 1), (1, 2, 3), (0, 7, 1)],
    );
}

#[test]
fn several_lines_and_padding() {
    let frame = |one: &str, two: &str, three: &str| {
        format!(
            "1-------------2\n(ttttttttttttt)\n(ll··{one}···r)\n(ll··········r)\n(ll··{two}······r)\n\
             7-------------8\n(ttttttttttttt)\n(llanswer:·{three}r)\n4_____________5"
        )
    };
    is_pair(
        "10 00 1C 2D 5F 28 29 68 76 31 32 33 34 35 36 37 38 39 02 01 01 00 6C 72 74 62 01 00 00 02 02",
        [
            "03 00 19 01 00 09 61 62 20 63 64 0A 0A 78 79 01 00 0A 61 6E 73 77 65 72 3A 20 31 37",
            "03 00 19 01 00 09 2E 2E 2E 2E 2E 0A 0A 2E 2E 01 00 0A 61 6E 73 77 65 72 3A 20 2E 2E",
        ],
        [&frame("ab·cd", "xy", "17"), &frame(".....", "..", "..")],
        &[(2, 5, 5), (4, 5, 2), (7, 3, 10)],
    );
}

#[test]
fn others_are_not_alike() {
    let cell = |text: &str| Tree::cell(text);
    let row = |texts: &[&str]| Tree::Row(texts.iter().map(Tree::cell).collect());
    let pairs = [
        (cell("ab\nc"), cell("a\nbc")),
        (cell("ab"), cell("a\n")),
        (cell("ab"), row(&["ab"])),
        (cell(""), row(&[])),
        (row(&[]), Tree::Column(vec![])),
        (row(&["a"]), row(&["a", ""])),
        (row(&["a", "b"]), row(&["ab", ""])),
        (cell("\n"), cell("\n\n")),
    ];
    for (one, other) in pairs {
        assert!(!are_alike(&one, &other), "{one:?} {other:?}");
        assert!(!are_alike(&other, &one), "{other:?} {one:?}");
        assert!(are_alike(&one, &one) && are_alike(&other, &other));
    }
    assert!(are_alike(&cell("a\n\nbc"), &cell(".\n\n..")));
}

/// Of the first pair: the sheet has 79 bytes, and a draft of 30 takes 33.
#[test]
fn both_are_refused_alike() {
    for tree in [KEY, DOTTED].map(hex) {
        assert_eq!(sheet(&hex(M), &tree, 78), Err(8));
        assert!(sheet(&hex(M), &tree, 79).is_ok());
        for (length, number) in [(32, 20), (33, 0)] {
            let mut store = vec![0; length];
            let saved = Paper::default().save_draft(&mut store, b'A', &tree);
            assert_eq!(saved, number);
        }
    }
}

/// The tree with these texts blanked, by the call, with this many bytes lent: bytes past it stay, and a refusal writes none.
fn blank(tree: &[u8], nodes: &[u16], length: usize) -> Result<Vec<u8>, u8> {
    let mut output = vec![0xA5; length];
    let Counted { number, count } = Paper::default().blank(tree, nodes, &mut output);
    let rest = output.split_off(count);
    assert!(rest.iter().all(|&byte| byte == 0xA5));
    assert_eq!(
        blanked(tree, nodes, length).err(),
        (number != 0).then_some(number)
    );
    if number != 0 {
        assert_eq!(count, 0);
        return Err(number);
    }
    Ok(output)
}

#[test]
fn papers_of_keys() {
    let key = hex(KEY);
    for nodes in [&[3, 4][..], &[4, 3], &[4, 4, 3, 4]] {
        assert_eq!(blank(&key, nodes, 30), Ok(hex(DOTTED)));
        assert_eq!(blank(&key, nodes, 99), Ok(hex(DOTTED)));
        assert_eq!(blank(&key, nodes, 29), Err(8));
    }
    let one = b"\x03\x00\x1B\x01\x00\x07Q1: Vy?\x02\x00\x0E\x01\x00\x0554 kt\x01\x00\x03...";
    assert_eq!(blank(&key, &[4], 30), Ok(one.to_vec()));
    let all = b"\x03\x00\x1B\x01\x00\x07.......\x02\x00\x0E\x01\x00\x05.....\x01\x00\x03...";
    assert_eq!(blank(&key, &[], 30), Ok(all.to_vec()));
    assert_eq!(blank(&key, &[1, 3, 4], 30), Ok(all.to_vec()));

    let lines = b"\x01\x00\x06ab\n\n~ ";
    let dots = b"\x01\x00\x06..\n\n..";
    assert_eq!(blank(lines, &[0], 9), Ok(dots.to_vec()));
    assert_eq!(blank(dots, &[0], 9), Ok(dots.to_vec()));
    for group in [b"\x02\x00\x00", b"\x03\x00\x00", b"\x01\x00\x00"] {
        assert_eq!(blank(group, &[], 3), Ok(group.to_vec()));
    }
}

/// Numbers of groups, also of empty ones, and past the last node; before 8, and after the tree's own.
#[test]
fn numbers_that_name_no_cell() {
    let tree = b"\x03\x00\x0A\x02\x00\x00\x01\x00\x01a\x03\x00\x00";
    assert!(blank(tree, &[2], 13).is_ok());
    for node in [0, 1, 3, 4, 258, 514, 65_535] {
        for nodes in [&[node][..], &[2, node], &[node, 2]] {
            assert_eq!(blank(tree, nodes, 13), Err(9));
            assert_eq!(blank(tree, nodes, 0), Err(9));
        }
    }
    let chain = (1..17).fold(Tree::cell("a"), |inner, _| Tree::Row(vec![inner]));
    let many = Tree::Row(vec![Tree::cell("a"); 512]);
    let refused: [(&[u8], u8); 6] = [
        (b"", 2),
        (b"\x04\x00\x04\x01\x01\x01\x01", 2),
        (b"\x01\x00\x01\x09", 3),
        (b"\x02\x00\x07\x01\x00\x01\x7f\x05\x00\x00", 3),
        (&encode_tree(&many), 4),
        (&encode_tree(&chain), 5),
    ];
    for (tree, number) in refused {
        for nodes in [&[][..], &[0], &[65_535]] {
            assert_eq!(blank(tree, nodes, 0), Err(number));
            assert_eq!(blank(tree, nodes, 9999), Err(number));
        }
    }
}

/// What is left when texts are blanked is a tree that is alike.
#[test]
fn blanked_trees_are_alike() {
    let mut rng = Rng::new(51);
    let mut papers = 0;
    for _ in 0..500 {
        let (_, tree) = gen::table(&mut rng, Margins::None);
        let bytes = encode_tree(&tree);
        let nodes = alike::cells(&mut rng, &bytes);
        if let Ok(paper) = blanked(&bytes, &nodes, bytes.len()) {
            assert!(are_alike(&tree, &judge::read_tree(&paper).expect("a tree")));
            papers += 1;
        }
    }
    assert!(papers > 200, "{papers}");
}

/// Trees are alike exactly where the same is left of both when all of their texts are blanked.
#[test]
fn alike_trees_have_the_same_paper() {
    let texts = ["", "a", "b", "ab", "c\n", "\nd", "\n"];
    let trees = (1..=3).flat_map(|nodes| gen::small_trees(nodes, &texts));
    let trees: Vec<Tree> = trees.collect();
    let papers: Vec<Vec<u8>> = trees
        .iter()
        .map(|tree| without_texts(&encode_tree(tree)))
        .collect();
    let mut counts = [0; 2];
    for (one, paper) in trees.iter().zip(&papers) {
        for (other, other_paper) in trees.iter().zip(&papers) {
            let is_same = paper == other_paper;
            assert_eq!(are_alike(one, other), is_same);
            counts[usize::from(is_same)] += 1;
        }
    }
    assert!(counts.iter().all(|&count| count > 300), "{counts:?}");
}

/// The texts' own bytes are where the crate prints the texts: with a letter that is no mark and no fill in every text, it is there and nowhere else.
#[test]
fn own_bytes_are_where_the_crate_prints_them() {
    let mut bytes = 0;
    for mut rng in [Rng::new(52), Rng::new(52).bare()] {
        for _ in 0..400 {
            let (settings, tree) = gen::table(&mut rng, Margins::Half);
            let letters = marked(&tree);
            let fills = [settings.fills, settings.margin.fills].concat();
            if settings.marks.contains(&b'#') || fills.contains(&b'#') {
                continue;
            }
            let answer = paper::mended(&settings, &letters, original::answer(&settings, &letters));
            let own = paper::own_of_sheet(&settings, &letters);
            bytes += is_own(&answer.sheet, &own);
            for leaf in &answer.leaves {
                let own = paper::own_of_block(&settings, &letters, leaf.node);
                is_own(&leaf.block, &own);
            }
        }
    }
    assert!(bytes > 10_000, "{bytes}");
}

/// The tree with `#` for every letter.
fn marked(tree: &Tree) -> Tree {
    let list = |children: &[Tree]| children.iter().map(marked).collect();
    let letter = |&byte: &u8| if byte == 0x0A { byte } else { b'#' };
    match tree {
        Tree::Cell(text) => Tree::Cell(text.iter().map(letter).collect()),
        Tree::Row(children) => Tree::Row(list(children)),
        Tree::Column(children) => Tree::Column(list(children)),
    }
}

/// Whether `#` is at these places and nowhere else; answers how many they are.
fn is_own(printed: &[u8], own: &[Own]) -> usize {
    let lines: Vec<&[u8]> = printed.split(|&byte| byte == 0x0A).collect();
    let mut found = Vec::new();
    for (line, bytes) in lines.iter().enumerate() {
        let columns = (0..bytes.len()).filter(|&column| bytes[column] == b'#');
        found.extend(columns.map(|column| (line, column)));
    }
    let mut told: Vec<(usize, usize)> = own
        .iter()
        .flat_map(|own| (0..own.bytes.len()).map(|at| (own.line, own.column + at)))
        .collect();
    told.sort_unstable();
    assert_eq!(found, told);
    found.len()
}

/// Random alike trees are so, as values where they are trees, and most of them differ.
#[test]
fn random_ones_are_alike() {
    let mut rng = Rng::new(53);
    let mut counts = [0; 3];
    for _ in 0..1000 {
        let alike = alike::any_alike(&mut rng);
        let [one, other] = &alike.trees;
        match (judge::read_tree(one), judge::read_tree(other)) {
            (Ok(one), Ok(other)) => assert!(are_alike(&one, &other)),
            (one, other) => {
                assert_eq!(one, other);
                counts[0] += 1;
            }
        }
        counts[1] += usize::from(one != other);
        counts[2] += usize::from(judge::settings(&alike.settings) != 0);
    }
    assert!(counts[0] > 100 && counts[1] > 600, "{counts:?}");
    assert!(counts[2] > 20, "{counts:?}");
    let m = encode_settings(&Settings::M);
    let dots = |tree: &Tree| without_texts(&encode_tree(tree));
    let tree = Tree::Row(["ab", "c\nd"].map(Tree::cell).to_vec());
    for _ in 0..50 {
        let other = alike::alike_trees(&mut rng, &Settings::M, &tree);
        assert_eq!(other.settings, m);
        assert_eq!(without_texts(&other.trees[1]), dots(&tree));
    }
}
