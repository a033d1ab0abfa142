//! Typed lists: the form's examples, every fault with its line and column, the limits, what is left of a lent output, trees that are typed and read back, and the lines of their
//! nodes.

use leg_sheet::calls::{self, NODES, TREE, TYPED};
use leg_sheet::{typed_lines, LineKind, Refusal, Tree, TypedFault};

/// The bytes written, with this many lent, or the number, line and column; bytes past the count stay, and a refusal leaves all.
fn read(text: &[u8], length: usize) -> Result<Vec<u8>, (u8, u32, u32)> {
    let mut out = vec![0xA5; length];
    let answer = calls::read_typed(text, &mut out);
    let rest = out.split_off(answer.unwrap_or(0));
    assert!(rest.iter().all(|&byte| byte == 0xA5));
    let numbers = |fault: TypedFault| (fault.refusal.number(), fault.line, fault.column);
    answer.map(|_| out).map_err(numbers)
}

fn tree(text: &str) -> Tree {
    Tree::from_typed(text).expect("a list")
}

fn fault(text: impl AsRef<[u8]>) -> (u8, u32, u32) {
    read(text.as_ref(), TREE).expect_err("a fault")
}

/// The list of docs/FORMS.md.
const LEG: &str = "# a leg
row
  1
  column
    Home pad
    47.2101 N 19.0402 E
  take off\\nhold 10 s
";

#[test]
fn a_list_and_its_bytes() {
    let place = Tree::column(["Home pad", "47.2101 N 19.0402 E"]);
    let leg = Tree::row(["1".into(), place, "take off\nhold 10 s".into()]);
    assert_eq!(tree(LEG), leg);
    let bytes = leg.to_bytes().expect("a tree");
    assert_eq!(read(LEG.as_bytes(), bytes.len()), Ok(bytes.clone()));
    assert_eq!(read(LEG.as_bytes(), TREE), Ok(bytes.clone()));
    assert_eq!(read(LEG.as_bytes(), bytes.len() - 1), Err((8, 0, 0)));
    assert_eq!(read(LEG.as_bytes(), 0), Err((8, 0, 0)));
    assert_eq!(leg.typed(), LEG.trim_start_matches("# a leg\n"));
    assert_eq!(Tree::from_typed(LEG.as_bytes()), Ok(leg));
}

/// A last line feed or none, carriage returns, blank lines and comments change nothing.
#[test]
fn what_is_skipped() {
    let row = Tree::row(["a", "b"]);
    let lists: [&[u8]; 5] = [
        b"row\n  a\n  b\n",
        b"row\n  a\n  b",
        b"row\r\n  a\r\n  b\r\n",
        b"row\n  a\n  b\r",
        b"# a list\n\nrow\n   \n      # \xC3\xA1rv\xC3\xADz\t\xFF\n  a\n#\n  b\n\n",
    ];
    for list in lists {
        assert_eq!(Tree::from_typed(list), Ok(row.clone()));
    }
}

/// Only the exact word is a word; a quote mark makes a text of anything; inside a text both marks are themselves.
#[test]
fn words_and_texts() {
    assert_eq!(tree("row"), Tree::Row(vec![]));
    assert_eq!(tree("column\n"), Tree::Column(vec![]));
    let texts = [
        ("'row", "row"),
        ("'column", "column"),
        ("'", ""),
        ("''", "'"),
        ("'# no", "# no"),
        ("'  indented", "  indented"),
        ("''quoted", "'quoted"),
        ("'plain", "plain"),
        ("rows", "rows"),
        ("Row", "Row"),
        ("row ", "row "),
        ("row\\n", "row\n"),
        ("it's", "it's"),
        ("a#", "a#"),
        ("spaces at its end  ", "spaces at its end  "),
        ("two\\nlines", "two\nlines"),
        ("a\\\\b", "a\\b"),
        ("\\\\n", "\\n"),
        ("'\\n", "\n"),
    ];
    for (typed, text) in texts {
        assert_eq!(tree(typed), Tree::from(text), "{typed:?}");
    }
}

#[test]
fn bytes_that_may_not_stand_there() {
    assert_eq!(fault("row\n\tHome pad"), (31, 2, 1));
    assert_eq!(fault("row\n  a\tb"), (31, 2, 4));
    assert_eq!(fault("row\n  café"), (31, 2, 6));
    assert_eq!(fault("\u{FEFF}row"), (31, 1, 1));
    for byte in (0..=0x1F).chain(0x7F..=0xFF) {
        if byte != b'\n' {
            assert_eq!(fault([b'a', byte, b'b']), (31, 1, 2), "{byte}");
        }
    }
    assert_eq!(fault("row\n  Home\\tpad"), (32, 2, 8));
    assert_eq!(fault("row\n  a\\"), (32, 2, 5));
    assert_eq!(fault("row\n  a\\\r\n"), (32, 2, 5));
    assert_eq!(fault("\\\\\\"), (32, 1, 4));
    // Behind a backslash any other byte is 32.
    assert_eq!(fault("a\\\tb"), (32, 1, 3));
}

#[test]
fn lines_in_the_wrong_place() {
    assert_eq!(fault("row\n   Home pad"), (33, 2, 4));
    assert_eq!(fault(" a"), (33, 1, 2));
    assert_eq!(fault("row\n  a\nrow"), (34, 3, 1));
    assert_eq!(fault("a\n\n# end\nb"), (34, 4, 1));
    assert_eq!(fault("  a"), (35, 1, 3));
    assert_eq!(fault("a\n  b"), (35, 2, 3));
    assert_eq!(fault("row\n    a"), (35, 2, 5));
    assert_eq!(fault("row\n  a\n    b"), (35, 3, 5));
    assert_eq!(fault("# nothing yet\n"), (39, 2, 1));
    assert_eq!(fault(""), (39, 1, 1));
    assert_eq!(fault("   "), (39, 1, 1));
}

/// The first line with a fault is answered; in a line its bytes come first, then its spaces, then its place.
#[test]
fn the_first_fault() {
    assert_eq!(fault("row\n a\n\tb"), (33, 2, 2));
    assert_eq!(fault("row\n \tb\\"), (31, 2, 2));
    assert_eq!(fault("a\n b\\"), (32, 2, 4));
    assert_eq!(fault("a\n b"), (33, 2, 2));
    assert_eq!(fault("row\n      \\x"), (32, 2, 8));
    assert_eq!(read(b"a\nb", 0), Err((34, 2, 1)));
}

/// As many rows, one in another.
fn nested(levels: usize) -> String {
    let lines = (0..levels).map(|level| "  ".repeat(level) + "row\n");
    lines.collect()
}

#[test]
fn the_limits() {
    assert!(read(nested(16).as_bytes(), TREE).is_ok());
    assert_eq!(fault(nested(17)), (36, 17, 33));
    let cells = |count: usize| String::from("row") + &"\n  a".repeat(count);
    assert!(read(cells(NODES - 1).as_bytes(), TREE).is_ok());
    assert_eq!(fault(cells(NODES)), (37, 513, 3));
    for letter in ["x", "\\n"] {
        let cell = |count: usize| letter.repeat(count);
        let written = read(cell(TREE - 3).as_bytes(), TREE);
        assert_eq!(written.map(|bytes| bytes.len()), Ok(TREE));
        assert_eq!(fault(cell(TREE - 2)), (38, 1, 1));
    }
    assert_eq!(
        fault("row\n  ".to_string() + &"x".repeat(32_763)),
        (38, 2, 3)
    );
    let long = |count: usize| "a\n".to_string() + &"#".repeat(count - 2);
    assert_eq!(
        read(long(TYPED).as_bytes(), 4),
        Ok(b"\x01\x00\x01a".to_vec())
    );
    assert_eq!(read(long(TYPED + 1).as_bytes(), 4), Err((30, 0, 0)));
    assert_eq!(fault("\t".repeat(TYPED + 1)), (30, 0, 0));
    // The last line and the last column that there can be.
    assert_eq!(fault("\n".repeat(TYPED)), (39, 131_073, 1));
    let backslash = "x".repeat(TYPED - 1) + "\\";
    assert_eq!(fault(backslash), (32, 1, 131_073));
}

/// Each number, 30 to 39, as what is refused and in words.
#[test]
fn faults_in_words() {
    let words = |text: String| Tree::from_typed(text).expect_err("a fault").to_string();
    let said = [
        (" ".repeat(TYPED + 1), "the list has over 131,072 bytes"),
        ("\t".into(), "line 1, column 1: only ASCII letters, digits, signs and spaces are allowed here: no tab, no accent"),
        ("\\t".into(), "line 1, column 2: only n or a backslash is allowed after a backslash"),
        (" a".into(), "line 1, column 2: a level is two spaces, and this line begins with an odd number of them"),
        ("a\nb".into(), "line 2, column 1: a second root: indent every line after the first"),
        ("a\n  b".into(), "line 2, column 3: too deep: only a row or column has lines inside it, and these are one level deeper"),
        (nested(17), "line 17, column 33: over 16 levels"),
        (String::from("row") + &"\n  ro".repeat(NODES), "line 513, column 3: over 512 rows, columns and texts"),
        ("x".repeat(TREE), "line 1, column 1: the list is too long: with this line its tree has over 32,768 bytes"),
        ("#".into(), "line 1, column 1: the list is empty: no line has a row, a column or a text"),
    ];
    for (number, (text, expected)) in (30..).zip(said) {
        let fault = Tree::from_typed(&text).expect_err("a fault");
        assert_eq!(fault.refusal.number(), number);
        assert_eq!(words(text), expected);
    }
    let short = TypedFault {
        refusal: Refusal::TooShort,
        line: 0,
        column: 0,
    };
    assert_eq!(calls::read_typed(b"abc", &mut [0; 5]), Err(short));
}

/// Texts that a printer could get wrong.
const TEXTS: [&str; 20] = [
    "", " ", "row", "column", "row ", " row", "rows", "#", "# a", "'", "''", "'row", "\\", "\\n",
    "\n", "a\nb", "a\\", " \n", "abc  ", "~",
];

/// A tree for a number, by its digits: no deeper than this many levels.
fn some_tree(seed: &mut u64, levels: usize) -> Tree {
    *seed = seed.wrapping_mul(6_364_136_223_846_793_005).wrapping_add(1);
    let number = (*seed >> 33) as usize;
    if levels == 1 || number % 3 == 0 {
        return Tree::from(TEXTS[number / 3 % TEXTS.len()]);
    }
    let count = number / 6 % 5;
    let children = (0..count).map(|_| some_tree(seed, levels - 1));
    if number % 2 == 0 {
        Tree::Row(children.collect())
    } else {
        Tree::Column(children.collect())
    }
}

#[test]
fn trees_come_back() {
    let (mut seed, mut back) = (30, 0);
    for round in 0..2000 {
        let tree = some_tree(&mut seed, 1 + round % 6);
        let Ok(bytes) = tree.to_bytes() else {
            continue;
        };
        let text = tree.typed();
        for list in [
            text.clone(),
            text.trim_end_matches('\n').into(),
            text.replace('\n', "\r\n"),
            format!("# first\n\n{text}   \n#"),
        ] {
            assert_eq!(
                read(list.as_bytes(), bytes.len()),
                Ok(bytes.clone()),
                "{list}"
            );
        }
        assert_eq!(Tree::from_typed(text), Ok(tree));
        back += 1;
    }
    assert!(back > 1900, "{back}");
}

/// The greatest trees: by bytes, by nodes, by depth, and by the length of what is typed.
#[test]
fn the_greatest_trees_come_back() {
    let deep = (1..16).fold(Tree::from("a"), |tree, _| Tree::row([tree]));
    let wide = Tree::row(vec!["\n"; NODES - 1]);
    let comb = (1..15).fold(Tree::column(["\n"; 33]), |tree, _| {
        let mut children = vec![Tree::from("\\"); 30];
        children.push(tree);
        Tree::Row(children)
    });
    let trees = [Tree::from("\\".repeat(TREE - 3)), deep, wide, comb];
    for tree in trees {
        let bytes = tree.to_bytes().expect("a tree");
        assert_eq!(read(tree.typed().as_bytes(), bytes.len()), Ok(bytes));
        assert!(tree.typed().len() <= 81_408);
    }
}

#[test]
fn kinds_of_lines() {
    let list = b"# a\r\n\n   \r\nrow\n  column\r\n  'row\n  rows\n    #b\n\tx\n \xFF";
    let lines: Vec<_> = typed_lines(list)
        .map(|line| (line.number, line.spaces, line.typed, line.kind()))
        .collect();
    assert_eq!(
        lines,
        [
            (1, 0, &b"# a"[..], LineKind::Comment),
            (2, 0, b"", LineKind::Blank),
            (3, 3, b"", LineKind::Blank),
            (4, 0, b"row", LineKind::Row),
            (5, 2, b"column", LineKind::Column),
            (6, 2, b"'row", LineKind::Text),
            (7, 2, b"rows", LineKind::Text),
            (8, 4, b"#b", LineKind::Comment),
            (9, 0, b"\tx", LineKind::Text),
            (10, 1, b"\xFF", LineKind::Text),
        ]
    );
    assert_eq!(typed_lines(b"").count(), 1);
}

/// The nodes of a tree with their kinds and levels, in node order.
fn nodes(tree: &Tree, level: usize, list: &mut Vec<(LineKind, usize)>) {
    let (kind, children) = match tree {
        Tree::Cell(_) => (LineKind::Text, &[][..]),
        Tree::Row(children) => (LineKind::Row, &children[..]),
        Tree::Column(children) => (LineKind::Column, &children[..]),
    };
    list.push((kind, level));
    children
        .iter()
        .for_each(|child| nodes(child, level + 1, list));
}

/// In a list that is accepted each node has its line, whatever is skipped between them.
#[test]
fn nodes_have_their_lines() {
    let mut seed = 40;
    for round in 0..500 {
        let tree = some_tree(&mut seed, 1 + round % 6);
        let mut expected = Vec::new();
        nodes(&tree, 0, &mut expected);
        let text = tree.typed().replace('\n', "\r\n  # a comment\n\n");
        assert_eq!(Tree::from_typed(&text), Ok(tree));
        let lines = typed_lines(text.as_bytes()).filter(|line| line.is_node());
        let found: Vec<_> = lines
            .map(|line| (line.number, line.kind(), line.spaces / 2))
            .collect();
        let expected: Vec<_> = (0..)
            .zip(expected)
            .map(|(node, (kind, level))| (1 + 3 * node, kind, level))
            .collect();
        assert_eq!(found, expected, "{text}");
    }
}
