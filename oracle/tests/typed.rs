//! Typed lists: the form, its faults and where they are reported, its limits.

use oracle::calls::{Calls, Typed};
use oracle::sides::Paper;
use oracle::typing::{self, Fault, LIST_BYTES};
use oracle::{encode_tree, judge, Tree};

/// A number with its line and column.
type Told = (u8, usize, usize);

fn cell(text: &str) -> Tree {
    Tree::cell(text)
}

fn cells(texts: &[&str]) -> Vec<Tree> {
    texts.iter().map(Tree::cell).collect()
}

/// The call with this many bytes lent: what it answers and what it writes. Bytes past that stay.
fn call(list: &[u8], length: usize) -> (Typed, Vec<u8>) {
    let mut output = vec![0xA5; length];
    let answer = Paper::default().read_typed(list, &mut output);
    let rest = output.split_off(answer.count);
    assert!(rest.iter().all(|&byte| byte == 0xA5));
    (answer, output)
}

fn refused((number, line, column): Told) -> Typed {
    Typed {
        number,
        count: 0,
        line,
        column,
    }
}

/// What a list is, by the reading and by the call: with three bytes more than needed, as many, and one less, which is 8, last and of no place.
fn answer(list: impl AsRef<[u8]>) -> Result<Tree, Told> {
    let list = list.as_ref();
    let tree = match typing::read(list) {
        Ok(tree) => tree,
        Err(Fault {
            number,
            line,
            column,
        }) => {
            let told = (number, line, column);
            for length in [0, 99] {
                assert_eq!(call(list, length), (refused(told), Vec::new()));
            }
            return Err(told);
        }
    };
    let bytes = encode_tree(&tree);
    assert_eq!(judge::read_tree(&bytes), Ok(tree.clone()));
    let good = Typed {
        count: bytes.len(),
        ..Typed::default()
    };
    for more in [3, 0] {
        assert_eq!(call(list, bytes.len() + more), (good, encode_tree(&tree)));
    }
    for length in [bytes.len() - 1, 0] {
        assert_eq!(call(list, length), (refused((8, 0, 0)), Vec::new()));
    }
    Ok(tree)
}

#[test]
fn a_leg() {
    let list = "# a leg
row
  1
  column
    Home pad
    47.2101 N 19.0402 E
  take off\\nhold 10 s
";
    let pad = Tree::Column(cells(&["Home pad", "47.2101 N 19.0402 E"]));
    let leg = vec![cell("1"), pad, cell("take off\nhold 10 s")];
    assert_eq!(answer(list), Ok(Tree::Row(leg)));
    assert_eq!(
        call(b"row\n  a\n  'row", 14).1,
        b"\x02\x00\x0A\x01\x00\x01a\x01\x00\x03row"
    );
}

/// 'You type .. it is ..'
#[test]
fn texts() {
    let texts = [
        ("rows", "rows"),
        ("Row", "Row"),
        ("ROW", "ROW"),
        ("row ", "row "),
        ("column.", "column."),
        ("row column", "row column"),
        ("take off ", "take off "),
        ("'row", "row"),
        ("'column", "column"),
        ("'# no", "# no"),
        ("'  indented", "  indented"),
        ("''quoted", "'quoted"),
        ("'quoted'", "quoted'"),
        ("'", ""),
        ("''", "'"),
        ("'a", "a"),
        ("a'b#c", "a'b#c"),
        ("a\\nb", "a\nb"),
        ("\\n", "\n"),
        ("\\\\", "\\"),
        ("\\\\n", "\\n"),
        ("\\\\\\n", "\\\n"),
        ("'\\n\\n", "\n\n"),
        ("n", "n"),
        ("~", "~"),
        ("' ~", " ~"),
    ];
    for (typed, text) in texts {
        assert_eq!(answer(typed), Ok(cell(text)), "{typed}");
        let below = answer(format!("row\n  {typed}\n  {typed}\n"));
        assert_eq!(below, Ok(Tree::Row(cells(&[text, text]))), "{typed}");
    }
}

#[test]
fn groups() {
    assert_eq!(answer("row"), Ok(Tree::Row(vec![])));
    assert_eq!(answer("column"), Ok(Tree::Column(vec![])));
    assert_eq!(
        answer("column\n  row\n  a\n  row\n    b\n    column\n  c"),
        Ok(Tree::Column(vec![
            Tree::Row(vec![]),
            cell("a"),
            Tree::Row(vec![cell("b"), Tree::Column(vec![])]),
            cell("c"),
        ]))
    );
}

/// 'The last line may have a line feed or not. A carriage return at a line's end is taken off.' Comments and blank lines are nothing.
#[test]
fn ends_and_lines_between() {
    let tree = Tree::Row(cells(&["a", "b"]));
    let lists: [&[u8]; 9] = [
        b"row\n  a\n  b",
        b"row\n  a\n  b\n",
        b"row\r\n  a\r\n  b\r\n",
        b"row\r\n  a\n  b\r",
        b"\n \n  \n   \r\nrow\n\n  a\n     \n  b\n\n\n",
        b"#\nrow\n#\n  # no\n   # \xC3\xA9\t\x00\x7F\n  a\n# \\q\r\r\n  b\n      #",
        b"row\n  a\n#row\n #  a\n  b\n ",
        b"row\n  a\n  b\n\r",
        b"\r\nrow\n  a\n  b\n#\r",
    ];
    for list in lists {
        assert_eq!(answer(list), Ok(tree.clone()), "{list:?}");
    }
    assert_eq!(answer("a\r\r"), Err((31, 1, 2)));
    assert_eq!(answer("\r\r\n"), Err((31, 1, 1)));
    assert_eq!(answer("a\rb"), Err((31, 1, 2)));
    assert_eq!(answer("  \r \n"), Err((31, 1, 3)));
}

/// The table, row by row.
#[test]
fn what_is_wrong() {
    let chain: Vec<String> = (0..17).map(|level| "  ".repeat(level) + "row").collect();
    let faults = [
        (vec![b' '; LIST_BYTES + 1], (30, 0, 0)),
        (b"row\n\tHome pad".to_vec(), (31, 2, 1)),
        (b"row\n  caf\xC3\xA9".to_vec(), (31, 2, 6)),
        (b"\xEF\xBB\xBFrow".to_vec(), (31, 1, 1)),
        (b"row\n  Home\\tpad".to_vec(), (32, 2, 8)),
        (b"row\n  Home\\\n".to_vec(), (32, 2, 8)),
        (b"row\n  Home\\\r\n".to_vec(), (32, 2, 8)),
        (b"row\n   Home pad".to_vec(), (33, 2, 4)),
        (b"row\n  a\nrow".to_vec(), (34, 3, 1)),
        (b"a\nb".to_vec(), (34, 2, 1)),
        (b"  a".to_vec(), (35, 1, 3)),
        (b"a\n  b".to_vec(), (35, 2, 3)),
        (b"row\n    a".to_vec(), (35, 2, 5)),
        (b"row\n  row\n      a".to_vec(), (35, 3, 7)),
        (b"row\n  a\n    b".to_vec(), (35, 3, 5)),
        (chain.join("\n").into_bytes(), (36, 17, 33)),
        ([b"row", &b"\n  a".repeat(512)[..]].concat(), (37, 513, 3)),
        (vec![b'x'; 32_766], (38, 1, 1)),
        (b"# nothing yet\n".to_vec(), (39, 2, 1)),
    ];
    for (list, told) in faults {
        assert_eq!(
            answer(&list),
            Err(told),
            "{:?}",
            &list[..list.len().min(40)]
        );
    }
    assert_eq!(call(b"row\n  a", 6).0, refused((8, 0, 0)));
}

/// 'In one line the bytes come first, left to right, then the indentation, then the line's place'; 'the first line that has a fault is answered'.
#[test]
fn which_fault_is_told() {
    let faults: [(&[u8], Told); 16] = [
        (b"a\\b\t", (32, 1, 3)),
        (b"a\tb\\c", (31, 1, 2)),
        (b"\\\t", (32, 1, 2)),
        (b"\\\xFF", (32, 1, 2)),
        (b"\\\\\\", (32, 1, 4)),
        (b"\\ n", (32, 1, 2)),
        (b"   \t", (31, 1, 4)),
        (b" a\\", (32, 1, 4)),
        (b"a\nb\t", (31, 2, 2)),
        (b"a\n b", (33, 2, 2)),
        (b"   a", (33, 1, 4)),
        (b"a\n     \\q", (32, 2, 7)),
        (b"a\nb\n\t", (34, 2, 1)),
        (b"  a\n\\", (35, 1, 3)),
        (b"# \t\n\t#\n", (31, 2, 1)),
        (b" '\n", (33, 1, 2)),
    ];
    for (list, told) in faults {
        assert_eq!(answer(list), Err(told), "{list:?}");
    }
    // A word with a bad byte is a text with one.
    assert_eq!(answer("row\t"), Err((31, 1, 4)));
    assert_eq!(answer("ro\\w"), Err((32, 1, 4)));
}

/// This many lines of `row`, each a level deeper.
fn chain(rows: usize) -> Vec<u8> {
    let lines = (0..rows).map(|level| "  ".repeat(level) + "row\n");
    lines.collect::<String>().into_bytes()
}

fn line(level: usize, typed: &str) -> Vec<u8> {
    ("  ".repeat(level) + typed + "\n").into_bytes()
}

#[test]
fn levels() {
    let deep = |rows: usize, typed: &str| {
        let list = [chain(rows), line(rows, typed)].concat();
        answer(list).map(|tree| tree.depth())
    };
    for typed in ["a", "row", "column", "'"] {
        assert_eq!(deep(15, typed), Ok(16));
        assert_eq!(deep(16, typed), Err((36, 17, 33)));
    }
    // 35 before 36: below a Cell, and two levels deeper; but 33, 32 and 31 before both.
    let cell = [chain(15), line(15, "a")].concat();
    assert_eq!(answer([cell, line(16, "b")].concat()), Err((35, 17, 33)));
    for (typed, told) in [
        ("  a", (35, 17, 35)),
        (" a", (33, 17, 34)),
        ("a\\", (32, 17, 35)),
        ("\t", (31, 17, 33)),
    ] {
        let list = [chain(16), line(16, typed)].concat();
        assert_eq!(answer(list), Err(told), "{typed}");
    }
}

/// A Row of this many Cells.
fn many(cells: usize) -> Vec<u8> {
    [b"row\n", &b"  a\n".repeat(cells)[..]].concat()
}

#[test]
fn nodes() {
    assert_eq!(answer(many(511)).map(|tree| tree.nodes()), Ok(512));
    assert_eq!(answer(many(512)), Err((37, 513, 3)));
    let skipped = [&many(511)[..], b"# 513\n\n\n"].concat();
    assert_eq!(answer(skipped).map(|tree| tree.nodes()), Ok(512));
    // 34, 35 and 36 before 37.
    let behind = |list: Vec<u8>, level: usize, typed: &str| {
        let list = [list, line(level, typed)].concat();
        answer(list).map(|tree| tree.nodes())
    };
    assert_eq!(behind(many(511), 0, "row"), Err((34, 513, 1)));
    assert_eq!(behind(many(511), 2, "a"), Err((35, 513, 5)));
    assert_eq!(behind(many(511), 1, " a"), Err((33, 513, 4)));
    let deep = [chain(15), line(15, "a").repeat(496)].concat();
    let full = [deep, line(15, "column")].concat();
    assert_eq!(behind(full.clone(), 16, "a"), Err((36, 513, 33)));
    assert_eq!(behind(full, 15, "a"), Err((37, 513, 31)));
}

/// 32,768 bytes of a tree, as texts have them and not as they are typed.
#[test]
fn bytes() {
    for typed in ["x", "\\n", "\\\\", " "] {
        let list = |text: usize| format!("'{}", typed.repeat(text));
        assert_eq!(answer(list(32_765)).map(|tree| tree.bytes()), Ok(32_768));
        assert_eq!(answer(list(32_766)), Err((38, 1, 1)), "{typed}");
    }
    // The line that is one too much: an empty Cell, a group, the letter.
    let row = |text: usize| format!("row\n  {}\n", "x".repeat(text)).into_bytes();
    for typed in ["'", "row", "column"] {
        let behind = |text: usize| answer([row(text), line(1, typed)].concat());
        assert_eq!(behind(32_759).map(|tree| tree.bytes()), Ok(32_768));
        assert_eq!(behind(32_760), Err((38, 3, 3)));
        assert_eq!(behind(32_763), Err((38, 2, 3)));
    }
    assert_eq!(
        answer([row(32_762), line(1, "b")].concat()),
        Err((38, 3, 3))
    );
    // After 34 to 37.
    assert_eq!(
        answer([row(32_762), line(0, "b")].concat()),
        Err((34, 3, 1))
    );
    assert_eq!(
        answer([row(32_762), line(2, "b")].concat()),
        Err((35, 3, 5))
    );
    let long = [many(510), line(1, &"x".repeat(32_768 - 3 - 4 * 510 - 3))].concat();
    assert_eq!(answer(&long).map(|tree| tree.bytes()), Ok(32_768));
    assert_eq!(answer([long, line(1, "b")].concat()), Err((37, 513, 3)));
    for (rows, told) in [(15, (38, 16, 31)), (16, (36, 17, 33))] {
        let deep = [chain(rows), line(rows, &"x".repeat(32_768))].concat();
        assert_eq!(answer(deep), Err(told));
    }
}

/// 131,072 bytes of a list: whatever one more is, and whatever else is wrong, is 30.
#[test]
fn lengths() {
    for (front, filler) in [
        ("a\n", b'\n'),
        ("a\n#", 0xFF),
        ("a\n", b' '),
        ("a\r\n#", b'\r'),
    ] {
        let list = |length: usize| {
            let filler = vec![filler; length - front.len()];
            [front.as_bytes(), &filler].concat()
        };
        assert_eq!(answer(list(LIST_BYTES - 1)), Ok(cell("a")));
        assert_eq!(answer(list(LIST_BYTES)), Ok(cell("a")));
        assert_eq!(answer(list(LIST_BYTES + 1)), Err((30, 0, 0)));
    }
    for byte in *b"\n x\t\\" {
        assert_eq!(answer(vec![byte; LIST_BYTES + 1]), Err((30, 0, 0)));
        assert_eq!(answer(vec![byte; 2 * LIST_BYTES]), Err((30, 0, 0)));
        assert_ne!(answer(vec![byte; LIST_BYTES]), Err((30, 0, 0)));
    }
}

/// A list of the most bytes: what comes first, a byte over and over, what comes last.
fn filled(front: &[u8], filler: u8, last: &str) -> Vec<u8> {
    let count = LIST_BYTES - front.len() - last.len();
    [front, &vec![filler; count], last.as_bytes()].concat()
}

/// Each fault in the first line and column, in the last column and in the last line that it can have.
#[test]
fn first_and_last_places() {
    let places = [
        (b"\t".to_vec(), (31, 1, 1)),
        (filled(b"", b'x', "\t"), (31, 1, 131_072)),
        (filled(b"", b'\n', "\t"), (31, 131_072, 1)),
        (b"\\".to_vec(), (32, 1, 2)),
        (filled(b"", b'x', "\\"), (32, 1, 131_073)),
        (filled(b"", b'\n', "\\"), (32, 131_072, 2)),
        (b" a".to_vec(), (33, 1, 2)),
        (filled(b"", b' ', "a"), (33, 1, 131_072)),
        (filled(b"", b'\n', " a"), (33, 131_071, 2)),
        (b"a\na".to_vec(), (34, 2, 1)),
        (filled(b"a", b'\n', "a"), (34, 131_071, 1)),
        (b"  a".to_vec(), (35, 1, 3)),
        (filled(b"", b' ', "aa"), (35, 1, 131_071)),
        (filled(b"", b'\n', "  a"), (35, 131_070, 3)),
        ([chain(16), line(16, "a")].concat(), (36, 17, 33)),
        (
            filled(&chain(16), b'\n', &("  ".repeat(16) + "a")),
            (36, 130_752, 33),
        ),
        (many(512), (37, 513, 3)),
        (filled(&many(511), b'\n', "  a"), (37, 129_534, 3)),
        (vec![b'x'; 32_766], (38, 1, 1)),
        (
            filled(
                &line(0, &format!("row\n  {}", "x".repeat(32_759))),
                b'\n',
                "  a",
            ),
            (38, 98_306, 3),
        ),
        (Vec::new(), (39, 1, 1)),
        (vec![b'\n'; LIST_BYTES], (39, 131_073, 1)),
        (vec![b' '; LIST_BYTES], (39, 1, 1)),
    ];
    for (list, told) in places {
        assert_eq!(answer(list), Err(told));
    }
}

/// Nothing but what is skipped.
#[test]
fn no_root() {
    for (list, line) in [
        ("", 1),
        (" ", 1),
        ("\n", 2),
        ("\r\n", 2),
        ("\r", 1),
        ("#", 1),
    ] {
        assert_eq!(answer(list), Err((39, line, 1)));
    }
    assert_eq!(answer("# a\n   # b\n\n    \n# c"), Err((39, 5, 1)));
    assert_eq!(answer("# a\n   # b\n\n    \n# c\n"), Err((39, 6, 1)));
}
