//! Trees typed as lists and read again.

use std::collections::BTreeSet;

use oracle::gen::{self, long, typed, Limit, Margins, Rng};
use oracle::typing::{self, lines_of, type_of, Fault, Marks};
use oracle::{encode_tree, judge, Tree};

/// A tree in both forms: what is typed behind the mark for each text, and whether the short form has the mark.
#[test]
fn trees_typed() {
    let texts = [
        ("a", "a", false),
        ("", "", true),
        ("row", "row", true),
        ("column", "column", true),
        ("'", "'", true),
        ("#", "#", true),
        (" ", " ", true),
        ("rows", "rows", false),
        ("a'#", "a'#", false),
        ("b\nc\\", "b\\nc\\\\", false),
        ("\n", "\\n", false),
        ("\\n", "\\\\n", false),
        ("z ", "z ", false),
    ];
    let children = texts.map(|(text, _, _)| Tree::cell(text)).to_vec();
    let tree = Tree::Column(vec![Tree::Row(children), Tree::Row(vec![])]);
    for (marks, is_full) in [(Marks::Short, false), (Marks::Full, true)] {
        let line = |(_, typed, needs_mark): (&str, &str, bool)| {
            let mark = if is_full || needs_mark { "'" } else { "" };
            format!("    {mark}{typed}\n")
        };
        let list = format!("column\n  row\n{}  row\n", texts.map(line).concat());
        assert_eq!(type_of(&tree, marks), list.as_bytes());
        assert_eq!(typing::read(list.as_bytes()).as_ref(), Ok(&tree));
    }
}

/// The tree in both forms, with the last line feed and without; then in other ways, with carriage returns, comments and blank lines.
fn is_read_again(rng: &mut Rng, tree: &Tree) {
    for marks in [Marks::Short, Marks::Full] {
        let list = type_of(tree, marks);
        assert!(list.len() <= 81_408);
        assert_eq!(typing::read(&list).as_ref(), Ok(tree));
        assert_eq!(typing::read(&list[..list.len() - 1]).as_ref(), Ok(tree));
    }
    for _ in 0..3 {
        assert_eq!(typing::read(&typed::typed(rng, tree)).as_ref(), Ok(tree));
    }
}

#[test]
fn trees_typed_and_read_again() {
    let mut rng = Rng::new(61);
    for nodes in 1..=4 {
        for tree in gen::small_trees(nodes, &["", "a", "row", "#\n\\"]) {
            is_read_again(&mut rng, &tree);
        }
    }
    for _ in 0..2000 {
        let tree = typed::tree(&mut rng);
        is_read_again(&mut rng, &tree);
        let (_, tree) = gen::table(&mut rng, Margins::None);
        is_read_again(&mut rng, &tree);
    }
    for limit in [Limit::Nodes, Limit::Depth, Limit::Bytes] {
        for offset in -2..=0 {
            let (_, tree) = gen::near(&mut rng, Margins::None, limit, offset);
            is_read_again(&mut rng, &tree);
        }
    }
    for tree in long::great_trees() {
        assert!(judge::read_tree(&encode_tree(&tree)).is_ok());
        is_read_again(&mut rng, &tree);
    }
}

/// The mark is only where the line would be something else without it.
#[test]
fn marks_are_needed() {
    let mut rng = Rng::new(62);
    let mut counts = [0; 2];
    for _ in 0..5000 {
        let tree = typed::tree(&mut rng);
        let Tree::Cell(_) = tree else {
            continue;
        };
        let [short] = &lines_of(&tree, &mut || false)[..] else {
            panic!("a Cell has one line");
        };
        let [full] = &lines_of(&tree, &mut || true)[..] else {
            panic!("a Cell has one line");
        };
        let bare = full.strip_prefix(b"'").expect("a mark");
        let needs = typing::read(bare) != Ok(tree);
        assert_eq!(needs, short == full, "{full:?}");
        counts[usize::from(needs)] += 1;
    }
    assert!(counts.iter().all(|&count| count > 100), "{counts:?}");
}

/// Whatever is read is read again when it is typed; every number but those of limits occurs among the short lists.
#[test]
fn short_lists() {
    let mut numbers = BTreeSet::new();
    for list in typed::short_lists(5).chain(typed::few_lines(3)) {
        match typing::read(&list) {
            Ok(tree) => {
                for marks in [Marks::Short, Marks::Full] {
                    assert_eq!(typing::read(&type_of(&tree, marks)).as_ref(), Ok(&tree));
                }
            }
            Err(Fault {
                number,
                line,
                column,
            }) => {
                let lines: Vec<&[u8]> = list.split(|&byte| byte == 0x0A).collect();
                assert!((1..=lines.len()).contains(&line));
                assert!((1..=lines[line - 1].len() + 1).contains(&column));
                numbers.insert(number);
            }
        }
    }
    assert!(numbers.into_iter().eq([31, 32, 33, 34, 35, 39]));
}
