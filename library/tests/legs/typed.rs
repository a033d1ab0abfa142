//! Every command on typed lists.

use crate::mark::marks;
use crate::{answers, fails, legs, said, Folder, DEFAULTS};

/// A list for every command, typed, and what each answers.
#[test]
fn typed_lists() {
    let list = "# figure F2, with the default settings\ncolumn\n  abcdef\n  row\n    a\n    b\n";
    let typed = |words: &[&str], answer: &str| {
        let answered = (answer.into(), String::new(), Some(0));
        assert_eq!(said(words, list.as_bytes()), answered, "{words:?}");
    };
    typed(
        &["print", "-"],
        "+--------+\n| abcdef |\n+---+----+\n| a | b  |\n+---+----+\n",
    );
    typed(
        &["check", "-"],
        "settings: accepted\ntree: accepted, nodes: 5\nsheet: accepted, 10 columns by 5 lines\n",
    );
    typed(
        &["place", "-", "2", "4"],
        "2 4: node 4, line 0, column 0 of its block: b\n",
    );
    typed(&["plan", "-"], "columns: 10\nlines: 5\n");
    typed(
        &["widen", "-"],
        "node  letters  text\n   1        1  abcdef\n   3        2  a\n   4        2  b\n",
    );
    let (sizes, _, _) = said(&["sizes", "-"], list.as_bytes());
    assert_eq!(sizes.lines().count(), 6);
    let (leaf, _, _) = said(&["leaf", "-", "4"], list.as_bytes());
    assert!(leaf.ends_with("\n+----+\n| b  |\n+----+\n"), "{leaf}");
    typed(&["type", "-"], "column\n  abcdef\n  row\n    a\n    b\n");
    let (folded, _, _) = said(&["fold", "list.list", "60"], b"");
    assert_eq!(folded, said(&["fold", "list.legs", "60"], b"").0);
    let lines = "2 5\n2 4\n";
    assert_eq!(
        said(
            &["mark", "figure2.list", "--settings", "figure2.settings"],
            lines.as_bytes()
        ),
        marks("figure2.legs", lines)
    );
}

/// The bytes of a typed list go with every command that writes bytes; a typed list is saved as a draft.
#[test]
fn typed_lists_as_bytes() {
    let bytes = |words: &[&str], input: &[u8]| {
        let output = legs(words, input);
        assert_eq!((output.stderr.len(), output.status.code()), (0, Some(0)));
        output.stdout
    };
    let list = b"row\n  leg 1\n  '\n";
    let tree = b"\x02\x00\x0B\x01\x00\x05leg 1\x01\x00\x00";
    assert_eq!(bytes(&["bytes", "-"], list), [&DEFAULTS[..], tree].concat());
    let blank = include_bytes!("../../../examples/blank.legs");
    let words = ["bytes", "-", "--settings", "blank.settings"];
    assert_eq!(bytes(&words, list), blank);
    assert_eq!(bytes(&["bytes", "-"], blank), blank);
    let dots = b"\x02\x00\x0B\x01\x00\x05.....\x01\x00\x00";
    let paper = [&DEFAULTS[..], dots].concat();
    assert_eq!(bytes(&["blank", "-", "--all"], list), paper);

    let folder = Folder::new("typed");
    let store = folder.path("store");
    answers(&["draft", "new", &store, "100"], "");
    answers(&["draft", "save", &store, "A", "blank.list"], "");
    let draft = bytes(&["draft", "return", &store, "A"], b"");
    assert_eq!(draft, [&DEFAULTS[..], tree].concat());
    // A list that was typed is not written over by bytes.
    let typed = folder.path("typed.list");
    std::fs::write(&typed, list).expect("a file");
    let kept = format!("{typed}: not overwritten: it has text; with --typed a list is written");
    fails(&["draft", "return", &store, "A", &typed], &kept, 1);
    assert_eq!(std::fs::read(&typed).expect("a file"), list);
}

/// A draft comes back typed: to standard output, to a new file, over a list; but not over bytes.
#[test]
fn drafts_come_back_typed() {
    let folder = Folder::new("back");
    let [store, list, new, legs] =
        ["store", "typed.list", "new.list", "sheet.legs"].map(|name| folder.path(name));
    answers(&["draft", "new", &store, "100"], "");
    answers(&["draft", "save", &store, "A", "blank.list"], "");
    let back = "row\n  leg 1\n  '\n";
    answers(&["draft", "return", &store, "A", "--typed"], back);
    answers(&["draft", "return", &store, "A", "-", "--typed"], back);
    std::fs::write(&list, "# an older one\na\n").expect("a file");
    std::fs::write(&legs, include_bytes!("../../../examples/figure2.legs")).expect("a file");
    for file in [&list, &new] {
        answers(&["draft", "return", &store, "A", file, "--typed"], "");
        assert_eq!(std::fs::read_to_string(file).expect("a file"), back);
    }
    let kept = format!("{legs}: not overwritten: it has bytes; without --typed bytes are written");
    fails(
        &["draft", "return", &store, "A", &legs, "--typed"],
        &kept,
        1,
    );
    let bytes = include_bytes!("../../../examples/figure2.legs");
    assert_eq!(std::fs::read(&legs).expect("a file"), bytes);
}
