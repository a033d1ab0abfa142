//! `legs check`.

use crate::{answers, said, DEFAULTS};

#[test]
fn check() {
    answers(
        &["check", "flight.legs"],
        "settings: accepted\ntree: accepted, nodes: 66\nsheet: accepted, 74 columns by 23 lines\n",
    );
    answers(
        &["check", "binder.legs"],
        "settings: accepted\ntree: accepted, nodes: 66\nsheet: accepted, 82 columns by 24 lines\n",
    );
    let refused = "settings: accepted\n\
                   tree: accepted, nodes: 47\n\
                   sheet: refused 6: the sheet would have 406 columns, 400 is the limit\n";
    let said = said(&["check", "refused.legs"], b"");
    assert_eq!(said, (refused.into(), String::new(), Some(1)));
}

/// A sheet without lines, and one of no columns.
#[test]
fn checks_without_lines() {
    answers(
        &["check", "tablet.legs"],
        "settings: accepted\ntree: accepted, nodes: 66\nsheet: accepted, 67 columns by 11 lines\n",
    );
    let bare = [&DEFAULTS[..3], &[0; 19], &DEFAULTS[22..]].concat();
    for (tree, lines) in [(&b"\x01\x00\x00"[..], 1), (b"\x01\x00\x02\n\n", 3)] {
        let (answer, _, status) = said(&["check", "-"], &[&bare, tree].concat());
        let sheet = format!("sheet: accepted, 0 columns by {lines} lines");
        assert_eq!((answer.lines().last(), status), (Some(&sheet[..]), Some(0)));
    }
}

#[test]
fn check_looks_at_a_tree_behind_bad_settings() {
    let (answer, _, status) = said(&["check", "-"], &[0x10; 40]);
    let words = |line: &str| line.split(": ").take(2).collect::<Vec<_>>().join(" ");
    let verdicts: Vec<String> = answer.lines().map(words).collect();
    assert_eq!(
        verdicts,
        ["settings refused 1", "tree refused 2", "sheet refused 1"]
    );
    assert_eq!(status, Some(1));
}

/// What `legs check` answers of a typed list with mistakes: each as it is shown elsewhere, then how many there are, and whether there may be more.
fn listed(list: impl AsRef<[u8]>, mistakes: &[&str], last: &str) {
    let (answer, message, status) = said(&["check", "-"], list.as_ref());
    assert_eq!((message.as_str(), status), ("", Some(1)));
    let places = answer
        .lines()
        .filter_map(|line| line.strip_prefix("standard input:"));
    let places: Vec<&str> = places.collect();
    assert_eq!(places, mistakes);
    assert_eq!(answer.lines().last(), Some(last));
}

const A: &str = "á (U+00E1) cannot be printed, only ASCII can: write a";
const ESCAPE: &str =
    "only n or a backslash is allowed after a backslash: type \\\\ for a backslash";
const TAB: &str = "a tab (U+0009) is not allowed here: type two spaces for a level";
const REST: &str = "; what follows the last one was not checked";

/// After a character that is not allowed it goes on, and lists those behind it.
#[test]
fn all_mistakes() {
    listed(
        "row\n  Házi – 47°\n  C:\\survey\\x\n  b\n",
        &[
            &format!("2:4: {A}"),
            "2:9: – (en dash, U+2013) cannot be printed, only ASCII can: write -",
            "2:15: ° (degree sign, U+00B0) cannot be printed, only ASCII can: write deg",
            &format!("3:6: {ESCAPE}"),
            &format!("3:13: {ESCAPE}"),
        ],
        "5 mistakes",
    );
    let many = "row\n".to_string() + &"  á\n".repeat(200);
    let (answer, _, _) = said(&["check", "-"], many.as_bytes());
    assert!(answer.starts_with(&format!("standard input:2:3: {A}\n  á\n  ^\n")));
    assert_eq!(answer.lines().count(), 301);
    assert!(answer.ends_with(&format!("\n100 mistakes{REST}\n")));
}

/// A tab in front is two spaces, and a byte order mark nothing; the columns stay those of the list as it was typed.
#[test]
fn mistakes_behind_a_front() {
    listed(
        "column\n\trow\n\t\t\tá\n\t\\\n",
        &[
            &format!("2:1: {TAB}"),
            &format!("3:1: {TAB}"),
            &format!("3:4: {A}"),
            "3:4: two levels deeper than row in line 2: two spaces are one level",
        ],
        &format!("4 mistakes{REST}"),
    );
    listed(
        "\u{FEFF}row\n  á\n",
        &[
            "1:1: the file begins with a byte order mark: save it as UTF-8 without BOM",
            &format!("2:3: {A}"),
        ],
        "2 mistakes",
    );
    listed(
        "\u{FEFF}á\n",
        &[
            "1:1: the file begins with a byte order mark: save it as UTF-8 without BOM",
            &format!("1:4: {A}"),
        ],
        "2 mistakes",
    );
}

/// It ends with the first mistake of another kind, and with a file that is no text.
#[test]
fn where_the_list_of_mistakes_ends() {
    listed(
        "row\n  á\nrow\n  á\n",
        &[
            &format!("2:3: {A}"),
            "3:1: only one line can be at the left edge, and line 1 is: put row or column above it, and two more spaces in front of every line",
        ],
        &format!("2 mistakes{REST}"),
    );
    listed(
        "Column\n  á\n",
        &[
            "1:1: 'Column' is a text, and line 2 is inside it. Did you mean the word column?",
            &format!("2:3: {A}"),
        ],
        &format!("2 mistakes{REST}"),
    );
    listed(
        b"c\0o\0l\0\xE1\0",
        &[" the file is UTF-16: save it as UTF-8 without BOM"],
        &format!("1 mistake{REST}"),
    );
    let shown = "mistake.list:8:6: a level is two spaces, and this line begins with an odd number of them\n     \
                 Dam, west end\n     ^\n";
    let told = (format!("{shown}1 mistake{REST}\n"), String::new(), Some(1));
    assert_eq!(said(&["check", "mistake.list"], b""), told);
}
