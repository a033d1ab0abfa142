//! `legs fold`.

use crate::{answers, fails, misused, said, Folder, DEFAULTS};

/// What was found goes to standard error, and the sheet alone to standard output.
fn folds(words: &[&str], sheet: &str, found: &str) {
    let words = [&["fold", "list.legs"], words].concat();
    let told = (sheet.into(), format!("{found}\n"), Some(0));
    assert_eq!(said(&words, b""), told, "{words:?}");
}

const SHEET: &str = "\
+-----------------+-----------------+----------------+
| 1 Home pad      | 5 Jetty         | 9 Reed bed     |
|                 +-----------------+----------------+
+-----------------+ 6 Pump house    | 10 Gauge       |
| 2 Dam, west end +-----------------+ read twice     |
+-----------------+ 7 North shore   +----------------+
| 3 Spillway      +-----------------+ 11 South shore |
+-----------------+ 8 Mast          +----------------+
| 4 Dam, east end | keep 50 m clear | 12 Home pad    |
+-----------------+-----------------+----------------+
";

/// The list of twelve legs in three Columns and in one; then what a budget leaves.
#[test]
fn fold() {
    folds(
        &["60"],
        SHEET,
        "columns: 4 4 4; height: 8, tries: 23, miss: 0",
    );
    let list = include_str!("../../../examples/list.txt");
    folds(&["17"], list, "columns: 12; height: 25, tries: 23, miss: 0");
    folds(
        &["60", "0"],
        list,
        "columns: 12; height: 25, tries: 0, miss: 23",
    );
    let (_, two, status) = said(&["fold", "list.legs", "60", "9"], b"");
    assert_eq!(two, "columns: 8 4; height: 16, tries: 9, miss: 14\n");
    assert_eq!(status, Some(0));
}

/// The folded list, typed: its sheet is the one that was printed, so that its places can be looked up.
#[test]
fn folded_lists() {
    let folder = Folder::new("folded");
    let file = folder.path("folded.list");
    let (list, found, status) = said(&["fold", "list.list", "60", "--list"], b"");
    assert_eq!(found, "columns: 4 4 4; height: 8, tries: 23, miss: 0\n");
    assert_eq!(status, Some(0));
    assert!(list.starts_with("row\n  column\n    1 Home pad\n    2 Dam, west end\n"));
    std::fs::write(&file, list).expect("a file");
    answers(&["print", &file], SHEET);
    let gauge = "4 40: node 13, line 2, column 4 of its block: 10 Gauge ..\n";
    answers(&["place", &file, "4", "40"], gauge);
    // A Row that is too large for a sheet is a list all the same.
    let wide = [&DEFAULTS[..], b"\x03\x02\x58", &b"\x01\x00\x00".repeat(200)].concat();
    let (list, _, status) = said(&["fold", "-", "600", "--list"], &wide);
    assert_eq!((list.lines().count(), status), (401, Some(0)));
    let both = ["fold", "list.list", "60", "--list", "--json"];
    misused(&both, "only one of --list, --tsv and --json");
}

#[test]
fn folds_as_records() {
    let words = |option| ["fold", "list.list", "60", "9", option];
    answers(
        &words("--tsv"),
        "columns\theight\ttries\tmiss\n8 4\t16\t9\t14\n",
    );
    let json = "{\"columns\": [8, 4], \"height\": 16, \"tries\": 9, \"miss\": 14}\n";
    answers(&words("--json"), json);
}

#[test]
fn folds_are_refused() {
    let group = "figure2.legs: refused 15: the tree is no Column of 1 to 200 Cells";
    fails(&["fold", "figure2.legs", "60"], group, 1);
    let narrow = "list.legs: refused 16: a cell is wider than the given width";
    fails(&["fold", "list.legs", "16"], narrow, 1);
    fails(&["fold", "list.legs", "16", "0"], narrow, 1);

    // A Row of 200 Columns fits the width, but no sheet.
    let list = [&DEFAULTS[..], b"\x03\x02\x58", &b"\x01\x00\x00".repeat(200)].concat();
    let (_, message, status) = said(&["fold", "-", "600"], &list);
    let large = "standard input: refused 6: the sheet would have 601 columns, 400 is the limit\n";
    assert_eq!(message, format!("legs: {large}"));
    assert_eq!(status, Some(1));
}
