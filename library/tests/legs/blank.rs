//! `legs blank`.

use crate::{answers, fails, legs, misused, said, Folder, DEFAULTS, FIGURE_2};

/// The question paper of a key, which is a file as the key is: its settings with a margin as they are, its answers blanked.
#[test]
fn blank() {
    let key = include_bytes!("../../../examples/key.legs");
    let paper = include_bytes!("../../../examples/paper.legs");
    let blanked = |words: &[&str], input: &[u8]| {
        let output = legs(words, input);
        assert_eq!((output.stderr.len(), output.status.code()), (0, Some(0)));
        output.stdout
    };
    assert_eq!(
        blanked(&["blank", "key.legs", "7", "11", "18", "21"], b""),
        paper
    );
    let words = ["blank", "-", "21", "7", "18", "11", "7"];
    assert_eq!(blanked(&words, key), paper);
    let printed = said(&["print", "-"], paper);
    let sheet = include_str!("../../../examples/paper.txt");
    assert_eq!(printed, (sheet.into(), String::new(), Some(0)));

    // All must be said: then every text is blanked, and nothing else.
    let all = blanked(&["blank", "figure2.legs", "--all"], b"");
    let dotted = FIGURE_2.replace(|byte: char| byte.is_ascii_lowercase(), ".");
    let printed = said(&["print", "-"], &all);
    assert_eq!(printed, (dotted, String::new(), Some(0)));
    // A sheet that is too large has its paper, too.
    let large = blanked(&["blank", "refused.legs", "1"], b"");
    assert_eq!(large[..31], DEFAULTS[..]);
    assert_eq!(large[31..42], *b"\x02\x01\x95\x01\x00\x05.....");
}

#[test]
fn blanks_are_refused() {
    let no_cell = "refused 9: the number names no leaf or, where texts are blanked, no Cell";
    for node in ["0", "1", "22", "65543", "18446744073709551615"] {
        let message = format!("key.legs: {no_cell}");
        fails(&["blank", "key.legs", "7", node], &message, 1);
    }
    let (_, message, status) = said(&["blank", "flight.plan", "0"], b"");
    assert!(message.contains("flight.plan: refused 2: "), "{message}");
    assert_eq!(status, Some(1));
    let (_, message, status) = said(&["blank", "-", "--all"], &[0x10; 99]);
    let settings = "refused 1: the settings are malformed or out of range";
    assert_eq!(message, format!("legs: standard input: {settings}\n"));
    assert_eq!(status, Some(1));
    let missing = "none.legs: No such file or directory (os error 2)";
    fails(&["blank", "none.legs", "--all"], missing, 3);
}

/// The texts in lines of the typed list, as an editor counts them, beside nodes or alone.
#[test]
fn blanks_by_lines() {
    let paper = include_bytes!("../../../examples/paper.legs");
    let settings = ["--settings", "key.settings"];
    for words in [
        &["blank", "key.list", "--lines", "9,13,20,23"][..],
        &["blank", "key.list", "--lines", "23, 9, 13, 20, 9"],
        &["blank", "key.list", "7", "11", "--lines=20,23"],
    ] {
        let output = legs(&[words, &settings].concat(), b"");
        assert_eq!((output.stderr.len(), output.status.code()), (0, Some(0)));
        assert_eq!(output.stdout, paper, "{words:?}");
    }
    let mistaken = |line: &str, message: &str| {
        let told = said(
            &["blank", "-", "--lines", line],
            b"# a key\nrow\n\n  a\n  column\n",
        );
        let shown = (
            String::new(),
            format!("standard input:{message}\n^\n"),
            Some(1),
        );
        assert_eq!(told, shown);
    };
    let only = "and only texts are blanked";
    mistaken("4,1", &format!("1:1: this is a comment, {only}\n# a key"));
    mistaken("2", &format!("2:1: this is a row, {only}\nrow"));
    mistaken("3", &format!("3:1: this is a blank line, {only}\n"));
    let (_, message, status) = said(&["blank", "-", "--lines", "5"], b"row\n\n\n\n  column\n");
    assert_eq!(
        message,
        format!("standard input:5:3: this is a column, {only}\n  column\n  ^\n")
    );
    assert_eq!(status, Some(1));
    misused(
        &["blank", "key.list", "--lines", "9,25"],
        "key.list has no line 25",
    );
    misused(
        &["blank", "key.list", "--lines", "0"],
        "key.list has no line 0",
    );
    misused(
        &["blank", "key.list", "--lines", "9,x"],
        "\"x\" is no number from 0 on",
    );
    misused(
        &["blank", "key.list", "--lines", ""],
        "\"\" is no number from 0 on",
    );
    misused(
        &["blank", "key.legs", "--lines", "9"],
        "--lines are lines of a typed list, and key.legs is not one",
    );
}

/// What is blanked is said, some or all.
#[test]
fn what_is_blanked_is_said() {
    let which = "say which texts to blank: by NODE.., by --lines LINE,LINE.., or --all alone";
    misused(&["blank", "key.list"], which);
    misused(&["blank", "key.list", "7", "--all"], which);
    misused(&["blank", "key.list", "--lines", "9", "--all"], which);
}

/// The paper as a typed list, without settings.
#[test]
fn papers_are_typed() {
    let list = b"row\n  Q1\n  54 kt\\n'\n  'row\n";
    let typed = said(&["blank", "-", "2", "3", "--typed"], list);
    let paper = "row\n  Q1\n  .....\\n.\n  ...\n";
    assert_eq!(typed, (paper.into(), String::new(), Some(0)));
    let folder = Folder::new("paper");
    let file = folder.path("paper.list");
    let words = ["blank", "key.list", "--lines", "9,13,20,23", "--typed"];
    std::fs::write(&file, legs(&words, b"").stdout).expect("a file");
    let sheet = include_str!("../../../examples/paper.txt");
    answers(&["print", &file, "--settings", "key.settings"], sheet);
}
