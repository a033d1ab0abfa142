//! `--help`, and words that are not understood.

use crate::{misused, said};

#[test]
fn help() {
    let (answer, message, status) = said(&["--help"], b"");
    assert_eq!((message.as_str(), status), ("", Some(0)));
    for command in [
        "print FILE",
        "nodes FILE",
        "sizes FILE",
        "leaf FILE NODE",
        "place FILE LINE COLUMN",
        "mark FILE",
        "fold FILE WIDTH [BUDGET]",
        "plan FILE",
        "widen FILE",
        "blank FILE [NODE..]",
        "check FILE",
        "type FILE",
        "bytes FILE",
        "settings [FILE]",
        "draft new STORE BYTES",
        "draft save STORE NAME FILE",
        "draft forget STORE NAME",
        "draft return STORE NAME [FILE]",
        "draft list STORE",
    ] {
        assert!(answer.contains(&format!("  legs {command} ")), "{command}");
    }
    for words in [&["-h"][..], &["help"], &["help", "-h"]] {
        let same = (answer.clone(), message.clone(), status);
        assert_eq!(said(words, b""), same, "{words:?}");
    }
}

/// Of one command, by `help` in front or an option behind it, with operands or without.
#[test]
fn help_of_a_command() {
    let check = said(&["help", "type"], b"");
    let about = "legs type FILE\n  the tree of FILE as a typed list, without its settings\n";
    assert_eq!(check, (about.into(), String::new(), Some(0)));
    for words in [
        &["type", "-h"][..],
        &["type", "--help"],
        &["-h", "type"],
        &["type", "none.list", "--help"],
    ] {
        assert_eq!(said(words, b""), check, "{words:?}");
    }
    let (settings, _, _) = said(&["settings", "-h"], b"");
    for line in [
        "    --bytes             the settings as bytes, 31, or 42 with a margin\n",
        "    --settings FILE     settings of a file, which has bytes or words\n",
        "    --margin ..         left right top bottom, 0 to 16, or one number for all\n",
        "    --no-lines          the same as --lines no\n",
    ] {
        assert!(settings.contains(line), "{settings}");
    }
    let (drafts, _, _) = said(&["help", "draft"], b"");
    assert_eq!(drafts.matches("legs draft ").count(), 5);
    let (one, _, _) = said(&["help", "draft", "save"], b"");
    assert!(one.starts_with("legs draft save STORE NAME FILE\n"));
    assert!(drafts.contains(&one));
    misused(&["help", "paint"], "no command \"paint\"");
}

#[test]
fn version() {
    let version = format!("legs {}\n", env!("CARGO_PKG_VERSION"));
    for words in [&["--version"][..], &["print", "--version"]] {
        let told = (version.clone(), String::new(), Some(0));
        assert_eq!(said(words, b""), told);
    }
}

/// What follows two dashes is no option; a dash alone is standard input.
#[test]
fn operands_that_look_like_options() {
    let (_, message, status) = said(&["print", "--", "--help"], b"");
    let missing = "legs: --help: No such file or directory (os error 2)\n";
    assert_eq!((message.as_str(), status), (missing, Some(3)));
    misused(&["print", "--paint"], "no option --paint");
    misused(&["print", "-x"], "no option -x");
}

#[test]
fn usage_of_drafts() {
    let drafts = "legs draft new | save | forget | return | list";
    misused(&["draft"], drafts);
    misused(&["draft", "paint", "store"], drafts);
    misused(
        &["draft", "save", "a", "A"],
        "legs draft save STORE NAME FILE",
    );
    misused(&["draft", "forget", "a", "AB"], "\"AB\" is no letter");
    misused(
        &["draft", "new", "a", "1048577"],
        "a store has up to 1048576 bytes",
    );
}

#[test]
fn usage() {
    let fails = misused;
    fails(&[], "no command");
    fails(&["paint"], "no command \"paint\"");
    fails(&["print"], "legs print FILE");
    fails(&["print", "a", "b"], "legs print FILE");
    fails(
        &["leaf", "figure2.legs", "-1"],
        "\"-1\" is no number from 0 on",
    );
    fails(&["place", "a", "0"], "legs place FILE LINE COLUMN");
    fails(&["mark"], "legs mark FILE");
    fails(
        &["mark", "-"],
        "standard input has the places: - cannot be given",
    );
    fails(&["fold", "a"], "legs fold FILE WIDTH [BUDGET]");
    fails(
        &["fold", "a", "1", "2", "3"],
        "legs fold FILE WIDTH [BUDGET]",
    );
    fails(&["plan"], "legs plan FILE");
    fails(&["plan", "a", "b"], "legs plan FILE");
    fails(&["widen"], "legs widen FILE");
    fails(&["nodes"], "legs nodes FILE");
    fails(&["blank"], "legs blank FILE [NODE..]");
    fails(&["blank", "a", "7", "x"], "\"x\" is no number from 0 on");
    fails(&["type"], "legs type FILE");
    fails(&["bytes", "a", "b"], "legs bytes FILE");
    fails(
        &["fold", "list.legs", "60", "x"],
        "\"x\" is no number from 0 on",
    );
    fails(
        &["place", "figure2.legs", "0", "18446744073709551616"],
        "\"18446744073709551616\" is no number from 0 on",
    );
}
