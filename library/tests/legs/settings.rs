//! `legs settings`, `--settings`, and the options that name a setting.

use crate::{answers, fails, legs, misused, said, Folder, DEFAULTS};

/// The option for settings.
const OPTION: &str = "--settings";

/// They replace the default ones and a file's own, and are the front of a file.
#[test]
fn settings_of_another_file() {
    let flight = include_str!("../../../examples/flight.txt");
    let binder = include_str!("../../../examples/binder.txt");
    answers(&["print", "flight.list", OPTION, "flight.settings"], flight);
    answers(&["print", OPTION, "flight.legs", "flight.list"], flight);
    answers(&[OPTION, "binder.settings", "print", "flight.list"], binder);
    answers(&["print", "flight.legs", OPTION, "binder.settings"], binder);
    answers(&["print", "binder.legs", OPTION, "flight.legs"], flight);
    let front = include_bytes!("../../../examples/binder.settings");
    let printed = said(&["print", "flight.list", OPTION, "-"], front);
    assert_eq!(printed, (binder.into(), String::new(), Some(0)));
}

#[test]
fn settings_that_are_none() {
    for words in [["print", "list.list"], ["check", "list.legs"]] {
        let words = [&words[..], &[OPTION, "flight.list"]].concat();
        let (answer, message, status) = said(&words, b"");
        let line = message.lines().next().unwrap_or_default();
        assert!(line.starts_with("flight.list:2:1: no setting is called 'column': margin, "));
        assert_eq!((answer.as_str(), status), ("", Some(1)));
    }
    let none = "standard input: refused 1: the settings are malformed or out of range";
    let (_, message, status) = said(&["print", "list.list", OPTION, "-"], &[0x10; 31]);
    assert_eq!((message, status), (format!("legs: {none}\n"), Some(1)));
    let missing = "none: No such file or directory (os error 2)";
    fails(&["print", "list.list", OPTION, "none"], missing, 3);
    let once = "--settings: given twice";
    misused(&["print", "list.list", OPTION], "--settings wants a value");
    misused(&["print", "a", OPTION, "b", OPTION, "c"], once);
    misused(
        &["print", "-", OPTION, "-"],
        "standard input is read once: give - once",
    );
    let places = "standard input has the places: - cannot be given";
    misused(&["mark", "list.list", OPTION, "-"], places);
    misused(&["type", "a", OPTION, "b"], "legs type takes no --settings");
    let list = ["draft", "list", "a", OPTION, "b"];
    misused(&list, "legs draft list takes no --settings");
}

/// What it wrote, where nothing is wrong.
fn written(words: &[&str], input: &[u8]) -> Vec<u8> {
    let output = legs(words, input);
    let message = String::from_utf8_lossy(&output.stderr);
    assert_eq!(
        (&*message, output.status.code()),
        ("", Some(0)),
        "{words:?}"
    );
    output.stdout
}

/// Each option, and the bytes of the default record that it changes, from which one on.
const OPTIONS: [(&[&str], usize, &[u8]); 22] = [
    (
        &["--margin", "8,0,1,16"],
        31,
        b"\x11\x00\x08\x08\x00\x01\x10    ",
    ),
    (
        &["--margin", "8 0 1 16"],
        31,
        b"\x11\x00\x08\x08\x00\x01\x10    ",
    ),
    (&["--margin=2"], 31, b"\x11\x00\x08\x02\x02\x02\x02    "),
    (
        &["--margin-fill", "<>^v"],
        31,
        b"\x11\x00\x08\x00\x00\x00\x00<>^v",
    ),
    (
        &["--margin-fill", "."],
        31,
        b"\x11\x00\x08\x00\x00\x00\x00....",
    ),
    (&["--lines", "no"], 3, &[0; 15]),
    (&["--no-lines"], 3, &[0; 15]),
    (&["--lines", "yes"], 3, b"--||-|+++++++++"),
    (&["--marks", "figure"], 3, b"-_()hv123456789"),
    (&["--marks", "ascii"], 3, b"--||-|+++++++++"),
    (&["--marks", "=_()hv/\\T[]*<>#"], 3, b"=_()hv/\\T[]*<>#"),
    (&["--padding", "3,2,1,0"], 18, b"\x03\x02\x01\x00"),
    (&["--padding-fill", "<>^v"], 22, b"<>^v"),
    (&["--padding-fill", "'"], 22, b"''''"),
    (&["--align", "center"], 26, b"\x01"),
    (&["--align", "right"], 26, b"\x02"),
    (&["--vertical", "center"], 27, b"\x01"),
    (&["--vertical", "bottom"], 27, b"\x02"),
    (&["--align-lines", "each"], 28, b"\x01"),
    (&["--spare-width", "first"], 29, b"\x00"),
    (&["--spare-width", "all"], 29, b"\x02"),
    (&["--spare-height", "last"], 30, b"\x01"),
];

/// An option's bytes by `legs settings`, by a file in words that it writes, and in front of a tree.
#[test]
fn each_option_and_its_bytes() {
    let folder = Folder::new("options");
    let file = folder.path("words");
    for (option, at, changed) in OPTIONS {
        let mut bytes = DEFAULTS.to_vec();
        bytes.truncate(at.max(31));
        let rest = bytes.split_off(at);
        bytes.extend(changed);
        bytes.extend(rest.get(changed.len()..).unwrap_or_default());
        let settings = |first: &[&str]| written(&[first, option].concat(), b"");
        assert_eq!(settings(&["settings", "--bytes"]), bytes, "{option:?}");
        let words = settings(&["settings"]);
        assert_eq!(written(&["settings", "-", "--bytes"], &words), bytes);
        std::fs::write(&file, words).expect("a file");
        let tree = b"\x01\x00\x01a";
        let both = [&bytes[..], tree].concat();
        assert_eq!(written(&["bytes", "-", OPTION, &file], b"a\n"), both);
        assert_eq!(written(&[&["bytes", "-"], option].concat(), b"a\n"), both);
    }
}

/// The settings of every example in words, and read back.
#[test]
fn the_examples_in_words() {
    let folder = concat!(env!("CARGO_MANIFEST_DIR"), "/../examples");
    let mut count = 0;
    for entry in std::fs::read_dir(folder).expect("a folder") {
        let path = entry.expect("an entry").path();
        if path.extension().is_none_or(|ending| ending != "settings") {
            continue;
        }
        let bytes = std::fs::read(&path).expect("an example");
        let path = path.to_str().expect("text");
        let words = written(&["settings", path], b"");
        assert_eq!(written(&["settings", "-", "--bytes"], &words), bytes);
        assert_eq!(written(&["settings", path, "--bytes"], b""), bytes);
        count += 1;
    }
    assert_eq!(count, 7);
    let binder = written(&["settings", "binder.words", "--bytes"], b"");
    assert_eq!(binder, include_bytes!("../../../examples/binder.settings"));
    answers(
        &["print", "flight.list", OPTION, "binder.words"],
        include_str!("../../../examples/binder.txt"),
    );
    // A file with a tree behind its settings will do, too.
    assert_eq!(
        written(&["settings", "binder.legs", "--bytes"], b""),
        binder
    );
}

/// The default settings, over these FILE's own, over these those of `--settings`, over these the options, from left to right.
#[test]
fn settings_over_settings() {
    let bytes = |words: &[&str], input: &[u8]| written(words, input)[..31].to_vec();
    let record = |align: u8, width: u8| {
        let mut bytes = DEFAULTS.to_vec();
        (bytes[26], bytes[29]) = (align, width);
        bytes
    };
    let own = record(1, 2);
    let input = [&own[..], b"\x01\x00\x01a"].concat();
    assert_eq!(bytes(&["bytes", "-"], &input), own);
    // A file in words changes what it names, one of bytes all.
    let folder = Folder::new("over");
    let (words, record_file) = (folder.path("words"), folder.path("bytes"));
    std::fs::write(&words, "spare-width first # and no more\n").expect("a file");
    std::fs::write(&record_file, &DEFAULTS[..]).expect("a file");
    let over = |file: &str| bytes(&["bytes", "-", OPTION, file], &input);
    assert_eq!(over(&words), record(1, 0));
    assert_eq!(over(&record_file), record(0, 1));
    let both = ["bytes", "-", "--align", "right", OPTION, &words];
    assert_eq!(bytes(&both, &input), record(2, 0));
    let named = ["--spare-width", "all", "bytes", "-", OPTION, &words];
    assert_eq!(bytes(&named, &input), record(1, 2));
    // Settings that are bad replace nothing, unless all of them are replaced.
    let bad = [&[0x10; 31][..], b"\x01\x00\x01a"].concat();
    let replaced = ["bytes", "-", OPTION, &record_file];
    assert_eq!(bytes(&replaced, &bad), DEFAULTS);
    for option in [[OPTION, &words], ["--align", "left"]] {
        let (_, message, status) = said(&[&["bytes", "-"][..], &option].concat(), &bad);
        assert!(message.starts_with("legs: standard input: refused 1: "));
        assert_eq!(status, Some(1));
    }
}

/// Every command that reads a sheet takes them.
#[test]
fn options_on_every_command() {
    for words in [
        &["print", "-"][..],
        &["sizes", "-"],
        &["leaf", "-", "0"],
        &["place", "-", "1", "1"],
        &["nodes", "-"],
        &["plan", "-"],
        &["widen", "-"],
        &["check", "-"],
    ] {
        let plain = written(words, b"a\n");
        let padded = [words, &["--padding", "3,2,1,0"]].concat();
        let padded = written(&padded, b"a\n");
        let same = ["place", "widen"].contains(&words[0]);
        assert_eq!(plain == padded, same, "{words:?}");
    }
    let (marked, _, status) = said(&["mark", "figure2.list", "--margin", "1"], b"1 1\n");
    assert!(marked.contains("node 1"), "{marked}");
    assert_eq!(status, Some(0));
    let (folded, _, _) = said(&["fold", "list.list", "60", "--no-lines"], b"");
    assert!(!folded.contains('|') && folded.contains("Home pad"));
    misused(
        &["type", "a", "--margin", "1"],
        "legs type takes no --margin",
    );
    misused(
        &["draft", "list", "a", "--no-lines"],
        "legs draft list takes no --no-lines",
    );
}

/// What is wrong with an option is a matter of usage; in a file it is shown with its place.
#[test]
fn settings_that_are_wrong() {
    let wrong = |option: &[&str], message: &str| {
        misused(&[&["settings"], option].concat(), message);
        misused(&[&["print", "list.list"], option].concat(), message);
    };
    wrong(&["--margin", "17"], "--margin: 17 is over 16");
    wrong(
        &["--margin", "1,2"],
        "--margin: four numbers, left right top bottom, or one",
    );
    wrong(
        &["--align", "middle"],
        "--align: 'middle' is none of left, center, right",
    );
    wrong(
        &["--marks", "+"],
        "--marks: fifteen characters, and these are 1",
    );
    wrong(
        &["--marks", "ascii", "--no-lines"],
        "--lines: without lines there are no marks",
    );
    wrong(&["--margin", "1", "--margin", "2"], "--margin: given twice");
    wrong(&["--no-lines", "--lines", "no"], "--lines: given twice");
    wrong(&["--margin"], "--margin wants a value");
    wrong(&["--no-lines=1"], "--no-lines takes no value");
    wrong(&["--margins", "1"], "no option --margins");

    let words = b"# binder\nmargin 17 0 1 0\n";
    let shown = "standard input:2:8: margin: 17 is over 16\nmargin 17 0 1 0\n       ^\n";
    for command in [&["settings", "-"][..], &["print", "list.list", OPTION, "-"]] {
        let told = (String::new(), shown.into(), Some(1));
        assert_eq!(said(command, words), told);
    }
}
