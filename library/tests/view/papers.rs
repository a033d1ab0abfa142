//! A key and its question paper in one page.

use std::fs;
use std::path::Path;

use crate::held::data;
use crate::{fails, run, view, FOLDER};

/// Both sheets are in the page of a key and its paper, the key's first; the option may come before the key, and the settings are those of both.
#[test]
fn key_and_paper() {
    let page = view(&["key.legs", "--paper", "paper.legs"], b"");
    assert_eq!(view(&["--paper", "paper.legs", "key.legs"], b""), page);
    let both = data(&page);
    let sheets = both["sheets"].list();
    for (sheet, name) in sheets.iter().zip(["key", "paper"]) {
        let text =
            fs::read_to_string(Path::new(FOLDER).join(format!("{name}.txt"))).expect("an example");
        assert_eq!(format!("{}\n", sheet["sheet"].text()), text);
        assert_eq!(sheet["name"].text(), format!("{name}.legs"));
    }
    assert_eq!(sheets.len(), 2);
    let [key, paper] = [0, 1].map(|at| sheets[at]["texts"].texts());
    assert_eq!((key[7], paper[7]), ("54 kt", "....."));
    let differ = key
        .iter()
        .zip(&paper)
        .enumerate()
        .filter(|(_, (key, paper))| key != paper);
    assert_eq!(
        differ.map(|(node, _)| node).collect::<Vec<_>>(),
        [7, 11, 18, 21]
    );

    let words = [
        "key.list",
        "--paper",
        "paper.legs",
        "--settings",
        "tablet.settings",
    ];
    let bare = view(&words, b"");
    let printed = run(
        env!("CARGO_BIN_EXE_legs"),
        &["print", "paper.legs", "--settings", "tablet.settings"],
        b"",
    );
    let sheet = data(&bare)["sheets"].list()[1]["sheet"].text().to_string() + "\n";
    assert_eq!(sheet.as_bytes(), printed.stdout);
}

/// A sheet with another layout is no paper of the key, and what is other is said.
#[test]
fn other_papers() {
    let unlike = |key: &str, paper: &str, why: &str| {
        let message = format!("{paper}: not a question paper of {key}: {why}");
        fails(&[key, "--paper", paper], b"", &message, 1);
    };
    let elsewhere = "node 3 is of another kind, or has another parent";
    unlike("key.legs", "flight.legs", elsewhere);
    unlike("flight.legs", "flight.list", "its settings are different");
    unlike("key.legs", "key.list", "its settings are different");

    let typed = |list: String, why: &str| {
        let message = format!("standard input: not a question paper of flight.list: {why}");
        fails(
            &["flight.list", "--paper", "-"],
            list.as_bytes(),
            &message,
            1,
        );
    };
    typed(
        flight().replace("29 May", "... ......"),
        "node 6 is of another size",
    );
    typed(flight() + "  signed\n", "it has 67 nodes, and not 66");
    // A text that leaves all sizes as they are.
    let paper = flight().replace("29 May", "......");
    view(&["flight.list", "--paper", "-"], paper.as_bytes());
}

fn flight() -> String {
    fs::read_to_string(Path::new(FOLDER).join("flight.list")).expect("an example")
}
