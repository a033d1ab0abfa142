//! `legs draft`.

use std::io::Write;
use std::process::Command;

use crate::{answers, fails, legs, said, Folder, FIGURE_2};

/// Two sheets saved, one of them again, listed, returned to and forgotten.
#[test]
fn drafts() {
    let folder = Folder::new("drafts");
    let (store, sheet) = (folder.path("store"), folder.path("sheet.legs"));
    let store = store.as_str();
    let list = |lines: &str| {
        let listed = format!("name   bytes\n{lines}");
        answers(&["draft", "list", store], &listed);
    };
    answers(&["draft", "new", store, "100"], "");
    list("free: 100 of 100\n");
    answers(&["draft", "save", store, "H", "figure2.legs"], "");
    answers(&["draft", "save", store, "A", "figure2.legs"], "");
    answers(&["draft", "save", store, "H", "remarks.legs"], "");
    list("A         23\nH         32\nfree: 39 of 100\n");

    // A new file has the default settings, as has what is printed; one that is there keeps its own.
    let remarks = include_bytes!("../../../examples/remarks.legs");
    answers(&["draft", "return", store, "H", &sheet], "");
    assert_eq!(std::fs::read(&sheet).expect("a file"), remarks);
    let printed = legs(&["draft", "return", store, "H"], b"");
    assert_eq!(
        (printed.stdout.as_slice(), printed.status.code()),
        (&remarks[..], Some(0))
    );
    let figure_2 = include_bytes!("../../../examples/figure2.legs");
    std::fs::write(&sheet, figure_2).expect("a file");
    answers(&["draft", "return", store, "H", &sheet], "");
    let both = [&figure_2[..31], &remarks[31..]].concat();
    assert_eq!(std::fs::read(&sheet).expect("a file"), both);
    answers(&["draft", "return", store, "A", &sheet], "");
    answers(&["print", &sheet], FIGURE_2);

    answers(&["draft", "forget", store, "A"], "");
    list("H         32\nfree: 65 of 100\n");
    assert_eq!(folder.files(), ["sheet.legs", "store"]);
}

/// Each is a message, and leaves the store as it was; no file is written.
#[test]
fn drafts_are_refused() {
    let folder = Folder::new("refused");
    let [store, other] = ["store", "other"].map(|name| folder.path(name));
    let (store, other) = (store.as_str(), other.as_str());
    answers(&["draft", "new", store, "40"], "");
    answers(&["draft", "save", store, "B", "figure2.legs"], "");
    let before = std::fs::read(store).expect("a store");
    let refused = |words: &[&str], name: &str, message: &str| {
        fails(words, &format!("{name}: refused {message}"), 1);
        assert_eq!(std::fs::read(store).expect("a store"), before);
    };
    let no_name = "19: the name is none of A to H, or no draft has it";
    refused(
        &["draft", "save", store, "I", "figure2.legs"],
        store,
        no_name,
    );
    refused(
        &["draft", "save", store, "b", "figure2.legs"],
        store,
        no_name,
    );
    refused(&["draft", "forget", store, "A"], store, no_name);
    refused(&["draft", "return", store, "A", other], store, no_name);
    let no_room = "20: the store has no room for the tree beside the other drafts";
    refused(
        &["draft", "save", store, "A", "remarks.legs"],
        store,
        no_room,
    );
    assert_eq!(folder.files(), ["store"]);
}

/// A planning tree is no draft; what has no settings is no sheet, nor is it overwritten; and other bytes are no store.
#[test]
fn other_files_are_refused() {
    let folder = Folder::new("other");
    let [store, other] = ["store", "other"].map(|name| folder.path(name));
    let (store, other) = (store.as_str(), other.as_str());
    answers(&["draft", "new", store, "40"], "");
    answers(&["draft", "save", store, "B", "figure2.legs"], "");
    std::fs::write(other, b"\x10\x00").expect("a file");
    let before = std::fs::read(store).expect("a store");
    let (_, message, _) = said(&["draft", "save", store, "A", "flight.plan"], b"");
    assert!(message.contains("flight.plan: refused 2: "), "{message}");
    let refused = |words: &[&str], message: &str| {
        let (_, told, status) = said(words, b"");
        assert!(told.contains(message), "{told}");
        assert_eq!(status, Some(1));
    };
    refused(&["draft", "save", store, "A", other], "other: refused 1: ");
    refused(
        &["draft", "return", store, "B", other],
        "other: refused 1: ",
    );
    let no_store = "other: refused 18: the store of drafts is malformed";
    refused(&["draft", "list", other], no_store);
    refused(&["draft", "save", other, "I", "figure2.legs"], no_store);
    assert_eq!(std::fs::read(store).expect("a store"), before);
    assert_eq!(std::fs::read(other).expect("a file"), b"\x10\x00");
    assert_eq!(folder.files(), ["other", "store"]);
}

#[test]
fn stores_that_fail() {
    let folder = Folder::new("failed");
    let [store, long] = ["store", "long"].map(|name| folder.path(name));
    std::fs::write(&store, b"anything").expect("a file");
    let exists = format!("{store}: File exists (os error 17)");
    fails(&["draft", "new", &store, "8"], &exists, 3);
    assert_eq!(std::fs::read(&store).expect("a file"), b"anything");
    fails(
        &["draft", "list", "none.store"],
        "none.store: No such file or directory (os error 2)",
        3,
    );
    fails(&["draft", "list", "."], ".: not a regular file", 3);
    fails(
        &["draft", "forget", "/dev/zero", "A"],
        "/dev/zero: not a regular file",
        3,
    );
    answers(&["draft", "new", &long, "1048576"], "");
    let file = std::fs::OpenOptions::new().append(true).open(&long);
    file.and_then(|mut file| file.write_all(b"\0"))
        .expect("a byte more");
    let message = format!("{long}: over 1048576 bytes");
    fails(&["draft", "list", &long], &message, 3);
}

/// The store's new file grows past what a file may have, in its second block: the system stops the command there, or, where it is set not to, the write fails.
#[test]
fn a_save_that_is_cut_leaves_the_store() {
    let folder = Folder::new("cut");
    let store = folder.path("store");
    answers(&["draft", "new", &store, "20000"], "");
    let save = |first: &str| {
        let script = format!(
            "{first} ulimit -f 8; exec {:?} draft save {store:?} A figure2.legs",
            env!("CARGO_BIN_EXE_legs")
        );
        Command::new("sh")
            .args(["-c", &script])
            .current_dir(concat!(env!("CARGO_MANIFEST_DIR"), "/../examples"))
            .output()
            .expect("a shell")
    };
    let is_untouched = || std::fs::read(&store).is_ok_and(|bytes| bytes == [0; 20_000]);

    let failed = save("trap '' XFSZ;");
    assert_eq!(failed.status.code(), Some(3));
    assert!(is_untouched());
    assert_eq!(folder.files(), ["store"]);

    let stopped = save("");
    assert_eq!(stopped.status.code(), None);
    assert!(is_untouched());
    assert_eq!(folder.files().len(), 2);

    answers(&["draft", "save", &store, "A", "figure2.legs"], "");
    let listed = "name   bytes\nA         23\nfree: 19974 of 20000\n";
    answers(&["draft", "list", &store], listed);
    assert_eq!(folder.files().len(), 2);
}
