//! A new file of legs is on the disk before it replaces the old one, and its folder after: the calls of the built command, in order, as a library loaded before the C library reports them.

use std::fs;
use std::path::{Path, PathBuf};
use std::process::Command;

const LEGS: &str = env!("CARGO_BIN_EXE_legs");

/// A folder for one test, empty, with the library in it.
fn folder(test: &str) -> PathBuf {
    let folder = std::env::temp_dir().join(format!("legs-flushed-{test}-{}", std::process::id()));
    let _ = fs::remove_dir_all(&folder);
    fs::create_dir_all(&folder).expect("a folder");
    let folder = folder.canonicalize().expect("a folder");
    let source = concat!(env!("CARGO_MANIFEST_DIR"), "/tests/flushed.c");
    let mut cc = Command::new("cc");
    let built = cc
        .args([
            "-Wall", "-Wextra", "-Werror", "-shared", "-fPIC", source, "-o",
        ])
        .arg(folder.join("flushed.so"))
        .status();
    assert!(built.is_ok_and(|status| status.success()), "a C compiler");
    folder
}

/// What the command does to files, in order: what, and to which file of the folder; `.` is the folder itself. A file beside another has no number.
fn told(folder: &Path, words: &[&str]) -> Vec<String> {
    let told = folder.join("told");
    let _ = fs::remove_file(&told);
    let status = Command::new(LEGS)
        .args(words)
        .current_dir(folder)
        .env("LD_PRELOAD", folder.join("flushed.so"))
        .env("FLUSHED_TOLD", &told)
        .status();
    assert!(status.is_ok_and(|status| status.success()), "{words:?}");
    let lines = fs::read_to_string(told).expect("what was told");
    let prefix = folder.to_str().expect("text");
    let name = |line: &str| {
        let (what, path) = line.split_once(" /").expect("a path");
        let path = format!("/{path}");
        let name = path
            .strip_prefix(prefix)
            .expect("a path in the folder")
            .trim_start_matches('/');
        let name = match name.strip_suffix(".new") {
            Some(beside) => {
                beside
                    .rsplit_once('.')
                    .map_or(beside, |(it, _)| it)
                    .to_string()
                    + ".new"
            }
            None if name.is_empty() => ".".to_string(),
            None => name.to_string(),
        };
        format!("{what} {name}")
    };
    let mut told: Vec<String> = lines.lines().map(name).collect();
    told.dedup();
    told
}

/// A draft is saved in a file beside the store; it is flushed before it has the store's place, and the folder after.
#[test]
fn a_store_is_flushed_before_it_is_there() {
    let folder = folder("store");
    let list = folder.join("a.list");
    fs::write(&list, "row\n  a\n  b\n").expect("a list");
    assert_eq!(
        told(&folder, &["draft", "new", "store", "9000"]),
        ["flushed store", "flushed ."]
    );
    let replaced = [
        "written .store.new",
        "flushed .store.new",
        "renamed to store",
        "flushed .",
    ];
    assert_eq!(
        told(&folder, &["draft", "save", "store", "A", "a.list"]),
        replaced
    );
    assert_eq!(told(&folder, &["draft", "forget", "store", "A"]), replaced);
    fs::remove_dir_all(folder).expect("a folder");
}

/// So is a file that a draft is put in.
#[test]
fn a_file_is_flushed_before_it_is_there() {
    let folder = folder("file");
    fs::write(folder.join("a.list"), "row\n  a\n  b\n").expect("a list");
    told(&folder, &["draft", "new", "store", "90"]);
    told(&folder, &["draft", "save", "store", "A", "a.list"]);
    let replaced = [
        "written .a.legs.new",
        "flushed .a.legs.new",
        "renamed to a.legs",
        "flushed .",
    ];
    assert_eq!(
        told(&folder, &["draft", "return", "store", "A", "a.legs"]),
        replaced
    );
    assert_eq!(
        told(&folder, &["draft", "return", "store", "A", "a.legs"]),
        replaced
    );
    fs::remove_dir_all(folder).expect("a folder");
}
