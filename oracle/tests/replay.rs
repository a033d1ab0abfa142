//! What the program `replay` reads is what the oracle makes.

use std::fs;
use std::path::Path;

#[test]
fn files() {
    let folder = Path::new(env!("CARGO_MANIFEST_DIR")).join("../crates/replay");
    let files = oracle::replay::files(1);
    let names: String = files.iter().map(|(name, _)| format!("{name}\n")).collect();
    assert_eq!(fs::read_to_string(folder.join("args")).unwrap(), names);
    for (name, lines) in files {
        let kept = fs::read_to_string(folder.join("data").join(name)).unwrap();
        assert!(kept == lines, "{name} is not what `oracle replay 1` writes");
    }
}
