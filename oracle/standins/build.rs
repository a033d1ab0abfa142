// Where the original's files are, and the module lines that name them. Read by both build scripts with `include!`.

use std::path::{Path, PathBuf};

/// The folder docs/src: the environment variable TABLED_SRC, or ../shared/docs/src seen from the project's root.
fn source() -> PathBuf {
    println!("cargo:rerun-if-env-changed=TABLED_SRC");
    let folder = match std::env::var_os("TABLED_SRC") {
        Some(folder) => PathBuf::from(folder),
        None => Path::new(env!("CARGO_MANIFEST_DIR")).join("../../../shared/docs/src"),
    };

    folder.canonicalize().unwrap_or_else(|error| {
        panic!(
            "no folder {}: {error}; set TABLED_SRC to the folder that holds INDEX.md",
            folder.display()
        )
    })
}

fn out(name: &str) -> PathBuf {
    Path::new(&std::env::var_os("OUT_DIR").expect("OUT_DIR")).join(name)
}

/// A file of the original.
fn file(source: &Path, name: &str) -> PathBuf {
    let path = source.join("src").join(name);
    assert!(path.is_file(), "no file {}", path.display());
    println!("cargo:rerun-if-changed={}", path.display());
    path
}

/// Write a line `mod name;` with the path of each file, where a stand-in includes it.
fn include(list: &str, modules: &[(&str, PathBuf)]) {
    let lines = modules
        .iter()
        .map(|(name, path)| format!("#[path = {path:?}]\nmod {name};\n"));
    std::fs::write(out(list), lines.collect::<String>()).expect("OUT_DIR can be written");
}

/// The files that both builds take as they are.
fn include_common(source: &Path) {
    let config = file(source, "grid/config/compact_multiline_config.rs");
    include("config.rs", &[("compact_multiline_config", config)]);
    let dimension = file(source, "grid/dimension/pool_table_dimension.rs");
    include("dimension.rs", &[("pool_table_dimension", dimension)]);
    let padding = file(source, "settings/padding/mod.rs");
    include("settings.rs", &[("padding", padding)]);
    let style = file(source, "settings/style/builder.rs");
    let line = file(source, "settings/style/horizontal_line.rs");
    include("style.rs", &[("builder", style), ("horizontal_line", line)]);
    let builder = file(source, "builder/table_builder.rs");
    include("builder.rs", &[("table_builder", builder)]);
}
