//! Links the archive of the proved functions: libleg_sheet.a in the folder that LEG_SHEET_LIB_DIR names; or crates/c_api/out/libc_api.a of the project, which `library/archive` writes; or
//! lib/libleg_sheet.a under the prefix where `./install` has put it, and this crate as share/leg_sheet/rust.

use std::env;
use std::path::{Path, PathBuf};

const ASKED: &str = "LEG_SHEET_LIB_DIR";

fn main() {
    println!("cargo:rerun-if-env-changed={ASKED}");
    let here = Path::new(env!("CARGO_MANIFEST_DIR"));
    let places = match env::var_os(ASKED) {
        Some(folder) => vec![(PathBuf::from(folder), "leg_sheet")],
        None => vec![
            (here.join("../crates/c_api/out"), "c_api"),
            (here.join("../../../lib"), "leg_sheet"),
        ],
    };
    let archives = places
        .iter()
        .map(|(folder, name)| folder.join(format!("lib{name}.a")));
    let archives: Vec<PathBuf> = archives.collect();
    let Some(at) = archives.iter().position(|archive| archive.is_file()) else {
        panic!("there is none of {archives:?}: run `library/archive` in the project, or set {ASKED} to the folder of libleg_sheet.a");
    };
    let (folder, name) = &places[at];
    println!("cargo:rerun-if-changed={}", archives[at].display());
    println!("cargo:rustc-link-search=native={}", folder.display());
    println!("cargo:rustc-link-lib=static={name}");
}
