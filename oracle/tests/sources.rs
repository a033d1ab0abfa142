//! The original's files are those that FAITHFUL.md describes.

use std::path::{Path, PathBuf};

fn source() -> PathBuf {
    match std::env::var_os("TABLED_SRC") {
        Some(folder) => PathBuf::from(folder),
        None => Path::new(env!("CARGO_MANIFEST_DIR")).join("../../shared/docs/src"),
    }
}

/// FNV-1a, 64 bits.
fn fingerprint(bytes: &[u8]) -> u64 {
    bytes.iter().fold(0xCBF2_9CE4_8422_2325, |hash, &byte| {
        (hash ^ u64::from(byte)).wrapping_mul(0x0000_0100_0000_01B3)
    })
}

#[test]
fn the_files_are_unchanged() {
    let expected = [
        ("tables/table_pool.rs", 40381, 0x08F1_530F_4C80_D18D),
        (
            "grid/config/compact_multiline_config.rs",
            5115,
            0x2BE1_4BE9_D6F8_E8AE,
        ),
        (
            "grid/dimension/pool_table_dimension.rs",
            1096,
            0x5932_E50E_E000_D39E,
        ),
        ("settings/padding/mod.rs", 4555, 0x331F_DE45_CF66_F128),
        ("settings/style/builder.rs", 58486, 0xF4B9_9406_B766_F3AD),
        (
            "settings/style/horizontal_line.rs",
            5830,
            0x3745_CE1D_0512_65DB,
        ),
        ("builder/table_builder.rs", 15022, 0xE6B6_3959_29D5_87E8),
    ];
    let found = expected.map(|(name, _, _)| {
        let bytes = std::fs::read(source().join("src").join(name)).expect(name);
        (name, bytes.len(), fingerprint(&bytes))
    });
    assert_eq!(found, expected);
}
