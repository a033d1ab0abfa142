//! The original with trace lines, which its build script inserts; else as crate `original`.

extern crate self as papergrid;

pub use crate::grid::config;
pub use crate::table::Table;

pub mod trace;

#[path = "../../standins/grid/mod.rs"]
pub mod grid;

#[path = "../../standins/settings/mod.rs"]
pub mod settings;

#[path = "../../standins/builder/mod.rs"]
pub mod builder;

#[path = "../../standins/table.rs"]
pub mod table;

pub mod tables {
    include!(concat!(env!("OUT_DIR"), "/tables.rs"));

    pub use self::table_pool::{
        traced_dimensions as dimensions, traced_short_splits as short_splits,
        traced_short_splits3 as short_splits3, traced_squash_splits as squash_splits, PoolTable,
        TableValue,
    };
}
