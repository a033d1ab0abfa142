//! The original as it is: `table_pool.rs` and what it needs from docs/src, by path, with our stand-ins for the rest.
//! The library is called `tabled`, so that the examples inside `table_pool.rs` run unchanged: `cargo test --doc -p original table_pool`.

extern crate self as papergrid;

pub use crate::grid::config;
pub use crate::table::Table;

#[path = "../../standins/grid/mod.rs"]
pub mod grid;

#[path = "../../standins/settings/mod.rs"]
pub mod settings;

#[path = "../../standins/builder/mod.rs"]
pub mod builder;

#[path = "../../standins/table.rs"]
pub mod table;

pub mod tables {
    include!(concat!(env!("OUT_DIR"), "/tables.rs"));

    pub use self::table_pool::{PoolTable, TableValue};
}
