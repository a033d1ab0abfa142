//! Stand-in for the crate's `grid` (papergrid), which docs/src lacks but for two files.

pub mod ansi;
pub mod config;
pub mod records;
pub mod util;

pub mod dimension {
    //! The original's file alone.

    include!(concat!(env!("OUT_DIR"), "/dimension.rs"));

    pub use self::pool_table_dimension::{DimensionPriority, PoolTableDimension};
}
