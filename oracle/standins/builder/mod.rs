//! `Builder` is the original's file; `IndexBuilder` is a stand-in that the oracle calls nowhere.

include!(concat!(env!("OUT_DIR"), "/builder.rs"));

pub use self::table_builder::Builder;

#[derive(Debug, Clone)]
pub struct IndexBuilder;

impl From<Builder> for IndexBuilder {
    fn from(_: Builder) -> Self {
        unimplemented!("the oracle never builds an index")
    }
}
