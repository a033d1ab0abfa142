//! `Style` and `HorizontalLine` are the original's files; `VerticalLine` is a stand-in that the oracle calls nowhere.

include!(concat!(env!("OUT_DIR"), "/style.rs"));

pub use self::builder::{On, Style};
pub use self::horizontal_line::HorizontalLine;

#[derive(Debug, Clone, Copy)]
pub struct VerticalLine<T, B, I> {
    line: crate::grid::config::VerticalLine<char>,
    sides: core::marker::PhantomData<(T, B, I)>,
}

impl<T, B, I> VerticalLine<T, B, I> {
    pub const fn into_inner(&self) -> crate::grid::config::VerticalLine<char> {
        self.line
    }
}
