//! Stand-in for the crate's `settings`. `Style`, its `HorizontalLine` and `Padding` are the original's files.

use crate::grid::config::Entity;

include!(concat!(env!("OUT_DIR"), "/settings.rs"));

pub mod style;

pub use self::padding::Padding;
pub use self::style::Style;

/// What changes a table's records, configuration and dimension.
pub trait TableOption<R, C, D> {
    fn change(self, records: &mut R, cfg: &mut C, dimension: &mut D);

    fn hint_change(&self) -> Option<Entity> {
        None
    }
}

/// The frame that `Style::frame` takes; the oracle calls it nowhere.
#[derive(Debug, Clone, Copy)]
pub struct Border<T, B, L, R> {
    inner: crate::grid::config::Border<char>,
    sides: core::marker::PhantomData<(T, B, L, R)>,
}

impl<T, B, L, R> Border<T, B, L, R> {
    pub const fn into_inner(&self) -> crate::grid::config::Border<char> {
        self.inner
    }
}
