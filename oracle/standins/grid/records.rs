//! Stand-in for `grid::records`. It assumes nothing about printing: `PoolTable::new` walks rows and cells in order, `Text` keeps its text.

/// `PoolTable::with` passes it to an option, which never looks at it.
#[derive(Debug, Clone, Copy, Default)]
pub struct EmptyRecords {
    _none: (),
}

/// Rows of cells.
pub trait IntoRecords {
    type Cell;
    type IterColumns: IntoIterator<Item = Self::Cell>;
    type IterRows: IntoIterator<Item = Self::IterColumns>;

    fn iter_rows(self) -> Self::IterRows;
}

impl<T> IntoRecords for T
where
    T: IntoIterator,
    T::Item: IntoIterator,
{
    type Cell = <T::Item as IntoIterator>::Item;
    type IterColumns = T::Item;
    type IterRows = T;

    fn iter_rows(self) -> Self::IterRows {
        self
    }
}

pub mod vec_records {
    /// A text. The original also keeps its lines and their widths; here they are worked out where they are needed.
    #[derive(Debug, Clone, Default, PartialEq, Eq)]
    pub struct Text<S> {
        text: S,
    }

    impl<S> Text<S> {
        pub fn new(text: S) -> Self {
            Self { text }
        }

        pub fn into_inner(self) -> S {
            self.text
        }
    }

    impl<S: AsRef<str>> AsRef<str> for Text<S> {
        fn as_ref(&self) -> &str {
            self.text.as_ref()
        }
    }
}
