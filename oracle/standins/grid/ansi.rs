//! Stand-in for `grid::ansi`. It assumes: no colours. The only value is the empty one.

/// A colour that colours nothing: what it writes before and after is the empty text.
#[derive(Debug, Clone, Copy, Default, PartialEq, Eq, PartialOrd, Ord, Hash)]
pub struct ANSIStr<'a> {
    prefix: &'a str,
    suffix: &'a str,
}

impl<'a> ANSIStr<'a> {
    pub const fn empty() -> Self {
        Self {
            prefix: "",
            suffix: "",
        }
    }

    pub const fn get_prefix(&self) -> &'a str {
        self.prefix
    }

    pub const fn get_suffix(&self) -> &'a str {
        self.suffix
    }

    pub const fn is_empty(&self) -> bool {
        self.prefix.is_empty() && self.suffix.is_empty()
    }
}
