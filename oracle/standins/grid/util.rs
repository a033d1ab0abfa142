//! Stand-in for `grid::util`. It assumes document 01's rule ('Size records', Text): lines are split at each 0A, so a last 0A gives an empty last line;
//! line count is 0A bytes plus 1; width is the longest line. A byte is a column: texts are hex 20 to 7E and 0A.

pub mod string {
    use std::borrow::Cow;

    /// The lines, in order. `""` has one, the empty line.
    pub fn get_lines(text: &str) -> impl Iterator<Item = Cow<'_, str>> {
        text.split('\n').map(Cow::Borrowed)
    }

    /// 0A bytes plus 1.
    pub fn count_lines(text: &str) -> usize {
        text.bytes().filter(|&b| b == b'\n').count() + 1
    }

    /// The columns of a text without 0A. Characters and not bytes, so that the original's own examples with drawn lines can be joined.
    pub fn get_line_width(line: &str) -> usize {
        line.chars().count()
    }

    /// The longest line.
    pub fn get_text_width(text: &str) -> usize {
        text.split('\n').map(get_line_width).max().unwrap_or(0)
    }

    /// Line count, then width.
    pub fn get_text_dimension(text: &str) -> (usize, usize) {
        (count_lines(text), get_text_width(text))
    }
}
