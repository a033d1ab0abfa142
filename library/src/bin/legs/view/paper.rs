//! A page on paper: one page of A4, and the largest letters that it takes.

/// The millimetres of A4 inside margins of 12, the longer side less a little, so that no rounding makes a second page.
const SHORT: usize = 186;
const LONG: usize = 270;

/// A letter's width and a line's height in hundredths of the letters' size: no less than fonts of one width have; as in page.css.
const WIDE: usize = 61;
const HIGH: usize = 120;

/// The largest letters, 11 points, in micrometres.
const LARGEST: usize = 3_880;

/// The style for a sheet of this many lines and columns: its numbers, and the paper's direction.
pub fn style(lines: usize, columns: usize) -> String {
    let (lines, columns) = (lines.max(1), columns.max(1));
    let (direction, across, down) = if is_wide(lines, columns) {
        ("landscape", LONG, SHORT)
    } else {
        ("portrait", SHORT, LONG)
    };
    format!(
        ":root {{ --lines: {lines}; --columns: {columns}; --across: {across}mm; --down: {down}mm }}\n\
         @page {{ size: A4 {direction}; margin: 12mm }}\n"
    )
}

/// Whether its letters can be larger on paper that is wider than high.
fn is_wide(lines: usize, columns: usize) -> bool {
    let (high, wide) = (lines * HIGH, columns * WIDE);
    let size = |across: usize, down: usize| {
        let both = (across * 100_000 / wide).min(down * 100_000 / high);
        both.min(LARGEST)
    };
    size(LONG, SHORT) > size(SHORT, LONG)
}
