//! Document 02, 9: a flat list broken, in order, into Columns of one Row. Every height has its fold; the answer for a width and a budget is chosen among them. It
//! follows the document's sentences and shares no code with the port.

use crate::form::{Fold, Settings, Size, Tree};
use crate::paper;

/// 'For a height t, fold by putting cells in a Column while its height with separators stays within t.' The number of cells in each Column.
pub fn columns(heights: &[usize], separator: usize, t: usize) -> Vec<usize> {
    let mut columns = Vec::new();
    let mut height = 0;
    for &cell in heights {
        match columns.last_mut() {
            Some(cells) if height + separator + cell <= t => {
                *cells += 1;
                height += separator + cell;
            }
            _ => {
                columns.push(1);
                height = cell;
            }
        }
    }
    columns
}

/// The Row of Columns that have these numbers of the cells, in order.
pub fn row(cells: &[Tree], columns: &[usize]) -> Tree {
    let mut rest = cells.iter();
    let column = |&count: &usize| Tree::Column(rest.by_ref().take(count).cloned().collect());
    Tree::Row(columns.iter().map(column).collect())
}

/// Each of these Columns but the last, with the cell that comes next.
pub fn longer<'a>(cells: &'a [Tree], columns: &'a [usize]) -> impl Iterator<Item = Tree> + 'a {
    let ends = columns.iter().scan(0, |end, count| {
        *end += count;
        Some((*end - count, *end))
    });
    ends.filter(|&(_, end)| end < cells.len())
        .map(|(start, end)| Tree::Column(cells[start..=end].to_vec()))
}

/// Every fold: 'begin with one Column, then try t one lower each time, down to the tallest cell'.
pub fn folds(settings: &Settings, cells: &[Tree]) -> Vec<Fold> {
    let size = |cell: &Tree| paper::sizes(settings, cell)[0];
    let sizes: Vec<Size> = cells.iter().map(size).collect();
    let heights: Vec<usize> = sizes.iter().map(|size| size.natural_height).collect();
    let tallest = heights.iter().copied().max().expect("a list has cells");
    let separator = paper::separator(settings);
    let one = heights.iter().sum::<usize>() + (cells.len() - 1) * separator;
    let fold = |height: usize| {
        let columns = columns(&heights, separator, height);
        let width = width(&sizes, separator, &columns);
        Fold {
            height,
            columns,
            width,
        }
    };
    (tallest..=one).rev().map(fold).collect()
}

/// 'No wider inside than a given width': the widest cell of each Column, and a separator between neighbours.
fn width(cells: &[Size], separator: usize, columns: &[usize]) -> usize {
    let mut rest = cells.iter().map(|cell| cell.natural_width);
    let widest = |&count: &usize| rest.by_ref().take(count).max().unwrap_or(0);
    columns.iter().map(widest).sum::<usize>() + (columns.len() - 1) * separator
}

/// What is answered of a list's folds.
#[derive(Debug, Clone, Copy, PartialEq, Eq)]
pub struct Chosen<'a> {
    pub fold: &'a Fold,
    pub tries: usize,
    pub miss: usize,
}

/// The fold 'for the least t that fitted, that t, the tries made, and the most by which it can lie above the least t whose fold by this rule fits', of a list whose
/// cells are no wider than the given width.
pub fn chosen(folds: &[Fold], width: usize, budget: usize) -> Chosen<'_> {
    // 'The tries are exactly the lesser of the budget and the one-Column height minus the tallest.'
    let all = folds.len() - 1;
    let tries = budget.min(all);
    let fitted = folds[..=tries].iter().rfind(|fold| fold.width <= width);
    let fold = fitted.expect("one Column is as wide as its widest cell");
    // '0 if every t was tried, otherwise t minus the tallest cell's height.'
    let miss = if tries == all {
        0
    } else {
        fold.height - folds[all].height
    };
    Chosen { fold, tries, miss }
}
