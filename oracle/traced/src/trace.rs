//! What the inserted lines leave behind, one table at a time.

use std::cell::RefCell;

/// The cut that a Row or a Column is about to make for a child: what it passes to `short_splits3`.
#[derive(Debug, Clone)]
pub struct Cut {
    /// The child's.
    pub pos: usize,
    pub is_row: bool,
    pub splits: Vec<usize>,
    pub width: usize,
}

/// The context that one call of `_build_table` is given, under the original's names.
#[derive(Debug, Clone)]
pub struct Node {
    pub pos: usize,
    pub width: usize,
    pub height: usize,
    pub is_first_row: bool,
    pub is_last_row: bool,
    pub is_first_col: bool,
    pub is_last_col: bool,
    pub kv: bool,
    pub kv_is_first: bool,
    pub no_right: bool,
    pub no_bottom: bool,
    pub lean_top: bool,
    pub top_intersection: bool,
    pub top_left: bool,
    pub intersections_horizontal: Vec<usize>,
    pub intersections_vertical: Vec<usize>,
}

#[derive(Debug, Clone, Default)]
pub struct Trace {
    /// `pos`, natural width, natural height; in no order.
    pub naturals: Vec<(usize, usize, usize)>,
    /// In the order of the calls.
    pub cuts: Vec<Cut>,
    /// In the order of the calls.
    pub nodes: Vec<Node>,
    /// `pos` and the block, in the order of the calls.
    pub blocks: Vec<(usize, String)>,
}

thread_local! {
    static TRACE: RefCell<Trace> = RefCell::default();
}

/// What was left since the last call.
pub fn take() -> Trace {
    TRACE.with(|trace| trace.take())
}

pub(crate) fn natural(pos: usize, width: usize, height: usize) {
    TRACE.with(|trace| trace.borrow_mut().naturals.push((pos, width, height)));
}

pub(crate) fn cut(cut: Cut) {
    TRACE.with(|trace| trace.borrow_mut().cuts.push(cut));
}

pub(crate) fn node(node: Node) {
    TRACE.with(|trace| trace.borrow_mut().nodes.push(node));
}

pub(crate) fn block(pos: usize, block: &str) {
    TRACE.with(|trace| trace.borrow_mut().blocks.push((pos, block.to_string())));
}
