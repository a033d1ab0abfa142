//! The C functions of `include/leg_sheet.h`. A lent slice is a pointer and then a length.

extern "C" {
    pub fn leg_read_settings(
        bytes: *const u8,
        bytes_len: usize,
        out: *mut u16,
        out_len: usize,
    ) -> u64;

    pub fn leg_read_margin(
        bytes: *const u8,
        bytes_len: usize,
        out: *mut u16,
        out_len: usize,
    ) -> u64;

    pub fn leg_read_tree(tree: *const u8, tree_len: usize) -> u64;

    pub fn leg_sizes(
        settings: *const u8,
        settings_len: usize,
        tree: *const u8,
        tree_len: usize,
        list: *mut u16,
        list_len: usize,
    ) -> u64;

    pub fn leg_leaf_record(
        settings: *const u8,
        settings_len: usize,
        tree: *const u8,
        tree_len: usize,
        node: usize,
        out: *mut u16,
        out_len: usize,
    ) -> u64;

    pub fn leg_print_leaf(
        settings: *const u8,
        settings_len: usize,
        tree: *const u8,
        tree_len: usize,
        node: usize,
        out: *mut u8,
        out_len: usize,
    ) -> u64;

    pub fn leg_print_sheet(
        settings: *const u8,
        settings_len: usize,
        tree: *const u8,
        tree_len: usize,
        out: *mut u8,
        out_len: usize,
    ) -> u64;

    pub fn leg_place(
        settings: *const u8,
        settings_len: usize,
        tree: *const u8,
        tree_len: usize,
        line: usize,
        column: usize,
        out: *mut u16,
        out_len: usize,
    ) -> u64;

    pub fn leg_places(
        settings: *const u8,
        settings_len: usize,
        tree: *const u8,
        tree_len: usize,
        places: *const u64,
        places_len: usize,
        answers: *mut u64,
        answers_len: usize,
        read: *mut u64,
    ) -> u64;

    pub fn leg_fold(
        settings: *const u8,
        settings_len: usize,
        tree: *const u8,
        tree_len: usize,
        width: usize,
        budget: usize,
        columns: *mut u16,
        columns_len: usize,
        found: *mut u64,
    ) -> u64;

    pub fn leg_plan(
        settings: *const u8,
        settings_len: usize,
        tree: *const u8,
        tree_len: usize,
        ends: *mut u32,
    ) -> u64;

    pub fn leg_widen(
        settings: *const u8,
        settings_len: usize,
        tree: *const u8,
        tree_len: usize,
        nodes: *mut u16,
        nodes_len: usize,
        letters: *mut u32,
        letters_len: usize,
    ) -> u64;

    pub fn leg_save_draft(
        store: *mut u8,
        store_len: usize,
        name: u8,
        tree: *const u8,
        tree_len: usize,
    ) -> u64;

    pub fn leg_forget_draft(store: *mut u8, store_len: usize, name: u8) -> u64;

    pub fn leg_return_draft(
        store: *const u8,
        store_len: usize,
        name: u8,
        out: *mut u8,
        out_len: usize,
    ) -> u64;

    pub fn leg_blank(
        tree: *const u8,
        tree_len: usize,
        nodes: *const u16,
        nodes_len: usize,
        out: *mut u8,
        out_len: usize,
    ) -> u64;

    pub fn leg_read_typed(text: *const u8, text_len: usize, out: *mut u8, out_len: usize) -> u64;

    pub fn leg_short_splits3(
        pieces: *const u16,
        pieces_len: usize,
        count: usize,
        w: u16,
        out: *mut u16,
        out_len: usize,
    ) -> u64;

    pub fn leg_short_splits3_lent(
        pieces: *mut u16,
        pieces_len: usize,
        count: usize,
        w: u16,
        out: *mut u16,
        out_len: usize,
    ) -> u64;

    pub fn leg_short_splits(
        pieces: *const u16,
        pieces_len: usize,
        count: usize,
        w: u16,
        positions: *mut u32,
        positions_len: usize,
        left: *mut u16,
        left_len: usize,
    ) -> u64;

    pub fn leg_share(spare: usize, n: usize, priority: u8, index: usize, part: *mut u64) -> u64;
}
