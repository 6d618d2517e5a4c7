//! The library's functions as they are linked: the five table calls, and the sheet entry.
//!
//! A list is a pointer and the number of its elements, a start of `NO_START` is none. The low 8 bits of the result are
//! the number of the answer; above them stands what it carries.

/// The start that means none.
pub const NO_START: u64 = u64::MAX;

extern "C" {
    pub fn fernijster_score(
        left: *const u16,
        left_len: usize,
        right: *const u16,
        right_len: usize,
        s: u64,
        costs: *const u16,
        costs_len: usize,
        c: u64,
        cells: *const u16,
        cells_len: usize,
        handed: *const u32,
        handed_len: usize,
        scores: *mut u32,
        scores_len: usize,
        rows: *mut u32,
        rows_len: usize,
    ) -> u64;

    pub fn fernijster_label(
        left: *const u16,
        left_len: usize,
        right: *const u16,
        right_len: usize,
        s: u64,
        costs: *const u16,
        costs_len: usize,
        c: u64,
        cells: *const u16,
        cells_len: usize,
        handed: *const u32,
        handed_len: usize,
        column: u64,
        start: u64,
        states: *mut u8,
        states_len: usize,
        rows: *mut u32,
        rows_len: usize,
    ) -> u64;

    pub fn fernijster_sets(
        left: *const u16,
        left_len: usize,
        right: *const u16,
        right_len: usize,
        s: u64,
        costs: *const u16,
        costs_len: usize,
        c: u64,
        cells: *const u16,
        cells_len: usize,
        handed: *const u32,
        handed_len: usize,
        column: u64,
        start: u64,
        sets: *mut u16,
        sets_len: usize,
        rows: *mut u32,
        rows_len: usize,
    ) -> u64;

    pub fn fernijster_hand_up(
        left: *const u16,
        left_len: usize,
        right: *const u16,
        right_len: usize,
        s: u64,
        costs: *const u16,
        costs_len: usize,
        c: u64,
        cells: *const u16,
        cells_len: usize,
        handed: *const u32,
        handed_len: usize,
        column: u64,
        row: *mut u32,
        row_len: usize,
        rows: *mut u32,
        rows_len: usize,
    ) -> u64;

    pub fn fernijster_count(
        left: *const u16,
        left_len: usize,
        right: *const u16,
        right_len: usize,
        s: u64,
        costs: *const u16,
        costs_len: usize,
        c: u64,
        cells: *const u16,
        cells_len: usize,
        column: u64,
        sets: *mut u16,
        sets_len: usize,
    ) -> u64;

    pub fn fernijster_column(sheet: *const u8, sheet_len: usize, column: u64, out: *mut u8, out_len: usize) -> u64;
}
