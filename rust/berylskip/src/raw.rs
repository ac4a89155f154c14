//! The exported functions as they are linked: a slice is a pointer and a length. No pointer is null: see include/berylskip.h.
use crate::Branch;

extern "C" {
    pub fn berylskip_chart_nonnull(
        grammar: *const u8,
        grammar_length: usize,
        line: *const u8,
        line_length: usize,
        words: *mut u64,
        words_length: usize,
        depths: *mut u16,
        depths_length: usize,
        rounds: &mut usize,
        facts: &mut usize,
        place: &mut usize,
    ) -> u8;

    pub fn berylskip_ends_nonnull(
        grammar: *const u8,
        grammar_length: usize,
        line: *const u8,
        line_length: usize,
        category: usize,
        start: usize,
        words: *mut u64,
        words_length: usize,
        depths: *mut u16,
        depths_length: usize,
        row: &mut u64,
        ends: &mut u32,
        smallest: &mut u32,
        largest: &mut u32,
        place: &mut usize,
    ) -> u8;

    pub fn berylskip_marks_nonnull(
        grammar: *const u8,
        grammar_length: usize,
        line: *const u8,
        line_length: usize,
        words: *mut u64,
        words_length: usize,
        depths: *mut u16,
        depths_length: usize,
        marks: *mut u8,
        marks_length: usize,
        secret: &mut usize,
        place: &mut usize,
    ) -> u8;

    pub fn berylskip_tree_nonnull(
        grammar: *const u8,
        grammar_length: usize,
        line: *const u8,
        line_length: usize,
        category: usize,
        start: usize,
        end: usize,
        words: *mut u64,
        words_length: usize,
        depths: *mut u16,
        depths_length: usize,
        out: *mut u8,
        out_length: usize,
        nodes: &mut usize,
        place: &mut usize,
    ) -> u8;

    pub fn berylskip_forest_nonnull(
        grammar: *const u8,
        grammar_length: usize,
        line: *const u8,
        line_length: usize,
        words: *mut u64,
        words_length: usize,
        depths: *mut u16,
        depths_length: usize,
        rows: *mut Branch,
        rows_length: usize,
        records: &mut usize,
        place: &mut usize,
    ) -> u8;
}
