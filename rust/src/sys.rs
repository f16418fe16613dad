//! The library's C functions, as `include/retake.h` explains them: each pointer goes with its length,
//! no two buffers overlap, and every call writes `first`, `second` and, where it has them, the five `counts`.

unsafe extern "C" {
    /// Reads a score's text into row words.
    pub fn retake_read_score(
        text: *const u8,
        text_len: usize,
        rows: *mut u32,
        rows_len: usize,
        first: *mut u64,
        second: *mut u64,
    ) -> u32;

    /// Writes row words as a score's text.
    pub fn retake_write_score(
        rows: *const u32,
        rows_len: usize,
        count: u64,
        text: *mut u8,
        text_len: usize,
        first: *mut u64,
        second: *mut u64,
    ) -> u32;

    /// Renders a whole score into a take.
    pub fn retake_render(
        instrument: u32,
        rate: u32,
        frames: u32,
        bank: *const i16,
        bank_len: usize,
        map: *const u8,
        map_len: usize,
        rows: *const u32,
        rows_len: usize,
        count: u64,
        out: *mut u32,
        out_len: usize,
        aux: *mut u32,
        aux_len: usize,
        kept: *mut u32,
        kept_len: usize,
        first: *mut u64,
        second: *mut u64,
        counts: *mut u64,
    ) -> u32;

    /// Puts five words into a row and renders what depends on it.
    pub fn retake_edit(
        instrument: u32,
        rate: u32,
        frames: u32,
        bank: *const i16,
        bank_len: usize,
        map: *const u8,
        map_len: usize,
        rows: *mut u32,
        rows_len: usize,
        count: u64,
        position: u64,
        note: u32,
        timbre: u32,
        morph: u32,
        harmonics: u32,
        restart: u32,
        out: *mut u32,
        out_len: usize,
        aux: *mut u32,
        aux_len: usize,
        kept: *mut u32,
        kept_len: usize,
        first: *mut u64,
        second: *mut u64,
        counts: *mut u64,
    ) -> u32;

    /// Puts a row of five words in at a position, the later rows one place up, and renders what depends on it.
    pub fn retake_insert(
        instrument: u32,
        rate: u32,
        frames: u32,
        bank: *const i16,
        bank_len: usize,
        map: *const u8,
        map_len: usize,
        rows: *mut u32,
        rows_len: usize,
        count: u64,
        position: u64,
        note: u32,
        timbre: u32,
        morph: u32,
        harmonics: u32,
        restart: u32,
        out: *mut u32,
        out_len: usize,
        aux: *mut u32,
        aux_len: usize,
        kept: *mut u32,
        kept_len: usize,
        first: *mut u64,
        second: *mut u64,
        counts: *mut u64,
    ) -> u32;

    /// Takes a row out, the later rows one place down, and renders what depends on it.
    pub fn retake_remove(
        instrument: u32,
        rate: u32,
        frames: u32,
        bank: *const i16,
        bank_len: usize,
        map: *const u8,
        map_len: usize,
        rows: *mut u32,
        rows_len: usize,
        count: u64,
        position: u64,
        out: *mut u32,
        out_len: usize,
        aux: *mut u32,
        aux_len: usize,
        kept: *mut u32,
        kept_len: usize,
        first: *mut u64,
        second: *mut u64,
        counts: *mut u64,
    ) -> u32;
}
