//! The engine's C functions and numbers, as include/jisampode.h declares them. A
//! slice is a pointer and a length.
#![allow(missing_docs)]

pub const MOST_PARTS: usize = 64;
pub const PARTS: usize = 192;
pub const REALS: usize = 256;
pub const SETTINGS: usize = 9;
pub const WORDS: usize = 18;
pub const LISTING_BYTES: usize = 88176;
pub const ACCEPTED: u32 = 0;
pub const DONE: u32 = 100;

/// Where a job has come to.
pub const AT_END: u64 = 0;
pub const AT_CORNER: u64 = 1;
pub const AT_POINT: u64 = 2;

/// Codes of parts.
pub const CONSTANT: u32 = 0;
pub const SPHERE: u32 = 1;
pub const PLANE: u32 = 2;
pub const MIN: u32 = 3;
pub const MAX: u32 = 4;
pub const ADD: u32 = 5;
pub const SUB: u32 = 6;
pub const NEG: u32 = 7;

/// Kinds of children.
pub const EMPTY: u8 = 0;
pub const ACTIVE: u8 = 1;
pub const LEAF: u8 = 2;

/// Bytes of stack that a thread needs: for any call but a listing's, and for all.
pub const STACK: usize = 81_920;
pub const LISTING_STACK: usize = 131_072;

/// The version of include/jisampode.h that these declarations follow.
pub const VERSION: u32 = 100;

extern "C" {
    pub fn jisampode_version() -> u32;

    pub fn jisampode_open(
        settings: *const f64,
        inner: u32,
        leaf: u32,
        parts: *const u32,
        reals: *const f64,
        count: u32,
        record_words: *mut u64,
        record_parts: *mut u32,
        record_settings: *mut f64,
        record_reals: *mut f64,
        kinds: *mut u8,
        kinds_length: usize,
        numbers: *mut f64,
        numbers_length: usize,
        places: *mut u32,
        places_length: usize,
        store: *mut f64,
        store_length: usize,
        corners: *mut f64,
        corners_length: usize,
    ) -> u32;

    pub fn jisampode_lengths(
        settings: *const f64,
        inner: u32,
        leaf: u32,
        parts: *const u32,
        reals: *const f64,
        count: u32,
        lengths: *mut usize,
    ) -> u32;

    pub fn jisampode_step(
        budget: u64,
        record_words: *mut u64,
        record_parts: *mut u32,
        record_settings: *mut f64,
        record_reals: *mut f64,
        kinds: *mut u8,
        kinds_length: usize,
        numbers: *mut f64,
        numbers_length: usize,
        places: *mut u32,
        places_length: usize,
        store: *mut f64,
        store_length: usize,
        corners: *mut f64,
        corners_length: usize,
    ) -> u32;

    pub fn jisampode_drop(
        record_words: *mut u64,
        record_parts: *mut u32,
        record_settings: *mut f64,
        record_reals: *mut f64,
        kinds: *mut u8,
        kinds_length: usize,
        numbers: *mut f64,
        numbers_length: usize,
        places: *mut u32,
        places_length: usize,
        store: *mut f64,
        store_length: usize,
        corners: *mut f64,
        corners_length: usize,
    ) -> u32;

    pub fn jisampode_counts(record_words: *const u64, counts: *mut u64) -> u32;

    pub fn jisampode_cursor(record_words: *const u64, cursor: *mut u64) -> u32;

    pub fn jisampode_corner_list(
        inner: u32,
        kinds: *const u8,
        kinds_length: usize,
        list: *mut u32,
        list_length: usize,
        count: *mut usize,
    ) -> u32;

    pub fn jisampode_point_count(bounds: *const f64, cell: f64, counts: *mut usize) -> u32;

    pub fn jisampode_sample(
        parts: *const u32,
        reals: *const f64,
        count: u32,
        x: f64,
        y: f64,
        z: f64,
        cell: f64,
        nx: usize,
        ny: usize,
        nz: usize,
        values: *mut f64,
        values_length: usize,
    ) -> u32;

    pub fn jisampode_padding(
        nx: usize,
        ny: usize,
        nz: usize,
        value: f64,
        values: *mut f64,
        values_length: usize,
    ) -> u32;

    pub fn jisampode_threshold(
        nx: usize,
        ny: usize,
        nz: usize,
        limit: f64,
        values: *mut f64,
        values_length: usize,
    ) -> u32;

    pub fn jisampode_smooth(
        nx: usize,
        ny: usize,
        nz: usize,
        factor: f64,
        rounds: u32,
        values: *mut f64,
        values_length: usize,
        scratch: *mut f64,
        scratch_length: usize,
    ) -> u32;

    pub fn jisampode_point_step(
        bounds: *const f64,
        nx: usize,
        ny: usize,
        nz: usize,
        cursor: *mut usize,
        point: *mut f64,
    ) -> u32;

    pub fn jisampode_cell_step(
        bounds: *const f64,
        nx: usize,
        ny: usize,
        nz: usize,
        cursor: *mut usize,
        cell: *mut f64,
    ) -> u32;

    pub fn jisampode_octet_step(
        nx: usize,
        ny: usize,
        nz: usize,
        values: *const f64,
        values_length: usize,
        cursor: *mut usize,
        octet: *mut f64,
    ) -> u32;

    pub fn jisampode_list_job(
        text: *const u8,
        text_length: usize,
        listing: *mut u8,
        listing_length: usize,
        written: *mut usize,
    ) -> u32;
}
