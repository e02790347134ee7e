//! The proved library's calls as version 2 of `include/silo.h` declares them, which says what a sheet, a list and a refusal are. Nothing
//! checks these declarations against the library.
//!
//! # Safety
//! Each pointer is to as many elements as the length after it says, and is not null even where that is 0; memory that is written
//! overlaps no other.

extern "C" {
    /// Fills the answer list for a sheet, in columns. Answers 0; or a refusal, 1 to 12, 14, 17 or 20, and the list is as it was.
    pub fn silo_loads(
        sheet: *const u8,
        sheet_len: usize,
        answers: *mut u32,
        answers_len: usize,
    ) -> u32;

    /// The answer list's length in numbers, no promise of loads: 20 is not tried. Answers 2^32 plus that length; or a refusal, 1 to 12 or
    /// 17.
    pub fn silo_answers_length(sheet: *const u8, sheet_len: usize) -> u64;

    /// The page's length in bytes, no promise of a page: 20 is not tried. Answers 2^32 plus that length; or a refusal, 1 to 12 or 17.
    pub fn silo_page_length(sheet: *const u8, sheet_len: usize) -> u64;

    /// Writes the page of a sheet at the buffer's start; the bytes past it keep what they held. Answers 0; or a refusal, 1 to 12, 17, 18
    /// or 20, and the buffer is as it was.
    pub fn silo_page(sheet: *const u8, sheet_len: usize, page: *mut u8, page_len: usize) -> u32;

    /// Fills the reply list of 361 numbers with the patch round the circular shell of a sheet, `depth` mm below the brim. Answers 0; or a
    /// refusal, 1 to 12, 17, 20, 19 or 14, and the list is as it was.
    pub fn silo_shell_patch(
        sheet: *const u8,
        sheet_len: usize,
        depth: u32,
        reply: *mut i32,
        reply_len: usize,
    ) -> u32;

    /// The greatest depth, mm, at which p_he is not above a pressure, Pa. Answers 2^32 plus that depth; or a refusal, 1 to 12, 17 or 20.
    pub fn silo_depth_for(sheet: *const u8, sheet_len: usize, pressure: u32) -> u64;

    /// Fills the depth list, mm, for 1 to 32 pressures, Pa, that never fall; it is as long as theirs. Answers 0; or a refusal, 1 to 12,
    /// 17, 20, 21 or 22, and the list is as it was.
    pub fn silo_depths_for(
        sheet: *const u8,
        sheet_len: usize,
        pressures: *const u32,
        pressures_len: usize,
        depths: *mut u32,
        depths_len: usize,
    ) -> u32;

    /// Writes the product record of a row of table 7.1; wall 0 is steel, wall 1 concrete. Answers 0; or a refusal, 15 or 16, and the
    /// buffer is as it was.
    pub fn silo_catalogue(row: u32, wall: u32, record: *mut u8, record_len: usize) -> u32;

    /// Of two strake lists the one that governs. Answers 1 for the first, 2 for the second, 0 for an empty part of the first.
    pub fn silo_governing(
        first: *const u32,
        first_len: usize,
        second: *const u32,
        second_len: usize,
    ) -> u32;
}
