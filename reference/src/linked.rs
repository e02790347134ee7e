//! The proved library as what is compared.

use crate::calls::Library;

pub struct Linked;

impl Library for Linked {
    unsafe fn loads(&self, sheet: *const [u8], answers: *mut [u32]) -> u32 {
        let (sheet_len, answers_len) = (sheet.len(), answers.len());
        // SAFETY: each pointer goes with its own length, and the caller lends both whole.
        unsafe { silo_sys::silo_loads(sheet.cast(), sheet_len, answers.cast(), answers_len) }
    }

    unsafe fn answers_length(&self, sheet: *const [u8]) -> u64 {
        // SAFETY: the pointer goes with its own length, and the caller lends the sheet whole.
        unsafe { silo_sys::silo_answers_length(sheet.cast(), sheet.len()) }
    }

    unsafe fn page_length(&self, sheet: *const [u8]) -> u64 {
        // SAFETY: the pointer goes with its own length, and the caller lends the sheet whole.
        unsafe { silo_sys::silo_page_length(sheet.cast(), sheet.len()) }
    }

    unsafe fn page(&self, sheet: *const [u8], page: *mut [u8]) -> u32 {
        let (sheet_len, page_len) = (sheet.len(), page.len());
        // SAFETY: each pointer goes with its own length, and the caller lends both whole.
        unsafe { silo_sys::silo_page(sheet.cast(), sheet_len, page.cast(), page_len) }
    }

    unsafe fn shell_patch(&self, sheet: *const [u8], depth: u32, reply: *mut [i32]) -> u32 {
        let (sheet_len, reply_len) = (sheet.len(), reply.len());
        // SAFETY: each pointer goes with its own length, and the caller lends both whole.
        unsafe {
            silo_sys::silo_shell_patch(sheet.cast(), sheet_len, depth, reply.cast(), reply_len)
        }
    }

    unsafe fn depth_for(&self, sheet: *const [u8], pressure: u32) -> u64 {
        // SAFETY: the pointer goes with its own length, and the caller lends the sheet whole.
        unsafe { silo_sys::silo_depth_for(sheet.cast(), sheet.len(), pressure) }
    }

    unsafe fn depths_for(
        &self,
        sheet: *const [u8],
        pressures: *const [u32],
        depths: *mut [u32],
    ) -> u32 {
        let (sheet_len, pressures_len, depths_len) = (sheet.len(), pressures.len(), depths.len());
        let (sheet, pressures, depths) = (sheet.cast(), pressures.cast(), depths.cast());
        // SAFETY: each pointer goes with its own length, and the caller lends all three whole.
        unsafe {
            silo_sys::silo_depths_for(
                sheet,
                sheet_len,
                pressures,
                pressures_len,
                depths,
                depths_len,
            )
        }
    }

    unsafe fn catalogue(&self, row: u32, wall: u32, record: *mut [u8]) -> u32 {
        // SAFETY: the pointer goes with its own length, and the caller lends the buffer whole.
        unsafe { silo_sys::silo_catalogue(row, wall, record.cast(), record.len()) }
    }

    unsafe fn governing(&self, first: *const [u32], second: *const [u32]) -> u32 {
        let (first_len, second_len) = (first.len(), second.len());
        // SAFETY: each pointer goes with its own length, and the caller lends both whole.
        unsafe { silo_sys::silo_governing(first.cast(), first_len, second.cast(), second_len) }
    }
}
