//! The calls of `include/silo.h`, made with memory that has canaries on both sides.

use std::fmt;
use std::ptr::slice_from_raw_parts_mut;

/// What is compared: the proved library, or a stand-in for it. Memory is lent by pointers, so that nothing is taken for granted of what a
/// call does to it.
pub trait Library {
    /// # Safety
    /// Sheet and list are lent whole and do not overlap.
    unsafe fn loads(&self, sheet: *const [u8], answers: *mut [u32]) -> u32;

    /// # Safety
    /// The sheet is lent whole.
    unsafe fn answers_length(&self, sheet: *const [u8]) -> u64;

    /// # Safety
    /// The sheet is lent whole.
    unsafe fn page_length(&self, sheet: *const [u8]) -> u64;

    /// # Safety
    /// Sheet and buffer are lent whole and do not overlap.
    unsafe fn page(&self, sheet: *const [u8], page: *mut [u8]) -> u32;

    /// # Safety
    /// Sheet and list are lent whole and do not overlap.
    unsafe fn shell_patch(&self, sheet: *const [u8], depth: u32, reply: *mut [i32]) -> u32;

    /// # Safety
    /// The sheet is lent whole.
    unsafe fn depth_for(&self, sheet: *const [u8], pressure: u32) -> u64;

    /// # Safety
    /// Sheet and both lists are lent whole and do not overlap.
    unsafe fn depths_for(
        &self,
        sheet: *const [u8],
        pressures: *const [u32],
        depths: *mut [u32],
    ) -> u32;

    /// # Safety
    /// The buffer is lent whole.
    unsafe fn catalogue(&self, row: u32, wall: u32, record: *mut [u8]) -> u32;

    /// # Safety
    /// Both lists are lent whole.
    unsafe fn governing(&self, first: *const [u32], second: *const [u32]) -> u32;
}

/// What a call did that documents 01 and 02 do not allow, and the bytes of its sheet.
pub struct Difference {
    pub what: String,
    pub sheet: Vec<u8>,
}

impl fmt::Display for Difference {
    fn fmt(&self, f: &mut fmt::Formatter) -> fmt::Result {
        write!(f, "DIFFERENCE: {}\nsheet: ", self.what)?;
        self.sheet.iter().try_for_each(|byte| write!(f, "{byte:02x}"))
    }
}

impl fmt::Debug for Difference {
    fn fmt(&self, f: &mut fmt::Formatter) -> fmt::Result {
        fmt::Display::fmt(self, f)
    }
}

pub type Outcome = Result<(), Difference>;

pub fn expect(holds: bool, sheet: &[u8], what: impl FnOnce() -> String) -> Outcome {
    if holds {
        return Ok(());
    }
    Err(Difference { what: what(), sheet: sheet.to_vec() })
}

/// What lent memory holds before a call, and its canaries always.
pub const UNTOUCHED: u32 = 0xA5C3_5A3C;
pub const UNTOUCHED_SIGNED: i32 = UNTOUCHED as i32;
pub const UNTOUCHED_BYTE: u8 = 0xA5;

/// A library, and the number of canaries on each side of what it is lent: with none, each piece of memory is allocated at exactly its
/// length, for a tool that watches the heap.
pub struct Calls<'a> {
    pub library: &'a dyn Library,
    pub canaries: usize,
}

impl Calls<'_> {
    /// What a call does to memory that holds `before`, and whether it spares the canaries.
    fn lend<T: Copy + PartialEq, A>(
        &self,
        canary: T,
        before: &[T],
        call: impl FnOnce(*mut [T]) -> A,
    ) -> (A, Vec<T>, bool) {
        let beside = vec![canary; self.canaries];
        let mut memory = [&beside, before, &beside].concat();
        let start = memory.as_mut_ptr().wrapping_add(self.canaries);
        let answer = call(slice_from_raw_parts_mut(start, before.len()));
        let (left, rest) = memory.split_at(self.canaries);
        let (after, right) = rest.split_at(before.len());
        (answer, after.to_vec(), left == beside && right == beside)
    }

    fn lend_sheet<A>(
        &self,
        sheet: &[u8],
        call: impl FnOnce(*const [u8]) -> A,
    ) -> Result<A, Difference> {
        let (answer, after, spared) = self.lend(UNTOUCHED_BYTE, sheet, |lent| call(lent));
        expect(spared && after == sheet, sheet, || "the sheet was written to".into())?;
        Ok(answer)
    }

    /// The answer of a call that is lent a sheet and memory of that length, and what that memory holds after it.
    fn fill<T: Copy + PartialEq>(
        &self,
        sheet: &[u8],
        untouched: T,
        length: usize,
        call: impl FnOnce(*const [u8], *mut [T]) -> u32,
    ) -> Result<(u32, Vec<T>), Difference> {
        let before = vec![untouched; length];
        let (answer, after, spared) = self
            .lend_sheet(sheet, |sheet| self.lend(untouched, &before, |lent| call(sheet, lent)))?;
        expect(spared, sheet, || format!("memory beside the list or page of {length} changed"))?;
        Ok((answer, after))
    }

    /// The load call's answer, and the list of that length after it.
    pub fn loads(&self, sheet: &[u8], length: usize) -> Result<(u32, Vec<u32>), Difference> {
        self.fill(sheet, UNTOUCHED, length, |sheet, list| {
            // SAFETY: both are lent whole, from memory of their own.
            unsafe { self.library.loads(sheet, list) }
        })
    }

    pub fn answers_length(&self, sheet: &[u8]) -> Result<u64, Difference> {
        // SAFETY: the sheet is lent whole.
        self.lend_sheet(sheet, |sheet| unsafe { self.library.answers_length(sheet) })
    }

    pub fn page_length(&self, sheet: &[u8]) -> Result<u64, Difference> {
        // SAFETY: the sheet is lent whole.
        self.lend_sheet(sheet, |sheet| unsafe { self.library.page_length(sheet) })
    }

    /// The page call's answer, and the buffer of that length after it.
    pub fn page(&self, sheet: &[u8], length: usize) -> Result<(u32, Vec<u8>), Difference> {
        self.fill(sheet, UNTOUCHED_BYTE, length, |sheet, page| {
            // SAFETY: both are lent whole, from memory of their own.
            unsafe { self.library.page(sheet, page) }
        })
    }

    /// The shell patch call's answer, and the reply list of that length after it.
    pub fn shell_patch(
        &self,
        sheet: &[u8],
        depth: u32,
        length: usize,
    ) -> Result<(u32, Vec<i32>), Difference> {
        self.fill(sheet, UNTOUCHED_SIGNED, length, |sheet, reply| {
            // SAFETY: both are lent whole, from memory of their own.
            unsafe { self.library.shell_patch(sheet, depth, reply) }
        })
    }

    pub fn depth_for(&self, sheet: &[u8], pressure: u32) -> Result<u64, Difference> {
        // SAFETY: the sheet is lent whole.
        self.lend_sheet(sheet, |sheet| unsafe { self.library.depth_for(sheet, pressure) })
    }

    /// The answer of the call for the depths of several pressures, and the reply list of that length after it.
    pub fn depths_for(
        &self,
        sheet: &[u8],
        pressures: &[u32],
        length: usize,
    ) -> Result<(u32, Vec<u32>), Difference> {
        self.lend_list(sheet, pressures, |pressures| {
            self.fill(sheet, UNTOUCHED, length, |sheet, depths| {
                // SAFETY: all three are lent whole, from memory of their own.
                unsafe { self.library.depths_for(sheet, pressures, depths) }
            })
        })?
    }

    /// The catalogue call's answer, and the buffer of that length after it.
    pub fn catalogue(
        &self,
        row: u32,
        wall: u32,
        length: usize,
    ) -> Result<(u32, Vec<u8>), Difference> {
        let before = vec![UNTOUCHED_BYTE; length];
        // SAFETY: the buffer is lent whole.
        let call = |buffer| unsafe { self.library.catalogue(row, wall, buffer) };
        let (answer, buffer, spared) = self.lend(UNTOUCHED_BYTE, &before, call);
        expect(spared, &[], || format!("bytes beside the buffer of {length} were written to"))?;
        Ok((answer, buffer))
    }

    /// The answer of a call that is lent a list to read, beside a sheet or beside none.
    fn lend_list<A>(
        &self,
        sheet: &[u8],
        list: &[u32],
        call: impl FnOnce(*const [u32]) -> A,
    ) -> Result<A, Difference> {
        let (answer, after, spared) = self.lend(UNTOUCHED, list, |lent| call(lent));
        expect(spared && after == list, sheet, || format!("the list {list:?} was written to"))?;
        Ok(answer)
    }

    pub fn governing(&self, first: &[u32], second: &[u32]) -> Result<u32, Difference> {
        self.lend_list(&[], first, |first| {
            // SAFETY: both are lent whole, from memory of their own.
            self.lend_list(&[], second, |second| unsafe { self.library.governing(first, second) })
        })?
    }
}
