//! The library across C linkage: safe functions over its calls.

use calls::Calls;

/// The library, if it was there when this program was built.
#[cfg(library)]
pub const LIBRARY: Option<Calls> = Some(linked::CALLS);
#[cfg(not(library))]
pub const LIBRARY: Option<Calls> = None;

/// The library `libigvm.a`, whose functions ask nothing of their caller. A slice is a pointer and a length. Crate sapyullu links it.
#[cfg(library)]
mod linked {
    use super::Calls;
    use std::ptr::{null, null_mut};

    extern "C" {
        fn igvm_verdict(sheet: *const u8, sheet_len: usize, which: u32) -> u64;
        fn igvm_strict_verdict(sheet: *const u8, sheet_len: usize, which: u32) -> u64;
        fn igvm_report(sheet: *const u8, sheet_len: usize, words: *mut u8, words_len: usize, which: u32) -> u64;
        fn igvm_relocations(sheet: *const u8, sheet_len: usize, mask: u32, words: *mut u8, words_len: usize, which: u32) -> u64;
        fn igvm_relocation_base_valid(sheet: *const u8, sheet_len: usize, mask: u32, region: u64, base: u64, which: u32) -> u64;
        fn igvm_contains(sheet: *const u8, sheet_len: usize, mask: u32, region: u64, gpa: u64, which: u32) -> u64;
        fn igvm_relocation_base_range(
            sheet: *const u8,
            sheet_len: usize,
            mask: u32,
            region: u64,
            lowest: u64,
            highest: u64,
            which: u32,
        ) -> u64;
        fn igvm_region_of(sheet: *const u8, sheet_len: usize, mask: u32, gpa: u64, which: u32) -> u64;
        fn igvm_region_index(sheet: *const u8, sheet_len: usize, mask: u32, words: *mut u8, words_len: usize, which: u32) -> u64;
        fn igvm_verdict_numbers(sheet: *const u8, sheet_len: usize, numbers: *mut u8, numbers_len: usize) -> u64;
        fn igvm_strict_verdict_numbers(sheet: *const u8, sheet_len: usize, numbers: *mut u8, numbers_len: usize) -> u64;
        fn igvm_report_numbers(
            sheet: *const u8,
            sheet_len: usize,
            words: *mut u8,
            words_len: usize,
            numbers: *mut u8,
            numbers_len: usize,
        ) -> u64;
        fn igvm_relocations_numbers(
            sheet: *const u8,
            sheet_len: usize,
            mask: u32,
            words: *mut u8,
            words_len: usize,
            numbers: *mut u8,
            numbers_len: usize,
        ) -> u64;
        fn igvm_relocation_base_valid_numbers(
            sheet: *const u8,
            sheet_len: usize,
            mask: u32,
            region: u64,
            base: u64,
            numbers: *mut u8,
            numbers_len: usize,
        ) -> u64;
        fn igvm_contains_numbers(
            sheet: *const u8,
            sheet_len: usize,
            mask: u32,
            region: u64,
            gpa: u64,
            numbers: *mut u8,
            numbers_len: usize,
        ) -> u64;
        fn igvm_relocation_base_range_numbers(
            sheet: *const u8,
            sheet_len: usize,
            mask: u32,
            region: u64,
            lowest: u64,
            highest: u64,
            numbers: *mut u8,
            numbers_len: usize,
        ) -> u64;
        fn igvm_region_of_numbers(sheet: *const u8, sheet_len: usize, mask: u32, gpa: u64, numbers: *mut u8, numbers_len: usize) -> u64;
        fn igvm_region_index_numbers(
            sheet: *const u8,
            sheet_len: usize,
            mask: u32,
            words: *mut u8,
            words_len: usize,
            numbers: *mut u8,
            numbers_len: usize,
        ) -> u64;
        fn igvm_region_base_valid(region: *const u8, region_len: usize, base: u64) -> u64;
        fn igvm_region_contains(region: *const u8, region_len: usize, gpa: u64) -> u64;
        fn igvm_region_in(words: *const u8, words_len: usize, gpa: u64) -> u64;
    }

    // SAFETY, for all: the pointers and lengths are those of live slices, of which those that are lent share nothing with another, and the functions
    // read and write nothing else.

    /// The slice's pointer. That of an empty slice may be null: it is where the number beside it is odd.
    fn pointer(bytes: &[u8], beside: usize) -> *const u8 {
        if bytes.is_empty() && beside % 2 == 1 {
            return null();
        }
        bytes.as_ptr()
    }

    /// The same of bytes that are lent.
    fn lent(bytes: &mut [u8], beside: usize) -> *mut u8 {
        if bytes.is_empty() && beside % 2 == 1 {
            return null_mut();
        }
        bytes.as_mut_ptr()
    }

    fn verdict(sheet: &[u8], which: u32) -> u64 {
        unsafe { igvm_verdict(pointer(sheet, which as usize), sheet.len(), which) }
    }

    fn strict_verdict(sheet: &[u8], which: u32) -> u64 {
        unsafe { igvm_strict_verdict(pointer(sheet, which as usize), sheet.len(), which) }
    }

    fn report(sheet: &[u8], words: &mut [u8], which: u32) -> u64 {
        let beside = which as usize;
        unsafe { igvm_report(pointer(sheet, beside), sheet.len(), lent(words, beside), words.len(), which) }
    }

    fn relocations(sheet: &[u8], mask: u32, words: &mut [u8], which: u32) -> u64 {
        let beside = which as usize;
        unsafe { igvm_relocations(pointer(sheet, beside), sheet.len(), mask, lent(words, beside), words.len(), which) }
    }

    fn relocation_base_valid(sheet: &[u8], mask: u32, region: u64, base: u64, which: u32) -> u64 {
        unsafe { igvm_relocation_base_valid(pointer(sheet, which as usize), sheet.len(), mask, region, base, which) }
    }

    fn contains(sheet: &[u8], mask: u32, region: u64, gpa: u64, which: u32) -> u64 {
        unsafe { igvm_contains(pointer(sheet, which as usize), sheet.len(), mask, region, gpa, which) }
    }

    fn relocation_base_range(sheet: &[u8], mask: u32, region: u64, lowest: u64, highest: u64, which: u32) -> u64 {
        unsafe { igvm_relocation_base_range(pointer(sheet, which as usize), sheet.len(), mask, region, lowest, highest, which) }
    }

    fn region_of(sheet: &[u8], mask: u32, gpa: u64, which: u32) -> u64 {
        unsafe { igvm_region_of(pointer(sheet, which as usize), sheet.len(), mask, gpa, which) }
    }

    fn region_index(sheet: &[u8], mask: u32, words: &mut [u8], which: u32) -> u64 {
        let beside = which as usize;
        unsafe { igvm_region_index(pointer(sheet, beside), sheet.len(), mask, lent(words, beside), words.len(), which) }
    }

    fn verdict_numbers(sheet: &[u8], numbers: &mut [u8]) -> u64 {
        let sheet_start = pointer(sheet, numbers.len());
        unsafe { igvm_verdict_numbers(sheet_start, sheet.len(), lent(numbers, sheet.len()), numbers.len()) }
    }

    fn strict_verdict_numbers(sheet: &[u8], numbers: &mut [u8]) -> u64 {
        let sheet_start = pointer(sheet, numbers.len());
        unsafe { igvm_strict_verdict_numbers(sheet_start, sheet.len(), lent(numbers, sheet.len()), numbers.len()) }
    }

    fn report_numbers(sheet: &[u8], words: &mut [u8], numbers: &mut [u8]) -> u64 {
        let (sheet_start, words_start) = (pointer(sheet, numbers.len()), lent(words, numbers.len()));
        let numbers_start = lent(numbers, sheet.len());
        unsafe { igvm_report_numbers(sheet_start, sheet.len(), words_start, words.len(), numbers_start, numbers.len()) }
    }

    fn relocations_numbers(sheet: &[u8], mask: u32, words: &mut [u8], numbers: &mut [u8]) -> u64 {
        let (sheet_start, words_start) = (pointer(sheet, numbers.len()), lent(words, numbers.len()));
        let numbers_start = lent(numbers, sheet.len());
        unsafe { igvm_relocations_numbers(sheet_start, sheet.len(), mask, words_start, words.len(), numbers_start, numbers.len()) }
    }

    fn relocation_base_valid_numbers(sheet: &[u8], mask: u32, region: u64, base: u64, numbers: &mut [u8]) -> u64 {
        let (sheet_start, numbers_start) = (pointer(sheet, numbers.len()), lent(numbers, sheet.len()));
        unsafe { igvm_relocation_base_valid_numbers(sheet_start, sheet.len(), mask, region, base, numbers_start, numbers.len()) }
    }

    fn contains_numbers(sheet: &[u8], mask: u32, region: u64, gpa: u64, numbers: &mut [u8]) -> u64 {
        let (sheet_start, numbers_start) = (pointer(sheet, numbers.len()), lent(numbers, sheet.len()));
        unsafe { igvm_contains_numbers(sheet_start, sheet.len(), mask, region, gpa, numbers_start, numbers.len()) }
    }

    fn relocation_base_range_numbers(sheet: &[u8], mask: u32, region: u64, lowest: u64, highest: u64, numbers: &mut [u8]) -> u64 {
        let (sheet_start, numbers_start) = (pointer(sheet, numbers.len()), lent(numbers, sheet.len()));
        unsafe { igvm_relocation_base_range_numbers(sheet_start, sheet.len(), mask, region, lowest, highest, numbers_start, numbers.len()) }
    }

    fn region_of_numbers(sheet: &[u8], mask: u32, gpa: u64, numbers: &mut [u8]) -> u64 {
        let (sheet_start, numbers_start) = (pointer(sheet, numbers.len()), lent(numbers, sheet.len()));
        unsafe { igvm_region_of_numbers(sheet_start, sheet.len(), mask, gpa, numbers_start, numbers.len()) }
    }

    fn region_index_numbers(sheet: &[u8], mask: u32, words: &mut [u8], numbers: &mut [u8]) -> u64 {
        let (sheet_start, words_start) = (pointer(sheet, numbers.len()), lent(words, numbers.len()));
        let numbers_start = lent(numbers, sheet.len());
        unsafe { igvm_region_index_numbers(sheet_start, sheet.len(), mask, words_start, words.len(), numbers_start, numbers.len()) }
    }

    fn region_base_valid(region: &[u8], base: u64) -> u64 {
        unsafe { igvm_region_base_valid(pointer(region, base as usize), region.len(), base) }
    }

    fn region_contains(region: &[u8], gpa: u64) -> u64 {
        unsafe { igvm_region_contains(pointer(region, gpa as usize), region.len(), gpa) }
    }

    fn region_in(index: &[u8], gpa: u64) -> u64 {
        unsafe { igvm_region_in(pointer(index, gpa as usize), index.len(), gpa) }
    }

    pub const CALLS: Calls = Calls {
        verdict,
        strict_verdict,
        report,
        relocations,
        relocation_base_valid,
        contains,
        relocation_base_range,
        region_of,
        region_index,
        verdict_numbers,
        strict_verdict_numbers,
        report_numbers,
        relocations_numbers,
        relocation_base_valid_numbers,
        contains_numbers,
        relocation_base_range_numbers,
        region_of_numbers,
        region_index_numbers,
        region_base_valid,
        region_contains,
        region_in,
    };
}
