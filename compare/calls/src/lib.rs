//! The calls of a host, by whatever answers them: the library across C linkage, document 01 in Rust, or a wrong copy of that.

/// The calls. `which` names the number of the answer that a call returns; its sibling puts all numbers into the bytes lent for them and returns
/// number 0. A region's bytes are its eight words, as `relocations` puts them. The check of a base is 1 valid, 2 unaligned, 3 below the minimum, 4
/// above the maximum, or 0 in a refusal and in bytes that are no region; that of an address is 1 or 0; that of a range of bases is 1 always, 2 never,
/// 3 sometimes, or 0 in a refusal. A report puts a word for each row. An index has three words for each region, of either kind, in order of address: its
/// start, its size and its row; `region_of` and `region_in` give the row of the region that has an address, or 0.
#[derive(Clone, Copy)]
pub struct Calls {
    pub verdict: fn(sheet: &[u8], which: u32) -> u64,
    pub strict_verdict: fn(sheet: &[u8], which: u32) -> u64,
    pub report: fn(sheet: &[u8], words: &mut [u8], which: u32) -> u64,
    pub relocations: fn(sheet: &[u8], mask: u32, words: &mut [u8], which: u32) -> u64,
    pub relocation_base_valid: fn(sheet: &[u8], mask: u32, region: u64, base: u64, which: u32) -> u64,
    pub contains: fn(sheet: &[u8], mask: u32, region: u64, gpa: u64, which: u32) -> u64,
    pub relocation_base_range: fn(sheet: &[u8], mask: u32, region: u64, lowest: u64, highest: u64, which: u32) -> u64,
    pub region_of: fn(sheet: &[u8], mask: u32, gpa: u64, which: u32) -> u64,
    pub region_index: fn(sheet: &[u8], mask: u32, words: &mut [u8], which: u32) -> u64,
    pub verdict_numbers: fn(sheet: &[u8], numbers: &mut [u8]) -> u64,
    pub strict_verdict_numbers: fn(sheet: &[u8], numbers: &mut [u8]) -> u64,
    pub report_numbers: fn(sheet: &[u8], words: &mut [u8], numbers: &mut [u8]) -> u64,
    pub relocations_numbers: fn(sheet: &[u8], mask: u32, words: &mut [u8], numbers: &mut [u8]) -> u64,
    pub relocation_base_valid_numbers: fn(sheet: &[u8], mask: u32, region: u64, base: u64, numbers: &mut [u8]) -> u64,
    pub contains_numbers: fn(sheet: &[u8], mask: u32, region: u64, gpa: u64, numbers: &mut [u8]) -> u64,
    pub relocation_base_range_numbers: RangeNumbers,
    pub region_of_numbers: fn(sheet: &[u8], mask: u32, gpa: u64, numbers: &mut [u8]) -> u64,
    pub region_index_numbers: fn(sheet: &[u8], mask: u32, words: &mut [u8], numbers: &mut [u8]) -> u64,
    pub region_base_valid: fn(region: &[u8], base: u64) -> u64,
    pub region_contains: fn(region: &[u8], gpa: u64) -> u64,
    pub region_in: fn(index: &[u8], gpa: u64) -> u64,
}

/// The sibling of `relocation_base_range`.
pub type RangeNumbers = fn(sheet: &[u8], mask: u32, region: u64, lowest: u64, highest: u64, numbers: &mut [u8]) -> u64;
