//! Ranges of bases: which ranges and which answers a run must have met, and the answer by the Rust's check of each multiple, by the check by words of
//! each, and by plain Rust.

use crate::columns::{counts, Columns};
use crate::paper::Refusal;
use crate::plain;
use oracle::IgvmRelocatableRegion;

const ALWAYS: u64 = 1;
const NEVER: u64 = 2;
const SOMETIMES: u64 = 3;

/// The answers from 1 on; 50; how many multiples a range has, and with how many it is always or never; which of its ends are multiples; then what
/// else must be met of ranges, of their multiples and of regions; and the refusals that come before 50.
const COLUMNS: [&str; 33] = [
    "always",
    "never",
    "sometimes",
    "50",
    "no multiple",
    "one, always",
    "one, never",
    "several, always",
    "several, never",
    "more than are tried",
    "both ends multiples",
    "the lowest end alone",
    "the highest end alone",
    "neither end",
    "lowest 0",
    "highest 2^64 - 1",
    "lowest is highest",
    "the next multiple at 2^64 or above",
    "never, from below to above",
    "sometimes, first valid",
    "sometimes, last valid",
    "sometimes, neither valid",
    "minimum above maximum",
    "the highest maximum",
    "a sum of 2^64",
    "a higher sum",
    "alignment 0x3000",
    "another that is no power of two",
    "alignment 2^63",
    "from the Rust's check of each multiple",
    "the verdict's refusal before 50",
    "35 before 50",
    "36 before 50",
];

const REFUSED: usize = 3;
const BY_RUST: usize = 29;
const BEFORE: usize = 30;

/// The columns that tell ranges of one sort from others: how many multiples, which ends, and which of the multiples are valid.
const SORT: [usize; 15] = [4, 5, 6, 7, 8, 9, 10, 11, 12, 13, 18, 19, 20, 21, 22];

/// Which columns hold of a range that was answered, with these words of the region.
fn columns(&[_, size, alignment, minimum, maximum, ..]: &[u64; 8], lowest: u64, highest: u64, answer: u64) -> [bool; COLUMNS.len()] {
    let exact = [size, alignment, minimum, maximum, lowest, highest].map(i128::from);
    let [size, step, minimum, maximum, low, high] = exact;
    let next = (low + step - 1) / step * step;
    let (first, last) = (next, high - high % step);
    let count = (last - first) / step + 1;
    let (one, several) = (count == 1, count > 1);
    let is_valid = |base: i128| base >= minimum && base + size <= maximum;
    let (first_valid, last_valid) = (is_valid(first), is_valid(last));
    let (is_always, is_never, is_sometimes) = (answer == ALWAYS, answer == NEVER, answer == SOMETIMES);
    let whole = 1 << 64;
    [
        is_always,
        is_never,
        is_sometimes,
        false,
        count == 0,
        one && is_always,
        one && is_never,
        several && is_always,
        several && is_never,
        count > i128::from(TRIED),
        low == first && high == last,
        low == first && high != last,
        low != first && high == last,
        low != first && high != last,
        low == 0,
        high == whole - 1,
        low == high,
        next >= whole,
        several && is_never && first < minimum && last + size > maximum,
        is_sometimes && first_valid,
        is_sometimes && last_valid,
        is_sometimes && !first_valid && !last_valid,
        minimum > maximum,
        maximum + step >= whole,
        (first..=last).contains(&(whole - size)) && (whole - size) % step == 0,
        count > 0 && last + size > whole,
        alignment == 0x3000,
        alignment != 0x3000 && !alignment.is_power_of_two(),
        alignment == 1 << 63,
        false,
        false,
        false,
        false,
    ]
}

/// The sort of a range that was answered.
pub fn sort(words: &[u64; 8], (lowest, highest): (u64, u64), answer: u64) -> u32 {
    let columns = columns(words, lowest, highest, answer);
    SORT.iter().fold(0, |bits, &column| 2 * bits + u32::from(columns[column]))
}

counts!(Ranges);

impl Ranges {
    /// A range of bases of a region with these words, the answer, from 1 to 3, and whether it followed from the Rust's check of each multiple too.
    pub fn met(&mut self, words: &[u64; 8], (lowest, highest): (u64, u64), answer: u64, has_rust: bool) {
        let mut columns = columns(words, lowest, highest, answer);
        columns[BY_RUST] = has_rust;
        self.count(&columns);
    }

    /// The refusal of a range whose lowest base is above the highest: 50, or one that comes before it.
    pub fn refused(&mut self, number: u64) {
        let column = match number {
            50 => REFUSED,
            36 => BEFORE + 2,
            35 => BEFORE + 1,
            _ => BEFORE,
        };
        self.0[column] += 1;
    }
}

// ---- by checks of single bases

/// The most multiples of a range that are tried, each of them.
const TRIED: u64 = 4096;

/// The answer from a check of each multiple, if there are no more than so many: always if there is one and all are valid, never if none is, else
/// sometimes.
fn by_checks(alignment: u64, (lowest, highest): (u64, u64), most: u64, is_valid: impl Fn(u64) -> bool) -> Option<u64> {
    let first = lowest.checked_next_multiple_of(alignment).filter(|first| *first <= highest);
    let count = first.map_or(0, |first| (highest - first) / alignment + 1);
    if count > most {
        return None;
    }
    let following = |base: &u64| base.checked_add(alignment);
    let valid = std::iter::successors(first, following).take_while(|base| *base <= highest).filter(|&base| is_valid(base)).count();
    Some(match valid as u64 {
        0 => NEVER,
        valid if valid == count => ALWAYS,
        _ => SOMETIMES,
    })
}

/// The answer from the Rust's check of each multiple. It is not asked where the sum with the size reaches 2^64: such a base is not valid.
pub fn by_rust(region: &IgvmRelocatableRegion, range: (u64, u64)) -> Option<u64> {
    let is_valid = |base: u64| base.checked_add(region.size).is_some_and(|_| region.relocation_base_valid(base));
    by_checks(region.relocation_alignment, range, TRIED, is_valid)
}

/// The multiples that are tried by words: fewer, since there are more such ranges.
const BY_WORDS: u64 = 64;

/// The answer from a check of each multiple by a region's words.
pub fn by_words(words: &[u64; 8], range: (u64, u64), check: impl Fn(u64) -> u64) -> Option<u64> {
    by_checks(words[2], range, BY_WORDS, |base| check(base) == 1)
}

// ---- plain Rust

/// The answer over a range as plain safe Rust has it, of the region with these words of an accepted sheet: its minimum is a multiple of the
/// alignment.
fn plain_answer(&[_, size, alignment, minimum, maximum, ..]: &[u64; 8], lowest: u64, highest: u64) -> u64 {
    let last = highest - highest % alignment;
    let Some(first) = lowest.checked_next_multiple_of(alignment).filter(|first| *first <= last) else { return NEVER };
    let Some(top) = maximum.checked_sub(size) else { return NEVER };
    if minimum <= first && last <= top {
        ALWAYS
    } else if first.max(minimum) <= last.min(top) {
        SOMETIMES
    } else {
        NEVER
    }
}

/// The words of the region of this number among those of a mask, in an accepted sheet.
fn plain_region(sheet: &[u8], mask: u32, number: u64) -> Option<[u64; 8]> {
    let le = |at: usize, width: usize| sheet[at..at + width].iter().rev().fold(0, |number, &byte| number << 8 | u64::from(byte));
    let [platforms, initializations, directives] = [8, 10, 12].map(|at| le(at, 2) as usize);
    let mut body = 16 + 8 * (platforms + initializations + directives);
    let mut left = number;
    for row in 0..platforms + initializations {
        let (kind, length) = (le(16 + 8 * row, 4), le(20 + 8 * row, 4) as usize);
        if kind == 18 && le(body, 4) as u32 & mask == mask {
            if left == 0 {
                let word = |at: usize| le(body + at, 8);
                return Some([word(12), word(20), word(4), word(28), word(36), le(body + 44, 1), le(body + 45, 2), le(body + 47, 1)]);
            }
            left -= 1;
        }
        body += length;
    }
    None
}

/// The numbers of the answer over a range by plain Rust: its verdict, 35, 36, 50, then the answer. It stands here and not in plain.rs for the reason
/// that `region::by_plain` has.
#[inline(never)]
pub fn by_plain(sheet: &[u8], mask: u32, number: u64, (lowest, highest): (u64, u64)) -> [u64; 4] {
    if let Err(Refusal(number, row, detail)) = plain::verdict(sheet) {
        return [number, row, detail, 0];
    }
    if mask == 0 {
        return [35, 0, 0, 0];
    }
    let Some(words) = plain_region(sheet, mask, number) else { return [36, 0, 0, 0] };
    if lowest > highest {
        return [50, 0, 0, 0];
    }
    [0, 0, 0, plain_answer(&words, lowest, highest)]
}
