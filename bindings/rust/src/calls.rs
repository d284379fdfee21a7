//! The calls of the library, as safe functions. Each makes one call, which puts all numbers of the answer into bytes that are lent to it.

use crate::headers::region_flags;
use crate::{BaseCheck, BaseRange, Refusal, Vtl};

/// `libigvm.a`, as include/igvm.h declares it: any bytes, any numbers.
mod linked {
    extern "C" {
        pub fn igvm_verdict_numbers(sheet: *const u8, sheet_len: usize, numbers: *mut u8, numbers_len: usize) -> u64;
        pub fn igvm_strict_verdict_numbers(sheet: *const u8, sheet_len: usize, numbers: *mut u8, numbers_len: usize) -> u64;
        pub fn igvm_report_numbers(
            sheet: *const u8,
            sheet_len: usize,
            words: *mut u8,
            words_len: usize,
            numbers: *mut u8,
            numbers_len: usize,
        ) -> u64;
        pub fn igvm_relocations_numbers(
            sheet: *const u8,
            sheet_len: usize,
            mask: u32,
            words: *mut u8,
            words_len: usize,
            numbers: *mut u8,
            numbers_len: usize,
        ) -> u64;
        pub fn igvm_relocation_base_valid_numbers(
            sheet: *const u8,
            sheet_len: usize,
            mask: u32,
            region: u64,
            base: u64,
            numbers: *mut u8,
            numbers_len: usize,
        ) -> u64;
        pub fn igvm_relocation_base_range_numbers(
            sheet: *const u8,
            sheet_len: usize,
            mask: u32,
            region: u64,
            lowest: u64,
            highest: u64,
            numbers: *mut u8,
            numbers_len: usize,
        ) -> u64;
        pub fn igvm_contains_numbers(
            sheet: *const u8,
            sheet_len: usize,
            mask: u32,
            region: u64,
            gpa: u64,
            numbers: *mut u8,
            numbers_len: usize,
        ) -> u64;
        pub fn igvm_region_base_valid(region: *const u8, region_len: usize, base: u64) -> u64;
        pub fn igvm_region_contains(region: *const u8, region_len: usize, gpa: u64) -> u64;
        pub fn igvm_region_of_numbers(sheet: *const u8, sheet_len: usize, mask: u32, gpa: u64, numbers: *mut u8, numbers_len: usize)
            -> u64;
        pub fn igvm_region_index_numbers(
            sheet: *const u8,
            sheet_len: usize,
            mask: u32,
            words: *mut u8,
            words_len: usize,
            numbers: *mut u8,
            numbers_len: usize,
        ) -> u64;
        pub fn igvm_region_in(words: *const u8, words_len: usize, gpa: u64) -> u64;
    }

    // One number of an answer for each call. The tests below hold the whole answers to them.
    #[cfg(test)]
    extern "C" {
        pub fn igvm_verdict(sheet: *const u8, sheet_len: usize, which: u32) -> u64;
        pub fn igvm_strict_verdict(sheet: *const u8, sheet_len: usize, which: u32) -> u64;
        pub fn igvm_report(sheet: *const u8, sheet_len: usize, words: *mut u8, words_len: usize, which: u32) -> u64;
        pub fn igvm_relocations(sheet: *const u8, sheet_len: usize, mask: u32, words: *mut u8, words_len: usize, which: u32) -> u64;
        pub fn igvm_relocation_base_valid(sheet: *const u8, sheet_len: usize, mask: u32, region: u64, base: u64, which: u32) -> u64;
        pub fn igvm_relocation_base_range(
            sheet: *const u8,
            sheet_len: usize,
            mask: u32,
            region: u64,
            lowest: u64,
            highest: u64,
            which: u32,
        ) -> u64;
        pub fn igvm_contains(sheet: *const u8, sheet_len: usize, mask: u32, region: u64, gpa: u64, which: u32) -> u64;
        pub fn igvm_region_of(sheet: *const u8, sheet_len: usize, mask: u32, gpa: u64, which: u32) -> u64;
        pub fn igvm_region_index(sheet: *const u8, sheet_len: usize, mask: u32, words: *mut u8, words_len: usize, which: u32) -> u64;
    }
}

/// The numbers that a call puts into the bytes lent to it, where there is room for all of them.
fn numbers<const COUNT: usize>(call: impl FnOnce(&mut [u8]) -> u64) -> [u64; COUNT] {
    let mut words = [[0; 8]; COUNT];
    call(words.as_flattened_mut());
    words.map(u64::from_le_bytes)
}

fn verdict_numbers(sheet: &[u8]) -> [u64; 6] {
    // SAFETY: the pointers and the lengths are those of two slices that share nothing; the sheet is only read.
    numbers(|lent| unsafe { linked::igvm_verdict_numbers(sheet.as_ptr(), sheet.len(), lent.as_mut_ptr(), lent.len()) })
}

fn strict_verdict_numbers(sheet: &[u8]) -> [u64; 6] {
    // SAFETY: the pointers and the lengths are those of two slices that share nothing; the sheet is only read.
    numbers(|lent| unsafe { linked::igvm_strict_verdict_numbers(sheet.as_ptr(), sheet.len(), lent.as_mut_ptr(), lent.len()) })
}

pub(crate) fn report_numbers(sheet: &[u8], words: &mut [u8]) -> [u64; 7] {
    let (sheet_len, words_len) = (sheet.len(), words.len());
    // SAFETY: the pointers and the lengths are those of three slices that share nothing; the sheet is only read.
    numbers(|lent| unsafe {
        linked::igvm_report_numbers(sheet.as_ptr(), sheet_len, words.as_mut_ptr(), words_len, lent.as_mut_ptr(), lent.len())
    })
}

fn relocations_numbers(sheet: &[u8], mask: u32, words: &mut [u8]) -> [u64; 10] {
    let (sheet_len, words_len) = (sheet.len(), words.len());
    // SAFETY: the pointers and the lengths are those of three slices that share nothing; the sheet is only read.
    numbers(|lent| unsafe {
        linked::igvm_relocations_numbers(sheet.as_ptr(), sheet_len, mask, words.as_mut_ptr(), words_len, lent.as_mut_ptr(), lent.len())
    })
}

fn relocation_base_valid_numbers(sheet: &[u8], mask: u32, region: u64, base: u64) -> [u64; 4] {
    // SAFETY: the pointers and the lengths are those of two slices that share nothing; the sheet is only read.
    numbers(|lent| unsafe {
        linked::igvm_relocation_base_valid_numbers(sheet.as_ptr(), sheet.len(), mask, region, base, lent.as_mut_ptr(), lent.len())
    })
}

fn relocation_base_range_numbers(sheet: &[u8], mask: u32, region: u64, lowest: u64, highest: u64) -> [u64; 4] {
    let (start, length) = (sheet.as_ptr(), sheet.len());
    // SAFETY: the pointers and the lengths are those of two slices that share nothing; the sheet is only read.
    numbers(|lent| unsafe {
        linked::igvm_relocation_base_range_numbers(start, length, mask, region, lowest, highest, lent.as_mut_ptr(), lent.len())
    })
}

fn contains_numbers(sheet: &[u8], mask: u32, region: u64, gpa: u64) -> [u64; 4] {
    // SAFETY: the pointers and the lengths are those of two slices that share nothing; the sheet is only read.
    numbers(|lent| unsafe { linked::igvm_contains_numbers(sheet.as_ptr(), sheet.len(), mask, region, gpa, lent.as_mut_ptr(), lent.len()) })
}

pub(crate) fn region_of_numbers(sheet: &[u8], mask: u32, gpa: u64) -> [u64; 4] {
    // SAFETY: the pointers and the lengths are those of two slices that share nothing; the sheet is only read.
    numbers(|lent| unsafe { linked::igvm_region_of_numbers(sheet.as_ptr(), sheet.len(), mask, gpa, lent.as_mut_ptr(), lent.len()) })
}

pub(crate) fn region_index_numbers(sheet: &[u8], mask: u32, words: &mut [u8]) -> [u64; 4] {
    let (sheet_len, words_len) = (sheet.len(), words.len());
    // SAFETY: the pointers and the lengths are those of three slices that share nothing; the sheet is only read.
    numbers(|lent| unsafe {
        linked::igvm_region_index_numbers(sheet.as_ptr(), sheet_len, mask, words.as_mut_ptr(), words_len, lent.as_mut_ptr(), lent.len())
    })
}

/// The row by an index's words, or 0.
pub(crate) fn region_in_number(words: &[u8], gpa: u64) -> u64 {
    // SAFETY: the pointer and the length are those of a slice, which is only read.
    unsafe { linked::igvm_region_in(words.as_ptr(), words.len(), gpa) }
}

/// The numbers of an answer, unless the first three say that it is a refusal.
pub(crate) fn accepted<const COUNT: usize>(sheet: &[u8], numbers: [u64; COUNT]) -> Result<[u64; COUNT], Refusal> {
    match numbers[0] {
        0 => Ok(numbers),
        number => Err(Refusal::from_numbers(number, numbers[1], numbers[2]).in_sheet(sheet)),
    }
}

/// The rows of an accepted sheet.
#[derive(Debug, Clone, Copy, PartialEq, Eq)]
#[non_exhaustive]
pub struct Counts {
    /// The rows of the platform list.
    pub platform_headers: u64,
    /// The rows of the initialization list.
    pub initialization_headers: u64,
    /// The rows of the directive list.
    pub directive_headers: u64,
}

impl Counts {
    /// The counts of a verdict's numbers, unless they say that the sheet is refused.
    fn from_numbers(sheet: &[u8], numbers: [u64; 6]) -> Result<Counts, Refusal> {
        let [_, _, _, platform_headers, initialization_headers, directive_headers] = accepted(sheet, numbers)?;
        Ok(Counts { platform_headers, initialization_headers, directive_headers })
    }

    /// The line that the program `admit` writes, as `accepted 1 1 1`.
    pub fn line(&self) -> String {
        format!("accepted {} {} {}", self.platform_headers, self.initialization_headers, self.directive_headers)
    }
}

/// Whether the sheet is accepted. Stands for `IgvmFile::new`.
///
/// # Errors
///
/// The sheet is refused: any of [`Error`](crate::Error) 1 to 34.
pub fn verdict(sheet: &[u8]) -> Result<Counts, Refusal> {
    Counts::from_numbers(sheet, verdict_numbers(sheet))
}

/// Whether the sheet is accepted, and every platform of a region has its context: for each bit of the mask of each region, page-table regions included, there is
/// a VBS context of the region's VTL with that bit. [`verdict`] asks for one shared bit. Each bit counts, whether or not a platform header has it, and the bits of
/// one region may have different contexts.
///
/// Accepted, the counts are those of [`verdict`]. Crate igvm has no such function.
///
/// ```
/// use sapyullu::*;
///
/// let platform = |compatibility_mask, platform_type| {
///     let (highest_vtl, platform_version, shared_gpa_boundary) = (0, 1, 0);
///     let header = IGVM_VHS_SUPPORTED_PLATFORM { compatibility_mask, highest_vtl, platform_type, platform_version, shared_gpa_boundary };
///     IgvmPlatformHeader::SupportedPlatform(header)
/// };
/// let context = |compatibility_mask| IgvmDirectiveHeader::X64VbsVpContext { vtl: Vtl::Vtl0, registers: vec![], compatibility_mask };
/// let mut sheet = Sheet {
///     revision: IgvmRevision::V1,
///     platform_headers: vec![platform(1, IgvmPlatformType::VSM_ISOLATION), platform(2, IgvmPlatformType::SEV_SNP)],
///     initialization_headers: vec![IgvmInitializationHeader::PageTableRelocationRegion {
///         compatibility_mask: 3,
///         gpa: 0x300000,
///         size: 0x2000,
///         used_size: 0x1000,
///         vp_index: 0,
///         vtl: Vtl::Vtl0,
///     }],
///     directive_headers: vec![context(1)],
/// };
/// assert!(verdict(&sheet.bytes()?).is_ok());
/// let refusal = strict_verdict(&sheet.bytes()?).unwrap_err();
/// assert_eq!((refusal.error, refusal.detail), (Error::BitWithoutVpContext, 2));
/// assert_eq!(refusal.place, Some(Place { list: List::Initialization, index: 0 }));
/// sheet.directive_headers.push(context(2));
/// assert_eq!(strict_verdict(&sheet.bytes()?)?.line(), "accepted 2 1 2");
/// # Ok::<(), Box<dyn std::error::Error>>(())
/// ```
///
/// # Errors
///
/// The sheet is refused, by what [`verdict`] says of it; or it is accepted there, and a region's mask has a bit without a context
/// ([`BitWithoutVpContext`](crate::Error::BitWithoutVpContext)). The row is that of the first such region, the detail its lowest such bit, as a mask.
pub fn strict_verdict(sheet: &[u8]) -> Result<Counts, Refusal> {
    Counts::from_numbers(sheet, strict_verdict_numbers(sheet))
}

/// A relocatable region. It has the fields and the methods of crate igvm's, and can be made from one field by field. One method says more than there:
/// [`relocation_base_valid`](Self::relocation_base_valid) gives a [`BaseCheck`], which says why a base is turned down, and crate igvm's gives a bool.
#[derive(Debug, Clone, PartialEq, Eq)]
pub struct IgvmRelocatableRegion {
    /// Where the region lies.
    pub base_gpa: u64,
    /// The region's bytes.
    pub size: u64,
    /// What a new base must be a multiple of.
    pub relocation_alignment: u64,
    /// The lowest new base.
    pub minimum_relocation_gpa: u64,
    /// The highest end behind a new base.
    pub maximum_relocation_gpa: u64,
    /// The region is VTL 2's.
    pub is_vtl2: bool,
    /// The instruction pointer moves with the region.
    pub apply_rip_offset: bool,
    /// The GDT's base moves with the region.
    pub apply_gdtr_offset: bool,
    /// The processor whose context takes the move.
    pub vp_index: u16,
    /// The VTL whose context takes the move.
    pub vtl: Vtl,
}

/// The lent bytes that a region takes: eight words of eight bytes.
pub const REGION_BYTES: usize = 64;

/// As many regions as a sheet can have: its initialization rows are at most 64.
pub(crate) const MOST_REGIONS: usize = 64;

impl IgvmRelocatableRegion {
    /// The region that eight words say, as [`relocations_into`] leaves them. None for other bytes: flags above 7, a VP index above 65,535 or a VTL above 2.
    pub fn from_words(words: &[u8; REGION_BYTES]) -> Option<IgvmRelocatableRegion> {
        let word = |k: usize| u64::from_le_bytes(std::array::from_fn(|i| words[8 * k + i]));
        let flags = Some(word(5)).filter(|&flags| flags < 8)?;
        Some(IgvmRelocatableRegion {
            base_gpa: word(0),
            size: word(1),
            relocation_alignment: word(2),
            minimum_relocation_gpa: word(3),
            maximum_relocation_gpa: word(4),
            is_vtl2: flags & 1 != 0,
            apply_rip_offset: flags & 2 != 0,
            apply_gdtr_offset: flags & 4 != 0,
            vp_index: u16::try_from(word(6)).ok()?,
            vtl: Vtl::from_code(word(7))?,
        })
    }

    /// The region's eight words, of which [`from_words`](Self::from_words) makes it again.
    pub fn to_words(&self) -> [u8; REGION_BYTES] {
        let mut bytes = [0; REGION_BYTES];
        let words = [
            self.base_gpa,
            self.size,
            self.relocation_alignment,
            self.minimum_relocation_gpa,
            self.maximum_relocation_gpa,
            region_flags(self.is_vtl2, self.apply_rip_offset, self.apply_gdtr_offset).into(),
            self.vp_index.into(),
            self.vtl.code().into(),
        ];
        bytes.copy_from_slice(words.map(u64::to_le_bytes).as_flattened());
        bytes
    }

    /// Whether the gpa lies in the region: from its base up to, not including, base + size. The sum is exact: it does not overflow.
    ///
    /// This asks the library, and needs no sheet. [`contains`] of the region's sheet, mask and number says the same.
    pub fn contains(&self, gpa: u64) -> bool {
        let region = self.to_words();
        // SAFETY: the pointer and the length are those of a slice, which is only read.
        unsafe { linked::igvm_region_contains(region.as_ptr(), region.len(), gpa) == 1 }
    }

    /// Whether the region may be moved to the base, or else the first that applies of: it is no multiple of the alignment, it is below the minimum, base + size
    /// is above the maximum. The sum is exact: it does not overflow.
    ///
    /// Crate igvm's method of this name gives a bool: [`BaseCheck::is_valid`] is that bool, where the sum does not overflow there.
    ///
    /// This asks the library, and needs no sheet. [`relocation_base_valid`] of the region's sheet, mask and number says the same. No region of an accepted
    /// image has alignment 0; of one that has, 0 alone can be valid.
    ///
    /// # Panics
    ///
    /// The library linked is not the one of this crate's version.
    pub fn relocation_base_valid(&self, relocation_base: u64) -> BaseCheck {
        let region = self.to_words();
        // SAFETY: the pointer and the length are those of a slice, which is only read.
        base_check(unsafe { linked::igvm_region_base_valid(region.as_ptr(), region.len(), relocation_base) })
    }
}

/// The page-table region of a mask.
#[derive(Debug, Clone, Copy, PartialEq, Eq)]
#[non_exhaustive]
pub struct PageTableRegion {
    /// Where the region lies.
    pub gpa: u64,
    /// The region's bytes.
    pub size: u64,
    /// The bytes in use, at most the size. The image says it, and up to 2^64 - 4096 of it is accepted: bound it before you allocate so many bytes, as
    /// `PageTableRelocationBuilder::new` of crate igvm does.
    pub used_size: u64,
    /// The processor whose context takes the move.
    pub vp_index: u16,
    /// The VTL whose context takes the move.
    pub vtl: Vtl,
}

/// What may be relocated under a mask.
#[derive(Debug, Clone, PartialEq, Eq)]
#[non_exhaustive]
pub struct Relocations {
    /// The regions, in the order of their headers. Where crate igvm has None, there are none.
    pub regions: Vec<IgvmRelocatableRegion>,
    /// The page-table region, if the mask has one.
    pub page_table: Option<PageTableRegion>,
}

/// What [`relocations_into`] answers beside the lent bytes.
#[derive(Debug, Clone, Copy, PartialEq, Eq)]
#[non_exhaustive]
pub struct Filled {
    /// The regions in the lent bytes, `REGION_BYTES` each.
    pub count: usize,
    /// The page-table region, if the mask has one.
    pub page_table: Option<PageTableRegion>,
}

/// What a library that keeps to include/igvm.h can't answer. A panic stands in for a number that would be cut.
pub(crate) const BROKEN: &str = "libigvm.a breaks the promises of include/igvm.h";

/// The answer of this number, which is that of a region. A library before 0.4.0 gives 0 where a base is not valid.
fn base_check(number: u64) -> BaseCheck {
    BaseCheck::from_number(number).expect(BROKEN)
}

/// The regions of a mask and its page-table region: those whose headers' masks hold every bit of it. Stands for `IgvmFile::relocations`.
///
/// # Errors
///
/// The sheet is refused, by what [`verdict`] says of it, or the mask is 0 ([`QueryMaskZero`](crate::Error::QueryMaskZero)).
///
/// # Panics
///
/// The library linked is not the one of this crate's version.
pub fn relocations(sheet: &[u8], mask: u32) -> Result<Relocations, Refusal> {
    let mut words = [0; MOST_REGIONS * REGION_BYTES];
    let filled = relocations_into(sheet, mask, &mut words)?;
    let regions = words[..filled.count * REGION_BYTES].chunks_exact(REGION_BYTES);
    let region = |words: &[u8]| words.try_into().ok().and_then(IgvmRelocatableRegion::from_words).expect(BROKEN);
    Ok(Relocations { regions: regions.map(region).collect(), page_table: filled.page_table })
}

/// The same with the regions in the bytes that are lent, as [`IgvmRelocatableRegion::from_words`] reads them. Bytes behind them are as they were, and after
/// a refusal all are.
///
/// # Errors
///
/// As [`relocations`] does, and where fewer than [`REGION_BYTES`] are lent for each region ([`TooFewWordsLent`](crate::Error::TooFewWordsLent)).
///
/// # Panics
///
/// The library linked is not the one of this crate's version.
pub fn relocations_into(sheet: &[u8], mask: u32, words: &mut [u8]) -> Result<Filled, Refusal> {
    let numbers = accepted(sheet, relocations_numbers(sheet, mask, words))?;
    let [_, _, _, count, has_page_table, gpa, size, used_size, vp_index, vtl] = numbers;
    let page_table = (has_page_table == 1).then(|| PageTableRegion {
        gpa,
        size,
        used_size,
        vp_index: u16::try_from(vp_index).expect(BROKEN),
        vtl: Vtl::from_code(vtl).expect(BROKEN),
    });
    Ok(Filled { count: usize::try_from(count).expect(BROKEN), page_table })
}

/// Whether the mask's region of this number, from 0 in the order of [`Relocations::regions`], may be moved to the base, or why not: the first answer of
/// [`BaseCheck`] that applies. A base that is turned down is an answer, not a refusal.
///
/// The sheet is judged anew by each such call. [`IgvmRelocatableRegion::relocation_base_valid`] says the same of a region that [`relocations`] gave.
///
/// # Errors
///
/// The sheet is refused, the mask is 0 ([`QueryMaskZero`](crate::Error::QueryMaskZero)), or it has no region of this number
/// ([`NoSuchRegion`](crate::Error::NoSuchRegion)).
///
/// # Panics
///
/// The library linked is not the one of this crate's version.
pub fn relocation_base_valid(sheet: &[u8], mask: u32, region: u64, base: u64) -> Result<BaseCheck, Refusal> {
    let [.., number] = accepted(sheet, relocation_base_valid_numbers(sheet, mask, region, base))?;
    Ok(base_check(number))
}

/// Whether the mask's region of this number, from 0 in the order of [`Relocations::regions`], may be moved to the bases from the lowest to the highest, ends
/// included: to all, to none, or to some of those that are multiples of its alignment. Others don't count, and where the range has no multiple, the answer is
/// [`BaseRange::Never`]. It is what trying each multiple by [`relocation_base_valid`] gives; a range of one base is [`BaseRange::Always`] exactly where that is
/// [`BaseCheck::Valid`], else [`BaseRange::Never`].
///
/// The sheet is judged anew by each such call. Crate igvm has no such function.
///
/// # Errors
///
/// As [`relocation_base_valid`] does, and then where the lowest is above the highest ([`LowestAboveHighest`](crate::Error::LowestAboveHighest)).
///
/// # Panics
///
/// The library linked is not the one of this crate's version.
pub fn relocation_base_range(sheet: &[u8], mask: u32, region: u64, lowest: u64, highest: u64) -> Result<BaseRange, Refusal> {
    let [.., number] = accepted(sheet, relocation_base_range_numbers(sheet, mask, region, lowest, highest))?;
    Ok(BaseRange::from_number(number).expect(BROKEN))
}

/// Whether the gpa lies in the mask's region of this number.
///
/// The sheet is judged anew by each such call. [`IgvmRelocatableRegion::contains`] says the same of a region that [`relocations`] gave.
///
/// # Errors
///
/// As [`relocation_base_valid`] does.
pub fn contains(sheet: &[u8], mask: u32, region: u64, gpa: u64) -> Result<bool, Refusal> {
    let [.., contained] = accepted(sheet, contains_numbers(sheet, mask, region, gpa))?;
    Ok(contained == 1)
}

#[cfg(test)]
mod tests {
    use super::*;
    use crate::place::row_counts;
    use std::collections::BTreeSet;
    use std::fs;

    /// The sheets of the folder samples: accepted ones, and one for each refusal.
    fn sheets() -> Vec<Vec<u8>> {
        let folder = concat!(env!("CARGO_MANIFEST_DIR"), "/../../samples");
        let paths = fs::read_dir(folder).unwrap().map(|entry| entry.unwrap().path());
        let sheets: Vec<_> =
            paths.filter(|path| path.extension().is_some_and(|end| end == "sheet")).map(|path| fs::read(path).unwrap()).collect();
        assert!(
            sheets.iter().filter(|sheet| verdict(sheet).is_ok()).count() >= 10
                && sheets.iter().filter(|sheet| verdict(sheet).is_err()).count() >= 34
        );
        sheets
    }

    /// The numbers of an answer, each by a call of its own, and the one behind the last, which is 0.
    fn one_by_one<const COUNT: usize>(mut call: impl FnMut(u32) -> u64) -> [u64; COUNT] {
        assert_eq!(call(COUNT as u32), 0);
        std::array::from_fn(|which| call(which as u32))
    }

    #[test]
    fn a_verdicts_numbers_are_those_of_the_calls_by_which() {
        let mut refusals = BTreeSet::new();
        for sheet in sheets() {
            // SAFETY: the pointer and the length are those of a slice, which is only read.
            let single = one_by_one(|which| unsafe { linked::igvm_verdict(sheet.as_ptr(), sheet.len(), which) });
            assert_eq!(verdict_numbers(&sheet), single);
            // SAFETY: the pointer and the length are those of a slice, which is only read.
            let strict = one_by_one(|which| unsafe { linked::igvm_strict_verdict(sheet.as_ptr(), sheet.len(), which) });
            assert_eq!(strict_verdict_numbers(&sheet), strict);
            assert!(strict[0] == 0 || strict[3..] == [0; 3], "a refusal has no counts");
            refusals.insert(strict[0]);
        }
        assert_eq!(refusals.into_iter().collect::<Vec<_>>(), (0..=34).chain([38]).collect::<Vec<_>>());
    }

    #[test]
    fn a_reports_numbers_and_words_are_those_of_the_calls_by_which() {
        let (mut refusals, mut told) = (BTreeSet::new(), BTreeSet::new());
        for sheet in sheets() {
            let rows: usize = row_counts(&sheet).map_or(0, |counts| counts.iter().sum());
            for lent in [0, (8 * rows).saturating_sub(1), 8 * rows, 8 * rows + 9] {
                let (mut words, mut single_words) = (vec![0xA5; lent], vec![0xA5; lent]);
                // SAFETY: the pointers and the lengths are those of two slices that share nothing; the sheet is only read.
                let single =
                    one_by_one(|which| unsafe { linked::igvm_report(sheet.as_ptr(), sheet.len(), single_words.as_mut_ptr(), lent, which) });
                assert_eq!(report_numbers(&sheet, &mut words), single);
                assert_eq!(words, single_words);
                assert!(single[0] == 0 || single[3..] == [0; 4] && words == vec![0xA5; lent], "a refusal has no other number and no word");
                refusals.insert(single[0]);
                told.insert((single[3], single[4]));
            }
        }
        assert_eq!(refusals.into_iter().collect::<Vec<_>>(), (0..=7).chain([37]).collect::<Vec<_>>());
        assert_eq!(told.into_iter().collect::<Vec<_>>(), [(0, 0), (0, 1), (1, 0)]);
    }

    #[test]
    fn a_region_lists_numbers_and_words_are_those_of_the_calls_by_which() {
        for sheet in sheets() {
            for (mask, lent) in [0, 1, 2, 3].into_iter().flat_map(|mask| [(mask, 0), (mask, 63), (mask, 64), (mask, 4096)]) {
                let (mut words, mut single_words) = (vec![0xA5; lent], vec![0xA5; lent]);
                // SAFETY: the pointers and the lengths are those of two slices that share nothing; the sheet is only read.
                let single = one_by_one(|which| unsafe {
                    linked::igvm_relocations(sheet.as_ptr(), sheet.len(), mask, single_words.as_mut_ptr(), lent, which)
                });
                assert_eq!(relocations_numbers(&sheet, mask, &mut words), single);
                assert_eq!(words, single_words);
            }
        }
    }

    #[test]
    fn a_checks_numbers_are_those_of_the_calls_by_which() {
        let mut last_numbers = BTreeSet::new();
        for sheet in sheets() {
            for (mask, region) in [(0, 0), (1, 0), (1, 1), (2, 0), (3, 0), (1, u64::MAX)] {
                for at in [0, 0xF_F000, 0x10_0000, 0x10_1FFF, 0x10_2000, 0x1F_E000, 0x1F_F000, u64::MAX] {
                    let (start, length) = (sheet.as_ptr(), sheet.len());
                    // SAFETY: the pointer and the length are those of a slice, which is only read.
                    let check = one_by_one(|which| unsafe { linked::igvm_relocation_base_valid(start, length, mask, region, at, which) });
                    assert_eq!(relocation_base_valid_numbers(&sheet, mask, region, at), check);
                    assert_eq!(check[0] != 0, check[3] == 0, "0 is no answer, and stands in a refusal");
                    last_numbers.insert(check[3]);
                    // SAFETY: the pointer and the length are those of a slice, which is only read.
                    let contained = one_by_one(|which| unsafe { linked::igvm_contains(start, length, mask, region, at, which) });
                    assert_eq!(contains_numbers(&sheet, mask, region, at), contained);
                }
            }
        }
        assert_eq!(last_numbers.into_iter().collect::<Vec<_>>(), [0, 1, 2, 3, 4]);
    }

    #[test]
    fn a_range_checks_numbers_are_those_of_the_calls_by_which() {
        let ends = [0, 0xF_F001, 0x10_0000, 0x10_0FFF, 0x1F_E000, 0x20_1000, u64::MAX];
        let mut last_numbers = BTreeSet::new();
        for sheet in sheets() {
            for (mask, region) in [(0, 0), (1, 0), (1, 1), (2, 0), (3, 0), (1, u64::MAX)] {
                for (lowest, highest) in ends.into_iter().flat_map(|lowest| ends.map(|highest| (lowest, highest))) {
                    let (start, length) = (sheet.as_ptr(), sheet.len());
                    // SAFETY: the pointer and the length are those of a slice, which is only read.
                    let range = one_by_one(|which| unsafe {
                        linked::igvm_relocation_base_range(start, length, mask, region, lowest, highest, which)
                    });
                    assert_eq!(relocation_base_range_numbers(&sheet, mask, region, lowest, highest), range);
                    assert_eq!(range[0] != 0, range[3] == 0, "0 is no answer, and stands in a refusal");
                    last_numbers.insert(range[3]);
                }
            }
        }
        assert_eq!(last_numbers.into_iter().collect::<Vec<_>>(), [0, 1, 2, 3]);
    }

    #[test]
    fn an_owners_numbers_are_those_of_the_calls_by_which() {
        let (mut refusals, mut rows) = (BTreeSet::new(), BTreeSet::new());
        for sheet in sheets() {
            for (mask, gpa) in (0..4).flat_map(|mask| [0, 0x10_0000, 0x10_1FFF, 0x10_2000, 0x30_1FFF, u64::MAX].map(|gpa| (mask, gpa))) {
                let (start, length) = (sheet.as_ptr(), sheet.len());
                // SAFETY: the pointer and the length are those of a slice, which is only read.
                let single = one_by_one(|which| unsafe { linked::igvm_region_of(start, length, mask, gpa, which) });
                assert_eq!(region_of_numbers(&sheet, mask, gpa), single);
                assert!(single[0] == 0 || single[3] == 0, "a refusal has no owner");
                refusals.insert(single[0]);
                rows.insert(single[3]);
            }
        }
        assert_eq!(refusals.into_iter().collect::<Vec<_>>(), (0..=35).collect::<Vec<_>>());
        assert!([0, 2, 3].iter().all(|row| rows.contains(row)), "{rows:?}");
    }

    #[test]
    fn an_indexs_numbers_and_words_are_those_of_the_calls_by_which() {
        let mut refusals = BTreeSet::new();
        for sheet in sheets() {
            for (mask, lent) in (0..4).flat_map(|mask| [0, 23, 24, 48, 1535, 1536, 1545].map(|lent| (mask, lent))) {
                let (mut words, mut single_words) = (vec![0xA5; lent], vec![0xA5; lent]);
                // SAFETY: the pointers and the lengths are those of two slices that share nothing; the sheet is only read.
                let single = one_by_one(|which| unsafe {
                    linked::igvm_region_index(sheet.as_ptr(), sheet.len(), mask, single_words.as_mut_ptr(), lent, which)
                });
                assert_eq!(region_index_numbers(&sheet, mask, &mut words), single);
                assert_eq!(words, single_words);
                assert!(single[0] == 0 || single[3] == 0 && words == vec![0xA5; lent], "a refusal has no count and no word");
                assert!(words[24 * single[3] as usize..].iter().all(|&byte| byte == 0xA5), "bytes behind the words are kept");
                refusals.insert(single[0]);
            }
        }
        assert_eq!(refusals.into_iter().collect::<Vec<_>>(), (0..=35).chain([37]).collect::<Vec<_>>());
    }

    #[test]
    fn no_number_is_put_where_one_has_no_room() {
        let sheet = [0; 16];
        let mut lent = [0xA5; 47];
        // SAFETY: the pointers and the lengths are those of two slices that share nothing; the sheet is only read.
        let number = unsafe { linked::igvm_verdict_numbers(sheet.as_ptr(), sheet.len(), lent.as_mut_ptr(), lent.len()) };
        assert_eq!((number, lent), (2, [0xA5; 47]));
        // SAFETY: as above.
        let number = unsafe { linked::igvm_strict_verdict_numbers(sheet.as_ptr(), sheet.len(), lent.as_mut_ptr(), lent.len()) };
        assert_eq!((number, lent), (2, [0xA5; 47]));
        let (mut words, mut lent) = ([0xA5; 25], [0xA5; 55]);
        let mut report = |sheet: &[u8]| {
            // SAFETY: the pointers and the lengths are those of three slices that share nothing; the sheet is only read.
            let number = unsafe {
                linked::igvm_report_numbers(sheet.as_ptr(), sheet.len(), words.as_mut_ptr(), words.len(), lent.as_mut_ptr(), lent.len())
            };
            (number, words, lent)
        };
        assert_eq!(report(&sheet), (2, [0xA5; 25], [0xA5; 55]));
        let mask_3 = fs::read(concat!(env!("CARGO_MANIFEST_DIR"), "/../../samples/08-platform-mask-3.sheet")).unwrap();
        let mut rows = [0xA5; 25];
        rows[..24].copy_from_slice([8, 0, 0].map(u64::to_le_bytes).as_flattened());
        assert_eq!(report(&mask_3), (0, rows, [0xA5; 55]), "the words of the rows are put all the same");
        let mut lent = [0xA5; 31];
        // SAFETY: as above.
        let number =
            unsafe { linked::igvm_relocation_base_range_numbers(sheet.as_ptr(), sheet.len(), 1, 0, 0, 0, lent.as_mut_ptr(), lent.len()) };
        assert_eq!((number, lent), (2, [0xA5; 31]));
        // SAFETY: as above.
        let number = unsafe { linked::igvm_region_of_numbers(sheet.as_ptr(), sheet.len(), 1, 0, lent.as_mut_ptr(), lent.len()) };
        assert_eq!((number, lent), (2, [0xA5; 31]));
        let image_b = fs::read(concat!(env!("CARGO_MANIFEST_DIR"), "/../../samples/accepted-image-b.sheet")).unwrap();
        let (start, length) = (image_b.as_ptr(), image_b.len());
        let mut words = [0xA5; 25];
        // SAFETY: the pointers and the lengths are those of three slices that share nothing; the sheet is only read.
        let number =
            unsafe { linked::igvm_region_index_numbers(start, length, 1, words.as_mut_ptr(), words.len(), lent.as_mut_ptr(), lent.len()) };
        let mut region = [0xA5; 25];
        region[..24].copy_from_slice([0x10_0000, 0x2000, 2].map(u64::to_le_bytes).as_flattened());
        assert_eq!((number, words, lent), (0, region, [0xA5; 31]), "the words of the regions are put all the same");
    }

    #[test]
    fn fewer_than_64_bytes_are_no_region_and_bytes_behind_them_do_not_count() {
        let mut bytes = [0xFF; 65];
        bytes[..REGION_BYTES].copy_from_slice(&IgvmRelocatableRegion::from_words(&[0; REGION_BYTES]).unwrap().to_words());
        bytes[8] = 1;
        let contains = |length: usize| {
            let region = &bytes[..length];
            // SAFETY: the pointer and the length are those of a slice, which is only read.
            unsafe { linked::igvm_region_contains(region.as_ptr(), region.len(), 0) }
        };
        assert_eq!([0, 63, 64, 65].map(contains), [0, 0, 1, 1]);
        let base_valid = |length: usize| {
            let region = &bytes[..length];
            // SAFETY: the pointer and the length are those of a slice, which is only read.
            unsafe { linked::igvm_region_base_valid(region.as_ptr(), region.len(), 0) }
        };
        assert_eq!([0, 63, 64, 65].map(base_valid), [0, 0, 4, 4]);
    }

    #[test]
    #[should_panic = "libigvm.a breaks the promises of include/igvm.h"]
    fn the_0_of_a_library_before_0_4_0_is_no_answer() {
        let _ = base_check(0);
    }
}
