//! A report: all faulty rows of a sheet in one pass.

use crate::calls::{accepted, report_numbers};
use crate::place::row_counts;
use crate::{Error, Place, Refusal};
use std::fmt;

/// A row that is faulty: what it is refused by, where every earlier faulty row is skipped.
#[derive(Debug, Clone, Copy, PartialEq, Eq)]
#[non_exhaustive]
pub struct FaultyRow {
    /// The row, from 1 across the three lists.
    pub row: u64,
    /// What is wrong with it: one of 8 to 14, or of 16 to 33.
    pub error: Error,
    /// The row's list, and its index there: the header is the one of this index in the `Vec` that the sheet was made of.
    pub place: Option<Place>,
}

impl fmt::Display for FaultyRow {
    fn fmt(&self, f: &mut fmt::Formatter<'_>) -> fmt::Result {
        self.error.write_at(Some(self.row), self.place, f)
    }
}

/// All that is wrong with a sheet that can be read.
#[derive(Debug, Clone, PartialEq, Eq)]
#[non_exhaustive]
pub struct Report {
    /// The rows of the sheet.
    pub rows: u64,
    /// The faulty ones, in the order of their rows.
    pub faulty: Vec<FaultyRow>,
    /// No platform row is left once the faulty rows are skipped: [`NoPlatformHeaders`](Error::NoPlatformHeaders).
    pub no_platform: bool,
    /// A region that is not skipped has another VP index than 0, or shares a mask bit with no VBS context of its VTL that is not skipped either:
    /// [`NoMatchingVpContext`](Error::NoMatchingVpContext).
    pub no_context: bool,
}

impl Report {
    /// That nothing is wrong: no row is faulty, and neither of the two is told. It is so exactly where [`verdict`](crate::verdict) accepts the sheet.
    pub fn is_accepted(&self) -> bool {
        self.faulty.is_empty() && !self.no_platform && !self.no_context
    }
}

/// What [`report_into`] answers beside the lent bytes.
#[derive(Debug, Clone, Copy, PartialEq, Eq)]
pub struct Reported {
    /// The rows of the sheet: as many words are in the lent bytes.
    pub rows: u64,
    /// The words other than 0.
    pub faulty_rows: u64,
    /// As in [`Report::no_platform`].
    pub no_platform: bool,
    /// As in [`Report::no_context`].
    pub no_context: bool,
}

/// As many rows as a sheet can have: 16 platform, 64 initialization and 8,192 directive rows. One whose head counts more is refused.
const MOST_ROWS: usize = 16 + 64 + 8192;

/// All faulty rows of the sheet, in one pass. [`verdict`](crate::verdict) gives the first fault alone.
///
/// A row is faulty by the refusal that it meets when every earlier faulty row is skipped and leaves no trace: it is judged after the earlier rows that are in
/// order, as though there were no others before it. So a region that overlaps a faulty one alone is in order, and a row that uses a parameter area which a faulty
/// row allocates is faulty. What is about the sheet as a whole, [`NoPlatformHeaders`](Error::NoPlatformHeaders) and
/// [`NoMatchingVpContext`](Error::NoMatchingVpContext), is told over the rows that are not faulty.
///
/// The first faulty row is the verdict's refusal, without its detail, unless the sheet has no platform row. Crate igvm has no such function.
///
/// ```
/// use sapyullu::*;
///
/// let platform = IGVM_VHS_SUPPORTED_PLATFORM {
///     compatibility_mask: 1,
///     highest_vtl: 0,
///     platform_type: IgvmPlatformType::NATIVE,
///     platform_version: 1,
///     shared_gpa_boundary: 0,
/// };
/// let page_table = |gpa, size| IgvmInitializationHeader::PageTableRelocationRegion {
///     compatibility_mask: 1,
///     gpa,
///     size,
///     used_size: 0,
///     vp_index: 0,
///     vtl: Vtl::Vtl0,
/// };
/// let area = |number_of_bytes| IgvmDirectiveHeader::ParameterArea { number_of_bytes, parameter_area_index: 7, initial_data: vec![] };
/// let sheet = Sheet {
///     revision: IgvmRevision::V1,
///     platform_headers: vec![IgvmPlatformHeader::SupportedPlatform(platform)],
///     initialization_headers: vec![page_table(0x300000, 0), page_table(0x400000, 0x2000), page_table(0x500000, 0x2000)],
///     directive_headers: vec![area(0x800), area(0x1000)],
/// };
/// let found = report(&sheet.bytes()?)?;
/// let faults: Vec<(u64, Error)> = found.faulty.iter().map(|faulty| (faulty.row, faulty.error)).collect();
/// assert_eq!(
///     faults,
///     [(2, Error::RegionSizeZero), (4, Error::MultiplePageTableRelocationHeaders), (5, Error::UnalignedSize)],
///     "the second page table may have the bit of the first, and the second area the index of the first, since these are faulty"
/// );
/// assert_eq!(found.faulty[2].place, Some(Place { list: List::Directive, index: 0 }));
/// assert_eq!(
///     found.faulty[0].to_string(),
///     "refusal 27 (RegionSizeZero) in row 2 (initialization header 0): the region's size is 0"
/// );
/// assert!(found.no_context && !found.no_platform && !found.is_accepted(), "no context is there for the second page table");
/// # Ok::<(), Box<dyn std::error::Error>>(())
/// ```
///
/// # Errors
///
/// The sheet can't be read, or its page size is another than 4096: any of [`Error`] 1 to 7, as [`verdict`](crate::verdict) gives it. Faulty rows are no error.
pub fn report(sheet: &[u8]) -> Result<Report, Refusal> {
    let rows: usize = row_counts(sheet).map_or(0, |counts| counts.iter().sum());
    let mut words = vec![0; 8 * rows.min(MOST_ROWS)];
    let Reported { rows, no_platform, no_context, .. } = report_into(sheet, &mut words)?;
    let numbers = words.chunks_exact(8).map(|word| u64::from_le_bytes(std::array::from_fn(|i| word[i])));
    let faulty = (1..).zip(numbers).filter(|&(_, number)| number != 0);
    let faulty = faulty.map(|(row, number)| FaultyRow { row, error: Error::from_number(number), place: Place::of_row(sheet, row) });
    Ok(Report { rows, faulty: faulty.collect(), no_platform, no_context })
}

/// The same with a word for each row in the bytes that are lent: eight bytes, the least significant first, the number of the row's [`Error`] or 0. The first word
/// is that of row 1. Bytes behind the last row's word are as they were, and after a refusal all are.
///
/// As many words are needed as the counts of rows in the sheet's head add up to; 66,176 bytes are enough for any sheet.
///
/// ```
/// use sapyullu::*;
///
/// let sheet = [1, 0, 0, 0, 0, 0, 0, 0, 1, 0, 0, 0, 1, 0, 0, 0]; // a platform row and a directive row
/// let sheet = [&sheet[..], &[1, 0, 0, 0, 16, 0, 0, 0, 53, 0, 0, 0, 4, 0, 0, 0]].concat(); // of 16 and of 4 bytes
/// let sheet = [&sheet[..], &[3, 0, 0, 0, 0, 0, 1, 0, 0, 0, 0, 0, 0, 0, 0, 0, 1, 0, 0, 0]].concat(); // the platform's mask is 3
/// let mut words = [0xA5; 24];
/// let reported = report_into(&sheet, &mut words)?;
/// assert_eq!((reported.rows, reported.faulty_rows, reported.no_platform, reported.no_context), (2, 1, true, false));
/// assert_eq!(words[..8], Error::InvalidCompatibilityMask.number().to_le_bytes());
/// assert_eq!(words[8..], [[0; 8], [0xA5; 8]].concat());
/// assert_eq!(report_into(&sheet, &mut words[..15]).unwrap_err().error, Error::TooFewWordsLent);
/// # Ok::<(), Refusal>(())
/// ```
///
/// # Errors
///
/// As [`report`] does, and then where fewer whole words are lent than the sheet has rows ([`TooFewWordsLent`](Error::TooFewWordsLent)).
pub fn report_into(sheet: &[u8], words: &mut [u8]) -> Result<Reported, Refusal> {
    let [_, _, _, no_platform, no_context, rows, faulty_rows] = accepted(sheet, report_numbers(sheet, words))?;
    Ok(Reported { rows, faulty_rows, no_platform: no_platform == 1, no_context: no_context == 1 })
}
