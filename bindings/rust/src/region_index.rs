//! Which region of a mask owns an address: by the sheet, or by an index that is made of it once.

use crate::calls::{accepted, region_in_number, region_index_numbers, region_of_numbers, BROKEN, MOST_REGIONS};
use crate::Refusal;
use std::fmt;

/// The row of the mask's region that owns the address, from 1 across the three lists, or None where no region of the mask holds it. The regions are those whose
/// headers' masks hold every bit of the mask, relocatable and page-table regions alike; a page-table region counts with its size, not its used size. An address lies
/// in at most one of them, since regions that share a mask bit don't overlap.
///
/// [`Place::of_row`](crate::Place::of_row) gives the index of the region's header. The sheet is judged anew by each such call: who looks up many addresses makes a
/// [`RegionIndex`]. Crate igvm has no such function.
///
/// # Errors
///
/// The sheet is refused, by what [`verdict`](crate::verdict) says of it, or the mask is 0 ([`QueryMaskZero`](crate::Error::QueryMaskZero)).
pub fn region_of(sheet: &[u8], mask: u32, gpa: u64) -> Result<Option<u64>, Refusal> {
    let [.., row] = accepted(sheet, region_of_numbers(sheet, mask, gpa))?;
    Ok(Some(row).filter(|&row| row != 0))
}

/// The lent bytes that a region takes in an index: three words of eight bytes.
pub const REGION_INDEX_BYTES: usize = 24;

/// The regions of a mask in the order of their starts, in the bytes that are lent: of each its start, its size and its row, each a word of eight bytes, the least
/// significant first. Returns how many regions there are. Bytes behind them are as they were, and after a refusal all are. [`region_in`] looks an address up in the
/// bytes that are filled. [`RegionIndex`] does both in bytes of its own.
///
/// 1,536 bytes are enough for any sheet, and a mask without regions needs none.
///
/// # Errors
///
/// As [`region_of`] does, and then where fewer than [`REGION_INDEX_BYTES`] are lent for each region ([`TooFewWordsLent`](crate::Error::TooFewWordsLent)).
///
/// # Panics
///
/// The library linked is not the one of this crate's version.
pub fn region_index_into(sheet: &[u8], mask: u32, words: &mut [u8]) -> Result<usize, Refusal> {
    let [.., count] = accepted(sheet, region_index_numbers(sheet, mask, words))?;
    Ok(usize::try_from(count).expect(BROKEN))
}

/// The row of the region that owns the address, or None, by the words that [`region_index_into`] filled: [`REGION_INDEX_BYTES`] for each region, and no bytes behind
/// them. It is what [`region_of`] says of the index's sheet and mask.
///
/// Of other bytes it says what their words give: it goes through the regions in order, and ends at the first that starts above the address or holds it.
pub fn region_in(words: &[u8], gpa: u64) -> Option<u64> {
    Some(region_in_number(words, gpa)).filter(|&row| row != 0)
}

/// A region of an index.
#[derive(Debug, Clone, Copy, PartialEq, Eq)]
#[non_exhaustive]
pub struct IndexedRegion {
    /// Where the region lies.
    pub start: u64,
    /// The region's bytes; of a page-table region its size, not its used size.
    pub size: u64,
    /// The region's row in the sheet, from 1 across the three lists.
    pub row: u64,
}

impl IndexedRegion {
    /// The region that three words say.
    fn from_words(words: &[u8]) -> IndexedRegion {
        let [start, size, row] = [0, 8, 16].map(|at| u64::from_le_bytes(std::array::from_fn(|i| words[at + i])));
        IndexedRegion { start, size, row }
    }
}

/// The regions of a mask in the order of their starts, by which the owner of an address is found without the sheet. It is made once, by one judging of the sheet,
/// and then answers as [`region_of`] does, for every address.
///
/// It owns its words, [`REGION_INDEX_BYTES`] for each region, and nothing else: several threads may look up addresses in one index.
///
/// ```
/// use sapyullu::*;
///
/// let platform = IGVM_VHS_SUPPORTED_PLATFORM {
///     compatibility_mask: 1,
///     highest_vtl: 0,
///     platform_type: IgvmPlatformType::NATIVE,
///     platform_version: 1,
///     shared_gpa_boundary: 0,
/// };
/// let page_table = IgvmInitializationHeader::PageTableRelocationRegion {
///     compatibility_mask: 1,
///     gpa: 0x300000,
///     size: 0x2000,
///     used_size: 0x1000,
///     vp_index: 0,
///     vtl: Vtl::Vtl0,
/// };
/// let sheet = Sheet {
///     revision: IgvmRevision::V1,
///     platform_headers: vec![IgvmPlatformHeader::SupportedPlatform(platform)],
///     initialization_headers: vec![page_table],
///     directive_headers: vec![IgvmDirectiveHeader::X64VbsVpContext { vtl: Vtl::Vtl0, registers: vec![], compatibility_mask: 1 }],
/// };
/// let bytes = sheet.bytes()?;
/// let index = RegionIndex::new(&bytes, 1)?;
/// assert_eq!(index.region_of(0x300000), Some(2));
/// assert_eq!(index.region_of(0x301FFF), Some(2), "its last byte, behind the used size");
/// assert_eq!(index.region_of(0x302000), None);
/// assert_eq!(Place::of_row(&bytes, 2), Some(Place { list: List::Initialization, index: 0 }));
/// assert_eq!(index.regions().map(|region| (region.start, region.size, region.row)).collect::<Vec<_>>(), [(0x300000, 0x2000, 2)]);
/// assert_eq!(region_of(&bytes, 1, 0x301FFF)?, Some(2), "by the sheet");
/// assert!(RegionIndex::new(&bytes, 2)?.is_empty());
/// assert_eq!(RegionIndex::new(&bytes, 0).unwrap_err().error, Error::QueryMaskZero);
/// # Ok::<(), Box<dyn std::error::Error>>(())
/// ```
#[derive(Clone, PartialEq, Eq)]
pub struct RegionIndex {
    words: Box<[u8]>,
}

impl RegionIndex {
    /// The index of the mask's regions.
    ///
    /// # Errors
    ///
    /// As [`region_of`] does.
    ///
    /// # Panics
    ///
    /// The library linked is not the one of this crate's version.
    pub fn new(sheet: &[u8], mask: u32) -> Result<RegionIndex, Refusal> {
        let mut words = [0; MOST_REGIONS * REGION_INDEX_BYTES];
        let count = region_index_into(sheet, mask, &mut words)?;
        Ok(RegionIndex { words: words[..count * REGION_INDEX_BYTES].into() })
    }

    /// The row of the region that owns the address, as [`region_of`] gives it. This asks the library, and needs no sheet.
    pub fn region_of(&self, gpa: u64) -> Option<u64> {
        region_in(&self.words, gpa)
    }

    /// How many regions the mask has, of both kinds.
    pub fn len(&self) -> usize {
        self.words.len() / REGION_INDEX_BYTES
    }

    /// That the mask has no region: no address has an owner.
    pub fn is_empty(&self) -> bool {
        self.words.is_empty()
    }

    /// The regions, the one that starts lowest first.
    pub fn regions(&self) -> impl DoubleEndedIterator<Item = IndexedRegion> + ExactSizeIterator + '_ {
        self.words.chunks_exact(REGION_INDEX_BYTES).map(IndexedRegion::from_words)
    }
}

impl fmt::Debug for RegionIndex {
    fn fmt(&self, f: &mut fmt::Formatter<'_>) -> fmt::Result {
        f.write_str("RegionIndex ")?;
        f.debug_list().entries(self.regions()).finish()
    }
}
