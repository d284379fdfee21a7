//! A sheet without some of its headers, for recovery builds. Of an accepted image what is left is accepted, but for headers that must remain.

use crate::place::row_counts;
use crate::sheet::{ENTRY_BYTES, HEAD_BYTES};
use crate::{verdict, List, Place, Refusal, Sheet, SheetError};
use std::collections::BTreeMap;
use std::fmt;

/// Why headers can't be dropped from a sheet: the first that applies, in the order below.
#[derive(Debug, Clone, Copy, PartialEq, Eq)]
#[non_exhaustive]
pub enum TrimError {
    /// The sheet has no header at this place. Of several such places, and of those of platform headers, it is the first that is given.
    NoSuchHeader {
        /// The place.
        place: Place,
    },
    /// A platform header: all of them stay.
    PlatformHeader {
        /// Its place.
        place: Place,
    },
    /// The sheet can't be written. Of a sheet that is given as bytes it does not occur.
    Sheet(SheetError),
    /// The sheet is refused as it is: only of an accepted image it is known that the rest is accepted.
    Refused(Refusal),
    /// A VBS context, [`X64VbsVpContext`](crate::IgvmDirectiveHeader::X64VbsVpContext) or
    /// [`AArch64VbsVpContext`](crate::IgvmDirectiveHeader::AArch64VbsVpContext): all of them stay, since a region may need it
    /// ([`NoMatchingVpContext`](crate::Error::NoMatchingVpContext)). Of several it is the first in the sheet.
    VbsVpContext {
        /// Its place.
        place: Place,
    },
    /// A [`ParameterArea`](crate::IgvmDirectiveHeader::ParameterArea) that a remaining header names, which would then name an area that is not allocated
    /// ([`InvalidParameterAreaIndex`](crate::Error::InvalidParameterAreaIndex)). Of several it is the first in the sheet.
    NamedParameterArea {
        /// Its place.
        place: Place,
        /// The area's index.
        parameter_area_index: u32,
        /// The first remaining header that names the area.
        named_by: Place,
    },
}

impl fmt::Display for TrimError {
    fn fmt(&self, f: &mut fmt::Formatter<'_>) -> fmt::Result {
        match self {
            TrimError::NoSuchHeader { place } => write!(f, "the sheet has no {place}"),
            TrimError::PlatformHeader { place } => write!(f, "{place} can't be dropped: all platform headers stay"),
            TrimError::Sheet(error) => write!(f, "the sheet can't be written: {error}"),
            TrimError::Refused(refusal) => write!(f, "the sheet is refused before any header is dropped: {refusal}"),
            TrimError::VbsVpContext { place } => write!(f, "{place} can't be dropped: it is a VBS context, and all of them stay"),
            TrimError::NamedParameterArea { place, parameter_area_index, named_by } => {
                write!(f, "{place} can't be dropped: it allocates parameter area {parameter_area_index}, which {named_by} names")
            }
        }
    }
}

impl std::error::Error for TrimError {}

impl From<SheetError> for TrimError {
    fn from(error: SheetError) -> TrimError {
        TrimError::Sheet(error)
    }
}

impl From<Refusal> for TrimError {
    fn from(refusal: Refusal) -> TrimError {
        TrimError::Refused(refusal)
    }
}

impl Sheet {
    /// The sheet without the headers at these places, for recovery builds. A place that is given twice counts once, and the headers that remain keep their order.
    ///
    /// Initialization and directive headers may be dropped, page-table regions too, but for VBS contexts and for each parameter area that a remaining header names.
    /// What is left is then accepted: that is proved, and the library is not asked again. For every mask but 0 its regions are those of before without the dropped
    /// ones, and where [`strict_verdict`](crate::strict_verdict) accepts the sheet, it accepts what is left. Crate igvm has no such function.
    ///
    /// ```
    /// use sapyullu::*;
    ///
    /// let platform = IGVM_VHS_SUPPORTED_PLATFORM {
    ///     compatibility_mask: 1,
    ///     highest_vtl: 0,
    ///     platform_type: IgvmPlatformType::NATIVE,
    ///     platform_version: 1,
    ///     shared_gpa_boundary: 0,
    /// };
    /// let page_table = IgvmInitializationHeader::PageTableRelocationRegion {
    ///     compatibility_mask: 1,
    ///     gpa: 0x300000,
    ///     size: 0x2000,
    ///     used_size: 0x1000,
    ///     vp_index: 0,
    ///     vtl: Vtl::Vtl0,
    /// };
    /// let sheet = Sheet {
    ///     revision: IgvmRevision::V1,
    ///     platform_headers: vec![IgvmPlatformHeader::SupportedPlatform(platform)],
    ///     initialization_headers: vec![page_table],
    ///     directive_headers: vec![
    ///         IgvmDirectiveHeader::X64VbsVpContext { vtl: Vtl::Vtl0, registers: vec![], compatibility_mask: 1 },
    ///         IgvmDirectiveHeader::ParameterArea { number_of_bytes: 0x1000, parameter_area_index: 7, initial_data: vec![] },
    ///         IgvmDirectiveHeader::VpCount(IGVM_VHS_PARAMETER { parameter_area_index: 7, byte_offset: 0 }),
    ///     ],
    /// };
    /// let page_table = Place { list: List::Initialization, index: 0 };
    /// let [context, area, vp_count] = [0, 1, 2].map(|index| Place { list: List::Directive, index });
    /// let rest = sheet.trimmed([page_table, area, vp_count])?;
    /// assert_eq!(verdict(&rest.bytes()?)?.line(), "accepted 1 0 1");
    /// assert_eq!(relocations(&rest.bytes()?, 1)?.page_table, None);
    ///
    /// assert_eq!(sheet.trimmed([page_table, context]), Err(TrimError::VbsVpContext { place: context }));
    /// let named = sheet.trimmed([area]).unwrap_err();
    /// assert_eq!(named, TrimError::NamedParameterArea { place: area, parameter_area_index: 7, named_by: vp_count });
    /// assert_eq!(
    ///     named.to_string(),
    ///     "directive header 1 can't be dropped: it allocates parameter area 7, which directive header 2 names"
    /// );
    /// # Ok::<(), Box<dyn std::error::Error>>(())
    /// ```
    ///
    /// # Errors
    ///
    /// The first of these that applies ([`TrimError`]): a place has no header, or is that of a platform header, by the first such place that is given; the sheet can't
    /// be written; it is refused, by what [`verdict`] says of it; a VBS context is dropped, by the first in the sheet; a parameter area is dropped that a remaining
    /// header names, by the first such area in the sheet.
    pub fn trimmed(&self, dropped: impl IntoIterator<Item = Place>) -> Result<Sheet, TrimError> {
        let counts = [self.platform_headers.len(), self.initialization_headers.len(), self.directive_headers.len()];
        let dropped = Dropped::of(counts, dropped)?;
        dropped.may_go(&self.bytes()?)?;
        Ok(Sheet {
            revision: self.revision,
            platform_headers: self.platform_headers.clone(),
            initialization_headers: dropped.rest(List::Initialization, &self.initialization_headers),
            directive_headers: dropped.rest(List::Directive, &self.directive_headers),
        })
    }
}

/// The same on the sheet's bytes: those of the sheet of the headers that remain. Each has the body that it had, byte for byte, opaque bytes too. They are what
/// [`Sheet::bytes`] writes of [`Sheet::trimmed`].
///
/// [`Place::of_row`] gives the place of a row. Who has the headers in lists of another type drops them there at the same places, once this has not refused them.
///
/// ```
/// use sapyullu::*;
///
/// let sheet = [1, 0, 0, 0, 0, 0, 0, 0, 1, 0, 0, 0, 1, 0, 0, 0]; // a platform row and a directive row
/// let sheet = [&sheet[..], &[1, 0, 0, 0, 16, 0, 0, 0, 53, 0, 0, 0, 4, 0, 0, 0]].concat(); // of 16 and of 4 bytes
/// let sheet = [&sheet[..], &[1, 0, 0, 0, 0, 0, 1, 0, 0, 0, 0, 0, 0, 0, 0, 0, 1, 0, 0, 0]].concat();
/// assert_eq!(verdict(&sheet)?.line(), "accepted 1 0 1");
/// let rest = trimmed(&sheet, Place::of_row(&sheet, 2))?;
/// assert_eq!(verdict(&rest)?.line(), "accepted 1 0 0");
/// assert_eq!(rest[16..], [&sheet[16..24], &sheet[32..48]].concat(), "row 1's entry of the table, and its body");
/// assert_eq!(
///     trimmed(&sheet, Place::of_row(&sheet, 1)).unwrap_err().to_string(),
///     "platform header 0 can't be dropped: all platform headers stay"
/// );
/// # Ok::<(), Box<dyn std::error::Error>>(())
/// ```
///
/// # Errors
///
/// As [`Sheet::trimmed`] does, where the places are held to the numbers of rows in the sheet's head. Bytes that are too short to have a head have no header.
pub fn trimmed(sheet: &[u8], dropped: impl IntoIterator<Item = Place>) -> Result<Vec<u8>, TrimError> {
    let dropped = Dropped::of(row_counts(sheet).unwrap_or_default(), dropped)?;
    dropped.may_go(sheet)?;
    let remaining = || rows(sheet).filter(|row| !dropped.has(row.place));
    let mut counts = [0_u16; 3];
    remaining().for_each(|row| counts[row.place.list as usize] += 1);
    let mut bytes = Vec::with_capacity(HEAD_BYTES + remaining().map(|row| ENTRY_BYTES + row.body.len()).sum::<usize>());
    bytes.extend(sheet.iter().take(8));
    bytes.extend(counts.map(u16::to_le_bytes).as_flattened());
    bytes.extend(sheet.iter().take(HEAD_BYTES).skip(14));
    remaining().for_each(|row| bytes.extend(row.entry));
    remaining().for_each(|row| bytes.extend(row.body));
    Ok(bytes)
}

/// Of each list whether a header is dropped, by its index.
struct Dropped([Vec<bool>; 3]);

impl Dropped {
    /// The headers at these places, if lists of these lengths have one at each, and none is of a platform.
    fn of(counts: [usize; 3], places: impl IntoIterator<Item = Place>) -> Result<Dropped, TrimError> {
        let mut dropped = counts.map(|count| vec![false; count]);
        for place in places {
            let header = dropped[place.list as usize].get_mut(place.index).ok_or(TrimError::NoSuchHeader { place })?;
            if place.list == List::Platform {
                return Err(TrimError::PlatformHeader { place });
            }
            *header = true;
        }
        Ok(Dropped(dropped))
    }

    fn has(&self, place: Place) -> bool {
        self.0[place.list as usize].get(place.index).is_some_and(|dropped| *dropped)
    }

    /// The headers of a list that remain.
    fn rest<T: Clone>(&self, list: List, headers: &[T]) -> Vec<T> {
        headers.iter().zip(&self.0[list as usize]).filter(|(_, dropped)| !**dropped).map(|(header, _)| header.clone()).collect()
    }

    /// That the sheet is accepted, and so is what is left of it: no VBS context is dropped, and no parameter area that a remaining row names.
    fn may_go(&self, sheet: &[u8]) -> Result<(), TrimError> {
        verdict(sheet)?;
        let dropped_rows = || rows(sheet).filter(|row| self.has(row.place));
        if let Some(Row { place, .. }) = dropped_rows().find(Row::is_vbs_context) {
            return Err(TrimError::VbsVpContext { place });
        }
        let mut named = BTreeMap::new();
        for row in rows(sheet).filter(|row| !self.has(row.place)) {
            if let Some(area) = row.named_area() {
                named.entry(area).or_insert(row.place);
            }
        }
        for row in dropped_rows() {
            if let Some((parameter_area_index, &named_by)) = row.allocated_area().and_then(|area| Some((area, named.get(&area)?))) {
                return Err(TrimError::NamedParameterArea { place: row.place, parameter_area_index, named_by });
            }
        }
        Ok(())
    }
}

/// A row of a sheet: its entry of the table of contents, and its body.
struct Row<'a> {
    place: Place,
    entry: &'a [u8],
    body: &'a [u8],
}

/// The rows of a sheet, in order. Of bytes that are none it has the rows in front of the first whose entry or body is not there.
fn rows(sheet: &[u8]) -> impl Iterator<Item = Row<'_>> {
    let counts = row_counts(sheet).unwrap_or_default();
    let places = List::ALL.into_iter().zip(counts).flat_map(|(list, count)| (0..count).map(move |index| Place { list, index }));
    let behind_head = sheet.get(HEAD_BYTES..).unwrap_or_default();
    let (table, bodies) = behind_head.split_at_checked(ENTRY_BYTES * counts.iter().sum::<usize>()).unwrap_or((behind_head, &[]));
    places.zip(table.chunks_exact(ENTRY_BYTES)).scan(bodies, |rest, (place, entry)| {
        let (body, behind) = rest.split_at_checked(usize::try_from(number(entry, 4)?).ok()?)?;
        *rest = behind;
        Some(Row { place, entry, body })
    })
}

/// The little-endian u32 at this offset.
fn number(bytes: &[u8], at: usize) -> Option<u32> {
    bytes.get(at..)?.first_chunk().map(|&field| u32::from_le_bytes(field))
}

impl Row<'_> {
    fn kind(&self) -> Option<u32> {
        number(self.entry, 0)
    }

    /// X64VbsVpContext or AArch64VbsVpContext.
    fn is_vbs_context(&self) -> bool {
        matches!(self.kind(), Some(47 | 48))
    }

    /// The index of a ParameterArea.
    fn allocated_area(&self) -> Option<u32> {
        match self.kind()? {
            33 => number(self.body, 8),
            _ => None,
        }
    }

    /// The index of the area that a parameter (VpCount to DeviceTree) or a ParameterInsert names.
    fn named_area(&self) -> Option<u32> {
        match self.kind()? {
            34..=43 => number(self.body, 0),
            50 => number(self.body, 12),
            _ => None,
        }
    }
}

#[cfg(test)]
mod tests {
    use super::*;

    #[test]
    fn bytes_that_end_early_have_the_rows_that_are_there() {
        let sheet = std::fs::read(concat!(env!("CARGO_MANIFEST_DIR"), "/../../samples/trimmed-before.sheet")).unwrap();
        let bodies: Vec<usize> = rows(&sheet).map(|row| row.body.len()).collect();
        assert_eq!(bodies, [16, 48, 48, 31, 12, 5, 22, 18, 18, 8, 8, 16, 12]);
        for length in 0..=sheet.len() {
            let mut end = HEAD_BYTES + ENTRY_BYTES * bodies.len();
            let there = bodies.iter().take_while(|&&bytes| {
                end += bytes;
                end <= length
            });
            assert_eq!(rows(&sheet[..length]).count(), there.count(), "{length} bytes");
        }
        let areas = rows(&sheet).map(|row| (row.is_vbs_context(), row.allocated_area(), row.named_area()));
        let areas: Vec<_> = areas.skip(5).collect();
        let [other, context] = [(false, None, None), (true, None, None)];
        let (allocates, names) = (|area| (false, Some(area), None), (false, None, Some(7)));
        assert_eq!(areas, [context, other, allocates(7), allocates(8), names, names, names, other]);
    }

    #[test]
    fn a_body_that_ends_early_has_no_area() {
        let (place, body) = (Place { list: List::Directive, index: 0 }, [1; 16]);
        for (kind, least) in [(33, 12), (34, 4), (43, 4), (50, 16)] {
            for length in 0..=16 {
                let row = Row { place, entry: &[kind, 0, 0, 0], body: &body[..length] };
                let area = row.allocated_area().or(row.named_area());
                assert_eq!(area, (length >= least).then_some(0x0101_0101), "kind {kind}, {length} bytes");
            }
        }
        let cut = Row { place, entry: &[33, 0, 0], body: &body };
        assert_eq!((cut.kind(), cut.allocated_area(), cut.is_vbs_context()), (None, None, false));
    }
}
