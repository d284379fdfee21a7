//! From header values to the bytes of a sheet. Every value that a header can hold is written as it is: it is the library that refuses.

use crate::headers::region_flags;
use crate::{Arch, IgvmDirectiveHeader, IgvmInitializationHeader, IgvmPlatformHeader, IgvmRevision, List, Place, IGVM_VHS_PARAMETER};
use std::borrow::Borrow;
use std::fmt;

/// The headers of an image, list by list.
#[derive(Debug, Clone, PartialEq, Eq)]
pub struct Sheet {
    /// The revision, with architecture and page size.
    pub revision: IgvmRevision,
    /// The platform headers.
    pub platform_headers: Vec<IgvmPlatformHeader>,
    /// The initialization headers.
    pub initialization_headers: Vec<IgvmInitializationHeader>,
    /// The directive headers.
    pub directive_headers: Vec<IgvmDirectiveHeader>,
}

/// Header values that no sheet can hold: a number of rows or bytes does not fit in its field.
#[derive(Debug, Clone, Copy, PartialEq, Eq)]
#[non_exhaustive]
pub enum SheetError {
    /// A list of more than 65,535 rows.
    TooManyRows {
        /// The list.
        list: List,
        /// Its rows.
        rows: usize,
    },
    /// A body of more than 4,294,967,295 bytes.
    BodyTooLong {
        /// The header whose body it is.
        place: Place,
        /// The body's bytes.
        bytes: usize,
    },
}

impl fmt::Display for SheetError {
    fn fmt(&self, f: &mut fmt::Formatter<'_>) -> fmt::Result {
        match self {
            SheetError::TooManyRows { list, rows } => write!(f, "{rows} {list} rows, of which a sheet holds at most {}", u16::MAX),
            SheetError::BodyTooLong { place, bytes } => {
                write!(f, "the body of {place} has {bytes} bytes, of which a sheet holds at most {}", u32::MAX)
            }
        }
    }
}

impl std::error::Error for SheetError {}

impl Sheet {
    /// The sheet's bytes: head, table of contents, bodies. They are allocated once, at their length.
    ///
    /// # Errors
    ///
    /// A list is longer than a sheet can say, or a body is ([`SheetError`]). A sheet that the library refuses can be written.
    pub fn bytes(&self) -> Result<Vec<u8>, SheetError> {
        sheet_bytes(self.revision, &self.platform_headers, &self.initialization_headers, &self.directive_headers)
    }
}

/// The bytes of the sheet of these headers, which are given by value or by reference, in any form that can be gone through twice. Bytes that are lent to a
/// header (as an `IgvmDirectiveHeader<&[u8]>` has them) are copied once, into the sheet, which is allocated once, at its length.
///
/// ```
/// use sapyullu::*;
///
/// let page = vec![0xF4; 4096];
/// let platform = IgvmPlatformHeader::SupportedPlatform(IGVM_VHS_SUPPORTED_PLATFORM {
///     compatibility_mask: 1,
///     highest_vtl: 0,
///     platform_type: IgvmPlatformType::NATIVE,
///     platform_version: 1,
///     shared_gpa_boundary: 0,
/// });
/// let pages = (0..3).map(|number| IgvmDirectiveHeader::PageData {
///     gpa: 4096 * number,
///     compatibility_mask: 1,
///     flags: 0,
///     data_type: IgvmPageDataType::NORMAL,
///     data: page.as_slice(),
/// });
/// let no_regions: [IgvmInitializationHeader; 0] = [];
/// let sheet = sheet_bytes(IgvmRevision::V1, [platform], no_regions, pages)?;
/// assert_eq!(verdict(&sheet).unwrap().line(), "accepted 1 0 3");
/// # Ok::<(), SheetError>(())
/// ```
///
/// # Errors
///
/// A list is longer than a sheet can say, or a body is ([`SheetError`]). A sheet that the library refuses can be written.
///
/// # Panics
///
/// A list has more or fewer headers or bytes when it is gone through again.
pub fn sheet_bytes<Platforms, Initializations, Directives, Bytes>(
    revision: IgvmRevision,
    platforms: Platforms,
    initializations: Initializations,
    directives: Directives,
) -> Result<Vec<u8>, SheetError>
where
    Platforms: IntoIterator<Item: Borrow<IgvmPlatformHeader>, IntoIter: Clone>,
    Initializations: IntoIterator<Item: Borrow<IgvmInitializationHeader>, IntoIter: Clone>,
    Directives: IntoIterator<Item: Borrow<IgvmDirectiveHeader<Bytes>>, IntoIter: Clone>,
    Bytes: AsRef<[u8]>,
{
    let (platforms, initializations, directives) = (platforms.into_iter(), initializations.into_iter(), directives.into_iter());
    let mut counts = List::ALL.map(Count::new);
    platforms.clone().for_each(|header| platform_row(&mut counts[0], header.borrow()));
    initializations.clone().for_each(|header| initialization_row(&mut counts[1], header.borrow()));
    directives.clone().for_each(|header| directive_row(&mut counts[2], header.borrow()));

    let mut sheet = empty_sheet(revision, &counts)?;
    let mut rows = Writer::new(&mut sheet, &counts);
    platforms.for_each(|header| platform_row(&mut rows, header.borrow()));
    initializations.for_each(|header| initialization_row(&mut rows, header.borrow()));
    directives.for_each(|header| directive_row(&mut rows, header.borrow()));
    rows.finish();
    Ok(sheet)
}

/// Two passes over one list have to agree, or the sheet would hold other rows than were counted.
const CHANGED: &str = "a list of headers changed while it was written";

/// Writes these bytes in front, and leaves what is behind them.
#[inline]
fn put(rest: &mut &mut [u8], bytes: &[u8]) {
    let (front, behind) = std::mem::take(rest).split_at_mut_checked(bytes.len()).expect(CHANGED);
    front.copy_from_slice(bytes);
    *rest = behind;
}

/// Numbers one behind the other, little-endian, each of its width.
macro_rules! fields {
    ($($width:ident: $value:expr),*) => {{
        let mut bytes = [0; 0 $(+ size_of::<$width>())*];
        let mut rest = &mut bytes[..];
        $(put(&mut rest, &$width::to_le_bytes($value));)*
        bytes
    }};
}

/// Where the rows of a sheet go, which are first counted and then written. A row's body is its fields and then its opaque bytes.
trait Rows {
    fn row<const FIELDS: usize>(&mut self, kind: u32, fields: [u8; FIELDS], opaque: &[u8]);
}

/// The rows of a list and the bytes of their bodies.
struct Count {
    list: List,
    rows: usize,
    bytes: usize,
    too_long: Option<SheetError>,
}

impl Count {
    fn new(list: List) -> Count {
        Count { list, rows: 0, bytes: 0, too_long: None }
    }

    #[inline]
    fn body(&mut self, bytes: usize) {
        if u32::try_from(bytes).is_err() {
            let place = Place { list: self.list, index: self.rows };
            self.too_long.get_or_insert(SheetError::BodyTooLong { place, bytes });
        }
        self.rows += 1;
        self.bytes += bytes;
    }

    /// The number of rows as the head has it.
    fn in_head(&self) -> Result<u16, SheetError> {
        u16::try_from(self.rows).map_err(|_| SheetError::TooManyRows { list: self.list, rows: self.rows })
    }

    /// The first body that is too long.
    fn bodies_fit(&self) -> Result<(), SheetError> {
        self.too_long.map_or(Ok(()), Err)
    }
}

impl Rows for Count {
    #[inline]
    fn row<const FIELDS: usize>(&mut self, _kind: u32, _fields: [u8; FIELDS], opaque: &[u8]) {
        self.body(FIELDS + opaque.len());
    }
}

pub(crate) const HEAD_BYTES: usize = 16;
pub(crate) const ENTRY_BYTES: usize = 8;

/// The sheet with its head, and zeroes for its table of contents and its bodies.
fn empty_sheet(revision: IgvmRevision, counts: &[Count; 3]) -> Result<Vec<u8>, SheetError> {
    let head = head(revision, [counts[0].in_head()?, counts[1].in_head()?, counts[2].in_head()?]);
    counts.iter().try_for_each(Count::bodies_fit)?;
    let behind: usize = counts.iter().map(|count| ENTRY_BYTES * count.rows + count.bytes).sum();
    let mut sheet = vec![0; HEAD_BYTES + behind];
    sheet[..HEAD_BYTES].copy_from_slice(&head);
    Ok(sheet)
}

fn head(revision: IgvmRevision, rows: [u16; 3]) -> [u8; HEAD_BYTES] {
    let (revision, arch, page_size) = match revision {
        IgvmRevision::V1 => (1, Arch::X64, 0),
        IgvmRevision::V2 { arch, page_size } => (2, arch, page_size),
    };
    fields![u8: revision, u8: arch as u8, u16: 0, u32: page_size, u16: rows[0], u16: rows[1], u16: rows[2], u16: 0]
}

/// What is still to be written of a sheet's table of contents and of its bodies.
struct Writer<'a> {
    table: &'a mut [u8],
    bodies: &'a mut [u8],
}

impl<'a> Writer<'a> {
    fn new(sheet: &'a mut [u8], counts: &[Count; 3]) -> Self {
        let rows: usize = counts.iter().map(|count| count.rows).sum();
        let (table, bodies) = sheet[HEAD_BYTES..].split_at_mut(ENTRY_BYTES * rows);
        Writer { table, bodies }
    }

    fn finish(self) {
        assert!(self.table.is_empty() && self.bodies.is_empty(), "{CHANGED}");
    }
}

impl Rows for Writer<'_> {
    #[inline]
    fn row<const FIELDS: usize>(&mut self, kind: u32, fields: [u8; FIELDS], opaque: &[u8]) {
        let length = u32::try_from(FIELDS + opaque.len()).expect(CHANGED);
        put(&mut self.table, &fields![u32: kind, u32: length]);
        put(&mut self.bodies, &fields);
        put(&mut self.bodies, opaque);
    }
}

fn platform_row(rows: &mut impl Rows, header: &IgvmPlatformHeader) {
    let IgvmPlatformHeader::SupportedPlatform(info) = header;
    let fields = fields![
        u32: info.compatibility_mask,
        u8: info.highest_vtl,
        u8: info.platform_type.0,
        u16: info.platform_version,
        u64: info.shared_gpa_boundary
    ];
    rows.row(1, fields, &[]);
}

fn initialization_row(rows: &mut impl Rows, header: &IgvmInitializationHeader) {
    use IgvmInitializationHeader::*;
    match *header {
        GuestPolicy { policy, compatibility_mask: mask } => rows.row(16, fields![u64: policy, u32: mask], &[]),
        CcaPolicy {
            compatibility_mask: mask,
            attributes_required_zeroes: zeroes,
            attributes_required_ones: ones,
            hash_algorithm,
            lfa_policy,
        } => rows.row(17, fields![u32: mask, u64: zeroes, u64: ones, u8: hash_algorithm, u8: lfa_policy], &[]),
        RelocatableRegion {
            compatibility_mask,
            relocation_alignment,
            relocation_region_gpa,
            relocation_region_size,
            minimum_relocation_gpa,
            maximum_relocation_gpa,
            is_vtl2,
            apply_rip_offset,
            apply_gdtr_offset,
            vp_index,
            vtl,
        } => {
            let fields = fields![
                u32: compatibility_mask,
                u64: relocation_alignment,
                u64: relocation_region_gpa,
                u64: relocation_region_size,
                u64: minimum_relocation_gpa,
                u64: maximum_relocation_gpa,
                u8: region_flags(is_vtl2, apply_rip_offset, apply_gdtr_offset),
                u16: vp_index,
                u8: vtl.code()
            ];
            rows.row(18, fields, &[])
        }
        PageTableRelocationRegion { compatibility_mask: mask, gpa, size, used_size, vp_index, vtl } => {
            rows.row(19, fields![u32: mask, u64: gpa, u64: size, u64: used_size, u16: vp_index, u8: vtl.code()], &[])
        }
        Unknown => rows.row(0, [], &[]),
    }
}

#[inline]
fn directive_row<Bytes: AsRef<[u8]>>(rows: &mut impl Rows, header: &IgvmDirectiveHeader<Bytes>) {
    use IgvmDirectiveHeader::*;
    match header {
        PageData { gpa, compatibility_mask: mask, flags, data_type, data } => {
            rows.row(32, fields![u64: *gpa, u32: *mask, u32: *flags, u16: data_type.0], data.as_ref())
        }
        ParameterArea { number_of_bytes, parameter_area_index: area, initial_data } => {
            rows.row(33, fields![u64: *number_of_bytes, u32: *area], initial_data.as_ref())
        }
        VpCount(parameter) => parameter_row(rows, 34, parameter),
        EnvironmentInfo(parameter) => parameter_row(rows, 35, parameter),
        Srat(parameter) => parameter_row(rows, 36, parameter),
        Madt(parameter) => parameter_row(rows, 37, parameter),
        Slit(parameter) => parameter_row(rows, 38, parameter),
        Pptt(parameter) => parameter_row(rows, 39, parameter),
        MmioRanges(parameter) => parameter_row(rows, 40, parameter),
        MemoryMap(parameter) => parameter_row(rows, 41, parameter),
        CommandLine(parameter) => parameter_row(rows, 42, parameter),
        DeviceTree(parameter) => parameter_row(rows, 43, parameter),
        RequiredMemory { gpa, compatibility_mask: mask, number_of_bytes, vtl2_protectable } => {
            rows.row(44, fields![u64: *gpa, u32: *mask, u32: *number_of_bytes, u8: u8::from(*vtl2_protectable)], &[])
        }
        SnpVpContext { gpa, compatibility_mask: mask, vp_index, vmsa } => {
            rows.row(45, fields![u64: *gpa, u32: *mask, u16: *vp_index], vmsa.as_ref())
        }
        X64NativeVpContext { compatibility_mask: mask, vp_index, context } => {
            rows.row(46, fields![u32: *mask, u16: *vp_index], context.as_ref())
        }
        X64VbsVpContext { vtl, registers, compatibility_mask: mask } => {
            rows.row(47, fields![u32: *mask, u8: vtl.code()], registers.as_ref())
        }
        AArch64VbsVpContext { vtl, registers, compatibility_mask: mask } => {
            rows.row(48, fields![u32: *mask, u8: vtl.code()], registers.as_ref())
        }
        AArch64CcaVpContext { compatibility_mask: mask, vp_index, context } => {
            rows.row(49, fields![u32: *mask, u16: *vp_index], context.as_ref())
        }
        ParameterInsert(insert) => {
            rows.row(50, fields![u64: insert.gpa, u32: insert.compatibility_mask, u32: insert.parameter_area_index], &[])
        }
        ErrorRange { gpa, compatibility_mask: mask, size_bytes } => rows.row(51, fields![u64: *gpa, u32: *mask, u32: *size_bytes], &[]),
        SnpIdBlock { compatibility_mask: mask, opaque } => rows.row(52, fields![u32: *mask], opaque.as_ref()),
        VbsMeasurement { compatibility_mask: mask, opaque } => rows.row(53, fields![u32: *mask], opaque.as_ref()),
    }
}

fn parameter_row(rows: &mut impl Rows, kind: u32, parameter: &IGVM_VHS_PARAMETER) {
    rows.row(kind, fields![u32: parameter.parameter_area_index, u32: parameter.byte_offset], &[]);
}

#[cfg(test)]
mod tests {
    use super::*;

    fn counted(bodies: &[usize]) -> Count {
        let mut count = Count::new(List::Directive);
        bodies.iter().for_each(|&bytes| count.body(bytes));
        count
    }

    #[test]
    fn a_body_of_2_to_the_32_bytes_is_too_long() {
        let longest = counted(&[5, 0xFFFF_FFFF]);
        assert_eq!((longest.rows, longest.bytes, longest.bodies_fit()), (2, 0x1_0000_0004, Ok(())));
        let error = counted(&[5, 0x1_0000_0000, 0xFFFF_FFFF, 0x1_0000_0001]).bodies_fit().unwrap_err();
        let place = Place { list: List::Directive, index: 1 };
        assert_eq!(error, SheetError::BodyTooLong { place, bytes: 0x1_0000_0000 });
        assert_eq!(error.to_string(), "the body of directive header 1 has 4294967296 bytes, of which a sheet holds at most 4294967295");
    }
}
