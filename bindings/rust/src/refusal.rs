//! The refusals, by number and name.

use crate::Place;
use std::fmt;

/// A refused call: what is wrong, where, and the number that says more.
#[derive(Debug, Clone, Copy, PartialEq, Eq)]
#[non_exhaustive]
pub struct Refusal {
    /// What is wrong.
    pub error: Error,
    /// The row that is refused, from 1 across the three lists; None for the sheet or the call as a whole.
    pub row: Option<u64>,
    /// The number that the error carries, as docs/REFUSALS.md says of each; 0 where it carries none.
    pub detail: u64,
    /// The row's list, and its index there: the header is the one of this index in the `Vec` that the sheet was made of. None where there is no row.
    pub place: Option<Place>,
}

/// How an error's detail is read.
enum Detail {
    None,
    Decimal(&'static str),
    Hexadecimal(&'static str),
}
use Detail::{Decimal, Hexadecimal};

macro_rules! errors {
    ($($number:literal $name:ident, $sentence:literal, $cure:literal, $detail:expr;)*) => {
        /// What is wrong. The names are those of the errors of crate igvm 0.5.0 (`Error` and `BinaryHeaderError`), but for 1 to 6, 19, 27, 28, 35 to 38
        /// and 50, which it does not have. There is none of 39 to 49.
        #[derive(Debug, Clone, Copy, PartialEq, Eq, Hash)]
        #[non_exhaustive]
        pub enum Error {
            $(#[doc = concat!(stringify!($number), ": ", $sentence, ". The cure: ", $cure, ".")] $name,)*
            /// A number that this crate has no name for. The library that it was written for gives none; a later one may.
            Unknown(u64),
        }

        impl Error {
            /// The error of a refusal's number. 0 refuses nothing and is [`Error::Unknown`].
            pub fn from_number(number: u64) -> Error {
                match number {
                    $($number => Error::$name,)*
                    _ => Error::Unknown(number),
                }
            }

            /// The refusal's number.
            pub fn number(self) -> u64 {
                match self {
                    $(Error::$name => $number,)*
                    Error::Unknown(number) => number,
                }
            }

            /// The error's name.
            pub fn name(self) -> &'static str {
                match self {
                    $(Error::$name => stringify!($name),)*
                    Error::Unknown(_) => "Unknown",
                }
            }

            /// What an image's builder, or for 35 to 37 and 50 the caller, does about it, in one sentence.
            pub fn cure(self) -> &'static str {
                match self {
                    $(Error::$name => $cure,)*
                    Error::Unknown(_) => "take the version of this crate that belongs to the library, and see docs/REFUSALS.md of its repository",
                }
            }

            fn sentence(self) -> &'static str {
                match self {
                    $(Error::$name => $sentence,)*
                    Error::Unknown(_) => "the library refuses for a reason that this crate does not know",
                }
            }

            fn detail(self) -> Detail {
                match self {
                    $(Error::$name => $detail,)*
                    Error::Unknown(_) => Decimal("detail"),
                }
            }
        }
    };
}

errors! {
    1 SheetEndsEarly, "the sheet, its table of contents or a body ends early",
        "write all of the sheet: 16 bytes of head, 8 of table for each row that the head counts, and each body at the length of its table entry", Detail::None;
    2 InvalidHead, "the sheet's head breaks its layout",
        "write revision 1 with architecture 0 and page size 0, or revision 2 with architecture 0 or 1, and zeroes in the head's two reserved fields", Detail::None;
    3 LimitExceeded, "the sheet has more rows or bytes than the limits allow",
        "keep to 16 platform, 64 initialization and 8,192 directive rows and to 67,108,864 bytes", Detail::None;
    4 InvalidKind, "the row's kind does not belong in its list",
        "give a platform row kind 1, an initialization row one of 16 to 19, a directive row one of 32 to 53", Detail::None;
    5 InvalidBody, "the row's body has a wrong length, or a VTL, flags or a boolean out of range",
        "write the body by the layout of its kind: its length, a VTL up to 2, flags of a region up to 7, a boolean of 0 or 1", Detail::None;
    6 BytesLeftOver, "bytes follow the last body",
        "end the sheet with its last body, or count the rows in the head that the bytes belong to", Detail::None;
    7 UnsupportedPageSize, "the page size is not 4096",
        "build the image for pages of 4096 bytes", Decimal("page size");
    8 InvalidCompatibilityMask, "the platform's compatibility mask has not exactly one bit",
        "give the platform a mask of one bit", Detail::None;
    9 InvalidVtl, "the platform's highest VTL is neither 0 nor 2",
        "give the platform a highest VTL of 0 or 2", Detail::None;
    10 InvalidPlatformVersion, "the platform type has another version",
        "give the platform version 1", Detail::None;
    11 InvalidSharedGpaBoundary, "the platform type has no shared GPA boundary, and one is given",
        "give a NATIVE or VSM_ISOLATION platform the shared GPA boundary 0", Detail::None;
    12 InvalidPlatformType, "the platform type is not known",
        "give the platform one of the types NATIVE, VSM_ISOLATION, SEV_SNP, TDX, SEV, SEV_ES and CCA", Detail::None;
    13 PlatformArchUnsupported, "the architecture does not have the platform type",
        "list a CCA platform on AArch64 alone, NATIVE, SEV_SNP, TDX, SEV and SEV_ES on X64 alone", Decimal("platform type");
    14 MultiplePlatformHeadersWithSameIsolation, "an earlier platform has the same type",
        "list each platform type once", Detail::None;
    15 NoPlatformHeaders, "there is no platform header",
        "list at least one platform", Detail::None;
    16 InvalidOnesZeroesMasks, "the CcaPolicy requires a bit to be both zero and one",
        "take each bit out of the required zeroes or out of the required ones", Detail::None;
    17 RelocationSize, "the relocatable region's size is not a multiple of 4096",
        "round the region's size up to a multiple of 4096", Detail::None;
    18 RelocationAlignment, "the relocatable region's alignment is not a multiple of 4096",
        "give the region an alignment that is a multiple of 4096", Detail::None;
    19 RelocationAlignmentZero, "the relocatable region's alignment is 0",
        "give the region an alignment of 4096 or a multiple of it", Detail::None;
    20 RelocationAddress, "the relocatable region's gpa, minimum or maximum is not a multiple of its alignment",
        "move the address to a multiple of the region's alignment, or give the region a smaller alignment", Hexadecimal("address");
    21 UnalignedAddress, "the gpa is not a multiple of 4096",
        "move the gpa to a multiple of 4096", Hexadecimal("address");
    22 UnalignedSize, "the size is not a multiple of 4096",
        "round the size, or the used size, to a multiple of 4096", Hexadecimal("size");
    23 InvalidPageTableRegionSize, "the page-table region's used size is above its size",
        "make the page-table region as large as its used size", Detail::None;
    24 InvalidHeaderArch, "the architecture does not have this kind of header",
        "list CcaPolicy and AArch64 contexts on AArch64 alone, X64 native and VBS contexts on X64 alone", Decimal("kind");
    25 InvalidCcaPolicyCompatibilityMask, "the CcaPolicy's mask has a bit without a CCA platform",
        "give the CcaPolicy bits of CCA platforms alone", Hexadecimal("mask");
    26 MultiplePageTableRelocationHeaders, "an earlier page-table region shares a mask bit",
        "list one page-table region for each platform, or take the shared bits out of one mask", Detail::None;
    27 RegionSizeZero, "the region's size is 0",
        "give the region a size, or leave its header out", Detail::None;
    28 RegionEndTooHigh, "the region's gpa and size add up to more than 2^64 - 1",
        "move the region down, or make it smaller", Detail::None;
    29 RelocationRegionsOverlap, "the region overlaps an earlier one that shares a mask bit",
        "move one of the two regions, or take the shared bits out of one mask", Detail::None;
    30 InvalidPageDataType, "the page's type is not known",
        "give the page one of the types NORMAL, SECRETS, CPUID_DATA and CPUID_XF", Detail::None;
    31 InvalidDataSize, "the data is longer than a page or than its parameter area",
        "list a page of its own for each 4096 bytes of data, or make the parameter area as large as its initial data", Detail::None;
    32 InvalidParameterAreaIndex, "the parameter area is not allocated, is inserted already, or is allocated again",
        "allocate each area once, before all rows that name it, and insert it once, behind them", Detail::None;
    33 ParameterInsertInsidePageTableRegion, "the parameter area is inserted in a page-table region that shares a mask bit",
        "insert the area outside of the page-table region, or take the shared bits out of one mask", Detail::None;
    34 NoMatchingVpContext, "a region's VP index is not 0, or no VBS context of its VTL shares a mask bit with it",
        "give each region VP index 0, and list a VBS context of its VTL that shares a mask bit with it", Detail::None;
    35 QueryMaskZero, "the query's mask is 0",
        "ask with the mask of a platform", Detail::None;
    36 NoSuchRegion, "the mask has no relocatable region of this number",
        "ask for a number below the mask's count of relocatable regions", Detail::None;
    37 TooFewWordsLent, "fewer whole words are lent than the answer takes",
        "lend 64 bytes for each region of a region list, 24 for each of an index, or 8 for each row of a report; 4,096, 1,536 and 66,176 are enough for any sheet",
        Detail::None;
    38 BitWithoutVpContext, "the region's mask has a bit that no VBS context of its VTL has",
        "list for each bit of the region's mask a VBS context of its VTL with that bit, or take the bit out of the region's mask", Hexadecimal("mask");
    50 LowestAboveHighest, "the range's lowest base is above its highest",
        "give the lower of the two bases as the lowest, the higher as the highest", Detail::None;
}

impl fmt::Display for Error {
    fn fmt(&self, f: &mut fmt::Formatter<'_>) -> fmt::Result {
        f.write_str(self.sentence())
    }
}

impl std::error::Error for Error {}

impl Error {
    /// Number, name, row and place, if there is one, and what is wrong.
    pub(crate) fn write_at(self, row: Option<u64>, place: Option<Place>, f: &mut fmt::Formatter<'_>) -> fmt::Result {
        write!(f, "refusal {} ({})", self.number(), self.name())?;
        if let Some(row) = row {
            write!(f, " in row {row}")?;
        }
        if let Some(place) = place {
            write!(f, " ({place})")?;
        }
        write!(f, ": {self}")
    }
}

impl Refusal {
    /// The refusal of an answer's first three numbers: number, row (0 for none) and detail. [`in_sheet`](Self::in_sheet) adds its place.
    pub fn from_numbers(number: u64, row: u64, detail: u64) -> Refusal {
        Refusal { error: Error::from_number(number), row: Some(row).filter(|&row| row != 0), detail, place: None }
    }

    /// The same refusal with the place of its row, by the numbers of rows in the head of the sheet that is refused.
    pub fn in_sheet(self, sheet: &[u8]) -> Refusal {
        Refusal { place: self.row.and_then(|row| Place::of_row(sheet, row)), ..self }
    }

    /// The line that the program `admit` writes, as `refused 19 row 2 detail 0`.
    pub fn line(&self) -> String {
        format!("refused {} row {} detail {}", self.error.number(), self.row.unwrap_or(0), self.detail)
    }
}

impl fmt::Display for Refusal {
    fn fmt(&self, f: &mut fmt::Formatter<'_>) -> fmt::Result {
        self.error.write_at(self.row, self.place, f)?;
        match self.error.detail() {
            Detail::None => Ok(()),
            Decimal(meaning) => write!(f, " ({meaning} {})", self.detail),
            Hexadecimal(meaning) => write!(f, " ({meaning} {:#x})", self.detail),
        }
    }
}

impl std::error::Error for Refusal {}
