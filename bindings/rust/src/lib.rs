//! Admission of IGVM images for a host: `libigvm.a`, whose answers are proved, behind safe functions.
//!
//! A [`Sheet`] holds the values of an image's headers, and [`Sheet::bytes`] writes them as the library reads them. [`verdict`] says whether the image is
//! accepted, [`strict_verdict`] whether each of its regions has a context for every platform too, and [`relocations`] which regions of a mask may be relocated;
//! the methods of a region say where to, and by a [`BaseCheck`] why not. Where its base is known only as a range, [`relocation_base_range`] says by a [`BaseRange`]
//! whether it may go to all of it. [`region_of`] says which region owns an address, and a [`RegionIndex`], made once, which own any number of them. Each takes any
//! bytes, makes one call of the library, and answers or gives one [`Refusal`], with its row, its list and index there, its reason and its cure. A refusal is the
//! first fault alone: [`report`] tells an image's builder of all faulty rows in one pass.
//!
//! For recovery builds [`Sheet::trimmed`], and [`trimmed`] of a sheet's bytes, drop headers from an accepted image. What is left is accepted; a header that must remain
//! is a [`TrimError`].
//!
//! ```
//! use sapyullu::*;
//!
//! let platform = IGVM_VHS_SUPPORTED_PLATFORM {
//!     compatibility_mask: 1,
//!     highest_vtl: 0,
//!     platform_type: IgvmPlatformType::NATIVE,
//!     platform_version: 2,
//!     shared_gpa_boundary: 0,
//! };
//! let sheet = Sheet {
//!     revision: IgvmRevision::V1,
//!     platform_headers: vec![IgvmPlatformHeader::SupportedPlatform(platform)],
//!     initialization_headers: vec![],
//!     directive_headers: vec![],
//! };
//! let refusal = verdict(&sheet.bytes()?).unwrap_err();
//! assert_eq!(refusal.error, Error::InvalidPlatformVersion);
//! assert_eq!(refusal.place, Some(Place { list: List::Platform, index: 0 }));
//! assert_eq!(refusal.error.cure(), "give the platform version 1");
//! # Ok::<(), SheetError>(())
//! ```
//!
//! A sheet has at most 8,192 directive headers and 67,108,864 bytes. A thread that makes calls needs up to 128 KiB of stack: most sheets take less than 24 of
//! them, and docs/MIGRATION.md of the repository says which take more.
//!
//! Headers, fields and errors have the names of crate igvm 0.5.0, whose `IgvmFile::new` and `relocations` the library stands for. With the feature `igvm`
//! the macro `igvm_adapter` makes sheets of that crate's own headers.
//!
//! In the repository: docs/SHEET.md has the sheet's layout and its limits, docs/REFUSALS.md each refusal with what it means, docs/MIGRATION.md the way from
//! crate igvm to this one, docs/DIFFERENCES.md where the answers differ from that crate's. The program examples/explain.rs puts a sheet into words and says
//! what is wrong with it, examples/report.rs what is wrong with each of its rows; examples/trim.rs writes a sheet without some of its rows.

#![deny(missing_docs)]

#[cfg(feature = "igvm")]
mod adapter;
mod base_check;
mod base_range;
mod calls;
mod headers;
mod place;
mod refusal;
mod region_index;
mod report;
mod sheet;
mod trim;

pub use base_check::BaseCheck;
pub use base_range::BaseRange;
pub use calls::{contains, relocation_base_range, relocation_base_valid, relocations, relocations_into, strict_verdict, verdict};
pub use calls::{Counts, Filled, IgvmRelocatableRegion, PageTableRegion, Relocations, REGION_BYTES};
pub use headers::{Arch, IgvmDirectiveHeader, IgvmInitializationHeader, IgvmPlatformHeader, IgvmRevision, Vtl};
pub use headers::{IgvmPageDataType, IgvmPlatformType, IGVM_VHS_PARAMETER, IGVM_VHS_PARAMETER_INSERT, IGVM_VHS_SUPPORTED_PLATFORM};
pub use place::{List, Place};
pub use refusal::{Error, Refusal};
pub use region_index::{region_in, region_index_into, region_of, IndexedRegion, RegionIndex, REGION_INDEX_BYTES};
pub use report::{report, report_into, FaultyRow, Report, Reported};
pub use sheet::{sheet_bytes, Sheet, SheetError};
pub use trim::{trimmed, TrimError};

// The Rust in the repository's README is run by the tests. Its other blocks are fenced and name their language.
#[cfg(doctest)]
#[doc = include_str!("../../../README.md")]
struct Readme;
