//! From the Rust's answers to document 01's numbers.

use crate::*;
use std::cell::Cell;
use std::panic::{catch_unwind, set_hook, take_hook, AssertUnwindSafe};

thread_local! {
    /// The Rust is being asked, and a panic is its answer.
    static ASKED: Cell<bool> = const { Cell::new(false) };
}

/// From here on a panic of the Rust prints nothing. Any other panic prints what it did before.
pub fn silence_panics() {
    let before = take_hook();
    set_hook(Box::new(move |info| {
        if !ASKED.get() {
            before(info);
        }
    }));
}

/// The Rust's answer, or what it said when it panicked.
fn ask<T>(question: impl FnOnce() -> T) -> Result<T, String> {
    ASKED.set(true);
    let answer = catch_unwind(AssertUnwindSafe(question));
    ASKED.set(false);
    answer.map_err(|reason| {
        let text = reason.downcast_ref::<String>().map(String::as_str);
        text.or(reason.downcast_ref::<&str>().copied()).unwrap_or("no message").to_string()
    })
}

/// The Rust's verdict on headers.
pub struct Judged {
    /// number, row, detail, and the rows of each list
    pub numbers: [u64; 6],
    /// there where the verdict is accepted
    pub file: Option<IgvmFile>,
    /// the Rust's error names X64VbsVpContext, and its row is of kind 46
    pub names_other_kind: bool,
}

/// What the Rust says of headers row by row, each behind those before it with which it finds no fault.
pub enum Reported {
    /// the page size is not supported
    PageSize(u64),
    Rows {
        /// of each row the number of its error, 0 for none; none of a row that is not on the domain
        words: Vec<Option<u64>>,
        /// no platform is left
        no_platform: bool,
        /// 34, of the rows that are left
        no_context: bool,
    },
}

/// The Rust's regions for a mask.
pub struct Relocated {
    pub regions: Vec<IgvmRelocatableRegion>,
    /// gpa, size, used size, VP index, VTL
    pub page_table: Option<[u64; 5]>,
}

/// What an error says, apart from its row.
#[derive(PartialEq, Eq)]
enum Says {
    Number(u64, u64),
    HeaderArch(String),
}
use Says::{HeaderArch, Number};

/// The list in which an error has its row.
#[derive(Clone, Copy, PartialEq, Eq)]
enum List {
    None,
    Platform,
    Initialization,
    Directive,
}

impl Headers {
    /// Document 01's domain for the verdict: no input of 19, 27 or 28 in any row.
    pub fn in_domain(&self) -> bool {
        self.initializations.iter().all(is_in_domain)
    }

    /// Of each row whether it is on that domain.
    pub fn rows_in_domain(&self) -> Vec<bool> {
        let [platforms, directives] = [self.platforms.len(), self.directives.len()].map(|rows| vec![true; rows]);
        [platforms, self.initializations.iter().map(is_in_domain).collect(), directives].concat()
    }

    /// Its domain for queries, over a nonzero mask: also used sizes up to 16,777,216.
    pub fn in_query_domain(&self) -> bool {
        use IgvmInitializationHeader::*;
        let bounded = |header: &_| !matches!(header, PageTableRelocationRegion { used_size, .. } if *used_size > 16_777_216);
        self.in_domain() && self.initializations.iter().all(bounded)
    }

    /// The verdict, or what the Rust said when it panicked.
    pub fn verdict(&self) -> Result<Judged, String> {
        ask(|| self.judged())
    }

    /// What the Rust says row by row, or what it said when it panicked. It gives an error and no row: so it is asked of the rows that are left and
    /// one more, and where it errs, the error is that row's, and the row is taken out. A row that is not on the domain has a fault by document 01: it is
    /// taken out too, and nothing is said of it.
    pub fn report(&self) -> Result<Reported, String> {
        ask(|| self.reported())
    }

    fn reported(&self) -> Reported {
        let (mut platforms, mut initializations, mut directives) = (Vec::new(), Vec::new(), Vec::new());
        let (revision, mut words) = (self.revision, Vec::new());
        if let Err(Error::UnsupportedPageSize(size)) = IgvmFile::new(revision, vec![], vec![], vec![]) {
            return Reported::PageSize(size.into());
        }
        for header in &self.platforms {
            let asked = |platforms| IgvmFile::new(revision, platforms, vec![], vec![]);
            words.push(Some(one_more(&mut platforms, header, List::Platform, asked)));
        }
        let no_platform = matches!(IgvmFile::new(revision, platforms.clone(), vec![], vec![]), Err(Error::NoPlatformHeaders));
        if no_platform {
            platforms.push(of_no_bit());
        }
        for header in &self.initializations {
            let asked = |initializations| IgvmFile::new(revision, platforms.clone(), initializations, vec![]);
            words.push(is_in_domain(header).then(|| one_more(&mut initializations, header, List::Initialization, asked)));
        }
        for header in &self.directives {
            let asked = |directives| IgvmFile::new(revision, platforms.clone(), initializations.clone(), directives);
            words.push(Some(one_more(&mut directives, header, List::Directive, asked)));
        }
        let no_context = match IgvmFile::new(revision, platforms, initializations, directives) {
            Ok(_) => false,
            Err(Error::NoMatchingVpContext) => true,
            Err(error) => panic!("{error:?} of rows in which there was no error"),
        };
        Reported::Rows { words, no_platform, no_context }
    }

    fn new_of(&self, platforms: usize, initializations: usize, directives: usize) -> Result<IgvmFile, Error> {
        IgvmFile::new(
            self.revision,
            self.platforms[..platforms].to_vec(),
            self.initializations[..initializations].to_vec(),
            self.directives[..directives].to_vec(),
        )
    }

    fn judged(&self) -> Judged {
        let counts = [self.platforms.len(), self.initializations.len(), self.directives.len()];
        match self.new_of(counts[0], counts[1], counts[2]) {
            Ok(file) => {
                let [p, i, d] = counts.map(|count| count as u64);
                Judged { numbers: [0, 0, 0, p, i, d], file: Some(file), names_other_kind: false }
            }
            Err(error) => {
                let (said, list) = says(&error);
                let row = self.row(&said, list);
                let (number, detail, names_other_kind) = match said {
                    Number(number, detail) => (number, detail, false),
                    HeaderArch(name) => self.kind_named(&name, row),
                };
                Judged { numbers: [number, row as u64, detail, 0, 0, 0], file: None, names_other_kind }
            }
        }
    }

    /// The row of an error: the last of the first prefix of its list that fails with this error, the later lists empty. 0 for none.
    fn row(&self, said: &Says, list: List) -> usize {
        let (p, i, d) = (self.platforms.len(), self.initializations.len(), self.directives.len());
        let fails = |result: Result<IgvmFile, Error>| result.is_err_and(|error| says(&error).0 == *said);
        match list {
            List::None => 0,
            List::Platform => first_from_1(p, |n| fails(self.new_of(n, 0, 0))),
            List::Initialization => p + first_from_1(i, |n| fails(self.new_of(p, n, 0))),
            List::Directive => p + i + first_from_1(d, |n| fails(self.new_of(p, i, n))),
        }
    }

    /// 24: the kind that the error names. X64VbsVpContext is named for kinds 46 and 47; there the row's kind counts.
    fn kind_named(&self, name: &str, row: usize) -> (u64, u64, bool) {
        let kind = match name {
            "CcaPolicy" => 17,
            "X64VbsVpContext" if self.kinds[row - 1] == 46 => return (24, 46, true),
            "X64VbsVpContext" => 47,
            "AArch64VbsVpContext" => 48,
            "AArch64CcaVpContext" => 49,
            _ => panic!("no number for a header {name}"),
        };
        (24, kind, false)
    }
}

/// A header on document 01's domain for the verdict: no input of 19, 27 or 28.
fn is_in_domain(header: &IgvmInitializationHeader) -> bool {
    use IgvmInitializationHeader::*;
    let sound = |gpa: u64, size: u64| size != 0 && gpa.checked_add(size).is_some();
    match header {
        RelocatableRegion { relocation_alignment, relocation_region_gpa, relocation_region_size, .. } => {
            *relocation_alignment != 0 && sound(*relocation_region_gpa, *relocation_region_size)
        }
        PageTableRelocationRegion { gpa, size, .. } => sound(*gpa, *size),
        _ => true,
    }
}

/// A platform for a file that has none left, so that the Rust does not end by 15 before it comes to other rows. Platforms matter to them by 25 alone, which asks
/// of a bit whether its last platform is CCA: with this one as without any no bit is CCA's. Its type is of both archs.
fn of_no_bit() -> IgvmPlatformHeader {
    IgvmPlatformHeader::SupportedPlatform(IGVM_VHS_SUPPORTED_PLATFORM {
        compatibility_mask: 1,
        highest_vtl: 0,
        platform_type: IgvmPlatformType::VSM_ISOLATION,
        platform_version: 1,
        shared_gpa_boundary: 0,
    })
}

/// The number of the error that one header more makes in its list, 0 for none. It stays where there is none. 34 is no error of a row: it comes behind all.
fn one_more<H: Clone>(left: &mut Vec<H>, header: &H, list: List, asked: impl Fn(Vec<H>) -> Result<IgvmFile, Error>) -> u64 {
    left.push(header.clone());
    let error = match asked(left.clone()) {
        Ok(_) | Err(Error::NoMatchingVpContext) => return 0,
        Err(error) => error,
    };
    left.pop();
    match says(&error) {
        (Number(number, _), of) if of == list => number,
        (HeaderArch(_), of) if of == list => 24,
        _ => panic!("{error:?} is no error of this list"),
    }
}

/// The least n from 1 to count with this property, which holds from there on. Long lists are searched by halves.
fn first_from_1(count: usize, holds: impl Fn(usize) -> bool) -> usize {
    if count <= 24 {
        return (1..=count).find(|&n| holds(n)).expect("the whole list fails");
    }
    let (mut below, mut at) = (0, count);
    while at - below > 1 {
        let middle = (below + at) / 2;
        if holds(middle) {
            at = middle;
        } else {
            below = middle;
        }
    }
    at
}

fn says(error: &Error) -> (Says, List) {
    match error {
        Error::UnsupportedPageSize(size) => (Number(7, u64::from(*size)), List::None),
        Error::InvalidBinaryPlatformHeader(inner) => (platform_number(inner), List::Platform),
        Error::InvalidPlatformType => (Number(12, 0), List::Platform),
        Error::PlatformArchUnsupported { platform, .. } => (Number(13, u64::from(platform.0)), List::Platform),
        Error::MultiplePlatformHeadersWithSameIsolation => (Number(14, 0), List::Platform),
        Error::NoPlatformHeaders => (Number(15, 0), List::None),
        Error::InvalidBinaryInitializationHeader(inner) => (initialization_number(inner), List::Initialization),
        Error::InvalidHeaderArch { header_type, .. } if header_type == "CcaPolicy" => {
            (HeaderArch(header_type.clone()), List::Initialization)
        }
        Error::InvalidHeaderArch { header_type, .. } => (HeaderArch(header_type.clone()), List::Directive),
        Error::InvalidCcaPolicyCompatibilityMask(mask) => (Number(25, u64::from(*mask)), List::Initialization),
        Error::MultiplePageTableRelocationHeaders => (Number(26, 0), List::Initialization),
        Error::RelocationRegionsOverlap => (Number(29, 0), List::Initialization),
        Error::InvalidBinaryDirectiveHeader(inner) => (directive_number(inner), List::Directive),
        Error::InvalidParameterAreaIndex => (Number(32, 0), List::Directive),
        Error::ParameterInsertInsidePageTableRegion => (Number(33, 0), List::Directive),
        Error::NoMatchingVpContext => (Number(34, 0), List::None),
        other => panic!("no number for {other:?}"),
    }
}

fn platform_number(error: &BinaryHeaderError) -> Says {
    match error {
        BinaryHeaderError::InvalidCompatibilityMask => Number(8, 0),
        BinaryHeaderError::InvalidVtl => Number(9, 0),
        BinaryHeaderError::InvalidPlatformVersion => Number(10, 0),
        BinaryHeaderError::InvalidSharedGpaBoundary => Number(11, 0),
        BinaryHeaderError::InvalidPlatformType => Number(12, 0),
        other => panic!("no number for {other:?} of a platform"),
    }
}

fn initialization_number(error: &BinaryHeaderError) -> Says {
    match error {
        BinaryHeaderError::InvalidOnesZeroesMasks => Number(16, 0),
        BinaryHeaderError::RelocationSize => Number(17, 0),
        BinaryHeaderError::RelocationAlignment => Number(18, 0),
        BinaryHeaderError::RelocationAddress(address) => Number(20, *address),
        BinaryHeaderError::UnalignedAddress(address) => Number(21, *address),
        BinaryHeaderError::UnalignedSize(size) => Number(22, *size),
        BinaryHeaderError::InvalidPageTableRegionSize => Number(23, 0),
        other => panic!("no number for {other:?} of an initialization"),
    }
}

fn directive_number(error: &BinaryHeaderError) -> Says {
    match error {
        BinaryHeaderError::UnalignedAddress(address) => Number(21, *address),
        BinaryHeaderError::UnalignedSize(size) => Number(22, *size),
        BinaryHeaderError::InvalidPageDataType => Number(30, 0),
        BinaryHeaderError::InvalidDataSize => Number(31, 0),
        other => panic!("no number for {other:?} of a directive"),
    }
}

impl Relocated {
    /// `relocations` of an accepted file, or what the Rust said when it panicked.
    pub fn of(file: &IgvmFile, mask: u32) -> Result<Relocated, String> {
        let (regions, builder) = ask(|| file.relocations(mask))?;
        let numbers = |b: PageTableRelocationBuilder| [b.gpa, b.size, b.used_size, u64::from(b.vp_index), b.vtl as u64];
        Ok(Relocated { regions: regions.unwrap_or_default(), page_table: builder.map(numbers) })
    }

    /// The eight words of a region.
    pub fn words(region: &IgvmRelocatableRegion) -> [u64; 8] {
        let flags = u64::from(region.is_vtl2) + 2 * u64::from(region.apply_rip_offset) + 4 * u64::from(region.apply_gdtr_offset);
        [
            region.base_gpa,
            region.size,
            region.relocation_alignment,
            region.minimum_relocation_gpa,
            region.maximum_relocation_gpa,
            flags,
            u64::from(region.vp_index),
            region.vtl as u64,
        ]
    }

    /// The region of eight words, if it can hold them: flags up to 7, a VP index below 2^16, a VTL up to 2.
    pub fn region(words: [u64; 8]) -> Option<IgvmRelocatableRegion> {
        let [base_gpa, size, relocation_alignment, minimum_relocation_gpa, maximum_relocation_gpa, flags, vp_index, vtl] = words;
        (flags < 8).then_some(())?;
        Some(IgvmRelocatableRegion {
            base_gpa,
            size,
            relocation_alignment,
            minimum_relocation_gpa,
            maximum_relocation_gpa,
            is_vtl2: flags & 1 != 0,
            apply_rip_offset: flags & 2 != 0,
            apply_gdtr_offset: flags & 4 != 0,
            vp_index: u16::try_from(vp_index).ok()?,
            vtl: Vtl::try_from(u8::try_from(vtl).ok()?).ok()?,
        })
    }
}
