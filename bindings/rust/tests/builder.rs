//! Sheets from header values: their bytes, and what the library reads in them.

mod common;

use common::{image_b, image_with, platform, region};
use sapyullu::*;
use std::fs;

#[test]
fn image_b_is_the_stored_sheet() {
    let stored = fs::read(concat!(env!("CARGO_MANIFEST_DIR"), "/../../crates/admit_sheets/data/b")).unwrap();
    let sheet = image_b().bytes().unwrap();
    assert_eq!(sheet, stored);
    assert_eq!(verdict(&sheet).unwrap().line(), "accepted 1 1 1");
}

#[test]
fn a_sheet_without_rows_is_its_head() {
    let sheet = |revision| Sheet { revision, platform_headers: vec![], initialization_headers: vec![], directive_headers: vec![] };
    let head = |revision| sheet(revision).bytes().unwrap();
    assert_eq!(head(IgvmRevision::V1), [1, 0, 0, 0, 0, 0, 0, 0, 0, 0, 0, 0, 0, 0, 0, 0]);
    assert_eq!(head(IgvmRevision::V2 { arch: Arch::X64, page_size: 4096 }), [2, 0, 0, 0, 0, 16, 0, 0, 0, 0, 0, 0, 0, 0, 0, 0]);
    assert_eq!(head(IgvmRevision::V2 { arch: Arch::AArch64, page_size: 8192 }), [2, 1, 0, 0, 0, 32, 0, 0, 0, 0, 0, 0, 0, 0, 0, 0]);
    assert_eq!(verdict(&head(IgvmRevision::V1)).unwrap_err().error, Error::NoPlatformHeaders);
}

/// A row by document 01's table: its kind, its fields (each a width in bytes and a number), and what follows them.
struct Expected(u32, &'static [(usize, u64)], &'static [u8]);

impl Expected {
    fn body(&self) -> Vec<u8> {
        let fields = self.1.iter().flat_map(|&(width, number)| number.to_le_bytes().into_iter().take(width));
        fields.chain(self.2.iter().copied()).collect()
    }

    /// That this is the sheet's last row.
    fn check(&self, sheet: Sheet) {
        let rows = sheet.platform_headers.len() + sheet.initialization_headers.len() + sheet.directive_headers.len();
        let bytes = sheet.bytes().unwrap();
        let body = self.body();
        let entry = &bytes[16 + 8 * (rows - 1)..16 + 8 * rows];
        assert_eq!(entry, [self.0.to_le_bytes(), (body.len() as u32).to_le_bytes()].concat(), "kind {}", self.0);
        assert_eq!(bytes[bytes.len() - body.len()..], body, "kind {}", self.0);
    }
}

/// The sheet of image B without regions and contexts.
fn bare() -> Sheet {
    Sheet { initialization_headers: vec![], directive_headers: vec![], ..image_b() }
}

#[test]
fn a_platform_row_has_its_layout() {
    let header = IGVM_VHS_SUPPORTED_PLATFORM {
        compatibility_mask: 0x01020304,
        highest_vtl: 0x11,
        platform_type: IgvmPlatformType(0x12),
        platform_version: 0x2122,
        shared_gpa_boundary: 0x3132333435363738,
    };
    let expected = Expected(1, &[(4, 0x01020304), (1, 0x11), (1, 0x12), (2, 0x2122), (8, 0x3132333435363738)], &[]);
    expected.check(Sheet { platform_headers: vec![IgvmPlatformHeader::SupportedPlatform(header)], ..bare() });
}

#[test]
fn initialization_rows_have_their_layout() {
    use IgvmInitializationHeader::*;
    let expected = [
        (GuestPolicy { policy: 1 << 40, compatibility_mask: 2 }, Expected(16, &[(8, 1 << 40), (4, 2)], &[])),
        (
            CcaPolicy {
                compatibility_mask: 1,
                attributes_required_zeroes: 2 << 56,
                attributes_required_ones: 3,
                hash_algorithm: 4,
                lfa_policy: 5,
            },
            Expected(17, &[(4, 1), (8, 2 << 56), (8, 3), (1, 4), (1, 5)], &[]),
        ),
        (
            PageTableRelocationRegion { compatibility_mask: 1, gpa: 2, size: 3 << 32, used_size: 4, vp_index: 0x506, vtl: Vtl::Vtl2 },
            Expected(19, &[(4, 1), (8, 2), (8, 3 << 32), (8, 4), (2, 0x506), (1, 2)], &[]),
        ),
    ];
    for (header, row) in expected {
        row.check(Sheet { initialization_headers: vec![header], ..bare() });
    }
}

#[test]
fn a_region_row_has_its_layout_and_one_bit_a_flag() {
    for flags in 0..8 {
        let header = IgvmInitializationHeader::RelocatableRegion {
            compatibility_mask: 1,
            relocation_alignment: 2,
            relocation_region_gpa: 3 << 40,
            relocation_region_size: 4,
            minimum_relocation_gpa: 5,
            maximum_relocation_gpa: 6 << 56,
            is_vtl2: flags & 1 != 0,
            apply_rip_offset: flags & 2 != 0,
            apply_gdtr_offset: flags & 4 != 0,
            vp_index: 0x708,
            vtl: Vtl::Vtl1,
        };
        let sheet = Sheet { initialization_headers: vec![header], ..bare() };
        let bytes = sheet.bytes().unwrap();
        assert_eq!(bytes[bytes.len() - 4..], [flags as u8, 8, 7, 1]);
        if flags == 0 {
            Expected(18, &[(4, 1), (8, 2), (8, 3 << 40), (8, 4), (8, 5), (8, 6 << 56), (1, 0), (2, 0x708), (1, 1)], &[]).check(sheet);
        }
    }
}

#[test]
fn parameter_rows_have_their_layout() {
    use IgvmDirectiveHeader::*;
    let makers = [VpCount, EnvironmentInfo, Srat, Madt, Slit, Pptt, MmioRanges, MemoryMap, CommandLine, DeviceTree];
    for (make, kind) in makers.into_iter().zip(34..) {
        let header = make(IGVM_VHS_PARAMETER { parameter_area_index: 1 << 24, byte_offset: 2 });
        Expected(kind, &[(4, 1 << 24), (4, 2)], &[]).check(Sheet { directive_headers: vec![header], ..bare() });
    }
    let insert = ParameterInsert(IGVM_VHS_PARAMETER_INSERT { gpa: 1 << 40, compatibility_mask: 2, parameter_area_index: 3 });
    Expected(50, &[(8, 1 << 40), (4, 2), (4, 3)], &[]).check(Sheet { directive_headers: vec![insert], ..bare() });
}

#[test]
fn other_directive_rows_have_their_layout() {
    use IgvmDirectiveHeader::*;
    let opaque = || b"xyz".to_vec();
    let page = PageData { gpa: 1 << 40, compatibility_mask: 2, flags: 3 << 16, data_type: IgvmPageDataType(0x405), data: opaque() };
    let memory = |vtl2_protectable| RequiredMemory { gpa: 1 << 40, compatibility_mask: 2, number_of_bytes: 3, vtl2_protectable };
    let expected = [
        (page, Expected(32, &[(8, 1 << 40), (4, 2), (4, 3 << 16), (2, 0x405)], b"xyz")),
        (
            ParameterArea { number_of_bytes: 1 << 40, parameter_area_index: 2, initial_data: opaque() },
            Expected(33, &[(8, 1 << 40), (4, 2)], b"xyz"),
        ),
        (memory(false), Expected(44, &[(8, 1 << 40), (4, 2), (4, 3), (1, 0)], &[])),
        (memory(true), Expected(44, &[(8, 1 << 40), (4, 2), (4, 3), (1, 1)], &[])),
        (ErrorRange { gpa: 1 << 40, compatibility_mask: 2, size_bytes: 3 }, Expected(51, &[(8, 1 << 40), (4, 2), (4, 3)], &[])),
        (SnpIdBlock { compatibility_mask: 1 << 24, opaque: opaque() }, Expected(52, &[(4, 1 << 24)], b"xyz")),
        (VbsMeasurement { compatibility_mask: 1 << 24, opaque: opaque() }, Expected(53, &[(4, 1 << 24)], b"xyz")),
    ];
    for (header, row) in expected {
        row.check(Sheet { directive_headers: vec![header], ..bare() });
    }
}

#[test]
fn context_rows_have_their_layout() {
    use IgvmDirectiveHeader::*;
    let (compatibility_mask, vp_index, opaque) = (1 << 24, 0x203, || b"xyz".to_vec());
    let expected = [
        (
            SnpVpContext { gpa: 1 << 40, compatibility_mask, vp_index, vmsa: opaque() },
            Expected(45, &[(8, 1 << 40), (4, 1 << 24), (2, 0x203)], b"xyz"),
        ),
        (X64NativeVpContext { compatibility_mask, vp_index, context: opaque() }, Expected(46, &[(4, 1 << 24), (2, 0x203)], b"xyz")),
        (X64VbsVpContext { vtl: Vtl::Vtl1, registers: opaque(), compatibility_mask }, Expected(47, &[(4, 1 << 24), (1, 1)], b"xyz")),
        (AArch64VbsVpContext { vtl: Vtl::Vtl2, registers: opaque(), compatibility_mask }, Expected(48, &[(4, 1 << 24), (1, 2)], b"xyz")),
        (AArch64CcaVpContext { compatibility_mask, vp_index, context: opaque() }, Expected(49, &[(4, 1 << 24), (2, 0x203)], b"xyz")),
    ];
    for (header, row) in expected {
        row.check(Sheet { directive_headers: vec![header], ..bare() });
    }
}

#[test]
fn the_library_reads_each_row_where_it_was_written() {
    let mut sheet = image_b();
    sheet.platform_headers.push(IgvmPlatformHeader::SupportedPlatform(IGVM_VHS_SUPPORTED_PLATFORM {
        platform_type: IgvmPlatformType::SEV_SNP,
        shared_gpa_boundary: 1 << 46,
        ..platform()
    }));
    sheet.initialization_headers.push(region(0x10_2000, 0x1000));
    sheet.directive_headers.extend([page(0x1000), page(0x2001)]);
    let refusal = verdict(&sheet.bytes().unwrap()).unwrap_err();
    assert_eq!((refusal.error, refusal.row, refusal.detail), (Error::UnalignedAddress, Some(7), 0x2001));
    assert_eq!(refusal.place, Some(Place { list: List::Directive, index: 2 }));
    sheet.directive_headers.pop();
    assert_eq!(verdict(&sheet.bytes().unwrap()).unwrap().line(), "accepted 2 2 2");
}

#[test]
fn the_builder_writes_what_the_library_refuses() {
    let refused = |sheet: Sheet| verdict(&sheet.bytes().unwrap()).unwrap_err();
    let too_long = Sheet { initialization_headers: vec![region(0, 0x1000); 65], ..image_b() };
    assert_eq!(refused(too_long).error, Error::LimitExceeded);
    let page_size = IgvmRevision::V2 { arch: Arch::X64, page_size: 8192 };
    assert_eq!(refused(Sheet { revision: page_size, ..image_b() }).line(), "refused 7 row 0 detail 8192");
    let gpa = refused(image_with(region(0x10_0800, 0x2000)));
    assert_eq!((gpa.error, gpa.row, gpa.detail), (Error::RelocationAddress, Some(2), 0x10_0800));
    let unknown = refused(image_with(IgvmInitializationHeader::Unknown));
    assert_eq!((unknown.error, unknown.row), (Error::InvalidKind, Some(2)));
}

/// Image B with more platforms and regions, and pages in front of its context.
fn long_lists() -> Sheet {
    let types = [IgvmPlatformType::NATIVE, IgvmPlatformType::SEV_SNP, IgvmPlatformType::TDX];
    let with_type = |platform_type| IgvmPlatformHeader::SupportedPlatform(IGVM_VHS_SUPPORTED_PLATFORM { platform_type, ..platform() });
    let mut sheet = Sheet { platform_headers: types.map(with_type).to_vec(), ..image_b() };
    sheet.initialization_headers = (0..4).map(|number| region(0x2000 * number, 0x2000)).collect();
    sheet.directive_headers.splice(..0, (0..5).map(|number| page(0x1000 * number)));
    sheet
}

fn page(gpa: u64) -> IgvmDirectiveHeader {
    IgvmDirectiveHeader::PageData { gpa, compatibility_mask: 1, flags: 0, data_type: IgvmPageDataType::NORMAL, data: b"page".to_vec() }
}

#[test]
fn a_refusals_place_is_the_headers_index_in_its_list() {
    assert_eq!(verdict(&long_lists().bytes().unwrap()).unwrap().line(), "accepted 3 4 6");
    let place_of = |change: &dyn Fn(&mut Sheet)| {
        let mut sheet = long_lists();
        change(&mut sheet);
        verdict(&sheet.bytes().unwrap()).unwrap_err().place
    };
    let wrong_platform = IgvmPlatformHeader::SupportedPlatform(IGVM_VHS_SUPPORTED_PLATFORM { highest_vtl: 1, ..platform() });
    for index in 0..3 {
        let place = place_of(&|sheet| sheet.platform_headers[index] = wrong_platform.clone());
        assert_eq!(place, Some(Place { list: List::Platform, index }));
    }
    for index in 0..4 {
        let place = place_of(&|sheet| sheet.initialization_headers[index] = region(0, 0x1001));
        assert_eq!(place, Some(Place { list: List::Initialization, index }));
    }
    for index in 0..6 {
        let place = place_of(&|sheet| sheet.directive_headers[index] = page(1));
        assert_eq!(place, Some(Place { list: List::Directive, index }));
    }
    assert_eq!(place_of(&|sheet| sheet.directive_headers.truncate(5)), None, "34 is of the sheet as a whole");
}

#[test]
fn lent_bytes_make_the_same_sheet() {
    let sheet = long_lists();
    let (data, registers) = (b"page".as_slice(), [].as_slice());
    let pages = (0..5).map(|number| IgvmDirectiveHeader::PageData {
        gpa: 0x1000 * number,
        compatibility_mask: 1,
        flags: 0,
        data_type: IgvmPageDataType::NORMAL,
        data,
    });
    let context = IgvmDirectiveHeader::X64VbsVpContext { vtl: Vtl::Vtl0, registers, compatibility_mask: 1 };
    let bytes = sheet_bytes(sheet.revision, &sheet.platform_headers, sheet.initialization_headers.clone(), pages.chain([context]));
    assert_eq!(bytes, sheet.bytes());
}

/// A list that gives the first of two headers when it is gone through first, and the second one then.
#[derive(Clone)]
struct Unsteady<'a> {
    asked: &'a std::cell::Cell<usize>,
    headers: [IgvmInitializationHeader; 2],
}

impl Iterator for Unsteady<'_> {
    type Item = IgvmInitializationHeader;

    fn next(&mut self) -> Option<IgvmInitializationHeader> {
        let asked = self.asked.replace(self.asked.get() + 1);
        (asked % 2 == 0).then(|| self.headers[asked / 2].clone())
    }
}

fn written(headers: [IgvmInitializationHeader; 2]) -> Vec<u8> {
    let list = Unsteady { asked: &std::cell::Cell::new(0), headers };
    sheet_bytes(IgvmRevision::V1, image_b().platform_headers, list, image_b().directive_headers).unwrap()
}

const POLICY: IgvmInitializationHeader = IgvmInitializationHeader::GuestPolicy { policy: 0, compatibility_mask: 1 };

#[test]
fn a_list_is_gone_through_twice() {
    let sheet = image_with(region(0x10_0000, 0x2000)).bytes().unwrap();
    assert_eq!(written([region(0, 0x1000), region(0x10_0000, 0x2000)]), sheet);
}

#[test]
#[should_panic = "a list of headers changed while it was written"]
fn a_list_that_grows_is_no_sheet() {
    written([POLICY, region(0, 0x1000)]);
}

#[test]
#[should_panic = "a list of headers changed while it was written"]
fn a_list_that_shrinks_is_no_sheet() {
    written([region(0, 0x1000), POLICY]);
}

#[test]
fn a_list_of_65536_rows_can_not_be_written() {
    let most = vec![region(0, 0x1000); 65_535];
    let mut sheet = Sheet { initialization_headers: most, ..image_b() };
    assert_eq!(verdict(&sheet.bytes().unwrap()).unwrap_err().error, Error::LimitExceeded);
    sheet.initialization_headers.push(region(0, 0x1000));
    let error = sheet.bytes().unwrap_err();
    assert_eq!(error, SheetError::TooManyRows { list: List::Initialization, rows: 65_536 });
    assert_eq!(error.to_string(), "65536 initialization rows, of which a sheet holds at most 65535");
    let platforms = vec![IgvmPlatformHeader::SupportedPlatform(platform()); 65_536];
    let error = Sheet { platform_headers: platforms, ..image_b() }.bytes().unwrap_err();
    assert_eq!(error, SheetError::TooManyRows { list: List::Platform, rows: 65_536 });
    let contexts = vec![image_b().directive_headers.remove(0); 65_536];
    let error = Sheet { directive_headers: contexts, ..image_b() }.bytes().unwrap_err();
    assert_eq!(error, SheetError::TooManyRows { list: List::Directive, rows: 65_536 });
}
