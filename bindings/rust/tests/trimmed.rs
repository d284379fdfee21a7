//! A sheet without some of its headers: what is left is accepted and has the regions of before without the dropped ones, and a header that must remain is refused.

mod common;
mod random;

use common::{image_b, platform, region};
use random::Random;
use sapyullu::IgvmInitializationHeader::{CcaPolicy, GuestPolicy, PageTableRelocationRegion, RelocatableRegion};
use sapyullu::*;
use std::collections::BTreeSet;
use std::fs;

const FOLDER: &str = concat!(env!("CARGO_MANIFEST_DIR"), "/../../samples");

fn sample(name: &str) -> Vec<u8> {
    fs::read(format!("{FOLDER}/{name}.sheet")).unwrap()
}

fn initialization(index: usize) -> Place {
    Place { list: List::Initialization, index }
}

fn directive(index: usize) -> Place {
    Place { list: List::Directive, index }
}

fn platform_place(index: usize) -> Place {
    Place { list: List::Platform, index }
}

fn area(parameter_area_index: u32, initial_data: &[u8]) -> IgvmDirectiveHeader {
    IgvmDirectiveHeader::ParameterArea { number_of_bytes: 0x1000, parameter_area_index, initial_data: initial_data.to_vec() }
}

fn parameter(parameter_area_index: u32, byte_offset: u32) -> IGVM_VHS_PARAMETER {
    IGVM_VHS_PARAMETER { parameter_area_index, byte_offset }
}

fn page_table(compatibility_mask: u32, gpa: u64, size: u64, used_size: u64, vtl: Vtl) -> IgvmInitializationHeader {
    PageTableRelocationRegion { compatibility_mask, gpa, size, used_size, vp_index: 0, vtl }
}

/// The headers of the sample trimmed-before.
fn before() -> Sheet {
    use IgvmDirectiveHeader::*;
    let mut sheet = image_b();
    sheet.initialization_headers.extend([
        region(0x10_2000, 0x2000),
        page_table(1, 0x30_0000, 0x2000, 0x1000, Vtl::Vtl0),
        GuestPolicy { policy: 0, compatibility_mask: 1 },
    ]);
    sheet.directive_headers.extend([
        PageData { gpa: 0x1000, compatibility_mask: 1, flags: 0, data_type: IgvmPageDataType::NORMAL, data: b"page".to_vec() },
        area(7, b"area 7"),
        area(8, b"area 8"),
        VpCount(parameter(7, 0)),
        CommandLine(parameter(7, 0x800)),
        ParameterInsert(IGVM_VHS_PARAMETER_INSERT { gpa: 0x40_0000, compatibility_mask: 1, parameter_area_index: 7 }),
        SnpIdBlock { compatibility_mask: 1, opaque: b"ID block".to_vec() },
    ]);
    sheet
}

const CONTEXT: usize = 0;
const AREA_7: usize = 2;

/// What both ways of trimming say: by headers and by bytes.
fn trimmed_twice(sheet: &Sheet, dropped: &[Place]) -> Result<Sheet, TrimError> {
    let rest = sheet.trimmed(dropped.iter().copied());
    let bytes = trimmed(&sheet.bytes().unwrap(), dropped.iter().copied());
    assert_eq!(bytes, rest.clone().map(|rest| rest.bytes().unwrap()), "{dropped:?} of {sheet:?}");
    rest
}

#[test]
fn rows_of_both_lists_are_dropped_with_the_page_table() {
    assert_eq!(before().bytes().unwrap(), sample("trimmed-before"));
    let dropped = [initialization(0), initialization(2), directive(1), directive(3), directive(5)];
    let rest = trimmed_twice(&before(), &dropped).unwrap();
    let bytes = rest.bytes().unwrap();
    assert_eq!(bytes, sample("trimmed-after"));
    assert_eq!(trimmed(&sample("trimmed-before"), dropped).unwrap(), bytes);
    assert_eq!(verdict(&bytes).unwrap().line(), "accepted 1 2 5");
    assert_eq!(strict_verdict(&bytes).unwrap().line(), "accepted 1 2 5");
    let [old, new] = [sample("trimmed-before"), bytes].map(|sheet| relocations(&sheet, 1).unwrap());
    assert_eq!((old.regions.len(), old.page_table.is_some()), (2, true));
    assert_eq!((new.regions, new.page_table), (old.regions[1..].to_vec(), None));
}

#[test]
fn the_rest_keeps_its_order_and_its_head() {
    let rest = trimmed_twice(&before(), &[initialization(1), directive(3)]).unwrap();
    let mut expected = before();
    expected.initialization_headers.remove(1);
    expected.directive_headers.remove(3);
    assert_eq!(rest, expected);
    let revision = IgvmRevision::V2 { arch: Arch::X64, page_size: 4096 };
    let rest = trimmed_twice(&Sheet { revision, ..before() }, &[directive(7)]).unwrap();
    assert_eq!((rest.revision, rest.platform_headers), (revision, before().platform_headers));
}

#[test]
fn with_nothing_dropped_the_bytes_are_the_same() {
    assert_eq!(trimmed_twice(&before(), &[]), Ok(before()));
    assert_eq!(trimmed(&sample("trimmed-before"), []), Ok(sample("trimmed-before")));
    assert_eq!(trimmed(&sample("accepted-every-aarch64-kind"), None), Ok(sample("accepted-every-aarch64-kind")));
}

#[test]
fn a_place_that_is_given_twice_counts_once() {
    let twice = [directive(7), initialization(0), directive(7), initialization(0)];
    assert_eq!(trimmed_twice(&before(), &twice), trimmed_twice(&before(), &[initialization(0), directive(7)]));
    assert!(trimmed_twice(&before(), &twice).is_ok());
}

#[test]
fn all_but_platforms_and_contexts_may_go() {
    let dropped: Vec<Place> = (0..4).map(initialization).chain((1..8).map(directive)).collect();
    let rest = trimmed_twice(&before(), &dropped).unwrap();
    assert_eq!(rest, Sheet { initialization_headers: vec![], ..image_b() });
    assert_eq!(verdict(&rest.bytes().unwrap()).unwrap().line(), "accepted 1 0 1");
}

#[test]
fn the_largest_lists_may_be_trimmed() {
    let sheet = sample("accepted-largest-lists");
    let places = (1..).map_while(|row| Place::of_row(&sheet, row));
    let dropped: Vec<Place> = places.filter(|place| place.list != List::Platform && place.index % 2 == 0).collect();
    let rest = trimmed(&sheet, dropped).unwrap();
    assert_eq!(verdict(&rest).unwrap().line(), "accepted 6 32 4096");
    let [old, new] = [&sheet, &rest].map(|sheet| relocations(sheet, 1).unwrap().regions);
    assert!(old.len() == 64 && new.iter().eq(old.iter().skip(1).step_by(2)));
}

#[test]
fn a_place_without_a_header_is_refused_and_so_is_a_platform_header() {
    let refused = |dropped: &[Place]| trimmed_twice(&before(), dropped).unwrap_err();
    for place in [initialization(4), directive(8), directive(usize::MAX), platform_place(1)] {
        assert_eq!(refused(&[place]), TrimError::NoSuchHeader { place });
        assert_eq!(refused(&[directive(CONTEXT), place, platform_place(0)]), TrimError::NoSuchHeader { place }, "before the context");
    }
    let place = platform_place(0);
    assert_eq!(refused(&[place]), TrimError::PlatformHeader { place });
    assert_eq!(refused(&[directive(CONTEXT), place, directive(8)]), TrimError::PlatformHeader { place }, "the first that is given");
    assert_eq!(refused(&[directive(8)]).to_string(), "the sheet has no directive header 8");
    assert_eq!(refused(&[place]).to_string(), "platform header 0 can't be dropped: all platform headers stay");
}

#[test]
fn a_refused_sheet_is_not_trimmed() {
    let mut sheet = before();
    sheet.initialization_headers[1] = region(0x10_1000, 0x2000);
    let refusal = verdict(&sheet.bytes().unwrap()).unwrap_err();
    assert_eq!((refusal.error, refusal.row), (Error::RelocationRegionsOverlap, Some(3)));
    for dropped in [vec![], vec![initialization(1)], vec![directive(CONTEXT)], vec![directive(AREA_7)]] {
        assert_eq!(trimmed_twice(&sheet, &dropped), Err(TrimError::Refused(refusal)), "without header 1 it would be accepted");
    }
    let place = directive(8);
    assert_eq!(trimmed_twice(&sheet, &[place]), Err(TrimError::NoSuchHeader { place }), "the place comes first");
    assert_eq!(
        trimmed_twice(&sheet, &[]).unwrap_err().to_string(),
        "the sheet is refused before any header is dropped: refusal 29 (RelocationRegionsOverlap) in row 3 (initialization header 1): \
         the region overlaps an earlier one that shares a mask bit"
    );
    assert_eq!(trimmed(&[], []), Err(TrimError::Refused(verdict(&[]).unwrap_err())));
    assert_eq!(trimmed(&[], [directive(0)]), Err(TrimError::NoSuchHeader { place: directive(0) }));
}

#[test]
fn a_sheet_that_can_not_be_written_is_not_trimmed() {
    let mut sheet = before();
    sheet.initialization_headers = vec![region(0, 0); 65_536];
    let error = TrimError::Sheet(SheetError::TooManyRows { list: List::Initialization, rows: 65_536 });
    for dropped in [vec![], vec![initialization(65_535)], vec![directive(CONTEXT)]] {
        assert_eq!(sheet.trimmed(dropped), Err(error));
    }
    let place = initialization(65_536);
    assert_eq!(sheet.trimmed([place]), Err(TrimError::NoSuchHeader { place }), "the place comes first");
    assert_eq!(error.to_string(), "the sheet can't be written: 65536 initialization rows, of which a sheet holds at most 65535");
}

#[test]
fn a_vbs_context_is_refused() {
    let place = directive(CONTEXT);
    let error = trimmed_twice(&before(), &[directive(AREA_7), initialization(0), place]).unwrap_err();
    assert_eq!(error, TrimError::VbsVpContext { place }, "before the area");
    assert_eq!(error.to_string(), "directive header 0 can't be dropped: it is a VBS context, and all of them stay");
    let mut sheet = before();
    for vtl in [Vtl::Vtl1, Vtl::Vtl0] {
        sheet.directive_headers.push(IgvmDirectiveHeader::X64VbsVpContext { vtl, registers: b"xyz".to_vec(), compatibility_mask: 1 });
    }
    for index in [8, 9] {
        let place = directive(index);
        assert_eq!(
            trimmed_twice(&sheet, &[place]),
            Err(TrimError::VbsVpContext { place }),
            "another may serve the regions: all of them stay"
        );
    }
    assert_eq!(
        trimmed_twice(&sheet, &[directive(9), directive(8)]),
        Err(TrimError::VbsVpContext { place: directive(8) }),
        "the first in the sheet"
    );
}

#[test]
fn rows_of_all_other_kinds_may_go() {
    let both = || [16, 18, 19, 32].into_iter().chain(34..=45).chain(50..=53);
    let x64: BTreeSet<u8> = both().chain([46]).collect();
    let aarch64: BTreeSet<u8> = both().chain([17, 49]).collect();
    for (name, kinds, vbs_context) in [("accepted-every-x64-kind", x64, 47), ("accepted-every-aarch64-kind", aarch64, 48)] {
        let sheet = sample(name);
        let mut met = BTreeSet::new();
        for (row, place) in (1..).map_while(|row| Some((row as usize, Place::of_row(&sheet, row)?))) {
            let kind = sheet[8 + 8 * row];
            match trimmed(&sheet, [place]) {
                Err(TrimError::PlatformHeader { place: refused }) => assert_eq!((refused, kind), (place, 1)),
                Err(TrimError::VbsVpContext { place: refused }) => assert_eq!((refused, kind), (place, vbs_context)),
                Err(TrimError::NamedParameterArea { place: refused, .. }) => assert_eq!((refused, kind), (place, 33)),
                rest => {
                    assert!(verdict(&rest.unwrap()).is_ok(), "{name}, kind {kind}");
                    met.insert(kind);
                }
            }
        }
        assert_eq!(met, kinds);
    }
}

#[test]
fn an_area_that_a_remaining_header_names_is_refused() {
    let (place, parameter_area_index) = (directive(AREA_7), 7);
    let refused = |others: &[usize], named_by| {
        let dropped: Vec<Place> = others.iter().map(|&index| directive(index)).chain([place]).collect();
        let error = TrimError::NamedParameterArea { place, parameter_area_index, named_by: directive(named_by) };
        assert_eq!(trimmed_twice(&before(), &dropped), Err(error), "{others:?}");
    };
    refused(&[], 4);
    refused(&[5, 6], 4);
    refused(&[4], 5);
    refused(&[4, 5], 6);
    assert!(trimmed_twice(&before(), &[place, directive(4), directive(5), directive(6)]).is_ok(), "no remaining header names it");
    assert!(trimmed_twice(&before(), &[directive(3)]).is_ok(), "no header names area 8");
    let error = trimmed_twice(&before(), &[place]).unwrap_err();
    assert_eq!(error.to_string(), "directive header 2 can't be dropped: it allocates parameter area 7, which directive header 4 names");
}

#[test]
fn every_kind_of_header_that_names_an_area_counts() {
    use IgvmDirectiveHeader::*;
    let makers = [VpCount, EnvironmentInfo, Srat, Madt, Slit, Pptt, MmioRanges, MemoryMap, CommandLine, DeviceTree];
    let mut headers: Vec<IgvmDirectiveHeader> = makers.iter().map(|make| make(parameter(0x1_0203, 0x405))).collect();
    headers.push(ParameterInsert(IGVM_VHS_PARAMETER_INSERT { gpa: 0x1000, compatibility_mask: 0x203, parameter_area_index: 0x1_0203 }));
    for header in headers {
        let sheet =
            Sheet { initialization_headers: vec![], directive_headers: vec![area(2, &[]), area(0x1_0203, &[]), header], ..image_b() };
        let error = TrimError::NamedParameterArea { place: directive(1), parameter_area_index: 0x1_0203, named_by: directive(2) };
        assert_eq!(trimmed_twice(&sheet, &[directive(0), directive(1)]), Err(error));
        assert!(
            trimmed_twice(&sheet, &[directive(1), directive(2)]).is_ok() && trimmed_twice(&sheet, &[directive(0), directive(2)]).is_ok()
        );
    }
}

#[test]
fn of_several_areas_the_first_in_the_sheet_is_named() {
    let headers =
        vec![area(5, &[]), area(4, &[]), IgvmDirectiveHeader::VpCount(parameter(4, 0)), IgvmDirectiveHeader::VpCount(parameter(5, 0))];
    let sheet = Sheet { initialization_headers: vec![], directive_headers: headers, ..image_b() };
    let error = |index, parameter_area_index, named_by| {
        Err(TrimError::NamedParameterArea { place: directive(index), parameter_area_index, named_by: directive(named_by) })
    };
    assert_eq!(trimmed_twice(&sheet, &[directive(1), directive(0)]), error(0, 5, 3));
    assert_eq!(trimmed_twice(&sheet, &[directive(1), directive(0), directive(3)]), error(1, 4, 2));
}

#[test]
fn without_a_context_or_a_named_area_the_rest_is_not_accepted() {
    let mut sheet = before();
    sheet.directive_headers.remove(CONTEXT);
    assert_eq!(sheet.bytes().unwrap(), sample("trimmed-34-no-context"));
    assert_eq!(verdict(&sheet.bytes().unwrap()).unwrap_err().line(), "refused 34 row 0 detail 0");
    let mut sheet = before();
    sheet.directive_headers.remove(AREA_7);
    assert_eq!(sheet.bytes().unwrap(), sample("trimmed-32-no-area"));
    assert_eq!(verdict(&sheet.bytes().unwrap()).unwrap_err().line(), "refused 32 row 9 detail 0");
}

#[test]
fn a_trim_error_is_an_error_value() {
    let boxed: Box<dyn std::error::Error + Send + Sync> = before().trimmed([directive(CONTEXT)]).unwrap_err().into();
    assert!(boxed.to_string().starts_with("directive header 0 can't be dropped: "));
    let refusal = Refusal::from_numbers(35, 0, 0);
    assert_eq!(TrimError::from(refusal), TrimError::Refused(refusal));
}

// ---- random accepted sheets

/// Some opaque bytes.
fn opaque(random: &mut Random) -> Vec<u8> {
    (0..random.below(7)).map(|_| random.word() as u8).collect()
}

const MASKS: [u32; 8] = [1, 2, 3, 4, 5, 6, 7, 0x8000_0001];
const VTLS: [Vtl; 4] = [Vtl::Vtl0, Vtl::Vtl0, Vtl::Vtl1, Vtl::Vtl2];

fn random_initialization(random: &mut Random) -> IgvmInitializationHeader {
    let (compatibility_mask, vtl) = (random.of(&MASKS), random.of(&VTLS));
    let (gpa, size) = (0x1000 * random.below(24), 0x1000 * (1 + random.below(3)));
    match random.below(8) {
        0 => GuestPolicy { policy: random.word(), compatibility_mask },
        1 => CcaPolicy {
            compatibility_mask: 1,
            attributes_required_zeroes: 2,
            attributes_required_ones: 1,
            hash_algorithm: random.word() as u8,
            lfa_policy: random.word() as u8,
        },
        2 | 3 => page_table(compatibility_mask, gpa, size, 0x1000 * random.below(2), vtl),
        _ => RelocatableRegion {
            compatibility_mask,
            relocation_alignment: 0x1000,
            relocation_region_gpa: gpa,
            relocation_region_size: size,
            minimum_relocation_gpa: 0x1000 * random.below(8),
            maximum_relocation_gpa: 0x1000 * random.below(32),
            is_vtl2: random.below(2) == 0,
            apply_rip_offset: random.below(2) == 0,
            apply_gdtr_offset: random.below(2) == 0,
            vp_index: 0,
            vtl,
        },
    }
}

fn vbs_context(arch: Arch, vtl: Vtl, compatibility_mask: u32, registers: Vec<u8>) -> IgvmDirectiveHeader {
    match arch {
        Arch::X64 => IgvmDirectiveHeader::X64VbsVpContext { vtl, registers, compatibility_mask },
        Arch::AArch64 => IgvmDirectiveHeader::AArch64VbsVpContext { vtl, registers, compatibility_mask },
    }
}

fn random_directive(random: &mut Random, arch: Arch) -> IgvmDirectiveHeader {
    use IgvmDirectiveHeader::*;
    let (compatibility_mask, gpa, vp_index) = (random.of(&MASKS), 0x1000 * random.below(24), random.word() as u16);
    let parameter_area_index = random.of(&[0, 2000, 0xFFFF_FFFF]);
    let makers = [VpCount, EnvironmentInfo, Srat, Madt, Slit, Pptt, MmioRanges, MemoryMap, CommandLine, DeviceTree];
    match (random.below(17), arch) {
        (0..=3, _) => area(parameter_area_index, &opaque(random)),
        (4..=7, _) => random.of(&makers)(parameter(parameter_area_index, random.word() as u32)),
        (8, _) => ParameterInsert(IGVM_VHS_PARAMETER_INSERT { gpa, compatibility_mask, parameter_area_index }),
        (9, _) => PageData { gpa, compatibility_mask, flags: 3, data_type: IgvmPageDataType::CPUID_DATA, data: opaque(random) },
        (10, _) => RequiredMemory { gpa, compatibility_mask, number_of_bytes: 0x1000, vtl2_protectable: random.below(2) == 0 },
        (11, _) => SnpVpContext { gpa, compatibility_mask, vp_index, vmsa: opaque(random) },
        (12, Arch::X64) => X64NativeVpContext { compatibility_mask, vp_index, context: opaque(random) },
        (12, Arch::AArch64) => AArch64CcaVpContext { compatibility_mask, vp_index, context: opaque(random) },
        (13, _) => vbs_context(arch, random.of(&VTLS), compatibility_mask, opaque(random)),
        (14, _) => ErrorRange { gpa, compatibility_mask, size_bytes: random.word() as u32 },
        (15, _) => SnpIdBlock { compatibility_mask, opaque: opaque(random) },
        _ => VbsMeasurement { compatibility_mask, opaque: opaque(random) },
    }
}

/// Puts a header behind those of its list, and takes it away again where the sheet is then refused.
fn kept_if_accepted<T>(sheet: &mut Sheet, of: impl Fn(&mut Sheet) -> &mut Vec<T>, header: T) {
    of(sheet).push(header);
    if verdict(&sheet.bytes().unwrap()).is_err() {
        of(sheet).pop();
    }
}

/// An accepted sheet: headers are put behind the others one by one, and those that are refused there are left out. Contexts then move anywhere in their list.
fn accepted_sheet(random: &mut Random) -> Sheet {
    use IgvmPlatformType as Type;
    let arch = random.of(&[Arch::X64, Arch::X64, Arch::AArch64]);
    let types = if arch == Arch::X64 { &[Type::NATIVE, Type::SEV_SNP, Type::VSM_ISOLATION][..] } else { &[Type::CCA, Type::VSM_ISOLATION] };
    let with_type = |(bit, &platform_type): (u32, &Type)| {
        IgvmPlatformHeader::SupportedPlatform(IGVM_VHS_SUPPORTED_PLATFORM { compatibility_mask: 1 << bit, platform_type, ..platform() })
    };
    let mut sheet = Sheet {
        revision: if arch == Arch::X64 && random.below(2) == 0 { IgvmRevision::V1 } else { IgvmRevision::V2 { arch, page_size: 4096 } },
        platform_headers: (0..).zip(types).map(with_type).take(1 + random.below(3) as usize).collect(),
        initialization_headers: vec![],
        directive_headers: vec![],
    };
    let contexts = 1 + random.below(3) as usize;
    for vtl in &VTLS[1..][..contexts] {
        let mask = random.of(&[u32::MAX, u32::MAX, 7, 1]);
        sheet.directive_headers.push(vbs_context(arch, *vtl, mask, opaque(random)));
    }
    for _ in 0..random.below(10) {
        let header = random_initialization(random);
        kept_if_accepted(&mut sheet, |sheet| &mut sheet.initialization_headers, header);
    }
    for _ in 0..random.below(24) {
        let header = random_directive(random, arch);
        kept_if_accepted(&mut sheet, |sheet| &mut sheet.directive_headers, header);
    }
    for _ in 0..contexts {
        let context = sheet.directive_headers.remove(0);
        let index = random.below(1 + sheet.directive_headers.len() as u64) as usize;
        sheet.directive_headers.insert(index, context);
    }
    assert!(verdict(&sheet.bytes().unwrap()).is_ok(), "{sheet:?}");
    sheet
}

fn is_vbs_context(header: &IgvmDirectiveHeader) -> bool {
    matches!(header, IgvmDirectiveHeader::X64VbsVpContext { .. } | IgvmDirectiveHeader::AArch64VbsVpContext { .. })
}

/// The area that a header names.
fn named(header: &IgvmDirectiveHeader) -> Option<u32> {
    use IgvmDirectiveHeader::*;
    match header {
        VpCount(parameter)
        | EnvironmentInfo(parameter)
        | Srat(parameter)
        | Madt(parameter)
        | Slit(parameter)
        | Pptt(parameter)
        | MmioRanges(parameter)
        | MemoryMap(parameter)
        | CommandLine(parameter)
        | DeviceTree(parameter) => Some(parameter.parameter_area_index),
        ParameterInsert(insert) => Some(insert.parameter_area_index),
        _ => None,
    }
}

/// What trimming an accepted sheet has to give, by its headers.
fn by_headers(sheet: &Sheet, dropped: &BTreeSet<Place>) -> Result<Sheet, TrimError> {
    let directives = || (0..).map(directive).zip(&sheet.directive_headers);
    if let Some((place, _)) = directives().find(|(place, header)| dropped.contains(place) && is_vbs_context(header)) {
        return Err(TrimError::VbsVpContext { place });
    }
    for (place, header) in directives().filter(|(place, _)| dropped.contains(place)) {
        let IgvmDirectiveHeader::ParameterArea { parameter_area_index, .. } = *header else { continue };
        let names =
            |(place, header): &(Place, &IgvmDirectiveHeader)| !dropped.contains(place) && named(header) == Some(parameter_area_index);
        if let Some((named_by, _)) = directives().find(names) {
            return Err(TrimError::NamedParameterArea { place, parameter_area_index, named_by });
        }
    }
    let mut rest = sheet.clone();
    for place in dropped.iter().rev() {
        match place.list {
            List::Platform => unreachable!(),
            List::Initialization => drop(rest.initialization_headers.remove(place.index)),
            List::Directive => drop(rest.directive_headers.remove(place.index)),
        }
    }
    Ok(rest)
}

/// Some headers of a sheet: any of them, or no VBS context, or none that must remain.
fn some_places(random: &mut Random, sheet: &Sheet) -> BTreeSet<Place> {
    let (share, care) = (1 + random.below(4), random.of(&[0, 1, 1, 2, 2]));
    let places = (0..sheet.initialization_headers.len()).map(initialization).chain((0..sheet.directive_headers.len()).map(directive));
    let mut dropped: BTreeSet<Place> = places.filter(|_| random.below(4) < share).collect();
    while let Err(error) = by_headers(sheet, &dropped) {
        match error {
            TrimError::VbsVpContext { place } if care > 0 => dropped.remove(&place),
            TrimError::NamedParameterArea { place, .. } if care > 1 => dropped.remove(&place),
            _ => break,
        };
    }
    dropped
}

/// Mask, place and whether it is a page-table region, of each region of either kind.
fn regions(sheet: &Sheet) -> Vec<(u32, Place, bool)> {
    let region = |(place, header): (Place, &IgvmInitializationHeader)| match header {
        RelocatableRegion { compatibility_mask, .. } => Some((*compatibility_mask, place, false)),
        PageTableRelocationRegion { compatibility_mask, .. } => Some((*compatibility_mask, place, true)),
        _ => None,
    };
    (0..).map(initialization).zip(&sheet.initialization_headers).filter_map(region).collect()
}

/// What was met in random sheets.
#[derive(Debug, Default)]
struct Met {
    contexts: u32,
    areas: u32,
    strict: u32,
    not_strict: u32,
    regions_dropped: u32,
    regions_kept: u32,
    page_tables_dropped: u32,
    page_tables_kept: u32,
}

/// That a mask's regions are those of before without the dropped ones, in words too; its page-table region is there exactly if it is not dropped; each remaining region
/// answers by its new number as it did; and so does the index, whose rows are the new ones.
fn held_to_the_regions_of_before(sheet: &Sheet, dropped: &BTreeSet<Place>, [before, after]: [&[u8]; 2], mask: u32, met: &mut Met) {
    let matching: Vec<_> = regions(sheet).into_iter().filter(|region| region.0 & mask == mask).collect();
    let [old, new] = [before, after].map(|bytes| relocations(bytes, mask).unwrap());
    let places: Vec<Place> = matching.iter().filter(|region| !region.2).map(|region| region.1).collect();
    assert_eq!(old.regions.len(), places.len());
    let kept: Vec<usize> = (0..places.len()).filter(|&number| !dropped.contains(&places[number])).collect();
    assert_eq!(
        new.regions,
        kept.iter().map(|&number| old.regions[number].clone()).collect::<Vec<_>>(),
        "mask {mask}, {dropped:?} of {sheet:?}"
    );

    let [mut old_words, mut new_words] = [vec![0xA5; REGION_BYTES * places.len()], vec![0xA5; REGION_BYTES * places.len()]];
    relocations_into(before, mask, &mut old_words).unwrap();
    assert_eq!(relocations_into(after, mask, &mut new_words).unwrap().count, kept.len());
    let (filled, behind) = new_words.split_at(REGION_BYTES * kept.len());
    assert_eq!(filled, kept.iter().map(|&number| &old_words[REGION_BYTES * number..][..REGION_BYTES]).collect::<Vec<_>>().concat());
    assert!(behind.iter().all(|&byte| byte == 0xA5), "words enough for the old list are enough for the new one");

    let table = matching.iter().find(|region| region.2).map(|region| region.1);
    assert_eq!(old.page_table.is_some(), table.is_some());
    assert_eq!(new.page_table, old.page_table.filter(|_| !table.is_some_and(|place| dropped.contains(&place))));

    for (new_number, &number) in (0..).zip(&kept) {
        let (old_number, region) = (number as u64, &old.regions[number]);
        for gpa in [0, region.base_gpa, region.base_gpa + region.size, region.minimum_relocation_gpa, region.maximum_relocation_gpa, 0x800]
        {
            let check = |bytes, number| relocation_base_valid(bytes, mask, number, gpa).unwrap();
            assert_eq!(check(after, new_number), check(before, old_number));
            let holds = |bytes, number| contains(bytes, mask, number, gpa).unwrap();
            assert_eq!(holds(after, new_number), holds(before, old_number));
            let range = |bytes, number| relocation_base_range(bytes, mask, number, 0, gpa).unwrap();
            assert_eq!(range(after, new_number), range(before, old_number));
        }
    }
    assert_eq!(contains(after, mask, kept.len() as u64, 0).unwrap_err().error, Error::NoSuchRegion);

    let [old_index, new_index] = [before, after].map(|bytes| RegionIndex::new(bytes, mask).unwrap());
    let place = |row| Place::of_row(before, row).unwrap();
    let dropped_before = |place| dropped.range(initialization(0)..place).count() as u64;
    let still_there = old_index.regions().filter(|region| !dropped.contains(&place(region.row)));
    let expected: Vec<_> = still_there.map(|region| (region.start, region.size, region.row - dropped_before(place(region.row)))).collect();
    assert_eq!(new_index.regions().map(|region| (region.start, region.size, region.row)).collect::<Vec<_>>(), expected);

    met.regions_dropped += (places.len() - kept.len()) as u32;
    met.regions_kept += kept.len() as u32;
    met.page_tables_dropped += u32::from(old.page_table.is_some() && new.page_table.is_none());
    met.page_tables_kept += u32::from(new.page_table.is_some());
}

#[test]
fn what_is_left_of_an_accepted_sheet_is_accepted() {
    let mut random = Random(1);
    let mut met = Met::default();
    for _ in 0..4000 {
        let sheet = accepted_sheet(&mut random);
        let dropped = some_places(&mut random, &sheet);
        let said = trimmed_twice(&sheet, &dropped.iter().copied().collect::<Vec<_>>());
        assert_eq!(said, by_headers(&sheet, &dropped), "{dropped:?} of {sheet:?}");
        let rest = match said {
            Ok(rest) => rest,
            Err(error) => {
                met.contexts += u32::from(matches!(error, TrimError::VbsVpContext { .. }));
                met.areas += u32::from(matches!(error, TrimError::NamedParameterArea { .. }));
                continue;
            }
        };
        let [before, after] = [&sheet, &rest].map(|sheet| sheet.bytes().unwrap());
        let counts = [rest.platform_headers.len(), rest.initialization_headers.len(), rest.directive_headers.len()];
        let line = format!("accepted {} {} {}", counts[0], counts[1], counts[2]);
        assert_eq!(verdict(&after).unwrap().line(), line, "{dropped:?} of {sheet:?}");
        match strict_verdict(&before) {
            Ok(_) => {
                assert_eq!(strict_verdict(&after).unwrap().line(), line, "{dropped:?} of {sheet:?}");
                met.strict += 1;
            }
            Err(_) => met.not_strict += 1,
        }
        assert!(report(&after).unwrap().is_accepted());
        for mask in [1, 2, 3, 4, 7, 8, 0x8000_0000, u32::MAX] {
            held_to_the_regions_of_before(&sheet, &dropped, [&before, &after], mask, &mut met);
        }
        assert_eq!(relocations(&after, 0).unwrap_err().error, Error::QueryMaskZero);
    }
    let Met { contexts, areas, strict, not_strict, regions_dropped, regions_kept, page_tables_dropped, page_tables_kept } = met;
    let times = [contexts, areas, strict, not_strict, regions_dropped, regions_kept, page_tables_dropped, page_tables_kept];
    assert!(times.into_iter().all(|times| times > 200), "{met:?}");
}

/// Each row of each accepted sample of few rows is dropped alone.
#[test]
fn any_sample_may_go_without_any_row_that_need_not_remain() {
    let names = fs::read_dir(FOLDER).unwrap().map(|entry| entry.unwrap().file_name().into_string().unwrap());
    let (mut accepted, mut refused) = (0, 0);
    for name in names.filter_map(|name| name.strip_suffix(".sheet").map(str::to_string)) {
        let sheet = sample(&name);
        let Ok(counts) = verdict(&sheet) else { continue };
        let rows = counts.platform_headers + counts.initialization_headers + counts.directive_headers;
        for row in (1..=rows).filter(|_| rows <= 100) {
            let place = Place::of_row(&sheet, row).unwrap();
            match trimmed(&sheet, [place]) {
                Ok(rest) => {
                    let left = verdict(&rest).unwrap();
                    assert_eq!(left.platform_headers + left.initialization_headers + left.directive_headers, rows - 1, "{name}, row {row}");
                    assert_eq!(left.platform_headers, counts.platform_headers);
                    accepted += 1;
                }
                Err(error) => {
                    let of_a_row = matches!(
                        error,
                        TrimError::PlatformHeader { .. } | TrimError::VbsVpContext { .. } | TrimError::NamedParameterArea { .. }
                    );
                    assert!(of_a_row, "{name}, row {row}: {error}");
                    refused += 1;
                }
            }
        }
    }
    assert!(accepted > 100 && refused > 50, "{accepted} {refused}");
}

#[test]
fn no_bytes_are_too_odd_to_be_trimmed() {
    let mut random = Random(1);
    let (mut trimmings, mut refusals) = (0, 0);
    let mut held_to_the_verdict = |sheet: &[u8], random: &mut Random| {
        let place = Place::of_row(sheet, 1 + random.below(8));
        match (trimmed(sheet, place), verdict(sheet)) {
            (Ok(rest), Ok(_)) => {
                assert!(verdict(&rest).is_ok());
                trimmings += 1;
            }
            (Err(TrimError::Refused(refusal)), verdict) => {
                assert_eq!(verdict, Err(refusal));
                refusals += 1;
            }
            (Err(TrimError::PlatformHeader { .. }), _) => {}
            (Err(TrimError::VbsVpContext { .. } | TrimError::NamedParameterArea { .. }), verdict) => assert!(verdict.is_ok()),
            (said, verdict) => panic!("{said:?}, and the verdict {verdict:?}"),
        }
    };
    for _ in 0..2000 {
        let sheet: Vec<u8> = (0..random.below(300)).map(|_| random.word() as u8).collect();
        held_to_the_verdict(&sheet, &mut random);
    }
    let sheet = sample("trimmed-before");
    for length in 0..sheet.len() {
        held_to_the_verdict(&sheet[..length], &mut random);
    }
    for _ in 0..20_000 {
        let mut changed = sheet.clone();
        let at = random.below(sheet.len() as u64) as usize;
        changed[at] = random.of(&[0, 1, 3, 7, 8, 0x7F, 0xFF]);
        held_to_the_verdict(&changed, &mut random);
    }
    assert!(trimmings > 1000 && refusals > 1000, "{trimmings} {refusals}");
}
