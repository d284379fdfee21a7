//! The report: what it tells of each row when earlier faulty rows are skipped, what it tells of the whole, and how it goes together with the verdict.

mod common;
mod random;

use common::{image_b, platform, region};
use random::Random;
use sapyullu::IgvmDirectiveHeader::{AArch64VbsVpContext, PageData, ParameterArea, ParameterInsert, VpCount, X64VbsVpContext};
use sapyullu::IgvmInitializationHeader::{CcaPolicy, PageTableRelocationRegion, RelocatableRegion};
use sapyullu::*;
use std::collections::BTreeSet;
use std::fs;

const FOLDER: &str = concat!(env!("CARGO_MANIFEST_DIR"), "/../../samples");

fn sample(name: &str) -> Vec<u8> {
    fs::read(format!("{FOLDER}/{name}.sheet")).unwrap()
}

/// The sheets of the folder samples, by name.
fn samples() -> Vec<(String, Vec<u8>)> {
    let names = fs::read_dir(FOLDER).unwrap().map(|entry| entry.unwrap().file_name().into_string().unwrap());
    names.filter_map(|name| name.strip_suffix(".sheet").map(|name| (name.to_string(), sample(name)))).collect()
}

/// The rows of a report's faulty rows, each with the refusal's number.
fn faults(found: &Report) -> Vec<(u64, u64)> {
    found.faulty.iter().map(|faulty| (faulty.row, faulty.error.number())).collect()
}

/// A stored sample: its rows, those that are faulty with their refusals, and whether 15 and 34 are told.
type Stored = (&'static str, u64, &'static [(u64, u64)], bool, bool);

const STORED: &[Stored] = &[
    ("report-accepted", 3, &[], false, false),
    ("report-no-rows", 0, &[], true, false),
    ("report-37", 3, &[], false, false),
    (
        "report-many-faults",
        20,
        &[(2, 8), (3, 10), (5, 14), (7, 29), (9, 19), (11, 21), (14, 30), (15, 22), (16, 32), (18, 33), (20, 24)],
        false,
        true,
    ),
    ("report-every-row", 3, &[(1, 8), (2, 19), (3, 24)], true, false),
    ("report-no-platform", 4, &[(2, 25), (3, 19)], true, false),
    ("report-type-of-a-faulty-platform", 5, &[(1, 10), (3, 14)], false, false),
    ("report-last-platform-of-a-mask", 7, &[(2, 10), (3, 14), (6, 25)], false, false),
    ("report-third-page-table", 6, &[(4, 26)], false, false),
    ("report-bits-of-faulty-page-tables", 8, &[(3, 27), (4, 28), (5, 29), (7, 26)], false, false),
    ("report-bits-of-a-faulty-region", 6, &[(3, 29)], false, false),
    ("report-area-of-a-faulty-row", 10, &[(4, 22), (5, 32), (6, 31), (7, 32)], false, false),
    (
        "report-1025-areas",
        2051,
        &[(2, 22), (258, 22), (514, 22), (770, 22), (1026, 22), (1027, 32), (1283, 32), (1539, 32), (1795, 32), (2051, 32)],
        false,
        false,
    ),
    ("report-allocated-after-insert", 8, &[(6, 32), (7, 32), (8, 32)], false, false),
    ("report-insert-again", 9, &[(6, 33), (9, 32)], false, false),
    ("report-34", 4, &[(3, 24), (4, 30)], false, true),
    ("report-34-vp-1", 4, &[(4, 21)], false, true),
    ("report-faulty-region-without-context", 4, &[(3, 29)], false, false),
];

#[test]
fn each_stored_sample_is_reported() {
    for &(name, rows, faulty, no_platform, no_context) in STORED {
        let found = report(&sample(name)).unwrap();
        assert_eq!(
            (found.rows, faults(&found), found.no_platform, found.no_context),
            (rows, faulty.to_vec(), no_platform, no_context),
            "{name}"
        );
        assert_eq!(found.is_accepted(), faulty.is_empty() && !no_platform && !no_context, "{name}");
    }
    let refused = [("report-5-first", "refused 5 row 3 detail 0"), ("report-7-first", "refused 7 row 0 detail 8192")];
    for (name, line) in refused {
        assert_eq!(report(&sample(name)).unwrap_err().line(), line);
    }
    let named: BTreeSet<&str> = STORED.iter().map(|stored| stored.0).chain(refused.map(|(name, _)| name)).collect();
    let there: Vec<String> = samples().into_iter().map(|(name, _)| name).filter(|name| name.starts_with("report-")).collect();
    assert_eq!(named, there.iter().map(String::as_str).collect());
}

#[test]
fn a_faulty_row_has_its_name_and_its_place() {
    let found = report(&sample("report-many-faults")).unwrap();
    let places: Vec<_> =
        found.faulty.iter().map(|faulty| (faulty.error.name(), faulty.place.unwrap().list, faulty.place.unwrap().index)).collect();
    use List::{Directive, Initialization, Platform};
    let expected = [
        ("InvalidCompatibilityMask", Platform, 1),
        ("InvalidPlatformVersion", Platform, 2),
        ("MultiplePlatformHeadersWithSameIsolation", Platform, 4),
        ("RelocationRegionsOverlap", Initialization, 1),
        ("RelocationAlignmentZero", Initialization, 3),
        ("UnalignedAddress", Initialization, 5),
        ("InvalidPageDataType", Directive, 1),
        ("UnalignedSize", Directive, 2),
        ("InvalidParameterAreaIndex", Directive, 3),
        ("ParameterInsertInsidePageTableRegion", Directive, 5),
        ("InvalidHeaderArch", Directive, 7),
    ];
    assert_eq!(places, expected);
    assert_eq!(
        found.faulty[5].to_string(),
        "refusal 21 (UnalignedAddress) in row 11 (initialization header 5): the gpa is not a multiple of 4096"
    );
}

#[test]
fn too_few_words_are_refused_and_bytes_behind_the_words_kept() {
    let sheet = sample("report-every-row");
    for lent in [0, 1, 7, 8, 16, 23] {
        let mut words = vec![0xA5; lent];
        let refusal = report_into(&sheet, &mut words).unwrap_err();
        assert_eq!((refusal.error, refusal.line().as_str()), (Error::TooFewWordsLent, "refused 37 row 0 detail 0"));
        assert_eq!(words, vec![0xA5; lent]);
    }
    for lent in [24, 25, 31, 32, 66_176] {
        let mut words = vec![0xA5; lent];
        let reported = report_into(&sheet, &mut words).unwrap();
        assert_eq!(reported, Reported { rows: 3, faulty_rows: 3, no_platform: true, no_context: false });
        assert_eq!(words[..24], *[8, 19, 24].map(u64::to_le_bytes).as_flattened());
        assert!(words[24..].iter().all(|&byte| byte == 0xA5), "{lent} bytes");
    }
}

#[test]
fn a_sheet_that_can_not_be_read_comes_before_the_words() {
    for name in ["01-empty", "02-revision-0", "03-65-initializations", "04-kind-0", "05-vtl-3", "06-one-byte-more", "07-page-size-8192"] {
        let sheet = sample(name);
        for lent in [0, 1000] {
            let mut words = vec![0xA5; lent];
            assert_eq!(report_into(&sheet, &mut words).unwrap_err(), verdict(&sheet).unwrap_err(), "{name}");
            assert_eq!(words, vec![0xA5; lent]);
        }
        assert_eq!(report(&sheet).unwrap_err(), verdict(&sheet).unwrap_err(), "{name}");
    }
}

/// That the report on the sheet goes together with its verdict. Returns the words.
fn held_to_the_verdict(name: &str, sheet: &[u8]) -> Vec<u64> {
    let found = match (report(sheet), verdict(sheet)) {
        (Err(refusal), verdict) => {
            assert!((1..=7).contains(&refusal.error.number()) && verdict == Err(refusal), "{name}");
            return vec![];
        }
        (Ok(found), verdict) => {
            let refused = verdict.err().map(|refusal| (refusal.row, refusal.error, refusal.place));
            let whole = |told: bool, error| told.then_some((None, error, None));
            let no_platform_row = sheet[8..10] == [0, 0];
            let first = whole(no_platform_row, Error::NoPlatformHeaders)
                .or(found.faulty.first().map(|faulty| (Some(faulty.row), faulty.error, faulty.place)))
                .or(whole(found.no_platform, Error::NoPlatformHeaders))
                .or(whole(found.no_context, Error::NoMatchingVpContext));
            assert_eq!(refused, first, "{name}");
            assert_eq!(found.is_accepted(), refused.is_none(), "{name}");
            assert!(!no_platform_row || found.no_platform, "{name}");
            found
        }
    };
    let mut words = vec![0xA5; 8 * found.rows as usize];
    let reported = report_into(sheet, &mut words).unwrap();
    let numbers: Vec<u64> = words.chunks_exact(8).map(|word| u64::from_le_bytes(word.try_into().unwrap())).collect();
    assert!(numbers.iter().all(|number| [0, 8, 9, 10, 11, 12, 13, 14].contains(number) || (16..=33).contains(number)), "{name}");
    assert_eq!((reported.rows, reported.faulty_rows as usize), (found.rows, found.faulty.len()), "{name}");
    assert_eq!((reported.no_platform, reported.no_context), (found.no_platform, found.no_context), "{name}");
    assert!(found.faulty.iter().all(|faulty| faulty.error.number() == numbers[faulty.row as usize - 1]), "{name}");
    assert_eq!(numbers.iter().filter(|&&number| number != 0).count(), found.faulty.len(), "{name}");
    numbers
}

#[test]
fn a_report_goes_together_with_the_verdict_on_every_sample() {
    let numbers: BTreeSet<u64> = samples().iter().flat_map(|(name, sheet)| held_to_the_verdict(name, sheet)).collect();
    assert_eq!(numbers.into_iter().collect::<Vec<_>>(), [0].into_iter().chain(8..=14).chain(16..=33).collect::<Vec<_>>());
}

#[test]
fn accepted_sheets_have_nothing_to_report() {
    let accepted: Vec<_> = samples().into_iter().filter(|(_, sheet)| verdict(sheet).is_ok()).collect();
    assert!(accepted.len() >= 20);
    for (name, sheet) in accepted {
        let found = report(&sheet).unwrap();
        let counts = verdict(&sheet).unwrap();
        assert!(found.is_accepted() && found.faulty.is_empty() && !found.no_platform && !found.no_context, "{name}");
        assert_eq!(found.rows, counts.platform_headers + counts.initialization_headers + counts.directive_headers, "{name}");
    }
}

#[test]
fn every_refusal_by_itself_is_a_single_fault_of_its_row() {
    for (name, sheet) in samples() {
        let number: u64 = name[..2].parse().unwrap_or(0);
        if (8..=33).contains(&number) && number != 15 {
            let found = report(&sheet).unwrap();
            assert_eq!(faults(&found), [(verdict(&sheet).unwrap_err().row.unwrap(), number)], "{name}");
        }
    }
}

/// Image B without regions and contexts, with these headers.
fn with(initialization_headers: Vec<IgvmInitializationHeader>, directive_headers: Vec<IgvmDirectiveHeader>) -> Sheet {
    Sheet { initialization_headers, directive_headers, ..image_b() }
}

fn reported(sheet: &Sheet) -> Report {
    let bytes = sheet.bytes().unwrap();
    held_to_the_verdict("made here", &bytes);
    report(&bytes).unwrap()
}

fn area(parameter_area_index: u32, number_of_bytes: u64) -> IgvmDirectiveHeader {
    ParameterArea { number_of_bytes, parameter_area_index, initial_data: vec![] }
}

fn uses(parameter_area_index: u32) -> IgvmDirectiveHeader {
    VpCount(IGVM_VHS_PARAMETER { parameter_area_index, byte_offset: 0 })
}

fn insert(parameter_area_index: u32, gpa: u64, compatibility_mask: u32) -> IgvmDirectiveHeader {
    ParameterInsert(IGVM_VHS_PARAMETER_INSERT { gpa, compatibility_mask, parameter_area_index })
}

fn page_table(compatibility_mask: u32, gpa: u64, size: u64) -> IgvmInitializationHeader {
    PageTableRelocationRegion { compatibility_mask, gpa, size, used_size: 0, vp_index: 0, vtl: Vtl::Vtl0 }
}

#[test]
fn a_refused_insert_leaves_its_area_as_it_was() {
    let inserts = vec![area(5, 0x1000), insert(5, 0x30_0000, 1), insert(5, 0x30_1000, 1), uses(5), insert(5, 0x30_2000, 1), uses(5)];
    let found = reported(&with(vec![page_table(1, 0x30_0000, 0x2000)], inserts));
    assert_eq!(faults(&found), [(4, 33), (5, 33), (8, 32)]);
    let faulty_table = vec![page_table(1, 0x30_0000, 0), page_table(1, 0x30_0001, 0x2000)];
    assert_eq!(faults(&reported(&with(faulty_table, vec![area(5, 0x1000), insert(5, 0x30_0000, 1)]))), [(2, 27), (3, 21)]);
}

#[test]
fn an_area_that_is_allocated_twice_stays_the_first_rows() {
    let rows = vec![area(7, 0x1000), area(7, 0x2000), uses(7), insert(7, 0, 1), area(7, 0x1000), uses(7)];
    assert_eq!(faults(&reported(&with(vec![], rows))), [(3, 32), (6, 32), (7, 32)]);
}

#[test]
fn no_context_is_told_over_the_rows_that_are_kept() {
    let context = |vtl, compatibility_mask| X64VbsVpContext { vtl, registers: vec![], compatibility_mask };
    let told = |sheet: Sheet| (faults(&reported(&sheet)), reported(&sheet).no_context);
    let regions = || vec![region(0x10_0000, 0x2000)];
    assert_eq!(told(with(regions(), vec![context(Vtl::Vtl0, 1)])), (vec![], false));
    assert_eq!(told(with(regions(), vec![context(Vtl::Vtl1, 1)])), (vec![], true));
    assert_eq!(told(with(regions(), vec![context(Vtl::Vtl0, 2)])), (vec![], true));
    let other_kind = AArch64VbsVpContext { vtl: Vtl::Vtl0, registers: vec![], compatibility_mask: 1 };
    assert_eq!(told(with(regions(), vec![other_kind.clone()])), (vec![(3, 24)], true));
    assert_eq!(told(with(regions(), vec![other_kind, context(Vtl::Vtl0, 1)])), (vec![(3, 24)], false));
    assert_eq!(told(with(vec![region(0x10_0000, 0)], vec![])), (vec![(2, 27)], false), "a faulty region needs none");
    assert_eq!(told(with(vec![page_table(1, 0x10_0000, 0x1000)], vec![])), (vec![], true));
    let other_vp = || {
        let mut other_vp = region(0x10_0000, 0x2000);
        if let RelocatableRegion { vp_index, .. } = &mut other_vp {
            *vp_index = 1;
        }
        other_vp
    };
    assert_eq!(told(with(vec![other_vp()], vec![context(Vtl::Vtl0, 1)])), (vec![], true), "the row itself is in order");
    let behind = vec![other_vp(), region(0x10_1000, 0x2000)];
    assert_eq!(told(with(behind, vec![context(Vtl::Vtl0, 1)])), (vec![(3, 29)], true), "and leaves its range");
}

#[test]
fn no_platform_is_told_where_none_is_kept() {
    let mut sheet = image_b();
    sheet.platform_headers.clear();
    let found = reported(&sheet);
    assert_eq!((faults(&found), found.no_platform, found.rows), (vec![], true, 2));
    assert_eq!(verdict(&sheet.bytes().unwrap()).unwrap_err().error, Error::NoPlatformHeaders);
    let faulty = IGVM_VHS_SUPPORTED_PLATFORM { platform_version: 2, ..platform() };
    sheet.platform_headers = vec![IgvmPlatformHeader::SupportedPlatform(faulty); 3];
    let found = reported(&sheet);
    assert_eq!((faults(&found), found.no_platform), (vec![(1, 10), (2, 10), (3, 10)], true), "no later one repeats a type");
    sheet.platform_headers.push(IgvmPlatformHeader::SupportedPlatform(platform()));
    assert!(!reported(&sheet).no_platform);
}

// ---- sheets with many faults, and what the verdict says of their rows

impl Random {
    fn platform(&mut self) -> IgvmPlatformHeader {
        use IgvmPlatformType as Type;
        IgvmPlatformHeader::SupportedPlatform(IGVM_VHS_SUPPORTED_PLATFORM {
            compatibility_mask: self.of(&[1, 1, 2, 2, 3]),
            highest_vtl: self.of(&[0, 0, 0, 0, 1]),
            platform_type: self.of(&[Type::NATIVE, Type::VSM_ISOLATION, Type::SEV_SNP, Type::CCA, Type::CCA]),
            platform_version: self.of(&[1, 1, 1, 1, 2]),
            shared_gpa_boundary: self.of(&[0, 0, 0, 0, 1]),
        })
    }

    fn initialization(&mut self) -> IgvmInitializationHeader {
        let (compatibility_mask, gpa, size) =
            (self.of(&[1, 2, 3]), self.of(&[0, 0x1000, 0x2000, 0x3000, 0x800]), self.of(&[0x1000, 0x2000, 0]));
        let (vp_index, vtl) = (self.of(&[0, 0, 0, 0, 1]), self.of(&[Vtl::Vtl0, Vtl::Vtl0, Vtl::Vtl1]));
        match self.below(4) {
            0 => CcaPolicy {
                compatibility_mask,
                attributes_required_zeroes: 1,
                attributes_required_ones: self.of(&[0, 0, 1]),
                hash_algorithm: 0,
                lfa_policy: 0,
            },
            1 => PageTableRelocationRegion { compatibility_mask, gpa, size, used_size: self.of(&[0, 0x1000]), vp_index, vtl },
            _ => RelocatableRegion {
                compatibility_mask,
                relocation_alignment: self.of(&[0x1000, 0x1000, 0x1000, 0]),
                relocation_region_gpa: gpa,
                relocation_region_size: size,
                minimum_relocation_gpa: 0,
                maximum_relocation_gpa: 0x1_0000,
                is_vtl2: false,
                apply_rip_offset: false,
                apply_gdtr_offset: false,
                vp_index,
                vtl,
            },
        }
    }

    fn directive(&mut self) -> IgvmDirectiveHeader {
        let (index, mask, gpa) = (self.of(&[0, 1, 2000]), self.of(&[1, 2, 3]), self.of(&[0, 0x1000, 0x2000, 0x3000, 1]));
        let vtl = self.of(&[Vtl::Vtl0, Vtl::Vtl0, Vtl::Vtl1]);
        match self.below(8) {
            0 | 1 => area(index, self.of(&[0x1000, 0x1000, 0x800])),
            2 | 3 => uses(index),
            4 | 5 => insert(index, gpa, mask),
            6 => PageData {
                gpa,
                compatibility_mask: mask,
                flags: 0,
                data_type: self.of(&[IgvmPageDataType::NORMAL, IgvmPageDataType(4)]),
                data: vec![],
            },
            _ if self.below(2) == 0 => AArch64VbsVpContext { vtl, registers: vec![], compatibility_mask: mask },
            _ => X64VbsVpContext { vtl, registers: vec![], compatibility_mask: mask },
        }
    }
}

/// The words of a list's headers by verdicts alone: each is put behind those that are kept, and kept itself where its own row is not refused.
fn by_verdicts<T: Clone>(kept: &mut Sheet, list: List, headers: &[T], of: impl Fn(&mut Sheet) -> &mut Vec<T>) -> Vec<u64> {
    let word = |header: &T| {
        of(kept).push(header.clone());
        let place = Some(Place { list, index: of(kept).len() - 1 });
        let refusal = verdict(&kept.bytes().unwrap()).err().filter(|refusal| refusal.place == place);
        if refusal.is_some() {
            of(kept).pop();
        }
        refusal.map_or(0, |refusal| refusal.error.number())
    };
    headers.iter().map(word).collect()
}

/// The words of a sheet's rows by verdicts alone, and whether 15 and 34 are told. Where no platform is kept, one that no other row's test asks for stands in, so that 15
/// does not come first.
fn all_by_verdicts(sheet: &Sheet) -> (Vec<u64>, bool, bool) {
    let mut kept = Sheet { platform_headers: vec![], initialization_headers: vec![], directive_headers: vec![], ..*sheet };
    let platforms = by_verdicts(&mut kept, List::Platform, &sheet.platform_headers, |kept| &mut kept.platform_headers);
    let no_platform = kept.platform_headers.is_empty();
    if no_platform {
        let other = IGVM_VHS_SUPPORTED_PLATFORM { platform_type: IgvmPlatformType::VSM_ISOLATION, ..platform() };
        kept.platform_headers.push(IgvmPlatformHeader::SupportedPlatform(other));
    }
    let initializations =
        by_verdicts(&mut kept, List::Initialization, &sheet.initialization_headers, |kept| &mut kept.initialization_headers);
    let directives = by_verdicts(&mut kept, List::Directive, &sheet.directive_headers, |kept| &mut kept.directive_headers);
    let no_context = verdict(&kept.bytes().unwrap()).err().map(|refusal| refusal.error);
    assert!(no_context.is_none() || no_context == Some(Error::NoMatchingVpContext));
    ([platforms, initializations, directives].concat(), no_platform, no_context.is_some())
}

#[test]
fn a_row_is_reported_as_the_verdict_refuses_it_behind_the_rows_that_are_kept() {
    let mut random = Random(1);
    let (mut met, mut told) = (BTreeSet::new(), BTreeSet::new());
    for _ in 0..5000 {
        let arch = random.of(&[Arch::X64, Arch::AArch64]);
        let sheet = Sheet {
            revision: IgvmRevision::V2 { arch, page_size: 4096 },
            platform_headers: (0..random.below(5)).map(|_| random.platform()).collect(),
            initialization_headers: (0..random.below(7)).map(|_| random.initialization()).collect(),
            directive_headers: (0..random.below(12)).map(|_| random.directive()).collect(),
        };
        let bytes = sheet.bytes().unwrap();
        let words = held_to_the_verdict("random", &bytes);
        let found = report(&bytes).unwrap();
        assert_eq!((words.clone(), found.no_platform, found.no_context), all_by_verdicts(&sheet), "{sheet:?}");
        met.extend(words);
        told.insert((found.no_platform, found.no_context));
    }
    // 12, 17, 18, 28 and 31 need fields that none of these has.
    let expected = [0, 8, 9, 10, 11, 13, 14, 16, 19, 20, 21, 22, 23, 24, 25, 26, 27, 29, 30, 32, 33];
    assert_eq!(met.into_iter().collect::<Vec<_>>(), expected);
    assert_eq!(told.len(), 4);
}

#[test]
fn no_bytes_are_too_odd_to_be_reported() {
    let mut random = Random(1);
    for _ in 0..2000 {
        let sheet: Vec<u8> = (0..random.below(300)).map(|_| random.below(256) as u8).collect();
        held_to_the_verdict("random bytes", &sheet);
    }
    let mut answered = 0;
    for (name, sheet) in samples().into_iter().filter(|(_, sheet)| (1..5000).contains(&sheet.len())) {
        for _ in 0..100 {
            let mut changed = sheet.clone();
            for _ in 0..=random.below(3) {
                let at = random.below(sheet.len() as u64) as usize;
                changed[at] = random.of(&[0, 1, 0x7F, 0xFF, 3]);
            }
            changed.truncate(sheet.len() - (random.below(sheet.len() as u64) * random.below(2)) as usize);
            answered += usize::from(!held_to_the_verdict(&name, &changed).is_empty());
        }
    }
    assert!(answered > 1000, "{answered}");
}
