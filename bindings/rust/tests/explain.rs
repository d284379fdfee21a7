//! What the program examples/explain.rs says of a sheet.

mod common;
#[path = "../examples/explain.rs"]
#[allow(dead_code)]
mod explain;

use common::{image_b, image_with, region};
use sapyullu::*;
use std::ffi::OsString;
use std::fs;
use std::path::PathBuf;

/// What is written with these arguments, and the exit status.
fn explained_with(arguments: &[&str], mut sheet: &[u8]) -> (String, u8) {
    let arguments: Vec<OsString> = arguments.iter().map(OsString::from).collect();
    let mut text = Vec::new();
    let status = explain::run(&arguments, &mut sheet, &mut text);
    (String::from_utf8(text).unwrap(), status)
}

fn explained(sheet: &[u8]) -> (String, u8) {
    explained_with(&[], sheet)
}

fn samples() -> Vec<(PathBuf, Vec<u8>)> {
    let folder = concat!(env!("CARGO_MANIFEST_DIR"), "/../../samples");
    let paths = fs::read_dir(folder).unwrap().map(|entry| entry.unwrap().path());
    paths.filter(|path| path.extension().is_some_and(|end| end == "sheet")).map(|path| (path.clone(), fs::read(path).unwrap())).collect()
}

#[test]
fn image_b_in_words() {
    let text = "\
head: revision 1, architecture 0 (X64), page size 0, 1 platform, 1 initialization and 1 directive rows; 109 bytes in all
row 1 (platform header 0): kind 1 SupportedPlatform, body of 16 bytes: mask 0x1, highest VTL 0, type 0 (NATIVE), version 1, shared GPA boundary 0x0
row 2 (initialization header 0): kind 18 RelocatableRegion, body of 48 bytes: mask 0x1, alignment 0x1000, gpa 0x100000, size 0x2000, minimum 0x0, \
maximum 0x200000, flags 0x0 (none), VP index 0, VTL 0
row 3 (directive header 0): kind 47 X64VbsVpContext, body of 5 bytes: mask 0x1, VTL 0, 0 bytes of registers
accepted 1 1 1
";
    assert_eq!(explained(&image_b().bytes().unwrap()), (text.to_string(), 0));
}

#[test]
fn a_refusal_comes_with_its_reason_and_its_cure() {
    let (text, status) = explained(&image_with(region(0x10_0800, 0x2000)).bytes().unwrap());
    let end = "\
refused 20 row 2 detail 1050624
refusal 20 (RelocationAddress) in row 2 (initialization header 0): \
the relocatable region's gpa, minimum or maximum is not a multiple of its alignment (address 0x100800)
cure: move the address to a multiple of the region's alignment, or give the region a smaller alignment
";
    assert!(text.ends_with(end), "{text}");
    assert_eq!(status, 1);
}

#[test]
fn the_strict_verdict_is_given_where_it_is_asked_for() {
    let mut sheet = image_b();
    if let IgvmInitializationHeader::RelocatableRegion { compatibility_mask, .. } = &mut sheet.initialization_headers[0] {
        *compatibility_mask = 3;
    }
    let (text, status) = explained(&sheet.bytes().unwrap());
    assert_eq!((text.lines().last(), status), (Some("accepted 1 1 1"), 0));
    let (text, status) = explained_with(&["--strict"], &sheet.bytes().unwrap());
    let end = "\
refused 38 row 2 detail 2
refusal 38 (BitWithoutVpContext) in row 2 (initialization header 0): the region's mask has a bit that no VBS context of its VTL has (mask 0x2)
cure: list for each bit of the region's mask a VBS context of its VTL with that bit, or take the bit out of the region's mask
";
    assert!(text.ends_with(end), "{text}");
    assert_eq!(status, 1);
    assert_eq!(explained_with(&["--strict"], &image_b().bytes().unwrap()), explained(&image_b().bytes().unwrap()));
}

/// The line of the sheet's last row, from its kind on.
fn last_row(sheet: Sheet) -> String {
    let (text, _) = explained(&sheet.bytes().unwrap());
    let line = text.lines().rfind(|line| line.starts_with("row ")).unwrap();
    line.split_once(": kind ").unwrap().1.to_string()
}

#[test]
fn fields_are_shown_by_name() {
    use IgvmDirectiveHeader::*;
    let directive = |header| last_row(Sheet { directive_headers: vec![header], ..image_b() });
    let initialization = |header| last_row(Sheet { directive_headers: vec![], ..image_with(header) });
    let page = PageData { gpa: 0x5000, compatibility_mask: 3, flags: 4, data_type: IgvmPageDataType::CPUID_XF, data: vec![7; 9] };
    assert_eq!(directive(page), "32 PageData, body of 27 bytes: gpa 0x5000, mask 0x3, flags 0x4, type 3 (CPUID_XF), 9 bytes of data");
    let page = PageData { gpa: 0, compatibility_mask: 0, flags: 0, data_type: IgvmPageDataType(4), data: vec![] };
    assert_eq!(directive(page), "32 PageData, body of 18 bytes: gpa 0x0, mask 0x0, flags 0x0, type 4 (not known), 0 bytes of data");
    let area = ParameterArea { number_of_bytes: 0x2000, parameter_area_index: 11, initial_data: vec![7; 3] };
    assert_eq!(directive(area), "33 ParameterArea, body of 15 bytes: bytes 0x2000, area 11, 3 bytes of initial data");
    let tree = DeviceTree(IGVM_VHS_PARAMETER { parameter_area_index: 12, byte_offset: 0x34 });
    assert_eq!(directive(tree), "43 DeviceTree, body of 8 bytes: area 12, offset 0x34");
    let memory = RequiredMemory { gpa: 1, compatibility_mask: 2, number_of_bytes: 3, vtl2_protectable: true };
    assert_eq!(directive(memory), "44 RequiredMemory, body of 17 bytes: gpa 0x1, mask 0x2, bytes 0x3, protectable 1");
    let context = SnpVpContext { gpa: 1, compatibility_mask: 2, vp_index: 3, vmsa: vec![7; 4] };
    assert_eq!(directive(context), "45 SnpVpContext, body of 18 bytes: gpa 0x1, mask 0x2, VP index 3, 4 bytes of saved state");
    let insert = ParameterInsert(IGVM_VHS_PARAMETER_INSERT { gpa: 1, compatibility_mask: 2, parameter_area_index: 3 });
    assert_eq!(directive(insert), "50 ParameterInsert, body of 16 bytes: gpa 0x1, mask 0x2, area 3");
    let policy = IgvmInitializationHeader::CcaPolicy {
        compatibility_mask: 1,
        attributes_required_zeroes: 2,
        attributes_required_ones: 3,
        hash_algorithm: 4,
        lfa_policy: 5,
    };
    assert_eq!(
        initialization(policy),
        "17 CcaPolicy, body of 22 bytes: mask 0x1, required zeroes 0x2, required ones 0x3, hash algorithm 4, LFA policy 5"
    );
    let table = IgvmInitializationHeader::PageTableRelocationRegion {
        compatibility_mask: 1,
        gpa: 2,
        size: 3,
        used_size: 4,
        vp_index: 5,
        vtl: Vtl::Vtl2,
    };
    assert_eq!(
        initialization(table),
        "19 PageTableRelocationRegion, body of 31 bytes: mask 0x1, gpa 0x2, size 0x3, used size 0x4, VP index 5, VTL 2"
    );
    assert_eq!(initialization(IgvmInitializationHeader::Unknown), "0, which is not known, body of 0 bytes");
}

#[test]
fn flags_are_shown_bit_by_bit() {
    let mut sheet = image_b().bytes().unwrap();
    let flags = sheet.len() - 5 - 4;
    for (bits, names) in
        [(0, "0x0 (none)"), (5, "0x5 (VTL2, GDTR)"), (7, "0x7 (VTL2, RIP, GDTR)"), (9, "0x9 (VTL2, a bit that is not known)")]
    {
        sheet[flags] = bits;
        let (text, status) = explained(&sheet);
        assert!(text.contains(&format!(", flags {names}, VP index")), "{text}");
        assert_eq!(status, u8::from(bits > 7));
    }
}

/// Every sample is told to its end: a line for the head and for each row, then the line of its verdict.
#[test]
fn every_sample_is_told_row_by_row() {
    for (path, sheet) in samples() {
        let (text, status) = explained(&sheet);
        let answer = verdict(&sheet);
        let rows = text.lines().filter(|line| line.starts_with("row ")).count() as u64;
        match answer {
            Ok(counts) => {
                let count = counts.platform_headers + counts.initialization_headers + counts.directive_headers;
                assert_eq!((rows, status, text.lines().last()), (count, 0, Some(counts.line().as_str())), "{}", path.display());
                let odd = ["not known", "too early", "too many", "are there", "follow", "reserved"];
                assert!(odd.iter().all(|words| !text.contains(words)), "{text}");
            }
            Err(refusal) => {
                assert!(text.contains(&format!("\n{}\n{refusal}\ncure: {}\n", refusal.line(), refusal.error.cure())), "{}", path.display());
                assert_eq!(status, 1);
            }
        }
    }
}

#[test]
fn a_sheet_is_told_as_far_as_it_can_be_read() {
    let sheet = image_b().bytes().unwrap();
    let told = |bytes: &[u8]| explained(bytes).0;
    assert!(told(&sheet[..15]).starts_with("head: 15 bytes, of which it takes 16\nrefused 1 "));
    let no_rows = told(&sheet[..23]);
    assert!(no_rows.contains("\nthe table of contents ends before row 1\nrefused 1 "), "{no_rows}");
    let two_rows = told(&sheet[..32]);
    assert!(
        two_rows.contains("\nrow 2 (initialization header 0): kind 18 RelocatableRegion, body of 48 bytes of which 0 are there: no mask"),
        "{two_rows}"
    );
    assert!(two_rows.contains("\nthe table of contents ends before row 3\nrefused 1 "), "{two_rows}");
    let cut = told(&sheet[..68]);
    assert!(cut.contains("body of 48 bytes of which 12 are there: mask 0x1, alignment 0x1000, no gpa: it ends too early\n"), "{cut}");
    let more = told(&[&sheet[..], b"xy"].concat());
    assert!(more.contains("\n2 bytes follow the last body\nrefused 6 "), "{more}");
    let mut long = sheet.clone();
    (long[36], long[14]) = (6, 1);
    long.push(0);
    let long = told(&long);
    assert!(
        long.contains("directive rows; a reserved field is not 0; 110 bytes in all\n") && long.contains("VTL 0, 1 bytes of registers\n"),
        "{long}"
    );
    let mut platform = sheet;
    platform[20] = 17;
    assert!(told(&platform).contains("shared GPA boundary 0x0, 1 bytes too many\n"));
}

#[test]
fn no_bytes_are_too_odd_to_be_told() {
    let mut state = 1_u64;
    let mut random = move |below: usize| {
        state = state.wrapping_mul(6364136223846793005).wrapping_add(1442695040888963407);
        (state >> 33) as usize % below
    };
    for _ in 0..2000 {
        let sheet: Vec<u8> = (0..random(300)).map(|_| random(256) as u8).collect();
        check(&sheet);
    }
    for (_, sheet) in samples().into_iter().filter(|(_, sheet)| (1..5000).contains(&sheet.len())) {
        for _ in 0..100 {
            let mut changed = sheet.clone();
            for _ in 0..=random(3) {
                changed[random(sheet.len())] = [0, 1, 0x7F, 0xFF, random(256) as u8][random(5)];
            }
            check(&changed[..sheet.len() - random(sheet.len()) * random(2)]);
        }
    }
}

/// That the verdict's line stands behind the rows, and the exit status is the verdict's.
fn check(sheet: &[u8]) {
    let (text, status) = explained(sheet);
    let line = verdict(sheet).map_or_else(|refusal| refusal.line(), |counts| counts.line());
    assert!(text.lines().any(|told| told == line), "{line} in {text}");
    assert_eq!(status, u8::from(verdict(sheet).is_err()));
}

#[test]
fn a_file_is_read_where_one_is_named() {
    let told = |arguments: &[&str]| explained_with(arguments, &[]);
    let sample = concat!(env!("CARGO_MANIFEST_DIR"), "/../../samples/accepted-image-b.sheet");
    for arguments in [&[sample][..], &["--strict", sample]] {
        let (text, status) = told(arguments);
        assert_eq!((text.lines().last(), status), (Some("accepted 1 1 1"), 0));
    }
    assert_eq!(told(&[concat!(env!("CARGO_MANIFEST_DIR"), "/../../samples/19-alignment-zero.sheet")]).1, 1);
    assert_eq!(told(&[concat!(env!("CARGO_MANIFEST_DIR"), "/no-such-file")]), (String::new(), 2));
    assert_eq!(told(&[sample, sample]), (String::new(), 2));
    assert_eq!(told(&[sample, "--strict"]), (String::new(), 2));
    assert_eq!(told(&[]).1, 1, "no bytes are a sheet that is refused");
}
