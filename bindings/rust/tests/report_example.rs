//! What the program examples/report.rs says of a sheet.

mod common;
#[path = "../examples/report.rs"]
#[allow(dead_code)]
mod program;

use common::{image_b, image_with, region};
use sapyullu::*;
use std::ffi::OsString;
use std::fs;

const FOLDER: &str = concat!(env!("CARGO_MANIFEST_DIR"), "/../../samples");

/// What is written with these arguments, and the exit status.
fn written_with(arguments: &[&str], mut sheet: &[u8]) -> (String, u8) {
    let arguments: Vec<OsString> = arguments.iter().map(OsString::from).collect();
    let mut text = Vec::new();
    let status = program::run(&arguments, &mut sheet, &mut text);
    (String::from_utf8(text).unwrap(), status)
}

fn written(sheet: &[u8]) -> (String, u8) {
    written_with(&[], sheet)
}

fn sample(name: &str) -> Vec<u8> {
    fs::read(format!("{FOLDER}/{name}.sheet")).unwrap()
}

#[test]
fn nothing_is_wrong_with_image_b() {
    assert_eq!(written(&image_b().bytes().unwrap()), ("0 of 3 rows are faulty\n".to_string(), 0));
}

#[test]
fn a_faulty_row_comes_with_its_place_its_reason_and_its_cure() {
    let text = "\
row 2 (initialization header 0): refusal 27 (RegionSizeZero): the region's size is 0; cure: give the region a size, or leave its header out
1 of 3 rows are faulty
";
    assert_eq!(written(&image_with(region(0x10_0000, 0)).bytes().unwrap()), (text.to_string(), 1));
}

#[test]
fn what_is_wrong_with_the_whole_stands_behind_the_rows() {
    let text = "\
row 1 (platform header 0): refusal 8 (InvalidCompatibilityMask): the platform's compatibility mask has not exactly one bit; cure: give the platform a mask of one bit
row 2 (initialization header 0): refusal 19 (RelocationAlignmentZero): the relocatable region's alignment is 0; cure: give the region an alignment of 4096 or a multiple of it
row 3 (directive header 0): refusal 24 (InvalidHeaderArch): the architecture does not have this kind of header; \
cure: list CcaPolicy and AArch64 contexts on AArch64 alone, X64 native and VBS contexts on X64 alone
the rows that are not faulty: refusal 15 (NoPlatformHeaders): there is no platform header; cure: list at least one platform
3 of 3 rows are faulty
";
    assert_eq!(written(&sample("report-every-row")), (text.to_string(), 1));
    let sheet = Sheet { platform_headers: vec![], directive_headers: vec![], ..image_b() };
    let text = "\
the rows that are not faulty: refusal 15 (NoPlatformHeaders): there is no platform header; cure: list at least one platform
the rows that are not faulty: refusal 34 (NoMatchingVpContext): a region's VP index is not 0, or no VBS context of its VTL shares a mask bit with it; \
cure: give each region VP index 0, and list a VBS context of its VTL that shares a mask bit with it
0 of 1 rows are faulty
";
    assert_eq!(written(&sheet.bytes().unwrap()), (text.to_string(), 1));
}

#[test]
fn a_sheet_that_can_not_be_read_has_no_report() {
    let text = "\
refusal 5 (InvalidBody) in row 3 (directive header 0): the row's body has a wrong length, or a VTL, flags or a boolean out of range; \
cure: write the body by the layout of its kind: its length, a VTL up to 2, flags of a region up to 7, a boolean of 0 or 1
no row is reported
";
    assert_eq!(written(&sample("report-5-first")), (text.to_string(), 1));
    let (text, status) = written(&sample("07-page-size-8192"));
    assert!(text.starts_with("refusal 7 (UnsupportedPageSize): the page size is not 4096 (page size 8192); cure: "), "{text}");
    assert_eq!(status, 1);
}

/// Every sample is told to its end: a line for each faulty row and for what is told of the whole, then how many rows are faulty.
#[test]
fn every_sample_is_told() {
    for entry in fs::read_dir(FOLDER).unwrap() {
        let path = entry.unwrap().path();
        if !path.extension().is_some_and(|end| end == "sheet") {
            continue;
        }
        let sheet = fs::read(&path).unwrap();
        let (text, status) = written(&sheet);
        assert_eq!(status, u8::from(verdict(&sheet).is_err()), "{}", path.display());
        let lines: Vec<&str> = text.lines().collect();
        let (last, lines) = lines.split_last().unwrap();
        match report(&sheet) {
            Err(refusal) => {
                assert_eq!((lines, *last), (&[format!("{refusal}; cure: {}", refusal.error.cure()).as_str()][..], "no row is reported"));
            }
            Ok(found) => {
                assert_eq!(*last, format!("{} of {} rows are faulty", found.faulty.len(), found.rows));
                let (rows, whole) = lines.split_at(found.faulty.len());
                assert_eq!(whole.len(), usize::from(found.no_platform) + usize::from(found.no_context), "{text}");
                for (line, faulty) in rows.iter().zip(&found.faulty) {
                    let start = format!(
                        "row {} ({}): refusal {} ({}): ",
                        faulty.row,
                        faulty.place.unwrap(),
                        faulty.error.number(),
                        faulty.error.name()
                    );
                    assert!(line.starts_with(&start) && line.ends_with(&format!("; cure: {}", faulty.error.cure())), "{line}");
                }
            }
        }
    }
}

#[test]
fn a_file_is_read_where_one_is_named() {
    let told = |arguments: &[&str]| written_with(arguments, &[]);
    let accepted = &format!("{FOLDER}/accepted-image-b.sheet");
    assert_eq!(told(&[accepted]), ("0 of 3 rows are faulty\n".to_string(), 0));
    assert_eq!(told(&[&format!("{FOLDER}/report-many-faults.sheet")]).1, 1);
    assert_eq!(told(&[concat!(env!("CARGO_MANIFEST_DIR"), "/no-such-file")]), (String::new(), 2));
    assert_eq!(told(&[accepted, accepted]), (String::new(), 2));
    let (text, status) = told(&[]);
    assert!(text.starts_with("refusal 1 (SheetEndsEarly): "), "no bytes are a sheet that is refused");
    assert_eq!(status, 1);
}
