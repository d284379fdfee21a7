//! What the program examples/trim.rs writes of a sheet.

mod common;
#[path = "../examples/trim.rs"]
#[allow(dead_code)]
mod program;

use common::{image_b, image_with, region};
use std::ffi::OsString;
use std::fs;
use std::io::{self, Read};

const FOLDER: &str = concat!(env!("CARGO_MANIFEST_DIR"), "/../../samples");

fn sample(name: &str) -> Vec<u8> {
    fs::read(format!("{FOLDER}/{name}.sheet")).unwrap()
}

/// The sheet that is written with these arguments, the reason, and the exit status.
fn written(arguments: &[&str], mut sheet: &[u8]) -> (Vec<u8>, String, u8) {
    let arguments: Vec<OsString> = arguments.iter().map(OsString::from).collect();
    let (mut rest, mut reason) = (Vec::new(), Vec::new());
    let status = program::run(&arguments, &mut sheet, &mut rest, &mut reason);
    (rest, String::from_utf8(reason).unwrap(), status)
}

/// The reason why nothing is written.
fn reason(arguments: &[&str], sheet: &[u8]) -> String {
    let (rest, reason, status) = written(arguments, sheet);
    assert_eq!((rest, status), (vec![], 1), "{reason}");
    reason
}

#[test]
fn the_rest_of_a_sheet_is_written() {
    let (rest, reason, status) = written(&["2", "4", "7", "9", "11"], &sample("trimmed-before"));
    assert_eq!((rest, reason.as_str(), status), (sample("trimmed-after"), "", 0));
    let (rest, _, status) = written(&["11", "9", "2", "7", "4", "2"], &sample("trimmed-before"));
    assert_eq!((rest, status), (sample("trimmed-after"), 0), "in any order, and one of them twice");
    assert_eq!(written(&[], &sample("trimmed-before")), (sample("trimmed-before"), String::new(), 0));
}

#[test]
fn a_row_that_must_remain_is_named_with_the_reason() {
    let before = sample("trimmed-before");
    assert_eq!(reason(&["1"], &before), "platform header 0 can't be dropped: all platform headers stay\n");
    assert_eq!(reason(&["2", "6"], &before), "directive header 0 can't be dropped: it is a VBS context, and all of them stay\n");
    assert_eq!(
        reason(&["8", "10"], &before),
        "directive header 2 can't be dropped: it allocates parameter area 7, which directive header 5 names\n"
    );
    for row in ["0", "14", "18446744073709551615"] {
        assert_eq!(reason(&["2", row], &before), format!("the sheet has no row {row}\n"));
    }
}

#[test]
fn a_refused_sheet_is_not_trimmed() {
    let refused = image_with(region(0x10_0000, 0)).bytes().unwrap();
    let text = "the sheet is refused before any header is dropped: refusal 27 (RegionSizeZero) in row 2 (initialization header 0): the region's size is 0\n";
    assert_eq!(reason(&["2"], &refused), text, "without row 2 it would be accepted");
    assert_eq!(reason(&[], &refused), text);
    assert!(reason(&[], &[]).contains("refusal 1 (SheetEndsEarly)"));
    assert_eq!(reason(&["1"], &[]), "the sheet has no row 1\n");
}

#[test]
fn an_argument_that_is_no_number_is_bad_usage() {
    let sheet = image_b().bytes().unwrap();
    for argument in ["", "-1", "0x2", "2,3", "two", "18446744073709551616"] {
        assert_eq!(written(&["2", argument], &sheet), (vec![], String::new(), 2), "{argument}");
    }
}

/// An input that can't be read to its end.
struct Broken;

impl Read for Broken {
    fn read(&mut self, _: &mut [u8]) -> io::Result<usize> {
        Err(io::Error::other("no more bytes"))
    }
}

#[test]
fn an_input_that_can_not_be_read_has_status_2() {
    let (mut rest, mut reason) = (Vec::new(), Vec::new());
    assert_eq!(program::run(&["2".into()], &mut Broken, &mut rest, &mut reason), 2);
    assert_eq!((rest, reason), (vec![], vec![]));
}
