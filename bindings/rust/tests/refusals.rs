//! Refusals as values: numbers, names and text.

use sapyullu::{Error, List, Place, Refusal};
use std::collections::BTreeSet;

/// The refusals that have a name.
fn named() -> impl Iterator<Item = u64> {
    (1..=38).chain([50])
}

#[test]
fn numbers_and_errors_go_together() {
    for number in [0..=60, 255..=257, u64::MAX - 1..=u64::MAX].into_iter().flatten() {
        let error = Error::from_number(number);
        assert_eq!(error.number(), number);
        assert_eq!(error == Error::Unknown(number), named().all(|named| named != number), "{number}");
    }
    assert_eq!(Error::from_number(1), Error::SheetEndsEarly);
    assert_eq!(Error::from_number(37), Error::TooFewWordsLent);
    assert_eq!(Error::from_number(38), Error::BitWithoutVpContext);
    assert_eq!(Error::from_number(50), Error::LowestAboveHighest);
}

#[test]
fn names_are_the_rusts_where_it_has_one() {
    let name = |number| Error::from_number(number).name();
    assert_eq!(name(7), "UnsupportedPageSize");
    assert_eq!(name(14), "MultiplePlatformHeadersWithSameIsolation");
    assert_eq!(name(24), "InvalidHeaderArch");
    assert_eq!(name(34), "NoMatchingVpContext");
    assert_eq!([39, 49, 51].map(name), ["Unknown"; 3]);
    assert!(named().all(|number| name(number) == format!("{:?}", Error::from_number(number))));
}

#[test]
fn a_refusal_says_its_row_and_its_detail() {
    let text = |number, row, detail| Refusal::from_numbers(number, row, detail).to_string();
    assert_eq!(text(15, 0, 0), "refusal 15 (NoPlatformHeaders): there is no platform header");
    assert_eq!(text(7, 0, 8192), "refusal 7 (UnsupportedPageSize): the page size is not 4096 (page size 8192)");
    assert_eq!(text(19, 2, 0), "refusal 19 (RelocationAlignmentZero) in row 2: the relocatable region's alignment is 0");
    assert_eq!(
        text(13, 1, 6),
        "refusal 13 (PlatformArchUnsupported) in row 1: the architecture does not have the platform type (platform type 6)"
    );
    assert_eq!(text(21, 3, 0x1800), "refusal 21 (UnalignedAddress) in row 3: the gpa is not a multiple of 4096 (address 0x1800)");
    assert_eq!(text(99, 3, 5), "refusal 99 (Unknown) in row 3: the library refuses for a reason that this crate does not know (detail 5)");
}

/// The head of a sheet of two platform rows, 300 initialization rows and one directive row.
const HEAD: [u8; 16] = [1, 0, 0, 0, 0, 0, 0, 0, 2, 0, 44, 1, 1, 0, 0, 0];

#[test]
fn a_refusal_in_a_sheet_says_its_list_and_index() {
    let refusal = |row| Refusal::from_numbers(19, row, 0).in_sheet(&HEAD);
    let place = |list, index| Some(Place { list, index });
    assert_eq!([1, 2].map(|row| refusal(row).place), [place(List::Platform, 0), place(List::Platform, 1)]);
    assert_eq!([3, 302].map(|row| refusal(row).place), [place(List::Initialization, 0), place(List::Initialization, 299)]);
    assert_eq!(refusal(303).place, place(List::Directive, 0));
    assert_eq!([0, 304, u64::MAX].map(|row| refusal(row).place), [None; 3]);
    assert_eq!(Refusal::from_numbers(19, 1, 0).in_sheet(&HEAD[..15]).place, None);
    assert_eq!(
        refusal(10).to_string(),
        "refusal 19 (RelocationAlignmentZero) in row 10 (initialization header 7): the relocatable region's alignment is 0"
    );
    assert_eq!(Refusal::from_numbers(99, 303, 5).in_sheet(&HEAD).line(), "refused 99 row 303 detail 5");
}

#[test]
fn every_error_has_a_cure_of_its_own() {
    let cures: BTreeSet<&str> = named().chain([0]).map(|number| Error::from_number(number).cure()).collect();
    assert_eq!(cures.len(), 40);
    let is_sentence = |cure: &str| cure.starts_with(|c: char| c.is_ascii_lowercase()) && !cure.ends_with('.');
    assert!(cures.iter().all(|cure| is_sentence(cure)));
    assert_eq!(Error::NoPlatformHeaders.cure(), "list at least one platform");
}

#[test]
fn a_refusal_has_the_line_of_admit() {
    assert_eq!(Refusal::from_numbers(19, 2, 0).line(), "refused 19 row 2 detail 0");
    assert_eq!(Refusal::from_numbers(7, 0, 8192).line(), "refused 7 row 0 detail 8192");
    assert_eq!(Refusal::from_numbers(99, 0, 0).line(), "refused 99 row 0 detail 0");
}

#[test]
fn a_refusal_is_an_error_value() {
    let boxed: Box<dyn std::error::Error + Send + Sync> = Refusal::from_numbers(35, 0, 0).into();
    assert_eq!(boxed.to_string(), "refusal 35 (QueryMaskZero): the query's mask is 0");
    let boxed: Box<dyn std::error::Error + Send + Sync> = Error::QueryMaskZero.into();
    assert_eq!(boxed.to_string(), "the query's mask is 0");
}
