//! The answers of the base check: each by a sheet and by its region's words, and the first that applies.

mod common;

use common::{bounded_region, image_b};
use sapyullu::BaseCheck::{AboveMaximum, BelowMinimum, Unaligned, Valid};
use sapyullu::*;

/// What the sheet of image B, its region's minimum and maximum being these, says of the base, and the region's words too. Its alignment is 0x1000, its size
/// 0x2000.
fn check(minimum: u64, maximum: u64, base: u64) -> BaseCheck {
    let region = bounded_region(0x1000, 0x10_0000, 0x2000, minimum, maximum);
    let sheet = Sheet { initialization_headers: vec![region], ..image_b() }.bytes().unwrap();
    let by_sheet = relocation_base_valid(&sheet, 1, 0, base).unwrap();
    assert_eq!(relocations(&sheet, 1).unwrap().regions[0].relocation_base_valid(base), by_sheet, "by the words");
    by_sheet
}

/// A region that no sheet needs to have.
fn loose(size: u64, relocation_alignment: u64, minimum_relocation_gpa: u64, maximum_relocation_gpa: u64) -> IgvmRelocatableRegion {
    IgvmRelocatableRegion {
        base_gpa: 0,
        size,
        relocation_alignment,
        minimum_relocation_gpa,
        maximum_relocation_gpa,
        is_vtl2: false,
        apply_rip_offset: false,
        apply_gdtr_offset: false,
        vp_index: 0,
        vtl: Vtl::Vtl0,
    }
}

#[test]
fn each_answer_up_to_its_bound() {
    let check = |base| check(0x10_0000, 0x20_0000, base);
    assert_eq!([0x10_0000, 0x1F_E000].map(check), [Valid; 2], "at the minimum, and where the end is the maximum");
    assert_eq!([0x10_0001, 0x10_0800, 0x1F_DFFF].map(check), [Unaligned; 3]);
    assert_eq!([0, 0xF_F000].map(check), [BelowMinimum; 2]);
    assert_eq!([0x1F_F000, 0x20_0000, 1 << 63].map(check), [AboveMaximum; 3]);
}

#[test]
fn the_first_that_applies_is_the_answer() {
    let between = |base| check(0x10_0000, 0x20_0000, base);
    assert_eq!(between(0xF_F001), Unaligned, "and below the minimum");
    assert_eq!(between(0x1F_F001), Unaligned, "and above the maximum");
    let none = |base| check(0x30_0000, 0x20_0000, base);
    assert_eq!(none(0x25_0000), BelowMinimum, "and above the maximum");
    assert_eq!(none(0x25_0001), Unaligned, "and both");
    assert_eq!([0x10_0000, 0x2F_F000, 0x30_0000].map(none), [BelowMinimum, BelowMinimum, AboveMaximum], "no base is valid");
}

#[test]
fn the_end_is_an_exact_sum() {
    let highest = 0xFFFF_FFFF_FFFF_F000;
    let check = |base| check(0, highest, base);
    assert_eq!(check(0xFFFF_FFFF_FFFF_D000), Valid, "2^64 - 0x1000");
    assert_eq!(check(0xFFFF_FFFF_FFFF_E000), AboveMaximum, "2^64");
    assert_eq!(check(0xFFFF_FFFF_FFFF_F000), AboveMaximum, "2^64 + 0x1000");
    let all = loose(u64::MAX, 1, 0, u64::MAX);
    let ends = [0, 1, u64::MAX].map(|base| all.relocation_base_valid(base));
    assert_eq!(ends, [Valid, AboveMaximum, AboveMaximum], "2^64 - 1, 2^64, 2^65 - 2");
}

#[test]
fn of_alignment_0_only_0_is_a_multiple() {
    let check = |size, minimum, maximum, base| loose(size, 0, minimum, maximum).relocation_base_valid(base);
    assert_eq!(check(0x2000, 0, 0x2000, 0), Valid);
    assert_eq!([1, 0x1000, 1 << 63, u64::MAX].map(|base| check(0, 0, u64::MAX, base)), [Unaligned; 4]);
    assert_eq!(check(0x2000, 1, 0x2000, 0), BelowMinimum);
    assert_eq!(check(0x2000, 0, 0x1FFF, 0), AboveMaximum);
}

#[test]
fn an_answer_has_its_number_and_its_words() {
    let said = [Valid, Unaligned, BelowMinimum, AboveMaximum].map(|check| (check.number(), check.is_valid(), check.to_string()));
    let expected = [(1, true, "valid"), (2, false, "unaligned"), (3, false, "below the minimum"), (4, false, "above the maximum")];
    assert_eq!(said, expected.map(|(number, valid, words)| (number, valid, words.to_string())));
}
