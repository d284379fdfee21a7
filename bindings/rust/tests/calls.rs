//! The calls on image B and on sheets made from it.

mod common;

use common::{image_b, image_with, region};
use sapyullu::BaseCheck::{AboveMaximum, BelowMinimum, Unaligned, Valid};
use sapyullu::*;
use std::collections::HashMap;

/// A region with a number of its own in every field.
fn distinct() -> IgvmInitializationHeader {
    IgvmInitializationHeader::RelocatableRegion {
        compatibility_mask: 3,
        relocation_alignment: 0x4000,
        relocation_region_gpa: 0x40_0000,
        relocation_region_size: 0x9000,
        minimum_relocation_gpa: 0x4000,
        maximum_relocation_gpa: 0x80_0000,
        is_vtl2: true,
        apply_rip_offset: false,
        apply_gdtr_offset: true,
        vp_index: 0,
        vtl: Vtl::Vtl0,
    }
}

/// Image B, its region after the distinct one, and a page-table region of masks 1 and 2.
fn several() -> Vec<u8> {
    let mut sheet = image_with(distinct());
    let page_table = IgvmInitializationHeader::PageTableRelocationRegion {
        compatibility_mask: 3,
        gpa: 0x90_0000,
        size: 0x5000,
        used_size: 0x3000,
        vp_index: 0,
        vtl: Vtl::Vtl2,
    };
    sheet.initialization_headers.extend([region(0x10_0000, 0x2000), page_table]);
    sheet.directive_headers.push(IgvmDirectiveHeader::X64VbsVpContext { vtl: Vtl::Vtl2, registers: vec![7; 9], compatibility_mask: 2 });
    sheet.bytes().unwrap()
}

fn error_of<T: std::fmt::Debug>(answer: Result<T, Refusal>) -> Error {
    answer.unwrap_err().error
}

#[test]
fn the_counts_are_those_of_the_lists() {
    let counts = verdict(&several()).unwrap();
    assert_eq!((counts.platform_headers, counts.initialization_headers, counts.directive_headers), (1, 3, 2));
}

#[test]
fn regions_come_with_every_field_in_header_order() {
    let found = relocations(&several(), 1).unwrap();
    let first = IgvmRelocatableRegion {
        base_gpa: 0x40_0000,
        size: 0x9000,
        relocation_alignment: 0x4000,
        minimum_relocation_gpa: 0x4000,
        maximum_relocation_gpa: 0x80_0000,
        is_vtl2: true,
        apply_rip_offset: false,
        apply_gdtr_offset: true,
        vp_index: 0,
        vtl: Vtl::Vtl0,
    };
    assert_eq!(found.regions.len(), 2);
    assert_eq!(found.regions[0], first);
    assert_eq!((found.regions[1].base_gpa, found.regions[1].is_vtl2, found.regions[1].apply_gdtr_offset), (0x10_0000, false, false));
    let table = found.page_table.unwrap();
    assert_eq!((table.gpa, table.size, table.used_size, table.vp_index, table.vtl), (0x90_0000, 0x5000, 0x3000, 0, Vtl::Vtl2));
}

#[test]
fn a_header_matches_where_its_mask_holds_every_bit() {
    assert_eq!(relocations(&several(), 3).unwrap().regions.len(), 1);
    let none = relocations(&several(), 4).unwrap();
    assert_eq!((none.regions, none.page_table), (vec![], None));
    assert_eq!(relocations(&image_b().bytes().unwrap(), 1).unwrap().page_table, None);
}

#[test]
fn as_many_regions_as_a_sheet_can_have() {
    let regions = (0..64).map(|number| region(0x2000 * number, 0x2000)).collect();
    let sheet = Sheet { initialization_headers: regions, ..image_b() }.bytes().unwrap();
    let bases: Vec<u64> = relocations(&sheet, 1).unwrap().regions.iter().map(|region| region.base_gpa).collect();
    assert_eq!(bases, (0..64).map(|number| 0x2000 * number).collect::<Vec<_>>());
}

#[test]
fn lent_bytes_behind_the_answer_keep_their_contents() {
    let mut lent = [0xA5; 2 * REGION_BYTES + 9];
    let filled = relocations_into(&several(), 1, &mut lent).unwrap();
    assert_eq!((filled.count, filled.page_table.is_some()), (2, true));
    assert_eq!(lent[2 * REGION_BYTES..], [0xA5; 9]);
    let words = lent[REGION_BYTES..2 * REGION_BYTES].try_into().unwrap();
    assert_eq!(IgvmRelocatableRegion::from_words(words).as_ref(), relocations(&several(), 1).unwrap().regions.get(1));
}

#[test]
fn a_refused_call_leaves_the_lent_bytes() {
    let mut lent = [0xA5; 2 * REGION_BYTES - 1];
    assert_eq!(error_of(relocations_into(&several(), 1, &mut lent)), Error::TooFewWordsLent);
    assert_eq!(error_of(relocations_into(&several(), 0, &mut lent)), Error::QueryMaskZero);
    let refused = image_with(region(0x10_0000, 0)).bytes().unwrap();
    assert_eq!(error_of(relocations_into(&refused, 1, &mut lent)), Error::RegionSizeZero);
    assert_eq!(lent, [0xA5; 2 * REGION_BYTES - 1]);
}

#[test]
fn no_bytes_need_to_be_lent_where_there_is_no_region() {
    assert_eq!(relocations_into(&several(), 4, &mut []).unwrap().count, 0);
    assert_eq!(error_of(relocations_into(&several(), 1, &mut [])), Error::TooFewWordsLent);
}

#[test]
fn words_that_are_no_region() {
    let with = |word: usize, value: u64| {
        let mut words = [0; REGION_BYTES];
        words[8 * word..8 * word + 8].copy_from_slice(&value.to_le_bytes());
        IgvmRelocatableRegion::from_words(&words)
    };
    assert_eq!(with(6, 65_535).unwrap().vp_index, 65_535);
    assert_eq!(with(7, 2).unwrap().vtl, Vtl::Vtl2);
    assert_eq!((with(5, 8), with(6, 65_536), with(7, 3), with(7, 256)), (None, None, None, None));
}

#[test]
fn a_base_is_valid_from_the_minimum_up_to_the_maximum() {
    let sheet = several();
    let check = |base| relocation_base_valid(&sheet, 1, 0, base).unwrap();
    assert_eq!(check(0x4000), Valid, "at the minimum");
    assert_eq!(check(0), BelowMinimum, "on the alignment");
    assert_eq!([0x4001, 0x5000, u64::MAX].map(check), [Unaligned; 3]);
    assert_eq!(check(0x7F_4000), Valid, "the last that ends at most at the maximum");
    assert_eq!(check(0x7F_8000), AboveMaximum);
    assert_eq!(check(0xFFFF_FFFF_FFFF_C000), AboveMaximum, "the sum passes 2^64");
    let b = image_b().bytes().unwrap();
    let check = |base| relocation_base_valid(&b, 1, 0, base).unwrap();
    assert_eq!(check(0x1F_E000), Valid, "ends at the maximum");
    assert_eq!(check(0x1F_F000), AboveMaximum);
}

#[test]
fn a_region_contains_its_gpa_up_to_its_end() {
    let sheet = image_b().bytes().unwrap();
    let inside = |gpa| contains(&sheet, 1, 0, gpa).unwrap();
    assert!(inside(0x10_0000) && inside(0x10_1FFF));
    assert!(!inside(0xF_FFFF) && !inside(0x10_2000) && !inside(u64::MAX));
}

#[test]
fn a_region_is_named_by_its_number_from_0() {
    let sheet = several();
    assert_eq!(contains(&sheet, 1, 1, 0x10_0000), Ok(true));
    assert_eq!(contains(&sheet, 1, 0, 0x10_0000), Ok(false));
    for region in [2, 1 << 32, u64::MAX] {
        assert_eq!(error_of(contains(&sheet, 1, region, 0)), Error::NoSuchRegion);
        assert_eq!(error_of(relocation_base_valid(&sheet, 1, region, 0)), Error::NoSuchRegion);
        assert_eq!(error_of(relocation_base_range(&sheet, 1, region, 0, 0)), Error::NoSuchRegion);
    }
    assert_eq!(error_of(contains(&sheet, 0, 0, 0)), Error::QueryMaskZero);
    assert_eq!(error_of(relocation_base_valid(&sheet, 0, 0, 0)), Error::QueryMaskZero);
    assert_eq!(error_of(relocation_base_range(&sheet, 0, 0, 0, 0)), Error::QueryMaskZero);
}

#[test]
fn a_region_says_by_itself_what_its_sheet_says_of_it() {
    let sheet = several();
    for mask in 1..4 {
        for (number, region) in (0..).zip(&relocations(&sheet, mask).unwrap().regions) {
            let IgvmRelocatableRegion { base_gpa, size, minimum_relocation_gpa: minimum, maximum_relocation_gpa: maximum, .. } = *region;
            let marks = [base_gpa, base_gpa + size, minimum, maximum - size, maximum, 0, 0x4000];
            let near = marks.into_iter().flat_map(|mark| [mark, mark.wrapping_sub(1), mark + 1, mark.wrapping_sub(0x1000), mark + 0x1000]);
            for at in near {
                assert_eq!(region.relocation_base_valid(at), relocation_base_valid(&sheet, mask, number, at).unwrap(), "{at:#x}");
                assert_eq!(region.contains(at), contains(&sheet, mask, number, at).unwrap(), "{at:#x}");
            }
        }
    }
}

/// A region of these numbers, with every flag, the highest VP index and the highest VTL.
fn loose(
    base_gpa: u64,
    size: u64,
    relocation_alignment: u64,
    minimum_relocation_gpa: u64,
    maximum_relocation_gpa: u64,
) -> IgvmRelocatableRegion {
    IgvmRelocatableRegion {
        base_gpa,
        size,
        relocation_alignment,
        minimum_relocation_gpa,
        maximum_relocation_gpa,
        is_vtl2: true,
        apply_rip_offset: true,
        apply_gdtr_offset: true,
        vp_index: u16::MAX,
        vtl: Vtl::Vtl2,
    }
}

#[test]
fn a_regions_sums_are_exact() {
    let region = loose(0xFFFF_FFFF_FFFF_F000, 0x2000, 0x1000, 0, u64::MAX);
    assert!(region.contains(u64::MAX) && !region.contains(0xFFFF_FFFF_FFFF_EFFF));
    assert!(!region.contains(0) && !region.contains(0xFFF), "the end is not cut to 64 bits");
    let ends = [0xFFFF_FFFF_FFFF_D000, 0xFFFF_FFFF_FFFF_E000, 0xFFFF_FFFF_FFFF_F000].map(|base| region.relocation_base_valid(base));
    assert_eq!(ends, [Valid, AboveMaximum, AboveMaximum], "2^64 - 0x1000, 2^64, 2^64 + 0x1000");
}

#[test]
fn a_base_is_a_multiple_of_any_alignment() {
    let check = |alignment, base| loose(0, 0, alignment, 0, u64::MAX).relocation_base_valid(base);
    for place in 0..64 {
        let power = 1 << place;
        assert_eq!([0, power, 0u64.wrapping_sub(power)].map(|base| check(power, base)), [Valid; 3], "2^{place}");
        assert!((0..place).all(|bit| check(power, power | 1 << bit) == Unaligned), "2^{place}, with a lower bit");
    }
    for alignment in [0x3000, 0x5000, 0xFFF, (1 << 63) - 1, (1 << 63) + 0x1000] {
        assert_eq!(check(alignment, alignment), Valid, "{alignment:#x} has a bit of the number below it");
        assert_eq!(check(alignment, 0u64.wrapping_sub(alignment)), Unaligned, "2^64 - {alignment:#x} has none, and is no multiple");
    }
}

#[test]
fn a_regions_methods_are_the_sums_in_128_bits() {
    let mut state = 1;
    let (mut answers, mut contained) = (HashMap::from([Valid, Unaligned, BelowMinimum, AboveMaximum].map(|check| (check, 0))), 0);
    for _ in 0..100_000 {
        let [base, size, alignment, minimum, maximum, at] = [(); 6].map(|()| random_gpa(&mut state));
        let region = loose(base, size, alignment, minimum, maximum);
        let [size, maximum] = [size, maximum].map(u128::from);
        let expected = match () {
            // of alignment 0 only 0 is a multiple
            () if at.checked_rem(alignment).unwrap_or(at) != 0 => Unaligned,
            () if at < minimum => BelowMinimum,
            () if u128::from(at) + size > maximum => AboveMaximum,
            () => Valid,
        };
        assert_eq!(region.relocation_base_valid(at), expected, "{region:x?} {at:#x}");
        let inside = base <= at && u128::from(at) < u128::from(base) + size;
        assert_eq!(region.contains(at), inside, "{region:x?} {at:#x}");
        *answers.get_mut(&expected).unwrap() += 1;
        contained += u32::from(inside);
    }
    assert!(answers.values().all(|&times| times > 1000) && contained > 1000 && contained < 99_000, "{answers:?} {contained}");
}

/// A small number, one near 2^64, or a power of two.
fn random_gpa(state: &mut u64) -> u64 {
    *state = state.wrapping_mul(6364136223846793005).wrapping_add(1442695040888963407);
    let number = *state >> 33;
    match number % 3 {
        0 => number / 3 % 8,
        1 => u64::MAX - number / 3 % 8,
        _ => 1 << (number / 3 % 64),
    }
}

#[test]
fn a_regions_words_make_the_region_again() {
    for region in relocations(&several(), 1).unwrap().regions.into_iter().chain([loose(1, 2 << 40, 3, 4, u64::MAX)]) {
        assert_eq!(IgvmRelocatableRegion::from_words(&region.to_words()), Some(region));
    }
    let mut lent = [0; 2 * REGION_BYTES];
    relocations_into(&several(), 1, &mut lent).unwrap();
    assert_eq!(lent[..REGION_BYTES], relocations(&several(), 1).unwrap().regions[0].to_words());
}

#[test]
fn empty_input_is_refused_by_every_call() {
    let refusal = Refusal::from_numbers(1, 0, 0);
    assert_eq!(verdict(&[]), Err(refusal));
    assert_eq!(strict_verdict(&[]), Err(refusal));
    assert_eq!(report(&[]), Err(refusal));
    assert_eq!(report_into(&[], &mut []), Err(refusal));
    assert_eq!(relocations(&[], 1), Err(refusal));
    assert_eq!(relocations_into(&[], 1, &mut []), Err(refusal));
    assert_eq!(relocation_base_valid(&[], 1, 0, 0), Err(refusal));
    assert_eq!(relocation_base_range(&[], 1, 0, 0, 0), Err(refusal));
    assert_eq!(contains(&[], 1, 0, 0), Err(refusal));
    assert_eq!(region_of(&[], 1, 0), Err(refusal));
    assert_eq!(region_index_into(&[], 1, &mut []), Err(refusal));
    assert_eq!(RegionIndex::new(&[], 1), Err(refusal));
}
