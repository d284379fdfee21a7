//! The answers of the check of a range of bases: each up to its bounds, beside the base check of each multiple, and the order of its refusals.

mod common;
mod random;

use common::{bounded_region, image_b, image_with, region};
use random::Random;
use sapyullu::BaseRange::{Always, Never, Sometimes};
use sapyullu::*;

/// The highest multiple of 4096, and the highest maximum that a region can have.
const TOP: u64 = 0xFFFF_FFFF_FFFF_F000;

/// The sheet of image B, whose region has this alignment, size, minimum and maximum. It lies at 0, which is a multiple of every alignment.
fn sheet(alignment: u64, size: u64, minimum: u64, maximum: u64) -> Vec<u8> {
    image_with(bounded_region(alignment, 0, size, minimum, maximum)).bytes().unwrap()
}

/// What the sheet says of the range, for region 0 of mask 1.
fn range(sheet: &[u8], lowest: u64, highest: u64) -> BaseRange {
    relocation_base_range(sheet, 1, 0, lowest, highest).unwrap()
}

/// What the base checks of each multiple say of the range.
fn tried(sheet: &[u8], alignment: u64, lowest: u64, highest: u64) -> BaseRange {
    let multiples = (0..).map_while(|number| alignment.checked_mul(number)).skip_while(|&base| base < lowest);
    let valid: Vec<bool> =
        multiples.take_while(|&base| base <= highest).map(|base| relocation_base_valid(sheet, 1, 0, base).unwrap().is_valid()).collect();
    match (valid.contains(&true), valid.contains(&false)) {
        (true, false) => Always,
        (true, true) => Sometimes,
        (false, _) => Never,
    }
}

#[test]
fn each_answer_up_to_its_bound() {
    let sheet = sheet(0x1000, 0x2000, 0x10_0000, 0x20_0000);
    let range = |(lowest, highest)| range(&sheet, lowest, highest);
    assert_eq!(
        [(0x10_0000, 0x1F_E000), (0x10_1000, 0x1F_D000)].map(range),
        [Always; 2],
        "from the minimum to where the end is the maximum"
    );
    assert_eq!([(0xF_F000, 0x1F_E000), (0x10_0000, 0x1F_F000)].map(range), [Sometimes; 2], "one multiple more");
    assert_eq!([(0, 0x10_0000), (0x1F_E000, u64::MAX), (0, u64::MAX)].map(range), [Sometimes; 3]);
    assert_eq!([(0, 0xF_F000), (0x1F_F000, u64::MAX)].map(range), [Never; 2], "all below, and all above");
}

#[test]
fn the_ends_need_not_be_multiples_and_only_multiples_count() {
    let sheet = sheet(0x1000, 0x2000, 0x10_0000, 0x20_0000);
    let range = |(lowest, highest)| range(&sheet, lowest, highest);
    assert_eq!([(0xF_F001, 0x1F_EFFF), (0xF_F001, 0x1F_E000), (0x10_0000, 0x1F_EFFF)].map(range), [Always; 3]);
    assert_eq!([(0xF_F000, 0x1F_EFFF), (0xF_F001, 0x1F_F000)].map(range), [Sometimes; 2], "an end is a multiple that is not valid");
    assert_eq!([(1, 0xF_FFFF), (0x1F_E001, u64::MAX)].map(range), [Never; 2]);
}

#[test]
fn one_multiple_in_the_range() {
    let sheet = sheet(0x1000, 0x2000, 0x10_0000, 0x10_2000);
    let range = |(lowest, highest)| range(&sheet, lowest, highest);
    assert_eq!([(0x10_0000, 0x10_0000), (0xF_F001, 0x10_0FFF), (0xF_FFFF, 0x10_0001)].map(range), [Always; 3], "the one that is valid");
    assert_eq!([(0xF_F000, 0xF_FFFF), (0x10_0001, 0x10_1FFF), (0, 0xFFF), (TOP, u64::MAX)].map(range), [Never; 4]);
}

#[test]
fn no_multiple_in_the_range() {
    let sheet = sheet(0x1000, 0x2000, 0, TOP);
    let range = |(lowest, highest)| range(&sheet, lowest, highest);
    assert_eq!([(1, 0xFFF), (0x10_0001, 0x10_0FFF), (0x10_0800, 0x10_0800)].map(range), [Never; 3], "between two that are valid");
    assert_eq!([(TOP + 1, u64::MAX), (u64::MAX, u64::MAX)].map(range), [Never; 2], "the next multiple is 2^64");
    assert_eq!([(0, 0xFFF), (1, 0x1000)].map(range), [Always; 2]);
}

#[test]
fn no_base_is_valid_where_the_minimum_is_above_the_maximum_or_the_size_is() {
    for sheet in [sheet(0x1000, 0x2000, 0x30_0000, 0x20_0000), sheet(0x1000, 0x2000, 0, 0x1000), sheet(0x1000, 0x2000, 0x1000, 0x2000)] {
        let range = |(lowest, highest)| range(&sheet, lowest, highest);
        assert_eq!([(0, u64::MAX), (0, 0), (0x25_0000, 0x25_0000), (0x10_0000, 0x40_0000)].map(range), [Never; 4]);
    }
}

#[test]
fn the_ends_are_exact_sums() {
    let sheet = sheet(0x1000, 0x2000, 0, TOP);
    let range = |(lowest, highest)| range(&sheet, lowest, highest);
    assert_eq!([(0, TOP - 0x2000), (TOP - 0x2000, TOP - 0x1001)].map(range), [Always; 2], "2^64 - 0x1000");
    assert_eq!([(0, TOP - 0x1000), (TOP - 0x2000, TOP - 0x1000), (0, u64::MAX)].map(range), [Sometimes; 3], "2^64, 2^64 + 0x1000");
    assert_eq!([(TOP - 0x1000, TOP - 0x1000), (TOP - 0x1000, u64::MAX), (TOP, TOP)].map(range), [Never; 3]);
}

#[test]
fn an_alignment_that_is_no_power_of_two() {
    let sheet = sheet(0x3000, 0x2000, 0x3000, 0x30_0000);
    let range = |(lowest, highest)| range(&sheet, lowest, highest);
    assert_eq!([(1, 0x2F_FFFF), (0x3000, 0x2F_D000), (0x1000, 0x5FFF), (0x9000, 0x9000)].map(range), [Always; 4]);
    assert_eq!([(0, 0x3000), (0x3000, 0x30_0000), (0, u64::MAX)].map(range), [Sometimes; 3]);
    assert_eq!([(0x4000, 0x5000), (0x3001, 0x5FFF), (0x1_0000, 0x1_0000)].map(range), [Never; 3], "of three pages one is a multiple");
    assert_eq!([(0, 0x2FFF), (0x30_0000, u64::MAX)].map(range), [Never; 2]);
}

#[test]
fn alignments_up_to_the_highest() {
    let half = sheet(1 << 63, 0x2000, 0, 1 << 63);
    assert_eq!([(0, 0), (0, 1), (0, (1 << 63) - 1)].map(|(lowest, highest)| range(&half, lowest, highest)), [Always; 3]);
    assert_eq!([(0, 1 << 63), (0, u64::MAX)].map(|(lowest, highest)| range(&half, lowest, highest)), [Sometimes; 2]);
    assert_eq!([(1, u64::MAX), (1, 1)].map(|(lowest, highest)| range(&half, lowest, highest)), [Never; 2]);
    let top = sheet(TOP, 0x1000, 0, TOP);
    assert_eq!(
        [(0, TOP - 1), (0, TOP), (1, u64::MAX), (1, 1)].map(|(lowest, highest)| range(&top, lowest, highest)),
        [Always, Sometimes, Never, Never]
    );
}

#[test]
fn a_range_of_one_base_answers_as_the_base_check() {
    for (alignment, size, minimum, maximum) in [
        (0x1000, 0x2000, 0x10_0000, 0x20_0000),
        (0x1000, 0x2000, 0x30_0000, 0x20_0000),
        (0x3000, 0x5000, 0x6000, 0x30_0000),
        (0x1000, 0x2000, 0, TOP),
        (1 << 63, 0x1000, 0, 1 << 63),
    ] {
        let sheet = sheet(alignment, size, minimum, maximum);
        let marks = [0, minimum, maximum, maximum.wrapping_sub(size), alignment, 0x1_0000, 0x10_0000, 1 << 63, TOP, u64::MAX];
        let steps = [0, 1, 0x800, 0xFFF, 0x1000, 0x1001, 0x2000, 0x3000];
        for base in
            marks.into_iter().flat_map(|mark| steps.into_iter().flat_map(move |step| [mark.wrapping_sub(step), mark.wrapping_add(step)]))
        {
            let valid = relocation_base_valid(&sheet, 1, 0, base).unwrap().is_valid();
            assert_eq!(range(&sheet, base, base), if valid { Always } else { Never }, "{base:#x}");
        }
    }
}

#[test]
fn a_small_range_answers_as_the_base_checks_of_its_multiples() {
    let mut answers = [0; 3];
    for alignment in [0x1000, 0x3000, 0x5000] {
        for (size, minimum, maximum) in [(1, 0, 6), (1, 1, 5), (3, 2, 5), (2, 2, 4), (4, 1, 3), (1, 5, 2)] {
            let sheet = sheet(alignment, 0x1000 * size, alignment * minimum, alignment * maximum);
            let places = (0..8).flat_map(|number| [alignment * number, alignment * number + 1, alignment * (number + 1) - 1]);
            for (lowest, highest) in places.clone().flat_map(|lowest| places.clone().map(move |highest| (lowest, highest))) {
                if lowest <= highest {
                    let expected = tried(&sheet, alignment, lowest, highest);
                    assert_eq!(
                        range(&sheet, lowest, highest),
                        expected,
                        "{alignment:#x} {size} {minimum} {maximum}: {lowest:#x} to {highest:#x}"
                    );
                    answers[expected.number() as usize - 1] += 1;
                }
            }
        }
    }
    assert!(answers.into_iter().all(|times| times > 100), "{answers:?}");
}

#[test]
fn a_wide_range_answers_as_the_base_checks_of_its_multiples() {
    let mut random = Random(1);
    let mut answers = [0; 3];
    for _ in 0..20_000 {
        // Of an alignment of 2^60 and above there are at most sixteen multiples.
        let alignment = (random.word() >> random.below(4) | 1 << 60) & TOP;
        let numbers = u64::MAX / alignment + 1;
        let [minimum, maximum, near] = [random.word(), random.word(), random.word()].map(|number| alignment * (number % numbers));
        let size = [0x1000, alignment, random.word() & TOP, random.word() >> 8 & TOP][random.below(4) as usize].max(0x1000);
        let sheet = sheet(alignment, size, minimum, maximum);
        let places = [0, minimum, maximum.wrapping_sub(size), near, near.wrapping_sub(1), near + 1, random.word(), u64::MAX];
        let [one, other] = [random.word(), random.word()].map(|number| places[(number % 8) as usize]);
        let (lowest, highest) = (one.min(other), one.max(other));
        let expected = tried(&sheet, alignment, lowest, highest);
        let said = range(&sheet, lowest, highest);
        assert_eq!(said, expected, "{alignment:#x} {size:#x} {minimum:#x} {maximum:#x}: {lowest:#x} to {highest:#x}");
        answers[expected.number() as usize - 1] += 1;
    }
    assert!(answers.into_iter().all(|times| times > 1000), "{answers:?}");
}

#[test]
fn a_lowest_above_the_highest_is_refused_after_the_mask_and_the_region() {
    let b = image_b().bytes().unwrap();
    let refused = |mask, region, lowest, highest| relocation_base_range(&b, mask, region, lowest, highest).unwrap_err();
    for (lowest, highest) in [(1, 0), (0x10_0001, 0x10_0000), (u64::MAX, u64::MAX - 1), (u64::MAX, 0)] {
        assert_eq!(refused(1, 0, lowest, highest), Refusal::from_numbers(50, 0, 0));
        assert_eq!(refused(0, 1, lowest, highest), Refusal::from_numbers(35, 0, 0), "the mask is 0, and it has no region 1");
        assert_eq!(refused(1, 1, lowest, highest), Refusal::from_numbers(36, 0, 0));
        assert_eq!(refused(2, 0, lowest, highest), Refusal::from_numbers(36, 0, 0));
        let wrong = image_with(region(0x10_0800, 0x2000)).bytes().unwrap();
        assert_eq!(relocation_base_range(&wrong, 0, 1, lowest, highest), Err(verdict(&wrong).unwrap_err()), "the verdict's comes first");
    }
    assert_eq!(refused(1, 0, 1, 0).error, Error::LowestAboveHighest);
    assert_eq!(refused(1, u64::MAX, 0, 0).error, Error::NoSuchRegion);
    assert_eq!(refused(1, 0, 1, 0).to_string(), "refusal 50 (LowestAboveHighest): the range's lowest base is above its highest");
}

#[test]
fn the_region_is_the_masks_of_this_number() {
    let mut sheet = image_b();
    sheet.initialization_headers.push(region(0x20_0000, 0x10_0000));
    let sheet = sheet.bytes().unwrap();
    let range = |region| relocation_base_range(&sheet, 1, region, 0, 0x1F_E000).unwrap();
    assert_eq!([0, 1].map(range), [Always, Sometimes]);
}

#[test]
fn an_answer_has_its_number_and_its_words() {
    let said = [Always, Never, Sometimes].map(|range| (range.number(), range.to_string()));
    assert_eq!(said, [(1, "always"), (2, "never"), (3, "sometimes")].map(|(number, words)| (number, words.to_string())));
}
