//! Which queries are made of a sheet: masks, region numbers, bases, addresses, ranges of bases and lent lengths, all of them at boundaries.

use crate::compare::Call;
use crate::owner::ENTRY;
use crate::paper;
use crate::random::Random;
use crate::sheet::Image;

/// A mask's regions, as document 01 has them.
struct Regions {
    mask: u32,
    words: Vec<[u64; 8]>,
}

fn regions(sheet: &[u8], mask: u32) -> Regions {
    let mut lent = [0; 64 * 64];
    let count = paper::relocations(sheet, mask, &mut lent)[3] as usize;
    let word = |at: usize| u64::from_le_bytes(lent[8 * at..8 * at + 8].try_into().unwrap());
    let words = (0..count).map(|region| std::array::from_fn(|k| word(8 * region + k))).collect();
    Regions { mask, words }
}

/// 0, single bits and several bits, of the initialization rows and beside them.
pub fn masks(sheet: &[u8]) -> Vec<u32> {
    let rows = Image::parse(sheet).map_or(Vec::new(), |image| image.lists[1].clone());
    let of_rows: Vec<u32> = rows.iter().filter_map(|row| row.get("mask")).map(|mask| mask as u32).collect();
    let all = of_rows.iter().fold(0, |union, mask| union | mask);
    let mut masks = vec![0, 1, all, all & all.wrapping_sub(1), 1 << (all.trailing_zeros() % 32), u32::MAX, 1 << 31];
    masks.extend(of_rows.iter().copied().filter(|mask| mask.count_ones() > 1).take(3));
    masks.extend((0..32).map(|place| 1 << place).filter(|bit| all & bit != 0).take(4));
    masks.sort_unstable();
    masks.dedup();
    masks
}

fn region_numbers(count: u64) -> [u64; 6] {
    [0, count.saturating_sub(1), count, 1 << 32, (1 << 32) + count.saturating_sub(1), u64::MAX]
}

fn lent_lengths(count: usize) -> [usize; 9] {
    [0, 7, 8, 63, 64, (64 * count).saturating_sub(1), 64 * count, 64 * count + 5, 64 * count + 64]
}

/// Bases about the ends of what is valid, and of what is below 2^64; half the alignment; and such as differ from a multiple in one bit, or have none of the
/// bits of the alignment less one.
pub fn bases(region: Option<&[u64; 8]>) -> Vec<u64> {
    let Some(&[gpa, size, alignment, minimum, maximum, ..]) = region else { return vec![0, u64::MAX] };
    let last = maximum.wrapping_sub(size);
    let sum_ends = 0u64.wrapping_sub(size);
    let mut bases = vec![0, gpa, minimum, last, sum_ends, u64::MAX];
    for near in [minimum, last, sum_ends] {
        bases.extend([near.wrapping_sub(alignment), near.wrapping_add(alignment), near.wrapping_sub(1), near.wrapping_add(1)]);
    }
    bases.extend([last, sum_ends, u64::MAX].map(|near| near - near.checked_rem(alignment).unwrap_or(0)));
    let (highest_bit, low_bits) = (alignment.checked_ilog2().map_or(0, |place| 1 << place), alignment.wrapping_sub(1));
    bases.extend([alignment / 2, gpa ^ highest_bit, gpa ^ highest_bit / 2, minimum ^ highest_bit / 2]);
    bases.extend([low_bits.wrapping_add(1) & !low_bits, last & !low_bits]);
    bases
}

/// Addresses about a region's ends.
pub fn addresses(region: Option<&[u64; 8]>) -> Vec<u64> {
    let Some(&[gpa, size, ..]) = region else { return vec![0, u64::MAX] };
    let end = gpa.wrapping_add(size);
    vec![0, gpa.wrapping_sub(1), gpa, gpa.wrapping_add(1), end.wrapping_sub(1), end, end.wrapping_add(1), u64::MAX]
}

/// Addresses about the ends of the regions of any mask and of either kind, about that of a page table's used part, and in the middle; 0 and 2^64 - 1.
pub fn region_addresses(sheet: &[u8]) -> Vec<u64> {
    let mut all = vec![0, u64::MAX];
    for row in Image::parse(sheet).iter().flat_map(|image| &image.lists[1]) {
        if let (18 | 19, Some(gpa), Some(size)) = (row.kind, row.get("gpa"), row.get("size")) {
            let (end, used) = (gpa.wrapping_add(size), gpa.wrapping_add(row.get("used").unwrap_or(size / 2)));
            all.extend([gpa.wrapping_sub(1), gpa, used.wrapping_sub(1), used, end.wrapping_sub(1), end]);
        }
    }
    all.sort_unstable();
    all.dedup();
    all
}

/// Lengths that are lent for an index of so many regions.
fn index_lengths(count: usize) -> [usize; 11] {
    let all = ENTRY * count;
    let [byte, word, entry] = [1, 8, ENTRY].map(|fewer| all.saturating_sub(fewer));
    [0, 7, 8, byte, word, entry, all, all + 1, all + 8, all + 21, all + ENTRY]
}

/// How many regions of either kind a mask has.
fn index_count(sheet: &[u8], mask: u32) -> usize {
    paper::region_index(sheet, mask, &mut [0; 64 * ENTRY])[3] as usize
}

/// The highest multiple of an alignment below 2^64.
fn highest_multiple(alignment: u64) -> u64 {
    u64::MAX - u64::MAX.checked_rem(alignment).unwrap_or(0)
}

/// Every range of bases with both ends about the ends of what is valid, at 0, about the highest multiple or at 2^64 - 1, also from above down.
fn ranges(region: Option<&[u64; 8]>) -> Vec<(u64, u64)> {
    let Some(&[_, size, alignment, minimum, maximum, ..]) = region else { return vec![(0, u64::MAX), (1, 0)] };
    let last = maximum.wrapping_sub(size);
    let about_last = [last, last.wrapping_add(1), highest_multiple(alignment).wrapping_add(1), u64::MAX];
    let mut ends = [0, minimum.wrapping_sub(1), minimum, minimum.saturating_add(alignment)].to_vec();
    ends.extend(about_last);
    ends.sort_unstable();
    ends.dedup();
    ends.iter().flat_map(|&lowest| ends.iter().map(move |&highest| (lowest, highest))).collect()
}

/// A range of bases: its ends about the ends of what is valid or about few multiples further on, at 0 or 2^64 - 1. One in sixteen may be from above down.
pub fn some_range(random: &mut Random, region: Option<&[u64; 8]>) -> (u64, u64) {
    let Some(&[_, size, alignment, minimum, maximum, ..]) = region else { return random.pick(&ranges(None)) };
    let known = bases(region);
    let beside = |random: &mut Random| random.pick(&[0, 0, 0, 1, u64::MAX, alignment / 2, alignment.wrapping_sub(1), 0x1000]);
    let steps = |random: &mut Random, most: usize| alignment.saturating_mul(random.below(most) as u64);
    let place = random.pick(&[minimum, maximum.wrapping_sub(size), 0, highest_multiple(alignment)]);
    let (lowest, highest) = match random.below(8) {
        0 => (0, random.pick(&known)),
        1 => (random.pick(&known), u64::MAX),
        2 => (highest_multiple(alignment).wrapping_add(beside(random)), u64::MAX),
        3 => (random.pick(&known), random.pick(&known)),
        _ => {
            let lowest = place.saturating_sub(steps(random, 4)).wrapping_add(beside(random));
            (lowest, place.saturating_add(steps(random, 5)).wrapping_sub(beside(random)))
        }
    };
    if random.one_in(16) {
        return (lowest, highest);
    }
    (lowest.min(highest), lowest.max(highest))
}

/// Every query of every mask.
pub fn all(sheet: &[u8]) -> Vec<Call> {
    let mut calls = Vec::new();
    for mask in masks(sheet) {
        let found = regions(sheet, mask);
        calls.extend(lent_lengths(found.words.len()).map(|lent| Call::Relocations { mask, lent }));
        for region in region_numbers(found.words.len() as u64) {
            let words = found.words.get(region as usize);
            calls.extend(bases(words).into_iter().map(|base| Call::BaseValid { mask, region, base }));
            calls.extend(addresses(words).into_iter().map(|gpa| Call::Contains { mask, region, gpa }));
            calls.extend(ranges(words).into_iter().map(|(lowest, highest)| Call::BaseRange { mask, region, lowest, highest }));
        }
        calls.extend(region_addresses(sheet).into_iter().map(|gpa| Call::RegionOf { mask, gpa }));
        calls.extend(index_lengths(index_count(sheet, mask)).map(|lent| Call::RegionIndex { mask, lent }));
    }
    calls
}

/// A few queries of an accepted sheet.
pub fn some(random: &mut Random, sheet: &[u8]) -> Vec<Call> {
    let masks = masks(sheet);
    let mut calls = Vec::new();
    for _ in 0..2 {
        let found = regions(sheet, random.pick(&masks));
        let mask = found.mask;
        calls.push(Call::Relocations { mask, lent: random.pick(&lent_lengths(found.words.len())) });
        let region = a_region(random, found.words.len());
        let words = found.words.get(region as usize);
        calls.push(Call::BaseValid { mask, region, base: random.pick(&bases(words)) });
        calls.push(Call::Contains { mask, region, gpa: random.pick(&addresses(words)) });
        let (lowest, highest) = some_range(random, words);
        calls.push(Call::BaseRange { mask, region, lowest, highest });
    }
    let addresses = region_addresses(sheet);
    for _ in 0..2 {
        let (mask, any) = (random.pick(&masks), random.next());
        let gpa = if random.one_in(16) { any } else { random.pick(&addresses) };
        calls.push(Call::RegionOf { mask, gpa });
        calls.push(Call::RegionIndex { mask, lent: random.pick(&index_lengths(index_count(sheet, mask))) });
    }
    calls
}

/// Mostly the number of a region that is there.
fn a_region(random: &mut Random, count: usize) -> u64 {
    if count == 0 || random.one_in(5) {
        return random.pick(&region_numbers(count as u64));
    }
    random.below(count) as u64
}

/// Two queries of a refused sheet, of which one is of an address or for an index: whatever is asked, the answer is the verdict's refusal.
pub fn two(random: &mut Random) -> Vec<Call> {
    let query = one(random);
    let mask = random.pick(&[0, 1, 2, 3, u32::MAX]);
    let by_address = match random.below(2) {
        0 => Call::RegionOf { mask, gpa: random.pick(&[0, 0x100000, u64::MAX]) },
        _ => Call::RegionIndex { mask, lent: random.pick(&[0, 7, 8, 24, 200]) },
    };
    vec![query, by_address]
}

/// One query of another sort.
fn one(random: &mut Random) -> Call {
    let mask = random.pick(&[0, 1, 2, 3, u32::MAX]);
    match random.below(5) {
        0 | 1 => Call::Relocations { mask, lent: random.pick(&[0, 7, 8, 64, 200]) },
        2 => Call::BaseValid { mask, region: random.pick(&[0, 1, u64::MAX]), base: random.pick(&[0, 0x1000]) },
        3 => Call::Contains { mask, region: random.pick(&[0, 1, u64::MAX]), gpa: random.pick(&[0, 0x100000]) },
        _ => {
            let (lowest, highest) = random.pick(&[(0, u64::MAX), (0x1000, 0x1000), (1, 0)]);
            Call::BaseRange { mask, region: random.pick(&[0, 1, u64::MAX]), lowest, highest }
        }
    }
}
