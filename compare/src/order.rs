//! Demand 3 by running: sheets reordered as it allows get the same answers, and each of its two order conditions is needed.

use crate::compare::{plain_alike, Call};
use crate::random::Random;
use crate::run::on_threads;
use crate::sheet::{fields_length, hex, Image, Row};
use crate::{generate, large, owner, plan};
use calls::Calls;
use std::collections::BTreeMap;

/// A sheet, the same sheet reordered, and for each list where row i of the first stands in the second.
struct Reordered {
    a: Image,
    b: Image,
    to: [Vec<usize>; 3],
}

/// One image of so many is large.
const LARGE_SHARE: u64 = 500;

#[derive(Default)]
struct Counts {
    reordered: u64,
    /// of more than 1,024 directive rows
    large: u64,
    accepted: u64,
    strictly_accepted: u64,
    refused_by_38: u64,
    /// of these, those with another row, and those with another detail
    other_rows: u64,
    other_details: u64,
    regions: u64,
    bases: u64,
    ranges: u64,
    addresses: u64,
    /// of these, those that a region has, and of them those with another row
    owned: u64,
    other_owners: u64,
    platform_swaps: u64,
    platform_swaps_differ: u64,
    area_swaps: u64,
    area_swaps_differ: u64,
}

impl Counts {
    fn add(&mut self, other: &Counts) {
        self.reordered += other.reordered;
        self.large += other.large;
        self.accepted += other.accepted;
        self.strictly_accepted += other.strictly_accepted;
        self.refused_by_38 += other.refused_by_38;
        self.other_rows += other.other_rows;
        self.other_details += other.other_details;
        self.regions += other.regions;
        self.bases += other.bases;
        self.ranges += other.ranges;
        self.addresses += other.addresses;
        self.owned += other.owned;
        self.other_owners += other.other_owners;
        self.platform_swaps += other.platform_swaps;
        self.platform_swaps_differ += other.platform_swaps_differ;
        self.area_swaps += other.area_swaps;
        self.area_swaps_differ += other.area_swaps_differ;
    }
}

pub fn run(calls: &Calls, seed: u64, cases: u64, threads: usize) -> Result<(), String> {
    let start = std::time::Instant::now();
    let mut counts = Counts::default();
    for part in on_threads(threads, |first| images(calls, seed, (first..cases).step_by(threads))) {
        counts.add(&part?);
    }
    let c = &counts;
    println!(
        "order: {} sheets reordered as demand 3 allows, {} of them accepted, {} of more than 1,024 directive rows, agree;
  {} paired regions, {} bases, {} ranges of bases",
        c.reordered, c.accepted, c.large, c.regions, c.bases, c.ranges
    );
    println!(
        "  {} strictly accepted, {} refused by 38, {} of these with another row and {} with another bit in the other order",
        c.strictly_accepted, c.refused_by_38, c.other_rows, c.other_details
    );
    println!(
        "  {} addresses, {} of them in a region, {} of these with another row in the other order",
        c.addresses, c.owned, c.other_owners
    );
    println!("  two platforms of one mask swapped: {} times, the verdict differs {} times", c.platform_swaps, c.platform_swaps_differ);
    println!(
        "  two directives of one area swapped: {} times, the verdict differs {} times; {:.1?}",
        c.area_swaps,
        c.area_swaps_differ,
        start.elapsed()
    );
    let must_be_met = [c.accepted, c.strictly_accepted, c.refused_by_38, c.other_rows, c.other_owners];
    let must_be_met = [&must_be_met[..], &[c.platform_swaps_differ, c.area_swaps_differ]].concat();
    if must_be_met.contains(&0) || c.accepted == c.reordered || c.owned == c.addresses {
        return Err("order: some of these counts may not be 0, and some sheets must be refused".into());
    }
    Ok(())
}

fn images(calls: &Calls, seed: u64, cases: impl Iterator<Item = u64>) -> Result<Counts, String> {
    let mut counts = Counts::default();
    for case in cases {
        let mut random = Random::new(seed ^ 0x6F72_6465_7200, case);
        let image = match case % LARGE_SHARE {
            0 => large::readable_image(&mut random),
            _ => generate::readable_image(&mut random, &[0, 0, 0, 1, 2]),
        };
        counts.large += u64::from(image.lists[2].len() > 1024);
        let reordered = reorder(&mut random, image);
        same_answers(calls, &mut random, &reordered, &mut counts).map_err(|what| {
            let [a, b] = [&reordered.a, &reordered.b].map(|image| hex(&image.bytes()));
            format!("order, case {case}: {what}\n  a: {a}\n  b: {b}")
        })?;
        swapped(calls, &mut random, &reordered.a, &mut counts).map_err(|what| format!("order, case {case}, two rows swapped: {what}"))?;
    }
    Ok(counts)
}

// ---- reordering

/// Which rows keep their order: platform rows of equal mask, and directive rows naming one area.
fn tie(list: usize, row: &Row) -> Option<u64> {
    match list {
        0 => row.get("mask"),
        1 => None,
        _ => row.area(),
    }
}

fn reorder(random: &mut Random, a: Image) -> Reordered {
    let mut b = a.clone();
    let to = [0, 1, 2].map(|list| {
        let order = allowed_order(random, list, &a.lists[list]);
        b.lists[list] = order.iter().map(|&at| with_other_bytes(random, &a.lists[list][at])).collect();
        places_in(&order)
    });
    Reordered { a, b, to }
}

/// The rows that keep their order among each other, by what ties them.
pub fn tied_rows(list: usize, rows: &[Row]) -> BTreeMap<u64, Vec<usize>> {
    let mut tied: BTreeMap<u64, Vec<usize>> = BTreeMap::new();
    for (at, row) in rows.iter().enumerate() {
        if let Some(tie) = tie(list, row) {
            tied.entry(tie).or_default().push(at);
        }
    }
    tied
}

/// Where each of these numbers stands among them.
fn places_in(order: &[usize]) -> Vec<usize> {
    let mut places = vec![0; order.len()];
    for (place, &at) in order.iter().enumerate() {
        places[at] = place;
    }
    places
}

/// A random order of the rows in which tied rows stand as they did: among the places that tied rows got, they are sorted.
fn allowed_order(random: &mut Random, list: usize, rows: &[Row]) -> Vec<usize> {
    let mut order: Vec<usize> = (0..rows.len()).collect();
    random.shuffle(&mut order);
    let place_of = places_in(&order);
    for tied in tied_rows(list, rows).into_values() {
        let mut places: Vec<usize> = tied.iter().map(|&at| place_of[at]).collect();
        places.sort_unstable();
        for (place, at) in places.into_iter().zip(tied) {
            order[place] = at;
        }
    }
    order
}

/// The row with other data and opaque bytes of the same length.
fn with_other_bytes(random: &mut Random, row: &Row) -> Row {
    let mut other = row.clone();
    for byte in &mut other.body[fields_length(row.kind)..] {
        *byte = random.next() as u8;
    }
    other
}

// ---- the same answers

fn number(calls: &Calls, sheet: &[u8], call: Call, which: u32) -> u64 {
    call.ask(calls, sheet, &mut [], which)
}

fn is_accepted(calls: &Calls, sheet: &[u8]) -> bool {
    number(calls, sheet, Call::Verdict, 0) == 0
}

fn same_answers(calls: &Calls, random: &mut Random, r: &Reordered, counts: &mut Counts) -> Result<(), String> {
    let (a, b) = (r.a.bytes(), r.b.bytes());
    counts.reordered += 1;
    plain_alike(&a)?;
    plain_alike(&b)?;
    if (1..=6).contains(&number(calls, &b, Call::Verdict, 0)) {
        return Err("the reordered sheet is not readable".into());
    }
    if is_accepted(calls, &a) != is_accepted(calls, &b) {
        return Err("one is accepted, the other is not".into());
    }
    same_strict_verdict(calls, &a, &b, counts)?;
    if !is_accepted(calls, &a) {
        return Ok(());
    }
    counts.accepted += 1;
    for mask in masks(random, &r.a) {
        same_owners(calls, random, r, (&a, &b, mask), counts)?;
        if let Some((words_a, words_b)) = same_list(calls, random, mask, &a, &b)? {
            sound(&r.a, mask, &words_a, calls, &a)?;
            for i in (0..r.a.lists[1].len()).filter(|&i| is_region(&r.a.lists[1][i], mask)) {
                let (n, m) = (number_in(&r.a, mask, i), number_in(&r.b, mask, r.to[1][i]));
                counts.regions += 1;
                if words_a[64 * n..64 * n + 64] != words_b[64 * m..64 * m + 64] {
                    return Err(format!("mask {mask}: regions {n} and {m} have other words"));
                }
                counts.bases += same_bases(calls, mask, (&a, n), (&b, m), &bases(random, &r.a.lists[1][i]))?;
                counts.ranges += same_ranges(calls, mask, (&a, n), (&b, m), &ranges(random, &r.a.lists[1][i]))?;
            }
        }
    }
    Ok(())
}

/// Both are strictly accepted, or both refused: by 38, whose row and bit may differ, or as the verdict refuses.
fn same_strict_verdict(calls: &Calls, a: &[u8], b: &[u8], counts: &mut Counts) -> Result<(), String> {
    let [of_a, of_b] = [a, b].map(|sheet| [0, 1, 2].map(|which| number(calls, sheet, Call::StrictVerdict, which)));
    match (of_a[0], of_b[0]) {
        (0, 0) => counts.strictly_accepted += 1,
        (38, 38) => {
            counts.refused_by_38 += 1;
            counts.other_rows += u64::from(of_a[1] != of_b[1]);
            counts.other_details += u64::from(of_a[2] != of_b[2]);
        }
        (0 | 38, _) | (_, 0 | 38) => return Err(format!("the strict verdicts are {of_a:?} and {of_b:?}")),
        _ => {}
    }
    Ok(())
}

/// The base check of paired regions, each by its number in its own sheet, says the same. Gives the number of bases.
fn same_bases(calls: &Calls, mask: u32, a: (&[u8], usize), b: (&[u8], usize), bases: &[u64]) -> Result<u64, String> {
    for &base in bases {
        let check = |(sheet, region): (&[u8], usize), which: u32| {
            number(calls, sheet, Call::BaseValid { mask, region: region as u64, base }, which)
        };
        if (0..4).any(|which| check(a, which) != check(b, which)) {
            return Err(format!("mask {mask}: base {base:#x} of regions {} and {}", a.1, b.1));
        }
    }
    Ok(bases.len() as u64)
}

/// The answers over ranges of bases of paired regions likewise. Gives the number of ranges.
fn same_ranges(calls: &Calls, mask: u32, a: (&[u8], usize), b: (&[u8], usize), ranges: &[(u64, u64)]) -> Result<u64, String> {
    for &(lowest, highest) in ranges {
        let check = |(sheet, region): (&[u8], usize), which: u32| {
            number(calls, sheet, Call::BaseRange { mask, region: region as u64, lowest, highest }, which)
        };
        if (0..4).any(|which| check(a, which) != check(b, which)) {
            return Err(format!("mask {mask}: range {lowest:#x} to {highest:#x} of regions {} and {}", a.1, b.1));
        }
    }
    Ok(ranges.len() as u64)
}

/// The row of the second sheet that is paired with an initialization row of the first; 0 with 0.
fn paired(r: &Reordered, row: u64) -> u64 {
    let platforms = r.a.lists[0].len() as u64;
    row.checked_sub(platforms + 1).map_or(0, |at| r.to[1][at as usize] as u64 + platforms + 1)
}

/// An address is in the paired region, and the indexes have the same starts and sizes, each with the paired row.
fn same_owners(
    calls: &Calls,
    random: &mut Random,
    r: &Reordered,
    (a, b, mask): (&[u8], &[u8], u32),
    counts: &mut Counts,
) -> Result<(), String> {
    let [index_a, index_b] = [a, b].map(|sheet| owner::entries(&owner::index(calls, sheet, mask)).collect::<Vec<_>>());
    let expected: Vec<[u64; 3]> = index_a.iter().map(|&[start, size, row]| [start, size, paired(r, row)]).collect();
    if index_b != expected {
        return Err(format!("mask {mask}: the indexes are {index_a:x?} and {index_b:x?}"));
    }
    let addresses = plan::region_addresses(a);
    for gpa in [random.pick(&addresses), random.pick(&addresses), random.pick(&addresses), random.next()] {
        let [of_a, of_b] = [a, b].map(|sheet| [0, 1, 2, 3].map(|which| number(calls, sheet, Call::RegionOf { mask, gpa }, which)));
        if of_b != [of_a[0], of_a[1], of_a[2], paired(r, of_a[3])] {
            return Err(format!("mask {mask}: of address {gpa:#x} the answers are {of_a:?} and {of_b:?}"));
        }
        counts.addresses += 1;
        counts.owned += u64::from(of_a[3] != 0);
        counts.other_owners += u64::from(of_a[3] != of_b[3]);
    }
    Ok(())
}

/// Masks that are not 0: any bit, and of the initialization rows.
pub fn masks(random: &mut Random, image: &Image) -> Vec<u32> {
    let of_rows: Vec<u32> = image.lists[1].iter().filter_map(|row| row.get("mask")).map(|mask| mask as u32).collect();
    let mut masks = vec![1 << random.below(32)];
    if !of_rows.is_empty() {
        let mask = random.pick(&of_rows);
        masks.extend([mask, mask & mask.wrapping_neg(), mask | random.pick(&of_rows)]);
    }
    masks.retain(|&mask| mask != 0);
    masks
}

/// Row i is one of the mask's regions.
fn is_region(row: &Row, mask: u32) -> bool {
    row.kind == 18 && row.get("mask").unwrap() as u32 & mask == mask
}

/// The number of initialization row i among the mask's regions.
fn number_in(image: &Image, mask: u32, i: usize) -> usize {
    image.lists[1][..i].iter().filter(|row| is_region(row, mask)).count()
}

/// With equally many words lent both end in 37, or both give the same count and page table. Gives the lent bytes where they hold the regions.
fn same_list(calls: &Calls, random: &mut Random, mask: u32, a: &[u8], b: &[u8]) -> Result<Option<(Vec<u8>, Vec<u8>)>, String> {
    let words = random.pick(&[0, 8, 16, 512, 512, 512]);
    let mut lend = || {
        let length = 8 * words + random.below(8);
        random.bytes(length)
    };
    let list = |sheet: &[u8], mut lent: Vec<u8>| {
        let numbers = [0, 1, 2, 3, 4, 5, 6, 7, 8, 9].map(|which| (calls.relocations)(sheet, mask, &mut lent, which));
        (numbers, lent)
    };
    let (numbers_a, words_a) = list(a, lend());
    let (numbers_b, words_b) = list(b, lend());
    if numbers_a != numbers_b {
        return Err(format!("mask {mask}, {words} words: {numbers_a:?} and {numbers_b:?}"));
    }
    Ok((numbers_a[0] == 0).then_some((words_a, words_b)))
}

/// No address lies in two of the mask's regions, page table included, and each has VP index 0 and a VBS context of its VTL that shares a bit.
fn sound(image: &Image, mask: u32, words: &[u8], calls: &Calls, sheet: &[u8]) -> Result<(), String> {
    let word = |at: usize| u64::from_le_bytes(words[8 * at..8 * at + 8].try_into().unwrap());
    let found = |which: u32| (calls.relocations)(sheet, mask, &mut words.to_vec(), which);
    let mut ranges: Vec<(u64, u64)> = (0..found(3) as usize).map(|n| (word(8 * n), word(8 * n + 1))).collect();
    if found(4) == 1 {
        ranges.push((found(5), found(6)));
    }
    ranges.sort_unstable();
    if ranges.windows(2).any(|pair| pair[0].0 + pair[0].1 > pair[1].0) {
        return Err(format!("mask {mask}: an address lies in two regions"));
    }
    let of = |row: &Row, name: &str| row.get(name).unwrap();
    let matching = |row: &&Row| matches!(row.kind, 18 | 19) && of(row, "mask") as u32 & mask == mask;
    for row in image.lists[1].iter().filter(matching) {
        let shares = |c: &Row| matches!(c.kind, 47 | 48) && of(c, "vtl") == of(row, "vtl") && of(c, "mask") & of(row, "mask") != 0;
        if of(row, "vp") != 0 || !image.lists[2].iter().any(shares) {
            return Err(format!("mask {mask}: a region has another VP index than 0, or no context"));
        }
    }
    Ok(())
}

fn bases(random: &mut Random, row: &Row) -> [u64; 5] {
    let of = |name: &str| row.get(name).unwrap();
    let last = of("maximum").wrapping_sub(of("size"));
    let near = random.pick(&[of("minimum"), last]);
    [of("minimum"), last, near.wrapping_add(of("alignment")), near.wrapping_sub(of("alignment")), random.next()]
}

/// Ranges of bases of the region, and one of any ends.
fn ranges(random: &mut Random, row: &Row) -> [(u64, u64); 3] {
    let words = ["gpa", "size", "alignment", "minimum", "maximum", "flags", "vp", "vtl"].map(|name| row.get(name).unwrap());
    let (one, other) = (random.next(), random.next());
    [plan::some_range(random, Some(&words)), plan::some_range(random, Some(&words)), (one.min(other), one.max(other))]
}

// ---- what demand 3 does not allow

/// Two of these rows that differ, of which there are some.
fn two_that_differ(random: &mut Random, rows: &[Row], among: &[usize]) -> (usize, usize) {
    loop {
        let (i, j) = (random.pick(among), random.pick(among));
        if rows[i] != rows[j] {
            return (i, j);
        }
    }
}

/// Swaps two platforms of one mask, and two directives of one area, where there are such, and counts how often the verdict differs.
fn swapped(calls: &Calls, random: &mut Random, image: &Image, counts: &mut Counts) -> Result<(), String> {
    for list in [0, 2] {
        let rows = &image.lists[list];
        let differ = |tied: &Vec<usize>| tied.iter().any(|&at| rows[at] != rows[tied[0]]);
        let groups: Vec<Vec<usize>> = tied_rows(list, rows).into_values().filter(differ).collect();
        if groups.is_empty() {
            continue;
        }
        let group = random.below(groups.len());
        let (i, j) = two_that_differ(random, rows, &groups[group]);
        let mut other = image.clone();
        other.lists[list].swap(i, j);
        let (one, other) = (image.bytes(), other.bytes());
        plain_alike(&other).map_err(|what| format!("{what}\n  {}", hex(&other)))?;
        let differs = u64::from(is_accepted(calls, &one) != is_accepted(calls, &other));
        let (swaps, differ) = match list {
            0 => (&mut counts.platform_swaps, &mut counts.platform_swaps_differ),
            _ => (&mut counts.area_swaps, &mut counts.area_swaps_differ),
        };
        *swaps += 1;
        *differ += differs;
    }
    Ok(())
}
