//! Images of more than 1,024 directive rows: pages, and areas by the thousand. The library keeps 1,024 areas with indexes of 1,024 and above in a small table, and
//! goes over to a large one where there are more: so images name fewer, just as many and more of them, with faults and contexts before and behind that place.

use crate::faulty;
use crate::generate::{self, contexts, free_directive, insert_place, interleave, some_bits};
use crate::random::Random;
use crate::sheet::{Image, Row};
use crate::short::{native, region, vbs};
use std::collections::HashSet;

/// The directive rows that a sheet may have.
pub const MOST: usize = 8192;

/// The areas that the library's small table has room for, and the least index that it keeps there.
const SMALL: usize = 1024;

/// The head counts more than 1,024 directive rows, but no more than there may be.
pub fn is_large(sheet: &[u8]) -> bool {
    let count = sheet.get(12..14).map_or(0, |bytes| usize::from(u16::from_le_bytes([bytes[0], bytes[1]])));
    (SMALL + 1..=MOST).contains(&count)
}

/// The sheet allocates more areas of 1,024 and above than the library's small table has room for.
pub fn has_many_areas(sheet: &[u8]) -> bool {
    let image = Image::parse(sheet).expect("a sheet with a table");
    let areas = image.lists[2].iter().filter(|row| row.kind == 33).filter_map(Row::area);
    areas.filter(|&area| area >= SMALL as u64).collect::<HashSet<u64>>().len() > SMALL
}

/// A sheet: an image as it is, with a fault or with many, changed or damaged.
pub fn sheet(random: &mut Random) -> Vec<u8> {
    let mut image = image(random);
    match random.below(12) {
        0..=4 => {}
        5..=7 => fault(random, &mut image.lists[2]),
        8..=9 => {
            let list = random.below(6);
            faulty::break_row(random, &mut image, list.min(2));
            let [_, initializations, directives] = &mut image.lists;
            faults(random, initializations, directives);
        }
        _ => generate::change(random, &mut image),
    }
    let mut bytes = image.bytes();
    if random.one_in(20) {
        generate::damage(random, &mut bytes);
    }
    bytes
}

/// A readable image, half of them with a fault.
pub fn readable_image(random: &mut Random) -> Image {
    loop {
        let mut image = image(random);
        if random.one_in(2) {
            fault(random, &mut image.lists[2]);
        }
        if image.lists[2].len() <= MOST {
            return image;
        }
    }
}

/// An image that is accepted but for rare accidents, and for one row more than there may be.
fn image(random: &mut Random) -> Image {
    let mut image = generate::image_of(random, directives);
    if image.arch == 1 && random.one_in(2) {
        without_cca(&mut image);
    }
    image
}

/// A CCA platform, and behind it one of another type that has its mask. No policy asks for CCA.
fn without_cca(image: &mut Image) {
    let mask = image.lists[0][0].get("mask").unwrap();
    image.lists[0] = [6, 1].map(|typ| Row::new(1, &[mask, 0, typ, 1, 0])).to_vec();
    image.lists[1].iter_mut().filter(|row| row.kind == 17).for_each(|row| row.set("mask", 0));
}

/// Mostly between 1,025 and 8,192, the fewer the more often; sometimes at the limit, rarely one more.
fn row_count(random: &mut Random) -> usize {
    match random.below(24) {
        0..=1 => MOST - 1,
        2..=4 => MOST,
        5 => MOST + 1,
        _ => {
            let span = random.pick(&[16, 1024, 1024, 3000, MOST - SMALL]);
            SMALL + 1 + random.below(span)
        }
    }
}

fn directives(random: &mut Random, arch: u8, bits: &[u64], initializations: &[Row]) -> Vec<Row> {
    let contexts = contexts(random, arch, bits, initializations).concat();
    let count = row_count(random) - contexts.len();
    let areas = area_rows(random, count, bits, initializations);
    let others = other_rows(random, count - areas.len(), arch, bits);
    let mut rows = match random.below(4) {
        0 => [areas, others].concat(),
        1 => [others, areas].concat(),
        _ => interleave(random, vec![areas, others]),
    };
    for context in contexts {
        let any = random.below(rows.len() + 1);
        rows.insert(random.pick(&[0, any, any, rows.len()]), context);
    }
    rows
}

// ---- areas

/// At most so many rows that name areas.
fn area_rows(random: &mut Random, most: usize, bits: &[u64], initializations: &[Row]) -> Vec<Row> {
    let any = random.below(most);
    let count = random.pick(&[0, any, any, most, most / 2, SMALL - 1, SMALL, SMALL + 1, SMALL + 1]).min(most);
    let mut indexes =
        random.pick(&[few_indexes, indexes_in_order, spread_indexes, spread_indexes, crowded_indexes, high_indexes])(random, count);
    if random.one_in(3) {
        random.shuffle(&mut indexes);
    }
    let (uses, inserts) = (random.below(4), random.below(3));
    let life = |area: u64| area_life(random, area, uses, inserts, bits, initializations);
    let lives: Vec<Vec<Row>> = indexes.into_iter().map(life).collect();
    let mut rows = match random.below(4) {
        0 => lives.concat(),
        1 => interleave(random, lives),
        _ => in_turns(lives),
    };
    rows.truncate(most);
    rows
}

/// From 0 on.
fn few_indexes(_: &mut Random, count: usize) -> Vec<u64> {
    (0..count as u64).collect()
}

/// One behind the other from 1,024 on, or from further on.
fn indexes_in_order(random: &mut Random, count: usize) -> Vec<u64> {
    let first = random.pick(&[1024, 1024, 1025, 8192, 0xFFFF_0000]);
    (first..).take(count).collect()
}

/// Spread over 32 bits.
fn spread_indexes(random: &mut Random, count: usize) -> Vec<u64> {
    let first = random.next();
    large((0..).map(|n| first.wrapping_add(n).wrapping_mul(0x9E37_79B1)), count)
}

/// All of one root in the library's tables.
fn crowded_indexes(random: &mut Random, count: usize) -> Vec<u64> {
    let root = random.below(1024) as u64;
    large((0..).map(|n| (root << 22 | n) * 340_573_321), count)
}

/// Equal in their lowest 19 bits.
fn high_indexes(random: &mut Random, count: usize) -> Vec<u64> {
    let low = random.below(1 << 19) as u64;
    large((0..).map(|n| n << 19 | low), count)
}

/// The first of them, by their lowest 32 bits, that are not below 1,024.
fn large(indexes: impl Iterator<Item = u64>, count: usize) -> Vec<u64> {
    indexes.map(|index| index & 0xFFFF_FFFF).filter(|&index| index >= SMALL as u64).take(count).collect()
}

/// The area, up to so many uses of it, and its insert: never, mostly or always.
fn area_life(random: &mut Random, area: u64, uses: usize, inserts: usize, bits: &[u64], initializations: &[Row]) -> Vec<Row> {
    let mut rows = vec![Row::new(33, &[0x1000, area])];
    rows.extend((0..random.below(uses + 1)).map(|_| a_use(random, area)));
    if inserts == 2 || inserts == 1 && !random.one_in(4) {
        let (gpa, mask) = insert_place(random, bits, initializations);
        rows.push(Row::new(50, &[gpa, mask, area]));
    }
    rows
}

fn a_use(random: &mut Random, area: u64) -> Row {
    Row::new(34 + random.below(10) as u32, &[area, 0])
}

/// The first row of each sequence, then the second of each, and so on.
fn in_turns(sequences: Vec<Vec<Row>>) -> Vec<Row> {
    let longest = sequences.iter().map(Vec::len).max().unwrap_or(0);
    (0..longest).flat_map(|turn| sequences.iter().filter_map(move |rows| rows.get(turn))).cloned().collect()
}

// ---- other rows

/// So many rows of one sort: pages without data, with up to four bytes, the first 512 full, or any rows that depend on no other.
fn other_rows(random: &mut Random, count: usize, arch: u8, bits: &[u64]) -> Vec<Row> {
    let mask = some_bits(random, bits);
    let page = |n: usize, bytes: usize| Row::new(32, &[0x1000 * n as u64, mask, 0, n as u64 % 4]).with_tail(&vec![7; bytes]);
    match random.below(16) {
        0 => (0..count).map(|n| page(n, if n < 512 { 4096 } else { 0 })).collect(),
        1..=3 => (0..count).map(|n| page(n, n % 5)).collect(),
        4..=6 => (0..count).map(|_| free_directive(random, arch, bits)).collect(),
        _ => (0..count).map(|n| page(n, 0)).collect(),
    }
}

// ---- faults

/// One row, anywhere or the last, becomes one that is refused where the rows before it are not: mostly by 32.
fn fault(random: &mut Random, rows: &mut [Row]) {
    let any = random.below(rows.len());
    let place = random.pick(&[any, any, any, rows.len() - 1]);
    let before = &rows[..place];
    let named = |kind: u32| before.iter().filter(|row| row.kind == kind).filter_map(Row::area).collect::<Vec<u64>>();
    let (allocated, inserted) = (named(33), named(50));
    let again = match random.below(4) {
        0 | 1 => any_of(random, &allocated).map(|area| Row::new(33, &[0x1000, area])),
        2 => any_of(random, &inserted).map(|area| a_use(random, area)),
        _ => any_of(random, &inserted).map(|area| Row::new(50, &[0x7000_0000, 0, area])),
    };
    rows[place] = match random.below(8) {
        0 => Row::new(32, &[0x1000, 1, 0, 4]),
        1 => Row::new(51, &[0x800, 1, 0]),
        2..=3 => not_allocated(random, rows, place),
        _ => again.unwrap_or_else(|| not_allocated(random, rows, place)),
    };
}

/// From one row in a thousand up to every second one become such as may be refused: by 32 where rows before name the area otherwise, by 33 where there is a page
/// table, or by themselves.
fn faults(random: &mut Random, initializations: &[Row], rows: &mut [Row]) {
    let one_in = random.pick(&[2, 3, 10, 100, 1000]);
    let table = initializations.iter().find(|row| row.kind == 19);
    let (place, mask) = table.map_or((0x7000_0000, 0), |table| (table.get("gpa").unwrap_or(0), table.get("mask").unwrap_or(0)));
    let (mut allocated, mut inserted) = (Vec::new(), Vec::new());
    for row in rows {
        if random.one_in(one_in) {
            let any = random.next() & 0xFFFF_FFFF;
            let (named, done) = (any_of(random, &allocated).unwrap_or(any), any_of(random, &inserted).unwrap_or(any));
            *row = match random.below(9) {
                0 => Row::new(33, &[0x1000, named]),
                1 => a_use(random, done),
                2 => Row::new(50, &[0x7000_0000, 0, done]),
                3 => a_use(random, any),
                4 => Row::new(33, &[0x1001, any]),
                5 => Row::new(33, &[0x1000, done]),
                6 => Row::new(51, &[0x800, 1, 0]),
                7 => Row::new(50, &[place, mask, named]),
                _ => Row::new(50, &[0x801, 0, named]),
            };
        }
        match row.kind {
            33 => allocated.extend(row.area()),
            50 => inserted.extend(row.area()),
            _ => {}
        }
    }
}

fn any_of(random: &mut Random, areas: &[u64]) -> Option<u64> {
    (!areas.is_empty()).then(|| random.pick(areas))
}

/// A use of an area that is allocated behind the place, or nowhere.
fn not_allocated(random: &mut Random, rows: &[Row], place: usize) -> Row {
    let later: Vec<u64> = rows[place..].iter().filter(|row| row.kind == 33).filter_map(Row::area).collect();
    let area = any_of(random, &later).unwrap_or(0xABCD_EF01);
    a_use(random, area)
}

// ---- images that are stored

/// Images with the number of the refusal that they get, 0 for none.
pub fn stored() -> Vec<(Image, u64)> {
    let ends_in = |row: Row| {
        let mut image = areas_and_region();
        image.lists[2].push(row);
        image
    };
    vec![
        (pages_behind_context(6000), 0),
        (measurements(5000, a_use_of(1)), 32),
        (image_with(vec![], (1..=MOST as u64).map(area).collect()), 0),
        (measurements(MOST as u64 + 1, vbs(0, 1, 0)), 3),
        (areas_and_region(), 0),
        // an area that was inserted, the first and the last area once more, and one that is not there
        (ends_in(a_use_of(2)), 32),
        (ends_in(area(1)), 32),
        (ends_in(area(AREAS)), 32),
        (ends_in(a_use_of(AREAS + 1)), 32),
    ]
}

/// The areas of the next image: more than the library's small table has room for.
const AREAS: u64 = 1100;

/// A region, areas with indexes spread over 32 bits, uses and inserts of some, the first and the last too, and the region's context behind them.
pub fn areas_and_region() -> Image {
    let some = [1, 1024, 1025, AREAS];
    let mut directives: Vec<Row> = (1..=AREAS).map(area).collect();
    directives.extend(some.map(a_use_of));
    directives.extend([2, 1023, 1026, AREAS - 1].map(|n| Row::new(50, &[0x1000 * n, 1, index_of(n)])));
    directives.extend(some.map(a_use_of));
    directives.push(vbs(0, 1, 0));
    image_with(vec![region(1, 0x1000, 0x1000)], directives)
}

/// A region of two bits, for one of which a context stands in front of more than 1,024 rows, and for the other behind them.
pub fn contexts_apart() -> Image {
    let mut image = measurements(1100, vbs(0, 2, 0));
    image.lists[1] = vec![region(3, 0x1000, 0x1000)];
    image.lists[2].insert(0, vbs(0, 1, 0));
    image
}

/// A region's context, and behind it so many pages.
fn pages_behind_context(count: u64) -> Image {
    let pages = (0..count).map(|n| Row::new(32, &[0x1000 * n, 1, 0, 0]));
    image_with(vec![region(1, 0x1000, 0x1000)], [vbs(0, 1, 0)].into_iter().chain(pages).collect())
}

/// So many rows: kinds 52 and 53 in turn, and this one the last.
fn measurements(count: u64, last: Row) -> Image {
    let rows = (1..count).map(|n| Row::new(52 + n as u32 % 2, &[1]));
    image_with(vec![], rows.chain([last]).collect())
}

fn image_with(initializations: Vec<Row>, directives: Vec<Row>) -> Image {
    Image::new(0, [vec![native()], initializations, directives])
}

/// The index of the n-th area, of many that are spread over 32 bits.
fn index_of(n: u64) -> u64 {
    (n * 0x9E37_79B1) & 0xFFFF_FFFF
}

fn area(n: u64) -> Row {
    Row::new(33, &[0x1000, index_of(n)])
}

fn a_use_of(n: u64) -> Row {
    Row::new(34, &[index_of(n), 0])
}
