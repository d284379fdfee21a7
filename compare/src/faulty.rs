//! Images of which several rows are faulty, with rows behind them that are judged otherwise where a faulty row leaves a trace.

use crate::generate::{self, native_context, some_bits, TOP};
use crate::random::Random;
use crate::sheet::{Image, Row};
use crate::short::{page_table, vbs};

/// A sheet: an image with some faults, rarely one without rows or with faulty rows alone; some are changed or damaged as random sheets are.
pub fn sheet(random: &mut Random) -> Vec<u8> {
    let mut image = generate::image(random);
    match random.below(64) {
        0 => image.lists = Default::default(),
        1 => every_row(random, &mut image),
        _ => {
            let faults = random.pick(&[0, 1, 1, 2, 2, 2, 3, 3, 4, 5, 7, 10]);
            (0..faults).for_each(|_| fault(random, &mut image));
        }
    }
    if random.one_in(16) {
        generate::change(random, &mut image);
    }
    let mut bytes = image.bytes();
    if random.one_in(32) {
        generate::damage(random, &mut bytes);
    }
    bytes
}

fn fault(random: &mut Random, image: &mut Image) {
    match random.below(20) {
        0..=1 => break_row(random, image, 0),
        2..=4 => break_row(random, image, 1),
        5..=6 => break_row(random, image, 2),
        7..=8 => platform_beside(random, image),
        9 => policy(random, image),
        10 => no_platform(random, image),
        11..=12 => region_again(random, image),
        13 => page_table_again(random, image),
        14..=16 => area(random, image),
        17 => context_of_other_arch(random, image),
        18 => region_without_context(random, image),
        _ => generate::change_field(random, image),
    }
}

/// Puts rows among others, in their order.
fn spread(random: &mut Random, rows: &mut Vec<Row>, among: Vec<Row>) {
    let mut at = 0;
    for row in among {
        at += random.below(rows.len() - at + 1);
        rows.insert(at, row);
        at += 1;
    }
}

fn insert(random: &mut Random, rows: &mut Vec<Row>, row: Row) {
    spread(random, rows, vec![row]);
}

/// The places of the rows of these kinds.
fn places(rows: &[Row], kinds: &[u32]) -> Vec<usize> {
    (0..rows.len()).filter(|&at| kinds.contains(&rows[at].kind)).collect()
}

/// The mask of some row of the first two lists.
fn a_mask(random: &mut Random, image: &Image) -> u64 {
    let masks: Vec<u64> = image.lists[..2].iter().flatten().filter_map(|row| row.get("mask")).collect();
    random.pick(&if masks.is_empty() { vec![1] } else { masks })
}

// ---- a row that is faulty by itself

/// The row gets a fault, if its kind has any that does not come from other rows.
fn broken(random: &mut Random, arch: u8, row: &mut Row) -> bool {
    let set = |row: &mut Row, values: &[(&str, u64)]| values.iter().for_each(|(name, value)| row.set(name, *value));
    match row.kind {
        1 => {
            let mask = row.get("mask").unwrap_or(0);
            let value = match random.below(6) {
                0 => ("mask", random.pick(&[0, mask | 1, mask | 2, mask | 4])),
                1 => ("highest_vtl", random.pick(&[1, 3, 255])),
                2 => ("type", random.pick(&[7, 8, 255])),
                3 => ("version", random.pick(&[0, 2, 257])),
                4 => ("type", if arch == 0 { 6 } else { random.pick(&[0, 2, 3, 4, 5]) }),
                _ => ("boundary", random.pick(&[1, 1 << 63])),
            };
            set(row, &[value]);
        }
        17 => set(row, &[("zeroes", 5), ("ones", 4)]),
        18 => {
            let size = row.get("size").unwrap_or(0);
            let name = random.pick(&["gpa", "minimum", "maximum"]);
            match random.below(6) {
                0 => set(row, &[("size", size | 0x800)]),
                1 => set(row, &[("alignment", 0x800)]),
                2 => set(row, &[("alignment", 0)]),
                3 => set(row, &[(name, 0x800)]),
                4 => set(row, &[("size", 0)]),
                _ => set(row, &[("alignment", 0x1000), ("gpa", TOP), ("minimum", 0), ("maximum", 0), ("size", 0x1000)]),
            }
        }
        19 => {
            let size = row.get("size").unwrap_or(0);
            match random.below(6) {
                0 => set(row, &[("gpa", 0x800)]),
                1 => set(row, &[("size", size | 0x800)]),
                2 => set(row, &[("used", 0x800)]),
                3 => set(row, &[("used", size.wrapping_add(0x1000))]),
                4 => set(row, &[("size", 0), ("used", 0)]),
                _ => set(row, &[("gpa", TOP), ("size", 0x1000), ("used", 0)]),
            }
        }
        32 => match random.below(3) {
            0 => set(row, &[("gpa", 1)]),
            1 => set(row, &[("type", 4)]),
            _ => row.body.resize(18 + 4097, 7),
        },
        33 => match random.below(2) {
            0 => set(row, &[("bytes", 0x1001)]),
            _ => {
                set(row, &[("bytes", 0)]);
                row.body.resize(13, 7);
            }
        },
        34..=43 => set(row, &[("area", 0x5555_5555)]),
        44 => set(row, &[random.pick(&[("gpa", 0x800), ("bytes", 0x1001)])]),
        45 | 50 | 51 => set(row, &[("gpa", 0x801)]),
        46..=49 => to_other_arch(row),
        _ => return false,
    }
    true
}

/// A context becomes one of the other arch.
fn to_other_arch(row: &mut Row) {
    row.kind = match row.kind {
        46 => 49,
        47 => 48,
        48 => 47,
        _ => 46,
    };
}

/// Some row of the list.
pub fn break_row(random: &mut Random, image: &mut Image, list: usize) {
    let (arch, rows) = (image.arch, &mut image.lists[list]);
    if !rows.is_empty() {
        let at = random.below(rows.len());
        broken(random, arch, &mut rows[at]);
    }
}

/// Every row, but for those that can't be faulty, which are left out.
fn every_row(random: &mut Random, image: &mut Image) {
    let arch = image.arch;
    for rows in &mut image.lists {
        rows.truncate(random.pick(&[0, 1, 2, 6]));
        rows.retain_mut(|row| broken(random, arch, row));
    }
}

// ---- rows that a trace would change

/// A platform with the mask or the type of another one, before it or behind it, mostly a faulty one; in half of the images also a policy of its mask.
fn platform_beside(random: &mut Random, image: &mut Image) {
    let arch = image.arch;
    let types: &[u64] = if arch == 0 { &[0, 1, 2, 3, 4, 5] } else { &[1, 6] };
    let mut row = Row::new(1, &[a_mask(random, image), 0, random.pick(types), 1, 0]);
    let mask = row.get("mask").unwrap_or(0);
    if random.one_in(2) {
        broken(random, arch, &mut row);
    }
    insert(random, &mut image.lists[0], row);
    if random.one_in(2) {
        insert(random, &mut image.lists[1], Row::new(17, &[mask, 0, 0]));
    }
}

fn policy(random: &mut Random, image: &mut Image) {
    let masks: Vec<u64> = image.lists[0].iter().filter_map(|row| row.get("mask")).chain([0]).collect();
    let row = Row::new(17, &[some_bits(random, &masks), random.pick(&[0, 0, 3]), random.pick(&[0, 4, 2])]);
    insert(random, &mut image.lists[1], row);
}

/// There is no platform row, or each is faulty.
fn no_platform(random: &mut Random, image: &mut Image) {
    let arch = image.arch;
    if random.one_in(2) {
        image.lists[0].clear();
    }
    for row in &mut image.lists[0] {
        broken(random, arch, row);
    }
}

/// A region once more, with other bits too, and perhaps a third one there that has only those.
fn region_again(random: &mut Random, image: &mut Image) {
    let bits = a_mask(random, image) | 1 << random.below(8);
    let rows = &mut image.lists[1];
    let regions = places(rows, &[18, 19]);
    if regions.is_empty() {
        return;
    }
    let at = random.pick(&regions);
    let mask = rows[at].get("mask").unwrap_or(0);
    let of = |row: &Row, mask: u64| {
        let mut row = row.clone();
        row.set("mask", mask);
        row
    };
    let again = [mask | bits, bits, mask, bits & !mask].map(|mask| of(&rows[at], mask));
    let mut behind = rows.split_off(at + 1);
    let count = 1 + random.below(3);
    spread(random, &mut behind, again[..count].to_vec());
    rows.append(&mut behind);
}

/// A page table that is faulty, by itself or since it overlaps another region, in front of the others, and mostly one more behind it that shares a bit with it.
fn page_table_again(random: &mut Random, image: &mut Image) {
    let (arch, mask) = (image.arch, a_mask(random, image));
    let regions: Vec<u64> = image.lists[1].iter().filter(|row| row.kind == 18).filter_map(|row| row.get("gpa")).collect();
    let mut first = page_table(mask, 0x7100_0000, 0x1000);
    if random.one_in(3) && !regions.is_empty() {
        first.set("gpa", random.pick(&regions));
    } else {
        broken(random, arch, &mut first);
    }
    let place = first.get("gpa").unwrap_or(0);
    let mut rows = vec![first];
    if !random.one_in(4) {
        rows.push(page_table(mask | 1 << random.below(4), random.pick(&[place, 0x7200_0000]), 0x2000));
    }
    spread(random, &mut image.lists[1], rows);
}

/// An area that is allocated, used and inserted in any order, also by faulty rows and in page tables.
fn area(random: &mut Random, image: &mut Image) {
    let named: Vec<u64> = image.lists[2].iter().filter_map(Row::area).collect();
    let fresh = 0x100 + random.below(4) as u64;
    let index = if named.is_empty() || random.one_in(2) { fresh } else { random.pick(&named) };
    let tables = places(&image.lists[1], &[19]);
    let (gpa, mask) = match random.below(2) {
        0 if !tables.is_empty() => {
            let table = &image.lists[1][random.pick(&tables)];
            (table.get("gpa").unwrap_or(0) & TOP, table.get("mask").unwrap_or(0))
        }
        _ => (0x7200_0000, 0xF),
    };
    let length = 1 + random.below(6);
    let rows = (0..length).map(|turn| match random.below(if turn == 0 { 3 } else { 8 }) {
        0 | 1 => Row::new(33, &[0x1000, index]),
        2 => Row::new(33, &[0x1001, index]),
        3 => Row::new(33, &[0, index]).with_tail(&[7]),
        4 | 5 => Row::new(34 + random.below(10) as u32, &[index, 0]),
        6 => Row::new(50, &[random.pick(&[gpa, gpa, 0x801]), mask, index]),
        _ => Row::new(50, &[0x6000_0000, mask, index]),
    });
    let rows = rows.collect();
    spread(random, &mut image.lists[2], rows);
}

/// A context becomes one of the other arch, or one more of them is there for a region.
fn context_of_other_arch(random: &mut Random, image: &mut Image) {
    let (mask, other) = (a_mask(random, image), 1 - image.arch.min(1));
    let contexts = places(&image.lists[2], &[46, 47, 48, 49]);
    if random.one_in(3) || contexts.is_empty() {
        let of_vtl = random.below(3) as u64;
        let row = random.pick(&[0, 1]);
        let row = if row == 0 { vbs(other, mask, of_vtl) } else { Row::new(native_context(other), &[mask, 0]) };
        return insert(random, &mut image.lists[2], row);
    }
    to_other_arch(&mut image.lists[2][random.pick(&contexts)]);
}

/// A region gets VP index 1, or a context is left out; the region may be faulty.
fn region_without_context(random: &mut Random, image: &mut Image) {
    let arch = image.arch;
    let (regions, contexts) = (places(&image.lists[1], &[18, 19]), places(&image.lists[2], &[47, 48]));
    if !regions.is_empty() {
        let region = &mut image.lists[1][random.pick(&regions)];
        if random.one_in(2) {
            region.set("vp", 1);
        }
        if random.one_in(2) {
            broken(random, arch, region);
        }
    }
    if !contexts.is_empty() && random.one_in(2) {
        image.lists[2].remove(random.pick(&contexts));
    }
}
