//! Well-formed images of many shapes, and what is done to them: changed fields, rows swapped, doubled, dropped and moved, damaged bytes.

use crate::random::Random;
use crate::sheet::{fields, is_open, kinds, list_of, Image, Row};

/// The highest page.
pub const TOP: u64 = 0xFFFF_FFFF_FFFF_F000;

/// A sheet of any sort.
pub fn sheet(random: &mut Random) -> Vec<u8> {
    let mut image = image(random);
    let changes = random.pick(&[0, 0, 1, 1, 1, 1, 1, 2, 3]);
    for _ in 0..changes {
        change(random, &mut image);
    }
    let mut bytes = image.bytes();
    if random.one_in(12) {
        damage(random, &mut bytes);
    }
    bytes
}

/// A readable image, after one of these numbers of changes.
pub fn readable_image(random: &mut Random, changes: &[usize]) -> Image {
    loop {
        let mut image = image(random);
        for _ in 0..random.pick(changes) {
            change(random, &mut image);
        }
        if image.counts.is_none() && oracle::Headers::decode(&image.bytes()).is_some() {
            return image;
        }
    }
}

// ---- well-formed images

/// An image that is accepted but for rare accidents.
pub fn image(random: &mut Random) -> Image {
    image_of(random, directives)
}

/// Makes directives from the arch, the mask bits and the initialization rows.
type Directives = fn(&mut Random, u8, &[u64], &[Row]) -> Vec<Row>;

/// The same with these directives.
pub fn image_of(random: &mut Random, directives: Directives) -> Image {
    let arch = random.below(2) as u8;
    let bits = mask_bits(random);
    let platforms = platforms(random, arch, &bits);
    let initializations = initializations(random, arch, &bits, &platforms);
    let directives = directives(random, arch, &bits, &initializations);
    let mut image = Image::new(arch, [platforms, initializations, directives]);
    if arch == 1 || random.one_in(3) {
        (image.revision, image.page_size) = (2, 4096);
    }
    image
}

/// One to four bits.
fn mask_bits(random: &mut Random) -> Vec<u64> {
    let count = 1 + random.below(4);
    let mut bits = Vec::new();
    while bits.len() < count {
        let place = if random.one_in(4) { random.below(32) } else { random.below(4) };
        if !bits.contains(&(1 << place)) {
            bits.push(1 << place);
        }
    }
    bits
}

/// Some of the bits, at least one.
pub fn some_bits(random: &mut Random, bits: &[u64]) -> u64 {
    let first = random.pick(bits);
    bits.iter().fold(first, |mask, bit| if random.one_in(3) { mask | bit } else { mask })
}

fn platforms(random: &mut Random, arch: u8, bits: &[u64]) -> Vec<Row> {
    let mut types = if arch == 0 { vec![0, 1, 2, 3, 4, 5] } else { vec![1, 6] };
    random.shuffle(&mut types);
    types.truncate(1 + random.below(types.len()));
    let row = |typ: u64| {
        let boundary = if typ > 1 && random.one_in(2) { random.next() } else { 0 };
        Row::new(1, &[random.pick(bits), random.pick(&[0, 2]), typ, 1, boundary])
    };
    types.into_iter().map(row).collect()
}

/// The bits whose last platform is CCA.
fn cca_bits(platforms: &[Row]) -> Vec<u64> {
    let of = |row: &Row| (row.get("mask").unwrap(), row.get("type").unwrap());
    let last = |mask| platforms.iter().rev().map(of).find(|p| p.0 == mask).unwrap().1;
    platforms.iter().map(of).filter(|p| p.1 == 6 && last(p.0) == 6).map(|p| p.0).collect()
}

/// Where the next region may stand, the bits that have no page table yet, masks and places of the relocatable regions, and the ends of all.
struct Layout {
    next: u64,
    free: Vec<u64>,
    placed: Vec<(u64, u64)>,
    taken: Vec<(u64, u64)>,
}

impl Layout {
    fn new(random: &mut Random, bits: &[u64]) -> Layout {
        Layout { next: starting_place(random), free: bits.to_vec(), placed: Vec::new(), taken: Vec::new() }
    }
}

fn starting_place(random: &mut Random) -> u64 {
    random.pick(&[0, 0x100000, 0x100000, 0xFFFF_F000, TOP - 0x200000])
}

fn initializations(random: &mut Random, arch: u8, bits: &[u64], platforms: &[Row]) -> Vec<Row> {
    let count = if random.one_in(300) { random.below(65) } else { random.pick(&[0, 1, 1, 2, 2, 3, 4, 5, 6]) };
    let mut layout = Layout::new(random, bits);
    let cca = cca_bits(platforms);
    let mut rows: Vec<Row> = (0..count).map(|_| initialization(random, arch, bits, &cca, &mut layout)).collect();
    if random.one_in(2) {
        random.shuffle(&mut rows);
    }
    rows
}

fn initialization(random: &mut Random, arch: u8, bits: &[u64], cca: &[u64], layout: &mut Layout) -> Row {
    match random.below(10) {
        0 => Row::new(16, &[random.next(), some_bits(random, bits)]),
        1 | 2 if arch == 1 => {
            let mask = if cca.is_empty() { 0 } else { some_bits(random, cca) };
            let zeroes = random.next();
            Row::new(17, &[mask, zeroes, random.next() & !zeroes])
        }
        3 | 4 if !layout.free.is_empty() => page_table(random, layout),
        _ => region(random, bits, layout),
    }
}

/// An alignment of a region: mostly a small one, else any power of two, a number about one, three or five times one, or the highest page.
pub fn alignment(random: &mut Random) -> u64 {
    let power = 1u64 << (13 + random.below(51));
    match random.below(16) {
        0 => random.pick(&[0x5000, 0x6000, 0x7000, 0x20_0000, 1 << 30, 1 << 32, TOP]),
        1 => random.pick(&[1 << 52, 1 << 62, 1 << 63, 1 << 63]),
        2 => random.pick(&[power, power + 0x1000, power - 0x1000]),
        3 => random.pick(&[3u64, 5]).checked_mul(power).unwrap_or(power),
        _ => random.pick(&[0x1000, 0x1000, 0x1000, 0x2000, 0x3000, 0x10000]),
    }
}

/// The multiple of a number that is not 0, at or below another.
fn multiple(number: u64, of: u64) -> u64 {
    number / of * of
}

/// A place for a region of either kind: gpa and size, clear of the earlier ones where some multiple of the alignment is.
fn place(random: &mut Random, alignment: u64, layout: &mut Layout) -> (u64, u64) {
    let size = 0x1000 * (1 + random.below(3) as u64);
    let highest = multiple(TOP - size, alignment);
    let clear = |gpa: &u64| layout.taken.iter().all(|&(start, end)| gpa + size <= start || end <= *gpa);
    let next = layout.next.checked_next_multiple_of(alignment).unwrap_or(highest).min(highest);
    let gpa = [next, 0, alignment.min(highest), highest].into_iter().find(clear).unwrap_or(highest);
    if gpa == next {
        layout.next = (gpa + size).saturating_add(0x1000 * random.pick(&[0, 0, 1, 2]));
    }
    layout.taken.push((gpa, gpa + size));
    (gpa, size)
}

fn region(random: &mut Random, bits: &[u64], layout: &mut Layout) -> Row {
    let alignment = alignment(random);
    let mut mask = some_bits(random, bits);
    let (mut gpa, mut size) = place(random, alignment, layout);
    if let Some(&(other_mask, other_gpa)) = layout.placed.last() {
        if random.one_in(4) && mask & !other_mask != 0 && other_gpa % alignment == 0 {
            (mask, gpa, size) = (mask & !other_mask, other_gpa, 0x1000);
        }
    }
    layout.placed.push((mask, gpa));
    let [below, above] = [gpa.saturating_sub(alignment.saturating_mul(2)), gpa.saturating_add(alignment)];
    let minimum = multiple(random.pick(&[0, gpa, below, above]), alignment);
    let end = (gpa + size).checked_next_multiple_of(alignment).unwrap_or(TOP);
    let maximum = multiple(random.pick(&[end, TOP, end.saturating_add(alignment.saturating_mul(4)), 0]), alignment);
    let vtl = random.pick(&[0, 0, 1, 2]);
    Row::new(18, &[mask, alignment, gpa, size, minimum, maximum, random.below(8) as u64, 0, vtl])
}

/// The words of a region as `region` makes them.
pub fn region_words(random: &mut Random) -> [u64; 8] {
    let mut layout = Layout::new(random, &[]);
    let row = region(random, &[1], &mut layout);
    ["gpa", "size", "alignment", "minimum", "maximum", "flags", "vp", "vtl"].map(|name| row.get(name).unwrap())
}

/// A page table whose mask takes some of the free bits.
fn page_table(random: &mut Random, layout: &mut Layout) -> Row {
    let (gpa, size) = place(random, 0x1000, layout);
    let mask = some_bits(random, &layout.free);
    layout.free.retain(|bit| mask & bit == 0);
    let used = 0x1000 * random.below(size as usize / 0x1000 + 1) as u64;
    Row::new(19, &[mask, gpa, size, used, 0, random.pick(&[0, 0, 1, 2])])
}

fn directives(random: &mut Random, arch: u8, bits: &[u64], initializations: &[Row]) -> Vec<Row> {
    let mut sequences = contexts(random, arch, bits, initializations);
    for area in area_indexes(random) {
        sequences.push(area_rows(random, bits, area, initializations));
    }
    let others = if random.one_in(1000) { random.below(900) } else { random.pick(&[0, 0, 1, 2, 3]) };
    for _ in 0..others {
        sequences.push(vec![free_directive(random, arch, bits)]);
    }
    interleave(random, sequences)
}

/// The rows of all sequences, each in its order.
pub fn interleave(random: &mut Random, sequences: Vec<Vec<Row>>) -> Vec<Row> {
    let mut turns: Vec<usize> = sequences.iter().enumerate().flat_map(|(n, rows)| vec![n; rows.len()]).collect();
    random.shuffle(&mut turns);
    let mut rests: Vec<_> = sequences.into_iter().map(Vec::into_iter).collect();
    turns.into_iter().map(|n| rests[n].next().unwrap()).collect()
}

/// VBS contexts for the regions: for each, one of its VTL that shares a bit; in half of the images also for each bit one that has it.
pub fn contexts(random: &mut Random, arch: u8, bits: &[u64], initializations: &[Row]) -> Vec<Vec<Row>> {
    let for_each_bit = random.one_in(2);
    let mut made: Vec<(u64, u64)> = Vec::new();
    for row in initializations {
        let (Some(mask), Some(vtl)) = (row.get("mask"), row.get("vtl")) else { continue };
        loop {
            let had = made.iter().filter(|context| context.1 == vtl).fold(0, |had, context| had | context.0);
            let lacking: Vec<u64> = bits.iter().copied().filter(|bit| mask & !had & bit != 0).collect();
            if lacking.is_empty() || mask & had != 0 && !for_each_bit {
                break;
            }
            made.push((some_bits(random, &lacking), vtl));
        }
    }
    if made.is_empty() || random.one_in(4) {
        made.push((some_bits(random, bits), random.below(3) as u64));
    }
    let kind = if arch == 0 { 47 } else { 48 };
    let mut row = |(mask, vtl): (u64, u64)| vec![Row::new(kind, &[mask, vtl]).with_tail(&tail(random))];
    made.into_iter().map(&mut row).collect()
}

fn tail(random: &mut Random) -> Vec<u8> {
    let length = random.pick(&[0, 0, 0, 1, 5, 32, 64]);
    random.bytes(length)
}

fn area_indexes(random: &mut Random) -> Vec<u64> {
    let mut indexes = vec![0, 1, 7, 0xFFFF_FFFF, random.next() & 0xFFFF_FFFF];
    random.shuffle(&mut indexes);
    indexes.truncate(random.pick(&[0, 0, 1, 1, 2, 3]));
    indexes
}

/// A parameter area, rows that name it, and mostly its insert.
fn area_rows(random: &mut Random, bits: &[u64], area: u64, initializations: &[Row]) -> Vec<Row> {
    let bytes = random.pick(&[0x1000, 0x1000, 0x2000, 0, TOP]);
    let data = if bytes == 0 { Vec::new() } else { tail(random) };
    let mut rows = vec![Row::new(33, &[bytes, area]).with_tail(&data)];
    for _ in 0..random.below(4) {
        rows.push(Row::new(34 + random.below(10) as u32, &[area, random.next() & 0xFFFF_FFFF]));
    }
    if !random.one_in(4) {
        let (gpa, mask) = insert_place(random, bits, initializations);
        rows.push(Row::new(50, &[gpa, mask, area]));
    }
    rows
}

/// A page for an insert: in no page table that shares a bit, though it may be beside one or in a relocatable region.
pub fn insert_place(random: &mut Random, bits: &[u64], initializations: &[Row]) -> (u64, u64) {
    let mask = some_bits(random, bits);
    let mut gpa = 0x7000_0000;
    if !initializations.is_empty() && random.one_in(2) {
        let row = &initializations[random.below(initializations.len())];
        let (start, size) = (row.get("gpa").unwrap_or(0), row.get("size").unwrap_or(0));
        gpa = random.pick(&[start, start + size, start.saturating_sub(0x1000)]);
    }
    let table = |row: &&Row| row.kind == 19 && row.get("mask").unwrap() & mask != 0;
    let inside = |row: &Row| (row.get("gpa").unwrap()..row.get("gpa").unwrap() + row.get("size").unwrap()).contains(&gpa);
    if initializations.iter().filter(table).any(inside) {
        return (gpa, 0);
    }
    (gpa, mask)
}

/// The kind of a native context of the arch.
pub fn native_context(arch: u8) -> u32 {
    if arch == 0 {
        46
    } else {
        49
    }
}

/// A directive that depends on no other row.
pub fn free_directive(random: &mut Random, arch: u8, bits: &[u64]) -> Row {
    let mask = some_bits(random, bits);
    let any = random.next() & TOP;
    let gpa = random.pick(&[0, 0x100000, TOP, any]);
    let vp = random.pick(&[0, 1, 0xFFFF]);
    let tail = tail(random);
    match random.below(8) {
        0 | 1 => {
            let data = if random.one_in(40) { vec![7; 4096] } else { tail };
            Row::new(32, &[gpa, mask, random.next(), random.below(4) as u64]).with_tail(&data)
        }
        2 => Row::new(44, &[gpa, mask, random.pick(&[0, 0x1000, 0xFFFF_F000]), random.below(2) as u64]),
        3 => Row::new(45, &[gpa, mask, vp]).with_tail(&tail),
        4 => Row::new(native_context(arch), &[mask, vp]).with_tail(&tail),
        5 => Row::new(51, &[gpa, mask, random.next()]),
        6 => Row::new(52, &[mask]).with_tail(&tail),
        _ => Row::new(53, &[mask]).with_tail(&tail),
    }
}

// ---- changes of an image

pub fn change(random: &mut Random, image: &mut Image) {
    match random.below(22) {
        0..=6 => change_field(random, image),
        20 => misalign(random, image),
        21 => change_context(random, image),
        7 | 8 => relate_regions(random, image),
        9 => relate_insert(random, image),
        10 => swap_rows(random, image),
        11 => double_row(random, image),
        12 => drop_row(random, image),
        13 => move_row(random, image),
        14 => change_kind(random, image),
        15 => change_length(random, image),
        16 => change_head(random, image),
        17 => add_row(random, image),
        18 => add_platform_or_policy(random, image),
        _ => add_rows_of_another(random, image),
    }
}

/// A row of the image: its list and its place there.
fn any_row(random: &mut Random, image: &Image) -> Option<(usize, usize)> {
    let lists: Vec<usize> = (0..3).filter(|&list| !image.lists[list].is_empty()).collect();
    if lists.is_empty() {
        return None;
    }
    let list = random.pick(&lists);
    Some((list, random.below(image.lists[list].len())))
}

/// One field gets a number at a boundary, or one near it, or one that stands elsewhere in the image.
pub fn change_field(random: &mut Random, image: &mut Image) {
    let Some((list, at)) = any_row(random, image) else { return };
    let names = fields(image.lists[list][at].kind);
    if names.is_empty() {
        return;
    }
    let name = random.pick(names).0;
    let Some(now) = image.lists[list][at].get(name) else { return };
    let value = match random.below(6) {
        0 => random.pick(&[0, 1, 2, 3, 4, 5, 6, 7, 8, 255, 256, 257]),
        1 => random.pick(&[0x800, 0xFFF, 0x1000, 0x1001, 0x2000, 0x3000, TOP, TOP - 0x1000, u64::MAX]),
        2 => now.wrapping_add(random.pick(&[1, 0x800, 0x1000, 0x2000, u64::MAX, 0u64.wrapping_sub(0x1000)])),
        3 | 4 => now ^ 1 << random.below(64),
        _ => value_elsewhere(random, image, name).unwrap_or(now),
    };
    image.lists[list][at].set(name, value);
}

/// A region's gpa, minimum or maximum gets a number about a multiple of its alignment.
fn misalign(random: &mut Random, image: &mut Image) {
    let regions: Vec<usize> = (0..image.lists[1].len()).filter(|&at| image.lists[1][at].kind == 18).collect();
    if regions.is_empty() {
        return change_field(random, image);
    }
    let row = &mut image.lists[1][random.pick(&regions)];
    let name = random.pick(&["gpa", "minimum", "maximum"]);
    if let (Some(alignment), Some(now)) = (row.get("alignment"), row.get(name)) {
        row.set(name, near_multiple(random, alignment, now));
    }
}

/// A number about this multiple of an alignment: one bit below the alignment's highest is another, or it is half an alignment, a page or one
/// further on or back, or it has no bit of the alignment less one, as the multiples of a power of two. Also another multiple, and the multiple
/// itself.
pub fn near_multiple(random: &mut Random, alignment: u64, multiple: u64) -> u64 {
    let low_bits = alignment.wrapping_sub(1);
    match random.below(8) {
        0 | 1 => multiple ^ 1 << random.below(alignment.checked_ilog2().unwrap_or(0).max(1) as usize),
        2 => multiple.wrapping_add(random.pick(&[0x1000, 0u64.wrapping_sub(0x1000), 1, u64::MAX])),
        3 => multiple.wrapping_add(alignment / 2),
        4 => random.next() & TOP & !low_bits,
        5 => low_bits.wrapping_add(1) & !low_bits,
        6 => random.next().checked_div(alignment).unwrap_or(0).wrapping_mul(alignment),
        _ => multiple,
    }
}

/// The number in the field of this name in some row, or in any field of some row.
fn value_elsewhere(random: &mut Random, image: &Image, name: &str) -> Option<u64> {
    let (list, at) = any_row(random, image)?;
    let row = &image.lists[list][at];
    let names = fields(row.kind);
    if names.is_empty() {
        return None;
    }
    row.get(name).or_else(|| row.get(random.pick(names).0))
}

/// One region is put just before, in, around or just behind another.
fn relate_regions(random: &mut Random, image: &mut Image) {
    let regions: Vec<usize> = (0..image.lists[1].len()).filter(|&at| image.lists[1][at].get("gpa").is_some()).collect();
    if regions.len() < 2 {
        return add_row(random, image);
    }
    let (a, b) = (random.pick(&regions), random.pick(&regions));
    let of = |at: usize, name: &str| image.lists[1][at].get(name).unwrap_or(0);
    let (gpa, size, own) = (of(a, "gpa"), of(a, "size"), of(b, "size"));
    let there = random.pick(&[
        gpa,
        gpa.wrapping_add(size),
        gpa.wrapping_add(size).wrapping_sub(0x1000),
        gpa.wrapping_sub(own),
        gpa.wrapping_sub(own).wrapping_add(0x1000),
    ]);
    let mask = of(a, "mask");
    image.lists[1][b].set("gpa", there);
    if random.one_in(2) {
        image.lists[1][b].set("mask", mask);
    }
    if random.one_in(2) {
        image.lists[1][b].set("alignment", 0x1000);
    }
}

/// An insert is put at an end of a page table, or of its used part.
fn relate_insert(random: &mut Random, image: &mut Image) {
    let of_kind = |rows: &[Row], kind: u32| (0..rows.len()).filter(|&at| rows[at].kind == kind).collect::<Vec<_>>();
    let (inserts, tables) = (of_kind(&image.lists[2], 50), of_kind(&image.lists[1], 19));
    if inserts.is_empty() || tables.is_empty() {
        return change_field(random, image);
    }
    let table = &image.lists[1][random.pick(&tables)];
    let of = |name: &str| table.get(name).unwrap_or(0);
    let (gpa, size, used, mask) = (of("gpa"), of("size"), of("used"), of("mask"));
    let there = random.pick(&[0, used, size, 0u64.wrapping_sub(0x1000), used.wrapping_sub(0x1000), size.wrapping_sub(0x1000)]);
    let insert = &mut image.lists[2][random.pick(&inserts)];
    insert.set("gpa", gpa.wrapping_add(there));
    insert.set("mask", random.pick(&[mask, mask, 0xFFFF_FFFF, !mask]));
}

/// A VBS context loses some of its bits, gets another VTL, or becomes a native one of the same bits; or a region of either kind gets one bit more or
/// another VTL.
fn change_context(random: &mut Random, image: &mut Image) {
    let of_kinds = |rows: &[Row], kinds: [u32; 2]| (0..rows.len()).filter(|&at| kinds.contains(&rows[at].kind)).collect::<Vec<_>>();
    let (contexts, regions) = (of_kinds(&image.lists[2], [47, 48]), of_kinds(&image.lists[1], [18, 19]));
    if contexts.is_empty() || regions.is_empty() {
        return add_row(random, image);
    }
    let (native, place) = (native_context(image.arch), random.below(32));
    let [_, initializations, directives] = &mut image.lists;
    let (context, region) = (&mut directives[random.pick(&contexts)], &mut initializations[random.pick(&regions)]);
    let [held, mask] = [&*context, &*region].map(|row| row.get("mask").unwrap_or(0));
    match random.below(5) {
        0 => context.set("mask", held & random.next()),
        1 => context.set("vtl", random.below(3) as u64),
        2 => *context = Row::new(native, &[held, random.below(3) as u64]),
        3 => region.set("vtl", random.below(3) as u64),
        _ => region.set("mask", mask | 1 << random.pick(&[0, 1, 2, 3, place, 31])),
    }
}

fn swap_rows(random: &mut Random, image: &mut Image) {
    if let Some((list, at)) = any_row(random, image) {
        let other = random.below(image.lists[list].len());
        image.lists[list].swap(at, other);
    }
}

fn double_row(random: &mut Random, image: &mut Image) {
    if let Some((list, at)) = any_row(random, image) {
        let row = image.lists[list][at].clone();
        let place = random.below(image.lists[list].len() + 1);
        image.lists[list].insert(place, row);
    }
}

fn drop_row(random: &mut Random, image: &mut Image) {
    if let Some((list, at)) = any_row(random, image) {
        image.lists[list].remove(at);
    }
}

/// A row goes into another list.
fn move_row(random: &mut Random, image: &mut Image) {
    if let Some((list, at)) = any_row(random, image) {
        let row = image.lists[list].remove(at);
        let to = random.below(3);
        let place = random.below(image.lists[to].len() + 1);
        image.lists[to].insert(place, row);
    }
}

/// A row gets another kind, with or without a body that fits.
fn change_kind(random: &mut Random, image: &mut Image) {
    let Some((list, at)) = any_row(random, image) else { return };
    let row = &mut image.lists[list][at];
    if random.one_in(3) {
        row.kind = random.pick(&[0, 2, 15, 20, 31, 54, 257, 0x10000 + row.kind, u32::MAX, 18, 47]);
        return;
    }
    let of_list: Vec<u32> = kinds().filter(|&kind| list_of(kind) == list).collect();
    let kind = random.pick(&of_list);
    let values: Vec<u64> = fields(kind).iter().map(|(name, _)| row.get(name).unwrap_or(0)).collect();
    *row = Row::new(kind, &values);
}

/// A body gets shorter or longer; data is put at a limit.
fn change_length(random: &mut Random, image: &mut Image) {
    let Some((list, at)) = any_row(random, image) else { return };
    let row = &mut image.lists[list][at];
    let least = crate::sheet::fields_length(row.kind);
    let length = match random.below(4) {
        0 => row.body.len().saturating_sub(1),
        1 => row.body.len() + 1,
        2 => least + random.pick(&[4095, 4096, 4097, 0x2000, 0x2001]),
        _ => least.saturating_sub(random.below(4)),
    };
    if is_open(row.kind) || random.one_in(2) {
        row.body.resize(length, 0x55);
    }
}

fn change_head(random: &mut Random, image: &mut Image) {
    match random.below(6) {
        0 => image.revision = random.pick(&[0, 1, 2, 3, 255]),
        1 => image.arch = random.pick(&[0, 1, 2, 255]),
        2 => image.page_size = random.pick(&[0, 1, 4095, 4096, 4097, 8192, 0x1001000, u32::MAX]),
        3 => image.reserved = 1 << random.below(16),
        4 => image.reserved2 = 1 << random.below(16),
        _ => {
            let counts = [0, 1, 2].map(|list| image.lists[list].len() as u16);
            let mut changed = counts;
            changed[random.below(3)] = random.pick(&[0, 1, 16, 17, 64, 65, 1024, 1025, 8192, 8193, 65535, counts[0].wrapping_add(1)]);
            image.counts = Some(changed);
        }
    }
}

/// A row of any kind with fields of the image's sort.
fn add_row(random: &mut Random, image: &mut Image) {
    let all: Vec<u32> = kinds().collect();
    let kind = random.pick(&all);
    let mut row = Row::new(kind, &vec![0; fields(kind).len()]);
    for (name, _) in fields(kind) {
        let value = value_elsewhere(random, image, name).unwrap_or(0);
        row.set(name, value);
    }
    let list = list_of(kind);
    let place = random.below(image.lists[list].len() + 1);
    image.lists[list].insert(place, row);
}

/// A second platform of some row's mask, or a CcaPolicy of some row's mask.
fn add_platform_or_policy(random: &mut Random, image: &mut Image) {
    let mask = value_elsewhere(random, image, "mask").unwrap_or(1);
    let (list, row) = if random.one_in(2) {
        (0, Row::new(1, &[mask, 0, random.below(8) as u64, 1, 0]))
    } else {
        (1, Row::new(17, &[mask, random.pick(&[0, 1, 6, 1 << 63]), random.pick(&[0, 2, 8])]))
    };
    let place = random.below(image.lists[list].len() + 1);
    image.lists[list].insert(place, row);
}

/// The rows of another image behind those of this one, list by list.
fn add_rows_of_another(random: &mut Random, image: &mut Image) {
    let other = self::image(random);
    let whole = random.one_in(2);
    for (list, rows) in other.lists.into_iter().enumerate() {
        if whole || list != 0 {
            image.lists[list].extend(rows);
        }
    }
}

// ---- damage of bytes

pub fn damage(random: &mut Random, bytes: &mut Vec<u8>) {
    match random.below(5) {
        0 => bytes.truncate(random.below(bytes.len() + 1)),
        1 => {
            let length = 1 + random.below(9);
            bytes.extend(random.bytes(length));
        }
        2 if bytes.len() > 16 => {
            let at = random.below((bytes.len() - 16).min(200));
            bytes[16 + at] = random.pick(&[0, 1, 0x10, 0x80, 0xFF]);
        }
        3 if !bytes.is_empty() => {
            let at = random.below(bytes.len());
            bytes.remove(at);
        }
        _ => {
            let flips = 1 + random.below(3);
            for _ in 0..flips.min(bytes.len()) {
                let at = random.below(bytes.len());
                bytes[at] ^= 1 << random.below(8);
            }
        }
    }
}
