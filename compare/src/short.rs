//! Short sheets, all of them of each sort: strings of few bytes, heads, one row with small fields, two and three regions, sequences of areas.

use crate::alignments;
use crate::compare::Call;
use crate::generate::{native_context, TOP};
use crate::plan;
use crate::sheet::{fields, fields_length, is_open, kinds, list_of, Image, Row};

/// What is done with each sheet; false stops.
type Each<'a> = &'a mut dyn FnMut(&[u8]) -> bool;

/// Every short sheet. False if `each` stopped.
pub fn every(each: Each) -> bool {
    let parts: [fn(Each) -> bool; 16] = [
        few_bytes,
        heads,
        revisions,
        one_platform,
        platforms_and_policy,
        one_initialization,
        two_regions,
        one_directive,
        areas,
        inserts,
        region_contexts,
        regions_and_contexts,
        lengths_and_bytes,
        two_faults,
        faults_in_lists,
        faults_of_areas,
    ];
    limits(each) && parts.into_iter().all(|part| part(each)) && three_regions(each) && far_areas(each) && behind_a_fault(each)
}

/// Calls `each` with every choice of one number from each set.
pub fn product(sets: &[&[u64]], each: &mut dyn FnMut(&[u64]) -> bool) -> bool {
    fn choose(sets: &[&[u64]], chosen: &mut Vec<u64>, each: &mut dyn FnMut(&[u64]) -> bool) -> bool {
        let Some((first, rest)) = sets.split_first() else { return each(chosen) };
        first.iter().all(|&value| {
            chosen.push(value);
            let goes_on = choose(rest, chosen, each);
            chosen.pop();
            goes_on
        })
    }
    choose(sets, &mut Vec::new(), each)
}

pub fn native() -> Row {
    Row::new(1, &[1, 0, 0, 1, 0])
}

/// A platform that both archs take.
pub fn vsm(mask: u64) -> Row {
    Row::new(1, &[mask, 0, 1, 1, 0])
}

pub fn region(mask: u64, gpa: u64, size: u64) -> Row {
    Row::new(18, &[mask, 0x1000, gpa, size, 0, TOP, 0, 0, 0])
}

pub fn page_table(mask: u64, gpa: u64, size: u64) -> Row {
    Row::new(19, &[mask, gpa, size, 0, 0, 0])
}

/// A region of kind 18 or 19.
fn region_of(kind: u64, mask: u64, gpa: u64, size: u64) -> Row {
    let make = if kind == 18 { region } else { page_table };
    make(mask, gpa, size)
}

/// A region of kind 18 or 19 with this VTL: the page of this number.
pub fn one_page(kind: u64, mask: u64, vtl: u64, number: u64) -> Row {
    let mut row = region_of(kind, mask, 0x1000 * number, 0x1000);
    row.set("vtl", vtl);
    row
}

/// A VBS context of the arch.
pub fn vbs(arch: u8, mask: u64, vtl: u64) -> Row {
    Row::new(if arch == 0 { 47 } else { 48 }, &[mask, vtl])
}

// ---- bytes and heads

/// All strings of up to two bytes; of 3 to 15 bytes the beginnings of a head.
fn few_bytes(each: Each) -> bool {
    let head = Image::new(1, Default::default()).bytes();
    each(&[])
        && (0..=255).all(|a| each(&[a]))
        && (0..=65535u16).all(|ab| each(&ab.to_le_bytes()))
        && (3..16).all(|length| each(&head[..length]) && each(&vec![0; length]) && each(&vec![255; length]))
}

/// Heads of boundary numbers, alone and with eight zero bytes behind.
fn heads(each: Each) -> bool {
    let sets: [&[u64]; 8] = [
        &[0, 1, 2, 3],
        &[0, 1, 2],
        &[0, 1, 0x100],
        &[0, 1, 4095, 4096, 4097, 8192, 0xFFFF_FFFF],
        &[0, 1, 16, 17],
        &[0, 1, 64, 65],
        &[0, 1, 1025, 8192, 8193],
        &[0, 1, 0x8000],
    ];
    product(&sets, &mut |v| {
        let mut image = Image::new(v[1] as u8, Default::default());
        (image.revision, image.reserved, image.page_size, image.reserved2) = (v[0] as u8, v[2] as u16, v[3] as u32, v[7] as u16);
        image.counts = Some([v[4] as u16, v[5] as u16, v[6] as u16]);
        let mut bytes = image.bytes();
        let alone = each(&bytes);
        bytes.extend_from_slice(&[0; 8]);
        alone && each(&bytes)
    })
}

/// Every revision with every arch.
fn revisions(each: Each) -> bool {
    (0..=65535u16).all(|both| {
        let [revision, arch] = both.to_le_bytes();
        [0, 4096].into_iter().all(|page_size| {
            let mut image = Image::new(arch, [vec![vsm(1)], vec![], vec![]]);
            (image.revision, image.page_size) = (revision, page_size);
            each(&image.bytes())
        })
    })
}

// ---- platforms

fn one_platform(each: Each) -> bool {
    let sets: [&[u64]; 6] = [
        &[0, 1],
        &[0, 1, 2, 3, 4, 0x8000_0000, 0x8000_0001],
        &[0, 1, 2, 3, 255],
        &[0, 1, 2, 3, 4, 5, 6, 7, 8, 255],
        &[0, 1, 2, 256, 257],
        &[0, 1, 4096, 1 << 63],
    ];
    product(&sets, &mut |v| each(&Image::new(v[0] as u8, [vec![Row::new(1, &v[1..])], vec![], vec![]]).bytes()))
}

/// Up to three platforms of masks 1 and 2, and a CcaPolicy.
fn platforms_and_policy(each: Each) -> bool {
    let pair: &[u64] = &[0, 1, 2, 3, 4, 5, 6, 7, 8, 9, 10, 11, 12, 13, 14];
    product(&[&[0, 1], pair, pair, &[14, 1, 6, 9, 13], &[0, 1, 2, 3, 4, 7]], &mut |v| {
        // 0 to 6 is a type with mask 1, 7 to 13 one with mask 2, 14 no row
        let rows = v[1..4].iter().filter(|&&code| code != 14);
        let platforms = rows.map(|code| Row::new(1, &[1 + code / 7, 0, code % 7, 1, 0])).collect();
        each(&Image::new(v[0] as u8, [platforms, vec![Row::new(17, &[v[4], 0, 0])], vec![]]).bytes())
    })
}

// ---- initializations

/// A platform, one initialization row with small fields, and a context.
fn one_initialization(each: Each) -> bool {
    let mut with_context =
        |arch: u64, row: Row| each(&Image::new(arch as u8, [vec![vsm(1)], vec![row], vec![vbs(arch as u8, 1, 0)]]).bytes());
    let policies = product(&[&[0, 1], &[0, u64::MAX], &[0, 1, 2, 3]], &mut |v| with_context(v[0], Row::new(16, &v[1..])));
    let regions: [&[u64]; 10] = [
        &[0],
        &[0, 1, 2],
        &[0, 0x800, 0x1000, 0x2000, 0x3000],
        &[0, 0x1000, 0x1800, 0x6000, TOP - 0x1000, TOP],
        &[0, 1, 0x1000, 0x2000, TOP],
        &[0, 0x800, 0x6000],
        &[0, 1, 0x6000, 0xC000],
        &[0, 7, 8],
        &[0, 1, 256],
        &[0, 2, 3],
    ];
    let tables: [&[u64]; 7] = [
        &[0, 1],
        &[0, 1, 2, 3],
        &[0, 1, 0x800, 0x1000, TOP - 0x1000, TOP],
        &[0, 1, 0x1000, 0x2000, TOP, u64::MAX],
        &[0, 1, 0x1000, 0x2000, 0x3000, TOP],
        &[0, 1, 256],
        &[0, 1, 2, 3],
    ];
    policies
        && product(&regions, &mut |v| with_context(v[0], Row::new(18, &v[1..])))
        && product(&tables, &mut |v| with_context(v[0], Row::new(19, &v[1..])))
        && cca_policies(each)
}

fn cca_policies(each: Each) -> bool {
    let numbers: &[u64] = &[0, 1, 2, 3, 1 << 63];
    product(&[&[0, 1], &[1, 6], &[0, 1, 2, 3, 0x8000_0000], numbers, numbers], &mut |v| {
        let platform = Row::new(1, &[1, 0, v[1], 1, 0]);
        each(&Image::new(v[0] as u8, [vec![platform], vec![Row::new(17, &v[2..])], vec![]]).bytes())
    })
}

/// Two regions of either kind, up to five pages apart.
fn two_regions(each: Each) -> bool {
    let pages: &[u64] = &[0, 1, 2, 3, 4];
    let masks: &[u64] = &[0, 1, 2, 3];
    let sizes: &[u64] = &[1, 2, 3];
    let kinds: &[u64] = &[18, 19];
    product(&[kinds, kinds, masks, masks, pages, pages, sizes, sizes], &mut |v| {
        let row = |n: usize| region_of(v[n], v[2 + n], 0x1000 * v[4 + n], 0x1000 * v[6 + n]);
        each(&Image::new(0, [vec![native()], vec![row(0), row(1)], vec![vbs(0, 3, 0)]]).bytes())
    })
}

/// Three regions of either kind, up to four pages apart: each may lie before, between or behind the others.
fn three_regions(each: Each) -> bool {
    let (kinds, masks, pages): (&[u64], &[u64], &[u64]) = (&[18, 19], &[1, 2, 3], &[0, 1, 2, 3]);
    product(&[kinds, kinds, kinds, masks, masks, masks, pages, pages, pages, &[1, 2]], &mut |v| {
        let row = |n: usize| region_of(v[n], v[3 + n], 0x1000 * v[6 + n], if n == 2 { 0x1000 * v[9] } else { 0x1000 });
        each(&Image::new(0, [vec![native()], vec![row(0), row(1), row(2)], vec![vbs(0, 3, 0)]]).bytes())
    })
}

// ---- directives

/// The numbers that a directive's field is given.
fn directive_values(kind: u32, name: &str) -> &'static [u64] {
    match (kind, name) {
        (_, "gpa") => &[0, 1, 0x800, 0x1000, TOP, u64::MAX],
        (_, "mask") => &[0, 1, 3],
        (32, "flags") => &[0, 0xFFFF_FFFF],
        (_, "type") => &[0, 1, 2, 3, 4, 256, 65535],
        (33, _) => &[0, 1, 0x1000, 0x1001, 0x2000, TOP, u64::MAX],
        (44, "bytes") => &[0, 1, 0x1000, 0xFFFF_F000, 0xFFFF_FFFF],
        (_, "protectable") => &[0, 1, 2, 255],
        (_, "vp") => &[0, 1, 65535],
        (_, "vtl") => &[0, 1, 2, 3, 4, 255],
        (_, "area") => &[0, 1],
        _ => &[0, 0xFFFF_FFFF],
    }
}

/// One directive of each kind with small fields, on both archs, with and without a parameter area before it.
fn one_directive(each: Each) -> bool {
    kinds().filter(|&kind| list_of(kind) == 2).all(|kind| {
        let mut sets: Vec<&[u64]> = vec![&[0, 1], &[0, 1]];
        sets.push(if is_open(kind) { &[0, 1, 4096, 4097] } else { &[0] });
        sets.extend(fields(kind).iter().map(|(name, _)| directive_values(kind, name)));
        product(&sets, &mut |v| {
            let row = Row::new(kind, &v[3..]).with_tail(&vec![0; v[2] as usize]);
            let mut directives = vec![Row::new(33, &[0x1000, 0]), row];
            if v[1] == 0 {
                directives.remove(0);
            }
            each(&Image::new(v[0] as u8, [vec![vsm(1)], vec![], directives]).bytes())
        })
    })
}

/// Every sequence of up to five rows that allocate, name or insert area 0 or 1.
fn areas(each: Each) -> bool {
    (1..=5).all(|length| area_sequences(length, [0, 1], each))
}

/// Every sequence of four rows that do so with two indexes at the ends of words and sets of bits, or with few equal bits.
fn far_areas(each: Each) -> bool {
    let pairs = [[0, 64], [63, 64], [0, 8192], [8191, 8192], [8192, 16384], [8192, 0xFFFF_FFFF], [1, 0x1_0001]];
    pairs.into_iter().all(|pair| area_sequences(4, pair, each))
}

fn area_sequences(length: usize, indexes: [u64; 2], each: Each) -> bool {
    let actions: &[u64] = &[0, 1, 2, 3, 4, 5];
    product(&vec![actions; length], &mut |v| {
        let row = |&code: &u64| {
            let index = indexes[code as usize % 2];
            match code / 2 {
                0 => Row::new(33, &[0x1000, index]),
                1 => Row::new(34, &[index, 0]),
                _ => Row::new(50, &[0, 1, index]),
            }
        };
        each(&Image::new(0, [vec![native()], vec![], v.iter().map(row).collect()]).bytes())
    })
}

/// An insert before, in and behind a page table, in and behind its used part, of an area that is there or not.
fn inserts(each: Each) -> bool {
    let masks: &[u64] = &[0, 1, 2, 3];
    product(&[&[1, 2, 3], &[0, 1, 2, 3], &[0, 1, 2, 3, 4, 5, 6], &[1, 2, 3], masks, &[0, 1]], &mut |v| {
        let (size, used, page) = (0x1000 * v[0], 0x1000 * v[1], 0x1000 * v[2]);
        let table = Row::new(19, &[v[3], 0x2000, size, used, 0, 0]);
        let area = Row::new(33, &[0x1000, v[5]]);
        let directives = vec![area, Row::new(50, &[page, v[4], 0]), vbs(0, 7, 0)];
        each(&Image::new(0, [vec![native()], vec![table, region(4, 0, 0x8000)], directives]).bytes())
    })
}

/// A region of either kind, and two contexts of any VTL.
fn region_contexts(each: Each) -> bool {
    let (masks, vtls): (&[u64], &[u64]) = (&[0, 1, 2, 3, 6], &[0, 1, 2]);
    product(&[&[18, 19], masks, &[0, 1], vtls, masks, vtls, masks, vtls], &mut |v| {
        let mut row = one_page(v[0], v[1], v[3], 0);
        row.set("vp", v[2]);
        let arch = (v[4] & 1) as u8;
        each(&Image::new(arch, [vec![vsm(1)], vec![row], vec![vbs(arch, v[4], v[5]), vbs(arch, v[6], v[7])]]).bytes())
    })
}

/// Behind a row that is no region two regions of either kind with up to three bits, of which a platform has one; a VBS context, and another one of any
/// VTL or a native one.
fn regions_and_contexts(each: Each) -> bool {
    let (archs, kinds): (&[u64], &[u64]) = (&[0, 1], &[18, 19]);
    let (masks, held): (&[u64], &[u64]) = (&[1, 3, 0x8000_0006], &[1, 3, 6, 0x8000_0004]);
    product(&[archs, kinds, kinds, masks, masks, &[0, 1], &[0, 2], held, held, &[0, 1, 2, 3]], &mut |v| {
        let arch = v[0] as u8;
        let row = |n: usize| one_page(v[1 + n], v[3 + n], v[5 + n], n as u64);
        let second = if v[9] == 3 { Row::new(native_context(arch), &[v[8], 0]) } else { vbs(arch, v[8], v[9]) };
        let initializations = vec![Row::new(16, &[0, 1]), row(0), row(1)];
        each(&Image::new(arch, [vec![vsm(1)], initializations, vec![vbs(arch, v[7], 0), second]]).bytes())
    })
}

// ---- several faults

/// For each refusal of a row, one that meets it behind those of the next function's image, with its list.
fn faults(arch: u8) -> Vec<(usize, Row)> {
    let other = 1 - arch;
    let platform = |values: [u64; 5]| (0, Row::new(1, &values));
    let relocatable = |alignment: u64, gpa: u64, size: u64| (1, Row::new(18, &[2, alignment, gpa, size, 0, 0, 0, 0, 0]));
    let table = |mask: u64, gpa: u64, size: u64, used: u64| (1, Row::new(19, &[mask, gpa, size, used, 0, 0]));
    vec![
        platform([3, 0, 1, 1, 0]),
        platform([2, 1, 1, 1, 0]),
        platform([2, 0, 1, 2, 0]),
        platform([2, 0, 1, 1, 0x1000]),
        platform([2, 0, 7, 1, 0]),
        platform([2, 0, if arch == 0 { 6 } else { 0 }, 1, 0]),
        platform([2, 0, 1, 1, 0]),
        (1, Row::new(17, &[1, 1, 1])),
        relocatable(0x1000, 0, 0x1800),
        relocatable(0x800, 0, 0x1000),
        relocatable(0, 0, 0x1000),
        relocatable(0x2000, 0x1000, 0x1000),
        table(2, 0x800, 0x1000, 0),
        table(2, 0, 0x1000, 0x800),
        table(2, 0, 0x1000, 0x2000),
        (2, vbs(other, 1, 0)),
        (1, Row::new(17, &[1, 0, 0])),
        table(3, 0x20000, 0x1000, 0),
        table(2, 0, 0, 0),
        relocatable(0x1000, TOP, 0x1000),
        (1, region(1, 0x11000, 0x1000)),
        (2, Row::new(32, &[0, 1, 0, 4])),
        (2, Row::new(33, &[0, 7]).with_tail(b"x")),
        (2, Row::new(34, &[7, 0])),
        (2, Row::new(50, &[0x10000, 1, 0])),
    ]
}

/// Two rows at fault, each by any refusal, behind a platform, a page table, an area and a context.
fn two_faults(each: Each) -> bool {
    (0..2).all(|arch| {
        let faults = faults(arch);
        let directives = || vec![vbs(arch, 1, 0), Row::new(33, &[0x1000, 0])];
        let base = || Image::new(arch, [vec![vsm(1)], vec![page_table(1, 0x10000, 0x2000)], directives()]);
        let mut with = |rows: [&(usize, Row); 2]| {
            let mut image = base();
            rows.into_iter().for_each(|(list, row)| image.lists[*list].push(row.clone()));
            each(&image.bytes())
        };
        faults.iter().all(|first| faults.iter().all(|second| with([first, second])))
    })
}

/// Each list with rows in order, faulty ones, both or none.
fn faults_in_lists(each: Each) -> bool {
    (0..2u8).all(|arch| {
        let (no_mask, no_page) = (vsm(3), Row::new(32, &[1, 1, 0, 0]));
        let mut other_vp = region(1, 0, 0x1000);
        other_vp.set("vp", 1);
        let [context, of_other_arch] = [vbs(arch, 1, 0), vbs(1 - arch, 1, 0)];
        let [area, a_use, no_area] = [Row::new(33, &[0, 0]), Row::new(34, &[0, 0]), Row::new(33, &[1, 0])];
        let [none, table] = [region(1, 0, 0), page_table(1, 0, 0x1000)];
        let platforms = [
            vec![],
            vec![vsm(1)],
            vec![no_mask.clone()],
            vec![no_mask.clone(), vsm(1)],
            vec![vsm(1), vsm(2)],
            vec![no_mask.clone(), no_mask],
        ];
        let initializations = [
            vec![],
            vec![region(1, 0, 0x1000)],
            vec![none.clone()],
            vec![none, region(1, 0, 0x1000)],
            vec![other_vp.clone()],
            vec![table.clone(), other_vp],
            vec![page_table(1, 0, 0), table],
        ];
        let directives = [
            vec![],
            vec![context.clone()],
            vec![of_other_arch],
            vec![no_page.clone()],
            vec![no_page, context.clone()],
            vec![area, a_use.clone(), context],
            vec![no_area, a_use],
        ];
        platforms.iter().all(|p| {
            initializations.iter().all(|i| directives.iter().all(|d| each(&Image::new(arch, [p.clone(), i.clone(), d.clone()]).bytes())))
        })
    })
}

/// Every sequence of up to four rows that allocate, name or insert one area, also by faulty rows, and in a page table that is faulty or not.
fn faults_of_areas(each: Each) -> bool {
    let actions: &[u64] = &[0, 1, 2, 3, 4, 5];
    let row = |code: &u64| match code {
        0 => Row::new(33, &[0x1000, 9]),
        1 => Row::new(33, &[0x1001, 9]),
        2 => Row::new(34, &[9, 0]),
        3 => Row::new(50, &[0, 1, 9]),
        4 => Row::new(50, &[0x2000, 1, 9]),
        _ => Row::new(50, &[0x2001, 1, 9]),
    };
    (1..=4).all(|length| {
        product(&vec![actions; length], &mut |v| {
            [page_table(1, 0x2000, 0x1000), Row::new(19, &[1, 0x2000, 0x1000, 0x2000, 0, 0])].into_iter().all(|table| {
                let directives = v.iter().map(row).chain([vbs(0, 1, 0)]).collect();
                each(&Image::new(0, [vec![native()], vec![table], directives]).bytes())
            })
        })
    })
}

// ---- lengths, cut sheets, changed bytes

/// A row of every kind that the arch takes.
fn every_kind(arch: u8) -> Image {
    let platform = if arch == 0 { native() } else { Row::new(1, &[1, 0, 6, 1, 0]) };
    let mut initializations = vec![region(1, 0x100000, 0x2000), page_table(1, 0x300000, 0x2000), Row::new(16, &[7, 1])];
    let mut directives = vec![Row::new(32, &[0, 1, 0, 0]).with_tail(b"data"), Row::new(33, &[0x1000, 0]).with_tail(b"area")];
    directives.extend((34..44).map(|kind| Row::new(kind, &[0, 0])));
    directives.push(Row::new(44, &[0, 1, 0x1000, 0]));
    directives.push(Row::new(45, &[0, 1, 0]).with_tail(b"x"));
    directives.push(Row::new(native_context(arch), &[1, 0]).with_tail(b"x"));
    directives.push(vbs(arch, 1, 0).with_tail(b"xyz"));
    directives.push(Row::new(50, &[0, 1, 0]));
    directives.push(Row::new(51, &[0, 1, 1]));
    directives.push(Row::new(52, &[1]).with_tail(b"x"));
    directives.push(Row::new(53, &[1]).with_tail(b"x"));
    if arch == 1 {
        initializations.push(Row::new(17, &[1, 1, 2]));
    }
    Image::new(arch, [vec![platform], initializations, directives])
}

fn lengths_and_bytes(each: Each) -> bool {
    (0..2).all(|arch| cut_and_changed(&every_kind(arch).bytes(), each))
        && (0..256).chain([257, 0x1_0012, u32::MAX]).all(|kind| body_lengths(kind, each))
}

/// A row of every kind behind a platform that is refused (8), cut and changed likewise: only faults of reading come before the platform's.
fn behind_a_fault(each: Each) -> bool {
    (0..2).all(|arch| {
        let mut image = every_kind(arch);
        image.lists[0][0].set("mask", 3);
        cut_and_changed(&image.bytes(), each)
    })
}

/// The sheet cut at every length, and with every byte changed.
fn cut_and_changed(bytes: &[u8], each: Each) -> bool {
    (0..bytes.len()).all(|length| each(&bytes[..length]) && one_byte_changed(bytes, length, each))
}

fn one_byte_changed(bytes: &[u8], at: usize, each: Each) -> bool {
    let changed = [0, 1, 2, 0xFF, bytes[at] ^ 1, bytes[at] ^ 0x10, bytes[at] ^ 0x80, bytes[at].wrapping_add(1)];
    changed.into_iter().all(|byte| {
        let mut other = bytes.to_vec();
        other[at] = byte;
        each(&other)
    })
}

/// A row of this kind in each list, its body of each length about the least; whole, one byte short, and with one byte left over.
fn body_lengths(kind: u32, each: Each) -> bool {
    let least = if kind == 17 { 22 } else { fields_length(kind) };
    (0..3).all(|list| {
        (least.saturating_sub(2)..least + 3).all(|length| {
            let mut lists = [vec![native()], vec![], vec![]];
            lists[list].push(Row { kind, body: vec![0; length] });
            let mut bytes = Image::new(0, lists).bytes();
            let whole = each(&bytes) && each(&bytes[..bytes.len() - 1]);
            bytes.push(0);
            whole && each(&bytes)
        })
    })
}

// ---- the limits

/// Lists of the greatest length and one row more, sheets of the greatest length and one byte more; and the same about the lengths that were the greatest before,
/// 1,024 directive rows and 16,777,216 bytes. Lists of the greatest length in which every row is faulty.
fn limits(each: Each) -> bool {
    let regions = |count: u64| (0..count).map(|n| region(1, 0x2000 * n, 0x2000)).collect::<Vec<_>>();
    let with = |p: usize, i: u64, d: usize| Image::new(0, [vec![native(); p], regions(i), vec![vbs(0, 1, 0); d]]);
    let rows = [with(1, 65, 1), with(16, 1, 1), with(17, 1, 1), with(1, 64, 1)];
    let directives = [1024, 1025, 8191, 8192, 8193].map(|count| with(1, 64, count));
    rows.iter().chain(&directives).all(|image| each(&image.bytes()))
        && limits_of_areas(each)
        && each(&Image::new(0, [vec![vsm(3); 16], vec![region(1, 0, 0); 64], vec![Row::new(34, &[0, 0]); 8192]]).bytes())
        && [16_777_216, 16_777_217, 67_108_863, 67_108_864, 67_108_865].into_iter().all(|length| {
            let mut image = with(1, 2, 1);
            image.lists[2].push(Row::new(52, &[1]));
            let missing = length - image.bytes().len();
            image.lists[2][1].body.resize(4 + missing, 0);
            each(&image.bytes()) && each(&vec![0; length])
        })
}

/// As many areas as fit into 1,024 rows and into 8,192, each inserted behind its allocation. Then areas with indexes spread over 32 bits: as many as the library's
/// small table has room for, one less, one more, and one in each row; behind them or in the last row each of the first and the last is allocated again, or
/// used, or used behind its insert.
fn limits_of_areas(each: Each) -> bool {
    let inserted = |areas: u64| (0..areas).flat_map(|area| [Row::new(33, &[0, area]), Row::new(50, &[0, 1, area])]).collect::<Vec<_>>();
    let mut of = |directives: Vec<Row>| each(&Image::new(0, [vec![native()], vec![], directives]).bytes());
    let spread = |n: u64| n * 0x9E37_79B1 & 0xFFFF_FFFF;
    [511, 512, 4095, 4096].into_iter().all(|areas| of(inserted(areas)))
        && [1023, 1024, 1025, 1026, 8189, 8192].into_iter().all(|areas| {
            let allocated: Vec<Row> = (1..=areas).map(|n| Row::new(33, &[0x1000, spread(n)])).collect();
            let of_area = |n: u64| {
                let (index, insert) = (spread(n), Row::new(50, &[0, 1, spread(n)]));
                let a_use = || Row::new(34, &[index, 0]);
                [vec![a_use()], vec![Row::new(33, &[0x1000, index])], vec![insert.clone(), a_use()], vec![a_use(), insert.clone(), insert]]
            };
            let behind = [1, areas, areas + 1].into_iter().flat_map(of_area);
            of(allocated.clone()) && behind.into_iter().all(|behind| of([&allocated[..], &behind].concat()))
        })
}

// ---- queries

/// Every sheet that is asked of with the queries given.
pub fn every_query(each: &mut dyn FnMut(&[u8], &[Call]) -> bool) -> bool {
    every_base(each) && every_alignment(each) && every_range(each) && ranges_by_alignment(each) && every_owner(each) && high_owners(each)
}

/// Every address at the first and the last byte of a page, and every length about that of an index, by every mask of two bits.
fn owner_queries() -> Vec<Call> {
    let addresses = (0..9).flat_map(|page: u64| [(0x1000 * page).wrapping_sub(1), 0x1000 * page]).chain([0x800, 0x3FFE, 0x4001]);
    let addresses: Vec<u64> = addresses.collect();
    let lengths = [0, 7, 8, 16, 23, 24, 25, 31, 32, 40, 47, 48, 49, 55, 56, 72];
    let of_mask = |mask: u32| {
        let by_address = addresses.iter().map(move |&gpa| Call::RegionOf { mask, gpa });
        by_address.chain(lengths.map(|lent| Call::RegionIndex { mask, lent })).collect::<Vec<_>>()
    };
    (0..4).chain([4]).flat_map(of_mask).collect()
}

/// Two regions of either kind and any masks of two bits, of up to three pages, the second before, at, in and behind the first; of a page table a page is used.
fn every_owner(each: &mut dyn FnMut(&[u8], &[Call]) -> bool) -> bool {
    let (kinds, masks): (&[u64], &[u64]) = (&[18, 19], &[1, 2, 3]);
    let queries = owner_queries();
    product(&[kinds, kinds, masks, masks, &[1, 2, 3], &[0, 1, 2, 3, 4, 5, 6], &[1, 2]], &mut |v| {
        let [mut first, mut second] = [region_of(v[0], v[2], 0x3000, 0x1000 * v[4]), region_of(v[1], v[3], 0x1000 * v[5], 0x1000 * v[6])];
        [&mut first, &mut second].into_iter().for_each(|row| row.set("used", 0x1000));
        each(&Image::new(0, [vec![native(), vsm(2)], vec![first, second], vec![vbs(0, 3, 0)]]).bytes(), &queries)
    })
}

/// A region of either kind that is large or stands at the highest addresses, and above or below it one of a page.
fn high_owners(each: &mut dyn FnMut(&[u8], &[Call]) -> bool) -> bool {
    let places = [(0, TOP), (0x1000, TOP - 0x2000), (1 << 40, 1 << 62), (1 << 63, 1 << 62), (TOP - 0x1000, 0x1000), (0xFFFF_F000, 0x2000)];
    places.into_iter().all(|(gpa, size)| {
        [18, 19].into_iter().all(|kind| {
            [gpa.wrapping_sub(0x1000), gpa + size, gpa].into_iter().all(|other| {
                let sheet =
                    Image::new(0, [vec![native()], vec![region_of(kind, 1, gpa, size), region(3, other, 0x1000)], vec![vbs(0, 3, 0)]]);
                let sheet = sheet.bytes();
                let of_mask = |mask: u32| plan::region_addresses(&sheet).into_iter().map(move |gpa| Call::RegionOf { mask, gpa });
                let lists = [1, 2].map(|mask| Call::RegionIndex { mask, lent: 48 });
                each(&sheet, &[of_mask(1).collect(), of_mask(2).collect(), lists.to_vec()].concat())
            })
        })
    })
}

/// Every alignment about a power of two: each of gpa, minimum and maximum at every address about its multiples, the others at a multiple; and every such base.
fn every_alignment(each: &mut dyn FnMut(&[u8], &[Call]) -> bool) -> bool {
    alignments::every().into_iter().all(|alignment| {
        let highest = TOP - TOP.checked_rem(alignment).unwrap_or(0);
        let region = Row::new(18, &[1, alignment, 0, 0x1000, 0, highest, 0, 0, 0]);
        let of = |region: Row| Image::new(0, [vec![native()], vec![region], vec![vbs(0, 1, 0)]]).bytes();
        let addresses = alignments::addresses(alignment);
        let bases: Vec<Call> = addresses.iter().map(|&base| Call::BaseValid { mask: 1, region: 0, base }).collect();
        each(&of(region.clone()), &bases)
            && ["gpa", "minimum", "maximum"].into_iter().all(|name| {
                addresses.iter().all(|&address| {
                    let mut changed = region.clone();
                    changed.set(name, address);
                    each(&of(changed), &[])
                })
            })
    })
}

/// Two small regions with every alignment, size, minimum and maximum of few pages, each with every base and address of few pages.
fn every_base(each: &mut dyn FnMut(&[u8], &[Call]) -> bool) -> bool {
    let (alignments, pages): (&[u64], &[u64]) = (&[0x1000, 0x2000, 0x3000], &[0, 1, 2, 3, 4, 6]);
    let places: Vec<u64> = (0..17).map(|n| 0x800 * n).chain([u64::MAX, TOP, TOP - 0x1000]).collect();
    let lengths = [0, 7, 8, 56, 63, 64, 65, 71, 72, 127, 128, 135];
    let ranges = [(0, 0), (0, 0x1000), (0x1000, 0), (0, u64::MAX), (u64::MAX, 0), (1, 0), (0x1000, 0x1000)];
    let mut queries = Vec::new();
    for mask in 0..4 {
        queries.extend(lengths.map(|lent| Call::Relocations { mask, lent }));
        for region in 0..3 {
            queries.extend(places.iter().map(|&base| Call::BaseValid { mask, region, base }));
            queries.extend(places.iter().map(|&gpa| Call::Contains { mask, region, gpa }));
            queries.extend(ranges.map(|(lowest, highest)| Call::BaseRange { mask, region, lowest, highest }));
        }
    }
    product(&[alignments, &[1, 2, 3], pages, pages, &[1, 2, 3]], &mut |v| {
        let [alignment, size, minimum, maximum, mask] = [v[0], 0x1000 * v[1], v[0] * v[2], v[0] * v[3], v[4]];
        let first = Row::new(18, &[mask, alignment, 0x6000, size, minimum, maximum, 5, 0, 0]);
        let second = Row::new(18, &[1, 0x1000, 0, 0x1000, 0, 0x8000, 2, 0, 1]);
        let directives = vec![vbs(0, 3, 0), vbs(0, 1, 1)];
        each(&Image::new(0, [vec![native()], vec![first, second], directives]).bytes(), &queries)
    })
}

/// Every range with these ends, also from above down, of region 0 of mask 1.
fn ranges_of(ends: &[u64]) -> Vec<Call> {
    let range = |lowest: u64, highest: u64| Call::BaseRange { mask: 1, region: 0, lowest, highest };
    ends.iter().flat_map(|&lowest| ends.iter().map(move |&highest| range(lowest, highest))).collect()
}

/// A small region with every alignment, size, minimum and maximum of few pages, also a minimum above the maximum, and every range whose ends are
/// about the first multiples, or the highest addresses.
fn every_range(each: &mut dyn FnMut(&[u8], &[Call]) -> bool) -> bool {
    let (alignments, multiples): (&[u64], &[u64]) = (&[0x1000, 0x2000, 0x3000], &[0, 1, 2, 3, 4, 6]);
    product(&[alignments, &[1, 2, 3, 7], multiples, multiples], &mut |v| {
        let [alignment, size, minimum, maximum] = [v[0], 0x1000 * v[1], v[0] * v[2], v[0] * v[3]];
        let about = |times: u64| [(times * alignment).saturating_sub(1), times * alignment, times * alignment + alignment / 2];
        let ends: Vec<u64> = (0..8).flat_map(about).skip(1).chain([TOP - 0x1000, TOP, u64::MAX]).collect();
        let region = Row::new(18, &[1, alignment, 0x6000, size, minimum, maximum, 0, 0, 0]);
        each(&Image::new(0, [vec![native()], vec![region], vec![vbs(0, 1, 0)]]).bytes(), &ranges_of(&ends))
    })
}

/// Every alignment about a power of two with every range whose ends are about its multiples, of which the bounds are the first and the highest, the
/// second and the highest, the highest but one twice, and the highest and the second: there the minimum is above the maximum.
fn ranges_by_alignment(each: &mut dyn FnMut(&[u8], &[Call]) -> bool) -> bool {
    alignments::every().into_iter().filter(|alignment| *alignment != 0 && alignment % 0x1000 == 0).all(|alignment| {
        let highest = TOP - TOP % alignment;
        let (second, before) = (alignment.min(highest), highest.saturating_sub(alignment));
        let mut ends = alignments::addresses(alignment);
        ends.extend([before, highest - 1, highest, highest.saturating_add(1), highest.saturating_add(alignment / 2), u64::MAX]);
        ends.sort_unstable();
        ends.dedup();
        let queries = ranges_of(&ends);
        [(0, highest), (second, highest), (before, before), (highest, second)].into_iter().all(|(minimum, maximum)| {
            let region = Row::new(18, &[1, alignment, 0, 0x1000, minimum, maximum, 0, 0, 0]);
            each(&Image::new(0, [vec![native()], vec![region], vec![vbs(0, 1, 0)]]).bytes(), &queries)
        })
    })
}
