//! A sample of answers for a replay without the Rust: `args`, `data/calls-1` and so on, and `stdout` of the program crates/replay. Every answer is
//! the Rust's, or document 01's where the Rust has none; why a base is not valid, what follows over a range of bases, the strict verdict on what the
//! verdict accepts, which region has an address, an index, and a report, is document 02's. The library is not asked. Among them are few sheets of more than
//! 1,024 directive rows, made for what they show.

use crate::bases::{Bases, Faults};
use crate::columns::Columns;
use crate::compare::{answer, to_lend, Answer, By, Call, Extent, Rust};
use crate::generate::TOP;
use crate::owner::{self, Lookups, Owners};
use crate::random::Random;
use crate::ranges::{self, Ranges};
use crate::report::{self, Answered};
use crate::sheet::{hex, Image, Row};
use crate::short::{native, one_page, page_table, vbs, vsm};
use crate::tally::{refusals, Tally};
use crate::trimming::{Choice, RULE};
use crate::{caught, faulty, generate, large, paper, plan, region, short, shrink, speed, strict};
use calls::Calls;
use oracle::Headers;
use std::collections::BTreeMap;
use std::fs;
use std::path::Path;

/// Random sheets that the sample is taken from.
const SHEETS: u64 = 40_000;
/// The greatest length of most sheets, and of the few that hold a page of data or many rows.
const SMALL: usize = 600;
const LARGE: usize = 9000;
/// The cases that each refusal must have at least.
const LEAST: usize = 3;
/// Random bytes in a region's place.
const REGIONS: u64 = 8;
/// Sheets of several faulty rows that reports are taken from.
const FAULTY: u64 = 20_000;
/// Random bytes in the place of an index.
const LOOKUPS: u64 = 400;
/// How many bytes of a file the replay has room for.
const FILE: usize = 524_288;
/// How many bytes the replay can lend.
const LENT: usize = 4224;

/// One call on one sheet, with its answer.
struct Case {
    sheet: Vec<u8>,
    call: Call,
    answer: Answer,
}

/// Writes the sample into the folder, or compares it with what is there.
pub fn run(seed: u64, folder: &str, check: bool) -> Result<(), String> {
    let mut cases = sample(seed)?;
    cases.extend(region_bytes(seed)?);
    cases.extend(range_cases()?);
    cases.extend(strict_cases()?);
    cases.extend(report_cases()?);
    cases.extend(sample_of_reports(seed)?);
    cases.extend(owner_cases()?);
    cases.extend(lookups(seed)?);
    cases.extend(trimmed_cases()?);
    cases.extend(large_sheets()?);
    catch_wrong_copies(seed, &mut cases)?;
    cases.sort_by_key(|case| (case.number(), case.code()));
    every_refusal(&cases)?;
    every_base(&cases)?;
    every_range(&cases)?;
    every_strict(&cases)?;
    every_report(&cases)?;
    every_owner(&cases)?;
    let files = files(&cases);
    let lines: String = cases.iter().map(Case::line).collect();
    let by_rust = cases.iter().filter(|case| case.answer.by.is_rust()).count();
    let bytes: usize = files.iter().map(|(_, calls)| calls.len()).sum();
    println!("record: {} cases of {bytes} bytes in {} files, {by_rust} of them answered by the Rust", cases.len(), files.len());
    println!("  they catch every wrong copy but {}", NOT_CAUGHT.join(", "));
    let names: String = files.iter().map(|(name, _)| format!("{name}\n")).collect();
    let texts = [("args".to_string(), names.into_bytes()), ("stdout".to_string(), lines.into_bytes())];
    for (name, bytes) in files.into_iter().map(|(name, calls)| (format!("data/{name}"), calls)).chain(texts) {
        let path = Path::new(folder).join(name);
        let failed = |error: std::io::Error| format!("{}: {error}", path.display());
        if !check {
            fs::write(&path, bytes).map_err(failed)?;
        } else if fs::read(&path).map_err(failed)? != bytes {
            return Err(format!("{} is not what `record` writes", path.display()));
        }
    }
    Ok(())
}

/// The bytes of the cases, in files that the replay has room for, each with its name.
fn files(cases: &[Case]) -> Vec<(String, Vec<u8>)> {
    let mut files: Vec<Vec<u8>> = vec![Vec::new()];
    for bytes in cases.iter().map(Case::bytes) {
        if files.last().unwrap().len() + bytes.len() > FILE {
            files.push(Vec::new());
        }
        files.last_mut().unwrap().extend(bytes);
    }
    files.into_iter().enumerate().map(|(index, calls)| (format!("calls-{}", index + 1), calls)).collect()
}

/// Cases of each sort, from random sheets.
fn sample(seed: u64) -> Result<Vec<Case>, String> {
    let mut sample = Sample::default();
    for case in 0..SHEETS {
        let mut random = Random::new(seed, case);
        let sheet = generate::sheet(&mut random);
        if sheet.len() <= LARGE {
            sample.offer_sheet(&mut random, &sheet)?;
        }
    }
    Ok(sample.cases)
}

/// Checks by words, both of each: too few bytes, others behind a region's, and random ones.
fn region_bytes(seed: u64) -> Result<Vec<Case>, String> {
    let mut cases = Vec::new();
    let mut each = |region: &[u8], base: u64, gpa: u64| {
        let both = [Call::RegionBaseValid { base }, Call::RegionContains { gpa }];
        cases.extend(both.map(|call| Case::new(region, &Rust::of(&[]), call)));
        true
    };
    [0, 8, 63, 65, 80].into_iter().all(|length| region::of_length(length, &mut each));
    (0..REGIONS).all(|case| region::random_bytes(&mut Random::new(seed, case), &mut each));
    cases.into_iter().collect()
}

/// An image with these regions, each with alignment, gpa, size, minimum and maximum, and a context.
fn with_regions(regions: &[[u64; 5]]) -> Image {
    let row = |&[alignment, gpa, size, minimum, maximum]: &[u64; 5]| Row::new(18, &[1, alignment, gpa, size, minimum, maximum, 0, 0, 0]);
    Image::new(0, [vec![native()], regions.iter().map(row).collect(), vec![vbs(0, 1, 0)]])
}

/// A region, and ranges of its bases.
type RangesOf = ([u64; 5], Vec<(u64, u64)>);

/// The region of document 01's image B, and ones whose alignment is 0x3000, whose minimum is above the maximum or above maximum - size, whose maximum
/// is the highest, and whose alignment is the highest power of two and the highest of all. Each with ranges of bases.
fn ranges_of_regions() -> Vec<RangesOf> {
    let (half, most) = (1 << 63, u64::MAX);
    let b = vec![
        (0, 0x1FE000),
        (0, 0x1FEFFF),
        (0, 0x1FF000),
        (1, 0x1FF000),
        (0x1FE000, 0x1FF000),
        (0x1FE000, 0x1FE000),
        (0x1FF000, 0x1FF000),
        (0x1FE001, 0x1FEFFF),
        (0x1FE001, 0x1FF000),
        (0x1FF000, most),
        (0, most),
        (most, most),
        (1, 0),
        (most, 0),
        (0x2000, 0x1000),
    ];
    let of_3000 = vec![
        (0, 0x3000),
        (0x1000, 0x3000),
        (0x2FFF, 0x6000),
        (0x3000, 0x8FFF),
        (0x3001, 0x5FFF),
        (0x4000, 0x5000),
        (0x4000, 0x9000),
        (0, 0xC000),
        (0x2000, 0x7000),
        (0x6000, 0x6000),
        (0x9000, 0xF000),
        (0, most),
        (0x6000, 0x3000),
    ];
    let of_bounds = vec![(0, 0xF000), (0x4000, 0x8000), (0x3000, 0x3000), (0, most), (0x1000, 0x1FFF)];
    let of_highest = vec![
        (0, TOP - 0x2000),
        (0, TOP - 0x1001),
        (TOP - 0x2000, TOP - 0x1000),
        (TOP - 0x1000, TOP - 0x1000),
        (TOP, most),
        (TOP + 1, most),
        (0, most),
    ];
    let of_half = vec![(0, half - 1), (0, half), (1, half), (half, most), (1, half - 1), (half + 1, most), (0, most)];
    let of_most = vec![(0, 0), (0, TOP), (1, TOP), (TOP + 1, most), (1, TOP - 1)];
    vec![
        ([0x1000, 0x100000, 0x2000, 0, 0x200000], b),
        ([0x3000, 0x6000, 0x1000, 0x3000, 0x9000], of_3000),
        ([0x1000, 0, 0x1000, 0x8000, 0x4000], of_bounds.clone()),
        ([0x1000, 0, 0x3000, 0x3000, 0x4000], of_bounds.clone()),
        ([0x1000, 0, 0x3000, 0, 0x2000], of_bounds),
        ([0x1000, 0, 0x2000, 0, TOP], of_highest),
        ([half, 0, 0x1000, 0, half], of_half),
        ([TOP, 0, 0x1000, 0, TOP], of_most),
    ]
}

/// Ranges of bases of one region; of two, whose rows stand in either order, each by its number in either; and refusals, of which 50 is the last.
fn range_cases() -> Result<Vec<Case>, String> {
    let mut cases = Vec::new();
    let mut add = |image: &Image, mask: u32, region: u64, (lowest, highest): (u64, u64)| {
        let (sheet, call) = (image.bytes(), Call::BaseRange { mask, region, lowest, highest });
        cases.push(Case::new(&sheet, &Rust::of(&sheet), call));
    };
    let regions = ranges_of_regions();
    for (region, of_region) in &regions {
        of_region.iter().for_each(|&range| add(&with_regions(&[*region]), 1, 0, range));
    }
    let (b, of_3000) = (regions[0].0, regions[1].0);
    for range in [(0, 0x6000), (0x3000, 0x8FFF), (0x9000, 0x1FE000)] {
        for (number, order) in [[b, of_3000], [of_3000, b]].iter().enumerate() {
            add(&with_regions(order), 1, number as u64, range);
            add(&with_regions(order), 1, 1 - number as u64, range);
        }
    }
    for (mask, number) in [(0, 0), (0, 1), (2, 0), (1, 1), (1, 1 << 32), (1, u64::MAX)] {
        [(0, u64::MAX), (1, 0)].into_iter().for_each(|range| add(&with_regions(&[b]), mask, number, range));
    }
    add(&with_regions(&[]), 1, 0, (0, u64::MAX));
    add(&with_regions(&[b, b]), 1, 0, (1, 0));
    cases.into_iter().collect()
}

/// A region, with kind, mask and VTL, or a context, with kind, mask and VTL or VP index.
type Masked = (u64, u64, u64);

/// An image with these regions, of a page each, and these contexts.
fn with_contexts(arch: u8, regions: &[Masked], contexts: &[Masked]) -> Image {
    let region = |(number, &(kind, mask, vtl)): (u64, &Masked)| one_page(kind, mask, vtl, number);
    let context = |&(kind, mask, index): &Masked| Row::new(kind as u32, &[mask, index]);
    Image::new(arch, [vec![vsm(1)], (0..).zip(regions).map(region).collect(), contexts.iter().map(context).collect()])
}

/// Images chosen for what the strict verdict on them shows. On both archs a region of either kind with two bits: with a context that has one of them, with one
/// that has both, with one for each, and where one of another VTL or a native one has the other. Two regions in either order: both lack a bit, the page
/// table does, and it is refused by 34 where the other lacks a bit, since it has no context or another VP index than 0. A region of all 32 bits, of which the
/// highest, the lowest or none is without a context. Several bits and regions; a region behind rows of another kind, and one before a directive
/// that is refused.
fn strict_images() -> Vec<Image> {
    let mut images = Vec::new();
    for (arch, vbs, native) in [(0, 47, 46), (1, 48, 49)] {
        let contexts: [&[Masked]; 5] =
            [&[(vbs, 1, 0)], &[(vbs, 3, 0)], &[(vbs, 2, 0), (vbs, 1, 0)], &[(vbs, 1, 0), (vbs, 2, 1)], &[(vbs, 2, 0), (native, 3, 0)]];
        images.extend(contexts.iter().flat_map(|contexts| [18, 19].map(|kind| with_contexts(arch, &[(kind, 3, 0)], contexts))));
    }
    let (region, table) = ((18, 3, 0), (19, 6, 1));
    let of_two: [(&[Masked], u64); 4] =
        [(&[(47, 1, 0), (47, 2, 1)], 0), (&[(47, 3, 0), (47, 2, 1)], 0), (&[(47, 1, 0)], 0), (&[(47, 1, 0), (47, 6, 1)], 1)];
    for (contexts, vp) in of_two {
        for (regions, at) in [([region, table], 1), ([table, region], 0)] {
            let mut image = with_contexts(0, &regions, contexts);
            image.lists[1][at].set("vp", vp);
            images.push(image);
        }
    }
    let every_bit = |contexts: &[Masked]| with_contexts(0, &[(18, 0xFFFF_FFFF, 2)], contexts);
    images.extend([every_bit(&[(47, 0x7FFF_FFFF, 2)]), every_bit(&[(47, 0xFFFF_FFFE, 2)])]);
    images.push(every_bit(&(0..32).map(|place| (47, 1 << place, 2)).collect::<Vec<_>>()));
    images.push(with_contexts(0, &[(18, 15, 0), (18, 7, 0)], &[(47, 1, 0)]));
    let [mut behind, mut before] = [(); 2].map(|()| with_contexts(0, &[region], &[(47, 1, 0)]));
    behind.lists[1].splice(..0, [Row::new(16, &[0, 1]), Row::new(16, &[0, 2])]);
    before.lists[2].push(Row::new(34, &[0, 0]));
    images.extend([behind, before]);
    images
}

/// The strict verdict on these images.
fn strict_cases() -> Result<Vec<Case>, String> {
    let sheets = strict_images().into_iter().map(|image| image.bytes());
    sheets.map(|sheet| Case::new(&sheet, &Rust::of(&sheet), Call::StrictVerdict)).collect()
}

/// Image B of document 01.
fn image_b() -> Image {
    with_regions(&[[0x1000, 0x100000, 0x2000, 0, 0x200000]])
}

/// An image of AArch64 with these platforms, each with mask, type and version, and a policy of this mask.
fn with_policy(platforms: &[[u64; 3]], mask: u64) -> Image {
    let platform = |&[mask, typ, version]: &[u64; 3]| Row::new(1, &[mask, 0, typ, version, 0]);
    Image::new(1, [platforms.iter().map(platform).collect(), vec![Row::new(17, &[mask, 0, 0])], vec![]])
}

/// An image of X64 with these regions, a context for every bit, and these directives.
fn with_rows(initializations: Vec<Row>, directives: Vec<Row>) -> Image {
    Image::new(0, [vec![native()], initializations, [vec![vbs(0, 0xFFFF_FFFF, 0)], directives].concat()])
}

/// Images chosen for what the report on them shows. Platforms: one that is skipped would have been the last of its mask, and would have ended 25 or brought it, by
/// 10 and by 14; and one whose type only a skipped one has. Regions: a page table is skipped by 27, 28, 29 or 26, and one behind it that
/// shares a bit is not; a region is skipped by 29 under one of its bits, and one behind it that shares only the others is not. Areas: one that only a skipped row
/// allocates is used, and allocated then; an insert in a page table, and then others; an insert in a page table that is skipped; a second
/// allocation behind an insert. 15: with faulty rows and without, where there is no platform row or each is faulty. 34: a VP index, no context, a context that is
/// skipped; and none where the region is. Every row faulty; no row; image B.
fn report_images() -> Vec<Image> {
    let region = short::region;
    let mut images = vec![
        with_policy(&[[1, 6, 1], [1, 1, 2]], 1),
        with_policy(&[[1, 6, 2], [1, 1, 1]], 1),
        with_policy(&[[2, 1, 1], [1, 6, 1], [1, 1, 1]], 1),
        with_policy(&[[1, 6, 1], [2, 6, 1]], 3),
        with_policy(&[[2, 6, 2], [1, 6, 1]], 1),
    ];
    let top = Row::new(19, &[3, TOP, 0x1000, 0, 0, 0]);
    for first in [page_table(3, 0, 0), top, page_table(3, 0x1000, 0x2000), page_table(5, 0x8000, 0x1000)] {
        let before = vec![region(1, 0x2000, 0x1000), page_table(4, 0x4000, 0x1000), first];
        let tables = [page_table(2, 0x6000, 0x1000), page_table(1, 0x7000, 0x1000)];
        images.push(with_rows([before, tables.to_vec()].concat(), vec![]));
    }
    images.push(with_rows([1, 7, 2, 4, 1].map(|mask| region(mask, 0x1000, 0x1000)).to_vec(), vec![]));
    let (area, a_use) = (|bytes: u64| Row::new(33, &[bytes, 5]), || Row::new(34, &[5, 0]));
    let insert = |gpa: u64| Row::new(50, &[gpa, 1, 5]);
    let table = || vec![page_table(1, 0x1000, 0x1000)];
    images.extend([
        with_rows(vec![], vec![area(0x1001), a_use(), insert(0), area(0x1000), a_use(), insert(0)]),
        with_rows(vec![], vec![area(0).with_tail(b"x"), insert(0), area(0), insert(1), insert(0)]),
        with_rows(table(), vec![area(0), insert(0x1000), a_use(), insert(0x2000), a_use(), insert(0)]),
        with_rows(vec![Row::new(19, &[1, 0x1000, 0x1000, 0x2000, 0, 0])], vec![area(0), insert(0x1000)]),
        with_rows(vec![], vec![area(0), insert(0), area(0), a_use(), insert(0)]),
    ]);
    let (faulty, vp) = (vec![vsm(3)], Row::new(18, &[1, 0x1000, 0, 0x1000, 0, 0, 0, 1, 0]));
    let rows = || vec![region(1, 0, 0), Row::new(17, &[1, 0, 0]), region(1, 0, 0x1000)];
    let page = || Row::new(32, &[0x800, 1, 0, 0]);
    for (arch, other) in [(0, 1), (1, 0)] {
        images.extend([
            Image::new(arch, [vec![], rows(), vec![page(), vbs(arch, 1, 0)]]),
            Image::new(arch, [faulty.clone(), rows(), vec![page()]]),
            Image::new(arch, [vec![], vec![region(1, 0, 0x1000)], vec![vbs(arch, 1, 0)]]),
            Image::new(arch, [vec![vsm(1)], vec![region(1, 0, 0x1000)], vec![vbs(other, 1, 0)]]),
            Image::new(arch, [vec![vsm(1)], vec![region(1, 0, 0x800)], vec![]]),
            Image::new(arch, [vec![vsm(1)], vec![vp.clone(), region(1, 0, 0x1000)], vec![vbs(arch, 1, 0)]]),
            Image::new(arch, [faulty.clone(), vec![region(1, 0, 0)], vec![page(), vbs(other, 1, 0)]]),
            Image::new(arch, Default::default()),
        ]);
    }
    images.push(image_b());
    images
}

/// A sheet of image B for each refusal of reading.
fn unreadable() -> Vec<Vec<u8>> {
    let b = image_b();
    let mut images = [(); 6].map(|()| b.clone());
    images[0].revision = 3;
    images[1].counts = Some([1, 65, 1]);
    images[2].lists[1][0].kind = 20;
    images[3].lists[1][0].body.push(0);
    images[4].left_over.push(0);
    (images[5].revision, images[5].page_size) = (2, 8192);
    let cut = b.bytes();
    [vec![cut[..cut.len() - 1].to_vec()], images.iter().map(Image::bytes).collect()].concat()
}

/// The reports on these images, image B with each length that is lent, what reading refuses with words enough and with too few, and 512 areas, every second row of
/// which is faulty.
fn report_cases() -> Result<Vec<Case>, String> {
    let mut reports: Vec<(Vec<u8>, usize)> = Vec::new();
    for image in report_images() {
        let rows = image.rows().count();
        reports.extend([8 * rows, 8 * rows + 11].map(|lent| (image.bytes(), lent)));
    }
    reports.extend([0, 7, 8, 16, 23, 25, 32].map(|lent| (image_b().bytes(), lent)));
    reports.extend(unreadable().into_iter().flat_map(|sheet| [0, 24].map(|lent| (sheet.clone(), lent))));
    let half = speed::half_faulty(512).bytes();
    reports.push((half, 8 * 513));
    let case = |(sheet, lent): (Vec<u8>, usize)| Case::new(&sheet, &Rust::of(&sheet), Call::Report { lent });
    reports.into_iter().map(case).collect()
}

/// Reports on random sheets of several faulty rows, until each sort of report and each refusal of a row, at a first faulty row and at a later one, is there twice.
fn sample_of_reports(seed: u64) -> Result<Vec<Case>, String> {
    let (mut cases, mut met) = (Vec::new(), Tally::default());
    for number in 0..FAULTY {
        let sheet = faulty::sheet(&mut Random::new(seed, number));
        if sheet.len() > SMALL {
            continue;
        }
        for call in report::calls(&sheet, paper::verdict(&sheet)[0], Extent::Case(number)) {
            let (case, mut with) = (Case::new(&sheet, &Rust::of(&sheet), call)?, met.clone());
            case.report(&mut with);
            let counts = |tally: &Tally| [tally.reports.counts(), &tally.report_numbers, &tally.first_words, &tally.later_words].concat();
            if counts(&with).iter().zip(counts(&met)).any(|(&with, met)| met < with && with <= 2) {
                met = with;
                cases.push(case);
            }
        }
    }
    Ok(cases)
}

/// Six regions of up to three bits, in no order of address: 1 and 2 over one another, of 3 and 4 the second starts within the first, and a page table
/// of which a part is used between two others.
fn owned() -> Image {
    let region = short::region;
    let rows = vec![
        region(4, 0x6000, 0x2000),
        region(1, 0x2000, 0x3000),
        region(2, 0x2000, 0x1000),
        region(3, 0x9000, 0x1_0000_0000),
        Row::new(19, &[1, 0x5000, 0x2000, 0x1000, 0, 0]),
        region(6, 0, 0x2000),
    ];
    let mut image = with_rows(rows, vec![]);
    image.lists[1].insert(1, Row::new(16, &[0, 1]));
    image.lists[0].push(vsm(2));
    image
}

/// The region of each address about those of one image, by masks of one bit, of several, of none, and of one that no region has; and the index of each, with
/// each length about that which it takes. The same of image B, of 64 regions the highest first, and what is refused before 35.
fn owner_cases() -> Result<Vec<Case>, String> {
    let mut cases = Vec::new();
    let mut add = |sheet: &[u8], call: Call| cases.push(Case::new(sheet, &Rust::of(sheet), call));
    let sheet = owned().bytes();
    let addresses = plan::region_addresses(&sheet);
    for (mask, step) in [(1, 1), (2, 3), (3, 7), (4, 5), (6, 7), (8, 20), (0, 20)] {
        addresses.iter().step_by(step).for_each(|&gpa| add(&sheet, Call::RegionOf { mask, gpa }));
        let bytes = owner::index(&paper::CALLS, &sheet, mask).len();
        let mut lengths = vec![0, bytes, bytes + 11];
        if mask < 3 {
            lengths.extend([bytes.saturating_sub(8), bytes.saturating_sub(1)]);
        }
        lengths.into_iter().for_each(|lent| add(&sheet, Call::RegionIndex { mask, lent }));
    }
    let mut high =
        Image::new(0, [vec![native()], (0..64).rev().map(|n| short::region(1, 0x4000 * n, 0x3000)).collect(), vec![vbs(0, 1, 0)]]);
    let sheet = high.bytes();
    [0, 0x2FFF, 0x3000, 0x80000, 0xFC000, 0xFEFFF, 0xFF000].into_iter().for_each(|gpa| add(&sheet, Call::RegionOf { mask: 1, gpa }));
    [owner::INDEX - 1, owner::INDEX, LENT].into_iter().for_each(|lent| add(&sheet, Call::RegionIndex { mask: 1, lent }));
    high.lists[2].clear();
    for sheet in [image_b().bytes(), high.bytes()] {
        [(0, 0), (1, 0x100000), (1, 0x102000)].into_iter().for_each(|(mask, gpa)| add(&sheet, Call::RegionOf { mask, gpa }));
        [(0, 0), (1, 0), (1, 24)].into_iter().for_each(|(mask, lent)| add(&sheet, Call::RegionIndex { mask, lent }));
    }
    cases.into_iter().collect()
}

/// That image with an area that is used and inserted, and what is left of it where the policy, a region, the page table, the insert and a page are dropped: the
/// verdicts, region lists, the checks of the one region of mask 1 that is left, by its number in either sheet, addresses of regions that are dropped and that are
/// left, and an index. And the verdicts without a row that has to remain, the context (34) and the area (32).
fn trimmed_cases() -> Result<Vec<Case>, String> {
    let mut image = owned();
    image.lists[2].extend([Row::new(33, &[0x1000, 7]), Row::new(34, &[7, 0]), Row::new(50, &[0, 1, 7]), Row::new(32, &[0, 1, 0, 0])]);
    let sheet = image.bytes();
    let without = |dropped: &[usize]| {
        let kept: Vec<bool> = (1..=image.lists.concat().len()).map(|row| !dropped.contains(&row)).collect();
        (RULE.sheet)(&Choice { sheet: &sheet, kept: &kept })
    };
    let mut cases = Vec::new();
    let mut add = |sheet: &[u8], call: Call| cases.push(Case::new(sheet, &Rust::of(sheet), call));
    for (sheet, region) in [(without(&[]), 1), (without(&[4, 5, 8, 13, 14]), 0)] {
        [Call::Verdict, Call::StrictVerdict].into_iter().for_each(|call| add(&sheet, call));
        [1, 2, 3, 4].into_iter().for_each(|mask| add(&sheet, Call::Relocations { mask, lent: 200 }));
        [0x9000, 0x9001, 1 << 40].into_iter().for_each(|base| add(&sheet, Call::BaseValid { mask: 1, region, base }));
        [0x8FFF, 0x9000].into_iter().for_each(|gpa| add(&sheet, Call::Contains { mask: 1, region, gpa }));
        [0x2000, 0x5000, 0x9000].into_iter().for_each(|gpa| add(&sheet, Call::RegionOf { mask: 1, gpa }));
        add(&sheet, Call::RegionIndex { mask: 1, lent: 80 });
    }
    [without(&[10]), without(&[11])].iter().for_each(|sheet| add(sheet, Call::Verdict));
    cases.into_iter().collect()
}

/// Lookups in the index of that image, in bytes of other lengths, and in random ones until each sort of lookup is there three times.
fn lookups(seed: u64) -> Result<Vec<Case>, String> {
    let sheet = owned().bytes();
    let index = owner::index(&paper::CALLS, &sheet, 1);
    let (mut cases, mut met) = (Vec::new(), Lookups::default());
    let mut each = |index: &[u8], gpa: u64, always: bool| {
        let mut with = met;
        with.met(index, gpa, paper::region_in(index, gpa));
        if always || with.counts().iter().zip(met.counts()).any(|(with, met)| met < with && *with <= 3) {
            met = with;
            cases.push(Case::new(index, &Rust::of(&[]), Call::RegionIn { gpa }));
        }
        true
    };
    plan::region_addresses(&sheet).into_iter().all(|gpa| each(&index, gpa, true));
    [0, 23, 24, 47, 95, 100].into_iter().all(|length| owner::of_length(length, &mut |index, gpa| each(index, gpa, false)));
    (0..LOOKUPS).all(|case| owner::random_bytes(&mut Random::new(seed, case), &mut |index, gpa| each(index, gpa, false)));
    cases.into_iter().collect()
}

/// The verdict on sheets of many directive rows, the queries of one of them, and the strict verdict on another.
fn large_sheets() -> Result<Vec<Case>, String> {
    let queries = [
        Call::Relocations { mask: 1, lent: 64 },
        Call::BaseValid { mask: 1, region: 0, base: 0x3000 },
        Call::Contains { mask: 1, region: 0, gpa: 0x1800 },
        Call::BaseRange { mask: 1, region: 0, lowest: 0x1001, highest: 0x3000 },
        Call::RegionOf { mask: 1, gpa: 0x1FFF },
    ];
    let mut cases = Vec::new();
    for (image, number) in large::stored() {
        let sheet = image.bytes();
        let case = Case::new(&sheet, &Rust::of(&sheet), Call::Verdict)?;
        if case.number() != number {
            return Err(format!("record: a sheet of {} directive rows gets {}", image.lists[2].len(), case.number()));
        }
        cases.push(case);
    }
    let sheet = large::areas_and_region().bytes();
    for query in queries {
        cases.push(Case::new(&sheet, &Rust::of(&sheet), query)?);
    }
    let sheet = large::contexts_apart().bytes();
    cases.push(Case::new(&sheet, &Rust::of(&sheet), Call::StrictVerdict)?);
    Ok(cases)
}

/// The wrong copies that the sample does not catch: three differ only on sheets of more bytes than it holds, one only where just as many bytes are lent as the
/// numbers take, which the replay does not do, five only in reports on more rows than the replay has words for, and four only where the words are filled anew for
/// each number, which it does not do either.
const NOT_CAUGHT: [&str; 13] = [
    "byte-limit",
    "bytes-16777216",
    "bytes-67108865",
    "numbers-word-more",
    "report-1024",
    "report-34-contexts-1024",
    "report-areas-1024",
    "report-faulty-12-bits",
    "report-rows-13-bits",
    "which-index-once",
    "which-index-past",
    "which-report-once",
    "which-report-past",
];

/// The calls whose rules are their own, by what the names of wrong copies of them have, beside those of the verdict and of its queries.
const OWN_RULES: [&str; 4] = ["report", "owner", "index", "lookup"];

/// Adds the smallest case for each other wrong copy that the cases do not catch. One of another rule must be caught by another call than these, which have the rules
/// of the verdict: a library may have them twice.
fn catch_wrong_copies(seed: u64, cases: &mut Vec<Case>) -> Result<(), String> {
    for (name, _, calls) in wrong::WRONG {
        let is_own = OWN_RULES.iter().any(|own| name.contains(own));
        let catches = |case: &Case| (case.code() < 8 || is_own) && case.differs(calls);
        if NOT_CAUGHT.contains(name) || cases.iter().any(catches) {
            continue;
        }
        let (_, difference) = caught::first_difference(calls, seed, SHEETS).ok_or(format!("record: {name} is not caught"))?;
        let smallest = shrink::smallest(calls, difference);
        let case = Case::new(&smallest.sheet, &Rust::of(&smallest.sheet), smallest.call)?;
        if smallest.sheet.len() > LARGE || case.answer.lent.len() > LENT || !case.differs(calls) {
            return Err(format!("record: no case for {name} on a sheet of at most {LARGE} bytes"));
        }
        cases.push(case);
    }
    Ok(())
}

fn every_refusal(cases: &[Case]) -> Result<(), String> {
    for number in refusals() {
        let met = cases.iter().filter(|case| case.number() == number as u64).count();
        if met < LEAST {
            return Err(format!("record: refusal {number} is met {met} times"));
        }
    }
    Ok(())
}

/// Every answer and each combination of faults of a base, by the sheet and by the region's words.
fn every_base(cases: &[Case]) -> Result<(), String> {
    for (code, by) in [(2, "the sheet"), (4, "words")] {
        let mut met = Bases::default();
        for case in cases.iter().filter(|case| case.code() == code) {
            if let Some((words, base)) = case.base() {
                met.met(&words, base, case.check());
            }
        }
        println!("  bases by {by}: {}", met.text());
        if !met.missing().is_empty() {
            return Err(format!("record: of bases by {by} these are not met: {:?}", met.missing()));
        }
    }
    Ok(())
}

/// Every answer and each sort of ranges of bases.
fn every_range(cases: &[Case]) -> Result<(), String> {
    let mut met = Ranges::default();
    for case in cases.iter().filter(|case| case.code() == 6) {
        match (case.range(), case.call) {
            (Some((words, range)), _) => met.met(&words, range, case.check(), case.answer.by.is_rust()),
            (None, Call::BaseRange { lowest, highest, .. }) if lowest > highest => met.refused(case.number()),
            _ => {}
        }
    }
    println!("  ranges of bases: {}", met.text());
    if !met.missing().is_empty() {
        return Err(format!("record: of ranges of bases these are not met: {:?}", met.missing()));
    }
    Ok(())
}

/// Every sort of strict verdicts, and every refusal of the verdict as the strict one gives it.
fn every_strict(cases: &[Case]) -> Result<(), String> {
    let mut tally = Tally::default();
    for case in cases.iter().filter(|case| case.code() == 7) {
        tally.strict_verdicts[case.number() as usize] += 1;
        if let Some(headers) = Headers::decode(&case.sheet) {
            tally.strict.met(&headers, &case.answer.numbers);
        }
    }
    println!("  strict verdicts: {}", tally.strict.text());
    let (missing, refusals) = (tally.strict.missing(), tally.missing_strict());
    if !missing.is_empty() || !refusals.is_empty() {
        return Err(format!("record: of strict verdicts these are not met: {missing:?}, and refusals {refusals:?}"));
    }
    Ok(())
}

/// Every sort of report, every refusal by it, and every refusal of a row.
fn every_report(cases: &[Case]) -> Result<(), String> {
    let mut tally = Tally::default();
    cases.iter().for_each(|case| case.report(&mut tally));
    println!("  reports: {}", tally.reports.text());
    if cases.iter().any(|case| case.answer.lent.len() > LENT) {
        return Err(format!("record: more than {LENT} bytes are lent"));
    }
    let (reports, words) = (tally.reports.missing(), tally.missing_words());
    if !reports.is_empty() || words.iter().any(|missing| !missing.is_empty()) {
        return Err(format!("record: of reports these are not met: {reports:?}, and refusals and words: {words:?}"));
    }
    Ok(())
}

/// Every sort of addresses, of indexes and of lookups.
fn every_owner(cases: &[Case]) -> Result<(), String> {
    let (mut owners, mut lookups) = (Owners::default(), Lookups::default());
    for case in cases {
        let (numbers, has_rust) = (&case.answer.numbers, case.answer.by.is_rust());
        match case.call {
            Call::RegionOf { .. } | Call::RegionIndex { .. } => {
                owners.met(Headers::decode(&case.sheet).as_ref(), case.call, numbers, has_rust)
            }
            Call::RegionIn { gpa } => lookups.met(&case.sheet, gpa, numbers[0]),
            _ => {}
        }
    }
    println!("  addresses and indexes: {}", owners.text());
    if !owners.missing().is_empty() {
        return Err(format!("record: of addresses and indexes these are not met: {:?}", owners.missing()));
    }
    println!("  lookups: {}", lookups.seen()?);
    Ok(())
}

/// Cases of one sort: the call, the refusal's number, the count of regions (6 for more) or the answer of a check, what is wrong with a base, the sort
/// of a range, of a strict verdict, of an address or of an index, and whether the sheet is large.
type Group = (u8, u64, u64, Option<Faults>, Option<u32>, bool);

#[derive(Default)]
struct Sample {
    cases: Vec<Case>,
    groups: BTreeMap<Group, usize>,
    /// by call and all numbers
    answers: BTreeMap<(u8, Vec<u64>), usize>,
}

impl Sample {
    /// The two verdicts, and queries as a run makes them.
    fn offer_sheet(&mut self, random: &mut Random, sheet: &[u8]) -> Result<(), String> {
        let rust = Rust::of(sheet);
        let verdict = Case::new(sheet, &rust, Call::Verdict)?;
        let queries = if verdict.number() == 0 { plan::some(random, sheet) } else { plan::two(random) };
        self.offer(verdict);
        self.offer(Case::new(sheet, &rust, Call::StrictVerdict)?);
        for call in queries {
            let case = Case::new(sheet, &rust, call)?;
            if let Some(region) = case.region().filter(|_| call.by_words().is_by_words()) {
                self.offer(Case::new(&region, &rust, call.by_words())?);
            }
            self.offer(case);
        }
        Ok(())
    }

    /// Takes the case if there is room for one more of its sort.
    fn offer(&mut self, case: Case) {
        let group = self.groups.entry(case.group()).or_default();
        let same = self.answers.entry((case.code(), case.answer.numbers.clone())).or_default();
        if *group < case.room() && *same < case.room_of_answer() {
            (*group, *same) = (*group + 1, *same + 1);
            self.cases.push(case);
        }
    }
}

impl Case {
    fn new(sheet: &[u8], rust: &Rust, call: Call) -> Result<Case, String> {
        let answer = answer(sheet, rust, call).map_err(|difference| shrink::text(&difference))?;
        Ok(Case { sheet: sheet.to_vec(), call, answer })
    }

    /// The calls give another answer: a number, or a lent byte; or the sibling's is not the same.
    fn differs(&self, calls: &Calls) -> bool {
        let mut lent = self.call.to_lend();
        let number = |which: usize| self.call.ask(calls, &self.sheet, &mut lent, which as u32);
        let numbers: Vec<u64> = (0..self.answer.numbers.len()).map(number).collect();
        numbers != self.answer.numbers || lent != self.answer.lent || !self.all_same(calls)
    }

    /// As the replay has it: lent 11 bytes more than the numbers take, the sibling puts them and leaves the rest; lent one byte less it leaves all. Either way
    /// it returns number 0 and leaves the same words.
    fn all_same(&self, calls: &Calls) -> bool {
        let numbers = &self.answer.numbers[..self.call.numbers()];
        let same = |length: usize| {
            let (mut words, mut lent, mut expected) = (self.call.to_lend(), to_lend(length), to_lend(length));
            let number = self.call.ask_all(calls, &self.sheet, &mut words, &mut lent);
            number == paper::put(numbers, &mut expected) && lent == expected && words == self.answer.lent
        };
        self.call.is_by_words() || same(8 * numbers.len() + 11) && same(8 * numbers.len() - 1)
    }

    /// Counts a report.
    fn report(&self, tally: &mut Tally) {
        let Call::Report { lent } = self.call else { return };
        let numbers: report::Numbers = std::array::from_fn(|which| self.answer.numbers[which]);
        let words = report::words(&self.answer.lent, numbers[5] as usize);
        let asked = Headers::decode(&self.sheet).filter(|_| self.answer.by.is_rust()).map(|headers| headers.rows_in_domain());
        tally.report(&self.sheet, lent, &Answered { numbers, words, asked });
    }

    /// The refusal's number.
    fn number(&self) -> u64 {
        if self.call.is_by_words() {
            return 0;
        }
        self.answer.numbers[0]
    }

    /// The answer of a check.
    fn check(&self) -> u64 {
        self.answer.numbers[if self.call.is_by_words() { 0 } else { 3 }]
    }

    /// The words of the region that was checked at a base, and the base.
    fn base(&self) -> Option<([u64; 8], u64)> {
        match self.call {
            Call::BaseValid { base, .. } => Some((region::words(&self.region()?)?, base)),
            Call::RegionBaseValid { base } => Some((region::words(&self.sheet)?, base)),
            _ => None,
        }
    }

    /// The words of the region that was checked over a range of bases, and its ends.
    fn range(&self) -> Option<([u64; 8], (u64, u64))> {
        match self.call {
            Call::BaseRange { lowest, highest, .. } => Some((region::words(&self.region()?)?, (lowest, highest))),
            _ => None,
        }
    }

    /// The words of the region that a check was made of.
    fn region(&self) -> Option<Vec<u8>> {
        let (mask, region) = match self.call {
            Call::BaseValid { mask, region, .. } | Call::Contains { mask, region, .. } | Call::BaseRange { mask, region, .. } => {
                (mask, region)
            }
            _ => return None,
        };
        let mut lent = [0; 64 * 64];
        paper::relocations(&self.sheet, mask, &mut lent);
        (self.number() == 0).then(|| lent[64 * region as usize..][..64].to_vec())
    }

    fn is_large(&self) -> bool {
        self.sheet.len() > SMALL
    }

    fn code(&self) -> u8 {
        match self.call {
            Call::Verdict => 0,
            Call::Relocations { .. } => 1,
            Call::BaseValid { .. } => 2,
            Call::Contains { .. } => 3,
            Call::RegionBaseValid { .. } => 4,
            Call::RegionContains { .. } => 5,
            Call::BaseRange { .. } => 6,
            Call::StrictVerdict => 7,
            Call::Report { .. } => 8,
            Call::RegionOf { .. } => 9,
            Call::RegionIndex { .. } => 10,
            Call::RegionIn { .. } => 11,
        }
    }

    /// The sort of a range of bases, of a strict verdict, of an address or of an index.
    fn sort(&self) -> Option<u32> {
        if let Some((words, range)) = self.range() {
            return Some(ranges::sort(&words, range, self.check()));
        }
        let headers = || Headers::decode(&self.sheet);
        match self.call {
            Call::StrictVerdict => Some(strict::sort(&headers()?, &self.answer.numbers)),
            Call::RegionOf { .. } | Call::RegionIndex { .. } => Some(owner::sort(headers().as_ref(), self.call, &self.answer.numbers)),
            _ => None,
        }
    }

    fn group(&self) -> Group {
        let found = match self.call {
            Call::Verdict | Call::StrictVerdict | Call::RegionOf { .. } => 0,
            _ => self.check().min(6),
        };
        let faults = self.base().filter(|_| !self.is_large()).map(|(words, base)| Faults::of(&words, base));
        let sort = if self.is_large() { None } else { self.sort() };
        (self.code(), self.number(), found, faults, sort, self.is_large())
    }

    /// How many cases are taken of one group.
    fn room(&self) -> usize {
        match (self.is_large(), self.number(), self.call) {
            (true, _, Call::BaseRange { .. } | Call::RegionOf { .. } | Call::RegionIndex { .. }) => 0,
            (_, 35 | 37, Call::RegionOf { .. } | Call::RegionIndex { .. }) => 2,
            (_, _, Call::StrictVerdict) => usize::from(2 * self.sheet.len() <= SMALL),
            (true, 0 | 31, _) => 2,
            (true, _, _) => 0,
            (_, 0, Call::Verdict) => 24,
            (_, 0, Call::Relocations { .. }) => 8,
            (_, _, Call::RegionContains { .. }) => 5,
            (_, 0, Call::BaseValid { .. } | Call::RegionBaseValid { .. }) if self.check() > 1 => 4,
            (_, 0, Call::BaseRange { .. } | Call::RegionOf { .. } | Call::RegionIndex { .. }) => 1,
            (_, 0, _) => 12,
            (_, 35..=37 | 50, _) | (_, _, Call::Verdict) => 6,
            _ => 1,
        }
    }

    /// How many cases are taken of one call and answer: fewer where it names a row, so that rows and details differ.
    fn room_of_answer(&self) -> usize {
        match (self.number(), self.call) {
            (_, Call::RegionContains { .. }) => 5,
            (0, Call::Contains { .. }) => 12,
            (0, Call::BaseValid { .. } | Call::RegionBaseValid { .. } | Call::BaseRange { .. }) => usize::MAX,
            (0, Call::RegionOf { .. } | Call::RegionIndex { .. }) => usize::MAX,
            (_, Call::StrictVerdict) => usize::MAX,
            (35..=37 | 50, _) => 6,
            _ if self.answer.numbers[1] == 0 => 4,
            _ => 2,
        }
    }

    /// Who gave the answer, as a head has it and as the line begins.
    fn answered(&self) -> (u8, &'static str) {
        match self.answer.by {
            By::Paper => (0, "01"),
            By::Rust => (1, "rust"),
            By::RustAnd02 => (2, "rust 02"),
            By::Only02 => (3, "02"),
        }
    }

    /// A head of 40 bytes, then the sheet, the region's bytes or those of an index: call, who answered, two zero bytes, mask u32, region u64, base, gpa or lowest base
    /// u64, highest base u64, lent bytes u32, how many bytes follow u32.
    fn bytes(&self) -> Vec<u8> {
        let (region, value, highest, lent) = match self.call {
            Call::Verdict | Call::StrictVerdict => (0, 0, 0, 0),
            Call::Relocations { lent, .. } | Call::Report { lent } | Call::RegionIndex { lent, .. } => (0, 0, 0, lent),
            Call::BaseValid { region, base, .. } => (region, base, 0, 0),
            Call::Contains { region, gpa, .. } => (region, gpa, 0, 0),
            Call::RegionBaseValid { base: value } | Call::RegionContains { gpa: value } => (0, value, 0, 0),
            Call::RegionOf { gpa, .. } | Call::RegionIn { gpa } => (0, gpa, 0, 0),
            Call::BaseRange { region, lowest, highest, .. } => (region, lowest, highest, 0),
        };
        let mut bytes = vec![self.code(), self.answered().0, 0, 0];
        bytes.extend(self.call.mask().to_le_bytes());
        bytes.extend(region.to_le_bytes());
        bytes.extend(value.to_le_bytes());
        bytes.extend(highest.to_le_bytes());
        bytes.extend((lent as u32).to_le_bytes());
        bytes.extend((self.sheet.len() as u32).to_le_bytes());
        bytes.extend(&self.sheet);
        bytes
    }

    /// Who answered, the call, every number, the lent bytes afterwards, eight to a group, and that the sibling's answer is the same.
    fn line(&self) -> String {
        let who = self.answered().1;
        let call = match self.call {
            Call::Verdict => "verdict".into(),
            Call::StrictVerdict => "strict_verdict".into(),
            Call::Report { lent } => format!("report lent {lent}"),
            Call::Relocations { mask, lent } => format!("relocations mask {mask} lent {lent}"),
            Call::BaseValid { mask, region, base } => format!("relocation_base_valid mask {mask} region {region} base {base}"),
            Call::Contains { mask, region, gpa } => format!("contains mask {mask} region {region} gpa {gpa}"),
            Call::RegionBaseValid { base } => format!("region_base_valid base {base}"),
            Call::RegionContains { gpa } => format!("region_contains gpa {gpa}"),
            Call::RegionOf { mask, gpa } => format!("region_of mask {mask} gpa {gpa}"),
            Call::RegionIndex { mask, lent } => format!("region_index mask {mask} lent {lent}"),
            Call::RegionIn { gpa } => format!("region_in gpa {gpa}"),
            Call::BaseRange { mask, region, lowest, highest } => {
                format!("relocation_base_range mask {mask} region {region} lowest {lowest} highest {highest}")
            }
        };
        let numbers: String = self.answer.numbers.iter().map(|number| format!(" {number}")).collect();
        let bytes: String = self.answer.lent.chunks(8).map(|group| format!(" {}", hex(group))).collect();
        let bytes = if bytes.is_empty() { bytes } else { format!(" bytes{bytes}") };
        let all = if self.call.is_by_words() { "" } else { " all same" };
        format!("{who} {call}:{numbers}{bytes}{all}\n")
    }
}
