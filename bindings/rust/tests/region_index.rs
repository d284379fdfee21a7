//! Which region of a mask owns an address: by the sheet, by an index, and by a full reading of the headers.

mod common;
mod random;

use common::{image_b, image_with};
use random::Random;
use sapyullu::IgvmInitializationHeader::{GuestPolicy, PageTableRelocationRegion, RelocatableRegion};
use sapyullu::*;
use std::collections::BTreeSet;
use std::fs;

/// The region of image B with this mask, at this gpa and of this size.
fn region(mask: u32, gpa: u64, size: u64) -> IgvmInitializationHeader {
    let mut region = common::region(gpa, size);
    if let RelocatableRegion { compatibility_mask, .. } = &mut region {
        *compatibility_mask = mask;
    }
    region
}

fn page_table(mask: u32, gpa: u64, size: u64, used_size: u64) -> IgvmInitializationHeader {
    PageTableRelocationRegion { compatibility_mask: mask, gpa, size, used_size, vp_index: 0, vtl: Vtl::Vtl0 }
}

/// Image B with these initialization headers and a context of every mask bit: the first header is row 2.
fn with(initialization_headers: Vec<IgvmInitializationHeader>) -> Sheet {
    let context = IgvmDirectiveHeader::X64VbsVpContext { vtl: Vtl::Vtl0, registers: vec![], compatibility_mask: u32::MAX };
    Sheet { initialization_headers, directive_headers: vec![context], ..image_b() }
}

/// A long region of mask 1 below one of mask 2, which starts within it, and a page-table region of both masks. Their rows are not in the order of their starts.
fn over_one_another() -> Sheet {
    with(vec![
        region(1, 0x18_0000, 0x2000),
        region(1, 0x10_0000, 0x4_0000),
        region(2, 0x11_0000, 0x2000),
        page_table(3, 0x16_0000, 0x4000, 0x1000),
    ])
}

/// Mask, start, size and row of each region of either kind, in the order of the headers.
fn regions(sheet: &Sheet) -> Vec<(u32, u64, u64, u64)> {
    let rows = sheet.platform_headers.len() as u64 + 1..;
    let region = |(row, header): (u64, &IgvmInitializationHeader)| match *header {
        RelocatableRegion { compatibility_mask, relocation_region_gpa, relocation_region_size, .. } => {
            Some((compatibility_mask, relocation_region_gpa, relocation_region_size, row))
        }
        PageTableRelocationRegion { compatibility_mask, gpa, size, .. } => Some((compatibility_mask, gpa, size, row)),
        _ => None,
    };
    rows.zip(&sheet.initialization_headers).filter_map(region).collect()
}

/// The owner by a full reading: every region is looked at, and no order is made use of.
fn read_in_full(sheet: &Sheet, mask: u32, gpa: u64) -> Option<u64> {
    let holds = |&(own, start, size, _): &(u32, u64, u64, u64)| own & mask == mask && start <= gpa && gpa - start < size;
    let owners: Vec<u64> = regions(sheet).iter().filter(|region| holds(region)).map(|region| region.3).collect();
    assert!(owners.len() <= 1, "regions that share a bit overlap: {sheet:?}");
    owners.first().copied()
}

/// Start, last byte and one past of every region, with their neighbours, and the ends of the address space.
fn places(sheet: &Sheet) -> Vec<u64> {
    let about = |(_, start, size, _): (u32, u64, u64, u64)| {
        [start.wrapping_sub(1), start, start + 1, start + size / 2, start + size - 1, start + size]
    };
    regions(sheet).into_iter().flat_map(about).chain([0, 1, 1 << 63, u64::MAX]).collect()
}

/// That an index is as it must be: the regions of the mask with their rows, each start above the one before, and the same as in lent bytes.
fn held_to_the_headers(sheet: &Sheet, bytes: &[u8], mask: u32) -> RegionIndex {
    let index = RegionIndex::new(bytes, mask).unwrap();
    let found: Vec<(u64, u64, u64)> = index.regions().map(|region| (region.start, region.size, region.row)).collect();
    let mut expected: Vec<_> =
        regions(sheet).into_iter().filter(|region| region.0 & mask == mask).map(|(_, start, size, row)| (start, size, row)).collect();
    expected.sort();
    assert_eq!(found, expected, "mask {mask}: {sheet:?}");
    assert!(found.windows(2).all(|pair| pair[0].0 < pair[1].0));
    assert_eq!((index.len(), index.is_empty(), index.regions().len()), (expected.len(), expected.is_empty(), expected.len()));
    let mut words = [0xA5; 64 * REGION_INDEX_BYTES + 9];
    assert_eq!(region_index_into(bytes, mask, &mut words), Ok(expected.len()));
    let (filled, behind) = words.split_at(expected.len() * REGION_INDEX_BYTES);
    assert_eq!(filled, expected.iter().flat_map(|&(start, size, row)| [start, size, row]).flat_map(u64::to_le_bytes).collect::<Vec<_>>());
    assert!(behind.iter().all(|&byte| byte == 0xA5));
    index
}

/// That the sheet, the index and a full reading have one answer for each place. Returns the owners.
fn held_to_a_full_reading(sheet: &Sheet, mask: u32) -> Vec<Option<u64>> {
    let bytes = sheet.bytes().unwrap();
    let index = held_to_the_headers(sheet, &bytes, mask);
    let owner = |gpa| {
        let owner = read_in_full(sheet, mask, gpa);
        assert_eq!(region_of(&bytes, mask, gpa), Ok(owner), "mask {mask}, {gpa:#x}: {sheet:?}");
        assert_eq!(index.region_of(gpa), owner, "mask {mask}, {gpa:#x}: {sheet:?}");
        owner
    };
    places(sheet).into_iter().map(owner).collect()
}

#[test]
fn an_address_is_its_regions_from_the_start_to_the_last_byte() {
    let sheet = image_b().bytes().unwrap();
    let index = RegionIndex::new(&sheet, 1).unwrap();
    let owners = [
        (0xF_FFFF, None),
        (0x10_0000, Some(2)),
        (0x10_0001, Some(2)),
        (0x10_1FFF, Some(2)),
        (0x10_2000, None),
        (0, None),
        (u64::MAX, None),
    ];
    for (gpa, row) in owners {
        assert_eq!((region_of(&sheet, 1, gpa), index.region_of(gpa)), (Ok(row), row), "{gpa:#x}");
    }
    assert_eq!(Place::of_row(&sheet, 2), Some(Place { list: List::Initialization, index: 0 }));
}

#[test]
fn the_owner_need_not_be_the_last_that_starts_at_or_below_the_address() {
    let sheet = over_one_another().bytes().unwrap();
    let owner = |mask, gpa| region_of(&sheet, mask, gpa).unwrap();
    assert_eq!(
        [0x11_0000, 0x11_1FFF, 0x11_2000, 0x13_FFFF].map(|gpa| owner(1, gpa)),
        [Some(3); 4],
        "the region of mask 2 starts behind it"
    );
    assert_eq!([0x11_0000, 0x11_1FFF].map(|gpa| owner(2, gpa)), [Some(4); 2]);
    assert_eq!([0x10_FFFF, 0x11_2000, 0x13_FFFF].map(|gpa| owner(2, gpa)), [None; 3]);
    assert_eq!([0x14_0000, 0x15_FFFF].map(|gpa| owner(1, gpa)), [None; 2]);
    for mask in 1..=4 {
        held_to_a_full_reading(&over_one_another(), mask);
    }
}

#[test]
fn a_region_matches_where_its_mask_holds_every_bit() {
    let sheet = over_one_another().bytes().unwrap();
    let owners = |mask| [0x10_0000, 0x11_0000, 0x16_0000, 0x18_0000].map(|gpa| region_of(&sheet, mask, gpa).unwrap());
    assert_eq!(owners(1), [Some(3), Some(3), Some(5), Some(2)]);
    assert_eq!(owners(2), [None, Some(4), Some(5), None]);
    assert_eq!(owners(3), [None, None, Some(5), None]);
    assert_eq!([4, 5, 6, 7, 0x8000_0001, u32::MAX].map(owners), [[None; 4]; 6]);
    let rows = |mask| RegionIndex::new(&sheet, mask).unwrap().regions().map(|region| region.row).collect::<Vec<_>>();
    assert_eq!([rows(1), rows(2), rows(3), rows(7)], [vec![3, 5, 2], vec![4, 5], vec![5], vec![]]);
}

#[test]
fn a_page_table_region_counts_with_its_size() {
    for used in [0, 0x1000, 0x4000] {
        let sheet = with(vec![page_table(1, 0x30_0000, 0x4000, used)]);
        held_to_a_full_reading(&sheet, 1);
        let bytes = sheet.bytes().unwrap();
        let owners = [0x2F_FFFF, 0x30_0000, 0x30_1000, 0x30_3FFF, 0x30_4000].map(|gpa| region_of(&bytes, 1, gpa).unwrap());
        assert_eq!(owners, [None, Some(2), Some(2), Some(2), None], "used size {used:#x}");
    }
}

#[test]
fn platform_rows_and_other_rows_count() {
    let platform = |compatibility_mask, platform_type| {
        IgvmPlatformHeader::SupportedPlatform(IGVM_VHS_SUPPORTED_PLATFORM { compatibility_mask, platform_type, ..common::platform() })
    };
    let mut sheet = with(vec![GuestPolicy { policy: 1, compatibility_mask: 1 }, region(1, 0x10_0000, 0x2000)]);
    sheet.platform_headers = vec![platform(1, IgvmPlatformType::VSM_ISOLATION), platform(2, IgvmPlatformType::SEV_SNP)];
    assert_eq!(region_of(&sheet.bytes().unwrap(), 1, 0x10_0000), Ok(Some(4)));
    held_to_a_full_reading(&sheet, 1);
}

#[test]
fn a_mask_without_regions_needs_no_words() {
    let sheet = over_one_another().bytes().unwrap();
    assert_eq!(region_index_into(&sheet, 4, &mut []), Ok(0));
    assert!(RegionIndex::new(&sheet, 4).unwrap().is_empty());
    assert_eq!(region_of(&sheet, 4, 0x10_0000), Ok(None));
    let without = with(vec![]).bytes().unwrap();
    assert_eq!(RegionIndex::new(&without, 1).unwrap().region_of(0), None);
}

#[test]
fn refusals_come_in_their_order_and_change_no_byte() {
    let sheet = over_one_another().bytes().unwrap();
    let mut lent = [0xA5; 3 * REGION_INDEX_BYTES - 1];
    let wrong = image_with(common::region(0x10_0800, 0x2000)).bytes().unwrap();
    let refusal = verdict(&wrong).unwrap_err();
    assert_eq!((refusal.error, refusal.row, refusal.detail), (Error::RelocationAddress, Some(2), 0x10_0800));
    assert_eq!(region_of(&wrong, 0, 0x10_0800), Err(refusal), "the verdict's comes first");
    assert_eq!(region_index_into(&wrong, 0, &mut lent[..0]), Err(refusal));
    assert_eq!(region_index_into(&wrong, 1, &mut lent), Err(refusal));
    let zero = Refusal::from_numbers(35, 0, 0);
    assert_eq!(region_of(&sheet, 0, 0x10_0000), Err(zero));
    assert_eq!(region_index_into(&sheet, 0, &mut lent[..0]), Err(zero), "35 comes before 37");
    assert_eq!(RegionIndex::new(&sheet, 0), Err(zero));
    for length in [0, 1, 23, 24, 48, 64, 71] {
        assert_eq!(region_index_into(&sheet, 1, &mut lent[..length]), Err(Refusal::from_numbers(37, 0, 0)), "{length} bytes");
    }
    assert_eq!(lent, [0xA5; 3 * REGION_INDEX_BYTES - 1]);
    assert_eq!(region_index_into(&sheet, 1, &mut [0; 72]), Ok(3));
}

#[test]
fn a_region_may_reach_from_0_to_the_highest_page() {
    let top = 0xFFFF_FFFF_FFFF_F000;
    let sheet = with(vec![region(1, 0, top), region(2, top - 0x1000, 0x1000)]);
    held_to_a_full_reading(&sheet, 1);
    held_to_a_full_reading(&sheet, 2);
    let index = RegionIndex::new(&sheet.bytes().unwrap(), 1).unwrap();
    assert_eq!([0, top - 1, top, u64::MAX].map(|gpa| index.region_of(gpa)), [Some(2), Some(2), None, None]);
}

#[test]
fn as_many_regions_as_a_sheet_can_have_in_any_order() {
    let orders: [fn(u64) -> u64; 4] = [|row| row, |row| 63 - row, |row| row * 37 % 64, |row| row / 2 + row % 2 * 32];
    for order in orders {
        let sheet = with((0..64).map(|row| region(1, 0x3000 * order(row), 0x2000)).collect());
        let owners = held_to_a_full_reading(&sheet, 1);
        assert_eq!(owners.into_iter().flatten().collect::<BTreeSet<_>>(), (2..66).collect());
    }
}

#[test]
fn an_index_of_other_bytes_says_what_their_words_give() {
    let words = |regions: &[[u64; 3]]| regions.as_flattened().iter().flat_map(|word| word.to_le_bytes()).collect::<Vec<u8>>();
    let one = words(&[[0x1000, 0x1000, 9]]);
    assert_eq!([0xFFF, 0x1000, 0x1FFF, 0x2000].map(|gpa| region_in(&one, gpa)), [None, Some(9), Some(9), None]);
    for length in 0..24 {
        assert_eq!(region_in(&one[..length], 0x1000), None, "{length} bytes are no region");
        let longer = [&one[..], &one[..length]].concat();
        assert_eq!(region_in(&longer, 0x1000), Some(9), "{length} bytes behind it don't count");
    }
    let falling = words(&[[0x3000, 0x1000, 1], [0x1000, 0x1000, 2]]);
    assert_eq!([0x1000, 0x3000].map(|gpa| region_in(&falling, gpa)), [None, Some(1)], "it ends at the first start above the address");
    let twice = words(&[[0, 0x3000, 5], [0x1000, 0x1000, 6]]);
    assert_eq!(region_in(&twice, 0x1000), Some(5), "the first that holds the address");
    let past_2_64 = words(&[[u64::MAX - 1, u64::MAX, 7]]);
    assert_eq!(
        [0, u64::MAX - 2, u64::MAX - 1, u64::MAX].map(|gpa| region_in(&past_2_64, gpa)),
        [None, None, Some(7), Some(7)],
        "sums are exact"
    );
    let empty_and_rowless = words(&[[0, 0, 3], [0, 1, 0], [0, 2, u64::MAX]]);
    assert_eq!([0, 1].map(|gpa| region_in(&empty_and_rowless, gpa)), [None, Some(u64::MAX)], "row 0 is none");
}

#[test]
fn an_index_is_shared_shown_and_compared() {
    fn shared<T: Send + Sync + Clone + std::fmt::Debug>(_: &T) {}
    let index = RegionIndex::new(&image_b().bytes().unwrap(), 1).unwrap();
    shared(&index);
    assert_eq!(index.clone(), index);
    assert_ne!(index, RegionIndex::new(&image_b().bytes().unwrap(), 2).unwrap());
    assert_eq!(format!("{index:?}"), "RegionIndex [IndexedRegion { start: 1048576, size: 8192, row: 2 }]");
    std::thread::scope(|scope| {
        scope.spawn(|| assert_eq!(index.region_of(0x10_0000), Some(2)));
        scope.spawn(|| assert_eq!(index.region_of(0x10_2000), None));
    });
}

#[test]
fn every_address_has_the_owner_that_a_full_reading_finds() {
    let mut random = Random(1);
    let (mut accepted, mut found, mut none, mut behind) = (0, 0, 0, 0);
    for _ in 0..4000 {
        let mut headers = vec![];
        for _ in 0..random.below(9) {
            let (mask, gpa, size) = (1 + random.below(7) as u32, 0x1000 * random.below(16), 0x1000 * (1 + random.below(6)));
            headers.push(if random.below(4) == 0 {
                page_table(mask, gpa, size, 0x1000 * random.below(1 + size / 0x1000))
            } else {
                region(mask, gpa, size)
            });
            // Only what the verdict accepts is kept, so that most sheets have several regions.
            if verdict(&with(headers.clone()).bytes().unwrap()).is_err() {
                headers.pop();
            }
        }
        let sheet = with(headers);
        accepted += u32::from(verdict(&sheet.bytes().unwrap()).is_ok());
        for mask in 1..8 {
            let owners = held_to_a_full_reading(&sheet, mask);
            found += owners.iter().flatten().count();
            none += owners.len() - owners.iter().flatten().count();
            for (gpa, owner) in places(&sheet).into_iter().zip(owners) {
                let last = regions(&sheet).into_iter().filter(|region| region.1 <= gpa).max_by_key(|region| region.1);
                behind += u32::from(owner.is_some() && last.is_some_and(|region| region.0 & mask != mask));
            }
        }
    }
    assert!(accepted == 4000 && found > 10_000 && none > 10_000 && behind > 1000, "{accepted} {found} {none} {behind}");
}

#[test]
fn every_sample_answers_alike_by_sheet_and_index() {
    let folder = concat!(env!("CARGO_MANIFEST_DIR"), "/../../samples");
    let paths = fs::read_dir(folder).unwrap().map(|entry| entry.unwrap().path());
    let mut regions = 0;
    for path in paths.filter(|path| path.extension().is_some_and(|end| end == "sheet")) {
        let sheet = fs::read(&path).unwrap();
        for mask in 1..4 {
            let index = match (RegionIndex::new(&sheet, mask), verdict(&sheet)) {
                (Ok(index), Ok(_)) => index,
                (index, verdict) => {
                    assert_eq!(index.unwrap_err(), verdict.unwrap_err(), "{path:?}");
                    continue;
                }
            };
            let found = relocations(&sheet, mask).unwrap();
            assert_eq!(index.len(), found.regions.len() + usize::from(found.page_table.is_some()), "{path:?}");
            for IndexedRegion { start, size, row, .. } in index.regions() {
                assert_eq!([start, start + size - 1].map(|gpa| region_of(&sheet, mask, gpa)), [Ok(Some(row)); 2], "{path:?}");
                assert_eq!(region_of(&sheet, mask, start + size), Ok(index.region_of(start + size)), "{path:?}");
                assert_eq!(index.region_of(start), Some(row), "{path:?}");
                regions += 1;
            }
        }
    }
    assert!(regions > 100, "{regions}");
}
