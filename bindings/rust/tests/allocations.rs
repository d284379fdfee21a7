//! A sheet is one allocation, of its length, and the calls allocate nothing but a list of regions, an index's words, and a report's words and its list.

mod common;
mod counting;

use common::{image_b, region};
use counting::counted;
use sapyullu::*;
/// Image B with 64 regions and 20 pages of 4096 bytes.
fn large() -> Sheet {
    let page = |number: u64| IgvmDirectiveHeader::PageData {
        gpa: 0x1000 * number,
        compatibility_mask: 1,
        flags: 0,
        data_type: IgvmPageDataType::NORMAL,
        data: vec![7; 4096],
    };
    let mut sheet = image_b();
    sheet.initialization_headers = (0..64).map(|number| region(0x2000 * number, 0x2000)).collect();
    sheet.directive_headers.extend((0..20).map(page));
    sheet
}

#[test]
fn a_sheet_is_one_allocation_of_its_length() {
    let sheet = large();
    let (bytes, made) = counted(|| sheet.bytes().unwrap());
    assert!(bytes.len() > 20 * 4096);
    assert_eq!((made, bytes.capacity()), (vec![bytes.len()], bytes.len()));
}

#[test]
fn a_list_of_regions_is_one_allocation_and_other_answers_are_none() {
    let sheet = large().bytes().unwrap();
    let (found, made) = counted(|| relocations(&sheet, 1).unwrap());
    assert_eq!((found.regions.len(), made.len()), (64, 1));
    let region = &found.regions[0];
    let (answers, made) = counted(|| {
        let checks = relocation_base_valid(&sheet, 1, 0, 0).unwrap().is_valid() && contains(&sheet, 1, 0, 0).unwrap();
        let ranges = relocation_base_range(&sheet, 1, 0, 0, 0).is_ok() && relocation_base_range(&sheet, 1, 0, 1, 0).is_err();
        let words = region.contains(0) && region.relocation_base_valid(0).is_valid();
        let verdicts = verdict(&sheet).is_ok() && verdict(&[]).is_err() && strict_verdict(&sheet).is_ok() && strict_verdict(&[]).is_err();
        checks && ranges && words && verdicts
    });
    assert!(answers);
    assert_eq!(made, []);
}

#[test]
fn an_index_is_one_allocation_of_its_words_and_looking_up_is_none() {
    let sheet = large().bytes().unwrap();
    let (index, made) = counted(|| RegionIndex::new(&sheet, 1).unwrap());
    assert_eq!((index.len(), made), (64, vec![64 * REGION_INDEX_BYTES]));
    let mut words = [0; 64 * REGION_INDEX_BYTES];
    let (answers, made) = counted(|| {
        let filled = region_index_into(&sheet, 1, &mut words).is_ok() && region_index_into(&sheet, 1, &mut words[1..]).is_err();
        let owners = [index.region_of(0x7_FFFF), region_in(&words, 0x7_FFFF), region_of(&sheet, 1, 0x7_FFFF).unwrap()];
        let none =
            RegionIndex::new(&sheet, 2).unwrap().is_empty() && RegionIndex::new(&sheet, 0).is_err() && index.region_of(0x8_0000).is_none();
        filled && owners == [Some(65); 3] && none && index.regions().len() == 64
    });
    assert!(answers);
    assert_eq!(made, []);
}

#[test]
fn a_report_allocates_its_words_and_its_list_and_in_lent_bytes_nothing() {
    let mut sheet = large();
    let in_order = sheet.bytes().unwrap();
    sheet.initialization_headers[1] = region(0x2000, 0);
    let faulty = sheet.bytes().unwrap();
    let (found, made) = counted(|| report(&in_order).unwrap());
    assert_eq!((found.is_accepted(), made), (true, vec![8 * (1 + 64 + 21)]));
    let (found, made) = counted(|| report(&faulty).unwrap());
    assert_eq!((found.faulty.len(), made.len(), made[0]), (1, 2, 8 * (1 + 64 + 21)));
    let mut words = [0; 8 * (1 + 64 + 21)];
    let (answers, made) = counted(|| {
        let reported = report_into(&in_order, &mut words).is_ok() && report_into(&faulty, &mut words).is_ok();
        reported && report_into(&faulty, &mut words[1..]).is_err() && report_into(&[], &mut []).is_err()
    });
    assert!(answers);
    assert_eq!(made, []);
}
