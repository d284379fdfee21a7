//! Sheets at the limits: 8,192 directive rows, 67,108,864 bytes, and the former limits, 1,024 and 16,777,216.

mod common;

use common::image_b;
use sapyullu::*;

const LIMIT: usize = 67_108_864;
const FORMER_LIMIT: usize = 16_777_216;

fn page(gpa: u64, data: &[u8]) -> IgvmDirectiveHeader<&[u8]> {
    IgvmDirectiveHeader::PageData { gpa, compatibility_mask: 1, flags: 0, data_type: IgvmPageDataType::NORMAL, data }
}

fn context(registers: &[u8]) -> IgvmDirectiveHeader<&[u8]> {
    IgvmDirectiveHeader::X64VbsVpContext { vtl: Vtl::Vtl0, registers, compatibility_mask: 1 }
}

/// Image B with these directive headers.
fn with_directives(directives: &[IgvmDirectiveHeader<&[u8]>]) -> Vec<u8> {
    let b = image_b();
    sheet_bytes(b.revision, &b.platform_headers, &b.initialization_headers, directives).unwrap()
}

/// Image B in so many bytes: its context has registers.
fn of_length(length: usize) -> Vec<u8> {
    let least = image_b().bytes().unwrap().len();
    let sheet = with_directives(&[context(&vec![0; length - least])]);
    assert_eq!(sheet.len(), length);
    sheet
}

fn line(sheet: &[u8]) -> String {
    verdict(sheet).map_or_else(|refusal| refusal.line(), |counts| counts.line())
}

/// That every call refuses the sheet by 3.
fn over_a_limit(sheet: &[u8]) {
    let refusal = Refusal::from_numbers(3, 0, 0);
    assert_eq!(refusal.error, Error::LimitExceeded);
    let mut lent = [0xA5; REGION_BYTES];
    assert_eq!(verdict(sheet), Err(refusal));
    assert_eq!(strict_verdict(sheet), Err(refusal));
    assert_eq!(report(sheet), Err(refusal));
    assert_eq!(report_into(sheet, &mut lent), Err(refusal));
    assert_eq!(relocations(sheet, 0), Err(refusal));
    assert_eq!(relocations_into(sheet, 1, &mut lent), Err(refusal));
    assert_eq!(region_index_into(sheet, 1, &mut lent), Err(refusal));
    assert_eq!(lent, [0xA5; REGION_BYTES]);
    assert_eq!(relocation_base_valid(sheet, 1, 0, 0), Err(refusal));
    assert_eq!(relocation_base_range(sheet, 1, 0, 1, 0), Err(refusal));
    assert_eq!(contains(sheet, 1, 9, 0), Err(refusal));
    assert_eq!(region_of(sheet, 0, 0), Err(refusal));
    assert_eq!(RegionIndex::new(sheet, 0), Err(refusal));
}

#[test]
fn a_sheet_has_8192_directive_rows_and_not_8193() {
    let contexts = vec![context(&[]); 8193];
    for rows in [1024, 1025, 8191, 8192] {
        assert_eq!(line(&with_directives(&contexts[..rows])), format!("accepted 1 1 {rows}"));
    }
    over_a_limit(&with_directives(&contexts));
}

#[test]
fn a_firmware_of_6000_pages_is_accepted() {
    let data = [7; 4096];
    let pages = (0..6000).map(|number| page(0x1000 * number, &data));
    let mut directives: Vec<_> = pages.chain([context(&[])]).collect();
    let sheet = with_directives(&directives);
    assert!(sheet.len() > FORMER_LIMIT);
    assert_eq!(line(&sheet), "accepted 1 1 6001");
    assert_eq!(strict_verdict(&sheet), verdict(&sheet));
    assert_eq!(relocations(&sheet, 1), relocations(&image_b().bytes().unwrap(), 1));
    assert_eq!(relocation_base_valid(&sheet, 1, 0, 0x1F_E000), Ok(BaseCheck::Valid));
    assert_eq!(relocation_base_range(&sheet, 1, 0, 0, 0x1F_E000), Ok(BaseRange::Always));
    assert_eq!(contains(&sheet, 1, 0, 0x10_2000), Ok(false));
    assert_eq!(region_of(&sheet, 1, 0x10_1FFF), Ok(Some(2)));
    assert_eq!(RegionIndex::new(&sheet, 1), RegionIndex::new(&image_b().bytes().unwrap(), 1));
    directives[5999] = page(1, &data);
    let refusal = verdict(&with_directives(&directives)).unwrap_err();
    assert_eq!((refusal.error, refusal.row, refusal.detail), (Error::UnalignedAddress, Some(6002), 1));
    assert_eq!(refusal.place, Some(Place { list: List::Directive, index: 5999 }));
}

#[test]
fn a_sheet_has_67108864_bytes_and_not_one_more() {
    for length in [FORMER_LIMIT, FORMER_LIMIT + 1, LIMIT - 1, LIMIT] {
        assert_eq!(line(&of_length(length)), "accepted 1 1 1", "{length}");
    }
    over_a_limit(&of_length(LIMIT + 1));
}

#[test]
fn the_heads_layout_comes_before_the_limits_and_the_limits_before_the_tables_end() {
    assert_eq!(line(&vec![0; LIMIT + 1]), "refused 2 row 0 detail 0");
    let head = |directives: u16| {
        let mut sheet = image_b().bytes().unwrap();
        sheet[12..14].copy_from_slice(&directives.to_le_bytes());
        sheet
    };
    assert_eq!(
        [8192, 8193, 65_535].map(|rows| line(&head(rows))),
        ["refused 1 row 0 detail 0", "refused 3 row 0 detail 0", "refused 3 row 0 detail 0"]
    );
}

/// An area of this number; their indexes are spread over 32 bits, from 1,024 on.
fn area(number: u32) -> IgvmDirectiveHeader<&'static [u8]> {
    IgvmDirectiveHeader::ParameterArea { number_of_bytes: 0x1000, parameter_area_index: 524_287 * number, initial_data: &[] }
}

#[test]
fn every_directive_row_may_allocate_an_area() {
    let mut directives: Vec<_> = (1..8192).map(area).chain([context(&[])]).collect();
    assert_eq!(line(&with_directives(&directives)), "accepted 1 1 8192");
    directives.swap(0, 8191);
    assert_eq!(line(&with_directives(&directives)), "accepted 1 1 8192");
    directives[8191] = area(2);
    let refusal = verdict(&with_directives(&directives)).unwrap_err();
    assert_eq!((refusal.error, refusal.row), (Error::InvalidParameterAreaIndex, Some(8194)));
    assert_eq!(refusal.place, Some(Place { list: List::Directive, index: 8191 }));
}

#[test]
fn every_row_of_the_largest_lists_is_reported() {
    let b = image_b();
    let (platforms, regions) = (vec![b.platform_headers[0].clone(); 16], vec![b.initialization_headers[0].clone(); 64]);
    let directives: Vec<_> = (0..8192).map(|row| if row % 2 == 0 { page(1, &[]) } else { area(row / 4) }).collect();
    let sheet = sheet_bytes(b.revision, &platforms, &regions, &directives).unwrap();
    let number = |row: u64| match row {
        1 | 17 => 0,
        2..=16 => 14,
        18..=80 => 29,
        row if row % 2 == 1 => 21,
        row => [32, 0][(row / 2 % 2) as usize],
    };
    let expected: Vec<u8> = (1..=8272).flat_map(|row| u64::to_le_bytes(number(row))).collect();
    let mut words = vec![0xA5; expected.len() + 3];
    let reported = report_into(&sheet, &mut words).unwrap();
    assert_eq!(
        (reported.rows, reported.faulty_rows, reported.no_platform, reported.no_context),
        (8272, 15 + 63 + 4096 + 2048, false, true)
    );
    assert_eq!(words, [&expected[..], &[0xA5; 3]].concat());
    let found = report(&sheet).unwrap();
    assert_eq!((found.rows, found.faulty.len()), (8272, 15 + 63 + 4096 + 2048));
    assert!(found
        .faulty
        .iter()
        .all(|faulty| faulty.error.number() == number(faulty.row) && faulty.place == Place::of_row(&sheet, faulty.row)));
    let mut short = vec![0xA5; expected.len() - 1];
    assert_eq!(report_into(&sheet, &mut short).unwrap_err().line(), "refused 37 row 0 detail 0");
    assert_eq!(short, vec![0xA5; expected.len() - 1]);
}

/// The library takes less than 114,688 bytes of stack, the crate some thousand more.
#[test]
fn a_thread_with_128_kib_of_stack_is_enough() {
    let accepted: Vec<_> = (1..8192).map(area).chain([context(&[])]).collect();
    let refused: Vec<_> = (1..8192).chain([1]).map(area).collect();
    for (sheet, count) in [(with_directives(&accepted), Some(1)), (with_directives(&refused), None)] {
        let calls = move || {
            assert_eq!(strict_verdict(&sheet), verdict(&sheet));
            assert_eq!(report(&sheet).unwrap().is_accepted(), verdict(&sheet).is_ok());
            assert_eq!(relocation_base_valid(&sheet, 1, 0, 0).is_ok(), verdict(&sheet).is_ok());
            assert_eq!(relocation_base_range(&sheet, 1, 0, 0, 0).is_ok(), verdict(&sheet).is_ok());
            assert_eq!(region_of(&sheet, 1, 0x10_0000).ok(), count.map(|_| Some(2)));
            assert_eq!(RegionIndex::new(&sheet, 1).ok().map(|index| index.len()), count);
            relocations(&sheet, 1).ok().map(|found| found.regions.len())
        };
        let thread = std::thread::Builder::new().stack_size(128 * 1024).spawn(calls).unwrap();
        assert_eq!(thread.join().unwrap(), count);
    }
}
