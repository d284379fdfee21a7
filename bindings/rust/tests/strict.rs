//! The strict verdict: a context for each bit of each region's mask, which region and which bit a refusal names, and what comes before it.

mod common;
mod random;

use common::{image_b, platform};
use random::Random;
use sapyullu::IgvmDirectiveHeader::{AArch64CcaVpContext, AArch64VbsVpContext, SnpVpContext, X64NativeVpContext, X64VbsVpContext};
use sapyullu::IgvmInitializationHeader::{PageTableRelocationRegion, RelocatableRegion};
use sapyullu::Vtl::{Vtl0, Vtl1, Vtl2};
use sapyullu::*;

/// The region of image B at this gpa, with this mask and of this VTL.
fn region(gpa: u64, mask: u32, of: Vtl) -> IgvmInitializationHeader {
    let mut region = common::region(gpa, 0x2000);
    if let RelocatableRegion { compatibility_mask, vtl, .. } = &mut region {
        (*compatibility_mask, *vtl) = (mask, of);
    }
    region
}

fn page_table(gpa: u64, mask: u32, vtl: Vtl) -> IgvmInitializationHeader {
    PageTableRelocationRegion { compatibility_mask: mask, gpa, size: 0x2000, used_size: 0x1000, vp_index: 0, vtl }
}

fn context(mask: u32, vtl: Vtl) -> IgvmDirectiveHeader {
    X64VbsVpContext { vtl, registers: vec![], compatibility_mask: mask }
}

/// Image B with these initialization headers and these contexts.
fn sheet(initialization_headers: Vec<IgvmInitializationHeader>, contexts: &[(u32, Vtl)]) -> Vec<u8> {
    let directive_headers = contexts.iter().map(|&(mask, vtl)| context(mask, vtl)).collect();
    Sheet { initialization_headers, directive_headers, ..image_b() }.bytes().unwrap()
}

/// That both verdicts accept the sheet, with the same counts.
fn accepted(sheet: &[u8]) -> bool {
    strict_verdict(sheet).is_ok() && strict_verdict(sheet) == verdict(sheet)
}

/// Row and detail of the 38 that the strict verdict gives of a sheet that the verdict accepts.
fn refused(sheet: &[u8]) -> (u64, u64) {
    assert!(verdict(sheet).is_ok());
    let refusal = strict_verdict(sheet).unwrap_err();
    assert_eq!(refusal.error, Error::BitWithoutVpContext);
    (refusal.row.unwrap(), refusal.detail)
}

#[test]
fn every_bit_of_a_regions_mask_needs_a_context() {
    let with = |mask, contexts: &[(u32, Vtl)]| sheet(vec![region(0x10_0000, mask, Vtl0)], contexts);
    assert!(accepted(&image_b().bytes().unwrap()));
    assert_eq!(refused(&with(3, &[(1, Vtl0)])), (2, 2), "image B with mask 3, of which no platform has bit 2");
    assert_eq!(refused(&with(3, &[(2, Vtl0)])), (2, 1));
    assert!(accepted(&with(3, &[(3, Vtl0)])));
    assert!(accepted(&with(3, &[(0xFFFF_FFFF, Vtl0)])), "a context may have more bits");
    assert!(accepted(&with(0xFFFF_FFFF, &[(0xFFFF_FFFF, Vtl0)])));
    assert!(accepted(&sheet(vec![], &[])), "without a region there is nothing to ask");
}

#[test]
fn the_refusal_says_the_region_and_the_bit() {
    let sheet = sheet(vec![region(0x10_0000, 3, Vtl0)], &[(1, Vtl0)]);
    let refusal = strict_verdict(&sheet).unwrap_err();
    assert_eq!(refusal.line(), "refused 38 row 2 detail 2");
    assert_eq!(refusal.place, Some(Place { list: List::Initialization, index: 0 }));
    assert_eq!(
        refusal.to_string(),
        "refusal 38 (BitWithoutVpContext) in row 2 (initialization header 0): \
         the region's mask has a bit that no VBS context of its VTL has (mask 0x2)"
    );
}

#[test]
fn contexts_may_serve_different_bits() {
    let with = |contexts: &[(u32, Vtl)]| sheet(vec![region(0x10_0000, 0b1011, Vtl0)], contexts);
    assert!(accepted(&with(&[(1, Vtl0), (2, Vtl0), (8, Vtl0)])));
    assert!(accepted(&with(&[(8, Vtl0), (4, Vtl2), (3, Vtl0)])));
    assert_eq!(refused(&with(&[(1, Vtl0), (2, Vtl0)])), (2, 8));
    assert_eq!(refused(&with(&[(8, Vtl0), (1, Vtl0)])), (2, 2));
    let all: Vec<(u32, Vtl)> = (0..32).map(|bit| (1 << bit, Vtl0)).collect();
    let with = |contexts: &[(u32, Vtl)]| sheet(vec![region(0x10_0000, 0xFFFF_FFFF, Vtl0)], contexts);
    assert!(accepted(&with(&all)));
    for bit in 0..32 {
        let mut others = all.clone();
        others.remove(bit);
        assert_eq!(refused(&with(&others)), (2, 1 << bit), "all bits but {bit} have a context");
        assert_eq!(refused(&with(&all[bit..=bit])), (2, if bit == 0 { 2 } else { 1 }), "bit {bit} alone has one");
    }
}

#[test]
fn the_first_region_by_its_row_is_named_with_its_lowest_bit() {
    let [served, several, one] = [(0x10_0000, 1), (0x10_2000, 0b1101), (0x10_4000, 3)].map(|(gpa, mask)| region(gpa, mask, Vtl0));
    let of = |headers: [&IgvmInitializationHeader; 3]| refused(&sheet(headers.map(Clone::clone).to_vec(), &[(1, Vtl0)]));
    assert_eq!(of([&served, &several, &one]), (3, 4), "4 and 8 have no context, and of the next region 2");
    assert_eq!(of([&several, &served, &one]), (2, 4));
    assert_eq!(of([&one, &served, &several]), (2, 2));
    assert_eq!(of([&served, &one, &several]), (3, 2));
}

#[test]
fn page_tables_stand_in_one_order_with_regions() {
    let (plain, table) = (|mask| region(0x10_0000, mask, Vtl0), |mask| page_table(0x30_0000, mask, Vtl0));
    assert!(accepted(&sheet(vec![plain(1), table(1)], &[(1, Vtl0)])));
    assert_eq!(refused(&sheet(vec![plain(1), table(3)], &[(1, Vtl0)])), (3, 2), "the page table alone");
    assert_eq!(refused(&sheet(vec![table(5), plain(3)], &[(1, Vtl0)])), (2, 4), "the page table first");
    assert_eq!(refused(&sheet(vec![plain(3), table(5)], &[(1, Vtl0)])), (2, 2), "the region first");
    let policy = IgvmInitializationHeader::GuestPolicy { policy: 0, compatibility_mask: 2 };
    assert_eq!(refused(&sheet(vec![policy, table(3), plain(1)], &[(1, Vtl0)])), (3, 2), "rows count that are no regions");
}

#[test]
fn a_context_serves_regions_of_its_vtl() {
    let vtls = [Vtl0, Vtl1, Vtl2];
    for of in vtls {
        for header in [region(0x10_0000, 3, of), page_table(0x30_0000, 3, of)] {
            for vtl in vtls {
                let sheet = sheet(vec![header.clone()], &[(1, of), (2, vtl)]);
                assert_eq!(accepted(&sheet), vtl == of);
                assert!(vtl == of || refused(&sheet) == (2, 2));
            }
        }
    }
    let headers = vtls.map(|vtl| region(0x10_0000 + 0x2000 * vtl as u64, 3, vtl)).to_vec();
    assert_eq!(refused(&sheet(headers.clone(), &[(3, Vtl0), (1, Vtl1), (2, Vtl2), (1, Vtl2)])), (3, 2));
    assert!(accepted(&sheet(headers, &[(3, Vtl0), (1, Vtl1), (3, Vtl2), (2, Vtl1)])));
}

#[test]
fn vbs_contexts_alone_count() {
    let mut x64 = Sheet { initialization_headers: vec![region(0x10_0000, 3, Vtl0)], ..image_b() };
    x64.directive_headers.push(SnpVpContext { gpa: 0, compatibility_mask: 2, vp_index: 0, vmsa: vec![] });
    x64.directive_headers.push(X64NativeVpContext { compatibility_mask: 2, context: vec![], vp_index: 0 });
    assert_eq!(refused(&x64.bytes().unwrap()), (2, 2));
    let vbs = |compatibility_mask| AArch64VbsVpContext { vtl: Vtl0, registers: vec![], compatibility_mask };
    let mut platform = platform();
    platform.platform_type = IgvmPlatformType::VSM_ISOLATION;
    let mut aarch64 = Sheet {
        revision: IgvmRevision::V2 { arch: Arch::AArch64, page_size: 4096 },
        platform_headers: vec![IgvmPlatformHeader::SupportedPlatform(platform)],
        directive_headers: vec![vbs(1), AArch64CcaVpContext { compatibility_mask: 2, context: vec![], vp_index: 0 }],
        ..x64
    };
    assert_eq!(refused(&aarch64.bytes().unwrap()), (2, 2));
    aarch64.directive_headers.push(vbs(2));
    assert!(accepted(&aarch64.bytes().unwrap()));
}

#[test]
fn the_verdict_comes_first() {
    let strict = |headers, contexts: &[(u32, Vtl)]| {
        let sheet = sheet(headers, contexts);
        assert_eq!(strict_verdict(&sheet), verdict(&sheet));
        strict_verdict(&sheet).unwrap_err().line()
    };
    let first = region(0x10_0000, 3, Vtl0);
    let behind = |second| strict(vec![first.clone(), second], &[(1, Vtl0)]);
    assert_eq!(refused(&sheet(vec![first.clone()], &[(1, Vtl0)])), (2, 2), "the first region is refused by itself");
    assert_eq!(behind(region(0x10_2000, 1, Vtl1)), "refused 34 row 0 detail 0", "no context of VTL 1");
    assert_eq!(behind(region(0x10_2000, 0, Vtl0)), "refused 34 row 0 detail 0", "a mask of 0 shares no bit");
    assert_eq!(behind(page_table(0x30_0000, 4, Vtl0)), "refused 34 row 0 detail 0", "no context of mask 4");
    assert_eq!(behind(region(0x10_1000, 2, Vtl0)), "refused 29 row 3 detail 0", "the two overlap");
    let mut other_vp = first.clone();
    if let RelocatableRegion { vp_index, .. } = &mut other_vp {
        *vp_index = 1;
    }
    assert_eq!(strict(vec![other_vp], &[(1, Vtl0)]), "refused 34 row 0 detail 0", "VP index 1");
    assert_eq!(strict(vec![first.clone()], &[]), "refused 34 row 0 detail 0");
}

#[test]
fn a_region_and_a_context_count_wherever_they_stand() {
    let measurement = IgvmDirectiveHeader::VbsMeasurement { compatibility_mask: 2, opaque: vec![] };
    let mut largest = image_b();
    largest.initialization_headers = (0..64).map(|number| region(0x2000 * number, 1, Vtl0)).collect();
    largest.directive_headers = vec![measurement; 8192];
    largest.directive_headers[0] = context(1, Vtl0);
    assert!(accepted(&largest.bytes().unwrap()));
    for at in [0, 1, 62, 63] {
        largest.initialization_headers[at] = region(0x2000 * at as u64, 3, Vtl0);
        assert_eq!(refused(&largest.bytes().unwrap()), (2 + at as u64, 2));
        largest.initialization_headers[at] = region(0x2000 * at as u64, 1, Vtl0);
    }
    largest.initialization_headers[63] = region(0x2000 * 63, 3, Vtl0);
    for at in [1, 63, 64, 1023, 1024, 8191] {
        let measurement = std::mem::replace(&mut largest.directive_headers[at], context(2, Vtl0));
        assert!(accepted(&largest.bytes().unwrap()), "the context of bit 2 is directive header {at}");
        largest.directive_headers[at] = measurement;
    }
}

/// What the strict verdict has to say of headers that the verdict accepts: the first region that has bits without a context, by its row, and the lowest of them.
fn first_without(headers: &[IgvmInitializationHeader], contexts: &[(u32, Vtl)]) -> Option<(u64, u64)> {
    (2..).zip(headers).find_map(|(row, header)| {
        let (RelocatableRegion { compatibility_mask: mask, vtl, .. } | PageTableRelocationRegion { compatibility_mask: mask, vtl, .. }) =
            header
        else {
            return None;
        };
        let has = |bit: &u32| contexts.iter().any(|(other, of)| of == vtl && other & bit != 0);
        (0..32).map(|place| 1 << place).find(|bit| mask & bit != 0 && !has(bit)).map(|bit| (row, bit.into()))
    })
}

/// A mask of some of four bits, the highest among them, and a VTL.
fn mask_and_vtl(random: &mut impl FnMut(u64) -> u64) -> (u32, Vtl) {
    (random(8) as u32 | (random(3) as u32 / 2) << 31, [Vtl0, Vtl0, Vtl1][random(3) as usize])
}

#[test]
fn regions_and_contexts_of_all_sorts_and_in_another_order() {
    let mut source = Random(1);
    let mut random = |bound| source.below(bound);
    let (mut by_38, mut by_another, mut by_none) = (0, 0, 0);
    for _ in 0..20_000 {
        let mut headers = vec![];
        for gpa in (0..random(4)).map(|number| 0x10_0000 + 0x2000 * number) {
            let (mask, vtl) = mask_and_vtl(&mut random);
            headers.push(match random(4) {
                0 => page_table(gpa, mask, vtl),
                1 => IgvmInitializationHeader::GuestPolicy { policy: gpa, compatibility_mask: mask },
                _ => region(gpa, mask, vtl),
            });
        }
        let mut contexts: Vec<_> = (0..random(6)).map(|_| mask_and_vtl(&mut random)).collect();
        let sheet_in_order = sheet(headers.clone(), &contexts);
        match (verdict(&sheet_in_order), first_without(&headers, &contexts)) {
            (Err(refusal), _) => {
                assert_eq!(strict_verdict(&sheet_in_order), Err(refusal), "{headers:?} {contexts:?}");
                by_another += 1;
            }
            (Ok(_), Some(row_and_bit)) => {
                assert_eq!(refused(&sheet_in_order), row_and_bit, "{headers:?} {contexts:?}");
                by_38 += 1;
            }
            (Ok(_), None) => {
                assert!(accepted(&sheet_in_order), "{headers:?} {contexts:?}");
                by_none += 1;
            }
        }
        headers.reverse();
        contexts.reverse();
        let reordered = sheet(headers, &contexts);
        assert_eq!(strict_verdict(&reordered).is_ok(), strict_verdict(&sheet_in_order).is_ok());
    }
    assert!([by_38, by_another, by_none].into_iter().all(|times| times > 1000), "{by_38} {by_another} {by_none}");
}
