//! The strict verdict: what follows from the Rust's headers, how it goes with the verdict, which images and answers a run must have met, and plain Rust.

use crate::columns::{counts, Columns};
use crate::paper::Refusal;
use crate::plain;
use oracle::{Headers, IgvmDirectiveHeader, IgvmInitializationHeader, IgvmPlatformHeader};

/// The verdict's numbers.
pub type Numbers = [u64; 6];

// ---- the Rust's headers

/// A region of either kind.
struct Region {
    row: u64,
    is_table: bool,
    mask: u32,
    vp: u16,
    vtl: u8,
}

/// The regions of the Rust's headers, in the order of their rows.
fn regions(headers: &Headers) -> Vec<Region> {
    use IgvmInitializationHeader::{PageTableRelocationRegion, RelocatableRegion};
    let rows = (headers.platforms.len() as u64 + 1..).zip(&headers.initializations);
    let region = |(row, header): (u64, &IgvmInitializationHeader)| match *header {
        RelocatableRegion { compatibility_mask: mask, vp_index: vp, vtl, .. } => {
            Some(Region { row, is_table: false, mask, vp, vtl: vtl.into() })
        }
        PageTableRelocationRegion { compatibility_mask: mask, vp_index: vp, vtl, .. } => {
            Some(Region { row, is_table: true, mask, vp, vtl: vtl.into() })
        }
        _ => None,
    };
    rows.filter_map(region).collect()
}

/// The contexts of the Rust's headers.
struct Contexts {
    /// VTL and mask of the VBS contexts, each pair once
    vbs: Vec<(u8, u32)>,
    /// the bits of the native ones, of kinds 46 and 49
    native: u32,
}

impl Contexts {
    fn of(headers: &Headers) -> Contexts {
        use IgvmDirectiveHeader::{AArch64CcaVpContext, AArch64VbsVpContext, X64NativeVpContext, X64VbsVpContext};
        let mut contexts = Contexts { vbs: Vec::new(), native: 0 };
        for header in &headers.directives {
            match *header {
                X64VbsVpContext { vtl, compatibility_mask: mask, .. } | AArch64VbsVpContext { vtl, compatibility_mask: mask, .. } => {
                    contexts.vbs.push((vtl.into(), mask))
                }
                X64NativeVpContext { compatibility_mask: mask, .. } | AArch64CcaVpContext { compatibility_mask: mask, .. } => {
                    contexts.native |= mask
                }
                _ => {}
            }
        }
        contexts.vbs.sort_unstable();
        contexts.vbs.dedup();
        contexts
    }

    /// The masks of the VBS contexts of a VTL.
    fn of_vtl(&self, vtl: u8) -> impl Iterator<Item = u32> + '_ {
        self.vbs.iter().filter(move |context| context.0 == vtl).map(|context| context.1)
    }

    /// The bits of a region that no VBS context of its VTL has.
    fn lacking(&self, region: &Region) -> u32 {
        self.of_vtl(region.vtl).fold(region.mask, |lacking, mask| lacking & !mask)
    }
}

/// The strict verdict that follows from the Rust's headers where the Rust accepts them: its numbers, or 38.
pub fn by_rust(headers: &Headers, accepted: &Numbers) -> Numbers {
    let contexts = Contexts::of(headers);
    let lacking = regions(headers).into_iter().map(|region| (region.row, contexts.lacking(&region))).find(|(_, bits)| *bits != 0);
    lacking.map_or(*accepted, |(row, bits)| [38, row, u64::from(bits & bits.wrapping_neg()), 0, 0, 0])
}

/// What the verdict refuses, the strict one refuses alike. What the verdict accepts, it accepts with the same counts, or refuses by 38, with a row, one
/// bit and no counts.
pub fn goes_with(verdict: &Numbers, strict: &Numbers) -> Result<(), String> {
    let is_38 = matches!(*strict, [38, row, bit, 0, 0, 0] if row != 0 && bit.is_power_of_two() && bit < 1 << 32);
    if strict == verdict || verdict[0] == 0 && is_38 {
        return Ok(());
    }
    Err(format!("the strict verdict is {strict:?} where the verdict is {verdict:?}"))
}

// ---- what must be met

/// Of strict verdicts that accept; of 38; and of 34, where another region is one that 38 would name.
const COLUMNS: [&str; 18] = [
    "accepted, a region of several bits",
    "accepted, several bits by two contexts of which neither has all",
    "38",
    "38, a bit of no platform",
    "38, several regions",
    "38, several bits of the region",
    "38, page tables alone",
    "38, a page table, a relocatable region behind it",
    "38, a relocatable region, a page table behind it",
    "38, a context of another VTL has the bit",
    "38, a native context has the bit",
    "38, VTL 0",
    "38, VTL 1",
    "38, VTL 2",
    "38, detail 1",
    "38, detail 2^31",
    "34, a region of 38 before it",
    "34, a region of 38 behind it",
];

/// The columns that tell strict verdicts of one sort from others: which regions and bits, and which other contexts have the bit.
const SORT: [usize; 10] = [0, 1, 4, 5, 6, 7, 8, 9, 16, 17];

/// Which columns hold of a strict verdict that accepts.
fn accepted(regions: &[Region], contexts: &Contexts) -> [bool; 2] {
    let several = || regions.iter().filter(|region| region.mask.count_ones() > 1);
    let by_two = |region: &Region| {
        let held: Vec<u32> = contexts.of_vtl(region.vtl).map(|mask| mask & region.mask).filter(|held| *held != region.mask).collect();
        held.iter().any(|one| held.iter().any(|other| one | other == region.mask))
    };
    [several().next().is_some(), several().any(by_two)]
}

/// Which columns hold of 38 with this row and bit.
fn refused(headers: &Headers, regions: &[Region], contexts: &Contexts, (row, bit): (u64, u64)) -> [bool; 14] {
    let bit = bit as u32;
    let lacking: Vec<&Region> = regions.iter().filter(|region| contexts.lacking(region) != 0).collect();
    let of_platform = |header: &IgvmPlatformHeader| {
        let IgvmPlatformHeader::SupportedPlatform(platform) = header;
        platform.compatibility_mask & bit != 0
    };
    let Some(named) = regions.iter().find(|region| region.row == row) else { return [false; 14] };
    let other_kind = lacking.iter().any(|region| region.is_table != named.is_table);
    [
        true,
        !headers.platforms.iter().any(of_platform),
        lacking.len() > 1,
        contexts.lacking(named).count_ones() > 1,
        lacking.iter().all(|region| region.is_table),
        named.is_table && other_kind,
        !named.is_table && other_kind,
        contexts.vbs.iter().any(|(vtl, mask)| *vtl != named.vtl && mask & bit != 0),
        contexts.native & bit != 0,
        named.vtl == 0,
        named.vtl == 1,
        named.vtl == 2,
        bit == 1,
        bit == 1 << 31,
    ]
}

/// Which columns hold of 34: before or behind a region that has no context, or another VP index than 0, stands one that has a context but not for each bit.
fn without_context(regions: &[Region], contexts: &Contexts) -> [bool; 2] {
    let is_34 = |region: &Region| region.vp != 0 || contexts.lacking(region) == region.mask;
    let is_38 = |region: &Region| !is_34(region) && contexts.lacking(region) != 0;
    let before = regions.iter().skip_while(|region| !is_38(region)).any(is_34);
    let behind = regions.iter().skip_while(|region| !is_34(region)).any(is_38);
    [before, behind]
}

/// Which columns hold of a readable image and its strict verdict.
fn columns(headers: &Headers, numbers: &[u64]) -> [bool; COLUMNS.len()] {
    let mut columns = [false; COLUMNS.len()];
    if !matches!(numbers[0], 0 | 34 | 38) {
        return columns;
    }
    let (regions, contexts) = (regions(headers), Contexts::of(headers));
    match numbers[0] {
        0 => columns[..2].copy_from_slice(&accepted(&regions, &contexts)),
        38 => columns[2..16].copy_from_slice(&refused(headers, &regions, &contexts, (numbers[1], numbers[2]))),
        _ => columns[16..].copy_from_slice(&without_context(&regions, &contexts)),
    }
    columns
}

/// The sort of a readable image with its strict verdict.
pub fn sort(headers: &Headers, numbers: &[u64]) -> u32 {
    let columns = columns(headers, numbers);
    SORT.iter().fold(0, |bits, &column| 2 * bits + u32::from(columns[column]))
}

counts!(Strict);

impl Strict {
    /// The strict verdict on a readable image.
    pub fn met(&mut self, headers: &Headers, numbers: &[u64]) {
        self.count(&columns(headers, numbers));
    }
}

// ---- plain Rust

/// The strict verdict by plain Rust: its verdict, then a look at the regions. One of a single bit has its context by 34. It stands here and not in plain.rs
/// for the reason that `region::by_plain` has.
#[inline(never)]
pub fn by_plain(sheet: &[u8]) -> Result<[u64; 3], Refusal> {
    let counts = plain::verdict(sheet)?;
    let [platforms, initializations, directives] = counts.map(|count| count as usize);
    let (table, bodies) = sheet[16..].split_at(8 * (platforms + initializations + directives));
    let entries = &table.as_chunks().0[platforms..];
    let bodies = &bodies[PLATFORM * platforms..];
    let is_region_of_several = |(kind, body): (u32, &[u8])| matches!(kind, 18 | 19) && !mask_of(body).is_power_of_two();
    if rows(&entries[..initializations], bodies).any(is_region_of_several) {
        plain_bits(entries, bodies, platforms, initializations)?;
    }
    Ok(counts)
}

/// The bytes of a platform's body.
pub const PLATFORM: usize = 16;

/// The kind and the body of each row of these entries of the table, from the front of the bodies on.
pub fn rows<'a>(entries: &'a [[u8; 8]], mut bodies: &'a [u8]) -> impl Iterator<Item = (u32, &'a [u8])> {
    entries.iter().map(move |entry| {
        let entry = u64::from_le_bytes(*entry);
        let (body, behind) = bodies.split_at((entry >> 32) as usize);
        bodies = behind;
        (entry as u32, body)
    })
}

/// The mask of a region or of a VBS context.
pub fn mask_of(body: &[u8]) -> u32 {
    u32::from_le_bytes(*body.first_chunk().unwrap())
}

/// 38, of the rows behind so many platforms, the first of which are so many initialization rows.
fn plain_bits(entries: &[[u8; 8]], bodies: &[u8], platforms: usize, initializations: usize) -> Result<(), Refusal> {
    let mut contexts = [0; 3];
    for (_, body) in rows(entries, bodies).filter(|(kind, _)| matches!(kind, 47 | 48)) {
        contexts[usize::from(body[4])] |= mask_of(body);
    }
    for (at, (kind, body)) in rows(&entries[..initializations], bodies).enumerate() {
        let vtl = match kind {
            18 => body[47],
            19 => body[30],
            _ => continue,
        };
        let lacking = mask_of(body) & !contexts[usize::from(vtl)];
        if lacking != 0 {
            return Err(Refusal(38, (platforms + at + 1) as u64, 1 << lacking.trailing_zeros()));
        }
    }
    Ok(())
}
