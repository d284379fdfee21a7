// Document 01 in plain Rust, in its order, with the refusal's number beside each test; and of document 02 the report, the strict verdict, why a base
// is not valid, the answer over a range of bases, and which region has an address. It is written for reading, not for speed. It is what the calls are
// compared with where the Rust has no answer: 1 to 6, 19, 27, 28, 35 to 38, 50, regions' words that it can't hold, why a base is not valid, ranges of
// more multiples than are tried, reports on more rows than it is asked about, and an index that a call has put or that is any bytes.
// mutations.txt edits this text: each wrong copy must be caught.

use calls::Calls;
use std::collections::HashMap;

/// A refusal: number, row (0 for the whole) and detail.
#[derive(Clone, Copy, Debug, PartialEq, Eq)]
pub struct Refusal(pub u64, pub u64, pub u64);

type Checked = Result<(), Refusal>;

fn refuse(test: bool, number: u64, row: u64, detail: u64) -> Checked {
    if test {
        return Err(Refusal(number, row, detail));
    }
    Ok(())
}

const PAGE: u64 = 4096;
const X64: u64 = 0;
const AARCH64: u64 = 1;
const VSM_ISOLATION: u64 = 1;
const CCA: u64 = 6;

// ---- the sheet

const ROW_LIMITS: [u64; 3] = [16, 64, 8192];
const BYTE_LIMIT: usize = 67_108_864;

/// Of a kind: its list, the least length of its body, and whether that length is exact.
fn kind_rule(kind: u64) -> Option<(usize, usize, bool)> {
    Some(match kind {
        1 => (0, 16, true),
        16 => (1, 12, true),
        17 => (1, 22, true),
        18 => (1, 48, true),
        19 => (1, 31, true),
        32 => (2, 18, false),
        33 => (2, 12, false),
        34..=43 => (2, 8, true),
        44 => (2, 17, true),
        45 => (2, 14, false),
        46 | 49 => (2, 6, false),
        47 | 48 => (2, 5, false),
        50 | 51 => (2, 16, true),
        52 | 53 => (2, 4, false),
        _ => return None,
    })
}

/// The little-endian number of `width` bytes at `at`.
fn le(bytes: &[u8], at: usize, width: usize) -> u64 {
    bytes[at..at + width].iter().rev().fold(0, |number, &byte| number * 256 + u64::from(byte))
}

/// The bits of a mask, each as a mask, the lowest first.
fn bits(mask: u64) -> impl DoubleEndedIterator<Item = u64> {
    (0..32).map(|place| 1 << place).filter(move |bit| mask & bit != 0)
}

/// A row: its number, from 1 across the lists, its kind and its body.
struct Row<'a> {
    number: u64,
    kind: u64,
    body: &'a [u8],
}

impl Row<'_> {
    fn field(&self, at: usize, width: usize) -> u64 {
        le(self.body, at, width)
    }
}

struct Sheet<'a> {
    arch: u64,
    platforms: Vec<Row<'a>>,
    initializations: Vec<Row<'a>>,
    directives: Vec<Row<'a>>,
}

/// Refusals 1 to 7: 1 (under 16 bytes), 2, 3, 1 (table); then each row 4, 5 (length), 1, 5 (codes); then 6, 7.
fn read(s: &[u8]) -> Result<Sheet<'_>, Refusal> {
    refuse(s.len() < 16, 1, 0, 0)?;
    let (revision, arch, page_size) = (le(s, 0, 1), le(s, 1, 1), le(s, 4, 4));
    let counts = [le(s, 8, 2), le(s, 10, 2), le(s, 12, 2)];
    refuse(!(1..=2).contains(&revision) || arch > AARCH64 || le(s, 2, 2) != 0 || le(s, 14, 2) != 0, 2, 0, 0)?;
    refuse(revision == 1 && (arch != X64 || page_size != 0), 2, 0, 0)?;
    refuse((0..3).any(|list| counts[list] > ROW_LIMITS[list]) || s.len() > BYTE_LIMIT, 3, 0, 0)?;
    let rows = counts[0] + counts[1] + counts[2];
    let mut at = 16 + 8 * rows as usize;
    refuse(s.len() < at, 1, 0, 0)?;
    let mut lists = [Vec::new(), Vec::new(), Vec::new()];
    for number in 1..=rows {
        let list = list_of(number, &counts);
        let row = read_row(s, number, list, at)?;
        at += row.body.len();
        lists[list].push(row);
    }
    refuse(at < s.len(), 6, 0, 0)?;
    refuse(revision == 2 && page_size != PAGE, 7, 0, page_size)?;
    let [platforms, initializations, directives] = lists;
    Ok(Sheet { arch, platforms, initializations, directives })
}

fn list_of(number: u64, counts: &[u64; 3]) -> usize {
    if number <= counts[0] {
        0
    } else if number <= counts[0] + counts[1] {
        1
    } else {
        2
    }
}

fn read_row(s: &[u8], number: u64, list: usize, at: usize) -> Result<Row<'_>, Refusal> {
    let entry = 8 + 8 * number as usize;
    let (kind, length) = (le(s, entry, 4), le(s, entry + 4, 4) as usize);
    let Some((_, least, exact)) = kind_rule(kind).filter(|rule| rule.0 == list) else {
        return Err(Refusal(4, number, 0));
    };
    refuse(length < least || exact && length != least, 5, number, 0)?;
    refuse(s.len() - at < length, 1, number, 0)?;
    let row = Row { number, kind, body: &s[at..at + length] };
    refuse(!codes_ok(&row), 5, number, 0)?;
    Ok(row)
}

/// The VTL of 18, 19, 47, 48 up to 2, the flags of 18 up to 7, protectable up to 1.
fn codes_ok(row: &Row) -> bool {
    match row.kind {
        18 => row.field(47, 1) <= 2 && row.field(44, 1) <= 7,
        19 => row.field(30, 1) <= 2,
        47 | 48 => row.field(4, 1) <= 2,
        44 => row.field(16, 1) <= 1,
        _ => true,
    }
}

// ---- platform rows: 8, 9, 12, 10, 11, 13, 14; then 15

fn platform_rows(sheet: &Sheet) -> Checked {
    let mut earlier = Vec::new();
    for row in &sheet.platforms {
        platform_row(sheet.arch, row, &earlier)?;
        earlier.push(row);
    }
    refuse(sheet.platforms.is_empty(), 15, 0, 0)
}

/// A platform row behind these.
fn platform_row(arch: u64, row: &Row, earlier: &[&Row]) -> Checked {
    let (mask, highest_vtl, typ) = (row.field(0, 4), row.field(4, 1), row.field(5, 1));
    let (version, boundary) = (row.field(6, 2), row.field(8, 8));
    refuse(mask.count_ones() != 1, 8, row.number, 0)?;
    refuse(highest_vtl != 0 && highest_vtl != 2, 9, row.number, 0)?;
    refuse(typ > CCA, 12, row.number, 0)?;
    refuse(version != 1, 10, row.number, 0)?;
    refuse(typ <= VSM_ISOLATION && boundary != 0, 11, row.number, 0)?;
    refuse(!arch_takes(arch, typ), 13, row.number, typ)?;
    refuse(earlier.iter().any(|other| other.field(5, 1) == typ), 14, row.number, 0)
}

/// Type 6 is of AArch64; 0 and 2 to 5 are of X64; 1 is of both.
fn arch_takes(arch: u64, typ: u64) -> bool {
    match typ {
        CCA => arch == AARCH64,
        VSM_ISOLATION => true,
        _ => arch == X64,
    }
}

/// The type that counts for a mask: that of the last of these platforms with it.
fn type_of(platforms: &[&Row], mask: u64) -> Option<u64> {
    platforms.iter().rev().find(|row| row.field(0, 4) == mask).map(|row| row.field(5, 1))
}

// ---- initialization rows

/// A region of either kind.
struct Region {
    kind: u64,
    mask: u64,
    gpa: u64,
    size: u64,
    used: u64,
    vp: u64,
    vtl: u64,
}

fn as_region(row: &Row) -> Option<Region> {
    let (kind, mask) = (row.kind, row.field(0, 4));
    match kind {
        18 => {
            let (gpa, size) = (row.field(12, 8), row.field(20, 8));
            Some(Region { kind, mask, gpa, size, used: 0, vp: row.field(45, 2), vtl: row.field(47, 1) })
        }
        19 => {
            let (gpa, size, used) = (row.field(4, 8), row.field(12, 8), row.field(20, 8));
            Some(Region { kind, mask, gpa, size, used, vp: row.field(28, 2), vtl: row.field(30, 1) })
        }
        _ => None,
    }
}

/// base + size, exact
fn end(base: u64, size: u64) -> u128 {
    u128::from(base) + u128::from(size)
}

/// Gives the regions of both kinds.
fn initialization_rows(sheet: &Sheet) -> Result<Vec<Region>, Refusal> {
    let platforms: Vec<&Row> = sheet.platforms.iter().collect();
    let mut earlier = Vec::new();
    for row in &sheet.initializations {
        initialization_row(sheet.arch, row, &platforms, &earlier)?;
        earlier.extend(as_region(row));
    }
    Ok(earlier)
}

/// An initialization row behind these platforms and regions.
fn initialization_row(arch: u64, row: &Row, platforms: &[&Row], earlier: &[Region]) -> Checked {
    match row.kind {
        17 => cca_policy(arch, row, platforms)?,
        18 => relocatable_region(row)?,
        19 => page_table(row, earlier)?,
        _ => {}
    }
    as_region(row).map_or(Ok(()), |region| sound_region(row.number, &region, earlier))
}

/// Kind 17: 16, 24, 25.
fn cca_policy(arch: u64, row: &Row, platforms: &[&Row]) -> Checked {
    let (mask, zeroes, ones) = (row.field(0, 4), row.field(4, 8), row.field(12, 8));
    refuse(zeroes & ones != 0, 16, row.number, 0)?;
    refuse(arch != AARCH64, 24, row.number, 17)?;
    for bit in bits(mask) {
        refuse(type_of(platforms, bit) != Some(CCA), 25, row.number, bit)?;
    }
    Ok(())
}

/// Kind 18: 17, 18, 19, 20.
fn relocatable_region(row: &Row) -> Checked {
    let (alignment, gpa, size) = (row.field(4, 8), row.field(12, 8), row.field(20, 8));
    let (minimum, maximum) = (row.field(28, 8), row.field(36, 8));
    refuse(size % PAGE != 0, 17, row.number, 0)?;
    refuse(alignment % PAGE != 0, 18, row.number, 0)?;
    refuse(alignment == 0, 19, row.number, 0)?;
    refuse(gpa % alignment != 0, 20, row.number, gpa)?;
    refuse(minimum % alignment != 0, 20, row.number, minimum)?;
    refuse(maximum % alignment != 0, 20, row.number, maximum)
}

/// Kind 19: 21, 22 (size, used), 23, 26.
fn page_table(row: &Row, earlier: &[Region]) -> Checked {
    let (mask, gpa, size, used) = (row.field(0, 4), row.field(4, 8), row.field(12, 8), row.field(20, 8));
    refuse(gpa % PAGE != 0, 21, row.number, gpa)?;
    refuse(size % PAGE != 0, 22, row.number, size)?;
    refuse(used % PAGE != 0, 22, row.number, used)?;
    refuse(used > size, 23, row.number, 0)?;
    refuse(earlier.iter().any(|other| other.kind == 19 && other.mask & mask != 0), 26, row.number, 0)
}

/// Kinds 18 and 19: 27, 28, 29.
fn sound_region(number: u64, region: &Region, earlier: &[Region]) -> Checked {
    refuse(region.size == 0, 27, number, 0)?;
    refuse(end(region.gpa, region.size) > u128::from(u64::MAX), 28, number, 0)?;
    refuse(earlier.iter().any(|other| overlap(region, other)), 29, number, 0)
}

/// Two regions share an address under a shared bit.
fn overlap(a: &Region, b: &Region) -> bool {
    let (a_end, b_end) = (end(a.gpa, a.size), end(b.gpa, b.size));
    a.mask & b.mask != 0 && u128::from(a.gpa) < b_end && u128::from(b.gpa) < a_end
}

// ---- directive rows: 21, 30, 22, 31, 24, 32, 33

/// A parameter area that was allocated, and whether it was inserted.
struct Area {
    inserted: bool,
}

/// The areas by their indexes.
type Areas = HashMap<u64, Area>;

fn directive_rows(sheet: &Sheet, regions: &[Region]) -> Checked {
    let mut areas = Areas::new();
    for row in &sheet.directives {
        directive_row(sheet.arch, row, &areas, regions)?;
        mark_area(row, &mut areas);
    }
    Ok(())
}

/// A directive row behind rows that have left these areas and regions.
fn directive_row(arch: u64, row: &Row, areas: &Areas, regions: &[Region]) -> Checked {
    aligned_directive(row)?;
    refuse(!arch_has(arch, row.kind), 24, row.number, row.kind)?;
    refuse(!area_rule(row, areas), 32, row.number, 0)?;
    refuse(row.kind == 50 && in_page_table(row, regions), 33, row.number, 0)
}

/// 21 (kinds 32, 44, 45, 50, 51), 30 (32), 22 (33, 44), 31 (32, 33).
fn aligned_directive(row: &Row) -> Checked {
    if matches!(row.kind, 32 | 44 | 45 | 50 | 51) {
        let gpa = row.field(0, 8);
        refuse(gpa % PAGE != 0, 21, row.number, gpa)?;
    }
    match row.kind {
        32 => {
            refuse(row.field(16, 2) > 3, 30, row.number, 0)?;
            refuse(row.body.len() - 18 > 4096, 31, row.number, 0)
        }
        33 => {
            let bytes = row.field(0, 8);
            refuse(bytes % PAGE != 0, 22, row.number, bytes)?;
            refuse((row.body.len() - 12) as u64 > bytes, 31, row.number, 0)
        }
        44 => refuse(row.field(12, 4) % PAGE != 0, 22, row.number, row.field(12, 4)),
        _ => Ok(()),
    }
}

/// 48 and 49 are of AArch64; 46 and 47 of X64.
fn arch_has(arch: u64, kind: u64) -> bool {
    match kind {
        46 | 47 => arch == X64,
        48 | 49 => arch == AARCH64,
        _ => true,
    }
}

/// The index of the area that a row allocates, names or inserts.
fn area_of(row: &Row) -> Option<u64> {
    let at = match row.kind {
        33 => 8,
        34..=43 => 0,
        50 => 12,
        _ => return None,
    };
    Some(row.field(at, 4))
}

/// An area index may be allocated once, named while allocated, inserted once.
fn area_rule(row: &Row, areas: &Areas) -> bool {
    let Some(index) = area_of(row) else { return true };
    match (row.kind, areas.get(&index)) {
        (33, None) => true,
        (33, Some(_)) | (_, None) => false,
        (_, Some(area)) => !area.inserted,
    }
}

/// What a row leaves of its area where it has no fault.
fn mark_area(row: &Row, areas: &mut Areas) {
    let Some(index) = area_of(row) else { return };
    match row.kind {
        33 => drop(areas.insert(index, Area { inserted: false })),
        50 => drop(areas.insert(index, Area { inserted: true })),
        _ => {}
    }
}

/// The insert's gpa lies in a page table that shares a bit.
fn in_page_table(row: &Row, regions: &[Region]) -> bool {
    let (gpa, mask) = (row.field(0, 8), row.field(8, 4));
    let holds = |t: &Region| t.mask & mask != 0 && t.gpa <= gpa && u128::from(gpa) < end(t.gpa, t.size);
    regions.iter().any(|region| region.kind == 19 && holds(region))
}

// ---- the verdict

/// 34: for a region of either kind the VP index must be 0, and some VBS context of its VTL must share at least one mask bit.
fn has_context<'a>(directives: impl IntoIterator<Item = &'a Row<'a>>, region: &Region) -> bool {
    let vbs = |row: &&Row| matches!(row.kind, 47 | 48);
    let shares = |row: &Row| row.field(4, 1) == region.vtl && row.field(0, 4) & region.mask != 0;
    region.vp == 0 && directives.into_iter().filter(vbs).any(shares)
}

fn accepted(s: &[u8]) -> Result<Sheet<'_>, Refusal> {
    let sheet = read(s)?;
    platform_rows(&sheet)?;
    let regions = initialization_rows(&sheet)?;
    directive_rows(&sheet, &regions)?;
    refuse(!regions.iter().all(|region| has_context(&sheet.directives, region)), 34, 0, 0)?;
    Ok(sheet)
}

/// Number, row, detail, and the rows of each list.
fn verdict_numbers(judged: Result<Sheet, Refusal>) -> [u64; 6] {
    match judged {
        Ok(sheet) => {
            let (p, i, d) = (sheet.platforms.len(), sheet.initializations.len(), sheet.directives.len());
            [0, 0, 0, p as u64, i as u64, d as u64]
        }
        Err(Refusal(number, row, detail)) => [number, row, detail, 0, 0, 0],
    }
}

pub fn verdict(s: &[u8]) -> [u64; 6] {
    verdict_numbers(accepted(s))
}

// ---- the strict verdict (document 02, request 3): the verdict, then 38

/// 38: for each bit of the mask of a region of either kind there must be a VBS context of the region's VTL with that bit. The first such region by its
/// row is named, and its lowest such bit.
fn bits_have_contexts(sheet: &Sheet) -> Checked {
    let regions = sheet.initializations.iter().filter_map(|row| Some((row.number, as_region(row)?)));
    for (number, region) in regions {
        for bit in bits(region.mask) {
            let has_bit = |context: &Row| context.field(4, 1) == region.vtl && context.field(0, 4) & bit != 0;
            let found = sheet.directives.iter().any(|row| matches!(row.kind, 47 | 48) && has_bit(row));
            refuse(!found, 38, number, bit)?;
        }
    }
    Ok(())
}

fn strictly_accepted(s: &[u8]) -> Result<Sheet<'_>, Refusal> {
    let judged = accepted(s)?;
    bits_have_contexts(&judged)?;
    Ok(judged)
}

/// The numbers of the verdict, or 38 with its row and bit.
pub fn strict_verdict(s: &[u8]) -> [u64; 6] {
    verdict_numbers(strictly_accepted(s))
}

// ---- the report (document 02, request 2): of each row the refusal that it meets where the faulty rows before it are skipped; 1 to 7, then 37

/// The rows that are not skipped, as far as later ones are judged by them.
#[derive(Default)]
struct Kept<'a> {
    platforms: Vec<&'a Row<'a>>,
    regions: Vec<Region>,
    areas: Areas,
    directives: Vec<&'a Row<'a>>,
}

impl<'a> Kept<'a> {
    /// The rules of a row behind these, and behind no others. Its kind tells its list.
    fn judge(&self, arch: u64, row: &Row) -> Checked {
        match row.kind {
            1 => platform_row(arch, row, &self.platforms),
            16..=19 => initialization_row(arch, row, &self.platforms, &self.regions),
            _ => directive_row(arch, row, &self.areas, &self.regions),
        }
    }

    fn keep(&mut self, row: &'a Row<'a>) {
        match row.kind {
            1 => self.platforms.push(row),
            16..=19 => self.regions.extend(as_region(row)),
            _ => {
                mark_area(row, &mut self.areas);
                self.directives.push(row);
            }
        }
    }
}

/// What is told of a readable sheet.
struct Told {
    /// of each row the number of its refusal, 0 for none
    words: Vec<u64>,
    /// 15, over the rows that are kept
    no_platform: bool,
    /// 34, over the rows that are kept
    no_context: bool,
}

/// A row that has a fault is skipped: it leaves no trace.
fn tell(sheet: &Sheet) -> Told {
    let (mut kept, mut words) = (Kept::default(), Vec::new());
    for row in sheet.platforms.iter().chain(&sheet.initializations).chain(&sheet.directives) {
        let judged = kept.judge(sheet.arch, row);
        words.push(judged.map_or_else(|Refusal(number, ..)| number, |()| 0));
        if judged.is_ok() {
            kept.keep(row);
        }
    }
    let no_context = kept.regions.iter().any(|region| !has_context(kept.directives.iter().copied(), region));
    Told { words, no_platform: kept.platforms.is_empty(), no_context }
}

fn report_into(s: &[u8], lent: &mut [u8]) -> Result<[u64; 7], Refusal> {
    let sheet = read(s)?;
    let rows = sheet.platforms.len() + sheet.initializations.len() + sheet.directives.len();
    refuse(lent.len() / 8 < rows, 37, 0, 0)?;
    let told = tell(&sheet);
    for (k, word) in told.words.iter().enumerate() {
        lent[8 * k..8 * k + 8].copy_from_slice(&word.to_le_bytes());
    }
    let faulty = told.words.iter().filter(|word| **word != 0).count();
    Ok([0, 0, 0, told.no_platform.into(), told.no_context.into(), rows as u64, faulty as u64])
}

/// Number, row, detail, whether 15 applies (1 or 0), whether 34 does, the rows, and how many of them are faulty. The rows' words go to the front of
/// the lent bytes. Faulty rows refuse nothing.
pub fn report(s: &[u8], lent: &mut [u8]) -> [u64; 7] {
    report_into(s, lent).unwrap_or_else(|Refusal(number, row, detail)| [number, row, detail, 0, 0, 0, 0])
}

// ---- the queries: the verdict, 35, then 36 or 37; of a range 50 behind 36

/// A region's eight words: base, size, alignment, minimum, maximum, flags, VP, VTL.
pub type Words = [u64; 8];

/// A header matches if its mask holds every bit of the mask given.
fn matches_mask(row: &Row, mask: u32) -> bool {
    row.field(0, 4) & u64::from(mask) == u64::from(mask)
}

/// The regions of a mask in header order, and its page table.
struct Found {
    regions: Vec<Words>,
    page_table: Option<Region>,
}

/// The rows of the regions of a mask, of either kind, in header order.
fn rows_of(s: &[u8], mask: u32) -> Result<Vec<Row<'_>>, Refusal> {
    let sheet = accepted(s)?;
    refuse(mask == 0, 35, 0, 0)?;
    Ok(sheet.initializations.into_iter().filter(|row| matches!(row.kind, 18 | 19) && matches_mask(row, mask)).collect())
}

fn find(s: &[u8], mask: u32) -> Result<Found, Refusal> {
    let rows = rows_of(s, mask)?;
    let of_kind = |kind: u64| rows.iter().filter(move |row| row.kind == kind);
    Ok(Found { regions: of_kind(18).map(words_of).collect(), page_table: of_kind(19).find_map(as_region) })
}

fn words_of(row: &Row) -> Words {
    let word = |at| row.field(at, 8);
    let (alignment, base, size, minimum, maximum) = (word(4), word(12), word(20), word(28), word(36));
    [base, size, alignment, minimum, maximum, row.field(44, 1), row.field(45, 2), row.field(47, 1)]
}

/// Number, row, detail, count, page table (1 or 0), gpa, size, used size, VP index, VTL. The regions' words go to the front of the lent bytes.
pub fn relocations(s: &[u8], mask: u32, lent: &mut [u8]) -> [u64; 10] {
    match relocations_into(s, mask, lent) {
        Ok(numbers) => numbers,
        Err(Refusal(number, row, detail)) => [number, row, detail, 0, 0, 0, 0, 0, 0, 0],
    }
}

fn relocations_into(s: &[u8], mask: u32, lent: &mut [u8]) -> Result<[u64; 10], Refusal> {
    let found = find(s, mask)?;
    refuse(lent.len() / 8 < 8 * found.regions.len(), 37, 0, 0)?;
    for (place, word) in lent.chunks_exact_mut(8).zip(found.regions.iter().flatten()) {
        place.copy_from_slice(&word.to_le_bytes());
    }
    let count = found.regions.len() as u64;
    Ok(match found.page_table {
        Some(t) => [0, 0, 0, count, 1, t.gpa, t.size, t.used, t.vp, t.vtl],
        None => [0, 0, 0, count, 0, 0, 0, 0, 0, 0],
    })
}

/// Number, row, detail, and what is said of the region of this number, 0 in a refusal.
fn check(s: &[u8], mask: u32, region: u64, said: impl Fn(&Words) -> u64) -> [u64; 4] {
    match find(s, mask) {
        Ok(found) => match found.regions.get(region as usize) {
            Some(words) => [0, 0, 0, said(words)],
            None => [36, 0, 0, 0],
        },
        Err(Refusal(number, row, detail)) => [number, row, detail, 0],
    }
}

const VALID: u64 = 1;
const UNALIGNED: u64 = 2;
const BELOW: u64 = 3;
const ABOVE: u64 = 4;

/// A base is valid if it is a multiple of the alignment, not below the minimum, and base + size is not above the maximum (document 01). Else it is said why it
/// is not, the first that applies in this order (document 02, request 7). Of alignment 0 only 0 is a multiple.
fn base_check(&[_, size, alignment, minimum, maximum, ..]: &Words, base: u64) -> u64 {
    if base.checked_rem(alignment).unwrap_or(base) != 0 {
        UNALIGNED
    } else if base < minimum {
        BELOW
    } else if end(base, size) > u128::from(maximum) {
        ABOVE
    } else {
        VALID
    }
}

/// Number 3 is the check of the base.
pub fn relocation_base_valid(s: &[u8], mask: u32, region: u64, base: u64) -> [u64; 4] {
    check(s, mask, region, |words| base_check(words, base))
}

/// Number 3 is 1 if the address is contained, from base up to, not including, base + size; else 0.
pub fn contains(s: &[u8], mask: u32, region: u64, gpa: u64) -> [u64; 4] {
    check(s, mask, region, |&[base, size, ..]| u64::from(gpa >= base && u128::from(gpa) < end(base, size)))
}

const ALWAYS: u64 = 1;
const NEVER: u64 = 2;
const SOMETIMES: u64 = 3;

/// The multiples of an alignment from the lowest to the highest, ends included, in exact numbers. The alignment is not 0, as that of an accepted
/// region.
fn multiples(alignment: u64, lowest: u64, highest: u64) -> impl Iterator<Item = u64> {
    let [alignment, lowest, highest] = [alignment, lowest, highest].map(u128::from);
    let from_below = (lowest / alignment..).map(move |times| times * alignment);
    from_below.skip_while(move |base| *base < lowest).take_while(move |base| *base <= highest).map(|base| base as u64)
}

/// Always if there is a base and all are valid, never if none is valid, else sometimes (document 02, request 13).
fn over(words: &Words, bases: impl Iterator<Item = u64>) -> u64 {
    let (mut some_valid, mut some_not) = (false, false);
    for base in bases {
        match base_check(words, base) {
            VALID => some_valid = true,
            _ => some_not = true,
        }
    }
    match (some_valid, some_not) {
        (false, _) => NEVER,
        (true, false) => ALWAYS,
        (true, true) => SOMETIMES,
    }
}

/// The most multiples of a range that are tried, each of them.
const TRIED: u64 = 4096;

/// The answer over a range by trying each multiple, if there are no more than are tried.
pub fn by_each(words: &Words, lowest: u64, highest: u64) -> Option<u64> {
    let alignment = words[2];
    let count = (highest / alignment + 1).saturating_sub(lowest.div_ceil(alignment));
    (count <= TRIED).then(|| over(words, multiples(alignment, lowest, highest)))
}

/// The answer over a range by the multiples near its two ends, the minimum and maximum - size, a few on either side of each. No other need be tried:
/// from one multiple to the next, being below the minimum changes at the minimum alone, and being above the maximum at maximum - size alone. So
/// between two of these four numbers that are neighbours all multiples are valid or none is, and if there is one, there is one near. Where the size
/// is above the maximum, no base is valid.
pub fn by_places(words: &Words, lowest: u64, highest: u64) -> u64 {
    let &[_, size, alignment, minimum, maximum, ..] = words;
    let few = alignment.saturating_mul(3);
    let near = |place: u64| multiples(alignment, place.saturating_sub(few).max(lowest), place.saturating_add(few).min(highest));
    over(words, [lowest, highest, minimum, maximum.saturating_sub(size)].into_iter().flat_map(near))
}

/// The answer over a range.
fn range_check(words: &Words, lowest: u64, highest: u64) -> u64 {
    by_each(words, lowest, highest).unwrap_or_else(|| by_places(words, lowest, highest))
}

/// Number 3 is the answer over the range.
pub fn relocation_base_range(s: &[u8], mask: u32, region: u64, lowest: u64, highest: u64) -> [u64; 4] {
    match check(s, mask, region, |words| range_check(words, lowest, highest)) {
        [0, ..] if lowest > highest => [50, 0, 0, 0],
        numbers => numbers,
    }
}

// ---- which region has an address (document 02, request 9): the verdict, 35, and for an index 37

/// Number 3 is the row of the region of the mask, of either kind, that contains the address, by reading all of them; 0 where none does.
pub fn region_of(s: &[u8], mask: u32, gpa: u64) -> [u64; 4] {
    match rows_of(s, mask) {
        Ok(rows) => [0, 0, 0, rows.iter().find(|row| has_address(row, gpa)).map_or(0, |row| row.number)],
        Err(Refusal(number, row, detail)) => [number, row, detail, 0],
    }
}

/// From a region's first address up to, not including, its end. All of a page table counts, not only what is used of it.
fn has_address(row: &Row, gpa: u64) -> bool {
    as_region(row).is_some_and(|region| gpa >= region.gpa && u128::from(gpa) < end(region.gpa, region.size))
}

/// Of each of these regions its start, its size and its row, the lowest start first.
fn index_of(rows: &[Row]) -> Vec<[u64; 3]> {
    let entry = |row: &Row| as_region(row).map(|region| [region.gpa, region.size, row.number]);
    let mut index: Vec<[u64; 3]> = rows.iter().filter_map(entry).collect();
    index.sort_by_key(|entry| entry[0]);
    index
}

fn index_into(s: &[u8], mask: u32, lent: &mut [u8]) -> Result<[u64; 4], Refusal> {
    let index = index_of(&rows_of(s, mask)?);
    refuse(lent.len() / 8 < 3 * index.len(), 37, 0, 0)?;
    for (k, word) in index.iter().flatten().enumerate() {
        lent[8 * k..][..8].copy_from_slice(&word.to_le_bytes());
    }
    Ok([0, 0, 0, index.len() as u64])
}

/// Number, row, detail, and how many regions of either kind the mask has. Their words go to the front of the lent bytes.
pub fn region_index(s: &[u8], mask: u32, lent: &mut [u8]) -> [u64; 4] {
    index_into(s, mask, lent).unwrap_or_else(|Refusal(number, row, detail)| [number, row, detail, 0])
}

/// The row of the first entry of an index that contains the address, if none before it starts above the address; else 0. Bytes short of an entry do not
/// count.
pub fn region_in(index: &[u8], gpa: u64) -> u64 {
    for entry in index.chunks_exact(24) {
        let [start, size, row] = [0, 8, 16].map(|at| le(entry, at, 8));
        if start > gpa {
            return 0;
        }
        if u128::from(gpa) < end(start, size) {
            return row;
        }
    }
    0
}

// ---- the same checks by a region's eight words alone, without the sheet: number 3 of the answer, 0 where the bytes are no region

/// The words of a region's bytes. Fewer than 64 bytes are no region, and bytes behind them do not count.
fn words_in(region: &[u8]) -> Option<Words> {
    let bytes = region.get(..64)?;
    Some(std::array::from_fn(|word| le(bytes, 8 * word, 8)))
}

pub fn region_base_valid(region: &[u8], base: u64) -> u64 {
    words_in(region).map_or(0, |words| base_check(&words, base))
}

pub fn region_contains(region: &[u8], gpa: u64) -> u64 {
    let Some([start, size, ..]) = words_in(region) else { return 0 };
    u64::from((u128::from(start)..end(start, size)).contains(&u128::from(gpa)))
}

// ---- as the calls: number `which` of the answer, 0 where there is none; or all of its numbers

fn number(which: u32, numbers: &[u64]) -> u64 {
    numbers.get(which as usize).copied().unwrap_or(0)
}

/// The numbers go to the front of the lent bytes, each as a word; none does where fewer words are lent. Gives number 0.
pub fn put(numbers: &[u64], lent: &mut [u8]) -> u64 {
    if lent.len() / 8 >= numbers.len() {
        for (place, number) in lent.chunks_exact_mut(8).zip(numbers) {
            place.copy_from_slice(&number.to_le_bytes());
        }
    }
    numbers[0]
}

pub const CALLS: Calls = Calls {
    verdict: |s, which| number(which, &verdict(s)),
    strict_verdict: |s, which| number(which, &strict_verdict(s)),
    report: |s, lent, which| number(which, &report(s, lent)),
    relocations: |s, mask, lent, which| number(which, &relocations(s, mask, lent)),
    relocation_base_valid: |s, mask, region, base, which| number(which, &relocation_base_valid(s, mask, region, base)),
    contains: |s, mask, region, gpa, which| number(which, &contains(s, mask, region, gpa)),
    relocation_base_range: |s, mask, region, lowest, highest, which| {
        number(which, &relocation_base_range(s, mask, region, lowest, highest))
    },
    region_of: |s, mask, gpa, which| number(which, &region_of(s, mask, gpa)),
    region_index: |s, mask, lent, which| number(which, &region_index(s, mask, lent)),
    verdict_numbers: |s, numbers| put(&verdict(s), numbers),
    strict_verdict_numbers: |s, numbers| put(&strict_verdict(s), numbers),
    report_numbers: |s, lent, numbers| put(&report(s, lent), numbers),
    relocations_numbers: |s, mask, lent, numbers| put(&relocations(s, mask, lent), numbers),
    relocation_base_valid_numbers: |s, mask, region, base, numbers| put(&relocation_base_valid(s, mask, region, base), numbers),
    contains_numbers: |s, mask, region, gpa, numbers| put(&contains(s, mask, region, gpa), numbers),
    relocation_base_range_numbers: |s, mask, region, lowest, highest, numbers| {
        put(&relocation_base_range(s, mask, region, lowest, highest), numbers)
    },
    region_of_numbers: |s, mask, gpa, numbers| put(&region_of(s, mask, gpa), numbers),
    region_index_numbers: |s, mask, lent, numbers| put(&region_index(s, mask, lent), numbers),
    region_base_valid,
    region_contains,
    region_in,
};
