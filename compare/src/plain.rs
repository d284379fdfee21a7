//! The verdict as one writes it for speed in plain safe Rust: one pass over the rows, one arm for each kind, and no more kept of a row than later ones ask for.
//! It answers as paper.rs does, on every byte string. The library has two peers: the Rust of the crate, on headers that stand ready, and this one, which starts
//! from the sheet's bytes as the library does.

use crate::paper::Refusal;
use std::collections::HashMap;
use std::slice::Iter;

const PAGE: u64 = 4096;
const VSM_ISOLATION: u8 = 1;
const CCA: u8 = 6;

/// The rows of each list, or the refusal.
pub fn verdict(sheet: &[u8]) -> Result<[u64; 3], Refusal> {
    let sheet = Sheet::open(sheet)?;
    // an image with few regions need not pay for clearing the room for 64
    if sheet.lists[1].len() <= 4 {
        judge(&sheet, &mut [Region::NONE; 4])
    } else {
        judge(&sheet, &mut [Region::NONE; 64])
    }
}

/// All behind the table. There is room for a region of each initialization row.
fn judge(sheet: &Sheet, room: &mut [Region]) -> Result<[u64; 3], Refusal> {
    let mut reader = Reader::new(&sheet.lists, sheet.bodies);
    if sheet.revision == 2 && u64::from(sheet.page_size) != PAGE {
        return Err(reader.unless_unreadable(Refusal(7, 0, u64::from(sheet.page_size))));
    }
    let cca = platform_rows(sheet.aarch64, &mut reader)?;
    if sheet.lists[0].is_empty() {
        return Err(reader.unless_unreadable(Refusal(15, 0, 0)));
    }
    let mut regions = Regions::new(room);
    initialization_rows(sheet.aarch64, cca, &mut reader, &mut regions)?;
    let contexts = directive_rows(sheet.aarch64, &mut reader, &regions)?;
    if !reader.rest.is_empty() {
        return Err(Refusal(6, 0, 0));
    }
    if !regions.have_contexts(contexts) {
        return Err(Refusal(34, 0, 0));
    }
    Ok(sheet.lists.map(|entries| entries.len() as u64))
}

/// A verdict's numbers as the calls have them: number, row, detail, and the rows of each list.
pub fn numbers(judged: Result<[u64; 3], Refusal>) -> [u64; 6] {
    match judged {
        Ok([p, i, d]) => [0, 0, 0, p, i, d],
        Err(Refusal(number, row, detail)) => [number, row, detail, 0, 0, 0],
    }
}

// ---- reading

fn u16_at<const N: usize>(bytes: &[u8; N], at: usize) -> u16 {
    u16::from_le_bytes(bytes[at..at + 2].try_into().unwrap())
}

fn u32_at<const N: usize>(bytes: &[u8; N], at: usize) -> u32 {
    u32::from_le_bytes(bytes[at..at + 4].try_into().unwrap())
}

fn u64_at<const N: usize>(bytes: &[u8; N], at: usize) -> u64 {
    u64::from_le_bytes(bytes[at..at + 8].try_into().unwrap())
}

/// An entry of the table: kind and body length.
type Entry = [u8; 8];

/// A sheet's head, the entries of each list, and the bytes behind the table.
struct Sheet<'a> {
    revision: u8,
    aarch64: bool,
    page_size: u32,
    lists: [&'a [Entry]; 3],
    bodies: &'a [u8],
}

impl<'a> Sheet<'a> {
    /// 1 (under 16 bytes), 2, 3, 1 (table).
    fn open(sheet: &'a [u8]) -> Result<Sheet<'a>, Refusal> {
        let Some((head, behind)) = sheet.split_first_chunk::<16>() else {
            return Err(Refusal(1, 0, 0));
        };
        let (revision, arch, page_size) = (head[0], head[1], u32_at(head, 4));
        let is_sound = match revision {
            1 => arch == 0 && page_size == 0,
            2 => arch <= 1,
            _ => false,
        };
        if !is_sound || u16_at(head, 2) != 0 || u16_at(head, 14) != 0 {
            return Err(Refusal(2, 0, 0));
        }
        let [platforms, initializations, directives] = [8, 10, 12].map(|at| usize::from(u16_at(head, at)));
        if platforms > 16 || initializations > 64 || directives > 8192 || sheet.len() > 67_108_864 {
            return Err(Refusal(3, 0, 0));
        }
        let Some((table, bodies)) = behind.split_at_checked(8 * (platforms + initializations + directives)) else {
            return Err(Refusal(1, 0, 0));
        };
        let (platforms, later) = table.as_chunks().0.split_at(platforms);
        let (initializations, directives) = later.split_at(initializations);
        Ok(Sheet { revision, aarch64: arch == 1, page_size, lists: [platforms, initializations, directives], bodies })
    }
}

/// How far the rows are read.
struct Reader<'a> {
    lists: &'a [&'a [Entry]; 3],
    /// the entries of the list that is being read, behind the row that is
    entries: Iter<'a, Entry>,
    /// the rows of this list and of those before it
    rows: u64,
    /// the bytes behind the bodies that are read
    rest: &'a [u8],
}

/// The fields of kind 18, but for the flags.
struct RelocatableRegion {
    mask: u32,
    alignment: u64,
    gpa: u64,
    size: u64,
    minimum: u64,
    maximum: u64,
    vp: u16,
    vtl: u8,
}

/// The fields of kind 19.
struct PageTable {
    mask: u32,
    gpa: u64,
    size: u64,
    used: u64,
    vp: u16,
    vtl: u8,
}

impl<'a> Reader<'a> {
    fn new(lists: &'a [&'a [Entry]; 3], bodies: &'a [u8]) -> Reader<'a> {
        Reader { lists, entries: [].iter(), rows: 0, rest: bodies }
    }

    /// Goes to the front of the next list, which is this one.
    fn begin(&mut self, list: usize) {
        self.entries = self.lists[list].iter();
        self.rows += self.lists[list].len() as u64;
    }

    /// The next row of the list: its kind and the length of its body.
    fn next(&mut self) -> Option<(u32, usize)> {
        let entry = self.entries.next()?;
        Some((u32_at(entry, 0), u32_at(entry, 4) as usize))
    }

    /// The number of the row that is being read, from 1 across the lists.
    fn row(&self) -> u64 {
        self.rows - self.entries.len() as u64
    }

    /// A body of N bytes: 5 (length), 1.
    fn exact<const N: usize>(&mut self, length: usize) -> Result<&'a [u8; N], Refusal> {
        if length != N {
            return Err(self.unreadable(5));
        }
        let Some((body, rest)) = self.rest.split_first_chunk() else {
            return Err(self.unreadable(1));
        };
        self.rest = rest;
        Ok(body)
    }

    /// The first N bytes of a body, and the number of those that follow: 5 (length), 1.
    fn open<const N: usize>(&mut self, length: usize) -> Result<(&'a [u8; N], usize), Refusal> {
        if length < N {
            return Err(self.unreadable(5));
        }
        let Some((body, rest)) = self.rest.split_at_checked(length) else {
            return Err(self.unreadable(1));
        };
        self.rest = rest;
        let (fields, data) = body.split_first_chunk().unwrap();
        Ok((fields, data.len()))
    }

    fn relocatable_region(&mut self, length: usize) -> Result<RelocatableRegion, Refusal> {
        let body = self.exact::<48>(length)?;
        if body[44] > 7 || body[47] > 2 {
            return Err(self.unreadable(5));
        }
        Ok(RelocatableRegion {
            mask: u32_at(body, 0),
            alignment: u64_at(body, 4),
            gpa: u64_at(body, 12),
            size: u64_at(body, 20),
            minimum: u64_at(body, 28),
            maximum: u64_at(body, 36),
            vp: u16_at(body, 45),
            vtl: body[47],
        })
    }

    fn page_table(&mut self, length: usize) -> Result<PageTable, Refusal> {
        let body = self.exact::<31>(length)?;
        if body[30] > 2 {
            return Err(self.unreadable(5));
        }
        Ok(PageTable {
            mask: u32_at(body, 0),
            gpa: u64_at(body, 4),
            size: u64_at(body, 12),
            used: u64_at(body, 20),
            vp: u16_at(body, 28),
            vtl: body[30],
        })
    }

    /// Kind 44: gpa and bytes.
    fn required_memory(&mut self, length: usize) -> Result<(u64, u64), Refusal> {
        let body = self.exact::<17>(length)?;
        if body[16] > 1 {
            return Err(self.unreadable(5));
        }
        Ok((u64_at(body, 0), u64::from(u32_at(body, 12))))
    }

    /// Kinds 47 and 48: mask and VTL.
    fn vbs_context(&mut self, length: usize) -> Result<(u32, u8), Refusal> {
        let (body, _) = self.open::<5>(length)?;
        if body[4] > 2 {
            return Err(self.unreadable(5));
        }
        Ok((u32_at(body, 0), body[4]))
    }

    /// A fault of reading in this row. It comes before all others.
    fn unreadable(&self, number: u64) -> Refusal {
        Refusal(number, self.row(), 0)
    }

    /// Any other fault of this row.
    fn fault(&self, number: u64, detail: u64) -> Refusal {
        self.unless_unreadable(Refusal(number, self.row(), detail))
    }

    /// The refusal, unless what follows has a fault of reading.
    fn unless_unreadable(&self, refusal: Refusal) -> Refusal {
        read_on(self.lists, self.row(), self.rest).err().unwrap_or(refusal)
    }
}

/// Each row behind this one: 4, 5 (length), 1, 5 (codes); then 6.
#[cold]
fn read_on(lists: &[&[Entry]; 3], row: u64, rest: &[u8]) -> Result<(), Refusal> {
    let mut reader = Reader::new(lists, rest);
    for list in 0..3 {
        let read = row.saturating_sub(reader.rows) as usize;
        reader.begin(list);
        reader.entries = lists[list].get(read..).unwrap_or_default().iter();
        while let Some((kind, length)) = reader.next() {
            match (list, kind) {
                (0, 1) => drop(reader.exact::<16>(length)?),
                (1, 16) => drop(reader.exact::<12>(length)?),
                (1, 17) => drop(reader.exact::<22>(length)?),
                (1, 18) => drop(reader.relocatable_region(length)?),
                (1, 19) => drop(reader.page_table(length)?),
                (2, 32) => drop(reader.open::<18>(length)?),
                (2, 33) => drop(reader.open::<12>(length)?),
                (2, 34..=43) => drop(reader.exact::<8>(length)?),
                (2, 44) => drop(reader.required_memory(length)?),
                (2, 45) => drop(reader.open::<14>(length)?),
                (2, 46 | 49) => drop(reader.open::<6>(length)?),
                (2, 47 | 48) => drop(reader.vbs_context(length)?),
                (2, 50 | 51) => drop(reader.exact::<16>(length)?),
                (2, 52 | 53) => drop(reader.open::<4>(length)?),
                _ => return Err(reader.unreadable(4)),
            }
        }
    }
    if !reader.rest.is_empty() {
        return Err(Refusal(6, 0, 0));
    }
    Ok(())
}

// ---- platform rows

/// Gives the mask bits whose last platform is CCA.
fn platform_rows(aarch64: bool, reader: &mut Reader) -> Result<u32, Refusal> {
    let (mut types, mut cca) = (0u8, 0);
    reader.begin(0);
    while let Some((kind, length)) = reader.next() {
        if kind != 1 {
            return Err(reader.unreadable(4));
        }
        let body = reader.exact::<16>(length)?;
        let (mask, highest_vtl, typ) = (u32_at(body, 0), body[4], body[5]);
        if !mask.is_power_of_two() {
            return Err(reader.fault(8, 0));
        }
        if highest_vtl != 0 && highest_vtl != 2 {
            return Err(reader.fault(9, 0));
        }
        if typ > CCA {
            return Err(reader.fault(12, 0));
        }
        if u16_at(body, 6) != 1 {
            return Err(reader.fault(10, 0));
        }
        if typ <= VSM_ISOLATION && u64_at(body, 8) != 0 {
            return Err(reader.fault(11, 0));
        }
        if typ != VSM_ISOLATION && aarch64 != (typ == CCA) {
            return Err(reader.fault(13, u64::from(typ)));
        }
        if types & 1 << typ != 0 {
            return Err(reader.fault(14, 0));
        }
        types |= 1 << typ;
        cca = if typ == CCA { cca | mask } else { cca & !mask };
    }
    Ok(cca)
}

// ---- initialization rows

/// A region of either kind, from start up to, not including, end.
#[derive(Clone, Copy)]
struct Region {
    start: u64,
    end: u64,
    mask: u32,
    vtl: u8,
    is_table: bool,
}

impl Region {
    const NONE: Region = Region { start: 0, end: 0, mask: 0, vtl: 0, is_table: false };

    /// They share an address under a shared bit.
    fn overlaps(&self, other: &Region) -> bool {
        self.mask & other.mask != 0 && self.start < other.end && other.start < self.end
    }
}

/// What some regions lie within: their lowest start, their highest end, all their mask bits.
struct Extent {
    low: u64,
    high: u64,
    masks: u32,
}

impl Extent {
    const EMPTY: Extent = Extent { low: u64::MAX, high: 0, masks: 0 };

    fn add(&mut self, region: &Region) {
        self.low = self.low.min(region.start);
        self.high = self.high.max(region.end);
        self.masks |= region.mask;
    }

    /// If it holds, the region overlaps none of them.
    fn is_apart(&self, region: &Region) -> bool {
        self.masks & region.mask == 0 || self.high <= region.start || region.end <= self.low
    }
}

/// The regions of both kinds.
struct Regions<'a> {
    /// the first `count` of these
    room: &'a mut [Region],
    count: usize,
    /// the extent of those of kind 18
    relocatable: Extent,
    /// the extent of those of kind 19
    tables: Extent,
    /// some region has another VP index than 0
    other_vp: bool,
}

impl<'a> Regions<'a> {
    fn new(room: &'a mut [Region]) -> Regions<'a> {
        Regions { room, count: 0, relocatable: Extent::EMPTY, tables: Extent::EMPTY, other_vp: false }
    }

    fn all(&self) -> &[Region] {
        &self.room[..self.count]
    }

    fn add(&mut self, region: Region) {
        if region.is_table {
            self.tables.add(&region);
        } else {
            self.relocatable.add(&region);
        }
        self.room[self.count] = region;
        self.count += 1;
    }

    /// Some region overlaps this one.
    fn overlap(&self, region: &Region) -> bool {
        let is_apart = self.relocatable.is_apart(region) && self.tables.is_apart(region);
        !is_apart && self.all().iter().any(|other| region.overlaps(other))
    }

    /// The address lies in a page table that shares a bit.
    fn in_page_table(&self, gpa: u64, mask: u32) -> bool {
        let holds = |region: &Region| region.is_table && region.mask & mask != 0 && region.start <= gpa && gpa < region.end;
        let tables = &self.tables;
        tables.masks & mask != 0 && tables.low <= gpa && gpa < tables.high && self.all().iter().any(holds)
    }

    /// Each has VP index 0, and shares a bit with the contexts of its VTL.
    fn have_contexts(&self, contexts: [u32; 3]) -> bool {
        !self.other_vp && self.all().iter().all(|region| contexts[usize::from(region.vtl)] & region.mask != 0)
    }
}

fn initialization_rows(aarch64: bool, cca: u32, reader: &mut Reader, regions: &mut Regions) -> Result<(), Refusal> {
    reader.begin(1);
    while let Some((kind, length)) = reader.next() {
        let (is_table, mask, gpa, size, vp, vtl) = match kind {
            16 => {
                reader.exact::<12>(length)?;
                continue;
            }
            17 => {
                let body = reader.exact::<22>(length)?;
                if u64_at(body, 4) & u64_at(body, 12) != 0 {
                    return Err(reader.fault(16, 0));
                }
                if !aarch64 {
                    return Err(reader.fault(24, 17));
                }
                let without_cca = u32_at(body, 0) & !cca;
                if without_cca != 0 {
                    return Err(reader.fault(25, 1 << without_cca.trailing_zeros()));
                }
                continue;
            }
            18 => {
                let r = reader.relocatable_region(length)?;
                if r.size % PAGE != 0 {
                    return Err(reader.fault(17, 0));
                }
                if r.alignment % PAGE != 0 {
                    return Err(reader.fault(18, 0));
                }
                if r.alignment == 0 {
                    return Err(reader.fault(19, 0));
                }
                for address in [r.gpa, r.minimum, r.maximum] {
                    if !is_multiple(address, r.alignment) {
                        return Err(reader.fault(20, address));
                    }
                }
                (false, r.mask, r.gpa, r.size, r.vp, r.vtl)
            }
            19 => {
                let t = reader.page_table(length)?;
                if t.gpa % PAGE != 0 {
                    return Err(reader.fault(21, t.gpa));
                }
                if t.size % PAGE != 0 {
                    return Err(reader.fault(22, t.size));
                }
                if t.used % PAGE != 0 {
                    return Err(reader.fault(22, t.used));
                }
                if t.used > t.size {
                    return Err(reader.fault(23, 0));
                }
                if regions.tables.masks & t.mask != 0 {
                    return Err(reader.fault(26, 0));
                }
                (true, t.mask, t.gpa, t.size, t.vp, t.vtl)
            }
            _ => return Err(reader.unreadable(4)),
        };
        if size == 0 {
            return Err(reader.fault(27, 0));
        }
        let Some(end) = gpa.checked_add(size) else {
            return Err(reader.fault(28, 0));
        };
        let region = Region { start: gpa, end, mask, vtl, is_table };
        if regions.overlap(&region) {
            return Err(reader.fault(29, 0));
        }
        regions.add(region);
        regions.other_vp |= vp != 0;
    }
    Ok(())
}

/// The alignment is not 0. Most are powers of two.
fn is_multiple(address: u64, alignment: u64) -> bool {
    if alignment.is_power_of_two() {
        address & (alignment - 1) == 0
    } else {
        address % alignment == 0
    }
}

// ---- directive rows

/// The parameter areas by index: which were allocated, and which of them are live, that is not inserted yet.
struct Areas {
    /// a bit for each index below 8,192
    allocated: [u64; WORDS],
    live: [u64; WORDS],
    /// the others that were allocated, and whether they are live
    others: HashMap<u32, bool>,
}

const WORDS: usize = 128;

impl Areas {
    fn new() -> Areas {
        Areas { allocated: [0; WORDS], live: [0; WORDS], others: HashMap::new() }
    }

    /// The word and the bit of an index.
    fn place(index: u32) -> (usize, u64) {
        (index as usize / 64, 1 << (index % 64))
    }

    /// False if the index was allocated before.
    fn allocate(&mut self, index: u32) -> bool {
        let (word, bit) = Areas::place(index);
        if word >= WORDS {
            return self.allocate_other(index);
        }
        let is_new = self.allocated[word] & bit == 0;
        self.allocated[word] |= bit;
        self.live[word] |= bit;
        is_new
    }

    fn is_live(&self, index: u32) -> bool {
        let (word, bit) = Areas::place(index);
        if word >= WORDS {
            return self.is_other_live(index);
        }
        self.live[word] & bit != 0
    }

    /// False if the index is not live.
    fn insert(&mut self, index: u32) -> bool {
        let (word, bit) = Areas::place(index);
        if word >= WORDS {
            return self.insert_other(index);
        }
        let was_live = self.live[word] & bit != 0;
        self.live[word] &= !bit;
        was_live
    }

    #[inline(never)]
    fn allocate_other(&mut self, index: u32) -> bool {
        self.others.insert(index, true).is_none()
    }

    #[inline(never)]
    fn is_other_live(&self, index: u32) -> bool {
        self.others.get(&index) == Some(&true)
    }

    #[inline(never)]
    fn insert_other(&mut self, index: u32) -> bool {
        self.others.get_mut(&index).is_some_and(std::mem::take)
    }
}

/// Gives the masks of the VBS contexts of each VTL.
fn directive_rows(aarch64: bool, reader: &mut Reader, regions: &Regions) -> Result<[u32; 3], Refusal> {
    // made with the first area
    let mut areas: Option<Areas> = None;
    let mut contexts = [0; 3];
    reader.begin(2);
    while let Some((kind, length)) = reader.next() {
        match kind {
            32 => {
                let (body, data) = reader.open::<18>(length)?;
                let gpa = u64_at(body, 0);
                if gpa % PAGE != 0 {
                    return Err(reader.fault(21, gpa));
                }
                if u16_at(body, 16) > 3 {
                    return Err(reader.fault(30, 0));
                }
                if data as u64 > PAGE {
                    return Err(reader.fault(31, 0));
                }
            }
            33 => {
                let (body, data) = reader.open::<12>(length)?;
                let bytes = u64_at(body, 0);
                if bytes % PAGE != 0 {
                    return Err(reader.fault(22, bytes));
                }
                if data as u64 > bytes {
                    return Err(reader.fault(31, 0));
                }
                if !areas.get_or_insert_with(Areas::new).allocate(u32_at(body, 8)) {
                    return Err(reader.fault(32, 0));
                }
            }
            34..=43 => {
                let body = reader.exact::<8>(length)?;
                if !areas.as_ref().is_some_and(|areas| areas.is_live(u32_at(body, 0))) {
                    return Err(reader.fault(32, 0));
                }
            }
            44 => {
                let (gpa, bytes) = reader.required_memory(length)?;
                if gpa % PAGE != 0 {
                    return Err(reader.fault(21, gpa));
                }
                if bytes % PAGE != 0 {
                    return Err(reader.fault(22, bytes));
                }
            }
            45 => {
                let (body, _) = reader.open::<14>(length)?;
                let gpa = u64_at(body, 0);
                if gpa % PAGE != 0 {
                    return Err(reader.fault(21, gpa));
                }
            }
            46 | 49 => {
                reader.open::<6>(length)?;
                if aarch64 != (kind == 49) {
                    return Err(reader.fault(24, u64::from(kind)));
                }
            }
            47 | 48 => {
                let (mask, vtl) = reader.vbs_context(length)?;
                if aarch64 != (kind == 48) {
                    return Err(reader.fault(24, u64::from(kind)));
                }
                contexts[usize::from(vtl)] |= mask;
            }
            50 => {
                let body = reader.exact::<16>(length)?;
                let gpa = u64_at(body, 0);
                if gpa % PAGE != 0 {
                    return Err(reader.fault(21, gpa));
                }
                if !areas.as_mut().is_some_and(|areas| areas.insert(u32_at(body, 12))) {
                    return Err(reader.fault(32, 0));
                }
                if regions.in_page_table(gpa, u32_at(body, 8)) {
                    return Err(reader.fault(33, 0));
                }
            }
            51 => {
                let body = reader.exact::<16>(length)?;
                let gpa = u64_at(body, 0);
                if gpa % PAGE != 0 {
                    return Err(reader.fault(21, gpa));
                }
            }
            52 | 53 => {
                reader.open::<4>(length)?;
            }
            _ => return Err(reader.unreadable(4)),
        }
    }
    Ok(contexts)
}
