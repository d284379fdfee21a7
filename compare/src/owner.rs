//! Which region has an address: what follows from the Rust's headers, how the calls by sheet and by index go together, which addresses, indexes and answers a
//! run must have met, lookups in any bytes, and plain Rust.

use crate::columns::{counts, Columns};
use crate::compare::{Between, Call, Difference, Extent};
use crate::paper::Refusal;
use crate::random::Random;
use crate::{plain, plan, region, report, short, strict};
use calls::Calls;
use oracle::{Headers, IgvmInitializationHeader};

/// The bytes of a region in an index: its start, its size and its row.
pub const ENTRY: usize = 24;

/// Bytes for the regions of any sheet.
pub const INDEX: usize = 64 * ENTRY;

// ---- the Rust's headers

/// A region of either kind. Its end, and that of the used part of a page table, is the first address behind it.
struct Region {
    row: u64,
    mask: u32,
    start: u128,
    end: u128,
    used_end: Option<u128>,
}

impl Region {
    fn is_of(&self, mask: u32) -> bool {
        self.mask & mask == mask
    }

    fn has(&self, gpa: u64) -> bool {
        (self.start..self.end).contains(&gpa.into())
    }
}

/// The regions of the Rust's headers, in the order of their rows.
fn regions(headers: &Headers) -> Vec<Region> {
    use IgvmInitializationHeader::{PageTableRelocationRegion, RelocatableRegion};
    let region = |row: u64, mask: u32, [start, size]: [u64; 2], used: Option<u64>| {
        let (start, size) = (u128::from(start), u128::from(size));
        Some(Region { row, mask, start, end: start + size, used_end: used.map(|used| start + u128::from(used)) })
    };
    let rows = (headers.platforms.len() as u64 + 1..).zip(&headers.initializations);
    let of_header = |(row, header): (u64, &IgvmInitializationHeader)| match *header {
        RelocatableRegion { compatibility_mask: mask, relocation_region_gpa: gpa, relocation_region_size: size, .. } => {
            region(row, mask, [gpa, size], None)
        }
        PageTableRelocationRegion { compatibility_mask: mask, gpa, size, used_size, .. } => region(row, mask, [gpa, size], Some(used_size)),
        _ => None,
    };
    rows.filter_map(of_header).collect()
}

/// The same of a mask, the lowest start first.
fn in_order(headers: &Headers, mask: u32) -> Vec<Region> {
    let mut regions = regions(headers);
    regions.retain(|region| region.is_of(mask));
    regions.sort_by_key(|region| region.start);
    regions
}

/// The row that follows from the Rust's headers where the Rust accepts them, 0 where no region of the mask has the address. No two may have it.
pub fn by_rust(headers: &Headers, mask: u32, gpa: u64) -> Result<u64, String> {
    let rows: Vec<u64> = regions(headers).iter().filter(|region| region.is_of(mask) && region.has(gpa)).map(|region| region.row).collect();
    match rows[..] {
        [] => Ok(0),
        [row] => Ok(row),
        _ => Err(format!("the Rust accepts the headers, and of mask {mask} the regions of rows {rows:?} have address {gpa:#x}")),
    }
}

/// The count of the index that follows likewise, whose words go to the front of the lent bytes; none where these are too few.
pub fn index_by_rust(headers: &Headers, mask: u32, lent: &mut [u8]) -> Option<u64> {
    let regions = in_order(headers, mask);
    let entry = |region: &Region| [region.start as u64, (region.end - region.start) as u64, region.row];
    let words: Vec<u8> = regions.iter().flat_map(entry).flat_map(u64::to_le_bytes).collect();
    lent.get_mut(..words.len())?.copy_from_slice(&words);
    Some(regions.len() as u64)
}

// ---- the calls by sheet and by index

/// The addresses of which an index is asked in one case.
const FEW: u64 = 3;

/// Of an accepted answer: the lookup in the index that the calls put says what they say by the sheet. An index that was answered, whose words these are, has the
/// regions of the list and its page table, and is asked of addresses about the regions of every mask.
pub fn alike(calls: &Calls, sheet: &[u8], call: Call, (count, words): (u64, &[u8]), extent: Extent) -> Result<(), Difference> {
    match call {
        Call::RegionOf { mask, gpa } => same(calls, sheet, mask, &index(calls, sheet, mask), gpa),
        Call::RegionIndex { mask, .. } => {
            let index = &words[..ENTRY * count as usize];
            let differ = |what: String| Difference { sheet: sheet.to_vec(), call, what, between: Between::Calls };
            same_regions(calls, sheet, mask, index).map_err(differ)?;
            let addresses = plan::region_addresses(sheet);
            let few = |turn: u64| (0..FEW).map(|more| Extent::Case(turn.wrapping_add(more)).of(&addresses)[0]).collect();
            let asked: Vec<u64> = match extent {
                Extent::All => addresses.clone(),
                Extent::Case(turn) => few(turn),
            };
            asked.into_iter().try_for_each(|gpa| same(calls, sheet, mask, index, gpa))
        }
        _ => Ok(()),
    }
}

/// The index of a mask, as the calls put it.
pub fn index(calls: &Calls, sheet: &[u8], mask: u32) -> Vec<u8> {
    let mut lent = vec![0; INDEX];
    let count = (calls.region_index)(sheet, mask, &mut lent, 3);
    lent.truncate(ENTRY.saturating_mul(count as usize));
    lent
}

/// The lookup in an index says what is said by the sheet.
fn same(calls: &Calls, sheet: &[u8], mask: u32, index: &[u8], gpa: u64) -> Result<(), Difference> {
    let by_index = region::check(calls, index, Call::RegionIn { gpa })?;
    let by_sheet = (calls.region_of)(sheet, mask, gpa, 3);
    if by_index == by_sheet {
        return Ok(());
    }
    let what = format!("by the index the row is {by_index}; by the sheet it is {by_sheet}");
    Err(Difference { sheet: sheet.to_vec(), call: Call::RegionOf { mask, gpa }, what, between: Between::Calls })
}

/// The index has the starts and sizes of the list of regions and of its page table.
fn same_regions(calls: &Calls, sheet: &[u8], mask: u32, index: &[u8]) -> Result<(), String> {
    let mut lent = [0; 64 * 64];
    let number = |which: u32, lent: &mut [u8]| (calls.relocations)(sheet, mask, lent, which);
    let count = number(3, &mut lent) as usize;
    let mut listed: Vec<[u64; 2]> = report::words(&lent, 8 * count.min(64)).chunks(8).map(|words| [words[0], words[1]]).collect();
    if number(4, &mut lent) == 1 {
        listed.push([number(5, &mut lent), number(6, &mut lent)]);
    }
    listed.sort_unstable();
    let indexed: Vec<[u64; 2]> = entries(index).map(|[start, size, _]| [start, size]).collect();
    if indexed != listed {
        return Err(format!("the index has starts and sizes {indexed:x?}; the list of regions has {listed:x?}"));
    }
    Ok(())
}

/// The entries of an index. Bytes short of one do not count.
pub fn entries(index: &[u8]) -> impl Iterator<Item = [u64; 3]> + '_ {
    let word = |entry: &[u8], at: usize| u64::from_le_bytes(std::array::from_fn(|byte| entry[8 * at + byte]));
    index.chunks_exact(ENTRY).map(move |entry| [0, 1, 2].map(|at| word(entry, at)))
}

// ---- what must be met

/// Of addresses by whose they are; of those that are no region's; of regions of other masks, of rows, masks and addresses; whether they were compared with the
/// Rust's headers; of indexes by how many regions they have, and how many bytes are lent; and of refusals.
const COLUMNS: [&str; 38] = [
    "a relocatable region's",
    "a page table's",
    "behind its used size",
    "the first address",
    "the last address",
    "the first, one past another region",
    "none, no region of the mask",
    "none, one past a region",
    "none, one below a region",
    "none, below all",
    "none, above all",
    "none, between two",
    "another mask's region has it too",
    "another mask's region starts nearer",
    "none, a region that shares a bit has it",
    "none, a region of other bits has it",
    "its row behind that of a higher start",
    "a mask of one bit",
    "a mask of several bits",
    "address 0",
    "address 2^64 - 1",
    "a size of 2^32 or more",
    "with the Rust's headers",
    "an index of none, no bytes lent",
    "of one",
    "of several, in the order of their rows",
    "of several, in another order",
    "with a page table",
    "just as many bytes",
    "more bytes",
    "37, a byte too few",
    "37, a word too few",
    "37, no bytes lent",
    "with the Rust's headers",
    "35",
    "35, no bytes lent",
    "the verdict's refusal, mask 0",
    "the verdict's refusal, no bytes lent",
];

const OF_INDEX: usize = 23;
const REFUSED: usize = 34;

/// The columns that tell addresses and indexes of one sort from others: whose an address is, which region of another mask has it or starts nearer, and in which
/// order the rows stand.
const SORT: [usize; 11] = [0, 1, 2, 5, 11, 13, 14, 16, 25, 26, 27];

/// Which columns hold of an address of an accepted image, and of the row that was answered.
fn of_address(headers: &Headers, (mask, gpa): (u32, u64), row: u64, has_rust: bool) -> [bool; OF_INDEX] {
    let (all, of_mask, at) = (regions(headers), in_order(headers, mask), u128::from(gpa));
    let is_none = row == 0;
    let other = |holds: &dyn Fn(&Region) -> bool| all.iter().any(|region| !region.is_of(mask) && holds(region));
    let owner = all.iter().find(|region| region.row == row);
    let has_owner = |holds: &dyn Fn(&Region) -> bool| owner.is_some_and(holds);
    let is_end = of_mask.iter().any(|region| region.end == at);
    let [below, above] = [of_mask.first().is_none_or(|first| at < first.start), of_mask.last().is_none_or(|last| at >= last.end)];
    let is_empty = of_mask.is_empty();
    [
        has_owner(&|region| region.used_end.is_none()),
        has_owner(&|region| region.used_end.is_some()),
        has_owner(&|region| region.used_end.is_some_and(|used_end| at >= used_end)),
        has_owner(&|region| at == region.start),
        has_owner(&|region| at + 1 == region.end),
        has_owner(&|region| at == region.start && is_end),
        is_empty,
        is_none && is_end,
        is_none && of_mask.iter().any(|region| region.start == at + 1),
        is_none && !is_empty && below,
        is_none && !is_empty && above,
        is_none && !below && !above,
        !is_none && other(&|region| region.has(gpa)),
        has_owner(&|owner| other(&|region| owner.start < region.start && region.start <= at)),
        is_none && other(&|region| region.has(gpa) && region.mask & mask != 0),
        is_none && other(&|region| region.has(gpa) && region.mask & mask == 0),
        has_owner(&|owner| of_mask.iter().any(|region| region.row < row && region.start > owner.start)),
        mask.is_power_of_two(),
        !mask.is_power_of_two(),
        gpa == 0,
        gpa == u64::MAX,
        has_owner(&|region| region.end - region.start >= 1 << 32),
        has_rust,
    ]
}

/// Which columns hold of an index of an accepted image, by its number, 0 or 37.
fn of_index(headers: &Headers, (mask, lent): (u32, usize), number: u64, has_rust: bool) -> [bool; REFUSED - OF_INDEX] {
    let regions = in_order(headers, mask);
    let (count, bytes) = (regions.len(), ENTRY * regions.len());
    let (is_put, is_37, several) = (number == 0, number == 37, count > 1);
    let rises = regions.is_sorted_by_key(|region| region.row);
    [
        count == 0 && lent == 0,
        is_put && count == 1,
        is_put && several && rises,
        is_put && several && !rises,
        is_put && regions.iter().any(|region| region.used_end.is_some()),
        is_put && count > 0 && lent == bytes,
        is_put && count > 0 && lent > bytes,
        is_37 && lent + 1 == bytes,
        is_37 && lent + 8 == bytes,
        is_37 && lent == 0,
        has_rust,
    ]
}

/// Which columns hold of an answer by a sheet. `lent` is how many bytes are lent for an index.
fn columns(headers: Option<&Headers>, call: Call, number: u64, row: u64, has_rust: bool) -> [bool; COLUMNS.len()] {
    let mut columns = [false; COLUMNS.len()];
    let no_bytes = matches!(call, Call::RegionIndex { lent: 0, .. });
    match (call, number, headers) {
        (Call::RegionOf { mask, gpa }, 0, Some(headers)) => {
            columns[..OF_INDEX].copy_from_slice(&of_address(headers, (mask, gpa), row, has_rust))
        }
        (Call::RegionIndex { mask, lent }, 0 | 37, Some(headers)) => {
            columns[OF_INDEX..REFUSED].copy_from_slice(&of_index(headers, (mask, lent), number, has_rust))
        }
        _ => {
            let is_35 = number == 35;
            columns[REFUSED..].copy_from_slice(&[is_35, is_35 && no_bytes, !is_35 && call.mask() == 0, !is_35 && no_bytes])
        }
    }
    columns
}

counts!(Owners);

impl Owners {
    /// The answer to a call by a sheet, and whether it was compared with the Rust's headers.
    pub fn met(&mut self, headers: Option<&Headers>, call: Call, numbers: &[u64], has_rust: bool) {
        self.count(&columns(headers, call, numbers[0], numbers[3], has_rust));
    }
}

/// The sort of an answer by a sheet.
pub fn sort(headers: Option<&Headers>, call: Call, numbers: &[u64]) -> u32 {
    let columns = columns(headers, call, numbers[0], numbers[3], false);
    SORT.iter().fold(0, |bits, &column| 2 * bits + u32::from(columns[column]))
}

// ---- any bytes

/// Of lookups by the entry that has the address, of those that end without one, and of entries that no index has or that are not whole.
const LOOKUPS: [&str; 18] = [
    "the first entry's",
    "a later entry's",
    "two entries have it",
    "none, a start above",
    "none, behind the last",
    "none, no entry",
    "none, an entry behind a start above has it",
    "none, an entry that is not whole has it",
    "a lower start behind a higher",
    "the first address",
    "the last address",
    "none, one past an entry",
    "a size of 0 at its start",
    "a sum of 2^64",
    "a higher sum",
    "a row of 0",
    "a row of 2^32 or more",
    "bytes short of an entry",
];

/// Which columns hold of a lookup in any bytes.
fn of_lookup(index: &[u8], gpa: u64, answer: u64) -> [bool; LOOKUPS.len()] {
    let (all, at) = (entries(index).collect::<Vec<_>>(), u128::from(gpa));
    let end = |&[start, size, _]: &[u64; 3]| u128::from(start) + u128::from(size);
    let has = |entry: &[u64; 3]| entry[0] <= gpa && at < end(entry);
    let reached = &all[..all.iter().position(|entry| entry[0] > gpa).unwrap_or(all.len())];
    let found = reached.iter().position(has);
    let owner = found.map(|place| reached[place]);
    let is = |holds: &dyn Fn(&[u64; 3]) -> bool| owner.as_ref().is_some_and(holds);
    let (is_none, is_above) = (found.is_none(), reached.len() < all.len());
    let mut whole = index[ENTRY * all.len()..].to_vec();
    whole.resize(ENTRY, 0);
    [
        found == Some(0),
        found.is_some_and(|place| place > 0),
        all.iter().filter(|entry| has(entry)).count() > 1,
        is_none && is_above,
        is_none && !is_above && !all.is_empty(),
        all.is_empty(),
        is_none && all.iter().any(has),
        is_none && !is_above && entries(&whole).any(|entry| has(&entry)),
        !all.is_sorted_by_key(|entry| entry[0]),
        is(&|entry| entry[0] == gpa),
        is(&|entry| end(entry) == at + 1),
        is_none && reached.iter().any(|entry| end(entry) == at && entry[1] > 0),
        reached.iter().any(|&[start, size, _]| start == gpa && size == 0),
        is(&|entry| end(entry) == 1 << 64),
        is(&|entry| end(entry) > 1 << 64),
        !is_none && answer == 0,
        answer >= 1 << 32,
        index.len() % ENTRY != 0,
    ]
}

/// How often each was met, and how many lookups were made.
#[derive(Clone, Copy, Default)]
pub struct Lookups {
    pub made: u64,
    met: [u64; LOOKUPS.len()],
}

impl Lookups {
    /// The answer of a lookup.
    pub fn met(&mut self, index: &[u8], gpa: u64, answer: u64) {
        self.made += 1;
        self.count(&of_lookup(index, gpa, answer));
    }

    /// What was seen, if all of it was met.
    pub fn seen(&self) -> Result<String, String> {
        if !self.missing().is_empty() {
            return Err(format!("of lookups in any bytes these were not met: {:?}", self.missing()));
        }
        Ok(format!("{}; {}", self.made, self.text()))
    }
}

impl Columns for Lookups {
    const NAMES: &'static [&'static str] = &LOOKUPS;

    fn counts(&self) -> &[u64] {
        &self.met
    }

    fn counts_mut(&mut self) -> &mut [u64] {
        &mut self.met
    }
}

/// Lookups in bytes of each sort, then in so many random ones, up to the first difference.
pub fn any_bytes(calls: &Calls, seed: u64, cases: u64) -> (Lookups, Option<Difference>) {
    let mut lookups = Lookups::default();
    let mut ended = Ok(());
    let mut each = |index: &[u8], gpa: u64| {
        let answer = region::check(calls, index, Call::RegionIn { gpa });
        ended = answer.map(|answer| lookups.met(index, gpa, answer));
        ended.is_ok()
    };
    if every_length(&mut each) && small_words(&mut each) {
        (0..cases).all(|case| random_bytes(&mut Random::new(seed ^ 0x6F77_6E65_7200, case), &mut each));
    }
    (lookups, ended.err())
}

/// What is done with an index's bytes and an address; false stops.
pub type Each<'a> = &'a mut dyn FnMut(&[u8], u64) -> bool;

/// Every length up to 100: of an index of four regions with each page about them, of zeroes and of ones.
fn every_length(each: Each) -> bool {
    (0..=100).all(|length| of_length(length, each) && each(&vec![0; length], 0) && each(&vec![0xFF; length], u64::MAX))
}

/// So many bytes, up to 100, of which the first 96 are an index of four regions, the second and the third side by side.
pub fn of_length(length: usize, each: Each) -> bool {
    let four = [[0x1000, 0x1000, 3], [0x3000, 0x2000, 2], [0x5000, 0x1000, 5], [0x7000, 0x1000, 4]];
    let bytes = [bytes(&four), vec![0; 4]].concat();
    (0..18).all(|half| each(&bytes[..length], 0x800 * half))
}

fn bytes(entries: &[[u64; 3]]) -> Vec<u8> {
    entries.iter().flatten().flat_map(|word| word.to_le_bytes()).collect()
}

/// Two entries whose starts and sizes are each 0, 1, 2, 2^64 - 2 or 2^64 - 1, with every such address.
fn small_words(each: Each) -> bool {
    let small: &[u64] = &[0, 1, 2, u64::MAX - 1, u64::MAX];
    short::product(&[small; 5], &mut |v| each(&bytes(&[[v[0], v[1], 7], [v[2], v[3], u64::MAX]]), v[4]))
}

/// A number of any length in bits.
fn any_number(random: &mut Random) -> u64 {
    random.next() >> random.below(64)
}

/// An entry of this sort: any words, small ones, pages, or near 2^64.
fn random_entry(random: &mut Random, sort: usize) -> [u64; 3] {
    let row = random.pick(&[0, 1, 2, 3, 80, 1 << 32, u64::MAX]);
    match sort {
        0 => [any_number(random), any_number(random), random.next()],
        1 => [random.below(6) as u64, random.below(4) as u64, row],
        2 => [0x1000 * random.below(9) as u64, 0x1000 * random.below(4) as u64, row],
        _ => [u64::MAX - random.below(6) as u64, random.below(8) as u64, row],
    }
}

/// Up to four entries of one sort, half of the time in order of their starts, some cut, and an address about one of them or any.
pub fn random_bytes(random: &mut Random, each: Each) -> bool {
    let (sort, count) = (random.below(4), random.below(5));
    let mut entries: Vec<[u64; 3]> = (0..count).map(|_| random_entry(random, sort)).collect();
    if random.one_in(2) {
        entries.sort_unstable();
    }
    let mut bytes = bytes(&entries);
    if random.one_in(3) {
        bytes.truncate(bytes.len().saturating_sub(random.below(ENTRY)));
    }
    let [start, size, _] = if count == 0 { random_entry(random, sort) } else { random.pick(&entries) };
    let end = start.wrapping_add(size);
    let any = any_number(random);
    each(&bytes, random.pick(&[start, start.wrapping_sub(1), end, end.wrapping_sub(1), start.wrapping_add(size / 2), any]))
}

// ---- plain Rust

/// The regions of the mask, of either kind, with start, size and row, in the order of their rows: its verdict, 35, then the initialization rows.
fn plain_regions(sheet: &[u8], mask: u32) -> Result<impl Iterator<Item = [u64; 3]> + '_, Refusal> {
    let [platforms, initializations, directives] = plain::verdict(sheet)?.map(|count| count as usize);
    if mask == 0 {
        return Err(Refusal(35, 0, 0));
    }
    let (table, bodies) = sheet[16..].split_at(8 * (platforms + initializations + directives));
    let entries = &table.as_chunks().0[platforms..][..initializations];
    let rows = strict::rows(entries, &bodies[strict::PLATFORM * platforms..]);
    Ok(rows.zip(platforms as u64 + 1..).filter_map(move |((kind, body), row)| {
        let word = |at: usize| u64::from_le_bytes(*body[at..].first_chunk().unwrap());
        let at = match kind {
            18 => 12,
            19 => 4,
            _ => return None,
        };
        (strict::mask_of(body) & mask == mask).then(|| [word(at), word(at + 8), row])
    }))
}

/// The numbers of a call by plain Rust.
fn numbers(answer: Result<u64, Refusal>) -> [u64; 4] {
    answer.map_or_else(|Refusal(number, row, detail)| [number, row, detail, 0], |number| [0, 0, 0, number])
}

/// The row by plain Rust: the first region that has the address, in the order of rows. It stands here and not in plain.rs for the reason that
/// `region::by_plain` has. No region of an accepted sheet ends above 2^64 - 1.
#[inline(never)]
pub fn by_plain(sheet: &[u8], mask: u32, gpa: u64) -> [u64; 4] {
    let has = |&[start, size, _]: &[u64; 3]| gpa.wrapping_sub(start) < size;
    numbers(plain_regions(sheet, mask).map(|mut regions| regions.find(has).map_or(0, |[_, _, row]| row)))
}

/// The index by plain Rust.
#[inline(never)]
pub fn index_by_plain(sheet: &[u8], mask: u32, lent: &mut [u8]) -> [u64; 4] {
    let index = plain_regions(sheet, mask).and_then(|regions| {
        let mut regions: Vec<[u64; 3]> = regions.collect();
        regions.sort_unstable();
        let place = lent.get_mut(..ENTRY * regions.len()).ok_or(Refusal(37, 0, 0))?;
        for (place, word) in place.as_chunks_mut().0.iter_mut().zip(regions.iter().flatten()) {
            *place = word.to_le_bytes();
        }
        Ok(regions.len() as u64)
    });
    numbers(index)
}

/// The row by plain Rust where the regions stand ready in order of their starts: from the front up to the first start above the address.
pub fn by_scan(regions: impl IntoIterator<Item = [u64; 3]>, gpa: u64) -> u64 {
    let mut reached = regions.into_iter().take_while(|[start, ..]| *start <= gpa);
    reached.find(|[start, size, _]| gpa - start < *size).map_or(0, |[_, _, row]| row)
}

/// The same by binary search: the last region that starts at or below the address may have it.
pub fn by_search(regions: &[[u64; 3]], gpa: u64) -> u64 {
    let behind = regions.partition_point(|[start, ..]| *start <= gpa);
    by_scan(behind.checked_sub(1).map(|last| regions[last]), gpa)
}
