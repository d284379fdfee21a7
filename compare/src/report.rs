//! The report: what the Rust says row by row, how it goes with the verdict, which sheets and answers a run must have met, and plain Rust.

use crate::columns::counts;
use crate::compare::{to_lend, Call, Extent, Rust};
use crate::paper::{self, Refusal};
use crate::plain;
use crate::sheet::{Image, Row};
use calls::Calls;
use oracle::Reported;
use std::collections::{BTreeMap, HashMap};

/// The report's numbers.
pub type Numbers = [u64; 7];

/// The rows of each list, as the head counts them; 0 where there is no head.
fn counts(sheet: &[u8]) -> [usize; 3] {
    [8, 10, 12].map(|at| sheet.get(at..at + 2).map_or(0, |count| usize::from(u16::from_le_bytes([count[0], count[1]]))))
}

/// The rows of all lists, as the head counts them.
pub fn rows(sheet: &[u8]) -> usize {
    counts(sheet).iter().sum()
}

/// The words in front of lent bytes, no more than these.
pub fn words(lent: &[u8], most: usize) -> Vec<u64> {
    lent.chunks_exact(8).take(most).map(|word| u64::from_le_bytes(word.try_into().unwrap())).collect()
}

// ---- the calls that are made

/// The rows of a sheet that is not readable for which words are lent, at most.
const FEW: usize = 64;

/// Reports on a sheet with this verdict: one with words enough and one with too few, others for other cases, or all of them. Where 1 to 7 come first, one or all
/// of either sort.
pub fn calls(sheet: &[u8], verdict: u64, extent: Extent) -> Vec<Call> {
    let rows = rows(sheet);
    let (all, few) = (8 * rows, 8 * rows.min(FEW));
    let enough = [all, all + 1, all + 7, all + 8, all + 21];
    let lengths = match all {
        _ if (1..=7).contains(&verdict) => extent.of(&[few, few.saturating_sub(1), 0, few + 13]).to_vec(),
        0 => extent.of(&enough).to_vec(),
        _ => [extent.of(&enough), extent.of(&[all - 1, all - 8, all - 4, rows, all / 2, 0])].concat(),
    };
    lengths.into_iter().map(|lent| Call::Report { lent }).collect()
}

// ---- the Rust

/// The rows of a sheet of which the Rust is asked row by row, at most: each is asked with all before it.
const ASKED: usize = 64;

/// The Rust's report, where it has one: not of more rows than it is asked about, and not where too few words are lent. The word of a row that is not on its domain
/// is document 01's, which must find a fault there. An image that the Rust accepts, or refuses behind all rows by 34, has no error of a row.
pub fn by_rust(rust: &Rust, sheet: &[u8], lent: &mut [u8]) -> Result<Option<Numbers>, String> {
    let Some(headers) = rust.headers.as_ref().filter(|headers| headers.kinds.len() <= ASKED) else { return Ok(None) };
    let (rows, judged) = (headers.kinds.len(), rust.judged.as_ref().map(|judged| judged.numbers));
    let (words, no_platform, no_context) = match judged {
        Some([7, _, size, ..]) => return Ok(Some([7, 0, size, 0, 0, 0, 0])),
        _ if lent.len() / 8 < rows => return Ok(None),
        Some([number @ (0 | 34), ..]) => (vec![Some(0); rows], false, number == 34),
        _ => match headers.report()? {
            Reported::PageSize(size) => return Ok(Some([7, 0, size, 0, 0, 0, 0])),
            Reported::Rows { words, no_platform, no_context } => (words, no_platform, no_context),
        },
    };
    let words = with_faults_of_paper(sheet, words)?;
    lent[..8 * rows].copy_from_slice(&words.iter().flat_map(|word| word.to_le_bytes()).collect::<Vec<u8>>());
    let faulty = words.iter().filter(|word| **word != 0).count();
    Ok(Some([0, 0, 0, no_platform.into(), no_context.into(), rows as u64, faulty as u64]))
}

/// The Rust's words, and document 01's of the rows that are not on its domain.
fn with_faults_of_paper(sheet: &[u8], said: Vec<Option<u64>>) -> Result<Vec<u64>, String> {
    let mut lent = vec![0; 8 * said.len()];
    if said.contains(&None) {
        paper::report(sheet, &mut lent);
    }
    let by_paper = words(&lent, said.len());
    if said.iter().zip(&by_paper).any(|(said, word)| said.is_none() && *word == 0) {
        return Err("document 01 finds no fault in a row that is not on the Rust's domain".into());
    }
    Ok(said.into_iter().zip(by_paper).map(|(said, word)| said.unwrap_or(word)).collect())
}

// ---- the verdict of the calls, and a sheet without a faulty row

/// The numbers and the words of the calls' report, all at once.
fn asked(calls: &Calls, sheet: &[u8], lent: usize) -> (Numbers, Vec<u64>) {
    let (mut lent, mut numbers) = (to_lend(lent), [0; 56]);
    (calls.report_numbers)(sheet, &mut lent, &mut numbers);
    (words(&numbers, 7).try_into().unwrap(), words(&lent, rows(sheet)))
}

/// What 1 to 7 refuse is refused alike, and too few words by 37. Else the first word that is not 0 is the verdict's number, and its place the verdict's row, unless
/// there is no platform row: then the verdict is 15. Where all words are 0, it is 15, else 34, else accepted, as the two are told. And of the sheet
/// without one of its faulty rows all that is told of the others is the same.
pub fn goes_with(calls: &Calls, verdict: &[u64; 6], sheet: &[u8], lent: usize, extent: Extent) -> Result<(), String> {
    let (numbers, words) = asked(calls, sheet, lent);
    let differ = |what: &str| Err(format!("the report is {numbers:?} with {words:?} where the verdict is {verdict:?}{what}"));
    let refused = match verdict[0] {
        1..=7 => [verdict[0], verdict[1], verdict[2], 0, 0, 0, 0],
        _ if lent / 8 < rows(sheet) => [37, 0, 0, 0, 0, 0, 0],
        _ => [0; 7],
    };
    if refused[0] != 0 {
        return if numbers == refused { Ok(()) } else { differ("") };
    }
    let faulty: Vec<usize> = (0..words.len()).filter(|&at| words[at] != 0).collect();
    let judged = match (faulty.first(), numbers[3], numbers[4]) {
        _ if counts(sheet)[0] == 0 => [15, 0],
        (Some(&at), ..) => [words[at], at as u64 + 1],
        (None, 1, _) => [15, 0],
        (None, _, 1) => [34, 0],
        (None, ..) => [0, 0],
    };
    let [no_platform, no_context] = [numbers[3], numbers[4]];
    let [rows, found] = [words.len(), faulty.len()].map(|count| count as u64);
    if no_platform > 1 || no_context > 1 || numbers != [0, 0, 0, no_platform, no_context, rows, found] || verdict[..2] != judged {
        return differ("");
    }
    for at in left_out(&faulty, extent) {
        let mut others = words.clone();
        others.remove(at);
        let without = asked(calls, &without(sheet, at), 8 * others.len());
        if without != ([0, 0, 0, no_platform, no_context, rows - 1, found - 1], others) {
            return differ(&format!("; without row {} it is {:?} with {:?}", at + 1, without.0, without.1));
        }
    }
    Ok(())
}

/// The most rows that are left out of a sheet, one by one.
const LEFT_OUT: usize = 8;

/// The faulty rows that are left out: one, another for another case, or all up to some.
fn left_out(faulty: &[usize], extent: Extent) -> Vec<usize> {
    if faulty.is_empty() {
        return vec![];
    }
    extent.of(faulty).iter().copied().take(LEFT_OUT).collect()
}

/// The readable sheet without a row.
fn without(sheet: &[u8], at: usize) -> Vec<u8> {
    let counts = counts(sheet);
    let entry = |row: usize| 16 + 8 * row;
    let length = |row: usize| u32::from_le_bytes(sheet[entry(row) + 4..entry(row) + 8].try_into().unwrap()) as usize;
    let body = entry(rows(sheet)) + (0..at).map(length).sum::<usize>();
    let mut fewer = [&sheet[..entry(at)], &sheet[entry(at + 1)..body], &sheet[body + length(at)..]].concat();
    let list = usize::from(at >= counts[0]) + usize::from(at >= counts[0] + counts[1]);
    fewer[8 + 2 * list..][..2].copy_from_slice(&(counts[list] as u16 - 1).to_le_bytes());
    fewer
}

// ---- what must be met

/// A report on a sheet.
pub struct Answered {
    pub numbers: Numbers,
    pub words: Vec<u64>,
    /// of each row whether the Rust was asked about it, where it was asked about any
    pub asked: Option<Vec<bool>>,
}

/// Of refusals; of sheets by how many rows are faulty and where; of 15; of 34; of rows that are judged otherwise where a faulty row before them leaves a trace, for
/// each rule one or more; and of reports that were compared with the Rust.
const COLUMNS: [&str; 46] = [
    "1 to 7, too few words",
    "37, one word too few",
    "37, and seven bytes more",
    "as many bytes as the words take",
    "more bytes",
    "no row",
    "accepted",
    "one faulty row",
    "two",
    "three",
    "more",
    "a faulty platform row",
    "a faulty initialization row",
    "a faulty directive row",
    "faulty rows in each list",
    "every row faulty",
    "15, no platform row",
    "15, every platform row faulty",
    "15, a faulty initialization row",
    "15, a faulty directive row",
    "15, no faulty row",
    "15 and 34",
    "34, no faulty row",
    "34, faulty rows",
    "34, another VP index",
    "34, no context",
    "34, its context skipped",
    "no 34, the region skipped",
    "no 14, the earlier platform of the type skipped",
    "25, the CCA platform of the bit skipped",
    "no 25, a later platform of the bit skipped",
    "no 26, the earlier page table skipped",
    "no 29, the earlier region skipped",
    "no 29, the earlier region skipped by 29",
    "no 33, the page table skipped",
    "32, the allocation skipped",
    "no 32, the earlier allocation skipped",
    "32, allocated anew behind its insert, and used",
    "33, and then inserted",
    "33, and then used",
    "an insert skipped otherwise, and then inserted",
    "with the Rust, no faulty row",
    "with the Rust, several faulty rows",
    "with the Rust, 15 and rows behind",
    "with the Rust, 34 and faulty rows",
    "with the Rust, a row not on its domain",
];

/// A row with its word.
#[derive(Clone, Copy)]
struct Told<'a> {
    row: &'a Row,
    word: u64,
}

impl Told<'_> {
    fn is_kept(&self) -> bool {
        self.word == 0
    }

    fn get(&self, name: &str) -> u64 {
        self.row.get(name).expect("a field of a readable row")
    }

    fn kind(&self) -> u32 {
        self.row.kind
    }

    fn shares_bit(&self, other: &Told) -> bool {
        self.get("mask") & other.get("mask") != 0
    }

    /// The context is of the region's VTL and shares a bit with it.
    fn has_context(&self, context: &Told) -> bool {
        self.shares_bit(context) && self.get("vtl") == context.get("vtl")
    }

    /// Two regions share an address under a shared bit.
    fn overlaps(&self, other: &Told) -> bool {
        let [start, size, other_start, other_size] =
            [self.get("gpa"), self.get("size"), other.get("gpa"), other.get("size")].map(u128::from);
        self.shares_bit(other) && start < other_start + other_size && other_start < start + size
    }

    /// The address of an insert lies in the region, under a shared bit.
    fn holds(&self, insert: &Told) -> bool {
        let [start, size, gpa] = [self.get("gpa"), self.get("size"), insert.get("gpa")].map(u128::from);
        self.shares_bit(insert) && start <= gpa && gpa < start + size
    }
}

/// Kinds of rows.
const REGIONS: [u32; 2] = [18, 19];
const TABLES: [u32; 1] = [19];
const CONTEXTS: [u32; 2] = [47, 48];
const INSERTS: [u32; 1] = [50];

/// The rows of each list with their words.
struct Lists<'a>([Vec<Told<'a>>; 3]);

impl<'a> Lists<'a> {
    fn of(image: &'a Image, words: &[u64]) -> Lists<'a> {
        let mut words = words.iter();
        Lists([0, 1, 2].map(|list| {
            let rows = image.lists[list].iter().zip(words.by_ref());
            rows.map(|(row, &word)| Told { row, word }).collect()
        }))
    }

    fn is_faulty(&self, list: usize) -> bool {
        self.0[list].iter().any(|told| !told.is_kept())
    }

    /// The rows of these kinds in a list that are kept, or are not.
    fn some(&self, list: usize, kinds: &[u32], kept: bool) -> Vec<Told<'a>> {
        self.0[list].iter().filter(|told| kinds.contains(&told.kind()) && told.is_kept() == kept).copied().collect()
    }

    /// Behind a row of these kinds that is skipped stands one that is kept, and this holds of the two.
    fn kept_behind_skipped(&self, list: usize, kinds: &[u32], both: impl Fn(&Told, &Told) -> bool) -> bool {
        let rows: Vec<&Told> = self.0[list].iter().filter(|told| kinds.contains(&told.kind())).collect();
        let behind = |at: usize, skipped: &Told| rows[at + 1..].iter().any(|kept| kept.is_kept() && both(skipped, kept));
        rows.iter().enumerate().any(|(at, skipped)| !skipped.is_kept() && behind(at, skipped))
    }
}

/// Of a report that is not refused: how many rows are faulty, and where.
fn by_rows(lists: &Lists, rows: u64, faulty: u64, told: u64) -> [bool; 11] {
    let [platform, initialization, directive] = [0, 1, 2].map(|list| lists.is_faulty(list));
    [
        rows == 0,
        rows != 0 && faulty == 0 && told == 0,
        faulty == 1,
        faulty == 2,
        faulty == 3,
        faulty > 3,
        platform,
        initialization,
        directive,
        platform && initialization && directive,
        rows != 0 && rows == faulty,
    ]
}

/// Of one where 15 applies.
fn no_platform(lists: &Lists, faulty: u64, no_context: bool) -> [bool; 6] {
    let is_empty = lists.0[0].is_empty();
    [is_empty, !is_empty, lists.is_faulty(1), lists.is_faulty(2), faulty == 0, no_context]
}

/// Of one where 34 applies, and last of one where it does not.
fn no_context(lists: &Lists, faulty: u64, applies: bool) -> [bool; 6] {
    let [kept, skipped] = [true, false].map(|kept| lists.some(1, &REGIONS, kept));
    let [contexts, skipped_contexts] = [true, false].map(|kept| lists.some(2, &CONTEXTS, kept));
    let another_vp = |region: &Told| region.get("vp") != 0;
    let has = |region: &Told, contexts: &[Told]| contexts.iter().any(|context| region.has_context(context));
    let is_34 = |region: &Told| another_vp(region) || !has(region, &contexts);
    let lacks = |region: &Told| !another_vp(region) && !has(region, &contexts);
    [
        applies && faulty == 0,
        applies && faulty != 0,
        applies && kept.iter().any(another_vp),
        applies && kept.iter().any(lacks),
        applies && kept.iter().any(|region| lacks(region) && has(region, &skipped_contexts)),
        !applies && skipped.iter().any(is_34),
    ]
}

/// Of the platform rows, and of policies: 14 and 25.
fn platforms(lists: &Lists) -> [bool; 3] {
    let last = |bit: u64| lists.0[0].iter().rev().find(|platform| platform.get("mask") == bit).map(|platform| platform.get("type"));
    let is_cca =
        |policy: &Told| (0..32).map(|place| 1 << place).filter(|bit| policy.get("mask") & bit != 0).all(|bit| last(bit) == Some(6));
    let policies = || lists.0[1].iter().filter(|told| told.kind() == 17);
    [
        lists.kept_behind_skipped(0, &[1], |skipped, kept| skipped.get("type") == kept.get("type")),
        policies().any(|policy| policy.word == 25 && is_cca(policy)),
        policies().any(|policy| policy.is_kept() && !is_cca(policy)),
    ]
}

/// Of the regions, and of inserts: 26, 29 and 33.
fn regions(lists: &Lists) -> [bool; 4] {
    let tables = lists.some(1, &TABLES, false);
    let inserts = lists.some(2, &INSERTS, true);
    [
        lists.kept_behind_skipped(1, &TABLES, |skipped, kept| skipped.shares_bit(kept)),
        lists.kept_behind_skipped(1, &REGIONS, |skipped, kept| skipped.overlaps(kept)),
        lists.kept_behind_skipped(1, &REGIONS, |skipped, kept| skipped.word == 29 && skipped.overlaps(kept)),
        tables.iter().any(|table| inserts.iter().any(|insert| table.holds(insert))),
    ]
}

/// What rows before have done with an area.
#[derive(Clone, Copy, Default)]
struct Area {
    allocated: bool,
    allocated_by_skipped: bool,
    inserted: bool,
    allocated_anew: bool,
    refused_by_33: bool,
    refused_otherwise: bool,
}

/// Of the areas: 32 and 33.
fn areas(lists: &Lists) -> [bool; 6] {
    let mut areas: HashMap<u64, Area> = HashMap::new();
    let mut met = [false; 6];
    for told in &lists.0[2] {
        let Some(index) = told.row.area() else { continue };
        let area = areas.entry(index).or_default();
        let before = *area;
        match (told.kind(), told.is_kept()) {
            (33, true) => area.allocated = true,
            (33, false) if before.allocated => area.allocated_anew |= before.inserted,
            (33, false) => area.allocated_by_skipped = true,
            (50, true) => area.inserted = true,
            (50, false) if told.word == 33 => area.refused_by_33 = true,
            (50, false) if before.allocated && !before.inserted => area.refused_otherwise = true,
            _ => {}
        }
        let (is_use, is_insert) = (matches!(told.kind(), 34..=43), told.kind() == 50);
        met[0] |= told.word == 32 && told.kind() != 33 && before.allocated_by_skipped && !before.allocated;
        met[1] |= told.is_kept() && told.kind() == 33 && before.allocated_by_skipped;
        met[2] |= told.word == 32 && is_use && before.allocated_anew;
        met[3] |= told.is_kept() && is_insert && before.refused_by_33;
        met[4] |= told.is_kept() && is_use && before.refused_by_33;
        met[5] |= told.is_kept() && is_insert && before.refused_otherwise;
    }
    met
}

/// Of a report that was compared with the Rust, which was asked about these rows.
fn with_rust(lists: &Lists, numbers: &Numbers, asked: &[bool]) -> [bool; 5] {
    let [.., no_platform, no_context, rows, faulty] = *numbers;
    let behind = rows != lists.0[0].len() as u64;
    [faulty == 0, faulty > 1, no_platform == 1 && behind, no_context == 1 && faulty != 0, asked.contains(&false)]
}

/// Which columns hold of a report.
pub fn columns(sheet: &[u8], lent: usize, answered: &Answered) -> Vec<bool> {
    let ([number, .., no_platform_told, no_context_told, rows, faulty], all) = (answered.numbers, 8 * rows(sheet));
    let mut columns =
        vec![(1..=7).contains(&number) && lent / 8 < all / 8, number == 37 && lent + 8 == all, number == 37 && lent + 1 == all];
    if let Some(image) = Image::parse(sheet).filter(|_| number == 0) {
        let lists = Lists::of(&image, &answered.words);
        columns.extend([lent == all, lent > all]);
        columns.extend(by_rows(&lists, rows, faulty, no_platform_told + no_context_told));
        columns.extend(no_platform(&lists, faulty, no_context_told == 1).map(|holds| holds && no_platform_told == 1));
        columns.extend(no_context(&lists, faulty, no_context_told == 1));
        columns.extend(platforms(&lists));
        columns.extend(regions(&lists));
        columns.extend(areas(&lists));
        columns.extend(answered.asked.as_ref().map_or([false; 5], |asked| with_rust(&lists, &answered.numbers, asked)));
    }
    columns.resize(COLUMNS.len(), false);
    columns
}

counts!(Reports);

// ---- plain Rust

/// The report by plain Rust: its verdict, and where that names a fault that is not of reading, one more pass that skips faulty rows. It stands here and not in
/// plain.rs for the reason that `region::by_plain` has.
#[inline(never)]
pub fn by_plain(sheet: &[u8], lent: &mut [u8]) -> Numbers {
    let judged = plain::verdict(sheet);
    if let Err(Refusal(number @ 1..=7, row, detail)) = judged {
        return [number, row, detail, 0, 0, 0, 0];
    }
    let rows = rows(sheet);
    let Some(words) = lent.as_chunks_mut().0.get_mut(..rows) else {
        return [37, 0, 0, 0, 0, 0, 0];
    };
    if judged.is_ok() {
        words.fill([0; 8]);
        return [0, 0, 0, 0, 0, rows as u64, 0];
    }
    plain_rows(sheet, words)
}

const PAGE: u64 = 4096;

/// The little-endian number at a place of a body.
fn u64_at(body: &[u8], at: usize) -> u64 {
    u64::from_le_bytes(*body[at..].first_chunk().unwrap())
}

fn u32_at(body: &[u8], at: usize) -> u32 {
    u32::from_le_bytes(*body[at..].first_chunk().unwrap())
}

fn u16_at(body: &[u8], at: usize) -> u16 {
    u16::from_le_bytes(*body[at..].first_chunk().unwrap())
}

/// A region of either kind that has no fault, from start up to, not including, end.
struct Region {
    start: u64,
    end: u64,
    mask: u32,
    vtl: u8,
    is_table: bool,
}

/// What is known of the rows that have no fault.
#[derive(Default)]
struct Plain {
    aarch64: bool,
    /// a bit for each type of a platform
    types: u8,
    /// the mask bits whose last platform is CCA
    cca: u32,
    regions: Vec<Region>,
    /// all bits of page tables
    tables: u32,
    /// some region has another VP index than 0
    other_vp: bool,
    /// the areas that were allocated, and whether they were inserted
    areas: BTreeMap<u32, bool>,
    /// the bits of the VBS contexts of each VTL
    contexts: [u32; 3],
}

/// The words of a readable sheet's rows, and the report's numbers.
fn plain_rows(sheet: &[u8], words: &mut [[u8; 8]]) -> Numbers {
    let mut plain = Plain { aarch64: sheet[1] == 1, ..Plain::default() };
    let (table, mut bodies) = sheet[16..].split_at(8 * words.len());
    let mut faulty = 0;
    for (entry, word) in table.as_chunks::<8>().0.iter().zip(&mut *words) {
        let (kind, length) = (u32_at(entry, 0), u32_at(entry, 4) as usize);
        let (body, behind) = bodies.split_at(length);
        bodies = behind;
        let number = match kind {
            1 => plain.platform(body),
            16 => 0,
            17 => plain.policy(body),
            18 => plain.relocatable_region(body),
            19 => plain.page_table(body),
            _ => plain.directive(kind, body),
        };
        faulty += u64::from(number != 0);
        *word = number.to_le_bytes();
    }
    let has_context = |region: &Region| plain.contexts[usize::from(region.vtl)] & region.mask != 0;
    let no_context = plain.other_vp || !plain.regions.iter().all(has_context);
    [0, 0, 0, u64::from(plain.types == 0), no_context.into(), words.len() as u64, faulty]
}

impl Plain {
    fn platform(&mut self, body: &[u8]) -> u64 {
        let (mask, typ) = (u32_at(body, 0), body[5]);
        let fault = match body[4] {
            _ if !mask.is_power_of_two() => 8,
            1 | 3.. => 9,
            _ if typ > 6 => 12,
            _ if u16_at(body, 6) != 1 => 10,
            _ if typ <= 1 && u64_at(body, 8) != 0 => 11,
            _ if typ != 1 && self.aarch64 != (typ == 6) => 13,
            _ if self.types & 1 << typ != 0 => 14,
            _ => 0,
        };
        if fault == 0 {
            self.types |= 1 << typ;
            self.cca = if typ == 6 { self.cca | mask } else { self.cca & !mask };
        }
        fault
    }

    fn policy(&self, body: &[u8]) -> u64 {
        if u64_at(body, 4) & u64_at(body, 12) != 0 {
            16
        } else if !self.aarch64 {
            24
        } else if u32_at(body, 0) & !self.cca != 0 {
            25
        } else {
            0
        }
    }

    fn relocatable_region(&mut self, body: &[u8]) -> u64 {
        let [alignment, gpa, size, minimum, maximum] = [4, 12, 20, 28, 36].map(|at| u64_at(body, at));
        if size % PAGE != 0 {
            17
        } else if alignment % PAGE != 0 {
            18
        } else if alignment == 0 {
            19
        } else if [gpa, minimum, maximum].iter().any(|address| address % alignment != 0) {
            20
        } else {
            self.region(u32_at(body, 0), (gpa, size), u16_at(body, 45), body[47], false)
        }
    }

    fn page_table(&mut self, body: &[u8]) -> u64 {
        let [gpa, size, used] = [4, 12, 20].map(|at| u64_at(body, at));
        let mask = u32_at(body, 0);
        if gpa % PAGE != 0 {
            21
        } else if size % PAGE != 0 || used % PAGE != 0 {
            22
        } else if used > size {
            23
        } else if self.tables & mask != 0 {
            26
        } else {
            let fault = self.region(mask, (gpa, size), u16_at(body, 28), body[30], true);
            self.tables |= if fault == 0 { mask } else { 0 };
            fault
        }
    }

    /// 27, 28, 29.
    fn region(&mut self, mask: u32, (start, size): (u64, u64), vp: u16, vtl: u8, is_table: bool) -> u64 {
        if size == 0 {
            return 27;
        }
        let Some(end) = start.checked_add(size) else { return 28 };
        if self.regions.iter().any(|other| other.mask & mask != 0 && other.start < end && start < other.end) {
            return 29;
        }
        self.regions.push(Region { start, end, mask, vtl, is_table });
        self.other_vp |= vp != 0;
        0
    }

    fn directive(&mut self, kind: u32, body: &[u8]) -> u64 {
        if matches!(kind, 32 | 44 | 45 | 50 | 51) && u64_at(body, 0) % PAGE != 0 {
            return 21;
        }
        match kind {
            32 if u16_at(body, 16) > 3 => 30,
            32 if body.len() - 18 > 4096 => 31,
            33 if u64_at(body, 0) % PAGE != 0 => 22,
            33 if (body.len() - 12) as u64 > u64_at(body, 0) => 31,
            33 => match self.areas.entry(u32_at(body, 8)) {
                std::collections::btree_map::Entry::Occupied(_) => 32,
                std::collections::btree_map::Entry::Vacant(place) => {
                    place.insert(false);
                    0
                }
            },
            34..=43 if self.areas.get(&u32_at(body, 0)) != Some(&false) => 32,
            44 if u64::from(u32_at(body, 12)) % PAGE != 0 => 22,
            46 | 47 if self.aarch64 => 24,
            48 | 49 if !self.aarch64 => 24,
            47 | 48 => {
                self.contexts[usize::from(body[4])] |= u32_at(body, 0);
                0
            }
            50 => self.insert(u64_at(body, 0), u32_at(body, 8), u32_at(body, 12)),
            _ => 0,
        }
    }

    fn insert(&mut self, gpa: u64, mask: u32, index: u32) -> u64 {
        match self.areas.get_mut(&index) {
            Some(inserted) if !*inserted => {
                let holds = |region: &Region| region.is_table && region.mask & mask != 0 && region.start <= gpa && gpa < region.end;
                if self.tables & mask != 0 && self.regions.iter().any(holds) {
                    return 33;
                }
                *inserted = true;
                0
            }
            _ => 32,
        }
    }
}
