//! Document 02's request 14 by running: accepted images of which rows are dropped as it allows get the old answers without the dropped regions. And one row more is
//! dropped, which has to remain: that the verdict is then another, mostly, shows that each condition is needed. Crate sapyullu makes the same sheets, and refuses
//! such a row.

use crate::columns::{counts, Columns};
use crate::compare::{check, Call, Extent, Rust};
use crate::order::{masks, tied_rows};
use crate::owner::{self, ENTRY};
use crate::random::Random;
use crate::run::on_threads;
use crate::sheet::{hex, kinds, Image, Row};
use crate::trimming::{Choice, List, Rule, RULE};
use crate::{generate, large, paper, plan, report, shrink};
use calls::Calls;

/// One image of so many is large.
const LARGE_SHARE: u64 = 100;

// ---- what must be met

/// Of choices that keep the conditions, of strict verdicts, region lists, checks of a region, addresses and indexes, and of choices that break a condition.
const COLUMNS: [&str; 56] = [
    "nothing dropped",
    "all dropped that may go",
    "initialization rows alone",
    "directive rows alone",
    "rows of both lists",
    "a page table dropped, a relocatable region left",
    "a page table left, a relocatable region dropped",
    "a policy dropped, a region behind it left",
    "an area dropped with rows that name it",
    "an area dropped that no row names",
    "an insert dropped, its area left",
    "an insert dropped, its area and a use left",
    "a use dropped, its area and its insert left",
    "a context of kind 45 dropped",
    "a context of kind 46 dropped",
    "a context of kind 49 dropped",
    "a region left with kind 47",
    "a region left with kind 48",
    "more than 1,024 directive rows, no more than 1,024 left",
    "more than 1,024 directive rows left",
    "more areas than the small table has room for, fewer left",
    "with the Rust",
    "strictly accepted before and after",
    "38 for a region that is left, the same row",
    "38 for a region that is left, another row",
    "38 for a region that is dropped, then strictly accepted",
    "38 for a region that is dropped, then for another",
    "a list, some regions dropped and some left",
    "a list, all regions dropped",
    "a list as before, regions of other masks dropped",
    "a list, its page table dropped",
    "a list, its page table left and regions dropped",
    "a region of another number, a valid base",
    "another number, a base that is not valid",
    "another number, an address of the region",
    "another number, another address",
    "another number, always over a range",
    "another number, never",
    "another number, sometimes",
    "the same number, regions before it dropped",
    "an address of a dropped region",
    "an address of a relocatable region of another row",
    "an address of a page table of another row",
    "an address of a region of the same row",
    "an address of none",
    "an index, some regions dropped and some left",
    "an index, all regions dropped",
    "an index as before but for the rows",
    "a context of kind 47 dropped: 34",
    "a context of kind 48 dropped: 34",
    "a context dropped: 38, strictly accepted before",
    "a context dropped: strictly accepted before and after",
    "an area dropped that a use names: 32",
    "an area dropped that an insert alone names: 32",
    "a platform dropped: 15 or 25",
    "a platform dropped: accepted",
];

const OF_STRICT: usize = 22;
const OF_LIST: usize = 27;
const OF_REGION: usize = 32;
const OF_ADDRESS: usize = 40;
const OF_INDEX: usize = 45;
const BROKEN: usize = 48;

counts!(Trimmed);

impl Trimmed {
    /// Of each column from this one on whether it was met once more.
    fn met(&mut self, from: usize, met: &[bool]) {
        let mut columns = [false; COLUMNS.len()];
        columns[from..from + met.len()].copy_from_slice(met);
        self.count(&columns);
    }
}

#[derive(Default)]
struct Seen {
    images: u64,
    /// of these, those that are refused, and are not trimmed
    refused: u64,
    dropped: u64,
    left: u64,
    lists: u64,
    regions: u64,
    addresses: u64,
    /// rows dropped that have to remain, and of these such as the rule lets go
    broken: u64,
    let_go: u64,
    /// sheets and refusals by crate sapyullu
    by_crate: u64,
    /// a bit for each kind of which a row was dropped as it may be
    kinds: u64,
    columns: Trimmed,
}

impl Seen {
    fn add(&mut self, other: &Seen) {
        self.images += other.images;
        self.refused += other.refused;
        self.dropped += other.dropped;
        self.left += other.left;
        self.lists += other.lists;
        self.regions += other.regions;
        self.addresses += other.addresses;
        self.broken += other.broken;
        self.let_go += other.let_go;
        self.by_crate += other.by_crate;
        self.kinds |= other.kinds;
        self.columns.add(&other.columns);
    }

    /// Every column was met, and a row of every kind was dropped that may be. The rule let no other row go.
    fn every_sort(&self) -> Result<(), String> {
        if self.let_go != 0 {
            return Err(format!("trimmed: {} times the rule lets a row go that has to remain", self.let_go));
        }
        let kinds: Vec<u32> = kinds().filter(|kind| !matches!(kind, 1 | 47 | 48) && self.kinds & 1 << kind == 0).collect();
        let missing = self.columns.missing();
        if !missing.is_empty() || !kinds.is_empty() {
            return Err(format!("trimmed: these were not met: {missing:?}, and of these kinds no row was dropped: {kinds:?}"));
        }
        Ok(())
    }
}

/// A difference: the image's case, what differs, and the image's sheet with the rows that remain.
struct Found {
    case: u64,
    what: String,
    sheet: Vec<u8>,
    kept: Vec<bool>,
}

pub fn run(calls: &Calls, seed: u64, cases: u64, threads: usize) -> Result<(), String> {
    let start = std::time::Instant::now();
    let mut seen = Seen::default();
    for part in on_threads(threads, |first| images(calls, &RULE, seed, (first..cases).step_by(threads))) {
        seen.add(&part.map_err(|Found { case, what, sheet, kept }| {
            let dropped: Vec<usize> = (1..).zip(kept).filter(|(_, kept)| !kept).map(|(row, _)| row).collect();
            format!("DIFFERENCE in trimmed image {case} of seed {seed}\n{what}\n  dropped rows {dropped:?} of {}", hex(&sheet))
        })?);
    }
    println!(
        "trimmed: {} images, {} of them refused; the others agree, with {} rows dropped and {} left: {} lists, {} regions, {} addresses;",
        seen.images, seen.refused, seen.dropped, seen.left, seen.lists, seen.regions, seen.addresses
    );
    println!(
        "  {} times a row dropped that has to remain; {} sheets and refusals by crate sapyullu; {:.1?}",
        seen.broken,
        seen.by_crate,
        start.elapsed()
    );
    println!("  {}", seen.columns.text());
    seen.every_sort()
}

/// Images that a wrong copy of the rule is asked of.
const CAUGHT: u64 = 10_000;

/// By what a wrong copy of the rule is caught, if it is. The calls are document 01's.
pub fn caught((name, what, rule): &(&str, &str, Rule), seed: u64) -> Option<String> {
    let found = images(&paper::CALLS, rule, seed, 0..CAUGHT).err()?;
    Some(format!("caught {name} ({what}): trimmed image {}; {} bytes: {}", found.case, found.sheet.len(), found.what))
}

/// The images of these cases: those that are accepted are trimmed, once as it is allowed and once with one row less that has to remain.
fn images(calls: &Calls, rule: &Rule, seed: u64, cases: impl Iterator<Item = u64>) -> Result<Seen, Found> {
    let mut seen = Seen::default();
    for case in cases {
        let mut random = Random::new(seed ^ 0x7472_696D_6D65, case);
        let image = match (case + 1) % LARGE_SHARE {
            0 => large::readable_image(&mut random),
            _ => generate::readable_image(&mut random, &[0, 0, 0, 1, 2]),
        };
        let sheet = image.bytes();
        seen.images += 1;
        let found = |kept: &[bool], what: String| Found { case, what, sheet: sheet.clone(), kept: kept.to_vec() };
        if Call::Verdict.ask(calls, &sheet, &mut [], 0) != 0 {
            seen.refused += 1;
            seen.by_crate += host::refused_image(&sheet).map_err(|what| found(&[], what))?;
            continue;
        }
        let mut kept = allowed(&mut random, &image);
        Trim::new(calls, rule, &image, &sheet, &kept).allowed(&mut random, &mut seen).map_err(|what| found(&kept, what))?;
        if let Some(row) = needed_row(&mut random, &image, &mut kept) {
            kept[row as usize - 1] = false;
            Trim::new(calls, rule, &image, &sheet, &kept).broken(&mut random, row, &mut seen).map_err(|what| found(&kept, what))?;
        }
    }
    Ok(seen)
}

// ---- choices

/// Rows that remain such that the conditions hold. None, few, half, most or all of the others are to go, of either list or of both. VBS contexts remain; with an
/// area that is to go all rows go that name it, or it remains where one of these does.
fn allowed(random: &mut Random, image: &Image) -> Vec<bool> {
    let eighths = random.pick(&[0, 1, 1, 4, 4, 7, 8]);
    let lists = random.pick(&[[false, true, false], [false, false, true], [false, true, true], [false, true, true]]);
    let mut kept = [0, 1, 2].map(|list| {
        let rows = image.lists[list].iter();
        rows.map(|row| !lists[list] || matches!(row.kind, 47 | 48) || random.below(8) >= eighths).collect::<Vec<bool>>()
    });
    for rows in tied_rows(2, &image.lists[2]).into_values() {
        let (area, naming) = (rows[0], &rows[1..]);
        if kept[2][area] {
            continue;
        }
        if random.one_in(2) {
            naming.iter().for_each(|&row| kept[2][row] = false);
        }
        kept[2][area] = naming.iter().any(|&row| kept[2][row]);
    }
    kept.concat()
}

/// A row that has to remain: a platform, a VBS context, or an area that one of these rows names. Where none names one, all rows remain.
fn needed_row(random: &mut Random, image: &Image, kept: &mut [bool]) -> Option<u64> {
    let before = image.lists[0].len() + image.lists[1].len();
    let all = || (1..).zip(image.rows());
    let rows: Vec<u64> = match random.below(5) {
        0 => all().filter(|(_, row)| row.kind == 1).map(|(row, _)| row).collect(),
        1 | 2 => all().filter(|(_, row)| matches!(row.kind, 47 | 48)).map(|(row, _)| row).collect(),
        _ => {
            let areas: Vec<Vec<usize>> = tied_rows(2, &image.lists[2]).into_values().collect();
            let named = |kept: &[bool]| {
                let is_named = |rows: &&Vec<usize>| rows[1..].iter().any(|&row| kept[before + row]);
                areas.iter().filter(is_named).map(|rows| (before + rows[0] + 1) as u64).collect::<Vec<u64>>()
            };
            if named(kept).is_empty() {
                kept.fill(true);
            }
            named(kept)
        }
    };
    (!rows.is_empty()).then(|| random.pick(&rows))
}

/// The image of the rows that remain.
fn left(image: &Image, kept: &[bool]) -> Image {
    let (mut left, mut kept) = (image.clone(), kept.iter());
    left.lists.iter_mut().for_each(|rows| rows.retain(|_| *kept.next().unwrap()));
    left
}

// ---- the answers

/// The numbers of an answer, and the lent bytes afterwards.
type Answer = (Vec<u64>, Vec<u8>);

fn answer(calls: &Calls, sheet: &[u8], call: Call) -> Answer {
    let (mut lent, mut numbers) = (call.to_lend(), vec![0; 8 * call.numbers()]);
    call.ask_all(calls, sheet, &mut lent, &mut numbers);
    (report::words(&numbers, call.numbers()), lent)
}

/// An accepted image of which some rows remain.
struct Trim<'a> {
    calls: &'a Calls,
    rule: &'a Rule,
    image: &'a Image,
    choice: Choice<'a>,
    left: Image,
    /// the sheet of the rows that remain
    new: Vec<u8>,
    /// the Rust of that
    rust: Rust,
}

impl<'a> Trim<'a> {
    fn new(calls: &'a Calls, rule: &'a Rule, image: &'a Image, sheet: &'a [u8], kept: &'a [bool]) -> Self {
        let left = left(image, kept);
        let new = left.bytes();
        let rust = Rust::of(&new);
        Trim { calls, rule, image, choice: Choice { sheet, kept }, left, new, rust }
    }

    /// The old answer.
    fn old(&self, call: Call) -> Answer {
        answer(self.calls, self.choice.sheet, call)
    }

    /// The answer on the rows that remain, which document 01, plain Rust and the Rust must give too.
    fn checked(&self, call: Call, case: u64) -> Result<Answer, String> {
        check(self.calls, &self.new, &self.rust, call, Extent::Case(case)).map_err(|difference| shrink::text(&difference))?;
        Ok(answer(self.calls, &self.new, call))
    }

    /// Rows are dropped as it is allowed: the rule allows it, makes the sheet of the rows that remain, and says of every answer what it is.
    fn allowed(&self, random: &mut Random, seen: &mut Seen) -> Result<(), String> {
        let faults = self.rule.faults(&self.choice);
        if !faults.is_empty() {
            return Err(format!("by the rule row {} has to remain, which may go", faults[0]));
        }
        let sheet = (self.rule.sheet)(&self.choice);
        if sheet != self.new {
            let verdict = answer(self.calls, &sheet, Call::Verdict).0;
            return Err(format!("the rule makes another sheet of the rows that remain, of which the verdict is {verdict:?}"));
        }
        seen.by_crate += host::same_sheet(random.next(), &self.choice, &self.new)?;
        seen.dropped += self.rows(false).count() as u64;
        seen.left += self.rows(true).count() as u64;
        seen.kinds |= self.rows(false).fold(0, |all, (_, kind)| all | 1 << kind);
        seen.columns.met(0, &self.columns());
        self.same_verdicts(random, seen)?;
        let masks = masks(random, self.image);
        for mask in [random.pick(&masks), random.pick(&masks)] {
            self.same_list(random, mask, seen)?;
            self.same_owners(random, mask, seen)?;
            self.same_index(random, mask, seen)?;
        }
        Ok(())
    }

    /// The verdict accepts, with the new counts. The strict verdict keeps its yes; its 38 stays where its region does, and else may be for a later region.
    fn same_verdicts(&self, random: &mut Random, seen: &mut Seen) -> Result<(), String> {
        let [old, old_strict] = [Call::Verdict, Call::StrictVerdict].map(|call| numbers(self.old(call)));
        let verdict: [u64; 6] = numbers(self.checked(Call::Verdict, random.next())?);
        let expected = (self.rule.verdict)(&self.choice, &old);
        if verdict != expected {
            return Err(format!("the verdict is {verdict:?}; it was {old:?}, and {expected:?} follows"));
        }
        let strict: [u64; 6] = numbers(self.checked(Call::StrictVerdict, random.next())?);
        let expected = (self.rule.strict_verdict)(&self.choice, &old_strict);
        let follows = match expected {
            Some(expected) => strict == expected,
            None => strict == verdict || strict[0] == 38 && strict[1] > self.left_before(old_strict[1]),
        };
        if !follows {
            return Err(format!("the strict verdict is {strict:?}; it was {old_strict:?}, and {expected:?} follows"));
        }
        let is_38_of_left = old_strict[0] == 38 && expected.is_some();
        seen.columns.met(
            OF_STRICT,
            &[
                old_strict[0] == 0,
                is_38_of_left && strict[1] == old_strict[1],
                is_38_of_left && strict[1] != old_strict[1],
                expected.is_none() && strict[0] == 0,
                expected.is_none() && strict[0] == 38,
            ],
        );
        Ok(())
    }

    /// The list of a mask, with words enough for the old one, is the old one without the dropped regions, and the bytes behind its words are as they were. Of regions
    /// that remain, two at most, the checks of a base, of an address and of a range of bases say what they said.
    fn same_list(&self, random: &mut Random, mask: u32, seen: &mut Seen) -> Result<(), String> {
        let most = Call::Relocations { mask, lent: 64 * 64 };
        let count = self.old(most).0[3] as usize;
        let call = Call::Relocations { mask, lent: 64 * count + random.pick(&[0, 0, 1, 8, 64, 85]) };
        let (old_numbers, old_lent) = self.old(call);
        let old: List = (old_numbers.try_into().unwrap(), old_lent[..64 * count].to_vec());
        let (new, lent) = self.checked(call, random.next())?;
        let (expected, words) = (self.rule.relocations)(&self.choice, mask, &old);
        let mut expected_lent = call.to_lend();
        expected_lent[..words.len()].copy_from_slice(&words);
        if new != expected {
            return Err(format!("the list of mask {mask} is {new:?}; it was {:?}, and {expected:?} follows", old.0));
        }
        if lent != expected_lent {
            let [lent, expected] = [lent, expected_lent].map(|lent| report::words(&lent, lent.len()));
            return Err(format!("the words of the list of mask {mask} are {lent:x?}; {expected:x?} follows"));
        }
        let (fewer, is_dropped) = (new[3] < old.0[3], self.rows(false).any(|(_, kind)| kind == 18));
        seen.columns.met(
            OF_LIST,
            &[
                fewer && new[3] != 0,
                fewer && new[3] == 0,
                new[3] != 0 && new[..] == old.0 && is_dropped,
                new[4] < old.0[4],
                new[4] == 1 && fewer,
            ],
        );
        seen.lists += 1;
        let regions = self.regions(mask);
        for _ in 0..regions.len().min(2) {
            let (region, row) = random.pick(&regions);
            let words = report::words(&old.1[64 * region as usize..], 8);
            self.same_region(random, (mask, region, row), &words.try_into().unwrap(), seen)?;
        }
        Ok(())
    }

    /// The checks of a region that remains: its mask, the number and the row that it had, and its words.
    fn same_region(
        &self,
        random: &mut Random,
        (mask, old, row): (u32, u64, u64),
        words: &paper::Words,
        seen: &mut Seen,
    ) -> Result<(), String> {
        let new = (self.rule.region)(&self.choice, mask, old);
        let (base, gpa) = (random.pick(&plan::bases(Some(words))), random.pick(&plan::addresses(Some(words))));
        let (lowest, highest) = plan::some_range(random, Some(words));
        let checks = |region: u64| {
            [
                Call::BaseValid { mask, region, base },
                Call::Contains { mask, region, gpa },
                Call::BaseRange { mask, region, lowest, highest },
            ]
        };
        let mut answers = [0; 3];
        for ((old_call, new_call), number) in checks(old).into_iter().zip(checks(new)).zip(&mut answers) {
            let (was, is) = (self.old(old_call).0, self.checked(new_call, random.next())?.0);
            if is != was {
                return Err(format!("{new_call:?} says {is:?}; the region was number {old}, and {was:?} was said"));
            }
            *number = is[3];
        }
        let ([base, address, range], is_other) = (answers, new != old);
        let of_other = [base == 1, base != 1, address == 1, address == 0, range == 1, range == 2, range == 3].map(|met| met && is_other);
        let is_same = !is_other && self.rows(false).any(|(other, kind)| other < row && kind == 18);
        seen.columns.met(OF_REGION, &[&of_other[..], &[is_same]].concat());
        seen.regions += 1;
        Ok(())
    }

    /// An address is in the region that had it, by its new row, or in none if that is dropped.
    fn same_owners(&self, random: &mut Random, mask: u32, seen: &mut Seen) -> Result<(), String> {
        let addresses = plan::region_addresses(self.choice.sheet);
        for gpa in [random.pick(&addresses), random.pick(&addresses), random.pick(&addresses)] {
            let call = Call::RegionOf { mask, gpa };
            let (old, new) = (self.old(call).0, self.checked(call, random.next())?.0);
            let row = (self.rule.owner)(&self.choice, old[3]);
            if new != [0, 0, 0, row] {
                return Err(format!("of address {gpa:#x}, mask {mask}, the answer is {new:?}; it was {old:?}, and row {row} follows"));
            }
            let is_table = new[3] != 0 && self.left.rows().nth(new[3] as usize - 1).unwrap().kind == 19;
            let is_other = new[3] != 0 && new[3] != old[3];
            seen.columns.met(
                OF_ADDRESS,
                &[old[3] != 0 && new[3] == 0, is_other && !is_table, is_other && is_table, new[3] != 0 && !is_other, old[3] == 0],
            );
            seen.addresses += 1;
        }
        Ok(())
    }

    /// The index of a mask, with words enough for the old one, is the old one without the dropped regions, with the new rows.
    fn same_index(&self, random: &mut Random, mask: u32, seen: &mut Seen) -> Result<(), String> {
        let old: Vec<[u64; 3]> = owner::entries(&owner::index(self.calls, self.choice.sheet, mask)).collect();
        let call = Call::RegionIndex { mask, lent: ENTRY * old.len() + random.pick(&[0, 0, 1, 8, 21]) };
        let (numbers, lent) = self.checked(call, random.next())?;
        let expected = (self.rule.index)(&self.choice, &old);
        let words: Vec<u8> = expected.iter().flatten().flat_map(|word| word.to_le_bytes()).collect();
        let mut expected_lent = call.to_lend();
        expected_lent[..words.len()].copy_from_slice(&words);
        if numbers != [0, 0, 0, expected.len() as u64] || lent != expected_lent {
            let is: Vec<[u64; 3]> = owner::entries(&lent).take(numbers[3] as usize).collect();
            return Err(format!("the index of mask {mask} is {numbers:?}, {is:x?}; it was {old:x?}, and {expected:x?} follows"));
        }
        let fewer = expected.len() < old.len();
        seen.columns.met(OF_INDEX, &[fewer && !expected.is_empty(), fewer && expected.is_empty(), !fewer && expected != old]);
        Ok(())
    }

    /// One row is dropped that has to remain: the rule names it, or it is held to the verdicts that it promises. Without an area the verdict is 32 for the first row
    /// that names it. Without a context it is 34 or accepted, without a platform 15, 25 or accepted.
    fn broken(&self, random: &mut Random, row: u64, seen: &mut Seen) -> Result<(), String> {
        let [old, old_strict]: [[u64; 6]; 2] = [Call::Verdict, Call::StrictVerdict].map(|call| numbers(self.old(call)));
        let verdict: [u64; 6] = numbers(self.checked(Call::Verdict, random.next())?);
        let strict: [u64; 6] = numbers(self.checked(Call::StrictVerdict, random.next())?);
        let faults = self.rule.faults(&self.choice);
        if faults.is_empty() {
            seen.let_go += 1;
            return self.same_verdicts(random, seen).map_err(|what| format!("the rule lets row {row} go, which has to remain; {what}"));
        }
        if faults != [row] {
            return Err(format!("row {row} has to remain; the rule names {faults:?}"));
        }
        let needed = self.image.rows().nth(row as usize - 1).unwrap();
        let names = |other: &Row| needed.area().is_some() && other.area() == needed.area();
        let naming = (1..).zip(self.image.rows()).zip(self.choice.kept).filter(|((_, other), kept)| **kept && names(other));
        let naming: Vec<(u64, u32)> = naming.map(|((row, other), _)| (row, other.kind)).collect();
        let follows = match (needed.kind, verdict[0]) {
            (33, _) => verdict == [32, self.left_before(naming[0].0) + 1, 0, 0, 0, 0],
            (_, 0) => verdict == (self.rule.verdict)(&self.choice, &old),
            (1, number) => matches!(number, 15 | 25),
            (_, number) => number == 34,
        };
        if !follows {
            return Err(format!("without row {row}, which has to remain, the verdict is {verdict:?}; it was {old:?}"));
        }
        seen.by_crate += host::refused(random.next(), &self.choice, (row, needed), naming.first().map(|(row, _)| *row))?;
        let by_insert = naming.iter().all(|(_, kind)| *kind == 50);
        let is_context = matches!(needed.kind, 47 | 48);
        seen.columns.met(
            BROKEN,
            &[
                needed.kind == 47 && verdict[0] == 34,
                needed.kind == 48 && verdict[0] == 34,
                is_context && strict[0] == 38 && old_strict[0] == 0,
                is_context && strict[0] == 0 && old_strict[0] == 0,
                needed.kind == 33 && !by_insert,
                needed.kind == 33 && by_insert,
                needed.kind == 1 && matches!(verdict[0], 15 | 25),
                needed.kind == 1 && verdict[0] == 0,
            ],
        );
        seen.broken += 1;
        Ok(())
    }

    // ---- the choice

    /// Number and kind of each row of the image that remains, or that is dropped.
    fn rows(&self, remains: bool) -> impl Iterator<Item = (u64, u32)> + '_ {
        let rows = (1..).zip(self.image.rows()).zip(self.choice.kept);
        rows.filter(move |(_, kept)| **kept == remains).map(|((row, of), _)| (row, of.kind))
    }

    /// How many rows remain before this one of the image.
    fn left_before(&self, row: u64) -> u64 {
        self.rows(true).take_while(|(other, _)| *other < row).count() as u64
    }

    /// Of the mask's relocatable regions those that remain: the number and the row that each had.
    fn regions(&self, mask: u32) -> Vec<(u64, u64)> {
        let is_of = |row: &Row| row.kind == 18 && row.get("mask").unwrap() as u32 & mask == mask;
        let rows = (1..).zip(self.image.rows()).filter(|(_, row)| is_of(row)).map(|(row, _)| row);
        (0..).zip(rows).filter(|(_, row)| self.choice.kept[*row as usize - 1]).collect()
    }

    /// Which columns hold of a choice.
    fn columns(&self) -> [bool; OF_STRICT] {
        let [old, new] = [self.image, &self.left].map(|image| [1, 2].map(|list| image.lists[list].len()));
        let fewer = [new[0] < old[0], new[1] < old[1]];
        let [was_large, is_large] = [old, new].map(|rows| rows[1] > 1024);
        let [is_left, is_dropped] =
            [true, false].map(|remains| move |kinds: &[u32]| self.rows(remains).any(|(_, kind)| kinds.contains(&kind)));
        let policy = self.rows(false).find(|(_, kind)| matches!(kind, 16 | 17));
        let region = self.rows(true).filter(|(_, kind)| matches!(kind, 18 | 19)).last();
        let areas: Vec<[bool; 5]> = tied_rows(2, &self.image.lists[2]).values().map(|rows| self.of_area(rows)).collect();
        let of_areas: [bool; 5] = std::array::from_fn(|column| areas.iter().any(|area| area[column]));
        let of_choice = [
            fewer == [false, false],
            !self.rows(true).any(|(_, kind)| !matches!(kind, 1 | 47 | 48)),
            fewer == [true, false],
            fewer == [false, true],
            fewer == [true, true],
            is_dropped(&[19]) && is_left(&[18]),
            is_dropped(&[18]) && is_left(&[19]),
            policy.zip(region).is_some_and(|((policy, _), (region, _))| policy < region),
        ];
        let of_others = [
            is_dropped(&[45]),
            is_dropped(&[46]),
            is_dropped(&[49]),
            is_left(&[18, 19]) && is_left(&[47]),
            is_left(&[18, 19]) && is_left(&[48]),
            was_large && !is_large,
            is_large && fewer != [false, false],
            was_large && large::has_many_areas(self.choice.sheet) && !large::has_many_areas(&self.new),
            self.rust.judged.is_some(),
        ];
        [&of_choice[..], &of_areas, &of_others].concat().try_into().unwrap()
    }

    /// Which columns hold of the rows of an area, the first of which allocates it.
    fn of_area(&self, rows: &[usize]) -> [bool; 5] {
        let before = self.image.lists[0].len() + self.image.lists[1].len();
        let is_kept = |row: &usize| self.choice.kept[before + row];
        let is_insert = |row: &usize| self.image.lists[2][*row].kind == 50;
        let (area, naming) = (is_kept(&rows[0]), &rows[1..]);
        let insert = naming.iter().find(|row| is_insert(row));
        let use_of = |kept: bool| naming.iter().any(|row| !is_insert(row) && is_kept(row) == kept);
        let insert_dropped = insert.is_some_and(|row| !is_kept(row));
        [
            !area && !naming.is_empty(),
            !area && naming.is_empty(),
            area && insert_dropped,
            area && insert_dropped && use_of(true),
            area && insert.is_some_and(is_kept) && use_of(false),
        ]
    }
}

/// The numbers of a verdict.
fn numbers((numbers, _): Answer) -> [u64; 6] {
    numbers.try_into().unwrap()
}

/// By crate sapyullu, if the library was there when this program was built: the sheet without every second directive row.
#[cfg(library)]
pub const HALF: Option<fn(&[u8]) -> Vec<u8>> = Some(host::half);
#[cfg(not(library))]
pub const HALF: Option<fn(&[u8]) -> Vec<u8>> = None;

/// Crate sapyullu's function on a sheet's bytes. Each but the first gives 1, for one sheet or refusal.
#[cfg(library)]
mod host {
    use crate::paper;
    use crate::random::Random;
    use crate::sheet::Row;
    use crate::trimming::Choice;
    use sapyullu::{List, Place, TrimError};

    /// The sheet without every second directive row, from the second on. None of them has to remain.
    pub fn half(sheet: &[u8]) -> Vec<u8> {
        let directives = u16::from_le_bytes([sheet[12], sheet[13]]);
        let dropped = (1..usize::from(directives)).step_by(2).map(|index| Place { list: List::Directive, index });
        sapyullu::trimmed(sheet, dropped).expect("rows that may go")
    }

    /// The places of the dropped rows, in an order that differs from case to case, and the first of them twice.
    fn dropped(case: u64, choice: &Choice) -> Vec<Place> {
        let rows = (1..).zip(choice.kept).filter(|(_, kept)| !**kept);
        let mut places: Vec<Place> = rows.map(|(row, _)| place(choice, row)).collect();
        Random::new(case, 0).shuffle(&mut places);
        places.extend(places.first().copied());
        places
    }

    fn place(choice: &Choice, row: u64) -> Place {
        Place::of_row(choice.sheet, row).expect("a row of the sheet")
    }

    /// The sheet of the rows that remain is this one.
    pub fn same_sheet(case: u64, choice: &Choice, new: &[u8]) -> Result<u64, String> {
        match sapyullu::trimmed(choice.sheet, dropped(case, choice)) {
            Ok(sheet) if sheet == new => Ok(1),
            Ok(_) => Err("sapyullu::trimmed makes another sheet of the rows that remain".into()),
            Err(error) => Err(format!("sapyullu::trimmed refuses by {error:?} what may go")),
        }
    }

    /// The one dropped row that has to remain is refused, an area with the first row that names it.
    pub fn refused(case: u64, choice: &Choice, (row, needed): (u64, &Row), named_by: Option<u64>) -> Result<u64, String> {
        let place_of = |row: u64| place(choice, row);
        let place = place_of(row);
        let expected = match (needed.kind, needed.area(), named_by) {
            (1, ..) => TrimError::PlatformHeader { place },
            (33, Some(area), Some(named_by)) => {
                TrimError::NamedParameterArea { place, parameter_area_index: area as u32, named_by: place_of(named_by) }
            }
            _ => TrimError::VbsVpContext { place },
        };
        match sapyullu::trimmed(choice.sheet, dropped(case, choice)) {
            Err(error) if error == expected => Ok(1),
            other => Err(format!("sapyullu::trimmed says {other:?}; {expected:?} follows")),
        }
    }

    /// A refused image is refused as by the verdict, though no row is dropped.
    pub fn refused_image(sheet: &[u8]) -> Result<u64, String> {
        let verdict = paper::verdict(sheet);
        match sapyullu::trimmed(sheet, []) {
            Err(TrimError::Refused(refusal)) if [refusal.error.number(), refusal.row.unwrap_or(0), refusal.detail] == verdict[..3] => Ok(1),
            other => Err(format!("sapyullu::trimmed says {other:?} of an image with the verdict {verdict:?}")),
        }
    }
}

/// Without the library this function can't be called.
#[cfg(not(library))]
mod host {
    use crate::sheet::Row;
    use crate::trimming::Choice;

    pub fn same_sheet(_: u64, _: &Choice, _: &[u8]) -> Result<u64, String> {
        Ok(0)
    }

    pub fn refused(_: u64, _: &Choice, _: (u64, &Row), _: Option<u64>) -> Result<u64, String> {
        Ok(0)
    }

    pub fn refused_image(_: &[u8]) -> Result<u64, String> {
        Ok(0)
    }
}
