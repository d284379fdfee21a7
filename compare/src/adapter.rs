//! Sheets that the adapter of crate sapyullu makes of the Rust's headers. They have the rows of the sheet that the headers were decoded from, and the
//! answers on them are the Rust's on the headers: those of the calls, and those of that crate's functions.

use crate::compare::{Call, Difference, Rust};
use crate::random::Random;
use crate::run::{on_threads, Run};
use crate::sheet::{fields_length, hex, kinds, Image, Row};
use crate::{generate, large, owner, paper, plan, report, short, shrink};
use calls::Calls;
use oracle::Headers;

/// What the adapter's macro makes.
pub mod made {
    sapyullu::igvm_adapter!(oracle, oracle::igvm_defs);
}

/// One image of so many is large.
const LARGE_SHARE: u64 = 2000;

/// The sheet of the headers.
pub fn sheet(headers: &Headers) -> Result<Vec<u8>, sapyullu::SheetError> {
    made::sheet(headers.revision, &headers.platforms, &headers.initializations, &headers.directives)
}

/// The readable ones of the short sheets, then so many random images.
pub fn run(calls: &Calls, seed: u64, cases: u64, threads: usize) -> Result<(), String> {
    let start = std::time::Instant::now();
    let mut seen = Seen::new(calls);
    seen.short_sheets(seed)?;
    let part = |first: u64| {
        let mut seen = Seen::new(calls);
        seen.images(seed, (first..cases).step_by(threads)).map(|()| seen)
    };
    for part in on_threads(threads, part) {
        seen.add(&part?);
    }
    seen.every_kind()?;
    let tally = &seen.run.tally;
    let large: u64 = tally.large_verdicts.iter().sum();
    println!("adapter: {} images agree, {} of them with the Rust too, {} accepted,", tally.cases, tally.with_rust, tally.verdicts[0]);
    println!(
        "  {large} of more than 1,024 directive rows, {} regions, {} region lists by crate sapyullu; {:.1?}",
        tally.regions,
        seen.lists,
        start.elapsed()
    );
    Ok(())
}

/// The comparison of one image after another, with its counts.
struct Seen<'a> {
    run: Run<'a>,
    /// a bit for each kind of row
    kinds: u64,
    /// region lists by crate sapyullu
    lists: u64,
}

impl<'a> Seen<'a> {
    fn new(calls: &'a Calls) -> Self {
        Seen { run: Run::new(calls), kinds: 0, lists: 0 }
    }

    fn add(&mut self, other: &Seen) {
        self.run.tally.add(&other.run.tally);
        self.kinds |= other.kinds;
        self.lists += other.lists;
    }

    /// Every kind of row was met, and every refusal of the Rust's domain with the Rust.
    fn every_kind(&self) -> Result<(), String> {
        let missing: Vec<u32> = kinds().filter(|kind| self.kinds & 1 << kind == 0).collect();
        let refusals = self.run.tally.missing_with_rust();
        if !missing.is_empty() || !refusals.is_empty() {
            return Err(format!("adapter: kinds that were not met: {missing:?}, refusals with the Rust: {refusals:?}"));
        }
        Ok(())
    }

    fn short_sheets(&mut self, seed: u64) -> Result<(), String> {
        let mut ended = Ok(());
        short::every(&mut |sheet| {
            if let Some(headers) = Headers::decode(sheet) {
                let case = self.run.tally.cases;
                let compared = self.image(&mut Random::new(seed, case), sheet, headers);
                ended = compared.map_err(|what| text(&format!("readable short sheet {case}"), &what, sheet));
            }
            ended.is_ok()
        });
        ended
    }

    fn images(&mut self, seed: u64, cases: impl Iterator<Item = u64>) -> Result<(), String> {
        for case in cases {
            let mut random = Random::new(seed ^ 0x6164_6170_7465, case);
            let image = match case % LARGE_SHARE {
                0 => large::readable_image(&mut random),
                _ => generate::readable_image(&mut random, &[0, 0, 1, 1, 1, 2, 3]),
            };
            let sheet = image.bytes();
            let headers = Headers::decode(&sheet).expect("a readable image");
            let compared = self.image(&mut random, &sheet, headers);
            compared.map_err(|what| text(&format!("image {case} of seed {seed}"), &what, &sheet))?;
        }
        Ok(())
    }

    /// The image of these headers, which were decoded from a sheet.
    fn image(&mut self, random: &mut Random, decoded: &[u8], headers: Headers) -> Result<(), String> {
        self.kinds |= headers.kinds.iter().fold(0, |all, kind| all | 1 << kind);
        let sheet = sheet(&headers).map_err(|error| error.to_string())?;
        same_rows(decoded, &sheet)?;
        self.answers(random, &sheet, &Rust::of_headers(Some(headers)))
    }

    /// The two verdicts, the report and two region lists, and of either mask an address and the index, by the calls and by crate sapyullu.
    fn answers(&mut self, random: &mut Random, sheet: &[u8], rust: &Rust) -> Result<(), String> {
        let text = |difference: Difference| shrink::text(&difference);
        let number = self.run.verdict(sheet, rust, random.next()).map_err(text)?;
        host::same_verdicts(sheet)?;
        host::same_report(sheet)?;
        if number != 0 {
            return Ok(());
        }
        let masks = plan::masks(sheet);
        let lent = rust.headers.as_ref().map_or(0, |headers| 64 * headers.initializations.len());
        for mask in [random.pick(&masks), random.pick(&masks)] {
            let list = Call::Relocations { mask, lent };
            let index = Call::RegionIndex { mask, lent: owner::INDEX };
            self.run.queries(sheet, rust, &[list, index], random.next()).map_err(text)?;
            if let Some(found) = rust.relocated(mask)? {
                self.lists += host::same_list(random, sheet, mask, &found)?;
            }
            host::same_owners(random, sheet, mask)?;
        }
        Ok(())
    }
}

/// A difference as text, with the sheet that the headers were decoded from.
fn text(place: &str, what: &str, decoded: &[u8]) -> String {
    let digits = hex(&decoded[..decoded.len().min(2000)]);
    format!("DIFFERENCE in {place} by the adapter\n{what}\n  the headers are of the sheet of {} bytes: {digits}", decoded.len())
}

/// The adapter's sheet has the head, the rows, the two verdicts and the report of the sheet that the headers were decoded from.
fn same_rows(decoded: &[u8], made: &[u8]) -> Result<(), String> {
    let (Some(mut expected), Some(image)) = (Image::parse(decoded), Image::parse(made)) else {
        return Err("the adapter's sheet has no head or no table".into());
    };
    expected.lists.iter_mut().flatten().for_each(as_adapted);
    if image != expected {
        let rows = image.rows().zip(expected.rows()).find(|(row, other)| row != other);
        return Err(format!(
            "the adapter makes another sheet: {}; its row, the one expected: {rows:?}",
            hex(&made[..made.len().min(2000)])
        ));
    }
    for verdict in [paper::verdict, paper::strict_verdict] {
        let (by_decoded, by_made) = (verdict(decoded), verdict(made));
        if by_decoded != by_made {
            return Err(format!("document 01 says {by_made:?} of the adapter's sheet, {by_decoded:?} of the other"));
        }
    }
    let [by_decoded, by_made] = [decoded, made].map(report_by_paper);
    if by_decoded != by_made {
        return Err(format!("document 02 reports {by_made:?} of the adapter's sheet, {by_decoded:?} of the other"));
    }
    Ok(())
}

/// Document 02's report: its numbers and its words.
fn report_by_paper(sheet: &[u8]) -> (report::Numbers, Vec<u64>) {
    let mut lent = vec![0; 8 * report::rows(sheet)];
    (paper::report(sheet, &mut lent), report::words(&lent, lent.len()))
}

/// The row as the adapter writes it: what no decision looks at is 0 or is left out, and a code without a name is the highest.
fn as_adapted(row: &mut Row) {
    let most = if row.kind == 1 { 6 } else { 3 };
    if row.get("type").is_some_and(|code| code > most) {
        row.set("type", u64::MAX);
    }
    match row.kind {
        17 => row.body[fields_length(17)..].fill(0),
        32 => row.set("flags", 0),
        45..=49 | 52 | 53 => row.body.truncate(fields_length(row.kind)),
        _ => {}
    }
}

/// The functions of crate sapyullu, and the methods of its regions.
#[cfg(library)]
mod host {
    use super::{made, report_by_paper};
    use crate::random::Random;
    use crate::{owner, paper, plan, ranges, report};
    use oracle::{IgvmRelocatableRegion, Relocated};
    use sapyullu::{BaseCheck, Counts, List, PageTableRegion, Place, Refusal, RegionIndex, Reported};

    /// The verdict and the strict verdict are document 01's.
    pub fn same_verdicts(sheet: &[u8]) -> Result<(), String> {
        let verdict = ("verdict", sapyullu::verdict(sheet), paper::verdict(sheet));
        let strict_verdict = ("strict_verdict", sapyullu::strict_verdict(sheet), paper::strict_verdict(sheet));
        for (name, judged, by_paper) in [verdict, strict_verdict] {
            let numbers = numbers(sheet, judged).map_err(|what| format!("sapyullu::{name} {what}"))?;
            if numbers != by_paper {
                return Err(format!("sapyullu::{name} says {numbers:?}; document 01 says {by_paper:?}"));
            }
        }
        Ok(())
    }

    /// The numbers of a verdict. A refusal's place is that of its row.
    fn numbers(sheet: &[u8], judged: Result<Counts, Refusal>) -> Result<[u64; 6], String> {
        let refusal = match judged {
            Ok(counts) => return Ok([0, 0, 0, counts.platform_headers, counts.initialization_headers, counts.directive_headers]),
            Err(refusal) => refusal,
        };
        let row = refusal.row.unwrap_or(0);
        if refusal.place != place(sheet, row) {
            return Err(format!("refuses row {row} at {:?}", refusal.place));
        }
        Ok([refusal.error.number(), row, refusal.detail, 0, 0, 0])
    }

    /// The report is document 02's: `report` with each faulty row's error and place, and `report_into` with words and a byte behind them; with a byte less it is refused.
    /// Either is accepted where the verdict is.
    pub fn same_report(sheet: &[u8]) -> Result<(), String> {
        let (numbers, words) = report_by_paper(sheet);
        let by_paper = [numbers[3], numbers[4], numbers[5], numbers[6]];
        let differ = |what: String| Err(format!("{what}; document 02 reports {numbers:?} with {words:?}"));
        let report = match sapyullu::report(sheet) {
            Ok(report) => report,
            Err(refusal) if [refusal.error.number(), refusal.row.unwrap_or(0), refusal.detail] == numbers[..3] => return Ok(()),
            Err(refusal) => return differ(format!("sapyullu::report refuses by {refusal:?}")),
        };
        let faulty = |faulty: &sapyullu::FaultyRow| (faulty.row, faulty.error.number(), faulty.place);
        let faults: Vec<(u64, u64, Option<Place>)> = report.faulty.iter().map(faulty).collect();
        let expected = (1..).zip(&words).filter(|(_, word)| **word != 0).map(|(row, &word)| (row, word, place(sheet, row)));
        let told = [report.no_platform.into(), report.no_context.into(), report.rows, faults.len() as u64];
        if numbers[0] != 0 || told != by_paper || !expected.eq(faults) || report.is_accepted() != (paper::verdict(sheet)[0] == 0) {
            return differ(format!("sapyullu::report says {report:?}"));
        }
        let mut lent = vec![0xA5; 8 * words.len() + 1];
        let into = sapyullu::report_into(sheet, &mut lent);
        let Ok(Reported { rows, faulty_rows, no_platform, no_context }) = into else {
            return differ(format!("sapyullu::report_into refuses by {into:?}"));
        };
        if [no_platform.into(), no_context.into(), rows, faulty_rows] != by_paper
            || report::words(&lent, words.len()) != words
            || lent.last() != Some(&0xA5)
        {
            return differ(format!("sapyullu::report_into says {into:?} with {lent:?}"));
        }
        let too_few = lent.get_mut(..(8 * words.len()).saturating_sub(1)).map(|lent| sapyullu::report_into(sheet, lent));
        match too_few {
            Some(Err(refusal)) if refusal.error.number() == 37 => Ok(()),
            Some(Ok(_)) if words.is_empty() => Ok(()),
            other => differ(format!("sapyullu::report_into says {other:?} where a byte less is lent than the words take")),
        }
    }

    /// Which region of an accepted sheet has an address is document 02's, by `region_of`, by a `RegionIndex` and by `region_in` on the bytes that `region_index_into` fills; so
    /// are the regions of either, or all are refused by 35. With a byte more that one is left as it was, with a byte less it is 37.
    pub fn same_owners(random: &mut Random, sheet: &[u8], mask: u32) -> Result<(), String> {
        let gpa = random.pick(&plan::region_addresses(sheet));
        let number = |refusal: Refusal| refusal.error.number();
        let by_paper = match paper::region_of(sheet, mask, gpa) {
            [0, .., row] => Ok(Some(row).filter(|row| *row != 0)),
            [number, ..] => Err(number),
        };
        let index = owner::index(&paper::CALLS, sheet, mask);
        let by_sheet = sapyullu::region_of(sheet, mask, gpa).map_err(number);
        let made = RegionIndex::new(sheet, mask).map_err(number);
        let by_index = made.as_ref().map(|made| made.region_of(gpa)).map_err(|number| *number);
        let regions: Vec<[u64; 3]> =
            made.iter().flat_map(|made| made.regions().map(|region| [region.start, region.size, region.row])).collect();
        let mut lent = [&index[..], &[0xA5]].concat();
        lent[..index.len()].fill(0x5A);
        let filled = sapyullu::region_index_into(sheet, mask, &mut lent).map_err(number);
        let by_words = filled.map(|count| sapyullu::region_in(&lent[..24 * count], gpa));
        let is_left = lent == [&index[..], &[0xA5]].concat();
        let too_few = index.len().checked_sub(1).map(|less| sapyullu::region_index_into(sheet, mask, &mut lent[..less]).map_err(number));
        if [by_sheet, by_index, by_words] != [by_paper; 3] || !is_left || too_few.is_some_and(|few| few != Err(37)) {
            let said = format!("{by_sheet:?}, {by_index:?}, {by_words:?}, with a byte less {too_few:?}");
            return Err(format!(
                "sapyullu of address {gpa:#x}, mask {mask}: {said}, with {lent:?}; document 02 says {by_paper:?}, {index:?}"
            ));
        }
        if !regions.iter().copied().eq(owner::entries(&index)) {
            return Err(format!("sapyullu::RegionIndex of mask {mask} has {regions:x?}; document 02 says {index:?}"));
        }
        Ok(())
    }

    /// The list of a row and its index there.
    fn place(sheet: &[u8], row: u64) -> Option<Place> {
        let count = |list: usize| u64::from(u16::from_le_bytes([sheet[8 + 2 * list], sheet[9 + 2 * list]]));
        let (platforms, regions) = (count(0), count(0) + count(1));
        let (list, before) = match row.checked_sub(1)? {
            index if index < platforms => (List::Platform, 0),
            index if index < regions => (List::Initialization, platforms),
            _ => (List::Directive, regions),
        };
        Some(Place { list, index: (row - 1 - before) as usize })
    }

    /// The regions word for word, the page table, and of each region the checks at a base, an address and over a range of bases. Gives 1, for one list.
    pub fn same_list(random: &mut Random, sheet: &[u8], mask: u32, found: &Relocated) -> Result<u64, String> {
        let list = sapyullu::relocations(sheet, mask).map_err(|refusal| format!("sapyullu::relocations, mask {mask}: {refusal}"))?;
        let regions: Vec<[u64; 8]> = list.regions.iter().map(|region| Relocated::words(&made::relocatable_region(region))).collect();
        let by_rust: Vec<[u64; 8]> = found.regions.iter().map(Relocated::words).collect();
        let of_table = |t: PageTableRegion| [t.gpa, t.size, t.used_size, u64::from(t.vp_index), made::vtl(t.vtl) as u64];
        let page_table = list.page_table.map(of_table);
        if regions != by_rust || page_table != found.page_table {
            let said = (by_rust, found.page_table);
            return Err(format!("sapyullu::relocations, mask {mask}: {regions:?}, {page_table:?}; the Rust says {said:?}"));
        }
        for (number, (region, other)) in list.regions.iter().zip(&found.regions).enumerate() {
            let what = same_region(random, (sheet, mask, number as u64), region, other);
            let what = what.and_then(|()| same_range(random, (sheet, mask, number as u64), other));
            what.map_err(|what| format!("mask {mask}, region {number}: {what}"))?;
        }
        Ok(1)
    }

    /// A base and an address of a region, by its methods and by the functions on the sheet, are what the Rust says; a base whose sum reaches 2^64 is not valid.
    /// Of a base the number is document 02's.
    fn same_region(
        random: &mut Random,
        (sheet, mask, number): (&[u8], u32, u64),
        region: &sapyullu::IgvmRelocatableRegion,
        other: &IgvmRelocatableRegion,
    ) -> Result<(), String> {
        let words = Relocated::words(other);
        let (base, gpa) = (random.pick(&plan::bases(Some(&words))), random.pick(&plan::addresses(Some(&words))));
        let checks = [Ok(region.relocation_base_valid(base)), sapyullu::relocation_base_valid(sheet, mask, number, base)];
        let contained = [Ok(region.contains(gpa)), sapyullu::contains(sheet, mask, number, gpa)];
        let by_rust = (base.checked_add(other.size).is_some_and(|_| other.relocation_base_valid(base)), other.contains(gpa));
        let number = paper::region_base_valid(&words.map(u64::to_le_bytes).concat(), base);
        let same = |check: &Result<BaseCheck, Refusal>| check.as_ref().is_ok_and(|c| c.is_valid() == by_rust.0 && c.number() == number);
        if !checks.iter().all(same) || contained != [Ok(by_rust.1); 2] {
            let said = format!("base {base:#x}: {checks:?}, address {gpa:#x}: {contained:?}");
            return Err(format!("{said}; the Rust says {by_rust:?}, document 02 {number}"));
        }
        Ok(())
    }

    /// A range of bases of a region gets document 02's number and what follows from the Rust's check of each multiple, or is refused by 50.
    fn same_range(random: &mut Random, (sheet, mask, number): (&[u8], u32, u64), other: &IgvmRelocatableRegion) -> Result<(), String> {
        let (lowest, highest) = plan::some_range(random, Some(&Relocated::words(other)));
        let range = sapyullu::relocation_base_range(sheet, mask, number, lowest, highest);
        let by_rust = ranges::by_rust(other, (lowest, highest)).filter(|_| lowest <= highest);
        let by_paper = paper::relocation_base_range(sheet, mask, number, lowest, highest);
        let numbers = match &range {
            Ok(range) => [0, 0, 0, range.number()],
            Err(refusal) => [refusal.error.number(), refusal.row.unwrap_or(0), refusal.detail, 0],
        };
        if numbers != by_paper || by_rust.is_some_and(|answer| answer != numbers[3]) {
            let said = format!("bases from {lowest:#x} to {highest:#x}: {range:?}");
            return Err(format!("{said}; from the Rust's checks follows {by_rust:?}, document 02 says {by_paper:?}"));
        }
        Ok(())
    }
}

/// Without the library these functions can't be called.
#[cfg(not(library))]
mod host {
    use crate::random::Random;
    use oracle::Relocated;

    pub fn same_verdicts(_: &[u8]) -> Result<(), String> {
        Ok(())
    }

    pub fn same_report(_: &[u8]) -> Result<(), String> {
        Ok(())
    }

    pub fn same_list(_: &mut Random, _: &[u8], _: u32, _: &Relocated) -> Result<u64, String> {
        Ok(0)
    }

    pub fn same_owners(_: &mut Random, _: &[u8], _: u32) -> Result<(), String> {
        Ok(())
    }
}
