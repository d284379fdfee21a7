//! One sheet, one call, three answers: of the calls under test, of document 01 in Rust, and, on its domain, of the Rust itself.
//! To the two verdicts there is a fourth, of plain.rs, to a report that of report.rs, to a range of bases that of ranges.rs, and to the region of an address
//! that of owner.rs. region.rs has the checks by a region's words.

use crate::alignments::Alignments;
use crate::bases::Bases;
use crate::owner::{self, Owners};
use crate::ranges::{self, Ranges};
use crate::report::Answered;
use crate::strict::{self, Strict};
use crate::{paper, plain, region, report};
use calls::Calls;
use oracle::{Headers, Judged, Relocated};
use std::fmt::{self, Debug, Formatter};

/// A call but for the sheet and `which`. The last three have neither: a region's words, or those of an index, take the sheet's place.
#[derive(Clone, Copy, Debug, PartialEq, Eq)]
pub enum Call {
    Verdict,
    StrictVerdict,
    Report { lent: usize },
    Relocations { mask: u32, lent: usize },
    BaseValid { mask: u32, region: u64, base: u64 },
    Contains { mask: u32, region: u64, gpa: u64 },
    BaseRange { mask: u32, region: u64, lowest: u64, highest: u64 },
    RegionOf { mask: u32, gpa: u64 },
    RegionIndex { mask: u32, lent: usize },
    RegionBaseValid { base: u64 },
    RegionContains { gpa: u64 },
    RegionIn { gpa: u64 },
}

/// How much is asked beside the numbers of an answer, one by one.
#[derive(Clone, Copy)]
pub enum Extent {
    /// every length that is lent for all numbers
    All,
    /// one of those that are long enough and one of those that are not, others for other cases
    Case(u64),
}

impl Extent {
    /// All, or one of them.
    pub fn of<T>(self, all: &[T]) -> &[T] {
        match self {
            Extent::All => all,
            Extent::Case(case) => {
                let at = (case % all.len() as u64) as usize;
                &all[at..=at]
            }
        }
    }

    /// A number that differs from case to case.
    pub fn turn(self) -> u64 {
        match self {
            Extent::All => 0,
            Extent::Case(case) => case,
        }
    }
}

/// The numbers of `which` that are asked for: every answer's, and some past it.
const WHICH: [u32; 15] = [0, 1, 2, 3, 4, 5, 6, 7, 8, 9, 10, 11, 12, 256, u32::MAX];

/// The numbers of an answer, filled up with 0.
type Numbers = [u64; 10];

fn numbers_of(answer: &[u64]) -> Numbers {
    let mut numbers = [0; 10];
    numbers[..answer.len()].copy_from_slice(answer);
    numbers
}

fn at(which: u32, numbers: &Numbers) -> u64 {
    numbers.get(which as usize).copied().unwrap_or(0)
}

/// A number of an answer, as far as the Rust says it.
#[derive(Clone, Copy)]
pub enum Said {
    Number(u64),
    /// whether a base is valid: the Rust does not say why it is not
    Valid(bool),
}

impl Said {
    /// How a number is held to what the Rust says: they are the same, or the number is 1 exactly where the base is valid.
    pub fn is(self, number: u64) -> bool {
        match self {
            Said::Number(said) => said == number,
            Said::Valid(valid) => valid == (number == 1),
        }
    }
}

impl Debug for Said {
    fn fmt(&self, f: &mut Formatter) -> fmt::Result {
        match self {
            Said::Number(number) => write!(f, "{number}"),
            Said::Valid(true) => write!(f, "valid"),
            Said::Valid(false) => write!(f, "not valid"),
        }
    }
}

/// The numbers of the Rust's answer, filled up with 0.
type SaidNumbers = [Said; 10];

fn said_of(answer: &[u64]) -> SaidNumbers {
    numbers_of(answer).map(Said::Number)
}

/// One number, and 0 for the others.
fn said_alone(which: usize, said: Said) -> SaidNumbers {
    let mut numbers = said_of(&[]);
    numbers[which] = said;
    numbers
}

fn said_at(which: u32, numbers: &SaidNumbers) -> Said {
    numbers.get(which as usize).copied().unwrap_or(Said::Number(0))
}

/// What the Rust makes of a sheet.
pub struct Rust {
    pub headers: Option<Headers>,
    /// on the domain of the verdict
    pub judged: Option<Judged>,
    /// on the domain of queries
    queries: bool,
    panicked: Option<String>,
}

impl Rust {
    pub fn of(sheet: &[u8]) -> Rust {
        Rust::of_headers(Headers::decode(sheet))
    }

    pub fn of_headers(headers: Option<Headers>) -> Rust {
        let mut rust = Rust { headers, judged: None, queries: false, panicked: None };
        if let Some(headers) = rust.headers.as_ref().filter(|headers| headers.in_domain()) {
            match headers.verdict() {
                Ok(judged) => rust.judged = Some(judged),
                Err(message) => rust.panicked = Some(message),
            }
            rust.queries = headers.in_query_domain();
        }
        rust
    }

    /// The Rust's regions for a mask, if the file is accepted, on the domain of queries; not for mask 0.
    pub fn relocated(&self, mask: u32) -> Result<Option<Relocated>, String> {
        let file = self.judged.as_ref().and_then(|judged| judged.file.as_ref());
        file.filter(|_| self.queries && mask != 0).map(|file| Relocated::of(file, mask)).transpose()
    }

    /// The Rust's answer, where it has one: not for mask 0, a region's number too high, too few words, or a sum of 2^64 or more. Over a range of
    /// bases it is the one that follows from its check of each multiple: not where the lowest is above the highest, or there are more than are tried.
    /// The strict verdict, the region of an address and an index are its refusal, or what follows from its headers where it accepts them. The report on a sheet
    /// is what it says row by row.
    pub fn answer(&self, sheet: &[u8], call: Call, words: &mut [u8]) -> Result<Option<SaidNumbers>, String> {
        if let Call::Report { .. } = call {
            return Ok(report::by_rust(self, sheet, words)?.map(|numbers| said_of(&numbers)));
        }
        let (Some(judged), Some(headers)) = (&self.judged, &self.headers) else {
            return Ok(None);
        };
        match call {
            Call::Verdict => return Ok(Some(said_of(&judged.numbers))),
            Call::StrictVerdict if judged.file.is_some() => return Ok(Some(said_of(&strict::by_rust(headers, &judged.numbers)))),
            Call::StrictVerdict => return Ok(Some(said_of(&judged.numbers))),
            Call::RegionOf { mask, .. } | Call::RegionIndex { mask, .. } if judged.file.is_some() => {
                return if mask == 0 { Ok(None) } else { by_headers(headers, call, words) };
            }
            Call::RegionOf { .. } | Call::RegionIndex { .. } => return Ok(Some(said_of(&judged.numbers[..3]))),
            _ if !self.queries => return Ok(None),
            _ => {}
        }
        if judged.file.is_none() {
            return Ok(Some(said_of(&judged.numbers[..3])));
        }
        let Some(found) = self.relocated(call.mask())? else {
            return Ok(None);
        };
        Ok(match call {
            Call::Relocations { .. } => region_list(&found, words),
            Call::BaseValid { region, base, .. } => {
                let fits = |r: &&oracle::IgvmRelocatableRegion| base.checked_add(r.size).is_some();
                let region = found.regions.get(region as usize).filter(fits);
                region.map(|r| said_alone(3, Said::Valid(r.relocation_base_valid(base))))
            }
            Call::Contains { region, gpa, .. } => {
                let region = found.regions.get(region as usize);
                region.map(|r| said_alone(3, Said::Number(r.contains(gpa).into())))
            }
            Call::BaseRange { region, lowest, highest, .. } => {
                let region = found.regions.get(region as usize).filter(|_| lowest <= highest);
                region.and_then(|r| ranges::by_rust(r, (lowest, highest))).map(|answer| said_alone(3, Said::Number(answer)))
            }
            _ => None,
        })
    }
}

/// The row of an address, or an index, that follows from headers that the Rust accepts. No index does where too few words are lent.
fn by_headers(headers: &Headers, call: Call, words: &mut [u8]) -> Result<Option<SaidNumbers>, String> {
    let number = match call {
        Call::RegionOf { mask, gpa } => Some(owner::by_rust(headers, mask, gpa)?),
        Call::RegionIndex { mask, .. } => owner::index_by_rust(headers, mask, words),
        _ => None,
    };
    Ok(number.map(|number| said_alone(3, Said::Number(number))))
}

fn region_list(found: &Relocated, words: &mut [u8]) -> Option<SaidNumbers> {
    let all: Vec<u8> = found.regions.iter().flat_map(Relocated::words).flat_map(u64::to_le_bytes).collect();
    words.get_mut(..all.len())?.copy_from_slice(&all);
    let count = found.regions.len() as u64;
    Some(match found.page_table {
        Some([gpa, size, used, vp, vtl]) => said_of(&[0, 0, 0, count, 1, gpa, size, used, vp, vtl]),
        None => said_of(&[0, 0, 0, count]),
    })
}

impl Call {
    pub fn mask(self) -> u32 {
        match self {
            Call::Verdict | Call::StrictVerdict | Call::Report { .. } => 0,
            Call::RegionBaseValid { .. } | Call::RegionContains { .. } | Call::RegionIn { .. } => 0,
            Call::Relocations { mask, .. } | Call::BaseValid { mask, .. } | Call::Contains { mask, .. } => mask,
            Call::BaseRange { mask, .. } | Call::RegionOf { mask, .. } | Call::RegionIndex { mask, .. } => mask,
        }
    }

    fn lent(self) -> usize {
        match self {
            Call::Relocations { lent, .. } | Call::Report { lent } | Call::RegionIndex { lent, .. } => lent,
            _ => 0,
        }
    }

    /// Bytes to lend, as they are before the call.
    pub fn to_lend(self) -> Vec<u8> {
        to_lend(self.lent())
    }

    /// How many numbers its answer has.
    pub fn numbers(self) -> usize {
        match self {
            Call::Verdict | Call::StrictVerdict => 6,
            Call::Report { .. } => 7,
            Call::Relocations { .. } => 10,
            Call::BaseValid { .. } | Call::Contains { .. } | Call::BaseRange { .. } => 4,
            Call::RegionOf { .. } | Call::RegionIndex { .. } => 4,
            Call::RegionBaseValid { .. } | Call::RegionContains { .. } | Call::RegionIn { .. } => 1,
        }
    }

    /// The same check by the region's words.
    pub fn by_words(self) -> Call {
        match self {
            Call::BaseValid { base, .. } => Call::RegionBaseValid { base },
            Call::Contains { gpa, .. } => Call::RegionContains { gpa },
            other => other,
        }
    }

    /// It is answered by words, of a region or of an index, without a sheet: there is no `which` and no sibling.
    pub fn is_by_words(self) -> bool {
        matches!(self, Call::RegionBaseValid { .. } | Call::RegionContains { .. } | Call::RegionIn { .. })
    }

    fn by_paper(self, sheet: &[u8], words: &mut [u8]) -> Numbers {
        match self {
            Call::Verdict => numbers_of(&paper::verdict(sheet)),
            Call::StrictVerdict => numbers_of(&paper::strict_verdict(sheet)),
            Call::Report { .. } => numbers_of(&paper::report(sheet, words)),
            Call::Relocations { mask, .. } => numbers_of(&paper::relocations(sheet, mask, words)),
            Call::BaseValid { mask, region, base } => numbers_of(&paper::relocation_base_valid(sheet, mask, region, base)),
            Call::Contains { mask, region, gpa } => numbers_of(&paper::contains(sheet, mask, region, gpa)),
            Call::BaseRange { mask, region, lowest, highest } => {
                numbers_of(&paper::relocation_base_range(sheet, mask, region, lowest, highest))
            }
            Call::RegionOf { mask, gpa } => numbers_of(&paper::region_of(sheet, mask, gpa)),
            Call::RegionIndex { mask, .. } => numbers_of(&paper::region_index(sheet, mask, words)),
            Call::RegionBaseValid { base } => numbers_of(&[paper::region_base_valid(sheet, base)]),
            Call::RegionContains { gpa } => numbers_of(&[paper::region_contains(sheet, gpa)]),
            Call::RegionIn { gpa } => numbers_of(&[paper::region_in(sheet, gpa)]),
        }
    }

    /// Plain Rust's numbers, where it has any: not of a region list, of the checks of a base and of an address by the sheet.
    fn by_plain(self, sheet: &[u8], words: &mut [u8]) -> Option<Numbers> {
        match self {
            Call::Verdict => Some(numbers_of(&plain::numbers(plain::verdict(sheet)))),
            Call::StrictVerdict => Some(numbers_of(&plain::numbers(strict::by_plain(sheet)))),
            Call::Report { .. } => Some(numbers_of(&report::by_plain(sheet, words))),
            Call::BaseRange { mask, region, lowest, highest } => {
                Some(numbers_of(&ranges::by_plain(sheet, mask, region, (lowest, highest))))
            }
            Call::RegionOf { mask, gpa } => Some(numbers_of(&owner::by_plain(sheet, mask, gpa))),
            Call::RegionIndex { mask, .. } => Some(numbers_of(&owner::index_by_plain(sheet, mask, words))),
            _ => None,
        }
    }

    /// Plain Rust gives document 01's numbers, if it has any, and leaves the same words.
    fn plain_gives(self, sheet: &[u8], (by_paper, paper_words): (&Numbers, &[u8])) -> Result<(), String> {
        let mut words = self.to_lend();
        match self.by_plain(sheet, &mut words) {
            Some(by_plain) if by_plain != *by_paper || words != paper_words => {
                let [by_plain, by_paper] = [&by_plain, by_paper].map(|numbers| &numbers[..self.numbers()]);
                let [words, paper_words] = [&words, paper_words].map(|lent| report::words(lent, lent.len() / 8));
                Err(format!("plain Rust says {by_plain:?}, {words:?}; document 01 says {by_paper:?}, {paper_words:?}"))
            }
            _ => Ok(()),
        }
    }

    pub fn ask(self, calls: &Calls, sheet: &[u8], words: &mut [u8], which: u32) -> u64 {
        match self {
            Call::Verdict => (calls.verdict)(sheet, which),
            Call::StrictVerdict => (calls.strict_verdict)(sheet, which),
            Call::Report { .. } => (calls.report)(sheet, words, which),
            Call::Relocations { mask, .. } => (calls.relocations)(sheet, mask, words, which),
            Call::BaseValid { mask, region, base } => (calls.relocation_base_valid)(sheet, mask, region, base, which),
            Call::Contains { mask, region, gpa } => (calls.contains)(sheet, mask, region, gpa, which),
            Call::BaseRange { mask, region, lowest, highest } => (calls.relocation_base_range)(sheet, mask, region, lowest, highest, which),
            Call::RegionOf { mask, gpa } => (calls.region_of)(sheet, mask, gpa, which),
            Call::RegionIndex { mask, .. } => (calls.region_index)(sheet, mask, words, which),
            Call::RegionBaseValid { base } => (calls.region_base_valid)(sheet, base),
            Call::RegionContains { gpa } => (calls.region_contains)(sheet, gpa),
            Call::RegionIn { gpa } => (calls.region_in)(sheet, gpa),
        }
    }

    /// The sibling, which puts all numbers.
    pub fn ask_all(self, calls: &Calls, sheet: &[u8], words: &mut [u8], numbers: &mut [u8]) -> u64 {
        match self {
            Call::Verdict => (calls.verdict_numbers)(sheet, numbers),
            Call::StrictVerdict => (calls.strict_verdict_numbers)(sheet, numbers),
            Call::Report { .. } => (calls.report_numbers)(sheet, words, numbers),
            Call::Relocations { mask, .. } => (calls.relocations_numbers)(sheet, mask, words, numbers),
            Call::BaseValid { mask, region, base } => (calls.relocation_base_valid_numbers)(sheet, mask, region, base, numbers),
            Call::Contains { mask, region, gpa } => (calls.contains_numbers)(sheet, mask, region, gpa, numbers),
            Call::BaseRange { mask, region, lowest, highest } => {
                (calls.relocation_base_range_numbers)(sheet, mask, region, lowest, highest, numbers)
            }
            Call::RegionOf { mask, gpa } => (calls.region_of_numbers)(sheet, mask, gpa, numbers),
            Call::RegionIndex { mask, .. } => (calls.region_index_numbers)(sheet, mask, words, numbers),
            Call::RegionBaseValid { .. } | Call::RegionContains { .. } | Call::RegionIn { .. } => {
                unreachable!("a call by words has no sibling")
            }
        }
    }

    /// All numbers of a verdict, by the sibling.
    fn verdict_numbers(self, calls: &Calls, sheet: &[u8]) -> strict::Numbers {
        let mut numbers = [0; 48];
        self.ask_all(calls, sheet, &mut [], &mut numbers);
        std::array::from_fn(|which| u64::from_le_bytes(std::array::from_fn(|byte| numbers[8 * which + byte])))
    }
}

/// Bytes to lend, with some on either side that are not lent.
fn fresh(lent: usize) -> Vec<u8> {
    (0..lent + 16).map(|at| (at * 37 + 11) as u8).collect()
}

/// So many bytes to lend, with none on either side.
pub fn to_lend(length: usize) -> Vec<u8> {
    lent_part(&mut fresh(length)).to_vec()
}

fn lent_part(buffer: &mut [u8]) -> &mut [u8] {
    let end = buffer.len() - 8;
    &mut buffer[8..end]
}

/// Who disagrees.
#[derive(Clone, Copy, Debug, PartialEq, Eq)]
pub enum Between {
    /// the Rust, with the calls or about what is readable
    Rust,
    /// the calls and document 01
    Paper,
    /// plain Rust and document 01, or paper.rs's two rules for a range of bases
    Plain,
    /// the verdict and the strict verdict of the calls, or the verdict and the report, or two reports, or what is said of an address by the sheet and by an index
    Calls,
}

/// Two answers that differ.
#[derive(Clone, Debug)]
pub struct Difference {
    pub sheet: Vec<u8>,
    pub call: Call,
    /// who disagrees about what, with both answers
    pub what: String,
    pub between: Between,
}

/// What a comparison has seen: the refusal's number, how many regions were checked by their words too, the alignments and the answers of those
/// checked at a base, the ranges of bases, the strict verdicts, the regions of addresses and the indexes, and a report.
#[derive(Default)]
pub struct Agreed {
    pub number: u64,
    pub regions: u64,
    pub alignments: Alignments,
    pub bases: Bases,
    pub ranges: Ranges,
    pub strict: Strict,
    pub owners: Owners,
    pub report: Option<Answered>,
}

/// The answers to one call, compared: every number, one by one and all at once, every lent byte, and the bytes on either side; and what is said of a region by its words.
pub fn check(calls: &Calls, sheet: &[u8], rust: &Rust, call: Call, extent: Extent) -> Result<Agreed, Difference> {
    if call.is_by_words() {
        return region::check(calls, sheet, call).map(|_| Agreed { regions: 1, ..Agreed::default() });
    }
    let differ = |between: Between, what: String| Difference { sheet: sheet.to_vec(), call, what, between };
    let mut paper_bytes = fresh(call.lent());
    let by_paper = call.by_paper(sheet, lent_part(&mut paper_bytes));
    let mut rust_bytes = fresh(call.lent());
    let by_rust = rust.answer(sheet, call, lent_part(&mut rust_bytes)).map_err(|message| differ(Between::Rust, message))?;
    others_alike(sheet, rust, call, (&by_paper, lent_part(&mut paper_bytes)))?;
    let verdict = || Call::Verdict.verdict_numbers(calls, sheet);
    let together = match call {
        Call::StrictVerdict => strict::goes_with(&verdict(), &call.verdict_numbers(calls, sheet)),
        Call::Report { lent } => report::goes_with(calls, &verdict(), sheet, lent, extent),
        _ => Ok(()),
    };
    together.map_err(|what| differ(Between::Calls, what))?;
    for which in WHICH {
        let mut bytes = fresh(call.lent());
        let answer = call.ask(calls, sheet, lent_part(&mut bytes), which);
        if let Some(numbers) = by_rust {
            let by_rust = said_at(which, &numbers);
            if !by_rust.is(answer) || bytes != rust_bytes {
                let others = ("the Rust", by_rust, &numbers[..], &rust_bytes[..]);
                return Err(differ(Between::Rust, said(which, answer, &bytes, others)));
            }
        }
        if answer != at(which, &by_paper) || bytes != paper_bytes {
            let others = ("document 01", at(which, &by_paper), &by_paper[..], &paper_bytes[..]);
            return Err(differ(Between::Paper, said(which, answer, &bytes, others)));
        }
    }
    all_numbers_alike(calls, sheet, call, (&by_paper, &paper_bytes), extent).map_err(|what| differ(Between::Paper, what))?;
    let mut agreed = Agreed { number: by_paper[0], ..Agreed::default() };
    match (agreed.number, call) {
        (0, _) => region::alike(calls, sheet, rust, call, (by_paper[3], lent_part(&mut paper_bytes)), (extent, &mut agreed))?,
        (number, Call::BaseRange { lowest, highest, .. }) if lowest > highest => agreed.ranges.refused(number),
        _ => {}
    }
    match (call, &rust.headers) {
        (Call::StrictVerdict, Some(headers)) => agreed.strict.met(headers, &by_paper),
        (Call::RegionOf { .. } | Call::RegionIndex { .. }, headers) => {
            agreed.owners.met(headers.as_ref(), call, &by_paper, by_rust.is_some())
        }
        (Call::Report { .. }, _) => {
            let numbers = std::array::from_fn(|which| by_paper[which]);
            let words = report::words(lent_part(&mut paper_bytes), by_paper[5] as usize);
            let asked = rust.headers.as_ref().filter(|_| by_rust.is_some()).map(|headers| headers.rows_in_domain());
            agreed.report = Some(Answered { numbers, words, asked });
        }
        _ => {}
    }
    Ok(agreed)
}

/// The sibling puts all numbers where they have room, fills the same words and gives number 0.
fn all_numbers_alike(calls: &Calls, sheet: &[u8], call: Call, paper: (&Numbers, &[u8]), extent: Extent) -> Result<(), String> {
    let (by_paper, paper_bytes) = (&paper.0[..call.numbers()], paper.1);
    let enough = 8 * by_paper.len();
    let too_few = [0, 1, 7, 8, enough - 8, enough - 1];
    for &lent in extent.of(&too_few).iter().chain(extent.of(&[enough, enough + 1, enough + 8, enough + 21])) {
        let (mut bytes, mut numbers, mut paper_numbers) = (fresh(call.lent()), fresh(lent), fresh(lent));
        let answer = call.ask_all(calls, sheet, lent_part(&mut bytes), lent_part(&mut numbers));
        let number = paper::put(by_paper, lent_part(&mut paper_numbers));
        let differ = |what: String| Err(format!("with {lent} bytes lent for all numbers {what}"));
        if answer != number {
            return differ(format!("the call gives {answer}; document 01 says {number}"));
        }
        for (of, bytes, others) in [("numbers", &numbers, &paper_numbers[..]), ("words", &bytes, paper_bytes)] {
            if bytes != others {
                return differ(other_byte(of, bytes, "document 01", others));
            }
        }
    }
    Ok(())
}

/// An answer that the calls are held to, with the lent bytes afterwards.
pub struct Answer {
    /// from `which` 0 to one past the answer's numbers; the one number of a check by words
    pub numbers: Vec<u64>,
    pub lent: Vec<u8>,
    pub by: By,
}

/// Who gives an answer.
#[derive(Clone, Copy, Debug, PartialEq, Eq)]
pub enum By {
    /// document 01, since the Rust has none
    Paper,
    Rust,
    /// the Rust says that a base is not valid, document 02 why; or the Rust says which multiples of a range are valid, that it accepts the headers, or
    /// which error a row meets, document 02 what follows: the strict verdict, the region of an address and an index from the headers, the report from errors
    RustAnd02,
    /// document 02, and the Rust has no answer
    Only02,
}

impl By {
    pub fn is_rust(self) -> bool {
        matches!(self, By::Rust | By::RustAnd02)
    }

    fn of(call: Call, has_rust: bool, numbers: &Numbers) -> By {
        let is_of_02 = match call {
            Call::BaseValid { .. } => numbers[3] > 1,
            Call::RegionBaseValid { .. } => numbers[0] > 1,
            Call::BaseRange { .. } => matches!(numbers[0], 0 | 50),
            Call::StrictVerdict => matches!(numbers[0], 0 | 38),
            Call::Report { .. } | Call::RegionIndex { .. } => matches!(numbers[0], 0 | 37),
            Call::RegionOf { .. } => numbers[0] == 0,
            Call::RegionIn { .. } => true,
            _ => false,
        };
        match (has_rust, is_of_02) {
            (false, false) => By::Paper,
            (true, false) => By::Rust,
            (true, true) => By::RustAnd02,
            (false, true) => By::Only02,
        }
    }
}

/// The Rust's answer where it has one, which document 01's must agree with, else that of document 01; document 02's is why a base is not valid, the
/// answer over a range of bases, the strict verdict on what the verdict accepts, the region of an address, an index, and the report.
pub fn answer(sheet: &[u8], rust: &Rust, call: Call) -> Result<Answer, Difference> {
    let (mut lent, mut rust_lent) = (call.to_lend(), call.to_lend());
    let by_paper = call.by_paper(sheet, &mut lent);
    let by_rust = match call.is_by_words() {
        true => Ok(region::by_rust(sheet, call).map(|said| said_alone(0, said))),
        false => rust.answer(sheet, call, &mut rust_lent),
    };
    let same = |other: Option<SaidNumbers>| match other {
        Some(said) if !said.iter().zip(by_paper).all(|(said, number)| said.is(number)) || rust_lent != lent => {
            Err(format!("the Rust says {said:?}; document 01 says {by_paper:?}"))
        }
        _ => Ok(other.is_some()),
    };
    let differ = |between: Between| move |what: String| Difference { sheet: sheet.to_vec(), call, what, between };
    let has_rust = by_rust.and_then(same).map_err(differ(Between::Rust))?;
    others_alike(sheet, rust, call, (&by_paper, &lent))?;
    let asked = call.numbers() + usize::from(!call.is_by_words());
    let numbers = (0..asked).map(|which| at(which as u32, &by_paper)).collect();
    Ok(Answer { numbers, lent, by: By::of(call, has_rust, &by_paper) })
}

/// The Rust reads what document 01 does, and plain Rust gives its numbers and words.
fn others_alike(sheet: &[u8], rust: &Rust, call: Call, by_paper: (&Numbers, &[u8])) -> Result<(), Difference> {
    let differ = |between: Between| move |what: String| Difference { sheet: sheet.to_vec(), call, what, between };
    if call == Call::Verdict {
        readable_alike(rust, by_paper.0[0]).map_err(differ(Between::Rust))?;
    }
    call.plain_gives(sheet, by_paper).map_err(differ(Between::Plain))
}

/// The decoder that feeds the Rust takes exactly the sheets that document 01 calls readable, and the Rust does not panic on the domain.
fn readable_alike(rust: &Rust, number: u64) -> Result<(), String> {
    if let Some(message) = &rust.panicked {
        return Err(format!("the Rust panicked: {message}"));
    }
    if rust.headers.is_some() == (1..=6).contains(&number) {
        return Err(format!("document 01 says {number}; decoded for the Rust: {}", rust.headers.is_some()));
    }
    Ok(())
}

/// Plain Rust gives document 01's verdict, strict verdict and report.
pub fn plain_alike(sheet: &[u8]) -> Result<(), String> {
    let report = Call::Report { lent: 8 * report::rows(sheet) };
    [Call::Verdict, Call::StrictVerdict, report].into_iter().try_for_each(|call| {
        let mut words = call.to_lend();
        let by_paper = call.by_paper(sheet, &mut words);
        call.plain_gives(sheet, (&by_paper, &words))
    })
}

/// What differs of a number, or of the bytes. Of the other: who it is, its number, all its numbers, and the bytes that it leaves.
fn said<N: Debug>(which: u32, answer: u64, bytes: &[u8], (other, number, numbers, other_bytes): (&str, N, &[N], &[u8])) -> String {
    let mut text = format!("number {which} is {answer}; {other} says {number:?}");
    if bytes != other_bytes {
        text += &format!("; {}", other_byte("words", bytes, other, other_bytes));
    }
    text + &format!(" (all its numbers: {numbers:?})")
}

/// The first byte, of those lent for words or for numbers and those on either side, that is another afterwards.
fn other_byte(of: &str, bytes: &[u8], other: &str, other_bytes: &[u8]) -> String {
    let place = (0..bytes.len()).find(|&place| bytes[place] != other_bytes[place]).expect("some byte differs");
    let (is, leaves) = (bytes[place], other_bytes[place]);
    format!("byte {} lent for {of} is {is:#04x} afterwards; {other} leaves {leaves:#04x}", place as i64 - 8)
}
