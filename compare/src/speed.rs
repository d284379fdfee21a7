//! The time of the calls, of plain.rs and of the Rust, on the same images and in one run. README.md says what is measured.

use crate::generate::TOP;
use crate::memory::Sheet;
use crate::random::Random;
use crate::region::{by_plain, words};
use crate::sheet::{Image, Row};
use crate::short::{native, page_table, region, vbs};
use crate::{loader, owner, paper, plain, ranges, report, strict, trimmed};
use calls::Calls;
use oracle::{Headers, IgvmFile, Relocated};
use std::hint::black_box;
use std::time::{Duration, Instant};

/// What the command line says.
pub struct Settings {
    /// this case alone
    pub only: Option<String>,
    /// this side alone, one call in each round
    pub side: Option<String>,
    pub rounds: u64,
}

impl Settings {
    /// The cases that are measured.
    pub fn cases(&self) -> Result<Vec<Case>, String> {
        let mut cases = Vec::new();
        each_case(&mut |name, make| {
            if self.only.as_ref().is_none_or(|only| *only == name) {
                cases.push(make(name));
            }
        });
        if cases.is_empty() {
            return Err("no such case".into());
        }
        Ok(cases)
    }
}

/// Who answers, and from what.
#[derive(Clone, Copy, PartialEq, Eq)]
pub enum Side {
    /// the call, from the sheet's bytes
    Library,
    /// plain Rust, from the sheet's bytes
    Plain,
    /// `IgvmFile::new` on headers that stand ready
    Ready,
    /// the same, with the decoding of the sheet's bytes before it
    Bytes,
    /// `relocations` on a file that stands ready
    Alone,
    /// the library's verdict on the same bytes, one number
    Verdict,
    /// the library's check of a base by the same sheet
    Base,
    /// plain Rust by binary search, on regions that stand ready
    Search,
}
use Side::{Alone, Base, Bytes, Library, Plain, Ready, Search, Verdict};

const SIDES: [(&str, Side); 8] = [
    ("library", Library),
    ("plain", Plain),
    ("rust", Ready),
    ("bytes", Bytes),
    ("alone", Alone),
    ("verdict", Verdict),
    ("base", Base),
    ("search", Search),
];

/// The columns of a line behind the case's name.
const COLUMNS: [&str; 18] = [
    "rows",
    "bytes",
    "library",
    "per row",
    "plain",
    "ratio",
    "rust",
    "ratio",
    "from bytes",
    "ratio",
    "alone",
    "ratio",
    "verdict",
    "ratio",
    "base",
    "ratio",
    "search",
    "ratio",
];

/// What is asked of an image.
#[derive(Clone, Copy, PartialEq, Eq)]
pub enum Question {
    /// the verdict, which accepts
    Accepted,
    /// the verdict, which refuses with this number
    Refused(u64),
    /// all numbers of the verdict, which accepts
    Numbers,
    /// the regions of mask 1 of an accepted image
    Relocations,
    /// what a loader does with the headers, by crate sapyullu
    Loader,
    /// the sheet of an accepted image without every second directive row, by crate sapyullu
    Trimmed,
    /// the base check by the words of the one region, at bases from this one on
    Bases(u64),
    /// the base check by the sheet, of the last region, at the highest base that is valid
    Check,
    /// the check by the sheet of a range of bases, of the last region, from 1 to that base
    Range,
    /// the strict verdict, where the verdict accepts: it accepts too, or refuses the last region by 38
    Strict(u64),
    /// the report, where the verdict accepts, or refuses with this number
    Report(u64),
    /// the region by the sheet of the highest address that one of mask 1 has
    Owner,
    /// the index of mask 1
    Index,
    /// lookups in that index, of addresses all over
    Lookups,
}
use Question::{Accepted, Bases, Check, Index, Loader, Lookups, Numbers, Owner, Range, Refused, Relocations, Report, Strict, Trimmed};

/// How many bases are checked at a time, since a check is as short as what it takes to measure one.
const BASES: u64 = 64;

/// How many addresses are looked up at a time: more than the processor can learn the answers of. Of 4,096 it learns those among 8 regions.
const ADDRESSES: u64 = 65_536;

/// An image, and what is asked of it.
pub struct Case {
    pub name: String,
    pub sheet: Sheet,
    headers: Headers,
    /// the words of the first region of mask 1, if there is one
    region: [u8; 64],
    pub question: Question,
    /// the number of the last region of mask 1, and the highest base of it that is valid
    pub last: (u64, u64),
    /// the index of mask 1
    pub index: Vec<u8>,
    /// the same as numbers
    regions: Vec<[u64; 3]>,
    /// addresses that are looked up in it, of regions and of none, in no order
    addresses: Vec<u64>,
    /// what `by_paper` gives
    pub answer: u64,
}

pub fn run(calls: &Calls, settings: &Settings) -> Result<(), String> {
    let wanted = |name: &str| settings.side.as_ref().is_none_or(|side| side == name);
    let sides: Vec<Side> = SIDES.iter().filter(|(name, _)| wanted(name)).map(|(_, side)| *side).collect();
    if sides.is_empty() {
        return Err("no such side".into());
    }
    println!("nanoseconds of a call, the best of {} rounds; a ratio is the library's time to the one before it", settings.rounds);
    println!("{:<24}{}", "case", COLUMNS.map(|column| format!("{column:>11}")).concat());
    for case in settings.cases()? {
        case.check();
        let times = if settings.side.is_some() { 1 } else { case.times() };
        println!("{}", case.line(&case.best(calls, &sides, settings.rounds, times)));
    }
    Ok(())
}

/// The name of each case.
pub fn names() -> Result<(), String> {
    each_case(&mut |name, _| println!("{name}"));
    Ok(())
}

// ---- measuring

/// One call. It is a function of its own so that callgrind can count its instructions alone.
#[inline(never)]
fn measured<I, O>(input: I, each: &mut impl FnMut(I) -> O) -> O {
    each(input)
}

/// The time of all calls. What they return is dropped behind the measured part.
pub fn time<I, O>(inputs: Vec<I>, mut each: impl FnMut(I) -> O) -> Duration {
    let mut outputs = Vec::with_capacity(inputs.len());
    let start = Instant::now();
    outputs.extend(inputs.into_iter().map(|input| black_box(measured(input, &mut each))));
    start.elapsed()
}

/// The Rust's verdict. Where it refuses, it drops the headers itself.
fn new_file(headers: Headers) -> Result<IgvmFile, oracle::Error> {
    IgvmFile::new(headers.revision, headers.platforms, headers.initializations, headers.directives)
}

impl Case {
    fn new(name: String, image: &Image, question: Question) -> Case {
        let sheet = Sheet::of(&image.bytes());
        let headers = Headers::decode(&sheet).expect("a readable image");
        let mut regions = [0; 64 * 64];
        let count = paper::relocations(&sheet, 1, &mut regions)[3] as usize;
        let region = |number: usize| -> [u8; 64] { std::array::from_fn(|at| regions[64 * number + at]) };
        let last = count.saturating_sub(1);
        let [_, size, alignment, _, maximum, ..] = words(&region(last)).expect("a region's bytes");
        let top = maximum.saturating_sub(size);
        let last = (last as u64, top - top.checked_rem(alignment).unwrap_or(0));
        let index = owner::index(&paper::CALLS, &sheet, 1);
        let regions: Vec<[u64; 3]> = owner::entries(&index).collect();
        let mut case = Case { name, sheet, headers, region: region(0), question, last, index, regions, addresses: vec![], answer: 0 };
        if question == Lookups {
            let (mut random, end) = (Random::new(9, 1), case.highest_address() + 0x2000);
            case.addresses = (0..ADDRESSES).map(|_| random.next() % end).collect();
        }
        case.answer = case.by_paper();
        case
    }

    /// What the call returns, by document 01, or the sum of what all lookups do.
    fn by_paper(&self) -> u64 {
        let sheet = &self.sheet[..];
        match self.question {
            Refused(number) | Strict(number) => number,
            Check => paper::relocation_base_valid(sheet, 1, self.last.0, self.last.1)[3],
            Range => paper::relocation_base_range(sheet, 1, self.last.0, 1, self.last.1)[3],
            Report(_) => paper::report(sheet, &mut vec![0; 8 * report::rows(sheet)])[6],
            Owner => paper::region_of(sheet, 1, self.highest_address())[3],
            Index => self.regions.len() as u64,
            Lookups => self.sum_of_rows(|gpa| paper::region_of(sheet, 1, gpa)[3]),
            Accepted | Numbers | Relocations | Loader | Trimmed | Bases(_) => 0,
        }
    }

    /// The highest address that a region of mask 1 has.
    pub fn highest_address(&self) -> u64 {
        self.regions.last().map_or(0, |[start, size, _]| start + size - 1)
    }

    /// Document 01 and the Rust accept the image, or refuse it, as the question says; and the strict verdict does. Of a report's rows none is faulty, or half of those
    /// behind the platform.
    fn check(&self) {
        assert_eq!(paper::verdict(&self.sheet)[0], self.number(), "{}: document 01", self.name);
        let judged = self.headers.verdict().expect("no panic");
        assert_eq!(judged.numbers[0], self.number(), "{}: the Rust", self.name);
        if let Strict(number) = self.question {
            let last = (self.headers.platforms.len() + self.headers.initializations.len()) as u64;
            let row = if number == 0 { 0 } else { last };
            assert_eq!(paper::strict_verdict(&self.sheet)[..2], [number, row], "{}: document 02", self.name);
        }
        if let Report(number) = self.question {
            let faulty = if number == 0 { 0 } else { self.headers.directives.len() as u64 / 2 };
            assert_eq!(self.answer, faulty, "{}: faulty rows", self.name);
        }
        if let Some(load) = loader::BY_LIBRARY.filter(|_| self.question == Loader) {
            let hold = load(&self.headers).0;
            assert_eq!((hold, loader::by_rust(self.headers.clone()).0), (63, 63), "{}: both checks hold for each region", self.name);
        }
        if let Some(trim) = trimmed::HALF.filter(|_| self.question == Trimmed) {
            let [.., directives] = paper::verdict(&trim(&self.sheet));
            assert_eq!(
                directives,
                self.headers.directives.len().div_ceil(2) as u64,
                "{}: accepted, with half of the directive rows",
                self.name
            );
        }
    }

    /// How many calls are measured at a time, or how often all bases are checked or all addresses looked up.
    pub fn times(&self) -> usize {
        if self.question == Lookups {
            return 1;
        }
        (2048 / self.headers.kinds.len()).clamp(1, 64)
    }

    /// Nanoseconds of a call, of the check of one base or of one lookup, where so many took this long.
    pub fn nanoseconds(&self, took: Duration, times: usize) -> f64 {
        took.as_nanos() as f64 / times as f64 / self.at_a_time() as f64
    }

    /// How many calls are measured as one.
    fn at_a_time(&self) -> u64 {
        match self.question {
            Bases(_) => BASES,
            Lookups => ADDRESSES,
            _ => 1,
        }
    }

    /// The digits of nanoseconds behind the point.
    pub fn digits(&self) -> usize {
        if self.is_by_words() {
            2
        } else {
            0
        }
    }

    /// It is asked of words and not of a sheet.
    pub fn is_by_words(&self) -> bool {
        self.at_a_time() > 1
    }

    pub fn has_bases(&self) -> bool {
        matches!(self.question, Bases(_))
    }

    /// The number of the verdict's refusal, 0 where there is none.
    pub fn number(&self) -> u64 {
        match self.question {
            Refused(number) | Report(number) => number,
            _ => 0,
        }
    }

    /// The rows of all addresses by this lookup, summed up. A lookup begins when the one before it has answered, as a check of a base does.
    fn sum_of_rows(&self, lookup: impl Fn(u64) -> u64) -> u64 {
        let none = black_box(0);
        let one_more = |(sum, row): (u64, u64), gpa: &u64| {
            let row = lookup(gpa + (row & none));
            (sum + row, row)
        };
        self.addresses.iter().fold((0, 0), one_more).0
    }

    /// All lookups, so many times, after once that is not measured.
    pub fn look_up(&self, lookup: impl Fn(u64) -> u64, times: usize) -> Duration {
        assert_eq!(self.sum_of_rows(&lookup), self.answer, "{}: rows", self.name);
        time(vec![(); times], |()| assert_eq!(self.sum_of_rows(&lookup), self.answer))
    }

    /// How many of the bases are valid by this check, which answers 1 for them. A check begins when the one before it has answered: else the processor divides
    /// for several at once.
    fn valid_bases(&self, check: impl Fn(&[u8], u64) -> u64) -> u64 {
        let Bases(first) = self.question else { unreachable!("no bases are checked") };
        let (first, none, region) = (black_box(first), black_box(0), black_box(&self.region[..]));
        let one_more = |(count, answer): (u64, u64), base: u64| {
            let answer = check(region, first + 0x1000 * base + (answer & none));
            (count + u64::from(answer == 1), answer)
        };
        (0..BASES).fold((0, 0), one_more).0
    }

    /// `relocations` alone and the verdict for one number are no sides of that verdict, plain Rust has no region list, a loader starts from
    /// headers, and bases are checked by a region's words. The Rust has no check of a range, no strict verdict, no report and no region of an address, and beside a
    /// range stands the check of a base. Beside the report on an image with faulty rows the verdict, which ends at the first of them, does not stand.
    pub fn has(&self, side: Side) -> bool {
        let is_of_rust = !matches!(self.question, Range | Strict(_) | Report(_) | Owner | Index | Lookups | Trimmed);
        match side {
            Alone => self.question == Relocations,
            Verdict => matches!(self.question, Numbers | Relocations | Check | Range | Strict(_) | Report(0) | Owner | Index | Trimmed),
            Base => self.question == Range,
            Search => self.question == Lookups,
            Plain => !matches!(self.question, Relocations | Loader | Check | Trimmed),
            Bytes => is_of_rust && !matches!(self.question, Loader | Bases(_)),
            Ready => is_of_rust,
            Library => true,
        }
    }

    fn ask(&self, calls: &Calls, question: Question, lent: &mut [u8]) -> u64 {
        let sheet = black_box(&self.sheet[..]);
        match black_box(question) {
            Relocations => (calls.relocations)(sheet, 1, lent, 0),
            Numbers => (calls.verdict_numbers)(sheet, &mut lent[..48]),
            Accepted | Refused(_) => (calls.verdict)(sheet, 0),
            Check => (calls.relocation_base_valid)(sheet, 1, self.last.0, self.last.1, 3),
            Range => (calls.relocation_base_range)(sheet, 1, self.last.0, 1, self.last.1, 3),
            Strict(_) => (calls.strict_verdict)(sheet, 0),
            Report(_) => (calls.report)(sheet, lent, 6),
            Owner => (calls.region_of)(sheet, 1, self.highest_address(), 3),
            Index => (calls.region_index)(sheet, 1, lent, 3),
            Loader | Trimmed | Bases(_) | Lookups => unreachable!("no call, or more than one"),
        }
    }

    /// So many calls that ask this and give this answer, after one that is not measured.
    fn asked(&self, calls: &Calls, question: Question, answer: u64, times: usize) -> Duration {
        let mut lent = self.to_lend();
        self.ask(calls, question, &mut lent);
        time(vec![(); times], |()| assert_eq!(self.ask(calls, question, &mut lent), answer))
    }

    /// Bytes to lend: words for 64 regions, and for a report one for each row.
    pub fn to_lend(&self) -> Vec<u8> {
        vec![0; (64 * 64).max(8 * self.headers.kinds.len())]
    }

    /// The verdict by plain Rust, or the strict one.
    fn plain(&self, verdict: fn(&[u8]) -> Result<[u64; 3], paper::Refusal>) -> Result<[u64; 3], paper::Refusal> {
        let answer = verdict(black_box(&self.sheet[..]));
        assert_eq!(answer.as_ref().map_or_else(|refusal| refusal.0, |_| 0), self.answer);
        answer
    }

    /// What the call returns, by plain Rust, where it is no verdict.
    fn plain_number(&self, lent: &mut [u8]) -> u64 {
        let sheet = black_box(&self.sheet[..]);
        match self.question {
            Range => ranges::by_plain(sheet, 1, self.last.0, (1, self.last.1))[3],
            Report(_) => report::by_plain(sheet, lent)[6],
            Owner => owner::by_plain(sheet, 1, self.highest_address())[3],
            Index => owner::index_by_plain(sheet, 1, lent)[3],
            _ => unreachable!("plain Rust has a verdict, or no answer by the sheet"),
        }
    }

    /// The Rust's answer. The file is returned too, so that it is dropped later.
    fn rust(&self, headers: Headers) -> impl Sized {
        let file = new_file(headers);
        let asks = matches!(self.question, Relocations | Check);
        let found = file.as_ref().ok().filter(|_| asks).map(|file| file.relocations(1));
        if self.question == Check {
            let regions = found.as_ref().and_then(|found| found.0.as_ref()).expect("regions");
            assert!(regions[self.last.0 as usize].relocation_base_valid(self.last.1));
        }
        (file, found)
    }

    /// So many calls. Copies of the headers are made before they are measured.
    /// A call on the sheet's bytes is made once before: the copies of the headers have just been made too, so that all sides find what they read in the cache.
    fn round(&self, calls: &Calls, side: Side, times: usize) -> Duration {
        match side {
            Library if self.question == Loader => self.load(times),
            Library if self.question == Trimmed => self.trim(times),
            Library if self.has_bases() => self.check_bases(calls.region_base_valid, times),
            Library if self.question == Lookups => self.look_up(|gpa| (calls.region_in)(black_box(&self.index), gpa), times),
            Library => self.asked(calls, self.question, self.answer, times),
            Verdict => self.asked(calls, Accepted, self.number(), times),
            Base => self.asked(calls, Check, 1, times),
            Plain | Ready | Bytes | Alone | Search => self.peer(side, times),
        }
    }

    /// So many loadings by crate sapyullu.
    fn load(&self, times: usize) -> Duration {
        let load = loader::BY_LIBRARY.expect("the library");
        load(&self.headers);
        time(vec![(); times], |()| load(black_box(&self.headers)))
    }

    /// So many sheets without every second directive row by crate sapyullu.
    fn trim(&self, times: usize) -> Duration {
        let trim = trimmed::HALF.expect("the library");
        trim(&self.sheet);
        time(vec![(); times], |()| trim(black_box(&self.sheet)))
    }

    /// So many calls of a side that is not the library.
    pub fn peer(&self, side: Side, times: usize) -> Duration {
        match side {
            Plain if self.has_bases() => self.check_bases(by_plain, times),
            Ready if self.has_bases() => {
                let region = words(&self.region).and_then(Relocated::region).expect("a region of the Rust");
                self.check_bases(|_, base| u64::from(black_box(&region).relocation_base_valid(base)), times)
            }
            Plain if self.question == Lookups => self.look_up(|gpa| owner::by_scan(black_box(&self.regions).iter().copied(), gpa), times),
            Search => self.look_up(|gpa| owner::by_search(black_box(&self.regions), gpa), times),
            Plain if matches!(self.question, Range | Report(_) | Owner | Index) => {
                let mut lent = self.to_lend();
                self.plain_number(&mut lent);
                time(vec![(); times], |()| assert_eq!(self.plain_number(&mut lent), self.answer))
            }
            Plain => {
                let verdict = if let Strict(_) = self.question { strict::by_plain } else { plain::verdict };
                let _ = self.plain(verdict);
                time(vec![(); times], |()| self.plain(verdict))
            }
            Ready if self.question == Loader => time(vec![self.headers.clone(); times], loader::by_rust),
            Ready => time(vec![self.headers.clone(); times], |headers| self.rust(headers)),
            Bytes => time(vec![(); times], |()| self.rust(Headers::decode(black_box(&self.sheet)).expect("a readable image"))),
            Alone => {
                let file = new_file(self.headers.clone()).expect("an accepted image");
                time(vec![(); times], |()| file.relocations(black_box(1)))
            }
            Library | Verdict | Base => unreachable!("the library has a call of its own"),
        }
    }

    /// All bases by this check, so many times, after once that is not measured. As many must be valid as document 01 says. Of the others the check may say why
    /// they are not, or 0: the Rust and an older build do.
    pub fn check_bases(&self, check: impl Fn(&[u8], u64) -> u64, times: usize) -> Duration {
        let count = self.valid_bases(paper::region_base_valid);
        assert_eq!(self.valid_bases(&check), count, "{}: valid bases", self.name);
        time(vec![(); times], |()| assert_eq!(self.valid_bases(&check), count))
    }

    /// The least time of a call of each side, in nanoseconds. The sides take turns.
    fn best(&self, calls: &Calls, sides: &[Side], rounds: u64, times: usize) -> Vec<(Side, f64)> {
        let sides = sides.iter().filter(|&&side| self.has(side));
        let mut best: Vec<(Side, f64)> = sides.map(|&side| (side, f64::INFINITY)).collect();
        for _ in 0..rounds {
            for (side, least) in &mut best {
                *least = least.min(self.nanoseconds(self.round(calls, *side, times), times));
            }
        }
        best
    }

    fn line(&self, best: &[(Side, f64)]) -> String {
        let rows = Some(self.headers.kinds.len() as f64).filter(|_| !self.is_by_words());
        let bytes = match self.question {
            Bases(_) => self.region.len(),
            Lookups => self.index.len(),
            _ => self.sheet.len(),
        };
        let of = |side: Side| best.iter().find(|(other, _)| *other == side).map(|(_, least)| *least);
        let column = |number: Option<f64>, digits: usize| number.map_or(format!("{:>11}", "-"), |n| format!("{n:>11.digits$}"));
        let mut line = format!("{:<24}{}{bytes:>11}", self.name, column(rows, 0));
        line += &(column(of(Library), self.digits()) + &column(of(Library).zip(rows).map(|(least, rows)| least / rows), 1));
        for side in [Plain, Ready, Bytes, Alone, Verdict, Base, Search] {
            let ratio = of(Library).zip(of(side)).map(|(library, other)| library / other);
            line += &(column(of(side), self.digits()) + &column(ratio, 2));
        }
        line
    }
}

// ---- the images

/// The rows of images that grow.
const ROWS: [u64; 8] = [64, 128, 256, 512, 1024, 2048, 4096, 8192];

/// The directive rows up to which the library has a small table of areas, and the most that a sheet may have.
const MOST: [u64; 2] = [1024, 8192];

/// Gives each case's name, and what makes the case of its name: an image of many rows takes long to make.
fn each_case(each: &mut dyn FnMut(String, &dyn Fn(String) -> Case)) {
    let mut add = |name: String, question: Question, image: &dyn Fn() -> Image| each(name, &|name| Case::new(name, &image(), question));
    add("b".into(), Accepted, &b);
    add("largest".into(), Accepted, &|| largest(1024));
    add("largest-8192".into(), Accepted, &|| largest(8192));
    for rows in [8, 16, 32, 64] {
        add(format!("initializations-{rows}"), Accepted, &|| initializations(rows));
    }
    add("table-64".into(), Accepted, &|| with_table(64));
    add("table-first-64".into(), Accepted, &|| table_first(64));
    add("descending-64".into(), Accepted, &|| descending(64, 1));
    add("bits-64".into(), Accepted, &|| descending(64, 0xFFFF_FFFF));
    add("random-64".into(), Accepted, &|| in_no_order(64));
    add("pairs-64".into(), Accepted, &|| two_masks(64, |_| 0));
    add("halves-64".into(), Accepted, &|| two_masks(64, |row| row % 2));
    for rows in ROWS {
        add(format!("pages-{rows}"), Accepted, &|| pages(rows, 0));
        add(format!("full-pages-{rows}"), Accepted, &|| pages(rows, 4096));
        add(format!("areas-{rows}"), Accepted, &|| areas(rows, 1));
        add(format!("spread-areas-{rows}"), Accepted, &|| areas(rows, SPREAD));
        add(format!("last-area-{rows}"), Accepted, &|| last_area(rows));
        add(format!("first-area-{rows}"), Accepted, &|| first_area(rows));
        add(format!("one-area-{rows}"), Accepted, &|| one_area(rows));
        add(format!("triples-{rows}"), Accepted, &|| triples(rows));
    }
    for rows in MOST {
        add(format!("many-areas-{rows}"), Accepted, &|| many_areas(rows));
        add(format!("crowded-areas-{rows}"), Accepted, &|| areas(rows, 340_573_321));
        add(format!("contexts-{rows}"), Accepted, &|| contexts(rows));
    }
    add("refused-64".into(), Refused(29), &|| last_overlaps(64));
    for rows in MOST {
        add(format!("refused-pages-{rows}"), Refused(30), &|| last_page_of_no_type(rows));
        add(format!("refused-areas-{rows}"), Refused(32), &|| last_use_of_no_area(rows));
    }
    for rows in [8, 16, 32, 64] {
        add(format!("relocations-{rows}"), Relocations, &|| initializations(rows));
    }
    add("relocations-table-64".into(), Relocations, &|| with_table(64));
    add("numbers-64".into(), Numbers, &|| initializations(64));
    if loader::BY_LIBRARY.is_some() {
        add("loader-64".into(), Loader, &|| with_table(64));
        for rows in MOST {
            add(format!("trimmed-pages-{rows}"), Trimmed, &|| pages(rows, 0));
            add(format!("trimmed-full-pages-{rows}"), Trimmed, &|| pages(rows, 4096));
        }
    }
    add("relocations-b".into(), Relocations, &b);
    add("numbers-b".into(), Numbers, &b);
    add("check-b".into(), Check, &b);
    add("check-64".into(), Check, &|| initializations(64));
    add("range-b".into(), Range, &b);
    add("range-64".into(), Range, &|| initializations(64));
    add("range-0x3000".into(), Range, &|| aligned(64, 0x3000));
    add("strict-b".into(), Strict(0), &b);
    add("strict-64".into(), Strict(0), &|| initializations(64));
    add("strict-table-64".into(), Strict(0), &|| with_table(64));
    add("strict-bits-64".into(), Strict(0), &|| context_for_each_bit(64));
    add("strict-pages-1024".into(), Strict(0), &|| pages(1024, 0));
    add("strict-refused-64".into(), Strict(38), &|| last_lacks_bit(64));
    add("report-b".into(), Report(0), &b);
    add("report-64".into(), Report(0), &|| initializations(64));
    add("report-pages".into(), Report(0), &|| pages(1024, 0));
    add("report-areas".into(), Report(0), &|| areas(1024, SPREAD));
    add("report-8192".into(), Report(0), &|| areas(8192, SPREAD));
    for rows in [1024, 2048, 4096, 8192] {
        add(format!("report-half-{rows}"), Report(32), &|| half_faulty(rows));
    }
    add("region-of-64".into(), Owner, &|| initializations(64));
    add("region-of-random-64".into(), Owner, &|| in_no_order(64));
    add("region-index-64".into(), Index, &|| initializations(64));
    add("region-index-random-64".into(), Index, &|| in_no_order(64));
    for rows in [8, 64] {
        add(format!("region-in-{rows}"), Lookups, &|| apart(rows));
    }
    for alignment in [0x1000, 0x20_0000, 0x4000_0000, 1 << 57, 0x3000, 0x5000, 0x60_0000] {
        add(format!("aligned-{}", named(alignment)), Accepted, &|| aligned(64, alignment));
    }
    for (name, first) in [("base", 0), ("base-high", 1 << 40)] {
        for alignment in [0x1000, 0x20_0000, 1 << 63, 0x3000, 0x5000] {
            add(format!("{name}-{}", named(alignment)), Bases(first), &|| aligned(1, alignment));
        }
    }
}

/// An alignment in hexadecimal digits, or as a power of two where it is one of 2^32 or more.
fn named(alignment: u64) -> String {
    if alignment.is_power_of_two() && alignment >= 1 << 32 {
        format!("2^{}", alignment.ilog2())
    } else {
        format!("{alignment:#x}")
    }
}

fn image(initializations: Vec<Row>, directives: Vec<Row>) -> Image {
    Image::new(0, [vec![native()], initializations, directives])
}

/// Image B of document 01.
fn b() -> Image {
    image(vec![Row::new(18, &[1, 0x1000, 0x100000, 0x2000, 0, 0x200000, 0, 0, 0])], vec![vbs(0, 1, 0)])
}

/// Regions of mask 1 side by side, and a context.
fn initializations(rows: u64) -> Image {
    image((0..rows).map(|row| region(1, 0x2000 * row, 0x2000)).collect(), vec![vbs(0, 1, 0)])
}

/// Regions of mask 1, a page each, at the first multiples of an alignment, the highest of which is their maximum, and a context.
fn aligned(rows: u64, alignment: u64) -> Image {
    let region = |row: u64| Row::new(18, &[1, alignment, row * alignment, 0x1000, 0, TOP / alignment * alignment, 0, 0, 0]);
    image((0..rows).map(region).collect(), vec![vbs(0, 1, 0)])
}

/// The last region is a page table.
fn with_table(rows: u64) -> Image {
    let mut image = initializations(rows - 1);
    image.lists[1].push(page_table(1, 0x2000 * rows, 0x2000));
    image
}

/// The first one is.
fn table_first(rows: u64) -> Image {
    let mut image = with_table(rows);
    image.lists[1].rotate_right(1);
    image
}

/// Regions of this mask side by side, the highest first, then a page table above them, and a context.
fn descending(rows: u64, mask: u64) -> Image {
    let mut initializations: Vec<Row> = (0..rows - 1).rev().map(|row| region(mask, 0x2000 * row, 0x2000)).collect();
    initializations.push(page_table(mask, 0x2000 * rows, 0x2000));
    image(initializations, vec![vbs(0, mask, 0)])
}

/// Regions side by side, in an order of addresses that neither rises nor falls, and a context.
fn in_no_order(rows: u64) -> Image {
    let mut image = initializations(rows);
    Random::new(9, 0).shuffle(&mut image.lists[1]);
    image
}

/// Regions of mask 1 and of mask 2 over one another, ascending in pairs, those of a lower part before the others.
fn two_masks(rows: u64, part: impl Fn(&u64) -> u64) -> Image {
    let mut order: Vec<u64> = (0..rows).collect();
    order.sort_by_key(part);
    let regions = order.into_iter().map(|row| region(1 + row % 2, 0x2000 * (row / 2), 0x2000)).collect();
    image(regions, vec![vbs(0, 1, 0), vbs(0, 2, 0)])
}

/// Regions of mask 1 in the same sort of order, with as much room before, between and behind them as they take.
fn apart(rows: u64) -> Image {
    let mut image = in_no_order(rows);
    for row in &mut image.lists[1] {
        let gpa = row.get("gpa").expect("a region");
        row.set("gpa", 2 * gpa + 0x2000);
    }
    image
}

/// The same with all 32 bits, and a context for each of them.
fn context_for_each_bit(rows: u64) -> Image {
    let mut image = descending(rows, 0xFFFF_FFFF);
    image.lists[2] = (0..32).map(|place| vbs(0, 1 << place, 0)).collect();
    image
}

/// The last region has a bit without a context.
fn last_lacks_bit(rows: u64) -> Image {
    let mut image = initializations(rows);
    image.lists[1].last_mut().unwrap().set("mask", 3);
    image
}

/// The last region overlaps the first.
fn last_overlaps(rows: u64) -> Image {
    let mut image = initializations(rows);
    image.lists[1].last_mut().unwrap().set("gpa", 0x1000);
    image
}

/// Pages of so many bytes.
fn pages(rows: u64, bytes: usize) -> Image {
    image(vec![], (0..rows).map(|row| Row::new(32, &[0x1000 * row, 1, 0, 0]).with_tail(&vec![7; bytes])).collect())
}

fn last_page_of_no_type(rows: u64) -> Image {
    let mut image = pages(rows, 0);
    image.lists[2].last_mut().unwrap().set("type", 4);
    image
}

/// Rows of kinds 44, 45, 46, 47, 51 and 52 in turn.
fn contexts(rows: u64) -> Image {
    let row = |row: u64| match row % 6 {
        0 => Row::new(44, &[0x1000 * row, 1, 0x1000, 0]),
        1 => Row::new(45, &[0x1000 * row, 1, 0]),
        2 => Row::new(46, &[1, 0]),
        3 => vbs(0, 1, 0),
        4 => Row::new(51, &[0x1000 * row, 1, 0x1000]),
        _ => Row::new(52, &[1]),
    };
    image(vec![], (0..rows).map(row).collect())
}

/// As many rows of the first two lists as can be accepted, the six platform types of X64 and 64 regions; of directives so many, a context and pages.
fn largest(directives: u64) -> Image {
    let mut image = initializations(64);
    image.lists[0] = (0..6).map(|kind| Row::new(1, &[1 << kind, 0, kind, 1, 0])).collect();
    image.lists[2].append(&mut pages(directives - 1, 0).lists[2]);
    image
}

/// Spreads indexes over 32 bits.
const SPREAD: u64 = 0x9E37_79B1;

/// A quarter of the rows are areas, then each is used twice, then each is inserted. Area n has the index n times `step`.
fn areas(rows: u64, step: u64) -> Image {
    let index = |area: u64| (area * step) & 0xFFFF_FFFF;
    let count = rows / 4;
    let allocated = (0..count).map(|area| Row::new(33, &[0x1000, index(area)]));
    let used = (0..2 * count).map(|use_| Row::new(34 + (use_ % 10) as u32, &[index(use_ % count), 0]));
    let inserted = (0..count).map(|area| Row::new(50, &[0x1000 * area, 1, index(area)]));
    image(vec![], allocated.chain(used).chain(inserted).collect())
}

/// An area, a use of one that is not there, a use of one that is, and an area allocated again, in turn, so that half of the rows are faulty. Their indexes are spread
/// over 32 bits, and a row names an area of any row before it.
pub fn half_faulty(rows: u64) -> Image {
    let index = |area: u64| (area * SPREAD) & 0xFFFF_FFFF;
    let row = |row: u64| {
        let (area, earlier) = (row / 4, row * 7 % (row / 4 + 1));
        match row % 4 {
            0 => Row::new(33, &[0x1000, index(area)]),
            1 => Row::new(34, &[index(rows + area), 0]),
            2 => Row::new(34, &[index(earlier), 0]),
            _ => Row::new(33, &[0x1000, index(earlier)]),
        }
    };
    image(vec![], (0..rows).map(row).collect())
}

/// Each row allocates an area; their indexes are spread over 32 bits.
fn many_areas(rows: u64) -> Image {
    image(vec![], (0..rows).map(|row| Row::new(33, &[0x1000, (row * SPREAD) & 0xFFFF_FFFF])).collect())
}

/// One area less than half of the rows, then uses of one of them: `used` gives its index from their number.
fn half_areas(rows: u64, used: fn(u64) -> u64) -> Image {
    let count = rows / 2 - 1;
    let allocated = (0..count).map(|area| Row::new(33, &[0x1000, area]));
    image(vec![], allocated.chain((count..rows).map(|_| Row::new(34, &[used(count), 0]))).collect())
}

fn last_area(rows: u64) -> Image {
    half_areas(rows, |count| count - 1)
}

fn first_area(rows: u64) -> Image {
    half_areas(rows, |_| 0)
}

/// One area, then uses of it.
fn one_area(rows: u64) -> Image {
    image(vec![], (0..rows).map(|row| if row == 0 { Row::new(33, &[0x1000, 0]) } else { Row::new(34, &[0, 0]) }).collect())
}

/// Area, use and insert in turn, of area 0, then of area 1, and so on.
fn triples(rows: u64) -> Image {
    let row = |row: u64| match row % 3 {
        0 => Row::new(33, &[0x1000, row / 3]),
        1 => Row::new(34, &[row / 3, 0]),
        _ => Row::new(50, &[0x1000 * row, 1, row / 3]),
    };
    image(vec![], (0..rows).map(row).collect())
}

/// The last row is a use of an area that is not there.
fn last_use_of_no_area(rows: u64) -> Image {
    let mut image = areas(rows, 1);
    *image.lists[2].last_mut().unwrap() = Row::new(34, &[rows, 0]);
    image
}
