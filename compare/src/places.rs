//! The library beside another build of it, each at four places in memory. README.md says what is measured.

use crate::speed::{time, Case, Question, Settings, Side};
use std::ffi::{c_char, c_int, c_void, CString};
use std::hint::black_box;

/// How many bytes the code is moved by, at each place. A function starts at a multiple of 16, a line of the cache at one of 64.
const PLACES: [u32; 4] = [0, 16, 32, 48];

/// How many depths of the stack the rounds go through, one behind the other: with their frames some 4,096 bytes.
const DEPTHS: u64 = 32;

/// The builds, by the names of their files.
const BUILDS: [&str; 2] = ["other", "library"];

extern "C" {
    fn dlopen(path: *const c_char, flags: c_int) -> *mut c_void;
    fn dlsym(handle: *mut c_void, name: *const c_char) -> *mut c_void;
}

const RTLD_NOW: c_int = 2;

/// The calls that are measured, of one build at one place.
struct Placed {
    verdict: unsafe extern "C" fn(*const u8, usize, u32) -> u64,
    relocations: unsafe extern "C" fn(*const u8, usize, u32, *mut u8, usize, u32) -> u64,
    relocation_base_valid: unsafe extern "C" fn(*const u8, usize, u32, u64, u64, u32) -> u64,
    /// an older build may not have it
    verdict_numbers: Option<unsafe extern "C" fn(*const u8, usize, *mut u8, usize) -> u64>,
    /// nor this
    region_base_valid: Option<unsafe extern "C" fn(*const u8, usize, u64) -> u64>,
    /// nor this
    relocation_base_range: Option<unsafe extern "C" fn(*const u8, usize, u32, u64, u64, u64, u32) -> u64>,
    /// nor this
    strict_verdict: Option<unsafe extern "C" fn(*const u8, usize, u32) -> u64>,
    /// nor this
    report: Option<unsafe extern "C" fn(*const u8, usize, *mut u8, usize, u32) -> u64>,
    /// nor this
    region_of: Option<unsafe extern "C" fn(*const u8, usize, u32, u64, u32) -> u64>,
    /// nor this
    region_index: Option<unsafe extern "C" fn(*const u8, usize, u32, *mut u8, usize, u32) -> u64>,
    /// nor this
    region_in: Option<unsafe extern "C" fn(*const u8, usize, u64) -> u64>,
}

impl Placed {
    fn open(folder: &str, build: &str, place: u32) -> Result<Placed, String> {
        let path = format!("{folder}/{build}-{place}.so");
        let named = |text: &str| CString::new(text).map_err(|e| format!("{text}: {e}"));
        // SAFETY: `compare/run against` has made the file of an archive of the library, whose functions are as include/igvm.h declares them. A pointer that is
        // null is None.
        unsafe {
            let handle = dlopen(named(&path)?.as_ptr(), RTLD_NOW);
            if handle.is_null() {
                return Err(format!("{path} can't be loaded"));
            }
            let verdict = dlsym(handle, c"igvm_verdict".as_ptr());
            let relocations = dlsym(handle, c"igvm_relocations".as_ptr());
            let relocation_base_valid = dlsym(handle, c"igvm_relocation_base_valid".as_ptr());
            if verdict.is_null() || relocations.is_null() || relocation_base_valid.is_null() {
                return Err(format!("{path} does not have the calls"));
            }
            let verdict_numbers = dlsym(handle, c"igvm_verdict_numbers".as_ptr());
            let region_base_valid = dlsym(handle, c"igvm_region_base_valid".as_ptr());
            let relocation_base_range = dlsym(handle, c"igvm_relocation_base_range".as_ptr());
            let strict_verdict = dlsym(handle, c"igvm_strict_verdict".as_ptr());
            let report = dlsym(handle, c"igvm_report".as_ptr());
            let region_of = dlsym(handle, c"igvm_region_of".as_ptr());
            let region_index = dlsym(handle, c"igvm_region_index".as_ptr());
            let region_in = dlsym(handle, c"igvm_region_in".as_ptr());
            Ok(Placed {
                verdict: std::mem::transmute(verdict),
                relocations: std::mem::transmute(relocations),
                relocation_base_valid: std::mem::transmute(relocation_base_valid),
                verdict_numbers: std::mem::transmute(verdict_numbers),
                region_base_valid: std::mem::transmute(region_base_valid),
                relocation_base_range: std::mem::transmute(relocation_base_range),
                strict_verdict: std::mem::transmute(strict_verdict),
                report: std::mem::transmute(report),
                region_of: std::mem::transmute(region_of),
                region_index: std::mem::transmute(region_index),
                region_in: std::mem::transmute(region_in),
            })
        }
    }

    /// It has the call of the case. What a loader does is more than a call.
    fn has(&self, case: &Case) -> bool {
        match case.question {
            Question::Numbers => self.verdict_numbers.is_some(),
            Question::Bases(_) => self.region_base_valid.is_some(),
            Question::Range => self.relocation_base_range.is_some(),
            Question::Strict(_) => self.strict_verdict.is_some(),
            Question::Report(_) => self.report.is_some(),
            Question::Owner => self.region_of.is_some(),
            Question::Index => self.region_index.is_some(),
            Question::Lookups => self.region_in.is_some(),
            Question::Loader | Question::Trimmed => false,
            Question::Accepted | Question::Refused(_) | Question::Relocations | Question::Check => true,
        }
    }

    /// SAFETY: pointers and lengths are those of live slices.
    fn ask(&self, case: &Case, lent: &mut [u8]) -> u64 {
        let (sheet, (region, base)) = (black_box(&case.sheet[..]), case.last);
        match case.question {
            Question::Relocations => unsafe { (self.relocations)(sheet.as_ptr(), sheet.len(), 1, lent.as_mut_ptr(), lent.len(), 0) },
            Question::Numbers => unsafe { self.verdict_numbers.expect("the call")(sheet.as_ptr(), sheet.len(), lent.as_mut_ptr(), 48) },
            Question::Check => unsafe { (self.relocation_base_valid)(sheet.as_ptr(), sheet.len(), 1, region, base, 3) },
            Question::Range => unsafe { self.relocation_base_range.expect("the call")(sheet.as_ptr(), sheet.len(), 1, region, 1, base, 3) },
            Question::Strict(_) => unsafe { self.strict_verdict.expect("the call")(sheet.as_ptr(), sheet.len(), 0) },
            Question::Report(_) => unsafe { self.report.expect("the call")(sheet.as_ptr(), sheet.len(), lent.as_mut_ptr(), lent.len(), 6) },
            Question::Owner => unsafe { self.region_of.expect("the call")(sheet.as_ptr(), sheet.len(), 1, case.highest_address(), 3) },
            Question::Index => unsafe {
                self.region_index.expect("the call")(sheet.as_ptr(), sheet.len(), 1, lent.as_mut_ptr(), lent.len(), 3)
            },
            _ => unsafe { (self.verdict)(sheet.as_ptr(), sheet.len(), 0) },
        }
    }

    /// It answers as the case says. A build of other limits may refuse the image.
    fn answers(&self, case: &Case) -> bool {
        case.is_by_words() || self.ask(case, &mut case.to_lend()) == case.answer
    }

    /// Nanoseconds of a call, after one that is not measured.
    fn nanoseconds(&self, case: &Case, times: usize) -> f64 {
        if let Some(check) = self.region_base_valid.filter(|_| case.has_bases()) {
            let took = case.check_bases(|region, base| unsafe { check(region.as_ptr(), region.len(), base) }, times);
            return case.nanoseconds(took, times);
        }
        if let Some(look_up) = self.region_in.filter(|_| case.is_by_words()) {
            let index = black_box(&case.index[..]);
            return case.nanoseconds(case.look_up(|gpa| unsafe { look_up(index.as_ptr(), index.len(), gpa) }, times), times);
        }
        let mut lent = case.to_lend();
        self.ask(case, &mut lent);
        case.nanoseconds(time(vec![(); times], |()| assert_eq!(self.ask(case, &mut lent), case.answer)), times)
    }
}

/// The work, so many frames down the stack.
#[inline(never)]
fn deeper(depth: u64, work: &mut dyn FnMut()) {
    let frame = black_box([0u64; 8]);
    if depth == 0 {
        work()
    } else {
        deeper(depth - 1, work)
    }
    black_box(&frame);
}

/// Plain Rust and the Rust, beside the builds.
const PEERS: [Side; 2] = [Side::Plain, Side::Ready];

/// The least times of a call, in nanoseconds.
struct Best {
    /// of each build at each place; none where it does not answer as the case says
    builds: Vec<Option<Vec<f64>>>,
    /// of each peer; none where it has no answer
    peers: Vec<Option<f64>>,
}

impl Best {
    /// All take turns.
    fn new(case: &Case, builds: &[Vec<Placed>], rounds: u64) -> Best {
        let places = |build: &Vec<Placed>| build[0].answers(case).then(|| vec![f64::INFINITY; PLACES.len()]);
        let has = |side: &Side| case.has(*side).then_some(f64::INFINITY);
        let mut best = Best { builds: builds.iter().map(places).collect(), peers: PEERS.iter().map(has).collect() };
        let times = case.times();
        for round in 0..rounds {
            deeper(round % DEPTHS, &mut || {
                for place in 0..PLACES.len() {
                    for (least, build) in best.builds.iter_mut().zip(builds) {
                        if let Some(least) = least {
                            least[place] = least[place].min(build[place].nanoseconds(case, times));
                        }
                    }
                }
                for (least, side) in best.peers.iter_mut().zip(PEERS) {
                    *least = least.map(|least| least.min(case.nanoseconds(case.peer(side, times), times)));
                }
            });
        }
        best
    }

    fn line(&self, case: &Case) -> String {
        let (name, digits) = (&case.name, case.digits());
        let mean = |least: &Option<Vec<f64>>| least.as_ref().map(|least| least.iter().sum::<f64>() / least.len() as f64);
        let (other, library) = (mean(&self.builds[0]), mean(&self.builds[1]));
        let column = |number: Option<f64>, width: usize, digits: usize| {
            number.map_or(format!("{:>width$}", "-"), |number| format!("{number:>width$.digits$}"))
        };
        let ratio = |other: Option<f64>| library.zip(other).map(|(library, other)| library / other);
        let mut line = format!("{name:<24}{}{}{}", column(other, 9, digits), column(library, 9, digits), column(ratio(other), 8, 3));
        for &peer in &self.peers {
            line += &(column(peer, 9, digits) + &column(ratio(peer), 8, 2));
        }
        let each = |least: &Option<Vec<f64>>| {
            (0..PLACES.len()).map(|place| column(least.as_ref().map(|least| least[place]), 7, digits)).collect::<String>()
        };
        line + "  " + &self.builds.iter().map(each).collect::<Vec<String>>().join("  ")
    }
}

pub fn run(folder: &str, settings: &Settings) -> Result<(), String> {
    let open = |build: &&str| PLACES.iter().map(|&place| Placed::open(folder, build, place)).collect();
    let builds = BUILDS.iter().map(open).collect::<Result<Vec<Vec<Placed>>, String>>()?;
    println!("nanoseconds of a call, the best of {} rounds; of a build the mean of four places, and each of them", settings.rounds);
    let columns =
        [("other", 9), ("library", 9), ("ratio", 8), ("plain", 9), ("ratio", 8), ("rust", 9), ("ratio", 8), ("other", 30), ("library", 30)];
    println!("{:<24}{}", "case", columns.map(|(column, width)| format!("{column:>width$}")).concat());
    for case in settings.cases()?.iter().filter(|case| builds.iter().flatten().all(|build| build.has(case))) {
        if !builds[1][0].answers(case) {
            return Err(format!("{}: the library answers otherwise", case.name));
        }
        println!("{}", Best::new(case, &builds, settings.rounds).line(case));
    }
    Ok(())
}
