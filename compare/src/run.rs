//! Runs over many sheets: the stored samples, the short ones, and random ones.

use crate::columns::Columns;
use crate::compare::{check, Call, Difference, Extent, Rust};
use crate::random::Random;
use crate::tally::Tally;
use crate::{faulty, generate, large, plan, report, short};
use calls::Calls;

/// The comparison of one sheet after another, with its counts.
pub struct Run<'a> {
    pub calls: &'a Calls,
    pub tally: Tally,
}

impl<'a> Run<'a> {
    pub fn new(calls: &'a Calls) -> Self {
        Run { calls, tally: Tally::default() }
    }

    /// The two verdicts and the report, then queries: two of a refused sheet; of an accepted one some, or all once in 256 times if it is not large.
    pub fn sheet(&mut self, random: &mut Random, sheet: &[u8]) -> Result<(), Difference> {
        let rust = Rust::of(sheet);
        let queries = match self.verdict(sheet, &rust, random.next())? {
            0 if random.one_in(256) && !large::is_large(sheet) => plan::all(sheet),
            0 => plan::some(random, sheet),
            _ => plan::two(random),
        };
        self.queries(sheet, &rust, &queries, random.next())
    }

    /// The verdict, the strict verdict and reports on a sheet. Gives the verdict's number.
    pub fn verdict(&mut self, sheet: &[u8], rust: &Rust, case: u64) -> Result<u64, Difference> {
        let number = check(self.calls, sheet, rust, Call::Verdict, Extent::Case(case))?.number;
        let strict = check(self.calls, sheet, rust, Call::StrictVerdict, Extent::Case(case))?;
        self.tally.strict_verdicts[strict.number as usize] += 1;
        self.tally.strict.add(&strict.strict);
        for call in report::calls(sheet, number, Extent::Case(case)) {
            let agreed = check(self.calls, sheet, rust, call, Extent::Case(case))?;
            if let (Call::Report { lent }, Some(answered)) = (call, &agreed.report) {
                self.tally.report(sheet, lent, answered);
            }
        }
        self.count(sheet, rust, number);
        if matches!(number, 0 | 20) {
            self.tally.alignments.verdict(sheet, number, Call::Verdict.ask(self.calls, sheet, &mut [], 1));
        }
        Ok(number)
    }

    /// Queries of the sheet.
    pub fn queries(&mut self, sheet: &[u8], rust: &Rust, queries: &[Call], case: u64) -> Result<(), Difference> {
        for (turn, &query) in (0..).zip(queries) {
            let agreed = check(self.calls, sheet, rust, query, Extent::Case(case.wrapping_add(turn)))?;
            self.tally.queries[agreed.number as usize] += 1;
            self.tally.regions += agreed.regions;
            self.tally.alignments.add(&agreed.alignments);
            self.tally.bases.add(&agreed.bases);
            self.tally.ranges.add(&agreed.ranges);
            self.tally.owners.add(&agreed.owners);
        }
        Ok(())
    }

    /// Every short sheet, up to the first difference.
    pub fn short_sheets(&mut self, seed: u64) -> Result<(), Difference> {
        let mut ended = Ok(());
        short::every(&mut |sheet| {
            ended = self.sheet(&mut Random::new(seed, self.tally.cases), sheet);
            ended.is_ok()
        });
        ended?;
        let mut ended = Ok(());
        short::every_query(&mut |sheet, queries| {
            let (rust, case) = (Rust::of(sheet), self.tally.cases);
            ended = self.verdict(sheet, &rust, case).and_then(|_| self.queries(sheet, &rust, queries, case));
            ended.is_ok()
        });
        ended
    }

    fn count(&mut self, sheet: &[u8], rust: &Rust, number: u64) {
        self.tally.cases += 1;
        self.tally.verdicts[number as usize] += 1;
        if large::is_large(sheet) && !(1..=6).contains(&number) {
            self.tally.large_verdicts[number as usize] += 1;
            self.tally.areas_verdicts[number as usize] += u64::from(large::has_many_areas(sheet));
        }
        if let Some(judged) = &rust.judged {
            self.tally.with_rust += 1;
            self.tally.rust_verdicts[number as usize] += 1;
            self.tally.names_other_kind += u64::from(judged.names_other_kind);
        }
    }
}

/// What random sheets are of.
#[derive(Clone, Copy, PartialEq, Eq)]
pub enum Sort {
    /// images of few rows, but for rare ones
    Any,
    /// the same, several rows of which are faulty
    Faulty,
    /// images of more than 1,024 directive rows
    Large,
}

impl Sort {
    pub fn name(self) -> &'static str {
        match self {
            Sort::Any => "random",
            Sort::Faulty => "faulty",
            Sort::Large => "large",
        }
    }

    fn sheet(self, random: &mut Random) -> Vec<u8> {
        match self {
            Sort::Any => generate::sheet(random),
            Sort::Faulty => faulty::sheet(random),
            Sort::Large => large::sheet(random),
        }
    }
}

/// Random sheets of a sort: cases `from`, `from + step`, .. below `to`. Stops at the first difference.
pub fn random_cases(calls: &Calls, sort: Sort, seed: u64, from: u64, step: usize, to: u64) -> (Tally, Option<(u64, Difference)>) {
    let mut run = Run::new(calls);
    for case in (from..to).step_by(step) {
        let mut random = Random::new(seed, case);
        let sheet = sort.sheet(&mut random);
        if let Err(difference) = run.sheet(&mut random, &sheet) {
            return (run.tally, Some((case, difference)));
        }
    }
    (run.tally, None)
}

/// The work on each of several threads, which are numbered from 0.
pub fn on_threads<T: Send>(threads: usize, work: impl Fn(u64) -> T + Sync) -> Vec<T> {
    let work = &work;
    std::thread::scope(|scope| {
        let started: Vec<_> = (0..threads as u64).map(|thread| scope.spawn(move || work(thread))).collect();
        started.into_iter().map(|thread| thread.join().unwrap()).collect()
    })
}

/// The same on several threads. Gives the difference of the lowest case.
pub fn random_threads(calls: &Calls, sort: Sort, seed: u64, threads: usize, to: u64) -> (Tally, Option<(u64, Difference)>) {
    let results = on_threads(threads, |thread| random_cases(calls, sort, seed, thread, threads, to));
    let mut tally = Tally::default();
    let mut first: Option<(u64, Difference)> = None;
    for (part, difference) in results {
        tally.add(&part);
        if let Some(found) = difference {
            if first.as_ref().is_none_or(|(case, _)| found.0 < *case) {
                first = Some(found);
            }
        }
    }
    (tally, first)
}
