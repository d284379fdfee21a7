//! The comparison must catch each wrong copy of paper.rs.

use crate::compare::Difference;
use crate::run::{random_cases, Run, Sort};
use crate::{owner, region};
use calls::Calls;

/// Random regions' bytes, and bytes of an index, that a wrong copy is asked of.
const REGIONS: u64 = 20_000;

/// Random sheets that it is asked of before the short ones, which are more.
const FIRST: u64 = 10_000;

/// Sheets of several faulty rows that it is asked of before the short ones.
const FAULTY: u64 = 10_000;

/// Large sheets that it is asked of before the short ones.
const LARGE: u64 = 20;

/// The first difference, in regions' bytes, those of an index, random sheets, those of several faulty rows, large ones or the short ones, and where it was found.
pub fn first_difference(calls: &Calls, seed: u64, cases: u64) -> Option<(String, Difference)> {
    if let (counts, Some(difference)) = region::any_bytes(calls, seed, REGIONS) {
        return Some((format!("region check {}", counts.checks), difference));
    }
    if let (lookups, Some(difference)) = owner::any_bytes(calls, seed, REGIONS) {
        return Some((format!("lookup {}", lookups.made + 1), difference));
    }
    in_random_sheets(calls, Sort::Any, seed, 0, cases.min(FIRST))
        .or_else(|| in_random_sheets(calls, Sort::Faulty, seed, 0, cases.min(FAULTY)))
        .or_else(|| in_random_sheets(calls, Sort::Large, seed, 0, LARGE))
        .or_else(|| in_short_sheets(calls, seed))
        .or_else(|| in_random_sheets(calls, Sort::Any, seed, FIRST, cases))
}

fn in_random_sheets(calls: &Calls, sort: Sort, seed: u64, from: u64, to: u64) -> Option<(String, Difference)> {
    let (case, difference) = random_cases(calls, sort, seed, from, 1, to).1?;
    Some((format!("{} sheet {case}", sort.name()), difference))
}

fn in_short_sheets(calls: &Calls, seed: u64) -> Option<(String, Difference)> {
    let mut run = Run::new(calls);
    let difference = run.short_sheets(seed).err()?;
    Some((format!("short sheet {}", run.tally.cases), difference))
}
