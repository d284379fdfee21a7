//! Compares the calls of the library with the Rust of crate igvm 0.5.0 and with document 01. README.md says how to run it.

mod adapter;
mod alignments;
mod bases;
mod caught;
mod columns;
mod compare;
mod faulty;
mod generate;
mod large;
mod library;
mod loader;
mod memory;
mod order;
mod owner;
mod paper;
mod places;
mod plain;
mod plan;
mod random;
mod ranges;
mod record;
mod region;
mod report;
mod run;
mod samples;
mod sheet;
mod short;
mod shrink;
mod speed;
mod strict;
mod tally;
mod trimmed;
mod trimming;

use calls::Calls;
use columns::Columns;
use compare::{Between, Call, Difference};
use std::time::Instant;
use tally::Tally;

/// What the command line says.
struct Options {
    part: String,
    cases: u64,
    seed: u64,
    threads: usize,
    backend: String,
    check: bool,
    speed: speed::Settings,
    rest: Vec<String>,
}

const USAGE: &str = "compare [PART] [--cases N] [--seed N] [--threads N] [--backend library|paper] [FILE..]
parts: all (samples, short, random, faulty, large, regions, adapter, order, trimmed, wrong) or one of these, with the samples' folder; speed; against FOLDER; emit; one HEX; record [--check] FOLDER";

fn options() -> Result<Options, String> {
    let mut options = Options {
        part: "all".into(),
        cases: 5_000_000,
        seed: 1,
        threads: 1,
        backend: "library".into(),
        check: false,
        speed: speed::Settings { only: None, side: None, rounds: 300 },
        rest: Vec::new(),
    };
    let mut words = std::env::args().skip(1);
    let mut positional = Vec::new();
    while let Some(word) = words.next() {
        let mut value = || words.next().ok_or(format!("{word} needs a value"));
        let number = |text: String| text.replace('_', "").parse::<u64>().map_err(|e| format!("{text}: {e}"));
        match word.as_str() {
            "--cases" => options.cases = number(value()?)?,
            "--seed" => options.seed = number(value()?)?,
            "--threads" => options.threads = number(value()?)?.max(1) as usize,
            "--backend" => options.backend = value()?,
            "--check" => options.check = true,
            "--only" => options.speed.only = Some(value()?),
            "--side" => options.speed.side = Some(value()?),
            "--rounds" => options.speed.rounds = number(value()?)?,
            _ if word.starts_with('-') => return Err(format!("{word}?\n{USAGE}")),
            _ => positional.push(word),
        }
    }
    if !positional.is_empty() {
        options.part = positional.remove(0);
    }
    options.rest = positional;
    Ok(options)
}

fn backend(name: &str) -> Result<Calls, String> {
    match name {
        "library" => library::LIBRARY.ok_or("built without libigvm.a: see IGVM_LIB in README.md, or give --backend paper".into()),
        "paper" => Ok(paper::CALLS),
        _ => Err(format!("no backend {name}\n{USAGE}")),
    }
}

fn main() {
    oracle::silence_panics();
    if let Err(message) = options().and_then(|options| part(&options)) {
        println!("{message}\nFAILED");
        std::process::exit(1);
    }
}

fn part(o: &Options) -> Result<(), String> {
    match o.part.as_str() {
        "emit" => return samples::emit(o.seed, o.cases),
        "one" => return samples::one(o.rest.first().ok_or(USAGE)?),
        "speed" if o.rest.first().is_some_and(|word| word == "names") => return speed::names(),
        "against" => return places::run(o.rest.first().ok_or(USAGE)?, &o.speed),
        "record" => return record::run(o.seed, o.rest.first().ok_or(USAGE)?, o.check),
        _ => {}
    }
    let calls = backend(&o.backend)?;
    print!("the Rust, cut from\n{}", oracle::ORIGIN);
    println!("compared: {}", o.backend);
    match o.part.as_str() {
        "samples" => samples::replay(&calls, o.rest.first().ok_or(USAGE)?),
        "short" => short_sheets(&calls, o).map(|tally| tally.print()),
        "random" => random_sheets(&calls, o).map(|tally| tally.print()),
        "faulty" => faulty_sheets(&calls, o).map(|tally| tally.print()),
        "large" => large_sheets(&calls, o).map(|tally| tally.print()),
        "regions" => region_bytes(&calls, o),
        "adapter" => adapter::run(&calls, o.seed, o.cases, o.threads),
        "order" => order::run(&calls, o.seed, o.cases, o.threads),
        "trimmed" => trimmed::run(&calls, o.seed, o.cases, o.threads),
        "wrong" => wrong_copies(o),
        "speed" => return speed::run(&calls, &o.speed),
        "all" => all(&calls, o),
        _ => Err(USAGE.into()),
    }?;
    println!("PASSED");
    Ok(())
}

fn all(calls: &Calls, o: &Options) -> Result<(), String> {
    if let Some(folder) = o.rest.first() {
        samples::replay(calls, folder)?;
    }
    let mut tally = short_sheets(calls, o)?;
    every_answer("short", &tally)?;
    every_report("short", &tally)?;
    let random = random_sheets(calls, o)?;
    if o.cases >= ENOUGH {
        every_answer("random", &random)?;
    }
    tally.add(&random);
    let faulty = faulty_sheets(calls, o)?;
    if o.cases >= ENOUGH {
        every_report("faulty", &faulty)?;
    }
    tally.add(&faulty);
    tally.add(&large_sheets(calls, o)?);
    tally.print();
    every_refusal(&tally)?;
    region_bytes(calls, o)?;
    adapter::run(calls, o.seed, o.cases / 5, o.threads)?;
    order::run(calls, o.seed, o.cases / 20, o.threads)?;
    trimmed::run(calls, o.seed, (o.cases / 20).max(TRIMMED), o.threads)?;
    wrong_copies(o)
}

/// The fewest images to be trimmed: among so many is all that must be met.
const TRIMMED: u64 = 5000;

/// Every refusal was met, and every one of the Rust's domain in a comparison with the Rust.
fn every_refusal(tally: &Tally) -> Result<(), String> {
    let (missing, missing_with_rust) = (tally.missing(), tally.missing_with_rust());
    if !missing.is_empty() || !missing_with_rust.is_empty() {
        return Err(format!("refusals that were not met: {missing:?}, with the Rust: {missing_with_rust:?}"));
    }
    println!("every refusal from 1 to 38 and 50 was met, and every one of the Rust's domain with the Rust");
    Ok(())
}

/// Random sheets among which every answer for each sort of alignments must be, each combination of what is wrong with a base, each sort of ranges,
/// each sort of strict verdicts, and each of addresses and indexes.
const ENOUGH: u64 = 100_000;

/// Every answer for each sort of alignments was met, every answer and each combination of faults of a base, every answer and each sort of ranges, of
/// addresses and of indexes, and of strict verdicts each sort and every refusal.
fn every_answer(sort: &str, tally: &Tally) -> Result<(), String> {
    let (alignments, bases, ranges) = (tally.alignments.missing(), tally.bases.missing(), tally.ranges.missing());
    let (strict, owners, refusals) = (tally.strict.missing(), tally.owners.missing(), tally.missing_strict());
    if !alignments.is_empty() || [&bases, &ranges, &strict, &owners].iter().any(|missing| !missing.is_empty()) || !refusals.is_empty() {
        let missing = format!("of alignments these were not met: {alignments:?}, of bases: {bases:?}, of ranges: {ranges:?}");
        let missing = format!("{missing}, of addresses and indexes: {owners:?}");
        return Err(format!("{sort} sheets: {missing}, of strict verdicts: {strict:?}, and refusals {refusals:?}"));
    }
    println!("{sort} sheets: every answer for each sort of alignments was met, every answer and combination of faults of a base,");
    println!("  every answer and sort of a range, of an address and of an index, and every sort and refusal of a strict verdict");
    Ok(())
}

/// Every sort of report was met, every refusal by it, and every refusal of a row at a first faulty row, at a later one, and with the Rust.
fn every_report(sort: &str, tally: &Tally) -> Result<(), String> {
    let (reports, [refusals, first, later, by_rust]) = (tally.reports.missing(), tally.missing_words());
    if !reports.is_empty() || [&refusals, &first, &later, &by_rust].iter().any(|missing| !missing.is_empty()) {
        let missing = format!("of reports these were not met: {reports:?}, refusals {refusals:?}");
        return Err(format!("{sort} sheets: {missing}, first words {first:?}, later words {later:?}, with the Rust {by_rust:?}"));
    }
    println!(
        "{sort} sheets: every sort and refusal of a report was met, and every refusal of a row at a first faulty row and at a later one"
    );
    Ok(())
}

fn difference_text(calls: &Calls, place: &str, difference: Difference) -> String {
    let smallest = shrink::smallest(calls, difference.clone());
    format!("DIFFERENCE in {place}\n{}\nsmallest:\n{}", shrink::text(&difference), shrink::text(&smallest))
}

fn short_sheets(calls: &Calls, o: &Options) -> Result<Tally, String> {
    let start = Instant::now();
    let mut run = run::Run::new(calls);
    if let Err(difference) = run.short_sheets(o.seed) {
        return Err(difference_text(calls, &format!("short sheet {}", run.tally.cases), difference));
    }
    println!("short sheets: {} agree, {:.1?}", run.tally.cases, start.elapsed());
    Ok(run.tally)
}

fn random_sheets(calls: &Calls, o: &Options) -> Result<Tally, String> {
    sheets_of(calls, o, run::Sort::Any, o.cases)
}

/// One sheet of several faulty rows for so many others.
const FAULTY_SHARE: u64 = 4;

fn faulty_sheets(calls: &Calls, o: &Options) -> Result<Tally, String> {
    sheets_of(calls, o, run::Sort::Faulty, o.cases / FAULTY_SHARE)
}

/// One large sheet for so many others: it takes some 300 times as long.
const LARGE_SHARE: u64 = 1000;

/// Large sheets, but no fewer than 100. Of those with many areas some must be accepted and some refused by 32, and some reports must have many faulty rows.
fn large_sheets(calls: &Calls, o: &Options) -> Result<Tally, String> {
    let tally = sheets_of(calls, o, run::Sort::Large, (o.cases / LARGE_SHARE).max(100))?;
    if tally.areas_verdicts[0] == 0 || tally.areas_verdicts[32] == 0 {
        return Err("large sheets with many areas: none was accepted, or none refused by 32".into());
    }
    if tally.later_words[32] < tally.cases {
        return Err("large sheets: fewer faulty rows by 32 than sheets".into());
    }
    Ok(tally)
}

/// So many random sheets of a sort.
fn sheets_of(calls: &Calls, o: &Options, sort: run::Sort, cases: u64) -> Result<Tally, String> {
    let start = Instant::now();
    let (tally, found) = run::random_threads(calls, sort, o.seed, o.threads, cases);
    let name = sort.name();
    if let Some((case, difference)) = found {
        return Err(difference_text(calls, &format!("{name} sheet {case} of seed {}", o.seed), difference));
    }
    println!("{name} sheets: {} agree, seed {}, {:.1?}", tally.cases, o.seed, start.elapsed());
    Ok(tally)
}

fn region_bytes(calls: &Calls, o: &Options) -> Result<(), String> {
    let start = Instant::now();
    let (counts, found) = region::any_bytes(calls, o.seed, o.cases);
    if let Some(difference) = found {
        return Err(difference_text(calls, &format!("region check {} of seed {}", counts.checks, o.seed), difference));
    }
    println!("region checks on any bytes agree: {}; {:.1?}", counts.seen()?, start.elapsed());
    let (lookups, found) = owner::any_bytes(calls, o.seed, o.cases);
    if let Some(difference) = found {
        return Err(difference_text(calls, &format!("lookup {} of seed {}", lookups.made + 1, o.seed), difference));
    }
    println!("lookups in any bytes agree: {}; {:.1?}", lookups.seen()?, start.elapsed());
    Ok(())
}

/// Every wrong copy is caught, of paper.rs and of the rule of trimmed images.
fn wrong_copies(o: &Options) -> Result<(), String> {
    let start = Instant::now();
    let of_thread = |thread: u64| {
        let copies = wrong::WRONG.iter().skip(thread as usize).step_by(o.threads);
        copies.map(|copy| (copy.0, caught_copy(copy, o))).collect()
    };
    let by_thread: Vec<Vec<_>> = run::on_threads(o.threads, of_thread);
    let of_paper = (0..wrong::WRONG.len()).map(|copy| by_thread[copy % o.threads][copy / o.threads].clone());
    let of_rule = trimming::WRONG.iter().map(|copy| (copy.0, trimmed::caught(copy, o.seed)));
    let mut missed = Vec::new();
    for (name, line) in of_paper.chain(of_rule) {
        match line {
            Some(line) => println!("{line}"),
            None => missed.push(name),
        }
    }
    let count = wrong::WRONG.len() + trimming::WRONG.len();
    println!("{count} wrong copies, {} not caught, {:.1?}", missed.len(), start.elapsed());
    if missed.is_empty() {
        return Ok(());
    }
    Err(format!("wrong copies that were not caught: {missed:?}"))
}

/// By what a wrong copy is caught, if it is.
fn caught_copy((name, what, calls): &(&str, &str, Calls), o: &Options) -> Option<String> {
    let (place, difference) = caught::first_difference(calls, o.seed, o.cases.min(200_000))?;
    let smallest = shrink::smallest(calls, difference);
    let by = match smallest.between {
        Between::Rust => "the Rust",
        Between::Paper => "document 01",
        Between::Calls => "the calls themselves",
        Between::Plain => return None,
    };
    Some(format!("caught {name} ({what}): {place}, by {by}; {} bytes, {:?}", smallest.sheet.len(), smallest.call))
}

/// The line that `admit` writes of a verdict, and the same of the strict one.
fn line(calls: &Calls, verdict: Call, sheet: &[u8]) -> String {
    let [number, row, detail, p, i, d] = [0, 1, 2, 3, 4, 5].map(|which| verdict.ask(calls, sheet, &mut [], which));
    match number {
        0 => format!("accepted {p} {i} {d}"),
        _ => format!("refused {number} row {row} detail {detail}"),
    }
}
