//! Stored sheets, sheets for other programs, and single sheets.

use crate::compare::{check, Call, Extent, Rust};
use crate::library::LIBRARY;
use crate::random::Random;
use crate::sheet::hex;
use crate::{faulty, generate, large, line, owner, paper, plain, plan, report, strict};
use calls::Calls;
use std::fs;
use std::path::Path;

/// A folder of sheets, and beside it a list FOLDER.txt with a line `name: line` for each. All queries are compared too.
pub fn replay(calls: &Calls, folder: &str) -> Result<(), String> {
    let list = fs::read_to_string(format!("{folder}.txt")).map_err(|e| format!("{folder}.txt: {e}"))?;
    let (mut count, mut with_rust) = (0, 0);
    for entry in list.lines() {
        let (name, expected) = entry.split_once(": ").ok_or(format!("{folder}.txt: {entry}"))?;
        let sheet = fs::read(Path::new(folder).join(name)).map_err(|e| format!("{name}: {e}"))?;
        for (who, calls) in [("the calls say", calls), ("document 01 in Rust says", &paper::CALLS)] {
            let said = line(calls, Call::Verdict, &sheet);
            if said != expected {
                return Err(format!("sample {name}: {expected}; {who} {said}"));
            }
        }
        let rust = Rust::of(&sheet);
        with_rust += u64::from(rust.judged.is_some());
        let reports = report::calls(&sheet, paper::verdict(&sheet)[0], Extent::All);
        for call in [vec![Call::Verdict, Call::StrictVerdict], reports, plan::all(&sheet)].concat() {
            check(calls, &sheet, &rust, call, Extent::All).map_err(|d| format!("sample {name}: {:?}: {}", d.call, d.what))?;
        }
        count += 1;
    }
    println!("samples: {count} agree, {with_rust} of them with the Rust too");
    Ok(())
}

/// Random sheets in hexadecimal digits, each with its line by the verdict, by the strict one and by the report, and with the call and its line for an address and
/// for an index, for a comparison outside this program; one sheet of several faulty rows for four others, and one large one for 500.
pub fn emit(seed: u64, cases: u64) -> Result<(), String> {
    let sheets = (0..cases).map(|case| generate::sheet(&mut Random::new(seed, case)));
    let faulty = (0..cases / 4).map(|case| faulty::sheet(&mut Random::new(seed, case)));
    let large = (0..cases / 500).map(|case| large::sheet(&mut Random::new(seed, case)));
    for (case, sheet) in (0..).zip(sheets.chain(faulty).chain(large)) {
        let [verdict, strict] = [Call::Verdict, Call::StrictVerdict].map(|call| line(&paper::CALLS, call, &sheet));
        println!("{} {verdict}; {strict}; {}; {}", hex(&sheet), report_line(&sheet), owner_lines(&mut Random::new(seed, case), &sheet));
    }
    Ok(())
}

/// The lines of an address and of the index of a mask by document 01, each behind its call.
fn owner_lines(random: &mut Random, sheet: &[u8]) -> String {
    let (mask, gpa) = (random.pick(&plan::masks(sheet)), random.pick(&plan::region_addresses(sheet)));
    let refused = |[number, row, detail, _]: [u64; 4]| format!("refused {number} row {row} detail {detail}");
    let answered = match paper::region_of(sheet, mask, gpa) {
        [0, .., row] => format!("answered {row}"),
        numbers => refused(numbers),
    };
    let mut lent = [0; owner::INDEX];
    let indexed = match paper::region_index(sheet, mask, &mut lent) {
        [0, .., count] => {
            let region = |[start, size, row]: [u64; 3]| format!(", {start} size {size} row {row}");
            format!("indexed {count}{}", owner::entries(&lent).take(count as usize).map(region).collect::<String>())
        }
        numbers => refused(numbers),
    };
    format!("region_of mask {mask} gpa {gpa}: {answered}; region_index mask {mask}: {indexed}")
}

/// The line of a report by document 01: how many rows are faulty and of how many, the number and the row of each, and 15 and 34 with row 0 where they are told.
fn report_line(sheet: &[u8]) -> String {
    let mut lent = vec![0; 8 * report::rows(sheet)];
    let [number, row, detail, no_platform, no_context, rows, faulty] = paper::report(sheet, &mut lent);
    if number != 0 {
        return format!("refused {number} row {row} detail {detail}");
    }
    let words = report::words(&lent, lent.len()).into_iter().zip(1..).filter(|(word, _)| *word != 0);
    let told = [(no_platform, 15), (no_context, 34)].into_iter().filter(|(told, _)| *told == 1).map(|(_, number)| (number, 0));
    let faults: String = words.chain(told).map(|(number, row)| format!(", {number} row {row}")).collect();
    format!("reported {faulty} of {rows}{faults}")
}

/// What each says of one sheet.
pub fn one(digits: &str) -> Result<(), String> {
    let digit = |at: usize| digits.get(at..at + 2).and_then(|two| u8::from_str_radix(two, 16).ok());
    let sheet: Option<Vec<u8>> = (0..digits.len()).step_by(2).map(digit).collect();
    let sheet = sheet.ok_or("not hexadecimal digits, two for a byte")?;
    let by_plain = [plain::verdict(&sheet), strict::by_plain(&sheet)].map(plain::numbers);
    for ((verdict, call), by_plain) in [("", Call::Verdict), (", strict", Call::StrictVerdict)].into_iter().zip(by_plain) {
        println!("document 01{verdict}: {}", line(&paper::CALLS, call, &sheet));
        println!("plain Rust{verdict}: {by_plain:?}");
        if let Some(library) = LIBRARY {
            println!("library{verdict}: {}", line(&library, call, &sheet));
        }
    }
    let mut lent = vec![0; 8 * report::rows(&sheet)];
    let mut reports = vec![("document 01", paper::report(&sheet, &mut lent), report::words(&lent, lent.len()))];
    reports.push(("plain Rust", report::by_plain(&sheet, &mut lent), report::words(&lent, lent.len())));
    if let Some(library) = LIBRARY {
        let numbers = [0, 1, 2, 3, 4, 5, 6].map(|which| (library.report)(&sheet, &mut lent, which));
        reports.push(("library", numbers, report::words(&lent, lent.len())));
    }
    reports.iter().for_each(|(who, numbers, words)| println!("{who}, report: {numbers:?} {words:?}"));
    let Some(headers) = oracle::Headers::decode(&sheet) else {
        println!("the Rust: no headers");
        return Ok(());
    };
    let domain = if headers.in_domain() { "" } else { ", not on its domain" };
    match headers.verdict() {
        Ok(judged) => println!("the Rust{domain}: {:?}", judged.numbers),
        Err(message) => println!("the Rust{domain}: panicked: {message}"),
    }
    Ok(())
}
