//! Every sheet of the folder samples gets the answer that its list says, and every refusal is among them.

use sapyullu::*;
use std::collections::BTreeSet;
use std::fs;
use std::path::Path;

const FOLDER: &str = concat!(env!("CARGO_MANIFEST_DIR"), "/../../samples");

/// A line of the list: file, call, answer.
struct Sample {
    file: String,
    call: String,
    answer: String,
}

fn samples() -> Vec<Sample> {
    let list = fs::read_to_string(Path::new(FOLDER).join("README.md")).unwrap();
    let cells = |line: &str| line.split(" | ").map(|cell| cell.trim_matches(['|', ' ', '`']).to_string()).collect::<Vec<_>>();
    let rows = list.lines().filter(|line| line.starts_with("| `")).map(cells);
    rows.map(|mut row| Sample { file: row.remove(0), call: row.remove(0), answer: row.remove(0) }).collect()
}

/// How many rows of how many are faulty, and each fault with its row; 15 and 34 have row 0.
fn reported_line(reported: Reported, words: &[u8]) -> String {
    let numbers = words.chunks_exact(8).map(|word| u64::from_le_bytes(word.try_into().unwrap()));
    let rows = (1..).zip(numbers).filter(|&(_, number)| number != 0).map(|(row, number)| format!(", {number} row {row}"));
    let told = [(15, reported.no_platform), (34, reported.no_context)].into_iter().filter(|&(_, told)| told);
    let told = told.map(|(number, _)| format!(", {number} row 0"));
    format!("reported {} of {}{}", reported.faulty_rows, reported.rows, rows.chain(told).collect::<String>())
}

/// How many regions an index has, and of each its start, its size and its row, in its order.
fn indexed_line(count: usize, words: &[u8]) -> String {
    let numbers: Vec<u64> = words.chunks_exact(8).map(|word| u64::from_le_bytes(word.try_into().unwrap())).collect();
    let regions = numbers.chunks_exact(3).take(count).map(|region| format!(", {} size {} row {}", region[0], region[1], region[2]));
    format!("indexed {count}{}", regions.collect::<String>())
}

impl Sample {
    fn sheet(&self) -> Vec<u8> {
        fs::read(Path::new(FOLDER).join(&self.file)).unwrap()
    }

    /// The call's answer: a line of an accepted verdict, of a report or of an index, for other calls that are answered a line with the number of a check of a base
    /// or of a range, or with the row of an address's owner, or the refusal.
    fn made(&self) -> Result<String, Refusal> {
        let sheet = self.sheet();
        let words: Vec<&str> = self.call.split(' ').collect();
        let number = |word: &str| word.parse::<u64>().unwrap();
        match words[..] {
            ["verdict"] => verdict(&sheet).map(|counts| counts.line()),
            ["strict_verdict"] => strict_verdict(&sheet).map(|counts| counts.line()),
            ["report", "lent", lent] => {
                let mut words = vec![0; number(lent) as usize];
                report_into(&sheet, &mut words).map(|reported| reported_line(reported, &words))
            }
            ["relocations", "mask", mask, "lent", lent] => {
                let mut lent = vec![0; number(lent) as usize];
                relocations_into(&sheet, number(mask) as u32, &mut lent).map(|_| "answered".to_string())
            }
            ["relocation_base_valid", "mask", mask, "region", region, "base", base] => {
                let check = relocation_base_valid(&sheet, number(mask) as u32, number(region), number(base));
                check.map(|check| format!("answered {}", check.number()))
            }
            ["relocation_base_range", "mask", mask, "region", region, "lowest", lowest, "highest", highest] => {
                let range = relocation_base_range(&sheet, number(mask) as u32, number(region), number(lowest), number(highest));
                range.map(|range| format!("answered {}", range.number()))
            }
            ["region_of", "mask", mask, "gpa", gpa] => {
                let (mask, gpa) = (number(mask) as u32, number(gpa));
                let owner = region_of(&sheet, mask, gpa);
                assert_eq!(owner, RegionIndex::new(&sheet, mask).map(|index| index.region_of(gpa)), "{}", self.file);
                owner.map(|row| format!("answered {}", row.unwrap_or(0)))
            }
            ["region_index", "mask", mask, "lent", lent] => {
                let mut words = vec![0; number(lent) as usize];
                region_index_into(&sheet, number(mask) as u32, &mut words).map(|count| indexed_line(count, &words))
            }
            _ => panic!("no such call: {}", self.call),
        }
    }
}

#[test]
fn every_sample_gets_the_answer_of_the_list() {
    for sample in samples() {
        let said = sample.made().unwrap_or_else(|refusal| refusal.line());
        assert_eq!(said, sample.answer, "{}: {}", sample.file, sample.call);
    }
}

#[test]
fn the_list_names_every_file() {
    let listed: BTreeSet<String> = samples().into_iter().map(|sample| sample.file).collect();
    let entries = fs::read_dir(FOLDER).unwrap().map(|entry| entry.unwrap().file_name().into_string().unwrap());
    assert_eq!(listed, entries.filter(|name| name != "README.md").collect());
}

#[test]
fn every_refusal_has_a_sample_and_a_name() {
    let refusals: Vec<Error> = samples().iter().filter_map(|sample| sample.made().err()).map(|refusal| refusal.error).collect();
    let mut numbers: Vec<u64> = refusals.iter().map(|error| error.number()).collect();
    assert!(numbers.windows(2).all(|pair| pair[0] <= pair[1]), "the list has them in order");
    numbers.dedup();
    assert_eq!(numbers, (1..=38).chain([50]).collect::<Vec<_>>());
    let names: BTreeSet<&str> = refusals.iter().map(|error| error.name()).collect();
    assert_eq!(names.len(), 39);
    assert!(!names.contains("Unknown"));
}

#[test]
fn every_other_call_gives_the_verdicts_refusal_of_a_refused_sheet() {
    for sample in samples() {
        let sheet = sample.sheet();
        if let Err(refusal) = verdict(&sheet) {
            assert_eq!(strict_verdict(&sheet), Err(refusal), "{}", sample.file);
            assert_eq!(relocations(&sheet, 0), Err(refusal), "{}", sample.file);
            assert_eq!(relocation_base_valid(&sheet, 1, 9, 0), Err(refusal), "{}", sample.file);
            assert_eq!(relocation_base_range(&sheet, 1, 9, 1, 0), Err(refusal), "{}", sample.file);
            assert_eq!(contains(&sheet, 1, 9, 0), Err(refusal), "{}", sample.file);
            assert_eq!(region_of(&sheet, 0, 0), Err(refusal), "{}", sample.file);
            assert_eq!(region_index_into(&sheet, 0, &mut []), Err(refusal), "{}", sample.file);
        }
    }
}
