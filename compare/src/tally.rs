//! What a run has compared, counted.

use crate::alignments::Alignments;
use crate::bases::Bases;
use crate::columns::Columns;
use crate::owner::Owners;
use crate::ranges::Ranges;
use crate::report::{self, Answered, Reports};
use crate::strict::Strict;

/// Counts by refusal: 0 for accepted or answered, then the refusals. There is none from 39 to 49.
pub type Histogram = [u64; 51];

/// The numbers that a row's word may be: the refusals of rows.
pub fn row_refusals() -> impl Iterator<Item = usize> {
    (8..15).chain(16..34)
}

/// The refusals of a row that the Rust can't be asked about.
const NOT_OF_THE_RUST: [usize; 3] = [19, 27, 28];

/// The refusals.
pub fn refusals() -> impl Iterator<Item = usize> {
    (1..39).chain([50])
}

#[derive(Clone)]
pub struct Tally {
    /// sheets
    pub cases: u64,
    /// sheets on the Rust's domain
    pub with_rust: u64,
    /// verdicts by document 01's number
    pub verdicts: Histogram,
    /// the same, of the sheets on the Rust's domain
    pub rust_verdicts: Histogram,
    /// the same, of the readable sheets of more than 1,024 directive rows
    pub large_verdicts: Histogram,
    /// the same, of those that allocate more areas than the library's small table has room for
    pub areas_verdicts: Histogram,
    /// strict verdicts by document 02's number
    pub strict_verdicts: Histogram,
    /// queries by number
    pub queries: Histogram,
    /// regions of lists and of checks that were checked by their words too
    pub regions: u64,
    /// alignments of regions, with the verdicts and the base checks
    pub alignments: Alignments,
    /// base checks of regions, by answer and by what is wrong
    pub bases: Bases,
    /// ranges of bases, by answer and by sort
    pub ranges: Ranges,
    /// strict verdicts by answer and by sort
    pub strict: Strict,
    /// regions of addresses, and indexes, by answer and by sort
    pub owners: Owners,
    /// reports by number: 0, 1 to 7, 37
    pub report_numbers: Histogram,
    /// words of the first faulty row of a sheet
    pub first_words: Histogram,
    /// words of the faulty rows behind it
    pub later_words: Histogram,
    /// words of either of rows about which the Rust was asked
    pub rust_words: Histogram,
    /// reports by sort
    pub reports: Reports,
    /// rows of kind 46 for which the Rust's error names X64VbsVpContext
    pub names_other_kind: u64,
}

impl Default for Tally {
    fn default() -> Self {
        let none = [0; 51];
        Tally {
            cases: 0,
            with_rust: 0,
            verdicts: none,
            rust_verdicts: none,
            large_verdicts: none,
            areas_verdicts: none,
            strict_verdicts: none,
            queries: none,
            regions: 0,
            alignments: Alignments::default(),
            bases: Bases::default(),
            ranges: Ranges::default(),
            strict: Strict::default(),
            owners: Owners::default(),
            report_numbers: none,
            first_words: none,
            later_words: none,
            rust_words: none,
            reports: Reports::default(),
            names_other_kind: 0,
        }
    }
}

impl Tally {
    pub fn add(&mut self, other: &Tally) {
        self.cases += other.cases;
        self.with_rust += other.with_rust;
        self.regions += other.regions;
        self.alignments.add(&other.alignments);
        self.bases.add(&other.bases);
        self.ranges.add(&other.ranges);
        self.strict.add(&other.strict);
        self.owners.add(&other.owners);
        self.reports.add(&other.reports);
        self.names_other_kind += other.names_other_kind;
        for number in 0..51 {
            self.verdicts[number] += other.verdicts[number];
            self.rust_verdicts[number] += other.rust_verdicts[number];
            self.large_verdicts[number] += other.large_verdicts[number];
            self.areas_verdicts[number] += other.areas_verdicts[number];
            self.strict_verdicts[number] += other.strict_verdicts[number];
            self.queries[number] += other.queries[number];
            self.report_numbers[number] += other.report_numbers[number];
            self.first_words[number] += other.first_words[number];
            self.later_words[number] += other.later_words[number];
            self.rust_words[number] += other.rust_words[number];
        }
    }

    /// A report on a sheet for which so many bytes were lent.
    pub fn report(&mut self, sheet: &[u8], lent: usize, answered: &Answered) {
        self.report_numbers[answered.numbers[0] as usize] += 1;
        self.reports.count(&report::columns(sheet, lent, answered));
        let faulty = answered.words.iter().enumerate().filter(|(_, word)| **word != 0);
        for (nth, (row, &word)) in faulty.enumerate() {
            let words = if nth == 0 { &mut self.first_words } else { &mut self.later_words };
            words[word as usize] += 1;
            self.rust_words[word as usize] += u64::from(answered.asked.as_ref().is_some_and(|asked| asked[row]));
        }
    }

    /// The refusals that no call met.
    pub fn missing(&self) -> Vec<usize> {
        refusals().filter(|&number| self.verdicts[number] + self.strict_verdicts[number] + self.queries[number] == 0).collect()
    }

    /// The refusals of the verdict, from 1 to 34, that the strict one did not give.
    pub fn missing_strict(&self) -> Vec<usize> {
        (1..35).filter(|&number| self.strict_verdicts[number] == 0).collect()
    }

    /// The refusals that no report gave, the words that stood at no first faulty row or at no later one, and those that no comparison with the Rust met.
    pub fn missing_words(&self) -> [Vec<usize>; 4] {
        let not_in = |histogram: &Histogram, numbers: Vec<usize>| numbers.into_iter().filter(|&number| histogram[number] == 0).collect();
        let by_rust = row_refusals().filter(|number| !NOT_OF_THE_RUST.contains(number)).collect();
        [
            not_in(&self.report_numbers, (0..8).chain([37]).collect()),
            not_in(&self.first_words, row_refusals().collect()),
            not_in(&self.later_words, row_refusals().collect()),
            not_in(&self.rust_words, by_rust),
        ]
    }

    /// The refusals of the Rust's domain (7 to 34 but 19, 27, 28) that no comparison with the Rust met.
    pub fn missing_with_rust(&self) -> Vec<usize> {
        let on_domain = |number: &usize| !NOT_OF_THE_RUST.contains(number);
        (7..35).filter(on_domain).filter(|&number| self.rust_verdicts[number] == 0).collect()
    }

    pub fn print(&self) {
        println!("{} sheets, {} of them compared with the Rust too", self.cases, self.with_rust);
        let [large, areas] = [self.large_verdicts, self.areas_verdicts].map(|verdicts| verdicts.iter().sum::<u64>());
        println!("{large} readable ones have more than 1,024 directive rows, {areas} of them more than 1,024 areas of 1,024 and above");
        let columns = [
            "verdicts",
            "by the Rust",
            "1,025 rows",
            "1,025 areas",
            "strict",
            "queries",
            "reports",
            "first words",
            "later words",
            "by the Rust",
        ];
        println!("{:>6} {}", "number", columns.map(|column| format!("{column:>12}")).join(" "));
        for number in [0].into_iter().chain(refusals()) {
            let [large, areas] = [&self.large_verdicts, &self.areas_verdicts];
            let words = [&self.report_numbers, &self.first_words, &self.later_words, &self.rust_words];
            let all = [&[&self.verdicts, &self.rust_verdicts, large, areas, &self.strict_verdicts, &self.queries], &words[..]].concat();
            let all = all.iter().map(|counts| format!("{:>12}", counts[number])).collect::<Vec<_>>();
            println!("{number:>6} {}", all.join(" "));
        }
        println!("{} regions were checked by their words too", self.regions);
        self.alignments.print();
        println!("bases: {}", self.bases.text());
        println!("ranges of bases: {}", self.ranges.text());
        println!("strict verdicts: {}", self.strict.text());
        println!("addresses and indexes: {}", self.owners.text());
        println!("reports: {}", self.reports.text());
        println!("the Rust named X64VbsVpContext for a row of kind 46: {} times", self.names_other_kind);
    }
}
