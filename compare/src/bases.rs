//! Bases that were checked: which answers, and which combinations of what is wrong with a base, a run must have met.

use crate::columns::counts;

/// The answers from 1 on; then bases of which more than one thing is wrong; then such as are too high alone, and whose sum with the size is 2^64 or above it.
const COLUMNS: [&str; 10] = [
    "valid",
    "unaligned",
    "below",
    "above",
    "unaligned and below",
    "unaligned and above",
    "below and above",
    "all three",
    "above by a sum of 2^64",
    "above by a higher sum",
];

/// What is wrong with a base.
#[derive(Clone, Copy, PartialEq, Eq, PartialOrd, Ord)]
pub struct Faults {
    unaligned: bool,
    below: bool,
    above: bool,
    /// how base + size compares with 2^64
    sum: std::cmp::Ordering,
}

impl Faults {
    pub fn of(&[_, size, alignment, minimum, maximum, ..]: &[u64; 8], base: u64) -> Faults {
        let sum = u128::from(base) + u128::from(size);
        Faults {
            unaligned: base.checked_rem(alignment).map_or(base != 0, |past| past != 0),
            below: base < minimum,
            above: sum > maximum.into(),
            sum: sum.cmp(&(1 << 64)),
        }
    }

    /// The column of what is wrong, beside that of the answer.
    fn column(self) -> Option<usize> {
        match (self.unaligned, self.below, self.above) {
            (true, true, false) => Some(4),
            (true, false, true) => Some(5),
            (false, true, true) => Some(6),
            (true, true, true) => Some(7),
            (false, false, true) if self.sum.is_eq() => Some(8),
            (false, false, true) if self.sum.is_gt() => Some(9),
            _ => None,
        }
    }
}

counts!(Bases);

impl Bases {
    /// A check of a base by these words of a region, and its answer, from 1 to 4.
    pub fn met(&mut self, words: &[u64; 8], base: u64, answer: u64) {
        self.0[answer as usize - 1] += 1;
        if let Some(column) = Faults::of(words, base).column() {
            self.0[column] += 1;
        }
    }
}
