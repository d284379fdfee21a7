//! Alignments of regions: those of which a run must have met every answer, and all that are near a power of two.

use crate::sheet::Image;

/// The sorts: those that the library tests by low bits, the highest of them apart, and those that it divides by. Small powers of two are met often.
const SORTS: [&str; 3] = ["2^17 to 2^62", "2^63", "no power of two"];

fn sort(alignment: u64) -> Option<usize> {
    match alignment {
        0x8000_0000_0000_0000 => Some(1),
        _ if alignment.is_power_of_two() => (alignment > 0x10000).then_some(0),
        _ => (alignment != 0).then_some(2),
    }
}

/// What is met of an alignment.
#[derive(Clone, Copy)]
pub enum Met {
    /// a region of an accepted sheet
    Accepted,
    /// 20, since this of gpa, minimum and maximum is no multiple
    Refused(usize),
    /// a base that is valid
    Valid,
    /// a base that is not, though it is neither too low nor too high
    NoMultiple,
}

const COLUMNS: [&str; 6] = ["accepted", "20 gpa", "20 minimum", "20 maximum", "valid base", "no multiple"];

impl Met {
    fn column(self) -> usize {
        match self {
            Met::Accepted => 0,
            Met::Refused(field) => 1 + field,
            Met::Valid => 4,
            Met::NoMultiple => 5,
        }
    }
}

/// How often each was met, by sort.
#[derive(Clone, Copy, Default)]
pub struct Alignments([[u64; 6]; 3]);

impl Alignments {
    fn met(&mut self, alignment: u64, met: Met) {
        if let Some(sort) = sort(alignment) {
            self.0[sort][met.column()] += 1;
        }
    }

    /// A verdict of number 0 or 20: the regions of the sheet that is accepted, or the row that is refused.
    pub fn verdict(&mut self, sheet: &[u8], number: u64, row: u64) {
        let Some(image) = Image::parse(sheet) else { return };
        let first = image.lists[0].len() as u64 + 1;
        for (at, region) in (first..).zip(&image.lists[1]).filter(|(_, region)| region.kind == 18) {
            let of = |name: &str| region.get(name).unwrap_or(0);
            let alignment = of("alignment");
            let is_multiple = |name: &str| of(name).checked_rem(alignment) == Some(0);
            match number {
                0 => self.met(alignment, Met::Accepted),
                _ if at == row => {
                    let field = ["gpa", "minimum", "maximum"].iter().position(|name| !is_multiple(name)).expect("one is no multiple");
                    self.met(alignment, Met::Refused(field));
                }
                _ => {}
            }
        }
    }

    /// A check of a base by these words of a region, and its answer.
    pub fn base(&mut self, words: &[u64; 8], base: u64, answer: u64) {
        let [_, size, alignment, minimum, maximum, ..] = *words;
        let within = minimum <= base && base.checked_add(size).is_some_and(|end| end <= maximum);
        match answer {
            1 => self.met(alignment, Met::Valid),
            2 if within => self.met(alignment, Met::NoMultiple),
            _ => {}
        }
    }

    pub fn add(&mut self, other: &Alignments) {
        self.0.as_flattened_mut().iter_mut().zip(other.0.as_flattened()).for_each(|(sum, count)| *sum += count);
    }

    /// What was not met, if all of it must be.
    pub fn missing(&self) -> Vec<String> {
        self.missing_of(&[0, 1, 2, 3, 4, 5])
    }

    /// The same of bases alone.
    pub fn missing_bases(&self) -> Vec<String> {
        self.missing_of(&[4, 5])
    }

    fn missing_of(&self, columns: &[usize]) -> Vec<String> {
        let all = (0..SORTS.len()).flat_map(|sort| columns.iter().map(move |&column| (sort, column)));
        all.filter(|&(sort, column)| self.0[sort][column] == 0)
            .map(|(sort, column)| format!("{}: {}", SORTS[sort], COLUMNS[column]))
            .collect()
    }

    /// The bases that were valid, and those that were no multiple, by sort.
    pub fn bases(&self) -> String {
        SORTS.iter().zip(self.0).map(|(sort, of)| format!("{sort}: {} and {}", of[4], of[5])).collect::<Vec<_>>().join(", ")
    }

    pub fn print(&self) {
        println!("{:<16}{}", "alignment", COLUMNS.map(|column| format!("{column:>13}")).concat());
        for (sort, counts) in SORTS.iter().zip(self.0) {
            println!("{sort:<16}{}", counts.map(|count| format!("{count:>13}")).concat());
        }
    }
}

/// 0, and every power of two, one and a page less and more, and three and five times each, as far as they are below 2^64.
pub fn every() -> Vec<u64> {
    let about = |place: u32| {
        let power = 1u64 << place;
        let less = [1, 0x1000].map(|less| power.checked_sub(less));
        let more = [1, 0x1000].map(|more| power.checked_add(more));
        [less, more, [power.checked_mul(3), power.checked_mul(5)], [Some(power), None]].concat()
    };
    let mut all: Vec<u64> = (0..64).flat_map(about).flatten().chain([0]).collect();
    all.sort_unstable();
    all.dedup();
    all
}

/// Addresses about the first multiples of an alignment, some that have none of the bits of the alignment less one, and the highest ones.
pub fn addresses(alignment: u64) -> Vec<u64> {
    let (half, low_bits) = (alignment / 2, alignment.wrapping_sub(1));
    let sums = [(alignment, half), (alignment, alignment), (alignment, 1), (alignment, 0x1000)].map(|(a, b)| a.checked_add(b));
    let differences = [1, 0x1000].map(|less| alignment.checked_sub(less));
    let mut all: Vec<u64> = sums.into_iter().chain(differences).flatten().collect();
    all.extend([0, half, alignment, low_bits.wrapping_add(1) & !low_bits, !low_bits & !0xFFF, 1 << 63, 0u64.wrapping_sub(0x1000)]);
    all.sort_unstable();
    all.dedup();
    all
}
