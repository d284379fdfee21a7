//! Document 02's request 14 in Rust: which rows of an accepted image have to remain, the sheet of those that remain, and what follows of the answers on it from
//! those on the image. It is written for reading, and `WRONG` has copies that are wrong in one place each: trimmed.rs must catch them.

use crate::sheet::{fields_length, is_open};
use crate::strict;
use std::collections::HashSet;

/// An accepted sheet, and of each of its rows, from row 1 on, whether it remains.
pub struct Choice<'a> {
    pub sheet: &'a [u8],
    pub kept: &'a [bool],
}

/// Kind and body of a row.
type Row<'a> = (u32, &'a [u8]);

impl<'a> Choice<'a> {
    /// The rows of each list, as the head counts them.
    fn counts(&self) -> [usize; 3] {
        [8, 10, 12].map(|at| usize::from(u16::from_le_bytes([self.sheet[at], self.sheet[at + 1]])))
    }

    /// All rows of the sheet.
    fn rows(&self) -> impl Iterator<Item = Row<'a>> {
        let (entries, bodies) = self.sheet[16..].split_at(8 * self.counts().iter().sum::<usize>());
        strict::rows(entries.as_chunks().0, bodies)
    }

    /// The rows that remain.
    fn left(&self) -> impl Iterator<Item = Row<'a>> + '_ {
        self.rows().zip(self.kept).filter(|(_, kept)| **kept).map(|(row, _)| row)
    }

    /// What the sheet of the rows that remain is made of.
    fn parts(&self) -> Parts<'a> {
        let table = self.left().map(|(kind, body)| (kind, body.len())).collect();
        let bodies = self.left().map(|(_, body)| body).collect();
        Parts { counts: self.left_counts(self.counts()), table, bodies }
    }

    /// How many rows of each list remain, by how many it had.
    fn left_counts(&self, counts: [usize; 3]) -> [usize; 3] {
        let (platforms, others) = self.kept.split_at(counts[0]);
        let (initializations, directives) = others.split_at(counts[1]);
        [platforms, initializations, directives].map(kept_of)
    }

    fn is_kept(&self, row: u64) -> bool {
        self.kept[row as usize - 1]
    }

    /// The rows of a mask's regions of a kind, 18 or 19, in their order.
    fn regions(&self, kind: u32, mask: u32) -> Vec<u64> {
        let is_of = |(of_kind, body): Row| of_kind == kind && strict::mask_of(body) & mask == mask;
        (1..).zip(self.rows()).filter(|(_, row)| is_of(*row)).map(|(row, _)| row).collect()
    }
}

/// Counts of rows, kinds and lengths of the table, and bodies: a sheet but for the rest of its head.
struct Parts<'a> {
    counts: [usize; 3],
    table: Vec<(u32, usize)>,
    bodies: Vec<&'a [u8]>,
}

impl Parts<'_> {
    /// The sheet, with the rest of the head of another.
    fn sheet(&self, head: &[u8]) -> Vec<u8> {
        let mut sheet = head[..16].to_vec();
        for (at, count) in [8, 10, 12].into_iter().zip(self.counts) {
            sheet[at..at + 2].copy_from_slice(&(count as u16).to_le_bytes());
        }
        for (kind, length) in &self.table {
            sheet.extend(kind.to_le_bytes());
            sheet.extend((*length as u32).to_le_bytes());
        }
        self.bodies.iter().for_each(|body| sheet.extend(*body));
        sheet
    }
}

/// How many of these rows remain.
fn kept_of(kept: &[bool]) -> usize {
    kept.iter().filter(|kept| **kept).count()
}

/// The number of four bytes of a body.
fn field(body: &[u8], at: usize) -> u32 {
    u32::from_le_bytes(std::array::from_fn(|byte| body[at + byte]))
}

/// The answer to `relocations`: its numbers, and the words of the regions.
pub type List = ([u64; 10], Vec<u8>);

/// The rule. Of the answers each takes the old one and gives the new.
#[derive(Clone, Copy)]
pub struct Rule {
    /// kinds of which every row has to remain
    has_to_remain: fn(kind: u32) -> bool,
    /// the area that a row names
    named: fn(kind: u32, body: &[u8]) -> Option<u32>,
    /// the sheet of the rows that remain
    pub sheet: fn(&Choice) -> Vec<u8>,
    pub verdict: fn(&Choice, &[u64; 6]) -> [u64; 6],
    /// none where 38 names a region that is dropped: it may then be accepted, or be 38 for a later one
    pub strict_verdict: fn(&Choice, &[u64; 6]) -> Option<[u64; 6]>,
    pub relocations: fn(&Choice, u32, &List) -> List,
    /// the number of a mask's region that remains
    pub region: fn(&Choice, u32, u64) -> u64,
    /// the row of the region that has an address, 0 for none
    pub owner: fn(&Choice, u64) -> u64,
    /// the entries of an index
    pub index: fn(&Choice, &[[u64; 3]]) -> Vec<[u64; 3]>,
}

impl Rule {
    /// The dropped rows that have to remain: platforms, VBS contexts, and each parameter area that a remaining row names.
    pub fn faults(&self, choice: &Choice) -> Vec<u64> {
        let named: HashSet<u32> = choice.left().filter_map(|(kind, body)| (self.named)(kind, body)).collect();
        let has_to_remain = |(kind, body): Row| (self.has_to_remain)(kind) || kind == 33 && named.contains(&field(body, 8));
        (1..).zip(choice.rows()).filter(|(row, of)| !choice.is_kept(*row) && has_to_remain(*of)).map(|(row, _)| row).collect()
    }
}

pub const RULE: Rule = Rule {
    has_to_remain: |kind| matches!(kind, 1 | 47 | 48),
    named: |kind, body| match kind {
        34..=43 => Some(field(body, 0)),
        50 => Some(field(body, 12)),
        _ => None,
    },
    sheet: |choice| choice.parts().sheet(choice.sheet),
    verdict: |choice, old| accepted(choice.left_counts([old[3], old[4], old[5]].map(|count| count as usize))),
    strict_verdict: |choice, old| match *old {
        [38, row, ..] if !choice.is_kept(row) => None,
        [38, row, bit, ..] => Some([38, row_left(choice, row), bit, 0, 0, 0]),
        _ => Some((RULE.verdict)(choice, old)),
    },
    relocations: |choice, mask, (numbers, words)| {
        let kept = choice.regions(18, mask).into_iter().map(|row| choice.is_kept(row));
        let words: Vec<u8> = words.chunks(64).zip(kept).filter(|(_, kept)| *kept).flat_map(|(region, _)| region).copied().collect();
        let mut numbers = *numbers;
        numbers[3] = words.len() as u64 / 64;
        if choice.regions(19, mask).into_iter().any(|row| !choice.is_kept(row)) {
            numbers[4..].fill(0);
        }
        (numbers, words)
    },
    region: |choice, mask, region| choice.regions(18, mask)[..region as usize].iter().filter(|row| choice.is_kept(**row)).count() as u64,
    owner: |choice, row| if row == 0 || !choice.is_kept(row) { 0 } else { row_left(choice, row) },
    index: |choice, entries| {
        let kept = entries.iter().filter(|[.., row]| choice.is_kept(*row));
        kept.map(|&[start, size, row]| [start, size, row_left(choice, row)]).collect()
    },
};

/// The numbers of a verdict that accepts.
fn accepted(counts: [usize; 3]) -> [u64; 6] {
    let [platforms, initializations, directives] = counts.map(|count| count as u64);
    [0, 0, 0, platforms, initializations, directives]
}

/// The number of a row that remains, from 1 on: the dropped rows before it do not count.
fn row_left(choice: &Choice, row: u64) -> u64 {
    kept_of(&choice.kept[..row as usize]) as u64
}

// ---- wrong copies

/// Of each its name, what is wrong, and the rule.
pub const WRONG: &[(&str, &str, Rule)] = &[
    ("trimmed-kind-47", "contexts of kind 47 may go", Rule { has_to_remain: |kind| matches!(kind, 1 | 48), ..RULE }),
    ("trimmed-kind-48", "contexts of kind 48 may go", Rule { has_to_remain: |kind| matches!(kind, 1 | 47), ..RULE }),
    (
        "trimmed-native",
        "native contexts, of kinds 46 and 49, have to remain",
        Rule { has_to_remain: |kind| matches!(kind, 1 | 46..=49), ..RULE },
    ),
    ("trimmed-snp", "contexts of kind 45 have to remain", Rule { has_to_remain: |kind| matches!(kind, 1 | 45 | 47 | 48), ..RULE }),
    ("trimmed-platforms", "platforms may go", Rule { has_to_remain: |kind| matches!(kind, 47 | 48), ..RULE }),
    ("trimmed-areas", "every parameter area has to remain", Rule { has_to_remain: |kind| matches!(kind, 1 | 33 | 47 | 48), ..RULE }),
    ("trimmed-inserts", "an insert names no area", Rule { named: |kind, body| matches!(kind, 34..=43).then(|| field(body, 0)), ..RULE }),
    (
        "trimmed-uses",
        "kinds 35 to 43 name no area",
        Rule { named: |kind, body| (RULE.named)(kind, body).filter(|_| matches!(kind, 34 | 50)), ..RULE },
    ),
    (
        "trimmed-insert-place",
        "an insert's area is read in front, as that of the other rows",
        Rule { named: |kind, body| matches!(kind, 34..=43 | 50).then(|| field(body, 0)), ..RULE },
    ),
    (
        "trimmed-head",
        "the head keeps its counts",
        Rule { sheet: |choice| Parts { counts: choice.counts(), ..choice.parts() }.sheet(choice.sheet), ..RULE },
    ),
    ("trimmed-lengths", "the table's lengths are the first of the old ones", Rule { sheet: with_old_lengths, ..RULE }),
    (
        "trimmed-bodies",
        "the bodies stand in the reverse order",
        Rule {
            sheet: |choice| Parts { bodies: choice.parts().bodies.into_iter().rev().collect(), ..choice.parts() }.sheet(choice.sheet),
            ..RULE
        },
    ),
    ("trimmed-opaque", "data and opaque bytes are left out", Rule { sheet: without_opaque_bytes, ..RULE }),
    ("trimmed-counts", "the verdict's counts are the old ones", Rule { verdict: |_, old| *old, ..RULE }),
    ("trimmed-strict-row", "the row of 38 is the old one", Rule { strict_verdict: with_old_row, ..RULE }),
    ("trimmed-strict-38", "38 stays, though its region is dropped", Rule { strict_verdict: with_38, ..RULE }),
    ("trimmed-list", "the list is the old one", Rule { relocations: |_, _, old| old.clone(), ..RULE }),
    ("trimmed-words", "the list has as many regions as remain, the first of the old ones", Rule { relocations: with_first_words, ..RULE }),
    ("trimmed-page-table", "a list keeps its page table", Rule { relocations: with_page_table, ..RULE }),
    ("trimmed-numbers", "a region keeps its number", Rule { region: |_, _, region| region, ..RULE }),
    ("trimmed-numbers-of-all", "a region's number falls by all rows that are dropped before it", Rule { region: by_all_rows, ..RULE }),
    (
        "trimmed-owner-row",
        "the row of an address is the old one",
        Rule { owner: |choice, row| if (RULE.owner)(choice, row) == 0 { 0 } else { row }, ..RULE },
    ),
    ("trimmed-owner-policies", "the row of an address falls by the dropped regions alone", Rule { owner: by_regions, ..RULE }),
    ("trimmed-owner-dropped", "a dropped region has its addresses", Rule { owner: |choice, row| row_left(choice, row), ..RULE }),
    ("trimmed-index-rows", "the rows of an index are the old ones", Rule { index: with_old_rows, ..RULE }),
    ("trimmed-index-dropped", "an index keeps dropped regions", Rule { index: with_dropped_regions, ..RULE }),
];

fn with_old_lengths(choice: &Choice) -> Vec<u8> {
    let mut parts = choice.parts();
    parts.table.iter_mut().zip(choice.rows()).for_each(|((_, length), (_, body))| *length = body.len());
    parts.sheet(choice.sheet)
}

fn without_opaque_bytes(choice: &Choice) -> Vec<u8> {
    let mut parts = choice.parts();
    for ((kind, length), body) in parts.table.iter_mut().zip(&mut parts.bodies).filter(|((kind, _), _)| is_open(*kind)) {
        *length = fields_length(*kind);
        *body = &body[..*length];
    }
    parts.sheet(choice.sheet)
}

fn with_old_row(choice: &Choice, old: &[u64; 6]) -> Option<[u64; 6]> {
    let new = (RULE.strict_verdict)(choice, old)?;
    Some(if new[0] == 38 { *old } else { new })
}

fn with_38(choice: &Choice, old: &[u64; 6]) -> Option<[u64; 6]> {
    (RULE.strict_verdict)(choice, old).or(Some(*old))
}

fn with_first_words(choice: &Choice, mask: u32, old: &List) -> List {
    let (numbers, words) = (RULE.relocations)(choice, mask, old);
    (numbers, old.1[..words.len()].to_vec())
}

fn with_page_table(choice: &Choice, mask: u32, old: &List) -> List {
    let (mut numbers, words) = (RULE.relocations)(choice, mask, old);
    numbers[4..].copy_from_slice(&old.0[4..]);
    (numbers, words)
}

fn by_all_rows(choice: &Choice, mask: u32, region: u64) -> u64 {
    let row = choice.regions(18, mask)[region as usize];
    region.saturating_sub(row - row_left(choice, row))
}

fn by_regions(choice: &Choice, row: u64) -> u64 {
    if row == 0 || !choice.is_kept(row) {
        return 0;
    }
    let dropped = (1..row).zip(choice.rows()).filter(|(row, (kind, _))| !choice.is_kept(*row) && matches!(kind, 18 | 19)).count();
    row - dropped as u64
}

fn with_old_rows(choice: &Choice, entries: &[[u64; 3]]) -> Vec<[u64; 3]> {
    entries.iter().copied().filter(|[.., row]| choice.is_kept(*row)).collect()
}

fn with_dropped_regions(choice: &Choice, entries: &[[u64; 3]]) -> Vec<[u64; 3]> {
    entries.iter().map(|&[start, size, row]| [start, size, row_left(choice, row)]).collect()
}
