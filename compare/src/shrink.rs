//! The smallest sheet near a given one on which two answers still differ: rows dropped, opaque bytes cut, fields set to 0. Of a large sheet only many rows or
//! all data at once are left out: each look at it takes long.

use crate::compare::{check, Between, Call, Difference, Extent, Rust};
use crate::sheet::{fields, fields_length, hex, Image};
use crate::{owner, report};
use calls::Calls;

/// The difference on the smallest sheet and the simplest call that were found.
pub fn smallest(calls: &Calls, difference: Difference) -> Difference {
    let mut best = difference;
    while let Some(found) = smaller(calls, &best) {
        best = found;
    }
    best
}

/// The first difference of the same sort on a sheet or call that is smaller in some way, the greatest steps first.
fn smaller(calls: &Calls, from: &Difference) -> Option<Difference> {
    let differs = |sheet: &[u8], call: Call| {
        let found = check(calls, sheet, &Rust::of(sheet), call, Extent::All).err()?;
        is_alike(&found, from).then_some(found)
    };
    let image = Image::parse(&from.sheet).filter(|_| !from.call.is_by_words());
    let by_rows = image.iter().flat_map(|image| edits(image).into_iter().map(|edit| edited(image, &edit)));
    let by_bytes = bytes(&from.sheet).into_iter();
    let sheets = by_rows.chain(by_bytes).filter(|sheet| *sheet != from.sheet);
    let on_sheets = sheets.filter_map(|sheet| on_sheet(from, &sheet).into_iter().find_map(|call| differs(&sheet, call))).next();
    on_sheets.or_else(|| calls_below(from.call).into_iter().find_map(|call| differs(&from.sheet, call)))
}

/// The same two disagree. Of a report it may be any but plain Rust: what the calls are compared with first is often the next to disagree.
fn is_alike(found: &Difference, from: &Difference) -> bool {
    let is_plain = |difference: &Difference| difference.between == Between::Plain;
    let is_report = matches!(from.call, Call::Report { .. });
    found.between == from.between || is_report && !is_plain(found) && !is_plain(from)
}

/// The call on a smaller sheet. For a report as many bytes are lent, and fewer by a word for each row that is not there; for an index by an entry.
fn on_sheet(from: &Difference, sheet: &[u8]) -> Vec<Call> {
    let fewer = report::rows(&from.sheet).saturating_sub(report::rows(sheet));
    match from.call {
        Call::Report { lent } if fewer != 0 => vec![Call::Report { lent: lent.saturating_sub(8 * fewer) }, from.call],
        Call::RegionIndex { mask, lent } if fewer != 0 => {
            vec![Call::RegionIndex { mask, lent: lent.saturating_sub(owner::ENTRY * fewer) }, from.call]
        }
        call => vec![call],
    }
}

/// A step towards a smaller image.
enum Edit {
    NoLeftOver,
    PlainHead,
    NoData,
    /// from a list, rows from the first place up to, not including, the second
    Drop(usize, usize, usize),
    Body(usize, usize, usize),
    Field(usize, usize, &'static str, u64),
}

/// The rows and the bytes of an image from which on it is large.
const ROWS: usize = 400;
const BYTES: usize = 1 << 20;

/// The parts of a large image's list that are left out one by one, at the finest.
const PARTS: usize = 16;

fn edits(image: &Image) -> Vec<Edit> {
    let is_large = image.rows().count() >= ROWS || image.rows().map(|row| row.body.len()).sum::<usize>() >= BYTES;
    let mut edits = vec![Edit::NoLeftOver, Edit::PlainHead, Edit::NoData];
    for (list, rows) in image.lists.iter().enumerate() {
        edits.extend(parts(rows.len(), if is_large { PARTS } else { 2 }).map(|(from, to)| Edit::Drop(list, from, to)));
    }
    if is_large {
        return edits;
    }
    for (list, rows) in image.lists.iter().enumerate() {
        edits.extend((0..rows.len()).map(|at| Edit::Drop(list, at, at + 1)));
    }
    for (list, rows) in image.lists.iter().enumerate() {
        for (at, row) in rows.iter().enumerate() {
            let (least, length) = (fields_length(row.kind), row.body.len());
            edits.extend([least, (least + length) / 2, length.saturating_sub(1)].map(|length| Edit::Body(list, at, length)));
            for (name, _) in fields(row.kind) {
                let values = smaller_values(row.get(name).unwrap_or(0));
                edits.extend(values.into_iter().map(|value| Edit::Field(list, at, name, value)));
            }
        }
    }
    edits
}

/// The halves of so many rows, their quarters, and so on up to this many parts, none of them smaller than a row.
fn parts(rows: usize, most: usize) -> impl Iterator<Item = (usize, usize)> {
    let sizes = [2, 4, 8, PARTS].into_iter().filter(move |&parts| parts == 2 || parts <= most.min(rows));
    sizes.flat_map(move |parts| (0..parts).map(move |part| (rows * part / parts, rows * (part + 1) / parts)))
}

/// The bytes of the image after a step; a body does not grow.
fn edited(image: &Image, edit: &Edit) -> Vec<u8> {
    let mut image = image.clone();
    match *edit {
        Edit::NoLeftOver => image.left_over.clear(),
        // Revision 0 stays: a step to 1 could be taken back, again and again.
        Edit::PlainHead => (image.revision, image.arch, image.page_size) = (image.revision.min(1), 0, 0),
        Edit::NoData => image.lists.iter_mut().flatten().for_each(|row| row.body.truncate(fields_length(row.kind))),
        Edit::Drop(list, from, to) => drop(image.lists[list].drain(from..to)),
        Edit::Body(list, at, length) => image.lists[list][at].body.truncate(length),
        Edit::Field(list, at, name, value) => image.lists[list][at].set(name, value),
    }
    image.bytes()
}

fn smaller_values(value: u64) -> Vec<u64> {
    let simple = [0, 1, 0x1000, 0x2000];
    simple.into_iter().chain([value / 2, value & value.wrapping_sub(1)]).filter(|&v| v < value).collect()
}

/// Without its last bytes; of a short sheet also with a byte set to 0.
fn bytes(sheet: &[u8]) -> Vec<Vec<u8>> {
    let mut all = vec![sheet[..sheet.len() / 2].to_vec(), sheet[..sheet.len().saturating_sub(1)].to_vec()];
    if sheet.len() > 400 {
        return all;
    }
    for at in (0..sheet.len()).filter(|&at| sheet[at] != 0) {
        let mut zeroed = sheet.to_vec();
        zeroed[at] = 0;
        all.push(zeroed);
    }
    all
}

fn calls_below(call: Call) -> Vec<Call> {
    match call {
        Call::Verdict | Call::StrictVerdict => vec![],
        Call::Report { lent } => {
            let less = [0, lent / 2, lent.saturating_sub(64), lent.saturating_sub(8), lent.saturating_sub(1)];
            less.into_iter().filter(|&less| less < lent).map(|lent| Call::Report { lent }).collect()
        }
        Call::RegionBaseValid { base } => smaller_values(base).into_iter().map(|base| Call::RegionBaseValid { base }).collect(),
        Call::RegionContains { gpa } => smaller_values(gpa).into_iter().map(|gpa| Call::RegionContains { gpa }).collect(),
        Call::RegionIn { gpa } => smaller_values(gpa).into_iter().map(|gpa| Call::RegionIn { gpa }).collect(),
        Call::RegionOf { mask, gpa } => {
            let masks = smaller_values(u64::from(mask)).into_iter().map(|mask| Call::RegionOf { mask: mask as u32, gpa });
            masks.chain(smaller_values(gpa).into_iter().map(|gpa| Call::RegionOf { mask, gpa })).collect()
        }
        Call::RegionIndex { mask, lent } => {
            let masks = smaller_values(u64::from(mask)).into_iter().map(|mask| Call::RegionIndex { mask: mask as u32, lent });
            let less = [0, lent / 2, lent.saturating_sub(owner::ENTRY)].into_iter().filter(|&less| less < lent);
            masks.chain(less.map(|lent| Call::RegionIndex { mask, lent })).collect()
        }
        Call::Relocations { mask, lent } => {
            let masks = smaller_values(u64::from(mask)).into_iter().map(|mask| Call::Relocations { mask: mask as u32, lent });
            masks
                .chain(
                    [0, lent / 2, lent.saturating_sub(64)].into_iter().filter(|&l| l < lent).map(|lent| Call::Relocations { mask, lent }),
                )
                .collect()
        }
        Call::BaseValid { mask, region, base } => {
            let masks = smaller_values(u64::from(mask)).into_iter().map(|mask| Call::BaseValid { mask: mask as u32, region, base });
            let regions = smaller_values(region).into_iter().map(|region| Call::BaseValid { mask, region, base });
            masks.chain(regions).chain(smaller_values(base).into_iter().map(|base| Call::BaseValid { mask, region, base })).collect()
        }
        Call::BaseRange { mask, region, lowest, highest } => ranges_below(mask, region, lowest, highest),
        Call::Contains { mask, region, gpa } => {
            let masks = smaller_values(u64::from(mask)).into_iter().map(|mask| Call::Contains { mask: mask as u32, region, gpa });
            let regions = smaller_values(region).into_iter().map(|region| Call::Contains { mask, region, gpa });
            masks.chain(regions).chain(smaller_values(gpa).into_iter().map(|gpa| Call::Contains { mask, region, gpa })).collect()
        }
    }
}

/// The range with a simpler end, region or mask.
fn ranges_below(mask: u32, region: u64, lowest: u64, highest: u64) -> Vec<Call> {
    let range = |mask: u32, region: u64, lowest: u64, highest: u64| Call::BaseRange { mask, region, lowest, highest };
    let masks = smaller_values(u64::from(mask)).into_iter().map(|mask| range(mask as u32, region, lowest, highest));
    let regions = smaller_values(region).into_iter().map(|region| range(mask, region, lowest, highest));
    let lower = smaller_values(lowest).into_iter().map(|lowest| range(mask, region, lowest, highest));
    let narrower = smaller_values(highest).into_iter().map(|highest| range(mask, region, lowest, highest));
    masks.chain(regions).chain(lower).chain(narrower).collect()
}

/// The difference as text: what differs, the call, and the sheet or the words in hexadecimal digits.
pub fn text(difference: &Difference) -> String {
    let length = difference.sheet.len();
    let digits = hex(&difference.sheet[..length.min(2000)]);
    let of = if difference.call.is_by_words() { "words" } else { "sheet" };
    format!("{:?}: {}\n  {of} of {length} bytes: {digits}", difference.call, difference.what)
}
