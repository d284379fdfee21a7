//! The checks by a region's eight words alone. On any bytes they are held against document 01 and the Rust; of a sheet's regions also against the checks
//! by the sheet.

use crate::alignments::{self, Alignments};
use crate::bases::Bases;
use crate::columns::Columns;
use crate::compare::{Agreed, Between, Call, Difference, Extent, Rust, Said};
use crate::random::Random;
use crate::{generate, owner, paper, plan, ranges, short};
use calls::Calls;
use oracle::Relocated;

/// The words of a region's bytes, if they are as many.
pub fn words(region: &[u8]) -> Option<[u64; 8]> {
    let word = |at: usize| u64::from_le_bytes(std::array::from_fn(|byte| region[8 * at + byte]));
    (region.len() >= 64).then(|| std::array::from_fn(word))
}

/// The Rust's answer, where it has one: not for words that no region of its holds, for alignment 0, or for a sum of 2^64 or more.
pub fn by_rust(region: &[u8], call: Call) -> Option<Said> {
    let region = words(region).and_then(Relocated::region)?;
    match call {
        Call::RegionBaseValid { base } => {
            base.checked_add(region.size).filter(|_| region.relocation_alignment != 0)?;
            Some(Said::Valid(region.relocation_base_valid(base)))
        }
        Call::RegionContains { gpa } => {
            region.base_gpa.checked_add(region.size)?;
            Some(Said::Number(region.contains(gpa).into()))
        }
        _ => None,
    }
}

/// The base check as plain safe Rust has it: 1 valid, 2 unaligned, 3 below the minimum, 4 above the maximum, the first that applies; 0 where there is no
/// region. Of alignment 0 only 0 is a multiple. It does not stand in plain.rs: the verdict there is then compiled otherwise, and takes 1.13 of the time on 64
/// regions.
#[inline(never)]
pub fn by_plain(region: &[u8], base: u64) -> u64 {
    let Some([_, size, alignment, minimum, maximum, ..]) = words(region) else { return 0 };
    if base.checked_rem(alignment).unwrap_or(base) != 0 {
        return 2;
    }
    if base < minimum {
        return 3;
    }
    match base.checked_add(size) {
        Some(end) if end <= maximum => 1,
        _ => 4,
    }
}

/// The answers to a check by words, or to a lookup in an index, compared. Gives the answer.
pub fn check(calls: &Calls, region: &[u8], call: Call) -> Result<u64, Difference> {
    let answer = call.ask(calls, region, &mut [], 0);
    let by_paper = call.ask(&paper::CALLS, region, &mut [], 0);
    let differ = |between: Between, what: String| Difference { sheet: region.to_vec(), call, what, between };
    let others = [(by_rust(region, call), Between::Rust, "the Rust"), (Some(Said::Number(by_paper)), Between::Paper, "document 01")];
    for (other, between, who) in others {
        if let Some(other) = other.filter(|other| !other.is(answer)) {
            return Err(differ(between, format!("the answer is {answer}; {who} says {other:?}")));
        }
    }
    let by_plain = match call {
        Call::RegionBaseValid { base } => by_plain(region, base),
        Call::RegionIn { gpa } => owner::by_scan(owner::entries(region), gpa),
        _ => by_paper,
    };
    if by_plain != by_paper {
        return Err(differ(Between::Plain, format!("plain Rust says {by_plain}; document 01 says {by_paper}")));
    }
    Ok(answer)
}

/// Counts the alignment of a region that was checked at a base, and the answer.
fn count_base((alignments, bases): (&mut Alignments, &mut Bases), region: &[u8], call: Call, answer: u64) {
    if let (Call::RegionBaseValid { base }, Some(words)) = (call, words(region)) {
        alignments.base(&words, base, answer);
        bases.met(&words, base, answer);
    }
}

// ---- the regions of a sheet

/// Of an accepted answer: every region of a list at a base, an address and a range of bases, or the region of a check. `found` is how many regions
/// the list has, and their words. Counts the regions that were checked, the alignments and the answers of those checked at a base, and the ranges.
pub fn alike(
    calls: &Calls,
    sheet: &[u8],
    rust: &Rust,
    call: Call,
    found: (u64, &[u8]),
    (extent, agreed): (Extent, &mut Agreed),
) -> Result<(), Difference> {
    match call {
        Call::Relocations { mask, .. } => {
            for (region, bytes) in (0..found.0).zip(found.1.chunks_exact(64)) {
                for call in places(mask, region, bytes, extent) {
                    same(calls, sheet, rust, call, bytes, agreed)?;
                }
            }
            agreed.regions += found.0;
        }
        Call::BaseValid { mask, region, .. } | Call::Contains { mask, region, .. } | Call::BaseRange { mask, region, .. } => {
            let mut lent = [0; 64 * 64];
            (calls.relocations)(sheet, mask, &mut lent, 0);
            same(calls, sheet, rust, call, &lent[64 * region as usize..][..64], agreed)?;
            agreed.regions += 1;
        }
        Call::RegionOf { .. } | Call::RegionIndex { .. } => owner::alike(calls, sheet, call, found, extent)?,
        _ => {}
    }
    Ok(())
}

/// A base, an address and a range of bases for a region of a list: others for the next region, and for another case.
fn places(mask: u32, region: u64, bytes: &[u8], extent: Extent) -> [Call; 3] {
    let turn = Extent::Case(region.wrapping_add(extent.turn()));
    let words = words(bytes);
    let (base, gpa) = (turn.of(&plan::bases(words.as_ref()))[0], turn.of(&plan::addresses(words.as_ref()))[0]);
    let (lowest, highest) = plan::some_range(&mut Random::new(turn.turn(), region), words.as_ref());
    let (lowest, highest) = (lowest.min(highest), lowest.max(highest));
    [Call::BaseValid { mask, region, base }, Call::Contains { mask, region, gpa }, Call::BaseRange { mask, region, lowest, highest }]
}

/// A check by the region's words says what it says by the sheet, and what the Rust says of its own region.
fn same(calls: &Calls, sheet: &[u8], rust: &Rust, call: Call, region: &[u8], agreed: &mut Agreed) -> Result<(), Difference> {
    if let Call::BaseRange { lowest, highest, .. } = call {
        return same_range(calls, sheet, rust, (call, lowest, highest), region, agreed);
    }
    let answer = check(calls, region, call.by_words())?;
    count_base((&mut agreed.alignments, &mut agreed.bases), region, call.by_words(), answer);
    let differ = |between: Between, what: String| Difference { sheet: sheet.to_vec(), call, what, between };
    let by_rust = rust.answer(sheet, call, &mut []).map_err(|message| differ(Between::Rust, message))?.map(|numbers| numbers[3]);
    let by_sheet = Some(Said::Number(call.ask(calls, sheet, &mut [], 3)));
    for (other, between, who) in [(by_rust, Between::Rust, "the Rust says"), (by_sheet, Between::Paper, "by the sheet it is")] {
        if let Some(other) = other.filter(|other| !other.is(answer)) {
            return Err(differ(between, format!("by the region's words the answer is {answer}; {who} {other:?}")));
        }
    }
    Ok(())
}

/// The answer over a range of bases, by the sheet, is what follows from the Rust's check of each multiple, from the check by words of each, and what
/// document 02 says of the region's words. Where both of paper.rs's rules can be asked, they agree.
fn same_range(
    calls: &Calls,
    sheet: &[u8],
    rust: &Rust,
    (call, lowest, highest): (Call, u64, u64),
    region: &[u8],
    agreed: &mut Agreed,
) -> Result<(), Difference> {
    let differ = |between: Between, what: String| Difference { sheet: sheet.to_vec(), call, what, between };
    let Some(words) = words(region).filter(|words| words[2] != 0) else {
        return Err(differ(Between::Paper, "the words of the region have alignment 0, which document 01 does not accept".into()));
    };
    let (by_each, by_places) = (paper::by_each(&words, lowest, highest), paper::by_places(&words, lowest, highest));
    if by_each.is_some_and(|answer| answer != by_places) {
        return Err(differ(
            Between::Plain,
            format!("by trying each multiple document 02 says {by_each:?}, by those near four places {by_places}"),
        ));
    }
    let answer = call.ask(calls, sheet, &mut [], 3);
    let by_rust = rust.answer(sheet, call, &mut []).map_err(|message| differ(Between::Rust, message))?.map(|numbers| numbers[3]);
    let by_words = ranges::by_words(&words, (lowest, highest), |base| (calls.region_base_valid)(region, base));
    let others = [
        (by_rust, Between::Rust, "from the Rust's check of each multiple follows"),
        (by_words.map(Said::Number), Between::Paper, "from the check by words of each multiple follows"),
        (Some(Said::Number(by_places)), Between::Paper, "document 02 says"),
    ];
    for (other, between, who) in others {
        if let Some(other) = other.filter(|other| !other.is(answer)) {
            return Err(differ(between, format!("over the range the answer is {answer}; {who} {other:?}")));
        }
    }
    agreed.ranges.met(&words, (lowest, highest), answer, by_rust.is_some());
    Ok(())
}

// ---- any bytes

/// Checks of bytes that stand where a region's words are looked for, counted.
#[derive(Default)]
pub struct Counts {
    pub checks: u64,
    with_rust: u64,
    /// addresses that are not contained, and those that are
    contained: [u64; 2],
    alignments: Alignments,
    bases: Bases,
}

impl Counts {
    fn check(&mut self, calls: &Calls, region: &[u8], call: Call) -> Result<(), Difference> {
        self.checks += 1;
        let answer = check(calls, region, call)?;
        self.with_rust += u64::from(by_rust(region, call).is_some());
        if let Call::RegionContains { .. } = call {
            self.contained[answer as usize] += 1;
        }
        count_base((&mut self.alignments, &mut self.bases), region, call, answer);
        Ok(())
    }

    /// What was seen, if both checks gave every answer, the base check for each sort of alignments and each combination of faults, and the Rust some.
    pub fn seen(&self) -> Result<String, String> {
        let Counts { checks, with_rust, contained, alignments, bases } = self;
        let text = format!(
            "{checks}, {with_rust} of them with the Rust too; {} addresses contained; bases: {}; bases valid and no multiple of alignments {}",
            contained[1],
            bases.text(),
            alignments.bases()
        );
        let is_missing = !alignments.missing_bases().is_empty() || !bases.missing().is_empty();
        if is_missing || [*with_rust, contained[0], contained[1]].contains(&0) {
            return Err(format!("region checks: some answer was not met: {text}"));
        }
        Ok(text)
    }
}

/// Both checks on bytes of each sort, then on so many random ones, up to the first difference.
pub fn any_bytes(calls: &Calls, seed: u64, cases: u64) -> (Counts, Option<Difference>) {
    let mut counts = Counts::default();
    let mut ended = Ok(());
    let mut each = |region: &[u8], base: u64, gpa: u64| {
        let both = [Call::RegionBaseValid { base }, Call::RegionContains { gpa }];
        ended = both.into_iter().try_for_each(|call| counts.check(calls, region, call));
        ended.is_ok()
    };
    if every_length(&mut each) && small_words(&mut each) && every_alignment(&mut each) {
        (0..cases).all(|case| random_bytes(&mut Random::new(seed ^ 0x7265_6769_6F6E, case), &mut each));
    }
    (counts, ended.err())
}

/// What is done with a region's bytes, a base and an address; false stops.
pub type Each<'a> = &'a mut dyn FnMut(&[u8], u64, u64) -> bool;

/// So many bytes, up to 80, of which the first 64 are a region's that has the base and the address.
pub fn of_length(length: usize, each: Each) -> bool {
    let words = [0x5000, 0x3000, 0x1000, 0x2000, 0x9000, 7, 0, 2, u64::MAX, u64::MAX];
    each(&words.map(u64::to_le_bytes).concat()[..length], 0x6000, 0x7FFF)
}

/// Every length up to 80: of a region's bytes, zeroes and ones.
fn every_length(each: Each) -> bool {
    (0..=80).all(|length| of_length(length, each) && each(&vec![0; length], 0, 0) && each(&vec![0xFF; length], u64::MAX, u64::MAX))
}

/// Every region of which each word is 0, 1, 2, 2^64 - 2 or 2^64 - 1, with every such base and address.
fn small_words(each: Each) -> bool {
    let small: &[u64] = &[0, 1, 2, u64::MAX - 1, u64::MAX];
    short::product(&[small; 6], &mut |v| {
        let words = [v[0], v[1], v[2], v[3], v[4], 0, 0, 0];
        each(&words.map(u64::to_le_bytes).concat(), v[5], v[5])
    })
}

/// Every alignment about a power of two, with every base about its multiples, without and with a page below 2^64.
fn every_alignment(each: Each) -> bool {
    alignments::every().into_iter().all(|alignment| {
        alignments::addresses(alignment).into_iter().all(|base| {
            [0, 0x1000].into_iter().all(|size| {
                let words = [0, size, alignment, 0, u64::MAX, 0, 0, 0];
                each(&words.map(u64::to_le_bytes).concat(), base, base)
            })
        })
    })
}

/// A number of any length in bits.
fn any_number(random: &mut Random) -> u64 {
    random.next() >> random.below(64)
}

/// A region with any alignment, mostly about a power of two, that may lie nearly anywhere.
fn aligned_words(random: &mut Random) -> [u64; 8] {
    let (power, any, lowest, end) = (1u64 << random.below(64), any_number(random), any_number(random), random.next());
    let near = random.pick(&[power, power, power - 1, power.wrapping_add(1), power.wrapping_mul(3), power.wrapping_mul(5)]);
    let alignment = random.pick(&[near, near, near | 1, near & generate::TOP, near.wrapping_add(0x1000), any]);
    let size = random.pick(&[0, 1, 0x1000, 0x3000]);
    let minimum = random.pick(&[0, 0, 1, alignment, lowest]);
    let maximum = random.pick(&[u64::MAX, u64::MAX, generate::TOP, end]);
    [random.next(), size, alignment, minimum, maximum, 0, 0, 0]
}

/// A multiple of an alignment.
fn any_multiple(random: &mut Random, alignment: u64) -> u64 {
    let number = any_number(random);
    number - number.checked_rem(alignment).unwrap_or(number)
}

/// Words of one sort or of a region, some with alignment 0 or a byte changed, some cut or with bytes behind them.
pub fn random_bytes(random: &mut Random, each: Each) -> bool {
    let mut words: [u64; 8] = match random.below(8) {
        0 => std::array::from_fn(|_| random.next()),
        1 => std::array::from_fn(|_| random.below(5) as u64),
        2 => std::array::from_fn(|_| u64::MAX - random.below(5) as u64),
        3 => std::array::from_fn(|_| 0x1000 * random.below(9) as u64),
        4 | 5 => aligned_words(random),
        _ => generate::region_words(random),
    };
    if random.one_in(8) {
        words[2] = 0;
    }
    let mut bytes = words.map(u64::to_le_bytes).concat();
    bytes.extend(random.next().to_le_bytes().repeat(2));
    if random.one_in(3) {
        bytes[random.below(64)] = random.next() as u8;
    }
    bytes.truncate(if random.one_in(4) { random.below(81) } else { 64 });
    let (multiple, known) = (any_multiple(random, words[2]), random.pick(&plan::bases(Some(&words))));
    let base = if random.one_in(3) { generate::near_multiple(random, words[2], multiple) } else { known };
    let gpa = random.pick(&plan::addresses(Some(&words)));
    each(&bytes, base, gpa)
}
