//! What the check of a range of bases answers.

use std::fmt;

/// What the check of a range of bases answers: of the multiples of the region's alignment from the lowest to the highest, ends included, how many are valid.
/// A base of the range that is no multiple does not count, and the ends need not be multiples. Valid is what [`BaseCheck::Valid`](crate::BaseCheck::Valid) says,
/// and the arithmetic is exact.
///
/// ```
/// use sapyullu::*;
///
/// let platform = IGVM_VHS_SUPPORTED_PLATFORM {
///     compatibility_mask: 1,
///     highest_vtl: 0,
///     platform_type: IgvmPlatformType::NATIVE,
///     platform_version: 1,
///     shared_gpa_boundary: 0,
/// };
/// let sheet = Sheet {
///     revision: IgvmRevision::V1,
///     platform_headers: vec![IgvmPlatformHeader::SupportedPlatform(platform)],
///     initialization_headers: vec![IgvmInitializationHeader::RelocatableRegion {
///         compatibility_mask: 1,
///         relocation_alignment: 0x1000,
///         relocation_region_gpa: 0x100000,
///         relocation_region_size: 0x2000,
///         minimum_relocation_gpa: 0x100000,
///         maximum_relocation_gpa: 0x200000,
///         is_vtl2: false,
///         apply_rip_offset: false,
///         apply_gdtr_offset: false,
///         vp_index: 0,
///         vtl: Vtl::Vtl0,
///     }],
///     directive_headers: vec![IgvmDirectiveHeader::X64VbsVpContext { vtl: Vtl::Vtl0, registers: vec![], compatibility_mask: 1 }],
/// };
/// let bytes = sheet.bytes()?;
/// assert_eq!(relocation_base_range(&bytes, 1, 0, 0xFF001, 0x1FEFFF)?, BaseRange::Always);
/// assert_eq!(relocation_base_range(&bytes, 1, 0, 0, 0xFFFFF)?, BaseRange::Never);
/// assert_eq!(relocation_base_range(&bytes, 1, 0, 0x100001, 0x100FFF)?, BaseRange::Never, "no multiple is in the range");
/// let (lowest, highest) = (0x100000, 0x1FF000);
/// match relocation_base_range(&bytes, 1, 0, lowest, highest)? {
///     BaseRange::Always => unreachable!(),
///     answer => assert_eq!(format!("{lowest:#x} to {highest:#x}: {answer}"), "0x100000 to 0x1ff000: sometimes"),
/// }
/// # Ok::<(), Box<dyn std::error::Error>>(())
/// ```
#[derive(Debug, Clone, Copy, PartialEq, Eq, Hash)]
#[must_use = "that not every base of the range is valid is told by this answer alone"]
pub enum BaseRange {
    /// There is a multiple in the range, and all are valid: the region may be moved to each.
    Always,
    /// No multiple in the range is valid. So it is too where there is none.
    Never,
    /// Some multiples in the range are valid, and some are not.
    Sometimes,
}

impl BaseRange {
    const ALL: [BaseRange; 3] = [BaseRange::Always, BaseRange::Never, BaseRange::Sometimes];

    /// The answer as the library gives it, and as include/igvm.h names it (`IGVM_RANGE_ALWAYS` and its like): 1 to 3.
    pub fn number(self) -> u64 {
        match self {
            BaseRange::Always => 1,
            BaseRange::Never => 2,
            BaseRange::Sometimes => 3,
        }
    }

    /// None for 0, which stands in a refusal alone, and above 3.
    pub(crate) fn from_number(number: u64) -> Option<BaseRange> {
        BaseRange::ALL.into_iter().find(|range| range.number() == number)
    }
}

impl fmt::Display for BaseRange {
    fn fmt(&self, f: &mut fmt::Formatter<'_>) -> fmt::Result {
        f.write_str(match self {
            BaseRange::Always => "always",
            BaseRange::Never => "never",
            BaseRange::Sometimes => "sometimes",
        })
    }
}

#[cfg(test)]
mod tests {
    use super::*;

    #[test]
    fn the_numbers_1_to_3_and_no_others_are_answers() {
        assert_eq!((1..=3).map(|number| BaseRange::from_number(number).unwrap()).collect::<Vec<_>>(), BaseRange::ALL);
        assert_eq!([0, 4, 257, u64::MAX].map(BaseRange::from_number), [None; 4]);
    }
}
