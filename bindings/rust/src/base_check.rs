//! What the check of a proposed base answers.

use std::fmt;

/// What the check of a proposed base answers: the first of the four that applies, in this order. The arithmetic is exact: a sum that reaches 2^64 is above
/// every maximum.
///
/// ```
/// use sapyullu::{BaseCheck, IgvmRelocatableRegion, Vtl};
///
/// let region = IgvmRelocatableRegion {
///     base_gpa: 0x100000,
///     size: 0x2000,
///     relocation_alignment: 0x1000,
///     minimum_relocation_gpa: 0x100000,
///     maximum_relocation_gpa: 0x200000,
///     is_vtl2: false,
///     apply_rip_offset: false,
///     apply_gdtr_offset: false,
///     vp_index: 0,
///     vtl: Vtl::Vtl0,
/// };
/// assert!(region.relocation_base_valid(0x1FE000).is_valid());
/// assert_eq!(region.relocation_base_valid(0x1FE800), BaseCheck::Unaligned);
/// assert_eq!(region.relocation_base_valid(0xFF000), BaseCheck::BelowMinimum);
/// let base = 0x1FF000;
/// match region.relocation_base_valid(base) {
///     BaseCheck::Valid => unreachable!(),
///     reason => assert_eq!(format!("{base:#x}: {reason}"), "0x1ff000: above the maximum"),
/// }
/// ```
#[derive(Debug, Clone, Copy, PartialEq, Eq, Hash)]
#[must_use = "a base that is turned down is told by this answer alone"]
pub enum BaseCheck {
    /// The region may be moved to the base: none of the three below applies.
    Valid,
    /// The base is no multiple of the region's alignment. Of alignment 0, which no region of an accepted image has, 0 is the only multiple.
    Unaligned,
    /// The base is below the region's minimum.
    BelowMinimum,
    /// base + size is above the region's maximum.
    AboveMaximum,
}

impl BaseCheck {
    const ALL: [BaseCheck; 4] = [BaseCheck::Valid, BaseCheck::Unaligned, BaseCheck::BelowMinimum, BaseCheck::AboveMaximum];

    /// Whether the region may be moved to the base: the bool that crate igvm's `relocation_base_valid` gives, where its sum does not overflow.
    pub fn is_valid(self) -> bool {
        self == BaseCheck::Valid
    }

    /// The answer as the library gives it, and as include/igvm.h names it (`IGVM_BASE_VALID` and its like): 1 to 4.
    pub fn number(self) -> u64 {
        match self {
            BaseCheck::Valid => 1,
            BaseCheck::Unaligned => 2,
            BaseCheck::BelowMinimum => 3,
            BaseCheck::AboveMaximum => 4,
        }
    }

    /// None for 0, by which a library before 0.4.0 said that a base is not valid, and above 4.
    pub(crate) fn from_number(number: u64) -> Option<BaseCheck> {
        BaseCheck::ALL.into_iter().find(|check| check.number() == number)
    }
}

impl fmt::Display for BaseCheck {
    fn fmt(&self, f: &mut fmt::Formatter<'_>) -> fmt::Result {
        f.write_str(match self {
            BaseCheck::Valid => "valid",
            BaseCheck::Unaligned => "unaligned",
            BaseCheck::BelowMinimum => "below the minimum",
            BaseCheck::AboveMaximum => "above the maximum",
        })
    }
}

#[cfg(test)]
mod tests {
    use super::*;

    #[test]
    fn the_numbers_1_to_4_and_no_others_are_answers() {
        assert_eq!((1..=4).map(|number| BaseCheck::from_number(number).unwrap()).collect::<Vec<_>>(), BaseCheck::ALL);
        assert_eq!([0, 5, 257, u64::MAX].map(BaseCheck::from_number), [None; 4]);
    }
}
