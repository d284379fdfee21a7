//! Stands for module snp_defs (not in the source at hand): the saved state of an SNP processor.
//! Assumed: no decision looks into it. It holds nothing here.

#[derive(Debug, Clone, Default, PartialEq, Eq)]
pub struct SevVmsa;
