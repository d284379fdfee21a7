//! Stands for crate igvm_defs: the types and constants of the file format that the decisions name.
//! Assumed: the fields have these names and widths; the open enums compare by their numbers; the page size is 4096 and every platform
//! version is 1 (document 01 says to take it so). The numbers of platform types and page types are the sheet's own: the decisions only compare them with the named ones.
//! Contexts, signatures and keys hold nothing here: no decision looks into them.

#![allow(non_camel_case_types)]

pub const PAGE_SIZE_4K: u64 = 4096;

pub const IGVM_NATIVE_PLATFORM_VERSION: u16 = 1;
pub const IGVM_VSM_ISOLATION_PLATFORM_VERSION: u16 = 1;
pub const IGVM_SEV_SNP_PLATFORM_VERSION: u16 = 1;
pub const IGVM_TDX_PLATFORM_VERSION: u16 = 1;
pub const IGVM_SEV_PLATFORM_VERSION: u16 = 1;
pub const IGVM_SEV_ES_PLATFORM_VERSION: u16 = 1;
pub const IGVM_CCA_PLATFORM_VERSION: u16 = 1;

#[derive(Debug, Clone, Copy, PartialEq, Eq, Hash)]
pub struct IgvmPlatformType(pub u8);

impl IgvmPlatformType {
    pub const NATIVE: Self = Self(0);
    pub const VSM_ISOLATION: Self = Self(1);
    pub const SEV_SNP: Self = Self(2);
    pub const TDX: Self = Self(3);
    pub const SEV: Self = Self(4);
    pub const SEV_ES: Self = Self(5);
    pub const CCA: Self = Self(6);
}

#[derive(Debug, Clone, Copy, PartialEq, Eq)]
pub struct IGVM_VHS_SUPPORTED_PLATFORM {
    pub compatibility_mask: u32,
    pub highest_vtl: u8,
    pub platform_type: IgvmPlatformType,
    pub platform_version: u16,
    pub shared_gpa_boundary: u64,
}

#[derive(Debug, Clone, Copy, PartialEq, Eq)]
pub struct CcaHashAlgorithm(pub u8);

#[derive(Debug, Clone, Copy, PartialEq, Eq)]
pub struct CcaLfaPolicy(pub u8);

#[derive(Debug, Clone, Copy, PartialEq, Eq)]
pub struct IgvmPageDataFlags(pub u32);

#[derive(Debug, Clone, Copy, PartialEq, Eq)]
pub struct IgvmPageDataType(pub u16);

impl IgvmPageDataType {
    pub const NORMAL: Self = Self(0);
    pub const SECRETS: Self = Self(1);
    pub const CPUID_DATA: Self = Self(2);
    pub const CPUID_XF: Self = Self(3);
}

#[derive(Debug, Clone, Copy, PartialEq, Eq)]
pub struct IGVM_VHS_PARAMETER {
    pub parameter_area_index: u32,
    pub byte_offset: u32,
}

#[derive(Debug, Clone, Copy, PartialEq, Eq)]
pub struct IGVM_VHS_PARAMETER_INSERT {
    pub gpa: u64,
    pub compatibility_mask: u32,
    pub parameter_area_index: u32,
}

#[derive(Debug, Clone, Default, PartialEq, Eq)]
pub struct IgvmNativeVpContextX64;

#[derive(Debug, Clone, Default, PartialEq, Eq)]
pub struct IgvmVpContextAArch64Cca;

#[derive(Debug, Clone, Default, PartialEq, Eq)]
pub struct IGVM_VHS_SNP_ID_BLOCK_SIGNATURE;

#[derive(Debug, Clone, Default, PartialEq, Eq)]
pub struct IGVM_VHS_SNP_ID_BLOCK_PUBLIC_KEY;
