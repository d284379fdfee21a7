//! Stands for crate igvm 0.5.0 and crate igvm_defs, as far as the adapter uses them: their names, and codes of platform and page types that are not the
//! sheet's. compare/ tries the adapter on the enums of the crate itself, cut from its source.

#![allow(dead_code, non_camel_case_types)]

/// Crate igvm_defs. Its platform types and page types are open: any number may stand in them.
pub mod igvm_defs {
    #[derive(Clone, Copy, PartialEq, Eq)]
    pub struct IgvmPlatformType(pub u8);

    impl IgvmPlatformType {
        pub const NATIVE: Self = Self(10);
        pub const VSM_ISOLATION: Self = Self(12);
        pub const SEV_SNP: Self = Self(13);
        pub const TDX: Self = Self(14);
        pub const SEV: Self = Self(15);
        pub const SEV_ES: Self = Self(16);
        pub const CCA: Self = Self(17);
    }

    #[derive(Clone, Copy, PartialEq, Eq)]
    pub struct IgvmPageDataType(pub u16);

    impl IgvmPageDataType {
        pub const NORMAL: Self = Self(20);
        pub const SECRETS: Self = Self(21);
        pub const CPUID_DATA: Self = Self(22);
        pub const CPUID_XF: Self = Self(23);
    }

    pub struct IgvmPageDataFlags;

    #[derive(Clone, Copy)]
    pub struct IGVM_VHS_SUPPORTED_PLATFORM {
        pub compatibility_mask: u32,
        pub highest_vtl: u8,
        pub platform_type: IgvmPlatformType,
        pub platform_version: u16,
        pub shared_gpa_boundary: u64,
    }

    pub struct IGVM_VHS_PARAMETER {
        pub parameter_area_index: u32,
        pub byte_offset: u32,
    }

    pub struct IGVM_VHS_PARAMETER_INSERT {
        pub gpa: u64,
        pub compatibility_mask: u32,
        pub parameter_area_index: u32,
    }
}

pub mod hv_defs {
    #[derive(Debug, Clone, Copy, PartialEq, Eq)]
    pub enum Vtl {
        Vtl0,
        Vtl1,
        Vtl2,
    }
}

use hv_defs::Vtl;
use igvm_defs::*;

#[derive(Clone, Copy)]
pub enum Arch {
    X64,
    AArch64,
}

#[derive(Clone, Copy)]
pub enum IgvmRevision {
    V1,
    V2 { arch: Arch, page_size: u32 },
}

pub enum IgvmPlatformHeader {
    SupportedPlatform(IGVM_VHS_SUPPORTED_PLATFORM),
}

/// `CorimDocument` is there with the crate's feature corim alone.
pub enum IgvmInitializationHeader {
    GuestPolicy {
        policy: u64,
        compatibility_mask: u32,
    },
    CcaPolicy {
        compatibility_mask: u32,
        attributes_required_zeroes: u64,
        attributes_required_ones: u64,
        hash_algorithm: (),
        lfa_policy: (),
    },
    RelocatableRegion {
        compatibility_mask: u32,
        relocation_alignment: u64,
        relocation_region_gpa: u64,
        relocation_region_size: u64,
        minimum_relocation_gpa: u64,
        maximum_relocation_gpa: u64,
        is_vtl2: bool,
        apply_rip_offset: bool,
        apply_gdtr_offset: bool,
        vp_index: u16,
        vtl: Vtl,
    },
    PageTableRelocationRegion {
        compatibility_mask: u32,
        gpa: u64,
        size: u64,
        used_size: u64,
        vp_index: u16,
        vtl: Vtl,
    },
    CorimDocument {
        compatibility_mask: u32,
        document: Vec<u8>,
    },
}

/// Boxes stand for contexts, keys and signatures.
pub enum IgvmDirectiveHeader {
    PageData { gpa: u64, compatibility_mask: u32, flags: IgvmPageDataFlags, data_type: IgvmPageDataType, data: Vec<u8> },
    ParameterArea { number_of_bytes: u64, parameter_area_index: u32, initial_data: Vec<u8> },
    VpCount(IGVM_VHS_PARAMETER),
    EnvironmentInfo(IGVM_VHS_PARAMETER),
    Srat(IGVM_VHS_PARAMETER),
    Madt(IGVM_VHS_PARAMETER),
    Slit(IGVM_VHS_PARAMETER),
    Pptt(IGVM_VHS_PARAMETER),
    MmioRanges(IGVM_VHS_PARAMETER),
    MemoryMap(IGVM_VHS_PARAMETER),
    CommandLine(IGVM_VHS_PARAMETER),
    DeviceTree(IGVM_VHS_PARAMETER),
    RequiredMemory { gpa: u64, compatibility_mask: u32, number_of_bytes: u32, vtl2_protectable: bool },
    SnpVpContext { gpa: u64, compatibility_mask: u32, vp_index: u16, vmsa: Box<u8> },
    X64NativeVpContext { compatibility_mask: u32, vp_index: u16, context: Box<u8> },
    X64VbsVpContext { vtl: Vtl, registers: Vec<u128>, compatibility_mask: u32 },
    AArch64VbsVpContext { vtl: Vtl, registers: Vec<u128>, compatibility_mask: u32 },
    AArch64CcaVpContext { compatibility_mask: u32, vp_index: u16, context: Box<u8> },
    ParameterInsert(IGVM_VHS_PARAMETER_INSERT),
    ErrorRange { gpa: u64, compatibility_mask: u32, size_bytes: u32 },
    SnpIdBlock { compatibility_mask: u32, author_key_enabled: u8, id_public_key: Box<u8> },
    VbsMeasurement { compatibility_mask: u32, version: u32, signature: Box<[u8; 256]> },
}

#[derive(Debug, PartialEq, Eq)]
pub struct IgvmRelocatableRegion {
    pub base_gpa: u64,
    pub size: u64,
    pub relocation_alignment: u64,
    pub minimum_relocation_gpa: u64,
    pub maximum_relocation_gpa: u64,
    pub is_vtl2: bool,
    pub apply_rip_offset: bool,
    pub apply_gdtr_offset: bool,
    pub vp_index: u16,
    pub vtl: Vtl,
}
