//! Header values, by the names of crate igvm 0.5.0. What no decision looks into (register lists, contexts, keys, signatures) is bytes here.

/// The architecture of an image.
#[derive(Debug, Clone, Copy, PartialEq, Eq)]
pub enum Arch {
    /// x86-64.
    X64,
    /// 64-bit Arm.
    AArch64,
}

/// The revision of the file format. V1 means X64 and a page size of 4096.
#[derive(Debug, Clone, Copy, PartialEq, Eq)]
pub enum IgvmRevision {
    /// Revision 1.
    V1,
    /// Revision 2.
    V2 {
        /// The architecture.
        arch: Arch,
        /// The page size in bytes. Any but 4096 is refused (7).
        page_size: u32,
    },
}

/// Virtual trust level.
#[derive(Debug, Clone, Copy, PartialEq, Eq, PartialOrd, Ord)]
pub enum Vtl {
    /// Level 0.
    Vtl0,
    /// Level 1.
    Vtl1,
    /// Level 2.
    Vtl2,
}

impl Vtl {
    pub(crate) fn code(self) -> u8 {
        self as u8
    }

    /// None for a code above 2.
    pub(crate) fn from_code(code: u64) -> Option<Vtl> {
        [Vtl::Vtl0, Vtl::Vtl1, Vtl::Vtl2].into_iter().find(|vtl| u64::from(vtl.code()) == code)
    }
}

/// The flags of a relocatable region as one number: 1 VTL 2, 2 instruction pointer, 4 GDT.
pub(crate) fn region_flags(is_vtl2: bool, apply_rip_offset: bool, apply_gdtr_offset: bool) -> u8 {
    u8::from(is_vtl2) | u8::from(apply_rip_offset) << 1 | u8::from(apply_gdtr_offset) << 2
}

/// A platform's type, by the sheet's code, which is not the code of an IGVM file. Any code can be written; one that has no name is refused (12).
#[derive(Debug, Clone, Copy, PartialEq, Eq)]
pub struct IgvmPlatformType(pub u8);

impl IgvmPlatformType {
    /// No isolation.
    pub const NATIVE: Self = Self(0);
    /// Isolation by the hypervisor (VBS).
    pub const VSM_ISOLATION: Self = Self(1);
    /// AMD SEV-SNP.
    pub const SEV_SNP: Self = Self(2);
    /// Intel TDX.
    pub const TDX: Self = Self(3);
    /// AMD SEV.
    pub const SEV: Self = Self(4);
    /// AMD SEV-ES.
    pub const SEV_ES: Self = Self(5);
    /// Arm CCA, on AArch64 alone.
    pub const CCA: Self = Self(6);
}

/// A page's type, by the sheet's code, which is not the code of an IGVM file. Any code can be written; one that has no name is refused (30).
#[derive(Debug, Clone, Copy, PartialEq, Eq)]
pub struct IgvmPageDataType(pub u16);

impl IgvmPageDataType {
    /// A page of the guest's memory.
    pub const NORMAL: Self = Self(0);
    /// The page that takes the secrets of the launch.
    pub const SECRETS: Self = Self(1);
    /// CPUID values.
    pub const CPUID_DATA: Self = Self(2);
    /// CPUID values of the extended state.
    pub const CPUID_XF: Self = Self(3);
}

/// The fields of a [`IgvmPlatformHeader::SupportedPlatform`].
#[allow(non_camel_case_types)]
#[derive(Debug, Clone, Copy, PartialEq, Eq)]
pub struct IGVM_VHS_SUPPORTED_PLATFORM {
    /// The platform's mask: one bit (8).
    pub compatibility_mask: u32,
    /// The highest VTL in use: 0 or 2 (9).
    pub highest_vtl: u8,
    /// The type, which no other platform of the image has (14).
    pub platform_type: IgvmPlatformType,
    /// The version of the platform's type: 1 (10).
    pub platform_version: u16,
    /// The shared GPA boundary: 0 for NATIVE and VSM_ISOLATION (11).
    pub shared_gpa_boundary: u64,
}

/// The fields of a parameter, as [`IgvmDirectiveHeader::VpCount`] has them.
#[allow(non_camel_case_types)]
#[derive(Debug, Clone, Copy, PartialEq, Eq)]
pub struct IGVM_VHS_PARAMETER {
    /// The parameter area that takes the parameter.
    pub parameter_area_index: u32,
    /// Where in the area. No decision looks at it.
    pub byte_offset: u32,
}

/// The fields of a [`IgvmDirectiveHeader::ParameterInsert`].
#[allow(non_camel_case_types)]
#[derive(Debug, Clone, Copy, PartialEq, Eq)]
pub struct IGVM_VHS_PARAMETER_INSERT {
    /// Where the area goes: a multiple of 4096 (21).
    pub gpa: u64,
    /// The platforms that it is for.
    pub compatibility_mask: u32,
    /// The parameter area.
    pub parameter_area_index: u32,
}

/// A header of the platform list.
#[derive(Debug, Clone, PartialEq, Eq)]
pub enum IgvmPlatformHeader {
    /// A platform that the image supports.
    SupportedPlatform(IGVM_VHS_SUPPORTED_PLATFORM),
}

/// A header of the initialization list.
#[derive(Debug, Clone, PartialEq, Eq)]
pub enum IgvmInitializationHeader {
    /// A guest policy, of which nothing is tested.
    GuestPolicy {
        /// The policy.
        policy: u64,
        /// The platforms that it is for.
        compatibility_mask: u32,
    },
    /// A policy of CCA platforms.
    CcaPolicy {
        /// The platforms that it is for: CCA platforms (25).
        compatibility_mask: u32,
        /// The bits that must be 0.
        attributes_required_zeroes: u64,
        /// The bits that must be 1, none of them among those that must be 0 (16).
        attributes_required_ones: u64,
        /// The code of the hash algorithm. No decision looks at it.
        hash_algorithm: u8,
        /// The code of the policy for live activation. No decision looks at it.
        lfa_policy: u8,
    },
    /// A region that the loader may move.
    RelocatableRegion {
        /// The platforms that it is for. The strict verdict asks for a context on each (38).
        compatibility_mask: u32,
        /// What a new base must be a multiple of: a multiple of 4096 (18), not 0 (19).
        relocation_alignment: u64,
        /// Where the region lies.
        relocation_region_gpa: u64,
        /// The region's bytes: a multiple of 4096 (17), not 0 (27).
        relocation_region_size: u64,
        /// The lowest new base.
        minimum_relocation_gpa: u64,
        /// The highest end behind a new base.
        maximum_relocation_gpa: u64,
        /// The region is VTL 2's.
        is_vtl2: bool,
        /// The instruction pointer moves with the region.
        apply_rip_offset: bool,
        /// The GDT's base moves with the region.
        apply_gdtr_offset: bool,
        /// The processor whose context takes the move: 0 (34).
        vp_index: u16,
        /// The VTL whose context takes the move (34).
        vtl: Vtl,
    },
    /// The region of the page tables that are built anew after a move.
    PageTableRelocationRegion {
        /// The platforms that it is for. A platform has at most one such region (26), and the strict verdict asks for a context on each (38).
        compatibility_mask: u32,
        /// Where the region lies: a multiple of 4096 (21).
        gpa: u64,
        /// The region's bytes: a multiple of 4096 (22), not 0 (27).
        size: u64,
        /// The bytes in use: a multiple of 4096 (22), at most the size (23).
        used_size: u64,
        /// The processor whose context takes the move: 0 (34).
        vp_index: u16,
        /// The VTL whose context takes the move (34).
        vtl: Vtl,
    },
    /// A header that a sheet has no kind for, as crate igvm's feature `corim` has them. It is written as a row of kind 0, which is refused (4).
    Unknown,
}

/// A header of the directive list. `Bytes` is how it has its bytes: a `Vec<u8>` of its own, or a `&[u8]` that is lent to it.
#[derive(Debug, Clone, PartialEq, Eq)]
pub enum IgvmDirectiveHeader<Bytes = Vec<u8>> {
    /// A page of the guest's memory.
    PageData {
        /// Where the page lies: a multiple of 4096 (21).
        gpa: u64,
        /// The platforms that it is for.
        compatibility_mask: u32,
        /// The bits of `IgvmPageDataFlags`. No decision looks at them.
        flags: u32,
        /// The page's type.
        data_type: IgvmPageDataType,
        /// What the page holds: at most 4096 bytes (31).
        data: Bytes,
    },
    /// A parameter area is allocated.
    ParameterArea {
        /// The area's bytes: a multiple of 4096 (22).
        number_of_bytes: u64,
        /// The area's index, which is allocated once (32).
        parameter_area_index: u32,
        /// What it holds at first: at most the area's bytes (31).
        initial_data: Bytes,
    },
    /// The number of processors goes to an area.
    VpCount(IGVM_VHS_PARAMETER),
    /// What is known of the environment goes to an area.
    EnvironmentInfo(IGVM_VHS_PARAMETER),
    /// The ACPI table SRAT goes to an area.
    Srat(IGVM_VHS_PARAMETER),
    /// The ACPI table MADT goes to an area.
    Madt(IGVM_VHS_PARAMETER),
    /// The ACPI table SLIT goes to an area.
    Slit(IGVM_VHS_PARAMETER),
    /// The ACPI table PPTT goes to an area.
    Pptt(IGVM_VHS_PARAMETER),
    /// The MMIO ranges go to an area.
    MmioRanges(IGVM_VHS_PARAMETER),
    /// The memory map goes to an area.
    MemoryMap(IGVM_VHS_PARAMETER),
    /// The command line goes to an area.
    CommandLine(IGVM_VHS_PARAMETER),
    /// The device tree goes to an area.
    DeviceTree(IGVM_VHS_PARAMETER),
    /// Memory that the guest can't do without.
    RequiredMemory {
        /// Where it lies: a multiple of 4096 (21).
        gpa: u64,
        /// The platforms that it is for.
        compatibility_mask: u32,
        /// Its bytes: a multiple of 4096 (22).
        number_of_bytes: u32,
        /// VTL 2 may protect it.
        vtl2_protectable: bool,
    },
    /// The context of an SNP processor.
    SnpVpContext {
        /// Where the saved state goes: a multiple of 4096 (21).
        gpa: u64,
        /// The platforms that it is for.
        compatibility_mask: u32,
        /// The processor.
        vp_index: u16,
        /// The saved state. No decision looks at it.
        vmsa: Bytes,
    },
    /// The context of an X64 processor without isolation, on X64 alone (24).
    X64NativeVpContext {
        /// The platforms that it is for.
        compatibility_mask: u32,
        /// The processor.
        vp_index: u16,
        /// The registers. No decision looks at them.
        context: Bytes,
    },
    /// The VBS context of the first X64 processor, on X64 alone (24).
    X64VbsVpContext {
        /// The VTL that it is for.
        vtl: Vtl,
        /// The registers. No decision looks at them.
        registers: Bytes,
        /// The platforms that it is for.
        compatibility_mask: u32,
    },
    /// The VBS context of the first AArch64 processor, on AArch64 alone (24).
    AArch64VbsVpContext {
        /// The VTL that it is for.
        vtl: Vtl,
        /// The registers. No decision looks at them.
        registers: Bytes,
        /// The platforms that it is for.
        compatibility_mask: u32,
    },
    /// The context of a CCA processor, on AArch64 alone (24).
    AArch64CcaVpContext {
        /// The platforms that it is for.
        compatibility_mask: u32,
        /// The processor.
        vp_index: u16,
        /// The registers. No decision looks at them.
        context: Bytes,
    },
    /// A parameter area, filled, goes into the guest's memory.
    ParameterInsert(IGVM_VHS_PARAMETER_INSERT),
    /// A range that is not the guest's.
    ErrorRange {
        /// Where it lies: a multiple of 4096 (21).
        gpa: u64,
        /// The platforms that it is for.
        compatibility_mask: u32,
        /// Its bytes.
        size_bytes: u32,
    },
    /// The ID block of an SNP launch.
    SnpIdBlock {
        /// The platforms that it is for.
        compatibility_mask: u32,
        /// All that follows the mask. No decision looks at it.
        opaque: Bytes,
    },
    /// The measurement of a VBS launch.
    VbsMeasurement {
        /// The platforms that it is for.
        compatibility_mask: u32,
        /// All that follows the mask. No decision looks at it.
        opaque: Bytes,
    },
}
