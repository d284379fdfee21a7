//! Header values that several tests start from.

use sapyullu::*;

pub fn platform() -> IGVM_VHS_SUPPORTED_PLATFORM {
    IGVM_VHS_SUPPORTED_PLATFORM {
        compatibility_mask: 1,
        highest_vtl: 0,
        platform_type: IgvmPlatformType::NATIVE,
        platform_version: 1,
        shared_gpa_boundary: 0,
    }
}

/// Image B with this region in place of its own.
pub fn image_with(region: IgvmInitializationHeader) -> Sheet {
    Sheet {
        revision: IgvmRevision::V1,
        platform_headers: vec![IgvmPlatformHeader::SupportedPlatform(platform())],
        initialization_headers: vec![region],
        directive_headers: vec![IgvmDirectiveHeader::X64VbsVpContext { vtl: Vtl::Vtl0, registers: vec![], compatibility_mask: 1 }],
    }
}

/// The region of image B with this gpa and size.
pub fn region(gpa: u64, size: u64) -> IgvmInitializationHeader {
    bounded_region(0x1000, gpa, size, 0, 0x20_0000)
}

/// The region of image B with this alignment, gpa, size, minimum and maximum.
pub fn bounded_region(alignment: u64, gpa: u64, size: u64, minimum: u64, maximum: u64) -> IgvmInitializationHeader {
    IgvmInitializationHeader::RelocatableRegion {
        compatibility_mask: 1,
        relocation_alignment: alignment,
        relocation_region_gpa: gpa,
        relocation_region_size: size,
        minimum_relocation_gpa: minimum,
        maximum_relocation_gpa: maximum,
        is_vtl2: false,
        apply_rip_offset: false,
        apply_gdtr_offset: false,
        vp_index: 0,
        vtl: Vtl::Vtl0,
    }
}

pub fn image_b() -> Sheet {
    image_with(region(0x10_0000, 0x2000))
}
