//! The adapter on a stand-in for crate igvm: each header makes the row that this crate's own header of the same fields makes.

mod counting;
mod stand_in;

mod adapter {
    sapyullu::igvm_adapter!(crate::stand_in, crate::stand_in::igvm_defs);
}

/// As a loader has it that depends on both crates by their names.
mod by_name {
    use crate::stand_in as igvm;
    use crate::stand_in::igvm_defs;
    sapyullu::igvm_adapter!(igvm);
}

use counting::counted;
use sapyullu as own;
use sapyullu::{Error, List, Place, Vtl};
use stand_in::igvm_defs::*;
use stand_in::*;

const PLATFORM: IGVM_VHS_SUPPORTED_PLATFORM = IGVM_VHS_SUPPORTED_PLATFORM {
    compatibility_mask: 1,
    highest_vtl: 0,
    platform_type: IgvmPlatformType::NATIVE,
    platform_version: 1,
    shared_gpa_boundary: 0,
};

fn native() -> Vec<IgvmPlatformHeader> {
    vec![IgvmPlatformHeader::SupportedPlatform(PLATFORM)]
}

fn region(gpa: u64) -> IgvmInitializationHeader {
    IgvmInitializationHeader::RelocatableRegion {
        compatibility_mask: 1,
        relocation_alignment: 0x1000,
        relocation_region_gpa: gpa,
        relocation_region_size: 0x2000,
        minimum_relocation_gpa: 0,
        maximum_relocation_gpa: 0x20_0000,
        is_vtl2: false,
        apply_rip_offset: true,
        apply_gdtr_offset: false,
        vp_index: 0,
        vtl: hv_defs::Vtl::Vtl1,
    }
}

fn context() -> IgvmDirectiveHeader {
    IgvmDirectiveHeader::X64VbsVpContext { vtl: hv_defs::Vtl::Vtl1, registers: vec![9; 3], compatibility_mask: 1 }
}

fn page(data_type: IgvmPageDataType) -> IgvmDirectiveHeader {
    IgvmDirectiveHeader::PageData { gpa: 0x5000, compatibility_mask: 1, flags: IgvmPageDataFlags, data_type, data: vec![7; 4096] }
}

/// The sheet of this crate's own headers.
fn own_sheet(
    revision: own::IgvmRevision,
    platform_headers: Vec<own::IgvmPlatformHeader>,
    initialization_headers: Vec<own::IgvmInitializationHeader>,
    directive_headers: Vec<own::IgvmDirectiveHeader>,
) -> Vec<u8> {
    own::Sheet { revision, platform_headers, initialization_headers, directive_headers }.bytes().unwrap()
}

#[test]
fn an_image_gets_its_verdict_and_its_regions() {
    let (platforms, initializations, directives) = (native(), vec![region(0x10_0000), region(0x4000)], vec![context()]);
    let sheet = adapter::sheet(IgvmRevision::V1, &platforms, &initializations, &directives).unwrap();
    assert_eq!(own::verdict(&sheet).unwrap().line(), "accepted 1 2 1");
    let found = own::relocations(&sheet, 1).unwrap();
    let expected = IgvmRelocatableRegion {
        base_gpa: 0x4000,
        size: 0x2000,
        relocation_alignment: 0x1000,
        minimum_relocation_gpa: 0,
        maximum_relocation_gpa: 0x20_0000,
        is_vtl2: false,
        apply_rip_offset: true,
        apply_gdtr_offset: false,
        vp_index: 0,
        vtl: hv_defs::Vtl::Vtl1,
    };
    assert_eq!(adapter::relocatable_region(&found.regions[1]), expected);
    assert_eq!(by_name::sheet(IgvmRevision::V1, &platforms, &initializations, &directives), Ok(sheet));
}

#[test]
fn revisions_are_those_of_the_crate() {
    let head = |revision| adapter::sheet(revision, [], [], []).unwrap();
    let own_head = |revision| own_sheet(revision, vec![], vec![], vec![]);
    assert_eq!(head(IgvmRevision::V1), own_head(own::IgvmRevision::V1));
    let pairs = [(Arch::X64, own::Arch::X64), (Arch::AArch64, own::Arch::AArch64)];
    for (arch, own_arch) in pairs {
        assert_eq!(head(IgvmRevision::V2 { arch, page_size: 8192 }), own_head(own::IgvmRevision::V2 { arch: own_arch, page_size: 8192 }));
    }
}

#[test]
fn platform_types_are_told_by_name() {
    use own::IgvmPlatformType as Own;
    let pairs = [
        (IgvmPlatformType::NATIVE, Own::NATIVE),
        (IgvmPlatformType::VSM_ISOLATION, Own::VSM_ISOLATION),
        (IgvmPlatformType::SEV_SNP, Own::SEV_SNP),
        (IgvmPlatformType::TDX, Own::TDX),
        (IgvmPlatformType::SEV, Own::SEV),
        (IgvmPlatformType::SEV_ES, Own::SEV_ES),
        (IgvmPlatformType::CCA, Own::CCA),
    ];
    for (platform_type, own_type) in pairs {
        let info = IGVM_VHS_SUPPORTED_PLATFORM {
            compatibility_mask: 1 << 30,
            highest_vtl: 2,
            platform_type,
            platform_version: 0x304,
            shared_gpa_boundary: 5 << 40,
        };
        let expected = own::IgvmPlatformHeader::SupportedPlatform(own::IGVM_VHS_SUPPORTED_PLATFORM {
            compatibility_mask: 1 << 30,
            highest_vtl: 2,
            platform_type: own_type,
            platform_version: 0x304,
            shared_gpa_boundary: 5 << 40,
        });
        assert_eq!(adapter::platform(&IgvmPlatformHeader::SupportedPlatform(info)), expected);
    }
}

#[test]
fn what_has_no_code_is_refused_in_its_place() {
    let refused = |platforms: &[IgvmPlatformHeader], initializations: &[IgvmInitializationHeader], directives: &[IgvmDirectiveHeader]| {
        let refusal = own::verdict(&adapter::sheet(IgvmRevision::V1, platforms, initializations, directives).unwrap()).unwrap_err();
        (refusal.error, refusal.place.unwrap())
    };
    let at = |list, index| Place { list, index };
    let info = IGVM_VHS_SUPPORTED_PLATFORM { platform_type: IgvmPlatformType(0), ..PLATFORM };
    assert_eq!(refused(&[IgvmPlatformHeader::SupportedPlatform(info)], &[], &[]), (Error::InvalidPlatformType, at(List::Platform, 0)));
    let pages = [page(IgvmPageDataType::NORMAL), page(IgvmPageDataType(0))];
    assert_eq!(refused(&native(), &[], &pages), (Error::InvalidPageDataType, at(List::Directive, 1)));
    let corim = [region(0), IgvmInitializationHeader::CorimDocument { compatibility_mask: 1, document: vec![] }];
    assert_eq!(refused(&native(), &corim, &[context()]), (Error::InvalidKind, at(List::Initialization, 1)));
}

#[test]
fn headers_can_be_left_out_by_a_filter() {
    let initializations = [IgvmInitializationHeader::CorimDocument { compatibility_mask: 1, document: vec![] }, region(0)];
    let kept = initializations.iter().filter(|header| !matches!(header, IgvmInitializationHeader::CorimDocument { .. }));
    let sheet = adapter::sheet(IgvmRevision::V1, &native(), kept, &[context()]).unwrap();
    assert_eq!(own::verdict(&sheet).unwrap().line(), "accepted 1 1 1");
}

#[test]
fn initialization_headers_keep_their_fields() {
    use own::IgvmInitializationHeader as Own;
    use IgvmInitializationHeader::*;
    let levels = [(hv_defs::Vtl::Vtl0, Vtl::Vtl0), (hv_defs::Vtl::Vtl1, Vtl::Vtl1), (hv_defs::Vtl::Vtl2, Vtl::Vtl2)];
    for (vtl, own_vtl) in levels {
        let table = PageTableRelocationRegion { compatibility_mask: 1, gpa: 2, size: 3, used_size: 4, vp_index: 5, vtl };
        let expected = Own::PageTableRelocationRegion { compatibility_mask: 1, gpa: 2, size: 3, used_size: 4, vp_index: 5, vtl: own_vtl };
        assert_eq!(adapter::initialization(&table), expected);
        assert_eq!(adapter::vtl(own_vtl), vtl);
    }
    assert_eq!(
        adapter::initialization(&GuestPolicy { policy: 1, compatibility_mask: 2 }),
        Own::GuestPolicy { policy: 1, compatibility_mask: 2 }
    );
    assert_eq!(
        adapter::initialization(&CcaPolicy {
            compatibility_mask: 1,
            attributes_required_zeroes: 2,
            attributes_required_ones: 3,
            hash_algorithm: (),
            lfa_policy: ()
        }),
        Own::CcaPolicy {
            compatibility_mask: 1,
            attributes_required_zeroes: 2,
            attributes_required_ones: 3,
            hash_algorithm: 0,
            lfa_policy: 0
        }
    );
}

#[test]
fn a_region_keeps_its_fields() {
    for flags in 0..8 {
        let [is_vtl2, apply_rip_offset, apply_gdtr_offset] = [1, 2, 4].map(|bit| flags & bit != 0);
        let region = IgvmInitializationHeader::RelocatableRegion {
            compatibility_mask: 1,
            relocation_alignment: 2,
            relocation_region_gpa: 3,
            relocation_region_size: 4,
            minimum_relocation_gpa: 5,
            maximum_relocation_gpa: 6,
            is_vtl2,
            apply_rip_offset,
            apply_gdtr_offset,
            vp_index: 7,
            vtl: hv_defs::Vtl::Vtl2,
        };
        let expected = own::IgvmInitializationHeader::RelocatableRegion {
            compatibility_mask: 1,
            relocation_alignment: 2,
            relocation_region_gpa: 3,
            relocation_region_size: 4,
            minimum_relocation_gpa: 5,
            maximum_relocation_gpa: 6,
            is_vtl2,
            apply_rip_offset,
            apply_gdtr_offset,
            vp_index: 7,
            vtl: Vtl::Vtl2,
        };
        assert_eq!(adapter::initialization(&region), expected);
    }
}

#[test]
fn data_is_lent_and_page_types_are_told_by_name() {
    use own::IgvmPageDataType as Own;
    let pairs = [
        (IgvmPageDataType::NORMAL, Own::NORMAL),
        (IgvmPageDataType::SECRETS, Own::SECRETS),
        (IgvmPageDataType::CPUID_DATA, Own::CPUID_DATA),
        (IgvmPageDataType::CPUID_XF, Own::CPUID_XF),
    ];
    for (data_type, own_type) in pairs {
        let data: &[u8] = &[7; 4096];
        let expected = own::IgvmDirectiveHeader::PageData { gpa: 0x5000, compatibility_mask: 1, flags: 0, data_type: own_type, data };
        assert_eq!(adapter::directive(&page(data_type)), expected);
    }
    let area = IgvmDirectiveHeader::ParameterArea { number_of_bytes: 1, parameter_area_index: 2, initial_data: b"xyz".to_vec() };
    let initial_data = b"xyz".as_slice();
    let expected = own::IgvmDirectiveHeader::ParameterArea { number_of_bytes: 1, parameter_area_index: 2, initial_data };
    assert_eq!(adapter::directive(&area), expected);
}

#[test]
fn parameters_keep_their_fields() {
    use own::IgvmDirectiveHeader as Own;
    use IgvmDirectiveHeader::*;
    let makers = [VpCount, EnvironmentInfo, Srat, Madt, Slit, Pptt, MmioRanges, MemoryMap, CommandLine, DeviceTree];
    let own_makers = [
        Own::VpCount,
        Own::EnvironmentInfo,
        Own::Srat,
        Own::Madt,
        Own::Slit,
        Own::Pptt,
        Own::MmioRanges,
        Own::MemoryMap,
        Own::CommandLine,
        Own::DeviceTree,
    ];
    for (make, own_make) in makers.into_iter().zip(own_makers) {
        let header = make(IGVM_VHS_PARAMETER { parameter_area_index: 1, byte_offset: 2 });
        assert_eq!(adapter::directive(&header), own_make(own::IGVM_VHS_PARAMETER { parameter_area_index: 1, byte_offset: 2 }));
    }
    let insert = ParameterInsert(IGVM_VHS_PARAMETER_INSERT { gpa: 1, compatibility_mask: 2, parameter_area_index: 3 });
    let expected = Own::ParameterInsert(own::IGVM_VHS_PARAMETER_INSERT { gpa: 1, compatibility_mask: 2, parameter_area_index: 3 });
    assert_eq!(adapter::directive(&insert), expected);
}

#[test]
fn other_directives_keep_their_fields_and_no_opaque_bytes() {
    use own::IgvmDirectiveHeader as Own;
    use IgvmDirectiveHeader::*;
    let (compatibility_mask, vp_index, vtl, own_vtl) = (2, 3, hv_defs::Vtl::Vtl1, Vtl::Vtl1);
    let (vmsa, context, registers, opaque): (&[u8], &[u8], &[u8], &[u8]) = (&[], &[], &[], &[]);
    let pairs = [
        (
            RequiredMemory { gpa: 1, compatibility_mask, number_of_bytes: 4, vtl2_protectable: true },
            Own::RequiredMemory { gpa: 1, compatibility_mask, number_of_bytes: 4, vtl2_protectable: true },
        ),
        (
            SnpVpContext { gpa: 1, compatibility_mask, vp_index, vmsa: Box::new(9) },
            Own::SnpVpContext { gpa: 1, compatibility_mask, vp_index, vmsa },
        ),
        (
            X64NativeVpContext { compatibility_mask, vp_index, context: Box::new(9) },
            Own::X64NativeVpContext { compatibility_mask, vp_index, context },
        ),
        (
            X64VbsVpContext { vtl, registers: vec![9; 3], compatibility_mask },
            Own::X64VbsVpContext { vtl: own_vtl, registers, compatibility_mask },
        ),
        (
            AArch64VbsVpContext { vtl, registers: vec![9; 3], compatibility_mask },
            Own::AArch64VbsVpContext { vtl: own_vtl, registers, compatibility_mask },
        ),
        (
            AArch64CcaVpContext { compatibility_mask, vp_index, context: Box::new(9) },
            Own::AArch64CcaVpContext { compatibility_mask, vp_index, context },
        ),
        (ErrorRange { gpa: 1, compatibility_mask, size_bytes: 4 }, Own::ErrorRange { gpa: 1, compatibility_mask, size_bytes: 4 }),
        (
            SnpIdBlock { compatibility_mask, author_key_enabled: 1, id_public_key: Box::new(9) },
            Own::SnpIdBlock { compatibility_mask, opaque },
        ),
        (
            VbsMeasurement { compatibility_mask, version: 4, signature: Box::new([9; 256]) },
            Own::VbsMeasurement { compatibility_mask, opaque },
        ),
    ];
    for (header, expected) in pairs {
        assert_eq!(adapter::directive(&header), expected);
    }
}

#[test]
fn a_sheet_is_one_allocation_of_its_length() {
    let initializations: Vec<_> = (0..64).map(|number| region(0x2000 * number)).collect();
    let directives: Vec<_> = [context()].into_iter().chain((0..20).map(|_| page(IgvmPageDataType::SECRETS))).collect();
    let platforms = native();
    let (sheet, made) = counted(|| adapter::sheet(IgvmRevision::V1, &platforms, &initializations, &directives).unwrap());
    assert_eq!(own::verdict(&sheet).unwrap().line(), "accepted 1 64 21");
    assert_eq!(made, [sheet.len()]);
}
