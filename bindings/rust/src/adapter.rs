//! Sheets from the headers of crate igvm 0.5.0, which is named by a path in the loader's crate: this crate has no dependency.

/// Functions that make a sheet of the headers of crate igvm 0.5.0, in the module where the macro stands. The feature `igvm` has it.
///
/// ```text
/// mod adapter {
///     sapyullu::igvm_adapter!(igvm);
/// }
///
/// let sheet = adapter::sheet(revision, &platforms, &initializations, &directives)?;
/// sapyullu::verdict(&sheet)?;
/// ```
///
/// The macro takes the path of crate igvm in the loader's crate. The types of the file format are those of crate `igvm_defs`; where that has another path,
/// it comes second: `igvm_adapter!(vendor::igvm, vendor::igvm_defs)`.
///
/// | function | what it makes |
/// |---|---|
/// | `sheet(revision, platforms, initializations, directives)` | the sheet's bytes, or the [`SheetError`](crate::SheetError) of lists that no sheet can hold |
/// | `revision`, `platform`, `initialization`, `directive` | this crate's value of one of that crate's, with its bytes lent |
/// | `relocatable_region`, `vtl` | that crate's value of one that an answer has |
///
/// `sheet` takes each list by reference, as a slice, a `Vec` or an iterator that can be cloned. Page data and the initial data of parameter areas are
/// copied once, from their headers into the sheet, which is the one allocation.
///
/// What has no code in a sheet becomes one that the library refuses: another platform type (12), another page type (30), a header of that crate's feature
/// `corim` (4). What no decision looks at is left out, since that crate has it as values and not as bytes: registers, contexts, keys and signatures are no
/// bytes, the flags of a page and the two codes of a CcaPolicy are 0.
#[macro_export]
macro_rules! igvm_adapter {
    ($($igvm:ident)::+) => {
        $crate::igvm_adapter!($($igvm)::+, igvm_defs);
    };
    ($($igvm:ident)::+, $($defs:ident)::+) => {
        /// The bytes of the sheet of these headers.
        ///
        /// # Errors
        ///
        /// A list is longer than a sheet can say, or a body is.
        #[allow(dead_code)]
        pub fn sheet<'a>(
            revision: $($igvm)::+::IgvmRevision,
            platforms: impl IntoIterator<Item = &'a $($igvm)::+::IgvmPlatformHeader, IntoIter: Clone>,
            initializations: impl IntoIterator<Item = &'a $($igvm)::+::IgvmInitializationHeader, IntoIter: Clone>,
            directives: impl IntoIterator<Item = &'a $($igvm)::+::IgvmDirectiveHeader, IntoIter: Clone>,
        ) -> ::core::result::Result<::std::vec::Vec<u8>, $crate::SheetError> {
            $crate::sheet_bytes(
                self::revision(revision),
                platforms.into_iter().map(platform),
                initializations.into_iter().map(initialization),
                directives.into_iter().map(directive),
            )
        }

        /// The revision.
        #[allow(dead_code)]
        pub fn revision(revision: $($igvm)::+::IgvmRevision) -> $crate::IgvmRevision {
            use $($igvm)::+::{Arch, IgvmRevision};
            match revision {
                IgvmRevision::V1 => $crate::IgvmRevision::V1,
                IgvmRevision::V2 { arch: Arch::X64, page_size } => $crate::IgvmRevision::V2 { arch: $crate::Arch::X64, page_size },
                IgvmRevision::V2 { arch: Arch::AArch64, page_size } => $crate::IgvmRevision::V2 { arch: $crate::Arch::AArch64, page_size },
            }
        }

        /// A platform header. A type without a name becomes one that is refused (12).
        #[allow(dead_code)]
        pub fn platform(header: &$($igvm)::+::IgvmPlatformHeader) -> $crate::IgvmPlatformHeader {
            use $crate::IgvmPlatformType as Code;
            use $($defs)::+::IgvmPlatformType;
            let $($igvm)::+::IgvmPlatformHeader::SupportedPlatform(info) = header;
            let platform_type = match info.platform_type {
                IgvmPlatformType::NATIVE => Code::NATIVE,
                IgvmPlatformType::VSM_ISOLATION => Code::VSM_ISOLATION,
                IgvmPlatformType::SEV_SNP => Code::SEV_SNP,
                IgvmPlatformType::TDX => Code::TDX,
                IgvmPlatformType::SEV => Code::SEV,
                IgvmPlatformType::SEV_ES => Code::SEV_ES,
                IgvmPlatformType::CCA => Code::CCA,
                _ => Code(u8::MAX),
            };
            $crate::IgvmPlatformHeader::SupportedPlatform($crate::IGVM_VHS_SUPPORTED_PLATFORM {
                compatibility_mask: info.compatibility_mask,
                highest_vtl: info.highest_vtl,
                platform_type,
                platform_version: info.platform_version,
                shared_gpa_boundary: info.shared_gpa_boundary,
            })
        }

        /// An initialization header. One of the feature `corim` becomes a row that is refused (4).
        #[allow(dead_code)]
        pub fn initialization(header: &$($igvm)::+::IgvmInitializationHeader) -> $crate::IgvmInitializationHeader {
            use $crate::IgvmInitializationHeader as Row;
            use $($igvm)::+::IgvmInitializationHeader as Header;
            match *header {
                Header::GuestPolicy { policy, compatibility_mask } => Row::GuestPolicy { policy, compatibility_mask },
                Header::CcaPolicy { compatibility_mask, attributes_required_zeroes, attributes_required_ones, .. } => Row::CcaPolicy {
                    compatibility_mask,
                    attributes_required_zeroes,
                    attributes_required_ones,
                    hash_algorithm: 0,
                    lfa_policy: 0,
                },
                Header::RelocatableRegion {
                    compatibility_mask,
                    relocation_alignment,
                    relocation_region_gpa,
                    relocation_region_size,
                    minimum_relocation_gpa,
                    maximum_relocation_gpa,
                    is_vtl2,
                    apply_rip_offset,
                    apply_gdtr_offset,
                    vp_index,
                    vtl,
                } => Row::RelocatableRegion {
                    compatibility_mask,
                    relocation_alignment,
                    relocation_region_gpa,
                    relocation_region_size,
                    minimum_relocation_gpa,
                    maximum_relocation_gpa,
                    is_vtl2,
                    apply_rip_offset,
                    apply_gdtr_offset,
                    vp_index,
                    vtl: level(vtl),
                },
                Header::PageTableRelocationRegion { compatibility_mask, gpa, size, used_size, vp_index, vtl } => {
                    Row::PageTableRelocationRegion { compatibility_mask, gpa, size, used_size, vp_index, vtl: level(vtl) }
                }
                #[allow(unreachable_patterns)]
                _ => Row::Unknown,
            }
        }

        /// A directive header, with its bytes lent. A page type without a name becomes one that is refused (30).
        #[allow(dead_code)]
        #[inline]
        pub fn directive(header: &$($igvm)::+::IgvmDirectiveHeader) -> $crate::IgvmDirectiveHeader<&[u8]> {
            use $crate::IgvmDirectiveHeader as Row;
            use $($igvm)::+::IgvmDirectiveHeader as Header;
            let opaque: &[u8] = &[];
            match *header {
                Header::PageData { gpa, compatibility_mask, data_type, ref data, .. } => {
                    Row::PageData { gpa, compatibility_mask, flags: 0, data_type: page_data_type(data_type), data }
                }
                Header::ParameterArea { number_of_bytes, parameter_area_index, ref initial_data } => {
                    Row::ParameterArea { number_of_bytes, parameter_area_index, initial_data }
                }
                Header::VpCount(ref header) => Row::VpCount(parameter(header)),
                Header::EnvironmentInfo(ref header) => Row::EnvironmentInfo(parameter(header)),
                Header::Srat(ref header) => Row::Srat(parameter(header)),
                Header::Madt(ref header) => Row::Madt(parameter(header)),
                Header::Slit(ref header) => Row::Slit(parameter(header)),
                Header::Pptt(ref header) => Row::Pptt(parameter(header)),
                Header::MmioRanges(ref header) => Row::MmioRanges(parameter(header)),
                Header::MemoryMap(ref header) => Row::MemoryMap(parameter(header)),
                Header::CommandLine(ref header) => Row::CommandLine(parameter(header)),
                Header::DeviceTree(ref header) => Row::DeviceTree(parameter(header)),
                Header::RequiredMemory { gpa, compatibility_mask, number_of_bytes, vtl2_protectable } => {
                    Row::RequiredMemory { gpa, compatibility_mask, number_of_bytes, vtl2_protectable }
                }
                Header::SnpVpContext { gpa, compatibility_mask, vp_index, .. } => {
                    Row::SnpVpContext { gpa, compatibility_mask, vp_index, vmsa: opaque }
                }
                Header::X64NativeVpContext { compatibility_mask, vp_index, .. } => {
                    Row::X64NativeVpContext { compatibility_mask, vp_index, context: opaque }
                }
                Header::X64VbsVpContext { vtl, compatibility_mask, .. } => {
                    Row::X64VbsVpContext { vtl: level(vtl), registers: opaque, compatibility_mask }
                }
                Header::AArch64VbsVpContext { vtl, compatibility_mask, .. } => {
                    Row::AArch64VbsVpContext { vtl: level(vtl), registers: opaque, compatibility_mask }
                }
                Header::AArch64CcaVpContext { compatibility_mask, vp_index, .. } => {
                    Row::AArch64CcaVpContext { compatibility_mask, vp_index, context: opaque }
                }
                Header::ParameterInsert(ref insert) => Row::ParameterInsert($crate::IGVM_VHS_PARAMETER_INSERT {
                    gpa: insert.gpa,
                    compatibility_mask: insert.compatibility_mask,
                    parameter_area_index: insert.parameter_area_index,
                }),
                Header::ErrorRange { gpa, compatibility_mask, size_bytes } => Row::ErrorRange { gpa, compatibility_mask, size_bytes },
                Header::SnpIdBlock { compatibility_mask, .. } => Row::SnpIdBlock { compatibility_mask, opaque },
                Header::VbsMeasurement { compatibility_mask, .. } => Row::VbsMeasurement { compatibility_mask, opaque },
            }
        }

        #[allow(dead_code)]
        fn parameter(header: &$($defs)::+::IGVM_VHS_PARAMETER) -> $crate::IGVM_VHS_PARAMETER {
            $crate::IGVM_VHS_PARAMETER { parameter_area_index: header.parameter_area_index, byte_offset: header.byte_offset }
        }

        #[allow(dead_code)]
        fn page_data_type(data_type: $($defs)::+::IgvmPageDataType) -> $crate::IgvmPageDataType {
            use $crate::IgvmPageDataType as Code;
            use $($defs)::+::IgvmPageDataType;
            match data_type {
                IgvmPageDataType::NORMAL => Code::NORMAL,
                IgvmPageDataType::SECRETS => Code::SECRETS,
                IgvmPageDataType::CPUID_DATA => Code::CPUID_DATA,
                IgvmPageDataType::CPUID_XF => Code::CPUID_XF,
                _ => Code(u16::MAX),
            }
        }

        #[allow(dead_code)]
        fn level(vtl: $($igvm)::+::hv_defs::Vtl) -> $crate::Vtl {
            use $($igvm)::+::hv_defs::Vtl;
            match vtl {
                Vtl::Vtl0 => $crate::Vtl::Vtl0,
                Vtl::Vtl1 => $crate::Vtl::Vtl1,
                Vtl::Vtl2 => $crate::Vtl::Vtl2,
            }
        }

        /// The VTL of an answer as that crate has it.
        #[allow(dead_code)]
        pub fn vtl(vtl: $crate::Vtl) -> $($igvm)::+::hv_defs::Vtl {
            use $($igvm)::+::hv_defs::Vtl;
            match vtl {
                $crate::Vtl::Vtl0 => Vtl::Vtl0,
                $crate::Vtl::Vtl1 => Vtl::Vtl1,
                $crate::Vtl::Vtl2 => Vtl::Vtl2,
            }
        }

        /// The region of an answer as that crate has it, for code that takes its type.
        #[allow(dead_code)]
        pub fn relocatable_region(region: &$crate::IgvmRelocatableRegion) -> $($igvm)::+::IgvmRelocatableRegion {
            $($igvm)::+::IgvmRelocatableRegion {
                base_gpa: region.base_gpa,
                size: region.size,
                relocation_alignment: region.relocation_alignment,
                minimum_relocation_gpa: region.minimum_relocation_gpa,
                maximum_relocation_gpa: region.maximum_relocation_gpa,
                is_vtl2: region.is_vtl2,
                apply_rip_offset: region.apply_rip_offset,
                apply_gdtr_offset: region.apply_gdtr_offset,
                vp_index: region.vp_index,
                vtl: vtl(region.vtl),
            }
        }
    };
}
