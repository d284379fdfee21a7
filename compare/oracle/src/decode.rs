//! From a sheet's bytes to the Rust's headers, by document 01's table. Opaque bytes become defaults; data stays as it is.

use crate::*;

/// The headers of a readable sheet.
#[derive(Clone)]
pub struct Headers {
    pub revision: IgvmRevision,
    pub platforms: Vec<IgvmPlatformHeader>,
    pub initializations: Vec<IgvmInitializationHeader>,
    pub directives: Vec<IgvmDirectiveHeader>,
    /// the kind of each row, across the lists
    pub kinds: Vec<u32>,
}

/// Bytes that are read from the front. Each reading fails where they end.
struct Bytes<'a>(&'a [u8]);

impl<'a> Bytes<'a> {
    fn take(&mut self, length: usize) -> Option<&'a [u8]> {
        if self.0.len() < length {
            return None;
        }
        let (front, rest) = self.0.split_at(length);
        self.0 = rest;
        Some(front)
    }

    fn u8(&mut self) -> Option<u8> {
        Some(self.take(1)?[0])
    }

    fn u16(&mut self) -> Option<u16> {
        Some(u16::from_le_bytes(self.take(2)?.try_into().unwrap()))
    }

    fn u32(&mut self) -> Option<u32> {
        Some(u32::from_le_bytes(self.take(4)?.try_into().unwrap()))
    }

    fn u64(&mut self) -> Option<u64> {
        Some(u64::from_le_bytes(self.take(8)?.try_into().unwrap()))
    }

    fn vtl(&mut self) -> Option<Vtl> {
        Vtl::try_from(self.u8()?).ok()
    }

    fn flag(&mut self) -> Option<bool> {
        match self.u8()? {
            0 => Some(false),
            1 => Some(true),
            _ => None,
        }
    }

    /// The bytes left, all of which are taken.
    fn rest(&mut self) -> &'a [u8] {
        std::mem::take(&mut self.0)
    }
}

impl Headers {
    /// None where the sheet is not readable: one of 1 to 6 applies.
    pub fn decode(sheet: &[u8]) -> Option<Headers> {
        let mut head = Bytes(sheet);
        let (revision, arch) = (head.u8()?, head.u8()?);
        let (zeroes, page_size) = (head.u16()?, head.u32()?);
        let counts = [head.u16()?, head.u16()?, head.u16()?];
        if zeroes != 0 || head.u16()? != 0 {
            return None;
        }
        if counts[0] > 16 || counts[1] > 64 || counts[2] > 8192 || sheet.len() > 67_108_864 {
            return None;
        }
        let mut headers = Headers {
            revision: revision_of(revision, arch, page_size)?,
            platforms: Vec::new(),
            initializations: Vec::new(),
            directives: Vec::new(),
            kinds: Vec::new(),
        };
        headers.rows(head, counts)?;
        Some(headers)
    }

    fn rows(&mut self, mut rest: Bytes, counts: [u16; 3]) -> Option<()> {
        let rows = counts.iter().map(|&count| usize::from(count)).sum::<usize>();
        let mut table = Bytes(rest.take(8 * rows)?);
        for (list, &count) in counts.iter().enumerate() {
            for _ in 0..count {
                let kind = table.u32()?;
                let mut body = Bytes(rest.take(table.u32()? as usize)?);
                match list {
                    0 => self.platforms.push(platform(kind, &mut body)?),
                    1 => self.initializations.push(initialization(kind, &mut body)?),
                    _ => self.directives.push(directive(kind, &mut body)?),
                }
                if !body.rest().is_empty() {
                    return None;
                }
                self.kinds.push(kind);
            }
        }
        rest.rest().is_empty().then_some(())
    }
}

fn revision_of(revision: u8, arch: u8, page_size: u32) -> Option<IgvmRevision> {
    match (revision, arch, page_size) {
        (1, 0, 0) => Some(IgvmRevision::V1),
        (2, 0, _) => Some(IgvmRevision::V2 { arch: Arch::X64, page_size }),
        (2, 1, _) => Some(IgvmRevision::V2 { arch: Arch::AArch64, page_size }),
        _ => None,
    }
}

fn platform(kind: u32, body: &mut Bytes) -> Option<IgvmPlatformHeader> {
    if kind != 1 {
        return None;
    }
    Some(IgvmPlatformHeader::SupportedPlatform(IGVM_VHS_SUPPORTED_PLATFORM {
        compatibility_mask: body.u32()?,
        highest_vtl: body.u8()?,
        platform_type: IgvmPlatformType(body.u8()?),
        platform_version: body.u16()?,
        shared_gpa_boundary: body.u64()?,
    }))
}

fn initialization(kind: u32, body: &mut Bytes) -> Option<IgvmInitializationHeader> {
    use IgvmInitializationHeader::*;
    Some(match kind {
        16 => GuestPolicy { policy: body.u64()?, compatibility_mask: body.u32()? },
        17 => CcaPolicy {
            compatibility_mask: body.u32()?,
            attributes_required_zeroes: body.u64()?,
            attributes_required_ones: body.u64()?,
            hash_algorithm: CcaHashAlgorithm(body.u8()?),
            lfa_policy: CcaLfaPolicy(body.u8()?),
        },
        18 => relocatable_region(body)?,
        19 => PageTableRelocationRegion {
            compatibility_mask: body.u32()?,
            gpa: body.u64()?,
            size: body.u64()?,
            used_size: body.u64()?,
            vp_index: body.u16()?,
            vtl: body.vtl()?,
        },
        _ => return None,
    })
}

fn relocatable_region(body: &mut Bytes) -> Option<IgvmInitializationHeader> {
    let compatibility_mask = body.u32()?;
    let [relocation_alignment, relocation_region_gpa, relocation_region_size] = [body.u64()?, body.u64()?, body.u64()?];
    let [minimum_relocation_gpa, maximum_relocation_gpa] = [body.u64()?, body.u64()?];
    let flags = body.u8()?;
    if flags > 7 {
        return None;
    }
    Some(IgvmInitializationHeader::RelocatableRegion {
        compatibility_mask,
        relocation_alignment,
        relocation_region_gpa,
        relocation_region_size,
        minimum_relocation_gpa,
        maximum_relocation_gpa,
        is_vtl2: flags & 1 != 0,
        apply_rip_offset: flags & 2 != 0,
        apply_gdtr_offset: flags & 4 != 0,
        vp_index: body.u16()?,
        vtl: body.vtl()?,
    })
}

fn directive(kind: u32, body: &mut Bytes) -> Option<IgvmDirectiveHeader> {
    use IgvmDirectiveHeader::*;
    Some(match kind {
        32 => PageData {
            gpa: body.u64()?,
            compatibility_mask: body.u32()?,
            flags: IgvmPageDataFlags(body.u32()?),
            data_type: IgvmPageDataType(body.u16()?),
            data: body.rest().to_vec(),
        },
        33 => ParameterArea { number_of_bytes: body.u64()?, parameter_area_index: body.u32()?, initial_data: body.rest().to_vec() },
        34..=43 => parameter(kind)(IGVM_VHS_PARAMETER { parameter_area_index: body.u32()?, byte_offset: body.u32()? }),
        44 => RequiredMemory {
            gpa: body.u64()?,
            compatibility_mask: body.u32()?,
            number_of_bytes: body.u32()?,
            vtl2_protectable: body.flag()?,
        },
        45..=49 => context(kind, body)?,
        50 => ParameterInsert(IGVM_VHS_PARAMETER_INSERT {
            gpa: body.u64()?,
            compatibility_mask: body.u32()?,
            parameter_area_index: body.u32()?,
        }),
        51 => ErrorRange { gpa: body.u64()?, compatibility_mask: body.u32()?, size_bytes: body.u32()? },
        52 => opaque(snp_id_block, body)?,
        53 => opaque(vbs_measurement, body)?,
        _ => return None,
    })
}

/// Kinds 34 to 43, in the enum's order.
fn parameter(kind: u32) -> fn(IGVM_VHS_PARAMETER) -> IgvmDirectiveHeader {
    use IgvmDirectiveHeader::*;
    [VpCount, EnvironmentInfo, Srat, Madt, Slit, Pptt, MmioRanges, MemoryMap, CommandLine, DeviceTree][kind as usize - 34]
}

/// Kinds 45 to 49. A register takes 32 bytes of an IGVM file.
fn context(kind: u32, body: &mut Bytes) -> Option<IgvmDirectiveHeader> {
    use IgvmDirectiveHeader::*;
    let gpa = if kind == 45 { body.u64()? } else { 0 };
    let compatibility_mask = body.u32()?;
    let header = match kind {
        45 => SnpVpContext { gpa, compatibility_mask, vp_index: body.u16()?, vmsa: Box::default() },
        46 => X64NativeVpContext { compatibility_mask, vp_index: body.u16()?, context: Box::default() },
        47 => X64VbsVpContext { compatibility_mask, vtl: body.vtl()?, registers: vec![X86Register::Rip(0); body.rest().len() / 32] },
        48 => AArch64VbsVpContext { compatibility_mask, vtl: body.vtl()?, registers: vec![AArch64Register::Pc(0); body.rest().len() / 32] },
        _ => AArch64CcaVpContext { compatibility_mask, vp_index: body.u16()?, context: Box::default() },
    };
    body.rest();
    Some(header)
}

/// Kinds 52 and 53: a mask and opaque bytes.
fn opaque(header: fn(u32) -> IgvmDirectiveHeader, body: &mut Bytes) -> Option<IgvmDirectiveHeader> {
    let compatibility_mask = body.u32()?;
    body.rest();
    Some(header(compatibility_mask))
}

fn snp_id_block(compatibility_mask: u32) -> IgvmDirectiveHeader {
    IgvmDirectiveHeader::SnpIdBlock {
        compatibility_mask,
        author_key_enabled: 0,
        reserved: [0; 3],
        ld: [0; 48],
        family_id: [0; 16],
        image_id: [0; 16],
        version: 0,
        guest_svn: 0,
        id_key_algorithm: 0,
        author_key_algorithm: 0,
        id_key_signature: Box::default(),
        id_public_key: Box::default(),
        author_key_signature: Box::default(),
        author_public_key: Box::default(),
    }
}

fn vbs_measurement(compatibility_mask: u32) -> IgvmDirectiveHeader {
    IgvmDirectiveHeader::VbsMeasurement {
        compatibility_mask,
        version: 0,
        product_id: 0,
        module_id: 0,
        security_version: 0,
        policy_flags: 0,
        boot_digest_algo: 0,
        signing_algo: 0,
        boot_measurement_digest: Box::new([0; 64]),
        signature: Box::new([0; 256]),
        public_key: Box::new([0; 512]),
    }
}
