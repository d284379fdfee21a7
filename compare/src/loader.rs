//! What a loader does with the headers of an accepted image: the verdict, the regions of mask 1 and the page table, and of each region whether it may stay
//! where it is and whether it has its first address. By crate sapyullu, which makes a sheet of the headers first, and by the Rust.

use oracle::{Headers, IgvmFile};

/// By crate sapyullu, if the library was there when this program was built: for how many regions both checks hold. What was made is given too, so that it is
/// dropped later.
#[cfg(library)]
pub const BY_LIBRARY: Option<fn(&Headers) -> (usize, Made)> = Some(linked::load);
#[cfg(not(library))]
pub const BY_LIBRARY: Option<fn(&Headers) -> (usize, Made)> = None;

/// The sheet and the region list.
pub type Made = (Vec<u8>, sapyullu::Relocations);

#[cfg(library)]
mod linked {
    use super::Made;
    use crate::adapter;
    use oracle::Headers;

    pub fn load(headers: &Headers) -> (usize, Made) {
        let sheet = adapter::sheet(headers).expect("headers that a sheet can hold");
        sapyullu::verdict(&sheet).expect("an accepted image");
        let found = sapyullu::relocations(&sheet, 1).expect("a list of an accepted image");
        let holds = |region: &&sapyullu::IgvmRelocatableRegion| {
            region.relocation_base_valid(region.base_gpa).is_valid() & region.contains(region.base_gpa)
        };
        (found.regions.iter().filter(holds).count(), (sheet, found))
    }
}

/// By the Rust.
pub fn by_rust(headers: Headers) -> (usize, impl Sized) {
    let file = IgvmFile::new(headers.revision, headers.platforms, headers.initializations, headers.directives).expect("an accepted image");
    let found = file.relocations(1);
    let holds = |region: &&oracle::IgvmRelocatableRegion| region.relocation_base_valid(region.base_gpa) & region.contains(region.base_gpa);
    let hold = found.0.iter().flatten().filter(holds).count();
    (hold, (file, found))
}
