//! The decision code of crate igvm 0.5.0, cut from its source by build.rs, with stand-ins for the crates that it leans on:
//! igvm_defs.rs, range_map_vec.rs, snp_defs.rs, tracing.rs, a part of hv_defs.rs, and crate thiserror beside this one.
//! `decode` and `verdict` are the way in: from a sheet's bytes to the Rust's headers, and from its answers to document 01's numbers.

#![allow(dead_code, unused_variables)]

pub mod hv_defs;
pub mod igvm_defs;
mod range_map_vec;
mod snp_defs;
mod tracing;

/// Cut from page_table.rs: the builder, of which the query's five numbers are fields, and its `new`.
pub mod page_table {
    use crate::hv_defs::Vtl;
    include!(concat!(env!("OUT_DIR"), "/page_table.rs"));
}

/// Cut from registers.rs: the types that a VBS context holds.
pub mod registers {
    use thiserror::Error;
    include!(concat!(env!("OUT_DIR"), "/registers.rs"));
}

use hv_defs::HvArm64RegisterName;
use hv_defs::HvX64RegisterName;
use hv_defs::Vtl;
use igvm_defs::*;
use page_table::PageTableRelocationBuilder;
use range_map_vec::RangeMap;
use registers::AArch64Register;
use registers::X86Register;
use snp_defs::SevVmsa;
use std::collections::BTreeMap;
use std::collections::HashMap;
use thiserror::Error;

include!(concat!(env!("OUT_DIR"), "/lib.rs"));

mod decode;
mod verdict;
pub use decode::Headers;
pub use verdict::{silence_panics, Judged, Relocated, Reported};

/// What was cut: a line for each file of the source.
pub const ORIGIN: &str = include_str!(concat!(env!("OUT_DIR"), "/origin.txt"));
