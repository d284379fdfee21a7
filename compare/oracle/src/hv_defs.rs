//! `Vtl` and its conversions, cut from hv_defs.rs, and what stands for the rest of that file: an error and two names of registers.
//! Assumed: `Vtl::try_from` alone uses the error, and no decision uses a register's name.

include!(concat!(env!("OUT_DIR"), "/hv_defs.rs"));

#[derive(Debug, Clone, Copy, PartialEq, Eq)]
pub enum HvError {
    InvalidParameter,
}

#[derive(Debug)]
pub struct HvX64RegisterName;

#[derive(Debug)]
pub struct HvArm64RegisterName;
