//! Whether there is a library to compare, which crate sapyullu links. IGVM_LIB names the archive; without it, it is target/staticlib/libigvm.a of the
//! repository. Where there is none, the program is built without it.

use std::env;
use std::path::{Path, PathBuf};

fn main() {
    println!("cargo:rerun-if-env-changed=IGVM_LIB");
    let usual = Path::new(env!("CARGO_MANIFEST_DIR")).join("../target/staticlib/libigvm.a");
    let path = env::var_os("IGVM_LIB").map_or(usual, PathBuf::from);
    println!("cargo:rerun-if-changed={}", path.display());
    if path.is_file() {
        println!("cargo:rustc-cfg=library");
    } else {
        assert!(env::var_os("IGVM_LIB").is_none(), "IGVM_LIB is {}, which is no file", path.display());
    }
}
