//! Links the library that `tools/build library` writes. IGVM_LIB names the archive, if it is not target/staticlib/libigvm.a of the repository. Without the
//! archive nothing is linked, and a warning says what to do: `cargo check`, `cargo clippy` and `cargo doc` don't need it.

use std::env;
use std::path::{Path, PathBuf};

fn main() {
    println!("cargo:rerun-if-env-changed=IGVM_LIB");
    let usual = Path::new(env!("CARGO_MANIFEST_DIR")).join("../../target/staticlib/libigvm.a");
    let archive = env::var_os("IGVM_LIB").map_or(usual, PathBuf::from);
    println!("cargo:rerun-if-changed={}", archive.display());
    let Some((folder, name)) = found(&archive) else {
        println!(
            "cargo:warning=there is no library at {}, so nothing is linked: a program or a test has undefined symbols",
            archive.display()
        );
        println!("cargo:warning=`tools/build library` in the repository writes target/staticlib/libigvm.a; IGVM_LIB names an archive elsewhere, by its full path");
        return;
    };
    println!("cargo:rustc-link-search=native={folder}");
    println!("cargo:rustc-link-lib=static:+verbatim={name}");
}

/// The archive's folder and name, if it is a file.
fn found(archive: &Path) -> Option<(String, String)> {
    let full = archive.canonicalize().ok().filter(|path| path.is_file())?;
    Some((full.parent()?.to_str()?.to_string(), full.file_name()?.to_str()?.to_string()))
}
