//! Links the proved archive, which `rt lib` in crates/encoding_c makes. ENCODING_C_ARCHIVE names
//! another one.

use std::env;
use std::path::PathBuf;

fn main() {
    println!("cargo:rerun-if-env-changed=ENCODING_C_ARCHIVE");
    let here = PathBuf::from(env::var_os("CARGO_MANIFEST_DIR").expect("cargo sets it"));
    let archive = match env::var_os("ENCODING_C_ARCHIVE") {
        Some(archive) => PathBuf::from(archive),
        None => here.join("../../crates/encoding_c/out/libencoding_c.a"),
    };
    println!("cargo:rerun-if-changed={}", archive.display());
    let folder = archive.parent().filter(|_| archive.is_file());
    let folder =
        folder.unwrap_or_else(|| panic!("{} is lacking: see docs/BINDINGS.md", archive.display()));
    println!("cargo:rustc-link-search=native={}", folder.display());
    println!("cargo:rustc-link-lib=static=encoding_c");
}
