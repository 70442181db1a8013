//! Links the static library that RAID2D_LIB names.

use std::path::PathBuf;

fn main() {
    println!("cargo:rerun-if-env-changed=RAID2D_LIB");
    let archive = PathBuf::from(std::env::var_os("RAID2D_LIB").expect("RAID2D_LIB names the archive"));
    // Cargo runs this script and the linker in directories of its own choice.
    assert!(archive.is_absolute(), "RAID2D_LIB has to be an absolute path, not {}", archive.display());
    assert!(archive.is_file(), "there is no {}", archive.display());
    let (dir, file) = (archive.parent().unwrap(), archive.file_name().unwrap());
    println!("cargo:rerun-if-changed={}", archive.display());
    println!("cargo:rustc-link-search=native={}", dir.display());
    println!("cargo:rustc-link-lib=static:+verbatim={}", file.to_str().unwrap());
}
