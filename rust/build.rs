//! Says where the archive of proved calls is: in the folder that bin/archive writes, or in the one that MARLBRACE_ARCHIVE names.
use std::env::var_os;
use std::path::{Path, PathBuf};

fn main() {
    println!("cargo:rerun-if-env-changed=MARLBRACE_ARCHIVE");
    let written = || Path::new(&var_os("CARGO_MANIFEST_DIR").expect("cargo names it")).join("../target/archive");
    let folder = var_os("MARLBRACE_ARCHIVE").map_or_else(written, PathBuf::from);
    let archive = folder.join("libmarlbrace.a");
    if !archive.is_file() {
        println!("cargo:warning=there is no {}: bin/archive proves the calls and writes it", archive.display());
    }
    // a new archive has the crate compiled anew
    println!("cargo:rerun-if-changed={}", archive.display());
    println!("cargo:rustc-link-search=native={}", folder.display());
}
