//! Finds the archive that this crate is a coat of, and hands it to the linker.
use std::env;
use std::path::{Path, PathBuf};

fn main() {
    println!("cargo::rerun-if-env-changed=SRT_GROUP_LIB_DIR");
    let folder = match env::var_os("SRT_GROUP_LIB_DIR") {
        Some(folder) => PathBuf::from(folder),
        None => Path::new(env!("CARGO_MANIFEST_DIR")).join("../../out"),
    };
    let archive = folder.join("libsrt_group.a");
    println!("cargo::rerun-if-changed={}", archive.display());
    if !archive.is_file() {
        println!("cargo::error=there is no {}", archive.display());
        println!("cargo::error=tools/library makes it, in the repository's root; SRT_GROUP_LIB_DIR names another folder");
        return;
    }
    println!("cargo::rustc-link-search=native={}", folder.display());
    println!("cargo::rustc-link-lib=static=srt_group");
}
