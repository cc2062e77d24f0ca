//! Links the library's archive: `out` of the repository, where tools/library puts it, or the folder that the environment
//! variable `SRT_GROUP_LIBRARY` names.

use std::env;
use std::path::PathBuf;

fn main() {
    let here = PathBuf::from(env::var("CARGO_MANIFEST_DIR").expect("set by cargo"));
    let folder = env::var("SRT_GROUP_LIBRARY")
        .map_or_else(|_| here.join("../../out"), PathBuf::from);
    println!("cargo::rerun-if-env-changed=SRT_GROUP_LIBRARY");
    println!(
        "cargo::rerun-if-changed={}",
        folder.join("libsrt_group.a").display()
    );
    println!("cargo::rustc-link-search=native={}", folder.display());
    println!("cargo::rustc-link-lib=static=srt_group");
}
