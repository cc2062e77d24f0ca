//! Copies the Rust of srt-rs beside our stand-ins, so that nothing of it is committed here.
//!
//! The source folder is `../shared/docs/src` seen from the repository root, or the folder named by the
//! environment variable `ORACLE_SOURCE`. Whole files are copied as they are; `srt_group/mod.rs` gets our
//! accessors after its last line. Of `srt_packet.rs` and `srt_handshake.rs` only the named items are taken.

use std::path::{Path, PathBuf};
use std::{env, fs};

/// Files taken whole, with the text that is appended to the copy.
const WHOLE: [(&str, Option<&str>); 5] = [
    ("srt_group/mod.rs", Some("src/accessors.rs")),
    ("srt_group/send.rs", None),
    ("time.rs", None),
    ("error.rs", None),
    ("received_payload.rs", None),
];

/// Stands between the items taken out of one file.
const NEXT_ITEM: &str = "\n// The next item.\n";

/// Items taken out of a file, each by its first line.
const ITEMS: [(&str, &[&str]); 2] = [
    (
        "srt_packet.rs",
        &["pub(crate) fn sequence_less_than(a: u32, b: u32) -> bool {"],
    ),
    (
        "srt_handshake.rs",
        &[
            "pub const MAX_FLOW_WINDOW: u32 = 65_536;",
            "#[derive(Debug, Clone, Copy, PartialEq, Eq)]\npub enum GroupType {",
            "#[derive(Debug, Clone, Copy, PartialEq, Eq)]\npub struct GroupExtensionData {",
            "pub const SRTGROUP_MASK: u32 = 1 << 30;",
        ],
    ),
];

fn main() {
    let here = PathBuf::from(env::var("CARGO_MANIFEST_DIR").expect("set by cargo"));
    let out = PathBuf::from(env::var("OUT_DIR").expect("set by cargo"));
    let source = env::var("ORACLE_SOURCE")
        .map_or_else(|_| here.join("../../../shared/docs/src"), PathBuf::from)
        .join("crates/srt-protocol/src");
    println!("cargo::rerun-if-env-changed=ORACLE_SOURCE");
    println!("cargo::rustc-env=ORACLE_SOURCE_FOUND={}", source.display());

    fs::create_dir_all(out.join("srt_group")).expect("a folder for the copies");
    for (file, appended) in WHOLE {
        let mut text = read(&source.join(file));
        if let Some(appended) = appended {
            text.push_str(&read(&here.join(appended)));
        }
        write(&out.join(file), &text);
    }
    for (file, items) in ITEMS {
        let text = read(&source.join(file));
        let taken: Vec<&str> = items.iter().map(|first| item(&text, first)).collect();
        write(&out.join(file), &taken.join(NEXT_ITEM));
    }
    write(
        &out.join("srt_group/retirement.rs"),
        &read(&here.join("src/retirement.rs")),
    );
    write(&out.join("modules.rs"), &modules(&out));
}

/// One item: from its first line to the line that ends it, a `;` or a closing brace in the first column.
fn item<'a>(text: &'a str, first: &str) -> &'a str {
    let start = text
        .find(first)
        .unwrap_or_else(|| panic!("no item {first:?}"));
    let rest = &text[start..];
    let end = if first.ends_with(';') {
        first.len()
    } else {
        rest.find("\n}\n").expect("an item ends") + 3
    };
    &rest[..end]
}

/// The module declarations, with the places of the copies.
fn modules(out: &Path) -> String {
    let declaration = |(visibility, name, file): (&str, &str, &str)| {
        format!(
            "#[allow(dead_code, unused_imports, unreachable_patterns)]\n#[path = {:?}]\n{visibility}mod {name};\n",
            out.join(file)
        )
    };
    [
        ("", "error", "error.rs"),
        ("", "received_payload", "received_payload.rs"),
        ("pub ", "srt_group", "srt_group/mod.rs"),
        ("pub ", "srt_handshake", "srt_handshake.rs"),
        ("", "srt_packet", "srt_packet.rs"),
        ("", "time", "time.rs"),
    ]
    .map(declaration)
    .concat()
}

fn read(path: &Path) -> String {
    println!("cargo::rerun-if-changed={}", path.display());
    fs::read_to_string(path).unwrap_or_else(|error| panic!("{}: {error}", path.display()))
}

fn write(path: &Path, text: &str) {
    fs::write(path, text).unwrap_or_else(|error| panic!("{}: {error}", path.display()));
}
