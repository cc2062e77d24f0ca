//! Shows that the compiled text is the published one.

use std::path::Path;
use std::{fs, io};

/// The folder the build script copied from.
pub const SOURCE: &str = env!("ORACLE_SOURCE_FOUND");

macro_rules! copied {
    ($file:literal) => {
        include_str!(concat!(env!("OUT_DIR"), "/", $file))
    };
}

/// Whole files: name, compiled text, the text we appended.
const WHOLE: [(&str, &str, &str); 5] = [
    (
        "srt_group/mod.rs",
        copied!("srt_group/mod.rs"),
        include_str!("accessors.rs"),
    ),
    ("srt_group/send.rs", copied!("srt_group/send.rs"), ""),
    ("time.rs", copied!("time.rs"), ""),
    ("error.rs", copied!("error.rs"), ""),
    ("received_payload.rs", copied!("received_payload.rs"), ""),
];

/// Stands between the items taken out of one file.
const NEXT_ITEM: &str = "\n// The next item.\n";

/// Files of which some items were taken.
const PARTS: [(&str, &str); 2] = [
    ("srt_packet.rs", copied!("srt_packet.rs")),
    ("srt_handshake.rs", copied!("srt_handshake.rs")),
];

/// Compare every copy with the files in `source`; each answer is a file's name and whether it is the original.
pub fn check(source: &Path) -> io::Result<Vec<(&'static str, bool)>> {
    let mut answers = Vec::new();
    for (file, copy, appended) in WHOLE {
        let original = fs::read_to_string(source.join(file))?;
        answers.push((file, copy.strip_suffix(appended) == Some(original.as_str())));
    }
    for (file, copy) in PARTS {
        let original = fs::read_to_string(source.join(file))?;
        let taken = copy.split(NEXT_ITEM).all(|item| original.contains(item));
        answers.push((file, taken));
    }
    Ok(answers)
}
