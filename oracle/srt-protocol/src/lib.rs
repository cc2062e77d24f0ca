//! `SrtGroup` of srt-rs, compiled from the published text, over the stand-in connection of document 01.

/// The Rust counts its work in its own unit tests only.
macro_rules! count_work {
    ($($work:tt)*) => {};
}

include!(concat!(env!("OUT_DIR"), "/modules.rs"));
pub mod original;
pub mod srt_connection;

pub use error::Error;
pub use received_payload::ReceivedPayload;
pub use srt_group::*;
pub use time::Timestamp;

/// Document 01's order: whether `a` comes before `b`.
pub fn is_before(a: u32, b: u32) -> bool {
    srt_packet::sequence_less_than(a, b)
}
