//! Document 01's codes, and the Rust's error texts as numbers.

use srt_protocol::Error;

pub type Code = u32;

pub const NO_GROUP_BIT: Code = 1;
pub const OUT_OF_RANGE: Code = 2;
pub const UNKNOWN_LEG: Code = 3;
pub const PAYLOAD_TOO_LONG: Code = 4;
pub const BROKEN_STATE: Code = 6;
pub const NO_FREE_CELL: Code = 30;
pub const QUEUE_FULL: Code = 31;
pub const OUT_OF_TURN: Code = 32;

/// The codes of the cover table with their meanings. 4 and 5 need calls that the listing has no verb for.
pub const ALL: [(Code, &str); 19] = [
    (0, "accepted"),
    (1, "group id without bit 30"),
    (2, "field out of range, or malformed line"),
    (3, "unknown leg"),
    (4, "payload over 1,456 bytes"),
    (6, "no group was made"),
    (20, "member limit"),
    (21, "duplicate id"),
    (22, "alignment failed"),
    (23, "payload above the first active leg's limit"),
    (24, "no active member"),
    (25, "sequence mismatch"),
    (26, "all Broadcast members failed"),
    (27, "all Backup members failed"),
    (28, "history cannot be replayed"),
    (29, "send after promotion failed"),
    (30, "no free cell"),
    (31, "queue has 16 events"),
    (32, "reading out of turn"),
];

/// The number of an error of the Rust, by the text of the place that makes it.
pub fn of_error(error: &Error) -> Code {
    match error.reason.as_str() {
        "group ID is missing SRTGROUP_MASK" => NO_GROUP_BIT,
        "group member limit reached" => 20,
        "duplicate group member ID" => 21,
        // The stand-in refuses to synchronise: this is the only error of `align_member_sequence`.
        "packets are in flight" => 22,
        "payload exceeds the maximum single-packet size for this group" => 23,
        "no active Broadcast group members" | "no active Backup group members" => 24,
        "group member sequence mismatch" => 25,
        "all Broadcast group members failed" => 26,
        "all Backup group members failed" => 27,
        "Backup failover cannot replay the unacknowledged interval" => 28,
        "Backup promotion send failed" => 29,
        text => unreachable!("document 01 has no number for {text:?}"),
    }
}
