//! A bonded SRT group whose every answer is proved: a safe crate over the library `srt_group`.
//!
//! [`Group`] is the Rust's `SrtGroup` (srt-rs, module `srt_group`) under the same names, over document 01's plain legs: the host drives sockets
//! and protocol, tells each leg what came of it, and polls and sends through the group. Two legs, a packet lost on both, and a skip:
//!
//! ```
//! use srt_group::{ConnectionState, Group, GroupMode, Leg, ReceivedData, Timestamp};
//!
//! let mut group = Group::new(0x4000_0001, GroupMode::Broadcast, 40)?;
//! for id in [7, 8] {
//!     let leg = Leg { state: ConnectionState::Connected, peer_initial_sequence: Some(100), latency: 500, ..Leg::default() };
//!     group.add_member(id, 0, leg)?;
//! }
//! let data = |sequence, payload| ReceivedData { source_time: Timestamp(1_000), ..ReceivedData::new(sequence, payload) };
//! group.queue_data(7, data(100, b"a"))?;
//! group.queue_data(8, data(100, b"a"))?; // a duplicate
//! group.queue_data(8, data(102, b"c"))?; // 101 is lost
//!
//! assert_eq!(group.poll_data(Timestamp(1_100)).map(|packet| packet.payload), Some(b"a".to_vec()));
//! assert_eq!(group.poll_data(Timestamp(1_499)), None);
//! assert_eq!(group.poll_data(Timestamp(1_500)).map(|packet| packet.payload), Some(b"c".to_vec()));
//! assert_eq!(group.skipped_receive_packets(), 1);
//! # Ok::<(), srt_group::Error>(())
//! ```
//!
//! What is proved is the library: each of its calls equals its definition, for every input (docs/PROMISES.md). This crate is Rust and not
//! proved: it keeps the memory that the calls are lent, and turns numbers into types. Its `unsafe` is in one module, `state`, which
//! begins with the reason why it is sound.
#![deny(missing_docs, unsafe_code, unsafe_op_in_unsafe_fn, clippy::undocumented_unsafe_blocks)]

mod error;
mod group;
mod leg;
mod member;
mod packet;
mod sent;
#[allow(unsafe_code)]
mod state;
mod time;
#[cfg(test)]
mod walk;

pub use error::Error;
pub use group::{Group, GroupMode};
pub use leg::{ConnectionEvent, ConnectionState, Leg, Reading, ReceivedData};
pub use member::{GroupMember, GroupMemberState, GroupMembers, PeerGroupCollision};
pub use packet::{GroupDataPoll, GroupEvent, GroupPacket};
pub use sent::Sent;
pub use time::Timestamp;
