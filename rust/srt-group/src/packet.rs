//! What a poll gives.
use std::ops::Range;

use crate::Timestamp;
use crate::leg::narrow;
use crate::state::{HEAD, Polled};

/// A packet of the group's one stream, in order and without duplicates.
///
/// `P` is what stands for its payload: the bytes themselves, or, where they were written to the host's own buffer, their place there.
#[derive(Clone, Debug, PartialEq, Eq, Hash)]
pub struct GroupPacket<P = Vec<u8>> {
    /// The member on whose leg it arrived. The member may have been removed since.
    pub member_id: u32,
    /// The sequence of its first packet.
    pub sequence_number: u32,
    /// The message number.
    pub message_number: u32,
    /// The sender's timestamp, as on the wire.
    pub timestamp: u32,
    /// When the sender queued it, by the host's clock.
    pub source_time: Timestamp,
    /// The packets that it spans.
    pub packet_count: u32,
    /// Its payload.
    pub payload: P,
}

impl GroupPacket<Range<usize>> {
    /// The packet behind the first word of an answer, if there is one.
    pub(crate) fn of(answer: &Polled) -> Option<Self> {
        let [_, member, sequence, count, message, timestamp, source, length] = *answer;
        if count == 0 {
            return None;
        }
        Some(Self {
            member_id: narrow(member),
            sequence_number: narrow(sequence),
            message_number: narrow(message),
            timestamp: narrow(timestamp),
            source_time: Timestamp(source),
            packet_count: narrow(count),
            payload: HEAD..HEAD + length as usize,
        })
    }

    /// The same with its payload out of the output.
    pub(crate) fn with_bytes_of(self, output: &[u8]) -> GroupPacket {
        GroupPacket {
            member_id: self.member_id,
            sequence_number: self.sequence_number,
            message_number: self.message_number,
            timestamp: self.timestamp,
            source_time: self.source_time,
            packet_count: self.packet_count,
            payload: output[self.payload].to_vec(),
        }
    }
}

/// What a bounded poll gives.
#[derive(Clone, Debug, PartialEq, Eq, Hash)]
pub struct GroupDataPoll<P = Vec<u8>> {
    /// The next packet, if one could be had within the visit.
    pub packet: Option<GroupPacket<P>>,
    /// The visit stopped with work left: poll again at once, before waiting for input.
    pub continuation: bool,
}

/// What an event poll gives: what happened to a member, or the next packet. A reason is the number that was queued with the event.
#[derive(Clone, Debug, PartialEq, Eq, Hash)]
pub enum GroupEvent<P = Vec<u8>> {
    /// A member's leg connected.
    MemberConnected {
        /// The member.
        member_id: u32,
    },
    /// The next packet.
    DataReceived(GroupPacket<P>),
    /// A member's leg failed, and the member is broken.
    MemberError {
        /// The member.
        member_id: u32,
        /// Why.
        reason: u32,
    },
    /// A member's leg disconnected, and the member is broken.
    MemberDisconnected {
        /// The member.
        member_id: u32,
        /// Why.
        reason: u32,
    },
}

impl GroupEvent<Range<usize>> {
    /// The event of an answer, if there is one.
    pub(crate) fn of(answer: &Polled) -> Option<Self> {
        let [kind, member, reason, ..] = *answer;
        let member_id = narrow(member);
        match kind {
            0 => GroupPacket::of(answer).map(Self::DataReceived),
            1 => Some(Self::MemberConnected { member_id }),
            2 => Some(Self::MemberError { member_id, reason: narrow(reason) }),
            3 => Some(Self::MemberDisconnected { member_id, reason: narrow(reason) }),
            _ => unreachable!("no event is of kind {kind}"),
        }
    }

    /// The same with a packet's payload out of the output.
    pub(crate) fn with_bytes_of(self, output: &[u8]) -> GroupEvent {
        match self {
            Self::MemberConnected { member_id } => GroupEvent::MemberConnected { member_id },
            Self::DataReceived(packet) => GroupEvent::DataReceived(packet.with_bytes_of(output)),
            Self::MemberError { member_id, reason } => GroupEvent::MemberError { member_id, reason },
            Self::MemberDisconnected { member_id, reason } => GroupEvent::MemberDisconnected { member_id, reason },
        }
    }
}
