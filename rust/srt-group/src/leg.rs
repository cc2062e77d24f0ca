//! A leg: what is handed over, read into it and given back. It is document 01's stand-in for a connection.
use std::num::NonZeroU32;

use crate::Timestamp;
use crate::state::{self, Row};

/// How far a leg's connection is. It never goes back.
#[derive(Clone, Copy, Debug, Default, PartialEq, Eq, Hash)]
pub enum ConnectionState {
    /// Not connected yet.
    #[default]
    Handshaking,
    /// Connected.
    Connected,
    /// No longer connected.
    Disconnected,
}

impl ConnectionState {
    pub(crate) const fn word(self) -> u64 {
        match self {
            Self::Handshaking => 0,
            Self::Connected => 1,
            Self::Disconnected => 2,
        }
    }

    pub(crate) fn of(word: u64) -> Self {
        match word {
            0 => Self::Handshaking,
            1 => Self::Connected,
            2 => Self::Disconnected,
            _ => unreachable!("a valid state has no leg in state {word}"),
        }
    }
}

/// A leg as it is handed to [`Group::add_member`](crate::Group::add_member), and as
/// [`Group::remove_member_connection`](crate::Group::remove_member_connection) gives it back.
///
/// What is not said is as document 01 says it: a receive window of 8,192, a payload limit of 1,456, no peer group, no first sequence, all
/// else 0. A number out of its range is refused by the addition, with [`Error::OutOfRange`](crate::Error::OutOfRange).
///
/// ```
/// use srt_group::{ConnectionState, Leg};
///
/// let leg = Leg { state: ConnectionState::Connected, next_send_sequence: 50, window: 8, ..Leg::default() };
/// assert_eq!(leg.payload_limit, 1_456);
/// ```
#[derive(Clone, Copy, Debug, PartialEq, Eq, Hash)]
pub struct Leg {
    /// How far its connection is.
    pub state: ConnectionState,
    /// The receiving group that its peer named.
    pub peer_group_id: Option<NonZeroU32>,
    /// The longest payload that it takes, 0 to 65,535.
    pub payload_limit: u32,
    /// The smoothed round trip time, in microseconds.
    pub srtt: u32,
    /// The variation of the round trip time, in microseconds.
    pub rttvar: u32,
    /// When its peer was last heard.
    pub last_heard: Timestamp,
    /// Whether it has a sender: it has from the first time that it connects. An addition does not read this: there a leg has a sender unless it
    /// is handshaking.
    pub has_sender: bool,
    /// The sequence of its next send, below 2^31.
    pub next_send_sequence: u32,
    /// The sends that are not acknowledged, 0 to 65,535; 0 without a sender.
    pub flight: u32,
    /// The most sends that may be unacknowledged, 0 to 65,535.
    pub window: u32,
    /// When the oldest unacknowledged send was made.
    pub oldest_send_time: Timestamp,
    /// When pacing lets it send again.
    pub pace_time: Timestamp,
    /// Its peer's first sequence, below 2^31.
    pub peer_initial_sequence: Option<u32>,
    /// The receive window, 0 to 65,535 packets.
    pub receive_window: u32,
    /// How long after its source time a packet is waited for, in microseconds; 0 is for ever.
    pub latency: u64,
    /// The sequence to which the last delivery moved the group, as it was recorded at this leg.
    pub advanced: u32,
}

impl Default for Leg {
    fn default() -> Self {
        Self {
            state: ConnectionState::Handshaking,
            peer_group_id: None,
            payload_limit: state::CELL as u32,
            srtt: 0,
            rttvar: 0,
            last_heard: Timestamp(0),
            has_sender: false,
            next_send_sequence: 0,
            flight: 0,
            window: 0,
            oldest_send_time: Timestamp(0),
            pace_time: Timestamp(0),
            peer_initial_sequence: None,
            receive_window: 8_192,
            latency: 0,
            advanced: 0,
        }
    }
}

impl Leg {
    pub(crate) fn row(&self) -> Row {
        let mut row = [0; state::ROW_WORDS];
        row[state::ROW_LINK_STATE] = self.state.word();
        row[state::ROW_LINK_PEER] = peer_word(self.peer_group_id);
        row[state::ROW_LINK_LIMIT] = self.payload_limit.into();
        row[state::ROW_TRIP_SRTT] = self.srtt.into();
        row[state::ROW_TRIP_RTTVAR] = self.rttvar.into();
        row[state::ROW_TRIP_HEARD] = self.last_heard.0;
        row[state::ROW_SENDER_STARTED] = self.has_sender.into();
        row[state::ROW_SENDER_NEXT] = self.next_send_sequence.into();
        row[state::ROW_SENDER_FLIGHT] = self.flight.into();
        row[state::ROW_SENDER_WINDOW] = self.window.into();
        row[state::ROW_SENDER_OLDEST] = self.oldest_send_time.0;
        row[state::ROW_SENDER_PACE] = self.pace_time.0;
        row[state::ROW_RECEIVER_FIRST] = first_word(self.peer_initial_sequence);
        row[state::ROW_RECEIVER_WINDOW] = self.receive_window.into();
        row[state::ROW_RECEIVER_LATENCY] = self.latency;
        row[state::ROW_RECEIVER_ADVANCED] = self.advanced.into();
        row
    }

    pub(crate) fn of(row: &Row) -> Self {
        let first = row[state::ROW_RECEIVER_FIRST];
        Self {
            state: ConnectionState::of(row[state::ROW_LINK_STATE]),
            peer_group_id: NonZeroU32::new(narrow(row[state::ROW_LINK_PEER])),
            payload_limit: narrow(row[state::ROW_LINK_LIMIT]),
            srtt: narrow(row[state::ROW_TRIP_SRTT]),
            rttvar: narrow(row[state::ROW_TRIP_RTTVAR]),
            last_heard: Timestamp(row[state::ROW_TRIP_HEARD]),
            has_sender: row[state::ROW_SENDER_STARTED] != 0,
            next_send_sequence: narrow(row[state::ROW_SENDER_NEXT]),
            flight: narrow(row[state::ROW_SENDER_FLIGHT]),
            window: narrow(row[state::ROW_SENDER_WINDOW]),
            oldest_send_time: Timestamp(row[state::ROW_SENDER_OLDEST]),
            pace_time: Timestamp(row[state::ROW_SENDER_PACE]),
            peer_initial_sequence: (first != state::NO_SEQUENCE).then(|| narrow(first)),
            receive_window: narrow(row[state::ROW_RECEIVER_WINDOW]),
            latency: row[state::ROW_RECEIVER_LATENCY],
            advanced: narrow(row[state::ROW_RECEIVER_ADVANCED]),
        }
    }
}

/// A word that a valid state keeps to 32 bits.
pub(crate) fn narrow(word: u64) -> u32 {
    debug_assert!(word <= u32::MAX.into());
    word as u32
}

fn peer_word(peer: Option<NonZeroU32>) -> u64 {
    peer.map_or(0, |peer| peer.get().into())
}

/// The number that stands for no sequence is none itself: it goes as one beyond every range, and is refused.
fn first_word(first: Option<u32>) -> u64 {
    match first.map(u64::from) {
        None => state::NO_SEQUENCE,
        Some(state::NO_SEQUENCE) => u64::MAX,
        Some(first) => first,
    }
}

/// What the host reads off a connection into its leg, for [`Group::read_leg`](crate::Group::read_leg): document 01's fields 1 to 12.
#[derive(Clone, Copy, Debug, PartialEq, Eq, Hash)]
pub enum Reading {
    /// 1: how far its connection is.
    State(ConnectionState),
    /// 2: the most sends that may be unacknowledged, 0 to 65,535.
    Window(u32),
    /// 3: the receive window, 0 to 65,535 packets.
    ReceiveWindow(u32),
    /// 4: how long after its source time a packet is waited for, in microseconds; 0 is for ever.
    Latency(u64),
    /// 5: the peer has acknowledged what is before this sequence.
    AcknowledgedUpTo(u32),
    /// 6: the smoothed round trip time, in microseconds.
    Srtt(u32),
    /// 7: the variation of the round trip time, in microseconds.
    Rttvar(u32),
    /// 8: when the peer was last heard.
    LastHeard(Timestamp),
    /// 9: when pacing lets the leg send again.
    PaceTime(Timestamp),
    /// 10: the receiving group that the peer named.
    PeerGroupId(Option<NonZeroU32>),
    /// 11: the longest payload that the leg takes, 0 to 65,535.
    PayloadLimit(u32),
    /// 12: when the oldest unacknowledged send was made.
    OldestSendTime(Timestamp),
}

impl Reading {
    /// The field's number, and what is read into it.
    pub(crate) fn words(self) -> (u64, u64) {
        match self {
            Self::State(reached) => (state::FIELD_STATE, reached.word()),
            Self::Window(window) => (state::FIELD_WINDOW, window.into()),
            Self::ReceiveWindow(window) => (state::FIELD_RECEIVE_WINDOW, window.into()),
            Self::Latency(micros) => (state::FIELD_LATENCY, micros),
            Self::AcknowledgedUpTo(sequence) => (state::FIELD_ACKNOWLEDGE, sequence.into()),
            Self::Srtt(micros) => (state::FIELD_SRTT, micros.into()),
            Self::Rttvar(micros) => (state::FIELD_RTTVAR, micros.into()),
            Self::LastHeard(time) => (state::FIELD_HEARD, time.0),
            Self::PaceTime(time) => (state::FIELD_PACE, time.0),
            Self::PeerGroupId(peer) => (state::FIELD_PEER, peer_word(peer)),
            Self::PayloadLimit(limit) => (state::FIELD_LIMIT, limit.into()),
            Self::OldestSendTime(time) => (state::FIELD_OLDEST, time.0),
        }
    }
}

/// What happened to a leg's connection, for [`Group::queue_event`](crate::Group::queue_event). A reason is the host's own number, which the
/// group hands on; the Rust has a text there.
#[derive(Clone, Copy, Debug, PartialEq, Eq, Hash)]
pub enum ConnectionEvent {
    /// It connected.
    Connected,
    /// It failed.
    Error {
        /// Why.
        reason: u32,
    },
    /// It disconnected.
    Disconnected {
        /// Why.
        reason: u32,
    },
}

impl ConnectionEvent {
    /// Document 01's number of the event, and the reason.
    pub(crate) fn words(self) -> (u64, u64) {
        match self {
            Self::Connected => (1, 0),
            Self::Error { reason } => (2, reason.into()),
            Self::Disconnected { reason } => (3, reason.into()),
        }
    }
}

/// A packet that a leg received, for [`Group::queue_data`](crate::Group::queue_data).
///
/// ```
/// use srt_group::{ReceivedData, Timestamp};
///
/// let data = ReceivedData { source_time: Timestamp(1_000), ..ReceivedData::new(101, b"payload") };
/// assert_eq!(data.packet_count, 1);
/// ```
#[derive(Clone, Copy, Debug, PartialEq, Eq, Hash)]
pub struct ReceivedData<'a> {
    /// The sequence of its first packet, below 2^31.
    pub sequence_number: u32,
    /// The packets that it spans, 1 to 65,535.
    pub packet_count: u32,
    /// The message number.
    pub message_number: u32,
    /// The sender's timestamp, as on the wire.
    pub timestamp: u32,
    /// When the sender queued it, by the host's clock.
    pub source_time: Timestamp,
    /// Its bytes, at most 1,456. They are copied into a cell of the group's store.
    pub payload: &'a [u8],
}

impl<'a> ReceivedData<'a> {
    /// One packet, with all other numbers 0.
    pub const fn new(sequence_number: u32, payload: &'a [u8]) -> Self {
        Self { sequence_number, packet_count: 1, message_number: 0, timestamp: 0, source_time: Timestamp(0), payload }
    }
}
