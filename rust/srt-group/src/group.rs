//! The group and its calls.
use std::cell::Cell;
use std::fmt;
use std::marker::PhantomData;
use std::num::NonZeroU32;
use std::ops::Range;

use crate::leg::{ConnectionEvent, Leg, Reading, ReceivedData, narrow};
use crate::member::{GroupMember, GroupMembers};
use crate::packet::{GroupDataPoll, GroupEvent, GroupPacket};
use crate::state::{self, OUTPUT, SendList, State};
use crate::{Error, Sent, Timestamp};

/// How a group spreads payloads over its members.
#[derive(Clone, Copy, Debug, PartialEq, Eq, Hash)]
pub enum GroupMode {
    /// Every payload on every active member.
    Broadcast,
    /// Every payload on one member. If it fails or falls silent, another is promoted, and what is not acknowledged is sent again there.
    Backup,
}

// Words of the record (`group_of` in crates/srt_group_words/specs/Record.antt; docs/TABLES.md).
const ID: usize = 0;
const MODE: usize = 2;
const PEER: usize = 3;
const PENDING: usize = 5;
const WAITING: usize = 6;
const SKIPPED: usize = 9;
const CONTINUATION: usize = 10;
const RING_START: usize = 18;
const RING_LENGTH: usize = 19;

/// A bonded group: up to 64 legs, driven as one stream.
///
/// It owns its memory, about 300 KB and the store, which [`Group::new`] allocates; but for the payload that [`poll_data`](Group::poll_data) or
/// [`poll_event`](Group::poll_event) gives, no other call allocates. Each call is the library's, which is proved equal to its definition in
/// `crates/srt_group_model/specs`.
///
/// A call that is refused with [`Error`] has changed nothing, unless [`Error::changes_nothing`] denies it.
///
/// A group may be sent to another thread. It is not [`Sync`]: what is proved is proved of one call after another.
///
/// ```
/// fn sent<T: Send>() {}
/// sent::<srt_group::Group>();
/// ```
///
/// ```compile_fail,E0277
/// fn shared<T: Sync>() {}
/// shared::<srt_group::Group>();
/// ```
#[derive(Clone)]
pub struct Group {
    state: State,
    output: Box<[u8; OUTPUT]>,
    list: Box<SendList>,
    /// The rows of the list that the last call filled.
    filled: usize,
    /// Of each cell, the length of the last payload that a send put there: a row of the list names a cell, and no length.
    lengths: Box<[u16; state::MAX_CELLS]>,
    not_sync: PhantomData<Cell<()>>,
}

impl fmt::Debug for Group {
    fn fmt(&self, f: &mut fmt::Formatter<'_>) -> fmt::Result {
        f.debug_struct("Group")
            .field("group_id", &self.group_id())
            .field("mode", &self.mode())
            .field("skipped_receive_packets", &self.skipped_receive_packets())
            .field("members", &self.members().collect::<Vec<_>>())
            .finish_non_exhaustive()
    }
}

/// # The start and the group's members
impl Group {
    /// The most members of a group.
    pub const MAX_MEMBERS: usize = state::MAX_MEMBERS;
    /// The most sends that a Backup group keeps for a replay.
    pub const MAX_HISTORY: usize = state::HISTORY_WORDS;
    /// The bytes of a cell: the longest payload.
    pub const CELL: usize = state::CELL;
    /// The most cells of a store.
    pub const MAX_CELLS: usize = state::MAX_CELLS;
    /// The bytes before the payload in a host's own buffer, which no call touches.
    pub const HEAD: usize = state::HEAD;
    /// The least bytes of a host's own buffer: the head and the longest payload.
    pub const OUTPUT: usize = state::OUTPUT;

    /// An empty group with a store of so many cells. Every payload that is queued, held behind a gap or kept for a replay takes one.
    ///
    /// # Errors
    /// - [`OutOfRange`](Error::OutOfRange) for more than [`Group::MAX_CELLS`] cells;
    /// - [`MissingGroupMask`](Error::MissingGroupMask) for an id without bit 30;
    /// - [`InsufficientBuffer`](Error::InsufficientBuffer) for no cell.
    ///
    /// ```
    /// use srt_group::{Error, Group, GroupMode};
    ///
    /// let group = Group::new(0x4000_0001, GroupMode::Broadcast, 40)?;
    /// assert_eq!(group.group_id(), 0x4000_0001);
    /// assert_eq!(Group::new(1, GroupMode::Broadcast, 40).unwrap_err(), Error::MissingGroupMask);
    /// # Ok::<(), Error>(())
    /// ```
    pub fn new(group_id: u32, mode: GroupMode, cells: usize) -> Result<Self, Error> {
        if cells > Self::MAX_CELLS {
            return Err(Error::OutOfRange);
        }
        let mode = match mode {
            GroupMode::Broadcast => 0,
            GroupMode::Backup => 1,
        };
        Ok(Self {
            state: State::new(group_id.into(), mode, cells)?,
            output: state::boxed(),
            list: state::boxed(),
            filled: 0,
            lengths: state::boxed(),
            not_sync: PhantomData,
        })
    }

    /// The state, for a call that changes it: what the last call sent is no longer listed.
    fn change(&mut self) -> &mut State {
        self.filled = 0;
        &mut self.state
    }

    /// Adds a leg as a member. In Broadcast it is active once it is connected, in Backup the first that is connected is, and others stand by.
    ///
    /// # Errors
    /// - [`OutOfRange`](Error::OutOfRange) for a field of the leg;
    /// - [`MemberLimit`](Error::MemberLimit), [`DuplicateMember`](Error::DuplicateMember);
    /// - [`AlignmentFailed`](Error::AlignmentFailed) if the leg has a flight and does not stand at the group's send number: **it is a member then**.
    ///
    /// ```
    /// use srt_group::{ConnectionState, Error, Group, GroupMode, Leg};
    ///
    /// let mut group = Group::new(0x4000_0001, GroupMode::Broadcast, 40)?;
    /// let connected = Leg { state: ConnectionState::Connected, next_send_sequence: 50, window: 8, ..Leg::default() };
    /// group.add_member(7, 0, connected)?;
    /// group.send(b"A", srt_group::Timestamp(0))?;
    ///
    /// let elsewhere = Leg { next_send_sequence: 90, flight: 1, ..connected };
    /// assert_eq!(group.add_member(8, 0, elsewhere), Err(Error::AlignmentFailed));
    /// assert!(group.member(8).is_ok());
    /// # Ok::<(), Error>(())
    /// ```
    pub fn add_member(&mut self, member_id: u32, weight: u16, leg: Leg) -> Result<(), Error> {
        self.change().add_member(&leg.row(), member_id.into(), weight.into())
    }

    /// Marks a member as broken, for good.
    ///
    /// # Errors
    /// [`UnknownMember`](Error::UnknownMember).
    pub fn mark_member_broken(&mut self, member_id: u32) -> Result<(), Error> {
        self.change().mark_member_broken(member_id.into())
    }

    /// Removes a member and drops its leg. What was collected from it is still delivered, in order; what was queued on it is not.
    ///
    /// # Errors
    /// [`UnknownMember`](Error::UnknownMember).
    pub fn remove_member(&mut self, member_id: u32) -> Result<(), Error> {
        self.change().remove_member(member_id.into())
    }

    /// The same, and its leg is given back, with its flight and its readings. It may be added again.
    ///
    /// # Errors
    /// [`UnknownMember`](Error::UnknownMember).
    ///
    /// ```
    /// use srt_group::{ConnectionState, Error, Group, GroupMode, Leg, Timestamp};
    ///
    /// let mut group = Group::new(0x4000_0001, GroupMode::Broadcast, 40)?;
    /// group.add_member(7, 0, Leg { state: ConnectionState::Connected, window: 8, ..Leg::default() })?;
    /// group.send(b"A", Timestamp(0))?;
    /// let leg = group.remove_member_connection(7)?;
    /// assert_eq!(leg.flight, 1);
    /// group.add_member(9, 0, leg)?;
    /// assert_eq!(group.remove_member_connection(7), Err(Error::UnknownMember));
    /// # Ok::<(), Error>(())
    /// ```
    pub fn remove_member_connection(&mut self, member_id: u32) -> Result<Leg, Error> {
        let mut row = Leg::default().row();
        self.change().remove_member_connection(&mut row, member_id.into())?;
        Ok(Leg::of(&row))
    }

    /// Brings the members' states up to date with their legs. The other calls that need it do it themselves.
    pub fn refresh_member_states(&mut self) {
        self.change().refresh_member_states();
    }

    /// Disconnects every leg. Nothing that is queued or held is dropped.
    pub fn disconnect(&mut self, now: Timestamp) {
        self.change().disconnect(now.0);
    }
}

/// # What a leg's connection brings
///
/// Document 01's stand-in for a connection: the host drives the sockets and the protocol, and tells the leg what came of it.
impl Group {
    /// Queues a packet on a leg. The payload is copied into the lowest free cell.
    ///
    /// # Errors
    /// - [`OutOfRange`](Error::OutOfRange) for a sequence of 2^31 or more, or a count that is not 1 to 65,535;
    /// - [`UnknownMember`](Error::UnknownMember);
    /// - [`PayloadTooLong`](Error::PayloadTooLong) above 1,456 bytes;
    /// - [`NoFreeCell`](Error::NoFreeCell);
    /// - [`QueueFull`](Error::QueueFull) if 16 events are queued on the leg.
    pub fn queue_data(&mut self, member_id: u32, data: ReceivedData<'_>) -> Result<(), Error> {
        self.change().queue_data(
            member_id.into(),
            data.sequence_number.into(),
            data.packet_count.into(),
            data.message_number.into(),
            data.timestamp.into(),
            data.source_time.0,
            data.payload,
        )
    }

    /// Queues on a leg what happened to its connection.
    ///
    /// # Errors
    /// - [`UnknownMember`](Error::UnknownMember);
    /// - [`QueueFull`](Error::QueueFull) if 16 events are queued on the leg.
    pub fn queue_event(&mut self, member_id: u32, event: ConnectionEvent) -> Result<(), Error> {
        let (kind, reason) = event.words();
        self.change().queue_event(member_id.into(), kind, reason)
    }

    /// Puts a reading into a leg.
    ///
    /// # Errors
    /// - [`OutOfRange`](Error::OutOfRange), [`UnknownMember`](Error::UnknownMember);
    /// - [`OutOfTurn`](Error::OutOfTurn) for a connection that goes back, or an acknowledgement of what is not in flight.
    pub fn read_leg(&mut self, member_id: u32, reading: Reading) -> Result<(), Error> {
        let (field, number) = reading.words();
        self.change().read_leg(member_id.into(), field, number)
    }
}

/// # Receiving
///
/// A poll collects what is queued on the legs and gives the next packet in order. Each is there twice: one gives the payload as new bytes, and
/// one, `…_into`, writes it to the host's own buffer, from byte 12 on; bytes 0 to 11, for the host's RTP head, and those after the payload stay.
///
/// While a packet is held a poll collects one event, so poll at least once for each that is queued; and again when a waiting time is over, since
/// only a poll passes over a gap. A packet that is missing is passed over for good once the leg that brought the next one has given up on it:
/// at that one's source time and the leg's latency. docs/WHY_A_SKIP_IS_RIGHT.md has what is proved of it.
impl Group {
    /// The next packet, in order and without duplicates. Events of members on the way are dropped.
    ///
    /// ```
    /// use srt_group::{ConnectionState, Error, Group, GroupMode, Leg, ReceivedData, Timestamp};
    ///
    /// let mut group = Group::new(0x4000_0001, GroupMode::Broadcast, 40)?;
    /// let leg = Leg { state: ConnectionState::Connected, peer_initial_sequence: Some(100), latency: 500, ..Leg::default() };
    /// group.add_member(7, 0, leg)?;
    ///
    /// // 100 is lost; 101 waits for it until 1,000 + 500.
    /// group.queue_data(7, ReceivedData { source_time: Timestamp(1_000), ..ReceivedData::new(101, b"A") })?;
    /// assert_eq!(group.poll_data(Timestamp(1_499)), None);
    ///
    /// let packet = group.poll_data(Timestamp(1_500)).expect("the leg has given up on 100");
    /// assert_eq!((packet.sequence_number, packet.payload), (101, b"A".to_vec()));
    /// assert_eq!(group.skipped_receive_packets(), 1);
    /// # Ok::<(), Error>(())
    /// ```
    pub fn poll_data(&mut self, now: Timestamp) -> Option<GroupPacket> {
        self.poll_data_bounded(now, state::MAX_EVENTS).packet
    }

    /// The same to the host's own buffer: the packet's `payload` is its place there, from byte 12 on.
    ///
    /// # Errors
    /// [`InsufficientBuffer`](Error::InsufficientBuffer) if it has fewer than [`Group::OUTPUT`] bytes, 1,468.
    ///
    /// ```
    /// # use srt_group::{ConnectionState, Error, Group, GroupMode, Leg, ReceivedData, Timestamp};
    /// # let mut group = Group::new(0x4000_0001, GroupMode::Broadcast, 40)?;
    /// # group.add_member(7, 0, Leg { state: ConnectionState::Connected, ..Leg::default() })?;
    /// group.queue_data(7, ReceivedData::new(101, b"payload"))?;
    ///
    /// let mut datagram = [0; Group::OUTPUT];
    /// let packet = group.poll_data_into(Timestamp(0), &mut datagram)?.expect("a packet");
    /// datagram[2..4].copy_from_slice(&(packet.sequence_number as u16).to_be_bytes());
    /// assert_eq!(&datagram[..packet.payload.end], b"\0\0\0\x65\0\0\0\0\0\0\0\0payload");
    /// # Ok::<(), Error>(())
    /// ```
    pub fn poll_data_into(&mut self, now: Timestamp, output: &mut [u8]) -> Result<Option<GroupPacket<Range<usize>>>, Error> {
        Ok(self.poll_data_bounded_into(now, state::MAX_EVENTS, output)?.packet)
    }

    /// The next packet after at most so many events of members, and at most 64; with 0 there is none.
    pub fn poll_data_bounded(&mut self, now: Timestamp, max_events: usize) -> GroupDataPoll {
        self.filled = 0;
        let polled = data_polled(&mut self.state, &mut self.output, now, max_events);
        GroupDataPoll { packet: polled.packet.map(|packet| packet.with_bytes_of(&*self.output)), continuation: polled.continuation }
    }

    /// The same to the host's own buffer, as [`poll_data_into`](Group::poll_data_into) does.
    ///
    /// # Errors
    /// [`InsufficientBuffer`](Error::InsufficientBuffer) if it has fewer than [`Group::OUTPUT`] bytes, 1,468.
    pub fn poll_data_bounded_into(
        &mut self,
        now: Timestamp,
        max_events: usize,
        output: &mut [u8],
    ) -> Result<GroupDataPoll<Range<usize>>, Error> {
        let output = lent(output)?;
        Ok(data_polled(self.change(), output, now, max_events))
    }

    /// What next happened to a member, or the next packet.
    ///
    /// ```
    /// # use srt_group::{ConnectionEvent, ConnectionState, Error, Group, GroupEvent, GroupMode, Leg, Timestamp};
    /// # let mut group = Group::new(0x4000_0001, GroupMode::Broadcast, 40)?;
    /// # group.add_member(7, 0, Leg { state: ConnectionState::Connected, ..Leg::default() })?;
    /// group.queue_event(7, ConnectionEvent::Disconnected { reason: 3 })?;
    /// assert_eq!(group.poll_event(Timestamp(0)), Some(GroupEvent::MemberDisconnected { member_id: 7, reason: 3 }));
    /// # Ok::<(), Error>(())
    /// ```
    pub fn poll_event(&mut self, now: Timestamp) -> Option<GroupEvent> {
        self.filled = 0;
        let answer = self.state.poll_event(&mut self.output, now.0);
        GroupEvent::of(&answer).map(|event| event.with_bytes_of(&*self.output))
    }

    /// The same with a packet's payload in the host's own buffer, as [`poll_data_into`](Group::poll_data_into) does.
    ///
    /// # Errors
    /// [`InsufficientBuffer`](Error::InsufficientBuffer) if it has fewer than [`Group::OUTPUT`] bytes, 1,468.
    pub fn poll_event_into(&mut self, now: Timestamp, output: &mut [u8]) -> Result<Option<GroupEvent<Range<usize>>>, Error> {
        let output = lent(output)?;
        Ok(GroupEvent::of(&self.change().poll_event(output, now.0)))
    }

    /// The packets that were passed over for good: lost on every leg.
    pub fn skipped_receive_packets(&self) -> u64 {
        self.state.record()[SKIPPED]
    }

    /// Whether a packet is held, an event waits or a poll stopped with work left. The legs' queues are not asked.
    pub fn has_pending_data(&self) -> bool {
        [PENDING, WAITING, CONTINUATION].iter().any(|&word| self.state.record()[word] != 0)
    }

    /// Whether the last poll stopped with work left: poll again at once, before waiting for input.
    pub fn has_receive_continuation(&self) -> bool {
        self.state.record()[CONTINUATION] != 0
    }
}

fn data_polled(state: &mut State, output: &mut [u8; OUTPUT], now: Timestamp, max_events: usize) -> GroupDataPoll<Range<usize>> {
    let answer = state.poll_data_bounded(output, now.0, max_events);
    GroupDataPoll { packet: GroupPacket::of(&answer), continuation: answer[0] != 0 }
}

/// What a poll is lent of the host's own buffer.
fn lent(output: &mut [u8]) -> Result<&mut [u8; OUTPUT], Error> {
    output.first_chunk_mut().ok_or(Error::InsufficientBuffer)
}

/// # Sending
impl Group {
    /// Sends a payload, and gives the number of legs that it went out on. What the host has to put on the wire is in [`sent`](Group::sent).
    ///
    /// # Errors
    /// - [`PayloadTooLong`](Error::PayloadTooLong), and in Backup [`NoFreeCell`](Error::NoFreeCell): nothing has changed.
    /// - [`PayloadAboveLimit`](Error::PayloadAboveLimit) of the first active leg, [`NoActiveMember`](Error::NoActiveMember),
    ///   [`SequenceMismatch`](Error::SequenceMismatch), [`AllBroadcastFailed`](Error::AllBroadcastFailed),
    ///   [`AllBackupFailed`](Error::AllBackupFailed), and of a take-over [`AlignmentFailed`](Error::AlignmentFailed),
    ///   [`ReplayRefused`](Error::ReplayRefused), [`PromotionSendFailed`](Error::PromotionSendFailed): members' states may have moved, and **in
    ///   Backup [`sent`](Group::sent) has what was replayed until then**. docs/CODES.md says what each leaves.
    ///
    /// ```
    /// use srt_group::{ConnectionState, Error, Group, GroupMode, Leg, Timestamp};
    ///
    /// let mut group = Group::new(0x4000_0001, GroupMode::Broadcast, 40)?;
    /// for id in [7, 8] {
    ///     let leg = Leg { state: ConnectionState::Connected, next_send_sequence: 50, window: 8, ..Leg::default() };
    ///     group.add_member(id, 0, leg)?;
    /// }
    /// assert_eq!(group.send(b"A", Timestamp(1_000))?, 2);
    /// let rows: Vec<_> = group.sent().iter().map(|sent| (sent.member_id(), sent.sequence_number())).collect();
    /// assert_eq!(rows, [(7, 50), (8, 50)]);
    /// # Ok::<(), Error>(())
    /// ```
    pub fn send(&mut self, payload: &[u8], now: Timestamp) -> Result<usize, Error> {
        let (outcome, [legs, filled]) = self.state.send(&mut self.list, now.0, payload);
        self.filled = filled as usize;
        outcome?;
        self.note_length();
        Ok(legs as usize)
    }

    /// The same call: a payload is lent, and every leg shares it as it is. The Rust has two since it copies in one of them.
    ///
    /// # Errors
    /// As [`send`](Group::send).
    pub fn send_shared(&mut self, payload: &[u8], now: Timestamp) -> Result<usize, Error> {
        self.send(payload, now)
    }

    /// Notes the length of the history's newest entry, if there is one. Its word is (sequence * 2,048 + cell) * 2,048 + length.
    fn note_length(&mut self) {
        let [start, length] = [RING_START, RING_LENGTH].map(|word| self.state.record()[word] as usize);
        if length > 0 {
            let newest = (start % Self::MAX_HISTORY + length - 1) % Self::MAX_HISTORY;
            let word = self.state.history()[newest];
            self.lengths[(word / 2_048 % 2_048) as usize] = (word % 2_048) as u16;
        }
    }

    /// The sends that the last call made, in order; none if it was another call than a send. A call that ended with one of
    /// [`Error`]'s 22 to 29 may have made some too.
    pub fn sent(&self) -> &[Sent] {
        &self.list[..self.filled]
    }

    /// The payload of a row of [`sent`](Group::sent) that is a replay; none for the call's own payload, which the caller has.
    pub fn replayed(&self, sent: &Sent) -> Option<&[u8]> {
        let cell = sent.history_cell()? as usize;
        self.state.store().get(cell * Self::CELL..)?.get(..self.lengths[cell].into())
    }

    /// Whether the group could send now. It brings the members' states up to date.
    pub fn can_send(&mut self) -> bool {
        self.change().can_send()
    }

    /// The same by the legs' pace too. In Backup it may promote another leg for a carrier that fell silent.
    pub fn can_send_with_pacing(&mut self, now: Timestamp) -> bool {
        self.change().can_send_with_pacing(now.0)
    }

    /// How long until pacing lets a member send, in microseconds. It walks the whole state.
    pub fn time_until_send(&self, now: Timestamp) -> u64 {
        self.state.time_until_send(now.0)
    }

    /// How long a member may be silent as the carrier of a Backup group, in microseconds; none for a leg that never connected. It walks the
    /// whole state.
    ///
    /// # Errors
    /// [`UnknownMember`](Error::UnknownMember).
    pub fn backup_stability_timeout_micros(&self, member_id: u32) -> Result<Option<u64>, Error> {
        let micros = self.state.backup_stability_timeout_micros(member_id.into())?;
        Ok((micros != 0).then_some(micros))
    }
}

/// # Looks
impl Group {
    /// The group's id.
    pub fn group_id(&self) -> u32 {
        narrow(self.state.record()[ID])
    }

    /// Its mode.
    pub fn mode(&self) -> GroupMode {
        match self.state.record()[MODE] {
            0 => GroupMode::Broadcast,
            _ => GroupMode::Backup,
        }
    }

    /// The receiving group that it is bound to, once a leg's peer has named one.
    pub fn peer_group_id(&self) -> Option<NonZeroU32> {
        NonZeroU32::new(narrow(self.state.record()[PEER]))
    }

    /// One member. The look walks the whole state.
    ///
    /// # Errors
    /// [`UnknownMember`](Error::UnknownMember).
    pub fn member(&self, member_id: u32) -> Result<GroupMember, Error> {
        Ok(GroupMember::of(&self.state.member(member_id.into())?))
    }

    /// All members, in the order of their addition. The look walks the whole state.
    ///
    /// ```
    /// # use srt_group::{ConnectionState, Error, Group, GroupMode, Leg};
    /// # let mut group = Group::new(0x4000_0001, GroupMode::Broadcast, 40)?;
    /// group.add_member(7, 0, Leg::default())?;
    /// group.add_member(3, 0, Leg { state: ConnectionState::Connected, ..Leg::default() })?;
    /// let ids: Vec<u32> = group.members().map(|member| member.id).collect();
    /// assert_eq!(ids, [7, 3]);
    /// # Ok::<(), Error>(())
    /// ```
    pub fn members(&self) -> GroupMembers {
        GroupMembers::of(self.state.members())
    }
}

#[cfg(test)]
impl Group {
    pub(crate) fn state(&self) -> &State {
        &self.state
    }
}
