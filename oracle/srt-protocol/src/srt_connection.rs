//! The stand-in connection of document 01, "The stand-in leg". The bodies of the real `SrtConnection` are not
//! among the published files.

use std::cell::RefCell;
use std::collections::VecDeque;
use std::rc::Rc;

use bytes::{Bytes, NO_CELL};

use crate::error::Error;
use crate::srt_handshake::{GroupExtensionData, GroupType};
use crate::time::Timestamp;

/// A visit's delivery budget: data events that one `poll_event` may take from the legs.
pub const MAX_DELIVERY_PER_VISIT: usize = 32;
/// Twice the number of sends that the backup history holds.
pub const MAX_OUTPUT_QUEUE_ACTIONS: usize = 1_024;
/// Events that one leg's queue holds.
pub const MAX_QUEUED_EVENTS: usize = 16;

const SEQUENCE_MASK: u32 = 0x7FFF_FFFF;

#[derive(Debug, Clone, Copy, PartialEq, Eq, PartialOrd, Ord)]
pub enum ConnectionState {
    Handshaking,
    Connected,
    Disconnected,
}

/// Why a leg disconnected: a number, as in document 01.
#[derive(Debug, Clone, Copy, PartialEq, Eq)]
pub struct DisconnectReason(pub u32);

impl std::fmt::Display for DisconnectReason {
    fn fmt(&self, f: &mut std::fmt::Formatter<'_>) -> std::fmt::Result {
        write!(f, "{}", self.0)
    }
}

#[derive(Debug, Clone)]
pub enum ConnectionEvent {
    Connected,
    DataReceived {
        sequence_number: u32,
        message_number: u32,
        timestamp: u32,
        source_time: Timestamp,
        payload: crate::ReceivedPayload,
        packet_count: u32,
    },
    Error(String),
    Disconnected {
        reason: DisconnectReason,
    },
}

/// The group clock. `group_time` is always none here, so no value of this type exists.
#[derive(Debug, Clone, Copy)]
pub enum GroupTime {}

impl GroupTime {
    pub fn advance_receive_epoch(&mut self, _newer: Self) {
        match *self {}
    }

    pub fn update_receive(&mut self, _newer: Self) {
        match *self {}
    }
}

/// One row of the lent list of sends.
#[derive(Debug, Clone, Copy, PartialEq, Eq)]
pub struct RecordedSend {
    pub leg: u32,
    pub sequence: u32,
    pub cell: u32,
    pub source_time: u64,
    pub now: u64,
}

/// The list that takes every successful send of one call, in order, over all legs.
pub type SendList = Rc<RefCell<Vec<RecordedSend>>>;

/// What the group sees of a leg's sender.
#[derive(Debug, Clone)]
pub struct SenderBuffer {
    pub next: u32,
    pub flight: u32,
    pub window: u32,
    pub srtt: u32,
    pub rttvar: u32,
    pub oldest_send_time: u64,
}

impl SenderBuffer {
    pub fn rtt_estimate_micros(&self) -> (u32, u32) {
        (self.srtt, self.rttvar)
    }

    pub fn remaining_window_packets(&self) -> u32 {
        self.window.saturating_sub(self.flight)
    }

    pub fn is_empty(&self) -> bool {
        self.flight == 0
    }

    pub fn has_outstanding_submitted_data(&self) -> bool {
        self.flight > 0
    }

    pub fn oldest_packet_time(&self) -> Option<Timestamp> {
        (self.flight > 0).then_some(Timestamp(self.oldest_send_time))
    }

    pub fn oldest_unacked_sequence(&self) -> u32 {
        self.next.wrapping_sub(self.flight) & SEQUENCE_MASK
    }
}

/// The values a leg is handed over with.
#[derive(Debug, Clone, Copy)]
pub struct LegStart {
    pub leg: u32,
    pub state: ConnectionState,
    pub next_send: u32,
    pub peer_initial_sequence: Option<u32>,
    pub window: u32,
    pub latency: u64,
    pub flight: u32,
}

#[derive(Clone)]
pub struct SrtConnection {
    pub leg: u32,
    state: ConnectionState,
    /// The leg has been connected: it has a sender and a next sequence from then on.
    has_sender: bool,
    sender: SenderBuffer,
    peer_initial_sequence: Option<u32>,
    pub receive_window: u32,
    pub latency: u64,
    pub last_heard: u64,
    pub pace_time: u64,
    /// The peer's group, 0 for none.
    pub peer_group: u32,
    pub payload_limit: u32,
    queue: VecDeque<ConnectionEvent>,
    reservation: u32,
    /// The number that `advance_receive_sequence` last recorded.
    advanced: Option<u32>,
    sends: SendList,
}

/// What the host of the legs does: handing over, readings, queueing.
impl SrtConnection {
    pub fn new(start: LegStart, sends: SendList) -> Self {
        Self {
            leg: start.leg,
            state: start.state,
            has_sender: start.state == ConnectionState::Connected,
            sender: SenderBuffer {
                next: start.next_send,
                flight: start.flight,
                window: start.window,
                srtt: 0,
                rttvar: 0,
                oldest_send_time: 0,
            },
            peer_initial_sequence: start.peer_initial_sequence,
            receive_window: 8_192,
            latency: start.latency,
            last_heard: 0,
            pace_time: 0,
            peer_group: 0,
            payload_limit: 1_456,
            queue: VecDeque::new(),
            reservation: 0,
            advanced: None,
            sends,
        }
    }

    /// A leg that is handed over disconnected has connected.
    pub fn hand_over(&mut self) {
        self.has_sender |= self.state == ConnectionState::Disconnected;
    }

    /// Removal drops the leg's queue and clears its reservation.
    pub fn take_back(&mut self) {
        self.queue.clear();
        self.reservation = 0;
    }

    pub fn set_state(&mut self, state: ConnectionState) {
        self.state = state;
        self.has_sender |= state == ConnectionState::Connected;
    }

    /// The sender's readings, which stand before the leg connects too.
    pub fn readings(&self) -> &SenderBuffer {
        &self.sender
    }

    /// The sender's readings, which may be set before the leg connects.
    pub fn sender_readings(&mut self) -> &mut SenderBuffer {
        &mut self.sender
    }

    /// Whether `up_to` lies from the oldest unacknowledged sequence up to next.
    pub fn acknowledges(&self, up_to: u32) -> bool {
        self.has_sender
            && up_to.wrapping_sub(self.sender.oldest_unacked_sequence()) & SEQUENCE_MASK
                <= self.sender.flight
    }

    pub fn acknowledge(&mut self, up_to: u32) {
        self.sender.flight = self.sender.next.wrapping_sub(up_to) & SEQUENCE_MASK;
    }

    pub fn queue_event(&mut self, event: ConnectionEvent) {
        if let ConnectionEvent::DataReceived { packet_count, .. } = &event {
            self.reservation += packet_count;
        }
        self.queue.push_back(event);
    }

    pub fn queue(&self) -> &VecDeque<ConnectionEvent> {
        &self.queue
    }

    pub fn reservation(&self) -> u32 {
        self.reservation
    }

    pub fn advanced(&self) -> Option<u32> {
        self.advanced
    }
}

/// What `SrtGroup` asks of a leg.
impl SrtConnection {
    pub fn state(&self) -> ConnectionState {
        self.state
    }

    pub fn sender_buffer(&self) -> Option<&SenderBuffer> {
        self.has_sender.then_some(&self.sender)
    }

    pub fn next_sequence_number(&self) -> Option<u32> {
        self.has_sender.then_some(self.sender.next)
    }

    pub fn peer_initial_sequence(&self) -> Option<u32> {
        self.peer_initial_sequence
    }

    pub fn peer_group_extension(&self) -> Option<GroupExtensionData> {
        (self.peer_group != 0).then_some(GroupExtensionData {
            group_id: self.peer_group,
            group_type: GroupType::Undefined,
            flags: 0,
            weight: 0,
        })
    }

    pub fn receive_window_packets(&self) -> u32 {
        self.receive_window
    }

    pub fn effective_max_payload_size(&self) -> usize {
        self.payload_limit as usize
    }

    pub fn last_recv_time(&self) -> Option<Timestamp> {
        Some(Timestamp(self.last_heard))
    }

    pub fn can_send(&self) -> bool {
        self.state == ConnectionState::Connected && self.sender.remaining_window_packets() > 0
    }

    pub fn can_send_with_pacing(&self, now: Timestamp) -> bool {
        self.can_send() && now.as_micros() >= self.pace_time
    }

    pub fn time_until_send(&self, now: Timestamp) -> u64 {
        self.pace_time.saturating_sub(now.as_micros())
    }

    pub fn synchronize_send_sequence(&mut self, sequence: u32) -> Result<(), Error> {
        if !self.has_sender || self.sender.flight != 0 {
            return Err(Error::invalid_state("packets are in flight"));
        }
        self.sender.next = sequence;
        Ok(())
    }

    pub fn send_shared_with_sequence(
        &mut self,
        payload: Bytes,
        sequence: u32,
        now: Timestamp,
    ) -> Result<(), Error> {
        self.send_one(&payload, sequence, NO_CELL, now, now)
    }

    pub fn send_shared_with_sequence_at(
        &mut self,
        payload: Bytes,
        sequence: u32,
        source_time: Timestamp,
        now: Timestamp,
    ) -> Result<(), Error> {
        self.send_one(&payload, sequence, payload.cell(), source_time, now)
    }

    fn send_one(
        &mut self,
        payload: &[u8],
        sequence: u32,
        cell: u32,
        source_time: Timestamp,
        now: Timestamp,
    ) -> Result<(), Error> {
        if !self.can_send()
            || sequence != self.sender.next
            || payload.len() > self.effective_max_payload_size()
        {
            return Err(Error::invalid_state("the leg cannot send this"));
        }
        if self.sender.flight == 0 {
            self.sender.oldest_send_time = now.as_micros();
        }
        self.sender.next = self.sender.next.wrapping_add(1) & SEQUENCE_MASK;
        self.sender.flight += 1;
        self.sends.borrow_mut().push(RecordedSend {
            leg: self.leg,
            sequence,
            cell,
            source_time: source_time.as_micros(),
            now: now.as_micros(),
        });
        Ok(())
    }

    /// The front event, if the budget allows, and whether the leg has more that the budget kept back.
    pub fn poll_event_for_group(
        &mut self,
        _now: Timestamp,
        budget: &mut usize,
    ) -> (Option<ConnectionEvent>, bool) {
        if self.queue.is_empty() {
            return (None, false);
        }
        if *budget == 0 {
            return (None, true);
        }
        let event = self.queue.pop_front();
        if matches!(event, Some(ConnectionEvent::DataReceived { .. })) {
            *budget -= 1;
        }
        (event, false)
    }

    pub fn release_data_reservation(&mut self, packets: u32) {
        self.reservation -= packets;
    }

    pub fn gives_up_at(&self, source_time: Timestamp) -> Option<Timestamp> {
        (self.latency != 0).then(|| source_time.add_micros(self.latency))
    }

    pub fn advance_receive_sequence(&mut self, following: u32, _now: Timestamp) {
        self.advanced = Some(following);
    }

    pub fn disconnect(&mut self, _now: Timestamp) {
        self.state = ConnectionState::Disconnected;
    }

    pub fn group_time(&self) -> Option<GroupTime> {
        None
    }

    pub fn inherit_group_time(&mut self, time: GroupTime) {
        match time {}
    }
}
