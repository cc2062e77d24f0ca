//! A group with all that is lent to its calls: the store of cells, the output, the list of sends.
//!
//! The Rust decides what the group does. Beside it stand the refusals that the port adds (codes 1 to 6 and 30
//! to 32), in document 01's order, and the account of the cells.

use std::collections::BTreeMap;
use std::rc::Rc;

use bytes::Bytes;
use srt_protocol::srt_connection::{
    ConnectionEvent, DisconnectReason, LegStart, MAX_QUEUED_EVENTS, RecordedSend, SendList,
    SrtConnection,
};
use srt_protocol::{
    Error, GroupEvent, GroupMode, GroupPacket, PeerGroupCollision, ReceivedPayload, SrtGroup,
    Timestamp,
};

use crate::codes::{self, Code};
use crate::fields::{self, MAX_32_BITS, NONE, connection_state, within};

pub const CELL: usize = 1_456;
pub const RTP_HEAD: usize = 12;

/// A leg as an addition is given it.
#[derive(Debug, Clone, Copy)]
pub struct Leg {
    pub leg: u64,
    pub weight: u64,
    pub state: u64,
    pub next_send: u64,
    pub peer_initial_sequence: u64,
    pub window: u64,
    pub latency: u64,
    pub flight: u64,
}

/// A data event as the host queues it.
#[derive(Debug, Clone, Copy)]
pub struct Data<'a> {
    pub leg: u64,
    pub sequence: u64,
    pub count: u64,
    pub source_time: u64,
    pub message_number: u64,
    pub timestamp: u64,
    pub payload: &'a [u8],
}

pub struct Gateway {
    group: Option<SrtGroup>,
    store: Vec<u8>,
    output: Vec<u8>,
    sends: SendList,
    /// For an id that was removed: how many collisions the Rust had noted by then.
    forgotten: BTreeMap<u32, usize>,
}

impl Gateway {
    pub fn new(cells: usize) -> Self {
        Self {
            group: None,
            store: vec![0; cells * CELL],
            output: vec![0; RTP_HEAD + CELL],
            sends: SendList::default(),
            forgotten: BTreeMap::new(),
        }
    }

    pub fn cells(&self) -> usize {
        self.store.len() / CELL
    }

    pub fn store(&self) -> &[u8] {
        &self.store
    }

    pub fn output(&self) -> &[u8] {
        &self.output
    }

    pub fn group(&self) -> Option<&SrtGroup> {
        self.group.as_ref()
    }

    /// The sends of the last call.
    pub fn sends(&self) -> Vec<RecordedSend> {
        self.sends.borrow().clone()
    }

    /// Every call starts with an empty list of sends, and needs a group.
    pub fn start_call(&mut self) -> Result<&mut SrtGroup, Code> {
        self.sends.borrow_mut().clear();
        self.group.as_mut().ok_or(codes::BROKEN_STATE)
    }

    pub fn new_group(&mut self, id: u64, mode: u64) -> Result<(), Code> {
        self.sends.borrow_mut().clear();
        within(id, MAX_32_BITS)?;
        within(mode, 1)?;
        let mode = [GroupMode::Broadcast, GroupMode::Backup][mode as usize];
        let group = SrtGroup::new(id as u32, mode).map_err(|error| codes::of_error(&error))?;
        self.group = Some(group);
        self.forgotten.clear();
        Ok(())
    }

    pub fn add(&mut self, leg: Leg) -> Result<(), Code> {
        self.start_call()?;
        fields::check_leg(&leg)?;
        let start = LegStart {
            leg: leg.leg as u32,
            state: connection_state(leg.state),
            next_send: leg.next_send as u32,
            peer_initial_sequence: (leg.peer_initial_sequence != NONE)
                .then_some(leg.peer_initial_sequence as u32),
            window: leg.window as u32,
            latency: leg.latency,
            flight: leg.flight as u32,
        };
        let connection = SrtConnection::new(start, Rc::clone(&self.sends));
        self.add_connection(leg.weight as u16, connection)
    }

    /// Add a leg that the host holds already, for example one that a removal gave back.
    pub fn add_connection(
        &mut self,
        weight: u16,
        mut connection: SrtConnection,
    ) -> Result<(), Code> {
        connection.hand_over();
        self.start_call()?
            .add_member(connection.leg, weight, connection)
            .map_err(|error| codes::of_error(&error))
    }

    pub fn reading(&mut self, leg: u64, field: u64, number: u64) -> Result<(), Code> {
        self.start_call()?;
        within(leg, MAX_32_BITS)?;
        within(
            number,
            fields::reading_limit(field).ok_or(codes::OUT_OF_RANGE)?,
        )?;
        let connection = self.leg_mut(leg)?;
        match field {
            1 if connection_state(number) < connection.state() => return Err(codes::OUT_OF_TURN),
            5 if !connection.acknowledges(number as u32) => return Err(codes::OUT_OF_TURN),
            _ => fields::read(connection, field, number),
        }
        Ok(())
    }

    pub fn data(&mut self, data: Data<'_>) -> Result<(), Code> {
        self.start_call()?;
        fields::check_data(&data)?;
        self.leg_mut(data.leg)?;
        if data.payload.len() > CELL {
            return Err(codes::PAYLOAD_TOO_LONG);
        }
        let cell = self.lowest_free_cell().ok_or(codes::NO_FREE_CELL)?;
        let connection = self.leg_mut(data.leg)?;
        if connection.queue().len() >= MAX_QUEUED_EVENTS {
            return Err(codes::QUEUE_FULL);
        }
        let payload = Bytes::copy_from_slice(data.payload);
        payload.set_cell(cell);
        connection.queue_event(ConnectionEvent::DataReceived {
            sequence_number: data.sequence as u32,
            message_number: data.message_number as u32,
            timestamp: data.timestamp as u32,
            source_time: Timestamp(data.source_time),
            payload: ReceivedPayload::from(payload),
            packet_count: data.count as u32,
        });
        self.write_cell(cell, data.payload);
        Ok(())
    }

    pub fn event(&mut self, leg: u64, kind: u64, reason: u64) -> Result<(), Code> {
        self.start_call()?;
        within(leg, MAX_32_BITS)?;
        within(reason, MAX_32_BITS)?;
        let event = match kind {
            1 => ConnectionEvent::Connected,
            2 => ConnectionEvent::Error(reason.to_string()),
            3 => ConnectionEvent::Disconnected {
                reason: DisconnectReason(reason as u32),
            },
            _ => return Err(codes::OUT_OF_RANGE),
        };
        let connection = self.leg_mut(leg)?;
        if connection.queue().len() >= MAX_QUEUED_EVENTS {
            return Err(codes::QUEUE_FULL);
        }
        connection.queue_event(event);
        Ok(())
    }

    pub fn poll_data(&mut self, now: u64) -> Result<Option<GroupPacket>, Code> {
        let packet = self.start_call()?.poll_data(Timestamp(now));
        if let Some(packet) = &packet {
            self.write_output(packet);
        }
        Ok(packet)
    }

    pub fn poll_event(&mut self, now: u64) -> Result<Option<GroupEvent>, Code> {
        let event = self.start_call()?.poll_event(Timestamp(now));
        if let Some(GroupEvent::DataReceived(packet)) = &event {
            self.write_output(packet);
        }
        Ok(event)
    }

    pub fn poll_data_bounded(
        &mut self,
        now: u64,
        max_events: u64,
    ) -> Result<(Option<GroupPacket>, bool), Code> {
        let poll = self
            .start_call()?
            .poll_data_bounded(Timestamp(now), max_events as usize);
        if let Some(packet) = &poll.packet {
            self.write_output(packet);
        }
        Ok((poll.packet, poll.continuation))
    }

    pub fn send(&mut self, payload: &[u8], now: u64) -> Result<usize, Code> {
        self.send_by(payload, |group| group.send(payload, Timestamp(now)))
    }

    pub fn send_shared(&mut self, payload: &[u8], now: u64) -> Result<usize, Code> {
        let shared = Bytes::copy_from_slice(payload);
        self.send_by(payload, |group| group.send_shared(shared, Timestamp(now)))
    }

    fn send_by(
        &mut self,
        payload: &[u8],
        send: impl FnOnce(&mut SrtGroup) -> Result<usize, Error>,
    ) -> Result<usize, Code> {
        let backup = self.start_call()?.mode() == GroupMode::Backup;
        if payload.len() > CELL {
            return Err(codes::PAYLOAD_TOO_LONG);
        }
        // The cell is chosen at the call's start, before the send can trim the history.
        let cell = self.lowest_free_cell();
        if backup && cell.is_none() {
            return Err(codes::NO_FREE_CELL);
        }
        let group = self.group.as_mut().ok_or(codes::BROKEN_STATE)?;
        let sent = send(group).map_err(|error| codes::of_error(&error))?;
        if let (true, Some(cell)) = (backup, cell) {
            let (_, recorded, _) = group.backup_history().back().expect("the send just made");
            recorded.set_cell(cell);
            self.write_cell(cell, payload);
        }
        Ok(sent)
    }

    /// Remove a leg and give it back with an empty queue.
    pub fn remove(&mut self, leg: u64) -> Result<SrtConnection, Code> {
        let group = self.start_call()?;
        within(leg, MAX_32_BITS)?;
        let mut connection = group
            .remove_member_connection(leg as u32)
            .ok_or(codes::UNKNOWN_LEG)?;
        connection.take_back();
        let noted = group.collisions().len();
        self.forgotten.insert(leg as u32, noted);
        Ok(connection)
    }

    /// Document 01: a collision stays readable at its member until removal. The Rust hands it out once.
    pub fn collision(&self, leg: u32) -> Option<PeerGroupCollision> {
        let forgotten = self.forgotten.get(&leg).copied().unwrap_or(0);
        let noted = self.group()?.collisions().iter().skip(forgotten);
        noted.copied().find(|collision| collision.member_id == leg)
    }

    pub fn mark_broken(&mut self, leg: u64) -> Result<(), Code> {
        let group = self.start_call()?;
        within(leg, MAX_32_BITS)?;
        match group.mark_member_broken(leg as u32) {
            true => Ok(()),
            false => Err(codes::UNKNOWN_LEG),
        }
    }

    fn leg_mut(&mut self, leg: u64) -> Result<&mut SrtConnection, Code> {
        let group = self.group.as_mut().ok_or(codes::BROKEN_STATE)?;
        group
            .member_mut(leg as u32)
            .map(|member| member.connection_mut())
            .ok_or(codes::UNKNOWN_LEG)
    }
}

/// The cells.
impl Gateway {
    /// Which cells carry a queued, held or history payload.
    pub fn used_cells(&self) -> Vec<bool> {
        let mut used = vec![false; self.cells()];
        let Some(group) = &self.group else {
            return used;
        };
        let queues = group.members().iter().map(|member| member.connection());
        let queued = queues.flat_map(|leg| leg.queue()).filter_map(queued_cell);
        let held = group.pending().values().map(packet_cell);
        let history = group
            .backup_history()
            .iter()
            .map(|(_, sent, _)| sent.cell());
        for cell in queued.chain(held).chain(history) {
            assert!(!used[cell as usize], "cell {cell} carries two payloads");
            used[cell as usize] = true;
        }
        used
    }

    pub fn lowest_free_cell(&self) -> Option<u32> {
        let free = self.used_cells().iter().position(|used| !used)?;
        Some(free as u32)
    }

    /// Bytes after the payload stay as they are.
    fn write_cell(&mut self, cell: u32, payload: &[u8]) {
        let start = cell as usize * CELL;
        self.store[start..start + payload.len()].copy_from_slice(payload);
    }

    /// The payload goes behind the host's RTP head; bytes after it stay as they are.
    fn write_output(&mut self, packet: &GroupPacket) {
        let start = packet_cell(packet) as usize * CELL;
        let end = start + packet.payload.len();
        self.output[RTP_HEAD..RTP_HEAD + end - start].copy_from_slice(&self.store[start..end]);
    }
}

pub fn queued_cell(event: &ConnectionEvent) -> Option<u32> {
    match event {
        ConnectionEvent::DataReceived { payload, .. } => Some(payload_cell(payload)),
        _ => None,
    }
}

pub fn packet_cell(packet: &GroupPacket) -> u32 {
    payload_cell(&packet.payload)
}

fn payload_cell(payload: &ReceivedPayload) -> u32 {
    payload.chunks().next().expect("one chunk").cell()
}
