//! The ranges of document 01's fields (code 2), and what a reading sets.

use srt_protocol::srt_connection::{ConnectionState, SrtConnection};

use crate::codes::{self, Code};
use crate::gateway::{Data, Leg};

/// No first sequence of the peer.
pub const NONE: u64 = 4_294_967_295;

pub const MAX_32_BITS: u64 = 4_294_967_295;
const MAX_16_BITS: u64 = 65_535;
const MAX_SEQUENCE: u64 = 0x7FFF_FFFF;

pub fn within(number: u64, limit: u64) -> Result<(), Code> {
    if number > limit {
        return Err(codes::OUT_OF_RANGE);
    }
    Ok(())
}

pub fn check_leg(leg: &Leg) -> Result<(), Code> {
    within(leg.leg, MAX_32_BITS)?;
    within(leg.weight, MAX_16_BITS)?;
    within(leg.state, 2)?;
    within(leg.next_send, MAX_SEQUENCE)?;
    if leg.peer_initial_sequence != NONE {
        within(leg.peer_initial_sequence, MAX_SEQUENCE)?;
    }
    within(leg.window, MAX_16_BITS)?;
    // Without a sender nothing is in flight.
    within(leg.flight, if leg.state == 0 { 0 } else { MAX_16_BITS })
}

pub fn check_data(data: &Data<'_>) -> Result<(), Code> {
    within(data.leg, MAX_32_BITS)?;
    within(data.sequence, MAX_SEQUENCE)?;
    if data.count == 0 {
        return Err(codes::OUT_OF_RANGE);
    }
    within(data.count, MAX_16_BITS)?;
    within(data.message_number, MAX_32_BITS)?;
    within(data.timestamp, MAX_32_BITS)
}

/// The largest number a field of a reading takes; none for an unknown field.
pub fn reading_limit(field: u64) -> Option<u64> {
    match field {
        1 => Some(2),
        2 | 3 | 11 => Some(MAX_16_BITS),
        5 => Some(MAX_SEQUENCE),
        6 | 7 | 10 => Some(MAX_32_BITS),
        4 | 8 | 9 | 12 => Some(u64::MAX),
        _ => None,
    }
}

pub fn read(connection: &mut SrtConnection, field: u64, number: u64) {
    match field {
        1 => connection.set_state(connection_state(number)),
        2 => connection.sender_readings().window = number as u32,
        3 => connection.receive_window = number as u32,
        4 => connection.latency = number,
        5 => connection.acknowledge(number as u32),
        6 => connection.sender_readings().srtt = number as u32,
        7 => connection.sender_readings().rttvar = number as u32,
        8 => connection.last_heard = number,
        9 => connection.pace_time = number,
        10 => connection.peer_group = number as u32,
        11 => connection.payload_limit = number as u32,
        12 => connection.sender_readings().oldest_send_time = number,
        _ => unreachable!("an unknown field has no limit"),
    }
}

pub fn connection_state(number: u64) -> ConnectionState {
    [
        ConnectionState::Handshaking,
        ConnectionState::Connected,
        ConnectionState::Disconnected,
    ][number as usize]
}
