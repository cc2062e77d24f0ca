//! The state after a call in a plain form: one fact a line, each starting with `#`. README.md documents it.

use std::fmt::Display;
use std::io::{self, Write};

use srt_protocol::srt_connection::{ConnectionEvent, ConnectionState, SrtConnection};
use srt_protocol::{
    GroupEvent, GroupMode, GroupPacket, PeerGroupCollision, ReceivedPayload, SrtGroup,
    SrtGroupMember,
};

use crate::gateway::{self, Gateway};

pub fn write(gateway: &Gateway, out: &mut dyn Write) -> io::Result<()> {
    let Some(group) = gateway.group() else {
        return writeln!(out, "# no group");
    };
    write_group(group, out)?;
    for member in group.members() {
        write_member(member, out)?;
    }
    for packet in group.pending().values() {
        write_held(group, packet, out)?;
    }
    for event in group.waiting() {
        write_waiting(event, out)?;
    }
    for collision in members_collisions(gateway) {
        let leg = collision.member_id;
        let expected = collision.expected_peer_group_id;
        let actual = collision.actual_peer_group_id;
        writeln!(out, "# collision {leg} expected={expected} actual={actual}")?;
    }
    for (sequence, payload, time) in group.backup_history() {
        let (cell, time) = (payload.cell(), time.as_micros());
        let bytes = shown(payload);
        writeln!(
            out,
            "# history {sequence} cell={cell} time={time} bytes={bytes}"
        )?;
    }
    write_cells(gateway, out)?;
    for send in gateway.sends() {
        writeln!(
            out,
            "# sent leg={} sequence={} cell={} source={} now={}",
            send.leg, send.sequence, send.cell, send.source_time, send.now
        )?;
    }
    Ok(())
}

fn members_collisions(gateway: &Gateway) -> Vec<PeerGroupCollision> {
    let members = gateway.group().map_or(&[][..], |group| group.members());
    let collisions = members.iter().map(|member| gateway.collision(member.id()));
    collisions.flatten().collect()
}

fn write_group(group: &SrtGroup, out: &mut dyn Write) -> io::Result<()> {
    let mode = match group.mode() {
        GroupMode::Broadcast => "broadcast",
        GroupMode::Backup => "backup",
    };
    writeln!(
        out,
        "# group {} mode={mode} base={} send={} skipped={} continuation={} round={} peer={} owned={} carrier={} gap={}",
        group.group_id(),
        or_dash(group.next_receive_sequence()),
        or_dash(group.next_send_sequence()),
        group.skipped_receive_packets(),
        u8::from(group.has_receive_continuation()),
        group.next_event_member(),
        or_dash(group.peer_group_id()),
        group.owned_packets(),
        or_dash(group.backup_carrier()),
        u8::from(group.backup_history_gap()),
    )
}

fn write_member(member: &SrtGroupMember, out: &mut dyn Write) -> io::Result<()> {
    let leg = member.connection();
    writeln!(
        out,
        "# member {} weight={} label={:?} admitted={} reserved={}",
        member.id(),
        member.weight(),
        member.state(),
        u8::from(member.peer_group_admitted()),
        member.reserved_packets(),
    )?;
    writeln!(out, "# {}", leg_facts(leg))?;
    for event in leg.queue() {
        write_queued(leg.leg, event, out)?;
    }
    Ok(())
}

/// A leg with all its readings.
pub fn leg_facts(leg: &SrtConnection) -> String {
    let state = match leg.state() {
        ConnectionState::Handshaking => 0,
        ConnectionState::Connected => 1,
        ConnectionState::Disconnected => 2,
    };
    let sender = leg.readings();
    let facts = [
        ("state", state.to_string()),
        ("next", or_dash(leg.next_sequence_number())),
        ("flight", sender.flight.to_string()),
        ("window", sender.window.to_string()),
        ("first", or_dash(leg.peer_initial_sequence())),
        ("latency", leg.latency.to_string()),
        ("receive_window", leg.receive_window.to_string()),
        ("srtt", sender.srtt.to_string()),
        ("rttvar", sender.rttvar.to_string()),
        ("heard", leg.last_heard.to_string()),
        ("pace", leg.pace_time.to_string()),
        ("peer", leg.peer_group.to_string()),
        ("limit", leg.payload_limit.to_string()),
        ("oldest", sender.oldest_send_time.to_string()),
        ("reservation", leg.reservation().to_string()),
        ("advanced", or_dash(leg.advanced())),
    ];
    let words = facts.map(|(name, value)| format!("{name}={value}"));
    format!("leg {} {}", leg.leg, words.join(" "))
}

fn write_queued(leg: u32, event: &ConnectionEvent, out: &mut dyn Write) -> io::Result<()> {
    match event {
        ConnectionEvent::Connected => writeln!(out, "# queued {leg} connected"),
        ConnectionEvent::Error(reason) => writeln!(out, "# queued {leg} error reason={reason}"),
        ConnectionEvent::Disconnected { reason } => {
            writeln!(out, "# queued {leg} disconnected reason={reason}")
        }
        ConnectionEvent::DataReceived {
            sequence_number,
            message_number,
            timestamp,
            source_time,
            payload,
            packet_count,
        } => writeln!(
            out,
            "# queued {leg} data sequence={sequence_number} count={packet_count} source={} message={message_number} timestamp={timestamp} cell={} bytes={}",
            source_time.as_micros(),
            gateway::queued_cell(event).map_or(0, |cell| cell),
            payload_bytes(payload),
        ),
    }
}

fn write_held(group: &SrtGroup, packet: &GroupPacket, out: &mut dyn Write) -> io::Result<()> {
    let owner = match group.owned().contains(&packet.sequence_number) {
        true => "group",
        false => "leg",
    };
    writeln!(
        out,
        "# held {} owner={owner} {}",
        packet.sequence_number,
        packet_facts(packet)
    )
}

/// All of a packet but its sequence.
pub fn packet_facts(packet: &GroupPacket) -> String {
    format!(
        "leg={} count={} source={} message={} timestamp={} cell={} bytes={}",
        packet.member_id,
        packet.packet_count,
        packet.source_time.as_micros(),
        packet.message_number,
        packet.timestamp,
        gateway::packet_cell(packet),
        payload_bytes(&packet.payload),
    )
}

fn write_waiting(event: &GroupEvent, out: &mut dyn Write) -> io::Result<()> {
    writeln!(out, "# waiting {}", event_facts(event))
}

/// A group event in words; data is given by its packet's facts.
pub fn event_facts(event: &GroupEvent) -> String {
    match event {
        GroupEvent::MemberConnected { member_id } => format!("connected leg={member_id}"),
        GroupEvent::MemberError { member_id, error } => {
            format!("error leg={member_id} reason={error}")
        }
        GroupEvent::MemberDisconnected { member_id, reason } => {
            format!("disconnected leg={member_id} reason={reason}")
        }
        GroupEvent::DataReceived(packet) => format!(
            "data sequence={} {}",
            packet.sequence_number,
            packet_facts(packet)
        ),
    }
}

fn write_cells(gateway: &Gateway, out: &mut dyn Write) -> io::Result<()> {
    let used = gateway.used_cells();
    let numbers: Vec<String> = (0..used.len())
        .filter(|&cell| used[cell])
        .map(|cell| cell.to_string())
        .collect();
    writeln!(out, "# cells used={}", numbers.join(","))
}

/// The lent store and output, by their hashes.
pub fn write_bytes(gateway: &Gateway, out: &mut dyn Write) -> io::Result<()> {
    let (store, output) = (hash(gateway.store()), hash(gateway.output()));
    writeln!(out, "# store {store:016x} output {output:016x}")
}

fn or_dash(number: Option<impl Display>) -> String {
    number.map_or_else(|| "-".to_string(), |number| number.to_string())
}

fn payload_bytes(payload: &ReceivedPayload) -> String {
    let bytes: Vec<u8> = payload.chunks().flat_map(|chunk| chunk.to_vec()).collect();
    shown(&bytes)
}

/// Up to eight bytes in hexadecimal; of more, their number and hash.
pub fn shown(bytes: &[u8]) -> String {
    if bytes.len() > 8 {
        return format!("{}:{:016x}", bytes.len(), hash(bytes));
    }
    bytes.iter().map(|byte| format!("{byte:02x}")).collect()
}

/// FNV-1a of 64 bits.
pub fn hash(bytes: &[u8]) -> u64 {
    bytes.iter().fold(0xcbf2_9ce4_8422_2325, |hash, byte| {
        (hash ^ u64::from(*byte)).wrapping_mul(0x0000_0100_0000_01b3)
    })
}
