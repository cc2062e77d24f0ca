//! A gateway that receives a programme over two legs, and sends one payload. Packet 102 is lost on the first leg alone, packet 104 on both: the
//! group gives 102 from the second leg, waits for 104 as long as the latency says, and then passes over it for good.
//!
//! It is examples/gateway.c of the repository in Rust, and prints the same, examples/gateway.out. A clock of its own, in microseconds, stands
//! for the host's, so that every run prints the same.
use srt_group::{ConnectionState, Error, Group, GroupMode, Leg, ReceivedData, Timestamp};

const FIRST: u32 = 100;
const INTERVAL: u64 = 1_000;
const LATENCY: u64 = 120_000;
const LEG_A: u32 = 7;
const LEG_B: u32 = 9;

fn sent_at(sequence: u32) -> u64 {
    u64::from(sequence - FIRST) * INTERVAL
}

/// A leg brings a packet.
fn arrive(group: &mut Group, leg: u32, sequence: u32) -> Result<(), Error> {
    let payload = format!("frame {sequence}");
    let data = ReceivedData { source_time: Timestamp(sent_at(sequence)), ..ReceivedData::new(sequence, payload.as_bytes()) };
    group.queue_data(leg, data)
}

/// Polls while packets come, and prints each with the head that the host wrote before it.
fn drain(group: &mut Group, now: u64) -> Result<(), Error> {
    let mut output = [0; Group::OUTPUT];
    output[..Group::HEAD].copy_from_slice(b"RTP head...\0");
    while let Some(packet) = group.poll_data_into(Timestamp(now), &mut output)? {
        let [head, payload] = [&output[..Group::HEAD - 1], &output[packet.payload]].map(String::from_utf8_lossy);
        println!("{now:7}  packet {} from leg {}: {head} '{payload}'", packet.sequence_number, packet.member_id);
    }
    Ok(())
}

fn receive(group: &mut Group) -> Result<(), Error> {
    for sequence in [FIRST, FIRST + 1, FIRST + 2, FIRST + 3, FIRST + 5] {
        let now = sent_at(sequence) + 20_000;
        if sequence != FIRST + 2 {
            arrive(group, LEG_A, sequence)?;
        }
        drain(group, now)?;
        arrive(group, LEG_B, sequence)?;
        drain(group, now + 100)?;
    }
    let now = sent_at(FIRST + 5) + LATENCY;
    println!("{:7}  skipped so far: {}", now - 1, group.skipped_receive_packets());
    drain(group, now - 1)?;
    drain(group, now)?;
    println!("{now:7}  skipped so far: {}", group.skipped_receive_packets());
    Ok(())
}

fn send_payload(group: &mut Group, now: u64) -> Result<(), Error> {
    let payload = b"a payload";
    group.send(payload, Timestamp(now))?;
    for sent in group.sent() {
        let bytes = String::from_utf8_lossy(group.replayed(sent).unwrap_or(payload));
        println!("{now:7}  to the wire of leg {}: sequence {}, '{bytes}'", sent.member_id(), sent.sequence_number());
    }
    Ok(())
}

/// What the group refuses, by number; it has changed nothing.
fn refused(group: &mut Group, now: u64) {
    let say = |call, error: Error| println!("{now:7}  {call}: code {}, {}", error.number(), error.text());
    let mut short = [0; Group::OUTPUT - 1];
    if let Err(error) = group.poll_data_into(Timestamp(now), &mut short) {
        say("poll_data with a short output", error);
    }
    let data = ReceivedData { packet_count: 0, ..ReceivedData::new(FIRST + 6, b"") };
    if let Err(error) = group.queue_data(LEG_A, data) {
        say("queue_data of a packet with count 0", error);
    }
    if let Err(error) = group.remove_member(8) {
        say("remove_member of leg 8", error);
    }
}

fn main() -> Result<(), Error> {
    let mut group = Group::new(0x4000_0001, GroupMode::Broadcast, 40)?;
    let leg = Leg {
        state: ConnectionState::Connected,
        window: 8_192,
        latency: LATENCY,
        next_send_sequence: 5_000,
        peer_initial_sequence: Some(FIRST),
        ..Leg::default()
    };
    group.add_member(LEG_A, 0, leg)?;
    group.add_member(LEG_B, 0, leg)?;
    receive(&mut group)?;
    send_payload(&mut group, 130_000)?;
    refused(&mut group, 131_000);
    let leg = group.remove_member_connection(LEG_B)?;
    println!(" 132000  leg {LEG_B} is given back, its next sequence {}, in flight {}", leg.next_send_sequence, leg.flight);
    Ok(())
}
