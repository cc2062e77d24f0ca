//! The verbs of document 01's replay listing.

use std::io::{self, BufRead, Write};

use crate::codes::{self, Code};
use crate::gateway::{Data, Gateway, Leg};
use crate::listing::{self, INPUT_COLUMNS, OUTPUT_COLUMNS};
use crate::trace;

/// Cells of the replay's store.
pub const CELLS: usize = 40;

/// What one call prints behind its verb and code: at most four columns.
type Columns = [u64; 4];
const NOTHING: Columns = [0; 4];

/// Make the call of one input line; the answer is the output line's six numbers.
pub fn step(gateway: &mut Gateway, line: &[u8]) -> [u64; OUTPUT_COLUMNS] {
    let Some(numbers) = listing::parse_line(line) else {
        return row(0, Err(codes::OUT_OF_RANGE));
    };
    match call(gateway, &numbers) {
        Some(answer) => row(numbers[0], answer),
        None => row(0, Err(codes::OUT_OF_RANGE)),
    }
}

fn row(verb: u64, answer: Result<Columns, Code>) -> [u64; OUTPUT_COLUMNS] {
    match answer {
        Ok([a, b, c, d]) => [verb, 0, a, b, c, d],
        Err(code) => [verb, u64::from(code), 0, 0, 0, 0],
    }
}

/// None for an unknown verb.
fn call(gateway: &mut Gateway, line: &[u64; INPUT_COLUMNS]) -> Option<Result<Columns, Code>> {
    let &[verb, a, b, c, d, e, f, g] = line;
    let nothing = |()| NOTHING;
    Some(match verb {
        1 => gateway.new_group(a, b).map(nothing),
        2 => gateway.add(leg([a, b, c, d, e, f, g])).map(nothing),
        3 => gateway.reading(a, b, c).map(nothing),
        4 => data(gateway, [a, b, c, d, e]).map(nothing),
        5 => poll(gateway, a),
        6 => send(gateway, a, b),
        7 => gateway.remove(a).map(|_leg| NOTHING),
        8 => gateway.mark_broken(a).map(nothing),
        9 => gateway.event(a, b, c).map(nothing),
        _ => return None,
    })
}

fn leg([a, b, c, d, e, f, g]: [u64; 7]) -> Leg {
    Leg {
        leg: a,
        weight: b,
        state: c,
        next_send: d,
        peer_initial_sequence: e,
        window: f,
        latency: g,
        flight: 0,
    }
}

fn data(
    gateway: &mut Gateway,
    [leg, sequence, count, source_time, byte]: [u64; 5],
) -> Result<(), Code> {
    gateway.start_call()?;
    let payload = [payload_byte(byte)?];
    gateway.data(Data {
        leg,
        sequence,
        count,
        source_time,
        message_number: 0,
        timestamp: 0,
        payload: &payload,
    })
}

fn poll(gateway: &mut Gateway, now: u64) -> Result<Columns, Code> {
    let packet = gateway.poll_data(now)?;
    let skipped = gateway
        .group()
        .map_or(0, |group| group.skipped_receive_packets());
    Ok(packet.map_or([0, 0, 0, skipped], |packet| {
        [
            u64::from(packet.member_id),
            u64::from(packet.sequence_number),
            u64::from(packet.packet_count),
            skipped,
        ]
    }))
}

fn send(gateway: &mut Gateway, byte: u64, now: u64) -> Result<Columns, Code> {
    gateway.start_call()?;
    let payload = [payload_byte(byte)?];
    let legs = gateway.send(&payload, now)?;
    Ok([legs as u64, 0, 0, 0])
}

fn payload_byte(byte: u64) -> Result<u8, Code> {
    u8::try_from(byte).map_err(|_| codes::OUT_OF_RANGE)
}

/// Read a listing to its end and answer each line; with `tracing` the state follows each answer.
pub fn run(input: &mut dyn BufRead, output: &mut dyn Write, tracing: bool) -> io::Result<()> {
    let mut gateway = Gateway::new(CELLS);
    let mut line = Vec::new();
    loop {
        line.clear();
        if input.read_until(b'\n', &mut line)? == 0 {
            return output.flush();
        }
        if line.last() == Some(&b'\n') {
            line.pop();
        }
        let answer = step(&mut gateway, &line);
        writeln!(output, "{}", listing::format_line(&answer))?;
        if tracing {
            trace::write(&gateway, output)?;
        }
    }
}
