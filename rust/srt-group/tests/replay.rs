//! Document 01's replay through the crate: the corpus and the listings with the answers that the published Rust gave (oracle/README.md).
use std::fs;
use std::num::NonZeroU32;
use std::path::Path;

use srt_group::{ConnectionEvent, ConnectionState, Error, Group, GroupMode, Leg, Reading, ReceivedData, Timestamp};

type Columns = [u64; 8];

/// A column's number as the crate takes it; one that does not fit is out of range.
fn fit<T: TryFrom<u64>>(number: u64) -> Result<T, Error> {
    T::try_from(number).map_err(|_| Error::OutOfRange)
}

fn state(number: u64) -> Result<ConnectionState, Error> {
    match number {
        0 => Ok(ConnectionState::Handshaking),
        1 => Ok(ConnectionState::Connected),
        2 => Ok(ConnectionState::Disconnected),
        _ => Err(Error::OutOfRange),
    }
}

fn new_group(id: u64, mode: u64) -> Result<Group, Error> {
    let mode = match mode {
        0 => GroupMode::Broadcast,
        1 => GroupMode::Backup,
        _ => return Err(Error::OutOfRange),
    };
    Group::new(fit(id)?, mode, 40)
}

fn add(group: &mut Group, [_, id, weight, reached, next, first, window, latency]: Columns) -> Result<(), Error> {
    let first: u32 = fit(first)?;
    let leg = Leg {
        state: state(reached)?,
        next_send_sequence: fit(next)?,
        peer_initial_sequence: (first != u32::MAX).then_some(first),
        window: fit(window)?,
        latency,
        ..Leg::default()
    };
    group.add_member(fit(id)?, fit(weight)?, leg)
}

fn read(group: &mut Group, id: u64, field: u64, number: u64) -> Result<(), Error> {
    let reading = match field {
        1 => Reading::State(state(number)?),
        2 => Reading::Window(fit(number)?),
        3 => Reading::ReceiveWindow(fit(number)?),
        4 => Reading::Latency(number),
        5 => Reading::AcknowledgedUpTo(fit(number)?),
        6 => Reading::Srtt(fit(number)?),
        7 => Reading::Rttvar(fit(number)?),
        8 => Reading::LastHeard(Timestamp(number)),
        9 => Reading::PaceTime(Timestamp(number)),
        10 => Reading::PeerGroupId(NonZeroU32::new(fit(number)?)),
        11 => Reading::PayloadLimit(fit(number)?),
        12 => Reading::OldestSendTime(Timestamp(number)),
        _ => return Err(Error::OutOfRange),
    };
    group.read_leg(fit(id)?, reading)
}

fn queue(group: &mut Group, [_, id, sequence, count, source, byte, ..]: Columns) -> Result<(), Error> {
    let payload = [fit(byte)?];
    let data = ReceivedData { packet_count: fit(count)?, source_time: Timestamp(source), ..ReceivedData::new(fit(sequence)?, &payload) };
    group.queue_data(fit(id)?, data)
}

fn event(group: &mut Group, id: u64, kind: u64, reason: u64) -> Result<(), Error> {
    let reason = fit(reason)?;
    let event = match kind {
        1 => ConnectionEvent::Connected,
        2 => ConnectionEvent::Error { reason },
        3 => ConnectionEvent::Disconnected { reason },
        _ => return Err(Error::OutOfRange),
    };
    group.queue_event(fit(id)?, event)
}

fn poll(group: &mut Group, now: u64) -> [u64; 4] {
    let [leg, sequence, count] = match group.poll_data(Timestamp(now)) {
        Some(packet) => [packet.member_id, packet.sequence_number, packet.packet_count].map(u64::from),
        None => [0; 3],
    };
    [leg, sequence, count, group.skipped_receive_packets()]
}

/// One line's call, and what it answers.
fn call(made: &mut Option<Group>, columns: Columns) -> Result<[u64; 4], Error> {
    let [verb, a, b, c, ..] = columns;
    if verb == 1 {
        *made = Some(new_group(a, b)?);
        return Ok([0; 4]);
    }
    let group = made.as_mut().ok_or(Error::InvalidState)?;
    match verb {
        2 => add(group, columns)?,
        3 => read(group, a, b, c)?,
        4 => queue(group, columns)?,
        5 => return Ok(poll(group, a)),
        6 => return Ok([group.send(&[fit(a)?], Timestamp(b))? as u64, 0, 0, 0]),
        7 => group.remove_member(fit(a)?)?,
        8 => group.mark_member_broken(fit(a)?)?,
        _ => event(group, a, b, c)?,
    }
    Ok([0; 4])
}

/// Spaces, then digits to the right edge.
fn column(text: &[u8]) -> Option<u64> {
    let digits = text.trim_ascii_start();
    let plain = text[..text.len() - digits.len()].iter().all(|&byte| byte == b' ') && digits.iter().all(u8::is_ascii_digit);
    if plain { std::str::from_utf8(digits).ok()?.parse().ok() } else { None }
}

fn columns(line: &[u8]) -> Option<Columns> {
    if line.len() != 88 {
        return None;
    }
    let numbers: Option<Vec<u64>> = line.chunks(11).map(column).collect();
    numbers?.try_into().ok().filter(|columns: &Columns| (1..=9).contains(&columns[0]))
}

fn replayed(listing: &[u8]) -> String {
    let mut group = None;
    let mut answers = String::new();
    for line in listing.split_inclusive(|&byte| byte == b'\n') {
        let columns = columns(line.strip_suffix(b"\n").unwrap_or(line));
        let verb = columns.map_or(0, |columns| columns[0]);
        let (code, answer) = match columns.map_or(Err(Error::OutOfRange), |columns| call(&mut group, columns)) {
            Ok(answer) => (0, answer),
            Err(error) => (error.number(), [0; 4]),
        };
        let [a, b, c, d] = answer;
        answers += &format!("{verb:11}{code:11}{a:11}{b:11}{c:11}{d:11}\n");
    }
    answers
}

/// Compares line by line; how many lines there are.
fn compared(listing: &Path, answers: &Path) -> usize {
    let given = replayed(&fs::read(listing).expect("a listing"));
    let expected = fs::read_to_string(answers).expect("its answers");
    for (i, (given, expected)) in given.lines().zip(expected.lines()).enumerate() {
        assert_eq!(given, expected, "{}, line {}", listing.display(), i + 1);
    }
    assert_eq!(given.len(), expected.len());
    expected.lines().count()
}

#[test]
fn the_corpus_has_the_rusts_answers() {
    let replay = Path::new(env!("CARGO_MANIFEST_DIR")).join("../../crates/replay");
    assert!(compared(&replay.join("stdin"), &replay.join("stdout")) > 40_000);
}

#[test]
fn the_listings_have_the_rusts_answers() {
    let listings = Path::new(env!("CARGO_MANIFEST_DIR")).join("../../oracle/listings");
    let inputs = fs::read_dir(listings).expect("listings").map(|entry| entry.expect("a file").path());
    let inputs: Vec<_> = inputs.filter(|path| path.extension().is_some_and(|extension| extension == "in")).collect();
    assert!(inputs.len() > 20);
    inputs.iter().for_each(|input| assert!(compared(input, &input.with_extension("out")) > 0));
}
