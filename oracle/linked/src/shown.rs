//! The state that the record and the tables show, in the form of the judge's trace. The words are those of docs/TABLES.md.

use std::fmt::{Display, Write};

use oracle::trace;

use crate::memory::Memory;
use crate::raw::{self, NO_SEQUENCE};

/// Where a member's row has its queue: the start, the length and the sixteen events of nine words.
pub const QUEUE_START: usize = 32;
pub const QUEUE_LENGTH: usize = 33;
pub const EVENTS: usize = 45;
pub const EVENT_WORDS: usize = 9;
/// The words of a held packet's row; the rows stand behind the index, in which each word has a sequence and a cell.
pub const PACKET_WORDS: usize = 8;
const LABELS: [&str; 5] = ["Pending", "Active", "Standby", "Unstable", "Broken"];

/// The trace of the state, and of so many rows of the list of sends.
pub fn trace(memory: &Memory, sent: usize) -> String {
    let mut out = String::new();
    if memory.record[0] == 0 {
        return "# no group\n".to_string();
    }
    group(memory, &mut out);
    for row in rows(memory) {
        member(memory, row, &mut out);
    }
    held(memory, &mut out);
    waiting(memory, &mut out);
    for row in rows(memory).filter(|row| row[6] != 0) {
        let [id, expected, actual] = [row[0], row[5], row[6]];
        line(
            &mut out,
            format_args!("collision {id} expected={expected} actual={actual}"),
        );
    }
    history(memory, &mut out);
    let used: Vec<String> = used_cells(memory).iter().map(u64::to_string).collect();
    line(&mut out, format_args!("cells used={}", used.join(",")));
    for row in memory.list.chunks(raw::SENT_ROW_WORDS).take(sent) {
        let &[leg, sequence, cell, source, now] = row else {
            unreachable!("five words")
        };
        line(
            &mut out,
            format_args!(
                "sent leg={leg} sequence={sequence} cell={cell} source={source} now={now}"
            ),
        );
    }
    out
}

fn line(out: &mut String, fact: impl Display) {
    writeln!(out, "# {fact}").expect("a string takes any text");
}

fn group(memory: &Memory, out: &mut String) {
    let word = &memory.record;
    let mode = ["broadcast", "backup"][word[2] as usize];
    line(
        out,
        format_args!(
            "group {} mode={mode} base={} send={} skipped={} continuation={} round={} peer={} owned={} carrier={} gap={}",
            word[0],
            or_dash(word[7] == 1, word[8]),
            or_dash(word[13] == 1, word[14]),
            word[9],
            word[10],
            word[11],
            or_dash(word[3] != 0, word[3]),
            word[12],
            or_dash(word[15] == 1, word[16]),
            word[17],
        ),
    );
}

/// The rows of the members, in order of addition.
pub fn rows(memory: &Memory) -> impl Iterator<Item = &[u64]> {
    memory
        .members
        .chunks(raw::ROW_WORDS)
        .take(memory.record[4] as usize)
}

/// The queued events of a member's row, front first.
fn queue(row: &[u64]) -> impl Iterator<Item = &[u64]> {
    (0..row[QUEUE_LENGTH]).map(move |place| {
        let place = row[QUEUE_START].wrapping_add(place) % raw::MAX_QUEUED;
        let at = EVENTS + place as usize * EVENT_WORDS;
        &row[at..at + EVENT_WORDS]
    })
}

fn member(memory: &Memory, row: &[u64], out: &mut String) {
    let [id, weight, label, admitted, reserved] = [row[0], row[1], row[2], row[3], row[4]];
    let label = LABELS[label as usize];
    line(
        out,
        format_args!(
            "member {id} weight={weight} label={label} admitted={admitted} reserved={reserved}"
        ),
    );
    line(out, leg(id, row));
    for event in queue(row) {
        let event = match *event {
            [
                0,
                _,
                sequence,
                count,
                message,
                timestamp,
                source,
                cell,
                length,
            ] => format!(
                "data sequence={sequence} count={count} source={source} message={message} timestamp={timestamp} cell={cell} bytes={}",
                payload(memory, cell, length),
            ),
            [1, ..] => "connected".to_string(),
            [2, reason, ..] => format!("error reason={reason}"),
            [_, reason, ..] => format!("disconnected reason={reason}"),
            _ => unreachable!("nine words"),
        };
        line(out, format_args!("queued {id} {event}"));
    }
}

/// The leg of a row, as the trace and a removal's answer give it.
pub fn leg(id: u64, row: &[u64]) -> String {
    let facts = [
        ("state", row[raw::ROW_LINK_STATE].to_string()),
        (
            "next",
            or_dash(row[raw::ROW_SENDER_STARTED] == 1, row[raw::ROW_SENDER_NEXT]),
        ),
        ("flight", row[raw::ROW_SENDER_FLIGHT].to_string()),
        ("window", row[raw::ROW_SENDER_WINDOW].to_string()),
        (
            "first",
            or_dash(
                row[raw::ROW_RECEIVER_FIRST] != NO_SEQUENCE,
                row[raw::ROW_RECEIVER_FIRST],
            ),
        ),
        ("latency", row[raw::ROW_RECEIVER_LATENCY].to_string()),
        ("receive_window", row[raw::ROW_RECEIVER_WINDOW].to_string()),
        ("srtt", row[raw::ROW_TRIP_SRTT].to_string()),
        ("rttvar", row[raw::ROW_TRIP_RTTVAR].to_string()),
        ("heard", row[raw::ROW_TRIP_HEARD].to_string()),
        ("pace", row[raw::ROW_SENDER_PACE].to_string()),
        ("peer", row[raw::ROW_LINK_PEER].to_string()),
        ("limit", row[raw::ROW_LINK_LIMIT].to_string()),
        ("oldest", row[raw::ROW_SENDER_OLDEST].to_string()),
        ("reservation", row[raw::ROW_RECEIVER_RESERVED].to_string()),
        ("advanced", row[raw::ROW_RECEIVER_ADVANCED].to_string()),
    ];
    let words = facts.map(|(name, value)| format!("{name}={value}"));
    format!("leg {id} {}", words.join(" "))
}

/// The index words of the held packets, each as sequence and cell.
fn index(memory: &Memory) -> impl Iterator<Item = (u64, u64)> {
    let cells = raw::MAX_CELLS as u64;
    let index = (0..memory.record[5]).map(|place| memory.index_word(place));
    index.map(move |word| (word / cells, word % cells))
}

fn held(memory: &Memory, out: &mut String) {
    for (sequence, cell) in index(memory) {
        let at = raw::MAX_CELLS + cell as usize * PACKET_WORDS;
        let &[count, message, timestamp, source, length, leg, owned, _] =
            &memory.pending[at..at + PACKET_WORDS]
        else {
            unreachable!("eight words")
        };
        let owner = ["leg", "group"][owned as usize];
        let bytes = payload(memory, cell, length);
        line(
            out,
            format_args!(
                "held {sequence} owner={owner} leg={leg} count={count} source={source} message={message} timestamp={timestamp} cell={cell} bytes={bytes}"
            ),
        );
    }
}

fn waiting(memory: &Memory, out: &mut String) {
    for row in memory.waiting.chunks(3).take(memory.record[6] as usize) {
        line(
            out,
            format_args!("waiting {}", event(row[1], row[0], row[2])),
        );
    }
}

/// An event of the group that is no data.
pub fn event(kind: u64, leg: u64, reason: u64) -> String {
    match kind {
        1 => format!("connected leg={leg}"),
        2 => format!("error leg={leg} reason={reason}"),
        _ => format!("disconnected leg={leg} reason={reason}"),
    }
}

/// The entries of the history, oldest first: sequence, cell, length, source time.
fn entries(memory: &Memory) -> impl Iterator<Item = [u64; 4]> {
    let (start, length) = (memory.record[18], memory.record[19]);
    let cells = raw::MAX_CELLS as u64;
    (0..length).map(move |place| {
        let at = start.wrapping_add(place) as usize % raw::HISTORY_WORDS;
        let word = memory.history[at];
        [
            word / cells / 2_048,
            word / 2_048 % cells,
            word % 2_048,
            memory.sources[at],
        ]
    })
}

fn history(memory: &Memory, out: &mut String) {
    for [sequence, cell, length, time] in entries(memory) {
        let bytes = payload(memory, cell, length);
        line(
            out,
            format_args!("history {sequence} cell={cell} time={time} bytes={bytes}"),
        );
    }
}

/// The cells that queued, held and history payloads name, ascending.
pub fn used_cells(memory: &Memory) -> Vec<u64> {
    let queued = rows(memory).flat_map(queue).filter(|event| event[0] == 0);
    let queued = queued.map(|event| event[7]);
    let held = index(memory).map(|(_, cell)| cell);
    let kept = entries(memory).map(|[_, cell, ..]| cell);
    let mut cells: Vec<u64> = queued.chain(held).chain(kept).collect();
    cells.sort_unstable();
    cells
}

/// The cells of the set `used`, ascending.
pub fn set_cells(memory: &Memory) -> Vec<u64> {
    let cells = 0..raw::MAX_CELLS as u64;
    cells
        .filter(|cell| memory.used[*cell as usize / 64] >> (cell % 64) & 1 == 1)
        .collect()
}

fn payload(memory: &Memory, cell: u64, length: u64) -> String {
    let start = cell as usize * raw::CELL;
    trace::shown(&memory.store[start..start + length as usize])
}

/// A packet that was given, its payload in the output. The judge's `cell` is no part of an answer.
pub fn packet(memory: &Memory, answer: &[u64]) -> String {
    let &[leg, sequence, count, message, timestamp, source, length] = answer else {
        unreachable!("seven words")
    };
    if count == 0 {
        return "none".to_string();
    }
    let bytes = trace::shown(&memory.output[raw::HEAD..raw::HEAD + length as usize]);
    format!(
        "data sequence={sequence} leg={leg} count={count} source={source} message={message} timestamp={timestamp} bytes={bytes}"
    )
}

fn or_dash(is: bool, number: u64) -> String {
    match is {
        true => number.to_string(),
        false => "-".to_string(),
    }
}
