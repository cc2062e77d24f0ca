//! The sends, timed like the other calls: the same steps on states made alike, the answers, the lists of sends and the states compared. On
//! both sides a Backup send copies its payload once; a Broadcast send of the port copies none, the Rust's copies it into new bytes.
use std::hint::black_box;

use srt_protocol::{GroupMode, Timestamp};

use super::{COLUMNS, Lent, Linked, NOW, PAYLOAD, Port, RUNS, Rust, is_wanted, nanoseconds, port, print_head, print_row};

/// The record, the five tables, the store, the list of sends, the steps and the payload, each slice with its length.
type Run = unsafe extern "C" fn(
    *mut u64, *mut u64, usize, *const u64, usize, *const u64, usize, *mut u64, usize, *mut u64, usize, *mut u8, usize, *mut u64, usize,
    *mut u64, usize, *const u8, usize,
) -> u32;

unsafe extern "C" {
    fn calls_sends(
        record: *mut u64, members: *mut u64, a: usize, pending: *const u64, b: usize, waiting: *const u64, c: usize, history: *mut u64,
        d: usize, sources: *mut u64, e: usize, store: *mut u8, f: usize, list: *mut u64, g: usize, steps: *mut u64, h: usize,
        payload: *const u8, i: usize,
    ) -> u32;
    fn calls_sends_valid(
        record: *mut u64, members: *mut u64, a: usize, pending: *const u64, b: usize, waiting: *const u64, c: usize, history: *mut u64,
        d: usize, sources: *mut u64, e: usize, store: *mut u8, f: usize, list: *mut u64, g: usize, steps: *mut u64, h: usize,
        payload: *const u8, i: usize,
    ) -> u32;
}

/// Sends of one timed run, and take-overs of one.
const SENDS: u64 = 4_096;
const TAKE_OVERS: u64 = 64;
/// In Broadcast every leg is acknowledged after so many sends, in Backup the carrier.
const OPEN: u64 = 1_024;
const BLOCK: u64 = 8;
/// Longer than a carrier may be silent.
const SILENCE: u64 = 100_000;
pub const NOT_SENT: u64 = 4_294_967_295;
const OUT_OF_TURN: u64 = 32;

#[derive(Clone, Copy, PartialEq)]
enum Kind {
    Broadcast { legs: u64 },
    Backup { unacknowledged: u64 },
    /// Every send is a take-over that replays so many.
    TakeOver { replayed: u64 },
}

impl Kind {
    fn group(self) -> (GroupMode, u64) {
        match self {
            Self::Broadcast { legs } => (GroupMode::Broadcast, legs),
            Self::Backup { .. } | Self::TakeOver { .. } => (GroupMode::Backup, 2),
        }
    }

    /// What the carrier has unacknowledged before the first timed run.
    fn flight(self) -> u64 {
        match self {
            Self::Broadcast { .. } => 0,
            Self::Backup { unacknowledged: flight } | Self::TakeOver { replayed: flight } => flight,
        }
    }

    fn sends(self) -> u64 {
        if matches!(self, Self::TakeOver { .. }) { TAKE_OVERS } else { SENDS }
    }
}

/// Each a word: the time of a send, or a leg times 2^32 and the sequence up to which it is acknowledged. The answer takes its place.
struct Script {
    kind: Kind,
    words: Vec<u64>,
    /// The sends so far: the sequence of the next.
    sent: u64,
    now: u64,
    carrier: u64,
}

impl Script {
    fn new(kind: Kind) -> Self {
        let mut script = Self { kind, words: Vec::new(), sent: 0, now: NOW, carrier: 1 };
        (0..kind.flight()).for_each(|_| script.send());
        script
    }

    fn send(&mut self) {
        self.words.push(self.now);
        self.sent += 1;
    }

    fn acknowledge(&mut self, leg: u64, up_to: u64) {
        self.words.push(leg << 32 | up_to);
    }

    /// The steps so far, to be taken by a run.
    fn take(&mut self) -> Vec<u64> {
        std::mem::take(&mut self.words)
    }

    /// The steps of one timed run.
    fn run(&mut self) -> Vec<u64> {
        match self.kind {
            Kind::Broadcast { legs } => {
                for _ in 0..SENDS / OPEN {
                    (0..OPEN).for_each(|_| self.send());
                    (1..=legs).for_each(|leg| self.acknowledge(leg, self.sent));
                }
            }
            Kind::Backup { unacknowledged } => {
                for _ in 0..SENDS / BLOCK {
                    (0..BLOCK).for_each(|_| self.send());
                    self.acknowledge(self.carrier, self.sent - unacknowledged);
                }
            }
            Kind::TakeOver { replayed } => {
                for _ in 0..TAKE_OVERS {
                    let old = self.carrier;
                    self.now += SILENCE;
                    self.send();
                    self.carrier = 3 - old;
                    self.acknowledge(old, self.sent - 1);
                    self.acknowledge(self.carrier, self.sent - replayed);
                }
            }
        }
        self.take()
    }
}

impl Port {
    fn send_each(&mut self, by: Run, steps: &mut [u64], payload: &[u8]) {
        let code = unsafe {
            by(
                self.record.as_mut_ptr(), self.members.as_mut_ptr(), self.members.len(), self.pending.as_ptr(), self.pending.len(),
                self.waiting.as_ptr(), self.waiting.len(), self.history.as_mut_ptr(), self.history.len(), self.sources.as_mut_ptr(),
                self.sources.len(), self.store.as_mut_ptr(), self.store.len(), self.list.as_mut_ptr(), self.list.len(),
                steps.as_mut_ptr(), steps.len(), payload.as_ptr(), payload.len(),
            )
        };
        assert_eq!(code, 0);
    }

    fn equals(&self, other: &Self) -> bool {
        self.record == other.record
            && self.members == other.members
            && self.history == other.history
            && self.sources == other.sources
            && self.store == other.store
            && self.list == other.list
    }
}

/// One whose steps are made from here, call by call.
pub trait Sends {
    fn send(&mut self, now: u64, payload: &[u8]) -> u64;

    fn acknowledge(&mut self, leg: u32, up_to: u32) -> u64;

    fn send_each(&mut self, steps: &mut [u64], payload: &[u8]) {
        for step in steps {
            let leg = (*step >> 32) as u32;
            *step = if leg == 0 { self.send(*step, payload) } else { self.acknowledge(leg, *step as u32) };
        }
    }
}

impl Sends for Rust {
    fn send(&mut self, now: u64, payload: &[u8]) -> u64 {
        self.list.borrow_mut().clear();
        self.group.send(payload, Timestamp(now)).map_or(NOT_SENT, |legs| legs as u64)
    }

    fn acknowledge(&mut self, leg: u32, up_to: u32) -> u64 {
        let connection = self.group.member_mut(leg).expect("a leg").connection_mut();
        if !connection.acknowledges(up_to) {
            return OUT_OF_TURN;
        }
        connection.acknowledge(up_to);
        0
    }
}

impl Rust {
    /// The last send's rows are those of the port's list, but for the cells, of which the Rust has none; and so are the send number, the
    /// length of the history and the carrier.
    fn equals(&self, port: &Port) -> bool {
        let rows = self.list.borrow();
        rows.iter().zip(port.list.chunks(5)).all(|(sent, row)| {
            [sent.leg.into(), sent.sequence.into(), sent.source_time, sent.now] == [row[0], row[1], row[3], row[4]]
        }) && self.group.next_send_sequence() == Some(port.record[14] as u32)
            && self.group.backup_history().len() as u64 == port.record[19]
            && self.group.backup_carrier().unwrap_or(0) as u64 == port.record[16]
    }
}

impl Sends for Linked {
    fn send(&mut self, now: u64, payload: &[u8]) -> u64 {
        self.group.send(payload, srt_group::Timestamp(now)).map_or(NOT_SENT, |legs| legs as u64)
    }

    fn acknowledge(&mut self, leg: u32, up_to: u32) -> u64 {
        let reading = srt_group::Reading::AcknowledgedUpTo(up_to);
        self.group.read_leg(leg, reading).map_or_else(|error| error.number().into(), |()| 0)
    }
}

/// The best of the runs of each column, in nanoseconds a send.
fn timed(kind: Kind) -> [f64; 5] {
    let payload: Vec<u8> = (0..PAYLOAD).map(|i| i as u8).collect();
    let (mode, legs) = kind.group();
    let (mut rust, mut valid, mut public) = (Rust::new(mode, legs), port(mode, legs), port(mode, legs));
    let (mut lent, mut linked) = (Lent(port(mode, legs)), Linked::new(mode, legs));
    let mut script = Script::new(kind);
    let before = script.take();
    rust.send_each(&mut before.clone(), &payload);
    valid.send_each(calls_sends_valid, &mut before.clone(), &payload);
    public.send_each(calls_sends, &mut before.clone(), &payload);
    lent.send_each(&mut before.clone(), &payload);
    linked.send_each(&mut before.clone(), &payload);
    assert_eq!(rust.group.backup_history().len() as u64, kind.flight());
    let mut least = [f64::MAX; 5];
    for _ in 0..RUNS {
        let steps = script.run();
        let mut answers = [(); 5].map(|()| steps.clone());
        let [a, b, c, d, e] = &mut answers;
        let (payload, sends) = (black_box(&payload), kind.sends());
        let times = [
            nanoseconds(sends, || rust.send_each(a, payload)),
            nanoseconds(sends, || valid.send_each(calls_sends_valid, b, payload)),
            nanoseconds(sends, || public.send_each(calls_sends, c, payload)),
            nanoseconds(sends, || lent.send_each(d, payload)),
            nanoseconds(sends, || linked.send_each(e, payload)),
        ];
        assert!(answers[1..].iter().all(|other| *other == answers[0]));
        let expected = if mode == GroupMode::Broadcast { legs } else { 1 };
        assert!(steps.iter().zip(&answers[0]).all(|(step, &answer)| answer == if *step >> 32 == 0 { expected } else { 0 }));
        assert!(rust.equals(&valid) && valid.equals(&public) && public.equals(&lent.0));
        if let Kind::TakeOver { replayed } = kind {
            assert_eq!(rust.list.borrow().len() as u64, replayed + 1);
        }
        for (least, time) in least.iter_mut().zip(times) {
            *least = least.min(time);
        }
    }
    least
}

/// Prints a row for each kind of send. Gives the ratios of the forms for a valid state to the Rust.
pub fn main() -> Vec<f64> {
    println!("ns a send of {PAYLOAD} bytes, the best of {RUNS} runs of {SENDS} sends or {TAKE_OVERS} take-overs, with the acknowledgements");
    print_head("send", &COLUMNS);
    let rows = [
        ("Broadcast, 4 legs", Kind::Broadcast { legs: 4 }),
        ("Broadcast, 64 legs", Kind::Broadcast { legs: 64 }),
        ("Backup, 0 unacknowledged", Kind::Backup { unacknowledged: 0 }),
        ("Backup, 100 unacknowledged", Kind::Backup { unacknowledged: 100 }),
        ("Backup, 500 unacknowledged", Kind::Backup { unacknowledged: 500 }),
        ("Backup, take-over that replays 100", Kind::TakeOver { replayed: 100 }),
    ];
    let timed_row = |(name, kind)| {
        let times = timed(kind);
        print_row(name, &times);
        times[1] / times[0]
    };
    rows.into_iter().filter(|(name, _)| is_wanted(name)).map(timed_row).collect()
}
