//! Times queueing, polls and delivery of the port, linked as libcalls_bench.a, beside the published Rust over the stand-in leg, in one
//! process; the same calls by the Rust crate rust/srt-group, over the library; and the thin call that is lent its record by reference (lent.rs),
//! linked as libsrt_group_lent.a. All run the same list of steps on states made alike, and their answers are compared step by step. A payload is
//! copied twice on each side: into a cell or into new bytes when it is queued, and to the output when it is given. Then the sends (sends.rs),
//! linked as libsends_bench.a, and the additions (additions.rs). With words behind its name it runs only the rows whose names begin with one of
//! them, as bench/calls/instructions asks.
mod additions;
mod lent;
#[allow(dead_code)]
#[path = "../port.rs"]
mod port;
mod sends;

use std::hint::black_box;
use std::rc::Rc;
use std::time::Instant;

use bytes::Bytes;
use srt_protocol::srt_connection::{ConnectionEvent, ConnectionState, LegStart, SendList, SrtConnection};
use srt_protocol::{GroupMode, ReceivedPayload, SrtGroup, Timestamp};

use lent::Lent;
use port::{GROUP, HELD_FROM, LATENCY, NOW, Port};

/// The record, the five tables, the store, the output, the steps and the payload, each slice with its length; the time.
type Run = unsafe extern "C" fn(
    *mut u64, *mut u64, usize, *mut u64, usize, *mut u64, usize, *const u64, usize, *const u64, usize, *mut u8, usize, *mut u8, usize,
    *mut u64, usize, *const u8, usize, u64,
) -> u32;

unsafe extern "C" {
    fn calls_run(
        record: *mut u64, members: *mut u64, a: usize, pending: *mut u64, b: usize, waiting: *mut u64, c: usize, history: *const u64,
        d: usize, sources: *const u64, e: usize, store: *mut u8, f: usize, output: *mut u8, g: usize, steps: *mut u64, h: usize,
        payload: *const u8, i: usize, time: u64,
    ) -> u32;
    fn calls_run_valid(
        record: *mut u64, members: *mut u64, a: usize, pending: *mut u64, b: usize, waiting: *mut u64, c: usize, history: *const u64,
        d: usize, sources: *const u64, e: usize, store: *mut u8, f: usize, output: *mut u8, g: usize, steps: *mut u64, h: usize,
        payload: *const u8, i: usize, time: u64,
    ) -> u32;
}

const RUNS: usize = 15;
/// Packets queued in one timed run: a multiple of the legs and of a turned block.
const QUEUED: u64 = 4_096;
/// Packets that arrive last first.
const BLOCK: u64 = 4;
const PAYLOAD: usize = 1_316;
const NO_PACKET: u64 = 4_294_967_295;

#[derive(Clone, Copy, PartialEq)]
enum Order {
    InOrder,
    Behind,
    Duplicated,
}

/// Each a word: a leg times 2^32 and the sequence of the packet that is queued there, or 0 for a poll. The answer takes its place.
#[derive(Clone, Default, PartialEq)]
struct Steps(Vec<u64>);

impl Steps {
    fn queue(&mut self, leg: u64, sequence: u64) {
        self.0.push((leg + 1) << 32 | sequence);
    }

    fn poll(&mut self) {
        self.0.push(0);
    }

    /// Packets that are to be held: each queued at a leg in turn, and polled for.
    fn holding(legs: u64, held: u64) -> Self {
        let mut steps = Self::default();
        for h in 0..held {
            steps.queue(h % legs, HELD_FROM + h);
            steps.poll();
        }
        steps
    }

    /// The steps of one timed run, and the base after them.
    fn of(order: Order, legs: u64, first: u64) -> (Self, u64) {
        let mut steps = Self::default();
        let mut base = first;
        match order {
            Order::InOrder => {
                for i in 0..QUEUED {
                    steps.queue(i % legs, base);
                    steps.poll();
                    base += 1;
                }
            }
            Order::Behind => {
                for block in 0..QUEUED / BLOCK {
                    for i in 0..BLOCK {
                        steps.queue((block * BLOCK + i) % legs, base + BLOCK - 1 - i);
                        steps.poll();
                    }
                    (1..BLOCK).for_each(|_| steps.poll());
                    base += BLOCK;
                }
            }
            Order::Duplicated => {
                for _ in 0..QUEUED / legs {
                    for leg in 0..legs {
                        steps.queue(leg, base);
                        steps.poll();
                    }
                    base += 1;
                }
            }
        }
        (steps, base)
    }
}

/// The port with so many legs.
fn port(mode: GroupMode, legs: u64) -> Port {
    Port::new((mode == GroupMode::Backup).into(), legs)
}

impl Port {
    fn run(&mut self, by: Run, steps: &mut Steps, payload: &[u8]) {
        let code = unsafe {
            by(
                self.record.as_mut_ptr(), self.members.as_mut_ptr(), self.members.len(), self.pending.as_mut_ptr(),
                self.pending.len(), self.waiting.as_mut_ptr(), self.waiting.len(), self.history.as_ptr(), self.history.len(),
                self.sources.as_ptr(), self.sources.len(), self.store.as_mut_ptr(), self.store.len(), self.output.as_mut_ptr(),
                self.output.len(), steps.0.as_mut_ptr(), steps.0.len(), payload.as_ptr(), payload.len(), NOW,
            )
        };
        assert_eq!(code, 0);
    }
}

/// One whose steps are made from here, call by call.
trait Polls {
    fn queue(&mut self, leg: u32, sequence: u32, payload: &[u8]) -> u64;

    fn poll(&mut self) -> u64;

    fn run(&mut self, steps: &mut Steps, payload: &[u8]) {
        for step in &mut steps.0 {
            let leg = (*step >> 32) as u32;
            *step = if leg == 0 { self.poll() } else { self.queue(leg, *step as u32, payload) };
        }
    }
}

/// The published Rust.
struct Rust {
    group: SrtGroup,
    output: Vec<u8>,
    list: SendList,
}

impl Rust {
    fn new(mode: GroupMode, legs: u64) -> Self {
        let group = SrtGroup::new(GROUP, mode).expect("a group's id");
        let mut rust = Self { group, output: vec![0; 1_468], list: SendList::default() };
        for leg in 1..=legs as u32 {
            rust.group.add_member(leg, 0, rust.connection(leg)).expect("an addition");
        }
        rust
    }

    fn connection(&self, leg: u32) -> SrtConnection {
        let start = LegStart {
            leg,
            state: ConnectionState::Connected,
            next_send: 0,
            peer_initial_sequence: Some(0),
            window: 8_192,
            latency: LATENCY,
            flight: 0,
        };
        SrtConnection::new(start, Rc::clone(&self.list))
    }
}

impl Polls for Rust {
    fn queue(&mut self, leg: u32, sequence: u32, payload: &[u8]) -> u64 {
        let event = ConnectionEvent::DataReceived {
            sequence_number: sequence,
            message_number: 0,
            timestamp: 0,
            source_time: Timestamp(sequence.into()),
            payload: ReceivedPayload::from(Bytes::copy_from_slice(payload)),
            packet_count: 1,
        };
        self.group.member_mut(leg).expect("a leg").connection_mut().queue_event(event);
        0
    }

    fn poll(&mut self) -> u64 {
        let Some(packet) = self.group.poll_data(Timestamp(NOW)) else { return NO_PACKET };
        let mut at = 12;
        for chunk in packet.payload.chunks() {
            self.output[at..at + chunk.len()].copy_from_slice(chunk);
            at += chunk.len();
        }
        packet.sequence_number.into()
    }
}

/// The Rust crate over the library.
struct Linked {
    group: srt_group::Group,
    output: [u8; srt_group::Group::OUTPUT],
}

impl Linked {
    fn new(mode: GroupMode, legs: u64) -> Self {
        let mode = match mode {
            GroupMode::Broadcast => srt_group::GroupMode::Broadcast,
            GroupMode::Backup => srt_group::GroupMode::Backup,
        };
        let group = srt_group::Group::new(GROUP, mode, srt_group::Group::MAX_CELLS).expect("a group's id");
        let mut linked = Self { group, output: [0; srt_group::Group::OUTPUT] };
        (1..=legs as u32).for_each(|leg| linked.add(leg));
        linked
    }

    fn add(&mut self, id: u32) {
        let leg = srt_group::Leg {
            state: srt_group::ConnectionState::Connected,
            window: 8_192,
            peer_initial_sequence: Some(0),
            latency: LATENCY,
            ..srt_group::Leg::default()
        };
        self.group.add_member(id, 0, leg).expect("an addition");
    }
}

impl Polls for Linked {
    fn queue(&mut self, leg: u32, sequence: u32, payload: &[u8]) -> u64 {
        let source_time = srt_group::Timestamp(sequence.into());
        let data = srt_group::ReceivedData { source_time, ..srt_group::ReceivedData::new(sequence, payload) };
        self.group.queue_data(leg, data).map_or_else(|error| error.number().into(), |()| 0)
    }

    fn poll(&mut self) -> u64 {
        let polled = self.group.poll_data_into(srt_group::Timestamp(NOW), &mut self.output).expect("an output of its length");
        polled.map_or(NO_PACKET, |packet| packet.sequence_number.into())
    }
}

fn nanoseconds(operations: u64, work: impl FnOnce()) -> f64 {
    let start = Instant::now();
    work();
    start.elapsed().as_nanos() as f64 / operations as f64
}

/// The names of the columns, each but the first with its ratio to the first.
fn print_head(names: &str, columns: &[&str]) {
    let others: String = columns[1..].iter().map(|column| format!(" {column:>10} {:>6}", "ratio")).collect();
    println!("{names:<34} {:>10}{others}", columns[0]);
}

fn print_row(name: &str, times: &[f64]) {
    let others: String = times[1..].iter().map(|time| format!(" {time:>10.0} {:>6.2}", time / times[0])).collect();
    println!("{name:<34} {:>10.0}{others}", times[0]);
}

/// Whether the row is to be run.
fn is_wanted(name: &str) -> bool {
    let mut words = std::env::args().skip(1).peekable();
    words.peek().is_none() || words.any(|word| name.starts_with(&word))
}

const COLUMNS: [&str; 5] = ["Rust", "valid", "public", "lent", "Rust crate"];

/// The best of the runs of each column, in nanoseconds a queued packet.
fn timed(order: Order, legs: u64, held: u64) -> [f64; 5] {
    let payload: Vec<u8> = (0..PAYLOAD).map(|i| i as u8).collect();
    let mode = GroupMode::Broadcast;
    let (mut rust, mut valid, mut public) = (Rust::new(mode, legs), port(mode, legs), port(mode, legs));
    let (mut lent, mut linked) = (Lent(port(mode, legs)), Linked::new(mode, legs));
    let mut answers = [(); 5].map(|()| Steps::holding(legs, held));
    rust.run(&mut answers[0], &payload);
    valid.run(calls_run_valid, &mut answers[1], &payload);
    public.run(calls_run, &mut answers[2], &payload);
    lent.run(&mut answers[3], &payload);
    linked.run(&mut answers[4], &payload);
    assert!(answers[1..].iter().all(|other| *other == answers[0]));
    assert_eq!(rust.group.pending().len() as u64, held);
    let mut least = [f64::MAX; 5];
    let mut first = 0;
    for _ in 0..RUNS {
        let (steps, base) = Steps::of(order, legs, first);
        first = base;
        let mut answers = [(); 5].map(|()| steps.clone());
        let [a, b, c, d, e] = &mut answers;
        let payload = black_box(&payload);
        let times = [
            nanoseconds(QUEUED, || rust.run(a, payload)),
            nanoseconds(QUEUED, || valid.run(calls_run_valid, b, payload)),
            nanoseconds(QUEUED, || public.run(calls_run, c, payload)),
            nanoseconds(QUEUED, || lent.run(d, payload)),
            nanoseconds(QUEUED, || linked.run(e, payload)),
        ];
        assert!(answers[1..].iter().all(|other| *other == answers[0]));
        assert_eq!(rust.group.next_receive_sequence(), Some(base as u32));
        assert!([&valid.output, &public.output, &lent.0.output].iter().all(|output| **output == rust.output));
        assert!(rust.output == linked.output);
        for (least, time) in least.iter_mut().zip(times) {
            *least = least.min(time);
        }
    }
    assert_eq!(rust.group.pending().len() as u64, held);
    assert!(valid.record == public.record && lent.0.record == public.record);
    least
}

fn main() {
    println!("ns a queued packet of {PAYLOAD} bytes, the best of {RUNS} runs of {QUEUED}; a ratio above 1 means slower than the Rust");
    print_head("legs  held  order", &COLUMNS);
    let mut ratios = Vec::new();
    for (order, name) in [(Order::InOrder, "in order"), (Order::Behind, "behind"), (Order::Duplicated, "duplicated")] {
        for legs in [4, 64] {
            for held in [0, 20, 200, 2_000] {
                let row = format!("{legs:>4} {held:>5}  {name}");
                if is_wanted(row.trim_start()) {
                    let times = timed(order, legs, held);
                    print_row(&row, &times);
                    ratios.push(times[1] / times[0]);
                }
            }
        }
    }
    ratios.extend(sends::main());
    let mean = (ratios.iter().map(|ratio| ratio.ln()).sum::<f64>() / ratios.len() as f64).exp();
    let largest = ratios.iter().copied().fold(0.0, f64::max);
    println!("the forms for a valid state in the {} rows above: geometric mean {mean:.2}, the largest {largest:.2}", ratios.len());
    additions::main();
}
