//! Times the test of code 6, "the lent state breaks a rule", as a host makes it once that is the only writer (`srt_group_valid_begin`), beside
//! the same test as a plain loop in Rust. Both read the same memory and mark the cells in use in a set of bits.
#[allow(dead_code)]
#[path = "../port.rs"]
mod port;
#[allow(dead_code)]
#[path = "../../oracle/linked/src/rules.rs"]
mod rules;

use std::hint::black_box;
use std::time::Instant;

use port::{HELD_FROM, NOW, Port, raw};
use rules::State;

/// Many short runs, so that some of them are not interrupted.
const RUNS: usize = 101;

impl Port {
    /// A group with so many legs, and so many held packets, each leg's in turn.
    fn holding(legs: u64, held: u64) -> Self {
        let mut port = Self::new(0, legs);
        for packet in 0..held {
            assert_eq!(port.queue(1 + packet % legs, HELD_FROM + packet, &[0; 8]), 0);
            port.poll();
        }
        assert_eq!(port.record[5], held);
        port
    }

    fn poll(&mut self) {
        let mut answer = [0; raw::POLL_ANSWER_WORDS];
        let code = unsafe {
            raw::srt_group_raw_poll_data(
                self.record.as_mut_ptr(), self.record.len(), self.members.as_mut_ptr(), self.members.len(), self.pending.as_mut_ptr(),
                self.pending.len(), self.waiting.as_mut_ptr(), self.waiting.len(), self.history.as_ptr(), self.history.len(),
                self.sources.as_ptr(), self.sources.len(), self.store.as_ptr(), self.store.len(), self.output.as_mut_ptr(),
                self.output.len(), NOW, answer.as_mut_ptr(), answer.len(),
            )
        };
        assert_eq!(code, 0);
    }

    fn begin(&self, used: &mut [u64]) -> u32 {
        unsafe {
            raw::srt_group_valid_begin(
                self.record.as_ptr(), self.record.len(), self.members.as_ptr(), self.members.len(), self.pending.as_ptr(),
                self.pending.len(), self.waiting.as_ptr(), self.waiting.len(), self.history.as_ptr(), self.history.len(),
                self.sources.as_ptr(), self.sources.len(), self.store.len(), used.as_mut_ptr(), used.len(),
            )
        }
    }

    fn check(&self) -> bool {
        let state = State {
            record: &self.record,
            members: &self.members,
            pending: &self.pending,
            waiting: &self.waiting,
            history: &self.history,
        };
        rules::check(state, rules::cells_of(self.store.len() as u64)).is_ok()
    }
}

/// The best of the runs, in nanoseconds a test.
fn nanoseconds(tests: u64, mut test: impl FnMut()) -> f64 {
    let run = |_| {
        let start = Instant::now();
        (0..tests).for_each(|_| test());
        start.elapsed().as_nanos() as f64 / tests as f64
    };
    (0..RUNS).map(run).fold(f64::MAX, f64::min)
}

fn main() {
    println!("ns a test of code 6, the best of {RUNS} runs; a ratio above 1 means slower than the Rust");
    println!("{:>4} {:>5} {:>9} {:>11} {:>6}", "legs", "held", "Rust", "the library", "ratio");
    for legs in [4, 64] {
        for held in [0, 20, 200, 2_000] {
            let (port, mut used) = (Port::holding(legs, held), [0; raw::USED_WORDS]);
            let tests = 40_000 / (held + legs);
            let rust = nanoseconds(tests, || assert!(black_box(&port).check()));
            let library = nanoseconds(tests, || assert_eq!(black_box(&port).begin(&mut used), 0));
            println!("{legs:>4} {held:>5} {rust:>9.0} {library:>11.0} {:>6.2}", library / rust);
        }
    }
}
