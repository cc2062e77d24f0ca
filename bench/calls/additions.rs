//! The additions: the legs of a group that has none, 4 or 64, one after the other. The group, and what it is handed, is made before the clock
//! starts. Their two rows are asked for by the word `additions`. The public column is the library's public call; the Rust crate turns a leg into a row first.
use std::time::{Duration, Instant};

use srt_protocol::{GroupMemberState, GroupMode};

use super::{GROUP, Lent, Linked, Port, RUNS, Rust, is_wanted, port, print_head, print_row};
use crate::port::{raw, row};

/// Additions of one timed run.
const ADDITIONS: u64 = 1_024;

fn clocked(work: impl FnOnce()) -> Duration {
    let start = Instant::now();
    work();
    start.elapsed()
}

/// The best of the runs, in nanoseconds an addition; each fills groups until it has made its additions.
fn best(legs: u64, mut fill: impl FnMut() -> Duration) -> f64 {
    let run = |_| (0..ADDITIONS / legs).map(|_| fill()).sum::<Duration>().as_nanos() as f64 / ADDITIONS as f64;
    (0..RUNS).map(run).fold(f64::MAX, f64::min)
}

impl Rust {
    fn fill(&mut self, legs: u64) -> Duration {
        let connections: Vec<_> = (1..=legs as u32).map(|id| (id, self.connection(id))).collect();
        clocked(|| connections.into_iter().for_each(|(id, connection)| self.group.add_member(id, 0, connection).expect("an addition")))
    }

    /// Its members are those of the port's rows, in order, all active.
    fn has_members_of(&self, port: &Port) -> bool {
        let rows = port.members.chunks(raw::ROW_WORDS).take(port.record[4] as usize);
        self.group.members().iter().map(|member| (u64::from(member.id()), member.state())).eq(rows.map(|row| {
            assert_eq!(row[2], raw::LABEL_ACTIVE);
            (row[0], GroupMemberState::Active)
        }))
    }
}

/// The Rust, the library's public call, the thin call and the Rust crate.
fn timed(legs: u64) -> [f64; 4] {
    let mode = GroupMode::Broadcast;
    let (row, mut public, mut lent) = (row(), port(mode, 0), Lent(port(mode, 0)));
    let fresh = public.record;
    let times = [
        best(legs, || Rust::new(mode, 0).fill(legs)),
        best(legs, || {
            public.record = fresh;
            clocked(|| (1..=legs).for_each(|id| assert_eq!(public.add(&row, id), 0)))
        }),
        best(legs, || {
            lent.0.record = fresh;
            clocked(|| (1..=legs).for_each(|id| assert_eq!(lent.add(&row, id), 0)))
        }),
        best(legs, || {
            let group = srt_group::Group::new(GROUP, srt_group::GroupMode::Broadcast, 1).expect("a group's id");
            let mut linked = Linked { group, output: [0; srt_group::Group::OUTPUT] };
            clocked(|| (1..=legs as u32).for_each(|id| linked.add(id)))
        }),
    ];
    assert!(Rust::new(mode, legs).has_members_of(&public));
    assert!(public.record[4] == legs && public.record == lent.0.record && public.members == lent.0.members);
    times
}

pub fn main() {
    if !is_wanted("additions") {
        return;
    }
    println!("ns an addition, the legs of a group that has none, the best of {RUNS} runs of {ADDITIONS}, with the clock's own cost");
    print_head("legs", &["Rust", "public", "lent", "Rust crate"]);
    for legs in [4, 64] {
        print_row(&legs.to_string(), &timed(legs));
    }
}
