//! Document 01's cases P1 to P9, on the Rust.

use srt_protocol::{GroupMemberState, SrtGroup, is_before};

use crate::gateway::{Data, Gateway, Leg};

const FULL: u64 = 1 << 31;
const HALF: u32 = 1 << 30;

/// Every case with whether it holds.
pub fn all() -> Vec<(&'static str, bool)> {
    let last = (FULL - 1) as u32;
    vec![
        ("P1 0 is not before 0", !is_before(0, 0)),
        ("P2 0 is before 2^30-1", is_before(0, HALF - 1)),
        (
            "P3 0 and 2^30: neither before the other",
            !is_before(0, HALF) && !is_before(HALF, 0),
        ),
        ("P4 2^31-1 is before 0", is_before(last, 0)),
        ("P5 nearest of {2^31-2, 1}, base 2^31-3: 2^31-2", nearest()),
        ("P6 run at 2^31-1, count 2: base 1, held 0 vanishes", run()),
        ("P7 Standby (4, 10), (2, 10), (9, 5): leg 2", promotion()),
        (
            "P8 timeouts 60,004 and 60,000; 60,001 turns Unstable",
            silence(),
        ),
        ("P9 history 3: window left 3 gives 28, 4 replays", replay()),
    ]
}

fn gateway(mode: u64) -> Gateway {
    let mut gateway = Gateway::new(40);
    gateway.new_group(u64::from(HALF), mode).expect("a group");
    gateway
}

fn add(gateway: &mut Gateway, leg: u64, weight: u64, first: u64, window: u64) {
    let leg = Leg {
        leg,
        weight,
        state: 1,
        next_send: 50,
        peer_initial_sequence: first,
        window,
        latency: 0,
        flight: 0,
    };
    gateway.add(leg).expect("a new leg");
}

/// Queue a packet on leg 1 and poll it off the queue.
fn collect(gateway: &mut Gateway, sequence: u64, count: u64) {
    let data = Data {
        leg: 1,
        sequence,
        count,
        source_time: 0,
        message_number: 0,
        timestamp: 0,
        payload: &[1],
    };
    gateway.data(data).expect("room in the queue");
    gateway.poll_data(0).expect("a group");
}

fn group(gateway: &Gateway) -> &SrtGroup {
    gateway.group().expect("a group")
}

fn label(gateway: &Gateway, leg: u32) -> GroupMemberState {
    group(gateway).member(leg).expect("a member").state()
}

fn nearest() -> bool {
    let mut gateway = gateway(0);
    add(&mut gateway, 1, 0, FULL - 3, 9);
    collect(&mut gateway, 1, 1);
    collect(&mut gateway, FULL - 2, 1);
    group(&gateway).nearest() == Some((FULL - 2) as u32)
}

fn run() -> bool {
    let mut gateway = gateway(0);
    add(&mut gateway, 1, 0, FULL - 1, 9);
    collect(&mut gateway, 0, 1);
    let held = group(&gateway).pending().len();
    collect(&mut gateway, FULL - 1, 2);
    let group = group(&gateway);
    held == 1 && group.next_receive_sequence() == Some(1) && group.pending().is_empty()
}

fn promotion() -> bool {
    let mut gateway = gateway(1);
    for (leg, weight) in [(1, 0), (4, 10), (2, 10), (9, 5)] {
        add(&mut gateway, leg, weight, 0, 9);
    }
    gateway.mark_broken(1).expect("a member");
    gateway.poll_data(0).expect("a group");
    let states = [4, 2, 9].map(|leg| label(&gateway, leg));
    states
        == [
            GroupMemberState::Standby,
            GroupMemberState::Active,
            GroupMemberState::Standby,
        ]
}

fn silence() -> bool {
    let mut gateway = gateway(1);
    add(&mut gateway, 1, 0, 0, 9);
    add(&mut gateway, 2, 0, 0, 9);
    let timeout = |gateway: &Gateway| group(gateway).backup_stability_timeout_micros(1);
    gateway.reading(1, 6, 20_000).expect("a reading");
    gateway.reading(1, 7, 5_001).expect("a reading");
    let long = timeout(&gateway);
    gateway.reading(1, 6, 10_000).expect("a reading");
    gateway.reading(1, 7, 5_000).expect("a reading");
    let short = timeout(&gateway);
    let mut after = |now| {
        gateway.send(&[1], now).expect("a leg that sends");
        label(&gateway, 1)
    };
    let labels = [after(0), after(60_000), after(60_001)];
    (long, short) == (Some(60_004), Some(60_000))
        && labels
            == [
                GroupMemberState::Active,
                GroupMemberState::Active,
                GroupMemberState::Unstable,
            ]
}

fn replay() -> bool {
    let outcome = |window| {
        let mut gateway = gateway(1);
        add(&mut gateway, 1, 0, 0, 9);
        add(&mut gateway, 2, 0, 0, window);
        for now in 0..3 {
            gateway.send(&[1], now).expect("a leg that sends");
        }
        gateway.reading(1, 1, 2).expect("a reading");
        let answer = gateway.send(&[1], 3);
        (answer, gateway.sends().len())
    };
    outcome(3) == (Err(28), 0) && outcome(4) == (Ok(1), 4)
}
