//! Profiles of the sending side, and the mix of everything.

use srt_protocol::srt_connection::ConnectionState;
use srt_protocol::{GroupMemberState, GroupMode};

use crate::generate::receive;
use crate::generate::script::{NewLeg, SEQUENCES, Script};

/// Broadcast sends with full windows, limits and mismatches.
pub fn broadcast(script: &mut Script) {
    for _ in 0..3 {
        script.new_group(0);
        let next_send = some_send_number(script);
        match script.prng.below(3) {
            0 => mismatched_source(script, next_send),
            1 => first_leg_connects_last(script, next_send),
            _ => {}
        }
        for leg in 1..=script.prng.range(1, 5) {
            add_sender(script, leg, next_send, &[0, 1, 2, 3, 9]);
        }
        for _ in 0..40 {
            send_step(script);
        }
    }
}

/// Backup sends with flights, acknowledgements and promotion.
pub fn backup(script: &mut Script) {
    for _ in 0..3 {
        script.new_group(1);
        let next_send = some_send_number(script);
        for leg in 1..=script.prng.range(1, 5) {
            add_sender(script, leg, next_send, &[0, 1, 3, 6, 20]);
        }
        for _ in 0..40 {
            send_step(script);
        }
    }
}

/// Backup: a carrier is lost in one of many ways after some sends; what took over is then probed.
pub fn failover(script: &mut Script) {
    for _ in 0..6 {
        script.new_group(1);
        let next_send = some_send_number(script);
        for leg in 1..=script.prng.range(2, 4) {
            add_sender(script, leg, next_send, &[1, 2, 3, 4, 5, 9, 30]);
        }
        for _ in 0..4 {
            for _ in 0..script.prng.range(1, 4) {
                script.now += script.prng.pick(&[0, 10, 1_000]);
                script.send();
            }
            if script.prng.chance(1, 2) {
                let leg = script.any_leg();
                acknowledge(script, leg);
            }
            lose_carrier(script);
            script.send();
            probe_flights(script);
            if script.prng.chance(1, 3) {
                come_back(script);
            }
        }
    }
}

/// Everything at once.
pub fn mixed(script: &mut Script) {
    for _ in 0..2 {
        let mode = script.prng.below(2);
        script.new_group(mode);
        let next_send = some_send_number(script);
        for _ in 0..script.prng.range(1, 6) {
            let leg = some_id(script);
            add_sender(script, leg, next_send, &[0, 1, 2, 4, 30, 65_535]);
        }
        for _ in 0..90 {
            mixed_step(script);
        }
        receive::drain(script);
    }
}

pub fn mixed_step(script: &mut Script) {
    match script.prng.below(8) {
        0..=2 => receive::receive_step(script, 4),
        3..=5 => send_step(script),
        6 => {
            let leg = script.any_leg();
            any_reading(script, leg);
        }
        _ => member_step(script),
    }
}

fn some_id(script: &mut Script) -> u64 {
    script.prng.pick(&[0, 1, 2, 3, 4, 1 << 31, (1 << 32) - 1])
}

pub fn some_send_number(script: &mut Script) -> u64 {
    let before_wrap = SEQUENCES - script.prng.range(1, 4);
    script.prng.pick(&[0, 50, before_wrap, 1 << 30])
}

fn add_sender(script: &mut Script, leg: u64, next_send: u64, windows: &[u64]) {
    let moved = (next_send + script.prng.pick(&[0, 0, 0, 1, 20, SEQUENCES - 1])) % SEQUENCES;
    let new = NewLeg {
        weight: script.prng.pick(&[0, 1, 1, 5, 65_535]),
        state: script.prng.pick(&[1, 1, 1, 1, 0, 0, 2]),
        next_send: moved,
        first: script.prng.pick(&[100, SEQUENCES - 2]),
        window: script.prng.pick(windows),
        latency: script.prng.pick(&[0, 100, 1_000]),
        ..NewLeg::connected(leg)
    };
    script.add(new);
}

/// The first leg in order connects behind another and takes over that one's number.
fn first_leg_connects_last(script: &mut Script, next_send: u64) {
    script.add(NewLeg {
        state: 0,
        next_send: (next_send + 9) % SEQUENCES,
        ..NewLeg::connected(80)
    });
    script.add(NewLeg {
        next_send,
        ..NewLeg::connected(81)
    });
    script.reading(80, 1, 1);
    script.send();
    acknowledge(script, 80);
}

/// A Broken leg that is connected and first in order gives later additions its own next number.
fn mismatched_source(script: &mut Script, next_send: u64) {
    let broken = NewLeg {
        state: 0,
        next_send: (next_send + 9) % SEQUENCES,
        ..NewLeg::connected(80)
    };
    script.add(broken);
    script.mark_broken(80);
    if script.prng.chance(2, 3) {
        script.add(NewLeg {
            next_send,
            ..NewLeg::connected(81)
        });
    }
    script.reading(80, 1, 1);
}

pub fn send_step(script: &mut Script) {
    let leg = script.any_leg();
    match script.prng.below(24) {
        0..=9 => {
            script.now += script.prng.pick(&[0, 1, 10, 1_000, 60_000, 60_001]);
            script.send();
        }
        10..=14 => acknowledge(script, leg),
        15 => {
            let window = script.prng.pick(&[0, 1, 2, 3, 5, 40]);
            script.reading(leg, 2, window);
        }
        16 => set_limit(script, leg),
        17 => stale_at_the_edge(script),
        18 => member_step(script),
        19 => show_active(script),
        20 => script.poll(),
        21 => lose_carrier(script),
        22 => come_back(script),
        _ => {
            let kind = script.prng.range(1, 3);
            script.event(leg, kind);
            script.poll();
        }
    }
}

fn set_limit(script: &mut Script, leg: u64) {
    let limit = script.prng.pick(&[0, 0, 1, 1_456]);
    script.reading(leg, 11, limit);
}

/// An acknowledgement inside the flight, at its edges, or just outside them.
pub fn acknowledge(script: &mut Script, leg: u64) {
    let Some(connection) = script.connection(leg) else {
        return;
    };
    let sender = connection.readings();
    let oldest = u64::from(sender.oldest_unacked_sequence());
    let (next, flight) = (u64::from(sender.next), u64::from(sender.flight));
    let up_to = match script.prng.below(12) {
        0 => oldest + SEQUENCES - 1,
        1 => oldest,
        2 => next + 1,
        3 => next + (1 << 30),
        4..=7 => next,
        _ => oldest + script.prng.below(flight + 1),
    };
    script.reading(leg, 5, up_to % SEQUENCES);
}

/// Whether a leg's flight reaches back to a sequence shows in the answer to an acknowledgement of it.
pub fn probe_flights(script: &mut Script) {
    for leg in script.legs() {
        if script.prng.chance(1, 3) {
            acknowledge(script, leg);
        }
    }
}

/// Show which leg is the first Active one: with every limit at 0 a send gives 23, until that leg's is raised.
pub fn show_active(script: &mut Script) {
    let legs = script.legs();
    if script
        .group()
        .is_none_or(|group| group.mode() == GroupMode::Broadcast)
        || legs.len() > 6
    {
        return show_whether_active(script);
    }
    for leg in &legs {
        script.reading(*leg, 11, 0);
    }
    for leg in &legs {
        let sent = script.group().and_then(|group| group.next_send_sequence());
        script.reading(*leg, 11, 1);
        script.send();
        if script.group().and_then(|group| group.next_send_sequence()) != sent {
            break;
        }
    }
    for leg in &legs {
        script.reading(*leg, 11, 1_456);
    }
}

/// Show whether one leg is the first Active one. In Broadcast this breaks the others.
fn show_whether_active(script: &mut Script) {
    let one = script.any_leg();
    for leg in script.legs() {
        script.reading(leg, 11, u64::from(leg == one));
    }
    script.send();
    for leg in script.legs() {
        script.reading(leg, 11, 1_456);
    }
}

/// Send at the carrier's stability timeout, and one microsecond later.
fn stale_at_the_edge(script: &mut Script) {
    let Some(leg) = script.leg_labelled(GroupMemberState::Active) else {
        return;
    };
    if script.prng.chance(1, 2) {
        let srtt = script.prng.pick(&[0, 10_000, 20_000, 4_294_967_295]);
        let rttvar = script.prng.pick(&[0, 5_000, 5_001, 4_294_967_295]);
        script.reading(leg, 6, srtt);
        script.reading(leg, 7, rttvar);
    }
    let field = script.prng.pick(&[8, 8, 12]);
    let moment = script.now.saturating_sub(script.prng.below(90_000));
    script.reading(leg, field, moment);
    let Some(group) = script.group() else {
        return;
    };
    let timeout = group.backup_stability_timeout_micros(leg as u32);
    let heard = script.connection(leg).map(|connection| {
        let sent = connection.readings().oldest_send_time;
        connection.last_heard.max(sent)
    });
    if let (Some(timeout), Some(heard)) = (timeout, heard)
        && timeout < 1_000_000
    {
        script.now = script.now.max(heard + timeout);
        script.send();
        script.now += 1;
    }
    script.send();
}

/// The first Active leg goes away in one of the ways there are.
fn lose_carrier(script: &mut Script) {
    let Some(leg) = script.leg_labelled(GroupMemberState::Active) else {
        return;
    };
    match script.prng.below(8) {
        0 => script.reading(leg, 1, 2),
        1 => script.mark_broken(leg),
        2 => script.remove(leg),
        3 => {
            script.event(leg, 2);
            script.poll();
        }
        4 => {
            script.event(leg, 3);
            script.reading(leg, 1, 2);
            script.poll();
        }
        5 => script.reading(leg, 2, 0),
        6 => script.reading(leg, 11, 0),
        _ => script.now += 70_000,
    }
}

/// An id comes back, the carrier's more often than others, connected or to be connected later.
fn come_back(script: &mut Script) {
    let carrier = script.group().and_then(|group| group.backup_carrier());
    let other = script.prng.range(1, 6);
    let leg = match carrier {
        Some(carrier) if script.prng.chance(2, 3) => u64::from(carrier),
        _ => other,
    };
    if script.prng.chance(1, 2) {
        script.remove(leg);
    }
    let next = script.group().and_then(|group| group.next_send_sequence());
    let back = script
        .prng
        .pick(&[SEQUENCES - 9, SEQUENCES - 3, SEQUENCES - 1, 0, 1]);
    let next_send = (u64::from(next.unwrap_or(50)) + back) % SEQUENCES;
    let new = NewLeg {
        weight: script.prng.pick(&[0, 1, 65_535]),
        state: script.prng.pick(&[0, 0, 1, 2]),
        next_send,
        window: script.prng.pick(&[1, 4, 30]),
        ..NewLeg::connected(leg)
    };
    script.add(new);
    if script.prng.chance(1, 2) {
        script.reading(leg, 1, 1);
    }
}

fn member_step(script: &mut Script) {
    let leg = script.any_leg();
    match script.prng.below(8) {
        0 => script.mark_broken(leg),
        1 => script.remove(leg),
        2 | 3 => {
            let new = some_id(script);
            let next_send = some_send_number(script);
            add_sender(script, new, next_send, &[0, 1, 2, 4, 30]);
        }
        4 | 5 => {
            let waiting = script.leg_in(ConnectionState::Handshaking);
            script.reading(waiting.unwrap_or(leg), 1, 1);
        }
        6 => {
            let kind = script.prng.range(1, 3);
            script.event(leg, kind);
        }
        _ => {
            let state = script.prng.below(3);
            script.reading(leg, 1, state);
        }
    }
}

fn any_reading(script: &mut Script, leg: u64) {
    let field = script.prng.range(2, 12);
    let number = match field {
        5 => return acknowledge(script, leg),
        2 | 3 => script.prng.below(12),
        6 | 7 => script.prng.below(40_000),
        8 | 12 => script.now.saturating_sub(script.prng.below(80_000)),
        9 => script.now + script.prng.below(100),
        10 => script.prng.pick(&[0, 0, 7, 7, 8]),
        11 => script.prng.pick(&[0, 1, 1_456, 65_535]),
        _ => script.prng.pick(&[0, 10, 100, 1_000, 99_999_999_999]),
    };
    script.reading(leg, field, number);
}
