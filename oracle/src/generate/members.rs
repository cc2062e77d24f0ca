//! Profiles of the members: events, peer groups, many members, full stores.

use srt_protocol::srt_connection::ConnectionState;

use crate::fields::NONE;
use crate::generate::receive;
use crate::generate::script::{NewLeg, SEQUENCES, Script};
use crate::generate::send;

/// Events on members of every kind, in both modes.
pub fn events(script: &mut Script) {
    for _ in 0..3 {
        let first = script.prng.below(SEQUENCES);
        receive::receive_legs(script, first);
        for _ in 0..30 {
            let leg = script.any_leg();
            match script.prng.below(12) {
                0..=4 => {
                    let kind = script.prng.range(1, 3);
                    script.event(leg, kind);
                }
                5..=6 => script.poll(),
                7 => {
                    let state = script.prng.range(0, 2);
                    script.reading(leg, 1, state);
                }
                8 => script.mark_broken(leg),
                9 => script.send(),
                10 => send::show_active(script),
                _ => receive::receive_step(script, 2),
            }
        }
        receive::drain(script);
    }
}

/// Peer groups: the first one binds, later ones match or collide.
pub fn peers(script: &mut Script) {
    for _ in 0..4 {
        let mode = script.prng.below(2);
        script.new_group(mode);
        for leg in 1..=script.prng.range(2, 5) {
            let first = script.prng.pick(&[NONE, NONE, 100, 200, 300]);
            let state = script.prng.pick(&[0, 0, 0, 1]);
            script.add(NewLeg {
                first,
                state,
                weight: leg % 3,
                ..NewLeg::connected(leg)
            });
            let peer = script.prng.pick(&[0, 7, 7, 8]);
            script.reading(leg, 10, peer);
        }
        if script.prng.chance(1, 3) {
            broken_before_it_connects(script);
        }
        for _ in 0..25 {
            peer_step(script);
        }
        receive::drain(script);
        script.send();
    }
}

/// A leg that is Broken before it connects is never admitted: it sets no base and binds no peer group.
fn broken_before_it_connects(script: &mut Script) {
    let mode = script.prng.below(2);
    script.new_group(mode);
    script.add(NewLeg {
        state: 0,
        first: 200,
        ..NewLeg::connected(1)
    });
    script.add(NewLeg {
        state: 0,
        first: NONE,
        ..NewLeg::connected(2)
    });
    script.reading(1, 10, 7);
    script.reading(2, 10, 8);
    script.mark_broken(1);
    script.reading(1, 1, 1);
    script.poll();
    script.reading(2, 1, 1);
    let sequence = script.prng.pick(&[199, 200, 201]);
    script.data(2, sequence, 1, script.now);
    script.poll();
    script.send();
}

fn peer_step(script: &mut Script) {
    let leg = script.any_leg();
    match script.prng.below(22) {
        0..=3 => {
            let peer = script.prng.pick(&[0, 7, 7, 8]);
            script.reading(leg, 10, peer);
        }
        4..=9 => {
            let waiting = script.leg_in(ConnectionState::Handshaking);
            script.reading(waiting.unwrap_or(leg), 1, 1);
        }
        10..=11 => {
            let sequence = script.prng.pick(&[99, 100, 199, 200, 299, 300]);
            script.data(leg, sequence, 1, script.now);
        }
        12..=14 => script.poll(),
        15 => script.send(),
        16 => send::show_active(script),
        17 => script.mark_broken(leg),
        _ => {
            script.remove(leg);
            let first = script.prng.pick(&[NONE, 100, 200]);
            let state = script.prng.pick(&[0, 0, 1]);
            script.add(NewLeg {
                first,
                state,
                ..NewLeg::connected(leg)
            });
            let peer = script.prng.pick(&[7, 8]);
            script.reading(leg, 10, peer);
        }
    }
}

/// 64 members, one more, and duplicates.
pub fn crowd(script: &mut Script) {
    let mode = script.prng.below(2);
    script.new_group(mode);
    let spread = script.prng.pick(&[1, 1, 3]);
    for number in 0..script.prng.pick(&[20, 66, 70]) {
        let leg = number * spread % 90;
        let state = script.prng.pick(&[0, 1, 1, 2]);
        let weight = script.prng.below(4);
        let window = script.prng.below(4);
        script.add(NewLeg {
            weight,
            state,
            first: 10,
            window,
            ..NewLeg::connected(leg)
        });
    }
    for _ in 0..60 {
        let leg = script.prng.below(90);
        match script.prng.below(8) {
            0 => script.remove(leg),
            1 => script.add(NewLeg {
                first: 10,
                window: 2,
                ..NewLeg::connected(leg)
            }),
            2 => script.reading(leg, 1, 1),
            3 => send::show_active(script),
            4 => script.send(),
            _ => receive::receive_step(script, 2),
        }
    }
    receive::drain(script);
}

/// A full store and full queues, and cells that serve again.
pub fn full(script: &mut Script) {
    let mode = script.prng.below(2);
    script.new_group(mode);
    for leg in 1..=script.prng.range(2, 4) {
        script.add(NewLeg {
            first: 1_000,
            window: 200,
            ..NewLeg::connected(leg)
        });
    }
    for _ in 0..3 {
        fill(script);
        for _ in 0..script.prng.range(1, 12) {
            match script.prng.below(6) {
                0 => script.send(),
                1 => acknowledge_some(script),
                2 => {
                    let leg = script.any_leg();
                    script.remove(leg);
                    script.add(NewLeg {
                        window: 200,
                        ..NewLeg::connected(leg)
                    });
                }
                _ => receive::poll_at_the_edge(script),
            }
        }
    }
    receive::drain(script);
}

/// Fill one queue, then the store, by data, events and sends.
fn fill(script: &mut Script) {
    let base = script.base().unwrap_or(1_000);
    let one = script.any_leg();
    for number in 0..45 {
        let leg = match script.prng.chance(1, 2) {
            true => one,
            false => script.any_leg(),
        };
        match script.prng.below(9) {
            0 => script.send(),
            1 => script.event(leg, 1),
            _ => script.data(leg, base + 1 + number % 30, 1, script.now),
        }
        if script.prng.chance(1, 9) {
            script.poll();
        }
    }
}

fn acknowledge_some(script: &mut Script) {
    for leg in script.legs() {
        send::acknowledge(script, leg);
    }
    script.send();
}
