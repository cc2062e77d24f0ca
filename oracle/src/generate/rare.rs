//! Backup groups that set out from a rare state.

use crate::generate::script::{NewLeg, SEQUENCES, Script};
use crate::generate::send::{acknowledge, probe_flights, send_step, show_active, some_send_number};

/// Two Active legs, an unaligned Standby, a returning carrier, silence at its edge, ... and then some sends.
pub fn rare(script: &mut Script) {
    for _ in 0..14 {
        script.new_group(1);
        let next_send = some_send_number(script);
        match script.prng.below(7) {
            0 => carrier_behind_an_active_leg(script, next_send),
            1 => unaligned_standby(script, next_send),
            2 => carrier_returns_earlier(script, next_send),
            3 => added_after_a_loss(script, next_send),
            4 => silence(script, next_send),
            5 => error_after_a_loss(script, next_send),
            _ => second_choice_fails(script, next_send),
        }
        for _ in 0..3 {
            send_step(script);
        }
    }
}

/// Leg 2 carries; leg 1, before it in order, turns Active too, takes over, is acknowledged and breaks. Leg 2
/// then has a flight that cannot be aligned.
fn carrier_behind_an_active_leg(script: &mut Script, next_send: u64) {
    script.add(NewLeg {
        state: 0,
        next_send,
        ..NewLeg::connected(1)
    });
    script.add(NewLeg {
        next_send,
        ..NewLeg::connected(2)
    });
    script.add(NewLeg {
        next_send,
        ..NewLeg::connected(3)
    });
    script.reading(1, 1, 1);
    script.send();
    let kind = script.prng.pick(&[2, 3]);
    script.event(3, kind);
    script.poll();
    script.send();
    let carried = script.group().and_then(|group| group.next_send_sequence());
    if script.prng.chance(3, 4) {
        script.reading(1, 5, u64::from(carried.unwrap_or(0)));
    }
    match script.prng.below(3) {
        0 => script.mark_broken(1),
        1 => script.reading(1, 1, 2),
        _ => script.remove(1),
    }
    script.send();
    acknowledge(script, 2);
    script.send();
}

/// A Standby that connects after its addition keeps its own next number until it takes over.
fn unaligned_standby(script: &mut Script, next_send: u64) {
    let window = script.prng.below(3);
    script.add(NewLeg {
        next_send,
        window,
        ..NewLeg::connected(1)
    });
    let moved = (next_send + script.prng.below(3)) % SEQUENCES;
    let window = script.prng.pick(&[0, 1, 9]);
    script.add(NewLeg {
        state: 0,
        next_send: moved,
        window,
        ..NewLeg::connected(2)
    });
    script.reading(2, 1, 1);
    for _ in 0..4 {
        script.send();
    }
    show_active(script);
}

/// The carrier is removed and comes back unaligned, before or behind what the history holds; perhaps twice.
fn carrier_returns_earlier(script: &mut Script, next_send: u64) {
    script.add(NewLeg {
        next_send,
        ..NewLeg::connected(1)
    });
    script.add(NewLeg {
        next_send,
        weight: 1,
        ..NewLeg::connected(2)
    });
    for _ in 0..script.prng.range(1, 4) {
        script.send();
    }
    for _ in 0..2 {
        script.remove(1);
        let back = script
            .prng
            .pick(&[SEQUENCES - 2, SEQUENCES - 1, SEQUENCES - 1, 0, 1, 3]);
        let moved = (next_send + back) % SEQUENCES;
        let state = script.prng.pick(&[0, 0, 2]);
        script.add(NewLeg {
            state,
            next_send: moved,
            ..NewLeg::connected(1)
        });
        script.reading(1, 1, 1);
        script.send();
        probe_flights(script);
    }
    if script.prng.chance(1, 2) {
        script.reading(1, 1, 2);
    }
    script.send();
}

/// No leg is Active when an Error event is collected: the refresh promotes one leg and the event another.
fn error_after_a_loss(script: &mut Script, next_send: u64) {
    for leg in [4, 3, 2, 1] {
        let weight = script.prng.below(3);
        script.add(NewLeg {
            next_send,
            weight,
            ..NewLeg::connected(leg)
        });
    }
    match script.prng.below(3) {
        0 => script.mark_broken(4),
        1 => script.reading(4, 1, 2),
        _ => script.remove(4),
    }
    let leg = script.any_leg();
    let kind = script.prng.range(2, 3);
    script.event(leg, kind);
    script.poll();
    show_active(script);
}

/// The carrier is heard last some time after its oldest send; sends at its timeout and just after it.
fn silence(script: &mut Script, next_send: u64) {
    script.add(NewLeg {
        next_send,
        ..NewLeg::connected(1)
    });
    script.add(NewLeg {
        next_send,
        ..NewLeg::connected(2)
    });
    let srtt = script.prng.pick(&[0, 10_000, 20_000, 29_999]);
    let rttvar = script.prng.pick(&[0, 5_000, 5_001, 10_001]);
    script.reading(1, 6, srtt);
    script.reading(1, 7, rttvar);
    script.send();
    let sent = script.now;
    let heard = sent + script.prng.pick(&[0, 1, 500, 70_000]);
    let field = script.prng.pick(&[8, 8, 12]);
    script.reading(1, field, heard);
    let timeout = (2 * srtt + 4 * rttvar).max(60_000);
    for moment in [
        sent + timeout + 1,
        heard + timeout - 1,
        heard + timeout,
        heard + timeout + 1,
    ] {
        script.now = moment;
        script.send();
        if script.prng.chance(1, 3) {
            acknowledge(script, 1);
        }
    }
    show_active(script);
    probe_flights(script);
}

/// A leg is added while the Active one is disconnected but still labelled Active.
fn added_after_a_loss(script: &mut Script, next_send: u64) {
    for leg in [3, 2, 1] {
        let weight = script.prng.below(3);
        script.add(NewLeg {
            next_send,
            weight,
            ..NewLeg::connected(leg)
        });
    }
    for _ in 0..script.prng.below(3) {
        script.send();
    }
    script.reading(3, 1, 2);
    let weight = script.prng.below(3);
    script.add(NewLeg {
        next_send,
        weight,
        ..NewLeg::connected(9)
    });
    show_active(script);
    script.send();
    probe_flights(script);
}

/// The first leg's window is full and the one promoted after it cannot send either.
fn second_choice_fails(script: &mut Script, next_send: u64) {
    let window = script.prng.range(1, 3);
    script.add(NewLeg {
        next_send,
        window,
        ..NewLeg::connected(1)
    });
    let second = script.prng.range(0, 3);
    script.add(NewLeg {
        next_send,
        window: second,
        weight: 1,
        ..NewLeg::connected(2)
    });
    script.add(NewLeg {
        next_send,
        ..NewLeg::connected(3)
    });
    if script.prng.chance(1, 2) {
        script.reading(2, 11, 0);
    }
    for _ in 0..window {
        script.send();
    }
    if script.prng.chance(1, 2) {
        acknowledge(script, 1);
        script.reading(1, 2, 0);
    }
    for _ in 0..4 {
        script.send();
    }
    probe_flights(script);
}
