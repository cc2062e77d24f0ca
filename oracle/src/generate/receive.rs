//! Profiles of the receiving side.

use srt_protocol::srt_connection::ConnectionState;

use crate::fields::NONE;
use crate::generate::script::{HALF, NewLeg, SEQUENCES, Script};

/// Gaps, late and duplicate packets on 2 to 8 legs.
pub fn gaps(script: &mut Script) {
    let first = script.prng.below(SEQUENCES);
    receive_legs(script, first);
    for _ in 0..120 {
        receive_step(script, 1);
    }
    drain(script);
}

/// The same with sequences that cross 2^31.
pub fn wrap(script: &mut Script) {
    let first = SEQUENCES - script.prng.range(1, 12);
    receive_legs(script, first);
    for _ in 0..100 {
        receive_step(script, 3);
    }
    drain(script);
}

/// Runs of several packets that cover what is held.
pub fn runs(script: &mut Script) {
    let before_wrap = SEQUENCES - script.prng.range(1, 20);
    let first = script.prng.pick(&[100, before_wrap]);
    receive_legs(script, first);
    for _ in 0..25 {
        held_inside_a_run(script);
        for _ in 0..3 {
            receive_step(script, 6);
        }
    }
    drain(script);
}

/// Skips by latency, with no legs and with all legs disconnected.
pub fn skips(script: &mut Script) {
    for _ in 0..4 {
        let before_wrap = SEQUENCES - script.prng.range(1, 6);
        let first = script.prng.pick(&[0, 1_000, before_wrap]);
        receive_legs(script, first);
        for _ in 0..12 {
            gap_then_poll_at_the_edge(script);
        }
        match script.prng.below(3) {
            0 => remove_all(script),
            1 => disconnect_all(script),
            _ => {}
        }
        drain(script);
    }
}

/// More queued events than one visit, or one poll, may take.
pub fn budget(script: &mut Script) {
    for _ in 0..3 {
        let first = script.prng.pick(&[40, 1_000, SEQUENCES - 3, 10]);
        let mode = script.prng.below(2);
        script.new_group(mode);
        for leg in 1..=script.prng.range(3, 9) {
            let latency = script.prng.pick(&[0, 100, 100, 100, 100_000]);
            script.add(NewLeg {
                first,
                latency,
                ..NewLeg::connected(leg)
            });
        }
        for _ in 0..2 {
            if script.prng.chance(1, 2) {
                hold_given_up(script);
            }
            match script.prng.below(5) {
                0 => queue_late_data(script),
                3 => events_before_a_packet(script),
                1 => queue_many_events(script),
                2 => events_behind_a_budget(script),
                _ => fill_queues(script),
            }
            for _ in 0..script.prng.range(2, 5) {
                script.poll();
                script.now += script.prng.pick(&[0, 50, 1_000]);
            }
        }
        drain(script);
    }
}

/// Removal with packets held, small receive windows and retirement.
pub fn removal(script: &mut Script) {
    for _ in 0..3 {
        let before_wrap = SEQUENCES - script.prng.range(1, 9);
        let first = script
            .prng
            .pick(&[0, 1, 500, before_wrap, before_wrap, NONE]);
        receive_legs(script, first);
        for leg in script.legs() {
            if script.prng.chance(4, 5) {
                let small = script.prng.below(9);
                let window = script.prng.pick(&[small, small, small, 65_535]);
                script.reading(leg, 3, window);
            }
        }
        for _ in 0..6 {
            hold_some(script, first);
            let leg = script.any_leg();
            script.remove(leg);
            if script.prng.chance(1, 2) {
                script.poll();
            }
            if script.prng.chance(1, 3) {
                let leg = script.prng.range(1, 9);
                script.add(NewLeg {
                    first,
                    latency: 300,
                    ..NewLeg::connected(leg)
                });
            }
        }
        drain(script);
    }
}

/// Ids that come back while packets of theirs are held or queued elsewhere.
pub fn returned(script: &mut Script) {
    let before_wrap = SEQUENCES - script.prng.range(1, 9);
    let first = script.prng.pick(&[100, before_wrap]);
    receive_legs(script, first);
    for _ in 0..14 {
        hold_some(script, first);
        let leg = script.any_leg();
        script.remove(leg);
        if script.prng.chance(1, 3) {
            script.poll();
        }
        let returning = NewLeg {
            state: script.prng.pick(&[0, 1, 1, 2]),
            latency: script.prng.pick(&[0, 10, 400, 5_000]),
            first: script.prng.pick(&[first, NONE, 7]),
            ..NewLeg::connected(leg)
        };
        script.add(returning);
        poll_at_the_edge(script);
        receive_step(script, 2);
    }
    drain(script);
}

/// 2 to 8 legs that all name the same first sequence, most with latency.
pub fn receive_legs(script: &mut Script, first: u64) {
    let mode = script.prng.below(2);
    script.new_group(mode);
    for leg in 1..=script.prng.range(2, 8) {
        let state = script.prng.pick(&[1, 1, 1, 1, 1, 0, 2]);
        let latency = script.prng.pick(&[0, 20, 100, 100, 500, 500, 2_000]);
        let weight = script.prng.below(4);
        script.add(NewLeg {
            first,
            latency,
            state,
            weight,
            ..NewLeg::connected(leg)
        });
    }
}

/// One packet or one poll, chosen by what the group holds.
pub fn receive_step(script: &mut Script, longest: u64) {
    script.now += script.prng.pick(&[0, 0, 1, 10, 60]);
    match script.prng.below(20) {
        0..=10 => {
            let sequence = some_sequence(script);
            arrive(script, sequence, longest);
        }
        11..=16 => script.poll(),
        17 => poll_at_the_edge(script),
        18 => change_state(script),
        _ => {
            let leg = script.any_leg();
            let kind = script.prng.range(1, 3);
            if script.prng.chance(1, 3) {
                script.event(leg, kind);
            }
        }
    }
}

/// A packet on one leg or on several, with one source time.
fn arrive(script: &mut Script, sequence: u64, longest: u64) {
    let back = script.prng.pick(&[0, 0, 1, 30, 200, 3_000]);
    let source_time = script.now.saturating_sub(back);
    let count = match script.prng.below(60) {
        0 => script.prng.pick(&[1_000, 65_535]),
        1..=20 => script.prng.range(1, longest),
        _ => 1,
    };
    for _ in 0..script.prng.pick(&[1, 1, 2, 3]) {
        let leg = script.any_leg();
        script.data(leg, sequence, count, source_time);
    }
}

/// A sequence near the base: in order, ahead, late, held already, or half a circle away.
fn some_sequence(script: &mut Script) -> u64 {
    let base = script.base().unwrap_or(100);
    let held = script.held();
    match script.prng.below(24) {
        0..=6 => base,
        7..=16 => base + script.prng.range(1, 6),
        17..=19 => base + SEQUENCES - script.prng.range(1, 4),
        20..=21 if !held.is_empty() => script.prng.pick(&held),
        22 => base + HALF - script.prng.below(2),
        23 => base + HALF + script.prng.below(3),
        _ => base + 2,
    }
}

/// Poll one microsecond before the nearest held packet gives up, and then at that moment.
pub fn poll_at_the_edge(script: &mut Script) {
    if let Some(at) = script.gives_up_at()
        && at > script.now
    {
        script.now = at - 1;
        script.poll();
        script.now = at;
    }
    script.poll();
}

/// Packets behind a gap, some nearer ones still queued, then polls at the give-up moment.
fn gap_then_poll_at_the_edge(script: &mut Script) {
    let base = script.base().unwrap_or(5);
    let far = base + script.prng.range(3, 9);
    for _ in 0..script.prng.range(1, 3) {
        let leg = script.any_leg();
        let ahead = far + script.prng.below(4);
        let source_time = script.now.saturating_sub(script.prng.below(90));
        script.data(leg, ahead, 1, source_time);
    }
    if script.prng.chance(2, 3) {
        script.poll();
    }
    for _ in 0..script.prng.below(4) {
        let leg = script.any_leg();
        let near = base + script.prng.below(4);
        let source_time = script.now + script.prng.pick(&[0, 50, 900]);
        script.data(leg, near, 1, source_time);
    }
    if script.prng.chance(1, 5) {
        let leg = script.any_leg();
        let kind = script.prng.range(1, 3);
        script.event(leg, kind);
    }
    poll_at_the_edge(script);
}

/// Hold packets, then let a run arrive that starts at the base and covers some of them.
fn held_inside_a_run(script: &mut Script) {
    let base = script.base().unwrap_or(100);
    for _ in 0..script.prng.range(1, 4) {
        let leg = script.any_leg();
        let inside = base + script.prng.range(1, 5);
        let count = script.prng.range(1, 3);
        script.data(leg, inside, count, script.now);
        script.poll();
    }
    let leg = script.any_leg();
    let count = script.prng.range(2, 6);
    script.data(leg, base, count, script.now);
    script.poll();
}

/// Hold packets ahead of the base, not all in order.
fn hold_some(script: &mut Script, first: u64) {
    let base = script.base().unwrap_or(first % SEQUENCES);
    for _ in 0..script.prng.range(2, 6) {
        let leg = script.any_leg();
        let ahead = base + script.prng.range(1, 14);
        let count = script.prng.pick(&[1, 1, 1, 1, 1, 2, 2, 3, 3, 65_535]);
        script.data(leg, ahead, count, script.now);
        if script.prng.chance(3, 4) {
            script.poll();
        }
    }
}

/// A packet behind a gap that some leg has given up on by now.
fn hold_given_up(script: &mut Script) {
    let ahead = script.base().unwrap_or(1_000) + script.prng.range(2, 9);
    let leg = script.any_leg();
    script.data(leg, ahead, 1, script.now);
    script.poll();
    script.now = script.gives_up_at().unwrap_or(script.now).max(script.now);
}

/// Only late packets and duplicates until the store is nearly full, then the one at the base.
fn queue_late_data(script: &mut Script) {
    let base = script.base().unwrap_or(1_000);
    let held = script.held();
    for _ in 0..80 {
        let leg = script.any_leg();
        if script.free_cells() < 2 || script.queue_room(leg) == 0 {
            continue;
        }
        let late = base + SEQUENCES - script.prng.range(1, 9);
        let sequence = match held.first() {
            Some(&held) if script.prng.chance(1, 3) => held,
            _ => late,
        };
        script.data(leg, sequence, 1, script.now);
    }
    let leg = script.any_leg();
    let sequence = base + script.prng.below(2);
    script.data(leg, sequence, 1, script.now);
}

/// About as many late packets as a budget, then an event on every leg, then the packet at the base.
fn events_behind_a_budget(script: &mut Script) {
    let base = script.base().unwrap_or(1_000);
    let legs = script.legs();
    let late = script.prng.pick(&[31, 32, 32, 33]);
    for leg in legs.iter().cycle().take(late) {
        script.data(*leg, base + SEQUENCES - 1, 1, script.now);
    }
    for leg in &legs {
        script.event(*leg, 1);
    }
    for leg in &legs {
        script.data(*leg, base, 1, script.now);
    }
}

/// About as many events as a poll takes, and then the packet at the base, in the order of the round.
fn events_before_a_packet(script: &mut Script) {
    let base = script.base().unwrap_or(1_000);
    let mut legs = script.legs();
    if legs.len() < 5 || script.events_queued() > 0 {
        return;
    }
    let round = script.group().map_or(0, |group| group.next_event_member());
    legs.rotate_left(round);
    let events = script.prng.pick(&[62, 63, 63, 64]);
    for leg in legs.iter().cycle().take(events) {
        script.event(*leg, 1);
    }
    let leg = legs[events % legs.len()];
    script.data(leg, base, 1, script.now);
}

/// Events in nearly every place of every queue, here and there a late packet between them.
fn queue_many_events(script: &mut Script) {
    if script.held().is_empty() {
        hold_given_up(script);
    }
    let base = script.base().unwrap_or(1_000);
    for _ in 0..16 {
        for leg in script.legs() {
            match script.prng.chance(1, 6) {
                true => script.data(leg, base + SEQUENCES - 1, 1, script.now),
                false => script.event(leg, 1),
            }
        }
    }
}

/// Fill the queues of all legs with late packets, duplicates, some good ones and some events.
fn fill_queues(script: &mut Script) {
    let base = script.base().unwrap_or(1_000);
    for _ in 0..script.prng.range(60, 150) {
        let leg = script.any_leg();
        if script.queue_room(leg) == 0 {
            continue;
        }
        if script.free_cells() == 0 || script.prng.chance(1, 3) {
            let kind = script.prng.pick(&[1, 1, 1, 2, 3]);
            script.event(leg, kind);
            continue;
        }
        let sequence = match script.prng.chance(4, 5) {
            true => base + SEQUENCES - script.prng.range(1, 9),
            false => base + script.prng.below(6),
        };
        script.data(leg, sequence, 1, script.now);
    }
}

fn change_state(script: &mut Script) {
    let leg = script.any_leg();
    let state = script.prng.pick(&[1, 1, 1, 2]);
    script.reading(leg, 1, state);
}

fn remove_all(script: &mut Script) {
    for leg in script.legs() {
        script.remove(leg);
    }
}

fn disconnect_all(script: &mut Script) {
    for leg in script.legs() {
        script.reading(leg, 1, 2);
        if script.prng.chance(1, 3) {
            script.poll();
        }
    }
    debug_assert!(script.leg_in(ConnectionState::Connected).is_none());
}

/// Poll until two polls in a row give nothing, so that what was held shows itself.
pub fn drain(script: &mut Script) {
    let mut silent = 0;
    for _ in 0..60 {
        let events = script.events_queued();
        let held = script.held().len();
        poll_at_the_edge(script);
        let moved = script.events_queued() != events || script.held().len() != held;
        silent = if moved { 0 } else { silent + 1 };
        if silent == 2 {
            return;
        }
    }
}
