//! What a listing reaches: codes by verb, and the events that are rare enough to be counted by name.

use std::collections::{BTreeMap, BTreeSet};
use std::io::{self, Write};

use bytes::NO_CELL;
use srt_protocol::srt_connection::{ConnectionEvent, ConnectionState};
use srt_protocol::{GroupMemberState, GroupMode, SrtGroup, Timestamp};

use crate::codes;
use crate::gateway::Gateway;
use crate::listing;

/// The codes that each verb can answer with in the listing. README.md says why the others cannot occur.
const REACHABLE: [(u64, &[u64]); 10] = [
    (0, &[2]),
    (1, &[0, 1, 2]),
    (2, &[0, 2, 6, 20, 21]),
    (3, &[0, 2, 3, 6, 32]),
    (4, &[0, 2, 3, 6, 30, 31]),
    (5, &[0, 6]),
    (6, &[0, 2, 6, 22, 23, 24, 25, 26, 27, 28, 29, 30]),
    (7, &[0, 2, 3, 6]),
    (8, &[0, 2, 3, 6]),
    (9, &[0, 2, 3, 6, 31]),
];

#[derive(Default)]
pub struct Cover {
    pub lines: u64,
    pub codes: BTreeMap<(u64, u64), u64>,
    pub events: BTreeMap<&'static str, u64>,
}

/// The state before a line, as far as the counted events need it.
#[derive(Default)]
pub struct Before {
    base: Option<u32>,
    skipped: u64,
    held: BTreeSet<u32>,
    queued: BTreeSet<u32>,
    /// Source times of held and queued packets, by leg and sequence.
    source_times: BTreeMap<(u32, u32), u64>,
    events_queued: usize,
    labels: BTreeMap<u32, GroupMemberState>,
    collisions: usize,
    gap: bool,
    history: usize,
    carrier: Option<u32>,
}

impl Cover {
    pub fn before(&self, gateway: &Gateway) -> Before {
        gateway.group().map(look).unwrap_or_default()
    }

    pub fn after(&mut self, before: Before, line: &[u8], answer: &[u64], gateway: &Gateway) {
        self.lines += 1;
        *self.codes.entry((answer[0], answer[1])).or_default() += 1;
        let (Some(group), Some(numbers)) = (gateway.group(), listing::parse_line(line)) else {
            return;
        };
        if answer[0] == 5 && answer[1] == 0 {
            self.after_poll(&before, numbers[1], answer, group);
        }
        if answer[0] == 6 {
            self.after_send(&before, answer, gateway, group);
        }
        if answer[0] == 7 && answer[1] == 0 {
            self.after_removal(&before, numbers[1], group);
        }
        if answer[0] >= 2 {
            self.after_labels(&before, answer[0], group);
        }
    }

    fn count(&mut self, event: &'static str, times: usize) {
        *self.events.entry(event).or_default() += times as u64;
    }

    fn count_if(&mut self, event: &'static str, happened: bool) {
        self.count(event, usize::from(happened));
    }

    fn after_poll(&mut self, before: &Before, now: u64, answer: &[u64], group: &SrtGroup) {
        let after = look(group);
        let delivered = answer[4] > 0;
        self.count_if("delivered", delivered);
        self.count_if("delivered, count above 1", answer[4] > 1);
        self.count_if("poll without packet", !delivered);
        self.count_if("continuation left", group.has_receive_continuation());
        self.count_if(
            "no packet though events are queued",
            !delivered && after.events_queued > 0,
        );
        if delivered {
            self.after_delivery(before, now, answer, group);
        }
        let collected = before.events_queued - after.events_queued;
        self.count_if("more than 32 events collected in one poll", collected > 32);
        self.count_if("group events left waiting", !group.waiting().is_empty());
    }

    fn after_delivery(&mut self, before: &Before, now: u64, answer: &[u64], group: &SrtGroup) {
        let (leg, sequence, count) = (answer[2] as u32, answer[3] as u32, answer[4] as u32);
        let end = sequence.wrapping_add(count) & 0x7FFF_FFFF;
        self.count_if("delivery moves the base over the wrap", end < sequence);
        let is_gone = |key: &u32| {
            let place = key.wrapping_sub(sequence) & 0x7FFF_FFFF;
            place > 0 && place < count && !group.pending().contains_key(key)
        };
        let vanished = before.held.union(&before.queued).filter(|key| is_gone(key));
        let vanished = vanished.count();
        self.count("held packet vanished inside a run", vanished);
        self.count_if(
            "vanished inside a run over the wrap",
            vanished > 0 && end < sequence,
        );
        self.count_if(
            "first packet sets the base",
            before.base.is_none() && before.skipped == 0,
        );
        self.count_if(
            "delivered from a leg that is gone",
            group.member(leg).is_none(),
        );
        if group.skipped_receive_packets() > before.skipped {
            let source = before.source_times.get(&(leg, sequence)).copied();
            self.after_skip(before, now, sequence, (leg, source), group);
        }
    }

    fn after_skip(
        &mut self,
        before: &Before,
        now: u64,
        sequence: u32,
        (leg, source): (u32, Option<u64>),
        group: &SrtGroup,
    ) {
        let all_gone = all_disconnected(group);
        let legless = group.members().is_empty();
        let wrapped = before.base.is_some_and(|base| sequence < base);
        self.count("skip", 1);
        self.count_if("skip over the wrap", wrapped);
        self.count_if("skip with no legs", legless);
        self.count_if("skip with all legs disconnected", all_gone && !legless);
        let asks_first = !all_gone && group.member(leg).is_none();
        self.count_if("skip by the first leg's latency", asks_first);
        let at = source.and_then(|source| gives_up_at(group, leg, source));
        let edge = !all_gone && at == Some(now);
        self.count_if("skip at the very moment of giving up", edge);
        let refused = !all_gone && source.is_some() && at.is_none_or(|at| now < at);
        self.count_if("skip that a repeated give-up test would refuse", refused);
        let lowest = group.pending().keys().next();
        let not_lowest = lowest.is_some_and(|&lowest| lowest < sequence);
        self.count_if("skip to a packet that is not the lowest held", not_lowest);
    }

    fn after_send(&mut self, before: &Before, answer: &[u64], gateway: &Gateway, group: &SrtGroup) {
        let sends = gateway.sends();
        let replayed = sends.iter().filter(|send| send.cell != NO_CELL).count();
        self.count_if("take-over with replay", replayed > 0 && answer[1] == 0);
        self.count("sends replayed", replayed);
        self.count_if("gap flag set", group.backup_history_gap() && !before.gap);
        self.count_if(
            "28 by the gap flag",
            group.backup_history_gap() && answer[1] == 28,
        );
        self.count_if(
            "send number over the wrap",
            answer[1] == 0 && group.next_send_sequence() == Some(0),
        );
        self.count_if(
            "history trimmed",
            group.backup_history().len() < before.history + usize::from(answer[1] == 0),
        );
        self.count_if(
            "carrier changed",
            before.carrier.is_some() && before.carrier != group.backup_carrier(),
        );
        self.count_if(
            "29 on a first send",
            answer[1] == 29 && before.carrier.is_none(),
        );
        self.count_if(
            "Broadcast send on some of the active legs",
            group.mode() == GroupMode::Broadcast
                && answer[1] == 0
                && labelled(group, GroupMemberState::Active) < before_active(before),
        );
    }

    fn after_removal(&mut self, before: &Before, leg: u64, group: &SrtGroup) {
        let retired = before.held.len() - group.pending().len();
        self.count("held packet retired", retired);
        let wrapped = group.next_receive_sequence().is_some_and(|base| {
            before
                .held
                .iter()
                .any(|key| !group.pending().contains_key(key) && *key < base)
        });
        self.count_if("retired beyond the wrap", wrapped);
        self.count_if("held packets become the group's", !group.owned().is_empty());
        self.count_if("removal of the carrier", before.carrier == Some(leg as u32));
    }

    fn after_labels(&mut self, before: &Before, verb: u64, group: &SrtGroup) {
        use GroupMemberState::{Active, Pending, Standby, Unstable};
        let turned = |from, to| {
            let members = group.members().iter();
            let turned = members.filter(|member| {
                member.state() == to && before.labels.get(&member.id()) == Some(&from)
            });
            turned.count()
        };
        let promoted = turned(Standby, Active);
        let unstable = turned(Active, Unstable);
        let backup = group.mode() == GroupMode::Backup;
        self.count("promotion", promoted);
        let beside = backup && active_connected(group) > 1;
        self.count_if("promotion beside another Active", promoted > 0 && beside);
        self.count_if("Active turned Unstable", unstable > 0);
        let silent = backup && verb == 6 && unstable > 0 && unstable_with_room(group);
        self.count_if("carrier turned Unstable by silence", silent);
        self.count_if("Unstable turned Active", turned(Unstable, Active) > 0);
        self.count_if("Unstable turned Standby", turned(Unstable, Standby) > 0);
        self.count_if("Pending turned Active", turned(Pending, Active) > 0);
        let collided = group.collisions().len().saturating_sub(before.collisions);
        self.count("collision", collided);
        if verb == 2 && group.members().len() > before.labels.len() {
            self.after_addition(group);
        }
    }

    fn after_addition(&mut self, group: &SrtGroup) {
        let added = group.members().last().map(|member| member.id());
        let mut held = group.pending().values();
        let returns = held.any(|packet| Some(packet.member_id) == added);
        self.count_if("id returns while a packet of it is held", returns);
        let carrier = added == group.backup_carrier();
        self.count_if("the carrier's id returns", carrier);
    }

    pub fn add(&mut self, other: &Cover) {
        self.lines += other.lines;
        for (key, count) in &other.codes {
            *self.codes.entry(*key).or_default() += count;
        }
        for (key, count) in &other.events {
            *self.events.entry(key).or_default() += count;
        }
    }

    /// Reachable codes and counted events that never happened, and codes that should not have.
    pub fn surprises(&self) -> Vec<String> {
        let reached = |verb, code| self.codes.contains_key(&(verb, code));
        let mut surprises = Vec::new();
        for (verb, codes) in REACHABLE {
            let missing = codes.iter().filter(|code| !reached(verb, **code));
            surprises.extend(missing.map(|code| format!("verb {verb} never answers {code}")));
        }
        for (verb, code) in self.codes.keys() {
            let known = REACHABLE[*verb as usize].1.contains(code);
            if !known {
                surprises.push(format!("verb {verb} answers {code}"));
            }
        }
        let never = self.events.iter().filter(|(_, count)| **count == 0);
        surprises.extend(never.map(|(event, _)| format!("never: {event}")));
        surprises
    }

    /// The table: codes down, verbs across; then the events.
    pub fn write(&self, out: &mut dyn Write) -> io::Result<()> {
        writeln!(out, "{} lines", self.lines)?;
        write!(out, "{:>4}", "code")?;
        for verb in 0..=9 {
            write!(out, "{:>9}", format!("verb {verb}"))?;
        }
        writeln!(out)?;
        for (code, meaning) in codes::ALL {
            write!(out, "{code:>4}")?;
            for verb in 0..=9 {
                let count = self.codes.get(&(verb, u64::from(code)));
                write!(out, "{:>9}", count.copied().unwrap_or(0))?;
            }
            writeln!(out, "  {meaning}")?;
        }
        for (event, count) in &self.events {
            writeln!(out, "{count:>9}  {event}")?;
        }
        Ok(())
    }
}

fn look(group: &SrtGroup) -> Before {
    let mut before = Before {
        base: group.next_receive_sequence(),
        skipped: group.skipped_receive_packets(),
        held: group.pending().keys().copied().collect(),
        collisions: group.collisions().len(),
        gap: group.backup_history_gap(),
        history: group.backup_history().len(),
        carrier: group.backup_carrier(),
        ..Before::default()
    };
    for (sequence, packet) in group.pending() {
        let time = packet.source_time.as_micros();
        before
            .source_times
            .insert((packet.member_id, *sequence), time);
    }
    for member in group.members() {
        before.labels.insert(member.id(), member.state());
        before.events_queued += member.connection().queue().len();
        for event in member.connection().queue() {
            look_at_queued(&mut before, member.id(), event);
        }
    }
    before
}

fn look_at_queued(before: &mut Before, leg: u32, event: &ConnectionEvent) {
    if let ConnectionEvent::DataReceived {
        sequence_number,
        source_time,
        ..
    } = event
    {
        before.queued.insert(*sequence_number);
        before
            .source_times
            .entry((leg, *sequence_number))
            .or_insert(source_time.as_micros());
    }
}

fn all_disconnected(group: &SrtGroup) -> bool {
    let mut legs = group.members().iter().map(|member| member.connection());
    legs.all(|leg| leg.state() == ConnectionState::Disconnected)
}

/// When a packet of this leg gives up, in document 01's sense.
fn gives_up_at(group: &SrtGroup, leg: u32, source: u64) -> Option<u64> {
    let member = group.member(leg).or_else(|| group.members().first())?;
    let at = member.connection().gives_up_at(Timestamp(source))?;
    Some(at.as_micros())
}

fn labelled(group: &SrtGroup, label: GroupMemberState) -> usize {
    let members = group.members().iter();
    members.filter(|member| member.state() == label).count()
}

/// An Unstable leg whose window is not full was not made so by a failed send.
fn unstable_with_room(group: &SrtGroup) -> bool {
    let mut members = group.members().iter();
    members.any(|member| {
        member.state() == GroupMemberState::Unstable && member.connection().can_send()
    })
}

fn before_active(before: &Before) -> usize {
    let labels = before.labels.values();
    labels
        .filter(|label| **label == GroupMemberState::Active)
        .count()
}

fn active_connected(group: &SrtGroup) -> usize {
    let members = group.members().iter();
    members
        .filter(|member| {
            member.state() == GroupMemberState::Active
                && member.connection().state() == ConnectionState::Connected
        })
        .count()
}
