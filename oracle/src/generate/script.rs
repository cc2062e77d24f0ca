//! A listing in the making. Every line is also run, so that the next one can be chosen by the state it finds.

use srt_protocol::srt_connection::{ConnectionState, MAX_QUEUED_EVENTS, SrtConnection};
use srt_protocol::{GroupMemberState, SrtGroup, SrtGroupMember};

use crate::cover::Cover;
use crate::fields::NONE;
use crate::gateway::Gateway;
use crate::generate::prng::Prng;
use crate::listing;
use crate::replay;

pub const SEQUENCES: u64 = 1 << 31;
pub const HALF: u64 = 1 << 30;
pub const GROUP_BIT: u64 = 1 << 30;

pub struct Script {
    pub prng: Prng,
    pub gateway: Gateway,
    pub now: u64,
    pub lines: Vec<Vec<u8>>,
    pub cover: Cover,
}

/// A leg to be added, with the values that most profiles want.
#[derive(Debug, Clone, Copy)]
pub struct NewLeg {
    pub leg: u64,
    pub weight: u64,
    pub state: u64,
    pub next_send: u64,
    pub first: u64,
    pub window: u64,
    pub latency: u64,
}

impl NewLeg {
    pub fn connected(leg: u64) -> Self {
        Self {
            leg,
            weight: 0,
            state: 1,
            next_send: 50,
            first: NONE,
            window: 100,
            latency: 500,
        }
    }
}

impl Script {
    pub fn new(seed: u64) -> Self {
        Self {
            prng: Prng::new(seed),
            gateway: Gateway::new(replay::CELLS),
            now: 0,
            lines: Vec::new(),
            cover: Cover::default(),
        }
    }

    /// Write one line of bytes, run it, and take note of what happened.
    pub fn raw(&mut self, line: Vec<u8>) {
        let before = self.cover.before(&self.gateway);
        let answer = replay::step(&mut self.gateway, &line);
        self.cover.after(before, &line, &answer, &self.gateway);
        self.lines.push(line);
    }

    /// Write one line of numbers; missing columns are 0.
    pub fn line(&mut self, numbers: &[u64]) {
        let mut columns = [0; listing::INPUT_COLUMNS];
        columns[..numbers.len()].copy_from_slice(numbers);
        self.raw(listing::format_line(&columns).into_bytes());
    }

    pub fn new_group(&mut self, mode: u64) {
        let id = GROUP_BIT | self.prng.below(1 << 32);
        self.line(&[1, id, mode]);
        self.now = self.prng.pick(&[0, 1_000, 1_000_000]);
    }

    pub fn add(&mut self, leg: NewLeg) {
        self.line(&[
            2,
            leg.leg,
            leg.weight,
            leg.state,
            leg.next_send,
            leg.first,
            leg.window,
            leg.latency,
        ]);
    }

    pub fn reading(&mut self, leg: u64, field: u64, number: u64) {
        self.line(&[3, leg, field, number]);
    }

    pub fn data(&mut self, leg: u64, sequence: u64, count: u64, source_time: u64) {
        let byte = self.prng.below(256);
        self.line(&[4, leg, sequence % SEQUENCES, count, source_time, byte]);
    }

    pub fn poll(&mut self) {
        self.line(&[5, self.now]);
    }

    pub fn send(&mut self) {
        let byte = self.prng.below(256);
        self.line(&[6, byte, self.now]);
    }

    pub fn remove(&mut self, leg: u64) {
        self.line(&[7, leg]);
    }

    pub fn mark_broken(&mut self, leg: u64) {
        self.line(&[8, leg]);
    }

    pub fn event(&mut self, leg: u64, kind: u64) {
        let reason = self.prng.below(10);
        self.line(&[9, leg, kind, reason]);
    }
}

/// What the next line is chosen by.
impl Script {
    pub fn group(&self) -> Option<&SrtGroup> {
        self.gateway.group()
    }

    pub fn members(&self) -> &[SrtGroupMember] {
        self.group().map_or(&[], |group| group.members())
    }

    pub fn legs(&self) -> Vec<u64> {
        let ids = self.members().iter().map(|member| u64::from(member.id()));
        ids.collect()
    }

    pub fn connection(&self, leg: u64) -> Option<&SrtConnection> {
        let member = self.group()?.member(leg as u32)?;
        Some(member.connection())
    }

    /// One of the legs; 0 where there is none.
    pub fn any_leg(&mut self) -> u64 {
        let legs = self.legs();
        if legs.is_empty() {
            return 0;
        }
        self.prng.pick(&legs)
    }

    /// A leg in this state, if there is one.
    pub fn leg_in(&mut self, state: ConnectionState) -> Option<u64> {
        self.leg_where(|member| member.connection().state() == state)
    }

    /// A leg whose member has this label, if there is one.
    pub fn leg_labelled(&mut self, label: GroupMemberState) -> Option<u64> {
        self.leg_where(|member| member.state() == label)
    }

    fn leg_where(&mut self, wanted: impl Fn(&SrtGroupMember) -> bool) -> Option<u64> {
        let found = self.members().iter().filter(|member| wanted(member));
        let found: Vec<u64> = found.map(|member| u64::from(member.id())).collect();
        (!found.is_empty()).then(|| self.prng.pick(&found))
    }

    pub fn base(&self) -> Option<u64> {
        self.group()?.next_receive_sequence().map(u64::from)
    }

    pub fn held(&self) -> Vec<u64> {
        let held = self.group().map(|group| group.pending().keys());
        held.into_iter()
            .flatten()
            .map(|&key| u64::from(key))
            .collect()
    }

    pub fn free_cells(&self) -> usize {
        let used = self.gateway.used_cells();
        used.iter().filter(|used| !**used).count()
    }

    pub fn queue_room(&self, leg: u64) -> usize {
        self.connection(leg)
            .map_or(0, |connection| MAX_QUEUED_EVENTS - connection.queue().len())
    }

    pub fn events_queued(&self) -> usize {
        let queues = self.members().iter().map(|member| member.connection());
        queues.map(|connection| connection.queue().len()).sum()
    }

    /// The moment at which the nearest held packet gives up, if it does.
    pub fn gives_up_at(&self) -> Option<u64> {
        let group = self.group()?;
        let packet = group.pending().get(&group.nearest()?)?;
        let member = group
            .member(packet.member_id)
            .or_else(|| group.members().first())?;
        let at = member.connection().gives_up_at(packet.source_time)?;
        Some(at.as_micros())
    }
}
