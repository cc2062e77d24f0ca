//! Calls from a seed, for the second driver.

use srt_protocol::GroupMemberState;

use crate::calls::Calls;
use crate::fields::NONE;
use crate::generate::prng::Prng;
use crate::generate::script::{GROUP_BIT, SEQUENCES};

/// Payload lengths: none, few bytes, seven TS packets, the longest, one too many.
const LENGTHS: [u64; 8] = [0, 1, 2, 188, 1_316, 1_455, 1_456, 1_457];

struct CallScript {
    prng: Prng,
    calls: Calls,
    now: u64,
    lines: Vec<String>,
}

/// The calls of one seed.
pub fn listing(seed: u64) -> Vec<String> {
    let mut script = CallScript {
        prng: Prng::new(seed),
        calls: Calls::new(),
        now: 0,
        lines: Vec::new(),
    };
    match seed % 16 {
        7 => script.long_history(seed / 16),
        3 | 11 => script.many_events(),
        4 => script.late_data(),
        6 => script.choice_of_standby(),
        9 => script.edges(),
        5 | 13 => script.parts_sent(),
        _ => script.anything(),
    }
    script.lines
}

impl CallScript {
    fn call(&mut self, name: &str, numbers: &[u64]) -> String {
        let words: Vec<String> = numbers.iter().map(u64::to_string).collect();
        let line = match words.is_empty() {
            true => name.to_string(),
            false => format!("{name} {}", words.join(" ")),
        };
        let answer = self.calls.step(&line).expect("a call of this form");
        self.lines.push(line);
        answer
    }

    fn legs(&self) -> Vec<u64> {
        let group = self.calls.gateway.group();
        let members = group.map_or(&[][..], |group| group.members());
        members
            .iter()
            .map(|member| u64::from(member.id()))
            .collect()
    }

    fn any_leg(&mut self) -> u64 {
        let legs = self.legs();
        match legs.is_empty() || self.prng.chance(1, 30) {
            true => 900,
            false => self.prng.pick(&legs),
        }
    }

    fn start(&mut self, cells: &[u64], mode: u64) {
        let cells = self.prng.pick(cells);
        self.call("store", &[cells]);
        self.call("new", &[GROUP_BIT + 5, mode]);
        self.now = 1_000;
    }

    fn add(&mut self, leg: u64, window: u64) {
        let state = self.prng.pick(&[1, 1, 1, 1, 0, 2]);
        let flight = match state {
            0 => 0,
            _ => self.prng.pick(&[0, 0, 0, 1, 3]),
        };
        let weight = self.prng.below(3);
        let next = self.prng.pick(&[50, 50, 51, 0, SEQUENCES - 1]);
        let first = self.prng.pick(&[100, 100, NONE, SEQUENCES - 2]);
        let latency = self.prng.pick(&[0, 50, 500]);
        self.call(
            "add",
            &[leg, weight, state, next, first, window, latency, flight],
        );
        if self.prng.chance(1, 4) {
            let peer = self.prng.pick(&[7, 7, 8]);
            self.call("reading", &[leg, 10, peer]);
        }
    }

    fn anything(&mut self) {
        if self.prng.chance(1, 8) {
            for name in ["can_send", "pending", "refresh", "continuation"] {
                self.call(name, &[]);
            }
        }
        let mode = self.prng.below(2);
        self.start(&[1, 2, 5, 40, 40, 40, 200], mode);
        for leg in 1..=self.prng.range(1, 5) {
            let window = self.prng.pick(&[0, 1, 2, 4, 30]);
            self.add(leg, window);
        }
        for _ in 0..150 {
            self.now += self.prng.pick(&[0, 0, 1, 10, 100, 30_000]);
            match self.prng.below(10) {
                0..=2 => self.receive(),
                3..=5 => self.send_side(),
                6 => self.reading(),
                7 => self.ask(),
                8 => self.ask(),
                _ => self.member(),
            }
        }
    }

    fn receive(&mut self) {
        let leg = self.any_leg();
        match self.prng.below(8) {
            0..=3 => self.arrive(leg),
            4 => {
                let kind = self.prng.range(1, 3);
                self.call("event", &[leg, kind, 4]);
            }
            5 => {
                self.call("poll_event", &[self.now]);
            }
            6 => {
                let now = self.prng.pick(&[self.now, self.now, self.now, u64::MAX]);
                self.call("poll_data", &[now]);
            }
            _ => {
                let most = self.prng.pick(&[0, 1, 2, 3, 63, 64, 65, 1_000]);
                self.call("poll_data_bounded", &[self.now, most]);
            }
        }
    }

    /// A packet near the base, with a payload of any length.
    fn arrive(&mut self, leg: u64) {
        let group = self.calls.gateway.group();
        let base = group.and_then(|group| group.next_receive_sequence());
        let base = u64::from(base.unwrap_or(100));
        let ahead = self.prng.pick(&[0, 0, 1, 2, 3, SEQUENCES - 1]);
        let count = self.prng.pick(&[1, 1, 1, 2, 4]);
        let source = match self.prng.chance(1, 20) {
            true => u64::MAX - self.prng.below(2),
            false => self.now.saturating_sub(self.prng.below(200)),
        };
        let message = self.prng.below(1 << 32);
        let length = self.prng.pick(&LENGTHS);
        let seed = self.prng.below(256);
        let sequence = (base + ahead) % SEQUENCES;
        let numbers = [leg, sequence, count, source, message, 77, length, seed];
        self.call("data", &numbers);
    }

    fn send_side(&mut self) {
        let name = self.prng.pick(&["send", "send", "send_shared"]);
        let length = self.prng.pick(&LENGTHS);
        let seed = self.prng.below(256);
        match self.prng.below(4) {
            0 => self.acknowledge(),
            _ => {
                self.call(name, &[self.now, length, seed]);
            }
        }
    }

    fn acknowledge(&mut self) {
        let leg = self.any_leg();
        let group = self.calls.gateway.group();
        let Some(member) = group.and_then(|group| group.member(leg as u32)) else {
            return;
        };
        let sender = member.connection().readings();
        let oldest = u64::from(sender.oldest_unacked_sequence());
        let flight = u64::from(sender.flight);
        let up_to = oldest + self.prng.pick(&[flight, flight, flight / 2, flight + 1]);
        self.call("reading", &[leg, 5, up_to % SEQUENCES]);
    }

    fn reading(&mut self) {
        let leg = self.any_leg();
        let field = self.prng.range(1, 12);
        let number = match field {
            1 => self.prng.range(1, 2) % self.prng.pick(&[2, 2, 3]),
            2 => self.prng.pick(&[0, 1, 2, 5, 40]),
            3 => self.prng.below(6),
            5 => return self.acknowledge(),
            6 | 7 => self.prng.pick(&[0, 10_000, 20_000, 5_001, 4_294_967_295]),
            8 | 12 => self.now.saturating_sub(self.prng.pick(&[0, 100, 60_000])),
            9 => self.now + self.prng.pick(&[0, 1, 500]),
            10 => self.prng.pick(&[0, 7, 8]),
            11 => self.prng.pick(&[0, 1, 188, 1_316, 1_456]),
            _ => self.prng.pick(&[0, 50, 500, u64::MAX]),
        };
        self.call("reading", &[leg, field, number]);
    }

    fn ask(&mut self) {
        let leg = self.any_leg();
        match self.prng.below(9) {
            0 | 1 => self.call("can_send", &[]),
            2 | 3 => self.call("can_send_with_pacing", &[self.now]),
            4 => self.call("time_until_send", &[self.now]),
            5 => self.call("refresh", &[]),
            6 => self.call("stability", &[leg]),
            7 => self.call("collision", &[leg]),
            _ => {
                let name = self.prng.pick(&["pending", "continuation"]);
                self.call(name, &[])
            }
        };
    }

    fn member(&mut self) {
        let leg = self.any_leg();
        match self.prng.below(9) {
            0 => {
                self.call("broken", &[leg]);
            }
            1..=3 => {
                self.call("remove", &[leg]);
            }
            4..=5 => self.readd(),
            6 if self.prng.chance(1, 4) => {
                self.call("disconnect", &[self.now]);
            }
            _ => {
                let new = self.prng.range(1, 7);
                self.add(new, 6);
            }
        }
    }

    /// Hand back a leg that a removal gave, with its flight.
    fn readd(&mut self) {
        let kept: Vec<u32> = self.calls.in_hand.keys().copied().collect();
        if !kept.is_empty() {
            let leg = self.prng.pick(&kept);
            let weight = self.prng.below(3);
            self.call("readd", &[u64::from(leg), weight]);
        }
    }

    /// More sends than the backup history holds, then a take-over with the gap that leaves.
    fn long_history(&mut self, round: u64) {
        self.start(&[600, 2_048], 1);
        self.call("add", &[1, 1, 1, SEQUENCES - 100, 100, 65_535, 500, 0]);
        self.call("add", &[2, 1, 1, 7, 100, 65_535, 500, 0]);
        let sends = 511 + round % 3;
        let length = self.prng.pick(&[0, 1, 1_456]);
        for seed in 0..sends {
            self.call("send", &[self.now, length, seed % 256]);
        }
        if round % 4 == 3 {
            let acknowledged = (SEQUENCES - 100 + self.prng.range(0, sends)) % SEQUENCES;
            self.call("reading", &[1, 5, acknowledged]);
        }
        self.call("can_send", &[]);
        self.call("reading", &[1, 1, 2]);
        self.call("can_send", &[]);
        self.call("send", &[self.now, 3, 1]);
        self.call("can_send_with_pacing", &[self.now]);
    }

    /// So many events that one skip cannot collect them all.
    fn many_events(&mut self) {
        self.start(&[40], 0);
        for leg in 1..=7 {
            self.call("add", &[leg, 0, 1, 50, 100, 9, 50, 0]);
        }
        self.call("data", &[1, 105, 1, 0, 0, 0, 1, 1]);
        self.call("poll_event", &[0]);
        for round in 0..16 {
            for leg in 1..=7 {
                let data = (round == 0 && leg < 3) || self.prng.chance(2, 7);
                let late = self.prng.pick(&[99, 98, 105, 105]);
                match data {
                    true => self.call("data", &[leg, late, 1, 0, 0, 0, 1, 1]),
                    false => self.call("event", &[leg, 1, 0]),
                };
            }
        }
        self.now = self.prng.pick(&[49, 50, 50, 50]);
        for _ in 0..self.prng.range(2, 90) {
            self.call("poll_event", &[self.now]);
            self.call("continuation", &[]);
        }
        for most in [1, 3, 64, 64, 64] {
            self.call("poll_data_bounded", &[self.now, most]);
        }
    }

    /// More late packets than one visit may take, with nothing held.
    fn late_data(&mut self) {
        self.start(&[40], 1);
        for leg in 1..=4 {
            self.call("add", &[leg, 0, 1, 50, 100, 9, 50, 0]);
        }
        for number in 0..self.prng.range(30, 39) {
            let leg = 1 + number % 4;
            self.call("data", &[leg, 99, 1, 0, 0, 0, 1, 1]);
        }
        self.call("data", &[1, 100, 1, 0, 0, 0, 1, 1]);
        for _ in 0..3 {
            let poll = self.prng.pick(&["poll_event", "poll_data"]);
            self.call(poll, &[0]);
            self.call("pending", &[]);
            self.call("continuation", &[]);
            self.call("poll_data_bounded", &[0, 0]);
        }
    }

    /// Numbers at and beyond their ranges, a full queue, more legs than a group takes.
    fn edges(&mut self) {
        let mode = self.prng.below(2);
        self.start(&[40], mode);
        for over in [0, 1] {
            let (bits_16, bits_32) = (65_535 + over, (1 << 32) - 1 + over);
            let sequence = SEQUENCES - 1 + over;
            self.call("new", &[bits_32, mode]);
            self.call(
                "add",
                &[bits_32, bits_16, 1, sequence, 100, bits_16, u64::MAX, 0],
            );
            self.call("add", &[1, 0, 1, 50, sequence, 9, 0, bits_16]);
            self.call("add", &[2 + over, 0, 0, 50, NONE - over, 9, 0, over]);
            self.call("add", &[4 + over, 0, 1 + over, 50, 100, 9, 0, 0]);
            self.call("data", &[4, sequence, bits_16, u64::MAX, bits_32, 0, 1, 1]);
            self.call("data", &[4, 5, 1 - over, 0, 0, bits_32, 1_456 + over, 1]);
            for field in 0..14 {
                let most = self
                    .prng
                    .pick(&[2, 65_535, SEQUENCES - 1, (1 << 32) - 1, u64::MAX - 1]);
                self.call("reading", &[4, field, most + over]);
            }
            self.call("event", &[4, 3 + over, bits_32]);
            self.call("stability", &[bits_32]);
            self.call("collision", &[bits_32]);
        }
        for _ in 0..17 {
            self.call("event", &[4, 1, 0]);
        }
        self.call("data", &[4, 5, 1, 0, 0, 0, 1, 1]);
        for leg in 10..75 {
            self.call("add", &[leg, 0, 1, 50, 100, 9, 0, 0]);
        }
        self.call("send", &[self.now, 1_456, 1]);
    }

    /// The Active leg is full; the readiness tests look at the Standby that a send would promote.
    fn choice_of_standby(&mut self) {
        for _ in 0..6 {
            self.start(&[40], 1);
            self.call("add", &[3, 0, 1, 50, 100, 2, 500, 0]);
            for leg in [7, 4, 5] {
                let weight = self.prng.pick(&[1, 1, 2]);
                let window = self.prng.pick(&[0, 2, 3, 9]);
                self.call("add", &[leg, weight, 1, 50, 100, window, 500, 0]);
                let pace = self.now + self.prng.pick(&[0, 0, 1]);
                self.call("reading", &[leg, 9, pace]);
            }
            for _ in 0..self.prng.range(1, 3) {
                self.call("can_send_with_pacing", &[self.now]);
                self.call("can_send", &[]);
                self.call("time_until_send", &[self.now]);
                self.call("send", &[self.now, 1, 1]);
            }
        }
    }

    /// A take-over onto a leg whose limit lets only some of the history through.
    fn parts_sent(&mut self) {
        self.start(&[40], 1);
        for leg in 1..=4 {
            let window = self.prng.pick(&[3, 4, 9, 30]);
            self.call("add", &[leg, leg % 2, 1, 50, 100, window, 500, 0]);
        }
        for _ in 0..6 {
            for _ in 0..self.prng.range(1, 4) {
                self.send_side();
            }
            for leg in 2..=4 {
                let limit = self.prng.pick(&[1, 2, 188, 1_400, 1_456]);
                self.call("reading", &[leg, 11, limit]);
            }
            self.lose_active();
            self.call("can_send", &[]);
            self.send_side();
            self.send_side();
            self.acknowledge();
        }
    }

    fn lose_active(&mut self) {
        let group = self.calls.gateway.group();
        let members = group.map_or(&[][..], |group| group.members());
        let active = members
            .iter()
            .find(|member| member.state() == GroupMemberState::Active)
            .map(|member| u64::from(member.id()));
        let Some(leg) = active else {
            return self.readd();
        };
        match self.prng.below(4) {
            0 => self.call("reading", &[leg, 1, 2]),
            1 => self.call("reading", &[leg, 2, 0]),
            2 => self.call("remove", &[leg]),
            _ => {
                self.now += 70_000;
                self.call("can_send_with_pacing", &[self.now])
            }
        };
    }
}
