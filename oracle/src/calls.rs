//! The second driver: calls in a plain text form, also those that the replay listing has no verb for.
//!
//! One call a line, words and decimal numbers between single spaces; README.md lists them. Each call prints
//! its name, its code and its answer.

use std::collections::BTreeMap;
use std::io::{self, BufRead, Write};

use srt_protocol::srt_connection::SrtConnection;
use srt_protocol::{GroupPacket, Timestamp};

use crate::codes::{self, Code};
use crate::gateway::{Data, Gateway, Leg};
use crate::trace;

/// Cells of the store before a `store` call says otherwise.
const CELLS: usize = 40;
const MAX_CELLS: u64 = 2_048;

pub struct Calls {
    pub gateway: Gateway,
    /// Legs that removals gave back, by id.
    pub in_hand: BTreeMap<u32, SrtConnection>,
}

/// What a call answers: words behind the code.
type Answer = Result<String, Code>;

impl Calls {
    pub fn new() -> Self {
        Self {
            gateway: Gateway::new(CELLS),
            in_hand: BTreeMap::new(),
        }
    }

    /// Make the call of one line; none where the line is no call of this form.
    pub fn step(&mut self, line: &str) -> Option<String> {
        let mut words = line.split(' ');
        let name = words.next()?;
        let numbers: Option<Vec<u64>> = words.map(|word| word.parse().ok()).collect();
        let answer = self.call(name, &numbers?)?;
        Some(match answer {
            Ok(words) if words.is_empty() => format!("{name} 0"),
            Ok(words) => format!("{name} 0 {words}"),
            Err(code) => format!("{name} {code}"),
        })
    }

    fn call(&mut self, name: &str, numbers: &[u64]) -> Option<Answer> {
        match name {
            "store" | "new" | "add" | "readd" | "remove" | "broken" | "collision" => {
                self.change_members(name, numbers)
            }
            "reading" | "data" | "event" => self.change_leg(name, numbers),
            "poll_event" | "poll_data" | "poll_data_bounded" => self.poll(name, numbers),
            _ => self.send_side(name, numbers),
        }
    }

    /// Groups and their members.
    fn change_members(&mut self, name: &str, numbers: &[u64]) -> Option<Answer> {
        Some(match (name, numbers) {
            ("store", &[cells]) if (1..=MAX_CELLS).contains(&cells) => {
                self.gateway = Gateway::new(cells as usize);
                self.in_hand.clear();
                Ok(String::new())
            }
            ("new", &[id, mode]) => self.gateway.new_group(id, mode).map(done),
            ("add", numbers) => self.gateway.add(leg(numbers)?).map(done),
            ("readd", &[leg, weight]) => self.readd(leg, weight)?.map(done),
            ("remove", &[leg]) => self.remove(leg),
            ("broken", &[leg]) => self.gateway.mark_broken(leg).map(done),
            ("collision", &[leg]) => self.collision(leg),
            _ => return None,
        })
    }

    /// One leg's readings and its queue.
    fn change_leg(&mut self, name: &str, numbers: &[u64]) -> Option<Answer> {
        Some(match (name, numbers) {
            ("reading", &[leg, field, number]) => {
                self.gateway.reading(leg, field, number).map(done)
            }
            ("event", &[leg, kind, reason]) => self.gateway.event(leg, kind, reason).map(done),
            ("data", &[a, b, c, d, e, f, length, seed]) => {
                let data = Data {
                    leg: a,
                    sequence: b,
                    count: c,
                    source_time: d,
                    message_number: e,
                    timestamp: f,
                    payload: &payload(length, seed),
                };
                self.gateway.data(data).map(done)
            }
            _ => return None,
        })
    }

    /// None where no removal gave that leg back. A leg that 20 or 21 refuses stays in hand.
    fn readd(&mut self, leg: u64, weight: u64) -> Option<Result<(), Code>> {
        let weight = u16::try_from(weight).ok()?;
        let leg = u32::try_from(leg).ok()?;
        let connection = self.in_hand.get(&leg)?.clone();
        let answer = self.gateway.add_connection(weight, connection);
        if !matches!(answer, Err(20 | 21)) {
            self.in_hand.remove(&leg);
        }
        Some(answer)
    }

    fn remove(&mut self, leg: u64) -> Answer {
        let connection = self.gateway.remove(leg)?;
        let facts = trace::leg_facts(&connection);
        self.in_hand.insert(connection.leg, connection);
        Ok(facts)
    }

    fn collision(&mut self, leg: u64) -> Answer {
        let group = self.gateway.start_call()?;
        let leg = u32::try_from(leg).map_err(|_| codes::OUT_OF_RANGE)?;
        group.member(leg).ok_or(codes::UNKNOWN_LEG)?;
        Ok(match self.gateway.collision(leg) {
            None => "none".to_string(),
            Some(collision) => format!(
                "expected={} actual={}",
                collision.expected_peer_group_id, collision.actual_peer_group_id
            ),
        })
    }

    fn poll(&mut self, name: &str, numbers: &[u64]) -> Option<Answer> {
        Some(match (name, numbers) {
            ("poll_event", &[now]) => self.gateway.poll_event(now).map(|event| {
                event.map_or_else(|| "none".to_string(), |event| trace::event_facts(&event))
            }),
            ("poll_data", &[now]) => self.gateway.poll_data(now).map(packet_or_none),
            ("poll_data_bounded", &[now, max_events]) => self
                .gateway
                .poll_data_bounded(now, max_events)
                .map(|(packet, more)| {
                    format!("continuation={} {}", u8::from(more), packet_or_none(packet))
                }),
            _ => return None,
        })
    }

    /// Sends, readiness and what else a host asks.
    fn send_side(&mut self, name: &str, numbers: &[u64]) -> Option<Answer> {
        let sent = |legs: usize| legs.to_string();
        Some(match (name, numbers) {
            ("send", &[now, length, seed]) => {
                self.gateway.send(&payload(length, seed), now).map(sent)
            }
            ("send_shared", &[now, length, seed]) => self
                .gateway
                .send_shared(&payload(length, seed), now)
                .map(sent),
            ("can_send", &[]) => self.ask(|group| u8::from(group.can_send()).to_string()),
            ("can_send_with_pacing", &[now]) => {
                self.ask(|group| u8::from(group.can_send_with_pacing(Timestamp(now))).to_string())
            }
            ("time_until_send", &[now]) => {
                self.ask(|group| group.time_until_send(Timestamp(now)).to_string())
            }
            ("refresh", &[]) => self.ask(|group| {
                group.refresh_member_states();
                String::new()
            }),
            ("disconnect", &[now]) => self.ask(|group| {
                group.disconnect(Timestamp(now));
                String::new()
            }),
            ("stability", &[leg]) => self.stability(leg),
            ("pending", &[]) => self.ask(|group| u8::from(group.has_pending_data()).to_string()),
            ("continuation", &[]) => {
                self.ask(|group| u8::from(group.has_receive_continuation()).to_string())
            }
            _ => return None,
        })
    }

    fn ask(&mut self, question: impl FnOnce(&mut srt_protocol::SrtGroup) -> String) -> Answer {
        self.gateway.start_call().map(question)
    }

    fn stability(&mut self, leg: u64) -> Answer {
        let group = self.gateway.start_call()?;
        let leg = u32::try_from(leg).map_err(|_| codes::OUT_OF_RANGE)?;
        group.member(leg).ok_or(codes::UNKNOWN_LEG)?;
        let timeout = group.backup_stability_timeout_micros(leg);
        Ok(timeout.map_or_else(|| "none".to_string(), |timeout| timeout.to_string()))
    }
}

fn done(_: ()) -> String {
    String::new()
}

fn leg(numbers: &[u64]) -> Option<Leg> {
    let &[
        leg,
        weight,
        state,
        next_send,
        first,
        window,
        latency,
        flight,
    ] = numbers
    else {
        return None;
    };
    Some(Leg {
        leg,
        weight,
        state,
        next_send,
        peer_initial_sequence: first,
        window,
        latency,
        flight,
    })
}

/// A payload is told by its length and a seed: byte i is seed + 7i modulo 256.
pub fn payload(length: u64, seed: u64) -> Vec<u8> {
    // Longer than any limit is refused by its length alone.
    let length = length.min(100_000);
    (0..length)
        .map(|index| (seed.wrapping_add(7 * index) % 256) as u8)
        .collect()
}

fn packet_or_none(packet: Option<GroupPacket>) -> String {
    packet.map_or_else(
        || "none".to_string(),
        |packet| {
            let facts = trace::packet_facts(&packet);
            format!("data sequence={} {facts}", packet.sequence_number)
        },
    )
}

/// Read calls to the end of the input. A line that is no call ends the run with an error.
pub fn run(input: &mut dyn BufRead, output: &mut dyn Write, tracing: bool) -> io::Result<()> {
    let mut calls = Calls::new();
    for line in input.lines() {
        let line = line?;
        let answer = calls
            .step(&line)
            .ok_or_else(|| io::Error::other(format!("no call: {line}")))?;
        writeln!(output, "{answer}")?;
        if tracing {
            trace::write(&calls.gateway, output)?;
            trace::write_bytes(&calls.gateway, output)?;
        }
    }
    output.flush()
}
