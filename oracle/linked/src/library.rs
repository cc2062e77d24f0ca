//! The judge's calls, made of the library: the public calls, and the forms for a valid state.

use crate::memory::{Memory, Part, STATE};
use crate::raw;

/// One line of the judge's calls.
pub struct Call<'a> {
    pub name: &'a str,
    pub numbers: Vec<u64>,
    pub payload: Vec<u8>,
}

impl<'a> Call<'a> {
    pub fn read(line: &'a str) -> Self {
        let mut words = line.split(' ');
        let name = words.next().unwrap_or_default();
        let numbers: Vec<u64> = words.map(|word| word.parse().expect("a number")).collect();
        let payload = match (name, &numbers[..]) {
            ("data", &[.., length, seed]) => oracle::calls::payload(length, seed),
            ("send" | "send_shared", &[_, length, seed]) => oracle::calls::payload(length, seed),
            _ => Vec::new(),
        };
        Self {
            name,
            numbers,
            payload,
        }
    }

    /// What the call is lent.
    pub fn parts(&self) -> Vec<Part> {
        let more: &[Part] = match self.name {
            "new" => return vec![Part::Record],
            "add" | "readd" | "remove" => &[Part::Row],
            "data" => &[Part::Store],
            "poll_event" | "poll_data" | "poll_data_bounded" => {
                &[Part::Store, Part::Output, Part::Answer]
            }
            "send" | "send_shared" => &[Part::Store, Part::List, Part::Answer],
            "reading" | "event" | "broken" | "refresh" | "disconnect" => &[],
            _ => &[Part::Answer],
        };
        [&STATE, more].concat()
    }

    /// How many words of the answer's row it says.
    pub fn says(&self) -> usize {
        match self.name {
            "poll_event" | "poll_data" | "poll_data_bounded" => raw::POLL_ANSWER_WORDS,
            "send" | "send_shared" => raw::SEND_ANSWER_WORDS,
            "collision" => raw::MEMBER_ANSWER_WORDS,
            _ if self.parts().contains(&Part::Answer) => raw::LOOK_ANSWER_WORDS,
            _ => 0,
        }
    }
}

/// A call that is lent the record, the tables and more slices, each as pointer and length; then its numbers; then the answer's row.
macro_rules! call {
    ($m:ident, $function:ident($($slice:ident),*; $($number:expr),*; $($answer:ident)?)) => {
        call!(@ $m $function [] [record members pending waiting history sources $($slice)*] [$($number),*] [$($answer)?])
    };
    (@ $m:ident $function:ident [$($done:expr),*] [$slice:ident $($more:ident)*] $numbers:tt $answer:tt) => {
        call!(@ $m $function [$($done,)* $m.$slice.pointer(), $m.$slice.length()] [$($more)*] $numbers $answer)
    };
    (@ $m:ident $function:ident [$($done:expr),*] [] [$($number:expr),*] []) => {
        raw::$function($($done,)* $($number),*)
    };
    (@ $m:ident $function:ident [$($done:expr),*] [] [$($number:expr),*] [answer]) => {
        raw::$function($($done,)* $($number,)* $m.answer.pointer(), $m.answer.length())
    };
}

/// `new`, with the length of the store that every call is then to be lent, or 0.
pub fn new(m: &mut Memory, id: u64, mode: u64, length: usize) -> u32 {
    // SAFETY: here and below each slice is memory of its own, of at least the length that is given.
    unsafe { raw::srt_group_raw_new(m.record.pointer(), m.record.length(), id, mode, length) }
}

/// Fills the set of used cells, if neither 5 nor 6 is to be given.
pub fn begin(m: &mut Memory) -> u32 {
    let store = m.store.length();
    unsafe { call!(m, srt_group_valid_begin(; store, m.used.pointer(), m.used.length();)) }
}

/// The public call; none where the library has no such call.
pub fn public(m: &mut Memory, call: &Call<'_>) -> Option<u32> {
    let code = unsafe {
        match (call.name, &call.numbers[..]) {
            ("add" | "readd", &[id, weight, ..]) => {
                call!(m, srt_group_raw_add_member(row; id, weight;))
            }
            ("remove", &[id]) => call!(m, srt_group_raw_remove_member_connection(row; id;)),
            ("broken", &[id]) => call!(m, srt_group_raw_mark_member_broken(; id;)),
            ("refresh", &[]) => call!(m, srt_group_raw_refresh_member_states(;;)),
            ("disconnect", &[now]) => call!(m, srt_group_raw_disconnect(; now;)),
            ("reading", &[id, field, number]) => {
                call!(m, srt_group_raw_read_leg(; id, field, number;))
            }
            ("event", &[id, kind, reason]) => {
                call!(m, srt_group_raw_queue_event(; id, kind, reason;))
            }
            ("can_send", &[]) => call!(m, srt_group_raw_can_send(;; answer)),
            ("can_send_with_pacing", &[now]) => {
                call!(m, srt_group_raw_can_send_with_pacing(; now; answer))
            }
            _ => return public_bytes(m, call).or_else(|| look(m, call)),
        }
    };
    Some(code)
}

/// Those that are lent the store.
fn public_bytes(m: &mut Memory, call: &Call<'_>) -> Option<u32> {
    let (bytes, length) = (call.payload.as_ptr(), call.payload.len());
    let code = unsafe {
        match (call.name, &call.numbers[..]) {
            ("data", &[id, sequence, count, source, message, timestamp, _, _]) => {
                call!(m, srt_group_raw_queue_data(store;
                    id, sequence, count, message, timestamp, source, bytes, length;))
            }
            ("poll_event", &[now]) => {
                call!(m, srt_group_raw_poll_event(store, output; now; answer))
            }
            ("poll_data", &[now]) => call!(m, srt_group_raw_poll_data(store, output; now; answer)),
            ("poll_data_bounded", &[now, most]) => {
                call!(m, srt_group_raw_poll_data_bounded(store, output; now, most as usize; answer))
            }
            ("send", &[now, _, _]) => {
                call!(m, srt_group_raw_send(store, list; now, bytes, length; answer))
            }
            ("send_shared", &[now, _, _]) => {
                call!(m, srt_group_raw_send_shared(store, list; now, bytes, length; answer))
            }
            _ => return None,
        }
    };
    Some(code)
}

/// The calls that only look, by the judge's names, and further ones.
pub fn look(m: &mut Memory, call: &Call<'_>) -> Option<u32> {
    let code = unsafe {
        match (call.name, &call.numbers[..]) {
            ("time_until_send", &[now]) => call!(m, srt_group_raw_time_until_send(; now; answer)),
            ("stability", &[id]) => {
                call!(m, srt_group_raw_backup_stability_timeout_micros(; id; answer))
            }
            ("collision" | "member", &[id]) => call!(m, srt_group_raw_member(; id; answer)),
            ("pending", &[]) => call!(m, srt_group_raw_has_pending_data(;; answer)),
            ("continuation", &[]) => call!(m, srt_group_raw_has_receive_continuation(;; answer)),
            ("group_id", &[]) => call!(m, srt_group_raw_group_id(;; answer)),
            ("mode", &[]) => call!(m, srt_group_raw_mode(;; answer)),
            ("peer_group_id", &[]) => call!(m, srt_group_raw_peer_group_id(;; answer)),
            ("skipped", &[]) => call!(m, srt_group_raw_skipped_receive_packets(;; answer)),
            ("members", &[]) => call!(m, srt_group_raw_members(shown;; answer)),
            _ => return None,
        }
    };
    Some(code)
}

/// The form for a valid state; none where the call has none. The memory must be as the forms left it since `begin` gave 0.
pub fn valid(m: &mut Memory, call: &Call<'_>) -> Option<u32> {
    let code = unsafe {
        match (call.name, &call.numbers[..]) {
            ("add" | "readd", &[id, weight, ..]) => {
                call!(m, srt_group_valid_add_member(store, row, used; id, weight;))
            }
            ("remove", &[id]) => {
                call!(m, srt_group_valid_remove_member_connection(store, row, used; id;))
            }
            ("broken", &[id]) => call!(m, srt_group_valid_mark_member_broken(store, used; id;)),
            ("refresh", &[]) => call!(m, srt_group_valid_refresh_member_states(store, used;;)),
            ("disconnect", &[now]) => call!(m, srt_group_valid_disconnect(store, used; now;)),
            ("reading", &[id, field, number]) => {
                call!(m, srt_group_valid_read_leg(store, used; id, field, number;))
            }
            ("event", &[id, kind, reason]) => {
                call!(m, srt_group_valid_queue_event(store, used; id, kind, reason;))
            }
            ("can_send", &[]) => call!(m, srt_group_valid_can_send(store, used;; answer)),
            ("can_send_with_pacing", &[now]) => {
                call!(m, srt_group_valid_can_send_with_pacing(store, used; now; answer))
            }
            _ => return valid_bytes(m, call),
        }
    };
    Some(code)
}

/// Those that read or write the store.
fn valid_bytes(m: &mut Memory, call: &Call<'_>) -> Option<u32> {
    let (bytes, length) = (call.payload.as_ptr(), call.payload.len());
    let code = unsafe {
        match (call.name, &call.numbers[..]) {
            ("data", &[id, sequence, count, source, message, timestamp, _, _]) => {
                call!(m, srt_group_valid_queue_data(store, used;
                    id, sequence, count, message, timestamp, source, bytes, length;))
            }
            ("poll_event", &[now]) => {
                call!(m, srt_group_valid_poll_event(store, output, used; now; answer))
            }
            ("poll_data", &[now]) => {
                let most = raw::MAX_EVENTS;
                call!(m, srt_group_valid_poll_data_bounded(store, output, used; now, most; answer))
            }
            ("poll_data_bounded", &[now, most]) => {
                let most = most as usize;
                call!(m, srt_group_valid_poll_data_bounded(store, output, used; now, most; answer))
            }
            ("send" | "send_shared", &[now, _, _]) => {
                call!(m, srt_group_valid_send(store, list, used; now, bytes, length; answer))
            }
            _ => return None,
        }
    };
    Some(code)
}

/// `remove_member`, which drops the leg.
pub fn remove_member(m: &mut Memory, id: u64) -> u32 {
    unsafe { call!(m, srt_group_raw_remove_member(; id;)) }
}

/// The same for a valid state.
pub fn remove_member_valid(m: &mut Memory, id: u64) -> u32 {
    unsafe { call!(m, srt_group_valid_remove_member(store, used; id;)) }
}
