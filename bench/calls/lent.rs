//! The thin calls, which are lent their record by reference, as libsrt_group_lent.a exports them. They are public calls: each tests 5 and 6. The
//! loop over the steps is Rust's, since no Rattle code that makes a reference to a record is proved. What is no thin call, queueing and
//! acknowledging, is the library's public call, as the public column makes the public call within its own loop.
use crate::port::{Port, raw};
use crate::sends::{NOT_SENT, Sends};
use crate::{NO_PACKET, NOW, Polls};

/// The record, `#[repr(C)]`: its words in the order of docs/TABLES.md.
type Group = [u64; raw::RECORD_WORDS];

#[repr(C)]
struct Timestamp(u64);

#[allow(dead_code)]
#[repr(C)]
struct Data {
    sequence: u64,
    count: u64,
    message: u64,
    timestamp: u64,
    source: Timestamp,
    cell: u64,
    length: u64,
}

#[allow(dead_code)]
#[repr(C)]
struct Packet {
    member: u64,
    owned: u64,
    content: Data,
}

#[allow(dead_code)]
#[repr(C)]
struct DataWords {
    code: u64,
    given: u64,
    packet: Packet,
    continuation: u64,
}

#[allow(dead_code)]
#[repr(C)]
struct SendWords {
    code: u64,
    legs: u64,
    rows: usize,
}

unsafe extern "C" {
    fn srt_group_lent_poll_data(
        group: *mut Group, members: *mut u64, a: usize, pending: *mut u64, b: usize, waiting: *mut u64, c: usize, history: *const u64,
        d: usize, sources: *const u64, e: usize, store: *const u8, f: usize, output: *mut u8, g: usize, time: Timestamp,
    ) -> DataWords;
    fn srt_group_lent_add_member(
        group: *mut Group, members: *mut u64, a: usize, pending: *const u64, b: usize, waiting: *const u64, c: usize, history: *const u64,
        d: usize, sources: *const u64, e: usize, row: *const u64, f: usize, id: u64, weight: u64,
    ) -> u64;
    fn srt_group_lent_send(
        group: *mut Group, members: *mut u64, a: usize, pending: *const u64, b: usize, waiting: *const u64, c: usize, history: *mut u64,
        d: usize, sources: *mut u64, e: usize, store: *mut u8, f: usize, list: *mut u64, g: usize, time: Timestamp, payload: *const u8,
        h: usize,
    ) -> SendWords;
}

/// The port by its thin calls.
pub struct Lent(pub Port);

impl Lent {
    pub fn add(&mut self, row: &[u64], id: u64) -> u64 {
        let Port { record, members, pending, waiting, history, sources, .. } = &mut self.0;
        // SAFETY: here and below each slice is memory of its own, of the length that is given.
        unsafe {
            srt_group_lent_add_member(
                record, members.as_mut_ptr(), members.len(), pending.as_ptr(), pending.len(), waiting.as_ptr(), waiting.len(),
                history.as_ptr(), history.len(), sources.as_ptr(), sources.len(), row.as_ptr(), row.len(), id, 0,
            )
        }
    }
}

impl Polls for Lent {
    fn queue(&mut self, leg: u32, sequence: u32, payload: &[u8]) -> u64 {
        self.0.queue(leg.into(), sequence.into(), payload).into()
    }

    fn poll(&mut self) -> u64 {
        let Port { record, members, pending, waiting, history, sources, store, output, .. } = &mut self.0;
        let polled = unsafe {
            srt_group_lent_poll_data(
                record, members.as_mut_ptr(), members.len(), pending.as_mut_ptr(), pending.len(), waiting.as_mut_ptr(), waiting.len(),
                history.as_ptr(), history.len(), sources.as_ptr(), sources.len(), store.as_ptr(), store.len(), output.as_mut_ptr(),
                output.len(), Timestamp(NOW),
            )
        };
        assert_eq!(polled.code, 0);
        if polled.given == 0 { NO_PACKET } else { polled.packet.content.sequence }
    }
}

impl Sends for Lent {
    fn send(&mut self, now: u64, payload: &[u8]) -> u64 {
        let Port { record, members, pending, waiting, history, sources, store, list, .. } = &mut self.0;
        let sent = unsafe {
            srt_group_lent_send(
                record, members.as_mut_ptr(), members.len(), pending.as_ptr(), pending.len(), waiting.as_ptr(), waiting.len(),
                history.as_mut_ptr(), history.len(), sources.as_mut_ptr(), sources.len(), store.as_mut_ptr(), store.len(),
                list.as_mut_ptr(), list.len(), Timestamp(now), payload.as_ptr(), payload.len(),
            )
        };
        if sent.code == 0 { sent.legs } else { NOT_SENT }
    }

    fn acknowledge(&mut self, leg: u32, up_to: u32) -> u64 {
        self.0.read_leg(leg.into(), raw::FIELD_ACKNOWLEDGE, up_to.into()).into()
    }
}
