//! A group's memory, and the calls of the library over it: the one module with `unsafe`.
//!
//! # Why it is sound
//!
//! The library has each call twice. A public call (`srt_group_raw_…`) asks for sound slices and for nothing else: it tests what it is lent. A
//! form for a valid state (`srt_group_valid_…`) trusts its caller: its contract requires `ReadyWords`
//! (`crates/srt_group_words/specs/Words.antt`) of the record, the tables, the store's length and the set of used cells, and the form tests
//! nothing of it. Here it always holds:
//!
//! - **It holds at the start.** A [`State`] comes from [`State::new`] alone, which asks `srt_group_valid_begin`; that one's 0 gives `ReadyWords`
//!   (`BeginsValid`, field `ready`).
//! - **Each form keeps it**, whatever code it ends with: `PerformsWords`, field `ready`, says it of all that the form leaves.
//! - **Nobody else writes.** The fields are private to this module, no function gives out a `&mut` into them, and a function that takes
//!   `&mut self` does one thing: it lends the fields, all of them together, to one form. A clone copies all of them together, and what holds of
//!   words holds of their copies.
//! - **Lengths are in the types**, those of an output, a row, an answer and a list too, which other `requires` speak of: nothing too short
//!   can be passed. The store is boxed, and keeps the length of which `srt_group_valid_begin` was told.
//! - **The slices are sound.** Each is a field, an argument or a local of its own: it is alive and aligned, its elements are written, its
//!   pointer is not null, and what is lent to be written overlaps nothing else. The library keeps no pointer beyond a call and has no memory of
//!   its own (`tools/library-test` looks into the archive).
//! - **Nothing unwinds.** Rattle has no panic: what would be one in Rust, as an overflow or an index out of range, the proof excludes. And the
//!   library calls nothing of the host's.
//!
//! Each block below says what it rests on beside that.

// It declares every call of the archive; this module makes those for a valid state.
#[allow(dead_code)]
#[path = "raw.rs"]
#[rustfmt::skip]
mod raw;

use crate::Sent;
use crate::error::outcome;

pub use raw::{CELL, Error, HEAD, MAX_CELLS, MAX_MEMBERS, OUTPUT};
pub(crate) use raw::{FIELD_ACKNOWLEDGE, FIELD_HEARD, FIELD_LATENCY, FIELD_LIMIT, FIELD_OLDEST, FIELD_PACE};
pub(crate) use raw::{FIELD_PEER, FIELD_RECEIVE_WINDOW, FIELD_RTTVAR, FIELD_SRTT, FIELD_STATE, FIELD_WINDOW};
pub(crate) use raw::{HISTORY_WORDS, MAX_EVENTS, MAX_SENT, NO_SEQUENCE, OWN_PAYLOAD, RECORD_WORDS, ROW_WORDS, SENT_ROW_WORDS};
pub(crate) use raw::{LABEL_ACTIVE, LABEL_BROKEN, LABEL_PENDING, LABEL_STANDBY, LABEL_UNSTABLE};
pub(crate) use raw::{ROW_LINK_LIMIT, ROW_LINK_PEER, ROW_LINK_STATE, ROW_TRIP_HEARD, ROW_TRIP_RTTVAR, ROW_TRIP_SRTT};
pub(crate) use raw::{ROW_RECEIVER_ADVANCED, ROW_RECEIVER_FIRST, ROW_RECEIVER_LATENCY, ROW_RECEIVER_WINDOW};
pub(crate) use raw::{ROW_SENDER_FLIGHT, ROW_SENDER_NEXT, ROW_SENDER_OLDEST, ROW_SENDER_PACE, ROW_SENDER_STARTED, ROW_SENDER_WINDOW};

/// A member's row, in which a leg is handed over and given back.
pub(crate) type Row = [u64; ROW_WORDS];
/// What a poll answers.
pub(crate) type Polled = [u64; raw::POLL_ANSWER_WORDS];
/// A member as it is shown.
pub(crate) type MemberShown = [u64; raw::MEMBER_ANSWER_WORDS];
/// The rows of a list of sends.
pub(crate) type SendList = [Sent; MAX_SENT];

// A row of the list is five words, so that the list is lent as so many words.
const _: () = assert!(size_of::<SendList>() == raw::SENT_WORDS * size_of::<u64>());

/// A call of the library. It takes a slice as its pointer and its length: `&a` is lent to be read, `&mut a` to be written; any other argument
/// goes as it is.
macro_rules! call {
    ($name:ident($($argument:tt)*)) => { call!(@ $name [] $($argument)* ,) };
    (@ $name:ident [$($passed:expr,)*] $(,)?) => { raw::$name($($passed),*) };
    (@ $name:ident [$($passed:expr,)*] &mut $slice:expr, $($more:tt)*) => {
        call!(@ $name [$($passed,)* $slice.as_mut_ptr(), $slice.len(),] $($more)*)
    };
    (@ $name:ident [$($passed:expr,)*] &$slice:expr, $($more:tt)*) => {
        call!(@ $name [$($passed,)* $slice.as_ptr(), $slice.len(),] $($more)*)
    };
    (@ $name:ident [$($passed:expr,)*] $number:expr, $($more:tt)*) => { call!(@ $name [$($passed,)* $number,] $($more)*) };
}

/// The record, the tables (docs/TABLES.md) and the store of a group, and the set of used cells: always such that the forms for a valid state
/// may be called.
#[derive(Clone)]
#[cfg_attr(test, derive(PartialEq))]
pub(crate) struct State {
    record: [u64; RECORD_WORDS],
    members: Box<[u64; raw::MEMBERS_WORDS]>,
    pending: Box<[u64; raw::PENDING_WORDS]>,
    waiting: Box<[u64; raw::WAITING_WORDS]>,
    history: Box<[u64; HISTORY_WORDS]>,
    sources: Box<[u64; HISTORY_WORDS]>,
    store: Box<[u8]>,
    used: [u64; raw::USED_WORDS],
}

/// A table of zeros, made where it stays.
pub(crate) fn boxed<T: Clone + Default + std::fmt::Debug, const N: usize>() -> Box<[T; N]> {
    vec![T::default(); N].into_boxed_slice().try_into().expect("a box of N")
}

impl State {
    /// `new`, over tables of zeros and a store of so many cells. 5 if that has none.
    pub(crate) fn new(id: u64, mode: u64, cells: usize) -> Result<Self, Error> {
        let mut state = Self {
            record: [0; RECORD_WORDS],
            members: boxed(),
            pending: boxed(),
            waiting: boxed(),
            history: boxed(),
            sources: boxed(),
            store: vec![0; cells * CELL].into_boxed_slice(),
            used: [0; raw::USED_WORDS],
        };
        // SAFETY: a public call, and it is lent a sound slice.
        let made = unsafe { call!(srt_group_raw_new(&mut state.record, id, mode, state.store.len())) };
        outcome(made)?;
        // SAFETY: it requires nothing but sound slices: it is this call that makes a state ready.
        let begun = unsafe {
            call!(srt_group_valid_begin(
                &state.record,
                &state.members,
                &state.pending,
                &state.waiting,
                &state.history,
                &state.sources,
                state.store.len(),
                &mut state.used
            ))
        };
        outcome(begun)?;
        Ok(state)
    }

    // ---- what is only read

    /// The words of the record.
    pub(crate) fn record(&self) -> &[u64; RECORD_WORDS] {
        &self.record
    }

    /// The words of the history.
    pub(crate) fn history(&self) -> &[u64; HISTORY_WORDS] {
        &self.history
    }

    /// The bytes of the store.
    pub(crate) fn store(&self) -> &[u8] {
        &self.store
    }
}

/// The forms for a valid state, and of the looks, which have none, the public calls. Those that cannot be refused here give no outcome.
#[rustfmt::skip]
impl State {
    pub(crate) fn add_member(&mut self, row: &Row, id: u64, weight: u64) -> Result<(), Error> {
        // SAFETY: the state is ready, and the row has a row's length.
        let code = unsafe {
            call!(srt_group_valid_add_member(
                &mut self.record, &mut self.members, &self.pending, &self.waiting, &self.history, &self.sources,
                &self.store, &row, &self.used, id, weight
            ))
        };
        outcome(code)
    }

    pub(crate) fn remove_member(&mut self, id: u64) -> Result<(), Error> {
        // SAFETY: the state is ready.
        let code = unsafe {
            call!(srt_group_valid_remove_member(
                &mut self.record, &mut self.members, &mut self.pending, &self.waiting, &self.history, &self.sources,
                &self.store, &mut self.used, id
            ))
        };
        outcome(code)
    }

    pub(crate) fn remove_member_connection(&mut self, row: &mut Row, id: u64) -> Result<(), Error> {
        // SAFETY: the state is ready, and the row has a row's length.
        let code = unsafe {
            call!(srt_group_valid_remove_member_connection(
                &mut self.record, &mut self.members, &mut self.pending, &self.waiting, &self.history, &self.sources,
                &self.store, &mut row, &mut self.used, id
            ))
        };
        outcome(code)
    }

    pub(crate) fn mark_member_broken(&mut self, id: u64) -> Result<(), Error> {
        // SAFETY: the state is ready.
        let code = unsafe {
            call!(srt_group_valid_mark_member_broken(
                &self.record, &mut self.members, &self.pending, &self.waiting, &self.history, &self.sources,
                &self.store, &self.used, id
            ))
        };
        outcome(code)
    }

    pub(crate) fn refresh_member_states(&mut self) {
        // SAFETY: the state is ready.
        let code = unsafe {
            call!(srt_group_valid_refresh_member_states(
                &mut self.record, &mut self.members, &self.pending, &self.waiting, &self.history, &self.sources,
                &self.store, &self.used
            ))
        };
        debug_assert_eq!(code, 0);
    }

    pub(crate) fn disconnect(&mut self, time: u64) {
        // SAFETY: the state is ready.
        let code = unsafe {
            call!(srt_group_valid_disconnect(
                &self.record, &mut self.members, &self.pending, &self.waiting, &self.history, &self.sources,
                &self.store, &self.used, time
            ))
        };
        debug_assert_eq!(code, 0);
    }

    // ---- the stand-in leg's

    #[allow(clippy::too_many_arguments)]
    pub(crate) fn queue_data(
        &mut self, id: u64, sequence: u64, count: u64, message: u64, timestamp: u64, source: u64, payload: &[u8],
    ) -> Result<(), Error> {
        // SAFETY: the state is ready. A payload of any length may be lent.
        let code = unsafe {
            call!(srt_group_valid_queue_data(
                &self.record, &mut self.members, &self.pending, &self.waiting, &self.history, &self.sources,
                &mut self.store, &mut self.used, id, sequence, count, message, timestamp, source, &payload
            ))
        };
        outcome(code)
    }

    pub(crate) fn queue_event(&mut self, id: u64, kind: u64, reason: u64) -> Result<(), Error> {
        // SAFETY: the state is ready.
        let code = unsafe {
            call!(srt_group_valid_queue_event(
                &self.record, &mut self.members, &self.pending, &self.waiting, &self.history, &self.sources,
                &self.store, &self.used, id, kind, reason
            ))
        };
        outcome(code)
    }

    pub(crate) fn read_leg(&mut self, id: u64, field: u64, number: u64) -> Result<(), Error> {
        // SAFETY: the state is ready.
        let code = unsafe {
            call!(srt_group_valid_read_leg(
                &self.record, &mut self.members, &self.pending, &self.waiting, &self.history, &self.sources,
                &self.store, &self.used, id, field, number
            ))
        };
        outcome(code)
    }

    // ---- receiving

    pub(crate) fn poll_event(&mut self, output: &mut [u8; OUTPUT], time: u64) -> Polled {
        let mut answer = Polled::default();
        // SAFETY: the state is ready, and output and answer have their lengths.
        let code = unsafe {
            call!(srt_group_valid_poll_event(
                &mut self.record, &mut self.members, &mut self.pending, &mut self.waiting, &self.history, &self.sources,
                &self.store, &mut output, &mut self.used, time, &mut answer
            ))
        };
        debug_assert_eq!(code, 0);
        answer
    }

    pub(crate) fn poll_data_bounded(&mut self, output: &mut [u8; OUTPUT], time: u64, max_events: usize) -> Polled {
        let mut answer = Polled::default();
        // SAFETY: the state is ready, and output and answer have their lengths.
        let code = unsafe {
            call!(srt_group_valid_poll_data_bounded(
                &mut self.record, &mut self.members, &mut self.pending, &mut self.waiting, &self.history, &self.sources,
                &self.store, &mut output, &mut self.used, time, max_events, &mut answer
            ))
        };
        debug_assert_eq!(code, 0);
        answer
    }

    // ---- sending

    /// The outcome, on how many legs the payload was sent, and how many rows of the list are filled.
    pub(crate) fn send(&mut self, list: &mut SendList, time: u64, payload: &[u8]) -> (Result<(), Error>, [u64; raw::SEND_ANSWER_WORDS]) {
        let mut answer = [0; raw::SEND_ANSWER_WORDS];
        let words = list.as_mut_ptr().cast::<u64>();
        // SAFETY: the state is ready, and list and answer have their lengths: a `Sent` is laid out as its five words are, and the assertion
        // above counts the list's. A payload of any length may be lent.
        let code = unsafe {
            call!(srt_group_valid_send(
                &mut self.record, &mut self.members, &self.pending, &self.waiting, &mut self.history, &mut self.sources,
                &mut self.store, words, raw::SENT_WORDS, &mut self.used, time, &payload, &mut answer
            ))
        };
        (outcome(code), answer)
    }

    pub(crate) fn can_send(&mut self) -> bool {
        let mut answer = [0; raw::READY_ANSWER_WORDS];
        // SAFETY: the state is ready, and the answer has its length.
        let code = unsafe {
            call!(srt_group_valid_can_send(
                &mut self.record, &mut self.members, &self.pending, &self.waiting, &self.history, &self.sources,
                &self.store, &mut self.used, &mut answer
            ))
        };
        debug_assert_eq!(code, 0);
        answer[0] != 0
    }

    pub(crate) fn can_send_with_pacing(&mut self, time: u64) -> bool {
        let mut answer = [0; raw::READY_ANSWER_WORDS];
        // SAFETY: the state is ready, and the answer has its length.
        let code = unsafe {
            call!(srt_group_valid_can_send_with_pacing(
                &mut self.record, &mut self.members, &self.pending, &self.waiting, &self.history, &self.sources,
                &self.store, &mut self.used, time, &mut answer
            ))
        };
        debug_assert_eq!(code, 0);
        answer[0] != 0
    }

    // ---- looks

    pub(crate) fn time_until_send(&self, time: u64) -> u64 {
        let mut answer = [0; raw::LOOK_ANSWER_WORDS];
        // SAFETY: a public call, and it is lent sound slices.
        let code = unsafe {
            call!(srt_group_raw_time_until_send(
                &self.record, &self.members, &self.pending, &self.waiting, &self.history, &self.sources, time, &mut answer
            ))
        };
        debug_assert_eq!(code, 0);
        answer[0]
    }

    /// The microseconds, or 0.
    pub(crate) fn backup_stability_timeout_micros(&self, id: u64) -> Result<u64, Error> {
        let mut answer = [0; raw::LOOK_ANSWER_WORDS];
        // SAFETY: a public call, and it is lent sound slices.
        let code = unsafe {
            call!(srt_group_raw_backup_stability_timeout_micros(
                &self.record, &self.members, &self.pending, &self.waiting, &self.history, &self.sources, id, &mut answer
            ))
        };
        outcome(code)?;
        Ok(answer[0])
    }

    pub(crate) fn member(&self, id: u64) -> Result<MemberShown, Error> {
        let mut answer = MemberShown::default();
        // SAFETY: a public call, and it is lent sound slices.
        let code = unsafe {
            call!(srt_group_raw_member(
                &self.record, &self.members, &self.pending, &self.waiting, &self.history, &self.sources, id, &mut answer
            ))
        };
        outcome(code)?;
        Ok(answer)
    }

    /// The members in the order of their addition, and how many there are.
    pub(crate) fn members(&self) -> ([MemberShown; MAX_MEMBERS], usize) {
        let mut list = [MemberShown::default(); MAX_MEMBERS];
        let words = list.as_flattened_mut();
        let mut answer = [0; raw::LOOK_ANSWER_WORDS];
        // SAFETY: a public call, and it is lent sound slices.
        let code = unsafe {
            call!(srt_group_raw_members(
                &self.record, &self.members, &self.pending, &self.waiting, &self.history, &self.sources, &mut words, &mut answer
            ))
        };
        debug_assert_eq!(code, 0);
        (list, answer[0] as usize)
    }
}

/// What the library says of the words as they are.
#[cfg(test)]
#[rustfmt::skip]
impl State {
    /// Whether 5 and 6 would not be given, and the set of used cells is the one that the library finds.
    pub(crate) fn is_ready(&self) -> bool {
        let mut used = [0; raw::USED_WORDS];
        // SAFETY: it requires sound slices alone.
        let code = unsafe {
            call!(srt_group_valid_begin(
                &self.record, &self.members, &self.pending, &self.waiting, &self.history, &self.sources, self.store.len(), &mut used
            ))
        };
        code == 0 && used == self.used
    }

    /// The public looks at the group: id, mode, peer group, skipped total, pending data, continuation.
    pub(crate) fn looks(&self) -> [u64; 6] {
        macro_rules! look {
            ($name:ident) => {{
                let mut answer = [0; raw::LOOK_ANSWER_WORDS];
                // SAFETY: a public call, and it is lent sound slices.
                let code = unsafe {
                    call!($name(&self.record, &self.members, &self.pending, &self.waiting, &self.history, &self.sources, &mut answer))
                };
                assert_eq!(code, 0);
                answer[0]
            }};
        }
        [
            look!(srt_group_raw_group_id), look!(srt_group_raw_mode), look!(srt_group_raw_peer_group_id),
            look!(srt_group_raw_skipped_receive_packets), look!(srt_group_raw_has_pending_data), look!(srt_group_raw_has_receive_continuation),
        ]
    }
}
