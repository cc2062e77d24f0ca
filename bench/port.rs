//! A group of the port as a host holds it, for the measuring programs: the record, and what its calls are lent. It is made, its legs are added
//! and packets are queued by the public calls that the library exports.
#[path = "../rust/srt-group/src/raw.rs"]
pub mod raw;

pub const GROUP: u32 = 0x4000_0001;
pub const LATENCY: u64 = 1_000_000_000;
/// Far ahead of the base, so that what is polled for stays held.
pub const HELD_FROM: u64 = 100_000_000;
pub const NOW: u64 = 5;

pub struct Port {
    pub record: [u64; raw::RECORD_WORDS],
    pub members: Vec<u64>,
    pub pending: Vec<u64>,
    pub waiting: Vec<u64>,
    pub history: Vec<u64>,
    pub sources: Vec<u64>,
    pub store: Vec<u8>,
    pub output: Vec<u8>,
    pub list: Vec<u64>,
}

impl Port {
    /// A group with so many legs, connected. The mode is 0 for Broadcast, 1 for Backup.
    pub fn new(mode: u64, legs: u64) -> Self {
        let mut port = Self {
            record: [0; raw::RECORD_WORDS],
            members: vec![0; raw::MEMBERS_WORDS],
            pending: vec![0; raw::PENDING_WORDS],
            waiting: vec![0; raw::WAITING_WORDS],
            history: vec![0; raw::HISTORY_WORDS],
            sources: vec![0; raw::HISTORY_WORDS],
            store: vec![0; raw::MAX_CELLS * raw::CELL],
            output: vec![0; raw::OUTPUT],
            list: vec![0; raw::SENT_WORDS],
        };
        let length = port.store.len();
        // SAFETY: here and below each slice is memory of its own, of the length that is given.
        let code = unsafe { raw::srt_group_raw_new(port.record.as_mut_ptr(), port.record.len(), GROUP.into(), mode, length) };
        assert_eq!(code, 0);
        (1..=legs).for_each(|id| assert_eq!(port.add(&row(), id), 0));
        port
    }

    pub fn add(&mut self, row: &[u64], id: u64) -> u32 {
        unsafe {
            raw::srt_group_raw_add_member(
                self.record.as_mut_ptr(), self.record.len(), self.members.as_mut_ptr(), self.members.len(), self.pending.as_ptr(),
                self.pending.len(), self.waiting.as_ptr(), self.waiting.len(), self.history.as_ptr(), self.history.len(),
                self.sources.as_ptr(), self.sources.len(), row.as_ptr(), row.len(), id, 0,
            )
        }
    }

    /// A packet of this sequence, its source time the same number.
    pub fn queue(&mut self, id: u64, sequence: u64, payload: &[u8]) -> u32 {
        unsafe {
            raw::srt_group_raw_queue_data(
                self.record.as_ptr(), self.record.len(), self.members.as_mut_ptr(), self.members.len(), self.pending.as_ptr(),
                self.pending.len(), self.waiting.as_ptr(), self.waiting.len(), self.history.as_ptr(), self.history.len(),
                self.sources.as_ptr(), self.sources.len(), self.store.as_mut_ptr(), self.store.len(), id, sequence, 1, 0, 0, sequence,
                payload.as_ptr(), payload.len(),
            )
        }
    }

    /// A number into a field of a leg.
    pub fn read_leg(&mut self, id: u64, field: u64, number: u64) -> u32 {
        unsafe {
            raw::srt_group_raw_read_leg(
                self.record.as_ptr(), self.record.len(), self.members.as_mut_ptr(), self.members.len(), self.pending.as_ptr(),
                self.pending.len(), self.waiting.as_ptr(), self.waiting.len(), self.history.as_ptr(), self.history.len(),
                self.sources.as_ptr(), self.sources.len(), id, field, number,
            )
        }
    }
}

/// A connected leg, as it is handed to an addition.
pub fn row() -> [u64; raw::ROW_WORDS] {
    let mut row = [0; raw::ROW_WORDS];
    row[raw::ROW_LINK_STATE] = 1;
    row[raw::ROW_LINK_LIMIT] = raw::CELL as u64;
    row[raw::ROW_SENDER_WINDOW] = 8_192;
    row[raw::ROW_RECEIVER_WINDOW] = 8_192;
    row[raw::ROW_RECEIVER_LATENCY] = LATENCY;
    row
}
