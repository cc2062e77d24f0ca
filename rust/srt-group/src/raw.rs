//! Made by tools/prototypes from the sources that are proved; not to be edited. The calls as the archive exports them (`raw` test 5 and 6 at every
//! call, `valid` trust their caller), the sizes of what they are lent, and the codes. A slice is its pointer and its length in elements.

#[cfg(not(all(target_arch = "x86_64", target_os = "linux", target_pointer_width = "64")))]
compile_error!("srt_group passes a slice as two arguments, as x86-64 Linux does; it is made for no other machine");

/// SRTGROUP_MASK: the bit that marks a group id, bit 30.
pub const MASK: u32 = 1073741824;

/// The bytes of a cell of the store: the longest payload.
pub const CELL: usize = 1456;

/// The most cells of a store that are used.
pub const MAX_CELLS: usize = 2048;

/// The bytes of the output before the payload: the host's RTP head.
pub const HEAD: usize = 12;

/// The least bytes of the output: the head and the longest payload.
pub const OUTPUT: usize = 1468;

/// The most members of a group.
pub const MAX_MEMBERS: usize = 64;

/// The most events, data or not, in a leg's queue.
pub const MAX_QUEUED: u64 = 16;

/// The most events that one poll passes.
pub const MAX_EVENTS: usize = 64;

/// The rows of the list of sends: more than one call can make.
pub const MAX_SENT: usize = 1100;

/// A peer's first sequence where there is none.
pub const NO_SEQUENCE: u64 = 4294967295;

/// The cell in a row of the list of sends, for the call's own payload.
pub const OWN_PAYLOAD: u64 = 4294967295;

/// The words of the record.
pub const RECORD_WORDS: usize = 20;

/// The words of a member's row, in which a leg is handed over too.
pub const ROW_WORDS: usize = 189;

/// The words of the table of members.
pub const MEMBERS_WORDS: usize = 12096;

/// The words of the table of held packets.
pub const PENDING_WORDS: usize = 18432;

/// The words of the table of waiting events.
pub const WAITING_WORDS: usize = 192;

/// The words of the history, and of its source times.
pub const HISTORY_WORDS: usize = 512;

/// The words of a row of the list of sends.
pub const SENT_ROW_WORDS: usize = 5;

/// The words of the list of sends.
pub const SENT_WORDS: usize = 5500;

/// The words of a member that is shown.
pub const MEMBER_ANSWER_WORDS: usize = 8;

/// The words of the list of members that are shown.
pub const MEMBER_LIST_WORDS: usize = 512;

/// The words of a poll's answer.
pub const POLL_ANSWER_WORDS: usize = 8;

/// The words of a send's answer.
pub const SEND_ANSWER_WORDS: usize = 2;

/// The words of a readiness test's answer.
pub const READY_ANSWER_WORDS: usize = 1;

/// The words of the answer of a look at a number or a flag.
pub const LOOK_ANSWER_WORDS: usize = 1;

/// A member's label: its leg is not connected yet.
pub const LABEL_PENDING: u64 = 0;

/// A member's label: it carries.
pub const LABEL_ACTIVE: u64 = 1;

/// A member's label: it waits to be promoted, in Backup.
pub const LABEL_STANDBY: u64 = 2;

/// A member's label: it was silent, or its window was full.
pub const LABEL_UNSTABLE: u64 = 3;

/// A member's label: it is out until its removal.
pub const LABEL_BROKEN: u64 = 4;

/// The words of the set of cells in use, a bit a cell.
pub const USED_WORDS: usize = 32;

/// The words of a member's row that hold its leg.
pub const ROW_LINK_STATE: usize = 9;
pub const ROW_LINK_PEER: usize = 10;
pub const ROW_LINK_LIMIT: usize = 11;
pub const ROW_TRIP_SRTT: usize = 12;
pub const ROW_TRIP_RTTVAR: usize = 13;
pub const ROW_TRIP_HEARD: usize = 14;
pub const ROW_SENDER_STARTED: usize = 18;
pub const ROW_SENDER_NEXT: usize = 19;
pub const ROW_SENDER_FLIGHT: usize = 20;
pub const ROW_SENDER_WINDOW: usize = 21;
pub const ROW_SENDER_OLDEST: usize = 22;
pub const ROW_SENDER_PACE: usize = 23;
pub const ROW_RECEIVER_FIRST: usize = 27;
pub const ROW_RECEIVER_WINDOW: usize = 28;
pub const ROW_RECEIVER_LATENCY: usize = 29;
pub const ROW_RECEIVER_RESERVED: usize = 30;
pub const ROW_RECEIVER_ADVANCED: usize = 31;

/// The fields of a reading.
pub const FIELD_STATE: u64 = 1;
pub const FIELD_WINDOW: u64 = 2;
pub const FIELD_RECEIVE_WINDOW: u64 = 3;
pub const FIELD_LATENCY: u64 = 4;
pub const FIELD_ACKNOWLEDGE: u64 = 5;
pub const FIELD_SRTT: u64 = 6;
pub const FIELD_RTTVAR: u64 = 7;
pub const FIELD_HEARD: u64 = 8;
pub const FIELD_PACE: u64 = 9;
pub const FIELD_PEER: u64 = 10;
pub const FIELD_LIMIT: u64 = 11;
pub const FIELD_OLDEST: u64 = 12;

const _: () = assert!(MEMBERS_WORDS == MAX_MEMBERS * ROW_WORDS);
const _: () = assert!(MEMBER_LIST_WORDS == MAX_MEMBERS * MEMBER_ANSWER_WORDS);
const _: () = assert!(SENT_WORDS == MAX_SENT * SENT_ROW_WORDS);
const _: () = assert!(OUTPUT == HEAD + CELL);
const _: () = assert!(USED_WORDS * 64 == MAX_CELLS);

/// Why a call was refused.
#[derive(Clone, Copy, Debug, PartialEq, Eq, Hash)]
#[repr(u32)]
pub enum Error {
    /// a group id without SRTGROUP_MASK
    MissingGroupMask = 1,
    /// a field beyond its range
    OutOfRange = 2,
    /// no member has that id
    UnknownMember = 3,
    /// a payload longer than a cell
    PayloadTooLong = 4,
    /// a lent slice is too short, or the store's length is not the one given at the start
    InsufficientBuffer = 5,
    /// the lent state breaks a rule
    InvalidState = 6,
    /// the group has as many members as it may have
    MemberLimit = 20,
    /// a member has that id already
    DuplicateMember = 21,
    /// the leg's send sequence could not be aligned with the group's
    AlignmentFailed = 22,
    /// the payload is above the first active leg's limit
    PayloadAboveLimit = 23,
    /// no member is active
    NoActiveMember = 24,
    /// the active legs are not at the group's send sequence
    SequenceMismatch = 25,
    /// every Broadcast member failed
    AllBroadcastFailed = 26,
    /// every Backup member failed
    AllBackupFailed = 27,
    /// the history cannot be replayed on the leg that takes over
    ReplayRefused = 28,
    /// the send after a promotion failed
    PromotionSendFailed = 29,
    /// every cell of the store is in use
    NoFreeCell = 30,
    /// the leg's event queue is full
    QueueFull = 31,
    /// a leg state that goes back, or an acknowledgement outside the flight
    OutOfTurn = 32,
}

impl Error {
    /// The refusal of a number, if it is one.
    pub const fn of(number: u32) -> Option<Self> {
        match number {
            1 => Some(Self::MissingGroupMask),
            2 => Some(Self::OutOfRange),
            3 => Some(Self::UnknownMember),
            4 => Some(Self::PayloadTooLong),
            5 => Some(Self::InsufficientBuffer),
            6 => Some(Self::InvalidState),
            20 => Some(Self::MemberLimit),
            21 => Some(Self::DuplicateMember),
            22 => Some(Self::AlignmentFailed),
            23 => Some(Self::PayloadAboveLimit),
            24 => Some(Self::NoActiveMember),
            25 => Some(Self::SequenceMismatch),
            26 => Some(Self::AllBroadcastFailed),
            27 => Some(Self::AllBackupFailed),
            28 => Some(Self::ReplayRefused),
            29 => Some(Self::PromotionSendFailed),
            30 => Some(Self::NoFreeCell),
            31 => Some(Self::QueueFull),
            32 => Some(Self::OutOfTurn),
            _ => None,
        }
    }

    /// What it means, in a few words.
    pub const fn text(self) -> &'static str {
        match self {
            Self::MissingGroupMask => "a group id without SRTGROUP_MASK",
            Self::OutOfRange => "a field beyond its range",
            Self::UnknownMember => "no member has that id",
            Self::PayloadTooLong => "a payload longer than a cell",
            Self::InsufficientBuffer => "a lent slice is too short, or the store's length is not the one given at the start",
            Self::InvalidState => "the lent state breaks a rule",
            Self::MemberLimit => "the group has as many members as it may have",
            Self::DuplicateMember => "a member has that id already",
            Self::AlignmentFailed => "the leg's send sequence could not be aligned with the group's",
            Self::PayloadAboveLimit => "the payload is above the first active leg's limit",
            Self::NoActiveMember => "no member is active",
            Self::SequenceMismatch => "the active legs are not at the group's send sequence",
            Self::AllBroadcastFailed => "every Broadcast member failed",
            Self::AllBackupFailed => "every Backup member failed",
            Self::ReplayRefused => "the history cannot be replayed on the leg that takes over",
            Self::PromotionSendFailed => "the send after a promotion failed",
            Self::NoFreeCell => "every cell of the store is in use",
            Self::QueueFull => "the leg's event queue is full",
            Self::OutOfTurn => "a leg state that goes back, or an acknowledgement outside the flight",
        }
    }
}

unsafe extern "C" {
    /// A fresh group over tables of which no row is in use: its id, its mode (0 Broadcast, 1 Backup), and the length of the store that
    /// every call is then to be lent, or 0.
    pub fn srt_group_raw_new(
        record: *mut u64,
        record_length: usize,
        id: u64,
        mode: u64,
        length: usize,
    ) -> u32;

    /// A host that is the only writer begins with this: 5 and 6 of a call that is lent a store of so many bytes, tested once. 0 fills
    /// `used`, 32 words, with the cells in use, and the forms for a valid state may be called.
    pub fn srt_group_valid_begin(
        record: *const u64,
        record_length: usize,
        members: *const u64,
        members_length: usize,
        pending: *const u64,
        pending_length: usize,
        waiting: *const u64,
        waiting_length: usize,
        history: *const u64,
        history_length: usize,
        sources: *const u64,
        sources_length: usize,
        store: usize,
        used: *mut u64,
        used_length: usize,
    ) -> u32;

    /// A leg is added, handed over in a row of the members' table, of which the membership part is not read. 22 leaves it added.
    pub fn srt_group_raw_add_member(
        record: *mut u64,
        record_length: usize,
        members: *mut u64,
        members_length: usize,
        pending: *const u64,
        pending_length: usize,
        waiting: *const u64,
        waiting_length: usize,
        history: *const u64,
        history_length: usize,
        sources: *const u64,
        sources_length: usize,
        row: *const u64,
        row_length: usize,
        id: u64,
        weight: u64,
    ) -> u32;

    /// The same for a valid state, of which `used` shows the cells in use. The store is lent for its length.
    pub fn srt_group_valid_add_member(
        record: *mut u64,
        record_length: usize,
        members: *mut u64,
        members_length: usize,
        pending: *const u64,
        pending_length: usize,
        waiting: *const u64,
        waiting_length: usize,
        history: *const u64,
        history_length: usize,
        sources: *const u64,
        sources_length: usize,
        store: *const u8,
        store_length: usize,
        row: *const u64,
        row_length: usize,
        used: *const u64,
        used_length: usize,
        id: u64,
        weight: u64,
    ) -> u32;

    /// A member is removed, and its leg dropped.
    pub fn srt_group_raw_remove_member(
        record: *mut u64,
        record_length: usize,
        members: *mut u64,
        members_length: usize,
        pending: *mut u64,
        pending_length: usize,
        waiting: *const u64,
        waiting_length: usize,
        history: *const u64,
        history_length: usize,
        sources: *const u64,
        sources_length: usize,
        id: u64,
    ) -> u32;

    /// The same for a valid state, of which `used` shows the cells in use. The store is lent for its length.
    pub fn srt_group_valid_remove_member(
        record: *mut u64,
        record_length: usize,
        members: *mut u64,
        members_length: usize,
        pending: *mut u64,
        pending_length: usize,
        waiting: *const u64,
        waiting_length: usize,
        history: *const u64,
        history_length: usize,
        sources: *const u64,
        sources_length: usize,
        store: *const u8,
        store_length: usize,
        used: *mut u64,
        used_length: usize,
        id: u64,
    ) -> u32;

    /// A member is removed, and its leg given back in a row of the members' table.
    pub fn srt_group_raw_remove_member_connection(
        record: *mut u64,
        record_length: usize,
        members: *mut u64,
        members_length: usize,
        pending: *mut u64,
        pending_length: usize,
        waiting: *const u64,
        waiting_length: usize,
        history: *const u64,
        history_length: usize,
        sources: *const u64,
        sources_length: usize,
        row: *mut u64,
        row_length: usize,
        id: u64,
    ) -> u32;

    /// The same for a valid state, of which `used` shows the cells in use. The store is lent for its length.
    pub fn srt_group_valid_remove_member_connection(
        record: *mut u64,
        record_length: usize,
        members: *mut u64,
        members_length: usize,
        pending: *mut u64,
        pending_length: usize,
        waiting: *const u64,
        waiting_length: usize,
        history: *const u64,
        history_length: usize,
        sources: *const u64,
        sources_length: usize,
        store: *const u8,
        store_length: usize,
        row: *mut u64,
        row_length: usize,
        used: *mut u64,
        used_length: usize,
        id: u64,
    ) -> u32;

    /// `srt_group_raw_queue_data` for a valid state, of which `used` shows the cells in use.
    pub fn srt_group_valid_queue_data(
        record: *const u64,
        record_length: usize,
        members: *mut u64,
        members_length: usize,
        pending: *const u64,
        pending_length: usize,
        waiting: *const u64,
        waiting_length: usize,
        history: *const u64,
        history_length: usize,
        sources: *const u64,
        sources_length: usize,
        store: *mut u8,
        store_length: usize,
        used: *mut u64,
        used_length: usize,
        id: u64,
        sequence: u64,
        count: u64,
        message: u64,
        timestamp: u64,
        source: u64,
        payload: *const u8,
        payload_length: usize,
    ) -> u32;

    /// A packet at the end of a leg's queue, its payload in the lowest free cell of the store.
    pub fn srt_group_raw_queue_data(
        record: *const u64,
        record_length: usize,
        members: *mut u64,
        members_length: usize,
        pending: *const u64,
        pending_length: usize,
        waiting: *const u64,
        waiting_length: usize,
        history: *const u64,
        history_length: usize,
        sources: *const u64,
        sources_length: usize,
        store: *mut u8,
        store_length: usize,
        id: u64,
        sequence: u64,
        count: u64,
        message: u64,
        timestamp: u64,
        source: u64,
        payload: *const u8,
        payload_length: usize,
    ) -> u32;

    /// A lifecycle event at the end of a leg's queue.
    pub fn srt_group_raw_queue_event(
        record: *const u64,
        record_length: usize,
        members: *mut u64,
        members_length: usize,
        pending: *const u64,
        pending_length: usize,
        waiting: *const u64,
        waiting_length: usize,
        history: *const u64,
        history_length: usize,
        sources: *const u64,
        sources_length: usize,
        id: u64,
        kind: u64,
        reason: u64,
    ) -> u32;

    /// The same for a valid state, of which `used` shows the cells in use. The store is lent for its length.
    pub fn srt_group_valid_queue_event(
        record: *const u64,
        record_length: usize,
        members: *mut u64,
        members_length: usize,
        pending: *const u64,
        pending_length: usize,
        waiting: *const u64,
        waiting_length: usize,
        history: *const u64,
        history_length: usize,
        sources: *const u64,
        sources_length: usize,
        store: *const u8,
        store_length: usize,
        used: *const u64,
        used_length: usize,
        id: u64,
        kind: u64,
        reason: u64,
    ) -> u32;

    /// A number into a field of a leg.
    pub fn srt_group_raw_read_leg(
        record: *const u64,
        record_length: usize,
        members: *mut u64,
        members_length: usize,
        pending: *const u64,
        pending_length: usize,
        waiting: *const u64,
        waiting_length: usize,
        history: *const u64,
        history_length: usize,
        sources: *const u64,
        sources_length: usize,
        id: u64,
        field: u64,
        number: u64,
    ) -> u32;

    /// The same for a valid state, of which `used` shows the cells in use. The store is lent for its length.
    pub fn srt_group_valid_read_leg(
        record: *const u64,
        record_length: usize,
        members: *mut u64,
        members_length: usize,
        pending: *const u64,
        pending_length: usize,
        waiting: *const u64,
        waiting_length: usize,
        history: *const u64,
        history_length: usize,
        sources: *const u64,
        sources_length: usize,
        store: *const u8,
        store_length: usize,
        used: *const u64,
        used_length: usize,
        id: u64,
        field: u64,
        number: u64,
    ) -> u32;

    /// `srt_group_raw_poll_data_bounded` for a valid state, of which `used` shows the cells in use.
    pub fn srt_group_valid_poll_data_bounded(
        record: *mut u64,
        record_length: usize,
        members: *mut u64,
        members_length: usize,
        pending: *mut u64,
        pending_length: usize,
        waiting: *mut u64,
        waiting_length: usize,
        history: *const u64,
        history_length: usize,
        sources: *const u64,
        sources_length: usize,
        store: *const u8,
        store_length: usize,
        output: *mut u8,
        output_length: usize,
        used: *mut u64,
        used_length: usize,
        time: u64,
        max_events: usize,
        answer: *mut u64,
        answer_length: usize,
    ) -> u32;

    /// The next packet in order, after at most so many events, which are dropped. Its payload is written from byte 12 of the output on. The
    /// answer: whether to poll again at once, and of the packet its leg, sequence, count (0: none), message number, timestamp, source time
    /// and length.
    pub fn srt_group_raw_poll_data_bounded(
        record: *mut u64,
        record_length: usize,
        members: *mut u64,
        members_length: usize,
        pending: *mut u64,
        pending_length: usize,
        waiting: *mut u64,
        waiting_length: usize,
        history: *const u64,
        history_length: usize,
        sources: *const u64,
        sources_length: usize,
        store: *const u8,
        store_length: usize,
        output: *mut u8,
        output_length: usize,
        time: u64,
        max_events: usize,
        answer: *mut u64,
        answer_length: usize,
    ) -> u32;

    /// `poll_data_bounded` with as many events as it may pass, 64.
    pub fn srt_group_raw_poll_data(
        record: *mut u64,
        record_length: usize,
        members: *mut u64,
        members_length: usize,
        pending: *mut u64,
        pending_length: usize,
        waiting: *mut u64,
        waiting_length: usize,
        history: *const u64,
        history_length: usize,
        sources: *const u64,
        sources_length: usize,
        store: *const u8,
        store_length: usize,
        output: *mut u8,
        output_length: usize,
        time: u64,
        answer: *mut u64,
        answer_length: usize,
    ) -> u32;

    /// The next event, or the next packet in order, its payload written from byte 12 of the output on. The answer's words: of an event its
    /// kind (1 connected, 2 error, 3 disconnected), its leg, its reason, and zeros; of a packet 0, its leg, sequence, count, message
    /// number, timestamp, source time and length; of neither zeros. A packet's count is never 0. For a valid state, of which `used` shows
    /// the cells in use.
    pub fn srt_group_valid_poll_event(
        record: *mut u64,
        record_length: usize,
        members: *mut u64,
        members_length: usize,
        pending: *mut u64,
        pending_length: usize,
        waiting: *mut u64,
        waiting_length: usize,
        history: *const u64,
        history_length: usize,
        sources: *const u64,
        sources_length: usize,
        store: *const u8,
        store_length: usize,
        output: *mut u8,
        output_length: usize,
        used: *mut u64,
        used_length: usize,
        time: u64,
        answer: *mut u64,
        answer_length: usize,
    ) -> u32;

    /// The next event, or the next packet in order, with 5 and 6 tested. The answer's words: of an event its kind (1 connected, 2 error, 3
    /// disconnected), its leg, its reason, and zeros; of a packet 0, its leg, sequence, count, message number, timestamp, source time and
    /// length; of neither zeros. A packet's count is never 0.
    pub fn srt_group_raw_poll_event(
        record: *mut u64,
        record_length: usize,
        members: *mut u64,
        members_length: usize,
        pending: *mut u64,
        pending_length: usize,
        waiting: *mut u64,
        waiting_length: usize,
        history: *const u64,
        history_length: usize,
        sources: *const u64,
        sources_length: usize,
        store: *const u8,
        store_length: usize,
        output: *mut u8,
        output_length: usize,
        time: u64,
        answer: *mut u64,
        answer_length: usize,
    ) -> u32;

    /// `srt_group_raw_send` for a valid state, of which `used` shows the cells in use.
    pub fn srt_group_valid_send(
        record: *mut u64,
        record_length: usize,
        members: *mut u64,
        members_length: usize,
        pending: *const u64,
        pending_length: usize,
        waiting: *const u64,
        waiting_length: usize,
        history: *mut u64,
        history_length: usize,
        sources: *mut u64,
        sources_length: usize,
        store: *mut u8,
        store_length: usize,
        list: *mut u64,
        list_length: usize,
        used: *mut u64,
        used_length: usize,
        time: u64,
        payload: *const u8,
        payload_length: usize,
        answer: *mut u64,
        answer_length: usize,
    ) -> u32;

    /// One payload through the group, on every active leg or on the carrier; each send that a leg takes fills a row of the list: leg,
    /// sequence, history cell (4294967295 for this payload), source time, time. The answer: on how many legs, and how many rows were
    /// filled.
    pub fn srt_group_raw_send(
        record: *mut u64,
        record_length: usize,
        members: *mut u64,
        members_length: usize,
        pending: *const u64,
        pending_length: usize,
        waiting: *const u64,
        waiting_length: usize,
        history: *mut u64,
        history_length: usize,
        sources: *mut u64,
        sources_length: usize,
        store: *mut u8,
        store_length: usize,
        list: *mut u64,
        list_length: usize,
        time: u64,
        payload: *const u8,
        payload_length: usize,
        answer: *mut u64,
        answer_length: usize,
    ) -> u32;

    /// The same: a lent payload is shared by all legs as it is, so the Rust's form for counted bytes is no other call.
    pub fn srt_group_raw_send_shared(
        record: *mut u64,
        record_length: usize,
        members: *mut u64,
        members_length: usize,
        pending: *const u64,
        pending_length: usize,
        waiting: *const u64,
        waiting_length: usize,
        history: *mut u64,
        history_length: usize,
        sources: *mut u64,
        sources_length: usize,
        store: *mut u8,
        store_length: usize,
        list: *mut u64,
        list_length: usize,
        time: u64,
        payload: *const u8,
        payload_length: usize,
        answer: *mut u64,
        answer_length: usize,
    ) -> u32;

    /// Whether the group could send now. The test refreshes and trims.
    pub fn srt_group_raw_can_send(
        record: *mut u64,
        record_length: usize,
        members: *mut u64,
        members_length: usize,
        pending: *const u64,
        pending_length: usize,
        waiting: *const u64,
        waiting_length: usize,
        history: *const u64,
        history_length: usize,
        sources: *const u64,
        sources_length: usize,
        answer: *mut u64,
        answer_length: usize,
    ) -> u32;

    /// The same for a valid state, of which `used` shows the cells in use. The store is lent for its length.
    pub fn srt_group_valid_can_send(
        record: *mut u64,
        record_length: usize,
        members: *mut u64,
        members_length: usize,
        pending: *const u64,
        pending_length: usize,
        waiting: *const u64,
        waiting_length: usize,
        history: *const u64,
        history_length: usize,
        sources: *const u64,
        sources_length: usize,
        store: *const u8,
        store_length: usize,
        used: *mut u64,
        used_length: usize,
        answer: *mut u64,
        answer_length: usize,
    ) -> u32;

    /// The same, where a leg counts that may send by its pace at this time.
    pub fn srt_group_raw_can_send_with_pacing(
        record: *mut u64,
        record_length: usize,
        members: *mut u64,
        members_length: usize,
        pending: *const u64,
        pending_length: usize,
        waiting: *const u64,
        waiting_length: usize,
        history: *const u64,
        history_length: usize,
        sources: *const u64,
        sources_length: usize,
        time: u64,
        answer: *mut u64,
        answer_length: usize,
    ) -> u32;

    /// The same for a valid state, of which `used` shows the cells in use. The store is lent for its length.
    pub fn srt_group_valid_can_send_with_pacing(
        record: *mut u64,
        record_length: usize,
        members: *mut u64,
        members_length: usize,
        pending: *const u64,
        pending_length: usize,
        waiting: *const u64,
        waiting_length: usize,
        history: *const u64,
        history_length: usize,
        sources: *const u64,
        sources_length: usize,
        store: *const u8,
        store_length: usize,
        used: *mut u64,
        used_length: usize,
        time: u64,
        answer: *mut u64,
        answer_length: usize,
    ) -> u32;

    /// A member turns Broken.
    pub fn srt_group_raw_mark_member_broken(
        record: *const u64,
        record_length: usize,
        members: *mut u64,
        members_length: usize,
        pending: *const u64,
        pending_length: usize,
        waiting: *const u64,
        waiting_length: usize,
        history: *const u64,
        history_length: usize,
        sources: *const u64,
        sources_length: usize,
        id: u64,
    ) -> u32;

    /// The same for a valid state, of which `used` shows the cells in use. The store is lent for its length.
    pub fn srt_group_valid_mark_member_broken(
        record: *const u64,
        record_length: usize,
        members: *mut u64,
        members_length: usize,
        pending: *const u64,
        pending_length: usize,
        waiting: *const u64,
        waiting_length: usize,
        history: *const u64,
        history_length: usize,
        sources: *const u64,
        sources_length: usize,
        store: *const u8,
        store_length: usize,
        used: *const u64,
        used_length: usize,
        id: u64,
    ) -> u32;

    /// The members' states follow their legs; a member that arrives may set the base and bind the group.
    pub fn srt_group_raw_refresh_member_states(
        record: *mut u64,
        record_length: usize,
        members: *mut u64,
        members_length: usize,
        pending: *const u64,
        pending_length: usize,
        waiting: *const u64,
        waiting_length: usize,
        history: *const u64,
        history_length: usize,
        sources: *const u64,
        sources_length: usize,
    ) -> u32;

    /// The same for a valid state, of which `used` shows the cells in use. The store is lent for its length.
    pub fn srt_group_valid_refresh_member_states(
        record: *mut u64,
        record_length: usize,
        members: *mut u64,
        members_length: usize,
        pending: *const u64,
        pending_length: usize,
        waiting: *const u64,
        waiting_length: usize,
        history: *const u64,
        history_length: usize,
        sources: *const u64,
        sources_length: usize,
        store: *const u8,
        store_length: usize,
        used: *const u64,
        used_length: usize,
    ) -> u32;

    /// Every leg is disconnected; nothing is queued. The stand-in's legs need no time.
    pub fn srt_group_raw_disconnect(
        record: *const u64,
        record_length: usize,
        members: *mut u64,
        members_length: usize,
        pending: *const u64,
        pending_length: usize,
        waiting: *const u64,
        waiting_length: usize,
        history: *const u64,
        history_length: usize,
        sources: *const u64,
        sources_length: usize,
        time: u64,
    ) -> u32;

    /// The same for a valid state, of which `used` shows the cells in use. The store is lent for its length.
    pub fn srt_group_valid_disconnect(
        record: *const u64,
        record_length: usize,
        members: *mut u64,
        members_length: usize,
        pending: *const u64,
        pending_length: usize,
        waiting: *const u64,
        waiting_length: usize,
        history: *const u64,
        history_length: usize,
        sources: *const u64,
        sources_length: usize,
        store: *const u8,
        store_length: usize,
        used: *const u64,
        used_length: usize,
        time: u64,
    ) -> u32;

    /// The group's id.
    pub fn srt_group_raw_group_id(
        record: *const u64,
        record_length: usize,
        members: *const u64,
        members_length: usize,
        pending: *const u64,
        pending_length: usize,
        waiting: *const u64,
        waiting_length: usize,
        history: *const u64,
        history_length: usize,
        sources: *const u64,
        sources_length: usize,
        answer: *mut u64,
        answer_length: usize,
    ) -> u32;

    /// 0 for Broadcast, 1 for Backup.
    pub fn srt_group_raw_mode(
        record: *const u64,
        record_length: usize,
        members: *const u64,
        members_length: usize,
        pending: *const u64,
        pending_length: usize,
        waiting: *const u64,
        waiting_length: usize,
        history: *const u64,
        history_length: usize,
        sources: *const u64,
        sources_length: usize,
        answer: *mut u64,
        answer_length: usize,
    ) -> u32;

    /// The peer group that the group is bound to, or 0.
    pub fn srt_group_raw_peer_group_id(
        record: *const u64,
        record_length: usize,
        members: *const u64,
        members_length: usize,
        pending: *const u64,
        pending_length: usize,
        waiting: *const u64,
        waiting_length: usize,
        history: *const u64,
        history_length: usize,
        sources: *const u64,
        sources_length: usize,
        answer: *mut u64,
        answer_length: usize,
    ) -> u32;

    /// How many packets were skipped for good.
    pub fn srt_group_raw_skipped_receive_packets(
        record: *const u64,
        record_length: usize,
        members: *const u64,
        members_length: usize,
        pending: *const u64,
        pending_length: usize,
        waiting: *const u64,
        waiting_length: usize,
        history: *const u64,
        history_length: usize,
        sources: *const u64,
        sources_length: usize,
        answer: *mut u64,
        answer_length: usize,
    ) -> u32;

    /// Whether a packet is held, an event waits, or the continuation is asked for.
    pub fn srt_group_raw_has_pending_data(
        record: *const u64,
        record_length: usize,
        members: *const u64,
        members_length: usize,
        pending: *const u64,
        pending_length: usize,
        waiting: *const u64,
        waiting_length: usize,
        history: *const u64,
        history_length: usize,
        sources: *const u64,
        sources_length: usize,
        answer: *mut u64,
        answer_length: usize,
    ) -> u32;

    /// Whether the last poll stopped with work left.
    pub fn srt_group_raw_has_receive_continuation(
        record: *const u64,
        record_length: usize,
        members: *const u64,
        members_length: usize,
        pending: *const u64,
        pending_length: usize,
        waiting: *const u64,
        waiting_length: usize,
        history: *const u64,
        history_length: usize,
        sources: *const u64,
        sources_length: usize,
        answer: *mut u64,
        answer_length: usize,
    ) -> u32;

    /// How long until pacing lets a member send, in microseconds.
    pub fn srt_group_raw_time_until_send(
        record: *const u64,
        record_length: usize,
        members: *const u64,
        members_length: usize,
        pending: *const u64,
        pending_length: usize,
        waiting: *const u64,
        waiting_length: usize,
        history: *const u64,
        history_length: usize,
        sources: *const u64,
        sources_length: usize,
        time: u64,
        answer: *mut u64,
        answer_length: usize,
    ) -> u32;

    /// A member: its id, weight, label, its leg's state, whether it was admitted, its reserved sum, and its collision's expected and actual
    /// peer group.
    pub fn srt_group_raw_member(
        record: *const u64,
        record_length: usize,
        members: *const u64,
        members_length: usize,
        pending: *const u64,
        pending_length: usize,
        waiting: *const u64,
        waiting_length: usize,
        history: *const u64,
        history_length: usize,
        sources: *const u64,
        sources_length: usize,
        id: u64,
        answer: *mut u64,
        answer_length: usize,
    ) -> u32;

    /// How long the member may be silent as the carrier of a Backup group, in microseconds; 0 for a leg without a sender.
    pub fn srt_group_raw_backup_stability_timeout_micros(
        record: *const u64,
        record_length: usize,
        members: *const u64,
        members_length: usize,
        pending: *const u64,
        pending_length: usize,
        waiting: *const u64,
        waiting_length: usize,
        history: *const u64,
        history_length: usize,
        sources: *const u64,
        sources_length: usize,
        id: u64,
        answer: *mut u64,
        answer_length: usize,
    ) -> u32;

    /// All members as rows of a lent list, in the order of their addition. The answer is how many rows were filled.
    pub fn srt_group_raw_members(
        record: *const u64,
        record_length: usize,
        members: *const u64,
        members_length: usize,
        pending: *const u64,
        pending_length: usize,
        waiting: *const u64,
        waiting_length: usize,
        history: *const u64,
        history_length: usize,
        sources: *const u64,
        sources_length: usize,
        list: *mut u64,
        list_length: usize,
        answer: *mut u64,
        answer_length: usize,
    ) -> u32;
}
