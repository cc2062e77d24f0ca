//! Document 01's code 6 again, as a list of rules: which of them a state breaks, each by its name. The list was written down from document 01,
//! docs/READINGS.md, docs/TABLES.md and docs/DECISIONS.md ("Code 6") by somebody who had not read the port's definition of code 6, its code or
//! `rules.rs`, and was put into Rust afterwards (README.md, "The two tests of code 6"). Both tests judge every changed state; this one also tells
//! which rules a run broke, and which of them alone.

use std::collections::{BTreeMap, BTreeSet};

use crate::rules::State;

pub type Broken = BTreeSet<&'static str>;

/// A word of a row, the largest number that it may hold, and the name of that rule.
pub struct Range {
    pub word: usize,
    pub largest: u64,
    pub name: &'static str,
}

const fn range(word: usize, largest: u64, name: &'static str) -> Range {
    Range {
        word,
        largest,
        name,
    }
}

const BITS_16: u64 = 65_535;
const BITS_32: u64 = 4_294_967_295;
pub const LAST_SEQUENCE: u64 = (1 << 31) - 1;
pub const LONGEST: u64 = 1_456;
const NO_SEQUENCE: u64 = 4_294_967_295;
const CONNECTED: u64 = 1;

pub const RECORD: [Range; 15] = [
    range(0, BITS_32, "record: id"),
    range(2, 1, "record: mode"),
    range(3, BITS_32, "record: peer group"),
    range(4, 64, "record: count of members"),
    range(5, 2_048, "record: count of held packets"),
    range(6, 64, "record: count of waiting events"),
    range(7, 1, "record: based"),
    range(8, LAST_SEQUENCE, "record: base"),
    range(10, 1, "record: continuation"),
    range(13, 1, "record: numbered"),
    range(14, LAST_SEQUENCE, "record: send number"),
    range(15, 1, "record: carried"),
    range(16, BITS_32, "record: carrier"),
    range(17, 1, "record: gap"),
    range(19, 512, "record: count of history's entries"),
];

pub const MEMBER: [Range; 18] = [
    range(0, BITS_32, "member: id"),
    range(1, BITS_16, "member: weight"),
    range(2, 4, "member: state"),
    range(3, 1, "member: admitted"),
    range(5, BITS_32, "member: collision's expected"),
    range(6, BITS_32, "member: collision's actual"),
    range(9, 2, "leg: state"),
    range(10, BITS_32, "leg: peer group"),
    range(11, BITS_16, "leg: payload limit"),
    range(12, BITS_32, "leg: srtt"),
    range(13, BITS_32, "leg: rttvar"),
    range(18, 1, "leg: started"),
    range(19, LAST_SEQUENCE, "leg: next"),
    range(20, BITS_16, "leg: flight"),
    range(21, BITS_16, "leg: window"),
    range(28, BITS_16, "leg: receive window"),
    range(31, LAST_SEQUENCE, "leg: advanced"),
    range(33, 16, "leg: queue's length"),
];

/// An event that is no data has no other words; one of data has those of `QUEUED` too.
pub const EVENT: [Range; 2] = [
    range(0, 3, "event: kind"),
    range(1, BITS_32, "event: reason"),
];

pub const QUEUED: [Range; 6] = [
    range(1, BITS_32, "queued: reason of data"),
    range(2, LAST_SEQUENCE, "queued: sequence"),
    range(3, BITS_16, "queued: count"),
    range(4, BITS_32, "queued: message number"),
    range(5, BITS_32, "queued: timestamp"),
    range(8, LONGEST, "queued: length"),
];

pub const HELD: [Range; 6] = [
    range(0, BITS_16, "held: count"),
    range(1, BITS_32, "held: message number"),
    range(2, BITS_32, "held: timestamp"),
    range(4, LONGEST, "held: length"),
    range(5, BITS_32, "held: member's id"),
    range(6, 1, "held: owned"),
];

pub const WAITING: [Range; 3] = [
    range(0, BITS_32, "waiting: id"),
    range(1, 3, "waiting: kind"),
    range(2, BITS_32, "waiting: reason"),
];

/// The rules that are no largest number of a word.
const OTHERS: [&str; 27] = [
    "record: blank",
    "record: round",
    "record: own sum",
    "member: id twice",
    "member: reserved sum",
    "leg: reservation",
    "leg: connected without a sender",
    "leg: flight without a sender",
    "leg: peer's first sequence",
    "queued: count 0",
    "held: sequence",
    "held: sequence twice",
    "held: does not ascend",
    "held: count 0",
    "held: of no member",
    "waiting: kind 0",
    "history: sequence",
    "history: length",
    BEYOND[0],
    BEYOND[1],
    BEYOND[2],
    TWICE[0][0],
    TWICE[0][1],
    TWICE[0][2],
    TWICE[1][1],
    TWICE[1][2],
    TWICE[2][2],
];

/// Who names a cell: a held packet, a queued one, an entry of the history.
const BEYOND: [&str; 3] = [
    "cell beyond the store: held",
    "cell beyond the store: queued",
    "cell beyond the store: history",
];

/// By who named the cell first, and who again; they are asked in this order.
const TWICE: [[&str; 3]; 3] = [
    [
        "cell twice: held, held",
        "cell twice: held, queued",
        "cell twice: held, history",
    ],
    [
        "",
        "cell twice: queued, queued",
        "cell twice: queued, history",
    ],
    ["", "", "cell twice: history, history"],
];

/// The names of all rules.
pub fn names() -> Vec<&'static str> {
    let ranges: [&[Range]; 6] = [&RECORD, &MEMBER, &EVENT, &QUEUED, &HELD, &WAITING];
    let ranges = ranges.into_iter().flatten().map(|range| range.name);
    ranges.chain(OTHERS).collect()
}

struct List {
    cells: u64,
    broken: Broken,
    /// The cells that were named, and by whom first.
    named: BTreeMap<u64, usize>,
    /// The counts of held packets, by the member's id, and those of the owned ones.
    held: BTreeMap<u64, u64>,
    own: u64,
}

/// The rules that the state breaks, over a store of so many cells. With a count above its limit no row can be told, and no more is asked.
pub fn broken(state: State<'_>, cells: u64) -> Broken {
    let mut list = List {
        cells,
        broken: Broken::new(),
        named: BTreeMap::new(),
        held: BTreeMap::new(),
        own: 0,
    };
    list.record(state.record);
    if !list.broken.iter().any(|name| name.contains("count of")) {
        list.ids(state);
        list.held(state);
        list.members(state);
        list.waiting(state);
        list.history(state);
        list.note(state.record[12] != list.own, "record: own sum");
    }
    list.broken
}

fn member_rows(state: State<'_>) -> impl Iterator<Item = &[u64]> {
    state.members.chunks(189).take(state.record[4] as usize)
}

impl List {
    fn note(&mut self, is_broken: bool, name: &'static str) {
        if is_broken {
            self.broken.insert(name);
        }
    }

    fn ranges(&mut self, row: &[u64], ranges: &[Range]) {
        for range in ranges {
            self.note(row[range.word] > range.largest, range.name);
        }
    }

    fn name(&mut self, cell: u64, by: usize) {
        self.note(cell >= self.cells, BEYOND[by]);
        if let Some(&first) = self.named.get(&cell) {
            self.note(true, TWICE[first][by]);
        }
        self.named.entry(cell).or_insert(by);
    }

    fn record(&mut self, record: &[u64]) {
        self.note(record[0] & 1 << 30 == 0, "record: blank");
        let [members, round] = [record[4], record[11]];
        self.note(round != 0 && round >= members, "record: round");
        self.ranges(record, &RECORD);
    }

    /// Each member has an id of its own, and with it a sum of held packets.
    fn ids(&mut self, state: State<'_>) {
        for row in member_rows(state) {
            let twice = self.held.insert(row[0], 0).is_some();
            self.note(twice, "member: id twice");
        }
    }

    fn held(&mut self, state: State<'_>) {
        let start = state.pending[2_048 + 7];
        let index = (0..state.record[5]).map(|place| start.wrapping_add(place) % 2_048);
        let index: Vec<u64> = index.map(|at| state.pending[at as usize]).collect();
        for pair in index.windows(2) {
            let [before, after] = [pair[0] / 2_048, pair[1] / 2_048];
            self.note(before == after, "held: sequence twice");
            self.note(before > after, "held: does not ascend");
        }
        for word in index {
            let (sequence, cell) = (word / 2_048, word % 2_048);
            self.note(sequence > LAST_SEQUENCE, "held: sequence");
            self.name(cell, 0);
            self.packet(&state.pending[2_048 + cell as usize * 8..][..8]);
        }
    }

    fn packet(&mut self, row: &[u64]) {
        self.ranges(row, &HELD);
        let [count, member, owned] = [row[0], row[5], row[6]];
        self.note(count == 0, "held: count 0");
        if owned == 1 {
            self.own = self.own.wrapping_add(count);
        } else if let Some(sum) = self.held.get_mut(&member) {
            *sum = sum.wrapping_add(count);
        } else {
            self.note(true, "held: of no member");
        }
    }

    fn members(&mut self, state: State<'_>) {
        for row in member_rows(state) {
            self.ranges(row, &MEMBER);
            self.leg(row);
            let held = self.held[&row[0]];
            self.note(row[4] != held, "member: reserved sum");
            if row[33] <= 16 {
                let queued = self.queue(row);
                let all = held.wrapping_add(queued);
                self.note(row[30] != all, "leg: reservation");
            }
        }
    }

    fn leg(&mut self, row: &[u64]) {
        let [state, started, flight, first] = [row[9], row[18], row[20], row[27]];
        let idle = started == 0;
        self.note(
            idle && state == CONNECTED,
            "leg: connected without a sender",
        );
        self.note(idle && flight > 0, "leg: flight without a sender");
        let none = first == NO_SEQUENCE;
        self.note(first > LAST_SEQUENCE && !none, "leg: peer's first sequence");
    }

    /// The counts of the queued packets.
    fn queue(&mut self, row: &[u64]) -> u64 {
        let mut queued: u64 = 0;
        for place in 0..row[33] {
            let at = row[32].wrapping_add(place) % 16;
            let event = &row[45 + at as usize * 9..][..9];
            if event[0] != 0 {
                self.ranges(event, &EVENT);
                continue;
            }
            self.ranges(event, &QUEUED);
            self.note(event[3] == 0, "queued: count 0");
            self.name(event[7], 1);
            queued = queued.wrapping_add(event[3]);
        }
        queued
    }

    fn waiting(&mut self, state: State<'_>) {
        for row in state.waiting.chunks(3).take(state.record[6] as usize) {
            self.ranges(row, &WAITING);
            self.note(row[1] == 0, "waiting: kind 0");
        }
    }

    fn history(&mut self, state: State<'_>) {
        for place in 0..state.record[19] {
            let at = state.record[18].wrapping_add(place) % 512;
            let word = state.history[at as usize];
            self.note(word >> 22 > LAST_SEQUENCE, "history: sequence");
            self.note(word % 2_048 > LONGEST, "history: length");
            self.name(word / 2_048 % 2_048, 2);
        }
    }
}
