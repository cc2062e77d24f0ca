//! When a lent state is refused with 6: document 01, "the lent state breaks a rule", with docs/READINGS.md (32 to 37) where 01 leaves it
//! open, over the words of docs/TABLES.md. A plain loop, which shares no text with the port.

/// The record and the tables, each at least as long as its rows.
#[derive(Clone, Copy)]
pub struct State<'a> {
    pub record: &'a [u64],
    pub members: &'a [u64],
    pub pending: &'a [u64],
    pub waiting: &'a [u64],
    pub history: &'a [u64],
}

/// Document 01's rules, in its words; the last is its 2, "a field out of range", of a field that is lent (reading 35).
#[derive(Debug, Clone, Copy, PartialEq, Eq, PartialOrd, Ord)]
pub enum Rule {
    Blank,
    CountAboveLimit,
    SequenceTooLarge,
    IdTwice,
    HeldSequenceTwice,
    CellTwice,
    CellBeyondStore,
    ReservedSum,
    OutOfRange,
}

use Rule::*;

const MAX_MEMBERS: usize = 64;
const MAX_PENDING: u64 = 2_048;
const MAX_WAITING: u64 = 64;
const MAX_HISTORY: u64 = 512;
const MAX_QUEUE: u64 = 16;
const CELL: u64 = 1_456;
const MAX_CELLS: u64 = 2_048;
const GROUP_BIT: u64 = 1 << 30;
const SEQUENCES: u64 = 1 << 31;
const NO_SEQUENCE: u64 = 4_294_967_295;
const BITS_32: u64 = 4_294_967_295;
const BITS_16: u64 = 65_535;
/// Words of a member's row, of an event in it, of a held packet's row.
const ROW: usize = 189;
const EVENT: usize = 9;
const PACKET: usize = 8;

/// The cells of a store of so many bytes.
pub fn cells_of(length: u64) -> u64 {
    (length / CELL).min(MAX_CELLS)
}

/// The cells of a call that is lent no store (reading 37).
pub fn cells_given(record: &[u64]) -> u64 {
    match record[1] {
        0 => MAX_CELLS,
        length => cells_of(length),
    }
}

/// The cells that were named, and what the counts of packets add up to: the group's own, and each member's held ones.
struct Seen {
    cells: u64,
    named: [u64; 32],
    own: u64,
    ids: [u64; MAX_MEMBERS],
    members: usize,
    held: [u64; MAX_MEMBERS],
}

fn holds(is: bool, rule: Rule) -> Result<(), Rule> {
    if is { Ok(()) } else { Err(rule) }
}

fn within(word: u64, largest: u64) -> Result<(), Rule> {
    holds(word <= largest, OutOfRange)
}

fn is_sequence(word: u64) -> Result<(), Rule> {
    holds(word < SEQUENCES, SequenceTooLarge)
}

impl Seen {
    fn name(&mut self, cell: u64) -> Result<(), Rule> {
        holds(cell < self.cells, CellBeyondStore)?;
        let (word, bit) = (cell as usize / 64, 1 << (cell % 64));
        holds(self.named[word] & bit == 0, CellTwice)?;
        self.named[word] |= bit;
        Ok(())
    }

    /// A held packet is the group's own, or a member's: else its count is in no sum (reading 36).
    fn reserve(&mut self, owned: bool, member: u64, count: u64) -> Result<(), Rule> {
        if owned {
            self.own += count;
            return Ok(());
        }
        let ids = &self.ids[..self.members];
        let place = ids.iter().position(|&id| id == member).ok_or(ReservedSum)?;
        self.held[place] += count;
        Ok(())
    }
}

/// Whether the state keeps every rule, over a store of so many cells; or one that it breaks.
pub fn check(state: State<'_>, cells: u64) -> Result<(), Rule> {
    record(state.record)?;
    let mut seen = Seen {
        cells,
        named: [0; 32],
        own: 0,
        ids: [0; MAX_MEMBERS],
        members: state.record[4] as usize,
        held: [0; MAX_MEMBERS],
    };
    for place in 0..seen.members {
        let id = state.members[place * ROW];
        holds(!seen.ids[..place].contains(&id), IdTwice)?;
        seen.ids[place] = id;
    }
    held_packets(state, &mut seen)?;
    for place in 0..seen.members {
        let row = &state.members[place * ROW..(place + 1) * ROW];
        let queued = member(row, &mut seen)?;
        holds(row[4] == seen.held[place], ReservedSum)?;
        holds(row[30] == seen.held[place] + queued, ReservedSum)?;
    }
    holds(state.record[12] == seen.own, ReservedSum)?;
    waiting(state)?;
    history(state, &mut seen)
}

fn record(word: &[u64]) -> Result<(), Rule> {
    holds(word[0] & GROUP_BIT != 0, Blank)?;
    within(word[0], BITS_32)?;
    let [mode, peer, members] = [word[2], word[3], word[4]];
    within(mode, 1)?;
    within(peer, BITS_32)?;
    holds(members <= MAX_MEMBERS as u64, CountAboveLimit)?;
    holds(word[5] <= MAX_PENDING, CountAboveLimit)?;
    holds(word[6] <= MAX_WAITING, CountAboveLimit)?;
    let [based, base, continuation, round] = [word[7], word[8], word[10], word[11]];
    within(based, 1)?;
    is_sequence(base)?;
    within(continuation, 1)?;
    holds(round == 0 || round < members, CountAboveLimit)?;
    let [numbered, next, carried, carrier, gap] =
        [word[13], word[14], word[15], word[16], word[17]];
    within(numbered, 1)?;
    is_sequence(next)?;
    within(carried, 1)?;
    within(carrier, BITS_32)?;
    within(gap, 1)?;
    holds(word[19] <= MAX_HISTORY, CountAboveLimit)
}

/// A member's row; it answers the counts of its queued packets.
fn member(row: &[u64], seen: &mut Seen) -> Result<u64, Rule> {
    let [id, weight, label, admitted] = [row[0], row[1], row[2], row[3]];
    within(id, BITS_32)?;
    within(weight, BITS_16)?;
    within(label, 4)?;
    within(admitted, 1)?;
    let [expected, actual] = [row[5], row[6]];
    within(expected, BITS_32)?;
    within(actual, BITS_32)?;
    // A sender exists from the first connect on.
    let started = row[18];
    within(started, 1)?;
    holds(started == 1 || row[9] != 1, OutOfRange)?;
    leg(row, started == 1)?;
    let [start, length] = [row[32], row[33]];
    holds(length <= MAX_QUEUE, CountAboveLimit)?;
    let mut queued = 0;
    for place in 0..length {
        let at = 45 + (start.wrapping_add(place) % MAX_QUEUE) as usize * EVENT;
        queued += event(&row[at..at + EVENT], seen)?;
    }
    Ok(queued)
}

/// What an addition says of the leg that it is handed, or 0: 6 for a queue or a reservation, 2 for a field out of range (reading 35).
pub fn handed(row: &[u64]) -> u32 {
    let [reservation, queued] = [row[30], row[33]];
    if reservation != 0 || queued != 0 {
        return 6;
    }
    // It has a sender exactly if it is not handshaking (reading 23).
    leg(row, row[9] != 0).map_or(2, |()| 0)
}

/// A leg, and whether it has a sender: without one nothing is in flight.
fn leg(row: &[u64], has_sender: bool) -> Result<(), Rule> {
    let [state, peer, limit, srtt, rttvar] = [row[9], row[10], row[11], row[12], row[13]];
    within(state, 2)?;
    within(peer, BITS_32)?;
    within(limit, BITS_16)?;
    within(srtt, BITS_32)?;
    within(rttvar, BITS_32)?;
    let [next, flight, window] = [row[19], row[20], row[21]];
    within(flight, if has_sender { BITS_16 } else { 0 })?;
    is_sequence(next)?;
    within(window, BITS_16)?;
    let [first, receive_window, advanced] = [row[27], row[28], row[31]];
    holds(first < SEQUENCES || first == NO_SEQUENCE, SequenceTooLarge)?;
    within(receive_window, BITS_16)?;
    is_sequence(advanced)
}

/// A queued event; it answers the count of a packet, or 0. Only data has the words behind the reason.
fn event(word: &[u64], seen: &mut Seen) -> Result<u64, Rule> {
    let [kind, reason, sequence, count] = [word[0], word[1], word[2], word[3]];
    within(kind, 3)?;
    within(reason, BITS_32)?;
    if kind != 0 {
        return Ok(0);
    }
    let [message, timestamp, cell, length] = [word[4], word[5], word[7], word[8]];
    is_sequence(sequence)?;
    packet(count, message, timestamp, length)?;
    seen.name(cell)?;
    Ok(count)
}

fn packet(count: u64, message: u64, timestamp: u64, length: u64) -> Result<(), Rule> {
    holds((1..=BITS_16).contains(&count), OutOfRange)?;
    within(message, BITS_32)?;
    within(timestamp, BITS_32)?;
    within(length, CELL)
}

/// The index ascends by sequence (reading 33); each word has the cell too, by which the packet's row is found. It is a ring, whose start stands
/// in the free word of the first row.
fn held_packets(state: State<'_>, seen: &mut Seen) -> Result<(), Rule> {
    let start = state.pending[MAX_CELLS as usize + PACKET - 1];
    let mut before = None;
    for place in 0..state.record[5] {
        let word = state.pending[(start.wrapping_add(place) % MAX_CELLS) as usize];
        let (sequence, cell) = (word / MAX_CELLS, word % MAX_CELLS);
        is_sequence(sequence)?;
        holds(before < Some(sequence), HeldSequenceTwice)?;
        before = Some(sequence);
        let at = MAX_CELLS as usize + cell as usize * PACKET;
        let row = &state.pending[at..at + PACKET];
        let [count, message, timestamp, length, leg, owned] =
            [row[0], row[1], row[2], row[4], row[5], row[6]];
        packet(count, message, timestamp, length)?;
        within(leg, BITS_32)?;
        within(owned, 1)?;
        seen.name(cell)?;
        seen.reserve(owned == 1, leg, count)?;
    }
    Ok(())
}

/// Data does not wait.
fn waiting(state: State<'_>) -> Result<(), Rule> {
    for row in state.waiting.chunks(3).take(state.record[6] as usize) {
        let [leg, kind, reason] = [row[0], row[1], row[2]];
        within(leg, BITS_32)?;
        holds((1..=3).contains(&kind), OutOfRange)?;
        within(reason, BITS_32)?;
    }
    Ok(())
}

fn history(state: State<'_>, seen: &mut Seen) -> Result<(), Rule> {
    let (start, length) = (state.record[18], state.record[19]);
    for place in 0..length {
        let word = state.history[(start.wrapping_add(place) % MAX_HISTORY) as usize];
        is_sequence(word >> 22)?;
        within(word % 2_048, CELL)?;
        seen.name(word / 2_048 % MAX_CELLS)?;
    }
    Ok(())
}
