//! Changes of a state that a word at random hardly makes: a number at the edge of its own range, a packet's count with the sums that have it, a
//! packet of another member with the sums of both, a cell that another payload names. So a rule is broken without the sums, or not at all.

use oracle::generate::prng::Prng;

use crate::list::{self, LAST_SEQUENCE, LONGEST, Range};
use crate::memory::{Memory, Part};
use crate::raw;
use crate::rules;
use crate::shown::{EVENT_WORDS, EVENTS, PACKET_WORDS, QUEUE_LENGTH, QUEUE_START};

/// Words of a member's row: the reserved sum and the leg's reservation; of the record: the own sum.
const RESERVED: usize = 4;
const RESERVATION: usize = 30;
const OWN: usize = 12;
/// Words of a queued event: the count and the cell.
const COUNT: usize = 3;
const CELL: usize = 7;

/// Change the state; say how. None where it has no such row.
pub fn change(memory: &mut Memory, prng: &mut Prng) -> Option<String> {
    match prng.below(7) {
        0 | 1 => edge(memory, prng),
        2 => count(memory, prng),
        3 => owner(memory, prng),
        4 => cell(memory, prng),
        5 => waiting(memory, prng),
        _ => packed(memory, prng),
    }
}

/// The largest number that a word of a row in use may hold, or one more.
fn edge(memory: &mut Memory, prng: &mut Prng) -> Option<String> {
    let (part, row, ranges) = row_in_use(memory, prng)?;
    let range = &ranges[prng.below(ranges.len() as u64) as usize];
    let new = range.largest + prng.below(2);
    memory.words_mut(part)?[row + range.word] = new;
    Some(format!("{} of the row at {row} is {new}", range.name))
}

fn row_in_use(memory: &Memory, prng: &mut Prng) -> Option<(Part, usize, &'static [Range])> {
    let record = &memory.record;
    Some(match prng.below(4) {
        0 => (Part::Record, 0, &list::RECORD),
        1 => {
            let place = below(record[4], prng)?;
            (Part::Members, place * raw::ROW_WORDS, &list::MEMBER)
        }
        2 => {
            let (_, at) = queued_event(memory, prng)?;
            match memory.members[at] {
                0 if prng.chance(3, 4) => (Part::Members, at, &list::QUEUED),
                _ => (Part::Members, at, &list::EVENT),
            }
        }
        _ => {
            let held = memory.index_word(below(record[5], prng)? as u64);
            (Part::Pending, packet_at(held), &list::HELD)
        }
    })
}

fn below(limit: u64, prng: &mut Prng) -> Option<usize> {
    (limit > 0).then(|| prng.below(limit) as usize)
}

/// A member's row and a queued event in it, by their first words.
fn queued_event(memory: &Memory, prng: &mut Prng) -> Option<(usize, usize)> {
    let row = below(memory.record[4], prng)? * raw::ROW_WORDS;
    let [start, length] = [QUEUE_START, QUEUE_LENGTH].map(|word| memory.members[row + word]);
    let place = below(length, prng)? as u64;
    let place = start.wrapping_add(place) % raw::MAX_QUEUED;
    Some((row, row + EVENTS + place as usize * EVENT_WORDS))
}

fn queued_packet(memory: &Memory, prng: &mut Prng) -> Option<(usize, usize)> {
    queued_event(memory, prng).filter(|&(_, at)| memory.members[at] == 0)
}

/// The first word of the row of a held packet, by its index word.
fn packet_at(index_word: u64) -> usize {
    raw::MAX_CELLS + index_word as usize % raw::MAX_CELLS * PACKET_WORDS
}

/// Put the counts of the packet of this row into the sums that have it, or take them out.
fn account(memory: &mut Memory, at: usize, puts_in: bool) {
    let [count, member, owned] = [0, 5, 6].map(|word| memory.pending[at + word]);
    let add = if puts_in { count } else { count.wrapping_neg() };
    if owned == 1 {
        memory.record[OWN] = memory.record[OWN].wrapping_add(add);
        return;
    }
    let rows = memory.members.chunks_mut(raw::ROW_WORDS);
    let mut rows = rows.take(memory.record[4] as usize);
    if let Some(row) = rows.find(|row| row[0] == member) {
        for sum in [RESERVED, RESERVATION] {
            row[sum] = row[sum].wrapping_add(add);
        }
    }
}

/// Another count of a queued or a held packet, with its sums.
fn count(memory: &mut Memory, prng: &mut Prng) -> Option<String> {
    let new = prng.pick(&[0, 1, 65_535, 65_536]);
    if prng.chance(1, 2) {
        let (row, at) = queued_packet(memory, prng)?;
        let old = memory.members[at + COUNT];
        memory.members[at + COUNT] = new;
        let sum = memory.members[row + RESERVATION].wrapping_sub(old);
        memory.members[row + RESERVATION] = sum.wrapping_add(new);
        return Some(format!("the count of the event at {at} is {new}"));
    }
    let at = packet_at(memory.index_word(below(memory.record[5], prng)? as u64));
    account(memory, at, false);
    memory.pending[at] = new;
    account(memory, at, true);
    Some(format!("the count of the packet at {at} is {new}"))
}

/// A held packet is another member's, nobody's or the group's own, with the sums.
fn owner(memory: &mut Memory, prng: &mut Prng) -> Option<String> {
    let at = packet_at(memory.index_word(below(memory.record[5], prng)? as u64));
    let member = match below(memory.record[4], prng) {
        Some(place) if prng.chance(1, 2) => memory.members[place * raw::ROW_WORDS],
        _ => prng.pick(&[1, (1 << 32) - 1, 1 << 32]),
    };
    let owned = prng.below(2);
    account(memory, at, false);
    memory.pending[at + 5] = member;
    memory.pending[at + 6] = owned;
    account(memory, at, true);
    Some(format!("the packet at {at} is of {member}, owned {owned}"))
}

/// A queued or held packet or an entry of the history names another's cell, or one at the store's end.
fn cell(memory: &mut Memory, prng: &mut Prng) -> Option<String> {
    let new = match prng.below(4) {
        0 => rules::cells_of(memory.store.length() as u64) - prng.below(2),
        1 => memory.members[queued_packet(memory, prng)?.1 + CELL],
        2 => memory.index_word(below(memory.record[5], prng)? as u64) % 2_048,
        _ => memory.history[entry_at(memory, prng)?] / 2_048 % 2_048,
    };
    let who = match prng.below(3) {
        0 => {
            let (_, at) = queued_packet(memory, prng)?;
            memory.members[at + CELL] = new;
            "queued"
        }
        1 => {
            move_held(memory, new % 2_048, prng)?;
            "held"
        }
        _ => {
            let at = entry_at(memory, prng)?;
            let word = memory.history[at];
            memory.history[at] = (word & !(0x7FF << 11)) | ((new % 2_048) << 11);
            "history"
        }
    };
    Some(format!("{who} payload names cell {new}"))
}

/// A held packet with its row to another cell. If that is a held one's too, the row is the other's.
fn move_held(memory: &mut Memory, cell: u64, prng: &mut Prng) -> Option<()> {
    let held = memory.record[5];
    let place = below(held, prng)? as u64;
    let old = memory.index_word(place);
    let is_held = (0..held).any(|place| memory.index_word(place) % 2_048 == cell);
    let [from, to] = [old, cell].map(packet_at);
    account(memory, from, false);
    if !is_held {
        // the last word of a row is free, and of the first one the index's start
        memory.pending.copy_within(from..from + 7, to);
    }
    account(memory, to, true);
    let at = memory.index_at(place);
    memory.pending[at] = old & !0x7FF | cell;
    Some(())
}

/// The held packets and the waiting events of a new group at their limits: the packets its own, each in its cell and of the largest count. No rule is
/// broken; no call of a run gets here.
pub fn fill(memory: &mut Memory) {
    let cells = raw::MAX_CELLS as u64;
    for cell in 0..cells {
        let at = memory.index_at(cell);
        memory.pending[at] = cell * cells + cell;
        memory.pending[packet_at(cell)..][..7].copy_from_slice(&[65_535, 0, 0, 0, 0, 7, 1]);
    }
    let waiting = memory.waiting.chunks_mut(3);
    waiting.for_each(|row| row.copy_from_slice(&[7, 1, 0]));
    memory.record[5] = cells;
    memory.record[6] = memory.waiting.length() as u64 / 3;
    memory.record[OWN] = cells * 65_535;
}

/// One event more waits, with a word at the edge of its range.
fn waiting(memory: &mut Memory, prng: &mut Prng) -> Option<String> {
    let place = memory.record[6];
    if place as usize == raw::WAITING_WORDS / 3 {
        return None;
    }
    let range = &list::WAITING[prng.below(3) as usize];
    let new = prng.pick(&[0, range.largest, range.largest + 1]);
    let mut row = [prng.below(1 << 32), 1 + prng.below(3), prng.below(1 << 32)];
    row[range.word] = new;
    memory.waiting[place as usize * 3..][..3].copy_from_slice(&row);
    memory.record[6] += 1;
    Some(format!("one event more waits, {} {new}", range.name))
}

/// Where an entry of the history stands.
fn entry_at(memory: &Memory, prng: &mut Prng) -> Option<usize> {
    let place = below(memory.record[19], prng)? as u64;
    Some((memory.record[18].wrapping_add(place) % 512) as usize)
}

/// A sequence or a length inside a word: at the edge of its range, or by another's sequence.
fn packed(memory: &mut Memory, prng: &mut Prng) -> Option<String> {
    if prng.chance(1, 2) {
        let at = entry_at(memory, prng)?;
        let old = memory.history[at];
        let new = match prng.below(2) {
            0 => (old % (1 << 22)) | ((LAST_SEQUENCE + prng.below(2)) << 22),
            _ => (old & !0x7FF) | (LONGEST + prng.below(2)),
        };
        memory.history[at] = new;
        return Some(format!("the history at {at} is {new}, not {old}"));
    }
    let held = memory.record[5];
    let place = below(held, prng)? as u64;
    let sequence = match prng.below(3) {
        0 => memory.index_word((place + 1) % held) / 2_048,
        1 => (memory.index_word((place + 1) % held) / 2_048).wrapping_sub(1) & LAST_SEQUENCE,
        _ => LAST_SEQUENCE + prng.below(2),
    };
    let place = if sequence < LAST_SEQUENCE {
        place
    } else {
        held - 1
    };
    let at = memory.index_at(place);
    let old = memory.pending[at];
    memory.pending[at] = sequence * 2_048 + old % 2_048;
    Some(format!(
        "the index at {at} is of {sequence}, not {}",
        old / 2_048
    ))
}
