//! One word changed at random: of the record or a table, or of a leg's row.

use oracle::generate::prng::Prng;

use crate::memory::{Memory, Part, STATE};
use crate::raw;
use crate::shown::{EVENT_WORDS, EVENTS, PACKET_WORDS, QUEUE_LENGTH, QUEUE_START};

/// The words of a member's row before its spare part: the membership and the leg.
const LEG_WORDS: u64 = 36;

/// Change one word of the record or a table, for most in a row that is in use; say which.
pub fn state_word(memory: &mut Memory, prng: &mut Prng) -> String {
    let (part, at, other) = place(memory, prng);
    put(memory, part, at, other, prng)
}

/// Change one word of the leg's row, for most one that an addition reads; say which.
pub fn row_word(memory: &mut Memory, prng: &mut Prng) -> String {
    let words = prng.pick(&[LEG_WORDS, LEG_WORDS, LEG_WORDS, raw::ROW_WORDS as u64]);
    let [at, other] = [(); 2].map(|()| prng.below(words) as usize);
    put(memory, Part::Row, at, other, prng)
}

fn put(memory: &mut Memory, part: Part, at: usize, other: usize, prng: &mut Prng) -> String {
    let words = memory.words_mut(part).expect("words");
    let (old, other) = (words[at], words[other]);
    let new = match new_word(old, other, prng) {
        same if same == old => old ^ 1,
        new => new,
    };
    words[at] = new;
    format!("{part:?} at {at} changed from {old} to {new}")
}

/// Numbers at the edges of ranges and counts.
const EDGES: [u64; 16] = [
    15,
    16,
    63,
    64,
    511,
    512,
    1_456,
    2_047,
    2_048,
    65_535,
    65_536,
    (1 << 31) - 1,
    1 << 31,
    (1 << 32) - 1,
    1 << 32,
    u64::MAX,
];

fn new_word(old: u64, other: u64, prng: &mut Prng) -> u64 {
    // A word of two tables has a cell in its lowest eleven bits, or in the next.
    let (low, next) = (0x7FF, 0x7FF << 11);
    match prng.below(8) {
        0 | 1 => old ^ 1 << prng.below(64),
        2 => prng.below(6),
        3 => other,
        4 => old & !low | other & low,
        5 => old & !next | other & next,
        6 => prng.pick(&EDGES).wrapping_add(prng.below(2)),
        _ => prng.pick(&[old.wrapping_add(1), old.wrapping_sub(1)]),
    }
}

/// A word, and that of another row in its place.
fn place(memory: &Memory, prng: &mut Prng) -> (Part, usize, usize) {
    let record = &memory.record;
    let [members, held, waiting, kept] = [4, 5, 6, 19].map(|word| record[word]);
    match prng.below(12) {
        0..=2 if members > 0 => in_member(members, prng),
        3..=4 if members > 0 => in_queue(memory, members, prng),
        5 if held > 0 => {
            let [a, b] = [(); 2].map(|()| memory.index_at(prng.below(held)));
            (Part::Pending, a, b)
        }
        6..=7 if held > 0 => in_packet(memory, held, prng),
        8 if waiting > 0 => in_rows(Part::Waiting, 3, 3, waiting, prng),
        9..=10 if kept > 0 => {
            let [a, b] = [(); 2].map(|()| record[18].wrapping_add(prng.below(kept)) as usize);
            let places = raw::HISTORY_WORDS;
            (Part::History, a % places, b % places)
        }
        11 => anywhere(memory, prng),
        _ => {
            let [a, b] = [(); 2].map(|()| prng.below(raw::RECORD_WORDS as u64) as usize);
            (Part::Record, a, b)
        }
    }
}

/// One of the first words of a row in use, in two rows.
fn in_rows(
    part: Part,
    size: usize,
    words: u64,
    rows: u64,
    prng: &mut Prng,
) -> (Part, usize, usize) {
    let word = prng.below(words) as usize;
    let [a, b] = [(); 2].map(|()| word + prng.below(rows) as usize * size);
    (part, a, b)
}

fn in_member(members: u64, prng: &mut Prng) -> (Part, usize, usize) {
    in_rows(Part::Members, raw::ROW_WORDS, LEG_WORDS, members, prng)
}

/// A word of a queued event, in two events of one queue; with an empty queue a word of a member.
fn in_queue(memory: &Memory, members: u64, prng: &mut Prng) -> (Part, usize, usize) {
    let row = prng.below(members) as usize * raw::ROW_WORDS;
    let [start, length] = [QUEUE_START, QUEUE_LENGTH].map(|word| memory.members[row + word]);
    if length == 0 {
        return in_member(members, prng);
    }
    let word = row + EVENTS + prng.below(EVENT_WORDS as u64) as usize;
    let [a, b] = [(); 2].map(|()| {
        let place = start.wrapping_add(prng.below(length)) % raw::MAX_QUEUED;
        word + place as usize * EVENT_WORDS
    });
    (Part::Members, a, b)
}

/// A word of a held packet's row, in two rows.
fn in_packet(memory: &Memory, held: u64, prng: &mut Prng) -> (Part, usize, usize) {
    let cells = [(); 2].map(|()| memory.index_word(prng.below(held)) as usize % raw::MAX_CELLS);
    let word = raw::MAX_CELLS + prng.below(PACKET_WORDS as u64) as usize;
    let [a, b] = cells.map(|cell| word + cell * PACKET_WORDS);
    (Part::Pending, a, b)
}

/// Any word, in use or not.
fn anywhere(memory: &Memory, prng: &mut Prng) -> (Part, usize, usize) {
    let part = prng.pick(&STATE);
    let words = memory.length(part) as u64;
    (part, prng.below(words) as usize, 0)
}
