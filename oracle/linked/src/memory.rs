//! What a host lends to the library's calls.

use std::ops::{Deref, DerefMut};

use oracle::generate::prng::Prng;

use crate::raw;
use crate::rules::State;
use crate::shown::PACKET_WORDS;

/// A lent slice. Behind it stands memory that is not lent: a call that writes there is found.
#[derive(Clone)]
pub struct Lent<T> {
    all: Vec<T>,
    length: usize,
}

const BEHIND: usize = 16;

impl<T: Copy> Lent<T> {
    fn new(length: usize, mut element: impl FnMut() -> T) -> Self {
        let all = (0..length + BEHIND).map(|_| element()).collect();
        Self { all, length }
    }

    pub fn pointer(&mut self) -> *mut T {
        self.all.as_mut_ptr()
    }

    pub fn length(&self) -> usize {
        self.length
    }

    /// Lend so many elements from now on: fewer, or some that stood behind.
    pub fn lend(&mut self, length: usize) {
        assert!(length <= self.all.len());
        self.length = length;
    }
}

impl<T> Deref for Lent<T> {
    type Target = [T];

    fn deref(&self) -> &[T] {
        &self.all[..self.length]
    }
}

impl<T> DerefMut for Lent<T> {
    fn deref_mut(&mut self) -> &mut [T] {
        &mut self.all[..self.length]
    }
}

/// The slices that calls are lent, but `used`.
#[derive(Debug, Clone, Copy, PartialEq, Eq)]
pub enum Part {
    Record,
    Members,
    Pending,
    Waiting,
    History,
    Sources,
    Store,
    Output,
    List,
    Row,
    Shown,
    Answer,
}

/// The record and the tables, which every call but `new` is lent.
pub const STATE: [Part; 6] = [
    Part::Record,
    Part::Members,
    Part::Pending,
    Part::Waiting,
    Part::History,
    Part::Sources,
];

#[derive(Clone)]
pub struct Memory {
    pub record: Lent<u64>,
    pub members: Lent<u64>,
    pub pending: Lent<u64>,
    pub waiting: Lent<u64>,
    pub history: Lent<u64>,
    pub sources: Lent<u64>,
    pub store: Lent<u8>,
    pub output: Lent<u8>,
    /// The list of sends.
    pub list: Lent<u64>,
    /// A leg that is handed over or given back.
    pub row: Lent<u64>,
    /// The members, as a look shows them.
    pub shown: Lent<u64>,
    pub answer: Lent<u64>,
    /// The set of used cells, for the forms for a valid state; no part of what is compared.
    pub used: Lent<u64>,
}

impl Memory {
    /// The store, the output and the record are zeros: no group was made. The words of the tables are any: no row is in use.
    pub fn new(cells: usize, prng: &mut Prng) -> Self {
        let mut any = |length| Lent::new(length, || prng.next());
        Self {
            record: Lent::new(raw::RECORD_WORDS, || 0),
            members: any(raw::MEMBERS_WORDS),
            pending: any(raw::PENDING_WORDS),
            waiting: any(raw::WAITING_WORDS),
            history: any(raw::HISTORY_WORDS),
            sources: any(raw::HISTORY_WORDS),
            store: Lent::new(cells * raw::CELL, || 0),
            output: Lent::new(raw::OUTPUT, || 0),
            list: any(raw::SENT_WORDS),
            row: any(raw::ROW_WORDS),
            shown: any(raw::MEMBER_LIST_WORDS),
            answer: any(raw::POLL_ANSWER_WORDS),
            used: Lent::new(raw::USED_WORDS, || 0),
        }
    }

    fn all_words(&self) -> [(Part, &Lent<u64>); 10] {
        [
            (Part::Record, &self.record),
            (Part::Members, &self.members),
            (Part::Pending, &self.pending),
            (Part::Waiting, &self.waiting),
            (Part::History, &self.history),
            (Part::Sources, &self.sources),
            (Part::List, &self.list),
            (Part::Row, &self.row),
            (Part::Shown, &self.shown),
            (Part::Answer, &self.answer),
        ]
    }

    fn words(&self, part: Part) -> Option<&Lent<u64>> {
        let mut all = self.all_words().into_iter();
        all.find_map(|(name, words)| (name == part).then_some(words))
    }

    pub fn words_mut(&mut self, part: Part) -> Option<&mut Lent<u64>> {
        Some(match part {
            Part::Record => &mut self.record,
            Part::Members => &mut self.members,
            Part::Pending => &mut self.pending,
            Part::Waiting => &mut self.waiting,
            Part::History => &mut self.history,
            Part::Sources => &mut self.sources,
            Part::List => &mut self.list,
            Part::Row => &mut self.row,
            Part::Shown => &mut self.shown,
            Part::Answer => &mut self.answer,
            Part::Store | Part::Output => return None,
        })
    }

    pub fn length(&self, part: Part) -> usize {
        match part {
            Part::Store => self.store.length(),
            Part::Output => self.output.length(),
            _ => self.words(part).expect("words").length(),
        }
    }

    /// Lend so many elements of a part from now on.
    pub fn lend(&mut self, part: Part, length: usize) {
        match part {
            Part::Store => self.store.lend(length),
            Part::Output => self.output.lend(length),
            _ => self.words_mut(part).expect("words").lend(length),
        }
    }

    /// What stands behind the lent slices.
    pub fn behind(&self) -> Vec<u64> {
        let bytes = [&self.store, &self.output];
        let bytes = bytes.into_iter().flat_map(|lent| &lent.all[lent.length..]);
        let words = self.all_words().into_iter();
        let words = words.flat_map(|(_, lent)| &lent.all[lent.length..]);
        words
            .copied()
            .chain(bytes.map(|&byte| byte.into()))
            .collect()
    }

    /// Where the index word of a held packet stands: the index is a ring, and the free word of the first row is its start.
    pub fn index_at(&self, place: u64) -> usize {
        let start = self.pending[raw::MAX_CELLS + PACKET_WORDS - 1];
        (start.wrapping_add(place) % raw::MAX_CELLS as u64) as usize
    }

    pub fn index_word(&self, place: u64) -> u64 {
        self.pending[self.index_at(place)]
    }

    pub fn state(&self) -> State<'_> {
        State {
            record: &self.record,
            members: &self.members,
            pending: &self.pending,
            waiting: &self.waiting,
            history: &self.history,
        }
    }

    /// The first word or byte that is not the other memory's, what is not lent included.
    pub fn difference(&self, other: &Self) -> Option<String> {
        let words = self.all_words().into_iter().zip(other.all_words());
        let mut words = words.filter_map(|((part, a), (_, b))| place(part, &a.all, &b.all));
        words
            .next()
            .or_else(|| place(Part::Store, &self.store.all, &other.store.all))
            .or_else(|| place(Part::Output, &self.output.all, &other.output.all))
    }
}

/// The first place at which two slices differ, with both values.
fn place<T: Copy + PartialEq + std::fmt::Display>(part: Part, a: &[T], b: &[T]) -> Option<String> {
    if a == b {
        return None;
    }
    let at = a.iter().zip(b).position(|(a, b)| a != b)?;
    Some(format!("{part:?} at {at}: {} against {}", a[at], b[at]))
}
