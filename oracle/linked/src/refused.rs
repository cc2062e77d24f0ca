//! Calls that are refused before all else: with a slice too short (5), and over a state that breaks a rule (6). No byte may change.

use oracle::generate::prng::Prng;

use crate::change;
use crate::directed;
use crate::library::{self, Call};
use crate::list::{self, Broken};
use crate::memory::{Memory, Part};
use crate::raw;
use crate::rules;

const TOO_SHORT: u32 = 5;
const BROKEN: u32 = 6;

/// Make the call, which is to be refused with this code: then nothing has changed but the words of its answer, which are 0. They stay too
/// where the record or the answer's own row is too short.
fn refused(memory: &mut Memory, call: &Call<'_>, code: u32, answers: bool) -> Result<(), String> {
    let mut before = memory.clone();
    if answers {
        before.answer[..call.says()].fill(0);
    }
    let given = library::public(memory, call).ok_or("the library has no such call")?;
    if given != code {
        return Err(format!("code {given}, not {code}"));
    }
    memory.difference(&before).map_or(Ok(()), |place| {
        Err(format!("refused with {code}, and changed: {place}"))
    })
}

/// The call with one of its slices short by one, or an array of the history long by one. None where that is no 5: without a length given at
/// the start a shorter store has fewer cells.
pub fn short(memory: &Memory, call: &Call<'_>, prng: &mut Prng) -> Option<Result<(), String>> {
    let part = prng.pick(&call.parts());
    if part == Part::Store && memory.record[1] == 0 && memory.store.length() > raw::CELL {
        return None;
    }
    let mut memory = memory.clone();
    let length = match part {
        Part::Answer => call.says() - 1,
        Part::History | Part::Sources if prng.chance(1, 2) => memory.length(part) + 1,
        _ => memory.length(part) - 1,
    };
    memory.lend(part, length);
    let answers = !matches!(part, Part::Record | Part::Answer);
    let done = refused(&mut memory, call, TOO_SHORT, answers);
    Some(done.map_err(|what| format!("{part:?} of {length}: {what}")))
}

/// `new` with a record short by one, and the beginning of the forms for a valid state with a set of 31 or 33 words: 5, and nothing has changed.
pub fn short_start(memory: &Memory, id: u64, mode: u64) -> Result<(), String> {
    let mut short = memory.clone();
    short.record.lend(raw::RECORD_WORDS - 1);
    let made = library::new(&mut short, id, mode, 0);
    short.record.lend(raw::RECORD_WORDS);
    let begun = [raw::USED_WORDS - 1, raw::USED_WORDS + 1].map(|words| {
        short.used.lend(words);
        library::begin(&mut short)
    });
    let difference = short.difference(memory);
    match (made, begun, &difference) {
        (TOO_SHORT, [TOO_SHORT, TOO_SHORT], None) => Ok(()),
        _ => Err(format!("a short start: {made}, {begun:?}, {difference:?}")),
    }
}

/// The call over a copy of the memory, changed by a word at random or on purpose. It gives 6 exactly if both tests of code 6 say so, and so does the beginning of
/// the forms for a valid state. A call that goes on leaves a state that keeps the rules. It answers which rules the change breaks.
pub fn changed(memory: &Memory, call: &Call<'_>, prng: &mut Prng) -> Result<Broken, String> {
    let mut memory = memory.clone();
    let directed = match prng.chance(1, 2) {
        true => directed::change(&mut memory, prng),
        false => None,
    };
    let what = directed.unwrap_or_else(|| change::state_word(&mut memory, prng));
    let in_store = rules::cells_of(memory.store.length() as u64);
    let begun = match store_differs(&memory) {
        true => TOO_SHORT,
        false => code_of(&broken(&memory, in_store).map_err(|why| format!("{what}: {why}"))?),
    };
    let given = library::begin(&mut memory);
    if given != begun {
        return Err(format!("{what}: begun with code {given}, not {begun}"));
    }
    let stored = call.parts().contains(&Part::Store);
    let cells = if stored {
        in_store
    } else {
        rules::cells_given(&memory.record)
    };
    let rules = broken(&memory, cells).map_err(|why| format!("{what}: {why}"))?;
    let code = if stored { begun } else { code_of(&rules) };
    let done = match code {
        0 => goes_on(&mut memory, call, cells),
        code => refused(&mut memory, call, code, true),
    };
    done.map_err(|why| format!("{what} ({rules:?}): {why}"))?;
    Ok(rules)
}

/// The rules that the state breaks by `list.rs`, if `rules.rs` says the same.
fn broken(memory: &Memory, cells: u64) -> Result<Broken, String> {
    let rule = rules::check(memory.state(), cells);
    let broken = list::broken(memory.state(), cells);
    if rule.is_ok() != broken.is_empty() {
        return Err(format!("rules.rs says {rule:?}, list.rs {broken:?}"));
    }
    Ok(broken)
}

/// Held packets and waiting events at their limits break no rule; one more of either is 6.
pub fn full(prng: &mut Prng) -> Result<(), String> {
    let mut memory = Memory::new(raw::MAX_CELLS, prng);
    library::new(&mut memory, u64::from(raw::MASK), 0, 0);
    directed::fill(&mut memory);
    for (more, code) in [([0, 0], 0), ([1, 0], BROKEN), ([0, 1], BROKEN)] {
        let mut memory = memory.clone();
        memory.record[5] += more[0];
        memory.record[6] += more[1];
        let said = code_of(&broken(&memory, raw::MAX_CELLS as u64)?);
        let given = library::begin(&mut memory);
        if [said, given] != [code; 2] {
            return Err(format!(
                "full tables and {more:?}: {said}, {given}, not {code}"
            ));
        }
    }
    Ok(())
}

/// An addition that is handed a leg with one word of its row changed, for most one that is read: 6 or 2 as the independent test says, and then
/// no byte changes. It answers the code.
pub fn handed(memory: &Memory, call: &Call<'_>, prng: &mut Prng) -> Result<u32, String> {
    let mut memory = memory.clone();
    let what = change::row_word(&mut memory, prng);
    let cells = rules::cells_given(&memory.record);
    let code = rules::handed(&memory.row);
    let done = match code {
        0 => goes_on(&mut memory, call, cells),
        code => refused(&mut memory, call, code, true),
    };
    done.map_err(|why| format!("{what}: {why}"))?;
    Ok(code)
}

fn goes_on(memory: &mut Memory, call: &Call<'_>, cells: u64) -> Result<(), String> {
    let code = library::public(memory, call).ok_or("the library has no such call")?;
    if code == TOO_SHORT || code == BROKEN {
        return Err(format!("code {code}, though no rule is broken"));
    }
    let left = broken(memory, cells)?;
    if left.is_empty() {
        return Ok(());
    }
    Err(format!("code {code}, and left {left:?}"))
}

fn code_of(broken: &Broken) -> u32 {
    if broken.is_empty() { 0 } else { BROKEN }
}

/// A store's length was given at the start, and it is another.
fn store_differs(memory: &Memory) -> bool {
    let given = memory.record[1];
    given != 0 && given != memory.store.length() as u64 || memory.store.length() < raw::CELL
}
