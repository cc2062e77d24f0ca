//! The calls of one seed through the Rust and through the library, the public calls and the forms for a valid state each over a memory
//! of its own, compared after each call.

use std::collections::BTreeMap;

use oracle::calls::Calls;
use oracle::generate::prng::Prng;
use oracle::trace;

use crate::figures::Figures;
use crate::library::{self, Call};
use crate::memory::Memory;
use crate::raw;
use crate::{looks, refused, script, shown};

pub struct Run<'a> {
    judge: Calls,
    public: Memory,
    valid: Memory,
    /// The rows in which removals gave legs back, by id.
    in_hand: BTreeMap<u64, Vec<u64>>,
    prng: Prng,
    /// The state before the call.
    trace: String,
    figures: &'a mut Figures,
}

/// Cells of the store before a `store` call says otherwise.
const CELLS: usize = 40;

/// Run the calls of a seed; the first difference, with the call and the state before it.
pub fn seed(seed: u64, figures: &mut Figures) -> Result<(), String> {
    let mut prng = Prng::new(!seed);
    let lines = script::of(seed, &mut prng);
    let public = Memory::new(CELLS, &mut prng);
    let mut run = Run {
        judge: Calls::new(),
        valid: public.clone(),
        public,
        in_hand: BTreeMap::new(),
        prng,
        trace: String::new(),
        figures,
    };
    for (number, line) in lines.into_iter().enumerate() {
        run.step(&line).map_err(|what| {
            format!(
                "seed {seed}, call {number}: {line}\n{what}\nstate before:\n{}",
                run.trace
            )
        })?;
    }
    run.figures.seeds += 1;
    Ok(())
}

fn equal(what: &str, rust: &str, library: &str) -> Result<(), String> {
    if rust == library {
        return Ok(());
    }
    let at = rust.lines().zip(library.lines()).position(|(a, b)| a != b);
    let at = at.unwrap_or(rust.lines().count().min(library.lines().count()));
    let line = |text: &str| text.lines().nth(at).unwrap_or("nothing more").to_string();
    Err(format!(
        "{what}\nthe Rust:    {}\nthe library: {}",
        line(rust),
        line(library)
    ))
}

fn holds(is: bool, what: impl FnOnce() -> String) -> Result<(), String> {
    if is { Ok(()) } else { Err(what()) }
}

impl Run<'_> {
    fn step(&mut self, line: &str) -> Result<(), String> {
        let call = Call::read(line);
        let had_group = self.judge.gateway.group().is_some();
        self.prepare(&call);
        // A leg that is not in hand is no call.
        let Some(answer) = self.judge.step(line) else {
            return Ok(());
        };
        match call.name {
            "store" => return self.store(call.numbers[0] as usize),
            "new" => self.new_group(&call, &answer)?,
            _ => self.call(&call, &answer, had_group)?,
        }
        self.figures.count(&answer);
        Ok(())
    }

    fn store(&mut self, cells: usize) -> Result<(), String> {
        self.public = Memory::new(cells, &mut self.prng);
        self.valid = self.public.clone();
        self.in_hand.clear();
        Ok(())
    }

    /// The row of a leg that is handed over, or any row for one that is given back.
    fn prepare(&mut self, call: &Call<'_>) {
        let mut row: Vec<u64> = (0..raw::ROW_WORDS).map(|_| self.prng.next()).collect();
        match (call.name, &call.numbers[..]) {
            ("add", &[_, _, state, next, first, window, latency, flight]) => {
                hand_over(&mut row, [state, next, first, window, latency, flight]);
            }
            ("readd", &[id, _]) => match self.in_hand.get(&id) {
                Some(kept) => row.copy_from_slice(kept),
                None => return,
            },
            ("remove", _) => {}
            _ => return,
        }
        for memory in [&mut self.public, &mut self.valid] {
            memory.row.copy_from_slice(&row);
        }
    }

    /// The store's length is given at the start, or not.
    fn new_group(&mut self, call: &Call<'_>, answer: &str) -> Result<(), String> {
        let (id, mode) = (call.numbers[0], call.numbers[1]);
        let length = self.prng.pick(&[0, self.public.store.length()]);
        refused::short_start(&self.public, id, mode)?;
        for memory in [&mut self.public, &mut self.valid] {
            let code = library::new(memory, id, mode, length);
            equal("answer", answer, &format!("new {code}"))?;
        }
        self.compare_state(0)?;
        let begun = library::begin(&mut self.valid);
        let has_group = self.judge.gateway.group().is_some();
        let right = begun == if has_group { 0 } else { 6 };
        holds(right, || format!("begun with code {begun}"))?;
        self.compare_forms(begun == 0)
    }

    fn call(&mut self, call: &Call<'_>, answer: &str, had_group: bool) -> Result<(), String> {
        self.refusals(call, had_group)?;
        let removed = if had_group { self.removed(call) } else { None };
        let code = self.public_call(call, answer)?;
        self.valid_form(call, code, had_group)?;
        self.compare_removed(removed, code)?;
        self.keep_leg(call, code);
        self.looks()
    }

    /// The public call beside the Rust's answer; its code.
    fn public_call(&mut self, call: &Call<'_>, answer: &str) -> Result<u32, String> {
        let is_send = call.name.starts_with("send");
        let list = is_send.then(|| self.public.list.to_vec());
        let (said, behind) = (self.public.answer.to_vec(), self.public.behind());
        let code = library::public(&mut self.public, call).ok_or("the library has no such call")?;
        let library = words(&self.public, call, code);
        equal("answer", &comparable(answer), &library)?;
        self.compare_answer(call, code, &said)?;
        let sent = if is_send { self.public.answer[1] } else { 0 } as usize;
        if let Some(list) = list {
            let from = sent * raw::SENT_ROW_WORDS;
            let same = self.public.list[from..] == list[from..];
            holds(same, || "a row behind the sends changed".to_string())?;
        }
        let same = self.public.behind() == behind;
        holds(same, || "what is not lent changed".to_string())?;
        self.compare_state(sent)?;
        Ok(code)
    }

    /// The form for a valid state over its own memory; the public call where there is none, or no group.
    fn valid_form(&mut self, call: &Call<'_>, code: u32, had_group: bool) -> Result<(), String> {
        let form = had_group.then(|| library::valid(&mut self.valid, call));
        let form = form.flatten();
        let form = form.or_else(|| library::public(&mut self.valid, call));
        holds(form == Some(code), || {
            format!("public {code}, for a valid state {form:?}")
        })?;
        self.compare_forms(had_group)
    }

    /// The call with a short slice, and over states that break a rule, on copies.
    fn refusals(&mut self, call: &Call<'_>, had_group: bool) -> Result<(), String> {
        let seldom = 1 + self.public.store.length() as u64 / (200 * raw::CELL as u64);
        if self.prng.chance(1, 4 * seldom)
            && let Some(done) = refused::short(&self.public, call, &mut self.prng)
        {
            done?;
            self.figures.short += 1;
        }
        if self.prng.chance(1, seldom) {
            let changed = refused::changed(&self.public, call, &mut self.prng)?;
            self.figures.changed(&changed);
        }
        if matches!(call.name, "add" | "readd") && had_group {
            let code = refused::handed(&self.public, call, &mut self.prng)?;
            self.figures.handed(code);
        }
        Ok(())
    }

    /// The words that the answer's row says; those behind them stay. A refused call says 0, but a send the rows that it filled.
    fn compare_answer(&self, call: &Call<'_>, code: u32, before: &[u64]) -> Result<(), String> {
        let says = call.says();
        let answer = &self.public.answer;
        holds(answer[says..] == before[says..], || {
            "a word behind the answer changed".to_string()
        })?;
        let zeros = if call.name.starts_with("send") {
            1
        } else {
            says
        };
        let silent = code == 0 || answer[..zeros].iter().all(|&word| word == 0);
        holds(silent, || {
            format!("refused with {code}, and said {:?}", &answer[..says])
        })
    }

    /// State, send list, store and output: the Rust's and the library's.
    fn compare_state(&mut self, sent: usize) -> Result<(), String> {
        let mut rust = Vec::new();
        trace::write(&self.judge.gateway, &mut rust).map_err(|error| error.to_string())?;
        let rust = String::from_utf8(rust).map_err(|error| error.to_string())?;
        let rust = rust.replace("advanced=-", "advanced=0");
        equal("state", &rust, &shown::trace(&self.public, sent))?;
        let gateway = &self.judge.gateway;
        holds(self.public.store[..] == *gateway.store(), || {
            "the store's bytes".to_string()
        })?;
        holds(self.public.output[..] == *gateway.output(), || {
            "the output's bytes".to_string()
        })?;
        self.trace = rust;
        Ok(())
    }

    /// What the public calls and the forms for a valid state left is the same, and the set shows the cells in use.
    fn compare_forms(&self, has_set: bool) -> Result<(), String> {
        if let Some(place) = self.public.difference(&self.valid) {
            return Err(format!("public and for a valid state: {place}"));
        }
        let same = !has_set || shown::set_cells(&self.valid) == shown::used_cells(&self.public);
        holds(same, || "the set of used cells".to_string())
    }

    /// Now and then both forms of `remove_member`, which drops the leg, over copies.
    fn removed(&mut self, call: &Call<'_>) -> Option<[(u32, Memory); 2]> {
        if call.name != "remove" || !self.prng.chance(1, 4) {
            return None;
        }
        let id = call.numbers[0];
        let [mut public, mut valid] = [self.public.clone(), self.valid.clone()];
        let codes = [
            library::remove_member(&mut public, id),
            library::remove_member_valid(&mut valid, id),
        ];
        Some([(codes[0], public), (codes[1], valid)])
    }

    /// They leave what the removal leaves that gives the leg back, but for the row.
    fn compare_removed(
        &self,
        removed: Option<[(u32, Memory); 2]>,
        code: u32,
    ) -> Result<(), String> {
        for (given, mut memory) in removed.into_iter().flatten() {
            memory.row.copy_from_slice(&self.public.row);
            let difference = memory.difference(&self.public);
            holds(given == code && difference.is_none(), || {
                format!("remove_member: code {given}, {difference:?}")
            })?;
        }
        Ok(())
    }

    fn keep_leg(&mut self, call: &Call<'_>, code: u32) {
        match (call.name, code) {
            ("remove", 0) => {
                self.in_hand
                    .insert(call.numbers[0], self.public.row.to_vec());
            }
            ("readd", 20 | 21) => {}
            ("readd", _) => {
                self.in_hand.remove(&call.numbers[0]);
            }
            _ => {}
        }
    }

    fn looks(&mut self) -> Result<(), String> {
        if !self.prng.chance(1, 8) {
            return Ok(());
        }
        looks::compare(&self.judge.gateway, &mut self.public)?;
        looks::compare(&self.judge.gateway, &mut self.valid)?;
        self.figures.looks += 1;
        Ok(())
    }
}

/// The words of a leg's row that an addition reads.
fn hand_over(row: &mut [u64], [state, next, first, window, latency, flight]: [u64; 6]) {
    // the link, the round trip, the sender but `started`, and the receiver; then the queue's length
    row[9..15].copy_from_slice(&[state, 0, 1_456, 0, 0, 0]);
    row[19..24].copy_from_slice(&[next, flight, window, 0, 0]);
    row[27..32].copy_from_slice(&[first, 8_192, latency, 0, 0]);
    row[33] = 0;
}

/// The Rust's answer, without the cell of a packet that was given, of which the library says nothing.
fn comparable(answer: &str) -> String {
    let words: Vec<&str> = answer
        .split(' ')
        .filter(|word| !word.starts_with("cell="))
        .collect();
    words.join(" ").replace("advanced=-", "advanced=0")
}

/// The library's answer in the judge's words.
fn words(memory: &Memory, call: &Call<'_>, code: u32) -> String {
    let name = call.name;
    if code != 0 {
        return format!("{name} {code}");
    }
    let answer = &memory.answer;
    let words = match name {
        "remove" => shown::leg(call.numbers[0], &memory.row),
        "poll_data" => shown::packet(memory, &answer[1..8]),
        "poll_data_bounded" => format!(
            "continuation={} {}",
            answer[0],
            shown::packet(memory, &answer[1..8])
        ),
        "poll_event" if answer[0] == 0 => shown::packet(memory, &answer[1..8]),
        "poll_event" => shown::event(answer[0], answer[1], answer[2]),
        "collision" if answer[7] == 0 => "none".to_string(),
        "collision" => format!("expected={} actual={}", answer[6], answer[7]),
        "stability" if answer[0] == 0 => "none".to_string(),
        _ if call.says() > 0 => answer[0].to_string(),
        _ => return format!("{name} 0"),
    };
    format!("{name} 0 {words}")
}
