//! What is called: the generated calls of a seed, and its generated listing as calls.

use oracle::generate::{self, prng::Prng};
use oracle::listing;
use oracle::replay;

use crate::raw;

/// The calls of a seed and then, with a store and a group of its own, its listing. By seed, payloads are of any length.
pub fn of(seed: u64, prng: &mut Prng) -> Vec<String> {
    let mut lines = generate::calls::listing(seed);
    lines.push(format!("store {}", replay::CELLS));
    let listing = generate::listing(seed, None);
    let listing = listing.expect("the seed chooses a profile").lines;
    lines.extend(listing.iter().filter_map(|line| call(line)));
    // Seeds go round 16 kinds of calls and 17 profiles of listings.
    match seed / 17 % 2 {
        0 => lines,
        _ => lines
            .into_iter()
            .map(|line| any_length(line, prng))
            .collect(),
    }
}

/// The call of a listing's line; none where the listing itself refuses the line.
fn call(line: &[u8]) -> Option<String> {
    let [verb, a, b, c, d, e, f, g] = listing::parse_line(line)?;
    Some(match verb {
        1 => format!("new {a} {b}"),
        2 => format!("add {a} {b} {c} {d} {e} {f} {g} 0"),
        3 => format!("reading {a} {b} {c}"),
        4 if e < 256 => format!("data {a} {b} {c} {d} 0 0 1 {e}"),
        5 => format!("poll_data {a}"),
        6 if a < 256 => format!("send {b} 1 {a}"),
        7 => format!("remove {a}"),
        8 => format!("broken {a}"),
        9 => format!("event {a} {b} {c}"),
        _ => return None,
    })
}

/// A payload of any length up to one too many.
fn any_length(line: String, prng: &mut Prng) -> String {
    let mut words: Vec<&str> = line.split(' ').collect();
    if !matches!(words[0], "data" | "send" | "send_shared") {
        return line;
    }
    let length = prng.below(raw::CELL as u64 + 2).to_string();
    let at = words.len() - 2;
    words[at] = &length;
    words.join(" ")
}
