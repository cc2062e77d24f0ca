//! Listings from a seed. Each profile makes one kind of thing happen often; `mixed` does all of it at once.

pub mod calls;
mod lines;
mod members;
pub mod prng;
mod rare;
mod receive;
pub mod script;
mod send;

use script::Script;

type Profile = fn(&mut Script);

/// The profiles in the order in which seeds go round them.
const PROFILES: [(&str, Profile); 17] = [
    ("gaps", receive::gaps),
    ("wrap", receive::wrap),
    ("runs", receive::runs),
    ("skips", receive::skips),
    ("budget", receive::budget),
    ("removal", receive::removal),
    ("returned", receive::returned),
    ("events", members::events),
    ("peers", members::peers),
    ("crowd", members::crowd),
    ("full", members::full),
    ("broadcast", send::broadcast),
    ("backup", send::backup),
    ("failover", send::failover),
    ("rare", rare::rare),
    ("malformed", lines::malformed),
    ("mixed", send::mixed),
];

/// The listing of one seed; without a profile's name the seed chooses it.
pub fn listing(seed: u64, profile: Option<&str>) -> Option<Script> {
    let (_, make) = match profile {
        Some(name) => *PROFILES.iter().find(|(known, _)| *known == name)?,
        None => PROFILES[(seed % PROFILES.len() as u64) as usize],
    };
    let mut script = Script::new(seed);
    make(&mut script);
    Some(script)
}

pub fn profile_names() -> Vec<&'static str> {
    PROFILES.iter().map(|(name, _)| *name).collect()
}
