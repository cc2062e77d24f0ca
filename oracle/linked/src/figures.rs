//! What was compared.

use std::collections::BTreeMap;

use crate::list::{self, Broken};

#[derive(Default)]
pub struct Figures {
    pub seeds: u64,
    calls: u64,
    /// Calls by their name and code.
    codes: BTreeMap<(String, u32), u64>,
    pub short: u64,
    pub looks: u64,
    /// Changed states that break no rule, and those that break some.
    unbroken: u64,
    broken: u64,
    /// How often a rule was broken alone, and how often with others.
    rules: BTreeMap<&'static str, [u64; 2]>,
    /// Legs handed over with one word changed, by the code that says so, or 0.
    handed: BTreeMap<u32, u64>,
}

impl Figures {
    /// A call, by the Rust's answer to it.
    pub fn count(&mut self, answer: &str) {
        let mut words = answer.split(' ');
        let name = words.next().unwrap_or_default().to_string();
        let code = words.next().and_then(|code| code.parse().ok());
        *self.codes.entry((name, code.unwrap_or(0))).or_default() += 1;
        self.calls += 1;
    }

    pub fn changed(&mut self, broken: &Broken) {
        match broken.len() {
            0 => self.unbroken += 1,
            _ => self.broken += 1,
        }
        let with_others = usize::from(broken.len() > 1);
        for rule in broken {
            self.rules.entry(rule).or_default()[with_others] += 1;
        }
    }

    pub fn handed(&mut self, code: u32) {
        *self.handed.entry(code).or_default() += 1;
    }

    pub fn print(&self) {
        for ((name, code), times) in &self.codes {
            println!("{times:>9}  {name} {code}");
        }
        for rule in list::names() {
            let [alone, with_others] = self.rules.get(rule).copied().unwrap_or_default();
            println!("{alone:>9}  broken alone, {with_others:>6} with others: {rule}");
        }
        println!("{:>9}  a changed state: 6", self.broken);
        println!("{:>9}  a changed state: no rule broken", self.unbroken);
        for (code, times) in &self.handed {
            println!("{times:>9}  one word changed of a leg that is handed over: {code}");
        }
        println!("{:>9}  a slice short by one: 5", self.short);
        println!("{:>9}  all looks", self.looks);
        println!("{} seeds, {} calls: no difference", self.seeds, self.calls);
    }
}
