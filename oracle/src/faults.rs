//! Deliberate faults: the judge must notice each of them. `faults/list` holds them, `faults/run` runs them.
//!
//! A fault is written as
//! ```text
//! fault NAME
//! in FILE [NUMBER]
//! - a line that goes (leading blanks do not count)
//! + a line that comes
//! ```
//! with as many `-` lines, which follow one another in the file, and `+` lines as it needs. NUMBER says which
//! of several such places is meant; without it there must be one only. A line `equivalent REASON` says that no
//! listing can show the fault, and why. A FILE below `source/` is one of the published files, any other is ours.

use std::io;
use std::path::Path;

#[derive(Debug, Default)]
pub struct Fault {
    pub name: String,
    pub file: String,
    place: Option<usize>,
    old: Vec<String>,
    new: Vec<String>,
    pub equivalent: Option<String>,
}

pub fn read(list: &str) -> Vec<Fault> {
    let mut faults: Vec<Fault> = Vec::new();
    for line in list.lines() {
        if let Some(name) = line.strip_prefix("fault ") {
            let name = name.to_string();
            faults.push(Fault {
                name,
                ..Fault::default()
            });
        } else if let Some(fault) = faults.last_mut() {
            read_line(fault, line);
        }
    }
    faults
}

fn read_line(fault: &mut Fault, line: &str) {
    if let Some(place) = line.strip_prefix("in ") {
        let mut words = place.split(' ');
        fault.file = words.next().unwrap_or_default().to_string();
        fault.place = words.next().and_then(|number| number.parse().ok());
    } else if let Some(old) = line.strip_prefix('-') {
        fault.old.push(old.trim().to_string());
    } else if let Some(new) = line.strip_prefix("+ ") {
        fault.new.push(new.to_string());
    } else if let Some(reason) = line.strip_prefix("equivalent ") {
        fault.equivalent = Some(reason.to_string());
    }
}

/// Make the fault in the tree's copy of its file.
pub fn apply(fault: &Fault, tree: &Path) -> io::Result<()> {
    let path = match fault.file.strip_prefix("source/") {
        Some(published) => tree
            .join("published/crates/srt-protocol/src")
            .join(published),
        None => tree.join("oracle").join(&fault.file),
    };
    let text = std::fs::read_to_string(&path)?;
    let lines: Vec<&str> = text.lines().collect();
    let start = find(fault, &lines).map_err(|problem| {
        io::Error::other(format!("{}: {problem} in {}", fault.name, fault.file))
    })?;
    let mut changed: Vec<&str> = lines[..start].to_vec();
    changed.extend(fault.new.iter().map(String::as_str));
    changed.extend(&lines[start + fault.old.len()..]);
    std::fs::write(&path, changed.join("\n") + "\n")
}

/// The line at which the fault's old lines start.
fn find(fault: &Fault, lines: &[&str]) -> Result<usize, &'static str> {
    let wanted = &fault.old;
    let is_here = |start: &usize| {
        let here = lines[*start..].iter().map(|line| line.trim());
        wanted
            .iter()
            .map(String::as_str)
            .eq(here.take(wanted.len()))
    };
    let places: Vec<usize> = (0..lines.len()).filter(is_here).collect();
    match (fault.place, places.as_slice()) {
        (None, &[only]) => Ok(only),
        (None, []) => Err("no such lines"),
        (None, _) => Err("several such places"),
        (Some(number), _) => places.get(number - 1).copied().ok_or("no such place"),
    }
}
