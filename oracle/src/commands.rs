//! The commands of README.md.

use std::io::{self, BufWriter, Write};
use std::path::Path;

use srt_protocol::original;

use crate::cover::Cover;
use crate::{calls, cases, faults, generate, replay};

pub fn run(arguments: &[&str]) -> io::Result<()> {
    match arguments {
        ["replay"] => run_replay(false),
        ["replay", "--trace"] => run_replay(true),
        ["calls"] => run_calls(false),
        ["calls", "--trace"] => run_calls(true),
        ["gen", seed] => write_listing(number(seed)?, None),
        ["gen", seed, profile] => write_listing(number(seed)?, Some(profile)),
        ["gen-many", first, last] => write_listings(number(first)?, number(last)?),
        ["gencalls", seed] => write_calls(number(seed)?),
        ["cover", seeds] => write_cover(number(seeds)?),
        ["cases"] => check_cases(),
        ["faults", list] => write_faults(list),
        ["fault", list, name, tree] => apply_fault(list, name, tree),
        ["original"] => check_original(),
        _ => Err(io::Error::other("usage: see oracle/README.md")),
    }
}

fn number(text: &str) -> io::Result<u64> {
    text.parse()
        .map_err(|_| io::Error::other(format!("{text} is not a number")))
}

fn run_replay(tracing: bool) -> io::Result<()> {
    let mut output = BufWriter::with_capacity(1 << 16, io::stdout().lock());
    replay::run(&mut io::stdin().lock(), &mut output, tracing)
}

fn run_calls(tracing: bool) -> io::Result<()> {
    let mut output = BufWriter::with_capacity(1 << 16, io::stdout().lock());
    calls::run(&mut io::stdin().lock(), &mut output, tracing)
}

fn write_listing(seed: u64, profile: Option<&str>) -> io::Result<()> {
    let Some(script) = generate::listing(seed, profile) else {
        let names = generate::profile_names().join(", ");
        return Err(io::Error::other(format!("the profiles are {names}")));
    };
    let mut output = BufWriter::new(io::stdout().lock());
    for line in &script.lines {
        output.write_all(line)?;
        output.write_all(b"\n")?;
    }
    output.flush()
}

/// The listings of all seeds from the first to the last, one behind the other.
fn write_listings(first: u64, last: u64) -> io::Result<()> {
    for seed in first..=last {
        write_listing(seed, None)?;
    }
    Ok(())
}

fn write_calls(seed: u64) -> io::Result<()> {
    let mut output = BufWriter::new(io::stdout().lock());
    for line in generate::calls::listing(seed) {
        writeln!(output, "{line}")?;
    }
    output.flush()
}

fn write_cover(seeds: u64) -> io::Result<()> {
    let mut cover = Cover::default();
    for seed in 0..seeds {
        if let Some(script) = generate::listing(seed, None) {
            cover.add(&script.cover);
        }
    }
    cover.write(&mut io::stdout().lock())?;
    let surprises = cover.surprises();
    if surprises.is_empty() {
        return Ok(());
    }
    Err(io::Error::other(surprises.join("; ")))
}

/// Document 01's cases P1 to P9.
fn check_cases() -> io::Result<()> {
    let mut all = true;
    for (case, holds) in cases::all() {
        println!("{} {case}", if holds { "holds" } else { "FAILS" });
        all &= holds;
    }
    if all {
        return Ok(());
    }
    Err(io::Error::other("a case fails"))
}

/// The names of the faults; behind an equivalent one stands the reason.
fn write_faults(list: &str) -> io::Result<()> {
    for fault in faults::read(&std::fs::read_to_string(list)?) {
        println!("{} {}", fault.name, fault.equivalent.unwrap_or_default());
    }
    Ok(())
}

fn apply_fault(list: &str, name: &str, tree: &str) -> io::Result<()> {
    let faults = faults::read(&std::fs::read_to_string(list)?);
    let fault = faults.iter().find(|fault| fault.name == name);
    let fault = fault.ok_or_else(|| io::Error::other(format!("no fault {name}")))?;
    faults::apply(fault, Path::new(tree))
}

/// Whether the compiled text is the published one, file by file.
fn check_original() -> io::Result<()> {
    let mut all = true;
    for (file, same) in original::check(Path::new(original::SOURCE))? {
        println!("{} {file}", if same { "same" } else { "CHANGED" });
        all &= same;
    }
    if all {
        return Ok(());
    }
    Err(io::Error::other("the compiled text is not the original"))
}
