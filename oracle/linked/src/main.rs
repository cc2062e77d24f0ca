//! The library and the Rust in one process: see README.md, "Linked".

mod change;
mod directed;
mod figures;
mod library;
mod list;
mod looks;
mod memory;
#[allow(dead_code)]
#[rustfmt::skip]
#[path = "../../../rust/srt-group/src/raw.rs"]
mod raw;
mod refused;
mod rules;
mod run;
mod script;
mod shown;

use std::process::ExitCode;

use figures::Figures;
use oracle::generate::prng::Prng;

/// The number of seeds, and the first.
fn arguments() -> Option<(u64, u64)> {
    let numbers: Option<Vec<u64>> = std::env::args()
        .skip(1)
        .map(|word| word.parse().ok())
        .collect();
    match numbers?[..] {
        [seeds] => Some((seeds, 0)),
        [seeds, first] => Some((seeds, first)),
        _ => None,
    }
}

fn main() -> ExitCode {
    let Some((seeds, first)) = arguments() else {
        eprintln!("usage: linked N [FIRST]");
        return ExitCode::FAILURE;
    };
    if let Err(difference) = refused::full(&mut Prng::new(first)) {
        println!("{difference}");
        return ExitCode::FAILURE;
    }
    let mut figures = Figures::default();
    for seed in first..first + seeds {
        if let Err(difference) = run::seed(seed, &mut figures) {
            println!("{difference}");
            return ExitCode::FAILURE;
        }
    }
    figures.print();
    ExitCode::SUCCESS
}
