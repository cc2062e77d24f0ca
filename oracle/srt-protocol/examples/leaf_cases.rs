//! The leaf cases: `questions` prints operations with their arguments, `answers` what the Rust answers, one line each.
//!
//! 1 `sequence_less_than(a, b)`; 2 `Timestamp(a).saturating_sub(Timestamp(b))`; 3 `Timestamp(a).add_micros(b)`;
//! 4 whether `SrtGroup::new(a, ..)` accepts the id. Columns are 21 wide: 64-bit numbers have up to 20 digits.

use srt_protocol::{GroupMode, SrtGroup, Timestamp};

/// Both sides of every edge of the circular order, and numbers whose highest bit the mask drops.
const SEQUENCES: [u64; 12] = [
    0,
    1,
    2,
    (1 << 30) - 1,
    1 << 30,
    (1 << 30) + 1,
    (1 << 31) - 2,
    (1 << 31) - 1,
    1 << 31,
    (1 << 31) + 1,
    (1 << 32) - 2,
    (1 << 32) - 1,
];

/// Both ends, where sums and differences saturate, and some between.
const TIMES: [u64; 9] = [
    0,
    1,
    999,
    60_000,
    1 << 32,
    1 << 63,
    (1 << 63) + 1,
    u64::MAX - 1,
    u64::MAX,
];

struct Case {
    operation: u64,
    a: u64,
    b: u64,
}

fn pairs(operation: u64, values: &[u64]) -> Vec<Case> {
    let of = |&a: &u64| values.iter().map(move |&b| Case { operation, a, b });
    values.iter().flat_map(of).collect()
}

/// A number for each place, the same in every run.
fn scattered(place: u64) -> u64 {
    let mut x = place.wrapping_add(1).wrapping_mul(0x9E37_79B9_7F4A_7C15);
    x ^= x >> 29;
    x = x.wrapping_mul(0xBF58_476D_1CE4_E5B9);
    x ^ (x >> 32)
}

fn cases() -> Vec<Case> {
    let mut all = pairs(1, &SEQUENCES);
    all.extend((0..60).map(|i| Case {
        operation: 1,
        a: scattered(2 * i) % (1 << 31),
        b: scattered(2 * i + 1) % (1 << 31),
    }));
    for operation in [2, 3] {
        all.extend(pairs(operation, &TIMES));
        all.extend((100..130).map(|i| Case {
            operation,
            a: scattered(2 * i),
            b: scattered(2 * i + 1),
        }));
    }
    all.extend(SEQUENCES.map(|a| Case {
        operation: 4,
        a,
        b: 0,
    }));
    all.extend((200..220).map(|i| Case {
        operation: 4,
        a: scattered(i) % (1 << 32),
        b: 0,
    }));
    all
}

fn sequence(number: u64) -> u32 {
    u32::try_from(number).expect("a case's sequence has 32 bits")
}

fn answer(case: &Case) -> u64 {
    match case.operation {
        1 => srt_protocol::is_before(sequence(case.a), sequence(case.b)).into(),
        2 => Timestamp(case.a).saturating_sub(Timestamp(case.b)),
        3 => Timestamp(case.a).add_micros(case.b).as_micros(),
        _ => SrtGroup::new(sequence(case.a), GroupMode::Broadcast)
            .is_ok()
            .into(),
    }
}

fn main() {
    let answers = std::env::args().nth(1).as_deref() == Some("answers");
    for case in cases() {
        if answers {
            println!("{:>21}{:>21}", case.operation, answer(&case));
        } else {
            println!("{:>21}{:>21}{:>21}", case.operation, case.a, case.b);
        }
    }
}
