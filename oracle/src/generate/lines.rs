//! Malformed lines, unknown verbs, and numbers out of range.

use crate::generate::script::{GROUP_BIT, NewLeg, SEQUENCES, Script};
use crate::generate::send;
use crate::listing::{self, COLUMN};

pub fn malformed(script: &mut Script) {
    for _ in 0..6 {
        broken_line(script);
    }
    for verb in 2..=9 {
        let field = script.prng.pick(&[0, 1, 99]);
        script.line(&[verb, 1, field, 1, 1, 999]);
    }
    bad_groups(script);
    let mode = script.prng.below(2);
    script.new_group(mode);
    for leg in 1..=3 {
        script.add(NewLeg::connected(leg));
    }
    for _ in 0..90 {
        match script.prng.below(6) {
            0 => broken_line(script),
            1..=3 => out_of_range(script),
            4 => unknown(script),
            _ => send::mixed_step(script),
        }
    }
}

fn bad_groups(script: &mut Script) {
    let no_bit = script.prng.below(GROUP_BIT);
    script.line(&[1, no_bit, 0]);
    script.line(&[1, 1 << 31, 1]);
    script.line(&[1, no_bit, 2]);
    script.line(&[1, GROUP_BIT, 2]);
    script.line(&[1, GROUP_BIT + (1 << 32), 0]);
}

/// A good line, made malformed in one of several ways.
fn broken_line(script: &mut Script) {
    let mut line = listing::format_line(&[5, 0, 0, 0, 0, 0, 0, 0]).into_bytes();
    let place = script.prng.below(line.len() as u64) as usize;
    match script.prng.below(12) {
        0 => line.truncate(place),
        1 => line.push(b' '),
        2 => line.push(b'\r'),
        3 => line.extend_from_slice(b"          0"),
        4 => line.insert(0, b' '),
        5 => line[place] = script.prng.pick(b"-+.x\t\r\0A\xff"),
        6 => line[COLUMN - 2] = b'-',
        7 => line[2 * COLUMN - 1] = b' ',
        8 => line[COLUMN - 3] = b'1',
        9 => line.clear(),
        10 => line[place / COLUMN * COLUMN] = b'0',
        _ => line[..COLUMN].copy_from_slice(b"00000000005"),
    }
    script.raw(line);
}

/// A call with one number just beyond its range, or at its edge.
fn out_of_range(script: &mut Script) {
    let leg = script.any_leg();
    let over = script.prng.pick(&[0, 1, 1]);
    let bits_16 = 65_535 + over;
    let bits_32 = 4_294_967_295 + over;
    let sequence = SEQUENCES - 1 + over;
    let id = 4_294_967_295 + over;
    let choice = script.prng.below(2);
    match script.prng.below(17) {
        0 => script.line(&[2, id, 0, 1, 0, 0, 9, 9]),
        1 => script.line(&[2, 77, bits_16, 1, 0, 0, 9, 9]),
        2 => script.line(&[2, 77, 0, 2 + over, 0, 0, 9, 9]),
        3 => script.line(&[2, 77, 0, 1, sequence, 0, 9, 9]),
        4 => script.line(&[2, 77, 0, 1, 0, sequence, 9, 9]),
        5 => script.line(&[2, 77, 0, 1, 0, bits_32 - 1, 9, 9]),
        6 => script.line(&[2, 77, 0, 1, 0, 0, bits_16, 99_999_999_999]),
        7 => reading_at_the_edge(script, leg, over),
        8 => script.line(&[4, leg, sequence, 1, 0, 0]),
        9 => script.line(&[4, leg, 0, bits_16 * choice, 0, 0]),
        10 => script.line(&[4, leg, 1, 1, 0, 255 + over]),
        11 => script.line(&[6, 255 + over, script.now]),
        12 => script.line(&[9, leg, 1 + choice, bits_32]),
        13 => script.line(&[9, leg, 3 + over, 0]),
        14 => script.line(&[7, id]),
        15 => script.line(&[8, id]),
        _ => script.line(&[3, id, 1, 1]),
    }
}

fn reading_at_the_edge(script: &mut Script, leg: u64, over: u64) {
    let field = script.prng.range(0, 13);
    let edge = match field {
        1 => 2,
        2 | 3 | 11 => 65_535,
        5 => SEQUENCES - 1,
        6 | 7 | 10 => 4_294_967_295,
        _ => 99_999_999_998,
    };
    script.reading(leg, field, edge + over);
}

/// A leg, field, event or verb that does not exist.
fn unknown(script: &mut Script) {
    let leg = script.any_leg();
    let choice = script.prng.below(3);
    let verb = script.prng.pick(&[0, 10, 11, 99_999_999_999]);
    match script.prng.below(9) {
        0 => script.reading(leg, 0, 1),
        1 => script.reading(leg, 13 + choice, 1),
        2 => script.reading(900, 1, 1),
        3 => script.data(900, 1, 1, 0),
        4 => script.line(&[9, leg, 0, 1]),
        5 => script.line(&[9, 900, 1 + choice, 1]),
        6 => script.remove(900),
        7 => script.mark_broken(900),
        _ => script.line(&[verb, 1, 1]),
    }
}
