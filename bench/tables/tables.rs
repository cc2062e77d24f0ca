// Times the proved tables, linked as libtable_bench.a, beside Rust's BTreeMap and VecDeque on the same operations. Each pair is
// run in turn, RUNS times; the best of each is printed, in nanoseconds an operation, with the ratio Rust to ours (above 1: ours is
// faster).
use std::collections::{BTreeMap, VecDeque};
use std::hint::black_box;
use std::time::Instant;

extern "C" {
    fn table_find(pending: *const u64, length: usize, count: usize, sequence: u64) -> usize;
    fn table_insert(pending: *mut u64, length: usize, count: usize, sequence: u64, cell: u64);
    fn table_remove(pending: *mut u64, length: usize, count: usize, at: usize);
    fn table_push(members: *mut u64, length: usize, index: usize, sequence: u64, cell: u64) -> u32;
    fn table_pop(members: *mut u64, length: usize, index: usize);
    fn table_history(
        history: *mut u64,
        history_length: usize,
        sources: *mut u64,
        sources_length: usize,
        rounds: u64,
        kept: u64,
    ) -> usize;
    fn table_rules(
        members: *const u64,
        members_length: usize,
        pending: *const u64,
        pending_length: usize,
        waiting: *const u64,
        waiting_length: usize,
        history: *const u64,
        history_length: usize,
        sources: *const u64,
        sources_length: usize,
        many: usize,
        held: usize,
        entries: usize,
    ) -> usize;
}

const RUNS: usize = 15;
const PENDING_WORDS: usize = 18432;
const ROW_WORDS: usize = 189;
const MEMBERS_WORDS: usize = 64 * ROW_WORDS;
const WAITING_WORDS: usize = 64 * 3;
const HISTORY_WORDS: usize = 512;

// What the Rust holds for a packet, its payload as a cell.
#[derive(Clone, Copy)]
#[allow(dead_code)]
struct Packet {
    member: u32,
    owned: bool,
    sequence: u32,
    count: u32,
    message: u32,
    timestamp: u32,
    source: u64,
    cell: usize,
    length: usize,
}

fn packet(sequence: u32, cell: usize) -> Packet {
    Packet { member: 1, owned: false, sequence, count: 1, message: 0, timestamp: 0, source: sequence as u64, cell, length: 1316 }
}

// A word of the history, as crates/srt_group_tables packs it: a sequence, a cell and a length.
fn entry_word(sequence: u64, cell: u64, length: u64) -> u64 {
    (sequence * 2048 + cell) * 2048 + length
}

fn next(seed: &mut u64) -> u64 {
    *seed ^= *seed << 13;
    *seed ^= *seed >> 7;
    *seed ^= *seed << 17;
    *seed
}

fn best(mut run: impl FnMut() -> u64, rounds: u64) -> f64 {
    let start = Instant::now();
    black_box(run());
    start.elapsed().as_nanos() as f64 / rounds as f64
}

fn report(what: &str, ours: f64, rust: f64) {
    println!("{what:<58}{ours:>9.1} ns {rust:>9.1} ns {:>7.2}", rust / ours);
}

// A packet is looked for, put in, found and taken out, at a random place among `held` others.
fn held_packets(held: u64) {
    let rounds = 4_000_000 / (held + 100);
    let mut table = vec![0u64; PENDING_WORDS];
    let mut map = BTreeMap::new();
    for i in 0..held {
        unsafe { table_insert(table.as_mut_ptr(), PENDING_WORDS, i as usize, 2 * i, i) };
        map.insert(2 * i as u32, packet(2 * i as u32, i as usize));
    }
    let ours = |table: &mut Vec<u64>| {
        let (mut seed, mut sum, words) = (88172645463325252u64, 0, table.as_mut_ptr());
        for _ in 0..rounds {
            let key = 2 * (next(&mut seed) % held) + 1;
            unsafe {
                if table_find(words, PENDING_WORDS, held as usize, key) == 2048 {
                    table_insert(words, PENDING_WORDS, held as usize, key, held);
                }
                let at = table_find(words, PENDING_WORDS, held as usize + 1, key);
                sum += at as u64;
                table_remove(words, PENDING_WORDS, held as usize + 1, at);
            }
        }
        sum
    };
    let rust = |map: &mut BTreeMap<u32, Packet>| {
        let (mut seed, mut sum) = (88172645463325252u64, 0);
        for _ in 0..rounds {
            let key = 2 * (next(&mut seed) % held) as u32 + 1;
            if !map.contains_key(&key) {
                map.insert(key, packet(key, held as usize));
            }
            sum += map.get(&key).map_or(0, |p| p.cell as u64);
            map.remove(&key);
        }
        sum
    };
    let (mut a, mut b) = (f64::MAX, f64::MAX);
    for _ in 0..RUNS {
        a = a.min(best(|| ours(black_box(&mut table)), rounds));
        b = b.min(best(|| rust(black_box(&mut map)), rounds));
    }
    report(&format!("find, insert, find, remove at {held} held packets"), a, b);
}

// One packet in among 2,000: the insertion by itself, at a random place; the removal is not timed.
fn insertion(held: u64) {
    let rounds = 4_000u64;
    let mut table = vec![0u64; PENDING_WORDS];
    for i in 0..held {
        unsafe { table_insert(table.as_mut_ptr(), PENDING_WORDS, i as usize, 2 * i, i) };
    }
    let words = table.as_mut_ptr();
    let mut least = f64::MAX;
    for _ in 0..RUNS {
        let (mut seed, mut spent) = (88172645463325252u64, 0u128);
        for _ in 0..rounds {
            let key = 2 * (next(&mut seed) % held) + 1;
            let start = Instant::now();
            unsafe { table_insert(words, PENDING_WORDS, held as usize, key, held) };
            spent += start.elapsed().as_nanos();
            unsafe {
                let at = table_find(words, PENDING_WORDS, held as usize + 1, key);
                table_remove(words, PENDING_WORDS, held as usize + 1, at);
            }
        }
        least = least.min(spent as f64 / rounds as f64);
    }
    println!("{:<58}{least:>9.1} ns", format!("insert alone at {held} held packets, with the clock's own cost"));
}

// Eight events in, eight out.
fn queue() {
    let rounds = 200_000u64;
    let mut members = vec![0u64; MEMBERS_WORDS];
    let mut deque: VecDeque<Packet> = VecDeque::with_capacity(16);
    let (mut a, mut b) = (f64::MAX, f64::MAX);
    for _ in 0..RUNS {
        a = a.min(best(
            || {
                let words = black_box(members.as_mut_ptr());
                let mut refused = 0;
                for i in 0..rounds {
                    for k in 0..8 {
                        refused += unsafe { table_push(words, MEMBERS_WORDS, 3, i + k, k) } as u64;
                    }
                    for _ in 0..8 {
                        unsafe { table_pop(words, MEMBERS_WORDS, 3) };
                    }
                }
                refused
            },
            8 * rounds,
        ));
        b = b.min(best(
            || {
                let deque = black_box(&mut deque);
                for i in 0..rounds {
                    for k in 0..8 {
                        deque.push_back(packet((i + k) as u32, k as usize));
                    }
                    for _ in 0..8 {
                        black_box(deque.pop_front());
                    }
                }
                deque.len() as u64
            },
            8 * rounds,
        ));
    }
    report("queue: push and pop of an event", a, b);
}

// An entry in, and the acknowledged ones out, with so many kept.
fn history(kept: u32) {
    let rounds = 100_000u32;
    let (mut a, mut b) = (f64::MAX, f64::MAX);
    for _ in 0..RUNS {
        let (mut words, mut sources) = ([0u64; HISTORY_WORDS], [0u64; HISTORY_WORDS]);
        a = a.min(best(
            || unsafe {
                table_history(
                    words.as_mut_ptr(),
                    HISTORY_WORDS,
                    sources.as_mut_ptr(),
                    HISTORY_WORDS,
                    black_box(rounds as u64),
                    kept as u64,
                ) as u64
            },
            rounds as u64,
        ));
        b = b.min(best(
            || {
                let mut deque: VecDeque<(u32, u16, u16, u64)> = VecDeque::with_capacity(HISTORY_WORDS);
                for sequence in 0..black_box(rounds) {
                    if deque.len() == HISTORY_WORDS {
                        deque.pop_front();
                    }
                    deque.push_back((sequence, 0, 1316, sequence as u64));
                    while deque.front().is_some_and(|e| e.0 + kept < sequence) {
                        deque.pop_front();
                    }
                }
                deque.len() as u64
            },
            rounds as u64,
        ));
    }
    report(&format!("history: push and trim, {kept} kept"), a, b);
}

// What a plain loop reads, every field a 64-bit word, as a host may lend it.
#[derive(Clone, Copy, Default)]
struct Held {
    member: u64,
    owned: u64,
    sequence: u64,
    count: u64,
    message: u64,
    timestamp: u64,
    cell: u64,
    length: u64,
}

#[derive(Default)]
struct Queued {
    kind: u64,
    reason: u64,
    content: Held,
}

#[derive(Default)]
struct Member {
    id: u64,
    weight: u64,
    state: u64,
    admitted: u64,
    account: u64,
    expected: u64,
    actual: u64,
    link: u64,
    peer: u64,
    limit: u64,
    srtt: u64,
    rttvar: u64,
    started: u64,
    next: u64,
    flight: u64,
    window: u64,
    first: u64,
    receive_window: u64,
    reserved: u64,
    advanced: u64,
    queue: VecDeque<Queued>,
}

const LARGEST_16: u64 = 0xffff;
const LARGEST_32: u64 = 0xffff_ffff;
const LARGEST_SEQUENCE: u64 = 0x7fff_ffff;

fn data_wrong(d: &Held) -> bool {
    d.sequence > LARGEST_SEQUENCE
        || d.count == 0
        || d.count > LARGEST_16
        || d.message > LARGEST_32
        || d.timestamp > LARGEST_32
        || d.length > 1456
}

fn member_wrong(m: &Member) -> bool {
    m.id > LARGEST_32
        || m.weight > LARGEST_16
        || m.state > 4
        || m.admitted > 1
        || m.expected > LARGEST_32
        || m.actual > LARGEST_32
        || m.link > 2
        || m.peer > LARGEST_32
        || m.limit > LARGEST_16
        || m.srtt > LARGEST_32
        || m.rttvar > LARGEST_32
        || m.started > 1
        || m.next > LARGEST_SEQUENCE
        || m.flight > if m.started == 1 { LARGEST_16 } else { 0 }
        || m.window > LARGEST_16
        || (m.first > LARGEST_SEQUENCE && m.first != LARGEST_32)
        || m.receive_window > LARGEST_16
        || m.advanced > LARGEST_SEQUENCE
        || (m.link == 1 && m.started != 1)
        || m.queue.len() > 16
}

// Marks a cell: no if it is beyond the store or was marked before.
fn mark(used: &mut [u64; 32], cell: u64) -> bool {
    if cell >= 2048 {
        return false;
    }
    let (at, bit) = (cell as usize / 64, 1 << (cell % 64));
    let new = used[at] & bit == 0;
    used[at] |= bit;
    new
}

// Code 6 in plain Rust: the same tests over vectors, the place of an id by the same table.
#[inline(never)]
fn breaks_rule(members: &[Member], held: &[Held], own: u64, sent: &[(u64, u64, u64)], used: &mut [u64; 32]) -> bool {
    let (mut sums, mut table) = ([0u64; 65], [64u8; 64]);
    for (i, m) in members.iter().enumerate() {
        let place = (m.id % 64) as usize;
        if table[place] != 64 && members[..i].iter().any(|other| other.id == m.id) {
            return true;
        }
        table[place] = i as u8;
    }
    let mut lowest = 0;
    for p in held {
        if data_wrong(p) || p.member > LARGEST_32 || p.owned > 1 || p.sequence < lowest || !mark(used, p.cell) {
            return true;
        }
        lowest = p.sequence + 1;
        let place = if p.owned == 1 {
            64
        } else {
            let place = table[(p.member % 64) as usize] as usize;
            if members.get(place).is_some_and(|m| m.id == p.member) {
                place
            } else {
                match members.iter().position(|m| m.id == p.member) {
                    Some(place) => place,
                    None => return true,
                }
            }
        };
        sums[place] += p.count;
    }
    if own != sums[64] {
        return true;
    }
    for (m, sum) in members.iter().zip(sums) {
        let mut queued = 0;
        if member_wrong(m) {
            return true;
        }
        for e in &m.queue {
            if e.kind > 3 || e.reason > LARGEST_32 {
                return true;
            }
            if e.kind == 0 {
                if data_wrong(&e.content) || !mark(used, e.content.cell) {
                    return true;
                }
                queued += e.content.count;
            }
        }
        if m.account != sum || m.reserved != sum + queued {
            return true;
        }
    }
    sent.iter().any(|&(sequence, cell, length)| sequence > LARGEST_SEQUENCE || length > 1456 || !mark(used, cell))
}

// Code 6 whole, and the lowest free cell: so many legs with `queued` events each, `held` packets in turn for each leg, `entries` sends. Beside
// it the plain loop.
fn rules(legs: usize, queued: u64, held: u64, entries: usize) {
    // short runs, and more of them: a long one is interrupted by other work on the machine
    let rounds = 100_000 / (held + 100);
    let mut words = vec![0u64; MEMBERS_WORDS];
    let mut pending = vec![0u64; PENDING_WORDS];
    let waiting = vec![0u64; WAITING_WORDS];
    let (mut sent, sources) = ([0u64; HISTORY_WORDS], [0u64; HISTORY_WORDS]);
    let (mut members, mut packets, mut history) = (Vec::new(), Vec::new(), Vec::new());
    let mut free = 0u64;
    for leg in 0..legs as u64 {
        let mut member = Member { id: 7 * leg + 1, first: LARGEST_32, ..Member::default() };
        for k in 0..queued {
            unsafe { table_push(words.as_mut_ptr(), MEMBERS_WORDS, leg as usize, k, free) };
            let content = Held { sequence: k, count: 1, cell: free, length: 1316, ..Held::default() };
            member.queue.push_back(Queued { content, ..Queued::default() });
            free += 1;
        }
        members.push(member);
    }
    for i in 0..held {
        unsafe { table_insert(pending.as_mut_ptr(), PENDING_WORDS, i as usize, 2 * i, free) };
        let member = &mut members[i as usize % legs];
        // the word of a row that holds the packet's member (docs/TABLES.md)
        pending[2048 + free as usize * 8 + 5] = member.id;
        packets.push(Held { member: member.id, sequence: 2 * i, count: 1, cell: free, length: 1316, ..Held::default() });
        member.account += 1;
        free += 1;
    }
    for (m, row) in members.iter_mut().zip(words.chunks_mut(ROW_WORDS)) {
        m.reserved = m.account + queued;
        // id, account, the peer's first sequence, the leg's reservation (docs/TABLES.md)
        (row[0], row[4], row[27], row[30]) = (m.id, m.account, m.first, m.reserved);
    }
    for (sequence, word) in (0u64..).zip(sent.iter_mut().take(entries)) {
        *word = entry_word(sequence, free, 1316);
        history.push((sequence, free, 1316));
        free += 1;
    }
    let (mut a, mut b) = (f64::MAX, f64::MAX);
    for _ in 0..10 * RUNS {
        a = a.min(best(
            || {
                let mut sum = 0;
                for _ in 0..rounds {
                    sum += unsafe {
                        table_rules(
                            black_box(words.as_ptr()),
                            MEMBERS_WORDS,
                            pending.as_ptr(),
                            PENDING_WORDS,
                            waiting.as_ptr(),
                            WAITING_WORDS,
                            sent.as_ptr(),
                            HISTORY_WORDS,
                            sources.as_ptr(),
                            HISTORY_WORDS,
                            legs,
                            held as usize,
                            entries,
                        )
                    } as u64;
                }
                assert_eq!(sum, rounds * free);
                sum
            },
            rounds,
        ));
        b = b.min(best(
            || {
                let mut sum = 0;
                for _ in 0..rounds {
                    let mut used = [0u64; 32];
                    assert!(!breaks_rule(black_box(&members), &packets, 0, &history, &mut used));
                    let at = used.iter().position(|w| *w != !0).expect("a free cell");
                    sum += at as u64 * 64 + used[at].trailing_ones() as u64;
                }
                assert_eq!(sum, rounds * free);
                sum
            },
            rounds,
        ));
    }
    report(&format!("code 6: {legs} legs, {} queued, {held} held, {entries} sent", legs as u64 * queued), a, b);
}

fn main() {
    println!("{:<58}{:>12} {:>12} {:>7}", "", "ours", "Rust", "ratio");
    for held in [20, 200, 2000] {
        held_packets(held);
    }
    insertion(2000);
    queue();
    history(100);
    for legs in [4, 64] {
        for held in [0, 20, 200, 2000] {
            rules(legs, 0, held, 0);
        }
    }
    rules(4, 8, 200, 100);
    rules(64, 16, 400, 500);
}
