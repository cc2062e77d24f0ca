// Times the proved set of cells, linked as libcell_bench.a, beside Rust: a scan bit by bit, the ideal (a word that is not all ones,
// then its trailing ones), and the ideal with a summary word. Every function is called across the C interface, so each figure holds
// the same call. The best of RUNS turns, in nanoseconds a call.
use std::hint::black_box;
use std::time::Instant;

extern "C" {
    fn set_lowest(used: *const u64, length: usize, cells: usize) -> usize;
    fn set_take(used: *mut u64, length: usize, cell: usize);
    fn set_free(used: *mut u64, length: usize, cell: usize);
    fn queue_one(
        members: *mut u64, a: usize, pending: *const u64, b: usize, waiting: *const u64, c: usize, history: *const u64, d: usize,
        sources: *const u64, e: usize, store: *mut u8, f: usize, used: *mut u64, g: usize, count: usize, id: u64, sequence: u64,
        payload: *const u8, h: usize,
    ) -> u32;
    fn unqueue_one(members: *mut u64, length: usize, used: *mut u64, words: usize, index: usize, cell: usize);
}

#[inline(never)]
extern "C" fn nothing(_used: *const u64, length: usize, cells: usize) -> usize {
    length + cells
}

#[inline(never)]
extern "C" fn bit_by_bit(used: *const u64, length: usize, cells: usize) -> usize {
    let used = unsafe { std::slice::from_raw_parts(used, length) };
    (0..cells).find(|c| used[c / 64] >> (c % 64) & 1 == 0).unwrap_or(2048)
}

#[inline(never)]
extern "C" fn ideal(used: *const u64, length: usize, cells: usize) -> usize {
    let used = unsafe { std::slice::from_raw_parts(used, length) };
    match used.iter().position(|w| *w != !0) {
        Some(at) => {
            let cell = at * 64 + used[at].trailing_ones() as usize;
            if cell < cells { cell } else { 2048 }
        }
        None => 2048,
    }
}

// word 32 has a bit for each full word
#[inline(never)]
extern "C" fn summary(used: *const u64, length: usize, cells: usize) -> usize {
    let used = unsafe { std::slice::from_raw_parts(used, length) };
    let at = used[32].trailing_ones() as usize;
    if at >= 32 {
        return 2048;
    }
    let cell = at * 64 + used[at].trailing_ones() as usize;
    if cell < cells { cell } else { 2048 }
}

const RUNS: usize = 25;
const ROUNDS: u64 = 200_000;

fn best(mut f: impl FnMut() -> usize) -> f64 {
    let mut least = f64::MAX;
    for _ in 0..RUNS {
        let start = Instant::now();
        for _ in 0..ROUNDS {
            black_box(f());
        }
        least = least.min(start.elapsed().as_nanos() as f64 / ROUNDS as f64);
    }
    least
}

// The words of a member's row, and of the table of members.
const ROW_WORDS: usize = 189;
const MEMBERS_WORDS: usize = 64 * ROW_WORDS;

// A packet of 1,316 bytes into the queue of the last of so many legs, with so many cells used, and out again; beside it the Rust's
// `VecDeque` with the payload copied into a `Vec`, and the copy alone.
fn queueing(legs: usize, taken: usize) {
    let (mut members, pending, waiting) = (vec![0u64; MEMBERS_WORDS], vec![0u64; 18432], vec![0u64; 192]);
    let (history, sources) = (vec![0u64; 512], vec![0u64; 512]);
    let (mut store, mut used) = (vec![0u8; 2048 * 1456], vec![0u64; 32]);
    for leg in 0..legs {
        members[ROW_WORDS * leg] = leg as u64 + 1;
    }
    for c in 0..taken {
        used[c / 64] |= 1 << (c % 64);
    }
    let payload = vec![7u8; 1316];
    let id = legs as u64;
    let ours = best(|| unsafe {
        let code = queue_one(
            members.as_mut_ptr(), MEMBERS_WORDS, pending.as_ptr(), 18432, waiting.as_ptr(), 192, history.as_ptr(), 512,
            sources.as_ptr(), 512, store.as_mut_ptr(), 2048 * 1456, used.as_mut_ptr(), 32, legs, id, black_box(5),
            black_box(payload.as_ptr()), 1316,
        );
        unqueue_one(members.as_mut_ptr(), MEMBERS_WORDS, used.as_mut_ptr(), 32, legs - 1, taken);
        code as usize
    });
    assert_eq!(store[1456 * taken + 1315], 7);
    let mut queues: Vec<(u32, std::collections::VecDeque<(u64, u64, u64, u64, u64, Vec<u8>)>)> =
        (0..legs).map(|l| (l as u32 + 1, std::collections::VecDeque::with_capacity(16))).collect();
    let rust = best(|| {
        let queue = &mut queues.iter_mut().find(|q| q.0 == black_box(id) as u32).unwrap().1;
        if queue.len() >= 16 {
            return 31;
        }
        queue.push_back((black_box(5), 1, 0, 0, 5, black_box(&payload).to_vec()));
        black_box(queue.pop_front());
        0
    });
    let copy = best(|| {
        store[1456 * taken..][..1316].copy_from_slice(black_box(&payload));
        0
    });
    println!("queue and unqueue, {legs} legs, {taken} cells used: {ours:.1} ns; VecDeque with a copied Vec {rust:.1}; the copy alone {copy:.1}");
}

fn main() {
    for (legs, taken) in [(4, 0), (4, 332), (4, 1964), (64, 0)] {
        queueing(legs, taken);
    }
    println!("{:>6} {:>9} {:>9} {:>9} {:>9} {:>9} {:>9} {:>11}", "used", "call", "proved", "ideal", "summary", "bits", "take+free", "lowest+take+free");
    for n in [0usize, 36, 332, 1964, 2048] {
        let mut words = vec![0u64; 33];
        for c in 0..n {
            words[c / 64] |= 1 << (c % 64);
        }
        for at in 0..32 {
            if words[at] == !0 {
                words[32] |= 1 << at;
            }
        }
        let w = black_box(words.as_mut_ptr());
        let expected = if n < 2048 { n } else { 2048 };
        unsafe {
            assert_eq!(set_lowest(w, 32, 2048), expected);
        }
        assert_eq!(bit_by_bit(w, 32, 2048), expected);
        assert_eq!(ideal(w, 32, 2048), expected);
        assert_eq!(summary(w, 33, 2048), expected);
        let call = best(|| nothing(black_box(w), 32, 2048));
        let ours = best(|| unsafe { set_lowest(black_box(w), 32, 2048) });
        let wanted = best(|| ideal(black_box(w), 32, 2048));
        let short = best(|| summary(black_box(w), 33, 2048));
        let bits = best(|| bit_by_bit(black_box(w), 32, 2048));
        let moved = best(|| unsafe {
            set_take(black_box(w), 32, black_box(2047));
            set_free(black_box(w), 32, black_box(2047));
            0
        });
        let whole = if n < 2048 {
            best(|| unsafe {
                let c = set_lowest(black_box(w), 32, 2048);
                set_take(w, 32, c);
                set_free(w, 32, c);
                c
            })
        } else {
            0.0
        };
        println!("{n:>6} {call:>9.1} {ours:>9.1} {wanted:>9.1} {short:>9.1} {bits:>9.1} {moved:>9.1} {whole:>11.1}");
    }
}
