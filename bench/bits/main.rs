//! Times the proved bit reader beside a plain Rust one, in one run, and prints Markdown: nanoseconds for a number that is read, the best of many turns.
//! Both sum the same numbers of the same bytes, and the sums must agree.
mod plain;

use std::hint::black_box;
use std::time::Instant;

extern "C" {
    fn tally_fields(s: *const u8, len: usize, n: u64) -> u64;
    fn tally_fields6(s: *const u8, len: usize) -> u64;
    fn tally_vbr(s: *const u8, len: usize, w: u64) -> u64;
    fn tally_vbr6(s: *const u8, len: usize) -> u64;
}

const BYTES: usize = 1 << 20;
const TURNS: usize = 600;

/// A loop, with the width that it is to use where it does not know it.
type Loop = fn(&[u8], u64) -> u64;

/// One line of the table: the same loop in both readers.
struct Row<'a> {
    name: &'static str,
    bytes: &'a [u8],
    width: u64,
    proved: Loop,
    plain: Loop,
    best: [f64; 2],
}

// Each loop is a function of its own, so that a width that it names is known to the compiler and one that it is handed is not.
#[inline(never)]
fn proved_fields(s: &[u8], n: u64) -> u64 {
    // SAFETY: the callee takes a slice as its address and its length, and only reads it
    unsafe { tally_fields(s.as_ptr(), s.len(), n) }
}

#[inline(never)]
fn proved_fields6(s: &[u8], _: u64) -> u64 {
    // SAFETY: as above
    unsafe { tally_fields6(s.as_ptr(), s.len()) }
}

#[inline(never)]
fn proved_vbr(s: &[u8], w: u64) -> u64 {
    // SAFETY: as above
    unsafe { tally_vbr(s.as_ptr(), s.len(), w) }
}

#[inline(never)]
fn proved_vbr6(s: &[u8], _: u64) -> u64 {
    // SAFETY: as above
    unsafe { tally_vbr6(s.as_ptr(), s.len()) }
}

#[inline(never)]
fn plain_fields(s: &[u8], n: u64) -> u64 {
    plain::fields(s, n)
}

#[inline(never)]
fn plain_fields6(s: &[u8], _: u64) -> u64 {
    plain::fields(s, 6)
}

#[inline(never)]
fn plain_vbr(s: &[u8], w: u64) -> u64 {
    plain::numbers(s, w)
}

#[inline(never)]
fn plain_vbr6(s: &[u8], _: u64) -> u64 {
    plain::numbers(s, 6)
}

/// Bytes that look random, the same in each run.
fn scattered() -> Vec<u8> {
    let mut state = 0x9E37_79B9_7F4A_7C15u64;
    let mut next = || {
        state ^= state << 13;
        state ^= state >> 7;
        state ^= state << 17;
        (state >> 32) as u8
    };
    (0..BYTES).map(|_| next()).collect()
}

/// The same bytes with the top bit of each six bits cleared: VBR numbers of one chunk.
fn single_chunks(mut bytes: Vec<u8>) -> Vec<u8> {
    for bit in (5..8 * bytes.len()).step_by(6) {
        bytes[bit / 8] &= !(1 << (bit % 8));
    }
    bytes
}

/// Nanoseconds for a number, and the sum.
fn time(run: Loop, row: &Row) -> (f64, u64) {
    let count = 8 * row.bytes.len() as u64 / row.width;
    let start = Instant::now();
    let sum = run(black_box(row.bytes), black_box(row.width));
    (start.elapsed().as_nanos() as f64 / count as f64, sum)
}

fn main() {
    let mixed = scattered();
    let single = single_chunks(mixed.clone());
    let row = |name, bytes, width, proved, plain| Row { name, bytes, width, proved, plain, best: [f64::MAX; 2] };
    let mut rows = [
        row("field of 6 bits, width known", &mixed, 6, proved_fields6 as Loop, plain_fields6 as Loop),
        row("field of 6 bits", &mixed, 6, proved_fields, plain_fields),
        row("field of 32 bits", &mixed, 32, proved_fields, plain_fields),
        row("field of 61 bits", &mixed, 61, proved_fields, plain_fields),
        row("vbr6, one chunk, width known", &single, 6, proved_vbr6, plain_vbr6),
        row("vbr6, one chunk", &single, 6, proved_vbr, plain_vbr),
    ];
    for _ in 0..TURNS {
        for row in &mut rows {
            let (proved, ours) = time(row.proved, row);
            let (plain, theirs) = time(row.plain, row);
            assert_eq!(ours, theirs, "{}: the sums differ", row.name);
            row.best = [row.best[0].min(proved), row.best[1].min(plain)];
        }
    }
    for width in 0..70 {
        assert_eq!(proved_fields(&mixed[..1000], width), plain_fields(&mixed[..1000], width), "fields of {width} bits");
        assert_eq!(proved_vbr(&mixed[..1000], width), plain_vbr(&mixed[..1000], width), "VBR numbers of width {width}");
    }
    println!("The bit layer, best of {TURNS} turns over {BYTES} bytes, nanoseconds for a number:\n");
    println!("| | Rattle | Rust | ratio |");
    println!("|---|---|---|---|");
    for row in &rows {
        println!("| {} | {:.2} | {:.2} | {:.2} |", row.name, row.best[0], row.best[1], row.best[0] / row.best[1]);
    }
}
