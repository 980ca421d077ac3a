//! No allocation: `walk`, the events, typed operands, letters and blobs allocate nothing. A counting allocator sees every request of this program.
mod common;

use common::{Chance, make};
use gleanrime::{Event, Payload, Stores, header, walk};
use std::alloc::{GlobalAlloc, Layout, System};
use std::fmt::{self, Write};
use std::sync::atomic::{AtomicU64, Ordering};

struct Counting;

static REQUESTS: AtomicU64 = AtomicU64::new(0);

// SAFETY: every call goes on to the system's allocator as it came.
unsafe impl GlobalAlloc for Counting {
    unsafe fn alloc(&self, layout: Layout) -> *mut u8 {
        REQUESTS.fetch_add(1, Ordering::Relaxed);
        // SAFETY: the caller's promise goes along.
        unsafe { System.alloc(layout) }
    }

    unsafe fn dealloc(&self, at: *mut u8, layout: Layout) {
        // SAFETY: the caller's promise goes along.
        unsafe { System.dealloc(at, layout) }
    }

    unsafe fn realloc(&self, at: *mut u8, layout: Layout, size: usize) -> *mut u8 {
        REQUESTS.fetch_add(1, Ordering::Relaxed);
        // SAFETY: the caller's promise goes along.
        unsafe { System.realloc(at, layout, size) }
    }
}

#[global_allocator]
static ALLOCATOR: Counting = Counting;

/// How many requests something makes.
fn requests(run: impl FnOnce()) -> u64 {
    let before = REQUESTS.load(Ordering::Relaxed);
    run();
    REQUESTS.load(Ordering::Relaxed) - before
}

/// Takes letters, and keeps their number alone.
struct Length(usize);

impl Write for Length {
    fn write_str(&mut self, text: &str) -> fmt::Result {
        self.0 += text.len();
        Ok(())
    }
}

/// Everything that a log has, added up.
fn look(input: &[u8], skip: &[u64], events: &mut [u64], operands: &mut [u64]) -> u64 {
    let log = match walk(input, skip, events, operands) {
        Ok(log) => log,
        Err(refusal) => {
            let mut said = Length(0);
            write!(said, "{refusal}").unwrap();
            return refusal.number() + refusal.place() + said.0 as u64;
        }
    };
    let mut sum = log.header().size + header(input).unwrap().offset + log.stream().len() as u64;
    for event in log.events() {
        if let Event::Record(record) = event {
            let mut typed = record.typed();
            sum ^= typed.u8().map_or(1, u64::from) ^ typed.i64().map_or(2, |value| value as u64) ^ typed.range().map_or(3, |range| range.end);
            sum ^= record.operands.iter().fold(0, |sum, operand| sum ^ operand);
            match record.payload {
                Payload::None => {}
                Payload::Array(numbers) => sum ^= numbers.iter().fold(0, |sum, number| sum ^ number),
                Payload::Char6(_) => {
                    let mut text = Length(0);
                    write!(text, "{}", record.payload.text().unwrap()).unwrap();
                    sum ^= text.0 as u64;
                }
                Payload::Blob(bytes) => sum ^= bytes.len() as u64,
            }
        }
    }
    sum
}

/// One test, so that no other thread's requests are counted.
#[test]
fn nothing_is_allocated() {
    assert_eq!(requests(|| drop(std::hint::black_box(vec![1; 10]))), 1, "the count counts");

    let mut chance = Chance::new(10);
    let made: Vec<_> = (0..3_000).map(|_| make(&mut chance)).collect();
    let (mut events, mut operands) = (vec![0; 8192], vec![0; 8192]);
    let mut sum = 0;
    let count = requests(|| {
        for made in &made {
            sum ^= look(&made.input, &made.skip, &mut events, &mut operands);
            sum ^= look(&made.input, &[], &mut events[..64], &mut operands[..4]);
            sum ^= look(&made.input[..made.input.len() / 2], &made.skip, &mut events, &mut operands);
        }
    });
    assert_eq!(count, 0);
    assert_ne!(sum, 0);

    // Stores allocate nothing for a log that is too long.
    let long = vec![0; gleanrime::MAX_INPUT + 1];
    assert_eq!(requests(|| assert!(Stores::new().read(&long, &[]).is_err())), 0);

    // They allocate for others, and then no more: what is large enough is kept.
    let mut stores = Stores::new();
    let all = |stores: &mut Stores| made.iter().for_each(|made| assert!(stores.read(&made.input, &made.skip).is_ok()));
    assert!(requests(|| all(&mut stores)) > 0);
    assert_eq!(requests(|| all(&mut stores)), 0);
}
