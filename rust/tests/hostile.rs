//! Hostile bytes: never a panic, zeros after a refusal; and the deepest inputs in threads with a stack of 128 KiB.
mod common;

use common::{Chance, MAGIC, make, nested, wrapped};
use gleanrime::{EVENT_SIZE, Event, Payload, Refusal, walk};
use std::collections::BTreeMap;
use std::thread;

const STAIN: u64 = 0xA5A5_A5A5_A5A5_A5A5;

/// Stores that are stained before each walk.
struct Room {
    events: Vec<u64>,
    operands: Vec<u64>,
}

impl Room {
    fn new(events: usize, operands: usize) -> Self {
        Self { events: vec![STAIN; events], operands: vec![STAIN; operands] }
    }

    /// Walks an input, looks at everything that it gave, and checks what a walk leaves. Hands the status back.
    fn check(&mut self, input: &[u8], skip: &[u64]) -> u64 {
        self.events.fill(STAIN);
        self.operands.fill(STAIN);
        match walk(input, skip, &mut self.events, &mut self.operands) {
            Err(refusal) => {
                assert!(!matches!(refusal, Refusal::Unknown { .. }));
                assert!(!refusal.to_string().is_empty() && refusal.place() <= 8 * input.len() as u64);
                assert!(self.events.iter().chain(&self.operands).all(|&number| number == 0));
                refusal.number()
            }
            Ok(log) => {
                let (mut open, mut used) = (0, 0);
                for event in log.events() {
                    match event {
                        Event::Enter { start, length, .. } => {
                            open += 1;
                            assert!(open <= gleanrime::MAX_OPEN && start + length <= log.stream().len() as u64);
                        }
                        Event::Skip { block, start, length, .. } => {
                            assert!(skip.contains(&block) && start + length <= log.stream().len() as u64);
                        }
                        Event::Leave { .. } => open -= 1,
                        Event::Record(record) => {
                            used += record.operands.len();
                            match record.payload {
                                Payload::None | Payload::Blob(_) => {}
                                Payload::Array(numbers) => used += numbers.len(),
                                Payload::Char6(letters) => {
                                    used += letters.len();
                                    let text = record.payload.text().unwrap();
                                    assert!(text.clone().all(|letter| letter.is_ascii_alphanumeric() || "._".contains(letter)));
                                    assert_eq!(text.to_string().len(), letters.len());
                                }
                            }
                        }
                    }
                }
                assert_eq!(open, 0);
                assert_eq!(used, log.operand_numbers().len());
                let filled = EVENT_SIZE * log.events().len();
                assert!(self.events[filled..].iter().chain(&self.operands[used..]).all(|&number| number == 0));
                0
            }
        }
    }
}

#[test]
fn bytes_by_chance() {
    let mut chance = Chance::new(7);
    let mut room = Room::new(640, 192);
    let mut counts = BTreeMap::new();
    for turn in 0..300_000 {
        let mut input: Vec<u8> = (0..chance.below(40)).map(|_| chance.next() as u8).collect();
        if turn % 8 != 0 {
            input.splice(0..0, MAGIC);
        }
        *counts.entry(room.check(&input, &[8])).or_insert(0) += 1;
    }
    assert!([0, 1, 2, 3, 5, 17].iter().all(|status| counts.contains_key(status)), "{counts:?}");
}

#[test]
fn logs_with_damage() {
    let mut chance = Chance::new(8);
    let mut counts = BTreeMap::new();
    for turn in 0..100_000 {
        let made = make(&mut chance);
        let mut input = if turn % 4 == 0 { wrapped(&made.input, 20 + turn % 13) } else { made.input };
        for _ in 0..=chance.below(3) {
            let at = chance.below(input.len() as u64) as usize;
            match chance.below(4) {
                0 => input.truncate(at.max(4)),
                1 => input[at] = chance.next() as u8,
                _ => input[at] ^= 1 << chance.below(8),
            }
        }
        let mut room = Room::new(chance.below(400) as usize, chance.below(200) as usize);
        *counts.entry(room.check(&input, &made.skip)).or_insert(0) += 1;
    }
    assert!((0..=20).filter(|status| ![4, 6, 10, 14, 15, 16].contains(status)).all(|status| counts.contains_key(&status)), "{counts:?}");
}

/// Every room that is too small, and the one that just does.
#[test]
fn rooms_by_one() {
    let mut chance = Chance::new(9);
    for _ in 0..300 {
        let made = make(&mut chance);
        let mut whole = Room::new(8192, 8192);
        assert_eq!(whole.check(&made.input, &made.skip), 0);
        let log = walk(&made.input, &made.skip, &mut whole.events, &mut whole.operands).unwrap();
        let (events, operands) = (log.event_numbers().len(), log.operand_numbers().len());
        assert_eq!(Room::new(events, operands).check(&made.input, &made.skip), 0);
        (0..events).for_each(|less| assert_eq!(Room::new(less, operands).check(&made.input, &made.skip), 18));
        (0..operands).for_each(|less| assert_eq!(Room::new(events, less).check(&made.input, &made.skip), 19));
    }
}

/// Runs on a stack of 128 KiB.
fn in_a_small_thread<T: Send + 'static>(run: impl FnOnce() -> T + Send + 'static) -> T {
    thread::Builder::new().stack_size(128 * 1024).spawn(run).unwrap().join().expect("it ends well")
}

#[test]
fn the_deepest_logs_need_little_stack() {
    for levels in 1..=40 {
        for cut in [false, true] {
            let status = in_a_small_thread(move || Room::new(640, 16).check(&nested(levels, cut), &[]));
            let wanted = match (levels, cut) {
                (33.., _) => 16,
                (_, true) => 2,
                _ => 0,
            };
            assert_eq!(status, wanted, "{levels} levels, cut {cut}");
        }
    }

    // The place and the block of the one that can't be entered.
    let refused = in_a_small_thread(|| walk(&nested(33, false), &[], &mut [0; 640], &mut [0; 16]).unwrap_err());
    assert_eq!(refused, Refusal::TooDeep { place: 2048, block: 9 });
}

/// 200,000 blocks, each in the one before, and as many BLOCKINFO blocks one behind the other: what makes a recursive reader run out of stack.
#[test]
fn very_deep_and_very_many_need_little_stack() {
    let deep: Vec<u8> =
        (0..200_000u32).rev().flat_map(|inner| [0x0821, 3 * inner + 1]).chain(std::iter::repeat_n(0, 200_000)).flat_map(u32::to_le_bytes).collect();
    assert_eq!(in_a_small_thread(move || Room::new(640, 8).check(&[&MAGIC, &deep[..]].concat(), &[])), 16);
    let many: Vec<u8> = (0..200_000).flat_map(|_| [0x0801u32, 1, 0]).flat_map(u32::to_le_bytes).collect();
    assert_eq!(in_a_small_thread(move || Room::new(0, 0).check(&[&MAGIC, &many[..]].concat(), &[])), 0);
}
