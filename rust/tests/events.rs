//! Events: 01's sample, logs that a maker made and what it put into them, wrappers, blobs, the skip list, stores and visitors.
mod common;

use common::{Bits, Chance, Load, MAGIC, Met, Operand, SAMPLE, make, wrapped};
use gleanrime::{EVENT_SIZE, Event, Header, Log, Payload, Record, Refusal, Stores, TOP_LEVEL, Visitor, WRAPPER_MAGIC, header, walk};

#[test]
fn the_sample() {
    let (mut events, mut operands) = ([u64::MAX; 64], [u64::MAX; 8]);
    let log = walk(SAMPLE, &[], &mut events, &mut operands).unwrap();
    assert_eq!(log.header(), Header { magic: 0xdec04342, magic2: 0, version: 0, offset: 4, size: 12, cpu: 0 });
    let met: Vec<Event> = log.events().collect();
    let record = Record { block: 8, code: 1, operands: &[2], payload: Payload::None };
    assert_eq!(met, [Event::Enter { block: 8, width: 3, start: 8, length: 4 }, Event::Record(record), Event::Leave { block: 8 }]);
    assert_eq!(log.stream(), &SAMPLE[4..]);
    assert_eq!(log.event_numbers().len(), 3 * EVENT_SIZE);
    assert_eq!(log.operand_numbers(), [2]);

    // Zero behind the last event and operand.
    assert!(events[3 * EVENT_SIZE..].iter().chain(&operands[1..]).all(|&number| number == 0));
}

#[test]
fn a_top_level_record_carries_the_top_levels_number() {
    let mut stores = Stores::new();
    let log = stores.read(b"\x42\x43\xc0\xde\x07\x82\x30\x00", &[]).unwrap();
    let record = Record { block: TOP_LEVEL, code: 1, operands: &[2, 3], payload: Payload::None };
    assert_eq!(log.events().collect::<Vec<_>>(), [Event::Record(record)]);
}

/// The events of a log as the maker's.
fn met(log: &Log<'_>) -> Vec<Met> {
    log.events().map(Met::from).collect()
}

#[test]
fn events_are_what_the_maker_put() {
    let mut chance = Chance::new(1);
    let mut stores = Stores::new();
    let mut seen = [0; 8];
    for turn in 0..20_000 {
        let made = make(&mut chance);
        let bare = stores.read(&made.input, &made.skip).unwrap_or_else(|refusal| panic!("log {turn}: {refusal}"));
        assert_eq!(met(&bare), made.met, "log {turn}");
        for event in &made.met {
            let kind = match event {
                Met::Enter { .. } => 0,
                Met::Leave { .. } => 1,
                Met::Skip { .. } => 2,
                Met::Record { payload: Load::None, .. } => 3,
                Met::Record { payload: Load::Array(_), .. } => 4,
                Met::Record { payload: Load::Char6(_), .. } => 5,
                Met::Record { payload: Load::Blob(_), .. } => 6,
            };
            seen[kind] += 1;
            seen[7] += u64::from(matches!(event, Met::Record { block: TOP_LEVEL, .. }));
        }

        // In a wrapper the events are the same: places count from the stream.
        let input = wrapped(&made.input, 20 + turn % 9);
        let log = stores.read(&input, &made.skip).unwrap();
        assert_eq!(met(&log), made.met, "log {turn}, wrapped");
        let wanted =
            Header { magic: WRAPPER_MAGIC, magic2: 0xdec04342, version: 1, offset: 20 + turn as u64 % 9, size: made.input.len() as u64, cpu: 7 };
        assert_eq!(log.header(), wanted);
        assert_eq!(header(&input), Ok(wanted));
        assert_eq!(log.stream(), &made.input[4..]);
    }
    assert!(seen.iter().all(|&count| count > 1000), "each kind occurs often: {seen:?}");
}

#[test]
fn a_blob_is_that_very_part_of_the_input() {
    let mut chance = Chance::new(2);
    let mut stores = Stores::new();
    let mut blobs = 0;
    for turn in 0..10_000 {
        let made = make(&mut chance);
        let input = if turn % 2 == 0 { made.input } else { wrapped(&made.input, 21) };
        let log = stores.read(&input, &made.skip).unwrap();
        for (event, numbers) in log.events().zip(log.event_numbers().chunks_exact(EVENT_SIZE)) {
            if let Event::Record(Record { payload: Payload::Blob(bytes), .. }) = event {
                assert!(std::ptr::eq(bytes, &log.stream()[numbers[6] as usize..][..numbers[7] as usize]));
                assert!(input.as_ptr_range().start <= bytes.as_ptr_range().start && bytes.as_ptr_range().end <= input.as_ptr_range().end);
                blobs += 1;
            }
        }
    }
    assert!(blobs > 1000);
}

#[test]
fn letters_are_text() {
    let mut bits = Bits::default();
    let at = bits.enter(2, 8, 3);
    bits.define(3, &[Operand::Literal(7), Operand::Array, Operand::Char6]);
    bits.put(4, 3);
    bits.vbr(64, 6);
    (0..64).for_each(|six| bits.put(six, 6));
    bits.leave(3, at);
    let input = bits.log();
    let mut stores = Stores::new();
    let log = stores.read(&input, &[]).unwrap();
    let Some(Event::Record(record)) = log.events().nth(1) else { panic!() };
    let text = record.payload.text().unwrap();
    assert_eq!(text.to_string(), "abcdefghijklmnopqrstuvwxyzABCDEFGHIJKLMNOPQRSTUVWXYZ0123456789._");
    assert_eq!(text.len(), 64);
    assert_eq!(text.collect::<String>().len(), 64);
}

#[test]
fn events_go_both_ways_and_pass_over_blocks() {
    let mut chance = Chance::new(3);
    let mut stores = Stores::new();
    for _ in 0..500 {
        let made = make(&mut chance);
        let log = stores.read(&made.input, &made.skip).unwrap();
        let forth: Vec<Event> = log.events().collect();
        let mut back: Vec<Event> = log.events().rev().collect();
        back.reverse();
        assert_eq!(forth, back);
        assert_eq!(log.events().len(), forth.len());
        assert_eq!((&log).into_iter().count(), forth.len());
        for n in 0..=forth.len() {
            assert_eq!(log.events().nth(n), forth.get(n).copied());
        }

        // Behind each enter, passing over leads behind the leave of the same depth.
        for (i, event) in forth.iter().enumerate() {
            if !matches!(event, Event::Enter { .. }) {
                continue;
            }
            let mut depth = 0;
            let behind = forth[i..].iter().position(|event| {
                depth += matches!(event, Event::Enter { .. }) as i32 - matches!(event, Event::Leave { .. }) as i32;
                depth == 0
            });
            let mut events = log.events();
            events.nth(i);
            events.pass_over();
            assert_eq!(events.next(), forth.get(i + behind.unwrap() + 1).copied());
        }

        // At the end it stays at the end.
        let mut events = log.events();
        events.by_ref().for_each(drop);
        events.pass_over();
        assert_eq!((events.next(), events.next_back(), events.len()), (None, None, 0));
    }
}

/// A visitor that keeps what it is shown, and enters all blocks but those of one number.
struct Keeper {
    shut: u64,
    seen: Vec<Met>,
}

impl Visitor for Keeper {
    fn should_enter_block(&mut self, block: u64) -> bool {
        self.seen.push(Met::Enter { block, width: 0, start: 0, length: 0 });
        block != self.shut
    }

    fn did_exit_block(&mut self, block: u64) {
        self.seen.push(Met::Leave { block });
    }

    fn visit(&mut self, block: u64, record: Record<'_>) {
        assert_eq!(block, record.block);
        self.seen.push(Event::Record(record).into());
    }
}

/// What a visitor is to be shown of these events.
fn shown(met: &[Met], shut: u64) -> Vec<Met> {
    let (mut seen, mut hidden) = (Vec::new(), 0);
    for event in met {
        match event {
            Met::Enter { block, .. } => {
                if hidden == 0 {
                    seen.push(Met::Enter { block: *block, width: 0, start: 0, length: 0 });
                }
                hidden += u64::from(hidden > 0 || *block == shut);
            }
            Met::Leave { .. } if hidden > 0 => hidden -= 1,
            Met::Skip { .. } => {}
            other if hidden == 0 => seen.push(other.clone()),
            _ => {}
        }
    }
    seen
}

#[test]
fn a_visitor_is_shown_what_it_enters() {
    let mut chance = Chance::new(4);
    let mut stores = Stores::new();
    for _ in 0..2_000 {
        let made = make(&mut chance);
        let mut keeper = Keeper { shut: 10, seen: Vec::new() };
        stores.read(&made.input, &made.skip).unwrap().visit(&mut keeper).unwrap();
        assert_eq!(keeper.seen, shown(&made.met, 10));
    }
}

#[test]
fn a_visitor_may_refuse_the_header() {
    struct Nothing;
    impl Visitor for Nothing {
        fn validate(&self, header: Header) -> bool {
            header.magic == 1
        }
        fn visit(&mut self, _: u64, _: Record<'_>) {
            panic!("nothing is shown");
        }
    }
    assert_eq!(Stores::new().read(SAMPLE, &[]).unwrap().visit(&mut Nothing), Err(Refusal::InvalidSignature));
}

#[test]
fn stores_grow_as_far_as_they_may() {
    // An array of literals: a few bytes ask for any number of operands.
    let array = |count: u64| {
        let mut bits = Bits::default();
        let at = bits.enter(2, 8, 3);
        bits.define(3, &[Operand::Literal(7), Operand::Array, Operand::Literal(99)]);
        bits.put(4, 3);
        bits.vbr(count, 6);
        bits.leave(3, at);
        bits.log()
    };
    let mut stores = Stores::with_most(64, 100_000);
    for count in [0, 1, 1024, 1025, 99_999, 100_000, 5] {
        let input = array(count);
        let log = stores.read(&input, &[]).unwrap();
        let Some(Event::Record(record)) = log.events().nth(1) else { panic!() };
        assert!(matches!(record.payload, Payload::Array(numbers) if numbers == vec![99; count as usize]));
    }
    for count in [100_001, 1 << 40, u64::MAX] {
        assert_eq!(stores.read(&array(count), &[]).unwrap_err(), Refusal::NoOperandRoom { place: 94 });
    }
    assert!(stores.read(&array(7), &[]).is_ok());

    // Many events: three bits each.
    let mut bits = Bits::default();
    let at = bits.enter(2, 8, 3);
    bits.define(3, &[Operand::Literal(7)]);
    (0..50_000).for_each(|_| bits.put(4, 3));
    bits.leave(3, at);
    let input = bits.log();
    assert!(Stores::with_most(8 * 50_002, 0).read(&input, &[]).is_ok());
    assert!(matches!(Stores::with_most(8 * 50_002 - 1, 0).read(&input, &[]), Err(Refusal::NoEventRoom { .. })));
    assert_eq!(Stores::new().read(&input, &[]).unwrap().events().len(), 50_002);
}

#[test]
fn the_longest_log_and_one_byte_more() {
    let mut input = vec![0; gleanrime::MAX_INPUT + 1];
    input[..4].copy_from_slice(&MAGIC);
    let (mut events, mut operands) = ([1; 8], [1; 8]);
    assert_eq!(walk(&input[1..], &[], &mut events, &mut operands).unwrap().events().len(), 0);
    assert_eq!(walk(&input, &[], &mut events, &mut operands).unwrap_err(), Refusal::InputTooLong);
    assert_eq!((events, operands), ([0; 8], [0; 8]));
    assert_eq!(header(&input).unwrap().size, gleanrime::MAX_INPUT as u64 - 3);
}
