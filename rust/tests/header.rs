//! c/gleanrime.h against this crate: each of its constants is read from the header itself, and is the crate's, or what a walk shows.
mod common;
#[allow(dead_code)]
#[path = "../src/sys.rs"]
mod sys;

use common::{Chance, SAMPLE, make, wrapped};
use gleanrime::{Event, Payload, Refusal, walk};
use std::collections::BTreeMap;
use sys::c::{gleanrime_header, gleanrime_walk};

const TEXT: &str = include_str!("../../c/gleanrime.h");

/// The constants of the header: `NAME = NUMBER` in an enum, and `#define NAME NUMBER`, without the prefix `GLEANRIME_`.
fn constants() -> BTreeMap<&'static str, u64> {
    let code = TEXT.lines().map(|line| line.split("/*").next().unwrap().trim());
    let pairs = code.filter_map(|line| match line.strip_prefix("#define ") {
        Some(defined) => defined.split_once(' '),
        None => line.trim_end_matches(',').split_once(" = "),
    });
    let mut constants = BTreeMap::new();
    for (name, number) in pairs.filter(|(name, _)| name.starts_with("GLEANRIME_")) {
        let number = number.trim().parse().unwrap_or_else(|_| panic!("{name} is a number and not {number}"));
        assert!(constants.insert(&name["GLEANRIME_".len()..], number).is_none(), "{name} stands once");
    }
    constants
}

/// 01's table of refusals: number, name, and how many details.
const REFUSALS: [(u64, &str, usize); 20] = [
    (1, "InvalidSignature", 0),
    (2, "BufferOverflow", 0),
    (3, "VbrOverflow", 0),
    (4, "Alignment", 0),
    (5, "InvalidAbbrev", 0),
    (6, "UnexpectedOperand", 0),
    (7, "AbbrevWidthTooSmall", 1),
    (8, "NoSuchAbbrev", 2),
    (9, "MissingEndBlock", 1),
    (10, "MissingSetBid", 0),
    (11, "NestedBlockInBlockInfo", 0),
    (12, "InvalidBlockInfoRecord", 1),
    (13, "ValueOverflow", 0),
    (14, "EndOfRecord", 0),
    (15, "input too long", 0),
    (16, "too deep", 1),
    (17, "no room: abbreviation", 0),
    (18, "no room: event", 0),
    (19, "no room: operand", 0),
    (20, "block number too large", 1),
];

/// The name of a variant, as a constant of C has it: `NoSuchAbbrev` is `NO_SUCH_ABBREV`.
fn in_capitals(variant: &str) -> String {
    let mut name = String::new();
    for letter in variant.chars() {
        if letter.is_uppercase() && !name.is_empty() {
            name.push('_');
        }
        name.push(letter.to_ascii_uppercase());
    }
    name
}

#[test]
fn each_refusal_has_its_variant_its_name_and_its_number() {
    let constants = constants();
    for (number, name, details) in REFUSALS {
        let refusal = Refusal::from_numbers(number, 77, 5, 6);
        assert!(!matches!(refusal, Refusal::Unknown { .. }));
        assert_eq!(refusal.number(), number);
        assert_eq!(refusal.name(), name);
        assert_eq!(refusal.details(), [[0, 0], [5, 0], [5, 6]][details]);
        assert_eq!(refusal.place(), if [1, 4, 14, 15].contains(&number) { 0 } else { 77 });
        let debug = format!("{refusal:?}");
        let variant = debug.split(' ').next().unwrap();
        assert_eq!(constants.get(in_capitals(variant).as_str()), Some(&number), "the header's number of {variant}");
        if number <= 14 {
            assert_eq!(variant, name);
        }
        let said = refusal.to_string();
        assert!(said.starts_with(&format!("refusal {number}")), "{said}");
        assert_eq!(said.contains("at bit 77"), refusal.place() == 77, "{said}");
        assert!(refusal.details().iter().all(|detail| *detail == 0 || said.contains(&detail.to_string())), "{said}");
    }
    assert!(matches!(Refusal::from_numbers(21, 1, 2, 3), Refusal::Unknown { number: 21, place: 1, first: 2, second: 3 }));
}

#[test]
fn no_constant_of_the_header_is_left_out() {
    let mut known: Vec<String> =
        REFUSALS.map(|(number, ..)| in_capitals(format!("{:?}", Refusal::from_numbers(number, 0, 0, 0)).split(' ').next().unwrap())).into();
    let others = "ACCEPTED MAX_INPUT MAX_OPEN MAX_OPERANDS MAX_SHARED MAX_LOCAL
        TOLD_STATUS TOLD_PLACE TOLD_FIRST TOLD_SECOND TOLD_MAGIC TOLD_MAGIC2 TOLD_VERSION TOLD_OFFSET TOLD_SIZE TOLD_CPU TOLD_EVENTS TOLD_OPERANDS TOLD
        HEADER_MAGIC HEADER_MAGIC2 HEADER_VERSION HEADER_OFFSET HEADER_SIZE HEADER_CPU HEADER
        KIND BLOCK WIDTH START LENGTH CODE FIRST COUNT PAYLOAD PAYLOAD_PLACE PAYLOAD_LENGTH EVENT_SIZE
        ENTER LEAVE RECORD SKIP NO_PAYLOAD ARRAY CHAR6 BLOB TOP_LEVEL WRAPPER_MAGIC";
    known.extend(others.split_whitespace().map(String::from));
    known.sort();
    assert_eq!(constants().into_keys().collect::<Vec<_>>(), known);
}

#[test]
fn limits_and_marks_are_the_crates() {
    let c = constants();
    assert_eq!(c["ACCEPTED"], 0);
    assert_eq!(c["MAX_INPUT"], gleanrime::MAX_INPUT as u64);
    assert_eq!(c["MAX_OPEN"], gleanrime::MAX_OPEN as u64);
    assert_eq!(c["MAX_OPERANDS"], gleanrime::MAX_OPERANDS as u64);
    assert_eq!(c["MAX_SHARED"], gleanrime::MAX_SHARED as u64);
    assert_eq!(c["MAX_LOCAL"], gleanrime::MAX_LOCAL as u64);
    assert_eq!(c["EVENT_SIZE"], gleanrime::EVENT_SIZE as u64);
    assert_eq!(c["TOP_LEVEL"], gleanrime::TOP_LEVEL);
    assert_eq!(c["WRAPPER_MAGIC"], gleanrime::WRAPPER_MAGIC);
}

/// The numbers that the C call tells.
fn told(input: &[u8], skip: &[u64], events: &mut [u64], operands: &mut [u64]) -> Vec<u64> {
    let mut told = vec![u64::MAX; constants()["TOLD"] as usize];
    let (told_at, told_len) = (told.as_mut_ptr(), told.len());
    let (events_at, events_len) = (events.as_mut_ptr(), events.len());
    let (operands_at, operands_len) = (operands.as_mut_ptr(), operands.len());
    // SAFETY: each slice goes as its own pointer and length.
    let status = unsafe {
        gleanrime_walk(input.as_ptr(), input.len(), skip.as_ptr(), skip.len(), events_at, events_len, operands_at, operands_len, told_at, told_len)
    };
    assert_eq!(status, told[0]);
    told
}

#[test]
fn what_is_told_stands_where_the_header_says() {
    let c = constants();
    let at = |told: &[u64], name: &str| told[c[name] as usize];
    let input = wrapped(SAMPLE, 24);
    let (mut events, mut operands) = ([0; 64], [0; 8]);
    let all = told(&input, &[], &mut events, &mut operands);
    let log = walk(&input, &[], &mut events, &mut operands).unwrap();
    let header = log.header();
    assert_eq!(at(&all, "TOLD_STATUS"), 0);
    assert_eq!(at(&all, "TOLD_EVENTS"), log.events().len() as u64);
    assert_eq!(at(&all, "TOLD_OPERANDS"), log.operand_numbers().len() as u64);
    let mut six = vec![0; c["HEADER"] as usize];
    // SAFETY: each slice goes as its own pointer and length.
    assert_eq!(unsafe { gleanrime_header(input.as_ptr(), input.len(), six.as_mut_ptr(), six.len()) }, 0);
    let names = ["MAGIC", "MAGIC2", "VERSION", "OFFSET", "SIZE", "CPU"];
    let numbers = [header.magic, header.magic2, header.version, header.offset, header.size, header.cpu];
    assert_eq!(names.map(|name| at(&all, &format!("TOLD_{name}"))), numbers);
    assert_eq!(names.map(|name| at(&six, &format!("HEADER_{name}"))), numbers);
    assert!(numbers.iter().all(|number| *number != 0));

    // A refusal with a place and both details.
    let log = b"\x42\x43\xc0\xde\x21\x0c\0\0\x01\0\0\0\x0a\x12\0\0\x25\x0c\0\0\x01\0\0\0\x0c\0\0\0";
    let all = told(log, &[], &mut events, &mut operands);
    let refusal = walk(log, &[], &mut events, &mut operands).unwrap_err();
    assert_eq!(["STATUS", "PLACE", "FIRST", "SECOND"].map(|name| at(&all, &format!("TOLD_{name}"))), [8, 160, 4, 9]);
    assert_eq!((refusal.number(), refusal.place(), refusal.details()), (8, 160, [4, 9]));
}

#[test]
fn events_stand_as_the_header_says() {
    let c = constants();
    let mut chance = Chance::new(5);
    for _ in 0..3_000 {
        let made = make(&mut chance);
        let (mut events, mut operands) = (vec![0; 8192], vec![0; 8192]);
        let log = walk(&made.input, &made.skip, &mut events, &mut operands).unwrap();
        let entries = log.event_numbers().chunks_exact(c["EVENT_SIZE"] as usize);
        assert_eq!(entries.len(), log.events().len());
        for (entry, event) in entries.zip(log.events()) {
            let at = |name: &str| entry[c[name] as usize];
            let part = |first: &str, count: &str| &log.operand_numbers()[at(first) as usize..][..at(count) as usize];
            let read = if at("KIND") == c["ENTER"] {
                Event::Enter { block: at("BLOCK"), width: at("WIDTH"), start: at("START"), length: at("LENGTH") }
            } else if at("KIND") == c["SKIP"] {
                Event::Skip { block: at("BLOCK"), width: at("WIDTH"), start: at("START"), length: at("LENGTH") }
            } else if at("KIND") == c["LEAVE"] {
                Event::Leave { block: at("BLOCK") }
            } else {
                assert_eq!(at("KIND"), c["RECORD"]);
                let payload = if at("PAYLOAD") == c["NO_PAYLOAD"] {
                    Payload::None
                } else if at("PAYLOAD") == c["ARRAY"] {
                    Payload::Array(part("PAYLOAD_PLACE", "PAYLOAD_LENGTH"))
                } else if at("PAYLOAD") == c["CHAR6"] {
                    Payload::Char6(part("PAYLOAD_PLACE", "PAYLOAD_LENGTH"))
                } else {
                    assert_eq!(at("PAYLOAD"), c["BLOB"]);
                    Payload::Blob(&log.stream()[at("PAYLOAD_PLACE") as usize..][..at("PAYLOAD_LENGTH") as usize])
                };
                Event::Record(gleanrime::Record { block: at("BLOCK"), code: at("CODE"), operands: part("FIRST", "COUNT"), payload })
            };
            assert_eq!(event, read);
        }
    }
}
