//! Single calls: the questions of the program probe (crates/probe/stdin), asked of the Rust, whose answers are held against the program's
//! (crates/probe/stdout). A question that the Rust has no call for, or that its types don't allow, is left out.
use crate::answer::{Answer, bytes_of, hex};
use crate::notes::{Difference, Notes};
use crate::stream::{self, Bits};
use crate::theirs;
use llvm_bitcode::bitcode::{RecordIter, Signature};
use llvm_bitcode::{Cursor, bits, inner, read};

struct Question {
    op: char,
    n: u64,
    at: u64,
    end: u64,
    bytes: Vec<u8>,
}

fn question(line: &str) -> Option<Question> {
    let words: Vec<&str> = line.split(' ').collect();
    let [op, n, at, end, bytes] = words[..] else {
        return None;
    };
    let mut letters = op.chars();
    let op = letters.next().filter(|_| letters.next().is_none())?;
    Some(Question { op, n: n.parse().ok()?, at: at.parse().ok()?, end: end.parse().ok()?, bytes: bytes_of(bytes)? })
}

fn refused(error: impl Into<read::Error>) -> String {
    match theirs::refusal(error.into()) {
        Answer::Refused { number, .. } => format!("refused {number}"),
        _ => unreachable!(),
    }
}

fn bytes_or_none(bytes: &[u8]) -> String {
    if bytes.is_empty() { "-".into() } else { hex(bytes) }
}

/// A cursor at a bit of the bytes that the question gives it; none if it can't get there.
fn cursor_at(q: &Question) -> Option<(Cursor<'_>, u64)> {
    let bytes = &q.bytes[..q.bytes.len().min(usize::try_from(q.end).ok()?)];
    let (mut cursor, bits) = (Cursor::new(bytes), 8 * bytes.len() as u64);
    let mut left = q.at;
    while left > 0 {
        let step = left.min(64);
        cursor.read(step as u8).ok()?;
        left -= step;
    }
    Some((cursor, bits))
}

fn ask_cursor(q: &Question) -> Option<String> {
    let (mut cursor, bits) = cursor_at(q)?;
    let place = |cursor: &Cursor| bits - cursor.unconsumed_bit_len() as u64;
    let width = u8::try_from(q.n).ok();
    let read = |cursor: &Cursor, value: Result<u64, bits::Error>| match value {
        Ok(value) => format!("{value} at {}", place(cursor)),
        Err(error) => refused(error),
    };
    let moved = |cursor: &Cursor, done: Result<(), bits::Error>| match done {
        Ok(()) => format!("at {}", place(cursor)),
        Err(error) => refused(error),
    };
    Some(match q.op {
        'r' => {
            let value = cursor.read(width?);
            read(&cursor, value)
        }
        'p' => cursor.peek(width?).map_or_else(refused, |value| value.to_string()),
        'v' => {
            let value = cursor.read_vbr(width?);
            read(&cursor, value)
        }
        'a' => {
            let done = cursor.align32();
            moved(&cursor, done)
        }
        's' => {
            let done = cursor.skip_bytes(q.n as usize);
            moved(&cursor, done)
        }
        'b' => bytes_or_none(cursor.read_bytes(q.n as usize).unwrap_or_default()),
        't' => match inner::take_slice(&mut cursor, q.n as usize) {
            Ok(part) => format!("part {} {} then {}", q.at, q.at / 8 + part.unconsumed_bit_len() as u64 / 8, place(&cursor)),
            Err(error) => refused(error),
        },
        'l' => cursor.unconsumed_bit_len().to_string(),
        _ => if cursor.is_at_end() { "yes" } else { "no" }.into(),
    })
}

fn ask_header(q: &Question) -> String {
    match (q.op, Signature::parse(&q.bytes)) {
        ('m', found) => bytes_or_none(found.map_or(&[][..], |(_, stream)| stream)),
        (_, None) => "refused 1".into(),
        (_, Some((s, _))) => {
            format!("magic={:08x} version={} offset={} size={} cpu={} magic2={:08x}", s.magic, s.version, s.offset, s.size, s.cpu_type, s.magic2)
        }
    }
}

/// A typed operand of the record, as text.
fn typed(op: char, record: &mut RecordIter) -> Result<String, read::Error> {
    Ok(match op {
        '1' => record.u8()?.to_string(),
        '2' => record.u16()?.to_string(),
        '4' => record.u32()?.to_string(),
        '8' => record.u64()?.to_string(),
        'z' => u8::from(record.bool()?).to_string(),
        'n' => {
            let range = record.range()?;
            format!("{}..{}", range.start, range.end)
        }
        _ => record.i64()?.to_string(),
    })
}

/// A typed operand is asked of a record with no abbreviation, whose operands are those of the list that are left.
fn ask_typed(q: &Question, numbers: &[u64]) -> String {
    let mut bits = Bits::default();
    bits.vbr(1, 6);
    bits.vbr(numbers.len() as u64, 6);
    numbers.iter().for_each(|&number| bits.vbr(number, 6));
    let bytes = bits.into_bytes();
    let mut cursor = Cursor::new(&bytes);
    let mut record = inner::record(&mut cursor).expect("a record");
    match typed(q.op, &mut record) {
        Err(error) => refused(error),
        Ok(value) if q.op == 'i' => value,
        Ok(value) => format!("{value} at {}", q.at + (numbers.len() - record.len()) as u64),
    }
}

/// The numbers of the list that are left: those of the store from the place to the end.
fn numbers_left(q: &Question) -> Vec<u64> {
    let store: Vec<u64> = q.bytes.chunks_exact(8).map(|number| u64::from_le_bytes(number.try_into().unwrap())).collect();
    let end = usize::try_from(q.end).unwrap_or(usize::MAX).min(store.len());
    let at = usize::try_from(q.at).unwrap_or(usize::MAX).min(end);
    store[at..end].to_vec()
}

fn ask(q: &Question) -> Option<String> {
    match q.op {
        'r' | 'p' | 'v' | 'a' | 's' | 'b' | 't' | 'l' | 'e' => ask_cursor(q),
        'h' | 'm' => Some(ask_header(q)),
        '1' | '2' | '4' | '8' | 'z' | 'g' | 'n' => Some(ask_typed(q, &numbers_left(q))),
        'i' => Some(ask_typed(q, &[q.n])),
        _ => None,
    }
}

/// Whether 01's list has the difference: a byte skip whose sum reaches 2^64, or a VBR chunk at shift 64.
fn is_listed(q: &Question) -> bool {
    let mut notes = Notes::default();
    let end = 8 * (q.bytes.len() as u64).min(q.end);
    let _ = q.op == 'v' && stream::Cursor { stream: &q.bytes, at: q.at, end }.vbr(q.n, &mut notes).is_ok();
    q.op == 's' && (q.at / 8).checked_add(q.n).is_none() || notes.left & Difference::Shift64.bit() != 0
}

pub fn compare() -> bool {
    let stored = std::fs::read_to_string("crates/probe/stdout").expect("probe's answers");
    let (mut same, mut listed, mut none, mut faults) = (0, 0, 0, 0);
    for (line, ours) in stored.lines().filter_map(|line| line.split_once(" -> ")).filter(|(_, ours)| *ours != "?") {
        let Some(q) = question(line) else {
            continue;
        };
        match ask(&q) {
            None => none += 1,
            Some(rust) if rust == ours => same += 1,
            Some(rust) => {
                let is_listed = is_listed(&q);
                println!("{} {line}: ours {ours}, the Rust {rust}", if is_listed { "listed" } else { "FAULT" });
                if is_listed { listed += 1 } else { faults += 1 }
            }
        }
    }
    println!("{same} answers are the same, {listed} differ as listed, {faults} otherwise; the Rust has no such call, or no such number, for {none}");
    faults == 0 && same > 0 && listed > 0
}
