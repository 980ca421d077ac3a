//! Inputs at the ends of what a walk is built for, which no generator reaches: long, deep, and with very many of one thing.
use crate::check::Case;
use crate::stream::{Bits, MAGIC};

const MOST: usize = 16_777_216;

fn case(stream: Bits, events: usize, operands: usize) -> Case {
    Case { input: [&MAGIC, &stream.into_bytes()[..]].concat(), skip: Vec::new(), events, operands }
}

/// A block around a body.
fn enter(bits: &mut Bits, outer: u64, number: u64, width: u64, body: &Bits) {
    bits.put(1, outer);
    bits.vbr(number, 8);
    bits.vbr(width, 4);
    bits.align(0);
    bits.put(body.len as u64 / 32, 32);
    bits.append(body);
}

fn ended(mut body: Bits, width: u64) -> Bits {
    body.put(0, width);
    body.align(0);
    body
}

/// A log of this many bytes: a record of zeros, then zeros behind a top-level END_BLOCK.
fn of_length(bytes: usize) -> Case {
    let mut input = MAGIC.to_vec();
    input.resize(bytes, 0);
    Case { input, skip: Vec::new(), events: 80, operands: 10 }
}

/// So many blocks, each in the one before: two words of a head and one of an END_BLOCK for each.
fn nested(levels: u64) -> Case {
    let mut bits = Bits::default();
    for level in 1..=levels {
        bits.put(1, 2);
        bits.vbr(8, 8);
        bits.vbr(2, 4);
        bits.align(0);
        bits.put(3 * (levels - level) + 1, 32);
    }
    (0..levels).for_each(|_| bits.put(0, 32));
    case(bits, 16 * (levels as usize + 1), 8)
}

/// So many empty BLOCKINFO blocks, one behind the other.
fn infos(count: u64) -> Case {
    let mut bits = Bits::default();
    let body = ended(Bits::default(), 2);
    (0..count).for_each(|_| enter(&mut bits, 2, 0, 2, &body));
    case(bits, 8, 8)
}

/// So many small casings.
fn casings(count: u64) -> Case {
    let mut bits = Bits::default();
    for i in 0..count {
        let mut body = Bits::default();
        body.put(3, 3);
        body.vbr(1 + i % 4, 6);
        body.vbr(1, 6);
        body.vbr(i, 6);
        enter(&mut bits, 2, 8, 3, &ended(body, 3));
    }
    case(bits, 24 * count as usize, count as usize)
}

/// One record with so many operands, or a letter array or a blob of that length.
fn long_record(count: u64) -> Case {
    let mut bits = Bits::default();
    bits.put(3, 2);
    bits.vbr(5, 6);
    bits.vbr(count, 6);
    (0..count).for_each(|i| bits.vbr(i % 97, 6));
    case(bits, 8, count as usize)
}

fn long_payload(count: u64, kind: u64) -> Case {
    let mut body = Bits::default();
    body.put(2, 3);
    body.vbr(if kind == 5 { 2 } else { 3 }, 5);
    body.put(1, 1);
    body.vbr(7, 8);
    body.put(kind << 1, 4);
    if kind == 3 {
        body.put(4 << 1, 4);
    }
    body.put(4, 3);
    body.vbr(count, 6);
    if kind == 5 {
        body.align(0);
    }
    (0..count).for_each(|i| body.put(i % 64, if kind == 5 { 8 } else { 6 }));
    if kind == 5 {
        body.align(0);
    }
    let mut bits = Bits::default();
    enter(&mut bits, 2, 8, 3, &ended(body, 3));
    case(bits, 24, if kind == 5 { 0 } else { count as usize })
}

/// So many local definitions in one block after another: each is freed at its block's end.
fn definitions(blocks: u64) -> Case {
    let mut bits = Bits::default();
    for _ in 0..blocks {
        let mut body = Bits::default();
        for _ in 0..32 {
            body.put(2, 3);
            body.vbr(0, 5);
        }
        enter(&mut bits, 2, 8, 3, &ended(body, 3));
    }
    case(bits, 16 * blocks as usize, 0)
}

pub const COUNT: u64 = 13;

/// The large input of a number: made when it is wanted, so that no copy of the process carries them along.
pub fn large(index: u64) -> Case {
    match index {
        0 => of_length(MOST),
        1 => of_length(MOST + 1),
        2 => nested(32),
        3 => nested(33),
        4 => nested(1_000),
        5 => nested(200_000),
        6 => infos(1_000),
        7 => infos(200_000),
        8 => casings(200_000),
        9 => long_record(1_000_000),
        10 => long_payload(1_000_000, 3),
        11 => long_payload(4_000_001, 5),
        _ => definitions(5_000),
    }
}
