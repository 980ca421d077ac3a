//! The logs that are timed: one shift of a works, of one kind each, repeated up to a size.

#[path = "../../rust/tests/common/bits.rs"]
mod bits;

use bits::{Bits, Chance, MAGIC, Operand};

/// A block around what `body` puts.
fn block(bits: &mut Bits, outer: u64, number: u64, width: u64, body: impl FnOnce(&mut Bits)) {
    let at = bits.enter(outer, number, width);
    body(bits);
    bits.leave(width, at);
}

const CASING: u64 = 8;
const PASS: u64 = 9;
const IMAGE: u64 = 10;

/// A kind of log: what stands before its casings, and what casing number i adds.
pub struct Kind {
    pub name: &'static str,
    shared: Option<fn(&mut Bits)>,
    casing: fn(&mut Bits, u64, &mut Chance),
}

pub const KINDS: [Kind; 6] = [
    Kind { name: "small casings, four unabbreviated records each", shared: None, casing: small },
    Kind { name: "shared abbreviations, an array of 8 bytes and a text of 12 letters", shared: Some(shared_layout), casing: with_shared },
    Kind { name: "a local definition in each casing, four uses", shared: None, casing: with_local },
    Kind { name: "casings of two passes of two images, each a blob of 48 bytes", shared: Some(image_layout), casing: nested },
    Kind { name: "records of 400 operands", shared: None, casing: long },
    Kind { name: "texts of 400 letters", shared: Some(shared_layout), casing: letters },
];

/// Number, tread, repairs and age of a casing.
fn small(bits: &mut Bits, i: u64, chance: &mut Chance) {
    block(bits, 2, CASING, 3, |bits| {
        bits.record(3, 1, &[i]);
        bits.record(3, 2, &[chance.below(24)]);
        bits.record(3, 3, &[chance.below(6)]);
        bits.record(3, 4, &[chance.below(4000)]);
    });
}

fn shared_layout(bits: &mut Bits) {
    block(bits, 2, 0, 3, |bits| {
        bits.record(3, 1, &[CASING]);
        bits.define(3, &[Operand::Literal(1), Operand::Vbr(6), Operand::Fixed(5), Operand::Vbr(6)]);
        bits.define(3, &[Operand::Literal(5), Operand::Fixed(3), Operand::Array, Operand::Fixed(8)]);
        bits.define(3, &[Operand::Literal(6), Operand::Array, Operand::Char6]);
    });
}

fn text(bits: &mut Bits, length: u64, chance: &mut Chance) {
    bits.put(6, 3);
    bits.vbr(length, 6);
    (0..length).for_each(|_| bits.put(chance.below(64), 6));
}

fn with_shared(bits: &mut Bits, i: u64, chance: &mut Chance) {
    block(bits, 2, CASING, 3, |bits| {
        bits.put(4, 3);
        bits.vbr(i, 6);
        bits.put(chance.below(24), 5);
        bits.vbr(chance.below(4000), 6);
        bits.put(5, 3);
        bits.put(chance.below(6), 3);
        bits.vbr(8, 6);
        (0..8).for_each(|_| bits.put(chance.below(256), 8));
        text(bits, 12, chance);
    });
}

fn with_local(bits: &mut Bits, i: u64, chance: &mut Chance) {
    block(bits, 2, CASING, 3, |bits| {
        bits.define(3, &[Operand::Fixed(4), Operand::Vbr(6), Operand::Fixed(8)]);
        for code in 1..=4 {
            bits.put(4, 3);
            bits.put(code, 4);
            bits.vbr(if code == 1 { i } else { chance.below(30) }, 6);
            bits.put(chance.below(256), 8);
        }
    });
}

fn image_layout(bits: &mut Bits) {
    block(bits, 2, 0, 3, |bits| {
        bits.record(3, 1, &[IMAGE]);
        bits.define(3, &[Operand::Literal(7), Operand::Vbr(6), Operand::Blob]);
    });
}

fn nested(bits: &mut Bits, i: u64, chance: &mut Chance) {
    block(bits, 2, CASING, 3, |bits| {
        bits.record(3, 1, &[i]);
        for pass in 0..2 {
            block(bits, 3, PASS, 3, |bits| {
                bits.record(3, 1, &[pass]);
                for image in 0..2 {
                    block(bits, 3, IMAGE, 4, |bits| {
                        bits.put(4, 4);
                        bits.vbr(image, 6);
                        bits.vbr(48, 6);
                        bits.align();
                        (0..48).for_each(|_| bits.put(chance.below(256), 8));
                        bits.align();
                    });
                }
            });
        }
    });
}

fn long(bits: &mut Bits, i: u64, chance: &mut Chance) {
    let mut operands = vec![i];
    // nine of ten are of one chunk
    operands.extend((1..400).map(|_| if chance.below(10) == 0 { 32 + chance.below(2000) } else { chance.below(32) }));
    block(bits, 2, CASING, 3, |bits| bits.record(3, 9, &operands));
}

fn letters(bits: &mut Bits, _: u64, chance: &mut Chance) {
    block(bits, 2, CASING, 3, |bits| text(bits, 400, chance));
}

/// A log of a kind that just fills so many bytes, as far as whole casings do.
pub fn log(kind: &Kind, bytes: usize) -> Vec<u8> {
    let mut bits = Bits::default();
    let mut chance = Chance::new(1);
    if let Some(shared) = kind.shared {
        shared(&mut bits);
    }
    for i in 0.. {
        let whole = bits.bytes.len();
        (kind.casing)(&mut bits, i, &mut chance);
        if MAGIC.len() + bits.bytes.len() > bytes {
            bits.bytes.truncate(whole);
            return bits.log();
        }
    }
    unreachable!("casings are added until the size is reached")
}
