//! Makes logs item by item: sound ones, and ones with faults put in.
use crate::stream::{Bits, TOP};
use std::collections::HashMap;

pub struct Rng(u64);

impl Rng {
    pub fn new(seed: u64, index: u64) -> Self {
        let mut rng = Self(seed.wrapping_mul(0x9E37_79B9_7F4A_7C15) ^ index.wrapping_mul(0xD1B5_4A32_D192_ED03));
        rng.next();
        rng
    }

    pub fn next(&mut self) -> u64 {
        self.0 = self.0.wrapping_add(0x9E37_79B9_7F4A_7C15);
        let mut z = self.0;
        z = (z ^ (z >> 30)).wrapping_mul(0xBF58_476D_1CE4_E5B9);
        z = (z ^ (z >> 27)).wrapping_mul(0x94D0_49BB_1331_11EB);
        z ^ (z >> 31)
    }

    pub fn below(&mut self, n: u64) -> u64 {
        self.next() % n
    }

    pub fn one_of<T: Copy>(&mut self, choices: &[T]) -> T {
        choices[self.below(choices.len() as u64) as usize]
    }

    /// True so many times in a thousand.
    pub fn chance(&mut self, thousandths: u64) -> bool {
        self.below(1000) < thousandths
    }
}

/// An operand of a definition as it is written.
#[derive(Clone, Copy, PartialEq)]
pub enum Op {
    Literal(u64),
    Fixed(u64),
    Vbr(u64),
    Array,
    Char6,
    Blob,
    Raw(u64),
}

const NUMBERS: [u64; 12] = [8, 8, 8, 9, 9, 10, 1, 7, 0x7FFF_FFFF, TOP - 1, TOP, 17];
const WIDTHS: [u64; 12] = [2, 3, 3, 3, 4, 4, 5, 6, 8, 13, 31, 32];

/// What is being made: how often a fault is put in (in thousandths), how many items are still to come, and the shared abbreviations so far.
pub struct Maker<'r> {
    pub rng: &'r mut Rng,
    pub faults: u64,
    items: u64,
    shared: HashMap<u64, Vec<Vec<Op>>>,
}

impl<'r> Maker<'r> {
    pub fn new(rng: &'r mut Rng, faults: u64, items: u64) -> Self {
        Self { rng, faults, items, shared: HashMap::new() }
    }

    pub fn fault(&mut self) -> bool {
        let faults = self.faults;
        self.rng.chance(faults)
    }

    /// A number: small, near a power of two, or any.
    pub fn value(&mut self) -> u64 {
        match self.rng.below(8) {
            0..=3 => self.rng.below(40),
            4 => {
                let power = 1u64 << self.rng.below(64);
                power.wrapping_add(self.rng.below(3)).wrapping_sub(1)
            }
            5 => self.rng.one_of(&[31, 32, 255, 256, TOP, TOP + 1, 1 << 63, u64::MAX]),
            6 => self.rng.next() >> self.rng.below(64),
            _ => self.rng.below(5000),
        }
    }

    /// A VBR number: mostly in its fewest chunks, at times with more, and as a fault with too many.
    pub fn vbr(&mut self, bits: &mut Bits, value: u64, width: u64) {
        let more = match self.rng.below(60) {
            0 => self.rng.below(4),
            _ if self.fault() => self.rng.one_of(&[0, 1, 7, 8, 9, 10, 13, 14, 16, 17, 22, 33]),
            _ => 0,
        };
        bits.vbr_with(value, width, more);
        if self.faults > 0 && self.rng.chance(self.faults / 8) {
            (0..self.rng.one_of(&[9, 13, 16, 17, 22])).for_each(|_| bits.put(u64::MAX, width));
        }
    }

    /// The number that an item begins with.
    pub fn id(&mut self, bits: &mut Bits, number: u64, width: u64) {
        bits.put(number, width.min(64));
    }

    // ---- Definitions

    pub fn operand_width(&mut self) -> u64 {
        if self.fault() {
            return self.rng.one_of(&[0, 0, 33, 33, 64, 255, 256, 257, 288, 1 << 40]);
        }
        match self.rng.below(4) {
            0 => self.rng.one_of(&[1, 1, 2, 6, 7, 8, 31, 32, 32]),
            1 => self.rng.one_of(&[4, 6, 8]),
            _ => 1 + self.rng.below(32),
        }
    }

    pub fn scalar(&mut self) -> Op {
        match self.rng.below(7) {
            0 | 1 => Op::Literal(self.value()),
            2 | 3 => Op::Fixed(self.operand_width()),
            4 | 5 => Op::Vbr(self.operand_width()),
            _ => Op::Char6,
        }
    }

    pub fn operands(&mut self) -> Vec<Op> {
        let count = self.rng.one_of(&[0, 1, 1, 1, 2, 2, 3, 4]);
        let mut ops: Vec<Op> = (0..count).map(|_| self.scalar()).collect();
        match self.rng.below(6) {
            0 | 1 => ops.extend([Op::Array, self.scalar()]),
            2 => ops.extend([Op::Array, Op::Char6]),
            3 => ops.push(Op::Blob),
            _ => {}
        }
        if self.fault() {
            let bad = self.rng.one_of(&[Op::Array, Op::Blob, Op::Raw(0), Op::Raw(6), Op::Raw(7)]);
            let at = self.rng.below(ops.len() as u64 + 1) as usize;
            ops.insert(at, bad);
        }
        ops
    }

    pub fn put_operand(&mut self, bits: &mut Bits, op: Op) {
        let (kind, width) = match op {
            Op::Literal(value) => {
                bits.put(1, 1);
                return self.vbr(bits, value, 8);
            }
            Op::Fixed(width) => (1, Some(width)),
            Op::Vbr(width) => (2, Some(width)),
            Op::Array => (3, None),
            Op::Char6 => (4, None),
            Op::Blob => (5, None),
            Op::Raw(kind) => (kind, None),
        };
        bits.put(0, 1);
        bits.put(kind, 3);
        if let Some(width) = width {
            self.vbr(bits, width, 5);
        }
    }

    pub fn define(&mut self, bits: &mut Bits, ops: &[Op]) {
        let mut count = ops.len() as u64;
        if self.fault() {
            count = self.rng.one_of(&[0, 1, count + 1, 32, 33, 34, 1 << 40]);
        }
        self.vbr(bits, count, 5);
        ops.iter().for_each(|&op| self.put_operand(bits, op));
    }

    /// So many definitions of no operand or one.
    pub fn definitions(&mut self, bits: &mut Bits, width: u64, count: u64) {
        for _ in 0..count {
            let ops = if self.rng.chance(500) { vec![] } else { vec![self.scalar()] };
            bits.put(2, width);
            self.define(bits, &ops);
        }
    }

    // ---- Records

    pub fn put_scalar(&mut self, bits: &mut Bits, op: Op) {
        match op {
            Op::Fixed(width) => bits.put(self.value(), width.min(32)),
            Op::Vbr(width) if (1..=32).contains(&width) => {
                let value = if width == 1 { 0 } else { self.value() };
                self.vbr(bits, value, width);
            }
            Op::Char6 => bits.put(self.rng.below(64), 6),
            _ => {}
        }
    }

    pub fn length(&mut self) -> u64 {
        if self.fault() {
            return self.rng.one_of(&[1, 2, 3, 31, 100, 1000, 1 << 20, 1 << 30, 1 << 61, u64::MAX]);
        }
        self.rng.one_of(&[0, 0, 1, 2, 3, 4, 5, 9, 33])
    }

    pub fn put_payload(&mut self, bits: &mut Bits, ops: &[Op]) {
        let length = self.length();
        let made = length.min(40);
        match ops {
            [.., Op::Array, element] => {
                self.vbr(bits, length, 6);
                (0..made).for_each(|_| self.put_scalar(bits, *element));
            }
            [.., Op::Blob] => {
                self.vbr(bits, length, 6);
                let padding = u64::from(self.rng.chance(100));
                bits.align(padding);
                (0..made).for_each(|_| bits.put(self.rng.next(), 8));
                if !self.fault() {
                    bits.align(padding);
                }
            }
            _ => {}
        }
    }

    pub fn use_abbreviation(&mut self, bits: &mut Bits, number: u64, width: u64, ops: &[Op]) {
        self.id(bits, number, width);
        let scalars = ops.iter().take_while(|op| !matches!(op, Op::Array | Op::Blob));
        for &op in scalars.collect::<Vec<_>>() {
            self.put_scalar(bits, op);
        }
        self.put_payload(bits, ops);
    }

    pub fn record(&mut self, bits: &mut Bits, width: u64, code: u64, operands: &[u64]) {
        self.id(bits, 3, width);
        self.vbr(bits, code, 6);
        let mut count = operands.len() as u64;
        if self.fault() {
            count = self.rng.one_of(&[0, count + 1, count + 2, 1 << 24, 1 << 33, u64::MAX]);
        }
        self.vbr(bits, count, 6);
        operands.iter().for_each(|&operand| self.vbr(bits, operand, 6));
    }

    pub fn any_record(&mut self, bits: &mut Bits, width: u64) {
        let code = self.value();
        let operands: Vec<u64> = (0..self.rng.one_of(&[0, 1, 1, 2, 3, 6])).map(|_| self.value()).collect();
        self.record(bits, width, code, &operands);
    }

    // ---- Blocks

    /// A block around a body: mostly with its true length.
    pub fn enter(&mut self, bits: &mut Bits, outer: u64, mut number: u64, mut width: u64, body: &Bits) {
        if self.fault() && self.rng.chance(300) {
            number = self.rng.one_of(&[0, TOP, TOP + 1, TOP + 9, (1 << 40) + 8, u64::MAX]);
        }
        if self.fault() && self.rng.chance(400) {
            width = self.rng.one_of(&[0, 1, 33, 40, 64, 65, 255, 256, 258, 259, 288, 1 << 33]);
        }
        self.id(bits, 1, outer);
        self.vbr(bits, number, 8);
        self.vbr(bits, width, 4);
        bits.align(u64::from(self.rng.chance(20)));
        let mut words = body.len as u64 / 32;
        if self.fault() {
            words = self.rng.one_of(&[0, words + 1, words.saturating_sub(1), words + 2, 0x3FFF_FFFF, 0xFFFF_FFFF]);
        }
        bits.put(words, 32);
        bits.append(body);
    }

    /// The end of a body: END_BLOCK and its padding; as a fault none, ones for zeros, or something behind it.
    pub fn finish(&mut self, bits: &mut Bits, width: u64) {
        let fault = if self.fault() { self.rng.below(5) } else { 9 };
        if fault == 0 {
            return bits.align(u64::from(self.rng.chance(500)));
        }
        self.id(bits, 0, width);
        bits.align(u64::from(fault == 1 || self.rng.chance(20)));
        if fault == 2 || self.rng.chance(30) {
            (0..1 + self.rng.below(2)).for_each(|_| bits.put(self.rng.next(), 32));
        }
    }

    pub fn block(&mut self, bits: &mut Bits, outer: u64, depth: u64) {
        let (number, width) = (self.rng.one_of(&NUMBERS), self.rng.one_of(&WIDTHS));
        let mut body = Bits::default();
        let mut local = Vec::new();
        for _ in 0..self.rng.one_of(&[0, 1, 2, 3, 5]) {
            self.item(&mut body, number, width, depth, &mut local);
        }
        self.finish(&mut body, width);
        self.enter(bits, outer, number, width, &body);
    }

    pub fn item(&mut self, bits: &mut Bits, number: u64, width: u64, depth: u64, local: &mut Vec<Vec<Op>>) {
        self.items = self.items.saturating_sub(1);
        let mut known = self.shared.get(&number).cloned().unwrap_or_default();
        known.extend(local.iter().cloned());
        match self.rng.below(14) {
            0 | 1 if depth < 4 && self.items > 0 => self.block(bits, width, depth + 1),
            2 | 3 => {
                let ops = self.operands();
                self.id(bits, 2, width);
                self.define(bits, &ops);
                local.push(ops);
            }
            4 if self.items > 0 => self.info(bits, width, number),
            5..=9 if !known.is_empty() && width >= 3 => {
                let k = self.rng.below(known.len() as u64) as usize;
                self.use_abbreviation(bits, k as u64 + 4, width, &known[k]);
            }
            10 if self.fault() => {
                let number = self.rng.one_of(&[4, 5, 6, 7, 12, TOP]);
                self.id(bits, number, width);
            }
            _ => self.any_record(bits, width),
        }
    }

    // ---- BLOCKINFO

    pub fn info_item(&mut self, body: &mut Bits, width: u64, set: &mut Option<u64>, around: u64) {
        let letters: Vec<u64> = (0..self.rng.one_of(&[0, 1, 3, 6])).map(|_| self.rng.one_of(&[65, 98, 0, 255, 195, 169])).collect();
        match self.rng.below(8) {
            0 | 1 => {
                let number = if self.rng.chance(150) { around } else { self.rng.one_of(&NUMBERS) };
                let number = if self.rng.chance(30) { 0 } else { number };
                self.record(body, width, 1, &[number]);
                *set = Some(number);
            }
            2..=4 => {
                let ops = self.operands();
                self.id(body, 2, width);
                self.define(body, &ops);
                self.shared.entry(set.unwrap_or(8)).or_default().push(ops);
            }
            5 => self.record(body, width, 2, &letters),
            6 => {
                let code = self.value();
                self.record(body, width, 3, &[&[code], &letters[..]].concat());
            }
            _ if self.fault() => self.info_fault(body, width),
            _ => {}
        }
    }

    pub fn info_fault(&mut self, body: &mut Bits, width: u64) {
        match self.rng.below(9) {
            0 => {
                let code = self.rng.one_of(&[0, 4, 5, 31, 256, 257, 258, TOP + 2]);
                self.record(body, width, code, &[1]);
            }
            1 => self.record(body, width, 1, &[]),
            2 => self.record(body, width, 1, &[8, 9]),
            3 => {
                let number = self.rng.one_of(&[TOP + 1, TOP + 9, u64::MAX]);
                self.record(body, width, 1, &[number]);
            }
            4 => self.record(body, width, 3, &[]),
            5 => {
                let letter = self.rng.one_of(&[256, 257, 1 << 33]);
                let code = 2 + self.rng.below(2);
                self.record(body, width, code, &[65, 66, letter]);
            }
            6 => self.id(body, 1, width),
            7 => {
                let number = self.rng.one_of(&[4, 5, 7]);
                self.id(body, number, width);
            }
            _ => {
                self.id(body, 3, width);
                body.vbr(1 + self.rng.below(3), 6);
                body.vbr(self.rng.one_of(&[1, 1, 2, 9]), 6);
                body.align(1);
            }
        }
    }

    pub fn info(&mut self, bits: &mut Bits, outer: u64, around: u64) {
        let width = self.rng.one_of(&WIDTHS);
        let (mut body, mut set) = (Bits::default(), None);
        if !self.fault() {
            let number = self.rng.one_of(&NUMBERS);
            self.record(&mut body, width, 1, &[number]);
            set = Some(number);
        }
        for _ in 0..self.rng.one_of(&[0, 1, 2, 3, 5]) {
            self.info_item(&mut body, width, &mut set, around);
        }
        self.finish(&mut body, width);
        self.enter(bits, outer, 0, width, &body);
    }

    /// Items at the top level, and its end.
    pub fn stream(&mut self) -> Bits {
        let (mut bits, mut local) = (Bits::default(), Vec::new());
        while self.items > 0 {
            self.item(&mut bits, TOP, 2, 0, &mut local);
        }
        match self.rng.below(10) {
            0 => bits.put(0, 2),
            1 => {
                bits.put(0, 2);
                bits.align(0);
                bits.put(self.rng.next(), 24);
            }
            2 | 3 => {}
            _ => bits.align(0),
        }
        bits
    }
}
