//! A writer of bits, blocks and records, and numbers by chance: what the tests and the benchmark make their logs with.
#![allow(dead_code)]

pub const MAGIC: [u8; 4] = *b"BC\xc0\xde";

/// Numbers by chance, the same in each run.
pub struct Chance(u64);

impl Chance {
    pub fn new(seed: u64) -> Self {
        Self(seed.wrapping_mul(0x9E37_79B9_7F4A_7C15) | 1)
    }

    pub fn next(&mut self) -> u64 {
        self.0 ^= self.0 << 13;
        self.0 ^= self.0 >> 7;
        self.0 ^= self.0 << 17;
        self.0.wrapping_mul(0x2545_F491_4F6C_DD1D)
    }

    pub fn below(&mut self, bound: u64) -> u64 {
        self.next() % bound
    }

    /// A number that is small as often as large.
    pub fn any(&mut self) -> u64 {
        let bits = self.below(65);
        if bits == 0 { 0 } else { self.next() >> (64 - bits) }
    }
}

/// An operand of an abbreviation.
#[derive(Clone, Copy)]
pub enum Operand {
    Literal(u64),
    Fixed(u64),
    Vbr(u64),
    Array,
    Char6,
    Blob,
}

/// Bits, the first one lowest in the first byte.
#[derive(Clone, Default)]
pub struct Bits {
    pub bytes: Vec<u8>,
    pub len: usize,
}

impl Bits {
    pub fn put(&mut self, value: u64, width: u64) {
        let (mut rest, mut left) = (value, width as usize);
        while left > 0 {
            let filled = self.len % 8;
            if filled == 0 {
                self.bytes.push(0);
            }
            let count = left.min(8 - filled);
            *self.bytes.last_mut().unwrap() |= ((rest & ((1 << count) - 1)) << filled) as u8;
            rest >>= count;
            left -= count;
            self.len += count;
        }
    }

    pub fn vbr(&mut self, mut value: u64, width: u64) {
        let more = 1 << (width - 1);
        while value >= more {
            self.put(value & (more - 1) | more, width);
            value >>= width - 1;
        }
        self.put(value, width);
    }

    pub fn align(&mut self) {
        if self.len % 32 != 0 {
            self.put(0, 32 - self.len as u64 % 32);
        }
    }

    /// Puts the head of a block; the body's length in words is written by `leave` at the byte that is handed back.
    pub fn enter(&mut self, outer: u64, number: u64, width: u64) -> usize {
        self.put(1, outer);
        self.vbr(number, 8);
        self.vbr(width, 4);
        self.align();
        self.put(0, 32);
        self.bytes.len() - 4
    }

    /// Ends a block that `enter` began.
    pub fn leave(&mut self, width: u64, at: usize) {
        self.put(0, width);
        self.align();
        self.close(at);
    }

    /// Ends a block without an end mark.
    pub fn close(&mut self, at: usize) {
        let words = (self.bytes.len() - at - 4) / 4;
        self.bytes[at..at + 4].copy_from_slice(&(words as u32).to_le_bytes());
    }

    /// A definition of an abbreviation.
    pub fn define(&mut self, width: u64, operands: &[Operand]) {
        self.put(2, width);
        self.vbr(operands.len() as u64, 5);
        for operand in operands {
            let (encoding, operand_width) = match *operand {
                Operand::Literal(value) => {
                    self.put(1, 1);
                    self.vbr(value, 8);
                    continue;
                }
                Operand::Fixed(width) => (1, Some(width)),
                Operand::Vbr(width) => (2, Some(width)),
                Operand::Array => (3, None),
                Operand::Char6 => (4, None),
                Operand::Blob => (5, None),
            };
            self.put(encoding << 1, 4);
            operand_width.into_iter().for_each(|width| self.vbr(width, 5));
        }
    }

    /// A record with no abbreviation.
    pub fn record(&mut self, width: u64, code: u64, operands: &[u64]) {
        self.put(3, width);
        self.vbr(code, 6);
        self.vbr(operands.len() as u64, 6);
        operands.iter().for_each(|&operand| self.vbr(operand, 6));
    }

    /// The log: the magic, and these bits.
    pub fn log(&self) -> Vec<u8> {
        [&MAGIC[..], &self.bytes].concat()
    }
}
