//! What the tests share: a maker of logs that knows what a walk has to meet in them, and what it is made with (bits).
#![allow(dead_code, unused_imports)]
mod bits;

pub use bits::{Bits, Chance, MAGIC, Operand};
use gleanrime::{Event, Payload, TOP_LEVEL};

/// 01's sample: a casing with a record of code 1 and the operand 2.
pub const SAMPLE: &[u8] = b"\x42\x43\xc0\xde\x21\x0c\0\0\x01\0\0\0\x0b\x02\x01\0";

/// A wrapper around a log, at this offset, with some bytes behind it.
pub fn wrapped(log: &[u8], offset: usize) -> Vec<u8> {
    let words = [gleanrime::WRAPPER_MAGIC as u32, 1, offset as u32, log.len() as u32, 7];
    let mut input: Vec<u8> = words.iter().flat_map(|word| word.to_le_bytes()).collect();
    input.resize(offset, 0xEE);
    input.extend(log);
    input.extend([0xEE; 5]);
    input
}

/// How a scalar operand of an abbreviation is written.
#[derive(Clone, Copy)]
pub enum Scalar {
    Literal(u64),
    Fixed(u64),
    Vbr(u64),
    Char6,
}

impl Scalar {
    fn operand(self) -> Operand {
        match self {
            Self::Literal(value) => Operand::Literal(value),
            Self::Fixed(width) => Operand::Fixed(width),
            Self::Vbr(width) => Operand::Vbr(width),
            Self::Char6 => Operand::Char6,
        }
    }

    /// Writes a value by chance and hands it back.
    fn write(self, bits: &mut Bits, chance: &mut Chance) -> u64 {
        match self {
            Self::Literal(value) => value,
            Self::Fixed(width) => {
                let value = chance.any() & ((1 << width) - 1);
                bits.put(value, width);
                value
            }
            Self::Vbr(1) => {
                bits.put(0, 1);
                0
            }
            Self::Vbr(width) => {
                let value = chance.any();
                bits.vbr(value, width);
                value
            }
            Self::Char6 => {
                let six = chance.below(64);
                bits.put(six, 6);
                b"abcdefghijklmnopqrstuvwxyzABCDEFGHIJKLMNOPQRSTUVWXYZ0123456789._"[six as usize].into()
            }
        }
    }

    fn some(chance: &mut Chance) -> Self {
        match chance.below(4) {
            0 => Self::Literal(chance.any()),
            1 => Self::Fixed(1 + chance.below(32)),
            2 => Self::Vbr(1 + chance.below(32)),
            _ => Self::Char6,
        }
    }
}

/// What stands behind an abbreviation's scalars.
#[derive(Clone, Copy)]
pub enum Tail {
    None,
    Array(Scalar),
    Blob,
}

#[derive(Clone)]
struct Shape {
    scalars: Vec<Scalar>,
    tail: Tail,
}

impl Shape {
    fn some(chance: &mut Chance) -> Self {
        let scalars = (0..1 + chance.below(4)).map(|_| Scalar::some(chance)).collect();
        let tail = match chance.below(4) {
            0 => Tail::None,
            1 => Tail::Array(Scalar::Char6),
            2 => Tail::Array(Scalar::some(chance)),
            _ => Tail::Blob,
        };
        Self { scalars, tail }
    }

    fn define(&self, bits: &mut Bits, width: u64) {
        let mut operands: Vec<Operand> = self.scalars.iter().map(|scalar| scalar.operand()).collect();
        match self.tail {
            Tail::None => {}
            Tail::Array(element) => operands.extend([Operand::Array, element.operand()]),
            Tail::Blob => operands.push(Operand::Blob),
        }
        bits.define(width, &operands);
    }

    fn write(&self, bits: &mut Bits, chance: &mut Chance) -> (Vec<u64>, Load) {
        let values = self.scalars.iter().map(|scalar| scalar.write(bits, chance)).collect();
        let mut count = || chance.below(12);
        let load = match self.tail {
            Tail::None => Load::None,
            Tail::Array(element) => {
                let count = count();
                bits.vbr(count, 6);
                let elements = (0..count).map(|_| element.write(bits, chance)).collect();
                if matches!(element, Scalar::Char6) { Load::Char6(elements) } else { Load::Array(elements) }
            }
            Tail::Blob => {
                let count = count();
                bits.vbr(count, 6);
                bits.align();
                let bytes: Vec<u8> = (0..count).map(|_| chance.next() as u8).collect();
                bytes.iter().for_each(|&byte| bits.put(byte.into(), 8));
                bits.align();
                Load::Blob(bytes)
            }
        };
        (values, load)
    }
}

/// A payload, and an event, as the maker put them.
#[derive(Clone, Debug, PartialEq)]
pub enum Load {
    None,
    Array(Vec<u64>),
    Char6(Vec<u64>),
    Blob(Vec<u8>),
}

#[derive(Clone, Debug, PartialEq)]
pub enum Met {
    Enter { block: u64, width: u64, start: u64, length: u64 },
    Leave { block: u64 },
    Record { block: u64, code: u64, operands: Vec<u64>, payload: Load },
    Skip { block: u64, width: u64, start: u64, length: u64 },
}

impl From<Event<'_>> for Met {
    fn from(event: Event<'_>) -> Self {
        match event {
            Event::Enter { block, width, start, length } => Self::Enter { block, width, start, length },
            Event::Leave { block } => Self::Leave { block },
            Event::Record(record) => {
                let payload = match record.payload {
                    Payload::None => Load::None,
                    Payload::Array(numbers) => Load::Array(numbers.to_vec()),
                    Payload::Char6(letters) => Load::Char6(letters.to_vec()),
                    Payload::Blob(bytes) => Load::Blob(bytes.to_vec()),
                };
                Self::Record { block: record.block, code: record.code, operands: record.operands.to_vec(), payload }
            }
            Event::Skip { block, width, start, length } => Self::Skip { block, width, start, length },
        }
    }
}

/// A log by chance, the numbers to skip, and what a walk has to meet.
pub struct Made {
    pub input: Vec<u8>,
    pub skip: Vec<u64>,
    pub met: Vec<Met>,
}

/// Makes a log: blocks in blocks, BLOCKINFO, local definitions, records by them and without, top-level records.
pub fn make(chance: &mut Chance) -> Made {
    let skip = [vec![], vec![11], vec![0, 9, 77]][chance.below(3) as usize].clone();
    let mut maker = Maker { bits: Bits::default(), met: Vec::new(), skip, shared: Vec::new(), local: 0, chance };
    maker.items(TOP_LEVEL, 2, &mut Vec::new(), 0);
    maker.block(2, 0); // which ends at a multiple of 32 bits, as a log does
    Made { input: maker.bits.log(), skip: maker.skip, met: maker.met }
}

struct Maker<'c> {
    bits: Bits,
    met: Vec<Met>,
    skip: Vec<u64>,
    shared: Vec<(u64, Shape)>,
    local: usize,
    chance: &'c mut Chance,
}

impl Maker<'_> {
    fn items(&mut self, block: u64, width: u64, shapes: &mut Vec<Shape>, depth: u64) {
        for _ in 0..self.chance.below(if depth == 0 { 12 } else { 8 }) {
            match self.chance.below(8) {
                0 if depth < 5 => self.block(width, depth),
                1 if self.chance.below(3) == 0 => self.block_info(width),
                2 if self.local < gleanrime::MAX_LOCAL => {
                    let shape = Shape::some(self.chance);
                    shape.define(&mut self.bits, width);
                    shapes.push(shape);
                    self.local += 1;
                }
                3..=5 if !shapes.is_empty() && width > 2 => {
                    let index = self.chance.below(shapes.len().min((1 << width.min(10)) - 4) as u64);
                    self.bits.put(index + 4, width);
                    let (mut values, payload) = shapes[index as usize].write(&mut self.bits, self.chance);
                    let code = values.remove(0);
                    self.met.push(Met::Record { block, code, operands: values, payload });
                }
                _ if width > 1 => {
                    let code = self.chance.any();
                    let operands: Vec<u64> = (0..self.chance.below(5)).map(|_| self.chance.any()).collect();
                    self.bits.record(width, code, &operands);
                    self.met.push(Met::Record { block, code, operands, payload: Load::None });
                }
                _ => {}
            }
        }
    }

    fn block(&mut self, outer: u64, depth: u64) {
        let block = 8 + self.chance.below(4);
        let width = 3 + self.chance.below(5);
        let at = self.bits.enter(outer, block, width);
        let start = self.bits.bytes.len() as u64;
        if self.skip.contains(&block) {
            (0..self.chance.below(4)).for_each(|_| self.bits.put(self.chance.next(), 32));
            self.bits.close(at);
            self.met.push(Met::Skip { block, width, start, length: self.bits.bytes.len() as u64 - start });
            return;
        }
        let (index, local) = (self.met.len(), self.local);
        self.met.push(Met::Enter { block, width, start, length: 0 });
        let mut shapes = self.shared.iter().filter(|(owner, _)| *owner == block).map(|(_, shape)| shape.clone()).collect();
        self.items(block, width, &mut shapes, depth + 1);
        self.bits.leave(width, at);
        self.local = local;
        let end = self.bits.bytes.len() as u64;
        let Met::Enter { length, .. } = &mut self.met[index] else { unreachable!() };
        *length = end - start;
        self.met.push(Met::Leave { block });
    }

    fn block_info(&mut self, outer: u64) {
        let at = self.bits.enter(outer, 0, 3);
        for _ in 0..self.chance.below(3) {
            let owner = 8 + self.chance.below(4);
            self.bits.record(3, 1, &[owner]);
            if self.shared.len() < gleanrime::MAX_SHARED {
                let shape = Shape::some(self.chance);
                shape.define(&mut self.bits, 3);
                self.shared.push((owner, shape));
            }
            self.bits.record(3, 2, &[99, 97, 115]);
        }
        self.bits.leave(3, at);
    }
}

/// Blocks in blocks, the innermost one with a BLOCKINFO, a definition of its own and a record by it: the deepest calls that a walk makes. A `cut`
/// log ends in the middle of its last definition.
pub fn nested(levels: usize, cut: bool) -> Vec<u8> {
    let mut bits = Bits::default();
    let shape = Shape { scalars: vec![Scalar::Literal(6)], tail: Tail::Array(Scalar::Vbr(6)) };
    let at: Vec<usize> = (0..levels).map(|i| bits.enter(if i == 0 { 2 } else { 3 }, if i + 1 == levels { 9 } else { 8 }, 3)).collect();
    let info = bits.enter(3, 0, 3);
    bits.record(3, 1, &[8]);
    shape.define(&mut bits, 3);
    bits.leave(3, info);
    shape.define(&mut bits, 3);
    if cut {
        shape.define(&mut bits, 3);
        shape.define(&mut bits, 3);
        bits.len -= bits.len % 32;
        bits.bytes.truncate(bits.len / 8);
        at.iter().for_each(|&at| bits.close(at));
    } else {
        bits.put(4, 3);
        bits.vbr(3, 6);
        [u64::MAX, 1, 2].iter().for_each(|&value| bits.vbr(value, 6));
        at.iter().rev().for_each(|&at| bits.leave(3, at));
    }
    bits.log()
}
