//! Bits of a stream: a cursor that reads them as document 01 says, and a writer that makes them.
use crate::notes::{Difference, Notes, Rule};

/// The magic of LLVM's bitcode, as bytes; that of a wrapper, as a word; and the number of the top level.
pub const MAGIC: [u8; 4] = *b"BC\xC0\xDE";
pub const WRAPPER: u64 = 0x0B17_C0DE;
pub const TOP: u64 = 0xFFFF_FFFF;

/// A refusal: its number and its two details.
#[derive(Clone, Copy, Debug, PartialEq)]
pub struct Refusal(pub u64, pub u64, pub u64);

pub type Got<T> = Result<T, Refusal>;

pub fn refuse<T>(number: u64) -> Got<T> {
    Err(Refusal(number, 0, 0))
}

/// A place and an end, both in bits of the stream. As in the Rust, a number that can't be read whole leaves the place behind the chunks that were read.
#[derive(Clone, Copy)]
pub struct Cursor<'a> {
    pub stream: &'a [u8],
    pub at: u64,
    pub end: u64,
}

impl Cursor<'_> {
    /// "Read of n bits: n outside 1..64 gives 3. Else it succeeds exactly if place + n ≤ 8 × length; else 2."
    pub fn read(&mut self, n: u64) -> Got<u64> {
        if !(1..=64).contains(&n) {
            return refuse(3);
        }
        if self.at + n > self.end {
            return refuse(2);
        }
        let (byte, shift) = ((self.at / 8) as usize, self.at % 8);
        let bytes = self.stream[byte..].iter().take(9).enumerate();
        let word: u128 = bytes.map(|(i, &b)| u128::from(b) << (8 * i)).sum();
        self.at += n;
        Ok((word >> shift & ((1 << n) - 1)) as u64)
    }

    /// "VBR of width 1..32: each chunk holds width−1 value bits and a top bit for 'more'. A chunk is read first (2 if it can't be); a chunk whose shift
    /// is 64 or more is then refused with 3. Value bits past bit 63 are dropped."
    pub fn vbr(&mut self, width: u64, notes: &mut Notes) -> Got<u64> {
        let (mut value, mut shift) = (0, 0);
        loop {
            let chunk = self.read(width)?;
            if shift > 64 || shift == 64 && !notes.differs(Difference::Shift64) {
                notes.met(Rule::VbrOverflow);
                return refuse(3);
            }
            let bits = chunk & ((1 << (width - 1)) - 1);
            value |= bits << (shift % 64);
            notes.met_if(shift < 64 && bits << shift >> shift != bits, Rule::VbrDropsBits);
            if chunk >> (width - 1) == 0 {
                notes.met_if(shift > 0, Rule::VbrOfChunks);
                notes.met_if(shift > 0 && bits == 0, Rule::VbrOverlong);
                return Ok(value);
            }
            shift += width - 1;
        }
    }

    /// "to the next multiple of 32 bits, none if already there; 2 if past the end"
    pub fn align(&mut self) -> Got<()> {
        let to = self.at.div_ceil(32) * 32;
        if to > self.end {
            return refuse(2);
        }
        self.at = to;
        Ok(())
    }

    /// Moves over so many bytes.
    pub fn skip(&mut self, bytes: u64) -> Got<()> {
        if bytes > (self.end - self.at) / 8 {
            return refuse(2);
        }
        self.at += 8 * bytes;
        Ok(())
    }
}

/// Bits, the first one lowest in the first byte.
#[derive(Clone, Default)]
pub struct Bits {
    bytes: Vec<u8>,
    pub len: usize,
}

impl Bits {
    pub fn put(&mut self, value: u64, width: u64) {
        for i in 0..width {
            if self.len % 8 == 0 {
                self.bytes.push(0);
            }
            let bit = if i < 64 { (value >> i & 1) as u8 } else { 0 };
            *self.bytes.last_mut().unwrap() |= bit << (self.len % 8);
            self.len += 1;
        }
    }

    /// A number in the fewest chunks, and so many chunks of zero bits more.
    pub fn vbr_with(&mut self, mut value: u64, width: u64, more: u64) {
        let top = 1 << (width - 1);
        if width == 1 {
            return self.put(value, 1 + more);
        }
        while value >= top {
            self.put(value & (top - 1) | top, width);
            value >>= width - 1;
        }
        for _ in 0..more {
            self.put(value | top, width);
            value = 0;
        }
        self.put(value, width);
    }

    pub fn vbr(&mut self, value: u64, width: u64) {
        self.vbr_with(value, width, 0);
    }

    /// To a multiple of 32 bits, with zeros or ones.
    pub fn align(&mut self, bit: u64) {
        while self.len % 32 != 0 {
            self.put(bit, 1);
        }
    }

    /// All bits of another, which is aligned.
    pub fn append(&mut self, other: &Bits) {
        if self.len % 8 == 0 {
            self.bytes.extend(&other.bytes);
            self.len += other.len;
        } else {
            (0..other.len).for_each(|i| self.put((other.bytes[i / 8] >> (i % 8)).into(), 1));
        }
    }

    pub fn into_bytes(self) -> Vec<u8> {
        self.bytes
    }
}
