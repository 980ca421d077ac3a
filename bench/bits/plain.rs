//! A bit reader in plain Rust, with the tests and the answers of the proved one: what the proved loops are measured beside.

const MAX_INPUT: u64 = 16_777_216;
const BUFFER_OVERFLOW: u64 = 2;
const VBR_OVERFLOW: u64 = 3;

/// A place in a stream, in bits, and the end of what may be read, in bytes.
#[derive(Clone, Copy)]
pub struct Cursor {
    at: u64,
    end: u64,
}

/// A number and the cursor behind it, or the refusal's number.
type Read = Result<(u64, Cursor), u64>;

/// The n low bits of w, for n from 1 to 64.
fn low(w: u64, n: u64) -> u64 {
    w & (u64::MAX >> (64 - n))
}

/// The field of n bits at the place p where one load does not have it: out of nine bytes, and near the slice's end out of those that are there.
#[cold]
#[inline(never)]
fn field_far(s: &[u8], p: u64, n: u64) -> u64 {
    let from = (p / 8) as usize;
    let skipped = p % 8;
    if let Some(nine) = s.get(from..from + 9) {
        let word = u64::from_le_bytes(nine[..8].try_into().unwrap());
        return low(word >> skipped | u64::from(nine[8]) << (64 - skipped), n);
    }
    let mut bytes = [0; 8];
    let there = s.len() - from;
    bytes[..there].copy_from_slice(&s[from..]);
    low(u64::from_le_bytes(bytes) >> skipped, n)
}

/// The field of n bits at the place p: by one load where eight bytes are there and hold it all.
fn field(s: &[u8], p: u64, n: u64) -> u64 {
    let from = (p / 8) as usize;
    let skipped = p % 8;
    match s.get(from..from + 8) {
        Some(bytes) if skipped + n <= 64 => low(u64::from_le_bytes(bytes.try_into().unwrap()) >> skipped, n),
        _ => field_far(s, p, n),
    }
}

impl Cursor {
    fn new(end: u64) -> Self {
        Self { at: 0, end }
    }

    /// How many bits there are up to the end.
    fn bits(self, s: &[u8]) -> u64 {
        self.end.min(s.len() as u64).min(MAX_INPUT) * 8
    }

    /// The next n bits.
    fn read(self, s: &[u8], n: u64) -> Read {
        if !(1..=64).contains(&n) {
            return Err(VBR_OVERFLOW);
        }
        match self.at.checked_add(n) {
            Some(next) if next <= self.bits(s) => Ok((field(s, self.at, n), Self { at: next, end: self.end })),
            _ => Err(BUFFER_OVERFLOW),
        }
    }

    /// A VBR number of chunks of w bits.
    fn read_vbr(self, s: &[u8], w: u64) -> Read {
        if !(1..=32).contains(&w) {
            return Err(VBR_OVERFLOW);
        }
        let more = 1 << (w - 1);
        let mut cursor = self;
        let mut shift = 0;
        let mut sum = 0;
        loop {
            let (chunk, next) = cursor.read(s, w)?;
            if shift >= 64 {
                return Err(VBR_OVERFLOW);
            }
            sum |= (chunk & (more - 1)) << shift;
            if chunk & more == 0 {
                return Ok((sum, next));
            }
            shift += w - 1;
            cursor = next;
        }
    }
}

/// The sum of the fields of n bits, up to the first refusal.
pub fn fields(s: &[u8], n: u64) -> u64 {
    let mut cursor = Cursor::new(s.len() as u64);
    let mut sum = 0u64;
    while let Ok((value, next)) = cursor.read(s, n) {
        sum = sum.wrapping_add(value);
        cursor = next;
    }
    sum
}

/// The sum of the VBR numbers of width w, up to the first refusal.
pub fn numbers(s: &[u8], w: u64) -> u64 {
    let mut cursor = Cursor::new(s.len() as u64);
    let mut sum = 0u64;
    while let Ok((value, next)) = cursor.read_vbr(s, w) {
        sum = sum.wrapping_add(value);
        cursor = next;
    }
    sum
}
