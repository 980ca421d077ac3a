use crate::{EVENT_SIZE, Log, MAX_INPUT, Refusal, sys};
use std::fmt;

/// Two stores that are kept from log to log and grow when a log needs more: the one part of this crate that allocates.
///
/// ```
/// use gleanrime::Stores;
///
/// let mut stores = Stores::new();
/// for log in [&b"\x42\x43\xc0\xde\x21\x0c\0\0\x01\0\0\0\x0b\x02\x01\0"[..], b"\x42\x43\xc0\xde", b"none"] {
///     match stores.read(log, &[]) {
///         Ok(log) => println!("{} events", log.events().len()),
///         Err(refusal) => println!("{refusal}"),
///     }
/// }
/// ```
#[derive(Clone, Debug)]
pub struct Stores {
    events: Store,
    operands: Store,
}

impl Stores {
    /// What a store of [`Stores::new`] may grow to: 67,108,864 numbers, which are 512 MiB.
    pub const MOST: usize = 1 << 26;

    /// Empty stores, each of which may grow to [`MOST`](Self::MOST) numbers.
    pub fn new() -> Self {
        Self::with_most(Self::MOST, Self::MOST)
    }

    /// Empty stores that may grow to so many numbers: for events, eight each, and for operands. Where that is not enough the log is refused with
    /// [`NoEventRoom`](Refusal::NoEventRoom) or [`NoOperandRoom`](Refusal::NoOperandRoom).
    ///
    /// ```
    /// use gleanrime::{Refusal, Stores};
    ///
    /// let log = b"\x42\x43\xc0\xde\x21\x0c\0\0\x01\0\0\0\x0b\x02\x01\0";
    /// assert!(Stores::with_most(24, 1).read(log, &[]).is_ok());
    /// assert_eq!(Stores::with_most(23, 1).read(log, &[]).unwrap_err(), Refusal::NoEventRoom { place: 85 });
    /// ```
    pub fn with_most(events: usize, operands: usize) -> Self {
        Self { events: Store::new(events), operands: Store::new(operands) }
    }

    /// Reads a log, leaving the blocks in `skip` unread: [`walk`](crate::walk) with stores that are large enough.
    ///
    /// A walk clears what it doesn't fill, so a log is lent a part of the stores only, by its length and by what the log before it needed. Where that
    /// turns out too small, the log is walked again with more: by how far the walk came, and twice as much at least.
    ///
    /// ```
    /// use gleanrime::{Event, Stores};
    ///
    /// let log = b"\x42\x43\xc0\xde\x21\x0c\0\0\x01\0\0\0\x0b\x02\x01\0";
    /// let mut stores = Stores::new();
    /// assert_eq!(stores.read(log, &[])?.events().len(), 3);
    /// assert!(matches!(stores.read(log, &[8])?.events().next(), Some(Event::Skip { block: 8, .. })));
    /// # Ok::<(), gleanrime::Refusal>(())
    /// ```
    pub fn read<'a>(&'a mut self, input: &'a [u8], skip: &[u64]) -> Result<Log<'a>, Refusal> {
        let (mut events, mut operands) = (self.events.guess(input), self.operands.guess(input));
        loop {
            let told = sys::walk(input, skip, self.events.lend(events), self.operands.lend(operands));
            match told.refusal() {
                Some(Refusal::NoEventRoom { place }) if events < self.events.most => events = self.events.more(events, place, input),
                Some(Refusal::NoOperandRoom { place }) if operands < self.operands.most => operands = self.operands.more(operands, place, input),
                Some(refusal) => return Err(refusal),
                None => {
                    self.events.learn(input, EVENT_SIZE * told.events);
                    self.operands.learn(input, told.operands);
                    return Ok(Log::new(told, input, &self.events.numbers, &self.operands.numbers));
                }
            }
        }
    }
}

impl Default for Stores {
    fn default() -> Self {
        Self::new()
    }
}

/// A store, what it may grow to, and how many numbers a log is thought to fill for each 1,024 bytes that it has, once there is a log to go by.
#[derive(Clone)]
struct Store {
    numbers: Vec<u64>,
    most: usize,
    rate: Option<usize>,
}

impl Store {
    /// An odd log should not make the next ones dear, so what is learnt from it stays within these bounds.
    const LEAST_RATE: usize = 128;
    const MOST_RATE: usize = 4096;

    /// What the first log is lent: enough for a small one, and for a large one enough to tell what it takes.
    const FIRST: usize = 1 << 15;

    fn new(most: usize) -> Self {
        Self { numbers: Vec::new(), most, rate: None }
    }

    /// What a log is lent at first: a quarter more than it is thought to fill, but no larger store is made for that quarter alone. A log that is too
    /// long is refused whatever it is lent.
    fn guess(&self, input: &[u8]) -> usize {
        if input.len() > MAX_INPUT {
            return 0;
        }
        let Some(rate) = self.rate else { return self.most.min(Self::FIRST) };
        let filled = rate * (input.len() / 1024 + 1);
        let roomy = filled + filled / 4;
        let kept = self.numbers.len();
        self.most.min(if (filled..roomy).contains(&kept) { kept } else { roomy })
    }

    /// So many numbers were enough up to this bit: what the whole log takes if it goes on so, and a quarter more.
    fn more(&self, count: usize, place: u64, input: &[u8]) -> usize {
        let whole = count as u64 * input.len() as u64 / (place / 8 + 1);
        (2 * count).max((whole + whole / 4) as usize).clamp(1, self.most)
    }

    /// So many numbers. What they were doesn't matter, so a larger store takes the place of the old one, which goes first.
    fn lend(&mut self, count: usize) -> &mut [u64] {
        if self.numbers.len() < count {
            self.numbers = Vec::new();
            self.numbers = vec![0; count];
        }
        &mut self.numbers[..count]
    }

    fn learn(&mut self, input: &[u8], filled: usize) {
        self.rate = Some(filled.div_ceil(input.len() / 1024 + 1).clamp(Self::LEAST_RATE, Self::MOST_RATE));
    }
}

impl fmt::Debug for Store {
    fn fmt(&self, f: &mut fmt::Formatter<'_>) -> fmt::Result {
        write!(f, "{} of at most {} numbers", self.numbers.len(), self.most)
    }
}
