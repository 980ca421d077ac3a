use crate::operands::Operands;
use crate::sys;
use std::fmt;
use std::iter::FusedIterator;
use std::slice::{self, ChunksExact};

/// How many numbers an event has in the event store: a store of n numbers holds n / 8 events.
pub const EVENT_SIZE: usize = 8;

/// The kinds of an event, as they stand in the event store.
pub(crate) mod kind {
    pub const ENTER: u64 = 1;
    pub const LEAVE: u64 = 2;
    pub const RECORD: u64 = 3;
    pub const SKIP: u64 = 4;
}

/// The kinds of a payload, as they stand in the event store.
pub(crate) mod payload {
    pub const NONE: u64 = 0;
    pub const ARRAY: u64 = 1;
    pub const CHAR6: u64 = 2;
    pub const BLOB: u64 = 3;
}

/// What a walk met, in the order of the log.
#[derive(Clone, Copy, Debug, PartialEq, Eq)]
pub enum Event<'a> {
    /// A block begins. Its records and inner blocks follow, up to its `Leave`.
    Enter {
        /// The block's number; a casing is 8.
        block: u64,
        /// Bits of an abbreviation number in it.
        width: u64,
        /// The byte of the [stream](crate::Log::stream) where its body begins.
        start: u64,
        /// Its body's bytes.
        length: u64,
    },
    /// A block ends.
    Leave {
        /// The block's number.
        block: u64,
    },
    /// A record.
    Record(Record<'a>),
    /// A block of the skip list: its body is not read, and no `Leave` follows.
    Skip {
        /// The block's number.
        block: u64,
        /// Bits of an abbreviation number in it; not judged.
        width: u64,
        /// The byte of the [stream](crate::Log::stream) where its body begins.
        start: u64,
        /// Its body's bytes.
        length: u64,
    },
}

/// A record: its code, its operands, and a payload where its abbreviation has one.
///
/// ```
/// use gleanrime::{Event, Payload, walk};
///
/// let log = b"\x42\x43\xc0\xde\x21\x0c\0\0\x01\0\0\0\x0b\x02\x01\0";
/// let (mut events, mut operands) = ([0; 64], [0; 8]);
/// let log = walk(log, &[], &mut events, &mut operands)?;
/// let Some(Event::Record(record)) = log.events().nth(1) else { panic!() };
/// assert_eq!((record.block, record.code, record.operands), (8, 1, &[2][..]));
/// assert_eq!(record.payload, Payload::None);
/// assert_eq!(record.typed().u8()?, 2);
/// # Ok::<(), gleanrime::Refusal>(())
/// ```
#[derive(Clone, Copy, Debug, PartialEq, Eq)]
pub struct Record<'a> {
    /// The number of the block that it stands in; [`TOP_LEVEL`](crate::TOP_LEVEL) outside of all blocks.
    pub block: u64,
    /// Its code.
    pub code: u64,
    /// Its operands, the code and the payload not among them.
    pub operands: &'a [u64],
    /// Its payload.
    pub payload: Payload<'a>,
}

impl<'a> Record<'a> {
    /// Its operands, to be taken one by one as what they should be.
    pub fn typed(&self) -> Operands<'a> {
        Operands::new(self.operands)
    }
}

/// What may stand behind a record's operands.
#[derive(Clone, Copy, Debug, PartialEq, Eq)]
pub enum Payload<'a> {
    /// Nothing.
    None,
    /// An array of numbers.
    Array(&'a [u64]),
    /// An array of letters out of `a..z A..Z 0..9 . _`, each as its ASCII code: [`text`](Self::text) has them as letters.
    Char6(&'a [u64]),
    /// Bytes: that very part of the input.
    Blob(&'a [u8]),
}

impl<'a> Payload<'a> {
    /// The letters of a Char6 array, which can be printed or collected; none for any other payload.
    ///
    /// ```
    /// use gleanrime::Payload;
    /// let serial = Payload::Char6(&[82, 55, 46, 120]);
    /// assert_eq!(serial.text().unwrap().to_string(), "R7.x");
    /// assert!(serial.text().unwrap().eq("R7.x".chars()));
    /// assert!(Payload::Array(&[82]).text().is_none());
    /// ```
    pub fn text(&self) -> Option<Letters<'a>> {
        match *self {
            Self::Char6(letters) => Some(Letters(letters.iter())),
            _ => None,
        }
    }

    /// The numbers of an array, letters included, to be taken one by one as what they should be; none for any other payload.
    ///
    /// ```
    /// use gleanrime::{Payload, Refusal};
    /// let mut bytes = Payload::Array(&[200, 300]).typed();
    /// assert_eq!(bytes.u8(), Ok(200));
    /// assert_eq!(bytes.u8(), Err(Refusal::ValueOverflow { place: None }));
    /// ```
    pub fn typed(&self) -> Operands<'a> {
        match *self {
            Self::Array(numbers) | Self::Char6(numbers) => Operands::new(numbers),
            Self::None | Self::Blob(_) => Operands::new(&[]),
        }
    }
}

/// The letters of a Char6 array: an iterator over them that can also be printed. See [`Payload::text`].
#[derive(Clone, Debug)]
pub struct Letters<'a>(slice::Iter<'a, u64>);

impl Iterator for Letters<'_> {
    type Item = char;

    fn next(&mut self) -> Option<char> {
        // A walk gives ASCII codes alone, so no letter is lost.
        self.0.next().map(|&code| u8::try_from(code).map_or(char::REPLACEMENT_CHARACTER, char::from))
    }

    fn size_hint(&self) -> (usize, Option<usize>) {
        self.0.size_hint()
    }
}

impl ExactSizeIterator for Letters<'_> {}
impl FusedIterator for Letters<'_> {}

impl fmt::Display for Letters<'_> {
    fn fmt(&self, f: &mut fmt::Formatter<'_>) -> fmt::Result {
        self.clone().try_for_each(|letter| fmt::Write::write_char(f, letter))
    }
}

/// The events of a log, in its order. See [`Log::events`](crate::Log::events).
#[derive(Clone)]
pub struct Events<'a> {
    entries: ChunksExact<'a, u64>,
    operands: &'a [u64],
    input: &'a [u8],
}

impl<'a> Events<'a> {
    /// Over an event store that holds just these events, an operand store and the input.
    pub(crate) fn new(events: &'a [u64], operands: &'a [u64], input: &'a [u8]) -> Self {
        Self { entries: events.chunks_exact(EVENT_SIZE), operands, input }
    }

    /// Passes over the rest of the block that was entered last: the next event is the one behind its `Leave`.
    ///
    /// ```
    /// use gleanrime::{Event, walk};
    ///
    /// let log = b"\x42\x43\xc0\xde\x21\x0c\0\0\x01\0\0\0\x0b\x02\x01\0\x25\x0c\0\0\x01\0\0\0\0\0\0\0";
    /// let (mut events, mut operands) = ([0; 64], [0; 8]);
    /// let mut events = walk(log, &[], &mut events, &mut operands)?.events();
    /// assert!(matches!(events.next(), Some(Event::Enter { block: 8, .. })));
    /// events.pass_over();
    /// assert!(matches!(events.next(), Some(Event::Enter { block: 9, .. })));
    /// # Ok::<(), gleanrime::Refusal>(())
    /// ```
    pub fn pass_over(&mut self) {
        let mut open = 1;
        for entry in self.entries.by_ref() {
            match entry[0] {
                kind::ENTER => open += 1,
                kind::LEAVE => open -= 1,
                _ => {}
            }
            if open == 0 {
                return;
            }
        }
    }

    #[inline]
    fn event(&self, entry: &'a [u64]) -> Event<'a> {
        let block = entry[1];
        match entry[0] {
            kind::ENTER => Event::Enter { block, width: entry[2], start: entry[3], length: entry[4] },
            kind::LEAVE => Event::Leave { block },
            kind::RECORD => Event::Record(Record {
                block,
                code: entry[2],
                operands: self.numbers(entry[3], entry[4]),
                payload: self.payload(entry[5], entry[6], entry[7]),
            }),
            kind::SKIP => Event::Skip { block, width: entry[2], start: entry[3], length: entry[4] },
            kind => unreachable!("a walk has no event of kind {kind}"),
        }
    }

    #[inline]
    fn payload(&self, kind: u64, place: u64, length: u64) -> Payload<'a> {
        match kind {
            payload::NONE => Payload::None,
            payload::ARRAY => Payload::Array(self.numbers(place, length)),
            payload::CHAR6 => Payload::Char6(self.numbers(place, length)),
            payload::BLOB => {
                let (from, bytes) = sys::blob(self.input, place, length);
                Payload::Blob(&self.input[from as usize..][..bytes as usize])
            }
            kind => unreachable!("a walk has no payload of kind {kind}"),
        }
    }

    /// A part of the operand store. That it is one is proved of every walk; were it not, this would panic.
    #[inline]
    fn numbers(&self, place: u64, count: u64) -> &'a [u64] {
        &self.operands[place as usize..][..count as usize]
    }
}

impl<'a> Iterator for Events<'a> {
    type Item = Event<'a>;

    #[inline]
    fn next(&mut self) -> Option<Event<'a>> {
        let entry = self.entries.next()?;
        Some(self.event(entry))
    }

    fn size_hint(&self) -> (usize, Option<usize>) {
        self.entries.size_hint()
    }

    fn nth(&mut self, n: usize) -> Option<Event<'a>> {
        let entry = self.entries.nth(n)?;
        Some(self.event(entry))
    }
}

impl DoubleEndedIterator for Events<'_> {
    fn next_back(&mut self) -> Option<Self::Item> {
        let entry = self.entries.next_back()?;
        Some(self.event(entry))
    }
}

impl ExactSizeIterator for Events<'_> {}
impl FusedIterator for Events<'_> {}

impl fmt::Debug for Events<'_> {
    fn fmt(&self, f: &mut fmt::Formatter<'_>) -> fmt::Result {
        f.debug_list().entries(self.clone()).finish()
    }
}
