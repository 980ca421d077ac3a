use crate::sys::{self, Told};
use crate::{EVENT_SIZE, Event, Events, Refusal, Visitor, visitor};
use std::fmt;

/// The word that a wrapper begins with.
pub const WRAPPER_MAGIC: u64 = 0x0B17_C0DE;

/// The numbers of a log's header.
///
/// Without a wrapper `offset` is 4, `size` the number of bytes behind the magic, and the others but `magic` are 0.
///
/// ```
/// let header = gleanrime::header(b"\x42\x43\xc0\xde\x21\x0c\0\0\x01\0\0\0\x0b\x02\x01\0")?;
/// assert_eq!((header.magic, header.offset, header.size), (0xdec04342, 4, 12));
/// assert!(!header.is_wrapped());
/// # Ok::<(), gleanrime::Refusal>(())
/// ```
#[derive(Clone, Copy, Debug, Default, PartialEq, Eq, Hash)]
pub struct Header {
    /// The first word of the input. Any is taken; `0xdec04342` is LLVM's.
    pub magic: u64,
    /// In a wrapper, the first word of what it holds.
    pub magic2: u64,
    /// The wrapper's version.
    pub version: u64,
    /// The byte of the input where the log begins that the wrapper holds.
    pub offset: u64,
    /// How many bytes that log has.
    pub size: u64,
    /// The wrapper's CPU type.
    pub cpu: u64,
}

impl Header {
    pub(crate) fn from_numbers([magic, magic2, version, offset, size, cpu]: [u64; 6]) -> Self {
        Self { magic, magic2, version, offset, size, cpu }
    }

    /// Whether the log stands in a wrapper.
    pub fn is_wrapped(&self) -> bool {
        self.magic == WRAPPER_MAGIC
    }
}

/// The header of an input, of any length.
///
/// ```
/// use gleanrime::{Refusal, header};
/// assert_eq!(header(b"BC").unwrap_err(), Refusal::InvalidSignature);
/// ```
pub fn header(input: &[u8]) -> Result<Header, Refusal> {
    match sys::header(input) {
        (0, numbers) => Ok(Header::from_numbers(numbers)),
        (status, _) => Err(Refusal::of_call(status)),
    }
}

/// Walks a log whole, into two stores: events, eight numbers each ([`EVENT_SIZE`](crate::EVENT_SIZE)), and operands. Nothing is allocated.
///
/// Blocks whose numbers are in `skip` stay unread and give [`Event::Skip`](crate::Event::Skip); 0 has no effect there.
///
/// Where a store is full the refusal is [`NoEventRoom`](Refusal::NoEventRoom) or [`NoOperandRoom`](Refusal::NoOperandRoom): lend a larger one, or let
/// [`Stores`](crate::Stores) do that. How many operands there are doesn't follow from the log's length: an array of literals takes no bits for its
/// elements. A refusal leaves both stores zero; acceptance leaves zero behind the last event and operand.
///
/// ```
/// use gleanrime::{Event, walk};
///
/// let log = b"\x42\x43\xc0\xde\x21\x0c\0\0\x01\0\0\0\x0b\x02\x01\0";
/// let (mut events, mut operands) = ([0; 64], [0; 8]);
/// for event in walk(log, &[], &mut events, &mut operands)?.events() {
///     match event {
///         Event::Enter { block, .. } => println!("block {block}"),
///         Event::Record(record) => println!("  record {}: {:?}", record.code, record.operands),
///         Event::Leave { .. } | Event::Skip { .. } => {}
///     }
/// }
/// # Ok::<(), gleanrime::Refusal>(())
/// ```
pub fn walk<'a>(input: &'a [u8], skip: &[u64], events: &'a mut [u64], operands: &'a mut [u64]) -> Result<Log<'a>, Refusal> {
    let told = sys::walk(input, skip, events, operands);
    match told.refusal() {
        Some(refusal) => Err(refusal),
        None => Ok(Log::new(told, input, events, operands)),
    }
}

impl Told {
    /// The refusal that a walk told, if it did.
    pub(crate) fn refusal(&self) -> Option<Refusal> {
        let [first, second] = self.details;
        (self.status != 0).then(|| Refusal::from_numbers(self.status, self.place, first, second))
    }
}

/// A log that was accepted: its header and its events, which lie in the lent stores.
#[derive(Clone, Copy)]
pub struct Log<'a> {
    input: &'a [u8],
    header: Header,
    events: &'a [u64],
    operands: &'a [u64],
}

impl<'a> Log<'a> {
    /// What an accepted walk told, and the stores that it left.
    pub(crate) fn new(told: Told, input: &'a [u8], events: &'a [u64], operands: &'a [u64]) -> Self {
        Self { input, header: Header::from_numbers(told.header), events: &events[..EVENT_SIZE * told.events], operands: &operands[..told.operands] }
    }

    /// The numbers of its header.
    pub fn header(&self) -> Header {
        self.header
    }

    /// Its events, in its order. The iterator is cheap to make and to clone.
    ///
    /// ```
    /// use gleanrime::{Event, Stores};
    ///
    /// let log = b"\x42\x43\xc0\xde\x21\x0c\0\0\x01\0\0\0\x0b\x02\x01\0";
    /// let mut stores = Stores::new();
    /// let log = stores.read(log, &[])?;
    /// assert_eq!(log.events().len(), 3);
    /// assert_eq!(log.events().filter(|event| matches!(event, Event::Enter { block: 8, .. })).count(), 1);
    /// assert_eq!(log.events().next_back(), Some(Event::Leave { block: 8 }));
    /// # Ok::<(), gleanrime::Refusal>(())
    /// ```
    pub fn events(&self) -> Events<'a> {
        Events::new(self.events, self.operands, self.input)
    }

    /// The stream: the bytes behind the magic, from which places in events count. In a wrapper they end where what it holds ends.
    ///
    /// ```
    /// use gleanrime::{Event, walk};
    ///
    /// let input = b"\x42\x43\xc0\xde\x21\x0c\0\0\x01\0\0\0\x0b\x02\x01\0";
    /// let (mut events, mut operands) = ([0; 64], [0; 8]);
    /// let log = walk(input, &[], &mut events, &mut operands)?;
    /// let Some(Event::Enter { start, length, .. }) = log.events().next() else { panic!() };
    /// assert_eq!(&log.stream()[start as usize..][..length as usize], b"\x0b\x02\x01\0");
    /// # Ok::<(), gleanrime::Refusal>(())
    /// ```
    pub fn stream(&self) -> &'a [u8] {
        let Header { offset, size, .. } = self.header;
        if self.header.is_wrapped() { &self.input[offset as usize..][..size as usize][4..] } else { &self.input[4..] }
    }

    /// The event store as the walk left it, without the zeros behind the last event: eight numbers an event, as c/gleanrime.h describes them.
    pub fn event_numbers(&self) -> &'a [u64] {
        self.events
    }

    /// The operand store as the walk left it, without the zeros behind the last operand.
    pub fn operand_numbers(&self) -> &'a [u64] {
        self.operands
    }

    /// Shows the log to a visitor, from its first event to its last. See [`Visitor`].
    pub fn visit<V: Visitor>(&self, visitor: &mut V) -> Result<(), Refusal> {
        visitor::show(self, visitor)
    }
}

impl<'a> IntoIterator for &Log<'a> {
    type Item = Event<'a>;
    type IntoIter = Events<'a>;

    fn into_iter(self) -> Events<'a> {
        self.events()
    }
}

impl<'a> IntoIterator for Log<'a> {
    type Item = Event<'a>;
    type IntoIter = Events<'a>;

    fn into_iter(self) -> Events<'a> {
        self.events()
    }
}

impl fmt::Debug for Log<'_> {
    fn fmt(&self, f: &mut fmt::Formatter<'_>) -> fmt::Result {
        f.debug_struct("Log").field("header", &self.header).field("events", &self.events()).finish()
    }
}
