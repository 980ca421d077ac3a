//! The Rust's answers, by its visitor and by its iterators.
use crate::answer::{Answer, Event, Payload};
use llvm_bitcode::bitcode::{self, Record, RecordIter, Signature};
use llvm_bitcode::bits;
use llvm_bitcode::read::{BlockItem, BlockIter, Error};
use llvm_bitcode::{BitStreamReader, BitStreamVisitor, Bitcode};
use std::cell::Cell;

/// The number of an error of the Rust's, and its details.
pub fn refusal(error: Error) -> Answer {
    match error {
        Error::InvalidSignature(_) => Answer::refused(1, 0, 0),
        Error::ReadBits(bits::Error::BufferOverflow) => Answer::refused(2, 0, 0),
        Error::ReadBits(bits::Error::VbrOverflow) => Answer::refused(3, 0, 0),
        Error::ReadBits(bits::Error::Alignment) => Answer::refused(4, 0, 0),
        Error::InvalidAbbrev => Answer::refused(5, 0, 0),
        Error::UnexpectedOperand(_) => Answer::refused(6, 0, 0),
        Error::AbbrevWidthTooSmall(width) => Answer::refused(7, width.into(), 0),
        Error::NoSuchAbbrev { block_id, abbrev_id } => Answer::refused(8, abbrev_id.into(), block_id.into()),
        Error::MissingEndBlock(block) => Answer::refused(9, block.into(), 0),
        Error::MissingSetBid => Answer::refused(10, 0, 0),
        Error::NestedBlockInBlockInfo => Answer::refused(11, 0, 0),
        Error::InvalidBlockInfoRecord(code) => Answer::refused(12, code, 0),
        Error::ValueOverflow => Answer::refused(13, 0, 0),
        Error::EndOfRecord => Answer::refused(14, 0, 0),
        Error::UnexpectedBlock(_) | Error::Encoding(_) | Error::Other(_) => panic!("no walk gives {error:?}"),
    }
}

fn header(s: Signature) -> [u64; 6] {
    [s.magic, s.magic2, s.version, s.offset, s.size, s.cpu_type].map(u64::from)
}

fn payload(p: Option<bitcode::Payload>) -> Payload {
    match p {
        None => Payload::None,
        Some(bitcode::Payload::Array(elements)) => Payload::Array(elements),
        Some(bitcode::Payload::Char6String(letters)) => Payload::Char6(letters.bytes().map(u64::from).collect()),
        Some(bitcode::Payload::Blob(bytes)) => Payload::Blob(bytes),
    }
}

/// A visitor that keeps what it is told.
struct Keeper<'a> {
    skip: &'a [u64],
    header: Cell<[u64; 6]>,
    events: Vec<Event>,
}

impl BitStreamVisitor for Keeper<'_> {
    fn validate(&self, signature: Signature) -> bool {
        self.header.set(header(signature));
        true
    }

    fn should_enter_block(&mut self, block: u32) -> bool {
        let block = block.into();
        let enters = !self.skip.contains(&block);
        self.events.push(if enters { Event::Enter { block, width: 0 } } else { Event::Skip(block) });
        enters
    }

    fn did_exit_block(&mut self, block: u32) {
        self.events.push(Event::Leave(block.into()));
    }

    fn visit(&mut self, block: u32, mut record: Record) {
        let operands = record.fields().to_vec();
        let payload = payload(record.take_payload());
        self.events.push(Event::Record { block: block.into(), code: record.id, operands, payload });
    }
}

/// The answer by `Bitcode::read` with a visitor; it has no widths.
pub fn visited(input: &[u8], skip: &[u64]) -> Answer {
    let mut keeper = Keeper { skip, header: Cell::default(), events: Vec::new() };
    match Bitcode::read(input, &mut keeper) {
        Err(error) => refusal(error),
        Ok(()) => Answer::Accepted { header: keeper.header.get(), events: keeper.events },
    }
}

/// A walk by `try_next`, which tells widths. Where `hides` is set a payload that fails is dropped, as the visitor's `into_record` does.
struct Iterated<'a> {
    skip: &'a [u64],
    hides: bool,
    events: Vec<Event>,
}

impl Iterated<'_> {
    fn record(&mut self, block: u64, mut record: RecordIter<'_, '_>) -> Result<(), Error> {
        let mut operands = Vec::new();
        while let Some(operand) = record.try_next()? {
            operands.push(operand);
        }
        let read = record.payload();
        let payload = payload(if self.hides { read.ok().flatten() } else { read? });
        self.events.push(Event::Record { block, code: record.id, operands, payload });
        Ok(())
    }

    fn inside(&mut self, inner: BlockIter<'_, '_>) -> Result<(), Error> {
        let block = inner.id.into();
        if self.skip.contains(&block) {
            self.events.push(Event::Skip(block));
            return Ok(());
        }
        self.events.push(Event::Enter { block, width: inner.debug_abbrev_width().into() });
        self.block(inner)?;
        self.events.push(Event::Leave(block));
        Ok(())
    }

    fn block(&mut self, mut block: BlockIter<'_, '_>) -> Result<(), Error> {
        let number = block.id.into();
        while let Some(item) = block.try_next()? {
            match item {
                BlockItem::Block(inner) => self.inside(inner)?,
                BlockItem::Record(record) => self.record(number, record)?,
            }
        }
        Ok(())
    }
}

/// The answer by the iterators.
pub fn iterated(input: &[u8], skip: &[u64], hides: bool) -> Answer {
    let Some((signature, stream)) = Signature::parse(input) else {
        return Answer::refused(1, 0, 0);
    };
    let mut walk = Iterated { skip, hides, events: Vec::new() };
    match walk.block(BitStreamReader::new().iter_bitcode(stream)) {
        Err(error) => refusal(error),
        Ok(()) => Answer::Accepted { header: header(signature), events: walk.events },
    }
}
