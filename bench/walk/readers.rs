//! The readers that are timed. Each goes over a whole log and sums what it is shown: each block that is entered and left; block, code, operands and payload
//! of each record. The sums must agree.
use gleanrime::{EVENT_SIZE, Event, Log};
use llvm_bitcode::bitcode::{Payload, Record, Signature};
use llvm_bitcode::read::{BlockItem, BlockIter, Error};
use llvm_bitcode::{BitStreamReader, BitStreamVisitor, Bitcode};

/// What a log comes to.
#[derive(Clone, Copy, Debug, Default, PartialEq)]
pub struct Sum(u64);

impl Sum {
    fn add(&mut self, v: u64) {
        self.0 = self.0.wrapping_add(v);
    }

    fn enter(&mut self, block: u64) {
        self.add(3 * block);
    }

    fn leave(&mut self, block: u64) {
        self.add(5 * block);
    }

    fn record(&mut self, block: u64, code: u64) {
        self.add(7 * block + 11 * code);
    }

    fn numbers(&mut self, all: &[u64]) {
        all.iter().for_each(|&v| self.add(v));
    }

    /// A blob is only shown: its length and its two ends.
    fn blob(&mut self, bytes: &[u8]) {
        self.add(bytes.len() as u64);
        bytes.first().into_iter().chain(bytes.last()).for_each(|&b| self.add(b.into()));
    }
}

/// Our stores, of just the size that a log needs.
pub struct Stores {
    events: Vec<u64>,
    operands: Vec<u64>,
}

impl Stores {
    pub fn of(input: &[u8]) -> Stores {
        let mut stores = gleanrime::Stores::new();
        let log = stores.read(input, &[]).expect("the log is accepted");
        Stores { events: vec![0; log.event_numbers().len()], operands: vec![0; log.operand_numbers().len()] }
    }

    pub fn events(&self) -> usize {
        self.events.len() / EVENT_SIZE
    }

    pub fn operands(&self) -> usize {
        self.operands.len()
    }

    pub fn clear(&mut self) {
        self.events.fill(0);
        self.operands.fill(0);
    }

    /// Our walk.
    pub fn walk<'a>(&'a mut self, input: &'a [u8]) -> Log<'a> {
        gleanrime::walk(input, &[], &mut self.events, &mut self.operands).expect("the log is accepted")
    }
}

/// What stands in the stores behind our walk.
pub fn told(log: Log<'_>) -> Sum {
    let mut sum = Sum::default();
    for event in log.events() {
        match event {
            Event::Enter { block, .. } => sum.enter(block),
            Event::Leave { block } => sum.leave(block),
            Event::Skip { .. } => panic!("nothing is to be skipped"),
            Event::Record(record) => {
                sum.record(record.block, record.code);
                sum.numbers(record.operands);
                match record.payload {
                    gleanrime::Payload::None => {}
                    gleanrime::Payload::Array(numbers) | gleanrime::Payload::Char6(numbers) => sum.numbers(numbers),
                    gleanrime::Payload::Blob(bytes) => sum.blob(bytes),
                }
            }
        }
    }
    sum
}

/// The whole job, with stores that are made for it and thrown away.
pub fn with_new_stores(input: &[u8]) -> Sum {
    told(gleanrime::Stores::new().read(input, &[]).expect("the log is accepted"))
}

impl Sum {
    fn payload(&mut self, payload: Option<Payload>) {
        match payload {
            None => {}
            Some(Payload::Array(elements)) => self.numbers(&elements),
            Some(Payload::Char6String(letters)) => letters.bytes().for_each(|b| self.add(b.into())),
            Some(Payload::Blob(bytes)) => self.blob(&bytes),
        }
    }

    fn items(&mut self, mut block: BlockIter<'_, '_>) -> Result<(), Error> {
        let number = block.id.into();
        while let Some(item) = block.try_next()? {
            match item {
                BlockItem::Block(inner) => {
                    let inside = inner.id.into();
                    self.enter(inside);
                    self.items(inner)?;
                    self.leave(inside);
                }
                BlockItem::Record(mut record) => {
                    self.record(number, record.id);
                    while let Some(v) = record.try_next()? {
                        self.add(v);
                    }
                    self.payload(record.payload()?);
                }
            }
        }
        Ok(())
    }
}

impl BitStreamVisitor for Sum {
    fn should_enter_block(&mut self, block: u32) -> bool {
        self.enter(block.into());
        true
    }

    fn did_exit_block(&mut self, block: u32) {
        self.leave(block.into());
    }

    fn visit(&mut self, block: u32, mut record: Record) {
        self.record(block.into(), record.id);
        self.numbers(record.fields());
        self.payload(record.take_payload());
    }
}

/// The Rust crate by its visitor.
pub fn visited(input: &[u8]) -> Sum {
    let mut sum = Sum::default();
    Bitcode::read(input, &mut sum).expect("the log is accepted");
    sum
}

/// The Rust crate by its iterators.
pub fn iterated(input: &[u8]) -> Sum {
    let mut sum = Sum::default();
    let (_, stream) = Signature::parse(input).expect("the log has a header");
    sum.items(BitStreamReader::new().iter_bitcode(stream)).expect("the log is accepted");
    sum
}
