//! A third walk: document 01's rules in plain Rust, a sentence beside each. It decides whether an input lies in the stated domain, and it can go the
//! Rust's way at each difference that 01 lists. So our library is held against 01 on every input; the Rust against ours in the domain; and outside
//! of it against the list: what the list doesn't say is a fault.
use crate::answer::{Answer, Sheet};
use crate::notes::{Difference, Notes, Rule};
use crate::stream::{Cursor, Got, Refusal, TOP, WRAPPER, refuse};
use std::rc::Rc;

#[derive(Clone, Copy, PartialEq)]
pub enum Scalar {
    Literal(u64),
    Fixed(u64),
    Vbr(u64),
    Char6,
}

impl Scalar {
    /// The one of four rules that is for this kind: literal, fixed, VBR, Char6.
    fn of(self, rules: [Rule; 4]) -> Rule {
        match self {
            Self::Literal(_) => rules[0],
            Self::Fixed(_) => rules[1],
            Self::Vbr(_) => rules[2],
            Self::Char6 => rules[3],
        }
    }
}

enum Load {
    Array(Scalar),
    Blob,
}

/// An operand of a definition as it is read.
enum Defined {
    Scalar(Scalar),
    Load(Load),
}

struct Abbreviation {
    scalars: Vec<Scalar>,
    load: Option<Load>,
}

/// What the walk gives: status, place and details; header numbers; events and operands; what it noted.
#[derive(Default)]
pub struct Outcome {
    pub status: u64,
    pub place: u64,
    pub details: [u64; 2],
    pub header: [u64; 6],
    pub events: Vec<[u64; 8]>,
    pub operands: Vec<u64>,
    pub notes: Notes,
}

impl Outcome {
    /// The twelve numbers that the walk tells.
    pub fn told(&self) -> [u64; 12] {
        let ([a, b], h) = (self.details, self.header);
        [self.status, self.place, a, b, h[0], h[1], h[2], h[3], h[4], h[5], self.events.len() as u64, self.operands.len() as u64]
    }

    /// The answer, as far as the Rust tells one.
    pub fn answer(&self, input: &[u8]) -> Answer {
        Sheet { told: self.told(), operands: &self.operands, input }.answer(self.events.iter().map(|entry| &entry[..]))
    }
}

/// The build's own limits.
const INPUT_LIMIT: usize = 16_777_216;
const LIMIT: usize = 32; // open blocks; operands per abbreviation; shared abbreviations; local ones
const TWO32: u64 = 1 << 32;

fn word(bytes: &[u8]) -> u64 {
    u32::from_le_bytes(bytes[..4].try_into().unwrap()).into()
}

/// The header numbers (magic, magic2, version, offset, size, cpu) and the stream.
fn parse<'a>(input: &'a [u8], notes: &mut Notes) -> Got<([u64; 6], &'a [u8])> {
    if input.len() < 4 {
        notes.met(Rule::HeaderShort);
        return refuse(1);
    }
    let magic = word(input);
    if magic != WRAPPER {
        notes.met(Rule::HeaderPlain);
        return Ok(([magic, 0, 0, 4, input.len() as u64 - 4, 0], &input[4..]));
    }
    if input.len() < 20 {
        notes.met(Rule::WrapperShort);
        return refuse(1);
    }
    let [version, offset, size, cpu] = [4, 8, 12, 16].map(|byte| word(&input[byte..]));
    if offset + size > input.len() as u64 || size < 4 {
        notes.met(Rule::WrapperOutside);
        return refuse(1);
    }
    notes.met(Rule::Wrapped);
    notes.met_if(offset < 20, Rule::WrapperLowOffset);
    let inner = &input[offset as usize..(offset + size) as usize];
    Ok(([magic, word(inner), version, offset, size, cpu], &inner[4..]))
}

struct Walk<'a> {
    skip: &'a [u64],
    event_room: usize,
    operand_room: usize,
    events: Vec<[u64; 8]>,
    operands: Vec<u64>,
    shared: Vec<(u64, Rc<Abbreviation>)>,
    local: usize,
    open: Vec<u64>,
    item: u64,
    notes: Notes,
}

/// A block: its number and width, whether it is the top level, the shared abbreviations that it had when it was entered, and its local ones.
struct Block {
    number: u64,
    width: u64,
    top: bool,
    shared: Vec<Rc<Abbreviation>>,
    local: Vec<Rc<Abbreviation>>,
}

impl Walk<'_> {
    fn event(&mut self, numbers: &[u64]) -> Got<()> {
        if self.events.len() >= self.event_room && !self.notes.differs(Difference::EventLimit) {
            self.notes.met(Rule::EventFull);
            return refuse(18);
        }
        let mut entry = [0; 8];
        entry[..numbers.len()].copy_from_slice(numbers);
        self.events.push(entry);
        Ok(())
    }

    /// "Before each stored operand room is tested (19), then its bits are read."
    fn operand(&mut self, c: &mut Cursor, kind: Scalar) -> Got<()> {
        if self.operands.len() >= self.operand_room && !self.notes.differs(Difference::OperandLimit) {
            self.notes.met(Rule::OperandFull);
            return refuse(19);
        }
        let value = self.scalar(c, kind)?;
        self.operands.push(value);
        Ok(())
    }

    fn scalar(&mut self, c: &mut Cursor, kind: Scalar) -> Got<u64> {
        match kind {
            Scalar::Literal(value) => Ok(value),
            Scalar::Fixed(width) => {
                self.notes.widths |= 1 << (width - 1);
                c.read(width)
            }
            Scalar::Vbr(width) => {
                self.notes.widths |= 1 << (width + 31);
                c.vbr(width, &mut self.notes)
            }
            Scalar::Char6 => {
                let letters = b"abcdefghijklmnopqrstuvwxyzABCDEFGHIJKLMNOPQRSTUVWXYZ0123456789._";
                Ok(letters[c.read(6)? as usize].into())
            }
        }
    }

    fn vbr(&mut self, c: &mut Cursor, width: u64) -> Got<u64> {
        c.vbr(width, &mut self.notes)
    }

    // ---- Abbreviations

    /// A width: "outside 1..32: 7". The Rust's refusal has its lowest eight bits.
    fn width(&mut self, c: &mut Cursor) -> Got<u64> {
        let width = self.vbr(c, 5)?;
        if (1..=32).contains(&width) {
            return Ok(width);
        }
        self.notes.met(if width == 0 { Rule::WidthTooSmall } else { Rule::WidthTooLarge });
        let cut = width > 255 && self.notes.differs(Difference::OperandWidth);
        Err(Refusal(7, if cut { width & 255 } else { width }, 0))
    }

    /// "Each operand: 1 bit; if 1, literal vbr8. Else 3 bits: 1 Fixed, 2 VBR, 3 Array only with exactly one operand left, 4 Char6, 5 Blob only with
    /// none left; anything else 5." `left` is how many come behind it.
    fn define_operand(&mut self, c: &mut Cursor, left: u64) -> Got<Defined> {
        if c.read(1)? == 1 {
            return Ok(Defined::Scalar(Scalar::Literal(self.vbr(c, 8)?)));
        }
        match c.read(3)? {
            1 => Ok(Defined::Scalar(Scalar::Fixed(self.width(c)?))),
            2 => Ok(Defined::Scalar(Scalar::Vbr(self.width(c)?))),
            3 if left == 1 => Ok(Defined::Load(Load::Array(self.element(c)?))),
            4 => Ok(Defined::Scalar(Scalar::Char6)),
            5 if left == 0 => Ok(Defined::Load(Load::Blob)),
            kind => {
                let misplaced = [Rule::ArrayMisplaced, Rule::UnknownKind, Rule::BlobMisplaced];
                self.notes.met(if kind == 3 || kind == 5 { misplaced[kind as usize - 3] } else { Rule::UnknownKind });
                refuse(5)
            }
        }
    }

    /// "An array element is read as an operand itself: literal allowed, array gives 5, blob gives 6."
    fn element(&mut self, c: &mut Cursor) -> Got<Scalar> {
        let element = self.define_operand(c, 0);
        match element {
            Ok(Defined::Scalar(kind)) => {
                self.notes.met(kind.of([Rule::LiteralElement, Rule::FixedElement, Rule::VbrElement, Rule::Char6Element]));
                Ok(kind)
            }
            Ok(Defined::Load(_)) => {
                self.notes.met(Rule::ElementOfBlob);
                refuse(6)
            }
            Err(refusal) => {
                self.notes.met_if(refusal.0 == 5, Rule::ElementOfArray);
                Err(refusal)
            }
        }
    }

    fn note_defined(&mut self, operand: &Defined) {
        self.notes.met(match operand {
            Defined::Scalar(kind) => kind.of([Rule::LiteralDefined, Rule::FixedDefined, Rule::VbrDefined, Rule::Char6Defined]),
            Defined::Load(Load::Array(_)) => Rule::ArrayDefined,
            Defined::Load(Load::Blob) => Rule::BlobDefined,
        });
    }

    /// "Operand count vbr5; above 32: 17."
    fn definition(&mut self, c: &mut Cursor) -> Got<Rc<Abbreviation>> {
        let count = self.vbr(c, 5)?;
        if count > LIMIT as u64 && !self.notes.differs(Difference::OperandsLimit) {
            self.notes.met(Rule::TooManyOperands);
            return refuse(17);
        }
        let (mut scalars, mut load, mut left) = (Vec::new(), None, count);
        while left > 0 {
            left -= 1;
            let operand = self.define_operand(c, left);
            self.notes.met_if(operand.as_ref().is_err_and(|refusal| refusal.0 == 2), Rule::DefinitionCut);
            let operand = operand?;
            self.note_defined(&operand);
            match operand {
                Defined::Scalar(kind) => scalars.push(kind),
                Defined::Load(kind) => {
                    load = Some(kind);
                    break;
                }
            }
        }
        self.notes.met_if(count == 0, Rule::DefinedNothing);
        self.notes.met_if(scalars.is_empty() && load.is_some(), Rule::DefinedPayloadOnly);
        Ok(Rc::new(Abbreviation { scalars, load }))
    }

    // ---- Records

    /// Payload kind, place and length. "Array: length vbr6, then elements. Blob: length vbr6, align, bytes, align."
    fn payload(&mut self, c: &mut Cursor, load: &Load) -> Got<[u64; 3]> {
        let length = self.vbr(c, 6)?;
        match *load {
            Load::Array(kind) => {
                let place = self.operands.len() as u64;
                for _ in 0..length {
                    self.operand(c, kind)?;
                }
                let letters = kind == Scalar::Char6;
                let rules = [Rule::EmptyArray, Rule::Array, Rule::EmptyLetters, Rule::Letters];
                self.notes.met(rules[2 * usize::from(letters) + usize::from(length > 0)]);
                Ok([if letters { 2 } else { 1 }, place, length])
            }
            Load::Blob => {
                c.align()?;
                let place = c.at / 8;
                let short = c.skip(length);
                self.notes.met_if(short.is_err(), Rule::BlobCut);
                short?;
                self.notes.met_if(c.at % 32 != 0, Rule::BlobPadded);
                c.align()?; // never refused: bodies are whole words, and the top level's numbers of two bits stand for no abbreviation
                self.notes.met(if length == 0 { Rule::EmptyBlob } else { Rule::Blob });
                Ok([3, place, length])
            }
        }
    }

    /// A payload, or none: the Rust's `into_record` drops one that fails, and goes on where its reading stopped.
    fn load(&mut self, c: &mut Cursor, load: Option<&Load>) -> Got<[u64; 3]> {
        let Some(load) = load else {
            return Ok([0; 3]);
        };
        let mark = self.operands.len();
        let read = self.payload(c, load);
        if let Err(refusal) = read
            && refusal.0 != 19
        {
            self.notes.met(Rule::PayloadCut);
            if self.notes.differs(Difference::Payload) {
                self.operands.truncate(mark);
                return Ok([0; 3]);
            }
        }
        read
    }

    /// "(18) is tested after the whole record"
    fn tell_record(&mut self, block: &Block, code: u64, place: usize, count: usize, load: [u64; 3]) -> Got<()> {
        self.notes.met_if(block.top, Rule::TopRecord);
        self.event(&[3, block.number, code, place as u64, count as u64, load[0], load[1], load[2]])
    }

    /// "3: code vbr6, count vbr6, operands vbr6."
    fn plain_record(&mut self, c: &mut Cursor, block: &Block) -> Got<()> {
        let (code, count) = (self.vbr(c, 6)?, self.vbr(c, 6)?);
        let place = self.operands.len();
        for _ in 0..count {
            let operand = self.operand(c, Scalar::Vbr(6));
            self.notes.met_if(operand.is_err_and(|refusal| refusal.0 == 2), Rule::PlainCut);
            operand?;
        }
        self.notes.met(if count == 0 { Rule::PlainNoOperands } else { Rule::PlainRecord });
        self.tell_record(block, code, place, count as usize, [0; 3])
    }

    /// "4 and up: lookup (8); no scalar operand gives 5". The Rust looks the shared ones up as they stand now.
    fn look_up(&mut self, number: u64, block: &Block) -> Got<Rc<Abbreviation>> {
        let now = |walk: &Self| {
            let own = walk.shared.iter().filter(|(owner, _)| *owner == block.number);
            own.map(|(_, abbreviation)| abbreviation.clone()).collect()
        };
        let shared: Vec<_> = if self.notes.ways & Difference::OpenShared.bit() != 0 { now(self) } else { block.shared.clone() };
        let index = (number - 4) as usize;
        if index < shared.len() {
            self.notes.met(Rule::UsedShared);
            return Ok(shared[index].clone());
        }
        let Some(local) = block.local.get(index - shared.len()) else {
            self.notes.met(Rule::NoSuchAbbrev);
            return Err(Refusal(8, number, block.number));
        };
        self.notes.met(if shared.is_empty() { Rule::UsedLocal } else { Rule::UsedLocalBehindShared });
        Ok(local.clone())
    }

    /// "the first scalar is the code, the rest operands, then the payload"
    fn abbreviated_record(&mut self, c: &mut Cursor, block: &Block, number: u64) -> Got<()> {
        let abbreviation = self.look_up(number, block)?;
        let Some((&first, rest)) = abbreviation.scalars.split_first() else {
            self.notes.met(Rule::NoScalar);
            return refuse(5);
        };
        let code = self.scalar(c, first);
        let read = first.of([Rule::CodeLiteral, Rule::CodeFixed, Rule::CodeVbr, Rule::CodeChar6]);
        self.notes.met(if code.is_err() { Rule::CodeCut } else { read });
        let (code, place) = (code?, self.operands.len());
        for &kind in rest {
            let operand = self.operand(c, kind);
            let read = kind.of([Rule::LiteralOperand, Rule::FixedOperand, Rule::VbrOperand, Rule::Char6Operand]);
            self.notes.met(if operand.is_err() { Rule::OperandCut } else { read });
            operand?;
        }
        let count = self.operands.len() - place;
        let load = self.load(c, abbreviation.load.as_ref())?;
        self.tell_record(block, code, place, count, load)
    }

    // ---- BLOCKINFO

    fn info(&mut self, c: &mut Cursor, width: u64) -> Got<()> {
        let mut set = None;
        loop {
            self.item = c.at;
            let number = self.number(c, width);
            self.notes.met_if(number.is_err_and(|refusal| refusal.0 == 2), Rule::InfoCut);
            match number? {
                0 => {
                    self.notes.met(Rule::InfoEnd);
                    return c.align();
                }
                1 => {
                    self.notes.met(Rule::InfoNested);
                    return refuse(11);
                }
                2 => self.info_definition(c, set)?,
                3 => set = self.info_record(c, set)?,
                number => {
                    self.notes.met(Rule::InfoNumber);
                    return Err(Refusal(8, number, 0));
                }
            }
        }
    }

    /// "a definition or code 2, 3 before this BLOCKINFO's SETBID gives 10"; "Room is tested after the whole definition (17)."
    fn info_definition(&mut self, c: &mut Cursor, set: Option<u64>) -> Got<()> {
        let Some(owner) = set else {
            self.notes.met(Rule::InfoNoSetBid);
            return refuse(10);
        };
        let abbreviation = self.definition(c)?;
        if self.shared.len() >= LIMIT && !self.notes.differs(Difference::SharedLimit) {
            self.notes.met(Rule::SharedFull);
            return refuse(17);
        }
        self.shared.push((owner, abbreviation));
        self.notes.met(if self.open.is_empty() { Rule::InfoDefined } else { Rule::InfoDefinedBelow });
        if owner == TOP || self.open.contains(&owner) {
            self.notes.differs(Difference::OpenShared);
        }
        Ok(())
    }

    /// "Once the count is read, a code outside 1..3: 12."
    fn info_record(&mut self, c: &mut Cursor, set: Option<u64>) -> Got<Option<u64>> {
        let (code, count) = (self.vbr(c, 6)?, self.vbr(c, 6)?);
        match code {
            1 => self.set_bid(c, count, set.is_some()).map(Some),
            2 | 3 if set.is_none() => {
                self.notes.met(Rule::InfoNoSetBidName);
                refuse(10)
            }
            2 => {
                self.notes.met(Rule::BlockName);
                self.letters(c, count).map(|()| set)
            }
            3 => self.record_name(c, count).map(|()| set),
            _ => {
                self.notes.met(Rule::InfoCode);
                Err(Refusal(12, code, 0))
            }
        }
    }

    /// "SETBID must have exactly one readable operand below 2^32, else 12."
    fn set_bid(&mut self, c: &mut Cursor, count: u64, again: bool) -> Got<u64> {
        let read = if count > 0 { self.vbr(c, 6).ok() } else { None };
        self.notes.met(match read {
            _ if count != 1 => Rule::SetBidCount,
            None => Rule::SetBidUnreadable,
            Some(TWO32..) => Rule::SetBidTooLarge,
            Some(0) => Rule::SetBidZero,
            Some(_) if again => Rule::SetBidAgain,
            Some(_) => Rule::SetBid,
        });
        read.filter(|&number| count == 1 && number < TWO32).ok_or(Refusal(12, 1, 0))
    }

    /// "Code 3 needs a readable first operand (else 12)."
    fn record_name(&mut self, c: &mut Cursor, count: u64) -> Got<()> {
        if count == 0 || self.vbr(c, 6).is_err() {
            self.notes.met(if count == 0 { Rule::RecordNameBare } else { Rule::RecordNameUnreadable });
            return Err(Refusal(12, 3, 0));
        }
        self.notes.met(Rule::RecordName);
        self.letters(c, count - 1)
    }

    /// "Name letters above 255: 13."
    fn letters(&mut self, c: &mut Cursor, count: u64) -> Got<()> {
        for _ in 0..count {
            let letter = self.vbr(c, 6);
            self.notes.met_if(letter.is_err(), Rule::NameCut);
            if letter? > 255 {
                self.notes.met(Rule::NameLetter);
                return refuse(13);
            }
        }
        Ok(())
    }

    // ---- Blocks

    /// "read a number of the block's width (2 at top level; outside 1..32: 3)". The Rust cuts the width to eight bits and the number to 32.
    fn number(&mut self, c: &mut Cursor, width: u64) -> Got<u64> {
        if width > 32 && self.notes.ways & Difference::BlockWidth.bit() != 0 {
            return Ok(c.read(width)? % TWO32);
        }
        if !(1..=32).contains(&width) {
            self.notes.met(Rule::BadWidth);
            return refuse(3);
        }
        c.read(width)
    }

    /// "block number vbr8 (≥ 2^32: 20), width vbr4, align, length in words (32 bits), body within the parent, else 2". Number, width, and the body;
    /// "The parent goes on behind the declared length whatever the body left."
    fn head<'a>(&mut self, c: &mut Cursor<'a>) -> Got<(u64, u64, Cursor<'a>)> {
        let mut number = self.vbr(c, 8)?;
        if number >= TWO32 {
            if !self.notes.differs(Difference::BlockNumber) {
                self.notes.met(Rule::NumberTooLarge);
                return Err(Refusal(20, number, 0));
            }
            number %= TWO32;
        }
        let mut width = self.vbr(c, 4)?;
        if width > 32 && self.notes.differs(Difference::BlockWidth) {
            width %= 256;
        }
        c.align()?;
        let length = 4 * c.read(32)?;
        let start = c.at;
        let fits = c.skip(length);
        self.notes.met_if(fits.is_err(), Rule::BodyTooLong);
        fits?;
        self.notes.met_if(length == 0, Rule::EmptyBody);
        Ok((number, width, Cursor { stream: c.stream, at: start, end: c.at }))
    }

    fn sub_block(&mut self, c: &mut Cursor) -> Got<()> {
        let head = self.head(c);
        self.notes.met_if(head.is_err(), Rule::HeadCut);
        let (number, width, mut body) = head?;
        let numbers = [number, width, body.at / 8, (body.end - body.at) / 8];
        if number == 0 {
            self.notes.met(if self.open.is_empty() { Rule::InfoRead } else { Rule::InfoReadInside });
            self.notes.met_if(self.skip.contains(&0), Rule::SkipListOfInfo);
            return self.info(&mut body, width);
        }
        if self.skip.contains(&number) {
            self.notes.met(Rule::Skipped);
            return self.event(&[4, numbers[0], numbers[1], numbers[2], numbers[3]]);
        }
        if self.open.len() >= LIMIT && !self.notes.differs(Difference::DepthLimit) {
            self.notes.met(Rule::TooDeep);
            return Err(Refusal(16, number, 0));
        }
        self.event(&[1, numbers[0], numbers[1], numbers[2], numbers[3]])?;
        self.notes.met(if self.open.is_empty() { Rule::Entered } else { Rule::EnteredDeeper });
        self.open.push(number);
        self.block(&mut body, number, width, false)?;
        self.open.pop();
        Ok(())
    }

    /// "At the end of the bits: the top level ends; a block gives 9."
    fn end_of_bits(&mut self, c: &Cursor, block: &Block) -> Got<()> {
        if block.top {
            self.notes.met(Rule::TopEnds);
            return Ok(());
        }
        if block.number == TOP && self.notes.differs(Difference::NestedTop) {
            return self.event(&[2, block.number]);
        }
        self.notes.met(Rule::MissingEnd);
        self.item = c.end;
        Err(Refusal(9, block.number, 0))
    }

    /// "0: align, end. At top level this ends the walk and the rest is unread." "Leaving a block frees its local room"
    fn end_block(&mut self, c: &mut Cursor, block: &Block) -> Got<()> {
        let (padded, aligned) = (c.at % 32 != 0, c.align());
        self.notes.met_if(aligned.is_err(), Rule::EndCannotAlign);
        aligned?;
        let unread = c.at < c.end;
        self.notes.met_if(padded, Rule::EndPadded);
        self.notes.met_if(block.top, Rule::TopEndBlock);
        self.notes.met_if(unread, if block.top { Rule::TopRestUnread } else { Rule::BodyLeftOver });
        self.notes.met_if(!block.top && !block.local.is_empty(), Rule::LocalFreed);
        self.local -= block.local.len();
        if block.top {
            return Ok(());
        }
        self.notes.met(Rule::EndBlock);
        self.event(&[2, block.number])
    }

    fn define_local(&mut self, c: &mut Cursor, block: &mut Block) -> Got<()> {
        let abbreviation = self.definition(c)?;
        if self.local >= LIMIT && !self.notes.differs(Difference::LocalLimit) {
            self.notes.met(Rule::LocalFull);
            return refuse(17);
        }
        self.local += 1;
        block.local.push(abbreviation);
        self.notes.met(if block.top { Rule::DefinedAtTop } else { Rule::DefinedLocal });
        Ok(())
    }

    fn block(&mut self, c: &mut Cursor, number: u64, width: u64, top: bool) -> Got<()> {
        let own = self.shared.iter().filter(|(owner, _)| *owner == number);
        let shared = own.map(|(_, abbreviation)| abbreviation.clone()).collect();
        let mut block = Block { number, width, top, shared, local: Vec::new() };
        loop {
            self.item = c.at;
            if c.at >= c.end {
                return self.end_of_bits(c, &block);
            }
            let number = self.number(c, block.width);
            self.notes.met_if(number.is_err_and(|refusal| refusal.0 == 2), Rule::MissingNumber);
            match number? {
                0 => return self.end_block(c, &block),
                1 => self.sub_block(c)?,
                2 => self.define_local(c, &mut block)?,
                3 => self.plain_record(c, &block)?,
                number => self.abbreviated_record(c, &block, number)?,
            }
        }
    }
}

/// "Order: 15, then 1, then the walk in stream order."
fn header<'a>(input: &'a [u8], notes: &mut Notes) -> Got<([u64; 6], &'a [u8])> {
    if input.len() > INPUT_LIMIT && !notes.differs(Difference::InputLimit) {
        return refuse(15);
    }
    parse(input, notes)
}

/// The walk of an input, with stores of so many numbers; `ways` are the differences at which it goes the Rust's way.
pub fn walk(input: &[u8], skip: &[u64], events: usize, operands: usize, ways: u32) -> Outcome {
    let mut notes = Notes { ways, ..Notes::default() };
    let (header, stream) = match header(input, &mut notes) {
        Ok(found) => found,
        Err(refusal) => return Outcome { status: refusal.0, notes, ..Outcome::default() },
    };
    let mut walk = Walk {
        skip,
        event_room: events / 8,
        operand_room: operands,
        events: Vec::new(),
        operands: Vec::new(),
        shared: Vec::new(),
        local: 0,
        open: Vec::new(),
        item: 0,
        notes,
    };
    let mut cursor = Cursor { stream, at: 0, end: 8 * stream.len() as u64 };
    match walk.block(&mut cursor, TOP, 2, true) {
        Ok(()) => Outcome { header, events: walk.events, operands: walk.operands, notes: walk.notes, ..Outcome::default() },
        Err(Refusal(status, first, second)) => {
            Outcome { status, place: walk.item, details: [first, second], notes: walk.notes, ..Outcome::default() }
        }
    }
}
