use std::error::Error;
use std::fmt;

/// Why a log, or an operand, is refused.
///
/// `place` is the bit of the stream where the innermost item being read began; for [`MissingEndBlock`](Self::MissingEndBlock) it is the end of the
/// block. The stream is what stands behind the magic word, in a wrapper behind the second one. Nothing of a refused log is left in the stores.
///
/// ```
/// use gleanrime::{Refusal, walk};
///
/// // Block 8 defines abbreviation 4; the next block, 9, uses it.
/// let log = b"\x42\x43\xc0\xde\x21\x0c\0\0\x01\0\0\0\x0a\x12\0\0\x25\x0c\0\0\x01\0\0\0\x0c\0\0\0";
/// let refusal = walk(log, &[], &mut [0; 64], &mut [0; 8]).unwrap_err();
/// assert_eq!(refusal, Refusal::NoSuchAbbrev { place: 160, abbreviation: 4, block: 9 });
/// assert_eq!((refusal.number(), refusal.name(), refusal.place()), (8, "NoSuchAbbrev", 160));
/// assert_eq!(refusal.to_string(), "refusal 8 at bit 160: block 9 uses abbreviation 4, which was never defined for it");
/// ```
#[derive(Clone, Copy, Debug, PartialEq, Eq, Hash)]
#[non_exhaustive]
#[allow(missing_docs)] // the fields are named as in the table of refusals
pub enum Refusal {
    /// 1: no header: under 4 bytes, or a wrapper that points outside of the input.
    InvalidSignature,
    /// 2: the bits end, in the log or in its block, before the item is complete.
    BufferOverflow { place: u64 },
    /// 3: a number of too many chunks, or a block's width outside 1..32.
    VbrOverflow { place: u64 },
    /// 4: bytes read off a byte boundary; no call of this crate gives it.
    Alignment,
    /// 5: an abbreviation that can't be, or one without a code that is used.
    InvalidAbbrev { place: u64 },
    /// 6: an abbreviation with an array of blobs.
    UnexpectedOperand { place: u64 },
    /// 7: an operand's width outside 1..32.
    AbbrevWidthTooSmall { place: u64, width: u64 },
    /// 8: an abbreviation that is not defined for its block; the block is 0 for BLOCKINFO and [`TOP_LEVEL`](crate::TOP_LEVEL) outside of all blocks.
    NoSuchAbbrev { place: u64, abbreviation: u64, block: u64 },
    /// 9: a block whose bits end without its end mark.
    MissingEndBlock { place: u64, block: u64 },
    /// 10: BLOCKINFO defines or names something before it said for which block.
    MissingSetBid { place: u64 },
    /// 11: a block inside BLOCKINFO.
    NestedBlockInBlockInfo { place: u64 },
    /// 12: a record of BLOCKINFO that is unknown or faulty.
    InvalidBlockInfoRecord { place: u64, code: u64 },
    /// 13: in a log, a letter above 255 in BLOCKINFO. Of a typed operand: it is too large for what was asked for; it has no place then.
    ValueOverflow { place: Option<u64> },
    /// 14: no operand is left in the record; typed operands only.
    EndOfRecord,
    /// 15: more than [`MAX_INPUT`](crate::MAX_INPUT) bytes.
    InputTooLong,
    /// 16: more than [`MAX_OPEN`](crate::MAX_OPEN) blocks open at once; the block is the one that can't be entered.
    TooDeep { place: u64, block: u64 },
    /// 17: more abbreviations, or more operands in one, than there is room for.
    NoAbbreviationRoom { place: u64 },
    /// 18: the event store is full.
    NoEventRoom { place: u64 },
    /// 19: the operand store is full.
    NoOperandRoom { place: u64 },
    /// 20: a block number of 2^32 or more.
    BlockNumberTooLarge { place: u64, number: u64 },
    /// A number that this crate doesn't know: the library is newer.
    Unknown { number: u64, place: u64, first: u64, second: u64 },
}

impl Refusal {
    /// The refusal of a walk, from its number, place and details. A library that is newer than the crate may give [`Unknown`](Self::Unknown).
    ///
    /// ```
    /// use gleanrime::Refusal;
    /// assert_eq!(Refusal::from_numbers(9, 64, 8, 0), Refusal::MissingEndBlock { place: 64, block: 8 });
    /// ```
    pub fn from_numbers(number: u64, place: u64, first: u64, second: u64) -> Self {
        match number {
            1 => Self::InvalidSignature,
            2 => Self::BufferOverflow { place },
            3 => Self::VbrOverflow { place },
            4 => Self::Alignment,
            5 => Self::InvalidAbbrev { place },
            6 => Self::UnexpectedOperand { place },
            7 => Self::AbbrevWidthTooSmall { place, width: first },
            8 => Self::NoSuchAbbrev { place, abbreviation: first, block: second },
            9 => Self::MissingEndBlock { place, block: first },
            10 => Self::MissingSetBid { place },
            11 => Self::NestedBlockInBlockInfo { place },
            12 => Self::InvalidBlockInfoRecord { place, code: first },
            13 => Self::ValueOverflow { place: Some(place) },
            14 => Self::EndOfRecord,
            15 => Self::InputTooLong,
            16 => Self::TooDeep { place, block: first },
            17 => Self::NoAbbreviationRoom { place },
            18 => Self::NoEventRoom { place },
            19 => Self::NoOperandRoom { place },
            20 => Self::BlockNumberTooLarge { place, number: first },
            _ => Self::Unknown { number, place, first, second },
        }
    }

    /// The refusal of a small call, which gives its number alone.
    pub(crate) fn of_call(number: u64) -> Self {
        match number {
            13 => Self::ValueOverflow { place: None },
            _ => Self::from_numbers(number, 0, 0, 0),
        }
    }

    /// Its number, as in c/gleanrime.h.
    pub fn number(&self) -> u64 {
        match *self {
            Self::InvalidSignature => 1,
            Self::BufferOverflow { .. } => 2,
            Self::VbrOverflow { .. } => 3,
            Self::Alignment => 4,
            Self::InvalidAbbrev { .. } => 5,
            Self::UnexpectedOperand { .. } => 6,
            Self::AbbrevWidthTooSmall { .. } => 7,
            Self::NoSuchAbbrev { .. } => 8,
            Self::MissingEndBlock { .. } => 9,
            Self::MissingSetBid { .. } => 10,
            Self::NestedBlockInBlockInfo { .. } => 11,
            Self::InvalidBlockInfoRecord { .. } => 12,
            Self::ValueOverflow { .. } => 13,
            Self::EndOfRecord => 14,
            Self::InputTooLong => 15,
            Self::TooDeep { .. } => 16,
            Self::NoAbbreviationRoom { .. } => 17,
            Self::NoEventRoom { .. } => 18,
            Self::NoOperandRoom { .. } => 19,
            Self::BlockNumberTooLarge { .. } => 20,
            Self::Unknown { number, .. } => number,
        }
    }

    /// Its name, as in the specification.
    ///
    /// ```
    /// use gleanrime::Refusal;
    /// assert_eq!(Refusal::EndOfRecord.name(), "EndOfRecord");
    /// assert_eq!(Refusal::InputTooLong.name(), "input too long");
    /// ```
    pub fn name(&self) -> &'static str {
        match self {
            Self::InvalidSignature => "InvalidSignature",
            Self::BufferOverflow { .. } => "BufferOverflow",
            Self::VbrOverflow { .. } => "VbrOverflow",
            Self::Alignment => "Alignment",
            Self::InvalidAbbrev { .. } => "InvalidAbbrev",
            Self::UnexpectedOperand { .. } => "UnexpectedOperand",
            Self::AbbrevWidthTooSmall { .. } => "AbbrevWidthTooSmall",
            Self::NoSuchAbbrev { .. } => "NoSuchAbbrev",
            Self::MissingEndBlock { .. } => "MissingEndBlock",
            Self::MissingSetBid { .. } => "MissingSetBid",
            Self::NestedBlockInBlockInfo { .. } => "NestedBlockInBlockInfo",
            Self::InvalidBlockInfoRecord { .. } => "InvalidBlockInfoRecord",
            Self::ValueOverflow { .. } => "ValueOverflow",
            Self::EndOfRecord => "EndOfRecord",
            Self::InputTooLong => "input too long",
            Self::TooDeep { .. } => "too deep",
            Self::NoAbbreviationRoom { .. } => "no room: abbreviation",
            Self::NoEventRoom { .. } => "no room: event",
            Self::NoOperandRoom { .. } => "no room: operand",
            Self::BlockNumberTooLarge { .. } => "block number too large",
            Self::Unknown { .. } => "unknown",
        }
    }

    /// Its place, a bit of the stream; 0 for a refusal that has none.
    pub fn place(&self) -> u64 {
        self.bit().unwrap_or(0)
    }

    fn bit(&self) -> Option<u64> {
        match *self {
            Self::InvalidSignature | Self::Alignment | Self::EndOfRecord | Self::InputTooLong => None,
            Self::ValueOverflow { place } => place,
            Self::BufferOverflow { place }
            | Self::VbrOverflow { place }
            | Self::InvalidAbbrev { place }
            | Self::UnexpectedOperand { place }
            | Self::AbbrevWidthTooSmall { place, .. }
            | Self::NoSuchAbbrev { place, .. }
            | Self::MissingEndBlock { place, .. }
            | Self::MissingSetBid { place }
            | Self::NestedBlockInBlockInfo { place }
            | Self::InvalidBlockInfoRecord { place, .. }
            | Self::TooDeep { place, .. }
            | Self::NoAbbreviationRoom { place }
            | Self::NoEventRoom { place }
            | Self::NoOperandRoom { place }
            | Self::BlockNumberTooLarge { place, .. }
            | Self::Unknown { place, .. } => Some(place),
        }
    }

    /// Its first and second detail; 0 where it has none.
    ///
    /// ```
    /// use gleanrime::Refusal;
    /// assert_eq!(Refusal::NoSuchAbbrev { place: 160, abbreviation: 4, block: 9 }.details(), [4, 9]);
    /// ```
    pub fn details(&self) -> [u64; 2] {
        match *self {
            Self::AbbrevWidthTooSmall { width, .. } => [width, 0],
            Self::NoSuchAbbrev { abbreviation, block, .. } => [abbreviation, block],
            Self::MissingEndBlock { block, .. } | Self::TooDeep { block, .. } => [block, 0],
            Self::InvalidBlockInfoRecord { code, .. } => [code, 0],
            Self::BlockNumberTooLarge { number, .. } => [number, 0],
            Self::Unknown { first, second, .. } => [first, second],
            _ => [0, 0],
        }
    }
}

impl fmt::Display for Refusal {
    fn fmt(&self, f: &mut fmt::Formatter<'_>) -> fmt::Result {
        write!(f, "refusal {}", self.number())?;
        if let Some(bit) = self.bit() {
            write!(f, " at bit {bit}")?;
        }
        f.write_str(": ")?;
        match *self {
            Self::InvalidSignature => write!(f, "this is no log: its header is missing, cut short or points outside of it"),
            Self::BufferOverflow { .. } => write!(f, "the log, or the block here, is cut short"),
            Self::VbrOverflow { .. } => write!(f, "a number is too long here, or the block's width is not 1 to 32"),
            Self::Alignment => write!(f, "bytes were asked for that begin inside of a byte"),
            Self::InvalidAbbrev { .. } => write!(f, "an abbreviation is defined in a way that can't be, or used without having a code"),
            Self::UnexpectedOperand { .. } => write!(f, "an abbreviation is defined with an array of blobs"),
            Self::AbbrevWidthTooSmall { width, .. } => write!(f, "an abbreviation is defined with an operand of {width} bits; it must have 1 to 32"),
            Self::NoSuchAbbrev { abbreviation, block: 0, .. } => write!(f, "BLOCKINFO uses abbreviation {abbreviation}; it can't use any"),
            Self::NoSuchAbbrev { abbreviation, block: crate::TOP_LEVEL, .. } => {
                write!(f, "the top level uses abbreviation {abbreviation}, which was never defined for it")
            }
            Self::NoSuchAbbrev { abbreviation, block, .. } => {
                write!(f, "block {block} uses abbreviation {abbreviation}, which was never defined for it")
            }
            Self::MissingEndBlock { block, .. } => write!(f, "block {block} ends here without its end mark"),
            Self::MissingSetBid { .. } => write!(f, "BLOCKINFO defines or names something before it says for which block"),
            Self::NestedBlockInBlockInfo { .. } => write!(f, "BLOCKINFO has a block inside; it can't have any"),
            Self::InvalidBlockInfoRecord { code, .. } => write!(f, "BLOCKINFO has a record of code {code}, which is unknown or faulty"),
            Self::ValueOverflow { place: Some(_) } => write!(f, "BLOCKINFO has a name with a letter above 255"),
            Self::ValueOverflow { place: None } => write!(f, "the operand is too large for what was asked for"),
            Self::EndOfRecord => write!(f, "the record has no operand left"),
            Self::InputTooLong => write!(f, "the log is longer than {} bytes", crate::MAX_INPUT),
            Self::TooDeep { block, .. } => {
                write!(f, "block {block} can't be entered: {} blocks are open around it, and no more can be", crate::MAX_OPEN)
            }
            Self::NoAbbreviationRoom { .. } => write!(f, "there is no room for this abbreviation"),
            Self::NoEventRoom { .. } => write!(f, "the event store is full; lend a larger one"),
            Self::NoOperandRoom { .. } => write!(f, "the operand store is full; lend a larger one"),
            Self::BlockNumberTooLarge { number, .. } => write!(f, "block number {number} is too large; the last one is 4294967295"),
            Self::Unknown { first, second, .. } => write!(f, "unknown here; its details are {first} and {second}"),
        }
    }
}

impl Error for Refusal {}
