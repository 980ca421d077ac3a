//! What a walk by 01's rules notes on its way: which differences of 01's list it came to, and which rules it met.

/// The differences of 01's list "Where we leave the Rust" that a walk can meet, but for want of memory or stack, which only a run shows.
#[derive(Clone, Copy, Debug, PartialEq)]
pub enum Difference {
    BlockNumber,
    BlockWidth,
    OperandWidth,
    Shift64,
    NestedTop,
    Payload,
    OpenShared,
    InputLimit,
    DepthLimit,
    OperandsLimit,
    SharedLimit,
    LocalLimit,
    EventLimit,
    OperandLimit,
}

impl Difference {
    pub const ALL: [(Difference, &str); 14] = [
        (Difference::BlockNumber, "block number of 2^32 and above"),
        (Difference::BlockWidth, "block width above 32"),
        (Difference::OperandWidth, "operand width above 255"),
        (Difference::Shift64, "VBR chunk at shift 64"),
        (Difference::NestedTop, "nested block 4294967295 without END_BLOCK"),
        (Difference::Payload, "failing payload"),
        (Difference::OpenShared, "BLOCKINFO adding to a number that is open, or to 4294967295"),
        (Difference::InputLimit, "limit: length of the input (15)"),
        (Difference::DepthLimit, "limit: open blocks (16)"),
        (Difference::OperandsLimit, "limit: operands of an abbreviation (17)"),
        (Difference::SharedLimit, "limit: shared abbreviations (17)"),
        (Difference::LocalLimit, "limit: local abbreviations (17)"),
        (Difference::EventLimit, "limit: event store (18)"),
        (Difference::OperandLimit, "limit: operand store (19)"),
    ];

    pub fn bit(self) -> u32 {
        1 << self as u32
    }
}

/// The Rust's way at every difference.
pub const RUSTS: u32 = (1 << Difference::ALL.len()) - 1;

// What a walk can meet: by these inputs are chosen for the list, and a run's reach is judged.
macro_rules! rules {
    ($($name:ident),* $(,)?) => {
        #[derive(Clone, Copy, Debug, PartialEq)]
        pub enum Rule { $($name),* }

        impl Rule {
            const NAMES: &[&str] = &[$(stringify!($name)),*];
        }
    };
}

rules! {
    HeaderShort, HeaderPlain, WrapperShort, WrapperOutside, Wrapped, WrapperLowOffset,
    VbrOverflow, VbrDropsBits, VbrOfChunks, VbrOverlong,
    TopEnds, TopEndBlock, TopRestUnread, MissingEnd, MissingNumber, BadWidth,
    EndBlock, EndPadded, EndCannotAlign, BodyLeftOver, LocalFreed,
    HeadCut, NumberTooLarge, BodyTooLong, EmptyBody, Entered, EnteredDeeper, Skipped, SkipListOfInfo, TooDeep, InfoRead, InfoReadInside,
    DefinedLocal, DefinedAtTop, DefinedNothing, DefinedPayloadOnly, TooManyOperands, LocalFull, SharedFull, DefinitionCut,
    LiteralDefined, FixedDefined, VbrDefined, Char6Defined, ArrayDefined, BlobDefined,
    WidthTooSmall, WidthTooLarge, ArrayMisplaced, BlobMisplaced, UnknownKind, ElementOfArray, ElementOfBlob,
    LiteralElement, FixedElement, VbrElement, Char6Element,
    PlainRecord, PlainNoOperands, PlainCut, TopRecord, EventFull, OperandFull,
    UsedShared, UsedLocal, UsedLocalBehindShared, NoSuchAbbrev, NoScalar, CodeLiteral, CodeFixed, CodeVbr, CodeChar6, CodeCut,
    LiteralOperand, FixedOperand, VbrOperand, Char6Operand, OperandCut,
    EmptyArray, Array, EmptyLetters, Letters, EmptyBlob, Blob, BlobPadded, PayloadCut, BlobCut,
    InfoEnd, InfoCut, InfoNested, InfoNumber, InfoDefined, InfoDefinedBelow, InfoNoSetBid, InfoNoSetBidName,
    InfoCode, SetBid, SetBidAgain, SetBidZero, SetBidCount, SetBidUnreadable, SetBidTooLarge,
    BlockName, RecordName, RecordNameBare, RecordNameUnreadable, NameCut, NameLetter,
}

/// How many they are.
pub const RULES: u32 = Rule::NAMES.len() as u32;
const _: () = assert!(RULES <= 128);

impl Rule {
    pub fn name(rule: u32) -> &'static str {
        Self::NAMES[rule as usize]
    }
}

/// What a walk notes: the differences that it came to, the rules that it met, and the widths of the operands that it read, 32 fixed ones and 32 of VBR;
/// and at which differences it goes the Rust's way.
#[derive(Clone, Copy, Default)]
pub struct Notes {
    pub ways: u32,
    pub left: u32,
    pub rules: u128,
    pub widths: u64,
}

impl Notes {
    /// A difference is met: whether the Rust's way is to be gone.
    pub fn differs(&mut self, difference: Difference) -> bool {
        self.left |= difference.bit();
        self.ways & difference.bit() != 0
    }

    pub fn met(&mut self, rule: Rule) {
        self.rules |= 1 << rule as u32;
    }

    pub fn met_if(&mut self, condition: bool, rule: Rule) {
        if condition {
            self.met(rule);
        }
    }
}
