//! What a reader answers, as far as the Rust tells it, and its notation in one line. Bit places, and places and lengths of bodies, are left out.
//!
//! ```text
//! refused:   NUMBER FIRST SECOND                       the refusal's number and its two details
//! accepted:  0 MAGIC MAGIC2 VERSION OFFSET SIZE CPU    and, each behind a blank, the events:
//!   enter    +BLOCK/WIDTH
//!   leave    -BLOCK
//!   record   =BLOCK,CODE,OPERAND,..    then its payload: nothing, a1,2,3 for an array, c97,98 for letters, b00ff for a blob
//!   skip     ~BLOCK
//! ended:     ends                                      the reader's process ended
//! ```
use crate::stream::WRAPPER;
use std::fmt;

#[derive(Clone, Debug, PartialEq)]
pub enum Payload {
    None,
    Array(Vec<u64>),
    Char6(Vec<u64>),
    Blob(Vec<u8>),
}

#[derive(Clone, Debug, PartialEq)]
pub enum Event {
    Enter { block: u64, width: u64 },
    Leave(u64),
    Record { block: u64, code: u64, operands: Vec<u64>, payload: Payload },
    Skip(u64),
}

#[derive(Clone, Debug, PartialEq)]
pub enum Answer {
    Refused { number: u64, first: u64, second: u64 },
    Accepted { header: [u64; 6], events: Vec<Event> },
    Ended,
}

impl Answer {
    pub fn refused(number: u64, first: u64, second: u64) -> Self {
        Self::Refused { number, first, second }
    }

    /// The same with no width told: the Rust's visitor isn't told any.
    pub fn without_widths(mut self) -> Self {
        if let Self::Accepted { events, .. } = &mut self {
            for event in events {
                if let Event::Enter { width, .. } = event {
                    *width = 0;
                }
            }
        }
        self
    }
}

/// What a walk left, read off as a caller would: its twelve numbers, the numbers of its events, the operand store and the input.
pub struct Sheet<'a> {
    pub told: [u64; 12],
    pub operands: &'a [u64],
    pub input: &'a [u8],
}

impl Sheet<'_> {
    fn header(&self) -> [u64; 6] {
        self.told[4..10].try_into().unwrap()
    }

    /// The bytes behind the header: a blob's place counts from there.
    fn stream(&self) -> &[u8] {
        let [magic, _, _, offset, size, _] = self.header();
        if magic == WRAPPER { &self.input[offset as usize + 4..(offset + size) as usize] } else { &self.input[4..] }
    }

    fn numbers(&self, place: u64, count: u64) -> Vec<u64> {
        self.operands[place as usize..(place + count) as usize].to_vec()
    }

    fn payload(&self, kind: u64, place: u64, length: u64) -> Payload {
        match kind {
            0 => Payload::None,
            1 => Payload::Array(self.numbers(place, length)),
            2 => Payload::Char6(self.numbers(place, length)),
            3 => Payload::Blob(self.stream()[place as usize..(place + length) as usize].to_vec()),
            _ => panic!("payload kind {kind}"),
        }
    }

    fn event(&self, e: &[u64]) -> Event {
        let block = e[1];
        match e[0] {
            1 => Event::Enter { block, width: e[2] },
            2 => Event::Leave(block),
            3 => Event::Record { block, code: e[2], operands: self.numbers(e[3], e[4]), payload: self.payload(e[5], e[6], e[7]) },
            4 => Event::Skip(block),
            kind => panic!("event kind {kind}"),
        }
    }

    /// The answer, as far as the Rust tells one; `events` are the numbers of all events.
    pub fn answer<'e>(&self, events: impl Iterator<Item = &'e [u64]>) -> Answer {
        match self.told[0] {
            0 => Answer::Accepted { header: self.header(), events: events.map(|entry| self.event(entry)).collect() },
            number => Answer::refused(number, self.told[2], self.told[3]),
        }
    }
}

/// Numbers with commas between them.
pub fn commas(numbers: &[u64]) -> String {
    numbers.iter().map(u64::to_string).collect::<Vec<_>>().join(",")
}

pub fn hex(bytes: &[u8]) -> String {
    bytes.iter().map(|byte| format!("{byte:02x}")).collect()
}

/// The bytes that hex digits stand for, `-` being none.
pub fn bytes_of(word: &str) -> Option<Vec<u8>> {
    if word == "-" {
        return Some(Vec::new());
    }
    if word.is_empty() || word.len() % 2 != 0 || !word.is_ascii() {
        return None;
    }
    (0..word.len()).step_by(2).map(|i| u8::from_str_radix(&word[i..i + 2], 16).ok()).collect()
}

impl fmt::Display for Payload {
    fn fmt(&self, f: &mut fmt::Formatter<'_>) -> fmt::Result {
        match self {
            Self::None => Ok(()),
            Self::Array(elements) => write!(f, "a{}", commas(elements)),
            Self::Char6(letters) => write!(f, "c{}", commas(letters)),
            Self::Blob(bytes) => write!(f, "b{}", hex(bytes)),
        }
    }
}

impl fmt::Display for Event {
    fn fmt(&self, f: &mut fmt::Formatter<'_>) -> fmt::Result {
        match self {
            Self::Enter { block, width } => write!(f, "+{block}/{width}"),
            Self::Leave(block) => write!(f, "-{block}"),
            Self::Record { block, code, operands, payload } => {
                write!(f, "={block},{code}")?;
                operands.iter().try_for_each(|operand| write!(f, ",{operand}"))?;
                write!(f, "{payload}")
            }
            Self::Skip(block) => write!(f, "~{block}"),
        }
    }
}

impl fmt::Display for Answer {
    fn fmt(&self, f: &mut fmt::Formatter<'_>) -> fmt::Result {
        match self {
            Self::Refused { number, first, second } => write!(f, "{number} {first} {second}"),
            Self::Accepted { header, events } => {
                write!(f, "0")?;
                header.iter().try_for_each(|number| write!(f, " {number}"))?;
                events.iter().try_for_each(|event| write!(f, " {event}"))
            }
            Self::Ended => write!(f, "ends"),
        }
    }
}
