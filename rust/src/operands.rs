use crate::{Refusal, sys};
use std::iter::FusedIterator;
use std::ops::Range;

/// Operands of a record, taken one by one as what they should be.
///
/// One that is too large gives [`Refusal::ValueOverflow`], and none left gives [`Refusal::EndOfRecord`]. After a refusal the operand is still there,
/// to be taken as something else. As an iterator it gives the numbers as they are.
///
/// ```
/// use gleanrime::{Operands, Refusal};
///
/// let mut operands = Operands::new(&[300, 1, 5, 10, 4]);
/// assert_eq!(operands.u8(), Err(Refusal::ValueOverflow { place: None }));
/// assert_eq!(operands.u16(), Ok(300));
/// assert_eq!(operands.bool(), Ok(true));
/// assert_eq!(operands.i64(), Ok(-2));
/// assert_eq!(operands.range(), Ok(10..14));
/// assert_eq!(operands.u64(), Err(Refusal::EndOfRecord));
/// ```
#[derive(Clone, Debug, PartialEq, Eq)]
pub struct Operands<'a> {
    rest: &'a [u64],
}

impl<'a> Operands<'a> {
    /// Over these numbers. [`Record::typed`](crate::Record::typed) makes them of a record's operands.
    pub fn new(operands: &'a [u64]) -> Self {
        Self { rest: operands }
    }

    /// Those that are not yet taken.
    pub fn rest(&self) -> &'a [u64] {
        self.rest
    }

    /// Whether none is left.
    pub fn is_empty(&self) -> bool {
        self.rest.is_empty()
    }

    /// The value of a call that took so many operands, or its refusal.
    fn taken<T>(&mut self, status: u64, count: usize, value: T) -> Result<T, Refusal> {
        if status != 0 {
            return Err(Refusal::of_call(status));
        }
        self.rest = self.rest.get(count..).unwrap_or(&[]);
        Ok(value)
    }

    fn unsigned(&mut self, bits: u64) -> Result<u64, Refusal> {
        let (status, value) = sys::unsigned(self.rest, bits);
        self.taken(status, 1, value)
    }

    /// One below 2^8.
    ///
    /// ```
    /// use gleanrime::Operands;
    /// assert_eq!(Operands::new(&[255]).u8(), Ok(255));
    /// assert!(Operands::new(&[256]).u8().is_err());
    /// ```
    pub fn u8(&mut self) -> Result<u8, Refusal> {
        self.unsigned(8).map(|value| value as u8)
    }

    /// One below 2^16.
    ///
    /// ```
    /// use gleanrime::Operands;
    /// assert_eq!(Operands::new(&[65_535]).u16(), Ok(65_535));
    /// assert!(Operands::new(&[65_536]).u16().is_err());
    /// ```
    pub fn u16(&mut self) -> Result<u16, Refusal> {
        self.unsigned(16).map(|value| value as u16)
    }

    /// One below 2^32.
    ///
    /// ```
    /// use gleanrime::Operands;
    /// assert_eq!(Operands::new(&[4_294_967_295]).u32(), Ok(4_294_967_295));
    /// assert!(Operands::new(&[4_294_967_296]).u32().is_err());
    /// ```
    pub fn u32(&mut self) -> Result<u32, Refusal> {
        self.unsigned(32).map(|value| value as u32)
    }

    /// Any number.
    ///
    /// ```
    /// use gleanrime::Operands;
    /// assert_eq!(Operands::new(&[u64::MAX]).u64(), Ok(u64::MAX));
    /// assert!(Operands::new(&[]).u64().is_err());
    /// ```
    pub fn u64(&mut self) -> Result<u64, Refusal> {
        self.unsigned(64)
    }

    /// 0 or 1.
    ///
    /// ```
    /// use gleanrime::Operands;
    /// assert_eq!(Operands::new(&[1]).bool(), Ok(true));
    /// assert!(Operands::new(&[2]).bool().is_err());
    /// ```
    pub fn bool(&mut self) -> Result<bool, Refusal> {
        self.unsigned(1).map(|value| value == 1)
    }

    /// A signed number: its lowest bit is the sign.
    ///
    /// ```
    /// use gleanrime::Operands;
    /// assert_eq!(Operands::new(&[6]).i64(), Ok(3));
    /// assert_eq!(Operands::new(&[7]).i64(), Ok(-3));
    /// assert_eq!(Operands::new(&[1]).i64(), Ok(i64::MIN));
    /// ```
    pub fn i64(&mut self) -> Result<i64, Refusal> {
        let (status, value) = sys::signed(self.rest);
        self.taken(status, 1, value)
    }

    /// Two: a start and a length, as the start and the end behind it. Their sum must be below 2^64. A refusal takes neither.
    ///
    /// ```
    /// use gleanrime::Operands;
    /// assert_eq!(Operands::new(&[10, 4]).range(), Ok(10..14));
    /// assert!(Operands::new(&[10]).range().is_err());
    /// ```
    pub fn range(&mut self) -> Result<Range<u64>, Refusal> {
        let (status, start, end) = sys::range(self.rest);
        self.taken(status, 2, start..end)
    }
}

impl Iterator for Operands<'_> {
    type Item = u64;

    fn next(&mut self) -> Option<u64> {
        let (&first, rest) = self.rest.split_first()?;
        self.rest = rest;
        Some(first)
    }

    fn size_hint(&self) -> (usize, Option<usize>) {
        (self.rest.len(), Some(self.rest.len()))
    }
}

impl ExactSizeIterator for Operands<'_> {}
impl FusedIterator for Operands<'_> {}
