//! The root of the Rust crate llvm-bitcode-rs for the judge: its five files of the container reader, as they stand, without `schema`. The script
//! `oracle/run` puts them beside this file.
pub mod bitcode;
pub mod bits;
pub mod bitstream;
pub mod read;
pub mod visitor;

pub use self::{bitcode::Bitcode, bits::Cursor, read::BitStreamReader, visitor::BitStreamVisitor};

/// The calls that are private to the crate, and that the judge asks one by one.
pub mod inner {
    use crate::bitcode::RecordIter;
    use crate::bits::{self, Cursor};
    use crate::read;

    pub fn take_slice<'a>(cursor: &mut Cursor<'a>, bytes: usize) -> Result<Cursor<'a>, bits::Error> {
        cursor.take_slice(bytes)
    }

    /// A record with no abbreviation, for its typed operands.
    pub fn record<'c, 'a>(cursor: &'c mut Cursor<'a>) -> Result<RecordIter<'c, 'a>, read::Error> {
        RecordIter::from_cursor(cursor)
    }
}
