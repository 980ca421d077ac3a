//! A proved reader of the LLVM bitstream container: blocks with records in them. A retreading works logs its shifts so, one block (number 8) for
//! each casing.
//!
//! The reader is a static library, written in Rattle and proved: any bytes at all give the events that the format's definition says, or a numbered
//! [`Refusal`] with its place. This crate calls it, safely and with no dependency.
//!
//! - [`Stores::read`] reads a log in one call, and grows its stores as needed. Start there.
//! - [`walk`] is the same into stores that you lend, and allocates nothing. It takes less than 56 KiB of stack.
//! - [`Events`] iterates over what was met: [`Event`], [`Record`], [`Payload`].
//! - [`Record::typed`] takes operands as `u8`, `bool`, `i64` and so on.
//! - [`Visitor`] is there for those who come from llvm-bitcode-rs, as is the page docs/COMING-FROM-LLVM-BITCODE-RS.md.
//!
//! ```
//! use gleanrime::{Event, Stores};
//!
//! // A casing with one record: code 1 and the operand 2.
//! let bytes = b"\x42\x43\xc0\xde\x21\x0c\0\0\x01\0\0\0\x0b\x02\x01\0";
//! let mut stores = Stores::new();
//! let log = stores.read(bytes, &[])?;
//! let mut repairs = 0;
//! for event in log.events() {
//!     match event {
//!         Event::Record(record) if record.block == 8 && record.code == 1 => repairs += record.typed().u64()?,
//!         _ => {}
//!     }
//! }
//! assert_eq!(repairs, 2);
//!
//! // A log that is cut short is refused, and the refusal says where.
//! let refusal = stores.read(&bytes[..15], &[]).unwrap_err();
//! assert_eq!(refusal.to_string(), "refusal 2 at bit 0: the log, or the block here, is cut short");
//! # Ok::<(), gleanrime::Refusal>(())
//! ```
#![deny(missing_docs, unsafe_op_in_unsafe_fn)]

mod event;
mod log;
mod operands;
mod refusal;
mod stores;
mod sys;
mod visitor;

pub use event::{EVENT_SIZE, Event, Events, Letters, Payload, Record};
pub use log::{Header, Log, WRAPPER_MAGIC, header, walk};
pub use operands::Operands;
pub use refusal::Refusal;
pub use stores::Stores;
pub use visitor::Visitor;

/// The block number that records at the top level carry. (A nested block may have this number too.)
pub const TOP_LEVEL: u64 = 4_294_967_295;

/// The most bytes that a log may have.
pub const MAX_INPUT: usize = 16_777_216;

/// The most blocks that may be open at once; the top level isn't one.
pub const MAX_OPEN: usize = 32;

/// The most operands of one abbreviation, the element of an array included.
pub const MAX_OPERANDS: usize = 32;

/// The most abbreviations that BLOCKINFO may define, over all block numbers.
pub const MAX_SHARED: usize = 32;

/// The most abbreviations of the open blocks and the top level together; leaving a block frees its own.
pub const MAX_LOCAL: usize = 32;
