use crate::{Event, Header, Log, Record, Refusal};

/// What is shown of a log, call by call: the four calls of llvm-bitcode-rs's `BitStreamVisitor`.
///
/// The whole log is walked and accepted before the first call, so a visitor never sees a part of a refused log. Hence a difference:
/// `should_enter_block` decides what is shown, not what is read, and a fault in a block that you don't enter refuses the log all the same. To leave
/// bodies unread, give their numbers to [`Stores::read`](crate::Stores::read) or [`walk`](crate::walk); such blocks are not asked about.
///
/// ```
/// use gleanrime::{Record, Refusal, Stores, Visitor};
///
/// #[derive(Default)]
/// struct Casings(u64);
///
/// impl Visitor for Casings {
///     fn should_enter_block(&mut self, block: u64) -> bool {
///         self.0 += u64::from(block == 8);
///         block == 8
///     }
///     fn visit(&mut self, _block: u64, record: Record<'_>) {
///         println!("record {}", record.code);
///     }
/// }
///
/// let log = b"\x42\x43\xc0\xde\x21\x0c\0\0\x01\0\0\0\x0b\x02\x01\0";
/// let mut casings = Casings::default();
/// Stores::new().read(log, &[])?.visit(&mut casings)?;
/// assert_eq!(casings.0, 1);
/// # Ok::<(), Refusal>(())
/// ```
pub trait Visitor {
    /// Whether this header is one that you take. If not, the log is refused with [`Refusal::InvalidSignature`] and nothing more is shown.
    fn validate(&self, _header: Header) -> bool {
        true
    }

    /// Whether the records and blocks of this block are to be shown.
    fn should_enter_block(&mut self, _block: u64) -> bool {
        true
    }

    /// A block that was entered ends.
    fn did_exit_block(&mut self, _block: u64) {}

    /// A record, and the number of the block that it stands in.
    fn visit(&mut self, block: u64, record: Record<'_>);
}

/// Shows a log to a visitor.
pub(crate) fn show<V: Visitor>(log: &Log<'_>, visitor: &mut V) -> Result<(), Refusal> {
    if !visitor.validate(log.header()) {
        return Err(Refusal::InvalidSignature);
    }
    let mut events = log.events();
    while let Some(event) = events.next() {
        match event {
            Event::Enter { block, .. } => {
                if !visitor.should_enter_block(block) {
                    events.pass_over();
                }
            }
            Event::Leave { block } => visitor.did_exit_block(block),
            Event::Record(record) => visitor.visit(record.block, record),
            Event::Skip { .. } => {}
        }
    }
    Ok(())
}
