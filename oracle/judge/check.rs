//! One input, held against everything: our library against 01's rules, the Rust against ours in the stated domain, and outside of it against the list.
use crate::answer::{Answer, commas, hex};
use crate::apart::{End, guarded};
use crate::notes::{Difference, RUSTS};
use crate::ours::Left;
use crate::rules::{self, Outcome};
use crate::theirs;

/// An input, the block numbers to skip, and how many numbers each store has.
#[derive(Clone, Debug)]
pub struct Case {
    pub input: Vec<u8>,
    pub skip: Vec<u64>,
    pub events: usize,
    pub operands: usize,
}

impl Case {
    /// The block numbers to skip with commas between them, `-` for none.
    pub fn skip_text(&self) -> String {
        if self.skip.is_empty() { "-".into() } else { commas(&self.skip) }
    }

    /// The input in hex digits, `-` for none.
    pub fn input_text(&self) -> String {
        if self.input.is_empty() { "-".into() } else { hex(&self.input) }
    }
}

/// How a case came out.
#[derive(Debug)]
pub enum Verdict {
    /// In the stated domain, and the same.
    Same,
    /// Outside of it, by these differences; the Rust's answer is what the list says.
    Listed(u32),
    /// The Rust had no memory.
    NoMemory,
    Fault(String),
}

/// What is wrong on purpose, to see that the judge finds faults: differences that are not on the list, or not turned the Rust's way; a refusal that the
/// Rust names wrongly; a place of ours that is off by a bit, or a number that ours leaves in its last store.
#[derive(Clone, Copy, Default)]
pub struct Spoiled {
    pub missing: u32,
    pub unturned: u32,
    pub misnamed: bool,
    pub misplaced: bool,
    pub stained: bool,
}

impl Spoiled {
    /// Spoils what our library left.
    fn spoil(self, left: &mut Left) {
        left.told[1] += u64::from(self.misplaced && left.told[0] == 9);
        if let (true, Some(last)) = (self.stained, left.operands.last_mut()) {
            *last += 1;
        }
    }
}

/// Whether our library left exactly what the rules say, to the last number of both stores.
fn ours_is_as_ruled(left: &Left, ruled: &Outcome, case: &Case) -> bool {
    let (e, o) = (8 * ruled.events.len(), ruled.operands.len());
    left.told == ruled.told()
        && left.events.len() == case.events
        && left.operands.len() == case.operands
        && left.events[..e].iter().eq(ruled.events.iter().flatten())
        && left.operands[..o] == ruled.operands
        && left.events[e..].iter().chain(&left.operands[o..]).all(|&number| number == 0)
}

/// Our library's answer, if it is as 01's rules have it; and what the rules noted.
pub fn ours(case: &Case, left: &mut Left, spoiled: Spoiled) -> Result<Outcome, String> {
    let ruled = rules::walk(&case.input, &case.skip, case.events, case.operands, 0);
    left.walk(&case.input, &case.skip, case.events, case.operands);
    spoiled.spoil(left);
    if ours_is_as_ruled(left, &ruled, case) {
        return Ok(ruled);
    }
    Err(format!("ours is not as 01's rules have it\n  ours  {:?}\n  rules {:?}", left.told, ruled.told()))
}

/// What the Rust says by its visitor and by its iterators.
pub struct Theirs {
    pub visited: Answer,
    pub iterated: Answer,
}

pub fn theirs(case: &Case) -> Result<Theirs, End> {
    guarded(|| Theirs { visited: theirs::visited(&case.input, &case.skip), iterated: theirs::iterated(&case.input, &case.skip, false) })
}

fn differ(what: &str, expected: &Answer, found: &Answer) -> Result<(), String> {
    if expected == found {
        return Ok(());
    }
    Err(format!("{what}\n  expected {expected}\n  the Rust {found}"))
}

/// The Rust's two answers against those that are expected of it.
fn hold(theirs: Theirs, visitor: Answer, iterator: Answer, what: &str) -> Result<(), String> {
    differ(&format!("{what}, by the visitor"), &visitor.without_widths(), &theirs.visited)?;
    differ(&format!("{what}, by the iterators"), &iterator, &theirs.iterated)
}

/// The Rust's answers where differences were met: by the rules with the Rust's way gone at each. Its iterators don't hide a payload that fails.
fn hold_listed(case: &Case, theirs: Theirs, spoiled: Spoiled) -> Result<(), String> {
    let answer = |ways: u32| rules::walk(&case.input, &case.skip, case.events, case.operands, ways & !spoiled.unturned).answer(&case.input);
    hold(theirs, answer(RUSTS), answer(RUSTS & !Difference::Payload.bit()), "outside of the stated domain, and not as listed")
}

/// How a case came out, once ours was found to be as ruled and the Rust was asked.
pub fn verdict(case: &Case, left: &Left, ruled: &Outcome, theirs: Result<Theirs, End>, spoiled: Spoiled) -> Verdict {
    let mut theirs = match theirs {
        Ok(theirs) => theirs,
        Err(End::Memory) => return Verdict::NoMemory,
        Err(_) => return Verdict::Fault("the Rust panics, and not for want of memory".into()),
    };
    if let (true, Answer::Refused { number, .. }) = (spoiled.misnamed, &mut theirs.visited) {
        *number += u64::from(*number == 12);
    }
    let met = ruled.notes.left & !spoiled.missing;
    let held = if met == 0 {
        let answer = left.answer(&case.input);
        hold(theirs, answer.clone(), answer, "in the stated domain")
    } else {
        hold_listed(case, theirs, spoiled)
    };
    match held {
        Err(fault) => Verdict::Fault(fault),
        Ok(()) if met == 0 => Verdict::Same,
        Ok(()) => Verdict::Listed(met),
    }
}
