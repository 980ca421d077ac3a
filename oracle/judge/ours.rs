//! Our static library, called as C would call it.
use crate::answer::{Answer, Sheet};
use sys::c::gleanrime_walk;

#[allow(dead_code)]
#[path = "../../rust/src/sys.rs"]
mod sys;

const EVENT_SIZE: usize = 8;

/// What stands in the stores before a walk: no walk may leave it behind.
const STAIN: u64 = u64::MAX;

/// What a walk leaves: the twelve numbers that it tells (status, place, two details, six header numbers, how many events and operands), and both stores.
#[derive(Clone, Debug, Default, PartialEq)]
pub struct Left {
    pub told: [u64; 12],
    pub events: Vec<u64>,
    pub operands: Vec<u64>,
}

impl Left {
    /// Walks an input into stores of so many numbers. The same `Left` can be used again and again.
    pub fn walk(&mut self, input: &[u8], skip: &[u64], events: usize, operands: usize) {
        self.events.clear();
        self.events.resize(events, STAIN);
        self.operands.clear();
        self.operands.resize(operands, STAIN);
        self.told = [STAIN; 12];
        // SAFETY: each slice goes as its address and its length, and none of those that are written overlaps another
        let status = unsafe {
            gleanrime_walk(
                input.as_ptr(),
                input.len(),
                skip.as_ptr(),
                skip.len(),
                self.events.as_mut_ptr(),
                events,
                self.operands.as_mut_ptr(),
                operands,
                self.told.as_mut_ptr(),
                self.told.len(),
            )
        };
        assert_eq!(status, self.told[0], "the status that is returned is the one that is told");
    }

    /// The answer, as far as the Rust tells one.
    pub fn answer(&self, input: &[u8]) -> Answer {
        let entries = self.events.chunks_exact(EVENT_SIZE).take(self.told[10] as usize);
        Sheet { told: self.told, operands: &self.operands, input }.answer(entries)
    }
}
