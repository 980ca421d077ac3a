//! Makes a case smaller while something stays true of it.
use crate::check::Case;

struct Shrinker<F> {
    case: Case,
    stays: F,
    changed: bool,
}

impl<F: Fn(&Case) -> bool> Shrinker<F> {
    /// Takes a step if what is to stay true does.
    fn step(&mut self, change: impl FnOnce(&mut Case)) -> bool {
        let mut next = self.case.clone();
        change(&mut next);
        let taken = (self.stays)(&next);
        if taken {
            self.case = next;
            self.changed = true;
        }
        taken
    }

    /// Takes parts of this many bytes out, the last ones first.
    fn cut(&mut self, size: usize) {
        let mut at = self.case.input.len() / size * size;
        while at >= size {
            at -= size;
            if at + size <= self.case.input.len() {
                self.step(|next| _ = next.input.drain(at..at + size));
            }
        }
    }

    /// Makes a byte smaller: zero, or without one of its bits.
    fn lower(&mut self, i: usize) {
        if self.case.input[i] == 0 || self.step(|next| next.input[i] = 0) {
            return;
        }
        for bit in (0..8).rev().filter(|bit| self.case.input[i] >> bit & 1 == 1).collect::<Vec<_>>() {
            self.step(|next| next.input[i] &= !(1 << bit));
        }
    }

    fn pass(&mut self) {
        for i in (0..self.case.skip.len()).rev() {
            self.step(|next| _ = next.skip.remove(i));
        }
        [64, 16, 4, 1].into_iter().for_each(|size| self.cut(size));
        (4..self.case.input.len()).for_each(|i| self.lower(i));
    }
}

/// As small as single steps get it.
pub fn shrink(case: Case, stays: impl Fn(&Case) -> bool) -> Case {
    let mut shrinker = Shrinker { case, stays, changed: true };
    while shrinker.changed {
        shrinker.changed = false;
        shrinker.pass();
    }
    shrinker.case
}
