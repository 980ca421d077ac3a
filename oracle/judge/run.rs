//! A run: the copies of the process, the counts, and what a run must have met.
use crate::apart::{self, End, Page};
use crate::check::{self, Case, Spoiled, Verdict};
use crate::notes::{Difference, RULES, Rule};
use crate::ours::Left;
use std::sync::atomic::Ordering::Relaxed;

const COPIES: u64 = 2;
const STATUSES: usize = 21;

// The words of a copy's page: where it is, and what it has counted.
const NEXT: usize = 0;
const IN_RUST: usize = 1;
const FAULTY: usize = 2;
const SAME: usize = 3;
const LISTED: usize = 4;
const NO_MEMORY: usize = 5;
const NO_STACK: usize = 6;
const RULES_LOW: usize = 7;
const RULES_HIGH: usize = 8;
const STATUS: usize = 9;
const STATUS_SAME: usize = STATUS + STATUSES;
const LEFT: usize = STATUS_SAME + STATUSES;
const WORDS: usize = LEFT + Difference::ALL.len();

/// Inputs by number; a copy takes every second one.
pub struct Inputs<'a> {
    pub count: u64,
    pub case: &'a dyn Fn(u64) -> Case,
}

/// What was counted over all copies.
pub struct Counts {
    words: [u64; WORDS],
    pub faulty: Option<u64>,
}

fn bump(page: &Page, word: usize) {
    page.word(word).fetch_add(1, Relaxed);
}

/// Holds one input against everything, and counts it; whether there was no fault.
fn judge(page: &Page, case: &Case, left: &mut Left, spoiled: Spoiled) -> bool {
    let Ok(ruled) = check::ours(case, left, spoiled) else {
        return false;
    };
    page.word(RULES_LOW).fetch_or(ruled.notes.rules as u64, Relaxed);
    page.word(RULES_HIGH).fetch_or((ruled.notes.rules >> 64) as u64, Relaxed);
    bump(page, STATUS + ruled.status as usize);
    page.word(IN_RUST).store(1, Relaxed);
    let theirs = check::theirs(case);
    page.word(IN_RUST).store(0, Relaxed);
    match check::verdict(case, left, &ruled, theirs, spoiled) {
        Verdict::Fault(_) => return false,
        Verdict::NoMemory => bump(page, NO_MEMORY),
        Verdict::Same => {
            bump(page, SAME);
            bump(page, STATUS_SAME + ruled.status as usize);
        }
        Verdict::Listed(met) => {
            bump(page, LISTED);
            (0..Difference::ALL.len()).filter(|d| met >> d & 1 == 1).for_each(|d| bump(page, LEFT + d));
        }
    }
    true
}

/// A copy's work: from where the last one ended.
fn work(page: &Page, inputs: &Inputs, spoiled: Spoiled) {
    let mut left = Left::default();
    let mut index = page.word(NEXT).load(Relaxed);
    while index < inputs.count {
        page.word(NEXT).store(index, Relaxed);
        if !judge(page, &(inputs.case)(index), &mut left, spoiled) {
            page.word(FAULTY).store(1, Relaxed);
            return;
        }
        index += COPIES;
    }
}

/// What becomes of a copy that ended: whether another is to go on behind the input at which it did.
fn goes_on(page: &Page, status: i32) -> bool {
    let end = apart::end_of(page, status);
    let in_rust = page.word(IN_RUST).swap(0, Relaxed) == 1;
    match end {
        End::Done => return false,
        End::Memory if in_rust => bump(page, NO_MEMORY),
        End::Stack if in_rust => bump(page, NO_STACK),
        _ => {
            page.word(FAULTY).store(1, Relaxed);
            return false;
        }
    }
    page.word(NEXT).fetch_add(COPIES, Relaxed);
    true
}

/// Goes through all inputs, up to the first fault that each copy finds.
pub fn run(inputs: &Inputs, spoiled: Spoiled) -> Counts {
    let pages: Vec<Page> = (0..COPIES).map(|_| Page::new(WORDS)).collect();
    let start = |page: &Page| apart::copy(page, || work(page, inputs, spoiled));
    let mut pids = Vec::new();
    for (first, page) in pages.iter().enumerate() {
        page.word(NEXT).store(first as u64, Relaxed);
        pids.push(start(page));
    }
    let mut busy = pids.len();
    while busy > 0 {
        let (pid, status) = apart::wait(-1);
        let which = pids.iter().position(|&p| p == pid).expect("a copy of ours");
        if goes_on(&pages[which], status) {
            pids[which] = start(&pages[which]);
        } else {
            busy -= 1;
        }
    }
    counted(&pages)
}

fn counted(pages: &[Page]) -> Counts {
    let sum = |i: usize| {
        let words = pages.iter().map(|page| page.word(i).load(Relaxed));
        if i == RULES_LOW || i == RULES_HIGH { words.fold(0, |a, b| a | b) } else { words.sum() }
    };
    let faulty = pages.iter().filter(|page| page.word(FAULTY).load(Relaxed) == 1);
    Counts { words: std::array::from_fn(sum), faulty: faulty.map(|page| page.word(NEXT).load(Relaxed)).min() }
}

/// Whether a case is faulty, found out in a copy; and what the fault is.
pub fn fault_of(case: &Case, spoiled: Spoiled) -> Option<String> {
    let page = Page::new(WORDS);
    let inputs = Inputs { count: 1, case: &|_| case.clone() };
    let pid = apart::copy(&page, || work(&page, &inputs, spoiled));
    let (_, status) = apart::wait(pid);
    goes_on(&page, status);
    if page.word(FAULTY).load(Relaxed) == 0 {
        return None;
    }
    let mut left = Left::default();
    let told = match check::ours(case, &mut left, spoiled) {
        Err(fault) => Some(fault),
        Ok(_) if status != 0 => Some(format!("the Rust's process ended, and not for want of memory or stack (status {status})")),
        Ok(ruled) => match check::verdict(case, &left, &ruled, check::theirs(case), spoiled) {
            Verdict::Fault(fault) => Some(fault),
            _ => None,
        },
    };
    Some(told.unwrap_or_else(|| "a fault that did not show again".into()))
}

/// The refusal numbers that no walk gives: they are a cursor's and a typed operand's alone.
const NOT_OF_A_WALK: [usize; 2] = [4, 14];

impl Counts {
    pub fn none() -> Self {
        Self { words: [0; WORDS], faulty: None }
    }

    pub fn add(&mut self, other: &Counts) {
        for (i, word) in self.words.iter_mut().enumerate() {
            if i == RULES_LOW || i == RULES_HIGH { *word |= other.words[i] } else { *word += other.words[i] }
        }
    }

    pub fn total(&self) -> u64 {
        self.words[STATUS..STATUS_SAME].iter().sum()
    }

    fn rules(&self) -> u128 {
        u128::from(self.words[RULES_HIGH]) << 64 | u128::from(self.words[RULES_LOW])
    }

    /// What did not occur, though a run is to meet it.
    pub fn missing(&self) -> Vec<String> {
        let mut missing = Vec::new();
        for status in (0..STATUSES).filter(|status| !NOT_OF_A_WALK.contains(status) && self.words[STATUS + status] == 0) {
            missing.push(format!("status {status}"));
        }
        for (d, (_, name)) in Difference::ALL.iter().enumerate().filter(|(d, _)| self.words[LEFT + d] == 0) {
            missing.push(format!("difference {d}: {name}"));
        }
        missing.extend((0..RULES).filter(|rule| self.rules() >> rule & 1 == 0).map(|rule| format!("rule {}", Rule::name(rule))));
        missing
    }

    pub fn show(&self) {
        let word = |i: usize| self.words[i];
        println!("{} inputs, {} in the stated domain: the same there", self.total(), word(SAME));
        println!(
            "outside of it: {} by the listed differences, {} where the Rust has no memory, {} no stack",
            word(LISTED),
            word(NO_MEMORY),
            word(NO_STACK)
        );
        assert_eq!(self.total(), word(SAME) + word(LISTED) + word(NO_MEMORY) + word(NO_STACK));
        println!("by refusal number (0 is acceptance), all and in the domain:");
        for status in (0..STATUSES).filter(|status| !NOT_OF_A_WALK.contains(status)) {
            println!("  {status:2} {:9} {:9}", word(STATUS + status), word(STATUS_SAME + status));
        }
        println!("by difference:");
        for (d, (_, name)) in Difference::ALL.iter().enumerate() {
            println!("  {:9} {name}", word(LEFT + d));
        }
    }
}
