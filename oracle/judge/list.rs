//! The list for the program replay, and what the program is to print of it: the Rust's answers to inputs that are chosen so that under each refusal
//! number every two rules that any input meets together are met together by one of them, and so for every two widths of operands where a log is
//! accepted; then the smallest inputs that show each difference; then those of oracle/found.txt and docs/DIFFERENCES.md.
use crate::answer::{Answer, bytes_of, hex};
use crate::apart::{self, End, Page};
use crate::check::Case;
use crate::generate;
use crate::notes::{Difference, RULES, Rule};
use crate::ours::Left;
use crate::rules;
use crate::shrink::shrink;
use crate::stream::MAGIC;
use crate::{TINY, theirs, tiny};
use std::sync::atomic::Ordering::Relaxed;

/// The two stores that replay lends.
const STORE: usize = 8_192;
const MOST_BYTES: usize = 300;

/// A difference is shown by one line at least, and by further ones that are shorter than this.
const MOST_LINE: usize = 1_000;

/// Room for an answer's text: touched only as far as it is used.
const TEXT_WORDS: usize = 1 << 25;

/// The Rust's answer: by its iterators, which tell widths, and by its visitor, which must say the same.
fn answer(case: &Case) -> String {
    let both = apart::guarded(|| (theirs::iterated(&case.input, &case.skip, true), theirs::visited(&case.input, &case.skip)));
    let (told, visited) = match both {
        Ok(both) => both,
        Err(End::Memory) => return Answer::Ended.to_string(),
        Err(end) => panic!("the Rust panics, and not for want of memory: {end:?}"),
    };
    assert_eq!(told.clone().without_widths(), visited, "visitor and iterators agree");
    told.to_string()
}

/// The Rust's answer, asked in a copy of the process, and how the copy ended.
fn asked(case: &Case) -> (String, End) {
    let page = Page::new(TEXT_WORDS);
    let pid = apart::copy(&page, || {
        let text = answer(case).into_bytes();
        for (i, bytes) in text.chunks(8).enumerate() {
            let mut word = [0; 8];
            word[..bytes.len()].copy_from_slice(bytes);
            page.word(i + 1).store(u64::from_le_bytes(word), Relaxed);
        }
        page.word(0).store(text.len() as u64, Relaxed);
    });
    let (_, status) = apart::wait(pid);
    let end = apart::end_of(&page, status);
    match end {
        End::Done => {}
        End::Memory | End::Stack => return (Answer::Ended.to_string(), end),
        End::Fault => panic!("the Rust's process ended, and not for want of memory or stack: {}", hex(&case.input)),
    }
    let length = page.word(0).load(Relaxed) as usize;
    let words = (0..length.div_ceil(8)).flat_map(|i| page.word(i + 1).load(Relaxed).to_le_bytes());
    (String::from_utf8(words.take(length).collect()).expect("the notation is ASCII"), end)
}

pub fn rusts(case: &Case) -> String {
    asked(case).0
}

/// Our library's answer.
pub fn ours(case: &Case) -> String {
    let mut left = Left::default();
    left.walk(&case.input, &case.skip, case.events, case.operands);
    left.answer(&case.input).to_string()
}

/// The answer by 01's rules: what ours is to be.
fn ruled(case: &Case) -> String {
    rules::walk(&case.input, &case.skip, case.events, case.operands, 0).answer(&case.input).to_string()
}

/// Which pairs, of rules or of widths, were met together under which status.
struct Pairs(Vec<u128>);

impl Pairs {
    fn new() -> Self {
        Self(vec![0; 32 * 128])
    }

    /// Notes what an input met, and tells whether some pair is new.
    fn is_new(&mut self, status: u64, met: u128) -> bool {
        let mut new = false;
        for one in (0..128).filter(|one| met >> one & 1 == 1) {
            let seen = &mut self.0[status as usize * 128 + one];
            new |= *seen | met != *seen;
            *seen |= met;
        }
        new
    }
}

fn fixed_stores(mut case: Case) -> Case {
    (case.events, case.operands) = (STORE, STORE);
    case
}

fn line(case: &Case, answer: &str) -> String {
    format!("{} {} {answer}", case.skip_text(), case.input_text())
}

/// The inputs of the stated domain, with their status.
fn chosen(seed: u64, count: u64) -> Vec<(u64, Case)> {
    let (mut rules_met, mut widths_met, mut kept) = (Pairs::new(), Pairs::new(), Vec::new());
    for index in 0..count {
        let case = fixed_stores(if index < 400 { tiny(index) } else { generate::case(seed, index) });
        let outcome = rules::walk(&case.input, &case.skip, STORE, STORE, 0);
        if case.input.len() > MOST_BYTES || outcome.notes.left != 0 {
            continue;
        }
        let new_rules = rules_met.is_new(outcome.status, outcome.notes.rules);
        let new_widths = widths_met.is_new(outcome.status, outcome.notes.widths.into());
        if new_rules || outcome.status == 0 && new_widths {
            kept.push((outcome.status, case));
        }
    }
    kept
}

/// Whether an input with the plain magic shows this difference and no other: the Rust answers, and otherwise than ours. No difference: the Rust panics
/// for a capacity that no machine has.
fn shows(case: &Case, difference: Option<Difference>) -> bool {
    let left = rules::walk(&case.input, &case.skip, STORE, STORE, 0).notes.left;
    case.input.starts_with(&MAGIC) && left == difference.map_or(0, Difference::bit) && {
        let (rust, end) = asked(case);
        (rust == "ends") == difference.is_none() && end == End::Done && rust != ours(case)
    }
}

/// The smallest inputs found that show a difference.
fn smallest(seed: u64, difference: Option<Difference>) -> Vec<Case> {
    let tiny_ones = (0..if difference.is_some() { TINY } else { 0 }).map(tiny);
    let cases = tiny_ones.chain((0..40_000).map(|index| generate::case(seed ^ 1, index))).map(fixed_stores);
    let showing = cases.filter(|case| shows(case, difference)).take(16);
    let mut small: Vec<Case> = showing.map(|case| shrink(case, |case| shows(case, difference))).collect();
    small.sort_by_key(|case| (case.input.len(), case.input.clone()));
    small.dedup_by_key(|case| case.input.clone());
    small.truncate(3);
    small
}

/// A line of the list: a question with the Rust's answer, or text that is handed back, or text that is no question.
enum Entry {
    Asked(Case, String),
    Comment(String),
    Other(&'static str),
}

impl Entry {
    fn asked(case: Case) -> Self {
        let rust = rusts(&case);
        Self::Asked(case, rust)
    }

    /// The line of the list.
    fn line(&self) -> String {
        match self {
            Self::Asked(case, rust) => line(case, rust),
            Self::Comment(text) => text.clone(),
            Self::Other(text) => (*text).into(),
        }
    }

    /// What the program is to print of it.
    fn printed(&self) -> String {
        match self {
            Self::Asked(case, rust) if ruled(case) == *rust => String::new(),
            Self::Asked(case, _) => format!("{}\n  ours {}\n", self.line(), ruled(case)),
            Self::Comment(text) => format!("{text}\n"),
            Self::Other(text) => format!("{text}\n  ?\n"),
        }
    }
}

/// The inputs of the stated domain, by status and length; those on which the Rust ends are none.
fn domain(seed: u64, count: u64) -> Vec<Entry> {
    let mut kept = chosen(seed, count);
    kept.sort_by_key(|(status, case)| (*status, case.input.len(), case.input.clone(), case.skip.clone()));
    let asked = kept.into_iter().map(|(_, case)| Entry::asked(case));
    asked.filter(|entry| !matches!(entry, Entry::Asked(_, rust) if rust == "ends")).collect()
}

/// The smallest inputs that show each difference.
fn differences(seed: u64) -> Vec<Entry> {
    let mut entries = Vec::new();
    let listed = Difference::ALL.iter().filter(|(difference, _)| *difference != Difference::InputLimit);
    for (difference, name) in listed.map(|(difference, name)| (Some(*difference), *name)).chain([(None, "want of memory")]) {
        entries.push(Entry::Comment(format!("# {name}")));
        let small = smallest(seed, difference).into_iter().map(Entry::asked).enumerate();
        entries.extend(small.filter(|(i, entry)| *i == 0 || entry.line().len() < MOST_LINE).map(|(_, entry)| entry));
    }
    entries
}

/// The inputs of oracle/found.txt, and its comments.
fn found() -> Vec<Entry> {
    let text = std::fs::read_to_string("oracle/found.txt").expect("oracle/found.txt");
    let entry = |line: &str| {
        let (false, Some((asked, _))) = (line.starts_with('#'), line.split_once(" | ")) else {
            return Entry::Comment(line.into());
        };
        let (skips, bytes) = asked.split_once(' ').expect("skips and bytes");
        let (skip, input) = (crate::skips_of(skips).expect("skips"), bytes_of(bytes).expect("bytes"));
        Entry::asked(fixed_stores(Case { input, skip, events: 0, operands: 0 }))
    };
    text.lines().map(entry).collect()
}

/// The inputs that docs/DIFFERENCES.md shows (behind `M`, which stands for the magic) and that the list lacks.
fn documented(known: &[Entry]) -> Vec<Entry> {
    let text = std::fs::read_to_string("docs/DIFFERENCES.md").expect("docs/DIFFERENCES.md");
    let known: Vec<&Vec<u8>> = known.iter().filter_map(|entry| if let Entry::Asked(case, _) = entry { Some(&case.input) } else { None }).collect();
    let digits = text.split("M`").skip(1).filter_map(|rest| rest.split_once('`')).map(|(word, _)| format!("4243c0de{word}"));
    let inputs = digits.filter_map(|word| bytes_of(&word)).filter(|input| !known.contains(&input));
    inputs.map(|input| Entry::asked(fixed_stores(Case { input, skip: Vec::new(), events: 0, operands: 0 }))).collect()
}

const HEAD: &str = "\
# The answers of llvm-bitcode-rs, as `oracle/run RUST list` writes them. A line is SKIPS BYTES ANSWER: the block numbers to skip, the input, and
# what the Rust says of it; `ends` where its process ended. First inputs of the stated domain, chosen so that under each refusal number every two
# rules that are met together are met together in a line here, and every two widths of operands in a line that is accepted. Then the smallest
# inputs that show each difference, those of oracle/found.txt and docs/DIFFERENCES.md, and lines that are no question.";

/// Lines that the program is to tell from questions.
const NO_QUESTIONS: [&str; 3] = ["8, 4243c0de 0 3737142082 0 0 4 0 0", "- 4243c0d 0 3737142082 0 0 4 0 0", "- 4243c0de"];

/// The rules that no line of the list meets.
fn unmet(entries: &[Entry]) -> Vec<&'static str> {
    let met = entries.iter().fold(0, |met, entry| match entry {
        Entry::Asked(case, _) => met | rules::walk(&case.input, &case.skip, case.events, case.operands, 0).notes.rules,
        _ => met,
    });
    (0..RULES).filter(|rule| met >> rule & 1 == 0).map(Rule::name).collect()
}

/// Writes the list and what the program is to print of it; whether each rule is met, and the answers are the same in the stated domain.
pub fn write(seed: u64, count: u64) -> bool {
    let mut entries = vec![Entry::Comment(HEAD.into())];
    entries.extend(domain(seed, count));
    let inside = entries.len();
    entries.extend(differences(seed).into_iter().chain(found()));
    let documented = documented(&entries);
    entries.extend(documented);
    entries.push(Entry::Comment("# No questions".into()));
    entries.extend(NO_QUESTIONS.map(Entry::Other));
    let list: String = entries.iter().map(|entry| entry.line() + "\n").collect();
    let printed: Vec<String> = entries.iter().map(Entry::printed).collect();
    let asked = entries.iter().filter(|entry| matches!(entry, Entry::Asked(..))).count();
    let same = entries.iter().zip(&printed).filter(|(entry, text)| matches!(entry, Entry::Asked(..)) && text.is_empty()).count();
    std::fs::write("crates/replay/stdin", list).expect("the list is written");
    std::fs::write("crates/replay/stdout", printed.concat() + &format!("{asked} answers, {same} the same\n"))
        .expect("what is to be printed is written");
    let unmet = unmet(&entries);
    println!("{asked} answers, {same} the same; {} of the stated domain; rules that no line meets: {unmet:?}", inside - 1);
    unmet.is_empty() && printed[1..inside].iter().all(String::is_empty)
}
