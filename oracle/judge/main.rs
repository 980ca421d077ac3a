//! The judge: our static library and the Rust read the same bytes in one process, and their answers are compared.
//!
//! ```text
//! judge run [SEED [COUNT]]     the comparison: every input of up to two bytes behind the magic, the test bench's questions, large inputs, and
//!                              COUNT generated ones; the first fault is shrunk and shown
//! judge spoil [SEED]           that the judge can fail: each line of the list taken out, each not turned the Rust's way, wrong answers of both readers
//! judge calls                  single calls of cursor and typed operands: the questions of the program probe, asked of the Rust
//! judge list [SEED [COUNT]]    writes the list for the program replay, and what it is to print of it
//! judge show FILE ..           both answers to each file
//! judge hex SKIPS BYTES        both answers to an input in hex digits; SKIPS are block numbers with commas between them, or `-`
//! ```
mod answer;
mod apart;
mod calls;
mod check;
mod generate;
mod large;
mod list;
mod maker;
mod notes;
mod ours;
mod rules;
mod run;
mod shrink;
mod stream;
mod theirs;

use answer::bytes_of;
use check::{Case, Spoiled};
use notes::Difference;
use run::{Counts, Inputs};
use std::process::ExitCode;
use std::time::Instant;
use stream::MAGIC;

#[global_allocator]
static MEMORY: apart::Limited = apart::Limited;

const SEED: u64 = 20_261_115;
const COUNT: u64 = 5_000_000;
const LISTED: u64 = 2_000_000;

/// The most bytes of an input that is shown and shrunk.
const MOST_SHOWN: usize = 4096;

/// Every input of up to two bytes behind the magic, by number.
fn tiny(index: u64) -> Case {
    let behind: &[u8] = match index {
        0 => &[],
        1..=256 => &[(index - 1) as u8],
        _ => &((index - 257) as u16).to_le_bytes(),
    };
    Case { input: [&MAGIC, behind].concat(), skip: Vec::new(), events: 64, operands: 64 }
}

const TINY: u64 = 1 + 256 + 65_536;

/// A question of the program trial: `SKIPS EVENTS OPERANDS BYTES`.
fn question(line: &str) -> Option<Case> {
    let words: Vec<&str> = line.split(' ').collect();
    let [skips, events, operands, bytes] = words[..] else {
        return None;
    };
    Some(Case { input: bytes_of(bytes)?, skip: skips_of(skips)?, events: events.parse().ok()?, operands: operands.parse().ok()? })
}

fn skips_of(word: &str) -> Option<Vec<u64>> {
    if word == "-" { Some(Vec::new()) } else { word.split(',').map(|number| number.parse().ok()).collect() }
}

fn show_case(case: &Case) {
    let input = if case.input.len() > MOST_SHOWN { format!("({} bytes)", case.input.len()) } else { case.input_text() };
    println!("  skips {}, stores of {} and {} numbers, input {input}", case.skip_text(), case.events, case.operands);
}

/// Shows a fault, and the smallest input near it that shows one too.
fn show_fault(case: Case, spoiled: Spoiled) {
    let tell = |case: &Case| {
        show_case(case);
        println!("  {}", run::fault_of(case, spoiled).unwrap_or_default());
    };
    println!("FAULT");
    tell(&case);
    if case.input.len() <= MOST_SHOWN {
        println!("shrunk:");
        tell(&shrink::shrink(case, |case| run::fault_of(case, spoiled).is_some()));
    }
}

/// Goes through inputs, adds to the counts, and tells whether there was no fault.
fn part(name: &str, counts: &mut Counts, count: u64, case: &dyn Fn(u64) -> Case) -> bool {
    let start = Instant::now();
    let found = run::run(&Inputs { count, case }, Spoiled::default());
    counts.add(&found);
    println!("{name}: {} inputs, {} seconds", found.total(), start.elapsed().as_secs());
    if let Some(index) = found.faulty {
        show_fault(case(index), Spoiled::default());
    }
    found.faulty.is_none()
}

fn compare(seed: u64, count: u64) -> bool {
    println!("seed {seed}");
    let questions: Vec<Case> = std::fs::read_to_string("crates/trial/stdin").expect("trial's questions").lines().filter_map(question).collect();
    let mut counts = Counts::none();
    let sound = part("up to two bytes behind the magic", &mut counts, TINY, &tiny)
        & part("the test bench's questions", &mut counts, questions.len() as u64, &|i| questions[i as usize].clone())
        & part("large", &mut counts, large::COUNT, &large::large)
        & part("generated", &mut counts, count, &|i| generate::case(seed, i));
    if !sound {
        return false;
    }
    counts.show();
    let missing = counts.missing();
    missing.iter().for_each(|what| println!("did not occur: {what}"));
    missing.is_empty()
}

/// Whether a spoiled judge finds a fault; the smallest input that shows it.
fn finds(name: &str, seed: u64, spoiled: Spoiled) -> bool {
    let case = |i| generate::case(seed, i);
    let Some(index) = run::run(&Inputs { count: 400_000, case: &case }, spoiled).faulty else {
        println!("NOT FOUND: {name}");
        return false;
    };
    println!("found at input {index}: {name}");
    show_case(&shrink::shrink(case(index), |case| run::fault_of(case, spoiled).is_some()));
    true
}

fn spoil(seed: u64) -> bool {
    let mut sound = finds("a refusal misnamed by the Rust", seed, Spoiled { misnamed: true, ..Spoiled::default() })
        & finds("a place of ours off by a bit", seed, Spoiled { misplaced: true, ..Spoiled::default() })
        & finds("a number left in a store of ours", seed, Spoiled { stained: true, ..Spoiled::default() });
    for (difference, name) in Difference::ALL.iter().filter(|(difference, _)| *difference != Difference::InputLimit) {
        sound &= finds(&format!("not on the list: {name}"), seed, Spoiled { missing: difference.bit(), ..Spoiled::default() });
        sound &= finds(&format!("not turned: {name}"), seed, Spoiled { unturned: difference.bit(), ..Spoiled::default() });
    }
    sound
}

/// Both answers to an input, ours with stores that hold all that may be read.
fn show(input: Vec<u8>, skip: Vec<u64>) -> [String; 2] {
    let most = (8 * 8 * (input.len() + 1)).max(1 << 16);
    let case = Case { input, skip, events: most, operands: most };
    [list::ours(&case), list::rusts(&case)]
}

fn print_both([ours, rust]: [String; 2]) {
    println!("  ours {ours}");
    println!("  rust {rust}");
}

fn show_files(files: &[String]) -> bool {
    for file in files {
        println!("{file}");
        print_both(show(std::fs::read(file).expect("a file that can be read"), Vec::new()));
    }
    true
}

fn show_hex(skips: &str, bytes: &str) -> bool {
    let (Some(skip), Some(input)) = (skips_of(skips), bytes_of(bytes)) else {
        return false;
    };
    print_both(show(input, skip));
    true
}

fn main() -> ExitCode {
    let words: Vec<String> = std::env::args().skip(1).collect();
    let number = |i: usize, otherwise: u64| words.get(i).map_or(otherwise, |word| word.parse().expect("a number"));
    let words_as: Vec<&str> = words.iter().map(String::as_str).collect();
    let sound = match words_as[..] {
        ["run", ..] => compare(number(1, SEED), number(2, COUNT)),
        ["spoil", ..] => spoil(number(1, SEED)),
        ["calls"] => calls::compare(),
        ["list", ..] => list::write(number(1, SEED), number(2, LISTED)),
        ["show", ..] => show_files(&words[1..]),
        ["hex", skips, bytes] => show_hex(skips, bytes),
        _ => {
            eprintln!("judge run|spoil|calls|list|show|hex: see oracle/judge/main.rs");
            false
        }
    };
    if sound { ExitCode::SUCCESS } else { ExitCode::FAILURE }
}
