//! Times our walk beside the Rust crate's visitor and iterators and llvm-bcanalyzer, on the same logs in one run, turn about, and prints Markdown:
//! milliseconds and ratios for logs of 8 MiB, then nanoseconds for a byte as the logs grow. `walk TURNS FILE`; FILE is where a log is put for llvm-bcanalyzer.
mod logs;
mod readers;

use logs::{KINDS, Kind, log};
use readers::{Stores, iterated, told, visited, with_new_stores};
use std::hint::black_box;
use std::process::{Command, Stdio};
use std::time::Instant;

const MIB: usize = 1 << 20;

/// The least milliseconds that something took.
#[derive(Clone, Copy)]
struct Best(f64);

impl Best {
    const NONE: Best = Best(f64::INFINITY);

    fn of<T>(&mut self, run: impl FnOnce() -> T) -> T {
        let start = Instant::now();
        let result = black_box(run());
        self.0 = self.0.min(start.elapsed().as_secs_f64() * 1e3);
        result
    }
}

fn analyze(file: &str) {
    let ended = Command::new("llvm-bcanalyzer").arg(file).stdout(Stdio::null()).stderr(Stdio::null()).status().expect("llvm-bcanalyzer can be run");
    assert!(ended.success(), "llvm-bcanalyzer reads the log");
}

/// One line of the first table.
fn compare(kind: &Kind, turns: usize, file: &str) {
    let input = log(kind, 8 * MIB);
    std::fs::write(file, &input).expect("the log can be written");
    let mut stores = Stores::of(&input);
    let [mut walk, mut over, mut anew, mut visitor, mut iterators, mut analyzer, mut clear] = [Best::NONE; 7];
    for _ in 0..turns {
        clear.of(|| stores.clear());
        walk.of(|| stores.walk(&input).events().len());
        let ours = over.of(|| told(stores.walk(&input)));
        assert_eq!(ours, anew.of(|| with_new_stores(&input)), "{}: ours, and with new stores", kind.name);
        assert_eq!(ours, visitor.of(|| visited(&input)), "{}: ours and the visitor", kind.name);
        assert_eq!(ours, iterators.of(|| iterated(&input)), "{}: ours and the iterators", kind.name);
        analyzer.of(|| analyze(file));
    }
    let [walk, over, anew, visitor, iterators, analyzer, clear] = [walk, over, anew, visitor, iterators, analyzer, clear].map(|best| best.0);
    println!(
        "| {} | {:.2} | {:.2} | {walk:.1} | {over:.1} | {anew:.1} | {visitor:.1} | {iterators:.1} | {analyzer:.0} | {clear:.1} | **{:.2}** | {:.2} |",
        kind.name,
        stores.events() as f64 / 1e6,
        stores.operands() as f64 / 1e6,
        walk / visitor,
        over / visitor,
    );
}

/// One line of the second table: our walk, and the visitor at the largest size.
fn grow(kind: &Kind, turns: usize) {
    let inputs = [1, 2, 4, 8, 16].map(|mib| log(kind, mib * MIB));
    let mut stores = inputs.each_ref().map(|input| Stores::of(input));
    let mut best = [Best::NONE; 5];
    for _ in 0..turns {
        for (input, (stores, best)) in inputs.iter().zip(stores.iter_mut().zip(&mut best)) {
            best.of(|| stores.walk(input).events().len());
        }
    }
    let bytes = inputs.each_ref().map(|input| input.len() as f64);
    let each = std::array::from_fn::<_, 5, _>(|i| best[i].0 * 1e6 / bytes[i]);
    println!("| {} | {} |", kind.name, each.map(|ns| format!("{ns:.2}")).join(" | "));
}

fn main() {
    let mut words = std::env::args().skip(1);
    let turns = words.next().and_then(|word| word.parse().ok()).expect("the first word is how many turns");
    let file = words.next().expect("the second word is a file for llvm-bcanalyzer");

    println!("Logs of 8 MiB, best of {turns} turns; millions, then milliseconds, then ratios:\n");
    println!(
        "| log | events | operands | walk | and events | new stores | visitor | iterators | bcanalyzer | clearing | walk : visitor | and events : visitor |"
    );
    println!("|---|---|---|---|---|---|---|---|---|---|---|---|");
    KINDS.iter().for_each(|kind| compare(kind, turns, &file));

    println!("\nOur walk as the logs grow, nanoseconds for a byte:\n");
    println!("| log | 1 MiB | 2 | 4 | 8 | 16 |");
    println!("|---|---|---|---|---|---|");
    KINDS.iter().for_each(|kind| grow(kind, turns));
}
