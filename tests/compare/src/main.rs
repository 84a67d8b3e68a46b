//! Holds the proved code to the second program: through the wrapper, through the programs `closing_sheet`, `reason_sheet` and `live_console`, and, for live lists
//! with tables of any kind, through the exported calls of crates/bench_exports.
//!
//! `compare [SHEETS] [LISTS] [SEED]`. Its last line is 'N passed, M failed': M comparisons differ, and it fails if M is not 0. The
//! programs are looked for in `target/bin` of the repository, where `bindings/program` leaves them.

mod bytes;
mod fixed;
mod floors;
mod lending;
mod lent;
mod lists;
mod program;
mod reasons;
mod sheets;
mod tables;

use lent::Entry;

/// What was compared, and what differed.
#[derive(Default)]
pub struct Tally {
    pub passed: usize,
    pub failed: usize,
}

impl Tally {
    /// Counts a comparison, and says what differed; the first few of a kind are enough.
    pub fn expect(&mut self, same: bool, what: impl Fn() -> String) {
        if same {
            self.passed += 1;
            return;
        }
        self.failed += 1;
        if self.failed <= 5 {
            println!("DIFFERS: {}", what());
        }
    }

    pub fn add(&mut self, other: Tally) {
        self.passed += other.passed;
        self.failed += other.failed;
    }
}

/// Runs one kind of comparison, and says how it went.
fn stage(total: &mut Tally, name: &str, run: impl FnOnce() -> Tally) {
    let began = std::time::Instant::now();
    let tally = run();
    println!("{name}: {} the same, {} differ ({:.1} s)", tally.passed, tally.failed, began.elapsed().as_secs_f64());
    total.add(tally);
}

/// How many sheets and lists without floors where nothing is said, and from which seed. Beside them there are half as many with floors, 10,000 sheets
/// falling first, five tables for each sheet, and three lists on lent tables for each four.
const SHEETS: u64 = 24_000;
const LISTS: u64 = 4_000;
const SEED: u64 = 20_250_101;
#[cfg(test)]
const TABLES: u64 = SHEETS * 5;
#[cfg(test)]
const LENT_LISTS: u64 = LISTS * 3 / 4;

/// What the arguments ask for: sheets, lists, seed. Counts above 32 bits are refused, as no run would end.
fn asked(words: &[String]) -> Option<(u64, u64, u64)> {
    let count = |k: usize, default: u64| words.get(k).map_or(Some(default), |w| w.parse::<u32>().ok().map(u64::from));
    let seed = words.get(2).map_or(Some(SEED), |w| w.parse().ok());
    (words.len() <= 3).then_some((count(0, SHEETS)?, count(1, LISTS)?, seed?))
}

fn main() {
    let words: Vec<String> = std::env::args_os().skip(1).map(|w| w.to_string_lossy().into_owned()).collect();
    let Some((count, lists, seed)) = asked(&words) else {
        eprintln!("usage: compare [SHEETS] [LISTS] [SEED], three numbers");
        std::process::exit(2);
    };
    let mut total = Tally::default();
    stage(&mut total, "document 01's lettings", fixed::all);
    stage(&mut total, "all 256 bytes, through the wrapper", bytes::all);
    stage(&mut total, "sheets within the limits, through the wrapper", || sheets::accepted(count * 2 / 3, seed));
    stage(&mut total, "damaged sheets, through the wrapper", || sheets::damaged(count / 3, seed));
    stage(&mut total, "lent memory, through the wrapper", || lent::all(Entry::Sealed, count / 12, seed));
    stage(&mut total, "sheets with floors, through the wrapper", || floors::accepted(count / 3, seed));
    stage(&mut total, "lent memory with floors, through the wrapper", || lent::all(Entry::SealedAbove, count / 6, seed));
    stage(&mut total, "sheets with floors falling first, through the wrapper", || floors::falling(count / 4, seed));
    stage(&mut total, "lent memory falling first, through the wrapper", || lent::all(Entry::FallingFirst, count / 6, seed));
    stage(&mut total, "sheets of reasons, through the wrapper", || reasons::all(count / 5, seed));
    stage(&mut total, "tables of differences, through the library", || tables::all(count * 5, seed));
    stage(&mut total, "the programs closing_sheet and reason_sheet", || program::sheets(count / 60, seed));
    stage(&mut total, "live lists, through the program live_console", || lists::all(lists, seed));
    stage(&mut total, "live lists with floors, through the program live_console", || lists::above(lists / 2, seed));
    stage(&mut total, "live lists on lent tables, through the exported calls", || lending::all(lists * 3 / 4, seed));
    println!("{} passed, {} failed", total.passed, total.failed);
    std::process::exit(i32::from(total.failed > 0));
}
