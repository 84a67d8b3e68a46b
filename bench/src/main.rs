//! Times the proved code beside plain Rust, on the same inputs, in turns within one run; every answer is compared. Each time is the best
//! of several turns. `bench quick` measures nothing, and ends in 'N passed, 0 failed'.

mod bytes;
mod live;
mod matching;
mod plain;
mod reasons;
mod record;
mod sealed;
mod search;
mod sheets;
mod tables;

use std::time::Instant;

/// Nanoseconds for a call of each on `count` inputs: for every input the best of several turns, in which they change off, so that other
/// work on the machine counts little.
fn race<const N: usize>(turns: usize, count: usize, mut runs: [&mut dyn FnMut(usize); N]) -> [f64; N] {
    let mut sum = [0.0; N];
    for k in 0..count {
        let mut best = [f64::MAX; N];
        for _ in 0..turns {
            for (run, best) in runs.iter_mut().zip(&mut best) {
                let began = Instant::now();
                run(k);
                *best = best.min(began.elapsed().as_nanos() as f64);
            }
        }
        sum.iter_mut().zip(best).for_each(|(sum, best)| *sum += best);
    }
    sum.map(|sum| sum / count as f64)
}

fn main() {
    let quick = std::env::args().nth(1).as_deref() == Some("quick");
    let turns = if quick { 0 } else { 25 };
    let mut measured = sealed::Measured::default();
    let matched = matching::table(turns);
    let worst = sealed::kinds(turns, &mut measured);
    sealed::floors(worst.clone(), turns, &mut measured);
    sealed::falling(worst, turns, &mut measured);
    sealed::growth(turns, &mut measured);
    let live = live::table(turns);
    let compared =
        matched + measured.compared + live.compared + bytes::table(turns, &mut measured.reading) + reasons::table(turns);
    if quick {
        println!("{compared} passed, 0 failed");
    } else {
        measured.limits(live.limits());
    }
}
