//! Sheets of reasons, whose rounds are all played, beside plain Rust that plays the same rounds and writes the same lines.

use crate::bytes::put;
use crate::plain::{demands, falling, places, rising, Demands};
use crate::race;
use crate::sheets::{longest, random};
use dewgneiss::{reason_sheet_into, LONGEST_REASONS};
use model::random::Random;
use model::{reasons, sheet, Sheet, TOP};
use std::hint::black_box;

/// The bidders for whose demands the set moves.
fn bidders(d: &Demands, count: usize, set: u32, falls: bool) -> u64 {
    let counts = |b: usize| if falls { d.items[b] & set != 0 } else { d.nulls >> b & 1 == 0 && d.items[b] & !set == 0 };
    (0..count).fold(0, |g, b| g | u64::from(counts(b)) << b)
}

/// The lines at the front of `out`; how many bytes they are.
#[inline(never)]
fn plain(s: &Sheet, out: &mut [u8]) -> usize {
    let (mut p, floors) = (places(&s.start), places(&s.floors));
    let mut falls = false;
    for (k, line) in out.chunks_exact_mut(31).enumerate() {
        let (d, _) = demands(&p, &s.bids, s.items);
        let mut set = if falls { 0 } else { rising(&d) };
        if set == 0 {
            falls = true;
            set = falling(&d, &floors, &p);
        }
        if set == 0 {
            return 31 * k;
        }
        let who = bidders(&d, s.bidders, set, falls);
        put(&mut line[..4], 4, k as u32 + 1);
        put(&mut line[4..6], 2, 1 + u32::from(falls));
        put(&mut line[6..14], 8, set);
        put(&mut line[14..22], 8, (who >> 32) as u32);
        put(&mut line[22..30], 8, who as u32);
        line[30] = b'\n';
        (0..32).filter(|&i| set >> i & 1 == 1).for_each(|i| if falls { p[i] -= 1 } else { p[i] += 1 });
    }
    out.len() / 31 * 31
}

/// The table; how many answers were compared.
pub fn table(turns: usize) -> usize {
    let mut r = Random::new(101);
    let kinds: [(&str, Vec<Sheet>); 3] = [
        ("random, from 0", (0..3).map(|_| random(32, 64, TOP, |_| 0, &mut r)).collect()),
        ("random, from anywhere", (0..3).map(|_| random(32, 64, TOP, |r| r.amount(TOP), &mut r)).collect()),
        ("8,190 rounds", vec![longest()]),
    ];
    let [mut a, mut b] = [(); 2].map(|()| vec![0; LONGEST_REASONS]);
    if turns > 0 {
        println!("\n| sheets of reasons of 32 items and 64 bidders | rounds | proved, µs | plain Rust, µs | ratio |");
        println!("|---|---|---|---|---|");
    }
    let mut compared = 0;
    for (what, sheets) in kinds {
        let written: Vec<Vec<u8>> = sheets.iter().map(sheet::write).collect();
        let mut rounds = 0;
        for (s, bytes) in sheets.iter().zip(&written) {
            let long = reason_sheet_into(bytes, &mut a);
            assert_eq!((&a[..long], long), (&reasons::answer(bytes)[..], plain(s, &mut b)));
            assert_eq!(a[..long], b[..long]);
            rounds += long / 31;
            compared += 1;
        }
        if turns > 0 {
            let [proved, plain] = race(
                turns,
                sheets.len(),
                [&mut |k| _ = black_box(reason_sheet_into(black_box(&written[k]), &mut a)), &mut |k| {
                    _ = black_box(plain(black_box(&sheets[k]), &mut b))
                }],
            )
            .map(|ns| ns / 1000.0);
            println!("| {what} | {} | {proved:.0} | {plain:.0} | {:.2} |", rounds / sheets.len(), proved / plain);
        }
    }
    compared
}
