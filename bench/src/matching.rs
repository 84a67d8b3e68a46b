//! The matching's two functions beside plain Rust.

use crate::{plain, race};
use model::random::Random;
use std::hint::black_box;

extern "C" {
    fn matching_excess_demand(demand: &[u32; 64]) -> u32;
    fn matching_covers(demand: &[u32; 64], bidders: u64, items: u32) -> bool;
}

fn proved_excess_demand(demand: &[u32; 64]) -> u32 {
    // SAFETY: the reference is valid for the call, and the function takes any demand.
    unsafe { matching_excess_demand(demand) }
}

fn proved_covers(demand: &[u32; 64], bidders: u64, items: u32) -> bool {
    // SAFETY: as above, and any bidders and items.
    unsafe { matching_covers(demand, bidders, items) }
}

/// Demands in which each bidder wants an item with a chance of 1 in 2^`rare`, every other bidder nothing if `half`.
fn demands(rare: u32, half: bool, r: &mut Random) -> [u32; 64] {
    std::array::from_fn(|b| if half && b % 2 == 1 { 0 } else { (0..rare).fold(!0, |s, _| s & r.draw() as u32) })
}

/// The table; how many answers were compared.
pub fn table(turns: usize) -> usize {
    if turns > 0 {
        println!("| demands of 64 bidders over 32 items | function | proved, ns | plain Rust, ns | ratio |");
        println!("|---|---|---|---|---|");
    }
    let mut compared = 0;
    let mut r = Random::new(7);
    for (name, rare, half) in [
        ("about 16 items each", 1, false),
        ("about 4 items each", 3, false),
        ("about 1 item each", 5, false),
        ("about 2 items each, half the bidders", 4, true),
    ] {
        let all: Vec<[u32; 64]> = (0..2_000).map(|_| demands(rare, half, &mut r)).collect();
        let (bidders, items) = (0xffff, 0xff);
        for d in &all {
            assert_eq!(proved_excess_demand(d), plain::excess_demand(d));
            assert_eq!(proved_covers(d, bidders, items), plain::covers(d, bidders, items));
            compared += 2;
        }
        if turns == 0 {
            continue;
        }
        // A hundred calls for each reading of the clock.
        let parts: Vec<&[[u32; 64]]> = all.chunks(100).collect();
        let sets = race(
            turns,
            parts.len(),
            [&mut |k| parts[k].iter().for_each(|d| _ = black_box(proved_excess_demand(d))), &mut |k| {
                parts[k].iter().for_each(|d| _ = black_box(plain::excess_demand(d)))
            }],
        );
        let cover = race(
            turns,
            parts.len(),
            [&mut |k| parts[k].iter().for_each(|d| _ = black_box(proved_covers(d, bidders, items))), &mut |k| {
                parts[k].iter().for_each(|d| _ = black_box(plain::covers(d, bidders, items)))
            }],
        );
        for (function, [proved, plain]) in [("excess_demand", sets), ("cover", cover)] {
            println!("| {name} | {function} | {:.0} | {:.0} | {:.2} |", proved / 100.0, plain / 100.0, proved / plain);
        }
    }
    compared
}
