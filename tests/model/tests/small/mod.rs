//! Small sheets with floors, on which every price vector can be tried by the letter.

use model::generate::{floored, FLOORS};
use model::literal::{demand, demands, falling, rising};
use model::random::Random;
use model::Sheet;

/// A sheet of at most 3 by 4 with low amounts, and floors of every kind.
fn small(k: usize, r: &mut Random) -> Sheet {
    let (items, bidders, top) = (r.within(1, 3), r.within(1, 4), r.within(1, 4) as u16);
    let start = (0..items).map(|_| r.amount(top)).collect();
    let bids = (0..items * bidders).map(|_| r.amount(top)).collect();
    floored(Sheet::of(start, bidders, bids), FLOORS[k % FLOORS.len()], r)
}

/// Such sheets, from a seed.
pub fn small_sheets(seed: u64, count: usize) -> impl Iterator<Item = Sheet> {
    let mut r = Random::new(seed);
    (0..count).map(move |k| small(k, &mut r))
}

/// Every price vector up to one above the highest bid and starting price.
pub fn vectors(s: &Sheet) -> impl Iterator<Item = Vec<u16>> + '_ {
    let each = u32::from(s.bids.iter().chain(&s.start).max().map_or(1, |&top| top + 2));
    let digit = move |k: u32, i: usize| (k / each.pow(i as u32) % each) as u16;
    (0..each.pow(s.items as u32)).map(move |k| (0..s.items).map(|i| digit(k, i)).collect())
}

/// Whether no price of the first is above that of the second.
pub fn below(low: &[u16], high: &[u16]) -> bool {
    low.iter().zip(high).all(|(l, h)| l <= h)
}

/// Both sets at these prices.
pub fn sets(s: &Sheet, prices: &[u16]) -> (u64, u64) {
    let demands = demands(s, prices, demand);
    (rising(s.items, &demands), falling(&s.floors, prices, &demands))
}
