//! The sheets that the sealed auction is timed on: random ones, ones with many ties, and the worst that a search finds.

use crate::plain::Closing;
use crate::search::Call;
use model::random::Random;
use model::{Sheet, TOP};

/// Bids from 0 to `top`, starting prices as `start` gives them.
pub fn random(items: usize, bidders: usize, top: u16, start: impl Fn(&mut Random) -> u16, r: &mut Random) -> Sheet {
    let starts = (0..items).map(|_| start(r)).collect();
    Sheet::of(starts, bidders, (0..items * bidders).map(|_| r.amount(top)).collect())
}

/// 32 items with floors from `low` to 4,095 and bidders with bids from 0, starting prices as `start` gives them for a floor.
pub fn random_above(bidders: usize, low: u16, start: impl Fn(u16, &mut Random) -> u16, r: &mut Random) -> Sheet {
    let floors: Vec<u16> = (0..32).map(|_| low + r.amount(TOP - low)).collect();
    let starts = floors.iter().map(|&floor| start(floor, r)).collect();
    Sheet::of(starts, bidders, (0..bidders * 32).map(|_| r.amount(TOP)).collect()).above(&floors)
}

/// A price from the floor up.
pub fn anywhere_above(floor: u16, r: &mut Random) -> u16 {
    floor + r.amount(TOP - floor)
}

/// The sheet with each starting price made a floor.
pub fn from_floors(s: Sheet) -> Sheet {
    Sheet { floors: s.start.clone(), ..s }
}

/// 32 items and 64 bidders by a rule, both counted from 0, from prices of 0.
pub fn by(mut bid: impl FnMut(usize, usize) -> usize) -> Sheet {
    let bids = (0..64 * 32).map(|k| bid(k / 32, k % 32) as u16).collect();
    Sheet::of(vec![0; 32], 64, bids)
}

/// 4,095 rounds up and as many down: everybody wants the first half, from 0, and nobody the second half, from 4,095.
pub fn longest() -> Sheet {
    let line: Vec<u16> = (0..32).map(|i| if i < 16 { TOP } else { 0 }).collect();
    let start = line.iter().map(|&x| TOP - x).collect();
    Sheet::of(start, 64, line.repeat(64))
}

/// How much the searches of a sheet have to do, by the plain Rust of the same search.
fn work(s: &Sheet, search: Call) -> u32 {
    let mut closing = Closing::new(s.items, s.bidders);
    search(s.items, s.bidders, &s.start, &s.floors, &s.bids, &mut closing)
}

/// A sheet from which no change tried makes the searches longer: what makes more work stays.
pub fn worst(from: Sheet, search: Call, change: fn(&Sheet, &mut Random) -> Sheet, steps: usize, r: &mut Random) -> Sheet {
    let mut worst = from;
    let mut most = work(&worst, search);
    for _ in 0..steps {
        let next = change(&worst, r);
        let work = work(&next, search);
        if most <= work {
            (worst, most) = (next, work);
        }
    }
    worst
}

fn near(x: u16, r: &mut Random) -> u16 {
    (x + r.amount(8)).saturating_sub(4).min(TOP)
}

/// A number is moved, drawn again or swapped, or a bidder or item copied or swapped; the floors stay.
pub fn changed(s: &Sheet, r: &mut Random) -> Sheet {
    let mut t = s.clone();
    let (items, bidders) = (s.items, s.bidders);
    let k = r.within(0, items * bidders - 1);
    let (a, b) = (r.within(0, bidders - 1), r.within(0, bidders - 1));
    let (i, j) = (r.within(0, items - 1), r.within(0, items - 1));
    match r.within(0, 6) {
        0 => t.bids[k] = r.amount(TOP),
        1 => t.bids[k] = near(t.bids[k], r),
        2 => t.start[i] = r.amount(TOP),
        3 => t.start[i] = near(t.start[i], r),
        4 => (0..items).for_each(|x| t.bids.swap(a * items + x, b * items + x)),
        5 => (0..items).for_each(|x| t.bids[a * items + x] = s.bids[b * items + x]),
        _ => {
            (0..bidders).for_each(|x| t.bids.swap(x * items + i, x * items + j));
            t.start.swap(i, j);
        }
    }
    t
}

/// The same, and at times a floor moved or drawn again. A start below its floor goes up to it.
pub fn changed_above(s: &Sheet, r: &mut Random) -> Sheet {
    let mut t = changed(s, r);
    let i = r.within(0, s.items - 1);
    match r.within(0, 5) {
        0 => t.floors[i] = r.amount(TOP),
        1 => t.floors[i] = near(t.floors[i], r),
        _ => (),
    }
    t.start.iter_mut().zip(&t.floors).for_each(|(start, &floor)| *start = floor.max(*start));
    t
}
