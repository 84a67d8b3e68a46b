//! Tables for the comparison, from a seed: for a call on one table, and for calls of a live list that lends others than the last call left.

use crate::flows::{self, Demand};
use crate::live::Held;
use crate::random::Random;
use crate::tables::{narrowed, opening, OPTIONS, TABLE};
use crate::{ITEMS, LIVE_BIDDERS, TOP};

/// Bids, and prices near them, so that most options are close to being demanded.
fn bids(items: usize, r: &mut Random) -> Vec<u16> {
    let top = *r.pick(&[2, 9, 60, TOP, TOP]);
    (0..items).map(|_| if r.one_in(6) { *r.pick(&[0, 1, top]) } else { r.amount(top) }).collect()
}

pub fn prices(bids: &[u16], r: &mut Random) -> Vec<u16> {
    let spread = *r.pick(&[0, 1, 2, 40]);
    let less = r.amount(3);
    let near = |bid: u16, r: &mut Random| (bid + r.amount(spread)).saturating_sub(less).min(TOP);
    bids.iter().map(|&bid| if r.one_in(8) { r.amount(TOP) } else { near(bid, r) }).collect()
}

/// The report of these bids, now and then with an option more or less, or anything.
pub fn report(bids: &[u16], prices: &[u16], r: &mut Random) -> Demand {
    let mut report = flows::demand(bids, prices);
    match r.within(0, 9) {
        0 => report.null = !report.null,
        1 | 2 => report.items ^= 1 << r.within(0, bids.len() - 1),
        3 => report = Demand { null: r.one_in(2), items: r.draw() as u32 & ((1u64 << bids.len()) - 1) as u32 },
        _ => {}
    }
    report
}

/// A number of a table.
fn place(i: usize, j: usize) -> usize {
    i * OPTIONS + j
}

/// A table by places within the count.
fn table(items: usize, mut number: impl FnMut(usize, usize) -> i32) -> Vec<i16> {
    let mut part = vec![0; TABLE];
    for i in 0..=items {
        for j in 0..=items {
            part[place(i, j)] = number(i, j).clamp(-i32::from(TOP), TOP.into()) as i16;
        }
    }
    part
}

fn difference(bids: &[u16], i: usize, j: usize) -> i32 {
    let bid = |i: usize| if i == 0 { 0 } else { i32::from(bids[i - 1]) };
    bid(i) - bid(j)
}

/// The table that these bids alone meet.
pub fn exact(bids: &[u16]) -> Vec<i16> {
    table(bids.len(), |i, j| difference(bids, i, j))
}

/// The table after some truthful reports.
fn reported(bids: &[u16], r: &mut Random) -> Vec<i16> {
    let mut part = opening(bids.len(), TOP);
    for _ in 0..r.within(1, 4) {
        let prices = prices(bids, r);
        part = narrowed(bids.len(), &part, &prices, flows::demand(bids, &prices), TOP).expect("these bids explain");
    }
    part
}

/// A few numbers changed, by little or to anything that may stand there.
fn shaken(part: &mut [i16], items: usize, r: &mut Random) {
    for _ in 0..r.within(1, 3) {
        let at = place(r.within(0, items), r.within(0, items));
        let by = r.within(0, 6) as i16 - 3;
        part[at] = if r.one_in(3) { r.within(0, 8190) as i16 - 4095 } else { (part[at] + by).clamp(-4095, 4095) };
    }
}

/// What 11 turns down whatever the rest is: a number beyond the range, or one for an item beyond the count. With 32 items there is no such place.
fn spoilt(part: &mut [i16], items: usize, r: &mut Random) {
    if items == ITEMS || r.one_in(2) {
        part[place(r.within(0, items), r.within(0, items))] = *r.pick(&[4096, -4096, i16::MAX, i16::MIN]);
    } else {
        let (far, any) = (r.within(items + 1, ITEMS), r.within(0, ITEMS));
        part[if r.one_in(2) { place(far, any) } else { place(any, far) }] = *r.pick(&[1, -1, 4095, i16::MIN]);
    }
}

/// A table of any kind, and bids that most kinds are made from.
pub fn free(items: usize, r: &mut Random) -> (Vec<i16>, Vec<u16>) {
    let bids = bids(items, r);
    let mut part = match r.within(0, 7) {
        0 => opening(items, TOP),
        1 => exact(&bids),
        2 | 3 => reported(&bids, r),
        4 | 5 => {
            let slack = *r.pick(&[1, 3, 100, 5000]);
            table(items, |i, j| difference(&bids, i, j) + r.within(0, slack) as i32)
        }
        6 => {
            let spread = *r.pick(&[1, 3, 4095]);
            table(items, |_, _| r.within(0, 2 * spread) as i32 - spread as i32)
        }
        // Mostly 0 or more, so that a way round below 0 is long.
        _ => table(items, |_, _| if r.one_in(12) { -(r.amount(2) as i32) } else { r.amount(TOP).into() }),
    };
    if r.one_in(4) {
        shaken(&mut part, items, r);
    }
    if r.one_in(12) {
        spoilt(&mut part, items, r);
    }
    (part, bids)
}

/// How the tables that a live call brings differ from those that the last call left.
#[derive(Clone, Copy, Debug, PartialEq, Eq)]
pub enum Lending {
    /// The opening's, for all bidders.
    Refilled,
    /// One bidder's is the opening's.
    OneRefilled,
    /// Some numbers are higher.
    Loosened,
    /// One bidder's is that of some bids alone, whatever was reported.
    Exact,
    /// A few numbers of one bidder's are changed.
    Shaken,
    /// One bidder's is turned down by 11.
    Spoilt,
    /// There are more or fewer numbers.
    Length,
}

pub const LENDINGS: [Lending; 7] = [
    Lending::Refilled,
    Lending::OneRefilled,
    Lending::Loosened,
    Lending::Exact,
    Lending::Shaken,
    Lending::Spoilt,
    Lending::Length,
];

/// The tables that are brought in place of those that are held.
pub fn lent(held: &Held, lending: Lending, r: &mut Random) -> Vec<i16> {
    let (items, bidders) = (held.record.items as usize, held.record.bidders as usize);
    let mut tables = held.tables.clone();
    let at = r.within(0, bidders - 1) * TABLE;
    let part = &mut tables[at..at + TABLE];
    match lending {
        Lending::Refilled => tables = opening(items, TOP).repeat(bidders),
        Lending::OneRefilled => part.copy_from_slice(&opening(items, TOP)),
        Lending::Loosened => {
            for _ in 0..r.within(1, 20) {
                let number = &mut part[place(r.within(0, items), r.within(0, items))];
                *number = number.saturating_add(r.amount(50) as i16).min(4095);
            }
        }
        Lending::Exact => {
            // Half of them near the prices, where bids that explain a report lie.
            let near = prices(held.record.prices(), r);
            let any = bids(items, r);
            part.copy_from_slice(&exact(if r.one_in(2) { &near } else { &any }));
        }
        Lending::Shaken => shaken(part, items, r),
        Lending::Spoilt => spoilt(part, items, r),
        Lending::Length => {
            let exact = tables.len();
            tables.resize(*r.pick(&[0, 1, exact - 1, exact + 1, exact - TABLE, exact + TABLE, LIVE_BIDDERS * TABLE + 1]), 0);
        }
    }
    tables
}
