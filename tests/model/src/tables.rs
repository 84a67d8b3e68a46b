//! Tables of the largest differences between two bids (document 02, #107), as distances: the most that one bid may lie above another is the length of a
//! shortest way between the two options, over everything that bounds a difference. Ways are found by Bellman and Ford's rounds, from every option anew.
//!
//! A table has a row and a column for each option, place 0 for null and place i for item i, and stands row after row in [`TABLE`] numbers. `top` is the highest
//! bid: 4,095, or less where every bid is tried.

use crate::live::{unfit, Report};
use crate::ITEMS;

/// Null and every item.
pub const OPTIONS: usize = ITEMS + 1;
/// The numbers of one bidder's table.
pub const TABLE: usize = OPTIONS * OPTIONS;

/// What bounds the bids: in the row of option i and the column of option j, for the bid of i less that of j.
struct Bounds {
    options: usize,
    most: Vec<i32>,
}

/// Further than any way can lead.
const FAR: i32 = i32::MAX / 4;

impl Bounds {
    /// Bids from 0 to the top, null's being 0.
    fn within(items: usize, top: u16) -> Bounds {
        let options = items + 1;
        let mut bounds = Bounds { options, most: vec![FAR; options * options] };
        bounds.hold(0, 0, 0);
        for i in 1..=items {
            bounds.hold(i, 0, i32::from(top));
            bounds.hold(0, i, 0);
        }
        bounds
    }

    fn hold(&mut self, i: usize, j: usize, most: i32) {
        let place = &mut self.most[i * self.options + j];
        *place = most.min(*place);
    }

    /// And meeting the table, its diagonal included.
    fn meeting(mut self, part: &[i16]) -> Bounds {
        for (row, numbers) in self.most.chunks_mut(self.options).zip(part.chunks(OPTIONS)) {
            row.iter_mut().zip(numbers).for_each(|(most, &number)| *most = i32::from(number).min(*most));
        }
        self
    }

    /// And demanding exactly what is reported at these prices. Each demanded option is held against every other: nothing gains more, and what is not demanded
    /// gains less or is an item bid 0 for. A demanded item is not bid 0 for.
    fn explaining(mut self, prices: &[u16], report: Report) -> Bounds {
        let price = |i: usize| if i == 0 { 0 } else { i32::from(prices[i - 1]) };
        let demanded = |i: usize| if i == 0 { report.null } else { report.items >> (i - 1) & 1 == 1 };
        for d in (0..self.options).filter(|&d| demanded(d)) {
            for i in (0..self.options).filter(|&i| i != d) {
                // Bid 0 for and yet no worse: only where the gain of both is 0, so only at price 0 beside null, where a gain of at most 0 is a bid of 0.
                let free = report.null && i > 0 && price(i) == 0;
                self.hold(i, d, price(i) - price(d) - i32::from(!(demanded(i) || free)));
            }
            if d > 0 {
                self.hold(0, d, -1);
            }
        }
        self
    }

    /// The most that each option's bid may lie above that of `from`; none where a way round comes out below 0, so that no bids are within the bounds.
    fn ways(&self, from: usize) -> Option<Vec<i32>> {
        let mut way = vec![FAR; self.options];
        way[from] = 0;
        for _ in 0..=self.options {
            // No sum comes near the limits of 32 bits, and without a test for them the compiler takes several at a time.
            let shorter = |(row, &last): (&[i32], &i32)| {
                row.iter().zip(&way).fold(last, |least, (most, &way)| least.min(most.wrapping_add(way)))
            };
            let next: Vec<i32> = self.most.chunks(self.options).zip(&way).map(shorter).collect();
            if next == way {
                return Some(way);
            }
            way = next;
        }
        None
    }

    /// Some bids are within the bounds. From null there is a way to every option, and so to every way round.
    fn some(&self) -> bool {
        self.ways(0).is_some()
    }

    /// The table in which every number is the largest that bids within the bounds reach; none where there are no such bids.
    fn largest(&self) -> Option<Vec<i16>> {
        let mut table = vec![0; TABLE];
        for j in 0..self.options {
            for (i, &way) in self.ways(j)?.iter().enumerate() {
                table[i * OPTIONS + j] = i16::try_from(way).expect("a difference of two bids");
            }
        }
        Some(table)
    }
}

/// The table of all bids.
pub fn opening(items: usize, top: u16) -> Vec<i16> {
    Bounds::within(items, top).largest().expect("bids of 0")
}

/// Number 11 does not apply to the table.
pub fn fits(items: usize, part: &[i16], top: u16) -> bool {
    let range = -(top as i16)..=top as i16;
    let stands = |(i, row): (usize, &[i16])| {
        let (numbers, beyond) = row.split_at(if i > items { 0 } else { items + 1 });
        numbers.iter().all(|x| range.contains(x)) && beyond.iter().all(|&x| x == 0)
    };
    part.chunks(OPTIONS).enumerate().all(stands) && Bounds::within(items, top).meeting(part).some()
}

fn explaining(items: usize, part: &[i16], prices: &[u16], report: Report, top: u16) -> Bounds {
    Bounds::within(items, top).meeting(part).explaining(&prices[..items], report)
}

/// Number 19 does not apply to the report, one that 8 does not refuse, beside a table that fits.
pub fn explains(items: usize, part: &[i16], prices: &[u16], report: Report, top: u16) -> bool {
    explaining(items, part, prices, report, top).some()
}

/// The table of the bids that met it and explain the report; none where 19 applies.
pub fn narrowed(items: usize, part: &[i16], prices: &[u16], report: Report, top: u16) -> Option<Vec<i16>> {
    explaining(items, part, prices, report, top).largest()
}

/// A call on one table by itself, which may bring anything: whether a report can be asked of it at all.
pub fn asked(items: u32, part: &[i16], prices: &[u16], null: u8, set: u32, top: u16) -> Option<Report> {
    let report = Report { null: null == 1, items: set };
    let right = (1..=ITEMS as u32).contains(&items) && part.len() == TABLE && prices.len() == items as usize && null <= 1;
    let taken = right && prices.iter().all(|&p| p <= top) && !unfit(items, report) && fits(items as usize, part, top);
    taken.then_some(report)
}
