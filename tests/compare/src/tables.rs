//! One bidder's table by itself, through the static library: filled, tested and narrowed, number by number, with arguments of every kind.

use crate::sheets::on_all_processors;
use crate::Tally;
use dewgneiss::{table_fill, table_fits};
use model::generate::too_high;
use model::lending::{free, prices, report};
use model::random::Random;
use model::tables::{self, TABLE};
use model::{ITEMS, TOP};

extern "C" {
    // As the wrapper has them, which lets no other byte than 0 and 1 through for null.
    fn dewgneiss_table_explains(
        part: *const i16,
        part_len: usize,
        items: u32,
        prices: *const u16,
        prices_len: usize,
        null: u8,
        set: u32,
    ) -> u8;
    fn dewgneiss_table_narrow(
        part: *mut i16,
        part_len: usize,
        items: u32,
        prices: *const u16,
        prices_len: usize,
        null: u8,
        set: u32,
    ) -> u8;
}

/// What is asked of a table.
#[derive(Clone, Debug)]
struct Asked {
    items: u32,
    part: Vec<i16>,
    prices: Vec<u16>,
    null: u8,
    set: u32,
}

/// The four answers, and the part after filling and after narrowing.
#[derive(Debug, PartialEq, Eq)]
struct Answers {
    filled: (u8, Vec<i16>),
    fits: u8,
    explains: u8,
    narrowed: (u8, Vec<i16>),
}

/// An argument that is mostly right, and now and then spoilt in one of these ways.
fn spoil(asked: &mut Asked, r: &mut Random) {
    let items = asked.items as usize;
    match r.within(0, 6) {
        0 => asked.items = *r.pick(&[0, items as u32 - 1, 33, 34, 256 + 1, 65_537, u32::MAX]),
        1 => asked.part.resize(*r.pick(&[0, 1, 33, TABLE - 1, TABLE + 1, 2 * TABLE]), 0),
        2 => asked.prices.resize(*r.pick(&[0, items - 1, items + 1, 32, 33, 64]), 0),
        3 => asked.prices[r.within(0, items - 1)] = too_high(r),
        4 => asked.null = *r.pick(&[2, 3, 128, 129, 254, 255]),
        5 => (asked.null, asked.set) = (0, 0),
        _ => asked.set |= 1 << r.within(0, 31),
    }
}

fn made(r: &mut Random) -> Asked {
    let items = match r.within(0, 9) {
        0 => ITEMS,
        1 => r.within(1, ITEMS),
        2..=4 => r.within(3, 8),
        _ => r.within(1, 3),
    };
    let (part, bids) = free(items, r);
    let prices = prices(&bids, r);
    let report = report(&bids, &prices, r);
    let mut asked = Asked { items: items as u32, part, prices, null: report.null.into(), set: report.items };
    if r.one_in(6) {
        spoil(&mut asked, r);
    }
    asked
}

impl Asked {
    /// The part can be filled and tested.
    fn is_part(&self) -> bool {
        (1..=ITEMS as u32).contains(&self.items) && self.part.len() == TABLE
    }

    fn second(&self) -> Answers {
        let Asked { items, part, prices, null, set } = self;
        let count = *items as usize;
        let report = tables::asked(*items, part, prices, *null, *set, TOP);
        let narrowed = report.and_then(|report| tables::narrowed(count, part, prices, report, TOP));
        let explains = report.is_some_and(|report| tables::explains(count, part, prices, report, TOP));
        let filled = if self.is_part() { tables::opening(count, TOP) } else { part.clone() };
        Answers {
            filled: (self.is_part().into(), filled),
            fits: (self.is_part() && tables::fits(count, part, TOP)).into(),
            explains: explains.into(),
            narrowed: (narrowed.is_some().into(), narrowed.unwrap_or_else(|| part.clone())),
        }
    }

    fn proved(&self) -> Answers {
        let Asked { items, ref part, ref prices, null, set } = *self;
        let (mut filled, mut narrowed) = (part.clone(), part.clone());
        let fill = table_fill(&mut filled, items);
        // SAFETY: an address and a length are those of one list; the one that is written to is lent to this call alone.
        let (explains, narrow) = unsafe {
            (
                dewgneiss_table_explains(part.as_ptr(), part.len(), items, prices.as_ptr(), prices.len(), null, set),
                dewgneiss_table_narrow(narrowed.as_mut_ptr(), narrowed.len(), items, prices.as_ptr(), prices.len(), null, set),
            )
        };
        Answers { filled: (fill.into(), filled), fits: table_fits(part, items).into(), explains, narrowed: (narrow, narrowed) }
    }
}

fn one(k: u64, r: &mut Random, tally: &mut Tally) {
    let asked = made(r);
    let (expected, given) = (asked.second(), asked.proved());
    tally.expect(given == expected, || format!("table {k}: {asked:?}\nexpected {expected:?}\ngiven {given:?}"));
}

/// The seed of the tables.
fn seed_of(seed: u64) -> u64 {
    seed.wrapping_add(11)
}

pub fn all(count: u64, seed: u64) -> Tally {
    on_all_processors(count, seed_of(seed), one)
}

#[cfg(test)]
mod tests {
    use super::*;
    use crate::sheets::random;
    use crate::{SEED, TABLES};
    use model::live::{unfit, Report};

    /// The tables of the run in which nothing else is said are of every kind, and so are the arguments.
    #[test]
    fn the_tables_reach_everything() {
        let mut times = [0; 13];
        for k in 0..TABLES {
            let asked = made(&mut random(seed_of(SEED), k));
            let answers = asked.second();
            let report = Report { null: asked.null == 1, items: asked.set };
            let part = asked.is_part();
            let right = part && asked.prices.len() == asked.items as usize;
            let high = right && asked.prices.iter().any(|&p| p > TOP);
            let refused = right && unfit(asked.items, report);
            let tight = answers.narrowed.1 == asked.part;
            for (seen, is) in times.iter_mut().zip([
                !(1..=ITEMS as u32).contains(&asked.items),
                asked.part.len() != TABLE,
                part && !right,
                high,
                refused,
                asked.null > 1,
                part && answers.fits == 0,
                answers.fits == 1 && answers.explains == 0 && right && !high && !refused && asked.null <= 1,
                answers.explains == 1,
                answers.explains == 1 && tight,
                answers.explains == 1 && !tight,
                answers.explains == 1 && asked.items == 32,
                answers.explains == 1 && asked.null == 1,
            ]) {
                *seen += usize::from(is);
            }
        }
        assert!(times.iter().all(|&n| n >= 1_000), "{times:?}");
    }
}
