//! The sealed auction on lent memory, without floors, with them and falling first: lengths that do not fit, amounts too high, floors too high, counts out of range, several at
//! once; after a refusal the lent memory is as it came.

use crate::fixed::number;
use crate::sheets::on_all_processors;
use crate::Tally;
use dewgneiss::{falling_first_into, sealed_above_into, sealed_into};
use model::generate::{self, too_high, Shape};
use model::random::Random;
use model::{flows, sealed_refusal, sealed_refusal_above, Sheet, FALLING_FIRST, RISING_FIRST};

/// A length near the exact one, mostly exact.
fn near(exact: usize, r: &mut Random) -> usize {
    match r.within(0, 9) {
        0 => exact + 1,
        1 => exact.saturating_sub(1),
        2 => r.within(0, 70),
        _ => exact,
    }
}

/// A length that fits a count, or one near that of the sheet.
fn length(count: usize, of_sheet: usize, r: &mut Random) -> usize {
    if r.one_in(4) {
        near(of_sheet, r)
    } else {
        count
    }
}

fn filled<T: Copy>(count: usize, mut value: impl FnMut() -> T) -> Vec<T> {
    (0..count).map(|_| value()).collect()
}

/// The entries that write a close into lent memory.
#[derive(Clone, Copy, Debug, PartialEq, Eq)]
pub enum Entry {
    Sealed,
    SealedAbove,
    FallingFirst,
}

impl Entry {
    fn has_floors(self) -> bool {
        self != Entry::Sealed
    }

    /// The seed of its calls.
    fn seed(self, seed: u64) -> u64 {
        seed.wrapping_add(match self {
            Entry::Sealed => 2,
            Entry::SealedAbove => 7,
            Entry::FallingFirst => 10,
        })
    }
}

/// The memory that is lent for the results.
#[derive(Clone, Debug, PartialEq, Eq)]
struct Lent {
    rounds: Vec<u32>,
    prices: Vec<u16>,
    names: Vec<u8>,
    gains: Vec<u16>,
}

/// A call of an entry: counts, a sheet whose lists need not fit them, and what is lent.
#[derive(Debug)]
struct Call {
    entry: Entry,
    items: u32,
    bidders: u32,
    sheet: Sheet,
    lent: Lent,
}

/// A floor above 4,095, or above its starting price; floors of another length.
fn spoil_floors(s: &mut Sheet, r: &mut Random) {
    if r.one_in(8) {
        let at = r.within(0, s.floors.len() - 1);
        s.floors[at] = too_high(r);
    }
    if r.one_in(8) {
        let at = r.within(0, s.floors.len() - 1);
        s.floors[at] = s.start[at].saturating_add(1);
    }
    if r.one_in(10) {
        let exact = s.floors.len();
        s.floors.resize(*r.pick(&[exact + 1, exact - 1, 0, 32]), 0);
    }
}

fn made(entry: Entry, r: &mut Random) -> Call {
    let shape = *r.pick(&[Shape::Small, Shape::Ties, Shape::Ring]);
    let mut s = if entry.has_floors() { generate::sheet_above(shape, r) } else { generate::sheet(shape, r) };
    let (mut items, mut bidders) = (s.items as u32, s.bidders as u32);
    if r.one_in(10) {
        items = *r.pick(&[0, 1, 32, 33, 257, 65_537, u32::MAX]);
    }
    if r.one_in(10) {
        bidders = *r.pick(&[0, 1, 64, 65, 257, 65_537, u32::MAX]);
    }
    if r.one_in(8) {
        let at = r.within(0, s.start.len() - 1);
        s.start[at] = *r.pick(&[4096, 65_535]);
    }
    if r.one_in(8) {
        let at = r.within(0, s.bids.len() - 1);
        s.bids[at] = *r.pick(&[4096, 65_535]);
    }
    if entry.has_floors() {
        spoil_floors(&mut s, r);
    }
    if r.one_in(8) {
        s.start.resize(near(s.start.len(), r), 0);
    }
    if r.one_in(8) {
        s.bids.resize(near(s.bids.len(), r), 0);
    }
    // Counts out of range are refused before any length is looked at, and need not be lent for.
    let counts = (items.min(40) as usize, bidders.min(70) as usize);
    let rounds = filled(length(2, 2, r), || r.draw() as u32);
    let prices = filled(length(counts.0, s.items, r), || r.draw() as u16);
    let names = filled(length(counts.1, s.bidders, r), || r.draw() as u8);
    let gains = filled(length(counts.1, s.bidders, r), || r.draw() as u16);
    Call { entry, items, bidders, sheet: s, lent: Lent { rounds, prices, names, gains } }
}

impl Lent {
    fn lengths(&self) -> [usize; 4] {
        [self.rounds.len(), self.prices.len(), self.names.len(), self.gains.len()]
    }
}

impl Call {
    /// The lengths that fit the counts.
    fn exact(&self) -> [usize; 4] {
        [2, self.items as usize, self.bidders as usize, self.bidders as usize]
    }

    /// The number that the call is to give, or 0.
    fn number(&self) -> u8 {
        let Call { items, bidders, ref sheet, .. } = *self;
        let refusal = if self.entry.has_floors() {
            sealed_refusal_above(items, bidders, &sheet.start, &sheet.floors, &sheet.bids)
        } else {
            sealed_refusal(items, bidders, &sheet.start, &sheet.bids)
        };
        match refusal {
            Some(n @ 1..=3) => n,
            _ if self.lent.lengths() != self.exact() => 3,
            other => other.unwrap_or(0),
        }
    }

    /// The lent memory after the call.
    fn after(&self) -> Lent {
        if self.number() != 0 {
            return self.lent.clone();
        }
        let order = if self.entry == Entry::FallingFirst { FALLING_FIRST } else { RISING_FIRST };
        let sheet = Sheet { items: self.items as usize, bidders: self.bidders as usize, ..self.sheet.clone() };
        let c = flows::close_in(&sheet, order);
        Lent { rounds: vec![c.raised, c.lowered], prices: c.prices, names: c.names, gains: c.gains }
    }

    /// The number that it gives, and the lent memory after it.
    fn given(&self) -> (u8, Lent) {
        let Call { items, bidders, sheet: ref s, .. } = *self;
        let mut after = self.lent.clone();
        let Lent { rounds, prices, names, gains } = &mut after;
        let answer = match self.entry {
            Entry::Sealed => sealed_into(items, bidders, &s.start, &s.bids, rounds, prices, names, gains),
            Entry::SealedAbove => sealed_above_into(items, bidders, &s.start, &s.floors, &s.bids, rounds, prices, names, gains),
            Entry::FallingFirst => falling_first_into(items, bidders, &s.start, &s.floors, &s.bids, rounds, prices, names, gains),
        };
        (number(&answer), after)
    }
}

fn one(entry: Entry, k: u64, r: &mut Random, tally: &mut Tally) {
    let call = made(entry, r);
    let (expected, given) = ((call.number(), call.after()), call.given());
    tally.expect(given == expected, || format!("lent {k}: {call:?}\nexpected {expected:?}, given {given:?}"));
}

pub fn all(entry: Entry, count: u64, seed: u64) -> Tally {
    on_all_processors(count, entry.seed(seed), |k, r, tally| one(entry, k, r, tally))
}

#[cfg(test)]
mod tests {
    use super::*;
    use crate::sheets::random;
    use crate::{SEED, SHEETS};
    use model::{below_floor, TOP};

    /// The calls with floors of the run in which nothing else is said, rising first and falling first, are accepted or get every number, also where 18 stands
    /// beside 4 or 5. Some of those that are accepted have falls as well as rises.
    #[test]
    fn the_calls_with_floors_reach_every_number() {
        for entry in [Entry::SealedAbove, Entry::FallingFirst] {
            let calls: Vec<Call> = (0..SHEETS / 6).map(|k| made(entry, &mut random(entry.seed(SEED), k))).collect();
            let under = |c: &Call| below_floor(&c.sheet.start, &c.sheet.floors);
            let times =
                |number: u8, which: &dyn Fn(&Call) -> bool| calls.iter().filter(|c| c.number() == number && which(c)).count();
            for number in [0, 1, 2, 3, 4, 18, 5] {
                assert!(times(number, &|_| true) >= 100, "{entry:?}: only {} get {number}", times(number, &|_| true));
            }
            let bids_too_high = |c: &Call| c.sheet.bids.iter().any(|&bid| bid > TOP);
            let lengths = |c: &Call| c.sheet.floors.len() != c.items as usize && c.sheet.start.len() == c.items as usize;
            let lent =
                |c: &Call| sealed_refusal_above(c.items, c.bidders, &c.sheet.start, &c.sheet.floors, &c.sheet.bids).is_none();
            for (what, count) in [
                ("4 before 18", times(4, &under)),
                ("18 before 5", times(18, &bids_too_high)),
                ("3 for floors alone", times(3, &lengths)),
                ("3 for what is lent alone", times(3, &lent)),
                ("3 for gains alone", times(3, &|c| lent(c) && c.lent.lengths()[..3] == c.exact()[..3])),
                ("18 for a starting price alone", times(18, &|c| c.sheet.floors.iter().all(|&floor| floor <= TOP))),
                ("both falls and rises", times(0, &|c| !c.after().rounds.contains(&0))),
            ] {
                assert!(count >= 40, "{entry:?}: only {count} times {what}");
            }
        }
    }
}
