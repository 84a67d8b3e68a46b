//! Generated sheets through the wrapper: as numbers and as bytes, accepted and refused.

use crate::fixed::number;
use crate::Tally;
use dewgneiss::{close_sheet, close_sheet_into, falling_first, sealed, sealed_above, turn, LONGEST_CLOSING};
use model::generate::{self, Shape, DAMAGES, SHAPES};
use model::random::Random;
use model::{flows, literal, sheet, totals, Closing, Order, Round, Sheet, RISING_FIRST};
use std::thread;

/// The wrapper's closing as the second program's.
pub fn plain(c: dewgneiss::Closing) -> Closing {
    Closing { raised: c.raised, lowered: c.lowered, prices: c.prices, names: c.names, gains: c.gains }
}

/// The wrapper's closings of a sheet with its floors, rising first and falling first.
pub fn in_both_orders(s: &Sheet) -> [Result<Closing, dewgneiss::Refusal>; 2] {
    [sealed_above, falling_first].map(|entry| entry(s.items as u32, s.bidders as u32, &s.start, &s.floors, &s.bids).map(plain))
}

/// What the k-th thing of a seed is made from.
pub fn random(seed: u64, k: u64) -> Random {
    Random::new(seed.wrapping_mul(0x1000_0001) ^ k << 20)
}

/// Compares `count` things on all processors; the k-th is made from the seed and k alone.
pub fn on_all_processors(count: u64, seed: u64, one: impl Fn(u64, &mut Random, &mut Tally) + Sync) -> Tally {
    let workers = thread::available_parallelism().map_or(1, |n| n.get() as u64);
    thread::scope(|scope| {
        let work = |w: u64| {
            let mut tally = Tally::default();
            for k in (w..count).step_by(workers as usize) {
                one(k, &mut random(seed, k), &mut tally);
            }
            tally
        };
        let running: Vec<_> = (0..workers).map(|w| scope.spawn(move || work(w))).collect();
        let mut total = Tally::default();
        running.into_iter().for_each(|r| total.add(r.join().expect("the second program ends")));
        total
    })
}

/// What the second program makes of a sheet: the rounds in this order, the prices at the turn and the closing; and whether its methods are of one mind, by the
/// letter where that ends, and by totals for a sample.
pub struct Second {
    pub path: Vec<Round>,
    pub turn: Vec<u16>,
    pub closing: Closing,
    by_letter: bool,
    by_totals: bool,
}

impl Second {
    pub fn of(s: &Sheet, order: Order, shape: Shape, k: u64) -> Second {
        let path = flows::path_in(s, order);
        let turn = flows::turn_in(s, order, &path);
        let closing = flows::close_after(s, &path);
        let by_letter = shape != Shape::Small || literal::close_in(s, order) == closing;
        // A step that shares no factor with those by which shapes and floors are chosen, for a sample of all of them.
        let by_totals = k % 97 != 1
            || totals::turn_and_close(s, order) == (turn.clone(), closing.prices.clone()) && totals::gains(s) == closing.gains;
        Second { path, turn, closing, by_letter, by_totals }
    }

    pub fn of_one_mind(&self) -> bool {
        self.by_letter && self.by_totals
    }

    /// What is expected, to be printed.
    pub fn text(&self) -> String {
        let Second { turn, closing, by_letter, by_totals, .. } = self;
        format!("expected {closing:?}, turn {turn:?} (by the letter {by_letter}, by totals {by_totals})")
    }
}

fn one_accepted(k: u64, r: &mut Random, tally: &mut Tally) {
    let shape = match k % 40 {
        0 => Shape::Long,
        k => SHAPES[k as usize % (SHAPES.len() - 1)],
    };
    let s = generate::sheet(shape, r);
    let second = Second::of(&s, RISING_FIRST, shape, k);
    let numbers = sealed(s.items as u32, s.bidders as u32, &s.start, &s.bids);
    let bytes = close_sheet(&sheet::write(&s));
    // The wrapper's turn takes two more runs: every fourth sheet.
    let turned = match &numbers {
        Ok(closing) if k % 4 == 0 => turn(&s.start, &s.bids, closing),
        _ => Ok(second.turn.clone()),
    };
    // Floors of 0 are none.
    let above = k % 4 != 1 || sealed_above(s.items as u32, s.bidders as u32, &s.start, &s.floors, &s.bids) == numbers;
    let same = numbers.clone().map(plain).as_ref() == Ok(&second.closing)
        && above
        && bytes == Ok(sheet::write_closing(&second.closing))
        && turned.as_ref() == Ok(&second.turn);
    tally.expect(second.of_one_mind() && same, || {
        let (text, expected) = (String::from_utf8_lossy(&sheet::write(&s)).into_owned(), second.text());
        format!("sheet {k} ({shape:?}):\n{text}{expected}\nnumbers {numbers:?}, with floors of 0 {above}, turn {turned:?}\nbytes {bytes:?}")
    });
}

/// Sheets of every kind, within the limits.
pub fn accepted(count: u64, seed: u64) -> Tally {
    on_all_processors(count, seed, one_accepted)
}

/// The lent bytes after a call that writes these to their front.
pub fn after(lent: &[u8], written: &[u8]) -> Vec<u8> {
    [written, &lent[written.len()..]].concat()
}

fn one_damaged(k: u64, r: &mut Random, tally: &mut Tally) {
    let shape = *r.pick(&[Shape::Small, Shape::Small, Shape::Ties, Shape::Ring]);
    let s = generate::sheet(shape, r);
    let damage = DAMAGES[k as usize % DAMAGES.len()];
    let bytes = if r.one_in(4) { sheet::write(&s) } else { generate::damaged(&s, damage, r) };
    // The length of a live read's three lines is no room for four.
    let (short, needed) = (sheet::live_length(s.items, s.bidders), sheet::closing_length(s.items, s.bidders));
    let room = *r.pick(&[0, short - 1, short, short + 1, needed - 1, needed, needed + 1, LONGEST_CLOSING, 600]);
    let lent: Vec<u8> = (0..room).map(|_| r.draw() as u8).collect();
    let expected = sheet::close(&bytes, room);
    let mut out = lent.clone();
    let given = number(&close_sheet_into(&bytes, &mut out));
    let same = given == expected.as_ref().err().copied().unwrap_or(0) && out == after(&lent, expected.as_deref().unwrap_or(&[]));
    tally.expect(same, || {
        format!("damaged sheet {k} ({damage:?}), room {room}: {:?}\nexpected {expected:?}, given {given}, {out:?}", text(&bytes))
    });
}

/// The start of some bytes, to be printed.
pub fn text(bytes: &[u8]) -> String {
    String::from_utf8_lossy(&bytes[..bytes.len().min(400)]).into_owned()
}

/// Damaged sheets, and good ones between them, with rooms that are too small, just enough and larger.
pub fn damaged(count: u64, seed: u64) -> Tally {
    on_all_processors(count, seed.wrapping_add(1), one_damaged)
}
