//! Generated sheets with floors through the wrapper, accepted ones, in both orders: the closing, the turn, and the reasons of the rounds.

use crate::reasons::plain as plain_reason;
use crate::sheets::{in_both_orders, on_all_processors, plain, Second};
use crate::Tally;
use dewgneiss::{
    falling_first, falling_reasons, falling_turn, reasons_above, sealed_above, turn_above, Closing, NoTurn, Reason, Refusal,
};
use model::generate::{self, Floors, Shape, FLOORS, SHAPES};
use model::random::Random;
use model::{reasons, Order, Sheet, FALLING_FIRST, RISING_FIRST};

/// The k-th sheet.
fn made(k: u64, r: &mut Random) -> (Shape, Sheet) {
    let shape = match k % 60 {
        0 => Shape::Long,
        k => SHAPES[k as usize % (SHAPES.len() - 1)],
    };
    (shape, generate::floored(generate::sheet(shape, r), floors(k), r))
}

/// The kind of its floors. By k alone the kinds of sheets would not meet all kinds of floors.
fn floors(k: u64) -> Floors {
    FLOORS[(k + k / 60) as usize % FLOORS.len()]
}

/// The same for falling first: every other one starts high.
fn made_falling(k: u64, r: &mut Random) -> (Shape, Sheet) {
    let (shape, s) = made(k, r);
    (shape, if r.one_in(2) { generate::started_high(s, r) } else { s })
}

/// How the wrapper lets a sheet with its floors in one order: the closing, and the turn and the reasons, which are plain Rust over the proved code.
struct Calls {
    order: Order,
    close: fn(u32, u32, &[u16], &[u16], &[u16]) -> Result<Closing, Refusal>,
    turn: fn(&[u16], &[u16], &[u16], &Closing) -> Result<Vec<u16>, NoTurn>,
    reasons: fn(u32, u32, &[u16], &[u16], &[u16]) -> Result<Vec<Reason>, Refusal>,
}

const RISING: Calls = Calls { order: RISING_FIRST, close: sealed_above, turn: turn_above, reasons: reasons_above };
const FALLING: Calls = Calls { order: FALLING_FIRST, close: falling_first, turn: falling_turn, reasons: falling_reasons };

fn one(calls: &Calls, (shape, s): (Shape, Sheet), k: u64, tally: &mut Tally) {
    let second = Second::of(&s, calls.order, shape, k);
    let (items, bidders) = (s.items as u32, s.bidders as u32);
    let closing = (calls.close)(items, bidders, &s.start, &s.floors, &s.bids);
    // The turn and the reasons take more runs: every fourth sheet.
    let turned = match &closing {
        Ok(closing) if k % 4 == 2 => (calls.turn)(&s.start, &s.floors, &s.bids, closing),
        _ => Ok(second.turn.clone()),
    };
    let moved = k % 4 != 1 || {
        let given = (calls.reasons)(items, bidders, &s.start, &s.floors, &s.bids);
        given.is_ok_and(|given| given.iter().copied().eq(reasons::along(&s, &second.path).iter().map(plain_reason)))
    };
    // In either order it closes at the same prices with the same names and gains.
    let alike =
        in_both_orders(&s).iter().all(|c| c.as_ref().is_ok_and(|c| c.without_rounds() == second.closing.without_rounds()));
    let same = closing.clone().map(plain).as_ref() == Ok(&second.closing) && turned.as_ref() == Ok(&second.turn) && moved;
    tally.expect(second.of_one_mind() && same && alike, || {
        let (order, expected) = (calls.order, second.text());
        format!("with floors {k} ({shape:?}, {order:?}): {s:?}\n{expected}\ngiven {closing:?}, turn {turned:?}, rounds the same {moved}, orders alike {alike}")
    });
}

/// Sheets of every kind, with floors of every kind, within the limits.
pub fn accepted(count: u64, seed: u64) -> Tally {
    on_all_processors(count, seed.wrapping_add(6), |k, r, tally| one(&RISING, made(k, r), k, tally))
}

/// The same falling first.
pub fn falling(count: u64, seed: u64) -> Tally {
    on_all_processors(count, seed.wrapping_add(9), |k, r, tally| one(&FALLING, made_falling(k, r), k, tally))
}

#[cfg(test)]
mod tests {
    use super::*;
    use crate::sheets::random;
    use crate::{SEED, SHEETS};

    /// The sheets falling first of the run in which nothing else is said: each kind of sheet with each kind of floors; many that only fall, only rise or do both,
    /// and many whose rounds are more or fewer than rising first. The rounds are the wrapper's, which the run holds to the second program.
    #[test]
    fn the_sheets_falling_first_have_falls_and_rises() {
        let mut kinds = [[0; FLOORS.len()]; SHAPES.len()];
        let (mut falls, mut rises, mut both, mut more, mut fewer) = (0, 0, 0, 0, 0);
        for k in 0..SHEETS / 4 {
            let (shape, s) = made_falling(k, &mut random(SEED.wrapping_add(9), k));
            kinds[shape as usize][floors(k) as usize] += 1;
            let [rising, falling] = in_both_orders(&s).map(|closing| closing.expect("it is within the limits"));
            match (falling.lowered, falling.raised) {
                (0, 0) => {}
                (_, 0) => falls += 1,
                (0, _) => rises += 1,
                _ => both += 1,
            }
            let [rising, falling] = [rising, falling].map(|c| c.raised + c.lowered);
            more += usize::from(falling > rising);
            fewer += usize::from(falling < rising);
        }
        assert!(kinds.as_flattened().iter().all(|&n| n >= 20), "{kinds:?}");
        assert!(falls >= 1_000 && rises >= 500 && both >= 1_000, "{falls}, {rises}, {both}");
        assert!(more >= 500 && fewer >= 300, "{more}, {fewer}");
    }
}
