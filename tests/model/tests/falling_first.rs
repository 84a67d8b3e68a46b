//! Document 02, #104: falling first. What is claimed of its turn is tried on small sheets with every price vector.

mod small;

use model::cases::table;
use model::generate::{sheet_above, started_high, Shape, SHAPES};
use model::literal::{close, close_in, demand, path_by};
use model::random::Random;
use model::{flows, totals, Kind, Round, Sheet, FALLING_FIRST, ORDERS};
use small::{below, sets, small_sheets, vectors};

/// Small sheets with floors of every kind, two of three starting high.
fn sheets(seed: u64, count: usize) -> impl Iterator<Item = Sheet> {
    let mut r = Random::new(seed + 50);
    small_sheets(seed, count).enumerate().map(move |(k, s)| if k % 3 == 0 { s } else { started_high(s, &mut r) })
}

/// The rounds falling first, and the prices at their turn.
fn falls_first(s: &Sheet) -> (Vec<Round>, Vec<u16>) {
    let rounds = path_by(s, FALLING_FIRST, demand);
    let turn = flows::turn_in(s, FALLING_FIRST, &rounds);
    (rounds, turn)
}

/// Example 6 from (4, 4): 4 falls to the turn at (0, 4), and 2 rises to the close at (2, 6).
#[test]
fn example_6() {
    let s = &table()[0].sheet;
    let (rounds, turn) = falls_first(s);
    let kinds = [[Kind::Lowered; 4].as_slice(), &[Kind::Raised; 2]].concat();
    assert_eq!(rounds.iter().map(|r| r.kind).collect::<Vec<_>>(), kinds);
    let prices = [[3, 4], [2, 4], [1, 4], [0, 4], [1, 5], [2, 6]];
    assert_eq!(rounds.iter().map(|r| &r.prices[..]).collect::<Vec<_>>(), prices);
    assert_eq!(turn, [0, 4]);
    let closing = close_in(s, FALLING_FIRST);
    assert_eq!((closing.lowered, closing.raised), (4, 2));
    assert_eq!((closing.prices, closing.names, closing.gains), (vec![2, 6], vec![0, 2, 1], vec![0, 1, 4]));
}

/// Of all prices at or below the starting prices the turn is the greatest that leave the falling set empty.
#[test]
fn the_turn_is_greatest() {
    let mut others = 0;
    for s in sheets(401, 600) {
        let (_, turn) = falls_first(&s);
        let empty = |prices: &[u16]| sets(&s, prices).1 == 0;
        assert!(below(&turn, &s.start) && empty(&turn), "{s:?}: {turn:?}");
        for prices in vectors(&s).filter(|p| below(p, &s.start) && empty(p)) {
            assert!(below(&prices, &turn), "{s:?}: {turn:?} and {prices:?}");
            others += usize::from(prices != turn);
        }
        assert_eq!(totals::turn_and_close(&s, FALLING_FIRST).0, turn, "{s:?}");
    }
    assert!(others > 1_000, "{others}");
}

/// The turn is when the falling set is first empty; it stays empty, and the close is when the rising set is first empty from the turn on. No price is ever
/// below its floor. The rounds lowered are the largest fall to the turn, the rounds raised the largest rise from there.
#[test]
fn the_rounds() {
    let (mut both, mut longer, mut shorter) = (0, 0, 0);
    for s in sheets(402, 3_000) {
        let (rounds, turn) = falls_first(&s);
        let closing = close_in(&s, FALLING_FIRST);
        let lowered = closing.lowered as usize;
        let prices: Vec<&Vec<u16>> = std::iter::once(&s.start).chain(rounds.iter().map(|r| &r.prices)).collect();
        for (k, prices) in prices.iter().enumerate() {
            let (rising, falling) = sets(&s, prices);
            assert_eq!(falling == 0, k >= lowered, "{s:?}: {rounds:?}");
            assert!(k < lowered || (rising == 0) == (k == rounds.len()), "{s:?}: {rounds:?}");
            assert!(below(&s.floors, prices), "{s:?}: {rounds:?}");
        }
        assert_eq!((prices[lowered], prices[rounds.len()]), (&turn, &closing.prices), "{s:?}");
        assert!(below(&turn, &s.start) && below(&turn, &closing.prices), "{s:?}: {turn:?}");
        assert_eq!(totals::rounds(&s, &turn, &closing.prices), (closing.raised, closing.lowered), "{s:?}");
        let rising_first = flows::path(&s).len();
        both += usize::from(closing.raised > 0 && closing.lowered > 0);
        longer += usize::from(rounds.len() > rising_first);
        shorter += usize::from(rounds.len() < rising_first);
    }
    assert!(both > 150 && longer > 50 && shorter > 50, "{both}, {longer}, {shorter}");
}

/// The prices, names and gains of rising first; by the letter and by closure.
#[test]
fn the_same_close() {
    for s in sheets(403, 3_000) {
        let [first, closing] = [close(&s), close_in(&s, FALLING_FIRST)];
        assert_eq!(first.without_rounds(), closing.without_rounds(), "{s:?}");
        assert_eq!(flows::path_in(&s, FALLING_FIRST), falls_first(&s).0, "{s:?}");
        assert_eq!(flows::close_in(&s, FALLING_FIRST), closing, "{s:?}");
    }
}

/// The same on sheets of every kind that start high, with turn and rounds by totals.
#[test]
fn every_kind_from_above() {
    let mut r = Random::new(404);
    for k in 0..900 {
        let shape = if k % 90 == 0 { Shape::Long } else { SHAPES[k % (SHAPES.len() - 1)] };
        let s = started_high(sheet_above(shape, &mut r), &mut r);
        let [first, closing] = ORDERS.map(|order| flows::close_in(&s, order));
        assert_eq!(first.without_rounds(), closing.without_rounds(), "{s:?}");
        let (turn, close) = totals::turn_and_close(&s, FALLING_FIRST);
        assert_eq!(close, closing.prices, "{s:?}");
        assert_eq!(totals::rounds(&s, &turn, &close), (closing.raised, closing.lowered), "{s:?}");
    }
}
