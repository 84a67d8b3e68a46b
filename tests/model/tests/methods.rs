//! The methods of the second program against each other.

use model::flows::{self, Demand};
use model::generate::{sheet, sheet_above, Shape, SHAPES};
use model::literal::{self, Options};
use model::random::Random;
use model::{totals, Sheet, ORDERS};

/// The options of a demand, as the literal rule has them.
fn options(d: &Demand) -> Options {
    Options::from(d.items) << 1 | Options::from(d.null)
}

/// Any reports, also ones that fit no bids, and any prices and floors.
fn reports(r: &mut Random) -> (usize, [Vec<u16>; 2], Vec<Demand>) {
    let items = r.within(1, 5);
    let prices: Vec<u16> = (0..items).map(|_| r.amount(2)).collect();
    let floors = prices.iter().map(|&p| if r.one_in(2) { r.amount(p) } else { 0 }).collect();
    let demands = (0..r.within(1, 7))
        .map(|_| Demand { null: r.one_in(4), items: (r.draw() & r.draw()) as u32 & ((1 << items) - 1) })
        .collect();
    (items, [floors, prices], demands)
}

#[test]
fn both_sets_by_definition_and_by_closure() {
    let mut r = Random::new(1);
    for _ in 0..6_000 {
        let (items, [floors, prices], demands) = reports(&mut r);
        let by_letter: Vec<Options> = demands.iter().map(options).collect();
        assert_eq!(literal::rising(items, &by_letter) >> 1, u64::from(flows::rising(&demands)));
        let falling = flows::falling(flows::above(&floors, &prices), &demands);
        assert_eq!(literal::falling(&floors, &prices, &by_letter) >> 1, u64::from(falling));
    }
}

#[test]
fn first_assignment_by_enumeration_and_by_flow() {
    let mut r = Random::new(2);
    let mut found = 0;
    for _ in 0..6_000 {
        let (items, [floors, prices], demands) = reports(&mut r);
        let must = flows::above(&floors, &prices);
        let by_letter: Vec<Options> = demands.iter().map(options).collect();
        let literal = literal::first_assignment(items, &by_letter, u64::from(must) << 1);
        assert_eq!(literal, flows::first_assignment(&demands, must));
        found += usize::from(literal.is_some());
    }
    assert!(found > 300, "too few cases have an assignment: {found}");
}

#[test]
fn demand_by_comparison_and_by_pass() {
    let mut r = Random::new(3);
    for _ in 0..5_000 {
        let items = r.within(1, 32);
        let top = *r.pick(&[2, 9, 4095]);
        let line: Vec<u16> = (0..items).map(|_| r.amount(top)).collect();
        let prices: Vec<u16> = (0..items).map(|_| r.amount(top)).collect();
        assert_eq!(literal::demand(&line, &prices), options(&flows::demand(&line, &prices)));
    }
}

#[test]
fn small_sheets_by_the_letter_and_by_closure() {
    let mut r = Random::new(4);
    for _ in 0..4_000 {
        for s in [sheet(Shape::Small, &mut r), sheet_above(Shape::Small, &mut r)] {
            for order in ORDERS {
                assert_eq!(literal::path_by(&s, order, literal::demand), flows::path_in(&s, order), "{s:?}");
                assert_eq!(literal::close_in(&s, order), flows::close_in(&s, order), "{s:?}");
            }
        }
    }
}

/// In both orders turn and close without rounds; the counts as largest rise and fall; the total of bids less floors that nothing beats, and the gains as what it
/// loses without a bidder.
fn holds_totals(s: &Sheet) {
    let gains = totals::gains(s);
    for order in ORDERS {
        let path = flows::path_in(s, order);
        let closing = flows::close_after(s, &path);
        let (turn, close) = totals::turn_and_close(s, order);
        assert_eq!(turn, flows::turn_in(s, order, &path), "{s:?}");
        assert_eq!(close, closing.prices, "{s:?}");
        assert_eq!(totals::rounds(s, &turn, &close), (closing.raised, closing.lowered), "{s:?}");
        assert_eq!(totals::total(s, &closing.names), totals::best(s), "{s:?}");
        assert_eq!(gains, closing.gains, "{s:?}");
    }
}

#[test]
fn every_kind_of_sheet_by_rounds_and_by_totals() {
    let mut r = Random::new(5);
    for shape in SHAPES {
        for _ in 0..if shape == Shape::Large { 30 } else { 60 } {
            holds_totals(&sheet(shape, &mut r));
            holds_totals(&sheet_above(shape, &mut r));
        }
    }
}

#[test]
fn small_sheets_by_rounds_and_by_totals() {
    let mut r = Random::new(6);
    for _ in 0..3_000 {
        holds_totals(&sheet(Shape::Small, &mut r));
        holds_totals(&sheet_above(Shape::Small, &mut r));
    }
}
