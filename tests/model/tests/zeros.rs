//! Document 02, #102: a zero is no bid. Prices, rounds, reasons and the prices that balance are those of document 01's demand; names are not.

use model::generate::{floored, sheet, sheet_above, Shape, FLOORS, SHAPES};
use model::literal::{above, close, demand, demands, first_assignment, former_demand, path_by, Demand};
use model::live::{Answer, Call, Report};
use model::machine::Machine;
use model::random::Random;
use model::reasons::{along, along_by};
use model::{flows, Sheet, ORDERS};

/// A sheet of at most 3 by 4 with low amounts, most of its bids 0; every other one has floors.
fn small(r: &mut Random) -> Sheet {
    let (items, bidders, top) = (r.within(1, 3), r.within(1, 4), r.within(1, 3) as u16);
    let start = (0..items).map(|_| r.amount(top)).collect();
    let bids = (0..items * bidders).map(|_| if r.one_in(2) { 0 } else { r.amount(top) }).collect();
    let sheet = Sheet::of(start, bidders, bids);
    if r.one_in(2) {
        return sheet;
    }
    let kind = *r.pick(&FLOORS);
    floored(sheet, kind, r)
}

/// Such sheets, from a seed.
fn small_sheets(seed: u64, count: usize) -> impl Iterator<Item = Sheet> {
    let mut r = Random::new(seed);
    (0..count).map(move |_| small(&mut r))
}

/// An item with bid 0 is in no demand, and every demand has something.
#[test]
fn never_demanded() {
    let mut r = Random::new(201);
    let mut dropped = 0;
    for _ in 0..20_000 {
        let items = r.within(1, 6);
        let [line, prices] = [(); 2].map(|()| (0..items).map(|_| r.amount(2)).collect::<Vec<_>>());
        let (now, before) = (demand(&line, &prices), former_demand(&line, &prices));
        assert!(now != 0 && (1..=items).all(|i| line[i - 1] > 0 || now >> i & 1 == 0), "{line:?} at {prices:?}");
        assert!((1..=items).all(|i| line[i - 1] == 0 || now >> i & 1 == before >> i & 1) && now & 1 == before & 1);
        dropped += usize::from(now != before);
    }
    assert!(dropped > 2_000, "{dropped}");
}

/// Rounds and reasons are what they were in both orders, on sheets with many zeros; some names are not.
#[test]
fn rounds_and_reasons_stay() {
    let mut renamed = 0;
    for s in small_sheets(202, 4_000) {
        for order in ORDERS {
            let [now, before] = [demand, former_demand].map(|demand| path_by(&s, order, demand));
            assert_eq!(now, before, "{s:?}");
            assert_eq!(along(&s, &now), along_by(&s, &before, former_demand), "{s:?}");
        }
        let closing = close(&s);
        let must = above(&s.floors, &closing.prices);
        let former = first_assignment(s.items, &demands(&s, &closing.prices, former_demand), must);
        renamed += usize::from(former != Some(closing.names.clone()));
        let bid_for = |(b, &i): (usize, &u8)| i == 0 || s.line(b + 1)[i as usize - 1] > 0;
        assert!(closing.names.iter().enumerate().all(bid_for), "{s:?}: {closing:?}");
    }
    assert!(renamed > 500, "{renamed}");
}

/// And on sheets of every kind and size: reasons by both demands along one path.
#[test]
fn reasons_stay_on_every_kind() {
    let mut r = Random::new(203);
    for k in 0..900 {
        let shape = SHAPES[k % (SHAPES.len() - 1)];
        let made = if k % 4 < 2 { sheet } else { sheet_above };
        let s = made(if k % 2 == 0 { Shape::Zeros } else { shape }, &mut r);
        let path = flows::path(&s);
        assert_eq!(along(&s, &path), along_by(&s, &path, former_demand), "{s:?}");
    }
}

/// Whether these prices balance by this demand: every assignment is tried.
fn balance(s: &Sheet, prices: &[u16], demand: Demand) -> bool {
    first_assignment(s.items, &demands(s, prices, demand), above(&s.floors, prices)).is_some()
}

/// Of all prices up to one above the highest bid, the same ones balance.
#[test]
fn the_same_prices_balance() {
    let mut balanced = 0;
    for s in small_sheets(204, 600) {
        let most = s.bids.iter().max().map_or(1, |b| b + 2);
        for k in 0..u32::from(most).pow(s.items as u32) {
            let digit = |i: usize| (k / u32::from(most).pow(i as u32) % u32::from(most)) as u16;
            let prices: Vec<u16> = (0..s.items).map(digit).collect();
            let now = balance(&s, &prices, demand);
            assert_eq!(now, balance(&s, &prices, former_demand), "{s:?} at {prices:?}");
            balanced += usize::from(now);
        }
    }
    assert!(balanced > 1_000, "{balanced}");
}

/// K5, one item at 0 and a bid of 0: the report that follows the sheet is null alone, and the read shows no item. The item beside null, which document 01's
/// demand had, is no bidder's demand any more, and gives 19. The item alone is, but not on this sheet.
#[test]
fn the_report_that_follows_the_sheet() {
    let k5 = Sheet::new(&[0], &[&[0]]);
    let report = |null, items| Call::Report { bidder: 1, report: Report { null, items } };
    let mut machine = Machine::new(&k5);
    assert_eq!(machine.call(report(true, 0)), Some(Answer::Done));
    assert_eq!(machine.call(Call::End), Some(Answer::Closed));
    assert_eq!(machine.call(Call::Read { room: 21 }), Some(Answer::Sheet(b"000000000000\n0000\n00\n".to_vec())));
    let mut machine = Machine::new(&k5);
    assert_eq!(machine.call(report(true, 1)), Some(Answer::Refused(19)));
    assert_eq!(machine.call(report(false, 1)), Some(Answer::Done));
    assert_eq!(machine.call(Call::End), None);
}
