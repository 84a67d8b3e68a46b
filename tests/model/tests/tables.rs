//! Tables of differences: every bid tried for small tops, and the order of the numbers that they bring.

use model::flows::demand;
use model::live::{unfit, Answer, Call, Held, Phase, Report};
use model::random::Random;
use model::tables::{explains, fits, narrowed, opening, OPTIONS, TABLE};
use model::TOP;

/// Every list of bids from 0 to the top.
fn every(items: usize, top: u16) -> Vec<Vec<u16>> {
    (0..items).fold(vec![Vec::new()], |lists, _| {
        lists.iter().flat_map(|list| (0..=top).map(move |bid| [&list[..], &[bid]].concat())).collect()
    })
}

/// A bid less another, null's being 0.
fn difference(bids: &[u16], i: usize, j: usize) -> i16 {
    let bid = |i: usize| if i == 0 { 0 } else { bids[i - 1] as i16 };
    bid(i) - bid(j)
}

fn meets(bids: &[u16], part: &[i16]) -> bool {
    (0..=bids.len()).all(|i| (0..=bids.len()).all(|j| difference(bids, i, j) <= part[i * OPTIONS + j]))
}

/// The largest differences that some of the bids reach; none where there are no bids.
fn largest(items: usize, bids: &[&Vec<u16>]) -> Option<Vec<i16>> {
    let mut table = vec![0; TABLE];
    for i in 0..=items {
        for j in 0..=items {
            table[i * OPTIONS + j] = bids.iter().map(|bids| difference(bids, i, j)).max()?;
        }
    }
    Some(table)
}

fn report(items: usize, k: u32) -> Report {
    Report { null: k & 1 == 1, items: (k >> 1) & ((1 << items) - 1) }
}

/// Every report at all prices from the opening's table.
#[test]
fn every_report_at_all_prices() {
    let mut cases = 0;
    for (items, top) in [(1, 2), (1, 7), (2, 2), (2, 4), (3, 2), (3, 3)] {
        let all = every(items, top);
        assert_eq!(opening(items, top), largest(items, &all.iter().collect::<Vec<_>>()).unwrap());
        for prices in &all {
            for k in 1..2 << items {
                let report = report(items, k);
                let explaining: Vec<_> = all.iter().filter(|bids| demand(bids, prices) == report).collect();
                let given = narrowed(items, &opening(items, top), prices, report, top);
                assert_eq!(given, largest(items, &explaining), "{report:?} at {prices:?}, top {top}");
                cases += 1;
            }
        }
    }
    assert!(cases > 1_500, "{cases} cases");
}

/// A free table: bids meet it or none do.
fn free(items: usize, top: u16, r: &mut Random) -> Vec<i16> {
    let mut part = vec![0; TABLE];
    let spread = *r.pick(&[1, 2, top as i64]);
    let bids: Vec<i64> = (0..=items).map(|i| if i == 0 { 0 } else { r.amount(top).into() }).collect();
    let held = r.one_in(2);
    for i in 0..=items {
        for j in 0..=items {
            let near =
                if held { bids[i] - bids[j] + r.within(0, 2) as i64 } else { r.within(0, 2 * spread as usize) as i64 - spread };
            part[i * OPTIONS + j] = near.clamp(-i64::from(top), top.into()) as i16;
        }
    }
    part
}

/// Free tables, loose, tight and inconsistent, with every report at some prices: by every bid.
#[test]
fn free_tables() {
    let mut r = Random::new(1_071);
    let (mut empty, mut unexplained, mut moved) = (0, 0, 0);
    for _ in 0..1_500 {
        let (items, top) = *r.pick(&[(1, 6), (2, 3), (2, 5), (3, 2), (3, 3)]);
        let (all, part) = (every(items, top), free(items, top, &mut r));
        let meeting: Vec<_> = all.iter().filter(|bids| meets(bids, &part)).collect();
        assert_eq!(fits(items, &part, top), !meeting.is_empty(), "{part:?}");
        empty += usize::from(meeting.is_empty());
        let prices: Vec<u16> = (0..items).map(|_| r.amount(top)).collect();
        for k in 1..2 << items {
            let report = report(items, k);
            let bids: Vec<_> = meeting.iter().copied().filter(|bids| demand(bids, &prices) == report).collect();
            let given = narrowed(items, &part, &prices, report, top);
            assert_eq!(given, largest(items, &bids), "{report:?} at {prices:?}, top {top}, {part:?}");
            assert_eq!(explains(items, &part, &prices, report, top), given.is_some());
            if let Some(next) = given {
                // The narrowed table allows just the bids that met the table and explain.
                let left: Vec<_> = all.iter().filter(|bids| meets(bids, &next)).collect();
                assert_eq!(left, bids, "{report:?} at {prices:?}, top {top}, {part:?}");
                moved += 1;
            } else {
                unexplained += 1;
            }
        }
    }
    assert!(empty > 300 && unexplained > 5_000 && moved > 1_000, "{empty}, {unexplained}, {moved}");
}

/// What 11 asks of a table beside bids that meet it.
#[test]
fn places_and_range() {
    let good = opening(2, TOP);
    let with = |i: usize, j: usize, x: i16| {
        let mut part = good.clone();
        part[i * OPTIONS + j] = x;
        fits(2, &part, TOP)
    };
    assert!(fits(2, &good, TOP) && with(1, 1, 7) && with(0, 0, 4095) && with(1, 2, -4095) && with(0, 2, -4095));
    for (i, j, x) in [(1, 2, 4096), (1, 2, -4096), (0, 1, i16::MIN), (2, 0, i16::MAX), (1, 1, -1), (0, 0, -1), (2, 0, -1)] {
        assert!(!with(i, j, x), "{i} less {j}: {x}");
    }
    for (i, j) in [(0, 3), (3, 0), (3, 3), (2, 32), (32, 1), (32, 32)] {
        assert!(!with(i, j, 1) && !with(i, j, -1) && with(i, j, 0), "{i} less {j}");
    }
}

/// Two items, three bidders, in the middle of an auction.
fn begun() -> Held {
    let mut held = Held::open(2, 3, &[4, 4]).unwrap();
    for (bidder, items) in [(1, 2), (2, 2), (3, 2)] {
        assert_eq!(held.call(Call::Report { bidder, report: Report { null: false, items } }), Answer::Done);
    }
    assert!(matches!(held.call(Call::End), Answer::Moved(..)));
    held
}

/// 11 of the record, 3, 11 of any table, and only then the rest; no table changes.
#[test]
fn the_order() {
    let call = |bidder: u32, null: bool, items: u32| Call::Report { bidder, report: Report { null, items } };
    let expect = |held: &Held, call: Call, number: u8| {
        let mut after = held.clone();
        assert_eq!(after.call(call), Answer::Refused(number), "{call:?}");
        assert_eq!(after, *held);
    };
    let good = begun();
    assert!(unfit(2, Report { null: false, items: 4 }));
    expect(&good, call(1, true, 0), 19);
    expect(&good, call(0, true, 0), 7);
    expect(&good, call(1, true, 4), 8);
    expect(&good, Call::End, 14);
    for (bidder, at) in [(1, 0), (3, 2 * TABLE)] {
        let mut bad = good.clone();
        bad.tables[at + TABLE - 1] = 1;
        for call in [call(bidder, true, 0), call(2, false, 2), call(0, false, 0), Call::End] {
            expect(&bad, call, 11);
        }
        bad.tables.pop();
        expect(&bad, call(0, false, 0), 3);
        expect(&bad, Call::End, 3);
        bad.record.raised = 99;
        expect(&bad, call(0, false, 0), 11);
        expect(&bad, Call::End, 11);
    }
    // A closed auction with a bad table gives 11, with good ones 12; clear and read take none.
    let mut closed = Held::open(1, 1, &[0]).unwrap();
    assert_eq!(closed.call(call(1, false, 1)), Answer::Done);
    let before = closed.tables.clone();
    assert_eq!(closed.call(Call::End), Answer::Closed);
    assert_eq!(closed.tables, before);
    expect(&closed, Call::End, 12);
    let mut bad = closed.clone();
    bad.tables[0] = -1;
    expect(&bad, Call::End, 11);
    expect(&bad, call(1, false, 1), 11);
    expect(&bad, Call::Clear, 12);
    assert!(matches!(bad.call(Call::Read { room: 99 }), Answer::Sheet(_)));
}

/// An end tests every bidder's report against the table lent with it, and changes none where one is not explained.
#[test]
fn the_last_bidder_of_an_end() {
    let mut held = Held::open(1, 40, &[5]).unwrap();
    for bidder in 1..=40 {
        assert_eq!(held.call(Call::Report { bidder, report: Report { null: false, items: 1 } }), Answer::Done);
    }
    // Bidder 40 bids at most 5.
    held.tables[39 * TABLE + OPTIONS] = 5;
    let before = held.clone();
    assert_eq!(held.call(Call::End), Answer::Refused(19));
    assert_eq!(held, before);
    held.tables[39 * TABLE + OPTIONS] = 6;
    assert!(matches!(held.call(Call::End), Answer::Moved(..)));
    assert_eq!(held.record.phase, Phase::Rising);
    let rows = |k: usize| [&held.tables[k * TABLE..][..2], &held.tables[k * TABLE + OPTIONS..][..2]].concat();
    assert_eq!((rows(0), rows(39)), (vec![0, -6, 4095, 0], vec![0, -6, 6, 0]));
}
