//! Document 02, #103: floors. What is claimed of the close is tried on small sheets with every price vector and every assignment.

mod small;

use model::cases::table;
use model::generate::{calls, floored, live_sheet, sheet, sheet_above, Reporting, Shape, FLOORS, SHAPES};
use model::literal::{above, close, demand, demands, first_assignment, path};
use model::random::Random;
use model::reasons::along;
use model::{flows, live::Held, sealed_refusal, sealed_refusal_above, totals, Closing, Kind, Round, Sheet};
use small::{below, sets, small_sheets, vectors};

/// Whether these prices balance: in some assignment everybody has something of their demand, and every item that nobody has stands at its floor.
fn balance(s: &Sheet, prices: &[u16]) -> bool {
    first_assignment(s.items, &demands(s, prices, demand), above(&s.floors, prices)).is_some()
}

/// Of all prices at or above the floors the closing prices balance and are the least that do, and they alone leave both sets empty.
#[test]
fn the_close_is_least_above_the_floors() {
    let (mut balanced, mut lower) = (0, 0);
    for s in small_sheets(301, 1_500) {
        let closing = close(&s);
        assert!(below(&s.floors, &closing.prices) && balance(&s, &closing.prices), "{s:?}: {closing:?}");
        for prices in vectors(&s) {
            if !below(&s.floors, &prices) {
                // Without the floors some would be lower: the sheet let with floors of 0 balances there.
                lower += usize::from(balance(&s.clone().above(&vec![0; s.items]), &prices));
                continue;
            }
            assert_eq!(sets(&s, &prices) == (0, 0), prices == closing.prices, "{s:?} at {prices:?}");
            if balance(&s, &prices) {
                balanced += 1;
                assert!(below(&closing.prices, &prices), "{s:?}: {closing:?}, and {prices:?} balances");
            }
        }
    }
    assert!(balanced > 3_000 && lower > 1_000, "{balanced}, {lower}");
}

/// The turn: of all prices at or above the starting prices the least that leave the rising set empty. The rounds raised are the largest rise to it, the
/// rounds lowered the largest fall from it. No price is ever below its floor.
#[test]
fn the_turn_and_the_rounds() {
    for s in small_sheets(302, 1_500) {
        let rounds = path(&s);
        let turn = flows::turn(&s, &rounds);
        let unwanted = |prices: &[u16]| sets(&s, prices).0 == 0;
        assert!(unwanted(&turn), "{s:?}: {turn:?}");
        for prices in vectors(&s).filter(|p| below(&s.start, p) && unwanted(p)) {
            assert!(below(&turn, &prices), "{s:?}: {turn:?} and {prices:?}");
        }
        let closing = close(&s);
        assert_eq!(totals::rounds(&s, &turn, &closing.prices), (closing.raised, closing.lowered), "{s:?}");
        assert!(rounds.iter().all(|r| below(&s.floors, &r.prices)), "{s:?}: {rounds:?}");
    }
}

/// Every assignment of the sheet, whatever is demanded.
fn assignments(s: &Sheet) -> Vec<Vec<u8>> {
    let mut all = vec![Vec::new()];
    for _ in 0..s.bidders {
        let more = |names: &Vec<u8>| {
            let free = (0..=s.items as u8).filter(|i| *i == 0 || !names.contains(i));
            free.map(|i| [&names[..], &[i]].concat()).collect::<Vec<_>>()
        };
        all = all.iter().flat_map(more).collect();
    }
    all
}

/// No assignment has a higher total of bids less floors; by bids alone some have. An item that nobody has stands at its floor.
#[test]
fn no_total_of_bids_less_floors_is_higher() {
    let mut by_bids = 0;
    for s in small_sheets(303, 1_500) {
        let closing = close(&s);
        let total = totals::total(&s, &closing.names);
        let highest = assignments(&s).iter().map(|names| totals::total(&s, names)).max();
        assert_eq!((Some(total), total), (highest, totals::best(&s)), "{s:?}: {closing:?}");
        let bids = s.clone().above(&vec![0; s.items]);
        by_bids += usize::from(totals::best(&bids) > totals::total(&bids, &closing.names));
        let unlet = |i: usize| !closing.names.contains(&(i as u8 + 1));
        assert!((0..s.items).all(|i| !unlet(i) || closing.prices[i] == s.floors[i]), "{s:?}: {closing:?}");
    }
    assert!(by_bids > 200, "{by_bids}");
}

/// Starting prices change the rounds and nothing else.
#[test]
fn any_start_closes_the_same() {
    for s in small_sheets(304, 1_500) {
        let from_floors = close(&Sheet { start: s.floors.clone(), ..s.clone() });
        assert_eq!(from_floors.without_rounds(), close(&s).without_rounds(), "{s:?}");
    }
}

/// The sheet from which every floor is taken: starting prices and bids less by the floor, and bids below it 0.
fn shifted(s: &Sheet) -> Sheet {
    let bid = |(k, bid): (usize, &u16)| bid.saturating_sub(s.floors[k % s.items]);
    let start = s.start.iter().zip(&s.floors).map(|(start, floor)| start - floor).collect();
    Sheet::of(start, s.bidders, s.bids.iter().enumerate().map(bid).collect())
}

/// An auction with floors moves as the one from which they are taken, for the same bidders.
#[test]
fn floors_are_a_shift() {
    let mut r = Random::new(305);
    for k in 0..2_000 {
        let s = sheet_above(SHAPES[k % (SHAPES.len() - 1)], &mut r);
        let (path, plain) = (flows::path(&s), shifted(&s));
        let back = |round: &Round| Round { prices: round.prices.iter().zip(&s.floors).map(|(p, f)| p + f).collect(), ..*round };
        let by_shift: Vec<Round> = flows::path(&plain).iter().map(back).collect();
        assert_eq!(path, by_shift, "{s:?}");
        assert_eq!(along(&s, &path), along(&plain, &flows::path(&plain)), "{s:?}");
    }
}

/// The old openings and the table of document 01 mean floors of 0.
#[test]
fn floors_of_zero() {
    for case in table() {
        assert_eq!(case.sheet.floors, vec![0; case.sheet.items], "{}", case.name);
    }
    let mut r = Random::new(306);
    for _ in 0..300 {
        let s = live_sheet(&mut r);
        let counts = (s.items as u32, s.bidders as u32);
        let mut plain = Held::open(counts.0, counts.1, &s.start).unwrap();
        let mut floored = Held::open_above(counts.0, counts.1, &s.start, &vec![0; s.items]).unwrap();
        for call in calls(&s, Reporting::Wild, 60, &mut r) {
            assert_eq!(plain.call(call), floored.call(call));
            assert_eq!(plain, floored);
        }
        assert_eq!(
            sealed_refusal(counts.0, counts.1, &s.start, &s.bids),
            sealed_refusal_above(counts.0, counts.1, &s.start, &s.floors, &s.bids)
        );
    }
}

/// Bids less floors are highest for item 1, though the bid for item 2 is higher.
#[test]
fn two_items_and_a_floor() {
    let s = Sheet::new(&[0, 5], &[&[3, 7]]).above(&[0, 5]);
    assert_eq!(close(&s), Closing { raised: 0, lowered: 0, prices: vec![0, 5], names: vec![1], gains: vec![3] });
    assert_eq!(close(&s.above(&[0, 0])), Closing { raised: 0, lowered: 5, prices: vec![0, 0], names: vec![2], gains: vec![7] });
}

/// A bid below the floor is no mistake: nobody has the item, and it stands at its floor. A bid at the floor gets it, because null stands behind every item.
#[test]
fn one_item_and_a_floor() {
    for (bid, name, gain) in [(0, 0, 0), (3, 0, 0), (4, 0, 0), (5, 1, 0), (6, 1, 1), (4095, 1, 4090)] {
        let s = Sheet::new(&[8], &[&[bid]]).above(&[5]);
        let closing = Closing { raised: 0, lowered: 3, prices: vec![5], names: vec![name], gains: vec![gain] };
        assert_eq!((close(&s), flows::close(&s)), (closing.clone(), closing), "{bid}");
    }
    let s = Sheet::new(&[5], &[&[9], &[7]]).above(&[5]);
    assert_eq!(close(&s), Closing { raised: 2, lowered: 0, prices: vec![7], names: vec![1, 0], gains: vec![2, 0] });
    assert_eq!(path(&s)[1], Round { kind: Kind::Raised, items: 1, prices: vec![7] });
}

/// The numbers in their order: 1, 2, 3, 4, 18, 5.
#[test]
fn what_is_turned_down() {
    for (items, bidders, start, floors, bids, number) in [
        (33, 65, &[4096][..], &[4097][..], &[4096][..], Some(1)),
        (1, 65, &[4096], &[4097], &[4096], Some(2)),
        (1, 1, &[4096], &[4097, 0], &[4096], Some(3)),
        (1, 1, &[4096], &[], &[4096], Some(3)),
        (1, 1, &[4096], &[4097], &[4096], Some(4)),
        (1, 1, &[4096], &[0], &[0], Some(4)),
        (1, 1, &[4095], &[4096], &[4096], Some(18)),
        (1, 1, &[4094], &[4095], &[0], Some(18)),
        (2, 1, &[1, 0], &[0, 1], &[4096, 0], Some(18)),
        (1, 1, &[4095], &[4095], &[4096], Some(5)),
        (1, 1, &[4095], &[4095], &[0], None),
        (2, 1, &[7, 6], &[7, 0], &[3, 3], None),
    ] {
        let given = sealed_refusal_above(items, bidders, start, floors, bids);
        assert_eq!(given, number, "{items} items, {bidders} bidders, {start:?}, {floors:?}, {bids:?}");
    }
}

/// The generated sheets are within the limits, and their floors make a difference: some prices stop at them, some bids are below, some items are let to nobody.
#[test]
fn what_is_generated() {
    let mut r = Random::new(307);
    let (mut kinds, mut otherwise, mut unlet) = ([0; FLOORS.len()], 0, 0);
    for k in 0..2_000 {
        let kind = k % FLOORS.len();
        let s = floored(sheet(Shape::Small, &mut r), FLOORS[kind], &mut r);
        let refusal = sealed_refusal_above(s.items as u32, s.bidders as u32, &s.start, &s.floors, &s.bids);
        assert_eq!((refusal, s.floors.len()), (None, s.items), "{s:?}");
        let (closing, plain) = (flows::close(&s), flows::close(&s.clone().above(&vec![0; s.items])));
        kinds[kind] += usize::from(s.floors.iter().any(|&floor| floor > 0));
        otherwise += usize::from(closing.names != plain.names);
        unlet += usize::from((0..s.items).any(|i| s.floors[i] > 0 && !closing.names.contains(&(i as u8 + 1))));
    }
    assert!(kinds.iter().all(|&n| n > 100) && otherwise > 300 && unlet > 600, "{kinds:?}, {otherwise}, {unlet}");
}
