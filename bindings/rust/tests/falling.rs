//! Falling first: the close, the turn and the rounds.

mod random;

use dewgneiss::csv::bid_sheet;
use dewgneiss::{falling_first, falling_first_into, falling_reasons, falling_turn, reasons_above, sealed_above, turn_above};
use dewgneiss::{path, table, Closing, Kind, NoTurn, Order, Reason};
use random::Random;

const START: [u16; 2] = [4, 4];
const BIDS: [u16; 6] = [2, 6, 3, 7, 6, 7];

/// Example 6's closing.
fn closing() -> Closing {
    Closing { raised: 2, lowered: 4, prices: vec![2, 6], names: vec![0, 2, 1], gains: vec![0, 1, 4] }
}

#[test]
fn example_6() {
    assert_eq!(falling_first(2, 3, &START, &[0, 0], &BIDS), Ok(closing()));
    assert_eq!(falling_turn(&START, &[0, 0], &BIDS, &closing()), Ok(vec![0, 4]));
    let [down, up] = [Kind::Lowered, Kind::Raised];
    let rounds = [(down, 1, 0), (down, 1, 4), (down, 1, 4), (down, 1, 4), (up, 3, 7), (up, 3, 7)];
    assert_eq!(falling_reasons(2, 3, &START, &[0, 0], &BIDS), Ok(rounds.map(round).to_vec()));
}

fn round((kind, items, bidders): (Kind, u32, u64)) -> Reason {
    Reason { kind, items, bidders }
}

/// The limits: 32 items, 64 bidders, 4,095. All fall to 0 where nobody bids, and where everybody bids they stay.
#[test]
fn the_largest_sheets() {
    let (start, floors) = ([4095; 32], [0; 32]);
    for (bid, lowered, turn) in [(0, 4095, 0), (4095, 0, 4095)] {
        let bids = [bid; 32 * 64];
        let closing = falling_first(32, 64, &start, &floors, &bids).unwrap();
        assert_eq!((closing.lowered, closing.raised), (lowered, 0));
        assert_eq!(falling_turn(&start, &floors, &bids, &closing), Ok(vec![turn; 32]));
        let reasons = falling_reasons(32, 64, &start, &floors, &bids).unwrap();
        assert_eq!(reasons, vec![round((Kind::Lowered, u32::MAX, 0)); lowered as usize]);
    }
}

/// In the order 1, 2, 3, 4, 18, 5. What is lent is as it was.
#[test]
fn what_is_turned_down() {
    for (number, items, bidders, start, floors, bids, room) in [
        (1, 0, 0, &[][..], &[][..], &[][..], [0, 0, 0, 0]),
        (1, 33, 65, &[4096], &[4097], &[4096], [1, 2, 2, 2]),
        (2, 1, 0, &[4096], &[4097], &[4096], [1, 2, 2, 2]),
        (2, 1, 65, &[4096], &[4097], &[4096], [1, 2, 2, 2]),
        (3, 1, 1, &[], &[4097], &[4096], [2, 1, 1, 1]),
        (3, 1, 1, &[4096], &[], &[4096], [2, 1, 1, 1]),
        (3, 1, 1, &[4096], &[4097, 0], &[4096], [2, 1, 1, 1]),
        (3, 1, 1, &[4096], &[4097], &[4096, 0], [2, 1, 1, 1]),
        (3, 1, 1, &[4096], &[4097], &[4096], [1, 1, 1, 1]),
        (3, 1, 1, &[4096], &[4097], &[4096], [2, 2, 1, 1]),
        (3, 1, 1, &[4096], &[4097], &[4096], [2, 1, 0, 1]),
        (3, 1, 1, &[4096], &[4097], &[4096], [2, 1, 1, 0]),
        (3, 1, 1, &[4096], &[4097], &[4096], [2, 1, 1, 2]),
        (4, 1, 1, &[4096], &[4097], &[4096], [2, 1, 1, 1]),
        (18, 1, 1, &[4095], &[4096], &[4096], [2, 1, 1, 1]),
        (18, 2, 1, &[5, 5], &[5, 6], &[0, 4096], [2, 2, 1, 1]),
        (5, 1, 1, &[4095], &[4095], &[4096], [2, 1, 1, 1]),
    ] {
        let lent = (vec![7; room[0]], vec![7; room[1]], vec![7; room[2]], vec![7; room[3]]);
        let (mut rounds, mut prices, mut names, mut gains) = lent.clone();
        let answer = falling_first_into(items, bidders, start, floors, bids, &mut rounds, &mut prices, &mut names, &mut gains);
        assert_eq!(answer.map_err(|r| r.number()), Err(number), "{items} {bidders} {start:?} {floors:?} {bids:?} {room:?}");
        assert_eq!((rounds, prices, names, gains), lent);
    }
}

/// The closing is the sheet's falling first, and no other; the counts are taken from it.
#[test]
fn no_turn() {
    for other in [
        sealed_above(2, 3, &START, &[0, 0], &BIDS).unwrap(),
        Closing { raised: 3, ..closing() },
        Closing { lowered: 3, ..closing() },
        Closing { prices: vec![2, 5], ..closing() },
        Closing { names: vec![0, 1, 2], ..closing() },
        Closing { gains: vec![0, 0, 4], ..closing() },
    ] {
        assert_eq!(falling_turn(&START, &[0, 0], &BIDS, &other), Err(NoTurn::Mismatch), "{other:?}");
    }
    assert_eq!(turn_above(&START, &[0, 0], &BIDS, &closing()), Err(NoTurn::Mismatch));
    for (number, start, floors, bids) in [
        (3, &START[..1], &[0, 0][..], &BIDS[..]),
        (3, &START, &[0], &BIDS),
        (3, &START, &[0, 0], &[]),
        (4, &[4, 4096], &[5, 0], &BIDS),
        (18, &START, &[5, 0], &[4096; 6]),
        (5, &START, &[4, 4], &[2, 6, 3, 7, 6, 4096]),
    ] {
        let answer = falling_turn(start, floors, bids, &closing());
        assert!(matches!(answer, Err(NoTurn::Refused(refusal)) if refusal.number() == number), "{number}: {answer:?}");
    }
    let nobody = Closing { raised: 0, lowered: 0, prices: vec![], names: vec![], gains: vec![] };
    assert!(matches!(falling_turn(&[], &[], &[], &nobody), Err(NoTurn::Refused(refusal)) if refusal.number() == 1));
}

// ---- generated sheets, by the letter of the rule

/// What a bidder wants: null is bit 0, item i is bit i.
fn demand(bids: &[u16], prices: &[u16]) -> u32 {
    let gain = |i: usize| i32::from(bids[i]) - i32::from(prices[i]);
    let highest = (0..bids.len()).map(gain).fold(0, i32::max);
    let items: u32 = (0..bids.len()).filter(|&i| bids[i] > 0 && gain(i) == highest).map(|i| 2 << i).sum();
    items | u32::from(highest == 0)
}

/// The largest set within these items of which every part is wanted by more bidders than it has items, where only those count who want nothing outside the set.
fn in_excess(within: u32, demands: &[u32]) -> u32 {
    let wanting = |set: u32, part: u32| demands.iter().filter(|&d| d & part != 0 && d & !set == 0).count();
    let parts = |set: u32| (1..=set).filter(move |part| part & !set == 0);
    let sets = parts(within).filter(|&set| parts(set).all(|part| wanting(set, part) > part.count_ones() as usize));
    sets.max_by_key(|set| set.count_ones()).unwrap_or(0)
}

/// The rounds, the prices at the turn, and those at the close.
fn by_the_letter(ways: [Kind; 2], start: &[u16], floors: &[u16], bids: &[u16]) -> (Vec<Reason>, [Vec<u16>; 2]) {
    let mut prices = start.to_vec();
    let mut rounds = Vec::new();
    let ends = ways.map(|kind| loop {
        let demands: Vec<u32> = bids.chunks(start.len()).map(|line| demand(line, &prices)).collect();
        let above: u32 = (0..prices.len()).filter(|&i| prices[i] > floors[i]).map(|i| 2 << i).sum();
        let set = match kind {
            Kind::Raised => in_excess((2 << prices.len()) - 2, &demands),
            Kind::Lowered => above & !in_excess(above, &demands.iter().map(|d| d & above).collect::<Vec<_>>()),
        };
        if set == 0 {
            break prices.clone();
        }
        let counts = |d: u32| if kind == Kind::Raised { d & !set == 0 } else { d & set != 0 };
        let bidders = demands.iter().enumerate().filter(|(_, &d)| counts(d)).map(|(b, _)| 1 << b).sum();
        rounds.push(round((kind, set >> 1, bidders)));
        for i in (0..prices.len()).filter(|i| set >> (i + 1) & 1 == 1) {
            prices[i] = if kind == Kind::Raised { prices[i] + 1 } else { prices[i] - 1 };
        }
    });
    (rounds, ends)
}

/// Both orders play the rounds of the rule, turn where it turns, and close alike. Each is the shorter one on some sheets.
#[test]
fn the_rounds_are_those_of_the_rule() {
    let mut random = Random(1);
    let mut shorter = [0; 3];
    for k in 0..3000 {
        let (items, bidders) = (1 + random.below(4), 1 + random.below(5));
        let high = 2 + random.below(9);
        let floors = if k % 3 == 0 { vec![0; items.into()] } else { random.amounts(items.into(), 4) };
        let start: Vec<u16> = floors.iter().map(|floor| floor + random.below(high)).collect();
        let bids = random.amounts((items * bidders).into(), high + 2);
        let (m, n) = (items.into(), bidders.into());
        let [rising, falling] = [sealed_above, falling_first].map(|close| close(m, n, &start, &floors, &bids).unwrap());
        let Closing { raised, lowered, .. } = rising;
        assert_eq!(Closing { raised, lowered, ..falling.clone() }, rising, "{start:?} {floors:?} {bids:?}");
        let found = [
            (reasons_above(m, n, &start, &floors, &bids), turn_above(&start, &floors, &bids, &rising)),
            (falling_reasons(m, n, &start, &floors, &bids), falling_turn(&start, &floors, &bids, &falling)),
        ];
        let ways = [[Kind::Raised, Kind::Lowered], [Kind::Lowered, Kind::Raised]];
        for ((found, closing), ways) in found.into_iter().zip([&rising, &falling]).zip(ways) {
            let (rounds, [turn, close]) = by_the_letter(ways, &start, &floors, &bids);
            let counts = [Kind::Raised, Kind::Lowered].map(|kind| rounds.iter().filter(|r| r.kind == kind).count() as u32);
            assert_eq!((counts, &close), ([closing.raised, closing.lowered], &closing.prices), "{start:?} {floors:?} {bids:?}");
            assert_eq!(found, (Ok(rounds), Ok(turn)), "{start:?} {floors:?} {bids:?}");
        }
        let [rising, falling] = [rising, falling].map(|closing| closing.raised + closing.lowered);
        shorter[(rising.cmp(&falling) as i8 + 1) as usize] += 1;
    }
    assert!(shorter.iter().all(|&count| count > 100), "{shorter:?}");
}

/// Large sheets are shown, so the turn and the rounds that were found lead to the close.
#[test]
fn large_sheets_are_shown() {
    let mut random = Random(2);
    for (items, bidders) in [(32, 64), (32, 40), (32, 20), (20, 64), (3, 64)] {
        let floors = random.amounts(items, 1000);
        let start: Vec<u16> = floors.iter().map(|floor| floor + random.below(3000)).collect();
        let row = |amounts: &[u16]| amounts.iter().map(u16::to_string).collect::<Vec<_>>().join(",") + "\n";
        let bids: String = (0..bidders).map(|_| row(&random.amounts(items, 4096))).collect();
        let sheet = bid_sheet((row(&start) + "floors," + &row(&floors) + &bids).as_bytes()).unwrap();
        for show in [table::show, path::show] {
            assert!(show(sheet.as_bytes(), Order::FallingFirst).is_ok(), "{sheet}");
        }
    }
}
