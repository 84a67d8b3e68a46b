//! Document 01's rule to the letter, with document 02's words on zeros and floors. Options are bits: bit 0 is null, bit i is item i. Every set is tried, and every part of it,
//! so this is for a handful of items and bidders.

use crate::{Closing, Kind, Order, Round, Sheet, RISING_FIRST};

/// A set of options: bit 0 for null, bit i for item i.
pub type Options = u64;

/// Bid minus price; 0 for null.
pub fn surplus(line: &[u16], prices: &[u16], option: usize) -> i32 {
    if option == 0 {
        return 0;
    }
    line[option - 1] as i32 - prices[option - 1] as i32
}

/// Document 01's demand: every option, null included, of the highest surplus.
pub fn former_demand(line: &[u16], prices: &[u16]) -> Options {
    let highest = (0..=line.len()).map(|o| surplus(line, prices, o)).max();
    (0..=line.len()).filter(|&o| Some(surplus(line, prices, o)) == highest).map(|o| 1 << o).sum()
}

/// Document 02's, #102: an item with bid 0 is never in it.
pub fn demand(line: &[u16], prices: &[u16]) -> Options {
    let not_bid_for: Options = (1..=line.len()).filter(|&i| line[i - 1] == 0).map(|i| 1 << i).sum();
    former_demand(line, prices) & !not_bid_for
}

/// What a bidder demands: by the bids and the prices.
pub type Demand = fn(&[u16], &[u16]) -> Options;

/// The demands of all bidders.
pub fn demands(sheet: &Sheet, prices: &[u16], demand: Demand) -> Vec<Options> {
    (1..=sheet.bidders).map(|b| demand(sheet.line(b), prices)).collect()
}

/// The non-empty parts of a set.
fn parts(set: Options) -> Vec<Options> {
    let mut all = Vec::new();
    let mut part = set;
    while part != 0 {
        all.push(part);
        part = (part - 1) & set;
    }
    all
}

/// For each non-empty part T of S, more bidders than T has items both demand something in T and demand nothing outside S.
/// `counted` is what of a demand is looked at: all of it for the rising set, the items above their floors for S~.
fn in_excess(set: Options, demands: &[Options], counted: Options) -> bool {
    parts(set).iter().all(|part| {
        let wanting = demands.iter().filter(|&&d| d & part != 0 && d & counted & !set == 0).count();
        wanting > part.count_ones() as usize
    })
}

/// The largest set in excess demand among the parts of `universe`; the rest of them lie in it.
fn largest(universe: Options, demands: &[Options], counted: Options) -> Options {
    let all: Vec<Options> = parts(universe).into_iter().filter(|&s| in_excess(s, demands, counted)).collect();
    let largest = all.iter().copied().max_by_key(|s| s.count_ones()).unwrap_or(0);
    assert!(all.iter().all(|s| s & !largest == 0), "the largest set in excess demand is unique");
    largest
}

fn items(count: usize) -> Options {
    (1..=count).map(|i| 1 << i).sum()
}

/// The items of price above their floor.
pub fn above(floors: &[u16], prices: &[u16]) -> Options {
    (1..=prices.len()).filter(|&i| prices[i - 1] > floors[i - 1]).map(|i| 1 << i).sum()
}

/// The rising set.
pub fn rising(count: usize, demands: &[Options]) -> Options {
    largest(items(count), demands, Options::MAX)
}

/// The falling set: the items of price above their floor outside S~.
pub fn falling(floors: &[u16], prices: &[u16], demands: &[Options]) -> Options {
    let above = above(floors, prices);
    above & !largest(above, demands, above)
}

fn moved(prices: &[u16], set: Options, by: i32) -> Vec<u16> {
    let one = |i: usize| (prices[i] as i32 + if set >> (i + 1) & 1 == 1 { by } else { 0 }) as u16;
    (0..prices.len()).map(one).collect()
}

/// Rising first; the turn is when the rising set is first empty; from then on falling, until that set is empty.
pub fn path(sheet: &Sheet) -> Vec<Round> {
    path_by(sheet, RISING_FIRST, demand)
}

/// The same in either order and by any demand. Falling first the turn is when the falling set is first empty, and the rises come after it.
pub fn path_by(sheet: &Sheet, order: Order, demand: Demand) -> Vec<Round> {
    let mut rounds = Vec::new();
    let mut prices = sheet.start.clone();
    for kind in order {
        loop {
            let demands = demands(sheet, &prices, demand);
            let (set, by) = match kind {
                Kind::Raised => (rising(sheet.items, &demands), 1),
                Kind::Lowered => (falling(&sheet.floors, &prices, &demands), -1),
            };
            if set == 0 {
                break;
            }
            prices = moved(&prices, set, by);
            rounds.push(Round { kind, items: (set >> 1) as u32, prices: prices.clone() });
        }
    }
    rounds
}

/// The first assignment in order in which every bidder has something of their demand, no item is given twice and every item of
/// `must` is given; null stands behind every item.
pub fn first_assignment(count: usize, demands: &[Options], must: Options) -> Option<Vec<u8>> {
    fn complete(count: usize, demands: &[Options], must: Options, given: &mut Vec<u8>) -> bool {
        if given.len() == demands.len() {
            return (1..=count).all(|i| must >> i & 1 == 0 || given.contains(&(i as u8)));
        }
        let demand = demands[given.len()];
        for option in (1..=count).chain([0]) {
            let free = option == 0 || !given.contains(&(option as u8));
            if demand >> option & 1 == 1 && free {
                given.push(option as u8);
                if complete(count, demands, must, given) {
                    return true;
                }
                given.pop();
            }
        }
        false
    }
    let mut given = Vec::new();
    complete(count, demands, must, &mut given).then_some(given)
}

/// Document 02's, #106: what each bidder gains by an assignment, the surplus of the item named. At the close nobody pays more than they bid.
pub fn gains(sheet: &Sheet, prices: &[u16], names: &[u8]) -> Vec<u16> {
    let gain = |(b, &option): (usize, &u8)| surplus(sheet.line(b), prices, option.into());
    (1..).zip(names).map(gain).map(|gain| u16::try_from(gain).expect("a gain is never below 0")).collect()
}

/// The sealed auction of a sheet within the limits, rising first.
pub fn close(sheet: &Sheet) -> Closing {
    close_in(sheet, RISING_FIRST)
}

/// The same in either order.
pub fn close_in(sheet: &Sheet, order: Order) -> Closing {
    let path = path_by(sheet, order, demand);
    let prices = path.last().map_or(sheet.start.clone(), |r| r.prices.clone());
    let demands = demands(sheet, &prices, demand);
    let must = above(&sheet.floors, &prices);
    let names = first_assignment(sheet.items, &demands, must).expect("some assignment fits at the close");
    let count = |kind| path.iter().filter(|r| r.kind == kind).count() as u32;
    let gains = gains(sheet, &prices, &names);
    Closing { raised: count(Kind::Raised), lowered: count(Kind::Lowered), prices, names, gains }
}
