//! The matching once more in plain Rust, as a programmer would write it: free items first, then augmenting chains, with the entered items of
//! failed chains kept. And the sealed auction round by round, in both orders: a demand pass, the sets by the matching, the first assignment by
//! asking for covers.

use model::Sheet;

/// The bidder side of a chain: the lowest item not yet entered, and on failure the next. `may` are bidders who can go without.
fn place(holder: &mut [u8; 32], entered: &mut u32, demand: &[u32; 64], may: u64, bidder: usize) -> bool {
    loop {
        let rest = demand[bidder] & !*entered;
        if rest == 0 {
            return false;
        }
        let item = rest.trailing_zeros() as usize;
        *entered |= 1 << item;
        if take(holder, entered, demand, may, item, bidder) {
            return true;
        }
    }
}

/// The item side: free, or its holder may go without, or its holder finds another.
fn take(holder: &mut [u8; 32], entered: &mut u32, demand: &[u32; 64], may: u64, item: usize, bidder: usize) -> bool {
    let held = holder[item];
    let freed = held == 0 || may >> (held - 1) & 1 == 1 || place(holder, entered, demand, may, held as usize - 1);
    if freed {
        holder[item] = bidder as u8 + 1;
    }
    freed
}

fn settle(holder: &mut [u8; 32], demand: &[u32; 64]) -> u32 {
    let mut kept = 0;
    for bidder in 0..64 {
        if let Some(item) = free_item(holder, demand[bidder] & !kept) {
            holder[item] = bidder as u8 + 1;
            continue;
        }
        let mut entered = kept;
        if !place(holder, &mut entered, demand, 0, bidder) {
            kept = entered;
        }
    }
    kept
}

/// The lowest of the items that nobody holds.
fn free_item(holder: &[u8; 32], mut items: u32) -> Option<usize> {
    while items != 0 {
        let item = items.trailing_zeros() as usize;
        if holder[item] == 0 {
            return Some(item);
        }
        items &= items - 1;
    }
    None
}

/// The largest set in excess demand.
#[inline(never)]
pub fn excess_demand(demand: &[u32; 64]) -> u32 {
    settle(&mut [0; 32], demand)
}

/// A match that places each of the bidders and gives out each of the items: who holds each item. Others may hold one too.
pub fn complete(demand: &[u32; 64], bidders: u64, items: u32) -> Option<[u8; 32]> {
    let mut holder = [0; 32];
    settle(&mut holder, &demand.map(|d| d & items));
    if (0..32).any(|i| items >> i & 1 == 1 && holder[i] == 0) {
        return None;
    }
    let all = (0..64).all(|b| {
        let placed = bidders >> b & 1 == 0 || holder.contains(&(b as u8 + 1));
        placed || place(&mut holder, &mut 0, demand, !bidders, b)
    });
    all.then_some(holder)
}

/// Whether there is such a match.
#[inline(never)]
pub fn covers(demand: &[u32; 64], bidders: u64, items: u32) -> bool {
    complete(demand, bidders, items).is_some()
}

#[derive(Clone, PartialEq, Eq, Debug)]
pub struct Demands {
    pub items: [u32; 64],
    pub nulls: u64,
}

/// What everybody demands at these prices, and what it gains them.
pub fn demands(prices: &[u16; 32], bids: &[u16], items: usize) -> (Demands, [u16; 64]) {
    let mut all = Demands { items: [0; 64], nulls: 0 };
    let mut gains = [0; 64];
    for (b, line) in bids.chunks_exact(items).enumerate() {
        let surplus = |(&bid, &price): (&u16, &u16)| i32::from(bid) - i32::from(price);
        let highest = line.iter().zip(prices).map(surplus).max().unwrap_or(0).max(0);
        for (i, pair) in line.iter().zip(prices).enumerate() {
            all.items[b] |= u32::from((*pair.0 > 0) & (surplus(pair) == highest)) << i;
        }
        all.nulls |= u64::from(highest == 0) << b;
        gains[b] = highest as u16;
    }
    (all, gains)
}

pub fn rising(d: &Demands) -> u32 {
    let mut own = d.items;
    for (b, set) in own.iter_mut().enumerate() {
        if d.nulls >> b & 1 == 1 {
            *set = 0;
        }
    }
    excess_demand(&own)
}

/// A price, or a floor, for each item, and zeros past the items.
pub fn places(amounts: &[u16]) -> [u16; 32] {
    let mut all = [0; 32];
    all[..amounts.len()].copy_from_slice(amounts);
    all
}

pub fn above_floors(floors: &[u16; 32], prices: &[u16; 32]) -> u32 {
    (0..32).filter(|&i| prices[i] > floors[i]).fold(0, |s, i| s | 1 << i)
}

pub fn falling(d: &Demands, floors: &[u16; 32], prices: &[u16; 32]) -> u32 {
    let above = above_floors(floors, prices);
    above & !excess_demand(&d.items.map(|set| set & above))
}

/// The first assignment in order.
fn assign(d: &Demands, above: u32, bidders: usize) -> [u8; 64] {
    let mut names = [0; 64];
    let mut taken = 0u32;
    for (b, name) in names.iter_mut().enumerate().take(bidders) {
        let completes = |taken: u32| {
            let mut rest = [0; 64];
            rest[b + 1..].copy_from_slice(&d.items[b + 1..]);
            rest.iter_mut().for_each(|set| *set &= !taken);
            let waiting = ((1u128 << bidders) - (2u128 << b)) as u64;
            covers(&rest, waiting & !d.nulls, above & !taken)
        };
        let mut open = d.items[b] & !taken;
        while open != 0 {
            let item = open.trailing_zeros();
            if completes(taken | 1 << item) {
                *name = item as u8 + 1;
                taken |= 1 << item;
                break;
            }
            open &= open - 1;
        }
    }
    names
}

/// What a close is written to.
#[derive(Clone, PartialEq, Eq, Debug)]
pub struct Closing {
    pub rounds: [u32; 2],
    pub prices: Vec<u16>,
    pub names: Vec<u8>,
    pub gains: Vec<u16>,
}

impl Closing {
    /// Zeros, as many as the counts ask for.
    pub fn new(items: usize, bidders: usize) -> Closing {
        Closing { rounds: [0; 2], prices: vec![0; items], names: vec![0; bidders], gains: vec![0; bidders] }
    }
}

/// A sheet while its rounds are played.
struct Letting<'a> {
    sheet: &'a Sheet,
    floors: [u16; 32],
    prices: [u16; 32],
    demands: Demands,
    gains: [u16; 64],
}

impl Letting<'_> {
    fn new(sheet: &Sheet) -> Letting<'_> {
        let prices = places(&sheet.start);
        let (demands, gains) = demands(&prices, &sheet.bids, sheet.items);
        Letting { sheet, floors: places(&sheet.floors), prices, demands, gains }
    }

    /// The rising set goes up until it is empty; in how many rounds.
    fn raise(&mut self) -> u32 {
        self.play(|at| rising(&at.demands), |price| *price += 1)
    }

    /// The falling set goes down until it is empty; in how many rounds.
    fn lower(&mut self) -> u32 {
        self.play(|at| falling(&at.demands, &at.floors, &at.prices), |price| *price -= 1)
    }

    fn play(&mut self, moves: impl Fn(&Self) -> u32, by_one: impl Fn(&mut u16)) -> u32 {
        let mut rounds = 0;
        let mut set = moves(self);
        while set != 0 {
            (0..32).filter(|&i| set >> i & 1 == 1).for_each(|i| by_one(&mut self.prices[i]));
            (self.demands, self.gains) = demands(&self.prices, &self.sheet.bids, self.sheet.items);
            rounds += 1;
            set = moves(self);
        }
        rounds
    }

    fn close(&self, rounds: [u32; 2], closing: &mut Closing) {
        let Sheet { items, bidders, .. } = *self.sheet;
        closing.rounds = rounds;
        closing.prices.copy_from_slice(&self.prices[..items]);
        let names = assign(&self.demands, above_floors(&self.floors, &self.prices), bidders);
        closing.names.copy_from_slice(&names[..bidders]);
        closing.gains.copy_from_slice(&self.gains[..bidders]);
    }
}

/// The sealed auction of a sheet within the limits, round by round, in either order.
#[inline(never)]
pub fn sealed(sheet: &Sheet, falling_first: bool, closing: &mut Closing) {
    let mut at = Letting::new(sheet);
    let (raised, lowered) = if falling_first {
        let lowered = at.lower();
        (at.raise(), lowered)
    } else {
        (at.raise(), at.lower())
    };
    at.close([raised, lowered], closing);
}
