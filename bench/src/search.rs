//! The proved code's search once more in plain Rust, as fast as we could write it: the items put in over the bidders, the fall to the least
//! prices, the rise from there to the floors, which is the close, and to the start, which is the turn, and the first assignment by
//! reachability. Falling first the turn is the close with bids less what their bidders gain at the start.
//!
//! Numbers are signed and of 16 bits: every x86-64 processor has an instruction for the smaller, and for the larger, of eight such numbers at
//! once. Lines are filled up to whole eights, so that no loop has places left over.

// By index over several arrays the compiler takes eight places at a time.
#![allow(clippy::needless_range_loop)]

use crate::plain::{above_floors, complete, places, Closing, Demands};

/// No distance is as long.
const FAR: i16 = 16_384;
/// And nothing is reached at this price.
const CLOSED: i16 = 20_480;

/// A table's lines: what is bid for each item, bidder after bidder, or for each bidder, item after item.
struct Table {
    bids: [i16; 2048],
    width: usize,
    items: usize,
}

impl Table {
    fn new(items: usize) -> Table {
        Table { bids: [0; 2048], width: items.next_multiple_of(8), items }
    }

    fn of(bids: &[u16], items: usize) -> Table {
        let mut table = Table::new(items);
        for (to, line) in table.bids.chunks_exact_mut(table.width).zip(bids.chunks_exact(items)) {
            to.iter_mut().zip(line).for_each(|(to, &bid)| *to = bid as i16);
        }
        table
    }

    fn transposed(bids: &[u16], items: usize, bidders: usize) -> Table {
        let mut table = Table::new(bidders);
        for (i, to) in table.bids.chunks_exact_mut(table.width).take(items).enumerate() {
            to.iter_mut().zip(bids[i..].iter().step_by(items)).for_each(|(to, &bid)| *to = bid as i16);
        }
        table
    }

    /// The first lines with each bid less an amount, and 0 where that is more.
    fn less(&self, lines: usize, amount: impl Fn(usize, usize) -> i16) -> Table {
        let mut table = Table::new(self.items);
        for (k, (to, line)) in table.bids.chunks_exact_mut(self.width).zip(self.lines()).take(lines).enumerate() {
            for x in 0..line.len().min(64) {
                to[x] = (line[x] - amount(k, x)).max(0);
            }
        }
        table
    }

    fn line(&self, holder: usize) -> &[i16] {
        &self.bids[(holder - 1) * self.width..holder * self.width]
    }

    fn lines(&self) -> impl Iterator<Item = &[i16]> {
        self.bids.chunks_exact(self.width)
    }
}

/// A search over the items by their distances. An item that was entered is at no distance any more, and its price closes it.
struct Search {
    key: [i16; 64],
    via: [i16; 64],
    dist: [i16; 64],
    cost: [i16; 64],
    number: [i16; 64],
}

impl Search {
    /// A free item has 64 more than its number, so that it comes before held ones that are as near.
    fn new(at: &Outcome, items: usize) -> Search {
        let number = std::array::from_fn(|x| x as i16 + if at.own[x] == 0 { 65 } else { 1 });
        let mut cost = at.prices;
        cost[items..].fill(CLOSED);
        Search { key: [FAR; 64], via: [0; 64], dist: [FAR; 64], cost, number }
    }

    /// Somebody with this line and reach is entered at item `from`. The least distance then.
    #[inline(always)]
    fn relax(&mut self, line: &[i16], reach: i16, from: i16) -> i16 {
        // Of a length that it knows the compiler makes a faster loop.
        match line.len() {
            32 => self.relax_all(&line[..32], reach, from),
            _ => self.relax_all(line, reach, from),
        }
    }

    #[inline(always)]
    fn relax_all(&mut self, line: &[i16], reach: i16, from: i16) -> i16 {
        let mut low = FAR;
        for x in 0..line.len().min(64) {
            let d = (reach + self.cost[x] - line[x]).max(0);
            self.via[x] = if d < self.key[x] { from } else { self.via[x] };
            self.key[x] = self.key[x].min(d);
            low = low.min(self.key[x]);
        }
        low
    }

    /// An item at that distance.
    #[inline(always)]
    fn item_at(&self, width: usize, low: i16) -> usize {
        match width {
            32 => self.item_among(32, low),
            _ => self.item_among(width, low),
        }
    }

    #[inline(always)]
    fn item_among(&self, width: usize, low: i16) -> usize {
        let mut item = 0;
        for x in 0..width.min(64) {
            item = item.max(if self.key[x] == low { self.number[x] } else { 0 });
        }
        (item as usize - 1) % 64 + 1
    }

    /// The item is entered at its distance.
    fn enter(&mut self, x: usize, low: i16) {
        self.dist[x] = low;
        self.key[x] = FAR;
        self.cost[x] = CLOSED;
    }
}

/// The set of one bidder, or of nobody.
fn alone(holder: u8) -> u64 {
    (1u128 << holder >> 1) as u64
}

/// Prices, and who holds each item.
struct Outcome {
    prices: [i16; 64],
    own: [u8; 64],
}

impl Outcome {
    /// The bidder is put in: prices rise until they, and those whom they push on, have what they demand. `turns` counts the steps.
    fn put_in(&mut self, table: &Table, bidder: usize, turns: &mut u32) {
        let mut search = Search::new(self, table.items);
        let (mut null, mut last) = (4095, 0);
        let (mut line, mut reach, mut from) = (table.line(bidder), 4095, 0);
        let (level, mut item) = loop {
            *turns += 1;
            let low = search.relax(line, reach, from as i16);
            if reach < null {
                (null, last) = (reach, from);
            }
            if null <= low {
                break (null, last);
            }
            from = search.item_at(table.width, low);
            let x = from - 1;
            let holder = usize::from(self.own[x]);
            if holder == 0 {
                break (low, from);
            }
            line = table.line(holder);
            reach = line[x] - self.prices[x] + low;
            search.enter(x, low);
        };
        for (price, d) in self.prices.iter_mut().zip(search.dist) {
            *price += (level - d).max(0);
        }
        while item != 0 {
            let next = search.via[item - 1] as usize;
            self.own[item - 1] = if next == 0 { bidder as u8 } else { self.own[next - 1] };
            item = next;
        }
    }

    /// The prices fall to the least that balance.
    fn fall(&mut self, table: &Table, bidders: usize, turns: &mut u32) {
        let mut best = [0; 64];
        let seated = self.own.iter().fold(0, |s, &b| s | alone(b));
        for (b, line) in table.lines().enumerate().take(bidders) {
            if seated >> b & 1 == 0 {
                best.iter_mut().zip(line).for_each(|(best, &bid)| *best = bid.max(*best));
            }
        }
        let mut search = Search::new(self, table.items);
        let mut low = search.relax(&best[..table.width], 0, 0);
        while low < FAR {
            *turns += 1;
            let x = search.item_at(table.width, low) - 1;
            let holder = usize::from(self.own[x]);
            search.enter(x, low);
            // The line of nobody reaches nothing; what is left is looked through again.
            low = match holder {
                0 => search.key.into_iter().fold(FAR, i16::min),
                _ => {
                    let line = table.line(holder);
                    search.relax(line, line[x] - self.prices[x] + low, 0)
                }
            };
        }
        for (price, d) in self.prices.iter_mut().zip(search.dist).take(table.items) {
            *price -= d;
        }
    }

    /// The least prices rise to the least from a base up: who holds an item that the base lifts is put in again. Nothing has to fall: one
    /// bidder more over least prices leaves them least.
    fn rise(&mut self, base: &[u16], table: &Table, turns: &mut u32) {
        let mut waiting = 0u64;
        for (i, &low) in base.iter().enumerate() {
            if self.prices[i] < low as i16 {
                self.prices[i] = low as i16;
                waiting |= alone(self.own[i]);
                self.own[i] = 0;
            }
        }
        while waiting != 0 {
            self.put_in(table, waiting.trailing_zeros() as usize + 1, turns);
            waiting &= waiting - 1;
        }
    }
}

/// Prices that balance: the items are put in over the bidders, whose prices are then their surpluses.
fn balance(table: &Table, transposed: &Table, turns: &mut u32) -> Outcome {
    let mut surplus = Outcome { prices: [0; 64], own: [0; 64] };
    for i in 1..=table.items {
        surplus.put_in(transposed, i, turns);
    }
    let mut balanced = Outcome { prices: [0; 64], own: [0; 64] };
    for (b, line) in table.lines().enumerate().take(transposed.items) {
        if surplus.own[b] != 0 {
            let i = usize::from(surplus.own[b]) - 1;
            balanced.own[i] = b as u8 + 1;
            balanced.prices[i] = line[i] - surplus.prices[b];
        }
    }
    balanced
}

/// The least prices from the floors up.
fn least(floors: &[u16], table: &Table, transposed: &Table, turns: &mut u32) -> Outcome {
    let mut at = balance(table, transposed, turns);
    at.fall(table, transposed.items, turns);
    at.rise(floors, table, turns);
    at
}

/// The highest surplus of a line's bidder, that of null included.
fn surplus(prices: &[i16; 64], line: &[i16]) -> i16 {
    let mut highest = 0;
    for x in 0..line.len().min(32) {
        highest = highest.max(line[x] - prices[x]);
    }
    highest
}

/// Each item's bit, within its half of the set.
const BITS: [u16; 32] = {
    let mut bits = [1; 32];
    let mut x = 0;
    while x < 32 {
        bits[x] <<= x % 16;
        x += 1;
    }
    bits
};

/// What everybody demands at these prices, and what it gains them.
fn demands(prices: &[i16; 64], table: &Table, bidders: usize) -> (Demands, [u16; 64]) {
    let mut all = Demands { items: [0; 64], nulls: 0 };
    let mut gains = [0; 64];
    let mut prices = *prices;
    prices[table.items..].fill(CLOSED);
    for (b, line) in table.lines().enumerate().take(bidders) {
        let highest = surplus(&prices, line);
        let mut set = [0; 32];
        for x in 0..line.len().min(32) {
            set[x] = if (line[x] > 0) & (line[x] - prices[x] == highest) { BITS[x] } else { 0 };
        }
        let half = |k: usize| set[k..k + 16].iter().fold(0, |s, bit| s | bit);
        all.items[b] = u32::from(half(16)) << 16 | u32::from(half(0));
        all.nulls |= u64::from(highest == 0) << b;
        gains[b] = highest as u16;
    }
    (all, gains)
}

/// The first assignment in order, from one complete assignment. Null is place 0, item i is place i.
pub fn first(d: &Demands, above: u32, bidders: usize, turns: &mut u32) -> [u8; 64] {
    let everyone = u64::MAX >> (64 - bidders);
    let holder = complete(&d.items, everyone & !d.nulls, above).expect("the prices balance");
    let mut seat = [0u8; 64];
    for (i, &b) in holder.iter().enumerate().filter(|(_, &b)| b != 0) {
        seat[usize::from(b) - 1] = i as u8 + 1;
    }
    let mut wanted_by = [0u64; 33];
    wanted_by[0] = d.nulls;
    for (b, &set) in d.items.iter().enumerate().take(bidders) {
        let mut rest = set;
        while rest != 0 {
            wanted_by[rest.trailing_zeros() as usize + 1] |= 1 << b;
            rest &= rest - 1;
        }
    }
    let mut open = (1u64 << 33) - 1;
    let mut later = everyone;
    for b in 0..bidders {
        later &= later - 1;
        let has = usize::from(seat[b]);
        let wants = u64::from(d.items[b]) << 1;
        let wish = lowest(open & wants);
        if wish != has {
            let held = seat[b..bidders].iter().fold(0, |s, &p| s | 1u64 << p);
            let way = Way::find(&wanted_by, &seat, open & !(u64::from(above) << 1), open & !held | 1, later, has, wish, turns);
            way.take(&mut seat, b, lowest(way.seen & wants), has);
        }
        open = open & !(1 << seat[b]) | 1;
    }
    seat
}

/// The lowest item of a set of places, and null if it has none.
fn lowest(places: u64) -> usize {
    match places & !1 {
        0 => 0,
        items => items.trailing_zeros() as usize,
    }
}

/// The places from which one can be reached, and for each of them who moves and where to.
struct Way {
    seen: u64,
    spare: u64,
    next: [u8; 33],
    mover: [u8; 33],
}

impl Way {
    #[allow(clippy::too_many_arguments)]
    fn find(
        wanted_by: &[u64; 33],
        seat: &[u8; 64],
        unpriced: u64,
        spare: u64,
        later: u64,
        has: usize,
        wish: usize,
        turns: &mut u32,
    ) -> Way {
        let mut way = Way { seen: 1 << has, spare, next: [0; 33], mover: [0; 33] };
        let (mut done, mut left) = (0u64, later);
        while done != way.seen && way.seen >> wish & 1 == 0 {
            *turns += 1;
            let q = (way.seen & !done).trailing_zeros() as usize;
            if unpriced >> q & 1 == 1 {
                way.enter(0, q, 0);
                way.seen |= spare;
            }
            let mut movers = wanted_by[q] & left;
            left &= !movers;
            while movers != 0 {
                let b = movers.trailing_zeros() as usize;
                way.enter(usize::from(seat[b]), q, b + 1);
                movers &= movers - 1;
            }
            done |= 1 << q;
        }
        way
    }

    fn enter(&mut self, p: usize, q: usize, bidder: usize) {
        if self.seen >> p & 1 == 0 {
            self.seen |= 1 << p;
            self.next[p] = q as u8;
            self.mover[p] = bidder as u8;
        }
    }

    /// The bidder takes item i, and those on the way to what they leave move up.
    fn take(&self, seat: &mut [u8; 64], bidder: usize, i: usize, has: usize) {
        seat[bidder] = i as u8;
        let on = |q: usize| if self.spare >> q & 1 == 1 { 0 } else { q };
        let mut p = on(i);
        while p != has {
            let q = self.next[p];
            if self.mover[p] != 0 {
                seat[usize::from(self.mover[p]) - 1] = q;
            }
            p = on(usize::from(q));
        }
    }
}

fn signed(prices: &[u16]) -> [i16; 64] {
    std::array::from_fn(|i| prices.get(i).map_or(0, |&price| price as i16))
}

fn most_over(a: &[i16; 64], b: &[i16; 64]) -> u32 {
    a.iter().zip(b).fold(0, |most, (x, y)| most.max(x - y)) as u32
}

/// Writes the closing prices, and the names and gains at them.
fn close_at(close: &[i16; 64], floors: &[u16], table: &Table, bidders: usize, closing: &mut Closing, turns: &mut u32) {
    let prices: [u16; 32] = std::array::from_fn(|i| close[i] as u16);
    closing.prices.copy_from_slice(&prices[..table.items]);
    let (demands, gains) = demands(close, table, bidders);
    let names = first(&demands, above_floors(&places(floors), &prices), bidders, turns);
    closing.names.copy_from_slice(&names[..bidders]);
    closing.gains.copy_from_slice(&gains[..bidders]);
}

/// Either order, as both are called.
pub type Call = fn(usize, usize, &[u16], &[u16], &[u16], &mut Closing) -> u32;

/// The sealed auction of a sheet within the limits, and how many steps its searches took.
#[inline(never)]
pub fn sealed(items: usize, bidders: usize, start: &[u16], floors: &[u16], bids: &[u16], closing: &mut Closing) -> u32 {
    let mut turns = 0;
    let (table, transposed) = (Table::of(bids, items), Table::transposed(bids, items, bidders));
    let mut at = least(floors, &table, &transposed, &mut turns);
    let close = at.prices;
    at.rise(start, &table, &mut turns);
    closing.rounds = [most_over(&at.prices, &signed(start)), most_over(&at.prices, &close)];
    close_at(&close, floors, &table, bidders, closing, &mut turns);
    turns
}

/// The same falling first.
#[inline(never)]
pub fn falling_first(items: usize, bidders: usize, start: &[u16], floors: &[u16], bids: &[u16], closing: &mut Closing) -> u32 {
    let mut turns = 0;
    let (table, transposed) = (Table::of(bids, items), Table::transposed(bids, items, bidders));
    let start = signed(start);
    let mut gains = [0; 64];
    gains.iter_mut().zip(table.lines()).take(bidders).for_each(|(gain, line)| *gain = surplus(&start, line));
    let (less, less_transposed) = (table.less(bidders, |b, _| gains[b]), transposed.less(items, |_, b| gains[b]));
    let turn = least(floors, &less, &less_transposed, &mut turns).prices;
    let close = least(floors, &table, &transposed, &mut turns).prices;
    closing.rounds = [most_over(&close, &turn), most_over(&start, &turn)];
    close_at(&close, floors, &table, bidders, closing, &mut turns);
    turns
}
