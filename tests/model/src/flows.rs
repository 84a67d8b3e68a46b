//! The rule for sheets of any size: a maximum matching in phases of shortest paths, the sets by its alternating closure, and
//! the first assignment by flows with lower bounds. Item sets are u32, bit i − 1 for item i.

use crate::{literal, Closing, Kind, Order, Round, Sheet, RISING_FIRST};
use std::collections::VecDeque;

/// What a bidder demands: the items of the highest surplus that are bid for, and null if that surplus is 0.
#[derive(Clone, Copy, Debug, Default, PartialEq, Eq)]
pub struct Demand {
    pub null: bool,
    pub items: u32,
}

/// One pass over the line, keeping the best so far.
pub fn demand(line: &[u16], prices: &[u16]) -> Demand {
    let mut best = 0;
    let mut demand = Demand { null: true, items: 0 };
    for (i, (&bid, &price)) in line.iter().zip(prices).enumerate() {
        let surplus = bid as i32 - price as i32;
        if surplus > best {
            best = surplus;
            demand = Demand { null: false, items: 0 };
        }
        if surplus == best && bid > 0 {
            demand.items |= 1 << i;
        }
    }
    demand
}

pub fn demands(sheet: &Sheet, prices: &[u16]) -> Vec<Demand> {
    sheet.bids.chunks(sheet.items).map(|line| demand(line, prices)).collect()
}

/// The set of items with price above their floor.
pub fn above(floors: &[u16], prices: &[u16]) -> u32 {
    let over = prices.iter().zip(floors).map(|(price, floor)| u32::from(price > floor));
    over.enumerate().map(|(i, bit)| bit << i).sum()
}

/// The members of a set, from 0.
fn members(mut set: u32) -> impl Iterator<Item = usize> {
    std::iter::from_fn(move || {
        let i = set.trailing_zeros() as usize;
        set &= set.wrapping_sub(1);
        (i < 32).then_some(i)
    })
}

/// A matching of bidders to items of their sets.
struct Matching<'a> {
    wanted: &'a [u32],
    item_of: Vec<Option<usize>>,
    holder: [Option<usize>; 32],
}

impl Matching<'_> {
    /// A maximum matching, by phases: layers of bidders from those without an item, then disjoint shortest augmenting paths
    /// through the layers, until no phase finds one.
    fn maximum(wanted: &[u32]) -> Matching<'_> {
        let mut m = Matching { wanted, item_of: vec![None; wanted.len()], holder: [None; 32] };
        loop {
            let layers = m.layers();
            let free: Vec<usize> = (0..wanted.len()).filter(|&b| m.item_of[b].is_none()).collect();
            let mut used = 0;
            let mut grown = false;
            for b in free {
                grown |= m.augment(b, &layers, &mut used);
            }
            if !grown {
                return m;
            }
        }
    }

    fn layers(&self) -> Vec<Option<usize>> {
        let mut layers = vec![None; self.wanted.len()];
        let mut queue = VecDeque::new();
        for (b, layer) in layers.iter_mut().enumerate() {
            if self.item_of[b].is_none() {
                *layer = Some(0);
                queue.push_back(b);
            }
        }
        while let Some(b) = queue.pop_front() {
            for holder in members(self.wanted[b]).filter_map(|i| self.holder[i]) {
                if layers[holder].is_none() {
                    layers[holder] = layers[b].map(|l| l + 1);
                    queue.push_back(holder);
                }
            }
        }
        layers
    }

    fn augment(&mut self, b: usize, layers: &[Option<usize>], used: &mut u32) -> bool {
        for i in members(self.wanted[b]) {
            if *used >> i & 1 == 1 {
                continue;
            }
            let open = match self.holder[i] {
                None => true,
                Some(h) => layers[h] == layers[b].map(|l| l + 1),
            };
            if !open {
                continue;
            }
            *used |= 1 << i;
            if self.holder[i].is_none_or(|h| self.augment(h, layers, used)) {
                self.holder[i] = Some(b);
                self.item_of[b] = Some(i);
                return true;
            }
        }
        false
    }

    /// The items that alternating paths reach from the bidders who have none.
    fn reached(&self) -> u32 {
        let mut reached = 0;
        let mut queue: Vec<usize> = (0..self.wanted.len()).filter(|&b| self.item_of[b].is_none()).collect();
        while let Some(b) = queue.pop() {
            for i in members(self.wanted[b] & !reached) {
                reached |= 1 << i;
                queue.push(self.holder[i].expect("a maximum matching leaves no free item within reach"));
            }
        }
        reached
    }
}

/// The largest set in excess demand of bidders who want nothing but these items.
fn largest_excess(wanted: &[u32]) -> u32 {
    Matching::maximum(wanted).reached()
}

/// The rising set: a bidder who demands null is never turned away.
pub fn rising(demands: &[Demand]) -> u32 {
    let wanted: Vec<u32> = demands.iter().map(|d| if d.null { 0 } else { d.items }).collect();
    largest_excess(&wanted)
}

/// The falling set, `above` being the items of price above their floor.
pub fn falling(above: u32, demands: &[Demand]) -> u32 {
    let wanted: Vec<u32> = demands.iter().map(|d| d.items & above).collect();
    above & !largest_excess(&wanted)
}

/// The prices with those of the set moved by 1.
pub fn moved(prices: &[u16], set: u32, kind: Kind) -> Vec<u16> {
    let mut next = prices.to_vec();
    for i in members(set) {
        match kind {
            Kind::Raised => next[i] += 1,
            Kind::Lowered => next[i] -= 1,
        }
    }
    next
}

/// The rounds of a sheet, up to its close, rising first.
pub fn path(sheet: &Sheet) -> Vec<Round> {
    path_in(sheet, RISING_FIRST)
}

/// The same in either order.
pub fn path_in(sheet: &Sheet, order: Order) -> Vec<Round> {
    let mut rounds = Vec::new();
    let mut prices = sheet.start.clone();
    let [mut kind, last] = order;
    loop {
        let demands = demands(sheet, &prices);
        let set = match kind {
            Kind::Raised => rising(&demands),
            Kind::Lowered => falling(above(&sheet.floors, &prices), &demands),
        };
        if set != 0 {
            prices = moved(&prices, set, kind);
            rounds.push(Round { kind, items: set, prices: prices.clone() });
        } else if kind != last {
            kind = last;
        } else {
            return rounds;
        }
    }
}

/// A network with whole capacities.
struct Network {
    edges: Vec<(usize, u32)>,
    from: Vec<Vec<usize>>,
}

impl Network {
    fn new(nodes: usize) -> Network {
        Network { edges: Vec::new(), from: vec![Vec::new(); nodes] }
    }

    /// An edge and, next to it, its reverse of capacity 0.
    fn edge(&mut self, a: usize, b: usize, capacity: u32) {
        self.from[a].push(self.edges.len());
        self.edges.push((b, capacity));
        self.from[b].push(self.edges.len());
        self.edges.push((a, 0));
    }

    /// The largest flow, by shortest paths of one unit.
    fn largest_flow(&mut self, source: usize, sink: usize) -> u32 {
        let mut flow = 0;
        loop {
            let mut by = vec![None; self.from.len()];
            let mut queue = VecDeque::from([source]);
            while let (Some(a), None) = (queue.pop_front(), by[sink]) {
                for &e in &self.from[a] {
                    let (b, capacity) = self.edges[e];
                    if capacity > 0 && b != source && by[b].is_none() {
                        by[b] = Some(e);
                        queue.push_back(b);
                    }
                }
            }
            if by[sink].is_none() {
                return flow;
            }
            let mut at = sink;
            while let Some(e) = by[at] {
                self.edges[e].1 -= 1;
                self.edges[e ^ 1].1 += 1;
                at = self.edges[e ^ 1].0;
            }
            flow += 1;
        }
    }
}

/// Whether each bidder can have something of their demand, no item twice, every item of `must` included: a circulation in which
/// the edges into bidders and those out of the items of `must` carry at least 1.
fn feasible(demands: &[Demand], must: u32) -> bool {
    let n = demands.len();
    let (item, null, sink, extra, drain) = (|i: usize| n + i, n + 32, n + 33, n + 34, n + 35);
    let mut net = Network::new(n + 36);
    // Every bidder receives a unit, which the circulation takes back from the sink.
    for (b, d) in demands.iter().enumerate() {
        net.edge(extra, b, 1);
        for i in members(d.items) {
            net.edge(b, item(i), 1);
        }
        if d.null {
            net.edge(b, null, 1);
        }
    }
    net.edge(null, sink, n as u32);
    for i in 0..32 {
        if must >> i & 1 == 1 {
            net.edge(item(i), drain, 1);
            net.edge(extra, sink, 1);
        } else {
            net.edge(item(i), sink, 1);
        }
    }
    net.edge(sink, drain, n as u32);
    let due = n as u32 + must.count_ones();
    net.largest_flow(extra, drain) == due
}

/// The first assignment in order: for each bidder the lowest item of their demand, null behind every item, with which the rest
/// can still be completed. `None` where no assignment fits.
pub fn first_assignment(demands: &[Demand], must: u32) -> Option<Vec<u8>> {
    if !feasible(demands, must) {
        return None;
    }
    let mut names = Vec::new();
    let mut rest = demands.to_vec();
    let mut must = must;
    while !rest.is_empty() {
        let first = rest.remove(0);
        let found = members(first.items).find(|&i| {
            let without: Vec<Demand> = rest.iter().map(|d| Demand { items: d.items & !(1 << i), ..*d }).collect();
            feasible(&without, must & !(1 << i))
        });
        if let Some(i) = found {
            rest.iter_mut().for_each(|d| d.items &= !(1 << i));
            must &= !(1 << i);
        }
        names.push(found.map_or(0, |i| i as u8 + 1));
    }
    Some(names)
}

/// The sealed auction of a sheet within the limits, rising first.
pub fn close(sheet: &Sheet) -> Closing {
    close_in(sheet, RISING_FIRST)
}

/// The same in either order.
pub fn close_in(sheet: &Sheet, order: Order) -> Closing {
    close_after(sheet, &path_in(sheet, order))
}

/// The close after the sheet's rounds.
pub fn close_after(sheet: &Sheet, path: &[Round]) -> Closing {
    let prices = path.last().map_or(sheet.start.clone(), |r| r.prices.clone());
    let must = above(&sheet.floors, &prices);
    let names = first_assignment(&demands(sheet, &prices), must).expect("some assignment fits at the close");
    let raised = path.iter().filter(|r| r.kind == Kind::Raised).count();
    let gains = literal::gains(sheet, &prices, &names);
    Closing { raised: raised as u32, lowered: (path.len() - raised) as u32, prices, names, gains }
}

/// The prices at the turn of the sheet's rounds, rising first.
pub fn turn(sheet: &Sheet, path: &[Round]) -> Vec<u16> {
    turn_in(sheet, RISING_FIRST, path)
}

/// The same where the rounds are in this order.
pub fn turn_in(sheet: &Sheet, order: Order, path: &[Round]) -> Vec<u16> {
    path.iter().rev().find(|r| r.kind == order[0]).map_or(sheet.start.clone(), |r| r.prices.clone())
}
