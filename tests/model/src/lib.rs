//! The second program: document 01, and what has landed of document 02, once more, in plain Rust, by other methods than the proved code.
//!
//! - [`literal`] follows the definitions to the letter: every part of every set, every assignment. For small sheets.
//! - [`flows`] takes the sets from a maximum matching and its alternating closure, and the first assignment from flows
//!   with lower bounds. For sheets of any size.
//! - [`totals`] plays no round at all: it takes turn and close from best totals, as least equilibrium prices.
//!
//! Each has both orders of the rounds, rising first and falling first ([`Order`]). The live auction is rising first.
//!
//! - [`reasons`] prints the sheet of reasons of document 02.
//! - [`sheet`] reads bid sheets and writes closing sheets; [`live`] is the live auction, [`tables`] the tables of differences lent beside its record,
//!   [`machine`] the plain machine that a live list is held to, [`console`] the lines of the console program.
//! - [`cases`] is document 01's table; [`random`], [`generate`] and [`lending`] make what else the comparison runs on, from a seed.
//!
//! Words: item (pan), bidder (raker), price (rent), floor (lowest rent), surplus (gain; at the close the gain is that of the item named), assignment (naming),
//! null (no pan), refusal (turned down).

pub mod cases;
pub mod console;
pub mod flows;
pub mod generate;
pub mod lending;
pub mod literal;
pub mod live;
pub mod machine;
pub mod random;
pub mod reasons;
pub mod sheet;
pub mod tables;
pub mod totals;

/// The highest bid, starting price, floor and price.
pub const TOP: u16 = 4095;
/// The most items.
pub const ITEMS: usize = 32;
/// The most bidders of a sealed auction, and the places for bidders in a live record.
pub const BIDDERS: usize = 64;
/// The most bidders of a live auction.
pub const LIVE_BIDDERS: usize = 40;

/// What a bid sheet says: counts, starting prices, and bids, bidder after bidder; and the floors that it is let with, which are 0
/// where nothing is said of them, and in every bid sheet as bytes.
#[derive(Clone, Debug, PartialEq, Eq)]
pub struct Sheet {
    pub items: usize,
    pub bidders: usize,
    pub start: Vec<u16>,
    pub floors: Vec<u16>,
    pub bids: Vec<u16>,
}

impl Sheet {
    /// The bids of a bidder, numbered from 1.
    pub fn line(&self, bidder: usize) -> &[u16] {
        &self.bids[(bidder - 1) * self.items..bidder * self.items]
    }

    /// A sheet from its starting prices and one line a bidder, with floors of 0.
    pub fn new(start: &[u16], lines: &[&[u16]]) -> Sheet {
        Sheet::of(start.to_vec(), lines.len(), lines.concat())
    }

    /// A sheet from its starting prices and all bids, with floors of 0.
    pub fn of(start: Vec<u16>, bidders: usize, bids: Vec<u16>) -> Sheet {
        Sheet { items: start.len(), bidders, floors: vec![0; start.len()], start, bids }
    }

    /// The sheet let with these floors.
    pub fn above(self, floors: &[u16]) -> Sheet {
        Sheet { floors: floors.to_vec(), ..self }
    }
}

/// The kind of a round.
#[derive(Clone, Copy, Debug, PartialEq, Eq)]
pub enum Kind {
    Raised,
    Lowered,
}

/// The order of the two kinds of rounds: those of the first until its set is empty, which is the turn, then those of the second until its set is.
pub type Order = [Kind; 2];

/// Document 01's order.
pub const RISING_FIRST: Order = [Kind::Raised, Kind::Lowered];
/// Document 02's, #104.
pub const FALLING_FIRST: Order = [Kind::Lowered, Kind::Raised];
pub const ORDERS: [Order; 2] = [RISING_FIRST, FALLING_FIRST];

/// A round of a path: its kind, its items (bit i − 1 for item i) and the prices after it.
#[derive(Clone, Debug, PartialEq, Eq)]
pub struct Round {
    pub kind: Kind,
    pub items: u32,
    pub prices: Vec<u16>,
}

/// What the closing sheet of a sealed auction says: rounds raised and lowered, the prices, each bidder's item, 0 for none, and each bidder's gain. A live
/// auction knows no bids, and has no gains to read.
#[derive(Clone, Debug, PartialEq, Eq)]
pub struct Closing {
    pub raised: u32,
    pub lowered: u32,
    pub prices: Vec<u16>,
    pub names: Vec<u8>,
    pub gains: Vec<u16>,
}

impl Closing {
    /// All but the rounds: what any order and any starting prices close with.
    pub fn without_rounds(&self) -> Closing {
        Closing { raised: 0, lowered: 0, ..self.clone() }
    }
}

/// Number 18: a floor above 4,095, or a starting price below its floor.
pub fn below_floor(start: &[u16], floors: &[u16]) -> bool {
    floors.iter().any(|&floor| floor > TOP) || start.iter().zip(floors).any(|(price, floor)| price < floor)
}

/// The number that turns a sealed auction down, by document 01's order 1, 2, 3, 4, 5: an auction with floors of 0.
pub fn sealed_refusal(items: u32, bidders: u32, start: &[u16], bids: &[u16]) -> Option<u8> {
    sealed_refusal_above(items, bidders, start, &vec![0; start.len()], bids)
}

/// The same with floors, in either order of the rounds: 1, 2, 3, 4, 18, 5.
pub fn sealed_refusal_above(items: u32, bidders: u32, start: &[u16], floors: &[u16], bids: &[u16]) -> Option<u8> {
    if !(1..=ITEMS as u32).contains(&items) {
        return Some(1);
    }
    if !(1..=BIDDERS as u32).contains(&bidders) {
        return Some(2);
    }
    let lengths = [start.len(), floors.len(), bids.len()];
    if lengths != [1, 1, bidders as usize].map(|lines| lines * items as usize) {
        return Some(3);
    }
    if start.iter().any(|&x| x > TOP) {
        return Some(4);
    }
    if below_floor(start, floors) {
        return Some(18);
    }
    if bids.iter().any(|&x| x > TOP) {
        return Some(5);
    }
    None
}
