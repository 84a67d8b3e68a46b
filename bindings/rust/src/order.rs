//! The two orders of an auction: which way prices go first.

use crate::{falling_first, sealed_above, Closing, Kind, Refusal};

/// Which way prices go first. Either way the auction ends in the same prices, names and gains (proved); the rounds and the turn are others.
#[derive(Clone, Copy, Debug, PartialEq, Eq)]
pub enum Order {
    /// The rising set goes up until it is empty, and then the falling set goes down: [`sealed_above`].
    RisingFirst,
    /// The falling set goes down until it is empty, and then the rising set goes up: [`falling_first`].
    FallingFirst,
}

impl Order {
    /// What the rounds up to the turn do.
    pub(crate) fn first(self) -> Kind {
        match self {
            Order::RisingFirst => Kind::Raised,
            Order::FallingFirst => Kind::Lowered,
        }
    }

    pub(crate) fn close(self, items: u32, bidders: u32, start: &[u16], floors: &[u16], bids: &[u16]) -> Result<Closing, Refusal> {
        match self {
            Order::RisingFirst => sealed_above(items, bidders, start, floors, bids),
            Order::FallingFirst => falling_first(items, bidders, start, floors, bids),
        }
    }
}
