//! The prices at the turn, which no closing sheet has. Plain Rust, and not proved: what comes out is held to the proved close.

use crate::{sealed, sealed_above, Closing, Order, Refusal};
use std::fmt;

/// Why there are no prices at the turn.
#[derive(Clone, Copy, Debug, PartialEq, Eq)]
pub enum NoTurn {
    /// The arguments are no sheet: the sealed auction refuses them.
    Refused(Refusal),
    /// The sheet closes in another way than the closing says, or the prices found do not fit it.
    Mismatch,
}

impl From<Refusal> for NoTurn {
    fn from(refusal: Refusal) -> NoTurn {
        NoTurn::Refused(refusal)
    }
}

impl fmt::Display for NoTurn {
    fn fmt(&self, f: &mut fmt::Formatter<'_>) -> fmt::Result {
        match self {
            NoTurn::Refused(refusal) => refusal.fmt(f),
            NoTurn::Mismatch => {
                write!(f, "the rents at the turn do not fit this closing: it is not the sheet's, or please report the sheet")
            }
        }
    }
}

impl std::error::Error for NoTurn {}

/// The prices at the turn of the sheet that closes so. The closing has a price for each item and a name for each bidder: the counts are taken from there.
///
/// Refused with 1, 2, 3, 4 or 5, in this order, as [`sealed`] is.
pub fn turn(start: &[u16], bids: &[u16], closing: &Closing) -> Result<Vec<u16>, NoTurn> {
    turn_above(start, &vec![0; start.len()], bids, closing)
}

/// The same with floors.
///
/// Refused with 1, 2, 3, 4, 18 or 5, in this order, as [`sealed_above`] is. The rises from `start` are those of an auction from 0 in which every bid is less by
/// the start; bids below that count as 0. They must be the rounds raised, and from the turn the auction must lower as often and close in the same way.
pub fn turn_above(start: &[u16], floors: &[u16], bids: &[u16], closing: &Closing) -> Result<Vec<u16>, NoTurn> {
    turn_of(Order::RisingFirst, start, floors, bids, closing)
}

/// The same falling first, where the turn is when the falling set is first empty. The closing is that of [`falling_first`](crate::falling_first).
///
/// Refused as [`turn_above`] is. The falls from `start` are those of an auction from there in which every bid is less by its bidder's highest surplus at the
/// start; bids below that count as 0. They must be the rounds lowered, and from the turn the auction must raise as often and close in the same way.
pub fn falling_turn(start: &[u16], floors: &[u16], bids: &[u16], closing: &Closing) -> Result<Vec<u16>, NoTurn> {
    turn_of(Order::FallingFirst, start, floors, bids, closing)
}

/// The same in either order.
pub(crate) fn turn_of(order: Order, start: &[u16], floors: &[u16], bids: &[u16], closing: &Closing) -> Result<Vec<u16>, NoTurn> {
    let count = |places: usize| u32::try_from(places).unwrap_or(u32::MAX);
    let (items, bidders) = (count(closing.prices.len()), count(closing.names.len()));
    if order.close(items, bidders, start, floors, bids)? != *closing {
        return Err(NoTurn::Mismatch);
    }
    let before = match order {
        Order::RisingFirst => rises(items, bidders, start, bids)?,
        Order::FallingFirst => sealed_above(items, bidders, start, floors, &bids_to_fall_by(start, bids))?,
    };
    let after = sealed_above(items, bidders, &before.prices, floors, bids)?;
    // Up to the turn prices go one way, and after it the other.
    let [up, down] = match order {
        Order::RisingFirst => [&before, &after],
        Order::FallingFirst => [&after, &before],
    };
    let rounds = [up.raised, up.lowered, down.raised, down.lowered] == [closing.raised, 0, 0, closing.lowered];
    let fits = rounds && (&after.prices, &after.names) == (&closing.prices, &closing.names);
    fits.then_some(before.prices).ok_or(NoTurn::Mismatch)
}

/// The rises from accepted starting prices, as an auction that ends at the turn.
fn rises(items: u32, bidders: u32, start: &[u16], bids: &[u16]) -> Result<Closing, Refusal> {
    let rises = sealed(items, bidders, &vec![0; start.len()], &bids_beyond(start, bids))?;
    Ok(Closing { prices: start.iter().zip(&rises.prices).map(|(s, up)| s + up).collect(), ..rises })
}

/// What each bid has beyond the price of its item; 0 where it has nothing.
pub(crate) fn bids_beyond(prices: &[u16], bids: &[u16]) -> Vec<u16> {
    bids.chunks(prices.len()).flat_map(|line| line.iter().zip(prices).map(|(bid, price)| bid.saturating_sub(*price))).collect()
}

/// What each bid has beyond its bidder's highest surplus at the prices, that of null included; 0 where it has nothing. By these bids an auction from there raises
/// nothing, and lowers the same items for the same bidders as falling first does:
///
/// - at the start nobody has a surplus above 0, so everybody wants null, and the rising set is empty;
/// - the falling set looks at items above their floors only. While prices fall, a bidder's highest surplus is at least what it was at the start, so all that may be
///   wanted is less by the same, and is wanted as by the true bids. A bid that becomes 0 was too low: at a price above 0 it has less than that surplus.
pub(crate) fn bids_to_fall_by(prices: &[u16], bids: &[u16]) -> Vec<u16> {
    let gains = bids_beyond(prices, bids);
    let lines = bids.chunks(prices.len()).zip(gains.chunks(prices.len()));
    let less = |(bids, gains): (&[u16], &[u16])| {
        let highest = gains.iter().max().copied().unwrap_or(0);
        bids.iter().map(|bid| bid.saturating_sub(highest)).collect::<Vec<_>>()
    };
    lines.flat_map(less).collect()
}
