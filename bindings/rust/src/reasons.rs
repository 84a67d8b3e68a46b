//! The sheet of reasons: for every round its kind, the items that moved, and the bidders for whose demands they did.

use crate::accepted::written;
use crate::digits::{digit_value, number};
use crate::turn::{bids_beyond, bids_to_fall_by};
use crate::{call, refusal, sealed_above, Refusal, LONGEST_REASONS};

/// What a round did to prices.
#[derive(Clone, Copy, Debug, PartialEq, Eq)]
pub enum Kind {
    Raised,
    Lowered,
}

/// Why a round moved its items.
#[derive(Clone, Copy, Debug, PartialEq, Eq)]
pub struct Reason {
    pub kind: Kind,
    /// The items that moved: bit i − 1 for item i.
    pub items: u32,
    /// For a rise the bidders who want nothing but these items, for a fall those who want some of them: bit k − 1 for bidder k.
    pub bidders: u64,
}

/// The bytes of a round's line.
const LINE: usize = 31;

/// The reasons of a bid sheet, round by round.
///
/// Refused with 6 for the first four bytes, 1, 2, 6 for the rest, 4 or 5, in this order.
pub fn reasons(bytes: &[u8]) -> Result<Vec<Reason>, Refusal> {
    Ok(reason_sheet(bytes)?.chunks_exact(LINE).map_while(read_line).collect())
}

/// The reasons of an auction with floors, round by round: those of another auction, whose floors are 0 (plain Rust, not proved).
///
/// Refused with 1, 2, 3, 4, 18 or 5, in this order, as [`sealed_above`] is.
pub fn reasons_above(items: u32, bidders: u32, start: &[u16], floors: &[u16], bids: &[u16]) -> Result<Vec<Reason>, Refusal> {
    sealed_above(items, bidders, start, floors, bids)?;
    reasons(less_floors(start, floors, bids).as_bytes())
}

/// The same falling first: the falls to the turn, and then the rises from there, each those of another auction (plain Rust, not proved).
///
/// Refused as [`reasons_above`] is.
pub fn falling_reasons(items: u32, bidders: u32, start: &[u16], floors: &[u16], bids: &[u16]) -> Result<Vec<Reason>, Refusal> {
    sealed_above(items, bidders, start, floors, bids)?;
    // By these bids the auction plays the falls alone, and closes at the turn.
    let less = bids_to_fall_by(start, bids);
    let turn = sealed_above(items, bidders, start, floors, &less)?.prices;
    let falls = reasons_above(items, bidders, start, floors, &less)?;
    Ok([falls, reasons_above(items, bidders, &turn, floors, bids)?].concat())
}

/// The bid sheet from which the floors are taken: starting prices and bids less by them. It moves as the auction with floors does, at prices that are less by the
/// floors, in every round the same items for the same bidders:
///
/// - a bid above its floor has the same gain, as bid and price are both less by the floor, and an item is above its floor where it is now above 0;
/// - a bid at or below its floor becomes 0, which is no bid. It never had a gain, and was wanted at most at the floor, beside null: by nobody who wants only items
///   of a rising set, as null is outside of it, and for no falling set, as that has no item at its floor.
fn less_floors(start: &[u16], floors: &[u16], bids: &[u16]) -> String {
    written(&bids_beyond(floors, start), None, &bids_beyond(floors, bids))
}

/// The reasons of a bid sheet as bytes: a line of 31 for each round.
pub fn reason_sheet(bytes: &[u8]) -> Result<Vec<u8>, Refusal> {
    let mut out = vec![0; LONGEST_REASONS];
    let long = reason_sheet_into(bytes, &mut out);
    out.truncate(long);
    // Three bytes are no lines of rounds: they are the line of a number, in decimal digits.
    if let [tens, ones, _] = out[..] {
        let [tens, ones] = [tens, ones].map(|byte| digit_value(byte).unwrap_or(0));
        refusal::of(10 * tens + ones)?;
    }
    Ok(out)
}

/// The same into lent bytes, at their front, or the line of the number that turns the sheet down: how many bytes that is. Where it does not fit
/// nothing is written, and the answer is 0; [`LONGEST_REASONS`] bytes are room for every one. Bytes past it stay as they were.
pub fn reason_sheet_into(bytes: &[u8], out: &mut [u8]) -> usize {
    call!(dewgneiss_reasons(; bytes; out))
}

/// What a line of the proved code says.
fn read_line(line: &[u8]) -> Option<Reason> {
    let kind = if number(&line[4..6])? == 1 { Kind::Raised } else { Kind::Lowered };
    Some(Reason { kind, items: number(&line[6..14])? as u32, bidders: number(&line[14..30])? })
}
