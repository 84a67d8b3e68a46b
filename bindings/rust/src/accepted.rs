//! Bid sheets for the tools: accepted ones taken apart, and how one is written.
//!
//! Here a bid sheet may have a line of floors: the second line, `f` and then four digits for each item. The proved reader of bid sheets knows no such line, and a
//! sheet without one means floors of 0.

use crate::digits::number;
use crate::{close_sheet, Closing, Order};
use std::error::Error;

/// An accepted sheet: the starting prices, the floors, and the bids, bidder after bidder; and how it closes, in one order.
pub(crate) struct Accepted {
    pub start: Vec<u16>,
    pub floors: Vec<u16>,
    /// Whether the sheet has a line of floors. Where it has none they are 0.
    pub has_floors: bool,
    pub bids: Vec<u16>,
    pub order: Order,
    pub closing: Closing,
    /// How many rounds it takes rising first, and falling first.
    pub rounds: [u32; 2],
}

/// A sheet without its line of floors, and the digits of that line. A line of bids that begins with f has whole groups of four digits with it.
fn apart(bytes: &[u8]) -> (Vec<u8>, Option<&[u8]>) {
    let mut lines = bytes.splitn(3, |&b| b == b'\n');
    match [lines.next(), lines.next(), lines.next()] {
        [Some(first), Some([b'f', digits @ ..]), Some(rest)] if digits.len() % 4 == 0 => {
            ([first, rest].join(&b'\n'), Some(digits))
        }
        _ => (bytes.to_vec(), None),
    }
}

/// Whether a bid sheet has a line of floors, whatever else it has.
pub fn has_floors(sheet: &[u8]) -> bool {
    apart(sheet).1.is_some()
}

/// The numbers in a line of digits, four to a number.
fn numbers(line: &[u8]) -> Option<Vec<u16>> {
    line.chunks(4).map(|digits| number(digits).map(|x| x as u16)).collect()
}

/// The floors of so many items, from the digits of their line.
fn read_floors(digits: &[u8], items: usize) -> Result<Vec<u16>, Box<dyn Error>> {
    let wanted = format!("f, and then four digits 0-9 and a-f for each of the sheet's {items} pans");
    let none = format!("turned down with 06: the second line is no line of floors: {wanted}");
    Ok(numbers(digits).filter(|floors| floors.len() == items).ok_or(none)?)
}

impl Accepted {
    /// An error where the sheet is turned down: 6 for the first four bytes, 1, 2, 6 for the rest, 4, 18, 5.
    pub fn read(bytes: &[u8], order: Order) -> Result<Accepted, Box<dyn Error>> {
        let (plain, digits) = apart(bytes);
        // The proved reader says whether this is a bid sheet; amounts are left to the auction with floors, because 18 stands between 4 and 5.
        match close_sheet(&plain) {
            Err(refusal) if !matches!(refusal.number(), 4 | 5) => return Err(refusal.into()),
            _ => {}
        }
        // It has read counts, and behind them lines of digits.
        let lines: Vec<Vec<u16>> = plain[4..plain.len() - 1].split(|&b| b == b'\n').map_while(numbers).collect();
        let start = lines[0].clone();
        let floors = digits.map_or(Ok(vec![0; start.len()]), |digits| read_floors(digits, start.len()))?;
        let bids = lines[1..].concat();
        let close = |order: Order| order.close(start.len() as u32, lines.len() as u32 - 1, &start, &floors, &bids);
        let [rising, falling] = [close(Order::RisingFirst)?, close(Order::FallingFirst)?];
        let rounds = [&rising, &falling].map(|closing| closing.raised + closing.lowered);
        let closing = match order {
            Order::RisingFirst => rising,
            Order::FallingFirst => falling,
        };
        Ok(Accepted { start, floors, has_floors: digits.is_some(), bids, order, closing, rounds })
    }

    pub fn bidders(&self) -> usize {
        self.closing.names.len()
    }
}

/// A bid sheet, with a line of floors where some are given.
pub(crate) fn written(start: &[u16], floors: Option<&[u16]>, bids: &[u16]) -> String {
    let line = |amounts: &[u16]| amounts.iter().map(|x| format!("{x:04x}")).collect::<String>() + "\n";
    let floors = floors.map_or(String::new(), |floors| "f".to_string() + &line(floors));
    let lines: String = bids.chunks(start.len()).map(line).collect();
    format!("{:02x}{:02x}{}{floors}{lines}", start.len(), bids.len() / start.len(), line(start))
}
