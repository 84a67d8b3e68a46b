//! The proved auction from Rust: all bids in, prices, names and gains out.
//!
//! The work is done by proved code, linked as a static library; this crate only hands slices over and turns numbers into
//! [`Refusal`]s. Any argument may be given: what the auction does not accept comes back as a refusal with the number and
//! the order of document 01.
//!
//! ```
//! // Example 6: two items at 4 and 4, three bidders.
//! let closing = dewgneiss::sealed(2, 3, &[4, 4], &[2, 6, 3, 7, 6, 7]).unwrap();
//! assert_eq!((closing.raised, closing.lowered), (2, 2));
//! assert_eq!(closing.prices, [2, 6]);
//! assert_eq!(closing.names, [0, 2, 1]); // bidder 1 has no item, bidder 2 has item 2, bidder 3 has item 1
//! assert_eq!(closing.gains, [0, 1, 4]); // bidder 2 bids 7 and pays 6, bidder 3 bids 6 and pays 2
//!
//! let sheet = b"020300040004\n00020006\n00030007\n00060007\n";
//! assert_eq!(dewgneiss::close_sheet(sheet).unwrap(), b"000002000002\n00020006\n000201\n000000010004\n");
//!
//! // Why its first round raised item 2: all three bidders want it, and nothing else.
//! let reasons = dewgneiss::reasons(sheet).unwrap();
//! assert_eq!((reasons.len(), reasons[0].items, reasons[0].bidders), (4, 0b10, 0b111));
//!
//! // Two items, the second with a floor of 5; one bidder bids 3 and 7. Less the floors that is 3 and 2: item 1.
//! let closing = dewgneiss::sealed_above(2, 1, &[0, 5], &[0, 5], &[3, 7]).unwrap();
//! assert_eq!(closing.prices, [0, 5]); // nobody has item 2, which stands at its floor
//! assert_eq!(closing.names, [1]);
//! assert_eq!(closing.gains, [3]); // a bid of 3 at a price of 0
//!
//! // Example 6 falling first: 4 rounds lowered and then 2 raised, to the same prices, names and gains.
//! let closing = dewgneiss::falling_first(2, 3, &[4, 4], &[0, 0], &[2, 6, 3, 7, 6, 7]).unwrap();
//! assert_eq!((closing.lowered, closing.raised), (4, 2));
//! assert_eq!(dewgneiss::falling_turn(&[4, 4], &[0, 0], &[2, 6, 3, 7, 6, 7], &closing).unwrap(), [0, 4]);
//! assert_eq!((closing.prices, closing.names, closing.gains), (vec![2, 6], vec![0, 2, 1], vec![0, 1, 4]));
//!
//! // What a bidder may still bid after reporting item 2 alone at prices 4 and 4: more than 4 for item 2, and less for item 1.
//! let mut table = [0; dewgneiss::TABLE];
//! assert!(dewgneiss::table_fill(&mut table, 2));
//! assert!(dewgneiss::table_narrow(&mut table, 2, &[4, 4], false, 0b10));
//! assert_eq!(table[33..36], [4094, 0, -1]); // item 1 less null, less itself, less item 2
//! assert!(!dewgneiss::table_explains(&table, 2, &[4, 4], true, 0)); // null at the same prices
//!
//! let refusal = dewgneiss::sealed(2, 3, &[4, 4096], &[2, 6, 3, 7, 6, 7]).unwrap_err();
//! assert_eq!(refusal.number(), 4);
//! println!("{refusal}");
//! ```
//!
//! Words: an item is a pan, a bidder a raker, a price a rent, a floor the lowest rent of a pan, a gain what a raker bids for a pan beyond its rent. Items and
//! bidders are numbered from 1.

mod accepted;
pub mod csv;
mod differences;
mod digits;
mod order;
pub mod path;
mod reasons;
mod refusal;
pub mod table;
mod turn;

pub use accepted::has_floors;
pub use differences::{table_explains, table_fill, table_fits, table_narrow, OPTIONS, TABLE};
pub use order::Order;
pub use reasons::{falling_reasons, reason_sheet, reason_sheet_into, reasons, reasons_above, Kind, Reason};
pub use refusal::Refusal;
pub use turn::{falling_turn, turn, turn_above, NoTurn};

/// The most items.
pub const ITEMS: usize = 32;
/// The most bidders.
pub const BIDDERS: usize = 64;
/// The highest price, floor and bid.
pub const TOP: u16 = 4095;
/// The bytes of the longest bid sheet.
pub const LONGEST_SHEET: usize = 8_389;
/// The bytes of the longest bid sheet that has a line of floors, as the tools take it.
pub const LONGEST_SHEET_ABOVE: usize = 8_519;
/// The bytes of the longest closing sheet.
pub const LONGEST_CLOSING: usize = 528;
/// The bytes of the longest sheet of reasons: 31 for each of 8,190 rounds.
pub const LONGEST_REASONS: usize = 253_890;

/// The close of a sealed auction.
#[derive(Clone, Debug, PartialEq, Eq)]
pub struct Closing {
    /// Rounds in which prices went up.
    pub raised: u32,
    /// Rounds in which prices went down.
    pub lowered: u32,
    /// The closing price of each item.
    pub prices: Vec<u16>,
    /// Each bidder's item, or 0 for none.
    pub names: Vec<u8>,
    /// What each bidder gains: their bid for the item named less its price, or 0 for none. Nothing would give them more at these prices.
    pub gains: Vec<u16>,
}

mod linked {
    // A slice is passed as its address and its length.
    extern "C" {
        pub fn dewgneiss_close_sheet(bytes: *const u8, bytes_len: usize, out: *mut u8, out_len: usize) -> u8;
        pub fn dewgneiss_reasons(bytes: *const u8, bytes_len: usize, out: *mut u8, out_len: usize) -> usize;
        pub fn dewgneiss_table_fill(part: *mut i16, part_len: usize, items: u32) -> u8;
        pub fn dewgneiss_table_fits(part: *const i16, part_len: usize, items: u32) -> u8;
        pub fn dewgneiss_table_explains(
            part: *const i16,
            part_len: usize,
            items: u32,
            prices: *const u16,
            prices_len: usize,
            null: u8,
            set: u32,
        ) -> u8;
        pub fn dewgneiss_table_narrow(
            part: *mut i16,
            part_len: usize,
            items: u32,
            prices: *const u16,
            prices_len: usize,
            null: u8,
            set: u32,
        ) -> u8;
    }

    // The sealed auctions differ in what they read, and leave the same.
    macro_rules! sealed {
        ($($name:ident($($read:ident $len:ident),*);)*) => {
            extern "C" {
                $(pub fn $name(
                    items: u32,
                    bidders: u32,
                    $($read: *const u16, $len: usize,)*
                    rounds: *mut u32,
                    rounds_len: usize,
                    prices: *mut u16,
                    prices_len: usize,
                    names: *mut u8,
                    names_len: usize,
                    gains: *mut u16,
                    gains_len: usize,
                ) -> u8;)*
            }
        };
    }
    sealed! {
        dewgneiss_sealed(start start_len, bids bids_len);
        dewgneiss_sealed_above(start start_len, floors floors_len, bids bids_len);
        dewgneiss_falling_first(start start_len, floors floors_len, bids bids_len);
    }
}

/// Calls a proved function: with numbers, with slices that it reads, and with slices that it writes to.
macro_rules! call {
    ($function:ident($($number:ident),*; $($read:ident),*; $($written:ident),*)) => {
        // SAFETY: each address and length is that of one slice; those that are written to are lent to this call alone.
        unsafe { $crate::linked::$function($($number,)* $($read.as_ptr(), $read.len(),)* $($written.as_mut_ptr(), $written.len(),)*) }
    };
}
pub(crate) use call;

/// The sealed auction: `start` has a price for each item, `bids` a bid for each item, bidder after bidder. A bid of 0 is none: nobody gets an item that they
/// bid 0 for, also at price 0. Every floor is 0.
///
/// Refused with 1, 2, 3, 4 or 5, in this order.
pub fn sealed(items: u32, bidders: u32, start: &[u16], bids: &[u16]) -> Result<Closing, Refusal> {
    closing(items, bidders, |rounds, prices, names, gains| sealed_into(items, bidders, start, bids, rounds, prices, names, gains))
}

/// The sealed auction with floors, one for each item: no price falls below its floor, and an item that nobody has stands there. A bid below the floor is a bid like
/// any other, which gets nothing.
///
/// Refused with 1, 2, 3, 4, 18 or 5, in this order; 18 for a floor above 4,095 or above its starting price.
pub fn sealed_above(items: u32, bidders: u32, start: &[u16], floors: &[u16], bids: &[u16]) -> Result<Closing, Refusal> {
    closing(items, bidders, |rounds, prices, names, gains| {
        sealed_above_into(items, bidders, start, floors, bids, rounds, prices, names, gains)
    })
}

/// The same falling first: the falling set goes down until it is empty, and then the rising set goes up. It ends in the prices, names and gains of
/// [`sealed_above`]; the rounds are others.
///
/// Refused as [`sealed_above`] is.
pub fn falling_first(items: u32, bidders: u32, start: &[u16], floors: &[u16], bids: &[u16]) -> Result<Closing, Refusal> {
    closing(items, bidders, |rounds, prices, names, gains| {
        falling_first_into(items, bidders, start, floors, bids, rounds, prices, names, gains)
    })
}

/// The closing that a call writes into memory which is lent to it.
fn closing(
    items: u32,
    bidders: u32,
    write: impl FnOnce(&mut [u32], &mut [u16], &mut [u8], &mut [u16]) -> Result<(), Refusal>,
) -> Result<Closing, Refusal> {
    // Counts out of range are refused before any length is looked at, so the room for them does not matter.
    let mut rounds = [0; 2];
    let mut prices = vec![0; (items as usize).min(ITEMS)];
    let mut names = vec![0; (bidders as usize).min(BIDDERS)];
    let mut gains = vec![0; names.len()];
    write(&mut rounds, &mut prices, &mut names, &mut gains)?;
    Ok(Closing { raised: rounds[0], lowered: rounds[1], prices, names, gains })
}

/// The sealed auctions into lent memory: they differ in what they read.
macro_rules! into_lent {
    ($($(#[$doc:meta])* $name:ident($($read:ident),*): $function:ident;)*) => {
        $($(#[$doc])*
        #[allow(clippy::too_many_arguments)] // as the proved function has them
        pub fn $name(
            items: u32,
            bidders: u32,
            $($read: &[u16],)*
            rounds: &mut [u32],
            prices: &mut [u16],
            names: &mut [u8],
            gains: &mut [u16],
        ) -> Result<(), Refusal> {
            refusal::of(call!($function(items, bidders; $($read),*; rounds, prices, names, gains)))
        })*
    };
}
into_lent! {
    /// [`sealed`] into lent memory: `rounds` has 2 places (raised, lowered), `prices` one for each item, `names` and `gains` one for each bidder.
    ///
    /// Another length is refused with 3. After a refusal the lent memory is as it was.
    sealed_into(start, bids): dewgneiss_sealed;
    /// [`sealed_above`] into lent memory, as [`sealed_into`].
    sealed_above_into(start, floors, bids): dewgneiss_sealed_above;
    /// [`falling_first`] into lent memory, as [`sealed_into`].
    falling_first_into(start, floors, bids): dewgneiss_falling_first;
}

/// The closing sheet of a bid sheet, both as bytes: a line each of rounds, prices, names and gains. Every floor is 0.
///
/// Refused with 6 for the first four bytes, 1, 2, 6 for the rest, 4 or 5, in this order.
pub fn close_sheet(bytes: &[u8]) -> Result<Vec<u8>, Refusal> {
    let mut out = [0; LONGEST_CLOSING];
    close_sheet_into(bytes, &mut out)?;
    // The sheet is four lines; nothing was written past the fourth.
    let end = out.iter().enumerate().filter(|(_, &b)| b == b'\n').nth(3).map_or(0, |(k, _)| k + 1);
    Ok(out[..end].to_vec())
}

/// The same into lent bytes. Fewer than the sheet takes are refused with 3, tested after 6 and before 4.
///
/// Bytes past the sheet stay as they were; after a refusal all do. The sheet takes 16 + 4 · items + 6 · bidders bytes.
pub fn close_sheet_into(bytes: &[u8], out: &mut [u8]) -> Result<(), Refusal> {
    refusal::of(call!(dewgneiss_close_sheet(; bytes; out)))
}
