//! One bidder's table of the largest differences between two bids, in a lent part of [`TABLE`] numbers.
//!
//! A table has a row and a column for each of [`OPTIONS`]: place 0 is null's, place i item i's. The number in a row and a column is the most that the bid of the row's
//! option may lie above that of the column's. It stands in the part row after row, and a live auction's tables stand bidder after bidder.

use crate::linked;

/// Null, and the items 1 to 32.
pub const OPTIONS: usize = 33;
/// The numbers of one bidder's table.
pub const TABLE: usize = OPTIONS * OPTIONS;

/// Fills the part for all bids of 0 to 4,095, as an opening does. `false`, with the part as it was, for another length than [`TABLE`] or items outside 1 to 32.
pub fn table_fill(part: &mut [i16], items: u32) -> bool {
    // SAFETY, of each: an address and a length are those of one slice; a part that is written to is lent to this call alone.
    unsafe { linked::dewgneiss_table_fill(part.as_mut_ptr(), part.len(), items) == 1 }
}

/// Whether a live auction takes the table: its numbers are from −4,095 to 4,095, those for items beyond the count are 0, and some bids of 0 to 4,095 meet it.
pub fn table_fits(part: &[i16], items: u32) -> bool {
    unsafe { linked::dewgneiss_table_fits(part.as_ptr(), part.len(), items) == 1 }
}

/// Whether some bids of 0 to 4,095 meet the table and explain the report: null or not, beside an item set, is exactly their demand at these prices, one for each item.
/// `false` also for what no live auction takes: another number of prices, one above 4,095, an empty report or one with an item beyond the count, a table that does not
/// fit.
pub fn table_explains(part: &[i16], items: u32, prices: &[u16], null: bool, set: u32) -> bool {
    unsafe {
        linked::dewgneiss_table_explains(part.as_ptr(), part.len(), items, prices.as_ptr(), prices.len(), null.into(), set) == 1
    }
}

/// If so, narrows the table to those bids: every number is then the largest that they reach. Otherwise it stays as it was.
pub fn table_narrow(part: &mut [i16], items: u32, prices: &[u16], null: bool, set: u32) -> bool {
    unsafe {
        linked::dewgneiss_table_narrow(part.as_mut_ptr(), part.len(), items, prices.as_ptr(), prices.len(), null.into(), set) == 1
    }
}
