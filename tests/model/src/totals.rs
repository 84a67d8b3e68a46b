//! Turn and close without a round: both are least equilibrium prices, one from the starting prices and one from the floors, and how
//! far such a price stands above them is what the best total of bids less them would gain from one more copy of the item (source
//! document 000's prices are those of Vickrey). Falling first's turn is the close of other bids. Counts of rounds are then the largest
//! rise and the largest fall, and gains what the best total loses without the bidder. Best totals come from the Hungarian method with potentials.

use crate::{Kind, Order, Sheet};

/// The best total over assignments of bidders to columns or to null (worth 0); `worth[b][c]` may be below 0.
pub fn best_total(worth: &[Vec<i32>]) -> i32 {
    let n = worth.len();
    let real = worth.first().map_or(0, Vec::len);
    let width = real + n;
    // Rows and columns from 1; column 0 is where a new row starts. Costs are worths negated; the last n columns are null.
    let cost = |row: usize, column: usize| if column <= real { -worth[row - 1][column - 1] } else { 0 };
    let (mut of_row, mut of_column) = (vec![0; n + 1], vec![0; width + 1]);
    let mut holder = vec![0; width + 1];
    for row in 1..=n {
        holder[0] = row;
        let mut column = 0;
        let mut slack = vec![i32::MAX; width + 1];
        let mut before = vec![0; width + 1];
        let mut used = vec![false; width + 1];
        while holder[column] != 0 {
            used[column] = true;
            let r = holder[column];
            let (mut least, mut next) = (i32::MAX, 0);
            for c in (1..=width).filter(|&c| !used[c]) {
                let reduced = cost(r, c) - of_row[r] - of_column[c];
                if reduced < slack[c] {
                    slack[c] = reduced;
                    before[c] = column;
                }
                if slack[c] < least {
                    least = slack[c];
                    next = c;
                }
            }
            for c in 0..=width {
                if used[c] {
                    of_row[holder[c]] += least;
                    of_column[c] -= least;
                } else if slack[c] != i32::MAX {
                    slack[c] -= least;
                }
            }
            column = next;
        }
        while column != 0 {
            holder[column] = holder[before[column]];
            column = before[column];
        }
    }
    (1..=width).filter(|&c| holder[c] != 0).map(|c| -cost(holder[c], c)).sum()
}

/// The least equilibrium prices of these worths: what one more copy of each column adds to the best total.
fn least_prices(worth: &[Vec<i32>]) -> Vec<i32> {
    let total = best_total(worth);
    let with_copy = |c: usize| worth.iter().map(|line| [line.as_slice(), &[line[c]]].concat()).collect::<Vec<_>>();
    (0..worth[0].len()).map(|c| best_total(&with_copy(c)) - total).collect()
}

/// The bids less these prices, a line a bidder.
fn bids_less(sheet: &Sheet, prices: &[u16]) -> Vec<Vec<i32>> {
    let line = |l: &[u16]| l.iter().zip(prices).map(|(&bid, &price)| i32::from(bid) - i32::from(price)).collect();
    sheet.bids.chunks(sheet.items).map(line).collect()
}

/// These prices raised to the least equilibrium prices at or above them; the worths are bids less these prices.
fn least_from(low: &[u16], worth: &[Vec<i32>]) -> Vec<u16> {
    least_prices(worth).iter().zip(low).map(|(&up, &low)| low + up as u16).collect()
}

/// The bids less the floors, and less what their bidder would gain at the starting prices. By such bids everybody demands null at the start, so no price
/// rises from there; and from the start down everybody demands the same items above their floors as by their own bids, so the falls are the same. What
/// they close at is falling first's turn.
fn without_gains(sheet: &Sheet) -> Vec<Vec<i32>> {
    let without = |(line, at_start): (Vec<i32>, Vec<i32>)| {
        let gain = at_start.into_iter().fold(0, i32::max);
        line.iter().map(|worth| worth - gain).collect()
    };
    bids_less(sheet, &sheet.floors).into_iter().zip(bids_less(sheet, &sheet.start)).map(without).collect()
}

/// The prices at the turn and at the close.
pub fn turn_and_close(sheet: &Sheet, order: Order) -> (Vec<u16>, Vec<u16>) {
    let turn = match order[0] {
        Kind::Raised => least_from(&sheet.start, &bids_less(sheet, &sheet.start)),
        Kind::Lowered => least_from(&sheet.floors, &without_gains(sheet)),
    };
    (turn, least_from(&sheet.floors, &bids_less(sheet, &sheet.floors)))
}

/// Rounds raised and lowered in either order: the largest rise and the largest fall to the turn or from there. A fall is a rise on the way back.
pub fn rounds(sheet: &Sheet, turn: &[u16], close: &[u16]) -> (u32, u32) {
    let rise = |from: &[u16], to: &[u16]| from.iter().zip(to).map(|(&a, &b)| b.saturating_sub(a).into()).max().unwrap_or(0);
    (rise(&sheet.start, turn).max(rise(turn, close)), rise(turn, &sheet.start).max(rise(close, turn)))
}

/// What each bidder gains at the least prices: what the best total of bids less floors loses without that bidder.
pub fn gains(sheet: &Sheet) -> Vec<u16> {
    let worth = bids_less(sheet, &sheet.floors);
    let total = best_total(&worth);
    let without = |b: usize| [&worth[..b], &worth[b + 1..]].concat();
    (0..sheet.bidders).map(|b| (total - best_total(&without(b))) as u16).collect()
}

/// The total of an assignment: its bids less the floors.
pub fn total(sheet: &Sheet, names: &[u8]) -> i32 {
    let lines = bids_less(sheet, &sheet.floors);
    names.iter().zip(&lines).map(|(&item, line)| if item == 0 { 0 } else { line[item as usize - 1] }).sum()
}

/// The best total of the sheet's bids less its floors.
pub fn best(sheet: &Sheet) -> i32 {
    best_total(&bids_less(sheet, &sheet.floors))
}
