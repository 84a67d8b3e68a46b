//! A bidder's table of differences in plain Rust, by the proved code's own method: a quick test, and the closure of all differences over the options in turn.

use model::live::Report;
use model::tables::{OPTIONS, TABLE};
use model::TOP;

type Table = [[i16; OPTIONS]; OPTIONS];

/// The table with the range of bids; places beyond the count are 0.
fn loaded(part: &[i16], options: usize) -> Table {
    let mut t = [[0; OPTIONS]; OPTIONS];
    for i in 0..options {
        for j in 0..options {
            let range = if i == j || i == 0 { 0 } else { TOP as i16 };
            t[i][j] = part[i * OPTIONS + j].min(range);
        }
    }
    t
}

/// With the report's constraints: every option against null or, where null is not reported, against the lowest item that is.
fn explained(t: &mut Table, options: usize, prices: &[u16; 32], report: Report) {
    let price = |i: usize| if i == 0 { 0 } else { prices[i - 1] as i16 };
    let pivot = if report.null { 0 } else { report.items.trailing_zeros() as usize + 1 };
    for i in 0..options {
        let demanded = i > 0 && report.items >> (i - 1) & 1 == 1;
        let above = match (demanded, report.null) {
            (true, _) => price(i) - price(pivot),
            (false, true) => (price(i) - 1).max(0),
            (false, false) => price(i) - price(pivot) - 1,
        };
        t[i][pivot] = t[i][pivot].min(above);
        if demanded {
            let below = if report.null { -price(i).max(1) } else { price(pivot) - price(i) };
            t[pivot][i] = t[pivot][i].min(below);
        }
    }
}

/// The closure, held at −4,096; whether some bids meet it.
fn close(t: &mut Table, options: usize) -> bool {
    for k in 0..options {
        let by = t[k];
        for row in &mut t[..options] {
            let first = row[k];
            for (own, by) in row[..options].iter_mut().zip(by) {
                *own = (*own).min((first + by).max(-4096));
            }
        }
    }
    (0..options).all(|i| t[i][i] >= 0 && t[i][..options].iter().all(|&x| x >= -4095))
}

/// The bids of null's column meet the table.
fn met_by_column(part: &[i16], options: usize) -> bool {
    let bids: [i16; OPTIONS] = std::array::from_fn(|i| if i == 0 { 0 } else { part[i * OPTIONS] });
    (0..options).all(|i| {
        let row = &part[i * OPTIONS..][..options];
        let slack = row.iter().zip(&bids).fold(bids[i], |least, (most, bid)| least.min(most + bid - bids[i]));
        slack >= 0
    })
}

/// Number 11 does not apply.
pub fn fits(part: &[i16], items: usize) -> bool {
    let options = items + 1;
    let stands = |(i, row): (usize, &[i16])| {
        let (numbers, beyond) = row.split_at(if i < options { options } else { 0 });
        numbers.iter().all(|x| (-4095..=4095).contains(x)) && beyond.iter().all(|&x| x == 0)
    };
    part.chunks_exact(OPTIONS).enumerate().all(stands)
        && (met_by_column(part, options) || close(&mut loaded(part, options), options))
}

fn closed(part: &[i16], items: usize, prices: &[u16; 32], report: Report) -> Option<Table> {
    let mut t = loaded(part, items + 1);
    explained(&mut t, items + 1, prices, report);
    close(&mut t, items + 1).then_some(t)
}

/// Number 19 does not apply.
pub fn explains(part: &[i16], items: usize, prices: &[u16; 32], report: Report) -> bool {
    closed(part, items, prices, report).is_some()
}

/// Narrows a table that 19 does not apply to.
pub fn narrow(part: &mut [i16], items: usize, prices: &[u16; 32], report: Report) {
    if let Some(t) = closed(part, items, prices, report) {
        part[..TABLE].copy_from_slice(t.as_flattened());
    }
}
