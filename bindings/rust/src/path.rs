//! The rounds of a sheet for people: a row a round in decimal, long runs of equal rounds drawn together. What is shown is held to the proved close.

use crate::accepted::Accepted;
use crate::table::counted;
use crate::{falling_reasons, reasons_above, Closing, Kind, Order, Reason};
use std::error::Error;
use std::fmt::{self, Write};

/// So many equal rounds in a row, or more, are drawn together.
const LONG: usize = 3;

/// Rounds that are shown in one row: from one to another, what each of them did, and the prices before the first and after the last.
struct Row {
    first: usize,
    last: usize,
    reason: Reason,
    before: Vec<u16>,
    after: Vec<u16>,
}

/// The prices after a round. Those of rounds that lead to the close stay within 0 to 4,095, and others are not shown.
fn moved(prices: &[u16], reason: &Reason) -> Vec<u16> {
    let on = |i: usize| u16::from(reason.items >> i & 1 == 1);
    let next = |(i, &p): (usize, &u16)| match reason.kind {
        Kind::Raised => p.wrapping_add(on(i)),
        Kind::Lowered => p.wrapping_sub(on(i)),
    };
    prices.iter().enumerate().map(next).collect()
}

/// The rounds that were found do not lead to the close that the proved auction gives. No sheet is known on which that is so.
#[derive(Clone, Copy, Debug, PartialEq, Eq)]
pub struct Astray;

impl fmt::Display for Astray {
    fn fmt(&self, f: &mut fmt::Formatter<'_>) -> fmt::Result {
        write!(f, "the rounds that were found do not lead to the close, and are not shown: please report the sheet")
    }
}

impl Error for Astray {}

/// Holds the rounds to an order and its close: one way up to the turn and the other way after it, as many raised, as many lowered, and the last prices.
fn leading(order: Order, start: &[u16], reasons: Vec<Reason>, closing: &Closing) -> Result<Vec<Reason>, Astray> {
    let first = reasons.iter().take_while(|r| r.kind == order.first()).count();
    let turned = reasons[first..].iter().all(|r| r.kind != order.first());
    let raised = reasons.iter().filter(|r| r.kind == Kind::Raised).count();
    let last = reasons.iter().fold(start.to_vec(), |prices, reason| moved(&prices, reason));
    let counts = [closing.raised as usize, closing.lowered as usize];
    (turned && [raised, reasons.len() - raised] == counts && last == closing.prices).then_some(reasons).ok_or(Astray)
}

/// Whether two rounds look the same: one way, the same items, as many bidders.
fn equal(a: &Reason, b: &Reason) -> bool {
    (a.kind, a.items, a.bidders.count_ones()) == (b.kind, b.items, b.bidders.count_ones())
}

/// The rows of a path, from its starting prices.
fn rows(start: &[u16], reasons: &[Reason]) -> Vec<Row> {
    let mut rows = Vec::new();
    let mut prices = start.to_vec();
    let mut first = 1;
    for run in reasons.chunk_by(equal) {
        // A run that is not long has a row for each of its rounds.
        let together = if run.len() < LONG { 1 } else { run.len() };
        for part in run.chunks(together) {
            let after = part.iter().fold(prices.clone(), |prices, reason| moved(&prices, reason));
            let last = first + part.len() - 1;
            rows.push(Row { first, last, reason: part[0], before: prices, after: after.clone() });
            (prices, first) = (after, last + 1);
        }
    }
    rows
}

/// Items by number, runs of them as `1-4`.
fn named(items: u32) -> String {
    let members: Vec<u32> = (1..=32).filter(|i| items >> (i - 1) & 1 == 1).collect();
    let runs = members.chunk_by(|a, b| a + 1 == *b).map(|run| match run {
        [one] => one.to_string(),
        [first, .., last] => format!("{first}-{last}"),
        [] => String::new(),
    });
    runs.collect::<Vec<_>>().join(", ")
}

impl Row {
    fn rounds(&self) -> String {
        if self.first == self.last {
            return self.first.to_string();
        }
        format!("{} to {}", self.first, self.last)
    }

    /// The items and which way they went: from where to where for one, by how much for several.
    fn moves(&self) -> String {
        let way = match self.reason.kind {
            Kind::Raised => "up",
            Kind::Lowered => "down",
        };
        let items = named(self.reason.items);
        if self.reason.items.count_ones() == 1 {
            let i = self.reason.items.trailing_zeros() as usize;
            return format!("pan {items} {way}, {} to {}", self.before[i], self.after[i]);
        }
        format!("pans {items} {way} by {}", self.last + 1 - self.first)
    }

    fn bidders(&self) -> String {
        format!("{} for {}", self.reason.bidders.count_ones(), self.reason.items.count_ones())
    }
}

/// The table for a bid sheet in this order, with a row of floors where it has a line of them; an error where it is turned down.
pub fn show(bytes: &[u8], order: Order) -> Result<String, Box<dyn Error>> {
    let sheet = Accepted::read(bytes, order)?;
    let (items, bidders) = (sheet.start.len() as u32, sheet.bidders() as u32);
    let reasons = match order {
        Order::RisingFirst => reasons_above,
        Order::FallingFirst => falling_reasons,
    };
    let reasons = reasons(items, bidders, &sheet.start, &sheet.floors, &sheet.bids)?;
    Ok(written(&sheet, &leading(order, &sheet.start, reasons, &sheet.closing)?)?)
}

fn written(sheet: &Accepted, reasons: &[Reason]) -> Result<String, fmt::Error> {
    let mut out = counted(sheet)?;
    let rows = rows(&sheet.start, reasons);
    let rounds: Vec<[String; 3]> = rows.iter().map(|r| [r.rounds(), r.moves(), r.bidders()]).collect();
    let heads = ["rounds", "what moved", "rakers for pans"];
    let wide: [usize; 3] = std::array::from_fn(|k| rounds.iter().map(|r| r[k].len()).max().unwrap_or(0).max(heads[k].len()));
    let mut line = |cells: [&str; 3], prices: &[String]| {
        write!(out, "{:>3$}  {:<4$}  {:>5$}", cells[0], cells[1], cells[2], wide[0], wide[1], wide[2])?;
        prices.iter().try_for_each(|p| write!(out, "{p:>7}"))?;
        writeln!(out)
    };
    let prices = |prices: &[u16]| prices.iter().map(u16::to_string).collect::<Vec<_>>();
    line(["", "", ""], &["  rents after it".to_string()])?;
    line(heads, &(1..=sheet.start.len()).map(|i| format!("pan {i}")).collect::<Vec<_>>())?;
    if sheet.has_floors {
        line(["floor", "", ""], &prices(&sheet.floors))?;
    }
    line(["start", "", ""], &prices(&sheet.start))?;
    for (cells, row) in rounds.iter().zip(&rows) {
        line([&cells[0], &cells[1], &cells[2]], &prices(&row.after))?;
    }
    Ok(out)
}

#[cfg(test)]
mod tests {
    use super::*;

    /// Rounds that do not lead to the close are not shown: one too many, one too few, another kind, another item, another order.
    #[test]
    fn rounds_that_lead_elsewhere() {
        let round = |kind, items| Reason { kind, items, bidders: 1 };
        let [up, down] = [round(Kind::Raised, 0b10), round(Kind::Lowered, 0b01)];
        let closing = Closing { raised: 1, lowered: 1, prices: vec![3, 5], names: vec![1], gains: vec![0] };
        let held = |order, reasons: &[Reason]| leading(order, &[4, 4], reasons.to_vec(), &closing).map(|r| r.len());
        let [rising, falling] = [Order::RisingFirst, Order::FallingFirst];
        assert_eq!([held(rising, &[up, down]), held(falling, &[down, up])], [Ok(2); 2]);
        assert_eq!([held(rising, &[down, up]), held(falling, &[up, down])], [Err(Astray); 2]);
        for wrong in [&[up][..], &[down], &[up, up, down], &[up, up], &[up, round(Kind::Lowered, 0b10)], &[]] {
            let back: Vec<Reason> = wrong.iter().rev().copied().collect();
            assert_eq!([held(rising, wrong), held(falling, &back)], [Err(Astray); 2], "{wrong:?}");
        }
        assert_eq!(leading(rising, &[0, 4], vec![up, down], &closing), Err(Astray));
        // As many either way, and the same prices at the end; but the auction would turn twice.
        let back = Closing { raised: 2, lowered: 1, prices: vec![4, 5], ..closing };
        let rounds = [up, down, round(Kind::Raised, 0b01)];
        for order in [rising, falling] {
            assert_eq!(leading(order, &[4, 4], rounds.to_vec(), &back), Err(Astray));
        }
    }
}
