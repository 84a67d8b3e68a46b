//! The sheet of reasons of document 02, #101: for every round of a path its kind, its items, and the bidders for whose demands it moves.
//! A bidder's demand is taken from the letter.

use crate::literal::{demand, Demand, Options};
use crate::{flows, sealed_refusal, sheet, Kind, Round, Sheet};

/// Why a round moved its items: bit i − 1 for item i, bit k − 1 for bidder k.
#[derive(Clone, Copy, Debug, PartialEq, Eq)]
pub struct Reason {
    pub kind: Kind,
    pub items: u32,
    pub bidders: u64,
}

/// For a rise the bidders who want only items of the set, for a fall those who want some item of it. Null is in no set.
fn concerned(kind: Kind, items: u32, wanted: Options) -> bool {
    let set = Options::from(items) << 1;
    match kind {
        Kind::Raised => wanted & !set == 0,
        Kind::Lowered => wanted & set != 0,
    }
}

/// The reason of a round at the prices before it.
pub fn reason(s: &Sheet, prices: &[u16], kind: Kind, items: u32, demand: Demand) -> Reason {
    let counts = |&b: &usize| concerned(kind, items, demand(s.line(b), prices));
    Reason { kind, items, bidders: (1..=s.bidders).filter(counts).map(|b| 1 << (b - 1)).sum() }
}

/// The reasons of a path.
pub fn along(s: &Sheet, path: &[Round]) -> Vec<Reason> {
    along_by(s, path, demand)
}

/// The same by any demand.
pub fn along_by(s: &Sheet, path: &[Round], demand: Demand) -> Vec<Reason> {
    let before = std::iter::once(&s.start).chain(path.iter().map(|r| &r.prices));
    path.iter().zip(before).map(|(r, prices)| reason(s, prices, r.kind, r.items, demand)).collect()
}

/// The lines of a sheet of reasons.
pub fn write(reasons: &[Reason]) -> Vec<u8> {
    let line = |(k, r): (usize, &Reason)| {
        let kind = match r.kind {
            Kind::Raised => 1,
            Kind::Lowered => 2,
        };
        format!("{:04x}{kind:02x}{:08x}{:016x}\n", k + 1, r.items, r.bidders)
    };
    reasons.iter().enumerate().map(line).collect::<String>().into_bytes()
}

/// The sheet of reasons of a bid sheet, or its refusal: 6, 1, 2, 6, 4, 5.
pub fn sheet_of(bytes: &[u8]) -> Result<Vec<u8>, u8> {
    let s = sheet::read(bytes)?;
    match sealed_refusal(s.items as u32, s.bidders as u32, &s.start, &s.bids) {
        Some(number) => Err(number),
        None => Ok(write(&along(&s, &flows::path(&s)))),
    }
}

/// What the program prints: the sheet of reasons, or the number in two digits.
pub fn answer(bytes: &[u8]) -> Vec<u8> {
    sheet_of(bytes).unwrap_or_else(|number| format!("{number:02}\n").into_bytes())
}
