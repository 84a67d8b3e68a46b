//! What the comparison runs on: bid sheets of many kinds, with and without floors, damaged ones, and lists of live calls, all from a seed.

use crate::flows;
use crate::live::{Answer, Call, Held, Phase, Record, Report};
use crate::random::Random;
use crate::sheet::LONGEST_LIVE;
use crate::{sheet, Sheet, BIDDERS, ITEMS, LIVE_BIDDERS, TOP};

/// The kinds of sheets.
#[derive(Clone, Copy, Debug, PartialEq, Eq)]
pub enum Shape {
    /// A few items and bidders with low amounts: ties everywhere, and small enough for the literal rule.
    Small,
    /// Up to 8 by 12, amounts up to 40.
    Middle,
    /// Up to 32 by 64, amounts up to 60.
    Large,
    /// Each bidder wants two neighbouring items of a ring.
    Ring,
    /// Amounts from two or three values only.
    Ties,
    /// All bids the same, all starting prices the same.
    Equal,
    /// Most bids 0.
    Zeros,
    /// Starting prices at or just below 4,095.
    High,
    /// Any amounts up to 4,095, starting prices near what comes out.
    Mixed,
    /// Any amounts up to 4,095 from any start: thousands of rounds. Few items and bidders, and now and then 32 by 64.
    Long,
}

pub const SHAPES: [Shape; 10] = [
    Shape::Small,
    Shape::Middle,
    Shape::Large,
    Shape::Ring,
    Shape::Ties,
    Shape::Equal,
    Shape::Zeros,
    Shape::High,
    Shape::Mixed,
    Shape::Long,
];

fn filled(count: usize, mut amount: impl FnMut() -> u16) -> Vec<u16> {
    (0..count).map(|_| amount()).collect()
}

/// A sheet of the given kind, within the limits and without floors.
pub fn sheet(shape: Shape, r: &mut Random) -> Sheet {
    let (items, bidders) = match shape {
        Shape::Small => (r.within(1, 4), r.within(1, 5)),
        Shape::Large => (r.within(1, ITEMS), r.within(1, BIDDERS)),
        Shape::Ring => (r.within(2, 16), r.within(1, 24)),
        Shape::Long if r.one_in(30) => (ITEMS, BIDDERS),
        Shape::Long => (r.within(1, 6), r.within(1, 9)),
        _ if r.one_in(8) => (r.within(1, ITEMS), r.within(1, BIDDERS)),
        _ => (r.within(1, 8), r.within(1, 12)),
    };
    let n = items * bidders;
    let (start, bids) = match shape {
        Shape::Small => {
            let top = r.within(1, 9) as u16;
            (filled(items, || r.amount(top)), filled(n, || r.amount(top)))
        }
        Shape::Middle => (filled(items, || r.amount(40)), filled(n, || r.amount(40))),
        Shape::Large => (filled(items, || r.amount(60)), filled(n, || r.amount(60))),
        Shape::Ring => {
            let worth = r.within(1, 30) as u16;
            let mut bids = vec![0; n];
            for b in 0..bidders {
                bids[b * items + b % items] = worth;
                bids[b * items + (b + 1) % items] = worth;
            }
            (filled(items, || r.amount(10)), bids)
        }
        Shape::Ties => {
            let values = [r.amount(25), r.amount(25), r.amount(25)];
            (filled(items, || *r.pick(&values)), filled(n, || *r.pick(&values)))
        }
        Shape::Equal => (vec![r.amount(30); items], vec![r.amount(30); n]),
        Shape::Zeros => (filled(items, || r.amount(20)), filled(n, || if r.one_in(6) { r.amount(20) } else { 0 })),
        Shape::High => (filled(items, || TOP - r.amount(3)), filled(n, || TOP - r.amount(60))),
        Shape::Mixed => {
            let base = r.amount(TOP - 40);
            (filled(items, || base + r.amount(40)), filled(n, || if r.one_in(5) { r.amount(TOP) } else { base + r.amount(40) }))
        }
        Shape::Long => (filled(items, || r.amount(TOP)), filled(n, || r.amount(TOP))),
    };
    Sheet::of(start, bidders, bids)
}

/// The kinds of floors.
#[derive(Clone, Copy, Debug, PartialEq, Eq)]
pub enum Floors {
    /// Every floor is the starting price.
    AtStart,
    /// Floors anywhere up to the starting prices.
    BelowStart,
    /// A few items have a floor, the others 0.
    Few,
    /// Some items have a floor above every bid.
    Unmet,
    /// Floors among the bids: some bids are below them, some prices stop at them. Starting prices are raised to them, and some above.
    AmongBids,
}

pub const FLOORS: [Floors; 5] = [Floors::AtStart, Floors::BelowStart, Floors::Few, Floors::Unmet, Floors::AmongBids];

/// The sheet with floors of the given kind, and starting prices that meet them.
pub fn floored(sheet: Sheet, kind: Floors, r: &mut Random) -> Sheet {
    let highest = sheet.bids.iter().copied().max().unwrap_or(0);
    let floor = |&start: &u16| match kind {
        Floors::AtStart => start,
        Floors::BelowStart => r.amount(start),
        Floors::Few if r.one_in(3) => r.amount(start),
        Floors::Few => 0,
        Floors::Unmet if r.one_in(2) => (highest + 1).min(TOP),
        Floors::Unmet => r.amount(start),
        Floors::AmongBids => r.pick(&sheet.bids).saturating_sub(r.amount(2)),
    };
    let floors: Vec<u16> = sheet.start.iter().map(floor).collect();
    let over = |(&start, &floor): (&u16, &u16)| match kind {
        Floors::AmongBids if r.one_in(3) => floor + r.amount(3.min(TOP - floor)),
        _ => start.max(floor),
    };
    Sheet { start: sheet.start.iter().zip(&floors).map(over).collect(), floors, ..sheet }
}

/// A sheet of the given kind, with floors of any kind.
pub fn sheet_above(shape: Shape, r: &mut Random) -> Sheet {
    let kind = *r.pick(&FLOORS);
    floored(sheet(shape, r), kind, r)
}

/// The sheet with its starting prices, or about half of them, well above. Falling first has many falls there, and rises after them where other starting
/// prices stay low.
pub fn started_high(sheet: Sheet, r: &mut Random) -> Sheet {
    let half = sheet.bids.iter().copied().max().unwrap_or(0).clamp(2, 60) / 2;
    let all = r.one_in(3);
    let up = |&price: &u16| if all || r.one_in(2) { (price + half + r.amount(half)).min(TOP) } else { price };
    Sheet { start: sheet.start.iter().map(up).collect(), ..sheet }
}

/// The kinds of damage to a bid sheet's bytes.
#[derive(Clone, Copy, Debug, PartialEq, Eq)]
pub enum Damage {
    Cut,
    ByteChanged,
    ByteInserted,
    ByteRemoved,
    CapitalDigit,
    CarriageReturns,
    NoLastNewline,
    BytesAfter,
    Counts,
    StartTooHigh,
    BidTooHigh,
    BothTooHigh,
    LineMissing,
    LineTwice,
    Noise,
    Empty,
    VeryLong,
}

pub const DAMAGES: [Damage; 17] = [
    Damage::Cut,
    Damage::ByteChanged,
    Damage::ByteInserted,
    Damage::ByteRemoved,
    Damage::CapitalDigit,
    Damage::CarriageReturns,
    Damage::NoLastNewline,
    Damage::BytesAfter,
    Damage::Counts,
    Damage::StartTooHigh,
    Damage::BidTooHigh,
    Damage::BothTooHigh,
    Damage::LineMissing,
    Damage::LineTwice,
    Damage::Noise,
    Damage::Empty,
    Damage::VeryLong,
];

/// An amount too high to be accepted.
pub fn too_high(r: &mut Random) -> u16 {
    *r.pick(&[0x1000, 0x1001, 0x8000, 0xffff, 0x1fff])
}

/// The bytes of a sheet, damaged. Some damage leaves a sheet that can still be read.
pub fn damaged(sheet: &Sheet, damage: Damage, r: &mut Random) -> Vec<u8> {
    let mut bytes = sheet::write(sheet);
    let place = r.within(0, bytes.len() - 1);
    match damage {
        Damage::Cut => bytes.truncate(place),
        Damage::ByteChanged => {
            bytes[place] = *r.pick(&[0, b'\n', b' ', b'/', b':', b'`', b'g', b'A', b'0', b'f', b'x', 0x80, 0xff])
        }
        Damage::ByteInserted => bytes.insert(place, *r.pick(b"0f\n\r gG\0")),
        Damage::ByteRemoved => {
            bytes.remove(place);
        }
        Damage::CapitalDigit => {
            let after = if r.one_in(4) { 0 } else { place };
            let at = (after..bytes.len()).find(|&k| bytes[k] != b'\n').unwrap_or(0);
            bytes[at] = *r.pick(b"ABCDEF");
        }
        Damage::CarriageReturns => {
            let lines: Vec<&[u8]> = bytes.split(|&b| b == b'\n').collect();
            bytes = lines.join(&b"\r\n"[..]);
        }
        Damage::NoLastNewline => {
            bytes.pop();
        }
        Damage::BytesAfter => {
            let more = r.within(1, 3);
            bytes.extend((0..more).map(|_| *r.pick(b"\n0f \0")));
        }
        Damage::Counts => {
            let items = *r.pick(&[0, 1, 31, 32, 33, 64, 65, 255]);
            let bidders = *r.pick(&[0, 1, 63, 64, 65, 66, 255]);
            bytes[..4].copy_from_slice(format!("{items:02x}{bidders:02x}").as_bytes());
        }
        Damage::StartTooHigh | Damage::BidTooHigh | Damage::BothTooHigh => {
            let mut other = sheet.clone();
            if damage != Damage::BidTooHigh {
                other.start[r.within(0, sheet.items - 1)] = too_high(r);
            }
            if damage != Damage::StartTooHigh {
                let at = r.within(0, sheet.bids.len() - 1);
                other.bids[at] = too_high(r);
            }
            bytes = sheet::write(&other);
        }
        Damage::LineMissing | Damage::LineTwice => {
            let mut lines: Vec<&[u8]> = bytes.split_inclusive(|&b| b == b'\n').collect();
            let at = r.within(0, lines.len() - 1);
            let line = lines.remove(at);
            if damage == Damage::LineTwice {
                lines.insert(at, line);
                lines.insert(at, line);
            }
            bytes = lines.concat();
        }
        Damage::Noise => bytes = (0..r.within(1, 60)).map(|_| *r.pick(b"0123456789abcdef\n\n G")).collect(),
        Damage::Empty => bytes.clear(),
        Damage::VeryLong => {
            let more = *r.pick(&[8_389, 8_390, 65_535, 65_536, 65_537, 100_000]);
            bytes.resize(bytes.len().max(more), *r.pick(b"0\n"));
        }
    }
    bytes
}

/// How the bidders of a live list report.
#[derive(Clone, Copy, Debug, PartialEq, Eq)]
pub enum Reporting {
    /// By the sheet, now and then wrongly; wrong reports are mostly cleared before the round is ended.
    BySheet,
    /// Anything.
    Wild,
}

/// A report of any kind, now and then one that 8 refuses.
fn any_report(items: u32, r: &mut Random) -> Report {
    let within = ((1u64 << items) - 1) as u32;
    let set = match r.within(0, 5) {
        0 => 0,
        1 => 1 << r.within(0, items as usize - 1),
        2 => within,
        3 => (r.draw() & r.draw()) as u32 & within,
        4 => r.draw() as u32 & within,
        _ if r.one_in(4) => r.draw() as u32,
        _ => 1 << r.within(0, items as usize - 1),
    };
    Report { null: r.one_in(3), items: set }
}

/// A bidder's number, now and then one outside the count.
fn any_bidder(bidders: u32, r: &mut Random) -> u32 {
    match r.within(0, 9) {
        0 => 0,
        1 => bidders + 1,
        2 => r.within(0, 255) as u32,
        _ => r.within(1, bidders as usize) as u32,
    }
}

/// Makes the calls of a live list one after the other. It is told the record, so that the calls have something to say at each point, and the answers.
pub struct Caller<'a> {
    sheet: &'a Sheet,
    reporting: Reporting,
    /// How seldom a call comes out of turn.
    disturbed: usize,
    /// Whether a report that is not the sheet's stands in this round.
    wrong: bool,
}

impl Caller<'_> {
    pub fn new<'a>(sheet: &'a Sheet, reporting: Reporting, r: &mut Random) -> Caller<'a> {
        Caller { sheet, reporting, disturbed: *r.pick(&[3, 8, 30]), wrong: false }
    }

    /// The next call; none where a list that has closed ends.
    pub fn call(&self, record: &Record, r: &mut Random) -> Option<Call> {
        let (items, bidders) = (record.items, record.bidders);
        let missing: Vec<u32> = (1..=bidders).filter(|&k| !record.has_reported(k)).collect();
        if record.phase == Phase::Closed && r.one_in(4) {
            let needed = sheet::live_length(items as usize, bidders as usize);
            return Some(Call::Read { room: *r.pick(&[0, needed - 1, needed, LONGEST_LIVE, 300]) });
        }
        if record.phase == Phase::Closed && r.one_in(6) {
            return None;
        }
        Some(if r.one_in(self.disturbed) {
            match r.within(0, 5) {
                0 => Call::Read { room: LONGEST_LIVE },
                1 => Call::Clear,
                2 if self.reporting == Reporting::Wild || !self.wrong || r.one_in(4) => Call::End,
                _ => Call::Report { bidder: any_bidder(bidders, r), report: any_report(items, r) },
            }
        } else if missing.is_empty() {
            match (self.reporting, self.wrong) {
                (Reporting::BySheet, true) if !r.one_in(6) => Call::Clear,
                (Reporting::Wild, _) if r.one_in(6) => Call::Clear,
                _ => Call::End,
            }
        } else {
            let bidder = *r.pick(&missing);
            let report = match self.reporting {
                Reporting::BySheet => flows::demand(self.sheet.line(bidder as usize), record.prices()),
                Reporting::Wild => any_report(items, r),
            };
            Call::Report { bidder, report }
        })
    }

    /// What became of the call, from who had reported before it to the record after.
    pub fn answered(&mut self, call: Call, answer: &Answer, before: u64, record: &Record) {
        match (call, answer) {
            (Call::Report { bidder, report }, Answer::Done) => {
                self.wrong |= report != flows::demand(self.sheet.line(bidder as usize), record.prices());
            }
            (_, Answer::Moved(..) | Answer::Done) if before != 0 && record.reported == 0 => self.wrong = false,
            _ => {}
        }
    }
}

/// Calls after an opening with the sheet's counts, starting prices and floors. Record and tables are played along; the list itself knows nothing of them.
pub fn calls(sheet: &Sheet, reporting: Reporting, most: usize, r: &mut Random) -> Vec<Call> {
    let opened = Held::open_above(sheet.items as u32, sheet.bidders as u32, &sheet.start, &sheet.floors);
    let mut held = opened.expect("the sheet is within the limits");
    let mut caller = Caller::new(sheet, reporting, r);
    let mut calls = Vec::new();
    while calls.len() < most {
        let Some(call) = caller.call(&held.record, r) else {
            break;
        };
        let before = held.record.reported;
        let answer = held.call(call);
        caller.answered(call, &answer, before, &held.record);
        calls.push(call);
    }
    calls
}

/// A sheet for a live list, without floors: few rounds, some of them at the top and at the bottom of the prices; now and then the most items and bidders.
pub fn live_sheet(r: &mut Random) -> Sheet {
    let shape = *r.pick(&[Shape::Small, Shape::Small, Shape::Small, Shape::Ring, Shape::Middle, Shape::Ties]);
    let mut sheet = self::sheet(shape, r);
    if shape != Shape::Small && (sheet.items > 8 || sheet.bidders > 12) {
        sheet = self::sheet(Shape::Small, r);
    }
    if r.one_in(20) {
        sheet = Sheet::of(vec![0; ITEMS], LIVE_BIDDERS, filled(ITEMS * LIVE_BIDDERS, || r.amount(2)));
    } else if r.one_in(5) {
        let up = TOP - sheet.start.iter().chain(&sheet.bids).max().unwrap_or(&0);
        sheet.start.iter_mut().chain(&mut sheet.bids).for_each(|x| *x += up);
    }
    sheet
}

/// The same with floors of any kind. At the top and at the bottom of the prices there are floors too.
pub fn live_sheet_above(r: &mut Random) -> Sheet {
    let sheet = live_sheet(r);
    let kind = *r.pick(&FLOORS);
    floored(sheet, kind, r)
}
