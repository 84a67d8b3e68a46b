//! The live auction once more in plain Rust, as a programmer would write it: a record that each call changes in place.

use crate::plain::{above_floors, falling, rising, Demands};
use crate::{bytes, search, tables};
use model::live::{self, Answer, Phase, Report};
use model::tables::TABLE;
use model::{Kind, LIVE_BIDDERS, TOP};

/// The calls on a record and its tables, which they change in place; each answers its number, or 0.
pub trait Calls: Clone {
    fn report(&mut self, bidder: u32, report: Report, tables: &[i16]) -> u8;
    fn clear(&mut self) -> u8;
    fn end(&mut self, tables: &mut [i16]) -> Answer;
    fn read(&self, out: &mut [u8]) -> u8;
}

#[derive(Clone, PartialEq, Eq, Debug)]
pub struct Record {
    items: usize,
    bidders: usize,
    prices: [u16; 32],
    floors: [u16; 32],
    reports: Demands,
    reported: u64,
    phase: Phase,
    raised: u32,
    lowered: u32,
}

impl Record {
    pub fn of(r: &live::Record) -> Record {
        let nulls = r.reports.iter().enumerate().fold(0, |s, (b, report)| s | u64::from(report.null) << b);
        Record {
            items: r.items as usize,
            bidders: r.bidders as usize,
            prices: r.prices,
            floors: r.floors,
            reports: Demands { items: r.reports.map(|report| report.items), nulls },
            reported: r.reported,
            phase: r.phase,
            raised: r.raised,
            lowered: r.lowered,
        }
    }

    fn everybody(&self) -> u64 {
        u64::MAX >> (64 - self.bidders)
    }

    fn rising_set(&self) -> u32 {
        rising(&self.reports)
    }

    fn falling_set(&self) -> u32 {
        falling(&self.reports, &self.floors, &self.prices)
    }

    /// Number 11 does not apply.
    fn well_formed(&self) -> bool {
        if !(1..=32).contains(&self.items) || !(1..=LIVE_BIDDERS).contains(&self.bidders) {
            return false;
        }
        if self.prices.iter().any(|&p| p > TOP) || self.prices[self.items..].iter().any(|&p| p != 0) {
            return false;
        }
        // No floor is above its price; so none is above 4,095, and those past the items are zero.
        if self.prices.iter().zip(&self.floors).any(|(price, floor)| price < floor) {
            return false;
        }
        // A report stands in the place of each bidder who has reported, and in no other.
        let beyond = !(u32::MAX >> (32 - self.items));
        let mut says = self.reports.nulls;
        let mut wrong = 0;
        for (b, &set) in self.reports.items.iter().enumerate() {
            says |= u64::from(set != 0) << b;
            wrong |= set & beyond;
        }
        if wrong != 0 || says != self.reported || self.reported & !self.everybody() != 0 {
            return false;
        }
        let total = |amounts: &[u16; 32]| amounts.iter().map(|&x| u32::from(x)).sum::<u32>();
        let sum = total(&self.prices);
        let most = u64::from(TOP) * self.items as u64;
        let within = u64::from(self.raised) <= most && u64::from(sum) + u64::from(self.lowered) <= most;
        match self.phase {
            Phase::Rising => self.lowered == 0 && self.raised <= sum - total(&self.floors),
            Phase::Falling => within,
            Phase::Closed => within && self.reported == self.everybody() && self.rising_set() == 0 && self.falling_set() == 0,
        }
    }

    fn emptied(&mut self) {
        self.reports = Demands { items: [0; 64], nulls: 0 };
        self.reported = 0;
    }

    /// 11, 12, or 0.
    fn stopped(&self) -> u8 {
        match (self.well_formed(), self.phase) {
            (false, _) => 11,
            (true, Phase::Closed) => 12,
            _ => 0,
        }
    }

    /// 11, 3, 11, 12, or 0.
    fn stopped_with(&self, tables: &[i16]) -> u8 {
        if !self.well_formed() {
            return 11;
        }
        if tables.len() != self.bidders * TABLE {
            return 3;
        }
        if !tables.chunks_exact(TABLE).all(|part| tables::fits(part, self.items)) {
            return 11;
        }
        if self.phase == Phase::Closed {
            12
        } else {
            0
        }
    }

    fn report_of(&self, b: usize) -> Report {
        Report { null: self.reports.nulls >> b & 1 == 1, items: self.reports.items[b] }
    }

    /// The round that the reports give: 16 or 17.
    fn ended(&mut self) -> Answer {
        let rising = self.rising_set();
        if rising != 0 {
            if self.phase == Phase::Falling {
                return Answer::Refused(16);
            }
            if (0..32).any(|i| rising >> i & 1 == 1 && self.prices[i] == TOP) {
                return Answer::Refused(17);
            }
            (0..32).for_each(|i| self.prices[i] += (rising >> i & 1) as u16);
            self.raised += 1;
            self.emptied();
            return Answer::Moved(Kind::Raised, rising);
        }
        let falling = self.falling_set();
        if falling != 0 {
            (0..32).for_each(|i| self.prices[i] -= (falling >> i & 1) as u16);
            self.lowered += 1;
            self.phase = Phase::Falling;
            self.emptied();
            return Answer::Moved(Kind::Lowered, falling);
        }
        self.phase = Phase::Closed;
        Answer::Closed
    }
}

impl Calls for Record {
    #[inline(never)]
    fn report(&mut self, bidder: u32, report: Report, tables: &[i16]) -> u8 {
        let stopped = self.stopped_with(tables);
        if stopped != 0 {
            return stopped;
        }
        let b = bidder.wrapping_sub(1) as usize;
        if b >= self.bidders {
            return 7;
        }
        if self.reported >> b & 1 == 1 {
            return 13;
        }
        if live::unfit(self.items as u32, report) {
            return 8;
        }
        if !tables::explains(&tables[b * TABLE..][..TABLE], self.items, &self.prices, report) {
            return 19;
        }
        self.reports.items[b] = report.items;
        self.reports.nulls |= u64::from(report.null) << b;
        self.reported |= 1 << b;
        0
    }

    #[inline(never)]
    fn clear(&mut self) -> u8 {
        let stopped = self.stopped();
        if stopped == 0 {
            self.emptied();
        }
        stopped
    }

    #[inline(never)]
    fn end(&mut self, tables: &mut [i16]) -> Answer {
        let stopped = self.stopped_with(tables);
        if stopped != 0 {
            return Answer::Refused(stopped);
        }
        if self.reported != self.everybody() {
            return Answer::Refused(14);
        }
        let (items, prices, reports) = (self.items, self.prices, self.clone());
        let explained = |(b, part): (usize, &[i16])| tables::explains(part, items, &prices, reports.report_of(b));
        if !tables.chunks_exact(TABLE).enumerate().all(explained) {
            return Answer::Refused(19);
        }
        let answer = self.ended();
        if let Answer::Moved(..) = answer {
            let parts = tables.chunks_exact_mut(TABLE).enumerate();
            parts.for_each(|(b, part)| tables::narrow(part, items, &prices, reports.report_of(b)));
        }
        answer
    }

    #[inline(never)]
    fn read(&self, out: &mut [u8]) -> u8 {
        if !self.well_formed() {
            return 11;
        }
        if self.phase != Phase::Closed {
            return 15;
        }
        let names = search::first(&self.reports, above_floors(&self.floors, &self.prices), self.bidders, &mut 0);
        let rounds = [self.raised, self.lowered];
        if !bytes::write_closing(out, rounds, &self.prices[..self.items], &names[..self.bidders]) {
            return 3;
        }
        0
    }
}
