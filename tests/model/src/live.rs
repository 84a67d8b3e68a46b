//! The live auction: the record, its calls, when a record is well formed (number 11), and the tables that are lent beside it.

use crate::flows::{self, Demand};
use crate::sheet::{live_length, write_live};
use crate::tables::{self, TABLE};
use crate::{below_floor, Kind, BIDDERS, ITEMS, LIVE_BIDDERS, TOP};

/// A report: null yes or no, beside an item set. It is empty if it says no and the set is empty.
pub type Report = Demand;

#[derive(Clone, Copy, Debug, PartialEq, Eq)]
pub enum Phase {
    Rising,
    Falling,
    Closed,
}

/// What goes from call to call.
#[derive(Clone, Debug, PartialEq, Eq)]
pub struct Record {
    pub items: u32,
    pub bidders: u32,
    pub floors: [u16; ITEMS],
    pub prices: [u16; ITEMS],
    pub reports: [Report; BIDDERS],
    /// Which bidders have reported, bit k − 1 for bidder k.
    pub reported: u64,
    pub phase: Phase,
    pub raised: u32,
    pub lowered: u32,
}

/// A call on a record. A read lends `room` bytes.
#[derive(Clone, Copy, Debug, PartialEq, Eq)]
pub enum Call {
    Report { bidder: u32, report: Report },
    End,
    Clear,
    Read { room: usize },
}

/// What a call answers; `Done` for an accepted report or clear.
#[derive(Clone, Debug, PartialEq, Eq)]
pub enum Answer {
    Refused(u8),
    Done,
    Moved(Kind, u32),
    Closed,
    Sheet(Vec<u8>),
}

/// Number 8: the report is empty or holds an item beyond the count.
pub fn unfit(items: u32, report: Report) -> bool {
    let empty = !report.null && report.items == 0;
    empty || beyond(items, report.items)
}

fn beyond(items: u32, set: u32) -> bool {
    u64::from(set) >> items != 0
}

impl Record {
    /// Zeros only, rising: the record beside an opening that is turned down.
    pub fn zeros() -> Record {
        Record {
            items: 0,
            bidders: 0,
            floors: [0; ITEMS],
            prices: [0; ITEMS],
            reports: [Report::default(); BIDDERS],
            reported: 0,
            phase: Phase::Rising,
            raised: 0,
            lowered: 0,
        }
    }

    /// Opening: 1, 2, 3, 4. The floors are 0. The tables are filled for all bids.
    pub fn open(items: u32, bidders: u32, start: &[u16], tables: &mut [i16]) -> Result<Record, u8> {
        Record::open_above(items, bidders, start, &vec![0; start.len()], tables)
    }

    /// Opening with floors: 1, 2, 3, 4, 18.
    pub fn open_above(items: u32, bidders: u32, start: &[u16], floors: &[u16], tables: &mut [i16]) -> Result<Record, u8> {
        if items < 1 || items > ITEMS as u32 {
            return Err(1);
        }
        if bidders < 1 || bidders > LIVE_BIDDERS as u32 {
            return Err(2);
        }
        if start.len() != items as usize || floors.len() != items as usize || tables.len() != bidders as usize * TABLE {
            return Err(3);
        }
        if start.iter().any(|&p| p > TOP) {
            return Err(4);
        }
        if below_floor(start, floors) {
            return Err(18);
        }
        let mut record = Record { items, bidders, ..Record::zeros() };
        record.floors[..floors.len()].copy_from_slice(floors);
        record.prices[..start.len()].copy_from_slice(start);
        let all = tables::opening(items as usize, TOP);
        tables.chunks_mut(TABLE).for_each(|part| part.copy_from_slice(&all));
        Ok(record)
    }

    pub fn prices(&self) -> &[u16] {
        &self.prices[..self.items as usize]
    }

    pub fn reports(&self) -> &[Report] {
        &self.reports[..self.bidders as usize]
    }

    pub fn has_reported(&self, bidder: u32) -> bool {
        self.reported >> (bidder - 1) & 1 == 1
    }

    fn report_missing(&self) -> bool {
        (1..=self.bidders).any(|k| !self.has_reported(k))
    }

    fn rising_set(&self) -> u32 {
        flows::rising(self.reports())
    }

    /// The items of price above their floor.
    fn above(&self) -> u32 {
        flows::above(&self.floors, self.prices())
    }

    fn falling_set(&self) -> u32 {
        flows::falling(self.above(), self.reports())
    }

    /// Number 11, clause by clause; sums never wrap.
    pub fn well_formed(&self) -> bool {
        let (items, bidders) = (self.items as usize, self.bidders as usize);
        if !(1..=ITEMS).contains(&items) || !(1..=LIVE_BIDDERS).contains(&bidders) {
            return false;
        }
        if self.prices.iter().any(|&p| p > TOP) || self.floors.iter().any(|&f| f > TOP) {
            return false;
        }
        if (0..items).any(|i| self.prices[i] < self.floors[i]) {
            return false;
        }
        let places = self.prices[items..].iter().chain(&self.floors[items..]).any(|&p| p != 0);
        let past = self.reports[bidders..].iter().any(|&r| r != Report::default());
        let bits = self.reported >> bidders != 0;
        if places || past || bits {
            return false;
        }
        for k in 1..=bidders {
            let report = self.reports[k - 1];
            let bad = if self.has_reported(k as u32) { unfit(self.items, report) } else { report != Report::default() };
            if bad {
                return false;
            }
        }
        let total = |amounts: &[u16]| amounts.iter().map(|&p| u64::from(p)).sum::<u64>();
        let (sum, floors) = (total(&self.prices), total(&self.floors));
        let (raised, lowered) = (u64::from(self.raised), u64::from(self.lowered));
        let most = u64::from(TOP) * items as u64;
        match self.phase {
            Phase::Rising => lowered == 0 && raised <= sum - floors,
            Phase::Falling => raised <= most && sum + lowered <= most,
            Phase::Closed => {
                raised <= most
                    && sum + lowered <= most
                    && !self.report_missing()
                    && self.rising_set() == 0
                    && self.falling_set() == 0
            }
        }
    }

    fn emptied(&mut self) {
        self.reports = [Report::default(); BIDDERS];
        self.reported = 0;
    }

    fn moved(&mut self, set: u32, kind: Kind) -> Answer {
        let next = flows::moved(self.prices(), set, kind);
        self.prices[..next.len()].copy_from_slice(&next);
        match kind {
            Kind::Raised => self.raised += 1,
            Kind::Lowered => {
                self.lowered += 1;
                self.phase = Phase::Falling;
            }
        }
        self.emptied();
        Answer::Moved(kind, set)
    }

    /// What record and tables are turned down by before anything is asked of them: 11, 3, 11.
    fn unfit(&self, tables: &[i16]) -> Option<u8> {
        if !self.well_formed() {
            return Some(11);
        }
        if tables.len() != self.bidders as usize * TABLE {
            return Some(3);
        }
        let fits = |part: &[i16]| tables::fits(self.items as usize, part, TOP);
        (!tables.chunks(TABLE).all(fits)).then_some(11)
    }

    /// A bidder's table narrowed by a report; none where 19 applies.
    fn narrowed(&self, part: &[i16], report: Report) -> Option<Vec<i16>> {
        tables::narrowed(self.items as usize, part, self.prices(), report, TOP)
    }

    /// Report: 11, 3, 11, 12, 7, 13, 8, 19.
    fn report(&mut self, bidder: u32, report: Report, tables: &[i16]) -> Answer {
        let place = bidder.wrapping_sub(1) as usize;
        let explained = |part: &[i16]| tables::explains(self.items as usize, part, self.prices(), report, TOP);
        if let Some(number) = self.unfit(tables) {
            Answer::Refused(number)
        } else if self.phase == Phase::Closed {
            Answer::Refused(12)
        } else if bidder < 1 || self.bidders < bidder {
            Answer::Refused(7)
        } else if self.has_reported(bidder) {
            Answer::Refused(13)
        } else if unfit(self.items, report) {
            Answer::Refused(8)
        } else if !explained(&tables[place * TABLE..][..TABLE]) {
            Answer::Refused(19)
        } else {
            self.reports[place] = report;
            self.reported |= 1 << place;
            Answer::Done
        }
    }

    /// Ending a round: 11, 3, 11, 12, 14, 19, then 16 or 17. A move narrows every table.
    fn end(&mut self, tables: &mut [i16]) -> Answer {
        if let Some(number) = self.unfit(tables) {
            return Answer::Refused(number);
        }
        if self.phase == Phase::Closed {
            return Answer::Refused(12);
        }
        if self.report_missing() {
            return Answer::Refused(14);
        }
        let narrowed = tables.chunks(TABLE).zip(self.reports()).map(|(part, &report)| self.narrowed(part, report));
        let Some(narrowed) = narrowed.collect::<Option<Vec<_>>>() else {
            return Answer::Refused(19);
        };
        let answer = self.ended();
        if let Answer::Moved(..) = answer {
            tables.copy_from_slice(&narrowed.concat());
        }
        answer
    }

    /// The round that the reports give, all of them in.
    fn ended(&mut self) -> Answer {
        let rising = self.rising_set();
        if rising != 0 {
            if self.phase == Phase::Falling {
                return Answer::Refused(16);
            }
            let at_top = |i: usize| rising >> i & 1 == 1 && self.prices[i] == TOP;
            if (0..ITEMS).any(at_top) {
                return Answer::Refused(17);
            }
            return self.moved(rising, Kind::Raised);
        }
        let falling = self.falling_set();
        if falling != 0 {
            return self.moved(falling, Kind::Lowered);
        }
        self.phase = Phase::Closed;
        Answer::Closed
    }

    /// Clear: 11, 12.
    fn clear(&mut self) -> Answer {
        if !self.well_formed() {
            return Answer::Refused(11);
        }
        if self.phase == Phase::Closed {
            return Answer::Refused(12);
        }
        self.emptied();
        Answer::Done
    }

    /// Read: 11, 15, 3.
    fn read(&self, room: usize) -> Answer {
        if !self.well_formed() {
            return Answer::Refused(11);
        }
        if self.phase != Phase::Closed {
            return Answer::Refused(15);
        }
        if room < live_length(self.items as usize, self.bidders as usize) {
            return Answer::Refused(3);
        }
        let names = flows::first_assignment(self.reports(), self.above()).expect("some assignment fits a close");
        Answer::Sheet(write_live(self.raised, self.lowered, self.prices(), &names))
    }

    /// Answers a call, and leaves the next record here and the tables as they are then.
    pub fn call(&mut self, call: Call, tables: &mut [i16]) -> Answer {
        match call {
            Call::Report { bidder, report } => self.report(bidder, report, tables),
            Call::End => self.end(tables),
            Call::Clear => self.clear(),
            Call::Read { room } => self.read(room),
        }
    }
}

/// A record and its tables, each call bringing both as the last one left them.
#[derive(Clone, Debug, PartialEq, Eq)]
pub struct Held {
    pub record: Record,
    pub tables: Vec<i16>,
}

impl Held {
    /// Before any opening.
    pub fn zeros() -> Held {
        Held { record: Record::zeros(), tables: Vec::new() }
    }

    /// An opening with as many tables as bidders.
    pub fn open(items: u32, bidders: u32, start: &[u16]) -> Result<Held, u8> {
        Held::open_above(items, bidders, start, &vec![0; start.len()])
    }

    pub fn open_above(items: u32, bidders: u32, start: &[u16], floors: &[u16]) -> Result<Held, u8> {
        // Counts out of range are refused before any length is looked at.
        let mut tables = vec![0; bidders.min(BIDDERS as u32) as usize * TABLE];
        Ok(Held { record: Record::open_above(items, bidders, start, floors, &mut tables)?, tables })
    }

    pub fn call(&mut self, call: Call) -> Answer {
        self.record.call(call, &mut self.tables)
    }
}
