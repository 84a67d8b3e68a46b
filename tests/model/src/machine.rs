//! The plain machine of "What demand 3 speaks of": fed with a sheet and calls alone, never with an answer or a record. It holds
//! how many moves it has made, whether it has closed, the reports that stand, and tables, which each move narrows by the sheet's demands.

use crate::flows::{self, Demand};
use crate::live::{unfit, Answer, Call, Phase, Report};
use crate::sheet::{live_length, write_live};
use crate::tables::{self, TABLE};
use crate::{Kind, Round, Sheet, TOP};

pub struct Machine {
    sheet: Sheet,
    path: Vec<Round>,
    pub moves: usize,
    pub closed: bool,
    pub standing: Vec<Option<Report>>,
    pub tables: Vec<i16>,
}

impl Machine {
    pub fn new(sheet: &Sheet) -> Machine {
        let tables = tables::opening(sheet.items, TOP).repeat(sheet.bidders);
        let standing = vec![None; sheet.bidders];
        Machine { sheet: sheet.clone(), path: flows::path(sheet), moves: 0, closed: false, standing, tables }
    }

    /// The path's prices after as many rounds as moves were made.
    pub fn prices(&self) -> &[u16] {
        if self.moves == 0 {
            return &self.sheet.start;
        }
        &self.path[self.moves - 1].prices
    }

    /// Rounds raised and lowered.
    pub fn rounds(&self) -> (u32, u32) {
        let raised = self.path[..self.moves].iter().filter(|r| r.kind == Kind::Raised).count();
        (raised as u32, (self.moves - raised) as u32)
    }

    pub fn phase(&self) -> Phase {
        if self.closed {
            Phase::Closed
        } else if self.rounds().1 > 0 {
            Phase::Falling
        } else {
            Phase::Rising
        }
    }

    /// The sheet's demands at the machine's prices.
    pub fn demands(&self) -> Vec<Demand> {
        flows::demands(&self.sheet, self.prices())
    }

    /// Number 19 does not apply to the report of the bidder in this place.
    fn explains(&self, place: usize, report: Report) -> bool {
        tables::explains(self.sheet.items, &self.tables[place * TABLE..][..TABLE], self.prices(), report, TOP)
    }

    /// The tables after a move at the machine's prices.
    fn narrowed(&self) -> Vec<i16> {
        let narrowed = |(part, report): (&[i16], Demand)| tables::narrowed(self.sheet.items, part, self.prices(), report, TOP);
        self.tables.chunks(TABLE).zip(self.demands()).flat_map(|each| narrowed(each).expect("the sheet's bids explain")).collect()
    }

    fn report(&mut self, bidder: u32, report: Report) -> Answer {
        if self.closed {
            return Answer::Refused(12);
        }
        if bidder < 1 || self.sheet.bidders < bidder as usize {
            return Answer::Refused(7);
        }
        let place = bidder as usize - 1;
        if self.standing[place].is_some() {
            return Answer::Refused(13);
        }
        if unfit(self.sheet.items as u32, report) {
            return Answer::Refused(8);
        }
        if !self.explains(place, report) {
            return Answer::Refused(19);
        }
        self.standing[place] = Some(report);
        Answer::Done
    }

    /// `None` where an end leaves the sheet: its reports are not the sheet's, and no number applies.
    fn end(&mut self) -> Option<Answer> {
        let standing: Option<Vec<Report>> = self.standing.iter().copied().collect();
        if !self.closed && standing.as_ref() == Some(&self.demands()) {
            let Some(next) = self.path.get(self.moves) else {
                self.closed = true;
                return Some(Answer::Closed);
            };
            let answer = Answer::Moved(next.kind, next.items);
            self.tables = self.narrowed();
            self.moves += 1;
            self.standing.fill(None);
            return Some(answer);
        }
        if self.closed {
            return Some(Answer::Refused(12));
        }
        let Some(reports) = standing else {
            return Some(Answer::Refused(14));
        };
        if !reports.iter().enumerate().all(|(place, &report)| self.explains(place, report)) {
            return Some(Answer::Refused(19));
        }
        let rising = flows::rising(&reports);
        let at_top = |i: usize| rising >> i & 1 == 1 && self.prices()[i] == TOP;
        match self.phase() {
            Phase::Falling if rising != 0 => Some(Answer::Refused(16)),
            Phase::Rising if (0..self.sheet.items).any(at_top) => Some(Answer::Refused(17)),
            _ => None,
        }
    }

    fn clear(&mut self) -> Answer {
        if self.closed {
            return Answer::Refused(12);
        }
        self.standing.fill(None);
        Answer::Done
    }

    fn read(&self, room: usize) -> Answer {
        if !self.closed {
            return Answer::Refused(15);
        }
        if room < live_length(self.sheet.items, self.sheet.bidders) {
            return Answer::Refused(3);
        }
        let must = flows::above(&self.sheet.floors, self.prices());
        let names = flows::first_assignment(&self.demands(), must).expect("some assignment fits at the close");
        let (raised, lowered) = self.rounds();
        Answer::Sheet(write_live(raised, lowered, self.prices(), &names))
    }

    /// The machine's answer; `None` where the call leaves the sheet.
    pub fn call(&mut self, call: Call) -> Option<Answer> {
        match call {
            Call::Report { bidder, report } => Some(self.report(bidder, report)),
            Call::End => self.end(),
            Call::Clear => Some(self.clear()),
            Call::Read { room } => Some(self.read(room)),
        }
    }
}
