//! Live lists on a lent record and lent tables, through the exported calls: tables as the last call left them, and others; records that are damaged for a call.
//! Answer, record and every table are compared after every call.

use crate::sheets::on_all_processors;
use crate::Tally;
use live_calls::Lent;
use model::generate::{live_sheet, live_sheet_above, too_high, Caller, Reporting};
use model::lending::{self, Lending, LENDINGS};
use model::live::{Answer, Call, Held, Phase, Record};
use model::random::Random;
use model::tables::{self, TABLE};
use model::{Sheet, TOP};

/// The most calls of a list.
const CALLS: usize = 120;

/// What the second program gave to a call, and which tables and record were lent.
#[derive(Clone, Copy, Debug)]
#[cfg_attr(not(test), allow(dead_code))] // the test below counts by them
struct Given<'a> {
    call: Call,
    answer: &'a Answer,
    lending: Option<Lending>,
    /// Every call of the list brings record and tables as the last one left them.
    faithful: bool,
    held: &'a Held,
}

/// A record that 11 turns down for one call, and now and then one that it does not.
fn damaged(record: &Record, r: &mut Random) -> Record {
    let mut bad = record.clone();
    match r.within(0, 9) {
        0 => bad.items = *r.pick(&[0, 33, u32::MAX]),
        1 => bad.bidders = *r.pick(&[0, 41, 64, 65, u32::MAX]),
        2 => bad.prices[r.within(0, 31)] = too_high(r),
        3 => bad.floors[r.within(0, 31)] = r.amount(TOP),
        4 => bad.reported ^= 1 << r.within(0, 63),
        5 => bad.reports[r.within(0, 63)].items ^= 1 << r.within(0, 31),
        6 => bad.reports[r.within(0, 63)].null ^= true,
        7 => bad.raised = r.draw() as u32,
        8 => bad.lowered += 1 + r.draw() as u32 % 5_000,
        _ => bad.phase = *r.pick(&[Phase::Rising, Phase::Falling, Phase::Closed]),
    }
    bad
}

/// Opens on both, with tables of any length that hold anything, until it is not refused.
fn open(s: &Sheet, floors: bool, r: &mut Random, same: &mut impl FnMut(bool, &dyn Fn() -> String)) -> Held {
    loop {
        let items = if r.one_in(12) { 33 } else { s.items as u32 };
        let bidders = if r.one_in(12) { *r.pick(&[41, 64, 65]) } else { s.bidders as u32 };
        let exact = bidders as usize * TABLE;
        let length = if r.one_in(2) { exact } else { *r.pick(&[0, exact - 1, exact + 1, exact - TABLE, exact + TABLE]) };
        let mut start = s.start.clone();
        if r.one_in(6) {
            start[r.within(0, s.items - 1)] = too_high(r);
        }
        let lent: Vec<i16> = (0..length).map(|_| r.draw() as i16).collect();
        let (mut second, mut proved) = (lent.clone(), lent);
        let expected = match floors {
            true => Record::open_above(items, bidders, &start, &s.floors, &mut second),
            false => Record::open(items, bidders, &start, &mut second),
        };
        let mut record = Lent::of(&damaged(&Record::zeros(), r));
        let number = record.open(items, bidders, &start, floors.then_some(&s.floors), &mut proved);
        let wanted = expected.clone().unwrap_or_else(|_| Record::zeros());
        same((number, &record, &proved) == (expected.clone().err().unwrap_or(0), &Lent::of(&wanted), &second), &|| {
            format!(
                "opening of {items}, {bidders}, {start:?} above {:?} with {length} numbers: {number}, not {expected:?}",
                s.floors
            )
        });
        if expected.is_ok() {
            return Held { record: wanted, tables: second };
        }
    }
}

/// Which tables and records a list brings in place of those that the last call left.
struct Bringing {
    /// Others once in so many calls; half of the lists never.
    otherwise: Option<usize>,
    /// Those of the opening with every call.
    refilled: bool,
}

impl Bringing {
    fn new(r: &mut Random) -> Bringing {
        Bringing { otherwise: *r.pick(&[None, None, Some(4), Some(12)]), refilled: r.one_in(6) }
    }

    fn is_faithful(&self) -> bool {
        self.otherwise.is_none() && !self.refilled
    }

    fn lending(&self, r: &mut Random) -> Option<Lending> {
        if self.refilled {
            return Some(Lending::Refilled);
        }
        self.otherwise.filter(|&n| r.one_in(n)).map(|_| *r.pick(&LENDINGS))
    }

    fn damages(&self, r: &mut Random) -> bool {
        self.otherwise.is_some() && r.one_in(25)
    }
}

/// Makes the call on copies, by both, and compares what they answer and leave.
fn both(before: &Held, call: Call, same: &mut impl FnMut(bool, &dyn Fn() -> String)) -> (Answer, Held) {
    let (mut after, mut record, mut proved) = (before.clone(), Lent::of(&before.record), before.tables.clone());
    let answer = after.call(call);
    let given = record.call(call, &mut proved);
    same(given == answer && record == Lent::of(&after.record) && proved == after.tables, &|| {
        let other = after.tables.iter().zip(&proved).position(|(a, b)| a != b);
        format!("{call:?}: {given:?}, not {answer:?}; the first other number at {other:?}\n{:?}", before.record)
    });
    (answer, after)
}

/// Plays a list on both; `seen` is told what the second program gives.
fn play(k: u64, r: &mut Random, mut same: impl FnMut(bool, &dyn Fn() -> String), mut seen: impl FnMut(Given)) {
    let floors = k % 3 == 0;
    let s = if floors { live_sheet_above(r) } else { live_sheet(r) };
    let reporting = if k % 2 == 0 { Reporting::BySheet } else { Reporting::Wild };
    let mut held = open(&s, floors, r, &mut same);
    let mut caller = Caller::new(&s, reporting, r);
    let bringing = Bringing::new(r);
    for _ in 0..CALLS {
        let Some(call) = caller.call(&held.record, r) else {
            break;
        };
        let (lending, damages) = (bringing.lending(r), bringing.damages(r));
        let before = Held {
            record: if damages { damaged(&held.record, r) } else { held.record.clone() },
            tables: lending.map_or_else(|| held.tables.clone(), |lending| lending::lent(&held, lending, r)),
        };
        let (answer, after) = both(&before, call, &mut same);
        seen(Given { call, answer: &answer, lending, faithful: bringing.is_faithful(), held: &before });
        // What was lent goes on, but for what turns every call down.
        let fit = |tables: &[i16]| tables.chunks(TABLE).all(|part| part.len() == TABLE && tables::fits(s.items, part, TOP));
        if damages || after.tables.len() != held.tables.len() || !fit(&after.tables) {
            continue;
        }
        let reported = held.record.reported;
        held = after;
        caller.answered(call, &answer, reported, &held.record);
    }
}

/// The seed of the lists.
fn seed_of(seed: u64) -> u64 {
    seed.wrapping_add(12)
}

pub fn all(count: u64, seed: u64) -> Tally {
    on_all_processors(count, seed_of(seed), |k, r, tally| play(k, r, |same, what| tally.expect(same, what), |_| ()))
}

#[cfg(test)]
mod tests {
    use super::*;
    use crate::sheets::random;
    use crate::{LENT_LISTS, SEED};
    use std::collections::BTreeMap;

    /// How a move came about, or a number, where tables have a part in it.
    fn kind(given: &Given) -> Option<String> {
        let at = if given.call == Call::End { "end" } else { "report" };
        let tables = if given.lending.is_none() { "kept tables" } else { "other tables" };
        let takes_tables = matches!(given.call, Call::End | Call::Report { .. });
        match given.answer {
            Answer::Moved(..) => Some(format!("moved, {tables}")),
            Answer::Refused(3) if takes_tables => Some(format!("3 at {at}")),
            Answer::Refused(11) if takes_tables => {
                let by = if given.held.record.well_formed() { "tables" } else { "the record" };
                Some(format!("11 by {by} at {at}"))
            }
            Answer::Refused(19) => Some(format!("19 at {at}, {tables}")),
            Answer::Refused(number) => Some(number.to_string()),
            _ => None,
        }
    }

    /// The lists of the run in which nothing else is said reach every number that a live call can give, and those of the tables in every way. 17 is
    /// never given; nor are 11, 16 and, at an end, 19, where every call brings what the last one left.
    #[test]
    fn the_lists_reach_everything() {
        let mut times: BTreeMap<String, usize> = BTreeMap::new();
        for k in 0..LENT_LISTS {
            let r = &mut random(seed_of(SEED), k);
            play(
                k,
                r,
                |same, what| assert!(same, "{}", what()),
                |given| {
                    kind(&given).into_iter().for_each(|kind| *times.entry(kind).or_default() += 1);
                    assert!(*given.answer != Answer::Refused(17), "{given:?}");
                    let never =
                        matches!((given.call, given.answer), (_, Answer::Refused(11 | 16)) | (Call::End, Answer::Refused(19)));
                    assert!(!(given.faithful && never), "{given:?}");
                },
            );
        }
        for kind in [
            "3 at report",
            "3 at end",
            "11 by the record at report",
            "11 by the record at end",
            "11 by tables at report",
            "11 by tables at end",
            "19 at report, kept tables",
            "19 at report, other tables",
            "19 at end, other tables",
            "16",
            "7",
            "8",
            "12",
            "13",
            "14",
            "15",
            "moved, kept tables",
            "moved, other tables",
        ] {
            assert!(times.get(kind).is_some_and(|&n| n >= 40), "{kind}: {times:?}");
        }
    }
}
