//! Document 01's claim on live lists, between the plain machine and the second program's own record.

use model::generate::{calls, live_sheet, live_sheet_above, Reporting};
use model::live::{Answer, Call, Held, Phase, Record, Report};
use model::machine::Machine;
use model::random::Random;
use model::sheet::LONGEST_LIVE;
use model::tables::{narrowed, OPTIONS, TABLE};
use model::{flows, sealed_refusal, sheet, Sheet, TOP};

/// Whether record and tables hold the sheet's floors and the machine's prices, rounds, phase, reports and tables.
fn holds(held: &Held, machine: &Machine, s: &Sheet) -> bool {
    let record = &held.record;
    let report = |k: usize| machine.standing.get(k).copied().flatten();
    record.items as usize == s.items
        && record.bidders as usize == s.bidders
        && record.floors[..s.items] == s.floors
        && record.prices() == machine.prices()
        && (record.raised, record.lowered) == machine.rounds()
        && record.phase == machine.phase()
        && (0..64).all(|k| (record.reported >> k & 1 == 1) == report(k).is_some())
        && (0..64).all(|k| record.reports[k] == report(k).unwrap_or_default())
        && held.tables == machine.tables
}

fn opened(s: &Sheet) -> Held {
    Held::open_above(s.items as u32, s.bidders as u32, &s.start, &s.floors).unwrap()
}

/// Plays a list on both, as far as the machine stays on the sheet; whether it stayed to the end.
fn agree(s: &Sheet, list: &[Call]) -> bool {
    let mut held = opened(s);
    let mut machine = Machine::new(s);
    assert!(holds(&held, &machine, s));
    for &call in list {
        let Some(expected) = machine.call(call) else {
            return false;
        };
        assert_eq!(held.call(call), expected, "{call:?} on {s:?}");
        assert!(holds(&held, &machine, s), "{call:?} on {s:?}");
        assert!(held.record.well_formed(), "{call:?} on {s:?}");
        if let Answer::Sheet(bytes) = expected {
            let c = flows::close(s);
            assert_eq!(bytes, sheet::write_live(c.raised, c.lowered, &c.prices, &c.names));
        }
    }
    true
}

/// Sheets for live lists, with floors and without.
const SHEETS: [fn(&mut Random) -> Sheet; 2] = [live_sheet, live_sheet_above];

#[test]
fn machine_and_record_agree() {
    SHEETS.iter().for_each(agree_on);
}

fn agree_on(made: &fn(&mut Random) -> Sheet) {
    let mut r = Random::new(11);
    let (mut stayed, mut closed) = (0, 0);
    for _ in 0..500 {
        let s = made(&mut r);
        let list = calls(&s, Reporting::BySheet, 600, &mut r);
        if agree(&s, &list) {
            stayed += 1;
            closed += usize::from(list.iter().any(|c| matches!(c, Call::Read { room: LONGEST_LIVE })));
        }
    }
    assert!(stayed > 200 && closed > 100, "{stayed} lists stayed on the sheet, {closed} of them read");
}

/// Wild lists keep the record well formed. With the tables from the opening on, 16 and 17 never come, and 19 comes at reports alone.
#[test]
fn wild_lists_keep_the_record_well_formed() {
    SHEETS.iter().for_each(stays_well_formed_on);
}

fn stays_well_formed_on(made: &fn(&mut Random) -> Sheet) {
    let mut r = Random::new(12);
    let mut numbers = [0; 20];
    let mut closed = 0;
    for _ in 0..600 {
        let s = made(&mut r);
        let list = calls(&s, Reporting::Wild, 300, &mut r);
        let mut held = opened(&s);
        for call in list {
            let before = held.clone();
            let answer = held.call(call);
            assert!(held.record.well_formed(), "{call:?} on {before:?}");
            if let Answer::Refused(number) = answer {
                numbers[number as usize] += 1;
                assert_eq!(held, before);
                assert!(number != 19 || call != Call::End, "{before:?}");
            }
        }
        closed += usize::from(held.record.phase == Phase::Closed);
    }
    for number in [3, 7, 8, 12, 13, 14, 15, 19] {
        assert!(numbers[number] > 20, "number {number} was given {} times", numbers[number]);
    }
    assert_eq!([11, 16, 17].map(|number| numbers[number]), [0; 3]);
    assert!(closed > 100, "{closed} lists closed");
}

/// Bids that meet a bidder's table and explain the report that stands: the highest of each item. Null's column has them.
fn explaining(held: &Held, place: usize) -> Vec<u16> {
    let (items, part) = (held.record.items as usize, &held.tables[place * TABLE..][..TABLE]);
    let table = narrowed(items, part, held.record.prices(), held.record.reports[place], TOP).expect("19 was not given");
    (1..=items).map(|i| table[i * OPTIONS] as u16).collect()
}

/// A list with its tables from the opening on closes as some bid sheet does, one that explains all reports which were not cleared.
#[test]
fn a_close_is_that_of_some_sheet() {
    let mut r = Random::new(13);
    let mut closed = 0;
    for _ in 0..600 {
        let s = live_sheet_above(&mut r);
        let mut held = opened(&s);
        calls(&s, Reporting::Wild, 300, &mut r).into_iter().for_each(|call| _ = held.call(call));
        if held.record.phase != Phase::Closed {
            continue;
        }
        closed += 1;
        let bids = (0..s.bidders).flat_map(|place| explaining(&held, place)).collect();
        let found = Sheet { bids, ..s.clone() };
        assert_eq!(flows::demands(&found, held.record.prices()), held.record.reports(), "{s:?}");
        let c = flows::close(&found);
        let Answer::Sheet(bytes) = held.call(Call::Read { room: LONGEST_LIVE }) else { panic!("it has closed") };
        assert_eq!(bytes, sheet::write_live(c.raised, c.lowered, &c.prices, &c.names), "{s:?}");
    }
    assert!(closed > 100, "{closed} lists closed");
}

/// A sheet of more than forty bidders is let sealed, up to sixty-four of them, and never live.
#[test]
fn more_bidders_than_a_live_auction_has() {
    for (bidders, number) in [(40, None), (41, Some(2)), (64, Some(2))] {
        let s = Sheet::of(vec![1; 2], bidders, vec![3; 2 * bidders]);
        assert_eq!(sealed_refusal(2, bidders as u32, &s.start, &s.bids), None);
        assert_eq!(flows::close(&s).prices, [3, 3]);
        assert_eq!(Held::open_above(2, bidders as u32, &s.start, &s.floors).err(), number, "{bidders}");
        assert_eq!(Held::open(2, bidders as u32, &s.start).err(), number, "{bidders}");
    }
    assert_eq!(sealed_refusal(2, 65, &[1; 2], &[3; 2 * 65]), Some(2));
}

/// Each clause of number 11, on records that no list of calls reaches.
#[test]
fn records_that_are_not_well_formed() {
    let good = Held::open(2, 3, &[5, 0]).unwrap().record;
    let floored = Record { raised: 5, ..Held::open_above(2, 3, &[5, 4095], &[3, 4092]).unwrap().record };
    let mut closed = good.clone();
    closed.reports[..3].fill(Report { null: true, items: 1 });
    (closed.reported, closed.phase) = (0b111, Phase::Closed);
    // At its floor an item need not be wanted: nobody wants item 2.
    let mut at_floor = closed.clone();
    (at_floor.floors[1], at_floor.prices[1]) = (7, 7);
    assert!(good.well_formed() && floored.well_formed() && closed.well_formed() && at_floor.well_formed());
    let spoil = |record: &Record, change: &dyn Fn(&mut Record)| {
        let mut bad = record.clone();
        change(&mut bad);
        assert!(!bad.well_formed(), "{:?} {:?}", bad.prices(), bad.reports());
        let same = bad.clone();
        for call in [Call::Report { bidder: 0, report: Report::default() }, Call::End, Call::Clear, Call::Read { room: 0 }] {
            // 11 comes before 3: there are no tables at all.
            assert_eq!(bad.call(call, &mut []), Answer::Refused(11));
            assert_eq!(bad, same);
        }
    };
    spoil(&good, &|r| r.items = 0);
    spoil(&good, &|r| r.items = 33);
    spoil(&good, &|r| r.bidders = 0);
    spoil(&good, &|r| r.bidders = 41);
    spoil(&good, &|r| r.bidders = 64);
    // Places past the most bidders are unused ones.
    let forty = Held::open(1, 40, &[5]).unwrap().record;
    assert!(forty.well_formed());
    spoil(&forty, &|r| r.bidders = 41);
    spoil(&forty, &|r| r.reports[40].items = 1);
    spoil(&forty, &|r| r.reports[63].null = true);
    spoil(&forty, &|r| r.reported = 1 << 40);
    spoil(&forty, &|r| r.reported = 1 << 63);
    spoil(&good, &|r| r.prices[0] = 4096);
    spoil(&good, &|r| r.prices[2] = 1);
    spoil(&good, &|r| r.reports[3].items = 1);
    spoil(&good, &|r| r.reports[63].null = true);
    spoil(&good, &|r| r.reported = 0b1000);
    spoil(&good, &|r| r.reported = 0b1);
    spoil(&good, &|r| r.reports[0].items = 1);
    spoil(&good, &|r| (r.reported, r.reports[0].items) = (1, 0b100));
    spoil(&good, &|r| r.lowered = 1);
    spoil(&good, &|r| r.raised = 6);
    spoil(&good, &|r| (r.phase, r.raised) = (Phase::Falling, 8191));
    spoil(&good, &|r| (r.phase, r.lowered) = (Phase::Falling, 8186));
    spoil(&good, &|r| (r.phase, r.lowered) = (Phase::Falling, u32::MAX));
    spoil(&good, &|r| r.phase = Phase::Closed);
    spoil(&closed, &|r| r.raised = u32::MAX);
    spoil(&closed, &|r| r.reports[..2].fill(Report { null: false, items: 2 }));
    spoil(&closed, &|r| (r.reported, r.reports[2]) = (0b11, Report::default()));
    spoil(&closed, &|r| r.prices[1] = 1);
    spoil(&good, &|r| r.floors[0] = 6);
    spoil(&good, &|r| r.floors[1] = 1);
    spoil(&good, &|r| r.floors[2] = 1);
    spoil(&good, &|r| r.floors[31] = 4095);
    spoil(&good, &|r| (r.floors[0], r.prices[0]) = (4096, 4096));
    spoil(&good, &|r| (r.floors[0], r.prices[0]) = (4096, 4095));
    spoil(&floored, &|r| r.raised = 6);
    spoil(&floored, &|r| r.raised = u32::MAX);
    spoil(&floored, &|r| r.floors[1] = 4093);
    spoil(&floored, &|r| r.prices[0] = 4);
    spoil(&at_floor, &|r| r.prices[1] = 8);
    spoil(&at_floor, &|r| r.floors[1] = 6);
    spoil(&at_floor, &|r| r.floors[1] = 8);
    // Falling, the plain sum of prices counts: these floors make no difference.
    let falling = Record { phase: Phase::Falling, raised: 8190, lowered: 4090, ..floored.clone() };
    assert!(falling.well_formed());
    spoil(&falling, &|r| r.raised = 8191);
    spoil(&falling, &|r| r.lowered = 4091);
}
