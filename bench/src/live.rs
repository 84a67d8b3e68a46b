//! The live calls beside plain Rust, each on records and tables of 32 items and 40 bidders, the most there are, that the path of a sheet comes by.

use crate::race;
use crate::record::{Calls, Record};
use crate::sheets::{anywhere_above, random, random_above};
use live_calls::{done, Lent};
use model::flows;
use model::live::{Answer, Call, Held, Phase, Report};
use model::random::Random;
use model::sheet::LONGEST_LIVE;
use model::tables::{narrowed, OPTIONS, TABLE};
use model::{Kind, Round, Sheet, LIVE_BIDDERS, TOP};
use std::hint::black_box;

impl Calls for Lent {
    fn report(&mut self, bidder: u32, report: Report, tables: &[i16]) -> u8 {
        Lent::report(self, bidder, report, tables)
    }

    fn clear(&mut self) -> u8 {
        Lent::clear(self)
    }

    fn end(&mut self, tables: &mut [i16]) -> Answer {
        Lent::end(self, tables)
    }

    fn read(&self, out: &mut [u8]) -> u8 {
        Lent::read(self, out)
    }
}

fn sheet(number: u8, out: &[u8]) -> Answer {
    match number {
        0 => Answer::Sheet(out.to_vec()),
        _ => Answer::Refused(number),
    }
}

fn answer(at: &mut impl Calls, call: Call, tables: &mut [i16]) -> Answer {
    match call {
        Call::Report { bidder, report } => done(at.report(bidder, report, tables)),
        Call::End => at.end(tables),
        Call::Clear => done(at.clear()),
        Call::Read { room } => {
            let mut out = vec![0; room];
            sheet(at.read(&mut out), &out)
        }
    }
}

/// Records and tables on the path of a sheet, each with every report in: of a rising and of a falling round, before the close, and after.
struct Path {
    rising: Held,
    falling: Held,
    last: Held,
    closed: Held,
}

/// Record and tables after some rounds of the path, with every report in. The tables are narrowed by the last few of these rounds: all would be thousands.
fn after(s: &Sheet, path: &[Round], rounds: usize) -> Held {
    let prices = |k: usize| if k == 0 { &s.start } else { &path[k - 1].prices };
    let opened = Held::open_above(s.items as u32, s.bidders as u32, &s.start, &s.floors);
    let mut held = opened.expect("the sheet is within the limits");
    for k in rounds.saturating_sub(3)..rounds {
        for (part, report) in held.tables.chunks_mut(TABLE).zip(flows::demands(s, prices(k))) {
            let next = narrowed(s.items, part, prices(k), report, TOP);
            part.copy_from_slice(&next.expect("the sheet's bids explain"));
        }
    }
    let record = &mut held.record;
    record.prices[..s.items].copy_from_slice(prices(rounds));
    record.raised = path[..rounds].iter().filter(|round| round.kind == Kind::Raised).count() as u32;
    record.lowered = rounds as u32 - record.raised;
    record.phase = if record.lowered > 0 { Phase::Falling } else { Phase::Rising };
    record.reports[..s.bidders].copy_from_slice(&flows::demands(s, prices(rounds)));
    record.reported = u64::MAX >> (64 - s.bidders);
    held
}

/// Of the rising rounds, and of the falling ones, each is as likely to be taken.
fn along(s: &Sheet, r: &mut Random) -> Path {
    let path = flows::path(s);
    let raised = path.iter().filter(|round| round.kind == Kind::Raised).count();
    let last = after(s, &path, path.len());
    let mut closed = last.clone();
    closed.record.phase = Phase::Closed;
    Path {
        rising: after(s, &path, r.within(0, raised.max(1) - 1)),
        falling: after(s, &path, r.within(raised, path.len().max(raised + 1) - 1)),
        last,
        closed,
    }
}

/// The record before the last bidder's report, and that report.
fn before_last(full: &Held) -> (Held, Call) {
    let mut at = full.clone();
    let bidder = at.record.bidders;
    let report = std::mem::take(&mut at.record.reports[bidder as usize - 1]);
    at.record.reported &= !(1 << (bidder - 1));
    (at, Call::Report { bidder, report })
}

/// The same with tables that no call leaves: null's column says nothing, so that the quick test of each table fails and its closure is needed.
fn with_loose_tables((mut at, call): (Held, Call)) -> (Held, Call) {
    let items = at.record.items as usize;
    for part in at.tables.chunks_mut(TABLE) {
        (1..=items).for_each(|i| part[i * OPTIONS] = TOP as i16);
    }
    (at, call)
}

/// Makes the call on a copy, by the proved code, by plain Rust and by the second program, and compares the answers, the next records and the tables.
fn compare(at: &Held, call: Call) -> Held {
    let mut second = at.clone();
    let (mut a, mut b) = (Lent::of(&at.record), Record::of(&at.record));
    let (mut proved, mut plain) = (at.tables.clone(), at.tables.clone());
    let said = second.call(call);
    assert_eq!(answer(&mut a, call, &mut proved), said);
    assert_eq!(answer(&mut b, call, &mut plain), said);
    assert_eq!((a, b), (Lent::of(&second.record), Record::of(&second.record)));
    assert!(proved == second.tables && plain == second.tables, "{call:?} leaves other tables");
    second
}

/// Plays a sheet of few rounds from its opening to its close, all three beside each other, and reads; how many calls that is.
fn play(s: &Sheet) -> usize {
    let mut at = Held::open_above(s.items as u32, s.bidders as u32, &s.start, &s.floors).expect("the sheet is within the limits");
    let mut calls = 0;
    while at.record.phase != Phase::Closed {
        for (bidder, report) in (1..).zip(flows::demands(s, at.record.prices())) {
            at = compare(&at, Call::Report { bidder, report });
        }
        at = compare(&at, Call::End);
        calls += s.bidders + 1;
    }
    compare(&at, Call::Read { room: model::sheet::live_length(s.items, s.bidders) });
    calls + 1
}

/// Some calls for each reading of the clock, each on a copy of the record. An end is given the tables that the one before has narrowed: they stay as they are then.
fn several(at: &impl Calls, call: Call, tables: &mut [i16], out: &mut [u8; LONGEST_LIVE]) {
    let at = black_box(at);
    for _ in 0..readings(call) {
        let mut at = at.clone();
        match call {
            Call::Report { bidder, report } => _ = black_box(at.report(bidder, report, tables)),
            Call::End => _ = black_box(at.end(tables)),
            Call::Clear => _ = black_box(at.clear()),
            Call::Read { .. } => _ = black_box(at.read(out)),
        }
        black_box(&at);
    }
}

/// How many calls are made for a reading: what takes long is made once.
fn readings(call: Call) -> usize {
    match call {
        Call::Report { .. } => 4,
        Call::End => 1,
        _ => 20,
    }
}

/// Nanoseconds for a call on each of the records, proved and plain. The copy that a call is made on is part of the time.
fn times(turns: usize, records: &[(Held, Call)]) -> [f64; 2] {
    let proved: Vec<Lent> = records.iter().map(|(at, _)| Lent::of(&at.record)).collect();
    let plain: Vec<Record> = records.iter().map(|(at, _)| Record::of(&at.record)).collect();
    let tables = || records.iter().map(|(at, _)| at.tables.clone()).collect::<Vec<_>>();
    let (mut first_tables, mut second_tables) = (tables(), tables());
    let (mut first, mut second) = ([0; LONGEST_LIVE], [0; LONGEST_LIVE]);
    race(
        turns,
        records.len(),
        [&mut |k| several(&proved[k], records[k].1, &mut first_tables[k], &mut first), &mut |k| {
            several(&plain[k], records[k].1, &mut second_tables[k], &mut second)
        }],
    )
    .map(|t| t / readings(records[0].1) as f64)
}

/// What the limits are about.
const REPORT: &str = "report, the last of a round";
const ENDS: [&str; 3] = ["end, prices go up", "end, prices go down", "end, the auction closes"];

/// Every kind of call, on records of these paths.
fn calls(paths: &[Path]) -> [(&'static str, Vec<(Held, Call)>); 7] {
    let on = |call: Call, at: fn(&Path) -> &Held| paths.iter().map(|p| (at(p).clone(), call)).collect();
    [
        (REPORT, paths.iter().map(|p| before_last(&p.rising)).collect()),
        (
            "the same with loose tables, which no call leaves",
            paths.iter().map(|p| with_loose_tables(before_last(&p.rising))).collect(),
        ),
        ("clear, with every report in", on(Call::Clear, |p| &p.rising)),
        (ENDS[0], on(Call::End, |p| &p.rising)),
        (ENDS[1], on(Call::End, |p| &p.falling)),
        (ENDS[2], on(Call::End, |p| &p.last)),
        ("read", on(Call::Read { room: LONGEST_LIVE }, |p| &p.closed)),
    ]
}

/// What the limits are about: the time of a report, and the highest of an end, both in µs.
#[derive(Default)]
pub struct Measured {
    pub compared: usize,
    report: f64,
    end: f64,
}

impl Measured {
    fn add(&mut self, name: &str, ns: f64) {
        if name == REPORT {
            self.report = ns / 1e3;
        }
        if ENDS.contains(&name) {
            self.end = self.end.max(ns / 1e3);
        }
    }

    /// The lines of the limits' table: what, the limit, this run, and whether it holds.
    pub fn limits(&self) -> [(&'static str, &'static str, String, bool); 2] {
        let line = |what, set, limit: f64, is: f64| (what, set, format!("{is:.0} µs"), is < limit);
        [
            line("a report, with tables as calls leave them", "below 300 µs", 300.0, self.report),
            line("an end, with tables as calls leave them", "below 10,000 µs", 10_000.0, self.end),
        ]
    }
}

/// The table. On sheets with floors, and on whole lists of few rounds, answers are compared only.
pub fn table(turns: usize) -> Measured {
    let mut r = Random::new(11);
    let count = if turns == 0 { 2 } else { 10 };
    let paths: Vec<Path> = (0..count).map(|_| along(&random(32, LIVE_BIDDERS, TOP, |r| r.amount(TOP), &mut r), &mut r)).collect();
    let above: Vec<Path> = (0..count).map(|_| along(&random_above(LIVE_BIDDERS, 0, anywhere_above, &mut r), &mut r)).collect();
    let mut measured = Measured::default();
    for (_, records) in calls(&paths).iter().chain(&calls(&above)) {
        records.iter().for_each(|(at, call)| _ = compare(at, *call));
        measured.compared += records.len();
    }
    // A read takes as many bytes as its three lines have, and no fewer.
    for path in paths.iter().chain(&above) {
        compare(&path.closed, Call::Read { room: LONGEST_LIVE - 1 });
        measured.compared += 1;
    }
    for (items, bidders, top) in [(32, LIVE_BIDDERS, 2), (8, 16, 12), (3, 5, 20)] {
        measured.compared += play(&random(items, bidders, top, |r| r.amount(top), &mut r));
    }
    if turns > 0 {
        println!("\n| live calls on a record and tables of 32 items and 40 bidders | proved, ns | plain Rust, ns | ratio |");
        println!("|---|---|---|---|");
        for (name, records) in calls(&paths) {
            let [proved, plain] = times(turns, &records);
            measured.add(name, proved);
            println!("| {name} | {proved:.0} | {plain:.0} | {:.2} |", proved / plain);
        }
    }
    measured
}
