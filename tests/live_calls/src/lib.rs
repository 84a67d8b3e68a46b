//! The proved live calls, which crates/bench_exports exports on a record in lent lists and on lent tables, for the comparison and the benchmark.

use model::flows::Demand;
use model::live::{Answer, Call, Phase, Record, Report};
use model::Kind;

// A slice is passed as its address and its length.
extern "C" {
    fn bench_open(
        items: usize,
        bidders: usize,
        start: *const u16,
        start_len: usize,
        numbers: &mut [u64; 4],
        prices: &mut [u16; 32],
        floors: &mut [u16; 32],
        sets: &mut [u32; 64],
        rounds: &mut [u32; 3],
        tables: *mut i16,
        tables_len: usize,
    ) -> u8;
    fn bench_open_above(
        items: usize,
        bidders: usize,
        start: *const u16,
        start_len: usize,
        lowest: *const u16,
        lowest_len: usize,
        numbers: &mut [u64; 4],
        prices: &mut [u16; 32],
        floors: &mut [u16; 32],
        sets: &mut [u32; 64],
        rounds: &mut [u32; 3],
        tables: *mut i16,
        tables_len: usize,
    ) -> u8;
    fn bench_report(
        numbers: &mut [u64; 4],
        prices: &mut [u16; 32],
        floors: &mut [u16; 32],
        sets: &mut [u32; 64],
        rounds: &mut [u32; 3],
        bidder: usize,
        null: bool,
        set: u32,
        tables: *const i16,
        tables_len: usize,
    ) -> u8;
    fn bench_clear(
        numbers: &mut [u64; 4],
        prices: &mut [u16; 32],
        floors: &mut [u16; 32],
        sets: &mut [u32; 64],
        rounds: &mut [u32; 3],
    ) -> u8;
    fn bench_end(
        numbers: &mut [u64; 4],
        prices: &mut [u16; 32],
        floors: &mut [u16; 32],
        sets: &mut [u32; 64],
        rounds: &mut [u32; 3],
        moved: &mut [u32; 2],
        tables: *mut i16,
        tables_len: usize,
    ) -> u8;
    fn bench_read(
        numbers: &[u64; 4],
        prices: &[u16; 32],
        floors: &[u16; 32],
        sets: &[u32; 64],
        rounds: &[u32; 3],
        out: *mut u8,
        out_len: usize,
    ) -> u8;
}

/// A record in the lists that the proved calls take: items, bidders, who says null and who has reported; prices; floors; item sets; rounds
/// raised and lowered, and the phase.
#[derive(Clone, PartialEq, Eq, Debug)]
pub struct Lent {
    pub numbers: [u64; 4],
    pub prices: [u16; 32],
    pub floors: [u16; 32],
    pub sets: [u32; 64],
    pub rounds: [u32; 3],
}

// SAFETY, of each call: the lists are lent to it alone, and may hold anything; an address and a length are those of one slice.
impl Lent {
    pub fn of(r: &Record) -> Lent {
        let nulls = r.reports.iter().enumerate().fold(0, |s, (b, report)| s | u64::from(report.null) << b);
        Lent {
            numbers: [r.items.into(), r.bidders.into(), nulls, r.reported],
            prices: r.prices,
            floors: r.floors,
            sets: r.reports.map(|report| report.items),
            rounds: [r.raised, r.lowered, r.phase as u32],
        }
    }

    pub fn record(&self) -> Record {
        let [items, bidders, nulls, reported] = self.numbers;
        let [raised, lowered, phase] = self.rounds;
        Record {
            items: items as u32,
            bidders: bidders as u32,
            prices: self.prices,
            floors: self.floors,
            reports: std::array::from_fn(|b| Demand { null: nulls >> b & 1 == 1, items: self.sets[b] }),
            reported,
            phase: [Phase::Rising, Phase::Falling, Phase::Closed][phase as usize],
            raised,
            lowered,
        }
    }

    /// Opens in these lists without floors, or with some: the number, or 0.
    pub fn open(&mut self, items: u32, bidders: u32, start: &[u16], lowest: Option<&[u16]>, tables: &mut [i16]) -> u8 {
        let Lent { numbers, prices, floors, sets, rounds } = self;
        let (items, bidders) = (items as usize, bidders as usize);
        let (tables, tables_len) = (tables.as_mut_ptr(), tables.len());
        let (start, start_len) = (start.as_ptr(), start.len());
        match lowest {
            None => unsafe {
                bench_open(items, bidders, start, start_len, numbers, prices, floors, sets, rounds, tables, tables_len)
            },
            Some(lowest) => unsafe {
                let (lowest, lowest_len) = (lowest.as_ptr(), lowest.len());
                bench_open_above(
                    items, bidders, start, start_len, lowest, lowest_len, numbers, prices, floors, sets, rounds, tables,
                    tables_len,
                )
            },
        }
    }

    pub fn report(&mut self, bidder: u32, report: Report, tables: &[i16]) -> u8 {
        let Lent { numbers, prices, floors, sets, rounds } = self;
        let Report { null, items } = report;
        let (tables, tables_len) = (tables.as_ptr(), tables.len());
        unsafe { bench_report(numbers, prices, floors, sets, rounds, bidder as usize, null, items, tables, tables_len) }
    }

    pub fn clear(&mut self) -> u8 {
        let Lent { numbers, prices, floors, sets, rounds } = self;
        unsafe { bench_clear(numbers, prices, floors, sets, rounds) }
    }

    pub fn end(&mut self, tables: &mut [i16]) -> Answer {
        let Lent { numbers, prices, floors, sets, rounds } = self;
        let mut moved = [0; 2];
        let (tables, tables_len) = (tables.as_mut_ptr(), tables.len());
        let number = unsafe { bench_end(numbers, prices, floors, sets, rounds, &mut moved, tables, tables_len) };
        match (number, moved) {
            (0, [0, _]) => Answer::Closed,
            (0, [1, set]) => Answer::Moved(Kind::Raised, set),
            (0, [_, set]) => Answer::Moved(Kind::Lowered, set),
            _ => Answer::Refused(number),
        }
    }

    pub fn read(&self, out: &mut [u8]) -> u8 {
        let Lent { numbers, prices, floors, sets, rounds } = self;
        unsafe { bench_read(numbers, prices, floors, sets, rounds, out.as_mut_ptr(), out.len()) }
    }

    /// Any call, as the second program answers it: a read gives the bytes up to the last of its three lines, and those behind stay as they came.
    pub fn call(&mut self, call: Call, tables: &mut [i16]) -> Answer {
        match call {
            Call::Report { bidder, report } => done(self.report(bidder, report, tables)),
            Call::End => self.end(tables),
            Call::Clear => done(self.clear()),
            Call::Read { room } => {
                let mut out = vec![b'?'; room];
                match self.read(&mut out) {
                    0 => Answer::Sheet(out[..room - out.iter().rev().take_while(|&&b| b == b'?').count()].to_vec()),
                    number if out.iter().all(|&b| b == b'?') => Answer::Refused(number),
                    _ => panic!("a read that is turned down has written"),
                }
            }
        }
    }
}

/// The answer to a report or a clear, by its number.
pub fn done(number: u8) -> Answer {
    match number {
        0 => Answer::Done,
        _ => Answer::Refused(number),
    }
}
