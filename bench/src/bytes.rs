//! Reading a bid sheet and writing a closing sheet, beside plain Rust of the same work; and the whole way from bytes to bytes.

use crate::plain::Closing;
use crate::sheets::random;
use crate::{race, search};
use model::random::Random;
use model::{sheet, Sheet, TOP};
use std::hint::black_box;

extern "C" {
    // A slice is passed as its address and its length.
    fn bench_write_closing(
        out: *mut u8,
        out_len: usize,
        items: u32,
        bidders: u32,
        raised: u32,
        lowered: u32,
        prices: &[u16; 32],
        options: &[u8; 64],
    ) -> bool;
}

/// The bytes of the longest closing sheet, and of its first three lines.
const LONGEST: usize = dewgneiss::LONGEST_CLOSING;
const THREE_LINES: usize = sheet::live_length(32, 64);

/// The value of each digit; any other byte is at least 16.
const VALUES: [u8; 256] = {
    let mut values = [16; 256];
    let mut x = 0;
    while x < 16 {
        values[b"0123456789abcdef"[x as usize] as usize] = x;
        x += 1;
    }
    values
};

/// Numbers of as many digits each, into as many places, and byte 0a behind them.
fn read_line(bytes: &[u8], into: &mut [u16]) -> Option<()> {
    let (digits, end) = bytes.split_at_checked(4 * into.len())?;
    let mut seen = 0;
    for (x, four) in into.iter_mut().zip(digits.chunks_exact(4)) {
        let v: [u8; 4] = std::array::from_fn(|k| VALUES[usize::from(four[k])]);
        seen |= v[0] | v[1] | v[2] | v[3];
        *x = v.iter().fold(0, |x, &v| x << 4 | u16::from(v));
    }
    (seen < 16 && end == b"\n").then_some(())
}

/// A count of two digits.
fn count(digits: &[u8]) -> Option<usize> {
    let v = [0, 1].map(|k| VALUES[usize::from(digits[k])]);
    (v[0] | v[1] < 16).then_some(usize::from(v[0]) << 4 | usize::from(v[1]))
}

/// The closing sheet of a bid sheet at the front of `out`, or the number that turns it down.
#[inline(never)]
fn close(bytes: &[u8], out: &mut [u8; LONGEST]) -> u8 {
    let (Some(items), Some(bidders)) = (bytes.get(..2).and_then(count), bytes.get(2..4).and_then(count)) else {
        return 6;
    };
    if !(1..=32).contains(&items) {
        return 1;
    }
    if !(1..=64).contains(&bidders) {
        return 2;
    }
    let line = 4 * items + 1;
    if bytes.len() != 4 + line * (bidders + 1) {
        return 6;
    }
    let (mut start, mut bids) = ([0; 32], [0; 2048]);
    let (start, bids) = (&mut start[..items], &mut bids[..items * bidders]);
    let read = read_line(&bytes[4..4 + line], start).is_some()
        && bytes[4 + line..].chunks_exact(line).zip(bids.chunks_exact_mut(items)).all(|(b, x)| read_line(b, x).is_some());
    if !read {
        return 6;
    }
    if start.iter().any(|&x| x > TOP) {
        return 4;
    }
    if bids.iter().any(|&x| x > TOP) {
        return 5;
    }
    let mut closing = Closing::new(items, bidders);
    search::sealed(items, bidders, start, &[0; 32][..items], bids, &mut closing);
    write_sealed(out, &closing);
    0
}

/// The number in so many digits.
pub fn put(out: &mut [u8], digits: usize, x: u32) {
    for (k, byte) in out.iter_mut().enumerate() {
        *byte = b"0123456789abcdef"[(x >> (4 * (digits - 1 - k)) & 15) as usize];
    }
}

/// Four digits for each amount.
fn put_amounts(out: &mut [u8], amounts: &[u16]) {
    out.chunks_exact_mut(4).zip(amounts).for_each(|(to, &x)| put(to, 4, x.into()));
}

/// The four lines of a sealed auction at the front of `out`.
fn write_sealed(out: &mut [u8; LONGEST], c: &Closing) {
    write_closing(out, c.rounds, &c.prices, &c.names);
    let fourth = sheet::live_length(c.prices.len(), c.names.len());
    let last = fourth + 4 * c.gains.len();
    put_amounts(&mut out[fourth..last], &c.gains);
    out[last] = b'\n';
}

/// The three lines of a live read at the front of `out`, where there is room for them.
#[inline(never)]
pub fn write_closing(out: &mut [u8], rounds: [u32; 2], prices: &[u16], names: &[u8]) -> bool {
    let (second, third) = (13, 14 + 4 * prices.len());
    let last = third + 2 * names.len();
    if out.len() <= last {
        return false;
    }
    out[..12].chunks_exact_mut(6).zip(rounds).for_each(|(to, x)| put(to, 6, x));
    put_amounts(&mut out[second..third - 1], prices);
    out[third..last].chunks_exact_mut(2).zip(names).for_each(|(to, &x)| put(to, 2, x.into()));
    [second - 1, third - 1, last].iter().for_each(|&k| out[k] = b'\n');
    true
}

/// What a closing sheet says, in as many places as there can be. Its first three lines are written alone, too.
struct Said {
    rounds: [u32; 2],
    prices: [u16; 32],
    names: [u8; 64],
    gains: Vec<u16>,
}

impl Said {
    fn of(s: &Sheet) -> Said {
        let c = dewgneiss::sealed(s.items as u32, s.bidders as u32, &s.start, &s.bids).expect("the sheet is within the limits");
        let prices = c.prices.try_into().expect("32 items");
        Said { rounds: [c.raised, c.lowered], prices, names: c.names.try_into().expect("64 bidders"), gains: c.gains }
    }

    fn proved(&self, out: &mut [u8; THREE_LINES]) -> bool {
        let [raised, lowered] = self.rounds;
        // SAFETY: the address and the length are those of one array, lent to this call alone; the rest may be anything.
        unsafe { bench_write_closing(out.as_mut_ptr(), out.len(), 32, 64, raised, lowered, &self.prices, &self.names) }
    }

    fn plain(&self, out: &mut [u8; THREE_LINES]) -> bool {
        write_closing(out, self.rounds, &self.prices, &self.names)
    }

    fn second_program(&self) -> Vec<u8> {
        let [raised, lowered] = self.rounds;
        let (prices, names, gains) = (self.prices.to_vec(), self.names.to_vec(), self.gains.clone());
        sheet::write_closing(&model::Closing { raised, lowered, prices, names, gains })
    }
}

fn proved(bytes: &[u8], out: &mut [u8; LONGEST]) -> u8 {
    dewgneiss::close_sheet_into(bytes, out).map_or_else(|refusal| refusal.number(), |()| 0)
}

/// The table, and of it the ratio of reading a bid sheet; how many answers were compared.
pub fn table(turns: usize, reading: &mut f64) -> usize {
    let mut r = Random::new(10);
    let sheets: Vec<Sheet> = (0..20).map(|_| random(32, 64, TOP, |r| r.amount(TOP), &mut r)).collect();
    let said: Vec<Said> = sheets.iter().map(Said::of).collect();
    let good: Vec<Vec<u8>> = sheets.iter().map(sheet::write).collect();
    // Read to its very end, and then turned down for its last bid, without an auction.
    let bad: Vec<Vec<u8>> = sheets.iter().map(|s| sheet::write(&over_at_last(s))).collect();
    for k in 0..sheets.len() {
        let [mut a, mut b] = [[0; LONGEST]; 2];
        assert_eq!((proved(&bad[k], &mut a), close(&bad[k], &mut b)), (5, 5));
        assert_eq!(sheet::close(&bad[k], LONGEST), Err(5));
        assert_eq!((proved(&good[k], &mut a), close(&good[k], &mut b)), (0, 0));
        let expected = said[k].second_program();
        assert_eq!([&a[..], &b], [&expected[..]; 2]);
        let [mut a, mut b] = [[0; THREE_LINES]; 2];
        assert!(said[k].proved(&mut a) && said[k].plain(&mut b));
        assert_eq!([&a[..], &b], [&expected[..THREE_LINES]; 2]);
    }
    if turns > 0 {
        println!("\n| sheets of 32 items and 64 bidders, as bytes | proved, ns | plain Rust, ns | ratio |");
        println!("|---|---|---|---|");
        let [mut a, mut b] = [[0; LONGEST]; 2];
        let read = race(
            turns,
            bad.len(),
            [&mut |k| _ = black_box(proved(black_box(&bad[k]), &mut a)), &mut |k| {
                _ = black_box(close(black_box(&bad[k]), &mut b))
            }],
        );
        // Each sheet once, one program after the other: what the processor has learned of a sheet's digits is of no use.
        let fresh: Vec<Vec<u8>> =
            (0..500).map(|_| sheet::write(&over_at_last(&random(32, 64, TOP, |r| r.amount(TOP), &mut r)))).collect();
        let [proved_once] = race(1, fresh.len(), [&mut |k| _ = black_box(proved(black_box(&fresh[k]), &mut a))]);
        let [plain_once] = race(1, fresh.len(), [&mut |k| _ = black_box(close(black_box(&fresh[k]), &mut b))]);
        let whole = race(
            turns,
            good.len(),
            [&mut |k| _ = black_box(proved(black_box(&good[k]), &mut a)), &mut |k| {
                _ = black_box(close(black_box(&good[k]), &mut b))
            }],
        );
        // A hundred calls for each reading of the clock.
        let [mut a, mut b] = [[0; THREE_LINES]; 2];
        let write = race(
            turns,
            said.len(),
            [&mut |k| (0..100).for_each(|_| _ = black_box(black_box(&said[k]).proved(&mut a))), &mut |k| {
                (0..100).for_each(|_| _ = black_box(black_box(&said[k]).plain(&mut b)))
            }],
        )
        .map(|t| t / 100.0);
        *reading = read[0] / read[1];
        for (what, [proved, plain]) in [
            ("a bid sheet is read, and turned down for its last bid", read),
            ("the same of sheets that are read once", [proved_once, plain_once]),
            ("a closing sheet of three lines is written", write),
            ("a bid sheet is closed, random, from anywhere", whole),
        ] {
            println!("| {what} | {proved:.0} | {plain:.0} | {:.2} |", proved / plain);
        }
    }
    3 * sheets.len()
}

fn over_at_last(s: &Sheet) -> Sheet {
    let mut over = s.clone();
    *over.bids.last_mut().expect("a bid") = TOP + 1;
    over
}
