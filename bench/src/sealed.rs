//! The sealed auction beside plain Rust of the same search, and beside plain Rust that plays the rounds.

use crate::plain::Closing;
use crate::sheets::{anywhere_above, by, changed, changed_above, from_floors, longest, random, random_above, worst};
use crate::{plain, race, search};
use dewgneiss::{falling_first_into, sealed_above_into, sealed_into};
use model::random::Random;
use model::{Sheet, TOP};
use std::hint::black_box;

/// What closes a sheet.
#[derive(Clone, Copy, PartialEq, Eq)]
enum Auction {
    /// Without floors.
    Sealed,
    /// With them.
    Above,
    /// With them, falling first.
    FallingFirst,
}

fn closing(s: &Sheet) -> Closing {
    Closing::new(s.items, s.bidders)
}

impl Auction {
    fn proved(self, s: &Sheet, Closing { rounds, prices, names, gains }: &mut Closing) {
        let Sheet { start, floors, bids, .. } = s;
        let (items, bidders) = (s.items as u32, s.bidders as u32);
        match self {
            Auction::Sealed => sealed_into(items, bidders, start, bids, rounds, prices, names, gains),
            Auction::Above => sealed_above_into(items, bidders, start, floors, bids, rounds, prices, names, gains),
            Auction::FallingFirst => falling_first_into(items, bidders, start, floors, bids, rounds, prices, names, gains),
        }
        .expect("the sheet is within the limits");
    }

    fn by_search(self, s: &Sheet, c: &mut Closing) {
        let search: search::Call = match self {
            Auction::FallingFirst => search::falling_first,
            _ => search::sealed,
        };
        black_box(search(s.items, s.bidders, &s.start, &s.floors, &s.bids, c));
    }

    fn by_rounds(self, s: &Sheet, c: &mut Closing) {
        plain::sealed(s, self == Auction::FallingFirst, c);
    }
}

/// Compares the three closes of every sheet; the mean of their rounds.
fn compare(sheets: &[Sheet], auction: Auction) -> f64 {
    let mut rounds = 0;
    for s in sheets {
        let [mut a, mut b, mut c] = [closing(s), closing(s), closing(s)];
        auction.proved(s, &mut a);
        auction.by_search(s, &mut b);
        auction.by_rounds(s, &mut c);
        assert_eq!(a, b);
        assert_eq!(a, c);
        rounds += a.rounds[0] + a.rounds[1];
    }
    f64::from(rounds) / sheets.len() as f64
}

/// Microseconds a sheet: proved, by the same search, by rounds. And the most that a sheet takes of the proved code.
struct Times {
    proved: f64,
    most: f64,
    search: f64,
    rounds: f64,
}

fn times(turns: usize, sheets: &[Sheet], auction: Auction) -> Times {
    let mut most = 0f64;
    let mut sum = [0.0; 3];
    for s in sheets {
        let [mut a, mut b, mut c] = [closing(s), closing(s), closing(s)];
        let s = black_box(s);
        // What is a thousand times as fast is given more turns.
        let [fast, same] = race(turns * 20, 1, [&mut |_| auction.proved(s, &mut a), &mut |_| auction.by_search(s, &mut b)]);
        let [slow] = race(turns / 8 + 1, 1, [&mut |_| auction.by_rounds(s, &mut c)]);
        most = most.max(fast);
        sum = [sum[0] + fast, sum[1] + same, sum[2] + slow];
    }
    let [proved, search, rounds] = sum.map(|t| t / sheets.len() as f64 / 1e3);
    Times { proved, most: most / 1e3, search, rounds }
}

/// What the limits are about.
#[derive(Default)]
pub struct Measured {
    /// Closes that were compared.
    pub compared: usize,
    /// How many times as fast as by rounds: random sheets from 0, and the sheet of 8,190 rounds.
    random: f64,
    longest: f64,
    /// The most that any sheet takes, in µs; and falling first, where two closes are searched for.
    most: f64,
    most_falling: f64,
    /// The highest ratio to plain Rust of the same search, and on which sheets of 32 items and 64 bidders.
    ratio: f64,
    highest_on: String,
    /// The ratio to plain Rust of reading a bid sheet.
    pub reading: f64,
}

impl Measured {
    fn add(&mut self, auction: Auction, name: &str, t: &Times) {
        let faster = t.rounds / t.proved;
        match (auction, name) {
            (Auction::Sealed, RANDOM) => self.random = faster,
            (Auction::Sealed, LONGEST) => self.longest = faster,
            _ => (),
        }
        if t.proved / t.search > self.ratio {
            let order = if auction == Auction::FallingFirst { ", falling first" } else { "" };
            (self.ratio, self.highest_on) = (t.proved / t.search, format!("{name}{order}"));
        }
        let most = if auction == Auction::FallingFirst { &mut self.most_falling } else { &mut self.most };
        *most = most.max(t.most);
    }

    /// The limits that were set, and whether they hold in this run; the live calls' lines behind the others.
    pub fn limits(&self, live: [(&str, &str, String, bool); 2]) {
        println!("\n| limit | set | this run | holds |");
        println!("|---|---|---|---|");
        let line = |what: &str, set: &str, is: String, holds: bool| {
            println!("| {what} | {set} | {is} | {} |", if holds { "yes" } else { "NO" });
        };
        let faster = |x: f64| format!("{x:.0} times");
        line("random sheets from 0, beside the rounds", "at least 200 times as fast", faster(self.random), self.random >= 200.0);
        line(
            "the sheet of 8,190 rounds, beside the rounds",
            "at least 500 times as fast",
            faster(self.longest),
            self.longest >= 500.0,
        );
        line("any sheet of this run", "at most 60 µs", format!("{:.1} µs", self.most), self.most <= 60.0);
        let falling = self.most_falling;
        line("falling first, any sheet of this run", "at most 120 µs", format!("{falling:.1} µs"), falling <= 120.0);
        let ratio = format!("{:.2} ({})", self.ratio, self.highest_on);
        line("beside plain Rust of the same search", "at most 1.5 times the time", ratio, self.ratio <= 1.5);
        let reading = format!("{:.2}", self.reading);
        line("a bid sheet is read, beside plain Rust", "at most 2.5 times the time", reading, self.reading <= 2.5);
        live.into_iter().for_each(|(what, set, is, holds)| line(what, set, is, holds));
    }
}

const RANDOM: &str = "random, from 0";
const LONGEST: &str = "8,190 rounds";

fn several(count: usize, mut sheet: impl FnMut() -> Sheet) -> Vec<Sheet> {
    (0..count).map(|_| sheet()).collect()
}

/// A kind of sheets, by its name.
type Kind = (&'static str, Vec<Sheet>);

fn from_top(r: &mut Random) -> Kind {
    ("random, from 4,095", several(20, || random(32, 64, TOP, |_| TOP, r)))
}

fn from_anywhere(r: &mut Random) -> Kind {
    ("random, from anywhere", several(20, || random(32, 64, TOP, |r| r.amount(TOP), r)))
}

fn from_above_floors(r: &mut Random) -> Kind {
    ("random, floors anywhere, from anywhere above", several(20, || random_above(64, 0, anywhere_above, r)))
}

/// How many changes are tried for the worst sheets.
fn steps(turns: usize) -> usize {
    if turns == 0 {
        100
    } else {
        10_000
    }
}

fn times_item(b: usize, i: usize) -> usize {
    (b + 1) * (i + 1)
}

fn plus_item(b: usize, i: usize) -> usize {
    20 * b + 60 * i
}

/// Every kind of sheet without floors; the worst that were found.
pub fn kinds(turns: usize, measured: &mut Measured) -> Vec<Sheet> {
    let mut r = Random::new(8);
    let r = &mut r;
    let mut kinds = vec![
        (RANDOM, several(20, || random(32, 64, TOP, |_| 0, r))),
        from_top(r),
        from_anywhere(r),
        (LONGEST, vec![longest()]),
        ("all bids 0", vec![by(|_, _| 0)]),
        ("all bids 4,095", vec![by(|_, _| 4095)]),
        ("bids 0 and 1", several(10, || random(32, 64, 1, |_| 0, r))),
        ("bids 0 to 3", several(10, || random(32, 64, 3, |_| 0, r))),
        ("bids of 1 for about three items", several(10, || by(|_, _| r.one_in(10).into()))),
        (
            "a long chain: each bidder two items, the next one two of them",
            vec![by(|b, i| (i == b % 32 || i == (b + 1) % 32).into())],
        ),
        ("bidder times item", vec![by(times_item)]),
        ("bidder plus item", vec![by(plus_item)]),
    ];
    let seeds: Vec<Sheet> = kinds.iter().map(|(_, sheets)| sheets[0].clone()).collect();
    let worst: Vec<Sheet> = seeds.into_iter().map(|s| worst(s, search::sealed, changed, steps(turns), r)).collect();
    kinds.push(("the worst found from each of the above", worst.clone()));
    table("sheets of 32 items and 64 bidders", kinds, Auction::Sealed, turns, measured);
    worst
}

/// Random sheets with floors, and the worst that were found without, each starting price made a floor.
pub fn floors(worst: Vec<Sheet>, turns: usize, measured: &mut Measured) {
    let mut r = Random::new(103);
    let r = &mut r;
    let kinds = vec![
        ("random, floors anywhere, from the floors", several(20, || random_above(64, 0, |floor, _| floor, r))),
        from_above_floors(r),
        ("random, floors of 3,800 and more, from the floors", several(20, || random_above(64, 3_800, |floor, _| floor, r))),
        ("random, floors of 3,800 and more, from anywhere above", several(20, || random_above(64, 3_800, anywhere_above, r))),
        ("the worst found without floors, each start made a floor", worst.into_iter().map(from_floors).collect()),
    ];
    table("sheets of 32 items with floors and 64 bidders", kinds, Auction::Above, turns, measured);
}

/// Random sheets, the longest, the worst that were found without floors, and the worst that are found with them, all falling first.
pub fn falling(without: Vec<Sheet>, turns: usize, measured: &mut Measured) {
    let mut r = Random::new(104);
    let r = &mut r;
    // From prices that nobody pays both closes have the most to do.
    let high = [by(times_item), by(plus_item)].map(|s| Sheet { start: vec![TOP; 32], ..s });
    let with = high.map(|s| worst(s, search::falling_first, changed_above, steps(turns), r));
    let kinds = vec![
        from_top(r),
        from_anywhere(r),
        from_above_floors(r),
        (LONGEST, vec![longest()]),
        ("the worst found without floors", without),
        ("the worst found falling first, from bidder times item and bidder plus item", with.to_vec()),
    ];
    table("sheets of 32 items with floors and 64 bidders, falling first", kinds, Auction::FallingFirst, turns, measured);
}

/// The table of some kinds of sheets.
fn table(what: &str, kinds: Vec<Kind>, auction: Auction, turns: usize, measured: &mut Measured) {
    if turns > 0 {
        println!("\n| {what} | rounds | proved, µs | the most, µs | plain Rust, same search, µs | ratio | plain Rust by rounds, µs | times as fast |");
        println!("|---|---|---|---|---|---|---|---|");
    }
    for (name, sheets) in kinds {
        let rounds = compare(&sheets, auction);
        measured.compared += sheets.len();
        if turns > 0 {
            let t = times(turns, &sheets, auction);
            measured.add(auction, name, &t);
            println!(
                "| {name} | {rounds:.0} | {:.1} | {:.1} | {:.1} | {:.2} | {:.0} | {:.0} |",
                t.proved,
                t.most,
                t.search,
                t.proved / t.search,
                t.rounds,
                t.rounds / t.proved
            );
        }
    }
}

/// How the cost grows, on random sheets from 0.
pub fn growth(turns: usize, measured: &mut Measured) {
    let mut r = Random::new(9);
    if turns > 0 {
        println!("\n| random sheets, from 0 | items | bidders | top bid | proved, µs | plain Rust, same search, µs | plain Rust by rounds, µs |");
        println!("|---|---|---|---|---|---|---|");
    }
    let items = [1, 2, 4, 8, 16, 32].map(|items| ("items", items, 64, TOP));
    let bidders = [1, 2, 4, 8, 16, 32, 64].map(|bidders| ("bidders", 32, bidders, TOP));
    let tops = [0, 1, 3, 15, 63, 255, 1023, TOP].map(|top| ("top bid", 32, 64, top));
    for (grows, items, bidders, top) in items.into_iter().chain(bidders).chain(tops) {
        let sheets = several(5, || random(items, bidders, top, |_| 0, &mut r));
        compare(&sheets, Auction::Sealed);
        measured.compared += sheets.len();
        if turns > 0 {
            let t = times(turns, &sheets, Auction::Sealed);
            measured.most = measured.most.max(t.most);
            println!("| more {grows} | {items} | {bidders} | {top} | {:.1} | {:.1} | {:.0} |", t.proved, t.search, t.rounds);
        }
    }
}
