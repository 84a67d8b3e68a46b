//! Document 02, #106: the bidder's gain, and the closing sheet's fourth line.

use model::cases::table;
use model::generate::{sheet_above, Shape, SHAPES};
use model::literal::surplus;
use model::live::{Answer, Call, Held};
use model::random::Random;
use model::{flows, sheet, Closing, Sheet, ORDERS};

/// Sheets of every kind and their closings, with floors of every kind and in both orders.
fn closings(seed: u64) -> impl Iterator<Item = (Sheet, Closing)> {
    let mut r = Random::new(seed);
    (0..900).map(move |k| {
        let shape = if k % 90 == 0 { Shape::Long } else { SHAPES[k % (SHAPES.len() - 1)] };
        let s = sheet_above(shape, &mut r);
        let closing = flows::close_in(&s, ORDERS[k % 2]);
        (s, closing)
    })
}

/// Nothing else would leave a bidder better off, and neither would no item: the gain is the highest surplus at the closing prices. It is not that at the
/// floors or at the starting prices, and a bidder with an item may well gain nothing.
#[test]
fn the_gain_is_the_highest() {
    let (mut gained, mut nothing, mut by_floors, mut by_start) = (0, 0, 0, 0);
    for (s, closing) in closings(501) {
        for (b, (&item, &gain)) in (1..).zip(closing.names.iter().zip(&closing.gains)) {
            let gain = i32::from(gain);
            let surpluses = (0..=s.items).map(|option| surplus(s.line(b), &closing.prices, option));
            assert_eq!(Some(gain), surpluses.max(), "bidder {b} of {s:?}: {closing:?}");
            let at = |prices: &[u16]| surplus(s.line(b), prices, item.into());
            gained += usize::from(gain > 0);
            nothing += usize::from(gain == 0 && item > 0);
            by_floors += usize::from(gain != at(&s.floors));
            by_start += usize::from(gain != at(&s.start));
        }
    }
    let seen = [gained, nothing, by_floors, by_start];
    assert!(seen.iter().all(|&n| n > 500), "{seen:?}");
}

/// The fourth line has four digits for each bidder, behind the three lines of a live read.
#[test]
fn the_fourth_line() {
    for (s, closing) in closings(502) {
        let bytes = sheet::write_closing(&closing);
        let lines: Vec<&[u8]> = bytes.split_inclusive(|&b| b == b'\n').collect();
        assert_eq!((lines.len(), bytes.len()), (4, sheet::closing_length(s.items, s.bidders)), "{s:?}");
        assert_eq!(sheet::numbers(&lines[3][..4 * s.bidders], s.bidders), Some(closing.gains), "{s:?}");
        let live = sheet::write_live(closing.raised, closing.lowered, &closing.prices, &closing.names);
        assert_eq!((lines[..3].concat(), live.len()), (live, sheet::live_length(s.items, s.bidders)), "{s:?}");
    }
}

/// A live auction of the sheet, played to its close.
fn played(s: &Sheet) -> Held {
    let mut held = Held::open(s.items as u32, s.bidders as u32, &s.start).unwrap();
    loop {
        for (bidder, report) in (1..).zip(flows::demands(s, held.record.prices())) {
            assert_eq!(held.call(Call::Report { bidder, report }), Answer::Done);
        }
        if held.call(Call::End) == Answer::Closed {
            return held;
        }
    }
}

/// Number 3 goes by four lines for a sealed sheet, and by three for a live read: as many bytes as a read takes are too few for the sheet.
#[test]
fn room_of_every_length() {
    for case in table() {
        let (bytes, whole) = (sheet::write(&case.sheet), sheet::write_closing(&case.closing));
        let mut held = played(&case.sheet);
        let short = sheet::live_length(case.sheet.items, case.sheet.bidders);
        for room in 0..whole.len() + 3 {
            let read = if room < short { Answer::Refused(3) } else { Answer::Sheet(whole[..short].to_vec()) };
            assert_eq!(held.call(Call::Read { room }), read, "{}, {room} bytes", case.name);
            let closed = if room < whole.len() { Err(3) } else { Ok(whole.clone()) };
            assert_eq!(sheet::close(&bytes, room), closed, "{}, {room} bytes", case.name);
        }
    }
}

/// The longest sheets.
#[test]
fn the_longest() {
    assert_eq!([sheet::closing_length(32, 64), sheet::LONGEST_LIVE], [528, 223]);
    assert_eq!([sheet::closing_length(2, 3), sheet::live_length(2, 3)], [42, 29]);
}
