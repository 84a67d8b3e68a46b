//! What each bidder gains: by numbers, and in the closing sheet's fourth line.

mod random;

use dewgneiss::{close_sheet, close_sheet_into, falling_first, falling_first_into, sealed, sealed_above, sealed_above_into};
use dewgneiss::{sealed_into, Closing, Refusal, BIDDERS, ITEMS, LONGEST_CLOSING, TOP};
use random::Random;

/// The gains are bids less prices of the items named, and no item would give a bidder more.
fn holds(closing: &Closing, bids: &[u16]) {
    let line = |b: usize| &bids[b * closing.prices.len()..(b + 1) * closing.prices.len()];
    let surplus = |b: usize, i: usize| i32::from(line(b)[i]) - i32::from(closing.prices[i]);
    assert_eq!(closing.gains.len(), closing.names.len());
    for (b, (&gain, &name)) in closing.gains.iter().zip(&closing.names).enumerate() {
        let named = if name == 0 { 0 } else { surplus(b, usize::from(name) - 1) };
        assert_eq!(i32::from(gain), named, "bidder {}, {closing:?}", b + 1);
        let most = (0..closing.prices.len()).map(|i| surplus(b, i)).fold(0, i32::max);
        assert_eq!(i32::from(gain), most, "bidder {}, {closing:?}", b + 1);
    }
}

/// The limits: 32 items, 64 bidders, 4,095; and few bidders, who gain the most. By every entry, with floors and without.
#[test]
fn the_largest_sheets() {
    let mut random = Random(3);
    let (mut gained, mut nothing) = (0, 0);
    for (bidders, limit) in [(BIDDERS, TOP + 1), (BIDDERS, 40), (BIDDERS, 3), (40, TOP + 1), (20, TOP + 1), (1, TOP + 1)] {
        let floors = random.amounts(ITEMS, limit / 2 + 1);
        let start: Vec<u16> = floors.iter().map(|floor| floor + random.below(limit / 2)).collect();
        let bids = random.amounts(ITEMS * bidders, limit);
        let (m, n) = (ITEMS as u32, bidders as u32);
        let closings = [
            sealed(m, n, &start, &bids),
            sealed_above(m, n, &start, &floors, &bids),
            falling_first(m, n, &start, &floors, &bids),
        ];
        for closing in closings {
            let closing = closing.expect("the sheet is within the limits");
            holds(&closing, &bids);
            gained += closing.gains.iter().filter(|&&gain| gain > 0).count();
            nothing += closing.gains.iter().zip(&closing.names).filter(|(&gain, &name)| gain == 0 && name > 0).count();
        }
    }
    assert!(gained > 100 && nothing > 100, "{gained}, {nothing}");
}

/// The highest gain, and a gain of nothing for an item and for none.
#[test]
fn the_highest_and_the_lowest() {
    assert_eq!(sealed(1, 1, &[TOP], &[TOP]).unwrap().gains, [TOP]);
    let all = [TOP; ITEMS * BIDDERS];
    assert_eq!(sealed(32, 64, &[0; ITEMS], &all).unwrap().gains, [0; BIDDERS]);
    assert_eq!(sealed(32, 32, &[0; ITEMS], &all[..ITEMS * ITEMS]).unwrap().gains, [TOP; ITEMS]);
}

const START: [u16; 2] = [4, 4];
const BIDS: [u16; 6] = [2, 6, 3, 7, 6, 7];

/// Example 6 into lent memory, by every entry.
type Entry = fn(&mut [u32], &mut [u16], &mut [u8], &mut [u16]) -> Result<(), Refusal>;
const ENTRIES: [Entry; 3] = [
    |rounds, prices, names, gains| sealed_into(2, 3, &START, &BIDS, rounds, prices, names, gains),
    |rounds, prices, names, gains| sealed_above_into(2, 3, &START, &[0, 0], &BIDS, rounds, prices, names, gains),
    |rounds, prices, names, gains| falling_first_into(2, 3, &START, &[0, 0], &BIDS, rounds, prices, names, gains),
];

/// A list of gains that is not exact is refused with 3, and what is lent is as it was.
#[test]
fn a_list_of_another_length() {
    for entry in ENTRIES {
        let (mut rounds, mut prices, mut names) = ([7; 2], [7; 2], [7; 3]);
        for places in [0, 1, 2, 4, 64] {
            let mut gains = vec![7; places];
            let answer = entry(&mut rounds, &mut prices, &mut names, &mut gains);
            assert_eq!(answer.map_err(|refusal| refusal.number()), Err(3), "{places} places");
            assert_eq!((rounds, prices, names, gains), ([7; 2], [7; 2], [7; 3], vec![7; places]), "{places} places");
        }
        let mut gains = [7; 3];
        assert_eq!(entry(&mut rounds, &mut prices, &mut names, &mut gains), Ok(()));
        assert_eq!((prices, names, gains), ([2, 6], [0, 2, 1], [0, 1, 4]));
    }
}

/// Four digits for each amount, and the end of the line.
fn line(amounts: &[u16]) -> String {
    amounts.iter().map(|x| format!("{x:04x}")).collect::<String>() + "\n"
}

/// The longest closing sheet is as long as the wrapper says, and ends in the gains.
#[test]
fn the_longest_closing_sheet() {
    let mut random = Random(4);
    let (start, bids) = (random.amounts(ITEMS, TOP + 1), random.amounts(ITEMS * BIDDERS, TOP + 1));
    let sheet = format!("{ITEMS:02x}{BIDDERS:02x}") + &line(&start) + &bids.chunks(ITEMS).map(line).collect::<String>();
    let written = close_sheet(sheet.as_bytes()).unwrap();
    assert_eq!((written.len(), LONGEST_CLOSING), (LONGEST_CLOSING, 16 + 4 * ITEMS + 6 * BIDDERS));
    let gains = sealed(ITEMS as u32, BIDDERS as u32, &start, &bids).unwrap().gains;
    assert!(gains.iter().any(|&gain| gain > 0));
    assert_eq!(String::from_utf8_lossy(&written).lines().nth(3), Some(line(&gains).trim_end()));
}

/// Lent bytes have room for four lines, or are refused with 3 and stay as they were; as many as three lines take are 29. Bytes past the sheet stay, too.
#[test]
fn room_for_four_lines() {
    let closing = b"000002000002\n00020006\n000201\n000000010004\n";
    for room in 0..50 {
        let mut out = vec![b'x'; room];
        let answer = close_sheet_into(b"020300040004\n00020006\n00030007\n00060007\n", &mut out);
        assert_eq!(answer.map_err(|refusal| refusal.number()), if room < 42 { Err(3) } else { Ok(()) }, "{room} bytes");
        let written = if room < 42 { &b""[..] } else { closing };
        assert_eq!(out, [written, &vec![b'x'; room - written.len()]].concat(), "{room} bytes");
    }
}
