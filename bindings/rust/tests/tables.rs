//! Tables of differences: known ones, number by number, and arguments that no auction takes.

use dewgneiss::{table_explains, table_fill, table_fits, table_narrow, ITEMS, OPTIONS, TABLE, TOP};

/// A part with these rows in its corner, and zeros beyond.
fn part(rows: &[&[i16]]) -> Vec<i16> {
    let mut part = vec![0; TABLE];
    for (row, places) in rows.iter().zip(part.chunks_mut(OPTIONS)) {
        places[..row.len()].copy_from_slice(row);
    }
    part
}

fn opening(items: u32) -> Vec<i16> {
    let mut part = vec![77; TABLE];
    assert!(table_fill(&mut part, items));
    part
}

/// The report explains, or not; the table is then as given, or as it was.
fn narrows(table: &mut Vec<i16>, prices: &[u16], null: bool, set: u32, then: Option<&[&[i16]]>) {
    let items = prices.len() as u32;
    let expected = then.map_or(table.clone(), part);
    assert_eq!(table_explains(table, items, prices, null, set), then.is_some());
    assert_eq!(table_narrow(table, items, prices, null, set), then.is_some());
    assert_eq!(*table, expected);
    assert!(table_fits(table, items));
}

/// All bids: the null's row is 0, every other number 4,095, and the diagonal 0.
#[test]
fn an_opening() {
    assert_eq!(opening(2), part(&[&[0, 0, 0], &[4095, 0, 4095], &[4095, 4095, 0]]));
    for items in 1..=ITEMS {
        let table = opening(items as u32);
        for (k, &x) in table.iter().enumerate() {
            let (i, j) = (k / OPTIONS, k % OPTIONS);
            let beyond = i > items || j > items;
            assert_eq!(x, if beyond || i == 0 || i == j { 0 } else { 4095 }, "{items} items, {i} less {j}");
        }
        assert!(table_fits(&table, items as u32));
    }
}

#[test]
fn reports_one_after_the_other() {
    let mut table = opening(2);
    narrows(&mut table, &[4, 4], false, 0b10, Some(&[&[0, 0, -5], &[4094, 0, -1], &[4095, 4095, 0]]));
    let first = table.clone();
    narrows(&mut table, &[4, 5], false, 0b10, Some(&[&[0, 0, -6], &[4093, 0, -2], &[4095, 4095, 0]]));
    narrows(&mut table, &[4, 6], true, 0b10, Some(&[&[0, 0, -6], &[3, 0, -3], &[6, 6, 0]]));
    table = first;
    narrows(&mut table, &[4, 5], false, 0b11, Some(&[&[0, -5, -6], &[4094, 0, -1], &[4095, 1, 0]]));
}

/// At price 0 null and an item are not both demanded, as a bid of 0 is none; an item left out beside null is bid 0 for there.
#[test]
fn null_at_price_0() {
    let mut table = opening(2);
    narrows(&mut table, &[0, 7], true, 0b01, None);
    narrows(&mut table, &[0, 7], true, 0b10, Some(&[&[0, 0, -7], &[0, 0, -7], &[7, 7, 0]]));
    narrows(&mut table, &[0, 7], true, 0, None);
}

/// Document 02's examples: the pan alone after null at a higher price, and at 4,095.
#[test]
fn the_examples_of_the_papers() {
    let mut table = opening(1);
    narrows(&mut table, &[5], true, 0, Some(&[&[0, 0], &[4, 0]]));
    narrows(&mut table, &[4], false, 1, None);
    narrows(&mut opening(1), &[TOP], false, 1, None);
    // 4,095 is the highest bid, and needs null beside it at this price.
    narrows(&mut opening(1), &[TOP], true, 1, Some(&[&[0, -4095], &[4095, 0]]));
}

/// A lent table need not be tight; a move makes it so.
#[test]
fn loose_tables() {
    let mut table = part(&[&[9, 4095], &[4095, 7]]);
    narrows(&mut table, &[5], true, 0, Some(&[&[0, 0], &[4, 0]]));
}

#[test]
fn what_fits() {
    // A cycle below 0, of which no two numbers are.
    let all = |x: i16| vec![x; 4];
    let mut rows = [vec![0; 4], all(4095), all(4095), all(4095)];
    assert!(table_fits(&part(&rows.each_ref().map(|row| &row[..])), 3));
    for (i, j) in [(1, 2), (2, 3), (3, 1)] {
        rows[i][j] = -1;
    }
    assert!(!table_fits(&part(&rows.each_ref().map(|row| &row[..])), 3));

    // −4,095 along all items: every sum on the way leaves 16 bits behind.
    let mut chain = opening(32);
    for i in 1..32 {
        chain[i * OPTIONS + i + 1] = -4095;
    }
    assert!(!table_fits(&chain, 32));
    // Once it may stand: item 1 is bid 0 for, item 2 4,095.
    let mut once = opening(2);
    once[OPTIONS + 2] = -4095;
    assert!(table_fits(&once, 2));

    // −4,095 for null less item 1: the bid is 4,095, and its report must say so.
    let mut high = part(&[&[0, -4095], &[4095, 0]]);
    assert!(table_fits(&high, 1));
    narrows(&mut high, &[4094], true, 1, None);
    narrows(&mut high, &[4094], false, 1, Some(&[&[0, -4095], &[4095, 0]]));

    assert!(table_fits(&part(&[&[1, 0], &[4095, 4095]]), 1));
    assert!(!table_fits(&part(&[&[-1, 0], &[4095, 0]]), 1));
    assert!(!table_fits(&part(&[&[0, 0], &[4095, -1]]), 1));
    assert!(!table_fits(&part(&[&[0, 0], &[-1, 0]]), 1));
    assert!(!table_fits(&part(&[&[0, 0], &[4096, 0]]), 1));
    assert!(!table_fits(&part(&[&[0, -4096], &[4095, 0]]), 1));
    assert!(!table_fits(&part(&[&[0, 0, 1], &[4095, 0]]), 1));
    assert!(!table_fits(&part(&[&[0, 0], &[4095, 0], &[-1]]), 1));
    let mut last = opening(31);
    last[TABLE - 1] = 1;
    assert!(!table_fits(&last, 31));
}

/// What no live auction takes is answered with no, and changes nothing.
#[test]
fn arguments_of_no_auction() {
    let good = opening(2);
    let no = |part: &[i16], items: u32, prices: &[u16], null: bool, set: u32| {
        let mut lent = part.to_vec();
        assert!(!table_explains(&lent, items, prices, null, set));
        assert!(!table_narrow(&mut lent, items, prices, null, set));
        assert_eq!(lent, part);
    };
    assert!(table_explains(&good, 2, &[4, 4], false, 0b11));
    no(&good, 2, &[4], false, 1);
    no(&good, 2, &[4, 4, 4], false, 1);
    no(&good, 2, &[], true, 0);
    no(&good, 2, &[4, 4096], false, 1);
    no(&good, 2, &[4, 65_535], true, 0);
    no(&good, 2, &[4, 4], false, 0);
    no(&good, 2, &[4, 4], false, 0b100);
    no(&good, 2, &[4, 4], true, 1 << 31);
    no(&good[1..], 2, &[4, 4], false, 1);
    no(&[], 2, &[4, 4], false, 1);
    no(&[&good[..], &[0]].concat(), 2, &[4, 4], false, 1);
    no(&vec![0; TABLE], 0, &[], true, 0);
    no(&vec![0; TABLE], 33, &[0; 33], true, 0);
    for (length, items) in [(0, 1), (TABLE - 1, 1), (TABLE + 1, 1), (2 * TABLE, 1), (TABLE, 0), (TABLE, 33), (TABLE, u32::MAX)] {
        let mut lent = vec![5; length];
        assert!(!table_fill(&mut lent, items));
        assert_eq!(lent, vec![5; length]);
        assert!(!table_fits(&vec![0; length], items));
    }
}
