//! Document 01's "Lettings to try", by every method of the second program.

use model::cases::{most_rounds, table};
use model::flows::{self, Demand};
use model::live::{Answer, Call, Held, Record};
use model::tables::{self, TABLE};
use model::{literal, sheet, Kind, ORDERS};

#[test]
fn the_table() {
    for case in table() {
        for (order, closing) in ORDERS.iter().zip([&case.closing, &case.falling_first]) {
            assert_eq!(literal::close_in(&case.sheet, *order), *closing, "{} in the order {order:?}", case.name);
            assert_eq!(flows::close_in(&case.sheet, *order), *closing, "{} in the order {order:?}", case.name);
        }
    }
}

#[test]
fn the_most_rounds() {
    let case = most_rounds();
    assert_eq!(ORDERS.map(|order| flows::close_in(&case.sheet, order)), [case.closing, case.falling_first]);
}

#[test]
fn k2_and_k3() {
    let demands: Vec<Demand> = [1, 1, 1, 2, 2, 8].map(|items| Demand { null: false, items }).to_vec();
    assert_eq!(flows::rising(&demands), 0b0011);
    assert_eq!(flows::falling(0b1001, &demands), 0b1000);
    let example_6 = &table()[0].sheet;
    let at = flows::demands(example_6, &[0, 4]);
    assert_eq!(flows::rising(&at), 0b11);
    assert_eq!(flows::falling(flows::above(&[0, 0], &[0, 4]), &at), 0);
}

#[test]
fn k4_falls_from_the_start() {
    assert_eq!(flows::path(&table()[1].sheet)[0].items, 0b11);
}

#[test]
fn example_6_as_bytes() {
    let bids = b"020300040004\n00020006\n00030007\n00060007\n";
    assert_eq!(sheet::close(bids, 42).unwrap(), b"000002000002\n00020006\n000201\n000000010004\n");
    assert_eq!(sheet::write(&table()[0].sheet), bids);
    assert_eq!(sheet::close(bids, 41), Err(3));
}

#[test]
fn bytes_that_are_turned_down() {
    let turned = |bytes: &[u8]| sheet::close(bytes, 528).err();
    for (bytes, number) in [
        (&b""[..], 6),
        (b"00", 6),
        (b"21", 6),
        (b"000G", 6),
        (b"0000", 1),
        (b"0041", 1),
        (b"01ff", 2),
        (b"2101", 1),
        (b"01010000\n0000\n\n", 6),
        (b"01010000\n0000", 6),
        (b"01010000\r\n0000\r\n", 6),
        (b"0101000A\n0000\n", 6),
        (b"01011000\n0000\n", 4),
        (b"01010000\n1000\n", 5),
        (b"01011000\n1000\n", 4),
    ] {
        assert_eq!(turned(bytes), Some(number), "{:?}", String::from_utf8_lossy(bytes));
    }
    assert_eq!(sheet::close(b"01011000\n0000\n", 25), Err(3));
    assert_eq!(sheet::close(b"01011000\n0000\n", 26), Err(4));
}

/// Reports the same for both bidders of a letting of one item, and ends the round.
fn both_report(held: &mut Held, null: bool, items: u32) -> Answer {
    for bidder in 1..=2 {
        let report = Demand { null, items };
        match held.call(Call::Report { bidder, report }) {
            Answer::Done => (),
            refused => return refused,
        }
    }
    held.call(Call::End)
}

/// Who reports null at 5 does not bid 5 or more: the item alone at 4 gives 19. Where tables filled anew are lent from there on it does not, and the end gives 16.
#[test]
fn sixteen() {
    let mut held = Held::open(1, 2, &[5]).unwrap();
    assert_eq!(both_report(&mut held, true, 0), Answer::Moved(Kind::Lowered, 1));
    assert_eq!(held.record.prices(), [4]);
    assert_eq!(held.tables[..2], [0, 0]);
    assert_eq!(held.tables[33..35], [4, 0]);
    let before = held.clone();
    assert_eq!(both_report(&mut held, false, 1), Answer::Refused(19));
    assert_eq!(held, before);
    held.tables = tables::opening(1, 4095).repeat(2);
    assert_eq!(both_report(&mut held, false, 1), Answer::Refused(16));
    assert_eq!(held.tables, tables::opening(1, 4095).repeat(2));
}

/// No bid explains the item alone at 4,095.
#[test]
fn seventeen() {
    let mut held = Held::open(1, 2, &[4095]).unwrap();
    assert_eq!(both_report(&mut held, false, 1), Answer::Refused(19));
}

/// With as many tables as bidders.
#[test]
fn a_refused_opening() {
    let open = |items, bidders, start: &[u16]| Held::open(items, bidders, start).map(|_| ());
    let above = |items, bidders, start: &[u16], floors: &[u16]| Held::open_above(items, bidders, start, floors).map(|_| ());
    assert_eq!(open(33, 41, &[]), Err(1));
    assert_eq!(open(32, 41, &[]), Err(2));
    assert_eq!(open(32, 40, &[0; 31]), Err(3));
    assert_eq!(open(1, 1, &[4096]), Err(4));
    assert_eq!(open(32, 40, &[4095; 32]), Ok(()));
    assert_eq!(above(33, 41, &[], &[]), Err(1));
    assert_eq!(above(32, 41, &[], &[]), Err(2));
    assert_eq!(above(2, 1, &[4, 4], &[4]), Err(3));
    assert_eq!(above(2, 1, &[4, 4], &[4, 4, 0]), Err(3));
    assert_eq!(above(2, 1, &[4], &[4, 4]), Err(3));
    assert_eq!(above(2, 1, &[4096, 4], &[4097, 5]), Err(4));
    assert_eq!(above(2, 1, &[4, 4], &[4, 5]), Err(18));
    assert_eq!(above(1, 1, &[4095], &[4096]), Err(18));
    assert_eq!(above(32, 40, &[4095; 32], &[4095; 32]), Ok(()));
    assert_eq!(Record::zeros().call(Call::Clear, &mut []), Answer::Refused(11));
}

/// Tables of the wrong length are turned down with 3, before 4 and 18, and any others are filled.
#[test]
fn an_opening_with_tables() {
    let all = tables::opening(2, 4095);
    for length in [0, 1, TABLE, 3 * TABLE - 1, 3 * TABLE, 3 * TABLE + 1, 4 * TABLE, 40 * TABLE] {
        let mut tables = vec![-9999; length];
        for (start, number) in [([4096, 0], 4), ([0, 4], 18), ([4, 4], 0)] {
            let opened = Record::open_above(2, 3, &start, &[4, 4], &mut tables);
            let expected = if length == 3 * TABLE { number } else { 3 };
            assert_eq!(opened.map_or_else(|number| number, |_| 0), expected, "{length} numbers from {start:?}");
            let filled = expected == 0;
            assert_eq!(tables, if filled { all.repeat(3) } else { vec![-9999; length] }, "{length} numbers from {start:?}");
        }
    }
    assert_eq!(Record::open(0, 41, &[], &mut []), Err(1));
    assert_eq!(Record::open(1, 41, &[], &mut []), Err(2));
}

/// `examples/` has the table as files, each sheet with what comes out beside it.
#[test]
fn the_examples() {
    let folder = std::path::Path::new(env!("CARGO_MANIFEST_DIR")).join("../../examples");
    for case in table() {
        let bytes = |kind: &str| std::fs::read(folder.join(format!("{}.{kind}", case.name))).expect("an example");
        assert_eq!(sheet::read(&bytes("sheet")), Ok(case.sheet.clone()), "{}", case.name);
        assert_eq!(sheet::close(&bytes("sheet"), 528), Ok(bytes("closing")), "{}", case.name);
    }
}
