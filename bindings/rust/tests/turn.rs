//! The prices at the turn: of sheets, and of what is none.

use dewgneiss::{sealed, turn, Closing, NoTurn};

const START: [u16; 2] = [4, 4];
const BIDS: [u16; 6] = [2, 6, 3, 7, 6, 7];

/// Example 6's closing.
fn closing() -> Closing {
    sealed(2, 3, &START, &BIDS).unwrap()
}

/// A closing with room for so many items and bidders.
fn sized(items: usize, bidders: usize) -> Closing {
    Closing { raised: 0, lowered: 0, prices: vec![0; items], names: vec![0; bidders], gains: vec![0; bidders] }
}

fn number(answer: Result<Vec<u16>, NoTurn>) -> u8 {
    match answer {
        Err(NoTurn::Refused(refusal)) => refusal.number(),
        other => panic!("it is not refused: {other:?}"),
    }
}

#[test]
fn example_6() {
    assert_eq!(turn(&START, &BIDS, &closing()), Ok(vec![4, 6]));
}

/// The limits: 32 items, 64 bidders, 4,095.
#[test]
fn the_largest_sheet() {
    let (start, bids) = ([4095; 32], [4095; 32 * 64]);
    let closing = sealed(32, 64, &start, &bids).unwrap();
    assert_eq!(turn(&start, &bids, &closing), Ok(start.to_vec()));
}

#[test]
fn no_items_and_no_bidders() {
    assert_eq!(number(turn(&[], &[], &sized(0, 0))), 1);
    assert_eq!(number(turn(&[], &[], &sized(0, 1))), 1);
    assert_eq!(number(turn(&[0], &[], &sized(1, 0))), 2);
    assert_eq!(number(turn(&[], &[], &closing())), 3);
}

#[test]
fn counts_beyond_the_limits() {
    assert_eq!(number(turn(&[0; 33], &[0; 33], &sized(33, 1))), 1);
    assert_eq!(number(turn(&[0], &[0; 65], &sized(1, 65))), 2);
    assert_eq!(number(turn(&[0; 257], &[0; 257], &sized(257, 1))), 1);
}

#[test]
fn lengths_that_are_not_exact() {
    for (start, bids) in
        [(&START[..1], &BIDS[..]), (&[4, 4, 4], &BIDS), (&START, &BIDS[..5]), (&START, &[2, 6, 3, 7, 6, 7, 1]), (&START, &[])]
    {
        assert_eq!(number(turn(start, bids, &closing())), 3, "{start:?} {bids:?}");
    }
}

#[test]
fn amounts_above_4095() {
    assert_eq!(number(turn(&[4, 4096], &BIDS, &closing())), 4);
    assert_eq!(number(turn(&START, &[2, 6, 3, 7, 6, 4096], &closing())), 5);
    assert_eq!(number(turn(&[65_535, 65_535], &[65_535; 6], &closing())), 4);
}

/// A closing that is not the sheet's.
#[test]
fn another_closing() {
    for other in [
        Closing { raised: 3, ..closing() },
        Closing { lowered: 1, ..closing() },
        Closing { prices: vec![2, 5], ..closing() },
        Closing { names: vec![0, 1, 2], ..closing() },
        Closing { gains: vec![0, 1, 5], ..closing() },
    ] {
        assert_eq!(turn(&START, &BIDS, &other), Err(NoTurn::Mismatch), "{other:?}");
    }
}
