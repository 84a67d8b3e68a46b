//! The sheet of reasons: document 02's lines on document 01's lettings, and its two facts on generated ones.

use model::cases::table;
use model::generate::{sheet, sheet_above, Shape, SHAPES};
use model::literal;
use model::random::Random;
use model::reasons::{along, answer, reason, Reason};
use model::{flows, sheet as bytes, Kind};

fn lines(case: &str) -> String {
    let case = table().into_iter().find(|c| c.name == case).expect("a case");
    String::from_utf8(answer(&bytes::write(&case.sheet))).expect("text")
}

/// Round 2 is for rakers 1 and 2, who want pan 2 alone; raker 3 wants pan 1 as well.
#[test]
fn example_6() {
    assert_eq!(
        lines("example-6"),
        "000101000000020000000000000007\n\
         000201000000020000000000000003\n\
         000302000000010000000000000004\n\
         000402000000010000000000000004\n"
    );
}

#[test]
fn the_other_cases() {
    assert_eq!(lines("k4"), (1..4).map(|k| format!("{k:04x}02000000030000000000000003\n")).collect::<String>());
    assert_eq!((lines("k5"), lines("k8")), (String::new(), String::new()));
    assert_eq!(lines("k6"), (1..4096).map(|k| format!("{k:04x}01000000010000000000000003\n")).collect::<String>());
    assert_eq!(lines("k7"), (1..4096).map(|k| format!("{k:04x}02000000010000000000000000\n")).collect::<String>());
    let k9 = (1..8).map(|k| match k {
        1..5 => format!("{k:04x}01000000010000000000000007\n"),
        _ => format!("{k:04x}02000000020000000000000000\n"),
    });
    assert_eq!(lines("k9"), k9.collect::<String>());
}

/// A sheet that is turned down has its number for an answer.
#[test]
fn turned_down() {
    for (sheet, number) in
        [("", "06\n"), ("2101", "01\n"), ("0141", "02\n"), ("01011000\n1000\n", "04\n"), ("01010000\n1000\n", "05\n")]
    {
        assert_eq!(answer(sheet.as_bytes()), number.as_bytes(), "{sheet:?}");
    }
}

/// A raised set has more such bidders than items, and a lowered set no more than it has items: on sheets of every kind, with floors too.
#[test]
fn more_for_a_rise_and_no_more_for_a_fall() {
    let mut r = Random::new(101);
    let mut seen = [0; 2];
    for k in 0..1_500 {
        let made = if k % 2 == 0 { sheet } else { sheet_above };
        let s = made(SHAPES[k / 2 % (SHAPES.len() - 1)], &mut r);
        for Reason { kind, items, bidders } in along(&s, &flows::path(&s)) {
            assert_eq!(kind == Kind::Raised, bidders.count_ones() > items.count_ones(), "{s:?}");
            seen[usize::from(kind == Kind::Raised)] += 1;
        }
    }
    assert!(seen.iter().all(|&n| n > 3_000), "{seen:?}");
}

/// And by the literal path, where the sets are taken from the definitions alone.
#[test]
fn by_the_letter_too() {
    let mut r = Random::new(102);
    for _ in 0..1_500 {
        for s in [sheet(Shape::Small, &mut r), sheet_above(Shape::Small, &mut r)] {
            assert_eq!(along(&s, &literal::path(&s)), along(&s, &flows::path(&s)), "{s:?}");
        }
    }
}

/// The demands are those before the round. After a rise the same bidders want some item of the set: that would be another line only where
/// one of them wants something else as well.
#[test]
fn before_the_round() {
    let s = model::Sheet::new(&[0], &[&[1], &[2]]);
    assert_eq!(reason(&s, &[0], Kind::Raised, 1, literal::demand).bidders, 0b11);
    assert_eq!(reason(&s, &[1], Kind::Raised, 1, literal::demand).bidders, 0b10);
}
