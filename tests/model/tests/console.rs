//! The console's lines: what is answered, and that a number changes nothing.

use model::console::{Console, LONGEST};
use model::live::Held;

/// A console that has opened example 6 and has raker 1's report.
fn opened() -> Console {
    let mut console = Console::new();
    assert_eq!(console.answer(b"o020300040004"), "0000040004\n");
    assert_eq!(console.answer(b"r010000000002"), "00\n");
    console
}

/// A console that has opened nothing yet answers these lines so, one after the other.
fn answers(lines: &[(&str, &str)]) {
    let mut console = Console::new();
    for (line, answer) in lines {
        assert_eq!(console.answer(line.as_bytes()), *answer, "{line}");
    }
}

/// Example 6 whole, from opening to close.
#[test]
fn example_6() {
    answers(&[
        ("o020300040004", "0000040004\n"),
        ("r010000000002", "00\n"),
        ("r020000000002", "00\n"),
        ("r030000000002", "00\n"),
        ("e", "00010000000200040005\n"),
        ("r010000000002", "00\n"),
        ("r020000000002", "00\n"),
        ("r030000000003", "00\n"),
        ("e", "00010000000200040006\n"),
        ("r010100000002", "00\n"),
        ("r020000000002", "00\n"),
        ("r030000000001", "00\n"),
        ("e", "00020000000100030006\n"),
        ("r010100000002", "00\n"),
        ("r020000000002", "00\n"),
        ("r030000000001", "00\n"),
        ("e", "00020000000100020006\n"),
        ("r010100000003", "00\n"),
        ("r020000000003", "00\n"),
        ("r030000000001", "00\n"),
        ("e", "00030000000000020006\n"),
        ("s", "00\n000002000002\n00020006\n000201\n"),
    ]);
}

/// Before any opening there is nothing to call, and an opening that is refused opens nothing.
#[test]
fn nothing_is_open_yet() {
    let mut console = Console::new();
    for _ in 0..2 {
        for line in ["e", "c", "s", "r010000000001", "r000000000000"] {
            assert_eq!(console.answer(line.as_bytes()), "11\n", "{line}");
        }
        assert_eq!(console.answer(b"o0203"), "03\n");
        assert_eq!(console.held, Held::zeros());
    }
}

/// Every opening that is refused, and every line that is none, keeps the auction that is open.
#[test]
fn a_number_changes_nothing() {
    let long = "o0101".to_string() + &"0000".repeat(LONGEST / 4);
    for (line, answer) in [
        ("o00010000", "01\n"),
        ("o21010000", "01\n"),
        ("o01000000", "02\n"),
        ("o01410000", "02\n"),
        ("o0203", "03\n"),
        ("o02030004", "03\n"),
        ("o0203000400040004", "03\n"),
        ("o020300041000", "04\n"),
        ("f00010000", "01\n"),
        ("f2101", "01\n"),
        ("f01000000", "02\n"),
        ("f0141", "02\n"),
        ("f0203", "03\n"),
        ("f02030004", "03\n"),
        ("f020300040004", "03\n"),
        ("f0203000400040000", "03\n"),
        ("f020300041000ffff", "03\n"),
        ("f020300040004000000000000", "03\n"),
        ("f0203000410000000ffff", "04\n"),
        ("f0203000400040000ffff", "18\n"),
        ("f02030004000400040005", "18\n"),
        ("f02030004000400050004", "18\n"),
        ("f01030fff1000", "18\n"),
        ("f020300040004000400", "06\n"),
        ("f0203000400040004000G", "06\n"),
        ("f02", "06\n"),
        ("f", "06\n"),
        ("F02030004000400000000", "06\n"),
        ("o0203000400", "06\n"),
        ("o0203000G0004", "06\n"),
        ("o02", "06\n"),
        ("O020300040004", "06\n"),
        (&long, "06\n"),
        ("", "06\n"),
        ("ee", "06\n"),
        ("r010200000000", "06\n"),
        ("r01010000000", "06\n"),
        ("r000000000001", "07\n"),
        ("r040000000001", "07\n"),
        ("r020000000000", "08\n"),
        ("r020000000004", "08\n"),
        ("r010000000002", "13\n"),
        ("e", "14\n"),
        ("s", "15\n"),
    ] {
        let mut console = opened();
        let before = console.held.clone();
        assert_eq!(console.answer(line.as_bytes()), answer, "{line}");
        assert_eq!(console.held, before, "{line}");
    }
}

/// An opening that is not refused begins anew, in the middle of an auction too.
#[test]
fn an_opening_begins_anew() {
    let mut console = opened();
    assert_eq!(console.answer(b"o01020fff"), "000fff\n");
    assert_eq!(console.held, Held::open(1, 2, &[4095]).unwrap());
    assert_eq!(console.answer(b"f02010fff00070fff0003"), "000fff0007\n");
    assert_eq!(console.held, Held::open_above(2, 1, &[4095, 7], &[4095, 3]).unwrap());
    assert_eq!(console.answer(b"o01020fff"), "000fff\n");
    assert_eq!(console.held, Held::open(1, 2, &[4095]).unwrap());
}

/// Two items with a floor, opened one above it: the second falls to its floor and no further, and stands there when nobody has it.
#[test]
fn an_auction_with_floors() {
    answers(&[
        ("f02010000000600000005", "0000000006\n"),
        ("r010000000001", "00\n"),
        ("e", "00020000000200000005\n"),
        ("r010000000001", "00\n"),
        ("e", "00030000000000000005\n"),
        ("s", "00\n000000000001\n00000005\n01\n"),
    ]);
}

/// `examples/` has a live auction with floors and one without, each with what is answered.
#[test]
fn the_examples() {
    let folder = std::path::Path::new(env!("CARGO_MANIFEST_DIR")).join("../../examples");
    for name in ["example-6", "floors"] {
        let text = |kind: &str| std::fs::read_to_string(folder.join(format!("{name}.{kind}"))).expect("an example");
        let mut console = Console::new();
        let answered: String = text("live").lines().map(|line| console.answer(line.as_bytes())).collect();
        assert_eq!(answered, text("answers"), "{name}");
    }
}
