//! Floors: the sealed auction with them, and the tools on sheets and tables that have some.

use dewgneiss::csv::bid_sheet;
use dewgneiss::table::show;
use dewgneiss::Order::{FallingFirst, RisingFirst};
use dewgneiss::{
    falling_first, falling_reasons, falling_turn, has_floors, path, reasons_above, sealed, sealed_above, turn_above,
};
use dewgneiss::{Closing, Kind, NoTurn, Reason};
use std::path::{Path, PathBuf};
use std::process::{Command, Output};

fn example(name: &str) -> PathBuf {
    Path::new(env!("CARGO_MANIFEST_DIR")).join("../../examples").join(name)
}

fn text(name: &str) -> String {
    std::fs::read_to_string(example(name)).expect("an example")
}

/// The example: example 6 with a floor for item 1, and a third item whose floor nobody meets.
const START: [u16; 3] = [4, 4, 10];
const FLOORS: [u16; 3] = [3, 0, 8];
const BIDS: [u16; 9] = [2, 6, 0, 3, 7, 7, 6, 7, 0];

fn closing() -> Closing {
    Closing { raised: 2, lowered: 2, prices: vec![3, 6, 8], names: vec![0, 2, 1], gains: vec![0, 1, 3] }
}

/// In both orders it closes alike; the turn and the rounds are others.
#[test]
fn the_example_by_numbers() {
    let [up, down] = [Kind::Raised, Kind::Lowered];
    let closings = [sealed_above, falling_first].map(|close| close(3, 3, &START, &FLOORS, &BIDS));
    assert_eq!(closings, [Ok(closing()), Ok(closing())]);
    let turns = [turn_above, falling_turn].map(|turn| turn(&START, &FLOORS, &BIDS, &closing()));
    assert_eq!(turns, [Ok(vec![4, 6, 10]), Ok(vec![3, 4, 8])]);
    let played = [reasons_above, falling_reasons].map(|reasons| rounds(reasons(3, 3, &START, &FLOORS, &BIDS).unwrap()));
    assert_eq!(played[0], [(up, 0b010, 0b111), (up, 0b010, 0b011), (down, 0b101, 0b100), (down, 0b100, 0b000)]);
    assert_eq!(played[1], [(down, 0b101, 0b000), (down, 0b100, 0b000), (up, 0b010, 0b011), (up, 0b010, 0b011)]);
}

fn rounds(reasons: Vec<Reason>) -> Vec<(Kind, u32, u64)> {
    reasons.iter().map(|r| (r.kind, r.items, r.bidders)).collect()
}

/// Without floors bidder 2 has item 3 at 0, and the other prices fall as well.
#[test]
fn floors_of_zero_are_none() {
    let plain = sealed(3, 3, &START, &BIDS).unwrap();
    assert_eq!(sealed_above(3, 3, &START, &[0; 3], &BIDS), Ok(plain.clone()));
    assert_eq!((plain.prices, plain.names), (vec![0, 1, 0], vec![2, 3, 1]));
}

/// In the order 1, 2, 3, 4, 18, 5, by every function with floors.
#[test]
fn what_is_turned_down() {
    for (number, items, bidders, start, floors, bids) in [
        (1, 33, 65, &[4096][..], &[4097][..], &[4096][..]),
        (2, 1, 65, &[4096], &[4097], &[4096]),
        (3, 1, 1, &[4096], &[], &[4096]),
        (3, 1, 1, &[4096], &[4097, 0], &[4096]),
        (3, 1, 1, &[4096, 0], &[4097], &[4096]),
        (3, 1, 1, &[4096], &[4097], &[]),
        (4, 1, 1, &[4096], &[4097], &[4096]),
        (18, 1, 1, &[4095], &[4096], &[4096]),
        (18, 2, 1, &[5, 5], &[5, 6], &[0, 0]),
        (5, 1, 1, &[4095], &[4095], &[4096]),
    ] {
        let numbers = [
            sealed_above(items, bidders, start, floors, bids).unwrap_err().number(),
            reasons_above(items, bidders, start, floors, bids).unwrap_err().number(),
            falling_first(items, bidders, start, floors, bids).unwrap_err().number(),
            falling_reasons(items, bidders, start, floors, bids).unwrap_err().number(),
        ];
        assert_eq!(numbers, [number; 4], "{items} {bidders} {start:?} {floors:?} {bids:?}");
    }
    let said = sealed_above(1, 1, &[4], &[5], &[6]).unwrap_err().to_string();
    assert!(said.starts_with("turned down with 18: a floor is above 4,095 or above its pan's starting rent: mend"), "{said}");
}

#[test]
fn no_turn() {
    let floors = [3, 0, 11];
    let refused = |answer| matches!(answer, Err(NoTurn::Refused(refusal)) if refusal.number() == 18);
    assert!(refused(turn_above(&START, &floors, &BIDS, &closing())));
    for floors in [[3, 0, 7], [2, 0, 8], [3, 4, 8]] {
        let other = turn_above(&START, &floors, &BIDS, &closing());
        assert_eq!(other.is_err(), floors != [3, 4, 8], "{floors:?}");
        assert!(matches!(other, Ok(_) | Err(NoTurn::Mismatch)), "{floors:?}");
    }
}

#[test]
fn the_example_as_a_table() {
    assert_eq!(bid_sheet(text("floors.csv").as_bytes()).unwrap(), text("floors.sheet"));
}

/// Floors of 0 are shown where the sheet has a line of them, and change nothing else.
#[test]
fn a_line_of_zeros() {
    let plain = text("example-6.sheet");
    let zeros = plain.replacen('\n', "\nf00000000\n", 1);
    assert!(has_floors(zeros.as_bytes()) && !has_floors(plain.as_bytes()));
    let without = |shown: String| shown.replace(", with floors", "").replace("  floor", "").replace("      0      4", "      4");
    let rows = |shown: String| shown.lines().skip(1).filter(|row| !row.starts_with(" floor")).collect::<Vec<_>>().join("\n");
    for order in [RisingFirst, FallingFirst] {
        assert_eq!(without(show(zeros.as_bytes(), order).unwrap()), show(plain.as_bytes(), order).unwrap());
        let [zeros, plain] = [&zeros, &plain].map(|sheet| path::show(sheet.as_bytes(), order).unwrap());
        assert_eq!(rows(zeros), rows(plain));
    }
}

/// 6 for the first four bytes, 1, 2, 6 for the rest, 4, 18, 5, by both tools in both orders.
#[test]
fn a_bad_sheet_with_floors_is_not_shown() {
    for (sheet, said) in [
        ("01G1000a\nf0003\n0005\n", "06: these bytes are not a bid sheet"),
        ("2101000a\nf\n", "01: the number of pans"),
        ("0141000a\nf00000000\n0005\n", "02: the number of rakers"),
        ("0101000a\nf0003\n", "06: these bytes are not a bid sheet"),
        ("0101000a\nf0003\n0005", "06: these bytes are not a bid sheet"),
        ("0101000a\nf000\n0005\n", "06: these bytes are not a bid sheet"),
        ("0101000a\nf0003\nf0003\n0005\n", "06: these bytes are not a bid sheet"),
        ("0101000a\n0005\nf0003\n", "06: these bytes are not a bid sheet"),
        ("f0003\n0101000a\n0005\n", "01: the number of pans"),
        ("0101000a\r\nf0003\r\n0005\r\n", "06: these bytes are not a bid sheet"),
        (
            "01011000\nf\n0005\n",
            "06: the second line is no line of floors: f, and then four digits 0-9 and a-f for each of the sheet's 1 pans",
        ),
        ("0101000a\nf00030003\n0005\n", "06: the second line is no line of floors"),
        ("0101000a\nf000A\n1000\n", "06: the second line is no line of floors"),
        ("01011000\nffffe\n1000\n", "04: a starting rent"),
        ("0101000a\nf000b\n1000\n", "18: a floor"),
        ("01010fff\nf1000\n0000\n", "18: a floor"),
        ("0101000a\nf000a\n1000\n", "05: a bid"),
    ] {
        for order in [RisingFirst, FallingFirst] {
            for shown in [show(sheet.as_bytes(), order), path::show(sheet.as_bytes(), order)] {
                let words = shown.unwrap_err().to_string();
                assert!(words.starts_with(&format!("turned down with {said}")), "{sheet:?}: {words}");
            }
        }
    }
}

/// A floor is read in sixteen digits, as the proved reader reads a bid.
#[test]
fn every_byte_in_a_floor_and_in_a_bid() {
    let shown = |sheet: &[u8], byte: u8| {
        let bytes: Vec<u8> = sheet.iter().map(|&b| if b == b'?' { byte } else { b }).collect();
        show(&bytes, RisingFirst).ok()
    };
    for byte in 0..=255 {
        let value = b"0123456789abcdef".iter().position(|&digit| digit == byte);
        let floor = shown(b"0101000f\nf000?\n0000\n", byte);
        // The row of the pan has its number, and then its floor.
        let row = floor.as_ref().map(|text| text.lines().nth(4).unwrap().split_whitespace());
        assert_eq!(row.map(|mut row| row.nth(1).unwrap().parse().unwrap()), value, "byte {byte} in a floor");
        let bid = shown(b"0101000f\nf0000\n000?\n", byte);
        assert_eq!(bid.is_some(), value.is_some(), "byte {byte} in a bid");
    }
}

/// A bid that begins with f makes no line of floors: it is too high.
#[test]
fn bids_that_begin_with_f() {
    for sheet in ["01010000\nf000\n", "02010000000\nf0000000\n", "01010000\nf", "01010000\nf0001", ""] {
        assert!(!has_floors(sheet.as_bytes()), "{sheet:?}");
    }
    assert!(show(b"01010000\nf000\n", RisingFirst).unwrap_err().to_string().starts_with("turned down with 05"));
}

/// The largest sheet with floors; a byte more is too many.
#[test]
fn the_longest_sheet() {
    let row = |amount: &str| vec![amount; 32].join(",") + "\n";
    let table = row("4095") + "floors," + &row("4095") + &row("4095").repeat(64);
    let sheet = bid_sheet(table.as_bytes()).unwrap();
    assert_eq!(sheet.len(), dewgneiss::LONGEST_SHEET_ABOVE);
    assert!(show(sheet.as_bytes(), RisingFirst).is_ok() && path::show(sheet.as_bytes(), FallingFirst).is_ok());
    assert!(show((sheet + "\n").as_bytes(), RisingFirst).unwrap_err().to_string().starts_with("turned down with 06"));
}

/// The row of floors as it may be written; where a spreadsheet fills the other rows up, too.
#[test]
fn a_table_with_floors() {
    for same in [
        "4,4,10\nFLOORS,3,0,8\n2,6,0\n3,7,7\n6,7,0",
        "4,4,10\nfloor,3,0,8\n2,6,0\n3,7,7\n6,7,0\n\n",
        "4;4;10\r\nFloors;3;0;8\r\n2;6;0\r\n3;7;7\r\n6;7;0\r\n",
        "\u{feff}4\t4\t10\n\"floors\"\t3\t0\t8\n2\t6\t0\n3\t7\t7\n6\t7\t0\n",
        "4,4,10,\n floors ,3,\"0\",8\n2,6,0,\n3,7,7,\n6,7,0,\"\"\n",
    ] {
        assert_eq!(bid_sheet(same.as_bytes()).unwrap(), text("floors.sheet"), "{same:?}");
    }
    for (one, sheet) in [
        ("4\nfloors;3\n9\n", "01010004\nf0003\n0009\n"),
        ("4\nfloors\t4\n9\n", "01010004\nf0004\n0009\n"),
        ("4,\nfloors,0\n9,\n", "01010004\nf0000\n0009\n"),
    ] {
        assert_eq!(bid_sheet(one.as_bytes()).unwrap(), sheet, "{one:?}");
    }
}

#[test]
fn what_is_wrong_with_a_row_of_floors_is_named() {
    let rakers = "4,4\nfloors,1,1\n".to_string() + &"0,0\n".repeat(65);
    for (table, said) in [
        (
            "4,4\nfloors,3,5\n2,6\n",
            "line 2, column 3: floor 5 is above its pan's starting rent 4: lower the floor, or raise the starting rent in line 1",
        ),
        ("4,4\nfloors,4096,0\n2,6\n", "line 2, column 2: floor 4096 is above 4,095"),
        ("4,4\nfloors,3,x\n2,6\n", "line 2, column 3: 'x' is no floor: whole crowns are wanted, digits only"),
        ("4,4\nfloors,,0\n2,6\n", "line 2, column 2: no floor: write 0 for none"),
        ("4,4\nfloors,0,\n2,6\n", "line 2, column 3: no floor: write 0 for none"),
        ("4,4\nfloors,3\n2,6\n", "line 2, column 3: a floor is missing: the first row has 2 pans"),
        ("4,4\nfloors\n2,6\n", "line 2, column 2: a floor is missing: the first row has 2 pans"),
        ("4,4\nfloors,3,0,0\n2,6\n", "line 2, column 4: the first row has no pan here"),
        ("4,4\nfloors,3,0\n", "line 3, column 1: no raker: one row a raker follows the floors"),
        (
            "floors,3,0\n4,4\n2,6\n",
            "line 1, column 1: a row of floors is the second row, next to the starting rents in the first",
        ),
        (
            "4,4\n2,6\nfloors,3,0\n",
            "line 3, column 1: a row of floors is the second row, next to the starting rents in the first",
        ),
        (
            "4,4\nfloors,3,0\nFloor,3,0\n2,6\n",
            "line 3, column 1: a row of floors is the second row, next to the starting rents in the first",
        ),
        ("4,4\n\nfloors,3,0\n2,6\n", "line 2, column 1: this line is empty, and rows follow it"),
        ("4,4\nfloors,3;0\n2,6\n", "line 2, column 3: a floor is missing: the first row has 2 pans"),
        ("4,\nfloors,3,0\n2,6\n", "line 1, column 2: no starting rent: write 0 for none"),
        ("4,4,\nfloors,3,0\n2,\n", "line 3, column 2: no bid: write one, or 0: does not want this pan"),
        ("4,4,\nfloors,3,0\n2,6,1\n", "line 3, column 3: the first row has no pan here"),
        ("4,4\nfloor rents,3,0\n2,6\n", "line 2, column 3: the first row has no pan here"),
        (&rakers, "line 67, column 1: a letting has at most 64 rakers"),
    ] {
        assert_eq!(bid_sheet(table.as_bytes()).unwrap_err().to_string(), said, "{table:?}");
    }
}

fn tool(words: &[&str], file: &Path) -> Output {
    Command::new(env!("CARGO_BIN_EXE_sheet-tool")).args(words).arg(file).output().expect("the tool runs")
}

/// `make` says in a line that not every command takes the sheet, and nothing where there are no floors.
#[test]
fn what_make_says() {
    let said = "this sheet has floors: ./run show and ./run path take it; ./run SHEET and ./run reasons let without floors, and turn it down\n";
    for (name, said) in [("floors", said), ("example-6", "")] {
        let done = tool(&["make"], &example(&format!("{name}.csv")));
        assert_eq!(String::from_utf8_lossy(&done.stdout), text(&format!("{name}.sheet")));
        assert_eq!((String::from_utf8_lossy(&done.stderr).as_ref(), done.status.code()), (said, Some(0)));
    }
}
