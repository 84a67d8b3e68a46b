//! The tools for people: `show`, `path` and `make`.

use dewgneiss::csv::bid_sheet;
use dewgneiss::table::show;
use dewgneiss::{path, Order};
use std::fs::File;
use std::path::Path;
use std::process::{Command, Output, Stdio};

fn example(name: &str) -> Vec<u8> {
    std::fs::read(Path::new(env!("CARGO_MANIFEST_DIR")).join("../../examples").join(name)).expect("an example")
}

/// The orders, with what stands before the kind of their examples.
const ORDERS: [(Order, &str); 2] = [(Order::RisingFirst, ""), (Order::FallingFirst, "falling-")];

#[test]
fn the_examples_are_shown() {
    for name in ["example-6", "floors"] {
        let sheet = example(&format!("{name}.sheet"));
        for (order, before) in ORDERS {
            let [shown, rounds] = [show(&sheet, order), path::show(&sheet, order)].map(|shown| shown.unwrap().into_bytes());
            assert_eq!(shown, example(&format!("{name}.{before}shown")), "{name}, {order:?}");
            assert_eq!(rounds, example(&format!("{name}.{before}path")), "{name}, {order:?}");
        }
    }
    assert_eq!(path::show(&example("k9.sheet"), Order::RisingFirst).unwrap().into_bytes(), example("k9.path"));
}

/// Which order takes fewer rounds stands in the second line, whichever is shown.
#[test]
fn the_orders_are_compared() {
    for (sheet, said) in [
        (example("example-6.sheet"), "Rising first takes fewer rounds: 4, against 6 falling first."),
        (b"020200000001\n00010000\n00010001\n".to_vec(), "Falling first takes fewer rounds: 1, against 2 rising first."),
        (example("floors.sheet"), "Rising first and falling first take equally many rounds: 4."),
        (example("k5.sheet"), "Rising first and falling first take equally many rounds: 0."),
    ] {
        for (order, _) in ORDERS {
            for shown in [show(&sheet, order), path::show(&sheet, order)] {
                assert_eq!(shown.unwrap().lines().nth(1), Some(said));
            }
        }
    }
}

/// Two equal rounds have a row each, three are drawn together; a set has its runs of pans named from first to last.
#[test]
fn long_runs_are_drawn_together() {
    let shown = |sheet: &str| path::show(sheet.as_bytes(), Order::RisingFirst).unwrap();
    let rows = |sheet: &str| shown(sheet).lines().skip(6).map(String::from).collect::<Vec<_>>();
    assert_eq!(
        rows("01020000\n0002\n0002\n"),
        ["     1  pan 1 up, 0 to 1          2 for 1      1", "     2  pan 1 up, 1 to 2          2 for 1      2"]
    );
    assert_eq!(rows("01020000\n0003\n0003\n"), ["1 to 3  pan 1 up, 0 to 3          2 for 1      3"]);
    assert_eq!(rows("01010000\n0000\n"), [""; 0]);
    let three = rows("04010003000300000003\n0000000000090000\n");
    assert_eq!(three, ["1 to 3  pans 1-2, 4 down by 3          0 for 3      0      0      0      0"]);
}

/// Every example's rounds lead from its starting rents to its closing rents, in either order.
#[test]
fn the_rounds_lead_to_the_close() {
    for name in ["example-6", "k4", "k6", "k7", "k9"] {
        let closing = String::from_utf8(example(&format!("{name}.closing"))).unwrap();
        let rents: Vec<u64> = closing.lines().nth(1).unwrap().as_bytes().chunks(4).map(hex).collect();
        for (order, _) in ORDERS {
            let shown = path::show(&example(&format!("{name}.sheet")), order).unwrap();
            let last = shown.lines().last().unwrap().split_whitespace().rev().take(rents.len());
            let last: Vec<u64> = last.map(|x| x.parse().unwrap()).collect();
            assert!(last.iter().rev().eq(&rents), "{name}: {shown}");
        }
    }
}

fn hex(digits: &[u8]) -> u64 {
    u64::from_str_radix(std::str::from_utf8(digits).unwrap(), 16).unwrap()
}

#[test]
fn the_reasons_of_the_examples() {
    for name in ["example-6", "k4", "k9"] {
        let lines = dewgneiss::reason_sheet(&example(&format!("{name}.sheet")));
        assert_eq!(lines, Ok(example(&format!("{name}.reasons"))), "{name}");
    }
    for name in ["k5", "k8"] {
        assert_eq!(dewgneiss::reasons(&example(&format!("{name}.sheet"))), Ok(Vec::new()), "{name}");
    }
    let k6 = dewgneiss::reasons(&example("k6.sheet")).unwrap();
    assert!(k6.len() == 4095 && k6.iter().all(|r| (r.kind, r.items, r.bidders) == (dewgneiss::Kind::Raised, 1, 3)));
}

#[test]
fn every_example_closes_as_it_says() {
    for name in ["example-6", "k4", "k5", "k6", "k7", "k8", "k9"] {
        let closing = dewgneiss::close_sheet(&example(&format!("{name}.sheet")));
        assert_eq!(closing, Ok(example(&format!("{name}.closing"))), "{name}");
        assert!(ORDERS.iter().all(|(order, _)| show(&example(&format!("{name}.sheet")), *order).is_ok()), "{name}");
    }
}

#[test]
fn a_bad_sheet_is_not_shown() {
    for (order, _) in ORDERS {
        let said = show(b"0101", order).unwrap_err().to_string();
        assert!(said.starts_with("turned down with 06: these bytes are not a bid sheet"), "{said}");
        for shown in [show(b"01010000\n1000\n", order), path::show(b"01010000\n1000\n", order)] {
            let said = shown.unwrap_err().to_string();
            assert!(said.starts_with("turned down with 05: a bid is above 4,095"), "{said}");
        }
    }
    assert_eq!(dewgneiss::reasons(b"2101").unwrap_err().number(), 1);
}

#[test]
fn a_table_becomes_a_sheet() {
    assert_eq!(bid_sheet(&example("example-6.csv")).unwrap().into_bytes(), example("example-6.sheet"));
    for same in [
        "4,4\n2,6\n3,7\n6,7",
        "4;4\r\n2;6\r\n3;7\r\n6;7\r\n\r\n",
        "\u{feff}4\t4\n2\t6\n3\t7\n6\t7\n",
        "\"4\", 4\n2 ,6\n3,7\n6,\"7\"\n\n",
    ] {
        assert_eq!(bid_sheet(same.as_bytes()).unwrap().into_bytes(), example("example-6.sheet"), "{same:?}");
    }
}

#[test]
fn what_is_wrong_with_a_table_is_named() {
    let many = vec!["0"; 33].join(",");
    let rows = "0\n".repeat(66);
    for (table, said) in [
        ("", "line 1, column 1: the table is empty: the first row has the starting rents"),
        ("4,4\n", "line 2, column 1: no raker: one row a raker follows the starting rents"),
        ("4,4\n2\n", "line 2, column 2: a bid is missing: the first row has 2 pans"),
        ("4,4\n2,6,1\n", "line 2, column 3: the first row has no pan here"),
        ("4,4\n2,\n", "line 2, column 2: no bid: write one, or 0: does not want this pan"),
        (",4\n2,6\n", "line 1, column 1: no starting rent: write 0 for none"),
        ("4,4\n2,x\n", "line 2, column 2: 'x' is no bid: whole crowns are wanted, digits only"),
        ("4,4\n2,-6\n", "line 2, column 2: '-6' is no bid: whole crowns are wanted, digits only"),
        ("4,4\n2.5,6\n", "line 2, column 1: '2.5' is no bid: whole crowns are wanted, digits only"),
        ("4096,4\n2,6\n", "line 1, column 1: starting rent 4096 is above 4,095"),
        ("4,4\n2,99999999999999999999\n", "line 2, column 2: bid 99999999999999999999 is above 4,095"),
        ("4,4\n\n2,6\n", "line 2, column 1: this line is empty, and rows follow it"),
        ("4,4\n2,\u{1b}[2J\n", "line 2, column 2: '\\u{1b}[2J' is no bid: whole crowns are wanted, digits only"),
        (
            "4,4\n2,a long story that goes on\n",
            "line 2, column 2: 'a long story that go…' is no bid: whole crowns are wanted, digits only",
        ),
        (&many, "line 1, column 33: a letting has at most 32 pans"),
        (&rows, "line 66, column 1: a letting has at most 64 rakers"),
    ] {
        assert_eq!(bid_sheet(table.as_bytes()).unwrap_err().to_string(), said);
    }
    assert_eq!(bid_sheet(b"\xff").unwrap_err().to_string(), "line 1, column 1: this is not text: save the table as CSV in UTF-8");
}

/// The limits themselves are fine: 32 pans, 64 rakers, 4,095.
#[test]
fn the_largest_table() {
    let row = vec!["4095"; 32].join(",") + "\n";
    let sheet = bid_sheet(row.repeat(65).as_bytes()).unwrap();
    assert!(sheet.starts_with("20400fff"));
    assert_eq!(sheet.len(), 8_389);
    assert!(dewgneiss::close_sheet(sheet.as_bytes()).is_ok());
}

/// The longest bid sheet is as long as the wrapper says.
#[test]
fn the_longest_sheet() {
    assert_eq!(dewgneiss::LONGEST_SHEET, 5 + 4 * 32 + 64 * (4 * 32 + 1));
}

fn tool(words: &[&str], input: &str) -> Output {
    let from = File::open(input).expect("an input");
    Command::new(env!("CARGO_BIN_EXE_sheet-tool")).args(words).stdin(from).output().expect("the tool runs")
}

/// The option stands before or after the file; there is no other, and `make` has none. What is misused ends with status 2.
#[test]
fn the_option_of_the_tool() {
    let sheet = &format!("{}/../../examples/example-6.sheet", env!("CARGO_MANIFEST_DIR"));
    for (verb, kind) in [("show", "falling-shown"), ("path", "falling-path")] {
        for words in [[verb, "--falling", sheet], [verb, sheet, "--falling"], [verb, "--falling", "-"], [verb, "-", "--falling"]]
        {
            let done = tool(&words, sheet);
            assert_eq!((done.status.code(), done.stdout), (Some(0), example(&format!("example-6.{kind}"))), "{words:?}");
        }
    }
    for words in [
        &["show", "--rising", sheet][..],
        &["path", sheet, "-f"],
        &["show", "--falling", "--rising", sheet],
        &["show", "--falling"],
        &["make", "--falling", sheet],
        &["path", sheet, sheet],
        &[],
    ] {
        let done = tool(words, "/dev/null");
        let said = String::from_utf8_lossy(&done.stderr).into_owned();
        assert!(
            done.status.code() == Some(2) && said.starts_with("usage: sheet-tool show [--falling] SHEET"),
            "{words:?}: {said}"
        );
    }
}

/// An input without end is not read to its end.
#[test]
fn an_endless_input() {
    for (verb, input, said) in [
        ("show", "/dev/zero", "turned down with 06: these bytes are not a bid sheet"),
        ("path", "/dev/zero", "turned down with 06: these bytes are not a bid sheet"),
        ("make", "/dev/zero", "-: line 1, column 1: this is more than a table of 32 pans and 64 rakers can be"),
        ("make", "/dev/null", "-: line 1, column 1: the table is empty"),
    ] {
        let done = tool(&[verb, "-"], input);
        let words = String::from_utf8_lossy(&done.stderr).into_owned();
        assert!(done.status.code() == Some(1) && done.stdout.is_empty() && words.starts_with(said), "{verb} {input}: {words}");
    }
}

/// A sheet with bytes behind it is judged as the program judges it: by its first four bytes, then as a whole.
#[test]
fn a_sheet_that_is_too_long() {
    let row = vec!["0"; 32].join(",") + "\n";
    let full = bid_sheet(row.repeat(65).as_bytes()).unwrap();
    for (sheet, said) in [
        (full.clone() + "\n", "turned down with 06"),
        (full.clone() + &full, "turned down with 06"),
        ("21".to_string() + &full, "turned down with 01"),
    ] {
        assert!(show(sheet.as_bytes(), Order::RisingFirst).unwrap_err().to_string().starts_with(said));
    }
}

/// What cannot be written is said.
#[test]
fn a_lost_answer() {
    let full = File::options().write(true).open("/dev/full").expect("a full device");
    let done = Command::new(env!("CARGO_BIN_EXE_sheet-tool"))
        .arg("show")
        .arg(Path::new(env!("CARGO_MANIFEST_DIR")).join("../../examples/k4.sheet"))
        .stdout(full)
        .stderr(Stdio::piped())
        .output()
        .expect("the tool runs");
    assert_eq!(done.status.code(), Some(2));
    assert!(String::from_utf8_lossy(&done.stderr).starts_with("the answer could not be written"));
}
