//! A bid sheet from a spreadsheet's table: the first row has the starting prices, each further row a bidder's bids. The second row may have floors: then its first
//! cell is the word `floors`, and a floor for each item follows.

use crate::accepted::written;
use crate::{BIDDERS, ITEMS, TOP};
use std::fmt;

/// The bytes that a table may have. The largest, 66 rows of 32 amounts, takes about a fifth of that.
pub const LONGEST_TABLE: usize = 65_536;

/// What is wrong with a table, and where: lines and columns as the spreadsheet counts them, from 1.
#[derive(Clone, Debug, PartialEq, Eq)]
pub struct Fault {
    pub line: usize,
    pub column: usize,
    pub what: String,
}

impl fmt::Display for Fault {
    fn fmt(&self, f: &mut fmt::Formatter<'_>) -> fmt::Result {
        write!(f, "line {}, column {}: {}", self.line, self.column, self.what)
    }
}

impl std::error::Error for Fault {}

fn fault<T>(line: usize, column: usize, what: impl Into<String>) -> Result<T, Fault> {
    Err(Fault { line, column, what: what.into() })
}

/// What a row has.
#[derive(Clone, Copy, PartialEq, Eq)]
enum Row {
    Start,
    Floors,
    Bids,
}

impl Row {
    /// One of its amounts.
    fn word(self) -> &'static str {
        match self {
            Row::Start => "starting rent",
            Row::Floors => "floor",
            Row::Bids => "bid",
        }
    }

    /// What to do about an empty cell.
    fn mend(self) -> &'static str {
        match self {
            Row::Start | Row::Floors => "write 0 for none",
            Row::Bids => "write one, or 0: does not want this pan",
        }
    }
}

/// A cell without the blanks and quotes around it.
fn bare(cell: &str) -> &str {
    let cell = cell.trim();
    cell.strip_prefix('"').and_then(|c| c.strip_suffix('"')).unwrap_or(cell).trim()
}

const SEPARATORS: [char; 3] = [',', ';', '\t'];

/// Whether a row is marked as one of floors: by the word in its first cell.
fn has_mark(row: &str) -> bool {
    let first = row.split(SEPARATORS).next().map_or("", bare);
    ["floors", "floor"].iter().any(|word| first.eq_ignore_ascii_case(word))
}

/// The row of floors.
fn floors(text: &str) -> Option<&str> {
    text.lines().nth(1).filter(|row| has_mark(row))
}

/// The separator: a semicolon or a tab where the first row has one, else a comma. The first row of a table of one pan has none, but that of floors has.
fn separator(text: &str) -> char {
    let first = text.lines().next().unwrap_or("");
    let row = if first.contains(SEPARATORS) { first } else { floors(text).unwrap_or("") };
    [';', '\t'].into_iter().find(|&c| row.contains(c)).unwrap_or(',')
}

/// A cell as it is named in a message: its start, with nothing in it that a terminal would act on.
fn named(cell: &str) -> String {
    let start: String = cell.chars().take(20).flat_map(char::escape_debug).collect();
    if cell.chars().count() > 20 {
        start + "…"
    } else {
        start
    }
}

/// An amount from 0 to 4,095.
fn amount(row: Row, cell: &str, line: usize, column: usize) -> Result<u16, Fault> {
    let (bare, what) = (bare(cell), row.word());
    if bare.is_empty() {
        return fault(line, column, format!("no {what}: {}", row.mend()));
    }
    if !bare.bytes().all(|b| b.is_ascii_digit()) {
        return fault(line, column, format!("'{}' is no {what}: whole crowns are wanted, digits only", named(bare)));
    }
    match bare.parse::<u16>() {
        Ok(value) if value <= TOP => Ok(value),
        _ => fault(line, column, format!("{what} {} is above 4,095", named(bare))),
    }
}

/// A table as far as it is read.
#[derive(Default)]
struct Table {
    start: Option<Vec<u16>>,
    floors: Option<Vec<u16>>,
    bids: Vec<Vec<u16>>,
}

impl Table {
    /// What the next row has, by whether it is marked as one of floors.
    fn kind(&self, marked: bool, line: usize) -> Result<Row, Fault> {
        match self {
            Table { start: None, .. } if !marked => Ok(Row::Start),
            Table { start: Some(_), floors: None, bids } if marked && bids.is_empty() => Ok(Row::Floors),
            _ if marked => fault(line, 1, "a row of floors is the second row, next to the starting rents in the first"),
            _ => Ok(Row::Bids),
        }
    }

    /// Takes the next row.
    fn add(&mut self, row: Row, cells: &[&str], line: usize) -> Result<(), Fault> {
        // The mark of a row of floors stands before its amounts.
        let before = usize::from(row == Row::Floors);
        let count = cells.len() - before;
        let items = self.start.as_ref().map_or(count.min(ITEMS), Vec::len);
        if count > items {
            let least = if row == Row::Start { "a letting has at most 32 pans" } else { "the first row has no pan here" };
            return fault(line, before + items + 1, least);
        }
        if count < items {
            let what = row.word();
            return fault(line, before + count + 1, format!("a {what} is missing: the first row has {items} pans"));
        }
        if self.bids.len() >= BIDDERS {
            return fault(line, 1, "a letting has at most 64 rakers");
        }
        let amounts = cells.iter().enumerate().skip(before).map(|(c, cell)| amount(row, cell, line, c + 1));
        let amounts: Vec<u16> = amounts.collect::<Result<_, _>>()?;
        match row {
            Row::Start => self.start = Some(amounts),
            Row::Floors => {
                self.meets(&amounts, line)?;
                self.floors = Some(amounts);
            }
            Row::Bids => self.bids.push(amounts),
        }
        Ok(())
    }

    /// No floor is above its starting price.
    fn meets(&self, floors: &[u16], line: usize) -> Result<(), Fault> {
        for (i, (floor, start)) in floors.iter().zip(self.start.iter().flatten()).enumerate() {
            if floor > start {
                let mend = "lower the floor, or raise the starting rent in line 1";
                return fault(line, i + 2, format!("floor {floor} is above its pan's starting rent {start}: {mend}"));
            }
        }
        Ok(())
    }

    /// The bid sheet of the whole table.
    fn sheet(self) -> Result<String, Fault> {
        let Some(start) = self.start else {
            return fault(1, 1, "the table is empty: the first row has the starting rents");
        };
        if self.bids.is_empty() {
            let (line, above) = if self.floors.is_some() { (3, "floors") } else { (2, "starting rents") };
            return fault(line, 1, format!("no raker: one row a raker follows the {above}"));
        }
        Ok(written(&start, self.floors.as_deref(), &self.bids.concat()))
    }
}

/// The cells of a row. Where there are floors their row has a cell more than the others, and a spreadsheet writes an empty one at the end of those.
fn cells(row: &str, separator: char, with_mark: Option<usize>) -> Vec<&str> {
    let mut cells: Vec<&str> = row.split(separator).collect();
    if Some(cells.len()) == with_mark && cells.last().is_some_and(|cell| bare(cell).is_empty()) && !has_mark(row) {
        cells.pop();
    }
    cells
}

/// The bid sheet of a table, with a line of floors where the table has a row of them.
pub fn bid_sheet(table: &[u8]) -> Result<String, Fault> {
    if table.len() > LONGEST_TABLE {
        return fault(1, 1, "this is more than a table of 32 pans and 64 rakers can be: at most 65,536 bytes are read");
    }
    let Ok(text) = std::str::from_utf8(table) else {
        return fault(1, 1, "this is not text: save the table as CSV in UTF-8");
    };
    let text = text.strip_prefix('\u{feff}').unwrap_or(text);
    let separator = separator(text);
    let with_mark = floors(text).map(|row| row.split(separator).count());
    let mut table = Table::default();
    let mut ended = None;
    for (k, row) in text.lines().enumerate() {
        let line = k + 1;
        if row.trim().is_empty() {
            ended = ended.or(Some(line));
            continue;
        }
        if let Some(empty) = ended {
            return fault(empty, 1, "this line is empty, and rows follow it");
        }
        let kind = table.kind(has_mark(row), line)?;
        table.add(kind, &cells(row, separator, with_mark), line)?;
    }
    table.sheet()
}
