//! Bid sheets and closing sheets as bytes. A sheet is read here by taking it apart into lines first, unlike the proved reader,
//! which goes from byte to byte.

use crate::{flows, sealed_refusal, Closing, Sheet, BIDDERS, ITEMS, LIVE_BIDDERS};

/// The value of lower-case hexadecimal digits, if they are just these.
pub fn number(digits: &[u8]) -> Option<u32> {
    let text = std::str::from_utf8(digits).ok()?;
    let lower = text.chars().all(|c| matches!(c, '0'..='9' | 'a'..='f'));
    lower.then(|| u32::from_str_radix(text, 16).ok())?
}

/// Numbers of four digits each, exactly `count` of them.
pub fn numbers(digits: &[u8], count: usize) -> Option<Vec<u16>> {
    if digits.len() != 4 * count {
        return None;
    }
    digits.chunks(4).map(|d| number(d).map(|x| x as u16)).collect()
}

/// The length of a sealed auction's closing sheet.
pub const fn closing_length(items: usize, bidders: usize) -> usize {
    16 + 4 * items + 6 * bidders
}

/// The length of what a live read gives.
pub const fn live_length(items: usize, bidders: usize) -> usize {
    15 + 4 * items + 2 * bidders
}

/// The most that it can be.
pub const LONGEST_LIVE: usize = live_length(ITEMS, LIVE_BIDDERS);

/// What a bid sheet says, with any amounts of four digits: 6 for the first four bytes, then 1, 2, then 6 for the rest.
pub fn read(bytes: &[u8]) -> Result<Sheet, u8> {
    let counts = bytes.get(..4).ok_or(6)?;
    let items = number(&counts[..2]).ok_or(6)? as usize;
    let bidders = number(&counts[2..]).ok_or(6)? as usize;
    if !(1..=ITEMS).contains(&items) {
        return Err(1);
    }
    if !(1..=BIDDERS).contains(&bidders) {
        return Err(2);
    }
    let body = bytes[4..].strip_suffix(b"\n").ok_or(6)?;
    let lines: Vec<&[u8]> = body.split(|&b| b == b'\n').collect();
    if lines.len() != 1 + bidders {
        return Err(6);
    }
    let rows: Vec<Vec<u16>> = lines.iter().map(|l| numbers(l, items)).collect::<Option<_>>().ok_or(6)?;
    Ok(Sheet::of(rows[0].clone(), bidders, rows[1..].concat()))
}

/// Four digits for each amount.
pub fn digits(amounts: &[u16]) -> String {
    amounts.iter().map(|x| format!("{x:04x}")).collect()
}

/// The bytes of a bid sheet, which say nothing of floors.
pub fn write(sheet: &Sheet) -> Vec<u8> {
    let mut text = format!("{:02x}{:02x}{}\n", sheet.items, sheet.bidders, digits(&sheet.start));
    for bids in sheet.bids.chunks(sheet.items) {
        text += &format!("{}\n", digits(bids));
    }
    text.into_bytes()
}

/// The three lines that a live read gives.
pub fn write_live(raised: u32, lowered: u32, prices: &[u16], names: &[u8]) -> Vec<u8> {
    let names: String = names.iter().map(|x| format!("{x:02x}")).collect();
    format!("{raised:06x}{lowered:06x}\n{}\n{names}\n", digits(prices)).into_bytes()
}

/// The four lines of a sealed auction's closing sheet: those of a live read, and the gains.
pub fn write_closing(c: &Closing) -> Vec<u8> {
    let gains = digits(&c.gains) + "\n";
    [write_live(c.raised, c.lowered, &c.prices, &c.names), gains.into_bytes()].concat()
}

/// The closing sheet of a bid sheet, or its refusal, where `room` bytes are lent for it: 6, 1, 2, 6, 3, 4, 5.
pub fn close(bytes: &[u8], room: usize) -> Result<Vec<u8>, u8> {
    let sheet = read(bytes)?;
    if room < closing_length(sheet.items, sheet.bidders) {
        return Err(3);
    }
    match sealed_refusal(sheet.items as u32, sheet.bidders as u32, &sheet.start, &sheet.bids) {
        Some(number) => Err(number),
        None => Ok(write_closing(&flows::close(&sheet))),
    }
}
