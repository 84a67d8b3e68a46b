//! A closing for people: tables in decimal.

use crate::accepted::Accepted;
use crate::turn::turn_of;
use crate::Order;
use std::cmp::Ordering;
use std::error::Error;
use std::fmt::Write;

/// The first lines of a table: the counts, whether there are floors, the order and its rounds; and which order takes fewer.
pub(crate) fn counted(sheet: &Accepted) -> Result<String, std::fmt::Error> {
    let mut out = String::new();
    let count = |n: usize, word: &str| format!("{n} {word}{}", if n == 1 { "" } else { "s" });
    let (items, bidders) = (count(sheet.start.len(), "pan"), count(sheet.bidders(), "raker"));
    let floors = if sheet.has_floors { ", with floors" } else { "" };
    let [raised, lowered] = [sheet.closing.raised, sheet.closing.lowered].map(|n| count(n as usize, "round"));
    let rounds = match sheet.order {
        Order::RisingFirst => format!("rising first; {raised} raised, {lowered} lowered"),
        Order::FallingFirst => format!("falling first; {lowered} lowered, {raised} raised"),
    };
    writeln!(out, "{items}, {bidders}{floors}, {rounds}.\n{}\n", compared(sheet.rounds))?;
    Ok(out)
}

/// Which order takes fewer rounds.
fn compared([rising, falling]: [u32; 2]) -> String {
    match rising.cmp(&falling) {
        Ordering::Less => format!("Rising first takes fewer rounds: {rising}, against {falling} falling first."),
        Ordering::Equal => format!("Rising first and falling first take equally many rounds: {rising}."),
        Ordering::Greater => format!("Falling first takes fewer rounds: {falling}, against {rising} rising first."),
    }
}

/// The tables for a bid sheet in this order, with a column of floors where it has a line of them; an error where it is turned down.
pub fn show(bytes: &[u8], order: Order) -> Result<String, Box<dyn Error>> {
    let sheet = Accepted::read(bytes, order)?;
    let turn = turn_of(order, &sheet.start, &sheet.floors, &sheet.bids, &sheet.closing)?;
    Ok(written(&sheet, &turn)?)
}

fn written(sheet: &Accepted, turn: &[u16]) -> Result<String, std::fmt::Error> {
    let Accepted { start, floors, has_floors, bids, closing, .. } = sheet;
    let items = start.len();
    let mut out = counted(sheet)?;
    let (head, nobody) = if *has_floors { ("  floor", "nobody, at its floor") } else { ("", "nobody") };
    writeln!(out, "  pan{head}  start   turn  close  let to")?;
    for i in 0..items {
        let who = closing.names.iter().position(|&n| n as usize == i + 1);
        let who = who.map_or(nobody.to_string(), |b| format!("raker {}", b + 1));
        let floor = if *has_floors { format!("{:7}", floors[i]) } else { String::new() };
        writeln!(out, "{:5}{floor}{:7}{:7}{:7}  {who}", i + 1, start[i], turn[i], closing.prices[i])?;
    }
    writeln!(out, "\nraker    pan    bid   rent   gain")?;
    for (b, line) in bids.chunks(items).enumerate() {
        let gain = closing.gains[b];
        match closing.names[b] as usize {
            0 => writeln!(out, "{:5}   none      -      -{gain:7}", b + 1)?,
            item => {
                let (bid, price) = (line[item - 1], closing.prices[item - 1]);
                writeln!(out, "{:5}{item:7}{bid:7}{price:7}{gain:7}", b + 1)?;
            }
        }
    }
    Ok(out)
}
