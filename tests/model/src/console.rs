//! The lines of the console program: orders in, an answer for each out, the record and its tables kept between.
//!
//! `o` + 2 hexadecimal digits items + 2 bidders + 4 for each starting price opens; `f` is the same with 4 digits more for each floor, behind
//! all starting prices; `r` + 2 digits bidder + 01 or 00 for null + 8 digits item set reports; `e` ends the round; `c` clears; `s` reads the close. Anything else is 06, and so is any longer line
//! than the program takes. A line that is answered with a number other than 00 changes nothing, an opening included.

use crate::live::{Answer, Call, Held, Report};
use crate::sheet::{digits, number, numbers, LONGEST_LIVE};
use crate::Kind;

/// The longest line that the program looks at.
pub const LONGEST: usize = 4_096;

/// The program, with its record and its tables.
pub struct Console {
    pub held: Held,
}

impl Console {
    /// Before any opening the record is the one of zeros, which every call gives 11 on.
    pub fn new() -> Console {
        Console { held: Held::zeros() }
    }

    /// What is written after a line, the last newline included. The line comes without its newline.
    pub fn answer(&mut self, line: &[u8]) -> String {
        match line {
            _ if line.len() > LONGEST => "06\n".into(),
            [letter @ (b'o' | b'f'), rest @ ..] => self.opened(*letter == b'f', rest),
            b"e" => self.called(Call::End),
            b"c" => self.called(Call::Clear),
            b"s" => self.called(Call::Read { room: LONGEST_LIVE }),
            [b'r', rest @ ..] => match report(rest) {
                Some(call) => self.called(call),
                None => "06\n".into(),
            },
            _ => "06\n".into(),
        }
    }

    /// Of the numbers behind the counts, the first are starting prices, one for each item, and with floors the rest are these.
    fn opened(&mut self, floors: bool, rest: &[u8]) -> String {
        let Some((items, bidders, amounts)) = opening(rest) else {
            return "06\n".into();
        };
        let opened = if floors {
            let (start, floors) = amounts.split_at(amounts.len().min(items as usize));
            Held::open_above(items, bidders, start, floors)
        } else {
            Held::open(items, bidders, &amounts)
        };
        match opened {
            Ok(held) => {
                self.held = held;
                format!("00{}\n", digits(self.held.record.prices()))
            }
            Err(number) => format!("{number:02}\n"),
        }
    }

    fn called(&mut self, call: Call) -> String {
        let answer = self.held.call(call);
        let prices = digits(self.held.record.prices());
        match answer {
            Answer::Refused(number) => format!("{number:02}\n"),
            Answer::Done => "00\n".into(),
            Answer::Moved(Kind::Raised, set) => format!("0001{set:08x}{prices}\n"),
            Answer::Moved(Kind::Lowered, set) => format!("0002{set:08x}{prices}\n"),
            Answer::Closed => format!("000300000000{prices}\n"),
            Answer::Sheet(bytes) => format!("00\n{}", String::from_utf8(bytes).expect("digits and newlines")),
        }
    }
}

impl Default for Console {
    fn default() -> Console {
        Console::new()
    }
}

fn opening(rest: &[u8]) -> Option<(u32, u32, Vec<u16>)> {
    let (counts, amounts) = rest.split_at_checked(4)?;
    Some((number(&counts[..2])?, number(&counts[2..])?, numbers(amounts, amounts.len() / 4)?))
}

fn report(rest: &[u8]) -> Option<Call> {
    if rest.len() != 12 {
        return None;
    }
    let bidder = number(&rest[..2])?;
    let null = match &rest[2..4] {
        b"00" => false,
        b"01" => true,
        _ => return None,
    };
    let items = number(&rest[4..])?;
    Some(Call::Report { bidder, report: Report { null, items } })
}

/// The line of an opening.
pub fn opening_line(items: u32, bidders: u32, start: &[u16]) -> String {
    format!("o{items:02x}{bidders:02x}{}", digits(start))
}

/// The line of an opening with floors.
pub fn opening_above_line(items: u32, bidders: u32, start: &[u16], floors: &[u16]) -> String {
    format!("f{items:02x}{bidders:02x}{}{}", digits(start), digits(floors))
}

/// The line of a call.
pub fn line(call: Call) -> String {
    match call {
        Call::Report { bidder, report } => format!("r{bidder:02x}{:02x}{:08x}", u8::from(report.null), report.items),
        Call::End => "e".into(),
        Call::Clear => "c".into(),
        Call::Read { .. } => "s".into(),
    }
}
