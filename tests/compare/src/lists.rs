//! Live lists through the program `live_console`, with floors and without: many lists in one run, each from an opening of its own.

use crate::program::run;
use crate::sheets::text;
use crate::Tally;
use model::console::{line, opening_above_line, opening_line, Console, LONGEST};
use model::generate::{calls, live_sheet, live_sheet_above, Reporting};
use model::live::{Answer, Call};
use model::machine::Machine;
use model::random::Random;
use model::sheet::LONGEST_LIVE;
use model::Sheet;

/// The lists of one run of the program.
const BATCH: usize = 100;

/// A line that is no order, or an order that is refused; among lists with floors now and then an opening with some.
fn damaged(good: &str, floors: bool, r: &mut Random) -> Vec<u8> {
    let mut bytes = good.as_bytes().to_vec();
    match r.within(0, if floors { 10 } else { 8 }) {
        0 => bytes.clear(),
        1 => bytes.push(*r.pick(b"0f \r")),
        2 => {
            bytes.pop();
        }
        3 => bytes[0] = *r.pick(b"OREqx 0"),
        4 => {
            let at = r.within(0, bytes.len() - 1);
            bytes[at] = *r.pick(b"GA\x80 \0");
        }
        5 => bytes = format!("o{:02x}{:02x}", r.pick(&[0, 1, 33, 255]), r.pick(&[0, 1, 41, 255])).into_bytes(),
        6 => bytes = format!("o01{:02x}{:04x}", r.within(1, 3), r.pick(&[0u16, 4_095, 4_096, 65_535])).into_bytes(),
        7 => bytes = format!("r{:02x}{:02x}{:08x}", r.within(0, 70), r.within(0, 3), r.draw() as u32).into_bytes(),
        8 => bytes = (0..r.within(1, 20)).map(|_| *r.pick(b"orecs0123456789abcdef")).collect(),
        9 => {
            let amounts = "0001".repeat(r.within(0, 5));
            bytes = format!("f{:02x}{:02x}{amounts}", r.pick(&[0, 1, 2, 33]), r.pick(&[0, 1, 41])).into_bytes();
        }
        _ => {
            let (start, floor) = (*r.pick(&[0u16, 7, 4_095, 4_096]), *r.pick(&[0u16, 7, 8, 4_096, 65_535]));
            bytes = opening_above_line(1, r.within(1, 3) as u32, &[start], &[floor]).into_bytes();
        }
    }
    bytes.retain(|&b| b != b'\n');
    bytes
}

/// Whether a line is an opening, by its letter.
fn opens(line: &[u8]) -> bool {
    matches!(line.first(), Some(b'o' | b'f'))
}

/// The lines of a list: its opening and its calls, now and then a damaged line between them.
fn lines(s: &Sheet, floors: bool, list: &[Call], damage: bool, r: &mut Random) -> Vec<Vec<u8>> {
    let opening = if floors {
        opening_above_line(s.items as u32, s.bidders as u32, &s.start, &s.floors)
    } else {
        opening_line(s.items as u32, s.bidders as u32, &s.start)
    };
    let mut lines = vec![opening.clone().into_bytes()];
    for &call in list {
        let order = line(call);
        if damage && r.one_in(12) {
            let other = damaged(if r.one_in(3) { &opening } else { &order }, floors, r);
            let opens = opens(&other);
            lines.push(other);
            // An opening that is refused changes nothing, one that is not begins another auction: after half of them the list opens again.
            if opens && r.one_in(2) {
                lines.push(opening.clone().into_bytes());
            }
        }
        lines.push(order.into_bytes());
    }
    lines
}

/// Document 01's claim on the list, between the plain machine and what the console answers: as long as the machine stays on the
/// sheet, each answer is the machine's. `None` where it leaves it.
fn by_machine(s: &Sheet, list: &[Call]) -> Option<Vec<String>> {
    let mut machine = Machine::new(s);
    let digits = |m: &Machine| m.prices().iter().map(|p| format!("{p:04x}")).collect::<String>();
    let mut written = vec![format!("00{}\n", digits(&machine))];
    for &call in list {
        written.push(match machine.call(call)? {
            Answer::Refused(number) => format!("{number:02}\n"),
            Answer::Done => "00\n".into(),
            Answer::Moved(kind, set) => format!("00{:02x}{set:08x}{}\n", kind as u8 + 1, digits(&machine)),
            Answer::Closed => format!("000300000000{}\n", digits(&machine)),
            Answer::Sheet(bytes) => format!("00\n{}", String::from_utf8_lossy(&bytes)),
        });
    }
    Some(written)
}

/// A list: what goes in, and what is to come out after each line.
pub struct List {
    lines: Vec<Vec<u8>>,
    answers: Vec<String>,
    /// What the plain machine answers, if it stays on the sheet; the same as the record's, or it is a fault.
    machine: Option<bool>,
}

impl List {
    fn new(lines: Vec<Vec<u8>>) -> List {
        let mut console = Console::new();
        let answers = lines.iter().map(|l| console.answer(l)).collect();
        List { lines, answers, machine: None }
    }
}

fn list(k: usize, floors: bool, r: &mut Random) -> List {
    let s = if floors { live_sheet_above(r) } else { live_sheet(r) };
    let reporting = if k % 2 == 0 { Reporting::BySheet } else { Reporting::Wild };
    // The console lends enough room for every close.
    let room = |call: Call| if matches!(call, Call::Read { .. }) { Call::Read { room: LONGEST_LIVE } } else { call };
    let calls: Vec<Call> = calls(&s, reporting, 250, r).into_iter().map(room).collect();
    let damage = k % 3 == 0;
    let mut list = List::new(lines(&s, floors, &calls, damage, r));
    if k % BATCH == 0 {
        // The program has just started: nothing is open yet.
        let early = list.lines.iter().skip(1).take(8).cloned().collect::<Vec<_>>();
        return List::new([early, list.lines].concat());
    }
    if !damage {
        list.machine = by_machine(&s, &calls).map(|by| by == list.answers);
    }
    list
}

/// Lines before any opening, when the record is the one of zeros and every call on it gives 11; openings with too many starting
/// prices and floors, and with too many bidders, among them as many as a sealed auction takes; lines as long as the program takes, and longer.
fn edges() -> List {
    let opening = |letter: char, bidders: u32, count: usize| format!("{letter}20{bidders:02x}{}", "0000".repeat(count));
    let texts = ["e", "c", "s", "r010100000000", "x", "", "f", "f2028"].map(String::from);
    let long = [32, 31, 33, 34, 1_000, (LONGEST - 5) / 4, 2_000].map(|count| opening('o', 40, count));
    let floors = [64, 63, 65, 32, 33, 1_000, (LONGEST - 5) / 4, 2_000].map(|count| opening('f', 40, count));
    let crowds = [39, 40, 41, 63, 64, 65].map(|bidders| [opening('o', bidders, 32), opening('f', bidders, 64)]).concat();
    let letters = [LONGEST, LONGEST + 1, 10_000].map(|n| "e".repeat(n));
    let all = [&texts[..], &long[..], &floors[..], &crowds[..], &letters[..], &texts[..]].concat();
    List::new(all.into_iter().map(String::into_bytes).collect())
}

fn written(input: &[u8]) -> String {
    match run("live_console", input) {
        Ok(bytes) => String::from_utf8_lossy(&bytes).into_owned(),
        Err(error) => format!("(it did not run: {error})"),
    }
}

/// Runs the program on some lists, one after the other, and compares list by list. Each list but the first opens.
fn compare(lists: &[List], tally: &mut Tally) {
    let input: Vec<u8> = lists.iter().flat_map(|l| &l.lines).flat_map(|l| [&l[..], b"\n"].concat()).collect();
    let written = written(&input);
    let mut rest = &written[..];
    for l in lists {
        let expected = l.answers.concat();
        let same = rest.starts_with(&expected);
        tally.expect(same && l.machine != Some(false), || {
            let orders: Vec<_> = l.lines.iter().map(|x| text(x)).collect();
            let begun: String = rest.chars().take(expected.len()).collect();
            format!("live list: {:?}\nexpected {expected:?}, machine {:?}\nwritten {begun:?}", orders.join(" "), l.machine)
        });
        rest = if same { &rest[expected.len()..] } else { "" };
    }
    tally.expect(rest.is_empty(), || format!("live_console wrote more: {:?}", rest.chars().take(200).collect::<String>()));
}

/// The lists that a seed makes, without floors or with them.
fn made(count: u64, floors: bool, seed: u64) -> Vec<List> {
    let mut r = Random::new(seed.wrapping_add(if floors { 8 } else { 4 }));
    (0..count as usize).map(|k| list(k, floors, &mut r)).collect()
}

/// Lists that are opened with floors.
pub fn above(count: u64, seed: u64) -> Tally {
    let mut tally = Tally::default();
    made(count, true, seed).chunks(BATCH).for_each(|batch| compare(batch, &mut tally));
    tally
}

pub fn all(count: u64, seed: u64) -> Tally {
    let mut tally = Tally::default();
    compare(&[edges()], &mut tally);
    made(count, false, seed).chunks(BATCH).for_each(|batch| compare(batch, &mut tally));
    tally.expect(written(b"e\ns") == "11\n11\n", || "a last line without a newline is a line too".into());
    tally.expect(written(b"").is_empty(), || "no line, no answer".into());
    tally
}

#[cfg(test)]
mod tests {
    use super::*;
    use crate::{LISTS, SEED};

    /// The lists of the run in which nothing else is said try what they are meant to: they give every number that a console can
    /// give, have every kind of round, read closes, and stay on many sheets. How often a few lists of another seed do so is chance.
    #[test]
    fn the_lists_reach_everything() {
        reach(&made(LISTS, false, SEED), &[]);
        reach(&made(LISTS / 2, true, SEED), &["18"]);
    }

    fn reach(lists: &[List], more: &[&str]) {
        let times = |start: &str| lists.iter().flat_map(|l| &l.answers).filter(|a| a.starts_with(start)).count();
        let numbers = ["01", "02", "03", "04", "06", "07", "08", "11", "12", "13", "14", "15", "19"];
        for start in numbers.iter().chain(&["0001", "0002", "0003", "00\n0"]).chain(more) {
            assert!(times(start) >= 40, "only {} answers start with {start:?}", times(start));
        }
        // The console brings the tables as they were left, from the opening on.
        assert_eq!(["16", "17"].map(times), [0, 0]);
        let stayed = lists.iter().filter(|l| l.machine.is_some()).count();
        assert!(stayed * 5 > lists.len(), "the machine stayed on {stayed} sheets only");
        // Calls that follow an opening which was refused, in an auction that is open.
        let kept = |l: &List| {
            l.lines.windows(2).zip(l.answers.windows(2)).any(|(line, answer)| {
                opens(&line[0]) && !answer[0].starts_with("00") && answer[1].starts_with("00") && !opens(&line[1])
            })
        };
        let kept = lists.iter().filter(|l| kept(l)).count();
        assert!(kept >= 40, "only {kept} lists go on after an opening that was refused");
    }
}
