//! What `./run show`, `./run path` and `./run make` call: `sheet-tool show FILE`, and so on; `-` is standard input. `show` and `path` take `--falling`, before or
//! after the file.

use dewgneiss::{csv, has_floors, path, table, NoTurn, Order, LONGEST_SHEET_ABOVE};
use std::error::Error;
use std::ffi::{OsStr, OsString};
use std::fmt::{self, Display};
use std::fs::File;
use std::io::{Read, Write};
use std::path::Path;
use std::process::ExitCode;

/// The file's name before what is wrong with it.
fn of<E: Display>(file: &OsStr) -> impl Fn(E) -> Box<dyn Error> + '_ {
    move |fault| format!("{}: {fault}", Path::new(file).display()).into()
}

/// The start of a file: one byte more than can be of use, so that a file that is too long is seen to be so, and an endless one is not read on.
fn start(file: &OsStr, longest: usize) -> Result<Vec<u8>, Box<dyn Error>> {
    let from: Box<dyn Read> =
        if file == "-" { Box::new(std::io::stdin()) } else { Box::new(File::open(file).map_err(of(file))?) };
    let mut bytes = Vec::new();
    from.take(longest as u64 + 1).read_to_end(&mut bytes).map_err(of(file))?;
    Ok(bytes)
}

/// The bid sheet of a table. Not every command takes one with floors, so that is said.
fn make(file: &OsStr) -> Result<String, Box<dyn Error>> {
    let sheet = csv::bid_sheet(&start(file, csv::LONGEST_TABLE)?).map_err(of(file))?;
    if has_floors(sheet.as_bytes()) {
        let others = "./run SHEET and ./run reasons let without floors, and turn it down";
        say(&format!("this sheet has floors: ./run show and ./run path take it; {others}"));
    }
    Ok(sheet)
}

/// The words are none that the tool has.
#[derive(Debug)]
struct Misused;

impl Display for Misused {
    fn fmt(&self, f: &mut fmt::Formatter<'_>) -> fmt::Result {
        write!(f, "usage: sheet-tool show [--falling] SHEET | sheet-tool path [--falling] SHEET | sheet-tool make FILE.csv")
    }
}

impl Error for Misused {}

fn run(words: &[OsString]) -> Result<String, Box<dyn Error>> {
    let is_option = |word: &&OsString| word.len() > 1 && word.as_encoded_bytes()[0] == b'-';
    let (options, words): (Vec<&OsString>, Vec<&OsString>) = words.iter().partition(is_option);
    if options.iter().any(|option| *option != "--falling") {
        return Err(Misused.into());
    }
    let order = if options.is_empty() { Order::RisingFirst } else { Order::FallingFirst };
    match words[..] {
        [verb, file] if verb == "show" => table::show(&start(file, LONGEST_SHEET_ABOVE)?, order),
        [verb, file] if verb == "path" => path::show(&start(file, LONGEST_SHEET_ABOVE)?, order),
        [verb, file] if verb == "make" && options.is_empty() => make(file),
        _ => Err(Misused.into()),
    }
}

/// Says something beside the answer. Where standard error is lost too, the status is all that is left.
fn say(words: &dyn Display) {
    let _ = writeln!(std::io::stderr(), "{words}");
}

fn failed(error: &dyn Display, status: u8) -> ExitCode {
    say(error);
    ExitCode::from(status)
}

/// Ends with status 1 where the input is refused, and 2 where the tool is misused or the answer is lost or does not fit the proved close.
fn main() -> ExitCode {
    let words: Vec<OsString> = std::env::args_os().skip(1).collect();
    let mut out = std::io::stdout();
    match run(&words) {
        Err(error) if error.is::<NoTurn>() || error.is::<path::Astray>() || error.is::<Misused>() => failed(&error, 2),
        Err(error) => failed(&error, 1),
        Ok(text) => match out.write_all(text.as_bytes()).and_then(|()| out.flush()) {
            Err(error) => failed(&format!("the answer could not be written: {error}"), 2),
            Ok(()) => ExitCode::SUCCESS,
        },
    }
}
