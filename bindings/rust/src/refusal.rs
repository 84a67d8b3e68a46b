//! The numbers that turn a call down, with what there is to mend.

use std::fmt;

/// Why a call was turned down: document 01's number.
#[derive(Clone, Copy, Debug, PartialEq, Eq)]
pub struct Refusal {
    number: u8,
}

/// Number 0 stands for an accepted call.
pub(crate) fn of(number: u8) -> Result<(), Refusal> {
    if number == 0 {
        return Ok(());
    }
    Err(Refusal { number })
}

impl Refusal {
    /// Document 01's number.
    pub fn number(self) -> u8 {
        self.number
    }

    /// What is wrong, and what to mend.
    pub fn message(self) -> &'static str {
        match self.number {
            1 => "the number of pans is not 1 to 32: mend the first two digits of the sheet (hexadecimal, 01 to 20)",
            2 => "the number of rakers is not 1 to 64: mend the third and fourth digit of the sheet (hexadecimal, 01 to 40)",
            3 => {
                "a length does not fit the counts: one starting rent a pan, one floor a pan, one bid a pan for each raker, room for \
                 the whole closing"
            }
            4 => "a starting rent is above 4,095: mend the first line, no rent above 0fff",
            5 => "a bid is above 4,095: mend the raker's line, no bid above 0fff",
            6 => {
                "these bytes are not a bid sheet: digits 0-9 and a-f only, four to a number, the first line with counts and \
                 starting rents, then one line a raker, a newline after each line and nothing behind the last"
            }
            18 => {
                "a floor is above 4,095 or above its pan's starting rent: mend the line of floors, or raise the starting rent in \
                 the first line"
            }
            _ => "an unknown number: the library and this wrapper do not belong together",
        }
    }
}

impl fmt::Display for Refusal {
    fn fmt(&self, f: &mut fmt::Formatter<'_>) -> fmt::Result {
        write!(f, "turned down with {:02}: {}", self.number, self.message())
    }
}

impl std::error::Error for Refusal {}
