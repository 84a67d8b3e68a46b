//! All 256 bytes through the wrapper, each in every place of a bid sheet.

use crate::Tally;
use dewgneiss::{close_sheet, LONGEST_CLOSING};
use model::{cases, sheet};

pub fn all() -> Tally {
    let mut tally = Tally::default();
    let good = sheet::write(&cases::table()[0].sheet);
    for byte in 0..=255 {
        for place in 0..good.len() {
            let mut bytes = good.clone();
            bytes[place] = byte;
            let given = close_sheet(&bytes).map_err(|refusal| refusal.number());
            let expected = sheet::close(&bytes, LONGEST_CLOSING);
            tally.expect(given == expected, || format!("byte {byte} in place {place}: {given:?}, not {expected:?}"));
        }
    }
    tally
}
