//! Document 01's "Lettings to try" through the wrapper, and lettings with floors; rising first and falling first.

use crate::sheets::{after, in_both_orders, plain};
use crate::Tally;
use dewgneiss::{close_sheet, close_sheet_into, falling_first, sealed, sealed_above};
use model::cases::{self, Case};
use model::{sheet, Sheet};

/// The number that turns a call down, or 0.
pub fn number<T>(answer: &Result<T, dewgneiss::Refusal>) -> u8 {
    answer.as_ref().err().map_or(0, |r| r.number())
}

pub fn all() -> Tally {
    let mut tally = Tally::default();
    for case in cases::table().into_iter().chain([cases::most_rounds()]) {
        let s = &case.sheet;
        let numbers = sealed(s.items as u32, s.bidders as u32, &s.start, &s.bids).map(plain);
        tally.expect(numbers.as_ref() == Ok(&case.closing), || format!("{}: {numbers:?}", case.name));
        with_its_floors(&case, &mut tally);
        let bytes = close_sheet(&sheet::write(s));
        tally.expect(bytes == Ok(sheet::write_closing(&case.closing)), || format!("{} as a sheet: {bytes:?}", case.name));
        into_every_room(&case, &mut tally);
    }
    let zeros = [0; 33 * 65];
    for (items, bidders, start, bid, wanted) in [
        (32, 64, 0, 0, 0),
        (33, 64, 0, 0, 1),
        (0, 64, 0, 0, 1),
        (33, 65, 0, 0, 1),
        (32, 65, 0, 0, 2),
        (32, 0, 0, 0, 2),
        (1, 1, 4095, 4095, 0),
        (1, 1, 4096, 4095, 4),
        (1, 1, 4095, 4096, 5),
        (1, 1, 4096, 4096, 4),
    ] {
        let (mut prices, mut bids) = (zeros[..items].to_vec(), zeros[..items * bidders].to_vec());
        prices.iter_mut().take(1).for_each(|p| *p = start);
        bids.iter_mut().take(1).for_each(|b| *b = bid);
        let given = number(&sealed(items as u32, bidders as u32, &prices, &bids));
        tally.expect(given == wanted, || format!("{items} items, {bidders} bidders, {start}, {bid}: {given}, not {wanted}"));
    }
    for counts in [u32::MAX, 1 << 31, 256 + 1, 65_536 + 1] {
        let given = [number(&sealed(counts, 1, &[0], &[0])), number(&sealed(1, counts, &[0], &[0]))];
        tally.expect(given == [1, 2], || format!("counts of {counts}: {given:?}"));
        for entry in [sealed_above, falling_first] {
            let given = [number(&entry(counts, 1, &[0], &[0], &[0])), number(&entry(1, counts, &[0], &[0], &[0]))];
            tally.expect(given == [1, 2], || format!("counts of {counts}, with floors: {given:?}"));
        }
    }
    with_floors(&mut tally);
    tally
}

/// The sheet with its floors, rising first and falling first.
fn with_its_floors(case: &Case, tally: &mut Tally) {
    let s = &case.sheet;
    let expected = [&case.closing, &case.falling_first];
    for (order, (given, expected)) in ["rising", "falling"].iter().zip(in_both_orders(s).iter().zip(expected)) {
        tally.expect(given.as_ref() == Ok(expected), || format!("{s:?}, {order} first: {given:?}, not {expected:?}"));
    }
}

/// Lent bytes of every length up to some more than the four lines take: fewer are refused with 3 and stay as they came, also as many as three lines take.
fn into_every_room(case: &Case, tally: &mut Tally) {
    let (bytes, closing) = (sheet::write(&case.sheet), sheet::write_closing(&case.closing));
    for room in 0..closing.len() + 3 {
        let lent = vec![b'x'; room];
        let (expected, written) = if room < closing.len() { (3, &[][..]) } else { (0, &closing[..]) };
        let mut out = lent.clone();
        let given = number(&close_sheet_into(&bytes, &mut out));
        let same = given == expected && out == after(&lent, written);
        tally.expect(same, || format!("{} into {room} bytes: {given}, not {expected}, and {out:?}", case.name));
    }
}

/// Floors that stop a fall, that nobody meets, at which a bid is named, and by which another item is; the numbers with floors, several at once.
fn with_floors(tally: &mut Tally) {
    for (start, floors, bids, rounds, prices, names, gains) in [
        (&[0, 5][..], &[0, 5][..], &[3, 7][..], [(0, 0), (0, 0)], &[0, 5][..], &[1][..], &[3][..]),
        (&[8], &[5], &[3], [(0, 3), (0, 3)], &[5], &[0], &[0]),
        (&[8], &[5], &[5], [(0, 3), (0, 3)], &[5], &[1], &[0]),
        (&[5], &[5], &[9, 7], [(2, 0), (2, 0)], &[7], &[1, 0], &[2, 0]),
        (&[4095], &[4095], &[4095, 4095], [(0, 0), (0, 0)], &[4095], &[1, 0], &[0, 0]),
        (&[4095], &[1], &[0], [(0, 4094), (0, 4094)], &[1], &[0], &[0]),
        (&[4095], &[1], &[4095], [(0, 4094), (0, 4094)], &[1], &[1], &[4094]),
        (&[4, 4, 10], &[3, 0, 8], &[2, 6, 0, 3, 7, 7, 6, 7, 0], [(2, 2), (2, 2)], &[3, 6, 8], &[0, 2, 1], &[0, 1, 3]),
        (&[4, 4], &[1, 0], &[2, 6, 3, 7, 6, 7], [(2, 2), (2, 3)], &[2, 6], &[0, 2, 1], &[0, 1, 4]),
    ] {
        let s = Sheet::of(start.to_vec(), names.len(), bids.to_vec()).above(floors);
        with_its_floors(&cases::case("with floors", s, rounds, prices, names, gains), tally);
    }
    for (items, bidders, start, floors, bids, wanted) in [
        (33, 65, &[4096][..], &[4097][..], &[4096][..], 1),
        (1, 65, &[4096], &[4097], &[4096], 2),
        (1, 1, &[4096], &[], &[4096], 3),
        (1, 1, &[4096], &[4097, 4097], &[4096], 3),
        (1, 1, &[4096], &[4097], &[4096], 4),
        (1, 1, &[4096], &[0], &[4096], 4),
        (1, 1, &[4095], &[4096], &[4096], 18),
        (1, 1, &[65_534], &[65_535], &[0], 4),
        (1, 1, &[0], &[65_535], &[0], 18),
        (2, 1, &[4095, 0], &[0, 1], &[0, 4096], 18),
        (1, 1, &[4095], &[4095], &[4096], 5),
    ] {
        let given = [sealed_above, falling_first].map(|entry| number(&entry(items, bidders, start, floors, bids)));
        let call = format!("{items} items, {bidders} bidders, {start:?} above {floors:?}, bids {bids:?}");
        tally.expect(given == [wanted; 2], || format!("{call}: {given:?} rising first and falling first, not {wanted}"));
    }
}
