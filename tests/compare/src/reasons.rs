//! Sheets of reasons through the wrapper: good sheets of every kind and damaged ones, into lent bytes that are too few, just enough or too many.

use crate::sheets::{after, on_all_processors, text};
use crate::Tally;
use dewgneiss::{reason_sheet_into, reasons, Kind};
use model::generate::{self, Shape, DAMAGES, SHAPES};
use model::random::Random;
use model::{reasons as second, sheet};

/// The second program's reasons as the wrapper has them.
pub fn plain(r: &second::Reason) -> dewgneiss::Reason {
    let kind = match r.kind {
        model::Kind::Raised => Kind::Raised,
        model::Kind::Lowered => Kind::Lowered,
    };
    dewgneiss::Reason { kind, items: r.items, bidders: r.bidders }
}

fn one(k: u64, r: &mut Random, tally: &mut Tally) {
    let (bytes, expected) = if k % 3 == 2 {
        let s = generate::sheet(*r.pick(&[Shape::Small, Shape::Ties, Shape::Ring]), r);
        let bytes = generate::damaged(&s, DAMAGES[k as usize / 3 % DAMAGES.len()], r);
        let expected = second::answer(&bytes);
        (bytes, expected)
    } else {
        let shape = if k % 60 == 0 { Shape::Long } else { SHAPES[k as usize % (SHAPES.len() - 1)] };
        let s = generate::sheet(shape, r);
        let path = model::flows::path(&s);
        let by_hand = second::along(&s, &path);
        let bytes = sheet::write(&s);
        let given = reasons(&bytes);
        let same = given.as_ref().is_ok_and(|g| g.iter().copied().eq(by_hand.iter().map(plain)));
        tally.expect(same, || format!("reasons {k} ({shape:?}): {:?}\nexpected {by_hand:?}\ngiven {given:?}", text(&bytes)));
        let expected = second::write(&by_hand);
        (bytes, expected)
    };
    let needed = expected.len();
    let room = *r.pick(&[0, needed.saturating_sub(1), needed, needed, needed + 1, needed + 40]);
    let lent: Vec<u8> = (0..room).map(|_| r.draw() as u8).collect();
    let fits = needed <= room;
    let mut out = lent.clone();
    let written = reason_sheet_into(&bytes, &mut out);
    let same = written == if fits { needed } else { 0 } && out == after(&lent, if fits { &expected } else { &[] });
    tally.expect(same, || {
        format!("sheet of reasons {k}, room {room}: {:?}\nexpected {:?}, written {written}", text(&bytes), text(&expected))
    });
}

pub fn all(count: u64, seed: u64) -> Tally {
    on_all_processors(count, seed.wrapping_add(5), one)
}
