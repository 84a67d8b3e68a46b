//! Document 01's table of "Lettings to try": K1 and K4 to K9, which are sheets. K5 and K7 name no item, by document 02, #102. Falling first, #104, they
//! close at the same prices with the same names; the rounds are by hand, and so are the gains, #106.

use crate::{Closing, Sheet, BIDDERS, ITEMS, TOP};

pub struct Case {
    pub name: &'static str,
    pub sheet: Sheet,
    pub closing: Closing,
    pub falling_first: Closing,
}

/// A case from its rounds raised and lowered, rising first and falling first.
pub fn case(name: &'static str, sheet: Sheet, rounds: [(u32, u32); 2], prices: &[u16], names: &[u8], gains: &[u16]) -> Case {
    let [prices, gains] = [prices, gains].map(<[u16]>::to_vec);
    let closing = Closing { raised: 0, lowered: 0, prices, names: names.to_vec(), gains };
    let [closing, falling_first] = rounds.map(|(raised, lowered)| Closing { raised, lowered, ..closing.clone() });
    Case { name, sheet, closing, falling_first }
}

pub fn table() -> Vec<Case> {
    vec![
        case("example-6", Sheet::new(&[4, 4], &[&[2, 6], &[3, 7], &[6, 7]]), [(2, 2), (2, 4)], &[2, 6], &[0, 2, 1], &[0, 1, 4]),
        case("k4", Sheet::new(&[3, 3], &[&[5, 5], &[5, 5]]), [(0, 3), (0, 3)], &[0, 0], &[1, 2], &[5, 5]),
        case("k5", Sheet::new(&[0], &[&[0]]), [(0, 0), (0, 0)], &[0], &[0], &[0]),
        case("k6", Sheet::new(&[0], &[&[4095], &[4095]]), [(4095, 0), (4095, 0)], &[4095], &[1, 0], &[0, 0]),
        case("k7", Sheet::new(&[4095], &[&[0]]), [(0, 4095), (0, 4095)], &[0], &[0], &[0]),
        case(
            "k8",
            Sheet::new(&[0, 0, 0], &[&[5, 5, 0], &[0, 5, 5], &[5, 0, 5]]),
            [(0, 0), (0, 0)],
            &[0, 0, 0],
            &[1, 2, 3],
            &[5, 5, 5],
        ),
        case("k9", Sheet::new(&[5, 5], &[&[9, 2], &[9, 2], &[9, 2]]), [(4, 3), (4, 5)], &[9, 2], &[1, 2, 0], &[0, 0, 0]),
    ]
}

/// 8,190 rounds, in either order: everybody wants the first half of the items, which start at 0, and nobody the second half, from 4,095.
pub fn most_rounds() -> Case {
    let line: Vec<u16> = (0..ITEMS).map(|i| if i < ITEMS / 2 { TOP } else { 0 }).collect();
    let sheet = Sheet::of(line.iter().map(|&x| TOP - x).collect(), BIDDERS, line.repeat(BIDDERS));
    let names: Vec<u8> = (1..=BIDDERS).map(|b| if b <= ITEMS / 2 { b as u8 } else { 0 }).collect();
    case("most rounds", sheet, [(4095, 4095), (4095, 4095)], &line, &names, &[0; BIDDERS])
}
