//! Three rakers, two pans: lets them, and says who has what and what they gain. `cargo run -p dewgneiss --example evening`

use dewgneiss::{sealed, Refusal};

fn main() -> Result<(), Refusal> {
    let start = [4, 4];
    let bids = [[2, 6], [3, 7], [6, 7]].concat();
    let closing = sealed(2, 3, &start, &bids)?;
    println!("closed after {} rounds raised and {} lowered", closing.raised, closing.lowered);
    for (k, &item) in closing.names.iter().enumerate() {
        match item {
            0 => println!("raker {} has no pan", k + 1),
            i => println!("raker {} has pan {i} at {}, and gains {}", k + 1, closing.prices[i as usize - 1], closing.gains[k]),
        }
    }
    // A mistake on a sheet comes back as a number and in words.
    let mistake = sealed(2, 3, &start, &[2, 6, 3, 7, 6, 5000]).unwrap_err();
    println!("{mistake}");
    Ok(())
}
