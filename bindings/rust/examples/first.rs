//! A cache of four entries and 4,096 bytes. Three records come; the third needs room, so both others are
//! written and the oldest leaves. Prints the orders.

use speldervacht::{open, order_words, step, table_words, Mode, Refusal, Request, Settings, DEFAULT_THRESHOLD};

const ROWS: usize = 4;

fn main() -> Result<(), Refusal> {
    let mut table = vec![0; table_words(ROWS)];
    let mut orders = vec![0; order_words(ROWS)];
    let settings = Settings { clean_fraction: 0.0, ..Settings::fixed(Mode::Alone, 4_096) };
    open(&mut table, ROWS, Mode::Alone, DEFAULT_THRESHOLD, &settings)?;
    for (address, size) in [(100, 3_000), (200, 1_000), (300, 500)] {
        for order in step(&mut table, &mut orders, &Request::Insert { address, size })? {
            println!("{order}");
        }
    }
    Ok(())
}
