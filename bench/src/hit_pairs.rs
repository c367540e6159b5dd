//! Hit pairs: a protect and a release of an entry that is there, in a cache with every row used. As two
//! requests, in a batch, and by a plain LRU that judges nothing.

use crate::lru::Lru;
use crate::{asked, full_cache, many_times, short, Best, PROTECT_FOR_READING, RELEASE_UNCHANGED, ROW_COUNTS, SIZE};
use second::library::{self, Batched};
use second::model::{order_words, Mode};
use second::table::picture;
use std::hint::black_box;
use std::time::Duration;

/// Of so many different entries, from the oldest to the newest, evenly.
const PAIRS: usize = 32;
/// What a pair in a batch may cost at a number of rows, times two requests.
const WANTED: [(usize, f64); 2] = [(64, 0.25), (4_096, 0.125)];

/// The best times for one pair, in microseconds; all three are measured in turn.
pub struct HitPairs {
    requests: f64,
    batch: f64,
    lru: f64,
}

impl HitPairs {
    pub fn measure(rows: usize) -> HitPairs {
        let cache = full_cache(rows, Mode::Alone, false);
        let words = picture(&cache);
        // The model's list has the newest first.
        let oldest_first: Vec<u64> = cache.recency.iter().rev().copied().collect();
        let addresses: Vec<u64> = (0..PAIRS).map(|i| oldest_first[i * (rows - 1) / (PAIRS - 1)]).collect();
        let pairs: Vec<[[u64; 3]; 2]> =
            addresses.iter().map(|a| [[PROTECT_FOR_READING, *a, SIZE], [RELEASE_UNCHANGED, *a, 0]]).collect();
        let requests: Vec<u64> = pairs.concat().concat();
        let mut orders = vec![0; order_words(rows)];
        let mut answers = vec![0; 4 * PAIRS];
        let mut table = words.clone();
        let [mut one_by_one, mut batch, mut plain] = [(); 3].map(|()| Best(Duration::MAX));
        let fresh = Lru::of(oldest_first);
        many_times(|| {
            table.copy_from_slice(&words);
            one_by_one.time(|| {
                for [kind, address, size] in pairs.iter().flatten() {
                    let answer = library::step(&mut table, &mut orders, &[], black_box(&asked(*kind, *address, *size)));
                    assert!(answer.number == 0 && answer.orders == 0);
                }
            });
            let stepped = table.clone();
            table.copy_from_slice(&words);
            let batched = batch.time(|| library::batch(&mut table, &mut orders, black_box(&requests), &mut answers));
            assert_eq!(batched, Batched { number: 0, done: 2 * PAIRS as u64, orders: 0 });
            assert!(table == stepped, "a batch is its requests one by one");
            let mut lru = fresh.clone();
            plain.time(|| {
                for address in black_box(&addresses) {
                    assert!(lru.protect(*address) && lru.release(*address));
                }
            });
            assert!(lru.listed().ends_with(&addresses), "the LRU has them as the newest");
        });
        let [requests, batch, lru] = [one_by_one, batch, plain].map(|best| best.microseconds() / PAIRS as f64);
        HitPairs { requests, batch, lru }
    }

    /// A batch's share of two requests.
    fn share(&self) -> f64 {
        self.batch / self.requests
    }
}

/// The figures by row count, in Markdown, and whether they are as wanted.
pub fn print(figures: &[HitPairs]) {
    println!(
        "\nA hit pair: protect and release of an entry that is there, all rows used. Microseconds for each pair:\n"
    );
    let line = |name: &str, cell: &dyn Fn(&HitPairs) -> String| {
        print!("| {name:45} |");
        figures.iter().for_each(|pair| print!(" {:>10} |", cell(pair)));
        println!();
    };
    print!("| {:45} |", "");
    ROW_COUNTS.iter().for_each(|rows| print!(" {:>10} |", format!("{rows} rows")));
    println!("\n|{}|{}", "-".repeat(47), "-----------:|".repeat(ROW_COUNTS.len()));
    line("two requests", &|pair| short(pair.requests));
    line(&format!("in a batch of {} requests", 2 * PAIRS), &|pair| short(pair.batch));
    line("a plain LRU, which judges nothing", &|pair| format!("{:.3}", pair.lru));
    line("batch beside two requests", &|pair| format!("{:.3}", pair.share()));
    line("batch beside the plain LRU", &|pair| format!("{:.1}", pair.batch / pair.lru));
    line("two requests beside the plain LRU", &|pair| format!("{:.0}", pair.requests / pair.lru));
    println!();
    for (rows, most) in WANTED {
        let at = ROW_COUNTS.iter().position(|count| *count == rows).unwrap();
        let share = figures[at].share();
        let outcome = if share <= most { "it is as wanted" } else { "it is more than wanted" };
        println!("At {rows} rows a batch is to cost at most {most} of two requests: {share:.3}, {outcome}.");
    }
}
