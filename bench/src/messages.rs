//! The message of a flush that wrote all rows: taking it and writing it, beside judging.

use crate::{asked, full_cache, many_times, rising_addresses, short, Best, MOST_ROWS, ROW_COUNTS, TAKE, UNKNOWN};
use second::library;
use second::message;
use second::model::Mode;
use second::table::picture;
use std::hint::black_box;
use std::time::Duration;

/// What taking and writing may cost with the most rows, times judging.
const MOST_TAKING: f64 = 3.0;
const MOST_WRITING: f64 = 1.0;

/// The best times, in microseconds; all three are measured in turn.
pub struct MessageTimes {
    judging: f64,
    taking: f64,
    writing: f64,
}

impl MessageTimes {
    pub fn measure(rows: usize) -> MessageTimes {
        let standby = full_cache(rows, Mode::Standby, true);
        let (words, number, list) = (picture(&standby), standby.next, rising_addresses(rows));
        let message = message::write(number, &list);
        let mut written = vec![0; message.len()];
        let mut table = words.clone();
        let [mut judging, mut taking, mut writing] = [(); 3].map(|()| Best(Duration::MAX));
        many_times(|| {
            table.copy_from_slice(&words);
            judging.time(|| library::step(&mut table, &mut [], &[], black_box(&asked(UNKNOWN, 0, 0))));
            table.copy_from_slice(&words);
            let answer = taking.time(|| library::step(&mut table, &mut [], &message, black_box(&asked(TAKE, 0, 0))));
            assert_eq!(answer.number, 0);
            written.fill(0);
            writing.time(|| library::write_message(&mut written, number, black_box(&list)));
            assert_eq!(written, message);
        });
        let [judging, taking, writing] = [judging, taking, writing].map(|best| best.microseconds());
        MessageTimes { judging, taking, writing }
    }

    fn taking_beside_judging(&self) -> f64 {
        self.taking / self.judging
    }

    fn writing_beside_judging(&self) -> f64 {
        self.writing / self.judging
    }
}

/// The figures by row count, in Markdown, and whether they are as wanted.
pub fn print(figures: &[MessageTimes]) {
    println!("\nThe message of a flush that wrote all rows, addresses rising. Microseconds:\n");
    let line = |name: &str, cell: &dyn Fn(&MessageTimes) -> String| {
        print!("| {name:45} |");
        figures.iter().for_each(|times| print!(" {:>10} |", cell(times)));
        println!();
    };
    print!("| {:45} |", "");
    ROW_COUNTS.iter().for_each(|rows| print!(" {:>10} |", format!("{rows} rows")));
    println!("\n|{}|{}", "-".repeat(47), "-----------:|".repeat(ROW_COUNTS.len()));
    line("judging alone", &|times| short(times.judging));
    line("taking it", &|times| short(times.taking));
    line("writing it", &|times| short(times.writing));
    line("taking beside judging", &|times| format!("{:.2}", times.taking_beside_judging()));
    line("writing beside judging", &|times| format!("{:.2}", times.writing_beside_judging()));
    println!();
    let most_rows = &figures[ROW_COUNTS.iter().position(|rows| *rows == MOST_ROWS).unwrap()];
    wanted("taking", MOST_TAKING, most_rows.taking_beside_judging());
    wanted("writing", MOST_WRITING, most_rows.writing_beside_judging());
}

fn wanted(what: &str, most: f64, beside: f64) {
    let outcome = if beside <= most { "it is as wanted" } else { "it is more than wanted" };
    println!("At {MOST_ROWS} rows {what} it is to cost at most {most} times judging: {beside:.2}, {outcome}.");
}
