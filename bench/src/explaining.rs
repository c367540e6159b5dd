//! Explaining a request beside the same request as a step.

use crate::{many_times, short, Best, Case, Messages, ROW_COUNTS};
use second::boundary::request_of;
use second::library::{self, Explanation};
use second::model::{order_words, reason_words, Lent};
use second::table::picture;
use std::hint::black_box;
use std::time::Duration;

/// What explaining may cost, times the step.
const MOST: f64 = 1.1;

/// The best times of a case's requests together, in microseconds; both are measured in turn.
pub struct ExplainingTimes {
    name: &'static str,
    rows: usize,
    step: f64,
    explaining: f64,
}

impl ExplainingTimes {
    pub fn measure(case: &Case) -> ExplainingTimes {
        let rows = case.cache.rows;
        let words = picture(&case.cache);
        let mut table = words.clone();
        let mut orders = vec![0; order_words(rows)];
        let mut reasons = vec![0; reason_words(rows)];
        let messages = Messages::of(case);
        check(case, &mut table, &mut orders, &mut reasons, &messages);
        let [mut step, mut explaining] = [(); 2].map(|()| Best(Duration::MAX));
        many_times(|| {
            table.copy_from_slice(&words);
            messages.next();
            step.time(|| {
                for asked in &case.asked {
                    black_box(library::step(&mut table, &mut orders, &messages.message.borrow(), black_box(asked)));
                }
            });
            table.copy_from_slice(&words);
            messages.next();
            explaining.time(|| {
                for asked in &case.asked {
                    let message = &messages.message.borrow();
                    black_box(library::explain(&mut table, &mut orders, &mut reasons, message, black_box(asked)));
                }
            });
        });
        ExplainingTimes { name: case.name, rows, step: step.microseconds(), explaining: explaining.microseconds() }
    }

    fn beside_step(&self) -> f64 {
        self.explaining / self.step
    }
}

/// Explaining gives the model's answers, reasons, causes and bounds.
fn check(case: &Case, table: &mut [u64], orders: &mut [u64], reasons: &mut [u64], messages: &Messages) {
    let message = &messages.message.borrow();
    let mut model = case.cache.clone();
    for asked in &case.asked {
        let lent = Lent { orders: orders.len(), reasons: reasons.len() };
        let explanation = library::explain(table, orders, reasons, message, asked);
        let outcome = model.explain(&request_of(asked), message, lent);
        assert_eq!(explanation, Explanation::of(&outcome), "{} at {} rows", case.name, model.rows);
        let named: Vec<u64> = outcome.unwrap_or_default().reasons.iter().map(|reason| *reason as u64).collect();
        assert_eq!(reasons[..named.len()], named, "{} at {} rows", case.name, model.rows);
    }
}

/// The figures by case and row count, in Markdown, and whether they are as wanted.
pub fn print(figures: &[ExplainingTimes]) {
    println!("\nExplaining a request beside the same as a step. Microseconds:\n");
    print!("| {:45} |", "");
    ROW_COUNTS
        .iter()
        .for_each(|rows| print!(" {:>10} | {:>10} | {:>6} |", format!("{rows} rows"), "explained", "beside"));
    println!("\n|{}|{}", "-".repeat(47), "-----------:|-----------:|-------:|".repeat(ROW_COUNTS.len()));
    let of_first = figures.iter().filter(|times| times.rows == ROW_COUNTS[0]);
    for name in of_first.map(|times| times.name) {
        print!("| {name:45} |");
        for times in figures.iter().filter(|times| times.name == name) {
            let (step, explaining, beside) = (short(times.step), short(times.explaining), times.beside_step());
            print!(" {step:>10} | {explaining:>10} | {beside:>6.3} |");
        }
        println!();
    }
    let above = figures.iter().filter(|times| times.beside_step() > MOST);
    let above: Vec<String> = above
        .map(|times| format!("{} at {} rows ({:.3} times)", times.name, times.rows, times.beside_step()))
        .collect();
    let above = if above.is_empty() { "none".to_string() } else { above.join("; ") };
    println!("\nExplaining, above {MOST} times the step: {above}.");
}
