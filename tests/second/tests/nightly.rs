//! A night of the backup host, as the program `nightly` plays it: alone, the minimum clean fraction 0.3 named,
//! all else by default. The model's orders are those that the program has stored.

use second::model::{self, order_words, Mode, Model, Order, Request, Settings};

/// The orders, one a line.
const STORED: &str = concat!(env!("CARGO_MANIFEST_DIR"), "/../../crates/nightly/stdout");
const ROWS: u64 = 64;
const THRESHOLD: u64 = 262_144;
/// How many times a record is looked at in a night, and how many records are looked at often.
const VISITS: u64 = 400;
const OFTEN: u64 = 31;

/// The record of a visit; every eighth visit is to one of those looked at seldom.
fn record(visit: u64) -> u64 {
    match visit % 8 {
        7 => 40 + visit % 64,
        _ => visit % VISITS * 7_919 % 104_729 % OFTEN,
    }
}

fn ask(m: &mut Model, request: Request) -> Vec<Order> {
    m.step(&request, &[], order_words(m.rows)).unwrap()
}

/// The orders of a night: every third record that is looked at is changed, and a flush ends it.
fn night(settings: Settings) -> Vec<Order> {
    let mut m = model::open(ROWS, true, Some(Mode::Alone), THRESHOLD, settings).unwrap();
    let mut orders = Vec::new();
    for visit in 0..VISITS {
        let address = record(visit);
        let size = 20_000 + address % 10_000 * 7_919 % 90_001;
        orders.extend(ask(&mut m, Request::Protect { writing: true, address, size }));
        orders.extend(ask(&mut m, Request::Release { address, changed: (visit % 3 == 0).then_some(size) }));
    }
    orders.extend(ask(&mut m, Request::Flush));
    orders
}

fn line(order: &Order) -> String {
    match order {
        Order::Write { address, size } => format!("write {address} {size}"),
        Order::Evict { address, size } => format!("evict {address} {size}"),
        Order::Load { address, size } => format!("load {address} {size}"),
    }
}

fn writes(orders: &[Order]) -> usize {
    orders.iter().filter(|order| matches!(order, Order::Write { .. })).count()
}

#[test]
fn the_nights_orders_are_the_stored_ones() {
    let stored = std::fs::read_to_string(STORED).unwrap_or_else(|error| panic!("{STORED}: {error}"));
    let named = Settings { clean_fraction: 0.3, ..Settings::default_values(Mode::Alone) };
    let orders = night(named);
    assert_eq!(orders.iter().map(line).collect::<Vec<_>>(), stored.lines().collect::<Vec<_>>());
    // With the default fraction less is written.
    assert!(writes(&night(Settings::default_values(Mode::Alone))) < writes(&orders));
}
