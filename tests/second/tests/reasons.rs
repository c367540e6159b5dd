//! The model gives the worked cases of reasons, and of changes of the maximum with their bounds.

mod setup;

use second::message;
use second::model::{
    order_words, reason_words, Cap, Decrease, Done, Flash, Increase, Lent, Mode, Model, Refusal, Request, Settings,
};
use setup::{open, small_settings};

const INCREASE: u64 = 1;
const FLASH: u64 = 2;
const THRESHOLD: u64 = 3;
const AGE_OUT: u64 = 4;
const SETTINGS: u64 = 5;
const NO_CHANGE: [u64; 2] = [0, 0];

fn lent(orders: usize, reasons: usize) -> Lent {
    Lent { orders, reasons }
}

fn explain(m: &mut Model, request: Request) -> Done {
    m.explain(&request, &[], lent(order_words(m.rows), reason_words(m.rows))).unwrap()
}

fn numbers(done: &Done) -> Vec<u64> {
    done.reasons.iter().map(|reason| *reason as u64).collect()
}

/// The reasons of a request that leaves the maximum as it is.
fn reasons(m: &mut Model, request: Request) -> Vec<u64> {
    let done = explain(m, request);
    assert_eq!((done.reasons.len(), done.change_words()), (done.orders.len(), NO_CHANGE));
    numbers(&done)
}

/// The maximum after a request, with the cause and the bound of its change.
fn maximum(m: &mut Model, request: Request) -> (u64, [u64; 2]) {
    let done = explain(m, request);
    (m.maximum, done.change_words())
}

fn insert(address: u64, size: u64) -> Request {
    Request::Insert { address, size }
}

fn read(address: u64, size: u64) -> Request {
    Request::Protect { writing: false, address, size }
}

/// With dirty entries of these sizes at 100, 200 and so on.
fn with_inserts(mode: Mode, rows: u64, settings: Settings, sizes: &[u64]) -> Model {
    let mut m = open(rows, mode, 262_144, settings);
    for (address, size) in (100..).step_by(100).zip(sizes) {
        explain(&mut m, insert(address, *size));
    }
    m
}

fn alone(rows: u64, settings: Settings, sizes: &[u64]) -> Model {
    with_inserts(Mode::Alone, rows, settings, sizes)
}

/// With so many hits of 99, so that the next protect ends the epoch.
fn before_epochs_end(mut m: Model, hits: u64) -> Model {
    (m.accesses, m.hits) = (99, hits);
    m
}

// ---- reasons

#[test]
fn p1_p2_and_p11() {
    for (size, named) in [(500, vec![1, 1, 1]), (96, vec![]), (97, vec![1, 1, 1])] {
        assert_eq!(reasons(&mut alone(4, small_settings(), &[3_000, 1_000]), insert(300, size)), named);
    }
    let mut m = with_inserts(Mode::Lead, 2, small_settings(), &[100, 100]);
    assert_eq!(reasons(&mut m, Request::Flush), [5, 5]);
    assert_eq!(reasons(&mut m, insert(300, 100)), [2]);
}

#[test]
fn rows_press_alone_or_with_bytes() {
    assert_eq!(reasons(&mut alone(4, small_settings(), &[10; 4]), insert(500, 10)), [2; 5]);
    // Bytes press once the entry is above what is unused by a byte.
    for (size, named) in [(96, [2; 3]), (97, [1; 3])] {
        assert_eq!(reasons(&mut alone(2, small_settings(), &[3_000, 1_000]), insert(300, size)), named);
    }
    // A row is wanted, and a second eviction is by bytes too.
    let mut m = alone(2, small_settings(), &[2_000, 2_000]);
    assert_eq!(reasons(&mut m, insert(300, 4_000)), [1; 4]);
}

#[test]
fn the_clean_share_alone_and_at_sync() {
    let half_clean = Settings { clean_fraction: 0.5, ..small_settings() };
    assert_eq!(reasons(&mut alone(4, half_clean, &[1_500]), insert(200, 1_000)), [3]);
    let mut m = alone(4, half_clean, &[2_000]);
    assert_eq!(reasons(&mut m, insert(200, 48)), []);
    assert_eq!(reasons(&mut m, insert(300, 2_048)), [3, 3]);
    // 300, clean, goes by rows or by bytes; then 100 is written.
    for (size, pressing) in [(96, 2), (97, 1)] {
        let mut m = open(3, Mode::Alone, 262_144, half_clean);
        assert_eq!(reasons(&mut m, read(300, 2_000)), [7]);
        assert_eq!(reasons(&mut m, Request::Release { address: 300, changed: None }), []);
        assert_eq!(reasons(&mut m, insert(100, 1_000)), []);
        assert_eq!(reasons(&mut m, insert(200, 1_000)), []);
        assert_eq!(reasons(&mut m, read(400, size)), [pressing, 3, 7]);
    }
    let mut m = with_inserts(Mode::Lead, 4, half_clean, &[1_500, 1_000]);
    assert_eq!(reasons(&mut m, Request::Sync), [6]);
    assert_eq!(reasons(&mut m, Request::Flush), [5]);
}

#[test]
fn a_standby_evicts_by_bytes_and_by_rows() {
    for (size, named) in [(2_096, 2), (2_097, 1)] {
        let mut m = with_inserts(Mode::Standby, 2, small_settings(), &[1_000, 1_000]);
        m.explain(&Request::Take, &message::write(1, &[100]), lent(0, 0)).unwrap();
        assert_eq!(reasons(&mut m, insert(300, size)), [named]);
    }
}

#[test]
fn a_miss_at_an_epochs_end() {
    // Where bytes press, 100 and 200 are written and 100 goes. Then the load; then 200, too old, written if still dirty.
    for (size, named) in [(97, vec![1, 1, 1, 7, 4]), (96, vec![7, 4, 4])] {
        let settings = Settings { decrease: Decrease::AgeOut { epochs: 1, reserve: 1.0 }, ..small_settings() };
        let mut m = before_epochs_end(alone(4, settings, &[3_000, 1_000]), 0);
        m.entries.get_mut(&200).unwrap().idle = 1;
        assert_eq!(reasons(&mut m, read(300, size)), named);
    }
    // A hit that halves the maximum: room for nothing by bytes, or for the clean share.
    for (second, named) in [(1_000, vec![1, 1, 1]), (500, vec![3])] {
        let halved = Decrease::Threshold { upper: 0.5, multiplier: 0.5 };
        let settings = Settings { decrease: halved, clean_fraction: 0.25, ..small_settings() };
        let mut m = before_epochs_end(alone(4, settings, &[1_000, second, 500]), 99);
        let done = explain(&mut m, read(100, 1));
        assert_eq!((m.maximum, done.change_words()), (2_048, [THRESHOLD, 0]));
        assert_eq!(numbers(&done), named);
    }
}

#[test]
fn room_for_nothing_is_by_bytes() {
    let mut m = alone(2, small_settings(), &[1_000]);
    explain(&mut m, Request::Protect { writing: true, address: 200, size: 1_000 });
    let changed = Request::Release { address: 200, changed: Some(3_500) };
    assert_eq!(reasons(&mut m, changed), [1, 1, 1]);
    let mut m = alone(2, small_settings(), &[1_000, 3_000]);
    let configure = Request::Configure(Settings { initial_size: 3_999, ..small_settings() });
    let done = explain(&mut m, configure);
    assert_eq!((numbers(&done), done.change_words()), (vec![1, 1, 1], [SETTINGS, 0]));
}

// ---- changes of the maximum

/// After an epoch with so many hits of 100 in a cache that has held that many bytes throughout.
fn after_epoch(settings: Settings, hits: u64, held: u64) -> (u64, [u64; 2]) {
    maximum(&mut before_epochs_end(alone(4, settings, &[held]), hits - 1), read(100, held))
}

#[test]
fn an_increase_and_its_bounds() {
    for (largest, cap, value, change) in [
        (16_384, Cap::None, 8_192, [INCREASE, 0]),
        (16_384, Cap::UpTo(4_096), 8_192, [INCREASE, 0]),
        (8_192, Cap::None, 8_192, [INCREASE, 0]),
        (16_384, Cap::UpTo(4_095), 8_191, [INCREASE, 9]),
        (16_384, Cap::UpTo(100), 4_196, [INCREASE, 9]),
        (8_191, Cap::None, 8_191, [INCREASE, 5]),
        // Both cut.
        (8_191, Cap::UpTo(4_095), 8_191, [INCREASE, 5]),
        (8_000, Cap::UpTo(4_095), 8_000, [INCREASE, 5]),
        (8_191, Cap::UpTo(3_904), 8_000, [INCREASE, 9]),
        // To nothing.
        (16_384, Cap::UpTo(0), 4_096, NO_CHANGE),
        (4_096, Cap::None, 4_096, NO_CHANGE),
    ] {
        let increase = Increase::Threshold { lower: 0.9, multiplier: 2.0 };
        let settings = Settings { increase, increase_cap: cap, maximum_size: largest, ..small_settings() };
        assert_eq!(after_epoch(settings, 89, 4_096), (value, change), "{largest} {cap:?}");
        assert_eq!(after_epoch(settings, 90, 4_096), (4_096, NO_CHANGE));
    }
}

#[test]
fn an_increase_cut_to_nothing_and_an_age_out() {
    let settings = Settings {
        increase: Increase::Threshold { lower: 0.9, multiplier: 2.0 },
        increase_cap: Cap::UpTo(0),
        decrease: Decrease::AgeOut { epochs: 10, reserve: 0.25 },
        ..small_settings()
    };
    // Full since 100 had to go, and 3,000 bytes held: 4,000.
    let mut m = before_epochs_end(alone(4, settings, &[2_000, 3_000]), 0);
    assert_eq!((m.held(), m.exceeded), (3_000, true));
    assert_eq!(maximum(&mut m, read(200, 1)), (4_000, [AGE_OUT, 0]));
}

#[test]
fn a_decrease_by_threshold_and_its_bounds() {
    for (smallest, cap, value, change) in [
        (1_024, Cap::None, 2_048, [THRESHOLD, 0]),
        (2_048, Cap::None, 2_048, [THRESHOLD, 0]),
        (1_024, Cap::UpTo(2_048), 2_048, [THRESHOLD, 0]),
        (1_024, Cap::UpTo(5_000), 2_048, [THRESHOLD, 0]),
        (1_024, Cap::UpTo(1_000), 3_096, [THRESHOLD, 12]),
        (2_049, Cap::UpTo(5_000), 2_049, [THRESHOLD, 6]),
        // Both cut.
        (3_096, Cap::UpTo(1_000), 3_096, [THRESHOLD, 6]),
        (3_097, Cap::UpTo(1_000), 3_097, [THRESHOLD, 6]),
        (3_095, Cap::UpTo(1_000), 3_096, [THRESHOLD, 12]),
        // To nothing.
        (4_096, Cap::None, 4_096, NO_CHANGE),
        (1_024, Cap::UpTo(0), 4_096, NO_CHANGE),
    ] {
        let decrease = Decrease::Threshold { upper: 0.5, multiplier: 0.5 };
        let settings = Settings { decrease, decrease_cap: cap, minimum_size: smallest, ..small_settings() };
        assert_eq!(after_epoch(settings, 51, 100), (value, change), "{smallest} {cap:?}");
        assert_eq!(after_epoch(settings, 50, 100), (4_096, NO_CHANGE));
    }
}

#[test]
fn an_age_out_and_its_bounds() {
    let rules = [
        Decrease::AgeOut { epochs: 10, reserve: 0.25 },
        Decrease::AgeOutWithThreshold { upper: 0.4, epochs: 10, reserve: 0.25 },
    ];
    for decrease in rules {
        for (held, smallest, cap, value, change) in [
            (3_000, 1_024, Cap::None, 4_000, [AGE_OUT, 0]),
            (3_000, 4_000, Cap::UpTo(96), 4_000, [AGE_OUT, 0]),
            (3_000, 1_024, Cap::UpTo(95), 4_001, [AGE_OUT, 12]),
            (3_000, 4_001, Cap::None, 4_001, [AGE_OUT, 6]),
            (3_000, 4_001, Cap::UpTo(95), 4_001, [AGE_OUT, 6]),
            (3_000, 4_001, Cap::UpTo(94), 4_002, [AGE_OUT, 12]),
            (3_072, 1_024, Cap::None, 4_096, NO_CHANGE),
        ] {
            let settings = Settings { decrease, decrease_cap: cap, minimum_size: smallest, ..small_settings() };
            assert_eq!(after_epoch(settings, 50, held), (value, change), "{smallest} {cap:?}");
        }
    }
    // The bytes are those held once the entries have gone.
    let settings = Settings { decrease: Decrease::AgeOut { epochs: 1, reserve: 0.25 }, ..small_settings() };
    let mut m = before_epochs_end(alone(4, settings, &[1_000, 1_500]), 0);
    m.entries.get_mut(&100).unwrap().idle = 1;
    let done = explain(&mut m, read(200, 1));
    assert_eq!((m.maximum, done.change_words(), numbers(&done)), (2_000, [AGE_OUT, 0], vec![4, 4]));
}

#[test]
fn a_flash_and_its_bound() {
    let settings = Settings { flash: Flash::On { multiple: 1.0, threshold: 0.25 }, ..small_settings() };
    let full = |rows| alone(rows, settings, &[1_000; 4]);
    for (size, value, change) in [
        (1_024, 4_096, NO_CHANGE),
        (1_025, 5_025, [FLASH, 0]),
        (12_384, 16_384, [FLASH, 0]),
        (12_385, 16_384, [FLASH, 5]),
        (13_000, 16_384, [FLASH, 5]),
    ] {
        assert_eq!(maximum(&mut full(8), insert(500, size)), (value, change));
        // A miss that ends no epoch, since the flash restarts the counters; one that does not rise ends it.
        let decrease = Decrease::Threshold { upper: 0.5, multiplier: 0.5 };
        let mut m = before_epochs_end(full(8), 99);
        m.settings.decrease = decrease;
        let after = maximum(&mut m, read(500, size));
        assert_eq!(after, if change == NO_CHANGE { (2_048, [THRESHOLD, 0]) } else { (value, change) });
    }
    // By the growth, at resize and at changed release.
    let size = 90 + 1_025;
    for request in [Request::Resize { address: 500, size }, Request::Release { address: 500, changed: Some(size) }] {
        let mut m = full(8);
        explain(&mut m, Request::Protect { writing: true, address: 500, size: 90 });
        assert_eq!(maximum(&mut m, request), (4_090 + 1_025, [FLASH, 0]));
    }
    // At maximum size already.
    let mut m = full(8);
    m.settings.maximum_size = 4_096;
    assert_eq!(maximum(&mut m, insert(500, 2_000)), (4_096, NO_CHANGE));
}

#[test]
fn settings_and_their_bounds() {
    for (initial_is_set, initial, smallest, largest, value, change) in [
        (true, 8_192, 1_024, 16_384, 8_192, [SETTINGS, 0]),
        (true, 16_384, 1_024, 16_384, 16_384, [SETTINGS, 0]),
        (true, 1_024, 1_024, 16_384, 1_024, [SETTINGS, 0]),
        (true, 4_096, 1_024, 16_384, 4_096, NO_CHANGE),
        (false, 0, 4_096, 4_096, 4_096, NO_CHANGE),
        (false, 0, 1_024, 4_095, 4_095, [SETTINGS, 5]),
        (false, 0, 4_097, 16_384, 4_097, [SETTINGS, 6]),
        (false, 0, 8_192, 8_192, 8_192, [SETTINGS, 6]),
        (false, 0, 2_048, 2_048, 2_048, [SETTINGS, 5]),
    ] {
        let settings = Settings {
            initial_is_set,
            initial_size: initial,
            minimum_size: smallest,
            maximum_size: largest,
            ..small_settings()
        };
        let mut m = alone(4, small_settings(), &[]);
        assert_eq!(maximum(&mut m, Request::Configure(settings)), (value, change));
    }
}

// ---- refusals

#[test]
fn words_that_are_too_few() {
    let settings = Settings { initial_is_set: false, ..small_settings() };
    let (enough_orders, enough) = (order_words(2), reason_words(2));
    let bad = Request::Configure(Settings { clean_fraction: 2.0, ..settings });
    for (request, otherwise) in [
        (insert(300, 10), 0),
        (insert(u64::MAX, 10), 3),
        (read(300, 10), 0),
        (Request::Release { address: 300, changed: None }, 6),
        (Request::Release { address: 100, changed: Some(10) }, 9),
        (Request::Flush, 0),
        (Request::Sync, 5),
        (Request::Configure(settings), 0),
        (bad, 12),
    ] {
        for (orders, reasons, number) in [
            (enough_orders, enough, otherwise),
            (enough_orders, enough + 1, otherwise),
            (enough_orders, enough - 1, 2),
            (enough_orders, 0, 2),
            (enough_orders - 1, enough, 2),
            (0, 0, 2),
        ] {
            let mut m = alone(2, small_settings(), &[10]);
            let refusal = m.explain(&request, &[], lent(orders, reasons)).err();
            assert_eq!(refusal.map_or(0, |r| r.number), number, "{request:?} {orders} {reasons}");
        }
    }
}

#[test]
fn requests_that_need_no_words() {
    let none = lent(0, 0);
    let mut m = alone(2, small_settings(), &[]);
    explain(&mut m, Request::Protect { writing: true, address: 100, size: 10 });
    for request in [Request::Pin { address: 100 }, Request::Resize { address: 100, size: 20 }] {
        assert_eq!(m.explain(&request, &[], none), Ok(Done::default()));
    }
    explain(&mut m, Request::Release { address: 100, changed: None });
    for request in [Request::Unpin { address: 100 }, Request::Discard { address: 100 }] {
        assert_eq!(m.explain(&request, &[], none), Ok(Done::default()));
    }
    assert_eq!(m.explain(&Request::Unknown, &[], none), Err(Refusal { number: 5, field: 0 }));
    let mut m = with_inserts(Mode::Standby, 2, small_settings(), &[10]);
    assert_eq!(m.explain(&Request::Take, &message::write(1, &[100]), none), Ok(Done::default()));
}
