//! The model gives the worked cases of the rules, and the judge and the picture are each other's
//! inverse.

mod setup;

use second::batch;
use second::message;
use second::model::{order_words, Decrease, Flash, Increase, Mode, Model, Order, Request, Settings, ALL_ONES};
use second::random::Random;
use second::requests::{self, Scale};
use second::table::{judge, picture, table_words, EXCEEDED, SETTINGS, VERSION};
use setup::{open, small_settings};

fn small() -> Model {
    open(4, Mode::Alone, 262_144, small_settings())
}

fn step(m: &mut Model, request: Request) -> Result<Vec<Order>, u64> {
    m.step(&request, &[], order_words(m.rows)).map_err(|r| r.number)
}

fn insert(m: &mut Model, address: u64, size: u64) -> Result<Vec<Order>, u64> {
    step(m, Request::Insert { address, size })
}

fn read(m: &mut Model, address: u64, size: u64) -> Result<Vec<Order>, u64> {
    step(m, Request::Protect { writing: false, address, size })
}

fn release(m: &mut Model, address: u64) -> Result<Vec<Order>, u64> {
    step(m, Request::Release { address, changed: None })
}

fn p1_orders() -> Vec<Order> {
    vec![
        Order::Write { address: 100, size: 3_000 },
        Order::Write { address: 200, size: 1_000 },
        Order::Evict { address: 100, size: 3_000 },
    ]
}

/// P1 with a refused insert and a configure between, and one insert more.
#[test]
fn p1_in_a_batch() {
    let requests = [1, 100, 3_000, 1, 100, 1, 13, 0, 0, 1, 200, 1_000, 1, 300, 500, 1, 400, 10];
    let enough = order_words(4) + 3 * 3;
    let answers = [[0, 0], [7, 0], [5, 0], [0, 0], [0, 3], [0, 0]];
    // All are answered; then too few order words for the last by one; no words for the last two answers;
    // no order words; the last request without its size.
    for (number, done, order_words, answer_words, words) in [
        (0, 6, enough, 12, 18),
        (2, 5, enough - 1, 12, 18),
        (2, 4, enough, 9, 18),
        (2, 0, 0, 12, 18),
        (0, 5, enough, 12, 17),
    ] {
        let mut m = small();
        let came = batch::on_model(&mut m, &requests[..words], order_words, answer_words);
        assert_eq!((came.number, &came.answers[..]), (number, &answers[..done]));
        assert_eq!(came.orders, if done < 5 { vec![] } else { p1_orders() });
        assert_eq!(m.entries.len(), [0, 1, 1, 1, 2, 2, 3][done]);
    }
}

#[test]
fn p1_and_p2() {
    for (size, given) in [(500, p1_orders()), (96, vec![]), (97, p1_orders())] {
        let mut m = small();
        assert_eq!(insert(&mut m, 100, 3_000), Ok(vec![]));
        assert_eq!(insert(&mut m, 200, 1_000), Ok(vec![]));
        assert_eq!(insert(&mut m, 300, size), Ok(given));
        if size == 500 {
            assert_eq!(m.recency, [300, 200]);
            assert_eq!((m.report().held, m.report().dirty), (1_500, 500));
        }
    }
}

#[test]
fn p3_and_p4() {
    let mut m = open(1, Mode::Alone, 1, small_settings());
    read(&mut m, 100, 10).unwrap();
    step(&mut m, Request::Pin { address: 100 }).unwrap();
    release(&mut m, 100).unwrap();
    assert_eq!(insert(&mut m, 200, 10), Err(11));
    step(&mut m, Request::Unpin { address: 100 }).unwrap();
    assert!(insert(&mut m, 200, 10).is_ok());
    let mut m = small();
    read(&mut m, 100, 10).unwrap();
    read(&mut m, 100, 10).unwrap();
    release(&mut m, 100).unwrap();
    assert_eq!(step(&mut m, Request::Discard { address: 100 }), Err(8));
}

/// The maximum after an epoch with so many hits of 100, so many bytes held throughout.
fn after_epoch(settings: Settings, hits: u64, held: u64) -> u64 {
    let mut m = open(4, Mode::Alone, 1, settings);
    insert(&mut m, 1, held).unwrap();
    m.accesses = 99;
    m.hits = hits - 1;
    m.settings.clean_fraction = 0.0;
    read(&mut m, 1, held).unwrap();
    assert_eq!((m.accesses, m.hits), (0, 0));
    m.maximum
}

#[test]
fn p5_and_p6() {
    let by = |multiplier| Settings { increase: Increase::Threshold { lower: 0.9, multiplier }, ..small_settings() };
    assert_eq!(after_epoch(by(1.5), 89, 4_096), 6_144);
    assert_eq!(after_epoch(by(1.1), 89, 4_096), 4_505);
    assert_eq!(after_epoch(by(1.5), 90, 4_096), 4_096);
    assert_eq!(after_epoch(by(1.5), 89, 4_095), 4_096);
}

#[test]
fn p7() {
    let settings = Settings { decrease: Decrease::AgeOut { epochs: 10, reserve: 0.25 }, ..small_settings() };
    assert_eq!(after_epoch(settings, 50, 3_000), 4_000);
    assert_eq!(after_epoch(settings, 50, 3_072), 4_096);
}

#[test]
fn p8() {
    for (multiple, size, maximum) in [(1.0, 1_024, 4_096), (1.0, 1_025, 5_025), (2.0, 1_025, 6_050)] {
        let settings = Settings { flash: Flash::On { multiple, threshold: 0.25 }, ..small_settings() };
        let mut m = open(8, Mode::Alone, 1, settings);
        for address in 0..4 {
            insert(&mut m, address, 1_000).unwrap();
        }
        insert(&mut m, 9, size).unwrap();
        assert_eq!(m.maximum, maximum);
    }
}

#[test]
fn p9_to_p11() {
    let mut m = open(4, Mode::Lead, 1_000, small_settings());
    insert(&mut m, 1, 1_000).unwrap();
    assert!(!m.report().due);
    insert(&mut m, 2, 200).unwrap();
    assert!(m.report().due);
    let mut m = open(4, Mode::Standby, 1_000, small_settings());
    insert(&mut m, 100, 1).unwrap();
    assert_eq!(m.step(&Request::Take, &message::write(1, &[100, 100]), 0).unwrap_err().number, 13);
    assert_eq!(insert(&mut m, ALL_ONES, 0), Err(3));
    let mut m = open(2, Mode::Lead, 1_000, small_settings());
    insert(&mut m, 1, 100).unwrap();
    insert(&mut m, 2, 100).unwrap();
    assert_eq!(insert(&mut m, 3, 100), Err(11));
    step(&mut m, Request::Flush).unwrap();
    assert_eq!(insert(&mut m, 3, 100), Ok(vec![Order::Evict { address: 1, size: 100 }]));
}

const MODES: [Mode; 3] = [Mode::Alone, Mode::Lead, Mode::Standby];

/// A cache with 4,096 bytes, half of them the minimum clean bytes.
fn half_clean(mode: Mode, evictions: bool) -> Model {
    open(4, mode, 262_144, Settings { evictions, clean_fraction: 0.5, ..small_settings() })
}

fn half_clean_in_each_mode() -> impl Iterator<Item = Model> {
    MODES.into_iter().flat_map(|mode| [true, false].map(|evictions| half_clean(mode, evictions)))
}

/// A clean entry comes into the recency list.
fn load(m: &mut Model, address: u64, size: u64) {
    read(m, address, size).unwrap();
    release(m, address).unwrap();
}

#[test]
fn bytes_missing_while_all_is_dirty() {
    for mut m in half_clean_in_each_mode() {
        assert_eq!((m.report().minimum_clean, m.report().missing), (2_048, 0));
        insert(&mut m, 100, 3_000).unwrap();
        assert_eq!(m.report().missing, 952);
        match m.mode {
            Mode::Standby => m.step(&Request::Take, &message::write(1, &[100]), 0).map_err(|r| r.number),
            _ => step(&mut m, Request::Flush),
        }
        .unwrap();
        assert_eq!(m.report().missing, 0);
    }
    for mut m in half_clean_in_each_mode() {
        insert(&mut m, 100, 5_000).unwrap();
        assert_eq!((m.report().held, m.report().missing), (5_000, 2_048));
    }
}

#[test]
fn one_byte_missing_and_none() {
    for (clean, missing) in [(2_047, 1), (2_048, 0)] {
        for mut m in half_clean_in_each_mode() {
            load(&mut m, 100, clean);
            insert(&mut m, 200, 4_096 - clean).unwrap();
            assert_eq!((m.report().held, m.report().missing), (4_096, missing));
        }
    }
    // With unused bytes beside the clean ones.
    for (dirty, missing) in [(2_048, 0), (2_049, 1)] {
        for mut m in half_clean_in_each_mode() {
            load(&mut m, 100, 1_000);
            insert(&mut m, 200, dirty).unwrap();
            assert_eq!(m.report().missing, missing);
        }
    }
}

#[test]
fn clean_bytes_held_or_pinned_are_missing() {
    for mut m in half_clean_in_each_mode() {
        read(&mut m, 100, 3_000).unwrap();
        assert_eq!(m.report().missing, 952);
        step(&mut m, Request::Pin { address: 100 }).unwrap();
        assert_eq!(m.report().missing, 952);
        release(&mut m, 100).unwrap();
        assert_eq!((m.report().dirty, m.report().missing), (0, 952));
        step(&mut m, Request::Unpin { address: 100 }).unwrap();
        assert_eq!(m.report().missing, 0);
    }
}

#[test]
fn sync_writes_until_no_byte_is_missing() {
    let mut r = Random::new(7);
    let mut written = 0;
    for _ in 0..20_000 {
        let rows = r.between(1, 12) as usize;
        let mut m = requests::state(&mut r, rows, Mode::Lead, Scale::Tight);
        let missing = m.report().missing;
        let Ok(orders) = step(&mut m, Request::Sync) else { continue };
        let sizes: Vec<u64> = orders.iter().map(|order| order.words()[2]).collect();
        let any_dirty = m.recency.iter().any(|a| m.entries[a].dirty);
        let left = missing.saturating_sub(sizes.iter().sum());
        assert!(left == 0 || !any_dirty);
        if let Some((_, before_last)) = sizes.split_last() {
            assert!(before_last.iter().sum::<u64>() < missing);
        }
        assert_eq!(m.report().missing, left);
        written += orders.len();
    }
    assert!(written > 5_000, "{written} orders");
}

/// The small setup with a maximum that doubles at rates below 0.9.
fn growing_settings() -> Settings {
    Settings { increase: Increase::Threshold { lower: 0.9, multiplier: 2.0 }, ..small_settings() }
}

/// With entries of these sizes inserted in turn, at 100, 200 and so on.
fn with_inserts(rows: u64, settings: Settings, sizes: &[u64]) -> Model {
    let mut m = open(rows, Mode::Alone, 262_144, settings);
    for (address, size) in (100..).step_by(100).zip(sizes) {
        insert(&mut m, address, *size).unwrap();
    }
    m
}

/// An epoch ends with so many hits of 100, the last of them at the address, which stays held.
fn end_epoch(m: &mut Model, hits: u64, address: u64) {
    (m.accesses, m.hits) = (99, hits - 1);
    read(m, address, 1).unwrap();
    assert_eq!((m.accesses, m.hits), (0, 0));
}

/// A clean entry is loaded and pinned.
fn load_pinned(m: &mut Model, address: u64, size: u64) {
    read(m, address, size).unwrap();
    step(m, Request::Pin { address }).unwrap();
    release(m, address).unwrap();
}

fn held_and_exceeded(m: &Model) -> (u64, bool) {
    (m.held(), m.exceeded)
}

#[test]
fn full_by_exceeding_or_by_held_bytes() {
    for (third, held, exceeded, maximum) in
        [(500, 1_500, true, 8_192), (97, 1_097, true, 8_192), (96, 4_096, false, 8_192), (95, 4_095, false, 4_096)]
    {
        let mut m = with_inserts(4, growing_settings(), &[3_000, 1_000, third]);
        assert_eq!(held_and_exceeded(&m), (held, exceeded));
        end_epoch(&mut m, 89, 200);
        assert_eq!((m.maximum, m.exceeded), (maximum, false));
        // Nothing was above the maximum since.
        end_epoch(&mut m, 89, 200);
        assert_eq!(m.maximum, maximum);
    }
    let mut m = with_inserts(4, growing_settings(), &[3_000, 1_000, 500]);
    end_epoch(&mut m, 90, 200);
    assert_eq!((m.maximum, m.exceeded), (4_096, false));
}

#[test]
fn exceeded_with_nothing_to_evict() {
    // With the increase rule on, and with no rule.
    for mode in MODES {
        for settings in [growing_settings(), small_settings()] {
            let mut m = open(4, mode, 262_144, settings);
            assert_eq!(insert(&mut m, 100, 5_000), Ok(vec![]));
            assert_eq!(held_and_exceeded(&m), (5_000, true));
        }
    }
    // All pinned, and all dirty.
    for mode in MODES {
        let mut m = open(4, mode, 262_144, growing_settings());
        load_pinned(&mut m, 100, 3_000);
        assert_eq!(insert(&mut m, 200, 1_097), Ok(vec![]));
        assert_eq!(held_and_exceeded(&m), (4_097, true));
    }
    for mode in [Mode::Lead, Mode::Standby] {
        let mut m = open(4, mode, 262_144, growing_settings());
        insert(&mut m, 100, 3_000).unwrap();
        assert_eq!(insert(&mut m, 200, 1_097), Ok(vec![]));
        assert_eq!(held_and_exceeded(&m), (4_097, true));
    }
}

#[test]
fn exceeded_is_cleared_and_set_again_at_an_epochs_end() {
    let settings = Settings { decrease: Decrease::Threshold { upper: 0.95, multiplier: 0.5 }, ..growing_settings() };
    for exceeded_before in [false, true] {
        let mut m = open(4, Mode::Alone, 262_144, settings);
        load_pinned(&mut m, 100, 3_000);
        read(&mut m, 200, 10).unwrap();
        if exceeded_before {
            insert(&mut m, 300, 2_000).unwrap();
            step(&mut m, Request::Discard { address: 300 }).unwrap();
        }
        assert_eq!(held_and_exceeded(&m), (3_010, exceeded_before));
        end_epoch(&mut m, 100, 200);
        assert_eq!((m.maximum, m.exceeded), (2_048, true));
        // In the next epoch no room is made before its end, and held bytes are below the maximum: it grows.
        step(&mut m, Request::Resize { address: 100, size: 1_000 }).unwrap();
        end_epoch(&mut m, 89, 200);
        assert_eq!((m.held(), m.maximum, m.exceeded), (1_010, 4_096, false));
    }
}

#[test]
fn exceeded_is_cleared_by_a_flash_that_rises() {
    let flash = |multiple| Settings { flash: Flash::On { multiple, threshold: 0.25 }, ..growing_settings() };
    // The room after it has just enough, or not.
    for (multiple, size, maximum, exceeded) in [(1.0, 1_025, 5_025, false), (0.5, 1_025, 4_512, true)] {
        for exceeded_before in [false, true] {
            let mut m = with_inserts(8, flash(multiple), &[1_000; 4]);
            m.exceeded = exceeded_before;
            insert(&mut m, 900, size).unwrap();
            assert_eq!((m.maximum, m.exceeded), (maximum, exceeded));
        }
    }
    // Without a rise: at the threshold, and at maximum size.
    let at_maximum_size = Settings { maximum_size: 4_096, ..flash(1.0) };
    for (settings, size) in [(flash(1.0), 1_024), (at_maximum_size, 1_025)] {
        let mut m = with_inserts(8, settings, &[1_000, 1_000]);
        assert!(!m.exceeded);
        m.exceeded = true;
        insert(&mut m, 900, size).unwrap();
        assert_eq!((m.maximum, m.exceeded), (4_096, true));
    }
}

#[test]
fn exceeded_is_cleared_by_configure() {
    for (initial_size, exceeded) in [(2_999, true), (3_000, false), (4_096, false)] {
        for exceeded_before in [false, true] {
            let mut m = open(4, Mode::Alone, 262_144, growing_settings());
            load_pinned(&mut m, 100, 3_000);
            m.exceeded = exceeded_before;
            step(&mut m, Request::Configure(Settings { initial_size, ..growing_settings() })).unwrap();
            assert_eq!((m.maximum, m.exceeded), (initial_size, exceeded));
        }
    }
}

#[test]
fn what_does_not_set_exceeded() {
    // Rows that press alone.
    let mut m = with_inserts(2, growing_settings(), &[10, 10, 10]);
    assert_eq!(held_and_exceeded(&m), (20, false));
    end_epoch(&mut m, 89, 300);
    assert_eq!(m.maximum, 4_096);
    // Evictions off.
    let mut m = with_inserts(4, Settings { evictions: false, ..small_settings() }, &[5_000, 10]);
    assert_eq!(held_and_exceeded(&m), (5_010, false));
    read(&mut m, 100, 1).unwrap();
    release(&mut m, 100).unwrap();
    assert!(!m.exceeded);
    // Resize, pin, unpin, sync, flush and a refused insert; a release sets it.
    let mut m = open(2, Mode::Lead, 262_144, growing_settings());
    load_pinned(&mut m, 100, 3_000);
    insert(&mut m, 200, 10).unwrap();
    for request in [Request::Resize { address: 100, size: 5_000 }, Request::Sync, Request::Flush] {
        step(&mut m, request).unwrap();
        assert!(!m.exceeded);
    }
    step(&mut m, Request::Protect { writing: true, address: 200, size: 10 }).unwrap();
    assert_eq!(insert(&mut m, 300, 10), Err(11));
    step(&mut m, Request::Pin { address: 200 }).unwrap();
    step(&mut m, Request::Unpin { address: 200 }).unwrap();
    assert_eq!(held_and_exceeded(&m), (5_010, false));
    release(&mut m, 200).unwrap();
    assert_eq!(held_and_exceeded(&m), (5_000, true));
}

/// 12 entries are 97 percent of 4,096 bytes, and each access misses.
#[test]
fn a_world_at_97_percent_grows() {
    for mode in MODES {
        let mut m = open(64, mode, 262_144, growing_settings());
        for access in 0..200 {
            load(&mut m, access, 331);
            assert!(m.held() < m.maximum);
            assert_eq!(m.maximum, [4_096, 8_192, 16_384][(access as usize + 1) / 100]);
            assert_eq!(m.exceeded, (12..99).contains(&access) || (112..199).contains(&access));
        }
    }
}

#[test]
fn exceeded_stands_in_word_9() {
    let mut words = picture(&small());
    assert_eq!((words[0], words[EXCEEDED], words[SETTINGS], words.len()), (VERSION, 0, 1, 31 + 8 * 4));
    for (word, exceeded) in [(0, Some(false)), (1, Some(true)), (2, None), (u64::MAX, None), (1 << 32, None)] {
        words[9] = word;
        assert_eq!(judge(&words).map(|m| m.exceeded), exceeded);
    }
}

/// The layout before had no such word, and the version before.
#[test]
fn a_table_in_the_layout_before_is_no_cache() {
    let words = picture(&small());
    let before = [&[0x5350_4c44_5654_0002], &words[1..9], &words[10..]].concat();
    assert!(judge(&before).is_none());
    assert!(judge(&[&before[..], &[0; 8]].concat()).is_none());
    assert!(judge(&[&before[..1], &words[1..]].concat()).is_none());
}

#[test]
fn an_entry_used_in_one_epoch_goes_at_the_end_of_the_next() {
    let settings = Settings { decrease: Decrease::AgeOut { epochs: 1, reserve: 1.0 }, ..small_settings() };
    let mut m = open(4, Mode::Alone, 1, settings);
    insert(&mut m, 1, 10).unwrap();
    for access in 1..=200 {
        read(&mut m, 2, 10).unwrap();
        release(&mut m, 2).unwrap();
        assert_eq!(m.entries.contains_key(&1), access < 200);
    }
}

#[test]
fn the_default_settings_are_those_of_the_crate() {
    use speldervacht::Mode::{Alone, Lead, Standby};
    for (mode, its) in MODES.into_iter().zip([Alone, Lead, Standby]) {
        let mine = picture(&open(1, mode, speldervacht::DEFAULT_THRESHOLD, Settings::default_values(mode)));
        let mut table = vec![0; table_words(1)];
        let settings = speldervacht::Settings::defaults(its);
        speldervacht::open(&mut table, 1, its, speldervacht::DEFAULT_THRESHOLD, &settings).unwrap();
        assert_eq!(table, mine, "{mode:?}");
    }
}

#[test]
fn the_judge_finds_what_was_pictured() {
    let mut r = Random::new(5);
    for _ in 0..3_000 {
        let rows = r.between(1, 40) as usize;
        let scale = Scale::any(&mut r);
        let mode = r.pick(&MODES);
        let state = requests::state(&mut r, rows, mode, scale);
        let mut words = picture(&state);
        assert_eq!(words.len(), table_words(rows));
        let judged = judge(&words).unwrap();
        assert_eq!((judged.entries, judged.recency), (state.entries, state.recency));
        assert_eq!((judged.next, judged.exceeded), (state.next, state.exceeded));
        assert!(judge(&words[..words.len() - 1]).is_none());
        // Damaged words picture nothing, or they are the picture of what they picture.
        for (at, word) in requests::damage(&mut r, &words, rows) {
            words[at] = word;
        }
        if let Some(judged) = judge(&words) {
            let again = picture(&judged);
            assert_eq!(again, words[..again.len()]);
        }
    }
}
