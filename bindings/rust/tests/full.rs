//! When a cache is full, so that a poor epoch raises its maximum: held bytes reach the maximum, or since the
//! counters restarted making room found held plus incoming bytes above it.

use speldervacht::{
    batch, open, order_words, table_words, Access, Cache, Decrease, Flash, Increase, Mode, Order, PlainRequest,
    Refusal, Request, Settings, View,
};

/// Where a table has whether making room found the maximum exceeded: 0 or 1.
const EXCEEDED: usize = 9;
const EPOCH: u64 = 100;
/// Hits of an epoch, below 0.9 of its accesses.
const POOR: u64 = 89;
const MODES: [Mode; 3] = [Mode::Alone, Mode::Lead, Mode::Standby];

/// The maximum of 4,096 bytes doubles at the end of an epoch with less than 90 hits, if the cache is full.
fn growing() -> Settings {
    Settings {
        clean_fraction: 0.0,
        minimum_size: 1_024,
        maximum_size: 16_384,
        epoch_length: EPOCH,
        increase: Increase::Threshold { lower: 0.9, multiplier: 2.0 },
        increase_cap: None,
        ..Settings::fixed(Mode::Alone, 4_096)
    }
}

fn opened(mode: Mode, settings: Settings) -> Cache {
    let cache = Cache::builder().rows(4).mode(mode).settings(settings).open().unwrap();
    assert!(!exceeded(&cache), "a fresh cache was not exceeded");
    cache
}

fn exceeded(cache: &Cache) -> bool {
    cache.as_words()[EXCEEDED] != 0
}

/// An insert, and its orders.
fn insert(cache: &mut Cache, address: u64, size: u64) -> Vec<String> {
    cache.insert(address, size).unwrap().map(|order: Order| order.to_string()).collect()
}

fn read(cache: &mut Cache, address: u64, size: u64) -> Access {
    let access = cache.protect_for_reading(address, size).unwrap().access;
    cache.release(address).unwrap();
    access
}

/// So many misses: a record of one byte comes and goes.
fn misses(cache: &mut Cache, count: u64) {
    for _ in 0..count {
        assert_eq!(read(cache, 900, 1), Access::Miss);
        cache.discard(900).unwrap();
    }
}

/// The maximum after so many hits of one record.
fn maximum_after(cache: &mut Cache, address: u64, hits: u64) -> u64 {
    for _ in 0..hits {
        assert_eq!(read(cache, address, 1), Access::Hit);
    }
    cache.report().unwrap().maximum
}

/// The maximum at the end of a poor epoch that begins now.
fn maximum_after_poor(cache: &mut Cache, address: u64) -> u64 {
    misses(cache, EPOCH - POOR);
    maximum_after(cache, address, POOR)
}

#[test]
fn a_world_at_97_percent_with_few_hits_grows() {
    // Each access misses, or the first few do.
    for (mode, count) in MODES.into_iter().flat_map(|mode| [(mode, EPOCH), (mode, EPOCH - POOR)]) {
        let mut cache = opened(mode, growing());
        for (address, size) in [(100, 1_324), (200, 1_324), (300, 1_325)] {
            // Clean, so that any of them can be evicted.
            assert_eq!(read(&mut cache, address, size), Access::Miss);
        }
        assert_eq!((cache.report().unwrap().held, exceeded(&cache)), (3_973, false));
        for access in 4..=EPOCH {
            assert_eq!(cache.report().unwrap().maximum, 4_096, "{mode:?}, before access {access}");
            cache.protect_for_reading(1_000 + access.min(count), 1_325).unwrap();
            assert!(cache.report().unwrap().held < 4_096, "{mode:?}: held bytes stay below the maximum");
            cache.release(1_000 + access.min(count)).unwrap();
        }
        assert_eq!(cache.report().unwrap().maximum, 8_192, "{mode:?}, {count} misses");
    }
}

#[test]
fn a_cache_that_made_room_is_full_until_the_epoch_ends() {
    for (hits, maximum) in [(POOR, 8_192), (POOR + 1, 4_096)] {
        let mut cache = opened(Mode::Alone, growing());
        misses(&mut cache, EPOCH - hits);
        assert_eq!(insert(&mut cache, 100, 3_000), [""; 0]);
        assert_eq!(insert(&mut cache, 200, 1_000), [""; 0]);
        assert!(!exceeded(&cache));
        assert_eq!(insert(&mut cache, 300, 500), ["write 100 3000", "write 200 1000", "evict 100 3000"]);
        assert!(exceeded(&cache));
        assert_eq!(maximum_after(&mut cache, 300, hits), maximum, "{hits} hits");
        assert!(!exceeded(&cache));
        assert_eq!(maximum_after_poor(&mut cache, 300), maximum, "an epoch that finds nothing, after {hits} hits");
    }
}

#[test]
fn held_bytes_at_the_maximum_are_full_while_they_are_there() {
    // The last insert, whether it stays, and the maximum after a poor epoch.
    for (size, stays, maximum) in [
        (95, true, 4_096),
        (95, false, 4_096),
        (96, true, 8_192),
        (96, false, 4_096),
        (97, true, 8_192),
        (97, false, 8_192),
    ] {
        let mut cache = opened(Mode::Alone, growing());
        misses(&mut cache, EPOCH - POOR);
        insert(&mut cache, 100, 3_000);
        insert(&mut cache, 200, 1_000);
        insert(&mut cache, 300, size);
        assert_eq!(exceeded(&cache), size == 97);
        if !stays {
            cache.discard(300).unwrap();
        }
        assert_eq!(maximum_after(&mut cache, 200, POOR), maximum, "{size} bytes, {stays}");
    }
}

#[test]
fn what_is_found_counts_if_nothing_can_be_evicted() {
    for mode in MODES {
        let mut cache = opened(mode, growing());
        assert_eq!(insert(&mut cache, 100, 5_000), [""; 0]);
        cache.discard(100).unwrap();
        insert(&mut cache, 200, 10);
        assert_eq!(maximum_after_poor(&mut cache, 200), 8_192, "{mode:?}, an empty cache");
        assert!(!exceeded(&cache));
        insert(&mut cache, 100, 4_000);
        assert_eq!(insert(&mut cache, 300, 5_000).is_empty(), mode != Mode::Alone);
        cache.discard(100).unwrap();
        cache.discard(300).unwrap();
        insert(&mut cache, 400, 10);
        assert_eq!(maximum_after_poor(&mut cache, 400), 16_384, "{mode:?}, dirty records");
    }
}

#[test]
fn rows_and_resizes_find_nothing() {
    let mut cache = opened(Mode::Alone, growing());
    for address in 1..=5 {
        assert_eq!(insert(&mut cache, address, 100).is_empty(), address <= 4);
    }
    assert_eq!(maximum_after_poor(&mut cache, 5), 4_096);
    for (size, maximum) in [(10, 4_096), (5_000, 8_192)] {
        let mut cache = opened(Mode::Alone, growing());
        misses(&mut cache, EPOCH - POOR - 1);
        cache.protect_for_writing(100, 10).unwrap();
        cache.resize(100, 5_000).unwrap();
        cache.resize(100, 10).unwrap();
        assert!(!exceeded(&cache), "a resize makes no room");
        cache.release_changed(100, size).unwrap();
        insert(&mut cache, 200, 10);
        assert_eq!(maximum_after(&mut cache, 200, POOR), maximum, "released with {size} bytes");
    }
    let mut cache = opened(Mode::Alone, Settings { evictions: false, increase: Increase::Off, ..growing() });
    insert(&mut cache, 100, 5_000);
    assert!(!exceeded(&cache), "with evictions off no room is made");
}

/// A record of 3,000 bytes that is pinned.
fn insert_pinned(cache: &mut Cache) {
    cache.protect_for_reading(100, 3_000).unwrap();
    cache.pin(100).unwrap();
    cache.release(100).unwrap();
}

#[test]
fn a_configure_clears_what_was_found_and_then_makes_room() {
    let mut cache = opened(Mode::Alone, growing());
    insert(&mut cache, 100, 5_000);
    cache.discard(100).unwrap();
    insert(&mut cache, 200, 10);
    assert!(exceeded(&cache));
    cache.configure(&growing()).unwrap();
    assert!(!exceeded(&cache));
    assert_eq!(maximum_after_poor(&mut cache, 200), 4_096);

    let mut cache = opened(Mode::Alone, growing());
    insert_pinned(&mut cache);
    cache.configure(&Settings { initial_size: Some(2_048), ..growing() }).unwrap();
    assert!(exceeded(&cache), "3,000 bytes, and a maximum of 2,048");
    cache.resize(100, 10).unwrap();
    assert_eq!(maximum_after_poor(&mut cache, 100), 4_096);
}

#[test]
fn an_epochs_end_clears_what_was_found_and_then_makes_room() {
    let decrease = Decrease::Threshold { upper: 0.95, multiplier: 0.5 };
    let mut cache = opened(Mode::Alone, Settings { decrease, decrease_cap: None, ..growing() });
    insert_pinned(&mut cache);
    assert_eq!(maximum_after(&mut cache, 100, EPOCH - 2), 4_096);
    cache.protect_for_writing(100, 1).unwrap();
    assert_eq!((cache.report().unwrap().maximum, exceeded(&cache)), (2_048, true));
    cache.resize(100, 10).unwrap();
    cache.release(100).unwrap();
    assert_eq!(maximum_after_poor(&mut cache, 100), 4_096);
}

#[test]
fn a_flash_clears_what_was_found_if_it_raises_the_maximum() {
    for (rises, flashed, maximum) in [(true, 5_025, 5_025), (false, 4_096, 8_192)] {
        let flash = Flash::On { multiple: 1.0, threshold: 0.25 };
        let mut cache = opened(Mode::Alone, Settings { flash, ..growing() });
        for address in 1..=5 {
            insert(&mut cache, address, 1_000);
        }
        assert!(exceeded(&cache) && cache.report().unwrap().maximum == 4_096);
        if !rises {
            // Free space for all that comes.
            (2..=4).for_each(|address| cache.discard(address).unwrap());
        }
        insert(&mut cache, 6, 1_025);
        assert_eq!((cache.report().unwrap().maximum, exceeded(&cache)), (flashed, !rises));
        assert_eq!(maximum_after_poor(&mut cache, 6), maximum);
    }
}

#[test]
fn the_word_is_0_or_1() {
    for (mode, evictions) in MODES.into_iter().flat_map(|mode| [(mode, true), (mode, false)]) {
        let mut table = vec![7; table_words(4)];
        let mut orders = vec![9; order_words(4)];
        let settings = Settings { evictions, clean_fraction: 0.3, ..Settings::fixed(mode, 4_096) };
        open(&mut table, 4, mode, 1, &settings).unwrap();
        for flag in [0, 1] {
            table[EXCEEDED] = flag;
            assert_eq!(Cache::from_words(table.clone()).unwrap().as_words(), table);
            speldervacht::step(&mut table, &mut [], &Request::Discard { address: 1 }).unwrap();
            assert_eq!(batch(&mut table, &mut [], &[PlainRequest::discard(1)], &mut [[0; 2]]).unwrap().len(), 1);
            assert_eq!(table[EXCEEDED], flag);
        }
        for damaged in [2, 3, 1 << 32, 1 << 63, u64::MAX] {
            table[EXCEEDED] = damaged;
            let before = table.clone();
            let insert = Request::Insert { address: 100, size: 10 };
            assert_eq!(speldervacht::ask(&table, orders.len(), &insert), Err(Refusal::BadTable));
            assert_eq!(speldervacht::step(&mut table, &mut orders, &insert).unwrap_err(), Refusal::BadTable);
            assert_eq!(speldervacht::report(&table), Err(Refusal::BadTable));
            assert!(View::of(&table).is_err() && Cache::from_words(table.clone()).is_err());
            let mut answers = [[5; 2]];
            let told = batch(&mut table, &mut orders, &[PlainRequest::insert(100, 10)], &mut answers).err();
            assert_eq!(told, Some(Refusal::BadTable));
            assert_eq!((table.clone(), answers), (before, [[5; 2]]), "a refusal changes nothing");
            assert!(orders.iter().all(|word| *word == 9));
        }
    }
}
