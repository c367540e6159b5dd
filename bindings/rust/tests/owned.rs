//! A cache that owns its words, beside the functions over lent words and a plain reading of these.

#[path = "host/random.rs"]
mod random;

use random::Random;
use speldervacht::{
    ask, open, order_words, report, step, table_words, Access, Cache, Decrease, Entry, Flash, Hold, Increase, Message,
    Mode, Order, OrderKind, Refusal, Request, Settings, View, LARGEST_ENTRY, NO_ADDRESS,
};

const ROWS: usize = 6;
const THRESHOLD: u64 = 1_000;

fn settings() -> Settings {
    Settings {
        initial_size: Some(2_048),
        clean_fraction: 0.3,
        maximum_size: 4_096,
        minimum_size: 1_024,
        epoch_length: 100,
        increase: Increase::Threshold { lower: 0.3, multiplier: 1.5 },
        increase_cap: None,
        flash: Flash::On { multiple: 1.0, threshold: 0.2 },
        decrease: Decrease::AgeOutWithThreshold { upper: 0.4, epochs: 1, reserve: 0.1 },
        ..Settings::defaults(Mode::Alone)
    }
}

/// A message of some of the dirty records, now and then with a wrong number, or cut short.
fn some_message(random: &mut Random, cache: &Cache) -> Vec<u8> {
    let dirty: Vec<u64> = cache.dirty().map(|entry| entry.address).collect();
    let number = cache.next_number() + u64::from(random.below(5) == 0);
    let mut bytes = Message::new(number, &dirty[..random.below(dirty.len() + 1)]).unwrap().into_bytes();
    if random.below(5) == 0 {
        bytes.truncate(random.below(bytes.len()));
    }
    bytes
}

fn some_request<'m>(random: &mut Random, message: &'m [u8]) -> Request<'m> {
    let address = if random.below(50) == 0 { NO_ADDRESS } else { random.below(10) as u64 };
    let size = if random.below(50) == 0 { LARGEST_ENTRY + 1 } else { 1 + random.below(500) as u64 };
    match random.below(40) {
        0..=4 => Request::Insert { address, size },
        5..=14 => Request::ProtectForReading { address, size },
        15..=17 => Request::ProtectForWriting { address, size },
        18..=25 => Request::ReleaseUnchanged { address },
        26..=28 => Request::ReleaseChanged { address, size },
        29 => Request::Pin { address },
        30..=31 => Request::Unpin { address },
        32..=33 => Request::Resize { address, size },
        34 => Request::Discard { address },
        35 => Request::Flush,
        36 => Request::Sync,
        37..=38 => Request::Take { message },
        _ => Request::Configure { settings: Settings { epoch_length: 100 + size, ..settings() } },
    }
}

/// Does a request by the method that it has.
fn by_method(cache: &mut Cache, request: &Request) -> Result<Vec<Order>, Refusal> {
    let none = |_: ()| Vec::new();
    let protected = |access: Access, orders: Vec<Order>| {
        let loads = orders.iter().any(|order| order.kind == OrderKind::Load);
        assert_eq!(access, if loads { Access::Miss } else { Access::Hit });
        orders
    };
    match *request {
        Request::Insert { address, size } => cache.insert(address, size).map(Iterator::collect),
        Request::ProtectForReading { address, size } => {
            cache.protect_for_reading(address, size).map(|told| protected(told.access, told.orders.collect()))
        }
        Request::ProtectForWriting { address, size } => {
            cache.protect_for_writing(address, size).map(|told| protected(told.access, told.orders.collect()))
        }
        Request::ReleaseUnchanged { address } => cache.release(address).map(Iterator::collect),
        Request::ReleaseChanged { address, size } => cache.release_changed(address, size).map(Iterator::collect),
        Request::Pin { address } => cache.pin(address).map(none),
        Request::Unpin { address } => cache.unpin(address).map(none),
        Request::Resize { address, size } => cache.resize(address, size).map(none),
        Request::Discard { address } => cache.discard(address).map(none),
        Request::Flush => cache.flush().map(Iterator::collect),
        Request::Sync => cache.sync().map(Iterator::collect),
        Request::Take { message } => cache.take(message).map(none),
        Request::Configure { settings } => cache.configure(&settings).map(Iterator::collect),
    }
}

type Fields = (u64, u64, bool, u64, bool, Option<Hold>);

fn fields(entry: Entry) -> Fields {
    (entry.address, entry.size, entry.dirty, entry.idle, entry.pinned, entry.hold)
}

/// A row as docs/LAYOUT.md has it. A free one has size 0.
fn row(words: &[u64], row: usize) -> Fields {
    let row = &words[31 + 6 * row..37 + 6 * row];
    let hold = match row[5] {
        0 => None,
        65_536 => Some(Hold::Writer),
        readers => Some(Hold::Readers(readers)),
    };
    (row[0], row[1], row[2] == 1, row[3], row[4] == 1, hold)
}

/// The cache's views are what its words say.
fn views_agree(cache: &Cache) {
    let words = cache.as_words();
    let mut by_address: Vec<Fields> = (0..ROWS).map(|r| row(words, r)).filter(|row| row.1 != 0).collect();
    by_address.sort_by_key(|row| row.0);
    assert_eq!(cache.entries().map(fields).collect::<Vec<_>>(), by_address);
    assert_eq!(cache.entries().len(), by_address.len());
    assert!(cache.entries().rev().map(fields).eq(by_address.iter().rev().copied()));
    assert!(cache.dirty().map(fields).eq(by_address.iter().filter(|row| row.2).copied()));
    for address in (0..12).chain([NO_ADDRESS]) {
        assert_eq!(cache.get(address).map(fields), by_address.iter().find(|row| row.0 == address).copied());
    }
    assert_eq!(cache.next_number(), words[8]);
    let run = words[31 + 6 * ROWS..31 + 7 * ROWS].iter().take_while(|row| **row != u64::MAX);
    assert!(cache.recency().map(fields).eq(run.map(|r| row(words, *r as usize))));
}

/// What is missing of the clean share is what the entries say. Gives it.
fn missing_agrees(cache: &Cache) -> u64 {
    let figures = cache.report().unwrap();
    let clean: u64 = cache.recency().filter(|entry| !entry.dirty).map(|entry| entry.size).sum();
    let unused = figures.maximum.saturating_sub(figures.held);
    assert_eq!(figures.missing_clean, figures.minimum_clean.saturating_sub(clean + unused));
    figures.missing_clean
}

#[test]
fn a_cache_answers_as_the_functions_over_lent_words() {
    for (seed, mode) in [Mode::Alone, Mode::Lead, Mode::Standby].into_iter().cycle().take(30).enumerate() {
        let mut random = Random::new(seed as u64 + 1);
        let builder = Cache::builder().rows(ROWS).mode(mode).threshold(THRESHOLD).settings(settings());
        let mut cache = builder.open().unwrap();
        let (mut table, mut orders) = (vec![0; table_words(ROWS)], vec![0; order_words(ROWS)]);
        open(&mut table, ROWS, mode, THRESHOLD, &settings()).unwrap();
        assert_eq!((cache.rows(), cache.mode(), cache.threshold()), (ROWS, mode, THRESHOLD));
        let mut missing = 0;
        for _ in 0..1_000 {
            let message = some_message(&mut random, &cache);
            let request = some_request(&mut random, &message);
            assert_eq!(cache.ask(&request), ask(&table, orders.len(), &request));
            let as_value = cache.clone().step(&request).map(Iterator::collect);
            let answer: Result<Vec<Order>, Refusal> = step(&mut table, &mut orders, &request).map(Iterator::collect);
            assert_eq!(as_value, answer, "{request:?}");
            assert_eq!(by_method(&mut cache, &request), answer, "{request:?}");
            assert_eq!(cache.as_words(), table);
            assert_eq!(cache.report(), report(&table));
            views_agree(&cache);
            missing += u64::from(missing_agrees(&cache) > 0);
        }
        assert!(missing > 0, "{mode:?}, seed {seed}: no clean byte was ever missing");
    }
}

#[test]
fn words_make_the_cache_again() {
    let mut cache = Cache::builder().rows(2).settings(settings()).open().unwrap();
    cache.insert(100, 300).unwrap();
    assert_eq!(Cache::from_words(cache.as_words()).as_ref(), Ok(&cache));
    // Words past the layout's end are the caller's: they are cut off.
    let longer = [cache.as_words(), &[7; 5]].concat();
    assert_eq!(View::of(&longer).unwrap().as_words(), cache.as_words());
    assert_eq!(Cache::from_words(longer).unwrap().as_words(), cache.as_words());
    // The copy is a cache of its own.
    let mut copy = cache.clone();
    copy.discard(100).unwrap();
    assert!(copy != cache && cache.get(100).is_some() && copy.get(100).is_none());
}

#[test]
fn damaged_words_make_no_cache() {
    let mut cache = Cache::builder().rows(2).settings(settings()).open().unwrap();
    cache.insert(100, 300).unwrap();
    let words = cache.as_words();
    // A bit of the layout's number, of the row count, of what is 0 or 1, of an idle count and of a run.
    for (word, bit) in [(0, 0), (1, 1), (9, 1), (9, 63), (34, 5), (43, 0), (46, 63)] {
        let mut damaged = words.to_vec();
        damaged[word] ^= 1 << bit;
        assert_eq!(Cache::from_words(damaged.clone()), Err(Refusal::BadTable), "word {word}");
        assert!(View::of(&damaged).is_err(), "word {word}");
    }
    for short in 0..words.len() {
        assert_eq!(Cache::from_words(&words[..short]), Err(Refusal::BadTable), "{short} words");
    }
}

#[test]
fn opening_is_refused_as_over_lent_words() {
    let builder = Cache::builder();
    for rows in [0, 4_097, usize::MAX] {
        assert_eq!(builder.rows(rows).open(), Err(Refusal::BadTable), "{rows} rows");
    }
    assert!(builder.rows(4_096).open().is_ok());
    assert_eq!(builder.threshold(0).open(), Err(Refusal::BadThreshold { threshold: 0 }));
    let unset = Settings { initial_size: None, ..Settings::defaults(Mode::Alone) };
    assert_eq!(builder.settings(unset).open(), Err(Refusal::BadSetting { field: 2 }));
}

#[test]
fn debug_tells_the_figures() {
    let mut cache = Cache::builder().rows(2).mode(Mode::Lead).settings(settings()).open().unwrap();
    cache.insert(100, 300).unwrap();
    let told = "Cache { mode: Lead, rows: 2, entries: 1, held: 300, dirty: 300, maximum: 2048, count: 300, \
                threshold: 262144, next: 1, .. }";
    assert_eq!(format!("{cache:?}"), told);
}
