//! The worked cases of the rules, and every refusal, through the safe functions. Each request is asked
//! about before it is done.

use speldervacht::{
    ask, open, order_words, raw, report, table_words, Decrease, Flash, Hold, Increase, Message, Mode, Order, Refusal,
    Request, Settings, COUNT_STOP, DEFAULT_THRESHOLD, LARGEST_ENTRY, LARGEST_THRESHOLD, MOST_ROWS, NO_ADDRESS,
};

/// What asking tells. It changes no word.
fn checked_ask(table: &[u64], order_words: usize, request: &Request) -> Result<(), Refusal> {
    let before = table.to_vec();
    let told = ask(table, order_words, request);
    assert_eq!(table, before, "asking changes nothing");
    told
}

/// Does a request. It is answered what asking told before, and a refusal changes nothing.
fn step(table: &mut [u64], orders: &mut [u64], request: &Request) -> Result<Vec<Order>, Refusal> {
    let told = checked_ask(table, orders.len(), request);
    let before = (table.to_vec(), orders.to_vec());
    let answer = speldervacht::step(table, orders, request).map(|given| given.collect::<Vec<Order>>());
    assert_eq!(answer.as_ref().map(|_| ()).map_err(|refusal| *refusal), told, "the answer is what asking told");
    if answer.is_err() {
        assert_eq!((table.to_vec(), orders.to_vec()), before, "a refusal changes nothing");
    }
    answer
}

struct Cache {
    table: Vec<u64>,
    orders: Vec<u64>,
}

impl Cache {
    fn open(rows: usize, mode: Mode, threshold: u64, settings: &Settings) -> Cache {
        let mut cache = Cache { table: vec![7; table_words(rows)], orders: vec![9; order_words(rows)] };
        open(&mut cache.table, rows, mode, threshold, settings).unwrap();
        cache
    }

    /// Alone, maximum 4,096, between 1,024 and 16,384, clean fraction 0, no rules.
    fn small(rows: usize, mode: Mode) -> Cache {
        Cache::open(rows, mode, DEFAULT_THRESHOLD, &small())
    }

    /// The same, and half of the maximum is to be clean or unused.
    fn sharing(mode: Mode, evictions: bool) -> Cache {
        Cache::open(4, mode, DEFAULT_THRESHOLD, &Settings { clean_fraction: 0.5, evictions, ..small() })
    }

    /// What is missing of the clean share.
    fn missing(&self) -> u64 {
        report(&self.table).unwrap().missing_clean
    }

    fn step(&mut self, request: Request) -> Result<Vec<String>, u64> {
        match step(&mut self.table, &mut self.orders, &request) {
            Ok(orders) => Ok(orders.iter().map(Order::to_string).collect()),
            Err(refusal) => Err(refusal.number()),
        }
    }

    fn insert(&mut self, address: u64, size: u64) -> Result<Vec<String>, u64> {
        self.step(Request::Insert { address, size })
    }

    fn read(&mut self, address: u64, size: u64) -> Result<Vec<String>, u64> {
        self.step(Request::ProtectForReading { address, size })
    }

    fn write(&mut self, address: u64, size: u64) -> Result<Vec<String>, u64> {
        self.step(Request::ProtectForWriting { address, size })
    }

    fn release(&mut self, address: u64) -> Result<Vec<String>, u64> {
        self.step(Request::ReleaseUnchanged { address })
    }

    fn take(&mut self, message: &Message) -> Result<Vec<String>, u64> {
        self.step(Request::Take { message: message.as_bytes() })
    }

    fn refusal(&mut self, request: Request) -> String {
        step(&mut self.table, &mut self.orders, &request).unwrap_err().to_string()
    }
}

fn small() -> Settings {
    Settings {
        initial_size: Some(4_096),
        clean_fraction: 0.0,
        maximum_size: 16_384,
        minimum_size: 1_024,
        increase: Increase::Off,
        flash: Flash::Off,
        decrease: Decrease::Off,
        ..Settings::defaults(Mode::Alone)
    }
}

fn message(number: u64, list: &[u64]) -> Message {
    Message::new(number, list).unwrap()
}

const NONE: Result<Vec<String>, u64> = Ok(Vec::new());
const MODES: [Mode; 3] = [Mode::Alone, Mode::Lead, Mode::Standby];

#[test]
fn a_third_insert_writes_both_and_evicts_the_oldest() {
    let mut cache = Cache::small(4, Mode::Alone);
    assert_eq!(cache.insert(100, 3_000), NONE);
    assert_eq!(cache.insert(200, 1_000), NONE);
    assert_eq!(cache.insert(300, 500).unwrap(), ["write 100 3000", "write 200 1000", "evict 100 3000"]);
    let figures = report(&cache.table).unwrap();
    assert_eq!((figures.held, figures.dirty, figures.entries, figures.maximum), (1_500, 500, 2, 4_096));
    assert_eq!(figures.totals, [1_500, 0, 0, 0, 0, 0, 0, 0, 0, 0, 0]);
}

#[test]
fn what_fits_exactly_gives_no_orders() {
    let mut cache = Cache::small(4, Mode::Alone);
    cache.insert(100, 3_000).unwrap();
    cache.insert(200, 1_000).unwrap();
    assert_eq!(cache.insert(300, 96), NONE);
    let mut cache = Cache::small(4, Mode::Alone);
    cache.insert(100, 3_000).unwrap();
    cache.insert(200, 1_000).unwrap();
    assert_eq!(cache.insert(300, 97).unwrap(), ["write 100 3000", "write 200 1000", "evict 100 3000"]);
}

#[test]
fn a_pinned_entry_stays() {
    let mut cache = Cache::small(1, Mode::Alone);
    assert_eq!(cache.read(100, 10).unwrap(), ["load 100 10"]);
    cache.step(Request::Pin { address: 100 }).unwrap();
    cache.release(100).unwrap();
    assert_eq!(cache.insert(200, 10), Err(11));
    cache.step(Request::Unpin { address: 100 }).unwrap();
    assert_eq!(cache.insert(200, 10).unwrap(), ["evict 100 10"]);
}

#[test]
fn one_of_two_readers_still_holds() {
    let mut cache = Cache::small(4, Mode::Alone);
    cache.read(100, 10).unwrap();
    cache.read(100, 10).unwrap();
    cache.release(100).unwrap();
    assert_eq!(cache.step(Request::Discard { address: 100 }), Err(8));
    cache.release(100).unwrap();
    assert_eq!(cache.step(Request::Discard { address: 100 }), NONE);
}

#[test]
fn an_epoch_with_few_hits_in_a_full_cache_raises_the_maximum() {
    for (hits, maximum) in [(90, 4_096), (89, 6_144)] {
        let settings = Settings {
            epoch_length: 100,
            increase: Increase::Threshold { lower: 0.9, multiplier: 1.5 },
            increase_cap: None,
            ..small()
        };
        let mut cache = Cache::open(4, Mode::Alone, DEFAULT_THRESHOLD, &settings);
        // Two records take turns to miss; then the one that is there is hit.
        let misses = 100 - hits;
        for access in 0..100 {
            let address = access.min(misses - 1) % 2;
            cache.read(address, 4_096).unwrap();
            cache.release(address).unwrap();
        }
        assert_eq!(report(&cache.table).unwrap().maximum, maximum);
    }
}

#[test]
fn a_large_entry_raises_the_maximum_at_once() {
    for (size, maximum) in [(1_024, 4_096), (1_025, 5_025)] {
        let settings = Settings { flash: Flash::On { multiple: 1.0, threshold: 0.25 }, ..small() };
        let mut cache = Cache::open(4, Mode::Alone, DEFAULT_THRESHOLD, &settings);
        for address in 1..=4 {
            cache.insert(address, 1_000).unwrap();
        }
        cache.insert(5, size).unwrap();
        assert_eq!(report(&cache.table).unwrap().maximum, maximum);
    }
}

#[test]
fn idle_entries_age_out_at_the_end_of_the_next_epoch() {
    let settings = Settings { epoch_length: 100, decrease: Decrease::AgeOut { epochs: 1, reserve: 1.0 }, ..small() };
    let mut cache = Cache::open(4, Mode::Alone, DEFAULT_THRESHOLD, &settings);
    cache.insert(1, 10).unwrap();
    let mut given = Vec::new();
    for _ in 0..200 {
        given.push(cache.read(2, 10).unwrap());
        cache.release(2).unwrap();
    }
    assert_eq!(given[0], ["load 2 10"]);
    assert_eq!(given[99], [""; 0]);
    assert_eq!(given[199], ["write 1 10", "evict 1 10"]);
}

#[test]
fn a_list_is_due_above_the_threshold() {
    let mut cache = Cache::open(4, Mode::Lead, 1_000, &small());
    cache.insert(1, 1_000).unwrap();
    assert!(!report(&cache.table).unwrap().due);
    cache.insert(2, 200).unwrap();
    let figures = report(&cache.table).unwrap();
    assert_eq!((figures.count, figures.due), (1_200, true));
    assert_eq!(cache.step(Request::Sync), NONE);
    assert_eq!(report(&cache.table).unwrap().count, 0);
}

#[test]
fn a_standby_takes_what_the_lead_wrote() {
    let mut lead = Cache::small(4, Mode::Lead);
    let mut standby = Cache::small(4, Mode::Standby);
    for (address, size) in [(300, 30), (100, 10), (200, 20)] {
        lead.insert(address, size).unwrap();
        standby.insert(address, size).unwrap();
    }
    let orders = step(&mut lead.table, &mut lead.orders, &Request::Flush).unwrap();
    let sent = Message::of(1, orders);
    assert_eq!(sent, message(1, &[100, 200, 300]));
    assert_eq!(standby.take(&message(1, &[100, 100])), Err(13));
    assert_eq!(standby.take(&message(1, &[100, 400])), Err(13));
    assert_eq!(standby.take(&message(1, &[NO_ADDRESS])), Err(3));
    assert_eq!(standby.take(&sent), NONE);
    assert_eq!(report(&standby.table).unwrap().dirty, 0);
    assert_eq!(standby.take(&message(2, &[])), NONE);
    assert_eq!(lead.take(&message(2, &[])), Err(5));
}

#[test]
fn a_lead_gives_up_only_clean_entries() {
    let mut lead = Cache::small(2, Mode::Lead);
    lead.insert(1, 100).unwrap();
    lead.insert(2, 100).unwrap();
    assert_eq!(lead.insert(3, 100), Err(11));
    assert_eq!(lead.step(Request::Flush).unwrap(), ["write 1 100", "write 2 100"]);
    assert_eq!(lead.insert(3, 100).unwrap(), ["evict 1 100"]);
}

/// A record at 100 that is clean: it is inserted, and written or named by the first message.
fn insert_clean(cache: &mut Cache, mode: Mode, size: u64) {
    cache.insert(100, size).unwrap();
    match mode {
        Mode::Standby => cache.take(&message(1, &[100])).unwrap(),
        _ => cache.step(Request::Flush).unwrap(),
    };
}

#[test]
fn missing_clean_bytes_are_told_in_every_mode() {
    for (mode, evictions) in MODES.into_iter().flat_map(|mode| [(mode, true), (mode, false)]) {
        let mut cache = Cache::sharing(mode, evictions);
        assert_eq!((report(&cache.table).unwrap().minimum_clean, cache.missing()), (2_048, 0));
        cache.insert(100, 3_000).unwrap();
        assert_eq!(cache.missing(), 952, "{mode:?}, a dirty record");
        let mut cache = Cache::sharing(mode, evictions);
        insert_clean(&mut cache, mode, 3_000);
        assert_eq!(cache.missing(), 0, "{mode:?}, a clean record");
        // Held bytes above the maximum: none is unused.
        let mut cache = Cache::sharing(mode, evictions);
        cache.insert(100, 3_000).unwrap();
        cache.write(100, 3_000).unwrap();
        cache.insert(200, 2_000).unwrap();
        let figures = report(&cache.table).unwrap();
        assert_eq!((figures.held, figures.dirty, figures.missing_clean), (5_000, 5_000, 2_048), "{mode:?}");
        // Held bytes at the maximum: a byte too few, and enough.
        for (clean, missing) in [(2_047, 1), (2_048, 0)] {
            let mut cache = Cache::sharing(mode, evictions);
            insert_clean(&mut cache, mode, clean);
            cache.insert(200, 4_096 - clean).unwrap();
            assert_eq!(cache.missing(), missing, "{mode:?}, {clean} bytes clean");
        }
        let mut cache = Cache::sharing(mode, evictions);
        cache.read(100, 3_000).unwrap();
        assert_eq!(cache.missing(), 952, "{mode:?}, a clean record that is held");
        cache.step(Request::Pin { address: 100 }).unwrap();
        cache.release(100).unwrap();
        assert_eq!(cache.missing(), 952, "{mode:?}, a clean record that is pinned");
        cache.step(Request::Unpin { address: 100 }).unwrap();
        assert_eq!(cache.missing(), 0, "{mode:?}, a clean record in the recency list");
    }
}

#[test]
fn a_sync_writes_until_no_clean_bytes_are_missing() {
    for (tail, written) in [(952, vec!["write 100 952"]), (951, vec!["write 100 951", "write 200 1000"])] {
        let mut lead = Cache::sharing(Mode::Lead, true);
        for (address, size) in [(100, tail), (200, 1_000), (300, 2_000 - tail)] {
            lead.insert(address, size).unwrap();
        }
        assert_eq!(lead.missing(), 952);
        assert_eq!(lead.step(Request::Sync).unwrap(), written);
        assert_eq!(lead.missing(), 0);
    }
}

#[test]
fn a_refused_report_has_no_figures() {
    let mut cache = Cache::sharing(Mode::Alone, true);
    cache.insert(100, 3_000).unwrap();
    cache.table[6] += 1;
    // SAFETY: the slice is borrowed for the call.
    let figures = unsafe { raw::speldervacht_report(cache.table.as_ptr(), cache.table.len()) };
    assert_eq!(figures, raw::Figures { number: 1, ..raw::Figures::default() });
}

#[test]
fn refusals_are_sentences() {
    let mut cache = Cache::small(4, Mode::Alone);
    cache.write(100, 10).unwrap();
    cache.read(200, 10).unwrap();
    cache.insert(300, 10).unwrap();
    let said: Vec<String> = [
        Request::Insert { address: NO_ADDRESS, size: 0 },
        Request::Insert { address: 1, size: 0 },
        Request::Insert { address: 1, size: LARGEST_ENTRY + 1 },
        Request::Sync,
        Request::Pin { address: 1 },
        Request::Insert { address: 100, size: 1 },
        Request::ProtectForReading { address: 100, size: 1 },
        Request::ReleaseChanged { address: 200, size: 1 },
        Request::Flush,
        Request::ReleaseUnchanged { address: 300 },
        Request::Unpin { address: 300 },
        Request::Configure { settings: Settings { epoch_length: 99, ..small() } },
    ]
    .into_iter()
    .map(|request| cache.refusal(request))
    .collect();
    assert_eq!(
        said,
        [
            "all ones is no address (3)",
            "a size of 0 is not within 1 to 134217728 bytes (4)",
            "a size of 134217729 is not within 1 to 134217728 bytes (4)",
            "the request is not for a cache that is alone (5)",
            "the cache has no entry at 1 (6)",
            "the cache has an entry at 100 (7)",
            "the entry at 100 is held for writing (8)",
            "the entry at 200 is held by 1 reader (8)",
            "the entry at 100 is held for writing (8)",
            "the entry at 300 lacks the hold that the request needs (9)",
            "the entry at 300 is not pinned (10)",
            "setting 7, the epoch length, is bad (12)",
        ]
    );
    let error: Box<dyn std::error::Error> = Box::new(Refusal::Held { address: 5, hold: Hold::Readers(2) });
    assert_eq!(error.to_string(), "the entry at 5 is held by 2 readers (8)");
}

#[test]
fn short_slices_are_refused() {
    let rows = 4;
    let settings = small();
    let mut table = vec![7; table_words(rows)];
    for words in [0, 1, 30, table_words(rows) - 1] {
        assert_eq!(open(&mut table[..words], rows, Mode::Alone, 1, &settings), Err(Refusal::BadTable));
    }
    assert!(table.iter().all(|word| *word == 7));
    assert_eq!(report(&table), Err(Refusal::BadTable));
    assert_eq!(report(&[]), Err(Refusal::BadTable));
    open(&mut table, rows, Mode::Alone, 1, &settings).unwrap();
    for words in [0, 1, 30, table_words(rows) - 1] {
        assert_eq!(report(&table[..words]), Err(Refusal::BadTable));
        assert_eq!(step(&mut table[..words], &mut [], &Request::Flush).unwrap_err(), Refusal::BadTable);
    }
    let refusal = step(&mut table, &mut [0; 26], &Request::Insert { address: NO_ADDRESS, size: 0 }).unwrap_err();
    assert_eq!(refusal, Refusal::FewOrderWords { needed: 27, lent: 26 });
    assert_eq!(refusal.to_string(), "the request needs 27 words for orders and was lent 26 (2)");
    // These give no orders and need no words for them.
    assert_eq!(step(&mut table, &mut [], &Request::Discard { address: 1 }).unwrap().len(), 0);
    assert_eq!(step(&mut table, &mut [], &Request::Pin { address: 1 }).unwrap_err().number(), 6);
}

/// Alone: 100 is dirty, 200 is held for writing, 300 is read and pinned.
fn busy() -> Cache {
    let mut cache = Cache::small(4, Mode::Alone);
    cache.insert(100, 10).unwrap();
    cache.write(200, 10).unwrap();
    cache.read(300, 10).unwrap();
    cache.step(Request::Pin { address: 300 }).unwrap();
    cache
}

#[test]
fn asking_tells_a_yes_to_each_kind() {
    let alone = busy();
    let mut lead = Cache::small(4, Mode::Lead);
    lead.insert(100, 10).unwrap();
    let mut standby = Cache::small(4, Mode::Standby);
    standby.insert(100, 10).unwrap();
    let message = message(1, &[100]);
    let cases = [
        (&alone, Request::Insert { address: 400, size: 10 }),
        (&alone, Request::ProtectForReading { address: 100, size: 10 }),
        (&alone, Request::ProtectForWriting { address: 400, size: 10 }),
        (&alone, Request::ReleaseUnchanged { address: 300 }),
        (&alone, Request::ReleaseChanged { address: 200, size: 20 }),
        (&alone, Request::Pin { address: 200 }),
        (&alone, Request::Unpin { address: 300 }),
        (&alone, Request::Resize { address: 200, size: 20 }),
        (&alone, Request::Discard { address: 100 }),
        (&lead, Request::Flush),
        (&lead, Request::Sync),
        (&standby, Request::Take { message: message.as_bytes() }),
        (&alone, Request::Configure { settings: small() }),
    ];
    for (cache, request) in cases {
        let lent = cache.orders.len();
        for lent in [lent, lent + 1, usize::MAX] {
            assert_eq!(checked_ask(&cache.table, lent, &request), Ok(()), "{request:?}");
        }
        let gives_none = checked_ask(&cache.table, 0, &request).is_ok();
        for lent in [0, lent - 1] {
            let few = Refusal::FewOrderWords { needed: cache.orders.len(), lent };
            let told = checked_ask(&cache.table, lent, &request);
            assert_eq!(told, if gives_none { Ok(()) } else { Err(few) }, "{request:?}");
        }
        assert_eq!(
            gives_none,
            matches!(
                request,
                Request::Pin { .. }
                    | Request::Unpin { .. }
                    | Request::Resize { .. }
                    | Request::Discard { .. }
                    | Request::Take { .. }
            )
        );
        let short = &cache.table[..cache.table.len() - 1];
        assert_eq!(checked_ask(short, lent, &request), Err(Refusal::BadTable));
        let mut damaged = cache.table.clone();
        damaged[6] += 1;
        assert_eq!(checked_ask(&damaged, lent, &request), Err(Refusal::BadTable));
    }
}

#[test]
fn asking_tells_each_refusal() {
    let mut alone = busy();
    alone.release(300).unwrap();
    let mut standby = Cache::small(1, Mode::Standby);
    standby.insert(100, 10).unwrap();
    let bad = Settings { clean_fraction: 2.0, ..small() };
    let (twice, all_ones) = (message(1, &[100, 100]), message(1, &[100, NO_ADDRESS]));
    let cases = [
        (&alone, Request::Insert { address: NO_ADDRESS, size: 0 }, Refusal::BadAddress),
        (&alone, Request::Insert { address: 1, size: 0 }, Refusal::BadSize { size: 0 }),
        (&alone, Request::Sync, Refusal::WrongMode { mode: Mode::Alone }),
        (&standby, Request::Flush, Refusal::WrongMode { mode: Mode::Standby }),
        (&alone, Request::Resize { address: 1, size: 1 }, Refusal::NotInCache { address: 1 }),
        (&alone, Request::Insert { address: 100, size: 1 }, Refusal::InCache { address: 100 }),
        (&alone, Request::Discard { address: 200 }, Refusal::Held { address: 200, hold: Hold::Writer }),
        (&alone, Request::Flush, Refusal::Held { address: 200, hold: Hold::Writer }),
        (&alone, Request::ReleaseChanged { address: 100, size: 1 }, Refusal::NotHeld { address: 100 }),
        (&alone, Request::Discard { address: 300 }, Refusal::Pinned { address: 300 }),
        (&alone, Request::Unpin { address: 100 }, Refusal::NotPinned { address: 100 }),
        (&standby, Request::Insert { address: 200, size: 1 }, Refusal::NoRow),
        (&alone, Request::Configure { settings: bad }, Refusal::BadSetting { field: 4 }),
        (&standby, Request::Take { message: twice.as_bytes() }, Refusal::BadList),
        (&standby, Request::Take { message: all_ones.as_bytes() }, Refusal::BadAddress),
    ];
    for (cache, request, refusal) in cases {
        assert_eq!(checked_ask(&cache.table, cache.orders.len(), &request), Err(refusal), "{request:?}");
    }
}

#[test]
fn asking_answers_an_unknown_kind() {
    let cache = Cache::small(4, Mode::Alone);
    let before = cache.table.clone();
    let told = |table: &[u64], kind| {
        let request = raw::Request { kind, ..raw::Request::default() };
        // SAFETY: the slice is borrowed for the call, and there is no message.
        unsafe { raw::speldervacht_ask(table.as_ptr(), table.len(), 0, std::ptr::null(), 0, request) }
    };
    for kind in [0, 14, u64::MAX] {
        assert_eq!(told(&cache.table, kind), raw::Verdict { number: 5, field: 0 });
        assert_eq!(told(&cache.table[1..], kind), raw::Verdict { number: 1, field: 0 });
        assert_eq!(told(&[], kind), raw::Verdict { number: 1, field: 0 });
    }
    assert_eq!(cache.table, before);
}

#[test]
fn opening_judges_rows_then_threshold_then_settings() {
    let bad = Settings { initial_size: None, ..small() };
    let mut table = vec![7; table_words(MOST_ROWS + 1)];
    for rows in [0, MOST_ROWS + 1, usize::MAX, usize::MAX / 8] {
        assert_eq!(open(&mut table, rows, Mode::Lead, 0, &bad), Err(Refusal::BadTable));
    }
    for threshold in [0, LARGEST_THRESHOLD + 1, u64::MAX] {
        assert_eq!(open(&mut table, 4, Mode::Lead, threshold, &bad), Err(Refusal::BadThreshold { threshold }));
    }
    assert_eq!(open(&mut table, 4, Mode::Lead, 1, &bad), Err(Refusal::BadSetting { field: 2 }));
    assert!(table.iter().all(|word| *word == 7));
    open(&mut table, 1, Mode::Lead, 1, &Settings::defaults(Mode::Lead)).unwrap();
    open(&mut table, MOST_ROWS, Mode::Lead, LARGEST_THRESHOLD, &Settings::defaults(Mode::Lead)).unwrap();
    assert!(table[table_words(MOST_ROWS)..].iter().all(|word| *word == 7));
}

#[test]
fn bad_settings_are_named() {
    let nan = f64::NAN;
    let good = Settings { clean_fraction: 0.3, ..Settings::defaults(Mode::Alone) };
    let threshold = |upper| Decrease::Threshold { upper, multiplier: 0.5 };
    let cases = [
        (1, Settings { evictions: false, ..good }),
        (3, Settings { initial_size: Some(1_048_575), ..good }),
        (4, Settings { clean_fraction: nan, ..good }),
        (4, Settings { clean_fraction: -0.1, ..good }),
        (5, Settings { initial_size: None, maximum_size: 134_217_729, ..good }),
        (6, Settings { initial_size: None, minimum_size: 1_023, ..good }),
        (7, Settings { epoch_length: 1_000_001, ..good }),
        (8, Settings { increase: Increase::Threshold { lower: 0.9, multiplier: 1.0 }, ..good }),
        (8, Settings { decrease: threshold(0.9), ..good }),
        (8, Settings { decrease: threshold(nan), ..good }),
        (9, Settings { increase_cap: Some(u64::MAX), ..good }),
        (10, Settings { flash: Flash::On { multiple: f64::INFINITY, threshold: 0.25 }, ..good }),
        (11, Settings { decrease: threshold(1.5), ..good }),
        (11, Settings { decrease: Decrease::AgeOut { epochs: 0, reserve: 0.1 }, ..good }),
        (12, Settings { decrease_cap: Some(134_217_729), ..good }),
    ];
    let mut cache = Cache::open(4, Mode::Alone, 1, &good);
    for (field, settings) in cases {
        let refusal = step(&mut cache.table, &mut cache.orders, &Request::Configure { settings }).unwrap_err();
        assert_eq!(refusal, Refusal::BadSetting { field }, "{settings:?}");
    }
    let good = Settings { initial_size: None, ..good };
    let at_limits = [
        good,
        Settings { maximum_size: 134_217_728, minimum_size: 1_024, ..good },
        Settings { epoch_length: 100, ..good },
        Settings { epoch_length: 1_000_000, ..good },
        Settings { increase_cap: Some(134_217_728), decrease_cap: Some(134_217_728), ..good },
    ];
    for settings in at_limits {
        assert_eq!(cache.step(Request::Configure { settings }), NONE, "{settings:?}");
    }
}

#[test]
fn entries_are_accepted_up_to_their_limits() {
    let mut cache = Cache::small(4, Mode::Alone);
    assert_eq!(cache.insert(1, LARGEST_ENTRY + 1), Err(4));
    assert_eq!(cache.insert(1, LARGEST_ENTRY), NONE);
    assert_eq!(cache.insert(NO_ADDRESS, 1), Err(3));
    assert!(cache.insert(NO_ADDRESS - 1, 1).is_ok());
}

#[test]
fn the_byte_count_stops() {
    let mut cache = Cache::small(1, Mode::Alone);
    let mut count_after = |size| {
        cache.insert(1, size).unwrap();
        cache.step(Request::Discard { address: 1 }).unwrap();
        report(&cache.table).unwrap().count
    };
    let mut counted = 0;
    while counted + LARGEST_ENTRY < COUNT_STOP {
        counted += LARGEST_ENTRY;
        assert_eq!(count_after(LARGEST_ENTRY), counted);
    }
    assert_eq!(count_after(COUNT_STOP - counted - 1), COUNT_STOP - 1);
    assert_eq!(count_after(1), COUNT_STOP);
    assert_eq!(count_after(1), COUNT_STOP);
}

#[test]
fn the_idle_count_stops_at_the_last_total() {
    let increase = Increase::Threshold { lower: 0.0, multiplier: 2.0 };
    let settings = Settings { epoch_length: 100, increase, ..small() };
    let mut cache = Cache::open(2, Mode::Alone, DEFAULT_THRESHOLD, &settings);
    cache.insert(1, 7).unwrap();
    for epoch in 0..13 {
        let totals = report(&cache.table).unwrap().totals;
        assert!(totals[epoch.min(totals.len() - 1)] >= 7, "{totals:?} after {epoch} epochs");
        for _ in 0..100 {
            cache.read(2, 1).unwrap();
            cache.release(2).unwrap();
        }
    }
}

#[test]
fn every_reader_but_the_last_joins() {
    let mut cache = Cache::small(1, Mode::Alone);
    for _ in 0..65_535 {
        step(&mut cache.table, &mut cache.orders, &Request::ProtectForReading { address: 0, size: 1 }).unwrap();
    }
    let more = Request::ProtectForReading { address: 0, size: 1 };
    assert_eq!(cache.refusal(more), "the entry at 0 is held by 65535 readers (8)");
}

#[test]
fn damaged_tables_are_answered() {
    let mut cache = Cache::small(4, Mode::Alone);
    cache.insert(100, 10).unwrap();
    cache.read(200, 10).unwrap();
    let good = cache.table.clone();
    for at in 0..good.len() {
        for word in [0, 1, 2, 65_536, 65_537, u64::MAX - 1, u64::MAX] {
            cache.table = good.clone();
            cache.table[at] = word;
            let figures = report(&cache.table);
            let asked = cache.step(Request::Discard { address: 100 });
            assert_eq!(figures.is_err(), asked == Err(1), "word {at} as {word}");
        }
    }
}

#[test]
fn any_words_are_answered() {
    let mut word = 1_u64;
    let mut random = || {
        word ^= word << 13;
        word ^= word >> 7;
        word ^= word << 17;
        word
    };
    for _ in 0..2_000 {
        let mut table: Vec<u64> = (0..random() % 100).map(|_| random()).collect();
        if let Some(rows) = table.get_mut(1) {
            *rows = random() % 6;
        }
        assert_eq!(report(&table), Err(Refusal::BadTable));
        assert_eq!(step(&mut table, &mut [], &Request::Sync).unwrap_err(), Refusal::BadTable);
    }
}
