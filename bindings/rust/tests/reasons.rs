//! Requests explained, through the safe functions: the sentences, the refusals, and each request beside the same one
//! done by step.

#[path = "host/random.rs"]
mod random;

use random::Random;
use speldervacht::{
    explain, open, order_words, reason_words, step, table_words, Bound, Cache, Cause, Decrease, Flash, Increase,
    MaximumChange, Message, Mode, Order, OrderKind, Reason, Refusal, Request, Settings, MOST_ROWS, NO_ADDRESS,
};

const MODES: [Mode; 3] = [Mode::Alone, Mode::Lead, Mode::Standby];
const EPOCH: u64 = 100;

/// A maximum of 10,000 bytes between 2,000 and 20,000, nothing to be clean, no rules, no caps.
fn settings() -> Settings {
    Settings {
        clean_fraction: 0.0,
        minimum_size: 2_000,
        maximum_size: 20_000,
        epoch_length: EPOCH,
        increase_cap: None,
        decrease_cap: None,
        ..Settings::fixed(Mode::Alone, 10_000)
    }
}

fn opened(mode: Mode, settings: Settings) -> Cache {
    Cache::builder().rows(3).mode(mode).settings(settings).open().unwrap()
}

/// What is told of a request: its orders, and the change of the maximum.
fn told(cache: &mut Cache, request: Request) -> Vec<String> {
    let explained = cache.explain(&request).unwrap();
    let orders = explained.orders.map(|(order, reason)| order.because(reason).to_string());
    orders.chain(explained.change.map(|change| change.to_string())).collect()
}

fn insert(cache: &mut Cache, address: u64, size: u64) -> Vec<String> {
    told(cache, Request::Insert { address, size })
}

/// A read, and what is told of it and of its release.
fn read(cache: &mut Cache, address: u64, size: u64) -> Vec<String> {
    let mut sentences = told(cache, Request::ProtectForReading { address, size });
    sentences.extend(told(cache, Request::ReleaseUnchanged { address }));
    sentences
}

/// Reads of a record until the epoch has ended, and what is told of them.
fn read_to_the_end(cache: &mut Cache, address: u64, accesses: u64) -> Vec<String> {
    (0..accesses).flat_map(|_| read(cache, address, 1)).collect()
}

fn pinned(cache: &mut Cache, address: u64, size: u64) {
    cache.protect_for_reading(address, size).unwrap();
    cache.pin(address).unwrap();
    cache.release(address).unwrap();
}

// ---- sentences

#[test]
fn reasons_in_words() {
    let reasons = [
        (Reason::RoomByBytes, "room by bytes"),
        (Reason::RoomByRows, "room by rows"),
        (Reason::CleanShare, "clean share"),
        (Reason::AgedOut, "aged out"),
        (Reason::Flush, "flush"),
        (Reason::Sync, "sync"),
        (Reason::Load, "load"),
    ];
    for (number, (reason, words)) in (1..).zip(reasons) {
        assert_eq!((reason.number(), reason.to_string().as_str()), (number, words));
    }
    let sentence = |kind, address, size| Order { kind, address, size }.because(Reason::Flush).to_string();
    assert_eq!(sentence(OrderKind::Write, 0, 1), "wrote 0 (1 byte): flush");
    assert_eq!(sentence(OrderKind::Evict, 7, 999), "evicted 7 (999 bytes): flush");
    assert_eq!(sentence(OrderKind::Load, 1_000, 1_000), "loaded 1000 (1,000 bytes): flush");
    assert_eq!(sentence(OrderKind::Write, 1, 134_217_728), "wrote 1 (134,217,728 bytes): flush");
    assert_eq!(sentence(OrderKind::Write, 1, 1_002_003), "wrote 1 (1,002,003 bytes): flush");
    assert_eq!(sentence(OrderKind::Write, 1, u64::MAX), "wrote 1 (18,446,744,073,709,551,615 bytes): flush");
}

#[test]
fn causes_and_bounds_have_their_numbers() {
    let causes = [Cause::Increase, Cause::Flash, Cause::Threshold, Cause::AgeOut, Cause::Settings];
    assert_eq!(causes.map(Cause::number), [1, 2, 3, 4, 5]);
    let bounds = [Bound::None, Bound::MaximumSize, Bound::MinimumSize, Bound::IncreaseCap, Bound::DecreaseCap];
    assert_eq!(bounds.map(Bound::number), [0, 5, 6, 9, 12]);
    assert_eq!((reason_words(1), reason_words(4), reason_words(MOST_ROWS)), (3, 9, 8_193));
    assert_eq!(reason_words(usize::MAX), usize::MAX);
}

#[test]
fn a_lone_world_is_told_why() {
    let decrease = Decrease::AgeOut { epochs: 1, reserve: 1.0 };
    let mut cache = opened(Mode::Alone, Settings { clean_fraction: 0.25, decrease, ..settings() });
    assert_eq!(insert(&mut cache, 1, 4_000), [""; 0]);
    assert_eq!(insert(&mut cache, 2, 5_000), ["wrote 1 (4,000 bytes): clean share"]);
    let third = ["evicted 1 (4,000 bytes): room by bytes", "wrote 2 (5,000 bytes): clean share"];
    assert_eq!(insert(&mut cache, 3, 4_500), third);
    assert_eq!(read(&mut cache, 4, 10), ["loaded 4 (10 bytes): load"]);
    assert_eq!(insert(&mut cache, 5, 20), ["evicted 2 (5,000 bytes): room by rows"]);
    // An epoch ends, and another: what was not read since has gone.
    assert_eq!(read_to_the_end(&mut cache, 4, EPOCH - 1), [""; 0]);
    let aged = [
        "wrote 3 (4,500 bytes): aged out",
        "evicted 3 (4,500 bytes): aged out",
        "wrote 5 (20 bytes): aged out",
        "evicted 5 (20 bytes): aged out",
    ];
    assert_eq!(read_to_the_end(&mut cache, 4, EPOCH), aged);
    assert_eq!(insert(&mut cache, 6, 30), [""; 0]);
    assert_eq!(told(&mut cache, Request::Flush), ["wrote 6 (30 bytes): flush"]);
    assert_eq!(told(&mut cache, Request::ProtectForWriting { address: 6, size: 30 }), [""; 0]);
    let released = [
        "evicted 4 (10 bytes): room by bytes",
        "wrote 6 (10,001 bytes): room by bytes",
        "evicted 6 (10,001 bytes): room by bytes",
    ];
    assert_eq!(told(&mut cache, Request::ReleaseChanged { address: 6, size: 10_001 }), released);
}

#[test]
fn a_lead_is_told_why() {
    let mut lead = opened(Mode::Lead, Settings { clean_fraction: 0.5, ..settings() });
    for (address, size) in [(3, 1_000), (1, 5_000), (2, 1_000)] {
        assert_eq!(insert(&mut lead, address, size), [""; 0]);
    }
    assert_eq!(lead.explain(&Request::Insert { address: 4, size: 10 }).unwrap_err(), Refusal::NoRow);
    let synced = ["wrote 3 (1,000 bytes): sync", "wrote 1 (5,000 bytes): sync"];
    assert_eq!(told(&mut lead, Request::Sync), synced);
    assert_eq!(told(&mut lead, Request::Flush), ["wrote 2 (1,000 bytes): flush"]);
    assert_eq!(lead.next_number(), 3, "both used up a number");
    assert_eq!(insert(&mut lead, 4, 10), ["evicted 3 (1,000 bytes): room by rows"]);
    // Rows and bytes press.
    assert_eq!(insert(&mut lead, 5, 4_000), ["evicted 1 (5,000 bytes): room by bytes"]);
    assert_eq!(read(&mut lead, 6, 10), ["evicted 2 (1,000 bytes): room by rows", "loaded 6 (10 bytes): load"]);
}

/// The change that the last access of an epoch makes, all of whose accesses but the first hit or miss.
fn change_at_the_end(settings: Settings, hits: bool) -> String {
    let sentences = MODES.map(|mode| {
        let mut cache = opened(mode, settings);
        pinned(&mut cache, 1, if hits { 3_000 } else { 10_000 });
        let mut told = read_to_the_end(&mut cache, if hits { 1 } else { 2 }, EPOCH - 1);
        told.retain(|sentence| sentence.starts_with("the maximum"));
        told.join("; ")
    });
    assert!(sentences.iter().all(|sentence| *sentence == sentences[0]), "{sentences:?}");
    sentences[0].clone()
}

#[test]
fn what_raises_the_maximum_is_told() {
    let increase = Increase::Threshold { lower: 0.5, multiplier: 1.5 };
    let growing = Settings { increase, ..settings() };
    let told = |settings| change_at_the_end(settings, false);
    assert_eq!(told(growing), "the maximum rose: increase, held by no bound");
    let capped = Settings { increase_cap: Some(500), ..growing };
    assert_eq!(told(capped), "the maximum rose: increase, held by setting 9, the cap on one increase");
    let small = Settings { maximum_size: 12_000, ..growing };
    assert_eq!(told(small), "the maximum rose: increase, held by setting 5, the maximum size");
    let tie = Settings { increase_cap: Some(2_000), ..small };
    assert_eq!(told(tie), "the maximum rose: increase, held by setting 5, the maximum size");
    assert_eq!(told(Settings { increase_cap: Some(0), ..growing }), "");

    let flash = Flash::On { multiple: 1.0, threshold: 0.5 };
    let flashing = Settings { flash, ..settings() };
    let mut cache = opened(Mode::Alone, flashing);
    assert_eq!(insert(&mut cache, 1, 5_000), [""; 0]);
    assert_eq!(insert(&mut cache, 2, 6_000), ["the maximum rose: flash, held by no bound"]);
    cache.protect_for_writing(2, 6_000).unwrap();
    let raised = ["the maximum rose: flash, held by setting 5, the maximum size"];
    assert_eq!(told_of_resize(&mut cache, 2, 30_000), raised);
    assert_eq!(told_of_resize(&mut cache, 2, 60_000), [""; 0]);
}

fn told_of_resize(cache: &mut Cache, address: u64, size: u64) -> Vec<String> {
    told(cache, Request::Resize { address, size })
}

#[test]
fn what_lowers_the_maximum_is_told() {
    let rules = [
        ("threshold", Decrease::Threshold { upper: 0.5, multiplier: 0.6 }),
        ("age-out", Decrease::AgeOut { epochs: 2, reserve: 0.5 }),
        ("age-out", Decrease::AgeOutWithThreshold { upper: 0.5, epochs: 2, reserve: 0.5 }),
    ];
    // Each alone would give 6,000.
    for (name, decrease) in rules {
        let falling = Settings { decrease, ..settings() };
        let told = |settings| change_at_the_end(settings, true);
        assert_eq!(told(falling), format!("the maximum fell: {name}, held by no bound"));
        let least = Settings { minimum_size: 7_000, ..falling };
        assert_eq!(told(least), format!("the maximum fell: {name}, held by setting 6, the minimum size"));
        let capped = Settings { decrease_cap: Some(1_000), ..least };
        assert_eq!(told(capped), format!("the maximum fell: {name}, held by setting 12, the cap on one decrease"));
        let tie = Settings { decrease_cap: Some(3_000), ..least };
        assert_eq!(told(tie), format!("the maximum fell: {name}, held by setting 6, the minimum size"));
        let equal = Settings { minimum_size: 6_000, decrease_cap: Some(4_000), ..falling };
        assert_eq!(told(equal), format!("the maximum fell: {name}, held by no bound"));
        assert_eq!(told(Settings { decrease_cap: Some(0), ..falling }), "");
    }
}

#[test]
fn settings_that_move_the_maximum_are_told() {
    let configured = |settings| told(&mut opened(Mode::Standby, self::settings()), Request::Configure { settings });
    let within = |minimum_size, maximum_size| Settings { initial_size: None, minimum_size, maximum_size, ..settings() };
    assert_eq!(configured(settings()), [""; 0]);
    for initial_size in [2_000, 20_000] {
        let set = Settings { initial_size: Some(initial_size), ..settings() };
        assert_eq!(configured(set), ["the maximum was set: settings, held by no bound"]);
    }
    assert_eq!(configured(within(2_000, 10_000)), [""; 0]);
    assert_eq!(configured(within(10_000, 20_000)), [""; 0]);
    let fell = "the maximum fell: settings, held by setting 5, the maximum size";
    assert_eq!(configured(within(2_000, 9_999)), [fell]);
    assert_eq!(configured(within(9_000, 9_000)), [fell]);
    let rose = "the maximum rose: settings, held by setting 6, the minimum size";
    assert_eq!(configured(within(10_001, 20_000)), [rose]);
    assert_eq!(configured(within(11_000, 11_000)), [rose]);
}

// ---- lent words and refusals

#[test]
fn lent_words_past_the_last_reason_are_left_alone() {
    let mut table = vec![7; table_words(3)];
    let (mut orders, mut reasons) = (vec![8; order_words(3) + 5], vec![9; reason_words(3) + 5]);
    open(&mut table, 3, Mode::Alone, 1, &settings()).unwrap();
    for address in 1..=3 {
        let explained = explain(&mut table, &mut orders, &mut reasons, &Request::Insert { address, size: 10 }).unwrap();
        assert_eq!((explained.orders.len(), explained.change), (0, None));
        assert!(reasons.iter().all(|word| *word == 9) && orders.iter().all(|word| *word == 8));
    }
    let mut explained = explain(&mut table, &mut orders, &mut reasons, &Request::Flush).unwrap().orders;
    assert_eq!((explained.len(), explained.clone().count()), (3, 3));
    let first = Order { kind: OrderKind::Write, address: 1, size: 10 };
    assert_eq!(explained.next(), Some((first, Reason::Flush)));
    assert_eq!(explained.len(), 2);
    assert_eq!(reasons, [5, 5, 5, 9, 9, 9, 9, 9, 9, 9, 9, 9]);
    assert!(orders[9..].iter().all(|word| *word == 8));
}

#[test]
fn a_refusal_names_the_words_that_are_too_few() {
    let mut table = vec![7; table_words(3)];
    open(&mut table, 3, Mode::Alone, 1, &settings()).unwrap();
    let before = table.clone();
    let (needed, needed_orders) = (reason_words(3), order_words(3));
    let mut refusal = |orders: usize, reasons: usize, request: &Request| {
        let (mut orders, mut reasons) = (vec![8; orders], vec![9; reasons]);
        let refusal = explain(&mut table, &mut orders, &mut reasons, request).unwrap_err();
        assert!(reasons.iter().all(|word| *word == 9) && orders.iter().all(|word| *word == 8) && table == before);
        refusal
    };
    for request in [Request::Flush, Request::Sync, Request::ReleaseUnchanged { address: 1 }] {
        for lent in [0, needed - 1] {
            assert_eq!(refusal(needed_orders, lent, &request), Refusal::FewReasonWords { needed, lent });
            let both = Refusal::FewOrderWords { needed: needed_orders, lent: needed_orders - 1 };
            assert_eq!(refusal(needed_orders - 1, lent, &request), both);
        }
        assert_eq!(refusal(0, needed, &request), Refusal::FewOrderWords { needed: needed_orders, lent: 0 });
    }
    let few = refusal(needed_orders, 6, &Request::Insert { address: NO_ADDRESS, size: 0 });
    assert_eq!(
        (few.number(), few.to_string().as_str()),
        (2, "the request needs 7 words for reasons and was lent 6 (2)")
    );
    assert_eq!(refusal(0, 0, &Request::Pin { address: 1 }), Refusal::NotInCache { address: 1 });
    assert_eq!(refusal(0, 0, &Request::Take { message: &[] }), Refusal::WrongMode { mode: Mode::Alone });
    assert!(explain(&mut table, &mut [], &mut [], &Request::Discard { address: 1 }).is_ok());
    let damaged = explain(&mut table[1..], &mut [], &mut [], &Request::Flush).unwrap_err();
    assert_eq!(damaged, Refusal::BadTable);
}

// ---- beside step

/// The maximum rises at once, and rises and falls at an epoch's end.
fn with_rules() -> Settings {
    Settings {
        clean_fraction: 0.4,
        increase: Increase::Threshold { lower: 0.5, multiplier: 1.5 },
        flash: Flash::On { multiple: 1.0, threshold: 0.25 },
        decrease: Decrease::AgeOutWithThreshold { upper: 0.6, epochs: 1, reserve: 0.1 },
        decrease_cap: Some(2_000),
        ..settings()
    }
}

fn random_request<'m>(random: &mut Random, message: &'m Message) -> Request<'m> {
    let address = random.below(5) as u64;
    let most = if random.below(6) == 0 { 9_000 } else { 2_000 };
    let size = 1 + random.below(most) as u64;
    match random.below(60) {
        0..4 => Request::Insert { address, size },
        4..20 => Request::ProtectForReading { address, size },
        20..24 => Request::ProtectForWriting { address, size },
        24..44 => Request::ReleaseUnchanged { address },
        44..48 => Request::ReleaseChanged { address, size },
        48..50 => Request::Pin { address },
        50..53 => Request::Unpin { address },
        53..55 => Request::Resize { address, size },
        55 => Request::Discard { address },
        56 => Request::Flush,
        57 => Request::Sync,
        58 => Request::Take { message: message.as_bytes() },
        _ => {
            let (minimum_size, maximum_size) =
                (10_000 - random.below(8_000) as u64, 10_000 + random.below(10_000) as u64);
            let initial_size = (random.below(2) == 0).then_some(maximum_size);
            let clean_fraction = if random.below(5) == 0 { 2.0 } else { 0.4 };
            let settings = Settings { initial_size, clean_fraction, maximum_size, minimum_size, ..with_rules() };
            Request::Configure { settings }
        }
    }
}

/// What a change is told as is what the report shows.
fn check_change(change: Option<MaximumChange>, before: u64, after: u64) {
    let Some(change) = change else { return assert_eq!(before, after) };
    assert_ne!(before, after, "{change}");
    let moved = change.to_string();
    let moved = moved.strip_prefix("the maximum ").unwrap();
    assert!(moved.starts_with(if after > before { "rose" } else { "fell" }) || moved.starts_with("was set"), "{moved}");
}

#[test]
fn an_explained_request_does_what_step_does() {
    let mut random = Random::new(4);
    let (mut accepted, mut refused, mut changed) = (0, 0, 0);
    for run in 0..60 {
        let mut stepped = opened(MODES[run % 3], with_rules());
        let mut explained = stepped.clone();
        for _ in 0..500 {
            let message = Message::new(stepped.next_number(), &[random.below(5) as u64]).unwrap();
            let request = random_request(&mut random, &message);
            let before = stepped.report().unwrap().maximum;
            let by_step = stepped.step(&request).map(|orders| orders.collect::<Vec<Order>>());
            let told = explained.explain(&request);
            let change = told.as_ref().ok().and_then(|told| told.change);
            let orders = told.map(|told| told.orders.map(|(order, _)| order).collect::<Vec<Order>>());
            accepted += usize::from(orders.is_ok());
            refused += usize::from(orders.is_err());
            changed += usize::from(change.is_some());
            assert_eq!(orders, by_step, "{request:?}");
            assert_eq!(explained, stepped, "{request:?}");
            check_change(change, before, stepped.report().unwrap().maximum);
        }
    }
    assert!(accepted > 5_000 && refused > 5_000 && changed > 100, "{accepted} {refused} {changed}");
}

#[test]
fn the_lent_functions_agree_with_the_owned_cache() {
    let mut cache = opened(Mode::Alone, settings());
    let mut table = cache.as_words().to_vec();
    let (mut orders, mut reasons) = (vec![0; order_words(3)], vec![0; reason_words(3)]);
    for address in 1..=9 {
        let request = Request::Insert { address, size: 1_500 * address };
        let owned: Vec<(Order, Reason)> = cache.explain(&request).unwrap().orders.collect();
        let lent: Vec<(Order, Reason)> =
            explain(&mut table, &mut orders, &mut reasons, &request).unwrap().orders.collect();
        assert_eq!((owned, cache.as_words()), (lent, table.as_slice()));
    }
    // A step between leaves nothing behind that the next explanation would tell.
    step(&mut table, &mut orders, &Request::Flush).unwrap();
    let after = explain(&mut table, &mut orders, &mut reasons, &Request::Flush).unwrap();
    assert_eq!((after.orders.len(), after.change), (0, None));
}
