//! Batches beside the same requests done one by one.

#[path = "host/random.rs"]
mod random;

use random::Random;
use speldervacht::{
    batch, open, order_words, step, table_words, Cache, Decrease, Increase, Mode, Order, PlainRequest, Refusal,
    Request, Settings, LARGEST_ENTRY, NO_ADDRESS,
};

const ROWS: usize = 6;
const THRESHOLD: u64 = 1_000;
const MODES: [Mode; 3] = [Mode::Alone, Mode::Lead, Mode::Standby];

fn settings() -> Settings {
    Settings {
        initial_size: Some(2_048),
        clean_fraction: 0.3,
        maximum_size: 4_096,
        minimum_size: 1_024,
        epoch_length: 100,
        increase: Increase::Threshold { lower: 0.3, multiplier: 1.5 },
        decrease: Decrease::AgeOutWithThreshold { upper: 0.4, epochs: 1, reserve: 0.1 },
        ..Settings::defaults(Mode::Alone)
    }
}

/// A plain request by its constructor, and what it stands for.
fn some_request(random: &mut Random) -> (PlainRequest, Request<'static>) {
    let address = if random.below(50) == 0 { NO_ADDRESS } else { random.below(10) as u64 };
    let size = if random.below(50) == 0 { LARGEST_ENTRY + 1 } else { 1 + random.below(500) as u64 };
    match random.below(40) {
        0..=7 => (PlainRequest::insert(address, size), Request::Insert { address, size }),
        8..=14 => (PlainRequest::protect_for_reading(address, size), Request::ProtectForReading { address, size }),
        15..=17 => (PlainRequest::protect_for_writing(address, size), Request::ProtectForWriting { address, size }),
        18..=27 => (PlainRequest::release(address), Request::ReleaseUnchanged { address }),
        28..=31 => (PlainRequest::release_changed(address, size), Request::ReleaseChanged { address, size }),
        32 => (PlainRequest::pin(address), Request::Pin { address }),
        33..=34 => (PlainRequest::unpin(address), Request::Unpin { address }),
        35 => (PlainRequest::resize(address, size), Request::Resize { address, size }),
        36..=37 => (PlainRequest::discard(address), Request::Discard { address }),
        38 => (PlainRequest::flush(), Request::Flush),
        _ => (PlainRequest::sync(), Request::Sync),
    }
}

type Answer = Result<Vec<Order>, Refusal>;

/// What a batch has of a step's answer: which hold forbade a request is not told.
fn in_batch(answer: Answer) -> Answer {
    match answer {
        Err(Refusal::Held { .. }) => Err(Refusal::HeldInBatch),
        answer => answer,
    }
}

/// The words of a table and of orders, lent to single steps.
struct Lent {
    table: Vec<u64>,
    orders: Vec<u64>,
}

impl Lent {
    fn open(mode: Mode) -> Lent {
        let mut lent = Lent { table: vec![7; table_words(ROWS) + 2], orders: vec![9; order_words(ROWS) + 60] };
        open(&mut lent.table, ROWS, mode, THRESHOLD, &settings()).unwrap();
        lent
    }

    /// The requests one by one, with so many order words for all of them, until these are too few.
    fn one_by_one(&mut self, requests: &[PlainRequest], order_words: usize) -> Vec<Answer> {
        let mut answers = Vec::new();
        let mut given = 0;
        for request in requests {
            let orders = &mut self.orders[3 * given..order_words];
            let answer: Answer = step(&mut self.table, orders, &(*request).into()).map(Iterator::collect);
            if matches!(answer, Err(Refusal::FewOrderWords { .. })) {
                break;
            }
            given += answer.as_ref().map_or(0, Vec::len);
            answers.push(in_batch(answer));
        }
        answers
    }
}

#[test]
fn plain_requests_are_requests() {
    let mut random = Random::new(1);
    for _ in 0..2_000 {
        let (plain, request) = some_request(&mut random);
        assert_eq!(Request::from(plain), request);
        assert_eq!(request.plain(), Some(plain));
    }
    assert_eq!(Request::Take { message: &[] }.plain(), None);
    assert_eq!(Request::Configure { settings: settings() }.plain(), None);
}

#[test]
fn a_batch_is_its_requests_one_by_one() {
    let (mut stopped, mut refused, mut held, mut given) = (0, 0, 0, 0);
    for (seed, mode) in MODES.into_iter().cycle().take(30).enumerate() {
        let mut random = Random::new(seed as u64 + 1);
        let mut single = Lent::open(mode);
        let mut many = Lent::open(mode);
        let mut owned =
            Cache::builder().rows(ROWS).mode(mode).threshold(THRESHOLD).settings(settings()).open().unwrap();
        for _ in 0..100 {
            let requests: Vec<PlainRequest> = (0..random.below(30)).map(|_| some_request(&mut random).0).collect();
            let lent = order_words(ROWS) + random.below(61);
            let mut words = [[5; 2]; 30];
            let room = if random.below(4) == 0 { random.below(30) } else { requests.len() };
            let expected = single.one_by_one(&requests[..room.min(requests.len())], lent);
            let answers = batch(&mut many.table, &mut many.orders[..lent], &requests, &mut words[..room]).unwrap();
            assert_eq!(answers.len(), expected.len());
            assert_eq!(answers.orders(), expected.iter().flatten().map(Vec::len).sum::<usize>());
            let told: Vec<Answer> = answers.map(|answer| answer.map(Iterator::collect)).collect();
            assert_eq!(told, expected);
            assert!(many.table == single.table && many.orders == single.orders);
            assert!(words[told.len()..].iter().all(|answer| *answer == [5; 2]));

            let owned_answers = owned.batch(&requests[..told.len()]).unwrap();
            assert_eq!(owned_answers.map(|answer| answer.map(Iterator::collect)).collect::<Vec<Answer>>(), expected);
            assert_eq!(owned.as_words(), &single.table[..table_words(ROWS)]);
            stopped += usize::from(told.len() < requests.len().min(room));
            refused += told.iter().filter(|answer| answer.is_err()).count();
            held += told.iter().filter(|answer| **answer == Err(Refusal::HeldInBatch)).count();
            given += told.iter().flatten().map(Vec::len).sum::<usize>();
        }
    }
    assert!(stopped > 50 && refused > 1_000 && held > 100 && given > 1_000, "{stopped} {refused} {held} {given}");
}

/// More orders than requests: an owned cache goes on by itself.
#[test]
fn an_owned_cache_does_all_requests() {
    let settings = Settings { clean_fraction: 0.0, ..Settings::fixed(Mode::Alone, 6_400) };
    let builder = Cache::builder().rows(64).settings(settings);
    let mut cache = builder.open().unwrap();
    let mut single = builder.open().unwrap();
    // The first large one writes and evicts all small ones.
    let large = |address| PlainRequest::insert(address, 6_400);
    let small = (0..64).map(|address| PlainRequest::insert(address, 100));
    let requests: Vec<PlainRequest> = small.chain([large(100), large(200), large(300)]).collect();
    let (few, rest) = requests.split_at(64);
    assert!(cache.batch(few).unwrap().all(|answer| answer.unwrap().len() == 0));
    let answers: Vec<Vec<Order>> = cache.batch(rest).unwrap().map(|answer| answer.unwrap().collect()).collect();
    for request in few {
        single.step(&(*request).into()).unwrap();
    }
    let expected: Vec<Vec<Order>> = rest.iter().map(|r| single.step(&(*r).into()).unwrap().collect()).collect();
    assert_eq!(answers, expected);
    assert_eq!(answers.iter().map(Vec::len).collect::<Vec<_>>(), [128, 2, 2]);
    assert_eq!(cache, single);
    assert_eq!(cache.batch(&[]).unwrap().len(), 0);
}

#[test]
fn a_batch_that_cannot_begin_changes_nothing() {
    let mut lent = Lent::open(Mode::Alone);
    let requests = [PlainRequest::insert(1, 10), PlainRequest::discard(2)];
    let mut answers = [[5; 2]; 2];
    let before = lent.table.clone();
    let needed = order_words(ROWS);
    let few = batch(&mut lent.table, &mut lent.orders[..needed - 1], &requests, &mut answers).map(|told| told.len());
    assert_eq!(few, Err(Refusal::FewOrderWords { needed, lent: needed - 1 }));
    let none = batch(&mut lent.table, &mut lent.orders, &requests, &mut []).map(|told| told.len());
    assert_eq!(none, Ok(0));
    assert_eq!(lent.table, before);
    lent.table[6] += 1;
    let damaged = batch(&mut lent.table, &mut lent.orders, &requests, &mut answers).map(|told| told.len());
    assert_eq!(damaged, Err(Refusal::BadTable));
    lent.table[6] -= 1;
    assert_eq!(lent.table, before);
    assert!(answers == [[5; 2]; 2] && lent.orders.iter().all(|word| *word == 9));
    // A discard needs no order words.
    let quiet = batch(&mut lent.table, &mut [], &requests[1..], &mut answers).map(|told| told.len());
    assert_eq!(quiet, Ok(1));
}

#[test]
fn refusals_are_told_with_the_request() {
    let mut cache = Cache::builder().rows(1).mode(Mode::Standby).settings(settings()).open().unwrap();
    let requests = [
        PlainRequest::insert(1, 10),
        PlainRequest::insert(1, 10),
        PlainRequest::insert(2, 10),
        PlainRequest::insert(NO_ADDRESS, 10),
        PlainRequest::resize(1, 0),
        PlainRequest::pin(1),
        PlainRequest::unpin(1),
        PlainRequest::unpin(2),
        PlainRequest::flush(),
        PlainRequest::protect_for_writing(1, 10),
        PlainRequest::discard(1),
        PlainRequest::release(1),
        PlainRequest::discard(1),
    ];
    let told: Vec<String> = cache.batch(&requests).unwrap().filter_map(Result::err).map(|r| r.to_string()).collect();
    let expected = [
        "the cache has an entry at 1 (7)",
        "no row is free and no entry may be evicted (11)",
        "all ones is no address (3)",
        "a size of 0 is not within 1 to 134217728 bytes (4)",
        "the entry at 1 lacks the hold that the request needs (9)",
        "the entry at 1 is not pinned (10)",
        "the cache has no entry at 2 (6)",
        "the request is not for a cache that is a standby (5)",
        "an entry is held for writing or by readers, which forbids the request (8)",
    ];
    assert_eq!(told, expected);
    assert_eq!(cache.entries().len(), 0);
}
