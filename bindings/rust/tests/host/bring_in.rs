//! Records that are brought in at once, beside single creates.

use crate::disk::{books_agree, some_bytes, state, Handle};
use crate::random::Random;
use speldervacht::{Cache, Host, HostError, Message, Mode, NotBroughtIn, Refusal, Settings};
use std::sync::Arc;

type Record = (u64, Arc<[u8]>);

const ADDRESSES: usize = 48;

/// 2,048 bytes and 8 rows, over a disk of its own. A standby only reads.
fn opened(mode: Mode) -> Host<Handle> {
    let settings = Settings { clean_fraction: 0.3, ..Settings::fixed(mode, 2_048) };
    let builder = Cache::builder().rows(8).mode(mode).settings(settings);
    Host::open(&builder, Handle { reader: mode == Mode::Standby, ..Handle::default() }).unwrap()
}

/// Up to 10 records: some that the cache has, some twice, some empty.
fn some_records(random: &mut Random) -> Vec<Record> {
    let record = |random: &mut Random| {
        let bytes = if random.below(40) == 0 { Vec::new() } else { some_bytes(random, 600) };
        (random.below(ADDRESSES) as u64, bytes.into())
    };
    (0..random.below(11)).map(|_| record(random)).collect()
}

/// Single creates, until one is not done.
fn one_by_one(host: &mut Host<Handle>, records: &[Record]) -> Result<(), NotBroughtIn<String>> {
    for (done, (address, bytes)) in records.iter().enumerate() {
        host.create(*address, bytes.clone()).map_err(|error| NotBroughtIn { done, error })?;
    }
    Ok(())
}

/// Does something, with so many calls of the store that go well before one fails.
fn failing<T>(host: &mut Host<Handle>, good_calls: Option<usize>, act: impl FnOnce(&mut Host<Handle>) -> T) -> T {
    host.store().good_calls.set(good_calls);
    let answer = act(host);
    host.store().good_calls.set(None);
    answer
}

/// What is dirty becomes clean, or some records go.
fn go_on(host: &mut Host<Handle>, flush: bool) {
    if !flush {
        (0..ADDRESSES as u64 / 2).for_each(|address| host.discard(address).unwrap());
    } else if host.cache().mode() == Mode::Standby {
        let list: Vec<u64> = host.dirty().map(|(address, _)| address).collect();
        let message = Message::new(host.cache().next_number(), &list).unwrap();
        host.take(message.as_bytes()).unwrap();
    } else {
        host.flush().unwrap();
    }
}

#[test]
fn many_at_once_are_single_creates() {
    let (mut evicted, mut refused, mut failed) = ([0; 3], [0; 3], 0);
    for (seed, mode) in [Mode::Alone, Mode::Lead, Mode::Standby].into_iter().cycle().take(30).enumerate() {
        let mut random = Random::new(seed as u64 + 1);
        let (mut many, mut single) = (opened(mode), opened(mode));
        for _ in 0..200 {
            let records = some_records(&mut random);
            let good_calls = (random.below(2) == 0).then(|| random.below(8));
            let before = many.cache().entries().len();
            let told = failing(&mut many, good_calls, |host| host.bring_in(&records));
            assert_eq!(told, failing(&mut single, good_calls, |host| one_by_one(host, &records)));

            assert_eq!(state(&many), state(&single));
            assert_eq!(many.store().calls, single.store().calls);
            assert_eq!(many.store().disk.borrow().durable, single.store().disk.borrow().durable);
            books_agree(&many);
            let done = told.as_ref().map_or_else(|not| not.done, |()| records.len());
            evicted[seed % 3] += before + done - many.cache().entries().len();
            match told {
                Err(NotBroughtIn { done: 1.., error: HostError::Refused(_) }) => refused[seed % 3] += 1,
                Err(NotBroughtIn { done: 1.., error: HostError::Store { .. } }) => failed += 1,
                _ => {}
            }
            let flush = random.below(3) > 0;
            go_on(&mut many, flush);
            go_on(&mut single, flush);
        }
    }
    let reached = [&evicted[..], &refused, &[failed]].concat();
    assert!(reached.iter().all(|times| *times > 100), "evicted, refused, failed: {reached:?}");
}

#[test]
fn the_records_before_a_refused_one_are_brought_in() {
    let records: [Record; 4] = [100, 200, 100, 300].map(|address| (address, [1; 10].into()));
    for mode in [Mode::Alone, Mode::Lead, Mode::Standby] {
        let mut host = opened(mode);
        let not = host.bring_in(&records).unwrap_err();
        assert_eq!(not, NotBroughtIn { done: 2, error: Refusal::InCache { address: 100 }.into() });
        assert_eq!(not.to_string(), "the cache has an entry at 100 (7); records brought in before: 2");
        assert!(host.dirty().map(|(address, _)| address).eq([100, 200]));
        host.bring_in(&records[3..]).unwrap();
        assert!(host.dirty().map(|(address, _)| address).eq([100, 200, 300]));
    }
}

#[test]
fn what_a_failing_store_left_out_is_brought_in_later() {
    let mut host = opened(Mode::Alone);
    let records: [Record; 5] = [100, 200, 300, 400, 500].map(|address| (address, vec![1; 1_000].into()));
    // Two writes make room for the third, and a sync, as the first leaves memory.
    let not = failing(&mut host, Some(2), |host| host.bring_in(&records)).unwrap_err();
    assert_eq!((not.done, not.error.to_string()), (2, "the store failed at sync: sync".to_string()));
    assert!(host.records().map(|(address, _)| address).eq([100, 200]));
    host.bring_in(&records[not.done..]).unwrap();
    host.flush().unwrap();
    assert!(host.store().disk.borrow().durable.keys().eq([100, 200, 300, 400, 500].iter()));
}

/// A guard that was dropped is released first.
#[test]
fn a_dropped_guard_does_not_keep_a_row() {
    let settings = Settings { clean_fraction: 0.3, ..Settings::defaults(Mode::Alone) };
    let mut host = Host::open(&Cache::builder().rows(1).settings(settings), Handle::default()).unwrap();
    host.create(100, [1; 10]).unwrap();
    let guard = host.read(100).unwrap();
    let records: [Record; 1] = [(200, [2; 10].into())];
    let not = host.bring_in(&records).unwrap_err();
    assert_eq!((not.done, HostError::from(not).refusal()), (0, Some(Refusal::NoRow)));
    drop(guard);
    host.bring_in(&records).unwrap();
}
