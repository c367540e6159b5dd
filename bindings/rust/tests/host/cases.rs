//! Single cases: what each kind of failure leaves, and what guards do.

use crate::disk::{state, Handle};
use speldervacht::{Access, Cache, Call, Host, HostError, Message, Mode, Refusal, Settings, Store};
use std::sync::Arc;

/// Alone, 4,096 bytes, of which so large a share is to be clean.
fn alone(rows: usize, clean_fraction: f64) -> Host<Handle> {
    let settings = Settings { clean_fraction, ..Settings::fixed(Mode::Alone, 4_096) };
    Host::open(&Cache::builder().rows(rows).settings(settings), Handle::default()).unwrap()
}

/// What the store answered at its so-manieth call, from 0.
fn failing<T>(
    host: &mut Host<Handle>,
    good_calls: usize,
    act: impl FnOnce(&mut Host<Handle>) -> Result<T, HostError<String>>,
) -> String {
    host.store().good_calls.set(Some(good_calls));
    let error = act(host).err().expect("the store fails");
    host.store().good_calls.set(None);
    error.to_string()
}

fn durable(host: &Host<Handle>, address: u64) -> Option<Vec<u8>> {
    host.store().disk.borrow().durable.get(&address).cloned()
}

#[test]
fn an_insert_whose_orders_fail_leaves_what_was_to_be_evicted() {
    let mut host = alone(4, 0.0);
    host.create(100, [1; 3_000]).unwrap();
    host.create(200, [2; 1_000]).unwrap();
    let before = state(&host);
    // The orders: write 100, write 200, evict 100. It leaves memory, so the store is synced first.
    for (calls, told) in [(0, "write 100 3000"), (1, "write 200 1000"), (2, "sync")] {
        let error = failing(&mut host, calls, |host| host.create(300, [3; 500]));
        assert_eq!(error, format!("the store failed at {told}: {told}"));
        assert_eq!(state(&host), before);
    }
    host.create(300, [3; 500]).unwrap();
    assert_eq!(host.records().map(|(address, _)| address).collect::<Vec<_>>(), [200, 300]);
    assert_eq!(durable(&host, 100), Some(vec![1; 3_000]));
}

#[test]
fn a_changed_release_may_write_and_evict_its_own_record() {
    // With all bytes to be clean, the changed record is written at its release; being larger than the
    // maximum, it then leaves.
    let mut host = alone(4, 1.0);
    host.create(100, [1; 10]).unwrap();
    host.flush().unwrap();
    for (calls, told) in [(0, "write 100 5000"), (1, "sync")] {
        let guard = host.write(100).unwrap();
        let before = state(&host);
        host.store().good_calls.set(Some(calls));
        let not = guard.changed(&mut host, [2; 5_000]).unwrap_err();
        host.store().good_calls.set(None);
        assert_eq!(not.error.to_string(), format!("the store failed at {told}: {told}"));
        assert_eq!(state(&host), before);
        // The writer gives up. The record is clean as it was, so the store has to have it so again.
        drop(not.guard);
        host.settle().unwrap();
        host.create(200, [3; 4_096]).unwrap();
        assert!(host.record(100).is_none());
        assert_eq!(durable(&host, 100), Some(vec![1; 10]));
        host.discard(200).unwrap();
    }
    let guard = host.write(100).unwrap();
    guard.changed(&mut host, [2; 5_000]).unwrap();
    assert!(host.record(100).is_none());
    assert_eq!(durable(&host, 100), Some(vec![2; 5_000]));
}

#[test]
fn a_changed_release_that_failed_can_be_tried_again() {
    let mut host = alone(4, 1.0);
    host.create(100, [1; 10]).unwrap();
    host.store().good_calls.set(Some(0));
    let not = host.write(100).unwrap().changed(&mut host, [2; 20]).unwrap_err();
    assert_eq!(not.guard[..], [1; 10]);
    not.guard.changed(&mut host, not.bytes).unwrap();
    assert_eq!(host.record(100).unwrap()[..], [2; 20]);
}

#[test]
fn a_load_that_fails_evicts_nothing() {
    let mut host = alone(4, 0.0);
    host.store_mut().write(300, &[3; 500]).unwrap();
    host.create(100, [1; 3_000]).unwrap();
    host.create(200, [2; 1_000]).unwrap();
    let before = state(&host);
    // The orders: write 100, write 200, evict 100, load 300.
    for (calls, told) in [(0, "size 300"), (1, "write 100 3000"), (3, "load 300 500"), (4, "sync")] {
        let error = failing(&mut host, calls, |host| host.protect_for_reading(300));
        assert_eq!(error, format!("the store failed at {told}: {told}"));
        assert_eq!(state(&host), before);
        // A sync that fails loses what was written.
        host.store_mut().write(300, &[3; 500]).unwrap();
    }
    assert_eq!(host.protect_for_reading(300), Ok(Access::Miss));
    assert_eq!(host.protect_for_reading(300), Ok(Access::Hit));
    assert_eq!(host.record(300).unwrap()[..], [3; 500]);
}

#[test]
fn what_an_earlier_sync_lost_is_written_again() {
    let mut host = alone(4, 1.0);
    host.create(100, [1; 10]).unwrap();
    // Written at its release, and clean, but not synced.
    host.change(100, [2; 10]).unwrap();
    assert!(host.cache().dirty().next().is_none());
    assert_eq!(failing(&mut host, 0, |host| host.flush()), "the store failed at sync: sync");
    assert_eq!(durable(&host, 100), None);
    assert_eq!(failing(&mut host, 0, |host| host.flush()), "the store failed at write 100 10: write 100 10");
    host.flush().unwrap();
    assert_eq!(durable(&host, 100), Some(vec![2; 10]));
}

#[test]
fn a_flush_that_fails_uses_up_no_number() {
    let mut lead = Host::open(&Cache::builder().mode(Mode::Lead), Handle::default()).unwrap();
    lead.create(100, [1; 10]).unwrap();
    for (calls, told) in [(0, "write 100 10"), (1, "sync")] {
        let error = failing(&mut lead, calls, |host| host.flush());
        assert_eq!(error, format!("the store failed at {told}: {told}"));
        assert_eq!(lead.report().unwrap().next, 1);
    }
    assert_eq!(lead.flush(), Ok(Some(Message::new(1, &[100]).unwrap())));
    assert_eq!(lead.sync(), Ok(Message::new(2, &[]).unwrap()));
    assert_eq!(alone(2, 0.0).flush(), Ok(None));
}

#[test]
fn a_guard_releases_when_dropped() {
    let mut host = alone(2, 0.0);
    host.create(100, [1; 10]).unwrap();
    let (first, second) = (host.read(100).unwrap(), host.read(100).unwrap());
    assert_eq!((first.address(), &first[..], &second[..]), (100, &[1; 10][..], &[1; 10][..]));
    let held = |host: &mut Host<Handle>| host.discard(100).unwrap_err().to_string();
    assert_eq!(held(&mut host), "the entry at 100 is held by 2 readers (8)");
    drop(first);
    assert_eq!(held(&mut host), "the entry at 100 is held by 1 reader (8)");
    // A guard may go on another thread.
    std::thread::spawn(move || drop(second)).join().unwrap();
    let writer = host.write(100).unwrap();
    assert_eq!(held(&mut host), "the entry at 100 is held for writing (8)");
    drop(writer);
    host.settle().unwrap();
    assert_eq!(host.cache().get(100).unwrap().hold, None);
}

#[test]
fn a_hold_that_is_kept_goes_by_a_request() {
    let mut host = alone(2, 0.0);
    host.create(100, [1; 10]).unwrap();
    host.write(100).unwrap().keep();
    host.settle().unwrap();
    host.release_changed(100, [2; 20]).unwrap();
    host.read(100).unwrap().keep();
    host.release(100).unwrap();
    assert_eq!(host.release(100), Err(HostError::Refused(Refusal::NotHeld { address: 100 })));
    assert_eq!(host.record(100).unwrap()[..], [2; 20]);
}

#[test]
fn a_guard_whose_hold_is_gone_is_told_once() {
    let mut host = alone(2, 0.0);
    host.create(100, [1; 10]).unwrap();
    let guard = host.read(100).unwrap();
    host.release(100).unwrap();
    drop(guard);
    assert_eq!(host.settle(), Err(HostError::Refused(Refusal::NotHeld { address: 100 })));
    assert_eq!(host.settle(), Ok(()));
}

#[test]
fn a_release_that_fails_is_done_later() {
    let mut host = alone(2, 1.0);
    host.create(100, [1; 10]).unwrap();
    let guard = host.read(100).unwrap();
    // The release writes the record, as all bytes are to be clean.
    drop(guard);
    let told = "the store failed at write 100 10: write 100 10";
    for _ in 0..2 {
        assert_eq!(failing(&mut host, 0, |host| host.flush()), told);
        assert!(host.cache().get(100).unwrap().hold.is_some());
    }
    host.flush().unwrap();
    assert_eq!(host.cache().get(100).unwrap().hold, None);
}

#[test]
fn a_change_that_fails_leaves_the_record_and_no_hold() {
    let mut host = alone(2, 1.0);
    host.create(100, [1; 10]).unwrap();
    assert_eq!(
        failing(&mut host, 0, |host| host.change(100, [2; 20])),
        "the store failed at write 100 20: write 100 20"
    );
    host.settle().unwrap();
    assert_eq!((host.record(100).unwrap()[..].to_vec(), host.cache().get(100).unwrap().hold), (vec![1; 10], None));
}

#[test]
#[should_panic(expected = "the guard of record 100 is another host's")]
fn a_guard_is_of_one_host() {
    let (mut host, mut other) = (alone(2, 0.0), alone(2, 0.0));
    host.create(100, [1; 10]).unwrap();
    other.create(100, [1; 10]).unwrap();
    let _ = host.write(100).unwrap().changed(&mut other, [2; 20]);
}

/// The defaults alone, and a clean fraction of 0.3.
fn defaults_alone() -> Settings {
    Settings { clean_fraction: 0.3, ..Settings::defaults(Mode::Alone) }
}

/// A store whose writes panic.
struct Panicking;

impl Store for Panicking {
    type Error = String;

    fn size(&mut self, _: u64) -> Result<u64, String> {
        Err("it is empty".to_string())
    }

    fn read(&mut self, _: u64, _: &mut [u8]) -> Result<(), String> {
        Err("it is empty".to_string())
    }

    fn write(&mut self, _: u64, _: &[u8]) -> Result<(), String> {
        panic!("the store is gone")
    }

    fn sync(&mut self) -> Result<(), String> {
        Ok(())
    }
}

#[test]
fn a_store_that_panics_leaves_the_host_as_it_was() {
    let mut host = Host::open(&Cache::builder().settings(defaults_alone()), Panicking).unwrap();
    host.create(100, [1; 10]).unwrap();
    let before = host.cache().clone();
    let flush = std::panic::AssertUnwindSafe(|| host.flush());
    assert!(std::panic::catch_unwind(flush).is_err());
    assert_eq!(host.cache(), &before);
    assert_eq!(host.dirty().count(), 1);
}

#[test]
fn a_store_that_panics_leaves_what_was_brought_in_before() {
    let mut host = Host::open(&Cache::builder().rows(2).settings(defaults_alone()), Panicking).unwrap();
    let records: [(u64, Arc<[u8]>); 3] = [100, 200, 300].map(|address| (address, [1; 10].into()));
    // There is no row for the third until the first is written.
    let bring_in = std::panic::AssertUnwindSafe(|| host.bring_in(&records));
    assert!(std::panic::catch_unwind(bring_in).is_err());
    assert!(host.dirty().map(|(address, _)| address).eq([100, 200]));
    assert_eq!(host.cache().entries().len(), 2);
}

#[test]
fn an_error_says_who_failed() {
    let mut host = alone(2, 0.0);
    let refused = host.unpin(100).unwrap_err();
    assert_eq!(refused.refusal(), Some(Refusal::NotInCache { address: 100 }));
    assert_eq!(refused.to_string(), "the cache has no entry at 100 (6)");
    host.store().good_calls.set(Some(0));
    let failed = host.read(100).unwrap_err();
    assert_eq!(failed.refusal(), None);
    assert_eq!(failed, HostError::Store { call: Call::Size { address: 100 }, error: "size 100".to_string() });
}
