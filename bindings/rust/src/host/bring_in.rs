//! Many new records at once.

use super::{memory::Brought, Host, HostError, Store};
use crate::{Order, PlainRequest};
use core::{error::Error, fmt};
use std::{
    panic::{catch_unwind, resume_unwind, AssertUnwindSafe},
    sync::Arc,
    vec::Vec,
};

/// Why a record was not brought in. Those before it are; it and those behind it are not.
#[derive(Clone, Copy, Debug, PartialEq, Eq)]
pub struct NotBroughtIn<E> {
    /// How many records are brought in: the place, from 0, of the first that is not.
    pub done: usize,
    pub error: HostError<E>,
}

impl<S: Store> Host<S> {
    /// Many new records, as one [`create`](Host::create) after another makes them, by one batch: the
    /// table is judged once.
    ///
    /// ```
    /// # use speldervacht::{Cache, Host, Mode, Refusal, Settings, Store};
    /// # use std::sync::Arc;
    /// # struct Records;
    /// # impl Store for Records {
    /// #     type Error = String;
    /// #     fn size(&mut self, _: u64) -> Result<u64, String> { Err("empty".into()) }
    /// #     fn read(&mut self, _: u64, _: &mut [u8]) -> Result<(), String> { Err("empty".into()) }
    /// #     fn write(&mut self, _: u64, _: &[u8]) -> Result<(), String> { Ok(()) }
    /// #     fn sync(&mut self) -> Result<(), String> { Ok(()) }
    /// # }
    /// let small = Cache::builder().rows(2).mode(Mode::Standby).settings(Settings::fixed(Mode::Standby, 4_096));
    /// let mut standby = Host::open(&small, Records)?;
    /// let records: [(u64, Arc<[u8]>); 3] = [100, 200, 300].map(|address| (address, [1, 2, 3].into()));
    ///
    /// // There is no row for the third.
    /// let not = standby.bring_in(&records).unwrap_err();
    /// assert_eq!((not.done, not.error.refusal()), (2, Some(Refusal::NoRow)));
    /// assert!(standby.dirty().map(|(address, _)| address).eq([100, 200]));
    /// # Ok::<(), Refusal>(())
    /// ```
    ///
    /// # Errors
    ///
    /// Those of [`create`](Host::create), and how many records are brought in all the same. The rest may
    /// be tried again.
    ///
    /// # Panics
    ///
    /// If the store does. Then the records before that are brought in.
    pub fn bring_in(&mut self, records: &[(u64, Arc<[u8]>)]) -> Result<(), NotBroughtIn<S::Error>> {
        self.settle().map_err(|error| NotBroughtIn { done: 0, error })?;
        let insert = |(address, bytes): &(u64, Arc<[u8]>)| PlainRequest::insert(*address, bytes.len() as u64);
        let inserts: Vec<PlainRequest> = records.iter().map(insert).collect();
        let mut done = 0;
        let ended = catch_unwind(AssertUnwindSafe(|| self.insert_on_copy(&inserts, records, &mut done)));
        if done < inserts.len() {
            // Their orders are carried out already: on the same table they come to the same.
            let again = self.cache.batch_on_copy(&mut self.copy, &inserts[..done]).map(drop);
            debug_assert!(done == 0 || again.is_ok());
        }
        self.cache.exchange(&mut self.copy);
        ended.unwrap_or_else(|panic| resume_unwind(panic)).map_err(|error| NotBroughtIn { done, error })
    }

    /// Does the inserts on a copy of the table, and for each in turn carries out its orders and keeps its
    /// record. `done` counts those for which this went well.
    fn insert_on_copy(
        &mut self,
        inserts: &[PlainRequest],
        records: &[(u64, Arc<[u8]>)],
        done: &mut usize,
    ) -> Result<(), HostError<S::Error>> {
        let answers = self.cache.batch_on_copy(&mut self.copy, inserts)?;
        for (answer, (address, bytes)) in answers.zip(records) {
            let orders: Vec<Order> = answer?.collect();
            // What is accepted as new was not in the cache.
            let brought = Some(Brought { address: *address, bytes, clean: false });
            let work = self.memory.call_store(&orders, false, brought)?;
            self.memory.keep(work, brought);
            *done += 1;
        }
        Ok(())
    }
}

impl<E> From<NotBroughtIn<E>> for HostError<E> {
    /// The error alone.
    fn from(not: NotBroughtIn<E>) -> HostError<E> {
        not.error
    }
}

impl<E: fmt::Display> fmt::Display for NotBroughtIn<E> {
    fn fmt(&self, f: &mut fmt::Formatter) -> fmt::Result {
        write!(f, "{}; records brought in before: {}", self.error, self.done)
    }
}

impl<E: fmt::Debug + fmt::Display> Error for NotBroughtIn<E> {}
