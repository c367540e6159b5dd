//! A cache that owns its words.

use crate::{
    ask, batch, explain, layout, open, order_words, reason_words, report, step, table_words, Answers, Entries, Entry,
    Explained, Mode, OrderKind, Orders, PlainRequest, Refusal, Report, Request, Settings, View, DEFAULT_THRESHOLD,
};
use alloc::{vec, vec::Vec};
use core::fmt;

/// A cache over words of its own: a table, and words for orders, for their reasons and for the answers of a
/// batch.
///
/// Each request has a method. Where a request can give orders, they are the answer, to be carried out
/// in turn before the next request; where by the rules it can give none, the answer is `()`. A
/// refused request changes nothing. [`Host`](crate::Host) carries the orders out on a store, and has
/// guards that release a record when dropped: a release may give orders, so a guard needs someone to
/// carry them out.
///
/// The words may be copied, stored and sent: [`as_words`](Cache::as_words) has them,
/// [`from_words`](Cache::from_words) makes a cache of them. Two caches are equal if these words are.
#[derive(Clone)]
pub struct Cache {
    table: Vec<u64>,
    /// For one request, and more once a batch has needed it.
    orders: Vec<u64>,
    /// None before the first request that is explained.
    reasons: Vec<u64>,
    /// None before the first batch.
    answers: Vec<[u64; layout::ANSWER_WORDS]>,
}

/// Whether a protected record was there.
#[derive(Clone, Copy, Debug, PartialEq, Eq)]
pub enum Access {
    /// It was there.
    Hit,
    /// It was not: one of the orders loads it.
    Miss,
}

/// The answer to a protect.
#[derive(Clone, Debug)]
pub struct Protected<'o> {
    pub access: Access,
    /// A hit has orders too, if it ends an epoch.
    pub orders: Orders<'o>,
}

/// How a cache is opened. Without more it has 64 rows, is alone, and has the default threshold and the
/// default settings of its mode.
#[derive(Clone, Copy, Debug, PartialEq)]
#[must_use]
pub struct Builder {
    rows: usize,
    mode: Mode,
    threshold: u64,
    /// The default settings of the mode, if none.
    settings: Option<Settings>,
}

impl Default for Builder {
    fn default() -> Builder {
        Builder { rows: 64, mode: Mode::Alone, threshold: DEFAULT_THRESHOLD, settings: None }
    }
}

impl Builder {
    /// How many entries the cache can have: 1 to [`MOST_ROWS`](crate::MOST_ROWS).
    pub fn rows(self, rows: usize) -> Builder {
        Builder { rows, ..self }
    }

    /// What part the cache plays. It decides the default settings, and changes none that are named.
    ///
    /// ```
    /// use speldervacht::{Cache, Mode, Settings};
    ///
    /// let builder = Cache::builder();
    /// assert_eq!(builder.open()?.report()?.minimum_clean, 20_971);
    /// assert_eq!(builder.mode(Mode::Lead).open()?.report()?.minimum_clean, 629_145);
    ///
    /// let named = Settings { clean_fraction: 0.5, ..Settings::defaults(Mode::Lead) };
    /// assert_eq!(builder.settings(named).mode(Mode::Lead).open()?.report()?.minimum_clean, 1_048_576);
    /// assert_eq!(builder.mode(Mode::Lead).settings(named).open()?.report()?.minimum_clean, 1_048_576);
    /// # Ok::<(), speldervacht::Refusal>(())
    /// ```
    pub fn mode(self, mode: Mode) -> Builder {
        Builder { mode, ..self }
    }

    /// The byte count above which a list is due: 1 to [`LARGEST_THRESHOLD`](crate::LARGEST_THRESHOLD).
    /// A lead and its standby have the same.
    pub fn threshold(self, threshold: u64) -> Builder {
        Builder { threshold, ..self }
    }

    /// The settings, which need an initial size. They are taken as they are, in any mode.
    pub fn settings(self, settings: Settings) -> Builder {
        Builder { settings: Some(settings), ..self }
    }

    /// Opens an empty cache.
    ///
    /// # Errors
    ///
    /// [`Refusal::BadTable`] for a row count out of limits, [`Refusal::BadThreshold`],
    /// [`Refusal::BadSetting`].
    pub fn open(&self) -> Result<Cache, Refusal> {
        if self.rows > crate::MOST_ROWS {
            return Err(Refusal::BadTable);
        }
        let mut cache = Cache::over(vec![0; table_words(self.rows)], self.rows);
        let settings = self.settings.unwrap_or_else(|| Settings::defaults(self.mode));
        open(&mut cache.table, self.rows, self.mode, self.threshold, &settings)?;
        Ok(cache)
    }
}

impl Cache {
    /// What a cache is opened with: `Cache::builder().rows(64).mode(Mode::Lead).open()`.
    pub fn builder() -> Builder {
        Builder::default()
    }

    /// A cache of the words of a table. Words past the layout's end are cut off.
    ///
    /// # Errors
    ///
    /// [`Refusal::BadTable`] if the words picture no cache.
    pub fn from_words(words: impl Into<Vec<u64>>) -> Result<Cache, Refusal> {
        let mut table = words.into();
        let rows = View::of(&table)?.rows();
        table.truncate(table_words(rows));
        Ok(Cache::over(table, rows))
    }

    fn over(table: Vec<u64>, rows: usize) -> Cache {
        Cache { table, orders: vec![0; order_words(rows)], reasons: Vec::new(), answers: Vec::new() }
    }

    /// The words of the table.
    #[must_use]
    pub fn as_words(&self) -> &[u64] {
        &self.table
    }

    // ---- requests

    /// Does a request that stands as a value.
    ///
    /// # Errors
    ///
    /// The refusal of the request, which has changed nothing.
    pub fn step(&mut self, request: &Request) -> Result<Orders<'_>, Refusal> {
        step(&mut self.table, &mut self.orders, request)
    }

    /// Does a request as [`step`](Cache::step) does it, and has each order with its reason, and the change of
    /// the maximum with its cause and bound.
    ///
    /// ```
    /// use speldervacht::{Bound, Cache, Cause, Flash, MaximumChange, Mode, Reason, Request, Settings};
    ///
    /// let flash = Flash::On { multiple: 1.0, threshold: 0.25 };
    /// let settings = Settings { flash, maximum_size: 16_384, ..Settings::fixed(Mode::Lead, 4_096) };
    /// let mut cache = Cache::builder().rows(1).mode(Mode::Lead).settings(settings).open()?;
    /// cache.protect_for_reading(100, 4_000)?;
    /// cache.release(100)?;
    ///
    /// // The maximum rises as far as it may. Bytes are lacking all the same, and so is a row: bytes are told.
    /// let explained = cache.explain(&Request::Insert { address: 200, size: 13_000 })?;
    /// assert_eq!(explained.change, Some(MaximumChange { cause: Cause::Flash, bound: Bound::MaximumSize }));
    /// let reasons: Vec<Reason> = explained.orders.map(|(_, reason)| reason).collect();
    /// assert_eq!(reasons, [Reason::RoomByBytes]);
    /// # Ok::<(), speldervacht::Refusal>(())
    /// ```
    ///
    /// # Errors
    ///
    /// The refusal of the request, which has changed nothing.
    pub fn explain(&mut self, request: &Request) -> Result<Explained<'_>, Refusal> {
        // A damaged table may name any number of rows.
        self.reasons.resize(reason_words(self.rows().min(crate::MOST_ROWS)), 0);
        explain(&mut self.table, &mut self.orders, &mut self.reasons, request)
    }

    /// Does requests one after another, and has the answer of each, in turn: its orders, or its refusal.
    /// The table is judged once for all of them, and once more whenever more orders come than there are
    /// requests left.
    ///
    /// Each is done exactly as [`step`](Cache::step) does it. A refused request has changed nothing, and
    /// those behind it are done all the same. The orders are carried out one request's after the other's,
    /// before the next request or batch.
    ///
    /// ```
    /// use speldervacht::{Cache, Mode, PlainRequest, Refusal, Settings};
    ///
    /// let mut cache = Cache::builder().rows(4).settings(Settings::fixed(Mode::Alone, 4_096)).open()?;
    /// cache.insert(100, 500)?;
    ///
    /// // A tick that reads two records, one of which is loaded, and tries to discard one of them.
    /// let tick = [
    ///     PlainRequest::protect_for_reading(100, 500),
    ///     PlainRequest::protect_for_reading(200, 700),
    ///     PlainRequest::discard(200),
    ///     PlainRequest::release(100),
    ///     PlainRequest::release(200),
    /// ];
    /// for (request, answer) in tick.iter().zip(cache.batch(&tick)?) {
    ///     match answer {
    ///         Ok(orders) => orders.for_each(|order| assert_eq!(order.to_string(), "load 200 700")),
    ///         Err(refusal) => assert_eq!((*request, refusal), (tick[2], Refusal::HeldInBatch)),
    ///     }
    /// }
    /// # Ok::<(), Refusal>(())
    /// ```
    ///
    /// # Errors
    ///
    /// [`Refusal::BadTable`] if the words were damaged in memory. Then no request was done.
    pub fn batch<'b>(&'b mut self, requests: &'b [PlainRequest]) -> Result<Answers<'b>, Refusal> {
        batch_to_its_end(&mut self.table, &mut self.orders, &mut self.answers, requests)
    }

    /// Does a request on a copy of the table, for [`exchange`](Cache::exchange) to make it the cache's.
    #[cfg(feature = "std")]
    pub(crate) fn step_on_copy(&mut self, copy: &mut Vec<u64>, request: &Request) -> Result<Orders<'_>, Refusal> {
        self.copy_to(copy);
        step(copy, &mut self.orders, request)
    }

    /// Does a batch on a copy of the table, for [`exchange`](Cache::exchange) to make it the cache's.
    #[cfg(feature = "std")]
    pub(crate) fn batch_on_copy<'b>(
        &'b mut self,
        copy: &mut Vec<u64>,
        requests: &'b [PlainRequest],
    ) -> Result<Answers<'b>, Refusal> {
        self.copy_to(copy);
        batch_to_its_end(copy, &mut self.orders, &mut self.answers, requests)
    }

    #[cfg(feature = "std")]
    fn copy_to(&self, copy: &mut Vec<u64>) {
        copy.clear();
        copy.extend_from_slice(&self.table);
    }

    /// Exchanges the table with a copy on which requests were done.
    #[cfg(feature = "std")]
    pub(crate) fn exchange(&mut self, copy: &mut Vec<u64>) {
        core::mem::swap(&mut self.table, copy);
    }

    /// Does a request that by the rules gives no orders.
    fn step_quietly(&mut self, request: &Request) -> Result<(), Refusal> {
        self.step(request).map(|orders| debug_assert_eq!(orders.len(), 0))
    }

    fn protect(&mut self, request: &Request) -> Result<Protected<'_>, Refusal> {
        let orders = self.step(request)?;
        let missed = orders.clone().any(|order| order.kind == OrderKind::Load);
        Ok(Protected { access: if missed { Access::Miss } else { Access::Hit }, orders })
    }

    /// A new record: room is made, and its entry comes, dirty.
    ///
    /// # Errors
    ///
    /// [`Refusal::BadAddress`], [`Refusal::BadSize`], [`Refusal::InCache`], [`Refusal::NoRow`].
    pub fn insert(&mut self, address: u64, size: u64) -> Result<Orders<'_>, Refusal> {
        self.step(&Request::Insert { address, size })
    }

    /// A hold for reading, joining other readers. On a miss, room is made for the size and the record
    /// is loaded.
    ///
    /// # Errors
    ///
    /// [`Refusal::BadAddress`], [`Refusal::BadSize`], [`Refusal::Held`] by a writer or by 65,535
    /// readers, [`Refusal::NoRow`].
    pub fn protect_for_reading(&mut self, address: u64, size: u64) -> Result<Protected<'_>, Refusal> {
        self.protect(&Request::ProtectForReading { address, size })
    }

    /// A hold for writing, which nobody shares. On a miss as for reading.
    ///
    /// # Errors
    ///
    /// [`Refusal::BadAddress`], [`Refusal::BadSize`], [`Refusal::Held`], [`Refusal::NoRow`].
    pub fn protect_for_writing(&mut self, address: u64, size: u64) -> Result<Protected<'_>, Refusal> {
        self.protect(&Request::ProtectForWriting { address, size })
    }

    /// One hold goes, the record unchanged.
    ///
    /// # Errors
    ///
    /// [`Refusal::BadAddress`], [`Refusal::NotInCache`], [`Refusal::NotHeld`].
    pub fn release(&mut self, address: u64) -> Result<Orders<'_>, Refusal> {
        self.step(&Request::ReleaseUnchanged { address })
    }

    /// The writer's hold goes; the record was changed and has this size now.
    ///
    /// # Errors
    ///
    /// [`Refusal::BadAddress`], [`Refusal::BadSize`], [`Refusal::NotInCache`], [`Refusal::Held`] by
    /// readers, [`Refusal::NotHeld`].
    pub fn release_changed(&mut self, address: u64, size: u64) -> Result<Orders<'_>, Refusal> {
        self.step(&Request::ReleaseChanged { address, size })
    }

    /// A held entry is pinned: it stays until it is unpinned.
    ///
    /// # Errors
    ///
    /// [`Refusal::BadAddress`], [`Refusal::NotInCache`], [`Refusal::NotHeld`], [`Refusal::Pinned`].
    pub fn pin(&mut self, address: u64) -> Result<(), Refusal> {
        self.step_quietly(&Request::Pin { address })
    }

    /// The pin goes.
    ///
    /// # Errors
    ///
    /// [`Refusal::BadAddress`], [`Refusal::NotInCache`], [`Refusal::NotPinned`].
    pub fn unpin(&mut self, address: u64) -> Result<(), Refusal> {
        self.step_quietly(&Request::Unpin { address })
    }

    /// An entry that is pinned or held for writing was changed and has this size now.
    ///
    /// # Errors
    ///
    /// [`Refusal::BadAddress`], [`Refusal::BadSize`], [`Refusal::NotInCache`], [`Refusal::Held`] by
    /// readers, [`Refusal::NotHeld`].
    pub fn resize(&mut self, address: u64, size: u64) -> Result<(), Refusal> {
        self.step_quietly(&Request::Resize { address, size })
    }

    /// The record is gone: its entry goes without an order. An address that the cache does not have is
    /// accepted.
    ///
    /// # Errors
    ///
    /// [`Refusal::BadAddress`], [`Refusal::Held`], [`Refusal::Pinned`].
    pub fn discard(&mut self, address: u64) -> Result<(), Refusal> {
        self.step_quietly(&Request::Discard { address })
    }

    /// Every dirty entry is written, by rising address. At a lead, [`Message::of`](crate::Message::of) the
    /// orders is sent, with what [`next_number`](Cache::next_number) was before.
    ///
    /// # Errors
    ///
    /// [`Refusal::WrongMode`] at a standby, [`Refusal::Held`] if anything is held,
    /// [`Refusal::NoNumberLeft`] at a lead.
    pub fn flush(&mut self) -> Result<Orders<'_>, Refusal> {
        self.step(&Request::Flush)
    }

    /// Dirty entries of the recency list are written, the oldest first, until enough is clean, so that the
    /// report's [`missing_clean`](Report::missing_clean) is 0, or until none is left. A message is sent as at a
    /// [`flush`](Cache::flush).
    ///
    /// ```
    /// use speldervacht::{Cache, Mode, Settings};
    ///
    /// // Half of 4,096 bytes are to be clean or unused.
    /// let settings = Settings { clean_fraction: 0.5, ..Settings::fixed(Mode::Lead, 4_096) };
    /// let mut lead = Cache::builder().rows(4).mode(Mode::Lead).settings(settings).open()?;
    /// lead.insert(100, 1_000)?;
    /// lead.insert(200, 2_000)?;
    /// assert_eq!(lead.report()?.missing_clean, 952);
    ///
    /// let orders: Vec<String> = lead.sync()?.map(|order| order.to_string()).collect();
    /// assert_eq!(orders, ["write 100 1000"]);
    /// assert_eq!(lead.report()?.missing_clean, 0);
    /// # Ok::<(), speldervacht::Refusal>(())
    /// ```
    ///
    /// # Errors
    ///
    /// [`Refusal::WrongMode`] unless the cache is a lead, [`Refusal::NoNumberLeft`].
    pub fn sync(&mut self) -> Result<Orders<'_>, Refusal> {
        self.step(&Request::Sync)
    }

    /// What the lead wrote becomes clean. The bytes are those of its message.
    ///
    /// # Errors
    ///
    /// [`Refusal::WrongMode`] unless the cache is a standby, [`Refusal::CutMessage`],
    /// [`Refusal::BadMessage`], [`Refusal::WrongNumber`], [`Refusal::BadAddress`], [`Refusal::BadList`].
    pub fn take(&mut self, message: &[u8]) -> Result<(), Refusal> {
        self.step_quietly(&Request::Take { message })
    }

    /// Other settings.
    ///
    /// # Errors
    ///
    /// [`Refusal::BadSetting`].
    pub fn configure(&mut self, settings: &Settings) -> Result<Orders<'_>, Refusal> {
        self.step(&Request::Configure { settings: *settings })
    }

    // ---- questions

    /// What a request would be answered. It changes nothing, and holds until the next request.
    ///
    /// # Errors
    ///
    /// The refusal that the request would get.
    pub fn ask(&self, request: &Request) -> Result<(), Refusal> {
        ask(&self.table, self.orders.len(), request)
    }

    /// The figures of the cache.
    ///
    /// # Errors
    ///
    /// [`Refusal::BadTable`] if the words were damaged in memory.
    pub fn report(&self) -> Result<Report, Refusal> {
        report(&self.table)
    }

    /// The table, for reading.
    #[must_use]
    pub fn view(&self) -> View<'_> {
        View::unjudged(&self.table)
    }

    /// The number of rows: how many entries the cache can have.
    #[must_use]
    pub fn rows(&self) -> usize {
        self.view().rows()
    }

    /// The part that the cache plays.
    #[must_use]
    pub fn mode(&self) -> Mode {
        self.view().mode()
    }

    /// The byte count above which a list is due.
    #[must_use]
    pub fn threshold(&self) -> u64 {
        self.view().threshold()
    }

    /// The number of the next message: the one that a lead sends, or the one that a standby takes. 0: no
    /// number is left.
    #[must_use]
    pub fn next_number(&self) -> u64 {
        self.view().next_number()
    }

    /// The entries by rising address.
    #[must_use]
    pub fn entries(&self) -> Entries<'_> {
        self.view().entries()
    }

    /// The dirty entries by rising address.
    #[must_use]
    pub fn dirty(&self) -> impl DoubleEndedIterator<Item = Entry> + '_ {
        self.view().dirty()
    }

    /// The entry at the address, by a binary search.
    #[must_use]
    pub fn get(&self, address: u64) -> Option<Entry> {
        self.view().get(address)
    }

    /// The entries that are neither held nor pinned, from the next to go to the newest.
    #[must_use]
    pub fn recency(&self) -> Entries<'_> {
        self.view().recency()
    }
}

/// Does all requests, with more order words whenever those there are too few.
fn batch_to_its_end<'b>(
    table: &mut [u64],
    order_space: &'b mut Vec<u64>,
    answer_space: &'b mut Vec<[u64; layout::ANSWER_WORDS]>,
    requests: &'b [PlainRequest],
) -> Result<Answers<'b>, Refusal> {
    // A damaged table may name any number of rows.
    let rows = View::unjudged(table).rows().min(crate::MOST_ROWS);
    answer_space.resize(requests.len(), [0; layout::ANSWER_WORDS]);
    let (mut done, mut given) = (0, 0);
    loop {
        let rest = &requests[done..];
        let lent = order_words(rows) + layout::ORDER_WORDS * (given + rest.len());
        order_space.resize(lent.max(order_space.len()), 0);
        let orders = &mut order_space[layout::ORDER_WORDS * given..];
        let answers = batch(table, orders, rest, &mut answer_space[done..])?;
        done += answers.len();
        given += answers.orders();
        if done == requests.len() {
            break;
        }
    }
    Ok(Answers::new(requests, answer_space, order_space, View::unjudged(table).mode()))
}

impl PartialEq for Cache {
    fn eq(&self, other: &Cache) -> bool {
        self.table == other.table
    }
}

impl Eq for Cache {}

impl fmt::Debug for Cache {
    /// The figures, not the words.
    fn fmt(&self, f: &mut fmt::Formatter) -> fmt::Result {
        self.view().fmt(f)
    }
}
