//! Many requests on a table that is judged once.

use crate::{layout, raw, Mode, Orders, PlainRequest, Refusal, View};

/// The answers of a batch, in turn: of each request its orders, or its refusal. There are as many as
/// requests were done.
#[derive(Clone, Debug)]
#[must_use]
pub struct Answers<'b> {
    requests: core::slice::Iter<'b, PlainRequest>,
    words: core::slice::Iter<'b, [u64; layout::ANSWER_WORDS]>,
    /// The order words that are not yet read.
    orders: &'b [u64],
    mode: Mode,
}

impl<'b> Answers<'b> {
    pub(crate) fn new(
        requests: &'b [PlainRequest],
        words: &'b [[u64; layout::ANSWER_WORDS]],
        orders: &'b [u64],
        mode: Mode,
    ) -> Answers<'b> {
        Answers { requests: requests.iter(), words: words.iter(), orders, mode }
    }

    /// How many orders the requests gave whose answers are still to come.
    #[must_use]
    pub fn orders(&self) -> usize {
        self.words.as_slice().iter().map(|[_, orders]| *orders as usize).sum()
    }
}

impl<'b> Iterator for Answers<'b> {
    type Item = Result<Orders<'b>, Refusal>;

    fn next(&mut self) -> Option<Result<Orders<'b>, Refusal>> {
        let [number, orders] = *self.words.next()?;
        let request = *self.requests.next()?;
        if number != 0 {
            return Some(Err(Refusal::in_batch(number, self.mode, &request.into())));
        }
        let (given, behind) = self.orders.split_at(layout::ORDER_WORDS * orders as usize);
        self.orders = behind;
        Some(Ok(Orders::new(given)))
    }

    fn size_hint(&self) -> (usize, Option<usize>) {
        self.words.size_hint()
    }
}

impl ExactSizeIterator for Answers<'_> {}

/// Does requests one after another on the cache in the table, which is judged once.
///
/// Each is done exactly as [`step`](crate::step) does it, with the order words that those before it left. A
/// refused request has changed nothing, and those behind it are done all the same.
///
/// The batch stops before the first request for which too few order words or no answer words are left. So
/// there may be fewer answers than requests: carry out the orders, and call again with the rest. A request
/// that can give orders needs [`order_words`](crate::order_words) of the rows to be left, however few it
/// gives: so lend three more for each order that is likely to come.
///
/// ```
/// use speldervacht::{batch, open, order_words, table_words, Mode, PlainRequest, Settings, DEFAULT_THRESHOLD};
///
/// let mut table = [0; table_words(4)];
/// open(&mut table, 4, Mode::Alone, DEFAULT_THRESHOLD, &Settings::fixed(Mode::Alone, 4_096))?;
///
/// // Words for one request, and for two orders more.
/// let mut orders = [0; order_words(4) + 3 * 2];
/// let mut answers = [[0; 2]; 8];
/// let requests = [100, 200, 300, 400].map(|address| PlainRequest::protect_for_reading(address, 500));
///
/// // Three loads have used three orders' words, so that too few are left for the fourth.
/// let first = batch(&mut table, &mut orders, &requests, &mut answers)?;
/// let done = first.len();
/// assert_eq!((done, first.orders()), (3, 3));
/// let second = batch(&mut table, &mut orders, &requests[done..], &mut answers)?;
/// assert_eq!(second.len(), 1);
/// # Ok::<(), speldervacht::Refusal>(())
/// ```
///
/// # Errors
///
/// [`Refusal::BadTable`] if the words picture no cache, and [`Refusal::FewOrderWords`] if too few are lent
/// for the first request. Then no request was done, and no word has changed.
pub fn batch<'b>(
    table: &mut [u64],
    orders: &'b mut [u64],
    requests: &'b [PlainRequest],
    answers: &'b mut [[u64; layout::ANSWER_WORDS]],
) -> Result<Answers<'b>, Refusal> {
    let answer_words = answers.as_flattened_mut();
    // SAFETY: the slices are ours for the call, and borrowed apart. A plain request is its words.
    let batched = unsafe {
        raw::speldervacht_batch(
            table.as_mut_ptr(),
            table.len(),
            orders.as_mut_ptr(),
            orders.len(),
            requests.as_ptr().cast(),
            layout::REQUEST_WORDS * requests.len(),
            answer_words.as_mut_ptr(),
            answer_words.len(),
        )
    };
    let (table, done) = (View::unjudged(table), batched.done as usize);
    match batched.number {
        1 => Err(Refusal::BadTable),
        2 if done == 0 && !answers.is_empty() => Err(Refusal::few_order_words(table, orders.len())),
        _ => Ok(Answers::new(requests, &answers[..done], orders, table.mode())),
    }
}
