//! A cache twice: in the library's table, and as the model.

use crate::batch::{self, Came, ANSWER_WORDS, REQUEST_WORDS};
use crate::boundary::{mode_of, request_of, settings_of, Asked, SettingsWords};
use crate::library::{self, Answer, Batched, Explanation, Verdict};
use crate::message;
use crate::messages;
use crate::model::{
    self, order_words, reason_words, Done, Entry, Lent, Mode, Model, Order, Reason, Refusal, Report, Request,
};
use crate::reached::{AskPlace, BatchPlace, ExplainPlace, MissingPlace, MissingReached};
use crate::table;
use crate::tally::{Tally, OPENING};

/// Where the library and the model part.
#[derive(Clone, Debug)]
pub struct Difference {
    pub what: String,
    pub library: String,
    pub model: String,
}

fn differ<T>(what: impl Into<String>, library: impl ToString, model: impl ToString) -> Result<T, Difference> {
    Err(Difference { what: what.into(), library: library.to_string(), model: model.to_string() })
}

fn same_message(message: &[u8], before: &[u8]) -> Result<(), Difference> {
    if message != before {
        return differ("the message", message::text(message), message::text(before));
    }
    Ok(())
}

/// Counts what a report told of the clean share.
fn count_missing(m: &Model, reached: &mut MissingReached) {
    let mut mark = |place, when| reached.mark_when(place, when);
    let share = m.clean_share(0);
    let above_maximum = i128::from(m.held()) - i128::from(m.maximum);
    if share.missing() == 0 {
        mark(MissingPlace::NoneMissing, true);
        mark(MissingPlace::JustMet, share.beyond() == 0 && share.clean > 0 && share.unused > 0);
        // Unused bytes below 0 would make some missing.
        mark(MissingPlace::MetAboveMaximum, share.beyond() < above_maximum);
        return;
    }
    let any_entry = |test: fn(&Entry) -> bool| m.entries.values().any(test);
    mark(MissingPlace::Missing, true);
    mark(MissingPlace::MissingAlone, m.mode == Mode::Alone);
    mark(MissingPlace::MissingLead, m.mode == Mode::Lead);
    mark(MissingPlace::MissingStandby, m.mode == Mode::Standby);
    mark(MissingPlace::MissingEvictionsOff, !m.settings.evictions);
    mark(MissingPlace::MissingAboveMaximum, above_maximum > 0);
    mark(MissingPlace::MissingNoneDirty, !any_entry(|e| e.is_listed() && e.dirty));
    mark(MissingPlace::MissingOffList, any_entry(|e| !e.is_listed() && !e.dirty));
    mark(MissingPlace::MissingOne, share.missing() == 1);
}

/// The words behind those that are lent for reasons.
const BEHIND: usize = 3;

/// Words to lend for reasons, none of them one, and words behind them.
fn unused_reasons(lent: usize) -> Vec<u64> {
    (0..(lent + BEHIND) as u64).map(|i| !i).collect()
}

/// The words are the reasons, and past the last as they were.
fn same_reasons(words: &[u64], lent: usize, reasons: &[Reason]) -> Result<(), Difference> {
    let mut expected = unused_reasons(lent);
    for (word, reason) in expected.iter_mut().zip(reasons) {
        *word = *reason as u64;
    }
    match (0..words.len()).find(|at| words[*at] != expected[*at]) {
        Some(at) => differ(format!("reason word {at} of {lent} lent"), words[at], expected[at]),
        None => Ok(()),
    }
}

/// A request with what is lent for it.
#[derive(Clone, Copy)]
pub struct Call<'a> {
    pub lent: usize,
    pub order_lent: usize,
    /// Where words are lent for reasons, it is explained.
    pub reason_lent: Option<usize>,
    pub message: &'a [u8],
    pub asked: &'a Asked,
}

/// What a request should come to.
struct Expected {
    explanation: Explanation,
    /// Nothing where it is refused.
    done: Done,
}

pub struct Cache {
    /// What the library works on, and what it should be.
    pub table: Vec<u64>,
    expected_table: Vec<u64>,
    pub orders: Vec<u64>,
    expected_orders: Vec<u64>,
    /// The cache that the words picture, if they picture one.
    pub model: Option<Model>,
}

impl Cache {
    /// With so many words to lend, none of them a cache.
    pub fn new(table_words: usize, order_words: usize) -> Cache {
        let table: Vec<u64> = (0..table_words as u64).map(|i| i.wrapping_mul(0x0101_0101_0101_0101)).collect();
        let orders: Vec<u64> = (0..order_words as u64).map(|i| !i).collect();
        Cache { expected_table: table.clone(), table, expected_orders: orders.clone(), orders, model: None }
    }

    fn expected_words_stand(&self) -> Result<(), Difference> {
        if self.table != self.expected_table {
            let at = (0..self.table.len()).find(|i| self.table[*i] != self.expected_table[*i]).unwrap();
            let rows = self.model.as_ref().map_or(0, |m| m.rows);
            let what = format!("table word {at} ({})", table::name_of_word(rows, at));
            return differ(what, self.table[at], self.expected_table[at]);
        }
        if self.orders != self.expected_orders {
            let at = (0..self.orders.len()).find(|i| self.orders[*i] != self.expected_orders[*i]).unwrap();
            let what = format!("order word {at} ({} of order {})", ["kind", "address", "size"][at % 3], at / 3);
            return differ(what, self.orders[at], self.expected_orders[at]);
        }
        Ok(())
    }

    /// Counts what the model reached, and forgets it.
    fn hand_in(&mut self, tally: &mut Tally) {
        if let Some(m) = &mut self.model {
            tally.reached.add(&std::mem::take(&mut m.reached));
        }
    }

    pub fn open(
        &mut self,
        lent: usize,
        rows: u64,
        mode: u64,
        threshold: u64,
        settings: &SettingsWords,
        tally: &mut Tally,
    ) -> Result<Answer, Difference> {
        self.hand_in(tally);
        let long_enough = rows <= model::ROW_LIMIT && lent >= table::table_words(rows as usize);
        let opened = model::open(rows, long_enough, mode_of(mode), threshold, settings_of(settings));
        let expected = match &opened {
            Ok(_) => Answer { number: 0, field: 0, orders: 0 },
            Err(r) => Answer { number: r.number, field: r.field, orders: 0 },
        };
        if let Ok(m) = opened {
            let words = table::picture(&m);
            self.expected_table[..words.len()].copy_from_slice(&words);
            self.model = Some(m);
        }
        let answer = library::open(&mut self.table[..lent], rows, mode, threshold, settings);
        if answer != expected {
            return differ("the answer", answer, expected);
        }
        self.expected_words_stand()?;
        tally.answer(OPENING, &answer);
        self.report(self.table.len(), tally)?;
        Ok(answer)
    }

    /// What a request would be answered; no word changes.
    pub fn told(&self, lent: usize, order_lent: usize, message: &[u8], asked: &Asked) -> Result<Verdict, Difference> {
        let pictured = self.model.as_ref().filter(|m| lent >= table::table_words(m.rows));
        let expected = match pictured.map(|m| m.refusal(&request_of(asked), message, order_lent)) {
            None => Verdict { number: 1, field: 0 },
            Some(None) => Verdict { number: 0, field: 0 },
            Some(Some(Refusal { number, field })) => Verdict { number, field },
        };
        let message_before = message.to_vec();
        let told = library::ask(&self.table[..lent], order_lent, message, asked);
        if told != expected {
            return differ("what asking tells", told, expected);
        }
        self.expected_words_stand()?;
        same_message(message, &message_before)?;
        Ok(told)
    }

    /// A request that is asked about and not done.
    pub fn ask(
        &self,
        lent: usize,
        order_lent: usize,
        message: &[u8],
        asked: &Asked,
        tally: &mut Tally,
    ) -> Result<Verdict, Difference> {
        let told = self.told(lent, order_lent, message, asked)?;
        let mut mark = |place| tally.asked.mark(place);
        mark(AskPlace::Asked);
        mark(if told.number == 0 { AskPlace::ToldYes } else { AskPlace::ToldRefusal });
        match &self.model {
            None => mark(AskPlace::OfDamaged),
            Some(m) if lent < table::table_words(m.rows) => mark(AskPlace::OfShort),
            Some(m) => {
                let needed = order_words(m.rows);
                match order_lent {
                    0 => mark(AskPlace::NoWords),
                    lent if lent == needed - 1 => mark(AskPlace::OneTooFew),
                    lent if lent == needed => mark(AskPlace::Enough),
                    lent if lent > needed => mark(AskPlace::MoreThanEnough),
                    _ => {}
                }
            }
        }
        Ok(told)
    }

    /// One request, asked about before; the orders it gave.
    pub fn step(
        &mut self,
        lent: usize,
        order_lent: usize,
        message: &[u8],
        asked: &Asked,
        tally: &mut Tally,
    ) -> Result<(Answer, Vec<Order>), Difference> {
        self.request(Call { lent, order_lent, reason_lent: None, message, asked }, tally)
    }

    /// One request, asked about before; the orders it gave.
    pub fn request(&mut self, call: Call, tally: &mut Tally) -> Result<(Answer, Vec<Order>), Difference> {
        let Call { lent, order_lent, reason_lent, message, asked } = call;
        let told = self.told(lent, order_lent, message, asked)?;
        let expected = self.expect(&call, tally);
        let message_before = message.to_vec();
        let answer = match reason_lent {
            None => library::step(&mut self.table[..lent], &mut self.orders[..order_lent], message, asked),
            Some(reason_lent) => self.explain(&call, reason_lent, &expected)?,
        };
        if answer != expected.explanation.answer {
            return differ("the answer", answer, expected.explanation.answer);
        }
        let few_reasons = |m: &Model| reason_lent.is_some_and(|lent| lent < reason_words(m.rows));
        let for_reasons = answer.number == 2 && self.model.as_ref().is_some_and(few_reasons);
        if told != answer.verdict() && !for_reasons {
            return differ("the answer beside what asking told before", answer, told);
        }
        self.expected_words_stand()?;
        same_message(message, &message_before)?;
        let kind = if asked.kind <= 13 { asked.kind as usize } else { 0 };
        tally.answer(kind, &answer);
        if let Some(reason_lent) = reason_lent {
            tally.explained_answer(kind, &answer);
            self.count_explained(&call, reason_lent, told, &expected, tally);
        }
        self.hand_in(tally);
        self.report(self.table.len(), tally)?;
        Ok((answer, expected.done.orders))
    }

    /// What the request should come to. The model does it, and the expected table and orders are put down.
    fn expect(&mut self, call: &Call, tally: &mut Tally) -> Expected {
        let Call { lent, order_lent, reason_lent, message, asked } = *call;
        let request = request_of(asked);
        let words = Lent { orders: order_lent, reasons: reason_lent.unwrap_or(usize::MAX) };
        let pictured = self.model.as_mut().filter(|m| lent >= table::table_words(m.rows));
        let no_cache = Err(Refusal { number: 1, field: 0 });
        let outcome = pictured.map_or(no_cache, |m| {
            let refusal = m.refusal_to_explain(&request, message, words);
            messages::count(m, asked.kind, message, refusal.map_or(0, |r| r.number), tally);
            m.explain(&request, message, words)
        });
        if let (Ok(done), Some(m)) = (&outcome, &self.model) {
            let words = table::picture(m);
            self.expected_table[..words.len()].copy_from_slice(&words);
            for (order, to) in done.orders.iter().zip(self.expected_orders.chunks_mut(3)) {
                to.copy_from_slice(&order.words());
            }
        }
        Expected { explanation: Explanation::of(&outcome), done: outcome.unwrap_or_default() }
    }

    /// The answer of the library's explaining, if cause, bound and reason words are as expected.
    fn explain(&mut self, call: &Call, reason_lent: usize, expected: &Expected) -> Result<Answer, Difference> {
        let mut reasons = unused_reasons(reason_lent);
        let (table, orders) = (&mut self.table[..call.lent], &mut self.orders[..call.order_lent]);
        let explanation = library::explain(table, orders, &mut reasons[..reason_lent], call.message, call.asked);
        if explanation != expected.explanation {
            return differ("the explanation", explanation, expected.explanation);
        }
        same_reasons(&reasons, reason_lent, &expected.done.reasons)?;
        Ok(explanation.answer)
    }

    fn count_explained(&self, call: &Call, reason_lent: usize, told: Verdict, expected: &Expected, tally: &mut Tally) {
        let mut mark = |place, when| tally.explained.words.mark_when(place, when);
        let Expected { explanation: Explanation { answer, .. }, done } = expected;
        mark(ExplainPlace::Explained, true);
        mark(ExplainPlace::ExplainDamaged, self.model.is_none());
        let Some(m) = &self.model else { return };
        let short = call.lent < table::table_words(m.rows);
        mark(ExplainPlace::ExplainShort, short);
        if short {
            return;
        }
        let (few_orders, needed) = (call.order_lent < order_words(m.rows), reason_words(m.rows));
        let few = reason_lent < needed;
        let for_reasons = answer.number == 2 && few && !few_orders;
        mark(ExplainPlace::JustEnoughReasons, answer.orders > 0 && reason_lent == needed);
        mark(ExplainPlace::MoreReasons, answer.orders > 0 && reason_lent > needed);
        mark(ExplainPlace::EveryReasonWord, answer.orders == needed as u64);
        mark(ExplainPlace::NoReasonsNeeded, answer.number == 0 && few);
        mark(ExplainPlace::UnknownFewReasons, request_of(call.asked) == Request::Unknown && few);
        mark(ExplainPlace::FewReasons, for_reasons);
        mark(ExplainPlace::OneReasonFewer, for_reasons && reason_lent + 1 == needed);
        mark(ExplainPlace::NoReasonWords, for_reasons && reason_lent == 0);
        mark(ExplainPlace::FewReasonsFirst, for_reasons && told.number != 0);
        mark(ExplainPlace::FewOrderWords, answer.number == 2 && !few);
        mark(ExplainPlace::FewOfBoth, answer.number == 2 && few && few_orders);
        tally.explained.rules.add(&m.reached);
        tally.explained.count(m.mode, done);
    }

    /// Many requests in one call, beside single steps of the library on copies.
    pub fn batch(
        &mut self,
        lent: usize,
        order_lent: usize,
        requests: &[u64],
        answer_lent: usize,
        tally: &mut Tally,
    ) -> Result<Batched, Difference> {
        let (mut table, mut orders) = (self.table.clone(), self.orders.clone());
        let pictured = self.model.as_mut().filter(|m| lent >= table::table_words(m.rows));
        let is_cache = pictured.is_some();
        let came = pictured.map_or_else(Came::to_nothing, |m| batch::on_model(m, requests, order_lent, answer_lent));
        if let (true, Some(m)) = (is_cache, &self.model) {
            let words = table::picture(m);
            self.expected_table[..words.len()].copy_from_slice(&words);
            for (order, to) in came.orders.iter().zip(self.expected_orders.chunks_mut(3)) {
                to.copy_from_slice(&order.words());
            }
        }
        let unused: Vec<u64> = (0..answer_lent as u64 + 3).map(|i| !(i << 32)).collect();
        let mut expected_answers = unused.clone();
        expected_answers[..ANSWER_WORDS * came.answers.len()].copy_from_slice(came.answers.as_flattened());

        let mut answers = unused.clone();
        let requests_before = requests.to_vec();
        let batched = library::batch(
            &mut self.table[..lent],
            &mut self.orders[..order_lent],
            requests,
            &mut answers[..answer_lent],
        );
        if batched != came.batched() {
            return differ("what the batch came to", batched, came.batched());
        }
        if let Some(at) = (0..answers.len()).find(|at| answers[*at] != expected_answers[*at]) {
            let what = format!("answer word {at} ({} of request {})", ["number", "orders"][at % 2], at / 2);
            return differ(what, answers[at], expected_answers[at]);
        }
        self.expected_words_stand()?;
        if requests != requests_before {
            return differ("the requests", format!("{requests:?}"), format!("{requests_before:?}"));
        }
        if is_cache {
            let mut answers = unused;
            let by_steps =
                batch::by_steps(&mut table[..lent], &mut orders[..order_lent], requests, &mut answers[..answer_lent]);
            if by_steps != batched || answers != expected_answers || table != self.table || orders != self.orders {
                return differ("the batch beside single steps", batched, by_steps);
            }
        }
        self.count_batch(lent, requests, answer_lent, &came, tally);
        self.hand_in(tally);
        self.report(self.table.len(), tally)?;
        Ok(batched)
    }

    fn count_batch(&self, lent: usize, requests: &[u64], answer_lent: usize, came: &Came, tally: &mut Tally) {
        let (done, given) = (came.answers.len(), came.orders.len() as u64);
        tally.requests += done as u64;
        tally.orders += given;
        let mut mark = |place, when| tally.batches.mark_when(place, when);
        let whole = requests.len() / REQUEST_WORDS;
        let for_answers = came.stopped_for_answers(answer_lent);
        let for_orders = came.number == 2 && !for_answers;
        let all = came.number == 0;
        mark(BatchPlace::Batch, true);
        mark(BatchPlace::AllAnswered, all);
        mark(BatchPlace::NoRequest, all && whole == 0);
        mark(BatchPlace::OrdersOfMany, all && came.answers.iter().filter(|[_, orders]| *orders != 0).count() > 1);
        mark(BatchPlace::StoppedForOrders, for_orders);
        mark(BatchPlace::ForOrdersAtFirst, for_orders && done == 0);
        mark(BatchPlace::ForOrdersAfterSome, for_orders && done != 0);
        mark(BatchPlace::StoppedForAnswers, for_answers);
        mark(BatchPlace::ForAnswersAtFirst, for_answers && done == 0);
        mark(BatchPlace::ForAnswersAfterSome, for_answers && done != 0);
        mark(BatchPlace::BatchOfDamaged, self.model.is_none());
        mark(BatchPlace::BatchOfShort, self.model.as_ref().is_some_and(|m| lent < table::table_words(m.rows)));
        mark(BatchPlace::PartOfRequest, requests.len() > REQUEST_WORDS * whole);
        let first_refused = came.answers.iter().position(|[number, _]| *number != 0);
        let last_accepted = came.answers.iter().rposition(|[number, _]| *number == 0);
        mark(BatchPlace::RefusedInside, first_refused.is_some_and(|refused| Some(refused) < last_accepted));
        mark(BatchPlace::LastNumberInside, came.used_last);
        for (words, [number, _]) in requests.chunks_exact(REQUEST_WORDS).zip(&came.answers) {
            mark(BatchPlace::BatchNoneLeft, *number == 16);
            mark(BatchPlace::BatchRequest, true);
            mark(if *number == 0 { BatchPlace::BatchAccepted } else { BatchPlace::BatchRefused }, true);
            match words[0] {
                kind if batch::KINDS.contains(&kind) => {}
                12 => mark(BatchPlace::BatchTake, true),
                13 => mark(BatchPlace::BatchConfigure, true),
                _ => mark(BatchPlace::BatchUnknown, true),
            }
        }
    }

    pub fn report(&mut self, lent: usize, tally: &mut Tally) -> Result<(), Difference> {
        let pictured = self.model.as_ref().filter(|m| lent >= table::table_words(m.rows));
        let expected = match pictured {
            None => (1, Report::default(), 0),
            Some(m) => {
                let report = m.report();
                let due = report.due as u64;
                (0, report, due)
            }
        };
        let told = library::report(&self.table[..lent]);
        if told != expected {
            return differ("the report", format!("{told:?}"), format!("{expected:?}"));
        }
        self.expected_words_stand()?;
        tally.reports += 1;
        match pictured {
            None => tally.missing.mark(MissingPlace::ReportRefused),
            Some(m) => count_missing(m, &mut tally.missing),
        }
        Ok(())
    }

    /// Words written by somebody else.
    pub fn put(&mut self, words: &[(usize, u64)], tally: &mut Tally) {
        self.hand_in(tally);
        for (at, word) in words {
            self.table[*at] = *word;
            self.expected_table[*at] = *word;
        }
        self.model = table::judge(&self.table);
    }
}
