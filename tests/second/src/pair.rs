//! A random run of a lead and a standby, beside the ledger.

use crate::boundary::{self, request_of, Asked, SettingsWords};
use crate::cache::{Cache, Difference};
use crate::ledger::Ledger;
use crate::library::{self, Answer};
use crate::message::{self, Numbered};
use crate::messages::{self, Addressee};
use crate::model::{
    order_words, Entry, Hold, Model, Order, Refusal, ALL_ONES, COUNT_STOP, FIRST_NUMBER, NONE_LEFT, THRESHOLD_LIMIT,
};
use crate::random::Random;
use crate::reached::PairPlace;
use crate::requests::{self, Phase, Scale};
use crate::run::{asked_text, settings_text};
use crate::table::{table_words, HEADER, NEXT, ROW};
use crate::tally::Tally;
use crate::writer;
use std::collections::{BTreeMap, BTreeSet};

const LEAD: usize = 0;
const STANDBY: usize = 1;
const NAMES: [&str; 2] = ["lead", "standby"];

const INSERT: u64 = 1;
const PROTECT_FOR_READING: u64 = 2;
const PROTECT_FOR_WRITING: u64 = 3;
const RELEASE_UNCHANGED: u64 = 4;
const RELEASE_CHANGED: u64 = 5;
const PIN: u64 = 6;
const UNPIN: u64 = 7;
const RESIZE: u64 = 8;
const DISCARD: u64 = 9;
const FLUSH: u64 = 10;
const SYNC: u64 = 11;
const TAKE: u64 = 12;
const CONFIGURE: u64 = 13;

/// A request of one host that the other does not hear of: a local one, or one that is refused.
#[derive(Clone, Debug)]
pub struct Aside {
    host: usize,
    asked: Asked,
    message: Vec<u8>,
    /// How many order words too few are lent.
    short: usize,
}

#[derive(Clone, Debug)]
pub enum Event {
    /// An insert, a changed release, a resize or a discard, the same for both: the first host gets
    /// it, then come requests of either, then the other gets it.
    Shared { asked: Asked, first: usize, between: Vec<Aside> },
    /// The same by asking: both are asked, and if both say yes, the first host gets it, then come
    /// requests of that host alone, then the other gets it. `after` is what was done to make both say
    /// yes since they were asked last.
    ByAsking { asked: Asked, first: usize, between: Vec<Aside>, after: Option<Help> },
    /// A flush or a sync of the lead, requests of either, and then the standby takes the list's message.
    List { asked: Asked, between: Vec<Aside> },
    /// A request at a settled point.
    Aside(Aside),
}

/// What may make a host accept a change that it would refuse.
#[derive(Clone, Copy, Debug)]
pub enum Help {
    /// A flush or a sync of the lead, whose list the standby takes.
    List,
    /// A local request of the host.
    Local,
    /// A discard at both.
    Discard,
}

impl Event {
    /// The requests between its two halves.
    pub fn between(&mut self) -> Option<&mut Vec<Aside>> {
        match self {
            Event::Shared { between, .. } | Event::ByAsking { between, .. } | Event::List { between, .. } => {
                Some(between)
            }
            Event::Aside(_) => None,
        }
    }
}

#[derive(Clone, Debug)]
pub struct Pair {
    pub threshold: u64,
    /// The number of the first message, put into both tables where it is not that of a fresh cache.
    pub first_number: u64,
    pub rows: [usize; 2],
    pub settings: [SettingsWords; 2],
    /// Whether each shared change is asked of both before it is done.
    pub by_asking: bool,
    pub events: Vec<Event>,
}

// ---- what a run may have

/// The caches of both hosts, on which the model tries requests before they are made.
type Models = [Model; 2];

fn try_on(m: &mut Model, asked: &Asked) -> Result<Vec<Order>, Refusal> {
    m.step(&request_of(asked), &[], order_words(m.rows))
}

fn refusal(m: &Model, asked: &Asked) -> Option<Refusal> {
    m.refusal(&request_of(asked), &[], order_words(m.rows))
}

fn accepts(m: &Model, asked: &Asked) -> bool {
    refusal(m, asked).is_none()
}

/// Makes the request if a run may have it at one host alone: local ones as they come, no change that
/// both get, all others only where they are refused.
fn hear(models: &mut Models, aside: &Aside) -> bool {
    let m = &mut models[aside.host];
    let (request, lent) = (request_of(&aside.asked), order_words(m.rows).saturating_sub(aside.short));
    match aside.asked.kind {
        PROTECT_FOR_READING | PROTECT_FOR_WRITING | RELEASE_UNCHANGED | PIN | UNPIN | CONFIGURE => {
            let _ = m.step(&request, &aside.message, lent);
            true
        }
        INSERT | RELEASE_CHANGED | RESIZE | DISCARD => false,
        _ => m.refusal(&request, &aside.message, lent).is_some(),
    }
}

fn must_accept(answer: &Answer, what: impl Fn() -> String) -> Result<(), Difference> {
    match answer.number {
        0 => Ok(()),
        _ => Err(Difference { what: what(), library: answer.to_string(), model: "accepted".to_string() }),
    }
}

/// The list that a lead's orders send.
fn list_of(orders: &[Order]) -> Vec<u64> {
    let address = |order: &Order| match order {
        Order::Write { address, .. } => *address,
        other => unreachable!("{other:?} from a flush or sync"),
    };
    orders.iter().map(address).collect()
}

// ---- playing

/// When a request of one host is made.
#[derive(Clone, Copy, PartialEq)]
enum When {
    Settled,
    BetweenHalves,
    BeforeTaking,
}

struct Hosts {
    caches: [Cache; 2],
    ledger: Ledger,
    threshold: u64,
    first_number: u64,
    /// The messages that the lead sent and the standby took, the earliest first.
    taken: Vec<Vec<u8>>,
    /// The change that both were asked about last, if it was not done, and how often it was asked.
    left: Option<(Asked, usize)>,
}

impl Hosts {
    fn open(pair: &Pair, tally: &mut Tally) -> Result<Hosts, Difference> {
        let mut caches = pair.rows.map(|rows| Cache::new(table_words(rows), order_words(rows)));
        for (host, cache) in caches.iter_mut().enumerate() {
            let rows = pair.rows[host];
            // Lead is mode 1, standby is mode 2.
            let mode = host as u64 + 1;
            cache.open(table_words(rows), rows as u64, mode, pair.threshold, &pair.settings[host], tally)?;
            if pair.first_number != FIRST_NUMBER {
                cache.put(&[(NEXT, pair.first_number)], tally);
            }
        }
        let hosts = Hosts {
            caches,
            ledger: Ledger::default(),
            threshold: pair.threshold,
            first_number: pair.first_number,
            taken: Vec::new(),
            left: None,
        };
        hosts.agree(tally)?;
        Ok(hosts)
    }

    fn model(&self, host: usize) -> &Model {
        self.caches[host].model.as_ref().unwrap()
    }

    fn models(&self) -> Models {
        [LEAD, STANDBY].map(|host| self.model(host).clone())
    }

    /// Whether the run may go on with the event. No shared change is refused by one host alone.
    fn allows(&self, event: &Event) -> bool {
        let mut models = self.models();
        match event {
            Event::Shared { asked, first, between } => {
                let by_first = try_on(&mut models[*first], asked);
                between.iter().all(|aside| hear(&mut models, aside))
                    && accepts(&models[1 - first], asked) == by_first.is_ok()
            }
            Event::ByAsking { asked, first, between, .. } => {
                let done = models.iter().all(|m| accepts(m, asked));
                let _ = try_on(&mut models[*first], asked);
                !done || between.iter().all(|aside| aside.host == *first && hear(&mut models, aside))
            }
            Event::List { asked, between } => {
                let _ = try_on(&mut models[LEAD], asked);
                between.iter().all(|aside| hear(&mut models, aside))
            }
            Event::Aside(aside) => hear(&mut models, aside),
        }
    }

    fn step(
        &mut self,
        host: usize,
        asked: &Asked,
        message: &[u8],
        short: usize,
        tally: &mut Tally,
    ) -> Result<(Answer, Vec<Order>), Difference> {
        let cache = &mut self.caches[host];
        let order_lent = cache.orders.len().saturating_sub(short);
        cache.step(cache.table.len(), order_lent, message, asked, tally).map_err(|mut d| {
            let at_take =
                if asked.kind == TAKE { format!(", at {}", asked_text(asked, message)) } else { String::new() };
            d.what = format!("{}: {}{at_take}", NAMES[host], d.what);
            d
        })
    }

    /// The ledger hears of a change that both accepted.
    fn tell_ledger(&mut self, asked: &Asked) {
        match asked.kind {
            DISCARD => self.ledger.discard(asked.address),
            _ => self.ledger.change(asked.address, asked.size),
        }
    }

    /// Does a change at the host. It was asked before, and said yes.
    fn step_after_yes(&mut self, host: usize, asked: &Asked, tally: &mut Tally) -> Result<(), Difference> {
        let (answer, _) = self.step(host, asked, &[], 0, tally)?;
        must_accept(&answer, || format!("{}: a change that it said yes to", NAMES[host]))
    }

    /// Asks both about a change, and does it at both if both say yes.
    fn by_asking(
        &mut self,
        asked: &Asked,
        first: usize,
        between: &[Aside],
        after: Option<Help>,
        tally: &mut Tally,
    ) -> Result<(), Difference> {
        let mut told = [0; 2];
        for (number, cache) in told.iter_mut().zip(&self.caches) {
            *number = cache.told(cache.table.len(), cache.orders.len(), &[], asked)?.number;
        }
        let mut mark = |place| tally.pairs.mark(place);
        mark(PairPlace::AskedOfBoth);
        let number = match told {
            [0, 0] => 0,
            [number, 0] => {
                mark(PairPlace::LeadAlone);
                number
            }
            [0, number] => {
                mark(PairPlace::StandbyAlone);
                number
            }
            _ => {
                mark(PairPlace::BothWouldRefuse);
                0
            }
        };
        match number {
            6 => mark(PairPlace::AloneNotInCache),
            7 => mark(PairPlace::AloneInCache),
            8 => mark(PairPlace::AloneHeld),
            9 => mark(PairPlace::AloneNotHeld),
            10 => mark(PairPlace::AlonePinned),
            11 => mark(PairPlace::AloneNoRow),
            _ => {}
        }
        if told != [0, 0] {
            let times = self.left.filter(|(change, _)| change == asked).map_or(0, |(_, times)| times);
            self.left = Some((*asked, times + 1));
            return Ok(());
        }
        self.left = None;
        mark(PairPlace::BothSayYes);
        match after {
            None => {}
            Some(Help::List) => mark(PairPlace::ListHelped),
            Some(Help::Local) => mark(PairPlace::LocalHelped),
            Some(Help::Discard) => mark(PairPlace::DiscardHelped),
        }
        if first == STANDBY {
            mark(PairPlace::YesStandbyFirst);
        }
        if !between.is_empty() {
            mark(PairPlace::YesRequestsBetween);
        }
        self.step_after_yes(first, asked, tally)?;
        for aside in between {
            self.aside(aside, When::BetweenHalves, tally)?;
        }
        self.step_after_yes(1 - first, asked, tally)?;
        self.tell_ledger(asked);
        Ok(())
    }

    fn aside(&mut self, aside: &Aside, when: When, tally: &mut Tally) -> Result<(), Difference> {
        let Aside { host, asked, message, short } = aside;
        let (answer, _) = self.step(*host, asked, message, *short, tally)?;
        let mut mark = |place| tally.pairs.mark(place);
        if answer.number == 0 {
            mark(PairPlace::Local);
            match (when, *host) {
                (When::Settled, _) => {}
                (When::BetweenHalves, LEAD) => mark(PairPlace::LeadBetween),
                (When::BetweenHalves, _) => mark(PairPlace::StandbyBetween),
                (When::BeforeTaking, LEAD) => mark(PairPlace::LeadBeforeTaking),
                (When::BeforeTaking, _) => mark(PairPlace::StandbyBeforeTaking),
            }
            return Ok(());
        }
        mark(PairPlace::Refused);
        match when {
            When::Settled => {}
            When::BetweenHalves => mark(PairPlace::RefusedBetween),
            When::BeforeTaking => mark(PairPlace::RefusedBeforeTaking),
        }
        match (*host, asked.kind) {
            (LEAD, FLUSH | SYNC) => mark(PairPlace::FlushRefusedByLead),
            (LEAD, TAKE) => mark(PairPlace::TakeByLead),
            (STANDBY, FLUSH) => mark(PairPlace::FlushByStandby),
            (STANDBY, SYNC) => mark(PairPlace::SyncByStandby),
            (STANDBY, TAKE) => self.message_refused(message, &answer, when, tally)?,
            _ => {}
        }
        Ok(())
    }

    /// Counts a message that the standby refused. One that was taken before is refused for its number.
    fn message_refused(
        &self,
        message: &[u8],
        answer: &Answer,
        when: When,
        tally: &mut Tally,
    ) -> Result<(), Difference> {
        let mut mark = |place| tally.pairs.mark(place);
        if when == When::BeforeTaking {
            mark(PairPlace::WrongMessageFirst);
        }
        if self.taken.iter().any(|taken| taken == message) {
            mark(PairPlace::TakenBefore);
            if when == When::BeforeTaking {
                mark(PairPlace::TakenBeforeFirst);
            }
            return match answer.number {
                16 => Ok(()),
                _ => Err(Difference {
                    what: "the standby: a message that it took before".to_string(),
                    library: answer.to_string(),
                    model: "refused 16".to_string(),
                }),
            };
        }
        let next = self.model(STANDBY).next;
        mark(match (answer.number, message::read(message)) {
            (3, _) => PairPlace::MessageWithAllOnes,
            (13, Ok(Numbered { list, .. })) if list.iter().collect::<BTreeSet<_>>().len() < list.len() => {
                PairPlace::MessageWithTwice
            }
            (13, _) => PairPlace::MessageWithClean,
            (14, _) => PairPlace::MessageCut,
            (15, _) => PairPlace::MessageDamaged,
            _ if next == NONE_LEFT => PairPlace::NoneLeftToTake,
            (_, Ok(Numbered { number, .. })) if number > next && when == When::BeforeTaking => PairPlace::LaterFirst,
            (_, Ok(Numbered { number, .. })) if number > next => PairPlace::Later,
            _ => PairPlace::OtherNumber,
        });
        Ok(())
    }

    /// Sends a list: its message as the library writes it, with the number that the lead reported before.
    fn send(&mut self, number: u64, list: &[u64], tally: &mut Tally) -> Result<(), Difference> {
        let message = writer::written(number, list)?;
        let (by_standby, _) = self.step(STANDBY, &boundary::TAKE, &message, 0, tally)?;
        must_accept(&by_standby, || "the standby: a message that was sent".to_string())?;
        self.ledger.list(list);
        self.taken.push(message);
        tally.longest_list = tally.longest_list.max(list.len() as u64);
        tally.pairs.mark(PairPlace::ListTaken);
        if self.next_number() == NONE_LEFT {
            tally.pairs.mark(PairPlace::LastTaken);
        }
        Ok(())
    }

    /// The next number after the first and one for each list.
    fn next_number(&self) -> u64 {
        self.first_number.checked_add(self.taken.len() as u64).unwrap_or(NONE_LEFT)
    }

    fn happen(&mut self, event: &Event, tally: &mut Tally) -> Result<(), Difference> {
        if !self.allows(event) {
            tally.pairs.mark(PairPlace::SharedKeptBack);
            return Ok(());
        }
        match event {
            Event::Shared { asked, first, between } => {
                let was_ready = accepts(self.model(1 - first), asked);
                let (answer, _) = self.step(*first, asked, &[], 0, tally)?;
                for aside in between {
                    self.aside(aside, When::BetweenHalves, tally)?;
                }
                self.step(1 - first, asked, &[], 0, tally)?;
                let mut mark = |place, when| tally.pairs.mark_when(place, when);
                mark(PairPlace::SharedRefused, answer.number != 0);
                if answer.number == 0 {
                    mark(PairPlace::SharedAccepted, true);
                    mark(PairPlace::StandbyFirst, *first == STANDBY);
                    mark(PairPlace::RequestsBetween, !between.is_empty());
                    mark(PairPlace::MadeReady, !was_ready);
                    self.tell_ledger(asked);
                }
            }
            Event::ByAsking { asked, first, between, after } => {
                self.by_asking(asked, *first, between, *after, tally)?;
            }
            Event::List { asked, between } => {
                let (_, before, _) = library::report(&self.caches[LEAD].table);
                let (by_lead, orders) = self.step(LEAD, asked, &[], 0, tally)?;
                let sent = by_lead.number == 0;
                for aside in between {
                    self.aside(aside, if sent { When::BeforeTaking } else { When::Settled }, tally)?;
                }
                if sent {
                    self.send(before.next, &list_of(&orders), tally)?;
                    if !between.is_empty() {
                        tally.pairs.mark(PairPlace::RequestsBeforeTaking);
                    }
                } else {
                    tally.pairs.mark(PairPlace::Refused);
                    tally.pairs.mark(PairPlace::FlushRefusedByLead);
                    if by_lead.number == 16 {
                        tally.pairs.mark(PairPlace::NoneLeftToSend);
                    }
                }
            }
            Event::Aside(aside) => self.aside(aside, When::Settled, tally)?,
        }
        self.agree(tally)
    }

    /// The library's words and reports say of both hosts what the ledger says.
    fn agree(&self, tally: &mut Tally) -> Result<(), Difference> {
        for (host, cache) in self.caches.iter().enumerate() {
            let rows = &cache.table[HEADER..HEADER + cache.table[1] as usize * ROW];
            let dirty: BTreeMap<u64, u64> = rows.chunks(ROW).filter(|w| w[2] == 1).map(|w| (w[0], w[1])).collect();
            let (_, report, _) = library::report(&cache.table);
            let due = self.ledger.count > self.threshold;
            let said = (&dirty, report.count, report.due, report.next);
            let expected = (&self.ledger.records, self.ledger.count, due, self.next_number());
            if said != expected {
                return Err(Difference {
                    what: format!(
                        "{}: dirty records, byte count, due and next number beside the ledger's",
                        NAMES[host]
                    ),
                    library: format!("{said:?}"),
                    model: format!("{expected:?}"),
                });
            }
        }
        tally.pairs.mark(PairPlace::Settled);
        if !self.ledger.records.is_empty() {
            tally.pairs.mark(PairPlace::SettledDirty);
        }
        if self.ledger.count > self.threshold {
            tally.pairs.mark(PairPlace::SettledDue);
        }
        if self.next_number() == NONE_LEFT {
            tally.pairs.mark(PairPlace::SettledNoneLeft);
        }
        Ok(())
    }
}

impl Pair {
    /// The first difference, and how many events it took.
    pub fn replay(&self) -> Option<(usize, Difference)> {
        let mut tally = Tally::default();
        let mut hosts = match Hosts::open(self, &mut tally) {
            Ok(hosts) => hosts,
            Err(difference) => return Some((0, difference)),
        };
        for (i, event) in self.events.iter().enumerate() {
            if let Err(difference) = hosts.happen(event, &mut tally) {
                return Some((i + 1, difference));
            }
        }
        None
    }
}

// ---- drawing the next events

/// An address that passes the test at both hosts.
fn address_at_both(r: &mut Random, hosts: &Hosts, test: impl Fn(&Entry) -> bool) -> Option<u64> {
    let lead = &hosts.model(LEAD).entries;
    let found: Vec<u64> = lead.iter().filter(|(_, e)| test(e)).map(|(a, _)| *a).collect();
    let standby = &hosts.model(STANDBY).entries;
    let both: Vec<u64> = found.into_iter().filter(|a| standby.get(a).is_some_and(&test)).collect();
    (!both.is_empty()).then(|| r.pick(&both))
}

/// What wrong messages are made of.
struct Waiting<'a> {
    /// The list that waits, or else what the standby has dirty.
    right: &'a [u64],
    /// The messages taken before.
    taken: &'a [Vec<u8>],
}

/// What requests are drawn by.
struct Draw<'a> {
    r: &'a mut Random,
    phase: &'a Phase,
    scale: Scale,
    by_asking: bool,
}

/// How often a change that is left is asked about.
const MOST_TIMES: usize = 4;

impl Draw<'_> {
    fn request(&mut self, m: &Model) -> Asked {
        requests::request(self.r, m, self.phase, self.scale).0
    }

    fn local(&mut self, host: usize, asked: Asked) -> Aside {
        let short = if self.r.chance(1) { self.r.between(1, 3) as usize } else { 0 };
        Aside { host, asked, message: Vec::new(), short }
    }

    /// The right list with an address too many.
    fn wrong_list(&mut self, standby: &Model, right: &[u64]) -> Vec<u64> {
        let mut list = right.to_vec();
        let wrong = match self.r.below(4) {
            0 => Some(ALL_ONES),
            1 if !list.is_empty() => Some(self.r.pick(&list)),
            2 => standby.entries.iter().find(|(_, e)| !e.dirty).map(|(a, _)| *a),
            _ => None,
        };
        let absent = || (0..).find(|a| !standby.entries.contains_key(a)).unwrap();
        let place = self.r.below(list.len() as u64 + 1) as usize;
        list.insert(place, wrong.unwrap_or_else(absent));
        list
    }

    /// A message that the lead would send after the one whose turn it is at the standby.
    fn later_message(&mut self, models: &Models) -> Option<Vec<u8>> {
        let mut lead = models[LEAD].clone();
        let sync = Asked { kind: SYNC, address: 0, size: 0, settings: [0; 22] };
        let skipped = self.r.pick(&[0, 0, 0, 1, 5]);
        for _ in 0..=skipped + 1 {
            let number = lead.next;
            let list = list_of(&try_on(&mut lead, &sync).ok()?);
            if number > models[STANDBY].next.saturating_add(skipped) {
                return Some(message::write(number, &list));
            }
        }
        None
    }

    /// A message that a standby refuses, but for rare ones.
    fn wrong_message(&mut self, models: &Models, waiting: &Waiting) -> Vec<u8> {
        let standby = &models[STANDBY];
        let right = || message::write(standby.next, waiting.right);
        match self.r.below(13) {
            0..=2 if !waiting.taken.is_empty() => match self.r.chance(50) {
                true => waiting.taken[waiting.taken.len() - 1].clone(),
                false => waiting.taken[self.r.below(waiting.taken.len() as u64) as usize].clone(),
            },
            3..=5 => self.later_message(models).unwrap_or_else(right),
            6 | 7 => messages::damaged(self.r, right()),
            8 => message::write(messages::other_number(self.r, standby.next), waiting.right),
            _ => message::write(standby.next, &self.wrong_list(standby, waiting.right)),
        }
    }

    /// A flush, sync or take astray; it may be one that is accepted.
    fn stray(&mut self, models: &Models, waiting: &Waiting) -> Aside {
        let to_write = self.r.pick(&[FLUSH, SYNC]);
        let (host, kind, message, short) = match self.r.below(8) {
            0 => (LEAD, to_write, Vec::new(), self.r.pick(&[0, 1, 3])),
            1 => (LEAD, TAKE, messages::draw(self.r, &Addressee::of(&models[LEAD])).bytes, 0),
            2 => (STANDBY, to_write, Vec::new(), 0),
            _ => (STANDBY, TAKE, self.wrong_message(models, waiting), 0),
        };
        Aside { host, asked: Asked { kind, address: 0, size: 0, settings: [0; 22] }, message, short }
    }

    /// A local request of either, now and then about the address.
    fn local_about(&mut self, models: &Models, address: Option<u64>) -> Aside {
        let host = self.r.below(2) as usize;
        loop {
            let mut asked = self.request(&models[host]);
            if !matches!(asked.kind, INSERT | RELEASE_CHANGED | RESIZE | DISCARD | FLUSH | SYNC | TAKE) {
                if let (Some(address), true) = (address, self.r.chance(30)) {
                    asked.address = address;
                }
                return self.local(host, asked);
            }
        }
    }

    /// Requests for between two halves; the models are made to hear them. Some are about the address.
    fn asides(&mut self, models: &mut Models, waiting: &Waiting, address: Option<u64>) -> Vec<Aside> {
        let mut asides = Vec::new();
        if self.r.chance(50) {
            return asides;
        }
        for _ in 0..self.r.between(1, 4) {
            let aside = match self.r.chance(30) {
                true => self.stray(models, waiting),
                false => self.local_about(models, address),
            };
            if hear(models, &aside) {
                asides.push(aside);
            }
        }
        asides
    }

    /// A local request that may make a cache accept a change which it refuses.
    fn readying(&mut self, host: usize, m: &Model, change: &Asked) -> Option<Aside> {
        let kind = match (change.kind, m.entries.get(&change.address)) {
            (RELEASE_CHANGED | RESIZE, None) => PROTECT_FOR_WRITING,
            (RELEASE_CHANGED | RESIZE, Some(e)) if e.hold == Hold::Free => PROTECT_FOR_WRITING,
            (RELEASE_CHANGED | RESIZE | DISCARD, Some(e)) if e.hold != Hold::Free => RELEASE_UNCHANGED,
            (DISCARD, Some(e)) if e.pinned => UNPIN,
            _ => return None,
        };
        Some(Aside { host, asked: Asked { kind, ..*change }, message: Vec::new(), short: 0 })
    }

    /// A local request of a host that may leave it an entry to evict.
    fn freeing(&mut self, host: usize, m: &Model) -> Option<Aside> {
        let found = |test: fn(&Entry) -> bool| m.entries.iter().find(|(_, e)| !e.dirty && test(e)).map(|(a, _)| *a);
        let (kind, address) = match (found(|e| e.hold != Hold::Free), found(|e| e.is_pinned_only())) {
            (Some(held), None) => (RELEASE_UNCHANGED, held),
            (None, Some(pinned)) => (UNPIN, pinned),
            (Some(held), Some(pinned)) => self.r.pick(&[(RELEASE_UNCHANGED, held), (UNPIN, pinned)]),
            (None, None) => return None,
        };
        let asked = Asked { kind, address, size: 0, settings: [0; 22] };
        Some(Aside { host, asked, message: Vec::new(), short: 0 })
    }

    /// What may help a change that a host would refuse.
    fn help(&mut self, hosts: &Hosts, host: usize, change: &Asked) -> Option<(Event, Help)> {
        let m = hosts.model(host);
        let local = |aside: Option<Aside>| aside.map(|aside| (Event::Aside(aside), Help::Local));
        match refusal(m, change)?.number {
            6 | 8 | 9 | 10 => local(self.readying(host, m, change)),
            7 => {
                let asked = Asked { kind: DISCARD, ..*change };
                match [LEAD, STANDBY].into_iter().find(|host| !accepts(hosts.model(*host), &asked)) {
                    Some(host) => local(self.readying(host, hosts.model(host), &asked)),
                    None => {
                        Some((Event::ByAsking { asked, first: host, between: Vec::new(), after: None }, Help::Discard))
                    }
                }
            }
            11 if self.r.chance(40) => local(self.freeing(host, m)),
            11 => {
                let kind = self.r.pick(&[FLUSH, SYNC]);
                Some((self.list(hosts, Asked { kind, ..*change }), Help::List))
            }
            _ => None,
        }
    }

    /// The change that was left, once more; before it, if one or both would refuse it, what may help.
    fn once_more(&mut self, hosts: &Hosts) -> Option<Vec<Event>> {
        let (asked, _) = hosts.left.filter(|(_, times)| *times < MOST_TIMES)?;
        let refusing: Vec<usize> =
            [LEAD, STANDBY].into_iter().filter(|host| !accepts(hosts.model(*host), &asked)).collect();
        let host = if refusing.is_empty() { return None } else { self.r.pick(&refusing) };
        let (event, help) = self.help(hosts, host, &asked)?;
        let first = self.r.below(2) as usize;
        Some(vec![event, Event::ByAsking { asked, first, between: Vec::new(), after: Some(help) }])
    }

    fn shared(&mut self, hosts: &Hosts, asked: Asked, first: usize) -> Event {
        let mut models = hosts.models();
        let other = 1 - first;
        let accepted = try_on(&mut models[first], &asked).is_ok();
        let right: Vec<u64> = models[STANDBY].dirty_records().into_keys().collect();
        let waiting = Waiting { right: &right, taken: &hosts.taken };
        let mut between = self.asides(&mut models, &waiting, Some(asked.address));
        if self.by_asking {
            between.retain(|aside| aside.host == first);
            return Event::ByAsking { asked, first, between, after: None };
        }
        if accepted && !accepts(&models[other], &asked) {
            between.extend(self.readying(other, &models[other], &asked));
        }
        Event::Shared { asked, first, between }
    }

    fn list(&mut self, hosts: &Hosts, asked: Asked) -> Event {
        let mut models = hosts.models();
        let orders = try_on(&mut models[LEAD], &asked).unwrap_or_default();
        let waiting = Waiting { right: &list_of(&orders), taken: &hosts.taken };
        let between = self.asides(&mut models, &waiting, None);
        Event::List { asked, between }
    }

    /// The next events: one, a write hold at both, or a change once more with what may help before it.
    fn next(&mut self, hosts: &Hosts) -> Vec<Event> {
        if self.r.chance(70) {
            if let Some(events) = self.once_more(hosts) {
                return events;
            }
        }
        let host = match [LEAD, STANDBY].into_iter().find(|host| hosts.model(*host).no_row()) {
            Some(stuck) if self.r.chance(50) => stuck,
            _ => self.r.below(2) as usize,
        };
        let mut asked = self.request(hosts.model(host));
        if self.r.chance(20) {
            // Both get ready for a changed release.
            let mut at_both = asked;
            at_both.kind = PROTECT_FOR_WRITING;
            let found = address_at_both(self.r, hosts, |e| e.hold == Hold::Free);
            if let (Some(address), true) = (found, self.r.chance(60)) {
                at_both.address = address;
            }
            return [LEAD, STANDBY]
                .map(|host| Event::Aside(Aside { host, asked: at_both, message: Vec::new(), short: 0 }))
                .to_vec();
        }
        if self.r.chance(4) {
            let right: Vec<u64> = hosts.model(STANDBY).dirty_records().into_keys().collect();
            let waiting = Waiting { right: &right, taken: &hosts.taken };
            let stray = Event::Aside(self.stray(&hosts.models(), &waiting));
            return if hosts.allows(&stray) { vec![stray] } else { Vec::new() };
        }
        let targeted = self.r.chance(80);
        let found = match asked.kind {
            RELEASE_CHANGED if targeted => address_at_both(self.r, hosts, |e| e.hold == Hold::Writer),
            RESIZE if targeted => {
                address_at_both(self.r, hosts, |e| e.hold == Hold::Writer || (e.pinned && e.hold == Hold::Free))
            }
            DISCARD if targeted => address_at_both(self.r, hosts, |e| e.is_listed()),
            _ => None,
        };
        asked.address = found.unwrap_or(asked.address);
        let event = match asked.kind {
            INSERT | RELEASE_CHANGED | RESIZE | DISCARD => self.shared(hosts, asked, host),
            FLUSH | SYNC => self.list(hosts, asked),
            // The standby takes lists as sent.
            TAKE => {
                let kind = self.r.pick(&[FLUSH, SYNC]);
                self.list(hosts, Asked { kind, ..asked })
            }
            _ => Event::Aside(self.local(host, asked)),
        };
        vec![event]
    }
}

/// Plays one run; a run that shows a difference comes back with it.
pub fn play(seed: u64, tally: &mut Tally) -> Result<(), Box<(Pair, Difference)>> {
    let mut r = Random::new(seed);
    let scale = Scale::any(&mut r);
    let most = if r.chance(97) { 24 } else { 200 };
    let rows = [(); 2].map(|_| r.between(2, most) as usize);
    let settings = rows.map(|n| requests::any_settings(&mut r, n, scale, true));
    let threshold = if r.chance(80) { r.between(1, 8_000) } else { r.between(1, THRESHOLD_LIMIT) };
    let first_number = match r.below(20) {
        0 | 1 => u64::MAX - 2,
        2 => u64::MAX - r.below(40),
        _ => FIRST_NUMBER,
    };
    let mut pair = Pair { threshold, first_number, rows, settings, by_asking: r.chance(50), events: Vec::new() };
    let outcome = go_on(&mut r, &mut pair, scale, tally);
    tally.runs += 1;
    tally.pair_runs += 1;
    tally.pair_runs_by_asking += pair.by_asking as u64;
    tally.pair_runs_to_last += (first_number != FIRST_NUMBER) as u64;
    outcome.map_err(|difference| Box::new((pair, difference)))
}

fn go_on(r: &mut Random, pair: &mut Pair, scale: Scale, tally: &mut Tally) -> Result<(), Difference> {
    let mut hosts = Hosts::open(pair, tally)?;
    let mut phase = Phase::any(r);
    let most = if pair.first_number == FIRST_NUMBER { 1_200 } else { 200 };
    for _ in 0..r.between(100, most) {
        if r.chance(2) {
            phase = Phase::any(r);
        }
        for event in (Draw { r, phase: &phase, scale, by_asking: pair.by_asking }).next(&hosts) {
            pair.events.push(event);
            hosts.happen(pair.events.last().unwrap(), tally)?;
        }
    }
    assert!(hosts.ledger.count <= COUNT_STOP);
    Ok(())
}

// ---- as text

impl std::fmt::Display for Aside {
    fn fmt(&self, f: &mut std::fmt::Formatter) -> std::fmt::Result {
        write!(f, "{}: {}", NAMES[self.host], asked_text(&self.asked, &self.message))?;
        if self.short != 0 {
            write!(f, " [{} order words short]", self.short)?;
        }
        Ok(())
    }
}

impl std::fmt::Display for Pair {
    fn fmt(&self, f: &mut std::fmt::Formatter) -> std::fmt::Result {
        for (host, name) in NAMES.iter().enumerate() {
            let (rows, settings) = (self.rows[host], settings_text(&self.settings[host]));
            writeln!(f, "{name}: open {rows} rows, threshold {}, {settings}", self.threshold)?;
        }
        if self.first_number != FIRST_NUMBER {
            writeln!(f, "words put into both: {NEXT}={:#x}", self.first_number)?;
        }
        for event in &self.events {
            let (halves, between): ([String; 2], &[Aside]) = match event {
                Event::Aside(aside) => {
                    writeln!(f, "{aside}")?;
                    continue;
                }
                Event::Shared { asked, first, between } | Event::ByAsking { asked, first, between, .. } => {
                    if matches!(event, Event::ByAsking { .. }) {
                        writeln!(f, "both asked; what follows is done if both say yes")?;
                    }
                    ([*first, 1 - first].map(|host| format!("{}: {}", NAMES[host], asked_text(asked, &[]))), between)
                }
                Event::List { asked, between } => {
                    ([format!("lead: {}", asked_text(asked, &[])), "standby: takes the message".to_string()], between)
                }
            };
            writeln!(f, "{}", halves[0])?;
            for aside in between {
                writeln!(f, "  {aside}")?;
            }
            writeln!(f, "{}", halves[1])?;
        }
        Ok(())
    }
}
