//! A random run of one cache.

use crate::batch::{self, ANSWER_WORDS, REQUEST_WORDS};
use crate::boundary::{request_of, settings_of, settings_words, Asked, SettingsWords, KINDS, TAKE};
use crate::cache::{Cache, Call, Difference};
use crate::message;
use crate::messages::{self, Message};
use crate::model::{order_words, reason_words, Mode, Model, ROW_LIMIT, THRESHOLD_LIMIT};
use crate::random::Random;
use crate::reached::{BatchPlace, TablePlace};
use crate::requests::{self, Phase, Scale, PROTECTS};
use crate::table::{self, table_words};
use crate::tally::Tally;

#[derive(Clone, Debug)]
pub enum Event {
    Open {
        lent: usize,
        rows: u64,
        mode: u64,
        threshold: u64,
        settings: SettingsWords,
    },
    /// A request that is done, and explained where words are lent for reasons.
    Step {
        lent: usize,
        order_lent: usize,
        reason_lent: Option<usize>,
        message: Message,
        asked: Asked,
    },
    /// A request that is asked about and not done.
    Ask {
        lent: usize,
        order_lent: usize,
        message: Message,
        asked: Asked,
    },
    /// Many requests in one call, of three words each.
    Batch {
        lent: usize,
        order_lent: usize,
        answer_lent: usize,
        requests: Vec<[u64; REQUEST_WORDS]>,
        /// The words past the last request, one or two if any.
        part: Vec<u64>,
    },
    Report {
        lent: usize,
    },
    /// Words written by somebody else.
    Put {
        words: Vec<(usize, u64)>,
    },
}

/// What is lent, and what happens.
#[derive(Clone, Debug)]
pub struct Run {
    pub table_words: usize,
    pub order_words: usize,
    pub events: Vec<Event>,
}

impl Run {
    fn cache(&self) -> Cache {
        Cache::new(self.table_words, self.order_words)
    }

    fn happen(cache: &mut Cache, event: &Event, tally: &mut Tally) -> Result<(), Difference> {
        match event {
            Event::Open { lent, rows, mode, threshold, settings } => {
                cache.open(*lent, *rows, *mode, *threshold, settings, tally).map(|_| ())
            }
            Event::Step { lent, order_lent, reason_lent, message, asked } => {
                let (lent, order_lent, reason_lent, bytes) = (*lent, *order_lent, *reason_lent, &message.bytes);
                let (answer, _) =
                    cache.request(Call { lent, order_lent, reason_lent, message: bytes, asked }, tally)?;
                if let Some(way) = message.way {
                    tally.message(way, answer.number);
                }
                Ok(())
            }
            Event::Ask { lent, order_lent, message, asked } => {
                cache.ask(*lent, *order_lent, &message.bytes, asked, tally).map(|_| ())
            }
            Event::Batch { lent, order_lent, answer_lent, requests, part } => {
                let words = [requests.as_flattened(), part].concat();
                cache.batch(*lent, *order_lent, &words, *answer_lent, tally).map(|_| ())
            }
            Event::Report { lent } => cache.report(*lent, tally),
            Event::Put { words } => {
                cache.put(words, tally);
                cache.report(cache.table.len(), tally)
            }
        }
    }

    /// Messages that are offered to a cache in this state, one after the other.
    pub fn of_messages(state: &Model, messages: Vec<Message>) -> Run {
        let (lent, order_lent) = (table_words(state.rows), 0);
        let words = table::picture(state).into_iter().enumerate().collect();
        let take = |message| Event::Step { lent, order_lent, reason_lent: None, message, asked: TAKE };
        let events = std::iter::once(Event::Put { words }).chain(messages.into_iter().map(take)).collect();
        Run { table_words: lent, order_words: order_lent, events }
    }

    /// The cache after all events, or the first difference and how many events it took.
    pub fn happen_all(&self, tally: &mut Tally) -> Result<Cache, (usize, Difference)> {
        let mut cache = self.cache();
        for (i, event) in self.events.iter().enumerate() {
            Run::happen(&mut cache, event, tally).map_err(|difference| (i + 1, difference))?;
        }
        Ok(cache)
    }

    /// The first difference, and how many events it took.
    pub fn replay(&self) -> Option<(usize, Difference)> {
        self.happen_all(&mut Tally::default()).err()
    }
}

/// How many rows a run has.
fn few_rows(r: &mut Random) -> usize {
    match r.below(100) {
        0..=14 => r.between(1, 3) as usize,
        15..=64 => r.between(4, 16) as usize,
        _ => r.between(17, 64) as usize,
    }
}

fn many_rows(r: &mut Random) -> usize {
    match r.below(3) {
        0 => r.between(65, 1_024) as usize,
        _ => ROW_LIMIT as usize,
    }
}

struct Player<'t> {
    r: Random,
    run: Run,
    cache: Cache,
    tally: &'t mut Tally,
    scale: Scale,
}

impl Player<'_> {
    fn happen(&mut self, event: Event) -> Result<(), Difference> {
        self.run.events.push(event);
        Run::happen(&mut self.cache, self.run.events.last().unwrap(), self.tally)
    }

    /// How many table words to lend where so many are needed.
    fn lent(&mut self, needed: usize) -> usize {
        match self.r.below(200) {
            0 => self.r.pick(&[0, 1, 2, table::HEADER - 1, needed - 1]).min(self.run.table_words),
            1 => self.r.below(needed as u64) as usize,
            2..=40 => needed,
            _ => self.run.table_words,
        }
    }

    fn order_lent(&mut self, needed: usize) -> usize {
        match self.r.below(200) {
            0 => self.r.pick(&[0, 1, 3, needed - 1]),
            1 => self.r.below(needed as u64) as usize,
            2..=40 => needed,
            _ => self.run.order_words,
        }
    }

    /// Half of the requests are explained: how many words are lent for reasons.
    fn reason_lent(&mut self, rows: usize) -> Option<usize> {
        let needed = reason_words(rows);
        match self.r.below(200) {
            0..=99 => None,
            100 => Some(self.r.pick(&[0, 1, needed - 1])),
            101 => Some(self.r.below(needed as u64) as usize),
            102..=150 => Some(needed),
            _ => Some(needed + self.r.between(1, 5) as usize),
        }
    }

    fn open(&mut self, rows: usize) -> Result<(), Difference> {
        while self.r.chance(30) {
            let settings = requests::any_settings(&mut self.r, rows, self.scale, false);
            let lent = self.r.pick(&[0, table_words(rows) - 1, table_words(rows), self.run.table_words]);
            let bad_rows = self.r.pick(&[0, ROW_LIMIT + 1, u64::MAX, 1 << 61, 1 << 32]);
            let event = Event::Open {
                lent: if self.r.chance(70) { self.run.table_words } else { lent },
                rows: if self.r.chance(80) { rows as u64 } else { bad_rows },
                mode: if self.r.chance(80) { self.r.below(3) } else { self.r.pick(&[3, u64::MAX, 1 << 32]) },
                threshold: self.r.pick(&[1, 300, 300, 300, 300, THRESHOLD_LIMIT, THRESHOLD_LIMIT + 1, 0, u64::MAX]),
                settings,
            };
            self.happen(event)?;
        }
        let settings = requests::any_settings(&mut self.r, rows, self.scale, true);
        let threshold = if self.r.chance(70) { self.r.between(1, 5_000) } else { self.r.between(1, THRESHOLD_LIMIT) };
        let lent = if self.r.chance(50) { table_words(rows) } else { self.run.table_words };
        let mode = self.r.below(3);
        self.happen(Event::Open { lent, rows: rows as u64, mode, threshold, settings })
    }

    /// Any allowed state comes into the table.
    fn put_state(&mut self) -> Result<(), Difference> {
        let Some(m) = &self.cache.model else { return Ok(()) };
        let (rows, mode) = (m.rows, m.mode);
        let mode = if self.r.chance(50) { mode } else { self.r.pick(&[Mode::Alone, Mode::Lead, Mode::Standby]) };
        let state = requests::state(&mut self.r, rows, mode, self.scale);
        let words = table::picture(&state).into_iter().enumerate().collect();
        self.tally.states += 1;
        self.count_state(&state);
        self.happen(Event::Put { words })
    }

    fn count_state(&mut self, m: &Model) {
        let mut mark = |place, when| self.tally.tables.mark_when(place, when);
        mark(TablePlace::StateExceeded, m.exceeded);
        mark(TablePlace::StateExceededFresh, m.exceeded && m.accesses == 0);
        mark(TablePlace::StateExceededOff, m.exceeded && !m.settings.evictions);
        mark(TablePlace::StateExceededBelow, m.exceeded && m.held() < m.maximum);
        mark(TablePlace::StateClear, !m.exceeded);
        mark(TablePlace::StateClearAbove, !m.exceeded && m.held() > m.maximum);
    }

    /// Counts damage to the version or to `exceeded` alone, and tables in the layout before.
    fn count_damage(&mut self, words: &[(usize, u64)]) {
        let mut mark = |place, when| self.tally.tables.mark_when(place, when);
        let is_before = words.first() == Some(&(0, table::VERSION - 1));
        match *words {
            [(table::EXCEEDED, word)] => {
                mark(TablePlace::ExceededFlipped, word == 1 - self.cache.table[table::EXCEEDED]);
                mark(TablePlace::ExceededNoFlag, word > 1);
                mark(TablePlace::ExceededAllOnes, word == u64::MAX);
            }
            [_] => mark(TablePlace::VersionBefore, is_before),
            _ => mark(TablePlace::LayoutBefore, is_before && words.len() > table::HEADER),
        }
    }

    /// Another next number comes into the table: few are left, or none, or any.
    fn put_next(&mut self) -> Result<(), Difference> {
        if self.cache.model.is_none() {
            return Ok(());
        }
        let next = messages::some_next(&mut self.r);
        self.happen(Event::Put { words: vec![(table::NEXT, next)] })
    }

    /// The table is damaged, asked, and mostly mended.
    fn damage(&mut self) -> Result<(), Difference> {
        let Some(m) = &self.cache.model else { return Ok(()) };
        let rows = m.rows;
        let words = requests::damage(&mut self.r, &self.cache.table, rows);
        self.count_damage(&words);
        let mend: Vec<(usize, u64)> = words.iter().map(|(at, _)| (*at, self.cache.table[*at])).collect();
        self.happen(Event::Put { words })?;
        match self.cache.model {
            Some(_) => self.tally.damaged_good += 1,
            None => self.tally.damaged_bad += 1,
        }
        for _ in 0..self.r.between(1, 3) {
            let asked = requests::blind_request(&mut self.r, rows);
            self.ask(rows, asked, Message::default())?;
            self.blind_batch(rows)?;
            let asked = requests::blind_request(&mut self.r, rows);
            let order_lent = if self.r.chance(90) { self.run.order_words } else { 0 };
            let (lent, reason_lent) = (self.run.table_words, self.reason_lent(rows));
            self.happen(Event::Step { lent, order_lent, reason_lent, message: Message::default(), asked })?;
        }
        // A step may have changed a table that was still a cache: mend only one that was not.
        if self.cache.model.is_none() {
            return self.happen(Event::Put { words: mend });
        }
        Ok(())
    }

    /// Asks about a request, which is not done.
    fn ask(&mut self, rows: usize, asked: Asked, message: Message) -> Result<(), Difference> {
        let lent = self.lent(table_words(rows));
        let needed = order_words(rows);
        let order_lent = self.r.pick(&[0, 1, needed - 1, needed, needed, needed + 1, usize::MAX]);
        self.happen(Event::Ask { lent, order_lent, message, asked })
    }

    /// A batch of these requests, and if it stops after some, mostly one of the rest.
    fn batch(&mut self, rows: usize, mut requests: Vec<[u64; REQUEST_WORDS]>) -> Result<(), Difference> {
        let mut gone_on = false;
        loop {
            let lent = self.lent(table_words(rows));
            let needed = order_words(rows);
            let order_lent = match self.r.below(10) {
                0 => self.r.pick(&[0, 1, needed - 1, needed]),
                _ => self.r.between(needed as u64, self.run.order_words as u64) as usize,
            };
            let answer_lent = match self.r.below(8) {
                0 => self.r.below(ANSWER_WORDS as u64 * requests.len() as u64 + 1) as usize,
                _ => ANSWER_WORDS * requests.len() + self.r.below(3) as usize,
            };
            let part = (0..self.r.pick(&[0, 0, 0, 1, 2])).map(|_| self.r.below(14)).collect();
            let done_before = self.tally.requests;
            self.happen(Event::Batch { lent, order_lent, answer_lent, requests: requests.clone(), part })?;
            if gone_on {
                self.tally.batches.mark(BatchPlace::RestGoneOnWith);
            }
            let done = (self.tally.requests - done_before) as usize;
            if done == 0 || done == requests.len() || self.r.chance(20) {
                return Ok(());
            }
            requests.drain(..done);
            gone_on = true;
        }
    }

    /// A batch whose requests are drawn each from the state that those before it lead to.
    fn sensible_batch(&mut self, phase: &Phase) -> Result<(), Difference> {
        let Some(mut m) = self.cache.model.clone() else { return Ok(()) };
        let length = match self.r.below(10) {
            0 => self.r.below(3),
            1 => self.r.between(20, 80),
            _ => self.r.between(3, 20),
        };
        let mut requests = Vec::new();
        for _ in 0..length {
            let (asked, _) = requests::request(&mut self.r, &m, phase, self.scale);
            requests.push([asked.kind, asked.address, asked.size]);
            if batch::KINDS.contains(&asked.kind) {
                let _ = m.step(&request_of(&asked), &[], order_words(m.rows));
            }
        }
        self.batch(m.rows, requests)
    }

    /// A batch of requests with nothing known of the cache.
    fn blind_batch(&mut self, rows: usize) -> Result<(), Difference> {
        let blind = |r: &mut Random| {
            let asked = requests::blind_request(r, rows);
            [asked.kind, asked.address, asked.size]
        };
        let requests = (0..self.r.below(5)).map(|_| blind(&mut self.r)).collect();
        self.batch(rows, requests)
    }

    /// The rows of the cache, and a request as the phase has them.
    fn draw(&mut self, phase: &Phase) -> Option<(usize, Asked, Message)> {
        let m = self.cache.model.as_ref()?;
        let (asked, message) = requests::request(&mut self.r, m, phase, self.scale);
        Some((m.rows, asked, message))
    }

    fn step(&mut self, phase: &Phase) -> Result<(), Difference> {
        if let (Some((rows, asked, message)), true) = (self.draw(phase), self.r.chance(10)) {
            self.ask(rows, asked, message)?;
        }
        let Some((rows, asked, message)) = self.draw(phase) else { return Ok(()) };
        let lent = self.lent(table_words(rows));
        let order_lent = self.order_lent(order_words(rows));
        let reason_lent = self.reason_lent(rows);
        self.happen(Event::Step { lent, order_lent, reason_lent, message, asked })
    }

    fn play(&mut self, rows: usize, length: u64) -> Result<(), Difference> {
        self.open(rows)?;
        let large = rows > 64;
        if large {
            self.put_state()?;
        }
        // Percent of events that put any allowed state.
        let states = if large { 5 } else { self.r.pick(&[0, 1, 4, 8]) };
        let mut phase = Phase::any(&mut self.r);
        let end = self.tally.requests + length;
        while self.tally.requests < end {
            if self.r.chance(1) {
                phase = Phase::any(&mut self.r);
            }
            match self.r.below(1_000) {
                0..=2 => {
                    let lent = self.r.below(self.run.table_words as u64 + 1) as usize;
                    self.happen(Event::Report { lent })?;
                }
                3..=14 => self.damage()?,
                15 => {
                    let rows = if large { rows } else { self.r.between(1, rows as u64) as usize };
                    self.open(rows)?;
                }
                16..=35 => self.sensible_batch(&phase)?,
                36..=38 => self.put_next()?,
                _ if self.r.chance(states) => {
                    self.put_state()?;
                    if self.r.chance(50) {
                        self.step(&PROTECTS)?;
                    }
                }
                _ => self.step(&phase)?,
            }
        }
        Ok(())
    }
}

/// Plays one run, in a large table or a small one; a run that shows a difference comes back with it.
pub fn play(seed: u64, large: bool, tally: &mut Tally) -> Result<(), Box<(Run, Difference)>> {
    let mut r = Random::new(seed);
    let rows = if large { many_rows(&mut r) } else { few_rows(&mut r) };
    let length = if large { 100 } else { r.between(200, 2_500) };
    let run = Run {
        table_words: table_words(rows) + r.below(6) as usize,
        order_words: order_words(rows) + if r.chance(50) { r.below(6) } else { r.below(180) } as usize,
        events: Vec::new(),
    };
    let before = tally.requests;
    let mut player = Player { scale: Scale::any(&mut r), r, cache: run.cache(), run, tally };
    let outcome = player.play(rows, length);
    let run = player.run;
    tally.runs += 1;
    if rows as u64 == ROW_LIMIT {
        tally.largest_runs += 1;
        tally.largest_requests += tally.requests - before;
    }
    outcome.map_err(|difference| Box::new((run, difference)))
}

// ---- as text

pub fn asked_text(asked: &Asked, message: &[u8]) -> String {
    let Asked { kind, address, size, settings } = asked;
    let name = if (1..=13).contains(kind) { KINDS[*kind as usize].to_string() } else { format!("kind {kind}") };
    match kind {
        1 | 2 | 3 | 5 | 8 => format!("{name} {address} {size}"),
        4 | 6 | 7 | 9 => format!("{name} {address}"),
        12 => format!("{name} {}", message::text(message)),
        13 => format!("{name} {}", settings_text(settings)),
        _ => name,
    }
}

pub fn settings_text(w: &SettingsWords) -> String {
    let settings = settings_of(w);
    if settings_words(&settings, 0) == *w {
        return format!("{settings:?}");
    }
    format!("{settings:?} by the words {w:x?}")
}

impl std::fmt::Display for Run {
    fn fmt(&self, f: &mut std::fmt::Formatter) -> std::fmt::Result {
        writeln!(f, "{} table words, {} order words", self.table_words, self.order_words)?;
        for event in &self.events {
            match event {
                Event::Open { lent, rows, mode, threshold, settings } => {
                    write!(f, "open {rows} rows, mode {mode}, threshold {threshold}, {}", settings_text(settings))?;
                    if *lent != self.table_words {
                        write!(f, " [{lent} table words lent]")?;
                    }
                }
                Event::Step { lent, order_lent, message, asked, .. }
                | Event::Ask { lent, order_lent, message, asked } => {
                    let how = match event {
                        Event::Ask { .. } => "asked: ",
                        Event::Step { reason_lent: Some(_), .. } => "explained: ",
                        _ => "",
                    };
                    write!(f, "{how}{}", asked_text(asked, &message.bytes))?;
                    if *lent != self.table_words {
                        write!(f, " [{lent} table words lent]")?;
                    }
                    if *order_lent != self.order_words {
                        write!(f, " [{order_lent} order words lent]")?;
                    }
                    if let Event::Step { reason_lent: Some(reason_lent), .. } = event {
                        write!(f, " [{reason_lent} reason words lent]")?;
                    }
                }
                Event::Batch { lent, order_lent, answer_lent, requests, part } => {
                    write!(f, "batch of {} requests", requests.len())?;
                    write!(f, " [{lent} table words, {order_lent} order words, {answer_lent} answer words lent]")?;
                    for [kind, address, size] in requests {
                        let asked = Asked { kind: *kind, address: *address, size: *size, settings: [0; 22] };
                        write!(f, "\n  {}", asked_text(&asked, &[]))?;
                    }
                    if !part.is_empty() {
                        write!(f, "\n  and the words {part:?}")?;
                    }
                }
                Event::Report { lent } => write!(f, "report [{lent} table words lent]")?,
                Event::Put { words } => {
                    write!(f, "words put:")?;
                    for (at, word) in words {
                        write!(f, " {at}={word:#x}")?;
                    }
                }
            }
            writeln!(f)?;
        }
        Ok(())
    }
}
