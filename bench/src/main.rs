//! Times the library's requests, and asking about them, beside judging alone, the second program's
//! model, and reading the table once; explaining them; taking and writing a message; and hits in a
//! batch. Prints four tables, in Markdown.
//!
//!     cargo run --release

mod explaining;
mod hit_pairs;
mod lru;
mod messages;

use explaining::ExplainingTimes;
use hit_pairs::HitPairs;
use messages::MessageTimes;
use second::boundary::{request_of, settings_words, Asked};
use second::library;
use second::message;
use second::model::{self, order_words, reason_words, Decrease, Entry, Hold, Mode, Model, Request, Settings};
use second::random::Random;
use second::table::{judge, picture, table_words};
use std::cell::RefCell;
use std::hint::black_box;
use std::time::{Duration, Instant};

const MOST_ROWS: usize = 4_096;
const ROW_COUNTS: [usize; 3] = [64, 1_024, MOST_ROWS];
/// Bytes of every entry.
const SIZE: u64 = 512;
/// For the orders of the rows, of the recency lists and of the lists taken.
const ROWS_SEED: u64 = 1;
const RECENCY_SEED: u64 = 2;
const LIST_SEED: u64 = 3;
/// Time spent on one figure, and how often it is measured at least and at most.
const TIME: Duration = Duration::from_millis(400);
const FEWEST: usize = 3;
const MOST: usize = 100_000;
/// What asking may cost with the most rows where its tests go over no rows and no list, times judging.
const ASKING_BESIDE_JUDGING: f64 = 1.1;

const INSERT: u64 = 1;
const PROTECT_FOR_READING: u64 = 2;
const RELEASE_UNCHANGED: u64 = 4;
const PIN: u64 = 6;
const UNPIN: u64 = 7;
const RESIZE: u64 = 8;
const DISCARD: u64 = 9;
const FLUSH: u64 = 10;
const SYNC: u64 = 11;
const TAKE: u64 = 12;
const CONFIGURE: u64 = 13;
const UNKNOWN: u64 = 14;

/// Does it as often as one figure is measured.
fn many_times(mut once: impl FnMut()) {
    let start = Instant::now();
    let mut measured = 0;
    while measured < FEWEST || (measured < MOST && start.elapsed() < TIME) {
        once();
        measured += 1;
    }
}

/// The best of the times so far.
struct Best(Duration);

impl Best {
    fn time<R>(&mut self, run: impl FnOnce() -> R) -> R {
        let begin = Instant::now();
        let result = black_box(run());
        self.0 = self.0.min(begin.elapsed());
        result
    }

    fn microseconds(&self) -> f64 {
        self.0.as_secs_f64() * 1e6
    }
}

/// The best time of `run`, each after a `prepare` that is not timed, in microseconds.
fn time<T, R>(mut prepare: impl FnMut() -> T, mut run: impl FnMut(T) -> R) -> f64 {
    let mut best = Best(Duration::MAX);
    many_times(|| {
        let prepared = black_box(prepare());
        drop(best.time(|| run(prepared)));
    });
    best.microseconds()
}

// ---- what is timed

/// The even addresses below twice the rows, shuffled.
fn shuffled_addresses(rows: usize, seed: u64) -> Vec<u64> {
    let mut addresses = rising_addresses(rows);
    Random::new(seed).shuffle(&mut addresses);
    addresses
}

fn rising_addresses(rows: usize) -> Vec<u64> {
    (0..rows as u64).map(|place| 2 * place).collect()
}

/// A cache with every row used. Neither the rows nor the recency list is in the addresses' order, nor
/// in each other's.
fn full_cache(rows: usize, mode: Mode, dirty: bool) -> Model {
    let settings = Settings {
        initial_size: rows as u64 * SIZE,
        maximum_size: 134_217_728,
        minimum_size: 1_024,
        clean_fraction: 0.5,
        ..Settings::default_values(mode)
    };
    let mut m = model::open(rows as u64, true, Some(mode), 262_144, settings).unwrap();
    for (row, address) in shuffled_addresses(rows, ROWS_SEED).into_iter().enumerate() {
        let entry = Entry { size: SIZE, dirty, idle: 3, pinned: false, hold: Hold::Free, row };
        m.entries.insert(address, entry);
    }
    m.recency = shuffled_addresses(rows, RECENCY_SEED).into();
    m
}

/// The middle entry held by a reader or pinned, and so off the list.
fn with_middle(mut m: Model, hold: Hold, pinned: bool) -> Model {
    let middle = middle(m.rows);
    let entry = m.entries.get_mut(&middle).unwrap();
    entry.hold = hold;
    entry.pinned = pinned;
    m.recency.retain(|a| *a != middle);
    m
}

fn middle(rows: usize) -> u64 {
    2 * (rows as u64 / 2)
}

struct Case {
    name: &'static str,
    cache: Model,
    asked: Vec<Asked>,
    /// The addresses of the message that is taken.
    list: Vec<u64>,
    /// Whether the list is shuffled anew before each time, so that no branch of one is known from another.
    shuffled: bool,
    /// How many orders each request gives; none is known where it is refused.
    orders: Vec<Option<u64>>,
    /// The row for asking about the first request.
    asking: Option<Asking>,
}

struct Asking {
    name: &'static str,
    /// Whether its tests go over all rows or a list.
    scans: bool,
}

impl Case {
    fn and_asking(self, name: &'static str) -> Case {
        Case { asking: Some(Asking { name, scans: false }), ..self }
    }

    fn and_asking_scans(self, name: &'static str) -> Case {
        Case { asking: Some(Asking { name, scans: true }), ..self }
    }
}

fn asked(kind: u64, address: u64, size: u64) -> Asked {
    Asked { kind, address, size, settings: [0; 22] }
}

fn cases(rows: usize) -> Vec<Case> {
    let n = rows as u64;
    let mid = middle(rows);
    let clean = full_cache(rows, Mode::Alone, false);
    let dirty = full_cache(rows, Mode::Alone, true);
    let lead = full_cache(rows, Mode::Lead, true);
    let follower = full_cache(rows, Mode::Standby, true);
    let held = with_middle(clean.clone(), Hold::Readers(1), false);
    let pinned = with_middle(clean.clone(), Hold::Free, true);
    let mut aging = clean.clone();
    aging.settings.decrease = Decrease::AgeOut { epochs: 3, reserve: 0.1 };
    aging.accesses = aging.settings.epoch_length - 1;
    aging.hits = aging.accesses;
    let aging = with_middle(aging, Hold::Readers(1), false);
    let configure = Asked { settings: settings_words(&clean.settings, 0), ..asked(CONFIGURE, 0, 0) };
    let case = |name, cache: &Model, asked: Vec<Asked>, orders: Vec<u64>| Case {
        name,
        cache: cache.clone(),
        asked,
        list: Vec::new(),
        shuffled: false,
        orders: orders.into_iter().map(Some).collect(),
        asking: None,
    };
    vec![
        Case {
            orders: vec![None],
            ..case("judging alone (refused: unknown kind)", &clean, vec![asked(UNKNOWN, 0, 0)], vec![])
        },
        case(
            "protect and release, resident",
            &clean,
            vec![asked(PROTECT_FOR_READING, mid, SIZE), asked(RELEASE_UNCHANGED, mid, 0)],
            vec![0, 0],
        )
        .and_asking("ask: protect, resident"),
        case("pin and unpin", &held, vec![asked(PIN, mid, 0), asked(UNPIN, mid, 0)], vec![0, 0]).and_asking("ask: pin"),
        case("resize", &pinned, vec![asked(RESIZE, mid, SIZE + 1)], vec![0]).and_asking("ask: resize"),
        case("discard", &clean, vec![asked(DISCARD, mid, 0)], vec![0]).and_asking("ask: discard"),
        case("insert, evicts one", &clean, vec![asked(INSERT, mid + 1, SIZE)], vec![1])
            .and_asking("ask: insert, evicts one"),
        Case {
            orders: vec![None],
            ..case("insert at a lead, all dirty (refused: no row)", &lead, vec![asked(INSERT, mid + 1, SIZE)], vec![])
        }
        .and_asking_scans("ask: insert at a lead, all dirty"),
        case("flush, all rows dirty", &dirty, vec![asked(FLUSH, 0, 0)], vec![n])
            .and_asking_scans("ask: flush, all rows dirty"),
        case("sync, writes half of the rows", &lead, vec![asked(SYNC, 0, 0)], vec![n / 2]).and_asking("ask: sync"),
        Case {
            list: rising_addresses(rows),
            ..case("take, all rows, as a flush lists them", &follower, vec![asked(TAKE, 0, 0)], vec![0])
        }
        .and_asking_scans("ask: take, all rows, as a flush lists them"),
        Case {
            list: rising_addresses(rows),
            shuffled: true,
            ..case("take, all rows, addresses in no order", &follower, vec![asked(TAKE, 0, 0)], vec![0])
        }
        .and_asking_scans("ask: take, all rows, addresses in no order"),
        case("configure", &clean, vec![configure], vec![0]).and_asking("ask: configure"),
        case("epoch's end, all but one age out", &aging, vec![asked(PROTECT_FOR_READING, mid, SIZE)], vec![n - 1]),
        case(
            "worst: protect, writes and evicts all, loads",
            &{
                let mut worst = dirty.clone();
                worst.settings.flash = model::Flash::Off;
                worst
            },
            vec![asked(PROTECT_FOR_READING, 1, 134_217_728)],
            vec![2 * n + 1],
        )
        .and_asking("ask: worst: protect"),
    ]
}

// ---- the figures

/// What the requests of a case may cost: twice judging each, and 1.5 microseconds for each order.
fn allowed(case: &Case, judging: f64) -> f64 {
    let orders: u64 = case.orders.iter().flatten().sum();
    2.0 * judging * case.asked.len() as f64 + 1.5 * orders as f64
}

struct Figures {
    library: f64,
    model: f64,
}

/// The messages of a case, one for each time, as they come.
struct Messages {
    number: u64,
    list: RefCell<Vec<u64>>,
    message: RefCell<Vec<u8>>,
    random: Option<RefCell<Random>>,
}

impl Messages {
    fn of(case: &Case) -> Messages {
        let random = case.shuffled.then(|| RefCell::new(Random::new(LIST_SEED)));
        let message = message::write(case.cache.next, &case.list);
        Messages {
            number: case.cache.next,
            list: RefCell::new(case.list.clone()),
            message: RefCell::new(message),
            random,
        }
    }

    fn next(&self) {
        if let Some(random) = &self.random {
            let mut list = self.list.borrow_mut();
            random.borrow_mut().shuffle(&mut list);
            library::write_message(&mut self.message.borrow_mut(), self.number, &list);
        }
    }
}

/// What asking about the first request of a case costs; judging and the request are timed in turn with
/// it, so that all three meet the machine in the same state.
struct AskingFigures {
    judging: f64,
    asking: f64,
    request: f64,
    model: f64,
}

impl AskingFigures {
    fn beside_judging(&self) -> f64 {
        self.asking / self.judging
    }

    fn beside_request(&self) -> f64 {
        self.asking / self.request
    }
}

fn time_asking(case: &Case) -> AskingFigures {
    let words = picture(&case.cache);
    let lent = order_words(case.cache.rows);
    let request = &case.asked[0];
    let mut table = words.clone();
    let mut orders = vec![0; lent];
    let messages = Messages::of(case);
    let told = library::ask(&words, lent, &messages.message.borrow(), request);
    assert_eq!(told.number == 0, case.orders[0].is_some(), "asking about {}", case.name);
    let unknown = asked(UNKNOWN, 0, 0);
    let [mut judging, mut asking, mut doing] = [(); 3].map(|()| Best(Duration::MAX));
    many_times(|| {
        table.copy_from_slice(&words);
        judging.time(|| library::step(&mut table, &mut orders, &[], black_box(&unknown)));
        table.copy_from_slice(&words);
        messages.next();
        asking.time(|| library::ask(&table, lent, &messages.message.borrow(), black_box(request)));
        table.copy_from_slice(&words);
        messages.next();
        doing.time(|| library::step(&mut table, &mut orders, &messages.message.borrow(), black_box(request)));
    });
    let known = request_of(request);
    let model = time(|| messages.next(), |()| case.cache.refusal(&known, &messages.message.borrow(), lent).is_some());
    AskingFigures {
        judging: judging.microseconds(),
        asking: asking.microseconds(),
        request: doing.microseconds(),
        model,
    }
}

/// The time of a case's requests together.
fn time_case(case: &Case) -> Figures {
    let rows = case.cache.rows;
    let words = picture(&case.cache);
    let lent = order_words(rows);
    let mut table = words.clone();
    let mut orders = vec![0; lent];
    let requests: Vec<Request> = case.asked.iter().map(request_of).collect();
    let messages = Messages::of(case);
    // The case is what its name says.
    let mut model = case.cache.clone();
    for ((asked, request), expected) in case.asked.iter().zip(&requests).zip(&case.orders) {
        let answer = library::step(&mut table, &mut orders, &messages.message.borrow(), asked);
        let given = model.step(request, &messages.message.borrow(), lent).ok().map(|orders| orders.len() as u64);
        let told = (answer.number == 0).then_some(answer.orders);
        assert_eq!((told, given), (*expected, *expected), "{} at {rows} rows", case.name);
    }
    // Preparing and running need the table in turn.
    let table = RefCell::new(table);
    let library = time(
        || {
            messages.next();
            table.borrow_mut().copy_from_slice(&words)
        },
        |()| {
            let table = &mut *table.borrow_mut();
            for asked in &case.asked {
                black_box(library::step(table, &mut orders, &messages.message.borrow(), asked));
            }
        },
    );
    let model = time(
        || {
            messages.next();
            case.cache.clone()
        },
        |mut model| {
            for request in &requests {
                black_box(model.step(request, &messages.message.borrow(), lent).is_ok());
            }
            model
        },
    );
    Figures { library, model }
}

fn time_report(cache: &Model) -> Figures {
    let words = picture(cache);
    let library = time(|| (), |()| library::report(&words));
    Figures { library, model: time(|| (), |()| cache.report()) }
}

fn short(microseconds: f64) -> String {
    match microseconds {
        t if t < 10.0 => format!("{t:.2}"),
        t if t < 100.0 => format!("{t:.1}"),
        t => format!("{t:.0}"),
    }
}

fn line(name: &str, cells: &[[String; 3]]) {
    print!("| {name:45} |");
    for [library, beside, model] in cells {
        print!(" {library:>10} | {beside:>6} | {model:>8} |");
    }
    println!();
}

fn main() {
    let mut lines: Vec<(&str, Vec<[String; 3]>)> = Vec::new();
    let [mut above, mut above_judging, mut above_request] = [(); 3].map(|()| Vec::<String>::new());
    let mut put = |name: &'static str, cell: [String; 3]| match lines.iter_mut().find(|line| line.0 == name) {
        Some((_, cells)) => cells.push(cell),
        None => lines.push((name, vec![cell])),
    };
    for rows in ROW_COUNTS {
        let clean = full_cache(rows, Mode::Alone, false);
        let words = picture(&clean);
        let reading = time(|| (), |()| words.iter().fold(0, |sum: u64, word| sum.wrapping_add(*word)));
        let mut judging = 0.0;
        for (at, case) in cases(rows).iter().enumerate() {
            let mut figures = time_case(case);
            if at == 0 {
                judging = figures.library;
                figures.model = time(|| (), |()| judge(&words).is_some());
                let beside = format!("{:.2}", reading / judging);
                put("reading the table once", [short(reading), beside, "".to_string()]);
            }
            if figures.library > allowed(case, judging) {
                above.push(format!("{} at {rows} rows", case.name));
            }
            let beside = format!("{:.1}", figures.library / judging);
            put(case.name, [short(figures.library), beside, short(figures.model)]);
        }
        // The clean bytes are counted to the half that is to be clean, and where all is dirty to the list's end.
        for (name, cache) in [("report", clean), ("report, all rows dirty", full_cache(rows, Mode::Alone, true))] {
            let Figures { library, model } = time_report(&cache);
            put(name, [short(library), format!("{:.1}", library / judging), short(model)]);
        }
        for case in cases(rows) {
            let Some(Asking { name, scans }) = case.asking else { continue };
            let figures = time_asking(&case);
            let beside = format!("{:.2}", figures.beside_judging());
            if rows == MOST_ROWS && !scans && figures.beside_judging() > ASKING_BESIDE_JUDGING {
                above_judging.push(format!("{name} ({beside} times)"));
            }
            if figures.beside_request() > 1.0 {
                above_request.push(format!("{name} at {rows} rows ({:.3} times)", figures.beside_request()));
            }
            put(name, [short(figures.asking), beside, short(figures.model)]);
        }
    }

    println!("Microseconds, best of many; \"beside\" is the library's time over that of judging alone.\n");
    let head = |rows: usize| [format!("{rows} rows"), "beside".to_string(), "model".to_string()];
    line("", &ROW_COUNTS.map(head));
    println!("|{}|{}", "-".repeat(47), "-----------:|-------:|---------:|".repeat(ROW_COUNTS.len()));
    for (name, cells) in &lines {
        line(name, cells);
    }
    let bounds = [
        ("Above twice judging and 1.5 microseconds for each order", above),
        ("Asking, above 1.1 times judging at 4,096 rows where its tests go over no rows and no list", above_judging),
        ("Asking, above the request itself", above_request),
    ];
    for (bound, above) in bounds {
        let above = if above.is_empty() { "none".to_string() } else { above.join("; ") };
        println!("\n{bound}: {above}.");
    }
    let explained = ROW_COUNTS.iter().flat_map(|rows| cases(*rows)).map(|case| ExplainingTimes::measure(&case));
    explaining::print(&explained.collect::<Vec<_>>());
    messages::print(&ROW_COUNTS.map(MessageTimes::measure));
    hit_pairs::print(&ROW_COUNTS.map(HitPairs::measure));
    println!();
    for rows in ROW_COUNTS {
        let (table, orders, reasons) = (table_words(rows), order_words(rows), reason_words(rows));
        println!(
            "{rows} rows: {table} words of table (8 for each row), {orders} for orders (6), {reasons} for reasons (2)"
        );
    }
}
