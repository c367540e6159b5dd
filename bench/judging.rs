// Judging a table: the proved function beside the same checks written by hand, in one run.
//
// By hand there are two ways, which differ in the rows and the runs: counting, as the proved function
// does, and marking, which marks the rows that each run names and looks for a row named twice.
//
// First all three judge damaged tables and must agree; then each is timed on an allowed table whose
// rows are all used, an eighth of them pinned and an eighth held: the best of 21 rounds.
use std::hint::black_box;
use std::time::Instant;

mod proved {
    #[link(name = "judge_c", kind = "static")]
    extern "C" {
        // A slice is its first word and its length.
        pub fn judge_table(table: *const u64, words: usize) -> bool;
    }
}

fn proved_judge(table: &[u64]) -> bool {
    unsafe { proved::judge_table(table.as_ptr(), table.len()) }
}

// ---- the same checks by hand

const HEADER: usize = 31;
// The number of the next message, which may be any.
const NEXT: usize = 8;
// Whether the maximum was exceeded, 0 or 1.
const EXCEEDED: usize = 9;
// Where the settings begin.
const SETTINGS: usize = 10;
const WIDTH: usize = 6;
const VERSION: u64 = 0x5350_4c44_5654_0003;
const ONES: u64 = u64::MAX;

fn within(x: f64, low: f64, high: f64) -> bool {
    low <= x && x <= high
}

fn unit(x: f64) -> bool {
    within(x, 0.0, 1.0)
}

// A float whose word is its own: a NaN has one word.
fn float(word: u64) -> Option<f64> {
    let x = f64::from_bits(word);
    (!x.is_nan()).then_some(x)
}

// The two or three words of a rule that is off are zero.
fn zero(words: &[u64]) -> bool {
    words.iter().all(|w| *w == 0)
}

fn cap_allowed(w: &[u64]) -> bool {
    match w[0] {
        0 => w[1] == 0,
        1 => w[1] <= 134_217_728,
        _ => false,
    }
}

fn settings_allowed(w: &[u64]) -> Option<()> {
    let (evictions, preset, initial, largest, smallest, epoch) = (w[0], w[1], w[2], w[4], w[5], w[6]);
    let sizes = 1_024..=134_217_728;
    let plain = evictions <= 1
        && preset <= 1
        && (preset == 0 || smallest <= initial && initial <= largest)
        && unit(float(w[3])?)
        && sizes.contains(&largest)
        && sizes.contains(&smallest)
        && smallest <= largest
        && (100..=1_000_000).contains(&epoch)
        && cap_allowed(&w[10..12])
        && cap_allowed(&w[19..21]);
    let lower = match w[7] {
        0 if zero(&w[8..10]) => None,
        1 => {
            let (lower, multiplier) = (float(w[8])?, float(w[9])?);
            if !(unit(lower) && 1.0 < multiplier && multiplier <= 2.0) {
                return None;
            }
            Some(lower)
        }
        _ => return None,
    };
    match w[12] {
        0 if zero(&w[13..15]) => (),
        1 if within(float(w[13])?, 0.1, 10.0) && within(float(w[14])?, 0.1, 1.0) => (),
        _ => return None,
    }
    let aged = || (1..=10).contains(&w[17]);
    let upper = match w[15] {
        0 if zero(&w[16..19]) => None,
        1 if w[17] == 0 && unit(float(w[18])?) => Some(float(w[16])?),
        2 if w[16] == 0 && aged() && unit(float(w[18])?) => None,
        3 if aged() && unit(float(w[18])?) => Some(float(w[16])?),
        _ => return None,
    };
    if let Some(upper) = upper {
        if !unit(upper) || lower.is_some_and(|lower| upper <= lower) {
            return None;
        }
    }
    let rules = w[7] != 0 || w[12] != 0 || w[15] != 0;
    (plain && (evictions == 1 || !rules)).then_some(())
}

// The words of the rows, and the two runs.
struct Parts<'a> {
    rows: &'a [[u64; WIDTH]],
    recency: &'a [u64],
    order: &'a [u64],
}

// The run before its all ones.
fn named(run: &[u64]) -> &[u64] {
    let length = run.iter().rposition(|w| *w != ONES).map_or(0, |at| at + 1);
    &run[..length]
}

mod counting {
    use super::{named, Parts, ONES, WIDTH};

    fn free_allowed(row: &[u64; WIDTH], listed: bool) -> bool {
        !listed & row.iter().all(|w| *w == 0)
    }

    fn entry_allowed(row: &[u64; WIDTH], listed: bool) -> bool {
        let [_, _, dirty, idle, pinned, hold] = *row;
        if !((dirty <= 1) & (idle <= 10) & (pinned <= 1) & (hold <= 65_536)) {
            return false;
        }
        listed == ((hold == 0) & (pinned == 0))
    }

    // Every row is allowed and marked if it is to be listed: how many are used, and how many are marked.
    fn counts(rows: &[[u64; WIDTH]], listed: &[bool; 4096]) -> Option<(usize, usize)> {
        let (mut used, mut marked) = (0, 0);
        for (row, mark) in rows.iter().zip(listed) {
            let size = row[1];
            if (size != 0) & (size <= 134_217_728) {
                if !entry_allowed(row, *mark) {
                    return None;
                }
                used += 1;
            } else if !free_allowed(row, *mark) {
                return None;
            }
            marked += *mark as usize;
        }
        Some((used, marked))
    }

    fn addresses_rise(rows: &[[u64; WIDTH]], order: &[u64]) -> Option<bool> {
        let Some((first, rest)) = order.split_first() else {
            return Some(true);
        };
        let [mut last, size, ..] = *rows.get(*first as usize)?;
        if size == 0 {
            return None;
        }
        for row in rest {
            let address = rows.get(*row as usize)?[0];
            if address <= last {
                return None;
            }
            last = address;
        }
        Some(last != ONES)
    }

    pub fn parts_allowed(parts: &Parts) -> Option<bool> {
        let (recency, order) = (named(parts.recency), named(parts.order));
        let mut listed = [false; 4096];
        for row in recency {
            let row = *row as usize;
            if parts.rows.len() <= row {
                return None;
            }
            listed[row] = true;
        }
        if counts(parts.rows, &listed)? != (order.len(), recency.len()) {
            return None;
        }
        addresses_rise(parts.rows, order)
    }
}

mod marking {
    use super::{named, Parts, ONES, WIDTH};

    fn row_allowed(row: &[u64; WIDTH]) -> bool {
        let [address, size, dirty, idle, pinned, hold] = *row;
        if size == 0 {
            return address == 0 && dirty == 0 && idle == 0 && pinned == 0 && hold == 0;
        }
        address != ONES && size <= 134_217_728 && dirty <= 1 && idle <= 10 && pinned <= 1 && hold <= 65_536
    }

    // Each row number is marked once.
    fn mark(run: &[u64], rows: usize, seen: &mut [bool; 4096]) -> Option<()> {
        for w in run {
            let row = *w as usize;
            if rows <= row || seen[row] {
                return None;
            }
            seen[row] = true;
        }
        Some(())
    }

    pub fn parts_allowed(parts: &Parts) -> Option<bool> {
        let (recency, order) = (named(parts.recency), named(parts.order));
        let (mut listed, mut used) = ([false; 4096], [false; 4096]);
        mark(recency, parts.rows.len(), &mut listed)?;
        mark(order, parts.rows.len(), &mut used)?;
        for (i, row) in parts.rows.iter().enumerate() {
            let [_, size, _, _, pinned, hold] = *row;
            if !row_allowed(row) || listed[i] != (size != 0 && pinned == 0 && hold == 0) || used[i] != (size != 0) {
                return None;
            }
        }
        let address = |row: u64| parts.rows[row as usize][0];
        Some(order.windows(2).all(|pair| address(pair[0]) < address(pair[1])))
    }
}

// The header, and then the parts after it.
fn hand_judge(table: &[u64], parts_allowed: impl Fn(&Parts) -> Option<bool>) -> bool {
    if table.len() < HEADER {
        return false;
    }
    let [version, count, mode, threshold, maximum, accesses, hits, bytes] = table[..8].try_into().unwrap();
    if version != VERSION || !(1..=4096).contains(&count) || 2 < mode || !(1..=1 << 30).contains(&threshold) {
        return false;
    }
    let rows = count as usize;
    let settings = &table[SETTINGS..HEADER];
    if table.len() < HEADER + rows * (WIDTH + 2) || settings_allowed(settings).is_none() {
        return false;
    }
    if maximum < settings[5] || settings[4] < maximum || settings[6] <= accesses || accesses < hits || 1 << 40 < bytes {
        return false;
    }
    if 1 < table[EXCEEDED] {
        return false;
    }
    let (words, runs) = table[HEADER..HEADER + rows * (WIDTH + 2)].split_at(rows * WIDTH);
    let (recency, order) = runs.split_at(rows);
    let (rows, _) = words.as_chunks();
    parts_allowed(&Parts { rows, recency, order }) == Some(true)
}

#[inline(never)]
fn counting_judge(table: &[u64]) -> bool {
    hand_judge(table, counting::parts_allowed)
}

#[inline(never)]
fn marking_judge(table: &[u64]) -> bool {
    hand_judge(table, marking::parts_allowed)
}

// ---- tables

struct Random(u64);

impl Random {
    fn next(&mut self) -> u64 {
        self.0 ^= self.0 << 13;
        self.0 ^= self.0 >> 7;
        self.0 ^= self.0 << 17;
        self.0
    }

    fn below(&mut self, n: u64) -> u64 {
        self.next() % n
    }

    fn one_in(&mut self, n: u64) -> bool {
        self.below(n) == 0
    }
}

fn settings_words(random: &mut Random) -> [u64; 21] {
    let f = |x: f64| x.to_bits();
    let mut w = [0; 21];
    w[..7].copy_from_slice(&[1, 1, 2_097_152, f(0.3), 33_554_432, 1_048_576, 50_000]);
    w[7..12].copy_from_slice(&[1, f(0.9), f(2.0), 1, 4_194_304]);
    w[12..15].copy_from_slice(&[1, f(1.0), f(0.25)]);
    w[15..21].copy_from_slice(&[3, f(0.999), 3, f(0.1), 1, 1_048_576]);
    match random.below(6) {
        0 => w[15..19].copy_from_slice(&[1, f(0.95), 0, f(0.5)]),
        1 => w[15..19].copy_from_slice(&[2, 0, 1, f(1.0)]),
        2 => w[15..19].fill(0),
        3 => w[7..15].fill(0),
        _ => (),
    }
    w
}

// A table of an allowed cache. With holes: small addresses, free rows, and a longer table.
fn table(random: &mut Random, rows: usize, holes: bool) -> Vec<u64> {
    let mut t = vec![0; HEADER];
    t[..8].copy_from_slice(&[VERSION, rows as u64, random.below(3), 262_144, 2_097_152, 40_000, 30_000, 0]);
    t[NEXT] = random.next();
    t[EXCEEDED] = random.below(2);
    t[SETTINGS..].copy_from_slice(&settings_words(random));
    let mut entries: Vec<(u64, u64)> = Vec::new();
    let mut recency = Vec::new();
    for row in 0..rows as u64 {
        if holes && random.one_in(4) {
            t.extend([0; WIDTH]);
            continue;
        }
        let address = loop {
            let a = if holes { random.below(3 * rows as u64) } else { random.next() >> 1 };
            if !holes || entries.iter().all(|(b, _)| *b != a) {
                break a;
            }
        };
        let pinned = random.one_in(8) as u64;
        let hold = if random.one_in(8) { 1 + random.below(65_536) } else { 0 };
        t.extend([address, 1 + random.below(5_000), random.below(2), random.below(11), pinned, hold]);
        entries.push((address, row));
        if pinned == 0 && hold == 0 {
            recency.push(row);
        }
    }
    for i in (1..recency.len()).rev() {
        recency.swap(i, random.below(i as u64 + 1) as usize);
    }
    entries.sort();
    let mut order: Vec<u64> = entries.iter().map(|e| e.1).collect();
    recency.resize(rows, ONES);
    order.resize(rows, ONES);
    t.extend(recency);
    t.extend(order);
    if holes {
        t.extend((0..random.below(3)).map(|_| 7));
    }
    t
}

// ---- the run

// Words at the edges of what a table may have.
fn odd_words() -> [u64; 22] {
    let (half, more) = (0.5f64.to_bits(), 1.5f64.to_bits());
    let nan = f64::NAN.to_bits() + 1;
    let (size, stop) = (1 << 27, 1 << 40);
    [
        0,
        1,
        2,
        3,
        4,
        5,
        10,
        11,
        100,
        1_024,
        65_535,
        65_536,
        65_537,
        size,
        size + 1,
        stop,
        1 << 63,
        ONES - 1,
        ONES,
        half,
        more,
        nan,
    ]
}

// A word, a word of a run or a whole row is not what it was, or the table is shorter.
fn damage(random: &mut Random, t: &mut Vec<u64>, rows: usize, odd: &[u64]) {
    let any = |random: &mut Random, from: usize, to: usize| from + random.below((to - from) as u64) as usize;
    let runs = HEADER + rows * WIDTH;
    match random.below(8) {
        0 => t.truncate(t.len() - random.below(5) as usize),
        1 | 2 => {
            let at = any(random, runs, runs + rows * 2);
            t[at] = if random.one_in(4) { ONES } else { random.below(rows as u64 + 1) };
        }
        3 => {
            let (a, b) = (any(random, runs, runs + rows * 2), any(random, runs, runs + rows * 2));
            t.swap(a, b);
        }
        4 => {
            let (row, other) = (HEADER + any(random, 0, rows) * WIDTH, HEADER + any(random, 0, rows) * WIDTH);
            t.copy_within(other..other + WIDTH, row);
        }
        5 => {
            let at = HEADER + any(random, 0, rows) * WIDTH;
            t[at] = odd[any(random, 0, odd.len())];
        }
        _ => {
            let from = if random.one_in(2) { HEADER } else { 0 };
            let at = any(random, from, t.len());
            let other = any(random, from, t.len());
            t[at] = if random.one_in(3) { t[other] } else { odd[any(random, 0, odd.len())] };
        }
    }
}

fn agreed(t: &[u64]) -> bool {
    let verdicts = [proved_judge(t), counting_judge(t), marking_judge(t)];
    assert!(verdicts == [verdicts[0]; 3], "proved, counting, marking: {verdicts:?} on {t:?}");
    verdicts[0]
}

fn compare(random: &mut Random, tables: usize) {
    let odd = odd_words();
    for (word, length) in odd.iter().flat_map(|word| (0..300).map(move |length| (*word, length))) {
        assert!(!agreed(&vec![word; length]), "{length} words {word} pass");
    }
    let mut allowed = 0;
    for _ in 0..tables {
        let most = if random.one_in(4) { 70 } else { 6 };
        let rows = 1 + random.below(most) as usize;
        let mut t = table(random, rows, true);
        for _ in 0..random.below(4) {
            damage(random, &mut t, rows, &odd);
            if t.len() < HEADER + rows * (WIDTH + 2) {
                break;
            }
        }
        allowed += agreed(&t) as usize;
    }
    println!(
        "{tables} tables of 1 to 70 rows, most of them damaged: {allowed} allowed, {} not, no difference",
        tables - allowed
    );
}

fn nanoseconds(judge: impl Fn(&[u64]) -> bool, t: &[u64], rounds: usize) -> f64 {
    let start = Instant::now();
    for _ in 0..rounds {
        assert!(judge(black_box(t)));
    }
    start.elapsed().as_nanos() as f64 / rounds as f64
}

fn main() {
    let mut random = Random(88_172_645_463_325_252);
    compare(&mut random, 400_000);
    println!("  rows   proved, ns   counting by hand, ns   beside   marking by hand, ns   beside");
    for rows in [64, 1_024, 4_096] {
        let t = table(&mut random, rows, false);
        let rounds = 4_000_000 / (rows * (WIDTH + 2));
        let (mut proved, mut counting, mut marking) = (f64::MAX, f64::MAX, f64::MAX);
        for _ in 0..21 {
            proved = proved.min(nanoseconds(proved_judge, &t, rounds));
            counting = counting.min(nanoseconds(counting_judge, &t, rounds));
            marking = marking.min(nanoseconds(marking_judge, &t, rounds));
        }
        println!(
            "{rows:>6} {proved:>12.0} {counting:>22.0} {:>8.2} {marking:>21.0} {:>8.2}",
            proved / counting,
            proved / marking
        );
    }
}
