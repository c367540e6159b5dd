//! Every one-bit damage of small tables, and every word at the edge of each limit: check says damaged
//! exactly where the library answers 1, and putting a word that it names back as it was mends the table.

mod common;

use common::{exceeded, settings, table, without_initial_size, MODES};
use speldervacht::report;
use speldervacht_command::check::{find, status};
use speldervacht_command::layout::Header;
use speldervacht_command::{layout, Status};

/// What the damages of a table came to.
#[derive(Default)]
struct Tally {
    sound: usize,
    named_first: usize,
    named_besides: usize,
}

/// Flips each bit of the table's words in turn.
fn flip_each(sound: &[u64], tally: &mut Tally) {
    assert!(report(sound).is_ok() && find(sound).is_none());
    let own = layout::table_words(sound[1] as usize);
    let mut words = sound.to_vec();
    for place in 0..own {
        for bit in 0..64 {
            words[place] = sound[place] ^ (1 << bit);
            judge(sound, &words, place, tally);
            words[place] = sound[place];
        }
    }
}

fn judge(sound: &[u64], words: &[u64], place: usize, tally: &mut Tally) {
    let finding = find(words);
    assert_eq!(finding.is_some(), report(words).is_err(), "word {place} is {:#x}: {finding:?}", words[place]);
    let Some(finding) = finding else {
        tally.sound += 1;
        return;
    };
    let mends = |named: &usize| {
        let mut mended = words.to_vec();
        mended[*named] = sound[*named];
        report(&mended).is_ok()
    };
    let mending = finding.places().iter().position(mends);
    match mending {
        Some(0) => tally.named_first += 1,
        Some(_) => tally.named_besides += 1,
        None => panic!("word {place} is {:#x}, and no word that is named mends it: {finding}", words[place]),
    }
}

#[test]
fn one_bit_damages_are_found_and_named() {
    let mut tally = Tally::default();
    for mode in MODES {
        for settings in settings() {
            // With a free row, and with none.
            let free = table(mode, &settings, 6);
            flip_each(&free, &mut tally);
            flip_each(&table(mode, &settings, 5), &mut tally);
            flip_each(&without_initial_size(free, &settings), &mut tally);
        }
        // With room that was lacking.
        let lacking = exceeded(table(mode, &settings()[1], 6));
        assert_eq!(lacking[Header::Exceeded.place()], 1);
        flip_each(&lacking, &mut tally);
        // With words of the host past the end.
        let past = [table(mode, &settings()[0], 6), vec![0; 40], vec![u64::MAX; 40]].concat();
        flip_each(&past, &mut tally);
    }
    let Tally { sound, named_first, named_besides } = tally;
    println!(
        "{sound} still sound; {named_first} damaged, the first word named mends it; {named_besides}, another does"
    );
    assert!(sound > 0 && named_first > 0 && named_besides > 0);
}

/// The limits of the rules, what lies beside them, and what is no number.
fn edges() -> Vec<u64> {
    let whole = [0, 1, 2, 3, 10, 100, 1_024, 4_096, 65_536, 1_000_000, 134_217_728, 1 << 30, 1 << 40, u64::MAX];
    let floats = [0.0, -0.0, 0.1, 1.0, 2.0, 10.0, f64::INFINITY, f64::NAN].map(f64::to_bits);
    whole.into_iter().chain(floats).flat_map(beside).collect()
}

fn beside(word: u64) -> [u64; 3] {
    [word.wrapping_sub(1), word, word.wrapping_add(1)]
}

#[test]
fn words_at_the_edges_of_the_limits() {
    let mut tally = Tally::default();
    for (settings, mode) in settings().iter().zip(MODES.into_iter().cycle()) {
        let sound = table(mode, settings, 6);
        // Each word also gets the value of each other one, so that pairs of words are equal.
        let values: Vec<u64> = sound.iter().flat_map(|word| beside(*word)).chain(edges()).collect();
        let mut words = sound.clone();
        for place in 0..sound.len() {
            for &value in &values {
                words[place] = value;
                judge(&sound, &words, place, &mut tally);
            }
            words[place] = sound[place];
        }
    }
    assert!(tally.sound > 0 && tally.named_first > 0 && tally.named_besides > 0);
}

/// 0 and 1 are both sound, beside any other words. All else is damaged, and this word alone is named.
#[test]
fn whether_the_maximum_was_exceeded_is_0_or_1() {
    let place = Header::Exceeded.place();
    for mode in MODES {
        for settings in settings() {
            let mut words = table(mode, &settings, 6);
            for flag in [0, 1] {
                words[place] = flag;
                assert!(report(&words).is_ok() && find(&words).is_none(), "{mode:?}, {settings:?}, {flag}");
            }
            for damaged in (1..64).map(|bit| 1 << bit).chain([3, u64::MAX]) {
                words[place] = damaged;
                let finding = find(&words).unwrap_or_else(|| panic!("{damaged} is sound"));
                assert!(report(&words).is_err());
                assert_eq!(finding.places(), [place]);
                assert_eq!(finding.rule, "the word is 0 or 1: whether the maximum was exceeded");
            }
        }
    }
}

#[test]
fn words_past_the_end_are_not_read() {
    let mut words = table(MODES[0], &settings()[0], 6);
    let end = words.len();
    words.extend([layout::VERSION; 9]);
    for place in end..words.len() {
        for bit in 0..64 {
            words[place] ^= 1 << bit;
            assert!(find(&words).is_none());
        }
    }
}

#[test]
fn the_layout_is_the_crates() {
    for rows in [1, 2, 63, 4_096] {
        assert_eq!(layout::table_words(rows), speldervacht::table_words(rows));
    }
}

#[test]
fn a_disagreement_has_a_status_of_its_own() {
    assert_eq!(status(false, false), Status::Good);
    assert_eq!(status(true, true), Status::Bad);
    assert_eq!(status(true, false), Status::Disagreement);
    assert_eq!(status(false, true), Status::Disagreement);
    assert_eq!([Status::Good, Status::Bad, Status::Disagreement].map(Status::number), [0, 1, 3]);
}
