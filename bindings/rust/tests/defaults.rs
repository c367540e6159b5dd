//! The crate's default settings and threshold beside those of the proved constructor, which the
//! program `defaults` prints.

use speldervacht::{open, table_words, Cache, Mode, Settings, DEFAULT_THRESHOLD};

/// The threshold and then for each mode the words of the settings, in decimal, one a line.
const PROVED: &str = concat!(env!("CARGO_MANIFEST_DIR"), "/../../crates/defaults/stdout");
const MODES: [Mode; 3] = [Mode::Alone, Mode::Lead, Mode::Standby];
/// The words of the settings.
const WORDS: usize = 21;

#[test]
fn the_defaults_are_the_constructors() {
    let text = std::fs::read_to_string(PROVED).unwrap_or_else(|error| panic!("{PROVED}: {error}"));
    let proved: Vec<u64> = text.lines().map(|line| line.parse().unwrap()).collect();
    assert_eq!(proved.len(), 1 + MODES.len() * WORDS);
    for (mode, words) in MODES.into_iter().zip(proved[1..].chunks(WORDS)) {
        let mut table = vec![0; table_words(1)];
        open(&mut table, 1, mode, DEFAULT_THRESHOLD, &Settings::defaults(mode)).unwrap();
        // The threshold is word 3 of a table, the settings are words 10 to 30.
        assert_eq!(table[3], proved[0]);
        assert_eq!(table[10..31], *words, "{mode:?}");
        // A builder to which no settings are named has the same.
        assert_eq!(Cache::builder().rows(1).mode(mode).open().unwrap().as_words(), table, "{mode:?}");
    }
}

#[test]
fn the_clean_fractions() {
    let bits = MODES.map(|mode| Settings::defaults(mode).clean_fraction.to_bits());
    assert_eq!(bits, [0x3f84_7ae1_47ae_147b, 0x3fd3_3333_3333_3333, 0x3fd3_3333_3333_3333]);
}

#[test]
fn fixed_settings_have_the_modes_fraction() {
    for mode in MODES {
        let fixed = Settings::fixed(mode, 4_096);
        assert_eq!(fixed.clean_fraction, Settings::defaults(mode).clean_fraction);
        let others = MODES.map(|other| Settings { clean_fraction: 0.0, ..Settings::fixed(other, 4_096) });
        assert!(others.iter().all(|other| *other == Settings { clean_fraction: 0.0, ..fixed }));
    }
}

/// Settings that are named are kept, whenever the mode is.
#[test]
fn a_builder_keeps_the_settings_that_are_named() {
    for (mode, other) in MODES.into_iter().flat_map(|mode| MODES.map(|other| (mode, other))) {
        let settings = Settings::defaults(other);
        let first = Cache::builder().settings(settings).mode(mode).open().unwrap();
        let last = Cache::builder().mode(mode).settings(settings).open().unwrap();
        let mut table = vec![0; table_words(64)];
        open(&mut table, 64, mode, DEFAULT_THRESHOLD, &settings).unwrap();
        assert!(first.as_words() == table && last.as_words() == table, "{mode:?}, settings of {other:?}");
    }
}
