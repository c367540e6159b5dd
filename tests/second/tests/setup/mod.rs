//! The small setup of the worked cases.

use second::model::{self, Cap, Decrease, Flash, Increase, Mode, Model, Settings};

pub fn small_settings() -> Settings {
    Settings {
        initial_size: 4_096,
        clean_fraction: 0.0,
        maximum_size: 16_384,
        minimum_size: 1_024,
        epoch_length: 100,
        increase: Increase::Off,
        increase_cap: Cap::None,
        flash: Flash::Off,
        decrease: Decrease::Off,
        decrease_cap: Cap::None,
        ..Settings::default_values(Mode::Alone)
    }
}

pub fn open(rows: u64, mode: Mode, threshold: u64, settings: Settings) -> Model {
    model::open(rows, true, Some(mode), threshold, settings).unwrap()
}
