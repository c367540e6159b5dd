//! The settings of a cache.

use crate::{raw, Mode};

/// The increase rule: what raises the maximum at an epoch's end.
#[derive(Clone, Copy, Debug, PartialEq)]
pub enum Increase {
    Off,
    /// A hit rate below `lower` in a full cache multiplies the maximum.
    ///
    /// The cache is full if held bytes reach the maximum, or if since the counters of accesses and hits last
    /// restarted making room found held plus incoming bytes above the maximum, whether or not anything could
    /// be evicted. They restart at an epoch's end, at a configure and when a flash raises the maximum; room
    /// that the same request makes after that counts again.
    ///
    /// ```
    /// use speldervacht::{Cache, Increase, Mode, Settings};
    ///
    /// let settings = Settings {
    ///     clean_fraction: 0.0,
    ///     maximum_size: 16_384,
    ///     epoch_length: 100,
    ///     increase: Increase::Threshold { lower: 0.9, multiplier: 2.0 },
    ///     ..Settings::fixed(Mode::Alone, 4_096)
    /// };
    /// let mut cache = Cache::builder().rows(4).settings(settings).open()?;
    ///
    /// // Each record is new, and three fit: the held bytes never reach the maximum. Room for the fourth
    /// // is found lacking, so the cache is full when the epoch ends without a hit.
    /// for address in 1..=100 {
    ///     assert_eq!(cache.report()?.maximum, 4_096);
    ///     cache.protect_for_reading(address, 1_325)?;
    ///     cache.release(address)?;
    ///     assert!(cache.report()?.held < 4_096);
    /// }
    /// assert_eq!(cache.report()?.maximum, 8_192);
    /// # Ok::<(), speldervacht::Refusal>(())
    /// ```
    Threshold {
        /// In [0, 1], and below the `upper` of the decrease rule if that has one; else setting 8 is bad.
        lower: f64,
        /// In (1, 2].
        multiplier: f64,
    },
}

/// The flash rule: what raises the maximum at once for a large entry.
#[derive(Clone, Copy, Debug, PartialEq)]
pub enum Flash {
    Off,
    /// Bytes that exceed `threshold` times the maximum raise it by `multiple` times these bytes,
    /// less free space.
    On {
        /// In [0.1, 10].
        multiple: f64,
        /// In [0.1, 1].
        threshold: f64,
    },
}

/// The decrease rule: what lowers the maximum at an epoch's end if nothing raised it.
#[derive(Clone, Copy, Debug, PartialEq)]
pub enum Decrease {
    Off,
    /// A hit rate above `upper` multiplies the maximum.
    Threshold {
        /// In [0, 1].
        upper: f64,
        /// In [0, 1].
        multiplier: f64,
    },
    /// Entries that stood idle for so many epochs are evicted; then the maximum falls to the held
    /// bytes with the reserve on top.
    AgeOut {
        /// From 1 to 10.
        epochs: u64,
        /// The share of the maximum that is kept empty, in [0, 1].
        reserve: f64,
    },
    /// Age-out at a hit rate above `upper`.
    AgeOutWithThreshold {
        /// In [0, 1].
        upper: f64,
        /// From 1 to 10.
        epochs: u64,
        /// In [0, 1].
        reserve: f64,
    },
}

/// The settings of a cache. Their numbers, from 1 to 12, come with a refusal.
#[derive(Clone, Copy, Debug, PartialEq)]
pub struct Settings {
    /// 1: whether entries may be evicted to make room. It may be off only if the increase, flash and
    /// decrease rules are all off; else setting 1 is bad.
    pub evictions: bool,
    /// 2 and 3: the maximum to begin with, within [`minimum_size`, `maximum_size`]. Opening needs
    /// it; configuring without it brings the maximum it finds into the range.
    pub initial_size: Option<u64>,
    /// 4: the minimum clean fraction: the share of the maximum that is to be clean or unused, in
    /// [0, 1]. Its default goes by the mode.
    pub clean_fraction: f64,
    /// 5: what the maximum never exceeds, from 1,024 to 134,217,728 bytes.
    pub maximum_size: u64,
    /// 6: what the maximum never falls below, from 1,024 to `maximum_size`.
    pub minimum_size: u64,
    /// 7: accesses in an epoch, from 100 to 1,000,000.
    pub epoch_length: u64,
    /// 8: its lower rate is below the upper rate of the decrease rule, where both count.
    pub increase: Increase,
    /// 9: the most bytes of one increase, up to 134,217,728; `None` for no cap.
    pub increase_cap: Option<u64>,
    /// 10
    pub flash: Flash,
    /// 11
    pub decrease: Decrease,
    /// 12: the most bytes of one decrease, up to 134,217,728; `None` for no cap.
    pub decrease_cap: Option<u64>,
}

impl Settings {
    /// The default settings of a mode: evictions on, 2 MiB to begin with, between 1 MiB and 32 MiB, and
    /// all three rules on. The minimum clean fraction is 0.01 alone, and 0.3 for a lead and a standby.
    ///
    /// ```
    /// use speldervacht::{Mode, Settings};
    ///
    /// assert_eq!(Settings::defaults(Mode::Alone).clean_fraction, 0.01);
    /// assert_eq!(Settings::defaults(Mode::Lead).clean_fraction, 0.3);
    /// assert_eq!(Settings::defaults(Mode::Standby).clean_fraction, 0.3);
    /// ```
    ///
    /// There are none without a mode:
    ///
    /// ```compile_fail,E0599
    /// let settings = speldervacht::Settings::default();
    /// ```
    #[must_use]
    pub fn defaults(mode: Mode) -> Settings {
        Settings {
            evictions: true,
            initial_size: Some(2_097_152),
            clean_fraction: match mode {
                Mode::Alone => 0.01,
                Mode::Lead | Mode::Standby => 0.3,
            },
            maximum_size: 33_554_432,
            minimum_size: 1_048_576,
            epoch_length: 50_000,
            increase: Increase::Threshold { lower: 0.9, multiplier: 2.0 },
            increase_cap: Some(4_194_304),
            flash: Flash::On { multiple: 1.0, threshold: 0.25 },
            decrease: Decrease::AgeOutWithThreshold { upper: 0.999, epochs: 3, reserve: 0.1 },
            decrease_cap: Some(1_048_576),
        }
    }

    /// A cache whose maximum stays at `size` bytes: no rule is on, the rest is as by default in the mode.
    #[must_use]
    pub fn fixed(mode: Mode, size: u64) -> Settings {
        Settings {
            initial_size: Some(size),
            maximum_size: size,
            minimum_size: size,
            increase: Increase::Off,
            flash: Flash::Off,
            decrease: Decrease::Off,
            ..Settings::defaults(mode)
        }
    }

    pub(crate) fn to_raw(self) -> raw::Settings {
        let mut s = raw::Settings {
            evictions: self.evictions.into(),
            preset: self.initial_size.is_some().into(),
            initial: self.initial_size.unwrap_or(0),
            clean: self.clean_fraction,
            largest: self.maximum_size,
            smallest: self.minimum_size,
            epoch: self.epoch_length,
            increment_kind: self.increase_cap.is_some().into(),
            increment_bytes: self.increase_cap.unwrap_or(0),
            decrement_kind: self.decrease_cap.is_some().into(),
            decrement_bytes: self.decrease_cap.unwrap_or(0),
            ..raw::Settings::default()
        };
        if let Increase::Threshold { lower, multiplier } = self.increase {
            s.increase_kind = 1;
            s.increase_lower = lower;
            s.increase_multiplier = multiplier;
        }
        if let Flash::On { multiple, threshold } = self.flash {
            s.flash_kind = 1;
            s.flash_multiple = multiple;
            s.flash_threshold = threshold;
        }
        match self.decrease {
            Decrease::Off => {}
            Decrease::Threshold { upper, multiplier } => {
                s.decrease_kind = 1;
                s.decrease_upper = upper;
                s.decrease_multiplier = multiplier;
            }
            Decrease::AgeOut { epochs, reserve } => {
                s.decrease_kind = 2;
                s.decrease_epochs = epochs;
                s.decrease_reserve = reserve;
            }
            Decrease::AgeOutWithThreshold { upper, epochs, reserve } => {
                s.decrease_kind = 3;
                s.decrease_upper = upper;
                s.decrease_epochs = epochs;
                s.decrease_reserve = reserve;
            }
        }
        s
    }
}
