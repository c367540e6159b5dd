//! Why a request gave its orders, and why it changed the maximum.

use crate::{layout, raw, refusal, Order, OrderKind, Orders, Refusal, Request};
use core::fmt;

/// By which rule an order was given.
#[derive(Clone, Copy, Debug, PartialEq, Eq, Hash)]
pub enum Reason {
    /// Making room: held plus incoming bytes exceeded the maximum.
    RoomByBytes = 1,
    /// Making room: they did not, and a row was wanted and none free.
    RoomByRows = 2,
    /// Making room in a cache that is alone: too little was clean or unused.
    CleanShare = 3,
    /// An epoch's end: the entry was idle for as many epochs as the decrease rule says.
    AgedOut = 4,
    Flush = 5,
    Sync = 6,
    /// A protect of a record that was not there.
    Load = 7,
}

impl Reason {
    /// The number, 1 to 7.
    #[must_use]
    pub fn number(self) -> u64 {
        self as u64
    }

    fn of_number(number: u64) -> Reason {
        match number {
            1 => Reason::RoomByBytes,
            2 => Reason::RoomByRows,
            3 => Reason::CleanShare,
            4 => Reason::AgedOut,
            5 => Reason::Flush,
            6 => Reason::Sync,
            7 => Reason::Load,
            other => panic!("the library named reason {other}"),
        }
    }
}

impl fmt::Display for Reason {
    fn fmt(&self, f: &mut fmt::Formatter) -> fmt::Result {
        f.write_str(match self {
            Reason::RoomByBytes => "room by bytes",
            Reason::RoomByRows => "room by rows",
            Reason::CleanShare => "clean share",
            Reason::AgedOut => "aged out",
            Reason::Flush => "flush",
            Reason::Sync => "sync",
            Reason::Load => "load",
        })
    }
}

/// Which rule changed the maximum.
#[derive(Clone, Copy, Debug, PartialEq, Eq, Hash)]
pub enum Cause {
    /// The increase rule, at an epoch's end.
    Increase = 1,
    /// The flash rule, for a large entry.
    Flash = 2,
    /// The decrease rule by threshold, at an epoch's end.
    Threshold = 3,
    /// The decrease rule by age-out, with threshold or without, at an epoch's end.
    AgeOut = 4,
    /// A configure: the initial size, or a range that the maximum was brought into.
    Settings = 5,
}

impl Cause {
    /// The number, 1 to 5.
    #[must_use]
    pub fn number(self) -> u64 {
        self as u64
    }
}

impl fmt::Display for Cause {
    fn fmt(&self, f: &mut fmt::Formatter) -> fmt::Result {
        f.write_str(match self {
            Cause::Increase => "increase",
            Cause::Flash => "flash",
            Cause::Threshold => "threshold",
            Cause::AgeOut => "age-out",
            Cause::Settings => "settings",
        })
    }
}

/// Which field of the settings held the new maximum: the one that cut the value that the rule alone would
/// give, to the value that it has.
///
/// A limit that is just reached has cut nothing. Of two that cut it to the same value, it is the one with the
/// lower number.
#[derive(Clone, Copy, Debug, PartialEq, Eq, Hash)]
pub enum Bound {
    /// No bound cut it.
    None = 0,
    /// [`Settings::maximum_size`](crate::Settings::maximum_size).
    MaximumSize = 5,
    /// [`Settings::minimum_size`](crate::Settings::minimum_size).
    MinimumSize = 6,
    /// [`Settings::increase_cap`](crate::Settings::increase_cap).
    IncreaseCap = 9,
    /// [`Settings::decrease_cap`](crate::Settings::decrease_cap).
    DecreaseCap = 12,
}

impl Bound {
    /// The number of the field, 0 for none.
    #[must_use]
    pub fn number(self) -> u64 {
        self as u64
    }

    fn of_number(number: u64) -> Bound {
        match number {
            0 => Bound::None,
            5 => Bound::MaximumSize,
            6 => Bound::MinimumSize,
            9 => Bound::IncreaseCap,
            12 => Bound::DecreaseCap,
            other => panic!("the library named bound {other}"),
        }
    }
}

impl fmt::Display for Bound {
    fn fmt(&self, f: &mut fmt::Formatter) -> fmt::Result {
        match self {
            Bound::None => write!(f, "no bound"),
            field => write!(f, "setting {}, {}", field.number(), refusal::name_of_field(field.number())),
        }
    }
}

/// A change of the maximum. A request makes at most one.
#[derive(Clone, Copy, Debug, PartialEq, Eq, Hash)]
pub struct MaximumChange {
    pub cause: Cause,
    pub bound: Bound,
}

impl MaximumChange {
    /// The change that two numbers name, if it is one.
    fn of_numbers(cause: u64, bound: u64) -> Option<MaximumChange> {
        let cause = match cause {
            0 => return None,
            1 => Cause::Increase,
            2 => Cause::Flash,
            3 => Cause::Threshold,
            4 => Cause::AgeOut,
            5 => Cause::Settings,
            other => panic!("the library named cause {other}"),
        };
        Some(MaximumChange { cause, bound: Bound::of_number(bound) })
    }
}

impl fmt::Display for MaximumChange {
    fn fmt(&self, f: &mut fmt::Formatter) -> fmt::Result {
        let MaximumChange { cause, bound } = self;
        let moved = match (cause, bound) {
            (Cause::Increase | Cause::Flash, _) | (Cause::Settings, Bound::MinimumSize) => "rose",
            (Cause::Threshold | Cause::AgeOut, _) | (Cause::Settings, Bound::MaximumSize) => "fell",
            (Cause::Settings, _) => "was set",
        };
        write!(f, "the maximum {moved}: {cause}, held by {bound}")
    }
}

/// A number with a comma between thousands.
struct Thousands(u64);

impl fmt::Display for Thousands {
    fn fmt(&self, f: &mut fmt::Formatter) -> fmt::Result {
        match self.0 {
            below @ 0..1_000 => write!(f, "{below}"),
            number => write!(f, "{},{:03}", Thousands(number / 1_000), number % 1_000),
        }
    }
}

/// An order with its reason, as a sentence.
#[derive(Clone, Copy, Debug, PartialEq, Eq)]
pub struct Because {
    order: Order,
    reason: Reason,
}

impl Order {
    /// The order with its reason, to be printed as a sentence.
    ///
    /// ```
    /// use speldervacht::{Order, OrderKind, Reason};
    ///
    /// let order = Order { kind: OrderKind::Write, address: 7, size: 1_234_567 };
    /// assert_eq!(order.because(Reason::CleanShare).to_string(), "wrote 7 (1,234,567 bytes): clean share");
    /// ```
    #[must_use]
    pub fn because(self, reason: Reason) -> Because {
        Because { order: self, reason }
    }
}

impl fmt::Display for Because {
    fn fmt(&self, f: &mut fmt::Formatter) -> fmt::Result {
        let Because { order: Order { kind, address, size }, reason } = self;
        let done = match kind {
            OrderKind::Write => "wrote",
            OrderKind::Evict => "evicted",
            OrderKind::Load => "loaded",
        };
        let bytes = if *size == 1 { "byte" } else { "bytes" };
        write!(f, "{done} {address} ({} {bytes}): {reason}", Thousands(*size))
    }
}

/// The orders that one request gave, each with its reason, read from the lent words.
#[derive(Clone, Debug)]
pub struct ExplainedOrders<'a> {
    orders: Orders<'a>,
    reasons: core::slice::Iter<'a, u64>,
}

impl Iterator for ExplainedOrders<'_> {
    type Item = (Order, Reason);

    fn next(&mut self) -> Option<(Order, Reason)> {
        let order = self.orders.next()?;
        Some((order, Reason::of_number(*self.reasons.next()?)))
    }

    fn size_hint(&self) -> (usize, Option<usize>) {
        self.orders.size_hint()
    }
}

impl ExactSizeIterator for ExplainedOrders<'_> {}

/// The answer to a request that is explained.
#[derive(Clone, Debug)]
pub struct Explained<'a> {
    pub orders: ExplainedOrders<'a>,
    /// The change of the maximum, if it changed.
    pub change: Option<MaximumChange>,
}

/// Does one request on the cache in the table exactly as [`step`](crate::step) does it, and tells why: gives
/// each order with its reason, and the change of the maximum with its cause and bound.
///
/// A request that can give orders needs [`order_words`](crate::order_words) and
/// [`reason_words`](crate::reason_words) of the rows; words past the last order and the last reason are left
/// alone.
///
/// ```
/// use speldervacht::{explain, open, order_words, reason_words, table_words};
/// use speldervacht::{Mode, Request, Settings, DEFAULT_THRESHOLD};
///
/// let mut table = [0; table_words(4)];
/// let (mut orders, mut reasons) = ([0; order_words(4)], [0; reason_words(4)]);
/// open(&mut table, 4, Mode::Lead, DEFAULT_THRESHOLD, &Settings::fixed(Mode::Lead, 4_096))?;
///
/// let smaller = Settings { initial_size: None, maximum_size: 2_048, minimum_size: 1_024, ..Settings::defaults(Mode::Lead) };
/// let explained = explain(&mut table, &mut orders, &mut reasons, &Request::Configure { settings: smaller })?;
/// assert_eq!(explained.orders.len(), 0);
/// let told = explained.change.map(|change| change.to_string());
/// assert_eq!(told.as_deref(), Some("the maximum fell: settings, held by setting 5, the maximum size"));
/// # Ok::<(), speldervacht::Refusal>(())
/// ```
///
/// # Errors
///
/// The refusal of the request, and [`Refusal::FewReasonWords`]. Then no reason is written.
pub fn explain<'o>(
    table: &mut [u64],
    orders: &'o mut [u64],
    reasons: &'o mut [u64],
    request: &Request,
) -> Result<Explained<'o>, Refusal> {
    let message = request.message();
    // SAFETY: the slices are ours for the call, and borrowed apart.
    let told = unsafe {
        raw::speldervacht_explain(
            table.as_mut_ptr(),
            table.len(),
            orders.as_mut_ptr(),
            orders.len(),
            reasons.as_mut_ptr(),
            reasons.len(),
            message.as_ptr(),
            message.len(),
            request.to_raw(),
        )
    };
    if told.number != 0 {
        let verdict = raw::Verdict { number: told.number, field: told.field };
        return Err(Refusal::of_explanation(verdict, table, orders.len(), reasons.len(), request));
    }
    let given = told.orders as usize;
    Ok(Explained {
        orders: ExplainedOrders {
            orders: Orders::new(&orders[..layout::ORDER_WORDS * given]),
            reasons: reasons[..given].iter(),
        },
        change: MaximumChange::of_numbers(told.cause, told.bound),
    })
}
