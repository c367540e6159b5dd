//! The moments at which a host is killed by choice.

/// What part a host plays.
#[derive(Clone, Copy, Debug, PartialEq, Eq, PartialOrd, Ord)]
pub enum Part {
    Lead,
    Standby,
}

impl Part {
    pub fn name(self) -> &'static str {
        match self {
            Part::Lead => "lead",
            Part::Standby => "standby",
        }
    }
}

/// A moment at which a host stops, says so and waits to be killed.
#[derive(Clone, Copy, Debug, PartialEq, Eq, PartialOrd, Ord)]
pub enum Moment {
    /// So many records of a flush are written, and half of the next.
    AmidWrites,
    /// All is written and synced, and the list has not been sent.
    BeforeList,
    /// Half of the list's bytes have been sent.
    HalfList,
    /// The lead did a change that the standby has not had.
    LeadOnly,
    /// The last list of a move was taken, and the lead has not handed over.
    BeforeSwitch,
    /// The lead has brought in so many batches of the records that its new standby is to have.
    LeadCatchingUp,
    /// The standby has got a list whole, and has not taken it.
    BeforeTake,
    /// The standby did a change and has not said so.
    Unacknowledged,
    /// The standby of a move leads now, and has not said so.
    Switched,
    /// The new standby has brought in one batch more, and has not said so.
    StandbyCatchingUp,
}

impl Moment {
    pub const ALL: [Moment; 10] = [
        Moment::AmidWrites,
        Moment::BeforeList,
        Moment::HalfList,
        Moment::LeadOnly,
        Moment::BeforeSwitch,
        Moment::LeadCatchingUp,
        Moment::BeforeTake,
        Moment::Unacknowledged,
        Moment::Switched,
        Moment::StandbyCatchingUp,
    ];

    /// The host that is killed at this moment. At a move's switch it is the one that stood by before.
    pub fn victim(self) -> Part {
        match self {
            Moment::AmidWrites
            | Moment::BeforeList
            | Moment::HalfList
            | Moment::LeadOnly
            | Moment::BeforeSwitch
            | Moment::LeadCatchingUp => Part::Lead,
            Moment::BeforeTake | Moment::Unacknowledged | Moment::Switched | Moment::StandbyCatchingUp => Part::Standby,
        }
    }

    /// Whether it comes while a new standby is brought up to date.
    pub fn is_catching_up(self) -> bool {
        matches!(self, Moment::LeadCatchingUp | Moment::StandbyCatchingUp)
    }

    pub fn text(self) -> &'static str {
        match self {
            Moment::AmidWrites => "amid a flush's writes",
            Moment::BeforeList => "between the last write and the list",
            Moment::HalfList => "with a list half sent",
            Moment::LeadOnly => "with a change that only it has had",
            Moment::BeforeSwitch => "amid a move, before the switch",
            Moment::LeadCatchingUp => "amid its new standby's catching up",
            Moment::BeforeTake => "with a list got and not taken",
            Moment::Unacknowledged => "with a change done and not acknowledged",
            Moment::Switched => "amid a move, at the switch",
            Moment::StandbyCatchingUp => "amid its own catching up",
        }
    }
}
