//! Places of the rules and of the runs, and how often they were reached.

/// An enum of places, each with its words, and a struct that counts them.
macro_rules! places {
    ($place:ident in $reached:ident: $($name:ident $words:literal,)*) => {
        #[derive(Clone, Copy)]
        pub enum $place { $($name,)* }

        #[derive(Clone, Debug)]
        pub struct $reached([u64; $reached::NAMES.len()]);

        impl Default for $reached {
            fn default() -> $reached {
                $reached([0; $reached::NAMES.len()])
            }
        }

        impl $reached {
            const NAMES: &[&str] = &[$($words,)*];

            pub fn mark(&mut self, place: $place) {
                self.0[place as usize] += 1;
            }

            pub fn mark_when(&mut self, place: $place, when: bool) {
                if when {
                    self.mark(place);
                }
            }

            pub fn add(&mut self, other: &$reached) {
                for (mine, others) in self.0.iter_mut().zip(other.0) {
                    *mine += others;
                }
            }

            /// Each place's name and how often it was reached.
            pub fn iter(&self) -> impl Iterator<Item = (&'static str, u64)> + '_ {
                $reached::NAMES.iter().copied().zip(self.0)
            }
        }
    };
}

// What the rules do.
places! { Place in Reached:
    Hit "hit counted",
    Miss "miss counted",
    ReaderJoins "reader joins readers",
    EpochEnd "epoch's end",
    FullByExceeded "full: by exceeding alone",
    FullByExceededRise "  and the maximum rises",
    FullByHeld "full: by held bytes alone",
    FullByHeldJust "  with no byte above it",
    FullByHeldRise "  and the maximum rises",
    FullByBoth "full: by both",
    NotFull "full: by neither, no increase",
    NotFullByOne "  one byte below the maximum",
    Increase "increase: the maximum rises",
    IncreaseCapped "increase: cut by its cap",
    IncreaseToNothing "increase: cut to nothing",
    ThresholdDecrease "decrease by threshold",
    AgeOut "age-out",
    AgeOutEvict "age-out: entry evicted",
    AgeOutWrite "age-out: written before (alone)",
    AgeOutKept "age-out: dirty entry kept (lead, standby)",
    AgeOutWithThreshold "age-out with threshold: the maximum falls",
    ReserveOne "age-out: reserve 1",
    Decrease "decrease: the maximum falls",
    DecreaseToMinimum "decrease: raised to minimum size",
    DecreaseCapped "decrease: raised by its cap",
    DecreaseToNothing "decrease: cut to nothing",
    FlashRise "flash: the maximum rises",
    FlashToLimit "flash: cut by maximum size",
    FlashNoRise "flash: no rise",
    SetToAnother "settings: the maximum set to another",
    SetToTheSame "settings: the maximum set to the same",
    BroughtIntoRange "settings: the maximum brought into its range",
    KeptInRange "settings: the maximum in its range",
    RoomByBytes "room: bytes press",
    RoomByRows "room: rows press",
    RoomByBoth "room: both press",
    RoomEvict "room: entry evicted",
    TailMoved "room: dirty tail written and moved",
    NothingToGive "room: nothing to give",
    ExceededSet "exceeded: set",
    ExceededByOne "  by one byte",
    ExceededForNothing "  by room for nothing",
    ExceededNothingToGive "  with nothing to evict",
    JustFits "exceeded: not set, bytes just fit",
    RowsAlone "exceeded: not set, rows press without bytes",
    OffAbove "exceeded: not set, evictions off",
    ResizeAbove "exceeded: not set, resize above the maximum",
    SyncAbove "exceeded: not set, sync above the maximum",
    KeptByFlash "exceeded: kept by a flash without a rise",
    ClearedByFlash "exceeded: cleared by a flash",
    ClearedByEpoch "exceeded: cleared by an epoch's end",
    ClearedByConfigure "exceeded: cleared by configure",
    SetAfterFlash "exceeded: set by room after a flash",
    SetAgainAfterFlash "  cleared before, in the same request",
    SetAfterEpoch "exceeded: set by room at an epoch's end",
    SetAgainAfterEpoch "  cleared before, in the same request",
    SetAfterConfigure "exceeded: set by room after configure",
    SetAgainAfterConfigure "  cleared before, in the same request",
    ShareWrite "clean share: entry written",
    ShareUnmet "clean share: unmet, none left",
    CountStopped "byte count at its stop",
    Sent "number used by a lead's list",
    SentEmpty "  by an empty one",
    SentLast "  the last number",
    Taken "number used by a standby's taking",
    TakenEmpty "  of an empty list",
    TakenLast "  the last number",
}

// What came into tables from outside.
places! { TablePlace in TableReached:
    StateExceeded "states with exceeded set",
    StateExceededFresh "  and no access counted",
    StateExceededOff "  and evictions off",
    StateExceededBelow "  and held bytes below the maximum",
    StateClear "states with exceeded clear",
    StateClearAbove "  and held bytes above the maximum",
    ExceededFlipped "damaged: exceeded from 0 to 1 or back",
    ExceededNoFlag "damaged: exceeded neither 0 nor 1",
    ExceededAllOnes "  but all ones",
    VersionBefore "damaged: the version before",
    LayoutBefore "damaged: the layout before",
}

// What the reports told of the bytes that the clean share lacks.
places! { MissingPlace in MissingReached:
    Missing "reports of bytes missing",
    MissingAlone "  alone",
    MissingLead "  of a lead",
    MissingStandby "  of a standby",
    MissingEvictionsOff "  with evictions off",
    MissingAboveMaximum "  with held bytes above the maximum",
    MissingNoneDirty "  with nothing dirty in the recency list",
    MissingOffList "  with clean bytes held or pinned",
    MissingOne "  of one byte",
    NoneMissing "reports of none missing",
    JustMet "  and not a byte to spare",
    MetAboveMaximum "  with held bytes above the maximum",
    ReportRefused "reports refused",
}

// What messages are, and where no number is left.
places! { MessagePlace in MessageReached:
    AtLimitTaken "messages of 4,096 addresses, taken",
    AboveLimit "messages above 4,096 addresses",
    JustAbove "  of 4,097",
    Longest "  of 65,535",
    AboveEndsEarly "  refused 14",
    AboveWrongByte "  refused 15",
    AboveNumber "  refused 16",
    AboveAllOnes "  refused 3",
    AllOnesBeyond "    all ones only beyond the 4,096th",
    AboveNotDirty "  refused 13",
    Nothing "messages of no byte",
    NumberBefore "messages with the number before the next",
    NumberAfter "messages with the number after the next",
    NumberZero "messages with number 0",
    NumberFirst "wrong number and all ones: refused 16",
    NoneLeftTake "no number left: take",
    NoneLeftZero "  of number 0",
    NoneLeftFlush "no number left: flush of a lead",
    NoneLeftHeld "  refused 8",
    NoneLeftShort "  refused 2",
    NoneLeftSync "no number left: sync of a lead",
    NoneLeftSyncShort "  refused 2",
    NoneLeftAlone "no number left: flush alone, accepted",
}

// What the writer was asked for.
places! { WriterPlace in WriterReached:
    Written "messages written",
    WrittenExactly "  into exactly enough bytes",
    WrittenInMore "  into more",
    WrittenEmpty "  of no address",
    WrittenLongest "  of 65,535 addresses",
    WrittenAllOnes "  with all ones among the addresses",
    WrittenZero "  with number 0",
    FewBytes "refused 2",
    OneByteFewer "  one byte too few",
    NoBytes "  no bytes lent",
    FewAndLong "  above 65,535 addresses",
    LongList "refused 15",
    JustTooLong "  65,536 addresses",
    ReadBack "messages written and then taken",
    ReadBackMost "  of 4,096 addresses",
}

// What was asked about and not done. Besides, every request is asked about before it is done.
places! { AskPlace in AskReached:
    Asked "requests asked about and not done",
    ToldYes "  that would be accepted",
    ToldRefusal "  that would be refused",
    NoWords "  with no order words",
    OneTooFew "  with one order word too few",
    Enough "  with exactly enough",
    MoreThanEnough "  with more",
    OfShort "  of a table that is too short",
    OfDamaged "  of a table that is no cache",
}

// What requests were explained. Few are words that do not suffice for every request.
places! { ExplainPlace in ExplainReached:
    Explained "requests explained",
    JustEnoughReasons "  with exactly enough reason words",
    MoreReasons "  with more",
    EveryReasonWord "  with 2 x rows + 1 orders",
    NoReasonsNeeded "  accepted with few: it can give no orders",
    UnknownFewReasons "  refused 5 with few: an unknown kind",
    FewReasons "  refused 2 for reason words alone",
    OneReasonFewer "    one too few",
    NoReasonWords "    none lent",
    FewReasonsFirst "    where a step would be refused otherwise",
    FewOrderWords "  refused 2 for order words alone",
    FewOfBoth "  refused 2 for both",
    ExplainShort "  of a table that is too short",
    ExplainDamaged "  of a table that is no cache",
}

// What batches did. A request is refused inside if one behind it is accepted.
places! { BatchPlace in BatchReached:
    Batch "batches",
    AllAnswered "  with every request answered",
    OrdersOfMany "    with orders of two requests or more",
    NoRequest "    of no request",
    StoppedForOrders "  stopped for order words",
    ForOrdersAtFirst "    before the first request",
    ForOrdersAfterSome "    after some",
    StoppedForAnswers "  stopped for answer words",
    ForAnswersAtFirst "    before the first request",
    ForAnswersAfterSome "    after some",
    RestGoneOnWith "  of what one that had stopped left",
    BatchOfDamaged "  of a table that is no cache",
    BatchOfShort "  of a table that is too short",
    PartOfRequest "  with a part of a request at the end",
    RefusedInside "  with a request refused inside",
    LastNumberInside "  in which the last number was used",
    BatchRequest "requests in batches",
    BatchAccepted "  accepted",
    BatchRefused "  refused",
    BatchNoneLeft "    flush or sync, no number left",
    BatchTake "    take",
    BatchConfigure "    configure",
    BatchUnknown "    of an unknown kind",
}

// What a lead and a standby do.
places! { PairPlace in PairReached:
    SharedAccepted "shared changes that both accepted",
    StandbyFirst "  the standby first",
    RequestsBetween "  with requests between the halves",
    MadeReady "  which one of these made both accept",
    SharedRefused "shared changes that both refused",
    SharedKeptBack "shared changes kept back: one would refuse",
    AskedOfBoth "shared changes asked of both",
    BothSayYes "  both say yes, and then accept it",
    YesStandbyFirst "    the standby first",
    YesRequestsBetween "    with requests between the halves",
    LocalHelped "    after a local request that helped",
    ListHelped "    after a list that helped",
    DiscardHelped "    after a discard at both that helped",
    BothWouldRefuse "  both would refuse",
    LeadAlone "  the lead alone would refuse",
    StandbyAlone "  the standby alone would refuse",
    AloneNotInCache "    one alone with 6, not in the cache",
    AloneInCache "    one alone with 7, in the cache",
    AloneHeld "    one alone with 8, held",
    AloneNotHeld "    one alone with 9, not held",
    AlonePinned "    one alone with 10, pinned",
    AloneNoRow "    one alone with 11, no row",
    ListTaken "lists taken as messages",
    RequestsBeforeTaking "  with requests between list and taking",
    LastTaken "  with the last number",
    Local "local requests",
    LeadBetween "  of the lead between the halves",
    StandbyBetween "  of the standby between the halves",
    LeadBeforeTaking "  of the lead between list and taking",
    StandbyBeforeTaking "  of the standby between list and taking",
    Refused "requests refused",
    RefusedBetween "  between the halves",
    RefusedBeforeTaking "  between list and taking",
    FlushRefusedByLead "  flush or sync, by the lead",
    NoneLeftToSend "    no number left",
    TakeByLead "  take, by the lead",
    FlushByStandby "  flush, by the standby",
    SyncByStandby "  sync, by the standby",
    MessageWithAllOnes "  take of all ones, by the standby",
    MessageWithTwice "  take of an address twice, by the standby",
    MessageWithClean "  take of what is not dirty, by the standby",
    MessageCut "  take of a cut message, by the standby",
    MessageDamaged "  take of a message with a wrong byte",
    TakenBefore "  take of a message taken before",
    TakenBeforeFirst "    while another waits",
    Later "  take of a later message",
    LaterFirst "  take of a later message while another waits",
    OtherNumber "  take of a message with another number",
    NoneLeftToTake "  take where no number is left",
    WrongMessageFirst "  take of a wrong message before the right one",
    Settled "settled points that agree with the ledger",
    SettledDirty "  with dirty records",
    SettledDue "  with a list due",
    SettledNoneLeft "  with no number left",
}
