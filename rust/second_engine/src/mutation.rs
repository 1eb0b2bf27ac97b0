//! Mutants: wrong engines that the comparison has to tell from the right one. 01's classroom errors are among them.

/// One wrong rule, or none.
#[derive(Clone, Copy, Debug, PartialEq, Eq, Default)]
pub enum Mutation {
    /// The engine of the paper.
    #[default]
    Unmutated,
    /// 01: "A majority of the slots that came, instead of a bound from n, D and b.", in the selection,
    MajorityOfArrivalsSelects,
    /// in the validation,
    MajorityOfArrivalsValidates,
    /// and in the decision.
    MajorityOfArrivalsDecides,
    /// 01: "The newest stamp wins.", in class 1 too, where only Byzantine nodes show a stamp
    NewestStampWins,
    /// 01: "After a failed validation, going back to the plan this node selected.", read as its select,
    BackToOwnSelection,
    /// and as its own history entry at the stamp (the source's line 24).
    BackToOwnHistory,
    /// 01: "Deciding in class 3 on votes with older stamps.", and in class 2
    OldStampsDecide,
    /// 01: "Letting one malformed slot spoil the inbox."
    MalformedSlotSpoils,
    /// Against 01: "Counts are of slots, never of distinct contents."
    DistinctContents,
    /// An engine "that selects properly and then echoes its vote" (01, four questions).
    EchoesVote,
    /// Against 01: "A result stands for good."
    ResultReplaced,
    /// "More than E slots" taken as at least E, where plans are backed or slots possible,
    AtLeastE,
    /// "more than b" as at least b,
    AtLeastB,
    /// the bounds of 'any' likewise,
    AnyAtLeast,
    /// "2 × count > c + b" (02, C-13) as at least c + b,
    HalfValidates,
    /// and "at least D slots" as more than D.
    MoreThanD,
    /// Against 01: "the least plan on a tie", in the selection,
    GreatestOnTie,
    /// and "result becomes the least", in the decision.
    GreatestDecides,
    /// Against 02 (C-18): "the histories as one flat array with a place for each slot and phase". A history stands in
    /// the next slot's place, and is lost where that slot does not count,
    NeighboursHistory,
    /// or where a slot lists nothing, what the slots before it listed there still stands,
    HistoryOfTheSlotBefore,
    /// or an entry stands at the phase after its own.
    EntriesOnePhaseLate,
    /// Against 01: "A slot counts when reading it succeeds and its run, kind and phase are those of the node's coming
    /// round". Slots of another run or phase list all the same,
    ForeignSlotsList,
    /// and, against "a slot that reading refuses is simply absent", so do slots that break a bound, with the entries
    /// before it, or have residue behind them, with all entries.
    RefusedSlotsList,
    /// Against 02 (C-11): "the least D accepted for that n". The D is the least that the next class accepts, where
    /// there is one.
    DOfTheNextClass,
    /// Against "both 0 where n would pass 32". The largest crew is told there, as if it were enough.
    LargestCrewForNone,
    /// Against "a constant table for class 1 to 3, b 0 to 10 and f 0 to 15". The entry is that of the next f,
    EntryOfTheNextF,
    /// or the last f is refused.
    LastFRefused,
    /// Against "It refuses with 15 a lookup outside these ranges, tested first." The b after the last is answered,
    NextBAnswered,
    /// or a class that no crew has is refused with 1, as in accepting a crew.
    ClassRefusedWithOne,
    /// Against 02 (C-12): "Bytes of the slice after a message must now be zero." They are ignored, as they were before,
    ResidueIgnored,
    /// or only the first of them must be zero,
    FirstByteOfResidue,
    /// or those after a decision may be anything.
    ResidueOfDecisions,
    /// Against "It refuses with 16 a read with a non-zero byte after the length, tested after 13." It is tested as soon
    /// as the length is known, before 11, 12 and 13.
    ResidueFirst,
    /// Against 02 (C-13): "the test becomes 2 × count > c + b". It is still 01's, from n.
    ThresholdFromN,
    /// Against "others are silent in round 2 and their slots there don't count". Their slots do count,
    OthersCount,
    /// or they are not silent.
    OthersSpeak,
    /// Against "In a phase the validators are the nodes (phase × c + i) mod n for i below c". They are those of the
    /// next phase, a turn too many,
    TurnOnePhaseOff,
    /// or those of the phase before, a turn too few.
    TurnTooFew,
    /// Against 02 (C-14): "However the turn of C-13 finds the group's first node now, work it out by subtracting". In
    /// each turn the first node is c further on. Where that reaches n, c is subtracted for n, and the group stays where
    /// it is,
    CSubtractedForN,
    /// or where it is n itself, nothing is subtracted: no node has that number, and node 0 is missing.
    OnePastTheCrew,
    /// Against 02 (C-13): "It refuses with 17, after 4 wherever a crew is tested, c above n, c ≤ b in class 2, c ≤ 3b +
    /// 2f in class 3, and c other than n in class 1." It is tested after 3, before 4,
    GroupBeforeQuorum,
    /// or c above n is accepted in classes 2 and 3,
    GroupAboveN,
    /// or c = b in class 2,
    GroupOfB,
    /// or c = 3b + 2f in class 3,
    GroupAtTheBoundOfClassThree,
    /// or the bound of class 3 is without f,
    GroupWithoutF,
    /// or has 2b for 3b,
    GroupOfTwoB,
    /// or in class 1 any c is accepted that is not above n.
    AnyGroupInClassOne,
    /// Against 02 (C-19): "each gets demand × B / T rounded down". It is rounded up, and nothing is left over to give,
    RoundedUp,
    /// or to the nearest, half up, and what is left over then, if anything, goes to the largest remainders.
    RoundedToNearest,
    /// Against "the mA left over go one each to the largest remainders, lower shuttle number on a tie". On a tie the
    /// higher number comes first,
    TiesToTheHigherNumber,
    /// or the smallest remainders do,
    SmallestRemaindersFirst,
    /// or all of them go to the one largest remainder,
    LeftOverToOne,
    /// or one of them goes to nobody,
    OneLeftOverTooFew,
    /// or none goes to anybody.
    LeftOverKept,
    /// Against "It refuses with 18 a count outside 1 to 64 or a share buffer of another length, then with 19 a number
    /// out of range, writing nothing." 19 is tested before 18,
    AmountBeforeCount,
    /// or a longer share buffer is taken, and its front is written,
    LongerBufferTaken,
    /// or the largest demand, 100,000 mA, is refused,
    LargestDemandRefused,
    /// or the shares are cleared where 19 is answered.
    WrittenBeforeRefused,
    /// Against 01: "A slot counts when reading it succeeds and its run, kind and phase are those of the node's coming
    /// round". Where the slots that count are told (02, C-24: "32 marks for the slots that counted"), one of another
    /// run has its mark,
    AnotherRunMarked,
    /// or one of another kind,
    AnotherKindMarked,
    /// or one of another phase,
    AnotherPhaseMarked,
    /// or one that reading refuses for a bound or for residue.
    RefusedSlotMarked,
    /// Against "node q its bit of weight 2 to the q". The marks stand one bit too high,
    MarksOneSlotLate,
    /// or the last slot has the bit of weight 1 and the first the highest.
    MarksFromTheLastSlot,
    /// Marks are told in round 1 alone, as a selection is asked for, and refused with 7 in the others.
    MarksInRoundOneAlone,
    /// Against 02 (C-24): "The window holds the newest 100". It holds one fewer,
    NinetyNineHeld,
    /// or one more.
    HundredAndOneHeld,
    /// Against "Adding to a full window drops the oldest". It keeps what it has and loses the new one.
    NewestDropped,
    /// Against "for each node, how many of them miss it". Those are counted that have it.
    PresenceCounted,
    /// Against "It refuses with 23 a record whose run number is that of the newest held, leaving the window unchanged."
    /// The number of any record held is refused,
    AnyHeldRunRefused,
    /// or that of the oldest held,
    OldestRunCompared,
    /// or 0 where nothing is held,
    EmptyWindowRefusesRunZero,
    /// or a refused record is added all the same.
    RefusedRecordAdded,
    /// Against "prints the 32 counts after each, refused ones too". A refused record prints nothing.
    NoLineForRefused,
    /// Against "8 bytes each (run, then marks as one number, node q its bit of weight 2 to the q; a remnant is
    /// dropped)". The numbers' first byte is the highest,
    BigEndianRecords,
    /// or the marks stand before the run,
    MarksBeforeRun,
    /// or node q has the bit of weight 2 to the 31 - q,
    MarksReadFromTheOtherEnd,
    /// or a remnant is filled up with zeros and taken.
    RemnantTaken,
    /// Against "the first 1,000,000 at most". It takes one more,
    OneRecordTooMany,
    /// or refused ones are not among them.
    RefusedRecordsNotCounted,
}

impl Mutation {
    /// Every mutant with a wrong rule in the rounds, which shows in runs and drills too. The engine of the paper is not
    /// among them.
    pub const MUTANTS_OF_ROUNDS: [Mutation; 23] = [
        Mutation::MajorityOfArrivalsSelects,
        Mutation::MajorityOfArrivalsValidates,
        Mutation::MajorityOfArrivalsDecides,
        Mutation::NewestStampWins,
        Mutation::BackToOwnSelection,
        Mutation::BackToOwnHistory,
        Mutation::OldStampsDecide,
        Mutation::MalformedSlotSpoils,
        Mutation::DistinctContents,
        Mutation::EchoesVote,
        Mutation::ResultReplaced,
        Mutation::AtLeastE,
        Mutation::AtLeastB,
        Mutation::AnyAtLeast,
        Mutation::HalfValidates,
        Mutation::MoreThanD,
        Mutation::GreatestOnTie,
        Mutation::GreatestDecides,
        Mutation::NeighboursHistory,
        Mutation::HistoryOfTheSlotBefore,
        Mutation::EntriesOnePhaseLate,
        Mutation::ForeignSlotsList,
        Mutation::RefusedSlotsList,
    ];

    /// Every mutant with a wrong lookup in the table of least crews, which shows nowhere else.
    pub const MUTANTS_OF_LOOKUPS: [Mutation; 6] = [
        Mutation::DOfTheNextClass,
        Mutation::LargestCrewForNone,
        Mutation::EntryOfTheNextF,
        Mutation::LastFRefused,
        Mutation::NextBAnswered,
        Mutation::ClassRefusedWithOne,
    ];

    /// Every mutant with a wrong rule in reading, which shows in rounds and runs too, and not in drills, where every
    /// slot is made anew.
    pub const MUTANTS_OF_READING: [Mutation; 4] = [
        Mutation::ResidueIgnored,
        Mutation::FirstByteOfResidue,
        Mutation::ResidueOfDecisions,
        // This one shows in reading alone: under either number the slot is absent.
        Mutation::ResidueFirst,
    ];

    /// Every mutant with a wrong rule in whose turn it is to validate, or in what follows from it. They show in runs
    /// and schedules too, and some in drills.
    pub const MUTANTS_OF_TURNS: [Mutation; 7] = [
        Mutation::ThresholdFromN,
        Mutation::OthersCount,
        Mutation::TurnOnePhaseOff,
        Mutation::TurnTooFew,
        Mutation::CSubtractedForN,
        Mutation::OnePastTheCrew,
        // This one shows in what is written alone: nobody hears it.
        Mutation::OthersSpeak,
    ];

    /// Every mutant with a wrong rule in accepting a crew's group size, which shows wherever a crew is tested, and not
    /// in runs and schedules, whose crews are accepted.
    pub const MUTANTS_OF_CREWS: [Mutation; 7] = [
        Mutation::GroupBeforeQuorum,
        Mutation::GroupAboveN,
        Mutation::GroupOfB,
        Mutation::GroupAtTheBoundOfClassThree,
        Mutation::GroupWithoutF,
        Mutation::GroupOfTwoB,
        Mutation::AnyGroupInClassOne,
    ];

    /// Every mutant with a wrong rule in splitting the rail's current, which shows nowhere else.
    pub const MUTANTS_OF_SPLITS: [Mutation; 11] = [
        Mutation::RoundedUp,
        Mutation::RoundedToNearest,
        Mutation::TiesToTheHigherNumber,
        Mutation::SmallestRemaindersFirst,
        Mutation::LeftOverToOne,
        Mutation::OneLeftOverTooFew,
        Mutation::LeftOverKept,
        Mutation::AmountBeforeCount,
        Mutation::LongerBufferTaken,
        Mutation::LargestDemandRefused,
        Mutation::WrittenBeforeRefused,
    ];

    /// Every mutant with a wrong rule in telling the slots that count, which shows nowhere else. Some mutants of rounds
    /// and of reading show there too.
    pub const MUTANTS_OF_MARKS: [Mutation; 7] = [
        Mutation::AnotherRunMarked,
        Mutation::AnotherKindMarked,
        Mutation::AnotherPhaseMarked,
        Mutation::RefusedSlotMarked,
        Mutation::MarksOneSlotLate,
        Mutation::MarksFromTheLastSlot,
        Mutation::MarksInRoundOneAlone,
    ];

    /// Every mutant with a wrong rule in the window over finished runs or in the program over it, which shows nowhere
    /// else.
    pub const MUTANTS_OF_ABSENCE: [Mutation; 15] = [
        Mutation::NinetyNineHeld,
        Mutation::HundredAndOneHeld,
        Mutation::NewestDropped,
        Mutation::PresenceCounted,
        Mutation::AnyHeldRunRefused,
        Mutation::OldestRunCompared,
        Mutation::EmptyWindowRefusesRunZero,
        Mutation::RefusedRecordAdded,
        Mutation::NoLineForRefused,
        Mutation::BigEndianRecords,
        Mutation::MarksBeforeRun,
        Mutation::MarksReadFromTheOtherEnd,
        Mutation::RemnantTaken,
        // These two show only where an input passes the limit.
        Mutation::OneRecordTooMany,
        Mutation::RefusedRecordsNotCounted,
    ];
}
