//! What the operations turn down, with the papers' numbers (01, 'What each operation turns down', and 02).

/// A refused call. Its discriminant is the paper's number.
#[derive(Clone, Copy, Debug, PartialEq, Eq, PartialOrd, Ord, Hash)]
#[repr(u8)]
pub enum Refusal {
    /// 01: "1 class not 1 to 3"
    Class = 1,
    /// 01: "2 n not 1 to 32"
    Nodes = 2,
    /// 01: "3 D + b + f > n"
    DecisionOutOfReach = 3,
    /// 01: "4 D too low for the class"
    DecisionTooLow = 4,
    /// 01: "5 own number not below n"
    OwnNumber = 5,
    /// 01: "6 plan 0"
    NoPlan = 6,
    /// 01: "7 record not sound"; also asking outside round 1
    NotSound = 7,
    /// 01: "8 spent"
    Spent = 8,
    /// 01: "9 buffer shorter than the message"
    ShortBuffer = 9,
    /// 01: "10 slice under 9 bytes, length under 9, or length beyond the slice"
    Slice = 10,
    /// 01: "11 kind not 1 to 3"
    Kind = 11,
    /// 01: "12 length not that of the kind"
    Length = 12,
    /// 01: "13 a bound broken, or k above 63"
    Bound = 13,
    /// 01: "14 inbox length not 202n"
    InboxLength = 14,
    /// 02 (C-11): "It refuses with 15 a lookup outside these ranges, tested first."
    Range = 15,
    /// 02 (C-12): "It refuses with 16 a read with a non-zero byte after the length, tested after 13."
    Residue = 16,
    /// 02 (C-13): "It refuses with 17, after 4 wherever a crew is tested, c above n, c ≤ b in class 2, c ≤ 3b + 2f in
    /// class 3, and c other than n in class 1."
    Group = 17,
    /// 02 (C-19): "It refuses with 18 a count outside 1 to 64 or a share buffer of another length,"
    Count = 18,
    /// and "then with 19 a number out of range, writing nothing."
    Amount = 19,
    /// 02 (C-24): "It refuses with 23 a record whose run number is that of the newest held, leaving the window
    /// unchanged."
    SameRun = 23,
}

impl Refusal {
    /// Every refusal, in the order of the numbers.
    pub const ALL: [Refusal; 20] = [
        Refusal::Class,
        Refusal::Nodes,
        Refusal::DecisionOutOfReach,
        Refusal::DecisionTooLow,
        Refusal::OwnNumber,
        Refusal::NoPlan,
        Refusal::NotSound,
        Refusal::Spent,
        Refusal::ShortBuffer,
        Refusal::Slice,
        Refusal::Kind,
        Refusal::Length,
        Refusal::Bound,
        Refusal::InboxLength,
        Refusal::Range,
        Refusal::Residue,
        Refusal::Group,
        Refusal::Count,
        Refusal::Amount,
        Refusal::SameRun,
    ];

    /// The paper's number: 1 to 14 are 01's, 15 to 19 and 23 are 02's. No refusal here has 20 to 22.
    pub const fn number(self) -> u8 {
        self as u8
    }

    /// The refusal with this number, for engines that answer in numbers.
    pub fn from_number(number: u8) -> Option<Refusal> {
        Self::ALL.into_iter().find(|refusal| refusal.number() == number)
    }
}
