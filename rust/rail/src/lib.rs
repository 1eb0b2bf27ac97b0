//! The proved engine for Rust programs: safe functions over its archive (docs/LINKING.md), on numbers and lent slices.
//! A record is kept as its image of 150 bytes. Anything may be lent: lengths and contents are tested behind the call.

mod calls;

/// How many bytes a record's image has.
pub const RECORD: usize = 150;
/// How many bytes the fields of a read message have.
pub const FIELDS: usize = 10;
/// How many bytes an inbox has for each node. A buffer of so many is long enough for every message.
pub const SLOT: usize = 202;
/// What asking answers for 'any', which is no plan's number; 0 is 'none'.
pub const ANY: u64 = 1 << 32;
/// The value of an entry is this times its phase, plus its plan.
pub const ENTRY_PHASE: u64 = 1 << 32;
/// The value of a least crew is this times its n, plus its D.
pub const LEAST_N: u64 = 1 << 8;
/// How many shuttles a split has at most.
pub const MOST_SHUTTLES: usize = 64;
/// The highest demand of a shuttle, in mA.
pub const MOST_DEMAND: u32 = 100_000;
/// The highest budget, in mA.
pub const MOST_BUDGET: u32 = 1_000_000;

/// The number of a refusal: 01's 1 to 14, 02's 15 to 19, or one of the three below.
#[derive(Clone, Copy, Debug, PartialEq, Eq)]
pub struct Refused(pub u8);

impl Refused {
    /// The record's slice is not 150 bytes long. This is tested before everything else.
    pub const WRONG_RECORD: Refused = Refused(25);
    /// The fields' slice is not 10 bytes long. This is tested before everything else.
    pub const WRONG_FIELDS: Refused = Refused(26);
    /// The message has no such entry.
    pub const NO_ENTRY: Refused = Refused(27);
}

/// A value below 2^56, or the refusal; where a call is refused, nothing that was lent is written.
pub type Answer = Result<u64, Refused>;

/// An answer is a value, or 2^56 times the number of a refusal.
fn answer(number: u64) -> Answer {
    match (number >> 56) as u8 {
        0 => Ok(number),
        refused => Err(Refused(refused)),
    }
}

/// Accepts a crew: class, n, b, f, D, c.
pub fn accept(crew: [u8; 6]) -> Answer {
    answer(calls::accept(crew))
}

/// The smallest crew of a class, b and f, for planners: `LEAST_N` times the least n that any D lets be accepted, plus
/// the least D for that n; 0 where n would pass 32.
pub fn least(class: u8, b: u8, f: u8) -> Answer {
    answer(calls::least(class, b, f))
}

/// Starts a node and writes its record's image.
pub fn start(crew: [u8; 6], own: u8, run: u32, plan: u16, record: &mut [u8]) -> Answer {
    answer(calls::start(crew, own, run, plan, record))
}

/// Writes the coming message to the buffer's front; the value is its length, 0 for silence: in round 2 a node is silent
/// that selected nothing, or that does not validate in this phase. Bytes behind the message keep their values, and
/// where they are not 0 reading them along with it is refused.
pub fn write(record: &[u8], buffer: &mut [u8]) -> Answer {
    answer(calls::write(record, buffer))
}

/// Takes the coming round: the image becomes the next record's.
pub fn take(record: &mut [u8], inbox: &[u8]) -> Answer {
    answer(calls::take(record, inbox))
}

/// Asks for the coming selection; the value is a plan, 0 for 'none' or `ANY`.
pub fn ask(record: &[u8], inbox: &[u8]) -> Answer {
    answer(calls::ask(record, inbox))
}

/// The slots that count in the coming round, whichever it is, as one number of 32 bits: slot q its bit of weight 2 to
/// the q. Told with the inbox of the round that decided, before that is taken, it is the marks of the run's record,
/// from which absences are counted.
pub fn marks(record: &[u8], inbox: &[u8]) -> Answer {
    answer(calls::marks(record, inbox))
}

/// The record's standing result, 0 before it has one.
pub fn result(record: &[u8]) -> Answer {
    answer(calls::result(record))
}

/// Reads the message at the front of a slice and lays its fields out. The bytes behind it have to be 0: a message that
/// is in order but for them is refused with 16.
pub fn read(bytes: &[u8], fields: &mut [u8]) -> Answer {
    answer(calls::read(bytes, fields))
}

/// Entry i of the message at the front of a slice: `ENTRY_PHASE` times its phase, plus its plan. Where `read` refuses
/// the message, this refuses with the same number.
pub fn entry(bytes: &[u8], i: usize) -> Answer {
    answer(calls::entry(bytes, i))
}

/// Splits a budget among shuttles, all in mA, and writes the share of each at the place of its demand: the demand where
/// the budget is enough for all, else so much that the shares sum to exactly the budget. There are 1 to `MOST_SHUTTLES`
/// demands, none above `MOST_DEMAND`, as many shares, and a budget of at most `MOST_BUDGET`.
pub fn split(demands: &[u32], budget: u32, shares: &mut [u32]) -> Answer {
    answer(calls::split(demands, budget, shares))
}
