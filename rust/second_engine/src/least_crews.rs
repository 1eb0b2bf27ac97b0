//! The table of least crews, in which planners look before cable is ordered (02, C-11). No table is stored and no
//! formula is used: each entry is searched for among all crews. Builds on crews.
//! Every rule takes the mutation that makes it wrong; the public operation passes none.

use crate::crew::Crew;
use crate::mutation::Mutation;
use crate::refusal::Refusal;

/// The table's ranges. 02: "for class 1 to 3, b 0 to 10 and f 0 to 15"
pub const LAST_CLASS: u8 = 3;
pub const LAST_B: u8 = 10;
pub const LAST_F: u8 = 15;

/// An entry of the table.
#[derive(Clone, Copy, Debug, PartialEq, Eq)]
pub struct LeastCrew {
    pub n: u8,
    /// 02's D
    pub d: u8,
}

impl LeastCrew {
    /// 02: "both 0 where n would pass 32"
    pub const NONE: LeastCrew = LeastCrew { n: 0, d: 0 };
}

/// Looks up the least crew of this class, b and f.
pub fn least(class: u8, b: u8, f: u8) -> Result<LeastCrew, Refusal> {
    least_mutated(class, b, f, Mutation::Unmutated)
}

/// As `least`, with a wrong rule.
pub fn least_mutated(class: u8, b: u8, f: u8, mutation: Mutation) -> Result<LeastCrew, Refusal> {
    check(class, b, f, mutation)?;
    let found = match mutation {
        Mutation::EntryOfTheNextF => search(class, b, f + 1, mutation),
        _ => search(class, b, f, mutation),
    };
    Ok(match found {
        Some(entry) => entry,
        None if mutation == Mutation::LargestCrewForNone => largest(b, f),
        None => LeastCrew::NONE,
    })
}

/// 02: "It refuses with 15 a lookup outside these ranges, tested first."
fn check(class: u8, b: u8, f: u8, mutation: Mutation) -> Result<(), Refusal> {
    let (last_b, last_f) = match mutation {
        Mutation::NextBAnswered => (LAST_B + 1, LAST_F),
        Mutation::LastFRefused => (LAST_B, LAST_F - 1),
        _ => (LAST_B, LAST_F),
    };
    let is_class = (1..=LAST_CLASS).contains(&class);
    if mutation == Mutation::ClassRefusedWithOne && !is_class {
        return Err(Refusal::Class);
    }
    if !is_class || b > last_b || f > last_f {
        return Err(Refusal::Range);
    }
    Ok(())
}

/// 02: "the least n that any D lets be accepted, and the least D accepted for that n"
fn search(class: u8, b: u8, f: u8, mutation: Mutation) -> Option<LeastCrew> {
    let n = (0..=u8::MAX).find(|&n| least_d(class, n, b, f).is_some())?;
    let class_of_d = match mutation {
        Mutation::DOfTheNextClass => LAST_CLASS.min(class + 1),
        _ => class,
    };
    let d = least_d(class_of_d, n, b, f)?;
    Some(LeastCrew { n, d })
}

/// The least D that lets n be accepted, if any does. All nodes validate in these crews: 02 (C-13), "With c = n the
/// cases of 01 and the table of C-11 stand."
fn least_d(class: u8, n: u8, b: u8, f: u8) -> Option<u8> {
    (0..=u8::MAX).find(|&d| Crew::whole(class, n, b, f, d).is_accepted())
}

/// A mutant's rule: the most nodes, with the highest D that they reach.
fn largest(b: u8, f: u8) -> LeastCrew {
    let n = Crew::MOST_NODES as u8;
    LeastCrew { n, d: n - b - f }
}
