//! The table of least crews (02, C-11): entries worked out by hand, the lookups that are refused, what holds of all
//! entries, and for each wrong engine a lookup that it answers otherwise.

use second_engine::least_crews::{least, least_mutated, LeastCrew, LAST_B, LAST_CLASS, LAST_F};
use second_engine::Mutation::*;
use second_engine::{Crew, Refusal};

/// The answer to a lookup with this n and D.
const fn told(n: u8, d: u8) -> Result<LeastCrew, Refusal> {
    Ok(LeastCrew { n, d })
}

/// Every lookup in the table's ranges, with its entry.
fn table() -> impl Iterator<Item = ((u8, u8, u8), LeastCrew)> {
    let lookups =
        (1..=LAST_CLASS).flat_map(|class| (0..=LAST_B).flat_map(move |b| (0..=LAST_F).map(move |f| (class, b, f))));
    lookups.map(|(class, b, f)| ((class, b, f), least(class, b, f).expect("the lookup is in the ranges")))
}

/// By 01's inequalities: D + b + f ≤ n, and D high enough for the class.
#[test]
fn entries_worked_out_by_hand() {
    let entries = [
        // Nothing to fear: a crew of one.
        ((1, 0, 0), (1, 1)),
        ((2, 0, 0), (1, 1)),
        ((3, 0, 0), (1, 1)),
        // One node that is not honest. Class 1: 2D > n + 3 and D + 1 ≤ n, so n > 5. Class 2: D > 3. Class 3: D > 2.
        ((1, 1, 0), (6, 5)),
        ((2, 1, 0), (5, 4)),
        ((3, 1, 0), (4, 3)),
        // The largest crews, and one step beyond them. Class 1: 2(n − b − f) ≥ 2D > n + 3b + f, so n > 5b + 3f.
        ((1, 0, 10), (31, 21)),
        ((1, 0, 11), (0, 0)),
        ((1, 1, 10), (0, 0)),
        ((1, 2, 7), (32, 23)),
        ((1, 2, 8), (0, 0)),
        ((1, 3, 7), (0, 0)),
        // Class 2: D > 3b + f, so n > 4b + 2f.
        ((2, 7, 1), (31, 23)),
        ((2, 7, 2), (0, 0)),
        ((2, 8, 1), (0, 0)),
        // Class 3: D > 2b + f, so n > 3b + 2f.
        ((3, 0, 15), (31, 16)),
        ((3, 1, 15), (0, 0)),
        ((3, 10, 0), (31, 21)),
        ((3, 10, 1), (0, 0)),
    ];
    for ((class, b, f), (n, d)) in entries {
        assert_eq!(least(class, b, f), told(n, d), "class {class}, b {b}, f {f}");
    }
}

#[test]
fn lookups_outside_the_ranges_are_refused() {
    let refused = Err(Refusal::Range);
    // A class that no crew has is 15 too, and never 1.
    for class in [0, 4, 255] {
        assert_eq!(least(class, 1, 1), refused, "class {class}");
        assert_eq!(least(class, 255, 255), refused, "class {class}");
    }
    for class in 1..=LAST_CLASS {
        for (b, f) in [(11, 0), (255, 0), (0, 16), (0, 255), (11, 16), (255, 255)] {
            assert_eq!(least(class, b, f), refused, "class {class}, b {b}, f {f}");
        }
        // The last of the ranges are answered.
        for (b, f) in [(10, 0), (0, 15), (10, 15)] {
            assert!(least(class, b, f).is_ok(), "class {class}, b {b}, f {f}");
        }
    }
}

/// 02: "Shown once over all 528 entries: the entry's crew is accepted, and none with a lower n, or with that n and a
/// lower D; where it is 0, none is."
#[test]
fn every_entry_is_the_least() {
    let (mut entries, mut crews) = (0, 0);
    for ((class, b, f), entry) in table() {
        let is_accepted = |n, d| Crew::whole(class, n, b, f, d).is_accepted();
        if entry == LeastCrew::NONE {
            assert!(!(0..=255).any(|n| (0..=255).any(|d| is_accepted(n, d))), "class {class}, b {b}, f {f}");
        } else {
            assert!(is_accepted(entry.n, entry.d), "class {class}, b {b}, f {f}");
            assert!(!(0..entry.n).any(|n| (0..=255).any(|d| is_accepted(n, d))), "class {class}, b {b}, f {f}");
            assert!(!(0..entry.d).any(|d| is_accepted(entry.n, d)), "class {class}, b {b}, f {f}");
            crews += 1;
        }
        entries += 1;
    }
    assert_eq!((entries, crews), (528, 210));
}

/// What the search comes to: the least n is the bound of the class, and D all nodes but b and f.
#[test]
fn every_entry_is_that_of_the_closed_forms() {
    for ((class, b, f), entry) in table() {
        let n = match class {
            1 => 5 * b + 3 * f + 1,
            2 => 4 * b + 2 * f + 1,
            _ => 3 * b + 2 * f + 1,
        };
        let expected = if n > 32 { LeastCrew::NONE } else { LeastCrew { n, d: n - b - f } };
        assert_eq!(entry, expected, "class {class}, b {b}, f {f}");
    }
}

#[test]
fn each_wrong_engine_answers_otherwise() {
    let cases = [
        // 2D > n + 3b + f asks for 5 of 6, D > 3b + f for 4 only.
        (DOfTheNextClass, (1, 1, 0), told(6, 5), told(6, 4)),
        (LargestCrewForNone, (3, 10, 1), told(0, 0), told(32, 21)),
        (EntryOfTheNextF, (3, 1, 0), told(4, 3), told(6, 4)),
        (LastFRefused, (3, 0, 15), told(31, 16), Err(Refusal::Range)),
        (NextBAnswered, (3, 11, 0), Err(Refusal::Range), told(0, 0)),
        (ClassRefusedWithOne, (4, 0, 0), Err(Refusal::Range), Err(Refusal::Class)),
    ];
    for (mutation, (class, b, f), right, wrong) in cases {
        assert_eq!(least(class, b, f), right, "the engine, where {mutation:?} answers {wrong:?}");
        assert_eq!(least_mutated(class, b, f, mutation), wrong, "{mutation:?}");
    }
}
