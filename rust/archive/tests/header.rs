//! include/rail.h says the same as the rest: its offsets are those of the layout in `image`, and its numbers those of
//! the crates `rail` and `second_engine`.

use archive::image;
use rail::Refused;
use second_engine::{current, Body, Crew, Message, Node, Refusal};
use std::collections::BTreeMap;

/// The header's macros that are numbers.
fn numbers() -> BTreeMap<&'static str, usize> {
    let text = include_str!("../../../include/rail.h");
    let number = |line: &'static str| {
        let mut words = line.strip_prefix("#define ")?.split_whitespace();
        let (name, text) = (words.next()?, words.next()?);
        // A number of more than 32 bits stands in C's macro for it.
        let digits = text.strip_prefix("UINT64_C(").and_then(|rest| rest.strip_suffix(')')).unwrap_or(text);
        Some((name, digits.parse().ok()?))
    };
    text.lines().filter_map(number).collect()
}

/// Each field has bytes that no other has, so that an offset finds its own.
const NODE: Node = Node {
    crew: Crew { class: 1, n: 2, b: 3, f: 4, d: 5, c: 24 },
    own: 6,
    run: 0x0a09_0807,
    phase: 11,
    round: 12,
    vote: 0x0e0d,
    base: 0x100f,
    stamp: 17,
    select: 0x1312,
    result: 0x1514,
    history: [0x1716; Node::ENTRIES],
};

#[test]
fn offsets_are_those_of_the_layout() {
    let record = image::of(&NODE);
    let message = Message { run: 0x0504_0302, phase: 6, body: Body::Selection { vote: 0x0807, stamp: 9, k: 10 } };
    let mut fields = image::fields_of(&message);
    // The kind is 1, as it should be; it stands before the others.
    assert_eq!(fields[0], 1);
    fields[0] = 200;
    let places = [
        ("RAIL_RECORD_CLASS", record.as_slice(), 1),
        ("RAIL_RECORD_N", &record, 2),
        ("RAIL_RECORD_B", &record, 3),
        ("RAIL_RECORD_F", &record, 4),
        ("RAIL_RECORD_D", &record, 5),
        ("RAIL_RECORD_C", &record, 24),
        ("RAIL_RECORD_OWN", &record, 6),
        ("RAIL_RECORD_RUN", &record, 7),
        ("RAIL_RECORD_PHASE", &record, 11),
        ("RAIL_RECORD_ROUND", &record, 12),
        ("RAIL_RECORD_VOTE", &record, 13),
        ("RAIL_RECORD_BASE", &record, 15),
        ("RAIL_RECORD_STAMP", &record, 17),
        ("RAIL_RECORD_SELECT", &record, 18),
        ("RAIL_RECORD_RESULT", &record, 20),
        ("RAIL_RECORD_HISTORY", &record, 22),
        ("RAIL_FIELDS_KIND", &fields, 200),
        ("RAIL_FIELDS_RUN", &fields, 2),
        ("RAIL_FIELDS_PHASE", &fields, 6),
        ("RAIL_FIELDS_PLAN", &fields, 7),
        ("RAIL_FIELDS_STAMP", &fields, 9),
        ("RAIL_FIELDS_COUNT", &fields, 10),
    ];
    let numbers = numbers();
    for (name, bytes, byte) in places {
        assert_eq!(bytes[numbers[name]], byte, "{name}");
        assert_eq!(bytes.iter().position(|&other| other == byte), Some(numbers[name]), "{name}");
    }
    let lengths = [("RAIL_RECORD", rail::RECORD), ("RAIL_FIELDS", rail::FIELDS), ("RAIL_SLOT", rail::SLOT)];
    let asked = [("RAIL_NONE", 0), ("RAIL_ANY", rail::ANY as usize)];
    for (name, number) in lengths.into_iter().chain(asked) {
        assert_eq!(numbers[name], number, "{name}");
    }
    // With the limits and the refusals this is every number of the header.
    assert_eq!(numbers.len(), places.len() + lengths.len() + asked.len() + limits().len() + refusals().len());
}

/// The limits of a split, each in the crate `rail` and in the second engine.
fn limits() -> [(&'static str, [usize; 2]); 3] {
    [
        ("RAIL_MOST_SHUTTLES", [rail::MOST_SHUTTLES, current::MOST_SHUTTLES]),
        ("RAIL_MOST_DEMAND", [rail::MOST_DEMAND, current::MOST_DEMAND].map(|most| most as usize)),
        ("RAIL_MOST_BUDGET", [rail::MOST_BUDGET, current::MOST_BUDGET].map(|most| most as usize)),
    ]
}

#[test]
fn limits_are_the_same() {
    let numbers = numbers();
    for (name, limits) in limits() {
        assert_eq!(limits, [numbers[name]; 2], "{name}");
    }
}

/// Every refusal that a function of the archive answers. 23 is not among them: the window over finished runs is no part
/// of the archive, and the program over it prints no numbers of refusals.
fn refusals() -> [(&'static str, u8); 22] {
    [
        ("RAIL_CLASS", Refusal::Class.number()),
        ("RAIL_SIZE", Refusal::Nodes.number()),
        ("RAIL_QUORUM_TOO_HIGH", Refusal::DecisionOutOfReach.number()),
        ("RAIL_QUORUM_TOO_LOW", Refusal::DecisionTooLow.number()),
        ("RAIL_OWN", Refusal::OwnNumber.number()),
        ("RAIL_NO_PLAN", Refusal::NoPlan.number()),
        ("RAIL_UNSOUND", Refusal::NotSound.number()),
        ("RAIL_SPENT", Refusal::Spent.number()),
        ("RAIL_SHORT", Refusal::ShortBuffer.number()),
        ("RAIL_CUT", Refusal::Slice.number()),
        ("RAIL_KIND", Refusal::Kind.number()),
        ("RAIL_LENGTH", Refusal::Length.number()),
        ("RAIL_BOUND", Refusal::Bound.number()),
        ("RAIL_INBOX", Refusal::InboxLength.number()),
        ("RAIL_RANGE", Refusal::Range.number()),
        ("RAIL_RESIDUE", Refusal::Residue.number()),
        ("RAIL_GROUP", Refusal::Group.number()),
        ("RAIL_COUNT", Refusal::Count.number()),
        ("RAIL_AMOUNT", Refusal::Amount.number()),
        ("RAIL_WRONG_RECORD", Refused::WRONG_RECORD.0),
        ("RAIL_WRONG_FIELDS", Refused::WRONG_FIELDS.0),
        ("RAIL_NO_ENTRY", Refused::NO_ENTRY.0),
    ]
}

#[test]
fn refusals_have_their_numbers() {
    let numbers = numbers();
    for (name, number) in refusals() {
        assert_eq!(numbers[name], usize::from(number), "{name}");
    }
}

/// So no macro has 23, and every other number of the papers has one.
#[test]
fn every_number_but_the_windows_has_a_macro() {
    let has_macro = |refusal: Refusal| refusals().iter().any(|&(_, number)| number == refusal.number());
    assert!(Refusal::ALL.into_iter().all(|refusal| has_macro(refusal) == (refusal != Refusal::SameRun)));
}
