//! Which slots count in the coming round, as marks (for the records of 02, C-24): small inboxes of every round, and for
//! each wrong engine one that it answers otherwise.

use second_engine::inbox::SLOT;
use second_engine::node::{DECISION, SELECTION, VALIDATION};
use second_engine::rounds::marks_mutated;
use second_engine::Mutation::{self, *};
use second_engine::{Crew, Node, Refusal};

/// Run 1, phase 1, plan 5, one of each kind.
const SELECTED: &[u8] = &[13, 0, 1, 0, 1, 0, 0, 0, 1, 5, 0, 0, 0];
const VALIDATED: &[u8] = &[11, 0, 2, 0, 1, 0, 0, 0, 1, 5, 0];
const DECIDED: &[u8] = &[12, 0, 3, 0, 1, 0, 0, 0, 1, 5, 0, 1];
/// Validations that do not count: of run 2, of phase 2, of no plan, with residue, and with a wrong length.
const OF_RUN_2: &[u8] = &[11, 0, 2, 0, 2, 0, 0, 0, 1, 5, 0];
const OF_PHASE_2: &[u8] = &[11, 0, 2, 0, 1, 0, 0, 0, 2, 5, 0];
const OF_NO_PLAN: &[u8] = &[11, 0, 2, 0, 1, 0, 0, 0, 1, 0, 0];
const WITH_RESIDUE: &[u8] = &[11, 0, 2, 0, 1, 0, 0, 0, 1, 5, 0, 0, 9];
const TOO_LONG: &[u8] = &[12, 0, 2, 0, 1, 0, 0, 0, 1, 5, 0, 0];
const NOTHING: &[u8] = &[];

/// A node of five in this round of phase 1.
fn node(round: u8) -> Node {
    let node = Node::start(Crew::whole(3, 5, 1, 0, 3), 0, 1, 5).expect("the start is in order");
    Node { round, ..node }
}

fn inbox(slots: [&[u8]; 5]) -> Vec<u8> {
    let mut inbox = vec![0; 5 * SLOT];
    for (slot, bytes) in inbox.chunks_exact_mut(SLOT).zip(slots) {
        slot[..bytes.len()].copy_from_slice(bytes);
    }
    inbox
}

fn marks(round: u8, slots: [&[u8]; 5], mutation: Mutation) -> Result<u32, Refusal> {
    marks_mutated(&node(round), &inbox(slots), mutation)
}

/// In every round those of its kind count, each at the bit of its slot.
#[test]
fn marks_are_those_of_the_coming_round() {
    let kinds = [SELECTED, VALIDATED, DECIDED, NOTHING, VALIDATED];
    for (round, told) in [(SELECTION, 0b1), (VALIDATION, 0b10010), (DECISION, 0b100)] {
        assert_eq!(marks(round, kinds, Unmutated), Ok(told), "round {round}");
    }
    let not_counting = [OF_RUN_2, OF_PHASE_2, OF_NO_PLAN, WITH_RESIDUE, TOO_LONG];
    assert_eq!(marks(VALIDATION, not_counting, Unmutated), Ok(0));
    assert_eq!(marks(VALIDATION, [NOTHING; 5], Unmutated), Ok(0));
    assert_eq!(marks(VALIDATION, [VALIDATED; 5], Unmutated), Ok(0b11111));
}

/// As many nodes as there can be: the last has the highest bit.
#[test]
fn thirty_two_slots_fill_the_number() {
    let node = Node::start(Crew::whole(3, 32, 10, 0, 21), 0, 1, 5).expect("the start is in order");
    let mut inbox = vec![0; 32 * SLOT];
    for q in (0..32).rev() {
        inbox[SLOT * q..][..SELECTED.len()].copy_from_slice(SELECTED);
        assert_eq!(marks_mutated(&node, &inbox, Unmutated), Ok(u32::MAX << q), "slots from {q} on");
    }
    assert_eq!(marks_mutated(&node, &inbox, MarksFromTheLastSlot), Ok(u32::MAX));
    assert_eq!(marks_mutated(&node, &inbox, MarksOneSlotLate), Ok(u32::MAX - 1));
}

#[test]
fn each_wrong_engine_answers_otherwise() {
    let kinds = [VALIDATED, OF_RUN_2, OF_PHASE_2, DECIDED, NOTHING];
    let refused = [VALIDATED, OF_NO_PLAN, WITH_RESIDUE, TOO_LONG, NOTHING];
    let unsound = Err(Refusal::NotSound);
    let cases = [
        (AnotherRunMarked, VALIDATION, kinds, Ok(0b1), Ok(0b11)),
        (AnotherPhaseMarked, VALIDATION, kinds, Ok(0b1), Ok(0b101)),
        (AnotherKindMarked, VALIDATION, kinds, Ok(0b1), Ok(0b1001)),
        // A length that is not the kind's is refused before there is anything to mark.
        (RefusedSlotMarked, VALIDATION, refused, Ok(0b1), Ok(0b111)),
        (MarksOneSlotLate, VALIDATION, kinds, Ok(0b1), Ok(0b10)),
        (MarksFromTheLastSlot, VALIDATION, kinds, Ok(0b1), Ok(0b10000)),
        (MarksInRoundOneAlone, VALIDATION, kinds, Ok(0b1), unsound),
        (MarksInRoundOneAlone, DECISION, kinds, Ok(0b1000), unsound),
        // Those of rounds and of reading that are wrong in what counts.
        (MalformedSlotSpoils, VALIDATION, refused, Ok(0b1), Ok(0)),
        (DistinctContents, VALIDATION, [NOTHING, VALIDATED, NOTHING, VALIDATED, VALIDATED], Ok(0b11010), Ok(0b10)),
        (ResidueIgnored, VALIDATION, refused, Ok(0b1), Ok(0b101)),
        (FirstByteOfResidue, VALIDATION, refused, Ok(0b1), Ok(0b101)),
    ];
    for (mutation, round, slots, right, wrong) in cases {
        assert_eq!(marks(round, slots, Unmutated), right, "the engine, where {mutation:?} answers {wrong:?}");
        assert_eq!(marks(round, slots, mutation), wrong, "{mutation:?}");
    }
    // None is left out.
    assert!(Mutation::MUTANTS_OF_MARKS.iter().all(|mutant| cases.iter().any(|(mutation, ..)| mutation == mutant)));
}
