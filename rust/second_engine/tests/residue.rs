//! The wrong engines that treat residue badly (02, C-12), each on small slices and in one round.

use second_engine::inbox::SLOT;
use second_engine::node::DECISION;
use second_engine::Mutation::{self, *};
use second_engine::{message, rounds, Crew, Node, Plan, Refusal};

/// Run 1, phase 1, plan 5. The selection lists 5 at phase 0, the decision has the phase as its stamp.
const SELECTED: &[u8] = &[16, 0, 1, 0, 1, 0, 0, 0, 1, 5, 0, 0, 1, 0, 5, 0];
const VALIDATED: &[u8] = &[11, 0, 2, 0, 1, 0, 0, 0, 1, 5, 0];
const DECIDED: &[u8] = &[12, 0, 3, 0, 1, 0, 0, 0, 1, 5, 0, 1];
/// A kind, a length and a plan that no message has, and a length that no slice has.
const OF_NO_KIND: &[u8] = &[11, 0, 4, 0, 1, 0, 0, 0, 1, 5, 0];
const TOO_LONG: &[u8] = &[12, 0, 2, 0, 1, 0, 0, 0, 1, 5, 0, 0];
const OF_NO_PLAN: &[u8] = &[11, 0, 2, 0, 1, 0, 0, 0, 1, 0, 0];
const TOO_SHORT: &[u8] = &[8, 0, 2, 0, 1, 0, 0, 0, 1, 5, 0];

/// The number of the refusal, 0 where the slice is read, and how many bytes of entries it shows.
fn answer(bytes: &[u8], rest: &[u8], mutation: Mutation) -> (u8, usize) {
    let slice = [bytes, rest].concat();
    let number = message::read_mutated(&slice, mutation).err().map_or(0, Refusal::number);
    (number, message::entries_mutated(&slice, mutation).len())
}

#[test]
fn each_wrong_engine_reads_otherwise() {
    let cases: [(Mutation, &[u8], &[u8], _, _); 10] = [
        (ResidueIgnored, SELECTED, &[9, 9], (16, 0), (0, 3)),
        (FirstByteOfResidue, SELECTED, &[0, 9], (16, 0), (0, 3)),
        (FirstByteOfResidue, SELECTED, &[9, 0], (16, 0), (16, 0)),
        (ResidueOfDecisions, DECIDED, &[9], (16, 0), (0, 0)),
        (ResidueOfDecisions, VALIDATED, &[9], (16, 0), (16, 0)),
        (ResidueFirst, OF_NO_KIND, &[9], (11, 0), (16, 0)),
        (ResidueFirst, TOO_LONG, &[9], (12, 0), (16, 0)),
        (ResidueFirst, OF_NO_PLAN, &[9], (13, 0), (16, 0)),
        (ResidueFirst, OF_NO_PLAN, &[0], (13, 0), (13, 0)),
        (ResidueFirst, TOO_SHORT, &[9], (10, 0), (10, 0)),
    ];
    for (mutation, bytes, rest, right, wrong) in cases {
        assert_eq!(answer(bytes, rest, Unmutated), right, "the engine, where {mutation:?} answers {wrong:?}");
        assert_eq!(answer(bytes, rest, mutation), wrong, "{mutation:?}");
    }
}

/// The result after a decision round with two clean slots and one that has a byte of residue at its end.
fn result(mutation: Mutation) -> Plan {
    let node = Node::start(Crew::whole(3, 4, 1, 0, 3), 0, 1, 5).expect("the start is in order");
    let mut node = Node { round: DECISION, ..node };
    let mut inbox = [0; 4 * SLOT];
    for slot in inbox.chunks_exact_mut(SLOT).take(3) {
        slot[..DECIDED.len()].copy_from_slice(DECIDED);
    }
    inbox[3 * SLOT - 1] = 9;
    rounds::take_mutated(&mut node, &inbox, mutation).expect("the call is in order");
    node.result
}

#[test]
fn wrong_engines_decide_on_residue() {
    assert_eq!(result(Unmutated), 0);
    assert_eq!([ResidueIgnored, FirstByteOfResidue, ResidueOfDecisions].map(result), [5; 3]);
    // Under another number the slot is absent as well.
    assert_eq!(result(ResidueFirst), 0);
}
