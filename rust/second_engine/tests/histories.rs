//! The wrong engines that keep histories badly (02, C-18), each on a small inbox where its answer is another.

use second_engine::inbox::SLOT;
use second_engine::message::{self, ENTRY, ENTRY_PLAN, SELECTION_LENGTH};
use second_engine::Mutation::{self, *};
use second_engine::{plan, rounds, Body, Crew, Message, Node, Plan, Selection};

/// E is 2 and b is 1: a vote needs three slots to be possible and two that list it.
const CREW: Crew = Crew::whole(3, 4, 1, 0, 3);
const RUN: u32 = 1;
const PHASE: u8 = 3;

/// A slot of the coming selection, laid as it is, within the bounds or not.
fn slot(run: u32, vote: Plan, stamp: u8, listed: &[(u8, Plan)]) -> [u8; SLOT] {
    let mut slot = [0; SLOT];
    let body = Body::Selection { vote, stamp, k: 0 };
    message::encode(&Message { run, phase: PHASE, body }, &[], &mut slot).expect("a slot holds it");
    // The length fits in a byte, and k is the last before the entries.
    slot[0] += (ENTRY * listed.len()) as u8;
    slot[SELECTION_LENGTH - 1] = listed.len() as u8;
    for (entry, &(phase, listed)) in slot[SELECTION_LENGTH..].chunks_exact_mut(ENTRY).zip(listed) {
        entry[0] = phase;
        plan::put(entry, ENTRY_PLAN, listed);
    }
    slot
}

fn answer(slots: [[u8; SLOT]; 4], mutation: Mutation) -> Selection {
    let node = Node { phase: PHASE, ..Node::start(CREW, 0, RUN, 5).expect("the start is in order") };
    rounds::ask_mutated(&node, &slots.concat(), mutation).expect("the call is in order")
}

#[test]
fn each_wrong_engine_answers_otherwise() {
    let empty = [0; SLOT];
    let alone = slot(RUN, 5, 1, &[(1, 5)]);
    let beside = slot(RUN, 6, 0, &[]);
    let (five, none) = (Selection::Plan(5), Selection::None);
    let cases = [
        // Slots 0 and 2 list 5 at phase 1; the places after them are one of a slot that does not count, one that does.
        (NeighboursHistory, [alone, empty, slot(RUN, 6, 0, &[(1, 5)]), beside], five, none),
        // Slot 0 alone lists 5 at phase 1, in all the others.
        (HistoryOfTheSlotBefore, [alone, beside, beside, empty], none, five),
        (EntriesOnePhaseLate, [alone, slot(RUN, 6, 0, &[(0, 5)]), slot(RUN, 6, 0, &[(0, 5)]), empty], none, five),
        (ForeignSlotsList, [alone, beside, beside, slot(RUN + 1, 5, 1, &[(1, 5)])], none, five),
        (RefusedSlotsList, [alone, beside, beside, slot(RUN, 5, 1, &[(1, 5), (1, 5)])], none, five),
        (RefusedSlotsList, [alone, beside, beside, slot(RUN, 5, 1, &[(1, 5), (2, 0)])], none, five),
        (RefusedSlotsList, [alone, beside, beside, slot(RUN, 5, 1, &[(1, 5), (PHASE, 5)])], none, five),
    ];
    for (mutation, slots, right, wrong) in cases {
        assert_eq!(answer(slots, Unmutated), right, "the engine, where {mutation:?} answers {wrong:?}");
        assert_eq!(answer(slots, mutation), wrong, "{mutation:?}");
    }
}
