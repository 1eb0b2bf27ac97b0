//! Validation and decision on small inboxes: the bounds, the stamps, and which fields change.

use second_engine::inbox::SLOT;
use second_engine::node::{DECISION, SELECTION, VALIDATION};
use second_engine::{message, rounds, Body, Crew, Message, Node, Plan};

/// The record after its coming round with these votes and stamps, one in each slot; a validation has no stamp.
fn taken(node: Node, ballots: &[(Plan, u8)]) -> Node {
    let mut inbox = vec![0; SLOT * usize::from(node.crew.n)];
    for (slot, &(vote, stamp)) in inbox.chunks_exact_mut(SLOT).zip(ballots) {
        let body = match node.round {
            VALIDATION => Body::Validation { plan: vote },
            _ => Body::Decision { vote, stamp },
        };
        message::encode(&Message { run: node.run, phase: node.phase, body }, &[], slot).expect("a slot holds it");
    }
    let mut after = node;
    rounds::take(&mut after, &inbox).expect("the call is in order");
    after
}

/// A record of phase 2 that selected 8 after 6 was validated in phase 1.
fn node(crew: Crew, round: u8) -> Node {
    let mut node = Node::start(crew, 0, 7, 5).expect("the start is in order");
    (node.phase, node.round, node.vote, node.base, node.select) = (2, round, 8, 6, 8);
    node.stamp = u8::from(crew.class != 1);
    node.history[2] = 8;
    node
}

#[test]
fn validation() {
    // 2 × count > c + b: three of four with b = 1, where all validate.
    let before = node(Crew::whole(3, 4, 1, 0, 3), VALIDATION);
    let expected = Node { round: DECISION, vote: 9, base: 9, stamp: 2, ..before };
    assert_eq!(taken(before, &[(9, 0), (9, 0), (9, 0), (8, 0)]), expected);
    // Two are not enough, even if all others are lost: the vote becomes base, and nothing else changes.
    let expected = Node { round: DECISION, vote: 6, ..before };
    assert_eq!(taken(before, &[(8, 0), (8, 0)]), expected);
    assert_eq!(taken(before, &[]), expected);
    assert_eq!(taken(Node { select: 0, ..before }, &[(8, 0)]), Node { select: 0, ..expected });
}

#[test]
fn decision() {
    let before = node(Crew::whole(3, 4, 1, 0, 3), DECISION);
    let undecided = Node { phase: 3, round: SELECTION, ..before };
    assert_eq!(taken(before, &[(9, 2), (9, 2), (9, 2), (8, 2)]), Node { result: 9, ..undecided });
    // Older stamps do not decide in classes 2 and 3.
    assert_eq!(taken(before, &[(9, 2), (9, 2), (9, 1), (9, 0)]), undecided);
    let class_2 = node(Crew::whole(2, 5, 1, 0, 4), DECISION);
    assert_eq!(taken(class_2, &[(9, 2), (9, 2), (9, 2), (9, 1)]).result, 0);
    assert_eq!(taken(class_2, &[(9, 2), (9, 2), (9, 2), (9, 2)]).result, 9);
    // In class 1 any stamp will do.
    let class_1 = node(Crew::whole(1, 4, 0, 1, 3), DECISION);
    assert_eq!(taken(class_1, &[(9, 2), (9, 1), (9, 0)]).result, 9);
    // A result stands for good.
    let decided = Node { result: 4, ..before };
    assert_eq!(taken(decided, &[(9, 2), (9, 2), (9, 2)]), Node { result: 4, ..undecided });
    // The least of several plans, where D is low.
    let low = node(Crew::whole(3, 32, 0, 0, 1), DECISION);
    assert_eq!(taken(low, &[(512, 2), (9, 2), (257, 2), (3, 1)]).result, 9);
}

#[test]
fn the_last_phase_spends_the_record() {
    let before = Node { phase: 63, ..node(Crew::whole(3, 4, 1, 0, 3), DECISION) };
    let after = taken(before, &[(9, 63), (9, 63), (9, 63)]);
    assert_eq!(after, Node { phase: Node::SPENT, round: SELECTION, result: 9, ..before });
    assert!(after.is_sound());
}
