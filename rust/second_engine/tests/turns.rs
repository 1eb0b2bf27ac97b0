//! Validators in turn (02, C-13): who validates when, silence, which slots count in round 2 and the test there; and for
//! each wrong engine a small case that it answers otherwise.

use second_engine::inbox::SLOT;
use second_engine::node::{DECISION, SELECTION, VALIDATION};
use second_engine::rounds::{marks_mutated, take_mutated};
use second_engine::Mutation::{self, *};
use second_engine::{message, Body, Crew, Message, Node, Plan, Refusal};
use std::ops::RangeInclusive;

/// Three of five validate, and 2 × count > 3 + 1 asks for all three.
const CREW: Crew = Crew::new(2, 5, 1, 0, 4, 3);

fn validators(crew: Crew, phase: u64) -> Vec<u8> {
    let mut validators: Vec<u8> = crew.validators(phase).collect();
    validators.sort_unstable();
    validators
}

#[test]
fn the_group_moves_on_by_its_size() {
    assert_eq!(validators(CREW, 0), [0, 1, 2]);
    assert_eq!(validators(CREW, 1), [0, 3, 4]);
    assert_eq!(validators(CREW, 2), [1, 2, 3]);
    assert_eq!(validators(CREW, 3), [0, 1, 4]);
    assert_eq!(validators(CREW, 4), [2, 3, 4]);
    assert_eq!(validators(CREW, 5), [0, 1, 2]);
    // Products that pass a byte: 62 × 11 = 682 is 0 by 31, 63 × 21 = 1,323 is 21 by 31.
    assert_eq!(validators(Crew::new(2, 31, 7, 0, 24, 11), 62), (0..11).collect::<Vec<u8>>());
    assert_eq!(validators(Crew::new(3, 31, 6, 1, 24, 21), 63), (0..11).chain(21..31).collect::<Vec<u8>>());
    // All of them where c is n, and whoever is asked for where there is nobody.
    assert_eq!(validators(Crew::whole(3, 4, 1, 0, 3), 7), [0, 1, 2, 3]);
    assert!((0..=255).all(|q| !Crew::new(2, 0, 0, 0, 0, 3).is_validator(1, q)));
    assert!(!CREW.is_validator(1, 5) && !CREW.is_validator(1, 255));
}

/// 02: "Over any n consecutive phases, phases taken as unbounded, each node serves exactly c times." For every n and c,
/// from phase 0 on, from the last phases of a record on, and far beyond.
#[test]
fn each_node_serves_c_times_in_n_phases() {
    for n in 1..=32 {
        for c in 0..=n {
            let crew = Crew::new(3, n, 0, 0, 1, c);
            for from in [0, 1, 2, 31, 62, 63, 64, 255, 256, 1_000_003, 1 << 40] {
                let mut served = [0; 32];
                for phase in from..from + u64::from(n) {
                    // A group has c different nodes.
                    let group = validators(crew, phase);
                    assert!(group.len() == usize::from(c) && group.windows(2).all(|pair| pair[0] < pair[1]));
                    group.iter().for_each(|&q| served[usize::from(q)] += 1);
                    assert!((0..=255).all(|q| crew.is_validator(phase, q) == group.contains(&q)));
                }
                assert_eq!(served[..usize::from(n)], vec![c; usize::from(n)], "n {n}, c {c}, from {from}");
                assert_eq!(served[usize::from(n)..], vec![0; 32 - usize::from(n)]);
            }
        }
    }
}

/// A record of run 1 at this place, which selected 7 after it began with 5.
fn node(crew: Crew, own: u8, phase: u8, round: u8) -> Node {
    let node = Node::start(crew, own, 1, 5).expect("the start is in order");
    Node { phase, round, vote: 7, select: 7, ..node }
}

/// What the node writes in round 2 of the phase into a buffer of so many bytes, and how many of these changed.
fn written(own: u8, phase: u8, length: usize, mutation: Mutation) -> (Result<usize, Refusal>, usize) {
    let mut buffer = vec![0xa5; length];
    let answer = node(CREW, own, phase, VALIDATION).write_mutated(&mut buffer, mutation);
    (answer, buffer.iter().filter(|&&byte| byte != 0xa5).count())
}

#[test]
fn others_are_silent() {
    for phase in 1..=63 {
        for own in 0..5 {
            let is_in_turn = CREW.is_validator(u64::from(phase), own);
            let (whole, short) = if is_in_turn { (Ok(11), Err(Refusal::ShortBuffer)) } else { (Ok(0), Ok(0)) };
            let changed = if is_in_turn { 11 } else { 0 };
            assert_eq!(written(own, phase, SLOT, Unmutated), (whole, changed), "node {own}, phase {phase}");
            // Silence fits in any buffer, so that it is never 9.
            for length in [0, 1, 10] {
                assert_eq!(written(own, phase, length, Unmutated), (short, 0), "node {own}, phase {phase}");
            }
        }
    }
    // Nobody is silent in rounds 1 and 3, and a validator with nothing to say is.
    let mut buffer = [0; SLOT];
    for round in [SELECTION, DECISION] {
        assert!((0..5).all(|own| node(CREW, own, 1, round).write(&mut buffer).is_ok_and(|length| length > 0)));
    }
    assert_eq!(Node { select: 0, ..node(CREW, 0, 1, VALIDATION) }.write(&mut []), Ok(0));
    // An unsound record and a spent one are refused all the same.
    assert_eq!(Node { vote: 0, ..node(CREW, 1, 1, VALIDATION) }.write(&mut []), Err(Refusal::NotSound));
    assert_eq!(Node { phase: 64, ..node(CREW, 1, 1, SELECTION) }.write(&mut []), Err(Refusal::Spent));
}

/// An inbox for the node's coming round with these plans, 0 for an empty slot. Decisions have the phase as stamp.
fn inbox(node: &Node, plans: &[Plan]) -> Vec<u8> {
    let mut inbox = vec![0; SLOT * usize::from(node.crew.n)];
    for (slot, &plan) in inbox.chunks_exact_mut(SLOT).zip(plans).filter(|(_, &plan)| plan != 0) {
        let body = match node.round {
            SELECTION => Body::Selection { vote: plan, stamp: 0, k: 0 },
            VALIDATION => Body::Validation { plan },
            _ => Body::Decision { vote: plan, stamp: node.phase },
        };
        message::encode(&Message { run: 1, phase: node.phase, body }, &[], slot).expect("a slot holds it");
    }
    inbox
}

fn taken(node: Node, plans: &[Plan], mutation: Mutation) -> Node {
    let mut after = node;
    take_mutated(&mut after, &inbox(&node, plans), mutation).expect("the call is in order");
    after
}

/// In phase 1 nodes 3, 4 and 0 validate.
#[test]
fn slots_of_others_do_not_count_in_round_2() {
    let round = |round: u8| node(CREW, 1, 1, round);
    let marks = |node: Node, plans: &[Plan]| marks_mutated(&node, &inbox(&node, plans), Unmutated);
    assert_eq!(marks(round(VALIDATION), &[9; 5]), Ok(0b11001));
    assert_eq!(marks(round(VALIDATION), &[0, 9, 9, 0, 0]), Ok(0));
    for other in [SELECTION, DECISION] {
        assert_eq!(marks(round(other), &[9; 5]), Ok(0b11111), "round {other}");
        assert_eq!(marks(round(other), &[0, 9, 9, 0, 0]), Ok(0b110), "round {other}");
    }
    // The next phase is nodes 1, 2 and 3's.
    assert_eq!(marks(node(CREW, 1, 2, VALIDATION), &[9; 5]), Ok(0b1110));
    // A node that does not validate takes the round from the validators' slots, as the others do.
    for own in 0..5 {
        let before = node(CREW, own, 1, VALIDATION);
        let validated = Node { round: DECISION, vote: 9, base: 9, stamp: 1, ..before };
        let failed = Node { round: DECISION, vote: 5, ..before };
        assert_eq!(taken(before, &[9, 8, 8, 9, 9], Unmutated), validated, "node {own}");
        assert_eq!(taken(before, &[9, 0, 0, 9, 9], Unmutated), validated, "node {own}");
        assert_eq!(taken(before, &[8, 9, 9, 9, 9], Unmutated), failed, "node {own}");
        assert_eq!(taken(before, &[0, 9, 9, 9, 9], Unmutated), failed, "node {own}");
    }
    // In round 3 four of any nodes decide, in round 1 everybody's vote counts.
    for plans in [[9, 9, 9, 9, 0], [0, 9, 9, 9, 9], [9, 9, 9, 0, 9]] {
        assert_eq!(taken(round(DECISION), &plans, Unmutated).result, 9, "{plans:?}");
        assert_eq!(taken(round(SELECTION), &plans, Unmutated).select, 9, "{plans:?}");
    }
}

/// 2 × count > c + b, with every c that the crew may have: the count that is needed, and one less.
#[test]
fn the_test_is_from_c() {
    for c in 3..=20 {
        let crew = Crew::new(2, 20, 2, 1, 8, c);
        for phase in [1, 2, 62, 63] {
            let before = node(crew, 0, phase, VALIDATION);
            let group: Vec<usize> = crew.validators(u64::from(phase)).map(usize::from).collect();
            let needed = (usize::from(c) + 2) / 2 + 1;
            for count in [needed - 1, needed] {
                // The others say it as well, and the rest of the group says something else.
                let mut plans = [9; 20];
                group[count.min(group.len())..].iter().for_each(|&q| plans[q] = 8);
                let stamp = if count == needed { phase } else { 0 };
                assert_eq!(taken(before, &plans, Unmutated).stamp, stamp, "c {c}, phase {phase}, count {count}");
            }
        }
    }
}

/// The record's vote and stamp after round 2 of the phase, and the slots that counted there.
fn validated(crew: Crew, phase: u8, plans: &[Plan], mutation: Mutation) -> ((Plan, u8), u32) {
    let node = node(crew, 1, phase, VALIDATION);
    let after = taken(node, plans, mutation);
    ((after.vote, after.stamp), marks_mutated(&node, &inbox(&node, plans), mutation).expect("the call is in order"))
}

#[test]
fn each_wrong_engine_takes_otherwise() {
    // Of phase 1 are nodes 3, 4 and 0, of phase 2 nodes 1, 2 and 3, of phases 0 and 5 nodes 0, 1 and 2; three of five
    // pass no bound from n.
    let cases: [(Mutation, u8, [Plan; 5], _, _); 9] = [
        (ThresholdFromN, 1, [9, 0, 0, 9, 9], ((9, 1), 0b11001), ((5, 0), 0b11001)),
        (OthersCount, 1, [9, 9, 0, 9, 0], ((5, 0), 0b01001), ((9, 1), 0b01011)),
        (TurnOnePhaseOff, 1, [9, 0, 0, 9, 9], ((9, 1), 0b11001), ((5, 0), 0b01000)),
        (TurnOnePhaseOff, 1, [8, 9, 9, 9, 8], ((5, 0), 0b11001), ((9, 1), 0b01110)),
        (TurnTooFew, 1, [9, 0, 0, 9, 9], ((9, 1), 0b11001), ((5, 0), 0b00001)),
        (TurnTooFew, 1, [9, 9, 9, 8, 8], ((5, 0), 0b11001), ((9, 1), 0b00111)),
        // 3 + 3 - 3 is 3 again, and 2 + 3 is 5, which no node has.
        (CSubtractedForN, 2, [8, 9, 9, 9, 8], ((9, 2), 0b01110), ((5, 0), 0b11001)),
        (OnePastTheCrew, 5, [9, 9, 9, 8, 8], ((9, 5), 0b00111), ((5, 0), 0b00110)),
        // Nobody hears those who should be silent.
        (OthersSpeak, 1, [9, 9, 0, 9, 0], ((5, 0), 0b01001), ((5, 0), 0b01001)),
    ];
    for (mutation, phase, plans, right, wrong) in cases {
        let validated = |mutation: Mutation| validated(CREW, phase, &plans, mutation);
        assert_eq!(validated(Unmutated), right, "the engine, where {mutation:?} answers {wrong:?}");
        assert_eq!(validated(mutation), wrong, "{mutation:?}");
    }
    // None is left out.
    assert!(Mutation::MUTANTS_OF_TURNS.iter().all(|mutant| cases.iter().any(|(mutation, ..)| mutation == mutant)));
    // At the bound itself, 2 × 3 = 5 + 1 with c = n, c and n are the same and one is off.
    let whole = Crew { c: 5, ..CREW };
    for mutation in [Unmutated, ThresholdFromN, OthersCount, TurnOnePhaseOff, TurnTooFew, CSubtractedForN] {
        assert_eq!(validated(whole, 1, &[9, 9, 9, 0, 0], mutation), ((5, 0), 0b00111), "{mutation:?}");
    }
    assert_eq!(validated(whole, 1, &[9, 9, 9, 0, 0], HalfValidates), ((9, 1), 0b00111));
}

/// The slots that count in round 2 of each of these phases.
fn marks_of(crew: Crew, phases: RangeInclusive<u8>, mutation: Mutation) -> Vec<u32> {
    let all = vec![9; usize::from(crew.n)];
    let marks = |node: Node| marks_mutated(&node, &inbox(&node, &all), mutation).expect("the call is in order");
    phases.map(|phase| marks(node(crew, 0, phase, VALIDATION))).collect()
}

/// 02 (C-14): "work it out by subtracting". Two of four: nodes 2 and 3, then 0 and 1, and so on.
#[test]
fn a_wrong_subtraction_shows_where_the_crew_ends() {
    let small = Crew::new(2, 4, 0, 0, 3, 2);
    assert_eq!(marks_of(small, 1..=4, Unmutated), [0b1100, 0b0011, 0b1100, 0b0011]);
    // 2 + 2 - 2 is 2 again.
    assert_eq!(marks_of(small, 1..=4, CSubtractedForN), [0b1100; 4]);
    // 2 + 2 is 4, which no node has, and 1 after it.
    assert_eq!(marks_of(small, 1..=4, OnePastTheCrew), [0b1100, 0b0010, 0b1100, 0b0010]);
    // Three of five: the first nodes are 3, 1, 4, 2 and 0. With c for n it is 3 in every phase.
    assert_eq!(marks_of(CREW, 1..=5, Unmutated), [0b11001, 0b01110, 0b10011, 0b11100, 0b00111]);
    assert_eq!(marks_of(CREW, 1..=5, CSubtractedForN), [0b11001; 5]);
    // Past node 4 comes node 0, where the first node is not 0 itself.
    assert_eq!(marks_of(CREW, 1..=5, OnePastTheCrew), [0b11001, 0b01110, 0b10011, 0b11100, 0b00110]);
    // One by one around five nodes: phases 1 to 4 stay below 5. Then node 4 stays, or nobody comes.
    let single = Crew::new(2, 5, 0, 0, 3, 1);
    assert_eq!(marks_of(single, 1..=6, Unmutated), [0b00010, 0b00100, 0b01000, 0b10000, 0b00001, 0b00010]);
    assert_eq!(marks_of(single, 1..=6, CSubtractedForN), [0b00010, 0b00100, 0b01000, 0b10000, 0b10000, 0b10000]);
    assert_eq!(marks_of(single, 1..=6, OnePastTheCrew), [0b00010, 0b00100, 0b01000, 0b10000, 0, 0b00010]);
    // With c = n the first node is 0 in every phase: c for n is no error, and node 0 never comes.
    let whole = Crew { c: 5, ..CREW };
    assert_eq!(marks_of(whole, 1..=63, CSubtractedForN), [0b11111; 63]);
    assert_eq!(marks_of(whole, 1..=63, OnePastTheCrew), [0b11110; 63]);
    // 32 nodes, where the number past the crew has no bit.
    let largest = Crew::whole(3, 32, 0, 0, 32);
    assert_eq!(marks_of(largest, 1..=63, OnePastTheCrew), [u32::MAX - 1; 63]);
}

/// The same for every n and c, turn by turn as such an engine would: c is added to the first node, and something is
/// subtracted where that passes the crew's end. The number n has no slot.
#[test]
fn wrong_subtractions_go_wrong_turn_by_turn() {
    for (n, c) in (1..=32).flat_map(|n| (1..=n).map(move |c| (n, c))) {
        let crew = Crew::new(2, n, 0, 0, n, c);
        let group = |first: u8| (1..c).map(|i| (first + i) % n).chain([first]).fold(0, |group, q| group | 1_u64 << q);
        let marks = |first: u8| (group(first) & ((1 << n) - 1)) as u32;
        let (mut less_c, mut past) = (0, 0);
        for phase in 1..=63 {
            less_c += c;
            if less_c >= n {
                less_c -= c;
            }
            past += c;
            if past > n {
                past -= n;
            }
            assert_eq!(marks_of(crew, phase..=phase, CSubtractedForN), [marks(less_c)], "{crew:?}, phase {phase}");
            assert_eq!(marks_of(crew, phase..=phase, OnePastTheCrew), [marks(past)], "{crew:?}, phase {phase}");
        }
    }
}

#[test]
fn each_wrong_engine_writes_otherwise() {
    // Of phase 1 are nodes 3, 4 and 0, of phase 2 nodes 1, 2 and 3, of phases 0 and 5 nodes 0, 1 and 2.
    let silence = (Ok(0), 0);
    let message = (Ok(11), 11);
    assert_eq!([0, 1].map(|own| written(own, 1, SLOT, Unmutated)), [message, silence]);
    assert_eq!([0, 1].map(|own| written(own, 1, SLOT, OthersSpeak)), [message, message]);
    assert_eq!([0, 1].map(|own| written(own, 1, SLOT, TurnOnePhaseOff)), [silence, message]);
    assert_eq!([0, 1].map(|own| written(own, 1, SLOT, TurnTooFew)), [message, message]);
    assert_eq!(written(1, 1, 10, OthersSpeak), (Err(Refusal::ShortBuffer), 0));
    // In phase 2 the group has gone past the crew's end, in phase 5 it is back at node 0.
    assert_eq!([0, 1].map(|own| written(own, 2, SLOT, Unmutated)), [silence, message]);
    assert_eq!([0, 1].map(|own| written(own, 2, SLOT, CSubtractedForN)), [message, silence]);
    assert_eq!([0, 1].map(|own| written(own, 5, SLOT, Unmutated)), [message, message]);
    assert_eq!([0, 1].map(|own| written(own, 5, SLOT, OnePastTheCrew)), [silence, message]);
    // These are wrong in what is heard alone.
    for mutation in [ThresholdFromN, OthersCount] {
        assert_eq!([0, 1].map(|own| written(own, 1, SLOT, mutation)), [message, silence], "{mutation:?}");
    }
}

#[test]
fn each_wrong_engine_accepts_otherwise() {
    let number = |crew: Crew, mutation| crew.accept_mutated(mutation).err().map_or(0, Refusal::number);
    let cases = [
        (GroupBeforeQuorum, Crew::new(3, 4, 1, 0, 2, 3), 4, 17),
        (GroupAboveN, Crew::new(3, 4, 1, 0, 3, 5), 17, 0),
        (GroupOfB, Crew::new(2, 5, 1, 0, 4, 1), 17, 0),
        (GroupAtTheBoundOfClassThree, Crew::new(3, 7, 1, 1, 4, 5), 17, 0),
        (GroupWithoutF, Crew::new(3, 7, 1, 1, 4, 4), 17, 0),
        (GroupOfTwoB, Crew::new(3, 7, 1, 0, 4, 3), 17, 0),
        (AnyGroupInClassOne, Crew::new(1, 6, 1, 0, 5, 5), 17, 0),
    ];
    for (mutation, crew, right, wrong) in cases {
        assert_eq!(number(crew, Unmutated), right, "the engine, where {mutation:?} answers {wrong}");
        assert_eq!(number(crew, mutation), wrong, "{mutation:?}");
        // Wherever a crew is tested: a start, and a record.
        let start = Node::start_mutated(crew, 0, 1, 5, mutation);
        assert_eq!(start.err().map_or(0, Refusal::number), wrong, "{mutation:?}");
        let record = Node { crew, ..node(CREW, 0, 1, SELECTION) };
        let answer = record.write_mutated(&mut [0; SLOT], mutation).err();
        assert_eq!(answer, (wrong != 0).then_some(Refusal::NotSound), "{mutation:?}");
    }
    assert!(Mutation::MUTANTS_OF_CREWS.iter().all(|mutant| cases.iter().any(|(mutation, ..)| mutation == mutant)));
    // Each is wrong there alone: one step on, they accept and refuse as the engine does.
    assert_eq!(number(Crew::new(2, 6, 1, 0, 4, 0), GroupOfB), 17);
    assert_eq!(number(Crew::new(3, 7, 1, 1, 4, 4), GroupAtTheBoundOfClassThree), 17);
    assert_eq!(number(Crew::new(3, 7, 1, 1, 4, 3), GroupWithoutF), 17);
    assert_eq!(number(Crew::new(3, 7, 1, 0, 4, 2), GroupOfTwoB), 17);
    assert_eq!(number(Crew::new(1, 6, 1, 0, 5, 7), AnyGroupInClassOne), 17);
}
