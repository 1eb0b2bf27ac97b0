//! Every group of validators (02, C-13) on the second engine, and that the groups are worth giving to two engines: none
//! is left out, and in their polls each slot of the group, and each other, turns an answer.

use comparison::groups::{check, check_every, every, Group, Poll};
use comparison::pair::Pair;
use comparison::Second;
use generators::turns;
use second_engine::{Crew, Mutation, Plan};
use std::collections::{BTreeMap, BTreeSet};

const SECOND: Second = Second { mutation: Mutation::Unmutated };

#[test]
fn every_group_is_answered_as_the_papers_say() {
    if let Err(failure) = check_every(Pair { engine: &SECOND, other: Some(&SECOND) }) {
        panic!("{failure}");
    }
}

/// Both forms of comparing tell a wrong engine: it differs from the other, and from the papers where there is no other.
#[test]
fn a_wrong_group_is_told() {
    let group = Group { crew: Crew::new(2, 5, 0, 0, 5, 3), phase: 2 };
    for mutation in [Mutation::TurnOnePhaseOff, Mutation::TurnTooFew, Mutation::CSubtractedForN] {
        let wrong = Second { mutation };
        for other in [None, Some(&SECOND as _)] {
            assert!(check(Pair { engine: &wrong, other }, &group).is_err(), "{mutation:?}");
        }
        assert!(check(Pair { engine: &SECOND, other: Some(&wrong) }, &group).is_err(), "{mutation:?}");
    }
}

#[test]
fn no_group_is_left_out() {
    let groups: Vec<Group> = every().collect();
    let numbers = |group: &Group| (group.crew.class, group.crew.n, group.crew.c, group.phase);
    let all: BTreeSet<_> = groups.iter().map(numbers).collect();
    let is_in_range = |&(class, n, c, phase): &_| {
        (2..=3).contains(&class) && (1..=32).contains(&n) && (1..=n).contains(&c) && (1..=63).contains(&phase)
    };
    assert!(all.iter().all(is_in_range));
    // 33,264 in each class: 528 pairs of n and c, 63 phases.
    assert_eq!((groups.len(), all.len()), (2 * 33_264, 2 * 33_264));
    assert!(groups.iter().all(|group| group.crew.is_accepted()));
}

/// The groups of one class. Polls know nothing of it.
fn of_one_class() -> impl Iterator<Item = Group> {
    every().filter(|group| group.crew.class == 2)
}

/// Whether the slots of these nodes validate some plan of the poll: 02 (C-13), "2 × count > c + b".
fn is_validated_by(group: &Group, nodes: &[usize], poll: &Poll) -> bool {
    let count = |plan: Plan| nodes.iter().filter(|&&q| poll.plans[q] == plan).count();
    nodes.iter().any(|&q| poll.plans[q] != 0 && 2 * count(poll.plans[q]) > usize::from(group.crew.c + group.crew.b))
}

/// Whether the answer to some poll is another where the slots of these nodes count.
fn is_turning(group: &Group, nodes: &[usize]) -> bool {
    group.polls().iter().any(|poll| is_validated_by(group, nodes, poll) != poll.is_validated)
}

/// The group's own slots give every poll its answer, and one slot of the group fewer gives another: first, last, and
/// all between them.
#[test]
fn each_slot_of_the_group_turns_an_answer() {
    for group in of_one_class() {
        let members: Vec<usize> = turns::group(group.crew, group.phase).collect();
        assert!(!is_turning(&group, &members), "{group:?}");
        for missed in &members {
            let rest: Vec<usize> = members.iter().copied().filter(|q| q != missed).collect();
            assert!(is_turning(&group, &rest), "{group:?}, without {missed}");
        }
    }
}

/// One slot of another node more gives another answer.
#[test]
fn each_slot_of_the_others_turns_an_answer() {
    for group in of_one_class() {
        let members: Vec<usize> = turns::group(group.crew, group.phase).collect();
        for other in (0..usize::from(group.crew.n)).filter(|q| !members.contains(q)) {
            let more = [members.as_slice(), &[other]].concat();
            assert!(is_turning(&group, &more), "{group:?}, with {other}");
        }
    }
}

/// As many as are needed say one plan, or one fewer, and the one who is left out is the group's first, then its last.
#[test]
fn one_slot_is_between_the_answers() {
    for group in of_one_class() {
        let members: Vec<usize> = turns::group(group.crew, group.phase).collect();
        let polls = group.polls();
        let left_out = polls.chunks_exact(3).map(|polls| {
            let [enough, fewer, same_plan] = polls else { unreachable!("chunks of three") };
            let said = |poll: &Poll| members.iter().filter(|&&q| poll.plans[q] != 0).count();
            assert_eq!([enough, fewer, same_plan].map(|poll| poll.is_validated), [true, false, false]);
            assert_eq!([enough, fewer, same_plan].map(said), [0, 1, 1].map(|fewer| group.needed() - fewer));
            let differing = |q: &&usize| enough.plans[**q] != fewer.plans[**q];
            let left_out: Vec<usize> = members.iter().filter(differing).copied().collect();
            assert!(left_out.len() == 1 && members.iter().all(|&q| fewer.plans[q] == same_plan.plans[q]));
            left_out[0]
        });
        let left_out: Vec<usize> = left_out.collect();
        assert_eq!(left_out[..2], [members[0], members[members.len() - 1]], "{group:?}");
    }
}

/// Who takes a poll: of which sort it is, whether the node is in the group, and its number.
type Taker = (usize, bool, u8);

/// Every node of a crew takes polls, and polls of each sort are taken by nodes of the group and, if there are any, by
/// others.
#[test]
fn takers_are_of_the_group_and_of_the_others() {
    let mut takers: BTreeMap<(u8, u8), BTreeSet<Taker>> = BTreeMap::new();
    for group in of_one_class() {
        for number in 0..group.polls().len() {
            let own = group.taker(number).own;
            let is_in_turn = turns::is_validator(group.crew, group.phase, usize::from(own));
            takers.entry((group.crew.n, group.crew.c)).or_default().insert((number % 3, is_in_turn, own));
        }
    }
    assert_eq!(takers.len(), 528);
    for ((n, c), takers) in takers {
        let sorts: BTreeSet<_> = takers.iter().map(|&(sort, is_in_turn, _)| (sort, is_in_turn)).collect();
        let nodes: BTreeSet<_> = takers.iter().map(|&(_, _, own)| own).collect();
        assert_eq!(sorts.len(), if c < n { 6 } else { 3 }, "n {n}, c {c}");
        assert!(nodes.into_iter().eq(0..n), "n {n}, c {c}");
    }
}
