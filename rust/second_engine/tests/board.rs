//! The board examples of the paper, marked p or not.

use second_engine::inbox::SLOT;
use second_engine::{message, rounds, Body, Crew, Message, Node, Plan, Selection};

/// A slot of the examples: vote, stamp, entries.
type Ballot<'a> = (Plan, u8, &'a [(u8, Plan)]);

/// The answer and the vote taken in round 1 of this phase, from slots in this order.
fn select(crew: Crew, phase: u8, ballots: &[Ballot]) -> (Selection, Plan) {
    let mut node = Node { phase, ..Node::start(crew, 0, 1, 1).expect("the crew is accepted") };
    let mut inbox = vec![0; SLOT * usize::from(crew.n)];
    for (slot, &(vote, stamp, listed)) in inbox.chunks_exact_mut(SLOT).zip(ballots) {
        let mut entries = Vec::new();
        for &(phase, plan) in listed {
            entries.push(phase);
            entries.extend_from_slice(&plan.to_le_bytes());
        }
        let body = Body::Selection { vote, stamp, k: listed.len() as u8 };
        message::encode(&Message { run: 1, phase, body }, &entries, slot).expect("a slot holds it");
    }
    let answer = rounds::ask(&node, &inbox).expect("the call is in order");
    rounds::take(&mut node, &inbox).expect("the call is in order");
    (answer, node.select)
}

fn votes(votes: &[Plan]) -> Vec<Ballot<'static>> {
    votes.iter().map(|&vote| (vote, 0, [].as_slice())).collect()
}

#[test]
fn crews_of_the_board() {
    let number = |class, n, b, f, d| Crew::whole(class, n, b, f, d).accept().err().map(|refusal| refusal.number());
    assert_eq!(number(3, 4, 1, 0, 3), None);
    assert_eq!(number(3, 4, 1, 0, 2), Some(4));
    assert_eq!(number(3, 4, 1, 0, 4), Some(3));
    assert_eq!(number(1, 6, 1, 0, 5), None);
    assert_eq!(number(1, 5, 1, 0, 4), Some(4));
    assert_eq!(number(2, 5, 1, 0, 4), None);
    assert_eq!(number(1, 4, 0, 1, 3), None);
    assert_eq!(number(9, 0, 0, 0, 0), Some(1));
}

#[test]
fn selections_of_class_1() {
    let crew = Crew::whole(1, 6, 1, 0, 5);
    assert_eq!(select(crew, 1, &votes(&[7, 7, 7, 9, 9])), (Selection::Plan(7), 7));
    assert_eq!(select(crew, 1, &votes(&[7, 7, 9, 9])), (Selection::None, 0));
    assert_eq!(select(crew, 1, &votes(&[7, 7, 9, 9, 8])), (Selection::Any, 7));
}

#[test]
fn selections_of_class_2() {
    let crew = Crew::whole(2, 5, 1, 0, 4);
    let ballots: [Ballot; 4] = [(5, 1, &[]), (6, 0, &[]), (6, 0, &[]), (5, 1, &[])];
    assert_eq!(select(crew, 2, &ballots[..3]), (Selection::None, 0));
    assert_eq!(select(crew, 2, &ballots), (Selection::Plan(5), 5));
}

#[test]
fn selections_of_class_3() {
    let crew = Crew::whole(3, 4, 1, 0, 3);
    assert_eq!(select(crew, 1, &votes(&[5, 5, 6])), (Selection::Any, 5));
    assert_eq!(select(crew, 1, &votes(&[5, 5])), (Selection::None, 0));
    let listed: [Ballot; 3] = [(5, 1, &[(0, 5), (1, 5)]), (6, 0, &[(0, 6), (1, 5)]), (6, 0, &[(0, 6)])];
    assert_eq!(select(crew, 2, &listed), (Selection::Plan(5), 5));
    let unlisted: [Ballot; 3] = [(5, 1, &[(0, 5), (1, 5)]), (6, 0, &[(0, 6)]), (6, 0, &[(0, 6)])];
    assert_eq!(select(crew, 2, &unlisted), (Selection::None, 0));
}

#[test]
fn selections_that_the_board_leaves_out() {
    // A plan backed through several slots and stamps is one plan.
    let crew = Crew::whole(3, 4, 1, 0, 3);
    let twice: [Ballot; 3] = [(5, 1, &[(0, 5), (1, 5)]), (5, 0, &[(0, 5), (1, 5)]), (5, 0, &[(0, 5)])];
    assert_eq!(select(crew, 2, &twice), (Selection::Plan(5), 5));
    // Several backed plans are 'any' over all counting slots, the least of the most voted.
    let rivals: [Ballot; 4] = [(5, 1, &[(1, 5), (2, 6)]), (6, 2, &[(1, 5), (2, 6)]), (9, 0, &[]), (9, 0, &[])];
    assert_eq!(select(crew, 3, &rivals), (Selection::Any, 9));
    // Entries of phase 0 back a plan at stamp 0.
    let unstamped: [Ballot; 3] = [(5, 0, &[(0, 5)]), (5, 0, &[(0, 5)]), (5, 0, &[])];
    assert_eq!(select(crew, 1, &unstamped), (Selection::Plan(5), 5));
    // Without slots there is nothing to select, in any class.
    for crew in [crew, Crew::whole(2, 5, 1, 0, 4), Crew::whole(1, 6, 1, 0, 5), Crew::whole(3, 1, 0, 0, 1)] {
        assert_eq!(select(crew, 1, &[]), (Selection::None, 0));
    }
    // Several backed plans always come with more than E + b slots in class 2, and with more than 2E in class 1.
    let crew = Crew::whole(2, 5, 1, 0, 4);
    let many: [Ballot; 4] = [(5, 2, &[]), (5, 2, &[]), (6, 2, &[]), (6, 2, &[])];
    assert_eq!(select(crew, 3, &many), (Selection::Any, 5));
}
