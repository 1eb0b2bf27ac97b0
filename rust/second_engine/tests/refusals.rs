//! Every refusal number of 01, and 02's 16 and 17, in the papers' order: the first that applies is given.

use second_engine::inbox::SLOT;
use second_engine::node::{DECISION, SELECTION, VALIDATION};
use second_engine::{message, rounds, Crew, Node, Refusal};

const CREW: Crew = Crew::whole(3, 4, 1, 0, 3);

fn node() -> Node {
    Node::start(CREW, 0, 1, 5).expect("the start is in order")
}

fn number<T>(answer: Result<T, Refusal>) -> u8 {
    answer.err().map_or(0, Refusal::number)
}

#[test]
fn crews() {
    assert_eq!(number(Crew::whole(0, 0, 0, 0, 0).accept()), 1);
    assert_eq!(number(Crew::whole(4, 33, 0, 0, 0).accept()), 1);
    assert_eq!(number(Crew::whole(1, 33, 255, 0, 0).accept()), 2);
    assert_eq!(number(Crew::whole(1, 0, 0, 0, 0).accept()), 2);
    // Sums do not wrap at a byte.
    assert_eq!(number(Crew::whole(3, 32, 128, 127, 255).accept()), 3);
    assert_eq!(number(Crew::whole(3, 32, 255, 1, 1).accept()), 3);
    assert_eq!(number(Crew::whole(3, 1, 0, 0, 0).accept()), 4);
    assert_eq!(number(Crew::whole(3, 1, 0, 0, 1).accept()), 0);
    assert_eq!(number(Crew::whole(2, 32, 7, 1, 22).accept()), 4);
    assert_eq!(number(Crew::whole(2, 32, 7, 1, 23).accept()), 0);
}

/// 02 (C-13): "It refuses with 17, after 4 wherever a crew is tested, c above n, c ≤ b in class 2, c ≤ 3b + 2f in class
/// 3, and c other than n in class 1."
#[test]
fn groups() {
    let accept = |class, n, b, f, d, c| number(Crew::new(class, n, b, f, d, c).accept());
    // In class 1 c is n.
    for c in 0..=255 {
        assert_eq!(accept(1, 6, 1, 0, 5, c), if c == 6 { 0 } else { 17 }, "c {c}");
    }
    // In class 2 it is from b + 1 on, in class 3 from 3b + 2f + 1 on, and never above n.
    for c in 0..=255 {
        assert_eq!(accept(2, 32, 3, 4, 20, c), if (4..=32).contains(&c) { 0 } else { 17 }, "c {c}");
        assert_eq!(accept(3, 32, 3, 4, 20, c), if (18..=32).contains(&c) { 0 } else { 17 }, "c {c}");
        assert_eq!(accept(3, 4, 1, 0, 3, c), if c == 4 { 0 } else { 17 }, "c {c}");
    }
    // Without liars one will do, and nobody never does.
    for class in [2, 3] {
        assert_eq!([0, 1, 7, 8].map(|c| accept(class, 7, 0, 0, 1, c)), [17, 0, 0, 17], "class {class}");
    }
    // 1 to 4 come before it, whatever c is.
    for c in [0, 1, 4, 255] {
        assert_eq!(accept(0, 4, 1, 0, 3, c), 1, "c {c}");
        assert_eq!(accept(3, 33, 1, 0, 3, c), 2, "c {c}");
        assert_eq!(accept(3, 4, 1, 0, 4, c), 3, "c {c}");
        assert_eq!(accept(3, 4, 1, 0, 2, c), 4, "c {c}");
        assert_eq!(accept(2, 4, 1, 0, 3, c), 4, "c {c}");
        assert_eq!(accept(1, 5, 1, 0, 4, c), 4, "c {c}");
        // 3b + 2f = 1,275 and 3b = 765 are past a byte, and 3 comes first all the same.
        assert_eq!(accept(3, 32, 255, 255, 255, c), 3, "c {c}");
    }
    // In starts it comes before 5 and 6, and a record of such a crew is not sound.
    let refused = Crew::new(3, 4, 1, 0, 3, 3);
    assert_eq!(number(Node::start(refused, 4, 1, 0)), 17);
    assert_eq!(number(Node::start(refused, 0, 1, 0)), 17);
    assert_eq!(number(Node::start(refused, 0, 1, 5)), 17);
    assert_eq!(number(Node::start(Crew { d: 2, ..refused }, 4, 1, 0)), 4);
    let record = Node { crew: refused, ..node() };
    assert!(!record.is_sound());
    assert_eq!(number(record.write(&mut [])), 7);
    assert_eq!(number(rounds::take(&mut record.clone(), &[])), 7);
    assert_eq!(number(rounds::ask(&record, &[])), 7);
    assert_eq!(number(rounds::marks(&record, &[])), 7);
}

#[test]
fn starts() {
    assert_eq!(number(Node::start(Crew::whole(3, 4, 1, 0, 2), 9, 1, 0)), 4);
    assert_eq!(number(Node::start(CREW, 4, 1, 0)), 5);
    assert_eq!(number(Node::start(CREW, 255, 1, 5)), 5);
    assert_eq!(number(Node::start(CREW, 3, 1, 0)), 6);
    assert!(node().is_sound());
}

/// Each condition of soundness, broken alone.
#[test]
fn soundness() {
    let with = |change: fn(&mut Node)| {
        let mut node = node();
        (node.phase, node.round, node.stamp) = (5, VALIDATION, 4);
        change(&mut node);
        node.is_sound()
    };
    assert!(with(|_| ()));
    assert!(!with(|node| node.crew.d = 4));
    assert!(!with(|node| node.crew.c = 3));
    assert!(!with(|node| node.crew.c = 5));
    assert!(with(|node| node.crew = Crew::new(3, 6, 1, 0, 3, 4)));
    assert!(!with(|node| node.own = 4));
    assert!(!with(|node| node.phase = 0));
    assert!(!with(|node| node.phase = 65));
    assert!(!with(|node| node.phase = 255));
    assert!(!with(|node| node.round = 0));
    assert!(!with(|node| node.round = 4));
    assert!(!with(|node| node.phase = 64));
    assert!(with(|node| (node.phase, node.round, node.stamp) = (64, SELECTION, 63)));
    assert!(!with(|node| (node.phase, node.round, node.stamp) = (64, SELECTION, 64)));
    assert!(!with(|node| (node.phase, node.round) = (64, DECISION)));
    assert!(!with(|node| node.vote = 0));
    assert!(!with(|node| node.base = 0));
    assert!(!with(|node| node.history[0] = 0));
    assert!(!with(|node| node.stamp = 5));
    assert!(with(|node| (node.round, node.stamp) = (DECISION, 5)));
    assert!(!with(|node| (node.round, node.stamp) = (DECISION, 6)));
    assert!(with(|node| node.history[5] = 1));
    assert!(!with(|node| node.history[6] = 1));
    assert!(!with(|node| (node.round, node.history[5]) = (SELECTION, 1)));
    assert!(with(|node| (node.round, node.history[4]) = (SELECTION, 1)));
    assert!(!with(|node| node.crew = Crew::whole(1, 6, 1, 0, 5)));
    assert!(!with(|node| (node.crew, node.round) = (Crew::whole(1, 6, 1, 0, 5), DECISION)));
    assert!(with(|node| (node.crew, node.round, node.stamp) = (Crew::whole(1, 6, 1, 0, 5), DECISION, 0)));
    // Fields that soundness does not name may be anything.
    assert!(with(|node| (node.select, node.result, node.base, node.run) = (65_535, 9, 7, 0)));
}

#[test]
fn writing() {
    let unsound = Node { vote: 0, phase: 64, ..node() };
    let spent = Node { phase: 64, ..node() };
    assert_eq!(number(unsound.write(&mut [])), 7);
    assert_eq!(number(spent.write(&mut [])), 8);
    let mut short = [7; 15];
    assert_eq!(number(node().write(&mut short)), 9);
    assert_eq!(short, [7; 15]);
    let mut exact = [7; 17];
    assert_eq!(node().write(&mut exact), Ok(16));
    assert_eq!(exact, [16, 0, 1, 0, 1, 0, 0, 0, 1, 5, 0, 0, 1, 0, 5, 0, 7]);
    // Silence is never 9.
    let silent = Node { round: VALIDATION, ..node() };
    assert_eq!(silent.write(&mut []), Ok(0));
    let mut buffer = [7; 12];
    assert_eq!(Node { select: 258, ..silent }.write(&mut buffer), Ok(11));
    assert_eq!(buffer, [11, 0, 2, 0, 1, 0, 0, 0, 1, 2, 1, 7]);
    assert_eq!(Node { round: DECISION, stamp: 1, ..node() }.write(&mut buffer), Ok(12));
    assert_eq!(buffer, [12, 0, 3, 0, 1, 0, 0, 0, 1, 5, 0, 1]);
}

#[test]
fn reading() {
    let read = |bytes: &[u8]| number(message::read(bytes));
    assert_eq!(read(&[]), 10);
    assert_eq!(read(&[8, 0, 1, 0, 1, 0, 0, 0]), 10);
    assert_eq!(read(&[8, 0, 9, 0, 1, 0, 0, 0, 1]), 10);
    assert_eq!(read(&[10, 0, 9, 0, 1, 0, 0, 0, 1]), 10);
    assert_eq!(read(&[9, 0, 0, 0, 1, 0, 0, 0, 0]), 11);
    assert_eq!(read(&[9, 0, 4, 0, 1, 0, 0, 0, 0]), 11);
    assert_eq!(read(&[11, 0, 2, 1, 1, 0, 0, 0, 1, 5, 0]), 11);
    assert_eq!(read(&[9, 0, 1, 0, 1, 0, 0, 0, 0]), 12);
    assert_eq!(read(&[12, 0, 1, 0, 1, 0, 0, 0, 1, 5, 0, 0, 0]), 12);
    assert_eq!(read(&[12, 0, 2, 0, 1, 0, 0, 0, 0, 5, 0, 0]), 12);
    assert_eq!(read(&[11, 0, 3, 0, 1, 0, 0, 0, 0, 5, 0]), 12);
    assert_eq!(read(&[13, 0, 1, 0, 1, 0, 0, 0, 0, 0, 0, 0, 1]), 12);
    assert_eq!(read(&[13, 0, 1, 0, 1, 0, 0, 0, 0, 0, 0, 0, 64]), 12);
    assert_eq!(read(&[11, 0, 2, 0, 1, 0, 0, 0, 0, 5, 0]), 13);
    assert_eq!(read(&[11, 0, 2, 0, 1, 0, 0, 0, 64, 5, 0]), 13);
    assert_eq!(read(&[11, 0, 2, 0, 1, 0, 0, 0, 63, 0, 0]), 13);
    assert_eq!(read(&[11, 0, 2, 0, 1, 0, 0, 0, 63, 0, 1]), 0);
    assert_eq!(read(&[12, 0, 3, 0, 1, 0, 0, 0, 5, 5, 0, 5]), 0);
    assert_eq!(read(&[12, 0, 3, 0, 1, 0, 0, 0, 5, 5, 0, 6]), 13);
    assert_eq!(read(&[13, 0, 1, 0, 1, 0, 0, 0, 5, 5, 0, 4, 0]), 0);
    assert_eq!(read(&[13, 0, 1, 0, 1, 0, 0, 0, 5, 5, 0, 5, 0]), 13);
    let listed = |one: u8, other: u8| read(&[19, 0, 1, 0, 1, 0, 0, 0, 5, 5, 0, 4, 2, one, 7, 0, other, 0, 7]);
    assert_eq!(listed(0, 4), 0);
    assert_eq!(listed(0, 5), 13);
    assert_eq!(listed(3, 3), 13);
    assert_eq!(listed(3, 2), 13);
    assert_eq!(read(&[16, 0, 1, 0, 1, 0, 0, 0, 5, 5, 0, 4, 1, 0, 0, 0]), 13);
    // k above 63 with its length is 13, and 12 without.
    let mut bytes = vec![0; 13 + 3 * 64];
    bytes[..13].copy_from_slice(&[205, 0, 1, 0, 1, 0, 0, 0, 63, 5, 0, 0, 64]);
    assert_eq!(read(&bytes), 13);
    bytes[12] = 65;
    assert_eq!(read(&bytes), 12);
}

/// The bytes of a slice after the message.
#[test]
fn residue() {
    let read = |bytes: &[u8], rest: &[u8]| number(message::read(&[bytes, rest].concat()));
    let selection = [16, 0, 1, 0, 1, 0, 0, 0, 5, 5, 0, 4, 1, 3, 7, 1];
    let validation = [11, 0, 2, 0, 1, 0, 0, 0, 5, 5, 0];
    let decision = [12, 0, 3, 0, 1, 0, 0, 0, 5, 5, 0, 5];
    for message in [&selection[..], &validation, &decision] {
        assert_eq!(read(message, &[]), 0);
        assert_eq!(read(message, &[0]), 0);
        assert_eq!(read(message, &[0; SLOT + 1]), 0);
        assert_eq!(read(message, &[1]), 16);
        assert_eq!(read(message, &[1, 0, 0, 0]), 16);
        assert_eq!(read(message, &[0, 0, 128, 0]), 16);
        assert_eq!(read(message, &[0, 0, 0, 255]), 16);
        // Two bytes whose sum is 0 in a byte.
        assert_eq!(read(message, &[1, 255]), 16);
        for place in 0..SLOT {
            let mut rest = [0; SLOT];
            rest[place] = 1;
            assert_eq!(read(message, &rest), 16);
        }
    }
    // The longest message fills its slot, so residue is beyond it.
    let mut longest = vec![0; SLOT];
    longest[..13].copy_from_slice(&[202, 0, 1, 0, 1, 0, 0, 0, 63, 5, 0, 0, 63]);
    for (phase, entry) in (0..).zip(longest[13..].chunks_exact_mut(3)) {
        entry.copy_from_slice(&[phase, 7, 1]);
    }
    assert_eq!(read(&longest, &[]), 0);
    assert_eq!(read(&longest, &[0]), 0);
    assert_eq!(read(&longest, &[1]), 16);
    // The validation over the front of the older selection: what is left is stamp, k and entry.
    assert_eq!(read(&validation, &selection[11..]), 16);
    // What is refused with 10 to 13 keeps its number.
    assert_eq!(read(&[8, 0, 2, 0, 1, 0, 0, 0, 5, 5, 0], &[1]), 10);
    assert_eq!(read(&[13, 0, 2, 0, 1, 0, 0, 0, 5, 5, 0], &[1]), 10);
    assert_eq!(read(&[11, 0, 4, 0, 1, 0, 0, 0, 5, 5, 0], &[1]), 11);
    assert_eq!(read(&[10, 0, 2, 0, 1, 0, 0, 0, 5, 5, 0], &[1]), 12);
    assert_eq!(read(&[11, 0, 2, 0, 1, 0, 0, 0, 5, 0, 0], &[1]), 13);
    assert_eq!(read(&[12, 0, 3, 0, 1, 0, 0, 0, 5, 5, 0, 6], &[1]), 13);
    assert_eq!(read(&[16, 0, 1, 0, 1, 0, 0, 0, 5, 5, 0, 4, 1, 5, 7, 1], &[1]), 13);
}

#[test]
fn entries_are_a_part_of_the_slice() {
    let slice = [16, 0, 1, 0, 1, 0, 0, 0, 5, 5, 0, 4, 1, 3, 7, 1, 0, 0];
    let part = message::entries(&slice);
    assert_eq!(part, [3, 7, 1]);
    assert_eq!(part.as_ptr(), slice[13..].as_ptr());
    assert!(message::entries(&slice[..15]).is_empty());
    assert!(message::entries(&[16, 0, 1, 0, 1, 0, 0, 0, 5, 5, 0, 4, 1, 3, 7, 1, 0, 9]).is_empty());
    assert!(message::entries(&[12, 0, 3, 0, 1, 0, 0, 0, 5, 5, 0, 5]).is_empty());
    assert!(message::entries(&[11, 0, 2, 0, 1, 0, 0, 0, 5, 5, 0]).is_empty());
}

#[test]
fn asking_and_taking() {
    let whole = [0; 4 * SLOT];
    let refused = |node: Node, inbox: &[u8]| {
        let mut taken = node;
        let numbers = (number(rounds::ask(&node, inbox)), number(rounds::take(&mut taken, inbox)));
        assert!(numbers.1 == 0 || taken == node);
        // What counts in a round is told wherever the round is taken.
        assert_eq!(number(rounds::marks(&node, inbox)), numbers.1);
        numbers
    };
    assert_eq!(refused(Node { vote: 0, phase: 64, ..node() }, &[]), (7, 7));
    assert_eq!(refused(Node { phase: 64, ..node() }, &[]), (8, 8));
    assert_eq!(refused(Node { phase: 64, round: VALIDATION, ..node() }, &[]), (7, 7));
    assert_eq!(refused(node(), &whole[1..]), (14, 14));
    assert_eq!(refused(node(), &[0; 4 * SLOT + 1]), (14, 14));
    assert_eq!(refused(node(), &[0; 5 * SLOT]), (14, 14));
    assert_eq!(refused(node(), &whole), (0, 0));
    assert_eq!(refused(Node { round: VALIDATION, ..node() }, &whole[1..]), (7, 14));
    assert_eq!(refused(Node { round: DECISION, ..node() }, &whole), (7, 0));
}

#[test]
fn numbers_and_refusals() {
    // No refusal has 20 to 22.
    assert!((1..=19).chain([23]).eq(Refusal::ALL.into_iter().map(Refusal::number)));
    for refusal in Refusal::ALL {
        assert_eq!(Refusal::from_number(refusal.number()), Some(refusal));
    }
    assert_eq!(Refusal::from_number(15), Some(Refusal::Range));
    assert_eq!(Refusal::from_number(16), Some(Refusal::Residue));
    assert_eq!(Refusal::from_number(17), Some(Refusal::Group));
    assert_eq!(Refusal::from_number(18), Some(Refusal::Count));
    assert_eq!(Refusal::from_number(19), Some(Refusal::Amount));
    assert_eq!(Refusal::from_number(23), Some(Refusal::SameRun));
    assert_eq!([0, 20, 22, 24, 255].map(Refusal::from_number), [None; 5]);
}
