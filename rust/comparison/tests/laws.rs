//! Laws of the operations on generated cases, and that these cases reach every answer.

use comparison::seeds::seeds;
use comparison::slots::counting_slots;
use generators::{crews, inboxes, messages, records, turns, Random};
use second_engine::inbox::{Ballot, SLOT};
use second_engine::message::{ENTRY, ENTRY_PLAN, LAST_PHASE};
use second_engine::{message, plan, rounds, Crew, Node, Refusal, Selection};
use std::collections::BTreeSet;
use std::iter::once;

/// What acceptance gives: the bounds that the proofs of agreement rest on.
#[test]
fn accepted_crews_have_their_bounds() {
    let (mut count, mut divided) = (0, 0);
    for crew in crews::small().filter(|crew| crew.is_accepted()) {
        let [n, b, f, d, c] = [crew.n, crew.b, crew.f, crew.d, crew.c].map(usize::from);
        let e = crew.e();
        assert!(d >= 1 && d > b && n - b - f >= d && n > 3 * b + 2 * f && e >= 2 * b + f, "{crew:?}");
        assert!(b < c && c <= n, "{crew:?}");
        let reachable = n - b - f;
        // How many validators a circle has at least. With c = n, and in class 3, they are always enough.
        let validators = c.saturating_sub(b + f);
        match crew.class {
            1 => assert!(2 * d > n + b && reachable > 2 * e && c == n, "{crew:?}"),
            2 => assert!(reachable > e + b && (c < n || 2 * validators > c + b), "{crew:?}"),
            _ => assert!(reachable > e && 2 * validators > c + b, "{crew:?}"),
        }
        count += 1;
        divided += usize::from(c < n);
    }
    println!("{count} accepted crews, {divided} of them with c below n");
    assert!(count - divided > 1000 && divided > 1000);
}

/// 02 (C-13): "With c = n the cases of 01 and the table of C-11 stand." A crew of which all nodes validate is never
/// refused with 17, and every other answer to a crew is the one to that crew.
#[test]
fn groups_of_all_nodes_change_no_answer() {
    let mut numbers = BTreeSet::new();
    for crew in crews::small() {
        let answer = Crew { c: crew.n, ..crew }.accept();
        assert_ne!(answer, Err(Refusal::Group), "{crew:?}");
        if crew.accept() == Err(Refusal::Group) {
            assert_eq!(answer, Ok(()), "{crew:?}");
        } else {
            assert_eq!(crew.accept(), answer, "{crew:?}");
        }
        numbers.insert(crew.accept().err().map_or(0, Refusal::number));
    }
    assert!(numbers.into_iter().eq([0, 1, 2, 3, 4, 17]));
}

/// Of the crews that are generated, each refusal and each sort of group size comes up in every class.
#[test]
fn crews_of_all_sorts_come_up() {
    let (mut numbers, mut groups) = (BTreeSet::new(), BTreeSet::new());
    for seed in seeds("crews_of_all_sorts_come_up", 40_000) {
        let crew = crews::any(&mut Random::new(seed));
        let [n, b, f, c] = [crew.n, crew.b, crew.f, crew.c].map(usize::from);
        let number = crew.accept().err().map_or(0, Refusal::number);
        numbers.insert((if number == 1 { 0 } else { crew.class }, number));
        if matches!(number, 0 | 17) {
            let sizes = [0, b, b + 1, 3 * b + 2 * f, 3 * b + 2 * f + 1, n - 1, n, n + 1, 255];
            groups.extend((0..).zip(sizes).filter(|&(_, size)| size == c).map(|(sort, _)| (crew.class, sort)));
        }
    }
    let refused = (1..=3).flat_map(|class| [0, 2, 3, 4, 17].map(|number| (class, number)));
    assert!(numbers.into_iter().eq([(0, 1)].into_iter().chain(refused)));
    assert_eq!(groups.len(), 3 * 9);
}

/// The two forms of the turn, the second engine's and the checkers', are one, for every phase of a record. Where c is
/// at most n, the checkers' list of a group has the paper's order.
#[test]
fn both_forms_of_the_turn_are_one() {
    for n in 0..=34 {
        for c in (0..=34).chain([255]) {
            let crew = Crew::new(2, n, 0, 0, 1, c);
            for phase in 0..=u8::MAX {
                let is_in_turn = |q: u8| turns::is_validator(crew, phase, usize::from(q));
                let mut group = [false; 256];
                crew.validators(u64::from(phase)).for_each(|q| group[usize::from(q)] = true);
                assert!((0..=u8::MAX).all(|q| is_in_turn(q) == group[usize::from(q)]), "{crew:?}, phase {phase}");
                let listed = crew.validators(u64::from(phase)).map(usize::from);
                assert!(c > n || turns::group(crew, phase).eq(listed), "{crew:?}, phase {phase}");
            }
        }
    }
}

/// 02 (C-14): "work it out by subtracting". Each group begins where the one before it ends: c further on, and n less
/// where that reaches n. No remainder is in this, and both forms of the turn agree with it.
#[test]
fn groups_follow_one_another_around_the_crew() {
    for n in 1..=32 {
        for c in 1..=n {
            let crew = Crew::new(2, n, 0, 0, 1, c);
            let mut first = 0;
            for phase in 1..=u8::MAX {
                first += c;
                if first >= n {
                    first -= n;
                }
                assert_eq!(crew.validators(u64::from(phase)).next(), Some(first), "{crew:?}, phase {phase}");
                assert_eq!(turns::group(crew, phase).next(), Some(usize::from(first)), "{crew:?}, phase {phase}");
            }
        }
    }
}

/// 02 (C-12): "reading and writing match over slices padded with zeros", here from the fields on.
#[test]
fn fields_within_bounds_round_trip() {
    for seed in seeds("fields_within_bounds_round_trip", 20_000) {
        let random = &mut Random::new(seed);
        let fields = messages::any_within(random);
        let layout = fields.layout();
        let (few, many) = (random.below(5), random.below(2 * SLOT));
        let mut slice = layout.clone();
        slice.resize(layout.len() + random.pick(&[0, few, many]), 0);
        let read = message::read(&slice).unwrap_or_else(|refusal| panic!("seed {seed}: {refusal:?}"));
        assert_eq!(
            (u16::from(read.kind()), read.run, read.phase),
            (fields.kind, fields.run, fields.phase),
            "seed {seed}"
        );
        assert_eq!((read.plan(), read.length()), (fields.plan, layout.len()), "seed {seed}");
        // The one encoding is the layout; bytes behind it keep their values.
        let mut buffer = vec![9; slice.len()];
        let entries = message::entries(&slice);
        assert_eq!(message::encode(&read, entries, &mut buffer), Ok(layout.len()), "seed {seed}");
        assert_eq!(buffer[..layout.len()], layout, "seed {seed}");
        assert!(buffer[layout.len()..].iter().all(|&byte| byte == 9), "seed {seed}");
        // A buffer one byte shorter is refused and keeps its bytes.
        let mut short = vec![9; layout.len() - 1];
        assert_eq!(message::encode(&read, entries, &mut short), Err(Refusal::ShortBuffer), "seed {seed}");
        assert!(short.iter().all(|&byte| byte == 9), "seed {seed}");
    }
}

/// A look at every entry finds what the second engine looks up, also at phases that no message has.
#[test]
fn what_is_listed_at_a_phase_is_found() {
    for seed in seeds("what_is_listed_at_a_phase_is_found", 2_000) {
        let slice = messages::any_within(&mut Random::new(seed)).layout();
        let entries = message::entries(&slice);
        let ballot = Ballot { entries, ..Ballot::default() };
        for phase in 0..=u8::MAX {
            let entry = entries.chunks_exact(ENTRY).find(|entry| entry[0] == phase);
            let listed = entry.map(|entry| plan::at(entry, ENTRY_PLAN));
            assert_eq!(ballot.listed_at(phase), listed, "seed {seed}, phase {phase}");
        }
    }
}

/// And from the slice on: it is the encoding of its message, and zeros. So its length and the message are the whole of
/// it.
#[test]
fn what_is_read_is_written_back() {
    let mut numbers = BTreeSet::new();
    for seed in seeds("what_is_read_is_written_back", 40_000) {
        let slice = messages::any(&mut Random::new(seed));
        match message::read(&slice) {
            Ok(read) => {
                let mut buffer = vec![0; slice.len()];
                assert_eq!(
                    message::encode(&read, message::entries(&slice), &mut buffer),
                    Ok(read.length()),
                    "seed {seed}"
                );
                assert_eq!(buffer, slice, "seed {seed}");
            }
            Err(refusal) => {
                assert!(message::entries(&slice).is_empty(), "seed {seed}");
                numbers.insert(refusal.number());
            }
        }
    }
    assert!(numbers.into_iter().eq((10..=13).chain([16])));
}

#[test]
fn what_a_record_writes_is_read_to_its_fields() {
    let (mut numbers, mut rests, mut silences) = (BTreeSet::new(), BTreeSet::new(), BTreeSet::new());
    for seed in seeds("what_a_record_writes_is_read_to_its_fields", 20_000) {
        let random = &mut Random::new(seed);
        let node = records::any(random);
        let length = random.below(SLOT + 28);
        let before = if random.chance(1, 2) { vec![0; length] } else { random.bytes(length) };
        let mut after = before.clone();
        match node.write(&mut after) {
            Ok(length) => {
                assert!(node.is_sound() && node.phase < Node::SPENT, "seed {seed}");
                assert_eq!(after[length..], before[length..], "seed {seed}");
                let is_in_turn = turns::may_count(node.crew, node.phase, node.round, usize::from(node.own));
                assert_eq!(length == 0, node.round == 2 && (node.select == 0 || !is_in_turn), "seed {seed}");
                if node.round == 2 {
                    silences.insert((node.select == 0, is_in_turn));
                }
                if length > 0 {
                    let (bytes, rest) = after.split_at(length);
                    let read = message::read(bytes).unwrap_or_else(|refusal| panic!("seed {seed}: {refusal:?}"));
                    assert_eq!((read.length(), read.kind()), (length, node.round), "seed {seed}");
                    assert_eq!((read.run, read.phase), (node.run, node.phase), "seed {seed}");
                    let plan = if node.round == 2 { node.select } else { node.vote };
                    let stamp = if node.round == 2 { 0 } else { node.stamp };
                    assert_eq!((read.plan(), read.stamp()), (plan, stamp), "seed {seed}");
                    let listed: Vec<u8> = (0..node.phase)
                        .map(|phase| (phase, node.history[usize::from(phase)]))
                        .filter(|&(_, plan)| plan != 0 && node.crew.class == 3 && node.round == 1)
                        .flat_map(|(phase, plan)| once(phase).chain(plan.to_le_bytes()))
                        .collect();
                    assert_eq!(message::entries(bytes), listed, "seed {seed}");
                    // What stood in the buffer before is residue now, unless it is zero.
                    let is_clear = rest.iter().all(|&byte| byte == 0);
                    let whole = if is_clear { (Ok(read), &listed[..]) } else { (Err(Refusal::Residue), &[][..]) };
                    assert_eq!((message::read(&after), message::entries(&after)), whole, "seed {seed}");
                    rests.insert((read.kind(), is_clear));
                }
            }
            Err(refusal) => {
                assert_eq!(after, before, "seed {seed}");
                numbers.insert(refusal.number());
            }
        }
    }
    assert!(numbers.into_iter().eq(7..=9));
    assert_eq!(rests.len(), 6);
    // With something to say or nothing, in turn or not.
    assert_eq!(silences.len(), 4);
}

/// Also: every refusal, and every answer of the selection in every class, comes up in these cases.
#[test]
fn accepted_takes_leave_sound_records_and_refused_ones_leave_all() {
    let (mut asked, mut taken) = (BTreeSet::new(), BTreeSet::new());
    let (mut validated, mut decided) = (BTreeSet::new(), BTreeSet::new());
    for seed in seeds("accepted_takes_leave_sound_records_and_refused_ones_leave_all", 20_000) {
        let (node, inbox) = inboxes::case(&mut Random::new(seed));
        let class = node.crew.class;
        let answer = rounds::ask(&node, &inbox);
        let mut after = node;
        match rounds::take(&mut after, &inbox) {
            Ok(()) => {
                assert!(node.is_sound() && after.is_sound(), "seed {seed}");
                assert_eq!((after.crew, after.own, after.run), (node.crew, node.own, node.run), "seed {seed}");
                assert_eq!(answer.is_ok(), node.round == 1, "seed {seed}");
                match node.round {
                    2 => _ = validated.insert((class, after.stamp == node.phase)),
                    3 => _ = decided.insert((class, node.result != 0, after.result != node.result)),
                    _ => (),
                }
            }
            Err(refusal) => {
                assert_eq!(after, node, "seed {seed}");
                assert!(answer.is_err(), "seed {seed}");
                taken.insert(refusal.number());
            }
        }
        let kind = match answer {
            Ok(Selection::Plan(_)) => 101,
            Ok(Selection::Any) => 102,
            Ok(Selection::None) => 103,
            Err(refusal) => refusal.number(),
        };
        asked.insert((if kind > 100 { class } else { 0 }, kind));
    }
    assert!(taken.into_iter().eq([7, 8, 14]));
    let refused = [(0, 7), (0, 8), (0, 14)];
    let answered = (1..=3).flat_map(|class| (101..=103).map(move |kind| (class, kind)));
    assert!(asked.into_iter().eq(refused.into_iter().chain(answered)));
    assert_eq!(validated.len(), 4);
    // A result stands for good, so three of the four combinations in each class.
    assert_eq!(decided.len(), 9);
}

/// Selections of class 3, in which places are told by slot and phase, come up with every number of slots and in every
/// phase.
#[test]
fn selections_of_class_3_are_of_every_size_and_phase() {
    let (mut sizes, mut phases) = (BTreeSet::new(), BTreeSet::new());
    for seed in seeds("selections_of_class_3_are_of_every_size_and_phase", 40_000) {
        let (node, inbox) = inboxes::case(&mut Random::new(seed));
        if node.crew.class == 3 && rounds::ask(&node, &inbox).is_ok() {
            sizes.insert(node.crew.n);
            phases.insert(node.phase);
        }
    }
    assert!(sizes.into_iter().eq(1..=Crew::MOST_NODES as u8));
    assert!(phases.into_iter().eq(1..=LAST_PHASE));
}

/// What is told of the slots that count: they are refused with the take's numbers, else each slot that counts has its
/// mark and no other has. The slots without one play no part in the answers. All marks come up, in every round of every
/// class, with no mark and with all of them.
#[test]
fn marks_are_those_of_the_slots_that_count() {
    let (mut numbers, mut rounds_told, mut all) = (BTreeSet::new(), BTreeSet::new(), 0);
    for seed in seeds("marks_are_those_of_the_slots_that_count", 20_000) {
        let (node, inbox) = inboxes::case(&mut Random::new(seed));
        let answers = |inbox: &[u8]| {
            let mut after = node;
            (rounds::ask(&node, inbox), rounds::take(&mut after, inbox), after)
        };
        match rounds::marks(&node, &inbox) {
            Ok(marks) => {
                let counting = counting_slots(node.crew, node.run, node.phase, node.round, &inbox);
                let bits = counting.iter().enumerate().map(|(q, slot)| u32::from(slot.is_some()) << q);
                assert_eq!(marks, bits.sum(), "seed {seed}");
                let mut marked = inbox.clone();
                let unmarked = marked.chunks_exact_mut(SLOT).enumerate().filter(|(q, _)| marks & (1 << q) == 0);
                unmarked.for_each(|(_, slot)| slot.fill(0));
                assert_eq!(answers(&marked), answers(&inbox), "seed {seed}");
                assert_eq!(rounds::marks(&node, &marked), Ok(marks), "seed {seed}");
                let is_full = marks.count_ones() == u32::from(node.crew.n);
                rounds_told.insert((node.crew.class, node.round, marks == 0, is_full));
                all |= marks;
            }
            Err(refusal) => {
                assert_eq!(answers(&inbox).1, Err(refusal), "seed {seed}");
                numbers.insert(refusal.number());
            }
        }
    }
    assert!(numbers.into_iter().eq([7, 8, 14]));
    assert_eq!(all, u32::MAX);
    // Rounds 1 and 3 in class 1, all three in the others; no mark, some or all.
    assert_eq!(rounds_told.len(), 8 * 3);
}

/// 02 (C-13): "others are silent in round 2 and their slots there don't count". In round 2 whatever stands in the
/// others' slots plays no part, and it is often what would count in their turn; in rounds 1 and 3 it counts.
#[test]
fn slots_of_others_play_no_part_in_round_2() {
    let (mut cases, mut counted) = (0, BTreeSet::new());
    for seed in seeds("slots_of_others_play_no_part_in_round_2", 20_000) {
        let random = &mut Random::new(seed);
        let Some((node, inbox)) = inboxes::unspent_case(random) else { continue };
        let marks = rounds::marks(&node, &inbox).expect("the call is in order");
        let is_other = |q: usize| !turns::is_validator(node.crew, node.phase, q);
        let everybody = Crew { c: node.crew.n, ..node.crew };
        let fit = counting_slots(everybody, node.run, node.phase, node.round, &inbox);
        let others: Vec<usize> = (0..fit.len()).filter(|&q| is_other(q) && fit[q].is_some()).collect();
        if others.is_empty() {
            continue;
        }
        let is_marked = others.iter().any(|&q| marks & (1 << q) != 0);
        assert_eq!(is_marked, node.round != 2, "seed {seed}");
        counted.insert((node.crew.class, node.round));
        if node.round == 2 {
            let taken = |inbox: &[u8]| {
                let mut after = node;
                (rounds::take(&mut after, inbox), after, rounds::marks(&node, inbox))
            };
            let mut other = inbox.clone();
            let slots = other.chunks_exact_mut(SLOT).enumerate().filter(|(q, _)| is_other(*q));
            slots.for_each(|(_, slot)| inboxes::fill(slot, &messages::any(random)));
            assert_eq!(taken(&other), taken(&inbox), "seed {seed}");
            cases += 1;
        }
    }
    println!("others' slots stood in {cases} inboxes of round 2");
    // All three rounds in classes 2 and 3.
    assert!(counted.into_iter().eq([(2, 1), (2, 2), (2, 3), (3, 1), (3, 2), (3, 3)]));
}

/// 01: "Two inboxes with the same counting messages, each in as many slots of one as of the other, give the same
/// answers." In round 2 these are slots of validators.
#[test]
fn the_order_of_slots_and_absent_slots_play_no_part() {
    for seed in seeds("the_order_of_slots_and_absent_slots_play_no_part", 10_000) {
        let random = &mut Random::new(seed);
        let Some((node, inbox)) = inboxes::unspent_case(random) else { continue };
        let mut other = vec![0; inbox.len()];
        let counting = counting_slots(node.crew, node.run, node.phase, node.round, &inbox);
        let may_count = |q: &usize| turns::may_count(node.crew, node.phase, node.round, *q);
        let places: Vec<usize> = (0..counting.len()).filter(may_count).collect();
        let mut order = places.clone();
        random.shuffle(&mut order);
        for (place, from) in places.into_iter().zip(order) {
            if let Some(slot) = counting[from] {
                inboxes::fill(&mut other[SLOT * place..SLOT * (place + 1)], slot.bytes);
            }
        }
        let (mut one, mut second) = (node, node);
        assert_eq!(rounds::ask(&node, &inbox), rounds::ask(&node, &other), "seed {seed}");
        assert_eq!(rounds::take(&mut one, &inbox), rounds::take(&mut second, &other), "seed {seed}");
        assert_eq!(one, second, "seed {seed}");
    }
}
