//! The groups of validators (02, C-13), given to two engines, however these find a group's first node (C-14). There are
//! few enough to leave none out, so they need no seeds. What each call has to give is known, from the papers.

use crate::cases::{expect, same};
use crate::engine::Engine;
use crate::pair::Pair;
use generators::messages::Fields;
use generators::turns;
use second_engine::inbox::SLOT;
use second_engine::message::{LAST_PHASE, VALIDATION_LENGTH};
use second_engine::node::{DECISION, VALIDATION};
use second_engine::{Crew, Node, Plan, Refusal};

/// A group: that of a crew in a phase.
#[derive(Clone, Copy, Debug, PartialEq, Eq)]
pub struct Group {
    pub crew: Crew,
    pub phase: u8,
}

/// Every group that a record can come to: n 1 to 32, c 1 to n, phase 1 to 63, in classes 2 and 3.
pub fn every() -> impl Iterator<Item = Group> {
    [2, 3].into_iter().flat_map(crews).flat_map(|crew| (1..=LAST_PHASE).map(move |phase| Group { crew, phase }))
}

/// The crews of a class in which nobody lies and nobody is out of reach, so that every c from 1 to n is accepted.
fn crews(class: u8) -> impl Iterator<Item = Crew> {
    (1..=Crew::MOST_NODES as u8).flat_map(move |n| (1..=n).map(move |c| Crew::new(class, n, 0, 0, n, c)))
}

/// The run of all records and messages.
const RUN: u32 = 0x0403_0201;
/// The plans that a node began with and that it selected, and those that slots say. No two are the same.
const BEGUN: Plan = 5;
const SELECTED: Plan = 7;
const SAID: Plan = 9;
const RIVAL: Plan = 8;
/// A buffer of marks: longer than a validation, so that some have to stay.
const MARKS: [u8; VALIDATION_LENGTH + 5] = [0xa5; VALIDATION_LENGTH + 5];

impl Group {
    fn nodes(&self) -> usize {
        usize::from(self.crew.n)
    }

    /// The group's nodes, its first node first.
    fn members(&self) -> Vec<usize> {
        turns::group(self.crew, self.phase).collect()
    }

    /// The record of this node before round 2. It has something to say, so that only the turn makes it silent.
    fn record(&self, own: usize) -> Node {
        let mut history = [0; Node::ENTRIES];
        history[0] = BEGUN;
        history[usize::from(self.phase)] = SELECTED;
        let (crew, own, run, phase, round) = (self.crew, own as u8, RUN, self.phase, VALIDATION);
        let (vote, base, stamp, select, result) = (SELECTED, BEGUN, 0, SELECTED, 0);
        Node { crew, own, run, phase, round, vote, base, stamp, select, result, history }
    }

    /// The record of the node that takes this poll. Its number goes with the poll and, more slowly, with the phase, so
    /// that it does not keep step with the group.
    pub fn taker(&self, poll: usize) -> Node {
        self.record((usize::from(self.phase) / 3 + 5 * poll) % self.nodes())
    }

    /// A validation of the phase, as it is written and as it would count.
    fn validation(&self, plan: Plan) -> Vec<u8> {
        let kind = u16::from(VALIDATION);
        Fields { kind, run: RUN, phase: self.phase, plan, stamp: 0, k: 0, entries: Vec::new() }.layout()
    }

    /// An inbox with these plans, an empty slot for 0.
    fn inbox(&self, plans: &[Plan]) -> Vec<u8> {
        let mut inbox = vec![0; SLOT * self.nodes()];
        let messages = [SAID, RIVAL].map(|plan| (plan, self.validation(plan)));
        for (slot, said) in inbox.chunks_exact_mut(SLOT).zip(plans) {
            for (_, message) in messages.iter().filter(|(plan, _)| plan == said) {
                slot[..message.len()].copy_from_slice(message);
            }
        }
        inbox
    }

    /// 02 (C-13): "the test becomes 2 × count > c + b". The least count that passes it.
    pub fn needed(&self) -> usize {
        (usize::from(self.crew.c) + usize::from(self.crew.b)) / 2 + 1
    }

    /// Three choices of as many of the group as are needed: its first ones, its last ones from the last on, and every
    /// second one, with the last of all where these are too few.
    fn choices(&self) -> [Vec<usize>; 3] {
        let (members, needed) = (self.members(), self.needed());
        let last = members.len() - 1;
        let is_gapped = |&(place, _): &(usize, usize)| place % 2 == 0 || place == last;
        [
            members.iter().copied().take(needed).collect(),
            members.iter().copied().rev().take(needed).collect(),
            members.iter().copied().enumerate().filter(is_gapped).map(|(_, q)| q).take(needed).collect(),
        ]
    }

    /// The polls of the group. Who is chosen says one plan, and the rest of the group nothing. As many as are needed
    /// validate it, whatever the others say. One fewer do not: nor do the others for them, by another plan or by the
    /// same. So a slot of the group that is missed, and a slot of another that is counted, turns an answer.
    pub fn polls(&self) -> Vec<Poll> {
        let polls = |choice: Vec<usize>| {
            [
                Poll { plans: self.plans(&choice, RIVAL), is_validated: true },
                Poll { plans: self.plans(&choice[1..], RIVAL), is_validated: false },
                Poll { plans: self.plans(&choice[1..], SAID), is_validated: false },
            ]
        };
        self.choices().into_iter().flat_map(polls).collect()
    }

    /// What each slot says where these of the group speak, and all who are not in the group.
    fn plans(&self, speakers: &[usize], of_others: Plan) -> Vec<Plan> {
        let mut plans = vec![of_others; self.nodes()];
        self.members().into_iter().for_each(|q| plans[q] = 0);
        speakers.iter().for_each(|&q| plans[q] = SAID);
        plans
    }
}

/// A round 2: what each slot says, 0 for nothing, and whether a plan is validated.
#[derive(Clone, Debug, PartialEq, Eq)]
pub struct Poll {
    pub plans: Vec<Plan>,
    pub is_validated: bool,
}

/// What an engine answers for a group.
#[derive(Clone, Debug, PartialEq, Eq)]
pub struct Answers {
    /// To the write of every node, with the buffer after it.
    pub writes: Vec<(Result<usize, Refusal>, Vec<u8>)>,
    /// Which slots count where every slot says something.
    pub marks: Result<u32, Refusal>,
    /// To the take of every poll, with the record after it.
    pub takes: Vec<(Result<(), Refusal>, Node)>,
}

/// Gives every group to both engines, prints how many there were, and tells the first difference.
pub fn check_every(pair: Pair) -> Result<(), String> {
    let mut count = 0;
    for group in every() {
        check(pair, &group)?;
        count += 1;
    }
    println!("groups: all {count} the same");
    Ok(())
}

/// Gives a group to both engines, and tells where they differ or do not answer as the papers say.
pub fn check(pair: Pair, group: &Group) -> Result<(), String> {
    let accept = |engine: &dyn Engine| same(group, engine.accept(group.crew), Ok(()));
    accept(pair.engine)?;
    pair.other.map_or(Ok(()), accept)?;
    let (given, right) = (answers(pair, group)?, right(group));
    for (own, (given, right)) in given.writes.iter().zip(&right.writes).enumerate() {
        expect(given == right, || format!("{group:?}, node {own} writes {given:?}, not {right:?}"))?;
    }
    expect(given.marks == right.marks, || format!("{group:?}, marks {:?}, not {:?}", given.marks, right.marks))?;
    for ((given, right), poll) in given.takes.iter().zip(&right.takes).zip(group.polls()) {
        expect(given == right, || format!("{group:?}, {poll:?} gives {given:?}, not {right:?}"))?;
    }
    expect(given == right, || format!("{group:?}, an answer is missing"))
}

/// What the engine answers. Where there is another, both have to give the same.
pub fn answers(pair: Pair, group: &Group) -> Result<Answers, String> {
    let writes = (0..group.nodes()).map(|own| pair.write(group.record(own), &MARKS));
    let marks = pair.marks(group.taker(0), &group.inbox(&vec![SAID; group.nodes()]));
    let take = |(number, poll): (usize, Poll)| pair.take(group.taker(number), &group.inbox(&poll.plans));
    let takes = group.polls().into_iter().enumerate().map(take);
    Ok(Answers { writes: writes.collect::<Result<_, _>>()?, marks: marks?, takes: takes.collect::<Result<_, _>>()? })
}

/// What the papers say.
fn right(group: &Group) -> Answers {
    let is_in_turn = |q: usize| turns::is_validator(group.crew, group.phase, q);
    // 01: "round 2 select"; 02 (C-13): "others are silent in round 2 and their slots there don't count"
    let write = |own: usize| if is_in_turn(own) { written(&group.validation(SELECTED)) } else { written(&[]) };
    let marks = (0..group.nodes()).filter(|&q| is_in_turn(q)).fold(0, |marks, q| marks | 1 << q);
    let take = |(number, poll): (usize, Poll)| (Ok(()), taken(group.taker(number), poll.is_validated));
    Answers {
        writes: (0..group.nodes()).map(write).collect(),
        marks: Ok(marks),
        takes: group.polls().into_iter().enumerate().map(take).collect(),
    }
}

/// The answer to a write of this message, and the buffer after it. Silence is a message of no bytes.
fn written(message: &[u8]) -> (Result<usize, Refusal>, Vec<u8>) {
    let mut buffer = MARKS.to_vec();
    buffer[..message.len()].copy_from_slice(message);
    (Ok(message.len()), buffer)
}

/// 01: "vote and base become it and stamp becomes the phase; otherwise vote becomes base"
fn taken(before: Node, is_validated: bool) -> Node {
    let after = Node { round: DECISION, ..before };
    if is_validated {
        Node { vote: SAID, base: SAID, stamp: before.phase, ..after }
    } else {
        Node { vote: before.base, ..after }
    }
}
