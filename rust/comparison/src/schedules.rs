//! Schedules (C-17), where nodes are out of step: made on an engine, then given again as plain data, and what is
//! claimed of them. Both engines answer alike; results agree; exchanged neighbours and the lock-step list give the same
//! records. A node's round is counted by its own accepted takes, its first is round 0.

use crate::cases::expect;
use crate::decisions::Decisions;
use crate::exchanges;
use crate::pair::Pair;
use crate::regrouping::{self, Regrouping};
use crate::runs::check_place;
use crate::slots::{self, counting_slots, is_holding};
use generators::runs::{place, Setup};
use generators::schedules::{self, Call, Event, Maker, Schedule};
use generators::Random;
use second_engine::inbox::SLOT;
use second_engine::{Crew, Node, Plan, Refusal, Selection};
use std::collections::BTreeMap;
use std::fmt::Write;

/// A schedule of any class.
pub fn drive(random: &mut Random, pair: Pair) -> Result<Tally, String> {
    let class = random.between(1, 3) as u8;
    drive_class(random, class, pair)
}

/// A schedule of this class. The error tells the claim that failed, or the answers that differ.
pub fn drive_class(random: &mut Random, class: u8, pair: Pair) -> Result<Tally, String> {
    let schedule = make(random, class, pair)?;
    check(random, &schedule, pair).map_err(|failure| format!("{failure}\n{}", show(&schedule)))
}

/// Makes a schedule on the engine, call by call.
pub fn make(random: &mut Random, class: u8, pair: Pair) -> Result<Schedule, String> {
    let crew = schedules::crew(random, class);
    let mut maker = Maker::new(random, crew);
    let (mut records, _) = pair.start(&maker.setup)?;
    let mut events = Vec::new();
    while let Some(event) = maker.next(random, &records) {
        let node = records[event.own].as_mut().ok_or("no such node")?;
        match answer_to(pair, node, &event.call)? {
            Answer::Written(Ok(bytes)) => maker.note_written(event.own, &bytes),
            Answer::Taken(Ok(())) => maker.note_taken(event.own),
            _ => (),
        }
        events.push(event);
    }
    Ok(Schedule { setup: maker.setup, events })
}

/// All claims on one schedule. The random numbers choose which neighbours are exchanged.
pub fn check(random: &mut Random, schedule: &Schedule, pair: Pair) -> Result<Tally, String> {
    let setup = &schedule.setup;
    let replay = replay(pair, setup, &schedule.events)?;
    check_premise(setup, replay.steps.iter().map(|step| (step.round, step)))?;
    check_decisions(setup, &replay)?;
    let losses = regrouping::losses(setup.crew);
    let list = regrouping::regroup(Regrouping::ByOwnRound, setup, &replay, &losses);
    regrouping::check(pair, setup, &replay, &list).map_err(|failure| format!("the list: {failure}"))?;
    let swaps = exchanges::check(random, pair, setup, &replay).map_err(|failure| format!("exchanged: {failure}"))?;
    let listed: usize = list.iter().map(Vec::len).sum();
    Ok(Tally { padded: listed - replay.steps.len(), swaps, ..Tally::new(setup, &replay) })
}

/// The answer to a call on a record.
#[derive(Clone, Debug, PartialEq, Eq)]
pub enum Answer {
    /// The bytes that were put at the buffer's front, none for silence.
    Written(Result<Vec<u8>, Refusal>),
    Asked(Result<Selection, Refusal>),
    Taken(Result<(), Refusal>),
}

impl Answer {
    /// The refusal, if the call was refused.
    pub fn refusal(&self) -> Option<Refusal> {
        match self {
            Answer::Written(answer) => answer.as_ref().err().copied(),
            Answer::Asked(answer) => answer.err(),
            Answer::Taken(answer) => answer.err(),
        }
    }
}

/// A call of a list that was played, with its answer.
#[derive(Clone, Debug)]
pub struct Step<'a> {
    pub event: &'a Event,
    /// The round of its node that the call is in: how many takes of that node were accepted before.
    pub round: usize,
    pub answer: Answer,
}

impl<'a> Step<'a> {
    /// What the call wrote, if it wrote anything.
    pub fn written(&self) -> Option<&[u8]> {
        match &self.answer {
            Answer::Written(Ok(bytes)) if !bytes.is_empty() => Some(bytes),
            _ => None,
        }
    }

    /// The inbox that the call took, if it was accepted.
    pub fn taken(&self) -> Option<&'a [u8]> {
        match (&self.event.call, &self.answer) {
            (Call::Take(inbox), Answer::Taken(Ok(()))) => Some(inbox),
            _ => None,
        }
    }
}

/// A list of calls that was played.
#[derive(Clone, Debug)]
pub struct Replay<'a> {
    pub steps: Vec<Step<'a>>,
    /// By own number, the record after each number of accepted takes, from the start's on; of a Byzantine node none.
    pub records: Vec<Vec<Node>>,
    /// The plans that the honest nodes start with.
    initial: Vec<Plan>,
}

/// Plays a list of calls, in any grouping: starts first, and each call on the record that its node has by then.
pub fn replay<'a>(
    pair: Pair,
    setup: &Setup,
    events: impl IntoIterator<Item = &'a Event>,
) -> Result<Replay<'a>, String> {
    let (started, initial) = pair.start(setup)?;
    let mut records: Vec<Vec<Node>> = started.into_iter().map(|node| node.into_iter().collect()).collect();
    let mut steps = Vec::new();
    for event in events {
        let mut node = *records[event.own].last().ok_or("no such node")?;
        let round = records[event.own].len() - 1;
        let tell = |failure| format!("node {}, its round {round}: {failure}", event.own);
        let answer = answer_to(pair, &mut node, &event.call).map_err(tell)?;
        check_refusal(setup.crew, round, &event.call, &answer).map_err(tell)?;
        let step = Step { event, round, answer };
        if step.taken().is_some() {
            check_place(setup.crew, &node, round + 1).map_err(tell)?;
            records[event.own].push(node);
        }
        steps.push(step);
    }
    Ok(Replay { steps, records, initial })
}

/// Makes the call; an accepted take changes the record.
fn answer_to(pair: Pair, node: &mut Node, call: &Call) -> Result<Answer, String> {
    Ok(match call {
        Call::Write(buffer) => {
            let (answer, after) = pair.write(*node, buffer)?;
            let length = answer.unwrap_or(0);
            expect(length <= buffer.len(), || format!("wrote {length} bytes into {}", buffer.len()))?;
            expect(after[length..] == buffer[length..], || "wrote behind the message".to_string())?;
            Answer::Written(answer.map(|length| after[..length].to_vec()))
        }
        Call::Ask(inbox) => Answer::Asked(pair.ask(*node, inbox)?),
        Call::Take(inbox) => {
            let (answer, after) = pair.take(*node, inbox)?;
            *node = after;
            Answer::Taken(answer)
        }
    })
}

/// 01's refusals by the node's own round: any call when spent, an ask outside round 1, a wrong length. Whether a buffer
/// is short is the engine's to say, but one that holds the longest message is not.
fn check_refusal(crew: Crew, round: usize, call: &Call, answer: &Answer) -> Result<(), String> {
    let refusal = answer.refusal();
    let right = SLOT * usize::from(crew.n);
    let expected = match (place(crew, round), call) {
        (None, _) => Some(Refusal::Spent),
        (_, Call::Write(buffer)) if buffer.len() < SLOT => refusal.and(Some(Refusal::ShortBuffer)),
        (_, Call::Write(_)) => None,
        (Some((_, 2 | 3)), Call::Ask(_)) => Some(Refusal::NotSound),
        (_, Call::Ask(inbox) | Call::Take(inbox)) => (inbox.len() != right).then_some(Refusal::InboxLength),
    };
    expect(refusal == expected, || format!("refused with {refusal:?}, not {expected:?}"))
}

/// The premise on slots. Each step comes with the round that it belongs to: of its node in a schedule, of the list in a
/// list of rounds. An honest slot that counts holds what its node wrote in the round of that number, in a call that
/// stands earlier.
pub fn check_premise<'a>(setup: &Setup, steps: impl IntoIterator<Item = (usize, &'a Step<'a>)>) -> Result<(), String> {
    let mut written: BTreeMap<(usize, usize), Vec<&[u8]>> = BTreeMap::new();
    for (round, step) in steps {
        let own = step.event.own;
        written.entry((round, own)).or_default().extend(step.written());
        let (Some(inbox), Some((phase, number))) = (step.taken(), place(setup.crew, step.round)) else { continue };
        let is_written = |from: usize| {
            let known = written.get(&(round, from));
            known.is_some_and(|known| known.iter().any(|bytes| is_holding(inbox, from, bytes)))
        };
        slots::check_premise(setup, &counting_slots(setup.crew, setup.run, phase, number, inbox), is_written)
            .map_err(|failure| format!("take of node {own} in round {round}: {failure}"))?;
    }
    Ok(())
}

/// Results, agreement and common start, after every decision round of any node and at the end.
pub fn check_decisions(setup: &Setup, replay: &Replay) -> Result<(), String> {
    let mut decisions = Decisions::new(setup.crew, &replay.initial);
    let mut records: Vec<Option<Node>> = replay.records.iter().map(|records| records.first().copied()).collect();
    for step in &replay.steps {
        let Some(inbox) = step.taken() else { continue };
        let own = step.event.own;
        records[own] = Some(replay.records[own][step.round + 1]);
        if let Some((phase, 3)) = place(setup.crew, step.round) {
            decisions.note(own, phase, &counting_slots(setup.crew, setup.run, phase, 3, inbox));
            decisions.check(&records)?;
        }
    }
    decisions.check(&records)
}

/// How the schedule begins, and its calls by node and kind.
fn show(schedule: &Schedule) -> String {
    let mut text = format!("setup: {:?}\ncalls:", schedule.setup);
    for event in &schedule.events {
        let (kind, bytes) = match &event.call {
            Call::Write(buffer) => ("write", buffer),
            Call::Ask(inbox) => ("ask", inbox),
            Call::Take(inbox) => ("take", inbox),
        };
        let _ = write!(text, " {}:{kind}({})", event.own, bytes.len());
    }
    text
}

/// From how many rounds on two nodes are called apart.
const APART: usize = 3;

/// What happened in schedules, to see that all sorts are made.
#[derive(Clone, Copy, Debug, Default, PartialEq, Eq)]
pub struct Tally {
    pub schedules: usize,
    pub events: usize,
    /// The greatest distance in rounds that two nodes had at any time.
    pub distance: usize,
    /// Schedules with nodes that were three rounds apart or more.
    pub apart: usize,
    pub decided: usize,
    pub undecided: usize,
    /// Nodes that decided when another was three rounds away or more.
    pub decided_apart: usize,
    pub common_starts: usize,
    /// Schedules of crews in which not all nodes validate in a phase,
    pub in_turn: usize,
    /// and nodes that decided there.
    pub decided_in_turn: usize,
    /// Nodes that came to the spent mark.
    pub spent: usize,
    /// Rounds that were taken without a call to write.
    pub unwritten: usize,
    /// Takes that the list adds, each a loss.
    pub padded: usize,
    pub swaps: usize,
    /// Refused calls: asks outside round 1 (7),
    pub late_asks: usize,
    /// calls of spent nodes (8),
    pub spent_calls: usize,
    /// writes into short buffers (9),
    pub short_buffers: usize,
    /// asks of a wrong length (14),
    pub wrong_asks: usize,
    /// and takes of a wrong length (14).
    pub wrong_takes: usize,
}

impl Tally {
    /// What the calls and records of a schedule show; padding and swaps are for others to add.
    fn new(setup: &Setup, replay: &Replay) -> Tally {
        let initial = &replay.initial;
        let mut tally = Tally {
            schedules: 1,
            events: replay.steps.len(),
            common_starts: usize::from(initial.iter().all(|plan| *plan == initial[0])),
            ..Tally::default()
        };
        let mut taken = vec![0; setup.is_honest.len()];
        let mut has_called = vec![false; setup.is_honest.len()];
        for step in &replay.steps {
            let own = step.event.own;
            tally.add_refusal(step);
            has_called[own] |= matches!(step.event.call, Call::Write(_));
            if step.taken().is_some() {
                taken[own] += 1;
                tally.unwritten += usize::from(!std::mem::take(&mut has_called[own]));
                tally.add_take(setup, replay, step, &taken);
            }
        }
        for node in replay.records.iter().filter_map(|records| records.last()) {
            tally.decided += usize::from(node.result != 0);
            tally.undecided += usize::from(node.result == 0);
            tally.spent += usize::from(node.phase == Node::SPENT);
        }
        tally.apart = usize::from(tally.distance >= APART);
        tally.in_turn = usize::from(setup.crew.c < setup.crew.n);
        tally.decided_in_turn = tally.in_turn * tally.decided;
        tally
    }

    fn add_refusal(&mut self, step: &Step) {
        let count = match (step.answer.refusal(), &step.event.call) {
            (Some(Refusal::NotSound), _) => &mut self.late_asks,
            (Some(Refusal::Spent), _) => &mut self.spent_calls,
            (Some(Refusal::ShortBuffer), _) => &mut self.short_buffers,
            (Some(Refusal::InboxLength), Call::Ask(_)) => &mut self.wrong_asks,
            (Some(Refusal::InboxLength), _) => &mut self.wrong_takes,
            _ => return,
        };
        *count += 1;
    }

    /// How far the others are from a node that has just taken a round.
    fn add_take(&mut self, setup: &Setup, replay: &Replay, step: &Step, taken: &[usize]) {
        let own = step.event.own;
        let distance = setup.honest().into_iter().map(|other| taken[own].abs_diff(taken[other])).max().unwrap_or(0);
        self.distance = self.distance.max(distance);
        let (before, after) = (replay.records[own][step.round], replay.records[own][step.round + 1]);
        self.decided_apart += usize::from(before.result != after.result && distance >= APART);
    }

    /// Adds another schedule, or many.
    pub fn add(&mut self, other: Tally) {
        self.schedules += other.schedules;
        self.events += other.events;
        self.distance = self.distance.max(other.distance);
        self.apart += other.apart;
        self.decided += other.decided;
        self.undecided += other.undecided;
        self.decided_apart += other.decided_apart;
        self.common_starts += other.common_starts;
        self.in_turn += other.in_turn;
        self.decided_in_turn += other.decided_in_turn;
        self.spent += other.spent;
        self.unwritten += other.unwritten;
        self.padded += other.padded;
        self.swaps += other.swaps;
        self.late_asks += other.late_asks;
        self.spent_calls += other.spent_calls;
        self.short_buffers += other.short_buffers;
        self.wrong_asks += other.wrong_asks;
        self.wrong_takes += other.wrong_takes;
    }
}
