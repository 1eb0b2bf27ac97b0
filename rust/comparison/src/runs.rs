//! Whole runs: one engine is driven through a generated list, the properties of demand 3 are checked after each round,
//! and a second engine, if there is one, has to give the same answers to all calls.

use crate::cases::expect;
use crate::decisions::Decisions;
use crate::engine::Engine;
use crate::pair::Pair;
use crate::slots::{check_premise, counting_slots, is_holding, Slot};
use generators::runs::{self, Scene, Setup, Weather};
use generators::{turns, Random};
use second_engine::inbox::SLOT;
use second_engine::message::VALIDATION_LENGTH;
use second_engine::node::VALIDATION;
use second_engine::{Crew, Node, Refusal, Selection};

/// What happened in a run, to see that runs of all sorts are made.
#[derive(Clone, Copy, Debug, Default, PartialEq, Eq)]
pub struct Tally {
    pub rounds: usize,
    pub spent_rounds: usize,
    pub decided: usize,
    pub undecided: usize,
    pub good_phases: usize,
    /// First decisions in the round 3 of a good phase.
    pub decided_in_good: usize,
    /// Of crews in which not all nodes validate in a phase: good phases,
    pub good_in_turn: usize,
    /// phases in which the circle has too few validators, and that are good but for that,
    pub short_of_validators: usize,
    /// and of these such as leave a circle node undecided.
    pub left_undecided: usize,
    /// Messages that would count in round 2 if it were their node's turn.
    pub out_of_turn: usize,
    pub common_starts: usize,
    pub refused: usize,
}

impl Tally {
    pub fn add(&mut self, other: Tally) {
        self.rounds += other.rounds;
        self.spent_rounds += other.spent_rounds;
        self.decided += other.decided;
        self.undecided += other.undecided;
        self.good_phases += other.good_phases;
        self.decided_in_good += other.decided_in_good;
        self.good_in_turn += other.good_in_turn;
        self.short_of_validators += other.short_of_validators;
        self.left_undecided += other.left_undecided;
        self.out_of_turn += other.out_of_turn;
        self.common_starts += other.common_starts;
        self.refused += other.refused;
    }
}

/// A run of any class.
pub fn drive(random: &mut Random, engine: &dyn Engine, other: Option<&dyn Engine>) -> Result<Tally, String> {
    let class = random.between(1, 3) as u8;
    drive_class(random, class, engine, other)
}

/// A run of this class. The error tells the property that failed, or the answers that differ.
pub fn drive_class(
    random: &mut Random,
    class: u8,
    engine: &dyn Engine,
    other: Option<&dyn Engine>,
) -> Result<Tally, String> {
    let crew = runs::crew(random, class);
    let setup = Setup::new(random, crew);
    let mut run = Run::start(setup, Pair { engine, other })?;
    let outcome = (0..run.setup.rounds).try_for_each(|round| run.round(random, round));
    outcome.map_err(|failure| format!("{failure}\nsetup: {:?}", run.setup))?;
    let (mut decided, mut undecided) = (0, 0);
    for own in run.setup.honest() {
        match run.decisions.plans[own] {
            Some(_) => decided += 1,
            None => undecided += 1,
        }
    }
    Ok(Tally { decided, undecided, ..run.tally })
}

struct Run<'a> {
    setup: Setup,
    pair: Pair<'a>,
    /// The honest records, by own number.
    records: Vec<Option<Node>>,
    decisions: Decisions,
    old: Vec<Vec<u8>>,
    weather: Option<Weather>,
    /// Whether the phase has been good for its circle in all its rounds so far.
    is_good: bool,
    tally: Tally,
}

impl<'a> Run<'a> {
    fn start(setup: Setup, pair: Pair<'a>) -> Result<Run<'a>, String> {
        let (records, initial) = pair.start(&setup)?;
        let decisions = Decisions::new(setup.crew, &initial);
        let tally = Tally { common_starts: usize::from(decisions.common.is_some()), ..Tally::default() };
        Ok(Run { setup, pair, records, decisions, old: Vec::new(), weather: None, is_good: false, tally })
    }

    fn record(&self, own: usize) -> Result<Node, String> {
        Ok(self.records[own].ok_or("no such node")?)
    }

    /// One whole round of the list, then the properties.
    fn round(&mut self, random: &mut Random, round: usize) -> Result<(), String> {
        self.tally.rounds += 1;
        let Some((phase, number)) = runs::place(self.setup.crew, round) else {
            return self.spent_round(random);
        };
        let weather = match self.weather.take() {
            Some(weather) if number != 1 => weather,
            _ => {
                self.is_good = true;
                Weather::new(random, &self.setup, phase, &self.records)
            }
        };
        let crew = self.setup.crew;
        let (written, silent) = self.write_all(random, &weather)?;
        let scene =
            Scene { setup: &self.setup, weather: &weather, phase, round: number, written: &written, old: &self.old };
        let inboxes = scene.inboxes(random);
        let counting: Vec<Vec<Option<Slot>>> =
            inboxes.iter().map(|inbox| counting_slots(crew, self.setup.run, phase, number, inbox)).collect();
        for to in self.setup.honest() {
            let is_written =
                |from: usize| written[from].as_ref().is_some_and(|bytes| is_holding(&inboxes[to], from, bytes));
            check_premise(&self.setup, &counting[to], is_written).map_err(|failure| format!("node {to}: {failure}"))?;
        }
        self.is_good = self.is_good && is_good_round(number, &weather.circle, &silent, &counting);
        let has_validators = turns::is_group_in_circle(crew, phase, &weather.circle);
        self.tally.out_of_turn += out_of_turn(crew, self.setup.run, phase, number, &inboxes);
        for own in self.setup.honest() {
            self.take(random, own, &inboxes[own])?;
            if number == 3 && self.decisions.note(own, phase, &counting[own]) {
                self.tally.decided_in_good += usize::from(self.is_good && has_validators);
            }
        }
        if number == 3 && self.is_good {
            if has_validators {
                self.check_circle(phase, &weather.circle)?;
            } else {
                self.note_short_circle(&weather.circle);
            }
        }
        self.weather = Some(weather);
        self.old.extend(written.into_iter().flatten());
        let keep = self.old.len().saturating_sub(64);
        self.old.drain(..keep);
        self.check(round).map_err(|failure| format!("phase {phase}, round {number}: {failure}"))
    }

    /// Every honest node writes, some with refused calls before, some with nothing else. Also tells who is silent.
    #[allow(clippy::type_complexity)]
    fn write_all(
        &mut self,
        random: &mut Random,
        weather: &Weather,
    ) -> Result<(Vec<Option<Vec<u8>>>, Vec<bool>), String> {
        let n = self.records.len();
        let (mut written, mut silent) = (vec![None; n], vec![false; n]);
        for own in self.setup.honest() {
            let is_kept = weather.is_kept_from_writing(random, own);
            silent[own] = is_silent(&self.record(own)?);
            if is_kept || random.chance(1, 16) {
                // No message is shorter than a validation.
                let length = random.below(VALIDATION_LENGTH);
                // Silence fits in any buffer.
                let expected = if silent[own] { Ok(0) } else { Err(Refusal::ShortBuffer) };
                let before = random.bytes(length);
                let (answer, after) = self.pair.write(self.record(own)?, &before)?;
                expect(answer == expected, || format!("short write of node {own}: {answer:?}"))?;
                expect(after == before, || format!("short write of node {own} wrote"))?;
                self.tally.refused += usize::from(answer.is_err());
            }
            if is_kept {
                continue;
            }
            let length = SLOT + random.below(3);
            let before = random.bytes(length);
            let (answer, after) = self.pair.write(self.record(own)?, &before)?;
            let length = answer.map_err(|refusal| format!("write of node {own}: {refusal:?}"))?;
            expect(after[length..] == before[length..], || format!("write of node {own} changed the tail"))?;
            expect((length == 0) == silent[own], || format!("silence of node {own}"))?;
            if length > 0 {
                written[own] = Some(after[..length].to_vec());
            }
        }
        Ok((written, silent))
    }

    /// Refused takes, an ask, and the take that is accepted.
    fn take(&mut self, random: &mut Random, own: usize, inbox: &[u8]) -> Result<(), String> {
        if random.chance(1, 16) {
            let wrong = random.pick(&[0, 1, SLOT * (self.records.len() + 1), inbox.len() - 1]);
            let (answer, _) = self.pair.take(self.record(own)?, &vec![7; wrong])?;
            expect(answer == Err(Refusal::InboxLength), || format!("take of node {own} with {wrong}: {answer:?}"))?;
            self.tally.refused += 1;
        }
        let is_first = self.records[own].is_some_and(|node| node.round == 1);
        let asked = self.pair.ask(self.record(own)?, inbox)?;
        expect(asked.is_ok() == is_first, || format!("ask of node {own}: {asked:?}"))?;
        let (answer, node) = self.pair.take(self.record(own)?, inbox)?;
        expect(answer.is_ok(), || format!("take of node {own}: {answer:?}"))?;
        if let Ok(selection) = asked {
            let is_same = match selection {
                Selection::Plan(plan) => node.select == plan,
                Selection::Any => node.select != 0,
                Selection::None => node.select == 0,
            };
            expect(is_same, || format!("node {own} was told {selection:?} and took {}", node.select))?;
        }
        self.records[own] = Some(node);
        Ok(())
    }

    /// A good phase decides its circle.
    fn check_circle(&mut self, phase: u8, circle: &[usize]) -> Result<(), String> {
        self.tally.good_phases += 1;
        self.tally.good_in_turn += usize::from(self.setup.crew.c < self.setup.crew.n);
        for &own in circle {
            expect(self.decisions.plans[own].is_some(), || format!("good phase {phase} left node {own} undecided"))?;
        }
        Ok(())
    }

    /// A phase in which all is heard, and too few of the circle validate. It promises nothing.
    fn note_short_circle(&mut self, circle: &[usize]) {
        self.tally.short_of_validators += 1;
        self.tally.left_undecided += usize::from(circle.iter().any(|&own| self.decisions.plans[own].is_none()));
    }

    /// The properties that hold after every round.
    fn check(&self, round: usize) -> Result<(), String> {
        for node in self.records.iter().flatten() {
            check_place(self.setup.crew, node, round + 1)?;
        }
        self.decisions.check(&self.records)
    }

    /// 01: "When the records are spent, every call is refused with 8 and the round leaves all as it was."
    fn spent_round(&mut self, random: &mut Random) -> Result<(), String> {
        self.tally.spent_rounds += 1;
        for own in self.setup.honest() {
            let length = random.below(SLOT + 2);
            let before = random.bytes(length);
            let (answer, after) = self.pair.write(self.record(own)?, &before)?;
            expect(answer == Err(Refusal::Spent) && after == before, || format!("spent write of node {own}"))?;
            let inbox = vec![0; random.pick(&[0, SLOT * self.records.len()])];
            let (answer, _) = self.pair.take(self.record(own)?, &inbox)?;
            expect(answer == Err(Refusal::Spent), || format!("spent take of node {own}: {answer:?}"))?;
            let asked = self.pair.ask(self.record(own)?, &inbox)?;
            expect(asked == Err(Refusal::Spent), || format!("spent ask of node {own}: {asked:?}"))?;
        }
        Ok(())
    }
}

/// A record that has taken this many rounds is sound and stands at the place that follows them.
pub fn check_place(crew: Crew, node: &Node, taken: usize) -> Result<(), String> {
    let coming = runs::place(crew, taken).unwrap_or((Node::SPENT, 1));
    expect((node.phase, node.round) == coming, || format!("node {} stands at the wrong place", node.own))?;
    expect(node.is_sound(), || format!("node {} is not sound", node.own))
}

/// 01: "round 2 select, or silence (length 0, nothing written) if select is 0"; 02 (C-13): "others are silent in round
/// 2"
fn is_silent(node: &Node) -> bool {
    let is_in_turn = turns::is_validator(node.crew, node.phase, usize::from(node.own));
    node.round == VALIDATION && (node.select == 0 || !is_in_turn)
}

/// How many slots of these inboxes would count if it were their nodes' turn.
fn out_of_turn(crew: Crew, run: u32, phase: u8, number: u8, inboxes: &[Vec<u8>]) -> usize {
    let everybody = Crew { c: crew.n, ..crew };
    let count = |crew: Crew| {
        let slots =
            inboxes.iter().map(|inbox| counting_slots(crew, run, phase, number, inbox).iter().flatten().count());
        slots.sum::<usize>()
    };
    if number != VALIDATION || crew.c == crew.n {
        return 0;
    }
    count(everybody) - count(crew)
}

/// 01: "In round 1 all of them have the same counting messages, each in as many slots of one inbox as of another, and
/// every circle node's slot counts in each. In rounds 2 and 3 the slot of every circle node that is not silent counts
/// in every circle node's inbox." 02 (C-13): "In a good phase only the circle's validators need count in round 2": the
/// others are silent. How many there must be is for `turns::is_group_in_circle` to say.
fn is_good_round(number: u8, circle: &[usize], silent: &[bool], counting: &[Vec<Option<Slot>>]) -> bool {
    let is_heard = |to: usize, from: usize| silent[from] || counting[to][from].is_some();
    let are_heard = circle.iter().all(|&to| circle.iter().all(|&from| is_heard(to, from)));
    let messages = |to: usize| {
        let mut messages: Vec<&[u8]> = counting[to].iter().flatten().map(|slot| slot.bytes).collect();
        messages.sort_unstable();
        messages
    };
    are_heard && (number != 1 || circle.iter().all(|&to| messages(to) == messages(circle[0])))
}
