//! Regrouping (C-17): from a schedule to one lock-step list of whole rounds. It has as many rounds as the fastest node
//! took, and one more. Round j has the calls that each node made in its own round j, then a take of each: of the inbox
//! with which it took its round j, or, where it took none, of an inbox in which nothing counts.

use crate::cases::expect;
use crate::pair::Pair;
use crate::schedules::{check_decisions, check_premise, replay, Answer, Replay, Step};
use generators::runs::{place, Setup};
use generators::schedules::{Call, Event};
use second_engine::inbox::SLOT;
use second_engine::{Crew, Refusal};

/// How a schedule is regrouped: by the definition, or in a way that the checks have to tell from it.
#[derive(Clone, Copy, Debug, PartialEq, Eq)]
pub enum Regrouping {
    /// The definition.
    ByOwnRound,
    /// The schedule itself, cut after as many accepted takes as there are honest nodes, whoever took. The round that is
    /// on at its end is filled up with losses.
    ByGlobalRound,
    /// A round that the node did not take is padded with the last inbox that it took.
    PadWithLastInbox,
    /// Refused takes count as rounds.
    RefusedTakesCount,
    /// As many rounds as the fastest took and no more, so that its calls after them are missing.
    WithoutRoundThatIsOn,
    /// One round more than there has to be.
    RoundToSpare,
    /// Each node takes right after its own calls, before others have made theirs.
    TakesAmongCalls,
}

impl Regrouping {
    /// The wrong ones.
    pub const MUTANTS: [Regrouping; 6] = [
        Regrouping::ByGlobalRound,
        Regrouping::PadWithLastInbox,
        Regrouping::RefusedTakesCount,
        Regrouping::WithoutRoundThatIsOn,
        Regrouping::RoundToSpare,
        Regrouping::TakesAmongCalls,
    ];
}

/// A list of rounds, each the calls that are made in it, in their order.
pub type List<'a> = Vec<Vec<&'a Event>>;

/// For each number the take that pads a round: of zero bytes alone.
pub fn losses(crew: Crew) -> Vec<Event> {
    let n = usize::from(crew.n);
    (0..n).map(|own| Event { own, call: Call::Take(vec![0; SLOT * n]) }).collect()
}

/// The list for a schedule that was played.
pub fn regroup<'a>(regrouping: Regrouping, setup: &Setup, schedule: &Replay<'a>, losses: &'a [Event]) -> List<'a> {
    let honest = setup.honest();
    if regrouping == Regrouping::ByGlobalRound {
        return by_global_round(&honest, &schedule.steps, losses);
    }
    let is_end = |step: &Step| match step.answer {
        Answer::Taken(answer) => answer.is_ok() || regrouping == Regrouping::RefusedTakesCount,
        _ => false,
    };
    let rounds: Vec<Vec<OwnRound>> = (0..losses.len()).map(|own| own_rounds(steps_of(schedule, own), is_end)).collect();
    let padding = |own: usize| match regrouping {
        Regrouping::PadWithLastInbox => rounds[own].iter().rev().find_map(|round| round.take).unwrap_or(&losses[own]),
        _ => &losses[own],
    };
    // A node's rounds are those it took and the one that is on.
    let most = rounds.iter().map(Vec::len).max().unwrap_or(1);
    let count = match regrouping {
        Regrouping::WithoutRoundThatIsOn => most - 1,
        Regrouping::RoundToSpare => most + 1,
        _ => most,
    };
    let mut list = Vec::new();
    for round in 0..count {
        let of_node = |own: &usize| rounds[*own].get(round);
        let calls = |own: &usize| of_node(own).map_or(&[][..], |round| &round.calls).to_vec();
        let take = |own: &usize| of_node(own).and_then(|round| round.take).unwrap_or(padding(*own));
        list.push(if regrouping == Regrouping::TakesAmongCalls {
            honest.iter().flat_map(|own| [calls(own), vec![take(own)]].concat()).collect()
        } else {
            honest.iter().flat_map(calls).chain(honest.iter().map(take)).collect()
        });
    }
    list
}

/// The calls of one node in one of its rounds, and the take that ends it, if it has ended.
#[derive(Default)]
struct OwnRound<'a> {
    calls: Vec<&'a Event>,
    take: Option<&'a Event>,
}

/// The rounds of one node, from its steps. The last is the one that is on.
fn own_rounds<'s, 'a>(steps: impl Iterator<Item = &'s Step<'a>>, is_end: impl Fn(&Step) -> bool) -> Vec<OwnRound<'a>>
where
    'a: 's,
{
    let mut rounds = Vec::new();
    let mut round = OwnRound::default();
    for step in steps {
        if is_end(step) {
            round.take = Some(step.event);
            rounds.push(std::mem::take(&mut round));
        } else {
            round.calls.push(step.event);
        }
    }
    rounds.push(round);
    rounds
}

/// A mutant's list: a round ends after as many accepted takes as there are honest nodes.
fn by_global_round<'a>(honest: &[usize], steps: &[Step<'a>], losses: &'a [Event]) -> List<'a> {
    let mut list = Vec::new();
    let (mut round, mut takers) = (Vec::new(), Vec::new());
    for step in steps {
        round.push(step.event);
        takers.extend(step.taken().map(|_| step.event.own));
        if takers.len() == honest.len() {
            list.push(std::mem::take(&mut round));
            takers.clear();
        }
    }
    round.extend(honest.iter().filter(|own| !takers.contains(own)).map(|&own| &losses[own]));
    list.push(round);
    list
}

/// The names of the checks, in their order. The last is one of the engine more than of the list: no wrong regrouping
/// fails it, but an engine does that decides, or loses a result, where nothing is heard.
pub const CHECKS: [&str; 7] = ["rounds", "calls", "losses", "whole", "records", "premise", "decisions"];

/// Plays the list and tells the first check that fails.
pub fn check(pair: Pair, setup: &Setup, schedule: &Replay, list: &List) -> Result<(), String> {
    let outcomes = checks(pair, setup, schedule, list)?;
    for (name, outcome) in CHECKS.into_iter().zip(outcomes) {
        outcome.map_err(|failure| format!("{name}: {failure}"))?;
    }
    Ok(())
}

/// Plays the list and gives the outcome of each check. An error of its own is a list that cannot be played.
pub fn checks(
    pair: Pair,
    setup: &Setup,
    schedule: &Replay,
    list: &List,
) -> Result<[Result<(), String>; CHECKS.len()], String> {
    let played = replay(pair, setup, list.iter().flatten().copied())?;
    let rounds = in_rounds(list, &played.steps);
    let numbered = rounds.iter().enumerate().flat_map(|(round, steps)| steps.iter().map(move |step| (round, step)));
    Ok([
        check_rounds(setup, schedule, list),
        check_calls(setup, schedule, &played),
        check_losses(setup, schedule, &played),
        check_whole(setup, &rounds),
        check_records(setup, schedule, &played, &rounds),
        check_premise(setup, numbered),
        check_decisions(setup, &played),
    ])
}

/// The steps of each round of the list.
fn in_rounds<'s, 'a>(list: &List, mut steps: &'s [Step<'a>]) -> Vec<&'s [Step<'a>]> {
    let mut rounds = Vec::new();
    for round in list {
        let (now, later) = steps.split_at(round.len());
        rounds.push(now);
        steps = later;
    }
    rounds
}

/// The steps of one node, in their order.
fn steps_of<'s, 'a>(replay: &'s Replay<'a>, own: usize) -> impl Iterator<Item = &'s Step<'a>> {
    replay.steps.iter().filter(move |step| step.event.own == own)
}

/// The list has one round more than the fastest honest node took.
fn check_rounds(setup: &Setup, schedule: &Replay, list: &List) -> Result<(), String> {
    // Of the start there is a record as well.
    let most = setup.honest().into_iter().map(|own| schedule.records[own].len()).max().unwrap_or(1);
    expect(list.len() == most, || format!("the list has {} rounds, not {most}", list.len()))
}

/// Each node makes the calls that it made in the schedule, in its own order, and gets the same answers.
fn check_calls(setup: &Setup, schedule: &Replay, played: &Replay) -> Result<(), String> {
    for own in setup.honest() {
        let mut listed = steps_of(played, own);
        for step in steps_of(schedule, own) {
            let is_same = listed.next().is_some_and(|other| other.event == step.event && other.answer == step.answer);
            expect(is_same, || format!("a call of node {own} in its round {} is not the same", step.round))?;
        }
    }
    Ok(())
}

/// What a node does in the list beyond its calls of the schedule is to take inboxes of zero bytes.
fn check_losses(setup: &Setup, schedule: &Replay, played: &Replay) -> Result<(), String> {
    let losses = losses(setup.crew);
    for own in setup.honest() {
        for step in steps_of(played, own).skip(steps_of(schedule, own).count()) {
            let is_loss = *step.event == losses[own];
            expect(is_loss, || format!("node {own} makes a new call in round {} that is no loss", step.round))?;
        }
    }
    Ok(())
}

/// Until the records are spent, every round ends with one accepted take of each honest node, and has no other. After
/// that every call is refused with 8.
fn check_whole(setup: &Setup, rounds: &[&[Step]]) -> Result<(), String> {
    let honest = setup.honest();
    for (round, steps) in rounds.iter().enumerate() {
        if place(setup.crew, round).is_none() {
            let is_spent = steps.iter().all(|step| step.answer.refusal() == Some(Refusal::Spent));
            expect(is_spent, || format!("a call in round {round} is not refused as spent"))?;
            continue;
        }
        let (calls, takes) = steps.split_at(steps.len().saturating_sub(honest.len()));
        let is_early = calls.iter().any(|step| step.taken().is_some());
        let mut takers: Vec<usize> =
            takes.iter().filter(|step| step.taken().is_some()).map(|step| step.event.own).collect();
        takers.sort_unstable();
        expect(!is_early && takers == honest, || format!("round {round} is not whole, {takers:?} take at its end"))?;
    }
    Ok(())
}

/// After k rounds of the list each node has the record that the schedule gave it after k accepted takes, for every k up
/// to the number that it took: in the end the record with which it ended there.
fn check_records(setup: &Setup, schedule: &Replay, played: &Replay, rounds: &[&[Step]]) -> Result<(), String> {
    for own in setup.honest() {
        let mut taken = 0;
        for (k, record) in schedule.records[own].iter().enumerate() {
            if let Some(last) = k.checked_sub(1) {
                let steps = rounds.get(last).ok_or(format!("the list ends after {last} rounds"))?;
                taken += steps.iter().filter(|step| step.event.own == own && step.taken().is_some()).count();
            }
            expect(played.records[own][taken] == *record, || format!("node {own} differs after {k} rounds"))?;
        }
    }
    Ok(())
}
