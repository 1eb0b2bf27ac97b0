//! Exchanges (C-17): two neighbouring calls of different nodes change places, where the later does not take what the
//! earlier writes. That changes no record and no answer, and the premise on slots still holds. 02 has it of steps of
//! which neither takes what the other writes; here the earlier may take what the later writes once more.

use crate::cases::expect;
use crate::pair::Pair;
use crate::schedules::{check_premise, replay, Replay, Step};
use crate::slots::is_holding;
use generators::runs::Setup;
use generators::Random;

/// Exchanges many neighbours one after another, plays the whole again, and gives how many there were.
pub fn check(random: &mut Random, pair: Pair, setup: &Setup, schedule: &Replay) -> Result<usize, String> {
    let (order, swaps) = exchange(random, &schedule.steps, is_free);
    check_order(pair, setup, schedule, &order)?;
    Ok(swaps)
}

/// Whether the two calls, one right after the other, may change places.
pub fn is_free(earlier: &Step, later: &Step) -> bool {
    earlier.event.own != later.event.own && !is_taking(later, earlier)
}

/// Whether the later call takes what the earlier writes: it is an accepted take, of the round of the same number, and
/// the writer's slot begins with these bytes.
fn is_taking(later: &Step, earlier: &Step) -> bool {
    match (earlier.written(), later.taken()) {
        (Some(bytes), Some(inbox)) => earlier.round == later.round && is_holding(inbox, earlier.event.own, bytes),
        _ => false,
    }
}

/// Exchanges random neighbours where the rule lets it, several times as often as there are calls. Gives the order in
/// which the steps stand then, and how many exchanges there were.
pub fn exchange(random: &mut Random, steps: &[Step], rule: impl Fn(&Step, &Step) -> bool) -> (Vec<usize>, usize) {
    let mut order: Vec<usize> = (0..steps.len()).collect();
    let mut swaps = 0;
    // One call has no neighbour.
    let neighbours = steps.len().saturating_sub(1);
    for _ in 0..4 * neighbours {
        let place = random.below(neighbours);
        if rule(&steps[order[place]], &steps[order[place + 1]]) {
            order.swap(place, place + 1);
            swaps += 1;
        }
    }
    (order, swaps)
}

/// Plays the steps in this order and holds that against the schedule.
pub fn check_order(pair: Pair, setup: &Setup, schedule: &Replay, order: &[usize]) -> Result<(), String> {
    let played = replay(pair, setup, order.iter().map(|&place| schedule.steps[place].event))?;
    for (step, &place) in played.steps.iter().zip(order) {
        let own = step.event.own;
        let is_same = step.answer == schedule.steps[place].answer;
        expect(is_same, || format!("an answer to node {own} in its round {} is not the same", step.round))?;
    }
    for own in setup.honest() {
        expect(played.records[own] == schedule.records[own], || format!("the records of node {own} differ"))?;
    }
    check_premise(setup, played.steps.iter().map(|step| (step.round, step)))
}
