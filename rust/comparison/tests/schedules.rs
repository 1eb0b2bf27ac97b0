//! Schedules (C-17) on the second engine: random ones of all classes, one by hand, and wrong regroupings and exchanges,
//! which have to be told.

use comparison::exchanges::{check_order, exchange, is_free};
use comparison::mutants::tell_regroupings;
use comparison::pair::Pair;
use comparison::regrouping::{losses, regroup, Regrouping};
use comparison::schedules::{check, drive_class, make, replay, Tally};
use comparison::seeds::seeds;
use comparison::Second;
use generators::runs::Setup;
use generators::schedules::{Call, Event, Schedule};
use generators::Random;
use second_engine::inbox::SLOT;
use second_engine::{Crew, Refusal};

const SECOND: Second = Second { mutation: second_engine::Mutation::Unmutated };
const ALONE: Pair = Pair { engine: &SECOND, other: None };

fn schedules_of(class: u8) {
    let mut tally = Tally::default();
    for seed in seeds(&format!("schedules of class {class}"), 3_400) {
        match drive_class(&mut Random::new(seed), class, ALONE) {
            Ok(schedule) => tally.add(schedule),
            Err(failure) => panic!("schedule of class {class}, seed {seed}: {failure}"),
        }
    }
    println!("class {class}: {tally:?}");
    // A replay of one schedule need not have everything.
    if tally.schedules > 1_000 {
        assert!(tally.distance > 100 && tally.apart > tally.schedules / 4 && tally.apart < tally.schedules);
        assert!(tally.decided > tally.undecided / 2 && tally.undecided > 0 && tally.decided_apart > tally.decided / 10);
        assert!(tally.common_starts > 0 && tally.spent > 0 && tally.padded > 0 && tally.swaps > tally.events);
        assert!(tally.late_asks > 0 && tally.spent_calls > 0 && tally.short_buffers > 0);
        assert!(tally.wrong_asks > 0 && tally.wrong_takes > 0 && tally.unwritten > 0);
        // Validators take turns in classes 2 and 3.
        assert!([tally.in_turn, tally.decided_in_turn].iter().all(|&count| (count > 0) == (class != 1)));
    }
}

#[test]
fn schedules_of_class_1() {
    schedules_of(1);
}

#[test]
fn schedules_of_class_2() {
    schedules_of(2);
}

#[test]
fn schedules_of_class_3() {
    schedules_of(3);
}

#[test]
fn every_wrong_regrouping_is_told() {
    if let Err(failure) = tell_regroupings(&SECOND, 1_000) {
        panic!("{failure}");
    }
}

/// Exchanging a write with the take that hears it breaks the premise, and nothing else.
#[test]
fn exchanges_without_a_rule_are_told() {
    let (mut told, mut count) = (0, 0);
    for seed in seeds("exchanges without a rule", 300) {
        let random = &mut Random::new(seed);
        let class = random.between(1, 3) as u8;
        let schedule = make(random, class, ALONE).unwrap();
        let played = replay(ALONE, &schedule.setup, &schedule.events).unwrap();
        let (order, _) = exchange(random, &played.steps, |earlier, later| earlier.event.own != later.event.own);
        if let Err(failure) = check_order(ALONE, &schedule.setup, &played, &order) {
            assert!(failure.ends_with("breaks the premise"), "seed {seed}: {failure}");
            told += 1;
        }
        count += 1;
    }
    println!("exchanges without a rule are told by {told} of {count} schedules");
    assert!(told > 0 || count < 100);
}

/// The messages of the schedule below: run 1, phase 1, plan 5.
const SELECTION: &[u8] = &[16, 0, 1, 0, 1, 0, 0, 0, 1, 5, 0, 0, 1, 0, 5, 0];
const VALIDATION: &[u8] = &[11, 0, 2, 0, 1, 0, 0, 0, 1, 5, 0];
const UNSTAMPED: &[u8] = &[12, 0, 3, 0, 1, 0, 0, 0, 1, 5, 0, 0];
const STAMPED: &[u8] = &[12, 0, 3, 0, 1, 0, 0, 0, 1, 5, 0, 1];

fn write(own: usize) -> Event {
    Event { own, call: Call::Write(vec![9; SLOT]) }
}

fn inbox(slots: [&[u8]; 4]) -> Vec<u8> {
    let mut inbox = vec![0; 4 * SLOT];
    for (place, bytes) in inbox.chunks_exact_mut(SLOT).zip(slots) {
        place[..bytes.len()].copy_from_slice(bytes);
    }
    inbox
}

fn ask(own: usize, slots: [&[u8]; 4]) -> Event {
    Event { own, call: Call::Ask(inbox(slots)) }
}

fn take(own: usize, slots: [&[u8]; 4]) -> Event {
    Event { own, call: Call::Take(inbox(slots)) }
}

/// Crew 3,4,1,0,3,4 with plans 5 5 5 0. Node 0 goes three rounds ahead and hears too little to decide; node 2 comes
/// after it and decides; node 1 stops before its round 3.
fn by_hand() -> Schedule {
    let crew = Crew::whole(3, 4, 1, 0, 3);
    let starts = (0..3).map(|own| (crew, own, 1, 5)).collect();
    let is_honest = vec![true, true, true, false];
    let setup = Setup { crew, run: 1, starts, is_honest, pool: vec![5], rounds: 3, good: 0 };
    let selections = [SELECTION, SELECTION, SELECTION, &[]];
    let validations = [VALIDATION, VALIDATION, VALIDATION, &[]];
    let events = vec![
        write(0),
        write(1),
        write(2),
        take(0, selections),
        write(0),
        take(0, [VALIDATION, &[], &[], VALIDATION]),
        write(0),
        take(0, [UNSTAMPED, &[], &[], STAMPED]),
        // Node 0 is three rounds ahead.
        Event { own: 1, call: Call::Write(vec![9; 15]) },
        ask(1, selections),
        Event { own: 1, call: Call::Take(vec![0; 4 * SLOT - 1]) },
        take(1, selections),
        take(2, selections),
        write(1),
        write(2),
        take(1, validations),
        ask(1, validations),
        write(1),
        take(2, validations),
        write(2),
        take(2, [UNSTAMPED, STAMPED, STAMPED, STAMPED]),
    ];
    Schedule { setup, events }
}

#[test]
fn three_rounds_ahead() {
    let schedule = by_hand();
    let tally = check(&mut Random::new(1), &schedule, ALONE).unwrap();
    assert_eq!((tally.events, tally.distance, tally.decided, tally.decided_apart), (21, 3, 1, 0));
    let played = replay(ALONE, &schedule.setup, &schedule.events).unwrap();
    let last = |own: usize| *played.records[own].last().unwrap();
    let [zero, one, two] = [0, 1, 2].map(last);
    assert_eq!((zero.phase, zero.round, zero.vote, zero.stamp, zero.result), (2, 1, 5, 0, 0));
    assert_eq!((one.phase, one.round, one.vote, one.stamp, one.result), (1, 3, 5, 1, 0));
    assert_eq!((two.phase, two.round, two.vote, two.stamp, two.result), (2, 1, 5, 1, 5));
    let refused: Vec<(usize, Refusal)> =
        (0..).zip(&played.steps).filter_map(|(place, step)| Some((place, step.answer.refusal()?))).collect();
    assert_eq!(refused, [(8, Refusal::ShortBuffer), (10, Refusal::InboxLength), (16, Refusal::NotSound)]);
    assert_eq!([4, 6, 17].map(|place| played.steps[place].written()), [VALIDATION, UNSTAMPED, STAMPED].map(Some));
}

/// The list of the schedule by hand: the fastest took three rounds, so it has four.
#[test]
fn three_rounds_ahead_in_lock_step() {
    let schedule = by_hand();
    let played = replay(ALONE, &schedule.setup, &schedule.events).unwrap();
    let losses = losses(schedule.setup.crew);
    let list = regroup(Regrouping::ByOwnRound, &schedule.setup, &played, &losses);
    let events = |places: &[usize]| -> Vec<&Event> { places.iter().map(|&place| &schedule.events[place]).collect() };
    let rounds = [
        events(&[0, 1, 8, 9, 10, 2, 3, 11, 12]),
        events(&[4, 13, 14, 5, 15, 18]),
        [events(&[6, 16, 17, 19, 7]), vec![&losses[1]], events(&[20])].concat(),
        losses[..3].iter().collect(),
    ];
    assert_eq!(list, rounds);
    assert_eq!(losses[1].call, Call::Take(vec![0; 4 * SLOT]));
}

/// Every two neighbours of the schedule by hand: exchanged where they may be, and told where they may not.
#[test]
fn three_rounds_ahead_exchanged() {
    let schedule = by_hand();
    let played = replay(ALONE, &schedule.setup, &schedule.events).unwrap();
    let mut bound = Vec::new();
    for place in 0..schedule.events.len() - 1 {
        if schedule.events[place].own == schedule.events[place + 1].own {
            continue;
        }
        let mut order: Vec<usize> = (0..schedule.events.len()).collect();
        order.swap(place, place + 1);
        let is_kept = check_order(ALONE, &schedule.setup, &played, &order).is_ok();
        assert_eq!(is_kept, is_free(&played.steps[place], &played.steps[place + 1]), "{place}");
        if !is_kept {
            bound.push(place);
        }
    }
    // In round 1 the write of node 2 and the take of node 0, in round 2 that write and the take of node 1.
    assert_eq!(bound, [2, 14]);
}

/// A message that is written only after it was taken, the node's own and another's, and one that is not written at all.
#[test]
fn a_message_from_nowhere_is_told() {
    let mut schedules = [by_hand(), by_hand(), by_hand()];
    schedules[0].events[0..=3].rotate_left(1);
    schedules[1].events[2..=3].rotate_left(1);
    schedules[2].events[5] = take(0, [VALIDATION, VALIDATION, &[], &[]]);
    for (schedule, slot) in schedules.iter().zip([0, 2, 1]) {
        let failure = check(&mut Random::new(1), schedule, ALONE).unwrap_err();
        assert!(failure.starts_with("take of node 0") && failure.contains(&format!("slot {slot} breaks the premise")));
    }
}
