//! The comparison has teeth: it tells every mutant from the engine, and finds no difference where there is none.

use comparison::lookups;
use comparison::mutants::{tell_all, Cases};
use comparison::pair::Pair;
use comparison::regrouping::{self, Regrouping};
use comparison::seeds::seeds;
use comparison::{compare, Engine, Operation, Second};
use comparison::{exchanges, runs, schedules, splits};
use generators::schedules::Schedule;
use generators::Random;
use second_engine::{Crew, LeastCrew, Message, Mutation, Node, Plan, Refusal, Selection};
use std::cell::Cell;

#[test]
fn the_engine_is_equal_to_itself() {
    for operation in Operation::ALL {
        let cases = match operation {
            Operation::Run | Operation::Schedule | Operation::Drill | Operation::Absence => 100,
            _ => 2_000,
        };
        for seed in seeds(&format!("{operation:?}"), cases) {
            if let Err(difference) = compare(operation, seed, &Second::default(), &Second::default()) {
                panic!("{difference}");
            }
        }
    }
    if let Err(difference) = lookups::compare_all(lookups::near_the_table(), &Second::default(), &Second::default()) {
        panic!("{difference}");
    }
    if let Err(difference) = splits::check_small(Pair { engine: &Second::default(), other: Some(&Second::default()) }) {
        panic!("{difference}");
    }
}

#[test]
fn every_mutant_is_told_from_the_engine() {
    let cases = Cases {
        accepts: 2_000,
        starts: 10_000,
        writes: 10_000,
        reads: 2_000,
        rounds: 2_000,
        marks: 2_000,
        runs: 100,
        schedules: 600,
        drills: 200,
        splits: 2_000,
        absences: 100,
    };
    if let Err(failure) = tell_all(&Second::default(), cases) {
        panic!("{failure}");
    }
}

/// Prints how many of the cases break a property with each mutant of rounds and of turns, and gives those that are
/// found so.
fn found(name: &str, cases: u64, is_broken: impl Fn(&mut Random, &Second) -> bool) -> Vec<Mutation> {
    println!("of {cases} {name}");
    let mut mutants = Vec::new();
    for mutation in Mutation::MUTANTS_OF_ROUNDS.into_iter().chain(Mutation::MUTANTS_OF_TURNS) {
        let found = (1..=cases).filter(|&seed| is_broken(&mut Random::new(seed), &Second { mutation })).count();
        println!("{mutation:?}: {found}");
        if found > 0 {
            mutants.push(mutation);
        }
    }
    mutants
}

/// Without an engine to compare with, the properties of runs alone find most mutants.
#[test]
fn properties_of_runs_find_mutants() {
    let mutants = found("runs", 100, |random, engine| runs::drive(random, engine, None).is_err());
    assert!(mutants.contains(&Mutation::MajorityOfArrivalsDecides));
    assert!(Mutation::MUTANTS_OF_TURNS.iter().all(|mutation| mutants.contains(mutation)));
}

/// The same of schedules, which claim no decision in good phases and so find fewer.
#[test]
fn claims_of_schedules_find_mutants() {
    let mutants =
        found("schedules", 200, |random, engine| schedules::drive(random, Pair { engine, other: None }).is_err());
    assert!(mutants.contains(&Mutation::MajorityOfArrivalsDecides));
}

/// What docs/DECISIONS.md argues: in class 2, going back to the own selection splits and stalls no run.
#[test]
fn own_selection_does_no_harm_in_class_2() {
    let wrong = Second { mutation: Mutation::BackToOwnSelection };
    for seed in seeds("runs of class 2 that go back to the own selection", 400) {
        if let Err(failure) = runs::drive_class(&mut Random::new(seed), 2, &wrong, None) {
            panic!("seed {seed}: {failure}");
        }
    }
}

/// The second engine, but an accepted take is wrong where this says so of the record: a select that no rule gives.
struct Wrong<F: Fn(&Node) -> bool> {
    is_wrong: F,
}

impl<F: Fn(&Node) -> bool> Engine for Wrong<F> {
    fn accept(&self, crew: Crew) -> Result<(), Refusal> {
        Second::default().accept(crew)
    }

    fn least(&self, class: u8, b: u8, f: u8) -> Result<LeastCrew, Refusal> {
        Second::default().least(class, b, f)
    }

    fn start(&self, crew: Crew, own: u8, run: u32, plan: Plan) -> Result<Node, Refusal> {
        Second::default().start(crew, own, run, plan)
    }

    fn write(&self, node: &mut Node, buffer: &mut [u8]) -> Result<usize, Refusal> {
        Second::default().write(node, buffer)
    }

    fn read(&self, slice: &[u8]) -> Result<Message, Refusal> {
        Second::default().read(slice)
    }

    fn entries<'a>(&self, slice: &'a [u8]) -> &'a [u8] {
        Second::default().entries(slice)
    }

    fn ask(&self, node: &mut Node, inbox: &[u8]) -> Result<Selection, Refusal> {
        Second::default().ask(node, inbox)
    }

    fn take(&self, node: &mut Node, inbox: &[u8]) -> Result<(), Refusal> {
        let answer = Second::default().take(node, inbox);
        if answer.is_ok() && (self.is_wrong)(node) {
            node.select ^= 1;
        }
        answer
    }

    fn marks(&self, node: &mut Node, inbox: &[u8]) -> Result<u32, Refusal> {
        Second::default().marks(node, inbox)
    }

    fn drill(&self, input: &[u8]) -> Vec<u8> {
        Second::default().drill(input)
    }

    fn split(&self, demands: &[u32], budget: u32, shares: &mut [u32]) -> Result<(), Refusal> {
        Second::default().split(demands, budget, shares)
    }

    fn absence(&self, input: &[u8]) -> Vec<u8> {
        Second::default().absence(input)
    }
}

/// An engine that reads memory it never wrote can be wrong once and right when it is asked again.
#[test]
fn a_difference_that_comes_once_is_told() {
    for operation in [Operation::Round, Operation::Run, Operation::Schedule] {
        let was_wrong = Cell::new(false);
        let wrong = Wrong { is_wrong: |_| !was_wrong.replace(true) };
        assert!(compare(operation, 1, &wrong, &Second::default()).is_err(), "{operation:?}");
    }
}

/// An engine that keeps something from one node's take to the next gives other records in another order, which shows
/// where there is no engine to compare with: in the lock-step list, and where neighbours are exchanged.
#[test]
fn an_engine_that_remembers_other_nodes_is_told() {
    const SCHEDULES: u64 = 100;
    let last = Cell::new(0);
    let wrong = Wrong { is_wrong: |node| last.replace(node.own) > node.own };
    let (right, pair) = (Pair { engine: &Second::default(), other: None }, Pair { engine: &wrong, other: None });
    let (mut by_list, mut by_exchanges) = (0, 0);
    for seed in 1..=SCHEDULES {
        let random = &mut Random::new(seed);
        let Schedule { setup, events } = schedules::make(random, 3, right).unwrap();
        last.set(0);
        let played = schedules::replay(pair, &setup, &events).unwrap();
        let losses = regrouping::losses(setup.crew);
        let list = regrouping::regroup(Regrouping::ByOwnRound, &setup, &played, &losses);
        // Each list is played from the start of its memory on, so that the order alone makes the difference.
        last.set(0);
        by_list += usize::from(regrouping::check(pair, &setup, &played, &list).is_err());
        last.set(0);
        by_exchanges += usize::from(exchanges::check(random, pair, &setup, &played).is_err());
    }
    println!("of {SCHEDULES} schedules the list tells {by_list}, exchanges tell {by_exchanges}");
    assert!(by_list > 0 && by_exchanges > 0);
}
