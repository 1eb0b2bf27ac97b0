//! That the comparison has teeth: by how many cases it tells each mutant of the second engine from an engine, and each
//! wrong regrouping of schedules from the right one.

use crate::cases::{compare, Operation};
use crate::engine::{Engine, Second};
use crate::groups::{self, Group};
use crate::pair::Pair;
use crate::regrouping::{self, Regrouping};
use crate::{lookups, schedules, splits};
use generators::{absences, crews, Random};
use second_engine::Mutation;

/// How many cases of each operation that has a wrong rule somewhere.
#[derive(Clone, Copy, Debug, PartialEq, Eq)]
pub struct Cases {
    pub accepts: u64,
    pub starts: u64,
    pub writes: u64,
    pub reads: u64,
    pub rounds: u64,
    pub marks: u64,
    pub runs: u64,
    pub schedules: u64,
    pub drills: u64,
    pub splits: u64,
    pub absences: u64,
}

/// All decisions of a run are on one plan, so that these are no change there. Only single rounds tell them.
const IN_AGREEMENT: [Mutation; 2] = [Mutation::ResultReplaced, Mutation::GreatestDecides];

/// Wrong only in what is refused. Small splits are all accepted, so that other splits have to tell these.
pub const IN_REFUSALS: [Mutation; 4] = [
    Mutation::AmountBeforeCount,
    Mutation::LongerBufferTaken,
    Mutation::LargestDemandRefused,
    Mutation::WrittenBeforeRefused,
];

/// The mutants of rounds, of turns and of reading that are wrong in which slots count, so that marks have to tell them
/// too.
const IN_COUNTING: [Mutation; 10] = [
    Mutation::MalformedSlotSpoils,
    Mutation::DistinctContents,
    Mutation::OthersCount,
    Mutation::TurnOnePhaseOff,
    Mutation::TurnTooFew,
    Mutation::CSubtractedForN,
    Mutation::OnePastTheCrew,
    Mutation::ResidueIgnored,
    Mutation::FirstByteOfResidue,
    Mutation::ResidueOfDecisions,
];

/// Wrong only past the limit of records, which no random input comes near. The long input in which all records but the
/// first are refused has to tell these.
pub const PAST_THE_LIMIT: [Mutation; 2] = [Mutation::OneRecordTooMany, Mutation::RefusedRecordsNotCounted];

/// Gives the same cases to the engine and to every mutant, and prints how many tell them apart.
pub fn tell_all(engine: &dyn Engine, cases: Cases) -> Result<(), String> {
    tell_rounds(engine, cases)?;
    tell_reading(engine, cases)?;
    tell_turns(engine, cases)?;
    tell_groups(engine)?;
    tell_crews(engine, cases)?;
    tell_small_crews(engine)?;
    tell_marks(engine, cases)?;
    tell_lookups(engine)?;
    tell_splits(engine, cases)?;
    tell_absences(engine, cases)?;
    tell_past_the_limit(engine)
}

/// How many of so many cases of each operation tell the mutant; prints them on one line.
fn told<const N: usize>(engine: &dyn Engine, mutation: Mutation, cases: [(Operation, u64); N]) -> [usize; N] {
    let counts = cases.map(|(operation, cases)| {
        (1..=cases).filter(|&seed| compare(operation, seed, engine, &Second { mutation }).is_err()).count()
    });
    println!("  {mutation:?}: {}", counts.map(|count| count.to_string()).join(", "));
    counts
}

fn check_told(mutation: Mutation, is_told: bool) -> Result<(), String> {
    if is_told {
        Ok(())
    } else {
        Err(format!("{mutation:?} is not told from the engine"))
    }
}

/// The mutants of rounds. Rounds have to tell every one, runs and schedules all but those that are no change there.
fn tell_rounds(engine: &dyn Engine, cases: Cases) -> Result<(), String> {
    let Cases { rounds, runs, schedules, drills, .. } = cases;
    println!("mutants are told by how many of {rounds} rounds, {runs} runs, {schedules} schedules, {drills} drills:");
    let cases = [
        (Operation::Round, rounds),
        (Operation::Run, runs),
        (Operation::Schedule, schedules),
        (Operation::Drill, drills),
    ];
    for mutation in Mutation::MUTANTS_OF_ROUNDS {
        let [rounds, runs, schedules, _] = told(engine, mutation, cases);
        let is_in_runs = runs > 0 && schedules > 0;
        check_told(mutation, rounds > 0 && (is_in_runs || IN_AGREEMENT.contains(&mutation)))?;
    }
    Ok(())
}

/// The mutants of reading. Reads have to tell every one; rounds, runs and schedules all but the one that only refuses
/// with another number.
fn tell_reading(engine: &dyn Engine, cases: Cases) -> Result<(), String> {
    let Cases { reads, rounds, runs, schedules, .. } = cases;
    println!("mutants are told by how many of {reads} reads, {rounds} rounds, {runs} runs, {schedules} schedules:");
    let cases = [
        (Operation::Read, reads),
        (Operation::Round, rounds),
        (Operation::Run, runs),
        (Operation::Schedule, schedules),
    ];
    for mutation in Mutation::MUTANTS_OF_READING {
        let [reads, others @ ..] = told(engine, mutation, cases);
        let is_in_rounds = others.iter().all(|&count| count > 0);
        check_told(mutation, reads > 0 && (is_in_rounds || mutation == Mutation::ResidueFirst))?;
    }
    Ok(())
}

/// The mutants of turns that are wrong in what is heard alone, so that writes are no place to tell them.
const IN_HEARING: [Mutation; 2] = [Mutation::ThresholdFromN, Mutation::OthersCount];

/// Whether a mutant of turns is told where it is wrong: in writes, if in who speaks, and in rounds, if in what counts
/// or in the test. What nobody hears changes no round.
fn is_told_in_turns(mutation: Mutation, writes: usize, rounds: usize) -> bool {
    (writes > 0 || IN_HEARING.contains(&mutation)) && (rounds > 0 || mutation == Mutation::OthersSpeak)
}

/// The mutants of turns. Writes have to tell those that are wrong in who speaks, rounds those that are wrong in what
/// counts or in the test; runs and schedules, which write and take, have to tell every one.
fn tell_turns(engine: &dyn Engine, cases: Cases) -> Result<(), String> {
    let Cases { writes, rounds, runs, schedules, drills, .. } = cases;
    print!("mutants are told by how many of {writes} writes, {rounds} rounds, ");
    println!("{runs} runs, {schedules} schedules, {drills} drills:");
    let cases = [
        (Operation::Write, writes),
        (Operation::Round, rounds),
        (Operation::Run, runs),
        (Operation::Schedule, schedules),
        (Operation::Drill, drills),
    ];
    for mutation in Mutation::MUTANTS_OF_TURNS {
        let [writes, rounds, runs, schedules, _] = told(engine, mutation, cases);
        check_told(mutation, is_told_in_turns(mutation, writes, rounds) && runs > 0 && schedules > 0)?;
    }
    Ok(())
}

/// The mutants of turns on every group, which the engine answers once. Its writes and its takes have to tell them as
/// random ones do, and its marks those that are wrong in which slots count.
fn tell_groups(engine: &dyn Engine) -> Result<(), String> {
    let answers = |engine: &dyn Engine, group: &Group| groups::answers(Pair { engine, other: None }, group);
    let (mut count, mut told) = (0, [[0; 3]; Mutation::MUTANTS_OF_TURNS.len()]);
    for group in groups::every() {
        let right = answers(engine, &group)?;
        for (told, mutation) in told.iter_mut().zip(Mutation::MUTANTS_OF_TURNS) {
            let wrong = answers(&Second { mutation }, &group)?;
            let is_told = [wrong.writes != right.writes, wrong.marks != right.marks, wrong.takes != right.takes];
            told.iter_mut().zip(is_told).for_each(|(told, is_told)| *told += usize::from(is_told));
        }
        count += 1;
    }
    println!("mutants are told by the writes, marks, takes of how many of {count} groups:");
    for (mutation, [writes, marks, takes]) in Mutation::MUTANTS_OF_TURNS.into_iter().zip(told) {
        println!("  {mutation:?}: {writes}, {marks}, {takes}");
        let is_marked = marks > 0 || !IN_COUNTING.contains(&mutation);
        check_told(mutation, is_told_in_turns(mutation, writes, takes) && is_marked)?;
    }
    Ok(())
}

/// The mutants of crews. Accepting and starting have to tell every one. All but the one that only refuses with another
/// number take records for sound that are not, which shows in writes, and read lines that are bad, in some drills.
fn tell_crews(engine: &dyn Engine, cases: Cases) -> Result<(), String> {
    let Cases { accepts, starts, writes, drills, .. } = cases;
    println!("mutants are told by how many of {accepts} accepts, {starts} starts, {writes} writes, {drills} drills:");
    let cases = [
        (Operation::Accept, accepts),
        (Operation::Start, starts),
        (Operation::Write, writes),
        (Operation::Drill, drills),
    ];
    for mutation in Mutation::MUTANTS_OF_CREWS {
        let [accepts, starts, writes, _] = told(engine, mutation, cases);
        let is_in_records = writes > 0 || mutation == Mutation::GroupBeforeQuorum;
        check_told(mutation, accepts > 0 && starts > 0 && is_in_records)?;
    }
    Ok(())
}

/// The mutants of crews on every crew of small values, each of which the engine accepts or refuses once.
fn tell_small_crews(engine: &dyn Engine) -> Result<(), String> {
    let (mut count, mut told) = (0, [0; Mutation::MUTANTS_OF_CREWS.len()]);
    for crew in crews::small() {
        let answer = engine.accept(crew);
        let is_told = |mutation: Mutation| Second { mutation }.accept(crew) != answer;
        told.iter_mut()
            .zip(Mutation::MUTANTS_OF_CREWS)
            .for_each(|(told, mutation)| *told += u32::from(is_told(mutation)));
        count += 1;
    }
    println!("mutants are told by how many of {count} small crews:");
    for (mutation, told) in Mutation::MUTANTS_OF_CREWS.into_iter().zip(told) {
        println!("  {mutation:?}: {told}");
        check_told(mutation, told > 0)?;
    }
    Ok(())
}

/// The mutants of marks, which show nowhere else, and the others that are wrong in which slots count.
fn tell_marks(engine: &dyn Engine, cases: Cases) -> Result<(), String> {
    println!("mutants are told by how many of {} marks:", cases.marks);
    for mutation in Mutation::MUTANTS_OF_MARKS.into_iter().chain(IN_COUNTING) {
        let [marks] = told(engine, mutation, [(Operation::Marks, cases.marks)]);
        check_told(mutation, marks > 0)?;
    }
    Ok(())
}

/// The mutants of lookups. No other case has a lookup in it, so lookups have to tell every one.
fn tell_lookups(engine: &dyn Engine) -> Result<(), String> {
    println!("mutants are told by how many of {} lookups:", lookups::near_the_table().count());
    for mutation in Mutation::MUTANTS_OF_LOOKUPS {
        let is_told = |&lookup: &_| lookups::compare(lookup, engine, &Second { mutation }).is_err();
        let told = lookups::near_the_table().filter(is_told).count();
        println!("  {mutation:?}: {told}");
        check_told(mutation, told > 0)?;
    }
    Ok(())
}

/// The mutants of splits. No other case has a split in it, so random splits have to tell every one, and small ones, of
/// which none is left out, all but those that are wrong in refusals.
fn tell_splits(engine: &dyn Engine, cases: Cases) -> Result<(), String> {
    let small = || generators::splits::small(4);
    println!("mutants are told by how many of {} splits, {} small splits:", cases.splits, small().count());
    for mutation in Mutation::MUTANTS_OF_SPLITS {
        let mutant = Second { mutation };
        let pair = Pair { engine, other: Some(&mutant) };
        let told = (1..=cases.splits).filter(|&seed| splits::drive(&mut Random::new(seed), pair).is_err()).count();
        let told_small = small().filter(|split| splits::check(pair, split).is_err()).count();
        println!("  {mutation:?}: {told}, {told_small}");
        check_told(mutation, told > 0 && (told_small > 0 || IN_REFUSALS.contains(&mutation)))?;
    }
    Ok(())
}

/// The mutants of absence. No other case has a window in it, so random inputs have to tell every one but those that are
/// wrong past the limit. The engine, which may be a program, prints its lines once for each input.
fn tell_absences(engine: &dyn Engine, cases: Cases) -> Result<(), String> {
    println!("mutants are told by how many of {} inputs:", cases.absences);
    let input = |seed| absences::any(&mut Random::new(seed));
    let printed: Vec<(Vec<u8>, Vec<u8>)> =
        (1..=cases.absences).map(input).map(|input| (engine.absence(&input), input)).collect();
    for mutation in Mutation::MUTANTS_OF_ABSENCE.into_iter().filter(|mutation| !PAST_THE_LIMIT.contains(mutation)) {
        let mutant = Second { mutation };
        let told = printed.iter().filter(|(output, input)| mutant.absence(input) != *output).count();
        println!("  {mutation:?}: {told}");
        check_told(mutation, told > 0)?;
    }
    Ok(())
}

/// The other mutants of absence, on one long input.
fn tell_past_the_limit(engine: &dyn Engine) -> Result<(), String> {
    let input = absences::repeated();
    let output = engine.absence(&input);
    for mutation in PAST_THE_LIMIT {
        check_told(mutation, Second { mutation }.absence(&input) != output)?;
    }
    println!("a long input tells {PAST_THE_LIMIT:?}");
    Ok(())
}

/// Regroups the schedules of these seeds in every wrong way, and prints how many tell it, in all and by each check.
pub fn tell_regroupings(engine: &dyn Engine, schedules: u64) -> Result<(), String> {
    println!("regroupings are told by how many of {schedules} schedules:");
    for regrouping in Regrouping::MUTANTS {
        let mut told = 0;
        let mut by_check = Vec::new();
        for seed in 1..=schedules {
            let failed = failed_checks(engine, regrouping, seed)?;
            told += usize::from(!failed.is_empty());
            by_check.extend(failed);
        }
        let count = |name: &str| by_check.iter().filter(|&&check| check == name).count();
        let counts: Vec<String> = regrouping::CHECKS.iter().map(|name| format!("{name} {}", count(name))).collect();
        println!("  {regrouping:?}: {told} ({})", counts.join(", "));
        if told == 0 {
            return Err(format!("{regrouping:?} is not told from the definition"));
        }
    }
    Ok(())
}

/// The names of the checks that a schedule fails where it is regrouped like this.
fn failed_checks(engine: &dyn Engine, regrouping: Regrouping, seed: u64) -> Result<Vec<&'static str>, String> {
    let pair = Pair { engine, other: None };
    let random = &mut Random::new(seed);
    let class = random.between(1, 3) as u8;
    let schedule = schedules::make(random, class, pair)?;
    let replay = schedules::replay(pair, &schedule.setup, &schedule.events)?;
    let losses = regrouping::losses(schedule.setup.crew);
    let list = regrouping::regroup(regrouping, &schedule.setup, &replay, &losses);
    let outcomes = regrouping::checks(pair, &schedule.setup, &replay, &list)?;
    Ok(regrouping::CHECKS
        .into_iter()
        .zip(outcomes)
        .filter(|(_, outcome)| outcome.is_err())
        .map(|(name, _)| name)
        .collect())
}
