//! The lines that tell absences (02, C-24), on the second engine: random inputs have the properties, the properties
//! alone find the wrong programs, and inputs of all sorts come up. The benchmark's plain program, which keeps counts,
//! prints the same.

use comparison::absences::{check, checks, records_of, CHECKS};
use comparison::mutants::PAST_THE_LIMIT;
use comparison::pair::Pair;
use comparison::seeds::seeds;
use comparison::Second;
use generators::{absences, Random};
use second_engine::absence::{self, Record, MOST_HELD, MOST_RECORDS, NODES, RECORD};
use second_engine::Mutation;
use std::collections::{BTreeMap, BTreeSet};
use std::io::Write;
use std::process::{Command, Stdio};
use std::thread;

const SECOND: Second = Second { mutation: Mutation::Unmutated };
const ALONE: Pair = Pair { engine: &SECOND, other: None };

#[test]
fn random_inputs_have_the_properties() {
    for seed in seeds("random_inputs_have_the_properties", 1_000) {
        if let Err(failure) = check(ALONE, &absences::any(&mut Random::new(seed))) {
            panic!("seed {seed}: {failure}");
        }
    }
}

/// Without an engine to compare with, the properties find every mutant that shows below the limit, and each of them
/// finds one.
#[test]
fn properties_of_absences_find_mutants() {
    const INPUTS: u64 = 100;
    println!("of {INPUTS} inputs");
    let mut is_finding = [false; CHECKS.len()];
    for mutation in Mutation::MUTANTS_OF_ABSENCE {
        let (mut by_check, mut found) = ([0; CHECKS.len()], 0);
        for seed in 1..=INPUTS {
            let input = absences::any(&mut Random::new(seed));
            let outcomes = checks(Pair { engine: &Second { mutation }, other: None }, &input).unwrap();
            by_check.iter_mut().zip(&outcomes).for_each(|(count, outcome)| *count += usize::from(outcome.is_err()));
            found += usize::from(outcomes.iter().any(Result::is_err));
        }
        let counts = CHECKS.into_iter().zip(by_check).filter(|&(_, count)| count > 0);
        let show: Vec<String> = counts.map(|(name, count)| format!("{name} {count}")).collect();
        println!("{mutation:?}: {found} ({})", show.join(", "));
        is_finding.iter_mut().zip(by_check).for_each(|(is_finding, count)| *is_finding |= count > 0);
        assert_eq!(found > 0, !PAST_THE_LIMIT.contains(&mutation), "{mutation:?}");
    }
    assert_eq!(is_finding, [true; CHECKS.len()]);
}

/// All sorts of inputs, and whether this one is of each.
fn sorts_of_inputs(input: &[u8]) -> Vec<(&'static str, bool)> {
    let (length, records, remnant) = (input.len(), input.len() / RECORD, input.len() % RECORD);
    vec![
        ("nothing", length == 0),
        ("a remnant alone", length == 7),
        ("one record alone", length == 8),
        ("one record and a byte", length == 9),
        ("99 records", records == 99),
        ("100 records", records == 100),
        ("101 records", records == 101),
        ("199 records", records == 199),
        ("200 records", records == 200),
        ("201 records", records == 201),
        ("250 records", records == 250),
        ("4,095 bytes", length == 4_095),
        ("4,096 bytes", length == 4_096),
        ("4,097 to 4,103 bytes", (4_097..=4_103).contains(&length)),
        ("4,104 bytes", length == 4_104),
        ("another multiple of 4,096", length > 4_096 && length % 4_096 == 0),
        ("a byte less than such a multiple", length > 4_096 && length % 4_096 == 4_095),
        ("at most 8 bytes more than that", length > 8_192 && (1..=8).contains(&(length % 4_096))),
        ("more than 600 records", records > 600),
        ("more than 2,000 records", records > 2_000),
        ("a remnant of one byte", remnant == 1),
        ("a remnant of seven", remnant == 7),
    ]
}

/// All sorts of records after those before them, and whether this one is of each.
fn sorts_of_records(before: &[Record], record: Record) -> Vec<(&'static str, bool)> {
    let Record { run, marks } = record;
    let newest = before.last().map(|record| record.run);
    let is_repeating = newest == Some(run);
    // Without those that were refused.
    let mut accepted: Vec<u32> = before.iter().map(|record| record.run).collect();
    accepted.dedup();
    let distance = accepted.iter().rev().position(|&held| held == run);
    vec![
        ("run 0 first", before.is_empty() && run == 0),
        ("another run first", before.is_empty() && run != 0),
        ("the newest again", is_repeating),
        ("the newest again, with other marks", is_repeating && before.last().is_some_and(|last| last.marks != marks)),
        ("the newest a third time", is_repeating && before.len() > 1 && before[before.len() - 2].run == run),
        ("an older number that is held", distance.is_some_and(|distance| (1..100).contains(&distance))),
        ("the one before the newest", distance == Some(1)),
        ("the oldest of a full window", distance == Some(99)),
        ("the number that was dropped last", distance == Some(100)),
        ("the number after the newest", newest.is_some_and(|newest| newest.wrapping_add(1) == run)),
        ("one bit off the newest", newest.is_some_and(|newest| (newest ^ run).is_power_of_two() && newest ^ run > 255)),
        ("the top number", run == u32::MAX),
        ("0 after the top number", newest == Some(u32::MAX) && run == 0),
        ("no mark", marks == 0),
        ("all marks", marks == u32::MAX),
        ("one mark", marks.is_power_of_two()),
        ("one mark missing", (!marks).is_power_of_two()),
        ("some marks", (8..=24).contains(&marks.count_ones())),
    ]
}

/// Inputs and records of all sorts come up, and every node is missed by all of a full window, and by none of the
/// newest.
#[test]
fn inputs_of_all_sorts_come_up() {
    let (mut inputs, mut sorts, mut counts) = (BTreeMap::new(), BTreeMap::new(), BTreeSet::new());
    for seed in seeds("inputs_of_all_sorts_come_up", 1_000) {
        let input = absences::any(&mut Random::new(seed));
        let records = records_of(&input);
        for (sort, is_so) in sorts_of_inputs(&input) {
            *inputs.entry(sort).or_insert(0) += usize::from(is_so);
        }
        // Of the records of long inputs the first are enough.
        for place in 0..records.len().min(300) {
            for (sort, is_so) in sorts_of_records(&records[..place], records[place]) {
                *sorts.entry(sort).or_insert(0) += usize::from(is_so);
            }
        }
        let output = String::from_utf8(absence::run(&input)).expect("the output is text");
        // Before the hundredth line no window is full.
        for line in output.lines().skip(MOST_HELD - 1) {
            let edges = line.split(' ').enumerate().filter(|(_, count)| ["0", "100"].contains(count));
            counts.extend(edges.map(|(q, count)| (q, count == "0")));
        }
    }
    println!("{inputs:#?}\n{sorts:#?}");
    assert!(inputs.len() == 22 && inputs.values().all(|&count| count >= 3));
    assert!(sorts.len() == 18 && sorts.values().all(|&count| count >= 40));
    assert_eq!(counts.len(), 2 * NODES);
}

/// What the program at this path prints. Another thread feeds it, since it prints before it has read all.
fn output_of(program: &str, input: &[u8]) -> Vec<u8> {
    let mut child = Command::new(program).stdin(Stdio::piped()).stdout(Stdio::piped()).spawn().expect("it starts");
    let mut standard_input = child.stdin.take().expect("standard input is piped");
    thread::scope(|scope| {
        // It closes its end once it has read enough.
        scope.spawn(move || _ = standard_input.write_all(input));
        child.wait_with_output().expect("the output is read").stdout
    })
}

const PLAIN: &str = env!("CARGO_BIN_EXE_plain_absence");

/// So the program that the benchmark times is right.
#[test]
fn the_plain_program_prints_the_same() {
    for seed in seeds("the_plain_program_prints_the_same", 200) {
        let input = absences::any(&mut Random::new(seed));
        assert!(output_of(PLAIN, &input) == absence::run(&input), "seed {seed}");
    }
}

/// Up to the limit and past it, with a remnant, each program prints a line for each of the first million, and the same.
#[test]
fn long_inputs_print_a_million_lines() {
    let longest = absences::long(1);
    let output = absence::run(&longest);
    assert_eq!(output.iter().filter(|&&byte| byte == b'\n').count(), MOST_RECORDS);
    for count in absences::LONG {
        assert!(output_of(PLAIN, &longest[..RECORD * count]) == output, "{count} records");
    }
    assert!(output_of(PLAIN, &longest) == output, "the longest, with its remnant");
}
