//! Times the proved engine's archive against the second engine, both in this one run, on the same inboxes and splits,
//! in turn; the proved drill program against the second engine's, `second_drill`; and the proved program that tells
//! absences against a plain one, `plain_absence`. These two, `second_drill` and `plain_absence`, are expected beside
//! this program.
//! docs/BENCHMARK.md says what is measured. Usage: benchmark DRILL ABSENCE [REPETITIONS]; it prints the summary that
//! the page holds, then the whole tables.

use archive::engine::{numbers, output_of};
use archive::rows::{inbox, node, Votes, CREWS_IN_TURN, VOTES};
use archive::timing::{median, median_ratio, time, time_each};
use archive::{image, Archive};
use comparison::Engine;
use generators::{drills, Random};
use rail::RECORD;
use second_engine::absence::{Record, MOST_RECORDS, NODES};
use second_engine::current::{self, MOST_BUDGET, MOST_DEMAND, MOST_SHUTTLES};
use second_engine::message::LAST_PHASE;
use second_engine::node::VALIDATION;
use second_engine::{rounds, Crew, Node};
use std::cell::RefCell;
use std::fs::{self, File};
use std::hint::black_box;
use std::path::{Path, PathBuf};
use std::process::{exit, id, Command, Stdio};

/// The crews, by class and n: the most Byzantine nodes that the class allows, for n = 4 in classes 1 and 2 one node out
/// of reach.
const CREWS: [[Crew; 3]; 3] = [
    [Crew::whole(1, 4, 0, 1, 3), Crew::whole(1, 16, 3, 0, 13), Crew::whole(1, 32, 6, 0, 26)],
    [Crew::whole(2, 4, 0, 1, 3), Crew::whole(2, 16, 3, 1, 12), Crew::whole(2, 32, 7, 0, 25)],
    [Crew::whole(3, 4, 1, 0, 3), Crew::whole(3, 16, 5, 0, 11), Crew::whole(3, 32, 10, 0, 22)],
];

const PHASES: [u8; 2] = [1, LAST_PHASE];

#[derive(Clone, Copy, Debug, PartialEq, Eq)]
enum Operation {
    Ask,
    Take,
}

struct Row {
    operation: Operation,
    crew: Crew,
    round: u8,
    phase: u8,
    /// For each of `VOTES`.
    times: [Times; VOTES.len()],
}

impl Row {
    /// `VOTES` has the kinds in their order.
    fn times_of(&self, votes: Votes) -> Times {
        self.times[votes as usize]
    }
}

/// Medians over the repetitions: nanoseconds for each call, and the engine's time over the second engine's.
#[derive(Clone, Copy)]
struct Times {
    engine: f64,
    second: f64,
    floor: f64,
    ratio: f64,
}

fn main() {
    let arguments: Vec<String> = std::env::args().skip(1).collect();
    let (drill, absence, repetitions) = match arguments.as_slice() {
        [drill, absence] => (drill, absence, 31),
        [drill, absence, repetitions] => (drill, absence, repetitions.parse().unwrap_or_else(|_| usage())),
        _ => usage(),
    };
    let mut rows = Vec::new();
    for operation in [Operation::Ask, Operation::Take] {
        for crews in CREWS {
            for round in rounds_of(operation, crews[0].class) {
                for phase in PHASES {
                    for crew in crews {
                        let times =
                            VOTES.map(|votes| measure(repetitions, operation, &node(crew, phase, round), votes));
                        rows.push(Row { operation, crew, round, phase, times });
                    }
                }
            }
        }
    }
    print_summary(&rows, repetitions);
    print_rows(&rows);
    print_growth(&rows);
    print_turns(repetitions);
    print_image(repetitions);
    print_splits(repetitions);
    print_drill(repetitions, drill.as_ref());
    print_absence(repetitions, absence.as_ref());
}

fn usage() -> ! {
    eprintln!("usage: benchmark DRILL ABSENCE [REPETITIONS]");
    exit(2);
}

fn rounds_of(operation: Operation, class: u8) -> Vec<u8> {
    match (operation, class) {
        (Operation::Ask, _) => vec![1],
        (Operation::Take, 1) => vec![1, 3],
        (Operation::Take, _) => vec![1, 2, 3],
    }
}

/// The medians of both engines and of the floor, each repetition timing the three in turn.
fn measure(repetitions: usize, operation: Operation, node: &Node, votes: Votes) -> Times {
    let inbox = inbox(node, votes);
    check(operation, node, &inbox);
    let record = image::of(node);
    let engine = || match operation {
        Operation::Ask => _ = black_box(rail::ask(black_box(&record), black_box(&inbox))),
        Operation::Take => {
            let mut next = *black_box(&record);
            _ = black_box(rail::take(&mut next, black_box(&inbox)));
            black_box(&next);
        }
    };
    let second = || match operation {
        Operation::Ask => _ = black_box(rounds::ask(black_box(node), black_box(&inbox))),
        Operation::Take => {
            let mut next = *black_box(node);
            _ = black_box(rounds::take(&mut next, black_box(&inbox)));
            black_box(&next);
        }
    };
    let floor = || _ = black_box(black_box(&inbox).iter().fold(0u8, |sum, &byte| sum.wrapping_add(byte)));
    let times = time(repetitions, [&engine, &second, &floor]);
    let ratio = median_ratio(&times[0], &times[1]);
    let [engine, second, floor] = times.map(median);
    Times { engine, second, floor, ratio }
}

/// What is timed is accepted, and both engines answer it alike.
fn check(operation: Operation, node: &Node, inbox: &[u8]) {
    let archive = Archive::default();
    let (mut one, mut other) = (*node, *node);
    match operation {
        Operation::Ask => assert_eq!(archive.ask(&mut one, inbox), Ok(rounds::ask(&other, inbox).expect("asked"))),
        Operation::Take => {
            rounds::take(&mut other, inbox).expect("the second engine takes the round");
            archive.take(&mut one, inbox).expect("the engine takes the round");
        }
    }
    assert_eq!(one, other);
}

/// The ratios of both phases and all inboxes, by operation, class and round: the table of docs/BENCHMARK.md.
fn print_summary(rows: &[Row], repetitions: usize) {
    let all = ratios(rows);
    let above = all.iter().filter(|&&ratio| ratio > 1.0).count();
    println!("## Summary");
    println!();
    println!("A ratio is the median of {repetitions} repetitions. Above 1.0: {above} of {}.", all.len());
    println!();
    println!("| | class | round | n = 4 | n = 16 | n = 32 | median |");
    println!("|---|---|---|---|---|---|---|");
    for group in rows.chunks_exact(PHASES.len() * CREWS[0].len()) {
        let Row { operation, crew, round, .. } = group[0];
        print!("| {} | {} | {round} ", name(operation), crew.class);
        print_ranges(group);
    }
    print!("| all | | ");
    print_ranges(rows);
    println!();
}

/// The rest of a row of the summary: the ratios' range for each n, and the median of all.
fn print_ranges(rows: &[Row]) {
    for n in CREWS[0].map(|crew| crew.n) {
        let ratios = ratios(rows.iter().filter(|row| row.crew.n == n));
        let least = ratios.iter().copied().fold(f64::INFINITY, f64::min);
        let most = ratios.iter().copied().fold(0.0, f64::max);
        print!("| {least:.2} to {most:.2} ");
    }
    println!("| {:.2} |", median(ratios(rows)));
}

fn ratios<'a>(rows: impl IntoIterator<Item = &'a Row>) -> Vec<f64> {
    rows.into_iter().flat_map(|row| row.times).map(|times| times.ratio).collect()
}

fn print_rows(rows: &[Row]) {
    println!("## Times");
    println!();
    println!("Nanoseconds.");
    println!();
    print!("| | class | round | phase | n | agreed: engine | second | ratio | mixed: engine | second | ratio ");
    println!("| gaps: ratio | stamps: ratio | tie: ratio | floor |");
    println!("|---|---|---|---|---|---|---|---|---|---|---|---|---|---|---|");
    for row in rows {
        let Row { operation, crew, round, phase, .. } = *row;
        print!("| {} | {} | {round} | {phase} | {} ", name(operation), crew.class, crew.n);
        print_times(row.times);
    }
    println!();
}

/// The rest of a row of times.
fn print_times([agreed, mixed, gaps, stamps, tie]: [Times; VOTES.len()]) {
    for times in [agreed, mixed] {
        print!("| {:.0} | {:.0} | {:.2} ", times.engine, times.second, times.ratio);
    }
    println!("| {:.2} | {:.2} | {:.2} | {:.0} |", gaps.ratio, stamps.ratio, tie.ratio, agreed.floor);
}

fn name(operation: Operation) -> &'static str {
    match operation {
        Operation::Ask => "ask",
        Operation::Take => "take",
    }
}

/// How many times the time of n = 4 the time of n = 32 is, 8 times the bytes.
fn print_growth(rows: &[Row]) {
    println!("## Growth");
    println!();
    println!("The time of n = 32 over the time of n = 4, for 8 times the bytes.");
    println!();
    println!("| | class | round | phase | agreed: engine | second | mixed: engine | second | tie: engine | second |");
    println!("|---|---|---|---|---|---|---|---|---|---|");
    for crews in rows.chunks_exact(3) {
        let (few, many) = (&crews[0], &crews[2]);
        print!("| {} | {} | {} | {} ", name(few.operation), few.crew.class, few.round, few.phase);
        for votes in [Votes::Agreed, Votes::Mixed, Votes::Tie] {
            let (few, many) = (few.times_of(votes), many.times_of(votes));
            print!("| {:.1} | {:.1} ", many.engine / few.engine, many.second / few.second);
        }
        println!("|");
    }
    println!();
}

/// Takes of round 2 where validators take turns, each beside the same crew in which all nodes validate. In both every
/// slot holds a validation, but for the gaps.
fn print_turns(repetitions: usize) {
    println!("## Validators in turn");
    println!();
    println!("Takes of round 2, nanoseconds.");
    println!();
    print!("| class | phase | n | c | agreed: engine | second | ratio | mixed: engine | second | ratio ");
    println!("| gaps: ratio | stamps: ratio | tie: ratio | floor |");
    println!("|---|---|---|---|---|---|---|---|---|---|---|---|---|---|");
    for crew in CREWS_IN_TURN {
        for phase in PHASES {
            for crew in [crew, Crew { c: crew.n, ..crew }] {
                let node = node(crew, phase, VALIDATION);
                print!("| {} | {phase} | {} | {} ", crew.class, crew.n, crew.c);
                print_times(VOTES.map(|votes| measure(repetitions, Operation::Take, &node, votes)));
            }
        }
    }
    println!();
}

/// What stands around every call of the archive and of no call of the second engine: images.
fn print_image(repetitions: usize) {
    let node = node(CREWS[2][2], LAST_PHASE, 1);
    let record = image::of(&node);
    let result = || _ = black_box(rail::result(black_box(&record)));
    let crew = numbers(node.crew);
    let start = || {
        let mut record = [0; RECORD];
        _ = black_box(rail::start(black_box(crew), 0, 1, 5, &mut record));
        black_box(&record);
    };
    let sound = || _ = black_box(black_box(&node).is_sound());
    let [result, start, sound] = time(repetitions, [&result, &start, &sound]).map(median);
    println!("## The image");
    println!();
    println!("| | ns |");
    println!("|---|---|");
    println!("| reading an image and testing its record (`rail_result`) | {result:.0} |");
    println!("| the same test in the second engine, which has no image | {sound:.0} |");
    println!("| starting a node and writing its image (`rail_start`) | {start:.0} |");
    println!();
}

/// So many demands with a budget for them, by name: too little, with one remainder for all or with random ones, and
/// enough.
fn splits(count: usize) -> [(&'static str, Vec<u32>, u32); 3] {
    let random = &mut Random::new(1);
    let mut up_to = |most: u32| -> Vec<u32> { (0..count).map(|_| random.between(1, most as usize) as u32).collect() };
    let equal = vec![MOST_DEMAND; count];
    let any = up_to(MOST_DEMAND);
    let low = up_to(MOST_DEMAND.min(MOST_BUDGET / count as u32));
    let half = |demands: &[u32]| (demands.iter().sum::<u32>() / 2).min(MOST_BUDGET) - 1;
    let (half_of_equal, half_of_any) = (half(&equal), half(&any));
    [("too little, a tie of all", equal, half_of_equal), ("too little", any, half_of_any), ("enough", low, MOST_BUDGET)]
}

/// Splits of the rail's current, of few demands and of as many as there may be.
fn print_splits(repetitions: usize) {
    println!("## Splits");
    println!();
    println!("Nanoseconds.");
    println!();
    println!("| demands | budget | engine | second | ratio |");
    println!("|---|---|---|---|---|");
    for count in [4, MOST_SHUTTLES] {
        for (name, demands, budget) in splits(count) {
            let shares = RefCell::new(vec![0; count]);
            check_split(&demands, budget);
            let engine = || {
                let shares = &mut shares.borrow_mut();
                _ = black_box(rail::split(black_box(&demands), black_box(budget), black_box(shares)));
            };
            let second = || {
                let shares = &mut shares.borrow_mut();
                _ = black_box(current::split(black_box(&demands), black_box(budget), black_box(shares)));
            };
            let [engine, second] = time(repetitions, [&engine, &second]);
            let ratio = median_ratio(&engine, &second);
            println!("| {count} | {name} | {:.0} | {:.0} | {ratio:.2} |", median(engine), median(second));
        }
    }
    println!();
}

/// What is timed is accepted, and both engines answer it alike.
fn check_split(demands: &[u32], budget: u32) {
    let archive = Archive::default();
    let (mut one, mut other) = (vec![0; demands.len()], vec![1; demands.len()]);
    current::split(demands, budget, &mut other).expect("the second engine splits the budget");
    archive.split(demands, budget, &mut one).expect("the engine splits the budget");
    assert_eq!(one, other);
}

/// The program of this name, which was built with this one.
fn beside_this(name: &str) -> PathBuf {
    std::env::current_exe().expect("this program has a path").with_file_name(name)
}

/// The drill programs, each from its start to its end: on the longest script, and on one that has the same first lines
/// and no round, which is what starting a program costs.
fn print_drill(repetitions: usize, engine: &Path) {
    let second = beside_this("second_drill");
    let longest = drills::longest();
    let without_a_go: Vec<u8> = longest.split_inclusive(|&byte| byte == b'\n').take(2).flatten().copied().collect();
    println!("## Drill");
    println!();
    println!("Milliseconds of a process.");
    println!();
    println!("| script | engine | second | ratio |");
    println!("|---|---|---|---|");
    for (name, script) in [("the longest: 189 rounds", longest), ("without a go", without_a_go)] {
        let [engine, second] = time_programs([engine, &second], &script, |calls| time(repetitions, calls));
        let ratio = median_ratio(&engine, &second);
        println!("| {name} | {:.2} | {:.2} | {ratio:.2} |", median(engine) / 1e6, median(second) / 1e6);
    }
    println!();
}

/// The programs that tell absences, each from its start to its end, on as many records as are taken.
fn print_absence(repetitions: usize, engine: &Path) {
    let plain = beside_this("plain_absence");
    println!("## Absence");
    println!();
    println!(
        "Millions of records a second, of a process that takes {MOST_RECORDS} of them. The ratio is of the times."
    );
    println!();
    println!("| marks | engine | plain | ratio |");
    println!("|---|---|---|---|");
    for (name, input) in finished_runs() {
        // A process takes so long that one is enough for a repetition.
        let [engine, plain] = time_programs([engine, &plain], &input, |calls| time_each(repetitions, [1; 2], calls));
        let ratio = median_ratio(&engine, &plain);
        let rate = |times| MOST_RECORDS as f64 * 1e3 / median(times);
        println!("| {name} | {:.1} | {:.1} | {ratio:.2} |", rate(engine), rate(plain));
    }
    println!();
}

/// As many records as are taken, by the name of their marks: counts of two digits, mostly of one, and of three.
fn finished_runs() -> [(&'static str, Vec<u8>); 3] {
    let random = &mut Random::new(1);
    let mut input = |marks: fn(&mut Random) -> u32| -> Vec<u8> {
        (0..MOST_RECORDS as u32).flat_map(|run| Record { run, marks: marks(random) }.to_bytes()).collect()
    };
    let nearly_all = |random: &mut Random| match random.below(8) {
        0 => !(1 << random.below(NODES)),
        _ => u32::MAX,
    };
    [
        ("random", input(|random| random.number() as u32)),
        ("nearly all set", input(nearly_all)),
        ("none set", input(|_| 0)),
    ]
}

/// Both programs on the input, in turn. It stands in a file, so that they read it and nobody has to feed them.
fn time_programs(
    programs: [&Path; 2],
    input: &[u8],
    time: impl FnOnce([&dyn Fn(); 2]) -> [Vec<f64>; 2],
) -> [Vec<f64>; 2] {
    let [engine, second] = programs.map(|program| output_of(program, input).stdout);
    assert!(engine == second, "the outputs of {programs:?} differ");
    let file = std::env::temp_dir().join(format!("input_of_benchmark_{}", id()));
    fs::write(&file, input).expect("the input is written");
    let [engine, second] = programs.map(|program| || run_program(program, &file));
    let times = time([&engine, &second]);
    fs::remove_file(&file).expect("the input is removed");
    times
}

fn run_program(program: &Path, input: &Path) {
    let input = File::open(input).expect("the input is there");
    let status = Command::new(program).stdin(input).stdout(Stdio::null()).status();
    assert!(status.expect("the program is started").success(), "{} failed", program.display());
}
