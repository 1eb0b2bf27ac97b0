//! Times round 2 of two editions of the proved engine in one run, in turn, on the same bytes: of an edition before and
//! of this tree's, whose archives `rust/editions` makes ready. Usage: both_editions BEFORE [REPETITIONS], where BEFORE
//! is what the edition before is called; it prints one table, and at last how high the ratios are.

mod calls;

use archive::image;
use archive::rows::{inbox, node, Votes, CREWS_IN_TURN, VOTES};
use archive::timing::{median, median_ratio, time_two};
use rail::RECORD;
use second_engine::inbox::SLOT;
use second_engine::message::LAST_PHASE;
use second_engine::node::VALIDATION;
use second_engine::{rounds, Crew, Node};
use std::cell::RefCell;
use std::hint::black_box;
use std::process::exit;

/// In a crew of 31 the same nodes validate in these three, though phase times c is ever higher.
const PHASES: [u8; 3] = [1, 32, LAST_PHASE];

/// What an edition does in round 2. Both are called through these pointers, so that it is by the same code.
struct Edition {
    write: fn(&[u8], &mut [u8]) -> u64,
    take: fn(&mut [u8], &[u8]) -> u64,
}

const BEFORE: Edition = Edition { write: calls::write_before, take: calls::take_before };
const NOW: Edition = Edition { write: calls::write_now, take: calls::take_now };

/// A row: a call by this node.
struct Row {
    node: Node,
    call: Call,
    what: String,
}

enum Call {
    Write,
    /// With this inbox.
    Take(Vec<u8>),
}

/// Medians over the repetitions: nanoseconds for each call, and the time now over the time before.
struct Times {
    before: f64,
    now: f64,
    ratio: f64,
}

fn main() {
    let arguments: Vec<String> = std::env::args().skip(1).collect();
    let (before, repetitions) = match arguments.as_slice() {
        [before] => (before, 101),
        [before, repetitions] => (before, repetitions.parse().ok().filter(|&n| n > 0).unwrap_or_else(|| usage())),
        _ => usage(),
    };
    print_head(before, repetitions);
    let mut ratios = Vec::new();
    for row in rows() {
        check(&row);
        let times = measure(repetitions, &row);
        print_row(&row, &times);
        ratios.push(times.ratio);
    }
    print_ratios(&ratios);
}

fn usage() -> ! {
    eprintln!("usage: both_editions BEFORE [REPETITIONS]");
    exit(2);
}

/// The writes, then the takes, each of both classes, first of the crew whose validators take turns and then of the same
/// crew in which all validate.
fn rows() -> Vec<Row> {
    let crews = CREWS_IN_TURN.into_iter().flat_map(|crew| [crew, Crew { c: crew.n, ..crew }]);
    let nodes: Vec<Node> = crews.flat_map(|crew| PHASES.map(|phase| node(crew, phase, VALIDATION))).collect();
    nodes.iter().flat_map(writes).chain(nodes.iter().flat_map(takes)).collect()
}

fn is_validator(node: &Node, q: u8) -> bool {
    node.crew.is_validator(u64::from(node.phase), q)
}

/// The writes of the first node that validates in this node's phase, and of the first that does not.
fn writes(node: &Node) -> Vec<Row> {
    let first = |validates: bool| (0..node.crew.n).find(|&q| is_validator(node, q) == validates);
    let of = |own: u8, what: &str| Row { node: Node { own, ..*node }, call: Call::Write, what: what.to_string() };
    let validator = first(true).map(|own| of(own, "validates"));
    let other = first(false).map(|own| of(own, "does not validate: silence"));
    validator.into_iter().chain(other).collect()
}

/// For each kind of inbox the take in which every slot holds a validation, but for the gaps, and the one in which only
/// the validators' slots do, as in an aisle, where that is another.
fn takes(node: &Node) -> Vec<Row> {
    let of = |votes: Votes, from: &str, inbox: Vec<u8>| {
        let what = format!("{}, from {from}", name(votes));
        Row { node: *node, call: Call::Take(inbox), what }
    };
    let from_all = |votes| of(votes, "all nodes", inbox(node, votes));
    let from_validators = |votes| of(votes, "validators", without_others(node, inbox(node, votes)));
    let all = VOTES.into_iter().map(from_all);
    if node.crew.c == node.crew.n {
        return all.collect();
    }
    all.chain(VOTES.into_iter().map(from_validators)).collect()
}

/// The inbox with the slots empty of nodes that do not validate in this node's phase.
fn without_others(node: &Node, mut inbox: Vec<u8>) -> Vec<u8> {
    for (q, slot) in (0..).zip(inbox.chunks_exact_mut(SLOT)) {
        if !is_validator(node, q) {
            slot.fill(0);
        }
    }
    inbox
}

fn name(votes: Votes) -> &'static str {
    match votes {
        Votes::Agreed => "agreed",
        Votes::Mixed => "mixed",
        Votes::Gaps => "gaps",
        Votes::Stamps => "stamps",
        Votes::Tie => "tie",
    }
}

/// What a call leaves: its answer, the record and the buffer.
type Outcome = (u64, [u8; RECORD], [u8; SLOT]);

/// What stands in a buffer before it is written.
const BUFFER: [u8; SLOT] = [0xa5; SLOT];

/// What is timed is accepted, and both editions answer it as the second engine does, byte for byte.
fn check(row: &Row) {
    let expected = outcome_of_second(row);
    assert_eq!(outcome(&BEFORE, row), expected, "the edition before");
    assert_eq!(outcome(&NOW, row), expected, "this edition");
}

fn outcome(edition: &Edition, row: &Row) -> Outcome {
    let (mut record, mut buffer) = (image::of(&row.node), BUFFER);
    let answer = match &row.call {
        Call::Write => (edition.write)(&record, &mut buffer),
        Call::Take(inbox) => (edition.take)(&mut record, inbox),
    };
    (answer, record, buffer)
}

fn outcome_of_second(row: &Row) -> Outcome {
    let (mut node, mut buffer) = (row.node, BUFFER);
    let answer = match &row.call {
        Call::Write => node.write(&mut buffer).map(|length| length as u64),
        Call::Take(inbox) => rounds::take(&mut node, inbox).map(|()| 0),
    };
    (answer.expect("the second engine accepts the call"), image::of(&node), buffer)
}

fn measure(repetitions: usize, row: &Row) -> Times {
    let (record, buffer) = (image::of(&row.node), RefCell::new(BUFFER));
    let [before, now] = [&BEFORE, &NOW].map(|edition| timed(edition, row, &record, &buffer));
    let [before, now] = time_two(repetitions, [&before, &now]);
    let ratio = rounded(median_ratio(&now, &before));
    let [before, now] = [before, now].map(median);
    Times { before, now, ratio }
}

/// The call that is timed. It is one and the same for both editions, down to where the bytes stand that are lent.
fn timed<'a>(
    edition: &'a Edition,
    row: &'a Row,
    record: &'a [u8; RECORD],
    buffer: &'a RefCell<[u8; SLOT]>,
) -> impl Fn() + 'a {
    move || match &row.call {
        Call::Write => {
            let buffer = &mut *buffer.borrow_mut();
            _ = black_box((edition.write)(black_box(record), black_box(buffer)));
        }
        Call::Take(inbox) => {
            let mut next = *black_box(record);
            _ = black_box((edition.take)(&mut next, black_box(inbox)));
            black_box(&next);
        }
    }
}

/// To as many digits as are printed, so that the counts in the last line are those of the table.
fn rounded(ratio: f64) -> f64 {
    (ratio * 1_000.0).round() / 1_000.0
}

fn print_head(before: &str, repetitions: usize) {
    println!("## Round 2 of two editions");
    println!();
    println!("Before: {before}. Now: this tree. n = {}; nanoseconds of a call.", CREWS_IN_TURN[0].n);
    println!("A ratio is the time now over the time before, the median of {repetitions} repetitions.");
    println!("A validation has no stamp: the inboxes agreed and stamps are the same bytes.");
    println!();
    println!("| | class | phase | c | what | before | now | ratio |");
    println!("|---|---|---|---|---|---|---|---|");
}

fn print_row(row: &Row, times: &Times) {
    let Row { node: Node { crew, phase, .. }, call, what } = row;
    let operation = match call {
        Call::Write => "write",
        Call::Take(_) => "take",
    };
    let Times { before, now, ratio } = times;
    print!("| {operation} | {} | {phase} | {} | {what} ", crew.class, crew.c);
    println!("| {before:.1} | {now:.1} | {ratio:.3} |");
}

fn print_ratios(ratios: &[f64]) {
    let highest = ratios.iter().copied().fold(0.0, f64::max);
    let above = |bound: f64| ratios.iter().filter(|&&ratio| ratio > bound).count();
    let (rows, slower, much_slower) = (ratios.len(), above(1.0), above(1.02));
    println!();
    println!("The highest ratio is {highest:.3}. Above 1.0: {slower} of {rows} rows. Above 1.02: {much_slower}.");
}
