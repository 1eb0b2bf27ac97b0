//! The window over finished runs and the program over it (02, C-24): lines worked out by hand, records that are
//! refused, inputs of odd lengths, the limit, and for each wrong program an input for which it prints otherwise.

use second_engine::absence::{run, run_mutated, Record, Stream, Window, MOST_RECORDS, RECORD};
use second_engine::inbox::SLOT;
use second_engine::Mutation::{self, *};
use second_engine::{rounds, Crew, Node, Refusal};
use std::io::Write;
use std::process::{Command, Stdio};

/// All marks set: a run that misses nobody.
const ALL: u32 = u32::MAX;

/// The input of these runs and marks.
fn input(records: &[(u32, u32)]) -> Vec<u8> {
    records.iter().flat_map(|&(run, marks)| Record { run, marks }.to_bytes()).collect()
}

/// So many records of runs 1, 2, 3 and so on, the first with no mark, the others with all of them.
fn first_misses_all(count: u32) -> Vec<(u32, u32)> {
    (1..=count).map(|run| (run, if run == 1 { 0 } else { ALL })).collect()
}

/// A line of these 32 counts.
fn line(counts: [u32; 32]) -> String {
    counts.map(|count| count.to_string()).join(" ") + "\n"
}

/// The counts of one node, line by line.
fn counts_of(q: usize, output: &[u8]) -> Vec<u32> {
    let text = std::str::from_utf8(output).expect("the output is text");
    let count = |line: &str| line.split(' ').nth(q).expect("a line has 32 counts").parse().expect("a number");
    text.lines().map(count).collect()
}

#[test]
fn a_record_is_run_and_marks() {
    let record = Record { run: 0x0403_0201, marks: 0x0807_0605 };
    assert_eq!(record.to_bytes(), [1, 2, 3, 4, 5, 6, 7, 8]);
    assert_eq!(Record::from_bytes([1, 2, 3, 4, 5, 6, 7, 8]), record);
}

#[test]
fn lines_worked_out_by_hand() {
    // Node 0 and node 31 each miss one run, then nobody does, then everybody misses one.
    let records = input(&[(7, ALL - 1), (8, ALL >> 1), (9, ALL), (10, 0)]);
    let mut counts = [0; 32];
    let mut expected = String::new();
    counts[0] = 1;
    expected += &line(counts);
    counts[31] = 1;
    expected += &line(counts);
    expected += &line(counts);
    expected += &line(counts.map(|count| count + 1));
    assert_eq!(String::from_utf8_lossy(&run(&records)), expected);
    assert_eq!(
        String::from_utf8_lossy(&run(&input(&[(0, 0b101)]))),
        "0 1 0 1 1 1 1 1 1 1 1 1 1 1 1 1 1 1 1 1 1 1 1 1 1 1 1 1 1 1 1 1\n"
    );
}

#[test]
fn the_newest_hundred_are_held() {
    let mut window = Window::default();
    for run in 0..250 {
        let marks = if run % 2 == 0 { 0 } else { ALL };
        assert_eq!(window.add(Record { run, marks }), Ok(()));
        let first = (run + 1).saturating_sub(100);
        assert!(window.held().map(|record| record.run).eq(first..=run));
        // Of the numbers from the first on every second is even, the first of 100 among them or the next.
        let even = (first..=run).filter(|held| held % 2 == 0).count() as u32;
        assert_eq!(window.counts(), [even; 32], "after run {run}");
    }
    assert_eq!(window.counts(), [50; 32]);
    // The one record that missed everybody goes with the hundred and first.
    let counts = counts_of(5, &run(&input(&first_misses_all(102))));
    assert!(counts[..100].iter().all(|&count| count == 1));
    assert_eq!(counts[100..], [0, 0]);
    // A hundred that miss everybody are three digits.
    let records: Vec<(u32, u32)> = (0..101).map(|run| (run, 0)).collect();
    assert!(run(&input(&records)).ends_with(line([100; 32]).repeat(2).as_bytes()));
}

#[test]
fn only_the_newest_run_is_refused() {
    let mut window = Window::default();
    let mut add = |run, marks| {
        let before: Vec<Record> = window.held().collect();
        let answer = window.add(Record { run, marks });
        assert!(answer.is_ok() || window.held().eq(before));
        (answer, window.counts()[0])
    };
    // An empty window refuses nothing.
    assert_eq!(add(0, 0), (Ok(()), 1));
    assert_eq!(add(0, 0), (Err(Refusal::SameRun), 1));
    assert_eq!(add(0, ALL), (Err(Refusal::SameRun), 1));
    assert_eq!(add(u32::MAX, ALL), (Ok(()), 1));
    assert_eq!(add(u32::MAX, 0), (Err(Refusal::SameRun), 1));
    // An older number may come again.
    assert_eq!(add(0, 0), (Ok(()), 2));
    // Numbers that have three of their bytes in common are different.
    for byte in 0..4 {
        assert_eq!(add(1 << (8 * byte), ALL), (Ok(()), 2));
        assert_eq!(add(0, ALL), (Ok(()), 2));
    }
}

#[test]
fn remnants_are_dropped() {
    let records = input(&[(1, 0), (2, 1), (2, 5), (3, 9)]);
    let lines = run(&records);
    for length in 0..=records.len() {
        let whole = length / RECORD;
        let expected: Vec<u8> = lines.split_inclusive(|&byte| byte == b'\n').take(whole).flatten().copied().collect();
        assert_eq!(run(&records[..length]), expected, "{length} bytes");
        // In pieces of every size as well.
        for size in 1..=length {
            let (mut stream, mut output) = (Stream::default(), Vec::new());
            records[..length].chunks(size).for_each(|piece| stream.take(piece, &mut output));
            stream.end(&mut output);
            assert_eq!(output, expected, "{length} bytes in pieces of {size}");
        }
    }
}

/// The marks of node 0 in the round in which it decided, in a run of four of which one may be silent.
fn marks_of_run(run: u32, silent: Option<usize>) -> u32 {
    let crew = Crew::whole(3, 4, 1, 0, 3);
    let start = |own| Node::start(crew, own, run, 5).expect("the start is in order");
    let mut nodes = [0, 1, 2, 3].map(start);
    loop {
        let mut inbox = [0; 4 * SLOT];
        for (q, slot) in inbox.chunks_exact_mut(SLOT).enumerate().filter(|&(q, _)| Some(q) != silent) {
            nodes[q].write(slot).expect("the slot is long enough");
        }
        let marks = rounds::marks(&nodes[0], &inbox).expect("the round is taken");
        nodes.iter_mut().for_each(|node| rounds::take(node, &inbox).expect("the round is taken"));
        if nodes[0].result != 0 {
            return marks;
        }
    }
}

/// 02: "A port about to fail shows as a slot that stops counting." Here from run 120 on; the nodes that a crew of four
/// lacks are missed by every run.
#[test]
fn a_failing_port_shows() {
    let mut window = Window::default();
    for run in 1..=240 {
        let silent = (run >= 120).then_some(2);
        let marks = marks_of_run(run, silent);
        assert_eq!(marks, if silent.is_some() { 0b1011 } else { 0b1111 });
        assert_eq!(window.add(Record { run, marks }), Ok(()));
        let counts = window.counts();
        assert_eq!(counts[..4], [0, 0, (run + 1).saturating_sub(120).min(100), 0], "after run {run}");
        assert_eq!(counts[4..], [run.min(100); 28], "after run {run}");
    }
}

/// More records than are taken, of one run, so that all but the first are refused and counting is quick.
fn beyond_the_limit() -> Vec<u8> {
    let record = Record { run: 3, marks: 0 }.to_bytes();
    [record.repeat(MOST_RECORDS + 5), vec![1, 2, 3]].concat()
}

#[test]
fn the_first_million_are_taken() {
    let records = beyond_the_limit();
    let one = line([1; 32]);
    for count in [MOST_RECORDS - 1, MOST_RECORDS, MOST_RECORDS + 1, MOST_RECORDS + 5] {
        let output = run(&records[..RECORD * count]);
        assert!(output == one.repeat(count.min(MOST_RECORDS)).as_bytes(), "{count} records");
    }
}

#[test]
fn each_wrong_program_prints_otherwise() {
    /// The input, the node that is looked at, and the end of its counts with the engine and with the mutant.
    type Case<'a> = (Mutation, Vec<u8>, usize, &'a [u32], &'a [u32]);
    let full = |last: (u32, u32)| input(&[first_misses_all(100), vec![last]].concat());
    let remnant = [input(&[(1, 0), (2, 0)]), vec![9, 0, 0]].concat();
    let cases: [Case; 14] = [
        (NinetyNineHeld, input(&first_misses_all(100)), 0, &[1, 1], &[1, 0]),
        (HundredAndOneHeld, input(&first_misses_all(102)), 0, &[1, 0, 0], &[1, 1, 0]),
        (NewestDropped, full((101, ALL)), 0, &[1, 0], &[1, 1]),
        (PresenceCounted, input(&[(1, 1), (2, 1)]), 0, &[0, 0], &[1, 2]),
        (AnyHeldRunRefused, input(&[(1, 0), (2, 0), (1, 0)]), 0, &[1, 2, 3], &[1, 2, 2]),
        (OldestRunCompared, input(&[(1, 0), (2, 0), (2, 0), (1, 0)]), 0, &[1, 2, 2, 3], &[1, 2, 3, 3]),
        (EmptyWindowRefusesRunZero, input(&[(0, 0), (0, 0)]), 0, &[1, 1], &[0, 0]),
        (RefusedRecordAdded, input(&[(1, 0), (1, 0)]), 0, &[1, 1], &[1, 2]),
        (NoLineForRefused, input(&[(1, 0), (1, 0), (2, 0)]), 0, &[1, 1, 2], &[1, 2]),
        (BigEndianRecords, input(&[(1, 0xff)]), 8, &[1], &[1]),
        (BigEndianRecords, input(&[(1, 0xff)]), 0, &[0], &[1]),
        (MarksBeforeRun, input(&[(1, 0), (1, 1)]), 0, &[1, 1], &[0, 0]),
        (MarksReadFromTheOtherEnd, input(&[(1, 1)]), 31, &[1], &[0]),
        (RemnantTaken, remnant, 0, &[1, 2], &[1, 2, 3]),
    ];
    for (mutation, records, q, right, wrong) in &cases {
        for (mutation, counts) in [(Unmutated, right), (*mutation, wrong)] {
            let found = counts_of(*q, &run_mutated(records, mutation));
            assert!(found.ends_with(counts), "{mutation:?}: node {q} has {found:?}, not {counts:?} at the end");
        }
        assert_ne!(run(records), run_mutated(records, *mutation), "{mutation:?}");
    }
    // The limit, from both sides.
    let (records, one) = (beyond_the_limit(), line([1; 32]));
    let lines = |mutation| run_mutated(&records, mutation).len() / one.len();
    assert_eq!(lines(OneRecordTooMany), MOST_RECORDS + 1);
    assert_eq!(lines(RefusedRecordsNotCounted), MOST_RECORDS + 5);
    // None is left out.
    let is_told = |mutant: &Mutation| {
        cases.iter().any(|(mutation, ..)| mutation == mutant)
            || [OneRecordTooMany, RefusedRecordsNotCounted].contains(mutant)
    };
    assert!(Mutation::MUTANTS_OF_ABSENCE.iter().all(is_told));
}

/// The output of the program `second_absence` for this input, and whether it ended well.
fn program(word: Option<&str>, input: &[u8]) -> (Vec<u8>, bool) {
    let mut child = Command::new(env!("CARGO_BIN_EXE_second_absence"))
        .args(word)
        .stdin(Stdio::piped())
        .stdout(Stdio::piped())
        .stderr(Stdio::null())
        .spawn()
        .expect("the program starts");
    // A program that is told of no mutant reads nothing.
    let _ = child.stdin.take().expect("standard input is piped").write_all(input);
    let output = child.wait_with_output().expect("the output is read");
    (output.stdout, output.status.success())
}

#[test]
fn the_program_prints_the_lines() {
    let records = [input(&first_misses_all(101)), vec![7]].concat();
    assert_eq!(program(None, &[]), (Vec::new(), true));
    assert_eq!(program(None, &records), (run(&records), true));
    assert_eq!(program(Some("RemnantTaken"), &records), (run_mutated(&records, RemnantTaken), true));
    assert_eq!(program(Some("NoSuchMutant"), &records), (Vec::new(), false));
}
