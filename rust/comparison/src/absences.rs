//! The program that prints absences (02, C-24): what 02 states of its lines, on any engine. A second engine, if there
//! is one, has to print the same, byte for byte.

use crate::cases::expect;
use crate::engine::Engine;
use crate::pair::Pair;
use generators::absences::{self, LONG};
use generators::Random;
use second_engine::absence::{Record, MOST_HELD, MOST_RECORDS, NODES, RECORD};

/// What a line says: for each node how many of the records held miss it.
pub type Counts = [u32; NODES];

/// A random input.
pub fn drive(random: &mut Random, pair: Pair) -> Result<(), String> {
    check(pair, &absences::any(random))
}

/// The long inputs: as many records as are taken, and more. The shorter are the front of the longest, and what comes
/// after the first 1,000,000 records prints nothing, so that all have one output; the other engine prints it once. Then
/// the one in which all records but the first are refused. Tells the first difference.
pub fn compare_long(seed: u64, one: &dyn Engine, other: &dyn Engine) -> Result<(), String> {
    let longest = absences::long(seed);
    let expected = other.absence(&longest);
    for length in LONG.map(|count| RECORD * count).into_iter().chain([longest.len()]) {
        same_lines(&longest, &one.absence(&longest[..length]), &expected)
            .map_err(|failure| format!("long input of {length} bytes, seed {seed}: {failure}"))?;
    }
    play(Pair { engine: one, other: Some(other) }, &absences::repeated())
        .map_err(|failure| format!("long input of one record: {failure}"))?;
    println!("long inputs: {LONG:?} records print the same, seed {seed}");
    Ok(())
}

/// What is checked of an output, by name: its form, how high counts are, that a refused record changes none, how counts
/// move otherwise, and that they are those of the newest records.
pub const CHECKS: [&str; 5] = ["lines", "bounds", "refused", "steps", "window"];

/// Plays the input and tells the first check that fails.
pub fn check(pair: Pair, input: &[u8]) -> Result<(), String> {
    for (name, outcome) in CHECKS.into_iter().zip(checks(pair, input)?) {
        outcome.map_err(|failure| format!("{name}: {failure}\ninput of {} bytes", input.len()))?;
    }
    Ok(())
}

/// Plays the input and gives the outcome of each check. An error of its own is a difference between two engines. Where
/// the output has not the form of lines, there is nothing to check further.
pub fn checks(pair: Pair, input: &[u8]) -> Result<[Result<(), String>; CHECKS.len()], String> {
    let output = play(pair, input)?;
    let records = records_of(input);
    let lines = match lines_of(&output, records.len()) {
        Ok(lines) => lines,
        Err(failure) => return Ok([Err(failure), Ok(()), Ok(()), Ok(()), Ok(())]),
    };
    Ok([
        Ok(()),
        check_bounds(&lines),
        check_refused(&records, &lines),
        check_steps(&records, &lines),
        check_window(&records, &lines),
    ])
}

fn play(pair: Pair, input: &[u8]) -> Result<Vec<u8>, String> {
    let one = pair.engine.absence(input);
    if let Some(other) = pair.other {
        same_lines(input, &one, &other.absence(input))?;
    }
    Ok(one)
}

/// Tells the first line that differs, by its number from 1 on, and the record that stands before it.
fn same_lines(input: &[u8], one: &[u8], other: &[u8]) -> Result<(), String> {
    if one == other {
        return Ok(());
    }
    let lines = |output| <[u8]>::split_inclusive(output, |&byte| byte == b'\n').map(String::from_utf8_lossy);
    let place = lines(one).zip(lines(other)).take_while(|(one, other)| one == other).count();
    let show = |output| lines(output).nth(place).map_or("nothing".to_string(), |line| format!("{line:?}"));
    let after = match input.as_chunks::<RECORD>().0.get(place).map(|&bytes| Record::from_bytes(bytes)) {
        Some(Record { run, marks }) => format!("the record of run {run} with marks {marks:#010x}"),
        None => "the last record".to_string(),
    };
    let (one, other) = (show(one), show(other));
    Err(format!("line {} differs, after {after}\none: {one}\nother: {other}", place + 1))
}

/// The records that are taken of an input. 02: "the first 1,000,000 at most", "a remnant is dropped"
pub fn records_of(input: &[u8]) -> Vec<Record> {
    input.chunks_exact(RECORD).take(MOST_RECORDS).map(|bytes| Record::from_bytes(bytes.try_into().unwrap())).collect()
}

/// 02: "prints the 32 counts after each, refused ones too, on one line parted by spaces"
fn lines_of(output: &[u8], records: usize) -> Result<Vec<Counts>, String> {
    let text = std::str::from_utf8(output).map_err(|_| "the output is no text".to_string())?;
    expect(text.is_empty() || text.ends_with('\n'), || "the last line has no end".to_string())?;
    let lines: Vec<Counts> = text.split_terminator('\n').map(counts_of).collect::<Result<_, _>>()?;
    expect(lines.len() == records, || format!("{} lines for {records} records", lines.len()))?;
    Ok(lines)
}

/// The counts of a line. Each has its one form, in which no zero leads.
fn counts_of(line: &str) -> Result<Counts, String> {
    let count = |word: &str| word.parse::<u32>().ok().filter(|count| count.to_string() == word);
    let counts: Option<Vec<u32>> = line.split(' ').map(count).collect();
    counts.and_then(|counts| counts.try_into().ok()).ok_or_else(|| format!("no 32 counts: {line:?}"))
}

/// 02: "The window holds the newest 100", so no count passes that, nor the records so far.
fn check_bounds(lines: &[Counts]) -> Result<(), String> {
    for (place, counts) in lines.iter().enumerate() {
        let most = MOST_HELD.min(place + 1);
        let is_within = counts.iter().all(|&count| count as usize <= most);
        expect(is_within, || format!("a count above {most} after record {place}"))?;
    }
    Ok(())
}

/// Whether the record at this place has the run number of the one before it. That is always the number of the newest
/// held: a record that was refused had it already.
fn is_repeating(records: &[Record], place: usize) -> bool {
    place > 0 && records[place].run == records[place - 1].run
}

/// 02: "It refuses with 23 a record whose run number is that of the newest held, leaving the window unchanged."
fn check_refused(records: &[Record], lines: &[Counts]) -> Result<(), String> {
    for place in (1..records.len()).filter(|&place| is_repeating(records, place)) {
        expect(lines[place] == lines[place - 1], || format!("record {place} is refused and changes the counts"))?;
    }
    Ok(())
}

/// One record comes and at most one goes: a count stays, or rises by 1 where the record misses the node, or else falls
/// by 1.
fn check_steps(records: &[Record], lines: &[Counts]) -> Result<(), String> {
    let mut before: Counts = [0; NODES];
    for (place, (record, counts)) in records.iter().zip(lines).enumerate() {
        if !is_repeating(records, place) {
            for (q, (&before, &count)) in before.iter().zip(counts).enumerate() {
                let next = if misses(record, q) { before + 1 } else { before.saturating_sub(1) };
                expect([before, next].contains(&count), || {
                    format!("node {q} goes from {before} to {count} by record {place}")
                })?;
            }
        }
        before = *counts;
    }
    Ok(())
}

fn misses(record: &Record, q: usize) -> bool {
    record.marks >> q & 1 == 0
}

/// 02: "The window holds the newest 100 and, for each node, how many of them miss it." Sums from the first record on
/// are kept in a list; the counts are the last of them less the one 100 before it.
fn check_window(records: &[Record], lines: &[Counts]) -> Result<(), String> {
    let mut sums = vec![[0; NODES]];
    for (place, (record, counts)) in records.iter().zip(lines).enumerate() {
        let mut sum: Counts = sums[sums.len() - 1];
        if !is_repeating(records, place) {
            (0..NODES).for_each(|q| sum[q] += u32::from(misses(record, q)));
            sums.push(sum);
        }
        let gone = sums[(sums.len() - 1).saturating_sub(MOST_HELD)];
        let expected: Counts = std::array::from_fn(|q| sum[q] - gone[q]);
        expect(*counts == expected, || format!("{counts:?} after record {place}, not {expected:?}"))?;
    }
    Ok(())
}
