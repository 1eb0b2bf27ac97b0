//! Inputs of the program that prints absences: records of finished runs, with run numbers that come again and marks of
//! all sorts, in lengths about the edges of the window and of what is read at once, most with a remnant.

use crate::random::Random;
use second_engine::absence::{Record, MOST_HELD, MOST_RECORDS, NODES, RECORD};

/// What a program may read at once: a page, and multiples of it.
const PAGE: usize = 4_096;
/// How many records there are of a scene before another follows, on the average.
const SCENE: usize = 1_000;

/// Any input.
pub fn any(random: &mut Random) -> Vec<u8> {
    let length = length(random);
    of_length(random, length)
}

/// An input of so many bytes. A remnant is the front of one more record.
fn of_length(random: &mut Random, length: usize) -> Vec<u8> {
    let mut scene = Scene::new(random, Vec::new());
    let mut input = Vec::with_capacity(length + RECORD);
    while input.len() < length {
        if random.chance(1, SCENE) {
            scene = Scene::new(random, scene.records);
        }
        input.extend(scene.next(random).to_bytes());
    }
    input.truncate(length);
    input
}

/// How many bytes an input has: few, about the window's length or twice that, about a page, or some thousands of
/// records.
fn length(random: &mut Random) -> usize {
    let remnant = if random.chance(1, 3) { 0 } else { random.between(1, RECORD - 1) };
    let few = random.between(1, 12);
    let about_full = random.pick(&[MOST_HELD - 1, MOST_HELD, MOST_HELD + 1, 2 * MOST_HELD - 1, 2 * MOST_HELD]);
    match random.below(16) {
        0 => random.pick(&[0, RECORD - 1, RECORD, RECORD + 1]),
        1 | 2 => RECORD * few + remnant,
        3..=6 => RECORD * about_full + remnant,
        7 => RECORD * random.pick(&[2 * MOST_HELD + 1, 250]) + remnant,
        // From one byte below to a record above.
        8 | 9 => PAGE + random.between(0, RECORD + 1) - 1,
        10 | 11 => PAGE * random.between(2, 5) + random.between(0, RECORD + 1) - 1,
        12..=14 => RECORD * random.between(0, 600) + remnant,
        _ => RECORD * random.between(600, 3_000) + remnant,
    }
}

/// How many records the long inputs have: as many as are taken, one more, and many more.
pub const LONG: [usize; 3] = [MOST_RECORDS, MOST_RECORDS + 1, LONGEST];
const LONGEST: usize = MOST_RECORDS + 500;

/// The longest of the long inputs, and a remnant. The others are its front.
pub fn long(seed: u64) -> Vec<u8> {
    of_length(&mut Random::new(seed), RECORD * LONGEST + 3)
}

/// As long, but of one record, so that all but the first are refused: an input that passes the limit and is quickly
/// counted, since one record is held.
pub fn repeated() -> Vec<u8> {
    Record { run: 7, marks: 1 }.to_bytes().repeat(LONGEST)
}

/// What the records of one input, or of a part of it, have in common, and those that came before.
struct Scene {
    /// How likely sorts of run numbers are, in eighths: those that come again, and among them that of the last record.
    again: usize,
    last_again: usize,
    numbers: Numbers,
    marks: Marks,
    /// A port that begins to fail: its node, and the record from which on it does so more and more.
    port: usize,
    failing_from: usize,
    records: Vec<Record>,
}

/// The run numbers that do not come again on purpose.
#[derive(Clone, Copy)]
enum Numbers {
    Rising,
    /// Two or three numbers, so that every number comes again and again.
    Few(u32),
    Any,
}

/// The marks that most records have.
#[derive(Clone, Copy)]
enum Marks {
    /// Each record has another sort.
    Mixed,
    /// All but few of this many nodes, the others never: they are not of the crew.
    NearlyAll(usize),
    None,
    All,
    Any,
}

impl Scene {
    /// A scene after these records.
    fn new(random: &mut Random, records: Vec<Record>) -> Scene {
        let nodes = random.pick(&[NODES, NODES, 4, 1]);
        let few = random.between(2, 3) as u32;
        Scene {
            again: random.pick(&[0, 1, 2, 4]),
            last_again: random.pick(&[1, 4, 8]),
            numbers: random.pick(&[Numbers::Rising, Numbers::Rising, Numbers::Few(few), Numbers::Any]),
            marks: random.pick(&[
                Marks::Mixed,
                Marks::Mixed,
                Marks::NearlyAll(nodes),
                Marks::NearlyAll(NODES),
                Marks::Any,
                Marks::Any,
                Marks::None,
                Marks::All,
            ]),
            port: random.below(NODES),
            failing_from: records.len() + random.below(4 * MOST_HELD),
            records,
        }
    }

    fn next(&mut self, random: &mut Random) -> Record {
        let record = Record { run: self.run(random), marks: self.marks(random) };
        self.records.push(record);
        record
    }

    fn run(&self, random: &mut Random) -> u32 {
        let any_run = random.number() as u32;
        let Some(last) = self.records.last() else {
            return random.pick(&[0, 0, 1, u32::MAX, any_run]);
        };
        let one_bit_off = last.run ^ (1 << random.below(u32::BITS as usize));
        if random.chance(self.again, 8) {
            return self.run_again(random);
        }
        match self.numbers {
            // One in a while that is far from it, or differs in one bit from the last.
            _ if random.chance(1, 32) => random.pick(&[0, u32::MAX, any_run, one_bit_off]),
            Numbers::Rising => last.run.wrapping_add(1),
            Numbers::Few(few) => any_run % few,
            Numbers::Any => any_run,
        }
    }

    /// A run number that came before. That of the last record is always that of the newest held: where the record was
    /// refused, it had the same. The others are those of older records, about the window's end above all.
    fn run_again(&self, random: &mut Random) -> u32 {
        let count = self.records.len();
        let any_distance = random.between(1, count.min(2 * MOST_HELD));
        let distance = if random.chance(self.last_again, 8) {
            1
        } else {
            random.pick(&[2, 3, MOST_HELD - 1, MOST_HELD, MOST_HELD + 1, any_distance])
        };
        self.records[count - distance.min(count)].run
    }

    fn marks(&self, random: &mut Random) -> u32 {
        let any_marks = random.number() as u32;
        let one = 1 << random.below(NODES);
        let marks = match self.marks {
            Marks::Mixed => random.pick(&[0, u32::MAX, one, !one, any_marks]),
            Marks::NearlyAll(nodes) => {
                let missed = if random.chance(1, 8) { one } else { 0 };
                (u32::MAX >> (NODES - nodes)) & !missed
            }
            Marks::Any => any_marks,
            Marks::None => 0,
            Marks::All => u32::MAX,
        };
        // The port fails more and more often, and after as many records as a window has always.
        let failing = self.records.len().saturating_sub(self.failing_from);
        if random.chance(failing.min(MOST_HELD), MOST_HELD) {
            marks & !(1 << self.port)
        } else {
            marks
        }
    }
}
