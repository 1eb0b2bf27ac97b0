//! One generated case of each operation, given to two engines. A difference is told with the whole case.

use crate::engine::Engine;
use crate::pair::Pair;
use crate::{absences, runs, schedules, splits};
use generators::{crews, drills, inboxes, messages, plans, records, Random};
use second_engine::inbox::SLOT;
use second_engine::message::{DECISION_LENGTH, ENTRY, HEADER, SELECTION_LENGTH, VALIDATION_LENGTH};
use second_engine::Node;
use std::fmt::Debug;
use std::fmt::Write;

/// What a case compares.
#[derive(Clone, Copy, Debug, PartialEq, Eq)]
pub enum Operation {
    Accept,
    Start,
    Write,
    Read,
    /// Asking and taking.
    Round,
    /// Telling the slots that count.
    Marks,
    /// Splitting the rail's current, with the properties of C-19.
    Split,
    /// Whole runs, with the properties of demand 3.
    Run,
    /// Nodes out of step, with the claims of C-17.
    Schedule,
    Drill,
    /// The program that tells absences, with the properties of C-24.
    Absence,
}

impl Operation {
    pub const ALL: [Operation; 11] = [
        Operation::Accept,
        Operation::Start,
        Operation::Write,
        Operation::Read,
        Operation::Round,
        Operation::Marks,
        Operation::Split,
        Operation::Run,
        Operation::Schedule,
        Operation::Drill,
        Operation::Absence,
    ];
}

/// Gives the case of this seed to both engines and tells the first difference.
pub fn compare(operation: Operation, seed: u64, one: &dyn Engine, other: &dyn Engine) -> Result<(), String> {
    let random = &mut Random::new(seed);
    let outcome = match operation {
        Operation::Accept => compare_accept(random, one, other),
        Operation::Start => compare_start(random, one, other),
        Operation::Write => compare_write(random, one, other),
        Operation::Read => compare_read(random, one, other),
        Operation::Round => {
            compare_inbox(random, |node, inbox| (ask_and_take(one, node, inbox), ask_and_take(other, node, inbox)))
        }
        Operation::Marks => compare_inbox(random, |node, inbox| (marks(one, node, inbox), marks(other, node, inbox))),
        Operation::Split => splits::drive(random, Pair { engine: one, other: Some(other) }),
        Operation::Run => runs::drive(random, one, Some(other)).map(|_| ()),
        Operation::Schedule => schedules::drive(random, Pair { engine: one, other: Some(other) }).map(|_| ()),
        Operation::Drill => compare_drill(random, one, other),
        Operation::Absence => absences::drive(random, Pair { engine: one, other: Some(other) }),
    };
    outcome.map_err(|difference| format!("{operation:?}, seed {seed}: {difference}"))
}

fn compare_accept(random: &mut Random, one: &dyn Engine, other: &dyn Engine) -> Result<(), String> {
    let crew = crews::any(random);
    same(&crew, one.accept(crew), other.accept(crew))
}

fn compare_start(random: &mut Random, one: &dyn Engine, other: &dyn Engine) -> Result<(), String> {
    let crew = if random.chance(3, 4) { crews::accepted(random) } else { crews::any(random) };
    let any_number = random.byte();
    let own = random.pick(&[0, crew.n.wrapping_sub(1), crew.n, crew.n.wrapping_add(1), any_number]);
    let run = random.number() as u32;
    let plan = if random.chance(1, 4) { 0 } else { plans::any(random) };
    same(&(crew, own, run, plan), one.start(crew, own, run, plan), other.start(crew, own, run, plan))
}

fn compare_write(random: &mut Random, one: &dyn Engine, other: &dyn Engine) -> Result<(), String> {
    let node = records::any(random);
    let any_length = random.below(SLOT + 28);
    let length = random.pick(&[
        0,
        HEADER - 1,
        HEADER,
        VALIDATION_LENGTH - 1,
        VALIDATION_LENGTH,
        DECISION_LENGTH,
        SELECTION_LENGTH,
        SELECTION_LENGTH + ENTRY,
        SLOT - 1,
        SLOT,
        SLOT + 1,
        any_length,
    ]);
    let buffer = random.bytes(length);
    let write = |engine: &dyn Engine| {
        let (mut node, mut buffer) = (node, buffer.clone());
        let answer = engine.write(&mut node, &mut buffer);
        (answer, node, buffer)
    };
    same(&(node, &buffer), write(one), write(other))
}

fn compare_read(random: &mut Random, one: &dyn Engine, other: &dyn Engine) -> Result<(), String> {
    let slice = messages::any(random);
    let read = |engine: &dyn Engine| (engine.read(&slice), place_of(&slice, engine.entries(&slice)));
    same(&slice, read(one), read(other))
}

/// Where the part stands in the slice and what it holds. The place of an empty part is free.
fn place_of(slice: &[u8], part: &[u8]) -> Option<(usize, Vec<u8>)> {
    let offset = (part.as_ptr() as usize).wrapping_sub(slice.as_ptr() as usize);
    (!part.is_empty()).then(|| (offset, part.to_vec()))
}

/// A record and an inbox for it, with the answers of both engines.
fn compare_inbox<A: PartialEq + Debug>(
    random: &mut Random,
    answers: impl Fn(Node, &[u8]) -> (A, A),
) -> Result<(), String> {
    let (node, inbox) = inboxes::case(random);
    let answers = |inbox: &[u8]| answers(node, inbox);
    let whole = answers(&inbox);
    if whole.0 == whole.1 {
        return Ok(());
    }
    let least = shrink(&inbox, |inbox| {
        let (one, other) = answers(inbox);
        one != other
    });
    let (least_one, least_other) = answers(&least);
    same(&(node, show_inbox(&least)), least_one, least_other)?;
    // A difference that does not come again is one all the same: an engine may answer by more than its arguments.
    same(&(node, show_inbox(&inbox), "the difference came once"), whole.0, whole.1)
}

fn ask_and_take(engine: &dyn Engine, node: Node, inbox: &[u8]) -> impl PartialEq + Debug {
    let (mut asked, mut taken) = (node, node);
    let answers = (engine.ask(&mut asked, inbox), engine.take(&mut taken, inbox));
    (answers, asked, taken)
}

fn marks(engine: &dyn Engine, mut node: Node, inbox: &[u8]) -> impl PartialEq + Debug {
    (engine.marks(&mut node, inbox), node)
}

/// Clears slots one by one as long as the difference stays.
fn shrink(inbox: &[u8], is_different: impl Fn(&[u8]) -> bool) -> Vec<u8> {
    let mut least = inbox.to_vec();
    for q in 0..inbox.len() / SLOT {
        let mut smaller = least.clone();
        smaller[SLOT * q..SLOT * (q + 1)].fill(0);
        if is_different(&smaller) {
            least = smaller;
        }
    }
    least
}

/// The inbox's length and its slots that are not clear, in base 16.
pub fn show_inbox(inbox: &[u8]) -> String {
    let mut text = format!("inbox of {} bytes", inbox.len());
    for (q, slot) in inbox.chunks(SLOT).enumerate() {
        if slot.iter().any(|&byte| byte != 0) {
            let _ = write!(text, "\n  slot {q}: ");
            slot.iter().for_each(|byte| write!(text, "{byte:02x}").unwrap_or_default());
        }
    }
    text
}

fn compare_drill(random: &mut Random, one: &dyn Engine, other: &dyn Engine) -> Result<(), String> {
    let script = drills::any(random);
    let text = |output: Vec<u8>| String::from_utf8_lossy(&output).into_owned();
    same(&String::from_utf8_lossy(&script), text(one.drill(&script)), text(other.drill(&script)))
}

/// Tells the case and both answers where they differ.
pub fn same<C: Debug, A: PartialEq + Debug>(case: &C, one: A, other: A) -> Result<(), String> {
    if one == other {
        return Ok(());
    }
    Err(format!("the answers differ\ncase: {case:#?}\none: {one:#?}\nother: {other:#?}"))
}

/// Tells what failed where something that has to hold does not.
pub fn expect(is_so: bool, failure: impl FnOnce() -> String) -> Result<(), String> {
    if is_so {
        Ok(())
    } else {
        Err(failure())
    }
}
