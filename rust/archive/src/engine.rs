//! The proved engine, as a comparison calls it: the archive's functions on images, and the proved programs, the drill
//! and the one that tells absences.
//! An answer that no operation may give ends the comparison with a panic that tells it.

use crate::image;
use comparison::Engine;
use rail::{Refused, FIELDS, RECORD};
use second_engine::message::{ENTRY, SELECTION_LENGTH};
use second_engine::{Crew, LeastCrew, Message, Node, Plan, Refusal, Selection};
use std::io::Write;
use std::path::{Path, PathBuf};
use std::process::{Command, Output, Stdio};
use std::thread;

/// The proved engine. Where a program is not called, its path may be empty.
#[derive(Clone, Debug, Default)]
pub struct Archive {
    /// The drill program.
    pub drill: PathBuf,
    /// The program that tells absences.
    pub absence: PathBuf,
}

/// The six numbers of a crew, in the order of a call.
pub fn numbers(crew: Crew) -> [u8; 6] {
    let Crew { class, n, b, f, d, c } = crew;
    [class, n, b, f, d, c]
}

/// The paper's refusal of this number.
fn refusal(refused: Refused) -> Refusal {
    Refusal::from_number(refused.0).unwrap_or_else(|| panic!("the archive refuses with {}", refused.0))
}

/// An answer whose value says nothing more, and is 0.
fn done(answer: rail::Answer) -> Result<(), Refusal> {
    let value = answer.map_err(refusal)?;
    assert_eq!(value, 0, "the value of a call that has none");
    Ok(())
}

/// How many bytes a program is fed at once: too few for what it asks for, and not a whole number of records.
const PIECE: usize = 1_001;

/// What a program gives for this input. It is fed piece by piece, as a pipe may well bring its bytes, and while its
/// output is read: it may print before it has read all.
pub fn output_of(program: &Path, input: &[u8]) -> Output {
    let start = Command::new(program).stdin(Stdio::piped()).stdout(Stdio::piped()).spawn();
    let mut child = start.unwrap_or_else(|failure| panic!("{}: {failure}", program.display()));
    let mut standard_input = child.stdin.take().expect("standard input is piped");
    thread::scope(|scope| {
        // A program that has read enough may close its end; what it printed is compared all the same.
        scope.spawn(move || input.chunks(PIECE).try_for_each(|piece| standard_input.write_all(piece)));
        child.wait_with_output().expect("the program's output is read")
    })
}

impl Engine for Archive {
    fn accept(&self, crew: Crew) -> Result<(), Refusal> {
        done(rail::accept(numbers(crew)))
    }

    fn least(&self, class: u8, b: u8, f: u8) -> Result<LeastCrew, Refusal> {
        let value = rail::least(class, b, f).map_err(refusal)?;
        let n =
            u8::try_from(value / rail::LEAST_N).unwrap_or_else(|_| panic!("the archive tells the least crew {value}"));
        Ok(LeastCrew { n, d: (value % rail::LEAST_N) as u8 })
    }

    fn start(&self, crew: Crew, own: u8, run: u32, plan: Plan) -> Result<Node, Refusal> {
        let mut record = [0xa5; RECORD];
        done(rail::start(numbers(crew), own, run, plan, &mut record))?;
        Ok(image::node(&record))
    }

    fn write(&self, node: &mut Node, buffer: &mut [u8]) -> Result<usize, Refusal> {
        let record = image::of(node);
        let length = rail::write(&record, buffer).map_err(refusal)?;
        Ok(length as usize)
    }

    fn read(&self, slice: &[u8]) -> Result<Message, Refusal> {
        let mut fields = [0xa5; FIELDS];
        done(rail::read(slice, &mut fields))?;
        Ok(image::message(&fields)
            .unwrap_or_else(|| panic!("the archive reads a message of kind {}", fields[image::FIELDS_KIND])))
    }

    /// The archive shows entries one by one (`rail_entry`, which `boundary` compares): here they are the part of the
    /// slice that `rail_read` tells of.
    fn entries<'a>(&self, slice: &'a [u8]) -> &'a [u8] {
        let mut fields = [0; FIELDS];
        match rail::read(slice, &mut fields) {
            Ok(_) if fields[image::FIELDS_KIND] == 1 => {
                &slice[SELECTION_LENGTH..][..ENTRY * usize::from(fields[image::FIELDS_COUNT])]
            }
            _ => &[],
        }
    }

    fn ask(&self, node: &mut Node, inbox: &[u8]) -> Result<Selection, Refusal> {
        let value = rail::ask(&image::of(node), inbox).map_err(refusal)?;
        Ok(match value {
            0 => Selection::None,
            rail::ANY => Selection::Any,
            plan => Selection::Plan(Plan::try_from(plan).unwrap_or_else(|_| panic!("the archive selects {plan}"))),
        })
    }

    fn take(&self, node: &mut Node, inbox: &[u8]) -> Result<(), Refusal> {
        let mut record = image::of(node);
        let answer = done(rail::take(&mut record, inbox));
        // Also where it is refused, so that a comparison sees a record that was written all the same.
        *node = image::node(&record);
        answer
    }

    fn marks(&self, node: &mut Node, inbox: &[u8]) -> Result<u32, Refusal> {
        let value = rail::marks(&image::of(node), inbox).map_err(refusal)?;
        Ok(u32::try_from(value).unwrap_or_else(|_| panic!("the archive tells the marks {value}")))
    }

    fn drill(&self, input: &[u8]) -> Vec<u8> {
        output_of(&self.drill, input).stdout
    }

    fn split(&self, demands: &[u32], budget: u32, shares: &mut [u32]) -> Result<(), Refusal> {
        done(rail::split(demands, budget, shares))
    }

    fn absence(&self, input: &[u8]) -> Vec<u8> {
        let output = output_of(&self.absence, input);
        assert!(output.status.success(), "{}: {}", self.absence.display(), output.status);
        output.stdout
    }
}
