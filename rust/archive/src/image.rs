//! Records as images and messages as fields, both bytes, written from the layout in include/rail.h and not by the
//! archive.

use rail::{FIELDS, RECORD};
use second_engine::{plan, Body, Crew, Message, Node};

/// Where the fields of a record stand in its image, each behind the one before it. The crew's six are at the front.
const RECORD_OWN: usize = 6;
const RECORD_RUN: usize = RECORD_OWN + 1;
const RECORD_PHASE: usize = RECORD_RUN + RUN;
const RECORD_ROUND: usize = RECORD_PHASE + 1;
const RECORD_VOTE: usize = RECORD_ROUND + 1;
const RECORD_BASE: usize = RECORD_VOTE + plan::BYTES;
const RECORD_STAMP: usize = RECORD_BASE + plan::BYTES;
const RECORD_SELECT: usize = RECORD_STAMP + 1;
const RECORD_RESULT: usize = RECORD_SELECT + plan::BYTES;
const RECORD_HISTORY: usize = RECORD_RESULT + plan::BYTES;

/// And those of a message that was read.
pub const FIELDS_KIND: usize = 0;
const FIELDS_RUN: usize = FIELDS_KIND + 1;
const FIELDS_PHASE: usize = FIELDS_RUN + RUN;
const FIELDS_PLAN: usize = FIELDS_PHASE + 1;
const FIELDS_STAMP: usize = FIELDS_PLAN + plan::BYTES;
pub const FIELDS_COUNT: usize = FIELDS_STAMP + 1;

/// How many bytes a run has.
const RUN: usize = size_of::<u32>();

/// The image of a record.
pub fn of(node: &Node) -> [u8; RECORD] {
    let Crew { class, n, b, f, d, c } = node.crew;
    let mut image = [0; RECORD];
    image[..RECORD_OWN].copy_from_slice(&[class, n, b, f, d, c]);
    image[RECORD_OWN] = node.own;
    put_run(&mut image, RECORD_RUN, node.run);
    image[RECORD_PHASE] = node.phase;
    image[RECORD_ROUND] = node.round;
    plan::put(&mut image, RECORD_VOTE, node.vote);
    plan::put(&mut image, RECORD_BASE, node.base);
    image[RECORD_STAMP] = node.stamp;
    plan::put(&mut image, RECORD_SELECT, node.select);
    plan::put(&mut image, RECORD_RESULT, node.result);
    for (phase, plan) in node.history.into_iter().enumerate() {
        plan::put(&mut image, RECORD_HISTORY + plan::BYTES * phase, plan);
    }
    image
}

/// The record of an image. Any bytes of that length are the image of one record.
pub fn node(image: &[u8; RECORD]) -> Node {
    Node {
        crew: Crew::new(image[0], image[1], image[2], image[3], image[4], image[5]),
        own: image[RECORD_OWN],
        run: run_at(image, RECORD_RUN),
        phase: image[RECORD_PHASE],
        round: image[RECORD_ROUND],
        vote: plan::at(image, RECORD_VOTE),
        base: plan::at(image, RECORD_BASE),
        stamp: image[RECORD_STAMP],
        select: plan::at(image, RECORD_SELECT),
        result: plan::at(image, RECORD_RESULT),
        history: std::array::from_fn(|phase| plan::at(image, RECORD_HISTORY + plan::BYTES * phase)),
    }
}

/// The fields of a message, as reading lays them out.
pub fn fields_of(message: &Message) -> [u8; FIELDS] {
    let mut fields = [0; FIELDS];
    fields[FIELDS_KIND] = message.kind();
    put_run(&mut fields, FIELDS_RUN, message.run);
    fields[FIELDS_PHASE] = message.phase;
    plan::put(&mut fields, FIELDS_PLAN, message.plan());
    fields[FIELDS_STAMP] = message.stamp();
    fields[FIELDS_COUNT] = match message.body {
        Body::Selection { k, .. } => k,
        _ => 0,
    };
    fields
}

/// The message of these fields. Another kind than 1 to 3 is none of a message.
pub fn message(fields: &[u8; FIELDS]) -> Option<Message> {
    let plan = plan::at(fields, FIELDS_PLAN);
    let (stamp, k) = (fields[FIELDS_STAMP], fields[FIELDS_COUNT]);
    let body = match fields[FIELDS_KIND] {
        1 => Body::Selection { vote: plan, stamp, k },
        2 => Body::Validation { plan },
        3 => Body::Decision { vote: plan, stamp },
        _ => return None,
    };
    Some(Message { run: run_at(fields, FIELDS_RUN), phase: fields[FIELDS_PHASE], body })
}

fn run_at(bytes: &[u8], place: usize) -> u32 {
    let mut number = [0; RUN];
    number.copy_from_slice(&bytes[place..place + RUN]);
    u32::from_le_bytes(number)
}

fn put_run(bytes: &mut [u8], place: usize, run: u32) {
    bytes[place..place + RUN].copy_from_slice(&run.to_le_bytes());
}
