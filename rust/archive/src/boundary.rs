//! What only the archive's boundary has: lengths of lent slices, images and fields byte for byte, results, entries, and
//! the numbers around lent shares.
//! Each case is a function of a seed and is held against the second engine and the layout in `image`.

use crate::engine::numbers;
use crate::image;
use comparison::cases::{same, show_inbox};
use generators::splits::{self, Split};
use generators::{crews, inboxes, messages, plans, records, Random};
use rail::{Answer, Refused, FIELDS, RECORD, SLOT};
use second_engine::current::{self, MOST_DEMAND};
use second_engine::message::{
    self, DECISION_LENGTH, ENTRY, ENTRY_PLAN, MOST_ENTRIES, SELECTION_LENGTH, VALIDATION_LENGTH,
};
use second_engine::{plan, rounds, Node, Refusal, Selection};

/// What a case compares.
#[derive(Clone, Copy, Debug, PartialEq, Eq)]
pub enum Boundary {
    /// Slices of other lengths: refused before everything else, and nothing is written.
    Lengths,
    /// Starting, writing, asking, taking and telling marks on images, with every byte that may not be written.
    Images,
    /// The standing result.
    Results,
    /// The fields of a message and each of its entries.
    Messages,
    /// Splits, with every number that may not be written.
    Splits,
}

impl Boundary {
    pub const ALL: [Boundary; 5] =
        [Boundary::Lengths, Boundary::Images, Boundary::Results, Boundary::Messages, Boundary::Splits];
}

/// Gives the case of this seed to the archive and tells the first difference.
pub fn compare(boundary: Boundary, seed: u64) -> Result<(), String> {
    let random = &mut Random::new(seed);
    let outcome = match boundary {
        Boundary::Lengths => compare_lengths(random),
        Boundary::Images => compare_images(random),
        Boundary::Results => compare_results(random),
        Boundary::Messages => compare_messages(random),
        Boundary::Splits => compare_splits(random),
    };
    outcome.map_err(|difference| format!("{boundary:?}, seed {seed}: {difference}"))
}

/// The second engine's answer as the archive's.
fn answer(answer: Result<u64, Refusal>) -> Answer {
    answer.map_err(|refusal| Refused(refusal.number()))
}

/// A part in the middle of random bytes, or of random numbers, which a call may not touch.
struct Lent<T> {
    whole: Vec<T>,
    margin: usize,
    length: usize,
}

impl Lent<u8> {
    fn bytes(random: &mut Random, part: &[u8]) -> Lent<u8> {
        Lent::within(16, part, || random.byte())
    }
}

impl Lent<u32> {
    /// With as much on each side as a case has demands at most: shares written behind a short buffer stand there.
    fn numbers(random: &mut Random, part: &[u32]) -> Lent<u32> {
        Lent::within(200, part, || random.number() as u32)
    }
}

impl<T: Copy> Lent<T> {
    fn within(margin: usize, part: &[T], any: impl FnMut() -> T) -> Lent<T> {
        let mut whole: Vec<T> = std::iter::repeat_with(any).take(2 * margin + part.len()).collect();
        whole[margin..][..part.len()].copy_from_slice(part);
        Lent { whole, margin, length: part.len() }
    }

    /// The whole after a call on the part, with its answer.
    fn after(&self, call: impl FnOnce(&mut [T]) -> Answer) -> (Answer, Vec<T>) {
        let mut whole = self.whole.clone();
        let answer = call(&mut whole[self.margin..][..self.length]);
        (answer, whole)
    }

    /// The whole where the part became this.
    fn with(&self, part: &[T]) -> Vec<T> {
        let mut whole = self.whole.clone();
        whole[self.margin..][..self.length].copy_from_slice(part);
        whole
    }
}

/// A length near the right one, or far from it, and never the right one.
fn wrong_length(random: &mut Random, right: usize) -> usize {
    loop {
        let any_length = random.below(400);
        let length = random.pick(&[0, 1, right - 1, right + 1, 2 * right, any_length]);
        if length != right {
            return length;
        }
    }
}

fn compare_lengths(random: &mut Random) -> Result<(), String> {
    let (node, inbox) = inboxes::case(random);
    // The front of a good image, or more than one, so that nothing but the length is wrong.
    let length = wrong_length(random, RECORD);
    let good: Vec<u8> = image::of(&node).into_iter().cycle().take(length).collect();
    let lent = Lent::bytes(random, &good);
    let unchanged = (Err(Refused::WRONG_RECORD), lent.whole.clone());
    let crew = if random.chance(1, 2) { numbers(node.crew) } else { numbers(crews::any(random)) };
    let start = lent.after(|record| rail::start(crew, node.own, node.run, node.vote, record));
    same(&("start", crew, length), start, unchanged.clone())?;
    same(&("take", &good), lent.after(|record| rail::take(record, &inbox)), unchanged.clone())?;
    same(&("ask", &good), rail::ask(&good, &inbox), unchanged.0)?;
    same(&("marks", &good), rail::marks(&good, &inbox), unchanged.0)?;
    same(&("result", &good), rail::result(&good), unchanged.0)?;
    let size = random.below(SLOT + 28);
    let bytes = random.bytes(size);
    let buffer = Lent::bytes(random, &bytes);
    let write = buffer.after(|buffer| rail::write(&good, buffer));
    same(&("write", &good, &bytes), write, (Err(Refused::WRONG_RECORD), buffer.whole.clone()))?;
    let slice = messages::any(random);
    let size = wrong_length(random, FIELDS);
    let bytes = random.bytes(size);
    let fields = Lent::bytes(random, &bytes);
    let read = fields.after(|fields| rail::read(&slice, fields));
    same(&("read", &slice, &bytes), read, (Err(Refused::WRONG_FIELDS), fields.whole.clone()))
}

/// A record's image: of a generated record, some of them with a few bytes changed or with random ones throughout.
fn any_image(random: &mut Random, node: &Node) -> [u8; RECORD] {
    if random.chance(1, 32) {
        return std::array::from_fn(|_| random.byte());
    }
    let mut image = image::of(node);
    if random.chance(1, 8) {
        for _ in 0..random.between(1, 3) {
            image[random.below(RECORD)] = random.byte();
        }
    }
    image
}

fn compare_images(random: &mut Random) -> Result<(), String> {
    compare_start(random)?;
    let (node, inbox) = inboxes::case(random);
    let image = any_image(random, &node);
    let node = image::node(&image);
    let lent = Lent::bytes(random, &image);
    let mut next = node;
    let taken = answer(rounds::take(&mut next, &inbox).map(|()| 0));
    let case = || (node, show_inbox(&inbox));
    let found = lent.after(|record| rail::take(record, &inbox));
    let expected = (taken, lent.with(&image::of(&next)));
    if found != expected {
        same(&case(), found, expected)?;
    }
    let asked = rounds::ask(&node, &inbox).map(|selection| match selection {
        Selection::Plan(plan) => u64::from(plan),
        Selection::Any => rail::ANY,
        Selection::None => 0,
    });
    let (found, expected) = (rail::ask(&image, &inbox), answer(asked));
    if found != expected {
        same(&case(), found, expected)?;
    }
    let (found, expected) = (rail::marks(&image, &inbox), answer(rounds::marks(&node, &inbox).map(u64::from)));
    if found != expected {
        same(&case(), found, expected)?;
    }
    compare_write(random, &node, &image)
}

fn compare_start(random: &mut Random) -> Result<(), String> {
    let crew = if random.chance(3, 4) { crews::accepted(random) } else { crews::any(random) };
    let any_number = random.byte();
    let own = random.pick(&[0, crew.n.wrapping_sub(1), crew.n, any_number]);
    let run = random.number() as u32;
    let plan = if random.chance(1, 4) { 0 } else { plans::any(random) };
    let bytes = random.bytes(RECORD);
    let lent = Lent::bytes(random, &bytes);
    let found = lent.after(|record| rail::start(numbers(crew), own, run, plan, record));
    let expected = match Node::start(crew, own, run, plan) {
        Ok(node) => (Ok(0), lent.with(&image::of(&node))),
        Err(refusal) => (Err(Refused(refusal.number())), lent.whole.clone()),
    };
    same(&(crew, own, run, plan), found, expected)
}

fn compare_write(random: &mut Random, node: &Node, image: &[u8]) -> Result<(), String> {
    let any_length = random.below(SLOT + 28);
    let length = random.pick(&[
        0,
        VALIDATION_LENGTH - 1,
        VALIDATION_LENGTH,
        DECISION_LENGTH,
        SELECTION_LENGTH,
        SLOT - 1,
        SLOT,
        any_length,
    ]);
    let bytes = random.bytes(length);
    let lent = Lent::bytes(random, &bytes);
    let mut after = bytes.clone();
    let written = answer(node.write(&mut after).map(|length| length as u64));
    same(&(node, &bytes), lent.after(|buffer| rail::write(image, buffer)), (written, lent.with(&after)))
}

fn compare_results(random: &mut Random) -> Result<(), String> {
    let node = records::any(random);
    let image = any_image(random, &node);
    let node = image::node(&image);
    let expected = if node.is_sound() { Ok(u64::from(node.result)) } else { Err(Refused(Refusal::NotSound.number())) };
    same(&node, rail::result(&image), expected)
}

fn compare_messages(random: &mut Random) -> Result<(), String> {
    let slice = messages::any(random);
    let read = message::read(&slice);
    let bytes = random.bytes(FIELDS);
    let lent = Lent::bytes(random, &bytes);
    let after = read.map_or(lent.whole.clone(), |message| lent.with(&image::fields_of(&message)));
    let found = lent.after(|fields| rail::read(&slice, fields));
    same(&slice, found, (answer(read.map(|_| 0)), after))?;
    // Every entry, and places that the message does not have, as far as a place can be.
    let entries = message::entries(&slice);
    let count = entries.len() / ENTRY;
    let most = usize::from(MOST_ENTRIES);
    let near = [most - 1, most, most + 1];
    let far = [255, 256, 65_535, 1 << 32, usize::MAX / ENTRY, usize::MAX / ENTRY + 1, usize::MAX];
    for i in (0..count + 2).chain(near).chain(far) {
        let entry = entries.chunks_exact(ENTRY).nth(i);
        let expected = match (read, entry) {
            (Err(refusal), _) => Err(Refused(refusal.number())),
            (Ok(_), Some(entry)) => {
                Ok(rail::ENTRY_PHASE * u64::from(entry[0]) + u64::from(plan::at(entry, ENTRY_PLAN)))
            }
            (Ok(_), None) => Err(Refused::NO_ENTRY),
        };
        same(&(&slice, i), rail::entry(&slice, i), expected)?;
    }
    Ok(())
}

fn compare_splits(random: &mut Random) -> Result<(), String> {
    let split = splits::any(random);
    let Split { demands, budget, shares } = &split;
    let mut after = shares.clone();
    let written = answer(current::split(demands, *budget, &mut after).map(|()| 0));
    // The demands stand between others, so that an engine which reads past them gives other shares.
    let among: Vec<u32> = [&[MOST_DEMAND], &demands[..], &[MOST_DEMAND]].concat();
    let demands = &among[1..][..demands.len()];
    let lent = Lent::numbers(random, shares);
    let found = lent.after(|shares| rail::split(demands, *budget, shares));
    same(&split, found, (written, lent.with(&after)))
}
