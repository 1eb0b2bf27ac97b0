//! Inboxes: their slots and which of them count (01, 'Messages', and 02, C-13). Each slot is read once.

use crate::crew::Crew;
use crate::message::{self, Message};
use crate::mutation::Mutation;
use crate::node::{self, Node};
use crate::plan::{self, Plan};

/// 01: "An inbox is n slots of 202 bytes"
pub const SLOT: usize = message::LONGEST;

/// What a counting slot says. Validations have stamp 0; only selections have entries.
#[derive(Clone, Copy, Debug, PartialEq, Eq, Default)]
pub struct Ballot<'a> {
    pub vote: Plan,
    pub stamp: u8,
    pub entries: &'a [u8],
}

impl Ballot<'_> {
    pub fn is_listing(&self, plan: Plan, phase: u8) -> bool {
        self.listed_at(phase) == Some(plan)
    }

    /// The plan that the entries list at the phase. Their phases rise strictly, so the entry of phase t stands at place
    /// t where no earlier phase is missing, else before it, where halving finds it.
    pub fn listed_at(&self, phase: u8) -> Option<Plan> {
        let (entries, _) = self.entries.as_chunks::<{ message::ENTRY }>();
        let latest = usize::from(phase);
        let place = match entries.get(latest) {
            Some(entry) if entry[0] == phase => latest,
            _ => entries[..entries.len().min(latest)].binary_search_by_key(&phase, |entry| entry[0]).ok()?,
        };
        Some(plan::at(&entries[place], message::ENTRY_PLAN))
    }
}

/// The counting slots of an inbox, in the order of the slots.
#[derive(Clone, Copy, Debug)]
pub struct Counting<'a> {
    ballots: [Ballot<'a>; Crew::MOST_NODES],
    count: usize,
    /// How many at the array's end are of slots that do not count; only mutants have any.
    strays: usize,
}

impl<'a> Counting<'a> {
    pub fn ballots(&self) -> &[Ballot<'a>] {
        &self.ballots[..self.count]
    }

    /// Slots that do not count and that list all the same, with a mutant. Only their entries are there.
    pub fn strays(&self) -> &[Ballot<'a>] {
        &self.ballots[Crew::MOST_NODES - self.strays..]
    }

    fn push(&mut self, ballot: Ballot<'a>) {
        self.ballots[self.count] = ballot;
        self.count += 1;
    }

    fn push_stray(&mut self, entries: &'a [u8]) {
        self.strays += 1;
        self.ballots[Crew::MOST_NODES - self.strays] = Ballot { entries, ..Ballot::default() };
    }
}

/// Whether the inbox has the right length for the crew: 01, "inbox length not 202n".
pub fn is_whole(crew: Crew, inbox: &[u8]) -> bool {
    inbox.len() == SLOT * usize::from(crew.n)
}

/// Whose slots may count in the coming round: everybody's, but in round 2 the validators' alone. 02 (C-13): "others are
/// silent in round 2 and their slots there don't count". As one number, node q its bit of weight 2 to the q, for sound
/// records, where n is at most 32.
fn speakers(node: &Node, mutation: Mutation) -> u32 {
    if node.round != node::VALIDATION || mutation == Mutation::OthersCount {
        return u32::MAX;
    }
    node.crew.validators_mutated(node.phase, mutation).fold(0, |speakers, q| speakers | 1 << q)
}

/// 01: "A slot counts when reading it succeeds and its run, kind and phase are those of the node's coming round; a slot
/// that reading refuses is simply absent." So is one of a node that does not speak in the round.
pub fn counting<'a>(node: &Node, inbox: &'a [u8], mutation: Mutation) -> Counting<'a> {
    let mut counting = Counting { ballots: [Ballot::default(); Crew::MOST_NODES], count: 0, strays: 0 };
    // 01: "slot q is the part that starts at byte 202 times q"
    let speakers = speakers(node, mutation);
    for (q, slot) in inbox.chunks_exact(SLOT).enumerate() {
        match message::read_with_entries_mutated(slot, mutation) {
            Ok((message, entries)) => {
                if speakers & (1 << q) != 0 && is_of_coming_round(node, &message) {
                    counting.push(Ballot { vote: message.plan(), stamp: message.stamp(), entries });
                }
            }
            Err(_) => {
                if mutation == Mutation::MalformedSlotSpoils && slot[..2] != [0, 0] {
                    counting.count = 0;
                    break;
                }
            }
        }
    }
    match mutation {
        Mutation::DistinctContents => remove_repeated(&mut counting),
        Mutation::NeighboursHistory if node.round == node::SELECTION => shift_histories(&mut counting, node, inbox),
        Mutation::ForeignSlotsList | Mutation::RefusedSlotsList => add_strays(&mut counting, node, inbox, mutation),
        _ => (),
    }
    counting
}

/// The slots that count, as one number: slot q its bit of weight 2 to the q, as the marks of a record have it (02,
/// C-24). Each slot is read on its own, and no ballot is laid out for it.
pub fn marks(node: &Node, inbox: &[u8], mutation: Mutation) -> u32 {
    let mut marks = 0;
    let speakers = speakers(node, mutation);
    for (q, slot) in inbox.chunks_exact(SLOT).enumerate() {
        if speakers & (1 << q) != 0 && is_marked(node, slot, mutation) {
            marks |= 1 << q;
        }
    }
    match mutation {
        Mutation::MalformedSlotSpoils if inbox.chunks_exact(SLOT).any(is_malformed) => 0,
        Mutation::DistinctContents => without_repeated(marks, inbox),
        Mutation::MarksOneSlotLate => marks << 1,
        Mutation::MarksFromTheLastSlot => marks.reverse_bits() >> (Crew::MOST_NODES - inbox.len() / SLOT),
        _ => marks,
    }
}

/// Whether the slot of a node that speaks counts, but for the mutants.
fn is_marked(node: &Node, slot: &[u8], mutation: Mutation) -> bool {
    let read = match mutation {
        Mutation::RefusedSlotMarked => message::parse(slot).map(|(message, _)| message),
        _ => message::read_mutated(slot, mutation),
    };
    let Ok(message) = read else { return false };
    let is_of_run = message.run == node.run || mutation == Mutation::AnotherRunMarked;
    let is_of_kind = message.kind() == node.round || mutation == Mutation::AnotherKindMarked;
    let is_of_phase = message.phase == node.phase || mutation == Mutation::AnotherPhaseMarked;
    is_of_run && is_of_kind && is_of_phase
}

/// A mutant's rule: of marked slots with the same content only the first stays so. What counts has one encoding, so
/// that equal contents are equal bytes.
fn without_repeated(marks: u32, inbox: &[u8]) -> u32 {
    let mut seen = Vec::new();
    let mut left = 0;
    for (q, slot) in inbox.chunks_exact(SLOT).enumerate().filter(|(q, _)| marks & (1 << q) != 0) {
        if !seen.contains(&slot) {
            seen.push(slot);
            left |= 1 << q;
        }
    }
    left
}

/// Whether reading refuses the slot though something begins there.
fn is_malformed(slot: &[u8]) -> bool {
    message::read(slot).is_err() && slot[..2] != [0, 0]
}

fn is_of_coming_round(node: &Node, message: &Message) -> bool {
    message.run == node.run && message.kind() == node.round && message.phase == node.phase
}

/// A mutant's rule: of slots with the same content only the first stays.
fn remove_repeated(counting: &mut Counting) {
    let all = *counting;
    counting.count = 0;
    for &ballot in all.ballots() {
        if !counting.ballots().contains(&ballot) {
            counting.push(ballot);
        }
    }
}

/// A mutant's rule: each counting slot has the entries of the slot before it, none where that one does not count.
fn shift_histories<'a>(counting: &mut Counting<'a>, node: &Node, inbox: &'a [u8]) {
    let mut before: &[u8] = &[];
    let mut place = 0;
    for slot in inbox.chunks_exact(SLOT) {
        match message::read_with_entries(slot) {
            Ok((message, entries)) if is_of_coming_round(node, &message) => {
                counting.ballots[place].entries = before;
                place += 1;
                before = entries;
            }
            _ => before = &[],
        }
    }
}

/// The rule of two mutants: slots that do not count list all the same. In the one they are read and of another run or
/// phase; in the other they are of the coming round and break a bound or have residue, and list what stands before an
/// entry that is broken.
fn add_strays<'a>(counting: &mut Counting<'a>, node: &Node, inbox: &'a [u8], mutation: Mutation) {
    for slot in inbox.chunks_exact(SLOT) {
        let Ok((message, entries)) = message::parse(slot) else {
            continue;
        };
        let is_coming = is_of_coming_round(node, &message);
        let is_stray = match mutation {
            Mutation::ForeignSlotsList => !is_coming && message::read(slot).is_ok(),
            _ => is_coming && message::read(slot).is_err(),
        };
        if is_stray {
            counting.push_stray(message::entries_before_a_broken_one(message.phase, entries));
        }
    }
}
