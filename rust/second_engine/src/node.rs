//! Node records: their start, when they are sound, and writing the coming message (01, 'Crew and node', 'The three
//! rounds', 'What each operation turns down'), with the turn of 02 (C-13). Builds on crews and messages.

use crate::crew::Crew;
use crate::message;
use crate::mutation::Mutation;
use crate::plan::{self, Plan};
use crate::refusal::Refusal;

/// The rounds of a phase, with the paper's numbers. They are the kinds of the messages too.
pub const SELECTION: u8 = 1;
pub const VALIDATION: u8 = 2;
pub const DECISION: u8 = 3;

/// 01: "A node record has the crew, its own number (0 to n − 1), run (four bytes, any value), phase, round (1
/// selection, 2 validation, 3 decision), vote, base, stamp, select, result, and a history of 64 entries, one for each
/// phase 0 to 63."
#[derive(Clone, Copy, Debug, PartialEq, Eq)]
pub struct Node {
    pub crew: Crew,
    pub own: u8,
    pub run: u32,
    pub phase: u8,
    pub round: u8,
    pub vote: Plan,
    pub base: Plan,
    pub stamp: u8,
    pub select: Plan,
    pub result: Plan,
    pub history: [Plan; Node::ENTRIES],
}

impl Node {
    /// 01: "a history of 64 entries, one for each phase 0 to 63"
    pub const ENTRIES: usize = message::LAST_PHASE as usize + 1;
    /// 01: "Phase 64 means spent."
    pub const SPENT: u8 = message::LAST_PHASE + 1;

    /// Starts a node.
    pub fn start(crew: Crew, own: u8, run: u32, plan: Plan) -> Result<Node, Refusal> {
        Node::start_mutated(crew, own, run, plan, Mutation::Unmutated)
    }

    /// As `start`, with a wrong rule.
    pub fn start_mutated(crew: Crew, own: u8, run: u32, plan: Plan, mutation: Mutation) -> Result<Node, Refusal> {
        // 01: "Starting a node: 1 to 4; 5 own number not below n; 6 plan 0.", with 02's 17 after 4
        crew.accept_mutated(mutation)?;
        if own >= crew.n {
            return Err(Refusal::OwnNumber);
        }
        if plan == 0 {
            return Err(Refusal::NoPlan);
        }
        // 01: "Start: vote, base and history entry 0 are the initial plan; stamp, select, result and all other entries
        // 0; phase 1, round 1."
        let mut history = [0; Node::ENTRIES];
        history[0] = plan;
        let (vote, base) = (plan, plan);
        Ok(Node { crew, own, run, phase: 1, round: SELECTION, vote, base, stamp: 0, select: 0, result: 0, history })
    }

    /// Whether the record is sound.
    pub fn is_sound(&self) -> bool {
        self.is_sound_mutated(Mutation::Unmutated)
    }

    fn is_sound_mutated(&self, mutation: Mutation) -> bool {
        // 01: "crew accepted; own number below n"
        self.crew.accept_mutated(mutation).is_ok()
            && self.own < self.crew.n
            && self.is_placed_soundly()
            // 01: "vote, base and entry 0 not 0"
            && self.vote != 0
            && self.base != 0
            && self.history[0] != 0
            && self.is_stamped_soundly()
            // 01: "entries of phases not yet selected are 0"
            && self.history[self.first_unselected()..].iter().all(|&plan| plan == 0)
    }

    /// 01: "phase 1 to 64, round 1 to 3, no round 2 in class 1, only round 1 at phase 64"
    fn is_placed_soundly(&self) -> bool {
        (1..=Self::SPENT).contains(&self.phase)
            && (SELECTION..=DECISION).contains(&self.round)
            && !(self.crew.class == 1 && self.round == VALIDATION)
            && !(self.phase == Self::SPENT && self.round != SELECTION)
    }

    /// 01: "stamp below phase, or equal to it in round 3; stamp 0 in class 1"
    fn is_stamped_soundly(&self) -> bool {
        let is_in_time = self.stamp < self.phase || (self.round == DECISION && self.stamp == self.phase);
        is_in_time && (self.crew.class != 1 || self.stamp == 0)
    }

    /// The least phase that has not been selected: in round 1 that is the phase itself, after it the next one.
    fn first_unselected(&self) -> usize {
        usize::from(self.phase) + usize::from(self.round != SELECTION)
    }

    /// 01: "7 record not sound; 8 spent", which come first in writing, asking and taking.
    pub(crate) fn check(&self, mutation: Mutation) -> Result<(), Refusal> {
        if !self.is_sound_mutated(mutation) {
            return Err(Refusal::NotSound);
        }
        if self.phase == Self::SPENT {
            return Err(Refusal::Spent);
        }
        Ok(())
    }

    /// Writes the coming message to the buffer's front and gives its length; 0 is silence.
    pub fn write(&self, buffer: &mut [u8]) -> Result<usize, Refusal> {
        self.write_mutated(buffer, Mutation::Unmutated)
    }

    /// As `write`, with a wrong rule.
    pub fn write_mutated(&self, buffer: &mut [u8], mutation: Mutation) -> Result<usize, Refusal> {
        self.check(mutation)?;
        match self.round {
            SELECTION => self.write_selection(buffer),
            // 01: "round 2 select, or silence (length 0, nothing written) if select is 0"
            VALIDATION if self.select == 0 => Ok(0),
            // 02 (C-13): "others are silent in round 2"
            VALIDATION if !self.is_validating(mutation) => Ok(0),
            VALIDATION => message::put_validation(self.run, self.phase, self.select, buffer),
            // 01: "round 3 vote and stamp"
            _ => message::put_decision(self.run, self.phase, self.vote, self.stamp, buffer),
        }
    }

    /// Whether it is the node's own turn to validate in its phase.
    fn is_validating(&self, mutation: Mutation) -> bool {
        let is_in_turn = || self.crew.validators_mutated(self.phase, mutation).any(|q| q == self.own);
        mutation == Mutation::OthersSpeak || is_in_turn()
    }

    /// 01: "round 1 vote, stamp and, in class 3 only, its non-empty entries of earlier phases"
    fn write_selection(&self, buffer: &mut [u8]) -> Result<usize, Refusal> {
        let mut entries = [0; message::MOST_ENTRY_BYTES];
        let mut used = 0;
        if self.crew.class == 3 {
            for (phase, &plan) in (0u8..).zip(&self.history[..usize::from(self.phase)]) {
                if plan != 0 {
                    entries[used] = phase;
                    plan::put(&mut entries, used + message::ENTRY_PLAN, plan);
                    used += message::ENTRY;
                }
            }
        }
        message::put_selection(self.run, self.phase, self.vote, self.stamp, &entries[..used], buffer)
    }
}
