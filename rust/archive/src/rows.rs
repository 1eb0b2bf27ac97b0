//! What the programs that time the engine call it on: crews whose validators take turns, records at any place, and
//! inboxes of five kinds.

use generators::messages::Fields;
use second_engine::inbox::SLOT;
use second_engine::{Crew, Node, Plan};

/// Crews in which eleven of 31 validate in a phase.
pub const CREWS_IN_TURN: [Crew; 2] = [Crew::new(2, 31, 7, 0, 24, 11), Crew::new(3, 31, 3, 0, 28, 11)];

/// What the slots say: every slot counts, but for the gaps.
#[derive(Clone, Copy, Debug, PartialEq, Eq)]
pub enum Votes {
    /// All slots have one vote and one stamp.
    Agreed,
    /// Slots differ in vote, stamp and history, so that no plan is backed early.
    Mixed,
    /// All slots that came agree, and every third is empty.
    Gaps,
    /// All slots have one vote, with two stamps in turn, as after a validation that some nodes missed.
    Stamps,
    /// Two votes in turn, a tie, with one stamp: two plans are backed, but in class 3, where no slot is possible.
    Tie,
}

pub const VOTES: [Votes; 5] = [Votes::Agreed, Votes::Mixed, Votes::Gaps, Votes::Stamps, Votes::Tie];

/// A record at this place with a full history, as after phases that all selected.
pub fn node(crew: Crew, phase: u8, round: u8) -> Node {
    let mut node = Node::start(crew, 0, 1, 5).expect("the crews are accepted");
    let selected = usize::from(phase) + usize::from(round != 1);
    node.history[..selected].fill(5);
    (node.phase, node.round, node.select) = (phase, round, 5);
    node
}

/// An inbox in which every slot has a message of the coming round, but for the gaps, and in round 1 of class 3 lists
/// every earlier phase.
pub fn inbox(node: &Node, votes: Votes) -> Vec<u8> {
    let n = usize::from(node.crew.n);
    let mut inbox = vec![0; SLOT * n];
    for (q, slot) in inbox.chunks_exact_mut(SLOT).enumerate() {
        if votes == Votes::Gaps && q % 3 == 2 {
            continue;
        }
        let bytes = message(node, votes, q).layout();
        slot[..bytes.len()].copy_from_slice(&bytes);
    }
    inbox
}

fn message(node: &Node, votes: Votes, q: usize) -> Fields {
    let plan = match votes {
        Votes::Mixed => 5 + (q % 3) as Plan,
        Votes::Tie => 5 + (q % 2) as Plan,
        _ => 5,
    };
    let highest = if node.round == 1 { node.phase - 1 } else { node.phase };
    let stamp = match (node.crew.class, votes) {
        (1, _) => 0,
        (_, Votes::Agreed | Votes::Gaps | Votes::Tie) => highest,
        (_, Votes::Mixed) => highest - (q % 4).min(usize::from(highest)) as u8,
        (_, Votes::Stamps) => highest - (q % 2).min(usize::from(highest)) as u8,
    };
    let entries: Vec<(u8, Plan)> = match (node.crew.class, node.round) {
        (3, 1) => (0..node.phase).map(|phase| (phase, plan)).collect(),
        _ => Vec::new(),
    };
    Fields {
        kind: u16::from(node.round),
        run: node.run,
        phase: node.phase,
        plan,
        stamp,
        k: entries.len() as u8,
        entries,
    }
}
