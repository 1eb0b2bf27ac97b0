//! The three rounds: asking for the selection and taking a round (01, 'The three rounds', and 02, C-13), and telling
//! which slots count in it (for the records of 02, C-24). Builds on nodes and inboxes.
//! Every rule takes the mutation that makes it wrong; the public operations pass none.

use crate::crew::Crew;
use crate::inbox::{self, Ballot, Counting};
use crate::mutation::Mutation;
use crate::node::{self, Node};
use crate::plan::Plan;
use crate::refusal::Refusal;

/// 01: "Selection answers a plan, 'any' or 'none'."
#[derive(Clone, Copy, Debug, PartialEq, Eq)]
pub enum Selection {
    Plan(Plan),
    Any,
    None,
}

/// The plans that are backed: 01 asks only whether there is none, exactly one or more.
#[derive(Clone, Copy, Debug, PartialEq, Eq)]
enum Backed {
    None,
    One(Plan),
    More,
}

impl Backed {
    /// With one more plan backed. A plan that is backed through several slots is still one plan.
    fn with(self, plan: Plan) -> Backed {
        match self {
            Backed::None => Backed::One(plan),
            Backed::One(known) if known == plan => self,
            _ => Backed::More,
        }
    }
}

/// Only asks for the coming selection.
pub fn ask(node: &Node, inbox: &[u8]) -> Result<Selection, Refusal> {
    ask_mutated(node, inbox, Mutation::Unmutated)
}

/// As `ask`, with a wrong rule.
pub fn ask_mutated(node: &Node, inbox: &[u8], mutation: Mutation) -> Result<Selection, Refusal> {
    // 01: "Asking outside round 1 is also 7.", so before 8 and 14
    if node.round != node::SELECTION {
        return Err(Refusal::NotSound);
    }
    check(node, inbox, mutation)?;
    let counting = inbox::counting(node, inbox, mutation);
    Ok(selection(node.crew, &counting, mutation))
}

/// Takes the coming round with this inbox. A refusal leaves the record as it was.
pub fn take(node: &mut Node, inbox: &[u8]) -> Result<(), Refusal> {
    take_mutated(node, inbox, Mutation::Unmutated)
}

/// As `take`, with a wrong rule.
pub fn take_mutated(node: &mut Node, inbox: &[u8], mutation: Mutation) -> Result<(), Refusal> {
    check(node, inbox, mutation)?;
    let counting = inbox::counting(node, inbox, mutation);
    match node.round {
        node::SELECTION => take_selection(node, &counting, mutation),
        node::VALIDATION => take_validation(node, counting.ballots(), mutation),
        _ => take_decision(node, counting.ballots(), mutation),
    }
    Ok(())
}

/// Only tells which slots count in the coming round, whichever it is, as one number: slot q its bit of weight 2 to the
/// q. The papers name no refusals for it: they are those of taking the round.
pub fn marks(node: &Node, inbox: &[u8]) -> Result<u32, Refusal> {
    marks_mutated(node, inbox, Mutation::Unmutated)
}

/// As `marks`, with a wrong rule.
pub fn marks_mutated(node: &Node, inbox: &[u8], mutation: Mutation) -> Result<u32, Refusal> {
    if mutation == Mutation::MarksInRoundOneAlone && node.round != node::SELECTION {
        return Err(Refusal::NotSound);
    }
    check(node, inbox, mutation)?;
    Ok(inbox::marks(node, inbox, mutation))
}

/// 01: "Taking a round, or only asking for the coming selection: 7; 8; 14 inbox length not 202n."
fn check(node: &Node, inbox: &[u8], mutation: Mutation) -> Result<(), Refusal> {
    node.check(mutation)?;
    if !inbox::is_whole(node.crew, inbox) {
        return Err(Refusal::InboxLength);
    }
    Ok(())
}

/// The selection that the counting slots give.
fn selection(crew: Crew, counting: &Counting, mutation: Mutation) -> Selection {
    let ballots = counting.ballots();
    if mutation == Mutation::NewestStampWins {
        return newest_stamp(ballots);
    }
    let e = crew.e();
    let b = usize::from(crew.b);
    // What backing and being possible have to exceed: E and b, but for the mutants.
    let (most, few) = match mutation {
        Mutation::MajorityOfArrivalsSelects => (ballots.len() / 2, b),
        Mutation::AtLeastE => (e.saturating_sub(1), b),
        Mutation::AtLeastB => (e, b.saturating_sub(1)),
        _ => (e, b),
    };
    let slack = usize::from(mutation == Mutation::AnyAtLeast);
    let (backed, is_any) = match crew.class {
        // 01: "Exactly one: that plan. Otherwise 'any' if more than 2E slots count, else 'none'."
        1 => (backed_by_votes(most, ballots), ballots.len() + slack > 2 * e),
        // 01: "Exactly one: that plan. Otherwise 'any' if more than E + b slots count, else 'none'."
        2 => (backed_by_possible(most, few, ballots), ballots.len() + slack > e + b),
        // 01: "Exactly one plan: that plan. More: 'any'. None: 'any' if more than E slots have stamp 0, else 'none'."
        _ => {
            let backed = backed_by_history(most, few, counting, mutation);
            (backed, backed == Backed::More || count_unstamped(ballots) + slack > e)
        }
    };
    match backed {
        Backed::One(plan) => Selection::Plan(plan),
        _ if is_any => Selection::Any,
        _ => Selection::None,
    }
}

/// 01: "Class 1: backed are the plans voted by more than E slots."
fn backed_by_votes(e: usize, ballots: &[Ballot]) -> Backed {
    let mut backed = Backed::None;
    for ballot in ballots {
        if count_votes(ballot.vote, ballots) > e {
            backed = backed.with(ballot.vote);
        }
    }
    backed
}

/// 01: "Class 2: backed are votes of more than b possible slots."
fn backed_by_possible(e: usize, b: usize, ballots: &[Ballot]) -> Backed {
    let mut possible = [Ballot::default(); Crew::MOST_NODES];
    let mut count = 0;
    for ballot in ballots {
        if is_possible(e, ballot, ballots) {
            possible[count] = *ballot;
            count += 1;
        }
    }
    let possible = &possible[..count];
    let mut backed = Backed::None;
    for ballot in possible {
        if count_votes(ballot.vote, possible) > b {
            backed = backed.with(ballot.vote);
        }
    }
    backed
}

/// 01: "Class 3: backed is the vote v of a possible slot with stamp t where more than b slots list v at phase t."
fn backed_by_history(e: usize, b: usize, counting: &Counting, mutation: Mutation) -> Backed {
    let ballots = counting.ballots();
    let mut backed = Backed::None;
    for ballot in ballots {
        // A plan already known as the one that is backed adds nothing.
        if backed != Backed::One(ballot.vote)
            && is_possible(e, ballot, ballots)
            && count_listing(ballot.vote, ballot.stamp, counting, mutation) > b
        {
            backed = backed.with(ballot.vote);
        }
    }
    backed
}

/// 01: "a slot is possible if more than E slots have its vote or a stamp below its own"
fn is_possible(e: usize, ballot: &Ballot, ballots: &[Ballot]) -> bool {
    ballots.iter().filter(|other| other.vote == ballot.vote || other.stamp < ballot.stamp).count() > e
}

fn count_votes(plan: Plan, ballots: &[Ballot]) -> usize {
    ballots.iter().filter(|ballot| ballot.vote == plan).count()
}

/// How many slots list the plan at the phase: those that count and list it there, but for the mutants.
fn count_listing(plan: Plan, phase: u8, counting: &Counting, mutation: Mutation) -> usize {
    let count = |phase: u8, ballots: &[Ballot]| ballots.iter().filter(|ballot| ballot.is_listing(plan, phase)).count();
    let ballots = counting.ballots();
    match mutation {
        Mutation::HistoryOfTheSlotBefore => count_standing(plan, phase, ballots),
        Mutation::EntriesOnePhaseLate => phase.checked_sub(1).map_or(0, |earlier| count(earlier, ballots)),
        Mutation::ForeignSlotsList | Mutation::RefusedSlotsList => {
            count(phase, ballots) + count(phase, counting.strays())
        }
        _ => count(phase, ballots),
    }
}

/// A mutant's rule: what a slot lists at the phase stands until another slot lists something there.
fn count_standing(plan: Plan, phase: u8, ballots: &[Ballot]) -> usize {
    let mut standing = None;
    let mut count = 0;
    for ballot in ballots {
        standing = ballot.listed_at(phase).or(standing);
        count += usize::from(standing == Some(plan));
    }
    count
}

fn count_unstamped(ballots: &[Ballot]) -> usize {
    ballots.iter().filter(|ballot| ballot.stamp == 0).count()
}

/// 01: "For 'any' the node takes the vote of most slots, the least plan on a tie". 'any' implies that some slot counts.
fn most_voted(ballots: &[Ballot], mutation: Mutation) -> Plan {
    let mut best = (0, 0);
    for ballot in ballots {
        let count = count_votes(ballot.vote, ballots);
        let is_preferred = match mutation {
            Mutation::GreatestOnTie => ballot.vote > best.1,
            _ => ballot.vote < best.1,
        };
        if count > best.0 || (count == best.0 && is_preferred) {
            best = (count, ballot.vote);
        }
    }
    best.1
}

/// A mutant's rule: the vote with the highest stamp, the least on a tie.
fn newest_stamp(ballots: &[Ballot]) -> Selection {
    let newest = ballots.iter().map(|ballot| ballot.stamp).max();
    let plan = ballots.iter().filter(|ballot| Some(ballot.stamp) == newest).map(|ballot| ballot.vote).min();
    plan.map_or(Selection::None, Selection::Plan)
}

fn take_selection(node: &mut Node, counting: &Counting, mutation: Mutation) {
    // 01: "Select is the plan, or 0 for 'none'; a plan becomes the vote and the phase's history entry."
    node.select = match selection(node.crew, counting, mutation) {
        Selection::Plan(plan) => plan,
        Selection::Any => most_voted(counting.ballots(), mutation),
        Selection::None => 0,
    };
    if node.select != 0 {
        node.vote = node.select;
        node.history[usize::from(node.phase)] = node.select;
    }
    // 01: "Class 1 goes on to round 3, the others to round 2 and then 3."
    node.round = if node.crew.class == 1 { node::DECISION } else { node::VALIDATION };
}

fn take_validation(node: &mut Node, ballots: &[Ballot], mutation: Mutation) {
    // 01: "If a plan stands in c slots with 2c > n + b, vote and base become it and stamp becomes the phase; otherwise
    // vote becomes base." 02 (C-13): "the test becomes 2 × count > c + b". No two plans can do so: c slots may count.
    let (n, b, c) = (usize::from(node.crew.n), usize::from(node.crew.b), usize::from(node.crew.c));
    let bound = match mutation {
        Mutation::MajorityOfArrivalsValidates => ballots.len(),
        Mutation::HalfValidates => (c + b).saturating_sub(1),
        Mutation::ThresholdFromN => n + b,
        _ => c + b,
    };
    let validated = ballots.iter().find(|ballot| 2 * count_votes(ballot.vote, ballots) > bound);
    match validated {
        Some(ballot) if mutation != Mutation::EchoesVote => {
            node.vote = ballot.vote;
            node.base = ballot.vote;
            node.stamp = node.phase;
        }
        _ => node.vote = fallback(node, mutation),
    }
    node.round = node::DECISION;
}

/// What the vote becomes where no plan was validated: base, but for the mutants.
fn fallback(node: &Node, mutation: Mutation) -> Plan {
    match mutation {
        Mutation::EchoesVote => node.vote,
        Mutation::BackToOwnSelection if node.select != 0 => node.select,
        Mutation::BackToOwnHistory => match node.history[usize::from(node.stamp)] {
            0 => node.vote,
            plan => plan,
        },
        _ => node.base,
    }
}

fn take_decision(node: &mut Node, ballots: &[Ballot], mutation: Mutation) {
    // 01: "plans in at least D slots (in classes 2 and 3 only slots whose stamp is the phase). If there are any and
    // result is 0, result becomes the least. A result stands for good."
    if node.result == 0 || mutation == Mutation::ResultReplaced {
        if let Some(plan) = decided(node, ballots, mutation) {
            node.result = plan;
        }
    }
    // 01: "Phase rises by 1, round is 1."
    node.phase += 1;
    node.round = node::SELECTION;
}

/// The least plan that stands in enough slots.
fn decided(node: &Node, ballots: &[Ballot], mutation: Mutation) -> Option<Plan> {
    let class = node.crew.class;
    let is_any_stamp = class == 1 || mutation == Mutation::OldStampsDecide;
    let is_deciding = |ballot: &&Ballot| is_any_stamp || ballot.stamp == node.phase;
    let needed = match mutation {
        Mutation::MajorityOfArrivalsDecides => ballots.len() / 2 + 1,
        Mutation::MoreThanD => usize::from(node.crew.d) + 1,
        _ => usize::from(node.crew.d),
    };
    let is_enough =
        |plan: Plan| ballots.iter().filter(is_deciding).filter(|ballot| ballot.vote == plan).count() >= needed;
    let plans = ballots.iter().filter(is_deciding).map(|ballot| ballot.vote).filter(|&plan| is_enough(plan));
    match mutation {
        Mutation::GreatestDecides => plans.max(),
        _ => plans.min(),
    }
}
