//! Inboxes for a record: every mixture of counting, foreign, malformed and hostile slots, some with residue, with
//! counts at the bounds. In round 2 slots of nodes whose turn it is not stand among them, with messages like the
//! others'.

use crate::messages::{self, Fields};
use crate::random::Random;
use crate::{histories, plans, turns};
use second_engine::inbox::SLOT;
use second_engine::message::{HEADER, LAST_PHASE};
use second_engine::node::SELECTION;
use second_engine::{Crew, Node, Plan};

/// An inbox with a slot for each node, for the record's coming round.
pub fn whole(random: &mut Random, node: &Node, pool: &[Plan]) -> Vec<u8> {
    if (node.crew.class, node.round) == (3, SELECTION) && random.chance(1, 2) {
        return histories::inbox(random, node, pool);
    }
    let n = usize::from(node.crew.n);
    let mut inbox = vec![0; SLOT * n];
    let count = near_bound(random, node.crew);
    // Leaders at a bound, or few enough to have rivals.
    let leaders = if random.chance(1, 2) { near_bound(random, node.crew) } else { random.between(0, count) };
    let scene = Scene::new(random, node, pool);
    let is_in_turn = |q: usize| turns::may_count(node.crew, node.phase, node.round, q);
    let mut order = random.order(n);
    // With the validators' slots ahead the counts are of those. The others then have much to say, or nothing.
    if random.chance(3, 4) {
        order.sort_by_key(|&q| !is_in_turn(q));
    }
    let said = random.pick(&[0, 4, 8]);
    for (place, q) in order.into_iter().enumerate() {
        let bytes = if place < count {
            scene.counting(random, node, place < leaders)
        } else if !is_in_turn(q) && random.chance(said, 8) {
            let is_leading = random.chance(3, 4);
            scene.counting(random, node, is_leading)
        } else if random.chance(1, 4) {
            // One more of them, but for what stands behind it.
            let is_leading = random.chance(1, 2);
            let bytes = scene.counting(random, node, is_leading);
            messages::with_residue_in_slot(random, bytes)
        } else {
            absent(random, node, pool)
        };
        fill(&mut inbox[SLOT * q..SLOT * (q + 1)], &bytes);
    }
    if random.chance(1, 6) {
        repeat_slots(random, &mut inbox);
    }
    inbox
}

/// An inbox of any length, seldom the right one.
pub fn of_any_length(random: &mut Random, node: &Node) -> Vec<u8> {
    let right = SLOT * usize::from(node.crew.n);
    let length =
        random.pick(&[0, 1, SLOT, right.saturating_sub(1), right, right + 1, right + SLOT, SLOT * Crew::MOST_NODES]);
    random.bytes(length)
}

/// 01's E, also for a crew that is not accepted.
pub fn e(crew: Crew) -> usize {
    (usize::from(crew.n) + usize::from(crew.b)).saturating_sub(usize::from(crew.d))
}

/// A number of slots at, just below or just above one of the bounds of the rules.
fn near_bound(random: &mut Random, crew: Crew) -> usize {
    let [n, b, d, c] = [crew.n, crew.b, crew.d, crew.c].map(usize::from);
    let e = e(crew);
    let any_count = random.between(0, n);
    let bound = random.pick(&[e, 2 * e, e + b, d, b, (c + b) / 2, (n + b) / 2, c, n, n, any_count]);
    (bound + random.below(3)).saturating_sub(1).min(n)
}

/// What the counting slots of one inbox have in common: few plans, few stamps, and pairs that many of them list.
struct Scene {
    pool: Vec<Plan>,
    leader: (Plan, u8),
    stamps: Vec<u8>,
    listed: Vec<(u8, Plan)>,
    listing: usize,
}

impl Scene {
    fn new(random: &mut Random, node: &Node, pool: &[Plan]) -> Scene {
        let highest = match node.round {
            1 => node.phase.saturating_sub(1),
            _ => node.phase,
        };
        let mut stamps = vec![0, highest];
        for _ in 0..random.below(3) {
            stamps.push(random.between(0, usize::from(highest)) as u8);
        }
        // Several plans can have D slots only where most stamps are the phase.
        if random.chance(1, 3) {
            stamps = vec![highest];
        }
        let leader = (random.pick(pool), random.pick(&stamps));
        let mut listed: Vec<(u8, Plan)> = stamps.iter().map(|&stamp| (stamp, random.pick(pool))).collect();
        listed.push((leader.1, leader.0));
        Scene { pool: pool.to_vec(), leader, stamps, listed, listing: random.pick(&[0, 2, 4, 7, 8]) }
    }

    /// A counting message: the leading one, or another of few.
    fn counting(&self, random: &mut Random, node: &Node, is_leading: bool) -> Vec<u8> {
        let mut fields = messages::within(random, u16::from(node.round), node.run, node.phase, &self.pool);
        if is_leading {
            (fields.plan, fields.stamp) = self.leader;
        } else if random.chance(3, 4) {
            fields.stamp = random.pick(&self.stamps);
        }
        if node.round == 1 && random.chance(3, 4) {
            self.list(random, &mut fields);
        }
        fields.layout()
    }

    /// Entries of the pairs in common, at most one for each phase.
    fn list(&self, random: &mut Random, fields: &mut Fields) {
        let mut plans = [0; Node::ENTRIES];
        for &(phase, plan) in &self.listed {
            if phase < fields.phase && random.chance(self.listing, 8) {
                plans[usize::from(phase)] = plan;
            }
        }
        if random.chance(1, 2) {
            plans[usize::from(fields.stamp)] = fields.plan;
        }
        fields.entries = (0u8..).zip(plans).filter(|&(_, plan)| plan != 0).collect();
        fields.k = fields.entries.len() as u8;
    }
}

/// Puts the bytes at the slot's front, with zeros behind them.
pub fn fill(slot: &mut [u8], bytes: &[u8]) {
    slot.fill(0);
    let length = bytes.len().min(slot.len());
    slot[..length].copy_from_slice(&bytes[..length]);
}

/// What a slot holds that hardly ever counts: nothing, a message of another run, kind or phase, a malformed one, one
/// with residue, or random bytes.
fn absent(random: &mut Random, node: &Node, pool: &[Plan]) -> Vec<u8> {
    // A record that is not sound can stand at a phase that no message has.
    let phase = node.phase.clamp(1, LAST_PHASE);
    let kind = u16::from(node.round.clamp(1, 3));
    let mut fields = messages::within(random, kind, node.run, phase, pool);
    let other_phase = random.between(1, usize::from(LAST_PHASE)) as u8;
    let bytes = match random.below(10) {
        0..=2 => Vec::new(),
        3 => {
            fields.run ^= 1 << random.below(32);
            fields.layout()
        }
        4 => messages::within(random, kind % 3 + 1, node.run, phase, pool).layout(),
        5 => messages::within(random, kind, node.run, other_phase, pool).layout(),
        6 => messages::damaged(random),
        7 => almost_counting(random, fields),
        8 => return messages::with_residue_in_slot(random, fields.layout()),
        _ => random.bytes(SLOT),
    };
    sometimes_with_residue(random, bytes)
}

/// What does not count anyway may have residue behind it as well.
pub fn sometimes_with_residue(random: &mut Random, bytes: Vec<u8>) -> Vec<u8> {
    if random.chance(1, 4) {
        messages::with_residue_in_slot(random, bytes)
    } else {
        bytes
    }
}

/// The message made such that it hardly ever counts: of another run or phase, or refused.
pub fn not_counting(random: &mut Random, mut fields: Fields) -> Vec<u8> {
    match random.below(5) {
        0 => fields.run ^= 1 << random.below(32),
        1 => {
            // The stamp, and an entry of its phase, stay within the bounds.
            let least = usize::from(fields.stamp) + usize::from(fields.kind == 1);
            fields.phase = random.between(least.max(1), usize::from(LAST_PHASE)) as u8;
            fields.entries.retain(|&(phase, _)| phase < fields.phase);
            fields.k = fields.entries.len() as u8;
        }
        2 => return messages::with_residue_in_slot(random, fields.layout()),
        _ => return almost_counting(random, fields),
    }
    fields.layout()
}

/// A message of the coming round with one bound broken or the length wrong, beyond the slot too.
fn almost_counting(random: &mut Random, mut fields: Fields) -> Vec<u8> {
    match random.below(5) {
        0 => fields.plan = 0,
        // The least stamp that breaks the bound of its kind.
        1 => fields.stamp = fields.phase + u8::from(fields.kind != 1),
        2 => fields.k = fields.k.wrapping_add(1),
        3 => messages::damage_entries(random, &mut fields),
        _ => {
            let mut bytes = fields.layout();
            let length = random.pick(&[SLOT + 1, 0, HEADER - 1, bytes.len() - 1, bytes.len() + 1]);
            messages::put_length(&mut bytes, length);
            return bytes;
        }
    }
    fields.layout()
}

/// Copies some slots over others.
fn repeat_slots(random: &mut Random, inbox: &mut [u8]) {
    let n = inbox.len() / SLOT;
    for _ in 0..random.between(1, n) {
        let (from, to) = (random.below(n), random.below(n));
        inbox.copy_within(SLOT * from..SLOT * (from + 1), SLOT * to);
    }
}

/// A record and an inbox for it: mostly sound and whole.
pub fn case(random: &mut Random) -> (Node, Vec<u8>) {
    let pool = plans::pool(random);
    let node = match random.below(16) {
        0 => crate::records::any(random),
        _ => {
            let crew = crate::crews::accepted(random);
            crate::records::sound_of(random, crew, &pool)
        }
    };
    let is_placed = (1..=LAST_PHASE).contains(&node.phase) && (1..=3).contains(&node.round);
    let inbox = if is_placed && node.crew.n > 0 && random.chance(31, 32) {
        whole(random, &node, &pool)
    } else {
        of_any_length(random, &node)
    };
    (node, inbox)
}

/// A sound record and a whole inbox for it; none where the record is spent.
pub fn unspent_case(random: &mut Random) -> Option<(Node, Vec<u8>)> {
    let pool = plans::pool(random);
    let crew = crate::crews::accepted(random);
    let node = crate::records::sound_of(random, crew, &pool);
    (node.phase != Node::SPENT).then(|| (node, whole(random, &node, &pool)))
}
