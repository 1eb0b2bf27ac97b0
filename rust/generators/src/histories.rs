//! Inboxes for selections of class 3 that turn on histories. One vote is possible, and of the slots that count about as
//! many list it at its stamp as are needed. The others list it one phase before or after, or another plan, or nothing.
//! The slots between, which do not count, are empty or would make one lister more.

use crate::inboxes;
use crate::messages::Fields;
use crate::plans;
use crate::random::Random;
use second_engine::inbox::SLOT;
use second_engine::{Node, Plan};

/// An inbox with a slot for each node, for a record of class 3 before its selection.
pub fn inbox(random: &mut Random, node: &Node, pool: &[Plan]) -> Vec<u8> {
    let (n, b) = (usize::from(node.crew.n), usize::from(node.crew.b));
    // The vote is possible where more than E slots support it.
    let needed = (inboxes::e(node.crew) + 1).min(n);
    let any_count = random.between(needed, n);
    let count = random.pick(&[needed, any_count, any_count]);
    let supporters = random.between(needed, count);
    let listers = random.pick(&[b.saturating_sub(1), b, b, b + 1, b + 1, b + 2]);
    let scene = Scene::new(random, node, pool);
    let ranks = random.order(count);
    let mut inbox = vec![0; SLOT * n];
    for (place, q) in random.order(n).into_iter().enumerate() {
        let bytes = match ranks.get(place) {
            Some(&rank) => scene.counting(random, place, supporters, rank < listers),
            None => scene.stray(random),
        };
        inboxes::fill(&mut inbox[SLOT * q..SLOT * (q + 1)], &bytes);
    }
    inbox
}

/// The vote that the inbox turns on, with its stamp.
struct Scene<'a> {
    node: &'a Node,
    pool: Vec<Plan>,
    vote: Plan,
    stamp: u8,
    /// Whether there are other stamps, with which other votes, or this one once more, may be backed too.
    has_rivals: bool,
}

impl<'a> Scene<'a> {
    fn new(random: &mut Random, node: &'a Node, pool: &[Plan]) -> Scene<'a> {
        let highest = node.phase - 1;
        let any_stamp = random.between(0, usize::from(highest)) as u8;
        let stamp = random.pick(&[0, 1.min(highest), highest, any_stamp, any_stamp]);
        // Mostly one plan more than the pool has, so that there is another to list.
        let pool: Vec<Plan> = pool.iter().copied().chain([plans::any(random)]).collect();
        Scene { node, vote: random.pick(&pool), pool, stamp, has_rivals: random.chance(1, 4) }
    }

    /// A slot that counts. The first has the vote and its stamp.
    fn counting(&self, random: &mut Random, place: usize, supporters: usize, is_lister: bool) -> Vec<u8> {
        let (vote, stamp) = match place {
            0 => (self.vote, self.stamp),
            _ if place < supporters => self.support(random),
            _ => (random.pick(&self.pool), self.stamp_or(random, self.stamp, self.node.phase - 1, self.stamp)),
        };
        self.fields(random, vote, stamp, is_lister).layout()
    }

    /// 01: "have its vote or a stamp below its own"
    fn support(&self, random: &mut Random) -> (Plan, u8) {
        if self.stamp > 0 && random.chance(1, 2) {
            return (random.pick(&self.pool), self.stamp_or(random, 0, self.stamp - 1, 0));
        }
        (self.vote, self.stamp_or(random, 0, self.node.phase - 1, self.stamp))
    }

    /// Any stamp from the least to the most where there are rivals, else the one given.
    fn stamp_or(&self, random: &mut Random, least: u8, most: u8, stamp: u8) -> u8 {
        if self.has_rivals {
            random.between(least.into(), most.into()) as u8
        } else {
            stamp
        }
    }

    /// A slot that does not count: empty, or a lister's but for something that keeps it from counting.
    fn stray(&self, random: &mut Random) -> Vec<u8> {
        if random.chance(1, 3) {
            return Vec::new();
        }
        let fields = self.fields(random, self.vote, self.stamp, true);
        inboxes::not_counting(random, fields)
    }

    fn fields(&self, random: &mut Random, plan: Plan, stamp: u8, is_lister: bool) -> Fields {
        let entries = self.entries(random, is_lister);
        let k = entries.len() as u8;
        Fields { kind: 1, run: self.node.run, phase: self.node.phase, plan, stamp, k, entries }
    }

    /// A history with few gaps or many, in which the vote stands at its stamp's phase or only beside it.
    fn entries(&self, random: &mut Random, is_lister: bool) -> Vec<(u8, Plan)> {
        let mut plans = [0; Node::ENTRIES];
        let part = random.pick(&[0, 1, 4, 7, 8]);
        for plan in &mut plans[..usize::from(self.node.phase)] {
            if random.chance(part, 8) {
                *plan = random.pick(&self.pool);
            }
        }
        let place = usize::from(self.stamp);
        for near in [place.saturating_sub(1), place + 1] {
            if random.chance(1, 2) {
                plans[near] = self.vote;
            }
        }
        plans[place] = if is_lister { self.vote } else { self.other_or_none(random) };
        (0..self.node.phase).zip(plans).filter(|&(_, plan)| plan != 0).collect()
    }

    fn other_or_none(&self, random: &mut Random) -> Plan {
        match random.pick(&self.pool) {
            plan if plan == self.vote => 0,
            plan => random.pick(&[0, plan]),
        }
    }
}
