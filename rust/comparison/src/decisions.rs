//! Decisions, from inboxes and never from records, and what demand 3 says of them: results, agreement, common start.

use crate::cases::expect;
use crate::slots::Slot;
use second_engine::{Crew, Node, Plan};

/// The plans that nodes have decided so far.
#[derive(Clone, Debug)]
pub struct Decisions {
    crew: Crew,
    /// By own number.
    pub plans: Vec<Option<Plan>>,
    /// The plan that all honest nodes started with, if they did.
    pub common: Option<Plan>,
}

impl Decisions {
    /// Before any round, with the plans that the honest nodes start with.
    pub fn new(crew: Crew, initial: &[Plan]) -> Decisions {
        let common = initial.first().copied().filter(|&first| initial.iter().all(|&plan| plan == first));
        Decisions { crew, plans: vec![None; usize::from(crew.n)], common }
    }

    /// Notes what counted in a round 3 that the node took, and tells whether it has decided there.
    /// 01: "A node has decided when, in some round 3 that it took, at least D counting slots held one plan (in classes
    /// 2 and 3 with the phase as stamp). The plan it decided is the least such plan of the first such round."
    pub fn note(&mut self, own: usize, phase: u8, slots: &[Option<Slot>]) -> bool {
        if self.plans[own].is_some() {
            return false;
        }
        let (class, d) = (self.crew.class, usize::from(self.crew.d));
        let deciding: Vec<Plan> = slots
            .iter()
            .flatten()
            .filter(|slot| class == 1 || slot.message.stamp() == phase)
            .map(|slot| slot.message.plan())
            .collect();
        let is_enough = |plan: &Plan| deciding.iter().filter(|&other| other == plan).count() >= d;
        self.plans[own] = deciding.iter().copied().filter(is_enough).min();
        self.plans[own].is_some()
    }

    /// Holds the honest records, by own number, against what was decided.
    pub fn check(&self, records: &[Option<Node>]) -> Result<(), String> {
        let result_of = |own: usize| records[own].map(|node| node.result);
        let honest: Vec<usize> = (0..records.len()).filter(|&own| records[own].is_some()).collect();
        for &own in &honest {
            let (plan, result) = (self.plans[own], result_of(own));
            // The standing result is the plan decided from the inboxes, or 0.
            expect(result == Some(plan.unwrap_or(0)), || format!("result {result:?} of node {own}, not {plan:?}"))?;
            // Common start: whoever decided has that plan.
            let is_common = self.common.is_none() || plan.is_none() || plan == self.common;
            expect(is_common, || format!("node {own} decided {plan:?} after the start {:?}", self.common))?;
        }
        for &one in &honest {
            for &other in &honest {
                // Results are equal exactly when both have decided or neither has.
                let is_equal = result_of(one) == result_of(other);
                let are_both = self.plans[one].is_some() == self.plans[other].is_some();
                let plans = (self.plans[one], self.plans[other]);
                expect(is_equal == are_both, || format!("nodes {one} and {other} decided {plans:?}"))?;
            }
        }
        Ok(())
    }
}
