//! Crews: six one-byte numbers, when they are accepted (01, 'Crew and node'), and whose turn it is to validate (02,
//! C-13). Every rule of C-13 takes the mutation that makes it wrong; the public operations pass none.

use crate::mutation::Mutation;
use crate::refusal::Refusal;

/// 01: "A crew is five one-byte numbers: class, n nodes, b (most nodes that are not honest), f (most honest nodes that
/// may be out of reach), D (votes needed to decide)." 02 (C-13): "The crew, and so every record, gains a group size c."
#[derive(Clone, Copy, Debug, PartialEq, Eq, Hash, Default)]
pub struct Crew {
    pub class: u8,
    pub n: u8,
    pub b: u8,
    pub f: u8,
    /// 01's D
    pub d: u8,
    /// 02's group size: how many validate in a phase
    pub c: u8,
}

impl Crew {
    /// 01: "n is 1 to 32"
    pub const MOST_NODES: usize = 32;

    pub const fn new(class: u8, n: u8, b: u8, f: u8, d: u8, c: u8) -> Crew {
        Crew { class, n, b, f, d, c }
    }

    /// A crew in which all nodes validate in every phase, as they do in 01: c is n.
    pub const fn whole(class: u8, n: u8, b: u8, f: u8, d: u8) -> Crew {
        Crew::new(class, n, b, f, d, n)
    }

    /// Accepts the crew or gives the first refusal that applies.
    pub fn accept(self) -> Result<(), Refusal> {
        self.accept_mutated(Mutation::Unmutated)
    }

    /// As `accept`, with a wrong rule.
    pub fn accept_mutated(self, mutation: Mutation) -> Result<(), Refusal> {
        self.accept_nodes()?;
        // 02 (C-13): "It refuses with 17, after 4 wherever a crew is tested"
        if mutation == Mutation::GroupBeforeQuorum {
            self.accept_group(mutation)?;
        }
        self.accept_quorum()?;
        self.accept_group(mutation)
    }

    /// Class, n, and whether D is in reach. Sums are taken wide: three bytes can exceed a byte.
    fn accept_nodes(self) -> Result<(), Refusal> {
        let (n, b, f, d) = (u32::from(self.n), u32::from(self.b), u32::from(self.f), u32::from(self.d));
        // 01: "1 class not 1 to 3"
        if !(1..=3).contains(&self.class) {
            return Err(Refusal::Class);
        }
        // 01: "2 n not 1 to 32"
        if !(1..=Self::MOST_NODES as u32).contains(&n) {
            return Err(Refusal::Nodes);
        }
        // 01: "3 D + b + f > n"
        if d + b + f > n {
            return Err(Refusal::DecisionOutOfReach);
        }
        Ok(())
    }

    /// Whether D is high enough for the class.
    fn accept_quorum(self) -> Result<(), Refusal> {
        let (n, b, f, d) = (u32::from(self.n), u32::from(self.b), u32::from(self.f), u32::from(self.d));
        // 01: "class 1: 2D > n + 3b + f; class 2: D > 3b + f; class 3: D > 2b + f"
        let is_high_enough = match self.class {
            1 => 2 * d > n + 3 * b + f,
            2 => d > 3 * b + f,
            _ => d > 2 * b + f,
        };
        // 01: "4 D too low for the class"
        if !is_high_enough {
            return Err(Refusal::DecisionTooLow);
        }
        Ok(())
    }

    /// Whether c is fit for the class.
    fn accept_group(self, mutation: Mutation) -> Result<(), Refusal> {
        let (n, b, f, c) = (u32::from(self.n), u32::from(self.b), u32::from(self.f), u32::from(self.c));
        // 02 (C-13): "c above n, c ≤ b in class 2, c ≤ 3b + 2f in class 3, and c other than n in class 1"
        let is_fit = match (self.class, mutation) {
            (1, Mutation::AnyGroupInClassOne) => true,
            (1, _) => c == n,
            (2, Mutation::GroupOfB) => c >= b,
            (2, _) => c > b,
            (_, Mutation::GroupAtTheBoundOfClassThree) => c >= 3 * b + 2 * f,
            (_, Mutation::GroupWithoutF) => c > 3 * b,
            (_, Mutation::GroupOfTwoB) => c > 2 * b + 2 * f,
            _ => c > 3 * b + 2 * f,
        };
        let is_above = c > n && mutation != Mutation::GroupAboveN;
        if is_above || !is_fit {
            return Err(Refusal::Group);
        }
        Ok(())
    }

    pub fn is_accepted(self) -> bool {
        self.accept().is_ok()
    }

    /// The validators of a phase, one after the other. 02 (C-13): "In a phase the validators are the nodes (phase × c +
    /// i) mod n for i below c". Phases are wide: C-13 takes them as unbounded, and the product passes a byte anyway.
    /// With n = 0 there is nobody.
    pub fn validators(self, phase: u64) -> impl Iterator<Item = u8> {
        let (n, c) = (u64::from(self.n), u64::from(self.c));
        (0..c).filter_map(move |i| (phase * c + i).checked_rem(n)).map(|q| q as u8)
    }

    /// Whether the node validates in the phase.
    pub fn is_validator(self, phase: u64, q: u8) -> bool {
        self.validators(phase).any(|validator| validator == q)
    }

    /// The validators of the phase of a sound record, with a wrong rule.
    pub(crate) fn validators_mutated(self, phase: u8, mutation: Mutation) -> impl Iterator<Item = u8> {
        let phase = u64::from(phase);
        let turn = match mutation {
            Mutation::TurnOnePhaseOff => phase + 1,
            Mutation::TurnTooFew => phase - 1,
            Mutation::CSubtractedForN => self.turns_below_n(phase),
            _ => phase,
        };
        // The number n is nobody's, as if the group had no first node.
        let is_past = mutation == Mutation::OnePastTheCrew && self.validators(phase).next() == Some(0);
        self.validators(turn).skip(usize::from(is_past))
    }

    /// A mutant's rule: only turns that stay below n move the group. Any other adds c and subtracts c.
    fn turns_below_n(self, phase: u64) -> u64 {
        let (n, c) = (u64::from(self.n), u64::from(self.c));
        (1..=phase).take_while(|turn| turn * c < n).count() as u64
    }

    /// 01: "Let E = n − D + b." For accepted crews, where D is at most n.
    pub fn e(self) -> usize {
        usize::from(self.n) - usize::from(self.d) + usize::from(self.b)
    }
}
