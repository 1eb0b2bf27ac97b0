//! Whole runs for demand 3: starts, losses, good phases, and Byzantine nodes that choose their bytes after the honest
//! writes.
//! A run keeps the premise on slots: an honest node's slot counts only where it begins with what that node wrote.

use crate::inboxes;
use crate::messages::{self, Fields};
use crate::random::Random;
use crate::{crews, plans, turns};
use second_engine::inbox::SLOT;
use second_engine::message::{self, LAST_PHASE};
use second_engine::{Crew, Node, Plan};

/// How a run begins and how long it is.
#[derive(Clone, Debug)]
pub struct Setup {
    pub crew: Crew,
    pub run: u32,
    /// Start calls in order; some are refused and make no node.
    pub starts: Vec<(Crew, u8, u32, Plan)>,
    /// For each number below n, whether a start makes it honest.
    pub is_honest: Vec<bool>,
    pub pool: Vec<Plan>,
    /// How many rounds the list has; it may go on after the spent mark.
    pub rounds: usize,
    /// In how many of 8 phases there is a circle.
    pub good: usize,
}

impl Setup {
    pub fn new(random: &mut Random, crew: Crew) -> Setup {
        let (n, b) = (usize::from(crew.n), usize::from(crew.b));
        let any_byzantine = random.between(0, b);
        let byzantine = random.pick(&[b, b, b, any_byzantine]);
        let run = random.number() as u32;
        let pool = loop {
            let pool = plans::pool(random);
            if pool.len() > 1 {
                break pool;
            }
        };
        let is_common = random.chance(1, 4);
        let mut is_honest = vec![true; n];
        for own in random.order(n).into_iter().take(byzantine) {
            is_honest[own] = false;
        }
        let mut starts = Vec::new();
        for own in random.order(n) {
            if random.chance(1, 16) {
                starts.push(refused_start(random, crew, run));
            }
            if is_honest[own] {
                let plan = if is_common { pool[0] } else { random.pick(&pool) };
                starts.push((crew, own as u8, run, plan));
            }
        }
        let (in_phase, all) = (rounds_in_phase(crew), rounds_in_all(crew));
        let few_phases = random.between(1, 6);
        let rounds = match random.below(16) {
            0 if random.chance(1, 2) => all + random.below(4),
            0 => random.between(0, all),
            _ => few_phases * in_phase + random.below(in_phase),
        };
        Setup { crew, run, starts, is_honest, pool, rounds, good: random.pick(&[0, 1, 3, 8]) }
    }

    /// The honest numbers, in their order.
    pub fn honest(&self) -> Vec<usize> {
        (0..self.is_honest.len()).filter(|&own| self.is_honest[own]).collect()
    }

    /// The least number of nodes in a circle: n - b - f.
    pub fn reachable(&self) -> usize {
        usize::from(self.crew.n) - usize::from(self.crew.b) - usize::from(self.crew.f)
    }
}

/// A start that is refused: plan 0, a number not below n, or a refused crew, for its group or for its class.
fn refused_start(random: &mut Random, crew: Crew, run: u32) -> (Crew, u8, u32, Plan) {
    match random.below(4) {
        0 => (crew, 0, run, 0),
        1 => (crew, crew.n, run, 1),
        2 => (Crew { c: crew.n + 1, ..crew }, 0, run, 1),
        _ => (Crew { class: 0, ..crew }, 0, run, 1),
    }
}

/// 01: "rounds 1 and 3 of each phase in class 1, rounds 1 to 3 in the others"
pub fn rounds_in_phase(crew: Crew) -> usize {
    if crew.class == 1 {
        2
    } else {
        3
    }
}

/// How many rounds all phases have. 01: "phases 1 to 63"
pub fn rounds_in_all(crew: Crew) -> usize {
    usize::from(LAST_PHASE) * rounds_in_phase(crew)
}

/// The phase and round of a place in the list, or none after the last phase.
pub fn place(crew: Crew, round: usize) -> Option<(u8, u8)> {
    let in_phase = rounds_in_phase(crew);
    let phase = round / in_phase + 1;
    let number = match (crew.class, round % in_phase) {
        (1, 1) => 3,
        (_, number) => number + 1,
    };
    (phase <= usize::from(LAST_PHASE)).then_some((phase as u8, number as u8))
}

/// What stays the same over the rounds of a phase.
#[derive(Clone, Debug)]
pub struct Weather {
    /// The circle of a phase meant to be good. A checker decides whether it is.
    pub circle: Vec<usize>,
    is_good: bool,
    /// In how many of 16 cases a message is lost, for each round.
    loss: [usize; 3],
    /// A plan whose selections are lost, to all nodes or to one camp.
    censored: Option<(Plan, bool)>,
    /// The camp of each node; messages between camps are lost more often, and Byzantine nodes please each camp.
    camp: Vec<bool>,
    favourite: [Plan; 2],
    behaviour: Behaviour,
}

/// What Byzantine nodes do in a phase.
#[derive(Clone, Copy, Debug, PartialEq, Eq)]
enum Behaviour {
    Silent,
    Random,
    /// The favourite plan of the receiver's camp with the newest stamp and a history that lists it.
    Please,
    /// As above, to all the same.
    Push,
    /// What some honest node wrote, another for each receiver.
    Echo,
    Rubbish,
}

impl Weather {
    pub fn new(random: &mut Random, setup: &Setup, phase: u8, records: &[Option<Node>]) -> Weather {
        let n = usize::from(setup.crew.n);
        let least = setup.reachable();
        let mut circle = setup.honest();
        random.shuffle(&mut circle);
        // A good phase needs validators in its circle, mostly more of them than come there by chance.
        if random.chance(3, 4) {
            circle.sort_by_key(|&own| !turns::is_validator(setup.crew, phase, own));
        }
        let any_size = random.between(least, circle.len());
        circle.truncate(random.pick(&[least, least, any_size]));
        // Adaptive: a plan that was decided or that honest nodes vote for now, and one to set against it.
        let votes: Vec<Plan> = records.iter().flatten().map(|node| node.vote).collect();
        let decided = records.iter().flatten().map(|node| node.result).find(|&result| result != 0);
        let is_open = records.iter().flatten().any(|node| node.result == 0);
        let leading = decided.unwrap_or(random.pick(&votes));
        let rivals: Vec<Plan> = votes.iter().chain(&setup.pool).copied().filter(|&plan| plan != leading).collect();
        let rival = random.pick(&rivals);
        let (both, one) = ([leading, rival], [rival, rival]);
        const BEHAVIOURS: [Behaviour; 7] = [
            Behaviour::Silent,
            Behaviour::Random,
            Behaviour::Please,
            Behaviour::Please,
            Behaviour::Push,
            Behaviour::Echo,
            Behaviour::Rubbish,
        ];
        let weather = Weather {
            circle,
            is_good: random.chance(setup.good, 8),
            loss: [(); 3].map(|()| random.pick(&[0, 0, 1, 4, 8])),
            censored: random.chance(1, 3).then(|| (leading, random.chance(1, 2))),
            camp: (0..n).map(|_| random.chance(1, 2)).collect(),
            favourite: random.pick(&[both, one]),
            behaviour: random.pick(&BEHAVIOURS),
        };
        // A plain attack: nobody hears the leading plan, everybody hears the rival, and nothing else is lost. It is
        // best made where some have decided and others can still be led astray.
        let is_worth_it = is_open && decided.is_some();
        if random.chance(if is_worth_it { 4 } else { 1 }, 8) {
            return Weather {
                loss: [0; 3],
                censored: Some((leading, true)),
                favourite: one,
                behaviour: Behaviour::Push,
                ..weather
            };
        }
        weather
    }

    /// Whether all the node's writes of a round are to be refused: its buffers are too short.
    pub fn is_kept_from_writing(&self, random: &mut Random, own: usize) -> bool {
        !(self.is_good && self.circle.contains(&own)) && random.chance(1, 24)
    }

    fn is_lost(&self, random: &mut Random, round: u8, from: usize, to: usize) -> bool {
        let loss = self.loss[usize::from(round) - 1];
        let loss = if self.camp[from] == self.camp[to] { loss } else { (3 * loss).min(14) };
        random.chance(loss, 16)
    }

    fn is_censored(&self, plan: Plan, to: usize) -> bool {
        self.censored.is_some_and(|(censored, is_for_all)| plan == censored && (is_for_all || self.camp[to]))
    }
}

/// What everybody may know when the inboxes of a round are filled.
pub struct Scene<'a> {
    pub setup: &'a Setup,
    pub weather: &'a Weather,
    pub phase: u8,
    pub round: u8,
    /// What each number wrote in this round, none for silence, refused writes and Byzantine nodes.
    pub written: &'a [Option<Vec<u8>>],
    /// What numbers wrote in earlier rounds.
    pub old: &'a [Vec<u8>],
}

impl Scene<'_> {
    /// One inbox for each number below n; those of Byzantine nodes stay empty.
    pub fn inboxes(&self, random: &mut Random) -> Vec<Vec<u8>> {
        let common = self.common_slots(random);
        let mut inboxes = Vec::new();
        for (to, &is_honest) in self.setup.is_honest.iter().enumerate() {
            let inbox = self.filled(random, to, &common);
            inboxes.push(if is_honest { inbox } else { Vec::new() });
        }
        inboxes
    }

    /// The inbox of one node alone, which takes its round when others are elsewhere. Byzantine nodes have no words in
    /// common.
    pub fn inbox(&self, random: &mut Random, to: usize) -> Vec<u8> {
        let common = self.common_slots(random);
        self.filled(random, to, &common)
    }

    fn filled(&self, random: &mut Random, to: usize, common: &[Option<Vec<u8>>]) -> Vec<u8> {
        let mut inbox = vec![0; SLOT * usize::from(self.setup.crew.n)];
        let in_circle = self.weather.is_good && self.weather.circle.contains(&to);
        for (from, slot) in inbox.chunks_exact_mut(SLOT).enumerate() {
            if in_circle && self.round == 1 {
                self.put_or_absent(random, from, slot, common[from].as_deref());
            } else {
                let bytes = self.choose(random, from, to, in_circle);
                self.put_or_absent(random, from, slot, bytes.as_deref());
            }
        }
        if in_circle && self.round == 1 {
            self.permute_byzantine(random, &mut inbox);
        }
        inbox
    }

    /// What every circle node gets in round 1 of a good phase, by sender.
    fn common_slots(&self, random: &mut Random) -> Vec<Option<Vec<u8>>> {
        (0..usize::from(self.setup.crew.n)).map(|from| self.choose(random, from, 0, true)).collect()
    }

    /// What comes from one number to another. Circle nodes are always heard where asked. Residue is one way to be lost.
    fn choose(&self, random: &mut Random, from: usize, to: usize, in_circle: bool) -> Option<Vec<u8>> {
        if !self.may_count(from) && random.chance(3, 4) {
            return self.out_of_turn(random, to);
        }
        if !self.setup.is_honest[from] {
            return self.lie(random, to);
        }
        let bytes = self.written[from].as_ref()?;
        let is_heard = in_circle && self.weather.circle.contains(&from);
        if !is_heard && (self.weather.is_lost(random, self.round, from, to) || self.is_censored(bytes, to)) {
            return random.chance(1, 4).then(|| messages::with_residue_in_slot(random, bytes.clone()));
        }
        Some(bytes.clone())
    }

    fn may_count(&self, from: usize) -> bool {
        turns::may_count(self.setup.crew, self.phase, self.round, from)
    }

    /// What stands in round 2 in the slot of a node whose turn it is not, honest or not. It does not count, so that it
    /// may be anything: what somebody wrote, or what would lead astray if it did count.
    fn out_of_turn(&self, random: &mut Random, to: usize) -> Option<Vec<u8>> {
        match random.below(3) {
            0 => self.lie(random, to),
            1 => self.written.iter().flatten().next().cloned(),
            _ => Some(self.push(random, self.weather.favourite[0]).layout()),
        }
    }

    /// Losses may depend on what was written: the Byzantine nodes may rule the network too.
    fn is_censored(&self, bytes: &[u8], to: usize) -> bool {
        let plan = message::read(bytes).map_or(0, |read| read.plan());
        self.round == 1 && self.weather.is_censored(plan, to)
    }

    fn lie(&self, random: &mut Random, to: usize) -> Option<Vec<u8>> {
        let plan = self.weather.favourite[usize::from(self.weather.camp[to])];
        match self.weather.behaviour {
            Behaviour::Silent => None,
            Behaviour::Random => Some(self.fields(random).layout()),
            Behaviour::Please => Some(self.push(random, plan).layout()),
            Behaviour::Push => Some(self.push(random, self.weather.favourite[0]).layout()),
            Behaviour::Echo => {
                let written: Vec<&Vec<u8>> = self.written.iter().flatten().collect();
                if written.is_empty() {
                    return None;
                }
                Some(random.pick(&written).clone())
            }
            Behaviour::Rubbish => Some(messages::any(random)),
        }
    }

    fn fields(&self, random: &mut Random) -> Fields {
        messages::within(random, u16::from(self.round), self.setup.run, self.phase, &self.setup.pool)
    }

    /// The plan, mostly with the newest stamp there can be, and listed at every phase.
    fn push(&self, random: &mut Random, plan: Plan) -> Fields {
        let mut fields = self.fields(random);
        let newest = if self.round == 1 { self.phase - 1 } else { self.phase };
        fields.plan = plan;
        fields.stamp = random.pick(&[newest, newest, fields.stamp]);
        if self.round == 1 {
            fields.entries = (0..self.phase).map(|phase| (phase, plan)).collect();
            fields.k = self.phase;
        }
        fields
    }

    /// Fills a slot; without a message it holds something that does not count.
    fn put_or_absent(&self, random: &mut Random, from: usize, slot: &mut [u8], bytes: Option<&[u8]>) {
        match bytes {
            Some(bytes) => inboxes::fill(slot, bytes),
            None => self.absent(random, from, slot),
        }
    }

    fn absent(&self, random: &mut Random, from: usize, slot: &mut [u8]) {
        let bytes = match random.below(5) {
            0 | 1 => Vec::new(),
            2 if !self.old.is_empty() => {
                let place = random.below(self.old.len());
                inboxes::sometimes_with_residue(random, self.old[place].clone())
            }
            // One more that says what Byzantine nodes say, but does not count.
            3 => {
                let fields = self.push(random, self.weather.favourite[0]);
                inboxes::not_counting(random, fields)
            }
            _ => messages::any(random),
        };
        inboxes::fill(slot, &bytes);
        if self.is_counting(from, slot) {
            slot.fill(0);
        }
    }

    fn is_counting(&self, from: usize, slot: &[u8]) -> bool {
        let is_coming =
            |read: message::Message| (read.run, read.kind(), read.phase) == (self.setup.run, self.round, self.phase);
        self.may_count(from) && message::read(slot).is_ok_and(is_coming)
    }

    /// In a good phase the counting messages are the same, in whatever slots: Byzantine nodes' messages change places.
    fn permute_byzantine(&self, random: &mut Random, inbox: &mut [u8]) {
        let byzantine: Vec<usize> =
            (0..usize::from(self.setup.crew.n)).filter(|&own| !self.setup.is_honest[own]).collect();
        if byzantine.len() < 2 || random.chance(1, 2) {
            return;
        }
        let (one, other) = (random.pick(&byzantine), random.pick(&byzantine));
        let kept = inbox[SLOT * one..SLOT * (one + 1)].to_vec();
        inbox.copy_within(SLOT * other..SLOT * (other + 1), SLOT * one);
        inbox[SLOT * other..SLOT * (other + 1)].copy_from_slice(&kept);
    }
}

/// A crew for a run: any of the class, those with b > 0 and f > 0 most often.
pub fn crew(random: &mut Random, class: u8) -> Crew {
    if random.chance(3, 4) {
        crews::accepted_with_byzantine(random, class)
    } else {
        crews::accepted_of_class(random, class)
    }
}
